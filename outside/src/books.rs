//! Books by hand and from a seed: a book's bytes from its rules, and drafts of books that have an order, that lack
//! one, or that have a given number of states.
#![forbid(unsafe_code)]

use crate::random::Random;
use std::collections::HashSet;

/// The hall book of document 01: names 0 part, 1 sits, 2 let, 3 due.
pub const HALL: &[u8] = b"RLB\x01\x00\x04\x03\x00\x00\x02\x00\x00\x02\x02\x00\x02\x06\x02\x02\x04";

pub const MOST_RULES: usize = 256;
pub const MOST_STATES: u64 = 2048;

/// A rule as it is written into a book: the right role and the left roles.
pub type Axiom = (u8, Vec<u8>);

/// The bytes of a book. Nothing is checked, so that wrong books can be written too.
pub fn encode(names: u8, rules: &[(u8, impl AsRef<[u8]>)]) -> Vec<u8> {
    let mut bytes = b"RLB\x01\x00".to_vec();
    bytes.push(names);
    bytes.extend((rules.len() as u16).to_le_bytes());
    for (right, left) in rules {
        let left = left.as_ref();
        bytes.extend([*right, left.len() as u8]);
        bytes.extend(left);
    }
    bytes
}

/// The inverse of a rule.
pub fn inverse((right, left): &Axiom) -> Axiom {
    (right ^ 1, left.iter().rev().map(|role| role ^ 1).collect())
}

/// A book in which each name but the first has one rule, with the name before it on the left: the level of a name is
/// its number plus 1. Up to 44 names it is within the limits.
pub fn ladder(names: u8) -> Vec<u8> {
    let rules: Vec<_> = (1..names).map(|name| (2 * name, [2 * name - 2])).collect();
    encode(names, &rules)
}

/// A book of 64 names in a ladder, each with one rule of one link, and the rules last first: in their order each round over
/// them adds one name. From name to name the number rises, or falls, and the links may turn at each.
pub fn late_ladder(falling: bool, turning: bool) -> Vec<u8> {
    let role = |rung: u8| 2 * if falling { 63 - rung } else { rung };
    let rules: Vec<_> = (1..64)
        .rev()
        .map(|rung| (role(rung), [role(rung - 1) ^ u8::from(turning)]))
        .collect();
    encode(64, &rules)
}

/// A book with long ways of one-link rules: 64 names, each but the first above the one before it, all symmetric, and the
/// last transitive. From the last name each link takes 63 steps down to the first, and one more to its inverse.
pub fn long_ways() -> Vec<u8> {
    let mut rules: Vec<Axiom> = (1..64).map(|name| (2 * name, vec![2 * name - 2])).collect();
    rules.extend((0..64).map(|name| (2 * name, vec![2 * name + 1])));
    rules.push((126, vec![126, 126]));
    encode(64, &rules)
}

/// What a drawn book looks like.
#[derive(Clone, Debug)]
pub struct Style {
    pub names: usize,
    pub rules: usize,
    /// The most inner roles in a rule.
    pub inner: usize,
    /// The forms of document 01 to draw from, 1 to 5.
    pub forms: Vec<u8>,
    /// Of a hundred roles, how many are inverses.
    pub inverses: usize,
    /// Inner roles come from this many names just below the right one; 0 for all names below it.
    pub near: usize,
    /// Inner roles come from this many names at the bottom of the order; 0 for all.
    pub leaves: usize,
    /// Rules that would lead over this many states are left out.
    pub states: u64,
}

impl Style {
    /// One of several kinds of books, with its numbers drawn.
    pub fn draw(random: &mut Random) -> Style {
        let all = vec![1, 1, 2, 3, 4, 5];
        let forms = match random.below(5) {
            0 => vec![random.between(1, 5) as u8, random.between(1, 3) as u8],
            1 => vec![2, 3, 5],
            _ => all.clone(),
        };
        let base = Style {
            names: random.between(1, 5),
            rules: random.between(0, 10),
            inner: random.between(1, 8),
            forms,
            inverses: random.pick(&[0, 20, 50]),
            near: 0,
            leaves: 0,
            states: MOST_STATES,
        };
        match random.below(8) {
            0..=2 => base,
            3 => Style {
                names: random.between(2, 16),
                rules: random.between(0, 60),
                ..base
            },
            4 => Style {
                names: random.between(20, 64),
                rules: random.between(40, MOST_RULES),
                inner: random.between(1, 4),
                leaves: random.pick(&[0, 6, 12]),
                ..base
            },
            5 => Style {
                names: random.between(6, 64),
                rules: MOST_RULES,
                inner: random.between(2, 4),
                forms: all,
                leaves: random.between(3, 6),
                ..base
            },
            6 => Style {
                names: random.between(5, 64),
                rules: random.between(10, 120),
                inner: random.between(1, 2),
                near: random.between(1, 3),
                ..base
            },
            _ => Style {
                names: random.between(3, 12),
                rules: random.between(20, 100),
                inner: 1,
                forms: vec![1, 2, 3, 4, 4, 4, 5, 5, 5],
                ..base
            },
        }
    }
}

impl Style {
    /// A book of so few names that its networks of few places can be gone through one by one.
    pub fn small(random: &mut Random, names: usize) -> Style {
        Style {
            names,
            rules: random.between(0, 6),
            inner: random.between(1, 4),
            forms: vec![1, 1, 1, 2, 3, 4, 5],
            inverses: random.pick(&[20, 50]),
            near: 0,
            leaves: 0,
            states: MOST_STATES,
        }
    }
}

/// A book that is being made. Its names stand in a row, lowest first; an inner role stands before its rule's right role.
pub struct Draft {
    pub names: usize,
    pub rules: Vec<Axiom>,
    row: Vec<u8>,
    /// All rules and their inverses.
    taken: HashSet<Axiom>,
}

impl Draft {
    pub fn new(random: &mut Random, names: usize) -> Draft {
        let mut row: Vec<u8> = (0..names as u8).collect();
        for place in 1..names {
            row.swap(place, random.below(place + 1));
        }
        Draft {
            names,
            rules: Vec::new(),
            row,
            taken: HashSet::new(),
        }
    }

    /// A book that has an order and is within the limits.
    pub fn draw(random: &mut Random, style: &Style) -> Draft {
        let mut draft = Draft::new(random, style.names);
        for _ in 0..3 * style.rules {
            if draft.rules.len() == style.rules {
                break;
            }
            let rule = draft.rule(random, style);
            if draft.add(rule) && draft.states() > style.states {
                draft.drop_last();
            }
        }
        draft
    }

    pub fn bytes(&self) -> Vec<u8> {
        encode(self.names as u8, &self.rules)
    }

    /// Adds a rule, unless it repeats one.
    pub fn add(&mut self, rule: Axiom) -> bool {
        if self.taken.contains(&rule) {
            return false;
        }
        self.taken.insert(inverse(&rule));
        self.taken.insert(rule.clone());
        self.rules.push(rule);
        true
    }

    fn drop_last(&mut self) {
        if let Some(rule) = self.rules.pop() {
            self.taken.remove(&rule);
            self.taken.remove(&inverse(&rule));
        }
    }

    /// A rule that fits the order.
    fn rule(&self, random: &mut Random, style: &Style) -> Axiom {
        let place = random.below(self.names);
        let right = role(self.row[place], style.inverses, random);
        let mut form = random.pick(&style.forms);
        if place == 0 && form <= 3 {
            form = random.pick(&[4, 5]);
        }
        let most = if form == 1 { 8 } else { 7 };
        let count = random.between(1, style.inner.min(most));
        let mut inner: Vec<u8> = (0..count)
            .filter(|_| form <= 3)
            .map(|_| {
                let from = if style.leaves > 0 {
                    random.below(style.leaves.min(place))
                } else if style.near > 0 {
                    place - random.between(1, style.near.min(place))
                } else {
                    random.below(place)
                };
                role(self.row[from], style.inverses, random)
            })
            .collect();
        match form {
            1 => {}
            2 => inner.insert(0, right),
            3 => inner.push(right),
            4 => inner = vec![right, right],
            _ => inner = vec![right ^ 1],
        }
        (right, inner)
    }

    /// The state count by document 01's formula, for a draft that has an order. The inner roles of a rule are then the
    /// left roles with another name than the right one.
    pub fn states(&self) -> u64 {
        let mut times = vec![1u64; self.names];
        let mut rules = vec![Vec::new(); self.names];
        for (right, left) in &self.rules {
            let name = usize::from(right >> 1);
            if left[..] == [right ^ 1] {
                times[name] = 2;
            }
            rules[name].push(left);
        }
        let mut sizes = vec![0u64; self.names];
        for &name in &self.row {
            let inner: u64 = rules[usize::from(name)]
                .iter()
                .flat_map(|left| left.iter())
                .filter(|role| **role >> 1 != name)
                .map(|role| sizes[usize::from(role >> 1)])
                .fold(0, u64::saturating_add);
            let name = usize::from(name);
            sizes[name] = inner.saturating_mul(times[name]).saturating_add(2);
        }
        sizes.iter().copied().fold(0, u64::saturating_add)
    }

    /// Adds rules for the highest name, with the lowest one as inner role, until the draft has this many states; false
    /// where that fails. The lowest name always has two states.
    pub fn fill(&mut self, random: &mut Random, states: u64) -> bool {
        let (lowest, highest) = (self.row[0], self.row[self.names - 1]);
        let symmetric = |right: u8| self.taken.contains(&(right, vec![right ^ 1]));
        let step = if symmetric(2 * highest) { 4 } else { 2 };
        for _ in 0..4 * MOST_RULES {
            let missing = states.saturating_sub(self.states());
            if missing == 0 || self.rules.len() == MOST_RULES {
                break;
            }
            let right = role(highest, 50, random);
            let form = random.between(1, 3);
            let most = if form == 1 { 8 } else { 7 };
            let count = (missing / step).min(most) as usize;
            let mut left: Vec<u8> = (0..count).map(|_| role(lowest, 50, random)).collect();
            match form {
                _ if count == 0 || lowest == highest => return false,
                1 => {}
                2 => left.insert(0, right),
                _ => left.push(right),
            }
            self.add((right, left));
        }
        self.states() == states
    }

    /// Adds rules for the highest name up to 256, with so many inner roles of lower names in all, as evenly as can be.
    fn spread(&mut self, random: &mut Random, inner: usize) {
        let rules = MOST_RULES - self.rules.len();
        for number in 0..rules {
            let count = inner / rules + usize::from(number < inner % rules);
            loop {
                let right = role(self.row[self.names - 1], 50, random);
                let mut left: Vec<u8> = (0..count)
                    .map(|_| role(self.row[random.below(self.names - 1)], 50, random))
                    .collect();
                match random.below(3) {
                    0 => left.insert(0, right),
                    1 => left.push(right),
                    _ => {}
                }
                if self.add((right, left)) {
                    break;
                }
            }
        }
    }

    /// Puts in a rule that leaves the draft without an order, at any place among the rules.
    pub fn break_order(&mut self, random: &mut Random) {
        let rule = match self.cycle(random) {
            Some(rule) if random.percent(70) => rule,
            _ => self.formless(random),
        };
        if self.add(rule) {
            let last = self.rules.pop().expect("a rule was added");
            let place = random.between(0, self.rules.len());
            self.rules.insert(place, last);
        }
    }

    /// A rule of no form.
    fn formless(&self, random: &mut Random) -> Axiom {
        let right = role(random_name(self.names, random), 50, random);
        let mut left: Vec<u8> = (0..random.between(0, 4))
            .map(|_| role(random_name(self.names, random), 50, random))
            .collect();
        let at = random.between(0, left.len());
        match random.below(5) {
            0 => left = vec![right],
            1 => left.insert(at, right ^ 1),
            2 => {
                left.insert(at, right);
                left.insert(0, right);
            }
            3 => {
                left.insert(at, right);
                left.push(right ^ 1);
            }
            _ => left = vec![right; random.between(3, 8)],
        }
        // inv(R) alone has a form.
        if left[..] == [right ^ 1] {
            left.push(right ^ 1);
        }
        (right, left)
    }

    /// A rule with a right name that others of its rules put below one of its inner names.
    fn cycle(&self, random: &mut Random) -> Option<Axiom> {
        let start = random.below(self.rules.len().max(1));
        let (right, left) = self.rules.get(start)?;
        let inner_of = |right: u8, left: &[u8]| -> Vec<u8> {
            let other = |role: &&u8| **role >> 1 != right >> 1;
            left.iter().filter(other).copied().collect()
        };
        let mut low = random.pick(&non_empty(inner_of(*right, left))?);
        while random.percent(60) {
            let below: Vec<u8> = self
                .rules
                .iter()
                .filter(|rule| rule.0 >> 1 == low >> 1)
                .flat_map(|rule| inner_of(rule.0, &rule.1))
                .collect();
            let Some(below) = non_empty(below) else { break };
            low = random.pick(&below);
        }
        let low = role(low >> 1, 50, random);
        let mut rule = vec![role(right >> 1, 50, random); random.between(1, 2)];
        if random.percent(50) {
            rule.insert(random.between(0, 1), low);
        }
        Some((low, rule))
    }
}

fn non_empty(roles: Vec<u8>) -> Option<Vec<u8>> {
    (!roles.is_empty()).then_some(roles)
}

/// A role of this name, an inverse in so many of a hundred cases.
fn role(name: u8, inverses: usize, random: &mut Random) -> u8 {
    2 * name + u8::from(random.percent(inverses))
}

fn random_name(names: usize, random: &mut Random) -> u8 {
    random.below(names) as u8
}

/// A well-formed book of random rules, most often without an order, sometimes with a repeated rule.
pub fn careless(random: &mut Random) -> (usize, Vec<Axiom>) {
    let names = random.between(1, 7);
    let longest = random.between(1, 3);
    let any = |random: &mut Random| random.below(2 * names) as u8;
    let rules = (0..random.between(1, 9))
        .map(|_| {
            let right = any(random);
            let left = (0..random.between(1, longest))
                .map(|_| any(random))
                .collect();
            (right, left)
        })
        .collect();
    (names, rules)
}

/// A well-formed book of up to 256 random rules, some of them equal to an earlier rule or to its inverse.
pub fn repeating(random: &mut Random) -> (usize, Vec<Axiom>) {
    let names = random.pick(&[1, 2, 7, 30, 64]);
    let longest = random.between(2, 8);
    let repeated = random.pick(&[0, 1, 5]);
    let any = |random: &mut Random| random.below(2 * names) as u8;
    let mut rules: Vec<Axiom> = Vec::new();
    for _ in 0..random.between(0, MOST_RULES) {
        let rule = if !rules.is_empty() && random.percent(repeated) {
            let earlier = &rules[random.below(rules.len())];
            match random.below(2) {
                0 => earlier.clone(),
                _ => inverse(earlier),
            }
        } else {
            let left = (0..random.between(1, longest))
                .map(|_| any(random))
                .collect();
            (any(random), left)
        };
        rules.push(rule);
    }
    (names, rules)
}

/// A book of 256 rules and 2,048 states: six names, some of the five lower ones transitive or symmetric, and the
/// highest with all other rules.
pub fn fullest(random: &mut Random) -> Vec<u8> {
    const NAMES: usize = 6;
    let mut draft = Draft::new(random, NAMES);
    for place in 0..NAMES - 1 {
        let right = 2 * draft.row[place];
        if random.percent(70) {
            draft.add((right, vec![right, right]));
        }
        if random.percent(70) {
            draft.add((right, vec![right ^ 1]));
        }
    }
    draft.spread(random, MOST_STATES as usize / 2 - NAMES);
    draft.bytes()
}

/// A book of 256 rules of eight roles, in 2,568 bytes. It has an order, but too many states.
pub fn longest(random: &mut Random) -> Vec<u8> {
    let mut draft = Draft::new(random, 12);
    while draft.rules.len() < MOST_RULES {
        let place = random.between(1, 11);
        let right = role(draft.row[place], 50, random);
        let mut left: Vec<u8> = (0..8)
            .map(|_| role(draft.row[random.below(place)], 50, random))
            .collect();
        match random.below(3) {
            0 => left[0] = right,
            1 => left[7] = right,
            _ => {}
        }
        draft.add((right, left));
    }
    draft.bytes()
}
