//! The answerer: causes 12 to 14, and whether some path from head to head + 1 spells the chain.

use super::book::MAX_NAMES;
use super::refusal::{Cause, Refusal};
use super::tables::{EPSILON, MAX_STATES, MAX_TRANSITIONS};

pub const MAX_LINKS: usize = 1024;

/// Puts a question to lent tables: yes or no, or the refusal (causes 12 to 14).
pub fn ask(heads: &[u16], moves: &[u16], role: u8, chain: &[u8]) -> Result<bool, Refusal> {
    // Small tables are indexed in small arrays, which take less time to clear.
    const FEW_STATES: usize = 64;
    const FEW_TRANSITIONS: usize = 192;
    let (transitions, states) = check_tables(heads, moves)?;
    check_chain(heads.len(), role, chain)?;
    let head = heads[usize::from(role >> 1)];
    let answer = if states <= FEW_STATES && transitions.len() <= FEW_TRANSITIONS {
        let index = Index::<FEW_STATES, FEW_TRANSITIONS>::new(transitions);
        Active::new().answer(&index, transitions, head, role, chain)
    } else {
        let index = Index::<MAX_STATES, MAX_TRANSITIONS>::new(transitions);
        Active::new().answer(&index, transitions, head, role, chain)
    };
    Ok(answer)
}

/// Tables that are checked and indexed once, for many questions.
pub struct Indexed<'a> {
    heads: &'a [u16],
    transitions: &'a [[u16; 3]],
    index: Box<Index<MAX_STATES, MAX_TRANSITIONS>>,
    active: Box<Active<MAX_STATES>>,
}

impl<'a> Indexed<'a> {
    /// Indexes lent tables, or refuses them by cause 12.
    pub fn new(heads: &'a [u16], moves: &'a [u16]) -> Result<Indexed<'a>, Refusal> {
        let (transitions, _) = check_tables(heads, moves)?;
        Ok(Indexed {
            heads,
            transitions,
            index: Box::new(Index::new(transitions)),
            active: Box::new(Active::new()),
        })
    }

    /// Answers as [`ask`] does.
    pub fn ask(&mut self, role: u8, chain: &[u8]) -> Result<bool, Refusal> {
        check_chain(self.heads.len(), role, chain)?;
        let head = self.heads[usize::from(role >> 1)];
        Ok(self
            .active
            .answer(&self.index, self.transitions, head, role, chain))
    }
}

/// Cause 12. Returns the moves as transitions, and a number of states that is over each state and over head + 1.
pub(super) fn check_tables<'a>(
    heads: &[u16],
    moves: &'a [u16],
) -> Result<(&'a [[u16; 3]], usize), Refusal> {
    let (transitions, rest) = moves.as_chunks();
    let shape = !heads.is_empty()
        && heads.len() <= MAX_NAMES
        && rest.is_empty()
        && transitions.len() <= MAX_TRANSITIONS;
    if !shape {
        return Err(Cause::Tables.into());
    }
    let last_head = heads.iter().fold(0, |last, &head| head.max(last));
    let (mut last_state, mut last_label) = (0, 0);
    for &[from, label, to] in transitions {
        last_state = last_state.max(from).max(to);
        last_label = last_label.max(label);
    }
    let states = usize::from(last_state).max(usize::from(last_head) + 1) + 1;
    if states > MAX_STATES || last_label > EPSILON {
        return Err(Cause::Tables.into());
    }
    Ok((transitions, states))
}

/// Causes 13 and 14, for so many names.
pub fn check_chain(names: usize, role: u8, chain: &[u8]) -> Result<(), Refusal> {
    if chain.is_empty() || chain.len() > MAX_LINKS {
        return Err(Cause::ChainLength.into());
    }
    let unknown = |role: u8| usize::from(role) >= 2 * names;
    if unknown(role) || chain.iter().any(|&link| unknown(link)) {
        return Err(Cause::QueryRole.into());
    }
    Ok(())
}

/// The transitions by the state that they leave, as linked lists: for each state one of letters and one of epsilons,
/// side by side so that no branch depends on the label. An entry is the number of a transition plus 1; 0 ends a list.
pub(super) struct Index<const STATES: usize, const TRANSITIONS: usize> {
    pub(super) first: [[u16; 2]; STATES],
    pub(super) next: [u16; TRANSITIONS],
}

pub(super) const LETTERS: usize = 0;
pub(super) const EPSILONS: usize = 1;

impl<const STATES: usize, const TRANSITIONS: usize> Index<STATES, TRANSITIONS> {
    pub(super) fn new(transitions: &[[u16; 3]]) -> Self {
        let mut index = Index {
            first: [[0; 2]; STATES],
            next: [0; TRANSITIONS],
        };
        for (number, &[from, label, _]) in transitions.iter().enumerate() {
            let first = &mut index.first[usize::from(from)][usize::from(label == EPSILON)];
            index.next[number] = *first;
            *first = number as u16 + 1;
        }
        index
    }
}

/// The states that some path reaches on the links read so far, without repetition. A state belongs to the newest set
/// exactly when its mark is the newest stamp, so that a set is emptied by a new stamp.
struct Active<const STATES: usize> {
    marks: [u16; STATES],
    stamp: u16,
    /// The set before the link that is read, and the set after it; `newest` is the number of the latter.
    sets: [[u16; STATES]; 2],
    newest: usize,
}

impl<const STATES: usize> Active<STATES> {
    fn new() -> Self {
        Active {
            marks: [0; STATES],
            stamp: 0,
            sets: [[0; STATES]; 2],
            newest: 0,
        }
    }

    /// A question about an inverse asks the name with the inverse of the chain.
    fn answer<const TRANSITIONS: usize>(
        &mut self,
        index: &Index<STATES, TRANSITIONS>,
        transitions: &[[u16; 3]],
        head: u16,
        role: u8,
        chain: &[u8],
    ) -> bool {
        if role & 1 == 0 {
            self.accepts(index, transitions, head, chain.iter().copied())
        } else {
            let inverse = chain.iter().rev().map(|link| link ^ 1);
            self.accepts(index, transitions, head, inverse)
        }
    }

    fn accepts<const TRANSITIONS: usize>(
        &mut self,
        index: &Index<STATES, TRANSITIONS>,
        transitions: &[[u16; 3]],
        head: u16,
        chain: impl Iterator<Item = u8>,
    ) -> bool {
        if usize::from(self.stamp) + MAX_LINKS + 1 > usize::from(u16::MAX) {
            self.marks = [0; STATES];
            self.stamp = 0;
        }
        self.stamp += 1;
        self.marks[usize::from(head)] = self.stamp;
        self.sets[self.newest][0] = head;
        let mut count = self.close(index, transitions, 1);
        for link in chain {
            count = self.follow(index, transitions, count, link);
            count = self.close(index, transitions, count);
            if count == 0 {
                return false;
            }
        }
        self.marks[usize::from(head) + 1] == self.stamp
    }

    /// Starts a new set with what a link leads to from the first `count` states of the newest; returns its size.
    fn follow<const TRANSITIONS: usize>(
        &mut self,
        index: &Index<STATES, TRANSITIONS>,
        transitions: &[[u16; 3]],
        count: usize,
        link: u8,
    ) -> usize {
        self.stamp += 1;
        self.newest ^= 1;
        let [even, odd] = &mut self.sets;
        let (now, next) = match self.newest {
            0 => (odd, even),
            _ => (even, odd),
        };
        let mut reached = 0;
        for &state in &now[..count] {
            let mut entry = index.first[usize::from(state)][LETTERS];
            while entry != 0 {
                let number = usize::from(entry) - 1;
                let [_, label, to] = transitions[number];
                if label == u16::from(link) && self.marks[usize::from(to)] != self.stamp {
                    self.marks[usize::from(to)] = self.stamp;
                    next[reached] = to;
                    reached += 1;
                }
                entry = index.next[number];
            }
        }
        reached
    }

    /// Adds to the first `count` states of the newest set all that epsilons lead to; the list is its own work list.
    fn close<const TRANSITIONS: usize>(
        &mut self,
        index: &Index<STATES, TRANSITIONS>,
        transitions: &[[u16; 3]],
        mut count: usize,
    ) -> usize {
        let set = &mut self.sets[self.newest];
        let mut done = 0;
        while done < count {
            let mut entry = index.first[usize::from(set[done])][EPSILONS];
            while entry != 0 {
                let number = usize::from(entry) - 1;
                let [_, _, to] = transitions[number];
                if self.marks[usize::from(to)] != self.stamp {
                    self.marks[usize::from(to)] = self.stamp;
                    set[count] = to;
                    count += 1;
                }
                entry = index.next[number];
            }
            done += 1;
        }
        count
    }
}
