//! Networks by their sentences, slowly: what one links, obeys and holds, and what binds in all networks of so few places
//! that they can be gone through one by one.

use super::book::Book;

/// A network in bytes, 0 or 1: for each name, place from and place to, in this order.
#[derive(Clone, Copy, Debug)]
pub struct Network<'a> {
    places: usize,
    bytes: &'a [u8],
}

impl<'a> Network<'a> {
    pub fn new(places: usize, bytes: &'a [u8]) -> Network<'a> {
        Network { places, bytes }
    }

    /// Whether the role links the one place to the other. An inverse does where its name links the other to the one.
    pub fn links(&self, role: u8, from: usize, to: usize) -> bool {
        let (from, to) = if role & 1 == 0 {
            (from, to)
        } else {
            (to, from)
        };
        self.bytes[(usize::from(role >> 1) * self.places + from) * self.places + to] == 1
    }

    /// The places that the chain leads to from a place, a bit for each.
    pub fn reached(&self, chain: &[u8], from: usize) -> u32 {
        let all = 0..self.places;
        chain.iter().fold(1 << from, |set: u32, &role| {
            let linked = |to: &usize| {
                let mut before = all.clone().filter(|from| set >> from & 1 == 1);
                before.any(|from| self.links(role, from, *to))
            };
            all.clone().filter(linked).fold(0, |set, to| set | 1 << to)
        })
    }

    /// Whether the role links each place to all places that the chain leads to from it.
    pub fn binds(&self, role: u8, chain: &[u8]) -> bool {
        (0..self.places).all(|from| {
            let reached = self.reached(chain, from);
            let mut missing = (0..self.places).filter(|&to| !self.links(role, from, to));
            missing.all(|to| reached >> to & 1 == 0)
        })
    }

    /// Whether it obeys all rules.
    pub fn obeys(&self, book: &Book) -> bool {
        let mut rules = (0..book.rules()).map(|number| book.rule(number));
        rules.all(|rule| self.binds(rule.right, rule.left))
    }

    /// Whether the chain runs from place 0 to the last, through one place after another.
    pub fn holds(&self, chain: &[u8]) -> bool {
        let mut links = chain.iter().enumerate();
        chain.len() + 1 == self.places
            && links.all(|(place, role)| self.links(*role, place, place + 1))
    }
}

/// All networks of so many places that obey a book, as numbers with a bit for each byte, the lowest for the first.
pub struct Obeying {
    places: usize,
    length: usize,
    numbers: Vec<u32>,
}

/// The bytes of a network that a number stands for.
fn bytes(number: u32, length: usize) -> [u8; 32] {
    let mut bytes = [0; 32];
    for (bit, byte) in bytes[..length].iter_mut().enumerate() {
        *byte = (number >> bit & 1) as u8;
    }
    bytes
}

impl Obeying {
    /// Goes through all networks; the book has few names.
    pub fn new(book: &Book, places: usize) -> Obeying {
        let length = book.names() * places * places;
        assert!(length <= 20, "there are too many networks");
        let obeys =
            |number: &u32| Network::new(places, &bytes(*number, length)[..length]).obeys(book);
        Obeying {
            places,
            length,
            numbers: (0..1 << length).filter(obeys).collect(),
        }
    }

    /// Whether the role links the ends of the chain in all of them, wherever the chain runs.
    pub fn binds(&self, role: u8, chain: &[u8]) -> bool {
        self.numbers.iter().all(|&number| {
            Network::new(self.places, &bytes(number, self.length)).binds(role, chain)
        })
    }

    /// The links that all those have in common that hold the chain, of a link less than places.
    pub fn common(&self, chain: &[u8]) -> Vec<u8> {
        let holding = self
            .numbers
            .iter()
            .filter(|&&number| Network::new(self.places, &bytes(number, self.length)).holds(chain));
        let common = holding.fold(u32::MAX, |common, number| common & number);
        bytes(common, self.length)[..self.length].to_vec()
    }
}
