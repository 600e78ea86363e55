//! Whether a chain binds a role, with networks that own their memory, and their links.

use crate::{binds, network_len, read, Refusal, BINDS_MAX};

/// Whether a chain binds a role.
#[derive(Debug, Clone, PartialEq, Eq, Hash)]
pub enum Binding {
    /// The role links the chain's ends in every finite network that obeys the book and holds the
    /// chain.
    Binds,
    /// It does not in this one.
    Network(Network),
}

impl Binding {
    /// Whether the chain binds the role: causes 1 to 8 and 13 to 15.
    ///
    /// The book may have any number of states.
    ///
    /// ```
    /// use rabbitsteel::{inverse, role, Binding, Link};
    ///
    /// // One rule: what is reached by serving, back and serving again is covered.
    /// const SERVES: u8 = role(0);
    /// const COVERS: u8 = role(1);
    /// let left = [SERVES, inverse(SERVES), SERVES];
    /// let book = [&[b'R', b'L', b'B', 1, 0, 2, 1, 0, COVERS, 3][..], &left].concat();
    /// assert_eq!(Binding::of(&book, COVERS, &[SERVES])?, Binding::Binds);
    ///
    /// let binding = Binding::of(&book, COVERS, &[SERVES, SERVES])?;
    /// let network = binding.network().expect("it does not bind");
    /// let covers: Vec<Link> = network.iter().filter(|link| link.name == 1).collect();
    /// assert_eq!(covers, [Link { name: 1, from: 0, to: 1 }, Link { name: 1, from: 1, to: 2 }]);
    /// # Ok::<(), rabbitsteel::Refusal>(())
    /// ```
    pub fn of(book: &[u8], role: u8, chain: &[u8]) -> Result<Binding, Refusal> {
        let names = read(book)?.names;
        let mut bytes = vec![0; network_len(names, chain.len().min(BINDS_MAX))];
        Ok(match binds(book, role, chain, &mut bytes)? {
            true => Binding::Binds,
            false => Binding::Network(Network {
                places: chain.len() + 1,
                bytes: bytes.into_boxed_slice(),
            }),
        })
    }

    /// Whether it binds.
    pub fn binds(&self) -> bool {
        matches!(self, Binding::Binds)
    }

    /// The network in which the role does not link the chain's ends, where there is one.
    pub fn network(&self) -> Option<&Network> {
        match self {
            Binding::Binds => None,
            Binding::Network(network) => Some(network),
        }
    }
}

/// A network that obeys the book: the chain runs from place 0 to the last, and the asked role does
/// not link these two. Its links are those that the rules force on the chain alone, so every
/// network that obeys the book and holds the chain has them.
#[derive(Debug, Clone, PartialEq, Eq, Hash)]
pub struct Network {
    places: usize,
    bytes: Box<[u8]>,
}

/// A name that links one place to another, or to itself.
#[derive(Debug, Clone, Copy, PartialEq, Eq, Hash)]
pub struct Link {
    /// The number of the name, 0 to 63.
    pub name: u8,
    /// The place that it leads from.
    pub from: usize,
    /// The place that it leads to.
    pub to: usize,
}

impl Network {
    /// How many places it has: one more than the chain has links.
    pub fn places(&self) -> usize {
        self.places
    }

    /// Whether the name links the one place to the other. A name or a place that there is not is
    /// linked to nothing.
    pub fn links(&self, name: u8, from: usize, to: usize) -> bool {
        let row = usize::from(name) * self.places + from;
        let within = from < self.places && to < self.places;
        within && self.bytes.get(row * self.places + to) == Some(&1)
    }

    /// All links, by name, then by the place from and by the place to.
    pub fn iter(&self) -> impl Iterator<Item = Link> + '_ {
        let pairs = self.places * self.places;
        let present = self
            .bytes
            .iter()
            .enumerate()
            .filter(|(_, byte)| **byte == 1);
        present.map(move |(place, _)| Link {
            name: (place / pairs) as u8,
            from: place % pairs / self.places,
            to: place % self.places,
        })
    }

    /// The bytes as they were written, 1 for a link and 0 for none: one for each name, place from
    /// and place to, in this order.
    pub fn bytes(&self) -> &[u8] {
        &self.bytes
    }
}
