//! Written derivations that own their memory, and their steps.

use crate::{write_derivation, Refusal, STEPS_LEN};

/// How many bytes a step has.
const STEP: usize = 4;

/// A replacement of one link by the left side of a rule, or of its inverse.
#[derive(Debug, Clone, Copy, PartialEq, Eq, Hash)]
pub struct Step {
    /// Which link of the present chain is replaced, counted from 0.
    pub place: usize,
    /// The number of the rule.
    pub rule: usize,
    /// Whether the rule's inverse is used: the link is the inverse of its right role, and is
    /// replaced by the inverse of its left side.
    pub inverse: bool,
}

/// A derivation as it was written: steps that lead from the asked role to the chain.
#[derive(Debug, Clone, PartialEq, Eq, Hash)]
pub struct Derivation {
    bytes: Box<[u8]>,
}

impl Derivation {
    /// A derivation of the chain from the role, or none where the chain is not derived: causes 1 to
    /// 8 and 13 to 15.
    ///
    /// The book may have any number of states. Which of the chain's derivations it is is left open.
    ///
    /// ```
    /// use rabbitsteel::{check_derivation, role, Derivation, Step};
    ///
    /// // One rule, from name 1 twice to name 0.
    /// let book = [b'R', b'L', b'B', 1, 0, 2, 1, 0, role(0), 2, role(1), role(1)];
    /// let chain = [role(1), role(1)];
    /// let derivation = Derivation::of(&book, role(0), &chain)?.expect("it is derived");
    /// let steps: Vec<Step> = derivation.steps().collect();
    /// assert_eq!(steps, [Step { place: 0, rule: 0, inverse: false }]);
    /// assert!(check_derivation(&book, role(0), &chain, derivation.bytes())?);
    /// assert_eq!(Derivation::of(&book, role(1), &chain)?, None);
    /// # Ok::<(), rabbitsteel::Refusal>(())
    /// ```
    pub fn of(book: &[u8], role: u8, chain: &[u8]) -> Result<Option<Derivation>, Refusal> {
        let mut bytes = vec![0; STEPS_LEN];
        let Some(steps) = write_derivation(book, role, chain, &mut bytes)? else {
            return Ok(None);
        };
        bytes.truncate(STEP * steps);
        Ok(Some(Derivation {
            bytes: bytes.into_boxed_slice(),
        }))
    }

    /// The steps, the first on the asked role alone.
    pub fn steps(&self) -> impl ExactSizeIterator<Item = Step> + '_ {
        self.bytes.chunks_exact(STEP).map(|step| Step {
            place: usize::from(u16::from_le_bytes([step[0], step[1]])),
            rule: usize::from(step[2]),
            inverse: step[3] == 1,
        })
    }

    /// The steps as they were written, four bytes each: place, low byte first, rule, and 1 for the
    /// inverse.
    pub fn bytes(&self) -> &[u8] {
        &self.bytes
    }
}
