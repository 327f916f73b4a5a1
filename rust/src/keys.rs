use crate::{numbers, TextFault};
use std::fmt;

/// What a receiver keeps to itself: its modulus and its bases, one for each column.
///
/// `Debug` shows neither.
///
/// ```
/// use spoutbasket::Keys;
///
/// # fn main() -> Result<(), spoutbasket::TextFault> {
/// let keys = Keys::from_text(b"1000\n3 5\n")?;
/// assert_eq!((keys.modulus, &keys.bases[..]), (1_000, &[3, 5][..]));
/// assert_eq!(format!("{keys:?}"), "Keys { .. }");
/// # Ok(())
/// # }
/// ```
#[derive(Clone, PartialEq, Eq)]
pub struct Keys {
    /// The modulus.
    pub modulus: u32,
    /// The bases, each below the modulus.
    pub bases: Vec<u32>,
}

impl Keys {
    /// The keys in a text of numbers: first the modulus, then the bases. Whether they fit a chain is for its run to say; a text without numbers has
    /// modulus 0, which every run refuses.
    ///
    /// # Errors
    ///
    /// The place and kind of a byte that does not belong, of a number too large, or of a cut.
    pub fn from_text(text: &[u8]) -> Result<Keys, TextFault> {
        let numbers = numbers(text)?;
        let (&modulus, bases) = numbers.split_first().unwrap_or((&0, &[]));
        let bases = bases.to_vec();
        Ok(Keys { modulus, bases })
    }
}

/// Shows no number.
impl fmt::Debug for Keys {
    fn fmt(&self, f: &mut fmt::Formatter) -> fmt::Result {
        f.debug_struct("Keys").finish_non_exhaustive()
    }
}
