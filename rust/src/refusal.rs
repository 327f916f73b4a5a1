use crate::Reason;
use std::{fmt, io};

/// Input turned down, by reason and place.
///
/// A place is a step (for 9, 10, 11 and 13), a payslip (for 12 and 14) or a packed field (for 18, 19 and 20), counted from 1, of a pool through both
/// parts, and 0 where there is none. `Debug` says what `Display` says, so that a `main` that returns a refusal prints it in words.
///
/// ```
/// use spoutbasket::{Chain, Reason, Refusal};
///
/// let chain = Chain { columns: 1, steps: vec![[1, 1], [4, 1]], outputs: vec![3] };
/// let refusal = chain.to_file().unwrap_err();
/// assert_eq!(refusal, Refusal { reason: Reason::OperandHigh, place: 2 });
/// assert_eq!(refusal.number(), 10);
/// assert_eq!(refusal.to_string(), "refused 10 at step 2: operand not below its own value");
/// ```
#[derive(Clone, Copy, PartialEq, Eq, Hash, PartialOrd, Ord)]
pub struct Refusal {
    /// Why.
    pub reason: Reason,
    /// The first step, payslip or packed field that is refused, from 1; 0 where the reason has no place.
    pub place: usize,
}

impl Refusal {
    /// The reason's number.
    #[must_use]
    pub fn number(&self) -> u32 {
        self.reason.number()
    }

    /// The library's words for the reason.
    #[must_use]
    pub fn phrase(&self) -> &'static str {
        self.reason.phrase()
    }

    /// What the place counts, `step`, `payslip` or `field`; nothing where the refusal has no place.
    #[must_use]
    pub fn place_name(&self) -> Option<&'static str> {
        match self.reason {
            _ if self.place == 0 => None,
            Reason::OperandZero | Reason::OperandHigh | Reason::OperandOrder | Reason::Exponent => {
                Some("step")
            }
            Reason::Output | Reason::Payslip => Some("payslip"),
            Reason::PackedField | Reason::PackedMinus | Reason::PackedAmount => Some("field"),
            _ => Some("place"),
        }
    }
}

/// A refusal without a place.
impl From<Reason> for Refusal {
    fn from(reason: Reason) -> Refusal {
        Refusal { reason, place: 0 }
    }
}

impl fmt::Display for Refusal {
    fn fmt(&self, f: &mut fmt::Formatter) -> fmt::Result {
        write!(f, "refused {}", self.number())?;
        if let Some(name) = self.place_name() {
            write!(f, " at {name} {}", self.place)?;
        }
        write!(f, ": {}", self.phrase())
    }
}

error_in_words!(Refusal);

/// `InvalidInput` for a method and for room, which the caller gives; `InvalidData` for all that is read.
impl From<Refusal> for io::Error {
    fn from(refusal: Refusal) -> io::Error {
        let kind = match refusal.reason {
            Reason::Method | Reason::Room => io::ErrorKind::InvalidInput,
            _ => io::ErrorKind::InvalidData,
        };
        io::Error::new(kind, refusal)
    }
}

/// Makes a call of the library, which returns a refusal's number or 0 and writes eight words, and tells the values that it answers.
pub(crate) fn answer(call: impl FnOnce(&mut [u64; 8]) -> u32) -> Result<[usize; 8], Refusal> {
    let mut words = [0; 8];
    let number = call(&mut words);
    let words = words.map(|word| word as usize);
    match number {
        0 => Ok(words),
        _ => Err(Refusal {
            reason: Reason::from(number),
            place: words[0],
        }),
    }
}
