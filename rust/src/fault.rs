use crate::{slices, Refusal, TextReason, MOST_COLUMNS};
use std::{fmt, io};

/// A text turned down: where, why, and what was found there.
///
/// `Debug` says what `Display` says, so that a `main` that returns a fault prints it in words.
///
/// ```
/// use spoutbasket::{Sheet, SheetError, TextFault, TextReason};
///
/// let Err(SheetError::Text(fault)) = Sheet::from_table(b"168233;187.50\n") else { panic!() };
/// assert_eq!((fault.reason, fault.line, fault.column), (TextReason::Mark, 1, 11));
/// assert_eq!(fault.to_string(), "line 1, column 11: decimal point or grouping mark: '.'");
/// ```
#[derive(Clone, Copy, PartialEq, Eq, Hash, PartialOrd, Ord)]
pub struct TextFault {
    /// The line, from 1.
    pub line: u64,
    /// The column, in bytes, from 1.
    pub column: u64,
    /// Why.
    pub reason: TextReason,
    /// What was found: a byte, or how many there are.
    pub found: u64,
    /// How many were wanted, where that is the question.
    pub wanted: u64,
}

impl TextFault {
    /// The reason's number.
    #[must_use]
    pub fn number(&self) -> u32 {
        self.reason.number()
    }

    /// The library's words for the reason.
    #[must_use]
    pub fn phrase(&self) -> &'static str {
        self.reason.phrase()
    }

    /// What was found, and what was wanted, in words, if the fault has any.
    ///
    /// ```
    /// use spoutbasket::{Sheet, SheetError};
    ///
    /// let Err(SheetError::Text(fault)) = Sheet::from_table(b"3;0;2\n1;2\n") else { panic!() };
    /// assert_eq!(fault.detail().as_deref(), Some("2 amounts, 3 wanted"));
    /// ```
    #[must_use]
    pub fn detail(&self) -> Option<String> {
        let (found, wanted) = (self.found, self.wanted);
        Some(match self.reason {
            // of a table's first line the columns are told, with 16 wanted; else its payslips
            TextReason::Sizes => {
                let name = if wanted == MOST_COLUMNS as u64 {
                    "p"
                } else {
                    "q"
                };
                match found {
                    0 => format!("{name} is 0, at least 1"),
                    _ => format!("{name} is {found}, at most {wanted}"),
                }
            }
            TextReason::Room => format!("more than {found} numbers"),
            TextReason::Fields => {
                let ending = if found == 1 { "" } else { "s" };
                format!("{found} amount{ending}, {wanted} wanted")
            }
            // digits are marked only by a blank before them
            TextReason::Mark if (0x30..=0x39).contains(&found) => {
                format!("a blank before {}", byte(found))
            }
            TextReason::Byte | TextReason::Mark | TextReason::Sign => byte(found),
            _ => return None,
        })
    }
}

/// A byte in quotes, or by its number where it has no shape of its own.
fn byte(byte: u64) -> String {
    match u8::try_from(byte) {
        Ok(shown @ b'!'..=b'~') => format!("'{}'", char::from(shown)),
        _ => format!("byte {byte:#04x}"),
    }
}

/// Place, phrase and what was found; where the question is how many, that alone tells it.
impl fmt::Display for TextFault {
    fn fmt(&self, f: &mut fmt::Formatter) -> fmt::Result {
        write!(f, "line {}, column {}: ", self.line, self.column)?;
        match (self.reason, self.detail()) {
            (TextReason::Sizes | TextReason::Room | TextReason::Fields, Some(detail)) => {
                f.write_str(&detail)
            }
            (_, Some(detail)) => write!(f, "{}: {detail}", self.phrase()),
            (_, None) => f.write_str(self.phrase()),
        }
    }
}

error_in_words!(TextFault);

impl From<TextFault> for io::Error {
    fn from(fault: TextFault) -> io::Error {
        io::Error::new(io::ErrorKind::InvalidData, fault)
    }
}

/// Why a text makes no sheet: it cannot be read, or what it says is refused.
///
/// `Debug` says what `Display` says.
///
/// ```
/// use spoutbasket::{Reason, Sheet, SheetError};
///
/// // an amount too many
/// let Err(SheetError::Refusal(refusal)) = Sheet::from_text(b"2 1\n3 2 5\n") else { panic!() };
/// assert_eq!(refusal.reason, Reason::Amounts);
/// ```
#[derive(Clone, Copy, PartialEq, Eq, Hash, PartialOrd, Ord)]
#[non_exhaustive]
pub enum SheetError {
    /// The text cannot be read.
    Text(TextFault),
    /// The numbers in it are refused.
    Refusal(Refusal),
}

impl SheetError {
    /// The number of the fault or the refusal.
    #[must_use]
    pub fn number(&self) -> u32 {
        match self {
            SheetError::Text(fault) => fault.number(),
            SheetError::Refusal(refusal) => refusal.number(),
        }
    }
}

impl fmt::Display for SheetError {
    fn fmt(&self, f: &mut fmt::Formatter) -> fmt::Result {
        match self {
            SheetError::Text(fault) => fmt::Display::fmt(fault, f),
            SheetError::Refusal(refusal) => fmt::Display::fmt(refusal, f),
        }
    }
}

error_in_words!(SheetError);

impl From<TextFault> for SheetError {
    fn from(fault: TextFault) -> SheetError {
        SheetError::Text(fault)
    }
}

impl From<Refusal> for SheetError {
    fn from(refusal: Refusal) -> SheetError {
        SheetError::Refusal(refusal)
    }
}

impl From<SheetError> for io::Error {
    fn from(error: SheetError) -> io::Error {
        match error {
            SheetError::Text(fault) => fault.into(),
            SheetError::Refusal(refusal) => refusal.into(),
        }
    }
}

/// Reads a text into as many numbers as there is room for, by a call of the library that returns a fault's number or 0 and writes eight words. The
/// values that it answers, and the numbers.
pub(crate) fn read(
    text: &[u8],
    room: usize,
    call: impl FnOnce(&[u8], &mut [u32], &mut [u64; 8]) -> u32,
) -> Result<([usize; 8], Vec<u32>), TextFault> {
    let (mut numbers, mut words) = (vec![0; room], [0; 8]);
    let number = call(text, &mut numbers, &mut words);
    let [line, column, found, wanted, ..] = words;
    match number {
        0 => Ok((words.map(|word| word as usize), numbers)),
        _ => Err(TextFault {
            line,
            column,
            reason: TextReason::from(number),
            found,
            wanted,
        }),
    }
}

/// The numbers of a text, parted by blanks, tabs and ends of lines: what a plain sheet and a receiver's keys are written in.
///
/// # Errors
///
/// The place and kind of a byte that does not belong, of a number too large, or of a cut.
///
/// ```
/// assert_eq!(spoutbasket::numbers(b"1000\n3 5\n"), Ok(vec![1_000, 3, 5]));
/// // the last line has no end, so a digit may be missing
/// assert_eq!(spoutbasket::numbers(b"1000\n3 5").unwrap_err().number(), 103);
/// ```
pub fn numbers(text: &[u8]) -> Result<Vec<u32>, TextFault> {
    // a number has a digit, and something parts it from the next
    let ([count, ..], mut numbers) = read(text, text.len().div_ceil(2), slices::numbers)?;
    numbers.truncate(count);
    Ok(numbers)
}
