use crate::{slices, LONGEST_PHRASE};
use std::fmt;
use std::sync::OnceLock;

/// An enum of reasons by number, which keeps every other number as it is.
macro_rules! reasons {
    ($(#[$about:meta])* $name:ident { $($(#[$when:meta])* $reason:ident = $number:literal,)* }) => {
        $(#[$about])*
        #[derive(Clone, Copy, Debug, PartialEq, Eq, Hash, PartialOrd, Ord)]
        #[non_exhaustive]
        pub enum $name {
            $($(#[$when])* $reason,)*
            /// Any other number.
            Other(u32),
        }

        impl $name {
            /// The reason's number.
            #[must_use]
            pub fn number(self) -> u32 {
                match self {
                    $($name::$reason => $number,)*
                    $name::Other(number) => number,
                }
            }

            /// The library's words for the reason.
            #[must_use]
            pub fn phrase(self) -> &'static str {
                phrase(self.number())
            }
        }

        /// The reason of a number; no number is lost.
        impl From<u32> for $name {
            fn from(number: u32) -> $name {
                match number {
                    $($number => $name::$reason,)*
                    _ => $name::Other(number),
                }
            }
        }

        /// The library's words.
        impl fmt::Display for $name {
            fn fmt(&self, f: &mut fmt::Formatter) -> fmt::Result {
                f.pad(self.phrase())
            }
        }
    };
}

reasons! {
    /// Why input is turned down: the refusals of the specification (docs/SPEC.md, 10.1), in the order of their numbers.
    ///
    /// ```
    /// use spoutbasket::Reason;
    ///
    /// assert_eq!(Reason::from(10), Reason::OperandHigh);
    /// assert_eq!(Reason::OperandHigh.number(), 10);
    /// assert_eq!(Reason::OperandHigh.to_string(), "operand not below its own value");
    /// ```
    Reason {
        /// 1: the columns are not 1 to 16, or the payslips not 1 to 64.
        Sizes = 1,
        /// 2: the amounts are not as many as columns times payslips.
        Amounts = 2,
        /// 3: there is no such method, or its parameter is out of range.
        Method = 3,
        /// 4: the chain has too many steps.
        Steps = 4,
        /// 5: a lent slice is too short.
        Room = 5,
        /// 6: a file is under 4 bytes, or not as long as it states.
        Length = 6,
        /// 7: a file is of another edition.
        Edition = 7,
        /// 8: a filling bit of a file is set.
        Filling = 8,
        /// 9: an operand is value 0.
        OperandZero = 9,
        /// 10: an operand is not below the value that its step makes.
        OperandHigh = 10,
        /// 11: a first operand is smaller than the second.
        OperandOrder = 11,
        /// 12: an output is above the last value.
        Output = 12,
        /// 13: an exponent is too large.
        Exponent = 13,
        /// 14: an output's exponents are not its payslip, or the chain is for a sheet of another shape.
        Payslip = 14,
        /// 15: the modulus is 0.
        Modulus = 15,
        /// 16: the bases are not one for each column, or one is not below the modulus.
        Bases = 16,
        /// 17: two chains to be pooled, or two sheets to stand one above the other, have not as many columns.
        Columns = 17,
        /// 18: a packed field has a digit above 9, or a sign that is not C, D or F.
        PackedField = 18,
        /// 19: a packed field has sign D, whatever its digits are.
        PackedMinus = 19,
        /// 20: an amount has more than the nine digits of a packed field.
        PackedAmount = 20,
    }
}

reasons! {
    /// Why a text is turned down, in the order of the numbers.
    ///
    /// ```
    /// use spoutbasket::TextReason;
    ///
    /// assert_eq!(TextReason::from(106), TextReason::Sign);
    /// assert_eq!(TextReason::Sign.number(), 106);
    /// assert_eq!(TextReason::CutOff.to_string(), "cut off: the last line has no newline");
    /// ```
    TextReason {
        /// 1: a table has no columns or more than 16, or no payslips or more than 64.
        Sizes = 1,
        /// 5: there are more numbers than there is room for.
        Room = 5,
        /// 101: a byte that is neither a digit nor a separator.
        Byte = 101,
        /// 102: a number above 4,294,967,295.
        Large = 102,
        /// 103: the last line has no newline, so the text may have been cut off.
        CutOff = 103,
        /// 104: a line of a table has more or fewer amounts than the first.
        Fields = 104,
        /// 105: a decimal point or a grouping mark.
        Mark = 105,
        /// 106: a sign.
        Sign = 106,
        /// 107: no amount between two separators of a table.
        Empty = 107,
    }
}

/// A cell for each number that the library has words for, and more.
static PHRASES: [OnceLock<String>; 256] = [const { OnceLock::new() }; 256];

/// The library's words for a number, asked for once. Numbers past the cells have none, as 0 has none.
fn phrase(number: u32) -> &'static str {
    let known = PHRASES.get(number as usize).map(|cell| (number, cell));
    let (number, cell) = known.unwrap_or((0, &PHRASES[0]));
    cell.get_or_init(|| {
        let (mut text, mut words) = ([0; LONGEST_PHRASE], [0; 8]);
        // there is room for every phrase
        let _ = slices::phrase(number, &mut text, &mut words);
        String::from_utf8_lossy(&text[..words[0] as usize]).into_owned()
    })
}
