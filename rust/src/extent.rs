use crate::refusal::answer;
use crate::{slices, Refusal};

/// How wide the numbers of a chain's file are, and how long it is.
#[derive(Clone, Copy, Debug, PartialEq, Eq, Hash)]
pub struct Extent {
    /// The bits of each operand and each output: W, the bit length of p + n.
    pub width: usize,
    /// The bytes of the file.
    pub bytes: usize,
}

impl Extent {
    /// The extent of the file of a chain with so many columns, payslips and steps.
    ///
    /// # Errors
    ///
    /// 1 and 4 where no file has such sizes.
    ///
    /// ```
    /// use spoutbasket::Extent;
    ///
    /// # fn main() -> Result<(), spoutbasket::Refusal> {
    /// assert_eq!(Extent::of(1, 1, 126)?, Extent { width: 7, bytes: 225 });
    /// assert_eq!(Extent::of(1, 1, 127)?.width, 8);
    /// assert_eq!(Extent::of(1, 1, 16_001).unwrap_err().number(), 4);
    /// # Ok(())
    /// # }
    /// ```
    pub fn of(columns: usize, payslips: usize, steps: usize) -> Result<Extent, Refusal> {
        let [width, bytes, ..] = answer(|words| slices::extent(columns, payslips, steps, words))?;
        Ok(Extent { width, bytes })
    }
}
