use crate::{fault, slices, Reason, Refusal, Sheet};
use crate::{LONGEST_LISTING, MOST_COLUMNS, MOST_PAYSLIPS};
use std::fmt;

/// What a chain's file makes: a sheet, in how many steps.
///
/// `Display` gives the library's text byte for byte: a line `p q n`, then for each payslip its number from 1 and its amounts.
///
/// ```
/// use spoutbasket::list;
///
/// # fn main() -> Result<(), spoutbasket::Refusal> {
/// let listing = list(&[0x11, 0x00, 0x00, 0x34, 0x5b, 0x86, 0x80])?;
/// assert_eq!((listing.columns(), listing.payslips(), listing.steps()), (2, 1, 3));
/// assert!(listing.rows().eq([[3, 2]]));
/// assert_eq!(listing.to_string(), "2 1 3\n1 3 2\n");
/// # Ok(())
/// # }
/// ```
#[derive(Clone, Debug, PartialEq, Eq, Hash)]
pub struct Listing {
    sheet: Sheet,
    steps: usize,
    text: String,
}

impl Listing {
    /// The number of columns, p.
    #[must_use]
    pub fn columns(&self) -> usize {
        self.sheet.columns()
    }

    /// The number of payslips, q.
    #[must_use]
    pub fn payslips(&self) -> usize {
        self.sheet.payslips()
    }

    /// The number of steps, n.
    #[must_use]
    pub fn steps(&self) -> usize {
        self.steps
    }

    /// The amounts of each payslip in turn.
    pub fn rows(&self) -> std::slice::ChunksExact<'_, u32> {
        self.sheet.rows()
    }

    /// The sheet that the chain makes.
    #[must_use]
    pub fn sheet(&self) -> &Sheet {
        &self.sheet
    }

    /// The library's text.
    #[must_use]
    pub fn text(&self) -> &str {
        &self.text
    }
}

/// The library's text.
impl fmt::Display for Listing {
    fn fmt(&self, f: &mut fmt::Formatter) -> fmt::Result {
        f.write_str(&self.text)
    }
}

/// What the chain of a file makes.
///
/// # Errors
///
/// 6 to 12, and 4, where the bytes are no chain's file; 13 where an exponent is too large. A listing tells the reason and no place.
///
/// ```
/// use spoutbasket::{list, Reason};
///
/// assert_eq!(list(b"old").unwrap_err().reason, Reason::Length);
/// ```
pub fn list(bytes: &[u8]) -> Result<Listing, Refusal> {
    let text = list_text(bytes);
    if let Some(number) = text.strip_prefix("refused ") {
        let number: u32 = number.trim_end().parse().unwrap_or_default();
        return Err(Reason::from(number).into());
    }
    // p, q and n, and a number before each payslip
    let room = 3 + (1 + MOST_COLUMNS) * MOST_PAYSLIPS;
    let read = fault::read(text.as_bytes(), room, slices::numbers);
    let (_, numbers) = read.expect("a listing is numbers");
    let [p, q, n] = [0, 1, 2].map(|i| numbers[i] as usize);
    let rows = numbers[3..].chunks_exact(1 + p).take(q);
    Ok(Listing {
        sheet: Sheet::from_rows(rows.map(|row| &row[1..]))?,
        steps: n,
        text,
    })
}

/// The library's listing of a file as it is: the text of a [`Listing`], or one line, as `refused 13`.
///
/// ```
/// use spoutbasket::list_text;
///
/// assert_eq!(list_text(&[0x11, 0x00, 0x00, 0x34, 0x5b, 0x86, 0x80]), "2 1 3\n1 3 2\n");
/// assert_eq!(list_text(b"old"), "refused 6\n");
/// ```
#[must_use]
pub fn list_text(bytes: &[u8]) -> String {
    let (mut text, mut words) = ([0; LONGEST_LISTING], [0; 8]);
    // a file that is refused is so in the text alone
    let _ = slices::list(bytes, &mut text, &mut words);
    String::from_utf8_lossy(&text[..words[0] as usize]).into_owned()
}
