//! Packed fields in words: why they are turned down, and files that are mistaken for them or they for others. Amounts are wages, so of a field its place is
//! told and nothing that it holds.
use crate::documents::size;
use crate::input::Source;
use crate::messages::{counted, Refused};
use spoutbasket::{Reason, Refusal, Sheet, FIELD_BYTES, MOST_COLUMNS, MOST_PAYSLIPS};

/// As many bytes that are no sheet's fields.
pub fn refused_fields(
    source: &Source,
    p: usize,
    q: usize,
    bytes: usize,
    refusal: Refusal,
) -> Refused {
    let detail = match refusal.reason {
        Reason::Sizes => out_of_range(p, MOST_COLUMNS).or_else(|| out_of_range(q, MOST_PAYSLIPS)),
        Reason::Amounts => {
            let (found, wanted) = (counted(bytes, "byte"), FIELD_BYTES * p * q);
            Some(format!("{found} found, {wanted} wanted"))
        }
        _ => return refused_field(source, p, refusal),
    };
    Refused::new(source.name(), refusal, detail)
}

/// A size that is out of range, if it is. One that was too large to hold is not known.
fn out_of_range(found: usize, most: usize) -> Option<String> {
    let told = size(found, most)?;
    Some(told.replace(&usize::MAX.to_string(), "too large"))
}

/// A field that is turned down, or an amount that fits none, with its payslip and column.
pub fn refused_field(source: &Source, columns: usize, refusal: Refusal) -> Refused {
    let mut refused = Refused::new(source.name(), refusal, None);
    if let Some(before) = refusal.place.checked_sub(1) {
        let (payslip, column) = (before / columns + 1, before % columns + 1);
        refused.place.push(("payslip", payslip as u64));
        refused.place.push(("column", column as u64));
    }
    refused
}

/// Whether a file can only be fields: each five bytes of it are one, perhaps with sign D, and it is no text. The end of a line behind them does not count.
pub fn can_only_be_fields(bytes: &[u8]) -> bool {
    are_fields(bytes) && !is_text(bytes)
}

/// Whether a file can only be a text.
pub fn can_only_be_text(bytes: &[u8]) -> bool {
    is_text(bytes) && !are_fields(bytes)
}

fn are_fields(bytes: &[u8]) -> bool {
    let fields = bytes.strip_suffix(b"\n").unwrap_or(bytes);
    let is_field = |field| match Sheet::from_packed(1, 1, field) {
        Ok(_) => true,
        Err(refusal) => refusal.reason == Reason::PackedMinus,
    };
    !fields.is_empty() && fields.chunks(FIELD_BYTES).all(is_field)
}

/// Whether there are bytes and all are printable or white.
fn is_text(bytes: &[u8]) -> bool {
    let shows = |c: char| !c.is_control() || c.is_whitespace();
    let text = std::str::from_utf8(bytes);
    !bytes.is_empty() && text.is_ok_and(|text| text.chars().all(shows))
}
