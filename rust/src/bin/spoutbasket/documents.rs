//! Sheets, chains and keys out of what is read, each by the library; and in words why one is turned down.
use crate::input::Source;
use crate::kinds::Kind;
use crate::messages::{counted, Failure, Refused};
use crate::packed::{can_only_be_fields, can_only_be_text, refused_fields};
use spoutbasket::{list, numbers, Chain, Counts, Keys, Listing, Method, Reason, Refusal};
use spoutbasket::{Sheet, SheetError, TextFault, TextReason};
use spoutbasket::{LONGEST_FILE, MOST_COLUMNS, MOST_PAYSLIPS, MOST_STEPS};

/// The sheet of a file that is written in some way.
pub fn sheet(source: &Source, kind: Kind) -> Result<Sheet, Failure> {
    let bytes = source.whole()?;
    let no_text = |error| no_sheet(source, &bytes, error);
    let read = match kind {
        Kind::Plain => Sheet::from_text(&bytes).map_err(no_text),
        Kind::Table => Sheet::from_table(&bytes).map_err(no_text),
        Kind::Packed(p, q) => Sheet::from_packed(p, q, &bytes)
            .map_err(|refusal| refused_fields(source, p, q, bytes.len(), refusal)),
    };
    Ok(read.map_err(|refused| mistaken(kind, &bytes, refused))?)
}

/// A file that is refused as a sheet, with what it is instead where that is plain.
fn mistaken(kind: Kind, bytes: &[u8], refused: Refused) -> Refused {
    let like_a_table = |byte: &u8| matches!(byte, b',' | b';') || byte.is_ascii_alphabetic();
    match kind {
        _ if Chain::from_file(bytes).is_ok() => {
            refused.and("the file is a chain, a sheet is wanted")
        }
        Kind::Packed(..) if can_only_be_text(bytes) => {
            refused.and("the file is a text, packed fields are wanted")
        }
        Kind::Packed(..) => refused,
        // a byte that is found in them is not told
        _ if can_only_be_fields(bytes) => refused
            .without_detail()
            .and("for packed fields, five bytes an amount, give --packed P,Q"),
        // no text has a byte 0
        Kind::Plain if bytes.iter().any(like_a_table) && !bytes.contains(&0) => {
            refused.and("for a table, one payslip a line, give --table")
        }
        _ => refused,
    }
}

/// A text that cannot be read, or whose numbers are no sheet. Those of a table always are: p and q are counted.
fn no_sheet(source: &Source, text: &[u8], error: SheetError) -> Refused {
    match error {
        SheetError::Text(fault) => Refused::in_text(source.name(), &fault),
        SheetError::Refusal(refusal) => {
            let detail = numbers(text).ok().and_then(|numbers| misshapen(&numbers));
            Refused::new(source.name(), refusal, detail)
        }
        _ => unreachable!("a sheet's error is one of the two"),
    }
}

/// Why a plain sheet's numbers are no sheet.
fn misshapen(numbers: &[u32]) -> Option<String> {
    let [p, q, amounts @ ..] = numbers else {
        let missing = if numbers.is_empty() { "p" } else { "q" };
        return Some(format!("{missing} is missing"));
    };
    let (p, q) = (*p as usize, *q as usize);
    size(p, MOST_COLUMNS)
        .or_else(|| size(q, MOST_PAYSLIPS))
        .or_else(|| Some(format!("{} found, {} wanted", amounts.len(), p * q)))
}

/// A size that is out of range, if it is, in the words for a table's.
pub fn size(found: usize, most: usize) -> Option<String> {
    let fault = TextFault {
        line: 1,
        column: 1,
        reason: TextReason::Sizes,
        found: found as u64,
        wanted: most as u64,
    };
    fault.detail().filter(|_| found == 0 || found > most)
}

/// A receiver's modulus and bases.
pub fn keys(source: &Source) -> Result<Keys, Failure> {
    let keys = Keys::from_text(&source.whole()?);
    Ok(keys.map_err(|fault| Refused::in_text(source.name(), &fault))?)
}

/// A run refused for its keys, if it is that.
pub fn refused_keys(
    source: &Source,
    keys: &Keys,
    columns: usize,
    refusal: Refusal,
) -> Option<Refused> {
    let detail = match refusal.reason {
        Reason::Modulus => None,
        Reason::Bases => misfit(keys, columns),
        _ => return None,
    };
    Some(Refused::new(source.name(), refusal, detail))
}

/// Why bases do not go with as many columns or with their modulus.
fn misfit(keys: &Keys, columns: usize) -> Option<String> {
    let found = keys.bases.len();
    if found != columns {
        return Some(format!("{}, {columns} wanted", counted(found, "base")));
    }
    let at = keys.bases.iter().position(|&base| base >= keys.modulus)?;
    let (place, base, modulus) = (at + 1, keys.bases[at], keys.modulus);
    Some(format!("base {place} is {base}, the modulus {modulus}"))
}

/// The chain of a file, and its counts.
pub fn chain(source: &Source, bytes: &[u8]) -> Result<(Chain, Counts), Refused> {
    Chain::from_file_counted(bytes).map_err(|refusal| refused_file(source, bytes, refusal))
}

/// What the chain of a file makes.
pub fn listing(source: &Source, bytes: &[u8], chain: &Chain) -> Result<Listing, Refused> {
    list(bytes).map_err(|refusal| {
        // a listing tells no place; the check does, and of 13 it does so whatever the amounts are
        let (p, q) = (chain.columns, chain.outputs.len());
        let zeros = Sheet::new(p, q, vec![0; p * q]);
        let placed = zeros.and_then(|sheet| chain.check(&sheet)).err();
        let placed = placed.filter(|placed| placed.reason == refusal.reason);
        refused_file(source, bytes, placed.unwrap_or(refusal))
    })
}

/// A file that is no chain's, or whose chain is refused.
pub fn refused_file(source: &Source, bytes: &[u8], refusal: Refusal) -> Refused {
    let detail = match refusal.reason {
        // their first half would be told for the edition
        Reason::Length | Reason::Edition if can_only_be_fields(bytes) => {
            Some("the file is packed fields, a chain is wanted".to_string())
        }
        Reason::Length if bytes.len() > LONGEST_FILE => {
            Some(format!("over {LONGEST_FILE} bytes, the longest file"))
        }
        Reason::Length => Some(counted(bytes.len(), "byte")),
        Reason::Edition => bytes
            .first()
            .map(|byte| format!("edition {} found, 1 wanted", byte >> 4)),
        _ => None,
    };
    Refused::new(source.name(), refusal, detail)
}

/// Two chains that do not pool, or two sheets that do not go one above the other: both are named. Of each its columns, payslips and steps.
pub fn refused_both(sources: [&Source; 2], sizes: [[usize; 3]; 2], refusal: Refusal) -> Refused {
    let [[p1, q1, n1], [p2, q2, n2]] = sizes;
    let together = |found, thing, most| {
        let found = counted(found, thing);
        Some(format!("{found} together, at most {most}"))
    };
    let detail = match refusal.reason {
        Reason::Sizes => together(q1 + q2, "payslip", MOST_PAYSLIPS),
        Reason::Columns => Some(format!("{p1} and {p2} columns")),
        Reason::Steps => together(n1 + n2, "step", MOST_STEPS),
        _ => None,
    };
    Refused::new(both(sources), refusal, detail)
}

/// The names of two sources.
pub fn both(sources: [&Source; 2]) -> String {
    sources.map(Source::name).join(" and ")
}

/// A sheet that a method refuses, or that no method takes.
pub fn refused_sheet(source: &Source, method: Option<Method>, refusal: Refusal) -> Refused {
    let detail = match (refusal.reason, method) {
        (Reason::Method, Some(method)) => Some(range(method).to_string()),
        (Reason::Steps, Some(method)) => {
            Some(format!("by {method}; --best may find a shorter chain"))
        }
        (Reason::Steps, None) => Some("by every method".to_string()),
        _ => None,
    };
    Refused::new(source.name(), refusal, detail)
}

/// The parameters that a method takes.
fn range(method: Method) -> &'static str {
    match method {
        Method::Straus(_) => "method straus takes k from 1 to 5 with p times k at most 10",
        Method::Yao(_) => "method yao takes k from 1 to 8",
        Method::Partition(_) => "method partition takes c from 1 to 8",
    }
}
