//! What a chain is held against: a sheet, or two of which the first stands above the second; and in words where a chain differs from it.
use crate::documents::{self, refused_both, refused_file};
use crate::input::Source;
use crate::kinds::Kind;
use crate::messages::{counted, Failure, Refused};
use spoutbasket::{choose, list, Chain, Counts, Listing, Reason, Refusal, Sheet};

/// The sheet that a chain should make.
pub struct Wanted {
    pub sheet: Sheet,
    /// The name of each sheet that it was read from, and its payslips.
    parts: Vec<(String, usize)>,
}

impl Wanted {
    /// One sheet.
    pub fn one(source: &Source, kind: Kind) -> Result<Wanted, Failure> {
        let sheet = documents::sheet(source, kind)?;
        let parts = vec![(source.name(), sheet.payslips())];
        Ok(Wanted { sheet, parts })
    }

    /// Two sheets, the first above the second.
    pub fn two(first: &Source, second: &Source, kinds: [Kind; 2]) -> Result<Wanted, Failure> {
        let (above, below) = (
            Wanted::one(first, kinds[0])?,
            Wanted::one(second, kinds[1])?,
        );
        let sheet = above.sheet.above(&below.sheet).map_err(|refusal| {
            let sizes = |sheet: &Sheet| [sheet.columns(), sheet.payslips(), 0];
            let sizes = [sizes(&above.sheet), sizes(&below.sheet)];
            refused_both([first, second], sizes, refusal)
        })?;
        let parts = [above.parts, below.parts].concat();
        Ok(Wanted { sheet, parts })
    }

    /// The chain of a file that makes the sheet, and its counts. It is judged by the chooser, which compares p and q too and never takes a file of no bytes.
    pub fn made_by(&self, source: &Source, bytes: &[u8]) -> Result<(Chain, Counts), Refused> {
        match choose(&self.sheet, bytes, &[]) {
            Ok(_) => documents::chain(source, bytes),
            Err(refusal) => Err(self.unlike(source, bytes, refusal)),
        }
    }

    /// A file that does not make the sheet.
    pub fn unlike(&self, source: &Source, bytes: &[u8], refusal: Refusal) -> Refused {
        if refusal.reason != Reason::Payslip {
            return refused_file(source, bytes, refusal);
        }
        let sheet = &self.sheet;
        let of = match self.parts.len() {
            1 => "the sheet",
            _ => "the sheets",
        };
        let detail = Chain::from_file(bytes).ok().and_then(|chain| {
            let shape = |what, made, wanted| {
                let differs = made != wanted;
                differs.then(|| format!("the chain has {}, {of} {wanted}", counted(made, what)))
            };
            shape("column", chain.columns, sheet.columns())
                .or_else(|| shape("payslip", chain.outputs.len(), sheet.payslips()))
                .or_else(|| other_column(&list(bytes).ok()?, sheet, refusal.place))
        });
        let refused = Refused::new(source.name(), refusal, detail);
        match self.whereabouts(refusal.place) {
            Some(payslip) => refused.and(&payslip),
            None => refused,
        }
    }

    /// Of two sheets, the one in which a payslip stands, and its number there.
    fn whereabouts(&self, payslip: usize) -> Option<String> {
        let [(first, payslips), (second, _)] = &self.parts[..] else {
            return None;
        };
        match payslip {
            0 => None,
            _ if payslip <= *payslips => Some(format!("payslip {payslip} of {first}")),
            _ => Some(format!("payslip {} of {second}", payslip - payslips)),
        }
    }
}

/// The first column of a payslip in which a chain makes another amount. The amounts are not told.
fn other_column(made: &Listing, sheet: &Sheet, payslip: usize) -> Option<String> {
    let at = payslip.checked_sub(1)?;
    let mut amounts = made.rows().nth(at)?.iter().zip(sheet.rows().nth(at)?);
    let column = amounts.position(|(made, wanted)| made != wanted)?;
    Some(format!("column {} is another amount", column + 1))
}
