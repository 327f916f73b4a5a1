//! Payslip sheets compiled into multiplication chains, their files, their check and their control figures: a safe wrapper over the proved library.
//!
//! A [`Sheet`] becomes a [`Chain`] by a [`Method`]; a chain has one file, is checked against a sheet and is run over a receiver's bases and modulus.
//! What a chain costs whoever runs it is told by its [`Counts`]: its steps, and of these the squarings and the products.
//! What a method takes for a sheet is [reckoned](Sheet::ceiling) beforehand: its steps, and the ceiling by which a tariff bills.
//! Two chains over the same columns [pool](Chain::pool) into one.
//! A sheet is read from packed decimal, as ledger hosts hold amounts, and [written](Sheet::to_packed) as that.
//! What a call turns down it tells as a [`Refusal`], by reason and place; a text that cannot be read, as a [`TextFault`].
//!
//! ```
//! use spoutbasket::{Chain, Method, Sheet};
//!
//! # fn main() -> Result<(), spoutbasket::Refusal> {
//! // one payslip with the amounts 3 and 2
//! let sheet = Sheet::new(2, 1, [3, 2])?;
//! let file = sheet.compile(Method::Straus(1))?.to_file()?;
//! assert_eq!(file, [0x11, 0x00, 0x00, 0x34, 0x5b, 0x86, 0x80]);
//!
//! // the receiver's side: 3³ · 5² modulo 1,000
//! let chain = Chain::from_file(&file)?;
//! let counts = chain.check(&sheet)?;
//! assert_eq!((counts.steps, counts.squarings, counts.products), (3, 1, 2));
//! assert_eq!(chain.run(1_000, &[3, 5])?.figures, [675]);
//! # Ok(())
//! # }
//! ```
//!
//! All judging and computing is done by the library. This crate lends it buffers of fitting size, and so never meets refusal 5; [`slices`] has the
//! library's functions as they are.
#![deny(unsafe_code)]
#![warn(missing_docs)]

/// Makes a type an error whose `Debug` says what its `Display` says.
macro_rules! error_in_words {
    ($error:ident) => {
        /// As `Display`.
        impl std::fmt::Debug for $error {
            fn fmt(&self, f: &mut std::fmt::Formatter) -> std::fmt::Result {
                std::fmt::Display::fmt(self, f)
            }
        }

        impl std::error::Error for $error {}
    };
}

mod chain;
mod choose;
mod counts;
mod extent;
mod fault;
mod figures;
mod keys;
mod listing;
mod method;
mod packed;
mod quote;
mod reason;
mod refusal;
mod sheet;
#[allow(unsafe_code)]
pub mod slices;

pub use chain::{Chain, Run};
pub use choose::choose;
pub use counts::Counts;
pub use extent::Extent;
pub use fault::{numbers, SheetError, TextFault};
pub use figures::Figures;
pub use keys::Keys;
pub use listing::{list, list_text, Listing};
pub use method::Method;
pub use quote::Quote;
pub use reason::{Reason, TextReason};
pub use refusal::Refusal;
pub use sheet::Sheet;

/// The version of this package and of the header.
pub const VERSION: &str = env!("CARGO_PKG_VERSION");
/// The most columns (pay elements) of a sheet.
pub const MOST_COLUMNS: usize = 16;
/// The most payslips of a sheet.
pub const MOST_PAYSLIPS: usize = 64;
/// The most steps of a chain.
pub const MOST_STEPS: usize = 16_000;
/// The most values of a chain: value 0, the bases and what the steps make.
pub const MOST_VALUES: usize = 1 + MOST_COLUMNS + MOST_STEPS;
/// The most steps of a chain in a file of edition 1.
pub const MOST_STEPS_EDITION_1: usize = 16_000;
/// The most values of a chain in a file of edition 1.
pub const MOST_VALUES_EDITION_1: usize = 1 + MOST_COLUMNS + MOST_STEPS_EDITION_1;
// The bits of n in a file of edition 1; no field of a step or an output is wider.
const LENGTH_BITS: usize = 14;
// The bits of a file before its steps: edition, p − 1, q − 1 and n.
const HEADER_BITS: usize = 4 + 4 + 6 + LENGTH_BITS;
/// The bytes of the longest file.
pub const LONGEST_FILE: usize =
    (HEADER_BITS + (2 * MOST_STEPS_EDITION_1 + MOST_PAYSLIPS) * LENGTH_BITS).div_ceil(8);
// The longest parts of a listing: a blank and an amount, the first line, and a payslip's line.
const LONGEST_FIELD: usize = " 4294967295".len();
const LONGEST_SIZES: usize = "16 64 16000\n".len();
const LONGEST_LINE: usize = "64\n".len() + LONGEST_FIELD * MOST_COLUMNS;
/// Bytes enough for every listing.
pub const LONGEST_LISTING: usize = LONGEST_SIZES + LONGEST_LINE * MOST_PAYSLIPS;
/// The bytes of a packed field, in which a ledger host keeps an amount.
pub const FIELD_BYTES: usize = 5;
/// Bytes enough for the words of every refusal.
pub const LONGEST_PHRASE: usize = 64;
