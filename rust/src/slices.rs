//! The library's functions as they are: one safe function for each C function, on numbers and slices.
//!
//! Steps lie flat, first and second operand in turn. Each function returns 0 or a refusal's number and writes eight words to `answer`: the values that
//! the call answers, or the refusal's place (for a text: line, column, what was found and what was wanted), then zeros. Nothing is asked of the slices
//! that are lent: one that is too short is refused 5.
//!
//! ```
//! use spoutbasket::slices;
//!
//! let (mut steps, mut outputs, mut answer) = ([0; 6], [0; 1], [0; 8]);
//! assert_eq!(slices::compile(2, 1, &[3, 2], 1, 1, &mut steps, &mut outputs, &mut answer), 0);
//! assert_eq!((steps, outputs), ([2, 1, 3, 3, 4, 1], [5]));
//! // 3 steps, of which 1 is a squaring and 2 are products
//! assert_eq!(answer, [3, 1, 2, 0, 0, 0, 0, 0]);
//! // room for two steps is not enough
//! assert_eq!(slices::compile(2, 1, &[3, 2], 1, 1, &mut steps[..4], &mut outputs, &mut answer), 5);
//! ```
// the arguments are the library's own
#![allow(clippy::too_many_arguments)]

use crate::LONGEST_LISTING;

// SAFETY of every call: the library asks of a slice that its pointer is good for its length, to read or to write, and that what it may write overlaps
// nothing else of the call. A Rust slice gives the first, and `&mut` the second. The library keeps no pointer, and its functions are proved to return,
// with no undefined step, on every input. `tools/prototypes` compares the list below with the library's exported functions.

/// One function of the list: its C declaration, and the safe function that calls it. The arguments are taken one by one; a slice is a pointer and a
/// length to C, an array a pointer.
macro_rules! function {
    ($head:tt $rust:tt [$($c:tt)*] [$($pass:tt)*] $arg:ident: &[$cell:ty], $($rest:tt)*) => {
        function!($head $rust [$($c)* $arg: *const $cell, _: usize,] [$($pass)* $arg.as_ptr(), $arg.len(),] $($rest)*);
    };
    ($head:tt $rust:tt [$($c:tt)*] [$($pass:tt)*] $arg:ident: &mut [$cell:ty], $($rest:tt)*) => {
        function!($head $rust [$($c)* $arg: *mut $cell, _: usize,] [$($pass)* $arg.as_mut_ptr(), $arg.len(),] $($rest)*);
    };
    ($head:tt $rust:tt [$($c:tt)*] [$($pass:tt)*] $arg:ident: &mut [$cell:ty; $cells:expr], $($rest:tt)*) => {
        function!($head $rust [$($c)* $arg: *mut [$cell; $cells],] [$($pass)* $arg,] $($rest)*);
    };
    ($head:tt $rust:tt [$($c:tt)*] [$($pass:tt)*] $arg:ident: $number:ident, $($rest:tt)*) => {
        function!($head $rust [$($c)* $arg: $number,] [$($pass)* $arg,] $($rest)*);
    };
    ({ $(#[$doc:meta])* $name:ident } ($($rust:tt)*) [$($c:tt)*] [$($pass:tt)*]) => {
        $(#[$doc])*
        #[inline]
        #[must_use]
        pub fn $name($($rust)*) -> u32 {
            extern "C" {
                #[link_name = concat!("spoutbasket_", stringify!($name))]
                fn call($($c)*) -> u32;
            }
            // SAFETY: slices, each with its own length, and arrays of the one length that there is
            unsafe { call($($pass)*) }
        }
    };
}

macro_rules! functions {
    ($($(#[$doc:meta])* fn $name:ident($($arguments:tt)*);)*) => {
        $(function!({ $(#[$doc])* $name } ($($arguments)*) [] [] $($arguments)*);)*
    };
}

functions! {
    /// Compiles a sheet by the method of a number (1 Straus, 2 Yao, 3 partition) and its parameter; answers n, squarings and products.
    fn compile(
        p: usize,
        q: usize,
        amounts: &[u32],
        method: usize,
        parameter: usize,
        steps: &mut [u32],
        outputs: &mut [u32],
        answer: &mut [u64; 8],
    );

    /// Reckons the steps of a method's chain of a sheet and the method's ceiling; answers the count, which is the n of [`compile`], and the ceiling.
    fn ceiling(
        p: usize,
        q: usize,
        amounts: &[u32],
        method: usize,
        parameter: usize,
        answer: &mut [u64; 8],
    );

    /// Measures the file of a chain with p columns, q payslips and n steps; answers the width of its numbers in bits, W, and its number of bytes.
    fn extent(
        p: usize,
        q: usize,
        n: usize,
        answer: &mut [u64; 8],
    );

    /// Writes the file of a chain; answers the number of bytes.
    fn write(
        p: usize,
        steps: &[u32],
        outputs: &[u32],
        bytes: &mut [u8],
        answer: &mut [u64; 8],
    );

    /// Reads the file of a chain; answers p, q, n, squarings and products.
    fn read(
        bytes: &[u8],
        steps: &mut [u32],
        outputs: &mut [u32],
        answer: &mut [u64; 8],
    );

    /// Checks a chain against the amounts of a sheet; answers n, squarings and products.
    fn verify(
        p: usize,
        steps: &[u32],
        outputs: &[u32],
        amounts: &[u32],
        scratch: &mut [u32],
        answer: &mut [u64; 8],
    );

    /// As [`verify`], with the steps lent as pairs.
    fn verify_pairs(
        p: usize,
        steps: &[[u32; 2]],
        outputs: &[u32],
        amounts: &[u32],
        scratch: &mut [u32],
        answer: &mut [u64; 8],
    );

    /// Runs a chain over residues; answers n, which is the multiplications made, squarings and products.
    fn run(
        p: usize,
        steps: &[u32],
        outputs: &[u32],
        modulus: u32,
        bases: &[u32],
        values: &mut [u32],
        figures: &mut [u32],
        answer: &mut [u64; 8],
    );

    /// As [`run`], with the steps lent as pairs.
    fn run_pairs(
        p: usize,
        steps: &[[u32; 2]],
        outputs: &[u32],
        modulus: u32,
        bases: &[u32],
        values: &mut [u32],
        figures: &mut [u32],
        answer: &mut [u64; 8],
    );

    /// Pools two chains over the same columns; answers n, squarings and products of the pool.
    fn pool(
        p1: usize,
        steps1: &[u32],
        outputs1: &[u32],
        p2: usize,
        steps2: &[u32],
        outputs2: &[u32],
        steps: &mut [u32],
        outputs: &mut [u32],
        answer: &mut [u64; 8],
    );

    /// Chooses between two files for a sheet, with scratch for 16,000 steps, 64 outputs and 16,017 numbers; answers 1 or 2.
    fn choose(
        p: usize,
        q: usize,
        amounts: &[u32],
        a: &[u8],
        b: &[u8],
        steps: &mut [u32],
        outputs: &mut [u32],
        numbers: &mut [u32],
        answer: &mut [u64; 8],
    );

    /// Lists a file as text; answers the length of the text at the front of `text`, and refuses nothing.
    fn list(
        bytes: &[u8],
        text: &mut [u8; LONGEST_LISTING],
        answer: &mut [u64; 8],
    );

    /// Compiles, writes, reads into `received` and `results`, checks and runs; answers the n of compile and of read and the multiplications made.
    fn path(
        p: usize,
        q: usize,
        amounts: &[u32],
        method: usize,
        parameter: usize,
        modulus: u32,
        bases: &[u32],
        steps: &mut [u32],
        outputs: &mut [u32],
        bytes: &mut [u8],
        received: &mut [u32],
        results: &mut [u32],
        scratch: &mut [u32],
        values: &mut [u32],
        figures: &mut [u32],
        answer: &mut [u64; 8],
    );

    /// Reads a text of numbers; answers how many there are. A refusal's words are line, column, what was found and what was wanted.
    fn numbers(
        text: &[u8],
        numbers: &mut [u32],
        answer: &mut [u64; 8],
    );

    /// Reads a table, one payslip a line; answers p and q. A refusal's words are line, column, what was found and what was wanted.
    fn table(
        text: &[u8],
        amounts: &mut [u32],
        answer: &mut [u64; 8],
    );

    /// Reads a sheet of packed fields, [`FIELD_BYTES`](crate::FIELD_BYTES) bytes each; answers p times q.
    fn unpack(
        p: usize,
        q: usize,
        bytes: &[u8],
        amounts: &mut [u32],
        answer: &mut [u64; 8],
    );

    /// Writes a sheet as packed fields with sign C; answers p times q.
    fn pack(
        p: usize,
        q: usize,
        amounts: &[u32],
        bytes: &mut [u8],
        answer: &mut [u64; 8],
    );

    /// The words for a refusal's number; answers how many bytes they have, of which [`LONGEST_PHRASE`](crate::LONGEST_PHRASE) are always enough.
    fn phrase(
        number: u32,
        text: &mut [u8],
        answer: &mut [u64; 8],
    );
}
