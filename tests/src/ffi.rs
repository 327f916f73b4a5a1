//! The library's functions on slices, with the answer in the reference's terms.

use crate::reference::{Answer, Job, Lent, Part};
use spoutbasket::{slices, LONGEST_LISTING};

// The answer behind the number that a call returns and the eight words that it writes, of which the first `values` are the call's.
fn answer(values: usize, call: impl FnOnce(&mut [u64; 8]) -> u32) -> Answer {
    let mut words = [7; 8];
    let number = call(&mut words);
    let used = if number == 0 { values } else { 1 };
    assert!(words[used..].iter().all(|&w| w == 0), "unused words are 0");
    if number == 0 {
        Ok(words[..values].to_vec())
    } else {
        Err((number, words[0]))
    }
}

pub fn verify(
    p: usize,
    steps: &[u32],
    outputs: &[u32],
    amounts: &[u32],
    scratch: &mut [u32],
) -> Answer {
    answer(3, |words| {
        slices::verify(p, steps, outputs, amounts, scratch, words)
    })
}

pub fn run(
    p: usize,
    steps: &[u32],
    outputs: &[u32],
    m: u32,
    bases: &[u32],
    values: &mut [u32],
    figures: &mut [u32],
) -> Answer {
    answer(3, |words| {
        slices::run(p, steps, outputs, m, bases, values, figures, words)
    })
}

/// The check with the steps lent as pairs.
pub fn verify_pairs(
    p: usize,
    steps: &[[u32; 2]],
    outputs: &[u32],
    amounts: &[u32],
    scratch: &mut [u32],
) -> Answer {
    answer(3, |words| {
        slices::verify_pairs(p, steps, outputs, amounts, scratch, words)
    })
}

/// The run with the steps lent as pairs.
pub fn run_pairs(
    p: usize,
    steps: &[[u32; 2]],
    outputs: &[u32],
    m: u32,
    bases: &[u32],
    values: &mut [u32],
    figures: &mut [u32],
) -> Answer {
    answer(3, |words| {
        slices::run_pairs(p, steps, outputs, m, bases, values, figures, words)
    })
}

pub fn extent(p: usize, q: usize, n: usize) -> Answer {
    answer(2, |words| slices::extent(p, q, n, words))
}

pub fn write(p: usize, steps: &[u32], outputs: &[u32], bytes: &mut [u8]) -> Answer {
    answer(1, |words| slices::write(p, steps, outputs, bytes, words))
}

/// The number and the words of a read, without making an answer of them.
pub fn read_words(bytes: &[u8], steps: &mut [u32], outputs: &mut [u32]) -> (u32, [u64; 8]) {
    let mut words = [7; 8];
    let number = slices::read(bytes, steps, outputs, &mut words);
    (number, words)
}

pub fn read(bytes: &[u8], steps: &mut [u32], outputs: &mut [u32]) -> Answer {
    answer(5, |words| slices::read(bytes, steps, outputs, words))
}

pub fn pool(
    (p1, steps1, outputs1): Part,
    (p2, steps2, outputs2): Part,
    steps: &mut [u32],
    outputs: &mut [u32],
) -> Answer {
    answer(3, |words| {
        slices::pool(
            p1, steps1, outputs1, p2, steps2, outputs2, steps, outputs, words,
        )
    })
}

pub fn unpack(p: usize, q: usize, bytes: &[u8], amounts: &mut [u32]) -> Answer {
    answer(1, |words| slices::unpack(p, q, bytes, amounts, words))
}

pub fn pack(p: usize, q: usize, amounts: &[u32], bytes: &mut [u8]) -> Answer {
    answer(1, |words| slices::pack(p, q, amounts, bytes, words))
}

/// The scratch that the chooser is lent.
pub struct Scratch {
    pub steps: Vec<u32>,
    pub outputs: Vec<u32>,
    pub numbers: Vec<u32>,
}

pub fn choose(
    p: usize,
    q: usize,
    amounts: &[u32],
    a: &[u8],
    b: &[u8],
    scratch: &mut Scratch,
) -> Answer {
    let Scratch {
        steps,
        outputs,
        numbers,
    } = scratch;
    answer(1, |words| {
        slices::choose(p, q, amounts, a, b, steps, outputs, numbers, words)
    })
}

pub fn compile(
    p: usize,
    q: usize,
    amounts: &[u32],
    method: usize,
    parameter: usize,
    steps: &mut [u32],
    outputs: &mut [u32],
) -> Answer {
    answer(3, |words| {
        slices::compile(p, q, amounts, method, parameter, steps, outputs, words)
    })
}

pub fn ceiling(p: usize, q: usize, amounts: &[u32], method: usize, parameter: usize) -> Answer {
    answer(2, |words| {
        slices::ceiling(p, q, amounts, method, parameter, words)
    })
}

/// The length of a file's listing, over the front of the text.
pub fn list(bytes: &[u8], text: &mut [u8; LONGEST_LISTING]) -> Answer {
    answer(1, |words| slices::list(bytes, text, words))
}

/// Compile, write, read, check and run in a row.
pub fn path(job: &Job, m: u32, bases: &[u32], lent: &mut Lent) -> Answer {
    answer(3, |words| {
        slices::path(
            job.p,
            job.q,
            &job.amounts,
            job.method,
            job.parameter,
            m,
            bases,
            &mut lent.steps,
            &mut lent.outputs,
            &mut lent.bytes,
            &mut lent.read_steps,
            &mut lent.read_outputs,
            &mut lent.scratch,
            &mut lent.values,
            &mut lent.figures,
            words,
        )
    })
}
