//! The specification in plain Rust, written from its text alone: what each call answers and what it leaves in each lent slice.
//! It is slow and simple on purpose. The methods stand in `compiler`.

pub use crate::compiler::{ceiling, compile, count, make, quote, Job};

/// The values of a call that is done, or a refusal's number and place.
pub type Answer = Result<Vec<u64>, (u32, u64)>;

/// The eight words of an answer: some values, then zeros.
pub fn words(values: &[u64]) -> [u64; 8] {
    let mut words = [0; 8];
    words[..values.len()].copy_from_slice(values);
    words
}

pub const MOST_COLUMNS: usize = 16;
pub const MOST_PAYSLIPS: usize = 64;
pub const MOST_STEPS: usize = 16_000;
pub const MOST_VALUES: usize = MOST_COLUMNS + MOST_STEPS + 1;
pub const MOST_AMOUNT: u64 = 4_294_967_295;

/// The steps of a flat slice; an odd last number belongs to no pair.
pub fn pairs(steps: &[u32]) -> Vec<(u32, u32)> {
    steps
        .chunks_exact(2)
        .map(|pair| (pair[0], pair[1]))
        .collect()
}

/// The n of a chain, its squarings, which are the steps with one number twice, and its products, which are those with two numbers.
pub fn counts(steps: &[(u32, u32)]) -> Vec<u64> {
    let (mut squarings, mut products) = (0, 0);
    for (first, second) in steps {
        if first == second {
            squarings += 1;
        } else {
            products += 1;
        }
    }
    vec![steps.len() as u64, squarings, products]
}

pub(crate) fn sizes(p: usize, q: usize) -> Result<(), (u32, u64)> {
    if p == 0 || p > MOST_COLUMNS || q == 0 || q > MOST_PAYSLIPS {
        return Err((1, 0));
    }
    Ok(())
}

pub(crate) fn length(limit: usize, n: usize) -> Result<(), (u32, u64)> {
    if n > limit {
        return Err((4, 0));
    }
    Ok(())
}

/// The steps in order, each 9, 10, 11, then the outputs, 12.
pub fn chain(p: usize, steps: &[(u32, u32)], outputs: &[u32]) -> Result<(), (u32, u64)> {
    steps_in_order(p, steps)?;
    outputs_in_order(p + steps.len(), outputs)
}

fn steps_in_order(p: usize, steps: &[(u32, u32)]) -> Result<(), (u32, u64)> {
    for (i, &(first, second)) in steps.iter().enumerate() {
        let s = i as u64 + 1;
        let v = p as u64 + s;
        if first == 0 || second == 0 {
            return Err((9, s));
        }
        if first as u64 >= v || second as u64 >= v {
            return Err((10, s));
        }
        if first < second {
            return Err((11, s));
        }
    }
    Ok(())
}

fn outputs_in_order(last: usize, outputs: &[u32]) -> Result<(), (u32, u64)> {
    for (i, &o) in outputs.iter().enumerate() {
        if o as usize > last {
            return Err((12, i as u64 + 1));
        }
    }
    Ok(())
}

/// The exponents of every value, as vectors. A sum stops growing far above the limit, so that it fits.
pub fn exponents(p: usize, steps: &[(u32, u32)]) -> Vec<Vec<u64>> {
    let mut all = vec![vec![0u64; p]];
    for c in 0..p {
        let mut unit = vec![0u64; p];
        unit[c] = 1;
        all.push(unit);
    }
    for &(first, second) in steps {
        let sum = (0..p)
            .map(|c| (all[first as usize][c] + all[second as usize][c]).min(1 << 40))
            .collect();
        all.push(sum);
    }
    all
}

pub fn verify(
    p: usize,
    steps: &[u32],
    outputs: &[u32],
    amounts: &[u32],
    scratch: &mut [u32],
) -> Answer {
    let steps = pairs(steps);
    sizes(p, outputs.len())?;
    length(MOST_STEPS, steps.len())?;
    if amounts.len() != p * outputs.len() {
        return Err((2, 0));
    }
    chain(p, &steps, outputs)?;
    let used = p + steps.len() + 1;
    if scratch.len() < used {
        return Err((5, 0));
    }
    scratch[..used].fill(0);
    let all = exponents(p, &steps);
    for (v, e) in all.iter().enumerate() {
        if e.iter().any(|&x| x > MOST_AMOUNT) {
            return Err((13, (v - p) as u64));
        }
    }
    for (i, &o) in outputs.iter().enumerate() {
        let payslip: Vec<u64> = amounts[i * p..(i + 1) * p]
            .iter()
            .map(|&a| a as u64)
            .collect();
        if all[o as usize] != payslip {
            return Err((14, i as u64 + 1));
        }
    }
    Ok(counts(&steps))
}

pub fn run(
    p: usize,
    steps: &[u32],
    outputs: &[u32],
    m: u32,
    bases: &[u32],
    values: &mut [u32],
    figures: &mut [u32],
) -> Answer {
    let steps = pairs(steps);
    sizes(p, outputs.len())?;
    length(MOST_STEPS, steps.len())?;
    if m == 0 {
        return Err((15, 0));
    }
    if bases.len() != p || bases.iter().any(|&b| b >= m) {
        return Err((16, 0));
    }
    chain(p, &steps, outputs)?;
    if values.len() < p + steps.len() + 1 || figures.len() < outputs.len() {
        return Err((5, 0));
    }
    values[0] = if m == 1 { 0 } else { 1 };
    values[1..=p].copy_from_slice(bases);
    for (i, &(first, second)) in steps.iter().enumerate() {
        let product = values[first as usize] as u128 * values[second as usize] as u128;
        values[p + 1 + i] = (product % m as u128) as u32;
    }
    for (i, &o) in outputs.iter().enumerate() {
        figures[i] = values[o as usize];
    }
    Ok(counts(&steps))
}

/// The product of the bases raised to the amounts of one payslip, modulo m, by a plain power loop.
pub fn figure(m: u32, bases: &[u32], payslip: &[u32]) -> u32 {
    let m = m as u64;
    let mut product = 1 % m;
    for (&base, &amount) in bases.iter().zip(payslip) {
        let (mut square, mut left) = (base as u64 % m, amount);
        while left > 0 {
            if left & 1 == 1 {
                product = product * square % m;
            }
            square = square * square % m;
            left >>= 1;
        }
    }
    product as u32
}

/// The most steps of a file of edition 1, and its bits of n.
pub const EDITION_STEPS: usize = 16_000;
const LENGTH_BITS: usize = 14;
const HEADER_BITS: usize = 4 + 4 + 6 + LENGTH_BITS;

/// The bytes of the longest file; its widest field has as many bits as n.
pub const LONGEST_FILE: usize =
    (HEADER_BITS + (2 * EDITION_STEPS + MOST_PAYSLIPS) * LENGTH_BITS).div_ceil(8);

/// Numbers enough to check any file's chain.
pub const EDITION_VALUES: usize = MOST_COLUMNS + EDITION_STEPS + 1;

fn bit_length(x: usize) -> usize {
    (usize::BITS - x.leading_zeros()) as usize
}

/// The bytes of the file of a chain with n steps.
pub fn file_length(p: usize, q: usize, n: usize) -> usize {
    (HEADER_BITS + bit_length(p + n) * (2 * n + q)).div_ceil(8)
}

/// W and the bytes of the file of a chain with n steps.
pub fn extent(p: usize, q: usize, n: usize) -> Answer {
    sizes(p, q)?;
    length(EDITION_STEPS, n)?;
    Ok(vec![bit_length(p + n) as u64, file_length(p, q, n) as u64])
}

/// The file of a legal chain, as a list of bits.
fn file_bits(p: usize, steps: &[(u32, u32)], outputs: &[u32]) -> Vec<bool> {
    let mut bits = vec![];
    let mut field = |width: usize, value: usize| {
        for place in (0..width).rev() {
            bits.push(value >> place & 1 == 1);
        }
    };
    let width = bit_length(p + steps.len());
    field(4, 1);
    field(4, p - 1);
    field(6, outputs.len() - 1);
    field(LENGTH_BITS, steps.len());
    for &(first, second) in steps {
        field(width, first as usize);
        field(width, second as usize);
    }
    for &o in outputs {
        field(width, o as usize);
    }
    bits
}

pub fn write(p: usize, steps: &[u32], outputs: &[u32], bytes: &mut [u8]) -> Answer {
    let steps = pairs(steps);
    sizes(p, outputs.len())?;
    length(EDITION_STEPS, steps.len())?;
    chain(p, &steps, outputs)?;
    let needed = file_length(p, outputs.len(), steps.len());
    if bytes.len() < needed {
        return Err((5, 0));
    }
    bytes[..needed].fill(0);
    for (i, bit) in file_bits(p, &steps, outputs).into_iter().enumerate() {
        if bit {
            bytes[i / 8] |= 0x80 >> (i % 8);
        }
    }
    Ok(vec![needed as u64])
}

pub fn read(bytes: &[u8], steps: &mut [u32], outputs: &mut [u32]) -> Answer {
    let bit = |at: usize| (bytes[at / 8] >> (7 - at % 8) & 1) as usize;
    let field = |at: usize, width: usize| (at..at + width).fold(0, |x, i| 2 * x + bit(i));
    if bytes.len() < 4 {
        return Err((6, 0));
    }
    if bytes[0] >> 4 != 1 {
        return Err((7, 0));
    }
    let (p, q, n) = (field(4, 4) + 1, field(8, 6) + 1, field(14, LENGTH_BITS));
    length(EDITION_STEPS, n)?;
    if bytes.len() != file_length(p, q, n) {
        return Err((6, 0));
    }
    if steps.len() / 2 < n || outputs.len() < q {
        return Err((5, 0));
    }
    let width = bit_length(p + n);
    let end = HEADER_BITS + width * (2 * n + q);
    if (end..8 * bytes.len()).any(|i| bit(i) == 1) {
        return Err((8, 0));
    }
    let numbers: Vec<u32> = (0..2 * n + q)
        .map(|i| field(HEADER_BITS + i * width, width) as u32)
        .collect();
    let made = pairs(&numbers[..2 * n]);
    chain(p, &made, &numbers[2 * n..])?;
    steps[..2 * n].copy_from_slice(&numbers[..2 * n]);
    outputs[..q].copy_from_slice(&numbers[2 * n..]);
    Ok([vec![p as u64, q as u64], counts(&made)].concat())
}

/// The slices lent to the whole path.
#[derive(Clone, Debug, PartialEq)]
pub struct Lent {
    pub steps: Vec<u32>,
    pub outputs: Vec<u32>,
    pub bytes: Vec<u8>,
    pub read_steps: Vec<u32>,
    pub read_outputs: Vec<u32>,
    pub scratch: Vec<u32>,
    pub values: Vec<u32>,
    pub figures: Vec<u32>,
}

/// The five calls in a row, each on exactly what the one before filled; the first refusal ends them.
pub fn path(job: &Job, m: u32, bases: &[u32], lent: &mut Lent) -> Answer {
    let compiled = compile(
        job.p,
        job.q,
        &job.amounts,
        job.method,
        job.parameter,
        &mut lent.steps,
        &mut lent.outputs,
    )?[0];
    let written = write(
        job.p,
        &lent.steps[..2 * compiled as usize],
        &lent.outputs[..job.q],
        &mut lent.bytes,
    )?[0];
    let read = read(
        &lent.bytes[..written as usize],
        &mut lent.read_steps,
        &mut lent.read_outputs,
    )?;
    let (p, q, n) = (read[0] as usize, read[1] as usize, read[2] as usize);
    let (steps, outputs) = (&lent.read_steps[..2 * n], &lent.read_outputs[..q]);
    verify(p, steps, outputs, &job.amounts, &mut lent.scratch)?;
    let made = run(
        p,
        steps,
        outputs,
        m,
        bases,
        &mut lent.values,
        &mut lent.figures,
    )?[0];
    Ok(vec![compiled, read[2], made])
}

/// The file chosen (1 or 2), or the refusal. Of the scratch it sees how many pairs, outputs and numbers are lent.
pub fn choose(
    p: usize,
    q: usize,
    amounts: &[u32],
    a: &[u8],
    b: &[u8],
    (pairs_lent, outputs_lent, numbers_lent): (usize, usize, usize),
) -> Answer {
    sizes(p, q)?;
    if amounts.len() != p * q {
        return Err((2, 0));
    }
    if pairs_lent < EDITION_STEPS || outputs_lent < MOST_PAYSLIPS || numbers_lent < EDITION_VALUES {
        return Err((5, 0));
    }
    let judge = |file: &[u8]| -> Result<u64, (u32, u64)> {
        let (mut steps, mut outputs) = (vec![0; 2 * EDITION_STEPS], vec![0; MOST_PAYSLIPS]);
        let read = read(file, &mut steps, &mut outputs)?;
        if read[0] != p as u64 || read[1] != q as u64 {
            return Err((14, 0));
        }
        let n = read[2];
        verify(
            p,
            &steps[..2 * n as usize],
            &outputs[..q],
            amounts,
            &mut vec![0; EDITION_VALUES],
        )?;
        Ok(n)
    };
    match (judge(a), judge(b)) {
        (Ok(m), Ok(n)) => Ok(vec![if m <= n { 1 } else { 2 }]),
        (Ok(_), Err(_)) => Ok(vec![1]),
        (Err(_), Ok(_)) => Ok(vec![2]),
        (Err(refusal), Err(_)) => Err(refusal),
    }
}

/// A chain as it is lent: p, the flat steps and the outputs.
pub type Part<'a> = (usize, &'a [u32], &'a [u32]);

/// Two chains as one.
pub fn pool(first: Part, second: Part, steps: &mut [u32], outputs: &mut [u32]) -> Answer {
    let ((p1, steps1, outputs1), (p2, steps2, outputs2)) = (first, second);
    let (steps1, steps2) = (pairs(steps1), pairs(steps2));
    let (n1, q1) = (steps1.len(), outputs1.len());
    sizes(p1, q1)?;
    sizes(p2, outputs2.len())?;
    if q1 + outputs2.len() > MOST_PAYSLIPS {
        return Err((1, 0));
    }
    if p1 != p2 {
        return Err((17, 0));
    }
    for n in [n1, steps2.len(), n1 + steps2.len()] {
        length(MOST_STEPS, n)?;
    }
    // a place in the second part comes after all of the first
    let after = |count: usize| move |(number, place)| (number, count as u64 + place);
    steps_in_order(p1, &steps1)?;
    steps_in_order(p2, &steps2).map_err(after(n1))?;
    outputs_in_order(p1 + n1, outputs1)?;
    outputs_in_order(p2 + steps2.len(), outputs2).map_err(after(q1))?;
    // what the second part's steps make comes after what the first's make; all else is shared
    let raised = |v: u32| v + if v as usize > p1 { n1 as u32 } else { 0 };
    let mut all_steps: Vec<u32> = vec![];
    for (first, second) in steps1 {
        all_steps.extend([first, second]);
    }
    for (first, second) in steps2 {
        all_steps.extend([raised(first), raised(second)]);
    }
    let mut all_outputs = outputs1.to_vec();
    all_outputs.extend(outputs2.iter().map(|&o| raised(o)));
    if steps.len() / 2 < all_steps.len() / 2 || outputs.len() < all_outputs.len() {
        return Err((5, 0));
    }
    steps[..all_steps.len()].copy_from_slice(&all_steps);
    outputs[..all_outputs.len()].copy_from_slice(&all_outputs);
    Ok(counts(&pairs(&all_steps)))
}

/// The bytes of a packed field, and the largest amount that its nine digits say.
pub const FIELD_BYTES: usize = 5;
pub const MOST_PACKED: u32 = 999_999_999;

/// The amount of a packed field, or 18, then 19. In hexadecimal a field is its nine digits and its sign as they are written.
fn amount(field: &[u8]) -> Result<u32, u32> {
    let halves: String = field.iter().map(|byte| format!("{byte:02X}")).collect();
    let (digits, sign) = halves.split_at(9);
    if digits.contains(|digit: char| !digit.is_ascii_digit()) || !["C", "D", "F"].contains(&sign) {
        return Err(18);
    }
    if sign == "D" {
        return Err(19);
    }
    Ok(digits.parse().unwrap())
}

/// A sheet of packed fields, read.
pub fn unpack(p: usize, q: usize, bytes: &[u8], amounts: &mut [u32]) -> Answer {
    sizes(p, q)?;
    if bytes.len() != FIELD_BYTES * p * q {
        return Err((2, 0));
    }
    let mut read = vec![];
    for (i, field) in bytes.chunks(FIELD_BYTES).enumerate() {
        read.push(amount(field).map_err(|number| (number, i as u64 + 1))?);
    }
    if amounts.len() < read.len() {
        return Err((5, 0));
    }
    amounts[..read.len()].copy_from_slice(&read);
    Ok(vec![read.len() as u64])
}

/// A sheet written as packed fields.
pub fn pack(p: usize, q: usize, amounts: &[u32], bytes: &mut [u8]) -> Answer {
    sizes(p, q)?;
    if amounts.len() != p * q {
        return Err((2, 0));
    }
    let mut written = vec![];
    for (i, &amount) in amounts.iter().enumerate() {
        if amount > MOST_PACKED {
            return Err((20, i as u64 + 1));
        }
        let halves = format!("{amount:09}C");
        let byte = |at: usize| u8::from_str_radix(&halves[at..at + 2], 16).unwrap();
        written.extend((0..halves.len()).step_by(2).map(byte));
    }
    if bytes.len() < written.len() {
        return Err((5, 0));
    }
    bytes[..written.len()].copy_from_slice(&written);
    Ok(vec![amounts.len() as u64])
}

/// What the listing program writes.
pub fn listing(bytes: &[u8]) -> String {
    let lines = || -> Result<String, (u32, u64)> {
        if bytes.len() > LONGEST_FILE {
            return Err((6, 0));
        }
        let (mut steps, mut outputs) = (vec![0; 2 * EDITION_STEPS], vec![0; MOST_PAYSLIPS]);
        let read = read(bytes, &mut steps, &mut outputs)?;
        let (p, q, n) = (read[0] as usize, read[1] as usize, read[2] as usize);
        let all = exponents(p, &pairs(&steps[..2 * n]));
        if all.iter().flatten().any(|&e| e > MOST_AMOUNT) {
            return Err((13, 0));
        }
        let mut text = format!("{p} {q} {n}\n");
        for (i, &o) in outputs[..q].iter().enumerate() {
            text += &format!("{}", i + 1);
            for e in &all[o as usize] {
                text += &format!(" {e}");
            }
            text += "\n";
        }
        Ok(text)
    };
    lines().unwrap_or_else(|(number, _)| format!("refused {number}\n"))
}
