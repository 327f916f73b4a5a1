//! The same jobs in plain Rust, written for speed: what the library is measured against.

use spoutbasket::{FIELD_BYTES, MOST_COLUMNS, MOST_PAYSLIPS, MOST_STEPS};
use spoutbasket_tests::reference::Part;

/// A chain's n, squarings and products.
pub fn counts(n: usize, squarings: usize) -> [u64; 3] {
    [n, squarings, n - squarings].map(|count| count as u64)
}

/// The check of a legal chain that fits: column by column over the scratch, like the library.
pub fn verify(
    p: usize,
    steps: &[u32],
    outputs: &[u32],
    amounts: &[u32],
    scratch: &mut [u32],
) -> Result<[u64; 3], (u32, usize)> {
    let squarings = judge(p, steps, outputs)?;
    let n = steps.len() / 2;
    if amounts.len() != p * outputs.len() {
        return Err((2, 0));
    }
    if scratch.len() < p + n + 1 {
        return Err((5, 0));
    }
    let (mut large, mut other) = (usize::MAX, usize::MAX);
    for c in 0..p {
        scratch[..=p].fill(0);
        scratch[c + 1] = 1;
        for (s, pair) in steps.chunks_exact(2).enumerate() {
            let sum = scratch[pair[0] as usize] as u64 + scratch[pair[1] as usize] as u64;
            if sum > u32::MAX as u64 {
                large = large.min(s + 1);
                break;
            }
            scratch[p + 1 + s] = sum as u32;
        }
        if large == usize::MAX {
            for (i, &o) in outputs.iter().enumerate() {
                if scratch[o as usize] != amounts[i * p + c] {
                    other = other.min(i + 1);
                    break;
                }
            }
        }
    }
    scratch[..p + n + 1].fill(0);
    if large != usize::MAX {
        return Err((13, large));
    }
    if other != usize::MAX {
        return Err((14, other));
    }
    Ok(counts(n, squarings))
}

/// The run.
pub fn run(
    p: usize,
    steps: &[u32],
    outputs: &[u32],
    m: u32,
    bases: &[u32],
    values: &mut [u32],
    figures: &mut [u32],
) -> Result<[u64; 3], (u32, usize)> {
    let squarings = judge(p, steps, outputs)?;
    let n = steps.len() / 2;
    if m == 0 {
        return Err((15, 0));
    }
    if bases.len() != p || bases.iter().any(|&b| b >= m) {
        return Err((16, 0));
    }
    if values.len() < p + n + 1 || figures.len() < outputs.len() {
        return Err((5, 0));
    }
    values[0] = 1 % m;
    values[1..=p].copy_from_slice(bases);
    for (s, pair) in steps.chunks_exact(2).enumerate() {
        let product = values[pair[0] as usize] as u64 * values[pair[1] as usize] as u64;
        values[p + 1 + s] = (product % m as u64) as u32;
    }
    for (figure, &o) in figures.iter_mut().zip(outputs) {
        *figure = values[o as usize];
    }
    Ok(counts(n, squarings))
}

/// The pool of two chains, each p, steps and outputs, judged before anything is stored.
pub fn pool(
    first: Part,
    second: Part,
    steps: &mut [u32],
    outputs: &mut [u32],
) -> Result<[u64; 3], (u32, usize)> {
    let ((p, steps1, outputs1), (p2, steps2, outputs2)) = (first, second);
    let (n1, q1) = (steps1.len() / 2, outputs1.len());
    let (n, q) = (n1 + steps2.len() / 2, q1 + outputs2.len());
    sizes(p, q1)?;
    sizes(p2, outputs2.len())?;
    sizes(p, q)?;
    if p2 != p {
        return Err((17, 0));
    }
    if n > MOST_STEPS {
        return Err((4, 0));
    }
    let squarings =
        judge_steps(p, steps1)? + judge_steps(p, steps2).map_err(|(number, s)| (number, n1 + s))?;
    judge_outputs(p + n1, outputs1)?;
    judge_outputs(p + n - n1, outputs2).map_err(|(number, i)| (number, q1 + i))?;
    if steps.len() / 2 < n || outputs.len() < q {
        return Err((5, 0));
    }
    // value 0 and the bases are both parts'
    let raised = |v: u32| if v as usize > p { v + n1 as u32 } else { v };
    steps[..2 * n1].copy_from_slice(&steps1[..2 * n1]);
    for (x, &v) in steps[2 * n1..2 * n].iter_mut().zip(steps2) {
        *x = raised(v);
    }
    outputs[..q1].copy_from_slice(outputs1);
    for (x, &v) in outputs[q1..q].iter_mut().zip(outputs2) {
        *x = raised(v);
    }
    Ok(counts(n, squarings))
}

/// A sheet of packed fields, all judged before an amount is stored.
pub fn unpack(
    p: usize,
    q: usize,
    bytes: &[u8],
    amounts: &mut [u32],
) -> Result<usize, (u32, usize)> {
    sizes(p, q)?;
    if bytes.len() != FIELD_BYTES * p * q {
        return Err((2, 0));
    }
    let fields = bytes.chunks_exact(FIELD_BYTES);
    for (i, field) in fields.clone().enumerate() {
        judge_field(field).map_err(|number| (number, i + 1))?;
    }
    if amounts.len() < p * q {
        return Err((5, 0));
    }
    for (amount, field) in amounts.iter_mut().zip(fields) {
        let pairs = field[..4]
            .iter()
            .map(|&byte| (byte >> 4) * 10 + (byte & 15));
        let front = pairs.fold(0, |front, pair| front * 100 + u32::from(pair));
        *amount = front * 10 + u32::from(field[4] >> 4);
    }
    Ok(p * q)
}

/// 18 for a digit above 9 or no sign, 19 for a minus.
fn judge_field(field: &[u8]) -> Result<(), u32> {
    let low = |byte: &u8| byte & 15 <= 9;
    if field.iter().any(|&byte| byte >> 4 > 9) || !field[..4].iter().all(low) {
        return Err(18);
    }
    match field[4] & 15 {
        0xC | 0xF => Ok(()),
        0xD => Err(19),
        _ => Err(18),
    }
}

/// The packed fields of a sheet, likewise.
pub fn pack(p: usize, q: usize, amounts: &[u32], bytes: &mut [u8]) -> Result<usize, (u32, usize)> {
    sizes(p, q)?;
    if amounts.len() != p * q {
        return Err((2, 0));
    }
    if let Some(i) = amounts.iter().position(|&amount| amount > 999_999_999) {
        return Err((20, i + 1));
    }
    if bytes.len() < FIELD_BYTES * p * q {
        return Err((5, 0));
    }
    for (field, &amount) in bytes.chunks_exact_mut(FIELD_BYTES).zip(amounts) {
        field[4] = ((amount % 10) << 4) as u8 | 0xC;
        let mut front = amount / 10;
        for byte in field[..4].iter_mut().rev() {
            let pair = front % 100;
            *byte = ((pair / 10) << 4 | (pair % 10)) as u8;
            front /= 100;
        }
    }
    Ok(p * q)
}

/// The step after s others: 9, 10, 11.
#[inline]
fn step(p: usize, s: usize, a: usize, b: usize) -> Result<(), (u32, usize)> {
    let v = p + s + 1;
    if a == 0 || b == 0 {
        return Err((9, s + 1));
    }
    if a >= v || b >= v {
        return Err((10, s + 1));
    }
    if a < b {
        return Err((11, s + 1));
    }
    Ok(())
}

/// Legality: 1, 4, steps, 12; and the squarings, which in a caller that has no use for them are not counted.
#[inline(always)]
fn judge(p: usize, steps: &[u32], outputs: &[u32]) -> Result<usize, (u32, usize)> {
    let n = steps.len() / 2;
    sizes(p, outputs.len())?;
    if n > MOST_STEPS {
        return Err((4, 0));
    }
    let squarings = judge_steps(p, steps)?;
    judge_outputs(p + n, outputs)?;
    Ok(squarings)
}

fn sizes(p: usize, q: usize) -> Result<(), (u32, usize)> {
    if p == 0 || p > MOST_COLUMNS || q == 0 || q > MOST_PAYSLIPS {
        return Err((1, 0));
    }
    Ok(())
}

#[inline(always)]
fn judge_steps(p: usize, steps: &[u32]) -> Result<usize, (u32, usize)> {
    let mut squarings = 0;
    for (s, pair) in steps.chunks_exact(2).enumerate() {
        step(p, s, pair[0] as usize, pair[1] as usize)?;
        squarings += (pair[0] == pair[1]) as usize;
    }
    Ok(squarings)
}

/// 12 for an output above the last value.
fn judge_outputs(last: usize, outputs: &[u32]) -> Result<(), (u32, usize)> {
    match outputs.iter().position(|&o| o as usize > last) {
        Some(i) => Err((12, i + 1)),
        None => Ok(()),
    }
}

fn width(p: usize, n: usize) -> usize {
    (usize::BITS - (p + n).leading_zeros()) as usize
}

/// A writer of bit fields with a 64-bit store of pending bits.
struct Put<'a> {
    bytes: &'a mut [u8],
    at: usize,
    pending: u64,
    bits: u32,
}

impl Put<'_> {
    #[inline]
    fn field(&mut self, width: usize, value: u64) {
        self.pending = self.pending << width | value;
        self.bits += width as u32;
        while self.bits >= 8 {
            self.bits -= 8;
            self.bytes[self.at] = (self.pending >> self.bits) as u8;
            self.at += 1;
        }
    }
}

/// The file of a chain.
pub fn write(
    p: usize,
    steps: &[u32],
    outputs: &[u32],
    bytes: &mut [u8],
) -> Result<usize, (u32, usize)> {
    judge(p, steps, outputs)?;
    let (n, q) = (steps.len() / 2, outputs.len());
    let w = width(p, n);
    let length = (28 + (2 * n + q) * w).div_ceil(8);
    if bytes.len() < length {
        return Err((5, 0));
    }
    let mut put = Put {
        bytes,
        at: 0,
        pending: 0,
        bits: 0,
    };
    put.field(4, 1);
    put.field(4, p as u64 - 1);
    put.field(6, q as u64 - 1);
    put.field(14, n as u64);
    for &x in &steps[..2 * n] {
        put.field(w, x as u64);
    }
    for &x in outputs {
        put.field(w, x as u64);
    }
    let fill = (8 - put.bits % 8) % 8;
    put.field(fill as usize, 0);
    Ok(length)
}

/// A reader of bit fields, likewise.
struct Take<'a> {
    bytes: &'a [u8],
    at: usize,
    pending: u64,
    bits: u32,
}

impl Take<'_> {
    #[inline]
    fn field(&mut self, width: usize) -> u64 {
        while self.bits < width as u32 {
            self.pending = self.pending << 8 | self.bytes[self.at] as u64;
            self.at += 1;
            self.bits += 8;
        }
        self.bits -= width as u32;
        self.pending >> self.bits & ((1 << width) - 1)
    }
}

/// A file, judged before anything is stored.
pub fn read(
    bytes: &[u8],
    steps: &mut [u32],
    outputs: &mut [u32],
) -> Result<[u64; 5], (u32, usize)> {
    if bytes.len() < 4 {
        return Err((6, 0));
    }
    let mut take = Take {
        bytes,
        at: 0,
        pending: 0,
        bits: 0,
    };
    if take.field(4) != 1 {
        return Err((7, 0));
    }
    let (p, q, n) = (
        take.field(4) as usize + 1,
        take.field(6) as usize + 1,
        take.field(14) as usize,
    );
    if n > MOST_STEPS {
        return Err((4, 0));
    }
    let w = width(p, n);
    let bits = 28 + (2 * n + q) * w;
    if bytes.len() != bits.div_ceil(8) {
        return Err((6, 0));
    }
    if steps.len() / 2 < n || outputs.len() < q {
        return Err((5, 0));
    }
    let fill = 8 * bytes.len() - bits;
    if bytes[bytes.len() - 1] & ((1u16 << fill) - 1) as u8 != 0 {
        return Err((8, 0));
    }
    let mut judged = Take {
        bytes,
        at: take.at,
        pending: take.pending,
        bits: take.bits,
    };
    let mut squarings = 0;
    for s in 0..n {
        let (a, b, v) = (
            judged.field(w) as usize,
            judged.field(w) as usize,
            p + s + 1,
        );
        if a == 0 || b == 0 {
            return Err((9, s + 1));
        }
        if a >= v || b >= v {
            return Err((10, s + 1));
        }
        if a < b {
            return Err((11, s + 1));
        }
        squarings += (a == b) as usize;
    }
    for i in 0..q {
        if judged.field(w) as usize > p + n {
            return Err((12, i + 1));
        }
    }
    for x in &mut steps[..2 * n] {
        *x = take.field(w) as u32;
    }
    for x in &mut outputs[..q] {
        *x = take.field(w) as u32;
    }
    let [n, squarings, products] = counts(n, squarings);
    Ok([p as u64, q as u64, n, squarings, products])
}
