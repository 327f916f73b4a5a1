//! The three methods in plain Rust, written for speed: what compile and the ceiling are measured against.

use crate::plain::counts;
use spoutbasket::{MOST_COLUMNS, MOST_PAYSLIPS, MOST_STEPS};

/// The count and the ceiling of a sheet, a method and a parameter that are fit.
#[inline(always)]
pub fn quote(
    p: usize,
    q: usize,
    amounts: &[u32],
    method: usize,
    k: usize,
) -> Result<(usize, usize), (u32, usize)> {
    if p == 0 || p > MOST_COLUMNS || q == 0 || q > MOST_PAYSLIPS {
        return Err((1, 0));
    }
    if amounts.len() != p * q {
        return Err((2, 0));
    }
    let fits = match method {
        1 => (1..=5).contains(&k) && p * k <= 10,
        2 | 3 => (1..=8).contains(&k),
        _ => false,
    };
    if !fits {
        return Err((3, 0));
    }
    Ok(match method {
        1 => straus_quote(p, amounts, k),
        2 => yao_quote(p, amounts, k),
        _ => partition_quote(p, amounts, k),
    })
}

/// Compile: counted and judged before anything is stored.
pub fn compile(
    p: usize,
    q: usize,
    amounts: &[u32],
    method: usize,
    k: usize,
    steps: &mut [u32],
    outputs: &mut [u32],
) -> Result<[u64; 3], (u32, usize)> {
    let (n, _) = quote(p, q, amounts, method, k)?;
    if n > MOST_STEPS {
        return Err((4, 0));
    }
    if steps.len() / 2 < n || outputs.len() < q {
        return Err((5, 0));
    }
    let mut steps = Steps {
        p,
        steps,
        n: 0,
        squarings: 0,
    };
    match method {
        1 => straus(p, amounts, k, &mut steps, outputs),
        2 => yao(p, amounts, k, &mut steps, outputs),
        _ => partition(p, amounts, k, &mut steps, outputs),
    }
    Ok(counts(n, steps.squarings))
}

/// The steps stored so far, and how many of them are squarings.
struct Steps<'a> {
    p: usize,
    steps: &'a mut [u32],
    n: usize,
    squarings: usize,
}

impl Steps<'_> {
    /// The product of two values, of which 0 is the empty one.
    #[inline]
    fn times(&mut self, a: u32, b: u32) -> u32 {
        if a == 0 || b == 0 {
            return a + b;
        }
        self.steps[2 * self.n] = a.max(b);
        self.steps[2 * self.n + 1] = a.min(b);
        self.n += 1;
        self.squarings += (a == b) as usize;
        (self.p + self.n) as u32
    }

    #[inline]
    fn squared(&mut self, mut value: u32, times: usize) -> u32 {
        for _ in 0..times {
            value = self.times(value, value);
        }
        value
    }

    /// The values of all vectors of digits below 2^k over the inputs, by number.
    fn table(&mut self, k: usize, inputs: &[u32], values: &mut [u32]) {
        values[0] = 0;
        for t in 1..1usize << (k * inputs.len()) {
            let lowest = t.trailing_zeros() as usize / k;
            values[t] = self.times(values[t - (1 << (k * lowest))], inputs[lowest]);
        }
    }
}

fn digit_count(k: usize, amount: u32) -> usize {
    ((u32::BITS - amount.leading_zeros()) as usize).div_ceil(k)
}

#[inline]
fn digit(k: usize, amount: u32, place: usize) -> usize {
    (amount >> (k * place)) as usize & ((1 << k) - 1)
}

/// The digits of the largest amount of each column.
fn column_digits(p: usize, amounts: &[u32], k: usize) -> [usize; MOST_COLUMNS] {
    let mut most = [0; MOST_COLUMNS];
    for slip in amounts.chunks_exact(p) {
        for (most, &amount) in most.iter_mut().zip(slip) {
            *most = amount.max(*most);
        }
    }
    most.map(|most| digit_count(k, most))
}

/// The number of a payslip's digit vector at a place.
#[inline]
fn vector(k: usize, slip: &[u32], place: usize) -> usize {
    slip.iter()
        .rev()
        .fold(0, |t, &amount| t << k | digit(k, amount, place))
}

/// All digits of a payslip, one over the other: its length is that of the largest amount, and a digit is 0 exactly where all are.
fn over(slip: &[u32]) -> u32 {
    slip.iter().fold(0, |all, &amount| all | amount)
}

#[inline(always)]
fn straus_quote(p: usize, amounts: &[u32], k: usize) -> (usize, usize) {
    let mut n = (1 << (p * k)) - p - 1;
    let mut ceiling = n;
    for slip in amounts.chunks_exact(p) {
        let all = over(slip);
        let lower = digit_count(k, all).saturating_sub(1);
        n += lower * k;
        n += (0..lower).filter(|&place| digit(k, all, place) > 0).count();
        ceiling += lower * (k + 1);
    }
    (n, ceiling)
}

fn straus(p: usize, amounts: &[u32], k: usize, steps: &mut Steps, outputs: &mut [u32]) {
    let mut bases = [0; MOST_COLUMNS];
    for (c, base) in bases.iter_mut().enumerate() {
        *base = c as u32 + 1;
    }
    let mut table = [0; 1024];
    steps.table(k, &bases[..p], &mut table);
    for (slip, output) in amounts.chunks_exact(p).zip(outputs) {
        let mut value = 0;
        for place in (0..digit_count(k, over(slip))).rev() {
            value = steps.squared(value, k);
            value = steps.times(value, table[vector(k, slip, place)]);
        }
        *output = value;
    }
}

#[inline(always)]
fn yao_quote(p: usize, amounts: &[u32], k: usize) -> (usize, usize) {
    let columns = column_digits(p, amounts, k);
    let mut n = 0;
    for j in &columns[..p] {
        n += j.saturating_sub(1) * k;
    }
    let mut ceiling = n;
    for slip in amounts.chunks_exact(p) {
        let mut nonzero = 0;
        for (&amount, &j) in slip.iter().zip(&columns) {
            if amount == 0 {
                continue;
            }
            let (mut digits, mut most) = (0, 0);
            for place in 0..digit_count(k, amount) {
                let d = digit(k, amount, place);
                digits += (d > 0) as usize;
                most = d.max(most);
            }
            n += digits + most - 2;
            ceiling += j + (1 << k) - 3;
            nonzero += 1;
        }
        let joined = usize::saturating_sub(nonzero, 1);
        n += joined;
        ceiling += joined;
    }
    (n, ceiling)
}

fn yao(p: usize, amounts: &[u32], k: usize, steps: &mut Steps, outputs: &mut [u32]) {
    let columns = column_digits(p, amounts, k);
    let mut powers = [[0; 32]; MOST_COLUMNS];
    for (c, (powers, &j)) in powers.iter_mut().zip(&columns).enumerate() {
        let mut value = c as u32 + 1;
        for (i, power) in powers[..j].iter_mut().enumerate() {
            value = steps.squared(value, if i == 0 { 0 } else { k });
            *power = value;
        }
    }
    for (slip, output) in amounts.chunks_exact(p).zip(outputs) {
        let mut product = 0;
        for (&amount, powers) in slip.iter().zip(&powers) {
            let mut digits = [0; 32];
            let j = digit_count(k, amount);
            for (place, d) in digits[..j].iter_mut().enumerate() {
                *d = digit(k, amount, place);
            }
            let most = digits[..j].iter().max().copied().unwrap_or(0);
            let (mut a, mut b) = (0, 0);
            for d in (1..=most).rev() {
                for place in 0..j {
                    if digits[place] == d {
                        b = steps.times(b, powers[place]);
                    }
                }
                a = steps.times(a, b);
            }
            product = steps.times(product, a);
        }
        *output = product;
    }
}

/// The parts of a payslip that are not empty: the group and the number of the subset. The payslip's bits are laid in a row and cut into groups of c.
#[inline]
fn parts(slip: &[u32], bits: &[usize], c: usize, mut part: impl FnMut(usize, usize)) {
    let (mut row, mut held, mut group) = (0u64, 0, 0);
    for (&amount, &width) in slip.iter().zip(bits) {
        row |= (amount as u64) << held;
        held += width;
        while held >= c {
            let t = row as usize & ((1 << c) - 1);
            if t > 0 {
                part(group, t);
            }
            row >>= c;
            held -= c;
            group += 1;
        }
    }
    if row > 0 {
        part(group, row as usize);
    }
}

#[inline(always)]
fn partition_quote(p: usize, amounts: &[u32], c: usize) -> (usize, usize) {
    let bits = column_digits(p, amounts, 1);
    let w: usize = bits.iter().sum();
    let mut n = w - bits.iter().filter(|&&width| width > 0).count();
    n += w / c * ((1 << c) - c - 1);
    n += (1 << (w % c)) - w % c - 1;
    let mut ceiling = n;
    for slip in amounts.chunks_exact(p) {
        let mut nonempty = 0usize;
        parts(slip, &bits, c, |_, _| nonempty += 1);
        n += nonempty.saturating_sub(1);
        ceiling += w.div_ceil(c).saturating_sub(1);
    }
    (n, ceiling)
}

fn partition(p: usize, amounts: &[u32], c: usize, steps: &mut Steps, outputs: &mut [u32]) {
    let bits = column_digits(p, amounts, 1);
    let (mut inputs, mut w) = ([0; 32 * MOST_COLUMNS], 0);
    for (column, &width) in bits.iter().enumerate() {
        let mut value = column as u32 + 1;
        for i in 0..width {
            value = steps.squared(value, (i > 0) as usize);
            inputs[w] = value;
            w += 1;
        }
    }
    let mut tables = vec![0; w.div_ceil(c) << c];
    for (group, table) in inputs[..w].chunks(c).zip(tables.chunks_exact_mut(1 << c)) {
        steps.table(1, group, table);
    }
    for (slip, output) in amounts.chunks_exact(p).zip(outputs) {
        let mut product = 0;
        parts(slip, &bits, c, |group, t| {
            product = steps.times(product, tables[(group << c) + t]);
        });
        *output = product;
    }
}
