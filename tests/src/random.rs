//! Random numbers from a fixed seed, random chains, sheets, packed fields, moduli and bases.

use crate::compiler::{jobs, methods, Job};
use crate::reference::{counts, exponents, pairs, Part, FIELD_BYTES};
use crate::reference::{MOST_AMOUNT, MOST_COLUMNS, MOST_PAYSLIPS};

/// splitmix64.
pub struct Random(pub u64);

impl Random {
    pub fn word(&mut self) -> u64 {
        self.0 = self.0.wrapping_add(0x9e37_79b9_7f4a_7c15);
        let mut z = self.0;
        z = (z ^ (z >> 30)).wrapping_mul(0xbf58_476d_1ce4_e5b9);
        z = (z ^ (z >> 27)).wrapping_mul(0x94d0_49bb_1331_11eb);
        z ^ (z >> 31)
    }

    /// A number below `end`.
    pub fn below(&mut self, end: usize) -> usize {
        (self.word() % end as u64) as usize
    }

    /// A number from `low` to `high`.
    pub fn within(&mut self, low: usize, high: usize) -> usize {
        low + self.below(high - low + 1)
    }

    pub fn one_in(&mut self, n: usize) -> bool {
        self.below(n) == 0
    }

    pub fn pick<T: Copy>(&mut self, from: &[T]) -> T {
        from[self.below(from.len())]
    }

    pub fn words(&mut self, n: usize) -> Vec<u32> {
        (0..n).map(|_| self.word() as u32).collect()
    }

    pub fn bytes(&mut self, n: usize) -> Vec<u8> {
        (0..n).map(|_| self.word() as u8).collect()
    }
}

/// A chain as it is lent.
#[derive(Clone, Debug)]
pub struct Chain {
    pub p: usize,
    pub steps: Vec<u32>,
    pub outputs: Vec<u32>,
}

impl Chain {
    /// The chain as a part of a pool.
    pub fn part(&self) -> Part<'_> {
        (self.p, &self.steps, &self.outputs)
    }

    /// The chain's n, squarings and products.
    pub fn counts(&self) -> Vec<u64> {
        counts(&pairs(&self.steps))
    }

    /// The amounts of the sheet that a legal chain makes, if they are not too large.
    pub fn amounts(&self) -> Option<Vec<u32>> {
        let all = exponents(self.p, &pairs(&self.steps));
        if all.iter().flatten().any(|&e| e > MOST_AMOUNT) {
            return None;
        }
        let made = self.outputs.iter().flat_map(|&o| &all[o as usize]);
        Some(made.map(|&e| e as u32).collect())
    }
}

/// A legal chain. Where `slow`, the second operand is mostly a base, so that exponents stay small; else mostly the last value is squared.
pub fn legal_chain(r: &mut Random, p: usize, q: usize, n: usize, slow: bool) -> Chain {
    let mut steps = Vec::with_capacity(2 * n);
    for s in 1..=n {
        let v = p + s;
        let near = if slow { r.one_in(3) } else { !r.one_in(10) };
        let a = if near { v - 1 } else { r.within(1, v - 1) };
        let b = match slow {
            true if !r.one_in(40) => r.within(1, p),
            false if !r.one_in(10) => a,
            _ => r.within(1, v - 1),
        };
        steps.push(a.max(b) as u32);
        steps.push(a.min(b) as u32);
    }
    let outputs = (0..q)
        .map(|_| {
            if r.one_in(6) {
                0
            } else {
                r.within(0, p + n) as u32
            }
        })
        .collect();
    Chain { p, steps, outputs }
}

/// A modulus, often one at an edge.
pub fn modulus(r: &mut Random) -> u32 {
    let any = r.word() as u32 | 1;
    r.pick(&[
        1,
        2,
        3,
        7,
        1000,
        10_000,
        65_537,
        2_147_483_648,
        u32::MAX - 1,
        u32::MAX,
        any,
        any >> 9,
    ])
}

/// Bases below the modulus, often 0 or the largest.
pub fn bases(r: &mut Random, p: usize, m: u32) -> Vec<u32> {
    (0..p)
        .map(|_| {
            if r.one_in(5) {
                0
            } else if r.one_in(5) {
                m - 1
            } else {
                r.below(m as usize) as u32
            }
        })
        .collect()
}

/// The amounts of a sheet: up to `bits` bits, zeros, whole zero payslips and columns, powers of two and numbers just below them.
pub fn sheet(r: &mut Random, p: usize, q: usize, bits: usize) -> Vec<u32> {
    let empty: Vec<bool> = (0..p).map(|_| r.one_in(8)).collect();
    let mut amounts = vec![];
    for _ in 0..q {
        let none = r.one_in(8);
        for &empty in &empty {
            let any = r.word() & ((1 << bits) - 1);
            let power = 1 << r.within(0, bits.saturating_sub(1));
            let amount = match r.below(8) {
                _ if none || empty || bits == 0 => 0,
                0 => 0,
                1 => power,
                2 => power - 1,
                _ => any,
            };
            amounts.push(amount as u32);
        }
    }
    amounts
}

/// The fields of a packed sheet, with sign C or F, of amounts of all numbers of digits: some are 0, some have only digits 9.
pub fn fields(r: &mut Random, p: usize, q: usize) -> Vec<u8> {
    let mut fields = Vec::with_capacity(FIELD_BYTES * p * q);
    for _ in 0..p * q {
        let end = 10_usize.pow(r.within(0, 9) as u32);
        let amount = match r.below(4) {
            0 => end - 1,
            _ => r.below(end),
        };
        let sign = r.pick(&[0xC, 0xF]);
        // the digits in decimal, read as if they were hexadecimal, are one half each
        let digits = u64::from_str_radix(&amount.to_string(), 16).unwrap();
        fields.extend(&(digits << 4 | sign).to_be_bytes()[8 - FIELD_BYTES..]);
    }
    fields
}

/// A sheet with a method and a parameter that go with it; its chain may be too long.
pub fn job(r: &mut Random, most_columns: usize, most_payslips: usize) -> Job {
    let (p, q) = (r.within(1, most_columns), r.within(1, most_payslips));
    let bits = r.below(33);
    let amounts = sheet(r, p, q, bits);
    let (method, parameter) = r.pick(&methods(p));
    Job::new(p, q, &amounts, method, parameter)
}

/// Makes one thing wrong, or odd, of what a job is asked for with.
pub fn damage(r: &mut Random, job: &mut Job) {
    match r.below(6) {
        0 => job.p = r.pick(&[0, 17, usize::MAX, 1 << 63, 3]),
        1 => job.q = r.pick(&[0, 65, usize::MAX, 1 << 63, 3]),
        2 => {
            job.amounts.pop();
        }
        3 => job.amounts.push(0),
        4 => job.method = r.pick(&[0, 4, usize::MAX, (1 << 32) + 1]),
        _ => job.parameter = r.pick(&[0, 6, 9, usize::MAX, 1 << 63, (1 << 32) + 1]),
    }
}

/// A sheet, of any size in every fourth round and else a small one, by each method and parameter that go with it.
pub fn jobs_in_round(r: &mut Random, round: usize) -> Vec<Job> {
    let (p, q) = match round % 4 {
        0 => (r.within(1, MOST_COLUMNS), r.within(1, MOST_PAYSLIPS)),
        _ => (r.within(1, 10), r.within(1, 12)),
    };
    let bits = r.below(33);
    jobs(p, q, &sheet(r, p, q, bits))
}

/// A job of the most columns and payslips whose count is just n: amounts are raised one by one as long as the count stays within n.
pub fn job_counting(n: usize, method: usize, parameter: usize) -> Job {
    let mut r = Random(n as u64);
    let zeros = [0; MOST_COLUMNS * MOST_PAYSLIPS];
    let mut job = Job::new(MOST_COLUMNS, MOST_PAYSLIPS, &zeros, method, parameter);
    let mut count = job.count();
    while count != n {
        let at = r.below(job.amounts.len());
        let before = job.amounts[at];
        let (bit, any) = (1 << r.below(32), r.word() as u32);
        job.amounts[at] |= r.pick(&[bit, any, u32::MAX]);
        let raised = job.count();
        if raised <= n {
            count = raised;
        } else {
            job.amounts[at] = before;
        }
    }
    job
}
