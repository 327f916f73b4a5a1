//! The three methods in plain Rust, from the specification's words: the chain that a method makes of a sheet, and apart from the chain
//! its count and its ceiling by the closed formulas.

use crate::reference::{counts, length, sizes, Answer, MOST_STEPS};

/// What compile is asked for: a sheet, a method and a parameter.
#[derive(Clone, Debug)]
pub struct Job {
    pub p: usize,
    pub q: usize,
    pub amounts: Vec<u32>,
    pub method: usize,
    pub parameter: usize,
}

impl Job {
    pub fn new(p: usize, q: usize, amounts: &[u32], method: usize, parameter: usize) -> Job {
        Job {
            p,
            q,
            amounts: amounts.to_vec(),
            method,
            parameter,
        }
    }

    /// The method as it is written, as `straus:1`.
    pub fn method_name(&self) -> String {
        let name = ["straus", "yao", "partition"][self.method - 1];
        format!("{name}:{}", self.parameter)
    }

    /// The chain, where sheet, method and parameter are fit.
    pub fn chain(&self) -> (Vec<(u32, u32)>, Vec<u32>) {
        make(self.p, self.q, &self.amounts, self.method, self.parameter)
    }

    /// The chain's n, squarings and products.
    pub fn counts(&self) -> Vec<u64> {
        counts(&self.chain().0)
    }

    pub fn count(&self) -> usize {
        count(self.p, self.q, &self.amounts, self.method, self.parameter)
    }

    pub fn ceiling(&self) -> usize {
        ceiling(self.p, self.q, &self.amounts, self.method, self.parameter)
    }
}

/// The methods and parameters that go with p columns.
pub fn methods(p: usize) -> Vec<(usize, usize)> {
    (1..=3)
        .flat_map(|method| (1..=8).map(move |k| (method, k)))
        .filter(|&(method, k)| judge_method(p, method, k).is_ok())
        .collect()
}

/// A sheet by each method and parameter that go with its columns.
pub fn jobs(p: usize, q: usize, amounts: &[u32]) -> Vec<Job> {
    let job = |(method, k)| Job::new(p, q, amounts, method, k);
    methods(p).into_iter().map(job).collect()
}

/// 3: the method's number and its own range of parameters.
fn judge_method(p: usize, method: usize, k: usize) -> Result<(), (u32, u64)> {
    let fits = match method {
        1 => (1..=5).contains(&k) && p * k <= 10,
        2 => (1..=8).contains(&k),
        3 => (1..=8).contains(&k),
        _ => false,
    };
    if fits {
        Ok(())
    } else {
        Err((3, 0))
    }
}

struct Sheet<'a> {
    p: usize,
    amounts: &'a [u32],
}

impl Sheet<'_> {
    fn payslips(&self) -> impl Iterator<Item = &[u32]> {
        self.amounts.chunks_exact(self.p)
    }

    /// The largest amount of each column.
    fn columns(&self) -> Vec<u32> {
        (0..self.p)
            .map(|c| self.payslips().map(|slip| slip[c]).max().unwrap())
            .collect()
    }
}

/// The digits of an amount in base 2^k, lowest first; 0 has none.
fn digits(k: usize, amount: u32) -> Vec<usize> {
    let mut found = vec![];
    let mut left = amount as usize;
    while left > 0 {
        found.push(left % (1 << k));
        left /= 1 << k;
    }
    found
}

/// The digit at a place, 0 above the top one.
fn digit(k: usize, amount: u32, place: usize) -> usize {
    amount as usize / (1 << (k * place)) % (1 << k)
}

/// The steps made so far, over p bases.
struct Steps {
    p: usize,
    made: Vec<(u32, u32)>,
}

impl Steps {
    /// A step, larger operand first; its value number.
    fn product(&mut self, a: u32, b: u32) -> u32 {
        assert!(a > 0 && b > 0, "no step takes the empty product");
        self.made.push((a.max(b), a.min(b)));
        (self.p + self.made.len()) as u32
    }

    /// A multiplication in which a side may be empty: that is a copy and no step.
    fn join(&mut self, a: Option<u32>, b: Option<u32>) -> Option<u32> {
        match (a, b) {
            (Some(a), Some(b)) => Some(self.product(a, b)),
            (some, None) | (None, some) => some,
        }
    }

    /// The values of all vectors of digits below 2^k over the inputs, by their numbers t: the first input has weight 1, each next one 2^k times
    /// the weight before. Zero and units are there; any other is one step, from the vector with one less of the first input that it has, and that input.
    fn table(&mut self, k: usize, inputs: &[u32]) -> Vec<Option<u32>> {
        let mut values = vec![None];
        for t in 1..1usize << (k * inputs.len()) {
            let lowest = (0..inputs.len())
                .find(|c| (t >> (k * c)) & ((1 << k) - 1) > 0)
                .unwrap();
            let rest = t - (1 << (k * lowest));
            let value = match values[rest] {
                None => inputs[lowest],
                Some(made) => self.product(made, inputs[lowest]),
            };
            values.push(Some(value));
        }
        values
    }

    /// The first j powers of a base whose exponents are powers of 2^k: each is the one before, squared k times.
    fn powers(&mut self, base: u32, k: usize, j: usize) -> Vec<u32> {
        let mut value = base;
        (0..j)
            .map(|i| {
                for _ in 0..if i == 0 { 0 } else { k } {
                    value = self.product(value, value);
                }
                value
            })
            .collect()
    }
}

/// Steps and outputs by a method and its parameter, whose range is not tested here.
pub fn make(
    p: usize,
    q: usize,
    amounts: &[u32],
    method: usize,
    k: usize,
) -> (Vec<(u32, u32)>, Vec<u32>) {
    assert_eq!(amounts.len(), p * q);
    let sheet = Sheet { p, amounts };
    let mut steps = Steps { p, made: vec![] };
    let outputs = match method {
        1 => straus(&sheet, k, &mut steps),
        2 => yao(&sheet, k, &mut steps),
        _ => partition(&sheet, k, &mut steps),
    };
    let outputs = outputs.into_iter().map(|o| o.unwrap_or(0)).collect();
    (steps.made, outputs)
}

/// The number of the vector of a payslip's digits at a place.
fn vector(k: usize, slip: &[u32], place: usize) -> usize {
    slip.iter()
        .rev()
        .fold(0, |t, &amount| (t << k) + digit(k, amount, place))
}

fn straus(sheet: &Sheet, k: usize, steps: &mut Steps) -> Vec<Option<u32>> {
    let bases: Vec<u32> = (1..=sheet.p as u32).collect();
    let table = steps.table(k, &bases);
    sheet
        .payslips()
        .map(|slip| {
            let top = digits(k, *slip.iter().max().unwrap())
                .len()
                .checked_sub(1)?;
            let mut value = table[vector(k, slip, top)]?;
            for place in (0..top).rev() {
                for _ in 0..k {
                    value = steps.product(value, value);
                }
                if let Some(entry) = table[vector(k, slip, place)] {
                    value = steps.product(value, entry);
                }
            }
            Some(value)
        })
        .collect()
}

fn yao(sheet: &Sheet, k: usize, steps: &mut Steps) -> Vec<Option<u32>> {
    let mut powers = vec![];
    for (c, most) in sheet.columns().into_iter().enumerate() {
        powers.push(steps.powers(c as u32 + 1, k, digits(k, most).len()));
    }
    let mut outputs = vec![];
    for slip in sheet.payslips() {
        let mut product = None;
        for (&amount, powers) in slip.iter().zip(&powers) {
            let (mut a, mut b) = (None, None);
            for d in (1..1 << k).rev() {
                for (place, found) in digits(k, amount).into_iter().enumerate() {
                    if found == d {
                        b = steps.join(b, Some(powers[place]));
                    }
                }
                a = steps.join(a, b);
            }
            product = steps.join(product, a);
        }
        outputs.push(product);
    }
    outputs
}

/// An input of the partition method: the bit `place` of column `column`.
struct Input {
    column: usize,
    place: usize,
    value: u32,
}

fn partition(sheet: &Sheet, c: usize, steps: &mut Steps) -> Vec<Option<u32>> {
    let mut inputs = vec![];
    for (column, most) in sheet.columns().into_iter().enumerate() {
        let powers = steps.powers(column as u32 + 1, 1, digits(1, most).len());
        for (place, value) in powers.into_iter().enumerate() {
            inputs.push(Input {
                column,
                place,
                value,
            });
        }
    }
    let mut groups = vec![];
    for group in inputs.chunks(c) {
        let members: Vec<u32> = group.iter().map(|input| input.value).collect();
        groups.push((group, steps.table(1, &members)));
    }
    let mut outputs = vec![];
    for slip in sheet.payslips() {
        let mut product = None;
        for (group, table) in &groups {
            product = steps.join(product, table[subset(group, slip)]);
        }
        outputs.push(product);
    }
    outputs
}

/// The number of the subset of a group that a payslip takes.
fn subset(group: &[Input], slip: &[u32]) -> usize {
    group.iter().rev().fold(0, |t, input| {
        2 * t + digit(1, slip[input.column], input.place)
    })
}

/// The steps of a table over some inputs, as the document counts them.
fn table_count(k: usize, inputs: usize) -> usize {
    (1 << (k * inputs)) - inputs - 1
}

/// A method's count, from the document's formulas.
pub fn count(p: usize, q: usize, amounts: &[u32], method: usize, k: usize) -> usize {
    assert_eq!(amounts.len(), p * q);
    let sheet = Sheet { p, amounts };
    let some = |slip: &&[u32]| slip.iter().any(|&amount| amount > 0);
    match method {
        1 => {
            let payslip = |slip: &[u32]| {
                let lower = digits(k, *slip.iter().max().unwrap()).len() - 1;
                lower * k
                    + (0..lower)
                        .filter(|&place| slip.iter().any(|&amount| digit(k, amount, place) > 0))
                        .count()
            };
            table_count(k, p) + sheet.payslips().filter(some).map(payslip).sum::<usize>()
        }
        2 => {
            let amount = |&amount: &u32| {
                let digits = digits(k, amount);
                let nonzero = digits.iter().filter(|&&d| d > 0).count();
                nonzero + digits.iter().max().unwrap() - 2
            };
            let payslip = |slip: &[u32]| {
                let nonzero: Vec<u32> = slip.iter().copied().filter(|&a| a > 0).collect();
                nonzero.iter().map(amount).sum::<usize>() + nonzero.len() - 1
            };
            yao_squarings(&sheet, k) + sheet.payslips().filter(some).map(payslip).sum::<usize>()
        }
        _ => {
            let bits = column_bits(&sheet);
            // the columns and places of the inputs, in order
            let inputs: Vec<(usize, usize)> = (0..p)
                .flat_map(|column| (0..bits[column]).map(move |place| (column, place)))
                .collect();
            let payslip = |slip: &[u32]| {
                let taken = |&(column, place): &(usize, usize)| slip[column] >> place & 1 == 1;
                inputs
                    .chunks(k)
                    .filter(|group| group.iter().any(taken))
                    .count()
                    - 1
            };
            let tables: usize = inputs
                .chunks(k)
                .map(|group| table_count(1, group.len()))
                .sum();
            partition_squarings(&bits)
                + tables
                + sheet.payslips().filter(some).map(payslip).sum::<usize>()
        }
    }
}

/// A method's ceiling, likewise.
pub fn ceiling(p: usize, q: usize, amounts: &[u32], method: usize, k: usize) -> usize {
    assert_eq!(amounts.len(), p * q);
    let sheet = Sheet { p, amounts };
    match method {
        1 => {
            let payslips: usize = sheet
                .payslips()
                .map(|slip| *slip.iter().max().unwrap())
                .filter(|&most| most > 0)
                .map(|most| (digits(k, most).len() - 1) * (k + 1))
                .sum();
            table_count(k, p) + payslips
        }
        2 => {
            let columns = sheet.columns();
            let payslip = |slip: &[u32]| {
                let nonzero: Vec<usize> = (0..p).filter(|&c| slip[c] > 0).collect();
                nonzero
                    .iter()
                    .map(|&c| digits(k, columns[c]).len() + (1 << k) - 3)
                    .sum::<usize>()
                    + nonzero.len().saturating_sub(1)
            };
            yao_squarings(&sheet, k) + sheet.payslips().map(payslip).sum::<usize>()
        }
        _ => {
            let bits = column_bits(&sheet);
            let w: usize = bits.iter().sum();
            if w == 0 {
                return 0;
            }
            let groups = groups(w, k);
            let tables: usize = groups.iter().map(|&size| table_count(1, size)).sum();
            partition_squarings(&bits) + tables + q * (groups.len() - 1)
        }
    }
}

/// The sizes of the groups of c, of which the last has what is left.
fn groups(inputs: usize, c: usize) -> Vec<usize> {
    let mut sizes = vec![];
    let mut left = inputs;
    while left > 0 {
        let size = left.min(c);
        sizes.push(size);
        left -= size;
    }
    sizes
}

/// (J − 1)k for each column that is not zero.
fn yao_squarings(sheet: &Sheet, k: usize) -> usize {
    let columns = sheet.columns();
    let nonzero = columns.iter().filter(|&&most| most > 0);
    nonzero.map(|&most| (digits(k, most).len() - 1) * k).sum()
}

/// The bit length of each column's largest amount.
fn column_bits(sheet: &Sheet) -> Vec<usize> {
    let columns = sheet.columns();
    columns.iter().map(|&most| digits(1, most).len()).collect()
}

/// The inputs less the nonzero columns.
fn partition_squarings(bits: &[usize]) -> usize {
    bits.iter().sum::<usize>() - bits.iter().filter(|&&b| b > 0).count()
}

/// 1, 2 and 3, of what compile is asked for.
fn judge(
    p: usize,
    q: usize,
    amounts: &[u32],
    method: usize,
    parameter: usize,
) -> Result<(), (u32, u64)> {
    sizes(p, q)?;
    if amounts.len() != p * q {
        return Err((2, 0));
    }
    judge_method(p, method, parameter)
}

/// Ceiling: 1, 2, 3; of what is left the count and the ceiling, however large.
pub fn quote(p: usize, q: usize, amounts: &[u32], method: usize, parameter: usize) -> Answer {
    judge(p, q, amounts, method, parameter)?;
    let count = count(p, q, amounts, method, parameter);
    let ceiling = ceiling(p, q, amounts, method, parameter);
    Ok(vec![count as u64, ceiling as u64])
}

/// Compile: 1, 2, 3, 4, 5, and only then a lent cell is written.
pub fn compile(
    p: usize,
    q: usize,
    amounts: &[u32],
    method: usize,
    parameter: usize,
    steps: &mut [u32],
    outputs: &mut [u32],
) -> Answer {
    judge(p, q, amounts, method, parameter)?;
    let n = count(p, q, amounts, method, parameter);
    length(MOST_STEPS, n)?;
    if steps.len() / 2 < n || outputs.len() < q {
        return Err((5, 0));
    }
    let (made, outs) = make(p, q, amounts, method, parameter);
    assert_eq!(made.len(), n, "the count is the number of steps");
    for (cells, &(first, second)) in steps.chunks_exact_mut(2).zip(&made) {
        cells.copy_from_slice(&[first, second]);
    }
    outputs[..q].copy_from_slice(&outs);
    Ok(counts(&made))
}
