use crate::chain::Lent;
use crate::refusal::answer;
use crate::SheetError;
use crate::{fault, numbers, slices, Chain, Counts, Figures, Method, Quote, Reason, Refusal};
use crate::{LONGEST_FILE, MOST_COLUMNS, MOST_PAYSLIPS, MOST_VALUES};
use std::slice::ChunksExact;

/// The most amounts of a sheet.
const MOST_AMOUNTS: usize = MOST_COLUMNS * MOST_PAYSLIPS;

/// The amounts of some payslips, given payslip by payslip.
///
/// ```
/// use spoutbasket::Sheet;
///
/// # fn main() -> Result<(), spoutbasket::Refusal> {
/// // two pay elements, three payslips
/// let sheet = Sheet::new(2, 3, [168_233, 18_750, 0, 0, 212_500, 24_000])?;
/// assert_eq!((sheet.columns(), sheet.payslips()), (2, 3));
/// assert_eq!(sheet, Sheet::from_rows([[168_233, 18_750], [0, 0], [212_500, 24_000]])?);
/// // an amount is missing
/// assert_eq!(Sheet::new(2, 1, [168_233]).unwrap_err().number(), 2);
/// # Ok(())
/// # }
/// ```
#[derive(Clone, Debug, PartialEq, Eq, Hash)]
pub struct Sheet {
    columns: usize,
    payslips: usize,
    amounts: Vec<u32>,
}

impl Sheet {
    /// A sheet of 1 to 16 columns (pay elements) and 1 to 64 payslips.
    ///
    /// # Errors
    ///
    /// 1 for sizes out of range, 2 for amounts that are not columns times payslips.
    pub fn new(
        columns: usize,
        payslips: usize,
        amounts: impl Into<Vec<u32>>,
    ) -> Result<Sheet, Refusal> {
        let amounts = amounts.into();
        // the chooser judges a sheet before all else, and then the scratch: lent none, it answers 5 to every sheet that is fit
        let judged = answer(|words| {
            let (a, b, steps, outputs, numbers) = (&[], &[], &mut [], &mut [], &mut []);
            slices::choose(
                columns, payslips, &amounts, a, b, steps, outputs, numbers, words,
            )
        });
        match judged {
            Err(refusal) if refusal.reason != Reason::Room => Err(refusal),
            _ => Ok(Sheet {
                columns,
                payslips,
                amounts,
            }),
        }
    }

    /// A sheet of payslips, each a row of as many amounts.
    ///
    /// # Errors
    ///
    /// 1 for no rows or more than 64, or a first row of no amounts or more than 16; 2 where the rows have not all the same length.
    ///
    /// ```
    /// use spoutbasket::{Reason, Sheet};
    ///
    /// let sheet = Sheet::from_rows([[3, 0, 2], [1, 2, 0]]).unwrap();
    /// assert_eq!((sheet.columns(), sheet.payslips()), (3, 2));
    /// let uneven: [&[u32]; 3] = [&[1, 2], &[3], &[4, 5, 6]];
    /// assert_eq!(Sheet::from_rows(uneven).unwrap_err().reason, Reason::Amounts);
    /// ```
    pub fn from_rows<R: AsRef<[u32]>>(rows: impl IntoIterator<Item = R>) -> Result<Sheet, Refusal> {
        let (mut amounts, mut lengths) = (vec![], vec![]);
        for row in rows {
            amounts.extend_from_slice(row.as_ref());
            lengths.push(row.as_ref().len());
        }
        let columns = lengths.first().copied().unwrap_or(0);
        let sheet = Sheet::new(columns, lengths.len(), amounts)?;
        // rows of other lengths may add up to the right number
        if lengths.iter().any(|&length| length != columns) {
            return Err(Reason::Amounts.into());
        }
        Ok(sheet)
    }

    /// The sheet of a plain text: numbers parted by blanks, tabs and ends of lines, of which the first two are the columns and the payslips, and the
    /// others the amounts, payslip by payslip.
    ///
    /// # Errors
    ///
    /// The place and kind of a fault in the text; 1 or 2 where the numbers do not fit. A size that is missing counts as 0.
    ///
    /// ```
    /// use spoutbasket::Sheet;
    ///
    /// let sheet = Sheet::from_text(b"2 1\n3 2\n").unwrap();
    /// assert_eq!(sheet, Sheet::new(2, 1, [3, 2]).unwrap());
    /// let error = Sheet::from_text(b"2 1\n3 -2\n").unwrap_err();
    /// assert_eq!(error.to_string(), "line 2, column 3: sign: '-'");
    /// ```
    pub fn from_text(text: &[u8]) -> Result<Sheet, SheetError> {
        let numbers = numbers(text)?;
        let (sizes, amounts) = numbers.split_at(numbers.len().min(2));
        let size = |i: usize| sizes.get(i).map_or(0, |&size| size as usize);
        Ok(Sheet::new(size(0), size(1), amounts)?)
    }

    /// The sheet of a table, one payslip a line, its amounts parted by tabs, semicolons, commas or blanks: what the first line has, in that order. A
    /// first line without a digit is a line of names.
    ///
    /// # Errors
    ///
    /// The place and kind of a fault in the text.
    ///
    /// ```
    /// use spoutbasket::Sheet;
    ///
    /// let sheet = Sheet::from_table(b"basic;overtime\r\n168233;18750\r\n0;0\r\n").unwrap();
    /// assert_eq!(sheet, Sheet::new(2, 2, [168_233, 18_750, 0, 0]).unwrap());
    /// let error = Sheet::from_table(b"3 0 2\n1 2\n").unwrap_err();
    /// assert_eq!(error.to_string(), "line 2, column 4: 2 amounts, 3 wanted");
    /// ```
    pub fn from_table(text: &[u8]) -> Result<Sheet, SheetError> {
        let ([p, q, ..], mut amounts) = fault::read(text, MOST_AMOUNTS, slices::table)?;
        amounts.truncate(p * q);
        Ok(Sheet::new(p, q, amounts)?)
    }

    /// The number of columns, p.
    #[must_use]
    pub fn columns(&self) -> usize {
        self.columns
    }

    /// The number of payslips, q.
    #[must_use]
    pub fn payslips(&self) -> usize {
        self.payslips
    }

    /// The amounts, p for each payslip.
    #[must_use]
    pub fn amounts(&self) -> &[u32] {
        &self.amounts
    }

    /// The amounts of each payslip in turn.
    pub fn rows(&self) -> ChunksExact<'_, u32> {
        self.amounts.chunks_exact(self.columns)
    }

    /// This sheet above another over the same columns: its payslips, then those of the other. It is the sheet of their chains' [pool](Chain::pool).
    ///
    /// # Errors
    ///
    /// 1 for more than 64 payslips together, 17 for column counts that differ.
    ///
    /// ```
    /// use spoutbasket::{Reason, Sheet};
    ///
    /// # fn main() -> Result<(), spoutbasket::Refusal> {
    /// let (first, second) = (Sheet::new(2, 1, [3, 2])?, Sheet::new(2, 2, [0, 0, 2, 1])?);
    /// assert_eq!(first.above(&second)?, Sheet::from_rows([[3, 2], [0, 0], [2, 1]])?);
    /// let wide = Sheet::new(3, 1, [3, 2, 0])?;
    /// assert_eq!(first.above(&wide).unwrap_err().reason, Reason::Columns);
    /// # Ok(())
    /// # }
    /// ```
    pub fn above(&self, below: &Sheet) -> Result<Sheet, Refusal> {
        // chains of these sizes without a step are refused a pool just for their sizes
        self.stepless().pool(&below.stepless())?;
        Sheet::new(
            self.columns,
            self.payslips + below.payslips,
            [&self.amounts[..], &below.amounts].concat(),
        )
    }

    /// A chain of the sheet's sizes that makes nothing.
    fn stepless(&self) -> Chain {
        Chain {
            columns: self.columns,
            steps: vec![],
            outputs: vec![0; self.payslips],
        }
    }

    /// The chain that a method makes of the sheet.
    ///
    /// # Errors
    ///
    /// 3 for a parameter out of range, 4 for a chain that is too long.
    ///
    /// ```
    /// use spoutbasket::{Method, Sheet};
    ///
    /// # fn main() -> Result<(), spoutbasket::Refusal> {
    /// let chain = Sheet::new(2, 1, [3, 2])?.compile(Method::Straus(1))?;
    /// assert_eq!(chain.steps, [[2, 1], [3, 3], [4, 1]]);
    /// assert_eq!(chain.outputs, [5]);
    /// # Ok(())
    /// # }
    /// ```
    pub fn compile(&self, method: Method) -> Result<Chain, Refusal> {
        self.compile_counted(method).map(|(chain, _)| chain)
    }

    /// As [`compile`](Sheet::compile), with the chain's counts.
    ///
    /// # Errors
    ///
    /// Those of [`compile`](Sheet::compile).
    ///
    /// ```
    /// use spoutbasket::{Counts, Method, Sheet};
    ///
    /// # fn main() -> Result<(), spoutbasket::Refusal> {
    /// let (chain, counts) = Sheet::new(2, 1, [3, 2])?.compile_counted(Method::Straus(1))?;
    /// // the second step squares
    /// assert_eq!(chain.steps, [[2, 1], [3, 3], [4, 1]]);
    /// assert_eq!(counts, Counts { steps: 3, squarings: 1, products: 2 });
    /// # Ok(())
    /// # }
    /// ```
    pub fn compile_counted(&self, method: Method) -> Result<(Chain, Counts), Refusal> {
        let (number, parameter) = method.numbers();
        let mut lent = Lent::new(self.payslips);
        let counts = Counts::answered(|words| {
            slices::compile(
                self.columns,
                self.payslips,
                &self.amounts,
                number,
                parameter,
                lent.steps.as_flattened_mut(),
                &mut lent.outputs,
                words,
            )
        })?;
        let chain = lent.chain(self.columns, self.payslips, counts.steps);
        Ok((chain, counts))
    }

    /// The steps that a method takes for the sheet, and its ceiling, without making the chain: one that is too long to compile is counted too. In the
    /// partition method's ceiling a short last group counts at its own size.
    ///
    /// # Errors
    ///
    /// 3 for a parameter out of range.
    ///
    /// ```
    /// use spoutbasket::{Method, Quote, Reason, Sheet};
    ///
    /// # fn main() -> Result<(), spoutbasket::Refusal> {
    /// let quote = Sheet::new(2, 1, [3, 2])?.ceiling(Method::Yao(1))?;
    /// assert_eq!(quote, Quote { count: 4, ceiling: 5 });
    ///
    /// // 5 bits in groups of 4 and of 1: 4 squarings, 11 steps for the first group, none for the last, and in the ceiling one to join them
    /// let sheet = Sheet::new(1, 1, [16])?;
    /// let quote = sheet.ceiling(Method::Partition(4))?;
    /// assert_eq!(quote, Quote { count: 15, ceiling: 16 });
    /// assert_eq!(sheet.ceiling(Method::Partition(9)).unwrap_err().reason, Reason::Method);
    /// # Ok(())
    /// # }
    /// ```
    pub fn ceiling(&self, method: Method) -> Result<Quote, Refusal> {
        let (number, parameter) = method.numbers();
        let [count, ceiling, ..] = answer(|words| {
            slices::ceiling(
                self.columns,
                self.payslips,
                &self.amounts,
                number,
                parameter,
                words,
            )
        })?;
        Ok(Quote { count, ceiling })
    }

    /// The chain with the fewest steps over every method and parameter, and the method that makes it: of several the first, in the order of
    /// [`Method::all`].
    ///
    /// # Errors
    ///
    /// 4 where every chain is too long.
    ///
    /// ```
    /// use spoutbasket::{Method, Sheet};
    ///
    /// # fn main() -> Result<(), spoutbasket::Refusal> {
    /// let sheet = Sheet::from_rows([[3, 0, 2], [1, 2, 0], [0, 0, 2], [3, 2, 1]])?;
    /// let (method, chain) = sheet.best()?;
    /// assert_eq!((method, chain.n()), (Method::Yao(1), 9));
    /// # Ok(())
    /// # }
    /// ```
    pub fn best(&self) -> Result<(Method, Chain), Refusal> {
        self.best_counted()
            .map(|(method, chain, _)| (method, chain))
    }

    /// As [`best`](Sheet::best), with the chain's counts.
    ///
    /// # Errors
    ///
    /// Those of [`best`](Sheet::best).
    ///
    /// ```
    /// use spoutbasket::{Counts, Sheet};
    ///
    /// # fn main() -> Result<(), spoutbasket::Refusal> {
    /// let sheet = Sheet::from_rows([[3, 0, 2], [1, 2, 0], [0, 0, 2], [3, 2, 1]])?;
    /// let (_, _, counts) = sheet.best_counted()?;
    /// assert_eq!(counts, Counts { steps: 9, squarings: 3, products: 6 });
    /// # Ok(())
    /// # }
    /// ```
    pub fn best_counted(&self) -> Result<(Method, Chain, Counts), Refusal> {
        let mut best: Option<(Method, Chain, Counts)> = None;
        for method in Method::all() {
            match self.compile_counted(method) {
                Ok((chain, counts)) => {
                    if best
                        .as_ref()
                        .map_or(true, |(_, _, fewest)| counts.steps < fewest.steps)
                    {
                        best = Some((method, chain, counts));
                    }
                }
                // not a parameter for as many columns, or a chain that is too long
                Err(refusal) if matches!(refusal.reason, Reason::Method | Reason::Steps) => {}
                Err(refusal) => return Err(refusal),
            }
        }
        best.ok_or(Reason::Steps.into())
    }

    /// The whole path in one call: compile, write, read, check what was read, and run it over a receiver's modulus and bases.
    ///
    /// # Errors
    ///
    /// Those of [`compile`](Sheet::compile), and 15 and 16 for a modulus and bases that are not fit.
    ///
    /// ```
    /// use spoutbasket::{Method, Sheet};
    ///
    /// # fn main() -> Result<(), spoutbasket::Refusal> {
    /// let path = Sheet::new(2, 1, [3, 2])?.figures(Method::Yao(1), 1_000, &[3, 5])?;
    /// assert_eq!(path.figures, [675]);
    /// assert_eq!(path.multiplications, 4);
    /// # Ok(())
    /// # }
    /// ```
    pub fn figures(&self, method: Method, modulus: u32, bases: &[u32]) -> Result<Figures, Refusal> {
        let (number, parameter) = method.numbers();
        let (mut compiled, mut received) = (Lent::new(self.payslips), Lent::new(self.payslips));
        let mut figures = vec![0; self.payslips];
        let [_, _, multiplications, ..] = answer(|words| {
            slices::path(
                self.columns,
                self.payslips,
                &self.amounts,
                number,
                parameter,
                modulus,
                bases,
                compiled.steps.as_flattened_mut(),
                &mut compiled.outputs,
                &mut vec![0; LONGEST_FILE],
                received.steps.as_flattened_mut(),
                &mut received.outputs,
                &mut vec![0; MOST_VALUES],
                &mut vec![0; MOST_VALUES],
                &mut figures,
                words,
            )
        })?;
        Ok(Figures {
            figures,
            multiplications,
        })
    }
}
