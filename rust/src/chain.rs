use crate::refusal::answer;
use crate::{slices, Counts, Extent, Reason, Refusal, Sheet};
use crate::{MOST_PAYSLIPS, MOST_STEPS, MOST_VALUES};

/// A multiplication chain, whoever made it.
///
/// Its values are the empty product, the bases, and for each step the product of two values before it. Nothing is asked of a
/// chain that is put together here: each call judges it for itself.
///
/// ```
/// use spoutbasket::{Chain, Sheet};
///
/// # fn main() -> Result<(), spoutbasket::Refusal> {
/// // 63 as a sum of earlier exponents in eight steps
/// let steps = vec![[1, 1], [2, 1], [3, 2], [4, 2], [5, 5], [6, 6], [7, 7], [8, 5]];
/// let chain = Chain { columns: 1, steps, outputs: vec![9] };
/// chain.check(&Sheet::new(1, 1, [63])?)?;
/// assert_eq!(chain.check(&Sheet::new(1, 1, [64])?).unwrap_err().number(), 14);
/// # Ok(())
/// # }
/// ```
#[derive(Clone, Debug, PartialEq, Eq, Hash)]
pub struct Chain {
    /// The number of columns, p.
    pub columns: usize,
    /// The steps, each a pair of value numbers, the first not smaller than the second.
    pub steps: Vec<[u32; 2]>,
    /// The number of each payslip's value.
    pub outputs: Vec<u32>,
}

/// What a run gives.
#[derive(Clone, Debug, PartialEq, Eq, Hash)]
pub struct Run {
    /// The control figures, one for each payslip.
    pub figures: Vec<u32>,
    /// The multiplications made, one for each step, and how many of them were squarings.
    pub counts: Counts,
}

impl Chain {
    /// The number of steps.
    #[must_use]
    pub fn n(&self) -> usize {
        self.steps.len()
    }

    /// The chain's file.
    ///
    /// # Errors
    ///
    /// 1, 4 and 9 to 12 where the chain is not legal.
    ///
    /// ```
    /// use spoutbasket::Chain;
    ///
    /// let chain = Chain { columns: 2, steps: vec![[2, 1], [3, 3], [4, 1]], outputs: vec![5] };
    /// assert_eq!(chain.to_file(), Ok(vec![0x11, 0x00, 0x00, 0x34, 0x5b, 0x86, 0x80]));
    /// ```
    pub fn to_file(&self) -> Result<Vec<u8>, Refusal> {
        let mut bytes = vec![0; self.extent()?.bytes];
        let [written, ..] = answer(|words| {
            let steps = self.steps.as_flattened();
            slices::write(self.columns, steps, &self.outputs, &mut bytes, words)
        })?;
        bytes.truncate(written);
        Ok(bytes)
    }

    /// The extent of the chain's file, which follows from its sizes alone.
    ///
    /// # Errors
    ///
    /// 1 and 4 where no file has such sizes.
    ///
    /// ```
    /// use spoutbasket::Chain;
    ///
    /// # fn main() -> Result<(), spoutbasket::Refusal> {
    /// let chain = Chain { columns: 2, steps: vec![[2, 1], [3, 3], [4, 1]], outputs: vec![5] };
    /// let extent = chain.extent()?;
    /// // p + n is 5, in the case from 4 to 7
    /// assert_eq!((extent.width, extent.bytes), (3, 7));
    /// # Ok(())
    /// # }
    /// ```
    pub fn extent(&self) -> Result<Extent, Refusal> {
        Extent::of(self.columns, self.outputs.len(), self.n())
    }

    /// The chain of a file.
    ///
    /// # Errors
    ///
    /// 6, 7, 4, 8 and 9 to 12 where the bytes are no chain's file.
    ///
    /// ```
    /// use spoutbasket::Chain;
    ///
    /// # fn main() -> Result<(), spoutbasket::Refusal> {
    /// let chain = Chain::from_file(&[0x11, 0x00, 0x00, 0x34, 0x5b, 0x86, 0x80])?;
    /// assert_eq!(chain.steps, [[2, 1], [3, 3], [4, 1]]);
    /// // a filling bit is set
    /// let refusal = Chain::from_file(&[0x11, 0x00, 0x00, 0x34, 0x5b, 0x86, 0x81]).unwrap_err();
    /// assert_eq!(refusal.number(), 8);
    /// # Ok(())
    /// # }
    /// ```
    pub fn from_file(bytes: &[u8]) -> Result<Chain, Refusal> {
        Chain::from_file_counted(bytes).map(|(chain, _)| chain)
    }

    /// As [`Chain::from_file`], with the counts that the reader answers.
    ///
    /// # Errors
    ///
    /// Those of [`Chain::from_file`].
    ///
    /// ```
    /// use spoutbasket::{Chain, Counts};
    ///
    /// # fn main() -> Result<(), spoutbasket::Refusal> {
    /// let (chain, counts) = Chain::from_file_counted(&[0x11, 0x00, 0x00, 0x34, 0x5b, 0x86, 0x80])?;
    /// assert_eq!(chain.steps, [[2, 1], [3, 3], [4, 1]]);
    /// assert_eq!(counts, Counts { steps: 3, squarings: 1, products: 2 });
    /// # Ok(())
    /// # }
    /// ```
    pub fn from_file_counted(bytes: &[u8]) -> Result<(Chain, Counts), Refusal> {
        let mut lent = Lent::new(MOST_PAYSLIPS);
        let [columns, payslips, steps, squarings, products, ..] = answer(|words| {
            let steps = lent.steps.as_flattened_mut();
            slices::read(bytes, steps, &mut lent.outputs, words)
        })?;
        let counts = Counts {
            steps,
            squarings,
            products,
        };
        Ok((lent.chain(columns, payslips, steps), counts))
    }

    /// Checks that the chain is legal and makes the sheet, with no exponent above the largest amount on the way. Its counts, if it passes.
    ///
    /// # Errors
    ///
    /// 1, 4 and 9 to 12 where the chain is not legal, 2 for a sheet with more or fewer amounts, 13 for an exponent too large, 14 for a payslip that is not
    /// made. A sheet of another shape with as many amounts is refused 14, place 0, as the chooser does.
    ///
    /// ```
    /// use spoutbasket::{Method, Sheet};
    ///
    /// # fn main() -> Result<(), spoutbasket::Refusal> {
    /// let sheet = Sheet::new(2, 2, [3, 2, 0, 7])?;
    /// let (mut chain, counts) = sheet.compile_counted(Method::Partition(4))?;
    /// assert_eq!(chain.check(&sheet)?, counts);
    /// chain.outputs.swap(0, 1);
    /// assert_eq!(chain.check(&sheet).unwrap_err().to_string().split(':').next(), Some("refused 14 at payslip 1"));
    /// # Ok(())
    /// # }
    /// ```
    pub fn check(&self, sheet: &Sheet) -> Result<Counts, Refusal> {
        let mut scratch = vec![0; self.values()];
        let counts = Counts::answered(|words| {
            slices::verify(
                self.columns,
                self.steps.as_flattened(),
                &self.outputs,
                sheet.amounts(),
                &mut scratch,
                words,
            )
        })?;
        // the library's check is given the amounts and not the sheet's sizes
        if self.columns != sheet.columns() {
            return Err(Reason::Payslip.into());
        }
        Ok(counts)
    }

    /// The control figures over a receiver's modulus, at least 1, and bases, one below the modulus for each column.
    ///
    /// # Errors
    ///
    /// 1, 4 and 9 to 12 where the chain is not legal, 15 for modulus 0, 16 for bases that are not one for each column, or not below the modulus.
    ///
    /// ```
    /// use spoutbasket::Chain;
    ///
    /// # fn main() -> Result<(), spoutbasket::Refusal> {
    /// let chain = Chain { columns: 2, steps: vec![[2, 1], [3, 3], [4, 1]], outputs: vec![5, 0] };
    /// let run = chain.run(1_000, &[3, 5])?;
    /// assert_eq!(run.figures, [675, 1]);
    /// // three multiplications, of which one squares
    /// assert_eq!((run.counts.steps, run.counts.squarings, run.counts.products), (3, 1, 2));
    /// assert_eq!(chain.run(5, &[3, 5]).unwrap_err().number(), 16);
    /// # Ok(())
    /// # }
    /// ```
    pub fn run(&self, modulus: u32, bases: &[u32]) -> Result<Run, Refusal> {
        let mut values = vec![0; self.values()];
        let mut figures = vec![0; self.outputs.len()];
        let counts = Counts::answered(|words| {
            slices::run(
                self.columns,
                self.steps.as_flattened(),
                &self.outputs,
                modulus,
                bases,
                &mut values,
                &mut figures,
                words,
            )
        })?;
        Ok(Run { figures, counts })
    }

    /// The pool with a second chain over the same columns: the steps and payslips of this one, then those of the second. It makes the two sheets one
    /// [above](Sheet::above) the other, exactly if each chain makes its own; its figures are those of both.
    ///
    /// # Errors
    ///
    /// 1, 4 and 9 to 12 where one of the two is not legal, 1 for more than 64 payslips together, 17 for column counts that differ, 4 for more than 16,000
    /// steps together. A place counts through the pool.
    ///
    /// ```
    /// use spoutbasket::{Method, Sheet};
    ///
    /// # fn main() -> Result<(), spoutbasket::Refusal> {
    /// let (first, second) = (Sheet::new(2, 1, [3, 2])?, Sheet::new(2, 2, [0, 0, 2, 1])?);
    /// let pool = first.compile(Method::Straus(1))?.pool(&second.compile(Method::Yao(1))?)?;
    /// // value 3 of the second chain is value 6 of the pool; 0 to 2 are common to both
    /// assert_eq!(pool.steps, [[2, 1], [3, 3], [4, 1], [1, 1], [6, 2]]);
    /// assert_eq!(pool.outputs, [5, 0, 7]);
    /// pool.check(&first.above(&second)?)?;
    /// assert_eq!(pool.run(1_000, &[3, 5])?.figures, [675, 1, 45]);
    ///
    /// let narrow = Sheet::new(1, 1, [3])?.compile(Method::Yao(1))?;
    /// assert_eq!(pool.pool(&narrow).unwrap_err().number(), 17);
    /// # Ok(())
    /// # }
    /// ```
    pub fn pool(&self, second: &Chain) -> Result<Chain, Refusal> {
        self.pool_counted(second).map(|(chain, _)| chain)
    }

    /// As [`Chain::pool`], with the counts of the pool, which are those of the two chains together.
    ///
    /// # Errors
    ///
    /// Those of [`Chain::pool`].
    ///
    /// ```
    /// use spoutbasket::{Counts, Method, Sheet};
    ///
    /// # fn main() -> Result<(), spoutbasket::Refusal> {
    /// let first = Sheet::new(2, 1, [3, 2])?.compile(Method::Straus(1))?;
    /// let second = Sheet::new(2, 2, [0, 0, 2, 1])?.compile(Method::Yao(1))?;
    /// let (_, counts) = first.pool_counted(&second)?;
    /// assert_eq!(counts, Counts { steps: 5, squarings: 2, products: 3 });
    /// # Ok(())
    /// # }
    /// ```
    pub fn pool_counted(&self, second: &Chain) -> Result<(Chain, Counts), Refusal> {
        let mut lent = Lent::new(MOST_PAYSLIPS);
        let counts = Counts::answered(|words| {
            slices::pool(
                self.columns,
                self.steps.as_flattened(),
                &self.outputs,
                second.columns,
                second.steps.as_flattened(),
                &second.outputs,
                lent.steps.as_flattened_mut(),
                &mut lent.outputs,
                words,
            )
        })?;
        let payslips = self.outputs.len() + second.outputs.len();
        Ok((lent.chain(self.columns, payslips, counts.steps), counts))
    }

    /// The number of values. A chain with more than the most is refused before its values are looked for.
    fn values(&self) -> usize {
        self.columns.saturating_add(self.n() + 1).min(MOST_VALUES)
    }
}

/// As [`Chain::from_file`].
impl TryFrom<&[u8]> for Chain {
    type Error = Refusal;

    fn try_from(bytes: &[u8]) -> Result<Chain, Refusal> {
        Chain::from_file(bytes)
    }
}

/// Room for a chain of any length.
pub(crate) struct Lent {
    pub steps: Vec<[u32; 2]>,
    pub outputs: Vec<u32>,
}

impl Lent {
    pub fn new(payslips: usize) -> Lent {
        Lent {
            steps: vec![[0; 2]; MOST_STEPS],
            outputs: vec![0; payslips],
        }
    }

    /// The chain in it, n steps and as many outputs as there are payslips.
    pub fn chain(mut self, columns: usize, payslips: usize, n: usize) -> Chain {
        self.steps.truncate(n);
        self.steps.shrink_to_fit();
        self.outputs.truncate(payslips);
        Chain {
            columns,
            steps: self.steps,
            outputs: self.outputs,
        }
    }
}
