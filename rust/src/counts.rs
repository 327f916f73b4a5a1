use crate::refusal::answer;
use crate::Refusal;

/// How many steps a chain has, and of what kind: what it costs a receiver, whose machine may square faster than it multiplies.
///
/// The library counts as it compiles, reads, checks, pools or runs. A step is a squaring by the numbers of its operands; two values that happen to be
/// equal under different numbers make a product.
///
/// ```
/// use spoutbasket::{Chain, Counts, Sheet};
///
/// # fn main() -> Result<(), spoutbasket::Refusal> {
/// // values 2 and 3 are both the square of the base
/// let chain = Chain { columns: 1, steps: vec![[1, 1], [1, 1], [3, 2]], outputs: vec![4] };
/// let counts = chain.check(&Sheet::new(1, 1, [4])?)?;
/// assert_eq!(counts, Counts { steps: 3, squarings: 2, products: 1 });
/// # Ok(())
/// # }
/// ```
#[derive(Clone, Copy, Debug, PartialEq, Eq, Hash)]
pub struct Counts {
    /// The steps, n: squarings and products together.
    pub steps: usize,
    /// The squarings, which are the steps whose two operands are one number.
    pub squarings: usize,
    /// The products, which are all other steps.
    pub products: usize,
}

impl Counts {
    /// Makes a call of the library that answers a chain's counts.
    pub(crate) fn answered(call: impl FnOnce(&mut [u64; 8]) -> u32) -> Result<Counts, Refusal> {
        let [steps, squarings, products, ..] = answer(call)?;
        Ok(Counts {
            steps,
            squarings,
            products,
        })
    }
}
