/// How many steps a method takes for a sheet, and how many at the most.
#[derive(Clone, Copy, Debug, PartialEq, Eq, Hash)]
pub struct Quote {
    /// The steps of the chain that the method makes.
    pub count: usize,
    /// The method's ceiling, by which a receivers' tariff bills. The count is never above it.
    pub ceiling: usize,
}
