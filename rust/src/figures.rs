/// What the whole path gives.
#[derive(Clone, Debug, PartialEq, Eq, Hash)]
pub struct Figures {
    /// The control figures, one for each payslip.
    pub figures: Vec<u32>,
    /// The multiplications made, one for each step of the chain.
    pub multiplications: usize,
}
