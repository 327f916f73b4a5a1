use crate::refusal::answer;
use crate::{slices, Refusal, Sheet, FIELD_BYTES};

/// Packed decimal, as a ledger host keeps amounts: [`FIELD_BYTES`] bytes each, which are ten half-bytes, the high half of a byte first. Nine are decimal
/// digits, the highest first; the last is the sign, C for plus, D for minus and F for unsigned.
impl Sheet {
    /// The sheet of packed fields, payslip by payslip, with nothing behind them.
    ///
    /// # Errors
    ///
    /// 1 for sizes out of range, 2 for bytes that are not five for each of columns times payslips; then of the first field that is not fit 18 for a digit
    /// above 9 or a sign that is none, else 19 for sign D, on zero too. The place is the field.
    ///
    /// ```
    /// use spoutbasket::{Reason, Refusal, Sheet};
    ///
    /// # fn main() -> Result<(), Refusal> {
    /// let fields = [0x00, 0x01, 0x68, 0x23, 0x3c, 0x00, 0x00, 0x18, 0x75, 0x0f];
    /// assert_eq!(Sheet::from_packed(2, 1, &fields)?, Sheet::new(2, 1, [168_233, 18_750])?);
    /// // a minus in the second field
    /// let fields = [0x00, 0x01, 0x68, 0x23, 0x3c, 0x00, 0x00, 0x18, 0x75, 0x0d];
    /// let refusal = Sheet::from_packed(2, 1, &fields).unwrap_err();
    /// assert_eq!(refusal, Refusal { reason: Reason::PackedMinus, place: 2 });
    /// assert_eq!(refusal.place_name(), Some("field"));
    /// # Ok(())
    /// # }
    /// ```
    pub fn from_packed(columns: usize, payslips: usize, fields: &[u8]) -> Result<Sheet, Refusal> {
        let mut amounts = vec![0; fields.len() / FIELD_BYTES];
        answer(|words| slices::unpack(columns, payslips, fields, &mut amounts, words))?;
        Sheet::new(columns, payslips, amounts)
    }

    /// The sheet as packed fields, each with sign C. Fields that were read come back byte for byte, but for a sign F, which has become C.
    ///
    /// # Errors
    ///
    /// 20 for an amount above 999,999,999; the place is the field that the first such amount would have had.
    ///
    /// ```
    /// use spoutbasket::Sheet;
    ///
    /// # fn main() -> Result<(), spoutbasket::Refusal> {
    /// let fields = Sheet::new(2, 1, [168_233, 18_750])?.to_packed()?;
    /// assert_eq!(fields, [0x00, 0x01, 0x68, 0x23, 0x3c, 0x00, 0x00, 0x18, 0x75, 0x0c]);
    /// let refusal = Sheet::new(2, 1, [168_233, 1_000_000_000])?.to_packed().unwrap_err();
    /// assert_eq!((refusal.number(), refusal.place), (20, 2));
    /// # Ok(())
    /// # }
    /// ```
    pub fn to_packed(&self) -> Result<Vec<u8>, Refusal> {
        let (p, q, amounts) = (self.columns(), self.payslips(), self.amounts());
        let mut fields = vec![0; FIELD_BYTES * amounts.len()];
        answer(|words| slices::pack(p, q, amounts, &mut fields, words))?;
        Ok(fields)
    }
}
