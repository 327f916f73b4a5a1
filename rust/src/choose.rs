use crate::refusal::answer;
use crate::{slices, Refusal, Sheet, MOST_PAYSLIPS, MOST_STEPS_EDITION_1, MOST_VALUES_EDITION_1};

/// The better of two files for a sheet: the one with fewer steps, or the first, if both make the sheet, else the one that does. It is one of the two
/// slices itself.
///
/// # Errors
///
/// The first file's refusal, if neither makes the sheet.
///
/// ```
/// use spoutbasket::{choose, Method, Sheet};
///
/// # fn main() -> Result<(), spoutbasket::Refusal> {
/// let sheet = Sheet::new(2, 1, [3, 2])?;
/// let yao = sheet.compile(Method::Yao(1))?.to_file()?;
/// let straus = sheet.compile(Method::Straus(1))?.to_file()?;
/// assert!(std::ptr::eq(choose(&sheet, &yao, &straus)?, &straus[..]));
/// // bytes that do not read are never chosen
/// assert!(std::ptr::eq(choose(&sheet, &yao, b"old")?, &yao[..]));
/// # Ok(())
/// # }
/// ```
pub fn choose<'a>(sheet: &Sheet, a: &'a [u8], b: &'a [u8]) -> Result<&'a [u8], Refusal> {
    let mut steps = vec![0; 2 * MOST_STEPS_EDITION_1];
    let (mut outputs, mut numbers) = (vec![0; MOST_PAYSLIPS], vec![0; MOST_VALUES_EDITION_1]);
    let [file, ..] = answer(|words| {
        slices::choose(
            sheet.columns(),
            sheet.payslips(),
            sheet.amounts(),
            a,
            b,
            &mut steps,
            &mut outputs,
            &mut numbers,
            words,
        )
    })?;
    Ok(if file == 1 { a } else { b })
}
