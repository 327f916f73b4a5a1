use crate::{Reason, Refusal};
use std::fmt;
use std::str::FromStr;

/// A method that makes a chain of a sheet, with its parameter.
///
/// It is written `straus:1`, `yao:3` or `partition:4`. Whether the parameter will do is for [`Sheet::compile`](crate::Sheet::compile) and
/// [`Sheet::ceiling`](crate::Sheet::ceiling) to say.
///
/// ```
/// use spoutbasket::{Method, Reason, Sheet};
///
/// # fn main() -> Result<(), spoutbasket::Refusal> {
/// let sheet = Sheet::new(2, 1, [3, 2])?;
/// for (method, n) in [("straus:1", 3), ("yao:1", 4), ("partition:2", 5)] {
///     assert_eq!(sheet.compile(method.parse()?)?.n(), n, "{method}");
/// }
/// // 2 columns times 6 is over 10
/// assert_eq!(sheet.compile(Method::Straus(6)).unwrap_err().reason, Reason::Method);
/// # Ok(())
/// # }
/// ```
#[derive(Clone, Copy, Debug, PartialEq, Eq, Hash, PartialOrd, Ord)]
pub enum Method {
    /// Straus's method (Brauer's for one column), digits of k bits: k is 1 to 5, and the columns times k are 10 at the most.
    Straus(usize),
    /// Yao's method, digits of k bits: k from 1 to 8.
    Yao(usize),
    /// The partition method, groups of c inputs: c from 1 to 8.
    Partition(usize),
}

/// A method without its parameter: its name, how it is made, and its largest parameter. The first is number 1.
type Kind = (&'static str, fn(usize) -> Method, usize);

const KINDS: [Kind; 3] = [
    ("straus", Method::Straus, 5),
    ("yao", Method::Yao, 8),
    ("partition", Method::Partition, 8),
];

impl Method {
    /// Every method with every parameter: Straus 1 to 5, Yao 1 to 8, partition 1 to 8.
    ///
    /// ```
    /// use spoutbasket::Method;
    ///
    /// assert_eq!(Method::all().count(), 21);
    /// assert_eq!(Method::all().next(), Some(Method::Straus(1)));
    /// ```
    pub fn all() -> impl Iterator<Item = Method> {
        KINDS
            .into_iter()
            .flat_map(|(_, method, most)| (1..=most).map(method))
    }

    /// The method's number, 1 to 3, and its parameter.
    #[must_use]
    pub fn numbers(self) -> (usize, usize) {
        match self {
            Method::Straus(k) => (1, k),
            Method::Yao(k) => (2, k),
            Method::Partition(c) => (3, c),
        }
    }
}

/// As `straus:1`.
impl fmt::Display for Method {
    fn fmt(&self, f: &mut fmt::Formatter) -> fmt::Result {
        let (number, parameter) = self.numbers();
        let (name, ..) = KINDS[number - 1];
        f.pad(&format!("{name}:{parameter}"))
    }
}

/// As `straus:1`: a method's name, a colon and a parameter in decimal digits. Anything else is refused 3.
impl FromStr for Method {
    type Err = Refusal;

    fn from_str(text: &str) -> Result<Method, Refusal> {
        let method = || {
            let (name, parameter) = text.split_once(':')?;
            let (_, method, _) = KINDS.into_iter().find(|kind| kind.0 == name)?;
            // a sign would be taken as part of the number
            let digits = parameter.bytes().all(|byte| byte.is_ascii_digit());
            Some(method(parameter.parse().ok().filter(|_| digits)?))
        };
        method().ok_or(Reason::Method.into())
    }
}

/// A method's number, 1 to 3, and its parameter. Another number is refused 3.
impl TryFrom<(usize, usize)> for Method {
    type Error = Refusal;

    fn try_from((number, parameter): (usize, usize)) -> Result<Method, Refusal> {
        let kind = number.checked_sub(1).and_then(|i| KINDS.get(i));
        let (_, method, _) = kind.ok_or(Reason::Method)?;
        Ok(method(parameter))
    }
}
