//! What the options and names of a command stand for: a method, what is read, and where the result goes.
use crate::args::{Form, Given};
use crate::input::Source;
use crate::messages::Failure;
use crate::output::{self, Target};
use spoutbasket::Method;

/// The method named, if one is.
pub fn method(form: &Form, given: &Given) -> Result<Option<Method>, Failure> {
    let Some(name) = given.value("--method") else {
        return Ok(None);
    };
    match name.to_str().and_then(|name| name.parse().ok()) {
        Some(method) => Ok(Some(method)),
        None => Err(form.wrong("--method takes straus:K, yao:K or partition:C")),
    }
}

/// The sources of all files, in their order.
pub fn sources<const N: usize>(form: &Form, given: &Given) -> Result<[Source; N], Failure> {
    let all: [Source; N] = std::array::from_fn(|place| Source::new(given.file(place)));
    one_standard(form, &all.each_ref())?;
    Ok(all)
}

/// Standard input can be read once.
pub fn one_standard(form: &Form, sources: &[&Source]) -> Result<(), Failure> {
    let standard = sources
        .iter()
        .filter(|source| ***source == Source::Standard);
    match standard.count() {
        0 | 1 => Ok(()),
        _ => Err(form.wrong("standard input for two files")),
    }
}

pub fn keys_source(form: &Form, given: &Given) -> Result<Source, Failure> {
    match given.value("--keys") {
        Some(name) => Ok(Source::new(Some(name))),
        None => Err(form.wrong("--keys FILE wanted")),
    }
}

/// Where a chain goes.
pub fn chain_target(
    form: &Form,
    given: &Given,
    of: &[&Source],
    what: &str,
) -> Result<Target, Failure> {
    not_to_terminal(form, given, "a chain is", "CHAIN")?;
    target(form, given, of, what)
}

/// What is no text goes to a terminal only if that is asked for.
pub fn not_to_terminal(form: &Form, given: &Given, what: &str, name: &str) -> Result<(), Failure> {
    match given.value("-o") {
        None if output::to_terminal() => {
            Err(form.wrong(&format!("{what} no text for a terminal: give -o {name}")))
        }
        _ => Ok(()),
    }
}

/// Where a result goes: not over what it is made of.
pub fn target(form: &Form, given: &Given, of: &[&Source], what: &str) -> Result<Target, Failure> {
    let target = Target::new(given.value("-o"));
    if of.iter().any(|source| target.is(source)) {
        return Err(form.wrong(&format!("-o names {what} itself")));
    }
    Ok(target)
}
