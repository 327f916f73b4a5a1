//! What is said where there is no result: one line on standard error, and the exit status.
use crate::json;
use spoutbasket::{Refusal, TextFault};
use std::ffi::OsStr;
use std::io::{self, Write};

/// Why a command ends without its result.
pub enum Failure {
    /// The words of the command line are wrong.
    Usage(String),
    /// Input is turned down.
    Refused(Refused),
    /// A read or a write failed.
    Device { name: String, why: String },
}

/// Input turned down: which, under what number, where, and why.
pub struct Refused {
    pub name: String,
    pub number: u32,
    pub phrase: &'static str,
    pub place: Vec<(&'static str, u64)>,
    /// What was found, and what was wanted, where that can be told.
    pub detail: Option<String>,
}

impl From<Refused> for Failure {
    fn from(refused: Refused) -> Failure {
        Failure::Refused(refused)
    }
}

impl Failure {
    pub fn status(&self) -> u8 {
        match self {
            Failure::Refused(_) => 1,
            Failure::Usage(_) => 2,
            Failure::Device { .. } => 3,
        }
    }

    /// The line for standard error, without its end.
    pub fn line(&self) -> String {
        match self {
            Failure::Usage(why) => why.clone(),
            Failure::Refused(refused) => refused.line(),
            Failure::Device { name, why } => format!("{name}: {why}"),
        }
    }
}

impl Refused {
    /// A file refused by number and place.
    pub fn new(name: String, refusal: Refusal, detail: Option<String>) -> Refused {
        let place = refusal.place_name();
        let place = place.map(|what| (what, refusal.place as u64));
        Refused {
            name,
            number: refusal.number(),
            phrase: refusal.phrase(),
            place: Vec::from_iter(place),
            detail,
        }
    }

    /// A text refused at a line and a column.
    pub fn in_text(name: String, fault: &TextFault) -> Refused {
        Refused {
            name,
            number: fault.number(),
            phrase: fault.phrase(),
            place: vec![("line", fault.line), ("column", fault.column)],
            detail: fault.detail(),
        }
    }

    /// Without what was found.
    pub fn without_detail(self) -> Refused {
        let detail = None;
        Refused { detail, ..self }
    }

    /// With some words more.
    pub fn and(mut self, more: &str) -> Refused {
        self.detail = Some(match self.detail {
            Some(detail) => format!("{detail}; {more}"),
            None => more.to_string(),
        });
        self
    }

    fn line(&self) -> String {
        let place: Vec<String> = self
            .place
            .iter()
            .map(|(what, number)| format!("{what} {number}"))
            .collect();
        let mut line = format!("{}: refused {}", self.name, self.number);
        if !place.is_empty() {
            line += &format!(" at {}", place.join(", "));
        }
        line += &format!(": {}", self.phrase);
        if let Some(detail) = &self.detail {
            line += &format!(": {detail}");
        }
        line
    }

    /// Number, place and phrase as JSON. What was found stays out of it: of keys that is a secret.
    pub fn json(&self) -> String {
        let mut fields = vec![("number", self.number.to_string())];
        for (what, number) in &self.place {
            fields.push((what, number.to_string()));
        }
        fields.push(("phrase", json::string(self.phrase)));
        json::object(&[("refused", json::object(&fields))])
    }
}

/// A number of things, as `1 step` or `2 steps`.
pub fn counted(number: usize, thing: &str) -> String {
    let ending = if number == 1 { "" } else { "s" };
    format!("{number} {thing}{ending}")
}

/// Says a line on standard error. Nobody can be told where that fails.
pub fn say(line: &str) {
    let _ = io::stderr().write_all(format!("spoutbasket: {line}\n").as_bytes());
}

/// A file's name on one line, whatever it is made of.
pub fn shown(name: impl AsRef<OsStr>) -> String {
    let name = name.as_ref().to_string_lossy();
    let mut line = String::new();
    for c in name.chars() {
        match c {
            c if c.is_control() => line.extend(c.escape_default()),
            c => line.push(c),
        }
    }
    line
}
