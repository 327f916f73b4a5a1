//! The words of the command line: options, each at most once and in any place before `--`, and the names of files.
use crate::messages::{counted, Failure};
use std::ffi::{OsStr, OsString};
use std::os::unix::ffi::OsStrExt;

/// What a command takes.
pub struct Form {
    /// The command's name.
    pub name: &'static str,
    /// Options that stand alone.
    pub flags: &'static [&'static str],
    /// Options that are followed by a value.
    pub valued: &'static [&'static str],
    /// The fewest and the most files.
    pub files: (usize, usize),
}

/// What a command is given.
pub struct Given {
    flags: Vec<&'static str>,
    values: Vec<(&'static str, OsString)>,
    files: Vec<OsString>,
}

impl Given {
    pub fn has(&self, flag: &str) -> bool {
        self.flags.contains(&flag)
    }

    pub fn value(&self, option: &str) -> Option<&OsStr> {
        let found = self.values.iter().find(|(name, _)| *name == option);
        found.map(|(_, value)| value.as_os_str())
    }

    /// The file at a place, from 0.
    pub fn file(&self, place: usize) -> Option<&OsStr> {
        self.files.get(place).map(OsString::as_os_str)
    }
}

impl Form {
    /// Sorts the words after the command's name. No word but an option's name is ever repeated in a message: it may be a secret in the wrong place.
    pub fn sort(&self, words: impl IntoIterator<Item = OsString>) -> Result<Given, Failure> {
        let mut given = Given {
            flags: vec![],
            values: vec![],
            files: vec![],
        };
        let mut words = words.into_iter().peekable();
        let mut options = true;
        while let Some(word) = words.next() {
            if !options || !is_option(&word) {
                given.files.push(word);
            } else if word == "--" {
                options = false;
            } else {
                let (name, joined) = split(&word);
                let next = || words.next_if(|word| !is_option(word));
                self.option(&mut given, name, joined, next)?;
            }
        }
        let (fewest, most) = self.files;
        if given.files.len() < fewest {
            return Err(self.wrong(&format!("{} wanted", counted(fewest, "file"))));
        }
        if given.files.len() > most {
            return Err(self.wrong(&format!("more than {}", counted(most, "file"))));
        }
        Ok(given)
    }

    fn option(
        &self,
        given: &mut Given,
        name: &OsStr,
        joined: Option<&OsStr>,
        next: impl FnOnce() -> Option<OsString>,
    ) -> Result<(), Failure> {
        let name = if name == "-v" {
            "--verbose".as_ref()
        } else {
            name
        };
        let known = |options: &'static [&str]| options.iter().copied().find(|known| name == *known);
        if let Some(flag) = known(self.flags) {
            if joined.is_some() {
                return Err(self.wrong(&format!("{flag} takes no value")));
            }
            if given.has(flag) {
                return Err(self.wrong(&format!("{flag} given twice")));
            }
            given.flags.push(flag);
        } else if let Some(option) = known(self.valued) {
            let value = joined.map(OsStr::to_owned).or_else(next);
            let value = value.filter(|value| !value.is_empty());
            let value = value.ok_or_else(|| self.wrong(&format!("{option} needs a value")))?;
            if given.value(option).is_some() {
                return Err(self.wrong(&format!("{option} given twice")));
            }
            given.values.push((option, value));
        } else {
            return Err(self.wrong(&unknown(name)));
        }
        Ok(())
    }

    /// A wrong use of this command.
    pub fn wrong(&self, why: &str) -> Failure {
        let name = self.name;
        Failure::Usage(format!("{name}: {why}; see `spoutbasket help {name}`"))
    }
}

/// A dash alone is the name of a standard stream.
fn is_option(word: &OsStr) -> bool {
    word.as_bytes().starts_with(b"-") && word != "-"
}

/// `--name=value` in its two parts.
fn split(word: &OsStr) -> (&OsStr, Option<&OsStr>) {
    let bytes = word.as_bytes();
    match bytes.iter().position(|&byte| byte == b'=') {
        Some(at) if bytes.starts_with(b"--") => (
            OsStr::from_bytes(&bytes[..at]),
            Some(OsStr::from_bytes(&bytes[at + 1..])),
        ),
        _ => (word, None),
    }
}

/// An unknown option by its name, if it has the look of one.
pub fn unknown(name: &OsStr) -> String {
    match name.to_str() {
        Some(name) if name.bytes().all(|b| b == b'-' || b.is_ascii_lowercase()) => {
            format!("unknown option {name}")
        }
        _ => "unknown option".to_string(),
    }
}
