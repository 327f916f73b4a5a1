//! What is read: a file named, or standard input, up to its end.
use crate::messages::{shown, Failure};
use spoutbasket::LONGEST_FILE;
use std::ffi::OsStr;
use std::fs::{self, File, Metadata};
use std::io::{self, Read};
use std::os::fd::AsFd;
use std::path::PathBuf;

/// The most bytes of a sheet or of keys. The largest sheet has some thousands, so this only ends the reading of what is none.
const MOST_BYTES: usize = 16 << 20;

/// The names of standard input, which can be read once.
const STANDARD: [&str; 4] = ["-", "/dev/stdin", "/dev/fd/0", "/proc/self/fd/0"];

/// Where input comes from.
#[derive(PartialEq)]
pub enum Source {
    Standard,
    File(PathBuf),
}

impl Source {
    /// No name at all is standard input too.
    pub fn new(name: Option<&OsStr>) -> Source {
        match name {
            Some(name) if !STANDARD.iter().any(|standard| name == *standard) => {
                Source::File(name.into())
            }
            _ => Source::Standard,
        }
    }

    /// The name in messages.
    pub fn name(&self) -> String {
        match self {
            Source::Standard => "standard input".to_string(),
            Source::File(path) => shown(path),
        }
    }

    /// A sheet or keys, whole.
    pub fn whole(&self) -> Result<Vec<u8>, Failure> {
        let bytes = self.bytes(MOST_BYTES + 1)?;
        if bytes.len() > MOST_BYTES {
            return Err(self.failed("longer than 16 MiB"));
        }
        Ok(bytes)
    }

    /// A chain's file; of a longer one as much as shows that it is too long.
    pub fn chain(&self) -> Result<Vec<u8>, Failure> {
        self.bytes(LONGEST_FILE + 1)
    }

    fn bytes(&self, most: usize) -> Result<Vec<u8>, Failure> {
        let mut bytes = vec![];
        self.open()
            .and_then(|file| file.take(most as u64).read_to_end(&mut bytes))
            .map_err(|why| self.failed(&why.to_string()))?;
        Ok(bytes)
    }

    /// What it is, known without reading.
    pub fn metadata(&self) -> io::Result<Metadata> {
        match self {
            Source::Standard => self.open()?.metadata(),
            Source::File(path) => fs::metadata(path),
        }
    }

    fn open(&self) -> io::Result<File> {
        match self {
            Source::Standard => Ok(io::stdin().as_fd().try_clone_to_owned()?.into()),
            Source::File(path) => File::open(path),
        }
    }

    fn failed(&self, why: &str) -> Failure {
        Failure::Device {
            name: self.name(),
            why: why.to_string(),
        }
    }
}
