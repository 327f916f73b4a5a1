//! What is written: results on standard output, and files, which appear whole or not at all.
use crate::input::Source;
use crate::messages::{shown, Failure};
use std::collections::hash_map::RandomState;
use std::ffi::OsStr;
use std::fs::{self, File, OpenOptions, Permissions};
use std::hash::{BuildHasher, Hasher};
use std::io::{self, ErrorKind, IsTerminal, Write};
use std::os::fd::AsFd;
use std::os::unix::fs::{FileTypeExt, MetadataExt, OpenOptionsExt};
use std::path::{Path, PathBuf};

/// The names of standard output. Opened by one of the system's, a file would be written from its start and not from where standard output is.
const STANDARD: [&str; 4] = ["-", "/dev/stdout", "/dev/fd/1", "/proc/self/fd/1"];

/// Where a chain or a sheet goes.
pub enum Target {
    Standard,
    File(PathBuf),
}

impl Target {
    /// No name at all is standard output too.
    pub fn new(name: Option<&OsStr>) -> Target {
        match name {
            Some(name) if !STANDARD.iter().any(|standard| name == *standard) => {
                Target::File(name.into())
            }
            _ => Target::Standard,
        }
    }

    /// Writes the file.
    pub fn write(&self, bytes: &[u8]) -> Result<(), Failure> {
        match self {
            Target::Standard => print(bytes),
            Target::File(path) => write_file(path, bytes).map_err(|why| Failure::Device {
                name: shown(path),
                why: why.to_string(),
            }),
        }
    }

    /// Whether the target is the very file that a source is.
    pub fn is(&self, source: &Source) -> bool {
        let Target::File(path) = self else {
            return false;
        };
        match (fs::metadata(path), source.metadata()) {
            (Ok(a), Ok(b)) => a.is_file() && (a.dev(), a.ino()) == (b.dev(), b.ino()),
            _ => false,
        }
    }
}

/// Whether standard output is a person's terminal.
pub fn to_terminal() -> bool {
    io::stdout().is_terminal()
}

/// Writes a result that is lost if it cannot be written.
pub fn print(bytes: &[u8]) -> Result<(), Failure> {
    standard(bytes, true)
}

/// Writes what the exit status says too, so that nothing is lost where standard output is closed.
pub fn tell(bytes: &[u8]) -> Result<(), Failure> {
    standard(bytes, false)
}

fn standard(bytes: &[u8], wanted: bool) -> Result<(), Failure> {
    let write = || {
        let mut file = File::from(io::stdout().as_fd().try_clone_to_owned()?);
        if wanted && was_closed(&file)? {
            return Err(io::Error::other("closed"));
        }
        file.write_all(bytes)?;
        // a device that is full may be known only when the bytes reach it
        if file.metadata()?.is_file() {
            synced(file.sync_data())?;
        }
        Ok(())
    };
    write().map_err(|why: io::Error| Failure::Device {
        name: "standard output".to_string(),
        why: why.to_string(),
    })
}

/// Whether standard output was closed at the start: the Rust runtime then has /dev/null in its place, open for reading and writing, which
/// `> /dev/null` is not.
fn was_closed(file: &File) -> io::Result<bool> {
    let ours = file.metadata()?;
    let is_null = |null: fs::Metadata| null.rdev() == ours.rdev();
    if !ours.file_type().is_char_device() || !fs::metadata("/dev/null").is_ok_and(is_null) {
        return Ok(false);
    }
    let info = fs::read_to_string("/proc/self/fdinfo/1").unwrap_or_default();
    let flags = info.lines().find_map(|line| line.strip_prefix("flags:"));
    // octal, and its last digit has the two bits of the access
    Ok(flags.is_some_and(|flags| flags.trim_end().ends_with(['2', '6'])))
}

/// Writes to a device, a pipe or a socket as it is; else puts a new file in place.
fn write_file(path: &Path, bytes: &[u8]) -> io::Result<()> {
    match fs::metadata(path) {
        Ok(found) if found.is_dir() => Err(io::Error::other("is a directory")),
        Ok(found) if !found.is_file() => {
            OpenOptions::new().write(true).open(path)?.write_all(bytes)
        }
        // through links, so that they stay what they are
        Ok(found) => replace(&fs::canonicalize(path)?, Some(found.permissions()), bytes),
        Err(why) if why.kind() == ErrorKind::NotFound => match fs::read_link(path) {
            Ok(to) => write_file(&folder_of(path).join(to), bytes),
            Err(_) => replace(path, None, bytes),
        },
        Err(why) => Err(why),
    }
}

fn folder_of(path: &Path) -> &Path {
    match path.parent() {
        Some(folder) if folder != Path::new("") => folder,
        _ => Path::new("."),
    }
}

/// A new file under the name, whole: written beside it, brought to the device, and only then renamed. What only some may read stays so: the new file has
/// the permissions of the old one, if there is one.
fn replace(path: &Path, old: Option<Permissions>, bytes: &[u8]) -> io::Result<()> {
    let folder = folder_of(path);
    let (beside, file) = beside(folder, if old.is_some() { 0o600 } else { 0o666 })?;
    let placed = fill(file, old, bytes).and_then(|()| fs::rename(&beside, path));
    if placed.is_err() {
        // what failed is told; there is nothing to add if this fails too
        let _ = fs::remove_file(&beside);
    }
    placed.and_then(|()| sync_folder(folder))
}

/// A new file in a folder under a name that nobody can foresee.
fn beside(folder: &Path, mode: u32) -> io::Result<(PathBuf, File)> {
    let mut options = OpenOptions::new();
    options.write(true).create_new(true).mode(mode);
    loop {
        let random = RandomState::new().build_hasher().finish();
        let path = folder.join(format!(".spoutbasket-{random:016x}"));
        match options.open(&path) {
            Err(why) if why.kind() == ErrorKind::AlreadyExists => {}
            opened => return opened.map(|file| (path, file)),
        }
    }
}

fn fill(mut file: File, permissions: Option<Permissions>, bytes: &[u8]) -> io::Result<()> {
    file.write_all(bytes)?;
    permissions.map_or(Ok(()), |permissions| file.set_permissions(permissions))?;
    synced(file.sync_all())
}

/// Brings the new name to the device. A folder that may be written and not read cannot be synced.
fn sync_folder(folder: &Path) -> io::Result<()> {
    match File::open(folder) {
        Err(why) if why.kind() == ErrorKind::PermissionDenied => Ok(()),
        opened => synced(opened?.sync_all()),
    }
}

/// A file system that has no such sync has not failed.
fn synced(sync: io::Result<()>) -> io::Result<()> {
    match sync {
        Err(why) if matches!(why.kind(), ErrorKind::InvalidInput | ErrorKind::Unsupported) => {
            Ok(())
        }
        sync => sync,
    }
}
