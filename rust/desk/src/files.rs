//! Reading inputs and writing results as Unix tools do: `-` is standard input or output, what is no regular file is
//! never replaced, and a regular one keeps its mode and is either whole or as it was.
use std::fs::{self, File, OpenOptions};
use std::io::{self, Read, Write};
use std::os::unix::fs::{FileTypeExt, MetadataExt, OpenOptionsExt};
use std::os::unix::io::AsRawFd;
use std::path::{Path, PathBuf};

/// No input of a plant is longer, in bytes.
pub const INPUT_MOST: usize = 1 << 20;

/// What went wrong with a file.
pub struct Trouble {
    pub name: String,
    pub why: io::Error,
}

impl Trouble {
    /// What a person is told; nothing where the reader of a pipe has gone, as other tools do.
    pub fn message(&self) -> Option<String> {
        if self.why.kind() == io::ErrorKind::BrokenPipe {
            return None;
        }
        let why = self.why.to_string();
        let why = why.split(" (os error").next().unwrap_or_default();
        Some(format!("pensummer: {}: {why}", self.name))
    }
}

/// A file's bytes, or those of standard input for `-`; no more than one over `most`.
pub fn read(name: &str, most: usize) -> Result<Vec<u8>, Trouble> {
    let mut bytes = Vec::new();
    let limit = most as u64 + 1;
    let read = match name {
        "-" => io::stdin().lock().take(limit).read_to_end(&mut bytes),
        _ => File::open(name).and_then(|file| file.take(limit).read_to_end(&mut bytes)),
    };
    read.map_err(|why| Trouble { name: if name == "-" { "standard input".into() } else { name.into() }, why })?;
    Ok(bytes)
}

/// Prints to standard output, all of it.
pub fn print(bytes: &[u8]) -> Result<(), Trouble> {
    let mut out = io::stdout().lock();
    out.write_all(bytes).and_then(|()| out.flush()).map_err(|why| Trouble { name: "standard output".into(), why })
}

/// Says something on standard error; where that cannot be, there is no one left to tell.
pub fn say(text: &str) {
    let _ = io::stderr().write_all(text.as_bytes());
}

/// Leaves these bytes as the file, or prints them for `-` and for any other name of standard output.
pub fn write(name: &str, bytes: &[u8]) -> Result<(), Trouble> {
    if is_output(name) {
        return print(bytes);
    }
    let path = real(Path::new(name));
    let written = match fs::metadata(&path) {
        Ok(there) if there.is_file() && !is_descriptor(&path) => replace(&path, bytes, Some(there)),
        // what is open already is not overwritten from its start: the bytes go behind what its owner wrote
        Ok(there) => OpenOptions::new().write(true).append(there.is_file()).open(&path).and_then(|mut file| file.write_all(bytes)),
        Err(why) if why.kind() == io::ErrorKind::NotFound && !is_descriptor(&path) => replace(&path, bytes, None),
        Err(why) => Err(why),
    };
    written.map_err(|why| Trouble { name: name.into(), why })
}

/// Whether two names are of one file.
pub fn is_same(one: &str, other: &str) -> bool {
    match (fs::metadata(one), fs::metadata(other)) {
        (Ok(a), Ok(b)) => a.is_file() && a.dev() == b.dev() && a.ino() == b.ino(),
        _ => false,
    }
}

/// Whether bytes that go to this name go where results are printed.
pub fn is_output(name: &str) -> bool {
    let pipe = || match (fs::metadata(name), fs::metadata("/dev/stdout")) {
        (Ok(a), Ok(b)) => !a.file_type().is_char_device() && a.dev() == b.dev() && a.ino() == b.ino(),
        _ => false,
    };
    name == "-" || pipe()
}

/// Whether a path names an open file of a process, which no other file can take the place of.
fn is_descriptor(path: &Path) -> bool {
    let folder = path.parent().unwrap_or(path);
    folder == Path::new("/dev/fd") || folder.starts_with("/proc") && folder.ends_with("fd")
}

/// The file that a name stands for, symbolic links followed, also where there is none yet. What a descriptor leads to
/// has no name.
fn real(path: &Path) -> PathBuf {
    const LINKS_MOST: usize = 40;
    let mut path = path.to_path_buf();
    for _ in 0..LINKS_MOST {
        match fs::read_link(&path) {
            Ok(to) if !is_descriptor(&path) => path = path.parent().unwrap_or_else(|| Path::new("")).join(to),
            _ => break,
        }
    }
    path
}

/// Writes beside the file and moves it there. A file that is there, which `old` says, must be writable.
fn replace(path: &Path, bytes: &[u8], old: Option<fs::Metadata>) -> io::Result<()> {
    if old.is_some() {
        OpenOptions::new().write(true).open(path)?;
    }
    // what an old file keeps to itself is not shown for a moment
    let mode = if old.is_some() { 0o600 } else { 0o666 };
    let (beside, mut file) =
        new_beside(path, mode).map_err(|why| io::Error::new(why.kind(), format!("no file can be made beside it: {why}")))?;
    let written = old
        .map_or(Ok(()), |old| dress(&file, &old))
        .and_then(|()| file.write_all(bytes))
        .and_then(|()| file.sync_all())
        .and_then(|()| fs::rename(&beside, path));
    if written.is_err() {
        let _ = fs::remove_file(&beside);
    }
    written
}

extern "C" {
    fn fchown(file: i32, owner: u32, group: u32) -> i32;
    fn signal(number: i32, handler: usize) -> usize;
}

/// Has a limit on file sizes be an error of a write, not the program's end.
pub fn outlive_limits() {
    const SIGXFSZ: i32 = 25;
    const SIG_IGN: usize = 1;
    // SAFETY: C's function takes two numbers; nothing is run when the signal comes
    unsafe { signal(SIGXFSZ, SIG_IGN) };
}

/// Gives a file the owner of an old one, where that is allowed, and its mode.
fn dress(file: &File, old: &fs::Metadata) -> io::Result<()> {
    const AS_IT_IS: u32 = u32::MAX;
    // SAFETY: the descriptor is open; C's function takes three numbers
    let give = |owner| unsafe { fchown(file.as_raw_fd(), owner, old.gid()) };
    if give(old.uid()) != 0 {
        give(AS_IT_IS);
    }
    file.set_permissions(old.permissions())
}

/// A new file in the same folder, with a mode that the mask may lessen.
fn new_beside(path: &Path, mode: u32) -> io::Result<(PathBuf, File)> {
    let mut number = 0u32;
    loop {
        let beside = path.with_file_name(format!(".pensummer.{}.{number}", std::process::id()));
        match OpenOptions::new().write(true).create_new(true).mode(mode).open(&beside) {
            Ok(file) => return Ok((beside, file)),
            Err(why) if why.kind() == io::ErrorKind::AlreadyExists && number < 1000 => number += 1,
            Err(why) => return Err(why),
        }
    }
}
