//! What the tests of the built program share: a fresh folder for each test, runs of the program in it, plants, and a
//! strict reader of JSON.
#![allow(dead_code)] // every test file uses a part

pub mod json;
pub mod plants;
pub mod report;

use std::fs;
use std::io::{Read, Write};
use std::os::unix::fs::{MetadataExt, PermissionsExt};
use std::path::{Path, PathBuf};
use std::process::{Child, Command, ExitStatus, Stdio};
use std::sync::atomic::{AtomicUsize, Ordering};
use std::thread;
use std::time::{Duration, Instant};

/// The program.
pub const PROGRAM: &str = env!("CARGO_BIN_EXE_pensummer");

/// A run that takes longer hangs.
const LIMIT: Duration = Duration::from_secs(60);

/// Standard output, standard error, exit status.
pub type Ran = (String, String, i32);

/// What a run is to give.
pub fn said(out: impl Into<String>, err: impl Into<String>, status: i32) -> Ran {
    (out.into(), err.into(), status)
}

/// A new folder, which is gone after the test.
pub struct Folder(PathBuf);

impl Folder {
    pub fn new() -> Folder {
        static NUMBER: AtomicUsize = AtomicUsize::new(0);
        let name = format!("pensummer-{}-{}", std::process::id(), NUMBER.fetch_add(1, Ordering::Relaxed));
        let path = std::env::temp_dir().join(name);
        fs::create_dir(&path).expect("a new folder");
        Folder(path)
    }

    /// A new folder with these files.
    pub fn with(files: &[(&str, &str)]) -> Folder {
        let folder = Folder::new();
        for (name, text) in files {
            folder.put(name, text);
        }
        folder
    }

    pub fn path(&self, name: &str) -> PathBuf {
        self.0.join(name)
    }

    pub fn put(&self, name: &str, content: impl AsRef<[u8]>) {
        fs::write(self.path(name), content).expect(name);
    }

    pub fn get(&self, name: &str) -> Vec<u8> {
        fs::read(self.path(name)).expect(name)
    }

    /// The names of all that is in it, sorted.
    pub fn names(&self) -> Vec<String> {
        let entries = fs::read_dir(&self.0).expect("the folder");
        let mut names: Vec<String> = entries.map(|entry| entry.expect("an entry").file_name().into_string().expect("a name")).collect();
        names.sort();
        names
    }

    /// The program with these arguments, to be run in this folder.
    pub fn command(&self, arguments: &[&str]) -> Command {
        self.other(Path::new(PROGRAM), arguments)
    }

    /// Another program, or this one by another name.
    pub fn other(&self, program: &Path, arguments: &[&str]) -> Command {
        let mut command = Command::new(program);
        command.args(arguments).current_dir(&self.0);
        command
    }

    /// Runs the program with nothing on standard input.
    pub fn run(&self, arguments: &[&str]) -> Ran {
        self.fed(arguments, b"")
    }

    /// Runs the program with this on standard input.
    pub fn fed(&self, arguments: &[&str], input: impl AsRef<[u8]>) -> Ran {
        ran(self.command(arguments), input.as_ref())
    }

    /// Runs the program, which is to succeed silently, and gives the bytes that it prints.
    pub fn bytes(&self, arguments: &[&str]) -> Vec<u8> {
        let (out, err, status) = finish(self.command(arguments), b"");
        assert_eq!((String::from_utf8_lossy(&err).as_ref(), status), ("", 0), "{arguments:?}");
        out
    }
}

/// What a command prints for a plant in the file `p`, which ends well.
pub fn out(plant: &str, arguments: &[&str]) -> String {
    let folder = Folder::with(&[("p", plant)]);
    let (out, err, status) = folder.run(&[arguments, &["p"]].concat());
    assert_eq!((err.as_str(), status), ("", 0), "{arguments:?}\n{plant}");
    out
}

/// The bytes of a text, which is a plant.
pub fn bytes(text: impl AsRef<[u8]>) -> Vec<u8> {
    let folder = Folder::new();
    folder.put("p", text);
    folder.bytes(&["plant", "p"])
}

/// A text that is no plant: the place and the reason on standard error, nothing else, status 2.
pub fn wrong(text: impl AsRef<[u8]>, message: &str) {
    let folder = Folder::new();
    folder.put("p", &text);
    let (shown, expected) = (String::from_utf8_lossy(text.as_ref()), said("", format!("p:{message}\n"), 2));
    for name in ["plant", "match", "text"] {
        assert_eq!(folder.run(&[name, "p"]), expected, "{shown}");
    }
    assert_eq!(folder.fed(&["plant", "-"], text.as_ref()), said("", format!("-:{message}\n"), 2), "{shown}");
}

impl Drop for Folder {
    fn drop(&mut self) {
        // a test may have closed it
        let _ = fs::set_permissions(&self.0, fs::Permissions::from_mode(0o755));
        let _ = fs::remove_dir_all(&self.0);
    }
}

/// Runs a command with this on standard input.
pub fn ran(command: Command, input: &[u8]) -> Ran {
    let (out, err, status) = finish(command, input);
    let text = |bytes: Vec<u8>| String::from_utf8(bytes).expect("the program prints UTF-8");
    (text(out), text(err), status)
}

/// Runs a command to its end and gives its bytes.
fn finish(mut command: Command, input: &[u8]) -> (Vec<u8>, Vec<u8>, i32) {
    let mut child = command.stdin(Stdio::piped()).stdout(Stdio::piped()).stderr(Stdio::piped()).spawn().expect("the program starts");
    let (mut stdin, mut stdout, mut stderr) = (child.stdin.take(), child.stdout.take(), child.stderr.take());
    thread::scope(|threads| {
        threads.spawn(move || {
            // what a program does not read is lost, as in a shell
            let _ = stdin.take().map(|mut pipe| pipe.write_all(input));
        });
        let out = threads.spawn(move || all(stdout.take()));
        let err = threads.spawn(move || all(stderr.take()));
        let status = waited(&mut child);
        (out.join().expect("output"), err.join().expect("errors"), status.code().expect("the program ends by itself"))
    })
}

fn all(pipe: Option<impl Read>) -> Vec<u8> {
    let mut bytes = Vec::new();
    pipe.map(|mut pipe| pipe.read_to_end(&mut bytes).expect("a pipe"));
    bytes
}

/// Waits for the end of a child; one that hangs is ended, and the test fails.
pub fn waited(child: &mut Child) -> ExitStatus {
    let begin = Instant::now();
    loop {
        if let Some(status) = child.try_wait().expect("the program's end") {
            return status;
        }
        if begin.elapsed() > LIMIT {
            let _ = child.kill();
            panic!("the program hangs");
        }
        thread::sleep(Duration::from_millis(1));
    }
}

/// Makes a FIFO; it needs the tool `mkfifo`.
pub fn fifo(folder: &Folder, name: &str) {
    let made = Command::new("mkfifo").arg(folder.path(name)).status().expect("mkfifo");
    assert!(made.success(), "mkfifo");
}

/// Whether this test may read and write every file.
pub fn is_root(folder: &Folder) -> bool {
    fs::metadata(folder.path(".")).expect("the folder").uid() == 0
}
