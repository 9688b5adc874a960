//! The files that the built program writes: whole or as they were, never replaced where they are no regular file, with
//! nothing left beside.
mod support;

use std::fs::{self, OpenOptions, Permissions};
use std::os::unix::fs::{symlink, FileTypeExt, PermissionsExt};
use std::path::{Path, PathBuf};
use std::process::Command;
use std::thread;
use support::plants::{hex, of_repository, three_bytes, FOUND, LOOP, RECORDED, TABLE, THREE};
use support::{fifo, is_root, ran, said, Folder, Ran, PROGRAM};

/// The plant of `p` as bytes into this output.
fn plant_to(folder: &Folder, output: &str) -> Ran {
    folder.run(&["plant", "p", "-o", output])
}

fn mode(path: PathBuf) -> u32 {
    fs::metadata(path).expect("a file").permissions().mode() & 0o7777
}

fn three() -> Folder {
    Folder::with(&[("p", THREE)])
}

/// Runs the program as somebody who may not write everything; none, with a note, if that cannot be done here.
///
/// Devices are outputs only in such runs: a program that is broken may replace them, and as root that would break the
/// machine.
fn run_as_nobody(folder: &Folder, arguments: &[&str]) -> Option<Ran> {
    if !is_root(folder) {
        return Some(folder.run(arguments));
    }
    let setpriv = match ["/usr/bin/setpriv", "/bin/setpriv"].iter().map(Path::new).find(|path| path.exists()) {
        Some(setpriv) => setpriv,
        None => {
            println!("left out: the test runs as root, and setpriv is not there");
            return None;
        }
    };
    // where the program was built may be closed to others; a copy by this process might be held open by the start of
    // another one
    let (home, program) = (Folder::new(), "program");
    let copied = Command::new("cp").arg(PROGRAM).arg(home.path(program)).status().expect("cp");
    assert!(copied.success(), "cp");
    let program = home.path(program).into_os_string().into_string().expect("a path");
    let mut words = vec!["--reuid=65534", "--regid=65534", "--clear-groups", &program];
    words.extend(arguments);
    Some(ran(folder.other(setpriv, &words), b""))
}

/// A folder with a plant in which everybody may write.
fn open_to_all() -> Folder {
    let folder = three();
    fs::set_permissions(folder.path("."), Permissions::from_mode(0o777)).expect("the mode");
    folder
}

fn is_device(path: &str) -> bool {
    fs::symlink_metadata(path).expect(path).file_type().is_char_device()
}

#[test]
fn a_new_file_gets_the_bytes_and_nothing_is_left_beside() {
    let folder = three();
    assert_eq!(plant_to(&folder, "b"), said("", "", 0));
    assert_eq!((folder.get("b"), folder.names()), (three_bytes(), vec!["b".to_owned(), "p".to_owned()]));
}

#[test]
fn a_new_file_has_the_mode_that_other_tools_give() {
    let folder = three();
    folder.put("touched", "");
    assert_eq!(plant_to(&folder, "b"), said("", "", 0));
    assert_eq!(mode(folder.path("b")), mode(folder.path("touched")));
}

#[test]
fn each_command_with_an_output_writes_there_what_it_prints_without_one() {
    let folder = three();
    for name in ["picture", "plant", "text"] {
        let printed = folder.bytes(&[name, "p"]);
        assert_eq!(folder.run(&[name, "p", "-o", "x"]), said("", "", 0), "{name}");
        assert_eq!(folder.get("x"), printed, "{name}");
        assert_eq!(folder.bytes(&[name, "p", "-o", "-"]), printed, "{name}");
    }
    assert_eq!(folder.names(), ["p", "x"]);
}

#[test]
fn a_certificate_on_standard_output_is_the_one_in_a_file() {
    let folder = three();
    assert_eq!(folder.run(&["write", "p", "-o", "c"]), said("written 94\n", "", 0));
    let output = folder.command(&["write", "p", "-o", "-"]).output().expect("the program");
    assert_eq!((output.stdout, output.stderr, output.status.code()), (folder.get("c"), b"written 94\n".to_vec(), Some(0)));
}

#[test]
fn an_existing_file_is_replaced_whole_even_if_it_was_longer() {
    let folder = three();
    folder.put("b", vec![7; 100_000]);
    assert_eq!(plant_to(&folder, "b"), said("", "", 0));
    assert_eq!((folder.get("b"), folder.names()), (three_bytes(), vec!["b".to_owned(), "p".to_owned()]));
}

#[test]
fn the_modes_of_an_existing_file_are_kept() {
    let folder = three();
    for wanted in [0o640, 0o600, 0o755, 0o666] {
        folder.put("b", "old");
        fs::set_permissions(folder.path("b"), Permissions::from_mode(wanted)).expect("the mode");
        assert_eq!(plant_to(&folder, "b"), said("", "", 0));
        assert_eq!((folder.get("b"), mode(folder.path("b"))), (three_bytes(), wanted), "{wanted:o}");
    }
}

#[test]
fn a_file_that_is_read_is_not_written_over() {
    let folder = three();
    folder.put("a.table", &folder.get("p"));
    std::os::unix::fs::symlink("p", folder.path("link")).expect("a link");
    fs::hard_link(folder.path("p"), folder.path("other")).expect("a hard link");
    for name in ["p", "./p", "link", "other"] {
        let message = format!("pensummer: {name}: this file is read and would be written over\n");
        for command in ["text", "plant", "picture", "write"] {
            assert_eq!(folder.run(&[command, "p", "-o", name]), said("", message.as_str(), 2), "{command}");
        }
    }
    let plant = fs::File::open(folder.path("p")).expect("the plant");
    let output = folder.command(&["picture", "-", "-o", "p"]).stdin(plant).output().expect("the program");
    assert_eq!(output.stderr, b"pensummer: p: this file is read and would be written over\n");
    let message = "pensummer: a.table: this file is read and would be written over\n";
    assert_eq!(folder.run(&["plant", "a.table", "--split", "a"]), said("", message, 2));
    assert_eq!((folder.get("p"), folder.get("a.table")), (THREE.as_bytes().to_vec(), THREE.as_bytes().to_vec()));
}

#[test]
fn a_limit_on_file_sizes_is_trouble_and_leaves_nothing_beside() {
    let folder = Folder::new();
    folder.put("p", of_repository("examples/pool.txt"));
    let script = "ulimit -f 1; exec \"$0\" write p -o c";
    let output =
        std::process::Command::new("sh").args(["-c", script, env!("CARGO_BIN_EXE_pensummer")]).current_dir(folder.path(".")).output();
    let output = output.expect("a shell");
    assert_eq!((output.stderr, output.status.code()), (b"pensummer: c: File too large\n".to_vec(), Some(2)));
    assert_eq!(folder.names(), ["p"]);
}

#[test]
fn standard_output_by_another_name_is_standard_output() {
    let folder = three();
    folder.put("log", "before\n");
    let script = "{ \"$0\" plant p -o /dev/stdout; echo behind; } >> log";
    let status =
        std::process::Command::new("sh").args(["-c", script, env!("CARGO_BIN_EXE_pensummer")]).current_dir(folder.path(".")).status();
    assert!(status.expect("a shell").success());
    assert_eq!(folder.get("log"), [b"before\n", &three_bytes()[..], b"behind\n"].concat());
    let output = folder.command(&["write", "p", "-o", "/dev/stdout"]).output().expect("the program");
    assert_eq!((output.stdout.len(), output.stderr, output.status.code()), (94, b"written 94\n".to_vec(), Some(0)));
}

#[test]
fn a_full_device_as_output_is_trouble_and_stays_a_device() {
    let folder = open_to_all();
    let message = "pensummer: /dev/full: No space left on device\n";
    for name in ["write", "plant", "picture", "text"] {
        if let Some(ran) = run_as_nobody(&folder, &[name, "p", "-o", "/dev/full"]) {
            assert_eq!(ran, said("", message, 2), "{name}");
        }
    }
    assert!(is_device("/dev/full"));
    assert_eq!(folder.names(), ["p"]);
}

#[test]
fn a_device_that_takes_all_stays_a_device() {
    let folder = open_to_all();
    if let Some(ran) = run_as_nobody(&folder, &["write", "p", "-o", "/dev/null"]) {
        assert_eq!(ran, said("written 94\n", "", 0));
    }
    assert!(is_device("/dev/null"));
}

#[test]
fn a_symbolic_link_stays_one_and_its_target_gets_the_bytes() {
    let folder = three();
    fs::create_dir(folder.path("sub")).expect("a folder");
    folder.put("sub/target", "old");
    fs::set_permissions(folder.path("sub/target"), Permissions::from_mode(0o600)).expect("the mode");
    symlink("sub/target", folder.path("near")).expect("a link");
    symlink(folder.path("near"), folder.path("far")).expect("a link");
    for link in ["near", "far"] {
        folder.put("sub/target", "old");
        assert_eq!(plant_to(&folder, link), said("", "", 0));
        assert!(fs::symlink_metadata(folder.path(link)).expect("the link").file_type().is_symlink(), "{link}");
        assert_eq!((folder.get("sub/target"), mode(folder.path("sub/target"))), (three_bytes(), 0o600), "{link}");
    }
    assert_eq!(folder.names(), ["far", "near", "p", "sub"]);
}

#[test]
fn a_dangling_link_creates_its_target() {
    let folder = three();
    symlink("target", folder.path("link")).expect("a link");
    assert_eq!(plant_to(&folder, "link"), said("", "", 0));
    assert_eq!(fs::read_link(folder.path("link")).expect("the link"), Path::new("target"));
    assert_eq!((folder.get("target"), folder.names()), (three_bytes(), vec!["link".into(), "p".into(), "target".into()]));
}

#[test]
fn links_in_a_ring_are_trouble() {
    let folder = three();
    symlink("b", folder.path("a")).expect("a link");
    symlink("a", folder.path("b")).expect("a link");
    assert_eq!(plant_to(&folder, "a"), said("", "pensummer: a: Too many levels of symbolic links\n", 2));
    assert_eq!(folder.names(), ["a", "b", "p"]);
}

#[test]
fn a_fifo_gets_the_bytes_and_stays_one() {
    let folder = three();
    fifo(&folder, "pipe");
    let path = folder.path("pipe");
    let reader = thread::spawn(move || fs::read(path).expect("the FIFO"));
    assert_eq!(folder.run(&["write", "p", "-o", "pipe"]), said("written 94\n", "", 0));
    let got = reader.join().expect("the reader");
    assert!(fs::symlink_metadata(folder.path("pipe")).expect("the FIFO").file_type().is_fifo());
    assert_eq!(folder.run(&["write", "p", "-o", "c"]), said("written 94\n", "", 0));
    assert_eq!((got, folder.names()), (folder.get("c"), vec!["c".to_owned(), "p".to_owned(), "pipe".to_owned()]));
}

#[test]
fn a_refused_plant_leaves_the_output_as_it_was() {
    let folder = Folder::with(&[("p", LOOP), ("c", "old")]);
    let message = "pensummer: refused 6: an edge of the recorded tree closes a loop\np:5:5: the edge 1-0 closes a loop\n";
    for name in ["write", "picture"] {
        assert_eq!(folder.run(&[name, "p", "-o", "c"]), said("", message, 1), "{name}");
        assert_eq!(folder.run(&[name, "p", "-o", "new"]), said("", message, 1), "{name}");
    }
    assert_eq!((folder.get("c"), folder.names()), (b"old".to_vec(), vec!["c".to_owned(), "p".to_owned()]));
}

#[test]
fn a_text_that_is_no_plant_leaves_the_output_as_it_was() {
    let folder = Folder::with(&[("p", "labels 1 1\nvertex x\n"), ("c", "old")]);
    let message = "p:2:8: a weight is a number of 32 bits or `forbidden`, not `x`\n";
    for name in ["write", "picture", "plant", "text"] {
        assert_eq!(folder.run(&[name, "p", "-o", "c"]), said("", message, 2), "{name}");
    }
    assert_eq!(folder.run(&["plant", "p", "--split", "c"]), said("", message, 2));
    assert_eq!((folder.get("c"), folder.names()), (b"old".to_vec(), vec!["c".to_owned(), "p".to_owned()]));
}

#[test]
fn a_folder_as_output_is_trouble() {
    let folder = three();
    fs::create_dir(folder.path("sub")).expect("a folder");
    assert_eq!(plant_to(&folder, "sub"), said("", "pensummer: sub: Is a directory\n", 2));
    assert_eq!(folder.names(), ["p", "sub"]);
    assert_eq!(fs::read_dir(folder.path("sub")).expect("the folder").count(), 0);
}

#[test]
fn an_output_in_a_folder_that_is_not_there_is_trouble() {
    let folder = three();
    assert_eq!(plant_to(&folder, "none/b"), said("", "pensummer: none/b: no file can be made beside it: No such file or directory\n", 2));
    let message = "pensummer: none/b.table: no file can be made beside it: No such file or directory\n";
    assert_eq!(folder.run(&["plant", "p", "--split", "none/b"]), said("", message, 2));
    assert_eq!(folder.names(), ["p"]);
}

#[test]
fn an_output_below_a_file_is_trouble() {
    let folder = three();
    assert_eq!(plant_to(&folder, "p/b"), said("", "pensummer: p/b: Not a directory\n", 2));
    assert_eq!(folder.get("p"), THREE.as_bytes());
}

#[test]
fn a_file_that_may_not_be_written_is_trouble_and_stays_as_it_was() {
    let folder = open_to_all();
    folder.put("b", "old");
    fs::set_permissions(folder.path("b"), Permissions::from_mode(0o444)).expect("the mode");
    if let Some(ran) = run_as_nobody(&folder, &["plant", "p", "-o", "b"]) {
        assert_eq!(ran, said("", "pensummer: b: Permission denied\n", 2));
    }
    assert_eq!((folder.get("b"), mode(folder.path("b"))), (b"old".to_vec(), 0o444));
    assert_eq!(folder.names(), ["b", "p"]);
}

#[test]
fn a_plant_that_may_not_be_read_is_trouble() {
    let folder = open_to_all();
    fs::set_permissions(folder.path("p"), Permissions::from_mode(0o000)).expect("the mode");
    if let Some(ran) = run_as_nobody(&folder, &["match", "p"]) {
        assert_eq!(ran, said("", "pensummer: p: Permission denied\n", 2));
    }
}

#[test]
fn a_folder_that_may_not_be_written_is_trouble() {
    let folder = three();
    fs::set_permissions(folder.path("."), Permissions::from_mode(0o555)).expect("the mode");
    if let Some(ran) = run_as_nobody(&folder, &["plant", "p", "-o", "b"]) {
        assert_eq!(ran, said("", "pensummer: b: no file can be made beside it: Permission denied\n", 2));
    }
    assert_eq!(folder.names(), ["p"]);
}

#[test]
fn split_writes_the_three_parts() {
    let folder = three();
    assert_eq!(folder.run(&["plant", "p", "--split", "x"]), said("", "", 0));
    assert_eq!(folder.names(), ["p", "x.found", "x.recorded", "x.table"]);
    assert_eq!([folder.get("x.table"), folder.get("x.recorded"), folder.get("x.found")], [hex(TABLE), hex(RECORDED), hex(FOUND)]);
}

#[test]
fn a_full_device_among_the_three_parts_is_trouble() {
    let folder = open_to_all();
    symlink("/dev/full", folder.path("x.recorded")).expect("a link");
    if let Some(ran) = run_as_nobody(&folder, &["plant", "p", "--split", "x"]) {
        assert_eq!(ran, said("", "pensummer: x.recorded: No space left on device\n", 2));
        assert!(!folder.path("x.found").exists());
    }
    assert!(is_device("/dev/full"));
}

#[test]
fn a_certificate_is_written_before_its_length_is_printed() {
    let folder = three();
    let full = OpenOptions::new().write(true).open("/dev/full").expect("/dev/full");
    let output = folder.command(&["write", "p", "-o", "c"]).stdout(full).output().expect("the program");
    assert_eq!((output.status.code(), folder.get("c").len()), (Some(2), 94));
}
