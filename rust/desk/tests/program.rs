//! The built program as a person runs it: the command line, what it reads, and what it says where reading fails.
mod support;

use std::fs::{self, File, OpenOptions};
use std::os::unix::fs::symlink;
use std::process::{Command, Stdio};
use std::thread;
use std::time::{Duration, Instant};
use support::plants::{examples, of_repository, three_bytes, LOOP, NINE, ONE, THREE, THREE_PLAIN};
use support::{fifo, ran, said, waited, Folder, Ran, PROGRAM};

const COMMANDS: [&str; 9] = ["match", "listing", "picture", "plant", "text", "write", "check", "show", "sizes"];

const MATCH_USAGE: &str = "usage: pensummer match PLANT.. [--plain] [--answer FILE] [--json]\n";

/// A call that ends well with a plant in the file `p`; its certificate is in `c`.
fn calls() -> Vec<Vec<&'static str>> {
    vec![
        vec!["match", "p"],
        vec!["match", "--plain", "p"],
        vec!["match", "--json", "p"],
        vec!["listing", "p"],
        vec!["listing", "--json", "p"],
        vec!["picture", "p"],
        vec!["plant", "p"],
        vec!["text", "p"],
        vec!["write", "p", "-o", "w"],
        vec!["write", "p", "-o", "-"],
        vec!["write", "--json", "p", "-o", "w"],
        vec!["check", "p", "c"],
        vec!["check", "--json", "p", "c"],
        vec!["show", "p", "c"],
        vec!["show", "--json", "p", "c"],
        vec!["sizes", "p"],
        vec!["sizes", "--json", "p"],
        vec!["--help"],
        vec!["help", "match"],
        vec!["--version"],
    ]
}

/// A folder with a plant in `p` and its certificate in `c`.
fn plant_and_certificate() -> Folder {
    let folder = Folder::with(&[("p", THREE)]);
    assert_eq!(folder.run(&["write", "p", "-o", "c"]), said("written 94\n", "", 0));
    folder
}

/// A wrong call: nothing on standard output, this sentence and the usage on standard error, status 2.
fn wrong(arguments: &[&str], why: &str, usage: &str) {
    let folder = Folder::with(&[("p", THREE)]);
    assert_eq!(folder.run(arguments), said("", format!("pensummer: {why}\n{usage}"), 2), "{arguments:?}");
}

fn wrong_match(arguments: &[&str], why: &str) {
    wrong(arguments, why, MATCH_USAGE);
}

#[test]
fn no_argument_is_usage_on_standard_error() {
    let folder = Folder::new();
    let (help, _, _) = folder.run(&["--help"]);
    assert_eq!(folder.run(&[]), said("", help, 2));
}

#[test]
fn an_unknown_command_is_named_and_usage_follows() {
    let folder = Folder::new();
    let (help, _, _) = folder.run(&["--help"]);
    assert_eq!(folder.run(&["mach", "p"]), said("", format!("pensummer: there is no command `mach`\n{help}"), 2));
    assert_eq!(folder.run(&["help", "mach"]), said("", format!("pensummer: there is no command `mach`\n{help}"), 2));
    assert_eq!(folder.run(&["--json"]), said("", format!("pensummer: there is no command `--json`\n{help}"), 2));
}

#[test]
fn general_help_is_on_standard_output_and_names_every_command() {
    let folder = Folder::new();
    let (help, err, status) = folder.run(&["--help"]);
    assert_eq!((err.as_str(), status), ("", 0));
    assert!(help.starts_with("usage: pensummer COMMAND ..\n\n  match    match the two trees"), "{help}");
    assert!(COMMANDS.iter().all(|name| help.contains(&format!("\n  {name:<8} "))), "{help}");
    assert!(help
        .ends_with("Exit status: 0 done or accepted; 1 refused or not accepted; 2 a wrong call,\na file, or a text that is no plant.\n"));
    for arguments in [["-h"], ["help"]] {
        assert_eq!(folder.run(&arguments), said(help.clone(), "", 0), "{arguments:?}");
    }
}

#[test]
fn help_of_each_command_is_on_standard_output_in_whatever_way_it_is_asked_for() {
    let folder = Folder::new();
    for name in COMMANDS {
        let (help, err, status) = folder.run(&["help", name]);
        assert_eq!((err.as_str(), status), ("", 0), "{name}");
        assert!(help.starts_with(&format!("usage: pensummer {name} PLANT..")), "{help}");
        assert!(help.contains("\n  --help           print this\n\nExit status: 0 done"), "{help}");
        for arguments in [vec![name, "--help"], vec![name, "-h"], vec![name, "no file", "--bogus", "--help"]] {
            assert_eq!(folder.run(&arguments), said(help.clone(), "", 0), "{arguments:?}");
        }
    }
}

#[test]
fn help_names_the_options_of_its_command_and_no_others() {
    let folder = Folder::new();
    let options = ["--plain", "--answer FILE", "--output FILE", "--split PREFIX", "--json"];
    let own = [[1, 1, 0, 0, 1], [0, 1, 0, 0, 1], [0, 1, 1, 0, 0], [0, 0, 1, 1, 0], [0, 0, 1, 0, 0], [0, 0, 1, 0, 1], [0, 0, 0, 0, 1]];
    for (name, own) in COMMANDS.iter().zip(own.iter().chain([&[0, 0, 0, 0, 1]])) {
        let (help, _, _) = folder.run(&["help", name]);
        let named = options.map(|option| usize::from(help.contains(&format!("\n  {option:<16} "))));
        assert_eq!(&named, own, "{name}");
    }
}

#[test]
fn after_two_hyphens_help_is_a_file() {
    let folder = Folder::with(&[("--help", THREE)]);
    assert_eq!(folder.run(&["match", "--plain", "--", "--help"]), said(THREE_PLAIN, "", 0));
}

#[test]
fn the_version_is_printed() {
    let version = format!("pensummer {}\n", env!("CARGO_PKG_VERSION"));
    assert_eq!(Folder::new().run(&["--version"]), said(version.clone(), "", 0));
    assert_eq!(Folder::new().run(&["-V"]), said(version, "", 0));
}

#[test]
fn an_unknown_option_is_named() {
    wrong_match(&["match", "p", "--bogus"], "`match` has no option `--bogus`");
    wrong_match(&["match", "p", "-x"], "`match` has no option `-x`");
    wrong_match(&["match", "p", "--bogus=7"], "`match` has no option `--bogus`");
}

#[test]
fn an_option_of_another_command_is_unknown() {
    wrong_match(&["match", "p", "-o", "x"], "`match` has no option `--output`");
    wrong_match(&["match", "p", "--split", "x"], "`match` has no option `--split`");
    wrong(&["text", "p", "--json"], "`text` has no option `--json`", "usage: pensummer text PLANT.. [--output FILE]\n");
    let usage = "usage: pensummer listing PLANT.. [--answer FILE] [--json]\n";
    wrong(&["listing", "--plain", "p"], "`listing` has no option `--plain`", usage);
}

#[test]
fn an_option_without_its_value_is_an_error() {
    wrong_match(&["match", "p", "--answer"], "`--answer` wants FILE");
    let usage = "usage: pensummer plant PLANT.. [--output FILE] [--split PREFIX]\n";
    wrong(&["plant", "p", "-o"], "`--output` wants FILE", usage);
    wrong(&["plant", "p", "--split"], "`--split` wants PREFIX", usage);
}

#[test]
fn a_value_where_none_is_taken_is_an_error() {
    wrong_match(&["match", "p", "--json=yes"], "`--json` takes no value");
    wrong_match(&["match", "p", "--plain="], "`--plain` takes no value");
}

#[test]
fn the_same_option_twice_is_an_error() {
    wrong_match(&["match", "--json", "p", "--json"], "`--json` stands twice");
    wrong_match(&["match", "--plain", "--plain", "p"], "`--plain` stands twice");
    wrong_match(&["match", "--answer", "a", "p", "--answer=a"], "`--answer` stands twice");
    let usage = "usage: pensummer write PLANT.. -o CERTIFICATE [--json]\n";
    wrong(&["write", "p", "-o", "a", "--output", "b"], "`--output` stands twice", usage);
}

#[test]
fn options_that_exclude_each_other_are_an_error() {
    wrong_match(&["match", "--json", "--plain", "p"], "`--plain` and `--json` do not go together");
    let usage = "usage: pensummer plant PLANT.. [--output FILE] [--split PREFIX]\n";
    wrong(&["plant", "p", "-o", "x", "--split", "y"], "`--output` and `--split` do not go together", usage);
    wrong(&["plant", "p", "--split", "-"], "`--split` writes three files; `-` is no prefix for them", usage);
    wrong(&["plant", "p", "-o", ""], "a file name is empty", usage);
}

#[test]
fn no_file_and_too_many_files_are_errors() {
    wrong_match(&["match"], "a plant is 1 to 3 files, not 0");
    wrong_match(&["match", "--json"], "a plant is 1 to 3 files, not 0");
    wrong_match(&["match", "a", "b", "c", "d"], "a plant is 1 to 3 files, not 4");
    let usage = "usage: pensummer check PLANT.. CERTIFICATE [--json]\n";
    wrong(&["check", "a", "b", "c", "d", "e"], "a plant is 1 to 3 files, not 4", usage);
}

#[test]
fn a_certificate_that_is_not_named_is_an_error() {
    let usage = "usage: pensummer check PLANT.. CERTIFICATE [--json]\n";
    wrong(&["check", "p"], "a plant and a certificate are wanted", usage);
    let usage = "usage: pensummer show PLANT.. CERTIFICATE [--json]\n";
    wrong(&["show", "p"], "a plant and a certificate are wanted", usage);
    let usage = "usage: pensummer write PLANT.. -o CERTIFICATE [--json]\n";
    wrong(&["write", "p"], "`-o CERTIFICATE` is wanted", usage);
}

#[test]
fn standard_input_twice_is_an_error() {
    let why = "standard input can be read once";
    wrong_match(&["match", "-", "-"], why);
    wrong_match(&["match", "-", "--answer", "-"], why);
    wrong_match(&["match", "-", "--", "-"], why);
    wrong(&["check", "-", "-"], why, "usage: pensummer check PLANT.. CERTIFICATE [--json]\n");
}

#[test]
fn a_wrong_call_leaves_its_output_as_it_was() {
    let folder = Folder::with(&[("p", THREE), ("c", "old")]);
    assert_eq!(folder.run(&["write", "p", "p", "p", "p", "-o", "c"]).2, 2);
    assert_eq!(folder.run(&["write", "p", "--bogus", "-o", "c"]).2, 2);
    assert_eq!(folder.get("c"), b"old");
}

#[test]
fn options_may_stand_in_any_place_and_with_an_equals_sign() {
    let folder = Folder::with(&[("p", THREE), ("a", THREE_PLAIN)]);
    let ways = [
        &["match", "--plain", "--answer", "a", "p"][..],
        &["match", "p", "--answer=a", "--plain"],
        &["match", "--answer", "a", "p", "--plain"],
        &["match", "--plain", "--answer=a", "--", "p"],
    ];
    for arguments in ways {
        assert_eq!(folder.run(arguments), said(THREE_PLAIN, "", 0), "{arguments:?}");
    }
    for arguments in [["plant", "p", "-ob"].as_slice(), &["plant", "-o", "b", "p"], &["plant", "--output=b", "p"]] {
        assert_eq!(folder.run(arguments), said("", "", 0), "{arguments:?}");
        assert_eq!(folder.get("b"), three_bytes(), "{arguments:?}");
        folder.put("b", "");
    }
}

/// A plant in a file of this name is read, while standard input holds another one.
fn named(name: &str, arguments: &[&str]) {
    let folder = Folder::with(&[(name, THREE)]);
    assert_eq!(folder.fed(arguments, NINE), said(THREE_PLAIN, "", 0), "{name}");
    folder.put(name, "labels x 1\n");
    let message = format!("{name}:1:8: a count is a number from 0 to 255, not `x`\n");
    assert_eq!(folder.fed(arguments, NINE), said("", message, 2), "{name}");
}

#[test]
fn a_plant_in_a_file_named_with_an_equals_sign_is_read() {
    named("K=3", &["match", "--plain", "K=3"]);
}

#[test]
fn a_plant_in_a_file_named_as_an_option_is_read_after_two_hyphens() {
    named("-x", &["match", "--plain", "--", "-x"]);
    named("--json", &["match", "--plain", "--", "--json"]);
}

#[test]
fn a_plant_in_a_file_with_blanks_in_its_name_is_read() {
    named("two  words ", &["match", "--plain", "two  words "]);
}

#[test]
fn a_plant_in_a_file_with_colons_in_its_name_is_read() {
    named("a:1:2", &["match", "--plain", "a:1:2"]);
}

#[test]
fn a_plant_in_a_file_with_a_name_beyond_ascii_is_read() {
    named("Prüfstück", &["match", "--plain", "Prüfstück"]);
}

#[test]
fn a_file_named_with_one_hyphen_is_read_by_its_folder() {
    named("./-", &["match", "--plain", "./-"]);
}

#[test]
fn the_names_that_a_shell_expands_are_taken_as_they_are() {
    named("$HOME *", &["match", "--plain", "$HOME *"]);
}

#[test]
fn one_hyphen_is_standard_input() {
    let folder = Folder::with(&[("-", NINE)]);
    assert_eq!(folder.fed(&["match", "--plain", "-"], THREE), said(THREE_PLAIN, "", 0));
}

#[test]
fn an_argument_that_is_no_text_is_an_error() {
    use std::os::unix::ffi::OsStrExt;
    let folder = Folder::new();
    let mut command = folder.command(&["match"]);
    command.arg(std::ffi::OsStr::from_bytes(b"pl\xE4nt"));
    assert_eq!(ran(command, b""), said("", "pensummer: an argument is no text in UTF-8: pl\u{fffd}nt\n", 2));
}

#[test]
fn a_file_that_is_not_there_is_named_by_every_command() {
    let folder = plant_and_certificate();
    let message = "pensummer: none: No such file or directory\n";
    for name in COMMANDS {
        let arguments = if name == "write" { vec![name, "none", "-o", "w"] } else { vec![name, "none", "c"] };
        assert_eq!(folder.run(&arguments), said("", message, 2), "{name}");
    }
    assert_eq!(folder.run(&["check", "p", "none"]), said("", message, 2));
    assert_eq!(folder.run(&["match", "p", "--answer", "none"]), said("", message, 2));
    assert_eq!(folder.names(), ["c", "p"]);
}

#[test]
fn a_folder_as_a_plant_is_an_error() {
    assert_eq!(Folder::new().run(&["match", "."]), said("", "pensummer: .: Is a directory\n", 2));
}

#[test]
fn a_plant_is_read_through_a_symbolic_link() {
    let folder = Folder::with(&[("p", THREE)]);
    symlink("p", folder.path("link")).expect("a link");
    assert_eq!(folder.run(&["match", "--plain", "link"]), said(THREE_PLAIN, "", 0));
}

#[test]
fn a_plant_is_read_from_a_fifo() {
    let folder = Folder::new();
    fifo(&folder, "pipe");
    let path = folder.path("pipe");
    let writer = thread::spawn(move || fs::write(path, THREE).expect("the FIFO"));
    assert_eq!(folder.run(&["match", "--plain", "pipe"]), said(THREE_PLAIN, "", 0));
    writer.join().expect("the writer");
}

#[test]
fn a_plant_is_read_from_dev_stdin() {
    let folder = Folder::new();
    assert_eq!(folder.fed(&["match", "--plain", "/dev/stdin"], THREE), said(THREE_PLAIN, "", 0));
}

#[test]
fn the_program_works_through_a_symbolic_link_to_it() {
    let folder = Folder::with(&[("p", THREE)]);
    symlink(PROGRAM, folder.path("other name")).expect("a link");
    let command = folder.other(&folder.path("other name"), &["match", "--plain", "p"]);
    assert_eq!(ran(command, b""), said(THREE_PLAIN, "", 0));
}

/// Runs a call with standard output on a device that is full.
fn to_full(folder: &Folder, arguments: &[&str]) -> (String, i32) {
    let full = OpenOptions::new().write(true).open("/dev/full").expect("/dev/full");
    let output = folder.command(arguments).stdin(Stdio::null()).stdout(full).output().expect("the program");
    (String::from_utf8(output.stderr).expect("UTF-8"), output.status.code().expect("an end"))
}

#[test]
fn a_full_standard_output_is_trouble_for_every_command() {
    let folder = plant_and_certificate();
    let message = "pensummer: standard output: No space left on device\n";
    for arguments in calls() {
        assert_eq!(to_full(&folder, &arguments), (message.to_owned(), 2), "{arguments:?}");
    }
}

#[test]
fn a_full_standard_output_is_trouble_where_a_refusal_is_printed() {
    let folder = Folder::with(&[("p", LOOP), ("c", "")]);
    let message = "pensummer: standard output: No space left on device\n";
    for arguments in [&["match", "--plain", "p"][..], &["match", "--json", "p"], &["check", "p", "c"], &["show", "--json", "p", "c"]] {
        assert_eq!(to_full(&folder, arguments), (message.to_owned(), 2), "{arguments:?}");
    }
}

#[test]
fn a_closed_pipe_ends_every_command_without_a_message() {
    let folder = plant_and_certificate();
    for arguments in calls() {
        let mut child =
            folder.command(&arguments).stdin(Stdio::null()).stdout(Stdio::piped()).stderr(Stdio::piped()).spawn().expect("the program");
        drop(child.stdout.take());
        let status = waited(&mut child);
        let output = child.wait_with_output().expect("what it said");
        let said = String::from_utf8(output.stderr).expect("UTF-8");
        // the child may have printed before the pipe was closed
        assert!(said.is_empty() || said == "written 94\n", "{arguments:?}: {said}");
        assert!([Some(0), Some(2)].contains(&status.code()), "{arguments:?}: {status:?}");
    }
}

#[test]
fn a_closed_pipe_is_status_2() {
    let folder = plant_and_certificate();
    fifo(&folder, "pipe");
    // a FIFO whose reader has gone before anything is printed
    let both = OpenOptions::new().read(true).write(true).open(folder.path("pipe")).expect("the FIFO");
    let writer = OpenOptions::new().write(true).open(folder.path("pipe")).expect("the FIFO");
    drop(both);
    let output = folder.command(&["match", "p"]).stdin(Stdio::null()).stdout(writer).output().expect("the program");
    assert_eq!((output.stderr, output.status.code()), (vec![], Some(2)));
}

/// What a call says, and that it did not hang.
fn at_once(folder: &Folder, arguments: &[&str]) -> Ran {
    let begin = Instant::now();
    let ran = folder.run(arguments);
    assert!(begin.elapsed() < Duration::from_secs(5), "{arguments:?} took {:?}", begin.elapsed());
    ran
}

#[test]
fn forty_thousand_edges_of_the_recorded_tree_are_refused_at_once() {
    let edges = "0-1 1-2\n".repeat(20_000);
    let folder = Folder::with(&[("p", &format!("{ONE}recorded 0 0 0\n{edges}found 0\n"))]);
    let message = "pensummer: refused 3: the recorded tree's length, a mark, or its number of vertices is wrong\n\
                   p:6:1: the tree has 3 vertices and 40000 edges; there is to be one edge less than vertices; \
                   the edge 0-1 closes a loop\n";
    assert_eq!(at_once(&folder, &["match", "p"]), said("", message, 1));
}

#[test]
fn forty_thousand_edges_of_the_found_tree_are_refused_at_once() {
    let edges = "A-B B-A\n".repeat(20_000);
    let folder = Folder::with(&[("p", &format!("{ONE}recorded 0\nfound A=0 B=0\n{edges}"))]);
    let message = "pensummer: refused 8: the found tree's length, a mark, or its number of vertices is wrong\n\
                   p:6:5: the tree has 2 vertices and 40000 edges; there is to be one edge less than vertices; \
                   the edge B-A closes a loop\n";
    assert_eq!(at_once(&folder, &["match", "p"]), said("", message, 1));
}

#[test]
fn an_endless_plant_ends_with_status_2() {
    let message = "/dev/zero: byte 1048576: this file goes on after 1048576 bytes, and none that is meant does\n";
    assert_eq!(at_once(&Folder::new(), &["match", "/dev/zero"]), said("", message, 2));
}

#[test]
fn a_file_of_one_byte_more_than_a_mebibyte_is_status_2_and_one_byte_less_is_read() {
    let folder = Folder::with(&[("p", &format!("{THREE}{}", "#".repeat((1 << 20) - THREE.len())))]);
    assert_eq!(at_once(&folder, &["match", "--plain", "p"]), said(THREE_PLAIN, "", 0));
    folder.put("p", format!("{THREE}{}", "#".repeat((1 << 20) - THREE.len() + 1)));
    let message = "p: byte 1048576: this file goes on after 1048576 bytes, and none that is meant does\n";
    assert_eq!(at_once(&folder, &["match", "--plain", "p"]), said("", message, 2));
}

/// What the calls of a person say under a locale; without one `LC_ALL` and `LANG` are unset.
fn under(locale: Option<&str>) -> Vec<Ran> {
    let folder = plant_and_certificate();
    folder.put("pool", of_repository("examples/pool.txt"));
    folder.put("bad", "labels 1 1\nvertex-names W\u{e4}rmer, Stra\u{df}e\n");
    folder.put("loop", LOOP);
    let further =
        [vec!["match", "pool"], vec!["match", "bad"], vec!["match", "loop"], vec!["match", "none"], vec!["check", "p", "p"], vec![]];
    let run = |arguments: &Vec<&str>| {
        let mut command = folder.command(arguments);
        command.env_remove("LC_ALL").env_remove("LANG").env_remove("LANGUAGE");
        if let Some(locale) = locale {
            command.env("LC_ALL", locale).env("LANG", locale).env("LANGUAGE", "de");
        }
        // a certificate on standard output is no text
        ran(command, b"")
    };
    calls().iter().chain(&further).filter(|call| call[..].last() != Some(&"-") && call.first() != Some(&"plant")).map(run).collect()
}

#[test]
fn no_output_depends_on_the_locale() {
    let plain = under(Some("C"));
    assert_eq!(under(Some("de_DE.UTF-8")), plain);
    assert_eq!(under(None), plain);
    assert_eq!(plain.last().map(|ran| ran.2), Some(2));
}

#[test]
fn nothing_is_written_beside_the_inputs_by_commands_that_print() {
    let folder = plant_and_certificate();
    for arguments in calls().iter().filter(|arguments| !arguments.contains(&"w")) {
        assert_eq!(folder.command(arguments).output().expect("the program").status.code(), Some(0), "{arguments:?}");
    }
    assert_eq!(folder.names(), ["c", "p"]);
}

#[test]
fn the_inputs_may_be_read_only() {
    let folder = Folder::with(&[("p", THREE)]);
    let mut mode = fs::metadata(folder.path("p")).expect("p").permissions();
    mode.set_readonly(true);
    fs::set_permissions(folder.path("p"), mode).expect("the mode");
    assert_eq!(folder.run(&["match", "--plain", "p"]), said(THREE_PLAIN, "", 0));
}

#[test]
fn every_example_is_matched_from_a_file_and_from_standard_input_alike() {
    for (name, text) in examples() {
        let folder = Folder::with(&[("p", &text)]);
        let from_file = folder.run(&["match", "p"]);
        assert_eq!((from_file.1.as_str(), from_file.2), ("", 0), "{name}");
        assert_eq!(folder.fed(&["match", "-"], &text), from_file, "{name}");
        let mut command = Command::new(PROGRAM);
        command.args(["match", "/dev/fd/0"]).stdin(File::open(folder.path("p")).expect("p"));
        let output = command.output().expect("the program");
        assert_eq!(String::from_utf8(output.stdout).expect("UTF-8"), from_file.0, "{name}");
    }
}
