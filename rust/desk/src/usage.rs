//! The command line: subcommands, what each takes, and what `--help` says.

/// A subcommand.
pub struct Command {
    pub name: &'static str,
    /// Its arguments as usage shows them.
    pub takes: &'static str,
    /// Whether its last argument is a certificate.
    pub certificate: bool,
    pub options: &'static [&'static str],
    pub about: &'static str,
    pub help: &'static str,
}

pub const COMMANDS: [Command; 9] = [
    Command {
        name: "match",
        takes: "PLANT..",
        certificate: false,
        options: &["--plain", "--answer", "--json"],
        about: "match the two trees and say it in words: kept, changed, gone, new",
        help: "A heaviest mapping of the two trees, a line for each vertex. A vertex is\n\
               `kept` if its partner has its label and the edge to the vertex above it has\n\
               the same label; `changed` if one of these differs; `gone` if it is recorded\n\
               and has no partner; `new` if it is found and has none. What another mapping\n\
               as heavy says otherwise is NOT CERTAIN: decide it by eye. Labels, edges and\n\
               serials decide; names of vertices weigh nothing. Where a name stands at\n\
               another vertex now, that is said.",
    },
    Command {
        name: "listing",
        takes: "PLANT..",
        certificate: false,
        options: &["--answer", "--json"],
        about: "the same as a table: the recorded tree, partners and weights",
        help: "The recorded tree from vertex 0 down, children indented below their parent:\n\
               number and name, label, label of the edge to the parent, partner, its label,\n\
               and what the pair and the edge weigh; serials where one is known. A directed\n\
               edge has its ends before its label, the upstream one first. `!` marks what\n\
               changed, `?` what is not certain.",
    },
    Command {
        name: "picture",
        takes: "PLANT..",
        certificate: false,
        options: &["--answer", "--output"],
        about: "draw both trees side by side as SVG, the partners joined",
        help: "An SVG picture for a screen or a printed page.",
    },
    Command {
        name: "plant",
        takes: "PLANT..",
        certificate: false,
        options: &["--output", "--split"],
        about: "turn a text into the bytes that the library and the match program read",
        help: "The bytes of the table and the two trees, one after the other. The rules of\n\
               trees are not looked at: the readers do that.",
    },
    Command {
        name: "text",
        takes: "PLANT..",
        certificate: false,
        options: &["--output"],
        about: "turn bytes into a text; a text is put into its plain form",
        help: "The text form of a plant. Names and comments are not in the bytes and do not\n\
               come back from them. Bytes of another shape are refused with the offset of\n\
               the first one that is wrong; weights out of range, unknown labels and edges\n\
               that make no tree are written as they are, so that a person can look at\n\
               them.",
    },
    Command {
        name: "write",
        takes: "PLANT.. -o CERTIFICATE",
        certificate: false,
        options: &["--output", "--json"],
        about: "match, and write a certificate that the mapping is a heaviest one",
        help: "Prints `written` and the certificate's length in bytes.",
    },
    Command {
        name: "check",
        takes: "PLANT.. CERTIFICATE",
        certificate: true,
        options: &["--json"],
        about: "check a certificate against a plant",
        help: "Prints `accepted`, or `refused`, the item's number and its sentence, and on\n\
               standard error what is wrong, and where. The verdict is the proved check's.",
    },
    Command {
        name: "show",
        takes: "PLANT.. CERTIFICATE",
        certificate: true,
        options: &["--json"],
        about: "show what a certificate holds, and which rule it breaks if it does",
        help: "The weight, the mapping, and each subproblem's value and duals, also of a\n\
               certificate that is not accepted, unless its form is wrong (item 20).",
    },
    Command {
        name: "sizes",
        takes: "PLANT..",
        certificate: false,
        options: &["--json"],
        about: "say how much memory the calls of the library are to be lent",
        help: "How many subproblems a job solves from its start to its end, how many work\n\
               numbers of 4 bytes it is to be lent, and the bytes of a mapping and of a\n\
               certificate. Nothing is solved.",
    },
];

pub const PLANTS: &str = "\
PLANT.. is one to three files: a whole plant; or a table and a file with
both trees; or a table, the recorded tree and the found tree. They are text
(docs/FORMAT.md), or bytes, which begin with B1. `-` is standard input.
";

pub const OPTIONS: [(&str, &str, &str); 5] = [
    ("--plain", "", "print the lines that the match program prints, and nothing else"),
    ("--answer", "FILE", "take the mapping from what the match program printed; it is tested"),
    ("--output", "FILE", "write there, also as -o FILE; `-` is standard output"),
    ("--split", "PREFIX", "write PREFIX.table, PREFIX.recorded and PREFIX.found"),
    ("--json", "", "print one line of JSON for programs (docs/FORMAT.md)"),
];

const STATUS: &str = "\
Exit status: 0 done or accepted; 1 refused or not accepted; 2 a wrong call,
a file, or a text that is no plant.
";

pub fn general() -> String {
    let mut text = String::from("usage: pensummer COMMAND ..\n\n");
    for command in &COMMANDS {
        text += &format!("  {:<8} {}\n", command.name, command.about);
    }
    text + &format!("\n{PLANTS}\n`pensummer COMMAND --help` says what a command takes.\n{STATUS}")
}

impl Command {
    pub fn usage(&self) -> String {
        let mut line = format!("usage: pensummer {} {}", self.name, self.takes);
        let wanted = self.name == "write";
        for (name, value, _) in self.own_options().filter(|(name, ..)| !(wanted && *name == "--output")) {
            line += &format!(" [{name}{}{value}]", if value.is_empty() { "" } else { " " });
        }
        line + "\n"
    }

    pub fn full_help(&self) -> String {
        let mut text = format!("{}\n{}\n\n{PLANTS}\n", self.usage(), self.help);
        for (name, value, about) in self.own_options() {
            text += &format!("  {:<16} {about}\n", format!("{name} {value}"));
        }
        text + &format!("  {:<16} print this\n\n{STATUS}", "--help")
    }

    fn own_options(&self) -> impl Iterator<Item = &'static (&'static str, &'static str, &'static str)> + '_ {
        OPTIONS.iter().filter(move |(name, ..)| self.options.contains(name))
    }
}
