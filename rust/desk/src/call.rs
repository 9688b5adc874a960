//! A call of the program, read from its arguments.
use crate::usage::{general, Command, COMMANDS, OPTIONS};

/// What a person asked for.
pub struct Call {
    pub command: &'static Command,
    /// One to three files.
    pub plant: Vec<String>,
    pub certificate: Option<String>,
    pub answer: Option<String>,
    pub output: Option<String>,
    pub split: Option<String>,
    pub plain: bool,
    pub json: bool,
}

/// What there is to do.
pub enum Asked {
    Do(Call),
    /// Text for standard output.
    Help(String),
    /// A wrong call: text for standard error.
    Wrong(String),
}

/// A plant is one to three files.
const FILES_MOST: usize = 3;

pub fn read(arguments: &[String]) -> Asked {
    let (first, rest) = match arguments.split_first() {
        Some((first, rest)) => (first.as_str(), rest),
        None => return Asked::Wrong(general()),
    };
    let command = |name: &str| COMMANDS.iter().find(|command| command.name == name);
    match (first, rest.first()) {
        ("--help" | "-h" | "help", None) => Asked::Help(general()),
        ("--help" | "-h" | "help", Some(name)) => {
            command(name).map_or_else(|| no_command(name), |command| Asked::Help(command.full_help()))
        }
        ("--version" | "-V", _) => Asked::Help(concat!("pensummer ", env!("CARGO_PKG_VERSION"), "\n").into()),
        _ => command(first).map_or_else(|| no_command(first), |command| of_command(command, rest)),
    }
}

fn no_command(name: &str) -> Asked {
    Asked::Wrong(format!("pensummer: there is no command `{name}`\n{}", general()))
}

fn of_command(command: &'static Command, arguments: &[String]) -> Asked {
    if arguments.iter().take_while(|&word| word != "--").any(|word| word == "--help" || word == "-h") {
        return Asked::Help(command.full_help());
    }
    match parsed(command, arguments).and_then(tested) {
        Ok(call) => Asked::Do(call),
        Err(why) => Asked::Wrong(format!("pensummer: {why}\n{}", command.usage())),
    }
}

/// The options and files, in any order; after `--` all are files.
fn parsed(command: &'static Command, arguments: &[String]) -> Result<Call, String> {
    let mut call = Call { command, plant: vec![], certificate: None, answer: None, output: None, split: None, plain: false, json: false };
    let mut words = arguments.iter();
    let mut files_only = false;
    while let Some(word) = words.next() {
        if files_only || word == "-" || !word.starts_with('-') {
            call.plant.push(word.clone());
        } else if word == "--" {
            files_only = true;
        } else {
            call.option(word, &mut words)?;
        }
    }
    if command.certificate && call.plant.len() > 1 {
        call.certificate = call.plant.pop();
    }
    Ok(call)
}

impl Call {
    /// The files that are read.
    pub fn inputs(&self) -> impl Iterator<Item = &String> {
        self.plant.iter().chain(&self.certificate).chain(&self.answer)
    }

    fn option<'a>(&mut self, word: &str, words: &mut impl Iterator<Item = &'a String>) -> Result<(), String> {
        let (name, mut value) = match word.split_once('=') {
            Some((name, value)) => (name, Some(value.to_owned())),
            None => (word, None),
        };
        let mut name = name.to_owned();
        if let Some(rest) = word.strip_prefix("-o") {
            name = "--output".into();
            value = if rest.is_empty() { None } else { Some(rest.into()) };
        }
        let known = OPTIONS.iter().find(|(option, ..)| *option == name && self.command.options.contains(option));
        let (_, wants, _) = known.ok_or_else(|| format!("`{}` has no option `{name}`", self.command.name))?;
        match (wants.is_empty(), value.is_some()) {
            (true, true) => return Err(format!("`{name}` takes no value")),
            (false, false) => value = Some(words.next().ok_or_else(|| format!("`{name}` wants {wants}"))?.clone()),
            _ => (),
        }
        self.set(&name, value)
    }

    fn set(&mut self, name: &str, value: Option<String>) -> Result<(), String> {
        let place = match name {
            "--plain" => return once(&mut self.plain, name),
            "--json" => return once(&mut self.json, name),
            "--answer" => &mut self.answer,
            "--split" => &mut self.split,
            _ => &mut self.output,
        };
        if place.is_some() {
            return Err(format!("`{name}` stands twice"));
        }
        *place = value;
        Ok(())
    }
}

fn once(flag: &mut bool, name: &str) -> Result<(), String> {
    if std::mem::replace(flag, true) {
        return Err(format!("`{name}` stands twice"));
    }
    Ok(())
}

/// Whether files and options fit together.
fn tested(call: Call) -> Result<Call, String> {
    let inputs = call.inputs();
    if call.inputs().chain(&call.output).chain(&call.split).any(String::is_empty) {
        return Err("a file name is empty".into());
    }
    if call.split.as_deref() == Some("-") {
        return Err("`--split` writes three files; `-` is no prefix for them".into());
    }
    if inputs.filter(|name| *name == "-").count() > 1 {
        return Err("standard input can be read once".into());
    }
    if call.plant.is_empty() || call.plant.len() > FILES_MOST {
        return Err(format!("a plant is 1 to {FILES_MOST} files, not {}", call.plant.len()));
    }
    if call.command.certificate && call.certificate.is_none() {
        return Err("a plant and a certificate are wanted".into());
    }
    if call.command.name == "write" && call.output.is_none() {
        return Err("`-o CERTIFICATE` is wanted".into());
    }
    let together = [(call.plain && call.json, "--plain", "--json"), (call.output.is_some() && call.split.is_some(), "--output", "--split")];
    if let Some((_, one, other)) = together.iter().find(|(both, ..)| *both) {
        return Err(format!("`{one}` and `{other}` do not go together"));
    }
    Ok(call)
}
