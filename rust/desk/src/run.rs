//! The commands: each reads a plant, asks the library, and prints.
use crate::answer::{Answer, Wrong};
use crate::bytes::Bytes;
use crate::call::Call;
use crate::files::{self, Trouble};
use crate::input::{read_text, Input, Refused, Unread};
use crate::plant::{Fault, Plant};
use crate::report::Report;
use crate::{listing, picture, print, say};
use std::io;

/// Why a command did not end well.
pub enum Failure {
    Trouble(Trouble),
    /// A text that is no plant, or an answer that is none.
    Fault(Fault),
    /// An answer that is not accepted.
    NotAccepted(Fault),
    Refused(Refused),
}

impl From<Trouble> for Failure {
    fn from(trouble: Trouble) -> Failure {
        Failure::Trouble(trouble)
    }
}

impl From<Refused> for Failure {
    fn from(refused: Refused) -> Failure {
        Failure::Refused(refused)
    }
}

impl From<Unread> for Failure {
    fn from(unread: Unread) -> Failure {
        match unread {
            Unread::Trouble(trouble) => Failure::Trouble(trouble),
            Unread::Fault(fault) => Failure::Fault(fault),
        }
    }
}

type Done = Result<(), Failure>;

/// What the files of a plant in three parts are called behind their prefix.
const PARTS: [&str; 3] = ["table", "recorded", "found"];

/// The files that the call writes.
fn outputs(call: &Call) -> Vec<String> {
    let parts = call.split.iter().flat_map(|prefix| PARTS.iter().map(move |part| format!("{prefix}.{part}")));
    call.output.iter().cloned().chain(parts).collect()
}

/// No file is written over that is read.
fn apart(call: &Call) -> Done {
    let named = |input: &str| if input == "-" { "/dev/stdin".to_owned() } else { input.to_owned() };
    for output in outputs(call) {
        if call.inputs().any(|input| files::is_same(&named(input), &output)) {
            let why = io::Error::new(io::ErrorKind::InvalidInput, "this file is read and would be written over");
            return Err(Trouble { name: output, why }.into());
        }
    }
    Ok(())
}

/// Carries a call out.
pub fn run(call: &Call) -> Done {
    apart(call)?;
    let input = Input::read(&call.plant)?;
    match call.command.name {
        "match" => with_answer(call, &input, |answer| if call.plain { say::plain(answer) } else { say::say(answer) }),
        "listing" => with_answer(call, &input, listing::listing),
        "picture" => with_answer(call, &input, |answer| picture::picture(answer, &title(call))),
        "plant" => write_plant(call, &input.bytes),
        "text" => write_text(call, &input),
        "write" => crate::office::write(call, &input),
        "check" => crate::office::check(call, &input),
        "sizes" => crate::sizes::sizes(call, &input),
        _ => crate::office::show(call, &input),
    }
}

/// Finds or reads the answer and prints what `words` makes of it.
fn with_answer(call: &Call, input: &Input, words: impl Fn(&Answer) -> String) -> Done {
    let plant = input.accepted()?;
    let answer = answer(call, input, plant)?;
    let text =
        if call.json { Report { command: call.command.name, answer: Some(&answer), ..Report::default() }.json() } else { words(&answer) };
    Ok(files::write(call.output.as_deref().unwrap_or("-"), text.as_bytes())?)
}

fn answer<'a>(call: &Call, input: &Input, plant: &'a Plant) -> Result<Answer<'a>, Failure> {
    let refused = |refusal| Failure::Refused(input.refused(refusal));
    let name = match &call.answer {
        Some(name) => name,
        None => return Answer::found(plant, &input.bytes).map_err(refused),
    };
    let text = read_text(name)?;
    Answer::read(plant, &input.bytes, &text).map_err(|wrong| match wrong {
        Wrong::Malformed(fault) => Failure::Fault(fault),
        Wrong::NotAccepted(fault) => Failure::NotAccepted(fault),
        Wrong::Refused(refusal) => refused(refusal),
    })
}

/// What a picture is called: the last file's name without its folder.
fn title(call: &Call) -> String {
    let name = call.plant.last().map_or("-", String::as_str);
    match name.rsplit('/').next() {
        None | Some("-") | Some("") => "plant".into(),
        Some(last) => last.into(),
    }
}

fn write_plant(call: &Call, bytes: &Bytes) -> Done {
    match &call.split {
        Some(prefix) => {
            for (part, content) in PARTS.iter().zip([&bytes.table, &bytes.recorded, &bytes.found]) {
                files::write(&format!("{prefix}.{part}"), content)?;
            }
            Ok(())
        }
        None => Ok(files::write(call.output.as_deref().unwrap_or("-"), &bytes.joined())?),
    }
}

fn write_text(call: &Call, input: &Input) -> Done {
    match input.plant() {
        Ok(plant) => Ok(files::write(call.output.as_deref().unwrap_or("-"), print::print(plant).as_bytes())?),
        // bytes of another shape: the library has the number
        Err(_) => match input.accepted() {
            Err(refused) => Err(refused.into()),
            Ok(_) => unreachable!("bytes of another shape are refused"),
        },
    }
}
