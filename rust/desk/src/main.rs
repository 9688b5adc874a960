//! The program for people: plants as text, matched, listed, drawn, with certificates written, checked and shown.
use desk::call::{read, Asked, Call};
use desk::files;
use desk::input::Refused;
use desk::report::Report;
use desk::run::{run, Failure};
use pensummer::Refusal;
use std::process::ExitCode;

const DONE: u8 = 0;
const REFUSED: u8 = 1;
const TROUBLE: u8 = 2;

fn main() -> ExitCode {
    files::outlive_limits();
    let arguments: Result<Vec<String>, _> = std::env::args_os().skip(1).map(|word| word.into_string()).collect();
    let status = match arguments {
        Ok(arguments) => asked(read(&arguments)),
        Err(word) => {
            files::say(&format!("pensummer: an argument is no text in UTF-8: {}\n", word.to_string_lossy()));
            TROUBLE
        }
    };
    ExitCode::from(status)
}

fn asked(asked: Asked) -> u8 {
    match asked {
        Asked::Do(call) => run(&call).map_or_else(|failure| failed(&call, failure), |()| DONE),
        Asked::Help(text) => files::print(text.as_bytes()).map_or_else(trouble, |()| DONE),
        Asked::Wrong(text) => {
            files::say(&text);
            TROUBLE
        }
    }
}

fn failed(call: &Call, failure: Failure) -> u8 {
    match failure {
        Failure::Trouble(why) => trouble(why),
        Failure::Fault(fault) => {
            files::say(&format!("{fault}\n"));
            TROUBLE
        }
        Failure::NotAccepted(fault) if call.json => {
            let report = Report { command: call.command.name, not_accepted: Some(&fault), ..Report::default() };
            files::print(report.json().as_bytes()).map_or_else(trouble, |()| REFUSED)
        }
        Failure::NotAccepted(fault) => {
            files::say(&format!("{fault}\n"));
            REFUSED
        }
        Failure::Refused(refused) => said(call, &refused).map_or_else(trouble, |()| REFUSED),
    }
}

fn trouble(why: files::Trouble) -> u8 {
    if let Some(message) = why.message() {
        files::say(&format!("{message}\n"));
    }
    TROUBLE
}

/// Prints a report; beside a certificate that is printed, on standard error.
fn print_beside(call: &Call, report: &str) -> Result<(), files::Trouble> {
    if call.command.name == "write" && call.output.as_deref().map_or(false, files::is_output) {
        files::say(report);
        return Ok(());
    }
    files::print(report.as_bytes())
}

/// Says why a call was refused: for programs on standard output, for people on standard error. What answers yes or no,
/// and what prints as the match program does, has the number on standard output.
fn said(call: &Call, refused: &Refused) -> Result<(), files::Trouble> {
    let of_certificate = (Refusal::CERTIFICATE_FORM..=Refusal::CERTIFICATE_ANSWER).contains(&refused.refusal);
    if call.json {
        // a certificate's refusal was printed with the certificate
        let report = Report { command: call.command.name, refusal: Some(refused), ..Report::default() };
        return match of_certificate {
            true => Ok(()),
            false => print_beside(call, &report.json()),
        };
    }
    match call.command.name {
        "match" if call.plain => files::print(format!("refused {}\n", refused.refusal.number()).as_bytes())?,
        "check" => files::print(format!("{}\n", refused.refusal).as_bytes())?,
        _ => (),
    }
    if call.command.name != "check" {
        files::say(&format!("pensummer: {}\n", refused.refusal));
    }
    if let Some(fault) = &refused.fault {
        files::say(&format!("{fault}\n"));
    }
    Ok(())
}
