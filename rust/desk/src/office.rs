//! Certificates: writing one, checking one, showing what one holds. The verdict is always the library's; where it
//! refuses, the broken rule is looked for.
use crate::call::Call;
use crate::certificate::{self, Broken, Certificate, Dual, Record};
use crate::files::{self, INPUT_MOST};
use crate::input::{Input, Refused};
use crate::json::Json;
use crate::plant::{At, Fault, Place, Plant};
use crate::report::Report;
use crate::run::Failure;
use pensummer::{FORBIDDEN, NONE};

type Done = Result<(), Failure>;

/// Writes a certificate to the file that the call names.
pub fn write(call: &Call, input: &Input) -> Done {
    let output = call.output.as_deref().unwrap_or("-");
    let sizes = input.sizes()?;
    let (mut work, mut bytes) = (vec![0; sizes.work], vec![0; sizes.certificate]);
    let length = pensummer::write_certificate(input.bytes.inputs(), &mut work, &mut bytes).map_err(|refusal| input.refused(refusal))?;
    files::write(output, &bytes)?;
    let said = if call.json {
        let weight = certificate::read(input.accepted()?, &bytes).ok().map(|read| read.weight.into());
        Report { command: "write", weight, certificate: Some(json(length, true, None)), ..Report::default() }.json()
    } else {
        format!("written {length}\n")
    };
    // where the certificate itself is printed, what is said of it goes beside
    if files::is_output(output) {
        files::say(&said);
        return Ok(());
    }
    Ok(files::print(said.as_bytes())?)
}

/// Checks the certificate, and says `accepted` or why not.
pub fn check(call: &Call, input: &Input) -> Done {
    let checked = Checked::of(call, input)?;
    let report = Report { command: "check", ..Report::default() };
    checked.print(call, report, || "accepted\n".into())
}

/// Shows the certificate, accepted or not.
pub fn show(call: &Call, input: &Input) -> Done {
    let checked = Checked::of(call, input)?;
    let report = Report { command: "show", ..Report::default() };
    checked.print(call, report, || {
        let verdict = if checked.refused.is_some() { "not accepted" } else { "accepted" };
        let more = if checked.length > INPUT_MOST { "more than " } else { "" };
        let head = format!("{more}{} bytes, {verdict}\n", checked.length.min(INPUT_MOST));
        checked.read.as_ref().map_or(head.clone(), |read| head + &certificate::show(checked.plant, read))
    })
}

/// A certificate with the library's verdict.
struct Checked<'a> {
    plant: &'a Plant,
    length: usize,
    read: Option<Certificate>,
    refused: Option<Refused>,
}

impl<'a> Checked<'a> {
    fn of(call: &Call, input: &'a Input) -> Result<Checked<'a>, Failure> {
        let plant = input.accepted()?;
        let name = call.certificate.as_deref().unwrap_or("-");
        let bytes = files::read(name, INPUT_MOST)?;
        let verdict = pensummer::check_certificate(input.bytes.inputs(), &bytes);
        let (read, broken) = match certificate::read(plant, &bytes) {
            Ok(read) => {
                let broken = certificate::broken(plant, &read);
                (Some(read), broken)
            }
            Err(broken) => (None, Some(broken)),
        };
        let refused = verdict.err().map(|refusal| Refused { refusal, fault: fault(name, refusal.number(), broken) });
        Ok(Checked { plant, length: bytes.len(), read, refused })
    }

    /// Prints what `words` says, or the report; a certificate that is not accepted is a failure after that.
    fn print(&self, call: &Call, report: Report, words: impl Fn() -> String) -> Done {
        let shown = call.command.name == "show";
        if call.json {
            let certificate = json(self.length, self.refused.is_none(), self.read.as_ref().filter(|_| shown));
            let weight = self.read.as_ref().map(|read| read.weight.into());
            let report = Report { refusal: self.refused.as_ref(), weight, certificate: Some(certificate), ..report };
            files::print(report.json().as_bytes())?;
        } else if shown || self.refused.is_none() {
            files::print(words().as_bytes())?;
        }
        match &self.refused {
            Some(refused) => Err(Failure::Refused(Refused { refusal: refused.refusal, fault: refused.fault.clone() })),
            None => Ok(()),
        }
    }
}

/// Where the certificate is broken, if the rule that was found is the one that the library says.
fn fault(name: &str, item: u32, broken: Option<Broken>) -> Option<Fault> {
    let broken = broken.filter(|broken| broken.item == item)?;
    Some(Fault { place: Place { file: name.into(), at: At::Byte(broken.offset) }, reason: broken.reason })
}

fn json(length: usize, accepted: bool, read: Option<&Certificate>) -> Json {
    let mapping = read.map(|read| read.partners.iter().map(|&v| if v == NONE { Json::Null } else { usize::from(v).into() }).collect());
    let records = read.map(|read| read.records.iter().map(record).collect());
    Json::Object(vec![
        ("length", length.into()),
        ("accepted", accepted.into()),
        ("mapping", mapping.map_or(Json::Null, Json::List)),
        ("subproblems", records.map_or(Json::Null, Json::List)),
    ])
}

fn record(record: &Record) -> Json {
    let duals = |duals: &[Dual]| {
        let one = |dual: &Dual| Json::Object(vec![("vertex", dual.vertex.into()), ("dual", dual.value.into())]);
        Json::List(duals.iter().map(one).collect())
    };
    let value = if record.value == FORBIDDEN { None } else { Some(record.value) };
    Json::Object(vec![
        ("recorded", record.u.into()),
        ("found", record.v.into()),
        ("without", if record.s == record.v { Json::Null } else { record.s.into() }),
        ("byte", record.offset.into()),
        ("value", value.into()),
        ("recorded_duals", duals(&record.children)),
        ("found_duals", duals(&record.neighbours)),
    ])
}
