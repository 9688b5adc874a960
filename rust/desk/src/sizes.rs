//! How much to lend: the library's three numbers, and the mapping's length, for who sets the memory aside.
use crate::call::Call;
use crate::files;
use crate::input::Input;
use crate::json::Json;
use crate::report::Report;
use crate::run::Failure;
use pensummer::Sizes;
use std::mem::size_of;

/// Says how much the calls of this plant are to be lent.
pub fn sizes(call: &Call, input: &Input) -> Result<(), Failure> {
    let sizes = input.sizes()?;
    // an accepted tree has the number of its vertices in its third byte
    let mapping = usize::from(input.bytes.recorded[2]);
    let text = if call.json {
        Report { command: "sizes", sizes: Some(json(sizes, mapping)), ..Report::default() }.json()
    } else {
        words(sizes, mapping)
    };
    Ok(files::print(text.as_bytes())?)
}

fn words(Sizes { subproblems, work, certificate }: Sizes, mapping: usize) -> String {
    let bytes = work * size_of::<i32>();
    format!("subproblems {subproblems}\nwork numbers {work}, {bytes} bytes\nmapping {mapping} bytes\ncertificate {certificate} bytes\n")
}

fn json(sizes: Sizes, mapping: usize) -> Json {
    Json::Object(vec![
        ("subproblems", (sizes.subproblems as usize).into()),
        ("work", sizes.work.into()),
        ("mapping", mapping.into()),
        ("certificate", sizes.certificate.into()),
    ])
}
