//! How much to lend, as the built program says it.
mod support;

use support::json::Value;
use support::plants::{big, examples, three_bytes, THREE};
use support::report::report;
use support::{said, Folder};

#[test]
fn the_numbers_of_small_plant_3() {
    let folder = Folder::with(&[("p", THREE)]);
    let words = "subproblems 8\nwork numbers 8, 32 bytes\nmapping 2 bytes\ncertificate 94 bytes\n";
    assert_eq!(folder.run(&["sizes", "p"]), said(words, "", 0));
    folder.put("b", three_bytes());
    assert_eq!(folder.run(&["sizes", "b"]), said(words, "", 0));
    let json = "{\"command\":\"sizes\",\"status\":\"done\",\"refusal\":null,\"weight\":null,\"recorded\":null,\"found\":null,\
                \"certificate\":null,\"sizes\":{\"subproblems\":8,\"work\":8,\"mapping\":2,\"certificate\":94}}\n";
    assert_eq!(folder.run(&["sizes", "--json", "p"]), said(json, "", 0));
    report(json);
}

/// The length is that of the certificate which is written, and the count that of the subproblems in it.
#[test]
fn the_numbers_are_those_of_a_written_certificate() {
    for (name, text) in examples().into_iter().chain([("big", big(1)), ("another", big(2))]) {
        let folder = Folder::with(&[("p", &text)]);
        folder.run(&["write", "p", "-o", "c"]);
        let of = |arguments: &[&str], key: &str| report(&folder.run(arguments).0).at(key).clone();
        let (sizes, certificate) = (of(&["sizes", "--json", "p"], "sizes"), of(&["show", "--json", "p", "c"], "certificate"));
        assert_eq!(sizes.at("certificate"), certificate.at("length"), "{name}");
        let count = Value::Number(certificate.at("subproblems").list().len() as i64);
        assert_eq!((sizes.at("subproblems"), sizes.at("work")), (&count, &count), "{name}");
        assert_eq!(*sizes.at("mapping"), Value::Number(certificate.at("mapping").list().len() as i64), "{name}");
    }
}

#[test]
fn nothing_is_written() {
    let folder = Folder::with(&[("p", THREE)]);
    folder.run(&["sizes", "p"]);
    assert_eq!(folder.names(), ["p"]);
    assert_eq!(folder.run(&["sizes", "p", "-o", "w"]).2, 2);
    assert_eq!(folder.names(), ["p"]);
}
