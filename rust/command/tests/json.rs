//! The documents of --json: read by a strict parser, with the names and values that docs/JSON.md says.

mod common;

use common::json::{parse, Value};
use common::*;

/// The examples of docs/JSON.md: after each `$ puddockle ..` stands what it prints.
#[test]
fn examples_of_the_description() {
    let text = std::fs::read_to_string(root().join("docs/JSON.md")).unwrap();
    let folder = Folder::new();
    let elsewhere = folder.path("");
    let mut compared = 0;
    for block in text.split("```\n$ puddockle ").skip(1) {
        let (line, rest) = block.split_once('\n').unwrap();
        let (expected, _) = rest.split_once("```").unwrap();
        // What is written is not written here.
        let ran = run(line.replace("-o ", &format!("-o {elsewhere}")).split(' '));
        assert_eq!(ran.text().replace(&elsewhere, ""), expected, "{line}");
        parse(expected);
        compared += 1;
    }
    assert_eq!(compared, 7);
}

/// Every name that a document has stands in the description.
#[test]
fn names_are_described() {
    let text = std::fs::read_to_string(root().join("docs/JSON.md")).unwrap();
    let folder = Folder::new();
    let [out, cut_out, units] = ["out", "cut_out", "units"].map(|name| folder.path(name));
    let documents = [
        &["salvage", "--json", "tests/recordings/damaged/m145_17_25.bin", "-o", &out][..],
        &["salvage", "--json", "tests/recordings/damaged/m005_2.bin", "-o", &cut_out],
        &["audit", "--json", "examples/damaged.bin", "no/such.bin"],
        &["names", "--json", "examples/damaged.bin", "5"],
        &["units", "--json", "examples/damaged.bin", "7"],
        &["units", "--json", "examples/damaged.bin", "-o", &units],
        &["tracks", "--json", "examples/damaged.bin"],
        &["record", "--json", "--kind", "avc", "tests/recordings/records/cbr_filler_mp4_avc1.avcc"],
    ];
    for words in documents {
        let document = run(words).document();
        assert_eq!((document["call"].text(), document["version"].text()), (words[0], puddockle::VERSION));
        described(&document, &text);
    }
}

fn described(value: &Value, text: &str) {
    match value {
        Value::Object(fields) => {
            for (name, value) in fields {
                assert!(text.contains(&format!("| `{name}` |")), "{name}");
                described(value, text);
            }
        }
        Value::List(list) => list.iter().for_each(|value| described(value, text)),
        _ => {}
    }
}

#[test]
fn audit() {
    let ran = run(["audit", "--json", "examples/damaged.bin", "no/such.bin", "tests/recordings/damaged/m005_2.bin"]);
    assert_eq!(ran.status, Some(2));
    let document = ran.document();
    let [damaged, missing, refused] = document["files"].list() else { panic!() };
    assert_eq!(damaged.names(), missing.names());
    assert_eq!(damaged.names(), refused.names());
    let ninth = &damaged["samples"][8];
    assert_eq!((ninth["outcome"].text(), ninth["refusal"]["number"].number()), ("refused", 25));
    assert_eq!((ninth["names_sample"].number(), ninth["track"].number(), ninth["time"].text()), (5, 2, "1539"));
    assert_eq!(damaged["dependents"][0]["samples"].numbers(), [9, 10]);
    assert_eq!(
        (&damaged["dependents_cut_at"], &damaged["refusal"], &damaged["error"]),
        (&Value::Null, &Value::Null, &Value::Null)
    );
    assert!(missing["error"].text().contains("No such file"));
    assert_eq!((refused["refusal"]["number"].number(), &refused["samples"]), (2, &Value::Null));
}

/// The document of a refusal: status 1, nothing on standard error, and the same names.
#[test]
fn refusals() {
    let folder = Folder::new();
    let cut = folder.file("cut", &[2]);
    let cut = cut.to_str().unwrap();
    let [out, range] = ["out", "range"].map(|name| folder.path(name));
    let range: &[&str] = &["units", "examples/bench.bin", "--force", "-o", &range];
    for (good, bad) in [
        (&["audit", "examples/bench.bin"][..], &["audit", cut][..]),
        (&["names", "examples/bench.bin", "1"], &["names", "examples/bench.bin", "3"]),
        (&["names", "examples/bench.bin", "1"], &["names", cut, "99999999999999999999999"]),
        (&["units", "examples/bench.bin", "1"], &["units", "examples/bench.bin", "0"]),
        (&["units", "examples/bench.bin", "1"], &["units", "examples/bench.bin", "1", "--unit", "2"]),
        (&["units", "examples/bench.bin", "1"], &["units", "examples/damaged.bin", "5"]),
        (range, &["units", "examples/bench.bin", "-o", "/no/such", "--to", "3"]),
        (range, &["units", cut, "-o", "/no/such"]),
        (&["salvage", "examples/bench.bin", "-o", &out], &["salvage", cut, "-o", "/no/such"]),
        (&["tracks", "examples/bench.bin"], &["tracks", cut]),
        (
            &["record", "tests/recordings/records/gpac_l1_mp4_avc1.avcc", "--kind", "avc"],
            &["record", cut, "--kind", "avc"],
        ),
    ] {
        let (good, bad) = (run(good.iter().chain(&["--json"])), run(bad.iter().chain(&["--json"])));
        assert_eq!((good.status, bad.status, bad.said.as_str()), (Some(0), Some(1), ""));
        assert_eq!(good.document().names(), bad.document().names());
    }
}
