//! The gate's own logic, with stand-ins for the tools that it calls: whatever fails, it fails,
//! and its last line speaks of passes only when all has passed.
#![cfg(unix)]

mod tools;

use std::fs;
use std::path::PathBuf;
use std::process::Command;

use tools::{executable, output};

const GATE: &str = concat!(env!("CARGO_MANIFEST_DIR"), "/../.ci/run");
const PROVED: &str = "printf 'one proved\\nrt: ok; handles allowed: none\\n7 passed, 0 failed\\n'";

/// What the tools do; each is a line of shell.
struct Tools {
    stated: &'static str,
    places: &'static str,
    asking: &'static str,
    programs: &'static str,
    pictures: &'static str,
    prove: &'static str,
    tests: &'static str,
    cases: &'static str,
    rounds: &'static str,
    show: &'static str,
}

const GOOD: Tools = Tools {
    stated: "exit 0",
    places: "exit 0",
    asking: "exit 0",
    programs: "exit 0",
    pictures: "exit 0",
    prove: PROVED,
    tests: "exit 0",
    cases: "echo 'the cases'",
    rounds: "echo 'same, 9 records in 1 scripts'",
    show: "echo 'what one.txt reads as'",
};

fn folder(name: &str, tools: &Tools) -> PathBuf {
    let folder = PathBuf::from(env!("CARGO_TARGET_TMPDIR")).join(format!("gate-{name}"));
    for part in [".ci", "bin", "scripts", "tools", "crates/cases"] {
        fs::create_dir_all(folder.join(part)).unwrap();
    }
    fs::write(folder.join(".ci/run"), fs::read(GATE).unwrap()).unwrap();
    executable(&folder.join(".ci/stated"), tools.stated);
    executable(&folder.join(".ci/places"), tools.places);
    executable(&folder.join(".ci/asking"), tools.asking);
    executable(&folder.join(".ci/programs"), tools.programs);
    executable(&folder.join("tools/pictures"), tools.pictures);
    let rt = format!(
        "case \"$*\" in\nci) {} ;;\n*) exit 99 ;;\nesac",
        tools.prove
    );
    executable(&folder.join("bin/rt"), &rt);
    let cargo = format!(
        "case \"$*\" in\ntest*) {} ;;\nbuild*) exit 0 ;;\n*cases*) {} ;;\nrun*) {} ;;\n*) exit 99 ;;\nesac",
        tools.tests, tools.cases, tools.rounds
    );
    executable(&folder.join("bin/cargo"), &cargo);
    executable(&folder.join("scripts/show"), tools.show);
    for name in ["stdin", "stdout"] {
        fs::write(folder.join("crates/cases").join(name), "the cases\n").unwrap();
    }
    fs::write(folder.join("scripts/one.txt"), "").unwrap();
    fs::write(folder.join("scripts/one.read"), "what one.txt reads as\n").unwrap();
    folder
}

/// The gate's status and the lines of its standard output.
fn gate(name: &str, tools: &Tools) -> (Option<i32>, Vec<String>) {
    let folder = folder(name, tools);
    let path = std::env::var("PATH").unwrap();
    let output = output(
        Command::new("bash")
            .arg(folder.join(".ci/run"))
            .env("PATH", format!("{}:{path}", folder.join("bin").display())),
    );
    let lines = String::from_utf8(output.stdout).unwrap();
    let lines = lines.lines().map(String::from).collect();
    (output.status.code(), lines)
}

/// The lines of a gate that must fail with this status.
fn failed(name: &str, status: i32, tools: &Tools) -> Vec<String> {
    let (found, lines) = gate(name, tools);
    assert_eq!(found, Some(status), "{name}: {lines:?}");
    assert_eq!(lines.last().unwrap(), "gate: FAILED", "{name}");
    lines
}

#[test]
fn all_passes() {
    let (status, mut lines) = gate("good", &GOOD);
    assert_eq!(status, Some(0));
    let time = lines.remove(3);
    assert!(time.starts_with("gate: 0 min "), "{time}");
    let expected = [
        "one proved",
        "rt: ok; handles allowed: none",
        "same, 9 records in 1 scripts",
        "7 passed, 0 failed",
    ];
    assert_eq!(lines, expected);
}

#[test]
fn a_last_line_without_its_end_is_not_lost() {
    let prove = "printf 'rt: ok\\n7 passed, 0 failed'";
    let (status, lines) = gate("unended", &Tools { prove, ..GOOD });
    assert_eq!(status, Some(0));
    assert_eq!(lines.last().unwrap(), "7 passed, 0 failed");
}

/// The count of a failed proof is shown, and nothing is compared any more.
#[test]
fn a_proof_that_fails_fails_the_gate() {
    let prove = "printf 'one proved\\n6 passed, 1 failed\\n'; exit 1";
    let lines = failed("refused", 1, &Tools { prove, ..GOOD });
    assert_eq!(lines, ["one proved", "6 passed, 1 failed", "gate: FAILED"]);
    let prove = "printf 'one proved\\n7 passed, 0 failed\\n'; exit 3";
    failed("untold", 3, &Tools { prove, ..GOOD });
    let prove = "echo one proved; kill -9 $$";
    let lines = failed("killed", 128 + 9, &Tools { prove, ..GOOD });
    assert_eq!(lines, ["one proved", "gate: FAILED"]);
    let prove = "exit 2";
    failed("silent", 2, &Tools { prove, ..GOOD });
}

/// What rt says of an edit that it refused, and where.
fn refusal(name: &str, place: &str) -> String {
    format!("echo 'rt: must-fail {name}.edit: refused, as it must be{place}'; ")
}

/// An edit that is refused where it breaks the text, or a name, shows nothing of a proof.
#[test]
fn an_edit_that_no_proof_refuses_fails_the_gate() {
    let by_a_law = refusal("a/b", ": ./proofs/A.antt:1:2: error: `f`: the two differ");
    let by_a_clause = refusal(
        "a/c",
        ": note: src/lib.rt:3:1: it is not proved that what the function ensures holds",
    );
    let proofs = format!("{by_a_law}{by_a_clause}");
    let prove = format!("{proofs}{PROVED}").leak();
    assert_eq!(gate("by-proofs", &Tools { prove, ..GOOD }).0, Some(0));
    for (name, place) in [
        ("specs", ": ./specs/A.antt:4:5: error: `g`: expected type"),
        ("source", ": src/lib.rt:4:5: error: no such name"),
        (
            "name",
            " (only because a proof file names what the edit took away, so this says little): \
             ./proofs/A.antt:4:5: error: `h` is not in scope",
        ),
        (
            "limit",
            " (only by a limit of the prover, which gave no verdict): ./proofs/A.antt:4:5: error",
        ),
        ("nowhere", ""),
    ] {
        let prove = format!("{proofs}{}{PROVED}", refusal("a/d", place)).leak();
        let lines = failed(name, 1, &Tools { prove, ..GOOD });
        assert_eq!(lines[5], "gate: these edits are refused by no proof:");
        assert!(lines[6].starts_with("rt: must-fail a/d"), "{}", lines[6]);
        assert_eq!(lines.len(), 8);
    }
}

/// rt passes an edit that it cannot apply or read, and only counts it.
#[test]
fn a_bad_edit_fails_the_gate() {
    let prove = "echo 'rt: must-fail a/b.edit: BAD EDIT: it changes nothing'; \
                 echo 'rt: ok; handles allowed: none; must-fail edits: 10 refused, 1 bad; all'; \
                 echo '7 passed, 0 failed'";
    let lines = failed("bad", 1, &Tools { prove, ..GOOD });
    assert_eq!(lines[2], "gate: these edits are bad:");
    assert!(lines[3].starts_with("rt: must-fail a/b"), "{}", lines[3]);
    assert_eq!(lines.len(), 5);
    let prove = "echo 'rt: ok; handles allowed: none; must-fail edits: 10 refused; all'; \
                 echo '7 passed, 0 failed'";
    assert_eq!(gate("none-bad", &Tools { prove, ..GOOD }).0, Some(0));
}

/// Without rt's own line nothing says that no edit is bad.
#[test]
fn a_gate_that_is_told_nothing_of_edits_fails() {
    let prove = "echo one proved; echo '7 passed, 0 failed'";
    let lines = failed("untold-edits", 1, &Tools { prove, ..GOOD });
    assert_eq!(lines[1], "gate: rt ci has no line rt: ok");
}

/// The tests run beside the proofs: what they say is shown once the proofs have been, and nothing is
/// compared any more.
#[test]
fn a_test_that_fails_says_why() {
    let tests = "echo 'the test that failed'; exit 101";
    let lines = failed("told", 101, &Tools { tests, ..GOOD });
    let expected = [
        "one proved",
        "rt: ok; handles allowed: none",
        "the test that failed",
        "gate: FAILED",
    ];
    assert_eq!(lines, expected);
}

#[test]
fn whatever_fails_fails_the_gate() {
    let bad = "exit 1";
    let cases = [
        (
            "stated",
            Tools {
                stated: bad,
                ..GOOD
            },
        ),
        (
            "places",
            Tools {
                places: bad,
                ..GOOD
            },
        ),
        (
            "asking",
            Tools {
                asking: bad,
                ..GOOD
            },
        ),
        (
            "programs",
            Tools {
                programs: bad,
                ..GOOD
            },
        ),
        (
            "pictures",
            Tools {
                pictures: bad,
                ..GOOD
            },
        ),
        ("tests", Tools { tests: bad, ..GOOD }),
        (
            "cases",
            Tools {
                cases: "echo 'other cases'",
                ..GOOD
            },
        ),
        (
            "rounds",
            Tools {
                rounds: bad,
                ..GOOD
            },
        ),
        (
            "differs",
            Tools {
                show: "echo 'something else'",
                ..GOOD
            },
        ),
        (
            "show",
            Tools {
                show: "echo 'what one.txt reads as'; exit 1",
                ..GOOD
            },
        ),
    ];
    for (name, tools) in cases {
        let lines = failed(name, 1, &tools);
        assert!(!lines.iter().any(|line| line.contains("passed")), "{name}");
    }
}

/// What `.ci/places` says of one edit of a file: nothing, or the line that names it. The file is no
/// `.rt`: rt refuses one that stands in no crate, here too.
fn places(name: &str, edit: &str) -> (Option<i32>, String) {
    let folder = PathBuf::from(env!("CARGO_TARGET_TMPDIR")).join(format!("places-{name}"));
    for part in [".ci", "crates/one/src", "crates/one/must-fail"] {
        fs::create_dir_all(folder.join(part)).unwrap();
    }
    let script = concat!(env!("CARGO_MANIFEST_DIR"), "/../.ci/places");
    fs::write(folder.join(".ci/places"), fs::read(script).unwrap()).unwrap();
    fs::write(folder.join("crates/one/src/lib.txt"), "a = 1;\nb = 1;\n").unwrap();
    fs::write(folder.join("crates/one/must-fail/it.edit"), edit).unwrap();
    let output = output(Command::new("bash").arg(folder.join(".ci/places")));
    (
        output.status.code(),
        String::from_utf8(output.stderr).unwrap(),
    )
}

#[test]
fn an_edit_names_a_place_that_occurs_once() {
    let edit = |lines: &str| format!("# why\nfile: src/lib.txt\n{lines}");
    let good = edit("old: a = 1\nnew: a = 2\n");
    assert_eq!(places("once", &good), (Some(0), String::new()));
    // The second place is looked for where the first was changed already.
    let after = edit("old: a = 1\nnew: a = 2\nold: = 1\nnew: = 3\n");
    assert_eq!(places("after", &after), (Some(0), String::new()));
    for (name, count, old) in [("twice", 2, "= 1"), ("gone", 0, "c = 1")] {
        let (status, said) = places(name, &edit(&format!("old: {old}\nnew: d\n")));
        assert_eq!(status, Some(1), "{name}");
        let expected =
            format!("crates/one/must-fail/it.edit: its place occurs {count} times: {old}\n");
        assert_eq!(said, expected);
    }
    let elsewhere = "file: src/other.txt\nold: a = 1\nnew: a = 2\n";
    assert_eq!(places("elsewhere", elsewhere).0, Some(1));
}

/// What `.ci/asking` says of a page, over code with one public function that asks something. The code stands
/// outside the repository, where rt would refuse it.
fn asking(name: &str, listed: &str) -> (Option<i32>, String) {
    let folder = std::env::temp_dir().join(format!("asking-{name}-{}", std::process::id()));
    for part in [".ci", "crates/one/src", "docs"] {
        fs::create_dir_all(folder.join(part)).unwrap();
    }
    let script = concat!(env!("CARGO_MANIFEST_DIR"), "/../.ci/asking");
    fs::write(folder.join(".ci/asking"), fs::read(script).unwrap()).unwrap();
    let code = "pub fn asks(n: u8)\n    requires { n }\n{}\n\nfn within(n: u8)\n    requires { n }\n{}\n\npub fn takes(n: u8) {}\n";
    fs::write(folder.join("crates/one/src/lib.rt"), code).unwrap();
    let page = format!(
        "<!-- asking: held -->\n| a fact | {listed} | why `one::takes` |\n<!-- end of asking -->\n"
    );
    fs::write(folder.join("docs/PROMISES.md"), page).unwrap();
    let output = output(Command::new("bash").arg(folder.join(".ci/asking")));
    fs::remove_dir_all(&folder).unwrap();
    (
        output.status.code(),
        String::from_utf8(output.stderr).unwrap(),
    )
}

#[test]
fn functions_that_ask_are_those_that_the_page_lists() {
    assert_eq!(asking("listed", "`one::asks`"), (Some(0), String::new()));
    let (status, said) = asking("unlisted", "none");
    assert_eq!(status, Some(1));
    assert!(said.contains("< one::asks"), "{said}");
    let (status, said) = asking("stale", "`one::asks`, `one::takes`");
    assert_eq!(status, Some(1));
    assert!(said.contains("> one::takes"), "{said}");
}
