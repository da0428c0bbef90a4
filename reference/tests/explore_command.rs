//! The commands `lost` and `needed`: what they print, and their status.

use std::process::{Command, Output};

fn command(arguments: &[&str]) -> Output {
    Command::new(env!("CARGO_BIN_EXE_reference"))
        .args(arguments)
        .output()
        .unwrap()
}

#[test]
fn the_command_tells_a_run_turn_by_turn() {
    let output = command(&["lost", "12.8"]);
    assert_eq!(output.status.code(), Some(0));
    let words = String::from_utf8(output.stdout).unwrap();
    let told: Vec<Vec<&str>> = words
        .lines()
        .skip(4)
        .take(10)
        .map(|line| line.split_whitespace().collect())
        .collect();
    let words_of = |number: usize| told[number - 1].join(" ");
    assert_eq!(words_of(5), "5 recorder W2 loads NE as epoch: 0 GoesOn");
    assert_eq!(
        words_of(9),
        "9 sender close wakes all on NE: nobody sleeps there Done"
    );
    assert_eq!(
        words_of(10),
        "10 recorder W5 waits on NE: 0, the epoch still: sleeps GoesOn"
    );
    assert!(words.contains("Broken: T3, WithCause Recorder.\n"));
    assert!(words.contains("For good: "));
}

#[test]
fn the_command_lists_its_names_and_answers_to_each() {
    for question in ["lost", "needed"] {
        let output = command(&[question, "list"]);
        let list = String::from_utf8(output.stdout).unwrap();
        for line in list.lines() {
            let name = line.split(' ').next().unwrap();
            let status = command(&[question, name]).status;
            assert_eq!(status.code(), Some(0), "{question} {name}");
        }
        assert!(list.lines().count() >= 6);
        let unknown = command(&[question, "luck"]);
        assert_eq!(unknown.status.code(), Some(2));
        let message = String::from_utf8(unknown.stderr).unwrap();
        assert!(message.contains(&format!("reference {question} list")));
        assert_eq!(command(&[question]).status.code(), Some(2));
    }
}
