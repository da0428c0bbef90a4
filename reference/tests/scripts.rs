//! The scripts that are kept as text, with what they read as beside them.

use std::collections::BTreeSet;
use std::fs;
use std::path::{Path, PathBuf};

use reference::{readout, stream, text};

const ROOT: &str = concat!(env!("CARGO_MANIFEST_DIR"), "/..");

/// The names in the folder with this ending.
fn names(ending: &str) -> BTreeSet<PathBuf> {
    fs::read_dir(Path::new(ROOT).join("scripts"))
        .unwrap()
        .map(|entry| entry.unwrap().path())
        .filter(|path| path.extension().is_some_and(|found| found == ending))
        .map(|path| path.with_extension(""))
        .collect()
}

fn script(path: &Path) -> Vec<u8> {
    text::write(&fs::read(path).unwrap()).unwrap_or_else(|bad| panic!("{path:?}: {bad:?}"))
}

#[test]
fn each_reads_as_the_reference_plays_it() {
    let texts = names("txt");
    assert!(!texts.is_empty());
    assert_eq!(texts, names("read"));
    for name in texts {
        let script = script(&name.with_extension("txt"));
        let (mut report, mut lines) = (Vec::new(), Vec::new());
        stream::play(&script[..], &mut report).unwrap();
        readout::read(&script[..], &report[..], &mut lines).unwrap();
        let kept = fs::read_to_string(name.with_extension("read")).unwrap();
        assert_eq!(String::from_utf8(lines).unwrap(), kept, "{name:?}");
    }
}

/// The proved program's own case is the same script.
#[test]
fn the_whole_case_is_one() {
    let root = Path::new(ROOT);
    let played = fs::read(root.join("crates/play/stdin")).unwrap();
    assert_eq!(script(&root.join("scripts/whole-case.txt")), played);
}
