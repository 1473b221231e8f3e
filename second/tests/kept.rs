//! The kept set: its answers are this program's, and it reaches every corner.

use std::collections::BTreeMap;
use std::path::{Path, PathBuf};

use second::compare::compare;
use second::corners;
use second::replay::replay;

/// The path of each run without its ending.
fn kept() -> Vec<PathBuf> {
    let folder = Path::new(env!("CARGO_MANIFEST_DIR")).join("../tests/kept");
    let files = std::fs::read_dir(folder).expect("the kept set").map(|entry| entry.unwrap().path());
    files.filter(|path| path.extension().is_some_and(|ending| ending == "record")).collect()
}

fn read(run: &Path, ending: &str) -> Vec<u8> {
    std::fs::read(run.with_extension(ending)).expect(ending)
}

#[test]
fn answers_are_as_kept() {
    assert!(kept().len() > 100);
    for run in kept() {
        let record = read(&run, "record");
        let output = replay(&read(&run, "configuration"), &record);
        let difference = compare(&record, &read(&run, "answers"), output.as_bytes());
        assert_eq!(difference, None, "{}", run.display());
    }
}

#[test]
fn every_corner_is_reached() {
    let mut seen: BTreeMap<&str, usize> = BTreeMap::new();
    for run in kept() {
        for (name, count) in corners::corners(&read(&run, "configuration"), &read(&run, "record")) {
            *seen.entry(name).or_default() += count;
        }
    }
    let missing: Vec<&&str> = seen.iter().filter(|(_, count)| **count == 0).map(|(name, _)| name).collect();
    assert!(missing.is_empty(), "never reached: {missing:?}");
}
