//! The words and names are those that the page of text formats has.

use second::naming::what_it_is;
use second::point::{Message, Reply};
use second::wire::{compose, Label};
use second::words;

fn page() -> String {
    let path = std::path::Path::new(env!("CARGO_MANIFEST_DIR")).join("../docs/FORMATS.md");
    std::fs::read_to_string(path).expect("the page of text formats")
}

/// The rows of a table as number and words, none where no words stand.
fn rows(heading: &str) -> Vec<(u8, Option<String>)> {
    let page = page();
    let table = page.split(heading).nth(1).expect(heading).trim_start();
    let rows = table.lines().skip(1).take_while(|line| line.starts_with('|'));
    rows.map(|row| {
        let cells: Vec<&str> = row.split('|').map(str::trim).collect();
        let words = cells[2].strip_prefix('`').and_then(|cell| cell.strip_suffix('`'));
        (cells[1].parse().unwrap(), words.map(str::to_string))
    })
    .collect()
}

#[test]
fn replies_in_words() {
    use Reply::*;
    let replies = [
        Done, OutOfRange, NotConfigured, Malformed, ForeignNetwork, WrongState, WrongNumber, UserStoreFull,
        ManagementStoreFull, Unreachable, NumbersUsedUp, FitsNothing,
    ];
    let ours: Vec<_> = replies.map(|reply| (reply as u8, words::of_reply(reply).map(str::to_string))).into();
    assert_eq!(rows("| Reply | In words |"), ours);
}

#[test]
fn reasons_and_faults_in_words() {
    let reasons: Vec<_> = (1..=2).map(|reason| (reason, Some(words::of_reason(reason).to_string()))).collect();
    assert_eq!(rows("| Reason of a drop | In words |"), reasons);
    let faults = [20, 21, 22, 23, 24, 25, 30].map(|fault| (fault, Some(words::of_fault(fault).to_string())));
    assert_eq!(rows("| Fault | In words |"), faults);
}

#[test]
fn names_of_the_third_octet() {
    let page = page();
    let list = page.split("Names of the third octet, in hex: ").nth(1).unwrap().split("\n\n").next().unwrap();
    let list = list.replace('\n', " ");
    let mut named = std::collections::BTreeMap::new();
    for entry in list.trim_end_matches('.').split(',') {
        let (octet, name) = entry.trim().split_once(' ').unwrap();
        named.insert(u8::from_str_radix(octet, 16).unwrap(), name.to_string());
    }
    assert_eq!(named.len(), 28);
    for kind in 0..=255 {
        let octets = compose(2, 5, Label { dpc: 9, opc: 2, sls: 0 }, &[1, 0, kind]);
        let message = Message { arrival: 0, management: false, octets: octets.into() };
        let expected = named.get(&kind).cloned().unwrap_or(format!("{kind:02x}"));
        assert_eq!(what_it_is(&message), format!("circuit 1 {expected}"));
    }
}
