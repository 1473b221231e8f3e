//! The command that compares, on files.

mod common;

use common::{file, run, second, tabs, TWO_WAYS};

const RECORD: &str = "service 0\nhost 85018000002c0101\nhost 85018000002c010c\nsend 0\n";

#[test]
fn two_traces() {
    let (record, trace) = (file(&tabs(RECORD)), run("trace", &[], TWO_WAYS, RECORD).out);
    let (ours, theirs) = (file(&trace), file(&trace.replace("held on 0", "held on 1")));
    let same = second(&["compare", "--trace", record.name(), ours.name(), ours.name()]);
    assert_eq!((same.out.as_str(), same.status), ("", 0));
    let other = second(&["compare", "--trace", record.name(), ours.name(), theirs.name()]);
    let expected = "they first differ at line 2 of the traces\nrecord, line 3: host\t85018000002c010c\n\
        trace: 1\t3\t2\t1\t0\tcircuit 300 REL\theld on 0\nsecond: 1\t3\t2\t1\t0\tcircuit 300 REL\theld on 1\n";
    assert_eq!((other.out.as_str(), other.status), (expected, 1));
    assert_eq!(second(&["compare", "--trace", record.name(), ours.name(), "not-there"]).status, 2);
    let too_few = second(&["compare", "--trace", ours.name(), ours.name()]);
    assert_eq!((too_few.status, too_few.err.contains("second compare [--trace] RECORD")), (2, true));
}

#[test]
fn two_replays() {
    let (record, replay) = (file(&tabs(RECORD)), run("replay", &[], TWO_WAYS, RECORD).out);
    let (ours, theirs) = (file(&replay), file(&replay.replace("3\treply\t0", "3\treply\t7")));
    let other = second(&["compare", record.name(), ours.name(), theirs.name()]);
    let expected = "they first differ at line 3 of the record\nrecord: host\t85018000002c010c\n\
        replay: 3\treply\t0\nsecond: 3\treply\t7\n";
    assert_eq!((other.out.as_str(), other.status), (expected, 1));
}
