//! Where two traces of one record first differ: the project's own program's and this one's.

use std::collections::BTreeSet;

use crate::compare::{lines, shown};

/// None if the traces are equal; else the first line that differs, as both have it, with the record's lines
/// that it came from.
pub fn compare_traces(record: &[u8], ours: &[u8], theirs: &[u8]) -> Option<String> {
    if ours == theirs {
        return None;
    }
    let (ours, theirs) = (lines(ours), lines(theirs));
    let agreed = ours.iter().zip(&theirs).take_while(|(one, other)| one == other).count();
    let here = [("trace", ours.get(agreed)), ("second", theirs.get(agreed))];
    let mut text = format!("they first differ at line {} of the traces\n", agreed + 1);
    let numbers: BTreeSet<usize> = here.iter().filter_map(|(_, line)| line_of_record(line.as_ref()?)).collect();
    let record = lines(record);
    for number in numbers {
        let line = number.checked_sub(1).and_then(|place| record.get(place));
        let line = line.map_or("(the record has no such line)".to_string(), |line| shown(line));
        text += &format!("record, line {number}: {line}\n");
    }
    for (name, line) in here {
        text += &format!("{name}: {}\n", line.map_or("(ends here)".to_string(), |line| shown(line)));
    }
    Some(text)
}

/// Of a message the line that brought it, of a changeover the one at which it ended, or the line that can't be read.
fn line_of_record(line: &[u8]) -> Option<usize> {
    let text = std::str::from_utf8(line).ok()?;
    let fields: Vec<&str> = text.split('\t').collect();
    match fields[..] {
        [number, "refused", _] => number.parse().ok(),
        [_, number, _, _, _, _, _] => number.parse().ok(),
        [sentence] => sentence.split("changed over at line ").nth(1)?.split(' ').next()?.parse().ok(),
        _ => None,
    }
}

#[cfg(test)]
mod tests {
    use super::*;

    const RECORD: &[u8] = b"service\t0\nhost\t8501800000\nhost\t8501800010\nfailure\t0\nt1\t0\n";
    const FIRST: &str = "0\t2\t2\t1\t0\tsi 5\theld on 0\n";
    const SECOND: &str = "1\t3\t2\t1\t1\tsi 5\theld on 0\n";

    fn found(ours: &str, theirs: &str) -> String {
        compare_traces(RECORD, ours.as_bytes(), theirs.as_bytes()).expect("a difference")
    }

    #[test]
    fn equal_traces() {
        for trace in ["", FIRST, "config\t2\t22\n", "no trace"] {
            assert_eq!(compare_traces(RECORD, trace.as_bytes(), trace.as_bytes()), None);
        }
    }

    #[test]
    fn another_fate() {
        let dropped = "1\t3\t2\t1\t1\tsi 5\tdropped at 5: no route\n";
        let expected = format!(
            "they first differ at line 2 of the traces\nrecord, line 3: host\t8501800010\n\
            trace: {SECOND}second: {dropped}"
        );
        assert_eq!(found(&format!("{FIRST}{SECOND}"), &format!("{FIRST}{dropped}{FIRST}")), expected);
    }

    #[test]
    fn another_message_there() {
        let expected = format!(
            "they first differ at line 1 of the traces\nrecord, line 2: host\t8501800000\n\
            record, line 3: host\t8501800010\ntrace: {SECOND}second: {FIRST}"
        );
        assert_eq!(found(&format!("{SECOND}{FIRST}"), &format!("{FIRST}{SECOND}")), expected);
    }

    #[test]
    fn one_ends_early() {
        let text = found(FIRST, &format!("{FIRST}{SECOND}"));
        assert!(text.ends_with(&format!("trace: (ends here)\nsecond: {SECOND}")), "{text}");
        assert!(found(FIRST, "").ends_with("second: (ends here)\n"));
        let text = found(FIRST, FIRST.trim_end());
        assert!(text.ends_with(&format!("second: {} (without LF)\n", FIRST.trim_end())), "{text}");
    }

    #[test]
    fn changeovers_and_what_is_refused() {
        let sentence = |count| {
            format!("link 0: failed at line 4, changed over at line 5 by T1; 0 retired, 0 moved, {count} dropped\n")
        };
        let text = found(&sentence(1), &sentence(2));
        assert!(text.contains("traces\nrecord, line 5: t1\t0\ntrace: link 0: failed"), "{text}");
        assert!(found("4\trefused\t30\n", "").contains("record, line 4: failure\t0\n"));
        assert!(found("9\trefused\t30\n", "").contains("record, line 9: (the record has no such line)\n"));
        assert!(found("0\trefused\t30\n", "").contains("record, line 0: (the record has no such line)\n"));
    }

    #[test]
    fn what_belongs_to_no_line() {
        let expected = "they first differ at line 1 of the traces\ntrace: config\t2\t22\nsecond: abort\\r\n";
        assert_eq!(found("config\t2\t22\n", "abort\r\n"), expected);
    }
}
