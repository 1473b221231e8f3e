//! Where two outputs of one record first differ: the project's own program's and this one's.

/// What belongs to no line of the record stands under this number.
const CONFIGURATION: usize = 0;

/// Of long lists, such as a route list, no more than this many lines on either side of the difference.
const MOST_SHOWN: usize = 20;

/// None if the outputs are equal; else a few lines to be read by a person.
pub fn compare(record: &[u8], ours: &[u8], theirs: &[u8]) -> Option<String> {
    if ours == theirs {
        return None;
    }
    let (ours, theirs) = (lines(ours), lines(theirs));
    let agreed = ours.iter().zip(&theirs).take_while(|(one, other)| one == other).count();
    let number = number_at(agreed, &ours, &theirs);
    let mut text = heading(record, number);
    for (name, output) in [("replay", ours), ("second", theirs)] {
        for line in written_for(number, agreed, &output) {
            text += &format!("{name}: {line}\n");
        }
    }
    Some(text)
}

/// With their LFs, so that a last line without one differs from one with it.
pub(crate) fn lines(text: &[u8]) -> Vec<&[u8]> {
    text.split_inclusive(|octet| *octet == b'\n').collect()
}

/// The record line that an output line belongs to; none if it has no such number.
fn number_of(line: &[u8]) -> Option<usize> {
    let first = line.split(|octet| *octet == b'\t').next()?;
    match first {
        b"config" => Some(CONFIGURATION),
        _ => std::str::from_utf8(first).ok()?.parse().ok(),
    }
}

/// The lower of the two numbers, since the other output has then said too little of that line.
fn number_at(agreed: usize, ours: &[&[u8]], theirs: &[&[u8]]) -> usize {
    let here = [ours.get(agreed), theirs.get(agreed)];
    let lower = here.into_iter().flatten().filter_map(|line| number_of(line)).min();
    let last_agreed = ours[..agreed].iter().rev().find_map(|line| number_of(line));
    lower.or(last_agreed).unwrap_or(CONFIGURATION)
}

fn heading(record: &[u8], number: usize) -> String {
    if number == CONFIGURATION {
        return "they first differ in what they say of the configuration\n".to_string();
    }
    let line = record.split_inclusive(|octet| *octet == b'\n').nth(number - 1);
    let line = line.map_or("(the record has no such line)".to_string(), shown);
    format!("they first differ at line {number} of the record\nrecord: {line}\n")
}

/// All lines of one output for a record line, which stand together around the place of the difference.
fn written_for(number: usize, agreed: usize, output: &[&[u8]]) -> Vec<String> {
    let belongs = |line: &&&[u8]| number_of(line) == Some(number);
    let before = output[..agreed].iter().rev().take_while(belongs).count();
    let after = output[agreed..].iter().take_while(belongs).count();
    let mut written = shortened(&output[agreed - before..agreed], "the same in both");
    written.extend(shortened(&output[agreed..agreed + after], "more"));
    let next = output.get(agreed + after);
    match next {
        Some(line) if number_of(line).is_none() => written.push(shown(line)),
        Some(line) if written.is_empty() => written.push(format!("(nothing, and goes on with) {}", shown(line))),
        None if after == 0 => written.push("(ends here)".to_string()),
        _ => {}
    }
    written
}

fn shortened(lines: &[&[u8]], rest: &str) -> Vec<String> {
    let mut text: Vec<String> = lines.iter().take(MOST_SHOWN).map(|line| shown(line)).collect();
    if lines.len() > MOST_SHOWN {
        text.push(format!("(and {} lines {rest})", lines.len() - MOST_SHOWN));
    }
    text
}

/// A line without its LF; octets that can't be seen are spelled out.
pub(crate) fn shown(line: &[u8]) -> String {
    let (body, end) = match line.strip_suffix(b"\n") {
        Some(body) => (body, ""),
        None => (line, " (without LF)"),
    };
    let mut text = String::new();
    for octet in body {
        match octet {
            b'\t' | b' '..=b'~' => text.push(*octet as char),
            _ => text += &octet.escape_ascii().to_string(),
        }
    }
    text + end
}

#[cfg(test)]
mod tests {
    use super::*;

    const RECORD: &[u8] = b"service\t0\nsend\t0\nroutes\n";

    fn found(ours: &str, theirs: &str) -> String {
        compare(RECORD, ours.as_bytes(), theirs.as_bytes()).expect("a difference")
    }

    #[test]
    fn equal_outputs() {
        for output in ["", "1\treply\t0\n", "config\t2\t22\n", "1\treply\t0"] {
            assert_eq!(compare(RECORD, output.as_bytes(), output.as_bytes()), None);
        }
    }

    #[test]
    fn all_lines_of_that_record_line_are_shown() {
        let ours = "1\treply\t0\n1\tresume\t4\n1\tresume\t5\n2\treply\t5\n";
        let theirs = "1\treply\t0\n1\tresume\t4\n1\tresume\t6\n2\treply\t5\n";
        let expected = "they first differ at line 1 of the record\nrecord: service\t0\n\
            replay: 1\treply\t0\nreplay: 1\tresume\t4\nreplay: 1\tresume\t5\n\
            second: 1\treply\t0\nsecond: 1\tresume\t4\nsecond: 1\tresume\t6\n";
        assert_eq!(found(ours, theirs), expected);
    }

    #[test]
    fn one_report_too_few() {
        let text = found("1\treply\t0\n2\treply\t5\n", "1\treply\t0\n1\tresume\t4\n2\treply\t5\n");
        assert!(text.starts_with("they first differ at line 1 of the record\n"), "{text}");
        assert!(text.ends_with("replay: 1\treply\t0\nsecond: 1\treply\t0\nsecond: 1\tresume\t4\n"), "{text}");
    }

    #[test]
    fn one_output_ends_early() {
        let text = found("1\treply\t0\n", "1\treply\t0\n2\treply\t5\n");
        let expected = "they first differ at line 2 of the record\nrecord: send\t0\n\
            replay: (ends here)\nsecond: 2\treply\t5\n";
        assert_eq!(text, expected);
        assert!(found("", "1\treply\t0\n").contains("replay: (ends here)\nsecond: 1\treply\t0\n"));
        assert!(found("1\treply\t0\n", "").contains("replay: 1\treply\t0\nsecond: (ends here)\n"));
    }

    #[test]
    fn a_line_of_the_record_left_out() {
        let text = found("1\treply\t0\n3\treply\t0\n", "1\treply\t0\n2\treply\t5\n3\treply\t0\n");
        assert!(text.contains("at line 2"), "{text}");
        assert!(text.contains("replay: (nothing, and goes on with) 3\treply\t0\nsecond: 2\treply\t5\n"), "{text}");
    }

    #[test]
    fn the_configuration() {
        let expected = "they first differ in what they say of the configuration\n\
            replay: config\t2\t22\nsecond: (nothing, and goes on with) 1\treply\t0\n";
        assert_eq!(found("config\t2\t22\n", "1\treply\t0\n"), expected);
        assert!(found("config\t2\t22\n", "config\t2\t23\n").contains("second: config\t2\t23\n"));
        assert!(found("", "config\t2\t23\n").contains("replay: (ends here)\n"));
    }

    #[test]
    fn a_last_line_cut_off() {
        let text = found("1\treply\t0\n2\treply\t0", "1\treply\t0\n2\treply\t0\n");
        assert!(text.contains("replay: 2\treply\t0 (without LF)\nsecond: 2\treply\t0\n"), "{text}");
        assert!(found("1\treply\t0\n2", "1\treply\t0\n2\treply\t0\n").contains("replay: 2 (without LF)\n"));
    }

    #[test]
    fn what_is_no_output_at_all() {
        let text = found("1\treply\t0\nabort\r\n", "1\treply\t0\n2\treply\t5\n");
        assert!(text.contains("at line 2"), "{text}");
        assert!(text.contains("replay: abort\\r\n"), "{text}");
        assert!(found("abort\n", "").contains("replay: abort\nsecond: (ends here)\n"));
        assert!(found("9\treply\t0\n", "").contains("record: (the record has no such line)\n"));
    }

    #[test]
    fn a_long_list_is_shortened() {
        let list = |last: &str| {
            let rows: String = (0..60).map(|row| format!("3\troute\t{row}\n")).collect();
            format!("1\treply\t0\n2\treply\t0\n3\treply\t0\n{rows}3\troute\t{last}\n{rows}")
        };
        let text = found(&list("a"), &list("b"));
        assert_eq!(text.lines().count(), 2 + 2 * 42, "{text}");
        assert!(text.contains("replay: (and 41 lines the same in both)\nreplay: 3\troute\ta\n"), "{text}");
        assert!(text.ends_with("second: (and 41 lines more)\n"), "{text}");
    }

    #[test]
    fn large_outputs_take_linear_time() {
        let record = "send\t0\n".repeat(500_000);
        let mut ours: String = (1..=500_000).map(|number| format!("{number}\treply\t5\n")).collect();
        let theirs = ours.clone() + "500001\treply\t0\n";
        assert!(compare(record.as_bytes(), ours.as_bytes(), theirs.as_bytes()).is_some());
        ours += "500001\treply\t0\n";
        assert_eq!(compare(record.as_bytes(), ours.as_bytes(), theirs.as_bytes()), None);
    }
}
