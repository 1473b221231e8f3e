//! The configuration's text and its faults.

use crate::point::{Destination, Link, LinkSet, Route, TransferPoint};

pub const LONGEST_TEXT: usize = 16_384;
const LINKS_IN_A_SET: usize = 8;
const DESTINATIONS: usize = 64;

#[derive(Clone, Copy, PartialEq, Eq, Debug)]
pub struct Fault {
    pub line: usize,
    pub code: u8,
}

const WORD_COUNT_OR_LF: u8 = 20;
const NOT_A_NUMBER: u8 = 21;
const REPEAT: u8 = 22;
const NOT_GIVEN: u8 = 23;
const FULL: u8 = 24;
const NO_NODE: u8 = 25;

/// A plain decimal: digits only, no leading zero, at most 64 bits.
pub fn plain_decimal(field: &[u8]) -> Option<u64> {
    let leading_zero = field.len() > 1 && field[0] == b'0';
    if field.is_empty() || leading_zero || !field.iter().all(u8::is_ascii_digit) {
        return None;
    }
    std::str::from_utf8(field).ok()?.parse().ok()
}

pub fn read(text: &[u8]) -> Result<TransferPoint, Fault> {
    if text.len() > LONGEST_TEXT {
        return Err(Fault { line: 0, code: FULL });
    }
    let mut point = None;
    for (place, line) in text.split_inclusive(|octet| *octet == b'\n').enumerate() {
        let at_line = |code| Fault { line: place + 1, code };
        read_line(&mut point, line).map_err(at_line)?;
    }
    point.ok_or(Fault { line: 1, code: NO_NODE })
}

/// The word of a line and the highest value of each of its fields.
fn highest_values(word: &[u8]) -> Option<&'static [u64]> {
    match word {
        b"node" => Some(&[16_383, 3]),
        b"set" => Some(&[7, 16_383]),
        b"link" => Some(&[31, 7, 15]),
        b"route" => Some(&[16_383, 7, 3]),
        _ => None,
    }
}

fn read_line(point: &mut Option<TransferPoint>, line: &[u8]) -> Result<(), u8> {
    let body = line.strip_suffix(b"\n");
    let fields: Vec<&[u8]> = body.unwrap_or(line).split(|octet| *octet == b'\t').collect();
    if point.is_none() && fields[0] != b"node" {
        return Err(NO_NODE);
    }
    let highest = highest_values(fields[0]).ok_or(WORD_COUNT_OR_LF)?;
    if body.is_none() || fields.len() != highest.len() + 1 {
        return Err(WORD_COUNT_OR_LF);
    }
    let values = values_within(&fields[1..], highest)?;
    match (fields[0], point) {
        (b"node", point @ None) => {
            *point = Some(TransferPoint::new(values[0] as u16, values[1] as u8));
            Ok(())
        }
        (b"set", Some(point)) => add_set(point, values[0] as u8, values[1] as u16),
        (b"link", Some(point)) => add_link(point, values[0] as u8, values[1] as u8, values[2] as u8),
        (b"route", Some(point)) => add_route(point, values[0] as u16, values[1] as u8, values[2] as u8),
        _ => Err(REPEAT),
    }
}

fn values_within(fields: &[&[u8]], highest: &[u64]) -> Result<Vec<u64>, u8> {
    let mut values = Vec::new();
    for (field, highest) in fields.iter().zip(highest) {
        match plain_decimal(field) {
            Some(value) if value <= *highest => values.push(value),
            _ => return Err(NOT_A_NUMBER),
        }
    }
    Ok(values)
}

fn add_set(point: &mut TransferPoint, number: u8, adjacent: u16) -> Result<(), u8> {
    let known = point.sets.contains_key(&number) || point.set_to(adjacent).is_some();
    if known || adjacent == point.code {
        return Err(REPEAT);
    }
    point.sets.insert(number, LinkSet { number, adjacent, links: Vec::new() });
    Ok(())
}

fn add_link(point: &mut TransferPoint, number: u8, set: u8, slc: u8) -> Result<(), u8> {
    let links = &point.sets.get(&set).ok_or(NOT_GIVEN)?.links;
    let same_slc = links.iter().any(|link| point.link(*link).slc == slc);
    if same_slc || point.links.contains_key(&number) {
        return Err(REPEAT);
    }
    if links.len() == LINKS_IN_A_SET {
        return Err(FULL);
    }
    let place = links.iter().filter(|link| point.link(**link).slc < slc).count();
    point.links.insert(number, Link::new(number, set, slc));
    point.sets.get_mut(&set).expect("given").links.insert(place, number);
    Ok(())
}

fn add_route(point: &mut TransferPoint, code: u16, set: u8, rank: u8) -> Result<(), u8> {
    if !point.sets.contains_key(&set) {
        return Err(NOT_GIVEN);
    }
    let same = |route: &Route| route.set == set || route.rank == rank;
    let known = point.destinations.get(&code);
    if code == point.code || known.is_some_and(|known| known.routes.iter().any(same)) {
        return Err(REPEAT);
    }
    if known.is_none() && point.destinations.len() == DESTINATIONS {
        return Err(FULL);
    }
    let destination = point.destinations.entry(code).or_insert_with(|| Destination::new(code));
    destination.routes.push(Route { set, rank, prohibited: false, t10: false });
    destination.routes.sort_by_key(|route| route.rank);
    Ok(())
}

#[cfg(test)]
mod tests {
    use super::*;

    fn fault(text: &str) -> Option<(usize, u8)> {
        let text = text.replace(' ', "\t");
        read(text.as_bytes()).err().map(|fault| (fault.line, fault.code))
    }

    const HEAD: &str = "node 2 2\nset 0 1\nlink 0 0 0\nroute 1 0 0\n";

    fn after_head(line: &str) -> Option<(usize, u8)> {
        fault(&format!("{HEAD}{line}"))
    }

    #[test]
    fn faults_of_line_one() {
        assert_eq!(fault(""), Some((1, 25)));
        assert_eq!(fault("\n"), Some((1, 25)));
        assert_eq!(fault("set 0 1"), Some((1, 25)));
        assert_eq!(fault("nodes 2 2\n"), Some((1, 25)));
        assert_eq!(fault("node"), Some((1, 20)));
        assert_eq!(fault("node 2 2"), Some((1, 20)));
        assert_eq!(fault("node 2\n"), Some((1, 20)));
        assert_eq!(fault("node 2 4\n"), Some((1, 21)));
        assert_eq!(fault("node 2 3\n"), None);
        assert_eq!(fault(&format!("{}\n", "x".repeat(16_384))), Some((0, 24)));
        assert_eq!(fault(&format!("{}\n", "x".repeat(16_383))), Some((1, 25)));
    }

    #[test]
    fn words_counts_and_numbers() {
        for line in ["\n", "sets 1 3\n", "set 1 3 4\n", "set 1\n", "set 1 3", "set 00 1", " set 1 3\n"] {
            assert_eq!(after_head(line), Some((5, 20)), "{line:?}");
        }
        for line in [
            "set 01 3\n", "set 1 \n", "set +1 3\n", "set 1 16384\n", "set 8 3\n", "link 32 0 1\n", "link 1 5 16\n",
            "route 1 5 4\n", "set 1 3\r\n", "set 99999999999999999999 3\n", "node 3 4\n",
        ] {
            assert_eq!(after_head(line), Some((5, 21)), "{line:?}");
        }
    }

    #[test]
    fn names_and_repeats() {
        assert_eq!(after_head("link 0 5 0\n"), Some((5, 23)));
        assert_eq!(after_head("route 2 5 0\n"), Some((5, 23)));
        for line in [
            "node 2 2\n", "set 0 9\n", "set 1 1\n", "set 1 2\n", "link 0 0 1\n", "link 1 0 0\n", "route 1 0 1\n",
            "route 2 0 0\n",
        ] {
            assert_eq!(after_head(line), Some((5, 22)), "{line:?}");
        }
        assert_eq!(after_head("set 1 3\nroute 1 1 0\n"), Some((6, 22)));
        assert_eq!(after_head("set 1 3\nroute 1 1 1\nlink 1 1 0\n"), None);
    }

    #[test]
    fn full_tables() {
        let links: String = (1..8).map(|n| format!("link {n} 0 {n}\n")).collect();
        assert_eq!(after_head(&links), None);
        assert_eq!(after_head(&format!("{links}link 8 0 8\n")), Some((12, 24)));
        assert_eq!(after_head(&format!("{links}link 8 0 7\n")), Some((12, 22)));
        let routes: String = (100..163).map(|n| format!("route {n} 0 0\n")).collect();
        assert_eq!(after_head(&routes), None);
        assert_eq!(after_head(&format!("{routes}route 163 0 0\n")), Some((68, 24)));
        assert_eq!(after_head(&format!("{routes}route 162 0 0\n")), Some((68, 22)));
        assert_eq!(after_head(&format!("{routes}set 1 9\nroute 162 1 1\n")), None);
    }

    #[test]
    fn links_stand_in_slc_order() {
        let text = "node 2 2\nset 0 1\nlink 0 0 9\nlink 1 0 3\nlink 2 0 5\n".replace(' ', "\t");
        assert_eq!(read(text.as_bytes()).unwrap().sets[&0].links, [1, 2, 0]);
    }
}
