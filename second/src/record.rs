//! A record's lines, read and written.

use crate::configuration::plain_decimal;
use crate::point::Call;

const MOST_OCTETS: usize = 1_024;

pub fn hex(octets: &[u8]) -> String {
    octets.iter().map(|octet| format!("{octet:02x}")).collect()
}

fn hex_digit(digit: u8) -> Option<u8> {
    (digit as char).to_digit(16).map(|value| value as u8)
}

fn octets(field: &[u8]) -> Option<Vec<u8>> {
    if field.len() % 2 == 1 || field.len() > 2 * MOST_OCTETS {
        return None;
    }
    field.chunks(2).map(|pair| Some(hex_digit(pair[0])? * 16 + hex_digit(pair[1])?)).collect()
}

/// The call of a line with its LF; none if it can't be read.
pub fn read_line(line: &[u8]) -> Option<Call> {
    let body = line.strip_suffix(b"\n")?;
    let fields: Vec<&[u8]> = body.split(|octet| *octet == b'\t').collect();
    match fields[..] {
        [b"routes"] => Some(Call::Routes),
        [b"host", message] => Some(Call::Host(octets(message)?)),
        [kind, number] => one_number(kind, plain_decimal(number)?),
        [b"ack", link, number] => Some(Call::Ack(plain_decimal(link)?, plain_decimal(number)?)),
        [b"t10", destination, set] => Some(Call::T10(plain_decimal(destination)?, plain_decimal(set)?)),
        [b"received", link, fsn, message] => {
            Some(Call::Received { link: plain_decimal(link)?, fsn: plain_decimal(fsn)?, octets: octets(message)? })
        }
        _ => None,
    }
}

fn one_number(kind: &[u8], number: u64) -> Option<Call> {
    Some(match kind {
        b"service" => Call::Service(number),
        b"failure" => Call::Failure(number),
        b"send" => Call::Send(number),
        b"t1" => Call::T1(number),
        b"t2" => Call::T2(number),
        b"t3" => Call::T3(number),
        b"t4" => Call::T4(number),
        b"t6" => Call::T6(number),
        b"t8" => Call::T8(number),
        _ => return None,
    })
}

/// The line of a call, without its LF.
pub fn write_line(call: &Call) -> String {
    match call {
        Call::Service(link) => format!("service\t{link}"),
        Call::Failure(link) => format!("failure\t{link}"),
        Call::Send(link) => format!("send\t{link}"),
        Call::Ack(link, number) => format!("ack\t{link}\t{number}"),
        Call::Received { link, fsn, octets } => format!("received\t{link}\t{fsn}\t{}", hex(octets)),
        Call::Host(octets) => format!("host\t{}", hex(octets)),
        Call::T1(link) => format!("t1\t{link}"),
        Call::T2(link) => format!("t2\t{link}"),
        Call::T3(link) => format!("t3\t{link}"),
        Call::T4(link) => format!("t4\t{link}"),
        Call::T6(destination) => format!("t6\t{destination}"),
        Call::T8(destination) => format!("t8\t{destination}"),
        Call::T10(destination, set) => format!("t10\t{destination}\t{set}"),
        Call::Routes => "routes".to_string(),
    }
}

#[cfg(test)]
mod tests {
    use super::*;

    #[test]
    fn lines_that_cannot_be_read() {
        let long = format!("host\t{}\n", "00".repeat(1_025));
        for line in [
            "\n", "service\n", "service\t\n", "service\t01\n", "service\t0", "service\t-1\n", "t5\t0\n",
            "send\t18446744073709551616\n", "routes\t\n", "host\n", "host\t0\n", "host\t0g\n", "ack\t0\n",
            "received\t0\t0\n", "service\t0\r\n", "Service\t0\n", "t10\t1\n", &long,
        ] {
            assert_eq!(read_line(line.as_bytes()), None, "{line:?}");
        }
    }

    #[test]
    fn lines_that_can() {
        assert_eq!(read_line(b"host\t\n"), Some(Call::Host(Vec::new())));
        assert_eq!(read_line(b"host\taAfF\n"), Some(Call::Host(vec![0xaa, 0xff])));
        assert_eq!(read_line(b"send\t18446744073709551615\n"), Some(Call::Send(u64::MAX)));
        let longest = format!("host\t{}\n", "00".repeat(1_024));
        assert!(read_line(longest.as_bytes()).is_some());
    }

    #[test]
    fn written_lines_are_read_again() {
        let received = Call::Received { link: 3, fsn: 127, octets: vec![0x80, 1] };
        for call in [Call::Routes, Call::Ack(1, 2), Call::T10(9, 1), Call::T8(5), received, Call::Host(vec![])] {
            let line = format!("{}\n", write_line(&call));
            assert_eq!(read_line(line.as_bytes()), Some(call));
        }
    }
}
