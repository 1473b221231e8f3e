//! What a message is, in a few words.

use crate::fates::own_name;
use crate::point::Message;
use crate::record::hex;
use crate::wire::{service_indicator, SHORTEST};

pub const HIGHEST_CIRCUIT: u64 = 4_095;
pub(crate) const USER_PART_WITH_CIRCUITS: u8 = 5;
const OCTETS_SHOWN: usize = 8;

/// Of a message with SI 5: its circuit and the octet of its kind.
fn circuit_and_kind(octets: &[u8]) -> Option<(u16, u8)> {
    match octets[SHORTEST..] {
        [low, high, kind, ..] if service_indicator(octets[0]) == USER_PART_WITH_CIRCUITS => {
            Some((low as u16 + 256 * (high % 16) as u16, kind))
        }
        _ => None,
    }
}

pub fn circuit(octets: &[u8]) -> Option<u16> {
    circuit_and_kind(octets).map(|(circuit, _)| circuit)
}

pub fn what_it_is(message: &Message) -> String {
    if let Some(name) = own_name(message) {
        return name.to_string();
    }
    let octets = &message.octets;
    if let Some((circuit, kind)) = circuit_and_kind(octets) {
        let name = name_of(kind).map_or(hex(&[kind]), str::to_string);
        return format!("circuit {circuit} {name}");
    }
    let shown = &octets[SHORTEST..octets.len().min(SHORTEST + OCTETS_SHOWN)];
    format!("si {} {}", service_indicator(octets[0]), hex(shown)).trim_end().to_string()
}

/// The kinds that have a name.
pub(crate) fn named_kinds() -> Vec<u8> {
    (0..=255).filter(|kind| name_of(*kind).is_some()).collect()
}

fn name_of(kind: u8) -> Option<&'static str> {
    Some(match kind {
        0x01 => "IAM",
        0x02 => "SAM",
        0x03 => "INR",
        0x04 => "INF",
        0x05 => "COT",
        0x06 => "ACM",
        0x07 => "CON",
        0x08 => "FOT",
        0x09 => "ANM",
        0x0c => "REL",
        0x0d => "SUS",
        0x0e => "RES",
        0x10 => "RLC",
        0x11 => "CCR",
        0x12 => "RSC",
        0x13 => "BLO",
        0x14 => "UBL",
        0x15 => "BLA",
        0x16 => "UBA",
        0x17 => "GRS",
        0x18 => "CGB",
        0x19 => "CGU",
        0x1a => "CGBA",
        0x1b => "CGUA",
        0x29 => "GRA",
        0x2c => "CPG",
        0x2e => "UCIC",
        0x2f => "CFN",
        _ => return None,
    })
}

#[cfg(test)]
mod tests {
    use super::*;
    use crate::wire::{compose, Label, Management};

    fn user(si: u8, rest: &[u8]) -> String {
        let octets = compose(2, si, Label { dpc: 9, opc: 2, sls: 4 }, rest);
        what_it_is(&Message { arrival: 0, management: false, octets: octets.into() })
    }

    #[test]
    fn circuits() {
        assert_eq!(user(5, &[0x2c, 0x01, 0x01]), "circuit 300 IAM");
        assert_eq!(user(5, &[0x2c, 0xf1, 0x0c, 0xff]), "circuit 300 REL");
        assert_eq!(user(5, &[0xff, 0xff, 0x1b]), "circuit 4095 CGUA");
        assert_eq!(user(5, &[0x00, 0x00, 0x2f]), "circuit 0 CFN");
        assert_eq!(user(5, &[0x07, 0x00, 0x0a]), "circuit 7 0a");
        assert_eq!(user(5, &[0x07, 0x00, 0xfe]), "circuit 7 fe");
    }

    #[test]
    fn all_else() {
        assert_eq!(user(3, &[0x09, 0x80, 0x03, 0x0e]), "si 3 0980030e");
        assert_eq!(user(3, &[]), "si 3");
        assert_eq!(user(5, &[0x07, 0x00]), "si 5 0700");
        assert_eq!(user(15, &[1, 2, 3, 4, 5, 6, 7, 8]), "si 15 0102030405060708");
        assert_eq!(user(15, &[1, 2, 3, 4, 5, 6, 7, 8, 9]), "si 15 0102030405060708");
        // In transit, and so not this point's own.
        assert_eq!(user(0, &[0x12]), "si 0 12");
    }

    #[test]
    fn own_messages() {
        let octets = compose(2, 0, Label { dpc: 1, opc: 2, sls: 0 }, &Management::Tfa { destination: 9 }.write());
        assert_eq!(what_it_is(&Message { arrival: 0, management: true, octets: octets.into() }), "TFA");
    }
}
