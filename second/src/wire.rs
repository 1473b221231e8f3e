//! Octets on the wire: SIO, label, and the listed management messages.

pub const SHORTEST: usize = 5;
pub const LONGEST: usize = 273;

/// Sequence numbers count modulo 128.
pub fn step_on(number: u8, steps: usize) -> u8 {
    ((number as usize + steps) % 128) as u8
}

/// How many steps lead from one sequence number on to another.
pub fn distance(from: u8, to: u8) -> usize {
    (to as usize + 128 - from as usize) % 128
}

#[derive(Clone, Copy, PartialEq, Eq, Debug)]
pub struct Label {
    pub dpc: u16,
    pub opc: u16,
    /// The SLC where the service indicator is 0.
    pub sls: u8,
}

impl Label {
    /// The label of a message of at least five octets.
    pub fn read(octets: &[u8]) -> Label {
        let word = u32::from_le_bytes([octets[1], octets[2], octets[3], octets[4]]);
        Label { dpc: (word % 16_384) as u16, opc: (word / 16_384 % 16_384) as u16, sls: (word / 268_435_456) as u8 }
    }

    pub fn write(self) -> [u8; 4] {
        let word = self.dpc as u32 + 16_384 * self.opc as u32 + 268_435_456 * self.sls as u32;
        word.to_le_bytes()
    }
}

pub fn service_indicator(sio: u8) -> u8 {
    sio % 16
}

pub fn network_indicator(sio: u8) -> u8 {
    sio / 64
}

#[derive(Clone, Copy, PartialEq, Eq, Debug)]
pub enum Management {
    Coo { fsn: u8 },
    Coa { fsn: u8 },
    Cbd { code: u8 },
    Cba { code: u8 },
    Eco,
    Eca,
    Tfp { destination: u16 },
    Tfa { destination: u16 },
    Rst { destination: u16 },
}

impl Management {
    pub fn name(self) -> &'static str {
        match self {
            Management::Coo { .. } => "COO",
            Management::Coa { .. } => "COA",
            Management::Cbd { .. } => "CBD",
            Management::Cba { .. } => "CBA",
            Management::Eco => "ECO",
            Management::Eca => "ECA",
            Management::Tfp { .. } => "TFP",
            Management::Tfa { .. } => "TFA",
            Management::Rst { .. } => "RST",
        }
    }

    /// What stands after the label; none if the heading isn't listed or the total is wrong.
    pub fn read(body: &[u8]) -> Option<Management> {
        Some(match *body {
            [0x11, fsn] => Management::Coo { fsn: fsn % 128 },
            [0x21, fsn] => Management::Coa { fsn: fsn % 128 },
            [0x51, code] => Management::Cbd { code },
            [0x61, code] => Management::Cba { code },
            [0x12] => Management::Eco,
            [0x22] => Management::Eca,
            [0x14, low, high] => Management::Tfp { destination: point_code(low, high) },
            [0x54, low, high] => Management::Tfa { destination: point_code(low, high) },
            [0x15, low, high] => Management::Rst { destination: point_code(low, high) },
            _ => return None,
        })
    }

    pub fn write(self) -> Vec<u8> {
        match self {
            Management::Coo { fsn } => vec![0x11, fsn],
            Management::Coa { fsn } => vec![0x21, fsn],
            Management::Cbd { code } => vec![0x51, code],
            Management::Cba { code } => vec![0x61, code],
            Management::Eco => vec![0x12],
            Management::Eca => vec![0x22],
            Management::Tfp { destination } => about(0x14, destination),
            Management::Tfa { destination } => about(0x54, destination),
            Management::Rst { destination } => about(0x15, destination),
        }
    }
}

/// Two octets, low first; the two top bits are spare.
fn point_code(low: u8, high: u8) -> u16 {
    u16::from_le_bytes([low, high]) % 16_384
}

fn about(heading: u8, destination: u16) -> Vec<u8> {
    let [low, high] = destination.to_le_bytes();
    vec![heading, low, high]
}

/// A whole message: SIO (spare bits 0), label, and what follows.
pub fn compose(ni: u8, si: u8, label: Label, rest: &[u8]) -> Vec<u8> {
    let mut octets = vec![ni * 64 + si];
    octets.extend(label.write());
    octets.extend(rest);
    octets
}

#[cfg(test)]
mod tests {
    use super::*;

    #[test]
    fn example_a() {
        let label = Label { dpc: 1, opc: 2, sls: 3 };
        let octets = compose(2, 0, label, &Management::Coo { fsn: 5 }.write());
        assert_eq!(octets, [0x80, 0x01, 0x80, 0x00, 0x30, 0x11, 0x05]);
        assert_eq!(Label::read(&octets), label);
        assert_eq!(Management::read(&octets[5..]), Some(Management::Coo { fsn: 5 }));
    }

    #[test]
    fn example_b() {
        let label = Label { dpc: 16_383, opc: 16_383, sls: 15 };
        assert_eq!(label.write(), [0xff; 4]);
    }

    #[test]
    fn example_c() {
        assert_eq!(Management::Tfp { destination: 300 }.write(), [0x14, 0x2c, 0x01]);
        let spare_set = Management::read(&[0x54, 0x2c, 0xc1]);
        assert_eq!(spare_set, Some(Management::Tfa { destination: 300 }));
    }

    #[test]
    fn totals_are_exact() {
        for body in [&[0x11][..], &[0x11, 1, 2], &[0x12, 0], &[0x14, 1], &[0x23, 1, 2], &[]] {
            assert_eq!(Management::read(body), None);
        }
        assert_eq!(Management::read(&[0x21, 0x85]), Some(Management::Coa { fsn: 5 }));
        assert_eq!(Management::read(&[0x61, 0x85]), Some(Management::Cba { code: 0x85 }));
    }
}
