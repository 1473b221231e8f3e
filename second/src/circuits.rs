//! The second draw of user messages: SI 5, and a circuit and a kind behind the label.

use crate::naming;
use crate::random::Random;
use crate::wire::{LONGEST, SHORTEST};

/// Few, so that each has several messages, and on both sides of 256.
const FEW_CIRCUITS: (usize, usize) = (252, 259);
/// Keeps this draw apart from the one that the seed gives otherwise.
const OTHER_SEED: u64 = 0x5149_5550;

pub(crate) struct Circuits {
    random: Random,
    named: Vec<u8>,
}

impl Circuits {
    pub(crate) fn new(seed: u64) -> Circuits {
        Circuits { random: Random::new(seed ^ OTHER_SEED), named: naming::named_kinds() }
    }

    /// In place of a drawn SI and payload; one message in five stays as it is.
    pub(crate) fn draw(&mut self, si: u8, payload: Vec<u8>) -> (u8, Vec<u8>) {
        match self.random.below(20) {
            0..=3 => (si, payload),
            // Too short to have a circuit.
            4 => (naming::USER_PART_WITH_CIRCUITS, payload.into_iter().take(2).collect()),
            _ => (naming::USER_PART_WITH_CIRCUITS, self.with_circuit(payload)),
        }
    }

    fn with_circuit(&mut self, payload: Vec<u8>) -> Vec<u8> {
        let circuit = self.circuit();
        let spare = if self.random.one_in(4) { 16 * self.random.below(16) } else { 0 };
        let mut octets = vec![(circuit % 256) as u8, (circuit / 256 + spare) as u8, self.kind()];
        octets.extend(payload);
        octets.truncate(LONGEST - SHORTEST);
        octets
    }

    fn circuit(&mut self) -> usize {
        let (low, high) = FEW_CIRCUITS;
        match self.random.below(10) {
            0 => self.random.between(0, naming::HIGHEST_CIRCUIT as usize),
            1 => naming::HIGHEST_CIRCUIT as usize * self.random.below(2),
            _ => self.random.between(low, high),
        }
    }

    fn kind(&mut self) -> u8 {
        if self.random.one_in(5) {
            return self.random.below(256) as u8;
        }
        self.random.pick(&self.named).expect("some kinds have names")
    }
}
