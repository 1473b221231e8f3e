//! A run: a point and its ledger, and the calls of a record made in turn.

use std::io::{IsTerminal, Write};
use std::time::{Duration, Instant};

use crate::configuration::{self, Fault};
use crate::fates::{self, Fate};
use crate::ledger::Ledger;
use crate::point::{Call, Outcome, TransferPoint};
use crate::record;

pub struct Run {
    pub point: TransferPoint,
    ledger: Ledger,
    lines: usize,
}

/// What a call did, and the state before it.
pub struct Made {
    pub before: TransferPoint,
    pub outcome: Outcome,
    pub fates: Vec<Fate>,
}

impl Run {
    pub fn new(point: TransferPoint) -> Run {
        Run { point, ledger: Ledger::default(), lines: 0 }
    }

    pub fn call(&mut self, call: &Call) -> Outcome {
        self.make(call).outcome
    }

    /// Make one call with the bookkeeping on; a fault found there ends the program.
    pub fn make(&mut self, call: &Call) -> Made {
        self.lines += 1;
        let before = self.point.clone();
        let outcome = self.point.call(call);
        let fates = fates::of_call(&before, call, &outcome, &self.point);
        let made = Made { before, outcome, fates };
        if let Err(fault) = self.ledger.enter(call, &made, &self.point) {
            panic!("line {}: {fault}", self.lines);
        }
        made
    }
}

/// One call of a record with the states around it.
pub struct Step<'a> {
    /// The record's line, counted from 1, and its text without the LF.
    pub number: usize,
    pub line: &'a [u8],
    pub call: &'a Call,
    pub before: &'a TransferPoint,
    pub outcome: &'a Outcome,
    pub fates: &'a [Fate],
    pub after: &'a TransferPoint,
}

/// How a run ended.
#[derive(Clone, Copy, PartialEq, Eq, Debug)]
pub enum End {
    AllRun,
    ConfigurationRefused(Fault),
    /// With the line that can't be read.
    Unreadable(usize),
}

/// Make the calls of a record in turn, up to a line of it, and tell of each.
pub fn every_call(configuration: &[u8], record: &[u8], last: u64, mut tell: impl FnMut(&Step)) -> End {
    let point = match configuration::read(configuration) {
        Ok(point) => point,
        Err(fault) => return End::ConfigurationRefused(fault),
    };
    let mut run = Run::new(point);
    let mut progress = Progress::new(record);
    for (place, line) in lines(record).enumerate() {
        let number = place + 1;
        if number as u64 > last {
            break;
        }
        let Some(call) = record::read_line(line) else { return End::Unreadable(number) };
        let Made { before, outcome, fates } = run.make(&call);
        let (line, after) = (line.strip_suffix(b"\n").expect("a line that was read"), &run.point);
        tell(&Step { number, line, call: &call, before: &before, outcome: &outcome, fates: &fates, after });
        progress.at(number);
    }
    End::AllRun
}

fn lines(record: &[u8]) -> impl Iterator<Item = &[u8]> {
    record.split_inclusive(|octet| *octet == b'\n')
}

/// Where standard error is a terminal, a run longer than a second says there how far it is.
struct Progress {
    of: usize,
    said_at: Option<Instant>,
    said: bool,
}

impl Progress {
    fn new(record: &[u8]) -> Progress {
        if std::io::stderr().is_terminal() {
            return Progress { of: lines(record).count(), said_at: Some(Instant::now()), said: false };
        }
        Progress { of: 0, said_at: None, said: false }
    }

    fn at(&mut self, number: usize) {
        let Some(said_at) = self.said_at else { return };
        if said_at.elapsed() >= Duration::from_secs(1) {
            self.say(&format!("\rline {number} of {}", self.of));
            (self.said_at, self.said) = (Some(Instant::now()), true);
        }
    }

    /// No run fails for want of a word about how far it is.
    fn say(&self, text: &str) {
        let mut terminal = std::io::stderr().lock();
        let _ = terminal.write_all(text.as_bytes()).and_then(|()| terminal.flush());
    }
}

impl Drop for Progress {
    fn drop(&mut self) {
        if self.said {
            self.say("\r\x1b[K");
        }
    }
}
