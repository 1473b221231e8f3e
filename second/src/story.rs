//! The story of one message: what brought it, where it stood, and what became of it.

use crate::fates::Place;
use crate::naming;
use crate::options::Asked;
use crate::point::Message;
use crate::wire::Label;
use crate::words;

/// Of more moves only the last ones are told.
const MOVES_TOLD: usize = 8;

struct Move {
    from: Place,
    to: Place,
    line: usize,
    /// Where it may arrive twice, the number that it had left with.
    twice_as: Option<u8>,
}

impl Move {
    fn text(&self) -> String {
        let Move { from, to, line, twice_as } = self;
        match twice_as {
            Some(fsn) => format!("sent on {from} as {fsn}, moved to {to} at {line}, may arrive twice"),
            None => format!("moved {from} to {to} at {line}"),
        }
    }
}

#[derive(Clone, Copy)]
struct Sent {
    fsn: u8,
    line: usize,
}

pub struct Story {
    message: Message,
    /// The record's line that brought it.
    line: usize,
    /// Where it stands, and whether it left from there.
    place: Place,
    sent: Option<Sent>,
    moves: Vec<Move>,
}

/// What became of a message in the end.
pub enum Ending {
    Acknowledged,
    /// By the changeover number.
    Retired(u8),
    /// With the reason.
    Dropped(u8),
    /// At the end of the run.
    Held,
}

impl Story {
    pub fn new(message: Message, line: usize, place: Place) -> Story {
        Story { message, line, place, sent: None, moves: Vec::new() }
    }

    pub fn send(&mut self, fsn: u8, line: usize) {
        self.sent = Some(Sent { fsn, line });
    }

    /// A message that moved is unsent where it stands now; the far end that it left may have it too.
    pub fn shift(&mut self, from: Place, to: Place, line: usize, twice: bool) {
        let sent = self.sent.take();
        let twice_as = twice.then(|| sent.expect("what may arrive twice was sent").fsn);
        self.moves.push(Move { from, to, line, twice_as });
        self.place = to;
    }

    pub fn is_asked_for(&self, asked: &Asked, ending: &Ending) -> bool {
        let label = Label::read(&self.message.octets);
        let circuit = naming::circuit(&self.message.octets);
        asked.link.is_none_or(|link| self.stood_on(link))
            && (asked.from..=asked.to).contains(&(self.line as u64))
            && asked.destination.is_none_or(|destination| label.dpc == destination)
            && asked.circuit.is_none_or(|asked| circuit == Some(asked))
            && (!asked.lost || self.is_lost(ending))
            && (!asked.twice || self.may_arrive_twice())
    }

    /// The queue that it joined first is the one that it first moved from.
    fn stood_on(&self, link: u8) -> bool {
        let here = Place::On(link);
        self.place == here || self.moves.iter().any(|a_move| a_move.from == here)
    }

    fn is_lost(&self, ending: &Ending) -> bool {
        match ending {
            Ending::Dropped(_) => true,
            Ending::Held => self.sent.is_some(),
            Ending::Acknowledged | Ending::Retired(_) => false,
        }
    }

    /// By any of its moves, told or not.
    fn may_arrive_twice(&self) -> bool {
        self.moves.iter().any(|a_move| a_move.twice_as.is_some())
    }

    /// The line of a trace; the ending came with a line of the record.
    pub fn text(&self, ending: &Ending, at: usize) -> String {
        let label = Label::read(&self.message.octets);
        let mut parts = self.moves_text();
        parts.push(self.ending_text(ending, at));
        format!(
            "{}\t{}\t{}\t{}\t{}\t{}\t{}\n",
            self.message.arrival,
            self.line,
            label.opc,
            label.dpc,
            label.sls,
            naming::what_it_is(&self.message),
            parts.join("; ")
        )
    }

    fn moves_text(&self) -> Vec<String> {
        let untold = self.moves.len().saturating_sub(MOVES_TOLD);
        let mut parts = Vec::new();
        if untold > 0 {
            parts.push(format!("moved {untold} times before"));
        }
        parts.extend(self.moves[untold..].iter().map(Move::text));
        parts
    }

    fn ending_text(&self, ending: &Ending, at: usize) -> String {
        let place = self.place;
        match (ending, self.sent) {
            (Ending::Dropped(reason), _) => format!("dropped at {at}: {}", words::of_reason(*reason)),
            (Ending::Acknowledged, Some(Sent { fsn, .. })) => format!("acknowledged on {place} as {fsn} at {at}"),
            (Ending::Retired(by), Some(Sent { fsn, .. })) => format!("retired on {place} as {fsn} by {by} at {at}"),
            (Ending::Held, Some(Sent { fsn, line })) => format!("sent on {place} as {fsn} at {line}, not acknowledged"),
            (Ending::Held, None) if place == Place::Apart => "held apart".to_string(),
            (Ending::Held, None) => format!("held on {place}"),
            (Ending::Acknowledged | Ending::Retired(_), None) => {
                panic!("{} was never sent and yet taken", self.message.arrival)
            }
        }
    }
}

#[cfg(test)]
mod tests {
    use super::*;
    use crate::wire::compose;

    /// Moves to and fro between links 0 and 1, from line 11 on.
    fn moved(times: usize) -> String {
        let octets = compose(2, 3, Label { dpc: 9, opc: 2, sls: 4 }, &[]);
        let message = Message { arrival: 7, management: false, octets: octets.into() };
        let mut story = Story::new(message, 5, Place::On(0));
        for turn in 0..times {
            let (from, to) = (Place::On(turn as u8 % 2), Place::On((turn as u8 + 1) % 2));
            story.shift(from, to, 11 + turn, false);
        }
        story.text(&Ending::Held, 99)
    }

    #[test]
    fn eight_moves_are_all_told() {
        let expected = "7\t5\t2\t9\t4\tsi 3\tmoved 0 to 1 at 11; moved 1 to 0 at 12; moved 0 to 1 at 13; \
            moved 1 to 0 at 14; moved 0 to 1 at 15; moved 1 to 0 at 16; moved 0 to 1 at 17; \
            moved 1 to 0 at 18; held on 0\n";
        assert_eq!(moved(8), expected);
    }

    #[test]
    fn of_ten_moves_two_are_counted() {
        let expected = "7\t5\t2\t9\t4\tsi 3\tmoved 2 times before; moved 0 to 1 at 13; moved 1 to 0 at 14; \
            moved 0 to 1 at 15; moved 1 to 0 at 16; moved 0 to 1 at 17; moved 1 to 0 at 18; moved 0 to 1 at 19; \
            moved 1 to 0 at 20; held on 0\n";
        assert_eq!(moved(10), expected);
    }
}
