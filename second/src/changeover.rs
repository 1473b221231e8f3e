//! Changeover: its start, the orders and answers, its ends, and moving.

use crate::point::{Effects, LinkState, Message, Reply, Report, TransferPoint};
use crate::wire::{self, Label, Management};

/// Reasons of a drop. A third was once that of a number not in range; its number isn't used again.
pub const NO_ROUTE: u8 = 1;
pub const NO_NUMBER: u8 = 2;

/// What the end of a changeover says of the messages sent and not acknowledged.
#[derive(Clone, Copy, PartialEq, Eq, Debug)]
pub(crate) enum Ending {
    /// COO or COA: those up to the number were taken, if it is in range.
    Number(u8),
    /// ECO or ECA: the far end has no number to give.
    NoNumber,
    /// T1 or T2 ran out, or the link was still waiting: nothing was said at all.
    Silence,
}

enum Fate {
    Retired,
    Dropped(u8),
    Moved,
}

/// What becomes of the message at a place of the queue of a link that goes out. A message that may have been
/// taken moves all the same: one that arrives twice does less harm than one that never does.
fn fate(place: usize, sent: usize, last_acknowledged: u8, ending: Ending) -> Fate {
    if place >= sent {
        return Fate::Moved;
    }
    match ending {
        Ending::Silence => Fate::Moved,
        Ending::NoNumber => Fate::Dropped(NO_NUMBER),
        Ending::Number(f) => {
            let taken = wire::distance(last_acknowledged, f);
            let in_range = taken <= sent;
            if in_range && place < taken {
                Fate::Retired
            } else {
                Fate::Moved
            }
        }
    }
}

impl TransferPoint {
    /// An open link fails: COO and T2, or T1 with no path, place or number.
    pub(crate) fn start_changeover(&mut self, number: u8) {
        self.link_mut(number).state = LinkState::Changing;
        let (adjacent, slc) = (self.adjacent(number), self.link(number).slc);
        let fsn = self.link(number).last_received;
        if let Ok(Some(path)) = self.way(adjacent, slc, None) {
            self.queue_management(path, adjacent, slc, Management::Coo { fsn });
            self.link_mut(number).t2 = true;
        } else {
            self.link_mut(number).t1 = true;
        }
    }

    /// COO (with its number) or ECO about a link of ours.
    pub(crate) fn changeover_ordered(&mut self, number: u8, ending: Ending) -> Result<Effects, Reply> {
        let (adjacent, slc) = (self.adjacent(number), self.link(number).slc);
        let out = self.link(number).state == LinkState::Out;
        let answer = match ending {
            Ending::Number(_) if !out => Management::Coa { fsn: self.link(number).last_received },
            _ => Management::Eca,
        };
        if let Some(path) = self.way(adjacent, slc, Some(number))? {
            self.queue_management(path, adjacent, slc, answer);
        }
        let mut effects = Effects::default();
        if !out {
            self.go_out_and_move(number, ending, &mut effects);
        }
        Ok(effects)
    }

    /// COA or ECA: counts only while T2 runs.
    pub(crate) fn changeover_answered(&mut self, number: u8, ending: Ending) -> Result<Effects, Reply> {
        if !self.link(number).t2 {
            return Err(Reply::FitsNothing);
        }
        let mut effects = Effects::default();
        self.go_out_and_move(number, ending, &mut effects);
        Ok(effects)
    }

    pub(crate) fn t1_expires(&mut self, link: u64) -> Result<Effects, Reply> {
        let number = self.configured_link(link)?;
        if !self.link(number).t1 {
            return Err(Reply::WrongState);
        }
        let mut effects = Effects::default();
        self.go_out_and_move(number, Ending::Silence, &mut effects);
        Ok(effects)
    }

    pub(crate) fn t2_expires(&mut self, link: u64) -> Result<Effects, Reply> {
        let number = self.configured_link(link)?;
        if !self.link(number).t2 {
            return Err(Reply::WrongState);
        }
        let mut effects = Effects::default();
        self.go_out_and_move(number, Ending::Silence, &mut effects);
        Ok(effects)
    }

    /// The link goes out, its timers stop, then its queue is retired, dropped or moved.
    /// On a waiting link nothing is sent, so the ending makes no difference there.
    pub(crate) fn go_out_and_move(&mut self, number: u8, ending: Ending, effects: &mut Effects) {
        let before = self.access();
        let link = self.link_mut(number);
        link.state = LinkState::Out;
        link.stop_timers();
        let sent = std::mem::take(&mut link.sent);
        let last_acknowledged = link.last_acknowledged;
        let queue = std::mem::take(&mut link.queue);
        for (place, message) in queue.into_iter().enumerate() {
            match fate(place, sent, last_acknowledged, ending) {
                Fate::Retired => effects.retired.push(message.arrival),
                Fate::Dropped(reason) => report_drop(message.arrival, reason, effects),
                Fate::Moved => self.move_message(message, effects),
            }
        }
        self.report_access(&before, effects);
    }

    /// Queue a message anew with its arrival number; moved messages are never held apart.
    pub(crate) fn move_message(&mut self, message: Message, effects: &mut Effects) {
        let label = Label::read(&message.octets);
        let target = if message.management {
            self.management_path(label.dpc, label.sls, None)
        } else {
            self.current_link(label.dpc, label.sls)
        };
        match target {
            Some(link) => self.link_mut(link).queue.push(message),
            None => report_drop(message.arrival, NO_ROUTE, effects),
        }
    }
}

fn report_drop(arrival: u64, reason: u8, effects: &mut Effects) {
    effects.reports.push(Report::Drop { arrival, reason });
}
