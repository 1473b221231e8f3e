//! Changeovers of a generated record: which link fails, and what ends its changeover.

use crate::corners::sent_across_the_wrap;
use crate::generate::{Maker, Mood};
use crate::point::{Call, Link, LinkState, TransferPoint, WINDOW};
use crate::wire::{self, Label, Management};

/// The pair of a user message sent on a link that would have no route without it.
fn pair_of_last_way(point: &TransferPoint, link: &Link) -> Option<(u16, u8)> {
    let others = |other: &Link| other.carrying() && other.number != link.number;
    let sent = link.queue[..link.sent].iter().filter(|message| !message.management);
    let mut pairs = sent.map(|message| Label::read(&message.octets)).map(|label| (label.dpc, label.sls));
    pairs.find(|(dpc, sls)| point.link_by_rule(*dpc, *sls, &others).is_none())
}

/// Whether the failure of a link would start T2: another open link leads to its far end.
fn answerable(point: &TransferPoint, link: &Link) -> bool {
    point.management_path(point.adjacent(link.number), link.slc, Some(link.number)).is_some()
}

fn sent_and_unsent(link: &Link) -> bool {
    link.sent > 0 && link.sent < link.queue.len()
}

impl Maker {
    /// One of some links: by preference one whose sent messages have no other way (under T2 rarest of all), or one with
    /// messages sent and unsent, since what a changeover's end makes of both is what matters.
    fn telling_link(&mut self, links: &[u8]) -> Option<u8> {
        let point = &self.run.point;
        let those = |fits: &dyn Fn(&Link) -> bool| -> Vec<u8> {
            links.iter().copied().filter(|link| fits(point.link(*link))).collect()
        };
        let preferred = [
            those(&|link| pair_of_last_way(point, link).is_some() && (link.t2 || answerable(point, link))),
            those(&|link| pair_of_last_way(point, link).is_some()),
            those(&sent_and_unsent),
            links.to_vec(),
        ];
        let first = self.random.below(preferred.len() + 1).saturating_sub(1);
        preferred[first..].iter().find_map(|links| self.random.pick(links))
    }

    /// A pair whose messages were sent on a link that has failed, and have no other way: unsent ones are to join them.
    pub(crate) fn pair_cut_off(&mut self) -> Option<(u16, u8)> {
        let point = &self.run.point;
        let changing = point.links.values().filter(|link| link.state == LinkState::Changing);
        let pairs: Vec<(u16, u8)> = changing.filter_map(|link| pair_of_last_way(point, link)).collect();
        self.random.pick(&pairs)
    }

    pub(crate) fn failure(&mut self) -> Option<Call> {
        if let Some(link) = self.link_in_focus() {
            return Some(Call::Failure(link as u64));
        }
        if self.mood == Mood::Passing {
            return None;
        }
        let state = if self.random.one_in(4) { LinkState::Waiting } else { LinkState::Open };
        let links = self.links_where(|link| link.state == state);
        if links.len() == 1 && !self.random.one_in(4) {
            return None;
        }
        self.telling_link(&links).map(|link| Call::Failure(link as u64))
    }

    /// A changeover number: true, one in range, just out of range, or any. About as many are in range as aren't, since
    /// both move sent messages; near the wrap more aren't.
    pub(crate) fn changeover_number(&mut self, link: u8) -> u8 {
        let (last, sent) = (self.run.point.link(link).last_acknowledged, self.run.point.link(link).sent);
        let least = if sent_across_the_wrap(self.run.point.link(link)) { 2 } else { 0 };
        match self.random.between(least, 9) {
            0..=3 => self.far_end_takes(link),
            4 => wire::step_on(last, self.random.between(0, sent)),
            5..=7 => wire::step_on(last, sent + 1),
            8 => wire::step_on(last, 127),
            _ => self.random.below(128) as u8,
        }
    }

    /// Each end comes up often. Across the wrap, which is rare, it is mostly a number; with a full window, where every
    /// number is in range, mostly a timer.
    pub(crate) fn changeover_end(&mut self) -> Option<Call> {
        let changing = self.links_where(|link| link.state == LinkState::Changing);
        let number = self.telling_link(&changing)?;
        let fsn = self.changeover_number(number);
        let link = self.run.point.link(number);
        let (t2, wraps, full) = (link.t2, sent_across_the_wrap(link), link.sent == WINDOW);
        let timer = if t2 { Call::T2(number as u64) } else { Call::T1(number as u64) };
        match self.random.below(12) {
            0 | 1 => Some(timer),
            2..=7 if full => Some(timer),
            2..=6 if t2 => self.about(number, Management::Coa { fsn }),
            _ if wraps => self.about(number, Management::Coo { fsn }),
            2..=4 | 7 => Some(timer),
            8 | 9 if t2 => self.about(number, Management::Eca),
            10 => self.about(number, Management::Eco),
            _ => self.about(number, Management::Coo { fsn }),
        }
    }

    /// The link filled before, so that changeovers meet full windows: always if its window is full in a storm or
    /// its numbers pass 127, else one time in three, but not while they are about to.
    fn link_in_focus(&mut self) -> Option<u8> {
        let link = self.focused_link()?;
        let passing = sent_across_the_wrap(self.run.point.link(link));
        let full = self.run.point.link(link).sent == WINDOW && self.mood == Mood::Storm;
        let meant = passing || full || self.mood != Mood::Passing && self.random.one_in(3);
        meant.then_some(link)
    }

    /// COO or ECO about a link that isn't changing here: open, waiting, or by then out.
    pub(crate) fn order(&mut self) -> Option<Call> {
        let focus = self.link_in_focus();
        let link = match self.random.below(5) {
            _ if focus.is_some() || self.mood == Mood::Passing => focus?,
            0 => self.link_where(|link| !link.carrying())?,
            1 => self.link_where(|link| link.state == LinkState::Waiting)?,
            _ => {
                let open = self.links_where(|link| link.state == LinkState::Open);
                self.telling_link(&open)?
            }
        };
        let fsn = self.changeover_number(link);
        let wraps = sent_across_the_wrap(self.run.point.link(link));
        let order = if !wraps && self.random.one_in(3) { Management::Eco } else { Management::Coo { fsn } };
        self.about(link, order)
    }
}
