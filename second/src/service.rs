//! Events on a link told by level 2: into service, send, acknowledgement, failure,
//! and the ends of T3 and T4.

use std::collections::BTreeSet;

use crate::changeover::Ending;
use crate::point::{in_range, Effects, Link, LinkState, Output, Reply, TransferPoint};
use crate::point::{HIGHEST_FSN, HIGHEST_LINK, WINDOW};
use crate::wire::{self, Management};

impl TransferPoint {
    /// The links M that lose a pair (destination, SLS) to the returning link, in order
    /// of number: the order of several CBDs is not given, nor needed, since there is never more than one.
    fn links_giving_way(&self, returning: u8) -> BTreeSet<u8> {
        let with_it = |link: &Link| link.carrying() || link.number == returning;
        let mut giving = BTreeSet::new();
        for code in self.destinations.keys() {
            for sls in 0..16 {
                if self.link_by_rule(*code, sls, &with_it) == Some(returning) {
                    giving.extend(self.current_link(*code, sls));
                }
            }
        }
        giving
    }

    pub(crate) fn link_into_service(&mut self, link: u64) -> Result<Effects, Reply> {
        let number = self.configured_link(link)?;
        if self.link(number).state != LinkState::Out {
            return Err(Reply::WrongState);
        }
        let giving = self.links_giving_way(number);
        let own_set = self.link(number).set;
        let (inside, outside): (Vec<u8>, Vec<u8>) = giving.into_iter().partition(|m| self.link(*m).set == own_set);
        self.room_for_management(inside.len())?;

        let before = self.access();
        self.start_service(number, inside.clone(), !outside.is_empty());
        let (adjacent, slc) = (self.adjacent(number), self.link(number).slc);
        for m in inside {
            self.queue_management(m, adjacent, slc, Management::Cbd { code: m });
        }
        let mut effects = Effects::default();
        self.report_access(&before, &mut effects);
        Ok(effects)
    }

    fn start_service(&mut self, number: u8, codes: Vec<u8>, t3: bool) {
        let link = self.link_mut(number);
        link.last_acknowledged = 127;
        link.last_received = 127;
        link.state = LinkState::Waiting;
        link.t4 = !codes.is_empty();
        link.t3 = t3;
        link.unanswered = codes;
        self.open_if_answered(number);
    }

    /// A waiting link opens when no CBD is unanswered and T3 isn't running.
    fn open_if_answered(&mut self, number: u8) {
        let link = self.link_mut(number);
        if link.state == LinkState::Waiting && link.unanswered.is_empty() && !link.t3 {
            link.state = LinkState::Open;
        }
    }

    /// CBA for a waiting link counts only while the CBD with its code is unanswered.
    pub(crate) fn changeback_acknowledged(&mut self, number: u8, code: u8) -> Result<Effects, Reply> {
        let link = self.link_mut(number);
        let Some(place) = link.unanswered.iter().position(|waiting| *waiting == code) else {
            return Err(Reply::FitsNothing);
        };
        link.unanswered.remove(place);
        link.t4 = !link.unanswered.is_empty();
        self.open_if_answered(number);
        Ok(Effects::default())
    }

    pub(crate) fn t3_expires(&mut self, link: u64) -> Result<Effects, Reply> {
        let number = self.configured_link(link)?;
        if !self.link(number).t3 {
            return Err(Reply::WrongState);
        }
        self.link_mut(number).t3 = false;
        self.open_if_answered(number);
        Ok(Effects::default())
    }

    pub(crate) fn t4_expires(&mut self, link: u64) -> Result<Effects, Reply> {
        let number = self.configured_link(link)?;
        if !self.link(number).t4 {
            return Err(Reply::WrongState);
        }
        self.link_mut(number).t4 = false;
        self.link_mut(number).unanswered.clear();
        self.open_if_answered(number);
        Ok(Effects::default())
    }

    pub(crate) fn send(&mut self, link: u64) -> Result<Effects, Reply> {
        let number = self.configured_link(link)?;
        let link = self.link_mut(number);
        let none_unsent = link.sent == link.queue.len();
        if link.state != LinkState::Open || none_unsent || link.sent >= WINDOW {
            return Err(Reply::WrongState);
        }
        let octets = link.queue[link.sent].octets.to_vec();
        link.sent += 1;
        let fsn = wire::step_on(link.last_acknowledged, link.sent);
        Ok(Effects { output: Output::Leaves { fsn, octets }, ..Effects::default() })
    }

    pub(crate) fn acknowledgement(&mut self, link: u64, number: u64) -> Result<Effects, Reply> {
        in_range(link, HIGHEST_LINK)?;
        in_range(number, HIGHEST_FSN)?;
        let named = self.configured_link(link)?;
        let link = self.link_mut(named);
        if link.state != LinkState::Open {
            return Err(Reply::WrongState);
        }
        if !link.in_range(number as u8) {
            return Err(Reply::WrongNumber);
        }
        let count = wire::distance(link.last_acknowledged, number as u8);
        let acknowledged = link.queue.drain(..count).map(|message| message.arrival).collect();
        link.sent -= count;
        link.last_acknowledged = number as u8;
        Ok(Effects { acknowledged, ..Effects::default() })
    }

    pub(crate) fn failure(&mut self, link: u64) -> Result<Effects, Reply> {
        let number = self.configured_link(link)?;
        let mut effects = Effects::default();
        match self.link(number).state {
            LinkState::Open => self.start_changeover(number),
            LinkState::Waiting => self.go_out_and_move(number, Ending::Silence, &mut effects),
            LinkState::Out | LinkState::Changing => return Err(Reply::WrongState),
        }
        Ok(effects)
    }
}
