//! Corners of a changeover's end: what becomes of messages sent and unsent, and which may arrive twice.

use std::collections::BTreeSet;

use crate::changeover::NO_ROUTE;
use crate::corners::{names, sent_across_the_wrap, Found};
use crate::endings::{may_arrive_twice, number_not_in_range, order, untold};
use crate::fates::{gone_out, Fate, Place};
use crate::point::{Call, Link, LinkState, Message, Report, WINDOW};
use crate::run::Step;
use crate::wire::{Label, Management};

/// What may have arrived already, over the calls of a run.
#[derive(Default)]
pub(crate) struct Doubts(BTreeSet<u64>);

impl Doubts {
    /// The corners of a call that took a link out of open or changing.
    pub(crate) fn of_ending(&mut self, step: &Step) -> Found {
        let gone = gone_out(step.before, step.after).map(|number| step.before.link(number));
        let Some(link) = gone.filter(|link| link.state != LinkState::Waiting) else { return Vec::new() };
        let ended = Ended::new(step, link);
        let mut found = ended.by_route();
        found.extend(ended.of_what_is_untold());
        for message in ended.twice() {
            found.extend(ended.of_twice(message));
            found.extend(names(&[(!self.0.insert(message.arrival), "may arrive twice: by a second move")]));
        }
        found
    }
}

/// A link's queue as it was, and what its changeover made of it.
struct Ended<'a> {
    step: &'a Step<'a>,
    link: &'a Link,
    twice: BTreeSet<u64>,
    moved: Vec<(u64, Place)>,
    without_route: BTreeSet<u64>,
}

impl<'a> Ended<'a> {
    fn new(step: &'a Step, link: &'a Link) -> Ended<'a> {
        let moved = step.fates.iter().filter_map(|fate| match fate {
            Fate::Moved { arrival, to, .. } => Some((*arrival, *to)),
            _ => None,
        });
        let without_route = step.outcome.effects.reports.iter().filter_map(|report| match report {
            Report::Drop { arrival, reason: NO_ROUTE } => Some(*arrival),
            _ => None,
        });
        let (moved, without_route) = (moved.collect(), without_route.collect());
        Ended { step, link, twice: may_arrive_twice(step), moved, without_route }
    }

    fn sent(&self) -> &'a [Message] {
        &self.link.queue[..self.link.sent]
    }

    fn unsent(&self) -> &'a [Message] {
        &self.link.queue[self.link.sent..]
    }

    fn moves(&self, message: &Message) -> bool {
        self.moved.iter().any(|(arrival, _)| *arrival == message.arrival)
    }

    fn has_no_route(&self, message: &Message) -> bool {
        self.without_route.contains(&message.arrival)
    }

    fn twice(&self) -> impl Iterator<Item = &'a Message> + '_ {
        self.sent().iter().filter(|message| self.twice.contains(&message.arrival))
    }

    /// Sent and unsent messages in one queue, with another route and without.
    fn by_route(&self) -> Found {
        let Some([with, without]) = self.corners_by_route() else { return Vec::new() };
        let dropped = matches!(order(self.step.call), Some(Management::Eco | Management::Eca));
        let both = |becomes: &dyn Fn(&Message) -> bool| {
            let sent = !self.sent().is_empty() && (dropped || self.sent().iter().any(becomes));
            sent && self.unsent().iter().any(becomes)
        };
        names(&[(both(&|message| self.moves(message)), with), (both(&|message| self.has_no_route(message)), without)])
    }

    fn corners_by_route(&self) -> Option<[&'static str; 2]> {
        let not_in_range = number_not_in_range(self.link, self.step.call);
        Some(match (self.step.call, order(self.step.call)) {
            (Call::T1(_), _) => ["T1: sent and unsent move", "T1: sent and unsent without a route"],
            (Call::T2(_), _) => ["T2: sent and unsent move", "T2: sent and unsent without a route"],
            (_, Some(Management::Coo { .. })) if not_in_range => {
                ["COO out of range: sent and unsent move", "COO out of range: sent and unsent without a route"]
            }
            (_, Some(Management::Coa { .. })) if not_in_range => {
                ["COA out of range: sent and unsent move", "COA out of range: sent and unsent without a route"]
            }
            (_, Some(Management::Eco)) => {
                ["ECO: sent dropped, unsent move", "ECO: sent dropped, unsent without a route"]
            }
            (_, Some(Management::Eca)) => {
                ["ECA: sent dropped, unsent move", "ECA: sent dropped, unsent without a route"]
            }
            _ => return None,
        })
    }

    fn of_what_is_untold(&self) -> Found {
        if !untold(self.link, self.step.call) {
            return Vec::new();
        }
        let lost = || self.sent().iter().filter(|message| self.has_no_route(message));
        let in_doubt = !self.twice.is_empty();
        let unsent_alone = self.sent().is_empty() && !self.unsent().is_empty();
        names(&[
            (unsent_alone && number_not_in_range(self.link, self.step.call), "out of range with nothing sent"),
            (in_doubt && lost().next().is_some(), "of those sent some move, some have no route"),
            (lost().any(|message| message.management), "sent management message without a path"),
            (self.twice.len() == WINDOW, "may arrive twice: a full window"),
            (in_doubt && sent_across_the_wrap(self.link), "may arrive twice: numbers wrap"),
        ])
    }

    fn of_twice(&self, message: &Message) -> Found {
        let to = self.moved.iter().find_map(|(arrival, to)| match to {
            Place::On(link) if *arrival == message.arrival => Some(self.step.after.link(*link)),
            _ => None,
        });
        let to = to.expect("what may arrive twice moved to a link");
        let dpc = Label::read(&message.octets).dpc;
        let t6 = self.step.after.destinations.get(&dpc).is_some_and(|destination| destination.t6);
        let answer = to.queue.iter().any(|other| other.arrival >= self.step.before.next_arrival);
        names(&[
            (message.management, "may arrive twice: management message"),
            (answer, "may arrive twice: behind the answer"),
            (to.state == LinkState::Waiting, "may arrive twice: to a waiting link"),
            (to.state == LinkState::Changing, "may arrive twice: to a changing link"),
            (t6 && !message.management, "may arrive twice: under T6"),
        ])
    }
}
