//! Where each arrival number stands by the fates and drops alone: the ledger holds it
//! against the queues, so what a run says of its messages is what its point did.

use std::collections::BTreeMap;

use crate::fates::{Fate, Place};
use crate::ledger::{demand, Check};
use crate::point::{Link, Message, Report, TransferPoint};

#[derive(Clone, Copy, PartialEq, Eq, Debug)]
enum End {
    Acknowledged,
    Retired,
    Dropped,
}

/// The place that messages leave in a call, and how far into its list the moves have come.
#[derive(Clone, Copy)]
struct Left {
    place: Place,
    reached: usize,
}

/// A number given is in one of the lists or has an end, since it enters each only by leaving another.
#[derive(Default)]
pub struct Places {
    given: u64,
    /// Of each place, its numbers in the order in which they joined it.
    lists: BTreeMap<Place, Vec<u64>>,
    /// Of each link, how many of its list have left and are not known to be taken.
    sent: BTreeMap<u8, usize>,
    ends: BTreeMap<u64, End>,
}

impl Places {
    /// Fates in the order in which they are written, then the drops behind them.
    pub fn enter(&mut self, fates: &[Fate], reports: &[Report]) -> Check {
        let mut left = None;
        for fate in fates {
            match *fate {
                Fate::Queued { arrival, place, .. } => self.queue(arrival, place)?,
                Fate::Sent { arrival, link, .. } => self.send(arrival, link)?,
                Fate::Acknowledged { arrival, link } => self.take(arrival, link, End::Acknowledged)?,
                Fate::Retired { arrival, link } => self.take(arrival, link, End::Retired)?,
                Fate::Moved { arrival, from, to } => left = Some(self.shift(arrival, from, to, left)?),
            }
        }
        for report in reports {
            if let Report::Drop { arrival, .. } = report {
                self.drop_number(*arrival)?;
            }
        }
        Ok(())
    }

    fn list(&mut self, place: Place) -> &mut Vec<u64> {
        self.lists.entry(place).or_default()
    }

    /// Numbers are given in order, none is left out.
    fn queue(&mut self, arrival: u64, place: Place) -> Check {
        demand(arrival == self.given, || format!("{arrival} was queued where {} was next", self.given))?;
        self.given += 1;
        self.list(place).push(arrival);
        Ok(())
    }

    fn send(&mut self, arrival: u64, link: u8) -> Check {
        let sent = self.sent.entry(link).or_default();
        let first_unsent = self.lists.get(&Place::On(link)).and_then(|list| list.get(*sent));
        demand(first_unsent == Some(&arrival), || format!("{arrival} was sent, not the first unsent on {link}"))?;
        *sent += 1;
        Ok(())
    }

    /// The far end has it: only what was sent, and from the front of the queue.
    fn take(&mut self, arrival: u64, link: u8, end: End) -> Check {
        let sent = self.sent.entry(link).or_default();
        let list = self.lists.entry(Place::On(link)).or_default();
        let first = *sent > 0 && list.first() == Some(&arrival);
        demand(first, || format!("{arrival} has {end:?} but wasn't the first sent on link {link}"))?;
        *sent -= 1;
        list.remove(0);
        self.end(arrival, end)
    }

    /// What moves in one call leaves one place, and in the order of its queue.
    fn shift(&mut self, arrival: u64, from: Place, to: Place, earlier: Option<Left>) -> Result<Left, String> {
        let Left { place, reached } = earlier.unwrap_or(Left { place: from, reached: 0 });
        demand(place == from, || format!("{arrival} moved from {from} and others from {place}"))?;
        demand(from != to && to != Place::Apart, || format!("{arrival} moved from {from} to {to}"))?;
        let at = self.list(from).iter().position(|number| *number == arrival);
        let at = at.ok_or_else(|| format!("{arrival} moved from {from} but wasn't there"))?;
        demand(at >= reached, || format!("{arrival} moved out of its order"))?;
        self.list(from).remove(at);
        self.list(to).push(arrival);
        Ok(Left { place: from, reached: at })
    }

    fn drop_number(&mut self, arrival: u64) -> Check {
        let found = self.lists.values_mut().find_map(|list| {
            let at = list.iter().position(|number| *number == arrival)?;
            Some(list.remove(at))
        });
        demand(found.is_some(), || format!("{arrival} was dropped but wasn't held"))?;
        self.end(arrival, End::Dropped)
    }

    fn end(&mut self, arrival: u64, end: End) -> Check {
        let earlier = self.ends.insert(arrival, end);
        demand(earlier.is_none(), || format!("{arrival} has {end:?} after {earlier:?}"))
    }

    /// The state says the same: as many numbers given, in the same places and the same order.
    pub fn check(&mut self, after: &TransferPoint) -> Check {
        let (given, next) = (self.given, after.next_arrival);
        demand(given == next, || format!("{given} numbers have a fate but {next} were given"))?;
        for link in after.links.values() {
            self.check_list(Place::On(link.number), arrivals(&link.queue))?;
            self.check_sent(link)?;
        }
        // Each destination has its own in order of arrival, and so have all together here.
        let mut apart: Vec<u64> = after.destinations.values().flat_map(|held| arrivals(&held.apart)).collect();
        apart.sort_unstable();
        self.check_list(Place::Apart, apart)?;
        let placed = after.held().count() + self.ends.len();
        demand(placed as u64 == given, || format!("{placed} numbers have a place but {given} were given"))
    }

    fn check_list(&mut self, place: Place, held: Vec<u64>) -> Check {
        let list = self.list(place);
        demand(*list == held, || format!("at {place} are {held:?}, and by the fates {list:?}"))
    }

    /// A link that went out has nothing sent, whatever became of it.
    fn check_sent(&mut self, link: &Link) -> Check {
        let sent = self.sent.entry(link.number).or_default();
        if !link.carrying() {
            *sent = 0;
        }
        demand(*sent == link.sent, || format!("link {} has sent {}, by the fates {sent}", link.number, link.sent))
    }
}

fn arrivals(messages: &[Message]) -> Vec<u64> {
    messages.iter().map(|message| message.arrival).collect()
}

#[cfg(test)]
mod tests {
    use super::*;

    const ON_0: Place = Place::On(0);

    fn queued(arrival: u64) -> Fate {
        Fate::Queued { arrival, place: ON_0, name: None }
    }

    fn sent(arrival: u64) -> Fate {
        Fate::Sent { arrival, link: 0, fsn: 0 }
    }

    fn moved(arrival: u64) -> Fate {
        between(arrival, ON_0, Place::On(1))
    }

    fn between(arrival: u64, from: Place, to: Place) -> Fate {
        Fate::Moved { arrival, from, to }
    }

    fn acknowledged(arrival: u64) -> Fate {
        Fate::Acknowledged { arrival, link: 0 }
    }

    /// Three messages on link 0, the first sent.
    fn three() -> Places {
        let mut places = Places::default();
        places.enter(&[queued(0), queued(1), queued(2), sent(0)], &[]).unwrap();
        places
    }

    fn refused(fates: &[Fate], reports: &[Report]) -> bool {
        three().enter(fates, reports).is_err()
    }

    #[test]
    fn fates_that_fit() {
        assert!(!refused(&[acknowledged(0), queued(3), moved(1), moved(2)], &[]));
        assert!(!refused(&[moved(0), moved(2)], &[Report::Drop { arrival: 1, reason: 1 }]));
    }

    #[test]
    fn fates_that_cannot_be() {
        let drop = |arrival| Report::Drop { arrival, reason: 1 };
        for fates in [
            &[queued(4)][..],
            &[sent(2)],
            &[acknowledged(1)],
            &[acknowledged(0), acknowledged(1)],
            &[moved(2), moved(1)],
            &[moved(1), moved(1)],
            &[moved(3)],
            &[between(1, ON_0, ON_0)],
            &[between(1, ON_0, Place::Apart)],
            &[moved(1), between(1, Place::On(1), ON_0)],
        ] {
            assert!(refused(fates, &[]), "{fates:?}");
        }
        assert!(refused(&[acknowledged(0)], &[drop(0)]));
        assert!(refused(&[], &[drop(1), drop(1)]));
        assert!(refused(&[], &[drop(3)]));
    }
}
