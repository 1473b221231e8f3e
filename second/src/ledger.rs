//! Bookkeeping beside the model: where every arrival number is, what is on the wire,
//! whether the fates told agree with both, and what a call may have changed.

use std::collections::{BTreeMap, BTreeSet};
use std::rc::Rc;

use crate::places::Places;
use crate::point::{Call, Link, LinkState, Message, Outcome, Output, Reply, Report, TransferPoint};
use crate::point::{MANAGEMENT_PLACES, USER_PLACES, WINDOW};
use crate::promises::{check_ending, check_routes};
use crate::run::Made;
use crate::wire::{self, Label};

#[derive(Default)]
pub struct Ledger {
    places: Places,
    /// Octets of each held number as they were when it was given.
    octets: BTreeMap<u64, Rc<[u8]>>,
    /// Of each link, the FSN and arrival number of what left and is still in its queue.
    on_the_wire: BTreeMap<u8, Vec<(u8, u64)>>,
}

pub(crate) type Check = Result<(), String>;

pub(crate) fn demand(holds: bool, fault: impl FnOnce() -> String) -> Check {
    if holds {
        Ok(())
    } else {
        Err(fault())
    }
}

impl Ledger {
    pub fn enter(&mut self, call: &Call, made: &Made, after: &TransferPoint) -> Check {
        let Made { before, outcome, fates } = made;
        self.places.enter(fates, &outcome.effects.reports)?;
        self.places.check(after)?;
        self.enter_sent(before, call, outcome)?;
        self.check_octets(after)?;
        self.check_wire(after)?;
        check_refusal(before, call, outcome, after)?;
        check_standing(before, after)?;
        check_stores(after)?;
        check_timers(after)?;
        check_ending(made, call, after)?;
        check_routes(made, after)?;
        check_lemmas(before, outcome, after)
    }

    /// Of `send`: the message that leaves must be the first unsent one.
    fn enter_sent(&mut self, before: &TransferPoint, call: &Call, outcome: &Outcome) -> Check {
        let (Call::Send(link), Output::Leaves { fsn, octets }) = (call, &outcome.effects.output) else {
            return Ok(());
        };
        let link = before.link(*link as u8);
        let message = &link.queue[link.sent];
        demand(*message.octets == **octets, || format!("other octets left than those of {}", message.arrival))?;
        self.on_the_wire.entry(link.number).or_default().push((*fsn, message.arrival));
        Ok(())
    }

    /// A held message keeps its octets wherever it goes; those of one that has gone are forgotten.
    fn check_octets(&mut self, after: &TransferPoint) -> Check {
        let mut held = BTreeMap::new();
        for Message { arrival, octets, .. } in after.held() {
            let given = self.octets.get(arrival).unwrap_or(octets);
            demand(given == octets, || format!("{arrival} has changed its octets"))?;
            held.insert(*arrival, octets.clone());
        }
        self.octets = held;
        Ok(())
    }

    /// The sent part of each queue is what left, in order, with numbers counted on.
    fn check_wire(&mut self, after: &TransferPoint) -> Check {
        for link in after.links.values() {
            let wire = self.on_the_wire.entry(link.number).or_default();
            let numbered = numbered(link);
            if *wire != numbered {
                let queued: BTreeSet<u64> = link.queue.iter().map(|message| message.arrival).collect();
                wire.retain(|(_, arrival)| queued.contains(arrival));
            }
            demand(*wire == numbered, || {
                format!("link {} has {:?} on the wire, its queue says {:?}", link.number, wire, numbered)
            })?;
        }
        Ok(())
    }
}

/// The sent messages of a link with the numbers they must have left with.
fn numbered(link: &Link) -> Vec<(u8, u64)> {
    let sent = link.queue.iter().take(link.sent).enumerate();
    sent.map(|(place, message)| (wire::step_on(link.last_acknowledged, place + 1), message.arrival)).collect()
}

/// A refused call changes nothing; a taken one its link's number, and for 9 the TFP and T8.
fn check_refusal(before: &TransferPoint, call: &Call, outcome: &Outcome, after: &TransferPoint) -> Check {
    if outcome.reply == Reply::Done {
        return Ok(());
    }
    let mut expected = before.clone();
    let mut found = after.clone();
    if let Call::Received { link, fsn, octets } = call {
        if taken(outcome.reply) {
            expected.link_mut(*link as u8).last_received = *fsn as u8;
        }
        if outcome.reply == Reply::Unreachable && after.next_arrival > before.next_arrival {
            take_back_tfp(&mut found, before.next_arrival, Label::read(octets).dpc);
        }
    }
    demand(expected == found, || format!("reply {} changed the state", outcome.reply as u8))
}

fn taken(reply: Reply) -> bool {
    matches!(reply, Reply::Malformed | Reply::ForeignNetwork | Reply::Unreachable | Reply::FitsNothing)
}

/// Undo a TFP and the T8 started with it, which mustn't have run before.
fn take_back_tfp(point: &mut TransferPoint, arrival: u64, destination: u16) {
    for link in point.links.values_mut() {
        link.queue.retain(|message| message.arrival != arrival);
    }
    point.next_arrival = arrival;
    let destination = point.destination_mut(destination);
    destination.t8 = !destination.t8;
}

/// What stays on a link stands at the beginning and in its old order.
fn check_standing(before: &TransferPoint, after: &TransferPoint) -> Check {
    for link in after.links.values() {
        let earlier = before.link(link.number);
        if link.queue == earlier.queue {
            continue;
        }
        let now: BTreeSet<u64> = link.queue.iter().map(|message| message.arrival).collect();
        let stayed: Vec<&Message> = earlier.queue.iter().filter(|m| now.contains(&m.arrival)).collect();
        let beginning: Vec<&Message> = link.queue.iter().take(stayed.len()).collect();
        demand(stayed == beginning, || format!("the queue of link {} was put in another order", link.number))?;
    }
    Ok(())
}

fn check_stores(after: &TransferPoint) -> Check {
    demand(after.user_held() <= USER_PLACES, || "too many user messages".to_string())?;
    demand(after.management_held() <= MANAGEMENT_PLACES, || "too many management messages".to_string())?;
    for link in after.links.values() {
        let sends = matches!(link.state, LinkState::Open | LinkState::Changing);
        let most = if sends { link.queue.len().min(WINDOW) } else { 0 };
        demand(link.sent <= most, || format!("link {} has a wrong sent count", link.number))?;
        let empty = link.carrying() || link.queue.is_empty();
        demand(empty, || format!("link {} is out with a queue", link.number))?;
    }
    Ok(())
}

/// Which timers can run in which state, and at most one CBD for a waiting link.
fn check_timers(after: &TransferPoint) -> Check {
    for link in after.links.values() {
        let running = (link.t1 as u8 + link.t2 as u8, link.t3 as u8 + link.t4 as u8);
        let expected = match link.state {
            LinkState::Changing => (1, 0),
            LinkState::Waiting => (0, 1),
            LinkState::Open | LinkState::Out => (0, 0),
        };
        demand(running == expected, || format!("wrong timers run for link {}", link.number))?;
        let codes = link.unanswered.len();
        demand(codes == link.t4 as usize, || format!("link {} has {codes} unanswered CBDs", link.number))?;
    }
    for destination in after.destinations.values() {
        let apart = destination.t6 || destination.apart.is_empty();
        demand(apart, || format!("held apart for {} without T6", destination.code))?;
        let marks = destination.routes.iter().all(|route| route.t10 == route.prohibited);
        demand(marks, || format!("T10 and mark differ for {}", destination.code))?;
    }
    Ok(())
}

/// At most one new message in a call, and never both pause and resume.
/// And in the paper's words: a link's loss moves only the pairs that were on it.
fn check_lemmas(before: &TransferPoint, outcome: &Outcome, after: &TransferPoint) -> Check {
    demand(after.next_arrival <= before.next_arrival + 1, || "more than one new message".to_string())?;
    let reports = &outcome.effects.reports;
    let paused = reports.iter().any(|report| matches!(report, Report::Pause(_)));
    let resumed = reports.iter().any(|report| matches!(report, Report::Resume(_)));
    demand(!(paused && resumed), || "pause and resume in one call".to_string())?;
    let lost = |link: &&Link| !link.carrying() && before.link(link.number).carrying();
    match after.links.values().find(lost) {
        Some(link) => check_pairs(before, link.number, after),
        None => Ok(()),
    }
}

fn check_pairs(before: &TransferPoint, lost: u8, after: &TransferPoint) -> Check {
    for code in before.destinations.keys() {
        for sls in 0..16 {
            let (was, is) = (before.current_link(*code, sls), after.current_link(*code, sls));
            demand(was == Some(lost) || was == is, || format!("the pair {code}, {sls} moved with link {lost}"))?;
        }
    }
    Ok(())
}
