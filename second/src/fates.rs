//! What became of messages by a call, read off the states around it and what the call gave.

use std::collections::BTreeSet;
use std::fmt;

use crate::point::{Call, Message, Outcome, Output, TransferPoint};
use crate::wire::{self, Management};

/// Where a held message stands.
#[derive(Clone, Copy, PartialEq, Eq, PartialOrd, Ord, Debug)]
pub enum Place {
    On(u8),
    /// Held apart while T6 runs.
    Apart,
}

impl fmt::Display for Place {
    fn fmt(&self, text: &mut fmt::Formatter) -> fmt::Result {
        match self {
            Place::On(link) => write!(text, "{link}"),
            Place::Apart => text.write_str("apart"),
        }
    }
}

/// Drops are no fates of this kind: they are reported.
#[derive(Clone, Copy, PartialEq, Eq, Debug)]
pub enum Fate {
    /// With its name where this point made the message.
    Queued {
        arrival: u64,
        place: Place,
        name: Option<&'static str>,
    },
    Sent {
        arrival: u64,
        link: u8,
        fsn: u8,
    },
    Acknowledged {
        arrival: u64,
        link: u8,
    },
    Retired {
        arrival: u64,
        link: u8,
    },
    Moved {
        arrival: u64,
        from: Place,
        to: Place,
    },
}

/// In the order in which a call's fates are written.
pub const KINDS: [&str; 5] = ["queued", "sent", "acknowledged", "retired", "moved"];

impl Fate {
    pub fn kind(&self) -> &'static str {
        match self {
            Fate::Queued { .. } => KINDS[0],
            Fate::Sent { .. } => KINDS[1],
            Fate::Acknowledged { .. } => KINDS[2],
            Fate::Retired { .. } => KINDS[3],
            Fate::Moved { .. } => KINDS[4],
        }
    }
}

/// As a line of a run has it, behind the line's number.
impl fmt::Display for Fate {
    fn fmt(&self, text: &mut fmt::Formatter) -> fmt::Result {
        let kind = self.kind();
        match self {
            Fate::Queued { arrival, place, name: None } => write!(text, "{kind}\t{arrival}\t{place}"),
            Fate::Queued { arrival, place, name: Some(name) } => write!(text, "{kind}\t{arrival}\t{place}\t{name}"),
            Fate::Sent { arrival, link, fsn } => write!(text, "{kind}\t{arrival}\t{link}\t{fsn}"),
            Fate::Acknowledged { arrival, link } | Fate::Retired { arrival, link } => {
                write!(text, "{kind}\t{arrival}\t{link}")
            }
            Fate::Moved { arrival, from, to } => write!(text, "{kind}\t{arrival}\t{from}\t{to}"),
        }
    }
}

/// The name of a message that this point made.
pub fn own_name(message: &Message) -> Option<&'static str> {
    let order = Management::read(&message.octets[wire::SHORTEST..]);
    order.filter(|_| message.management).map(Management::name)
}

/// The fates of one call, in the order in which they are written.
pub fn of_call(before: &TransferPoint, call: &Call, outcome: &Outcome, after: &TransferPoint) -> Vec<Fate> {
    let mut fates = queued(before, after);
    fates.extend(sent(before, call, outcome));
    fates.extend(acknowledged(call, outcome));
    fates.extend(retired(before, outcome, after));
    fates.extend(moved(before, after));
    fates
}

/// Every held message with its place: links ascending, those apart last.
fn standing(point: &TransferPoint) -> impl Iterator<Item = (Place, &Message)> {
    let on_links = point.links.values().flat_map(|link| link.queue.iter().map(|m| (Place::On(link.number), m)));
    let apart = point.destinations.values().flat_map(|destination| destination.apart.iter());
    on_links.chain(apart.map(|message| (Place::Apart, message)))
}

/// A message is new if its number wasn't given before; a reply other than 0 may have made one too.
fn queued(before: &TransferPoint, after: &TransferPoint) -> Vec<Fate> {
    if after.next_arrival == before.next_arrival {
        return Vec::new();
    }
    let new = standing(after).filter(|(_, message)| message.arrival >= before.next_arrival);
    new.map(|(place, message)| Fate::Queued { arrival: message.arrival, place, name: own_name(message) }).collect()
}

fn sent(before: &TransferPoint, call: &Call, outcome: &Outcome) -> Option<Fate> {
    let (Call::Send(link), Output::Leaves { fsn, .. }) = (call, &outcome.effects.output) else { return None };
    let link = before.link(*link as u8);
    Some(Fate::Sent { arrival: link.queue[link.sent].arrival, link: link.number, fsn: *fsn })
}

fn acknowledged(call: &Call, outcome: &Outcome) -> Vec<Fate> {
    let Call::Ack(link, _) = call else { return Vec::new() };
    let arrivals = outcome.effects.acknowledged.iter();
    arrivals.map(|arrival| Fate::Acknowledged { arrival: *arrival, link: *link as u8 }).collect()
}

/// The link that a call took out: no call takes out more than one.
pub fn gone_out(before: &TransferPoint, after: &TransferPoint) -> Option<u8> {
    let mut links = before.links.values();
    links.find(|link| link.carrying() && !after.link(link.number).carrying()).map(|link| link.number)
}

fn retired(before: &TransferPoint, outcome: &Outcome, after: &TransferPoint) -> Vec<Fate> {
    let Some(link) = gone_out(before, after) else { return Vec::new() };
    outcome.effects.retired.iter().map(|arrival| Fate::Retired { arrival: *arrival, link }).collect()
}

/// What left a queue and stands elsewhere, in the order of the queue that it left.
fn moved(before: &TransferPoint, after: &TransferPoint) -> Vec<Fate> {
    let mut left: Vec<(Place, u64)> = Vec::new();
    for link in before.links.values() {
        left.extend(no_longer_in(&link.queue, &after.link(link.number).queue, Place::On(link.number)));
    }
    for destination in before.destinations.values() {
        left.extend(no_longer_in(&destination.apart, &after.destinations[&destination.code].apart, Place::Apart));
    }
    let elsewhere = |(from, arrival)| Some(Fate::Moved { arrival, from, to: place_of(arrival, after)? });
    left.into_iter().filter_map(elsewhere).collect()
}

fn no_longer_in(was: &[Message], is: &[Message], from: Place) -> Vec<(Place, u64)> {
    let nothing_left = was.len() <= is.len() && was.iter().zip(is).all(|(one, other)| one.arrival == other.arrival);
    if nothing_left {
        return Vec::new();
    }
    let still: BTreeSet<u64> = is.iter().map(|message| message.arrival).collect();
    was.iter().filter(|m| !still.contains(&m.arrival)).map(|m| (from, m.arrival)).collect()
}

fn place_of(arrival: u64, point: &TransferPoint) -> Option<Place> {
    standing(point).find(|(_, message)| message.arrival == arrival).map(|(place, _)| place)
}
