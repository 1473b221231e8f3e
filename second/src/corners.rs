//! Corners: situations of the paper that a doubtful program gets wrong first, counted over a run.

use std::collections::BTreeMap;

use crate::corners_of_endings::Doubts;
use crate::point::{Call, Link, LinkState, Message, Output, Reply};
use crate::point::{HIGHEST_FSN, MANAGEMENT_PLACES, USER_PLACES, WINDOW};
use crate::run::{self, Step};
use crate::wire::{self, Label, Management};

pub const CORNERS: [&str; 90] = [
    // Sequence numbers. To wrap is to pass from 127 to 0 with both among the numbers in question.
    "window full",
    "FSN wraps",
    "acknowledgement wraps",
    "changeover number in range, wraps",
    "changeover number out of range, wraps",
    // Stores.
    "user store full",
    "9 given with the user store full",
    "management store full",
    "8 in place of 9",
    "11 given with the management store full",
    // Messages in transit.
    "SI 0 passed on",
    "passed on to the set it came from",
    "TFP made",
    "TFP withheld by T8",
    "TFP without path",
    // Changeover: how it starts and what ends it, with messages sent and unacknowledged.
    "failure, T2",
    "failure, T1 for want of a path",
    "failure, T1 for want of a place",
    "number in range",
    "number out of range",
    "no number: ECO",
    "no number: ECA",
    "no number: T1",
    "no number: T2",
    // Orders and answers, by the state of the link named.
    "COO, open",
    "COO, waiting",
    "COO, out",
    "COO under T1",
    "COO under T2 (crossing)",
    "COO over the link itself",
    "ECO, open",
    "ECO, waiting",
    "ECO, out",
    "ECO under T1",
    "ECO under T2",
    "COA under T2",
    "ECA under T2",
    "order without a path for its answer",
    "order without a place for its answer",
    // Moving.
    "retired by number",
    "sent message moved",
    "management message moved",
    "moved behind the answer",
    "moved to a waiting link",
    "moved to a changing link",
    "moved under T6",
    // What becomes of sent and unsent messages of one queue, with another route and without.
    "T1: sent and unsent move",
    "T1: sent and unsent without a route",
    "T2: sent and unsent move",
    "T2: sent and unsent without a route",
    "COO out of range: sent and unsent move",
    "COO out of range: sent and unsent without a route",
    "COA out of range: sent and unsent move",
    "COA out of range: sent and unsent without a route",
    "ECO: sent dropped, unsent move",
    "ECO: sent dropped, unsent without a route",
    "ECA: sent dropped, unsent move",
    "ECA: sent dropped, unsent without a route",
    "out of range with nothing sent",
    // Messages that may arrive twice: sent on a link whose changeover told nothing.
    "of those sent some move, some have no route",
    "may arrive twice: a full window",
    "may arrive twice: numbers wrap",
    "may arrive twice: management message",
    "may arrive twice: behind the answer",
    "may arrive twice: to a waiting link",
    "may arrive twice: to a changing link",
    "may arrive twice: under T6",
    "may arrive twice: by a second move",
    "sent management message without a path",
    // Into service and changeback.
    "into service, open",
    "into service, T3",
    "into service, T4",
    "into service, M not open",
    "into service, no place",
    "CBA opens",
    "T3 opens",
    "T4 opens",
    "waiting link fails with a queue",
    "link fails while another waits",
    "M fails with its CBD unanswered",
    // Routes.
    "TFA starts T6",
    "held apart",
    "T6 runs, inaccessible",
    "T6 ends, inaccessible",
    "T6 moves",
    "T6 drops",
    "T6 ends with nothing held",
    "RST answered",
    "T10, no place",
    "T10, no path",
];

pub type Counts = BTreeMap<&'static str, usize>;

/// Counts of a run; a refused configuration or a line that can't be read ends it, as in a replay.
pub fn corners(configuration: &[u8], record: &[u8]) -> Counts {
    let mut counts: Counts = CORNERS.iter().map(|name| (*name, 0)).collect();
    let mut doubts = Doubts::default();
    run::every_call(configuration, record, u64::MAX, |step| {
        for name in step.corners().into_iter().chain(doubts.of_ending(step)) {
            *counts.get_mut(name).expect("a listed corner") += 1;
        }
    });
    counts
}

pub fn text(counts: &Counts) -> String {
    CORNERS.iter().map(|name| format!("{name}\t{}\n", counts[name])).collect()
}

pub(crate) type Found = Vec<&'static str>;

pub(crate) fn names(candidates: &[(bool, &'static str)]) -> Found {
    candidates.iter().filter(|(holds, _)| *holds).map(|(_, name)| *name).collect()
}

/// Whether 127 and 0 are both among the numbers of the sent messages.
pub(crate) fn sent_across_the_wrap(link: &Link) -> bool {
    link.last_acknowledged < 127 && link.last_acknowledged as usize + link.sent > 127
}

impl Step<'_> {
    fn corners(&self) -> Found {
        let mut found = if self.done() { self.of_done_calls() } else { Vec::new() };
        found.extend(self.of_stores());
        found.extend(self.of_changeover_ends());
        found.extend(self.of_moving());
        found.extend(self.of_destinations());
        if let Call::Received { link, octets, .. } = self.call {
            if octets.len() >= wire::SHORTEST && self.reached_the_message() {
                found.extend(self.of_message(*link as u8, octets));
            }
        }
        found
    }

    fn done(&self) -> bool {
        self.outcome.reply == Reply::Done
    }

    /// Whether the reply speaks of the message itself, not of the link or the numbers.
    fn reached_the_message(&self) -> bool {
        use Reply::*;
        !matches!(self.outcome.reply, OutOfRange | NotConfigured | WrongState | WrongNumber)
    }

    /// Whether a message was queued anew.
    fn made(&self) -> bool {
        self.after.next_arrival > self.before.next_arrival
    }

    fn of_done_calls(&self) -> Found {
        let opened = |link: u64| self.after.link(link as u8).state == LinkState::Open;
        match *self.call {
            Call::Send(link) => self.of_send(self.before.link(link as u8)),
            Call::Ack(link, number) => of_acknowledgement(self.before.link(link as u8), number),
            Call::Failure(link) => self.of_failure(link as u8),
            Call::Service(link) => self.of_service(link as u8),
            Call::T3(link) => names(&[(opened(link), "T3 opens")]),
            Call::T4(link) => names(&[(opened(link), "T4 opens")]),
            Call::T6(code) => self.of_t6(code as u16),
            Call::T10(..) => names(&[(!self.made(), "T10, no path")]),
            _ => Vec::new(),
        }
    }

    fn of_send(&self, link: &Link) -> Found {
        let zero = matches!(self.outcome.effects.output, Output::Leaves { fsn: 0, .. });
        names(&[(zero && link.sent > 0, "FSN wraps")])
    }

    fn of_failure(&self, number: u8) -> Found {
        let (was, is) = (self.before.link(number), self.after.link(number));
        let path = self.after.management_path(self.after.adjacent(number), is.slc, None).is_some();
        let others = || self.before.links.values().filter(|link| link.number != number);
        names(&[
            (is.t2, "failure, T2"),
            (is.t1 && !path, "failure, T1 for want of a path"),
            (is.t1 && path, "failure, T1 for want of a place"),
            (is.t1 && path, "management store full"),
            (was.state == LinkState::Waiting && !was.queue.is_empty(), "waiting link fails with a queue"),
            (others().any(|link| link.state == LinkState::Waiting), "link fails while another waits"),
            (others().any(|link| link.unanswered.contains(&number)), "M fails with its CBD unanswered"),
        ])
    }

    fn of_service(&self, number: u8) -> Found {
        let link = self.after.link(number);
        let m_open = |m: &u8| self.before.link(*m).state == LinkState::Open;
        names(&[
            (link.state == LinkState::Open, "into service, open"),
            (link.t3, "into service, T3"),
            (link.t4, "into service, T4"),
            (!link.unanswered.iter().all(m_open), "into service, M not open"),
        ])
    }

    fn of_t6(&self, code: u16) -> Found {
        let held = !self.before.destinations[&code].apart.is_empty();
        let drops = !self.outcome.effects.reports.is_empty();
        names(&[
            (!self.before.accessible(code), "T6 ends, inaccessible"),
            (held && !drops, "T6 moves"),
            (drops, "T6 drops"),
            (!held, "T6 ends with nothing held"),
        ])
    }

    /// Refusals for want of room, and refusals that come before them.
    fn of_stores(&self) -> Found {
        let reply = self.outcome.reply;
        let no_place = reply == Reply::ManagementStoreFull;
        let user_full = self.before.user_held() == USER_PLACES;
        let management_full = self.before.management_held() == MANAGEMENT_PLACES;
        let window = |link: u64| {
            let link = self.before.link(link as u8);
            link.state == LinkState::Open && link.sent == WINDOW && link.queue.len() > WINDOW
        };
        let window = matches!(self.call, Call::Send(link) if reply == Reply::WrongState && window(*link));
        names(&[
            (window, "window full"),
            (reply == Reply::UserStoreFull, "user store full"),
            (reply == Reply::Unreachable && user_full, "9 given with the user store full"),
            (no_place, "management store full"),
            (reply == Reply::FitsNothing && management_full, "11 given with the management store full"),
            (no_place && matches!(self.call, Call::Service(_)), "into service, no place"),
            (no_place && matches!(self.call, Call::T10(..)), "T10, no place"),
        ])
    }

    fn of_destinations(&self) -> Found {
        let mut found = Vec::new();
        for destination in self.after.destinations.values() {
            let earlier = &self.before.destinations[&destination.code];
            found.extend(names(&[
                (destination.t6 && !self.after.accessible(destination.code), "T6 runs, inaccessible"),
                (destination.t6 && !earlier.t6, "TFA starts T6"),
                (destination.apart.len() > earlier.apart.len(), "held apart"),
            ]));
        }
        found
    }

    /// The link that went out of open or changing, with sent messages to be judged by a number or none.
    fn of_changeover_ends(&self) -> Found {
        let ended = |link: &&Link| {
            let changed = matches!(link.state, LinkState::Open | LinkState::Changing);
            changed && link.sent > 0 && !self.after.link(link.number).carrying()
        };
        let Some(link) = self.before.links.values().find(ended) else { return Vec::new() };
        let order = match self.call {
            Call::Received { octets, .. } => Management::read(&octets[wire::SHORTEST..]),
            Call::T1(_) => return vec!["no number: T1"],
            _ => return vec!["no number: T2"],
        };
        let f = match order {
            Some(Management::Coo { fsn } | Management::Coa { fsn }) => fsn,
            Some(Management::Eco) => return vec!["no number: ECO"],
            _ => return vec!["no number: ECA"],
        };
        let (fits, wraps) = (link.in_range(f), sent_across_the_wrap(link));
        names(&[
            (fits, "number in range"),
            (fits && wraps, "changeover number in range, wraps"),
            (!fits, "number out of range"),
            (!fits && wraps, "changeover number out of range, wraps"),
        ])
    }

    fn of_moving(&self) -> Found {
        let mut found = names(&[(!self.outcome.effects.retired.is_empty(), "retired by number")]);
        for link in self.after.links.values() {
            let earlier = &self.before.link(link.number).queue;
            for message in &link.queue {
                let old = message.arrival < self.before.next_arrival;
                if old && !earlier.contains(message) {
                    found.extend(self.of_moved(link, message));
                }
            }
        }
        found
    }

    fn of_moved(&self, to: &Link, message: &Message) -> Found {
        let dpc = Label::read(&message.octets).dpc;
        let from = self.before.links.values().find(|from| from.queue.contains(message));
        let sent = from.is_some_and(|from| from.queue[..from.sent].contains(message));
        let under_t6 = self.after.destinations.get(&dpc).is_some_and(|destination| destination.t6);
        let answer = to.queue.iter().any(|other| other.arrival >= self.before.next_arrival);
        names(&[
            (sent, "sent message moved"),
            (message.management, "management message moved"),
            (answer, "moved behind the answer"),
            (to.state == LinkState::Waiting, "moved to a waiting link"),
            (to.state == LinkState::Changing, "moved to a changing link"),
            (under_t6 && !message.management, "moved under T6"),
        ])
    }

    fn of_message(&self, over: u8, octets: &[u8]) -> Found {
        let label = Label::read(octets);
        if label.dpc != self.before.code {
            let mut found = self.of_unreachable(label);
            found.extend(self.of_passing(over, octets));
            return found;
        }
        let order = Management::read(&octets[wire::SHORTEST..]);
        let order = order.filter(|_| wire::service_indicator(octets[0]) == 0);
        let (Some(order), Some(set)) = (order, self.before.set_to(label.opc)) else { return Vec::new() };
        let named = set.links.iter().find(|link| self.before.link(**link).slc == label.sls);
        match (order, named) {
            (Management::Rst { .. }, _) => names(&[(self.done() && self.made(), "RST answered")]),
            (order, Some(named)) => self.of_order(over, *named, order),
            _ => Vec::new(),
        }
    }

    fn of_unreachable(&self, label: Label) -> Found {
        let destination = self.before.destinations.get(&label.dpc);
        let unreachable = self.outcome.reply == Reply::Unreachable;
        let t8 = destination.is_some_and(|destination| destination.t8);
        names(&[
            (unreachable && self.made(), "TFP made"),
            (unreachable && t8, "TFP withheld by T8"),
            (unreachable && destination.is_some() && !t8 && !self.made(), "TFP without path"),
            (self.outcome.reply == Reply::ManagementStoreFull, "8 in place of 9"),
        ])
    }

    fn of_passing(&self, over: u8, octets: &[u8]) -> Found {
        let passed = self.done() && self.made();
        let label = Label::read(octets);
        let back = self.before.current_set(label.dpc) == Some(self.before.link(over).set);
        names(&[
            (passed && wire::service_indicator(octets[0]) == 0, "SI 0 passed on"),
            (passed && back, "passed on to the set it came from"),
        ])
    }

    fn of_order(&self, over: u8, named: u8, order: Management) -> Found {
        let ordered = matches!(order, Management::Coo { .. } | Management::Eco);
        let no_place = self.outcome.reply == Reply::ManagementStoreFull;
        if !self.done() {
            return names(&[(ordered && no_place, "order without a place for its answer")]);
        }
        let coo = matches!(order, Management::Coo { .. });
        let cba = matches!(order, Management::Cba { .. });
        let opened = self.after.link(named).state == LinkState::Open;
        let mut found = names(&[
            (ordered && !self.made(), "order without a path for its answer"),
            (coo && over == named, "COO over the link itself"),
            (cba && opened, "CBA opens"),
        ]);
        found.extend(by_state(order, self.before.link(named)));
        found
    }
}

fn of_acknowledgement(link: &Link, number: u64) -> Found {
    let wraps = (link.last_acknowledged as u64) < HIGHEST_FSN && number < link.last_acknowledged as u64;
    names(&[(wraps, "acknowledgement wraps")])
}

/// An order or answer by the state of the link that it names.
fn by_state(order: Management, link: &Link) -> Option<&'static str> {
    match (order, link.state) {
        (Management::Coo { .. }, LinkState::Open) => Some("COO, open"),
        (Management::Coo { .. }, LinkState::Waiting) => Some("COO, waiting"),
        (Management::Coo { .. }, LinkState::Out) => Some("COO, out"),
        (Management::Coo { .. }, LinkState::Changing) if link.t1 => Some("COO under T1"),
        (Management::Coo { .. }, LinkState::Changing) => Some("COO under T2 (crossing)"),
        (Management::Eco, LinkState::Open) => Some("ECO, open"),
        (Management::Eco, LinkState::Waiting) => Some("ECO, waiting"),
        (Management::Eco, LinkState::Out) => Some("ECO, out"),
        (Management::Eco, LinkState::Changing) if link.t1 => Some("ECO under T1"),
        (Management::Eco, LinkState::Changing) => Some("ECO under T2"),
        (Management::Coa { .. }, _) => Some("COA under T2"),
        (Management::Eca, _) => Some("ECA under T2"),
        _ => None,
    }
}
