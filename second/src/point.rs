//! The transfer point: its tables, its stores, and the rule that gives a link.

use std::collections::BTreeMap;
use std::rc::Rc;

use crate::wire::{self, Label, Management};

pub const USER_PLACES: usize = 192;
pub const MANAGEMENT_PLACES: usize = 64;
/// Arrival numbers run from 0 to one less than this.
pub const ARRIVAL_NUMBERS: u64 = 1 << 63;
pub const WINDOW: usize = 127;

pub const HIGHEST_LINK: u64 = 31;
pub const HIGHEST_SET: u64 = 7;
pub const HIGHEST_CODE: u64 = 16_383;
pub const HIGHEST_FSN: u64 = 127;

#[derive(Clone, Copy, PartialEq, Eq, PartialOrd, Ord, Debug)]
pub enum Reply {
    Done = 0,
    OutOfRange = 1,
    NotConfigured = 2,
    Malformed = 3,
    ForeignNetwork = 4,
    WrongState = 5,
    WrongNumber = 6,
    UserStoreFull = 7,
    ManagementStoreFull = 8,
    Unreachable = 9,
    NumbersUsedUp = 10,
    FitsNothing = 11,
}

#[derive(Clone, Copy, PartialEq, Eq, Debug)]
pub enum LinkState {
    Out,
    Waiting,
    Open,
    Changing,
}

#[derive(Clone, PartialEq, Eq, Debug)]
pub struct Message {
    pub arrival: u64,
    /// Made by this point; all else, SI 0 in transit too, is a user message.
    pub management: bool,
    /// Shared, since the bookkeeping copies the whole point at every call.
    pub octets: Rc<[u8]>,
}

#[derive(Clone, PartialEq, Eq, Debug)]
pub struct Link {
    pub number: u8,
    pub set: u8,
    pub slc: u8,
    pub state: LinkState,
    pub t1: bool,
    pub t2: bool,
    pub t3: bool,
    pub t4: bool,
    /// Codes of the CBDs that wait for their CBA.
    pub unanswered: Vec<u8>,
    pub last_acknowledged: u8,
    pub last_received: u8,
    /// Sent and unacknowledged messages first, then the unsent ones.
    pub queue: Vec<Message>,
    pub sent: usize,
}

#[derive(Clone, PartialEq, Eq, Debug)]
pub struct LinkSet {
    pub number: u8,
    pub adjacent: u16,
    /// Link numbers in SLC order.
    pub links: Vec<u8>,
}

#[derive(Clone, PartialEq, Eq, Debug)]
pub struct Route {
    pub set: u8,
    pub rank: u8,
    pub prohibited: bool,
    pub t10: bool,
}

#[derive(Clone, PartialEq, Eq, Debug)]
pub struct Destination {
    pub code: u16,
    /// In order of rank.
    pub routes: Vec<Route>,
    pub t6: bool,
    pub t8: bool,
    /// User messages held apart while T6 runs.
    pub apart: Vec<Message>,
}

#[derive(Clone, PartialEq, Eq, Debug)]
pub struct TransferPoint {
    pub code: u16,
    pub ni: u8,
    pub sets: BTreeMap<u8, LinkSet>,
    pub links: BTreeMap<u8, Link>,
    pub destinations: BTreeMap<u16, Destination>,
    pub next_arrival: u64,
}

#[derive(Clone, Copy, PartialEq, Eq, Debug)]
pub enum Report {
    Drop { arrival: u64, reason: u8 },
    Pause(u16),
    Resume(u16),
}

#[derive(Clone, PartialEq, Eq, Debug, Default)]
pub enum Output {
    #[default]
    Nothing,
    Leaves {
        fsn: u8,
        octets: Vec<u8>,
    },
    Delivered(Vec<u8>),
    RouteList(Vec<String>),
}

/// What a call with reply 0 brings; the last two lists serve the fates and the bookkeeping only.
#[derive(Clone, PartialEq, Eq, Debug, Default)]
pub struct Effects {
    pub output: Output,
    pub reports: Vec<Report>,
    pub acknowledged: Vec<u64>,
    pub retired: Vec<u64>,
}

#[derive(Clone, PartialEq, Eq, Debug)]
pub struct Outcome {
    pub reply: Reply,
    pub effects: Effects,
}

#[derive(Clone, PartialEq, Eq, Debug)]
pub enum Call {
    Service(u64),
    Failure(u64),
    Send(u64),
    Ack(u64, u64),
    Received { link: u64, fsn: u64, octets: Vec<u8> },
    Host(Vec<u8>),
    T1(u64),
    T2(u64),
    T3(u64),
    T4(u64),
    T6(u64),
    T8(u64),
    T10(u64, u64),
    Routes,
}

impl Link {
    pub fn new(number: u8, set: u8, slc: u8) -> Link {
        Link {
            number,
            set,
            slc,
            state: LinkState::Out,
            t1: false,
            t2: false,
            t3: false,
            t4: false,
            unanswered: Vec::new(),
            last_acknowledged: 127,
            last_received: 127,
            queue: Vec::new(),
            sent: 0,
        }
    }

    pub fn carrying(&self) -> bool {
        self.state != LinkState::Out
    }

    /// The last acknowledged number, or that of a sent unacknowledged message.
    pub fn in_range(&self, number: u8) -> bool {
        wire::distance(self.last_acknowledged, number) <= self.sent
    }

    pub fn stop_timers(&mut self) {
        self.t1 = false;
        self.t2 = false;
        self.t3 = false;
        self.t4 = false;
        self.unanswered.clear();
    }
}

impl Destination {
    pub fn new(code: u16) -> Destination {
        Destination { code, routes: Vec::new(), t6: false, t8: false, apart: Vec::new() }
    }

    pub fn route_by(&self, set: u8) -> Option<&Route> {
        self.routes.iter().find(|route| route.set == set)
    }

    pub fn route_by_mut(&mut self, set: u8) -> Option<&mut Route> {
        self.routes.iter_mut().find(|route| route.set == set)
    }
}

pub fn in_range(argument: u64, highest: u64) -> Result<(), Reply> {
    if argument > highest {
        return Err(Reply::OutOfRange);
    }
    Ok(())
}

impl TransferPoint {
    pub fn new(code: u16, ni: u8) -> TransferPoint {
        TransferPoint {
            code,
            ni,
            sets: BTreeMap::new(),
            links: BTreeMap::new(),
            destinations: BTreeMap::new(),
            next_arrival: 0,
        }
    }

    pub fn call(&mut self, call: &Call) -> Outcome {
        match self.perform(call) {
            Ok(effects) => Outcome { reply: Reply::Done, effects },
            Err(reply) => Outcome { reply, effects: Effects::default() },
        }
    }

    fn perform(&mut self, call: &Call) -> Result<Effects, Reply> {
        match call {
            Call::Service(link) => self.link_into_service(*link),
            Call::Failure(link) => self.failure(*link),
            Call::Send(link) => self.send(*link),
            Call::Ack(link, number) => self.acknowledgement(*link, *number),
            Call::Received { link, fsn, octets } => self.received(*link, *fsn, octets),
            Call::Host(octets) => self.host_message(octets),
            Call::T1(link) => self.t1_expires(*link),
            Call::T2(link) => self.t2_expires(*link),
            Call::T3(link) => self.t3_expires(*link),
            Call::T4(link) => self.t4_expires(*link),
            Call::T6(destination) => self.t6_expires(*destination),
            Call::T8(destination) => self.t8_expires(*destination),
            Call::T10(destination, set) => self.t10_expires(*destination, *set),
            Call::Routes => Ok(self.route_list()),
        }
    }

    pub fn configured_link(&self, link: u64) -> Result<u8, Reply> {
        in_range(link, HIGHEST_LINK)?;
        let number = link as u8;
        if !self.links.contains_key(&number) {
            return Err(Reply::NotConfigured);
        }
        Ok(number)
    }

    pub fn link(&self, number: u8) -> &Link {
        &self.links[&number]
    }

    pub fn link_mut(&mut self, number: u8) -> &mut Link {
        self.links.get_mut(&number).expect("a configured link")
    }

    pub fn destination_mut(&mut self, code: u16) -> &mut Destination {
        self.destinations.get_mut(&code).expect("a configured destination")
    }

    /// The adjacent point at the far end of a link.
    pub fn adjacent(&self, link: u8) -> u16 {
        self.sets[&self.link(link).set].adjacent
    }

    pub fn set_to(&self, adjacent: u16) -> Option<&LinkSet> {
        self.sets.values().find(|set| set.adjacent == adjacent)
    }

    // Which link.

    /// From the normal link of the SLS going round to the first that will do.
    fn link_in_set(&self, set: u8, sls: u8, will_do: &dyn Fn(&Link) -> bool) -> Option<u8> {
        let links = &self.sets[&set].links;
        let m = links.len();
        (0..m).map(|step| links[(sls as usize + step) % m]).find(|number| will_do(self.link(*number)))
    }

    /// The link of the best unmarked route that has one that will do.
    pub fn link_by_rule(&self, dpc: u16, sls: u8, will_do: &dyn Fn(&Link) -> bool) -> Option<u8> {
        let destination = self.destinations.get(&dpc)?;
        destination
            .routes
            .iter()
            .filter(|route| !route.prohibited)
            .find_map(|route| self.link_in_set(route.set, sls, will_do))
    }

    pub fn current_link(&self, dpc: u16, sls: u8) -> Option<u8> {
        self.link_by_rule(dpc, sls, &Link::carrying)
    }

    pub fn current_set(&self, dpc: u16) -> Option<u8> {
        self.current_link(dpc, 0).map(|link| self.link(link).set)
    }

    pub fn accessible(&self, dpc: u16) -> bool {
        self.current_set(dpc).is_some()
    }

    /// The open link for a management message; the link to avoid counts as not open.
    pub fn management_path(&self, dpc: u16, slc: u8, avoid: Option<u8>) -> Option<u8> {
        let will_do = |link: &Link| link.state == LinkState::Open && Some(link.number) != avoid;
        self.link_by_rule(dpc, slc, &will_do)
    }

    // Places and arrival numbers.

    pub fn held(&self) -> impl Iterator<Item = &Message> {
        let queued = self.links.values().flat_map(|link| link.queue.iter());
        let apart = self.destinations.values().flat_map(|destination| destination.apart.iter());
        queued.chain(apart)
    }

    pub fn user_held(&self) -> usize {
        self.held().filter(|message| !message.management).count()
    }

    pub fn management_held(&self) -> usize {
        self.held().filter(|message| message.management).count()
    }

    fn numbers_for(&self, needed: usize) -> Result<(), Reply> {
        if needed as u64 > ARRIVAL_NUMBERS - self.next_arrival {
            return Err(Reply::NumbersUsedUp);
        }
        Ok(())
    }

    pub fn room_for_user(&self) -> Result<(), Reply> {
        if self.user_held() >= USER_PLACES {
            return Err(Reply::UserStoreFull);
        }
        self.numbers_for(1)
    }

    pub fn room_for_management(&self, needed: usize) -> Result<(), Reply> {
        if self.management_held() + needed > MANAGEMENT_PLACES {
            return Err(Reply::ManagementStoreFull);
        }
        self.numbers_for(needed)
    }

    /// The path of a message about to be made: none if there is no path, a refusal
    /// if there is one but no place or number.
    pub fn way(&self, dpc: u16, slc: u8, avoid: Option<u8>) -> Result<Option<u8>, Reply> {
        let path = self.management_path(dpc, slc, avoid);
        if path.is_some() {
            self.room_for_management(1)?;
        }
        Ok(path)
    }

    pub fn number_message(&mut self, management: bool, octets: Vec<u8>) -> Message {
        let arrival = self.next_arrival;
        self.next_arrival += 1;
        Message { arrival, management, octets: octets.into() }
    }

    pub fn queue_management(&mut self, path: u8, dpc: u16, slc: u8, order: Management) {
        let label = Label { dpc, opc: self.code, sls: slc };
        let octets = wire::compose(self.ni, 0, label, &order.write());
        let message = self.number_message(true, octets);
        self.link_mut(path).queue.push(message);
    }

    // Reports.

    pub fn access(&self) -> BTreeMap<u16, bool> {
        self.destinations.keys().map(|code| (*code, self.accessible(*code))).collect()
    }

    /// Pause or resume, by code, of each destination whose access changed.
    pub fn report_access(&self, before: &BTreeMap<u16, bool>, effects: &mut Effects) {
        for (code, now) in self.access() {
            match (before[&code], now) {
                (true, false) => effects.reports.push(Report::Pause(code)),
                (false, true) => effects.reports.push(Report::Resume(code)),
                _ => {}
            }
        }
    }

    fn route_list(&self) -> Effects {
        let header: Vec<String> = (0..16).map(|sls| sls.to_string()).collect();
        let mut lines = vec![format!("dest\t{}", header.join("\t"))];
        for code in self.destinations.keys() {
            let links: Vec<String> = (0..16).map(|sls| self.shown_link(*code, sls)).collect();
            lines.push(format!("{code}\t{}", links.join("\t")));
        }
        Effects { output: Output::RouteList(lines), ..Effects::default() }
    }

    fn shown_link(&self, code: u16, sls: u8) -> String {
        match self.current_link(code, sls) {
            Some(link) => link.to_string(),
            None => "-".to_string(),
        }
    }
}
