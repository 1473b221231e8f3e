//! A random record made by running the model, so that most events fit their states.

use std::collections::BTreeMap;

use crate::arrangement::{random_configuration, spoil};
use crate::circuits::Circuits;
use crate::configuration;
use crate::point::{Call, Link, LinkState, Reply, USER_PLACES, WINDOW};
use crate::random::Random;
use crate::record;
use crate::run::Run;
use crate::wire::{self, Label, Management};

pub struct Generated {
    pub configuration: String,
    pub record: String,
}

/// In one seed of eight the last line can't be read, in one the tables are full,
/// and in one of sixteen the configuration is spoilt after the record was made for it.
pub fn generate(seed: u64, lines: usize) -> Generated {
    generate_drawing(seed, lines, None)
}

/// The calls that the seed gives otherwise, but for the octets of user messages: most have circuits.
pub fn generate_with_circuits(seed: u64, lines: usize) -> Generated {
    generate_drawing(seed, lines, Some(Circuits::new(seed)))
}

fn generate_drawing(seed: u64, lines: usize, circuits: Option<Circuits>) -> Generated {
    let mut random = Random::new(seed);
    let faultless = random_configuration(&mut random, seed % 8 == 2);
    let mut configuration = faultless.clone();
    if seed % 16 == 5 {
        spoil(&mut random, &mut configuration);
    }
    let point = configuration::read(faultless.as_bytes()).expect("a faultless configuration");
    let maker = Maker::new(random, Run::new(point), circuits);
    Generated { configuration, record: record_of(maker, seed, lines) }
}

fn record_of(mut maker: Maker, seed: u64, lines: usize) -> String {
    let readable = if seed % 8 == 7 { lines.saturating_sub(1) } else { lines };
    let mut record: String = (0..readable).map(|_| maker.next_line()).collect();
    if readable < lines {
        record += maker.unreadable_line();
    }
    record
}

/// Stretches of a record in which some events are more frequent.
#[derive(Clone, Copy, PartialEq, Eq, Debug)]
pub(crate) enum Mood {
    Ordinary,
    Recovery,
    /// User messages and no acknowledgements.
    Burst,
    /// Management messages and no acknowledgements.
    Jam,
    /// Links fail and change over.
    Storm,
    /// One pair's messages are sent and not acknowledged.
    Window,
    /// That pair's link goes on, with numbers that pass 127.
    Passing,
    Rerouting,
}

#[derive(Clone, Copy, PartialEq, Eq, Debug)]
enum Event {
    Host,
    Transit,
    ToUs,
    Send,
    Ack,
    Service,
    Failure,
    ChangeoverEnd,
    Order,
    WaitingEnd,
    Cbd,
    Tfp,
    Tfa,
    Rst,
    T6,
    T8,
    T10,
    Routes,
}

impl Mood {
    // A table: events side by side, a stretch's in a few lines.
    #[rustfmt::skip]
    fn weights(self) -> &'static [(Event, usize)] {
        use Event::*;
        match self {
            Mood::Ordinary => &[
                (Host, 14), (Transit, 10), (ToUs, 4), (Send, 22), (Ack, 14), (Service, 8), (Failure, 3),
                (ChangeoverEnd, 5), (Order, 1), (WaitingEnd, 5), (Cbd, 1), (Tfp, 2), (Tfa, 2), (Rst, 1),
                (T6, 1), (T8, 1), (T10, 1), (Routes, 1),
            ],
            Mood::Recovery => &[
                (Service, 9), (WaitingEnd, 9), (Tfa, 4), (Send, 16), (Ack, 12), (ChangeoverEnd, 6), (T6, 3),
                (T8, 2), (Host, 6),
            ],
            Mood::Burst => &[(Host, 30), (Transit, 15), (Send, 3), (Service, 2), (WaitingEnd, 1), (ToUs, 1)],
            Mood::Jam => &[
                (Cbd, 24), (Rst, 8), (T10, 8), (Tfp, 2), (Transit, 6), (Host, 2), (Failure, 1), (Order, 1),
                (Service, 3), (WaitingEnd, 3), (Send, 2), (Tfa, 1),
            ],
            Mood::Storm => &[
                (Failure, 9), (ChangeoverEnd, 9), (Order, 3), (Service, 10), (WaitingEnd, 4), (Host, 11),
                (Transit, 9), (Send, 14), (Ack, 3), (T6, 1), (Cbd, 1), (Routes, 1),
            ],
            Mood::Window => &[(Host, 22), (Send, 24), (Ack, 3), (T6, 1)],
            Mood::Passing => &[
                (Host, 8), (Transit, 3), (Send, 16), (Ack, 4), (Failure, 2), (Order, 2), (T6, 1),
            ],
            Mood::Rerouting => &[
                (Tfp, 9), (Tfa, 8), (T10, 3), (Rst, 3), (T6, 2), (T8, 2), (Host, 14), (Transit, 10),
                (Send, 8), (Ack, 5), (Service, 2), (WaitingEnd, 2), (Failure, 1), (ChangeoverEnd, 1), (Routes, 1),
            ],
        }
    }

    /// The fewest and the most lines of a stretch.
    fn lines(self) -> (usize, usize) {
        match self {
            Mood::Burst => (140, 280),
            Mood::Window => (360, 440),
            Mood::Jam => (100, 160),
            Mood::Recovery => (30, 60),
            Mood::Passing => (40, 80),
            Mood::Ordinary | Mood::Storm | Mood::Rerouting => (60, 120),
        }
    }
}

pub(crate) struct Maker {
    pub(crate) random: Random,
    pub(crate) run: Run,
    /// Of each link, the number of the last message the far end took.
    taken: BTreeMap<u8, u8>,
    pub(crate) mood: Mood,
    lines_left: usize,
    /// The pair that the moods Window and Passing fill.
    focus: (u16, u8),
    /// The second draw of user messages, where it is asked for.
    circuits: Option<Circuits>,
}

impl Maker {
    fn new(random: Random, run: Run, circuits: Option<Circuits>) -> Maker {
        Maker { random, run, taken: BTreeMap::new(), mood: Mood::Recovery, lines_left: 40, focus: (0, 0), circuits }
    }

    fn next_line(&mut self) -> String {
        self.pass_mood();
        let one_broken_in = if self.mood == Mood::Window { 30 } else { 10 };
        let call = if self.random.one_in(one_broken_in) { self.broken_call() } else { self.fitting_call() };
        let outcome = self.run.call(&call);
        if let (Call::Service(link), Reply::Done) = (&call, outcome.reply) {
            self.taken.insert(*link as u8, 127);
        }
        let line = record::write_line(&call) + "\n";
        if self.random.one_in(16) {
            return with_upper_case_octets(&line);
        }
        line
    }

    fn unreadable_line(&mut self) -> &'static str {
        let lines = [
            "service\n", "service\t01\n", "host\t0g\n", "ack\t0\n", "routes\t\n", "t5\t0\n", "\n",
            "send\t18446744073709551616\n", "routes", "host\t800\n", "received\t0\t0\t80\t\n",
        ];
        self.random.pick(&lines).expect("some lines")
    }

    fn pass_mood(&mut self) {
        if self.lines_left > 0 && !self.focus_is_over() {
            self.lines_left -= 1;
            return;
        }
        let keeps_focus = self.focused();
        let moods = match self.mood {
            Mood::Window => &[Mood::Passing, Mood::Passing, Mood::Storm, Mood::Storm][..],
            Mood::Burst | Mood::Jam | Mood::Passing => &[Mood::Storm, Mood::Storm, Mood::Ordinary],
            Mood::Storm => &[Mood::Recovery, Mood::Recovery, Mood::Rerouting, Mood::Ordinary],
            Mood::Recovery => &[Mood::Window, Mood::Window, Mood::Burst, Mood::Jam, Mood::Rerouting],
            Mood::Ordinary | Mood::Rerouting => {
                &[Mood::Burst, Mood::Jam, Mood::Window, Mood::Window, Mood::Storm, Mood::Rerouting, Mood::Ordinary]
            }
        };
        self.mood = self.random.pick(moods).expect("some moods");
        let (fewest, most) = self.mood.lines();
        self.lines_left = self.random.between(fewest, most);
        if !keeps_focus {
            self.focus = self.new_focus();
        }
    }

    fn new_focus(&mut self) -> (u16, u8) {
        let sls = self.random.below(16) as u8;
        let sending = self.destination_where(|maker, code| maker.sending_link(code, sls).is_some());
        (sending.unwrap_or_else(|| self.some_destination()), sls)
    }

    /// The link in focus can't send any more, or its window has been full for some lines.
    fn focus_is_over(&mut self) -> bool {
        let full = self.focused_link().map(|link| self.run.point.link(link).sent == WINDOW);
        match full {
            None => self.focused(),
            Some(full) => full && self.mood == Mood::Window && self.random.one_in(10),
        }
    }

    fn focused(&self) -> bool {
        matches!(self.mood, Mood::Window | Mood::Passing)
    }

    pub(crate) fn focused_link(&self) -> Option<u8> {
        let (dpc, sls) = self.focus;
        self.sending_link(dpc, sls)
    }

    /// The link of a pair, while it can send and nothing is held apart.
    fn sending_link(&self, dpc: u16, sls: u8) -> Option<u8> {
        let point = &self.run.point;
        let link = point.current_link(dpc, sls)?;
        let open = point.link(link).state == LinkState::Open;
        (open && !point.destinations[&dpc].t6).then_some(link)
    }

    /// Draw events until one fits the state.
    fn fitting_call(&mut self) -> Call {
        let weights = self.mood.weights();
        let total: usize = weights.iter().map(|(_, weight)| weight).sum();
        for _ in 0..40 {
            let mut drawn = self.random.below(total);
            let event = weights.iter().find(|(_, weight)| {
                let here = drawn < *weight;
                drawn = drawn.saturating_sub(*weight);
                here
            });
            let (event, _) = event.expect("the weights add up");
            if let Some(call) = self.call_for(*event) {
                return call;
            }
        }
        self.service().unwrap_or(Call::Routes)
    }

    fn call_for(&mut self, event: Event) -> Option<Call> {
        match event {
            Event::Host if self.crowded() => None,
            Event::Host => self.host(),
            Event::Transit => self.transit(),
            Event::ToUs => self.delivered(),
            Event::Send => self.send(),
            Event::Ack => self.ack(),
            Event::Service => self.service(),
            Event::Failure => self.failure(),
            Event::ChangeoverEnd => self.changeover_end(),
            Event::Order => self.order(),
            Event::WaitingEnd => self.waiting_end(),
            Event::Cbd => self.cbd(),
            Event::Tfp => self.mark_order(false),
            Event::Tfa => self.mark_order(true),
            Event::Rst => self.rst(),
            Event::T6 => self.t6(),
            Event::T8 => self.t8(),
            Event::T10 => self.t10(),
            Event::Routes => Some(Call::Routes),
        }
    }

    /// A store full of other messages would keep the window from filling.
    fn crowded(&mut self) -> bool {
        self.focused() && self.run.point.user_held() == USER_PLACES && !self.random.one_in(6)
    }

    // Choosing links and destinations.

    pub(crate) fn links_where(&self, fits: impl Fn(&Link) -> bool) -> Vec<u8> {
        self.run.point.links.values().filter(|link| fits(link)).map(|link| link.number).collect()
    }

    pub(crate) fn link_where(&mut self, fits: impl Fn(&Link) -> bool) -> Option<u8> {
        let links = self.links_where(fits);
        self.random.pick(&links)
    }

    pub(crate) fn receiving_link(&mut self) -> Option<u8> {
        self.link_where(|link| matches!(link.state, LinkState::Open | LinkState::Waiting))
    }

    pub(crate) fn some_destination(&mut self) -> u16 {
        let codes: Vec<u16> = self.run.point.destinations.keys().copied().collect();
        self.random.pick(&codes).unwrap_or(0)
    }

    fn destination_where(&mut self, fits: impl Fn(&Maker, u16) -> bool) -> Option<u16> {
        let codes: Vec<u16> = self.run.point.destinations.keys().copied().collect();
        let fitting: Vec<u16> = codes.into_iter().filter(|code| fits(self, *code)).collect();
        self.random.pick(&fitting)
    }

    /// A pair for a user message: under T6 by preference, mostly accessible.
    fn pair_for_traffic(&mut self) -> (u16, u8) {
        if self.focused() && !self.random.one_in(8) {
            return self.focus;
        }
        if let Some(pair) = self.pair_cut_off().filter(|_| self.mood == Mood::Storm) {
            if self.random.one_in(3) {
                return pair;
            }
        }
        let sls = self.random.below(16) as u8;
        let under_t6 = self.destination_where(|maker, code| maker.run.point.destinations[&code].t6);
        let accessible = self.destination_where(|maker, code| maker.run.point.accessible(code));
        let cut_off = self.destination_where(|maker, code| !maker.run.point.accessible(code));
        let chosen = match self.random.below(12) {
            0 => cut_off,
            1..=5 if self.mood == Mood::Jam => cut_off.or(accessible),
            1..=4 => under_t6.or(accessible),
            _ => accessible,
        };
        (chosen.unwrap_or_else(|| self.some_destination()), sls)
    }

    // Octets.

    fn payload(&mut self) -> Vec<u8> {
        let most = wire::LONGEST - wire::SHORTEST;
        let length = match self.random.below(40) {
            0 => most,
            1 => self.random.between(0, most),
            _ => self.random.between(0, 6),
        };
        (0..length).map(|_| self.random.below(256) as u8).collect()
    }

    pub(crate) fn user_octets(&mut self, label: Label, si: u8) -> Vec<u8> {
        let payload = self.payload();
        let (si, payload) = match &mut self.circuits {
            Some(circuits) if si != 0 => circuits.draw(si, payload),
            _ => (si, payload),
        };
        let mut octets = wire::compose(self.run.point.ni, si, label, &payload);
        self.set_spare_bits(&mut octets);
        octets
    }

    fn set_spare_bits(&mut self, octets: &mut [u8]) {
        if self.random.one_in(6) {
            octets[0] |= 16 * self.random.below(4) as u8;
        }
    }

    pub(crate) fn management_octets(&mut self, opc: u16, slc: u8, order: Management) -> Vec<u8> {
        let label = Label { dpc: self.run.point.code, opc, sls: slc };
        let mut octets = wire::compose(self.run.point.ni, 0, label, &order.write());
        self.set_spare_bits(&mut octets);
        if self.random.one_in(8) {
            match octets[5] {
                0x11 | 0x21 => octets[6] |= 0x80,
                0x14 | 0x54 | 0x15 => octets[7] |= 0x40 << self.random.below(2),
                _ => {}
            }
        }
        octets
    }

    pub(crate) fn over(&mut self, link: u8, octets: Vec<u8>) -> Call {
        let fsn = wire::step_on(self.run.point.link(link).last_received, 1);
        Call::Received { link: link as u64, fsn: fsn as u64, octets }
    }

    /// A management message about a link of ours from its far end, over the link itself or any.
    pub(crate) fn about(&mut self, link: u8, order: Management) -> Option<Call> {
        let itself = matches!(self.run.point.link(link).state, LinkState::Open | LinkState::Waiting);
        let over = if itself && self.random.one_in(4) { link } else { self.receiving_link()? };
        let (opc, slc) = (self.run.point.adjacent(link), self.run.point.link(link).slc);
        let octets = self.management_octets(opc, slc, order);
        Some(self.over(over, octets))
    }

    // Events.

    pub(crate) fn host(&mut self) -> Option<Call> {
        let (dpc, sls) = self.pair_for_traffic();
        let label = Label { dpc, opc: self.run.point.code, sls };
        let si = self.random.between(1, 15) as u8;
        Some(Call::Host(self.user_octets(label, si)))
    }

    pub(crate) fn transit(&mut self) -> Option<Call> {
        let link = self.receiving_link()?;
        let (dpc, sls) = self.pair_for_traffic();
        let opc = match self.random.below(8) {
            0 => self.run.point.code,
            1 => self.random.below(16_384) as u16,
            2 => self.some_destination(),
            _ => self.run.point.adjacent(link),
        };
        let si = if self.random.one_in(8) { 0 } else { self.random.below(16) as u8 };
        let octets = self.user_octets(Label { dpc, opc, sls }, si);
        Some(self.over(link, octets))
    }

    fn delivered(&mut self) -> Option<Call> {
        let link = self.receiving_link()?;
        let (opc, sls) = (self.some_destination(), self.random.below(16) as u8);
        let si = self.random.between(1, 15) as u8;
        let octets = self.user_octets(Label { dpc: self.run.point.code, opc, sls }, si);
        Some(self.over(link, octets))
    }

    fn send(&mut self) -> Option<Call> {
        let fits = |link: &Link| link.state == LinkState::Open && link.queue.len() > link.sent;
        let focused = self.focused_link().filter(|link| fits(self.run.point.link(*link)));
        if self.focused() && focused.is_some() && !self.random.one_in(12) {
            return focused.map(|link| Call::Send(link as u64));
        }
        self.link_where(fits).map(|link| Call::Send(link as u64))
    }

    /// The far end takes some more of what was sent; gives its last number.
    pub(crate) fn far_end_takes(&mut self, link: u8) -> u8 {
        let (last, sent) = (self.run.point.link(link).last_acknowledged, self.run.point.link(link).sent);
        let known = self.taken.get(&link).map_or(0, |taken| wire::distance(last, *taken));
        let known = if known > sent { 0 } else { known };
        let more = if self.random.one_in(3) { sent } else { self.random.between(known, sent) };
        let taken = wire::step_on(last, more);
        self.taken.insert(link, taken);
        taken
    }

    fn ack(&mut self) -> Option<Call> {
        let spared = self.focused_link().filter(|_| self.mood == Mood::Window);
        let fits = |link: &Link| link.state == LinkState::Open && link.sent > 0 && Some(link.number) != spared;
        let favoured = self.focused_link().filter(|link| self.focused() && fits(self.run.point.link(*link)));
        let link = if self.random.one_in(3) { None } else { favoured };
        let link = link.or_else(|| self.link_where(fits))?;
        let taken = self.far_end_takes(link);
        let last = self.run.point.link(link).last_acknowledged;
        let number = match self.random.below(4) {
            0 => wire::step_on(last, self.random.between(0, wire::distance(last, taken))),
            _ => taken,
        };
        Some(Call::Ack(link as u64, number as u64))
    }

    fn service(&mut self) -> Option<Call> {
        self.link_where(|link| !link.carrying()).map(|link| Call::Service(link as u64))
    }

    fn waiting_end(&mut self) -> Option<Call> {
        let link = self.link_where(|link| link.state == LinkState::Waiting)?;
        let code = self.run.point.link(link).unanswered.first().copied();
        match code {
            Some(_) if self.random.one_in(3) => Some(Call::T4(link as u64)),
            Some(code) => self.about(link, Management::Cba { code }),
            None => Some(Call::T3(link as u64)),
        }
    }

    fn cbd(&mut self) -> Option<Call> {
        let point = &self.run.point;
        let answerable = |link: &Link| point.management_path(point.adjacent(link.number), link.slc, None).is_some();
        let links = self.links_where(answerable);
        let link = if self.random.one_in(8) { self.link_where(|_| true)? } else { self.random.pick(&links)? };
        let code = self.random.below(256) as u8;
        self.about(link, Management::Cbd { code })
    }

    /// Routes with or without the mark, but for those to the adjacent point itself.
    fn routes_marked(&self, marked: bool) -> Vec<(u16, u8)> {
        let point = &self.run.point;
        let mut found = Vec::new();
        for destination in point.destinations.values() {
            for route in &destination.routes {
                if route.prohibited == marked && point.sets[&route.set].adjacent != destination.code {
                    found.push((destination.code, route.set));
                }
            }
        }
        found
    }

    /// TFP about an unmarked route, or TFA about a marked one.
    fn mark_order(&mut self, allow: bool) -> Option<Call> {
        let mut routes = self.routes_marked(allow);
        let under_t6 = |route: &(u16, u8)| self.run.point.destinations[&route.0].t6;
        if routes.iter().any(under_t6) && self.random.one_in(2) {
            routes.retain(|(code, _)| self.run.point.destinations[code].t6);
        }
        let (destination, set) = self.random.pick(&routes)?;
        let order = if allow { Management::Tfa { destination } } else { Management::Tfp { destination } };
        self.message_of_adjacent(set, order)
    }

    /// A message of the adjacent point of a set, over any link; its SLC means nothing.
    pub(crate) fn message_of_adjacent(&mut self, set: u8, order: Management) -> Option<Call> {
        let over = self.receiving_link()?;
        let slc = if self.random.one_in(4) { self.random.below(16) as u8 } else { 0 };
        let octets = self.management_octets(self.run.point.sets[&set].adjacent, slc, order);
        Some(self.over(over, octets))
    }

    fn rst(&mut self) -> Option<Call> {
        let destination = self.destination_where(|maker, code| maker.run.point.accessible(code))?;
        let current = self.run.point.current_set(destination)?;
        let others: Vec<u8> = self.run.point.sets.keys().copied().filter(|set| *set != current).collect();
        let set = self.random.pick(&others)?;
        self.message_of_adjacent(set, Management::Rst { destination })
    }

    fn t6(&mut self) -> Option<Call> {
        let any = self.destination_where(|maker, code| maker.run.point.destinations[&code].t6);
        let cut_off = self.destination_where(|maker, code| {
            let point = &maker.run.point;
            point.destinations[&code].t6 && !point.accessible(code)
        });
        let others = if self.random.one_in(4) { any } else { None };
        cut_off.or(others).map(|code| Call::T6(code as u64))
    }

    fn t8(&mut self) -> Option<Call> {
        let code = self.destination_where(|maker, code| maker.run.point.destinations[&code].t8)?;
        Some(Call::T8(code as u64))
    }

    fn t10(&mut self) -> Option<Call> {
        let routes = self.routes_marked(true);
        let (destination, set) = self.random.pick(&routes)?;
        Some(Call::T10(destination as u64, set as u64))
    }
}

fn with_upper_case_octets(line: &str) -> String {
    match line.rfind('\t') {
        Some(tab) => format!("{}{}", &line[..tab], line[tab..].to_uppercase()),
        None => line.to_string(),
    }
}
