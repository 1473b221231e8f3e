//! Calls broken on purpose.

use crate::generate::Maker;
use crate::point::{Call, Link, LinkState};
use crate::wire::{self, Label, Management};

impl Maker {
    pub(crate) fn broken_call(&mut self) -> Call {
        for _ in 0..20 {
            if let Some(call) = self.break_something() {
                return call;
            }
        }
        Call::Service(u64::MAX)
    }

    fn break_something(&mut self) -> Option<Call> {
        match self.random.below(16) {
            0 => self.unknown_link(),
            1 => self.argument_too_great(),
            2 => self.wrong_fsn(),
            3 => self.malformed_from_link(),
            4 => self.transit().map(|call| self.spoil_network(call)),
            5 => self.malformed_from_host(),
            6 => self.host().map(|call| self.spoil_network(call)),
            7 => self.unreachable_from_host(),
            8 => self.wrong_acknowledgement(),
            9 => self.link_timer_not_running(),
            10 => self.other_timer_not_running(),
            11 => self.wrong_state(),
            12 => self.names_nothing(),
            13 => self.fits_no_state(),
            14 => self.unknown_destination(),
            _ => self.received_on_a_dead_link(),
        }
    }

    fn call_on(&mut self, link: u64) -> Call {
        let number = self.random.below(128) as u64;
        match self.random.below(9) {
            0 => Call::Service(link),
            1 => Call::Failure(link),
            2 => Call::Send(link),
            3 => Call::Ack(link, number),
            4 => Call::Received { link, fsn: number, octets: vec![0x85, 0, 0, 0, 0] },
            5 => Call::T1(link),
            6 => Call::T2(link),
            7 => Call::T3(link),
            _ => Call::T4(link),
        }
    }

    fn unknown_link(&mut self) -> Option<Call> {
        let unknown: Vec<u64> = (0..32).filter(|n| !self.run.point.links.contains_key(&(*n as u8))).collect();
        let link = self.random.pick(&unknown)?;
        Some(self.call_on(link))
    }

    fn too_great(&mut self, highest: u64) -> u64 {
        let values = [highest + 1, highest + 2, 256, 65_536, 1 << 32, u64::MAX];
        let fitting: Vec<u64> = values.into_iter().filter(|value| *value > highest).collect();
        self.random.pick(&fitting).expect("some values")
    }

    fn argument_too_great(&mut self) -> Option<Call> {
        let link = self.link_where(|_| true)? as u64;
        let destination = self.some_destination() as u64;
        Some(match self.random.below(7) {
            0 => Call::Ack(link, self.too_great(127)),
            1 => Call::Received { link, fsn: self.too_great(127), octets: vec![0x85, 0, 0, 0, 0] },
            2 => Call::T6(self.too_great(16_383)),
            3 => Call::T8(self.too_great(16_383)),
            4 => Call::T10(self.too_great(16_383), self.random.below(8) as u64),
            5 => Call::T10(destination, self.too_great(7)),
            _ => {
                let link = self.too_great(31);
                self.call_on(link)
            }
        })
    }

    /// A good or a malformed message with any FSN but the next.
    fn wrong_fsn(&mut self) -> Option<Call> {
        let good = if self.random.one_in(2) { self.transit()? } else { self.malformed_from_link()? };
        let Call::Received { link, fsn, octets } = good else { return None };
        let steps = self.random.pick(&[1, 2, 64, 126, 127])?;
        let fsn = wire::step_on(fsn as u8, steps) as u64;
        Some(Call::Received { link, fsn, octets })
    }

    fn wrong_length(&mut self, octets: &mut Vec<u8>) {
        let length = match self.random.below(3) {
            0 => self.random.between(0, 4),
            1 => self.random.between(274, 300),
            _ => 274,
        };
        octets.resize(length, 0);
    }

    fn malformed_from_link(&mut self) -> Option<Call> {
        let over = self.receiving_link()?;
        let link = self.link_where(|_| true)?;
        let (opc, slc) = (self.run.point.adjacent(link), self.run.point.link(link).slc);
        let fsn = self.random.below(128) as u8;
        let orders = [
            Management::Coo { fsn },
            Management::Coa { fsn },
            Management::Eco,
            Management::Eca,
            Management::Cbd { code: fsn },
            Management::Tfp { destination: 1 },
            Management::Rst { destination: 1 },
        ];
        let order = self.random.pick(&orders)?;
        let mut octets = self.management_octets(opc, slc, order);
        match self.random.below(4) {
            0 => self.wrong_length(&mut octets),
            1 => octets[5] = self.random.pick(&[0x00, 0x13, 0x23, 0x24, 0x16, 0x31, 0x91, 0xff])?,
            2 => octets.push(0),
            _ => octets.truncate(octets.len() - 1),
        }
        let call = self.over(over, octets);
        Some(if self.random.one_in(4) { self.spoil_network(call) } else { call })
    }

    fn spoil_network(&mut self, call: Call) -> Call {
        let other = 64 * self.random.between(1, 3) as u8;
        let spoil = |mut octets: Vec<u8>| {
            octets.iter_mut().take(1).for_each(|sio| *sio ^= other);
            octets
        };
        match call {
            Call::Received { link, fsn, octets } => Call::Received { link, fsn, octets: spoil(octets) },
            Call::Host(octets) => Call::Host(spoil(octets)),
            other => other,
        }
    }

    fn malformed_from_host(&mut self) -> Option<Call> {
        let Call::Host(mut octets) = self.host()? else { return None };
        match self.random.below(3) {
            0 => self.wrong_length(&mut octets),
            1 => octets[0] &= 0xf0,
            _ => octets[3] ^= 1 << self.random.below(8),
        }
        let call = Call::Host(octets);
        Some(if self.random.one_in(4) { self.spoil_network(call) } else { call })
    }

    fn unconfigured_code(&mut self) -> u16 {
        loop {
            let code = self.random.below(16_384) as u16;
            if code != self.run.point.code && !self.run.point.destinations.contains_key(&code) {
                return code;
            }
        }
    }

    fn unreachable_from_host(&mut self) -> Option<Call> {
        let unconfigured = self.unconfigured_code();
        let dpc = self.random.pick(&[unconfigured, self.run.point.code])?;
        let label = Label { dpc, opc: self.run.point.code, sls: self.random.below(16) as u8 };
        let si = self.random.between(1, 15) as u8;
        Some(Call::Host(self.user_octets(label, si)))
    }

    fn wrong_acknowledgement(&mut self) -> Option<Call> {
        let number = self.link_where(|link| link.state == LinkState::Open && link.sent < 127)?;
        let link = self.run.point.link(number);
        let (last, sent) = (link.last_acknowledged, link.sent);
        let steps = self.random.between(sent + 1, 127);
        let steps = self.random.pick(&[sent + 1, 127, steps])?;
        Some(Call::Ack(number as u64, wire::step_on(last, steps) as u64))
    }

    fn link_timer_not_running(&mut self) -> Option<Call> {
        match self.random.below(4) {
            0 => self.link_where(|link| !link.t1).map(|link| Call::T1(link as u64)),
            1 => self.link_where(|link| !link.t2).map(|link| Call::T2(link as u64)),
            2 => self.link_where(|link| !link.t3).map(|link| Call::T3(link as u64)),
            _ => self.link_where(|link| !link.t4).map(|link| Call::T4(link as u64)),
        }
    }

    fn other_timer_not_running(&mut self) -> Option<Call> {
        let configured = self.some_destination();
        let unconfigured = self.unconfigured_code();
        let destination = self.random.pick(&[configured, configured, unconfigured])?;
        let set = self.random.below(8) as u8;
        let known = self.run.point.destinations.get(&destination);
        let t6 = known.is_some_and(|known| known.t6);
        let t8 = known.is_some_and(|known| known.t8);
        match self.random.below(3) {
            0 if !t6 => Some(Call::T6(destination as u64)),
            1 if !t8 => Some(Call::T8(destination as u64)),
            _ => Some(Call::T10(destination as u64, set as u64)),
        }
    }

    fn wrong_state(&mut self) -> Option<Call> {
        match self.random.below(4) {
            0 => self.link_where(Link::carrying).map(|link| Call::Service(link as u64)),
            1 => {
                let failed = |link: &Link| matches!(link.state, LinkState::Out | LinkState::Changing);
                self.link_where(failed).map(|link| Call::Failure(link as u64))
            }
            2 => {
                let dumb = |link: &Link| link.state != LinkState::Open || link.queue.len() == link.sent;
                self.link_where(dumb).map(|link| Call::Send(link as u64))
            }
            _ => {
                let link = self.link_where(|link| link.state != LinkState::Open)?;
                Some(Call::Ack(link as u64, self.random.below(128) as u64))
            }
        }
    }

    /// OPC not adjacent, SLC not in the set, or a route that doesn't exist.
    fn names_nothing(&mut self) -> Option<Call> {
        let link = self.link_where(|_| true)?;
        let (y, slc) = (self.run.point.adjacent(link), self.run.point.link(link).slc);
        let (x, stranger) = (self.some_destination(), self.unconfigured_code());
        let slcs = self.links_where(|other| other.set == self.run.point.link(link).set);
        let slcs: Vec<u8> = slcs.into_iter().map(|other| self.run.point.link(other).slc).collect();
        let free: Vec<u8> = (0..16).filter(|slc| !slcs.contains(slc)).collect();
        let fsn = self.random.below(128) as u8;
        let us = self.run.point.code;
        let (opc, slc, order) = match self.random.below(9) {
            0 => (stranger, slc, Management::Coo { fsn }),
            1 => (us, slc, Management::Eco),
            2 => (y, self.random.pick(&free)?, Management::Coo { fsn }),
            3 => (y, self.random.pick(&free)?, Management::Cbd { code: fsn }),
            4 => (y, 0, Management::Tfp { destination: y }),
            5 => (y, 0, Management::Tfa { destination: us }),
            6 => (y, 0, Management::Tfp { destination: stranger }),
            7 => (stranger, 0, Management::Tfp { destination: x }),
            _ => (y, 0, Management::Rst { destination: self.random.pick(&[stranger, us])? }),
        };
        let over = self.receiving_link()?;
        let octets = self.management_octets(opc, slc, order);
        Some(self.over(over, octets))
    }

    /// COA or ECA without T2, CBA with a wrong code, a mark that stands already, RST of the asker's way.
    fn fits_no_state(&mut self) -> Option<Call> {
        let fsn = self.random.below(128) as u8;
        match self.random.below(5) {
            0 => self.link_where(|link| !link.t2).and_then(|link| self.about(link, Management::Coa { fsn })),
            1 => self.link_where(|link| !link.t2).and_then(|link| self.about(link, Management::Eca)),
            2 => self.wrong_cba(),
            3 => self.mark_already_so(),
            _ => {
                let destination = self.some_destination();
                let set = self.run.point.current_set(destination)?;
                self.message_of_adjacent(set, Management::Rst { destination })
            }
        }
    }

    fn wrong_cba(&mut self) -> Option<Call> {
        let link = self.link_where(|_| true)?;
        let right = self.run.point.link(link).unanswered.first().copied();
        let code = match right {
            Some(code) => code ^ self.random.pick(&[1, 0x20, 0x80])?,
            None => self.random.below(256) as u8,
        };
        self.about(link, Management::Cba { code })
    }

    fn mark_already_so(&mut self) -> Option<Call> {
        let destination = self.some_destination();
        let routes = self.run.point.destinations.get(&destination)?.routes.clone();
        let route = self.random.pick(&routes)?;
        let order = if route.prohibited { Management::Tfp { destination } } else { Management::Tfa { destination } };
        self.message_of_adjacent(route.set, order)
    }

    fn unknown_destination(&mut self) -> Option<Call> {
        let over = self.receiving_link()?;
        let label = Label {
            dpc: self.unconfigured_code(),
            opc: self.run.point.adjacent(over),
            sls: self.random.below(16) as u8,
        };
        let si = self.random.below(16) as u8;
        let octets = self.user_octets(label, si);
        Some(self.over(over, octets))
    }

    fn received_on_a_dead_link(&mut self) -> Option<Call> {
        let Call::Received { octets, .. } = self.transit()? else { return None };
        let dead = self.link_where(|link| matches!(link.state, LinkState::Out | LinkState::Changing))?;
        Some(self.over(dead, octets))
    }
}
