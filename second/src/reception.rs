//! Discrimination and distribution: messages from links and from the host.

use crate::changeover::Ending;
use crate::point::{in_range, Effects, LinkState, Output, Reply, TransferPoint};
use crate::point::{HIGHEST_FSN, HIGHEST_LINK};
use crate::wire::{self, Label, Management};

impl TransferPoint {
    pub(crate) fn received(&mut self, link: u64, fsn: u64, octets: &[u8]) -> Result<Effects, Reply> {
        in_range(link, HIGHEST_LINK)?;
        in_range(fsn, HIGHEST_FSN)?;
        let number = self.configured_link(link)?;
        let link = self.link(number);
        if link.state != LinkState::Open && link.state != LinkState::Waiting {
            return Err(Reply::WrongState);
        }
        let last = link.last_received;
        if fsn as u8 != wire::step_on(last, 1) {
            return Err(Reply::WrongNumber);
        }
        // Taken first, so that a COA about this very link carries the new number.
        self.link_mut(number).last_received = fsn as u8;
        let result = self.discriminate(number, octets);
        if let Err(Reply::UserStoreFull | Reply::ManagementStoreFull | Reply::NumbersUsedUp) = result {
            self.link_mut(number).last_received = last;
        }
        result
    }

    fn discriminate(&mut self, link: u8, octets: &[u8]) -> Result<Effects, Reply> {
        well_sized(octets)?;
        let label = Label::read(octets);
        let for_us = label.dpc == self.code;
        let order = if for_us && wire::service_indicator(octets[0]) == 0 {
            Some(Management::read(&octets[5..]).ok_or(Reply::Malformed)?)
        } else {
            None
        };
        self.our_network(octets)?;
        match order {
            Some(order) => self.distribute(label, order),
            None if for_us => Ok(deliver(&octets[5..])),
            None => self.pass_on(link, label, octets),
        }
    }

    fn our_network(&self, octets: &[u8]) -> Result<(), Reply> {
        if wire::network_indicator(octets[0]) != self.ni {
            return Err(Reply::ForeignNetwork);
        }
        Ok(())
    }

    /// A management message to us, by the point or link it names.
    fn distribute(&mut self, label: Label, order: Management) -> Result<Effects, Reply> {
        match order {
            Management::Tfp { destination } => self.transfer_prohibited(label.opc, destination),
            Management::Tfa { destination } => self.transfer_allowed(label.opc, destination),
            Management::Rst { destination } => self.route_set_tested(label.opc, destination),
            _ => self.about_link(self.link_named(label)?, order),
        }
    }

    /// A link is named by the OPC, as adjacent point, and the SLC.
    fn link_named(&self, label: Label) -> Result<u8, Reply> {
        let set = self.set_to(label.opc).ok_or(Reply::FitsNothing)?;
        let named = set.links.iter().find(|number| self.link(**number).slc == label.sls);
        named.copied().ok_or(Reply::FitsNothing)
    }

    fn about_link(&mut self, link: u8, order: Management) -> Result<Effects, Reply> {
        match order {
            Management::Coo { fsn } => self.changeover_ordered(link, Ending::Number(fsn)),
            Management::Eco => self.changeover_ordered(link, Ending::NoNumber),
            Management::Coa { fsn } => self.changeover_answered(link, Ending::Number(fsn)),
            Management::Eca => self.changeover_answered(link, Ending::NoNumber),
            Management::Cbd { code } => self.changeback_declared(link, code),
            Management::Cba { code } => self.changeback_acknowledged(link, code),
            _ => unreachable!("TFP, TFA and RST name no link"),
        }
    }

    /// CBD is answered with CBA, same code, whatever the state of the link it names.
    fn changeback_declared(&mut self, link: u8, code: u8) -> Result<Effects, Reply> {
        let (adjacent, slc) = (self.adjacent(link), self.link(link).slc);
        if let Some(path) = self.way(adjacent, slc, None)? {
            self.queue_management(path, adjacent, slc, Management::Cba { code });
        }
        Ok(Effects::default())
    }

    /// A message in transit.
    fn pass_on(&mut self, link: u8, label: Label, octets: &[u8]) -> Result<Effects, Reply> {
        if !self.destinations.contains_key(&label.dpc) {
            return Err(Reply::Unreachable);
        }
        if !self.accessible(label.dpc) {
            self.send_transfer_prohibited(link, label.dpc)?;
            return Err(Reply::Unreachable);
        }
        self.queue_user(label, octets)
    }

    pub(crate) fn host_message(&mut self, octets: &[u8]) -> Result<Effects, Reply> {
        well_sized(octets)?;
        let label = Label::read(octets);
        if wire::service_indicator(octets[0]) == 0 || label.opc != self.code {
            return Err(Reply::Malformed);
        }
        self.our_network(octets)?;
        // Our own code is never a configured destination, so it is unreachable too.
        if !self.accessible(label.dpc) {
            return Err(Reply::Unreachable);
        }
        self.queue_user(label, octets)
    }

    /// A new user message for an accessible destination: held apart while T6 runs.
    fn queue_user(&mut self, label: Label, octets: &[u8]) -> Result<Effects, Reply> {
        self.room_for_user()?;
        let link = self.current_link(label.dpc, label.sls).expect("accessible");
        let message = self.number_message(false, octets.to_vec());
        if self.destinations[&label.dpc].t6 {
            self.destination_mut(label.dpc).apart.push(message);
        } else {
            self.link_mut(link).queue.push(message);
        }
        Ok(Effects::default())
    }
}

fn well_sized(octets: &[u8]) -> Result<(), Reply> {
    if octets.len() < wire::SHORTEST || octets.len() > wire::LONGEST {
        return Err(Reply::Malformed);
    }
    Ok(())
}

fn deliver(part: &[u8]) -> Effects {
    Effects { output: Output::Delivered(part.to_vec()), ..Effects::default() }
}
