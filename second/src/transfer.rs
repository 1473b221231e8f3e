//! Events on a route: transfer prohibited and allowed, route set test, T6, T8, T10.

use crate::point::{in_range, Effects, Reply, TransferPoint};
use crate::point::{HIGHEST_CODE, HIGHEST_SET};
use crate::wire::Management;

/// TFP, TFA and RST carry SLC 0.
const NO_LINK: u8 = 0;

impl TransferPoint {
    /// The set of the route to X by Y, where X is neither Y nor us.
    fn route_named(&self, y: u16, x: u16) -> Result<u8, Reply> {
        let set = self.set_to(y).ok_or(Reply::FitsNothing)?.number;
        let destination = self.destinations.get(&x).ok_or(Reply::FitsNothing)?;
        if x == y || x == self.code || destination.route_by(set).is_none() {
            return Err(Reply::FitsNothing);
        }
        Ok(set)
    }

    /// Set or clear the mark and T10; a mark that already stands so fits nothing.
    fn mark(&mut self, x: u16, set: u8, prohibited: bool) -> Result<(), Reply> {
        let route = self.destination_mut(x).route_by_mut(set).expect("a route named");
        if route.prohibited == prohibited {
            return Err(Reply::FitsNothing);
        }
        route.prohibited = prohibited;
        route.t10 = prohibited;
        Ok(())
    }

    pub(crate) fn transfer_prohibited(&mut self, y: u16, x: u16) -> Result<Effects, Reply> {
        let set = self.route_named(y, x)?;
        let before = self.access();
        self.mark(x, set, true)?;
        let mut effects = Effects::default();
        self.report_access(&before, &mut effects);
        Ok(effects)
    }

    pub(crate) fn transfer_allowed(&mut self, y: u16, x: u16) -> Result<Effects, Reply> {
        let set = self.route_named(y, x)?;
        let (before, set_before) = (self.access(), self.current_set(x));
        self.mark(x, set, false)?;
        if set_before.is_some() && self.current_set(x) != set_before {
            self.destination_mut(x).t6 = true;
        }
        let mut effects = Effects::default();
        self.report_access(&before, &mut effects);
        Ok(effects)
    }

    /// RST is answered with TFA if X is accessible by another set than the asker's.
    pub(crate) fn route_set_tested(&mut self, y: u16, x: u16) -> Result<Effects, Reply> {
        let askers = self.set_to(y).ok_or(Reply::FitsNothing)?.number;
        let current = self.current_set(x).ok_or(Reply::FitsNothing)?;
        if current == askers {
            return Err(Reply::FitsNothing);
        }
        if let Some(path) = self.way(y, NO_LINK, None)? {
            self.queue_management(path, y, NO_LINK, Management::Tfa { destination: x });
        }
        Ok(Effects::default())
    }

    /// The TFP that reply 9 makes to the adjacent point of the link, unless T8 runs.
    pub(crate) fn send_transfer_prohibited(&mut self, link: u8, x: u16) -> Result<(), Reply> {
        if self.destinations[&x].t8 {
            return Ok(());
        }
        let adjacent = self.adjacent(link);
        if let Some(path) = self.way(adjacent, NO_LINK, None)? {
            self.queue_management(path, adjacent, NO_LINK, Management::Tfp { destination: x });
            self.destination_mut(x).t8 = true;
        }
        Ok(())
    }

    fn configured_destination(&self, destination: u64) -> Result<u16, Reply> {
        in_range(destination, HIGHEST_CODE)?;
        let code = destination as u16;
        if !self.destinations.contains_key(&code) {
            return Err(Reply::NotConfigured);
        }
        Ok(code)
    }

    /// What was held apart moves, in order of arrival.
    pub(crate) fn t6_expires(&mut self, destination: u64) -> Result<Effects, Reply> {
        let code = self.configured_destination(destination)?;
        if !self.destinations[&code].t6 {
            return Err(Reply::WrongState);
        }
        self.destination_mut(code).t6 = false;
        let apart = std::mem::take(&mut self.destination_mut(code).apart);
        let mut effects = Effects::default();
        for message in apart {
            self.move_message(message, &mut effects);
        }
        Ok(effects)
    }

    pub(crate) fn t8_expires(&mut self, destination: u64) -> Result<Effects, Reply> {
        let code = self.configured_destination(destination)?;
        if !self.destinations[&code].t8 {
            return Err(Reply::WrongState);
        }
        self.destination_mut(code).t8 = false;
        Ok(Effects::default())
    }

    /// T10 sends RST, about the destination, to the adjacent point of the set and restarts.
    pub(crate) fn t10_expires(&mut self, destination: u64, set: u64) -> Result<Effects, Reply> {
        in_range(destination, HIGHEST_CODE)?;
        in_range(set, HIGHEST_SET)?;
        let code = self.configured_destination(destination)?;
        let set = self.sets.get(&(set as u8)).ok_or(Reply::NotConfigured)?;
        let adjacent = set.adjacent;
        if !self.destinations[&code].route_by(set.number).is_some_and(|route| route.t10) {
            return Err(Reply::WrongState);
        }
        if let Some(path) = self.way(adjacent, NO_LINK, None)? {
            self.queue_management(path, adjacent, NO_LINK, Management::Rst { destination: code });
        }
        Ok(Effects::default())
    }
}
