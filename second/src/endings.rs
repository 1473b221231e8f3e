//! How a changeover ended, read off the call that took a link out and the states around it.

use std::collections::BTreeSet;

use crate::fates::{gone_out, Fate};
use crate::point::{Call, Link, LinkState};
use crate::run::Step;
use crate::wire::{Management, SHORTEST};

/// The management message of a call that took a link out.
pub(crate) fn order(call: &Call) -> Option<Management> {
    match call {
        Call::Received { octets, .. } => Management::read(octets.get(SHORTEST..)?),
        _ => None,
    }
}

/// The number of a COO or COA.
pub(crate) fn ordered_number(call: &Call) -> Option<u8> {
    match order(call)? {
        Management::Coo { fsn } | Management::Coa { fsn } => Some(fsn),
        _ => None,
    }
}

/// Whether a COO or COA gave a number that isn't in range on the link as it was. On a waiting link nothing is sent,
/// and its number isn't looked at.
pub(crate) fn number_not_in_range(link: &Link, call: &Call) -> bool {
    let judged = link.state != LinkState::Waiting;
    ordered_number(call).is_some_and(|number| judged && !link.in_range(number))
}

/// Whether the far end may have taken what was sent and didn't say so, and yet all of it moves.
pub(crate) fn untold(link: &Link, call: &Call) -> bool {
    matches!(call, Call::T1(_) | Call::T2(_)) || number_not_in_range(link, call)
}

/// The messages that moved in a call and may arrive twice: sent on the link that they left, and not acknowledged there.
pub(crate) fn may_arrive_twice(step: &Step) -> BTreeSet<u64> {
    let gone = gone_out(step.before, step.after).map(|number| step.before.link(number));
    let Some(link) = gone.filter(|link| untold(link, step.call)) else { return BTreeSet::new() };
    let sent: BTreeSet<u64> = link.queue[..link.sent].iter().map(|message| message.arrival).collect();
    let moved = step.fates.iter().filter_map(|fate| match fate {
        Fate::Moved { arrival, .. } => Some(*arrival),
        _ => None,
    });
    moved.filter(|arrival| sent.contains(arrival)).collect()
}
