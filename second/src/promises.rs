//! What a call may do to the messages of a queue, in the paper's words and apart from the code that does it.
//! That nothing is lost besides is the ledger's matter: each arrival number is in exactly one place.

use crate::changeover::{NO_NUMBER, NO_ROUTE};
use crate::endings::{order, ordered_number};
use crate::fates::{gone_out, Fate, Place};
use crate::ledger::{demand, Check};
use crate::point::{Call, Link, Message, Outcome, Report, TransferPoint};
use crate::run::Made;
use crate::wire::{self, Label, Management};

/// Of a queue that ends by T1, T2 or a number not in range nothing is retired, and nothing dropped but for want
/// of a route. ECO and ECA alone drop what was sent, and a number in range alone retires.
pub(crate) fn check_ending(made: &Made, call: &Call, after: &TransferPoint) -> Check {
    let gone = gone_out(&made.before, after).map(|number| made.before.link(number));
    let retired = gone.map_or(0, |link| told_taken(link, call));
    let without_number = matches!(order(call), Some(Management::Eco | Management::Eca));
    let sent = gone.filter(|_| without_number).map_or(0, |link| link.sent);
    let first = |count: usize| gone.map_or(Vec::new(), |link| arrivals(&link.queue[..count]));
    let dropped = dropped_for(NO_NUMBER, &made.outcome);
    demand(dropped == first(sent), || format!("{dropped:?} were dropped, of {sent} sent and without a number"))?;
    let found = &made.outcome.effects.retired;
    demand(*found == first(retired), || format!("{found:?} were retired, of {retired} told as taken"))
}

/// How many messages the number of a COO or COA says were taken.
fn told_taken(link: &Link, call: &Call) -> usize {
    match ordered_number(call) {
        Some(number) if link.in_range(number) => wire::distance(link.last_acknowledged, number),
        _ => 0,
    }
}

fn arrivals(messages: &[Message]) -> Vec<u64> {
    messages.iter().map(|message| message.arrival).collect()
}

fn dropped_for(asked: u8, outcome: &Outcome) -> Vec<u64> {
    let dropped = outcome.effects.reports.iter().filter_map(|report| match report {
        Report::Drop { arrival, reason } if *reason == asked => Some(*arrival),
        _ => None,
    });
    dropped.collect()
}

/// What moved stands where the rule leads with the link gone, and what was dropped for want of a route has none.
pub(crate) fn check_routes(made: &Made, after: &TransferPoint) -> Check {
    let message = |number: u64| made.before.held().find(|message| message.arrival == number);
    for arrival in dropped_for(NO_ROUTE, &made.outcome) {
        let way = message(arrival).and_then(|message| way_of(after, message));
        demand(way.is_none(), || format!("{arrival} was dropped, and had a way by {way:?}"))?;
    }
    for fate in &made.fates {
        let Fate::Moved { arrival, to, .. } = *fate else { continue };
        let way = message(arrival).and_then(|message| way_of(after, message)).map(Place::On);
        demand(way == Some(to), || format!("{arrival} moved to {to}, and the rule gives {way:?}"))?;
    }
    Ok(())
}

fn way_of(point: &TransferPoint, message: &Message) -> Option<u8> {
    let Label { dpc, sls, .. } = Label::read(&message.octets);
    match message.management {
        true => point.management_path(dpc, sls, None),
        false => point.current_link(dpc, sls),
    }
}
