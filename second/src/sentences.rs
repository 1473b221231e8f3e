//! A sentence for each link that went out.

use std::collections::BTreeMap;

use crate::endings::{may_arrive_twice, number_not_in_range, order};
use crate::fates::{gone_out, Fate, Place};
use crate::point::{Call, Link, LinkState, Report};
use crate::run::Step;
use crate::wire::Management;

#[derive(Default)]
pub struct Changeovers {
    /// Of each changing link, the line at which it failed.
    failed: BTreeMap<u8, usize>,
    pub text: String,
}

impl Changeovers {
    pub fn enter(&mut self, step: &Step) {
        if let Some(link) = begun(step) {
            self.failed.insert(link, step.number);
        }
        if let Some(link) = gone_out(step.before, step.after) {
            let failed = self.failed.remove(&link).map_or(String::new(), |line| format!("failed at line {line}, "));
            self.text += &format!(
                "link {link}: {failed}changed over at line {} by {}; {}\n",
                step.number,
                ended_by(step.before.link(link), step.call),
                counts(step)
            );
        }
    }
}

/// The link that this call made changing: only the failure of an open one does.
fn begun(step: &Step) -> Option<u8> {
    let changing = |link: &Link| link.state == LinkState::Changing;
    let mut links = step.after.links.values();
    links.find(|link| changing(link) && !changing(step.before.link(link.number))).map(|link| link.number)
}

/// What took the link out, as it was before.
fn ended_by(link: &Link, call: &Call) -> String {
    match (call, order(call)) {
        (_, Some(order @ (Management::Coo { fsn } | Management::Coa { fsn }))) => {
            let range = if number_not_in_range(link, call) { " not in range" } else { "" };
            format!("{} with number {fsn}{range}", order.name())
        }
        (_, Some(order @ (Management::Eco | Management::Eca))) => order.name().to_string(),
        (Call::T1(_), _) => "T1".to_string(),
        (Call::T2(_), _) => "T2".to_string(),
        (Call::Failure(_), _) => "its failure while waiting".to_string(),
        _ => unreachable!("nothing else takes a link out"),
    }
}

/// What became of the link's queue; all fates and drops of such a call are of that queue, but for the answer.
fn counts(step: &Step) -> String {
    let retired = step.fates.iter().filter(|fate| matches!(fate, Fate::Retired { .. })).count();
    let dropped = step.outcome.effects.reports.iter().filter(|report| matches!(report, Report::Drop { .. })).count();
    let mut moved: BTreeMap<Place, usize> = BTreeMap::new();
    for fate in step.fates {
        if let Fate::Moved { to, .. } = fate {
            *moved.entry(*to).or_default() += 1;
        }
    }
    let sum: usize = moved.values().sum();
    let twice = match may_arrive_twice(step).len() {
        0 => String::new(),
        count => format!(", {count} may arrive twice"),
    };
    format!("{retired} retired, {sum} moved{}, {dropped} dropped{twice}", in_brackets(&moved))
}

fn in_brackets(moved: &BTreeMap<Place, usize>) -> String {
    if moved.is_empty() {
        return String::new();
    }
    let parts: Vec<String> = moved.iter().map(|(to, count)| format!("{count} to link {to}")).collect();
    format!(" ({})", parts.join(", "))
}
