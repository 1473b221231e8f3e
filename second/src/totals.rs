//! The summary: how many of what a run showed there were.

use std::collections::BTreeMap;

use crate::fates::{Fate, KINDS};
use crate::options::Shown;
use crate::point::{Reply, Report};

#[derive(Default)]
pub struct Totals {
    replies: [u64; 12],
    /// By reason; none has reason 0.
    drops: [u64; 3],
    pauses: u64,
    resumes: u64,
    fates: BTreeMap<&'static str, u64>,
}

impl Totals {
    pub fn reply(&mut self, reply: Reply) {
        self.replies[reply as usize] += 1;
    }

    pub fn report(&mut self, report: &Report) {
        match report {
            Report::Drop { reason, .. } => self.drops[*reason as usize] += 1,
            Report::Pause(_) => self.pauses += 1,
            Report::Resume(_) => self.resumes += 1,
        }
    }

    pub fn fate(&mut self, fate: &Fate) {
        *self.fates.entry(fate.kind()).or_default() += 1;
    }

    /// A line for each kind, also where none was shown; fates have lines only where they are asked for.
    pub fn text(&self, shown: &Shown) -> String {
        let replies = self.replies.iter().enumerate();
        let mut text: String = replies.map(|(reply, count)| format!("total\treply\t{reply}\t{count}\n")).collect();
        text.extend((1..=2).map(|reason| format!("total\tdrop\t{reason}\t{}\n", self.drops[reason])));
        text += &format!("total\tpause\t{}\ntotal\tresume\t{}\n", self.pauses, self.resumes);
        if shown.fates {
            let count = |kind| self.fates.get(kind).copied().unwrap_or(0);
            text.extend(KINDS.map(|kind| format!("total\t{kind}\t{}\n", count(kind))));
        }
        text
    }
}
