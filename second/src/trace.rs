//! A trace: a line for each message that was queued, once it is known what became of it.

use std::collections::{BTreeMap, BTreeSet};

use crate::endings::{may_arrive_twice, ordered_number};
use crate::fates::Fate;
use crate::options::Asked;
use crate::point::Report;
use crate::replay::{refusal, Written};
use crate::run::{self, Step};
use crate::sentences::Changeovers;
use crate::story::{Ending, Story};

pub fn trace(configuration: &[u8], record: &[u8], asked: &Asked) -> Written {
    if asked.changeovers {
        return trace_changeovers(configuration, record);
    }
    let mut stories = Stories { asked, held: BTreeMap::new(), text: String::new() };
    let end = run::every_call(configuration, record, u64::MAX, |step| stories.enter(step));
    Written { text: stories.finish() + &refusal(end, false), end }
}

fn trace_changeovers(configuration: &[u8], record: &[u8]) -> Written {
    let mut changeovers = Changeovers::default();
    let end = run::every_call(configuration, record, u64::MAX, |step| changeovers.enter(step));
    Written { text: changeovers.text + &refusal(end, false), end }
}

/// The stories of the messages held, and what is written of those that ended.
struct Stories<'a> {
    asked: &'a Asked,
    held: BTreeMap<u64, Story>,
    text: String,
}

impl Stories<'_> {
    fn enter(&mut self, step: &Step) {
        let twice = may_arrive_twice(step);
        for fate in step.fates {
            self.enter_fate(step, fate, &twice);
        }
        for report in &step.outcome.effects.reports {
            if let Report::Drop { arrival, reason } = report {
                self.end(*arrival, Ending::Dropped(*reason), step.number);
            }
        }
        let held = step.after.held().count();
        assert_eq!(self.held.len(), held, "line {}: messages with a story, and held", step.number);
    }

    fn enter_fate(&mut self, step: &Step, fate: &Fate, twice: &BTreeSet<u64>) {
        match *fate {
            Fate::Queued { arrival, place, .. } => {
                let message = step.after.held().find(|message| message.arrival == arrival).expect("a queued message");
                self.held.insert(arrival, Story::new(message.clone(), step.number, place));
            }
            Fate::Sent { arrival, fsn, .. } => self.story(arrival).send(fsn, step.number),
            Fate::Moved { arrival, from, to } => {
                self.story(arrival).shift(from, to, step.number, twice.contains(&arrival));
            }
            Fate::Acknowledged { arrival, .. } => self.end(arrival, Ending::Acknowledged, step.number),
            Fate::Retired { arrival, .. } => {
                let number = ordered_number(step.call).expect("only a changeover number retires");
                self.end(arrival, Ending::Retired(number), step.number);
            }
        }
    }

    fn story(&mut self, arrival: u64) -> &mut Story {
        self.held.get_mut(&arrival).expect("a held message has a story")
    }

    fn end(&mut self, arrival: u64, ending: Ending, line: usize) {
        let story = self.held.remove(&arrival).expect("a held message has a story");
        self.write(&story, &ending, line);
    }

    fn write(&mut self, story: &Story, ending: &Ending, line: usize) {
        if story.is_asked_for(self.asked, ending) {
            self.text += &story.text(ending, line);
        }
    }

    /// At the end of the run, by their arrival numbers, those still held.
    fn finish(mut self) -> String {
        for story in std::mem::take(&mut self.held).values() {
            self.write(story, &Ending::Held, 0);
        }
        self.text
    }
}
