//! What is written of a run: of each call its answer.

use crate::options::Shown;
use crate::point::{Outcome, Output, Report};
use crate::record::hex;
use crate::run::{self, End, Step};
use crate::totals::Totals;
use crate::words;

/// The text of a run, and how the run ended.
pub struct Written {
    pub text: String,
    pub end: End,
}

/// With no options.
pub fn replay(configuration: &[u8], record: &[u8]) -> String {
    replay_shown(configuration, record, &Shown::default()).text
}

pub fn replay_shown(configuration: &[u8], record: &[u8], shown: &Shown) -> Written {
    let mut answers = Answers { shown, text: String::new(), totals: Totals::default() };
    let end = run::every_call(configuration, record, shown.last_run(), |step| answers.write(step));
    let Answers { mut text, totals, .. } = answers;
    text += &refusal(end, shown.words);
    // What is said of a refused configuration stands alone.
    if shown.summary && !matches!(end, End::ConfigurationRefused(_)) {
        text += &totals.text(shown);
    }
    Written { text, end }
}

/// The line that ends a run which was refused; it is shown whatever is asked for.
pub(crate) fn refusal(end: End, with_words: bool) -> String {
    let (line, fault) = match end {
        End::AllRun => return String::new(),
        End::ConfigurationRefused(fault) => (format!("config\t{}\t{}", fault.line, fault.code), fault.code),
        End::Unreadable(number) => (format!("{number}\trefused\t{}", words::UNREADABLE), words::UNREADABLE),
    };
    format!("{line}{}\n", behind(with_words, Some(words::of_fault(fault))))
}

/// The field more that words make.
fn behind(with_words: bool, words: Option<&str>) -> String {
    words.filter(|_| with_words).map_or(String::new(), |words| format!("\t{words}"))
}

/// The answers shown so far.
struct Answers<'a> {
    shown: &'a Shown,
    text: String,
    totals: Totals,
}

impl Answers<'_> {
    fn write(&mut self, step: &Step) {
        if !self.shown.covers(step.number) {
            return;
        }
        if self.shown.calls {
            self.line(step, &format!("call\t{}", String::from_utf8_lossy(step.line)));
        }
        if !self.shown.only_reports {
            self.write_reply(step);
        }
        if self.shown.fates {
            self.write_fates(step);
        }
        self.write_reports(step);
        if !self.shown.only_reports {
            self.write_routes(step);
        }
    }

    fn line(&mut self, step: &Step, rest: &str) {
        self.text += &format!("{}\t{rest}\n", step.number);
    }

    fn write_reply(&mut self, step: &Step) {
        let reply = step.outcome.reply;
        self.totals.reply(reply);
        let words = behind(self.shown.words, words::of_reply(reply));
        self.line(step, &format!("{}{words}", reply_text(step.outcome)));
    }

    fn write_fates(&mut self, step: &Step) {
        for fate in step.fates {
            self.totals.fate(fate);
            self.line(step, &fate.to_string());
        }
    }

    fn write_reports(&mut self, step: &Step) {
        for report in &step.outcome.effects.reports {
            self.totals.report(report);
            let reason = match report {
                Report::Drop { reason, .. } => Some(words::of_reason(*reason)),
                _ => None,
            };
            self.line(step, &format!("{}{}", report_text(report), behind(self.shown.words, reason)));
        }
    }

    fn write_routes(&mut self, step: &Step) {
        if let Output::RouteList(lines) = &step.outcome.effects.output {
            for line in lines {
                self.line(step, &format!("route\t{line}"));
            }
        }
    }
}

fn reply_text(outcome: &Outcome) -> String {
    let reply = outcome.reply as u8;
    match &outcome.effects.output {
        Output::Leaves { fsn, octets } => format!("reply\t{reply}\t{fsn}\t{}", hex(octets)),
        Output::Delivered(part) => format!("reply\t{reply}\t{}", hex(part)),
        Output::Nothing | Output::RouteList(_) => format!("reply\t{reply}"),
    }
}

fn report_text(report: &Report) -> String {
    match report {
        Report::Drop { arrival, reason } => format!("drop\t{arrival}\t{reason}"),
        Report::Pause(code) => format!("pause\t{code}"),
        Report::Resume(code) => format!("resume\t{code}"),
    }
}
