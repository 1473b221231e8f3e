//! The options of `replay` and of `trace`.

use crate::arguments::{one_line, Options, Words};
use crate::naming::HIGHEST_CIRCUIT;
use crate::point::{HIGHEST_CODE, HIGHEST_LINK};

/// What a replay shows.
#[derive(Clone, PartialEq, Eq, Debug)]
pub struct Shown {
    pub from: u64,
    pub to: u64,
    pub only_reports: bool,
    pub fates: bool,
    pub calls: bool,
    pub words: bool,
    pub summary: bool,
}

impl Default for Shown {
    fn default() -> Shown {
        Shown { from: 1, to: u64::MAX, only_reports: false, fates: false, calls: false, words: false, summary: false }
    }
}

impl Options for Shown {
    const COMMAND: &'static str = "replay";
    const NOT_HERE: &'static [&'static str] = &["--pcap", "--link-type"];
    const HELP: &'static str = "second replay [options] CONFIGURATION RECORD
Runs the record and writes what each of its lines was answered.
--from LINE     only the answers from that line of the record on
--to LINE       only the answers up to that line
--only reports  only drops, pauses and resumes
--fates         what became of messages too: queued, sent, acknowledged, retired, moved
--calls         before each answer the line that it answers, as it stands there
--words         replies, reasons and faults in words too
--summary       behind all else, how many of what is shown there were, 0 where there is none
--help          this
--              behind it stand files alone
--fates and --calls don't go with --only; of an option that stands twice the last counts.
";

    fn take(&mut self, option: &str, behind: &mut Words) -> Result<bool, String> {
        match option {
            "--from" => self.from = behind.number(option, u64::MAX)?,
            "--to" => self.to = behind.number(option, u64::MAX)?,
            "--only" => {
                let what = behind.word(option)?;
                if what != "reports" {
                    return Err(format!("--only {}: only reports can be asked for so", one_line(&what)));
                }
                self.only_reports = true;
            }
            "--fates" => self.fates = true,
            "--calls" => self.calls = true,
            "--words" => self.words = true,
            "--summary" => self.summary = true,
            _ => return Ok(false),
        }
        Ok(true)
    }

    fn clash(&self) -> Option<[&'static str; 2]> {
        let apart = [(self.fates, "--fates"), (self.calls, "--calls")];
        apart.into_iter().find(|(asked, _)| *asked && self.only_reports).map(|(_, option)| [option, "--only"])
    }
}

impl Shown {
    pub fn covers(&self, line: usize) -> bool {
        (self.from..=self.to).contains(&(line as u64))
    }

    /// The last line that has to be run.
    pub fn last_run(&self) -> u64 {
        if self.summary {
            u64::MAX
        } else {
            self.to
        }
    }
}

/// What a trace is asked for; a message is shown if it is all of it.
#[derive(Clone, PartialEq, Eq, Debug)]
pub struct Asked {
    pub link: Option<u8>,
    pub from: u64,
    pub to: u64,
    pub destination: Option<u16>,
    pub circuit: Option<u16>,
    pub lost: bool,
    pub twice: bool,
    pub changeovers: bool,
}

impl Default for Asked {
    fn default() -> Asked {
        Asked {
            link: None,
            from: 1,
            to: u64::MAX,
            destination: None,
            circuit: None,
            lost: false,
            twice: false,
            changeovers: false,
        }
    }
}

impl Options for Asked {
    const COMMAND: &'static str = "trace";
    const NOT_HERE: &'static [&'static str] = &["--picture"];
    const HELP: &'static str = "second trace [options] CONFIGURATION RECORD
Runs the record and writes of each message that was queued what became of it.
--link LINK         only messages that stood in that link's queue (0 to 31) at some time
--from LINE         only those that came with that line of the record or a later one
--to LINE           only those that came with that line or an earlier one
--destination CODE  only those for that destination (0 to 16383)
--circuit CIRCUIT   only those of which the line says that circuit (0 to 4095)
--lost              only those dropped, and those held at the end that were sent on the link they are held on
--twice             only those that may arrive twice by one of their moves
--changeovers       no messages, but a sentence for each link that went out, whatever chooses messages
--help              this
--                  behind it stand files alone
Of an option that stands twice the last counts.
";

    fn take(&mut self, option: &str, behind: &mut Words) -> Result<bool, String> {
        match option {
            "--link" => self.link = Some(behind.number(option, HIGHEST_LINK)? as u8),
            "--from" => self.from = behind.number(option, u64::MAX)?,
            "--to" => self.to = behind.number(option, u64::MAX)?,
            "--destination" => self.destination = Some(behind.number(option, HIGHEST_CODE)? as u16),
            "--circuit" => self.circuit = Some(behind.number(option, HIGHEST_CIRCUIT)? as u16),
            "--lost" => self.lost = true,
            "--twice" => self.twice = true,
            "--changeovers" => self.changeovers = true,
            _ => return Ok(false),
        }
        Ok(true)
    }
}
