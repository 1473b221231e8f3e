//! The words behind a command: two files, and options before, between or behind them.

use std::ffi::OsString;

use crate::configuration::plain_decimal;

/// The options of one command.
pub trait Options: Default {
    const COMMAND: &'static str;
    const HELP: &'static str;
    /// Options that the text formats have and this program hasn't.
    const NOT_HERE: &'static [&'static str];

    /// Take an option, and what belongs to it from the words behind; false if there is none of that name.
    fn take(&mut self, option: &str, behind: &mut Words) -> Result<bool, String>;

    /// Two options that were taken and don't go together.
    fn clash(&self) -> Option<[&'static str; 2]> {
        None
    }
}

#[derive(Debug, PartialEq, Eq)]
pub enum Request<T> {
    Help,
    Run { options: T, configuration: OsString, record: OsString },
}

/// The words that haven't been read yet.
pub struct Words(std::vec::IntoIter<OsString>);

impl Words {
    pub fn word(&mut self, option: &str) -> Result<String, String> {
        let word = self.0.next().ok_or_else(|| format!("{option}: what belongs behind it is missing"))?;
        Ok(word.to_string_lossy().into_owned())
    }

    pub fn number(&mut self, option: &str, highest: u64) -> Result<u64, String> {
        let word = self.word(option)?;
        match plain_decimal(word.as_bytes()) {
            Some(number) if number <= highest => Ok(number),
            Some(_) => Err(format!("{option} {}: the number is above {highest}", one_line(&word))),
            None => Err(format!("{option} {}: that is no plain decimal", one_line(&word))),
        }
    }
}

/// A word as part of a line, whatever it has in it.
pub fn one_line(word: &str) -> String {
    word.chars().flat_map(|c| if c.is_control() { c.escape_default().collect() } else { vec![c] }).collect()
}

/// Behind this word stand files alone.
const END_OF_OPTIONS: &str = "--";

/// Words are read from left to right: the first that is wrong, or `--help`, decides. Of two options that don't
/// go together the later is wrong, of three files the third.
pub fn read<T: Options>(words: Vec<OsString>) -> Result<Request<T>, String> {
    let (mut options, mut files, mut ended) = (T::default(), Vec::new(), false);
    let mut words = Words(words.into_iter());
    while let Some(word) = words.0.next() {
        let text = word.to_string_lossy();
        if ended || !text.starts_with('-') {
            add_file(&mut files, word)?;
        } else if text == END_OF_OPTIONS {
            ended = true;
        } else if text == "--help" {
            return Ok(Request::Help);
        } else {
            take_option(&mut options, &text, &mut words)?;
        }
    }
    let [configuration, record] = two_files(files)?;
    Ok(Request::Run { options, configuration, record })
}

fn take_option<T: Options>(options: &mut T, option: &str, behind: &mut Words) -> Result<(), String> {
    if T::NOT_HERE.contains(&option) {
        return Err(format!("{option}: not known in this program"));
    }
    if !options.take(option, behind)? {
        return Err(format!("{}: no option of {}", one_line(option), T::COMMAND));
    }
    let Some(clash) = options.clash() else { return Ok(()) };
    let other = if clash[0] == option { clash[1] } else { clash[0] };
    Err(format!("{option}: not with {other}"))
}

fn add_file(files: &mut Vec<OsString>, name: OsString) -> Result<(), String> {
    if files.len() == 2 {
        return Err(format!("{}: one file too many", one_line(&name.to_string_lossy())));
    }
    files.push(name);
    Ok(())
}

fn two_files(files: Vec<OsString>) -> Result<[OsString; 2], String> {
    files.try_into().map_err(|few: Vec<OsString>| match few.first() {
        Some(first) => format!("{}: the record belongs behind it", one_line(&first.to_string_lossy())),
        None => "the configuration and the record are missing".to_string(),
    })
}
