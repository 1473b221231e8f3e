use std::ffi::OsString;
use std::io::Write;
use std::path::Path;
use std::process::ExitCode;

use second::arguments::{self, Options, Request};
use second::compare::compare;
use second::compare_traces::compare_traces;
use second::generate::{generate, generate_with_circuits, Generated};
use second::replay::Written;
use second::run::End;
use second::{corners, count, replay, trace, words};

const USAGE: &str = "second replay [options] CONFIGURATION RECORD
second trace [options] CONFIGURATION RECORD
second generate [--circuits] SEED LINES CONFIGURATION RECORD
second count OUTPUT
second corners CONFIGURATION RECORD
second compare [--trace] RECORD OURS THEIRS";

/// 1 where a text is refused, or two outputs differ.
const REFUSED: u8 = 1;
/// 2 where the words or the files aren't right, or something couldn't be written.
const NOT_RUN: u8 = 2;

fn main() -> ExitCode {
    let mut arguments = std::env::args_os().skip(1);
    let command = arguments.next().unwrap_or_default();
    let behind: Vec<OsString> = arguments.collect();
    let status = match command.to_str() {
        Some("replay") => run_record(behind, replay::replay_shown),
        Some("trace") => run_record(behind, trace::trace),
        _ => run_other(&command, &behind),
    };
    status.map_or_else(
        |fault| {
            eprintln!("{fault}");
            ExitCode::from(NOT_RUN)
        },
        ExitCode::from,
    )
}

fn run_other(command: &OsString, behind: &[OsString]) -> Result<u8, String> {
    let words: Option<Vec<&str>> = std::iter::once(command).chain(behind).map(|word| word.to_str()).collect();
    match words.unwrap_or_default()[..] {
        ["generate", "--circuits", seed, lines, configuration, record] => {
            write_generated(generate_with_circuits(number(seed)?, number(lines)? as usize), configuration, record)?
        }
        ["generate", seed, lines, configuration, record] => {
            write_generated(generate(number(seed)?, number(lines)? as usize), configuration, record)?
        }
        ["count", output] => print(&count::count(&String::from_utf8_lossy(&read(output)?)))?,
        ["corners", configuration, record] => {
            print(&corners::text(&corners::corners(&read(configuration)?, &read(record)?)))?
        }
        ["compare", "--trace", record, ours, theirs] => return run_compare(compare_traces, [record, ours, theirs]),
        ["compare", record, ours, theirs] if record != "--trace" => {
            return run_compare(compare, [record, ours, theirs])
        }
        _ => return Err(USAGE.to_string()),
    }
    Ok(0)
}

fn named(name: &Path) -> String {
    arguments::one_line(&name.to_string_lossy())
}

fn read(name: impl AsRef<Path>) -> Result<Vec<u8>, String> {
    std::fs::read(&name).map_err(|fault| format!("{}: {fault}", named(name.as_ref())))
}

fn write(name: &str, text: &str) -> Result<(), String> {
    std::fs::write(name, text).map_err(|fault| format!("{name}: {fault}"))
}

fn print(text: &str) -> Result<(), String> {
    let mut output = std::io::stdout().lock();
    let written = output.write_all(text.as_bytes()).and_then(|()| output.flush());
    written.map_err(|fault| format!("standard output: {fault}"))
}

/// Replay or trace: both files are read before anything is run or written.
fn run_record<T: Options>(behind: Vec<OsString>, run: fn(&[u8], &[u8], &T) -> Written) -> Result<u8, String> {
    let (options, configuration, record) = match arguments::read::<T>(behind)? {
        Request::Help => return print(T::HELP).map(|()| 0),
        Request::Run { options, configuration, record } => (options, configuration, record),
    };
    let written = run(&read(&configuration)?, &read(&record)?, &options);
    print(&written.text)?;
    Ok(tell_refusal(written.end, configuration.as_ref(), record.as_ref()))
}

/// The status of a run, and one line about what was refused in it.
fn tell_refusal(end: End, configuration: &Path, record: &Path) -> u8 {
    let (file, line, fault) = match end {
        End::AllRun => return 0,
        End::ConfigurationRefused(fault) => (configuration, fault.line, fault.code),
        End::Unreadable(line) => (record, line, words::UNREADABLE),
    };
    eprintln!("{}: line {line}: {}", named(file), words::of_fault(fault));
    REFUSED
}

fn number(word: &str) -> Result<u64, String> {
    word.parse().map_err(|_| format!("{}: no number", arguments::one_line(word)))
}

fn write_generated(generated: Generated, configuration: &str, record: &str) -> Result<(), String> {
    write(configuration, &generated.configuration)?;
    write(record, &generated.record)
}

type Compare = fn(&[u8], &[u8], &[u8]) -> Option<String>;

fn run_compare(compare: Compare, [record, ours, theirs]: [&str; 3]) -> Result<u8, String> {
    match compare(&read(record)?, &read(ours)?, &read(theirs)?) {
        None => Ok(0),
        Some(text) => print(&text).map(|()| REFUSED),
    }
}
