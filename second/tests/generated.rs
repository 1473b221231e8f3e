//! Generated runs: the bookkeeping holds, and what matters does occur.

use std::collections::{BTreeMap, BTreeSet};

use second::corners;
use second::count::count;
use second::generate::{generate, generate_with_circuits, Generated};
use second::options::{Asked, Shown};
use second::replay::{replay, replay_shown};
use second::trace::trace;

/// How often a corner occurs, and in how many runs.
#[derive(Default, Debug)]
struct Seen {
    times: usize,
    runs: usize,
}

/// How often each corner, and in the outputs each reply, reason and report, occurs over forty seeds.
fn totals() -> (BTreeMap<&'static str, Seen>, String) {
    let (mut corners, mut outputs): (BTreeMap<_, Seen>, _) = (BTreeMap::new(), String::new());
    for seed in 1..=40 {
        let generated = generate(seed, 1_500);
        let (configuration, record) = (generated.configuration.as_bytes(), generated.record.as_bytes());
        for (name, count) in corners::corners(configuration, record) {
            let seen = corners.entry(name).or_default();
            seen.times += count;
            seen.runs += usize::from(count > 0);
        }
        outputs += &replay(configuration, record);
    }
    (corners, count(&outputs))
}

#[test]
fn corners_replies_and_reports_occur() {
    let (corners, counts) = totals();
    println!("{corners:#?}\n{counts}");
    let rare: Vec<_> = corners.iter().filter(|(_, seen)| seen.times < 4).collect();
    assert!(rare.is_empty(), "rare: {rare:?}");
    // Of each way to end a changeover, with another route and without: one run in eight, so that no batch goes without.
    let endings: Vec<_> = corners.iter().filter(|(name, _)| name.contains(": sent ")).collect();
    assert_eq!(endings.len(), 12);
    assert!(endings.iter().all(|(_, seen)| seen.runs >= 5), "{endings:?}");
    for line in counts.lines() {
        let (kind, count) = line.split_once('\t').unwrap();
        let often = match kind {
            "reply 10" | "config" | "refused" => 0,
            _ => 200,
        };
        assert!(count.parse::<usize>().unwrap() >= often, "{line}");
    }
}

/// The counts of a summary with fates.
fn summary(configuration: &[u8], record: &[u8]) -> BTreeMap<String, usize> {
    let shown = Shown { fates: true, summary: true, ..Shown::default() };
    let text = replay_shown(configuration, record, &shown).text;
    let totals = text.lines().filter_map(|line| line.strip_prefix("total\t"));
    let parted = totals.map(|line| line.rsplit_once('\t').unwrap());
    parted.map(|(kind, count)| (kind.to_string(), count.parse().unwrap())).collect()
}

#[test]
fn a_trace_tells_of_each_message_once_and_as_the_fates_do() {
    for seed in (1..=12).filter(|seed| seed % 16 != 5) {
        let generated = if seed % 2 == 0 { generate(seed, 1_500) } else { generate_with_circuits(seed, 1_500) };
        let (configuration, record) = (generated.configuration.as_bytes(), generated.record.as_bytes());
        let totals = summary(configuration, record);
        let text = trace(configuration, record, &Asked::default()).text;
        let stories: Vec<&str> = text.lines().filter(|line| !line.contains("\trefused\t")).collect();
        let arrivals: BTreeSet<&str> = stories.iter().map(|line| line.split('\t').next().unwrap()).collect();
        assert_eq!((stories.len(), arrivals.len()), (totals["queued"], totals["queued"]), "seed {seed}");
        let with = |part: &str| stories.iter().filter(|line| line.contains(part)).count();
        assert_eq!(with("acknowledged on "), totals["acknowledged"], "seed {seed}");
        assert_eq!(with("retired on "), totals["retired"], "seed {seed}");
        assert_eq!(with("dropped at "), totals["drop\t1"] + totals["drop\t2"], "seed {seed}");
    }
}

/// How many messages the sentences about links say may arrive twice.
fn twice_by_sentences(configuration: &[u8], record: &[u8]) -> usize {
    let text = trace(configuration, record, &Asked { changeovers: true, ..Asked::default() }).text;
    let counts = text.lines().filter_map(|line| line.strip_suffix(" may arrive twice")?.rsplit(", ").next());
    counts.map(|count| count.parse::<usize>().unwrap()).sum()
}

#[test]
fn stories_and_sentences_tell_the_same_of_what_may_arrive_twice() {
    let mut seen = 0;
    for seed in (30..=40).filter(|seed| seed % 16 != 5) {
        let Generated { configuration, record } = generate(seed, 1_500);
        let (configuration, record) = (configuration.as_bytes(), record.as_bytes());
        let all = trace(configuration, record, &Asked::default()).text;
        let told = all.matches(", may arrive twice").count();
        let counted = twice_by_sentences(configuration, record);
        // Of more than eight moves the first ones aren't told.
        let cut_short = all.contains(" times before");
        assert!(told == counted || told < counted && cut_short, "seed {seed}: {told} told, {counted} counted");
        let twice = trace(configuration, record, &Asked { twice: true, ..Asked::default() }).text;
        let shown = |line: &&str| line.contains(", may arrive twice");
        let (expected, found): (Vec<&str>, Vec<&str>) =
            (all.lines().filter(shown).collect(), twice.lines().filter(shown).collect());
        assert_eq!(found, expected, "seed {seed}");
        assert!(twice.lines().all(|line| shown(&line) || line.contains(" times before") || line.contains("refused")));
        seen += counted;
    }
    assert!(seen > 100, "{seen}");
}

#[test]
fn the_same_seed_gives_the_same_record() {
    let (one, two) = (generate(5, 400), generate(5, 400));
    assert_eq!(one.configuration, two.configuration);
    assert_eq!(one.record, two.record);
    assert_ne!(one.record, generate(6, 400).record);
}

/// Runs made from seeds are kept elsewhere: a change of the generator must not change them.
#[test]
fn the_seeds_give_what_they_always_gave() {
    let mut hash: u64 = 0xcbf2_9ce4_8422_2325;
    for seed in 0..=40 {
        let Generated { configuration, record } = generate(seed, 600);
        for octet in configuration.bytes().chain(record.bytes()) {
            hash = (hash ^ octet as u64).wrapping_mul(0x100_0000_01b3);
        }
    }
    assert_eq!(hash, 17593222641213057968);
}

/// A record's lines with the octets left out, which stand last.
fn calls(record: &str) -> Vec<&str> {
    let has_octets = |line: &str| line.starts_with("host\t") || line.starts_with("received\t");
    record.lines().map(|line| if has_octets(line) { line.rsplit_once('\t').unwrap().0 } else { line }).collect()
}

/// What isn't octets: fates and reports.
fn fates_and_reports(Generated { configuration, record }: &Generated) -> String {
    let shown = Shown { fates: true, ..Shown::default() };
    let text = replay_shown(configuration.as_bytes(), record.as_bytes(), &shown).text;
    text.lines().filter(|line| !line.contains("\treply\t0\t")).map(|line| format!("{line}\n")).collect()
}

#[test]
fn with_circuits_only_octets_are_others() {
    for seed in [1, 2, 5, 7, 12] {
        let (without, with) = (generate(seed, 1_000), generate_with_circuits(seed, 1_000));
        assert_eq!(without.configuration, with.configuration, "seed {seed}");
        assert_ne!(without.record, with.record, "seed {seed}");
        assert_eq!(calls(&without.record), calls(&with.record), "seed {seed}");
        assert_eq!(fates_and_reports(&without), fates_and_reports(&with), "seed {seed}");
        assert_eq!(with.record, generate_with_circuits(seed, 1_000).record, "seed {seed}");
    }
}

#[test]
fn circuits_have_names_and_several_messages() {
    let Generated { configuration, record } = generate_with_circuits(3, 2_500);
    let traced = |circuit| {
        let asked = Asked { circuit, ..Asked::default() };
        trace(configuration.as_bytes(), record.as_bytes(), &asked).text
    };
    let all = traced(None);
    let what = |line: &str| line.split('\t').nth(5).unwrap().to_string();
    let of_circuits: Vec<String> = all.lines().map(what).filter(|what| what.starts_with("circuit ")).collect();
    assert!(of_circuits.len() * 2 > all.lines().count(), "{} of {}", of_circuits.len(), all.lines().count());
    let names: BTreeSet<&str> = of_circuits.iter().filter_map(|what| what.split(' ').nth(2)).collect();
    let named = names.iter().filter(|name| name.starts_with(char::is_uppercase)).count();
    assert_eq!(named, 28, "{names:?}");
    assert!(names.len() > 28, "some have hex digits: {names:?}");
    for circuit in 252..=259 {
        let text = traced(Some(circuit));
        assert!(text.lines().count() >= 20, "circuit {circuit}");
        assert!(text.lines().all(|line| what(line).starts_with(&format!("circuit {circuit} "))), "{text}");
    }
    let short = |what: &String| what.starts_with("si 5") && what.len() <= "si 5 0102".len();
    assert!(all.lines().map(what).filter(short).count() >= 10);
}

#[test]
fn a_last_line_that_cannot_be_read() {
    let generated = generate(7, 300);
    let output = replay(generated.configuration.as_bytes(), generated.record.as_bytes());
    assert!(output.ends_with("\n300\trefused\t30\n"));
}

#[test]
fn spoilt_configurations_and_full_tables() {
    let output = |seed| {
        let generated = generate(seed, 100);
        replay(generated.configuration.as_bytes(), generated.record.as_bytes())
    };
    let spoilt: Vec<u64> = (0..40).map(|n| 16 * n + 5).collect();
    let refused = spoilt.iter().filter(|seed| output(**seed).starts_with("config\t")).count();
    assert!((20..40).contains(&refused), "{refused}");
    let full = generate(2, 0).configuration;
    assert_eq!(full.lines().filter(|line| line.starts_with("link")).count(), 32);
    assert!(!output(2).starts_with("config\t"));
}
