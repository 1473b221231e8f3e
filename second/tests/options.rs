//! The options of `replay`, its exit statuses and what it says on standard error.

mod common;

use common::{file, run, second, tabs, Ran, TWO_WAYS};

/// ECO about link 0, over the link itself: one message is sent, one isn't, and neither has another way.
const RECORD: &str = "
service 0
host 850180000001
host 85018000000A
send 0
send 9
ack 0 127
received 0 0 800240000012
host 850180000003
";

fn replay(options: &[&str]) -> Ran {
    run("replay", options, TWO_WAYS, RECORD)
}

/// The whole of standard output; nothing else is said.
fn check(options: &[&str], expected: &str) {
    let ran = replay(options);
    assert_eq!((ran.out, ran.err, ran.status), (tabs(expected), String::new(), 0), "{options:?}");
}

const PLAIN: &str = "
1 reply 0
1 resume 1
1 resume 9
2 reply 0
3 reply 0
4 reply 0 0 850180000001
5 reply 2
6 reply 0
7 reply 0
7 drop 0 2
7 drop 1 1
7 pause 1
7 pause 9
8 reply 9
";

#[test]
fn without_options() {
    check(&[], PLAIN);
}

#[test]
fn from_and_to() {
    check(&["--from", "5", "--to", "6"], "5 reply 2\n6 reply 0\n");
    check(&["--from", "8"], "8 reply 9\n");
    check(&["--to", "1"], "1 reply 0\n1 resume 1\n1 resume 9\n");
    check(&["--from", "9"], "");
    check(&["--from", "6", "--to", "5"], "");
    check(&["--from", "1", "--to", "18446744073709551615"], PLAIN);
}

#[test]
fn an_option_counts_as_it_stands_last() {
    check(&["--from", "2", "--to", "3", "--from", "8", "--to", "8"], "8 reply 9\n");
    check(&["--only", "reports", "--only", "reports", "--from", "7"], "7 drop 0 2\n7 drop 1 1\n7 pause 1\n7 pause 9\n");
}

#[test]
fn only_reports() {
    check(&["--only", "reports"], "1 resume 1\n1 resume 9\n7 drop 0 2\n7 drop 1 1\n7 pause 1\n7 pause 9\n");
    let routes = run("replay", &["--only", "reports"], TWO_WAYS, "service 4\nroutes\n");
    assert_eq!(routes.out, tabs("1 resume 3\n1 resume 9\n"));
}

#[test]
fn with_fates() {
    check(
        &["--fates", "--to", "4"],
        "
1 reply 0
1 resume 1
1 resume 9
2 reply 0
2 queued 0 0
3 reply 0
3 queued 1 0
4 reply 0 0 850180000001
4 sent 0 0 0
",
    );
}

#[test]
fn with_calls_as_they_stand_in_the_record() {
    check(
        &["--calls", "--from", "3", "--to", "5"],
        "
3 call host 85018000000A
3 reply 0
4 call send 0
4 reply 0 0 850180000001
5 call send 9
5 reply 2
",
    );
}

#[test]
fn calls_and_fates_together() {
    let expected = "4 call send 0\n4 reply 0 0 850180000001\n4 sent 0 0 0\n";
    check(&["--fates", "--calls", "--from", "4", "--to", "4"], expected);
}

#[test]
fn with_words() {
    let ran = replay(&["--words", "--from", "4"]);
    let expected = "4\treply\t0\t0\t850180000001
5\treply\t2\tthe link, set or destination isn't configured
6\treply\t0
7\treply\t0
7\tdrop\t0\t2\tsent, and what the far end took isn't known
7\tdrop\t1\t1\tno route
7\tpause\t1
7\tpause\t9
8\treply\t9\tthe destination isn't configured or inaccessible
";
    assert_eq!((ran.out.as_str(), ran.status), (expected, 0));
}

const TOTALS: &str = "
total reply 0 6
total reply 1 0
total reply 2 1
total reply 3 0
total reply 4 0
total reply 5 0
total reply 6 0
total reply 7 0
total reply 8 0
total reply 9 1
total reply 10 0
total reply 11 0
total drop 1 1
total drop 2 1
total pause 2
total resume 2
";

#[test]
fn with_a_summary() {
    check(&["--summary"], &format!("{PLAIN}{}", TOTALS.trim_start()));
}

#[test]
fn a_summary_of_reports_alone() {
    let ran = replay(&["--summary", "--only", "reports", "--from", "7"]);
    let reports = "7 drop 0 2\n7 drop 1 1\n7 pause 1\n7 pause 9\n";
    let replies: String = (0..12).map(|reply| format!("total reply {reply} 0\n")).collect();
    let totals = "total drop 1 1\ntotal drop 2 1\ntotal pause 2\ntotal resume 0\n";
    assert_eq!(ran.out, tabs(&format!("{reports}{replies}{totals}")));
}

#[test]
fn a_summary_has_all_its_lines_where_nothing_is_shown() {
    let nothing = |kinds: &[&str]| -> String {
        let replies = (0..12).map(|reply| format!("reply {reply}"));
        let all = replies.chain(["drop 1", "drop 2", "pause", "resume"].map(str::to_string));
        all.chain(kinds.iter().map(|kind| kind.to_string())).map(|kind| format!("total {kind} 0\n")).collect()
    };
    check(&["--summary", "--from", "9"], &nothing(&[]));
    check(&["--summary", "--only", "reports", "--from", "8"], &nothing(&[]));
    check(&["--summary", "--to", "0", "--words", "--calls"], &nothing(&[]));
    let fates = ["queued", "sent", "acknowledged", "retired", "moved"];
    check(&["--summary", "--fates", "--from", "6", "--to", "5"], &nothing(&fates));
    let ran = run("replay", &["--summary", "--words"], TWO_WAYS, "t5 0\n");
    let refused = "1\trefused\t30\tthe line can't be read\n";
    assert_eq!((ran.out, ran.status), (format!("{refused}{}", tabs(&nothing(&[]))), 1));
    let ran = run("replay", &["--summary"], TWO_WAYS, "");
    assert_eq!((ran.out, ran.status), (tabs(&nothing(&[])), 0));
}

#[test]
fn a_line_that_cannot_be_read_is_no_call() {
    let ran = run("replay", &["--calls"], TWO_WAYS, "send 9\nsend 09\n");
    assert_eq!((ran.out, ran.status), (tabs("1 call send 9\n1 reply 2\n2 refused 30\n"), 1));
}

#[test]
fn a_summary_with_fates() {
    // Two messages sent and acknowledged up to the first, then COO with number 1 of the far end.
    let record = "
service 0
service 4
host 8509800000a0
host 8509800000a1
host 8509800000a2
send 0
send 0
ack 0 0
received 4 0 80024000001101
";
    let ran = run("replay", &["--summary", "--fates", "--from", "9"], TWO_WAYS, record);
    let start = "9 reply 0\n9 retired 1 0\n9 moved 2 0 4\n9 pause 1\ntotal reply 0 1\n";
    assert!(ran.out.starts_with(&tabs(start)), "{}", ran.out);
    let end = "total resume 0\ntotal queued 0\ntotal sent 0\ntotal acknowledged 0\ntotal retired 1\ntotal moved 1\n";
    assert!(ran.out.ends_with(&tabs(end)), "{}", ran.out);
    let ran = run("replay", &["--summary", "--fates"], TWO_WAYS, record);
    let end = "total resume 3\ntotal queued 3\ntotal sent 2\ntotal acknowledged 1\ntotal retired 1\ntotal moved 1\n";
    assert!(ran.out.ends_with(&tabs(end)), "{}", ran.out);
}

#[test]
fn a_summary_counts_what_is_shown() {
    let ran = replay(&["--summary", "--from", "5", "--to", "5"]);
    let start = "5 reply 2\ntotal reply 0 0\ntotal reply 1 0\ntotal reply 2 1\n";
    assert!(ran.out.starts_with(&tabs(start)), "{}", ran.out);
    assert!(ran.out.ends_with(&tabs("total pause 0\ntotal resume 0\n")), "{}", ran.out);
}

#[test]
fn options_stand_anywhere() {
    let files = [file(&tabs(TWO_WAYS)), file(&tabs(RECORD))];
    let [configuration, record] = [files[0].name(), files[1].name()];
    for words in [
        ["--to", "5", "--from", "5", configuration, record],
        ["--from", "5", configuration, "--to", "5", record],
        [configuration, "--to", "5", record, "--from", "5"],
        [configuration, record, "--from", "5", "--to", "5"],
    ] {
        let ran = second(&[&["replay"], &words[..]].concat());
        assert_eq!((ran.out, ran.status), (tabs("5 reply 2\n"), 0), "{words:?}");
    }
}

#[test]
fn two_dashes_end_the_options() {
    let files = [file(&tabs(TWO_WAYS)), file(&tabs(RECORD))];
    let [configuration, record] = [files[0].name(), files[1].name()];
    for words in [
        &["--from", "8", "--", configuration, record][..],
        &["--from", "8", configuration, "--", record],
        &["--from", "8", configuration, record, "--"],
    ] {
        let ran = second(&[&["replay"], words].concat());
        assert_eq!((ran.out, ran.status), (tabs("8 reply 9\n"), 0), "{words:?}");
    }
    // Behind it all words are files, a second one too.
    wrong(second(&["replay", "--", configuration, record, "--from", "8"]), "--from");
    wrong(second(&["replay", "--", configuration, "--help"]), "--help: ");
    wrong(second(&["replay", "--", "--", record]), "--: ");
    wrong(second(&["trace", configuration, "--", "--lost"]), "--lost: ");
    // It is no file, and what belongs behind an option isn't it either.
    wrong(second(&["replay", configuration, "--"]), "belongs behind");
    wrong(second(&["replay", configuration, record, "--from", "--", "8"]), "--from --");
}

#[test]
fn files_whose_names_begin_with_a_dash() {
    let folder = std::path::Path::new(env!("CARGO_TARGET_TMPDIR")).join(format!("{}-dashes", std::process::id()));
    std::fs::create_dir(&folder).unwrap();
    std::fs::write(folder.join("-c"), tabs(TWO_WAYS)).unwrap();
    std::fs::write(folder.join("--help"), tabs(RECORD)).unwrap();
    let run_there = |words: &[&str]| {
        let program = env!("CARGO_BIN_EXE_second");
        let ran = std::process::Command::new(program).args(words).current_dir(&folder).output().unwrap();
        (String::from_utf8(ran.stdout).unwrap(), ran.status.code())
    };
    let replayed = run_there(&["replay", "--from", "8", "--", "-c", "--help"]);
    let traced = run_there(&["trace", "--to", "1", "--", "-c", "--help"]);
    let without = run_there(&["replay", "--from", "8", "-c", "--", "--help"]);
    std::fs::remove_dir_all(&folder).unwrap();
    assert_eq!(replayed, (tabs("8 reply 9\n"), Some(0)));
    assert_eq!(traced, (String::new(), Some(0)));
    assert_eq!(without, (String::new(), Some(2)));
}

// What is refused.

#[test]
fn a_line_that_cannot_be_read() {
    let record = "service 4\nservice 04\nservice 0\n";
    for options in [&[][..], &["--from", "1"], &["--to", "2"], &["--calls", "--from", "3"]] {
        let ran = run("replay", options, TWO_WAYS, record);
        assert_eq!(ran.status, 1, "{options:?}");
        assert!(ran.out.ends_with("2\trefused\t30\n"), "{options:?}");
        assert_eq!(ran.err.lines().count(), 1, "{options:?}");
        assert!(ran.err.contains("line 2: the line can't be read"), "{}", ran.err);
    }
    let ran = run("replay", &["--only", "reports", "--words", "--from", "9"], TWO_WAYS, record);
    assert_eq!((ran.out.as_str(), ran.status), ("2\trefused\t30\tthe line can't be read\n", 1));
}

#[test]
fn behind_to_a_line_is_read_only_for_a_summary() {
    let record = "service 4\nservice 04\n";
    let ran = run("replay", &["--to", "1"], TWO_WAYS, record);
    assert_eq!((ran.out, ran.err, ran.status), (tabs("1 reply 0\n1 resume 3\n1 resume 9\n"), String::new(), 0));
    let ran = run("replay", &["--to", "1", "--summary"], TWO_WAYS, record);
    assert_eq!(ran.status, 1);
    let start = "1 reply 0\n1 resume 3\n1 resume 9\n2 refused 30\ntotal reply 0 1\n";
    assert!(ran.out.starts_with(&tabs(start)), "{}", ran.out);
    assert!(ran.out.ends_with(&tabs("total pause 0\ntotal resume 2\n")), "{}", ran.out);
}

#[test]
fn a_configuration_refused_stands_alone() {
    let configuration = "node 2 2\nset 0 2\n";
    for options in [&[][..], &["--summary", "--fates"], &["--only", "reports"], &["--from", "2", "--to", "1"]] {
        let ran = run("replay", options, configuration, RECORD);
        assert_eq!((ran.out, ran.status), (tabs("config 2 22\n"), 1), "{options:?}");
        assert_eq!(ran.err.lines().count(), 1);
        assert!(ran.err.contains("line 2: a repeat, or our own code"), "{}", ran.err);
    }
    let ran = run("replay", &["--words"], configuration, RECORD);
    assert_eq!((ran.out.as_str(), ran.status), ("config\t2\t22\ta repeat, or our own code\n", 1));
    let ran = run("replay", &["--words"], "", RECORD);
    assert_eq!(ran.out, "config\t1\t25\tthe first line isn't the node's, or there is no text\n");
}

/// Status 2, nothing written, and one line that has the wrong word in it.
fn wrong(ran: Ran, word: &str) {
    assert_eq!((ran.out.as_str(), ran.status), ("", 2), "{}", ran.err);
    assert_eq!(ran.err.lines().count(), 1, "{}", ran.err);
    assert!(ran.err.contains(word), "{}", ran.err);
}

#[test]
fn arguments_that_are_not_right() {
    for (options, word) in [
        (&["--sumary"][..], "--sumary"),
        (&["--from", "x"], "x"),
        (&["--from", "01"], "01"),
        (&["--to", "-1"], "-1"),
        (&["--to", "18446744073709551616"], "18446744073709551616"),
        (&["--from", "--to", "4"], "--to"),
        (&["--only", "drops"], "drops"),
        (&["--only", "reports", "--fates"], "--fates"),
        (&["--calls", "--only", "reports"], "--calls"),
        (&["--pcap", "out"], "--pcap"),
        (&["--link-type", "139"], "--link-type"),
        (&["--lost"], "--lost"),
        (&["third"], ""),
    ] {
        wrong(replay(options), word);
    }
    wrong(second(&["replay", "one", "two", "--from"]), "--from");
    wrong(second(&["replay", "one", "two", "three", "four"]), "three");
    wrong(second(&["replay", "one"]), "one");
    wrong(second(&["replay"]), "configuration");
}

#[test]
fn the_first_wrong_word_is_told() {
    for (words, told) in [
        (&["--only", "drops", "--sumary"][..], "--only drops"),
        (&["--sumary", "--from", "x"], "--sumary"),
        (&["--from", "x", "--from", "1"], "--from x"),
        (&["--only", "reports", "--fates", "--sumary"], "--fates: not with --only"),
        (&["--calls", "--only", "reports", "--to", "x"], "--only: not with --calls"),
        (&["one", "two", "three", "--sumary"], "three"),
        (&["one", "two", "--sumary", "three"], "--sumary"),
        (&["one", "--from", "-1", "two", "three"], "--from -1"),
        (&["one", "two", "three", "--only", "reports", "--calls"], "three"),
        (&["--sumary", "--help"], "--sumary"),
        (&["-x", "--sumary"], "-x"),
        (&["not-there", "not-there-too"], "not-there:"),
    ] {
        let ran = second(&[&["replay"], words].concat());
        assert!(ran.err.starts_with(told), "{words:?}: {}", ran.err);
        wrong(ran, told);
    }
}

#[test]
fn files_that_are_missing() {
    let file = file(&tabs(TWO_WAYS));
    let there = file.name();
    wrong(second(&["replay", "not-there", there]), "not-there");
    wrong(second(&["replay", there, "not-there"]), "not-there");
    wrong(second(&["replay", there, env!("CARGO_TARGET_TMPDIR")]), env!("CARGO_TARGET_TMPDIR"));
}

#[test]
fn help_runs_nothing() {
    for words in [&["replay", "--help"][..], &["replay", "not-there", "not-there", "--help"], &["trace", "--help"]] {
        let ran = second(words);
        assert_eq!((ran.err.as_str(), ran.status), ("", 0), "{words:?}");
        assert!(ran.out.starts_with(&format!("second {} ", words[0])), "{}", ran.out);
    }
    for option in ["--from", "--to", "--only", "--fates", "--calls", "--words", "--summary", "--help"] {
        assert!(second(&["replay", "--help"]).out.contains(&format!("\n{option} ")), "{option}");
    }
    for option in
        ["--link", "--from", "--to", "--destination", "--circuit", "--lost", "--twice", "--changeovers", "--help"]
    {
        assert!(second(&["trace", "--help"]).out.contains(&format!("\n{option} ")), "{option}");
    }
}

#[cfg(target_os = "linux")]
#[test]
fn output_that_cannot_be_written() {
    let (configuration, record) = (file(&tabs(TWO_WAYS)), file(&tabs(RECORD)));
    let full = std::fs::OpenOptions::new().write(true).open("/dev/full").unwrap();
    let ran = std::process::Command::new(env!("CARGO_BIN_EXE_second"))
        .args(["replay", configuration.name(), record.name()])
        .stdout(full)
        .output()
        .unwrap();
    assert_eq!(ran.status.code(), Some(2));
    assert!(String::from_utf8(ran.stderr).unwrap().starts_with("standard output: "));
}
