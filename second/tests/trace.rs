//! Traces and changeovers, put down by hand. In expected lines a bar stands for a tab.

mod common;

use common::{run, second, Ran, TWO_WAYS};

/// Node 2. Set 0 to point 1 with links 0, 1 and 2, set 1 to point 3 with link 4; two ways to 9.
const THREE_LINKS: &str = "
node 2 2
set 0 1
set 1 3
link 0 0 0
link 1 0 1
link 2 0 2
link 4 1 0
route 1 0 0
route 3 1 0
route 9 0 0
route 9 1 1
";

fn bars(text: &str) -> String {
    text.trim_start().replace('|', "\t")
}

fn trace(options: &[&str], record: &str) -> Ran {
    run("trace", options, THREE_LINKS, record)
}

fn check(options: &[&str], record: &str, expected: &str) {
    let ran = trace(options, record);
    assert_eq!((ran.out, ran.err, ran.status), (bars(expected), String::new(), 0), "{options:?}");
}

/// While link 0 is alone in its set three calls for 9 come to its queue (arrivals 0 to 2);
/// then links 1 and 2 open, each after a CBD there (3 and 4). Two messages leave. Line 12 is the next.
const LOADED: &str = "
service 0
service 4
host 85098000002c0101
host 85098000102c010c
host 8309800020
service 1
t4 1
service 2
t4 2
send 0
send 0
";

fn loaded(rest: &str) -> String {
    format!("{LOADED}{rest}")
}

// Stories.

#[test]
fn held_at_the_end() {
    check(
        &[],
        LOADED,
        "
0|3|2|9|0|circuit 300 IAM|sent on 0 as 0 at 10, not acknowledged
1|4|2|9|1|circuit 300 REL|sent on 0 as 1 at 11, not acknowledged
2|5|2|9|2|si 3|held on 0
3|6|2|1|1|CBD|held on 0
4|8|2|1|2|CBD|held on 0
",
    );
}

#[test]
fn acknowledged_as_soon_as_it_is_known() {
    check(
        &[],
        &loaded("ack 0 1\nsend 0\nsend 0\nack 0 2\n"),
        "
0|3|2|9|0|circuit 300 IAM|acknowledged on 0 as 0 at 12
1|4|2|9|1|circuit 300 REL|acknowledged on 0 as 1 at 12
2|5|2|9|2|si 3|acknowledged on 0 as 2 at 15
3|6|2|1|1|CBD|sent on 0 as 3 at 14, not acknowledged
4|8|2|1|2|CBD|held on 0
",
    );
}

#[test]
fn retired_moved_and_held() {
    // COO with number 0 about link 0; its COA is the message 5.
    check(
        &[],
        &loaded("received 4 0 80024000001100\n"),
        "
0|3|2|9|0|circuit 300 IAM|retired on 0 as 0 by 0 at 12
1|4|2|9|1|circuit 300 REL|moved 0 to 1 at 12; held on 1
2|5|2|9|2|si 3|moved 0 to 2 at 12; held on 2
3|6|2|1|1|CBD|moved 0 to 1 at 12; held on 1
4|8|2|1|2|CBD|moved 0 to 2 at 12; held on 2
5|12|2|1|0|COA|held on 1
",
    );
}

#[test]
fn dropped_by_each_reason() {
    check(
        &["--lost"],
        &loaded("failure 0\nreceived 4 0 800240000022\n"),
        "
0|3|2|9|0|circuit 300 IAM|dropped at 13: sent, and what the far end took isn't known
1|4|2|9|1|circuit 300 REL|dropped at 13: sent, and what the far end took isn't known
",
    );
    check(
        &[],
        "service 0\nhost 85018000002c0101\nfailure 0\nt1 0\n",
        "
0|2|2|1|0|circuit 300 IAM|dropped at 4: no route
",
    );
}

#[test]
fn a_message_in_transit_and_one_with_si_0() {
    check(
        &[],
        "service 0\nservice 4\nreceived 4 0 850940018013f010\nreceived 4 1 80094001800102030405060708090a\n",
        "
0|3|5|9|8|circuit 19 RLC|held on 0
1|4|5|9|8|si 0 0102030405060708|held on 0
",
    );
}

#[test]
fn held_apart_and_t6() {
    let apart = "
service 0
service 4
received 4 0 8002400000140900
received 4 1 8002400000540900
host 8509800000b0
host 8509800010b1
";
    check(
        &[],
        apart,
        "
0|5|2|9|0|si 5 b0|held apart
1|6|2|9|1|si 5 b1|held apart
",
    );
    check(
        &[],
        &format!("{apart}t6 9\nsend 0\nack 0 0\n"),
        "
0|5|2|9|0|si 5 b0|moved apart to 0 at 7; acknowledged on 0 as 0 at 9
1|6|2|9|1|si 5 b1|moved apart to 0 at 7; held on 0
",
    );
    check(&["--link", "0", "--lost"], &format!("{apart}t6 9\n"), "");
    // TFP about 9 from both sides before T6 ends.
    check(
        &["--lost"],
        &format!("{apart}received 4 2 8002400000140900\nreceived 4 3 8002c00000140900\nt6 9\n"),
        "
0|5|2|9|0|si 5 b0|dropped at 9: no route
1|6|2|9|1|si 5 b1|dropped at 9: no route
",
    );
}

#[test]
fn what_may_arrive_twice() {
    let moved = "
0|3|2|9|0|circuit 300 IAM|sent on 0 as 0, moved to 1 at 13, may arrive twice; held on 1
1|4|2|9|1|circuit 300 REL|sent on 0 as 1, moved to 1 at 13, may arrive twice; held on 1
2|5|2|9|2|si 3|moved 0 to 2 at 13; held on 2
3|6|2|1|1|CBD|moved 0 to 1 at 13; held on 1
4|8|2|1|2|CBD|moved 0 to 2 at 13; held on 2
5|12|2|1|0|COO|held on 1
";
    for end in ["t2 0", "received 4 0 80024000002102", "received 4 0 8002400000217e"] {
        check(&[], &loaded(&format!("failure 0\n{end}\n")), moved);
    }
    // F is in range, so the far end says that it has none of those that move.
    check(&["--twice"], &loaded("failure 0\nreceived 4 0 8002400000217f\n"), "");
    // By level 2 the far end has the first, which is acknowledged and doesn't move.
    check(
        &["--twice"],
        &loaded("ack 0 0\nfailure 0\nt2 0\n"),
        "
1|4|2|9|1|circuit 300 REL|sent on 0 as 1, moved to 1 at 14, may arrive twice; held on 1
",
    );
}

#[test]
fn a_management_message_may_arrive_twice() {
    // Acknowledged up to 1, then the message 2 and the first CBD are sent.
    check(
        &["--twice", "--destination", "1"],
        &loaded("ack 0 1\nsend 0\nsend 0\nfailure 0\nt2 0\nsend 1\nsend 1\nack 1 1\n"),
        "
3|6|2|1|1|CBD|sent on 0 as 3, moved to 1 at 16, may arrive twice; acknowledged on 1 as 1 at 19
",
    );
}

/// Behind link 0 there is a way to 9 and none to 1; both messages are sent.
#[test]
fn what_is_dropped_for_want_of_a_route_arrives_at_most_once() {
    let record = "service 0\nservice 4\nhost 8509800000\nhost 8501800010\nsend 0\nsend 0\nfailure 0\nt1 0\n";
    check(
        &[],
        record,
        "
1|4|2|1|1|si 5|dropped at 8: no route
0|3|2|9|0|si 5|sent on 0 as 0, moved to 4 at 8, may arrive twice; held on 4
",
    );
    check(&["--lost"], record, "1|4|2|1|1|si 5|dropped at 8: no route\n");
    check(&["--twice"], record, "0|3|2|9|0|si 5|sent on 0 as 0, moved to 4 at 8, may arrive twice; held on 4\n");
    changeovers(
        record,
        "link 0: failed at line 7, changed over at line 8 by T1; \
        0 retired, 1 moved (1 to link 4), 1 dropped, 1 may arrive twice\n",
    );
    // Then the other way goes too: what moved before may have arrived, and is lost where it stood last.
    let record = format!("{record}send 4\nfailure 4\nt1 4\n");
    check(
        &["--lost", "--twice"],
        &record,
        "
0|3|2|9|0|si 5|sent on 0 as 0, moved to 4 at 8, may arrive twice; dropped at 11: no route
",
    );
}

#[test]
fn twice_on_two_links() {
    // Two ways to 9: over link 0, then over 4, then over 0 again; sent on each.
    let record = "
service 0
service 4
host 8509800000a0
send 0
failure 0
t1 0
service 0
t3 0
send 4
failure 4
t1 4
send 0
";
    check(
        &["--twice", "--lost"],
        record,
        "
0|3|2|9|0|si 5 a0|sent on 0 as 0, moved to 4 at 6, may arrive twice; \
sent on 4 as 0, moved to 0 at 11, may arrive twice; sent on 0 as 0 at 12, not acknowledged
",
    );
    changeovers(record, "
link 0: failed at line 5, changed over at line 6 by T1; 0 retired, 1 moved (1 to link 4), 0 dropped, 1 may arrive twice
link 4: failed at line 10, changed over at line 11 by T1; 0 retired, 1 moved (1 to link 0), 0 dropped, 1 may arrive twice
");
}

/// Link 0 goes out and in five times while link 4 is there: the message for 9 moves to 4 and is held there,
/// since what moved stays; so link 4 goes out each time too.
#[test]
fn more_than_eight_moves() {
    let turn = "failure 0\nt1 0\nservice 0\nt3 0\nfailure 4\nt1 4\nservice 4\n";
    let record = format!("service 0\nservice 4\nhost 8509800000a0\n{}", turn.repeat(5));
    check(
        &[],
        &record,
        "
0|3|2|9|0|si 5 a0|moved 2 times before; moved 0 to 4 at 12; moved 4 to 0 at 16; moved 0 to 4 at 19; \
moved 4 to 0 at 23; moved 0 to 4 at 26; moved 4 to 0 at 30; moved 0 to 4 at 33; moved 4 to 0 at 37; held on 0
",
    );
    check(&["--twice"], &record, "");
    // Sent before the first of its moves, which isn't told.
    let record = format!("service 0\nservice 4\nhost 8509800000a0\nsend 0\n{}", turn.repeat(5));
    let ran = trace(&["--twice"], &record);
    assert!(ran.out.starts_with(&bars("0|3|2|9|0|si 5 a0|moved 2 times before; moved 0 to 4 at 13;")), "{}", ran.out);
    assert!(!ran.out.contains("twice"), "{}", ran.out);
}

// Options.

#[test]
fn by_link() {
    let record = loaded("received 4 0 80024000001100\n");
    check(
        &["--link", "2"],
        &record,
        "
2|5|2|9|2|si 3|moved 0 to 2 at 12; held on 2
4|8|2|1|2|CBD|moved 0 to 2 at 12; held on 2
",
    );
    let all = trace(&[], &record).out;
    let but_the_answer: String = all.lines().take(5).map(|line| format!("{line}\n")).collect();
    assert_eq!(trace(&["--link", "0"], &record).out, but_the_answer);
    check(&["--link", "4"], &record, "");
}

#[test]
fn by_line() {
    check(
        &["--from", "4", "--to", "6"],
        LOADED,
        "
1|4|2|9|1|circuit 300 REL|sent on 0 as 1 at 11, not acknowledged
2|5|2|9|2|si 3|held on 0
3|6|2|1|1|CBD|held on 0
",
    );
    check(&["--from", "8"], LOADED, "4|8|2|1|2|CBD|held on 0\n");
    // All lines are run: the message is sent behind the last line asked for.
    check(&["--to", "3"], LOADED, "0|3|2|9|0|circuit 300 IAM|sent on 0 as 0 at 10, not acknowledged\n");
}

#[test]
fn by_destination_and_circuit() {
    check(
        &["--destination", "1"],
        LOADED,
        "
3|6|2|1|1|CBD|held on 0
4|8|2|1|2|CBD|held on 0
",
    );
    check(
        &["--circuit", "300", "--from", "4"],
        LOADED,
        "
1|4|2|9|1|circuit 300 REL|sent on 0 as 1 at 11, not acknowledged
",
    );
    check(&["--circuit", "44"], LOADED, "");
    check(&["--destination", "9", "--link", "1"], LOADED, "");
}

#[test]
fn a_circuit_is_the_one_that_the_line_says() {
    // The same octets with SI 5 and SI 6, with three behind the label and two, and with spare bits.
    let record = "
service 0
host 85018000002c0101
host 86018000002c0101
host 85018000002c01
host 85018000002cf1ff
";
    check(
        &[],
        record,
        "
0|2|2|1|0|circuit 300 IAM|held on 0
1|3|2|1|0|si 6 2c0101|held on 0
2|4|2|1|0|si 5 2c01|held on 0
3|5|2|1|0|circuit 300 ff|held on 0
",
    );
    check(
        &["--circuit", "300"],
        record,
        "
0|2|2|1|0|circuit 300 IAM|held on 0
3|5|2|1|0|circuit 300 ff|held on 0
",
    );
}

#[test]
fn several_endings_in_a_call() {
    // Behind link 0 there is a way to 9 and none to 1; the first two are sent, and the first taken.
    let record = "
service 0
service 4
host 8509800000
host 8501800010
host 8501800020
host 8509800030
send 0
send 0
";
    check(
        &[],
        &format!("{record}received 4 0 80024000001100\n"),
        "
0|3|2|9|0|si 5|retired on 0 as 0 by 0 at 9
1|4|2|1|1|si 5|dropped at 9: no route
2|5|2|1|2|si 5|dropped at 9: no route
3|6|2|9|3|si 5|moved 0 to 4 at 9; held on 4
",
    );
}

#[test]
fn lost_is_dropped_or_sent_and_not_known_to_be_taken() {
    check(
        &["--lost"],
        LOADED,
        "
0|3|2|9|0|circuit 300 IAM|sent on 0 as 0 at 10, not acknowledged
1|4|2|9|1|circuit 300 REL|sent on 0 as 1 at 11, not acknowledged
",
    );
    check(&["--lost"], &loaded("ack 0 0\nfailure 0\nreceived 4 0 80024000002100\n"), "");
    // Sent before it moved, and not since; then sent there too.
    let moved = loaded("received 4 0 80024000001100\n");
    check(&["--lost"], &moved, "");
    check(
        &["--lost"],
        &format!("{moved}send 2\n"),
        "
2|5|2|9|2|si 3|moved 0 to 2 at 12; sent on 2 as 0 at 13, not acknowledged
",
    );
    // The link has failed, and the changeover hasn't ended.
    check(
        &["--lost", "--circuit", "300", "--from", "4"],
        &loaded("failure 0\n"),
        "
1|4|2|9|1|circuit 300 REL|sent on 0 as 1 at 11, not acknowledged
",
    );
}

// Changeovers.

fn changeovers(record: &str, expected: &str) {
    check(&["--changeovers"], record, expected);
}

#[test]
fn coo_on_an_open_link() {
    let expected = "link 0: changed over at line 12 by COO with number 0; \
        1 retired, 4 moved (2 to link 1, 2 to link 2), 0 dropped\n";
    changeovers(&loaded("received 4 0 80024000001100\n"), expected);
    // A spare bit set.
    changeovers(&loaded("received 4 0 80024000001180\n"), expected);
    // The other options choose messages, and there are none to choose from.
    check(&["--changeovers", "--link", "4", "--lost", "--to", "1"], &loaded("received 4 0 80024000001100\n"), expected);
}

#[test]
fn coo_crossing_ours() {
    changeovers(
        &loaded("failure 0\nreceived 4 0 8002400000117f\n"),
        "link 0: failed at line 12, changed over at line 13 by COO with number 127; \
        0 retired, 5 moved (3 to link 1, 2 to link 2), 0 dropped\n",
    );
}

#[test]
fn coa_in_range_and_not() {
    changeovers(
        &loaded("failure 0\nreceived 4 0 80024000002101\n"),
        "link 0: failed at line 12, changed over at line 13 by COA with number 1; \
        2 retired, 3 moved (1 to link 1, 2 to link 2), 0 dropped\n",
    );
    changeovers(
        &loaded("failure 0\nreceived 4 0 80024000002102\n"),
        "link 0: failed at line 12, changed over at line 13 by COA with number 2 not in range; \
        0 retired, 5 moved (3 to link 1, 2 to link 2), 0 dropped, 2 may arrive twice\n",
    );
    // With its spare bit set, on an open link; and on one that has nothing in its queue.
    changeovers(
        &loaded("received 4 0 80024000001182\n"),
        "link 0: changed over at line 12 by COO with number 2 not in range; \
        0 retired, 5 moved (3 to link 1, 2 to link 2), 0 dropped, 2 may arrive twice\n",
    );
    changeovers(
        "service 0\nservice 4\nreceived 4 0 80024000001100\n",
        "link 0: changed over at line 3 by COO with number 0 not in range; 0 retired, 0 moved, 0 dropped\n",
    );
}

#[test]
fn without_a_number() {
    let end = "0 retired, 3 moved (1 to link 1, 2 to link 2), 2 dropped\n";
    changeovers(&loaded("received 4 0 800240000012\n"), &format!("link 0: changed over at line 12 by ECO; {end}"));
    for (line, what) in [("received 4 0 800240000012", "ECO"), ("received 4 0 800240000022", "ECA")] {
        let expected = format!("link 0: failed at line 12, changed over at line 13 by {what}; {end}");
        changeovers(&loaded(&format!("failure 0\n{line}\n")), &expected);
    }
}

#[test]
fn t2_and_nothing_sent() {
    changeovers(
        &loaded("failure 0\nt2 0\n"),
        "link 0: failed at line 12, changed over at line 13 by T2; \
        0 retired, 5 moved (3 to link 1, 2 to link 2), 0 dropped, 2 may arrive twice\n",
    );
    // All that was sent is acknowledged.
    changeovers(
        &loaded("ack 0 1\nfailure 0\nt2 0\n"),
        "link 0: failed at line 13, changed over at line 14 by T2; \
        0 retired, 3 moved (1 to link 1, 2 to link 2), 0 dropped\n",
    );
}

/// No link but 0 leads to point 1, so its failure starts T1.
const ALONE: &str = "
service 0
service 4
host 85098000002c0101
host 85098000102c010c
host 8309800020
send 0
failure 0
";

#[test]
fn t1_and_what_ends_it_before() {
    changeovers(
        &format!("{ALONE}t1 0\n"),
        "link 0: failed at line 7, changed over at line 8 by T1; \
        0 retired, 3 moved (3 to link 4), 0 dropped, 1 may arrive twice\n",
    );
    changeovers(
        &format!("{ALONE}received 4 0 80024000001100\n"),
        "link 0: failed at line 7, changed over at line 8 by COO with number 0; \
        1 retired, 2 moved (2 to link 4), 0 dropped\n",
    );
}

#[test]
fn no_route_and_an_empty_queue() {
    changeovers(
        "service 0\nhost 8501800000\nfailure 0\nt1 0\nservice 0\nfailure 0\nt1 0\n",
        "
link 0: failed at line 3, changed over at line 4 by T1; 0 retired, 0 moved, 1 dropped
link 0: failed at line 6, changed over at line 7 by T1; 0 retired, 0 moved, 0 dropped
",
    );
}

/// Link 1 waits with one message.
const WAITING: &str = "
service 0
service 4
service 1
host 8509800010
";

#[test]
fn a_waiting_link() {
    let end = "0 retired, 1 moved (1 to link 0), 0 dropped\n";
    for (line, what) in [
        ("failure 1", "its failure while waiting"),
        ("received 4 0 8002400010114d", "COO with number 77"),
        ("received 4 0 800240001012", "ECO"),
    ] {
        let expected = format!("link 1: changed over at line 5 by {what}; {end}");
        changeovers(&format!("{WAITING}{line}\n"), &expected);
    }
}

#[test]
fn in_the_order_in_which_they_went_out() {
    let record = loaded("failure 0\nfailure 1\nt2 1\nt2 0\n");
    // Link 1 has the COO of link 0, unsent, which moves to link 2 and the messages of link 0 then too.
    changeovers(
        &record,
        "
link 1: failed at line 13, changed over at line 14 by T2; 0 retired, 1 moved (1 to link 2), 0 dropped
link 0: failed at line 12, changed over at line 15 by T2; \
0 retired, 5 moved (5 to link 2), 0 dropped, 2 may arrive twice
",
    );
}

#[test]
fn none_for_a_link_that_stays_or_is_out_already() {
    // COO about link 1, which is out: ECA and no more. COA with no T2. A failure without its end.
    changeovers("service 0\nservice 4\nreceived 4 0 80024000101100\nreceived 4 1 80024000002100\nfailure 0\n", "");
}

// What is refused.

#[test]
fn what_is_refused_stands_last() {
    let ran = trace(&[], &loaded("send 00\nack 0 1\n"));
    assert_eq!(ran.status, 1);
    let expected = "4|8|2|1|2|CBD|held on 0\n12|refused|30\n";
    assert!(ran.out.ends_with(&bars(expected)), "{}", ran.out);
    assert!(ran.err.ends_with("line 12: the line can't be read\n") && ran.err.lines().count() == 1, "{}", ran.err);
    let ran = trace(&["--changeovers"], &loaded("t9 0\n"));
    assert_eq!((ran.out, ran.status), (bars("12|refused|30\n"), 1));
    let ran = run("trace", &["--lost"], "node 2 2\nset 9 1\n", LOADED);
    assert_eq!((ran.out, ran.status), (bars("config|2|21\n"), 1));
    assert!(ran.err.ends_with("line 2: not a plain decimal, or out of range\n"), "{}", ran.err);
}

#[test]
fn arguments_that_are_not_right() {
    for (options, word) in [
        (&["--link", "32"][..], "32"),
        (&["--destination", "16384"], "16384"),
        (&["--circuit", "4096"], "4096"),
        (&["--to", ""], "--to"),
        (&["--picture", "file"], "--picture"),
        (&["--words"], "--words"),
    ] {
        let ran = run("trace", options, TWO_WAYS, LOADED);
        assert_eq!((ran.out.as_str(), ran.status, ran.err.lines().count()), ("", 2, 1), "{}", ran.err);
        assert!(ran.err.contains(word), "{}", ran.err);
    }
    assert_eq!(second(&["trace", "not-there", "not-there"]).status, 2);
}
