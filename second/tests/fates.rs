//! Fates, put down by hand for each kind of them.

#[allow(dead_code)]
mod common;

use common::{tabs, TWO_WAYS};
use second::options::Shown;
use second::replay::replay_shown;

/// The lines of a run with fates from one line of the record on.
fn fates(from: u64, record: &str) -> String {
    let shown = Shown { from, fates: true, ..Shown::default() };
    replay_shown(tabs(TWO_WAYS).as_bytes(), tabs(record).as_bytes(), &shown).text
}

fn check(from: u64, record: &str, expected: &str) {
    assert_eq!(fates(from, record), tabs(expected));
}

#[test]
fn queued_on_the_link_of_the_pair() {
    check(
        3,
        "
service 0
service 4
host 8509800000a0
host 850380000001
received 4 0 85094001f0
",
        "
3 reply 0
3 queued 0 0
4 reply 0
4 queued 1 4
5 reply 0
5 queued 2 0
",
    );
}

#[test]
fn sent_and_acknowledged() {
    check(
        2,
        "
service 0
host 8509800000a0
host 8509800010a1
host 8509800020a2
send 0
send 0
ack 0 127
ack 0 1
send 0
send 0
ack 0 2
",
        "
2 reply 0
2 queued 0 0
3 reply 0
3 queued 1 0
4 reply 0
4 queued 2 0
5 reply 0 0 8509800000a0
5 sent 0 0 0
6 reply 0 1 8509800010a1
6 sent 1 0 1
7 reply 0
8 reply 0
8 acknowledged 0 0
8 acknowledged 1 0
9 reply 0 2 8509800020a2
9 sent 2 0 2
10 reply 5
11 reply 0
11 acknowledged 2 0
",
    );
}

/// Link 0 open with a CBD sent as 0, two messages sent as 1 and 2, one unsent: arrivals 0 to 3.
/// Link 1 open and empty. Line 11 is the next.
const LOADED: &str = "
service 0
service 4
service 1
t4 1
host 8509800000a0
host 8509800020a2
host 8509800040a4
send 0
send 0
send 0
";

fn loaded(rest: &str) -> String {
    format!("{LOADED}{}", rest.trim_start())
}

#[test]
fn a_cbd_is_queued_on_the_link_that_gives_way() {
    check(
        3, "
service 0
service 4
service 1
", "
3 reply 0
3 queued 0 0 CBD
",
    );
}

#[test]
fn coo_on_an_open_link_retires_and_moves() {
    check(
        11,
        &loaded(
            "
received 4 0 80024000001101
send 1
",
        ),
        "
11 reply 0
11 queued 4 1 COA
11 retired 0 0
11 retired 1 0
11 moved 2 0 1
11 moved 3 0 1
12 reply 0 0 8001800000217f
12 sent 4 1 0
",
    );
}

#[test]
fn coa_in_range() {
    check(
        11,
        &loaded(
            "
failure 0
received 1 0 80024000002182
",
        ),
        "
11 reply 0
11 queued 4 1 COO
12 reply 0
12 retired 0 0
12 retired 1 0
12 retired 2 0
12 moved 3 0 1
",
    );
}

#[test]
fn coa_not_in_range_moves_all() {
    check(
        12,
        &loaded(
            "
failure 0
received 1 0 80024000002109
",
        ),
        "
12 reply 0
12 moved 0 0 1
12 moved 1 0 1
12 moved 2 0 1
12 moved 3 0 1
",
    );
}

#[test]
fn t2_moves_all() {
    check(
        12,
        &loaded("failure 0\nt2 0\n"),
        "
12 reply 0
12 moved 0 0 1
12 moved 1 0 1
12 moved 2 0 1
12 moved 3 0 1
",
    );
}

#[test]
fn eco_and_eca_drop_what_was_sent_behind_what_moves() {
    let ends = "moved 3 0 1\n12 drop 0 2\n12 drop 1 2\n12 drop 2 2\n";
    check(12, &loaded("failure 0\nreceived 1 0 800240000022\n"), &format!("12 reply 0\n12 {ends}"));
    let eco = format!("12 reply 0\n12 queued 5 1 ECA\n12 {ends}");
    check(12, &loaded("failure 0\nreceived 1 0 800240000012\n"), &eco);
}

#[test]
fn t1_and_no_route() {
    check(
        2,
        "
service 0
host 850180000001
host 850180000002
send 0
failure 0
t1 0
",
        "
2 reply 0
2 queued 0 0
3 reply 0
3 queued 1 0
4 reply 0 0 850180000001
4 sent 0 0 0
5 reply 0
6 reply 0
6 drop 0 1
6 drop 1 1
6 pause 1
6 pause 9
",
    );
}

#[test]
fn a_waiting_link_fails() {
    check(
        2,
        "
service 0
service 1
host 8509800010a1
failure 1
",
        "
2 reply 0
2 queued 0 0 CBD
3 reply 0
3 queued 1 1
4 reply 0
4 moved 1 1 0
",
    );
}

/// TFP about 9 from 1 turns it to link 4, TFA starts T6, then two messages are held apart.
const APART: &str = "
service 0
service 4
received 4 0 8002400000140900
host 8509800000a0
received 4 1 8002400000540900
host 8509800000b0
host 8509800010b1
";

#[test]
fn held_apart_until_t6_ends() {
    let record = format!("{APART}t6 9\n");
    check(
        3,
        &record,
        "
3 reply 0
4 reply 0
4 queued 0 4
5 reply 0
6 reply 0
6 queued 1 apart
7 reply 0
7 queued 2 apart
8 reply 0
8 moved 1 apart 0
8 moved 2 apart 0
",
    );
}

#[test]
fn t6_ends_without_a_route() {
    // TFP about 9 from both sides.
    let record = format!("{APART}received 4 2 8002400000140900\nreceived 4 3 8002c00000140900\nt6 9\n");
    check(
        8,
        &record,
        "
8 reply 0
9 reply 0
9 pause 9
10 reply 0
10 drop 1 1
10 drop 2 1
",
    );
}

#[test]
fn a_tfp_stands_behind_reply_9() {
    check(
        2,
        "
service 0
received 0 0 850340000001
received 0 1 850340000001
host 850380000001
",
        "
2 reply 9
2 queued 0 0 TFP
3 reply 9
4 reply 9
",
    );
}

#[test]
fn names_of_the_other_messages_made() {
    check(
        3,
        "
service 0
service 4
received 0 0 80024000005107
received 4 0 800240001012
received 4 1 8002c00000150900
received 4 2 8002400000140900
t10 9 0
",
        "
3 reply 0
3 queued 0 0 CBA
4 reply 0
4 queued 1 0 ECA
5 reply 0
5 queued 2 4 TFA
6 reply 0
7 reply 0
7 queued 3 0 RST
",
    );
}

#[test]
fn an_answer_without_a_path_is_not_queued() {
    check(
        2,
        "
service 0
received 0 0 80024000001100
",
        "
2 reply 0
2 pause 1
2 pause 9
",
    );
}

#[test]
fn a_message_moves_more_than_once() {
    check(
        5,
        "
service 0
service 1
t4 1
host 8509800000a0
failure 0
t2 0
service 4
failure 1
t1 1
",
        "
5 reply 0
5 queued 2 1 COO
6 reply 0
6 moved 0 0 1
6 moved 1 0 1
7 reply 0
7 resume 3
8 reply 0
9 reply 0
9 moved 1 1 4
9 drop 2 1
9 drop 0 1
9 pause 1
",
    );
}
