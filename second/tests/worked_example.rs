//! The example worked by hand in the text formats.

use second::options::{Asked, Shown};
use second::replay::{replay, replay_shown};
use second::trace::trace;

const CONFIGURATION: &str = "
node 2 2
set 0 1
set 1 3
link 0 0 0
link 1 0 1
link 4 1 0
route 1 0 0
route 3 1 0
route 9 0 0
route 9 1 1
";

const RECORD: &str = "
service 0
service 4
service 1
send 0
received 0 0 80024000106100
host 8509800000a0
host 8509800020a2
host 8509800010a1
send 0
send 0
ack 0 1
failure 0
send 1
send 1
received 1 0 80024000002101
send 1
send 1
received 1 1 8502400240bbcc
received 4 0 8507c00040bb
ack 40 0
routes
failure 1
t2 1
t1 1
host 850180000001
";

const WRITTEN: &str = "
1 reply 0
1 resume 1
1 resume 9
2 reply 0
2 resume 3
3 reply 0
4 reply 0 0 80018000105100
5 reply 0
6 reply 0
7 reply 0
8 reply 0
9 reply 0 1 8509800000a0
10 reply 0 2 8509800020a2
11 reply 0
12 reply 0
13 reply 0 0 8509800010a1
14 reply 0 1 80018000001100
15 reply 0
16 reply 0 2 8509800020a2
17 reply 5
18 reply 0 bbcc
19 reply 9
20 reply 1
21 reply 0
21 route dest 0 1 2 3 4 5 6 7 8 9 10 11 12 13 14 15
21 route 1 1 1 1 1 1 1 1 1 1 1 1 1 1 1 1 1
21 route 3 4 4 4 4 4 4 4 4 4 4 4 4 4 4 4 4
21 route 9 1 1 1 1 1 1 1 1 1 1 1 1 1 1 1 1
22 reply 0
23 reply 5
24 reply 0
24 drop 4 1
24 pause 1
25 reply 9
";

fn with_tabs(text: &str) -> String {
    text.trim_start().replace(' ', "\t")
}

#[test]
fn as_worked_by_hand() {
    let output = replay(with_tabs(CONFIGURATION).as_bytes(), with_tabs(RECORD).as_bytes());
    assert_eq!(output, with_tabs(WRITTEN));
}

/// What each line says of messages, behind its reply and before its reports.
const FATES: &str = "
3 queued 0 0 CBD
4 sent 0 0 0
6 queued 1 0
7 queued 2 0
8 queued 3 1
9 sent 1 0 1
10 sent 2 0 2
11 acknowledged 0 0
11 acknowledged 1 0
12 queued 4 1 COO
13 sent 3 1 0
14 sent 4 1 1
15 moved 2 0 1
16 sent 2 1 2
24 moved 3 1 4
24 moved 2 1 4
";

#[test]
fn fates_as_worked_by_hand() {
    let shown = Shown { fates: true, ..Shown::default() };
    let output = replay_shown(with_tabs(CONFIGURATION).as_bytes(), with_tabs(RECORD).as_bytes(), &shown).text;
    let (plain, fates) = (with_tabs(WRITTEN), with_tabs(FATES));
    let number = |line: &str| line.split('\t').next().unwrap().parse::<usize>().unwrap();
    let (replies, reports): (Vec<&str>, Vec<&str>) = plain.lines().partition(|line| line.contains("\treply\t"));
    let mut expected: Vec<&str> = replies.into_iter().chain(fates.lines()).chain(reports).collect();
    // Stable, so that of each line the reply comes first, then the fates, then the reports.
    expected.sort_by_key(|line| number(line));
    assert_eq!(output.lines().collect::<Vec<_>>(), expected);
}

#[test]
fn traced_as_worked_by_hand() {
    let of = |asked: &Asked| trace(with_tabs(CONFIGURATION).as_bytes(), with_tabs(RECORD).as_bytes(), asked).text;
    let expected = "0|3|2|1|1|CBD|acknowledged on 0 as 0 at 11
1|6|2|9|0|si 5 a0|acknowledged on 0 as 1 at 11
4|12|2|1|0|COO|dropped at 24: no route
2|7|2|9|2|si 5 a2|moved 0 to 1 at 15; sent on 1 as 2, moved to 4 at 24, may arrive twice; held on 4
3|8|2|9|1|si 5 a1|sent on 1 as 0, moved to 4 at 24, may arrive twice; held on 4
";
    assert_eq!(of(&Asked::default()), expected.replace('|', "\t"));
    let changeovers = Asked { changeovers: true, ..Asked::default() };
    assert_eq!(
        of(&changeovers),
        "link 0: failed at line 12, changed over at line 15 by COA with number 1; \
        0 retired, 1 moved (1 to link 1), 0 dropped
link 1: failed at line 22, changed over at line 24 by T1; \
        0 retired, 2 moved (2 to link 4), 1 dropped, 2 may arrive twice
"
    );
}

#[test]
fn a_refused_configuration_stands_alone() {
    assert_eq!(replay(b"node\t2\t2\nset\t0\t2\n", b"routes\n"), "config\t2\t22\n");
    assert_eq!(replay(b"", b"routes\n"), "config\t1\t25\n");
}

#[test]
fn an_unreadable_line_ends_the_run() {
    let configuration = with_tabs(CONFIGURATION);
    let output = replay(configuration.as_bytes(), b"service\t0\nservice\t01\nservice\t4\n");
    assert_eq!(output, "1\treply\t0\n1\tresume\t1\n1\tresume\t9\n2\trefused\t30\n");
    assert_eq!(replay(configuration.as_bytes(), b"service\t40\nroutes"), "1\treply\t1\n2\trefused\t30\n");
    assert_eq!(replay(configuration.as_bytes(), b""), "");
}

#[test]
fn an_empty_delivery_keeps_its_field() {
    let record = b"service\t4\nreceived\t4\t0\t8502c00000\n";
    let output = replay(with_tabs(CONFIGURATION).as_bytes(), record);
    assert!(output.ends_with("2\treply\t0\t\n"));
}
