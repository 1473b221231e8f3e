//! Examples D to L of the scope paper and its settled points, as calls on the model.

use second::configuration;
use second::point::{Call, LinkState, Outcome, Output, Reply, Report, ARRIVAL_NUMBERS};
use second::run::Run;
use second::wire::{compose, Label, Management};

/// Node 2, NI 2. Sets: 0 to point 1, 1 to point 3, 2 to point 4.
fn run(lines: &str) -> Run {
    let text = format!("node 2 2\nset 0 1\nset 1 3\nset 2 4\n{lines}").replace(' ', "\t");
    Run::new(configuration::read(text.as_bytes()).unwrap())
}

trait Calls {
    fn reply(&mut self, call: Call) -> u8;
    fn open(&mut self, links: &[u64]);
    fn host(&mut self, dpc: u16, sls: u8) -> u8;
    fn over(&mut self, link: u64, octets: Vec<u8>) -> Outcome;
    fn order(&mut self, link: u64, opc: u16, slc: u8, order: Management) -> Outcome;
    fn arrivals(&self, link: u8) -> Vec<u64>;
    fn orders(&self, link: u8) -> Vec<Management>;
    fn state(&self, link: u8) -> LinkState;
}

impl Calls for Run {
    fn reply(&mut self, call: Call) -> u8 {
        self.call(&call).reply as u8
    }

    /// Into service and open, ending T3 or T4 at once; what a CBD left is sent and acknowledged.
    fn open(&mut self, links: &[u64]) {
        for link in links {
            assert_eq!(self.reply(Call::Service(*link)), 0);
            let waiting = self.point.link(*link as u8).clone();
            for m in waiting.unanswered {
                let fsn = match self.call(&Call::Send(m as u64)).effects.output {
                    Output::Leaves { fsn, .. } => fsn,
                    other => panic!("{other:?}"),
                };
                assert_eq!(self.reply(Call::Ack(m as u64, fsn as u64)), 0);
                assert_eq!(self.reply(Call::T4(*link)), 0);
            }
            if waiting.t3 {
                assert_eq!(self.reply(Call::T3(*link)), 0);
            }
            assert_eq!(self.state(*link as u8), LinkState::Open);
        }
    }

    fn host(&mut self, dpc: u16, sls: u8) -> u8 {
        self.reply(Call::Host(compose(2, 5, Label { dpc, opc: 2, sls }, &[0xaa])))
    }

    fn over(&mut self, link: u64, octets: Vec<u8>) -> Outcome {
        let fsn = (self.point.link(link as u8).last_received as u64 + 1) % 128;
        self.call(&Call::Received { link, fsn, octets })
    }

    fn order(&mut self, link: u64, opc: u16, slc: u8, order: Management) -> Outcome {
        let octets = compose(2, 0, Label { dpc: 2, opc, sls: slc }, &order.write());
        self.over(link, octets)
    }

    fn arrivals(&self, link: u8) -> Vec<u64> {
        self.point.link(link).queue.iter().map(|message| message.arrival).collect()
    }

    fn orders(&self, link: u8) -> Vec<Management> {
        let own = self.point.link(link).queue.iter().filter(|message| message.management);
        own.map(|message| Management::read(&message.octets[5..]).unwrap()).collect()
    }

    fn state(&self, link: u8) -> LinkState {
        self.point.link(link).state
    }
}

fn drops(outcome: &Outcome) -> Vec<(u64, u8)> {
    let drop = |report: &Report| match report {
        Report::Drop { arrival, reason } => Some((*arrival, *reason)),
        _ => None,
    };
    outcome.effects.reports.iter().filter_map(drop).collect()
}

// Changeover numbers: link 0 carries all to 9, link 1 of another set takes over.
// No route leads to point 1, so no COA stands among what moves.

const TWO_SETS: &str = "link 0 0 0\nlink 1 1 0\nroute 9 0 0\nroute 9 1 1\n";

fn queue_and_send(run: &mut Run, queued: usize, sent: usize) {
    for _ in 0..queued {
        assert_eq!(run.host(9, 0), 0);
    }
    for _ in 0..sent {
        assert_eq!(run.reply(Call::Send(0)), 0);
    }
}

/// Acknowledged to 2, sent 3 to 6, unsent a and b: arrival numbers 3 to 8.
fn six_in_the_queue() -> Run {
    let mut run = run(TWO_SETS);
    run.open(&[0, 1]);
    queue_and_send(&mut run, 3, 3);
    assert_eq!(run.reply(Call::Ack(0, 2)), 0);
    queue_and_send(&mut run, 6, 4);
    run
}

fn coo(run: &mut Run, fsn: u8) -> Outcome {
    let outcome = run.order(1, 1, 0, Management::Coo { fsn });
    assert_eq!(outcome.reply, Reply::Done);
    assert_eq!(run.state(0), LinkState::Out);
    outcome
}

#[test]
fn example_d() {
    let mut run = six_in_the_queue();
    let outcome = coo(&mut run, 4);
    assert_eq!(outcome.effects.retired, [3, 4]);
    assert_eq!(run.arrivals(1), [5, 6, 7, 8]);
    assert!(outcome.effects.reports.is_empty());
}

#[test]
fn example_e() {
    let mut run = six_in_the_queue();
    assert!(drops(&coo(&mut run, 2)).is_empty());
    assert_eq!(run.arrivals(1), [3, 4, 5, 6, 7, 8]);
    assert_eq!(run.point.link(1).sent, 0);
}

#[test]
fn example_f() {
    let mut run = six_in_the_queue();
    assert_eq!(coo(&mut run, 6).effects.retired, [3, 4, 5, 6]);
    assert_eq!(run.arrivals(1), [7, 8]);
}

#[test]
fn example_g() {
    let mut run = six_in_the_queue();
    let outcome = coo(&mut run, 7);
    assert!(outcome.effects.retired.is_empty() && outcome.effects.reports.is_empty());
    assert_eq!(run.arrivals(1), [3, 4, 5, 6, 7, 8]);
    assert_eq!(run.point.link(1).sent, 0);
}

/// Acknowledged 126, sent 127, 0 and 1: arrival numbers 127 to 129.
fn across_the_top() -> Run {
    let mut run = run(TWO_SETS);
    run.open(&[0, 1]);
    queue_and_send(&mut run, 127, 127);
    assert_eq!(run.reply(Call::Ack(0, 126)), 0);
    queue_and_send(&mut run, 3, 3);
    run
}

#[test]
fn example_h() {
    let mut run = across_the_top();
    assert_eq!(coo(&mut run, 127).effects.retired, [127]);
    assert_eq!(run.arrivals(1), [128, 129]);
}

#[test]
fn a_number_past_the_top() {
    let mut run = across_the_top();
    assert_eq!(coo(&mut run, 0).effects.retired, [127, 128]);
    assert_eq!(run.arrivals(1), [129]);
}

#[test]
fn example_i() {
    let mut run = across_the_top();
    let outcome = coo(&mut run, 125);
    assert!(outcome.effects.retired.is_empty() && outcome.effects.reports.is_empty());
    assert_eq!(run.arrivals(1), [127, 128, 129]);
}

#[test]
fn example_j() {
    let mut run = run(TWO_SETS);
    run.open(&[0, 1]);
    let outcome = coo(&mut run, 0);
    assert!(outcome.effects.reports.is_empty() && run.arrivals(1).is_empty());
}

#[test]
fn examples_k_and_l() {
    let mut run = run("link 0 0 0\nlink 1 0 1\nlink 2 0 2\nroute 9 0 0\n");
    run.open(&[0, 2]);
    assert_eq!(run.point.current_link(9, 4), Some(2));
    run.open(&[1]);
    assert_eq!(run.point.current_link(9, 4), Some(1));
    run.call(&Call::Failure(2));
    run.call(&Call::T1(2));
    assert_eq!(run.point.current_link(9, 5), Some(0));
}

#[test]
fn the_window_is_127() {
    let mut run = run(TWO_SETS);
    run.open(&[0]);
    queue_and_send(&mut run, 128, 127);
    assert_eq!(run.reply(Call::Send(0)), 5);
    assert_eq!(run.reply(Call::Ack(0, 127)), 0);
    assert_eq!(run.reply(Call::Send(0)), 5);
    assert_eq!(run.reply(Call::Ack(0, 0)), 0);
    assert_eq!(run.reply(Call::Send(0)), 0);
    assert_eq!(run.reply(Call::Ack(0, 0)), 0);
}

// Orders and answers.

const ONE_SET: &str =
    "link 0 0 0\nlink 1 0 1\nlink 2 1 0\nroute 1 0 0\nroute 1 1 1\nroute 3 1 0\nroute 9 0 0\nroute 9 1 1\n";

#[test]
fn answer_stands_before_what_moves() {
    let mut run = run(ONE_SET);
    run.open(&[0, 1, 2]);
    assert_eq!(run.host(9, 0), 0);
    let outcome = run.order(0, 1, 0, Management::Coo { fsn: 127 });
    assert_eq!(outcome.reply, Reply::Done);
    assert_eq!(run.orders(1), [Management::Coa { fsn: 0 }]);
    assert_eq!(run.arrivals(1), [2, 1]);
}

#[test]
fn second_coo_gets_eca() {
    let mut run = run(ONE_SET);
    run.open(&[0, 1, 2]);
    run.order(2, 1, 0, Management::Coo { fsn: 127 });
    run.order(2, 1, 0, Management::Coo { fsn: 127 });
    assert_eq!(run.orders(1), [Management::Coa { fsn: 127 }, Management::Eca]);
}

#[test]
fn crossing_coos() {
    let mut run = run(ONE_SET);
    run.open(&[0, 1, 2]);
    assert_eq!(run.reply(Call::Failure(0)), 0);
    assert!(run.point.link(0).t2);
    assert_eq!(run.order(1, 1, 0, Management::Coo { fsn: 127 }).reply, Reply::Done);
    assert_eq!(run.state(0), LinkState::Out);
    assert_eq!(run.orders(1), [Management::Coo { fsn: 127 }, Management::Coa { fsn: 127 }]);
    assert_eq!(run.order(1, 1, 0, Management::Coa { fsn: 127 }).reply, Reply::FitsNothing);
}

#[test]
fn eco_is_answered_with_eca_and_drops_what_was_sent() {
    let mut run = run(ONE_SET);
    run.open(&[0, 1, 2]);
    assert_eq!((run.host(9, 0), run.host(9, 2)), (0, 0));
    assert_eq!(run.reply(Call::Send(0)), 0);
    let outcome = run.order(2, 1, 0, Management::Eco);
    assert_eq!(drops(&outcome), [(1, 2)]);
    assert_eq!(run.orders(1), [Management::Eca]);
    assert_eq!(run.arrivals(1), [3, 2]);
}

#[test]
fn the_answer_never_uses_the_link_named() {
    let mut run = run("link 0 0 0\nroute 1 0 0\n");
    run.open(&[0]);
    let outcome = run.order(0, 1, 0, Management::Coo { fsn: 127 });
    assert_eq!(outcome.reply, Reply::Done);
    assert_eq!(outcome.effects.reports, [Report::Pause(1)]);
    assert_eq!(run.point.next_arrival, 0);
}

#[test]
fn coo_on_a_waiting_link() {
    let mut run = run(ONE_SET);
    run.open(&[1]);
    assert_eq!(run.reply(Call::Service(0)), 0);
    assert_eq!(run.orders(1), [Management::Cbd { code: 1 }]);
    assert_eq!(run.host(9, 0), 0);
    assert_eq!(run.order(1, 1, 0, Management::Coo { fsn: 50 }).reply, Reply::Done);
    assert_eq!(run.state(0), LinkState::Out);
    assert_eq!(run.orders(1), [Management::Cbd { code: 1 }, Management::Coa { fsn: 127 }]);
    assert_eq!(run.arrivals(1), [0, 2, 1]);
}

#[test]
fn eca_and_coa_count_only_under_t2() {
    let mut run = run("link 0 0 0\nlink 2 1 0\nroute 1 0 0\nroute 3 1 0\n");
    run.open(&[0, 2]);
    assert_eq!(run.order(2, 1, 0, Management::Eca).reply, Reply::FitsNothing);
    assert_eq!(run.reply(Call::Failure(0)), 0);
    assert!(run.point.link(0).t1);
    assert_eq!(run.order(2, 1, 0, Management::Coa { fsn: 127 }).reply, Reply::FitsNothing);
    assert_eq!(run.reply(Call::T2(0)), 5);
    let outcome = run.call(&Call::T1(0));
    assert_eq!(outcome.effects.reports, [Report::Pause(1)]);
}

// Changeback.

#[test]
fn cba_must_carry_the_code() {
    let mut run = run(ONE_SET);
    run.open(&[1]);
    run.call(&Call::Service(0));
    assert_eq!(run.order(1, 1, 0, Management::Cba { code: 0 }).reply, Reply::FitsNothing);
    assert_eq!(run.order(1, 1, 0, Management::Cba { code: 0x81 }).reply, Reply::FitsNothing);
    assert_eq!(run.order(1, 1, 1, Management::Cba { code: 1 }).reply, Reply::FitsNothing);
    assert_eq!(run.state(0), LinkState::Waiting);
    assert_eq!(run.order(1, 1, 0, Management::Cba { code: 1 }).reply, Reply::Done);
    assert_eq!(run.state(0), LinkState::Open);
    assert_eq!(run.reply(Call::T4(0)), 5);
}

#[test]
fn another_set_gives_way_under_t3() {
    let mut run = run(TWO_SETS);
    run.open(&[1]);
    run.call(&Call::Service(0));
    assert!(run.point.link(0).t3 && run.point.next_arrival == 0);
    assert_eq!(run.reply(Call::Send(0)), 5);
    assert_eq!(run.reply(Call::T3(0)), 0);
    assert_eq!(run.state(0), LinkState::Open);
}

#[test]
fn cbd_is_answered_in_any_state() {
    let mut run = run(ONE_SET);
    run.open(&[0]);
    assert_eq!(run.order(0, 1, 1, Management::Cbd { code: 0xfe }).reply, Reply::Done);
    assert_eq!(run.orders(0), [Management::Cba { code: 0xfe }]);
    assert_eq!(run.order(0, 1, 5, Management::Cbd { code: 1 }).reply, Reply::FitsNothing);
}

// Routes.

#[test]
fn tfa_holds_apart_until_t6() {
    let mut run = run(ONE_SET);
    run.open(&[0, 1, 2]);
    assert_eq!(run.order(2, 1, 0, Management::Tfp { destination: 9 }).reply, Reply::Done);
    assert_eq!(run.order(2, 1, 0, Management::Tfp { destination: 9 }).reply, Reply::FitsNothing);
    assert_eq!(run.host(9, 0), 0);
    assert_eq!(run.arrivals(2), [1]);
    assert_eq!(run.order(2, 1, 0, Management::Tfa { destination: 9 }).reply, Reply::Done);
    assert_eq!((run.host(9, 0), run.host(9, 1)), (0, 0));
    assert_eq!(run.point.destinations[&9].apart.len(), 2);
    assert_eq!(run.arrivals(2), [1]);
    assert_eq!(run.reply(Call::T6(9)), 0);
    assert_eq!((run.arrivals(0), run.arrivals(1)), (vec![2], vec![3]));
    assert_eq!(run.reply(Call::T6(9)), 5);
}

#[test]
fn what_moves_is_not_held_apart() {
    let mut run = run(ONE_SET);
    run.open(&[0, 1, 2]);
    run.order(2, 1, 0, Management::Tfp { destination: 9 });
    assert_eq!(run.host(9, 0), 0);
    run.order(2, 1, 0, Management::Tfa { destination: 9 });
    assert_eq!(run.host(9, 0), 0);
    run.order(0, 3, 0, Management::Eco);
    assert_eq!(run.arrivals(0), [1]);
    assert_eq!(run.point.destinations[&9].apart.len(), 1);
}

#[test]
fn t6_ends_without_a_route() {
    let mut run = run("link 0 0 0\nlink 2 1 0\nroute 9 0 0\nroute 9 1 1\n");
    run.open(&[0, 2]);
    run.order(2, 1, 0, Management::Tfp { destination: 9 });
    run.order(2, 1, 0, Management::Tfa { destination: 9 });
    assert_eq!(run.host(9, 0), 0);
    run.order(2, 1, 0, Management::Tfp { destination: 9 });
    let outcome = run.order(0, 3, 0, Management::Tfp { destination: 9 });
    assert_eq!(outcome.effects.reports, [Report::Pause(9)]);
    assert_eq!(run.host(9, 0), 9);
    assert_eq!(drops(&run.call(&Call::T6(9))), [(0, 1)]);
}

#[test]
fn t10_tests_and_restarts() {
    let mut run = run(ONE_SET);
    run.open(&[0, 1, 2]);
    assert_eq!(run.reply(Call::T10(9, 0)), 5);
    assert_eq!(run.reply(Call::T10(9, 5)), 2);
    assert_eq!(run.reply(Call::T10(8, 0)), 2);
    assert_eq!(run.reply(Call::T10(9, 8)), 1);
    run.order(2, 1, 0, Management::Tfp { destination: 9 });
    assert_eq!((run.reply(Call::T10(9, 0)), run.reply(Call::T10(9, 0))), (0, 0));
    assert_eq!(run.orders(0), [Management::Rst { destination: 9 }; 2]);
}

#[test]
fn rst_is_answered_by_another_set_only() {
    let mut run = run(ONE_SET);
    run.open(&[0, 1, 2]);
    assert_eq!(run.order(2, 1, 0, Management::Rst { destination: 9 }).reply, Reply::FitsNothing);
    assert_eq!(run.order(2, 3, 0, Management::Rst { destination: 9 }).reply, Reply::Done);
    assert_eq!(run.orders(2), [Management::Tfa { destination: 9 }]);
    for stranger in [2, 77] {
        assert_eq!(run.order(2, 3, 0, Management::Rst { destination: stranger }).reply, Reply::FitsNothing);
    }
}

#[test]
fn tfp_once_in_a_t8() {
    let mut run = run("link 0 0 0\nlink 4 2 0\nroute 1 0 0\nroute 9 2 0\n");
    run.open(&[0]);
    let to = |dpc| compose(2, 5, Label { dpc, opc: 1, sls: 0 }, &[]);
    assert_eq!(run.over(0, to(8)).reply, Reply::Unreachable);
    assert_eq!(run.point.next_arrival, 0);
    assert_eq!(run.over(0, to(9)).reply, Reply::Unreachable);
    assert_eq!(run.over(0, to(9)).reply, Reply::Unreachable);
    assert_eq!(run.orders(0), [Management::Tfp { destination: 9 }]);
    assert_eq!((run.reply(Call::T8(9)), run.reply(Call::T8(9))), (0, 5));
    assert_eq!(run.over(0, to(9)).reply, Reply::Unreachable);
    assert_eq!(run.orders(0).len(), 2);
}

// Places and arrival numbers.

#[test]
fn both_stores_full() {
    let mut run = run("link 0 0 0\nlink 1 0 1\nlink 4 2 0\nroute 1 0 0\nroute 9 2 0\n");
    run.open(&[0]);
    for _ in 0..192 {
        assert_eq!(run.host(1, 0), 0);
    }
    assert_eq!(run.host(1, 0), 7);
    assert_eq!(run.host(9, 0), 9);
    for code in 0..64 {
        assert_eq!(run.order(0, 1, 0, Management::Cbd { code }).reply, Reply::Done);
    }
    assert_eq!(run.order(0, 1, 0, Management::Cbd { code: 64 }).reply, Reply::ManagementStoreFull);
    assert_eq!(run.order(0, 1, 7, Management::Cbd { code: 64 }).reply, Reply::FitsNothing);
    let to_nine = compose(2, 5, Label { dpc: 9, opc: 1, sls: 0 }, &[]);
    assert_eq!(run.over(0, to_nine).reply, Reply::ManagementStoreFull);
    assert_eq!(run.reply(Call::Service(1)), 8);
    assert_eq!(run.reply(Call::Failure(0)), 0);
    assert!(run.point.link(0).t1);
}

#[test]
fn the_last_arrival_number() {
    let mut run = run("link 0 0 0\nlink 1 0 1\nlink 4 2 0\nroute 1 0 0\nroute 9 2 0\n");
    run.open(&[0]);
    let point = &mut run.point;
    point.next_arrival = ARRIVAL_NUMBERS - 1;
    let to_one = Call::Host(compose(2, 5, Label { dpc: 1, opc: 2, sls: 0 }, &[]));
    assert_eq!(point.call(&to_one).reply, Reply::Done);
    assert_eq!(point.link(0).queue[0].arrival, (1 << 63) - 1);
    let before = point.clone();
    assert_eq!(point.call(&to_one).reply, Reply::NumbersUsedUp);
    let to_nine = compose(2, 5, Label { dpc: 9, opc: 1, sls: 0 }, &[]);
    let received = Call::Received { link: 0, fsn: 0, octets: to_nine };
    assert_eq!(point.call(&received).reply, Reply::NumbersUsedUp);
    assert_eq!(point.call(&Call::Service(1)).reply, Reply::NumbersUsedUp);
    assert_eq!(*point, before);
    assert_eq!(point.call(&Call::Failure(0)).reply, Reply::Done);
    assert!(point.link(0).t1);
}

// The order of replies.

#[test]
fn order_of_replies() {
    let mut run = run(ONE_SET);
    run.open(&[2]);
    let received = |link, fsn, octets: &[u8]| Call::Received { link, fsn, octets: octets.to_vec() };
    assert_eq!(run.reply(received(40, 200, &[])), 1);
    assert_eq!(run.reply(received(9, 200, &[])), 1);
    assert_eq!(run.reply(received(9, 5, &[])), 2);
    assert_eq!(run.reply(received(0, 5, &[])), 5);
    assert_eq!(run.reply(received(2, 5, &[])), 6);
    assert_eq!(run.reply(received(2, 0, &[])), 3);
    assert_eq!(run.reply(received(2, 1, &[0; 274])), 3);
    let heading = compose(3, 0, Label { dpc: 2, opc: 1, sls: 0 }, &[0x13, 0]);
    assert_eq!(run.reply(received(2, 2, &heading)), 3);
    let network = compose(3, 0, Label { dpc: 2, opc: 99, sls: 0 }, &[0x12]);
    assert_eq!(run.reply(received(2, 3, &network)), 4);
    assert_eq!(run.reply(received(2, 3, &network)), 6);
    assert_eq!(run.reply(Call::Ack(2, 128)), 1);
    assert_eq!(run.reply(Call::Ack(0, 3)), 5);
    assert_eq!(run.reply(Call::Ack(2, 3)), 6);
    assert_eq!(run.reply(Call::T6(16_384)), 1);
    assert_eq!(run.reply(Call::T8(8)), 2);
}

#[test]
fn host_messages() {
    let mut run = run(ONE_SET);
    run.open(&[2]);
    let mut from = |ni, si, dpc, opc, length| {
        let mut octets = compose(ni, si, Label { dpc, opc, sls: 0 }, &[]);
        octets.resize(length, 0);
        run.reply(Call::Host(octets))
    };
    assert_eq!(from(2, 5, 9, 2, 4), 3);
    assert_eq!(from(2, 5, 9, 2, 274), 3);
    assert_eq!(from(2, 5, 9, 2, 273), 0);
    assert_eq!(from(2, 5, 9, 2, 5), 0);
    assert_eq!(from(3, 0, 9, 2, 5), 3);
    assert_eq!(from(3, 5, 9, 7, 5), 3);
    assert_eq!(from(3, 5, 2, 2, 5), 4);
    assert_eq!(from(2, 5, 2, 2, 5), 9);
    assert_eq!(from(2, 5, 8, 2, 5), 9);
}

#[test]
fn si_0_in_transit_is_a_user_message() {
    let mut run = run(ONE_SET);
    run.open(&[2]);
    let octets = compose(2, 0, Label { dpc: 9, opc: 3, sls: 7 }, &[0x99]);
    assert_eq!(run.over(2, octets.clone()).reply, Reply::Done);
    assert!(!run.point.link(2).queue[0].management);
    let left = run.call(&Call::Send(2));
    assert_eq!(left.effects.output, Output::Leaves { fsn: 0, octets });
}
