//! P1 to P12 and the "Others" of document 01, with Jobs 1 and 4 of document 02.
use rival::check::check;
use rival::limits::*;
use rival::plan::*;
use rival::reader::read;
use rival::run::Times;
use rival::simulate::{bound, simulate};
use rival::state::{start, State};
use rival::texts::text_of_length;
use rival::timetable::{of_worst_times, program};

const PLAN_A: &str = "U\t0\t1\nU\t1\t2\nT\t0\t0\t1\t2\nT\t1\t0\t1\t3\nT\t2\t1\t2\t4\nT\t3\t0\t2\t5\n\
T\t3\t1\t1\t3\nT\t4\t0\t1\t2\nA\t0\t2\nA\t1\t3\nA\t2\t4\nC\t0\t0\nC\t1\t0\nC\t2\t1\nC\t3\t1\nC\t4\t0\n";

fn plan_a() -> (Plan, Constraint) {
    read(PLAN_A.as_bytes()).unwrap()
}

/// Plan A with another order; each task keeps its type.
fn in_order(order: [u64; 5]) -> (Plan, Constraint) {
    let (plan, old) = plan_a();
    let mut new = old.clone();
    for (p, t) in order.into_iter().enumerate() {
        new.task[p] = t;
        new.kind[p] = old.kind[t as usize];
    }
    (plan, new)
}

fn expect(run: Times, starts: [u32; 5], response: u32) {
    assert_eq!((&run.starts[..5], run.response), (&starts[..], response));
    assert!(run.starts[5..].iter().chain(&run.finishes[5..]).all(|&n| n == 0));
}

fn no(number: u64, place: u64) -> Refusal {
    Refusal { number, place }
}

fn begun() -> State {
    let (plan, constraint) = plan_a();
    let (state, answer) = start(&plan, &constraint);
    assert_eq!(answer, Ok(0b1));
    state
}

fn after_p9() -> State {
    let (state, answer) = begun().tick(0b1);
    assert_eq!(answer, Ok(0b110));
    state
}

fn refused(state: State, report: u64, refusal: Refusal) {
    assert_eq!(state.clone().tick(report), (state, Err(refusal)));
}

#[test]
fn p1_worst_times() {
    let (plan, constraint) = plan_a();
    expect(bound(&plan, &constraint).unwrap(), [0, 2, 2, 5, 6], 8);
    let table = "0\t0\t0\t2\n1\t0\t2\t5\n2\t1\t2\t6\n3\t1\t5\t8\n4\t0\t6\t8\nR\t8\n";
    assert_eq!(program(PLAN_A.as_bytes()), table.as_bytes());
}

#[test]
fn p2_best_times() {
    let (plan, constraint) = plan_a();
    expect(simulate(&plan, &constraint, &[1, 1, 2, 1, 1]).unwrap(), [0, 1, 1, 2, 3], 4);
}

#[test]
fn p3_task_2_takes_2() {
    let (plan, constraint) = plan_a();
    expect(simulate(&plan, &constraint, &[2, 3, 2, 3, 2]).unwrap(), [0, 2, 2, 5, 5], 8);
}

#[test]
fn p4_another_order() {
    let (plan, constraint) = in_order([0, 1, 3, 2, 4]);
    expect(bound(&plan, &constraint).unwrap(), [0, 2, 5, 5, 9], 11);
}

#[test]
fn p5_one_unit_of_type_1() {
    let (mut plan, constraint) = plan_a();
    plan.units[1] = 1;
    expect(bound(&plan, &constraint).unwrap(), [0, 2, 2, 6, 6], 9);
}

#[test]
fn p6_predecessor_later() {
    let (plan, constraint) = in_order([2, 0, 1, 3, 4]);
    assert_eq!(check(&plan, &constraint), Err(no(11, 0)));
}

#[test]
fn p7_unusable_type() {
    let (plan, mut constraint) = plan_a();
    constraint.kind[1] = 1;
    assert_eq!(check(&plan, &constraint), Err(no(10, 1)));
}

#[test]
fn p8_task_repeats() {
    let (plan, constraint) = in_order([0, 1, 2, 3, 3]);
    assert_eq!(check(&plan, &constraint), Err(no(9, 4)));
}

#[test]
fn p9_start_and_tick() {
    assert_eq!(after_p9().instant, 1);
}

#[test]
fn p10_overrun() {
    let (state, answer) = begun().tick(0);
    assert_eq!(answer, Ok(0));
    refused(state, 0, no(16, 0));
}

/// Task 2 ends before its best time; task 3 still waits for task 1.
#[test]
fn p11_before_best() {
    let (state, answer) = after_p9().tick(0b100);
    assert_eq!(answer, Ok(0));
    assert_eq!((state.instant, state.started, state.finished), (2, 3, 0b101));
    assert_eq!((state.starts[2], state.finishes[2]), (1, 2));
}

#[test]
fn p12_not_running() {
    refused(after_p9(), 0b1000, no(14, 3));
}

/// With task 0 finished, task 1 starts only at the new instant.
#[test]
fn not_yet_running() {
    refused(begun(), 0b11, no(14, 1));
}

#[test]
fn every_time_1() {
    let (plan, constraint) = plan_a();
    expect(simulate(&plan, &constraint, &[1; 5]).unwrap(), [0, 1, 1, 2, 2], 3);
}

/// The lowest task is the place, whichever end of the range its time is beyond.
#[test]
fn times_outside() {
    let (plan, constraint) = plan_a();
    let place = |times: [u32; 5]| match simulate(&plan, &constraint, &times) {
        Err(Refusal { number: 18, place }) => Some(place),
        _ => None,
    };
    assert_eq!(place([1, 1, 0, 1, 1]), Some(2));
    assert_eq!(place([2, 3, 4, 3, 3]), Some(4));
    assert_eq!(place([1, 0, 5, 1, 1]), Some(1));
    assert_eq!(place([1, 4, 0, 1, 1]), Some(1));
    assert_eq!(place([2, 3, 1, 3, 2]), None);
}

#[test]
fn empty_text() {
    let (plan, constraint) = read(b"").unwrap();
    assert_eq!((&plan, &constraint), (&Plan::zero(), &Constraint::zero()));
    assert_eq!(check(&plan, &constraint), Err(no(8, 0)));
    assert_eq!(program(b""), b"refused\t8\t0\n");
}

#[test]
fn longest_text() {
    for length in LONGEST_TEXT - 2..=LONGEST_TEXT {
        let text = text_of_length(length);
        assert_eq!(text.len(), length);
        assert!(read(&text).is_ok());
    }
    let longer = text_of_length(LONGEST_TEXT + 1);
    assert_eq!(longer.len(), LONGEST_TEXT + 1);
    assert_eq!(read(&longer), Err(no(1, 0)));
}

#[test]
fn longest_time() {
    let text = |field: String| format!("U\t0\t1\nT\t0\t0\t1\t{field}\nC\t0\t0\n").into_bytes();
    let longest = read(&text(LONGEST_TIME.to_string()));
    assert_eq!(longest.unwrap().0.worst[0], LONGEST_TIME);
    assert_eq!(read(&text((LONGEST_TIME + 1).to_string())), Err(no(3, 2)));
    assert_eq!(read(&text("9".repeat(DIGITS))), Err(no(3, 2)));
    assert_eq!(read(&text("1".repeat(DIGITS + 1))), Err(no(2, 2)));
    assert_eq!(read(&text("07".to_string())), Err(no(2, 2)));
}

#[test]
fn buffer_length() {
    let (plan, constraint) = plan_a();
    let needed = program(PLAN_A.as_bytes()).len();
    let mut buffer = vec![b'#'; needed - 1];
    let answer = of_worst_times(&plan, &constraint, &mut buffer);
    assert_eq!(answer, Err(no(19, needed as u64)));
    assert!(buffer.iter().all(|&b| b == b'#'));
    let mut buffer = vec![b'#'; needed + 3];
    assert_eq!(of_worst_times(&plan, &constraint, &mut buffer), Ok(needed as u64));
    assert_eq!(&buffer[needed..], b"###");
}
