//! Lists of records for plan A of document 01, worked out by hand. Type 0 has one unit, type 1 has
//! two; the worst times are 2, 3, 4, 5 on type 0 or 3 on type 1, and 2; tasks 2, 3 and 4 wait for
//! tasks 0, 1 and 2.
use rival::check::check;
use rival::fast;
use rival::limits::*;
use rival::plan::*;
use rival::reader::read;
use rival::schedule::{adopt, Record};
use rival::simulate::bound;

const PLAN_A: &str = include_str!("../../examples/plan-a.txt");

/// Task, type, start and finish.
type Row = [u32; 4];

/// The run of worst times.
const P1: [Row; 5] = [[0, 0, 0, 2], [1, 0, 2, 5], [2, 1, 2, 6], [3, 1, 5, 8], [4, 0, 6, 8]];

fn plan_a() -> Plan {
    read(PLAN_A.as_bytes()).unwrap().0
}

fn record([task, unit_type, start, finish]: Row) -> Record {
    Record { task, unit_type, start, finish }
}

/// What both forms answer.
fn answer_for(plan: &Plan, rows: &[Row]) -> Result<Constraint, Refusal> {
    let records: Vec<Record> = rows.iter().copied().map(record).collect();
    let answer = adopt(plan, &records);
    assert_eq!(answer, fast::adopt(plan, &records));
    answer
}

fn answer(rows: &[Row]) -> Result<Constraint, Refusal> {
    answer_for(&plan_a(), rows)
}

/// The list gives this order with these types, and zeros after them. The check takes it; gives the
/// bound.
fn accepted(rows: &[Row], task: [u64; 5], kind: [u64; 5]) -> u32 {
    let mut expected = Constraint { length: 5, ..Constraint::zero() };
    expected.task[..5].copy_from_slice(&task);
    expected.kind[..5].copy_from_slice(&kind);
    assert_eq!(answer(rows), Ok(expected.clone()));
    assert_eq!(check(&plan_a(), &expected), Ok(()));
    bound(&plan_a(), &expected).unwrap().response
}

/// P1 with another row at a place.
fn with(place: usize, row: Row) -> [Row; 5] {
    let mut rows = P1;
    rows[place] = row;
    rows
}

fn refused(rows: &[Row], number: u64, place: u64) {
    assert_eq!(answer(rows), Err(Refusal { number, place }));
}

/// Tasks 1 and 2 start at one instant.
#[test]
fn the_run_of_worst_times() {
    assert_eq!(accepted(&P1, [0, 1, 2, 3, 4], [0, 0, 1, 1, 0]), 8);
    let mut turned = P1;
    turned.reverse();
    assert_eq!(accepted(&turned, [0, 1, 2, 3, 4], [0, 0, 1, 1, 0]), 8);
}

/// The order is that of the starts; tasks 0 and 3 start at one instant.
#[test]
fn another_order() {
    let mut rows = [[3, 1, 3, 6], [4, 0, 9, 11], [0, 0, 3, 5], [2, 1, 5, 9], [1, 0, 0, 3]];
    assert_eq!(accepted(&rows, [1, 0, 3, 2, 4], [0, 0, 1, 1, 0]), 11);
    rows[1] = [4, 0, 20, 22];
    assert_eq!(accepted(&rows, [1, 0, 3, 2, 4], [0, 0, 1, 1, 0]), 11);
    rows[0] = [3, 1, 4, 7];
    assert_eq!(accepted(&rows, [1, 0, 3, 2, 4], [0, 0, 1, 1, 0]), 11);
}

/// Task 3 takes longer on type 0.
#[test]
fn another_type() {
    let rows = [P1[0], P1[1], P1[2], [3, 0, 5, 10], [4, 0, 10, 12]];
    assert_eq!(accepted(&rows, [0, 1, 2, 3, 4], [0, 0, 1, 0, 0]), 12);
    refused(&with(3, [3, 0, 5, 10]), 22, 4);
    refused(&with(3, [3, 0, 5, 8]), 21, 3);
    refused(&with(3, [3, 1, 5, 10]), 21, 3);
}

/// Up to the last number of 32 bits, and not beyond it.
#[test]
fn later_by_a_constant() {
    for by in [1, 1_000_000, LAST_INSTANT, u32::MAX - 9, u32::MAX - 8] {
        let rows = P1.map(|[task, kind, start, finish]| [task, kind, start + by, finish + by]);
        assert_eq!(accepted(&rows, [0, 1, 2, 3, 4], [0, 0, 1, 1, 0]), 8);
    }
    let wrapped = P1.map(|[task, kind, start, finish]| {
        [task, kind, start.wrapping_add(u32::MAX - 7), finish.wrapping_add(u32::MAX - 7)]
    });
    refused(&wrapped, 21, 3);
}

#[test]
fn plans_that_break_a_rule() {
    let eight = Err(Refusal { number: 8, place: 0 });
    assert_eq!(answer_for(&Plan::zero(), &[]), eight);
    assert_eq!(answer_for(&Plan::zero(), &P1), eight);
    let mut plan = plan_a();
    plan.deadlines[5] = 1;
    assert_eq!(answer_for(&plan, &P1), eight);
    assert_eq!(answer_for(&plan, &P1[1..]), eight);
    plan = plan_a();
    plan.units[0] = 9;
    assert_eq!(answer_for(&plan, &P1), eight);
}

#[test]
fn counts() {
    for count in [0, 1, 4, 6, 63, 64, 65, 80, 1_000] {
        let rows: Vec<Row> = P1.iter().copied().cycle().take(count).collect();
        refused(&rows, 20, count as u64);
    }
}

/// Absent or repeated: the first faulty record decides, whatever else is wrong.
#[test]
fn tasks() {
    for task in [5, 63, 64, u32::MAX] {
        refused(&with(0, [task, 0, 0, 2]), 20, 0);
        refused(&with(4, [task, 0, 6, 8]), 20, 4);
    }
    refused(&with(4, P1[0]), 20, 4);
    refused(&with(0, P1[4]), 20, 4);
    refused(&with(2, [1, 0, 2, 5]), 20, 2);
    refused(&[[0, 9, 0, 0], [1, 0, 0, 3], [2, 1, 0, 0], [3, 1, 0, 3], [3, 1, 0, 3]], 20, 4);
    refused(&[P1[0], [5, 0, 0, 0], [0, 0, 0, 2], P1[3], P1[4]], 20, 1);
}

/// Where a task cannot use a type the plan keeps 0.
#[test]
fn types() {
    refused(&with(1, [1, 1, 2, 5]), 21, 1);
    refused(&with(1, [1, 1, 2, 2]), 21, 1);
    for kind in [2, 7, 8, 9, 63, 64, u32::MAX] {
        refused(&with(4, [4, kind, 6, 8]), 21, 4);
        refused(&with(0, [0, kind, 0, 0]), 21, 0);
    }
    // The pair of task 1 with type 0 stands there.
    refused(&with(0, [0, 8, 0, 3]), 21, 0);
}

#[test]
fn finishes() {
    for finish in [0, 1, 3, u32::MAX] {
        refused(&with(0, [0, 0, 0, finish]), 21, 0);
    }
    for finish in [0, 6, 7, 9] {
        refused(&with(4, [4, 0, 6, finish]), 21, 4);
    }
    // The first of two, and not for the best time; a start that is too soon comes after all.
    refused(&[P1[0], P1[1], [2, 1, 2, 4], P1[3], [4, 0, 6, 7]], 21, 2);
    refused(&[P1[0], [1, 0, 1, 4], [2, 1, 0, 4], P1[3], [4, 0, 6, 9]], 21, 4);
}

/// Start plus worst does not fit 32 bits.
#[test]
fn sums_that_wrap() {
    refused(&with(4, [4, 0, u32::MAX, 1]), 21, 4);
    refused(&with(4, [4, 0, u32::MAX - 1, 0]), 21, 4);
    refused(&with(4, [4, 0, u32::MAX, u32::MAX]), 21, 4);
    let last = with(4, [4, 0, u32::MAX - 2, u32::MAX]);
    assert_eq!(accepted(&last, [0, 1, 2, 3, 4], [0, 0, 1, 1, 0]), 8);
}

/// Task 4 may start when task 2 finishes, and task 3 when task 1 does.
#[test]
fn starts_before_a_finish() {
    refused(&with(4, [4, 0, 5, 7]), 22, 4);
    refused(&with(4, [4, 0, 0, 2]), 22, 0);
    refused(&with(3, [3, 1, 4, 7]), 22, 3);
    refused(&with(2, [2, 1, 1, 5]), 22, 2);
    refused(&with(1, [1, 0, 3, 6]), 22, 3);
}

/// All records of the type that start while too many hold it are faulty.
#[test]
fn holders() {
    refused(&with(1, [1, 0, 1, 4]), 22, 1);
    refused(&with(0, [0, 0, 1, 3]), 22, 1);
    refused(&[[1, 0, 0, 3], [0, 0, 0, 2], P1[2], P1[3], P1[4]], 22, 0);
    // At the finish of another the unit is free; one instant before, it is not.
    let rows = [[0, 0, 3, 5], [1, 0, 0, 3], [2, 1, 5, 9], [3, 1, 3, 6], [4, 0, 9, 11]];
    assert_eq!(accepted(&rows, [1, 0, 3, 2, 4], [0, 0, 1, 1, 0]), 11);
    refused(&[[0, 0, 2, 4], rows[1], rows[2], rows[3], rows[4]], 22, 0);
}

/// As many tasks as units start at one instant, then one more does.
#[test]
fn all_units() {
    let tasks = |n: usize| (0..n).map(|t| format!("T\t{t}\t0\t1\t9\n")).collect::<String>();
    let plan = |n: usize| read(format!("U\t0\t{UNITS}\n{}", tasks(n)).as_bytes()).unwrap().0;
    let rows: Vec<Row> = (0..UNITS as u32).rev().map(|t| [t, 0, 7, 16]).collect();
    let constraint = answer_for(&plan(UNITS), &rows).unwrap();
    assert_eq!(constraint.task[..UNITS], [0, 1, 2, 3, 4, 5, 6, 7]);
    let plus = |start| [&rows[..], &[[UNITS as u32, 0, start, start + 9]]].concat();
    let plan = plan(UNITS + 1);
    assert_eq!(answer_for(&plan, &plus(7)), Err(Refusal { number: 22, place: 0 }));
    assert_eq!(answer_for(&plan, &plus(0)), Err(Refusal { number: 22, place: 0 }));
    assert_eq!(answer_for(&plan, &plus(8)), Err(Refusal { number: 22, place: UNITS as u64 }));
    assert_eq!(answer_for(&plan, &plus(15)), Err(Refusal { number: 22, place: UNITS as u64 }));
    assert_eq!(answer_for(&plan, &plus(16)).unwrap().task[UNITS], UNITS as u64);
}

/// Arrows that lead round leave no list to accept.
#[test]
fn arrows_in_a_circle() {
    let text = "U\t0\t2\nT\t0\t0\t1\t1\nT\t1\t0\t1\t1\nA\t0\t1\nA\t1\t0\n";
    let plan = read(text.as_bytes()).unwrap().0;
    for (rows, place) in [([[0, 0, 0, 1], [1, 0, 1, 2]], 0), ([[0, 0, 1, 2], [1, 0, 0, 1]], 1)] {
        assert_eq!(answer_for(&plan, &rows), Err(Refusal { number: 22, place }));
    }
}
