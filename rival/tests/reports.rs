//! A hung camera comes first (document 02, 7): "the order at a tick is 12, 13, 16, 14". Reports
//! with a stranger, an overrun or both on plan A of document 01, worked out by hand.
use rival::cases::*;
use rival::driver::session;
use rival::fast;
use rival::journal::Journal;
use rival::plan::*;
use rival::reached::{Reached, TICKS_OF_Z};
use rival::reader::read;
use rival::reports::cases_of_refused;
use rival::state::{start, State};

const PLAN_A: &str = include_str!("../../examples/plan-a.txt");

/// P9, then two empty reports. At the next instant task 1 has run its worst, task 2 has not.
const TASK_1_IS_DUE: [u64; 3] = [0b1, 0, 0];

/// The run of worst times up to instant 7. At the next tasks 3 and 4 have run their worst.
const TASKS_3_AND_4_ARE_DUE: [u64; 7] = [0, 0b1, 0, 0, 0b10, 0b100, 0];

/// The live run and the journal after these reports, all of which are taken.
fn after(reports: &[u64]) -> (State, Journal) {
    let (plan, constraint) = read(PLAN_A.as_bytes()).unwrap();
    let (mut state, _) = start(&plan, &constraint);
    let (mut journal, _) = Journal::open(&plan, &constraint);
    for &report in reports {
        let answer;
        (state, answer) = state.tick(report);
        assert!(answer.is_ok() && answer == journal.report(report));
    }
    (state, journal)
}

/// What the tick, its fast form and the journal all answer to this report after others. A refusal
/// alters nothing.
fn answer(before: &[u64], report: u64) -> Result<u64, Refusal> {
    let (state, mut journal) = after(before);
    let (next, answer) = state.clone().tick(report);
    assert_eq!(fast::tick(state.clone(), report), (next.clone(), answer));
    assert_eq!((journal.report(report), journal.instant), (answer, next.instant));
    assert!(answer.is_ok() || next == state);
    answer
}

/// Each of these reports after the others is refused with this number and place.
fn refused(before: &[u64], reports: &[u64], number: u64, place: u64) {
    for &report in reports {
        assert_eq!(answer(before, report), refuse(number, place), "{report:b}");
    }
}

/// Of the strangers, task 0 is finished, tasks 3 and 4 have not started, and 5 and 63 are absent.
#[test]
fn both_faults() {
    refused(&TASK_1_IS_DUE, &[0b1, 0b1000, 0b1_0000, 0b10_0000, 1 << 63], 16, 1);
    refused(&TASK_1_IS_DUE, &[0b101, 0b1100, 0b1001, !0b10], 16, 1);
}

/// P10 with a stranger in the second report.
#[test]
fn both_faults_at_task_0() {
    refused(&[0], &[0b10, 0b100, 0b1000, 1 << 63, !0b1], 16, 0);
}

#[test]
fn a_stranger_alone() {
    refused(&TASK_1_IS_DUE, &[0b11, 0b111, 0b1011, u64::MAX], 14, 0);
    refused(&TASK_1_IS_DUE, &[0b1010, 0b1110, 0b1_1010], 14, 3);
    // A tick sooner nothing is due.
    refused(&TASK_1_IS_DUE[..2], &[0b1, 0b101, 0b1001], 14, 0);
    refused(&TASK_1_IS_DUE[..2], &[0b1000, 0b1100], 14, 3);
}

#[test]
fn an_overrun_alone() {
    refused(&TASK_1_IS_DUE, &[0, 0b100], 16, 1);
    assert_eq!(answer(&TASK_1_IS_DUE, 0b10), Ok(0b1000));
    assert_eq!(answer(&TASK_1_IS_DUE, 0b110), Ok(0b1_1000));
}

/// The place is the lowest of the overrunning tasks, wherever the stranger is.
#[test]
fn two_overruns() {
    refused(&TASKS_3_AND_4_ARE_DUE, &[0, 0b1, 0b100, 0b10_0000, 0b10_0111], 16, 3);
    refused(&TASKS_3_AND_4_ARE_DUE, &[0b1_0000, 0b1_0001, 0b11_0000], 16, 3);
    refused(&TASKS_3_AND_4_ARE_DUE, &[0b1000, 0b1001, 0b10_1000], 16, 4);
    refused(&TASKS_3_AND_4_ARE_DUE, &[0b1_1100, 0b11_1100], 14, 2);
    assert_eq!(answer(&TASKS_3_AND_4_ARE_DUE, 0b1_1000), Ok(0));
}

/// The cases of this report after others that are taken and before such a rest, as ticks and in a
/// replay.
fn cases(before: &[u64], report: u64, rest: &[u64]) -> Vec<Case> {
    let reports = [before, &[report], rest].concat();
    let list = |between| reports.iter().map(|n| format!("{between}{n}")).collect::<String>();
    let input = format!("{}\n{PLAN_A}S{}\nZ{}\n", PLAN_A.len(), list("\nT\t"), list("\t"));
    let reached = session(input.as_bytes()).reached;
    let once = |command| {
        let cases = FAULTY_REPORTS.into_iter().chain([STRANGER_FIRST]);
        cases.filter(|&case| reached.times_of_case(command, case) == 1).collect::<Vec<Case>>()
    };
    assert_eq!(once("T"), once(TICKS_OF_Z));
    once("T")
}

#[test]
fn cases_of_reports() {
    assert_eq!(cases(&TASK_1_IS_DUE, 0b110, &[0b1_1000]), []);
    let case = |report| cases(&TASK_1_IS_DUE, report, &[0b110, 0b1_1000]);
    assert_eq!([0b11, 0b1010, u64::MAX].map(case), [[STRANGER_ALONE]; 3]);
    assert_eq!([0, 0b100].map(case), [[OVERRUN_ALONE]; 2]);
    assert_eq!([0b1, 0b101, 0b1001].map(case), [[LOWER_STRANGER]; 3]);
    assert_eq!([0b1000, 0b1100, 1 << 63].map(case), [[HIGHER_STRANGER]; 3]);
    let case = |report| cases(&TASKS_3_AND_4_ARE_DUE, report, &[0b1_1000]);
    assert_eq!(case(0), [OVERRUN_ALONE]);
    assert_eq!(case(0b100), [LOWER_STRANGER, STRANGER_AND_OVERRUNS]);
    assert_eq!(case(0b10_0000), [HIGHER_STRANGER, STRANGER_AND_OVERRUNS]);
    assert_eq!([0b1100, 0b1_0100].map(case), [[LOWER_STRANGER]; 2]);
}

/// Of answers that no report has, 14 with both faults and 16 with the stranger as place, beside a 14
/// that is right.
#[test]
fn cases_of_wrong_answers() {
    let (state, _) = after(&TASK_1_IS_DUE);
    let cases = |report, number, place| {
        cases_of_refused(&state, state.instant, report, &Refusal { number, place })
    };
    assert_eq!(cases(0b1000, 14, 3), [STRANGER_FIRST]);
    assert_eq!(cases(0b1010, 14, 3), [STRANGER_ALONE]);
    assert_eq!(cases(0b1000, 16, 3), []);
    let mut reached = Reached::default();
    for command in ["T", TICKS_OF_Z] {
        reached.note_tick(command, &state, state.instant, 0b1000, &refuse(14, 3));
        assert!(reached.faults().contains(&format!("given: 14 with an overrun by {command}")));
    }
}
