//! Deadlines and margins on plan A of document 01, worked out by hand. By P1 its worst finishes are
//! 2, 5, 6, 8 and 8.
use rival::check::check;
use rival::fast;
use rival::limits::*;
use rival::margins::{margins, program, Margins};
use rival::plan::*;
use rival::reader::read;
use rival::state::{start, State};
use rival::timetable;

const BEFORE: &str = "U\t0\t1\nU\t1\t2\nT\t0\t0\t1\t2\nT\t1\t0\t1\t3\nT\t2\t1\t2\t4\nT\t3\t0\t2\t5\n\
T\t3\t1\t1\t3\nT\t4\t0\t1\t2\nA\t0\t2\nA\t1\t3\nA\t2\t4\n";
const AFTER: &str = "C\t0\t0\nC\t1\t0\nC\t2\t1\nC\t3\t1\nC\t4\t0\n";

/// The place of the first line after the arrows of plan A.
const D_PLACE: u64 = 12;

/// The text of plan A with D lines.
fn plan_a(lines: &str) -> String {
    format!("{BEFORE}{lines}{AFTER}")
}

fn written(text: &str) -> String {
    String::from_utf8(program(text.as_bytes())).unwrap()
}

/// What both forms answer.
fn answer(plan: &Plan, constraint: &Constraint) -> Result<Margins, Refusal> {
    let answer = margins(plan, constraint);
    assert_eq!(answer, fast::margins(plan, constraint));
    answer
}

fn accepted(text: &str) -> Margins {
    let (plan, constraint) = read(text.as_bytes()).unwrap();
    answer(&plan, &constraint).unwrap()
}

/// The first margins are these, all others 0.
fn expect(answer: Margins, margins: &[i64], least: i64, task: u64) {
    assert_eq!((answer.any, answer.least, answer.task), (true, least, task));
    assert_eq!(&answer.margins[..margins.len()], margins);
    assert!(answer.margins[margins.len()..].iter().all(|&margin| margin == 0));
}

fn no(number: u64, place: u64) -> Refusal {
    Refusal { number, place }
}

/// What both readers refuse.
fn refusal(text: &str) -> Refusal {
    let answer = read(text.as_bytes());
    assert_eq!(answer, fast::read(text.as_bytes()));
    answer.unwrap_err()
}

#[test]
fn a_deadline_for_each_task() {
    let text = plan_a("D\t0\t3\nD\t1\t5\nD\t2\t4\nD\t3\t8\nD\t4\t99\n");
    expect(accepted(&text), &[1, 0, -2, 0, 91], -2, 2);
    let table = "0\t3\t2\t1\n1\t5\t5\t0\n2\t4\t6\t-2\n3\t8\t8\t0\n4\t99\t8\t91\nL\t-2\t2\n";
    assert_eq!(written(&text), table);
}

/// The 0 of a task without deadline is not the least; D lines may stand in any order.
#[test]
fn deadlines_for_some() {
    let text = plan_a("D\t4\t10\nD\t1\t9\n");
    expect(accepted(&text), &[0, 4, 0, 0, 2], 2, 4);
    assert_eq!(written(&text), "1\t9\t5\t4\n4\t10\t8\t2\nL\t2\t4\n");
    expect(accepted(&plan_a("D\t3\t1\n")), &[0, 0, 0, -7], -7, 3);
    assert_eq!(written(&plan_a("D\t3\t1\n")), "3\t1\t8\t-7\nL\t-7\t3\n");
    expect(accepted(&plan_a("D\t2\t6\n")), &[], 0, 2);
    assert_eq!(written(&plan_a("D\t2\t6\n")), "2\t6\t6\t0\nL\t0\t2\n");
}

#[test]
fn ties() {
    expect(accepted(&plan_a("D\t4\t9\nD\t3\t9\nD\t0\t3\n")), &[1, 0, 0, 1, 1], 1, 0);
    expect(accepted(&plan_a("D\t4\t5\nD\t3\t5\nD\t0\t2\n")), &[0, 0, 0, -3, -3], -3, 3);
    expect(accepted(&plan_a("D\t1\t5\nD\t2\t6\nD\t4\t9\n")), &[0, 0, 0, 0, 1], 0, 1);
}

/// In P4, with finishes 2, 5, 9, 8 and 11, task 3 comes before task 2.
#[test]
fn a_tie_in_another_order() {
    let order = "C\t0\t0\nC\t1\t0\nC\t3\t1\nC\t2\t1\nC\t4\t0\n";
    let text = format!("{BEFORE}D\t2\t10\nD\t3\t9\nD\t4\t13\n{order}");
    expect(accepted(&text), &[0, 0, 1, 1, 2], 1, 2);
    assert_eq!(written(&text), "2\t10\t9\t1\n3\t9\t8\t1\n4\t13\t11\t2\nL\t1\t2\n");
}

/// P5, with finishes 2, 5, 6, 9 and 8.
#[test]
fn one_unit_of_type_1() {
    let text = plan_a("D\t3\t8\nD\t4\t8\n").replace("U\t1\t2", "U\t1\t1");
    expect(accepted(&text), &[0, 0, 0, -1, 0], -1, 3);
}

#[test]
fn no_deadlines() {
    assert_eq!(accepted(&plan_a("")), Margins::zero());
    assert_eq!(written(&plan_a("")), "no deadlines\n");
}

/// All tasks one after the other, with this worst time.
fn in_a_row(worst: u32, line: &str) -> String {
    let times = |t| format!("T\t{t}\t0\t1\t{worst}\n");
    let choice = |t| format!("C\t{t}\t0\n");
    let times: String = (0..TASKS).map(times).collect();
    let choices: String = (0..TASKS).map(choice).collect();
    format!("U\t0\t1\n{times}{line}{choices}")
}

#[test]
fn the_least_of_all_margins() {
    let text = in_a_row(LONGEST_TIME, &format!("D\t63\t1\nN\t0\t{LATEST_RELEASE}\n"));
    let answer = accepted(&text);
    assert_eq!((answer.least, answer.task, answer.margins[63]), (LEAST_MARGIN, 63, LEAST_MARGIN));
    let line = format!("63\t1\t{LAST_INSTANT}\t{LEAST_MARGIN}\n");
    assert_eq!(written(&text), format!("{line}L\t{LEAST_MARGIN}\t63\n"));
}

#[test]
fn the_greatest_of_all_margins() {
    let text = in_a_row(1, &format!("D\t0\t{LATEST_DEADLINE}\n"));
    expect(accepted(&text), &[GREATEST_MARGIN], GREATEST_MARGIN, 0);
    let alone = format!("U\t0\t1\nT\t0\t0\t1\t1\nD\t0\t{LATEST_DEADLINE}\nC\t0\t0\n");
    let line = format!("0\t{LATEST_DEADLINE}\t1\t{GREATEST_MARGIN}\n");
    assert_eq!(written(&alone), format!("{line}L\t{GREATEST_MARGIN}\t0\n"));
}

#[test]
fn refused_by_the_check() {
    let (plan, constraint) = read(plan_a("D\t0\t3\n").as_bytes()).unwrap();
    assert_eq!(answer(&Plan::zero(), &constraint), Err(no(8, 0)));
    let mut repeats = constraint.clone();
    repeats.task[4] = 3;
    assert_eq!(answer(&plan, &repeats), Err(no(9, 4)));
    let mut longer = constraint.clone();
    longer.length = 6;
    assert_eq!(answer(&plan, &longer), Err(no(9, 6)));
    let mut unusable = constraint.clone();
    unusable.kind[1] = 1;
    assert_eq!(answer(&plan, &unusable), Err(no(10, 1)));
    let mut earlier = constraint.clone();
    earlier.task[..3].copy_from_slice(&[2, 0, 1]);
    earlier.kind[..3].copy_from_slice(&[1, 0, 0]);
    assert_eq!(answer(&plan, &earlier), Err(no(11, 0)));
}

#[test]
fn refused_texts() {
    assert_eq!(written(""), "refused\t8\t0\n");
    let text = plan_a("D\t0\t3\n");
    assert_eq!(written(text.strip_suffix("C\t4\t0\n").unwrap()), "refused\t9\t4\n");
    assert_eq!(written(&text.replace("C\t1\t0", "C\t1\t1")), "refused\t10\t1\n");
    assert_eq!(written(&text.replace("A\t0\t2", "A\t4\t2")), "refused\t11\t2\n");
    assert_eq!(written(&plan_a("D\t0\t0\n")), "refused\t3\t12\n");
    assert_eq!(written(&"\n".repeat(LONGEST_TEXT + 1)), "refused\t1\t0\n");
}

/// The timetable and the reading of everything else are as without deadlines.
#[test]
fn all_else_is_as_without() {
    let text = plan_a("D\t0\t3\nD\t4\t1\n");
    assert_eq!(timetable::program(text.as_bytes()), timetable::program(plan_a("").as_bytes()));
    let (mut plan, constraint) = read(text.as_bytes()).unwrap();
    assert_eq!((plan.deadlines[0], plan.deadlines[4]), (3, 1));
    (plan.deadlines[0], plan.deadlines[4]) = (0, 0);
    assert_eq!((plan, constraint), read(plan_a("").as_bytes()).unwrap());
}

#[test]
fn d_lines_without_form() {
    for line in ["D", "D\t0", "D\t0\t", "D\t\t1", "D\t0\t1\t", "D\t0\t1\t1", "D\t0\t01", "D\t00\t1"] {
        assert_eq!(refusal(&plan_a(&format!("{line}\n"))), no(2, D_PLACE));
    }
    let longer = format!("D\t0\t{}", "1".repeat(DIGITS + 1));
    for line in ["d\t0\t1", "DD\t0\t1", "D 0 1", "D\t0\t-1", "D\t0\t1\r", &longer] {
        assert_eq!(refusal(&plan_a(&format!("{line}\n"))), no(2, D_PLACE));
    }
    assert_eq!(refusal(&format!("{BEFORE}D\t0\t1")), no(2, D_PLACE));
}

#[test]
fn d_lines_out_of_range() {
    let above = (LATEST_DEADLINE + 1).to_string();
    let greatest = "9".repeat(DIGITS);
    let fields = [("64", "1"), (&greatest, "1"), ("0", "0"), ("0", &above), ("0", &greatest), ("64", "0")];
    for (task, deadline) in fields {
        assert_eq!(refusal(&plan_a(&format!("D\t{task}\t{deadline}\n"))), no(3, D_PLACE));
    }
    for deadline in [1, LATEST_DEADLINE] {
        let (plan, constraint) = read(plan_a(&format!("D\t4\t{deadline}\n")).as_bytes()).unwrap();
        assert_eq!(plan.deadlines[4], deadline);
        assert_eq!(check(&plan, &constraint), Ok(()));
    }
}

/// After the A lines and before the C lines; there need be no A lines.
#[test]
fn d_lines_out_of_order() {
    assert_eq!(refusal(&format!("{}D\t0\t1\n", plan_a(""))), no(5, D_PLACE + 5));
    assert_eq!(refusal(&format!("{BEFORE}C\t0\t0\nD\t0\t1\n")), no(5, D_PLACE + 1));
    for line in ["U\t2\t1", "T\t0\t1\t1\t1", "A\t0\t4"] {
        assert_eq!(refusal(&plan_a(&format!("D\t0\t1\n{line}\n"))), no(5, D_PLACE + 1));
    }
    let without_arrows = "U\t0\t1\nT\t0\t0\t1\t1\nD\t0\t1\nC\t0\t0\n";
    expect(accepted(without_arrows), &[], 0, 0);
}

#[test]
fn d_lines_of_unknown_tasks() {
    for task in [5, 63] {
        assert_eq!(refusal(&plan_a(&format!("D\t{task}\t1\n"))), no(6, D_PLACE));
    }
    assert_eq!(refusal("D\t0\t1\n"), no(6, 1));
    // Task 0 is one of the plan's, and has no T line.
    assert_eq!(refusal("U\t0\t1\nT\t1\t0\t1\t1\nD\t0\t1\n"), no(6, 3));
}

#[test]
fn d_lines_given_before() {
    for again in ["D\t0\t1", "D\t0\t2"] {
        assert_eq!(refusal(&plan_a(&format!("D\t0\t1\n{again}\n"))), no(7, D_PLACE + 1));
        assert_eq!(refusal(&plan_a(&format!("D\t0\t1\nD\t1\t1\n{again}\n"))), no(7, D_PLACE + 2));
    }
}

/// Of several faults in a line, the one with the lowest number is named.
#[test]
fn d_lines_with_several_faults() {
    let after = |line: &str| refusal(&format!("{}{line}\n", plan_a("D\t0\t1\n"))).number;
    assert_eq!(after("D\t64\t"), 2);
    assert_eq!(after("D\t64\t1"), 3);
    assert_eq!(after("D\t5\t1"), 5);
    assert_eq!(after("D\t0\t1"), 5);
    assert_eq!(after("D\t0\t0"), 3);
    assert_eq!(refusal(&plan_a("D\t0\t1\nD\t0\t0\n")), no(3, D_PLACE + 1));
    assert_eq!(refusal(&plan_a("D\t5\t0\n")), no(3, D_PLACE));
}

#[test]
fn wrong_deadlines_in_a_plan() {
    let (plan, constraint) = read(plan_a("").as_bytes()).unwrap();
    let (latest, above) = (LATEST_DEADLINE, LATEST_DEADLINE + 1);
    let wrong = [(0, above), (4, u32::MAX), (5, 1), (63, latest), (5, above)];
    for (task, deadline) in wrong {
        let mut wrong = plan.clone();
        wrong.deadlines[task] = deadline;
        assert_eq!(check(&wrong, &constraint), Err(no(8, 0)));
        assert_eq!(fast::check(&wrong, &constraint), Err(no(8, 0)));
        assert_eq!(answer(&wrong, &constraint), Err(no(8, 0)));
        assert_eq!(start(&wrong, &constraint), (State::zero(), Err(no(8, 0))));
        let (mut state, _) = start(&plan, &constraint);
        state.plan = wrong;
        assert_eq!(state.clone().tick(1), (state.clone(), Err(no(12, 0))));
        assert_eq!(fast::tick(state.clone(), 1), (state, Err(no(12, 0))));
    }
}

/// Start and tick keep the deadlines, and a late task is no fault of theirs.
#[test]
fn deadlines_in_a_run() {
    let (plan, constraint) = read(plan_a("D\t0\t1\nD\t4\t99\n").as_bytes()).unwrap();
    let (state, answer) = start(&plan, &constraint);
    assert_eq!((&state.plan, answer), (&plan, Ok(0b1)));
    let (state, answer) = state.tick(0);
    assert_eq!((&state.plan, answer), (&plan, Ok(0)));
    let (state, answer) = state.tick(0b1);
    assert_eq!((&state.plan, answer), (&plan, Ok(0b110)));
}
