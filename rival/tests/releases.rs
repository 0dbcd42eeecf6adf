//! Not before the lamp is warm (document 02, 6): N lines on plan A of document 01, worked out by
//! hand. Its worst times are 2, 3, 4, 3 and 2; tasks 2, 3 and 4 wait for tasks 0, 1 and 2; the order
//! is by number, and tasks 0, 1 and 4 share one unit.
use rival::cases::*;
use rival::check::check;
use rival::driver::session;
use rival::fast;
use rival::inputs::{allowed_times, release, some_report};
use rival::journal::{Journal, Progress};
use rival::limits::*;
use rival::list_cases;
use rival::lists::{list, records};
use rival::margins::margins;
use rival::plan::*;
use rival::random::Random;
use rival::reached::{Reached, TICKS_OF_Z};
use rival::schedule::{adopt, Record};
use rival::simulate::{bound, simulate};
use rival::state::{start, State};
use rival::texts::sound_plan;
use rival::timetable::program;

const BEFORE: &str = "U\t0\t1\nU\t1\t2\nT\t0\t0\t1\t2\nT\t1\t0\t1\t3\nT\t2\t1\t2\t4\nT\t3\t0\t2\t5\n\
T\t3\t1\t1\t3\nT\t4\t0\t1\t2\nA\t0\t2\nA\t1\t3\nA\t2\t4\n";
const AFTER: &str = "C\t0\t0\nC\t1\t0\nC\t2\t1\nC\t3\t1\nC\t4\t0\n";

/// The place of the first line after the arrows of plan A.
const N_PLACE: u64 = 12;

/// The text of plan A with D or N lines.
fn plan_a(lines: &str) -> String {
    format!("{BEFORE}{lines}{AFTER}")
}

/// What both readers answer.
fn read(text: &str) -> Result<(Plan, Constraint), Refusal> {
    let answer = rival::reader::read(text.as_bytes());
    assert_eq!(answer, fast::read(text.as_bytes()));
    answer
}

fn refusal(text: &str) -> Refusal {
    read(text).unwrap_err()
}

fn no(number: u64, place: u64) -> Refusal {
    Refusal { number, place }
}

/// Starts and response of plan A with these lines and times, in both forms.
fn run(lines: &str, times: [u32; 5]) -> ([u32; 5], u32) {
    let (plan, constraint) = read(&plan_a(lines)).unwrap();
    let run = simulate(&plan, &constraint, &times).unwrap();
    assert_eq!(fast::simulate(&plan, &constraint, &times), Ok(run.clone()));
    let starts = run.starts[..5].try_into().unwrap();
    assert!((0..5).all(|t| run.finishes[t] == run.starts[t] + times[t]));
    (starts, run.response)
}

const WORST: [u32; 5] = [2, 3, 4, 3, 2];

/// Nothing runs from 2 to 4. Task 2, which waited for task 0 alone, starts no sooner than task 1,
/// which stands before it.
#[test]
fn task_1_not_before_4() {
    assert_eq!(run("N\t1\t4\n", WORST), ([0, 4, 4, 7, 8], 10));
    let table = "0\t0\t0\t2\n1\t0\t4\t7\n2\t1\t4\t8\n3\t1\t7\t10\n4\t0\t8\t10\nR\t10\n";
    assert_eq!(program(plan_a("N\t1\t4\n").as_bytes()), table.as_bytes());
}

#[test]
fn task_1_not_before_4_in_other_times() {
    assert_eq!(run("N\t1\t4\n", [1, 1, 2, 1, 1]), ([0, 4, 4, 5, 6], 7));
    assert_eq!(run("N\t1\t4\n", [1; 5]), ([0, 4, 4, 5, 5], 6));
    assert_eq!(run("N\t1\t4\n", [2, 3, 1, 3, 2]), ([0, 4, 4, 7, 7], 10));
}

/// An instant holds those that stand after its task, not those before it.
#[test]
fn other_instants() {
    assert_eq!(run("", WORST), ([0, 2, 2, 5, 6], 8));
    assert_eq!(run("N\t0\t3\n", WORST), ([3, 5, 5, 8, 9], 11));
    assert_eq!(run("N\t0\t1000000\n", WORST), ([1000000, 1000002, 1000002, 1000005, 1000006], 1000008));
    assert_eq!(run("N\t2\t3\n", WORST), ([0, 2, 3, 5, 7], 9));
    assert_eq!(run("N\t4\t100\n", WORST), ([0, 2, 2, 5, 100], 102));
    assert_eq!(run("N\t4\t7\nN\t3\t7\n", WORST), ([0, 2, 2, 7, 7], 10));
    assert_eq!(run("N\t0\t1\nN\t1\t5\nN\t2\t6\nN\t3\t9\nN\t4\t10\n", WORST), ([1, 5, 6, 9, 10], 12));
}

/// An instant by which the task could not start anyway alters nothing, and neither does 0.
#[test]
fn instants_that_hold_nothing() {
    for lines in ["N\t1\t2\n", "N\t1\t1\nN\t2\t2\n", "N\t3\t5\nN\t4\t6\n", "N\t0\t0\nN\t4\t0\n"] {
        assert_eq!(run(lines, WORST), ([0, 2, 2, 5, 6], 8));
    }
    assert_eq!(read(&plan_a("N\t0\t0\nN\t4\t0\n")), read(&plan_a("")));
}

/// What both ticks answer.
fn tick(state: &State, report: u64) -> (State, Result<u64, Refusal>) {
    let answer = state.clone().tick(report);
    assert_eq!(answer, fast::tick(state.clone(), report));
    answer
}

/// The state after these reports, each answered with these started tasks.
fn after(lines: &str, opened: u64, reports: &[(u64, u64)]) -> State {
    let (plan, constraint) = read(&plan_a(lines)).unwrap();
    let (mut state, answer) = start(&plan, &constraint);
    assert_eq!(answer, Ok(opened));
    assert_eq!(fast::start(&plan, &constraint), (state.clone(), answer));
    let (mut journal, answer) = Journal::open(&plan, &constraint);
    assert_eq!(answer, opened);
    for &(report, started) in reports {
        let answer;
        (state, answer) = tick(&state, report);
        assert_eq!((answer, journal.report(report)), (Ok(started), Ok(started)));
    }
    assert_eq!(state.plan, plan);
    state
}

/// The run of worst times, tick by tick: from 2 to 4 only the instant is waited for.
#[test]
fn a_live_run() {
    let reports = [
        (0, 0), (0b1, 0), (0, 0), (0, 0b110), (0, 0), (0, 0), (0b10, 0b1000), (0b100, 0b10000),
        (0, 0), (0b11000, 0),
    ];
    let state = after("N\t1\t4\n", 0b1, &reports);
    assert_eq!((state.instant, state.finished), (10, 0b11111));
    assert_eq!(state.starts[..5], [0, 4, 4, 7, 8]);
    assert_eq!(state.finishes[..5], [2, 7, 8, 10, 10]);
    assert_eq!(tick(&state, 0), (state.clone(), Err(no(13, 0))));
}

/// Every report but the empty one names a task that does not run; an empty one is never too late.
#[test]
fn while_nothing_runs() {
    let state = after("N\t1\t4\n", 0b1, &[(0b1, 0)]);
    assert_eq!((state.instant, state.running()), (1, 0));
    for (report, place) in [(0b1, 0), (0b10, 1), (0b100, 2), (1 << 63, 63), (0b110, 1)] {
        assert_eq!(tick(&state, report), (state.clone(), Err(no(14, place))));
    }
    let opened = after("N\t0\t3\n", 0, &[(0, 0), (0, 0), (0, 0b1)]);
    assert_eq!((opened.instant, opened.starts[0]), (3, 3));
}

/// P10: the second empty report is refused as ever.
#[test]
fn an_overrun() {
    let state = after("N\t1\t4\n", 0b1, &[(0, 0)]);
    assert_eq!(tick(&state, 0), (state.clone(), Err(no(16, 0))));
}

/// Tasks 1 and 2 wait for the instant, and are told apart as ever: ready, whether or not it has come.
#[test]
fn waiting_and_ready() {
    let (plan, constraint) = read(&plan_a("N\t1\t4\n")).unwrap();
    let (mut journal, _) = Journal::open(&plan, &constraint);
    assert_eq!(journal.tasks(Progress::Ready), [1]);
    assert_eq!(journal.tasks(Progress::Waiting), [2, 3, 4]);
    assert_eq!(journal.report(0b1), Ok(0));
    assert_eq!(journal.tasks(Progress::Ready), [1, 2]);
    assert_eq!(journal.tasks(Progress::Waiting), [3, 4]);
    assert_eq!(journal.tasks(Progress::Running), []);
}

/// With a start before its instant a state is not sound, be the task running or finished.
#[test]
fn starts_before_their_instants() {
    let running = after("N\t1\t4\n", 0b1, &[(0b1, 0), (0, 0), (0, 0), (0, 0b110)]);
    let finished = after("N\t1\t4\n", 0b1, &[(0b1, 0), (0, 0), (0, 0), (0, 0b110), (0b10, 0b1000)]);
    for (state, report) in [(running, 0), (finished, 0b1000)] {
        assert!(tick(&state, report).1.is_ok());
        for (release, sound) in [(0, true), (4, true), (5, false), (LATEST_RELEASE, false)] {
            let mut state = state.clone();
            state.plan.releases[1] = release;
            let (after, answer) = tick(&state, report);
            assert_eq!(answer.is_ok(), sound);
            assert!(sound || (&after, answer) == (&state, Err(no(12, 0))));
        }
        for (start, sound) in [(4, true), (3, false), (0, false)] {
            let mut state = state.clone();
            state.starts[1] = start;
            state.plan.worst[pair(1, 0)] = 9;
            let answer = tick(&state, report).1;
            assert_eq!(answer.is_ok(), sound);
            assert!(sound || answer == Err(no(12, 0)));
        }
    }
}

/// Of a task that has not started an instant may be anything: one that has gone, or one to come.
#[test]
fn instants_of_unstarted_tasks() {
    let state = after("N\t1\t4\n", 0b1, &[(0b1, 0), (0, 0)]);
    for (release, started) in [(0, 0b110), (2, 0b110), (3, 0b110), (4, 0), (LATEST_RELEASE, 0)] {
        let mut state = state.clone();
        state.plan.releases[1] = release;
        assert_eq!(tick(&state, 0).1, Ok(started));
    }
}

/// One above the latest, or one of an absent task, though 0 is none.
#[test]
fn wrong_instants_in_a_plan() {
    let (plan, constraint) = read(&plan_a("")).unwrap();
    let (latest, above) = (LATEST_RELEASE, LATEST_RELEASE + 1);
    for (task, release) in [(0, above), (4, u32::MAX), (5, 1), (63, latest), (5, above)] {
        let mut wrong = plan.clone();
        wrong.releases[task] = release;
        assert_eq!(check(&wrong, &constraint), Err(no(8, 0)));
        assert_eq!(fast::check(&wrong, &constraint), Err(no(8, 0)));
        assert_eq!(bound(&wrong, &constraint), Err(no(8, 0)));
        assert_eq!(fast::margins(&wrong, &constraint), Err(no(8, 0)));
        assert_eq!(start(&wrong, &constraint), (State::zero(), Err(no(8, 0))));
        assert_eq!(adopt(&wrong, &[]), Err(no(8, 0)));
        assert_eq!(fast::adopt(&wrong, &[]), Err(no(8, 0)));
        let (mut state, _) = start(&plan, &constraint);
        state.plan = wrong;
        assert_eq!(tick(&state, 1), (state.clone(), Err(no(12, 0))));
    }
    for (task, release) in [(0, latest), (4, latest), (63, 0)] {
        let mut right = plan.clone();
        right.releases[task] = release;
        assert_eq!(check(&right, &constraint), Ok(()));
        assert_eq!(fast::check(&right, &constraint), Ok(()));
    }
}

/// What both forms answer to a list for plan A with these lines. Task 2 runs from 2 to 6 and task 3
/// from 7 to 10; tasks 1 and 4 start when it is said.
fn adopted(lines: &str, start_of_1: u32, start_of_4: u32) -> Result<Constraint, Refusal> {
    let (plan, _) = read(&plan_a(lines)).unwrap();
    let starts = [(0, 0, 0), (1, 0, start_of_1), (2, 1, 2), (3, 1, 7), (4, 0, start_of_4)];
    let records = starts.map(|(task, unit_type, start)| {
        Record { task, unit_type, start, finish: start + WORST[task as usize] }
    });
    let answer = adopt(&plan, &records);
    assert_eq!(answer, fast::adopt(&plan, &records));
    answer
}

/// Task 1 must not start before 4; its type is free from 2 on.
#[test]
fn schedules() {
    let constraint = adopted("N\t1\t4\n", 4, 7).unwrap();
    assert_eq!(constraint.task[..5], [0, 2, 1, 3, 4]);
    let (plan, _) = read(&plan_a("N\t1\t4\n")).unwrap();
    assert_eq!(bound(&plan, &constraint).unwrap().response, 10);
    for start_of_1 in [3, 2] {
        assert_eq!(adopted("N\t1\t4\n", start_of_1, 7), Err(no(22, 1)));
        assert!(adopted("", start_of_1, 7).is_ok());
        assert!(adopted("N\t1\t2\n", start_of_1, 7).is_ok());
    }
    // The first faulty record decides, whichever fault of 22 it has.
    assert_eq!(adopted("N\t1\t4\n", 4, 5), Err(no(22, 4)));
    assert_eq!(adopted("N\t1\t4\n", 3, 5), Err(no(22, 1)));
    assert_eq!(adopted("N\t4\t8\n", 1, 7), Err(no(22, 1)));
    assert_eq!(adopted("N\t4\t8\n", 2, 7), Err(no(22, 4)));
}

/// Finishes are 2, 7, 8, 10 and 10.
#[test]
fn margins_with_instants() {
    let (plan, constraint) = read(&plan_a("D\t1\t7\nD\t4\t9\nN\t1\t4\n")).unwrap();
    let answer = margins(&plan, &constraint).unwrap();
    assert_eq!(fast::margins(&plan, &constraint), Ok(answer.clone()));
    assert_eq!((answer.least, answer.task, &answer.margins[..5]), (-1, 4, &[0, 0, 0, 0, -1][..]));
}

#[test]
fn n_lines_that_are_read() {
    for release in [0, 1, LATEST_RELEASE] {
        let (plan, constraint) = read(&plan_a(&format!("N\t4\t{release}\n"))).unwrap();
        assert_eq!(plan.releases[4], release);
        let mut without = plan.clone();
        without.releases[4] = 0;
        assert_eq!((without, constraint), read(&plan_a("")).unwrap());
    }
    // In any order of tasks, after D lines, without A and D lines.
    let (plan, _) = read(&plan_a("D\t0\t1\nN\t3\t7\nN\t0\t9\n")).unwrap();
    assert_eq!((plan.releases[..5].to_vec(), plan.deadlines[0]), (vec![9, 0, 0, 7, 0], 1));
    assert!(read("U\t0\t1\nT\t0\t0\t1\t1\nN\t0\t1\nC\t0\t0\n").is_ok());
}

#[test]
fn n_lines_without_form() {
    for line in ["N", "N\t0", "N\t0\t", "N\t\t1", "N\t0\t1\t", "N\t0\t1\t1", "N\t0\t01", "N\t00\t1", "N\t0\t00"] {
        assert_eq!(refusal(&plan_a(&format!("{line}\n"))), no(2, N_PLACE));
    }
    let longer = format!("N\t0\t{}", "1".repeat(DIGITS + 1));
    for line in ["n\t0\t1", "NN\t0\t1", "N 0 1", "N\t0\t-1", "N\t0\t1\r", &longer] {
        assert_eq!(refusal(&plan_a(&format!("{line}\n"))), no(2, N_PLACE));
    }
    assert_eq!(refusal(&format!("{BEFORE}N\t0\t1")), no(2, N_PLACE));
}

#[test]
fn n_lines_out_of_range() {
    let (above, greatest) = ((LATEST_RELEASE + 1).to_string(), "9".repeat(DIGITS));
    for (task, release) in [("64", "0"), (&greatest, "1"), ("0", &above), ("0", &greatest), ("64", &above)] {
        assert_eq!(refusal(&plan_a(&format!("N\t{task}\t{release}\n"))), no(3, N_PLACE));
    }
}

/// After the D lines and before the C lines.
#[test]
fn n_lines_out_of_order() {
    assert_eq!(refusal(&format!("{}N\t0\t1\n", plan_a(""))), no(5, N_PLACE + 5));
    assert_eq!(refusal(&format!("{BEFORE}C\t0\t0\nN\t0\t0\n")), no(5, N_PLACE + 1));
    for line in ["U\t2\t1", "T\t0\t1\t1\t1", "A\t0\t4", "D\t0\t1"] {
        assert_eq!(refusal(&plan_a(&format!("N\t0\t1\n{line}\n"))), no(5, N_PLACE + 1));
    }
}

#[test]
fn n_lines_of_unknown_tasks() {
    for line in ["N\t5\t1", "N\t63\t1", "N\t5\t0"] {
        assert_eq!(refusal(&plan_a(&format!("{line}\n"))), no(6, N_PLACE));
    }
    assert_eq!(refusal("N\t0\t0\n"), no(6, 1));
    // Task 0 is one of the plan's, and has no T line.
    assert_eq!(refusal("U\t0\t1\nT\t1\t0\t1\t1\nN\t0\t1\n"), no(6, 3));
}

/// The second is refused whatever the first said, 0 too.
#[test]
fn n_lines_given_before() {
    for first in ["N\t0\t0", "N\t0\t1"] {
        for again in ["N\t0\t0", "N\t0\t1", "N\t0\t2"] {
            assert_eq!(refusal(&plan_a(&format!("{first}\n{again}\n"))), no(7, N_PLACE + 1));
            assert_eq!(refusal(&plan_a(&format!("{first}\nN\t1\t0\n{again}\n"))), no(7, N_PLACE + 2));
        }
    }
    assert!(read(&plan_a("D\t0\t1\nN\t0\t0\nN\t1\t0\n")).is_ok());
}

/// Of several faults in a line, the one with the lowest number is named.
#[test]
fn n_lines_with_several_faults() {
    let after = |line: &str| refusal(&format!("{}{line}\n", plan_a("N\t0\t0\n"))).number;
    assert_eq!(after("N\t64\t"), 2);
    assert_eq!(after("N\t64\t1"), 3);
    assert_eq!(after("N\t5\t1"), 5);
    assert_eq!(after("N\t0\t1"), 5);
    assert_eq!(after(&format!("N\t0\t{}", LATEST_RELEASE + 1)), 3);
    let above = LATEST_RELEASE + 1;
    assert_eq!(refusal(&plan_a(&format!("N\t0\t0\nN\t0\t{above}\n"))), no(3, N_PLACE + 1));
    assert_eq!(refusal(&plan_a(&format!("N\t5\t{above}\n"))), no(3, N_PLACE));
}

/// A session on plan A: its answers, line by line, and what it reached.
fn session_of(lines: &str, commands: &[&str]) -> (Vec<String>, Reached) {
    let text = plan_a(lines);
    let input = format!("{}\n{text}{}\n", text.len(), commands.join("\n"));
    let driver = session(input.as_bytes());
    let out = String::from_utf8(driver.out).unwrap();
    (out.lines().skip(1).map(str::to_string).collect(), driver.reached)
}

fn answers(commands: &[&str]) -> Vec<String> {
    session_of("", commands).0
}

/// `P` puts not-before instants of the kept plan, `R` those of the kept state's plan.
#[test]
fn part_15() {
    let lines = answers(&["S", "P\t15\t1\t4", "B", "T\t1", "S", "T\t1", "T\t0", "T\t0", "T\t0"]);
    let run = ["tick\t0\t0\t0", "tick\t0\t0\t0", "tick\t0\t0\t0", "tick\t0\t0\t6"];
    let expected = ["start\t0\t0\t1", "put", "bound\t0\t0\t10", "tick\t0\t0\t6", "start\t0\t0\t1"];
    assert_eq!(lines, [&expected[..], &run].concat());
    let lines = answers(&["S", "R\t15\t1\t4", "B", "T\t1", "T\t0", "T\t0", "T\t0"]);
    assert_eq!(lines, [&["start\t0\t0\t1", "put", "bound\t0\t0\t8"], &run[..]].concat());
}

#[test]
fn part_15_out_of_range() {
    let (latest, above) = (LATEST_RELEASE, LATEST_RELEASE + 1);
    let put = |letter: char, task: u64, value: u32| format!("{letter}\t15\t{task}\t{value}");
    for (task, value, number) in [(0, latest, 0), (0, above, 8), (5, 1, 8), (63, latest, 8), (63, 0, 0)] {
        assert_eq!(answers(&[&put('P', task, value), "K"]), ["put", &format!("check\t{number}\t0")]);
    }
    for (task, value, answer) in [(4, latest, "0\t0\t6"), (4, above, "12\t0\t0"), (5, 1, "12\t0\t0"), (0, 1, "12\t0\t0")] {
        let lines = answers(&["S", &put('R', task, value), "T\t1", &put('R', task, 0), "K"]);
        assert_eq!(lines[1..], ["put", &format!("tick\t{answer}"), "put", "check\t0\t0"]);
    }
}

#[test]
fn bad_lines() {
    for line in ["N", "N\t0\t0", "P\t15\t0", "P\t15\t0\t0\t0", "P\t15\t64\t0", "R\t15\t64\t0", "R\t15\t0"] {
        assert_eq!(answers(&[line]), ["bad"]);
    }
    for line in ["P\t15\t0\t4294967296", "R\t15\t0\t4294967296", "P\t15\t0\t-1", "P\t16\t0\t0", "R\t16\t0\t0"] {
        assert_eq!(answers(&[line]), ["bad"]);
    }
    assert_eq!(answers(&["P\t15\t63\t4294967295", "R\t15\t63\t4294967295"]), ["put", "put"]);
}

/// A refused text leaves no not-before instants.
#[test]
fn instants_of_a_refused_text() {
    let text = "U\t0\t1\nT\t0\t0\t1\t1\nN\t0\t5\nN\t0\t5\n";
    let puts = [0, 1, 2, 3, 4, 6].map(|part| format!("P\t{part}\t0\t1\n")).concat();
    let input = format!("{}\n{text}{puts}B\n", text.len());
    let out = String::from_utf8(session(input.as_bytes()).out).unwrap();
    assert_eq!(out, format!("read\t7\t4\n{}bound\t0\t0\t1\n", "put\n".repeat(6)));
}

/// Those of the cases that a command had once.
fn once(lines: &str, commands: &[&str], command: &str, cases: &[Case]) -> Vec<Case> {
    let (_, reached) = session_of(lines, commands);
    cases.iter().copied().filter(|&case| reached.times_of_case(command, case) == 1).collect()
}

#[test]
fn cases_of_simulations() {
    let all = [&WAITS[..], &START_EDGES, &[BOUND_IS_SUM, BOUND_ABOVE_SUM, IDLE_AFTER_ALL]].concat();
    let cases = |lines: &str| {
        let of_bound = once(lines, &["B"], "B", &all);
        let of_run = once(lines, &["M\t2\t3\t4\t3\t2"], "M", &all);
        assert!(of_bound.iter().filter(|case| **case != BOUND_IS_SUM).eq(&of_run));
        of_bound
    };
    for lines in ["", "N\t0\t0\n", "N\t1\t1\n", "N\t2\t1\n"] {
        assert_eq!(cases(lines), []);
    }
    assert_eq!(cases("N\t1\t4\n"), [HELD, IDLE, RELEASED]);
    assert_eq!(cases("N\t2\t3\n"), [HELD, RELEASED]);
    // The instant comes just when the unit is free.
    assert_eq!(cases("N\t1\t2\n"), [RELEASED]);
    let greatest = START_EDGES[START_EDGES.len() - 1];
    assert_eq!(cases(&format!("N\t0\t{LATEST_RELEASE}\n")), [HELD, IDLE, RELEASED, greatest]);
    assert_eq!(cases("N\t0\t1\n"), [HELD, IDLE, RELEASED, START_EDGES[0]]);
}

#[test]
fn cases_of_the_greatest_bound() {
    let text = "U\t0\t1\nT\t0\t0\t1\t2\nT\t1\t0\t1\t3\nC\t0\t0\nC\t1\t0\n";
    let cases = |release: &str| {
        let text = text.replacen("C\t0", &format!("{release}C\t0"), 1);
        let reached = session(format!("{}\n{text}B\n", text.len()).as_bytes()).reached;
        reached.times_of_case("B", BOUND_IS_SUM)
    };
    assert_eq!(["N\t0\t7\n", "N\t1\t7\n", "N\t1\t2\n", "N\t0\t0\n", ""].map(cases), [1, 0, 0, 0, 0]);
}

#[test]
fn cases_of_ticks() {
    let all = [&WAITS[..], &START_EDGES, &[IDLE_AFTER_ALL, IDLE_REPORT]].concat();
    let ticks = |lines: &str, reports: &[&str]| {
        let commands: Vec<String> = reports.iter().map(|report| format!("T\t{report}")).collect();
        let commands: Vec<&str> = commands.iter().map(String::as_str).collect();
        let of_t = once(lines, &[&["S"], &commands[..]].concat(), "T", &all);
        let replay = format!("Z\t{}", reports.join("\t"));
        let of_z = once(lines, &[&replay], TICKS_OF_Z, &all);
        assert_eq!(of_t, of_z);
        of_t
    };
    assert_eq!(ticks("", &["1", "2"]), []);
    assert_eq!(ticks("N\t1\t4\n", &["0"]), []);
    assert_eq!(ticks("N\t1\t4\n", &["1"]), [HELD, IDLE]);
    assert_eq!(ticks("N\t1\t4\n", &["1", "2"]), [HELD, IDLE, IDLE_REPORT]);
    assert_eq!(ticks("N\t1\t2\n", &["1", "0"]), [HELD, IDLE, RELEASED]);
    assert_eq!(ticks("N\t1\t1\n", &["1"]), [RELEASED, START_EDGES[0]]);
    // Task 1 runs; task 2 waits for its instant, then for nothing.
    assert_eq!(ticks("N\t2\t3\n", &["1"]), [HELD]);
    assert_eq!(ticks("N\t2\t3\n", &["1", "0", "0"])[..], [RELEASED]);
    for (lines, cases) in [("N\t0\t3\n", &[HELD, IDLE][..]), ("N\t1\t4\n", &[]), ("", &[])] {
        assert_eq!(once(lines, &["S"], "S", &all), cases);
    }
}

#[test]
fn cases_of_early_starts() {
    let cases = |commands: &[&str]| {
        let begun = ["S", "T\t1", "T\t2"];
        once("N\t1\t1\n", &[&begun[..], commands, &["T\t0"]].concat(), "T", &EARLY)
    };
    // Task 1 has run from 1 to 2, task 2 runs since 1.
    assert_eq!(cases(&[]), []);
    assert_eq!(cases(&["R\t15\t1\t2"]), [FINISHED_EARLY, ONE_EARLY]);
    assert_eq!(cases(&["R\t15\t1\t3"]), [FINISHED_EARLY]);
    assert_eq!(cases(&["R\t12\t1\t0"]), [FINISHED_EARLY, ONE_EARLY]);
    assert_eq!(cases(&["R\t15\t2\t2"]), [RUNNING_EARLY, ONE_EARLY]);
    assert_eq!(cases(&["R\t15\t2\t9"]), [RUNNING_EARLY]);
    assert_eq!(cases(&["R\t15\t2\t2", "R\t15\t1\t2"]), [ONE_EARLY]);
    // Something else is wrong, or nothing.
    assert_eq!(cases(&["R\t15\t2\t2", "R\t9\t0\t9"]), []);
    assert_eq!(cases(&["R\t15\t2\t1000001"]), []);
    assert_eq!(cases(&["R\t15\t2\t2", "R\t15\t5\t1"]), []);
    assert_eq!(cases(&["R\t15\t2\t1", "R\t15\t4\t9"]), []);
}

#[test]
fn cases_of_instants_in_a_plan() {
    let above = LATEST_RELEASE + 1;
    let of_plan = |put: &str| {
        let commands = ["K", "S", "D", "L"];
        let cases = commands.map(|command| once("", &[put, command], command, &FAULTS));
        assert!(cases.iter().all(|case| *case == cases[0]));
        cases[0].clone()
    };
    assert_eq!(of_plan(&format!("P\t15\t0\t{above}")), [RELEASE_ABOVE]);
    assert_eq!(of_plan(&format!("P\t15\t0\t{}", above + 1)), []);
    assert_eq!(of_plan(&format!("P\t15\t5\t{above}")), []);
    assert_eq!(of_plan("P\t15\t5\t1"), [RELEASE_ABSENT]);
    assert_eq!(of_plan(&format!("P\t15\t63\t{LATEST_RELEASE}")), [RELEASE_ABSENT]);
    assert_eq!(of_plan(&format!("P\t15\t0\t{LATEST_RELEASE}")), []);
    let of_state = |put: &str| once("", &["S", put, "T\t1"], "T", &UNSOUND_PLANS);
    assert_eq!(of_state(&format!("R\t15\t4\t{above}")), [UNSOUND_RELEASE_ABOVE]);
    assert_eq!(of_state("R\t15\t5\t1"), [UNSOUND_RELEASE_ABSENT]);
    assert_eq!(of_state("R\t15\t4\t1"), []);
}

#[test]
fn cases_of_schedules() {
    let all = [&list_cases::RECORDS[..], &[list_cases::AT_ITS_INSTANT]].concat();
    let cases = |lines: &str, task_1: &str| {
        let list = ["E\t0\t0\t0\t2", task_1, "E\t2\t1\t2\t6", "E\t3\t1\t8\t11", "E\t4\t0\t8\t10", "L"];
        once(lines, &list, "L", &all)
    };
    let (before, one_before) = (list_cases::BEFORE_INSTANT, list_cases::ONE_BEFORE_INSTANT);
    assert_eq!(cases("N\t1\t4\n", "E\t1\t0\t4\t7"), [list_cases::AT_ITS_INSTANT]);
    assert_eq!(cases("N\t1\t4\n", "E\t1\t0\t5\t8"), []);
    assert_eq!(cases("N\t1\t4\n", "E\t1\t0\t3\t6"), [before, one_before]);
    assert_eq!(cases("N\t1\t4\n", "E\t1\t0\t2\t5"), [before]);
    assert_eq!(cases("", "E\t1\t0\t4\t7"), []);
    // The unit is held too.
    assert_eq!(cases("N\t1\t4\n", "E\t1\t0\t1\t4"), []);
    assert_eq!(cases("", "E\t1\t0\t1\t4"), [list_cases::CROWDED, list_cases::ONE_TOO_CROWDED]);
}

/// Once all instants have come something runs, and the bound is never greater; a command that says
/// otherwise is named.
#[test]
fn what_is_never_given() {
    let (plan, constraint) = read(&plan_a("N\t1\t4\n")).unwrap();
    let mut run = bound(&plan, &constraint).unwrap();
    let faults = |run: &rival::run::Times| {
        let mut reached = Reached::default();
        reached.note_bound("B", &plan, &constraint, run);
        let given = reached.faults().into_iter().filter(|fault| fault.starts_with("given"));
        given.collect::<Vec<String>>()
    };
    assert_eq!(faults(&run), [""; 0]);
    (run.starts[4], run.finishes[4], run.response) = (11, 13, 13);
    assert_eq!(faults(&run), ["given: 0 idle after all instants by B"]);
    run.response = 19;
    assert!(faults(&run).contains(&"given: 0 above instant plus sum of times by B".to_string()));
}

/// A plan with instants of its own choice for some tasks, often small.
fn plan_with_releases(random: &mut Random) -> (Plan, Constraint) {
    let (mut plan, constraint) = sound_plan(random);
    let run = bound(&plan, &constraint).unwrap();
    let rarity = random.pick(&[1, 2, 5]);
    for t in 0..plan.tasks as usize {
        if random.once_in(rarity) {
            plan.releases[t] = release(random, run.starts[t].into()) as u32;
        }
    }
    assert_eq!(check(&plan, &constraint), Ok(()));
    (plan, constraint)
}

#[test]
fn both_forms_simulate_alike() {
    let (mut random, mut held) = (Random::new(1), 0);
    for _ in 0..2_000 {
        let (plan, constraint) = plan_with_releases(&mut random);
        let times = allowed_times(&mut random, &plan, &constraint);
        let run = simulate(&plan, &constraint, &times).unwrap();
        assert_eq!(fast::simulate(&plan, &constraint, &times), Ok(run.clone()));
        assert_eq!(fast::margins(&plan, &constraint), margins(&plan, &constraint));
        let unheld = Plan { releases: [0; TASKS], ..plan.clone() };
        held += u64::from(simulate(&unheld, &constraint, &times) != Ok(run.clone()));
        assert!((0..plan.tasks as usize).all(|t| plan.releases[t] <= run.starts[t]));
    }
    assert!(held > 1_000);
}

/// Without N lines a plan's run is that of the starts alone; an instant that no start is before
/// alters nothing.
#[test]
fn instants_at_the_starts_alter_nothing() {
    let mut random = Random::new(2);
    for _ in 0..500 {
        let (mut plan, constraint) = sound_plan(&mut random);
        plan.releases = [0; TASKS];
        let run = bound(&plan, &constraint).unwrap();
        for t in 0..plan.tasks as usize {
            plan.releases[t] = random.below(u64::from(run.starts[t].min(LATEST_RELEASE)) + 1) as u32;
        }
        assert_eq!(bound(&plan, &constraint), Ok(run));
    }
}

#[test]
fn both_forms_tick_alike() {
    let (mut random, mut idle) = (Random::new(3), 0);
    for _ in 0..300 {
        let (plan, constraint) = plan_with_releases(&mut random);
        let (mut state, answer) = start(&plan, &constraint);
        assert_eq!(fast::start(&plan, &constraint), (state.clone(), answer));
        for _ in 0..60 {
            idle += u64::from(state.running() == 0);
            let report = some_report(&mut random, &state);
            (state, _) = tick(&state, report);
        }
    }
    assert!(idle > 1_000);
}

#[test]
fn both_forms_adopt_alike() {
    let (mut random, mut reached) = (Random::new(4), Reached::default());
    for _ in 0..1_000 {
        let (plan, _) = plan_with_releases(&mut random);
        let records = records(&list(&mut random, &plan));
        let answer = adopt(&plan, &records);
        assert_eq!(fast::adopt(&plan, &records), answer);
        reached.note_list("", &plan, &records, &answer);
        if let Ok(constraint) = &answer {
            let finish = records.iter().map(|record| record.finish).max().unwrap();
            assert!(bound(&plan, constraint).unwrap().response <= finish);
        }
    }
    use list_cases::{AT_ITS_INSTANT, BEFORE_INSTANT, ONE_BEFORE_INSTANT};
    for case in [AT_ITS_INSTANT, BEFORE_INSTANT, ONE_BEFORE_INSTANT] {
        assert!(reached.times_of_case("", case) > 10, "{case:?}");
    }
}
