//! Long exposures and instants to wait for (document 02, 4 and 6): the ends of each range, and what
//! is just beyond, in both forms.
use rival::driver::session;
use rival::edges;
use rival::fast;
use rival::limits::*;
use rival::plan::*;
use rival::reader;
use rival::simulate::bound;
use rival::state::{start, State};
use rival::timetable::{of_worst_times, program, timetable};
use std::fmt::Display;

/// The requests' own numbers; everywhere else they follow from the names.
#[test]
fn the_numbers() {
    assert_eq!((LONGEST_TIME, LATEST_DEADLINE, DIGITS), (1_000_000, 1_000_000, 7));
    assert_eq!(LATEST_RELEASE, 1_000_000);
    assert_eq!((LAST_INSTANT, LONGEST_TIMETABLE), (65_000_000, 1_456));
    assert_eq!((LEAST_MARGIN, GREATEST_MARGIN), (-64_999_999, 999_999));
    assert_eq!(edges::TIMES, [1, 65_535, 65_536, 999_999, 1_000_000]);
    assert_eq!((edges::DEADLINES, edges::RELEASES), (edges::TIMES, edges::TIMES));
    assert_eq!(edges::INSTANTS, [4_194_240, 64_999_999, 65_000_000, 65_000_001]);
}

fn no(number: u64, place: u64) -> Refusal {
    Refusal { number, place }
}

/// What both readers answer.
fn read(text: &str) -> Result<(Plan, Constraint), Refusal> {
    let answer = reader::read(text.as_bytes());
    assert_eq!(answer, fast::read(text.as_bytes()));
    answer
}

/// What both checks answer.
fn check(plan: &Plan, constraint: &Constraint) -> Result<(), Refusal> {
    let answer = rival::check::check(plan, constraint);
    assert_eq!(answer, fast::check(plan, constraint));
    answer
}

/// What both ticks answer.
fn tick(state: &State, report: u64) -> (State, Result<u64, Refusal>) {
    let answer = state.clone().tick(report);
    assert_eq!(answer, fast::tick(state.clone(), report));
    answer
}

/// One task with these times and this deadline.
fn one_task(best: impl Display, worst: impl Display, deadline: impl Display) -> String {
    format!("U\t0\t1\nT\t0\t0\t{best}\t{worst}\nD\t0\t{deadline}\nC\t0\t0\n")
}

const T_PLACE: u64 = 2;
const D_PLACE: u64 = 3;

#[test]
fn times_that_are_read() {
    for time in edges::TIMES {
        for best in [1, time] {
            let text = one_task(best, time, 1);
            let (plan, constraint) = read(&text).unwrap();
            assert_eq!((plan.best[0], plan.worst[0]), (best, time));
            assert_eq!(check(&plan, &constraint), Ok(()));
            assert_eq!(bound(&plan, &constraint).unwrap().response, time);
            assert_eq!(program(text.as_bytes()), format!("0\t0\t0\t{time}\nR\t{time}\n").as_bytes());
        }
    }
    for best in &edges::TIMES[1..] {
        assert_eq!(read(&one_task(best, best - 1, 1)), Err(no(4, T_PLACE)));
    }
}

/// As times and as deadlines: one too great, one that 16 bits would make 1, the greatest that has
/// no digit too many, and none.
const OUT_OF_RANGE: [u32; 4] =
    [LONGEST_TIME + 1, (LONGEST_TIME / (1 << 16) + 1) * (1 << 16) + 1, 10u32.pow(DIGITS as u32) - 1, 0];

/// 3 comes before 4.
#[test]
fn times_out_of_range() {
    for time in OUT_OF_RANGE {
        for (best, worst) in [(1, time), (time, time), (time, LONGEST_TIME), (time, 1)] {
            assert_eq!(read(&one_task(best, worst, 1)), Err(no(3, T_PLACE)));
        }
    }
}

#[test]
fn deadlines_that_are_read() {
    for deadline in edges::DEADLINES {
        let (plan, constraint) = read(&one_task(1, 1, deadline)).unwrap();
        assert_eq!(plan.deadlines[0], deadline);
        let answer = rival::margins::margins(&plan, &constraint);
        assert_eq!(answer, fast::margins(&plan, &constraint));
        assert_eq!(answer.unwrap().least, i64::from(deadline) - 1);
    }
    for deadline in OUT_OF_RANGE {
        assert_eq!(read(&one_task(1, 1, deadline)), Err(no(3, D_PLACE)));
    }
}

/// One task that starts at its not-before instant, as when it is 0 and there is no line.
#[test]
fn releases_that_are_read() {
    let text = |release: u32| one_task(1, 1, 1).replace("C\t", &format!("N\t0\t{release}\nC\t"));
    for release in [&[0], &edges::RELEASES[..]].concat() {
        let (plan, constraint) = read(&text(release)).unwrap();
        assert_eq!((plan.releases[0], check(&plan, &constraint)), (release, Ok(())));
        let run = bound(&plan, &constraint).unwrap();
        assert_eq!((run.starts[0], run.response), (release, release + 1));
        assert_eq!(fast::simulate(&plan, &constraint, &[1]), Ok(run));
    }
    assert_eq!(read(&text(0)), read(&one_task(1, 1, 1)));
    for release in OUT_OF_RANGE.into_iter().filter(|&release| release != 0) {
        assert_eq!(read(&text(release)), Err(no(3, D_PLACE + 1)));
    }
}

/// Of the only task, and of one that is not there.
#[test]
fn releases_in_a_plan() {
    let (plan, constraint) = read(&one_task(1, 1, 1)).unwrap();
    for (task, release, answer) in [
        (0, LATEST_RELEASE, Ok(())),
        (0, LATEST_RELEASE + 1, Err(no(8, 0))),
        (0, u32::MAX, Err(no(8, 0))),
        (1, 0, Ok(())),
        (1, 1, Err(no(8, 0))),
        (63, LATEST_RELEASE, Err(no(8, 0))),
    ] {
        let mut plan = plan.clone();
        plan.releases[task] = release;
        assert_eq!(check(&plan, &constraint), answer);
    }
}

/// A text with a line of each kind, which is read, with another field in one place.
fn with_field(line: usize, at: usize, field: &str) -> String {
    let lines = [
        "U\t0\t1", "T\t0\t0\t1\t1", "T\t1\t0\t1\t1", "A\t0\t1", "D\t0\t1", "N\t0\t1", "C\t0\t0",
        "C\t1\t0",
    ];
    let mut lines = lines.map(str::to_string);
    let mut parts: Vec<&str> = lines[line].split('\t').collect();
    parts[at] = field;
    lines[line] = parts.join("\t");
    lines.join("\n") + "\n"
}

/// Each field of each kind of line: the line, counted from 0, and which of its fields.
const FIELDS: [(usize, usize); 14] = [
    (0, 1), (0, 2), (1, 1), (1, 2), (1, 3), (1, 4), (3, 1), (3, 2), (4, 1), (4, 2), (5, 1), (5, 2),
    (6, 1), (6, 2),
];

/// Each field of the text, one after the other, is this one; it alone is refused.
fn refused_everywhere(field: &str, number: u64) {
    for (line, at) in FIELDS {
        assert_eq!(read(&with_field(line, at, field)), Err(no(number, line as u64 + 1)));
    }
}

#[test]
fn fields_of_all_digits() {
    assert!(read(&with_field(0, 1, "0")).is_ok());
    for number in [LONGEST_TIME + 1, 10u32.pow(DIGITS as u32) - 1] {
        assert_eq!(number.to_string().len(), DIGITS);
        refused_everywhere(&number.to_string(), 3);
    }
    for number in [0, 1, 10u32.pow(DIGITS as u32 - 1) - 1] {
        refused_everywhere(&format!("{number:0>DIGITS$}"), 2);
    }
}

#[test]
fn fields_of_a_digit_more() {
    for field in [format!("{LONGEST_TIME}0"), format!("{LONGEST_TIME}1"), "9".repeat(DIGITS + 1)] {
        assert_eq!(field.len(), DIGITS + 1);
        refused_everywhere(&field, 2);
    }
    refused_everywhere(&format!("0{LONGEST_TIME}"), 2);
    refused_everywhere(&"1".repeat(DIGITS + 2), 2);
}

/// The digits are looked at before the range of any field of the line.
#[test]
fn a_digit_more_and_out_of_range() {
    let (above, more) = (LONGEST_TIME + 1, format!("{LONGEST_TIME}0"));
    assert_eq!(read(&one_task(above, &more, 1)), Err(no(2, T_PLACE)));
    assert_eq!(read(&one_task(&more, above, 1)), Err(no(2, T_PLACE)));
}

#[test]
fn times_in_a_plan() {
    let (plan, constraint) = read(&one_task(1, LONGEST_TIME, 1)).unwrap();
    for (best, worst, answer) in [
        (1, LONGEST_TIME, Ok(())),
        (LONGEST_TIME, LONGEST_TIME, Ok(())),
        (1, LONGEST_TIME + 1, Err(no(8, 0))),
        (LONGEST_TIME + 1, LONGEST_TIME + 1, Err(no(8, 0))),
    ] {
        let mut plan = plan.clone();
        (plan.best[0], plan.worst[0]) = (best, worst);
        assert_eq!(check(&plan, &constraint), answer);
    }
}

#[test]
fn times_of_a_simulation() {
    let (plan, constraint) = read(&one_task(1, LONGEST_TIME, 1)).unwrap();
    let simulate = |time: u32| {
        let answer = rival::simulate::simulate(&plan, &constraint, &[time]);
        assert_eq!(answer, fast::simulate(&plan, &constraint, &[time]));
        answer.map(|run| run.response)
    };
    for time in edges::TIMES {
        assert_eq!(simulate(time), Ok(time));
    }
    for time in [0, LONGEST_TIME + 1, u32::MAX] {
        assert_eq!(simulate(time), Err(no(18, 0)));
    }
}

/// All tasks one after the other, each as long as may be, the first as late as may be.
fn longest_run() -> String {
    let times: String = (0..TASKS).map(|t| format!("T\t{t}\t0\t1\t{LONGEST_TIME}\n")).collect();
    let choices: String = (0..TASKS).map(|t| format!("C\t{t}\t0\n")).collect();
    format!("U\t0\t1\n{times}N\t0\t{LATEST_RELEASE}\n{choices}")
}

/// A later task waits in vain; an earlier instant lets the first task start sooner, by as much.
#[test]
fn nearly_the_longest_run() {
    let run = |release: String| {
        let text = longest_run().replace(&format!("N\t0\t{LATEST_RELEASE}\n"), &release);
        let (plan, constraint) = read(&text).unwrap();
        (bound(&plan, &constraint).unwrap().response, program(text.as_bytes()).len())
    };
    let all: String = (0..TASKS).map(|t| format!("N\t{t}\t{LATEST_RELEASE}\n")).collect();
    assert_eq!(run(all), (LAST_INSTANT, LONGEST_TIMETABLE));
    let (sooner, unheld) = (LAST_INSTANT - 1, LAST_INSTANT - LATEST_RELEASE);
    // The first start has a digit fewer, and so have the finish and the start at ten million.
    let release = LATEST_RELEASE - 1;
    assert_eq!(run(format!("N\t0\t{release}\n")), (sooner, LONGEST_TIMETABLE - 3));
    // 0 has one digit.
    for release in ["", "N\t0\t0\n", &format!("N\t1\t{LATEST_RELEASE}\n")] {
        assert_eq!(run(release.to_string()), (unheld, LONGEST_TIMETABLE - 8));
    }
}

#[test]
fn the_longest_timetable() {
    let text = longest_run();
    let table = program(text.as_bytes());
    assert_eq!(table.len(), LONGEST_TIMETABLE);
    let last = LAST_INSTANT - LONGEST_TIME;
    assert!(table.ends_with(format!("\n63\t0\t{last}\t{LAST_INSTANT}\nR\t{LAST_INSTANT}\n").as_bytes()));
    let (plan, constraint) = read(&text).unwrap();
    let (worst, needed) = ([LONGEST_TIME; TASKS], LONGEST_TIMETABLE as u64);
    for room in LONGEST_TIMETABLE - 1..=LONGEST_TIMETABLE + 1 {
        let answer = if room < LONGEST_TIMETABLE { Err(no(19, needed)) } else { Ok(needed) };
        let (mut buffer, mut given) = (vec![b'#'; room], vec![b'#'; room]);
        assert_eq!(of_worst_times(&plan, &constraint, &mut buffer), answer);
        assert_eq!(timetable(&plan, &constraint, &worst, &mut given), answer);
        let written = if answer.is_ok() { &table[..] } else { b"" };
        let expected = [written, &vec![b'#'; room - written.len()]].concat();
        assert_eq!((&buffer, &given), (&expected, &expected));
    }
}

#[test]
fn the_longest_timetable_of_the_driver() {
    let text = longest_run();
    let times = format!("\t{LONGEST_TIME}").repeat(TASKS);
    let table = String::from_utf8(program(text.as_bytes())).unwrap();
    let (short, long) = (LONGEST_TIMETABLE - 1, LONGEST_TIMETABLE);
    for (command, times) in [("W", ""), ("Y", &times)] {
        let input = format!("{}\n{text}{command}\t{short}{times}\n{command}\t{long}{times}\n", text.len());
        let refused = format!("timetable\t19\t{long}\t0\n{}\n", "#".repeat(short));
        let written = format!("timetable\t0\t0\t{long}\n{table}\n");
        let expected = format!("read\t0\t0\n{refused}{written}");
        assert_eq!(String::from_utf8(session(input.as_bytes()).out).unwrap(), expected);
    }
}

/// A state at this instant whose only task has run one tick, and one whose only task is finished.
fn unfinished_and_finished(instant: u32) -> [State; 2] {
    let (plan, constraint) = read(&one_task(1, LONGEST_TIME, 1)).unwrap();
    let (mut unfinished, _) = start(&plan, &constraint);
    let (mut finished, answer) = tick(&unfinished, 1);
    assert_eq!(answer, Ok(0));
    (unfinished.instant, unfinished.starts[0]) = (instant, instant - 1);
    finished.instant = instant;
    [unfinished, finished]
}

#[test]
fn the_last_instants() {
    for (instant, unfinished_answer, finished_answer) in [
        (TASKS as u32 * edges::SIXTEEN_BITS, Ok(0), no(13, 0)),
        (LAST_INSTANT - 1, Ok(0), no(13, 0)),
        (LAST_INSTANT, Err(no(12, 0)), no(13, 0)),
        (LAST_INSTANT + 1, Err(no(12, 0)), no(12, 0)),
        (u32::MAX, Err(no(12, 0)), no(12, 0)),
    ] {
        let [unfinished, finished] = unfinished_and_finished(instant);
        for report in [0, 1] {
            let (after, answer) = tick(&unfinished, report);
            assert_eq!(answer, unfinished_answer);
            assert_eq!(after.instant, if answer.is_ok() { instant + 1 } else { instant });
            assert_eq!(tick(&finished, report), (finished.clone(), Err(finished_answer)));
        }
    }
}

/// A task may run the longest time and no tick more.
#[test]
fn the_longest_time_of_a_task() {
    let [mut state, _] = unfinished_and_finished(LONGEST_TIME - 2);
    state.starts[0] = 0;
    let (state, answer) = tick(&state, 0);
    assert_eq!((state.instant, answer), (LONGEST_TIME - 1, Ok(0)));
    assert_eq!(tick(&state, 0), (state.clone(), Err(no(16, 0))));
    let (finished, answer) = tick(&state, 1);
    assert_eq!((finished.finishes[0], answer), (LONGEST_TIME, Ok(0)));
    let late = State { instant: LONGEST_TIME, ..state };
    assert_eq!(tick(&late, 1), (late.clone(), Err(no(12, 0))));
}

/// The run of worst times, from the first start and from one finish to the next. Before each finish
/// the last tick is refused without it.
#[test]
fn the_longest_live_run() {
    let (plan, constraint) = read(&longest_run()).unwrap();
    let (mut state, answer) = start(&plan, &constraint);
    assert_eq!(answer, Ok(0));
    state.instant = LATEST_RELEASE - 2;
    for started in [0, 1] {
        assert_eq!(tick(&state, 1), (state.clone(), Err(no(14, 0))));
        let answer;
        (state, answer) = tick(&state, 0);
        assert_eq!(answer, Ok(started));
    }
    for t in 0..TASKS as u64 {
        state.instant += LONGEST_TIME - 1;
        assert_eq!(tick(&state, 0), (state.clone(), Err(no(16, t))));
        let answer;
        (state, answer) = tick(&state, 1 << t);
        assert_eq!(answer, Ok(if t + 1 < plan.tasks { 2 << t } else { 0 }));
    }
    let run = bound(&plan, &constraint).unwrap();
    assert_eq!((state.instant, run.response), (LAST_INSTANT, LAST_INSTANT));
    assert_eq!((state.starts, state.finishes), (run.starts, run.finishes));
    assert_eq!(tick(&state, 0), (state.clone(), Err(no(13, 0))));
    assert_eq!(fast::simulate(&plan, &constraint, &[LONGEST_TIME; TASKS]), Ok(run));
}
