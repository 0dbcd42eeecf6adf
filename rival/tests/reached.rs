//! The cases at the ends of the ranges: each is counted for what it is, and asked for.
use rival::cases::*;
use rival::driver::session;
use rival::edges;
use rival::limits::*;
use rival::lines::*;
use rival::reached::{Reached, TEXT, TICKS_OF_Z};

const PLAN_A: &str = include_str!("../../examples/plan-a.txt");

fn reached(text: &str, commands: &[&str]) -> Reached {
    let input = format!("{}\n{text}{}\n", text.len(), commands.join("\n"));
    session(input.as_bytes()).reached
}

/// Those of the cases that a command had once.
fn once(reached: &Reached, command: &str, cases: &[Case]) -> Vec<Case> {
    cases.iter().copied().filter(|&case| reached.times_of_case(command, case) == 1).collect()
}

#[test]
fn cases_of_times_out_of_range() {
    let case = |line: &str| once(&reached(&format!("{line}\n"), &[]), TEXT, &LINES);
    let (longest, above) = (LONGEST_TIME, LONGEST_TIME + 1);
    assert_eq!(case(&format!("T\t0\t0\t{above}\t{longest}")), [T_LINE_BEST_ABOVE]);
    assert_eq!(case(&format!("T\t0\t0\t{longest}\t{above}")), [T_LINE_WORST_ABOVE]);
    for (best, worst) in [(above, above), (0, longest), (1, above + 1), (longest, longest)] {
        assert_eq!(case(&format!("T\t0\t0\t{best}\t{worst}")), []);
    }
    assert_eq!(case(&format!("T\t64\t0\t1\t{above}")), []);
}

#[test]
fn cases_of_fields() {
    let case = |line: &str| once(&reached(&format!("{line}\n"), &[]), TEXT, FIELDS.as_flattened());
    let (all, more, zeros) = ("9".repeat(DIGITS), "1".repeat(DIGITS + 1), "0".repeat(DIGITS));
    let before = ["U\t0\t", "T\t0\t0\t1\t", "A\t0\t", "D\t0\t", "N\t0\t", "C\t0\t"];
    for (before, [all_digits, digit_more, leading_zeros]) in before.into_iter().zip(FIELDS) {
        assert_eq!(case(&format!("{before}{all}")), [all_digits]);
        assert_eq!(case(&format!("{before}{more}")), [digit_more]);
        assert_eq!(case(&format!("{before}{zeros}")), [leading_zeros]);
        for other in ["9", "01", &format!("0{all}"), &format!("{more}1"), &format!("{all}x")] {
            assert_eq!(case(&format!("{before}{other}")), []);
        }
        assert_eq!(case(&format!("{before}{more}\t")), []);
        assert_eq!(case(&format!("{before}{more}\t1")), []);
    }
    assert_eq!(case(&format!("D\t01\t{more}")), []);
    assert_eq!(case(&format!("X\t0\t{more}")), []);
    // Without its newline the line has another fault.
    let text = format!("D\t0\t{more}");
    assert_eq!(once(&reached(&text, &[]), TEXT, FIELDS.as_flattened()), []);
}

#[test]
fn cases_of_what_is_read() {
    let cases = |best: u32, worst: u32, deadline: u32, release: u32| {
        let times = format!("U\t0\t1\nT\t0\t0\t{best}\t{worst}\n");
        let text = format!("{times}D\t0\t{deadline}\nN\t0\t{release}\nC\t0\t0\n");
        let all = [READ_EDGES.as_flattened(), &[RELEASE_OF_0]].concat();
        once(&reached(&text, &[]), TEXT, &all)
    };
    let [bests, worsts, deadlines, releases] = READ_EDGES;
    for i in 0..edges::TIMES.len() {
        let (time, deadline, release) = (edges::TIMES[i], edges::DEADLINES[i], edges::RELEASES[i]);
        let expected = [bests[i], worsts[i], deadlines[i], releases[i]];
        assert_eq!(cases(time, time, deadline, release), expected);
    }
    assert_eq!(cases(2, 3, 4, 5), []);
    assert_eq!(cases(2, 3, 4, 0), [RELEASE_OF_0]);
    assert_eq!(cases(1, LONGEST_TIME + 1, 1, 1), []);
}

#[test]
fn cases_of_given_times() {
    let text = format!("U\t0\t1\nT\t0\t0\t1\t{LONGEST_TIME}\nC\t0\t0\n");
    for (time, case) in edges::TIMES.into_iter().zip(TIME_EDGES) {
        let reached = reached(&text, &[&format!("M\t{time}"), &format!("Y\t99\t{time}")]);
        assert_eq!(once(&reached, "M", &TIME_EDGES), [case]);
        assert_eq!(once(&reached, "Y", &TIME_EDGES), [case]);
    }
    let above = |worst: u32, time: u32| {
        let put = format!("P\t4\t0\t{worst}");
        reached(&text, &[&put, &format!("M\t{time}")]).times_of_case("M", TIME_ABOVE_LONGEST)
    };
    assert_eq!(above(LONGEST_TIME, LONGEST_TIME + 1), 1);
    assert_eq!(above(LONGEST_TIME, LONGEST_TIME + 2), 0);
    assert_eq!(above(LONGEST_TIME - 1, LONGEST_TIME + 1), 0);
}

#[test]
fn cases_of_a_time_above_in_a_plan() {
    let put = |letter: char, value: u32| format!("{letter}\t4\t0\t{value}");
    let cases = |commands: &[&str]| {
        let reached = reached(PLAN_A, commands);
        [("K", TIME_ABOVE), ("T", UNSOUND_LONG)].map(|(command, case)| reached.times_of_case(command, case))
    };
    let above = LONGEST_TIME + 1;
    assert_eq!(cases(&[&put('P', above), "K"]), [1, 0]);
    assert_eq!(cases(&[&put('P', LONGEST_TIME), "K"]), [0, 0]);
    assert_eq!(cases(&[&put('P', above + 1), "K"]), [0, 0]);
    assert_eq!(cases(&[&put('P', above), "P\t1\t0\t0", "K"]), [0, 0]);
    assert_eq!(cases(&["S", &put('R', above), "T\t1"]), [0, 1]);
    assert_eq!(cases(&["S", &put('R', LONGEST_TIME), "T\t1"]), [0, 0]);
    assert_eq!(cases(&["S", &put('R', above), "R\t10\t0\t2", "T\t1"]), [0, 0]);
}

#[test]
fn cases_of_instants() {
    let text = format!("U\t0\t1\nT\t0\t0\t1\t{LONGEST_TIME}\nC\t0\t0\n");
    let cases = |commands: &[&str]| once(&reached(&text, commands), "T", INSTANTS.as_flattened());
    for (instant, [unfinished, finished]) in edges::INSTANTS.into_iter().zip(INSTANTS) {
        let (to, from) = (format!("R\t9\t0\t{instant}"), format!("R\t12\t0\t{}", instant - 1));
        assert_eq!(cases(&["S", &to, &from, "T\t0"]), [unfinished]);
        assert_eq!(cases(&["S", &to, &from, "T\t1"]), [unfinished]);
        assert_eq!(cases(&["S", "T\t1", &to, "T\t0"]), [finished]);
        // The running task has reached its worst time.
        assert_eq!(cases(&["S", &to, "T\t0"]), []);
    }
    assert_eq!(cases(&["S", "T\t0"]), []);
}

#[test]
fn cases_of_the_longest_time() {
    let text = format!("U\t0\t1\nT\t0\t0\t1\t{LONGEST_TIME}\nC\t0\t0\n");
    let longest = [LONGEST_REPORT, LONGEST_OVERRUN];
    let cases = |commands: &[&str]| once(&reached(&text, commands), "T", &longest);
    let to = |instant: u32| format!("R\t9\t0\t{instant}");
    assert_eq!(cases(&["S", &to(LONGEST_TIME - 1), "T\t1"]), [LONGEST_REPORT]);
    assert_eq!(cases(&["S", &to(LONGEST_TIME - 1), "T\t0"]), [LONGEST_OVERRUN]);
    assert_eq!(cases(&["S", &to(LONGEST_TIME - 2), "T\t1"]), []);
    assert_eq!(cases(&["P\t4\t0\t1", "S", "T\t0"]), []);
}

#[test]
fn cases_of_timetables() {
    let times: String = (0..TASKS).map(|t| format!("T\t{t}\t0\t1\t{LONGEST_TIME}\n")).collect();
    let choices: String = (0..TASKS).map(|t| format!("C\t{t}\t0\n")).collect();
    let text = format!("U\t0\t1\n{times}N\t0\t{LATEST_RELEASE}\n{choices}");
    let cases = |text: &str, room: usize| once(&reached(text, &[&format!("W\t{room}")]), "W", &TIMETABLES);
    assert_eq!(cases(&text, LONGEST_TIMETABLE), [LONGEST_WRITTEN]);
    assert_eq!(cases(&text, LONGEST_TIMETABLE + 1), [LONGEST_WRITTEN]);
    assert_eq!(cases(&text, LONGEST_TIMETABLE - 1), [LONGEST_REFUSED]);
    assert_eq!(cases(&text, LONGEST_TIMETABLE - 2), []);
    assert_eq!(cases(PLAN_A, LONGEST_TIMETABLE), []);
    let mut of_programs = Reached::default();
    of_programs.note_program(text.as_bytes());
    of_programs.note_program(PLAN_A.as_bytes());
    assert_eq!(once(&of_programs, TEXT, &TIMETABLES), [LONGEST_WRITTEN]);
}

#[test]
fn cases_that_are_asked() {
    let faults = Reached::default().faults();
    let texts = Reached::default().faults_of_texts();
    let line = |(number, words): &Case, command| format!("never reached: {number} {words} by {command}");
    let read = READ_EDGES.as_flattened().iter().chain(&[RELEASE_OF_0]);
    for case in FIELDS.as_flattened().iter().chain(read) {
        assert!(faults.contains(&line(case, TEXT)) && texts.contains(&line(case, TEXT)));
    }
    let unsound = UNSOUND_PLANS.iter().chain(&EARLY);
    let of_ticks = unsound.chain(&[LONGEST_REPORT, LONGEST_OVERRUN]);
    for case in INSTANTS.as_flattened().iter().chain(of_ticks).chain(&FAULTY_REPORTS) {
        assert!(faults.contains(&line(case, "T")));
    }
    for command in ["M", "Y"] {
        let asked = TIME_EDGES.iter().chain(&[TIME_ABOVE_LONGEST]);
        assert!(asked.map(|case| line(case, command)).all(|line| faults.contains(&line)));
    }
    for command in ["W", "Y"] {
        assert!(TIMETABLES.map(|case| line(&case, command)).iter().all(|line| faults.contains(line)));
    }
    for command in ["D", "K", "S"] {
        assert!(FAULTS.map(|case| line(&case, command)).iter().all(|line| faults.contains(line)));
    }
    assert!(FAULTY_REPORTS.map(|case| line(&case, TICKS_OF_Z)).iter().all(|line| faults.contains(line)));
    for command in ["B", "M", "T", TICKS_OF_Z] {
        assert!(WAITS.map(|case| line(&case, command)).iter().all(|line| faults.contains(line)));
    }
    for command in ["B", "T"] {
        assert!(START_EDGES.map(|case| line(&case, command)).iter().all(|line| faults.contains(line)));
    }
    assert!(faults.contains(&line(&IDLE, "S")) && faults.contains(&line(&BOUND_IS_SUM, "B")));
    let of_texts = WAITS.iter().chain(&START_EDGES).chain(&[LONGEST_WRITTEN, BOUND_IS_SUM]);
    assert!(of_texts.map(|case| line(case, TEXT)).all(|line| texts.contains(&line)));
}
