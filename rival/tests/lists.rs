//! The driver's lines `E` and `L`, answer by answer, on plan A of document 01, and the cases that
//! are counted of them.
use rival::cases::Case;
use rival::driver::{session, MOST_RECORDS};
use rival::limits::*;
use rival::list_cases::*;
use rival::plan::Refusal;
use rival::reached::{Reached, Source, BAD_E};

const PLAN_A: &str = include_str!("../../examples/plan-a.txt");

/// The run of worst times.
const P1: [&str; 5] =
    ["E\t0\t0\t0\t2", "E\t1\t0\t2\t5", "E\t2\t1\t2\t6", "E\t3\t1\t5\t8", "E\t4\t0\t6\t8"];

/// What `L` answers to it.
const P1_ENTRIES: [&str; 5] = ["0\t0", "1\t0", "2\t1", "3\t1", "4\t0"];

fn input(text: &str, commands: &[&str]) -> Vec<u8> {
    format!("{}\n{text}{}\n", text.len(), commands.join("\n")).into_bytes()
}

/// The answers to these commands after a text, line by line.
fn answers_after(text: &str, commands: &[&str]) -> Vec<String> {
    let out = String::from_utf8(session(&input(text, commands)).out).unwrap();
    out.lines().skip(1).map(str::to_string).collect()
}

fn answers(commands: &[&str]) -> Vec<String> {
    answers_after(PLAN_A, commands)
}

/// An answer to `L`: number and place, length, the first entries, then zeros.
fn adopted(first: &str, entries: &[&str]) -> String {
    let entry = |p: usize| format!("\t{}", entries.get(p).unwrap_or(&"0\t0"));
    format!("adopt\t{first}\t{}{}", entries.len(), (0..TASKS).map(entry).collect::<String>())
}

/// These commands after P1's records, which are put.
fn after_p1(commands: &[&str]) -> Vec<String> {
    let lines = answers(&[&P1, commands].concat());
    assert_eq!(lines[..5], ["put"; 5]);
    lines[5..].to_vec()
}

#[test]
fn a_list_and_its_bound() {
    let lines = after_p1(&["L", "K", "B"]);
    assert_eq!(lines, [&adopted("0\t0", &P1_ENTRIES)[..], "check\t0\t0", "bound\t0\t0\t8"]);
}

/// Accepted or refused, the list is empty after `L`.
#[test]
fn the_list_is_empty_again() {
    let none = adopted("20\t0", &[]);
    assert_eq!(answers(&["L"]), [&none[..]]);
    assert_eq!(after_p1(&["L", "L"]), [adopted("0\t0", &P1_ENTRIES), none.clone()]);
    assert_eq!(after_p1(&[P1[0], "L", "L"])[1..], [adopted("20\t6", &[]), none]);
    let again = after_p1(&["E\t0\t0\t0\t2", "L", P1[4], P1[3], P1[2], P1[1], P1[0], "L"]);
    assert_eq!(again[7], adopted("0\t0", &P1_ENTRIES));
}

/// `K`, `B`, `S` and `W` take the constraint of the last accepted list.
#[test]
fn the_kept_constraint() {
    let other =
        ["E\t3\t1\t3\t6", "E\t4\t0\t9\t11", "E\t0\t0\t3\t5", "E\t2\t1\t5\t9", "E\t1\t0\t0\t3"];
    let entries = ["1\t0", "0\t0", "3\t1", "2\t1", "4\t0"];
    let lines = answers(&[&other[..], &["L", "B", "S", "L", "B", "P\t6\t0\t4", "K"]].concat());
    let refused = adopted("20\t0", &[]);
    let expected = [
        &adopted("0\t0", &entries)[..], "bound\t0\t0\t11", "start\t0\t0\t2", &refused,
        "bound\t0\t0\t11", "put", "check\t9\t4",
    ];
    assert_eq!(lines[5..], expected);
    // A refused constraint is replaced whole.
    let mended = after_p1(&["P\t6\t0\t9", "P\t7\t40\t3", "K", "L", "K", "Q"]);
    let expected = ["put", "put", "check\t9\t9", &adopted("0\t0", &P1_ENTRIES), "check\t0\t0"];
    assert_eq!(mended[..5], expected);
    assert_eq!(mended[5], answers(&["Q"])[0]);
}

/// The list is for the plan as it is when `L` comes; nothing but `L` takes it.
#[test]
fn the_kept_plan() {
    let lines = after_p1(&["P\t1\t1\t0", "S", "P\t1\t1\t1", "L", "P\t1\t1\t2"]);
    assert_eq!(lines[3], adopted("22\t3", &[]));
    assert_eq!(after_p1(&["P\t4\t17\t5", "L"])[1], adopted("21\t2", &[]));
    assert_eq!(after_p1(&["P\t1\t0\t9", "L"])[1], adopted("8\t0", &[]));
    let between = after_p1(&["S", "T\t1", "Z\t1", "D", "M\t1", "x", "R\t0\t0\t0", "L"]);
    assert_eq!(between[7], adopted("0\t0", &P1_ENTRIES));
    assert_eq!(answers_after("", &["L"]), [adopted("8\t0", &[])]);
    assert_eq!(answers_after("", &[P1[0], "L"]), ["put", &adopted("8\t0", &[])]);
}

/// What is `bad` changes nothing.
#[test]
fn bad_lines() {
    let bad = [
        "E", "E\t", "E\t0\t0\t0", "E\t0\t0\t0\t1\t0", "E\t0\t0\t0\t1\t", "E\t0\t0\t0\t-1", "EE",
        "E\t4294967296\t0\t0\t1", "E\t0\t4294967296\t0\t1", "E\t0\t0\t4294967296\t1",
        "E\t0\t0\t0\t4294967296", "E\t0\t0\t0\t18446744073709551616", "e\t0\t0\t0\t1", "L\t",
        "L\t0", "L ", "l", "E 0 0 0 1", "E\t0\t0\t0\t000000000000000000001",
    ];
    let lines = after_p1(&[&bad[..], &["L"]].concat());
    assert_eq!(lines[..bad.len()], vec!["bad"; bad.len()]);
    assert_eq!(lines[bad.len()], adopted("0\t0", &P1_ENTRIES));
    let greatest = "E\t4294967295\t4294967295\t4294967295\t4294967295";
    assert_eq!(answers(&[greatest, "E\t0\t0\t0\t00000000000000000002", "L"])[..2], ["put"; 2]);
}

#[test]
fn as_many_as_are_kept() {
    let mut lines = vec![P1[0]; MOST_RECORDS];
    lines.extend([P1[0], P1[1], "L", "L"]);
    let answers = answers(&lines);
    assert_eq!(answers[..MOST_RECORDS], ["put"; MOST_RECORDS]);
    let rest = ["bad", "bad", &adopted("20\t80", &[]), &adopted("20\t0", &[])];
    assert_eq!(answers[MOST_RECORDS..], rest);
}

fn reached(text: &str, commands: &[&str]) -> Reached {
    session(&input(text, commands)).reached
}

/// The cases that a command had once.
fn once(reached: &Reached, command: &str, cases: &[Case]) -> Vec<Case> {
    cases.iter().copied().filter(|&case| reached.times_of_case(command, case) == 1).collect()
}

/// All cases of a list.
fn list_cases() -> Vec<Case> {
    let faults = LATER_FAULTS.map(|(_, case)| case);
    [&COUNTS[..], &RECORDS, PLACES.as_flattened(), &faults, &ACCEPTED].concat()
}

/// The cases of P1 with other records.
fn cases(others: &[(usize, &str)]) -> Vec<Case> {
    let mut lines = P1.to_vec();
    for &(place, line) in others {
        lines[place] = line;
    }
    lines.push("L");
    once(&reached(PLAN_A, &lines), "L", &list_cases())
}

#[test]
fn cases_of_accepted_lists() {
    let p1 = [TIES, START_OF_0, AT_THE_FINISH, ALL_HELD, TAKEN_OVER];
    assert_eq!(cases(&[]), p1);
    let turned = [TIES, TIES_TURNED, START_OF_0, AT_THE_FINISH, ALL_HELD, TAKEN_OVER];
    assert_eq!(cases(&[(1, P1[2]), (2, P1[1])]), turned);
    let late = [&p1[..2], &[LAST_FINISH], &p1[2..]].concat();
    assert_eq!(cases(&[(4, "E\t4\t0\t4294967293\t4294967295")]), late);
    let one = "U\t0\t1\nT\t0\t0\t1\t1\n";
    let only = |line| once(&reached(one, &[line, "L"]), "L", &list_cases());
    assert_eq!(only("E\t0\t0\t0\t1"), [ONE_RECORD, START_OF_0]);
    assert_eq!(only("E\t0\t0\t1\t2"), [ONE_RECORD]);
    assert_eq!(only("E\t0\t0\t4294967294\t4294967295"), [ONE_RECORD, LAST_START, LAST_FINISH]);
    assert_eq!(only("E\t0\t0\t4294967295\t0"), [WRONG_FINISH, WRAPPED, LEAST_WRAPPED]);
}

#[test]
fn cases_of_counts() {
    let cases = |count: usize| {
        let lines = [&vec![P1[0]; count][..], &["L"]].concat();
        once(&reached(PLAN_A, &lines), "L", &list_cases())
    };
    assert_eq!(cases(0), [NO_RECORDS, TOO_FEW]);
    assert_eq!(cases(3), [TOO_FEW]);
    assert_eq!(cases(4), [TOO_FEW, ONE_TOO_FEW]);
    assert_eq!(cases(6), [TOO_MANY, ONE_TOO_MANY]);
    assert_eq!(cases(TASKS), [TOO_MANY]);
    assert_eq!(cases(TASKS + 1), [BEYOND, ONE_BEYOND]);
    assert_eq!(cases(MOST_RECORDS), [BEYOND, ALL_KEPT]);
    assert_eq!(cases(MOST_RECORDS + 1), [BEYOND, ALL_KEPT]);
}

#[test]
fn cases_of_tasks_and_types() {
    let [[first_20, last_20, _], [first_21, last_21, _], _] = PLACES;
    assert_eq!(cases(&[(0, "E\t5\t0\t0\t2")]), [ABSENT_TASK, NEXT_TASK, first_20]);
    assert_eq!(cases(&[(4, "E\t4294967295\t0\t6\t8")]), [ABSENT_TASK, TASK_OF_32_BITS, last_20]);
    assert_eq!(cases(&[(3, "E\t4\t0\t20\t22")]), [REPEATED_TASK, last_20]);
    assert_eq!(cases(&[(0, "E\t0\t2\t0\t2")]), [ABSENT_TYPE, NEXT_TYPE, first_21]);
    assert_eq!(cases(&[(0, "E\t0\t8\t0\t2")]), [ABSENT_TYPE, NO_TYPE, first_21]);
    assert_eq!(cases(&[(0, "E\t0\t8\t0\t3")]), [ABSENT_TYPE, NO_TYPE, ANOTHERS_TIME, first_21]);
    assert_eq!(cases(&[(4, "E\t4\t4294967295\t0\t2")]), [ABSENT_TYPE, TYPE_OF_32_BITS, last_21]);
    assert_eq!(cases(&[(1, "E\t1\t1\t2\t5")]), [UNUSABLE_TYPE]);
    assert_eq!(cases(&[(1, "E\t1\t1\t2\t2")]), [UNUSABLE_TYPE, UNUSABLE_FOR_0]);
}

#[test]
fn cases_of_times() {
    let [_, _, [first, last, _]] = PLACES;
    assert_eq!(cases(&[(1, "E\t1\t0\t2\t4")]), [WRONG_FINISH, FINISH_BEFORE]);
    assert_eq!(cases(&[(1, "E\t1\t0\t2\t6")]), [WRONG_FINISH, FINISH_AFTER]);
    assert_eq!(cases(&[(1, "E\t1\t0\t4294967294\t1")]), [WRONG_FINISH, WRAPPED]);
    assert_eq!(cases(&[(1, "E\t1\t0\t4294967293\t0")]), [WRONG_FINISH, WRAPPED, LEAST_WRAPPED]);
    assert_eq!(cases(&[(4, "E\t4\t0\t5\t7")]), [TOO_SOON, ONE_TOO_SOON, last]);
    assert_eq!(cases(&[(2, "E\t2\t1\t0\t4")]), [TOO_SOON]);
    assert_eq!(cases(&[(0, P1[1]), (1, "E\t0\t0\t2\t4")]), [CROWDED, ONE_TOO_CROWDED, first]);
    // With both faults neither.
    assert_eq!(cases(&[(4, "E\t4\t0\t4\t6")]), [last]);
}

#[test]
fn cases_of_several_faults() {
    let [by_21, by_22, of_21] = LATER_FAULTS.map(|(_, case)| case);
    let [[_, last_20, _], [_, last_21, _], _] = PLACES;
    let (soon, long) = ((2, "E\t2\t1\t1\t5"), (1, "E\t1\t0\t2\t9"));
    let again = (3, "E\t4\t0\t20\t22");
    assert_eq!(cases(&[soon, again]), [REPEATED_TASK, last_20, by_22]);
    assert_eq!(cases(&[(1, "E\t1\t1\t2\t5"), again]), [REPEATED_TASK, last_20, by_21]);
    assert_eq!(cases(&[soon, (4, "E\t4\t1\t6\t8")]), [UNUSABLE_TYPE, last_21, of_21]);
    assert_eq!(cases(&[soon, long]), [WRONG_FINISH]);
}

#[test]
fn cases_of_all_tasks() {
    let tasks: String = (0..TASKS).map(|t| format!("T\t{t}\t7\t1\t1\n")).collect();
    let text = format!("{}{tasks}", (0..TYPES).map(|y| format!("U\t{y}\t1\n")).collect::<String>());
    let cases = |last: &str| {
        let mut lines: Vec<String> =
            (0..TASKS).map(|t| format!("E\t{t}\t7\t{}\t{}", 2 * t + 1, 2 * t + 2)).collect();
        lines[TASKS - 1] = last.to_string();
        lines.push("L".to_string());
        let lines: Vec<&str> = lines.iter().map(String::as_str).collect();
        once(&reached(&text, &lines), "L", &list_cases())
    };
    assert_eq!(cases("E\t63\t7\t0\t1"), [ALL_TASKS, START_OF_0, LAST_TYPE, TAKEN_OVER]);
    let places = |number: usize| [PLACES[number - 20][1], PLACES[number - 20][2]];
    assert_eq!(cases("E\t64\t7\t0\t1")[2..], places(20));
    assert_eq!(cases("E\t63\t6\t0\t1")[1..], places(21));
    assert_eq!(cases("E\t63\t7\t1\t2"), [CROWDED, ONE_TOO_CROWDED, PLACES[2][0]]);
    let absent = [ABSENT_TYPE, NEXT_TYPE, NO_TYPE];
    assert_eq!(cases("E\t63\t8\t0\t1"), [&absent, &places(21)[..]].concat());
}

#[test]
fn cases_of_records() {
    let put = |line: &str| {
        let all = [&[FIRST_PUT, LAST_PUT][..], FIELDS_PUT.as_flattened()].concat();
        once(&reached(PLAN_A, &[line]), "E", &all)
    };
    assert_eq!(put("E\t1\t2\t3\t4"), [FIRST_PUT]);
    for (field, [of_0, of_32_bits]) in FIELDS_PUT.into_iter().enumerate() {
        let with = |value: u64| {
            let mut fields = [7; 4];
            fields[field] = value;
            format!("E\t{}", fields.map(|field: u64| field.to_string()).join("\t"))
        };
        assert_eq!(put(&with(0)), [FIRST_PUT, of_0]);
        assert_eq!(put(&with(u32::MAX.into())), [FIRST_PUT, of_32_bits]);
        let not_put = |line: &str| once(&reached(PLAN_A, &[line]), BAD_E, &NOT_PUT);
        assert_eq!(not_put(&with(1 << 32)), [FIELDS_ABOVE[field], ONE_ABOVE_32_BITS]);
        assert_eq!(not_put(&with(1 << 33)), [FIELDS_ABOVE[field]]);
    }
    let many = |count: usize| reached(PLAN_A, &vec![P1[4]; count]);
    assert_eq!(once(&many(MOST_RECORDS - 1), "E", &[FIRST_PUT, LAST_PUT]), [FIRST_PUT]);
    assert_eq!(once(&many(MOST_RECORDS), "E", &[FIRST_PUT, LAST_PUT]), [FIRST_PUT, LAST_PUT]);
    assert_eq!(once(&many(MOST_RECORDS), BAD_E, &NOT_PUT), []);
    assert_eq!(once(&many(MOST_RECORDS + 1), BAD_E, &NOT_PUT), [ONE_TOO_MANY_PUT]);
}

/// Only as long as the plan and constraint stay what they were.
#[test]
fn cases_of_bounds() {
    let all = [ADOPTED, BOUND_BELOW, BOUND_EQUAL, BOUND_ABOVE];
    let cases = |last: &str, then: &[&str]| {
        let reached = reached(PLAN_A, &[&P1[..4], &[last, "L"], then, &["K", "B"]].concat());
        [once(&reached, "K", &all), once(&reached, "B", &all)].concat()
    };
    assert_eq!(cases(P1[4], &[]), [ADOPTED, ADOPTED, BOUND_EQUAL]);
    assert_eq!(cases("E\t4\t0\t9\t11", &[]), [ADOPTED, ADOPTED, BOUND_BELOW]);
    assert_eq!(cases(P1[4], &["L", "S", "R\t0\t0\t0", "E"]), [ADOPTED, ADOPTED, BOUND_EQUAL]);
    assert_eq!(cases(P1[4], &["P\t14\t0\t1"]), []);
    assert_eq!(cases(P1[3], &[]), []);
}

#[test]
fn what_is_never_given() {
    let mut reached = Reached::default();
    assert!(!reached.faults().iter().any(|fault| fault.starts_with("given")));
    reached.note_source("B", None, &Ok(Some(9)));
    reached.note_source("B", Some(Source::List(9)), &Ok(Some(9)));
    reached.note_source("K", Some(Source::List(9)), &Ok(None));
    assert!(!reached.faults().iter().any(|fault| fault.starts_with("given")));
    reached.note_source("B", Some(Source::List(8)), &Ok(Some(9)));
    reached.note_source("K", Some(Source::List(8)), &Err(Refusal { number: 11, place: 0 }));
    let faults = reached.faults();
    assert!(faults.contains(&"given: 0 above the greatest finish by B".to_string()));
    assert!(faults.contains(&"given: 11 of an adopted list by K".to_string()));
}

#[test]
fn cases_that_are_asked() {
    let faults = Reached::default().faults();
    let asked = |(number, words): Case, command: &str| {
        faults.contains(&format!("never reached: {number} {words} by {command}"))
    };
    assert!(list_cases().into_iter().all(|case| asked(case, "L")));
    assert!(rival::cases::FAULTS.into_iter().all(|case| asked(case, "L")));
    assert!(FIELDS_PUT.as_flattened().iter().all(|&case| asked(case, "E")));
    assert!(asked(FIRST_PUT, "E") && asked(LAST_PUT, "E"));
    assert!(NOT_PUT.into_iter().all(|case| asked(case, BAD_E)));
    assert!([ADOPTED, BOUND_BELOW, BOUND_EQUAL].into_iter().all(|case| asked(case, "B")));
    assert!(asked(ADOPTED, "K"));
    for number in [20, 21, 22] {
        assert!(faults.contains(&format!("never reached: {number}")));
    }
    for number in [0, 8, 20, 21, 22] {
        assert!(faults.contains(&format!("never reached: {number} by L")));
    }
}
