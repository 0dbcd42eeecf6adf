//! Sessions of the driver, answer by answer, on plan A of document 01.
use rival::cases::*;
use rival::driver::{session, LONGEST_LIST, MOST_ROOM, TOO_LONG};
use rival::limits::*;
use rival::lines::*;
use rival::reached::{Reached, TEXT, TICKS_OF_Z};

const PLAN_A: &str = include_str!("../../examples/plan-a.txt");

/// The latest deadline, and one that is out of range.
const LATEST: u32 = LATEST_DEADLINE;
const ABOVE: u32 = LATEST_DEADLINE + 1;

/// The answers to these commands after a text, line by line.
fn answers(text: &str, commands: &[&str]) -> Vec<String> {
    let input = format!("{}\n{text}{}\n", text.len(), commands.join("\n"));
    let out = String::from_utf8(session(input.as_bytes()).out).unwrap();
    let mut lines = out.lines().map(str::to_string);
    assert_eq!(lines.next().as_deref(), Some("read\t0\t0"));
    lines.collect()
}

/// A command that is answered by one line.
fn answer(command: &str) -> String {
    let lines = answers(PLAN_A, &[command]);
    assert_eq!(lines.len(), 1);
    lines[0].clone()
}

#[test]
fn given_times() {
    let of_worst = ["timetable\t0\t0\t44", "0\t0\t0\t2", "1\t0\t2\t5", "2\t1\t2\t6", "3\t1\t5\t8", "4\t0\t6\t8", "R\t8"];
    assert_eq!(answers(PLAN_A, &["Y\t44\t2\t3\t4\t3\t2"]), [&of_worst[..], &[""]].concat());
    assert_eq!(answers(PLAN_A, &["Y\t47\t2\t3\t4\t3\t2"]), [&of_worst[..], &["###"]].concat());
    assert_eq!(answers(PLAN_A, &["Y\t47\t2\t3\t4\t3\t2"]), answers(PLAN_A, &["W\t47"]));
    let of_best = ["timetable\t0\t0\t44", "0\t0\t0\t1", "1\t0\t1\t2", "2\t1\t1\t3", "3\t1\t2\t3", "4\t0\t3\t4", "R\t4"];
    assert_eq!(answers(PLAN_A, &["Y\t45\t1\t1\t2\t1\t1"]), [&of_best[..], &["#"]].concat());
    let of_1 = ["timetable\t0\t0\t44", "0\t0\t0\t1", "1\t0\t1\t2", "2\t1\t1\t2", "3\t1\t2\t3", "4\t0\t2\t3", "R\t3"];
    assert_eq!(answers(PLAN_A, &["Y\t45\t1\t1\t1\t1\t1"]), [&of_1[..], &["#"]].concat());
}

#[test]
fn refused_times() {
    assert_eq!(answers(PLAN_A, &["Y\t3\t2\t3\t4\t3"]), ["timetable\t17\t4\t0", "###"]);
    assert_eq!(answers(PLAN_A, &["Y\t0"]), ["timetable\t17\t0\t0", ""]);
    assert_eq!(answers(PLAN_A, &["Y\t1\t2\t3\t5\t3\t0"]), ["timetable\t18\t2\t0", "#"]);
    assert_eq!(answers(PLAN_A, &["Y\t1\t2\t0\t5\t3\t2"]), ["timetable\t18\t1\t0", "#"]);
    assert_eq!(answers(PLAN_A, &["Y\t0\t2\t3\t4\t3\t2"]), ["timetable\t19\t44\t0", ""]);
    let short = answers(PLAN_A, &["Y\t43\t2\t3\t4\t3\t2"]);
    assert_eq!(short, ["timetable\t19\t44\t0".to_string(), "#".repeat(43)]);
    assert_eq!(answers("", &["Y\t2\t1"]), ["timetable\t8\t0\t0", "##"]);
    assert_eq!(answers(PLAN_A, &["P\t6\t0\t4", "Y\t1"]), ["put", "timetable\t9\t4\t0", "#"]);
    assert_eq!(answers(PLAN_A, &["P\t8\t1\t1", "Y\t1"]), ["put", "timetable\t10\t1\t0", "#"]);
    let later = ["P\t7\t0\t2", "P\t8\t0\t1", "P\t7\t2\t0", "P\t8\t2\t0", "Y\t1"];
    assert_eq!(answers(PLAN_A, &later)[4..], ["timetable\t11\t0\t0", "#"]);
}

#[test]
fn lists_of_reports() {
    assert_eq!(answer("Z"), "replay\t0\t0\t1");
    assert_eq!(answer("Z\t1"), "replay\t0\t0\t1\t0\t0\t6");
    assert_eq!(answer("Z\t0\t0"), "replay\t0\t0\t1\t0\t0\t0\t16\t0\t0");
    assert_eq!(answer("Z\t1\t4"), "replay\t0\t0\t1\t0\t0\t6\t0\t0\t0");
    assert_eq!(answer("Z\t1\t8"), "replay\t0\t0\t1\t0\t0\t6\t14\t3\t0");
    assert_eq!(answer("Z\t0\t8"), "replay\t0\t0\t1\t0\t0\t0\t16\t0\t0");
}

/// The run of best times: tasks 0 at 1, 1 at 2, 2 and 3 at 3, 4 at 4. Refused reports alter nothing.
#[test]
fn a_whole_run() {
    let run = "replay\t0\t0\t1\t0\t0\t6\t0\t0\t8\t0\t0\t16\t0\t0\t0";
    assert_eq!(answer("Z\t1\t2\t12\t16"), run);
    assert_eq!(answer("Z\t1\t2\t12\t16\t0"), format!("{run}\t13\t0\t0"));
    let faults = "replay\t0\t0\t1\t14\t5\t0\t0\t0\t6\t14\t3\t0\t0\t0\t8\t0\t0\t16\t0\t0\t0";
    assert_eq!(answer("Z\t32\t1\t8\t2\t12\t16"), faults);
}

/// Every task ends in its first tick.
#[test]
fn the_quickest_run() {
    assert_eq!(answer("Z\t1\t6\t24\t0"), "replay\t0\t0\t1\t0\t0\t6\t0\t0\t24\t0\t0\t0\t13\t0\t0");
}

#[test]
fn refused_lists() {
    assert_eq!(answers("", &["Z\t1\t2"]), ["replay\t8\t0\t0"]);
    assert_eq!(answers(PLAN_A, &["P\t6\t0\t4", "Z", "Z\t1"]), ["put", "replay\t9\t4\t0", "replay\t9\t4\t0"]);
    assert_eq!(answers(PLAN_A, &["P\t8\t1\t1", "Z\t1"]), ["put", "replay\t10\t1\t0"]);
    let later = ["P\t7\t0\t2", "P\t8\t0\t1", "P\t7\t2\t0", "P\t8\t2\t0", "Z\t1"];
    assert_eq!(answers(PLAN_A, &later)[4..], ["replay\t11\t0\t0"]);
}

/// A replay begins anew and leaves the kept state alone.
#[test]
fn the_kept_state_stays() {
    let state = &answers(PLAN_A, &["S", "T\t1", "Q"])[2];
    let lines = answers(PLAN_A, &["S", "T\t1", "Z\t1\t2", "Q", "Z\t0\t0", "Q"]);
    assert_eq!((&lines[3], &lines[5]), (state, state));
    assert_eq!(lines[2], "replay\t0\t0\t1\t0\t0\t6\t0\t0\t8");
}

#[test]
fn as_many_as_may_be() {
    let ones = |count: usize| "\t1".repeat(count);
    let most = LONGEST_LIST;
    assert!(answer(&format!("Z{}", ones(most))).starts_with("replay\t0\t0\t1\t0\t0\t6\t14\t0\t0\t14"));
    assert_eq!(answer(&format!("Z{}", ones(most + 1))), "bad");
    let full = answers(PLAN_A, &[&format!("Y\t1{}", ones(most))]);
    assert_eq!(full, [format!("timetable\t17\t{most}\t0"), "#".to_string()]);
    assert_eq!(answer(&format!("Y\t1{}", ones(most + 1))), "bad");
    let room = answers(PLAN_A, &[&format!("Y\t{MOST_ROOM}")]);
    assert_eq!(room, ["timetable\t17\t0\t0".to_string(), "#".repeat(MOST_ROOM as usize)]);
    assert_eq!(answer(&format!("Y\t{}", MOST_ROOM + 1)), "bad");
}

/// An answer to `D`: number and place, any, least and task, the first margins, then zeros.
fn margins(first: &str, margins: &[i64]) -> String {
    let margin = |t| format!("\t{}", margins.get(t).unwrap_or(&0));
    format!("margins\t{first}{}", (0..TASKS).map(margin).collect::<String>())
}

/// The worst finishes are 2, 5, 6, 8 and 8.
#[test]
fn margins_of_deadlines() {
    assert_eq!(answer("D"), margins("0\t0\t0\t0\t0", &[]));
    let lines = ["P\t14\t1\t9", "D", "P\t14\t4\t10", "D", "P\t14\t3\t1", "D", "P\t14\t3\t0", "D"];
    let lines = answers(PLAN_A, &lines);
    assert_eq!([0, 2, 4, 6].map(|i| &lines[i][..]), ["put"; 4]);
    assert_eq!(lines[1], margins("0\t0\t1\t4\t1", &[0, 4]));
    assert_eq!(lines[3], margins("0\t0\t1\t2\t4", &[0, 4, 0, 0, 2]));
    assert_eq!(lines[5], margins("0\t0\t1\t-7\t3", &[0, 4, 0, -7, 2]));
    assert_eq!(lines[7], lines[3]);
}

#[test]
fn refused_margins() {
    let refused = |first: &str| margins(&format!("{first}\t0\t0\t0"), &[]);
    let after = |line: &str| answers(PLAN_A, &["P\t14\t0\t3", line, "D"])[2].clone();
    assert_eq!(answers("", &["D"]), [refused("8\t0")]);
    assert_eq!(after(&format!("P\t14\t1\t{ABOVE}")), refused("8\t0"));
    assert_eq!(after("P\t14\t5\t1"), refused("8\t0"));
    assert_eq!(after("P\t6\t0\t4"), refused("9\t4"));
    assert_eq!(after("P\t8\t1\t1"), refused("10\t1"));
    assert_eq!(after("P\t5\t2\t16"), refused("11\t2"));
    assert_eq!(after("P\t14\t5\t0"), margins("0\t0\t1\t1\t0", &[1]));
}

/// A refused text leaves no deadlines.
#[test]
fn deadlines_of_a_refused_text() {
    let text = "U\t0\t1\nT\t0\t0\t1\t1\nD\t0\t1\nD\t0\t1\n";
    let puts = [0, 1, 2, 3, 4, 6].map(|part| format!("P\t{part}\t0\t1\n")).concat();
    let input = format!("{}\n{text}{puts}D\n", text.len());
    let out = String::from_utf8(session(input.as_bytes()).out).unwrap();
    let expected = format!("read\t7\t4\n{}{}\n", "put\n".repeat(6), margins("0\t0\t0\t0\t0", &[]));
    assert_eq!(out, expected);
}

/// `P` puts deadlines of the kept plan, `R` those of the kept state's plan.
#[test]
fn deadlines_of_plan_and_state() {
    let (put, back) = (format!("R\t14\t0\t{ABOVE}"), format!("R\t14\t0\t{LATEST}"));
    let lines = answers(PLAN_A, &["S", &format!("P\t14\t0\t{ABOVE}"), "T\t1", "K", "S"]);
    assert_eq!(lines, ["start\t0\t0\t1", "put", "tick\t0\t0\t6", "check\t8\t0", "start\t8\t0\t0"]);
    let lines = answers(PLAN_A, &["S", &put, "T\t1", "K", &back, "T\t1"]);
    assert_eq!(lines[1..], ["put", "tick\t12\t0\t0", "check\t0\t0", "put", "tick\t0\t0\t6"]);
    let lines = answers(PLAN_A, &["S", "R\t14\t63\t1", "T\t1", "R\t14\t63\t0", "T\t1"]);
    assert_eq!(lines[1..], ["put", "tick\t12\t0\t0", "put", "tick\t0\t0\t6"]);
}

#[test]
fn bad_deadlines() {
    for line in ["D\t", "D\t0", "d", "DD", "P\t14\t64\t0", "R\t14\t64\t0", "P\t14\t0", "P\t16\t0\t0", "R\t16\t0\t0"] {
        assert_eq!(answer(line), "bad");
    }
    for line in ["P\t14\t0\t4294967296", "R\t14\t0\t4294967296", "P\t13\t0\t0", "P\t14\t0\t-1"] {
        assert_eq!(answer(line), "bad");
    }
    assert_eq!(answer("P\t14\t63\t4294967295"), "put");
}

#[test]
fn bad_lines() {
    for line in ["Y", "Y\t", "Y\t1\t", "Y\t1\t4294967296", "Z\t", "Z\t1\t", "Z\tx", "Z\t18446744073709551616", "y\t1", "z"] {
        assert_eq!(answer(line), "bad");
    }
}

/// Zeros before a number are taken; a line of too many bytes is not, even as the last without newline.
#[test]
fn long_lines() {
    let line = |bytes: usize| {
        let many = format!("Z{}", format!("\t{:020}", 0).repeat(48));
        format!("{many}\t{:0digits$}", 1, digits = bytes - many.len() - 1)
    };
    let taken = line(TOO_LONG - 1);
    assert_eq!(taken.len(), TOO_LONG - 1);
    assert!(answer(&taken).starts_with("replay\t0\t0\t1\t0\t0\t0\t16\t0\t0"));
    assert_eq!(answers(PLAN_A, &[&line(TOO_LONG), "K"]), ["bad", "check\t0\t0"]);
    let input = format!("0\n{}", line(TOO_LONG));
    assert_eq!(session(input.as_bytes()).out, b"read\t0\t0\nbad\n");
}

#[test]
fn what_was_reached() {
    let input = format!("{}\n{PLAN_A}Y\t44\t2\t3\t4\t3\t2\nY\t1\nZ\t1\t4\nZ\t0\t0\n", PLAN_A.len());
    let reached = session(input.as_bytes()).reached;
    assert_eq!((reached.times("Y", 0), reached.times("Y", 17), reached.times("Z", 0)), (1, 1, 2));
    let ticks = [0, 13, 14, 16].map(|number| reached.times(TICKS_OF_Z, number));
    assert_eq!(ticks, [3, 0, 0, 1]);
    assert_eq!((reached.total(0), reached.times("W", 0)), (7, 0));
    assert!(reached.faults().contains(&"never reached: 13 by Z's ticks".to_string()));
}

#[test]
fn cases_that_were_reached() {
    let times = |command: &str| {
        let lists = ["2\t3\t2\t3\t2", "2\t3\t1\t3\t2", "2\t0\t5\t3\t2", "3\t0\t1\t3\t2", "1"];
        lists.map(|list| format!("{command}\t{list}\n")).concat()
    };
    // Task 2 alone has a best time above 1: it is reported at its best, then before it.
    let ticks = "S\nT\t1\nT\t2\nT\t4\nS\nT\t1\nT\t4\nT\t4\nZ\t1\t2\t12\nZ\t1\t8\t4\t4\n";
    let input = format!("{}\n{PLAN_A}{}{}{ticks}", PLAN_A.len(), times("M"), times("Y\t44"));
    let reached = session(input.as_bytes()).reached;
    for command in ["M", "Y"] {
        assert_eq!([0, 17, 18].map(|number| reached.times(command, number)), [2, 1, 2]);
        for case in [TIME_BELOW_BEST, TIME_OF_0, TIME_ABOVE_WORST] {
            assert_eq!(reached.times_of_case(command, case), 1);
        }
    }
    for command in ["T", TICKS_OF_Z] {
        assert_eq!(reached.times_of_case(command, EARLY_REPORT), 1);
    }
    let faults = reached.faults();
    assert!(faults.contains(&"never reached: 13".to_string()));
    assert!(!faults.iter().any(|fault| fault.contains("15")));
}

#[test]
fn the_unused_number() {
    let mut reached = Reached::default();
    reached.note("T", 15);
    assert!(reached.faults().contains(&"given: 15".to_string()));
}

/// What a session of these commands after plan A reached.
fn reached(commands: &[&str]) -> Reached {
    let input = format!("{}\n{PLAN_A}{}\n", PLAN_A.len(), commands.join("\n"));
    session(input.as_bytes()).reached
}

/// The cases of margins that these deadlines are, by task.
fn margin_cases(deadlines: &[u64]) -> Vec<Case> {
    let put = |(t, deadline)| format!("P\t14\t{t}\t{deadline}");
    let mut commands: Vec<String> = deadlines.iter().enumerate().map(put).collect();
    commands.push("D".to_string());
    let reached = reached(&commands.iter().map(String::as_str).collect::<Vec<_>>());
    assert_eq!(reached.times("D", 0), 1);
    MARGINS.into_iter().filter(|&case| reached.times_of_case("D", case) == 1).collect()
}

#[test]
fn cases_of_margins() {
    assert_eq!(margin_cases(&[]), [NO_DEADLINES]);
    assert_eq!(margin_cases(&[1]), [LEAST_BELOW_ZERO]);
    assert_eq!(margin_cases(&[2]), [LEAST_ZERO]);
    assert_eq!(margin_cases(&[3]), [LEAST_ABOVE_ZERO, LESS_WITHOUT]);
    assert_eq!(margin_cases(&[3, 7, 8, 10, 11]), [LEAST_ABOVE_ZERO]);
    assert_eq!(margin_cases(&[3, 6, 8, 10, 11]), [LEAST_ABOVE_ZERO, LEAST_OF_SEVERAL]);
    assert_eq!(margin_cases(&[2, 5]), [LEAST_ZERO, LEAST_OF_SEVERAL]);
    assert_eq!(margin_cases(&[3, 3, 3]), [LEAST_BELOW_ZERO]);
}

/// All tasks one after the other, with these worst times, and D and N lines.
#[test]
fn cases_of_the_ends() {
    let case = |worst: u32, line: &str| {
        let times: String = (0..TASKS).map(|t| format!("T\t{t}\t0\t1\t{worst}\n")).collect();
        let choices: String = (0..TASKS).map(|t| format!("C\t{t}\t0\n")).collect();
        let mut reached = Reached::default();
        reached.note_program(format!("U\t0\t1\n{times}{line}\n{choices}").as_bytes());
        assert_eq!(reached.times(TEXT, 0), 1);
        [LEAST_OF_ALL, GREATEST_OF_ALL].map(|case| reached.times_of_case(TEXT, case))
    };
    let late = |deadline: u32, release: u32| format!("D\t63\t{deadline}\nN\t0\t{release}");
    assert_eq!(case(LONGEST_TIME, &late(1, LATEST_RELEASE)), [1, 0]);
    assert_eq!(case(LONGEST_TIME, &late(2, LATEST_RELEASE)), [0, 0]);
    assert_eq!(case(LONGEST_TIME, &late(1, LATEST_RELEASE - 1)), [0, 0]);
    assert_eq!(case(LONGEST_TIME - 1, &late(1, LATEST_RELEASE)), [0, 0]);
    assert_eq!(case(LONGEST_TIME, "D\t63\t1"), [0, 0]);
    assert_eq!(case(1, &format!("D\t0\t{LATEST}")), [0, 1]);
    assert_eq!(case(1, &format!("D\t0\t{LATEST}\nN\t0\t1")), [0, 0]);
    assert_eq!(case(1, &format!("D\t0\t{}", LATEST - 1)), [0, 0]);
    assert_eq!(case(1, &format!("D\t1\t{LATEST}")), [0, 0]);
}

/// Only if nothing else is wrong, and with both faults neither.
#[test]
fn cases_of_wrong_deadlines() {
    let cases = [DEADLINE_ABOVE, DEADLINE_ABSENT];
    let times = |commands: &[&str]| cases.map(|case| reached(commands).times_of_case("K", case));
    let (above, latest) = (format!("P\t14\t0\t{ABOVE}"), format!("P\t14\t0\t{LATEST}"));
    assert_eq!(times(&[&above, "K"]), [1, 0]);
    assert_eq!(times(&[&format!("P\t14\t5\t{LATEST}"), "K"]), [0, 1]);
    assert_eq!(times(&[&format!("P\t14\t5\t{ABOVE}"), "K"]), [0, 0]);
    assert_eq!(times(&[&format!("P\t14\t0\t{}", ABOVE + 1), "K"]), [0, 0]);
    assert_eq!(times(&[&above, "P\t1\t0\t0", "K"]), [0, 0]);
    assert_eq!(times(&[&latest, "P\t1\t0\t0", "K"]), [0, 0]);
    let cases = [UNSOUND_ABOVE, UNSOUND_ABSENT];
    let times = |commands: &[&str]| cases.map(|case| reached(commands).times_of_case("T", case));
    assert_eq!(times(&["S", &format!("R\t14\t0\t{ABOVE}"), "T\t1"]), [1, 0]);
    assert_eq!(times(&["S", "R\t14\t5\t1", "T\t1"]), [0, 1]);
    assert_eq!(times(&["S", "R\t14\t5\t1", "R\t9\t0\t2", "T\t1"]), [0, 0]);
}

#[test]
fn cases_of_d_and_n_lines() {
    let case = |lines: &str| {
        let text = format!("U\t0\t1\nT\t0\t0\t1\t1\n{lines}\n");
        let reached = session(format!("{}\n{text}", text.len()).as_bytes()).reached;
        let of_text = |case: &Case| reached.times_of_case(TEXT, *case) == 1;
        LINES.into_iter().filter(of_text).collect::<Vec<Case>>()
    };
    assert_eq!(case("D\t0"), [D_LINE_FORM]);
    assert_eq!(case("D\t64\t0"), [D_LINE_TASK]);
    assert_eq!(case("D\t0\t0"), [D_LINE_OF_0]);
    assert_eq!(case(&format!("D\t0\t{ABOVE}")), [D_LINE_ABOVE, D_LINE_ONE_ABOVE]);
    assert_eq!(case(&format!("D\t0\t{}", ABOVE + 1)), [D_LINE_ABOVE]);
    assert_eq!(case("C\t0\t0\nD\t0\t1"), [D_LINE_KIND]);
    assert_eq!(case("D\t1\t1"), [D_LINE_UNKNOWN]);
    assert_eq!(case("D\t0\t1\nD\t0\t1"), [D_LINE_AGAIN]);
    assert_eq!(case("D\t0\t1\nU\t1\t1"), [AFTER_D_LINE]);
    for other in ["D\t0\t1", "A\t0", "A\t64\t0", "C\t1\t0", "C\t0\t0\nC\t0\t0", "C\t0\t0\nU\t1\t1"] {
        assert_eq!(case(other), []);
    }
    assert_eq!(case("N\t0"), [N_LINE_FORM]);
    assert_eq!(case("N\t64\t0"), [N_LINE_TASK]);
    let above = LATEST_RELEASE + 1;
    assert_eq!(case(&format!("N\t0\t{above}")), [N_LINE_ABOVE, N_LINE_ONE_ABOVE]);
    assert_eq!(case(&format!("N\t0\t{}", above + 1)), [N_LINE_ABOVE]);
    assert_eq!(case("C\t0\t0\nN\t0\t1"), [N_LINE_KIND]);
    assert_eq!(case("N\t1\t1"), [N_LINE_UNKNOWN]);
    assert_eq!(case("N\t0\t1\nN\t0\t0"), [N_LINE_AGAIN]);
    assert_eq!(case("N\t0\t0\nN\t0\t1"), [N_LINE_AFTER_0]);
    assert_eq!(case("N\t0\t0\nN\t0\t0"), [N_LINE_AFTER_0]);
    assert_eq!(case("N\t0\t1\nU\t1\t1"), [AFTER_N_LINE]);
    assert_eq!(case("D\t0\t1\nA\t0\t1"), [AFTER_D_LINE]);
    assert_eq!(case("N\t0\t1\nD\t0\t1"), [D_LINE_KIND, AFTER_N_LINE, D_AFTER_N_LINE]);
    for other in ["N\t0\t1", "N\t0\t0", "D\t0\t1\nN\t0\t1", "N\t0\t1\nC\t0\t0"] {
        assert_eq!(case(other), []);
    }
}

/// All margins are asked of `D`, all refusals by a D or N line of the text.
#[test]
fn cases_that_are_asked() {
    let faults = Reached::default().faults();
    let texts = Reached::default().faults_of_texts();
    for (number, words) in LINES {
        assert!(faults.contains(&format!("never reached: {number} {words} by text")));
        assert!(texts.contains(&format!("never reached: {number} {words} by text")));
    }
    for (number, words) in MARGINS {
        assert!(faults.contains(&format!("never reached: {number} {words} by D")));
        assert!(texts.contains(&format!("never reached: {number} {words} by text")));
    }
    for number in [0, 8, 9, 10, 11] {
        assert!(faults.contains(&format!("never reached: {number} by D")));
        assert!(texts.contains(&format!("never reached: {number} by text")));
    }
}
