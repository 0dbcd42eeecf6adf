//! The proved code against the rival's fast forms, measured on the same inputs; with
//! `--answers` nothing is measured, and with `--proposals` only the bounds of proposals are.
//!
//! Before a measurement both must give the same answers on its input. No call
//! can be left out: inputs and answers go through `black_box`, nothing is
//! optimised across the archive's edge, and all answers are worked out whole.
mod calls;
mod measure;
mod plans;
mod program;
mod proposals;

use calls::{Adoption, Answers, Input, Proposal, Record, Run, Slacks, Text, Ticked, Verdict};
use plans::Shape;
use program::Program;
use rival::fast;
use rival::limits::{LATEST_DEADLINE, LATEST_RELEASE, LONGEST_TEXT, LONGEST_TIME, TASKS};
use rival::plan::Refusal;
use rival::simulate::worst_times;
use std::hint::black_box;
use std::process::Command;

const TWICE: Option<f64> = Some(2.0);

/// Prints the lines, marks those that miss their target, and keeps them.
struct Table {
    timed: bool,
    missed: Vec<String>,
}

impl Table {
    fn head(&self, columns: [&str; 5]) {
        let [what, ours, rivals, ratio, target] = columns;
        if self.timed {
            let line = format!("{what:<44}{ours:>12}{rivals:>12}{ratio:>8}{target:>8}");
            println!("{}", line.trim_end());
        }
    }

    /// The answers are the same; what they took is measured, if anything is.
    fn line(
        &mut self, name: &str, measure: impl FnOnce() -> (f64, f64), target: Option<f64>,
    ) {
        if !self.timed {
            println!("the same answers: {name}");
            return;
        }
        let (ours, rivals) = measure();
        let ratio = ours / rivals;
        let shown = target.map_or("-".to_string(), |target| format!("{target:.1}"));
        let missed = target.is_some_and(|target| ratio > target);
        let mark = if missed { "  MISSED" } else { "" };
        println!("{name:<44}{ours:>12.1}{rivals:>12.1}{ratio:>8.2}{shown:>8}{mark}");
        if missed {
            self.missed.push(format!("{name}: {ratio:.2}, target {shown}"));
        }
    }
}

fn assert_same<A: PartialEq>(name: &str, ours: A, rivals: A) {
    assert!(ours == rivals, "{name}: the answers differ");
}

fn read(table: &mut Table, name: &str, shape: &Shape) {
    let text = shape.text();
    let (plan, constraint) = fast::read(&text).expect("a text that is read");
    assert_same(name, calls::read(&text), Text::accepted(Input::new(&plan, &constraint)));
    let ours = || calls::read(black_box(&text));
    let rivals = || fast::read(black_box(&text));
    table.line(name, || measure::by_turns(ours, rivals), TWICE);
}

fn check(table: &mut Table, name: &str, shape: &Shape) {
    let (plan, constraint) = shape.plan();
    let input = Input::new(&plan, &constraint);
    fast::check(&plan, &constraint).expect("a sound plan");
    assert_same(name, calls::check(&input), Verdict::accepted());
    let ours = || calls::check(black_box(&input));
    let rivals = || fast::check(black_box(&plan), black_box(&constraint));
    table.line(name, || measure::by_turns(ours, rivals), TWICE);
}

fn simulate(table: &mut Table, name: &str, shape: &Shape) {
    let (plan, constraint) = shape.plan();
    let input = Input::new(&plan, &constraint);
    let times = worst_times(&plan, &constraint);
    let run = fast::simulate(&plan, &constraint, &times).expect("legal times");
    assert_same(name, calls::simulate(&input, &times), Run::accepted(run));
    let ours = || calls::simulate(black_box(&input), black_box(&times));
    let rivals = || {
        let (plan, constraint) = (black_box(&plan), black_box(&constraint));
        fast::simulate(plan, constraint, black_box(&times))
    };
    table.line(name, || measure::by_turns(ours, rivals), TWICE);
}

/// Every task has a deadline; some are late.
fn margins(table: &mut Table, name: &str, shape: &Shape) {
    let (mut plan, constraint) = shape.plan();
    for t in 0..plan.tasks as usize {
        plan.deadlines[t] = LATEST_DEADLINE - 40 * t as u32;
    }
    let input = Input::new(&plan, &constraint);
    let found = fast::margins(&plan, &constraint).expect("a sound plan");
    assert!(found.least < 0);
    assert_same(name, calls::margins(&input), Slacks::accepted(found));
    let ours = || calls::margins(black_box(&input));
    let rivals = || fast::margins(black_box(&plan), black_box(&constraint));
    table.line(name, || measure::by_turns(ours, rivals), TWICE);
}

/// The timetable of worst times, last task first, is the schedule.
fn adopt(table: &mut Table, name: &str, shape: &Shape) {
    let (plan, constraint) = shape.plan();
    let listed = plans::schedule(&plan, &constraint);
    let records: Vec<Record> = listed.iter().map(Record::new).collect();
    let found = fast::adopt(&plan, &listed).expect("a sound schedule");
    let input = Input::new(&plan, &found);
    assert_same(name, calls::adopt(&input, &records), Adoption::accepted(Input::new(&plan, &found)));
    let ours = || calls::adopt(black_box(&input), black_box(&records));
    let rivals = || fast::adopt(black_box(&plan), black_box(&listed));
    table.line(name, || measure::by_turns(ours, rivals), TWICE);
}

/// The constraint of the input plays no part.
fn propose(table: &mut Table, name: &str, shape: &Shape) {
    let (plan, constraint) = shape.plan();
    let input = Input::new(&plan, &constraint);
    let found = fast::propose(&plan).expect("a sound plan");
    assert_same(name, calls::propose(&input), Proposal::accepted(Input::new(&plan, &found)));
    let ours = || calls::propose(black_box(&input));
    let rivals = || fast::propose(black_box(&plan));
    table.line(name, || measure::by_turns(ours, rivals), TWICE);
}

/// The answers are lent again and again and are not cleared in between: every
/// replay writes every entry, as the comparison shows.
fn replay(table: &mut Table, name: &str, shape: &Shape) {
    let (plan, constraint) = shape.plan();
    let input = Input::new(&plan, &constraint);
    let reports = plans::reports(&plan, &constraint);
    let ticks = reports.len();
    let rivals = |answers: &mut Answers| {
        let Answers { numbers, places, sets } = black_box(answers);
        let (plan, constraint) = (black_box(&plan), black_box(&constraint));
        fast::replay(plan, constraint, black_box(&reports), numbers, places, sets)
    };
    let ours = |answers: &mut Answers| {
        calls::replay(black_box(&input), black_box(&reports), black_box(answers))
    };
    let (mut a, mut b) = (Answers::unwritten(ticks), Answers::unwritten(ticks));
    let state = rivals(&mut b);
    assert_eq!((state.instant as usize, state.finished), (ticks, u64::MAX));
    let started = fast::start(&plan, &constraint).1.expect("a sound plan");
    assert_same(name, ours(&mut a), Ticked::accepted(started, state));
    assert_same(name, &a, &b);
    assert!(a.numbers.iter().all(|&number| number == 0), "{name}: a report is refused");
    let one_tick = || {
        let (ours, rivals) = measure::by_turns(|| ours(&mut a), || rivals(&mut b));
        (ours / ticks as f64, rivals / ticks as f64)
    };
    table.line(&format!("{name}, one of {ticks} ticks"), one_tick, TWICE);
}

/// A program in another language, which ticks once for each report, against the rival's ticks.
fn ticks(table: &mut Table, name: &str, command: &mut Command, target: Option<f64>) {
    let (plan, constraint) = plans::MIXED.plan();
    let reports = plans::reports(&plan, &constraint);
    let rivals = |answers: &mut [Result<u64, Refusal>]| {
        let (mut state, _) = fast::start(black_box(&plan), black_box(&constraint));
        for (&report, answer) in black_box(&reports).iter().zip(black_box(answers)) {
            (state, *answer) = fast::tick(state, report);
        }
        state
    };
    let mut answers = vec![Ok(u64::MAX); reports.len()];
    assert_eq!(rivals(&mut answers).finished, u64::MAX);
    let accepted = |answer: &Result<u64, _>| format!("0\t0\t{}", answer.expect("a legal report"));
    let mut program = Program::begin(command, &plans::MIXED.text(), &reports);
    assert_same(name, program.answers(), answers.iter().map(accepted).collect());
    let one_tick = || {
        let run = measure::batches(|| rivals(&mut answers));
        let (ours, rivals) = measure::least(|| program.round(), run);
        (ours, rivals / reports.len() as f64)
    };
    table.line(name, one_tick, target);
    program.end();
}

/// The module of bindings/python, with the library that was built here.
fn python() -> Command {
    let mut command = Command::new("python3");
    command.args(["-B", "benchmark/tick.py"]).env("PYTHONPATH", "bindings/python");
    command.env_remove("BENCHPLAN_LIBRARY");
    command
}

/// Ours against ours: long times must cost no more than short ones.
fn long_times(table: &mut Table, name: &str, shape: &Shape) {
    let (plan, constraint) = shape.plan();
    let input = Input::new(&plan, &constraint);
    let run = |times: &[u32; TASKS]| calls::simulate(black_box(&input), black_box(times));
    let (short, long) = ([1; TASKS], [LONGEST_TIME; TASKS]);
    for times in [&short, &long] {
        let rivals = fast::simulate(&plan, &constraint, times).expect("legal times");
        assert_same(name, run(times), Run::accepted(rivals));
    }
    assert_eq!(run(&short).response * LONGEST_TIME, run(&long).response);
    table.line(name, || measure::by_turns(|| run(&long), || run(&short)), Some(1.2));
}

/// Ours against ours: late not-before instants must cost no more than none.
fn late_releases(table: &mut Table, name: &str, shape: &Shape) {
    let (plan, constraint) = shape.plan();
    let mut late = plan.clone();
    late.releases = [LATEST_RELEASE; TASKS];
    let times = worst_times(&plan, &constraint);
    let run = |input: &Input| calls::simulate(black_box(input), black_box(&times));
    let inputs = [&plan, &late].map(|plan| {
        let input = Input::new(plan, &constraint);
        let rivals = fast::simulate(plan, &constraint, &times).expect("legal times");
        assert_same(name, run(&input), Run::accepted(rivals));
        input
    });
    assert_eq!(run(&inputs[0]).response + LATEST_RELEASE, run(&inputs[1]).response);
    table.line(name, || measure::by_turns(|| run(&inputs[1]), || run(&inputs[0])), Some(1.2));
}

fn main() {
    let words: Vec<String> = std::env::args().skip(1).collect();
    let timed = words.is_empty();
    if words == ["--proposals"] {
        return proposals::print();
    }
    if !timed && words != ["--answers"] {
        eprintln!("usage: benchmark [--answers | --proposals]");
        std::process::exit(2);
    }
    let mut table = Table { timed, missed: Vec::new() };
    let t = &mut table;
    assert!(plans::LARGEST.text().len() <= LONGEST_TEXT);
    t.head(["nanoseconds", "ours", "rival", "ratio", "target"]);
    read(t, "read the largest text", &plans::LARGEST);
    read(t, "read a text of 16 tasks", &plans::MIDDLE);
    check(t, "check the largest plan", &plans::LARGEST);
    check(t, "check 64 tasks, few arrows", &plans::FEW_ARROWS);
    simulate(t, "simulate the largest plan", &plans::LARGEST);
    simulate(t, "simulate 64 tasks, few arrows", &plans::FEW_ARROWS);
    margins(t, "margins of the largest plan", &plans::LARGEST);
    margins(t, "margins of 64 tasks, few arrows", &plans::FEW_ARROWS);
    adopt(t, "adopt a schedule of the largest plan", &plans::LARGEST);
    adopt(t, "adopt one of 64 tasks, few arrows", &plans::FEW_ARROWS);
    propose(t, "propose for the largest plan", &plans::LARGEST);
    propose(t, "propose for 64 tasks, few arrows", &plans::FEW_ARROWS);
    propose(t, "propose for 64 tasks, no arrow", &plans::NO_ARROW);
    replay(t, "replay a chain", &plans::CHAIN);
    replay(t, "replay all at once", &plans::WIDE);
    replay(t, "replay a mixture", &plans::MIXED);
    ticks(t, "a tick from C", &mut Command::new("target/tick"), Some(2.5));
    ticks(t, "a tick from Python", &mut python(), None);
    t.head(["simulation, ours against ours", &format!("of {LONGEST_TIME}"), "of 1", "", ""]);
    long_times(t, "times, the largest plan", &plans::ANY_TIMES);
    long_times(t, "times, few arrows", &plans::ANY_TIMES_FEW_ARROWS);
    t.head(["simulation, ours against ours", &format!("of {LATEST_RELEASE}"), "of 0", "", ""]);
    late_releases(t, "not before, the largest plan", &plans::LARGEST);
    late_releases(t, "not before, few arrows", &plans::FEW_ARROWS);
    if !timed {
        let bounds = proposals::bounds().len();
        println!("the same answers: {bounds} proposals and bounds");
    }
    for missed in &table.missed {
        println!("target missed: {missed}");
    }
    if !table.missed.is_empty() {
        std::process::exit(1);
    }
}
