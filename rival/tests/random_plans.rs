//! What must agree on random plans: the two simulations, the journal and the live run.
use rival::cases::FAULTY_REPORTS;
use rival::edges::SIXTEEN_BITS;
use rival::journal::{Journal, Progress};
use rival::inputs::{allowed_times, some_report};
use rival::limits::*;
use rival::margins::margins;
use rival::plan::*;
use rival::random::Random;
use rival::reached::Reached;
use rival::releases::greatest;
use rival::run::Times;
use rival::simulate::{bound, simulate, worst_times};
use rival::state::{start, State};
use rival::texts::sound_plan;

#[test]
fn both_simulations_agree() {
    let mut random = Random::new(1);
    for _ in 0..1_000 {
        let (plan, constraint) = sound_plan(&mut random);
        let times = allowed_times(&mut random, &plan, &constraint);
        let slow = simulate(&plan, &constraint, &times);
        assert!(slow.is_ok());
        assert_eq!(slow, rival::fast::simulate(&plan, &constraint, &times));
    }
}

/// The starts and finishes of ticks that report each task when its time is up.
#[test]
fn the_simulation_is_the_live_run() {
    let mut random = Random::new(4);
    for _ in 0..300 {
        let (plan, constraint) = sound_plan(&mut random);
        let times = allowed_times(&mut random, &plan, &constraint);
        let run = simulate(&plan, &constraint, &times).unwrap();
        if run.response > 500 {
            continue;
        }
        let (mut state, _) = start(&plan, &constraint);
        for instant in 1..=run.response {
            let up = members(state.running()).filter(|&t| state.starts[t] + times[t] == instant);
            let report = up.fold(0, |set, t| set | 1 << t);
            let answer;
            (state, answer) = state.tick(report);
            assert!(answer.is_ok());
        }
        assert_eq!((state.starts, state.finishes), (run.starts, run.finishes));
        assert_eq!(state.finished, first_tasks(plan.tasks));
    }
}

/// The next finish, or the instant of the next task, whichever comes first.
fn next_event(state: &State, run: &Times) -> Option<u32> {
    let finishes = members(state.running()).map(|t| run.finishes[t]);
    let release = state.next().map(|t| state.plan.releases[t]).filter(|&r| r > state.instant);
    finishes.chain(release).min()
}

/// The same for runs of any length, in both forms: a tick starts something only at a finish or at a
/// not-before instant, so the instant moves on to the one before each.
#[test]
fn the_simulation_is_the_long_live_run() {
    let (mut random, mut long) = (Random::new(7), 0);
    for _ in 0..300 {
        let (plan, constraint) = sound_plan(&mut random);
        let times = allowed_times(&mut random, &plan, &constraint);
        let run = simulate(&plan, &constraint, &times).unwrap();
        let (mut state, _) = start(&plan, &constraint);
        while let Some(next) = next_event(&state, &run) {
            let up = members(state.running()).filter(|&t| run.finishes[t] == next);
            let report = up.fold(0, |set, t| set | 1 << t);
            state.instant = next - 1;
            let fast = rival::fast::tick(state.clone(), report);
            let answer;
            (state, answer) = state.tick(report);
            assert!(answer.is_ok());
            assert_eq!((&state, answer), (&fast.0, fast.1));
        }
        assert_eq!((state.starts, state.finishes), (run.starts, run.finishes));
        assert_eq!(state.finished, first_tasks(plan.tasks));
        long += u64::from(run.response > SIXTEEN_BITS);
    }
    assert!(long > 20);
}

/// The state has the journal's notes.
fn same_notes(state: &State, journal: &Journal) {
    let started = journal.start.iter().flatten().count() as u64;
    let finished = (0..TASKS).filter(|&t| journal.finish[t].is_some());
    assert_eq!(state.instant, journal.instant);
    assert_eq!(state.started, started);
    assert_eq!(state.finished, finished.fold(0, |set, t| set | 1 << t));
    assert_eq!(state.starts, journal.start.map(|s| s.unwrap_or(0)));
    assert_eq!(state.finishes, journal.finish.map(|f| f.unwrap_or(0)));
}

#[test]
fn ticks_are_the_journals() {
    let (mut random, mut reached) = (Random::new(2), Reached::default());
    for _ in 0..300 {
        let (plan, constraint) = sound_plan(&mut random);
        let (mut state, answer) = start(&plan, &constraint);
        let (mut journal, opened) = Journal::open(&plan, &constraint);
        assert_eq!(answer, Ok(opened));
        for _ in 0..100 {
            let (report, instant) = (some_report(&mut random, &state), journal.instant);
            let (next, answer) = state.tick(report);
            state = next;
            assert_eq!(answer, journal.report(report));
            same_notes(&state, &journal);
            reached.note_tick("journal", &state, instant, report, &answer);
        }
    }
    reached.print_commands();
    assert!(FAULTY_REPORTS.into_iter().all(|case| reached.times_of_case("journal", case) > 0));
}

/// The book of a run in which every task takes its worst time: what is left until each deadline,
/// and no margin of a task with a deadline is less than the least, nor as small for a lower task.
#[test]
fn margins_are_the_journals() {
    let (mut random, mut compared) = (Random::new(6), 0);
    for _ in 0..500 {
        let (plan, constraint) = sound_plan(&mut random);
        if bound(&plan, &constraint).unwrap().response > 500 {
            continue;
        }
        let (mut journal, _) = Journal::open(&plan, &constraint);
        let worst = worst_times(&plan, &constraint);
        while journal.tasks(Progress::Finished).len() < plan.tasks as usize {
            let up = |t: &usize| journal.start[*t].unwrap() + worst[*t] == journal.instant + 1;
            let running = journal.tasks(Progress::Running).into_iter();
            let report = running.filter(up).fold(0, |set, t| set | 1 << t);
            assert!(journal.report(report).is_ok());
        }
        let answer = margins(&plan, &constraint).unwrap();
        assert_eq!(answer.any, plan.deadlines != [0; TASKS]);
        for t in 0..TASKS {
            let (deadline, margin) = (i64::from(plan.deadlines[t]), answer.margins[t]);
            if deadline == 0 {
                assert_eq!(margin, 0);
                continue;
            }
            assert_eq!(i64::from(journal.finish[t].unwrap()) + margin, deadline);
            assert!((margin, t as u64) >= (answer.least, answer.task));
        }
        assert_eq!(answer.margins[answer.task as usize], answer.least);
        assert!(!answer.any || plan.deadlines[answer.task as usize] != 0);
        compared += u64::from(answer.any);
    }
    assert!(compared > 100);
}

/// No time is longer in the first run, so at every instant every task is at least as far in it.
#[test]
fn a_quicker_task_makes_nothing_later() {
    let mut random = Random::new(5);
    for _ in 0..1_000 {
        let (plan, constraint) = sound_plan(&mut random);
        let long = allowed_times(&mut random, &plan, &constraint);
        let rarity = random.pick(&[1, 2, 8]);
        let shorten = |&time: &u32| match random.once_in(rarity) {
            true => random.from(1, time.into()) as u32,
            false => time,
        };
        let short: Vec<u32> = long.iter().map(shorten).collect();
        let first = simulate(&plan, &constraint, &short).unwrap();
        let second = simulate(&plan, &constraint, &long).unwrap();
        assert!((0..TASKS).all(|t| first.starts[t] <= second.starts[t]));
        assert!((0..TASKS).all(|t| first.finishes[t] <= second.finishes[t]));
        assert!(first.response <= second.response);
    }
}

/// The bound is at most the greatest not-before instant plus the sum of worst times, and is that
/// now and then.
#[test]
fn the_bound_is_at_most_instant_plus_sum() {
    let (mut random, mut equal, mut held) = (Random::new(8), 0, 0);
    for _ in 0..1_000 {
        let (plan, constraint) = sound_plan(&mut random);
        let response = bound(&plan, &constraint).unwrap().response;
        let sum: u32 = worst_times(&plan, &constraint).iter().sum();
        assert!(response <= greatest(&plan) + sum);
        equal += u64::from(greatest(&plan) > 0 && response == greatest(&plan) + sum);
        let unheld = Plan { releases: [0; TASKS], ..plan.clone() };
        let sooner = bound(&unheld, &constraint).unwrap().response;
        assert!(sooner <= response && sooner <= sum);
        held += u64::from(sooner < response);
    }
    assert!(equal > 20 && held > 100);
}

/// From the greatest not-before instant until the run is over a task runs after each walk; before it
/// now and then none does.
#[test]
fn a_task_runs_once_all_instants_have_come() {
    let (mut random, mut idle) = (Random::new(9), 0);
    for _ in 0..300 {
        let (plan, constraint) = sound_plan(&mut random);
        let (mut journal, _) = Journal::open(&plan, &constraint);
        let rarity = random.pick(&[1, 2, 8]);
        for _ in 0..200 {
            let running = journal.tasks(Progress::Running);
            if journal.tasks(Progress::Finished).len() == plan.tasks as usize {
                break;
            }
            assert!(!running.is_empty() || journal.instant < greatest(&plan));
            idle += u64::from(running.is_empty());
            let ends = |set, t: &usize| set | u64::from(random.once_in(rarity)) << t;
            let report = running.iter().fold(0, ends);
            if journal.report(report).is_err() {
                let all = running.iter().fold(0, |set, t| set | 1 << t);
                assert!(journal.report(all).is_ok());
            }
        }
    }
    assert!(idle > 100);
}

/// *Ready* asks for predecessors alone, whether or not the instant has come; what is ready and not
/// started waits for its instant, for a unit or for the task before it in the order.
#[test]
fn ready_tasks_may_wait_for_their_instants() {
    let (mut random, mut only) = (Random::new(10), 0);
    for _ in 0..300 {
        let (plan, constraint) = sound_plan(&mut random);
        let (mut state, _) = start(&plan, &constraint);
        let (mut journal, _) = Journal::open(&plan, &constraint);
        for _ in 0..50 {
            for t in journal.tasks(Progress::Ready) {
                assert_eq!(plan.predecessors[t] & !state.finished, 0);
                let next = state.next() == Some(t);
                let free = members(state.running()).all(|other| {
                    constraint.chosen()[other] != constraint.chosen()[t]
                });
                assert!(!next || !free || journal.instant < plan.releases[t]);
                only += u64::from(next && free);
            }
            let report = some_report(&mut random, &state);
            (state, _) = state.tick(report);
            let _ = journal.report(report);
        }
    }
    assert!(only > 100);
}

/// Every task is at least as far as in the run of worst times, and the run ends in time.
#[test]
fn no_run_is_later_than_the_bound() {
    let mut random = Random::new(3);
    for _ in 0..300 {
        let (plan, constraint) = sound_plan(&mut random);
        let worst = bound(&plan, &constraint).unwrap();
        let (mut journal, _) = Journal::open(&plan, &constraint);
        let rarity = random.pick(&[1, 2, 8]);
        for _ in 0..300 {
            let running = journal.tasks(Progress::Running);
            let ends = |set, t: &usize| set | u64::from(random.once_in(rarity)) << t;
            let report = running.iter().fold(0, ends);
            let _ = journal.report(report);
            for t in 0..plan.tasks as usize {
                let started = worst.starts[t] <= journal.instant;
                let finished = worst.finishes[t] <= journal.instant;
                assert!(!started || journal.progress(t) >= Progress::Running);
                assert!(!finished || journal.progress(t) == Progress::Finished);
            }
        }
        assert!(journal.instant <= worst.response);
    }
}
