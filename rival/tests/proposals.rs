//! What must hold of random proposals, sentence by sentence; and the cases that are counted of
//! them, each for what it is.
use rival::cases::Case;
use rival::check::{check, keeps_the_rules};
use rival::driver::session;
use rival::fast;
use rival::limits::*;
use rival::plan::*;
use rival::proposal_cases::*;
use rival::proposals::{add_circle, lines, lines_of, plan};
use rival::propose::{has_a_circle, led_to, proposal, propose, successors, Placed, Proposal};
use rival::random::Random;
use rival::reached::{Reached, Source, TEXT};
use rival::reader::read;
use rival::schedule::adopt;
use rival::simulate::bound;
use rival::texts::join;

const PLAN_A: &str = include_str!("../../examples/plan-a.txt");

/// The ranks, times the count of usable types, so that nothing is divided.
fn has_right_ranks(plan: &Plan, ranks: &[u64; TASKS]) {
    for t in 0..plan.tasks as usize {
        let times = &plan.worst[pair(t, 0)..pair(t, 0) + TYPES];
        let count = times.iter().filter(|&&time| time != 0).count() as u64;
        let sum: u64 = times.iter().map(|&time| u64::from(time)).sum();
        let waits = |s: &usize| plan.predecessors[*s] >> t & 1 == 1;
        let greatest = (0..TASKS).filter(waits).map(|s| ranks[s]).max().unwrap_or(0);
        assert_eq!(count * ranks[t], 840 * sum + count * greatest);
    }
}

/// By falling rank, equal ranks by lower number; every task once.
fn has_right_order(plan: &Plan, Proposal { ranks, placed }: &Proposal) {
    let key = |on: &Placed| (u64::MAX - ranks[on.record.task as usize], on.record.task);
    assert!(placed.windows(2).all(|pair| key(&pair[0]) < key(&pair[1])));
    let set = placed.iter().fold(0, |set, on| set | 1 << on.record.task);
    assert_eq!((set, placed.len() as u64), (first_tasks(plan.tasks), plan.tasks));
}

/// The earliest start on a unit: after all tasks on it, after the predecessors and from the instant
/// on.
fn start_on(plan: &Plan, before: &[Placed], task: usize, (y, unit): (usize, usize)) -> u32 {
    let on_unit = |on: &Placed| (on.record.unit_type as usize, on.unit) == (y, unit);
    let precedes = |on: &Placed| plan.predecessors[task] >> on.record.task & 1 == 1;
    let held = before.iter().filter(|on| on_unit(on) || precedes(on)).map(|on| on.record.finish);
    held.chain([plan.releases[task]]).max().unwrap()
}

/// No unit before the task's own gives as early a finish, and none after it an earlier one.
fn has_right_places(plan: &Plan, placed: &[Placed]) {
    for (p, on) in placed.iter().enumerate() {
        let (task, own) = (on.record.task as usize, (on.record.unit_type as usize, on.unit));
        assert_eq!(on.record.start, start_on(plan, &placed[..p], task, own));
        assert_eq!(on.record.finish, on.record.start + plan.worst[pair(task, own.0)]);
        for unit in (0..TYPES).flat_map(|y| (0..plan.units[y] as usize).map(move |u| (y, u))) {
            let worst = plan.worst[pair(task, unit.0)];
            let finish = start_on(plan, &placed[..p], task, unit) + worst;
            assert!(worst == 0 || (finish, unit) >= (on.record.finish, own));
        }
    }
}

#[test]
fn every_sentence_holds() {
    let (mut random, mut below, mut equal) = (Random::new(1), 0, 0);
    for _ in 0..2_000 {
        let plan = plan(&mut random);
        let proposal = proposal(&plan).unwrap();
        has_right_ranks(&plan, &proposal.ranks);
        has_right_order(&plan, &proposal);
        has_right_places(&plan, &proposal.placed);
        let (constraint, records) = (propose(&plan).unwrap(), proposal.records());
        assert_eq!(adopt(&plan, &records), Ok(constraint.clone()));
        assert_eq!(check(&plan, &constraint), Ok(()));
        let run = bound(&plan, &constraint).unwrap();
        assert!(records.iter().all(|record| run.starts[record.task as usize] <= record.start));
        let finish = records.iter().map(|record| record.finish).max().unwrap();
        assert!(finish <= LAST_INSTANT && run.response <= finish);
        below += u64::from(run.response < finish);
        equal += u64::from(run.response == finish);
    }
    assert!(below > 100 && equal > 1_000);
}

/// With every arrow that others imply, or with none of them, ranks and schedule are the same; the
/// fast form leaves them out.
#[test]
fn implied_arrows_decide_nothing() {
    let (mut random, mut implied) = (Random::new(3), 0);
    for _ in 0..2_000 {
        let plan = plan(&mut random);
        let of_all = successors(&plan);
        let led_to: Vec<u64> = (0..TASKS).map(|t| led_to(&of_all, t)).collect();
        let (mut most, mut least) = (plan.clone(), plan.clone());
        for (from, to) in (0..TASKS).flat_map(|from| (0..TASKS).map(move |to| (from, to))) {
            if (0..TASKS).any(|t| led_to[from] >> t & led_to[t] >> to & 1 == 1) {
                implied += plan.predecessors[to] >> from & 1;
                most.predecessors[to] |= 1 << from;
                least.predecessors[to] &= !(1 << from);
            }
        }
        let found = proposal(&plan);
        assert_eq!([&proposal(&most), &proposal(&least)], [&found; 2]);
        let constraint = found.map(|found| found.constraint());
        assert!([plan, most, least].iter().all(|plan| fast::propose(plan) == constraint));
    }
    assert!(implied > 100_000);
}

/// A circle is there exactly if taking away tasks that wait for none of those left comes to an end
/// before all are gone.
#[test]
fn circles_are_found() {
    let (mut random, mut with, mut without) = (Random::new(2), 0, 0);
    for _ in 0..2_000 {
        let mut plan = plan(&mut random);
        if random.once_in(2) {
            let (from, to) = (random.below(plan.tasks), random.below(plan.tasks) as usize);
            plan.predecessors[to] |= 1 << from & !(1u64 << to);
        } else if random.once_in(2) {
            add_circle(&mut random, &mut plan);
        }
        let mut left = first_tasks(plan.tasks);
        for _ in 0..TASKS {
            let waiting = |t: &usize| plan.predecessors[*t] & left != 0;
            left = members(left).filter(waiting).fold(0, |set, t| set | 1 << t);
        }
        assert_eq!(has_a_circle(&plan), left != 0);
        assert_eq!(propose(&plan).err(), (left != 0).then_some(Refusal { number: 23, place: 0 }));
        with += u64::from(left != 0);
        without += u64::from(left == 0);
    }
    assert!(with > 200 && without > 200);
}

/// What the generator writes is read as it was meant.
#[test]
fn lines_of_plans() {
    let (mut random, mut longest, mut numbers) = (Random::new(3), 0, [0; 24]);
    for _ in 0..1_000 {
        let plan = plan(&mut random);
        assert!(keeps_the_rules(&plan));
        let text = join(&lines_of(&plan));
        assert_eq!(read(&text), Ok((plan, Constraint::zero())));
        let text = join(&lines(&mut random));
        let (plan, _) = read(&text).unwrap();
        longest = longest.max(text.len());
        numbers[propose(&plan).err().map_or(0, |refusal| refusal.number as usize)] += 1;
    }
    assert!(longest > 25_000 && longest <= LONGEST_TEXT);
    assert!(numbers[0] > 400 && numbers[8] > 10 && numbers[23] > 100);
}

fn all_cases() -> Vec<Case> {
    let accepted = [&SIZES[..], &USABLE, &RANKS, &CHOICES, &STARTS, &ORDERS, &BOUNDS].concat();
    let refused = [&CIRCLES[..], &[BROKEN_AND_CIRCLE, OWN_PREDECESSOR]].concat();
    [accepted, refused, NEVER_PROPOSED.to_vec()].concat()
}

/// What `H` after these commands reached.
fn reached(text: &str, commands: &[&str]) -> Reached {
    let input = format!("{}\n{text}{}\n", text.len(), commands.join("\n"));
    session(input.as_bytes()).reached
}

/// The cases of a proposal for a plan with one type of so many units, with these worst times and
/// lines, but those that nearly every proposal is of.
fn cases(units: u32, worst: &[u32], lines: &str) -> Vec<Case> {
    let times = worst.iter().enumerate().map(|(t, worst)| format!("T\t{t}\t0\t1\t{worst}\n"));
    cases_of(&format!("U\t0\t{units}\n{}{lines}", times.collect::<String>()))
}

fn cases_of(text: &str) -> Vec<Case> {
    let reached = reached(text, &["H"]);
    let common = [USABLE[0], PROPOSED, PROPOSED_EQUAL];
    let given = |case: &Case| reached.times_of_case("H", *case) == 1 && !common.contains(case);
    all_cases().into_iter().filter(given).collect()
}

#[test]
fn cases_of_plans() {
    assert_eq!(cases(1, &[2], ""), [ONE_TASK]);
    assert_eq!(cases(1, &[1], ""), [ONE_TASK, TIME_OF_1]);
    assert_eq!(cases(1, &[LONGEST_TIME], ""), [ONE_TASK, LONGEST]);
    assert_eq!(cases(2, &[2], ""), [ONE_TASK, EQUAL_UNITS]);
    assert_eq!(cases(1, &[2], "N\t0\t3\n"), [ONE_TASK, BY_INSTANT]);
    let latest = format!("N\t0\t{LATEST_RELEASE}\n");
    assert_eq!(cases(1, &[2], &latest), [ONE_TASK, BY_INSTANT, LATEST_INSTANT]);
    assert_eq!(cases(1, &[3, 2], ""), [BY_UNIT]);
    assert_eq!(cases(1, &[2, 2], ""), [EQUAL_RANKS, BY_UNIT]);
    assert_eq!(cases(1, &[2, 3], ""), [BY_UNIT]);
    assert_eq!(cases(1, &[2, 2], "A\t0\t1\n"), []);
    assert_eq!(cases(1, &[2; TASKS - 1], ""), [EQUAL_RANKS, BY_UNIT]);
    assert_eq!(cases(1, &[2; TASKS], ""), [NO_ARROWS, EQUAL_RANKS, BY_UNIT]);
    let pairs = (0..TASKS).flat_map(|to| (0..to).map(move |from| (from, to)));
    let arrows: String = pairs.map(|(from, to)| format!("A\t{from}\t{to}\n")).collect();
    assert_eq!(cases(1, &[2; TASKS], &arrows), [ALL_ARROWS, SEVERAL_RANKS]);
    let longest = [ALL_ARROWS, SEVERAL_RANKS, LONG_RANK, GREATEST_RANK];
    assert_eq!(cases(1, &[LONGEST_TIME; TASKS], &arrows), [&longest[..], &[LONGEST]].concat());
    let late = [&longest[..], &[BY_INSTANT, LATEST_INSTANT, LONGEST, LAST_FINISH]].concat();
    assert_eq!(cases(1, &[LONGEST_TIME; TASKS], &format!("{arrows}{latest}")), late);
}

#[test]
fn cases_of_units_and_starts() {
    // Both start at once; the higher number is placed first.
    let both = [EQUAL_UNITS, LATER_UNIT, OTHER_ORDER, TIES, TIES_TURNED];
    assert_eq!(cases(2, &[2, 3], ""), both);
    assert_eq!(cases(2, &[3, 2], ""), [EQUAL_UNITS, LATER_UNIT, TIES]);
    let eight = [EQUAL_RANKS, EQUAL_UNITS, LATER_UNIT, LAST_UNIT, TIES];
    assert_eq!(cases(8, &[2; 8], ""), eight);
    let longer = [EQUAL_UNITS, FREE_LONGER];
    assert_eq!(cases(2, &[3, 2], "A\t0\t1\n"), longer);
    assert_eq!(cases(2, &[3, 2], "N\t1\t4\n"), [&longer[..], &[BY_INSTANT]].concat());
    assert_eq!(cases(2, &[3, 2], "N\t1\t2\n"), [EQUAL_UNITS, LATER_UNIT, BY_INSTANT]);
    let across = "U\t0\t1\nU\t1\t1\nT\t0\t0\t1\t3\nT\t1\t1\t1\t2\nA\t0\t1\n";
    assert_eq!(cases_of(across), [BY_PREDECESSOR]);
    assert_eq!(cases(1, &[5, 2], "N\t0\t1\n"), [BY_UNIT, BY_INSTANT]);
    assert_eq!(cases(1, &[5, 2], "N\t0\t2\n"), [BY_UNIT, BY_INSTANT, GAP]);
    assert_eq!(cases(1, &[5, 2], "N\t0\t4\nN\t1\t2\n"), [BY_UNIT, BY_INSTANT, GAP]);
    assert_eq!(cases(1, &[5, 2], "N\t0\t4\nN\t1\t3\n"), [BY_UNIT, BY_INSTANT]);
}

#[test]
fn cases_of_types() {
    let text = |first: u32, second: u32| {
        format!("U\t0\t1\nU\t1\t1\nT\t0\t0\t1\t{first}\nT\t0\t1\t1\t{second}\n")
    };
    let two = [ONE_TASK, USABLE[1]];
    assert_eq!(cases_of(&text(2, 4)), two);
    assert_eq!(cases_of(&text(2, 3)), [&two[..], &[PARTS]].concat());
    assert_eq!(cases_of(&text(2, 2)), [&two[..], &[EQUAL_TYPES]].concat());
    assert_eq!(cases_of(&text(4, 2)), [&two[..], &[LATER_TYPE]].concat());
    let slower = format!("{}T\t1\t0\t1\t9\n", text(2, 4));
    let turned = [OTHER_ORDER, TIES, TIES_TURNED];
    assert_eq!(cases_of(&slower), [&[USABLE[1], LATER_TYPE, SLOWER_TYPE], &turned[..]].concat());
    let units: String = (0..TYPES).map(|y| format!("U\t{y}\t1\n")).collect();
    for count in 2..=TYPES {
        let times = (0..count).map(|y| format!("T\t0\t{y}\t1\t{}\n", 2 * (count - y)));
        let cases = cases_of(&format!("{units}{}", times.collect::<String>()));
        assert!(cases.contains(&USABLE[count - 1]) && cases.contains(&LATER_TYPE));
        assert_eq!(cases.contains(&LAST_TYPE), count == TYPES);
        assert_eq!(USABLE.iter().filter(|case| cases.contains(case)).count(), 1);
    }
}

#[test]
fn cases_of_circles() {
    let cases = |tasks: usize, arrows: &str| cases(1, &vec![2; tasks], arrows);
    let two = "A\t0\t1\nA\t1\t0\n";
    assert_eq!(cases(2, two), [CIRCLE_OF_2]);
    assert_eq!(cases(3, two), [CIRCLE_OF_2, BESIDE]);
    assert_eq!(cases(3, &format!("{two}A\t2\t0\n")), [CIRCLE_OF_2]);
    assert_eq!(cases(4, &format!("{two}A\t2\t0\n")), [CIRCLE_OF_2, BESIDE, LED_TO]);
    assert_eq!(cases(3, &format!("{two}A\t0\t2\n")), [CIRCLE_OF_2, LED_FROM]);
    let ring = |count: usize| {
        (0..count).map(|t| format!("A\t{t}\t{}\n", (t + 1) % count)).collect::<String>()
    };
    assert_eq!(cases(3, &ring(3)), [CIRCLE_OF_3]);
    assert_eq!(cases(4, &ring(4)), [CIRCLE_OF_ALL]);
    assert_eq!(cases(5, &ring(4)), [BESIDE]);
    assert_eq!(cases(4, &format!("{}A\t1\t0\n", ring(4))), [CIRCLE_OF_2]);
    assert_eq!(cases(TASKS, &ring(TASKS)), [CIRCLE_OF_ALL, CIRCLE_OF_MOST]);
}

#[test]
fn cases_of_broken_plans() {
    let broken = [BROKEN_AND_CIRCLE, OWN_PREDECESSOR];
    let cases = |commands: &[&str]| {
        let reached = reached(PLAN_A, &[commands, &["H"]].concat());
        assert_eq!(reached.times("H", 8), 1);
        broken.map(|case| reached.times_of_case("H", case))
    };
    assert_eq!(cases(&["P\t14\t5\t1"]), [0, 0]);
    assert_eq!(cases(&["P\t14\t5\t1", "P\t5\t0\t16"]), [1, 0]);
    assert_eq!(cases(&["P\t5\t0\t1"]), [0, 1]);
    assert_eq!(cases(&["P\t5\t0\t17"]), [0, 0]);
    assert_eq!(cases(&["P\t5\t0\t1", "P\t14\t5\t1"]), [0, 0]);
}

/// As long as the plan and constraint stay what they were.
#[test]
fn cases_on_proposals() {
    let commands = ["D", "M\t1\t1\t1\t1\t1", "S", "T\t0", "W\t44", "Y\t44", "Z", "K", "B"];
    let letters = ["D", "M", "S", "T", "W", "Z", "K", "B"];
    let times = |before: &[&str]| {
        let reached = reached(PLAN_A, &[before, &commands].concat());
        letters.map(|letter| reached.times_of_case(letter, PROPOSED))
    };
    assert_eq!(times(&[]), [0; 8]);
    assert_eq!(times(&["H"]), [1; 8]);
    assert_eq!(times(&["H", "L", "R\t14\t0\t1", "x"]), [1; 8]);
    assert_eq!(times(&["H", "P\t14\t0\t1"]), [0; 8]);
    assert_eq!(times(&["P\t1\t0\t0", "H", "P\t1\t0\t1"]), [0; 8]);
    // A run of another constraint.
    let reached = reached(PLAN_A, &["P\t8\t3\t0", "S", "H", "T\t0"]);
    assert_eq!(reached.times_of_case("T", PROPOSED), 0);
}

/// A bound above the greatest finish, or a refusal by the check, stops the comparison.
#[test]
fn what_is_never_given() {
    let mut reached = Reached::default();
    let source = Some(Source::Proposal(9));
    let given = |reached: &Reached| {
        let faults = [reached.faults(), reached.faults_of_proposals()].concat();
        faults.into_iter().filter(|fault| fault.starts_with("given")).collect::<Vec<_>>()
    };
    reached.note_source("B", source, &Ok(Some(9)));
    reached.note_source("B", source, &Ok(Some(8)));
    reached.note_source("K", source, &Ok(None));
    assert!(given(&reached).is_empty());
    reached.note_source("B", source, &Ok(Some(10)));
    reached.note_source("K", source, &refuse(11, 0));
    reached.note_on_proposal("S", 10);
    let faults = given(&reached);
    for words in [
        "given: 0 bound above the schedule's greatest finish by B",
        "given: 11 of a proposal by K",
        "given: 10 of a proposal by S",
    ] {
        assert!(faults.contains(&words.to_string()));
    }
}

/// A schedule that ends too soon for what it gives, and one whose order the check refuses.
#[test]
fn wrong_proposals() {
    let (plan, _) = read(PLAN_A.as_bytes()).unwrap();
    let right = proposal(&plan).unwrap();
    let note = |proposal: Proposal| {
        let mut reached = Reached::default();
        reached.note_proposal("H", &plan, &Ok(proposal));
        reached.faults().into_iter().filter(|fault| fault.starts_with("given")).collect::<Vec<_>>()
    };
    assert!(note(right.clone()).is_empty());
    let mut short = right.clone();
    short.placed.iter_mut().for_each(|on| on.record.finish -= 1);
    assert_eq!(note(short), ["given: 0 bound above the schedule's greatest finish by H"]);
    let mut early = right;
    early.placed[4].record.start = 0;
    assert_eq!(note(early), ["given: 11 of a proposal by H"]);
}

#[test]
fn cases_of_texts() {
    let cases = |text: &str| {
        let mut reached = Reached::default();
        reached.note_program_of_proposal(text.as_bytes());
        let all = WITH_LINES.into_iter().chain([CIRCLE_WITH_LINES, (9, ""), (10, ""), (11, "")]);
        all.filter(|&case| reached.times_of_case(TEXT, case) == 1).collect::<Vec<Case>>()
    };
    let [of_9, of_10, of_11, taken, without] = WITH_LINES;
    assert_eq!(cases(PLAN_A), [taken]);
    assert_eq!(cases(&PLAN_A[..PLAN_A.find("C\t").unwrap()]), [without]);
    assert_eq!(cases(PLAN_A.strip_suffix("C\t4\t0\n").unwrap()), [of_9]);
    assert_eq!(cases(&PLAN_A.replace("C\t1\t0", "C\t1\t1")), [of_10]);
    assert_eq!(cases(&PLAN_A.replace("A\t0\t2", "A\t4\t1")), [of_11]);
    assert_eq!(cases(&PLAN_A.replace("A\t0\t2", "A\t4\t2")), [CIRCLE_WITH_LINES]);
    assert_eq!(cases(""), []);
    let mut reached = Reached::default();
    reached.note(TEXT, 9);
    assert!(reached.faults_of_proposals().contains(&"given: 9 by text".to_string()));
    assert!(!reached.faults_of_texts().contains(&"given: 9 by text".to_string()));
}

#[test]
fn cases_that_are_asked() {
    let (faults, texts) = (Reached::default().faults(), Reached::default().faults_of_proposals());
    let line = |(number, words): Case, command: &str| {
        format!("never reached: {number} {words} by {command}")
    };
    let of_both = [&SIZES[..], &USABLE, &RANKS, &CHOICES, &STARTS, &ORDERS, &CIRCLES].concat();
    for case in of_both.into_iter().chain([BROKEN_AND_CIRCLE]) {
        assert!(faults.contains(&line(case, "H")) && texts.contains(&line(case, TEXT)));
    }
    let of_h = [&BOUNDS[..], &[OWN_PREDECESSOR], &rival::cases::FAULTS].concat();
    assert!(of_h.into_iter().all(|case| faults.contains(&line(case, "H"))));
    assert!(BOUNDS.into_iter().all(|case| faults.contains(&line(case, "B"))));
    for command in ["D", "K", "M", "S", "T", "W", "Z"] {
        assert!(faults.contains(&line(PROPOSED, command)));
    }
    let of_text = WITH_LINES.into_iter().chain([CIRCLE_WITH_LINES, PROPOSED_BELOW, PROPOSED_EQUAL]);
    assert!(of_text.into_iter().all(|case| texts.contains(&line(case, TEXT))));
    assert!(faults.contains(&"never reached: 23".to_string()));
    for number in [0, 8, 23] {
        assert!(faults.contains(&format!("never reached: {number} by H")));
        assert!(texts.contains(&format!("never reached: {number} by text")));
    }
}
