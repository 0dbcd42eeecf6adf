//! Let the bench propose the order (document 02, 8): schedules worked out by hand, the driver's
//! line `H`, and the program.
use rival::check::check;
use rival::driver::session;
use rival::fast;
use rival::limits::*;
use rival::plan::*;
use rival::propose::{program, proposal, propose};
use rival::reader::read;
use rival::schedule::adopt;
use rival::simulate::bound;

const PLAN_A: &str = include_str!("../../examples/plan-a.txt");

/// Task, type, start and finish.
type Row = [u32; 4];

fn plan(text: &str) -> Plan {
    read(text.as_bytes()).unwrap().0
}

fn written(text: &str) -> String {
    String::from_utf8(program(text.as_bytes())).unwrap()
}

/// What both forms answer.
fn answer(plan: &Plan) -> Result<Constraint, Refusal> {
    let answer = propose(plan);
    assert_eq!(answer, fast::propose(plan));
    answer
}

fn refused(plan: &Plan, number: u64) {
    assert_eq!(answer(plan), refuse(number, 0));
    assert_eq!(proposal(plan), refuse(number, 0));
}

/// The schedule of this text in the order of its constraint, which has zeros after it. It is a list
/// that is adopted; the check takes what it gives. Gives the bound.
fn schedule(text: &str, rows: &[Row]) -> u32 {
    let (plan, n) = (plan(text), rows.len());
    let proposal = proposal(&plan).unwrap();
    let mut records = proposal.records();
    records.sort_by_key(|record| (record.start, record.task));
    let row = |p: usize| {
        let record = records[p];
        [record.task, record.unit_type, record.start, record.finish]
    };
    assert_eq!((0..records.len()).map(row).collect::<Vec<Row>>(), rows);
    let constraint = answer(&plan).unwrap();
    let entry = |p: usize| [constraint.task[p] as u32, constraint.kind[p] as u32];
    assert!((0..n).all(|p| entry(p) == rows[p][..2]) && (n..TASKS).all(|p| entry(p) == [0, 0]));
    assert_eq!((constraint.length, check(&plan, &constraint)), (n as u64, Ok(())));
    assert_eq!(adopt(&plan, &records), Ok(constraint.clone()));
    let lines = rows.iter().map(|row| format!("C\t{}\t{}\n", row[0], row[1]));
    assert_eq!(written(text), lines.collect::<String>());
    let response = bound(&plan, &constraint).unwrap().response;
    assert!(response <= proposal.greatest_finish());
    response
}

/// The ranks of this text's tasks, in ticks.
fn ranks(text: &str) -> Vec<f64> {
    let plan = plan(text);
    let ranks = proposal(&plan).unwrap().ranks;
    assert!(ranks[plan.tasks as usize..].iter().all(|&rank| rank == 0));
    ranks[..plan.tasks as usize].iter().map(|&rank| rank as f64 / 840.0).collect()
}

/// Task 3 takes 5 or 3. At 5 it finds the second unit of type 1 free, and type 0 takes longer.
#[test]
fn plan_a() {
    assert_eq!(ranks(PLAN_A), [8.0, 7.0, 6.0, 4.0, 2.0]);
    let rows = [[0, 0, 0, 2], [1, 0, 2, 5], [2, 1, 2, 6], [3, 1, 5, 8], [4, 0, 6, 8]];
    assert_eq!(schedule(PLAN_A, &rows), 8);
    let lines = "C\t0\t0\nC\t1\t0\nC\t2\t1\nC\t3\t1\nC\t4\t0\n";
    assert_eq!(written(PLAN_A), lines);
    assert_eq!(written(&PLAN_A[..PLAN_A.find("C\t").unwrap()]), lines);
}

/// With one unit of type 1, task 3 would finish at 9 there and at 10 on type 0.
#[test]
fn plan_a_with_one_unit() {
    let text = PLAN_A.replace("U\t1\t2", "U\t1\t1");
    let rows = [[0, 0, 0, 2], [1, 0, 2, 5], [2, 1, 2, 6], [3, 1, 6, 9], [4, 0, 6, 8]];
    assert_eq!(schedule(&text, &rows), 9);
    let text = text.replace("T\t3\t1\t1\t3", "T\t3\t1\t1\t5");
    // Task 3 comes to 10 on type 0, which task 4 then waits for.
    let rows = [[0, 0, 0, 2], [1, 0, 2, 5], [2, 1, 2, 6], [3, 0, 5, 10], [4, 0, 10, 12]];
    assert_eq!(schedule(&text, &rows), 12);
}

/// With an instant for task 0, task 1 still comes after it on their unit.
#[test]
fn plan_a_with_instants() {
    let text = |lines: &str| PLAN_A.replacen("C\t", &format!("{lines}C\t"), 1);
    let rows = [[0, 0, 3, 5], [1, 0, 5, 8], [2, 1, 5, 9], [3, 1, 8, 11], [4, 0, 9, 11]];
    assert_eq!(schedule(&text("N\t0\t3\n"), &rows), 11);
    let rows = [[0, 0, 0, 2], [1, 0, 2, 5], [2, 1, 2, 6], [4, 0, 6, 8], [3, 1, 7, 10]];
    assert_eq!(schedule(&text("N\t3\t7\n"), &rows), 10);
    // Deadlines play no part, nor do instants that are over by then.
    let rows = [[0, 0, 0, 2], [1, 0, 2, 5], [2, 1, 2, 6], [3, 1, 5, 8], [4, 0, 6, 8]];
    assert_eq!(schedule(&text("D\t0\t1\nD\t4\t99\nN\t1\t2\nN\t3\t5\n"), &rows), 8);
}

#[test]
fn one_task() {
    assert_eq!(schedule("U\t0\t1\nT\t0\t0\t1\t1\n", &[[0, 0, 0, 1]]), 1);
    let latest = format!("U\t0\t8\nT\t0\t0\t1\t{LONGEST_TIME}\nN\t0\t{LATEST_RELEASE}\n");
    let (start, finish) = (LATEST_RELEASE, LATEST_RELEASE + LONGEST_TIME);
    assert_eq!(schedule(&latest, &[[0, 0, start, finish]]), finish);
}

/// Task 0 can use one type, for 4; task 1 two types, for 3 each: neither the sums nor averages over
/// all types decide.
#[test]
fn averages_over_usable_types() {
    let text = "U\t0\t1\nU\t1\t1\nT\t0\t0\t1\t4\nT\t1\t0\t1\t3\nT\t1\t1\t1\t3\n";
    assert_eq!(ranks(text), [4.0, 3.0]);
    assert_eq!(schedule(text, &[[0, 0, 0, 4], [1, 1, 0, 3]]), 4);
}

/// 2 against 2 and 3, which is half a tick more.
#[test]
fn averages_between_two_times() {
    let text = "U\t0\t1\nU\t1\t1\nT\t0\t0\t1\t2\nT\t1\t0\t1\t2\nT\t1\t1\t1\t3\n";
    assert_eq!(ranks(text), [2.0, 2.5]);
    assert_eq!(schedule(text, &[[1, 0, 0, 2], [0, 0, 2, 4]]), 4);
}

/// The worst times decide, not the best, for every count of usable types.
#[test]
fn averages_of_every_count() {
    let units: String = (0..TYPES).map(|y| format!("U\t{y}\t1\n")).collect();
    for count in 1..=TYPES {
        let times = (0..count).map(|y| format!("T\t0\t{y}\t1\t{}\n", 1 + y * y));
        let sum: usize = (0..count).map(|y| 1 + y * y).sum();
        let text = format!("{units}{}", times.collect::<String>());
        assert_eq!(proposal(&plan(&text)).unwrap().ranks[0], (840 * sum / count) as u64);
        assert_eq!(840 * sum % count, 0);
        assert_eq!(schedule(&text, &[[0, 0, 0, 1]]), 1);
    }
}

/// Task 0 has successors of 1 and 9: with these it comes before task 3, which takes 5.
#[test]
fn the_greatest_rank_among_successors() {
    let times = "T\t0\t0\t1\t1\nT\t1\t0\t1\t1\nT\t2\t0\t1\t9\nT\t3\t0\t1\t5\n";
    let text = format!("U\t0\t1\n{times}A\t0\t1\nA\t0\t2\n");
    assert_eq!(ranks(&text), [10.0, 1.0, 9.0, 5.0]);
    let rows = [[0, 0, 0, 1], [2, 0, 1, 10], [3, 0, 10, 15], [1, 0, 15, 16]];
    assert_eq!(schedule(&text, &rows), 16);
}

/// Tasks of equal ranks: the lower number is placed first.
#[test]
fn equal_ranks() {
    let text = "U\t0\t1\nT\t2\t0\t1\t2\nT\t1\t0\t2\t2\nT\t0\t0\t1\t2\n";
    assert_eq!(schedule(text, &[[0, 0, 0, 2], [1, 0, 2, 4], [2, 0, 4, 6]]), 6);
    // Task 0 can use both types, for 2 and 4: it takes the unit that task 1 would have.
    let text = "U\t0\t1\nU\t1\t1\nT\t0\t0\t1\t2\nT\t0\t1\t1\t4\nT\t1\t0\t1\t3\n";
    assert_eq!(ranks(text), [3.0, 3.0]);
    assert_eq!(schedule(text, &[[0, 0, 0, 2], [1, 0, 2, 5]]), 5);
}

/// The same finish on two types: the first is kept, though the task starts sooner on the other.
#[test]
fn types_with_the_same_finish() {
    let text = "U\t0\t1\nU\t1\t1\nT\t0\t0\t1\t3\nT\t0\t1\t1\t3\n";
    assert_eq!(schedule(text, &[[0, 0, 0, 3]]), 3);
    let text = "U\t0\t1\nU\t1\t1\nT\t0\t0\t1\t2\nT\t1\t0\t1\t1\nT\t1\t1\t1\t3\n";
    assert_eq!(ranks(text), [2.0, 2.0]);
    assert_eq!(schedule(text, &[[0, 0, 0, 2], [1, 0, 2, 3]]), 3);
}

/// At 5 both units give task 1 the same finish. It takes the first, which is free from 4 on, so the
/// other is free for task 2 from the beginning. Task 3, on type 1, starts in between.
#[test]
fn units_with_the_same_finish() {
    let times = "T\t0\t0\t1\t4\nT\t1\t0\t1\t3\nT\t2\t0\t1\t2\nT\t3\t1\t1\t1\n";
    let text = format!("U\t0\t2\nU\t1\t1\n{times}N\t1\t5\nN\t3\t1\n");
    let rows = [[0, 0, 0, 4], [2, 0, 0, 2], [3, 1, 1, 2], [1, 0, 5, 8]];
    assert_eq!(schedule(&text, &rows), 8);
    let units = proposal(&plan(&text)).unwrap().placed.iter().map(|on| on.unit).collect::<Vec<_>>();
    assert_eq!(units, [0, 0, 1, 0]);
}

/// Task 1 would fit before task 0 on the only unit.
#[test]
fn gaps_stay() {
    let text = "U\t0\t1\nT\t0\t0\t1\t5\nT\t1\t0\t1\t2\nN\t0\t4\n";
    assert_eq!(schedule(text, &[[0, 0, 4, 9], [1, 0, 9, 11]]), 11);
    // On the other unit it is done sooner.
    let text = text.replace("U\t0\t1", "U\t0\t2");
    assert_eq!(schedule(&text, &[[1, 0, 0, 2], [0, 0, 4, 9]]), 9);
}

/// The schedule passes over a gap that the run fills: one short task more runs before the long one.
#[test]
fn a_bound_below_the_greatest_finish() {
    let times: String = (1..5).map(|t| format!("T\t{t}\t0\t1\t4\n")).collect();
    let text = format!("U\t0\t2\nT\t0\t0\t1\t9\n{times}N\t0\t5\n");
    let rows = [[1, 0, 0, 4], [2, 0, 4, 8], [0, 0, 5, 14], [3, 0, 8, 12], [4, 0, 12, 16]];
    assert_eq!(schedule(&text, &rows), 14);
}

/// A not-before instant and a predecessor hold a start, whichever is later; neither alters a rank.
#[test]
fn instants_and_predecessors() {
    let text = |release: u32| {
        format!("U\t0\t1\nU\t1\t1\nT\t0\t0\t1\t6\nT\t1\t1\t1\t1\nA\t0\t1\nN\t1\t{release}\n")
    };
    for (release, start) in [(0, 6), (5, 6), (6, 6), (7, 7), (LATEST_RELEASE, LATEST_RELEASE)] {
        assert_eq!(schedule(&text(release), &[[0, 0, 0, 6], [1, 1, start, start + 1]]), start + 1);
        assert_eq!(ranks(&text(release)), [7.0, 1.0]);
    }
}

/// Placed first, started last; and of equal starts the lower number comes first.
#[test]
fn the_order_is_that_of_the_starts() {
    let text = "U\t0\t3\nT\t0\t0\t1\t2\nT\t1\t0\t1\t3\nT\t2\t0\t1\t9\nN\t2\t1\n";
    let placed = proposal(&plan(text)).unwrap().placed;
    assert_eq!(placed.iter().map(|on| on.record.task).collect::<Vec<_>>(), [2, 1, 0]);
    assert_eq!(schedule(text, &[[0, 0, 0, 2], [1, 0, 0, 3], [2, 0, 1, 10]]), 10);
}

/// As many tasks as may be, one after the other: no rank is greater, and no finish later.
#[test]
fn all_arrows() {
    let times: String = (0..TASKS).map(|t| format!("T\t{t}\t0\t1\t{LONGEST_TIME}\n")).collect();
    let pairs = (0..TASKS).flat_map(|from| (0..from).map(move |to| (from, to)));
    let arrows: String = pairs.map(|(from, to)| format!("A\t{from}\t{to}\n")).collect();
    let text = format!("U\t0\t{UNITS}\n{times}{arrows}N\t63\t{LATEST_RELEASE}\n");
    let start = |p: u32| LATEST_RELEASE + p * LONGEST_TIME;
    let rows: Vec<Row> = (0..64).map(|p| [63 - p, 0, start(p), start(p + 1)]).collect();
    assert_eq!(schedule(&text, &rows), LAST_INSTANT);
    assert_eq!(proposal(&plan(&text)).unwrap().ranks[63], 64 * 840 * 1_000_000);
}

/// Eight at a time, by number.
#[test]
fn no_arrows() {
    let times: String = (0..TASKS).map(|t| format!("T\t{t}\t0\t1\t1\n")).collect();
    let rows: Vec<Row> = (0..64).map(|t| [t, 0, t / 8, t / 8 + 1]).collect();
    assert_eq!(schedule(&format!("U\t0\t{UNITS}\n{times}"), &rows), 8);
}

/// Plan A with these arrows more.
fn with_arrows(arrows: &[(usize, usize)]) -> Plan {
    let mut plan = plan(PLAN_A);
    for &(from, to) in arrows {
        plan.predecessors[to] |= 1 << from;
    }
    plan
}

/// Of two tasks, three, four and all; to some of them arrows lead from others, and from some on.
#[test]
fn circles() {
    let circles: [&[(usize, usize)]; 7] = [
        &[(2, 0)],
        &[(3, 1)],
        &[(3, 4), (4, 3)],
        &[(4, 0)],
        &[(4, 2)],
        &[(4, 1), (3, 0)],
        &[(0, 1), (3, 2), (4, 0)],
    ];
    for arrows in circles {
        refused(&with_arrows(arrows), 23);
    }
    for arrows in [&[(3, 4)][..], &[(4, 1)], &[(4, 3)], &[(0, 3), (0, 4), (3, 2)]] {
        assert!(answer(&with_arrows(arrows)).is_ok());
    }
}

/// A ring of so many tasks alone, and beside others.
#[test]
fn rings() {
    for count in 2..=TASKS {
        let mut plan = Plan { types: 1, ..Plan::zero() };
        plan.units[0] = 1;
        for more in 0..2 {
            plan.tasks = (count + more).min(TASKS) as u64;
            for t in 0..plan.tasks as usize {
                (plan.best[pair(t, 0)], plan.worst[pair(t, 0)]) = (1, 1);
            }
            (0..count).for_each(|t| plan.predecessors[t] = 1 << ((t + 1) % count));
            refused(&plan, 23);
            // Without one of its arrows it is a row, which starts with the last of the ring.
            plan.predecessors[count - 1] = 0;
            let order = answer(&plan).unwrap().task;
            assert!((0..count).all(|p| order[p] as usize == count - 1 - p));
        }
    }
}

/// A plan that breaks a rule gives 8, whatever its arrows do.
#[test]
fn broken_plans() {
    refused(&Plan::zero(), 8);
    let breaks: [fn(&mut Plan); 9] = [
        |plan| plan.types = 0,
        |plan| plan.types = 9,
        |plan| plan.tasks = 65,
        |plan| plan.units[0] = 9,
        |plan| plan.worst[0] = LONGEST_TIME + 1,
        |plan| plan.best[pair(5, 0)] = 1,
        |plan| plan.predecessors[5] = 1,
        |plan| plan.deadlines[5] = 1,
        |plan| plan.releases[0] = LATEST_RELEASE + 1,
    ];
    for arrows in [&[][..], &[(4, 0)], &[(2, 0), (3, 4), (4, 3)]] {
        for breaks in breaks {
            let mut plan = with_arrows(arrows);
            breaks(&mut plan);
            refused(&plan, 8);
        }
    }
    // No task precedes itself, which would be a circle too.
    refused(&with_arrows(&[(1, 1)]), 8);
    refused(&with_arrows(&[(5, 1)]), 8);
}

#[test]
fn texts() {
    assert_eq!(written(""), "refused\t8\t0\n");
    assert_eq!(written("U\t0\t1\nT\t1\t0\t1\t1\n"), "refused\t8\t0\n");
    assert_eq!(written(&PLAN_A.replace("A\t0\t2", "A\t4\t2")), "refused\t23\t0\n");
    let circle = "U\t0\t1\nT\t0\t0\t1\t1\nT\t1\t0\t1\t1\nA\t0\t1\nA\t1\t0\n";
    assert_eq!(written(circle), "refused\t23\t0\n");
    assert_eq!(written(&circle.replace("T\t0\t0", "T\t2\t0")), "refused\t6\t4\n");
    let absent = circle.replace("A\t0\t1\n", "T\t3\t0\t1\t1\nA\t0\t1\n");
    assert_eq!(written(&absent), "refused\t8\t0\n");
    assert_eq!(written(&"\n".repeat(LONGEST_TEXT + 1)), "refused\t1\t0\n");
}

/// A faulty C line is refused as ever; what the check would refuse plays no part.
#[test]
fn texts_with_c_lines() {
    let (before, proposed) = (&PLAN_A[..PLAN_A.find("C\t").unwrap()], written(PLAN_A));
    let with = |lines: &str| written(&format!("{before}{lines}"));
    let turned = "C\t4\t1\nC\t3\t1\nC\t2\t0\nC\t1\t0\nC\t0\t0\n";
    for lines in ["C\t0\t0\n", "C\t1\t7\n", "C\t4\t0\nC\t2\t1\n", turned] {
        assert_eq!(with(lines), proposed);
    }
    assert_eq!(with(&proposed), proposed);
    let faults = [("C\t0\t0", 2), ("C\t0\n", 2), ("C\t64\t0\n", 3), ("C\t0\t8\n", 3), ("C\t5\t0\n", 6)];
    for (lines, number) in faults {
        assert_eq!(with(lines), format!("refused\t{number}\t12\n"));
    }
    assert_eq!(with("C\t0\t0\nA\t0\t1\n"), "refused\t5\t13\n");
    assert_eq!(with("C\t0\t0\nC\t0\t1\n"), "refused\t7\t13\n");
}

/// The answers to these commands after a text, line by line.
fn answers(text: &str, commands: &[&str]) -> Vec<String> {
    let input = format!("{}\n{text}{}\n", text.len(), commands.join("\n"));
    let out = String::from_utf8(session(input.as_bytes()).out).unwrap();
    out.lines().skip(1).map(str::to_string).collect()
}

/// An answer to `H`: number and place, length, the first entries, then zeros.
fn proposed(first: &str, entries: &[&str]) -> String {
    let entry = |p: usize| format!("\t{}", entries.get(p).unwrap_or(&"0\t0"));
    format!("propose\t{first}\t{}{}", entries.len(), (0..TASKS).map(entry).collect::<String>())
}

/// Of plan A.
const ENTRIES: [&str; 5] = ["0\t0", "1\t0", "2\t1", "3\t1", "4\t0"];

#[test]
fn the_line_h() {
    let without = &PLAN_A[..PLAN_A.find("C\t").unwrap()];
    let lines = answers(without, &["K", "H", "K", "B", "S", "W\t44"]);
    let expected = [
        "check\t9\t0", &proposed("0\t0", &ENTRIES), "check\t0\t0", "bound\t0\t0\t8",
        "start\t0\t0\t1", "timetable\t0\t0\t44",
    ];
    assert_eq!(lines[..6], expected);
    assert_eq!(lines[6..], answers(PLAN_A, &["W\t44"])[1..]);
    assert_eq!(answers("", &["H"]), [proposed("8\t0", &[])]);
}

/// A constraint that is proposed replaces the kept one whole; a refusal leaves that alone.
#[test]
fn the_kept_constraint() {
    let (other, back) = ("P\t8\t3\t0", "P\t5\t0\t0");
    let lines = answers(PLAN_A, &[other, "B", "P\t5\t0\t16", "H", back, "B", "H", "B"]);
    let (circle, all) = (proposed("23\t0", &[]), proposed("0\t0", &ENTRIES));
    let expected = [
        "put", "bound\t0\t0\t12", "put", &circle, "put", "bound\t0\t0\t12", &all, "bound\t0\t0\t8",
    ];
    assert_eq!(lines, expected);
    let lines = answers(PLAN_A, &["P\t14\t5\t1", "P\t5\t0\t16", "H", "P\t14\t5\t0", "H"]);
    assert_eq!(lines[2..], [proposed("8\t0", &[]), "put".to_string(), circle]);
    let lines = answers(PLAN_A, &["P\t6\t0\t99", "P\t7\t40\t3", "K", "H", "K"]);
    assert_eq!(lines[2..], ["check\t9\t99", &all, "check\t0\t0"]);
}

/// The plan as it is when `H` comes: with an instant for task 3, then without.
#[test]
fn the_kept_plan() {
    let lines = answers(PLAN_A, &["P\t15\t3\t7", "H", "B", "P\t15\t3\t0", "H", "B"]);
    let entries = ["0\t0", "1\t0", "2\t1", "4\t0", "3\t1"];
    assert_eq!(lines[1..3], [proposed("0\t0", &entries), "bound\t0\t0\t10".to_string()]);
    assert_eq!(lines[4..], [proposed("0\t0", &ENTRIES), "bound\t0\t0\t8".to_string()]);
}

/// `H` leaves the records and the run state alone.
#[test]
fn records_and_state_stay() {
    let records =
        ["E\t0\t0\t0\t2", "E\t1\t0\t2\t5", "E\t2\t1\t2\t6", "E\t3\t1\t5\t8", "E\t4\t0\t6\t8"];
    let lines = answers(PLAN_A, &[&records[..], &["H", "L", "L"]].concat());
    assert_eq!(lines[5], proposed("0\t0", &ENTRIES));
    assert!(lines[6].starts_with("adopt\t0\t0\t5\t") && lines[7].starts_with("adopt\t20\t0\t0\t"));
    let with_h = ["S", "T\t1", "Q", "P\t15\t3\t7", "H", "Q", "T\t0", "P\t1\t0\t0", "H", "Q"];
    let lines = answers(PLAN_A, &with_h);
    assert_eq!(lines[2], lines[5]);
    assert_eq!((&lines[6][..], &lines[8]), ("tick\t0\t0\t0", &proposed("8\t0", &[])));
    assert_eq!(lines[9], answers(PLAN_A, &["S", "T\t1", "T\t0", "Q"])[3]);
}

#[test]
fn bad_lines() {
    for line in ["H\t", "H\t0", "H\t0\t0", "H ", "h", "HH", "\tH", "H\r"] {
        assert_eq!(answers(PLAN_A, &[line, "K"]), ["bad", "check\t0\t0"]);
    }
}
