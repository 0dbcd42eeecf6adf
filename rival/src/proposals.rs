//! Random plans for proposals: with ties, gaps and waits, with arrows in circles, and as texts with
//! C lines that play no part.
use crate::edges;
use crate::inputs;
use crate::limits::*;
use crate::plan::*;
use crate::propose::{proposal, propose, usable};
use crate::random::Random;
use crate::texts::last_task;

/// Lines that are read: mostly a plan that a proposal takes, otherwise one with a circle, with a
/// task that has no times, or with both.
pub fn lines(random: &mut Random) -> Vec<String> {
    let mut plan = plan(random);
    if random.once_in(3) {
        add_circle(random, &mut plan);
    }
    let mut lines = lines_of(&plan);
    lines.extend(choices(random, &plan));
    if random.once_in(6) && plan.tasks < TASKS as u64 - 1 {
        lines.insert(plan.types as usize, last_task());
    }
    lines
}

/// A plan that keeps the rules and has no circle.
pub fn plan(random: &mut Random) -> Plan {
    match random.below(20) {
        0 | 1 => return extreme_plan(random),
        2 | 3 => return plan_with_gap(random),
        _ => {}
    }
    let (few, many) = (random.from(2, 9), random.from(10, TASKS as u64));
    let mut plan = Plan::zero();
    plan.types = random.pick(&[1, 2, 2, 3, 3, 4, 5, 6, 7, 8]);
    plan.tasks = random.pick(&[1, few, few, few, few, few, many, TASKS as u64, TASKS as u64]);
    put_units(random, &mut plan);
    put_times(random, &mut plan);
    let rarity = random.pick(&[1, 2, 3, 5, 10, 40, u64::MAX]);
    put_arrows(random, &mut plan, rarity);
    if random.once_in(2) {
        put_releases(random, &mut plan);
    }
    plan
}

/// As many tasks as may be, one after the other, all as long as may be: no rank is greater. The
/// first may start only when the latest not-before instant comes, or at once.
fn extreme_plan(random: &mut Random) -> Plan {
    let mut plan = Plan::zero();
    (plan.types, plan.tasks) = (random.from(1, TYPES as u64), TASKS as u64);
    put_units(random, &mut plan);
    for at in (0..TASKS).flat_map(|t| (0..plan.types as usize).map(move |y| pair(t, y))) {
        plan.best[at] = random.pick(&edges::TIMES);
        plan.worst[at] = LONGEST_TIME;
    }
    put_arrows(random, &mut plan, 1);
    let first = (0..TASKS).find(|&t| plan.predecessors[t] == 0).unwrap_or(0);
    plan.releases[first] = random.pick(&[0, LATEST_RELEASE, LATEST_RELEASE]);
    plan
}

/// A long task that may start only after a while is placed first, and the others pass over the time
/// before it on its unit. In the run one of them finds a unit there, so that all is over sooner.
fn plan_with_gap(random: &mut Random) -> Plan {
    let short = random.from(3, 9);
    let long = random.from(short + 1, 4 * short);
    let release = random.from(short + 1, 2 * short - 1);
    let others = (release + long) / short + 1;
    let late = random.from(0, others);
    let mut plan = Plan::zero();
    (plan.types, plan.units[0], plan.tasks) = (1, 2, others + 1);
    for task in 0..plan.tasks {
        let (at, worst) = (pair(task as usize, 0), if task == late { long } else { short });
        plan.worst[at] = worst as u32;
        plan.best[at] = random.from(1, worst) as u32;
    }
    plan.releases[late as usize] = release as u32;
    plan
}

fn put_units(random: &mut Random, plan: &mut Plan) {
    let most = random.pick(&[1, 2, 3, UNITS as u64]);
    let least = random.pick(&[1, most]);
    for units in &mut plan.units[..plan.types as usize] {
        *units = random.from(least, most) as u32;
    }
}

/// For each task some of the types, with times that are often equal.
fn put_times(random: &mut Random, plan: &mut Plan) {
    let few_types = random.from(1, plan.types);
    let greatest = random.pick(&[1, 2, 3, 3, 5, 5, 9, 30, LONGEST_TIME]);
    let mut types: Vec<usize> = (0..plan.types as usize).collect();
    for task in 0..plan.tasks as usize {
        random.shuffle(&mut types);
        let any = random.from(1, plan.types);
        let count = random.pick(&[few_types, few_types, any, plan.types]);
        for &y in &types[..count as usize] {
            let worst = time(random, greatest);
            plan.worst[pair(task, y)] = worst;
            plan.best[pair(task, y)] = random.from(1, worst.into()) as u32;
        }
    }
}

/// Up to the greatest; where that is long, mostly an edge.
fn time(random: &mut Random, greatest: u32) -> u32 {
    match greatest == LONGEST_TIME && !random.once_in(3) {
        true => random.pick(&edges::TIMES),
        false => random.from(1, greatest.into()) as u32,
    }
}

/// From tasks to others that are later in some order; all of these arrows if the rarity is 1.
fn put_arrows(random: &mut Random, plan: &mut Plan, rarity: u64) {
    let mut order: Vec<usize> = (0..plan.tasks as usize).collect();
    if !random.once_in(4) {
        random.shuffle(&mut order);
    }
    for (p, &to) in order.iter().enumerate() {
        let before = order[..p].iter().filter(|_| random.once_in(rarity));
        plan.predecessors[to] |= before.fold(0, |set, from| set | 1 << from);
    }
}

/// About the starts that the plan gives without them, for some tasks or for all.
fn put_releases(random: &mut Random, plan: &mut Plan) {
    let Ok(schedule) = proposal(plan) else { return };
    let mut starts = [0; TASKS];
    for placed in schedule.placed {
        starts[placed.record.task as usize] = placed.record.start;
    }
    let rarity = random.pick(&[1, 2, 2, 5]);
    let releases = inputs::releases(random, &starts[..plan.tasks as usize]);
    for (to, release) in plan.releases.iter_mut().zip(releases) {
        *to = if random.once_in(rarity) { release as u32 } else { 0 };
    }
}

/// Arrows in a circle: of two tasks, three or a few beside the other arrows, or of all tasks and
/// without others. A single task has none.
pub fn add_circle(random: &mut Random, plan: &mut Plan) {
    let tasks = plan.tasks as usize;
    if tasks < 2 {
        return;
    }
    let any = random.from(2, tasks as u64) as usize;
    let count = random.pick(&[2, 2, 3, 3, any, tasks, tasks]).min(tasks);
    if count == tasks {
        plan.predecessors = [0; TASKS];
    }
    let mut circle: Vec<usize> = (0..tasks).collect();
    random.shuffle(&mut circle);
    for p in 0..count {
        plan.predecessors[circle[(p + 1) % count]] |= 1 << circle[p];
    }
}

/// The plan as lines without C lines.
pub fn lines_of(plan: &Plan) -> Vec<String> {
    let (types, tasks) = (plan.types as usize, plan.tasks as usize);
    let mut lines: Vec<String> = (0..types).map(|y| format!("U\t{y}\t{}", plan.units[y])).collect();
    for (t, y) in (0..tasks).flat_map(|t| usable(plan, t).map(move |y| (t, y))) {
        let (best, worst) = (plan.best[pair(t, y)], plan.worst[pair(t, y)]);
        lines.push(format!("T\t{t}\t{y}\t{best}\t{worst}"));
    }
    let before = |to: usize| members(plan.predecessors[to]).map(move |from| (from, to));
    for (from, to) in (0..tasks).flat_map(before) {
        lines.push(format!("A\t{from}\t{to}"));
    }
    let instants = |letter: char, instants: &[u32; TASKS]| -> Vec<String> {
        let some = (0..tasks).filter(|&t| instants[t] != 0);
        some.map(|t| format!("{letter}\t{t}\t{}", instants[t])).collect()
    };
    lines.extend(instants('D', &plan.deadlines));
    lines.extend(instants('N', &plan.releases));
    lines
}

/// C lines: none, those of the proposal, or others, most of which the check refuses.
fn choices(random: &mut Random, plan: &Plan) -> Vec<String> {
    let mut order: Vec<usize> = (0..plan.tasks as usize).collect();
    random.shuffle(&mut order);
    let mut choices: Vec<(usize, usize)> =
        order.into_iter().map(|t| (t, usable(plan, t).last().unwrap_or(0))).collect();
    if let Some(constraint) = propose(plan).ok().filter(|_| random.once_in(2)) {
        let of_entry = |p: usize| (constraint.task[p] as usize, constraint.kind[p] as usize);
        choices = (0..choices.len()).map(of_entry).collect();
    }
    let any = random.below(plan.tasks) as usize;
    match random.below(8) {
        0..=3 => choices.clear(),
        4 => drop(choices.remove(any)),
        5 => choices[any].1 = random.below(TYPES as u64) as usize,
        6 => choices.reverse(),
        _ => {}
    }
    choices.into_iter().map(|(task, y)| format!("C\t{task}\t{y}")).collect()
}
