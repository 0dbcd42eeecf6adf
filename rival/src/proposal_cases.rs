//! The cases of proposals: what decides in them, arrows in circles, and what a proposal gives.
use crate::cases::{those_that_are, Case};
use crate::check::{check, keeps_the_rules};
use crate::limits::*;
use crate::plan::*;
use crate::propose::*;
use crate::simulate::bound;
use std::cmp::Ordering;

pub const ONE_TASK: Case = (0, "one task");
pub const NO_ARROWS: Case = (0, "as many tasks as may be without arrows");
pub const ALL_ARROWS: Case = (0, "as many tasks as may be with all arrows");

/// Of a plan as a whole.
pub const SIZES: [Case; 3] = [ONE_TASK, NO_ARROWS, ALL_ARROWS];

/// Some task can use so many types.
pub const USABLE: [Case; TYPES] = [
    (0, "1 usable type"),
    (0, "2 usable types"),
    (0, "3 usable types"),
    (0, "4 usable types"),
    (0, "5 usable types"),
    (0, "6 usable types"),
    (0, "7 usable types"),
    (0, "8 usable types"),
];

pub const EQUAL_RANKS: Case = (0, "equal ranks");
/// The average worst time is not whole.
pub const PARTS: Case = (0, "average between two times");
/// Of the successors of a task.
pub const SEVERAL_RANKS: Case = (0, "successors of several ranks");
pub const LONG_RANK: Case = (0, "rank above 32 bits");
pub const GREATEST_RANK: Case = (0, "greatest of all ranks");

pub const RANKS: [Case; 5] = [EQUAL_RANKS, PARTS, SEVERAL_RANKS, LONG_RANK, GREATEST_RANK];

/// The same finish on another unit of the type, or on another type.
pub const EQUAL_UNITS: Case = (0, "same finish on another unit");
pub const EQUAL_TYPES: Case = (0, "same finish on another type");
/// On a later unit that has been free for longer.
pub const FREE_LONGER: Case = (0, "same finish on a unit that is free for longer");
pub const LATER_UNIT: Case = (0, "a later unit");
pub const LAST_UNIT: Case = (0, "last of all units");
pub const LATER_TYPE: Case = (0, "a later type");
pub const LAST_TYPE: Case = (0, "last of all types");
/// The task takes longer on it than on another.
pub const SLOWER_TYPE: Case = (0, "a slower type");

/// Of the unit that a task takes.
pub const CHOICES: [Case; 8] = [
    EQUAL_UNITS, EQUAL_TYPES, FREE_LONGER, LATER_UNIT, LAST_UNIT, LATER_TYPE, LAST_TYPE,
    SLOWER_TYPE,
];

/// The start is at this instant, and the other two are before it.
pub const BY_UNIT: Case = (0, "start held by the unit alone");
pub const BY_PREDECESSOR: Case = (0, "start held by a predecessor alone");
pub const BY_INSTANT: Case = (0, "start held by an instant alone");
pub const LATEST_INSTANT: Case = (0, "start held by the latest instant");
/// The task fits between others on a unit, and would finish sooner there.
pub const GAP: Case = (0, "gap that stays");
pub const TIME_OF_1: Case = (0, "time of 1");
pub const LONGEST: Case = (0, "longest time");
pub const LAST_FINISH: Case = (0, "finish at the last instant");

/// Of when a task starts and finishes.
pub const STARTS: [Case; 8] =
    [BY_UNIT, BY_PREDECESSOR, BY_INSTANT, LATEST_INSTANT, GAP, TIME_OF_1, LONGEST, LAST_FINISH];

/// The order of the starts is not that in which the tasks were placed.
pub const OTHER_ORDER: Case = (0, "another order than that of ranks");
pub const TIES: Case = (0, "equal starts");
/// The higher number is placed before the lower.
pub const TIES_TURNED: Case = (0, "equal starts by falling number");

pub const ORDERS: [Case; 3] = [OTHER_ORDER, TIES, TIES_TURNED];

const OF_A_PROPOSAL: &str = "of a proposal";

/// The constraint is the one that a proposal gave, and the plan is as it was then.
pub const PROPOSED: Case = case_of_proposed(0);
pub const PROPOSED_BELOW: Case = (0, "bound below the schedule's greatest finish");
pub const PROPOSED_EQUAL: Case = (0, "bound equal to the schedule's greatest finish");
pub const PROPOSED_ABOVE: Case = (0, "bound above the schedule's greatest finish");

pub const BOUNDS: [Case; 3] = [PROPOSED, PROPOSED_BELOW, PROPOSED_EQUAL];

/// What a proposal never gives.
pub const NEVER_PROPOSED: [Case; 5] = [
    case_of_proposed(8),
    case_of_proposed(9),
    case_of_proposed(10),
    case_of_proposed(11),
    PROPOSED_ABOVE,
];

/// So many tasks make the shortest circle.
pub const CIRCLE_OF_2: Case = (23, "for a circle of 2");
pub const CIRCLE_OF_3: Case = (23, "for a circle of 3");
/// More than 3.
pub const CIRCLE_OF_ALL: Case = (23, "for a circle of all tasks");
pub const CIRCLE_OF_MOST: Case = (23, "for a circle of as many tasks as may be");
/// Some task is in no circle, and no arrows lead from it to one or from one to it.
pub const BESIDE: Case = (23, "beside a task without a circle");
/// From some task that is in no circle; from another none lead.
pub const LED_TO: Case = (23, "with arrows from some tasks to a circle");
pub const LED_FROM: Case = (23, "with arrows from a circle to a task");

pub const CIRCLES: [Case; 7] =
    [CIRCLE_OF_2, CIRCLE_OF_3, CIRCLE_OF_ALL, CIRCLE_OF_MOST, BESIDE, LED_TO, LED_FROM];

/// The plan breaks another rule too.
pub const BROKEN_AND_CIRCLE: Case = (8, "with a circle");
/// Nothing else is wrong with the plan.
pub const OWN_PREDECESSOR: Case = (8, "for a task that precedes itself");

/// The check would refuse the text's own constraint so, or take it, or there is none.
pub const WITH_LINES: [Case; 5] = [
    (0, "with C lines of 9"),
    (0, "with C lines of 10"),
    (0, "with C lines of 11"),
    (0, "with C lines that are taken"),
    (0, "without C lines"),
];
pub const CIRCLE_WITH_LINES: Case = (23, "with C lines");

/// The case of a command that answers this number for a proposal.
pub const fn case_of_proposed(number: u64) -> Case {
    (number, OF_A_PROPOSAL)
}

/// The case of this bound of a proposal with this greatest finish.
pub fn case_of_proposed_bound(response: u32, finish: u32) -> Case {
    match response.cmp(&finish) {
        Ordering::Less => PROPOSED_BELOW,
        Ordering::Equal => PROPOSED_EQUAL,
        Ordering::Greater => PROPOSED_ABOVE,
    }
}

/// The cases of a plan for which the answer is this.
pub fn cases_of_proposal(plan: &Plan, answer: &Result<Proposal, Refusal>) -> Vec<Case> {
    match answer {
        Ok(proposal) => {
            let of_tasks = [cases_of_ranks(plan, proposal), cases_of_places(plan, proposal)];
            let of_all = [cases_of_plan(plan), cases_of_order(proposal), given(plan, proposal)];
            [of_tasks.concat(), of_all.concat()].concat()
        }
        Err(Refusal { number: 8, .. }) => cases_of_broken(plan),
        Err(_) => cases_of_circle(plan),
    }
}

fn cases_of_plan(plan: &Plan) -> Vec<Case> {
    let arrows: u32 = plan.predecessors.iter().map(|set| set.count_ones()).sum();
    let all_tasks = plan.tasks as usize == TASKS;
    let counts: Vec<usize> = (0..plan.tasks as usize).map(|t| usable(plan, t).count()).collect();
    let mut cases = those_that_are(&[
        (plan.tasks == 1, ONE_TASK),
        (all_tasks && arrows == 0, NO_ARROWS),
        (all_tasks && arrows as usize == TASKS * (TASKS - 1) / 2, ALL_ARROWS),
    ]);
    let of_count = |&(at, _): &(usize, Case)| counts.contains(&(at + 1));
    cases.extend(USABLE.into_iter().enumerate().filter(of_count).map(|(_, case)| case));
    cases
}

fn cases_of_ranks(plan: &Plan, proposal: &Proposal) -> Vec<Case> {
    let ranks = &proposal.ranks[..plan.tasks as usize];
    let (successors, mut sorted) = (successors(plan), ranks.to_vec());
    sorted.sort_unstable();
    let parted = |t: usize| {
        let sum: u64 = usable(plan, t).map(|y| u64::from(plan.worst[pair(t, y)])).sum();
        !sum.is_multiple_of(usable(plan, t).count() as u64)
    };
    let differ = |set: u64| {
        let greatest = members(set).map(|t| ranks[t]).max();
        members(set).any(|t| Some(ranks[t]) != greatest)
    };
    those_that_are(&[
        (sorted.windows(2).any(|pair| pair[0] == pair[1]), EQUAL_RANKS),
        ((0..ranks.len()).any(parted), PARTS),
        (successors.into_iter().any(differ), SEVERAL_RANKS),
        (ranks.iter().any(|&rank| rank > u32::MAX.into()), LONG_RANK),
        (ranks.contains(&(TASKS as u64 * SCALE * u64::from(LONGEST_TIME))), GREATEST_RANK),
    ])
}

/// Each case once.
fn cases_of_places(plan: &Plan, proposal: &Proposal) -> Vec<Case> {
    let placed = &proposal.placed;
    let of_place = |p: usize| [cases_of_unit(plan, placed, p), cases_of_start(plan, placed, p)];
    let mut cases = (0..placed.len()).flat_map(of_place).collect::<Vec<_>>().concat();
    cases.sort_unstable();
    cases.dedup();
    cases
}

/// Of the task that was placed after so many others.
fn cases_of_unit(plan: &Plan, placed: &[Placed], p: usize) -> Vec<Case> {
    let (before, Placed { record, unit }) = (&placed[..p], placed[p]);
    let (task, y) = (record.task as usize, record.unit_type as usize);
    let same = |other: &Placed| other.record.finish == record.finish && *other != placed[p];
    let on_type = |other: &Placed| other.record.unit_type == record.unit_type;
    let others = on_each_unit(plan, before, task).filter(same);
    let (units, types): (Vec<Placed>, Vec<Placed>) = others.partition(on_type);
    let longer = |other: &Placed| free(before, y, other.unit) < free(before, y, unit);
    let quicker = |other: usize| plan.worst[pair(task, other)] < plan.worst[pair(task, y)];
    those_that_are(&[
        (!units.is_empty(), EQUAL_UNITS),
        (!types.is_empty(), EQUAL_TYPES),
        (units.iter().any(longer), FREE_LONGER),
        (unit > 0, LATER_UNIT),
        (unit == UNITS - 1, LAST_UNIT),
        (usable(plan, task).any(|other| other < y), LATER_TYPE),
        (y == TYPES - 1, LAST_TYPE),
        (usable(plan, task).any(quicker), SLOWER_TYPE),
    ])
}

/// Of the task that was placed after so many others.
fn cases_of_start(plan: &Plan, placed: &[Placed], p: usize) -> Vec<Case> {
    let (before, Placed { record, unit }) = (&placed[..p], placed[p]);
    let task = record.task as usize;
    let free = free(before, record.unit_type as usize, unit);
    let (finished, release) = (finished(plan, before, task), plan.releases[task]);
    let time = record.finish - record.start;
    those_that_are(&[
        (free > finished.max(release), BY_UNIT),
        (finished > free.max(release), BY_PREDECESSOR),
        (release > free.max(finished), BY_INSTANT),
        (release > free.max(finished) && release == LATEST_RELEASE, LATEST_INSTANT),
        (passes_a_gap(plan, placed, p), GAP),
        (time == 1, TIME_OF_1),
        (time == LONGEST_TIME, LONGEST),
        (record.finish == LAST_INSTANT, LAST_FINISH),
    ])
}

/// Between a task that was placed before and the one ahead of it on its unit there is room for this
/// one, which would finish sooner there.
fn passes_a_gap(plan: &Plan, placed: &[Placed], p: usize) -> bool {
    let record = placed[p].record;
    let ready = ready(plan, &placed[..p], record.task as usize);
    (0..p).any(|q| {
        let Placed { record: other, unit } = placed[q];
        let y = other.unit_type as usize;
        let worst = plan.worst[pair(record.task as usize, y)];
        let finish = free(&placed[..q], y, unit).max(ready) + worst;
        worst != 0 && finish <= other.start && finish < record.finish
    })
}

fn cases_of_order(proposal: &Proposal) -> Vec<Case> {
    let (records, order) = (proposal.records(), proposal.constraint().task);
    let pairs = |so: fn(u32, u32) -> bool| {
        let same = |p: usize, q: usize| records[p].start == records[q].start;
        let tied = |p: usize, q: usize| same(p, q) && so(records[p].task, records[q].task);
        (0..records.len()).any(|q| (0..q).any(|p| tied(p, q)))
    };
    let moved = |p: usize| u64::from(records[p].task) != order[p];
    those_that_are(&[
        ((0..records.len()).any(moved), OTHER_ORDER),
        (pairs(|_, _| true), TIES),
        (pairs(|before, after| before > after), TIES_TURNED),
    ])
}

/// What the check and the bound answer for the constraint.
fn given(plan: &Plan, proposal: &Proposal) -> Vec<Case> {
    let constraint = proposal.constraint();
    let number = check(plan, &constraint).err().map_or(0, |refusal| refusal.number);
    let run = bound(plan, &constraint).ok();
    let of_bound = |response| case_of_proposed_bound(response, proposal.greatest_finish());
    let of_bound = run.map(|run| of_bound(run.response));
    [case_of_proposed(number)].into_iter().chain(of_bound).collect()
}

/// Of a plan that breaks a rule.
fn cases_of_broken(plan: &Plan) -> Vec<Case> {
    let mut others = plan.clone();
    for (t, set) in others.predecessors.iter_mut().enumerate() {
        *set &= !(1 << t);
    }
    let (circle, kept) = (has_a_circle(&others), keeps_the_rules(&others));
    those_that_are(&[
        (circle && !kept, BROKEN_AND_CIRCLE),
        (!circle && kept, OWN_PREDECESSOR),
    ])
}

/// Of a plan with a circle.
fn cases_of_circle(plan: &Plan) -> Vec<Case> {
    let (successors, tasks) = (successors(plan), plan.tasks as usize);
    let led_to: Vec<u64> = (0..tasks).map(|t| led_to(&successors, t)).collect();
    let round = (0..tasks).filter(|&t| led_to[t] >> t & 1 == 1).fold(0, |set, t| set | 1 << t);
    let others = || (0..tasks).filter(|&t| round >> t & 1 == 0);
    let leads = |t: usize| led_to[t] & round != 0;
    let is_led_to = |t: usize| members(round).any(|from| led_to[from] >> t & 1 == 1);
    let shortest = (0..tasks).filter_map(|t| steps_back(&successors, t)).min().unwrap_or(0);
    those_that_are(&[
        (shortest == 2, CIRCLE_OF_2),
        (shortest == 3, CIRCLE_OF_3),
        (shortest == tasks && tasks > 3, CIRCLE_OF_ALL),
        (shortest == TASKS, CIRCLE_OF_MOST),
        (others().any(|t| !leads(t) && !is_led_to(t)), BESIDE),
        (others().any(leads) && others().any(|t| !leads(t)), LED_TO),
        (others().any(is_led_to), LED_FROM),
    ])
}

/// How many arrows lead from a task back to itself at least; none if none do.
fn steps_back(successors: &[u64; TASKS], task: usize) -> Option<usize> {
    let step = |set: &u64| Some(members(*set).fold(0, |next, t| next | successors[t]));
    let after = std::iter::successors(Some(successors[task]), step).take(TASKS);
    after.into_iter().position(|set| set >> task & 1 == 1).map(|steps| steps + 1)
}

/// The case of a text with this constraint.
pub fn case_of_lines(
    plan: &Plan,
    constraint: &Constraint,
    answer: &Result<Proposal, Refusal>,
) -> Option<Case> {
    let [of_9, of_10, of_11, taken, without] = WITH_LINES;
    match answer {
        Ok(_) if constraint.length == 0 => Some(without),
        Ok(_) => Some(match check(plan, constraint) {
            Ok(()) => taken,
            Err(Refusal { number: 9, .. }) => of_9,
            Err(Refusal { number: 10, .. }) => of_10,
            Err(_) => of_11,
        }),
        Err(Refusal { number: 23, .. }) => (constraint.length > 0).then_some(CIRCLE_WITH_LINES),
        Err(_) => None,
    }
}
