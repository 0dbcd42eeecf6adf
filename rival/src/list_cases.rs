//! The cases of records that are put, of lists that are adopted, and of what these give.
use crate::cases::{those_that_are, Case};
use crate::driver::MOST_RECORDS;
use crate::limits::*;
use crate::plan::*;
use crate::schedule::*;
use std::cmp::Ordering;

/// For each field of a record: it is 0, or the greatest number of 32 bits.
pub const FIELDS_PUT: [[Case; 2]; 4] = [
    [(0, "task of 0"), (0, "task of 32 bits")],
    [(0, "type of 0"), (0, "type of 32 bits")],
    [(0, "start of 0"), (0, "start of 32 bits")],
    [(0, "finish of 0"), (0, "finish of 32 bits")],
];

/// The list has none before, or is full after it.
pub const FIRST_PUT: Case = (0, "first record");
pub const LAST_PUT: Case = (0, "last record that is kept");

/// What is `bad` has no number; 0 stands for none. Nothing else is wrong with the line.
pub const FIELDS_ABOVE: [Case; 4] = [
    (0, "task above 32 bits"),
    (0, "type above 32 bits"),
    (0, "start above 32 bits"),
    (0, "finish above 32 bits"),
];
pub const ONE_ABOVE_32_BITS: Case = (0, "one above 32 bits");
pub const ONE_TOO_MANY_PUT: Case = (0, "one more than are kept");

/// Of records that are not kept.
pub const NOT_PUT: [Case; 6] = [
    FIELDS_ABOVE[0], FIELDS_ABOVE[1], FIELDS_ABOVE[2], FIELDS_ABOVE[3], ONE_ABOVE_32_BITS,
    ONE_TOO_MANY_PUT,
];

pub const NO_RECORDS: Case = (20, "for no records");
pub const TOO_FEW: Case = (20, "for too few records");
pub const ONE_TOO_FEW: Case = (20, "for one record too few");
/// Not more than a plan may have tasks.
pub const TOO_MANY: Case = (20, "for too many records");
pub const ONE_TOO_MANY: Case = (20, "for one record too many");
pub const BEYOND: Case = (20, "for more records than tasks may be");
pub const ONE_BEYOND: Case = (20, "for one record more than tasks may be");
pub const ALL_KEPT: Case = (20, "for as many records as are kept");

/// Of the count of records.
pub const COUNTS: [Case; 8] =
    [NO_RECORDS, TOO_FEW, ONE_TOO_FEW, TOO_MANY, ONE_TOO_MANY, BEYOND, ONE_BEYOND, ALL_KEPT];

pub const ABSENT_TASK: Case = (20, "for an absent task");
/// One above the last of the plan.
pub const NEXT_TASK: Case = (20, "for the next task");
pub const TASK_OF_32_BITS: Case = (20, "for a task of 32 bits");
pub const REPEATED_TASK: Case = (20, "for a repeated task");

pub const ABSENT_TYPE: Case = (21, "for an absent type");
/// One above the last of the plan, or of all plans.
pub const NEXT_TYPE: Case = (21, "for the next type");
pub const NO_TYPE: Case = (21, "for one above all types");
pub const TYPE_OF_32_BITS: Case = (21, "for a type of 32 bits");
/// A type of the plan.
pub const UNUSABLE_TYPE: Case = (21, "for an unusable type");
/// The time that a plan keeps there is 0.
pub const UNUSABLE_FOR_0: Case = (21, "for an unusable type and no time");
/// Beyond all types, where the pairs of the tasks after this one stand.
pub const ANOTHERS_TIME: Case = (21, "for no type and another task's time");

/// On a usable type.
pub const WRONG_FINISH: Case = (21, "for a wrong finish");
pub const FINISH_BEFORE: Case = (21, "for a finish one before");
pub const FINISH_AFTER: Case = (21, "for a finish one after");
/// The finish is what is left of start plus worst in 32 bits; the least such sum leaves 0.
pub const WRAPPED: Case = (21, "for a wrapped sum");
pub const LEAST_WRAPPED: Case = (21, "for the least wrapped sum");

/// The other faults of 22 are not there.
pub const TOO_SOON: Case = (22, "before a predecessor's finish");
pub const ONE_TOO_SOON: Case = (22, "one before a predecessor's finish");
pub const BEFORE_INSTANT: Case = (22, "before its instant");
pub const ONE_BEFORE_INSTANT: Case = (22, "one before its instant");
pub const CROWDED: Case = (22, "for too many holders");
pub const ONE_TOO_CROWDED: Case = (22, "for one holder too many");

/// The refused record is faulty only for its instant, a later one only for something else; or the
/// refused one is not faulty for its instant, and a later one is.
pub const INSTANT_FIRST: Case = (22, "before its instant ahead of another fault");
pub const INSTANT_LATER: Case = (22, "for another fault ahead of one before its instant");

/// Of the record that is refused.
pub const RECORDS: [Case; 24] = [
    ABSENT_TASK, NEXT_TASK, TASK_OF_32_BITS, REPEATED_TASK, ABSENT_TYPE, NEXT_TYPE, NO_TYPE,
    TYPE_OF_32_BITS, UNUSABLE_TYPE, UNUSABLE_FOR_0, ANOTHERS_TIME, WRONG_FINISH, FINISH_BEFORE,
    FINISH_AFTER, WRAPPED, LEAST_WRAPPED, TOO_SOON, ONE_TOO_SOON, BEFORE_INSTANT,
    ONE_BEFORE_INSTANT, CROWDED, ONE_TOO_CROWDED, INSTANT_FIRST, INSTANT_LATER,
];

/// For 20, 21 and 22: the first or last of several records, or the last of as many as may be.
pub const PLACES: [[Case; 3]; 3] = [
    [(20, "at the first record"), (20, "at the last record"), (20, "at the last of all")],
    [(21, "at the first record"), (21, "at the last record"), (21, "at the last of all")],
    [(22, "at the first record"), (22, "at the last record"), (22, "at the last of all")],
];

/// A record before the refused one has a fault of a greater number.
pub const LATER_FAULTS: [(u64, Case); 3] = [
    (21, (20, "after a fault of 21")),
    (22, (20, "after a fault of 22")),
    (22, (21, "after a fault of 22")),
];

pub const ONE_RECORD: Case = (0, "one record");
pub const ALL_TASKS: Case = (0, "as many records as tasks may be");
pub const TIES: Case = (0, "equal starts");
/// The higher number is listed before the lower.
pub const TIES_TURNED: Case = (0, "equal starts by falling number");
pub const START_OF_0: Case = (0, "start of 0");
/// As late as a start may be: the task takes 1, up to the last finish.
pub const LAST_START: Case = (0, "last start");
pub const LAST_FINISH: Case = (0, "finish of 32 bits");
pub const LAST_TYPE: Case = (0, "last of all types");
pub const AT_THE_FINISH: Case = (0, "start at a predecessor's finish");
/// Which is not 0.
pub const AT_ITS_INSTANT: Case = (0, "start at its instant");
/// Of a type with several units.
pub const ALL_HELD: Case = (0, "as many holders as units");
/// A unit comes free at the start and is needed then.
pub const TAKEN_OVER: Case = (0, "unit taken over at its finish");

/// Of accepted lists.
pub const ACCEPTED: [Case; 12] = [
    ONE_RECORD, ALL_TASKS, TIES, TIES_TURNED, START_OF_0, LAST_START, LAST_FINISH, LAST_TYPE,
    AT_THE_FINISH, AT_ITS_INSTANT, ALL_HELD, TAKEN_OVER,
];

const OF_AN_ADOPTED: &str = "of an adopted list";

/// The kept constraint is the one that an accepted list gave, and the plan is as it was then.
pub const ADOPTED: Case = (0, OF_AN_ADOPTED);
pub const BOUND_BELOW: Case = (0, "below the greatest finish");
pub const BOUND_EQUAL: Case = (0, "equal to the greatest finish");
pub const BOUND_ABOVE: Case = (0, "above the greatest finish");

/// What an adopted list never gives.
pub const NEVER: [Case; 5] =
    [(8, OF_AN_ADOPTED), (9, OF_AN_ADOPTED), (10, OF_AN_ADOPTED), (11, OF_AN_ADOPTED), BOUND_ABOVE];

/// The cases of a record that is kept after so many others.
pub fn cases_of_put(fields: &[u64; 4], before: usize) -> Vec<Case> {
    let ends = [(before == 0, FIRST_PUT), (before + 1 == MOST_RECORDS, LAST_PUT)];
    let mut cases = those_that_are(&ends);
    for (&field, [of_0, of_32_bits]) in fields.iter().zip(FIELDS_PUT) {
        let greatest = field == u32::MAX.into();
        cases.extend(those_that_are(&[(field == 0, of_0), (greatest, of_32_bits)]));
    }
    cases
}

/// The cases of a record that is not kept after so many others.
pub fn cases_of_not_put(fields: &[u64; 4], before: usize) -> Vec<Case> {
    let above: Vec<usize> = (0..4).filter(|&f| u32::try_from(fields[f]).is_err()).collect();
    let full = before >= MOST_RECORDS;
    match above[..] {
        [] if full => vec![ONE_TOO_MANY_PUT],
        [f] if !full => {
            let one_above = fields[f] == u64::from(u32::MAX) + 1;
            those_that_are(&[(true, FIELDS_ABOVE[f]), (one_above, ONE_ABOVE_32_BITS)])
        }
        _ => Vec::new(),
    }
}

/// The cases of a list that is answered so.
pub fn cases_of_list<T>(plan: &Plan, records: &[Record], answer: &Result<T, Refusal>) -> Vec<Case> {
    match answer {
        Ok(_) => cases_of_accepted(plan, records),
        Err(Refusal { number: 8, .. }) => Vec::new(),
        Err(_) if records.len() as u64 != plan.tasks => cases_of_count(plan, records.len()),
        Err(Refusal { number, place }) => {
            let place = *place as usize;
            let of_record = match number {
                20 => cases_of_task(plan, records, place),
                21 => cases_of_type_and_finish(plan, &records[place]),
                _ => cases_of_start(plan, records, place),
            };
            [of_record, cases_of_place(plan, records, *number, place)].concat()
        }
    }
}

fn cases_of_count(plan: &Plan, count: usize) -> Vec<Case> {
    let tasks = plan.tasks as usize;
    those_that_are(&[
        (count == 0, NO_RECORDS),
        (count < tasks, TOO_FEW),
        (count + 1 == tasks, ONE_TOO_FEW),
        (tasks < count && count <= TASKS, TOO_MANY),
        (count == tasks + 1, ONE_TOO_MANY),
        (count > TASKS, BEYOND),
        (count == TASKS + 1, ONE_BEYOND),
        (count == MOST_RECORDS, ALL_KEPT),
    ])
}

fn cases_of_task(plan: &Plan, records: &[Record], place: usize) -> Vec<Case> {
    let task = records[place].task;
    let absent = has_an_absent_task(plan, records, place);
    those_that_are(&[
        (absent, ABSENT_TASK),
        (u64::from(task) == plan.tasks, NEXT_TASK),
        (task == u32::MAX, TASK_OF_32_BITS),
        (!absent && repeats_a_task(plan, records, place), REPEATED_TASK),
    ])
}

fn cases_of_type_and_finish(plan: &Plan, record: &Record) -> Vec<Case> {
    let Record { start, finish, .. } = *record;
    let Some(worst) = worst(plan, record) else { return cases_of_type(plan, record) };
    let (sum, finish) = (u64::from(start) + u64::from(worst), u64::from(finish));
    let wrapped = sum == finish + (1 << u32::BITS);
    those_that_are(&[
        (true, WRONG_FINISH),
        (finish + 1 == sum, FINISH_BEFORE),
        (finish == sum + 1, FINISH_AFTER),
        (wrapped, WRAPPED),
        (wrapped && finish == 0, LEAST_WRAPPED),
    ])
}

fn cases_of_type(plan: &Plan, record: &Record) -> Vec<Case> {
    let Record { task, unit_type, start, finish } = *record;
    let absent = u64::from(unit_type) >= plan.types;
    let beyond = unit_type as usize >= TYPES;
    let there = plan.worst.get(pair(task as usize, unit_type as usize));
    let fits = |&time: &u32| time != 0 && start.checked_add(time) == Some(finish);
    those_that_are(&[
        (absent, ABSENT_TYPE),
        (u64::from(unit_type) == plan.types, NEXT_TYPE),
        (unit_type as usize == TYPES, NO_TYPE),
        (unit_type == u32::MAX, TYPE_OF_32_BITS),
        (!absent, UNUSABLE_TYPE),
        (!absent && start == finish, UNUSABLE_FOR_0),
        (beyond && there.is_some_and(fits), ANOTHERS_TIME),
    ])
}

fn cases_of_start(plan: &Plan, records: &[Record], place: usize) -> Vec<Case> {
    let Record { task, unit_type, start, .. } = records[place];
    let faults = |place: usize| {
        let faults = [starts_before_a_finish, starts_before_its_instant, finds_no_unit];
        faults.map(|fault| fault(plan, records, place))
    };
    let too_soon = faults(place) == [true, false, false];
    let before_instant = faults(place) == [false, true, false];
    let crowded = faults(place) == [false, false, true];
    let later = |before_instant: bool| {
        let fits = |faults: [bool; 3]| faults.contains(&true) && faults[1] == before_instant;
        (place + 1..records.len()).any(|other| fits(faults(other)))
    };
    let finish = latest_finish_before(plan, records, place).unwrap_or(0);
    let one_crowded = holders(records, place) == plan.units[unit_type as usize] as usize + 1;
    those_that_are(&[
        (too_soon, TOO_SOON),
        (too_soon && start + 1 == finish, ONE_TOO_SOON),
        (before_instant, BEFORE_INSTANT),
        (before_instant && start + 1 == plan.releases[task as usize], ONE_BEFORE_INSTANT),
        (crowded, CROWDED),
        (crowded && one_crowded, ONE_TOO_CROWDED),
        (before_instant && later(false), INSTANT_FIRST),
        (!faults(place)[1] && later(true), INSTANT_LATER),
    ])
}

/// Where the refused record stands, and what is wrong before it.
fn cases_of_place(plan: &Plan, records: &[Record], number: u64, place: usize) -> Vec<Case> {
    let count = records.len();
    let [first, last, last_of_all] = PLACES[number as usize - 20];
    let is_last = place + 1 == count;
    let mut cases = those_that_are(&[
        (count > 1 && place == 0, first),
        (count > 1 && is_last, last),
        (count == TASKS && is_last, last_of_all),
    ]);
    let before = |later| (0..place).any(|other| is_faulty(plan, records, later, other));
    let of_number = LATER_FAULTS.into_iter().filter(|(_, case)| case.0 == number);
    cases.extend(of_number.filter(|(later, _)| before(*later)).map(|(_, case)| case));
    cases
}

fn cases_of_accepted(plan: &Plan, records: &[Record]) -> Vec<Case> {
    let pairs = |so: fn(&Record, &Record) -> bool| {
        (0..records.len()).any(|p| records[p + 1..].iter().any(|after| so(&records[p], after)))
    };
    let some = |so: &dyn Fn(usize) -> bool| (0..records.len()).any(so);
    let units = |p: usize| plan.units[records[p].unit_type as usize] as usize;
    let held = |p: usize| holders(records, p) == units(p);
    let come_free = |p: usize| {
        let ended = |other: &Record| other.finish == records[p].start;
        records.iter().any(|other| other.unit_type == records[p].unit_type && ended(other))
    };
    let at_finish = |p: usize| latest_finish_before(plan, records, p) == Some(records[p].start);
    let release = |p: usize| plan.releases[records[p].task as usize];
    let at_instant = |p: usize| release(p) != 0 && release(p) == records[p].start;
    those_that_are(&[
        (records.len() == 1, ONE_RECORD),
        (records.len() == TASKS, ALL_TASKS),
        (pairs(|a, b| a.start == b.start), TIES),
        (pairs(|a, b| a.start == b.start && a.task > b.task), TIES_TURNED),
        (some(&|p| records[p].start == 0), START_OF_0),
        (some(&|p| records[p].start == u32::MAX - 1), LAST_START),
        (some(&|p| records[p].finish == u32::MAX), LAST_FINISH),
        (some(&|p| records[p].unit_type as usize == TYPES - 1), LAST_TYPE),
        (some(&at_finish), AT_THE_FINISH),
        (some(&at_instant), AT_ITS_INSTANT),
        (some(&|p| units(p) > 1 && held(p)), ALL_HELD),
        (some(&|p| held(p) && come_free(p)), TAKEN_OVER),
    ])
}

/// The case of this bound of an adopted list with this greatest finish.
pub fn case_of_bound(response: u32, finish: u32) -> Case {
    match response.cmp(&finish) {
        Ordering::Less => BOUND_BELOW,
        Ordering::Equal => BOUND_EQUAL,
        Ordering::Greater => BOUND_ABOVE,
    }
}

/// The case of a command that answers this number for an adopted list.
pub fn case_of_adopted(number: u64) -> Case {
    (number, OF_AN_ADOPTED)
}
