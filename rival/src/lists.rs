//! Random lists of records for a plan: right ones, and others that are wrong on purpose.
use crate::check::keeps_the_rules;
use crate::driver::MOST_RECORDS;
use crate::inputs::EDGES;
use crate::limits::*;
use crate::plan::*;
use crate::random::Random;
use crate::schedule::{adopt, Record};

/// Task, type, start and finish of a record, as a line has them: perhaps with more than 32 bits.
pub type Row = [u64; 4];

const TASK: usize = 0;
const TYPE: usize = 1;
const START: usize = 2;
const FINISH: usize = 3;

/// One above the greatest number of 32 bits.
const BEYOND: u64 = 1 << u32::BITS;

/// A list: right as it is, or with a fault or a few.
pub fn list(random: &mut Random, plan: &Plan) -> Vec<Row> {
    let mut rows = match right(random, plan) {
        Some(records) => records.into_iter().map(row).collect(),
        None => any_list(random, plan),
    };
    for _ in 0..random.pick(&[0, 0, 0, 1, 1, 1, 1, 2, 3]) {
        damage(random, plan, &mut rows);
    }
    if random.once_in(2) {
        put_last(plan, &mut rows);
    }
    rows
}

/// Makes the record that is refused the last; if no other is faulty, its place is the last then.
fn put_last(plan: &Plan, rows: &mut [Row]) {
    let records = records(rows);
    let Err(Refusal { place, .. }) = adopt(plan, &records) else { return };
    let (place, count) = (place as usize, rows.len());
    if records.len() == count && place < count {
        rows.swap(place, count - 1);
    }
}

fn row(record: Record) -> Row {
    let Record { task, unit_type, start, finish } = record;
    [task, unit_type, start, finish].map(u64::from)
}

/// The records of those rows that fit.
pub fn records(rows: &[Row]) -> Vec<Record> {
    let record = |row: &Row| {
        let [task, unit_type, start, finish] = row.map(|number| u32::try_from(number).ok());
        Some(Record { task: task?, unit_type: unit_type?, start: start?, finish: finish? })
    };
    rows.iter().filter_map(record).collect()
}

/// A list in any order that is accepted; none if the plan breaks a rule or its arrows lead from
/// some task back to itself.
pub fn right(random: &mut Random, plan: &Plan) -> Option<Vec<Record>> {
    if !keeps_the_rules(plan) {
        return None;
    }
    let order = legal_order(random, plan)?;
    let mut list = placed(random, plan, &order);
    random.shuffle(&mut list);
    match random.below(6) {
        0 | 1 => all_later(random, &mut list),
        2 => one_later(random, plan, &mut list),
        _ => {}
    }
    Some(list)
}

/// All tasks, each after its predecessors.
fn legal_order(random: &mut Random, plan: &Plan) -> Option<Vec<usize>> {
    let (mut order, mut set) = (Vec::new(), 0u64);
    while set != first_tasks(plan.tasks) {
        let others = members(first_tasks(plan.tasks) & !set);
        let next: Vec<usize> = others.filter(|&t| plan.predecessors[t] & !set == 0).collect();
        if next.is_empty() {
            return None;
        }
        let task = random.pick(&next);
        order.push(task);
        set |= 1 << task;
    }
    Some(order)
}

/// Each task on a usable type, once its instant has come, its predecessors are done and, perhaps
/// after a delay, a unit is free as long as the task holds it.
fn placed(random: &mut Random, plan: &Plan, order: &[usize]) -> Vec<Record> {
    let delays = random.pick(&[1, 1, 1, 3, 50, u64::from(LONGEST_TIME)]);
    let rarity = random.pick(&[1, 3, 9]);
    let (mut list, mut finishes) = (Vec::new(), [0; TASKS]);
    for &task in order {
        let usable: Vec<usize> = (0..TYPES).filter(|&y| plan.best[pair(task, y)] != 0).collect();
        let unit_type = random.pick(&usable);
        let before = members(plan.predecessors[task]).map(|p| finishes[p]);
        let from = before.fold(plan.releases[task], u32::max);
        let delay = if random.once_in(rarity) { random.below(delays) as u32 } else { 0 };
        let record = earliest(plan, &list, task, unit_type, from + delay);
        finishes[task] = record.finish;
        list.push(record);
    }
    list
}

/// From this instant on. A unit is free then, or comes free when some task finishes.
fn earliest(plan: &Plan, list: &[Record], task: usize, unit_type: usize, from: u32) -> Record {
    let worst = plan.worst[pair(task, unit_type)];
    let (task, unit_type) = (task as u32, unit_type as u32);
    let at = |start| Record { task, unit_type, start, finish: start + worst };
    let others = list.iter().filter(|other| other.unit_type == unit_type);
    let mut starts: Vec<u32> = others.map(|other| other.finish).filter(|f| *f > from).collect();
    starts.push(from);
    starts.sort_unstable();
    let mut records = starts.into_iter().map(at);
    records.find(|record| fits(plan, list, record)).expect("a unit that comes free")
}

/// A unit of the type is free from the start up to the finish.
fn fits(plan: &Plan, list: &[Record], record: &Record) -> bool {
    let others = || list.iter().filter(|other| other.unit_type == record.unit_type);
    let units = plan.units[record.unit_type as usize] as usize;
    let full = |instant| others().filter(|other| other.holds_at(instant)).count() >= units;
    let starts = others().map(|other| other.start).filter(|start| record.holds_at(*start));
    !full(record.start) && !starts.into_iter().any(full)
}

/// By a constant, often such that the last finish is the last number of 32 bits.
fn all_later(random: &mut Random, list: &mut [Record]) {
    let room = list.iter().map(|record| u32::MAX - record.finish).min().unwrap_or(0);
    let any = random.below(u64::from(room) + 1) as u32;
    let by = random.pick(&[1, 7, any, room - 1, room, room, room]);
    for record in list {
        record.start += by;
        record.finish += by;
    }
}

/// A single task, if the list is still right then.
fn one_later(random: &mut Random, plan: &Plan, list: &mut Vec<Record>) {
    let mut other = list.clone();
    let record = &mut other[random.below(plan.tasks) as usize];
    let room = u32::MAX - record.finish;
    let by = random.pick(&[1, 2, 5, room]);
    record.start += by;
    record.finish += by;
    if adopt(plan, &other).is_ok() {
        *list = other;
    }
}

/// About as many rows as tasks, each on a usable type and as long as its task takes.
fn any_list(random: &mut Random, plan: &Plan) -> Vec<Row> {
    let tasks = plan.tasks.min(MOST_RECORDS as u64);
    let few = random.below(4);
    let count = random.pick(&[tasks, tasks, few]);
    let row = |task: u64| {
        let usable = |y: &u64| worst(plan, &[task, *y, 0, 0]) != 0;
        let unit_type = (0..TYPES as u64).find(usable).unwrap_or(0);
        let start = random.below(9);
        moved(plan, &[task, unit_type, 0, 0], start)
    };
    (0..count).map(row).collect()
}

/// What the plan keeps where the pair would stand; 0 if it would stand nowhere.
fn worst(plan: &Plan, row: &Row) -> u64 {
    let at = row[TASK].saturating_mul(TYPES as u64).saturating_add(row[TYPE]);
    plan.worst.get(at as usize).map_or(0, |&worst| worst.into())
}

/// The same task from another start on.
fn moved(plan: &Plan, row: &Row, start: u64) -> Row {
    [row[TASK], row[TYPE], start, start + worst(plan, row)]
}

/// Makes something wrong, or at least something else.
fn damage(random: &mut Random, plan: &Plan, rows: &mut Vec<Row>) {
    if rows.is_empty() {
        return;
    }
    let last = rows.len() - 1;
    let any = random.from(0, last as u64) as usize;
    let at = random.pick(&[0, any, any, last]);
    match random.below(18) {
        0..=3 => rows[at] = other_number(random, &rows[at]),
        4 => rows[at] = wrapped(random, plan, &rows[at]),
        5 => rows[at][TASK] = other_task(random, plan, rows),
        6 | 7 => rows[at] = other_type(random, plan, &rows[at]),
        8..=11 if random.once_in(2) => before_instant(random, plan, rows, at),
        8..=11 => too_soon(random, plan, rows, at),
        12..=14 => crowded(random, plan, rows, at),
        15 => {
            let start = (rows[at][START] + 1).saturating_sub(2 * random.below(2));
            rows[at] = moved(plan, &rows[at], start);
        }
        _ => other_count(random, rows),
    }
}

/// Another number in one field: one more or less, far from it, or the same in its 32 bits.
fn other_number(random: &mut Random, row: &Row) -> Row {
    let mut row = *row;
    let field = &mut row[random.below(4) as usize];
    let less = field.checked_sub(1).unwrap_or(u32::MAX.into());
    let (more, greatest, edge) = (*field + 1, u32::MAX.into(), random.pick(&EDGES));
    let far = random.pick(&[0, greatest, greatest, edge, *field | BEYOND, BEYOND]);
    *field = random.pick(&[more, less, far, far]);
    row
}

/// A start so late that start plus worst, in 32 bits, is the finish only after it wrapped.
fn wrapped(random: &mut Random, plan: &Plan, row: &Row) -> Row {
    let worst = worst(plan, row).max(1);
    let any = random.from(1, worst);
    let start = BEYOND - random.pick(&[1, any, worst]);
    [row[TASK], row[TYPE], start, (start + worst) % BEYOND]
}

/// A task that is absent or that another row has.
fn other_task(random: &mut Random, plan: &Plan, rows: &[Row]) -> u64 {
    let other = random.pick(rows)[TASK];
    random.pick(&[other, other, plan.tasks.min(BEYOND), TASKS as u64, u32::MAX.into()])
}

/// Mostly a type that the task cannot use, with a finish that fits what the plan keeps there.
fn other_type(random: &mut Random, plan: &Plan, row: &Row) -> Row {
    let with = |y: u64| [row[TASK], y, row[START], row[FINISH]];
    let unusable: Vec<u64> = (0..TYPES as u64).filter(|&y| worst(plan, &with(y)) == 0).collect();
    let beyond = TYPES as u64;
    let absent = random.pick(&[plan.types.min(BEYOND), beyond, beyond, u32::MAX.into()]);
    let any = random.below(TYPES as u64);
    let unusable = if unusable.is_empty() { absent } else { random.pick(&unusable) };
    let row = with(random.pick(&[unusable, unusable, absent, any]));
    if random.once_in(3) { row } else { moved(plan, &row, row[START]) }
}

/// Makes a row that is brought to this place wrong.
type Damage = fn(&mut Random, &Plan, &mut [Row], usize);

/// Brings a row with predecessors here, and its start before their last finish, mostly by one.
fn too_soon(random: &mut Random, plan: &Plan, rows: &mut [Row], at: usize) {
    let set = |row: &Row| plan.predecessors.get(row[TASK] as usize).copied().unwrap_or(0);
    let precedes = |a: &Row, b: &Row| a[TASK] < TASKS as u64 && set(b) >> a[TASK] & 1 == 1;
    let finish = |row: &Row| {
        rows.iter().filter(|other| precedes(other, row)).map(|other| other[FINISH]).max()
    };
    let waiting: Vec<(usize, u64)> =
        (0..rows.len()).filter_map(|p| Some((p, finish(&rows[p])?))).collect();
    if waiting.is_empty() {
        return;
    }
    let (p, finish) = random.pick(&waiting);
    let any = random.below(finish);
    let start = random.pick(&[finish.saturating_sub(1), any]);
    rows.swap(p, at);
    rows[at] = moved(plan, &rows[at], start);
}

/// Brings a row whose task has a not-before instant here, and its start before that, mostly by one;
/// or to the first place, with another fault in the last. Without instants, a finish will do.
fn before_instant(random: &mut Random, plan: &Plan, rows: &mut [Row], at: usize) {
    let release = |row: &Row| plan.releases.get(row[TASK] as usize).map_or(0, |&r| r.into());
    let releases = rows.iter().map(release).enumerate();
    let held: Vec<(usize, u64)> = releases.filter(|(_, release)| *release > 0).collect();
    if held.is_empty() {
        return too_soon(random, plan, rows, at);
    }
    let (p, release) = random.pick(&held);
    let any = random.below(release);
    let other: Option<Damage> = random.pick(&[None, Some(too_soon), Some(crowded)]);
    let (at, last) = (if other.is_some() { 0 } else { at }, rows.len() - 1);
    rows.swap(p, at);
    rows[at] = moved(plan, &rows[at], random.pick(&[release - 1, release - 1, any]));
    if let Some(damage) = other {
        damage(random, plan, rows, last);
    }
}

/// Brings a row here, and its start to an instant at which others hold all units of its type.
fn crowded(random: &mut Random, plan: &Plan, rows: &mut [Row], at: usize) {
    let holds = |row: &Row, (y, instant)| {
        row[TYPE] == y && row[START] <= instant && instant < row[FINISH]
    };
    let full = |&(y, instant): &(u64, u64)| {
        let units = plan.units.get(y as usize).map_or(0, |&units| units as usize);
        rows.iter().filter(|row| holds(row, (y, instant))).count() >= units
    };
    let field = random.pick(&[START, FINISH]);
    let instant = |row: &Row| row[field].saturating_sub(u64::from(field == FINISH));
    let held = rows.iter().map(|row| (row[TYPE], instant(row)));
    let held: Vec<(u64, u64)> = held.filter(full).collect();
    if held.is_empty() {
        return;
    }
    let (y, instant) = random.pick(&held);
    let free = |p: &usize| rows[*p][TYPE] == y && !holds(&rows[*p], (y, instant));
    let others: Vec<usize> = (0..rows.len()).filter(free).collect();
    if others.is_empty() {
        return;
    }
    rows.swap(random.pick(&others), at);
    let early = random.below(worst(plan, &rows[at]));
    rows[at] = moved(plan, &rows[at], instant.saturating_sub(random.pick(&[0, 0, early])));
}

/// Some rows more or fewer.
fn other_count(random: &mut Random, rows: &mut Vec<Row>) {
    let (count, most) = (rows.len(), MOST_RECORDS);
    let fewer = random.below(count as u64) as usize;
    let more = random.from(count as u64, most as u64 + 2) as usize;
    let near = random.pick(&[count - 1, count + 1]);
    let other = random.pick(&[0, fewer, TASKS, TASKS + 1, more, most, most + 1]);
    let count = random.pick(&[near, near, other, other, other]);
    let start = random.below(rows.len() as u64) as usize;
    rows.rotate_left(start);
    while rows.len() < count {
        rows.push(random.pick(rows));
    }
    rows.truncate(count);
}
