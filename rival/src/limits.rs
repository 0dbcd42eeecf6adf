//! The limits of documents 01 and 02, each named once; what follows from others is worked out.

/// Types of units in a plan.
pub const TYPES: usize = 8;

/// Units of one type.
pub const UNITS: usize = 8;

pub const TASKS: usize = 64;

/// A pair of best and worst for each task with each type.
pub const PAIRS: usize = TASKS * TYPES;

/// In ticks. Every time from 1 to this one may stand in a plan.
pub const LONGEST_TIME: u32 = 1_000_000;

/// Every instant from 1 to this one may be a deadline.
pub const LATEST_DEADLINE: u32 = LONGEST_TIME;

/// Every instant from 0 to this one may be the earliest at which a task may start.
pub const LATEST_RELEASE: u32 = 1_000_000;

/// Of a task that finishes last of all and has the earliest deadline.
pub const LEAST_MARGIN: i64 = 1 - LAST_INSTANT as i64;

/// Of a task that finishes first of all and has the latest deadline.
pub const GREATEST_MARGIN: i64 = LATEST_DEADLINE as i64 - 1;

/// Of a field of a plan text.
pub const DIGITS: usize = 7;

/// No sound state is later, and no sound state with an unfinished task is as late: by then the
/// latest not-before instant has come and, after it, all tasks have run, one after the other, each
/// as long as may be.
pub const LAST_INSTANT: u32 = LATEST_RELEASE + TASKS as u32 * LONGEST_TIME;

/// In bytes.
pub const LONGEST_TEXT: usize = 32_768;

/// In bytes. Of the run that ends at the last instant.
pub const LONGEST_TIMETABLE: usize = longest_timetable();

const fn longest_timetable() -> usize {
    let mut bytes = "R\t\n".len() + width(LAST_INSTANT);
    let mut task = 0;
    while task < TASKS as u32 {
        let start = LATEST_RELEASE + task * LONGEST_TIME;
        let instants = width(start) + width(start + LONGEST_TIME);
        bytes += width(task) + width(TYPES as u32 - 1) + instants + "\t\t\t\n".len();
        task += 1;
    }
    bytes
}

/// The decimal digits of a number.
const fn width(number: u32) -> usize {
    if number == 0 { 1 } else { number.ilog10() as usize + 1 }
}
