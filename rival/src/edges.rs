//! Numbers at the ends of what is allowed, and about the end of 16 bits, which a longer time does
//! not fit.
use crate::limits::*;

pub const SIXTEEN_BITS: u32 = u16::MAX as u32;

pub const TIMES: [u32; 5] = up_to(LONGEST_TIME);

pub const DEADLINES: [u32; 5] = up_to(LATEST_DEADLINE);

/// 0, which is allowed too, says what no line says.
pub const RELEASES: [u32; 5] = up_to(LATEST_RELEASE);

/// All from 1 to the last.
const fn up_to(last: u32) -> [u32; 5] {
    [1, SIXTEEN_BITS, SIXTEEN_BITS + 1, last - 1, last]
}

/// The end of a run in which all times are the greatest of 16 bits, then those about the last.
pub const INSTANTS: [u32; 4] =
    [TASKS as u32 * SIXTEEN_BITS, LAST_INSTANT - 1, LAST_INSTANT, LAST_INSTANT + 1];
