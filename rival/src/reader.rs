//! Reading a plan text: refusals 1 to 7.
use crate::limits::*;
use crate::plan::*;

/// What was read so far.
struct Reading {
    plan: Plan,
    constraint: Constraint,
    kind: usize,
    with_times: u64,
    /// The tasks that have an N line, which may say 0.
    with_release: u64,
    in_order: u64,
}

/// The letters of the lines and their counts of fields, in the order in which lines may follow each
/// other.
pub const FORMS: [(u8, usize); 6] =
    [(b'U', 2), (b'T', 4), (b'A', 2), (b'D', 2), (b'N', 2), (b'C', 2)];
const U: usize = 0;
const T: usize = 1;
const A: usize = 2;
const D: usize = 3;
const N: usize = 4;

pub fn read(text: &[u8]) -> Result<(Plan, Constraint), Refusal> {
    if text.len() > LONGEST_TEXT {
        return refuse(1, 0);
    }
    let mut reading = Reading {
        plan: Plan::zero(),
        constraint: Constraint::zero(),
        kind: U,
        with_times: 0,
        with_release: 0,
        in_order: 0,
    };
    let mut rest = text;
    let mut place = 0;
    while !rest.is_empty() {
        place += 1;
        let Some(end) = rest.iter().position(|&b| b == b'\n') else {
            return refuse(2, place);
        };
        if let Err(number) = reading.line(&rest[..end]) {
            return refuse(number, place);
        }
        rest = &rest[end + 1..];
    }
    Ok((reading.plan, reading.constraint))
}

/// The kind of a line and its fields, or nothing if it has none of the forms.
pub fn form(line: &[u8]) -> Option<(usize, Vec<usize>)> {
    let mut parts = line.split(|&b| b == b'\t');
    let letter = parts.next()?;
    let kind = FORMS.iter().position(|f| letter == [f.0])?;
    let fields: Vec<usize> = parts.map(field).collect::<Option<_>>()?;
    (fields.len() == FORMS[kind].1).then_some((kind, fields))
}

/// At least one digit and not too many, no leading zero except for 0 itself.
pub fn field(bytes: &[u8]) -> Option<usize> {
    let leading_zero = bytes.len() > 1 && bytes[0] == b'0';
    if bytes.is_empty() || bytes.len() > DIGITS || leading_zero {
        return None;
    }
    if !bytes.iter().all(u8::is_ascii_digit) {
        return None;
    }
    Some(bytes.iter().fold(0, |n, b| n * 10 + (b - b'0') as usize))
}

pub fn in_range(kind: usize, f: &[usize]) -> bool {
    let (is_type, is_task) = (|n| n < TYPES, |n| n < TASKS);
    let is_time = |n| (1..=LONGEST_TIME as usize).contains(&n);
    let is_deadline = |n| (1..=LATEST_DEADLINE as usize).contains(&n);
    match kind {
        U => is_type(f[0]) && (1..=UNITS).contains(&f[1]),
        T => is_task(f[0]) && is_type(f[1]) && is_time(f[2]) && is_time(f[3]),
        A => is_task(f[0]) && is_task(f[1]),
        D => is_task(f[0]) && is_deadline(f[1]),
        N => is_task(f[0]) && f[1] <= LATEST_RELEASE as usize,
        _ => is_task(f[0]) && is_type(f[1]),
    }
}

impl Reading {
    /// Takes one line, or gives the number of its refusal.
    fn line(&mut self, line: &[u8]) -> Result<(), u64> {
        let (kind, f) = form(line).ok_or(2u64)?;
        if !in_range(kind, &f) {
            return Err(3);
        }
        if (kind == T && f[3] < f[2]) || (kind == A && f[0] == f[1]) {
            return Err(4);
        }
        if kind < self.kind {
            return Err(5);
        }
        if !self.known(kind, &f) {
            return Err(6);
        }
        if self.given_before(kind, &f) {
            return Err(7);
        }
        self.kind = kind;
        self.keep(kind, &f);
        Ok(())
    }

    fn has_times(&self, task: usize) -> bool {
        self.with_times >> task & 1 == 1
    }

    /// What refusal 6 asks for.
    fn known(&self, kind: usize, f: &[usize]) -> bool {
        let types = self.plan.types as usize;
        match kind {
            U => f[0] == types,
            T => f[1] < types,
            A => self.has_times(f[0]) && self.has_times(f[1]),
            _ => self.has_times(f[0]),
        }
    }

    fn given_before(&self, kind: usize, f: &[usize]) -> bool {
        match kind {
            U => false,
            T => self.plan.best[pair(f[0], f[1])] != 0,
            A => self.plan.predecessors[f[1]] >> f[0] & 1 == 1,
            D => self.plan.deadlines[f[0]] != 0,
            N => self.with_release >> f[0] & 1 == 1,
            _ => self.in_order >> f[0] & 1 == 1,
        }
    }

    fn keep(&mut self, kind: usize, f: &[usize]) {
        match kind {
            U => {
                self.plan.units[f[0]] = f[1] as u32;
                self.plan.types += 1;
            }
            T => {
                self.plan.best[pair(f[0], f[1])] = f[2] as u32;
                self.plan.worst[pair(f[0], f[1])] = f[3] as u32;
                self.plan.tasks = self.plan.tasks.max(f[0] as u64 + 1);
                self.with_times |= 1 << f[0];
            }
            A => self.plan.predecessors[f[1]] |= 1 << f[0],
            D => self.plan.deadlines[f[0]] = f[1] as u32,
            N => {
                self.plan.releases[f[0]] = f[1] as u32;
                self.with_release |= 1 << f[0];
            }
            _ => {
                let p = self.constraint.length as usize;
                self.constraint.task[p] = f[0] as u64;
                self.constraint.kind[p] = f[1] as u64;
                self.constraint.length += 1;
                self.in_order |= 1 << f[0];
            }
        }
    }
}
