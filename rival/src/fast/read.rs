//! Reading a plan text byte by byte, without splitting it first.
use crate::limits::*;
use crate::plan::*;

/// Why a line is refused.
type Number = u64;

/// The kinds of lines, in the order in which they may follow each other.
#[derive(Clone, Copy, PartialEq, Eq, PartialOrd, Ord)]
enum Kind {
    U,
    T,
    A,
    D,
    N,
    C,
}

/// The text and how far it is read.
struct Cursor<'a> {
    text: &'a [u8],
    at: usize,
}

/// What was read so far.
struct Reading {
    plan: Plan,
    constraint: Constraint,
    kind: Kind,
    with_times: u64,
    /// The tasks that have an N line, which may say 0.
    with_release: u64,
    in_order: u64,
}

pub fn read(text: &[u8]) -> Result<(Plan, Constraint), Refusal> {
    if text.len() > LONGEST_TEXT {
        return refuse(1, 0);
    }
    let mut cursor = Cursor { text, at: 0 };
    let mut reading = Reading {
        plan: Plan::zero(),
        constraint: Constraint::zero(),
        kind: Kind::U,
        with_times: 0,
        with_release: 0,
        in_order: 0,
    };
    let mut place = 0;
    while let Some(letter) = cursor.next() {
        place += 1;
        if let Err(number) = reading.line(letter, &mut cursor) {
            return refuse(number, place);
        }
    }
    Ok((reading.plan, reading.constraint))
}

impl Cursor<'_> {
    fn next(&mut self) -> Option<u8> {
        let byte = *self.text.get(self.at)?;
        self.at += 1;
        Some(byte)
    }

    /// The value of the next byte if it is a digit.
    fn digit(&mut self) -> Option<usize> {
        let digit = self.text.get(self.at)?.wrapping_sub(b'0');
        if digit > 9 {
            return None;
        }
        self.at += 1;
        Some(digit as usize)
    }

    /// A tab and a number. After a first 0, or after as many digits as a field
    /// may have, one more is left standing, where the line has a tab or its end.
    fn field(&mut self) -> Option<usize> {
        if self.next()? != b'\t' {
            return None;
        }
        let mut value = self.digit()?;
        if value != 0 {
            for _ in 1..DIGITS {
                let Some(digit) = self.digit() else { break };
                value = value * 10 + digit;
            }
        }
        Some(value)
    }

    /// The fields of a line, up to its newline.
    fn fields<const N: usize>(&mut self) -> Result<[usize; N], Number> {
        let mut fields = [0; N];
        for field in &mut fields {
            *field = self.field().ok_or(2u64)?;
        }
        if self.next() == Some(b'\n') { Ok(fields) } else { Err(2) }
    }
}

fn number_if(wrong: bool, number: Number) -> Result<(), Number> {
    if wrong { Err(number) } else { Ok(()) }
}

impl Reading {
    fn line(&mut self, letter: u8, cursor: &mut Cursor) -> Result<(), Number> {
        match letter {
            b'U' => self.units(cursor.fields()?),
            b'T' => self.times(cursor.fields()?),
            b'A' => self.arrow(cursor.fields()?),
            b'D' => self.deadline(cursor.fields()?),
            b'N' => self.release(cursor.fields()?),
            b'C' => self.choice(cursor.fields()?),
            _ => Err(2),
        }
    }

    /// Refusal 5, or lines of this kind from now on.
    fn follows(&mut self, kind: Kind) -> Result<(), Number> {
        number_if(kind < self.kind, 5)?;
        self.kind = kind;
        Ok(())
    }

    fn units(&mut self, [kind, count]: [usize; 2]) -> Result<(), Number> {
        number_if(kind >= TYPES || !(1..=UNITS).contains(&count), 3)?;
        self.follows(Kind::U)?;
        number_if(kind as u64 != self.plan.types, 6)?;
        self.plan.units[kind] = count as u32;
        self.plan.types += 1;
        Ok(())
    }

    fn times(&mut self, [task, kind, best, worst]: [usize; 4]) -> Result<(), Number> {
        let is_time = |time| (1..=LONGEST_TIME as usize).contains(&time);
        number_if(task >= TASKS || kind >= TYPES || !is_time(best) || !is_time(worst), 3)?;
        number_if(worst < best, 4)?;
        self.follows(Kind::T)?;
        number_if(kind as u64 >= self.plan.types, 6)?;
        let at = pair(task, kind);
        number_if(self.plan.best[at] != 0, 7)?;
        self.plan.best[at] = best as u32;
        self.plan.worst[at] = worst as u32;
        self.plan.tasks = self.plan.tasks.max(task as u64 + 1);
        self.with_times |= 1 << task;
        Ok(())
    }

    fn arrow(&mut self, [from, to]: [usize; 2]) -> Result<(), Number> {
        number_if(from >= TASKS || to >= TASKS, 3)?;
        number_if(from == to, 4)?;
        self.follows(Kind::A)?;
        number_if(self.with_times >> from & self.with_times >> to & 1 == 0, 6)?;
        number_if(self.plan.predecessors[to] >> from & 1 == 1, 7)?;
        self.plan.predecessors[to] |= 1 << from;
        Ok(())
    }

    fn deadline(&mut self, [task, deadline]: [usize; 2]) -> Result<(), Number> {
        let is_deadline = (1..=LATEST_DEADLINE as usize).contains(&deadline);
        number_if(task >= TASKS || !is_deadline, 3)?;
        self.follows(Kind::D)?;
        number_if(self.with_times >> task & 1 == 0, 6)?;
        number_if(self.plan.deadlines[task] != 0, 7)?;
        self.plan.deadlines[task] = deadline as u32;
        Ok(())
    }

    fn release(&mut self, [task, release]: [usize; 2]) -> Result<(), Number> {
        number_if(task >= TASKS || release > LATEST_RELEASE as usize, 3)?;
        self.follows(Kind::N)?;
        number_if(self.with_times >> task & 1 == 0, 6)?;
        number_if(self.with_release >> task & 1 == 1, 7)?;
        self.plan.releases[task] = release as u32;
        self.with_release |= 1 << task;
        Ok(())
    }

    fn choice(&mut self, [task, kind]: [usize; 2]) -> Result<(), Number> {
        number_if(task >= TASKS || kind >= TYPES, 3)?;
        self.follows(Kind::C)?;
        number_if(self.with_times >> task & 1 == 0, 6)?;
        number_if(self.in_order >> task & 1 == 1, 7)?;
        let p = self.constraint.length as usize;
        self.constraint.task[p] = task as u64;
        self.constraint.kind[p] = kind as u64;
        self.constraint.length += 1;
        self.in_order |= 1 << task;
        Ok(())
    }
}
