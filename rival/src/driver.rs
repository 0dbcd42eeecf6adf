//! The driver: a text, then commands, one answer for each.
use crate::check::check;
use crate::limits::*;
use crate::margins::{margins, Margins};
use crate::plan::*;
use crate::propose::{proposal, Proposal};
use crate::reached::{Reached, Source, TEXT, TICKS_OF_Z};
use crate::reader::read;
use crate::run::Times;
use crate::schedule::{adopt, Record};
use crate::simulate::{bound, simulate};
use crate::state::{replay, start, State};
use crate::timetable::{of_worst_times, timetable};
use std::fmt::Display;

/// A line of this many bytes is answered `bad`, whatever it says.
pub const TOO_LONG: usize = 1_024;
/// Times of `M`.
pub const MOST_TIMES: usize = 80;
/// Times of `Y`, reports of `Z`.
pub const LONGEST_LIST: usize = 79;
/// Records of `E`, until `L` takes them.
pub const MOST_RECORDS: usize = 80;
/// Bytes that may be lent.
pub const MOST_ROOM: u64 = 2_000;

/// For a line without fields.
const NONE: [u64; 0] = [];

pub struct Driver {
    pub plan: Plan,
    pub constraint: Constraint,
    pub state: State,
    /// The list for the next `L`.
    pub records: Vec<Record>,
    /// What gave the constraint, as long as no `P` altered anything.
    pub source: Option<Source>,
    pub out: Vec<u8>,
    pub reached: Reached,
}

/// A number that `P` or `R` may put.
pub enum Slot<'a> {
    Short(&'a mut u32),
    Long(&'a mut u64),
}

impl Slot<'_> {
    pub fn get(&self) -> u64 {
        match self {
            Slot::Short(n) => **n as u64,
            Slot::Long(n) => **n,
        }
    }

    /// Puts a value; says whether it fits.
    fn put(self, value: u64) -> bool {
        match self {
            Slot::Long(n) => *n = value,
            Slot::Short(n) => match u32::try_from(value) {
                Ok(value) => *n = value,
                Err(_) => return false,
            },
        }
        true
    }
}

fn plan_slot<'a>(
    plan: &'a mut Plan,
    constraint: &'a mut Constraint,
    part: u64,
    index: usize,
) -> Option<Slot<'a>> {
    Some(match part {
        0 if index == 0 => Slot::Long(&mut plan.types),
        1 => Slot::Short(plan.units.get_mut(index)?),
        2 if index == 0 => Slot::Long(&mut plan.tasks),
        3 => Slot::Short(plan.best.get_mut(index)?),
        4 => Slot::Short(plan.worst.get_mut(index)?),
        5 => Slot::Long(plan.predecessors.get_mut(index)?),
        6 if index == 0 => Slot::Long(&mut constraint.length),
        7 => Slot::Long(constraint.task.get_mut(index)?),
        8 => Slot::Long(constraint.kind.get_mut(index)?),
        14 => Slot::Short(plan.deadlines.get_mut(index)?),
        15 => Slot::Short(plan.releases.get_mut(index)?),
        _ => return None,
    })
}

fn state_slot(state: &mut State, part: u64, index: usize) -> Option<Slot<'_>> {
    Some(match part {
        9 if index == 0 => Slot::Short(&mut state.instant),
        10 if index == 0 => Slot::Long(&mut state.started),
        11 if index == 0 => Slot::Long(&mut state.finished),
        12 => Slot::Short(state.starts.get_mut(index)?),
        13 => Slot::Short(state.finishes.get_mut(index)?),
        _ => return plan_slot(&mut state.plan, &mut state.constraint, part, index),
    })
}

/// 1 to 20 digits that fit 64 bits.
fn field(bytes: &[u8]) -> Option<u64> {
    let digits = (1..=20).contains(&bytes.len()) && bytes.iter().all(u8::is_ascii_digit);
    if !digits {
        return None;
    }
    std::str::from_utf8(bytes).ok()?.parse().ok()
}

fn short(fields: &[u64]) -> Option<Vec<u32>> {
    fields.iter().map(|&field| u32::try_from(field).ok()).collect()
}

/// Number and place; 0 and 0 for what is accepted.
fn number_and_place(refusal: Option<&Refusal>) -> [u64; 2] {
    refusal.map_or([0, 0], |refusal| [refusal.number, refusal.place])
}

impl Driver {
    /// Reads the text and answers for it.
    pub fn new(text: &[u8]) -> Driver {
        let mut driver = Driver {
            plan: Plan::zero(),
            constraint: Constraint::zero(),
            state: State::zero(),
            records: Vec::new(),
            source: None,
            out: Vec::new(),
            reached: Reached::default(),
        };
        let answer = read(text);
        driver.reached.note_text(text, &answer);
        driver.say(TEXT, "read", answer.as_ref().err(), &NONE);
        if let Ok((plan, constraint)) = answer {
            driver.plan = plan;
            driver.constraint = constraint;
        }
        driver
    }

    /// The number that a command `P` or `R` names.
    pub fn slot(&mut self, letter: u8, part: u64, index: u64) -> Option<Slot<'_>> {
        let index = usize::try_from(index).ok()?;
        match letter {
            b'P' => plan_slot(&mut self.plan, &mut self.constraint, part, index),
            _ => state_slot(&mut self.state, part, index),
        }
    }

    /// Carries out one line and answers it.
    pub fn command(&mut self, line: &[u8]) {
        if line.len() >= TOO_LONG || self.obey(line).is_none() {
            self.line("bad", &NONE);
        }
    }

    fn obey(&mut self, line: &[u8]) -> Option<()> {
        let mut parts = line.split(|&b| b == b'\t');
        let &[letter] = parts.next()? else { return None };
        let fields: Vec<u64> = parts.map(field).collect::<Option<_>>()?;
        match (letter, &fields[..]) {
            (b'K', []) => self.check(),
            (b'B', []) => self.bound(),
            (b'D', []) => self.margins(),
            (b'S', []) => self.start(),
            (b'Q', []) => self.query(),
            (b'E', &[task, kind, start, finish]) => self.put_record([task, kind, start, finish])?,
            (b'L', []) => self.adopt(),
            (b'H', []) => self.propose(),
            (b'M', times) if times.len() <= MOST_TIMES => self.simulate(&short(times)?),
            (b'T', &[report]) => self.tick(report),
            (b'W', &[room]) if room <= MOST_ROOM => self.worst_timetable(room as usize),
            (b'Y', [room, times @ ..]) if *room <= MOST_ROOM && times.len() <= LONGEST_LIST => {
                self.timetable(*room as usize, &short(times)?);
            }
            (b'Z', reports) if reports.len() <= LONGEST_LIST => self.replay(reports),
            (b'P' | b'R', &[part, index, value]) => {
                let fits = self.slot(letter, part, index)?.put(value);
                fits.then(|| self.line("put", &NONE))?;
                self.source.take_if(|_| letter == b'P');
            }
            _ => return None,
        }
        Some(())
    }

    fn line<T: Display>(&mut self, name: &str, fields: &[T]) {
        self.out.extend_from_slice(name.as_bytes());
        for field in fields {
            self.out.extend_from_slice(format!("\t{field}").as_bytes());
        }
        self.out.push(b'\n');
    }

    /// A line with number and place, then the other fields.
    fn say<T: Display>(
        &mut self,
        command: &'static str,
        name: &str,
        refusal: Option<&Refusal>,
        rest: &[T],
    ) {
        let [number, place] = number_and_place(refusal);
        self.reached.note(command, number);
        if number == 8 {
            self.reached.note_plan(command, &self.plan);
        }
        if self.is_on_a_proposal(command) {
            self.reached.note_on_proposal(command, number);
        }
        self.line(&format!("{name}\t{number}\t{place}"), rest);
    }

    /// The command takes the constraint of a proposal, or the state of a run of it.
    fn is_on_a_proposal(&self, command: &str) -> bool {
        let started = || self.state.plan == self.plan && self.state.constraint == self.constraint;
        let taken = match command {
            "D" | "M" | "S" | "W" | "Y" | "Z" => true,
            "T" => started(),
            _ => false,
        };
        taken && matches!(self.source, Some(Source::Proposal(_)))
    }

    fn check(&mut self) {
        let answer = check(&self.plan, &self.constraint);
        self.reached.note_source("K", self.source, &answer.map(|()| None));
        self.say("K", "check", answer.err().as_ref(), &NONE);
    }

    fn bound(&mut self) {
        let answer = bound(&self.plan, &self.constraint);
        if let Ok(run) = &answer {
            self.reached.note_bound("B", &self.plan, &self.constraint, run);
        }
        let answer = answer.map(|run| run.response);
        self.reached.note_source("B", self.source, &answer.map(Some));
        self.say("B", "bound", answer.err().as_ref(), &[answer.unwrap_or(0)]);
    }

    fn margins(&mut self) {
        let answer = margins(&self.plan, &self.constraint);
        let zero = Margins::zero();
        let Margins { any, least, task, margins } = answer.as_ref().unwrap_or(&zero);
        let mut rest = vec![i64::from(*any), *least, *task as i64];
        rest.extend(margins);
        if let Ok(margins) = &answer {
            self.reached.note_margins("D", &self.plan, margins);
        }
        self.say("D", "margins", answer.as_ref().err(), &rest);
    }

    fn simulate(&mut self, times: &[u32]) {
        let answer = simulate(&self.plan, &self.constraint, times);
        let zero = Times::zero();
        let run = answer.as_ref().unwrap_or(&zero);
        let mut rest = vec![run.response as u64];
        rest.extend(starts_and_finishes(&run.starts, &run.finishes));
        self.reached.note_times("M", &self.plan, &self.constraint, times, &answer);
        if let Ok(run) = &answer {
            self.reached.note_run("M", &self.plan, &self.constraint, run);
        }
        self.say("M", "simulate", answer.as_ref().err(), &rest);
    }

    fn start(&mut self) {
        let (state, answer) = start(&self.plan, &self.constraint);
        self.state = state;
        if let Ok(started) = answer {
            self.reached.note_walk("S", &self.state, 0, started);
        }
        self.say("S", "start", answer.err().as_ref(), &[answer.unwrap_or(0)]);
    }

    fn tick(&mut self, report: u64) {
        let state = std::mem::replace(&mut self.state, State::zero());
        let instant = state.instant;
        let (state, answer) = state.tick(report);
        self.state = state;
        self.reached.note_instant("T", instant, &self.state, &answer);
        self.reached.note_tick("T", &self.state, instant, report, &answer);
        self.say("T", "tick", answer.err().as_ref(), &[answer.unwrap_or(0)]);
    }

    fn query(&mut self) {
        let s = &self.state;
        let mut fields = vec![s.instant as u64, s.started, s.finished];
        fields.extend(starts_and_finishes(&s.starts, &s.finishes));
        self.line("state", &fields);
    }

    /// One more record for the list; nothing if there is no room or a field does not fit.
    fn put_record(&mut self, fields: [u64; 4]) -> Option<()> {
        let kept = self.records.len();
        let fitting = short(&fields).filter(|_| kept < MOST_RECORDS);
        self.reached.note_record(&fields, kept, fitting.is_some());
        let &[task, unit_type, start, finish] = &fitting?[..] else { return None };
        self.records.push(Record { task, unit_type, start, finish });
        self.line("put", &NONE);
        Some(())
    }

    /// Takes the list. A refusal leaves the kept constraint alone.
    fn adopt(&mut self) {
        let records = std::mem::take(&mut self.records);
        let answer = adopt(&self.plan, &records);
        self.reached.note_list("L", &self.plan, &records, &answer);
        self.say("L", "adopt", answer.as_ref().err(), &length_and_entries(&answer));
        if let Ok(constraint) = answer {
            self.constraint = constraint;
            self.source = records.iter().map(|record| record.finish).max().map(Source::List);
        }
    }

    /// A refusal leaves the kept constraint alone.
    fn propose(&mut self) {
        let proposal = proposal(&self.plan);
        self.reached.note_proposal("H", &self.plan, &proposal);
        let answer = proposal.as_ref().map(Proposal::constraint).map_err(|refusal| *refusal);
        self.say("H", "propose", answer.as_ref().err(), &length_and_entries(&answer));
        if let (Ok(proposal), Ok(constraint)) = (proposal, answer) {
            self.constraint = constraint;
            self.source = Some(Source::Proposal(proposal.greatest_finish()));
        }
    }

    fn worst_timetable(&mut self, room: usize) {
        let mut buffer = vec![b'#'; room];
        let answer = of_worst_times(&self.plan, &self.constraint, &mut buffer);
        self.say_timetable("W", answer, &buffer);
    }

    fn timetable(&mut self, room: usize, times: &[u32]) {
        let mut buffer = vec![b'#'; room];
        let answer = timetable(&self.plan, &self.constraint, times, &mut buffer);
        self.reached.note_times("Y", &self.plan, &self.constraint, times, &answer);
        self.say_timetable("Y", answer, &buffer);
    }

    fn say_timetable(
        &mut self,
        command: &'static str,
        answer: Result<u64, Refusal>,
        buffer: &[u8],
    ) {
        self.reached.note_timetable(command, &answer, buffer.len());
        self.say(command, "timetable", answer.err().as_ref(), &[answer.unwrap_or(0)]);
        self.out.extend_from_slice(buffer);
        self.out.push(b'\n');
    }

    /// Leaves the kept state alone.
    fn replay(&mut self, reports: &[u64]) {
        let (state, answer) = replay(&self.plan, &self.constraint, reports);
        let (mut started, mut ticks, mut instant) = (0, Vec::new(), 0);
        if let Ok(replayed) = &answer {
            started = replayed.started;
            for (&report, tick) in reports.iter().zip(&replayed.ticks) {
                let [number, place] = number_and_place(tick.err().as_ref());
                self.reached.note(TICKS_OF_Z, number);
                self.reached.note_tick(TICKS_OF_Z, &state, instant, report, tick);
                instant += u32::from(tick.is_ok());
                ticks.extend([number, place, tick.unwrap_or(0)]);
            }
        }
        self.say("Z", "replay", answer.err().as_ref(), &[&[started], &ticks[..]].concat());
    }
}

/// Start and finish of task 0, of task 1, and so on.
fn starts_and_finishes(starts: &[u32; TASKS], finishes: &[u32; TASKS]) -> Vec<u64> {
    (0..TASKS).flat_map(|t| [starts[t] as u64, finishes[t] as u64]).collect()
}

/// The length of a constraint, then task and type of each of its entries; zeros for a refusal.
fn length_and_entries(answer: &Result<Constraint, Refusal>) -> Vec<u64> {
    let zero = Constraint::zero();
    let Constraint { length, task, kind } = answer.as_ref().unwrap_or(&zero);
    let entries = (0..TASKS).flat_map(|p| [task[p], kind[p]]);
    [*length].into_iter().chain(entries).collect()
}

/// A whole session: a line with the count of bytes, the text, the commands.
/// A first line that is no count is answered `bad`, and nothing else is done.
pub fn session(input: &[u8]) -> Driver {
    let end = input.iter().position(|&b| b == b'\n').unwrap_or(input.len());
    let Some(count) = field(&input[..end]) else {
        let mut driver = Driver::new(&[]);
        driver.out = b"bad\n".to_vec();
        return driver;
    };
    let rest = input.get(end + 1..).unwrap_or(&[]);
    let (text, commands) = rest.split_at(rest.len().min(count as usize));
    let mut driver = Driver::new(text);
    let mut lines: Vec<&[u8]> = commands.split(|&b| b == b'\n').collect();
    // After the last newline there is no line; without it, one if not empty.
    lines.pop_if(|last| last.is_empty());
    for line in lines {
        driver.command(line);
    }
    driver
}
