//! Random driver sessions. A driver of our own is led along, so that most
//! commands are legal and the others are wrong on purpose.
use crate::driver::{Driver, LONGEST_LIST, MOST_ROOM, MOST_TIMES, TOO_LONG};
use crate::edges;
use crate::inputs::{self, EDGES};
use crate::limits::*;
use crate::lists;
use crate::plan::*;
use crate::proposals;
use crate::random::Random;
use crate::simulate::{bound, worst_times};
use crate::texts;
use crate::timetable::text;

pub struct Session {
    random: Random,
    driver: Driver,
    commands: Vec<u8>,
    pub count: u64,
}

/// The input of one session.
pub fn session(seed: u64, number: u64) -> (Vec<u8>, u64) {
    let mut random = Random::new(seed.wrapping_mul(0x1_0000_0001).wrapping_add(number << 20));
    let text = texts::text(&mut random);
    let driver = Driver::new(&text);
    let mut session = Session { random, driver, commands: Vec::new(), count: 0 };
    session.write_commands();
    let mut input = format!("{}\n", text.len()).into_bytes();
    input.extend_from_slice(&text);
    input.extend_from_slice(&session.commands);
    if session.random.once_in(20) {
        input.pop_if(|last| *last == b'\n');
    }
    (input, session.count)
}

/// The pair that `P` or `R` would alter.
fn times_of(driver: &Driver, letter: char, at: usize) -> (u32, u32) {
    let plan = if letter == 'P' { &driver.plan } else { &driver.state.plan };
    (plan.best[at], plan.worst[at])
}

impl Session {
    fn give(&mut self, line: &str) {
        self.driver.command(line.as_bytes());
        self.commands.extend_from_slice(line.as_bytes());
        self.commands.push(b'\n');
        self.count += 1;
    }

    fn write_commands(&mut self) {
        self.give("K");
        self.give("D");
        let has_order = self.driver.constraint.length > 0;
        if self.random.once_in(if has_order { 6 } else { 1 }) {
            self.propose();
        }
        let accepted = crate::check::check(&self.driver.plan, &self.driver.constraint).is_ok();
        if self.random.once_in(2) || accepted {
            self.give("S");
        }
        self.longest_run();
        // In every third session about half of the commands are timetables of given times and replays.
        let kinds = if self.random.once_in(3) { 39 } else { 27 };
        for _ in 0..if accepted { self.random.from(6, 30) } else { 4 } {
            let kind = self.random.below(kinds);
            self.write_some(kind);
        }
        if accepted && self.random.once_in(2) {
            self.to_the_end();
            if self.random.once_in(3) {
                self.late_instants();
            }
        }
        self.give("Q");
    }

    /// A command or a few, by their kind.
    fn write_some(&mut self, kind: u64) {
        match kind {
            0 => self.give("B"),
            1 | 2 => self.simulate(),
            3 => self.worst_timetable(),
            4 if self.random.once_in(5) => self.alter_pair(),
            4 => self.alter_plan(),
            5 if self.random.once_in(2) => self.early_start(),
            5 | 6 => self.alter_state(),
            7 => self.give("Q"),
            8 => self.odd_line(),
            9 if self.random.once_in(3) => self.late_instants(),
            9 | 23 => self.alter_release(),
            10 => self.give("S"),
            11..=13 => self.ticks(),
            14 => self.alter_order(),
            15 | 27..=32 => self.timetable(),
            17 => self.give("D"),
            18 if self.random.once_in(3) => self.alter_worst(),
            18 | 19 => self.alter_deadline(),
            20..=22 => self.adopt(),
            24 | 25 => self.propose(),
            26 => self.circle(),
            _ => self.replay(),
        }
    }

    /// A command with a list of numbers after its other fields.
    fn give_list(&mut self, command: &str, list: &[u64]) {
        let fields: String = list.iter().map(|n| format!("\t{n}")).collect();
        self.give(&format!("{command}{fields}"));
    }

    fn simulate(&mut self) {
        let Driver { plan, constraint, .. } = &self.driver;
        let times = inputs::times(&mut self.random, plan, constraint);
        self.give_list("M", &times);
    }

    fn worst_timetable(&mut self) {
        let Driver { plan, constraint, .. } = &self.driver;
        let worst = bound(plan, constraint).map(|_| worst_times(plan, constraint));
        let room = self.room(&worst.unwrap_or_default());
        self.give(&format!("W\t{room}"));
    }

    fn timetable(&mut self) {
        let Driver { plan, constraint, .. } = &self.driver;
        let times = inputs::times(&mut self.random, plan, constraint);
        let short: Vec<u32> = times.iter().map(|&time| time as u32).collect();
        let room = self.room(&short);
        self.give_list(&format!("Y\t{room}"), &times);
    }

    /// For a plan whose run may end at the last instant: its timetable, which no other is longer
    /// than, into as many bytes or one too few; or a time one above the longest.
    fn longest_run(&mut self) {
        let Driver { plan, constraint, .. } = &self.driver;
        if bound(plan, constraint).map_or(0, |run| run.response) != LAST_INSTANT {
            return;
        }
        let worst = vec![u64::from(LONGEST_TIME); TASKS];
        let mut above = worst.clone();
        above[self.random.below(TASKS as u64) as usize] += 1;
        for _ in 0..3 {
            let room = LONGEST_TIMETABLE as u64 - self.random.below(2);
            match self.random.below(6) {
                0 | 1 => self.give(&format!("W\t{room}")),
                2 | 3 => self.give_list(&format!("Y\t{room}"), &worst),
                4 => self.give_list("M", &above),
                _ => self.give_list(&format!("Y\t{room}"), &above),
            }
        }
    }

    fn replay(&mut self) {
        let Driver { plan, constraint, .. } = &self.driver;
        let reports = inputs::reports(&mut self.random, plan, constraint);
        self.give_list("Z", &reports);
    }

    /// A list and `L`, now and then with something in between; then the bound of what was adopted.
    fn adopt(&mut self) {
        if !self.driver.records.is_empty() && !self.random.once_in(6) {
            self.give("L");
        }
        self.put_records();
        match self.random.below(12) {
            0 => self.ticks(),
            1 => self.ask(),
            _ => {}
        }
        self.give("L");
        self.ask_for_bound();
    }

    /// The bound of what was adopted or proposed, and perhaps more of it.
    fn ask_for_bound(&mut self) {
        if self.driver.source.is_none() {
            return;
        }
        self.give("B");
        match self.random.below(4) {
            0 => self.give("K"),
            1 => self.ask(),
            _ => {}
        }
    }

    /// A proposal, then its bound; now and then some ticks of it.
    fn propose(&mut self) {
        self.give("H");
        self.ask_for_bound();
        if self.random.once_in(3) {
            self.give("S");
            self.ticks();
        }
    }

    /// Arrows in a circle for a while, or one from a task to itself, perhaps with another fault in
    /// the plan.
    fn circle(&mut self) {
        let (before, mut after) = (self.driver.plan.clone(), self.driver.plan.clone());
        if after.tasks > TASKS as u64 {
            return;
        }
        match self.random.below(5) {
            0 => {
                let task = self.random.below(after.tasks);
                after.predecessors[task as usize] |= 1 << task;
            }
            _ => proposals::add_circle(&mut self.random, &mut after),
        }
        self.put_arrows(&before, &after);
        let fault = self.random.once_in(3).then(|| self.put('P', &[0, 1, 2, 3, 4, 14, 15]));
        self.give("H");
        if self.random.once_in(3) {
            self.ask();
        }
        if let Some(back) = fault.flatten() {
            self.give(&back);
        }
        self.put_arrows(&after, &before);
    }

    /// Puts the arrows of the second plan in place of those of the first.
    fn put_arrows(&mut self, old: &Plan, new: &Plan) {
        let (old, new) = (&old.predecessors, &new.predecessors);
        for t in (0..TASKS).filter(|&t| old[t] != new[t]) {
            self.give(&format!("P\t5\t{t}\t{}", new[t]));
        }
    }

    /// The records of a list for the kept plan.
    fn put_records(&mut self) {
        for row in lists::list(&mut self.random, &self.driver.plan) {
            self.give_list("E", &row);
        }
    }

    /// Room around what the timetable of these times needs, or none, or any.
    fn room(&mut self, times: &[u32]) -> u64 {
        let Driver { plan, constraint, .. } = &self.driver;
        let needed = text(plan, constraint, times).map_or(10, |text| text.len() as u64);
        let any = self.random.below(MOST_ROOM + 2);
        self.random.pick(&[needed, needed, needed - 1, needed + 1, needed + 7, 0, any])
    }

    /// The kept plan's tasks and types, within the limits.
    fn sizes(&self) -> (u64, u64) {
        let Plan { tasks, types, .. } = self.driver.plan;
        (tasks.min(TASKS as u64), types.min(TYPES as u64))
    }

    /// A value that may be legal, is on an edge, or is anything.
    fn value(&mut self, part: u64, old: u64) -> u64 {
        let (tasks, types) = self.sizes();
        match self.random.below(9) {
            6.. => match part {
                5 | 11 => old ^ 1 << self.random.below(tasks.max(1)),
                7 => self.random.below(tasks + 1),
                8 => self.random.below(types + 1),
                14 => u64::from(LATEST_DEADLINE) + self.random.below(2),
                15 => u64::from(LATEST_RELEASE) + self.random.below(2),
                _ => old.wrapping_add(1),
            },
            0 => old.wrapping_add(1),
            1 => old.wrapping_sub(1),
            2 => self.random.below(UNITS as u64 + 1),
            3 => old ^ 1 << self.random.below(TASKS as u64),
            4 => self.random.number(),
            _ => self.random.pick(&EDGES),
        }
    }

    /// An index that is mostly one of the plan's own.
    fn index(&mut self, part: u64) -> u64 {
        let (tasks, types) = self.sizes();
        if self.random.once_in(8) {
            let ends = [TYPES, TASKS, PAIRS].map(|length| length as u64 - self.random.below(2));
            let other = self.random.pick(&[0, u64::MAX]);
            return self.random.pick(&[other, ends[0], ends[1], ends[2]]);
        }
        match part {
            0 | 2 | 6 | 9 | 10 | 11 => 0,
            1 => self.random.below(types + 1),
            3 | 4 => self.random.below(tasks + 1) * TYPES as u64 + self.random.below(types + 1),
            _ => self.random.below(tasks + 1),
        }
    }

    /// Puts a value; gives the line that puts the old one back.
    fn put(&mut self, letter: char, parts: &[u64]) -> Option<String> {
        let part = self.random.pick(parts);
        let index = self.index(part);
        let slot = self.driver.slot(letter as u8, part, index);
        let old = slot.map(|slot| slot.get());
        let value = self.value(part, old.unwrap_or(0));
        self.give(&format!("{letter}\t{part}\t{index}\t{value}"));
        old.map(|old| format!("{letter}\t{part}\t{index}\t{old}"))
    }

    fn alter_plan(&mut self) {
        let back = if self.random.once_in(4) {
            self.put_records();
            let back = self.put('P', &[0, 1, 1, 2, 3, 4, 4, 5, 5, 14, 15]);
            let command = self.random.pick(&["L", "L", "H"]);
            self.give(command);
            back
        } else {
            let back = self.put('P', &[0, 1, 2, 3, 4, 5, 5, 6, 7, 7, 8, 8, 9, 14, 14, 15, 15]);
            self.ask();
            back
        };
        if let Some(back) = back.filter(|_| !self.random.once_in(12)) {
            self.give(&back);
        }
    }

    /// A fault in an accepted order, for a while: a task that stands before too (9), a type that
    /// the task cannot use (10), a predecessor later in the order (11).
    fn alter_order(&mut self) {
        let Driver { plan, constraint, .. } = &self.driver;
        if crate::check::check(plan, constraint).is_err() || plan.tasks < 2 {
            return;
        }
        let first = self.random.below(plan.tasks - 1);
        let second = self.random.from(first + 1, plan.tasks - 1);
        let (p, q) = (first as usize, second as usize);
        let (task, later) = (constraint.task[p], constraint.task[q]);
        let unusable = (0..TYPES).find(|&y| plan.best[pair(task as usize, y)] == 0);
        let (part, index, old, value) = match self.random.below(3) {
            0 => (7, second, later, task),
            1 => (8, first, constraint.kind[p], unusable.unwrap_or(TYPES) as u64),
            _ => {
                let old = plan.predecessors[task as usize];
                (5, task, old, old | 1 << later)
            }
        };
        self.give(&format!("P\t{part}\t{index}\t{value}"));
        for _ in 0..self.random.from(1, 3) {
            self.ask();
        }
        self.give(&format!("P\t{part}\t{index}\t{old}"));
    }

    /// One of the commands that begin with the check.
    fn ask(&mut self) {
        match self.random.below(11) {
            0 => self.give("K"),
            1 => self.give("S"),
            2 => self.give("B"),
            3 => self.simulate(),
            4 => self.worst_timetable(),
            5 | 6 => self.timetable(),
            7 | 8 => self.give("D"),
            _ => self.replay(),
        }
    }

    /// Puts a legal pair of times somewhere, perhaps for an absent task or type.
    fn alter_pair(&mut self) {
        let (letter, then) = self.random.pick(&[('P', "K"), ('P', "S"), ('R', "T\t0")]);
        let reach = self.driver.plan.tasks.min(TASKS as u64 - 1) + 1;
        let at = pair(self.random.below(reach) as usize, self.random.below(TYPES as u64) as usize);
        let (best, worst) = times_of(&self.driver, letter, at);
        let time = self.random.from(1, 5);
        self.give(&format!("{letter}\t3\t{at}\t{time}"));
        let longer = time + self.random.below(2);
        self.give(&format!("{letter}\t4\t{at}\t{longer}"));
        self.give(then);
        self.give(&format!("{letter}\t3\t{at}\t{best}"));
        self.give(&format!("{letter}\t4\t{at}\t{worst}"));
    }

    /// Whether to alter the plan or a state that takes a tick, and what to ask then.
    fn plan_or_state(&mut self) -> (char, &'static str) {
        let of_plan = ["D", "D", "K", "S", "L", "H", "any"].map(|command| ('P', command));
        let (letter, then) = self.random.pick(&[&of_plan[..], &[('R', "T")]].concat());
        if letter == 'R' && self.last_quiet().is_none() {
            self.give("S");
        }
        (letter, then)
    }

    /// Asks for what was chosen with the plan or state.
    fn ask_for(&mut self, command: &str) {
        match command {
            "T" => self.legal_tick(),
            "any" => self.ask(),
            "L" => self.adopt(),
            "H" => self.propose(),
            _ => self.give(command),
        }
    }

    /// Puts an edge as the worst time of a task's chosen type, mostly for a while.
    fn alter_worst(&mut self) {
        let Driver { plan, constraint, .. } = &self.driver;
        if crate::check::check(plan, constraint).is_err() {
            return;
        }
        let p = self.random.below(plan.tasks) as usize;
        let at = pair(constraint.task[p] as usize, constraint.kind[p] as usize);
        let (letter, then) = self.plan_or_state();
        let (best, worst) = times_of(&self.driver, letter, at);
        let (beyond, edge) = (LONGEST_TIME + 1, self.random.pick(&edges::TIMES));
        let value = self.random.pick(&[edge.max(best), beyond]);
        self.give(&format!("{letter}\t4\t{at}\t{value}"));
        self.ask_for(then);
        if value == beyond || !self.random.once_in(4) {
            self.give(&format!("{letter}\t4\t{at}\t{worst}"));
        }
    }

    /// A task, mostly one of the plan's.
    fn some_task(&mut self) -> u64 {
        let ((tasks, _), last) = (self.sizes(), TASKS as u64 - 1);
        let (present, absent) = (self.random.below(tasks), self.random.from(tasks.min(last), last));
        self.random.pick(&[present, present, absent])
    }

    /// Puts a deadline or takes one away; for a while, one out of range or of an absent task.
    fn alter_deadline(&mut self) {
        let (letter, then) = self.plan_or_state();
        let ((tasks, _), task) = (self.sizes(), self.some_task());
        let (old, other) = self.deadline_and_another(letter, task as usize);
        let beyond = self.random.pick(&[u64::from(LATEST_DEADLINE) + 1, u32::MAX.into()]);
        let value = self.random.pick(&[other, other, other, 0, beyond]);
        self.give(&format!("{letter}\t14\t{task}\t{value}"));
        self.ask_for(then);
        if task >= tasks || value == beyond || self.random.once_in(4) {
            self.give(&format!("{letter}\t14\t{task}\t{old}"));
        }
    }

    /// The deadline that `P` or `R` would alter, and one that is often about the worst finish.
    fn deadline_and_another(&mut self, letter: char, task: usize) -> (u32, u64) {
        let Driver { plan, constraint, state, .. } = &self.driver;
        let old = if letter == 'P' { plan.deadlines[task] } else { state.plan.deadlines[task] };
        let finish = bound(plan, constraint).map_or(1, |run| run.finishes[task]);
        (old, inputs::deadline(&mut self.random, finish.into()))
    }

    /// Puts a not-before instant or takes one away, mostly for a while: one that makes a start too
    /// soon or a task wait, one out of range or of an absent task.
    fn alter_release(&mut self) {
        let (letter, then) = self.plan_or_state();
        let ((tasks, _), task) = (self.sizes(), self.some_task());
        let (old, start) = self.release_and_start(letter, task as usize);
        let other = inputs::release(&mut self.random, start);
        let one_above = u64::from(LATEST_RELEASE) + 1;
        let beyond = self.random.pick(&[one_above, one_above, u32::MAX.into()]);
        let value = self.random.pick(&[other, other, other, other, start + 1, 0, beyond]);
        self.give(&format!("{letter}\t15\t{task}\t{value}"));
        self.ask_for(then);
        let may_stay = letter == 'P' && task < tasks && value < start + 10;
        if !may_stay || self.random.once_in(2) {
            self.give(&format!("{letter}\t15\t{task}\t{old}"));
        }
    }

    /// The not-before instant that `P` or `R` would alter, and when the task starts or could.
    fn release_and_start(&self, letter: char, task: usize) -> (u32, u64) {
        let Driver { plan, constraint, state, .. } = &self.driver;
        if letter == 'P' {
            let start = bound(plan, constraint).map_or(0, |run| run.starts[task]);
            return (plan.releases[task], start.into());
        }
        let started = state.sound() && (state.running() | state.finished) >> task & 1 == 1;
        let start = if started { state.starts[task] } else { state.instant };
        (state.plan.releases[task], start.into())
    }

    /// Makes the start of a running or finished task too soon for a while, mostly by one: its
    /// instant is later, or the start was at its instant and is sooner.
    fn early_start(&mut self) {
        let state = &self.driver.state;
        let sets = if state.sound() { [state.running(), state.finished] } else { [0, 0] };
        let set: Vec<usize> = members(self.random.pick(&sets)).collect();
        if set.is_empty() {
            return;
        }
        let task = self.random.pick(&set);
        let (start, release) = (state.starts[task], state.plan.releases[task]);
        let (part, old, value) = match start == release && start > 0 && self.random.once_in(2) {
            true => (12, start, start - 1),
            false => (15, release, start + self.random.pick(&[1, 1, 5])),
        };
        self.give(&format!("R\t{part}\t{task}\t{value}"));
        self.legal_tick();
        self.give(&format!("R\t{part}\t{task}\t{old}"));
    }

    fn alter_state(&mut self) {
        if self.last_quiet().is_none() && self.random.once_in(2) {
            self.give("S");
        }
        let of_plan = [0, 1, 1, 2, 3, 4, 5, 6, 7, 8, 14, 14, 15, 15];
        let of_state = [9, 9, 9, 10, 10, 11, 11, 12, 12, 13, 13, 16];
        let back = self.put('R', &[&of_plan[..], &of_state].concat());
        self.legal_tick();
        if let Some(back) = back.filter(|_| !self.random.once_in(12)) {
            self.give(&back);
        }
    }

    /// A tick with a report that the state takes, if it is sound.
    fn legal_tick(&mut self) {
        let report = inputs::legal_report(&mut self.random, &self.driver.state);
        self.give(&format!("T\t{report}"));
    }

    fn ticks(&mut self) {
        if self.last_quiet().is_none() && !self.random.once_in(4) {
            self.give("S");
        }
        for _ in 0..self.random.from(1, 12) {
            let report = inputs::some_report(&mut self.random, &self.driver.state);
            let idle = self.driver.state.sound() && self.driver.state.running() == 0;
            if self.random.once_in(if idle { 3 } else { 14 }) {
                self.jump();
            }
            self.give(&format!("T\t{report}"));
            if self.last_quiet().is_none() && self.random.once_in(2) {
                break;
            }
        }
    }

    /// The instant before some running task has run its worst or the next task's instant comes.
    fn last_quiet(&self) -> Option<u32> {
        let state = &self.driver.state;
        if !state.sound() {
            return None;
        }
        let chosen = state.constraint.chosen();
        let last = |t: usize| state.starts[t] + state.plan.worst[pair(t, chosen[t])] - 1;
        let release = state.next().map(|t| state.plan.releases[t]);
        let to_come = release.filter(|&release| release > state.instant);
        members(state.running()).map(last).chain(to_come.map(|release| release - 1)).min()
    }

    /// Moves the instant on over a long time in which nothing happens.
    fn jump(&mut self) {
        if let Some(last) = self.last_quiet() {
            let back = self.random.below(2) as u32;
            let instant = last.saturating_sub(back).max(self.driver.state.instant);
            self.give(&format!("R\t9\t0\t{instant}"));
        }
    }

    /// Ticks until all is finished: every task at its worst time, or some of them sooner.
    fn to_the_end(&mut self) {
        let worst = self.random.once_in(3);
        for _ in 0..200 {
            let Some(last) = self.last_quiet() else { break };
            if worst {
                self.due_tick(last);
                continue;
            }
            if last > self.driver.state.instant + 3 {
                self.jump();
            }
            self.legal_tick();
        }
        let report = self.random.pick(&[0, 1, u64::MAX]);
        self.give(&format!("T\t{report}"));
    }

    /// Moves the instant on to the last in which nothing happens, and reports what is due then.
    fn due_tick(&mut self, last: u32) {
        if last > self.driver.state.instant {
            self.give(&format!("R\t9\t0\t{last}"));
        }
        let report = inputs::due_report(&self.driver.state);
        self.give(&format!("T\t{report}"));
    }

    /// Moves the run to about one of the last instants that a state may have, or to where it would
    /// end with times of 16 bits.
    fn late_instants(&mut self) {
        if !self.driver.state.sound() {
            return;
        }
        let instant = self.random.pick(&edges::INSTANTS) - self.random.below(2) as u32;
        let delta = instant.saturating_sub(self.driver.state.instant);
        self.give(&format!("R\t9\t0\t{instant}"));
        for t in members(self.driver.state.running()) {
            let start = self.driver.state.starts[t] + delta;
            self.give(&format!("R\t12\t{t}\t{start}"));
        }
        for _ in 0..4 {
            self.legal_tick();
        }
    }

    fn odd_line(&mut self) {
        let lines = [
            "", "K\t", "K\t0", "B ", "k", "T", "T\t", "T\t-1", "T\t1\t2", "S\r", "Q\t1", "W", "Y", "z",
            "W\t00000000000000000012", "W\t000000000000000000012", "T\t18446744073709551615",
            "T\t18446744073709551616", "P\t0\t0", "P\t9\t0\t0", "R\t16\t0\t0", "P\t0\t1\t1",
            "D\t", "D\t0", "d", "D ", "DD", "P\t13\t0\t0", "P\t16\t0\t0", "P\t14\t0", "P\t14\t0\t4294967296",
            "R\t14\t0\t4294967296", "P\t14\t0\t-1", "N", "N\t0\t0", "P\t15\t0", "P\t15\t0\t-1",
            "P\t15\t0\t4294967296", "R\t15\t0\t4294967296", "R\t15\t0", "R\t15\t0\t0\t0",
            "R\t9\t0\t4294967296", "M\t", "\tK", "KK", "M\t4294967296", "Y\t", "Y\t9\t", "Y\t9\t-1",
            "E", "E\t", "E\t0\t0\t0", "E\t0\t0\t0\t", "E\t0\t0\t0\t1\t0", "E\t0\t0\t-1\t0", "e\t0\t0\t0\t1",
            "E\t0\t0\t0\t1", "E\t0\t0\t0\t00000000000000000001", "E\t0\t0\t0\t000000000000000000001",
            "E\t4294967295\t4294967295\t4294967295\t4294967295", "E\t0\t0\t0\t18446744073709551616",
            "L\t", "L\t0", "L ", "l", "LL", "L", "EL", "E 0 0 0 1",
            "H\t", "H\t0", "H ", "h", "HH", "H", "HL", "H\t\t", "\tH",
            "Y\t9\t4294967296", "Z\t", "Z\t-1", "Z\t0\t", "Z\t1\t18446744073709551616", "Z\t18446744073709551615",
        ];
        let beyond = [
            format!("W\t{}", MOST_ROOM + 1),
            format!("Y\t{}", MOST_ROOM + 1),
            format!("P\t1\t{TYPES}\t1"),
            format!("R\t3\t{PAIRS}\t1"),
            format!("P\t7\t{TASKS}\t0"),
            format!("P\t14\t{TASKS}\t0"),
            format!("R\t14\t{TASKS}\t1"),
            format!("P\t15\t{TASKS}\t0"),
            format!("R\t15\t{TASKS}\t1"),
        ];
        let lines: Vec<&str> = lines.into_iter().chain(beyond.iter().map(String::as_str)).collect();
        let line = self.random.pick(&lines);
        self.give(line);
        if self.random.once_in(4) {
            self.long_list();
        }
        if self.random.once_in(4) {
            self.long_line();
        }
    }

    /// About as many numbers as a command takes.
    fn long_list(&mut self) {
        let command = self.random.pick(&["M", "Y\t9", "Z"]);
        let count = self.random.from(LONGEST_LIST as u64, MOST_TIMES as u64 + 1);
        self.give_list(command, &vec![1; count as usize]);
    }

    /// A line of about as many bytes as are read, by zeros before each number.
    fn long_line(&mut self) {
        let mut line = self.random.pick(&["M", "Y", "Z"]).to_string();
        let length = TOO_LONG - 2 + self.random.below(4) as usize;
        while line.len() < length {
            let digits = (length - line.len() - 1).min(20);
            line += &format!("\t{:0digits$}", 1);
        }
        self.give(&line);
    }
}
