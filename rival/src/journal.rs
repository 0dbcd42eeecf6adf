//! The bench book: notes kept by hand, with nothing taken from a run state.
use crate::limits::*;
use crate::plan::*;

pub struct Journal {
    plan: Plan,
    constraint: Constraint,
    pub instant: u32,
    pub start: [Option<u32>; TASKS],
    pub finish: [Option<u32>; TASKS],
}

/// How far a task is by the notes.
#[derive(Clone, Copy, PartialEq, Eq, PartialOrd, Ord, Debug)]
pub enum Progress {
    Waiting,
    Ready,
    Running,
    Finished,
}

impl Journal {
    /// Opens the book on a plan and constraint that start accepted.
    pub fn open(plan: &Plan, constraint: &Constraint) -> (Journal, u64) {
        let mut journal = Journal {
            plan: plan.clone(),
            constraint: constraint.clone(),
            instant: 0,
            start: [None; TASKS],
            finish: [None; TASKS],
        };
        let started = journal.walk();
        (journal, started)
    }

    pub fn progress(&self, task: usize) -> Progress {
        let unfinished = |p: usize| self.finish[p].is_none();
        if self.finish[task].is_some() {
            Progress::Finished
        } else if self.start[task].is_some() {
            Progress::Running
        } else if members(self.plan.predecessors[task]).any(unfinished) {
            Progress::Waiting
        } else {
            Progress::Ready
        }
    }

    /// The tasks that are as far as this.
    pub fn tasks(&self, progress: Progress) -> Vec<usize> {
        (0..self.plan.tasks as usize).filter(|&t| self.progress(t) == progress).collect()
    }

    fn kind(&self, task: usize) -> usize {
        let n = self.plan.tasks as usize;
        let p = self.constraint.task[..n].iter().position(|&t| t == task as u64);
        p.map_or(0, |p| self.constraint.kind[p] as usize)
    }

    fn walk(&mut self) -> u64 {
        let mut started = 0;
        for p in 0..self.plan.tasks as usize {
            let task = self.constraint.task[p] as usize;
            if self.start[task].is_some() {
                continue;
            }
            let kind = self.kind(task);
            let running = self.tasks(Progress::Running);
            let busy = running.iter().filter(|&&t| self.kind(t) == kind).count();
            let ready = self.progress(task) == Progress::Ready;
            let come = self.instant >= self.plan.releases[task];
            if !ready || !come || busy >= self.plan.units[kind] as usize {
                break;
            }
            self.start[task] = Some(self.instant);
            started |= 1 << task;
        }
        started
    }

    /// How long a task has run at the new instant.
    fn ran(&self, task: usize) -> u32 {
        self.start[task].map_or(0, |s| self.instant + 1 - s)
    }

    /// Refusals 13, 16 and 14, in the order of a tick (document 02, 7).
    fn refusal(&self, report: u64) -> Option<Refusal> {
        let n = self.plan.tasks as usize;
        if self.tasks(Progress::Finished).len() == n {
            return Some(Refusal { number: 13, place: 0 });
        }
        let running = |t: usize| t < n && self.progress(t) == Progress::Running;
        let reported = |t: usize| report >> t & 1 == 1;
        let worst = |t: usize| self.plan.worst[pair(t, self.kind(t))];
        let say = |number, t: usize| Some(Refusal { number, place: t as u64 });
        let over = |t: &usize| running(*t) && !reported(*t) && self.ran(*t) >= worst(*t);
        if let Some(t) = (0..n).find(over) {
            return say(16, t);
        }
        (0..TASKS).find(|&t| reported(t) && !running(t)).and_then(|t| say(14, t))
    }

    /// Notes a report and answers the tasks started, or the refusal.
    pub fn report(&mut self, report: u64) -> Result<u64, Refusal> {
        if let Some(refusal) = self.refusal(report) {
            return Err(refusal);
        }
        self.instant += 1;
        for t in members(report) {
            self.finish[t] = Some(self.instant);
        }
        Ok(self.walk())
    }
}
