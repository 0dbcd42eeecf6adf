//! How often each command answered each refusal number, 0 for what was accepted, and how often
//! that was one of the cases which are counted besides.
use crate::cases::*;
use crate::check::keeps_the_rules;
use crate::edges;
use crate::limits::*;
use crate::lines::{cases_of_line, says_0, FIELDS, LINES};
use crate::list_cases::*;
use crate::margins::{margins, with_deadline, Margins};
use crate::plan::*;
use crate::proposal_cases::{
    self, case_of_lines, case_of_proposed, case_of_proposed_bound, cases_of_proposal,
    NEVER_PROPOSED, PROPOSED,
};
use crate::propose::{proposal, Proposal};
use crate::reader::read;
use crate::releases::{cases_of_bound, cases_of_run, cases_of_unsound, cases_of_walk};
use crate::reports::{cases_of_refused, cases_of_taken};
use crate::run::Times;
use crate::schedule::Record;
use crate::simulate::{bound, worst_times};
use crate::state::State;
use crate::timetable;
use std::collections::BTreeMap;

/// The greatest refusal number.
const LAST: u64 = 23;

/// No refusal has this number.
const UNUSED: u64 = 15;

/// The text, which is read before the commands or given to a program.
pub const TEXT: &str = "text";

/// The ticks of a replay, which have no letter of their own.
pub const TICKS_OF_Z: &str = "Z's ticks";

/// The lines `E` that have four numbers and are answered `bad`.
pub const BAD_E: &str = "bad E";

/// What the kept constraint comes from, with its greatest finish.
#[derive(Clone, Copy, PartialEq, Eq, Debug)]
pub enum Source {
    List(u32),
    Proposal(u32),
}

/// The numbers and cases that one command must have answered.
type Asked = (&'static str, &'static [u64], &'static [Case]);

/// Of the texts of sessions, and of those that a program is given.
const ASKED_OF_LINES: [Asked; 4] = [
    (TEXT, &[], &LINES),
    (TEXT, &[], FIELDS.as_flattened()),
    (TEXT, &[], READ_EDGES.as_flattened()),
    (TEXT, &[], &[RELEASE_OF_0]),
];

/// Of sessions, each by itself.
const ASKED: [Asked; 52] = [
    ("B", &[], &[ADOPTED, BOUND_BELOW, BOUND_EQUAL]),
    ("B", &[], &[BOUND_IS_SUM]),
    ("B", &[], &proposal_cases::BOUNDS),
    ("B", &[], &WAITS),
    ("B", &[], &START_EDGES),
    ("D", &[0, 8, 9, 10, 11], &MARGINS),
    ("D", &[], &FAULTS),
    ("D", &[], &[PROPOSED]),
    ("E", &[], &[FIRST_PUT, LAST_PUT]),
    ("E", &[], FIELDS_PUT.as_flattened()),
    (BAD_E, &[], &NOT_PUT),
    ("H", &[0, 8, 23], &proposal_cases::SIZES),
    ("H", &[], &FAULTS),
    ("H", &[], &[proposal_cases::BROKEN_AND_CIRCLE, proposal_cases::OWN_PREDECESSOR]),
    ("H", &[], &proposal_cases::BOUNDS),
    ("H", &[], &proposal_cases::CHOICES),
    ("H", &[], &proposal_cases::CIRCLES),
    ("H", &[], &proposal_cases::ORDERS),
    ("H", &[], &proposal_cases::RANKS),
    ("H", &[], &proposal_cases::STARTS),
    ("H", &[], &proposal_cases::USABLE),
    ("K", &[], &FAULTS),
    ("K", &[], &[ADOPTED, PROPOSED]),
    ("L", &[0, 8, 20, 21, 22], &ACCEPTED),
    ("L", &[], &FAULTS),
    ("L", &[], &COUNTS),
    ("L", &[], &RECORDS),
    ("L", &[], PLACES.as_flattened()),
    ("L", &[], &[LATER_FAULTS[0].1, LATER_FAULTS[1].1, LATER_FAULTS[2].1]),
    ("M", &[], &[PROPOSED]),
    ("M", &[], &TIMES),
    ("M", &[], &TIME_EDGES),
    ("M", &[], &WAITS),
    ("S", &[], &FAULTS),
    ("S", &[], &[IDLE, PROPOSED]),
    ("T", &[], &[EARLY_REPORT, LONGEST_REPORT, LONGEST_OVERRUN]),
    ("T", &[], &[PROPOSED]),
    ("T", &[], &UNSOUND_PLANS),
    ("T", &[], &EARLY),
    ("T", &[], &WAITS),
    ("T", &[], &START_EDGES),
    ("T", &[], &FAULTY_REPORTS),
    ("T", &[], INSTANTS.as_flattened()),
    ("W", &[], &[PROPOSED]),
    ("W", &[], &TIMETABLES),
    ("Y", &[0, 8, 9, 10, 11, 17, 18, 19], &TIMES),
    ("Y", &[], &TIME_EDGES),
    ("Y", &[], &TIMETABLES),
    ("Z", &[0, 8, 9, 10, 11], &[PROPOSED]),
    (TICKS_OF_Z, &[0, 13, 14, 16], &[EARLY_REPORT]),
    (TICKS_OF_Z, &[], &WAITS),
    (TICKS_OF_Z, &[], &FAULTY_REPORTS),
];

/// Of texts that a program is given.
const ASKED_OF_TEXTS: [Asked; 4] = [
    (TEXT, &[0, 1, 2, 3, 4, 5, 6, 7, 8, 9, 10, 11], &MARGINS),
    (TEXT, &[], &[LONGEST_WRITTEN, BOUND_IS_SUM]),
    (TEXT, &[], &WAITS),
    (TEXT, &[], &START_EDGES),
];

/// Of texts for the program of the proposal.
const ASKED_OF_PROPOSALS: [Asked; 10] = [
    (TEXT, &[0, 1, 2, 3, 4, 5, 6, 7, 8, 23], &proposal_cases::SIZES),
    (TEXT, &[], &proposal_cases::BOUNDS),
    (TEXT, &[], &[proposal_cases::BROKEN_AND_CIRCLE, proposal_cases::CIRCLE_WITH_LINES]),
    (TEXT, &[], &proposal_cases::CHOICES),
    (TEXT, &[], &proposal_cases::CIRCLES),
    (TEXT, &[], &proposal_cases::ORDERS),
    (TEXT, &[], &proposal_cases::RANKS),
    (TEXT, &[], &proposal_cases::STARTS),
    (TEXT, &[], &proposal_cases::USABLE),
    (TEXT, &[], &proposal_cases::WITH_LINES),
];

/// What one command never gives.
type Never = (&'static str, &'static [Case]);

const NEVER_GIVEN: [Never; 18] = [
    ("B", &NEVER),
    ("B", &NEVER_PROPOSED),
    ("B", &[BOUND_ABOVE_SUM, IDLE_AFTER_ALL]),
    ("D", &NEVER_PROPOSED),
    ("H", &NEVER_PROPOSED),
    ("K", &NEVER),
    ("K", &NEVER_PROPOSED),
    ("M", &NEVER_PROPOSED),
    ("M", &[IDLE_AFTER_ALL]),
    ("S", &NEVER_PROPOSED),
    ("S", &[IDLE_AFTER_ALL]),
    ("T", &[IDLE_AFTER_ALL, STRANGER_FIRST]),
    ("W", &NEVER_PROPOSED),
    ("Y", &NEVER_PROPOSED),
    ("Z", &NEVER_PROPOSED),
    (TEXT, &NEVER_PROPOSED),
    (TEXT, &[BOUND_ABOVE_SUM, IDLE_AFTER_ALL]),
    (TICKS_OF_Z, &[IDLE_AFTER_ALL, STRANGER_FIRST]),
];

/// The program of the proposal passes over the constraint of its text.
const NEVER_GIVEN_BY_PROPOSALS: [Never; 1] = [(TEXT, &[(9, ""), (10, ""), (11, "")])];

/// By the letter of the command, then by case. A case without words is all answers with its number.
#[derive(Default)]
pub struct Reached(BTreeMap<&'static str, BTreeMap<Case, u64>>);

impl Reached {
    pub fn note(&mut self, command: &'static str, number: u64) {
        self.add_times(command, (number, ""), 1);
    }

    /// Notes the cases of a text that was read so.
    pub fn note_text(&mut self, text: &[u8], answer: &Result<(Plan, Constraint), Refusal>) {
        match answer {
            Ok((plan, _)) => self.note_read(text, plan),
            Err(Refusal { number: 1, .. }) => {}
            Err(Refusal { number, place }) => {
                self.add_cases(TEXT, cases_of_line(text, *number, *place as usize));
            }
        }
    }

    /// Notes the cases of the times and instants of a plan that was read.
    fn note_read(&mut self, text: &[u8], plan: &Plan) {
        let [best, worst, deadline, release] = &READ_EDGES;
        self.add_cases(TEXT, cases_among(&plan.best, &edges::TIMES, best));
        self.add_cases(TEXT, cases_among(&plan.worst, &edges::TIMES, worst));
        self.add_cases(TEXT, cases_among(&plan.deadlines, &edges::DEADLINES, deadline));
        self.add_cases(TEXT, cases_among(&plan.releases, &edges::RELEASES, release));
        self.add_cases(TEXT, text.split(|&b| b == b'\n').any(says_0).then_some(RELEASE_OF_0));
    }

    /// Notes a text that a program is given: its refusal, or that of its plan, or its margins, its
    /// bound and its timetable.
    pub fn note_program(&mut self, text: &[u8]) {
        let reading = read(text);
        self.note_text(text, &reading);
        let answer = reading.and_then(|(plan, constraint)| {
            let margins = margins(&plan, &constraint)?;
            let table = timetable::text(&plan, &constraint, &worst_times(&plan, &constraint))?;
            self.note_bound(TEXT, &plan, &constraint, &bound(&plan, &constraint)?);
            Ok((plan, margins, table.len()))
        });
        self.note(TEXT, answer.as_ref().err().map_or(0, |refusal| refusal.number));
        if let Ok((plan, margins, bytes)) = &answer {
            self.note_margins(TEXT, plan, margins);
            self.note_timetable(TEXT, &Ok(*bytes as u64), *bytes);
        }
    }

    /// Notes a text that the program of the proposal is given: its refusal, or that of its plan, or
    /// its proposal.
    pub fn note_program_of_proposal(&mut self, text: &[u8]) {
        let reading = read(text);
        self.note_text(text, &reading);
        let answer = reading.and_then(|(plan, constraint)| {
            let answer = proposal(&plan);
            self.note_proposal(TEXT, &plan, &answer);
            self.add_cases(TEXT, case_of_lines(&plan, &constraint, &answer));
            answer
        });
        self.note(TEXT, answer.err().map_or(0, |refusal| refusal.number));
    }

    /// Notes the cases of a proposal for a plan.
    pub fn note_proposal(
        &mut self,
        command: &'static str,
        plan: &Plan,
        answer: &Result<Proposal, Refusal>,
    ) {
        self.add_cases(command, cases_of_proposal(plan, answer));
    }

    /// Notes a command that takes the constraint of a proposal and answers with this number.
    pub fn note_on_proposal(&mut self, command: &'static str, number: u64) {
        self.add_cases(command, [case_of_proposed(number)]);
    }

    /// Notes the case of a timetable that is answered so, into this many bytes.
    pub fn note_timetable(
        &mut self,
        command: &'static str,
        answer: &Result<u64, Refusal>,
        room: usize,
    ) {
        const LONGEST: u64 = LONGEST_TIMETABLE as u64;
        let case = match answer {
            Ok(LONGEST) => LONGEST_WRITTEN,
            Err(Refusal { number: 19, place: LONGEST }) if room + 1 == LONGEST_TIMETABLE => {
                LONGEST_REFUSED
            }
            _ => return,
        };
        self.add_times(command, case, 1);
    }

    /// Notes the case of a plan that is refused with 8.
    pub fn note_plan(&mut self, command: &'static str, plan: &Plan) {
        let words = only_fault(plan, keeps_the_rules);
        self.add_cases(command, words.map(|words| (8, words)));
    }

    /// Notes the cases of a state that is refused with 12.
    fn note_unsound(&mut self, command: &'static str, state: &State) {
        let sound = |plan: &Plan| State { plan: plan.clone(), ..state.clone() }.sound();
        let words = only_fault(&state.plan, sound);
        self.add_cases(command, words.map(|words| (12, words)));
        self.add_cases(command, cases_of_unsound(state));
    }

    /// Notes the case of a tick at this instant that is answered so, from the state after it.
    pub fn note_instant(
        &mut self,
        command: &'static str,
        instant: u32,
        state: &State,
        answer: &Result<u64, Refusal>,
    ) {
        let Some(at) = edges::INSTANTS.iter().position(|&edge| edge == instant) else { return };
        let number = answer.as_ref().err().map_or(0, |refusal| refusal.number);
        let finished = number != 0 && state.all_finished();
        let case = INSTANTS[at][usize::from(finished)];
        if case.0 == number && (number != 12 || state.sound_at_any_instant()) {
            self.add_times(command, case, 1);
        }
    }

    /// Notes the cases of accepted margins.
    pub fn note_margins(&mut self, command: &'static str, plan: &Plan, answer: &Margins) {
        let Margins { any, least, margins, .. } = answer;
        let having_it = with_deadline(plan).filter(|&t| margins[t] == *least).count();
        let all_have_one = with_deadline(plan).count() as u64 == plan.tasks;
        let cases = those_that_are(&[
            (!any, NO_DEADLINES),
            (*least < 0, LEAST_BELOW_ZERO),
            (*any && *least == 0, LEAST_ZERO),
            (*least > 0, LEAST_ABOVE_ZERO),
            (having_it > 1, LEAST_OF_SEVERAL),
            (*least > 0 && !all_have_one, LESS_WITHOUT),
            (*least == LEAST_MARGIN, LEAST_OF_ALL),
            (*least == GREATEST_MARGIN, GREATEST_OF_ALL),
        ]);
        self.add_cases(command, cases);
    }

    /// Notes the cases of a record that is kept, or not, after so many others.
    pub fn note_record(&mut self, fields: &[u64; 4], before: usize, kept: bool) {
        match kept {
            true => self.add_cases("E", cases_of_put(fields, before)),
            false => self.add_cases(BAD_E, cases_of_not_put(fields, before)),
        }
    }

    /// Notes the cases of a list that is answered so.
    pub fn note_list<T>(
        &mut self,
        command: &'static str,
        plan: &Plan,
        records: &[Record],
        answer: &Result<T, Refusal>,
    ) {
        self.add_cases(command, cases_of_list(plan, records, answer));
    }

    /// Notes the cases of a command that answers so, perhaps with a response, if the constraint
    /// comes from a list or a proposal.
    pub fn note_source(
        &mut self,
        command: &'static str,
        source: Option<Source>,
        answer: &Result<Option<u32>, Refusal>,
    ) {
        let number = answer.err().map_or(0, |refusal| refusal.number);
        let response = answer.ok().flatten();
        let (of_number, of_bound) = match source {
            Some(Source::List(finish)) => {
                (case_of_adopted(number), response.map(|response| case_of_bound(response, finish)))
            }
            Some(Source::Proposal(finish)) => {
                let of_bound = |response| case_of_proposed_bound(response, finish);
                (case_of_proposed(number), response.map(of_bound))
            }
            None => return,
        };
        self.add_cases(command, [of_number].into_iter().chain(of_bound));
    }

    /// Notes the cases of a simulation or timetable that answers these times so.
    pub fn note_times<T>(
        &mut self,
        command: &'static str,
        plan: &Plan,
        constraint: &Constraint,
        times: &[u32],
        answer: &Result<T, Refusal>,
    ) {
        match answer {
            Ok(_) => {
                let below = |t: usize| times[t] < pair_of(plan, constraint, t).0;
                let below = (0..times.len()).any(below).then_some(TIME_BELOW_BEST);
                self.add_cases(command, below);
                self.add_cases(command, cases_among(times, &edges::TIMES, &TIME_EDGES));
            }
            Err(Refusal { number: 18, place }) => {
                let task = *place as usize;
                let (time, worst) = (times[task], pair_of(plan, constraint, task).1);
                let longest = time == LONGEST_TIME + 1 && worst == LONGEST_TIME;
                self.add_cases(command, longest.then_some(TIME_ABOVE_LONGEST));
                self.add_cases(command, [if time == 0 { TIME_OF_0 } else { TIME_ABOVE_WORST }]);
            }
            _ => {}
        }
    }

    /// Notes the cases of a simulation.
    pub fn note_run(
        &mut self,
        command: &'static str,
        plan: &Plan,
        constraint: &Constraint,
        run: &Times,
    ) {
        self.add_cases(command, cases_of_run(plan, constraint, run));
    }

    /// Notes the cases of the simulation with worst times.
    pub fn note_bound(
        &mut self,
        command: &'static str,
        plan: &Plan,
        constraint: &Constraint,
        run: &Times,
    ) {
        self.note_run(command, plan, constraint, run);
        self.add_cases(command, cases_of_bound(plan, constraint, run.response));
    }

    /// Notes the cases of a walk at this instant that started these tasks, from the state after it
    /// or a later one.
    pub fn note_walk(&mut self, command: &'static str, state: &State, instant: u32, started: u64) {
        self.add_cases(command, cases_of_walk(state, instant, started));
    }

    /// Notes the cases of a report at this instant and of its answer, from the state after it or a
    /// later one.
    pub fn note_tick(
        &mut self,
        command: &'static str,
        state: &State,
        instant: u32,
        report: u64,
        answer: &Result<u64, Refusal>,
    ) {
        match answer {
            Ok(started) => {
                self.add_cases(command, cases_of_taken(state, instant + 1, report));
                self.note_walk(command, state, instant + 1, *started);
            }
            Err(Refusal { number: 12, .. }) => self.note_unsound(command, state),
            Err(refusal) => {
                self.add_cases(command, cases_of_refused(state, instant, report, refusal));
            }
        }
    }

    fn add_cases(&mut self, command: &'static str, cases: impl IntoIterator<Item = Case>) {
        for case in cases {
            self.add_times(command, case, 1);
        }
    }

    fn add_times(&mut self, command: &'static str, case: Case, times: u64) {
        *self.0.entry(command).or_default().entry(case).or_default() += times;
    }

    pub fn add(&mut self, other: &Reached) {
        for (command, cases) in &other.0 {
            for (&case, &times) in cases {
                self.add_times(command, case, times);
            }
        }
    }

    pub fn times(&self, command: &str, number: u64) -> u64 {
        self.times_of_case(command, (number, ""))
    }

    pub fn times_of_case(&self, command: &str, case: Case) -> u64 {
        self.0.get(command).and_then(|cases| cases.get(&case)).copied().unwrap_or(0)
    }

    /// The times over all commands.
    pub fn total(&self, number: u64) -> u64 {
        self.0.keys().map(|command| self.times(command, number)).sum()
    }

    /// A line for each number.
    pub fn print_numbers(&self) {
        println!("accepted: {}", self.total(0));
        for number in 1..=LAST {
            println!("refusal {number}: {}", self.total(number));
        }
    }

    /// A line for each command.
    pub fn print_commands(&self) {
        for (command, cases) in &self.0 {
            let times: Vec<String> =
                cases.iter().map(|(&case, times)| format!("{}: {times}", name(case))).collect();
            println!("by {command}: {}", times.join(", "));
        }
    }

    /// Each refusal that no command gave, what was asked of one command and not given by it, the
    /// number that no refusal has, if one was given with it, and what one command never gives.
    pub fn faults(&self) -> Vec<String> {
        let used = (1..=LAST).filter(|&n| n != UNUSED);
        let by_none = used.filter(|&n| self.total(n) == 0).map(|n| format!("never reached: {n}"));
        let unused = (self.total(UNUSED) > 0).then(|| format!("given: {UNUSED}"));
        let by_one = [self.never_given(&ASKED_OF_LINES), self.never_given(&ASKED)].concat();
        by_none.chain(by_one).chain(unused).chain(self.wrongly_given(&NEVER_GIVEN)).collect()
    }

    /// What was asked of the texts for a program and not met in them, and what is never given.
    pub fn faults_of_texts(&self) -> Vec<String> {
        let asked = [self.never_given(&ASKED_OF_LINES), self.never_given(&ASKED_OF_TEXTS)].concat();
        asked.into_iter().chain(self.wrongly_given(&NEVER_GIVEN)).collect()
    }

    /// The same of texts for the program of the proposal.
    pub fn faults_of_proposals(&self) -> Vec<String> {
        let asked = [self.never_given(&ASKED_OF_LINES), self.never_given(&ASKED_OF_PROPOSALS)];
        let never = [&NEVER_GIVEN[..], &NEVER_GIVEN_BY_PROPOSALS].concat();
        asked.concat().into_iter().chain(self.wrongly_given(&never)).collect()
    }

    fn wrongly_given(&self, never: &[Never]) -> Vec<String> {
        let by_one = never.iter().flat_map(|&(command, never)| {
            let given = never.iter().filter(move |&&case| self.times_of_case(command, case) > 0);
            given.map(move |&case| format!("given: {} by {command}", name(case)))
        });
        by_one.collect()
    }

    fn never_given(&self, asked: &[Asked]) -> Vec<String> {
        let by_one = asked.iter().flat_map(|(command, numbers, cases)| {
            let asked = numbers.iter().map(|&n| (n, "")).chain(cases.iter().copied());
            let never = asked.filter(|&case| self.times_of_case(command, case) == 0);
            never.map(move |case| format!("never reached: {} by {command}", name(case)))
        });
        by_one.collect()
    }
}

/// Takes one sort of fault away.
type Mend = fn(&mut Plan);

const MENDS: [(Mend, &str); 5] = [
    (lower_deadlines, ABOVE),
    (drop_deadlines, ABSENT),
    (shorten_times, LONG),
    (lower_releases, RELEASED_ABOVE),
    (drop_releases, RELEASED_ABSENT),
];

/// What alone is wrong with a plan: it is not right, and is once that is mended.
fn only_fault(plan: &Plan, right: impl Fn(&Plan) -> bool) -> Option<&'static str> {
    if right(plan) {
        return None;
    }
    let mended = |mend: &Mend| {
        let mut plan = plan.clone();
        mend(&mut plan);
        plan
    };
    MENDS.iter().find(|(mend, _)| right(&mended(mend))).map(|(_, words)| *words)
}

fn lower_deadlines(plan: &mut Plan) {
    lower(&mut plan.deadlines, LATEST_DEADLINE);
}

fn lower_releases(plan: &mut Plan) {
    lower(&mut plan.releases, LATEST_RELEASE);
}

fn drop_deadlines(plan: &mut Plan) {
    drop_absent(&mut plan.deadlines, plan.tasks, LATEST_DEADLINE);
}

fn drop_releases(plan: &mut Plan) {
    drop_absent(&mut plan.releases, plan.tasks, LATEST_RELEASE);
}

fn shorten_times(plan: &mut Plan) {
    lower(&mut plan.best, LONGEST_TIME);
    lower(&mut plan.worst, LONGEST_TIME);
}

/// Makes each number that is one above the greatest that one.
fn lower(numbers: &mut [u32], greatest: u32) {
    numbers.iter_mut().filter(|n| **n == greatest + 1).for_each(|n| *n = greatest);
}

/// Makes each number of an absent task 0, if it is in range.
fn drop_absent(numbers: &mut [u32], tasks: u64, greatest: u32) {
    let absent = numbers.iter_mut().skip(tasks as usize);
    absent.filter(|n| **n <= greatest).for_each(|n| *n = 0);
}

fn name((number, words): Case) -> String {
    format!("{number} {words}").trim_end().to_string()
}
