//! The fast forms answer as the plain ones do.
use rival::cases::{self, Case};
use rival::driver::Driver;
use rival::edges;
use rival::fast;
use rival::inputs::{reports, some_report, EDGES};
use rival::limits::*;
use rival::lines::{FIELDS, LINES};
use rival::plan::*;
use rival::proposal_cases;
use rival::proposals;
use rival::random::Random;
use rival::reached::{Reached, TEXT};
use rival::state::{start, State};
use rival::texts::{self, sound_plan};

/// How often each refusal was met.
#[derive(Default)]
struct Met(Reached);

impl Met {
    fn note<T>(&mut self, answer: &Result<T, Refusal>) {
        self.0.note("", answer.as_ref().err().map_or(0, |refusal| refusal.number));
    }

    fn all(&self, numbers: &[u64]) {
        for &number in numbers {
            assert!(self.0.total(number) > 0, "refusal {number} was never met");
        }
    }

    fn cases(&self, command: &str, cases: &[Case]) {
        for &case in cases {
            assert!(self.0.times_of_case(command, case) > 0, "{case:?} was never met");
        }
    }
}

#[test]
fn read() {
    let (mut random, mut met) = (Random::new(1), Met::default());
    for _ in 0..2_000 {
        let text = texts::text(&mut random);
        let plain = rival::reader::read(&text);
        assert_eq!(plain, fast::read(&text));
        met.note(&plain);
        met.0.note_text(&text, &plain);
    }
    met.all(&[0, 1, 2, 3, 4, 5, 6, 7]);
    met.cases(TEXT, &LINES);
    met.cases(TEXT, FIELDS.as_flattened());
    met.cases(TEXT, cases::READ_EDGES.as_flattened());
    met.cases(TEXT, &[cases::RELEASE_OF_0]);
}

/// Puts something else in one place.
fn damage(random: &mut Random, plan: &mut Plan, constraint: &mut Constraint) {
    let value = random.pick(&EDGES);
    let most = TASKS as u64;
    let reach = if random.once_in(4) { most } else { plan.tasks.clamp(1, most) };
    let (p, q) = (random.below(reach) as usize, random.below(reach) as usize);
    let kind = random.below(TYPES as u64) as usize;
    match random.below(18) {
        0 => plan.types = value,
        1 => plan.tasks = value,
        2 => plan.units[kind] = value as u32,
        3 => plan.best[pair(p, kind)] = value as u32,
        4 => plan.worst[pair(p, kind)] = value as u32,
        5 => {
            let time = random.pick(&[3, 3, LONGEST_TIME, LONGEST_TIME + 1]);
            plan.best[pair(p, kind)] = time;
            plan.worst[pair(p, kind)] = time;
        }
        6 => plan.best[pair(p, 0)..pair(p, 0) + TYPES].fill(0),
        7 | 8 => plan.predecessors[p] ^= 1 << q,
        9 => constraint.length = value,
        10 => constraint.task[p] = value,
        11 => constraint.task[p] = constraint.task[q],
        12 => constraint.kind[p] = kind as u64,
        13 => plan.deadlines[p] = value as u32,
        14 => plan.deadlines[random.below(most) as usize] = 1,
        15 => plan.releases[p] = value as u32,
        16 => plan.releases[random.below(most) as usize] = 1,
        _ => {
            constraint.task.swap(p, q);
            constraint.kind.swap(p, q);
        }
    }
}

#[test]
fn check() {
    let (mut random, mut met) = (Random::new(2), Met::default());
    for _ in 0..300 {
        let (plan, constraint) = sound_plan(&mut random);
        for damages in [0, 1, 1, 1, 1, 1, 1, 1, 1, 2, 2, 3] {
            let (mut plan, mut constraint) = (plan.clone(), constraint.clone());
            for _ in 0..damages {
                damage(&mut random, &mut plan, &mut constraint);
            }
            let plain = rival::check::check(&plan, &constraint);
            assert_eq!(plain, fast::check(&plan, &constraint));
            met.note(&plain);
            if plain.is_err() {
                met.0.note_plan("", &plan);
            }
        }
    }
    met.all(&[0, 8, 9, 10, 11]);
    met.cases("", &cases::FAULTS);
}

#[test]
fn margins() {
    let (mut random, mut met) = (Random::new(5), Met::default());
    for _ in 0..2_000 {
        let Ok((mut plan, mut constraint)) = rival::reader::read(&texts::text(&mut random)) else {
            continue;
        };
        if random.once_in(4) {
            damage(&mut random, &mut plan, &mut constraint);
        }
        let plain = rival::margins::margins(&plan, &constraint);
        assert_eq!(plain, fast::margins(&plan, &constraint));
        met.note(&plain);
        if let Ok(plain) = &plain {
            met.0.note_margins("", &plan, plain);
        }
    }
    met.all(&[0, 8, 9, 10, 11]);
    met.cases("", &cases::MARGINS);
}

#[test]
fn propose() {
    let (mut random, mut met) = (Random::new(6), Met::default());
    for _ in 0..4_000 {
        let (mut plan, mut unused) = (proposals::plan(&mut random), Constraint::zero());
        if random.once_in(4) {
            proposals::add_circle(&mut random, &mut plan);
        }
        if random.once_in(4) {
            damage(&mut random, &mut plan, &mut unused);
        }
        let plain = rival::propose::propose(&plan);
        assert_eq!(plain, fast::propose(&plan));
        met.note(&plain);
        met.0.note_proposal("", &plan, &rival::propose::proposal(&plan));
    }
    met.all(&[0, 8, 23]);
    met.cases("", &proposal_cases::SIZES);
    met.cases("", &proposal_cases::USABLE);
    met.cases("", &proposal_cases::RANKS);
    met.cases("", &proposal_cases::CHOICES);
    met.cases("", &proposal_cases::STARTS);
    met.cases("", &proposal_cases::ORDERS);
    met.cases("", &proposal_cases::CIRCLES);
    met.cases("", &[proposal_cases::BROKEN_AND_CIRCLE, proposal_cases::OWN_PREDECESSOR]);
}

/// A session of the generator: the text, then commands.
fn split(input: &[u8]) -> (&[u8], impl Iterator<Item = &[u8]>) {
    let end = input.iter().position(|&b| b == b'\n').unwrap();
    let count: usize = std::str::from_utf8(&input[..end]).unwrap().parse().unwrap();
    let (text, commands) = input[end + 1..].split_at(count);
    (text, commands.split(|&b| b == b'\n'))
}

fn fields<T: std::str::FromStr>(command: &[u8]) -> Option<Vec<T>> {
    let text = std::str::from_utf8(command).ok()?;
    text.split('\t').skip(1).map(|field| field.parse().ok()).collect()
}

/// Both forms, on what the driver holds, for the operation that a command asks for.
fn compare(driver: &Driver, command: &[u8], met: &mut Met) {
    let (plan, constraint) = (&driver.plan, &driver.constraint);
    match command.first() {
        Some(b'S') => {
            let plain = start(plan, constraint);
            assert_eq!(plain, fast::start(plan, constraint));
            met.note(&plain.1);
        }
        Some(b'M') => {
            let Some(times) = fields::<u32>(command) else { return };
            let plain = rival::simulate::simulate(plan, constraint, &times);
            assert_eq!(plain, fast::simulate(plan, constraint, &times));
            met.note(&plain);
        }
        Some(b'D') => {
            let plain = rival::margins::margins(plan, constraint);
            assert_eq!(plain, fast::margins(plan, constraint));
            met.note(&plain);
        }
        Some(b'H') => {
            let plain = rival::propose::propose(plan);
            assert_eq!(plain, fast::propose(plan));
            met.note(&plain);
        }
        Some(b'T') => {
            let Some(&[report]) = fields::<u64>(command).as_deref() else { return };
            let plain = driver.state.clone().tick(report);
            assert_eq!(plain, fast::tick(driver.state.clone(), report));
            met.note(&plain.1);
            met.0.note_tick("T", &plain.0, driver.state.instant, report, &plain.1);
        }
        _ => {}
    }
}

#[test]
fn start_simulate_margins_propose_and_tick() {
    let mut met = Met::default();
    for number in 0..70 {
        let (input, _) = rival::generate::session(1, number);
        let (text, commands) = split(&input);
        let mut driver = Driver::new(text);
        for command in commands {
            compare(&driver, command, &mut met);
            driver.command(command);
        }
    }
    met.all(&[0, 8, 12, 13, 14, 16, 17, 18, 23]);
    met.cases("T", &cases::FAULTY_REPORTS);
}

/// As if all that runs had started as much later as the instant is.
fn move_to(state: &mut State, instant: u32) {
    for t in members(state.running()) {
        state.starts[t] += instant - state.instant;
    }
    state.instant = instant;
}

/// Puts something nearby in one place of a state, or moves it to one of the last instants.
fn alter(random: &mut Random, state: &mut State) {
    let t = random.below(state.plan.tasks + 1) as usize % TASKS;
    let kind = random.below(state.plan.types) as usize;
    let near = (state.instant + 2).saturating_sub(random.below(5) as u32);
    match random.below(9) {
        0 => state.instant = near,
        1 => move_to(state, random.pick(&edges::INSTANTS)),
        2 => state.started = (state.started + 1).saturating_sub(2 * random.below(2)),
        3 => state.finished ^= 1 << t,
        4 => state.starts[t] = near,
        5 => state.finishes[t] = near,
        6 => state.plan.units[kind] -= 1,
        7 => state.plan.releases[t] = state.starts[t] + random.below(3) as u32,
        _ => damage(random, &mut state.plan, &mut state.constraint),
    }
}

#[test]
fn tick_on_altered_states() {
    let (mut random, mut met) = (Random::new(4), Met::default());
    for _ in 0..200 {
        let (plan, constraint) = sound_plan(&mut random);
        let (mut state, _) = start(&plan, &constraint);
        for _ in 0..10 {
            let report = some_report(&mut random, &state);
            let mut altered = state.clone();
            alter(&mut random, &mut altered);
            let instant = altered.instant;
            let plain = altered.clone().tick(report);
            assert_eq!(plain, fast::tick(altered, report));
            met.note(&plain.1);
            met.0.note_instant("", instant, &plain.0, &plain.1);
            met.0.note_tick("", &plain.0, instant, report, &plain.1);
            (state, _) = state.tick(report);
        }
    }
    met.all(&[0, 12, 14, 16]);
    met.cases("", cases::INSTANTS.as_flattened());
    met.cases("", &cases::WAITS);
    met.cases("", &cases::EARLY);
    met.cases("", &cases::FAULTY_REPORTS);
}

#[test]
fn replay() {
    let (mut random, mut met) = (Random::new(3), Met::default());
    for _ in 0..300 {
        let (mut plan, mut constraint) = sound_plan(&mut random);
        if random.once_in(4) {
            damage(&mut random, &mut plan, &mut constraint);
        }
        let reports = reports(&mut random, &plan, &constraint);
        let n = reports.len();
        let (mut numbers, mut places, mut sets) = (vec![99; n], vec![99; n], vec![99; n]);
        let last =
            fast::replay(&plan, &constraint, &reports, &mut numbers, &mut places, &mut sets);
        let (state, answer) = rival::state::replay(&plan, &constraint, &reports);
        assert_eq!(last, state);
        let fast = |i: usize| (numbers[i] as u64, places[i] as u64, sets[i]);
        let Ok(plain) = answer else {
            assert!((0..n).all(|i| fast(i) == (99, 99, 99)));
            continue;
        };
        let mut instant = 0;
        for (i, answer) in plain.ticks.into_iter().enumerate() {
            met.note(&answer);
            met.0.note_tick("", &state, instant, reports[i], &answer);
            instant += u32::from(answer.is_ok());
            let refusal = answer.err().unwrap_or(Refusal { number: 0, place: 0 });
            assert_eq!(fast(i), (refusal.number, refusal.place, answer.unwrap_or(0)));
        }
    }
    met.all(&[0, 13, 14, 16]);
    met.cases("", &cases::FAULTY_REPORTS);
}
