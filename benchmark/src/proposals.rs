//! How much shorter proposals make the bound: against the plain order, on random plans from a fixed
//! seed. Proposals and bounds are the library's, and the rival must give the same.
use crate::assert_same;
use crate::calls::{self, Input, Proposal, Run};
use rival::limits::{TASKS, TYPES, UNITS};
use rival::plan::{pair, Constraint, Plan};
use rival::propose::propose;
use rival::random::Random;
use rival::simulate::bound;
use std::cmp::Ordering;

const SEED: u64 = 8;
const PLANS_OF_EACH: usize = 200;
const LONGEST: u64 = 1000;

/// Of a hundred pairs of a task and a later one, so many have an arrow.
const DENSITIES: [u64; 5] = [0, 2, 10, 30, 50];

/// Of one plan: its density, and the bounds with the proposal and with the plain order.
pub struct Bounds {
    density: u64,
    proposed: u32,
    plain: u32,
}

impl Bounds {
    fn ratio(&self) -> f64 {
        f64::from(self.proposed) / f64::from(self.plain)
    }
}

/// Each task has some of the types, one at least. Arrows lead from lower to higher numbers.
fn plan(random: &mut Random, density: u64) -> Plan {
    let mut plan = Plan::zero();
    plan.types = random.from(1, TYPES as u64);
    plan.tasks = random.from(2, TASKS as u64);
    let (types, tasks) = (plan.types as usize, plan.tasks as usize);
    for units in &mut plan.units[..types] {
        *units = random.from(1, UNITS as u64) as u32;
    }
    for task in 0..tasks {
        let one = random.below(plan.types) as usize;
        for y in 0..types {
            if y == one || random.once_in(2) {
                plan.worst[pair(task, y)] = random.from(1, LONGEST) as u32;
                plan.best[pair(task, y)] = 1;
            }
        }
        for from in (0..task).filter(|_| random.below(100) < density) {
            plan.predecessors[task] |= 1 << from;
        }
    }
    plan
}

/// By task number, each on its fastest type; of equally fast ones the lowest.
fn plain_order(plan: &Plan) -> Constraint {
    let mut constraint = Constraint::zero();
    constraint.length = plan.tasks;
    for t in 0..plan.tasks as usize {
        let usable = (0..TYPES).filter(|&y| plan.worst[pair(t, y)] != 0);
        let fastest = usable.min_by_key(|&y| plan.worst[pair(t, y)]).expect("a usable type");
        (constraint.task[t], constraint.kind[t]) = (t as u64, fastest as u64);
    }
    constraint
}

fn bounds_of(plan: &Plan, density: u64) -> Bounds {
    let plain = plain_order(plan);
    let given = propose(plan).expect("a sound plan");
    let input = Input::new(plan, &plain);
    let proposal = calls::propose(&input);
    assert_same("a proposal", &proposal, &Proposal::accepted(Input::new(plan, &given)));
    let response = |name: &str, input: &Input, constraint: &Constraint| {
        let run = calls::bound(input);
        let rivals = bound(plan, constraint).expect("a sound plan and a legal order");
        assert_same(name, &run, &Run::accepted(rivals));
        run.response
    };
    let proposed = response("the bound of a proposal", &input.with(&proposal), &given);
    Bounds { density, proposed, plain: response("the bound of the plain order", &input, &plain) }
}

/// Of all plans, density by density.
pub fn bounds() -> Vec<Bounds> {
    let (mut random, mut bounds) = (Random::new(SEED), Vec::new());
    for density in DENSITIES {
        for _ in 0..PLANS_OF_EACH {
            bounds.push(bounds_of(&plan(&mut random, density), density));
        }
    }
    bounds
}

pub fn print() {
    let bounds = bounds();
    println!("bound of the proposal / bound in the order of task numbers, each on its fastest type");
    println!("arrows, %      plans   mean  least  greatest  shorter  equal  longer");
    for density in DENSITIES {
        row(&density.to_string(), bounds.iter().filter(|of| of.density == density));
    }
    row("all", bounds.iter());
}

fn row<'a>(name: &str, bounds: impl Iterator<Item = &'a Bounds> + Clone) {
    let ratios = bounds.clone().map(Bounds::ratio);
    let plans = bounds.clone().count();
    let mean = ratios.clone().sum::<f64>() / plans as f64;
    let (least, greatest) = (ratios.clone().fold(f64::MAX, f64::min), ratios.fold(0.0, f64::max));
    let [shorter, equal, longer] = [Ordering::Less, Ordering::Equal, Ordering::Greater]
        .map(|wanted| bounds.clone().filter(|of| of.proposed.cmp(&of.plain) == wanted).count());
    print!("{name:<13}{plans:>7}{mean:>7.3}{least:>7.3}{greatest:>10.3}");
    println!("{shorter:>9}{equal:>7}{longer:>8}");
}
