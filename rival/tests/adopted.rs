//! What must hold of random lists: both forms agree, and what an accepted list gives is taken by
//! the check and runs no later than the list.
use rival::check::check;
use rival::fast;
use rival::list_cases::{self, case_of_bound, BOUND_BELOW, BOUND_EQUAL};
use rival::lists::{list, records, right};
use rival::plan::*;
use rival::random::Random;
use rival::reached::Reached;
use rival::reader::read;
use rival::schedule::{adopt, Record};
use rival::simulate::bound;
use rival::texts::{self, sound_plan};

/// The constraint of an accepted list: what it is, and when its tasks start. Gives the bound.
fn keeps_to_the_list(plan: &Plan, records: &[Record], constraint: &Constraint) -> u32 {
    assert_eq!(check(plan, constraint), Ok(()));
    let run = bound(plan, constraint).unwrap();
    assert!(records.iter().all(|record| run.starts[record.task as usize] <= record.start));
    let n = records.len();
    let listed =
        |p: usize| *records.iter().find(|r| u64::from(r.task) == constraint.task[p]).unwrap();
    assert!((0..n).all(|p| u64::from(listed(p).unit_type) == constraint.kind[p]));
    let key = |p: usize| (listed(p).start, listed(p).task);
    assert!((1..n).all(|p| key(p - 1) < key(p)));
    assert!((n..constraint.task.len()).all(|p| (constraint.task[p], constraint.kind[p]) == (0, 0)));
    run.response
}

#[test]
fn right_lists_are_adopted() {
    let (mut random, mut below, mut equal) = (Random::new(1), 0, 0);
    for _ in 0..1_000 {
        let (plan, _) = sound_plan(&mut random);
        let mut list = right(&mut random, &plan).unwrap();
        let constraint = adopt(&plan, &list).unwrap();
        let response = keeps_to_the_list(&plan, &list, &constraint);
        let finish = list.iter().map(|record| record.finish).max().unwrap();
        let case = case_of_bound(response, finish);
        assert!(case == BOUND_BELOW || case == BOUND_EQUAL);
        below += u64::from(case == BOUND_BELOW);
        equal += u64::from(case == BOUND_EQUAL);
        random.shuffle(&mut list);
        assert_eq!(adopt(&plan, &list), Ok(constraint));
    }
    assert!(below > 100 && equal > 100);
}

/// Of tasks that start at one instant the lower may come first now and start sooner.
#[test]
fn the_run_of_worst_times_is_adopted() {
    let mut random = Random::new(2);
    for _ in 0..500 {
        let (plan, constraint) = sound_plan(&mut random);
        let (run, chosen) = (bound(&plan, &constraint).unwrap(), constraint.chosen());
        let record = |t: usize| Record {
            task: t as u32,
            unit_type: chosen[t] as u32,
            start: run.starts[t],
            finish: run.finishes[t],
        };
        let list: Vec<Record> = (0..plan.tasks as usize).map(record).collect();
        let adopted = adopt(&plan, &list).unwrap();
        assert!(keeps_to_the_list(&plan, &list, &adopted) <= run.response);
    }
}

#[test]
fn both_forms_agree() {
    let (mut random, mut reached) = (Random::new(3), Reached::default());
    for _ in 0..2_000 {
        let Ok((plan, _)) = read(&texts::text(&mut random)) else { continue };
        for _ in 0..6 {
            let records = records(&list(&mut random, &plan));
            let answer = adopt(&plan, &records);
            assert_eq!(answer, fast::adopt(&plan, &records));
            reached.note("", answer.as_ref().err().map_or(0, |refusal| refusal.number));
            reached.note_list("", &plan, &records, &answer);
            if let Ok(constraint) = &answer {
                keeps_to_the_list(&plan, &records, constraint);
            }
        }
    }
    for number in [0, 8, 20, 21, 22] {
        assert!(reached.times("", number) > 0, "{number} was never met");
    }
    let of_place = list_cases::PLACES.as_flattened();
    for case in [&list_cases::ACCEPTED[..], &list_cases::RECORDS, of_place].concat() {
        assert!(reached.times_of_case("", case) > 0, "{case:?} was never met");
    }
}
