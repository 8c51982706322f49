//! The choice of a graph, its steps, and when each is ready.

use crate::each::{every_request, subsets};
use harness::graphs::{action, choose, sums_to_read};
use harness::plain::graph::Plan;

#[test]
fn choice() {
    every_request(|chosen| {
        let asked = chosen.asked();
        let theirs = choose(chosen.units, chosen.write, chosen.mask, asked.missing);
        assert_eq!(theirs, chosen.graph, "{asked:?}");
    });
}

#[test]
fn what_steps_do() {
    every_request(|chosen| {
        for step in 0..=2 * chosen.units + 2 {
            assert_eq!(action(chosen.units, step), Some(chosen.plan().action(step)));
        }
        for step in [2 * chosen.units + 3, 2 * chosen.units + 4, 63, 64, u64::MAX] {
            assert_eq!(action(chosen.units, step), None);
        }
    });
}

#[test]
fn steps() {
    every_request(|chosen| {
        let asked = chosen.asked();
        assert_eq!(asked.steps(), chosen.plan().steps(), "{asked:?}");
    });
}

/// What the exclusive or takes: old blocks are those that the graph reads; new ones are the masked units, in 3, 4 and 5.
#[test]
fn sums() {
    every_request(|chosen| {
        let (asked, plan) = (chosen.asked(), chosen.plan());
        assert_eq!(asked.reads(), plan.reads, "{asked:?}");
        let new = if (3..=5).contains(&chosen.graph) { chosen.mask } else { 0 };
        assert_eq!(asked.taken_news(), new, "{asked:?}");
        assert_eq!(sums_to_read(chosen.graph), chosen.graph == 2);
    });
}

fn judged(plan: &Plan, done: u64) -> Option<bool> {
    plan.allows(done).then(|| done == plan.steps())
}

/// Every set of a graph's own steps.
#[test]
fn every_done_set() {
    every_request(|chosen| {
        let (asked, plan) = (chosen.asked(), chosen.plan());
        let steps = plan.steps();
        for done in subsets(steps) {
            assert_eq!(asked.judge(done), judged(&plan, done), "{done:b} of {asked:?}");
            assert_eq!(asked.complete(done), done == steps, "{done:b} of {asked:?}");
            for step in 0..=2 * chosen.units + 3 {
                assert_eq!(
                    asked.ready(done, step),
                    plan.ready(done, step),
                    "{step} after {done:b} of {asked:?}"
                );
            }
        }
    });
}

/// Sets with steps that are not the graph's, and with numbers that are no step's.
#[test]
fn foreign_steps() {
    every_request(|chosen| {
        let (asked, plan) = (chosen.asked(), chosen.plan());
        let steps = plan.steps();
        for foreign in (0..64).map(|step| 1 << step).filter(|step| steps & step == 0) {
            for done in [foreign, steps | foreign] {
                assert_eq!(asked.judge(done), None, "{done:b} of {asked:?}");
                assert_eq!(asked.complete(done), done & steps == steps, "{done:b} of {asked:?}");
            }
        }
        if chosen.units <= 4 {
            for done in 0..1 << (2 * chosen.units + 4) {
                assert_eq!(asked.judge(done), judged(&plan, done), "{done:b} of {asked:?}");
                assert_eq!(asked.complete(done), done & steps == steps, "{done:b} of {asked:?}");
            }
        }
    });
}
