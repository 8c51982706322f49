//! Numbers that no array has: nothing traps, and beyond seven units the sets are empty and the answers no.

use harness::graphs::{action, choose, Asked};
use harness::plain::graph::Action;

const NUMBERS: [u64; 18] = [
    0,
    1,
    2,
    3,
    6,
    7,
    8,
    16,
    17,
    62,
    63,
    64,
    65,
    255,
    1 << 32,
    u64::MAX - 2,
    u64::MAX - 1,
    u64::MAX,
];

/// The paper's table on any numbers, in the widest integers there are.
fn chosen(units: u64, write: bool, mask: u64, missing: u64) -> u64 {
    let has = |set: u64, member: u64| member < 64 && set >> member & 1 == 1;
    let full = units <= 64 && mask as u128 == (1u128 << units) - 1;
    let out = missing < units;
    match write {
        false if out && has(mask, missing) => 2,
        false => 1,
        true if missing == units => 6,
        true if full => 5,
        true if out && has(mask, missing) => 4,
        true if out => 3,
        true if 2 * (mask.count_ones() as u64) < units => 3,
        true => 4,
    }
}

#[test]
fn choice() {
    for &units in &NUMBERS {
        for &mask in &NUMBERS {
            for &missing in &NUMBERS {
                for write in [false, true] {
                    let theirs = choose(units, write, mask, missing);
                    assert_eq!(
                        theirs,
                        chosen(units, write, mask, missing),
                        "{units} {write} {mask} {missing}"
                    );
                }
            }
        }
    }
}

/// What step k does, whatever n and k are.
#[test]
fn steps() {
    for &units in &NUMBERS {
        for &step in &NUMBERS {
            let (n, k) = (units as u128, step as u128);
            let plain = if k <= n {
                Some(Action::Read(step))
            } else if k == n + 1 {
                Some(Action::Sum)
            } else if k <= 2 * n + 2 {
                Some(Action::Write((k - n - 2) as u64))
            } else {
                None
            };
            assert_eq!(action(units, step), plain, "step {step} of {units} units");
        }
    }
}

#[test]
fn sets_and_answers() {
    for &units in &NUMBERS {
        for &graph in &NUMBERS {
            for &mask in &NUMBERS {
                for &missing in &NUMBERS {
                    let asked = Asked { units, graph, mask, missing };
                    let few = units <= 7;
                    assert!(few || asked.steps() == 0, "{asked:?}");
                    assert!(!few || asked.steps() < 1 << (2 * units + 3), "{asked:?}");
                    let taken = asked.reads() | asked.taken_news();
                    assert!(if few { taken < 2 << units } else { taken == 0 }, "{asked:?}");
                    for &number in &NUMBERS {
                        assert!(
                            few || !asked.complete(number) && asked.judge(number).is_none(),
                            "{asked:?}"
                        );
                        assert!(few || !asked.ready(0, number), "{asked:?}");
                    }
                }
            }
        }
    }
}
