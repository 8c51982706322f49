//! The longest request: 2n+3 accepted steps are reached for every N in both layouts, and never more.

use crate::scene::Scene;
use crate::tested;
use harness::plain::LAYOUTS;

const UNITS: [u8; 7] = [0x11, 0x22, 0x44, 0x88, 0x0F, 0xF0, 0x3C];

/// Puts off every step on a position's card as long as others can be taken, then has the card die
/// and goes on to the end. The count that collect answers.
fn put_off(scene: &mut Scene, record: u64, stripe: u64, position: u64) -> u64 {
    let units = scene.units();
    let shy = [position, units + 2 + position];
    let others = || (0..=2 * units + 2).filter(|step| !shy.contains(step));
    while others().any(|step| scene.ask_step(record, step).number == 0) {}
    scene.fail(stripe, position);
    scene.finish(record);
    scene.collect(record)
}

#[test]
fn the_longest_request_of_every_array() {
    LAYOUTS.into_iter().for_each(|layout| longest_of_every_array(layout, false));
}

/// The same in a stripe that is filled, when its fresh card dies.
#[test]
fn the_longest_request_over_a_fresh_card() {
    LAYOUTS.into_iter().for_each(|layout| longest_of_every_array(layout, true));
}

/// Every request of every N in some stripes of a layout: on whole cards, or with the card filled that is going to die.
fn longest_of_every_array(layout: u64, fresh: bool) {
    for cards in 3..=8 {
        let units = cards - 1;
        let mut longest = 0;
        for stripe in [0, 1, cards - 1] {
            for mask in 1..1 << units {
                for position in 0..=units {
                    for write in [false, true] {
                        let calls = tested();
                        let old = &UNITS[..units as usize];
                        let mut scene = Scene::new(&calls, layout, cards + 1, old);
                        if fresh {
                            scene.fail(stripe, position);
                            scene.decay(0xDD);
                            scene.start();
                            scene.rebuild_to(stripe + 1);
                        }
                        let new: Vec<(u64, u8)> = (0..units)
                            .filter(|unit| mask >> unit & 1 == 1)
                            .map(|unit| (unit, 0xC0 + unit as u8))
                            .collect();
                        let record = if write {
                            scene.write(stripe, &new)
                        } else {
                            scene.read(stripe, mask)
                        };
                        let count = put_off(&mut scene, record, stripe, position);
                        assert!(count <= 2 * units + 3, "N = {cards}, mask {mask:b}: {count}");
                        longest = longest.max(count);

                        let mut row = old.to_vec();
                        for &(unit, byte) in new.iter().filter(|_| write) {
                            row[unit as usize] = byte;
                        }
                        assert_eq!(scene.read_back(stripe, (1 << units) - 1), row);
                    }
                }
            }
        }
        assert_eq!(longest, 2 * units + 3, "N = {cards}, layout {layout}");
    }
}
