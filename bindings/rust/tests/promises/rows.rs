//! Single rows, in every way.

use crate::calls::{Case, Room, WAYS};
use crate::plans;
use crate::random::Random;

#[test]
fn every_way_to_a_row_gives_a_right_one() {
    plans::try_each("rows", 2, |random, case| {
        for source in plans::sources(random, case, 24) {
            for way in WAYS {
                case.try_row(source, way, room(random, case));
            }
        }
    });
}

/// Room for a row, and sometimes for a few places more.
fn room(random: &mut Random, case: &Case) -> Room {
    let cells = usize::from(case.stations());
    Room { costs: cells + random.below(3), predecessors: cells + random.below(3), facts: random.below(7) }
}
