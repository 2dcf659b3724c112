//! Whole tables, in every way.

use crate::calls::{Case, Room, WAYS};
use crate::plans;
use crate::random::Random;

#[test]
fn every_way_to_a_table_gives_right_rows() {
    plans::try_each("tables", 1, |random, case| {
        for way in [None].into_iter().chain(WAYS.map(Some)) {
            case.try_table(way, room(random, case));
        }
    });
}

/// Room for the table, and sometimes for a few places more.
fn room(random: &mut Random, case: &Case) -> Room {
    let cells = usize::from(case.stations()).pow(2);
    Room { costs: cells + random.below(3), predecessors: cells + random.below(3), facts: random.below(7) }
}
