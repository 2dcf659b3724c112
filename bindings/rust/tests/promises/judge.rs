//! Which stations of a supplier's row fail, and by which causes.

use firnolvag::Kind;

use crate::least::Expected;
use crate::plan::{FAR, NONE, join, meant, zero};

/// A supplier's row.
#[derive(Clone, Debug)]
pub struct Supplied {
    pub source: u16,
    pub costs: Vec<u64>,
    pub predecessors: Vec<u16>,
}

/// Each station that fails, with each cause by which it does. None fails in a right row.
pub fn failures(expected: &Expected, row: &Supplied) -> Vec<(u16, u8)> {
    let plan = &expected.plan;
    let mut found = Vec::new();
    for station in 0..plan.stations {
        let causes = [
            fails_as_source(plan.kind, row, station).then_some(1),
            fails_in_pairing(plan.kind, row, station).then_some(2),
            fails_by_predecessor(expected, row, station),
        ];
        found.extend(causes.into_iter().flatten().map(|cause| (station, cause)));
    }
    for link in &plan.links {
        let offered = join(plan.kind, cost(plan.kind, row, link.from), link.cost);
        if offered < cost(plan.kind, row, link.to) {
            found.push((link.to, 5));
        }
    }
    found
}

fn cost(kind: Kind, row: &Supplied, station: u16) -> u64 {
    meant(kind, row.costs[usize::from(station)])
}

fn fails_as_source(kind: Kind, row: &Supplied, station: u16) -> bool {
    let standing_still = cost(kind, row, station) == zero(kind) && row.predecessors[usize::from(station)] == NONE;
    station == row.source && !standing_still
}

fn fails_in_pairing(kind: Kind, row: &Supplied, station: u16) -> bool {
    let far = cost(kind, row, station) == FAR;
    let missing = row.predecessors[usize::from(station)] == NONE;
    station != row.source && far != missing
}

/// Cause 3 or 4, which exclude each other.
fn fails_by_predecessor(expected: &Expected, row: &Supplied, station: u16) -> Option<u8> {
    let predecessor = row.predecessors[usize::from(station)];
    if predecessor == NONE {
        return None;
    }
    match expected.link(predecessor, station) {
        None => Some(3),
        Some(link) => {
            let kind = expected.plan.kind;
            let joined = join(kind, cost(kind, row, predecessor), link);
            (joined != cost(kind, row, station)).then_some(4)
        }
    }
}
