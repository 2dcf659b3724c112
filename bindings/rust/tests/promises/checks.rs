//! Suppliers' rows.

use firnolvag::Kind;

use crate::calls::Case;
use crate::judge::Supplied;
use crate::plan::{FAR, NONE, zero};
use crate::plans;
use crate::random::Random;

/// How many rows were passed and how many refused, and for how many a cause was the only one to be found.
#[derive(Default)]
struct Seen {
    passed: usize,
    refused: usize,
    alone: [usize; 6],
}

#[test]
fn a_row_is_passed_exactly_when_it_is_right() {
    let mut seen = Seen::default();
    plans::try_each("checks", 4, |random, case| {
        for source in plans::sources(random, case, 2) {
            let right = right_row(random, case, source);
            assert_eq!(case.try_check(&right, random.below(7)), [], "the judge passes a right row");
            seen.passed += 1;
            for spoils in [1, 1, 1, 1, 1, 1, 2, 5] {
                let mut row = right.clone();
                for _ in 0..spoils {
                    spoil(random, case, &mut row);
                }
                note(&mut seen, &case.try_check(&row, random.below(7)));
            }
            let overlooking = overlooking_row(random, case, &right);
            note(&mut seen, &case.try_check(&overlooking, random.below(7)));
        }
    });
    println!("checks: {} rows passed, {} refused", seen.passed, seen.refused);
    for cause in 1..=5 {
        println!("checks: {} rows at fault by cause {cause} alone", seen.alone[cause]);
        assert!(seen.alone[cause] > 100, "rows that show cause {cause}");
    }
}

fn note(seen: &mut Seen, failures: &[(u16, u8)]) {
    match failures {
        [] => seen.passed += 1,
        [(_, first), others @ ..] => {
            seen.refused += 1;
            if others.iter().all(|(_, cause)| cause == first) {
                seen.alone[usize::from(*first)] += 1;
            }
        }
    }
}

/// A right row, with any of the predecessors that are allowed. In split some costs at FAR are told as 0.
fn right_row(random: &mut Random, case: &Case, source: u16) -> Supplied {
    let expected = case.expected();
    let mut costs = expected.costs(source).to_vec();
    if expected.plan.kind == Kind::Split {
        for cost in costs.iter_mut().filter(|cost| **cost == FAR) {
            *cost = random.pick(&[0, FAR]);
        }
    }
    Supplied { source, costs, predecessors: expected.predecessors(random, source) }
}

/// The row of a plan that lacks one of the links by which a right row goes: it overlooks that link, and is else in order.
fn overlooking_row(random: &mut Random, case: &Case, right: &Supplied) -> Supplied {
    let station = random.station(case.stations());
    let predecessor = right.predecessors[usize::from(station)];
    let mut plan = case.expected().plan.clone();
    plan.links.retain(|link| (link.from, link.to) != (predecessor, station));
    right_row(random, &Case::of(plan.file()), right.source)
}

/// Changes a row in one place; it may still be right then.
fn spoil(random: &mut Random, case: &Case, row: &mut Supplied) {
    let station = if random.once_in(5) { row.source } else { random.station(case.stations()) };
    let place = usize::from(station);
    if random.once_in(2) {
        row.costs[place] = other_cost(random, case, row, place);
    } else {
        row.predecessors[place] = other_predecessor(random, case, station);
    }
}

fn other_cost(random: &mut Random, case: &Case, row: &Supplied, place: usize) -> u64 {
    let near = row.costs[place];
    match random.below(7) {
        0 => near.wrapping_add(1),
        1 => near.wrapping_sub(1),
        2 => FAR,
        3 => random.pick(&[0, 1, FAR - 1]),
        4 => zero(case.expected().plan.kind),
        5 => random.next(),
        _ => random.pick(&row.costs),
    }
}

fn other_predecessor(random: &mut Random, case: &Case, station: u16) -> u16 {
    let stations = case.stations();
    match random.below(5) {
        0 => NONE,
        1 => random.pick(&[stations, stations + 1, 256, NONE - 1]),
        2 => random.station(stations),
        _ => {
            let links = case.expected().plan.links.iter().filter(|link| link.to == station);
            let before: Vec<u16> = links.map(|link| link.from).collect();
            if before.is_empty() { NONE } else { random.pick(&before) }
        }
    }
}
