//! What the types of the wrapper say, beside the answers themselves.

use std::collections::HashSet;
use std::error::Error;

use firnolvag::{
    Cause, Counts, Fault, Kind, Layer, Method, Queue, Refusal, check, route, route_into, row, row_into, sound, table,
    table_by, table_by_into, table_into,
};

use crate::least::Expected;
use crate::plan::{FAR, NONE, Plan, link};
use crate::plans;
use crate::random::Random;

const WAY: (Method, Queue) = (Method::Prune, Queue::Shelf);

#[test]
fn tables_rows_and_routes_say_the_same() {
    let random = &mut Random::of_test("wrapper", 20);
    for _ in 0..500 {
        let plan = plans::random_plan(random, 12, 40);
        let file = plan.file();
        let counts = Counts { kind: plan.kind, stations: plan.stations, links: plan.links.len() as u16 };
        assert_eq!(sound(&file), Ok(counts));
        let expected = Expected::of(plan);
        for table in [table(&file).unwrap(), table_by(&file, WAY.0, WAY.1).unwrap()] {
            assert_eq!(table.stations(), counts.stations);
            for source in 0..counts.stations {
                let worked = row(&file, source, WAY.0, WAY.1).unwrap();
                for row in [table.row(source), worked.row()] {
                    assert_row(&file, &expected, source, row);
                }
            }
        }
    }
}

fn assert_row(file: &[u8], expected: &Expected, source: u16, row: firnolvag::Row<'_>) {
    assert_eq!(row.source(), source);
    expected.assert_row(source, row.costs(), row.predecessors());
    assert_eq!(check(file, source, row.costs(), row.predecessors()), Ok(()));
    for to in 0..expected.plan.stations {
        let cost = Some(expected.costs(source)[usize::from(to)]).filter(|cost| *cost < FAR);
        assert_eq!(row.cost(to), cost);
        assert_eq!(row.predecessor(to).is_some(), cost.is_some() && to != source);
        assert_eq!(row.route(to).map(|route| route.cost), cost);
        for found in [row.route(to), route(file, source, to).ok()].into_iter().flatten() {
            expected.assert_route(source, to, &found.stations);
        }
    }
}

/// Two stations, and a link from the first to the second.
fn pair() -> Vec<u8> {
    Plan { kind: Kind::Split, stations: 2, links: vec![link(0, 1, 3)] }.file()
}

#[test]
fn slices_are_filled_at_their_start() {
    let file = pair();
    let (mut costs, mut predecessors) = ([9; 5], [9; 6]);
    assert_eq!(table_into(&file, &mut costs, &mut predecessors), Ok(2));
    assert_eq!((costs, predecessors), ([1, 3, FAR, 1, 9], [NONE, 0, NONE, NONE, 9, 9]));

    let (mut costs, mut predecessors) = ([9; 5], [9; 6]);
    assert_eq!(table_by_into(&file, WAY.0, WAY.1, &mut costs, &mut predecessors), Ok(2));
    assert_eq!((costs, predecessors), ([1, 3, FAR, 1, 9], [NONE, 0, NONE, NONE, 9, 9]));

    let (mut costs, mut predecessors) = ([9; 3], [9; 4]);
    assert_eq!(row_into(&file, 0, WAY.0, WAY.1, &mut costs, &mut predecessors), Ok((2, 2)));
    assert_eq!((costs, predecessors), ([1, 3, 9], [NONE, 0, 9, 9]));

    let mut list = [9; 3];
    assert_eq!(route_into(&file, 0, 1, &mut list), Ok((&[0, 1][..], 3)));
    assert_eq!(list, [0, 1, 9]);
}

#[test]
fn slices_that_are_too_short_are_refused() {
    let file = pair();
    assert_eq!(table_into(&file, &mut [9; 3], &mut [9; 4]), Err(Refusal::Counts));
    assert_eq!(table_by_into(&file, WAY.0, WAY.1, &mut [9; 4], &mut []), Err(Refusal::Counts));
    assert_eq!(row_into(&file, 0, WAY.0, WAY.1, &mut [9; 2], &mut [9; 1]), Err(Refusal::Short));
    assert_eq!(route_into(&file, 0, 1, &mut [9; 1]), Err(Refusal::Short));
    assert_eq!(check(&file, 0, &[1, 3, FAR], &[NONE, 0]), Err(Refusal::RowLength));
}

#[test]
fn refusals_carry_their_facts() {
    let file = pair();
    assert_eq!(row(&file, 2, WAY.0, WAY.1), Err(Refusal::NoStation));
    assert_eq!(route(&file, 1, 0), Err(Refusal::IsFar));
    let refused = Refusal::Row { station: 1, cause: Cause::OtherCost };
    assert_eq!(check(&file, 0, &[1, 2,], &[NONE, 0]), Err(refused));
    let refused = Refusal::Record { record: 1, fault: Fault::Repeated, layer: Layer::Record };
    let links = vec![link(0, 1, 3), link(0, 1, 3)];
    assert_eq!(sound(&Plan { kind: Kind::Split, stations: 2, links }.file()), Err(refused));
    let refused = Refusal::Record { record: 0, fault: Fault::Cost, layer: Layer::Field };
    let links = vec![link(0, 0, 1), link(0, 1, 3)];
    assert_eq!(table(&Plan { kind: Kind::Split, stations: 2, links }.file()), Err(refused));
}

#[test]
fn refusals_say_why_in_one_line_each() {
    let record = |fault, layer| Refusal::Record { record: 7, fault, layer };
    let row = |cause| Refusal::Row { station: 7, cause };
    let numbered = [
        (3, Refusal::NoStation),
        (11, Refusal::IsFar),
        (12, Refusal::Short),
        (13, Refusal::RowLength),
        (14, row(Cause::Source)),
        (14, row(Cause::Unpaired)),
        (14, row(Cause::NoLink)),
        (14, row(Cause::OtherCost)),
        (14, row(Cause::Undercut)),
        (15, Refusal::ShortHeader),
        (16, Refusal::Mark),
        (17, Refusal::Version),
        (18, Refusal::Kind),
        (19, Refusal::Counts),
        (20, Refusal::Length),
        (22, record(Fault::Cost, Layer::Field)),
        (22, record(Fault::NoStation, Layer::Record)),
        (22, record(Fault::Loop, Layer::Record)),
        (22, record(Fault::Repeated, Layer::Record)),
        (101, Refusal::NoMethod),
        (102, Refusal::NoQueue),
    ];
    let mut said = HashSet::new();
    for (number, refusal) in numbered {
        assert_eq!(refusal.number(), number);
        let text = (&refusal as &dyn Error).to_string();
        assert!(!text.is_empty() && !text.contains('\n') && said.insert(text));
    }
    assert_eq!(row(Cause::Source).to_string().split(':').next(), Some("station 7 fails"));
}

#[test]
fn empty_slices_may_be_lent() {
    assert_eq!(sound(&[]), Err(Refusal::ShortHeader));
    assert_eq!(table_into(&[], &mut [], &mut []), Err(Refusal::ShortHeader));
    assert_eq!(route_into(&pair(), 0, 0, &mut []), Err(Refusal::Short));
    assert_eq!(check(&pair(), 0, &[], &[]), Err(Refusal::RowLength));
}

#[test]
#[should_panic(expected = "station 2 of a plan of 2")]
fn a_source_that_is_no_station_panics() {
    table(&pair()).unwrap().cost(2, 0);
}

#[test]
#[should_panic(expected = "index out of bounds")]
fn a_look_at_what_is_no_station_panics() {
    table(&pair()).unwrap().cost(1, 2);
}
