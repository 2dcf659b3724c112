//! Plans whose rows were worked by hand.

use firnolvag::{Cause, Kind, Method, Queue, Refusal, Route, check, route, row, table};

use crate::plan::{FAR, NONE, Plan, link};

const METHODS: [Method; 3] = [Method::Plain, Method::Reuse, Method::Prune];
const QUEUES: [Queue; 2] = [Queue::Heap, Queue::Shelf];

/// Five stations, the last of which nothing reaches.
fn five_stations() -> Vec<u8> {
    let links = vec![link(0, 1, 4), link(0, 2, 1), link(2, 1, 2), link(1, 3, 5), link(2, 3, 8)];
    Plan { kind: Kind::Sum, stations: 5, links }.file()
}

/// Eight stations; four walks from 0 to 5 cost the least.
fn eight_stations() -> Vec<u8> {
    let ones = [(0, 1), (0, 2), (1, 6), (6, 3), (2, 7), (7, 4), (3, 5), (4, 5)];
    let twos = [(2, 3), (1, 4)];
    let at = |cost| move |(from, to)| link(from, to, cost);
    let links = ones.into_iter().map(at(1)).chain(twos.into_iter().map(at(2))).collect();
    Plan { kind: Kind::Sum, stations: 8, links }.file()
}

#[test]
fn five_stations_have_one_right_row_of_source_0() {
    let file = five_stations();
    for method in METHODS {
        for queue in QUEUES {
            let worked = row(&file, 0, method, queue).unwrap();
            assert_eq!(worked.row().costs(), [0, 3, 1, 8, FAR]);
            assert_eq!(worked.row().predecessors(), [NONE, 2, 0, 1, NONE]);
            assert_eq!(worked.taken(), 4);
            assert_eq!(row(&file, 4, method, queue).unwrap().taken(), 1);
        }
    }
    assert_eq!(route(&file, 0, 3), Ok(Route { stations: vec![0, 2, 1, 3], cost: 8 }));
    assert_eq!(route(&file, 4, 4), Ok(Route { stations: vec![4], cost: 0 }));
}

#[test]
fn a_row_of_five_stations_that_overlooks_a_cheaper_walk_is_refused() {
    let file = five_stations();
    assert_eq!(check(&file, 0, &[0, 3, 1, 8, FAR], &[NONE, 2, 0, 1, NONE]), Ok(()));
    let refused = Refusal::Row { station: 3, cause: Cause::Undercut };
    assert_eq!(check(&file, 0, &[0, 3, 1, 9, FAR], &[NONE, 2, 0, 2, NONE]), Err(refused));
}

#[test]
fn eight_stations_are_all_reached_from_the_first() {
    let file = eight_stations();
    let table = table(&file).unwrap();
    assert_eq!(table.row(0).costs(), [0, 1, 1, 3, 3, 4, 2, 2]);
    assert_eq!(table.cost(0, 5), Some(4));
    // two of the four walks pass four stations, and two pass five
    assert!([4, 5].contains(&table.route(0, 5).unwrap().stations.len()));
    let reached = |source| row(&file, source, Method::Plain, Queue::Heap).unwrap().taken();
    assert_eq!([reached(0), reached(1), reached(2)], [8, 5, 5]);
}

#[test]
fn ten_links_of_64_outlets_are_below_far_and_eleven_are_not() {
    let links = (0..11).map(|station| link(station, station + 1, 64)).collect();
    let file = Plan { kind: Kind::Split, stations: 12, links }.file();
    let table = table(&file).unwrap();
    assert_eq!(table.cost(0, 10), Some(1 << 60));
    assert_eq!(table.cost(0, 11), None);
    assert_eq!(table.predecessor(0, 11), None);
    assert_eq!(table.cost(1, 11), Some(1 << 60));
    assert_eq!(route(&file, 0, 11), Err(Refusal::IsFar));
}
