//! Arguments that calls refuse, alone and several at once: the first refusal in the order of their numbers is told.

use firnolvag::Kind;

use crate::calls::{Case, Room, WAYS, Way};
use crate::judge::Supplied;
use crate::plan::{FAR, NONE, Plan, link};
use crate::plans;
use crate::random::Random;

/// Ways that do not exist, among some that do.
fn ways() -> Vec<Way> {
    let mut ways = Vec::new();
    for method in [0, 2, 3, 4, 255] {
        for queue in [0, 1, 2, 3, 255] {
            ways.push(Way { method, queue });
        }
    }
    ways
}

/// Sound files, and files that are refused by each of 15 to 22.
fn cases(random: &mut Random) -> Vec<Case> {
    let mut files: Vec<Vec<u8>> = (0..40).map(|_| plans::random_plan(random, 9, 20).file()).collect();
    files.push(Plan { kind: Kind::Split, stations: 256, links: vec![link(0, 255, 64)] }.file());
    let sound = Plan { kind: Kind::Sum, stations: 4, links: vec![link(0, 1, 7), link(1, 2, 8)] }.file();
    let faults = [(0, b'c'), (4, 2), (5, 2), (6, 1), (7, 0), (9, 3), (11, 9), (13, 0), (21, 0)];
    for (place, byte) in faults {
        let mut file = sound.clone();
        file[place] = byte;
        files.push(file);
    }
    files.push(sound[..9].to_vec());
    files.push(Vec::new());
    files.into_iter().map(Case::of).collect()
}

/// Station numbers about n, and far from it.
fn stations(case: &Case) -> Vec<u16> {
    let stations = case.stations();
    vec![0, stations.saturating_sub(1), stations, stations + 1, 256, NONE]
}

/// Lengths about one that is just enough.
fn lengths(enough: usize) -> Vec<usize> {
    vec![0, enough.saturating_sub(1), enough, enough + 1]
}

#[test]
fn tables_refuse_short_lists_and_ways_that_do_not_exist() {
    let random = &mut Random::of_test("refused tables", 9);
    let mut calls = 0;
    for case in cases(random) {
        let enough = usize::from(case.stations()).pow(2);
        for way in ways().into_iter().map(Some).chain([None]) {
            for costs in lengths(enough) {
                for predecessors in lengths(enough) {
                    case.try_table(way, Room { costs, predecessors, facts: random.below(7) });
                    calls += 1;
                }
            }
        }
    }
    println!("refused tables: {calls} calls");
}

#[test]
fn rows_refuse_strangers_short_lists_and_ways_that_do_not_exist() {
    let random = &mut Random::of_test("refused rows", 10);
    let mut calls = 0;
    for case in cases(random) {
        for source in stations(&case) {
            for costs in lengths(usize::from(case.stations())) {
                for predecessors in lengths(usize::from(case.stations())) {
                    for way in ways() {
                        case.try_row(source, way, Room { costs, predecessors, facts: random.below(7) });
                        calls += 1;
                    }
                }
            }
        }
    }
    println!("refused rows: {calls} calls");
}

#[test]
fn routes_refuse_strangers_and_lists_that_are_too_short() {
    let random = &mut Random::of_test("refused routes", 11);
    let mut answers = [0; 256];
    for case in cases(random) {
        for from in stations(&case) {
            for to in stations(&case) {
                for places in 0..=usize::from(case.stations()).min(10) + 1 {
                    let answer = case.try_route(from, to, places, random.below(7)).err().unwrap_or(0);
                    answers[usize::from(answer)] += 1;
                }
            }
        }
    }
    println!("refused routes: by 3 {}, by 11 {}, by 12 {}", answers[3], answers[11], answers[12]);
    assert!([3, 11, 12].iter().all(|answer| answers[*answer] > 100));
}

#[test]
fn checks_refuse_strangers_and_lists_of_another_length() {
    let random = &mut Random::of_test("refused checks", 12);
    let mut calls = 0;
    for case in cases(random) {
        for source in stations(&case) {
            for costs in lengths(usize::from(case.stations())) {
                for predecessors in lengths(usize::from(case.stations())) {
                    let row = Supplied { source, costs: vec![FAR; costs], predecessors: vec![NONE; predecessors] };
                    case.try_check(&row, random.below(7));
                    calls += 1;
                }
            }
        }
    }
    println!("refused checks: {calls} calls");
}

#[test]
fn facts_are_told_as_far_as_there_is_room() {
    let random = &mut Random::of_test("facts", 13);
    let cases = cases(random);
    for case in &cases {
        let size = usize::from(case.stations());
        for facts in 0..=6 {
            case.try_sound(facts);
            case.try_table(None, Room { costs: size * size, predecessors: size * size, facts });
            for way in WAYS {
                case.try_table(Some(way), Room { costs: size * size, predecessors: size * size, facts });
                case.try_row(0, way, Room { costs: size, predecessors: size, facts });
            }
            let _ = case.try_route(0, 0, size, facts);
            case.try_check(&Supplied { source: 0, costs: vec![5; size], predecessors: vec![NONE; size] }, facts);
        }
    }
    println!("facts: {} files, 0 to 6 places for facts", cases.len());
}
