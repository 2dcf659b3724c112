//! Damaged files, against an independent reader.

use std::collections::BTreeMap;

use firnolvag::Kind;

use crate::calls::{Case, Room, WAYS};
use crate::judge::Supplied;
use crate::plan::{FAR, Link, NONE, Plan, link, link_range};
use crate::plans;
use crate::random::Random;

const FILES: usize = 60_000;
const LARGE_FILES: usize = 300;

/// How often each refusal of a file was met, with the fault of the record; 0 is a file that is still sound.
type Met = BTreeMap<(u8, u64), usize>;

#[test]
fn a_damaged_file_is_refused_by_the_first_refusal_that_fits() {
    let random = &mut Random::of_test("damaged files", 5);
    let mut met = Met::new();
    for _ in 0..FILES {
        let file = damaged(random, 12, 30);
        try_file(random, file, &mut met);
    }
    for _ in 0..LARGE_FILES {
        let file = damaged(random, 256, 4096);
        try_file(random, file, &mut met);
    }
    println!("damaged files: {FILES} of up to 12 stations, {LARGE_FILES} of up to 256");
    for ((answer, fault), count) in &met {
        println!("damaged files: answer {answer}, fault {fault}: {count} files");
    }
    let every = [(0, 0), (15, 0), (16, 0), (17, 0), (18, 0), (19, 0), (20, 0), (22, 21), (22, 3), (22, 4), (22, 6)];
    for refusal in every {
        assert!(met.get(&refusal).is_some_and(|count| *count > 100), "files that show {refusal:?}");
    }
}

#[test]
fn a_file_cut_at_any_length_is_refused() {
    let random = &mut Random::of_test("cut files", 6);
    let mut met = Met::new();
    for _ in 0..20 {
        let file = plans::random_plan(random, 6, 9).file();
        for length in 0..file.len() {
            try_file(random, file[..length].to_vec(), &mut met);
        }
    }
    println!("cut files: {met:?}");
    assert!(met.keys().all(|(answer, _)| [15, 20].contains(answer)));
}

#[test]
fn counts_are_refused_from_the_first_number_beyond_their_range() {
    let random = &mut Random::of_test("counts", 7);
    let mut met = Met::new();
    for stations in [0, 1, 2, 255, 256, 257, 512, 0x8000, NONE] {
        for links in [0, 1, 4095, 4096, 4097, 0x8000, NONE] {
            for records in [0, 1, 4095, 4096, 4097] {
                let mut file = Plan { kind: Kind::Sum, stations, links: vec![link(0, 1, 5); records] }.file();
                file[8..10].copy_from_slice(&u16::to_be_bytes(links));
                try_file(random, file, &mut met);
            }
        }
    }
    println!("counts: {met:?}");
}

#[test]
fn a_fault_is_found_in_any_record_of_the_longest_file() {
    let random = &mut Random::of_test("longest files", 8);
    let mut met = Met::new();
    let sound = plans::longest(random);
    let last = sound.links.len() - 1;
    for place in [0, 1, last / 2, last - 1, last] {
        let Link { from, to, cost } = sound.links[place];
        let other = sound.links[if place == 0 { last } else { random.below(place) }];
        let faulty = [link(from, to, 0), link(from, 256, cost), link(from, from, cost), link(other.from, other.to, cost)];
        for record in faulty {
            let mut plan = sound.clone();
            plan.links[place] = record;
            try_file(random, plan.file(), &mut met);
        }
    }
    println!("longest files: {met:?}");
    assert_eq!(met, Met::from([((22, 21), 5), ((22, 3), 5), ((22, 4), 5), ((22, 6), 5)]));
}

/// Tries every call with a file, with arguments that are often right.
fn try_file(random: &mut Random, file: Vec<u8>, met: &mut Met) {
    let case = &Case::of(file);
    let facts = random.below(7);
    let size = usize::from(case.stations());
    let source = random.station(case.stations().max(1));
    case.try_sound(facts);
    let cells = random.pick(&[size * size, size * size + 1, 144, 0]);
    let room = Room { costs: cells, predecessors: random.pick(&[cells, cells + 1, 144, 7]), facts };
    let way = random.pick(&WAYS);
    case.try_table(random.pick(&[None, Some(way)]), room);
    case.try_row(source, way, Room { costs: size, predecessors: size + 1, facts });
    let _ = case.try_route(source, random.station(12), size, facts);
    case.try_check(&Supplied { source, costs: vec![FAR; size], predecessors: vec![NONE; size] }, facts);
    let kind_of_answer = match case.refusal() {
        None => (0, 0),
        Some(refused) => (refused.answer, refused.facts.get(1).copied().unwrap_or(0)),
    };
    *met.entry(kind_of_answer).or_default() += 1;
}

/// A file of a random plan with some damage, or of random bytes.
fn damaged(random: &mut Random, most_stations: u16, most_links: usize) -> Vec<u8> {
    if random.once_in(20) {
        return random_bytes(random);
    }
    let mut plan = plans::random_plan(random, most_stations, most_links);
    if random.once_in(2) {
        for _ in 0..random.pick(&[1, 1, 2, 4]) {
            damage_record(random, &mut plan);
        }
    }
    let mut file = plan.file();
    if random.once_in(2) {
        for _ in 0..random.pick(&[1, 1, 2, 3]) {
            damage_bytes(random, &mut file);
        }
    }
    file
}

/// Random bytes, often after the start of a header.
fn random_bytes(random: &mut Random) -> Vec<u8> {
    let start: &[u8] = random.pick(&[b"", b"CP", b"CPL", b"CPL\x00\x01", b"CPL\x00\x01\x00\x00\x05\x00\x02"]);
    let count = random.below(60);
    start.iter().copied().chain((0..count).map(|_| random.next() as u8)).collect()
}

/// Puts a fault, or several, into one record of a plan; now and then what is put is none.
fn damage_record(random: &mut Random, plan: &mut Plan) {
    if plan.links.is_empty() {
        return;
    }
    let place = random.below(plan.links.len());
    let other = plan.links[random.below(plan.links.len())];
    let (least, most) = link_range(plan.kind);
    let costs = [0, least - 1, least, most, most + 1, 1 << 32 | least, least << 56, FAR - 1, FAR];
    let strangers = [plan.stations, plan.stations + 1, 256, 256 + plan.stations, NONE];
    let link = &mut plan.links[place];
    for _ in 0..random.pick(&[1, 1, 2, 3]) {
        match random.below(6) {
            0 => link.cost = random.pick(&costs),
            1 => link.from = random.pick(&strangers),
            2 => link.to = random.pick(&strangers),
            3 => link.to = link.from,
            4 => (link.from, link.to) = (other.from, other.to),
            _ => (link.from, link.to) = (link.to, link.from),
        }
    }
}

/// Damages a file in one place.
fn damage_bytes(random: &mut Random, file: &mut Vec<u8>) {
    match random.below(8) {
        0 => file.truncate(random.below(file.len() + 1)),
        1 => file.truncate(random.below(12)),
        2 => file.extend(vec![random.next() as u8; 1 + random.below(24)]),
        3 => put(file, random.pick(&[0, 1, 2]), random.next() as u8),
        4 => put(file, random.pick(&[3, 4, 5]), random.pick(&[0, 1, 2, 255])),
        5 => {
            let (place, number) = (random.pick(&[6, 8]), random.pick(&[0, 1, 2, 255, 256, 257, 4096, 4097, NONE]));
            let [high, low] = number.to_be_bytes();
            put(file, place, high);
            put(file, place + 1, low);
        }
        6 => flip(random, file, 10),
        _ => flip(random, file, usize::MAX),
    }
}

/// Flips one bit, in one of the first bytes.
fn flip(random: &mut Random, file: &mut [u8], bytes: usize) {
    let bytes = bytes.min(file.len());
    if bytes > 0 {
        file[random.below(bytes)] ^= 1 << random.below(8);
    }
}

/// Sets a byte, where the file is long enough to have it.
fn put(file: &mut [u8], place: usize, byte: u8) {
    if let Some(old) = file.get_mut(place) {
        *old = byte;
    }
}
