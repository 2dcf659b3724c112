//! Plans to try: some at the bounds of the rules, and many at random.

use firnolvag::Kind;

use crate::calls::Case;
use crate::plan::{Link, Plan, link, link_range};
use crate::random::Random;

const KINDS: [Kind; 2] = [Kind::Sum, Kind::Split];
const MOST_STATIONS: u16 = 256;
const MOST_LINKS: usize = 4096;

/// Random plans: how many, and how many stations and links they have at most.
const SIZES: [(usize, u16, usize); 3] = [(6_000, 24, 160), (400, 64, 900), (40, MOST_STATIONS, MOST_LINKS)];

/// Makes an attempt with every plan at the bounds, and with thousands of random ones; prints how many there were.
pub fn try_each(test: &str, seed: u64, mut attempt: impl FnMut(&mut Random, &Case)) {
    let random = &mut Random::of_test(test, seed);
    let bounds = at_the_bounds(random);
    for plan in &bounds {
        attempt(random, &Case::of(plan.file()));
    }
    for (count, stations, links) in SIZES {
        for _ in 0..count {
            let plan = random_plan(random, stations, links);
            attempt(random, &Case::of(plan.file()));
        }
    }
    let [small, middle, large] = SIZES.map(|(count, stations, _)| format!("{count} of up to {stations} stations"));
    println!("{test}: {} plans at the bounds, {small}, {middle}, {large}", bounds.len());
}

/// A random plan of so many stations and links at most.
pub fn random_plan(random: &mut Random, most_stations: u16, most_links: usize) -> Plan {
    let kind = random.pick(&KINDS);
    let stations = 1 + random.station(most_stations);
    let costs = random_costs(random, kind);
    let every_pair = usize::from(stations) * usize::from(stations - 1);
    let most = random.pick(&[usize::from(stations), 3 * usize::from(stations), every_pair]).min(every_pair).min(most_links);
    let count = if random.once_in(4) { most } else { random.below(most + 1) };
    let links = random_links(random, stations, count, &costs);
    Plan { kind, stations, links }
}

/// So many links at random, no pair twice, with costs out of a list.
fn random_links(random: &mut Random, stations: u16, count: usize, costs: &[u64]) -> Vec<Link> {
    let others = usize::from(stations - 1);
    let pairs = random.shuffled(usize::from(stations) * others);
    let mut links = Vec::new();
    for pair in &pairs[..count] {
        let (from, step) = (pair / others, 1 + pair % others);
        let to = (from + step) % usize::from(stations);
        links.push(link(from as u16, to as u16, random.pick(costs)));
    }
    links
}

/// Costs to choose from: out of the whole range, at its ends, or a few low ones that let many walks cost the same.
fn random_costs(random: &mut Random, kind: Kind) -> Vec<u64> {
    let (least, most) = link_range(kind);
    match random.below(5) {
        0 => vec![least, most],
        1 => vec![most - 1, most],
        2 => vec![least, 2 * least],
        3 => (least..=least + 6).collect(),
        _ => (0..64).map(|_| random.between(least, most)).collect(),
    }
}

/// A plan with as many stations and links as there may be.
pub fn longest(random: &mut Random) -> Plan {
    let kind = random.pick(&KINDS);
    let (least, most) = link_range(kind);
    let links = random_links(random, MOST_STATIONS, MOST_LINKS, &[least, most]);
    Plan { kind, stations: MOST_STATIONS, links }
}

/// Plans at the bounds of the rules.
pub fn at_the_bounds(random: &mut Random) -> Vec<Plan> {
    let mut plans = Vec::new();
    for kind in KINDS {
        let (least, most) = link_range(kind);
        for stations in [1, 2, 255, MOST_STATIONS] {
            plans.push(Plan { kind, stations, links: Vec::new() });
        }
        for cost in [least, most] {
            plans.push(Plan { kind, stations: 2, links: vec![link(1, 0, cost)] });
            plans.extend(lines(kind, MOST_STATIONS, cost));
            plans.push(two_rings(kind, cost));
            plans.push(full(kind, cost));
            plans.push(diamonds(kind, cost));
            plans.extend(stars(kind, cost));
        }
        for costs in [vec![least], vec![most], vec![least, most], vec![least, least + 1, 2 * least]] {
            for stations in [65, MOST_STATIONS] {
                let links = random_links(random, stations, MOST_LINKS, &costs);
                plans.push(Plan { kind, stations, links });
            }
        }
    }
    plans.extend(chains_about_far());
    plans
}

/// A line of stations, with its links in the order of the line and in the other one.
fn lines(kind: Kind, stations: u16, cost: u64) -> [Plan; 2] {
    let forward: Vec<Link> = (1..stations).map(|station| link(station - 1, station, cost)).collect();
    let backward = forward.iter().rev().copied().collect();
    [Plan { kind, stations, links: forward }, Plan { kind, stations, links: backward }]
}

/// Two rings of 128 stations, and no link between them.
fn two_rings(kind: Kind, cost: u64) -> Plan {
    let ring = |first: u16| (0..128).map(move |step| link(first + step, first + (step + 1) % 128, cost));
    Plan { kind, stations: 256, links: ring(0).chain(ring(128)).collect() }
}

/// 64 stations, and a link from each to each other.
fn full(kind: Kind, cost: u64) -> Plan {
    let from_each = |from: u16| (0..64).filter(move |to| *to != from).map(move |to| link(from, to, cost));
    Plan { kind, stations: 64, links: (0..64).flat_map(from_each).collect() }
}

/// Stations three by three, from the first of which two ways of equal cost lead to the first of the next three.
fn diamonds(kind: Kind, cost: u64) -> Plan {
    let mut links = Vec::new();
    for first in (0..MOST_STATIONS - 3).step_by(3) {
        for between in [first + 2, first + 1] {
            links.push(link(first, between, cost));
            links.push(link(between, first + 3, cost));
        }
    }
    Plan { kind, stations: MOST_STATIONS, links }
}

/// One station from which a link leads to every other, and one to which a link leads from every other.
fn stars(kind: Kind, cost: u64) -> [Plan; 2] {
    let others = 0..MOST_STATIONS - 1;
    let outward = others.clone().map(|station| link(MOST_STATIONS - 1, station, cost)).collect();
    let inward = others.map(|station| link(station, MOST_STATIONS - 1, cost)).collect();
    [Plan { kind, stations: MOST_STATIONS, links: outward }, Plan { kind, stations: MOST_STATIONS, links: inward }]
}

/// Chains of splits whose products end about 2^64: ten links of 64 are 2^60 and eleven FAR, 63 of 2 are 2^63 and 64 FAR.
/// A second way, at the same cost, leads to each chain's third station.
fn chains_about_far() -> Vec<Plan> {
    let mut plans = Vec::new();
    for (cost, lengths) in [(64, 9..=12), (2, 62..=66), (3, 39..=42), (63, 9..=12)] {
        for length in lengths {
            let mut links: Vec<Link> = (0..length).map(|step| link(step, step + 1, cost)).collect();
            links.push(link(0, length + 1, cost));
            links.push(link(length + 1, 2, cost));
            plans.push(Plan { kind: Kind::Split, stations: length + 2, links });
        }
    }
    plans
}

/// Every station, or so many at random where there are more.
pub fn sources(random: &mut Random, case: &Case, most: usize) -> Vec<u16> {
    let mut sources = random.shuffled(usize::from(case.stations()));
    sources.truncate(most);
    sources.into_iter().map(|source| source as u16).collect()
}
