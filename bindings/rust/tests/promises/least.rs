//! Least costs, worked out anew, and what follows from them.

use std::cell::OnceCell;
use std::cmp::Reverse;
use std::collections::{BinaryHeap, HashMap};
use std::ops::RangeInclusive;

use crate::plan::{FAR, NONE, Plan, join, zero};
use crate::random::Random;

/// What is to be expected of the rows of a plan.
pub struct Expected {
    pub plan: Plan,
    departures: Vec<Vec<(u16, u64)>>,
    pairs: HashMap<(u16, u16), u64>,
    rows: Vec<OnceCell<Vec<u64>>>,
}

impl Expected {
    pub fn of(plan: Plan) -> Expected {
        let mut departures = vec![Vec::new(); plan.size()];
        let mut pairs = HashMap::new();
        for link in &plan.links {
            departures[usize::from(link.from)].push((link.to, link.cost));
            pairs.insert((link.from, link.to), link.cost);
        }
        let rows = vec![OnceCell::new(); plan.size()];
        Expected { plan, departures, pairs, rows }
    }

    /// The least cost from a source to each station.
    pub fn costs(&self, source: u16) -> &[u64] {
        self.rows[usize::from(source)].get_or_init(|| self.work(source))
    }

    fn work(&self, source: u16) -> Vec<u64> {
        let kind = self.plan.kind;
        let mut costs = vec![FAR; self.plan.size()];
        costs[usize::from(source)] = zero(kind);
        let mut waiting = BinaryHeap::from([Reverse((zero(kind), source))]);
        while let Some(Reverse((cost, station))) = waiting.pop() {
            if cost > costs[usize::from(station)] {
                continue;
            }
            for (to, link) in &self.departures[usize::from(station)] {
                let joined = join(kind, cost, *link);
                if joined < costs[usize::from(*to)] {
                    costs[usize::from(*to)] = joined;
                    waiting.push(Reverse((joined, *to)));
                }
            }
        }
        costs
    }

    /// The cost of the link from one station to another.
    pub fn link(&self, from: u16, to: u16) -> Option<u64> {
        self.pairs.get(&(from, to)).copied()
    }

    /// May the row of a source have this predecessor for a station?
    ///
    /// None is missing but at the source and at FAR. One that is given stands last before the station on a walk of the least
    /// cost: as joining keeps the order of costs and always goes above, that is so just where the predecessor's least cost,
    /// joined with the link to the station, is the station's own.
    pub fn allows(&self, source: u16, station: u16, predecessor: u16) -> bool {
        let costs = self.costs(source);
        let cost = costs[usize::from(station)];
        if station == source || cost == FAR {
            return predecessor == NONE;
        }
        match self.link(predecessor, station) {
            Some(link) => join(self.plan.kind, costs[usize::from(predecessor)], link) == cost,
            None => false,
        }
    }

    /// The predecessors of a right row, each one chosen at random among those that are allowed.
    pub fn predecessors(&self, random: &mut Random, source: u16) -> Vec<u16> {
        let mut chosen = vec![NONE; self.plan.size()];
        for place in random.shuffled(self.plan.links.len()) {
            let link = self.plan.links[place];
            if self.allows(source, link.to, link.from) {
                chosen[usize::from(link.to)] = link.from;
            }
        }
        chosen
    }

    /// How many stations a walk of least cost may have, from a source to a station below FAR: the fewest to the most.
    pub fn route_lengths(&self, source: u16, to: u16) -> RangeInclusive<usize> {
        let costs = self.costs(source);
        let mut rising: Vec<u16> = (0..self.plan.stations).filter(|station| costs[usize::from(*station)] < FAR).collect();
        rising.sort_by_key(|station| costs[usize::from(*station)]);
        let (mut fewest, mut most) = (vec![usize::MAX; costs.len()], vec![0; costs.len()]);
        (fewest[usize::from(source)], most[usize::from(source)]) = (1, 1);
        for station in rising {
            let here = usize::from(station);
            for (next, _) in &self.departures[here] {
                if self.allows(source, *next, station) {
                    let there = usize::from(*next);
                    fewest[there] = fewest[there].min(fewest[here] + 1);
                    most[there] = most[there].max(most[here] + 1);
                }
            }
        }
        fewest[usize::from(to)]..=most[usize::from(to)]
    }

    /// Fails unless this is a right row of the source.
    pub fn assert_row(&self, source: u16, costs: &[u64], predecessors: &[u16]) {
        assert_eq!(costs, self.costs(source), "costs of row {source} of {:?}", self.plan);
        assert_eq!(predecessors.len(), costs.len());
        for (station, predecessor) in (0..).zip(predecessors) {
            let allowed = self.allows(source, station, *predecessor);
            assert!(allowed, "predecessor {predecessor} of {station} in row {source} of {:?}", self.plan);
        }
    }

    /// Fails unless the stations are a walk of least cost, past no station twice.
    pub fn assert_route(&self, from: u16, to: u16, stations: &[u16]) {
        let context = || format!("route {stations:?} from {from} to {to} of {:?}", self.plan);
        assert_eq!((stations.first(), stations.last()), (Some(&from), Some(&to)), "{}", context());
        let mut cost = zero(self.plan.kind);
        for step in stations.windows(2) {
            let link = self.link(step[0], step[1]).unwrap_or_else(|| panic!("no link: {}", context()));
            cost = join(self.plan.kind, cost, link);
        }
        assert_eq!(cost, self.costs(from)[usize::from(to)], "{}", context());
        let mut sorted = stations.to_vec();
        sorted.sort_unstable();
        sorted.dedup();
        assert_eq!(sorted.len(), stations.len(), "{}", context());
    }
}
