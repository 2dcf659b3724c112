//! Calls with one file, each tried against what the rules say of it.

use firnolvag::raw;

use crate::judge::{Supplied, failures};
use crate::least::Expected;
use crate::plan::{FAR, kind_byte};
use crate::reader::{Refused, read, refused};

/// What the places hold that a call is lent: numbers that it never writes.
const UNTOUCHED: u64 = 0xabab_abab_abab_abab;
const UNTOUCHED_STATION: u16 = 0xabab;

/// The number of a method and that of a queue.
#[derive(Clone, Copy, Debug)]
pub struct Way {
    pub method: u8,
    pub queue: u8,
}

/// Every method with every queue.
pub const WAYS: [Way; 6] = [
    Way { method: 0, queue: 0 },
    Way { method: 0, queue: 1 },
    Way { method: 1, queue: 0 },
    Way { method: 1, queue: 1 },
    Way { method: 2, queue: 0 },
    Way { method: 2, queue: 1 },
];

/// How many places a call is lent.
#[derive(Clone, Copy, Debug)]
pub struct Room {
    pub costs: usize,
    pub predecessors: usize,
    pub facts: usize,
}

/// A file, and what is to be expected of calls with it.
pub struct Case {
    file: Vec<u8>,
    read: Result<Expected, Refused>,
}

impl Case {
    pub fn of(file: Vec<u8>) -> Case {
        let read = read(&file, usize::MAX).map(Expected::of);
        Case { file, read }
    }

    /// What is to be expected of a file that is sound.
    pub fn expected(&self) -> &Expected {
        self.read.as_ref().expect("the file is sound")
    }

    /// The number of stations, or 0 where the file is refused.
    pub fn stations(&self) -> u16 {
        self.read.as_ref().map_or(0, |expected| expected.plan.stations)
    }

    /// How the file itself is answered.
    pub fn refusal(&self) -> Option<&Refused> {
        self.read.as_ref().err()
    }

    pub fn try_sound(&self, facts: usize) {
        let mut told = vec![UNTOUCHED; facts];
        let answer = raw::sound(&self.file, &mut told);
        let due = self.read.as_ref().map_err(Refused::clone).map(|expected| {
            let plan = &expected.plan;
            vec![u64::from(kind_byte(plan.kind)), u64::from(plan.stations), plan.links.len() as u64]
        });
        self.assert_told("sound", answer, &told, due);
    }

    /// Tries a whole table: in one way, or as the library chooses.
    pub fn try_table(&self, way: Option<Way>, room: Room) {
        let mut lists = Lists::of(room);
        let (costs, predecessors, told) = lists.lend();
        let answer = match way {
            None => raw::table(&self.file, costs, predecessors, told),
            Some(Way { method, queue }) => raw::table_by(&self.file, method, queue, costs, predecessors, told),
        };
        let due = self.due_of_table(way, room);
        let cells = if due.is_ok() { usize::from(self.stations()).pow(2) } else { 0 };
        self.assert_told(&format!("table {way:?} {room:?}"), answer, &lists.facts, due.map(|stations| vec![stations]));
        self.assert_rows(&lists, 0, cells);
    }

    fn due_of_table(&self, way: Option<Way>, room: Room) -> Result<u64, Refused> {
        let plan = read(&self.file, room.costs.min(room.predecessors))?;
        due_of_way(way)?;
        Ok(u64::from(plan.stations))
    }

    /// Tries one row.
    pub fn try_row(&self, source: u16, way: Way, room: Room) {
        let mut lists = Lists::of(room);
        let (costs, predecessors, told) = lists.lend();
        let answer = raw::row(&self.file, source, way.method, way.queue, costs, predecessors, told);
        let due = self.due_of_row(source, way, room);
        let cells = if due.is_ok() { usize::from(self.stations()) } else { 0 };
        self.assert_told(&format!("row {source} {way:?} {room:?}"), answer, &lists.facts, due);
        self.assert_rows(&lists, source, cells);
    }

    fn due_of_row(&self, source: u16, way: Way, room: Room) -> Result<Vec<u64>, Refused> {
        let expected = self.read.as_ref().map_err(Refused::clone)?;
        self.due_of_stations(&[source])?;
        if room.costs.min(room.predecessors) < expected.plan.size() {
            return Err(refused(12));
        }
        due_of_way(Some(way))?;
        let taken = expected.costs(source).iter().filter(|cost| **cost < FAR).count();
        Ok(vec![u64::from(expected.plan.stations), taken as u64])
    }

    /// Tries a route into a list of so many places. Answers how many stations it has, or the answer of the refused call.
    pub fn try_route(&self, from: u16, to: u16, places: usize, facts: usize) -> Result<usize, u8> {
        let mut list = vec![UNTOUCHED_STATION; places];
        let mut told = vec![UNTOUCHED; facts];
        let answer = raw::route(&self.file, from, to, &mut list, &mut told);
        let stations = list.iter().position(|station| *station == UNTOUCHED_STATION).unwrap_or(places);
        let due = self.due_of_route(from, to, places, answer == 12);
        let facts_due = due.map(|cost| vec![stations as u64, cost]);
        self.assert_told(&format!("route {from} {to} {places}"), answer, &told, facts_due);
        assert!(list[stations..].iter().all(|station| *station == UNTOUCHED_STATION), "places after the route");
        if answer != 0 {
            assert_eq!(stations, 0, "a refused call writes nothing");
            return Err(answer);
        }
        self.expected().assert_route(from, to, &list[..stations]);
        Ok(stations)
    }

    /// The cost of a route, or its refusal. Where several walks cost the least, and the list is too short for some of them
    /// only, the library is free to find it too short or not.
    fn due_of_route(&self, from: u16, to: u16, places: usize, found_short: bool) -> Result<u64, Refused> {
        let expected = self.read.as_ref().map_err(Refused::clone)?;
        self.due_of_stations(&[from, to])?;
        let cost = expected.costs(from)[usize::from(to)];
        if cost == FAR {
            return Err(refused(11));
        }
        if places < expected.plan.size() {
            let lengths = expected.route_lengths(from, to);
            if places < *lengths.start() || places < *lengths.end() && found_short {
                return Err(refused(12));
            }
        }
        Ok(cost)
    }

    /// Tries a supplier's row. Answers every failure that an independent judge finds, or nothing where it is not judged.
    pub fn try_check(&self, row: &Supplied, facts: usize) -> Vec<(u16, u8)> {
        let mut told = vec![UNTOUCHED; facts];
        let answer = raw::check(&self.file, row.source, &row.costs, &row.predecessors, &mut told);
        let context = format!("check {row:?}");
        match self.due_of_check(row) {
            Err(due) => self.assert_told(&context, answer, &told, Err(due)),
            Ok(found) if found.is_empty() => self.assert_told(&context, answer, &told, Ok(vec![])),
            Ok(found) => {
                let named = named_failure(&found, &told);
                self.assert_told(&context, answer, &told, Err(Refused { answer: 14, facts: named }));
                return found;
            }
        }
        Vec::new()
    }

    fn due_of_check(&self, row: &Supplied) -> Result<Vec<(u16, u8)>, Refused> {
        let expected = self.read.as_ref().map_err(Refused::clone)?;
        self.due_of_stations(&[row.source])?;
        if row.costs.len() != expected.plan.size() || row.predecessors.len() != expected.plan.size() {
            return Err(refused(13));
        }
        Ok(failures(expected, row))
    }

    fn due_of_stations(&self, stations: &[u16]) -> Result<(), Refused> {
        if stations.iter().all(|station| *station < self.stations()) { Ok(()) } else { Err(refused(3)) }
    }

    /// Fails unless the lists hold right rows, from a first source on, in so many cells, and nothing was written after them.
    fn assert_rows(&self, lists: &Lists, first_source: u16, cells: usize) {
        let (costs, costs_after) = lists.costs.split_at(cells);
        let (predecessors, predecessors_after) = lists.predecessors.split_at(cells);
        assert!(costs_after.iter().all(|cost| *cost == UNTOUCHED), "costs after those that are due");
        assert!(
            predecessors_after.iter().all(|station| *station == UNTOUCHED_STATION),
            "predecessors after those that are due"
        );
        let size = usize::from(self.stations()).max(1);
        let rows = costs.chunks(size).zip(predecessors.chunks(size));
        for ((costs, predecessors), source) in rows.zip(first_source..) {
            self.expected().assert_row(source, costs, predecessors);
        }
    }

    /// Fails unless a call told just the answer and the facts that are due, as many as there was room for.
    fn assert_told(&self, call: &str, answer: u8, told: &[u64], due: Result<Vec<u64>, Refused>) {
        let (answer_due, mut facts_due) = match due {
            Ok(facts) => (0, facts),
            Err(refused) => (refused.answer, refused.facts),
        };
        facts_due.resize(told.len(), UNTOUCHED);
        assert_eq!((answer, told), (answer_due, &facts_due[..]), "{call} of file {:?}", self.file);
    }
}

/// The refusal of a method and a queue.
fn due_of_way(way: Option<Way>) -> Result<(), Refused> {
    match way {
        Some(Way { method: 3.., .. }) => Err(refused(101)),
        Some(Way { queue: 2.., .. }) => Err(refused(102)),
        _ => Ok(()),
    }
}

/// Of the failures of a row, the one that the facts name, or the first one where they name none of them.
fn named_failure(found: &[(u16, u8)], facts: &[u64]) -> Vec<u64> {
    let both = |failure: &(u16, u8)| [u64::from(failure.0), u64::from(failure.1)];
    let places = facts.len().min(2);
    let named = found.iter().find(|failure| both(failure)[..places] == facts[..places]);
    both(named.unwrap_or(&found[0])).to_vec()
}

/// What a call is lent to write in.
struct Lists {
    costs: Vec<u64>,
    predecessors: Vec<u16>,
    facts: Vec<u64>,
}

impl Lists {
    fn of(room: Room) -> Lists {
        Lists {
            costs: vec![UNTOUCHED; room.costs],
            predecessors: vec![UNTOUCHED_STATION; room.predecessors],
            facts: vec![UNTOUCHED; room.facts],
        }
    }

    fn lend(&mut self) -> (&mut [u64], &mut [u16], &mut [u64]) {
        (&mut self.costs, &mut self.predecessors, &mut self.facts)
    }
}
