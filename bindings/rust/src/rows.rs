//! Rows, tables and routes, as the calls answer them.

use std::iter::successors;

use crate::{FAR, NONE};

/// The rows of all stations.
#[derive(Clone, Debug, PartialEq, Eq)]
pub struct Table {
    pub(crate) stations: u16,
    pub(crate) costs: Vec<u64>,
    pub(crate) predecessors: Vec<u16>,
}

/// One row that was worked alone.
#[derive(Clone, Debug, PartialEq, Eq)]
pub struct WorkedRow {
    pub(crate) source: u16,
    pub(crate) costs: Vec<u64>,
    pub(crate) predecessors: Vec<u16>,
    pub(crate) taken: u16,
}

/// A look at one row: of each station the least cost from the source, and its predecessor.
#[derive(Clone, Copy, Debug, PartialEq, Eq)]
pub struct Row<'a> {
    source: u16,
    costs: &'a [u64],
    predecessors: &'a [u16],
}

/// A walk of least cost, which passes no station twice.
#[derive(Clone, Debug, PartialEq, Eq, Hash)]
pub struct Route {
    /// Its stations, from first to last.
    pub stations: Vec<u16>,
    /// What it costs.
    pub cost: u64,
}

impl Table {
    /// How many stations the plan has.
    pub fn stations(&self) -> u16 {
        self.stations
    }

    /// The row of a source.
    ///
    /// # Panics
    ///
    /// Where the source is not below [`stations`](Table::stations).
    pub fn row(&self, source: u16) -> Row<'_> {
        assert!(source < self.stations, "station {source} of a plan of {}", self.stations);
        let stations = usize::from(self.stations);
        let first = usize::from(source) * stations;
        let places = first..first + stations;
        Row { source, costs: &self.costs[places.clone()], predecessors: &self.predecessors[places] }
    }

    /// The least cost from one station to another, or `None` where it is [`FAR`].
    ///
    /// # Panics
    ///
    /// Where one of them is not below [`stations`](Table::stations).
    pub fn cost(&self, from: u16, to: u16) -> Option<u64> {
        self.row(from).cost(to)
    }

    /// The station just before the last on a walk of least cost, or `None` where the two stations are the same or the
    /// cost is [`FAR`].
    ///
    /// # Panics
    ///
    /// Where one of them is not below [`stations`](Table::stations).
    pub fn predecessor(&self, from: u16, to: u16) -> Option<u16> {
        self.row(from).predecessor(to)
    }

    /// A walk of least cost, or `None` where the cost is [`FAR`].
    ///
    /// # Panics
    ///
    /// Where one of them is not below [`stations`](Table::stations).
    pub fn route(&self, from: u16, to: u16) -> Option<Route> {
        self.row(from).route(to)
    }

    /// All costs, row after row, with [`FAR`] where there is none below it.
    pub fn costs(&self) -> &[u64] {
        &self.costs
    }

    /// All predecessors, row after row, with [`NONE`] where there is none.
    pub fn predecessors(&self) -> &[u16] {
        &self.predecessors
    }
}

impl WorkedRow {
    /// The row itself.
    pub fn row(&self) -> Row<'_> {
        Row { source: self.source, costs: &self.costs, predecessors: &self.predecessors }
    }

    /// How many stations were taken from the queue.
    pub fn taken(&self) -> u16 {
        self.taken
    }
}

impl<'a> Row<'a> {
    /// The station that the row is of.
    pub fn source(self) -> u16 {
        self.source
    }

    /// The costs of all stations, with [`FAR`] where there is none below it.
    pub fn costs(self) -> &'a [u64] {
        self.costs
    }

    /// The predecessors of all stations, with [`NONE`] where there is none.
    pub fn predecessors(self) -> &'a [u16] {
        self.predecessors
    }

    /// The least cost from the source to a station, or `None` where it is [`FAR`].
    ///
    /// # Panics
    ///
    /// Where the plan has no such station.
    pub fn cost(self, to: u16) -> Option<u64> {
        Some(self.costs[usize::from(to)]).filter(|cost| *cost != FAR)
    }

    /// The station just before this one on a walk of least cost, or `None` where this is the source or its cost is [`FAR`].
    ///
    /// # Panics
    ///
    /// Where the plan has no such station.
    pub fn predecessor(self, to: u16) -> Option<u16> {
        Some(self.predecessors[usize::from(to)]).filter(|station| *station != NONE)
    }

    /// A walk of least cost from the source to a station, or `None` where the cost is [`FAR`].
    ///
    /// # Panics
    ///
    /// Where the plan has no such station.
    pub fn route(self, to: u16) -> Option<Route> {
        let cost = self.cost(to)?;
        let mut stations: Vec<u16> = successors(Some(to), |station| self.predecessor(*station)).collect();
        stations.reverse();
        Some(Route { stations, cost })
    }
}
