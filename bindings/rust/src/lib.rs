//! Least-cost route tables of timing campuses: a safe wrapper of the proved library that `bindings/c/firnolvag.h` describes.
//!
//! A campus is a plan file: n stations, 1 to 256, numbered from 0, and at most 4,096 links, each from one station to another
//! at a cost. In a plan of kind [`Sum`](Kind::Sum) costs are picoseconds, and add up along a walk; in one of kind
//! [`Split`](Kind::Split) they are outlets that share a reference, and multiply. `docs/RULES.md` has the format of the file
//! and every rule.
//!
//! ```
//! use firnolvag::{Cause, FAR, NONE, Refusal};
//!
//! let file = [
//!     b'C', b'P', b'L', 0, 1, 0, 0, 4, 0, 3, // version 1, kind sum, 4 stations, 3 links
//!     0, 0, 0, 1, 0, 0, 0, 0, 0, 0, 0, 4, // from 0 to 1 at 4
//!     0, 0, 0, 2, 0, 0, 0, 0, 0, 0, 0, 1, // from 0 to 2 at 1
//!     0, 2, 0, 1, 0, 0, 0, 0, 0, 0, 0, 2, // from 2 to 1 at 2
//! ];
//! let table = firnolvag::table(&file)?;
//! assert_eq!(table.stations(), 4);
//! assert_eq!(table.cost(0, 1), Some(3));
//! assert_eq!(table.predecessor(0, 1), Some(2));
//! assert_eq!(table.cost(0, 3), None); // no walk leads from 0 to 3
//!
//! let route = firnolvag::route(&file, 0, 1)?;
//! assert_eq!((route.stations, route.cost), (vec![0, 2, 1], 3));
//!
//! // refusals say what is wrong: here a row from 0 that overlooks the walk by 2
//! let refusal = firnolvag::check(&file, 0, &[0, 4, 1, FAR], &[NONE, 0, 0, NONE]).unwrap_err();
//! assert_eq!(refusal, Refusal::Row { station: 1, cause: Cause::Undercut });
//! # Ok::<(), Refusal>(())
//! ```
//!
//! # What the library asks of a thread
//!
//! A call keeps nothing, and calls may run in several threads at once. Each takes up to [`STACK`] bytes of the thread's
//! stack: the main thread and threads of [`std::thread`] have more, unless they were started with less by
//! [`stack_size`](std::thread::Builder::stack_size), `RUST_MIN_STACK`, or on a system whose threads are small. A thread
//! whose stack ends within a call brings the program to an end.
//!
//! # Panics
//!
//! A call panics where the library answers what the header does not tell.

#![deny(unsafe_code)]
#![warn(missing_docs)]

#[allow(unsafe_code)]
pub mod raw;
mod refusal;
mod rows;

pub use refusal::{Cause, Fault, Layer, Refusal};
pub use rows::{Route, Row, Table, WorkedRow};

/// The cost of a station that no walk reaches, and of one that is reached at more than 2^64 - 2 only.
pub const FAR: u64 = u64::MAX;

/// The predecessor of a station that has none: of the source, and of stations at [`FAR`].
pub const NONE: u16 = u16::MAX;

/// The most stations of a plan.
pub const MOST_STATIONS: usize = 256;

/// The most links of a plan.
pub const MOST_LINKS: usize = 4096;

/// How much stack a call of the library may take, in bytes.
pub const STACK: usize = 1024 * 1024;

/// What costs are, and how they join along a walk.
#[derive(Clone, Copy, Debug, PartialEq, Eq, Hash)]
pub enum Kind {
    /// Picoseconds of time error, which add up.
    Sum = 0,
    /// Outlets that share a reference, which multiply.
    Split = 1,
}

/// How a row is worked. Each method gives right rows; they differ in time, and in which of several walks is taken.
#[derive(Clone, Copy, Debug, PartialEq, Eq, Hash)]
pub enum Method {
    /// Every link from each station that is taken is followed.
    Plain = 0,
    /// The rows that were worked before are read whole.
    Reuse = 1,
    /// The rows that were worked before say which links need no following.
    Prune = 2,
}

/// What holds the stations that wait.
#[derive(Clone, Copy, Debug, PartialEq, Eq, Hash)]
pub enum Queue {
    /// For large campuses.
    Heap = 0,
    /// For small ones.
    Shelf = 1,
}

/// What the header of a sound plan file says.
#[derive(Clone, Copy, Debug, PartialEq, Eq, Hash)]
pub struct Counts {
    /// The plan's kind.
    pub kind: Kind,
    /// How many stations it has, 1 to 256.
    pub stations: u16,
    /// How many links it has, at most 4,096.
    pub links: u16,
}

/// Is this file sound? Refused where it is not.
pub fn sound(file: &[u8]) -> Result<Counts, Refusal> {
    let facts = accepted(|facts| raw::sound(file, facts))?;
    let kind = [Kind::Sum, Kind::Split].into_iter().find(|kind| *kind as u64 == facts[0]);
    let kind = kind.expect("the header has two kind bytes");
    Ok(Counts { kind, stations: small(facts[1]), links: small(facts[2]) })
}

/// The whole table, worked in the fastest way. Refused where the file is not sound.
pub fn table(file: &[u8]) -> Result<Table, Refusal> {
    filled(file, |costs, predecessors| table_into(file, costs, predecessors))
}

/// The whole table, each row in row order by one method with one queue. Refused where the file is not sound.
pub fn table_by(file: &[u8], method: Method, queue: Queue) -> Result<Table, Refusal> {
    filled(file, |costs, predecessors| table_by_into(file, method, queue, costs, predecessors))
}

/// The table that [`table`] answers, with no allocation: row after row at the start of each slice. The places after the
/// table stay as they are, and a refused call changes nothing.
///
/// Answers n. Refused where the file is not sound, and by [`Refusal::Counts`] where a slice has fewer than n * n places.
pub fn table_into(file: &[u8], costs: &mut [u64], predecessors: &mut [u16]) -> Result<u16, Refusal> {
    let facts = accepted(|facts| raw::table(file, costs, predecessors, facts))?;
    Ok(small(facts[0]))
}

/// The table that [`table_by`] answers, with no allocation, as [`table_into`] does it.
pub fn table_by_into(
    file: &[u8], method: Method, queue: Queue, costs: &mut [u64], predecessors: &mut [u16],
) -> Result<u16, Refusal> {
    let facts = accepted(|facts| raw::table_by(file, method as u8, queue as u8, costs, predecessors, facts))?;
    Ok(small(facts[0]))
}

/// One row. With no other row to read, [`Reuse`](Method::Reuse) and [`Prune`](Method::Prune) do as
/// [`Plain`](Method::Plain) does.
///
/// Refused where the file is not sound, and by [`Refusal::NoStation`].
pub fn row(file: &[u8], source: u16, method: Method, queue: Queue) -> Result<WorkedRow, Refusal> {
    let (mut costs, mut predecessors) = ([FAR; MOST_STATIONS], [NONE; MOST_STATIONS]);
    let (stations, taken) = row_into(file, source, method, queue, &mut costs, &mut predecessors)?;
    let stations = usize::from(stations);
    Ok(WorkedRow { source, costs: costs[..stations].to_vec(), predecessors: predecessors[..stations].to_vec(), taken })
}

/// One row, with no allocation: at the start of each slice. The places after the row stay as they are, and a refused call
/// changes nothing.
///
/// Answers n, and how many stations were taken from the queue. Refused where the file is not sound, by
/// [`Refusal::NoStation`], and by [`Refusal::Short`] where a slice has fewer than n places.
pub fn row_into(
    file: &[u8], source: u16, method: Method, queue: Queue, costs: &mut [u64], predecessors: &mut [u16],
) -> Result<(u16, u16), Refusal> {
    let facts = accepted(|facts| raw::row(file, source, method as u8, queue as u8, costs, predecessors, facts))?;
    Ok((small(facts[0]), small(facts[1])))
}

/// A walk of least cost. It passes no station twice.
///
/// Refused where the file is not sound, by [`Refusal::NoStation`], and by [`Refusal::IsFar`].
pub fn route(file: &[u8], from: u16, to: u16) -> Result<Route, Refusal> {
    let mut list = [NONE; MOST_STATIONS];
    let (stations, cost) = route_into(file, from, to, &mut list)?;
    Ok(Route { stations: stations.to_vec(), cost })
}

/// A walk of least cost, with no allocation: its stations at the start of the list. The places after them stay as they
/// are, and a refused call changes nothing.
///
/// Answers the stations in the list, and the cost. Refused as [`route`] is, and by [`Refusal::Short`] where the list has
/// fewer places than the walk has stations; n places are always enough.
pub fn route_into<'a>(file: &[u8], from: u16, to: u16, list: &'a mut [u16]) -> Result<(&'a [u16], u64), Refusal> {
    let facts = accepted(|facts| raw::route(file, from, to, list, facts))?;
    Ok((&list[..usize::from(small(facts[0]))], facts[1]))
}

/// Is a supplier's row right? In a plan of kind [`Split`](Kind::Split) the cost 0 is read as [`FAR`].
///
/// Refused where the file is not sound, by [`Refusal::NoStation`], by [`Refusal::RowLength`], and by [`Refusal::Row`]
/// where it is not right.
pub fn check(file: &[u8], source: u16, costs: &[u64], predecessors: &[u16]) -> Result<(), Refusal> {
    accepted(|facts| raw::check(file, source, costs, predecessors, facts)).map(|_| ())
}

/// How many facts come with an answer at most, by the header.
const FACTS: usize = 5;

/// Makes a call, and gives its facts where it is accepted and its refusal else.
fn accepted(call: impl FnOnce(&mut [u64]) -> u8) -> Result<[u64; FACTS], Refusal> {
    let mut facts = [0; FACTS];
    match call(&mut facts) {
        0 => Ok(facts),
        number => Err(Refusal::from_answer(number, &facts)
            .unwrap_or_else(|| panic!("the library answers {number} {facts:?}, which its header does not tell"))),
    }
}

/// A fact that the header keeps far below 2^16.
fn small(fact: u64) -> u16 {
    u16::try_from(fact).expect("the header keeps this fact below 2^16")
}

/// A table with room for the file's plan, filled by a call.
fn filled(file: &[u8], fill: impl FnOnce(&mut [u64], &mut [u16]) -> Result<u16, Refusal>) -> Result<Table, Refusal> {
    let stations = usize::from(sound(file)?.stations);
    let mut costs = vec![FAR; stations * stations];
    let mut predecessors = vec![NONE; stations * stations];
    let stations = fill(&mut costs, &mut predecessors)?;
    Ok(Table { stations, costs, predecessors })
}
