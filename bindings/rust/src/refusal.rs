//! Why a call is refused.

use std::error::Error;
use std::fmt;

/// Why a call was refused: the first refusal that fits, with what is told of it.
#[derive(Clone, Copy, Debug, PartialEq, Eq, Hash)]
pub enum Refusal {
    /// 3: a station number is not below the number of stations.
    NoStation,
    /// 11: a route is asked for, and there is none below [`FAR`](crate::FAR).
    IsFar,
    /// 12: the lists for a row are shorter than the row, or that for a route is shorter than the route.
    Short,
    /// 13: a supplier's lists do not both have a place for each station and no more.
    RowLength,
    /// 14: a supplier's row is not right.
    Row {
        /// A station that fails.
        station: u16,
        /// A cause by which it does.
        cause: Cause,
    },
    /// 15: the file is shorter than a header.
    ShortHeader,
    /// 16: the file does not begin with `CPL`.
    Mark,
    /// 17: the file's version is not 1.
    Version,
    /// 18: the file's kind byte names no kind.
    Kind,
    /// 19: the file has no station, above 256 stations or above 4,096 links, or the slices for its table are too short.
    Counts,
    /// 20: the file's length is not what its counts require.
    Length,
    /// 22: a record of the file is at fault.
    Record {
        /// The first record at fault; they count from 0.
        record: u16,
        /// The first of its faults.
        fault: Fault,
        /// Where the fault lies.
        layer: Layer,
    },
    /// 101: the number of a method is none. [`Method`](crate::Method) has no such number.
    NoMethod,
    /// 102: the number of a queue is none. [`Queue`](crate::Queue) has no such number.
    NoQueue,
}

/// Why a station of a supplier's row fails.
#[derive(Clone, Copy, Debug, PartialEq, Eq, Hash)]
pub enum Cause {
    /// It is the source, and has a cost other than that of standing still, or a predecessor.
    Source = 1,
    /// It is not the source, and has `FAR` with a predecessor, or a cost below `FAR` without one.
    Unpaired = 2,
    /// Its predecessor is no station, or no link leads from it to the station.
    NoLink = 3,
    /// Its predecessor's cost, joined with the link between them, is not its own.
    OtherCost = 4,
    /// A link leads to it from a station whose cost, joined with the link, is below its own.
    Undercut = 5,
}

/// What is wrong with a record of a plan file.
#[derive(Clone, Copy, Debug, PartialEq, Eq, Hash)]
pub enum Fault {
    /// The cost is outside the range of the plan's kind.
    Cost = 21,
    /// One of the stations is none of the plan's.
    NoStation = 3,
    /// The link leads from a station to itself.
    Loop = 4,
    /// The pair of stations stood in an earlier record.
    Repeated = 6,
}

/// Where the fault of a record lies.
#[derive(Clone, Copy, Debug, PartialEq, Eq, Hash)]
pub enum Layer {
    /// In one field alone: [`Fault::Cost`].
    Field = 0,
    /// In the record as a whole: every other fault.
    Record = 1,
}

impl Refusal {
    /// The number that the header has for this refusal.
    pub fn number(self) -> u8 {
        match self {
            Refusal::NoStation => 3,
            Refusal::IsFar => 11,
            Refusal::Short => 12,
            Refusal::RowLength => 13,
            Refusal::Row { .. } => 14,
            Refusal::ShortHeader => 15,
            Refusal::Mark => 16,
            Refusal::Version => 17,
            Refusal::Kind => 18,
            Refusal::Counts => 19,
            Refusal::Length => 20,
            Refusal::Record { .. } => 22,
            Refusal::NoMethod => 101,
            Refusal::NoQueue => 102,
        }
    }

    /// The refusal that has this number and these facts, or none where the header has no such refusal.
    pub(crate) fn from_answer(number: u8, facts: &[u64]) -> Option<Refusal> {
        Some(match number {
            3 => Refusal::NoStation,
            11 => Refusal::IsFar,
            12 => Refusal::Short,
            13 => Refusal::RowLength,
            14 => Refusal::Row { station: facts[0].try_into().ok()?, cause: Cause::from_number(facts[1])? },
            15 => Refusal::ShortHeader,
            16 => Refusal::Mark,
            17 => Refusal::Version,
            18 => Refusal::Kind,
            19 => Refusal::Counts,
            20 => Refusal::Length,
            22 => Refusal::Record {
                record: facts[0].try_into().ok()?,
                fault: Fault::from_number(facts[1])?,
                layer: Layer::from_number(facts[2])?,
            },
            101 => Refusal::NoMethod,
            102 => Refusal::NoQueue,
            _ => return None,
        })
    }
}

impl Cause {
    fn from_number(number: u64) -> Option<Cause> {
        let all = [Cause::Source, Cause::Unpaired, Cause::NoLink, Cause::OtherCost, Cause::Undercut];
        all.into_iter().find(|cause| *cause as u64 == number)
    }
}

impl Fault {
    fn from_number(number: u64) -> Option<Fault> {
        let all = [Fault::Cost, Fault::NoStation, Fault::Loop, Fault::Repeated];
        all.into_iter().find(|fault| *fault as u64 == number)
    }
}

impl Layer {
    fn from_number(number: u64) -> Option<Layer> {
        [Layer::Field, Layer::Record].into_iter().find(|layer| *layer as u64 == number)
    }
}

impl fmt::Display for Refusal {
    fn fmt(&self, out: &mut fmt::Formatter<'_>) -> fmt::Result {
        let why = match self {
            Refusal::NoStation => "a station number is not below the number of stations",
            Refusal::IsFar => "there is no route below FAR",
            Refusal::Short => "a list is too short",
            Refusal::RowLength => "the lists do not both have a place for each station and no more",
            Refusal::Row { station, cause } => return write!(out, "station {station} fails: {cause}"),
            Refusal::ShortHeader => "the file is shorter than a header",
            Refusal::Mark => "the file does not begin with CPL",
            Refusal::Version => "the file's version is not 1",
            Refusal::Kind => "the file's kind byte names no kind",
            Refusal::Counts => "the file's counts are out of range, or the table has too few places for them",
            Refusal::Length => "the file's length is not what its counts require",
            Refusal::Record { record, fault, .. } => return write!(out, "record {record} is at fault: {fault}"),
            Refusal::NoMethod => "the number of a method is none",
            Refusal::NoQueue => "the number of a queue is none",
        };
        out.write_str(why)
    }
}

impl fmt::Display for Cause {
    fn fmt(&self, out: &mut fmt::Formatter<'_>) -> fmt::Result {
        out.write_str(match self {
            Cause::Source => "it is the source, and has a cost other than that of standing still, or a predecessor",
            Cause::Unpaired => "it has FAR with a predecessor, or a cost below FAR without one",
            Cause::NoLink => "its predecessor is no station, or no link leads from it to the station",
            Cause::OtherCost => "its predecessor's cost, joined with the link between them, is not its own",
            Cause::Undercut => "a link leads to it from a station whose cost, joined with the link, is below its own",
        })
    }
}

impl fmt::Display for Fault {
    fn fmt(&self, out: &mut fmt::Formatter<'_>) -> fmt::Result {
        out.write_str(match self {
            Fault::Cost => "its cost is outside the range of the kind",
            Fault::NoStation => "a station number is not below the number of stations",
            Fault::Loop => "it leads from a station to itself",
            Fault::Repeated => "its pair of stations stood in an earlier record",
        })
    }
}

impl Error for Refusal {}
