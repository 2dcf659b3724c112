//! A reader of plan files, written from the rules alone.

use std::collections::HashSet;

use firnolvag::Kind;

use crate::plan::{Link, Plan, link_range};

/// The answer of a refused call, with its facts.
#[derive(Clone, Debug, PartialEq, Eq)]
pub struct Refused {
    pub answer: u8,
    pub facts: Vec<u64>,
}

pub fn refused(answer: u8) -> Refused {
    Refused { answer, facts: Vec::new() }
}

/// The plan that a file holds, or the first refusal that fits, for a call whose tables have so many places.
pub fn read(file: &[u8], table_places: usize) -> Result<Plan, Refused> {
    let (header, records) = file.split_at_checked(10).ok_or(refused(15))?;
    if !header.starts_with(b"CPL") {
        return Err(refused(16));
    }
    if number(&header[3..5]) != 1 {
        return Err(refused(17));
    }
    let kind = match header[5] {
        0 => Kind::Sum,
        1 => Kind::Split,
        _ => return Err(refused(18)),
    };
    let (stations, links) = (number(&header[6..8]), number(&header[8..10]));
    let cells = stations * stations;
    if stations == 0 || stations > 256 || links > 4096 || cells > table_places as u64 {
        return Err(refused(19));
    }
    if records.len() as u64 != 12 * links {
        return Err(refused(20));
    }
    let links = read_records(kind, stations, records)?;
    Ok(Plan { kind, stations: stations as u16, links })
}

fn read_records(kind: Kind, stations: u64, records: &[u8]) -> Result<Vec<Link>, Refused> {
    let mut earlier = HashSet::new();
    let mut links = Vec::new();
    for (index, record) in (0..).zip(records.chunks(12)) {
        let link = Link { from: number(&record[..2]) as u16, to: number(&record[2..4]) as u16, cost: number(&record[4..]) };
        let repeated = !earlier.insert((link.from, link.to));
        if let Some(fault) = fault(kind, stations, link, repeated) {
            let layer = if fault == 21 { 0 } else { 1 };
            return Err(Refused { answer: 22, facts: vec![index, fault, layer] });
        }
        links.push(link);
    }
    Ok(links)
}

/// The first fault of a record.
fn fault(kind: Kind, stations: u64, link: Link, repeated: bool) -> Option<u64> {
    let (least, most) = link_range(kind);
    if !(least..=most).contains(&link.cost) {
        Some(21)
    } else if u64::from(link.from.max(link.to)) >= stations {
        Some(3)
    } else if link.from == link.to {
        Some(4)
    } else if repeated {
        Some(6)
    } else {
        None
    }
}

/// An unsigned number, the high byte first.
fn number(bytes: &[u8]) -> u64 {
    bytes.iter().fold(0, |number, byte| number << 8 | u64::from(*byte))
}
