//! Plans, their costs, and their files as the rules lay them out.

use firnolvag::Kind;

pub const FAR: u64 = u64::MAX;
pub const NONE: u16 = u16::MAX;

#[derive(Clone, Copy, Debug, PartialEq, Eq)]
pub struct Link {
    pub from: u16,
    pub to: u16,
    pub cost: u64,
}

#[derive(Clone, Debug, PartialEq, Eq)]
pub struct Plan {
    pub kind: Kind,
    pub stations: u16,
    pub links: Vec<Link>,
}

pub fn link(from: u16, to: u16, cost: u64) -> Link {
    Link { from, to, cost }
}

/// The kind byte of a plan file.
pub fn kind_byte(kind: Kind) -> u8 {
    match kind {
        Kind::Sum => 0,
        Kind::Split => 1,
    }
}

/// The costs that a link may have in a file, both ends included.
pub fn link_range(kind: Kind) -> (u64, u64) {
    match kind {
        Kind::Sum => (1, 1_000_000_000),
        Kind::Split => (2, 64),
    }
}

/// The cost of standing still.
pub fn zero(kind: Kind) -> u64 {
    match kind {
        Kind::Sum => 0,
        Kind::Split => 1,
    }
}

/// What a stored number means as a cost: 0 is none in split, and is read as FAR.
pub fn meant(kind: Kind, stored: u64) -> u64 {
    if kind == Kind::Split && stored == 0 { FAR } else { stored }
}

/// The cost of a walk and a link after it. What is above 2^64 - 2 is FAR.
pub fn join(kind: Kind, walk: u64, link: u64) -> u64 {
    match kind {
        Kind::Sum => walk.saturating_add(link),
        Kind::Split => meant(kind, walk).saturating_mul(link),
    }
}

impl Plan {
    /// The plan's file.
    pub fn file(&self) -> Vec<u8> {
        let mut file = b"CPL\x00\x01".to_vec();
        file.push(kind_byte(self.kind));
        file.extend(self.stations.to_be_bytes());
        file.extend((self.links.len() as u16).to_be_bytes());
        for link in &self.links {
            file.extend(link.from.to_be_bytes());
            file.extend(link.to.to_be_bytes());
            file.extend(link.cost.to_be_bytes());
        }
        file
    }

    /// How many stations, as a length.
    pub fn size(&self) -> usize {
        usize::from(self.stations)
    }
}
