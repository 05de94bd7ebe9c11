//! Names, ranges and limits.

pub use crate::shim::NoMemory;

pub const END_LIMIT: i64 = 10_000_000_000_000;
pub const MAX_EVENTS: u32 = 16_384;

#[derive(Debug, Clone, Copy, PartialEq, Eq)]
pub struct EventId(pub u32);

#[derive(Debug, Clone, Copy, PartialEq, Eq)]
pub enum RuleKind {
    Lin,
    Late,
    Early,
}

#[derive(Debug, Clone, Copy, PartialEq, Eq)]
pub enum Side {
    Upper,
    Lower,
}

#[derive(Debug, Clone, Copy, PartialEq, Eq)]
pub struct EdgeName {
    pub constraint: u32,
    pub cause: u32,
    pub side: Side,
}

#[derive(Debug, Clone, Copy, PartialEq, Eq)]
pub struct Range {
    pub low: Option<i64>,
    pub high: Option<i64>,
}

impl Range {
    pub fn low(self) -> Option<i64> {
        self.low
    }

    pub fn high(self) -> Option<i64> {
        self.high
    }
}
