//! The numbers a caller may get: those of document 01's table that a feed can
//! meet, in the table's order, and 13 of document 02 where an entry is checked for
//! it.

#[derive(Clone, Copy, Debug, PartialEq, Eq)]
pub enum Refusal {
    /// stream is neither 0 nor 1
    Stream = 1,
    /// that journal is closed
    Closed = 2,
    /// start not below end
    Improper = 3,
    /// start, or mark, below the journal's clock
    BelowClock = 4,
    /// 1,000,000 entries already accepted
    TooMany = 5,
    /// near rule and key not below 36,000
    OffCircle = 13,
    /// the entry is wanted and its area already holds 64
    AreaFull = 6,
    /// waiting pairs plus new pairs exceed 256
    WaitingFull = 7,
    /// feed ends inside a record
    Ends = 9,
    /// length wrong for the kind, below 2 or above 66
    Length = 10,
    /// kind not known in this feed
    Kind = 11,
}

impl Refusal {
    pub fn number(self) -> u8 {
        self as u8
    }
}
