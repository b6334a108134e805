//! The rows that a venue lends, as docs/FORMATS.md has them.

#[repr(C)]
#[derive(Clone, Copy, PartialEq, Debug, Default)]
pub struct OrderRow {
    pub number: u32,
    pub class: u32,
    pub price: u32,
    pub shares: u32,
    pub rest: u32,
    pub here: u32,
    pub away: u32,
    pub out: u32,
    pub cancelled: u32,
    pub late: u32,
}

#[repr(C)]
#[derive(Clone, Copy, PartialEq, Debug, Default)]
pub struct Quote {
    pub price: u32,
    pub shares: u32,
    pub venue: u32,
}

#[repr(C)]
#[derive(Clone, Copy, PartialEq, Debug, Default)]
pub struct Ticket {
    pub order: u32,
    pub venue: u32,
    pub price: u32,
    pub shares: u32,
    pub reported: bool,
}
