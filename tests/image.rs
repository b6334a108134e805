//! Books and their images.

use crate::limits::{CENT, DOLLAR, FINE_PRICES, FINE_TICK, PRICES};

#[derive(Clone, Copy)]
pub struct Entry {
    pub price: u32,
    pub shares: u32,
}

#[derive(Clone, Default)]
pub struct Book {
    pub buys: Vec<Entry>,
    pub sells: Vec<Entry>,
    pub bids: Vec<Entry>,
    pub offers: Vec<Entry>,
}

impl Book {
    /// Four sizes, then all prices, then all shares.
    pub fn image(&self) -> Vec<u8> {
        let sides = [&self.buys, &self.sells, &self.bids, &self.offers];
        let sizes = sides.iter().map(|side| side.len() as u32);
        let prices = sides.iter().copied().flatten().map(|entry| entry.price);
        let shares = sides.iter().copied().flatten().map(|entry| entry.shares);
        sizes
            .chain(prices)
            .chain(shares)
            .flat_map(u32::to_le_bytes)
            .collect()
    }
}

// Permitted prices are counted as rungs of a ladder, from 1 for the lowest.

/// The rung of a dollar, where the distance between permitted prices grows to a cent.
pub const STEP_RUNG: u32 = FINE_PRICES + 1;

/// The rung of the highest price.
pub const LAST_RUNG: u32 = PRICES;

/// The permitted price on a rung.
pub const fn price_on(rung: u32) -> u32 {
    if rung < STEP_RUNG {
        FINE_TICK * rung
    } else {
        DOLLAR + CENT * (rung - STEP_RUNG)
    }
}
