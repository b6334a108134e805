//! The limits of the rules, each once, by name and with its unit. They are written from docs/RULES.md and
//! docs/FORMATS.md, whose sections are named here, and never from the code that the tests compare with. What follows
//! from other limits is worked out from them.

// Each program uses some of them.
#![allow(dead_code)]

use std::ops::Range;

// Prices and shares.

/// The lowest price, in points.
pub const LOWEST_PRICE: u32 = 2;

/// The highest price, and the highest last sale, in points.
pub const HIGHEST_PRICE: u32 = 4_000_000_000;

/// A dollar, in points: from here up a permitted price is a whole number of cents.
pub const DOLLAR: u32 = 20_000;

/// A cent, in points.
pub const CENT: u32 = 200;

/// The distance between permitted prices below a dollar, in points.
pub const FINE_TICK: u32 = 2;

/// How many permitted prices are below a dollar.
pub const FINE_PRICES: u32 = (DOLLAR - LOWEST_PRICE) / FINE_TICK;

/// How many permitted prices there are.
pub const PRICES: u32 = FINE_PRICES + (HIGHEST_PRICE - DOLLAR) / CENT + 1;

/// The most shares that an order or a quote has.
pub const MOST_SHARES: u32 = 1_000_000;

// Sides and quotes.

/// The most quotes that a source lists on a side, where they fit.
pub const MOST_QUOTES: u32 = 32;

// The venue table.

/// How many venues a venue table has, numbered from 1.
pub const VENUES: u32 = 32;

// The engine, its stages and its tables.

/// The most orders on a side, of an engine's tables and of a book image.
pub const MOST_ORDERS: u32 = 512;

/// The rows of a side table.
pub const ORDER_ROWS: usize = MOST_ORDERS as usize;

/// The rows of a quote table.
pub const QUOTE_ROWS: usize = MOST_QUOTES as usize;

/// The rows of the ticket table: as many as a side table and a quote table have together.
pub const TICKET_ROWS: usize = ORDER_ROWS + QUOTE_ROWS;

// Tickets.

/// The most tickets that are ever listed: there are fewer than orders and quotes together.
pub const MOST_TICKETS: usize = TICKET_ROWS - 1;

// The questions of a call, and those of begin. Times are in milliseconds since midnight.

/// The last time of a day, 23:59:59.999.
pub const DAY_END: u32 = 86_399_999;

/// The first time at which a cycle may start, 08:30:00.000.
pub const FIRST_START: u32 = 30_600_000;

/// The last time at which a cycle may start, 14:54:59.999.
pub const LAST_START: u32 = 53_699_999;

/// How long ago the primary market's first two-sided quote came at least when a cycle starts, in milliseconds.
pub const QUOTE_AGE: u32 = 300_000;

/// How long ago the last cycle ended at least when a cycle starts, in milliseconds.
pub const CYCLE_GAP: u32 = 60_000;

/// The shortest acceptance length, in milliseconds.
pub const SHORTEST_ACCEPTANCE: u32 = 475;

/// The longest acceptance length, in milliseconds.
pub const LONGEST_ACCEPTANCE: u32 = 525;

/// The minimum size of a start order of a special issue, in shares.
pub const SPECIAL_MINIMUM: u32 = 100;

/// The minimum sizes of a start order of an ordinary issue: from a price up, in points, so many shares.
pub const MINIMUMS: [(u32, u32); 7] = [
    (LOWEST_PRICE, 100_000),
    (DOLLAR, 50_000),
    (5 * DOLLAR, 25_000),
    (25 * DOLLAR, 20_000),
    (50 * DOLLAR, 10_000),
    (100 * DOLLAR, 5_000),
    (500 * DOLLAR, 2_500),
];

// What a granted call does.

/// How long after a priced close its deadline is, in milliseconds.
pub const TICKET_TIME: u32 = 200;

// The book image, and the answer of image pricing.

/// The length of a number of an image, in bytes.
pub const WORD_LEN: usize = 4;

/// The most entries of each kind, in the order in which an image has them: buys, sells, bids and offers.
pub const MOST_ENTRIES: [u32; 4] = [MOST_ORDERS, MOST_ORDERS, MOST_QUOTES, MOST_QUOTES];

/// How many kinds of entries there are.
pub const KINDS_OF_ENTRIES: usize = MOST_ENTRIES.len();

/// The length of the sizes that begin an image, in bytes.
pub const SIZES_LEN: usize = KINDS_OF_ENTRIES * WORD_LEN;

/// The length that an entry adds to an image, a price and shares, in bytes.
pub const ENTRY_LEN: usize = 2 * WORD_LEN;

/// Where the price stands in an answer, in bytes.
pub const PRICE_BYTES: Range<usize> = 0..4;

/// Where the cause stands in an answer, in bytes.
pub const CAUSE_BYTES: Range<usize> = PRICE_BYTES.end..8;

/// Where the count stands in an answer, in bytes.
pub const COUNT_BYTES: Range<usize> = CAUSE_BYTES.end..16;

/// The length of an answer, in bytes.
pub const OUTPUT_LEN: usize = COUNT_BYTES.end;
