//! Books by kind, each drawn from random numbers.

use crate::damaged;
use crate::image::{Book, Entry, LAST_RUNG, STEP_RUNG, price_on};
use crate::limits::{
    CENT, DOLLAR, HIGHEST_PRICE, MOST_ENTRIES, MOST_QUOTES, MOST_SHARES, OUTPUT_LEN,
};
use crate::random::Random;

/// One call: a book, the last sale and the length of the output.
pub struct Call {
    pub image: Vec<u8>,
    pub last_sale: u32,
    pub out_len: usize,
}

impl Call {
    pub fn new(book: &Book, last_sale: u32) -> Self {
        Call {
            image: book.image(),
            last_sale,
            out_len: OUTPUT_LEN,
        }
    }
}

/// A kind of book: its name and how to draw one.
pub struct Kind {
    pub name: &'static str,
    pub draw: fn(&mut Random) -> Call,
}

const fn kind(name: &'static str, draw: fn(&mut Random) -> Call) -> Kind {
    Kind { name, draw }
}

pub const KINDS: &[Kind] = &[
    kind("empty", empty),
    kind("one-sided", one_sided),
    kind("quotes only", quotes_only),
    kind("orders against quotes", against_quotes),
    kind("locked orders", locked_orders),
    kind("locked quotes", locked_quotes),
    kind("crossed orders", crossed_orders),
    kind("crossed quotes", crossed_quotes),
    kind("dense", dense),
    kind("sparse", sparse),
    kind("full", full),
    kind("around a dollar", around_step),
    kind("both ends", both_ends),
    kind("odd reference", odd_reference),
    kind("middle of quotes", middle_of_quotes),
    kind("ties", ties),
    kind("equal totals", equal_totals),
    kind("no reference", no_reference),
    kind("last sale too high", damaged::last_sale_too_high),
    kind("image too short", damaged::too_short),
    kind("image too long", damaged::too_long),
    kind("image ends in its sizes", damaged::ends_in_sizes),
    kind("sizes past limits", damaged::sizes_past_limits),
    kind("sizes against length", damaged::sizes_against_length),
    kind("sizes huge", damaged::sizes_huge),
    kind("bad order price", damaged::bad_order_price),
    kind("bad order shares", damaged::bad_order_shares),
    kind("bad quote price", damaged::bad_quote_price),
    kind("bad quote shares", damaged::bad_quote_shares),
    kind("several faults", damaged::several_faults),
    kind("flipped bits", damaged::flipped_bits),
    kind("output of wrong length", damaged::wrong_output),
];

/// The rungs prices are drawn from, both ends included.
#[derive(Clone, Copy)]
pub struct Rungs {
    pub low: u32,
    pub high: u32,
}

const WHOLE: Rungs = Rungs {
    low: 1,
    high: LAST_RUNG,
};

impl Rungs {
    /// As many rungs on either side of a middle one.
    fn around(middle: u32, width: u32) -> Self {
        Rungs {
            low: (middle - width).max(1),
            high: (middle + width).min(LAST_RUNG),
        }
    }

    /// A narrow, a wide or the whole range.
    fn any(random: &mut Random) -> Self {
        let middle = random.pick(&[2_000, 9_990, STEP_RUNG, 10_900, 15_000_000]);
        match random.between(0, 3) {
            0 => WHOLE,
            1 => Rungs::around(middle, 1_000),
            2 => Rungs::around(middle, 30),
            _ => Rungs::around(middle, 4),
        }
    }
}

/// Draws entries; the shares of one book are all multiples of one lot.
pub struct Drawing<'a> {
    pub random: &'a mut Random,
    lot: u32,
    most_lots: u32,
}

impl<'a> Drawing<'a> {
    pub fn new(random: &'a mut Random) -> Self {
        let lots = [
            (1, 3),
            (1, MOST_SHARES),
            (100, 1),
            (100, 10),
            (MOST_SHARES, 1),
        ];
        let (lot, most_lots) = random.pick(&lots);
        Drawing {
            random,
            lot,
            most_lots,
        }
    }

    fn shares(&mut self) -> u32 {
        self.lot * self.random.between(1, self.most_lots)
    }

    fn rung(&mut self, rungs: Rungs) -> u32 {
        self.random.between(rungs.low, rungs.high)
    }

    fn entry_on(&mut self, rung: u32) -> Entry {
        Entry {
            price: price_on(rung),
            shares: self.shares(),
        }
    }

    fn entry(&mut self, rungs: Rungs) -> Entry {
        let rung = self.rung(rungs);
        self.entry_on(rung)
    }

    pub fn entries(&mut self, size: u32, rungs: Rungs) -> Vec<Entry> {
        (0..size).map(|_| self.entry(rungs)).collect()
    }

    fn some_entries(&mut self, least: u32, most: u32, rungs: Rungs) -> Vec<Entry> {
        let size = self.random.between(least, most);
        self.entries(size, rungs)
    }

    /// Buys and sells anywhere in the range; bids and offers that do not cross.
    pub fn book(&mut self, sizes: [u32; 4], rungs: Rungs) -> Book {
        let Rungs { low, high } = rungs;
        let middle = self.random.between(low, high - 1);
        Book {
            buys: self.entries(sizes[0], rungs),
            sells: self.entries(sizes[1], rungs),
            bids: self.entries(sizes[2], Rungs { low, high: middle }),
            offers: self.entries(
                sizes[3],
                Rungs {
                    low: middle + 1,
                    high,
                },
            ),
        }
    }

    /// A book of at most so many orders and quotes of each kind.
    pub fn small_book(&mut self, orders: u32, quotes: u32, rungs: Rungs) -> Book {
        let sizes = [orders, orders, quotes, quotes].map(|most| self.random.between(0, most));
        self.book(sizes, rungs)
    }

    /// Buys above all sells, with the same shares on both sides: every price
    /// from the highest sell to the lowest buy is a candidate.
    fn run_of_candidates(&mut self, rungs: Rungs) -> Book {
        let low = self.random.between(rungs.low, rungs.high - 1);
        let high = self.random.between(low + 1, rungs.high);
        let buys = self.some_entries(1, 5, Rungs { low: high, ..rungs });
        let sells = self.same_shares(&buys, Rungs { high: low, ..rungs });
        Book {
            buys,
            sells,
            ..Book::default()
        }
    }

    /// Other prices for the same shares.
    fn same_shares(&mut self, entries: &[Entry], rungs: Rungs) -> Vec<Entry> {
        let mut price = || price_on(self.rung(rungs));
        entries
            .iter()
            .map(|entry| Entry {
                price: price(),
                ..*entry
            })
            .collect()
    }

    /// A last sale about the range: none, on a rung, half a tick off, or any number.
    pub fn last_sale(&mut self, rungs: Rungs) -> u32 {
        match self.random.between(0, 4) {
            0 => 0,
            1 => price_on(self.rung(rungs)),
            2 => self.half_a_tick_off(rungs),
            _ => self
                .random
                .between(price_on(rungs.low), price_on(rungs.high)),
        }
    }

    /// The middle of a permitted price and the next one, or one point beside it.
    fn half_a_tick_off(&mut self, rungs: Rungs) -> u32 {
        let rung = self.rung(rungs).min(LAST_RUNG - 1);
        let middle = price_on(rung).midpoint(price_on(rung + 1));
        middle + self.random.between(0, 2) - 1
    }
}

fn empty(random: &mut Random) -> Call {
    let last_sale = random.between(0, HIGHEST_PRICE);
    Call::new(
        &Book::default(),
        random.pick(&[0, 1, last_sale, HIGHEST_PRICE]),
    )
}

fn one_sided(random: &mut Random) -> Call {
    let rungs = Rungs::any(random);
    let mut drawing = Drawing::new(random);
    let mut book = drawing.small_book(20, 8, rungs);
    if drawing.random.pick(&[true, false]) {
        book.buys.clear();
        book.bids.clear();
    } else {
        book.sells.clear();
        book.offers.clear();
    }
    Call::new(&book, drawing.last_sale(rungs))
}

fn quotes_only(random: &mut Random) -> Call {
    let rungs = Rungs::any(random);
    let mut drawing = Drawing::new(random);
    let book = drawing.small_book(0, MOST_QUOTES, rungs);
    Call::new(&book, drawing.last_sale(rungs))
}

/// Orders of one side only, so that all trades are with quotes.
fn against_quotes(random: &mut Random) -> Call {
    let rungs = Rungs::any(random);
    let mut drawing = Drawing::new(random);
    let mut book = drawing.small_book(10, 10, rungs);
    if drawing.random.pick(&[true, false]) {
        book.buys.clear();
    } else {
        book.sells.clear();
    }
    Call::new(&book, drawing.last_sale(rungs))
}

/// A rung with twenty more on either side.
fn meeting_rung(random: &mut Random) -> u32 {
    random.pick(&[21, 5_000, 9_999, STEP_RUNG, 10_900, LAST_RUNG - 20])
}

/// The best buy and the best sell at one price.
fn locked_orders(random: &mut Random) -> Call {
    let middle = meeting_rung(random);
    let rungs = Rungs::around(middle, 20);
    let mut drawing = Drawing::new(random);
    let mut book = drawing.book([0, 0, 2, 2], rungs);
    book.buys = drawing.some_entries(
        0,
        8,
        Rungs {
            high: middle,
            ..rungs
        },
    );
    book.buys.push(drawing.entry_on(middle));
    book.sells = drawing.some_entries(
        0,
        8,
        Rungs {
            low: middle,
            ..rungs
        },
    );
    book.sells.push(drawing.entry_on(middle));
    Call::new(&book, drawing.last_sale(rungs))
}

/// The best bid and the best offer at one price.
fn locked_quotes(random: &mut Random) -> Call {
    let middle = meeting_rung(random);
    let rungs = Rungs::around(middle, 20);
    let mut drawing = Drawing::new(random);
    let mut book = drawing.small_book(8, 0, rungs);
    book.bids = drawing.some_entries(
        0,
        8,
        Rungs {
            high: middle,
            ..rungs
        },
    );
    book.bids.push(drawing.entry_on(middle));
    book.offers = drawing.some_entries(
        0,
        8,
        Rungs {
            low: middle,
            ..rungs
        },
    );
    book.offers.insert(0, drawing.entry_on(middle));
    Call::new(&book, drawing.last_sale(rungs))
}

/// Buys mostly above sells.
fn crossed_orders(random: &mut Random) -> Call {
    let middle = meeting_rung(random);
    let rungs = Rungs::around(middle, 20);
    let mut drawing = Drawing::new(random);
    let mut book = drawing.small_book(0, 4, rungs);
    book.buys = drawing.some_entries(
        1,
        12,
        Rungs {
            low: middle - 5,
            ..rungs
        },
    );
    book.sells = drawing.some_entries(
        1,
        12,
        Rungs {
            high: middle,
            ..rungs
        },
    );
    Call::new(&book, drawing.last_sale(rungs))
}

/// The best bid above the best offer.
fn crossed_quotes(random: &mut Random) -> Call {
    let middle = meeting_rung(random);
    let rungs = Rungs::around(middle, 20);
    let mut drawing = Drawing::new(random);
    let mut book = drawing.small_book(8, 8, rungs);
    let offer = drawing.rung(Rungs {
        high: middle,
        ..rungs
    });
    let bid = drawing.rung(Rungs {
        low: offer + 1,
        ..rungs
    });
    book.bids.push(drawing.entry_on(bid));
    book.offers.insert(0, drawing.entry_on(offer));
    Call::new(&book, drawing.last_sale(rungs))
}

/// Many entries on few prices.
fn dense(random: &mut Random) -> Call {
    let rungs = Rungs::around(random.pick(&[500, 9_990, STEP_RUNG, 10_900, 1_000_000]), 20);
    let mut drawing = Drawing::new(random);
    let orders = drawing.random.between(50, 200);
    let book = drawing.book([orders, orders, MOST_QUOTES / 2, MOST_QUOTES / 2], rungs);
    Call::new(&book, drawing.last_sale(rungs))
}

/// Few entries far apart.
fn sparse(random: &mut Random) -> Call {
    let rungs = random.pick(&[WHOLE, Rungs::around(STEP_RUNG, 9_000)]);
    let mut drawing = Drawing::new(random);
    let book = drawing.small_book(4, 2, rungs);
    Call::new(&book, drawing.last_sale(rungs))
}

/// As many entries as an image may hold.
fn full(random: &mut Random) -> Call {
    let rungs = Rungs::any(random);
    let mut drawing = Drawing::new(random);
    let book = drawing.book(MOST_ENTRIES, rungs);
    Call::new(&book, drawing.last_sale(rungs))
}

/// Prices on both sides of the change of tick.
fn around_step(random: &mut Random) -> Call {
    let width = random.pick(&[1, 3, 40]);
    let rungs = Rungs::around(STEP_RUNG, width);
    let mut drawing = Drawing::new(random);
    let mut book = drawing.run_of_candidates(rungs);
    if drawing.random.pick(&[true, false]) {
        book = drawing.small_book(6, 3, rungs);
    }
    let last_sale = drawing.last_sale(rungs);
    let choices = [
        last_sale,
        0,
        DOLLAR - 3,
        DOLLAR - 2,
        DOLLAR - 1,
        DOLLAR,
        DOLLAR + 1,
        DOLLAR + CENT / 2 - 1,
        DOLLAR + CENT / 2,
        DOLLAR + CENT / 2 + 1,
    ];
    Call::new(&book, drawing.random.pick(&choices))
}

/// Prices at the lowest and at the highest that are permitted.
fn both_ends(random: &mut Random) -> Call {
    let ends = [
        Rungs { low: 1, high: 3 },
        Rungs {
            low: LAST_RUNG - 2,
            high: LAST_RUNG,
        },
    ];
    let mut drawing = Drawing::new(random);
    let mut side = |most| -> Vec<Entry> {
        let size = drawing.random.between(0, most);
        (0..size)
            .map(|_| {
                let end = drawing.random.pick(&ends);
                drawing.entry(end)
            })
            .collect()
    };
    let mut book = Book {
        buys: side(4),
        sells: side(4),
        ..Book::default()
    };
    if drawing.random.pick(&[true, false]) {
        book.sells = drawing.same_shares(&book.buys, ends[0]);
    }
    if drawing.random.pick(&[true, false]) {
        book.bids = drawing.some_entries(0, 2, ends[0]);
        book.offers = drawing.some_entries(0, 2, ends[1]);
    }
    let middle = drawing.last_sale(WHOLE);
    let end = drawing.random.pick(&[1, 2, 3, 4, 5, 6]);
    let choices = [
        0,
        end,
        middle,
        HIGHEST_PRICE,
        HIGHEST_PRICE - 1,
        HIGHEST_PRICE - CENT / 2,
    ];
    Call::new(&book, drawing.random.pick(&choices))
}

/// A last sale that is seldom permitted, within a run of candidates or near it.
fn odd_reference(random: &mut Random) -> Call {
    let rungs = Rungs::around(
        random.pick(&[2_000, 9_995, STEP_RUNG, 10_900, 20_000_000]),
        10,
    );
    let mut drawing = Drawing::new(random);
    let book = drawing.run_of_candidates(rungs);
    let base = price_on(drawing.rung(rungs));
    let offset = drawing.random.pick(&[
        1,
        3,
        50,
        CENT / 2 - 1,
        CENT / 2,
        CENT / 2 + 1,
        150,
        CENT - 1,
    ]);
    let choices = [base + offset, base - offset, drawing.half_a_tick_off(rungs)];
    Call::new(&book, drawing.random.pick(&choices).min(HIGHEST_PRICE))
}

/// No last sale, and quotes on both sides of a run of candidates.
fn middle_of_quotes(random: &mut Random) -> Call {
    let rungs = Rungs::around(
        random.pick(&[2_000, 9_995, STEP_RUNG, 10_900, 20_000_000]),
        12,
    );
    let mut drawing = Drawing::new(random);
    let mut book = drawing.run_of_candidates(rungs);
    let quotes = drawing.book([0, 0, 2, 2], rungs);
    book.bids = quotes.bids;
    book.offers = quotes.offers;
    Call::new(&book, 0)
}

/// Several entries at each of two or three prices.
fn ties(random: &mut Random) -> Call {
    let low = random.pick(&[1, 2_000, 9_998, 9_999, 10_900, LAST_RUNG - 2]);
    let rungs = Rungs {
        low,
        high: low + random.between(1, 2),
    };
    let mut drawing = Drawing::new(random);
    let book = drawing.small_book(20, 6, rungs);
    Call::new(&book, drawing.last_sale(rungs))
}

/// The same shares on both sides, at any prices.
fn equal_totals(random: &mut Random) -> Call {
    let rungs = Rungs::any(random);
    let mut drawing = Drawing::new(random);
    let mut book = drawing.small_book(20, 6, rungs);
    book.sells = drawing.same_shares(&book.buys, rungs);
    if drawing.random.pick(&[true, false]) {
        let offers = Rungs {
            low: rungs.high,
            ..rungs
        };
        book.bids.retain(|bid| bid.price < price_on(rungs.high));
        book.offers = drawing.same_shares(&book.bids, offers);
    }
    Call::new(&book, drawing.last_sale(rungs))
}

/// No last sale, and quotes of one side at most.
fn no_reference(random: &mut Random) -> Call {
    let rungs = Rungs::any(random);
    let mut drawing = Drawing::new(random);
    let mut book = drawing.run_of_candidates(rungs);
    let quotes = drawing.small_book(0, 3, rungs);
    match drawing.random.between(0, 2) {
        0 => book.bids = quotes.bids,
        1 => book.offers = quotes.offers,
        _ => {}
    }
    Call::new(&book, 0)
}
