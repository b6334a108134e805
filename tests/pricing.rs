//! The price of a book, worked out from its image: sort each side once, then
//! sweep the prices. It shares no code with the library it is compared to.

use crate::limits::{
    CAUSE_BYTES, CENT, COUNT_BYTES, DOLLAR, FINE_TICK, HIGHEST_PRICE, KINDS_OF_ENTRIES,
    LOWEST_PRICE, MOST_ENTRIES, MOST_SHARES, OUTPUT_LEN, PRICE_BYTES, WORD_LEN,
};

/// The refusals, in the order in which they are asked.
pub const BAD_OUTPUT: u32 = 24;
pub const BAD_IMAGE: u32 = 25;
pub const BAD_ORDER: u32 = 26;
pub const BAD_QUOTE: u32 = 4;
pub const BAD_LAST_SALE: u32 = 19;

/// The causes: why there is a price, or why there is none.
pub const PRICED: u32 = 0;
pub const NOTHING_TRADES: u32 = 1;
pub const QUOTES_CROSS: u32 = 2;
pub const NO_REFERENCE: u32 = 3;

/// The bytes of the output, or the number of the refusal.
pub fn price(image: &[u8], last_sale: u32, out_len: usize) -> Result<[u8; OUTPUT_LEN], u32> {
    if out_len != OUTPUT_LEN {
        return Err(BAD_OUTPUT);
    }
    let book = Book::parse(image).ok_or(BAD_IMAGE)?;
    if !(book.buys.is_sound() && book.sells.is_sound()) {
        return Err(BAD_ORDER);
    }
    if !(book.bids.is_sound() && book.offers.is_sound()) {
        return Err(BAD_QUOTE);
    }
    if last_sale > HIGHEST_PRICE {
        return Err(BAD_LAST_SALE);
    }
    Ok(match outcome(&book, last_sale) {
        Ok((price, count)) => output(price, PRICED, count),
        Err(cause) => output(0, cause, 0),
    })
}

/// Whether orders and quotes may carry this price.
pub fn is_permitted(price: u32) -> bool {
    // Constant divisors, and no early way out: this is cheap for many prices.
    let on_tick = if price < DOLLAR {
        price.is_multiple_of(FINE_TICK)
    } else {
        price.is_multiple_of(CENT)
    };
    (LOWEST_PRICE..=HIGHEST_PRICE).contains(&price) & on_tick
}

/// The distance between permitted prices from here up.
fn tick(price: u32) -> u32 {
    if price < DOLLAR { FINE_TICK } else { CENT }
}

/// A little-endian number as it lies in the image.
type Word = [u8; WORD_LEN];

/// The prices and shares of one kind of entry.
struct Entries<'a> {
    prices: &'a [Word],
    shares: &'a [Word],
}

impl<'a> Entries<'a> {
    /// Takes the next `size` entries off the front of both arrays.
    fn take(prices: &mut &'a [Word], shares: &mut &'a [Word], size: u32) -> Option<Self> {
        Some(Entries {
            prices: prices.split_off(..size as usize)?,
            shares: shares.split_off(..size as usize)?,
        })
    }

    fn prices(&self) -> impl Iterator<Item = u32> {
        self.prices.iter().copied().map(u32::from_le_bytes)
    }

    fn shares(&self) -> impl Iterator<Item = u32> {
        self.shares.iter().copied().map(u32::from_le_bytes)
    }

    /// Whether every price is permitted and every number of shares in range.
    fn is_sound(&self) -> bool {
        let prices = self
            .prices()
            .fold(true, |sound, price| sound & is_permitted(price));
        let in_range = |shares| (1..=MOST_SHARES).contains(&shares);
        let shares = self
            .shares()
            .fold(true, |sound, shares| sound & in_range(shares));
        prices && shares
    }
}

/// The four kinds of entries of an image.
struct Book<'a> {
    buys: Entries<'a>,
    sells: Entries<'a>,
    bids: Entries<'a>,
    offers: Entries<'a>,
}

impl<'a> Book<'a> {
    /// Splits the image; none if the sizes pass the limits or the length is not exact.
    fn parse(image: &'a [u8]) -> Option<Self> {
        let (words, rest) = image.as_chunks::<WORD_LEN>();
        let (sizes, entries) = words.split_first_chunk::<KINDS_OF_ENTRIES>()?;
        let sizes = sizes.map(u32::from_le_bytes);
        if sizes
            .iter()
            .zip(MOST_ENTRIES)
            .any(|(&size, limit)| size > limit)
        {
            return None;
        }
        let total = sizes.iter().sum::<u32>() as usize;
        if !rest.is_empty() || entries.len() != 2 * total {
            return None;
        }
        let (mut prices, mut shares) = entries.split_at(total);
        let mut take = |size| Entries::take(&mut prices, &mut shares, size);
        let [buys, sells, bids, offers] = sizes;
        Some(Book {
            buys: take(buys)?,
            sells: take(sells)?,
            bids: take(bids)?,
            offers: take(offers)?,
        })
    }
}

/// The price and the count, or the cause why there is none.
fn outcome(book: &Book, last_sale: u32) -> Result<(u32, i64), u32> {
    let quotes = book.bids.prices().max().zip(book.offers.prices().min());
    if quotes.is_some_and(|(bid, offer)| bid >= offer) {
        return Err(QUOTES_CROSS);
    }
    let demand = Side::sort(&book.buys, &book.bids);
    let supply = Side::sort(&book.sells, &book.offers);
    let (lowest, highest) = candidates(&demand, &supply);
    // Every candidate has the same count.
    let count = demand.at_or_above(lowest).min(supply.at_or_below(lowest));
    if count == 0 {
        return Err(NOTHING_TRADES);
    }
    if lowest == highest {
        return Ok((lowest, count));
    }
    let reference = reference(last_sale, quotes).ok_or(NO_REFERENCE)?;
    Ok((nearest(reference, lowest, highest), count))
}

/// The last sale, else the middle of the best bid and the best offer.
fn reference(last_sale: u32, quotes: Option<(u32, u32)>) -> Option<u32> {
    if last_sale != 0 {
        return Some(last_sale);
    }
    quotes.map(|(bid, offer)| bid.midpoint(offer))
}

/// The candidate nearest to the reference; the reference itself if two are.
fn nearest(reference: u32, lowest: u32, highest: u32) -> u32 {
    if reference <= lowest {
        return lowest;
    }
    if reference >= highest {
        return highest;
    }
    let tick = tick(reference);
    let over = reference % tick;
    match (2 * over).cmp(&tick) {
        std::cmp::Ordering::Less => reference - over,
        std::cmp::Ordering::Equal => reference,
        std::cmp::Ordering::Greater => reference - over + tick,
    }
}

/// An entry in one number, the price in the upper half, so that sorting is by price.
#[derive(Clone, Copy, PartialEq, Eq, PartialOrd, Ord)]
struct Entry(u64);

impl Entry {
    /// What follows the last entry: it sorts after all others, at the highest price.
    const END: Entry = Entry((HIGHEST_PRICE as u64) << u32::BITS | u32::MAX as u64);

    fn new((price, shares): (u32, u32)) -> Self {
        Entry(u64::from(price) << u32::BITS | u64::from(shares))
    }

    fn price(self) -> u32 {
        (self.0 >> u32::BITS) as u32
    }

    fn shares(self) -> i64 {
        i64::from(self.0 as u32)
    }
}

/// Orders and quotes of one side together, from the lowest price to the highest.
struct Side {
    entries: Vec<Entry>,
    total: i64,
}

impl Side {
    fn sort(orders: &Entries, quotes: &Entries) -> Self {
        let mut entries = Vec::with_capacity(orders.prices.len() + quotes.prices.len());
        entries.extend(orders.prices().zip(orders.shares()).map(Entry::new));
        entries.extend(quotes.prices().zip(quotes.shares()).map(Entry::new));
        entries.sort_unstable();
        let total = entries.iter().map(|entry| entry.shares()).sum();
        Side { entries, total }
    }

    fn at_or_above(&self, price: u32) -> i64 {
        let from = self.entries.partition_point(|entry| entry.price() < price);
        self.entries[from..]
            .iter()
            .map(|entry| entry.shares())
            .sum()
    }

    fn at_or_below(&self, price: u32) -> i64 {
        let to = self.entries.partition_point(|entry| entry.price() <= price);
        self.entries[..to].iter().map(|entry| entry.shares()).sum()
    }
}

/// The lowest and the highest candidate, in one sweep upwards.
///
/// The lowest is the least price q where the demand above q is at most the
/// supply at q or lower. Below all entries the gap between the two is the whole
/// demand. Going up, an entry of demand leaves the one and an entry of supply
/// joins the other: each closes the gap by its shares.
///
/// The highest is the greatest price q where the supply below q is at most the
/// demand at q or higher. It is the lowest again if that price more than closes
/// the gap; if it closes it exactly, it is the price of the next entry.
fn candidates(demand: &Side, supply: &Side) -> (u32, u32) {
    let mut entries = Merged {
        demand: &demand.entries,
        supply: &supply.entries,
    };
    let mut gap = demand.total;
    let mut lowest = LOWEST_PRICE;
    while gap > 0 {
        let entry = entries.next();
        lowest = entry.price();
        gap -= entry.shares();
    }
    let highest = if gap == 0 {
        entries.next().price()
    } else {
        lowest
    };
    (lowest, highest)
}

/// The entries of both sides from the lowest price to the highest.
struct Merged<'a> {
    demand: &'a [Entry],
    supply: &'a [Entry],
}

impl Merged<'_> {
    /// The next entry, or the end. Written without a branch on the two prices,
    /// which nobody can predict.
    fn next(&mut self) -> Entry {
        let demand = self.demand.first().copied().unwrap_or(Entry::END);
        let supply = self.supply.first().copied().unwrap_or(Entry::END);
        let from_supply = supply < demand;
        self.demand = self.demand.get(usize::from(!from_supply)..).unwrap_or(&[]);
        self.supply = self.supply.get(usize::from(from_supply)..).unwrap_or(&[]);
        demand.min(supply)
    }
}

/// The bytes of the output.
fn output(price: u32, cause: u32, count: i64) -> [u8; OUTPUT_LEN] {
    let mut bytes = [0; OUTPUT_LEN];
    bytes[PRICE_BYTES].copy_from_slice(&price.to_le_bytes());
    bytes[CAUSE_BYTES].copy_from_slice(&cause.to_le_bytes());
    bytes[COUNT_BYTES].copy_from_slice(&count.to_le_bytes());
    bytes
}
