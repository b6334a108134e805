//! The engine from the rules alone: orders lie in a map by number and are ranked whenever rank matters, a price is
//! found by trying every stretch between the prices of the book, and tickets are the overlaps of intervals. It shares
//! no code with the engine that it is compared to.

use crate::limits::{
    CENT, CYCLE_GAP, DAY_END, DOLLAR, FINE_TICK, FIRST_START, HIGHEST_PRICE, LAST_START, LONGEST_ACCEPTANCE,
    LOWEST_PRICE, MINIMUMS, MOST_QUOTES, MOST_SHARES, MOST_TICKETS, ORDER_ROWS, QUOTE_AGE, QUOTE_ROWS,
    SHORTEST_ACCEPTANCE, SPECIAL_MINIMUM, TICKET_ROWS, TICKET_TIME, VENUES,
};
use std::cmp::Reverse;
use std::collections::{BTreeMap, BTreeSet};

// The quotes of a venue table fit, so no call here is refused because they do not (4).
const _: () = assert!(VENUES <= MOST_QUOTES);

#[derive(Clone, Copy, Debug)]
pub struct Order {
    pub number: u32,
    pub side: u32,
    pub class: u32,
    pub price: u32,
    pub shares: u32,
}

#[derive(Clone, Copy, Debug)]
pub struct Facts {
    pub short_sale: bool,
    pub first_quote: Option<u32>,
    pub routing: bool,
    pub acceptance: u32,
}

/// What is asked of the engine and of the table of venues, a line each.
#[derive(Clone, Copy, Debug)]
pub enum Line {
    Quote { venue: u32, side: u32, price: u32, shares: u32 },
    Clear { venue: u32, side: u32 },
    Halted(bool),
    New { special: bool },
    Begin { time: u32, order: Order, facts: Facts },
    Enter(Order),
    Cancel(u32),
    Close { time: u32, last_sale: u32 },
    Report { ticket: u32, filled: u32 },
    Match(u32),
    Finish(u32),
    Abort(u32),
    Outstanding,
}

#[derive(Clone, Copy, Debug, PartialEq, Eq)]
pub enum Answer {
    Done,
    Number(u64),
    Closed { cause: u32, price: u32, count: u64, tickets: usize },
}

#[derive(Clone, Copy, Debug, PartialEq, Eq)]
pub enum Stage {
    Open,
    Acceptance { closes: u32 },
    Satisfaction { price: u32, deadline: u32 },
    Matched,
}

/// An order on the book, and where its shares are.
#[derive(Clone, Copy, Debug)]
pub struct Held {
    pub order: Order,
    pub rest: u32,
    here: u32,
    away: u32,
    out: u32,
    cancelled: u32,
    late: u32,
}

#[derive(Clone, Copy, Debug)]
pub struct Quote {
    pub price: u32,
    pub shares: u32,
    venue: u32,
}

#[derive(Clone, Copy, Debug)]
pub struct Ticket {
    order: u32,
    venue: u32,
    price: u32,
    pub shares: u32,
    pub reported: bool,
}

/// Venues with their quotes on each side.
#[derive(Default)]
pub struct Venues {
    pub sides: [BTreeMap<u32, (u32, u32)>; 2],
    pub halted: bool,
}

#[derive(Default, Clone, Copy)]
struct Used {
    buys: usize,
    sells: usize,
    bids: usize,
    offers: usize,
    tickets: usize,
}

pub struct Engine {
    special: bool,
    pub stage: Stage,
    pub last_time: Option<u32>,
    pub last_end: Option<u32>,
    /// The fixed price: that of the last match, none from a begin until its cycle's match. No call depends on it.
    pub fixed: Option<u32>,
    used: Used,
    /// What the tables hold; a new engine finds them as they are.
    pub book: BTreeMap<u32, Held>,
    quotes: [Vec<Quote>; 2],
    pub tickets: Vec<Ticket>,
    pub venues: Venues,
}

pub fn is_permitted(price: u32) -> bool {
    match price {
        LOWEST_PRICE..DOLLAR => price % FINE_TICK == 0,
        DOLLAR..=HIGHEST_PRICE => price % CENT == 0,
        _ => false,
    }
}

fn fits(price: u32, shares: u32) -> bool {
    is_permitted(price) && shares >= 1 && shares <= MOST_SHARES
}

fn is_well_formed(order: &Order) -> bool {
    order.number != 0 && [1, 2].contains(&order.side) && order.class <= 2 && fits(order.price, order.shares)
}

/// The minimum size of a start order.
pub fn minimum(special: bool, price: u32) -> u32 {
    if special {
        return SPECIAL_MINIMUM;
    }
    MINIMUMS.iter().rfind(|step| step.0 <= price).unwrap_or(&MINIMUMS[0]).1
}

/// The distance between permitted prices about a price.
fn tick(price: u32) -> u32 {
    if price < DOLLAR { FINE_TICK } else { CENT }
}

/// The permitted prices next to a price: the last at or below it, the first at or above it.
fn permitted_down(price: u32) -> Option<u32> {
    let down = price.min(HIGHEST_PRICE) / tick(price) * tick(price);
    (down >= LOWEST_PRICE).then_some(down)
}

fn permitted_up(price: u32) -> Option<u32> {
    let step = u64::from(tick(price));
    let up = u64::from(price.max(LOWEST_PRICE)).div_ceil(step) * step;
    (up <= u64::from(HIGHEST_PRICE)).then_some(up as u32)
}

/// A book as the count sees it: price and shares of buys, sells, bids and offers.
struct Book {
    buys: Vec<(u32, u64)>,
    sells: Vec<(u32, u64)>,
    bids: Vec<(u32, u64)>,
    offers: Vec<(u32, u64)>,
}

fn sum(entries: &[(u32, u64)], keep: impl Fn(u32) -> bool) -> u64 {
    entries.iter().filter(|entry| keep(entry.0)).map(|entry| entry.1).sum()
}

impl Book {
    fn demand(&self, q: u32) -> u64 {
        sum(&self.buys, |p| p >= q) + sum(&self.bids, |p| p >= q)
    }

    fn supply(&self, q: u32) -> u64 {
        sum(&self.sells, |p| p <= q) + sum(&self.offers, |p| p <= q)
    }

    fn clears(&self, q: u32) -> bool {
        let above = sum(&self.buys, |p| p > q) + sum(&self.bids, |p| p > q);
        let below = sum(&self.sells, |p| p < q) + sum(&self.offers, |p| p < q);
        above <= self.supply(q) && below <= self.demand(q)
    }

    /// The candidates as stretches of permitted prices, each with its count.
    fn candidates(&self) -> Vec<(u32, u32, u64)> {
        let sides = [&self.buys, &self.sells, &self.bids, &self.offers];
        let prices: BTreeSet<u32> = sides.iter().flat_map(|side| side.iter().map(|entry| entry.0)).collect();
        let mut stretches = Vec::new();
        let mut from = LOWEST_PRICE;
        for price in prices {
            if from < price {
                stretches.push((from, price - 1));
            }
            stretches.push((price, price));
            from = price + 1;
        }
        if from <= HIGHEST_PRICE {
            stretches.push((from, HIGHEST_PRICE));
        }
        // Nothing that is summed changes within a stretch, so one price speaks for it.
        let mut found = Vec::new();
        for (from, to) in stretches {
            if let (Some(first), Some(last)) = (permitted_up(from), permitted_down(to))
                && first <= last
                && self.clears(first)
            {
                found.push((first, last, self.demand(first).min(self.supply(first))));
            }
        }
        found
    }

    fn best(&self) -> (Option<u32>, Option<u32>) {
        (self.bids.iter().map(|bid| bid.0).max(), self.offers.iter().map(|offer| offer.0).min())
    }

    /// The price and its count, or the cause why there is none.
    fn outcome(&self, halted: bool, last_sale: u32) -> Result<(u32, u64), u32> {
        if halted {
            return Err(4);
        }
        let best = self.best();
        if let (Some(bid), Some(offer)) = best
            && bid >= offer
        {
            return Err(2);
        }
        let candidates = self.candidates();
        let count = candidates.first().expect("some price clears").2;
        assert!(candidates.iter().all(|stretch| stretch.2 == count), "candidates count alike");
        if count == 0 {
            return Err(1);
        }
        if let [(first, last, _)] = candidates[..]
            && first == last
        {
            return Ok((first, count));
        }
        let reference = match (last_sale, best) {
            (0, (Some(bid), Some(offer))) => ((u64::from(bid) + u64::from(offer)) / 2) as u32,
            (0, _) => return Err(3),
            (sale, _) => sale,
        };
        Ok((nearest(&candidates, reference), count))
    }
}

/// The candidate nearest to the reference; the reference itself where two are.
fn nearest(candidates: &[(u32, u32, u64)], reference: u32) -> u32 {
    let mut near = BTreeSet::new();
    for &(first, last, _) in candidates {
        for price in [permitted_down(reference.clamp(first, last)), permitted_up(reference.clamp(first, last))] {
            near.extend(price.filter(|&price| first <= price && price <= last).map(|p| (p.abs_diff(reference), p)));
        }
    }
    let mut near = near.into_iter();
    let best = near.next().expect("some candidate");
    match near.next() {
        Some(second) if second.0 == best.0 => reference,
        _ => best.1,
    }
}

impl Engine {
    pub fn new() -> Self {
        Engine {
            special: false,
            stage: Stage::Open,
            last_time: None,
            last_end: None,
            fixed: None,
            used: Used::default(),
            book: BTreeMap::new(),
            quotes: [Vec::new(), Vec::new()],
            tickets: Vec::new(),
            venues: Venues::default(),
        }
    }

    /// The orders of a side in rank order, by number.
    pub fn ranked(&self, side: u32) -> Vec<u32> {
        let mut held: Vec<&Held> = self.book.values().filter(|held| held.order.side == side).collect();
        if side == 1 {
            held.sort_by_key(|held| (Reverse(held.order.price), held.order.class, held.order.number));
        } else {
            held.sort_by_key(|held| (held.order.price, held.order.class, held.order.number));
        }
        held.iter().map(|held| held.order.number).collect()
    }

    fn on_side(&self, side: u32) -> Vec<(u32, u64)> {
        let held = self.book.values().filter(|held| held.order.side == side);
        held.map(|held| (held.order.price, u64::from(held.rest))).collect()
    }

    /// The quotes of a side in rank order, as the venues have them now.
    fn quoted(&self, side: usize) -> Vec<Quote> {
        let venues = self.venues.sides[side].iter();
        let mut quotes: Vec<Quote> =
            venues.map(|(&venue, &(price, shares))| Quote { price, shares, venue }).collect();
        // Stable, and the venues rise already.
        if side == 0 {
            quotes.sort_by_key(|quote| Reverse(quote.price));
        } else {
            quotes.sort_by_key(|quote| quote.price);
        }
        quotes
    }

    fn book_now(&self) -> Book {
        let levels = |side: usize| self.venues.sides[side].values().map(|&(p, n)| (p, u64::from(n))).collect();
        Book { buys: self.on_side(1), sells: self.on_side(2), bids: levels(0), offers: levels(1) }
    }

    fn is_time(&self, time: u32) -> bool {
        time <= DAY_END && self.last_time.is_none_or(|last| last <= time)
    }

    pub fn play(&mut self, line: &Line) -> Result<Answer, u32> {
        match *line {
            Line::Quote { venue, side, price, shares } => {
                self.ask_venue(venue, side)?;
                ask(fits(price, shares), 28)?;
                self.venues.sides[side as usize - 1].insert(venue, (price, shares));
                Ok(Answer::Done)
            }
            Line::Clear { venue, side } => {
                self.ask_venue(venue, side)?;
                self.venues.sides[side as usize - 1].remove(&venue);
                Ok(Answer::Done)
            }
            Line::Halted(halted) => {
                self.venues.halted = halted;
                Ok(Answer::Done)
            }
            Line::New { special } => {
                self.special = special;
                self.stage = Stage::Open;
                self.last_time = None;
                self.last_end = None;
                self.fixed = None;
                self.used = Used::default();
                Ok(Answer::Done)
            }
            Line::Begin { time, order, facts } => self.begin(time, order, facts),
            Line::Enter(order) => self.enter(order),
            Line::Cancel(number) => self.cancel(number),
            Line::Close { time, last_sale } => self.close(time, last_sale),
            Line::Report { ticket, filled } => self.report(ticket, filled),
            Line::Match(time) => self.match_sides(time),
            Line::Finish(time) => {
                ask(self.stage == Stage::Matched, 2)?;
                ask(self.is_time(time), 3)?;
                self.end(time);
                Ok(Answer::Done)
            }
            Line::Abort(time) => {
                ask(self.stage != Stage::Open, 2)?;
                ask(self.is_time(time), 3)?;
                let shares = self.cancel_rests();
                self.end(time);
                Ok(Answer::Number(shares))
            }
            Line::Outstanding => {
                let mut tickets = self.tickets[..self.used.tickets].iter();
                let first = tickets.position(|ticket| !ticket.reported);
                Ok(Answer::Number(first.map_or(0, |place| place as u64 + 1)))
            }
        }
    }

    fn ask_venue(&self, venue: u32, side: u32) -> Result<(), u32> {
        ask((1..=VENUES).contains(&venue) && (1..=2).contains(&side), 27)
    }

    fn begin(&mut self, time: u32, order: Order, facts: Facts) -> Result<Answer, u32> {
        ask(self.stage == Stage::Open, 2)?;
        ask(self.is_time(time), 3)?;
        ask(!self.venues.halted, 5)?;
        let bid = self.venues.sides[0].values().map(|quote| quote.0).max();
        let offer = self.venues.sides[1].values().map(|quote| quote.0).min();
        let (Some(bid), Some(offer)) = (bid, offer) else { return Err(6) };
        ask(bid <= offer, 6)?;
        ask(is_well_formed(&order), 7)?;
        ask(!facts.short_sale, 8)?;
        ask(order.shares >= minimum(self.special, order.price), 9)?;
        ask(if order.side == 1 { order.price >= offer } else { order.price <= bid }, 10)?;
        let since = |then: u32| i64::from(time) - i64::from(then);
        ask(
            (FIRST_START..=LAST_START).contains(&time)
                && facts.first_quote.is_some_and(|quote| since(quote) >= i64::from(QUOTE_AGE))
                && self.last_end.is_none_or(|end| since(end) >= i64::from(CYCLE_GAP)),
            11,
        )?;
        ask(facts.routing, 12)?;
        ask((SHORTEST_ACCEPTANCE..=LONGEST_ACCEPTANCE).contains(&facts.acceptance), 13)?;
        self.book.clear();
        self.quotes = [Vec::new(), Vec::new()];
        self.tickets.clear();
        self.used = Used::default();
        self.stage = Stage::Acceptance { closes: time + facts.acceptance };
        self.last_time = Some(time);
        self.fixed = None;
        self.hold(order);
        Ok(Answer::Done)
    }

    fn hold(&mut self, order: Order) {
        let rest = order.shares;
        let held = Held { order, rest, here: 0, away: 0, out: 0, cancelled: 0, late: 0 };
        self.book.insert(order.number, held);
        if order.side == 1 {
            self.used.buys += 1;
        } else {
            self.used.sells += 1;
        }
    }

    fn closes(&self) -> Result<u32, u32> {
        match self.stage {
            Stage::Acceptance { closes } => Ok(closes),
            _ => Err(2),
        }
    }

    fn enter(&mut self, order: Order) -> Result<Answer, u32> {
        self.closes()?;
        ask(is_well_formed(&order), 7)?;
        ask(!self.book.contains_key(&order.number), 14)?;
        ask(self.on_side(order.side).len() < ORDER_ROWS, 15)?;
        self.hold(order);
        Ok(Answer::Done)
    }

    fn cancel(&mut self, number: u32) -> Result<Answer, u32> {
        self.closes()?;
        let held = self.book.get_mut(&number).ok_or(16u32)?;
        ask(held.rest > 0, 17)?;
        let shares = held.rest;
        held.cancelled += shares;
        held.rest = 0;
        Ok(Answer::Number(shares.into()))
    }

    fn close(&mut self, time: u32, last_sale: u32) -> Result<Answer, u32> {
        let closes = self.closes()?;
        ask(self.is_time(time), 3)?;
        ask(time >= closes, 18)?;
        ask(last_sale <= HIGHEST_PRICE, 19)?;
        let book = self.book_now();
        match book.outcome(self.venues.halted, last_sale) {
            Err(4) => {
                self.cancel_rests();
                self.end(time);
                Ok(Answer::Closed { cause: 4, price: 0, count: 0, tickets: 0 })
            }
            Err(cause) => {
                self.rank_quotes();
                self.stage = Stage::Matched;
                self.last_time = Some(time);
                Ok(Answer::Closed { cause, price: 0, count: 0, tickets: 0 })
            }
            Ok((price, count)) => {
                self.rank_quotes();
                self.route(&book, price);
                self.stage = Stage::Satisfaction { price, deadline: time + TICKET_TIME };
                self.last_time = Some(time);
                Ok(Answer::Closed { cause: 0, price, count, tickets: self.tickets.len() })
            }
        }
    }

    fn rank_quotes(&mut self) {
        self.quotes = [self.quoted(0), self.quoted(1)];
        self.used.bids = self.quotes[0].len();
        self.used.offers = self.quotes[1].len();
    }

    /// Tickets what the one side that owes has to send out.
    fn route(&mut self, book: &Book, price: u32) {
        let own = sum(&book.buys, |p| p >= price) as i64;
        let other = sum(&book.sells, |p| p <= price) as i64;
        let owed = |better: u64, level: u64, own: i64, other: i64| {
            better + level.min((own - better as i64 - other).max(0) as u64)
        };
        let buys_owe = owed(sum(&book.offers, |p| p < price), sum(&book.offers, |p| p == price), own, other);
        let sells_owe = owed(sum(&book.bids, |p| p > price), sum(&book.bids, |p| p == price), other, own);
        assert!(buys_owe == 0 || sells_owe == 0, "only one side owes");
        let (side, quotes, routed) =
            if buys_owe > 0 { (1, &self.quotes[1], buys_owe) } else { (2, &self.quotes[0], sells_owe) };
        let mut tickets = Vec::new();
        let mut start = 0;
        for number in self.ranked(side) {
            let rest = u64::from(self.book[&number].rest);
            let mut quote_start = 0;
            for quote in quotes {
                let quote_end = quote_start + u64::from(quote.shares);
                let from = start.max(quote_start);
                let to = (start + rest).min(quote_end).min(routed);
                if from < to {
                    let shares = (to - from) as u32;
                    let Quote { price, venue, .. } = *quote;
                    tickets.push(Ticket { order: number, venue, price, shares, reported: false });
                }
                quote_start = quote_end;
            }
            start += rest;
        }
        let sent: u64 = tickets.iter().map(|ticket| u64::from(ticket.shares)).sum();
        assert_eq!(sent, routed, "all that is owed is ticketed");
        assert!(tickets.len() <= MOST_TICKETS, "there are fewer tickets than orders and quotes together");
        for ticket in &tickets {
            let held = self.book.get_mut(&ticket.order).expect("a ticket's order is on the book");
            held.rest -= ticket.shares;
            held.out += ticket.shares;
        }
        self.used.tickets = tickets.len();
        self.tickets = tickets;
    }

    fn report(&mut self, number: u32, filled: u32) -> Result<Answer, u32> {
        let is_late = match self.stage {
            Stage::Satisfaction { .. } => false,
            Stage::Matched => true,
            _ => return Err(2),
        };
        ask(number >= 1 && number as usize <= self.used.tickets, 20)?;
        let ticket = &mut self.tickets[number as usize - 1];
        ask(!ticket.reported, 21)?;
        ask(filled <= ticket.shares, 22)?;
        ticket.reported = true;
        let back = ticket.shares - filled;
        let held = self.book.get_mut(&ticket.order).expect("a ticket's order is on the book");
        held.out -= ticket.shares;
        held.away += filled;
        *(if is_late { &mut held.late } else { &mut held.rest }) += back;
        Ok(Answer::Done)
    }

    fn match_sides(&mut self, time: u32) -> Result<Answer, u32> {
        let Stage::Satisfaction { price, deadline } = self.stage else { return Err(2) };
        ask(self.is_time(time), 3)?;
        let reported = self.tickets[..self.used.tickets].iter().all(|ticket| ticket.reported);
        ask(reported || time >= deadline, 23)?;
        let shares = sum(&self.on_side(1), |p| p >= price).min(sum(&self.on_side(2), |p| p <= price));
        for side in [1, 2] {
            let mut ahead = 0;
            for number in self.ranked(side) {
                let held = self.book.get_mut(&number).expect("a ranked order is on the book");
                let size = u64::from(held.rest);
                let allotted = size.min(shares.saturating_sub(ahead)) as u32;
                ahead += size;
                held.rest -= allotted;
                held.here += allotted;
            }
        }
        self.stage = Stage::Matched;
        self.last_time = Some(time);
        self.fixed = Some(price);
        Ok(Answer::Number(shares))
    }

    fn cancel_rests(&mut self) -> u64 {
        let mut shares = 0;
        for held in self.book.values_mut() {
            shares += u64::from(held.rest);
            held.cancelled += held.rest;
            held.rest = 0;
        }
        shares
    }

    fn end(&mut self, time: u32) {
        self.stage = Stage::Open;
        self.last_time = Some(time);
        self.last_end = Some(time);
    }

    /// FNV-1a over the engine's stage and used rows and over every row of the five tables, each number taken whole.
    pub fn digest(&self) -> u64 {
        let mut digest: u64 = 0xcbf2_9ce4_8422_2325;
        let mut mix = |number: u64| digest = (digest ^ number).wrapping_mul(0x100_0000_01b3);
        let stage = match self.stage {
            Stage::Open => [0, 0, 0],
            Stage::Acceptance { closes } => [1, closes, 0],
            Stage::Satisfaction { price, deadline } => [2, price, deadline],
            Stage::Matched => [3, 0, 0],
        };
        stage.iter().for_each(|&number| mix(number.into()));
        let Used { buys, sells, bids, offers, tickets } = self.used;
        [buys, sells, bids, offers, tickets].iter().for_each(|&used| mix(used as u64));
        for side in [1, 2] {
            let rows = self.ranked(side).into_iter().map(|number| {
                let Held { order, rest, here, away, out, cancelled, late } = self.book[&number];
                let Order { class, price, shares, .. } = order;
                [number, class, price, shares, rest, here, away, out, cancelled, late]
            });
            mix_table(&mut mix, rows, ORDER_ROWS);
        }
        for quotes in &self.quotes {
            let rows = quotes.iter().map(|quote| [quote.price, quote.shares, quote.venue]);
            mix_table(&mut mix, rows, QUOTE_ROWS);
        }
        let rows = self.tickets.iter().map(|t| [t.order, t.venue, t.price, t.shares, u32::from(t.reported)]);
        mix_table(&mut mix, rows, TICKET_ROWS);
        digest
    }
}

/// Mixes the fields of a table's rows, and zeros for the rows that are empty.
fn mix_table<const FIELDS: usize>(
    mix: &mut impl FnMut(u64),
    rows: impl ExactSizeIterator<Item = [u32; FIELDS]>,
    size: usize,
) {
    let empty = size - rows.len();
    rows.flatten().for_each(|number| mix(number.into()));
    (0..empty * FIELDS).for_each(|_| mix(0));
}

/// A question with the number that a "no" gives.
fn ask(yes: bool, refusal: u32) -> Result<(), u32> {
    if yes { Ok(()) } else { Err(refusal) }
}
