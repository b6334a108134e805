//! Draws runs of calls: whole cycles in every stage, with calls that are refused, ties, halts, locked and crossed
//! markets, full tables, and reports that come in time, late or never.

use crate::engine::{Answer, Engine, Facts, Line, Order, Stage, minimum};
use crate::limits::{
    CENT, CYCLE_GAP, DAY_END, DOLLAR, FINE_PRICES, FINE_TICK, FIRST_START, HIGHEST_PRICE, LAST_START,
    LONGEST_ACCEPTANCE, LOWEST_PRICE, MOST_ORDERS, MOST_SHARES, PRICES, QUOTE_AGE, SHORTEST_ACCEPTANCE, TICKET_TIME,
    VENUES,
};
use crate::random::Random;

/// The rung of a dollar; rungs count the permitted prices from 1.
const DOLLAR_RUNG: i64 = FINE_PRICES as i64 + 1;
const LAST_RUNG: i64 = PRICES as i64;

/// The permitted price on a rung; rungs past the ends stand for the ends.
fn price_at(rung: i64) -> u32 {
    let rung = rung.clamp(1, LAST_RUNG);
    if rung < DOLLAR_RUNG { FINE_TICK * rung as u32 } else { DOLLAR + CENT * (rung - DOLLAR_RUNG) as u32 }
}

const MIDDLE_ACCEPTANCE: u32 = SHORTEST_ACCEPTANCE.midpoint(LONGEST_ACCEPTANCE);

/// More orders than both sides hold, so that they fill a side though some of them are refused.
const FILLING: u32 = 2 * MOST_ORDERS + 3 * MOST_ORDERS / 4;

/// A line with the answer and the digest that are expected.
pub struct Played {
    pub line: Line,
    pub answer: Result<Answer, u32>,
    pub digest: u64,
}

/// What a run is like.
#[derive(Clone, Copy)]
struct Style {
    /// The rung in the middle, and how far prices lie from it.
    middle: i64,
    width: u32,
    special: bool,
    /// How many orders are entered in a cycle at most, and the highest number of an order.
    orders: u32,
    numbers: u32,
    /// How many venues quote on a side at most.
    venues: u32,
    /// The most shares of an order and of a quote.
    shares: u32,
    quoted: u32,
    cycles: u32,
    /// How many of a hundred calls are drawn to be refused, or nearly so.
    odd: u32,
    /// How many of a hundred orders are buys. Where one side has most, its orders reach far into the other's prices.
    buys: u32,
    /// Whether orders come in pairs of equal shares, so that several prices can clear.
    paired: bool,
}

pub struct Run<'a> {
    engine: &'a mut Engine,
    random: Random,
    style: Style,
    /// The highest rung of a bid, from the middle.
    edge: i64,
    /// The time of the next call, in milliseconds since midnight.
    time: u32,
    played: Vec<Played>,
}

/// Plays one run on the engine, and returns what was asked and answered.
pub fn play_run(engine: &mut Engine, number: u64) -> Vec<Played> {
    let mut random = Random::new(&[7, number]);
    let style = draw_style(&mut random, number);
    // Early enough for all cycles of a run.
    let time = random.between(FIRST_START - 10 * CYCLE_GAP, LAST_START - 100 * CYCLE_GAP);
    let edge = i64::from(random.between(0, 2 * style.width)) - i64::from(style.width);
    let mut run = Run { engine, random, style, edge, time, played: Vec::new() };
    run.play();
    run.played
}

fn draw_style(random: &mut Random, number: u64) -> Style {
    let middle = match random.between(0, 9) {
        0 => i64::from(random.between(1, 8)),
        1 => i64::from(random.between(400, 1_500)),
        2 | 3 => DOLLAR_RUNG + i64::from(random.between(0, 20)) - 11,
        4 => LAST_RUNG - i64::from(random.between(0, 6)),
        5 => i64::from(random.between(1, PRICES)),
        _ => DOLLAR_RUNG + 899 + i64::from(random.between(0, 40)),
    };
    let mut style = Style {
        middle,
        width: random.pick(&[1, 2, 3, 6, 20, 200]),
        special: random.between(0, 2) > 0,
        orders: random.pick(&[2, 5, 10, 25]),
        numbers: random.pick(&[20, 60, u32::MAX]),
        venues: random.pick(&[1, 1, 2, 2, 4, 4, 8, 8, 8, VENUES]),
        shares: random.pick(&[3, 100, 1_000, MOST_SHARES]),
        quoted: random.pick(&[3, 200, 5_000, MOST_SHARES]),
        cycles: random.between(1, 3),
        odd: random.pick(&[0, 5, 15, 40]),
        buys: random.pick(&[50, 50, 50, 90, 10]),
        paired: random.between(0, 5) == 0,
    };
    // Now and then a book that fills a side, or all tables.
    if number % 160 == 0 {
        style.orders = FILLING;
        style.numbers = u32::MAX;
        style.cycles = 1;
        style.odd = 1;
        style.venues = VENUES;
        style.shares = random.pick(&[10, 1_000]);
        style.quoted = style.shares * random.pick(&[1, 16, 40]);
        style.buys = random.pick(&[50, 97, 3]);
        style.special = true;
        if style.buys != 50 {
            style.orders = FILLING / 2;
        }
    }
    style
}

/// The fixed price after a call, by the fixed price and the stage before it.
fn fixed_after(fixed: Option<u32>, stage: Stage, line: &Line, is_granted: bool) -> Option<u32> {
    match (line, stage) {
        _ if !is_granted => fixed,
        (Line::Match(_), Stage::Satisfaction { price, .. }) => Some(price),
        (Line::Begin { .. } | Line::New { .. }, _) => None,
        _ => fixed,
    }
}

impl Run<'_> {
    fn say(&mut self, line: Line) -> Result<Answer, u32> {
        let Engine { stage, fixed, .. } = *self.engine;
        let answer = self.engine.play(&line);
        assert_eq!(self.engine.fixed, fixed_after(fixed, stage, &line, answer.is_ok()), "{line:?}");
        self.played.push(Played { line, answer, digest: self.engine.digest() });
        answer
    }

    /// Whether something happens that comes so often in a hundred.
    fn chance(&mut self, percent: u32) -> bool {
        self.random.between(1, 100) <= percent
    }

    fn is_odd(&mut self) -> bool {
        let odd = self.style.odd;
        self.chance(odd)
    }

    fn price_near(&mut self, from: i64, to: i64) -> u32 {
        let step = i64::from(self.random.between(0, (to - from) as u32));
        price_at(self.style.middle + from + step)
    }

    fn any_price(&mut self) -> u32 {
        let width = i64::from(self.style.width);
        self.price_near(-width, width)
    }

    fn play(&mut self) {
        let special = self.style.special;
        let _ = self.say(Line::New { special });
        if self.chance(97) {
            self.clear_quotes();
        }
        for _ in 0..self.style.cycles {
            self.play_cycle();
            if self.chance(15) {
                let _ = self.say(Line::Outstanding);
            }
        }
    }

    fn play_cycle(&mut self) {
        if let (Some(bid), Some(offer)) = self.best()
            && bid > offer
            && self.chance(90)
        {
            self.clear_quotes();
        }
        self.draw_quotes(false);
        for _ in 0..4 {
            if self.is_odd() {
                self.play_anything();
            }
            if self.begin() {
                break;
            }
        }
        if !matches!(self.engine.stage, Stage::Acceptance { .. }) {
            return;
        }
        self.accept();
        self.close();
        if matches!(self.engine.stage, Stage::Satisfaction { .. }) {
            self.satisfy();
        }
        if self.engine.stage == Stage::Matched {
            self.finish();
        }
    }

    fn clear_quotes(&mut self) {
        for side in [1, 2] {
            let venues: Vec<u32> = self.engine.venues.sides[side as usize - 1].keys().copied().collect();
            for venue in venues {
                let _ = self.say(Line::Clear { venue, side });
            }
        }
    }

    /// Quotes of several venues: bids up to the edge and offers from above it, or any where `wild`.
    fn draw_quotes(&mut self, wild: bool) {
        let width = i64::from(self.style.width);
        let edge = self.edge;
        for side in [1, 2] {
            let many = if self.style.venues == VENUES { VENUES } else { self.random.between(0, self.style.venues) };
            for turn in 1..=many.max(u32::from(!wild)) {
                let venue = if many == VENUES { turn } else { self.random.between(1, VENUES) };
                let price = match (wild, side) {
                    (true, _) => self.any_price(),
                    (false, 1) => self.price_near(edge - width - 1, edge),
                    (false, _) => self.price_near(edge + 1, edge + width + 1),
                };
                let shares = self.random.between(1, self.style.quoted);
                let _ = self.say(Line::Quote { venue, side, price, shares });
            }
        }
        if self.is_odd() {
            self.play_odd_quote();
        }
    }

    fn play_odd_quote(&mut self) {
        let venue = self.random.pick(&[0, 1, VENUES, VENUES + 1, u32::MAX]);
        let side = self.random.pick(&[0, 1, 2, 3]);
        let price = self.random.pick(&[
            0,
            LOWEST_PRICE - 1,
            LOWEST_PRICE,
            LOWEST_PRICE + 1,
            DOLLAR - 1,
            DOLLAR + FINE_TICK,
            DOLLAR + CENT / 2,
            200_000,
            HIGHEST_PRICE,
            HIGHEST_PRICE + CENT,
            u32::MAX,
        ]);
        let shares = self.random.pick(&[0, 1, MOST_SHARES, MOST_SHARES + 1]);
        let line =
            if self.chance(70) { Line::Quote { venue, side, price, shares } } else { Line::Clear { venue, side } };
        let _ = self.say(line);
    }

    fn draw_number(&mut self) -> u32 {
        let highest = self.style.numbers;
        self.random.between(1, highest)
    }

    fn draw_order(&mut self) -> Order {
        let percent = self.style.buys;
        let side = if self.chance(percent) { 1 } else { 2 };
        let width = i64::from(self.style.width);
        let price = match (side, percent) {
            (1, 51..) => self.price_near(width, 2 * width + 1),
            (2, ..50) => self.price_near(-2 * width - 1, -width),
            _ => self.any_price(),
        };
        Order {
            number: self.draw_number(),
            side,
            class: self.random.between(0, 2),
            price,
            shares: self.random.between(1, self.style.shares),
        }
    }

    /// Enters, for some orders of the book, one of the other side with as many shares.
    fn play_pairs(&mut self) {
        let most = self.random.pick(&[1, 2, 40]);
        let rests: Vec<Order> = self.engine.book.values().filter(|held| held.rest > 0).map(|held| held.order).collect();
        for order in rests.into_iter().take(most) {
            let width = i64::from(self.style.width);
            let price = if order.side == 1 { self.price_near(-width, 0) } else { self.price_near(0, width) };
            let number = self.draw_number();
            let _ = self.say(Line::Enter(Order { number, side: 3 - order.side, price, ..order }));
        }
    }

    /// An order with one of its numbers out of its range.
    fn draw_bad_order(&mut self) -> Order {
        let mut order = self.draw_order();
        match self.random.between(0, 5) {
            0 => order.number = 0,
            1 => order.side = self.random.pick(&[0, 3]),
            2 => order.class = 3,
            3 => order.price = self.random.pick(&[0, 1, order.price + 1, HIGHEST_PRICE + CENT, u32::MAX]),
            4 => order.shares = 0,
            _ => order.shares = MOST_SHARES + 1,
        }
        order
    }

    fn best(&self) -> (Option<u32>, Option<u32>) {
        let sides = &self.engine.venues.sides;
        (sides[0].values().map(|quote| quote.0).max(), sides[1].values().map(|quote| quote.0).min())
    }

    /// A begin that is granted unless one thing is made odd; whether it was.
    fn begin(&mut self) -> bool {
        if self.chance(3) {
            let halted = !self.engine.venues.halted;
            let _ = self.say(Line::Halted(halted));
        }
        if let Some(end) = self.engine.last_end {
            let gap = self.random.pick(&[CYCLE_GAP, CYCLE_GAP, CYCLE_GAP + 1_000, CYCLE_GAP - 1]);
            self.time = self.time.max(end.saturating_add(gap));
        }
        if let Some(last) = self.engine.last_time {
            self.time = self.time.max(last);
        }
        self.time = self.time.max(FIRST_START);
        let mut order = self.draw_order();
        let (bid, offer) = self.best();
        if let (Some(bid), Some(offer)) = (bid, offer) {
            // A price that reaches the other side's best quote: this one, or further on.
            let further = self.any_price();
            order.price = if order.side == 1 { offer.max(further) } else { bid.min(further) };
        }
        let least = minimum(self.style.special, order.price);
        order.shares = self.random.pick(&[least, least + 1, 3 * least]).max(order.shares);
        let mut facts = Facts {
            short_sale: false,
            first_quote: Some(self.time - self.random.pick(&[QUOTE_AGE, QUOTE_AGE + 1, 20 * QUOTE_AGE])),
            routing: true,
            acceptance: self.random.pick(&[SHORTEST_ACCEPTANCE, MIDDLE_ACCEPTANCE, LONGEST_ACCEPTANCE]),
        };
        let mut time = self.time;
        if self.is_odd() {
            match self.random.between(0, 12) {
                0 => {
                    time = self.random.pick(&[FIRST_START - 1, LAST_START + 1, DAY_END, DAY_END + 1, u32::MAX]);
                }
                1 => time = time.saturating_sub(self.random.between(1, 2 * CYCLE_GAP)),
                2 => facts.first_quote = None,
                3 => facts.first_quote = Some(time - (QUOTE_AGE - 1)),
                4 => facts.first_quote = Some(u32::MAX - 5),
                5 => facts.short_sale = true,
                6 => facts.routing = false,
                7 => {
                    let choices = [0, SHORTEST_ACCEPTANCE - 1, LONGEST_ACCEPTANCE + 1, u32::MAX];
                    facts.acceptance = self.random.pick(&choices);
                }
                8 => order.shares = least - 1,
                9 => order.price = self.any_price(),
                10 => order = self.draw_bad_order(),
                11 => {
                    facts.short_sale = true;
                    order.shares = 1;
                    facts.acceptance = 0;
                }
                _ => self.clear_side(),
            }
        }
        let answer = self.say(Line::Begin { time, order, facts });
        if answer == Err(5) {
            let _ = self.say(Line::Halted(false));
        }
        if answer == Err(6) {
            self.clear_quotes();
            self.draw_quotes(false);
        }
        answer.is_ok()
    }

    fn clear_side(&mut self) {
        let side = self.random.between(1, 2);
        let venues: Vec<u32> = self.engine.venues.sides[side as usize - 1].keys().copied().collect();
        for venue in venues {
            let _ = self.say(Line::Clear { venue, side });
        }
    }

    /// Any call at all, with any numbers.
    fn play_anything(&mut self) {
        let time = match self.random.between(0, 3) {
            0 => self.random.between(0, DAY_END + DAY_END / 24),
            _ => self.time + self.random.between(0, 2 * TICKET_TIME),
        };
        let line = match self.random.between(0, 9) {
            0 => Line::Enter(self.draw_order()),
            1 => Line::Cancel(self.draw_number()),
            2 => Line::Close { time, last_sale: self.any_price() },
            3 => Line::Report { ticket: self.random.between(0, 4), filled: self.random.between(0, 10) },
            4 => Line::Match(time),
            5 => Line::Finish(time),
            6 => Line::Abort(if self.chance(90) { u32::MAX } else { time }),
            7 => Line::Outstanding,
            8 => Line::Enter(self.draw_bad_order()),
            _ => Line::Begin {
                time,
                order: self.draw_order(),
                facts: Facts { short_sale: false, first_quote: Some(0), routing: true, acceptance: MIDDLE_ACCEPTANCE },
            },
        };
        let _ = self.say(line);
    }

    fn accept(&mut self) {
        let orders =
            if self.style.orders == FILLING { FILLING } else { self.random.between(0, self.style.orders) };
        for _ in 0..orders {
            if self.is_odd() {
                match self.random.between(0, 3) {
                    0 => self.play_anything(),
                    1 => self.play_cancel(),
                    2 => self.play_odd_quote(),
                    _ => {
                        let order = self.draw_bad_order();
                        let _ = self.say(Line::Enter(order));
                    }
                }
            }
            let order = self.draw_order();
            let _ = self.say(Line::Enter(order));
            if self.chance(4) {
                self.play_cancel();
            }
        }
        if self.style.paired {
            self.play_pairs();
        }
    }

    /// Cancels an order that is on the book, most often.
    fn play_cancel(&mut self) {
        let numbers: Vec<u32> = self.engine.book.keys().copied().collect();
        let number = if self.chance(80) { self.random.pick(&numbers) } else { self.draw_number() };
        let answer = self.say(Line::Cancel(number));
        if answer.is_ok() && self.chance(30) {
            let _ = self.say(Line::Cancel(number));
        }
    }

    /// Closes, perhaps on another market than the cycle began on.
    fn close(&mut self) {
        match self.random.between(0, 19) {
            0 | 1 => self.draw_quotes(true),
            2 => self.draw_quotes(false),
            3 => self.clear_side(),
            4 | 6 => {
                self.clear_quotes();
            }
            5 => {
                let _ = self.say(Line::Halted(true));
            }
            _ => {}
        }
        for _ in 0..200 {
            let Stage::Acceptance { closes } = self.engine.stage else { break };
            if self.chance(3) {
                let _ = self.say(Line::Abort(self.time));
                continue;
            }
            if self.is_odd() {
                let time = self.random.pick(&[closes - 1, self.time, self.time - 1, DAY_END + 1, closes]);
                let last_sale = self.random.pick(&[HIGHEST_PRICE + 1, u32::MAX]);
                let _ = self.say(Line::Close { time, last_sale });
            }
            self.time = closes + self.random.pick(&[0, 0, 1, 700]);
            let (bid, offer) = self.best();
            let last_sale = match self.random.between(0, 9) {
                0..=2 => 0,
                5.. if bid.is_none() || offer.is_none() => 0,
                3 => self.random.pick(&[1, HIGHEST_PRICE, HIGHEST_PRICE - CENT / 2]),
                4 => self.any_price(),
                _ => self.any_price().saturating_sub(100) + self.random.between(0, 200),
            };
            let last_sale = last_sale.min(HIGHEST_PRICE);
            let _ = self.say(Line::Close { time: self.time, last_sale });
        }
        if self.engine.venues.halted {
            let _ = self.say(Line::Halted(false));
        }
    }

    /// Reports some tickets, tries to match too early, and matches.
    fn satisfy(&mut self) {
        let Stage::Satisfaction { deadline, .. } = self.engine.stage else { return };
        let all = self.chance(40);
        for number in 1..=self.engine.tickets.len() as u32 {
            if all || self.chance(60) {
                self.play_report(number);
            }
            if self.is_odd() {
                self.play_odd_report();
            }
            if self.chance(3) {
                let _ = self.say(Line::Outstanding);
            }
        }
        if self.is_odd() {
            self.play_anything();
        }
        if self.chance(5) {
            let _ = self.say(Line::Abort(self.time));
            return;
        }
        if self.chance(50) {
            self.time += self.random.between(0, deadline - self.time - 1);
            let _ = self.say(Line::Match(self.time));
        }
        for _ in 0..100 {
            let Stage::Satisfaction { deadline, .. } = self.engine.stage else { break };
            if self.is_odd() {
                let time = self.random.pick(&[self.time - 1, DAY_END + 1, deadline - 1]);
                let _ = self.say(Line::Match(time));
            }
            self.time = self.time.max(deadline) + self.random.pick(&[0, 1]);
            let _ = self.say(Line::Match(self.time));
        }
    }

    fn play_report(&mut self, ticket: u32) {
        let shares = self.engine.tickets[ticket as usize - 1].shares;
        let some = self.random.between(0, shares);
        let filled = self.random.pick(&[0, some, shares, shares]);
        let _ = self.say(Line::Report { ticket, filled });
    }

    /// A report of a ticket that is none, that is reported, or that has fewer shares.
    fn play_odd_report(&mut self) {
        let tickets = self.engine.tickets.len() as u32;
        let ticket = self.random.pick(&[0, 1, tickets, tickets + 1, u32::MAX]);
        let shares = match ticket.checked_sub(1).and_then(|place| self.engine.tickets.get(place as usize)) {
            Some(ticket) => ticket.shares,
            None => 1,
        };
        let filled = self.random.pick(&[shares, shares + 1, u32::MAX]);
        let _ = self.say(Line::Report { ticket, filled });
    }

    /// Late reports, and the end of the cycle.
    fn finish(&mut self) {
        for number in 1..=self.engine.tickets.len() as u32 {
            if !self.engine.tickets[number as usize - 1].reported && self.chance(60) {
                self.play_report(number);
            }
        }
        if self.is_odd() {
            self.play_odd_report();
            self.play_anything();
        }
        for _ in 0..100 {
            if self.engine.stage != Stage::Matched {
                break;
            }
            if self.is_odd() {
                let time = self.random.pick(&[0, self.time - 1, DAY_END + 1]);
                let line = if self.chance(50) { Line::Finish(time) } else { Line::Abort(time) };
                let _ = self.say(line);
            }
            self.time = self.time.max(self.engine.last_time.unwrap_or(0)) + self.random.between(0, 50);
            let line = if self.chance(85) { Line::Finish(self.time) } else { Line::Abort(self.time) };
            let _ = self.say(line);
        }
    }
}
