//! Tickets of full tables: the proved walk against the same walk in plain Rust.
mod limits;
mod rows;

use limits::{ORDER_ROWS, QUOTE_ROWS, TICKET_ROWS};
use rows::{OrderRow, Quote, Ticket};
use std::hint::black_box;
use std::time::Instant;

#[link(name = "benches", kind = "static")]
unsafe extern "C" {
    fn bench_tickets(
        rows: *const OrderRow,
        orders: usize,
        quotes: *const Quote,
        quoted: usize,
        routed: u64,
        out: *mut Ticket,
        room: usize,
    ) -> usize;
}

const ROUNDS: usize = 4_000;

/// Walks orders and quotes; each ticket is as large as both still allow.
#[inline(never)]
fn plain(rows: &[OrderRow], quotes: &[Quote], routed: u64, out: &mut [Ticket]) -> usize {
    let mut count = 0;
    let mut left = routed;
    let mut orders = rows.iter();
    let mut quoted = quotes.iter();
    let (Some(mut order), Some(mut quote)) = (orders.next(), quoted.next()) else {
        return 0;
    };
    let (mut rest, mut size) = (order.rest, quote.shares);
    while left > 0 {
        let shares = rest.min(size).min(u32::try_from(left).unwrap_or(u32::MAX));
        if shares > 0 {
            out[count] = Ticket {
                order: order.number,
                venue: quote.venue,
                price: quote.price,
                shares,
                reported: false,
            };
            count += 1;
        }
        rest -= shares;
        size -= shares;
        left -= u64::from(shares);
        if rest == 0 {
            let Some(next) = orders.next() else { break };
            order = next;
            rest = next.rest;
        }
        if size == 0 {
            let Some(next) = quoted.next() else { break };
            quote = next;
            size = next.shares;
        }
    }
    count
}

/// Full tables; quotes as large as `scale` orders on the average.
fn tables(scale: u32, seed: u64) -> (Vec<OrderRow>, Vec<Quote>, u64) {
    let mut x = seed.wrapping_mul(0x9E37_79B9_7F4A_7C15) | 1;
    let mut below = |n: u32| {
        x ^= x << 13;
        x ^= x >> 7;
        x ^= x << 17;
        (x >> 33) as u32 % n + 1
    };
    let rows: Vec<OrderRow> = (0..ORDER_ROWS as u32)
        .map(|i| {
            let rest = below(1_000);
            OrderRow { number: i + 1, price: 200_400, shares: rest, rest, ..OrderRow::default() }
        })
        .collect();
    let quotes: Vec<Quote> = (0..QUOTE_ROWS as u32)
        .map(|i| Quote { price: 200_000, shares: below(1_000 * scale), venue: i + 1 })
        .collect();
    let routed = quotes.iter().map(|q| u64::from(q.shares)).sum();
    (rows, quotes, routed)
}

fn main() {
    for (name, scale) in [("few orders to a quote", 2), ("sixteen orders to a quote", 16)] {
        let sets: Vec<_> = (1..17).map(|seed| tables(scale, seed)).collect();
        let (mut best_ours, mut best_plain) = (f64::MAX, f64::MAX);
        for round in 0..ROUNDS {
            let (rows, quotes, routed) = &sets[round % sets.len()];
            let (mut ours, mut theirs) = ([Ticket::default(); TICKET_ROWS], [Ticket::default(); TICKET_ROWS]);
            let start = Instant::now();
            let n = unsafe {
                bench_tickets(
                    rows.as_ptr(),
                    rows.len(),
                    quotes.as_ptr(),
                    quotes.len(),
                    *routed,
                    ours.as_mut_ptr(),
                    ours.len(),
                )
            };
            let t = start.elapsed().as_nanos() as f64;
            let start = Instant::now();
            let m = plain(rows, quotes, *routed, &mut theirs);
            let u = start.elapsed().as_nanos() as f64;
            assert_eq!((n, &ours[..]), (m, &theirs[..]));
            black_box((n, m));
            best_ours = best_ours.min(t);
            best_plain = best_plain.min(u);
        }
        println!("tickets, {name}: proved {best_ours:.0} ns, plain {best_plain:.0} ns, ratio {:.2}", best_ours / best_plain);
    }
}
