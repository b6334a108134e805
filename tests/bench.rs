//! Times the library and the independent pricing on full books, in turns
//! within the same run, and prints the median time per book of each.

mod image;
mod library;
mod limits;
mod pricing;
mod random;

use image::{Book, Entry, LAST_RUNG, STEP_RUNG, price_on};
use limits::{MOST_ENTRIES, OUTPUT_LEN};
use random::Random;
use std::hint::black_box;
use std::process::ExitCode;
use std::time::{Duration, Instant};

/// Different books of each family.
const BOOKS: u64 = 128;
/// How long the rounds of a family go on.
const TIME: Duration = Duration::from_secs(2);
/// Rounds are run at least so many times, however long they take.
const LEAST_ROUNDS: usize = 5;

/// A family of full books: where its prices lie.
struct Family {
    name: &'static str,
    /// The rung of a price; a random number chooses.
    rung: fn(&mut Random) -> u32,
    /// Bids are below this rung, offers on it or above.
    middle: u32,
}

/// The rung of ten dollars.
const MIDDLE: u32 = STEP_RUNG + 900;

const LEVELS: [u32; 5] = [MIDDLE - 10, MIDDLE - 3, MIDDLE, MIDDLE + 1, MIDDLE + 7];

const FAMILIES: [Family; 4] = [
    // Up to twenty cents from ten dollars.
    Family {
        name: "dense",
        rung: |random| random.between(MIDDLE - 20, MIDDLE + 20),
        middle: MIDDLE,
    },
    // All permitted prices.
    Family {
        name: "wide",
        rung: |random| random.between(1, LAST_RUNG),
        middle: LAST_RUNG / 2,
    },
    // On both sides of a dollar, where the ticks change.
    Family {
        name: "penny",
        rung: |random| random.between(STEP_RUNG - 200, STEP_RUNG + 200),
        middle: STEP_RUNG,
    },
    // Five prices.
    Family {
        name: "level",
        rung: |random| random.pick(&LEVELS),
        middle: MIDDLE,
    },
];

/// A full book ready to be priced.
struct Ready {
    image: Vec<u8>,
    last_sale: u32,
}

type Output = [u8; OUTPUT_LEN];

fn main() -> ExitCode {
    let [buys, sells, bids, offers] = MOST_ENTRIES;
    println!(
        "full books ({buys} buys, {sells} sells, {bids} bids, {offers} offers), median ns per book"
    );
    println!(
        "{:<8}{:>10}{:>14}{:>8}{:>9}",
        "family", "library", "independent", "ratio", "rounds"
    );
    for (seed, family) in (1..).zip(&FAMILIES) {
        let books: Vec<Ready> = (0..BOOKS)
            .map(|turn| ready(family, &[seed, turn]))
            .collect();
        if !books.iter().all(is_priced_alike) {
            eprintln!(
                "{}: a book is refused, or the two pricings differ",
                family.name
            );
            return ExitCode::FAILURE;
        }
        let (ours, theirs, rounds) = time(&books);
        let ratio = ours / theirs;
        println!(
            "{:<8}{ours:>10.0}{theirs:>14.0}{ratio:>8.2}{rounds:>9}",
            family.name
        );
    }
    ExitCode::SUCCESS
}

/// Median nanoseconds per book of the library and of the independent pricing.
fn time(books: &[Ready]) -> (f64, f64, usize) {
    let (mut ours, mut theirs) = (Vec::new(), Vec::new());
    let start = Instant::now();
    while ours.len() < LEAST_ROUNDS || start.elapsed() < TIME {
        // Each goes first in every other round.
        if ours.len() % 2 == 0 {
            ours.push(time_round(books, library));
            theirs.push(time_round(books, independent));
        } else {
            theirs.push(time_round(books, independent));
            ours.push(time_round(books, library));
        }
    }
    let rounds = ours.len();
    (median(ours), median(theirs), rounds)
}

/// Nanoseconds per book of one pass over all books.
fn time_round(books: &[Ready], price: impl Fn(&Ready) -> Option<Output>) -> f64 {
    let start = Instant::now();
    for book in books {
        black_box(price(black_box(book)));
    }
    start.elapsed().as_nanos() as f64 / books.len() as f64
}

fn library(book: &Ready) -> Option<Output> {
    let mut out = [0; OUTPUT_LEN];
    let refusal = library::price_image(&book.image, book.last_sale, &mut out);
    (refusal == 0).then_some(out)
}

fn independent(book: &Ready) -> Option<Output> {
    pricing::price(&book.image, book.last_sale, OUTPUT_LEN).ok()
}

/// Whether both price the book, to the same bytes.
fn is_priced_alike(book: &Ready) -> bool {
    let ours = library(book);
    ours.is_some() && ours == independent(book)
}

fn median(mut times: Vec<f64>) -> f64 {
    times.sort_unstable_by(f64::total_cmp);
    times[times.len() / 2]
}

/// Draws a full book of the family, with quotes that do not cross.
fn ready(family: &Family, seed: &[u64]) -> Ready {
    let mut random = Random::new(seed);
    let [buys, sells, bids, offers] = MOST_ENTRIES;
    let book = Book {
        buys: entries(buys, &mut random, family, |_| true),
        sells: entries(sells, &mut random, family, |_| true),
        bids: entries(bids, &mut random, family, |rung| rung < family.middle),
        offers: entries(offers, &mut random, family, |rung| rung >= family.middle),
    };
    let last_sale = price_on((family.rung)(&mut random));
    Ready {
        image: book.image(),
        last_sale,
    }
}

/// Draws entries on rungs that pass.
fn entries(
    size: u32,
    random: &mut Random,
    family: &Family,
    passes: impl Fn(u32) -> bool,
) -> Vec<Entry> {
    let rungs = std::iter::repeat_with(|| ((family.rung)(random), 100 * random.between(1, 100)));
    rungs
        .filter(|&(rung, _)| passes(rung))
        .map(|(rung, shares)| Entry {
            price: price_on(rung),
            shares,
        })
        .take(size as usize)
        .collect()
}
