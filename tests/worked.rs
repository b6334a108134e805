//! Books worked out by hand.

use crate::image::{Book, Entry};

pub struct Worked {
    pub book: Book,
    pub last_sale: u32,
    pub price: u32,
    pub cause: u32,
    pub count: u64,
}

/// Entries written as (shares, price).
type Written<'a> = &'a [(u32, u32)];

pub fn worked() -> Vec<Worked> {
    // One buy and one sell of 100 shares, a tick apart and crossed.
    let pair = || book(&[(100, 200_200)], &[(100, 200_000)], &[], &[]);
    vec![
        // The middle of the two candidates is a tie, and the reference itself.
        priced(pair(), 200_100, 200_100, 100),
        priced(pair(), 200_050, 200_000, 100),
        priced(pair(), 300_000, 200_200, 100),
        unpriced(pair(), 0, 3),
        // The middle of the quotes is the reference.
        priced(
            book(
                &[(100, 200_200)],
                &[(100, 200_000)],
                &[(100, 199_800)],
                &[(100, 200_400)],
            ),
            0,
            200_100,
            100,
        ),
        // A tie across the change of tick.
        priced(
            book(&[(100, 20_000)], &[(100, 19_998)], &[], &[]),
            19_999,
            19_999,
            100,
        ),
        // Nobody meets.
        unpriced(
            book(&[(100, 199_800)], &[(100, 200_000)], &[], &[]),
            200_000,
            1,
        ),
        // A buy against an offer with shares to spare.
        priced(
            book(&[(100, 200_200)], &[], &[], &[(500, 200_000)]),
            0,
            200_000,
            100,
        ),
        // More is bought than sold, with the quotes on both sides.
        priced(
            book(
                &[(300, 200_400)],
                &[(100, 200_400)],
                &[(100, 199_600)],
                &[(150, 200_000)],
            ),
            0,
            200_400,
            250,
        ),
        // The side with more shares settles the price, whatever the last sale.
        priced(
            book(&[(100, 200_200)], &[(50, 200_000)], &[], &[]),
            200_000,
            200_200,
            50,
        ),
        // Locked quotes.
        unpriced(
            book(
                &[(100, 200_200)],
                &[(100, 200_000)],
                &[(100, 200_000)],
                &[(100, 200_000)],
            ),
            200_100,
            2,
        ),
    ]
}

fn book(buys: Written, sells: Written, bids: Written, offers: Written) -> Book {
    let entries = |written: Written| {
        written
            .iter()
            .map(|&(shares, price)| Entry { price, shares })
            .collect()
    };
    Book {
        buys: entries(buys),
        sells: entries(sells),
        bids: entries(bids),
        offers: entries(offers),
    }
}

fn priced(book: Book, last_sale: u32, price: u32, count: u64) -> Worked {
    Worked {
        book,
        last_sale,
        price,
        cause: 0,
        count,
    }
}

fn unpriced(book: Book, last_sale: u32, cause: u32) -> Worked {
    Worked {
        book,
        last_sale,
        price: 0,
        cause,
        count: 0,
    }
}
