//! Books with faults: images, entries, last sales and outputs to be refused.

use crate::books::{Call, Drawing, Rungs};
use crate::image::{Book, Entry, STEP_RUNG};
use crate::limits::{
    CENT, DOLLAR, ENTRY_LEN, FINE_TICK, HIGHEST_PRICE, KINDS_OF_ENTRIES, LOWEST_PRICE,
    MOST_ENTRIES, MOST_SHARES, OUTPUT_LEN, SIZES_LEN, WORD_LEN,
};
use crate::random::Random;

/// Fault-free prices for the books to be damaged.
const RUNGS: Rungs = Rungs {
    low: STEP_RUNG - 50,
    high: STEP_RUNG + 950,
};

const LAST_KIND: u32 = KINDS_OF_ENTRIES as u32 - 1;

pub fn last_sale_too_high(random: &mut Random) -> Call {
    Call::new(&some_book(random), too_high(random))
}

/// The image ends before its entries do.
pub fn too_short(random: &mut Random) -> Call {
    let mut call = sound(random);
    let len = call.image.len() as u32;
    let most = random.pick(&[1, WORD_LEN as u32, ENTRY_LEN as u32, len - SIZES_LEN as u32]);
    call.image
        .truncate((len - random.between(1, most)) as usize);
    call
}

/// Bytes follow the entries.
pub fn too_long(random: &mut Random) -> Call {
    let mut call = sound(random);
    let any = random.between(1, 40);
    let more = random.pick(&[1, WORD_LEN as u32, ENTRY_LEN as u32, any]);
    call.image.extend((0..more).map(|_| random.next() as u8));
    call
}

/// The image ends before its sizes do.
pub fn ends_in_sizes(random: &mut Random) -> Call {
    let mut call = if random.pick(&[true, false]) {
        sound(random)
    } else {
        Call::new(&Book::default(), 0)
    };
    call.image
        .truncate(random.between(0, SIZES_LEN as u32 - 1) as usize);
    call
}

/// Sound entries in an image of the right length, but too many of a kind.
pub fn sizes_past_limits(random: &mut Random) -> Call {
    let mut sizes = MOST_ENTRIES.map(|limit| random.between(limit - 1, limit));
    if random.pick(&[true, false]) {
        sizes = sizes.map(|size| random.between(0, size));
    }
    let side = random.between(0, LAST_KIND) as usize;
    let past = random.between(1, 40);
    sizes[side] = MOST_ENTRIES[side] + random.pick(&[1, past]);
    let mut drawing = Drawing::new(random);
    let book = drawing.book(sizes, RUNGS);
    Call::new(&book, drawing.last_sale(RUNGS))
}

/// A size that the length of the image does not bear out.
pub fn sizes_against_length(random: &mut Random) -> Call {
    let mut call = sound(random);
    let side = random.between(0, LAST_KIND) as usize;
    let size = size_of(&call.image, side);
    let other = random.between(size + 1, 2 * MOST_ENTRIES[side]);
    let choices = [
        size + 1,
        MOST_ENTRIES[side] + 1,
        other,
        size.wrapping_sub(1),
    ];
    set_size(&mut call.image, side, random.pick(&choices));
    call
}

/// Sizes so large that a sum or a product as wide as a size comes round to the right length.
pub fn sizes_huge(random: &mut Random) -> Call {
    let mut call = sound(random);
    let side = random.between(0, LAST_KIND) as usize;
    let other = (side + 1) % KINDS_OF_ENTRIES;
    let size = size_of(&call.image, side);
    match random.between(0, 3) {
        0 => set_size(&mut call.image, side, u32::MAX - size),
        1 => {
            let turn = random.between(1, 7) << 29;
            set_size(&mut call.image, side, size + turn);
        }
        2 => {
            let moved = random.pick(&[size + 1, 1 << 31]);
            let grown = size_of(&call.image, other).wrapping_add(moved);
            set_size(&mut call.image, side, size.wrapping_sub(moved));
            set_size(&mut call.image, other, grown);
        }
        _ => (0..KINDS_OF_ENTRIES).for_each(|side| {
            let size = u32::MAX - random.between(0, 1_000);
            set_size(&mut call.image, side, size);
        }),
    }
    call
}

pub fn bad_order_price(random: &mut Random) -> Call {
    with_fault(random, spoil_order_price)
}

pub fn bad_order_shares(random: &mut Random) -> Call {
    with_fault(random, spoil_order_shares)
}

pub fn bad_quote_price(random: &mut Random) -> Call {
    with_fault(random, spoil_quote_price)
}

pub fn bad_quote_shares(random: &mut Random) -> Call {
    with_fault(random, spoil_quote_shares)
}

/// Two faults or more, so that the order of the refusals shows.
pub fn several_faults(random: &mut Random) -> Call {
    // Each number from 1 to 31 with more than one bit is a choice of faults.
    let faults = loop {
        let faults = random.between(1, 31);
        if faults.count_ones() > 1 {
            break faults;
        }
    };
    let has = |fault: u32| faults >> fault & 1 == 1;
    let mut book = some_book(random);
    if has(0) {
        let spoil = random.pick(&[spoil_order_price, spoil_order_shares]);
        spoil(&mut book, random);
    }
    if has(1) {
        let spoil = random.pick(&[spoil_quote_price, spoil_quote_shares]);
        spoil(&mut book, random);
    }
    let mut call = Call::new(&book, Drawing::new(random).last_sale(RUNGS));
    if has(2) {
        call.last_sale = too_high(random);
    }
    if has(3) {
        spoil_length(&mut call.image, random);
    }
    if has(4) {
        call.out_len = wrong_length(random);
    }
    call
}

/// A sound image with one to three bits turned over.
pub fn flipped_bits(random: &mut Random) -> Call {
    let mut call = sound(random);
    for _ in 0..random.between(1, 3) {
        let byte = random.between(0, call.image.len() as u32 - 1) as usize;
        call.image[byte] ^= 1 << random.between(0, 7);
    }
    call
}

pub fn wrong_output(random: &mut Random) -> Call {
    Call {
        out_len: wrong_length(random),
        ..sound(random)
    }
}

/// A book with at least one entry of each kind.
fn some_book(random: &mut Random) -> Book {
    let sizes = [12, 12, 6, 6].map(|most| random.between(1, most));
    Drawing::new(random).book(sizes, RUNGS)
}

fn sound(random: &mut Random) -> Call {
    let book = some_book(random);
    Call::new(&book, Drawing::new(random).last_sale(RUNGS))
}

fn with_fault(random: &mut Random, spoil: fn(&mut Book, &mut Random)) -> Call {
    let mut book = some_book(random);
    spoil(&mut book, random);
    Call::new(&book, Drawing::new(random).last_sale(RUNGS))
}

fn spoil_order_price(book: &mut Book, random: &mut Random) {
    spoiled(&mut book.buys, &mut book.sells, random).price = bad_price(random);
}

fn spoil_order_shares(book: &mut Book, random: &mut Random) {
    spoiled(&mut book.buys, &mut book.sells, random).shares = bad_shares(random);
}

fn spoil_quote_price(book: &mut Book, random: &mut Random) {
    spoiled(&mut book.bids, &mut book.offers, random).price = bad_price(random);
}

fn spoil_quote_shares(book: &mut Book, random: &mut Random) {
    spoiled(&mut book.bids, &mut book.offers, random).shares = bad_shares(random);
}

/// The entry to spoil: often the first or the last of one side.
fn spoiled<'a>(
    buying: &'a mut [Entry],
    selling: &'a mut [Entry],
    random: &mut Random,
) -> &'a mut Entry {
    let side = if random.pick(&[true, false]) {
        buying
    } else {
        selling
    };
    let last = side.len() as u32 - 1;
    let any = random.between(0, last);
    &mut side[random.pick(&[0, any, last]) as usize]
}

fn bad_price(random: &mut Random) -> u32 {
    let odd = random.between(0, u32::MAX) | 1;
    let off_the_tick =
        CENT * random.between(DOLLAR / CENT, HIGHEST_PRICE / CENT) + random.between(1, CENT - 1);
    let above = random.between(HIGHEST_PRICE + 1, u32::MAX);
    let edges = [
        0,
        LOWEST_PRICE - 1,
        LOWEST_PRICE + 1,
        DOLLAR - 1,
        DOLLAR + 1,
        DOLLAR + FINE_TICK,
        DOLLAR + CENT / 2,
        DOLLAR + CENT - FINE_TICK,
        HIGHEST_PRICE - FINE_TICK,
    ];
    let edge = random.pick(&edges);
    let past = random.pick(&[
        HIGHEST_PRICE + 1,
        HIGHEST_PRICE + FINE_TICK,
        HIGHEST_PRICE + CENT,
        u32::MAX / CENT * CENT,
    ]);
    random.pick(&[odd, off_the_tick, above, edge, past])
}

fn bad_shares(random: &mut Random) -> u32 {
    let above = random.between(MOST_SHARES + 1, u32::MAX);
    random.pick(&[0, MOST_SHARES + 1, u32::MAX, 1 << 31, above])
}

fn too_high(random: &mut Random) -> u32 {
    let above = random.between(HIGHEST_PRICE + 1, u32::MAX);
    random.pick(&[HIGHEST_PRICE + 1, HIGHEST_PRICE + CENT, u32::MAX, above])
}

/// Makes the length or a size wrong.
fn spoil_length(image: &mut Vec<u8>, random: &mut Random) {
    match random.between(0, 2) {
        0 => image.push(0),
        1 => image.truncate(random.between(0, image.len() as u32 - 1) as usize),
        _ => {
            let side = random.between(0, LAST_KIND) as usize;
            set_size(image, side, MOST_ENTRIES[side] + 1);
        }
    }
}

/// A length that is not that of an output.
fn wrong_length(random: &mut Random) -> usize {
    let len = random.between(0, 3 * OUTPUT_LEN as u32 - 1) as usize;
    if len < OUTPUT_LEN { len } else { len + 1 }
}

fn size_of(image: &[u8], side: usize) -> u32 {
    u32::from_le_bytes(image[WORD_LEN * side..][..WORD_LEN].try_into().unwrap())
}

fn set_size(image: &mut [u8], side: usize, size: u32) {
    image[WORD_LEN * side..][..WORD_LEN].copy_from_slice(&size.to_le_bytes());
}
