//! Compares the library to the independent pricing, book by book: the number
//! returned and every byte of the output. Stops at the first difference.

mod books;
mod damaged;
mod image;
mod library;
mod limits;
mod pricing;
mod random;
mod tally;
mod worked;

use books::{Call, KINDS};
use limits::{CAUSE_BYTES, COUNT_BYTES, OUTPUT_LEN, PRICE_BYTES, WORD_LEN};
use random::Random;
use std::process::ExitCode;
use tally::Tally;

const SEEDS: [u64; 3] = [1, 20_000, 4_000_000_000];
const TURNS: u64 = 500;

fn main() -> ExitCode {
    match compare_all() {
        Ok(books) => {
            println!("comparison: {books} books, no difference");
            ExitCode::SUCCESS
        }
        Err(message) => {
            eprintln!("comparison failed: {message}");
            ExitCode::FAILURE
        }
    }
}

/// Compares the worked books and the drawn ones; returns how many.
fn compare_all() -> Result<u64, String> {
    let worked = compare_worked()?;
    let mut tally = Tally::new();
    for seed in SEEDS {
        for (number, kind) in KINDS.iter().enumerate() {
            for turn in 0..TURNS {
                let mut random = Random::new(&[seed, number as u64, turn]);
                let call = (kind.draw)(&mut random);
                let answer = compare(&call, &mut random)
                    .map_err(|what| format!("seed {seed}, {}, turn {turn}: {what}", kind.name))?;
                tally.add(number, answer);
            }
        }
    }
    println!("{worked} worked books, and drawn ones:");
    tally.print();
    tally.require_all()?;
    Ok(worked + tally.books())
}

/// Both pricings must answer each worked book as written.
fn compare_worked() -> Result<u64, String> {
    let mut books = 0;
    for worked in worked::worked() {
        books += 1;
        let call = Call::new(&worked.book, worked.last_sale);
        let answer = compare(&call, &mut Random::new(&[books]))
            .map_err(|what| format!("worked book {books}: {what}"))?;
        let written = Answer::Outcome {
            price: worked.price,
            cause: worked.cause,
            count: worked.count,
        };
        if answer != written {
            return Err(format!(
                "worked book {books}: {answer:?}, but {written:?} is written"
            ));
        }
    }
    Ok(books)
}

/// What a call comes to.
#[derive(Clone, Copy, Debug, PartialEq, Eq)]
pub enum Answer {
    Outcome { price: u32, cause: u32, count: u64 },
    Refusal(u32),
}

impl Answer {
    fn new(result: Result<[u8; OUTPUT_LEN], u32>) -> Self {
        match result {
            Ok(out) => Answer::Outcome {
                price: u32::from_le_bytes(out[PRICE_BYTES].try_into().unwrap()),
                cause: u32::from_le_bytes(out[CAUSE_BYTES].try_into().unwrap()),
                count: u64::from_le_bytes(out[COUNT_BYTES].try_into().unwrap()),
            },
            Err(refusal) => Answer::Refusal(refusal),
        }
    }
}

/// Runs both pricings; the answer if they agree to the byte.
fn compare(call: &Call, random: &mut Random) -> Result<Answer, String> {
    let expected = pricing::price(&call.image, call.last_sale, call.out_len);

    let mut image = Framed::new(call.image.len(), random);
    image.inner().copy_from_slice(&call.image);
    let mut out = Framed::new(call.out_len, random);
    let mut expected_out = out.clone();
    if let Ok(bytes) = expected {
        expected_out.inner().copy_from_slice(&bytes);
    }

    let returned = library::price_image(image.inner(), call.last_sale, out.inner());
    if returned == expected.err().unwrap_or(0) && out == expected_out {
        return Ok(Answer::new(expected));
    }
    Err(difference(
        call,
        expected,
        returned,
        &mut out,
        &mut expected_out,
    ))
}

/// Bytes among random others, at any alignment: what is around them must stay.
#[derive(Clone, PartialEq, Eq)]
struct Framed {
    bytes: Vec<u8>,
    start: usize,
    len: usize,
}

impl Framed {
    const MARGIN: usize = 16;

    fn new(len: usize, random: &mut Random) -> Self {
        let start = Self::MARGIN + random.between(0, 7) as usize;
        let mut bytes = vec![0; start + len + Self::MARGIN];
        for chunk in bytes.chunks_mut(8) {
            chunk.copy_from_slice(&random.next().to_le_bytes()[..chunk.len()]);
        }
        Framed { bytes, start, len }
    }

    fn inner(&mut self) -> &mut [u8] {
        &mut self.bytes[self.start..][..self.len]
    }
}

/// A message with all that is needed to see the difference.
fn difference(
    call: &Call,
    expected: Result<[u8; OUTPUT_LEN], u32>,
    returned: u32,
    out: &mut Framed,
    expected_out: &mut Framed,
) -> String {
    let mut lines = vec![
        format!(
            "last sale {}, output of {} bytes",
            call.last_sale, call.out_len
        ),
        format!("expected: {:?}", Answer::new(expected)),
        format!("          output {:02x?}", expected_out.inner()),
        format!("library:  returned {returned}"),
        format!("          output {:02x?}", out.inner()),
    ];
    if let (0, Ok(bytes)) = (returned, <[u8; OUTPUT_LEN]>::try_from(&*out.inner())) {
        lines.push(format!("          {:?}", Answer::new(Ok(bytes))));
    }
    if out.inner() == expected_out.inner() && out != expected_out {
        lines.push("          wrote outside the output".to_string());
    }
    lines.push(format!(
        "image: {} bytes, as numbers {:?}",
        call.image.len(),
        numbers(call)
    ));
    lines.join("\n  ")
}

/// The first numbers of the image.
fn numbers(call: &Call) -> Vec<u32> {
    let (words, _) = call.image.as_chunks::<WORD_LEN>();
    words
        .iter()
        .take(100)
        .copied()
        .map(u32::from_le_bytes)
        .collect()
}
