//! How many books of each kind came to each cause and each refusal.

use crate::Answer;
use crate::books::KINDS;
use crate::pricing::{
    BAD_IMAGE, BAD_LAST_SALE, BAD_ORDER, BAD_OUTPUT, BAD_QUOTE, NO_REFERENCE, NOTHING_TRADES,
    PRICED, QUOTES_CROSS, is_permitted,
};

const CAUSES: [u32; 4] = [PRICED, NOTHING_TRADES, QUOTES_CROSS, NO_REFERENCE];
const REFUSALS: [u32; 5] = [BAD_OUTPUT, BAD_IMAGE, BAD_ORDER, BAD_QUOTE, BAD_LAST_SALE];
const COLUMNS: usize = CAUSES.len() + REFUSALS.len();

pub struct Tally {
    /// A row for each kind; the causes, then the refusals.
    rows: Vec<[u64; COLUMNS]>,
    /// Prices that are the reference between two candidates.
    between_ticks: u64,
}

impl Tally {
    pub fn new() -> Self {
        Tally {
            rows: vec![[0; COLUMNS]; KINDS.len()],
            between_ticks: 0,
        }
    }

    /// Counts a book of the kind with this number.
    pub fn add(&mut self, kind: usize, answer: Answer) {
        self.rows[kind][column(answer)] += 1;
        if let Answer::Outcome {
            price,
            cause: PRICED,
            ..
        } = answer
        {
            self.between_ticks += u64::from(!is_permitted(price));
        }
    }

    pub fn books(&self) -> u64 {
        self.rows.iter().flatten().sum()
    }

    pub fn print(&self) {
        let title = |name: &str, numbers: &[u32]| -> Vec<String> {
            numbers
                .iter()
                .map(|number| format!("{name} {number}"))
                .collect()
        };
        let titles = [title("cause", &CAUSES), title("refused", &REFUSALS)].concat();
        print!("{:<24}{:>7}", "", "books");
        titles.iter().for_each(|title| print!("{title:>11}"));
        println!();
        for (kind, row) in KINDS.iter().zip(&self.rows) {
            print_row(kind.name, row);
        }
        print_row("all", &self.totals());
        println!("prices between two ticks: {}", self.between_ticks);
    }

    /// An error if a kind, a cause or a refusal was never seen.
    pub fn require_all(&self) -> Result<(), String> {
        for (kind, row) in KINDS.iter().zip(&self.rows) {
            if row.iter().all(|&books| books == 0) {
                return Err(format!("no book of the kind {}", kind.name));
            }
        }
        let numbers = CAUSES.iter().chain(&REFUSALS);
        for (column, (number, books)) in numbers.zip(self.totals()).enumerate() {
            if books == 0 {
                let name = if column < CAUSES.len() {
                    "cause"
                } else {
                    "refusal"
                };
                return Err(format!("no book came to {name} {number}"));
            }
        }
        if self.between_ticks == 0 {
            return Err("no price between two ticks".to_string());
        }
        Ok(())
    }

    fn totals(&self) -> [u64; COLUMNS] {
        std::array::from_fn(|column| self.rows.iter().map(|row| row[column]).sum())
    }
}

fn column(answer: Answer) -> usize {
    let place = match answer {
        Answer::Outcome { cause, .. } => CAUSES.iter().position(|&other| other == cause),
        Answer::Refusal(refusal) => REFUSALS
            .iter()
            .position(|&other| other == refusal)
            .map(|place| CAUSES.len() + place),
    };
    place.expect("a known cause or refusal")
}

fn print_row(name: &str, row: &[u64]) {
    print!("{name:<24}{:>7}", row.iter().sum::<u64>());
    for books in row {
        // An empty cell reads better than a nought.
        let cell = if *books == 0 {
            String::new()
        } else {
            books.to_string()
        };
        print!("{cell:>11}");
    }
    println!();
}
