//! Compares the program `play_calls` to the independent engine, call by call: the answer and a digest of the stage, the
//! rows in use and all tables. Stops at the first difference.

mod engine;
mod engine_runs;
mod limits;
#[allow(dead_code)]
mod random;

use engine::{Answer, Engine, Line, is_permitted};
use engine_runs::{Played, play_run};
use std::collections::BTreeMap;
use std::fmt::Write as _;
use std::io::{BufRead, BufReader, Write as _};
use std::process::{Command, ExitCode, Stdio};
use std::thread;

const RUNS: u64 = 8_000;
/// Runs are handed to the program in batches, each to a program of its own.
const BATCH: u64 = 400;

/// The refusals that calls can meet here: the tables have their sizes, and the quotes of a venue table fit.
const REFUSALS: [u32; 23] =
    [2, 3, 5, 6, 7, 8, 9, 10, 11, 12, 13, 14, 15, 16, 17, 18, 19, 20, 21, 22, 23, 27, 28];
const CAUSES: [u32; 5] = [0, 1, 2, 3, 4];

/// What came how often.
#[derive(Default)]
struct Tally {
    runs: u64,
    calls: u64,
    /// Calls of the engine: all but those that set the venue table or make an engine.
    engine_calls: u64,
    /// Granted calls, by the letter of their line.
    granted: BTreeMap<char, u64>,
    tickets: u64,
    most_tickets: usize,
    /// Prices that are the reference between two candidates.
    between: u64,
    refusals: [u64; 29],
    causes: [u64; 5],
}

impl Tally {
    fn add(&mut self, played: &Played) {
        self.calls += 1;
        let is_setting = matches!(
            played.line,
            Line::Quote { .. } | Line::Clear { .. } | Line::Halted(_) | Line::New { .. }
        );
        self.engine_calls += u64::from(!is_setting);
        match played.answer {
            Ok(answer) => {
                let letter = text_of(&played.line).chars().next().unwrap_or_default();
                *self.granted.entry(letter).or_default() += 1;
                if let Answer::Closed { cause, price, tickets, .. } = answer {
                    self.causes[cause as usize] += 1;
                    self.between += u64::from(cause == 0 && !is_permitted(price));
                    self.tickets += tickets as u64;
                    self.most_tickets = self.most_tickets.max(tickets);
                }
            }
            Err(refusal) => self.refusals[refusal as usize] += 1,
        }
    }

    fn print(&self) {
        println!("{} calls in {} runs, {} of them to the engine", self.calls, self.runs, self.engine_calls);
        let granted = self.granted.iter().map(|(letter, count)| format!("{letter}: {count}"));
        println!("granted {}", granted.collect::<Vec<_>>().join(", "));
        println!(
            "{} tickets, at most {} of a close; {} prices between two candidates",
            self.tickets, self.most_tickets, self.between
        );
        let list = |name: &str, numbers: &[u32], counts: &[u64]| {
            let counts = numbers.iter().map(|&number| format!("{number}: {}", counts[number as usize]));
            println!("{name} {}", counts.collect::<Vec<_>>().join(", "));
        };
        list("closes by cause", &CAUSES, &self.causes);
        list("refused with", &REFUSALS, &self.refusals);
    }

    fn require_all(&self) -> Result<(), String> {
        for refusal in REFUSALS {
            if self.refusals[refusal as usize] == 0 {
                return Err(format!("no call was refused with {refusal}"));
            }
        }
        match self.causes.iter().position(|&count| count == 0) {
            Some(cause) => Err(format!("no close had the cause {cause}")),
            None => Ok(()),
        }
    }
}

fn main() -> ExitCode {
    let arguments: Vec<String> = std::env::args().skip(1).collect();
    let done = match &arguments[..] {
        [program] => compare_all(program),
        _ => Err("usage: engine_compare PROGRAM".to_string()),
    };
    match done {
        Ok(tally) => {
            tally.print();
            println!("engine comparison: {} calls, no difference", tally.calls);
            ExitCode::SUCCESS
        }
        Err(message) => {
            eprintln!("engine comparison failed: {message}");
            ExitCode::FAILURE
        }
    }
}

fn compare_all(program: &str) -> Result<Tally, String> {
    let mut tally = Tally::default();
    for first in (0..RUNS).step_by(BATCH as usize) {
        compare_batch(program, first, &mut tally)?;
    }
    tally.require_all()?;
    Ok(tally)
}

/// Plays a batch of runs on a fresh engine, and the same on the program.
fn compare_batch(program: &str, first: u64, tally: &mut Tally) -> Result<(), String> {
    let mut engine = Engine::new();
    let runs: Vec<Vec<Played>> = (first..first + BATCH).map(|number| play_run(&mut engine, number)).collect();
    let input: String = runs.iter().flatten().map(|played| text_of(&played.line)).collect();
    let mut child = Command::new(program)
        .stdin(Stdio::piped())
        .stdout(Stdio::piped())
        .spawn()
        .map_err(|e| format!("{program}: {e}"))?;
    let mut stdin = child.stdin.take().expect("standard input is piped");
    let stdout = BufReader::new(child.stdout.take().expect("standard output is piped"));
    let writer = thread::spawn(move || stdin.write_all(input.as_bytes()));
    let mut lines = stdout.lines();
    for (number, run) in (first..).zip(&runs) {
        for (place, played) in run.iter().enumerate() {
            let expected = answer_of(played);
            let line = lines.next().and_then(Result::ok).unwrap_or_default();
            if line != expected {
                return Err(difference(number, &run[..=place], &expected, &line));
            }
            tally.add(played);
        }
        tally.runs += 1;
    }
    if lines.next().is_some() {
        return Err("the program answered more than was asked".to_string());
    }
    let written = writer.join().expect("the writing does not panic");
    let status = child.wait().map_err(|e| e.to_string())?;
    written.map_err(|e| e.to_string())?;
    if !status.success() {
        return Err(format!("the program ended with {status}"));
    }
    Ok(())
}

/// What differs, with the last calls of the run.
fn difference(number: u64, run: &[Played], expected: &str, line: &str) -> String {
    let last = &run[run.len().saturating_sub(20)..];
    let calls: String = last.iter().map(|played| format!("  {}", text_of(&played.line))).collect();
    format!("run {number}, call {}: the program answers '{line}', expected is '{expected}'; the last calls:\n{calls}", run.len())
}

fn text_of(line: &Line) -> String {
    let mut text = String::new();
    let mut put = |letter: char, numbers: &[u32]| {
        text.push(letter);
        numbers.iter().for_each(|number| write!(text, " {number}").expect("a string takes text"));
        text.push('\n');
    };
    match *line {
        Line::Quote { venue, side, price, shares } => put('q', &[venue, side, price, shares]),
        Line::Clear { venue, side } => put('c', &[venue, side]),
        Line::Halted(halted) => put('h', &[halted.into()]),
        Line::New { special } => put('n', &[special.into()]),
        Line::Begin { time, order, facts } => {
            let first = facts.first_quote.map_or("-".to_string(), |time| time.to_string());
            return format!(
                "b {time} {} {} {} {} {} {} {first} {} {}\n",
                order.number,
                order.side,
                order.class,
                order.price,
                order.shares,
                u32::from(facts.short_sale),
                u32::from(facts.routing),
                facts.acceptance
            );
        }
        Line::Enter(order) => put('e', &[order.number, order.side, order.class, order.price, order.shares]),
        Line::Cancel(number) => put('x', &[number]),
        Line::Close { time, last_sale } => put('l', &[time, last_sale]),
        Line::Report { ticket, filled } => put('r', &[ticket, filled]),
        Line::Match(time) => put('m', &[time]),
        Line::Finish(time) => put('f', &[time]),
        Line::Abort(time) => put('a', &[time]),
        Line::Outstanding => put('o', &[]),
    }
    text
}

fn answer_of(played: &Played) -> String {
    let digest = played.digest;
    match played.answer {
        Ok(Answer::Done) => format!("ok {digest:016x}"),
        Ok(Answer::Number(number)) => format!("ok {number} {digest:016x}"),
        Ok(Answer::Closed { cause, price, count, tickets }) => {
            format!("ok {cause} {price} {count} {tickets} {digest:016x}")
        }
        Err(refusal) => format!("no {refusal} {digest:016x}"),
    }
}
