//! Times every call in the proved library and in the model, in alternation, and prints a table; behind it
//! a second one, of calls for a list beside as many single calls of the proved library, a third, of the
//! checksum beside plain Rust with the same eight tables, which is the model's, and with one table, and a
//! fourth, of calls for a row beside a call of the proved library for each of its cells.
//!
//! `ratios [WORD]` takes only the calls whose name has that word in it. The ratio is taken in each
//! round, right after one another, so that a busy machine slows both; its median is printed, and
//! between which ratios the middle half of the rounds lay. All tables are of the same rounds.
//!
//! `ratios --former [WORD]` times the proved library beside a former one instead, whose archive the
//! environment variable `REKWONUDA_FORMER_ARCHIVE` named when this was built. What is sought there is small,
//! so that rounds are shorter than the turns in which a machine shares its processors, and more of them.
//! Where the code of a call comes to lie in the program moves the time of short calls by more than that;
//! `objcopy --set-section-alignment '.text.*=64'` on copies of both archives takes this out.

use bench::{cases, former_cases, Case, Timed};
use std::env;
use std::hint::black_box;
use std::time::{Duration, Instant};

/// How many rounds each call has, and how long its turn in a round is at least.
#[derive(Clone, Copy)]
struct Pace {
    rounds: usize,
    turn: Duration,
}

const USUAL: Pace = Pace {
    rounds: 61,
    turn: Duration::from_millis(5),
};

const SHORT: Pace = Pace {
    rounds: 601,
    turn: Duration::from_micros(500),
};

fn main() {
    let mut words = env::args().skip(1).peekable();
    let former = words.next_if(|word| word == "--former").is_some();
    let word = words.next().unwrap_or_default();
    if former {
        print_all(former_cases(), &word, ("now", "before"), SHORT);
    } else {
        print_all(cases(), &word, ("proved", "model"), USUAL).print();
    }
}

/// Prints the table of both sides, and answers the rows of those behind it.
fn print_all(cases: Vec<Case>, word: &str, (left, right): (&str, &str), pace: Pace) -> Further {
    let mut further = Further::default();
    print_head(left, &[right]);
    for mut case in cases {
        if case.call.contains(word) {
            let times = measure(&mut case, pace);
            println!("{}", row(&case, &times.left, &[&times.right]));
            further.add(&case, &times);
        }
    }
    further
}

/// The rows of the tables behind the first.
#[derive(Default)]
struct Further {
    lists: Vec<String>,
    checksums: Vec<String>,
    cells: Vec<String>,
}

impl Further {
    fn add(&mut self, case: &Case, times: &Times) {
        if let Some(singles) = &times.singles {
            let row = row(case, &times.left, &[singles]);
            match case.call {
                "read_row" => self.cells.push(row),
                _ => self.lists.push(row),
            }
        }
        if let Some(one_table) = &times.one_table {
            let others = [&times.right[..], one_table];
            self.checksums.push(row(case, &times.left, &others));
        }
    }

    fn print(&self) {
        let lists = "One call for a list, beside as many single calls:";
        let singles = ("one call", &["single calls"][..]);
        print_table(lists, singles, &self.lists);
        let checksums = "The checksum, beside plain Rust with eight tables and with one:";
        let plain = ("proved", &["plain Rust", "one table"][..]);
        print_table(checksums, plain, &self.checksums);
        let cells = "One call for a row, beside a call for each of its cells:";
        print_table(cells, singles, &self.cells);
    }
}

/// Nothing of a table without rows.
fn print_table(about: &str, (left, others): (&str, &[&str]), rows: &[String]) {
    if !rows.is_empty() {
        println!("\n{about}\n");
        print_head(left, others);
        println!("{}", rows.join("\n"));
    }
}

fn print_head(left: &str, others: &[&str]) {
    let beside = |other| format!(" {other}, ns | ratio | middle half |");
    let columns: String = others.iter().map(beside).collect();
    println!("| call | input | {left}, ns |{columns}");
    println!("|---|---|---:|{}", "---:|---:|---|".repeat(others.len()));
}

/// Beside the left one's time, each other one's time and what the left one's is to it.
fn row(case: &Case, left: &[f64], others: &[&[f64]]) -> String {
    let columns: String = others.iter().map(|right| beside(left, right)).collect();
    let time = sorted(left.iter().copied())[left.len() / 2];
    format!("| `{}` | {} | {time:.0} |{columns}", case.call, case.input)
}

fn beside(left: &[f64], right: &[f64]) -> String {
    let time = sorted(right.iter().copied())[right.len() / 2];
    let ratios = sorted(left.iter().zip(right).map(|(left, right)| left / right));
    format!(
        " {time:.0} | {:.2} | {:.2} to {:.2} |",
        ratios[ratios.len() / 2],
        ratios[ratios.len() / 4],
        ratios[ratios.len() * 3 / 4],
    )
}

/// The time of one call in each round, in nanoseconds.
struct Times {
    left: Vec<f64>,
    right: Vec<f64>,
    singles: Option<Vec<f64>>,
    one_table: Option<Vec<f64>>,
}

fn measure(case: &mut Case, pace: Pace) -> Times {
    let mut calls = vec![&mut case.left, &mut case.right];
    calls.extend(case.singles.as_mut());
    calls.extend(case.one_table.as_mut());
    let mut times = alternate(&mut calls, pace).into_iter();
    Times {
        left: times.next().unwrap_or_default(),
        right: times.next().unwrap_or_default(),
        singles: case.singles.as_ref().and_then(|_| times.next()),
        one_table: case.one_table.as_ref().and_then(|_| times.next()),
    }
}

/// The times of each call. In every round each has its turn.
fn alternate(calls: &mut [&mut Timed], pace: Pace) -> Vec<Vec<f64>> {
    let counts = calls.iter_mut().map(|call| repeats(call, pace.turn));
    let counts: Vec<u32> = counts.collect();
    let mut times = vec![Vec::new(); calls.len()];
    for _ in 0..pace.rounds {
        for ((call, count), times) in calls.iter_mut().zip(&counts).zip(&mut times) {
            times.push(time(call, *count));
        }
    }
    times
}

/// How many calls fill a turn.
fn repeats(call: &mut dyn FnMut() -> u64, turn: Duration) -> u32 {
    let mut count = 1;
    while time(call, count) * f64::from(count) < turn.as_nanos() as f64 {
        count *= 2;
    }
    count
}

fn time(call: &mut dyn FnMut() -> u64, count: u32) -> f64 {
    let start = Instant::now();
    for _ in 0..count {
        black_box(call());
    }
    start.elapsed().as_nanos() as f64 / f64::from(count)
}

fn sorted(numbers: impl Iterator<Item = f64>) -> Vec<f64> {
    let mut numbers: Vec<f64> = numbers.collect();
    numbers.sort_by(f64::total_cmp);
    numbers
}
