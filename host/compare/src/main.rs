//! A longer comparison: `compare --calls 20000000 --seed 7`.

use clap::Parser;
use compare::run::Run;
use std::process::ExitCode;
use std::time::Instant;

/// Puts the same calls to the proved library and to the model, and counts what they answer.
#[derive(Parser)]
struct Arguments {
    /// How many calls are made, at least
    #[arg(long, default_value_t = 1_000_000)]
    calls: u64,
    /// What images and numbers are drawn from
    #[arg(long, default_value_t = 1)]
    seed: u64,
}

fn main() -> ExitCode {
    let Arguments { calls, seed } = Arguments::parse();
    let start = Instant::now();
    let mut run = Run::new(seed);
    let mut next = 1_000_000;
    run.make(calls, |made| {
        if made >= next {
            eprintln!("{made} calls, {:.0} s", start.elapsed().as_secs_f64());
            next += 1_000_000;
        }
    });
    println!("{}", run.tally);
    println!("{} calls also with bit 0 the other way", run.either_way);
    println!("{} lists also node by node", run.one_by_one);
    println!("{} rows also cell by cell", run.cell_by_cell);
    println!(
        "{} calls also with other bytes behind the end",
        run.other_behind
    );
    let disagreements = run.disagreements.len();
    let seconds = start.elapsed().as_secs_f64();
    println!(
        "seed {seed}: {} calls in {seconds:.1} s, {disagreements} disagreements",
        run.calls
    );
    ExitCode::from(u8::from(disagreements > 0))
}
