use crate::args::Arguments;
use crate::outcome::Outcome;
use clap::CommandFactory;
use clap_complete::{generate, Shell};
use std::io::{self, Write};

/// Writes the script that completes the command line in that shell to standard output.
pub fn write(shell: Shell) -> Outcome {
    let mut script = Vec::new();
    generate(shell, &mut Arguments::command(), "rekwonuda", &mut script);
    match io::stdout().write_all(&script) {
        Ok(()) => Outcome::Done,
        Err(_) => Outcome::Error,
    }
}
