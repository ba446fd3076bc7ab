//! The command line of Rekwonuda. The library decides; this says it.
#![forbid(unsafe_code)]

mod account;
mod advice;
mod args;
mod check;
mod code_pages;
mod completions;
mod contexts;
mod ending;
mod find;
mod folder;
mod folders;
mod grid;
mod info;
mod keys;
mod list;
mod listing;
mod many;
mod map;
mod names;
mod node;
mod outcome;
mod output;
mod picture;
mod place;
mod progress;
mod props;
mod raster;
mod report;
mod search;
mod source;
mod stretches;
mod svg;
mod table;
mod tags;
mod tree;
mod troubles;
mod users;
mod values;
mod walk;
mod words;
mod write;

use args::{Arguments, Command, Task};
use check::Way;
use clap::Parser;
use outcome::{Failure, Outcome};
use output::{complain_plainly, Form, Output};
use source::{cannot_read, Source};
use std::env;
use std::path::Path;
use std::process::ExitCode;

fn main() -> ExitCode {
    let outcome = match Arguments::try_parse().and_then(Arguments::agree) {
        Ok(arguments) => match &arguments.task {
            Task::OfFile(command) => answer(command, arguments.json),
            Task::Completions(completions) => completions::write(completions.shell),
        },
        Err(error) if error.use_stderr() => misused(&error),
        Err(help) => helped(&help),
    };
    ExitCode::from(outcome.status())
}

fn answer(command: &Command, json: bool) -> Outcome {
    let form = if json { Form::Json } else { Form::Text };
    let path = match command {
        Command::Check(check) if many::is_many(check) => return many::check_many(check, form),
        Command::Check(check) => &check.paths[0],
        Command::Info(file) | Command::Nodes(file) | Command::Blocks(file) => &file.file,
        Command::Find(find) => &find.file,
        Command::Node(node) => &node.file,
        Command::Props(props) => &props.file,
        Command::Table(table) => &table.file,
        Command::Folders(folders) => &folders.file,
        Command::Map(map) => &map.file,
    };
    let begun = Output::standard(form, Some(command.name())).and_then(|mut out| {
        out.name("file", path)?;
        Ok(out)
    });
    match begun {
        Ok(out) => answer_from(path, command, out),
        Err(_) => Outcome::Error,
    }
}

fn answer_from(path: &Path, command: &Command, mut out: Output<'_>) -> Outcome {
    let source = match Source::read(path) {
        Ok(source) => source,
        Err(error) => return out.finish(None, Err(cannot_read(path, error))),
    };
    let result = run(command, &source, &mut out);
    out.finish(Some(&source), result)
}

fn run(command: &Command, source: &Source, out: &mut Output<'_>) -> Result<Outcome, Failure> {
    match command {
        Command::Check(arguments) => {
            let way = Way::through(source, arguments.all, out);
            check::check(source, way, out).map(|report| report.outcome)
        }
        Command::Info(_) => info::info(source, out),
        Command::Nodes(_) => list::nodes(source, out),
        Command::Blocks(_) => list::blocks(source, out),
        Command::Find(arguments) => find::find(source, arguments, out),
        Command::Node(arguments) => node::node(source, arguments, out),
        Command::Props(arguments) => props::props(source, arguments, out),
        Command::Table(arguments) => table::table(source, arguments, out),
        Command::Folders(arguments) => folders::folders(source, arguments, out),
        Command::Map(arguments) => map::map(source, arguments, out),
    }
}

/// Help, or the version, was asked for.
fn helped(help: &clap::Error) -> Outcome {
    match help.print() {
        Ok(()) => Outcome::Done,
        Err(_) => Outcome::Error,
    }
}

/// The arguments are wrong. Whether JSON was asked for has to be seen from them as they stand.
fn misused(error: &clap::Error) -> Outcome {
    let message = names::escaped(&error.to_string());
    let mut before = env::args_os().skip(1).take_while(|word| word != "--");
    if !before.any(|word| word == "--json") {
        complain_plainly(&message);
        return Outcome::Error;
    }
    let message = message.trim_end().to_string();
    match Output::standard(Form::Json, None) {
        Ok(out) => out.finish(None, Err(Failure::Error(message))),
        Err(_) => Outcome::Error,
    }
}
