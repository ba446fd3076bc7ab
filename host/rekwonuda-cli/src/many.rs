//! A check of many files, some of them at once.

use crate::args::CheckArguments;
use crate::check::{check, silently, Way};
use crate::names::is_standard;
use crate::outcome::{Failure, Outcome};
use crate::output::{Form, Output};
use crate::progress;
use crate::report::NOT_LOOKED_AT;
use crate::search::{search, Found};
use crate::source::{cannot_read, shown_name, Source};
use crate::words::counted;
use indicatif::{HumanCount, ProgressBar};
use rayon::iter::{ParallelBridge, ParallelIterator};
use rayon::ThreadPoolBuilder;
use serde_json::json;
use std::io::{self, Write};
use std::path::Path;
use std::sync::{Mutex, PoisonError};
use std::thread::available_parallelism;

/// The outcomes that are counted, and what a file of each is called; the last is of folders.
const COUNTED: [(Outcome, &str); 5] = [
    (Outcome::Accepted, "accepted"),
    (Outcome::Damaged, "damaged"),
    (Outcome::NotCovered, "not covered"),
    (Outcome::Error, "unreadable"),
    (Outcome::Absent, "absent"),
];

/// Whether the arguments ask for more than the report of one file.
pub fn is_many(arguments: &CheckArguments) -> bool {
    match arguments.paths.as_slice() {
        [path] => path.is_dir() && !is_standard(path),
        _ => true,
    }
}

/// Checks every file, and says how the worst of them ends.
pub fn check_many(arguments: &CheckArguments, form: Form) -> Outcome {
    try_check_many(arguments, form).unwrap_or_else(|failure| {
        let out = Output::standard(form, Some("check"));
        out.map_or(Outcome::Error, |out| out.finish(None, Err(failure)))
    })
}

fn try_check_many(arguments: &CheckArguments, form: Form) -> Result<Outcome, Failure> {
    let standard = arguments.paths.iter().filter(|path| is_standard(path));
    if standard.count() > 1 {
        let message = "standard input can be read once, and is named more often";
        return Err(Failure::Error(message.to_string()));
    }
    let found = search(&arguments.paths);
    let jobs = arguments.jobs.or_else(|| available_parallelism().ok());
    let threads = jobs.map_or(1, usize::from).min(found.len());
    let pool = ThreadPoolBuilder::new().num_threads(threads).build();
    let pool = pool.map_err(|error| Failure::Error(format!("cannot start: {error}")))?;
    let way = Way {
        all: arguments.all,
        progress: false,
    };
    let teller = Mutex::new(Teller::new(found.len() as u64));
    let lock = || teller.lock().unwrap_or_else(PoisonError::into_inner);
    pool.install(|| {
        found.into_iter().par_bridge().for_each(|found| {
            if lock().unwritten.is_none() {
                let line = Line::new(&found, way, form);
                lock().tell(&line);
            }
        });
    });
    let teller = teller.into_inner().unwrap_or_else(PoisonError::into_inner);
    teller.end(form)
}

/// The answer for one file.
struct Line {
    outcome: Outcome,
    bytes: Vec<u8>,
}

impl Line {
    fn new(found: &Found, way: Way, form: Form) -> Line {
        let (path, source) = read(found);
        match form {
            Form::Json => Line::json(path, source, way),
            _ => Line::text(path, source, way),
        }
    }

    fn text(path: &Path, source: Result<Source, Unread>, way: Way) -> Line {
        let (outcome, told) = match source {
            Ok(source) => checked(&source, way),
            Err((outcome, why)) => (outcome, Some(why)),
        };
        let told = told.map_or(String::new(), |told| format!(": {told}"));
        let line = format!("{:<12} {}{told}\n", word(outcome), shown_name(path));
        Line {
            outcome,
            bytes: line.into_bytes(),
        }
    }

    fn json(path: &Path, source: Result<Source, Unread>, way: Way) -> Line {
        let mut bytes = Vec::new();
        let answered = Output::new(Form::Json, &mut bytes, Some("check")).and_then(|mut out| {
            out.name("file", path)?;
            Ok(match source {
                Ok(source) => {
                    let report = check(&source, way, &mut out);
                    out.finish(Some(&source), report.map(|report| report.outcome))
                }
                Err((Outcome::Absent, why)) => out.finish(None, Err(Failure::Absent(why))),
                Err((_, why)) => out.finish(None, Err(cannot_read(path, why))),
            })
        });
        let outcome = answered.unwrap_or(Outcome::Error);
        Line { outcome, bytes }
    }
}

/// How a file ends that was not read, and why.
type Unread = (Outcome, String);

fn read(found: &Found) -> (&Path, Result<Source, Unread>) {
    let unreadable = |why: String| (Outcome::Error, why);
    match found {
        Found::File(path) => {
            let source = Source::read(path);
            (path, source.map_err(|error| unreadable(error.to_string())))
        }
        Found::Unreadable(path, why) => (path, Err(unreadable(why.clone()))),
        Found::Empty(path) => {
            let why = "no .pst file in this folder".to_string();
            (path, Err((Outcome::Absent, why)))
        }
    }
}

/// How the check of a file ends, and what is told of it.
fn checked(source: &Source, way: Way) -> (Outcome, Option<String>) {
    match silently(source, way) {
        Ok(report) => (report.outcome, report.line(way)),
        Err(_) => (Outcome::Error, None),
    }
}

/// Says what came out of each file as it ends, and counts.
struct Teller {
    counts: [u64; COUNTED.len()],
    worst: Outcome,
    bar: ProgressBar,
    /// Why standard output can no longer be written.
    unwritten: Option<Failure>,
}

impl Teller {
    fn new(files: u64) -> Teller {
        Teller {
            counts: [0; COUNTED.len()],
            worst: Outcome::Accepted,
            bar: progress::bar(true, files, "checking files"),
            unwritten: None,
        }
    }

    fn tell(&mut self, line: &Line) {
        self.worst = self.worst.max(line.outcome);
        for (count, (outcome, _)) in self.counts.iter_mut().zip(COUNTED) {
            *count += u64::from(outcome == line.outcome);
        }
        let written = self.bar.suspend(|| {
            let mut out = io::stdout().lock();
            out.write_all(&line.bytes)?;
            out.flush()
        });
        self.bar.inc(1);
        if let Err(error) = written {
            self.unwritten = Some(error.into());
        }
    }

    fn end(self, form: Form) -> Result<Outcome, Failure> {
        self.bar.finish_and_clear();
        if let Some(failure) = self.unwritten {
            return Err(failure);
        }
        let [files @ .., absent] = self.counts;
        let total = files.iter().sum();
        let mut out = Output::standard(form, Some("check"))?;
        let mut summary = json!({ "files": total });
        for (count, (_, word)) in self.counts.iter().zip(COUNTED) {
            summary[word.replace(' ', "_")] = (*count).into();
        }
        out.fact("summary", summary)?;
        out.fact("not_looked_at", NOT_LOOKED_AT.to_vec())?;
        let parts = files.iter().zip(COUNTED);
        let parts: Vec<String> = parts
            .map(|(count, (_, word))| format!("{} {word}", HumanCount(*count)))
            .collect();
        let mut line = format!("\n{}: {}", counted(total, "file"), parts.join(", "));
        if absent > 0 {
            line += &format!("; no .pst file in {}", counted(absent, "folder"));
        }
        out.line(format!(
            "{line}; not looked at: {}",
            NOT_LOOKED_AT.join(", ")
        ))?;
        Ok(out.finish(None, Ok(self.worst)))
    }
}

fn word(outcome: Outcome) -> &'static str {
    let counted = COUNTED.iter().find(|(other, _)| *other == outcome);
    counted.map_or(outcome.word(), |(_, word)| word)
}
