//! What comes out of a check, stage by stage, in words and in JSON.

use crate::account::Account;
use crate::check::Way;
use crate::ending::Remark;
use crate::outcome::{Failure, Outcome};
use crate::output::Output;
use crate::words::{counted, indented};
use indicatif::HumanCount;
use rekwonuda::Refusal;
use serde_json::{json, Map, Value};

pub const STAGES: [&str; 5] = ["header", "node tree", "block tree", "blocks", "node data"];

/// What no stage looks at.
pub const NOT_LOOKED_AT: [&str; 2] = ["subnodes", "heaps"];

const GOES_ON: &str =
    "`check --all` goes on from here and lists every block and node that is refused.\n";

/// What came out of a check.
pub struct Report {
    pub outcome: Outcome,
    stages: Vec<Stage>,
    /// The refusal that decides the outcome.
    pub decisive: Option<Account>,
    remark: Option<Remark>,
}

/// What came out of a stage.
#[derive(Default)]
pub struct Stage {
    pub name: &'static str,
    /// What its refusals come to; none where it is accepted.
    pub outcome: Option<Outcome>,
    /// How many of what it looks at are refused, as a reader is told.
    refused: Option<String>,
    text: String,
    facts: Map<String, Value>,
}

/// How many blocks or nodes were tested, how many of them refused, and how many bytes the others have.
pub struct Tally {
    noun: &'static str,
    tested: u64,
    refused: u64,
    bytes: u64,
}

impl Tally {
    pub fn of(noun: &'static str) -> Tally {
        Tally {
            noun,
            tested: 0,
            refused: 0,
            bytes: 0,
        }
    }

    pub fn note(&mut self, length: Result<usize, Refusal>) -> Result<usize, Refusal> {
        self.tested += 1;
        match length {
            Ok(length) => self.bytes += length as u64,
            Err(_) => self.refused += 1,
        }
        length
    }
}

impl Stage {
    pub fn new(text: String, values: Value) -> Stage {
        Stage {
            text,
            facts: facts(values),
            ..Stage::default()
        }
    }

    /// Of a tree with so many entries, of which so many pages are refused.
    pub fn listing(noun: &str, entries: u64, level: u64, pages: u64) -> Stage {
        let listed = counted(entries, noun);
        let plural = format!("{noun}s");
        if pages == 0 {
            return Stage::new(
                format!("{listed}, level {level}"),
                json!({plural: entries, "refused": 0, "level": level}),
            );
        }
        let refused = counted(pages, "page");
        Stage {
            refused: Some(refused.clone()),
            ..Stage::new(
                format!("{refused} refused, {listed} listed"),
                json!({plural: entries, "refused": pages}),
            )
        }
    }

    /// Of blocks or nodes that were tested. Where the stage broke off, it says nothing of the others.
    pub fn testing(tally: &Tally, broke_off: bool) -> Stage {
        let Tally {
            noun,
            tested,
            refused,
            bytes,
        } = *tally;
        let size = counted(bytes, "byte");
        let mut stage = Stage::new(
            format!("{}, {size}", counted(tested, noun)),
            json!({format!("{noun}s"): tested, "refused": refused, "bytes": bytes}),
        );
        if broke_off {
            stage.text = String::new();
        } else if refused > 0 {
            let of = format!("{} of {}", HumanCount(refused), counted(tested, noun));
            stage.text = format!("{of} refused, {size} accepted");
            stage.refused = Some(of);
        }
        stage
    }

    pub fn count(&self, what: &str) -> Option<u64> {
        self.facts.get(what).and_then(Value::as_u64)
    }

    fn word(&self) -> &'static str {
        match self.outcome {
            None => "accepted",
            Some(Outcome::Damaged) => "refused",
            Some(outcome) => outcome.word(),
        }
    }

    pub fn line(&self) -> String {
        let line = format!("{:<12} {:<11} {}", self.name, self.word(), self.text);
        line.trim_end().to_string()
    }

    /// "blocks refused (1 of 22 blocks)".
    fn verdict(&self) -> String {
        let count = self.refused.as_ref();
        let count = count.map_or(String::new(), |count| format!(" ({count})"));
        format!("{} {}{count}", self.name, self.word())
    }

    fn entry(&self) -> Value {
        let outcome = self.outcome.unwrap_or(Outcome::Accepted);
        let mut entry = json!({"stage": self.name, "outcome": outcome.word()});
        for (name, value) in &self.facts {
            entry[name] = value.clone();
        }
        entry
    }
}

fn facts(values: Value) -> Map<String, Value> {
    match values {
        Value::Object(map) => map,
        _ => Map::new(),
    }
}

impl Report {
    pub fn new(stages: Vec<Stage>, decisive: Option<Account>, remark: Option<Remark>) -> Report {
        let outcome = decisive.as_ref().map(|account| account.outcome);
        Report {
            outcome: outcome.unwrap_or(Outcome::Accepted),
            stages,
            decisive,
            remark,
        }
    }

    /// Ends the report of a file: a remark, the account of a refusal, and what was looked at.
    pub fn tell(&self, way: Way, out: &mut Output<'_>) -> Result<(), Failure> {
        out.end_list()?;
        let stages: Vec<Value> = self.stages.iter().map(Stage::entry).collect();
        out.fact("stages", stages)?;
        let remark = self.remark.as_ref().map(Remark::text);
        out.fact("remarks", remark.iter().cloned().collect::<Vec<_>>())?;
        out.fact("not_looked_at", self.left())?;
        out.row("")?;
        if let Some(remark) = remark {
            out.row(format!("Remark:\n{}\n", indented(&remark)))?;
        }
        match &self.decisive {
            Some(account) if way.all => out.row(account.advice())?,
            Some(account) => out.row(account.text())?,
            None => {}
        }
        let is_header = self.stages.len() == 1;
        if !way.all && !is_header && self.outcome == Outcome::Damaged {
            out.row(GOES_ON)?;
        }
        out.line(self.closing())
    }

    /// What was not looked at.
    fn left(&self) -> Vec<&'static str> {
        let stages = STAGES.iter().skip(self.stages.len());
        stages.copied().chain(NOT_LOOKED_AT).collect()
    }

    /// What is refused, and a remark, in one line; none where all is accepted and nothing remarked.
    pub fn line(&self, way: Way) -> Option<String> {
        let refused = self.refused(way);
        let remark = self.remark.as_ref();
        let remark = remark.map(|remark| format!("remark: {}", remark.line));
        let parts: Vec<String> = refused.into_iter().chain(remark).collect();
        (!parts.is_empty()).then(|| parts.join("; "))
    }

    /// What is refused, in one line; none where all is accepted.
    fn refused(&self, way: Way) -> Option<String> {
        if !way.all {
            return self.decisive.as_ref().map(Account::line);
        }
        let refused = self.stages.iter().filter(|stage| stage.outcome.is_some());
        let verdicts: Vec<String> = refused.map(Stage::verdict).collect();
        (!verdicts.is_empty()).then(|| verdicts.join("; "))
    }

    /// What was looked at with what outcome, and what was not.
    fn closing(&self) -> String {
        let accepted = self.stages.iter().filter(|stage| stage.outcome.is_none());
        let names: Vec<&str> = accepted.map(|stage| stage.name).collect();
        let refused = self.stages.iter().filter(|stage| stage.outcome.is_some());
        let mut parts: Vec<String> = refused.map(Stage::verdict).collect();
        if parts.is_empty() {
            parts.push(names.join(", "));
        } else if !names.is_empty() {
            parts.insert(0, format!("{} accepted", names.join(", ")));
        }
        parts.push(format!("not looked at: {}", self.left().join(", ")));
        format!("{}: {}", self.outcome.word(), parts.join("; "))
    }
}
