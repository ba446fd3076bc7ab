//! What `folders` cannot read, and goes on without.

use crate::account::{Account, Spot};
use crate::contexts::named;
use crate::keys::Keys;
use crate::outcome::{Failure, Outcome};
use crate::output::Output;
use crate::source::Source;
use crate::words::counted;
use indicatif::HumanCount;
use rekwonuda::{NodeId, Refusal};
use serde_json::{json, Value};
use std::collections::HashSet;

/// So many refusals are told in full.
const MOST_HELD: usize = 1_000;

/// A part of the tree that cannot be read.
pub struct Trouble {
    part: &'static str,
    node: NodeId,
    outcome: Outcome,
    pub message: String,
    /// The number of the refusal, where it is one.
    number: Option<u64>,
}

impl Trouble {
    /// Whether it is the folder's name that cannot be read.
    pub fn is_of_name(&self) -> bool {
        self.part == "name"
    }

    pub fn facts(&self) -> Value {
        let mut facts = json!({
            "part": self.part,
            "node": self.node.0,
            "outcome": self.outcome.word(),
            "message": self.message,
        });
        if let Some(number) = self.number {
            facts["number"] = number.into();
        }
        facts
    }
}

/// All of them together.
pub struct Troubles<'a> {
    source: &'a Source,
    keys: Keys<'a>,
    damaged: u64,
    not_covered: u64,
    absent: u64,
    /// Each refusal once of each node, in the order in which they were met.
    accounts: Vec<Account>,
    known: HashSet<(Refusal, Option<NodeId>)>,
}

impl<'a> Troubles<'a> {
    pub fn new(source: &'a Source) -> Troubles<'a> {
        Troubles {
            source,
            keys: Keys::new(source),
            damaged: 0,
            not_covered: 0,
            absent: 0,
            accounts: Vec::new(),
            known: HashSet::new(),
        }
    }

    /// Takes note of a part that cannot be read. What is no matter of the file is handed back.
    pub fn note(
        &mut self,
        part: &'static str,
        node: NodeId,
        failure: Failure,
    ) -> Result<Trouble, Failure> {
        let (outcome, message, number) = match failure {
            Failure::Refused(refusal, spot) => {
                let (outcome, line) = self.account(refusal, &spot);
                (outcome, line, Some(refusal.number()))
            }
            Failure::NotCovered(message) => (Outcome::NotCovered, message, None),
            Failure::Absent(_) => (Outcome::Absent, format!("{} is absent", named(node)), None),
            other => return Err(other),
        };
        match outcome {
            Outcome::NotCovered => self.not_covered += 1,
            Outcome::Absent => self.absent += 1,
            _ => self.damaged += 1,
        }
        Ok(Trouble {
            part,
            node,
            outcome,
            message,
            number,
        })
    }

    fn account(&mut self, refusal: Refusal, spot: &Spot) -> (Outcome, String) {
        let account = Account::new(self.source, refusal, spot, &mut self.keys);
        let told = (account.outcome, account.line());
        let node = match spot {
            Spot::Data(node) | Spot::Heap(node, _) | Spot::Table(node, _) => Some(node.id),
            _ => None,
        };
        if self.accounts.len() < MOST_HELD && self.known.insert((refusal, node)) {
            self.accounts.push(account);
        }
        told
    }

    /// Says what was refused, and what is missing from the tree.
    pub fn tell(self, out: &mut Output<'_>) -> Result<Outcome, Failure> {
        out.refused(&self.accounts)?;
        let counts = [
            (self.damaged, Outcome::Damaged),
            (self.not_covered, Outcome::NotCovered),
            (self.absent, Outcome::Absent),
        ];
        let met: Vec<_> = counts.into_iter().filter(|(count, _)| *count > 0).collect();
        let Some((_, worst)) = met.first() else {
            return Ok(Outcome::Done);
        };
        let words = met
            .iter()
            .map(|(count, outcome)| format!("{} {}", HumanCount(*count), outcome.word()));
        let words: Vec<String> = words.collect();
        let parts = counted(met.iter().map(|(count, _)| count).sum(), "part");
        out.message(&format!(
            "the tree is not whole: {parts} cannot be read ({})",
            words.join(", ")
        ))?;
        Ok(*worst)
    }
}
