use crate::advice::{advice, meaning, outcome};
use crate::keys::{self, Keys};
use crate::outcome::Outcome;
use crate::place::lies_there;
use crate::source::Source;
use crate::users::Users;
use crate::words::{capital, indented};
use rekwonuda::{Block, Node, Refusal, WrongKey};
use serde_json::{json, Value};

/// The part of the file that a call was about. What is wrong with the header is told by its place, from
/// whichever call it comes.
#[derive(Clone, Debug)]
pub enum Spot {
    Header,
    NodeTree,
    BlockTree,
    Block(Block, Users),
    Data(Node),
    /// A heap in the data of a node, with the length of that data.
    Heap(Node, usize),
    /// Such a heap that is a table.
    Table(Node, usize),
}

/// A refusal in words: what is wrong, where, and what to do next.
#[derive(Clone, Debug)]
pub struct Account {
    pub outcome: Outcome,
    refusal: Refusal,
    meaning: &'static str,
    lies_there: String,
    advice: &'static str,
    /// The key, the blocks and the nodes that it is about, for JSON.
    about: Vec<(&'static str, Value)>,
}

impl Account {
    pub fn new(source: &Source, refusal: Refusal, spot: &Spot, keys: &mut Keys<'_>) -> Account {
        let wrong_key = keys.find(&refusal, spot);
        Account {
            outcome: outcome(source, &refusal, spot),
            refusal,
            meaning: meaning(source, &refusal),
            lies_there: lies_there(source, &refusal, spot, wrong_key.as_ref()),
            advice: advice(source, &refusal, spot),
            about: about(&refusal, spot, wrong_key.as_ref()),
        }
    }

    pub fn text(&self) -> String {
        let meaning = format!("{} (refusal {})", self.meaning, self.refusal.number());
        let what = match self.outcome {
            Outcome::NotCovered => "What is not covered",
            _ => "What is wrong",
        };
        let parts = [
            (what, meaning.as_str()),
            ("Where", &self.lies_there),
            ("What to do", self.advice),
        ];
        parts
            .iter()
            .map(|(name, words)| format!("{name}:\n{}\n", indented(&capital(words))))
            .collect()
    }

    /// What is wrong and where, in one line.
    pub fn line(&self) -> String {
        let number = self.refusal.number();
        let meaning = capital(self.meaning);
        format!("{}. {meaning} (refusal {number})", self.lies_there)
    }

    /// The number of the refusal.
    pub fn number(&self) -> u64 {
        self.refusal.number()
    }

    /// The offset that the refusal names, if it names one.
    pub fn offset(&self) -> Option<u64> {
        self.refusal.offset()
    }

    /// What to do, as the last part of a list of several.
    pub fn advice(&self) -> String {
        format!("What to do:\n{}\n", indented(self.advice))
    }

    pub fn facts(&self) -> Value {
        let mut facts = json!({
            "number": self.refusal.number(),
            "place": self.refusal.place.to_string(),
            "more": self.refusal.more.to_string(),
            "outcome": self.outcome.word(),
            "meaning": self.meaning,
            "where": self.lies_there,
            "advice": self.advice,
        });
        for (name, value) in &self.about {
            facts[*name] = value.clone();
        }
        facts
    }
}

fn about(
    refusal: &Refusal,
    spot: &Spot,
    wrong_key: Option<&WrongKey>,
) -> Vec<(&'static str, Value)> {
    let mut about = keys::facts(refusal, wrong_key);
    match spot {
        Spot::Header | Spot::NodeTree | Spot::BlockTree => {}
        Spot::Block(block, users) => about.extend([
            ("block", block.id.0.to_string().into()),
            (
                "nodes",
                json!(users.first.iter().map(|node| node.0).collect::<Vec<_>>()),
            ),
            ("node_count", users.count.into()),
        ]),
        Spot::Data(node) | Spot::Heap(node, _) | Spot::Table(node, _) => {
            about.push(("node", node.id.0.into()));
        }
    }
    about
}
