use crate::account::{Account, Spot};
use crate::args::{node_number, Asked, FindArguments};
use crate::keys::Keys;
use crate::list::{node_facts, node_head, node_row, Table};
use crate::names::escaped;
use crate::outcome::{Failure, Outcome};
use crate::output::{complain, Output};
use crate::source::Source;
use crate::words::counted;
use indicatif::HumanCount;
use rekwonuda::{Lookup, Node, NodeId, Refusal};
use serde_json::{json, Value};
use std::collections::HashMap;
use std::io::{self, BufRead};

/// So many answers are held at once.
const MOST_HELD: usize = 1 << 16;

/// As much is shown of a word that is no number.
const MOST_SHOWN: usize = 40;

/// Looks up nodes by their numbers, and says of each what came out.
pub fn find(
    source: &Source,
    arguments: &FindArguments,
    out: &mut Output<'_>,
) -> Result<Outcome, Failure> {
    let nodes = match arguments.nodes.as_slice() {
        [Asked::Standard] => numbers(io::stdin().lock())?,
        nodes => nodes.iter().copied().filter_map(given).collect(),
    };
    out.begin_list("nodes")?;
    let mut table = Table::new(format!("{}  {:>5}", node_head(), "pages"));
    let mut tally = Tally::new(source);
    for piece in nodes.chunks(MOST_HELD) {
        for (node, answer) in piece.iter().zip(source.image().find_nodes(piece)) {
            let (facts, row) = tally.note(NodeId(*node as u32), answer);
            out.entry(&facts)?;
            table.row(&row, out)?;
        }
    }
    table.end(out)?;
    tally.tell(out)
}

fn given(asked: Asked) -> Option<u64> {
    match asked {
        Asked::Node(node) => Some(node.into()),
        Asked::Standard => None,
    }
}

/// The numbers on standard input, which stand in lines with blanks between.
fn numbers(input: impl BufRead) -> Result<Vec<u64>, Failure> {
    let mut numbers = Vec::new();
    for (line, at) in input.split(b'\n').zip(1_u64..) {
        let line =
            line.map_err(|error| Failure::Error(format!("cannot read standard input: {error}")))?;
        for word in String::from_utf8_lossy(&line).split_whitespace() {
            let number = node_number(word).map_err(|why| {
                let shown: String = word.chars().take(MOST_SHOWN).collect();
                let shown = escaped(&shown);
                Failure::Error(format!("standard input, line {at}: '{shown}': {why}"))
            })?;
            numbers.push(number.into());
        }
    }
    Ok(numbers)
}

/// How many nodes came out in each way, and what was refused.
struct Tally<'a> {
    source: &'a Source,
    keys: Keys<'a>,
    found: u64,
    absent: u64,
    refused: u64,
    /// Each refusal once, in the order in which they were met.
    accounts: Vec<Account>,
    /// Where among them a refusal stands.
    known: HashMap<Refusal, usize>,
}

impl<'a> Tally<'a> {
    fn new(source: &'a Source) -> Tally<'a> {
        Tally {
            source,
            keys: Keys::new(source),
            found: 0,
            absent: 0,
            refused: 0,
            accounts: Vec::new(),
            known: HashMap::new(),
        }
    }

    /// Counts an answer, and puts it into both forms.
    fn note(&mut self, id: NodeId, answer: Result<Lookup<Node>, Refusal>) -> (Value, String) {
        match answer {
            Ok(Lookup {
                entry: Some(node),
                pages,
            }) => {
                self.found += 1;
                (
                    found_facts(&node, pages),
                    format!("{}  {pages:>5}", node_row(&node)),
                )
            }
            Ok(Lookup { entry: None, pages }) => {
                self.absent += 1;
                let read = counted(pages, "page");
                (
                    json!({"node": id.0, "outcome": "absent", "pages": pages}),
                    format!("{id:>10}  absent; {read} read"),
                )
            }
            Err(refusal) => {
                self.refused += 1;
                let line = self.account(refusal).line();
                (
                    refused_facts(id, &refusal),
                    format!("{id:>10}  refused; {line}"),
                )
            }
        }
    }

    fn account(&mut self, refusal: Refusal) -> &Account {
        let next = self.accounts.len();
        let at = *self.known.entry(refusal).or_insert(next);
        if at == next {
            let account = Account::new(self.source, refusal, &Spot::NodeTree, &mut self.keys);
            self.accounts.push(account);
        }
        &self.accounts[at]
    }

    /// Says what was refused, and how many nodes came out in which way.
    fn tell(self, out: &mut Output<'_>) -> Result<Outcome, Failure> {
        out.fact("found", self.found)?;
        out.fact("absent", self.absent)?;
        out.fact("refused", self.refused)?;
        out.refused(&self.accounts)?;
        let outcome = self.outcome();
        if outcome != Outcome::Done && !out.is_json() {
            complain(&self.text());
        }
        Ok(outcome)
    }

    /// Where the header is not covered no node is looked up at all, and every number is refused so.
    fn outcome(&self) -> Outcome {
        let refused = self.accounts.iter().map(|account| account.outcome);
        let absent = (self.absent > 0).then_some(Outcome::Incomplete);
        refused.chain(absent).max().unwrap_or(Outcome::Done)
    }

    fn text(&self) -> String {
        let nodes = counted(self.found + self.absent + self.refused, "node");
        format!(
            "{nodes}: {} found, {} absent, {} refused",
            HumanCount(self.found),
            HumanCount(self.absent),
            HumanCount(self.refused)
        )
    }
}

fn found_facts(node: &Node, pages: u64) -> Value {
    let mut facts = json!({"node": node.id.0, "outcome": "found", "pages": pages});
    if let Value::Object(listed) = node_facts(node) {
        for (name, value) in listed {
            facts[name] = value;
        }
    }
    facts
}

fn refused_facts(id: NodeId, refusal: &Refusal) -> Value {
    json!({
        "node": id.0,
        "outcome": "refused",
        "number": refusal.number(),
        "place": refusal.place.to_string(),
        "more": refusal.more.to_string(),
    })
}

#[cfg(test)]
mod tests {
    use super::*;

    fn read(text: &[u8]) -> Result<Vec<u64>, String> {
        numbers(text).map_err(|failure| match failure {
            Failure::Error(message) => message,
            _ => String::new(),
        })
    }

    #[test]
    fn numbers_stand_in_lines_with_blanks_between() {
        assert_eq!(read(b""), Ok(vec![]));
        assert_eq!(read(b"\n \r\n"), Ok(vec![]));
        assert_eq!(read(b"290"), Ok(vec![290]));
        let several = b"0x122 7\t7\r\n\n  0XFFFFFFFF  \n1";
        assert_eq!(read(several), Ok(vec![290, 7, 7, 0xFFFF_FFFF, 1]));
    }

    #[test]
    fn a_word_that_is_no_number_is_shown_with_its_line() {
        let told = |word: &str| {
            let why = "a node number is decimal or 0x with hexadecimal, under 2^32";
            Err(format!("standard input, line 2: '{word}': {why}"))
        };
        assert_eq!(read(b"1\n2 x 3\n"), told("x"));
        assert_eq!(read(b"1\n-1"), told("-1"));
        assert_eq!(read(b"1\n-"), told("-"));
        assert_eq!(read(b"1\n4294967296"), told("4294967296"));
        assert_eq!(read(b"1\n\x1b[31m\xFF"), told("\\u{1b}[31m\u{FFFD}"));
        assert_eq!(
            read(&[b"1\n", &[b'9'; 99][..]].concat()),
            told(&"9".repeat(40))
        );
    }
}
