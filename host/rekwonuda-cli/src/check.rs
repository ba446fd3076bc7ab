use crate::account::{Account, Spot};
use crate::ending::{Ending, Remark};
use crate::keys::Keys;
use crate::outcome::{Failure, Outcome};
use crate::output::{Form, Output};
use crate::progress;
use crate::report::{Report, Stage, Tally, STAGES};
use crate::source::Source;
use crate::tree::{Met, Tree};
use crate::users::users;
use crate::walk;
use indicatif::ProgressBar;
use rekwonuda::{Block, BlockId, Refusal};
use serde_json::json;
use std::collections::HashMap;
use std::io;

/// So many refused blocks are held at once, until the nodes that use them are found; and of so many
/// data trees it is remembered what a read of them gave.
const MOST_HELD: usize = 1 << 16;

/// How a file is checked.
#[derive(Clone, Copy, Debug)]
pub struct Way {
    /// Whether to go on past the first refusal.
    pub all: bool,
    /// Whether to show how far it has come.
    pub progress: bool,
}

impl Way {
    /// Of one file that a reader waits for.
    pub fn through(source: &Source, all: bool, out: &Output<'_>) -> Way {
        Way {
            all,
            progress: progress::is_worthwhile(source.size) && out.bears_progress(),
        }
    }
}

struct Check<'a, 'b> {
    source: &'a Source,
    keys: Keys<'a>,
    out: &'a mut Output<'b>,
    way: Way,
    /// The name of the present stage.
    stage: &'static str,
    /// What the refusals of the present stage come to.
    worst: Option<Outcome>,
    decisive: Option<Account>,
    remark: Option<Remark>,
    stages: Vec<Stage>,
    bar: ProgressBar,
}

/// Checks a file stage by stage, up to the first refusal or through to the end.
pub fn check(source: &Source, way: Way, out: &mut Output<'_>) -> Result<Report, Failure> {
    out.fact("size", source.size.map(|size| size.to_string()))?;
    out.begin_list("refusals")?;
    let mut check = Check {
        source,
        keys: Keys::new(source),
        out,
        way,
        stage: STAGES[0],
        worst: None,
        decisive: None,
        remark: None,
        stages: Vec::new(),
        bar: ProgressBar::hidden(),
    };
    check.run()?;
    let report = Report::new(check.stages, check.decisive, check.remark);
    report.tell(way, out)?;
    Ok(report)
}

/// The same, and says nothing.
pub fn silently(source: &Source, way: Way) -> Result<Report, Failure> {
    let mut out = Output::new(Form::Silent, io::sink(), None)?;
    check(source, way, &mut out)
}

impl Check<'_, '_> {
    fn run(&mut self) -> Result<(), Failure> {
        for name in STAGES {
            self.worst = None;
            self.stage = name;
            let mut stage = match name {
                "header" => self.header(),
                "node tree" => self.tree(Tree::Nodes),
                "block tree" => self.tree(Tree::Blocks),
                "blocks" => self.blocks(),
                _ => self.node_data(),
            }?;
            self.bar.finish_and_clear();
            stage.name = name;
            stage.outcome = self.worst;
            self.out.line(stage.line())?;
            self.stages.push(stage);
            // Every call tests the header first.
            let goes_on = self.way.all && name != "header";
            if self.worst.is_some() && !goes_on {
                break;
            }
        }
        Ok(())
    }

    /// Notes a refusal, and says whether the stage ends here.
    fn refuse(&mut self, refusal: Refusal, spot: &Spot) -> Result<bool, Failure> {
        let account = Account::new(self.source, refusal, spot, &mut self.keys);
        let mut facts = account.facts();
        facts["stage"] = self.stage.into();
        self.out.entry(&facts)?;
        if self.way.all {
            self.row(&format!("  {}", account.line()))?;
        }
        let outcome = account.outcome;
        self.worst = self.worst.max(Some(outcome));
        if self.decisive.as_ref().map(|other| other.outcome) < Some(outcome) {
            self.decisive = Some(account);
        }
        Ok(self.broke_off())
    }

    /// Writes a line while a bar may be shown.
    fn row(&mut self, text: &str) -> Result<(), Failure> {
        if self.bar.is_hidden() {
            return self.out.row(text);
        }
        self.bar.suspend(|| self.out.line(text))
    }

    fn header(&mut self) -> Result<Stage, Failure> {
        let header = self.source.image().header();
        match header.and_then(|header| Ok((header.method, Ending::of(self.source)?))) {
            Ok((method, ending)) => {
                self.remark = ending.remark();
                Ok(Stage::new(
                    format!("method {method}"),
                    json!({
                        "method": method.to_string(),
                        "end": ending.end.to_string(),
                        "hanging": ending.hanging(),
                    }),
                ))
            }
            Err(refusal) => {
                self.refuse(refusal, &Spot::Header)?;
                Ok(Stage::default())
            }
        }
    }

    /// Checks a tree, and counts its entries and the pages that are refused.
    fn tree(&mut self, tree: Tree) -> Result<Stage, Failure> {
        let (mut met, mut pages) = (Met::default(), 0);
        let checked = tree.check(self.source);
        if let Err(refusal) = checked {
            pages += 1;
            if self.refuse(refusal, &tree.spot())? {
                return Ok(Stage::default());
            }
        }
        self.bar = progress::spinner(self.way.progress, format!("listing {}s", tree.noun()));
        for number in self.bar.clone().wrap_iter(tree.numbers(self.source)) {
            match number {
                Ok(number) => met.add(number),
                Err(refusal) if checked == Err(refusal) => {}
                Err(refusal) => {
                    pages += 1;
                    self.refuse(refusal, &tree.spot())?;
                }
            }
        }
        let level = tree.level(self.source, &met).unwrap_or(0);
        Ok(Stage::listing(tree.noun(), met.entries, level, pages))
    }

    fn blocks(&mut self) -> Result<Stage, Failure> {
        let image = self.source.image();
        let mut tally = Tally::of("block");
        let mut held = Vec::new();
        self.bar = progress::bar(self.way.progress, self.count("blocks"), "testing blocks");
        for block in self
            .bar
            .clone()
            .wrap_iter(walk::blocks(self.source).flatten())
        {
            if let Err(refusal) = tally.note(image.test_block(block.id)) {
                held.push((block, refusal));
                if !self.way.all || held.len() == MOST_HELD {
                    self.refuse_blocks(&mut held)?;
                }
                if self.broke_off() {
                    break;
                }
            }
        }
        self.refuse_blocks(&mut held)?;
        Ok(Stage::testing(&tally, self.broke_off()))
    }

    /// Notes refused blocks along with the nodes that use them.
    fn refuse_blocks(&mut self, held: &mut Vec<(Block, Refusal)>) -> Result<(), Failure> {
        if held.is_empty() {
            return Ok(());
        }
        let numbers: Vec<BlockId> = held.iter().map(|(block, _)| block.id).collect();
        let users = users(self.source, &numbers);
        for ((block, refusal), users) in held.drain(..).zip(users) {
            self.refuse(refusal, &Spot::Block(block, users))?;
        }
        Ok(())
    }

    /// Reads the data of every node through, without a buffer. Nodes that name one data tree share one
    /// read of it, so that a small file with many such nodes does not take for ever.
    fn node_data(&mut self) -> Result<Stage, Failure> {
        let image = self.source.image();
        let mut tally = Tally::of("node");
        let mut known = HashMap::new();
        self.bar = progress::bar(self.way.progress, self.count("nodes"), "reading nodes");
        for node in self
            .bar
            .clone()
            .wrap_iter(walk::nodes(self.source).flatten())
        {
            let tested = match known.get(&node.data.map(BlockId::key)) {
                Some(tested) => *tested,
                None => image.test_node(node.id).map(Option::unwrap_or_default),
            };
            if node.has_data_tree() && known.len() < MOST_HELD {
                known.insert(node.data.map(BlockId::key), tested);
            }
            if let Err(refusal) = tally.note(tested) {
                if self.refuse(refusal, &Spot::Data(node))? {
                    break;
                }
            }
        }
        Ok(Stage::testing(&tally, self.broke_off()))
    }

    /// What an earlier stage counted.
    fn count(&self, what: &str) -> u64 {
        let mut counts = self.stages.iter().filter_map(|stage| stage.count(what));
        counts.next().unwrap_or(0)
    }

    /// Whether the stage ended with its first refusal.
    fn broke_off(&self) -> bool {
        !self.way.all && self.worst == Some(Outcome::Damaged)
    }
}
