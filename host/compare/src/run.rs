//! The seeded loop.

use crate::ask::{
    alike_cell_by_cell, alike_either_way, alike_on_another, alike_one_by_one, ask, Answers, Ask,
    Call, Lent,
};
use crate::buffers::{Buffers, GUARD};
use crate::end::other_behind;
use crate::question::{question, Question};
use crate::subject::{images_for_long_lists, subjects, widest_image, Subject};
use crate::tally::Tally;
use model::edition::Edition;
use model::random::Random;
use std::fmt::Write;
use std::path::PathBuf;

/// A call that the two answered differently, or that wrote where it may not.
#[derive(Clone)]
pub struct Disagreement {
    pub report: String,
}

pub struct Run {
    pub seed: u64,
    pub calls: u64,
    /// Of these, those that were put to the proved library with bit 0 the other way too.
    pub either_way: u64,
    /// Of these, the lists whose nodes were put to the proved library one by one too.
    pub one_by_one: u64,
    /// Of these, the rows whose cells were put to the proved library one by one too.
    pub cell_by_cell: u64,
    /// Of these, those that were put to the proved library with other bytes behind the end too.
    pub other_behind: u64,
    pub tally: Tally,
    pub disagreements: Vec<Disagreement>,
    buffers: Buffers,
}

/// After so many disagreements a run ends.
const MOST_DISAGREEMENTS: usize = 10;

/// Fewer bytes than this stand ahead of what is lent, so that it begins at any alignment.
const MOST_AHEAD: usize = 16;

/// So many numbers of a list are shown with a disagreement.
const MOST_SHOWN: usize = 40;

impl Run {
    pub fn new(seed: u64) -> Self {
        Self {
            seed,
            calls: 0,
            either_way: 0,
            one_by_one: 0,
            cell_by_cell: 0,
            other_behind: 0,
            tally: Tally::default(),
            disagreements: Vec::new(),
            buffers: Buffers::default(),
        }
    }

    /// Makes at least so many calls, and hears of the number made now and then.
    pub fn make(&mut self, calls: u64, mut progress: impl FnMut(u64)) {
        let mut seeds = Random::new(self.seed);
        for at in 0..6 {
            let edition = Edition::BOTH[at as usize % 2];
            self.ask_all(self.seed, &widest_image(edition, at / 2));
        }
        for (at, subject) in (0..).zip(&images_for_long_lists(self.seed)) {
            self.ask_all(self.seed.wrapping_add(at), subject);
        }
        while self.calls < calls && self.disagreements.len() < MOST_DISAGREEMENTS {
            let seed = seeds.number();
            for subject in subjects(seed) {
                self.ask_all(seed, &subject);
            }
            progress(self.calls);
        }
    }

    fn ask_all(&mut self, seed: u64, subject: &Subject) {
        let mut random = Random::new(seed ^ subject.bytes.len() as u64);
        let ahead = random.below(MOST_AHEAD);
        let bytes = behind(ahead, &subject.bytes);
        for _ in 0..subject.asks {
            let question = question(subject, &mut random);
            let nodes = question.nodes.clone();
            let rows_ahead = random.below(MOST_AHEAD);
            let rows = behind(rows_ahead, &question.rows);
            let own = Lent {
                bytes: &subject.bytes,
                nodes: &question.nodes,
                rows: &question.rows,
            };
            let lent = Lent {
                bytes: &bytes[ahead..],
                nodes: &nodes,
                rows: &rows[rows_ahead..],
            };
            let answers = ask(&question.ask, lent, own, &mut self.buffers);
            self.calls += 1;
            let fault = fault(&answers, self.buffers.same(), lent == own)
                .or_else(|| self.fault_beside(&question.ask, lent, &answers, &mut random))
                .or_else(|| self.fault_behind(&question.ask, lent, &mut random));
            if let Some(fault) = fault {
                self.report(seed, subject, &question, &answers, fault);
                return;
            }
            self.add(&question.ask, lent, &answers);
        }
    }

    /// Counts an answer that both gave: another may say what no page can lead to.
    fn add(&mut self, question: &Ask, lent: Lent, answers: &Answers) {
        self.tally.add(question.call, answers, lent.bytes);
        if question.call == Call::FindNodes {
            let area = self.buffers.area();
            self.tally.add_list(lent.nodes.len(), answers, area);
        }
        if question.call.reads_image() {
            let area = self.buffers.area();
            self.tally.add_end(question, lent, answers, area);
            self.tally.add_edition(question, lent, answers, area);
        }
        if question.call.reads_heap() {
            self.tally.add_heap(question.call, lent.bytes, answers);
        }
        if question.call.reads_table() {
            let area = self.buffers.area();
            self.tally.add_table(question, lent, answers, area);
        }
        if question.call == Call::Checksum {
            self.tally.add_checksum(question.part.of(lent.bytes));
        }
    }

    /// Now and then the call is held to another of the proved library.
    fn fault_beside(
        &mut self,
        question: &Ask,
        lent: Lent,
        answers: &Answers,
        random: &mut Random,
    ) -> Option<&'static str> {
        if question.call.seeks_block() && random.below(5) < 2 {
            self.either_way += 1;
            let alike = alike_either_way(question, lent.bytes, &mut self.buffers);
            return (!alike).then_some("bit 0 makes a difference");
        }
        let answered = answers.proved[0] == 0;
        if question.call == Call::FindNodes && answered && random.one_in(3) {
            self.one_by_one += 1;
            let alike = alike_one_by_one(lent, &mut self.buffers);
            return (!alike).then_some("a place is not what the lookup answers");
        }
        if question.call == Call::ReadRow && answers.proved[3] == 1 && random.one_in(2) {
            self.cell_by_cell += 1;
            let alike = alike_cell_by_cell(question, lent, &mut self.buffers);
            return (!alike).then_some("a place is not what the cell alone answers");
        }
        None
    }

    /// Now and then what hangs on behind the end is cut off or changed, or something is hung on.
    fn fault_behind(
        &mut self,
        question: &Ask,
        lent: Lent,
        random: &mut Random,
    ) -> Option<&'static str> {
        if !question.call.reads_image() || !random.one_in(3) {
            return None;
        }
        let other = other_behind(lent.bytes, random)?;
        self.other_behind += 1;
        let alike = alike_on_another(question, lent, &other, &mut self.buffers);
        (!alike).then_some("what hangs on behind the end makes a difference")
    }

    fn report(
        &mut self,
        seed: u64,
        subject: &Subject,
        question: &Question,
        answers: &Answers,
        fault: &str,
    ) {
        let Question { ask, nodes, rows } = question;
        let at = self.disagreements.len();
        let mut report = format!("{fault}: seed {seed:#x}, {}, {ask:x?}\n", subject.name);
        if ask.call == Call::FindNodes {
            report += &list_in_words(nodes);
        }
        if let Some((at, proved, model)) = self.buffers.first_other_word() {
            report += &format!("  word {at}, the area's first being {GUARD}: ");
            report += &format!("proved {proved:x}, model {model:x}\n");
        }
        let _ = writeln!(
            report,
            "  proved {:x?}\n  model  {:x?}",
            answers.proved, answers.model
        );
        let name = format!("disagreement-{}-{at}", self.seed);
        report += &written(&format!("{name}.img"), &subject.bytes);
        if ask.call.reads_table() {
            report += &written(&format!("{name}.rows"), rows);
        }
        eprint!("{report}");
        self.disagreements.push(Disagreement { report });
    }
}

fn list_in_words(nodes: &[u64]) -> String {
    let some = &nodes[..nodes.len().min(MOST_SHOWN)];
    format!("  list of {}: {some:x?}\n", nodes.len())
}

/// Writes the bytes to a file of that name, and says where it is.
fn written(name: &str, bytes: &[u8]) -> String {
    let folder = PathBuf::from(env!("CARGO_MANIFEST_DIR")).join("../../target/compare");
    let path = folder.join(name);
    match std::fs::create_dir_all(&folder).and_then(|()| std::fs::write(&path, bytes)) {
        Ok(()) => format!("  bytes in {}\n", path.display()),
        Err(error) => format!("  bytes not written: {error}\n"),
    }
}

/// A copy of the bytes, behind so many others.
fn behind(ahead: usize, bytes: &[u8]) -> Vec<u8> {
    let mut all = vec![0; ahead];
    all.extend_from_slice(bytes);
    all
}

fn fault(answers: &Answers, same_buffers: bool, unchanged: bool) -> Option<&'static str> {
    if answers.proved != answers.model {
        Some("answers differ")
    } else if !same_buffers {
        Some("buffers differ")
    } else if !unchanged {
        Some("what was lent has changed")
    } else {
        None
    }
}
