//! Counts of what the calls answered.

use crate::ask::{Answers, Ask, Call, Lent};
use crate::keys::KeyFault;
use crate::lists::Met;
use crate::{checksums, editions, end, tables};
use model::edition::Edition;
use model::page::Tree;
use model::Refusal;
use std::collections::BTreeMap;
use std::fmt;

/// The refusals that any call can give.
pub fn refusals() -> impl Iterator<Item = u64> {
    (1..=21).chain([23])
}

#[derive(Default, Clone)]
pub struct Counts {
    pub answered: u64,
    pub absent: u64,
    pub refused: BTreeMap<u64, u64>,
}

#[derive(Default, Clone)]
pub struct Tally {
    pub calls: BTreeMap<Call, Counts>,
    pub keys: BTreeMap<KeyFault, u64>,
    /// What a place says counts once a place, all else once a call.
    pub lists: BTreeMap<Met, u64>,
    pub checksums: BTreeMap<checksums::Met, u64>,
    /// What a place says counts once a place, all else once a call.
    pub ends: BTreeMap<(Call, Edition, end::Met), u64>,
    /// What a place says counts once a place, all else once a call.
    pub editions: BTreeMap<(Call, editions::Met), u64>,
    /// What a place says counts once a place, all else once a call.
    pub tables: BTreeMap<tables::Met, u64>,
}

impl Tally {
    /// Adds the answers to a call on those bytes.
    pub fn add(&mut self, call: Call, answers: &Answers, bytes: &[u8]) {
        self.add_keys(answers, bytes);
        let counts = self.calls.entry(call).or_default();
        match *answers.model {
            [refusal, _, _, ..] if refusal > 0 => *counts.refused.entry(refusal).or_default() += 1,
            [_, _, _, 0, ..] if call.may_be_absent() => counts.absent += 1,
            _ => counts.answered += 1,
        }
    }

    /// Adds what the answer to a list of that length says, and the area that it was answered in.
    pub fn add_list(&mut self, length: usize, answers: &Answers, area: &[u64]) {
        for met in Met::in_call(length, &answers.model, area) {
            *self.lists.entry(met).or_default() += 1;
        }
    }

    /// Adds what the answer to a call on an image says of the end of the file, and the area that a list
    /// was answered in.
    pub fn add_end(&mut self, ask: &Ask, lent: Lent, answers: &Answers, area: &[u64]) {
        let edition = Edition::of(lent.bytes);
        for met in end::Met::in_call(ask, lent, &answers.model, area) {
            *self.ends.entry((ask.call, edition, met)).or_default() += 1;
        }
    }

    /// Adds what the answer to a call on an image says of its edition, and the area that a list was
    /// answered in.
    pub fn add_edition(&mut self, ask: &Ask, lent: Lent, answers: &Answers, area: &[u64]) {
        for met in editions::Met::in_call(ask, lent, &answers.model, area) {
            *self.editions.entry((ask.call, met)).or_default() += 1;
        }
    }

    /// Adds what the answer to a call on a heap says of its length.
    pub fn add_heap(&mut self, call: Call, block: &[u8], answers: &Answers) {
        if let Some(met) = editions::Met::in_heap(block, &answers.model) {
            *self.editions.entry((call, met)).or_default() += 1;
        }
    }

    /// Adds of which bytes a checksum was taken.
    pub fn add_checksum(&mut self, bytes: &[u8]) {
        for met in checksums::Met::in_call(bytes) {
            *self.checksums.entry(met).or_default() += 1;
        }
    }

    /// Adds what the answer to a call on a table says, and the area that a row was answered in.
    pub fn add_table(&mut self, ask: &Ask, lent: Lent, answers: &Answers, area: &[u64]) {
        for met in tables::Met::in_call(ask, lent, &answers.model, area) {
            *self.tables.entry(met).or_default() += 1;
        }
    }

    fn add_keys(&mut self, answers: &Answers, bytes: &[u8]) {
        let &[number @ (11 | 21), place, more, ..] = &answers.model[..] else {
            return;
        };
        let refusal = Refusal {
            number,
            place,
            more,
        };
        let fault = KeyFault::of(bytes, refusal).expect("a page that is refused so");
        *self.keys.entry(fault).or_default() += 1;
    }

    pub fn refusals(&self, number: u64) -> u64 {
        self.calls
            .values()
            .filter_map(|counts| counts.refused.get(&number))
            .sum()
    }

    /// The refusals that the C face allows a call and that never came.
    pub fn not_reached(&self) -> Vec<(Call, u64)> {
        let missing = |(call, counts): (&Call, &Counts)| {
            let never = |number: &u64| !counts.refused.contains_key(number);
            let numbers: Vec<_> = call.refusals().into_iter().filter(never).collect();
            numbers
                .into_iter()
                .map(move |number| (*call, number))
                .collect::<Vec<_>>()
        };
        self.calls.iter().flat_map(missing).collect()
    }

    /// The faults of keys that can occur and never came.
    pub fn keys_not_reached(&self) -> Vec<KeyFault> {
        let never = |fault: &KeyFault| !self.keys.contains_key(fault);
        KeyFault::all_that_can_occur().filter(never).collect()
    }

    /// What lists of nodes have to meet and never met.
    pub fn lists_not_reached(&self) -> Vec<Met> {
        let never = |met: &Met| !self.lists.contains_key(met);
        Met::all().filter(never).collect()
    }

    /// What checksums have to be taken of and never were.
    pub fn checksums_not_reached(&self) -> Vec<checksums::Met> {
        let never = |met: &checksums::Met| !self.checksums.contains_key(met);
        checksums::Met::all().filter(never).collect()
    }

    /// What calls on images have to meet of the end of the file and never met.
    pub fn ends_not_reached(&self) -> Vec<(Call, Edition, end::Met)> {
        let never = |met: &(Call, Edition, end::Met)| !self.ends.contains_key(met);
        end::Met::all().filter(never).collect()
    }

    /// What calls on images and heaps have to meet of the editions and never met.
    pub fn editions_not_reached(&self) -> Vec<(Call, editions::Met)> {
        let never = |met: &(Call, editions::Met)| !self.editions.contains_key(met);
        editions::Met::all().filter(never).collect()
    }

    /// What calls on tables have to meet and never met.
    pub fn tables_not_reached(&self) -> Vec<tables::Met> {
        let never = |met: &tables::Met| !self.tables.contains_key(met);
        tables::Met::all().filter(never).collect()
    }
}

impl fmt::Display for Tally {
    fn fmt(&self, f: &mut fmt::Formatter) -> fmt::Result {
        writeln!(
            f,
            "{:<13} {:>9} {:>9} {:>9}  refusals",
            "call", "answered", "absent", "refused"
        )?;
        for (call, counts) in &self.calls {
            let refused: u64 = counts.refused.values().sum();
            let name = format!("{call:?}");
            write!(
                f,
                "{name:<13} {:>9} {:>9} {refused:>9} ",
                counts.answered, counts.absent
            )?;
            for (number, count) in &counts.refused {
                write!(f, " {number}:{count}")?;
            }
            writeln!(f)?;
        }
        writeln!(f, "\nrefusal     calls")?;
        for number in refusals() {
            writeln!(f, "{number:>7} {:>9}", self.refusals(number))?;
        }
        self.write_keys(f)?;
        write_counts(f, ("lists of nodes", "times"), &self.lists)?;
        write_counts(f, ("checksums", "calls"), &self.checksums)?;
        self.write_ends(f)?;
        self.write_editions(f)?;
        write_counts(f, ("tables", "times"), &self.tables)
    }
}

impl Tally {
    fn write_keys(&self, f: &mut fmt::Formatter) -> fmt::Result {
        writeln!(f, "\n{:<48} {:>8}", "keys at fault", "calls")?;
        for (fault, count) in &self.keys {
            let tree = match fault.tree {
                Tree::Nodes => "node",
                Tree::Blocks => "block",
            };
            let role = format!("{:?}", fault.role).to_lowercase();
            let page = format!("{} bits, {tree} tree, {role}", fault.edition.bits());
            let fault = fault.to_string();
            writeln!(f, "{page:<26} {fault:<21} {count:>8}")?;
        }
        Ok(())
    }

    fn write_ends(&self, f: &mut fmt::Formatter) -> fmt::Result {
        writeln!(f, "\n{:<48} {:>8}", "the end of the file", "times")?;
        for ((call, edition, met), count) in &self.ends {
            let name = format!("{call:?}");
            let met = format!("{} bits, {met}", edition.bits());
            writeln!(f, "{name:<13} {met:<34} {count:>8}")?;
        }
        Ok(())
    }

    fn write_editions(&self, f: &mut fmt::Formatter) -> fmt::Result {
        writeln!(f, "\n{:<39} {:>8}", "the editions", "times")?;
        for ((call, met), count) in &self.editions {
            let name = format!("{call:?}");
            let met = met.to_string();
            writeln!(f, "{name:<13} {met:<25} {count:>8}")?;
        }
        Ok(())
    }
}

/// How often each of some things was met, a line for each.
fn write_counts<M: fmt::Display>(
    f: &mut fmt::Formatter,
    (what, of): (&str, &str),
    counts: &BTreeMap<M, u64>,
) -> fmt::Result {
    writeln!(f, "\n{what:<39} {of:>8}")?;
    for (met, count) in counts {
        let met = met.to_string();
        writeln!(f, "{met:<39} {count:>8}")?;
    }
    Ok(())
}
