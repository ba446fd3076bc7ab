use crate::args::MapArguments;
use crate::check::{silently, Way};
use crate::names;
use crate::outcome::{Failure, Outcome};
use crate::output::Output;
use crate::picture::Picture;
use crate::raster::Raster;
use crate::report::Report;
use crate::source::{shown_name, Source};
use crate::stretches::{Survey, Tally};
use crate::words::{counted, edition_name};
use crate::write::Goal;
use serde_json::Value;
use std::path::Path;

/// Draws what lies where in a file, and marks the refusal that a check ends with.
pub fn map(
    source: &Source,
    arguments: &MapArguments,
    out: &mut Output<'_>,
) -> Result<Outcome, Failure> {
    let goal = Goal::of(&arguments.output, source)?;
    let report = silently(source, Way::through(source, false, out))?;
    let survey = Survey::of(source);
    tell(source, &survey, out)?;
    match goal {
        Goal::File(target) => target.put(&draw(source, &survey, &report), out)?,
        _ if out.is_json() => {}
        Goal::Screen => preview(&survey, out)?,
        Goal::Standard => out.bytes(&draw(source, &survey, &report))?,
    }
    if report.decisive.is_some() {
        out.refused(report.decisive.as_slice())?;
    }
    Ok(report.outcome)
}

/// The same for JSON.
fn tell(source: &Source, survey: &Survey, out: &mut Output<'_>) -> Result<(), Failure> {
    out.fact("size", source.size.map(|size| size.to_string()))?;
    if let Ok(header) = source.image().header() {
        out.fact("edition", header.edition.bits())?;
    }
    out.begin_list("stretches")?;
    for stretch in survey.stretches() {
        out.entry(&stretch.facts())?;
    }
    out.end_list()?;
    let kinds: Vec<Value> = survey.tallies().iter().map(Tally::facts).collect();
    out.fact("kinds", kinds)
}

fn draw(source: &Source, survey: &Survey, report: &Report) -> Vec<u8> {
    let size = source.size.unwrap_or(0);
    let picture = Picture {
        name: file_name(&source.path),
        facts: facts(source, report.outcome),
        refusal: report.decisive.as_ref(),
        size,
        raster: Raster::new(size, survey.stretches()),
        tallies: survey.tallies(),
    };
    picture.draw().into_bytes()
}

/// The last part of the name of a file.
fn file_name(path: &Path) -> String {
    match path.file_name() {
        Some(name) if !names::is_standard(path) => names::shown(Path::new(name)),
        _ => shown_name(path),
    }
}

/// "49,152 bytes, 64-bit (Unicode), accepted".
fn facts(source: &Source, outcome: Outcome) -> String {
    let size = source.size.map(|size| counted(size, "byte"));
    let mut facts = vec![size.unwrap_or_else(|| "size unknown".to_string())];
    let header = source.image().header().ok();
    facts.extend(header.map(|header| edition_name(header.edition)));
    facts.push(outcome.word().to_string());
    facts.join(", ")
}

/// What a terminal gets in place of the picture.
fn preview(survey: &Survey, out: &mut Output<'_>) -> Result<(), Failure> {
    for tally in survey.tallies() {
        out.row(format!("{:<12} {}", tally.kind.name(), tally.text()))?;
    }
    out.line("-o OUT writes the picture to a file")
}
