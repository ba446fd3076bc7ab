use crate::account::Spot;
use crate::ending::Ending;
use crate::outcome::{At, Failure, Outcome};
use crate::output::Output;
use crate::progress;
use crate::source::{shown_name, Source};
use crate::tree::{Met, Tree};
use crate::words::{counted, edition_name, place};
use rekwonuda::{PageReference, Refusal};
use serde_json::{json, Value};

/// Says what the file is, as far as its header and its lists tell.
pub fn info(source: &Source, out: &mut Output<'_>) -> Result<Outcome, Failure> {
    let size = source.size.map(|size| counted(size, "byte"));
    out.fact("size", source.size.map(|size| size.to_string()))?;
    out.row(format!("file         {}", shown_name(&source.path)))?;
    out.row(format!(
        "size         {}",
        size.as_deref().unwrap_or("unknown")
    ))?;
    let header = source.image().header().at(Spot::Header)?;
    let ending = Ending::of(source).at(Spot::Header)?;
    let method = header.method.to_string();
    out.fact("edition", header.edition.bits())?;
    out.fact("end", ending.end.to_string())?;
    out.fact("hanging", ending.hanging())?;
    out.fact("method", method.as_str())?;
    out.fact("node_root", reference(&header.nodes))?;
    out.fact("block_root", reference(&header.blocks))?;
    out.row(format!("edition      {}", edition_name(header.edition)))?;
    out.row(format!("end          {}", ending.text()))?;
    out.row(format!("method       {method}"))?;
    out.row(format!("node tree    {}", root(&header.nodes)))?;
    out.row(format!("block tree   {}", root(&header.blocks)))?;
    counts(source, out)?;
    Ok(Outcome::Done)
}

fn counts(source: &Source, out: &mut Output<'_>) -> Result<(), Failure> {
    for tree in [Tree::Nodes, Tree::Blocks] {
        let noun = tree.noun();
        let (entries, level) = count(source, tree).at(tree.spot())?;
        out.fact(&format!("{noun}s"), entries)?;
        out.fact(&format!("{noun}_level"), level)?;
        let entries = counted(entries, noun);
        out.row(format!(
            "{:<12} {entries}, level {level}",
            format!("{noun}s")
        ))?;
    }
    Ok(())
}

fn count(source: &Source, tree: Tree) -> Result<(u64, u64), Refusal> {
    let shown = progress::is_worthwhile(source.size);
    let bar = progress::spinner(shown, format!("listing {}s", tree.noun()));
    let mut met = Met::default();
    for number in bar.wrap_iter(tree.numbers(source)) {
        met.add(number?);
    }
    Ok((met.entries, tree.level(source, &met)?))
}

fn root(page: &PageReference) -> String {
    format!("root page {:#x} at {}", page.number, place(page.offset))
}

fn reference(page: &PageReference) -> Value {
    json!({"number": page.number.to_string(), "offset": page.offset.to_string()})
}
