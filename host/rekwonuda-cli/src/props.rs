use crate::args::PropsArguments;
use crate::code_pages::{self, CodePage};
use crate::contexts::Context;
use crate::list::Table;
use crate::outcome::{At, Failure, Outcome};
use crate::output::Output;
use crate::source::Source;
use crate::values::{escaped, text_of, utf_16, BOOLEAN, TEXT, TEXT_8};
use crate::words::{counted, hex, property_type};
use rekwonuda::{Heap, Property, Refusal, Value};
use serde_json::json;

const PREVIEW: usize = 32;

/// Lists the properties of a node, by a lookup of every id that there can be.
pub fn props(
    source: &Source,
    arguments: &PropsArguments,
    out: &mut Output<'_>,
) -> Result<Outcome, Failure> {
    out.fact("node", arguments.node)?;
    let page = arguments.text.code_page;
    let (node, data) = Context::Properties.read(source, arguments.node)?;
    let heap = Heap::new(&data);
    let spot = || Context::Properties.spot(node, &data);
    heap.test().at(spot())?;
    code_pages::tell(page, out)?;
    out.begin_list("properties")?;
    let mut table = Table::new(format!("{:<7} {:<22} value", "id", "type"));
    let mut has_unknown = false;
    for found in heap.properties() {
        let found = found.at(spot())?;
        let (facts, text) = property(heap, &found, page).at(spot())?;
        has_unknown |= is_unknown(heap, &found, page);
        out.entry(&facts)?;
        let kind = property_type(found.type_code);
        table.row(&format!("{:#06x}  {kind:<22} {text}", found.id), out)?;
    }
    let outcome = table.end(out)?;
    if has_unknown {
        code_pages::note_unknown(source, out);
    }
    Ok(outcome)
}

/// A property for both kinds of answer.
fn property(
    heap: Heap<'_>,
    found: &Property,
    page: Option<CodePage>,
) -> Result<(serde_json::Value, String), Refusal> {
    let mut facts = json!({
        "id": found.id,
        "type": found.type_code,
        "type_name": property_type(found.type_code),
    });
    let text = value(heap, found, page, &mut facts)?;
    Ok((facts, text))
}

fn value(
    heap: Heap<'_>,
    found: &Property,
    page: Option<CodePage>,
    facts: &mut serde_json::Value,
) -> Result<String, Refusal> {
    Ok(match found.value {
        Value::Number(number) => {
            facts["number"] = number.into();
            shown_number(found.type_code, number)
        }
        Value::Empty => {
            facts["empty"] = true.into();
            "empty".to_string()
        }
        Value::Subnode(number) => {
            facts["subnode"] = number.0.into();
            format!("in subnode {number}")
        }
        Value::Item(number) => {
            let bytes = heap.item(number)?;
            facts["item"] = number.0.into();
            facts["bytes"] = hex(bytes).into();
            if let Some(text) = text_of(found.type_code, bytes, page) {
                facts["text"] = text.plain.into();
            }
            shown_bytes(found.type_code, bytes, page)
        }
    })
}

/// Whether it is not known what some bytes of its text stand for.
fn is_unknown(heap: Heap<'_>, found: &Property, page: Option<CodePage>) -> bool {
    let Value::Item(item) = found.value else {
        return false;
    };
    let bytes = heap.item(item).unwrap_or_default();
    let text = text_of(found.type_code, bytes, page);
    text.is_some_and(|text| text.unknown.is_some())
}

fn shown_number(type_code: u16, number: u32) -> String {
    match (type_code, number) {
        (BOOLEAN, 0) => "false".to_string(),
        (BOOLEAN, 1) => "true".to_string(),
        _ => format!("{number} ({number:#x})"),
    }
}

fn shown_bytes(type_code: u16, bytes: &[u8], page: Option<CodePage>) -> String {
    let length = counted(bytes.len() as u64, "byte");
    let (start, is_cut) = match type_code {
        _ if bytes.is_empty() => return length,
        TEXT => {
            let text = utf_16(bytes);
            let start: String = text.chars().take(PREVIEW * 2).collect();
            (format!("{start:?}"), start.len() < text.len())
        }
        TEXT_8 => {
            let start = &bytes[..bytes.len().min(PREVIEW * 2)];
            let text = escaped(start, page);
            (format!("\"{text}\""), start.len() < bytes.len())
        }
        _ => {
            let start = &bytes[..bytes.len().min(PREVIEW)];
            (hex(start), start.len() < bytes.len())
        }
    };
    let rest = if is_cut { " ..." } else { "" };
    format!("{length}: {start}{rest}")
}

#[cfg(test)]
mod tests {
    use super::*;

    #[test]
    fn long_values_are_cut() {
        let shown = |type_code, bytes: &[u8]| shown_bytes(type_code, bytes, None);
        assert_eq!(shown(TEXT, &[]), "0 bytes");
        assert_eq!(shown(0x102, &[1, 2]), "2 bytes: 0102");
        assert!(shown(0x102, &[0; 33]).ends_with(" ..."));
        assert!(shown(TEXT, &[b'a', 0].repeat(65)).ends_with("a\" ..."));
        assert!(shown(TEXT_8, &[b'a'; 65]).ends_with("a\" ..."));
        assert_eq!(shown(TEXT_8, b"caf\xE9"), "4 bytes: \"caf\\xe9\"");
    }
}
