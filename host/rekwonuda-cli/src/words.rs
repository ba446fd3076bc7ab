//! Numbers, texts and the names of types, as a reader wants to see them.

use console::measure_text_width;
use indicatif::HumanCount;
use rekwonuda::{Edition, NodeId};

/// The widest that running text gets; a narrower terminal is kept to.
const WIDEST: usize = 80;

/// An offset in both notations.
pub fn place(offset: u64) -> String {
    format!("{offset:#x} ({})", HumanCount(offset))
}

/// "1 node", "2 nodes", "2 stretches".
pub fn counted(number: u64, noun: &str) -> String {
    let plural = match number {
        1 => "",
        _ if noun.ends_with("ch") => "es",
        _ => "s",
    };
    format!("{} {noun}{plural}", HumanCount(number))
}

pub fn hex(bytes: &[u8]) -> String {
    bytes.iter().map(|byte| format!("{byte:02x}")).collect()
}

/// The bytes as two hexadecimal digits each, with blanks between.
pub fn spaced_hex(bytes: &[u8]) -> String {
    let words: Vec<String> = bytes.iter().map(|byte| format!("{byte:02x}")).collect();
    words.join(" ")
}

/// A paragraph, each of its lines indented.
pub fn indented(text: &str) -> String {
    let options = textwrap::Options::new(textwrap::termwidth().min(WIDEST))
        .initial_indent("    ")
        .subsequent_indent("    ");
    textwrap::fill(text, options)
}

pub fn capital(text: &str) -> String {
    let mut characters = text.chars();
    match characters.next() {
        Some(first) => first.to_uppercase().chain(characters).collect(),
        None => String::new(),
    }
}

/// Text that takes at most so many columns of a screen: what is longer is cut, with an ellipsis behind.
pub fn cut(text: &str, widest: usize) -> String {
    if measure_text_width(text) <= widest {
        return text.to_string();
    }
    let (mut start, mut width) = (String::new(), 0);
    for character in text.chars() {
        width += measure_text_width(character.encode_utf8(&mut [0; 4]));
        if width >= widest {
            break;
        }
        start.push(character);
    }
    start + "\u{2026}"
}

/// An edition by both of its names.
pub fn edition_name(edition: Edition) -> String {
    let name = match edition {
        Edition::Bits32 => "ANSI",
        Edition::Bits64 => "Unicode",
    };
    format!("{edition} ({name})")
}

/// The type of a node by the low five bits of its number.
pub fn node_type(node: NodeId) -> &'static str {
    match node.0 & 0x1F {
        0x00 => "heap",
        0x01 => internal_node(node),
        0x02 => "folder",
        0x03 => "search folder",
        0x04 => "message",
        0x05 => "attachment",
        0x06 => "search update queue",
        0x07 => "search criteria",
        0x08 => "associated message",
        0x0A => "contents table index",
        0x0B => "receive folder table",
        0x0C => "outgoing queue table",
        0x0D => "hierarchy table",
        0x0E => "contents table",
        0x0F => "associated contents table",
        0x10 => "search contents table",
        0x11 => "attachment table",
        0x12 => "recipient table",
        0x13 => "search table index",
        0x1F => "local data",
        _ => "unknown",
    }
}

fn internal_node(node: NodeId) -> &'static str {
    match node.0 {
        0x21 => "message store",
        0x61 => "map of property names",
        0xA1 => "folder template",
        0xC1 => "search folder template",
        0x1E1 => "search management queue",
        0x201 => "search activity list",
        0x261 => "search domain",
        0x281 => "search gatherer queue",
        0x2A1 => "search gatherer descriptor",
        0x321 => "search gatherer folder queue",
        _ => "internal",
    }
}

/// The type of a property by its code.
pub fn property_type(code: u16) -> String {
    let many = code & 0x1000 != 0;
    match base_type(code & !0x1000) {
        Some(name) if many => format!("several of: {name}"),
        Some(name) => name.to_string(),
        None => "unknown".to_string(),
    }
}

fn base_type(code: u16) -> Option<&'static str> {
    Some(match code {
        0x0001 => "null",
        0x0002 => "16-bit number",
        0x0003 => "32-bit number",
        0x0004 => "32-bit float",
        0x0005 => "64-bit float",
        0x0006 => "currency",
        0x0007 => "floating time",
        0x000A => "error code",
        0x000B => "boolean",
        0x000D => "object",
        0x0014 => "64-bit number",
        0x001E => "8-bit text",
        0x001F => "text",
        0x0040 => "time",
        0x0048 => "GUID",
        0x00FB => "server id",
        0x00FD => "restriction",
        0x00FE => "rule action",
        0x0102 => "bytes",
        _ => return None,
    })
}

#[cfg(test)]
mod tests {
    use super::*;

    #[test]
    fn numbers_are_grouped_by_three() {
        assert_eq!(place(27_136), "0x6a00 (27,136)");
        assert_eq!(counted(1, "byte"), "1 byte");
        assert_eq!(counted(1_073_741_824, "byte"), "1,073,741,824 bytes");
    }

    #[test]
    fn long_text_is_cut_to_its_width() {
        assert_eq!(cut("abcd", 4), "abcd");
        assert_eq!(cut("abcde", 4), "abc\u{2026}");
        assert_eq!(
            cut("\u{4F60}\u{4F60}\u{4F60}", 6),
            "\u{4F60}\u{4F60}\u{4F60}"
        );
        assert_eq!(
            cut("\u{4F60}\u{4F60}\u{4F60}", 5),
            "\u{4F60}\u{4F60}\u{2026}"
        );
        assert_eq!(cut("\u{4F60}\u{4F60}\u{4F60}", 4), "\u{4F60}\u{2026}");
        assert_eq!(cut("", 0), "");
    }

    #[test]
    fn types_have_names() {
        assert_eq!(node_type(NodeId(0x21)), "message store");
        assert_eq!(node_type(NodeId(0x122)), "folder");
        assert_eq!(node_type(NodeId(0x0020_0024)), "message");
        assert_eq!(node_type(NodeId(0x09)), "unknown");
        assert_eq!(property_type(0x1F), "text");
        assert_eq!(property_type(0x101F), "several of: text");
        assert_eq!(property_type(0x7777), "unknown");
    }
}
