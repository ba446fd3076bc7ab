//! Names of files as they are shown. A name may hold any bytes but 0.

use crate::words::hex;
use serde_json::Value;
use std::os::unix::ffi::OsStrExt;
use std::path::Path;

/// The name that stands for standard input, or standard output.
pub const STANDARD: &str = "-";

pub fn is_standard(path: &Path) -> bool {
    path.as_os_str() == STANDARD
}

/// The name for a terminal: what would steer it is escaped, and so is what is no UTF-8.
pub fn shown(path: &Path) -> String {
    let mut text = String::new();
    for part in path.as_os_str().as_bytes().utf8_chunks() {
        for character in part.valid().chars() {
            push(&mut text, character);
        }
        for byte in part.invalid() {
            text += &format!("\\x{byte:02x}");
        }
    }
    text
}

/// Text of a file on one line, for a terminal: what would steer it is escaped.
pub fn on_one_line(text: &str) -> String {
    let mut plain = String::new();
    for character in text.chars() {
        push(&mut plain, character);
    }
    plain
}

/// Text of several lines that may quote a name.
pub fn escaped(text: &str) -> String {
    let mut plain = String::new();
    for character in text.chars() {
        match character {
            '\n' => plain.push(character),
            _ => push(&mut plain, character),
        }
    }
    plain
}

fn push(text: &mut String, character: char) {
    if steers(character) {
        text.extend(character.escape_default());
    } else {
        text.push(character);
    }
}

/// Whether a character moves the cursor, changes the direction of the text, or is the sign that
/// marks an escaped one.
pub fn steers(character: char) -> bool {
    character.is_control()
        || matches!(character, '\\' | '\u{061C}' | '\u{200E}' | '\u{200F}')
        || matches!(character, '\u{2028}'..='\u{202E}' | '\u{2066}'..='\u{2069}')
}

/// The name as fields of JSON: as text, and where that loses something its bytes too, as
/// hexadecimal digits under the key with `_hex` behind it.
pub fn fields(key: &str, path: &Path) -> Vec<(String, Value)> {
    let bytes = path.as_os_str().as_bytes();
    let mut fields = vec![(key.to_string(), path.to_string_lossy().into())];
    if path.to_str().is_none() {
        fields.push((format!("{key}_hex"), hex(bytes).into()));
    }
    fields
}

#[cfg(test)]
mod tests {
    use super::*;
    use std::ffi::OsStr;

    fn named(bytes: &[u8]) -> &Path {
        Path::new(OsStr::from_bytes(bytes))
    }

    #[test]
    fn what_would_steer_a_terminal_is_escaped() {
        let plain = "O'Brien \u{e9}\u{301}.pst";
        assert_eq!(shown(Path::new(plain)), plain);
        assert_eq!(shown(named(b"a\x1b[31m\n\\b")), "a\\u{1b}[31m\\n\\\\b");
        assert_eq!(shown(Path::new("a\u{202E}tsp.b")), "a\\u{202e}tsp.b");
        assert_eq!(shown(named(b"a\xFFb\xC3")), "a\\xffb\\xc3");
        assert_eq!(
            on_one_line("a\n\u{9B}31m\\\u{e9}"),
            "a\\n\\u{9b}31m\\\\\u{e9}"
        );
        assert_eq!(escaped("a\n\x1b"), "a\n\\u{1b}");
    }

    #[test]
    fn a_name_that_is_no_text_can_be_recovered() {
        assert_eq!(fields("file", named(b"a")), [("file".into(), "a".into())]);
        let odd = fields("file", named(b"a\xFF"));
        assert_eq!(odd[0], ("file".into(), "a\u{FFFD}".into()));
        assert_eq!(odd[1], ("file_hex".into(), "61ff".into()));
    }
}
