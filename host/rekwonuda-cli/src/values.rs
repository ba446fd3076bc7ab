//! Values by their types, as a reader wants to see them.

use crate::code_pages::{character, CodePage};
use crate::names::{on_one_line, steers};
use crate::words::hex;

pub const TEXT: u16 = 0x1F;
pub const TEXT_8: u16 = 0x1E;
pub const BOOLEAN: u16 = 0x0B;
pub const TIME: u16 = 0x40;
const FLOAT: u16 = 0x04;
const FLOAT_64: u16 = 0x05;

/// Times are counted in steps of 100 nanoseconds from the first moment of 1601.
const STEPS: u64 = 10_000_000;
const DAY: u64 = 24 * 60 * 60;
const FIRST_YEAR: u64 = 1601;

/// A text out of a file.
#[derive(Clone, Debug, Default, PartialEq, Eq)]
pub struct Text {
    /// U+FFFD stands for what is no character, and for what is not known to be one.
    pub plain: String,
    /// On one line: what would steer a terminal is escaped, and so is what is not known.
    pub shown: String,
    /// All bytes, where there is one of which it is not known what it stands for.
    pub unknown: Option<Vec<u8>>,
}

/// The text of a value of one of the two text types. What 8-bit text stands for is not stated beside it;
/// without a code page only its ASCII part is certain.
pub fn text_of(type_code: u16, bytes: &[u8], page: Option<CodePage>) -> Option<Text> {
    match type_code {
        TEXT => {
            let plain = utf_16(bytes);
            Some(Text {
                shown: on_one_line(&plain),
                plain,
                unknown: None,
            })
        }
        TEXT_8 => {
            let known = |byte: &u8| character(*byte, page);
            let plain = bytes.iter().map(|byte| known(byte).unwrap_or('\u{FFFD}'));
            let is_unknown = bytes.iter().any(|byte| known(byte).is_none());
            Some(Text {
                plain: plain.collect(),
                shown: escaped(bytes, page),
                unknown: is_unknown.then(|| bytes.to_vec()),
            })
        }
        _ => None,
    }
}

/// Text of 16-bit units.
pub fn utf_16(bytes: &[u8]) -> String {
    let units = bytes.chunks(2).map(|pair| match pair {
        [low, high] => u16::from_le_bytes([*low, *high]),
        _ => 0xFFFD,
    });
    let read = char::decode_utf16(units);
    read.map(|unit| unit.unwrap_or(char::REPLACEMENT_CHARACTER))
        .collect()
}

/// Eight-bit text from which each byte can be had again: what is no printable character, or not known to
/// be one, is escaped.
pub fn escaped(bytes: &[u8], page: Option<CodePage>) -> String {
    let mut text = String::new();
    for byte in bytes {
        match character(*byte, page) {
            Some('\\') => text += "\\\\",
            Some(character) if !steers(character) => text.push(character),
            _ => text += &format!("\\x{}", hex(&[*byte])),
        }
    }
    text
}

/// A number of some type.
pub fn number(type_code: u16, number: u64) -> String {
    match (type_code, number) {
        (BOOLEAN, 0) => "no".to_string(),
        (BOOLEAN, 1) => "yes".to_string(),
        (TIME, _) => time(number),
        (FLOAT, _) => f32::from_bits(number as u32).to_string(),
        (FLOAT_64, _) => f64::from_bits(number).to_string(),
        _ => number.to_string(),
    }
}

/// A time as ISO 8601 writes it, in UTC; what is under a second only where there is some.
pub fn time(steps: u64) -> String {
    let (seconds, rest) = (steps / STEPS, steps % STEPS);
    let (year, month, day) = date(seconds / DAY);
    // Four digits are for the years up to 9999; a sign marks more.
    let sign = if year > 9999 { "+" } else { "" };
    let (hour, minute, second) = (seconds / 3600 % 24, seconds / 60 % 60, seconds % 60);
    let fraction = match rest {
        0 => String::new(),
        _ => format!(".{rest:07}"),
    };
    format!("{sign}{year:04}-{month:02}-{day:02}T{hour:02}:{minute:02}:{second:02}{fraction}Z")
}

/// A time without what is under a second.
pub fn to_the_second(steps: u64) -> u64 {
    steps - steps % STEPS
}

/// The year, month and day that so many days after the first of 1601 is. The calendar repeats after
/// 400 years, and 1601 begins such a round: three centuries of 36,524 days and one of a day more, each
/// of fours of years of 1,461 days, each of three years of 365 days and one of a day more.
fn date(days: u64) -> (u64, u64, u64) {
    let (rounds, rest) = (days / 146_097, days % 146_097);
    let centuries = (rest / 36_524).min(3);
    let rest = rest - 36_524 * centuries;
    let (fours, rest) = (rest / 1_461, rest % 1_461);
    let years = (rest / 365).min(3);
    let leaps = years == 3 && (fours != 24 || centuries == 3);
    let (month, day) = month_and_day(rest - 365 * years, leaps);
    let year = FIRST_YEAR + 400 * rounds + 100 * centuries + 4 * fours + years;
    (year, month, day)
}

fn month_and_day(day_of_year: u64, leaps: bool) -> (u64, u64) {
    let february = if leaps { 29 } else { 28 };
    let mut rest = day_of_year;
    for (length, month) in [31, february, 31, 30, 31, 30, 31, 31, 30, 31, 30]
        .into_iter()
        .zip(1..)
    {
        if rest < length {
            return (month, rest + 1);
        }
        rest -= length;
    }
    (12, rest + 1)
}

#[cfg(test)]
mod tests {
    use super::*;

    #[test]
    fn texts_are_read_by_their_type() {
        let plain = |type_code, bytes| text_of(type_code, bytes, None).map(|text| text.plain);
        assert_eq!(plain(TEXT, b"H\0i\0").as_deref(), Some("Hi"));
        assert_eq!(plain(TEXT, b"H\0i").as_deref(), Some("H\u{FFFD}"));
        assert_eq!(plain(TEXT, b"\0\xD8").as_deref(), Some("\u{FFFD}"));
        assert_eq!(plain(TEXT_8, b"Hi").as_deref(), Some("Hi"));
        assert_eq!(
            plain(TEXT_8, b"a\xC3\xA9").as_deref(),
            Some("a\u{FFFD}\u{FFFD}")
        );
        assert_eq!(plain(0x102, b"Hi"), None);
    }

    #[test]
    fn eight_bit_text_keeps_each_byte() {
        let bytes = b"C:\\a ~\n\x1b\x7f\xe9\xa0";
        let text = text_of(TEXT_8, bytes, None).unwrap();
        assert_eq!(text.shown, "C:\\\\a ~\\x0a\\x1b\\x7f\\xe9\\xa0");
        assert_eq!(text.unknown.as_deref(), Some(&bytes[..]));
        let text = text_of(TEXT_8, bytes, CodePage::of_number(1252)).unwrap();
        assert_eq!(text.shown, "C:\\\\a ~\\x0a\\x1b\\x7f\u{E9}\u{A0}");
        assert_eq!(text.plain, "C:\\a ~\n\u{1B}\u{7F}\u{E9}\u{A0}");
        assert_eq!(text.unknown, None);
    }

    #[test]
    fn numbers_are_shown_by_their_type() {
        assert_eq!(number(3, 290), "290");
        assert_eq!(
            [0, 1, 2].map(|flag| number(BOOLEAN, flag)),
            ["no", "yes", "2"]
        );
        assert_eq!(number(FLOAT, 0x3FC0_0000), "1.5");
        assert_eq!(number(FLOAT_64, 0xBFE0_0000_0000_0000), "-0.5");
        assert_eq!(number(TIME, 0), "1601-01-01T00:00:00Z");
    }

    /// Moments whose dates are known, in seconds from the first of 1601.
    #[test]
    fn times_are_dates() {
        for (days, date) in [
            (0, "1601-01-01"),
            (58, "1601-02-28"),
            (59, "1601-03-01"),
            (3 * 365 + 59, "1604-02-29"),
            (99 * 365 + 24 + 58, "1700-02-28"),
            (99 * 365 + 24 + 59, "1700-03-01"),
            (134_774, "1970-01-01"),
            (134_774 + 11_016, "2000-02-29"),
            (146_096, "2000-12-31"),
            (146_097, "2001-01-01"),
            (134_774 + 19_782, "2024-02-29"),
        ] {
            assert_eq!(time(days * DAY * STEPS), format!("{date}T00:00:00Z"));
            let last = time((days + 1) * DAY * STEPS - 1);
            assert_eq!(last, format!("{date}T23:59:59.9999999Z"));
        }
        assert_eq!(time(u64::MAX), "+60056-05-28T05:36:10.9551615Z");
        let second = time(to_the_second(u64::MAX));
        assert_eq!(second, "+60056-05-28T05:36:10Z");
    }
}
