//! The code pages that 8-bit text may be in.

use crate::outcome::Failure;
use crate::output::{complain, Output};
use crate::source::Source;
use rekwonuda::Edition;

/// What the bytes from 0x80 on stand for in a code page, in rows of 32; U+FFFD for those that it leaves
/// open. Below 0x80 all of them are ASCII.
#[derive(Clone, Copy, Debug, PartialEq, Eq)]
pub struct CodePage {
    pub number: u16,
    upper: [&'static str; 4],
}

const PAGES: [CodePage; 6] = [
    CodePage {
        number: 1250,
        upper: [
            "€�‚�„…†‡�‰Š‹ŚŤŽŹ�‘’“”•–—�™š›śťžź",
            "\u{A0}ˇ˘Ł¤Ą¦§¨©Ş«¬\u{AD}®Ż°±˛ł´µ¶·¸ąş»Ľ˝ľż",
            "ŔÁÂĂÄĹĆÇČÉĘËĚÍÎĎĐŃŇÓÔŐÖ×ŘŮÚŰÜÝŢß",
            "ŕáâăäĺćçčéęëěíîďđńňóôőö÷řůúűüýţ˙",
        ],
    },
    CodePage {
        number: 1251,
        upper: [
            "ЂЃ‚ѓ„…†‡€‰Љ‹ЊЌЋЏђ‘’“”•–—�™љ›њќћџ",
            "\u{A0}ЎўЈ¤Ґ¦§Ё©Є«¬\u{AD}®Ї°±Ііґµ¶·ё№є»јЅѕї",
            "АБВГДЕЖЗИЙКЛМНОПРСТУФХЦЧШЩЪЫЬЭЮЯ",
            "абвгдежзийклмнопрстуфхцчшщъыьэюя",
        ],
    },
    CodePage {
        number: 1252,
        upper: [
            "€�‚ƒ„…†‡ˆ‰Š‹Œ�Ž��‘’“”•–—˜™š›œ�žŸ",
            "\u{A0}¡¢£¤¥¦§¨©ª«¬\u{AD}®¯°±²³´µ¶·¸¹º»¼½¾¿",
            "ÀÁÂÃÄÅÆÇÈÉÊËÌÍÎÏÐÑÒÓÔÕÖ×ØÙÚÛÜÝÞß",
            "àáâãäåæçèéêëìíîïðñòóôõö÷øùúûüýþÿ",
        ],
    },
    CodePage {
        number: 1253,
        upper: [
            "€�‚ƒ„…†‡�‰�‹�����‘’“”•–—�™�›����",
            "\u{A0}΅Ά£¤¥¦§¨©�«¬\u{AD}®―°±²³΄µ¶·ΈΉΊ»Ό½ΎΏ",
            "ΐΑΒΓΔΕΖΗΘΙΚΛΜΝΞΟΠΡ�ΣΤΥΦΧΨΩΪΫάέήί",
            "ΰαβγδεζηθικλμνξοπρςστυφχψωϊϋόύώ�",
        ],
    },
    CodePage {
        number: 1254,
        upper: [
            "€�‚ƒ„…†‡ˆ‰Š‹Œ����‘’“”•–—˜™š›œ��Ÿ",
            "\u{A0}¡¢£¤¥¦§¨©ª«¬\u{AD}®¯°±²³´µ¶·¸¹º»¼½¾¿",
            "ÀÁÂÃÄÅÆÇÈÉÊËÌÍÎÏĞÑÒÓÔÕÖ×ØÙÚÛÜİŞß",
            "àáâãäåæçèéêëìíîïğñòóôõö÷øùúûüışÿ",
        ],
    },
    CodePage {
        number: 1257,
        upper: [
            "€�‚�„…†‡�‰�‹�¨ˇ¸�‘’“”•–—�™�›�¯˛�",
            "\u{A0}�¢£¤�¦§Ø©Ŗ«¬\u{AD}®Æ°±²³´µ¶·ø¹ŗ»¼½¾æ",
            "ĄĮĀĆÄÅĘĒČÉŹĖĢĶĪĻŠŃŅÓŌÕÖ×ŲŁŚŪÜŻŽß",
            "ąįāćäåęēčéźėģķīļšńņóōõö÷ųłśūüżž˙",
        ],
    },
];

impl CodePage {
    pub fn of_number(number: u16) -> Option<CodePage> {
        PAGES.into_iter().find(|page| page.number == number)
    }

    /// What a byte from 0x80 on stands for.
    fn upper(&self, byte: u8) -> Option<char> {
        let at = usize::from(byte.checked_sub(0x80)?);
        let character = self.upper[at / 32].chars().nth(at % 32);
        character.filter(|character| *character != char::REPLACEMENT_CHARACTER)
    }
}

/// What a byte of 8-bit text stands for; `None` where that is not known. Without a code page it is known
/// of ASCII alone.
pub fn character(byte: u8, page: Option<CodePage>) -> Option<char> {
    match byte.is_ascii() {
        true => Some(byte.into()),
        false => page?.upper(byte),
    }
}

/// Adds to the JSON object which code page was named.
pub fn tell(page: Option<CodePage>, out: &mut Output<'_>) -> Result<(), Failure> {
    match page {
        Some(page) => out.fact("code_page", page.number),
        None => Ok(()),
    }
}

/// Says to a reader of a 32-bit file, most of whose text is 8-bit text, that what some bytes stand for is
/// not known.
pub fn note_unknown(source: &Source, out: &Output<'_>) {
    if source.edition() == Edition::Bits32 && !out.is_json() {
        complain(
            "bytes of 8-bit text are shown as \\xNN where it is not known what they stand for; \
             --code-page NUMBER says it",
        );
    }
}

#[cfg(test)]
mod tests {
    use super::*;

    fn read(number: u16, bytes: &[u8]) -> Option<String> {
        let page = Some(CodePage::of_number(number)?);
        bytes.iter().map(|byte| character(*byte, page)).collect()
    }

    #[test]
    fn each_code_page_has_128_characters_of_its_own() {
        for page in PAGES {
            assert!(page.upper.iter().all(|row| row.chars().count() == 32));
            let known: Vec<char> = (0x80..=0xFF).filter_map(|byte| page.upper(byte)).collect();
            let mut once = known.clone();
            once.sort_unstable();
            once.dedup();
            assert_eq!(once.len(), known.len(), "{}", page.number);
            assert!(known.iter().all(|character| !character.is_ascii()));
        }
    }

    #[test]
    fn text_is_read_by_its_code_page() {
        let wanted = [
            (1250, &b"P\xF8\xEDjemce"[..], "P\u{159}\u{ED}jemce"),
            (
                1251,
                b"\xCF\xE0\xEF\xEA\xE0",
                "\u{41F}\u{430}\u{43F}\u{43A}\u{430}",
            ),
            (1252, b"Entw\xFCrfe \x80", "Entw\u{FC}rfe \u{20AC}"),
            (1253, b"\xC1\xF9", "\u{391}\u{3C9}"),
            (1254, b"\xDD\xFD\xFE", "\u{130}\u{131}\u{15F}"),
            (1257, b"\xE0\xFE", "\u{105}\u{17E}"),
        ];
        for (number, bytes, text) in wanted {
            assert_eq!(read(number, bytes).as_deref(), Some(text), "{number}");
        }
        assert_eq!(read(1252, b"\x81"), None);
        assert_eq!(read(1255, b"a"), None);
    }

    #[test]
    fn without_a_code_page_ascii_alone_is_known() {
        assert_eq!(character(b'a', None), Some('a'));
        assert_eq!(character(0x7F, None), Some('\u{7F}'));
        assert_eq!(character(0x80, None), None);
        assert_eq!(character(0xFC, None), None);
    }
}
