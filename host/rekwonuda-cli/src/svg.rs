//! A picture in the making, as SVG.

/// Text, as a picture shows it.
const TEXT: &str = "font-family=\"sans-serif\" font-size=\"12\" fill=\"#222222\"";

/// The elements of a picture, one behind the other.
#[derive(Default)]
pub struct Svg {
    elements: String,
}

impl Svg {
    /// A line of text that begins there, or ends there by its style.
    pub fn text(&mut self, x: usize, y: usize, style: &str, words: &str) {
        let words = escaped(words);
        self.elements += &format!("<text x=\"{x}\" y=\"{y}\"{style}>{words}</text>\n");
    }

    /// A path, and what is said of it where a pointer rests on it.
    pub fn path(&mut self, style: &str, data: &str, title: Option<&str>) {
        self.elements += &match title.map(escaped) {
            Some(title) => format!("<path {style} d=\"{data}\"><title>{title}</title></path>\n"),
            None => format!("<path {style} d=\"{data}\"/>\n"),
        };
    }

    /// The whole picture on a white ground, with what is read out of it.
    pub fn finish(self, width: usize, height: usize, title: &str, description: &str) -> String {
        let (title, description) = (escaped(title), escaped(description));
        let Svg { elements } = self;
        format!(
            "<svg xmlns=\"http://www.w3.org/2000/svg\" role=\"img\" \
             aria-labelledby=\"title description\" \
             width=\"{width}\" height=\"{height}\" viewBox=\"0 0 {width} {height}\">\n\
             <title id=\"title\">{title}</title>\n\
             <desc id=\"description\">{description}</desc>\n\
             <path fill=\"#FFFFFF\" d=\"M0,0h{width}v{height}h-{width}z\"/>\n\
             <g {TEXT}>\n{elements}</g>\n</svg>\n"
        )
    }
}

/// Text as it stands in XML. What no XML may hold is shown as an escape.
fn escaped(text: &str) -> String {
    let mut plain = String::new();
    for character in text.chars() {
        match character {
            '&' => plain += "&amp;",
            '<' => plain += "&lt;",
            '>' => plain += "&gt;",
            '"' => plain += "&quot;",
            '\u{FFFE}' | '\u{FFFF}' => plain.extend(character.escape_default()),
            _ if character.is_control() => plain.extend(character.escape_default()),
            _ => plain.push(character),
        }
    }
    plain
}

#[cfg(test)]
mod tests {
    use super::*;

    #[test]
    fn text_cannot_break_out_of_its_element() {
        assert_eq!(escaped("a<b>&\"'\u{e9}"), "a&lt;b&gt;&amp;&quot;'\u{e9}");
        assert_eq!(escaped("\0\u{FFFE}\u{FFFF}"), "\\u{0}\\u{fffe}\\u{ffff}");
        let mut svg = Svg::default();
        svg.text(1, 2, "", "</text>");
        svg.path("fill=\"none\"", "M0,0", Some("</title>"));
        let picture = svg.finish(10, 20, "</title>", "</desc>");
        for (end, count) in [("</text>", 1), ("</title>", 2), ("</desc>", 1)] {
            assert_eq!(picture.matches(end).count(), count, "{picture}");
        }
    }
}
