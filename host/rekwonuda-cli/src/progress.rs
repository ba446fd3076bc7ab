//! How far a long command has come, on standard error where that is a terminal. It takes one line of
//! it, however narrow.

use console::Term;
use indicatif::{ProgressBar, ProgressFinish, ProgressStyle};
use std::borrow::Cow;

/// A file so large that a reader waits for it.
const LARGE: u64 = 16 << 20;

/// Words and a bar, words and a number, words alone: of each, the wide part takes what room is left.
const WIDE: &str = "{msg} {wide_bar} {percent:>3}% {eta:>4}";
const NARROW: &str = "{percent:>3}% {wide_msg}";
const WORDS: &str = "{wide_msg}";

/// Progress through that many steps.
pub fn bar(shown: bool, steps: u64, doing: impl Into<Cow<'static, str>>) -> ProgressBar {
    let (_, columns) = Term::stderr().size();
    let template = match columns {
        0..10 => WORDS,
        10..40 => NARROW,
        _ => WIDE,
    };
    made(shown, ProgressBar::new(steps), template, doing)
}

/// A sign of life.
pub fn spinner(shown: bool, doing: impl Into<Cow<'static, str>>) -> ProgressBar {
    made(shown, ProgressBar::new_spinner(), WORDS, doing)
}

pub fn is_worthwhile(size: Option<u64>) -> bool {
    size.is_some_and(|size| size >= LARGE)
}

fn made(
    shown: bool,
    bar: ProgressBar,
    template: &str,
    doing: impl Into<Cow<'static, str>>,
) -> ProgressBar {
    if !shown {
        return ProgressBar::hidden();
    }
    let style = ProgressStyle::with_template(template).expect("the template is well formed");
    bar.with_style(style)
        .with_message(doing)
        .with_finish(ProgressFinish::AndClear)
}
