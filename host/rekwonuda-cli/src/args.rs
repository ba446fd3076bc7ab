use crate::code_pages::CodePage;
use crate::names::{is_standard, STANDARD};
use clap::error::ErrorKind;
use clap::{Args, CommandFactory, Parser, Subcommand};
use clap_complete::Shell;
use std::num::NonZeroUsize;
use std::path::PathBuf;

const ABOUT: &str = "Checks and reads Outlook .pst files, and takes nothing in them on trust";

const STATUS: &str = "\
Exit status:
  0  accepted, or done
  1  damaged: the file is refused; by find: a node is absent or refused
  2  wrong usage, or a file cannot be read or written
  3  what was asked for is absent
  4  not covered: another edition, a file over 1 GiB, a data tree of two
     levels, a heap of several blocks, rows in a subnode, a node of
     another kind";

const NOTES: &str = "\
What is accepted or refused, found or absent, is decided by a library that is proved to answer rightly for any \
bytes; what this program makes of its answers is tested, and not proved. \
The file is read into memory and not mapped: a file that changes under a mapping is outside what is proved. \
It may have up to 1 GiB. A FILE of - is standard input.

Numbers are decimal, or hexadecimal after 0x, without a sign.

With --json the answer is one object on one line, for several files one line each; docs/JSON.md describes it.

";

fn long_notes() -> String {
    format!("{NOTES}{STATUS}\n\nOf several files the worst counts, in the order 0, 3, 4, 1, 2.")
}

/// What the user asked for.
#[derive(Parser)]
#[command(name = "rekwonuda", version, about = ABOUT)]
#[command(after_help = STATUS, after_long_help = long_notes())]
pub struct Arguments {
    /// Answer in JSON
    ///
    /// The answer is one object on one line of standard output, also where the usage is wrong or the
    /// file cannot be read.
    #[arg(long, global = true)]
    pub json: bool,

    #[command(subcommand)]
    pub task: Task,
}

#[derive(Subcommand)]
pub enum Task {
    #[command(flatten)]
    OfFile(Command),
    /// Write a script that completes these commands in a shell to standard output
    Completions(CompletionsArguments),
}

/// What is asked of a file, or of several.
#[derive(Subcommand)]
pub enum Command {
    /// Check a file, or every .pst file of a folder
    ///
    /// Five stages: the header, both trees, every listed block, and the data of every node, up to the
    /// first refusal. Not looked at are subnodes, and heaps in the data. That bytes hang on behind the
    /// end that the header states is remarked, and no fault. Of several files, or of a folder, it gives
    /// one line each and a summary.
    Check(CheckArguments),
    /// Say what the file is: its size, edition and end, encoding method, trees and their counts
    Info(FileArgument),
    /// List all nodes: number, type, parent, data block and subnode block
    Nodes(FileArgument),
    /// List all blocks: number, kind, offset, size and references
    Blocks(FileArgument),
    /// Look up many nodes: a line for each number, in the order asked
    ///
    /// A node is found, with its type, parent, data block, subnode block and how many pages were read;
    /// or it is absent; or it is refused, with what is wrong and where. Damage on the way to one node
    /// says nothing of the others.
    Find(FindArguments),
    /// Write the data of a node to standard output, or to a file
    Node(NodeArguments),
    /// List the properties of a node
    Props(PropsArguments),
    /// Show the table of a node: a line for each row
    ///
    /// The row's id, `LtpRowId`, comes first: of a hierarchy table the number of a folder, of a contents
    /// table that of a message. Columns are named as MS-PST names them, without `PidTag` in front, or by
    /// their tags. On a screen columns without any value are left out, and long text is cut; a terminal
    /// gets lines of its width, and behind `| less -S` they are whole. The hierarchy table of a folder is
    /// the node with the folder's number plus 0xb, its contents table the one with that plus 0xc.
    Table(TableArguments),
    /// Show the tree of folders, with their names and how many messages each has
    ///
    /// It begins with the root folder, node 0x122, and follows the hierarchy tables. Messages are counted
    /// in the contents tables; unread ones are as stated where the folder is listed. What cannot be read
    /// is marked with ! and named, and the rest is shown.
    Folders(FoldersArguments),
    /// Draw the file from its first byte to its last: a picture (SVG) of what lies where
    ///
    /// It shows the header, the allocation maps, the pages of each tree, the listed blocks, free room, which
    /// is zero, and stale room, which holds other bytes and is listed nowhere; it marks the refusal that
    /// `check` tells. Where a tree is refused, room that is not listed is shown as unknown. The picture is
    /// drawn also of a file that is damaged or not covered, and the exit status is that of `check`. It has
    /// under 1,500,000 bytes, however large the file is.
    Map(MapArguments),
}

#[derive(Args)]
#[command(after_long_help = STATUS)]
pub struct CheckArguments {
    /// .pst files, folders, or - for standard input
    ///
    /// Folders are searched for names that end in .pst, in capitals or not, with all folders in them.
    /// Links to folders are not followed.
    #[arg(value_name = "FILE|FOLDER", required = true)]
    pub paths: Vec<PathBuf>,
    /// Go on past the first refusal and list every block and node that is refused
    #[arg(long)]
    pub all: bool,
    /// How many files to check at once; without it, one for each processor
    ///
    /// Each is held in memory while it is checked.
    #[arg(long, value_name = "N", value_parser = jobs)]
    pub jobs: Option<NonZeroUsize>,
}

#[derive(Args)]
#[command(after_long_help = STATUS)]
pub struct FileArgument {
    /// The .pst file, or - for standard input
    pub file: PathBuf,
}

#[derive(Args)]
#[command(after_long_help = STATUS)]
pub struct FindArguments {
    /// The .pst file, or - for standard input
    pub file: PathBuf,
    /// The numbers of the nodes, as 290 or 0x122, or - alone to read them from standard input
    ///
    /// On standard input there may be any number of them, one or more a line, with blanks between. They
    /// are all read before the first is looked up.
    #[arg(value_name = "NUMBER", required = true, value_parser = asked)]
    pub nodes: Vec<Asked>,
}

/// What stands for a node, or for many.
#[derive(Clone, Copy, Debug, PartialEq, Eq)]
pub enum Asked {
    Node(u32),
    /// The numbers are on standard input.
    Standard,
}

#[derive(Args)]
#[command(after_long_help = STATUS)]
pub struct NodeArguments {
    /// The .pst file, or - for standard input
    pub file: PathBuf,
    /// The number of the node, as 290 or 0x122
    #[arg(value_name = "NID", value_parser = node_number)]
    pub node: u32,
    #[command(flatten)]
    pub output: OutputArguments,
}

#[derive(Args)]
#[command(after_long_help = STATUS)]
pub struct MapArguments {
    /// The .pst file, or - for standard input
    pub file: PathBuf,
    #[command(flatten)]
    pub output: OutputArguments,
}

#[derive(Args)]
pub struct OutputArguments {
    /// Write to this file; - is standard output
    ///
    /// It is written once all that goes into it is there: to a temporary file beside it, which then takes
    /// its name. It is never the file that is read. Without it standard output is written to, and where
    /// that is a terminal a preview is shown.
    #[arg(short, long, value_name = "OUT")]
    pub output: Option<PathBuf>,
    /// Replace OUT where it is there already
    ///
    /// Where OUT is a link to a file, that file is replaced.
    #[arg(long)]
    pub force: bool,
}

#[derive(Args)]
#[command(after_long_help = STATUS)]
pub struct PropsArguments {
    /// The .pst file, or - for standard input
    pub file: PathBuf,
    /// The number of the node, as 33 or 0x21
    #[arg(value_name = "NID", value_parser = node_number)]
    pub node: u32,
    #[command(flatten)]
    pub text: TextArguments,
}

#[derive(Args)]
#[command(after_long_help = STATUS)]
pub struct TableArguments {
    /// The .pst file, or - for standard input
    pub file: PathBuf,
    /// The number of the node, as 32813 or 0x802d
    #[arg(value_name = "NID", value_parser = node_number)]
    pub node: u32,
    /// Answer in CSV
    ///
    /// All columns and rows, whole, as RFC 4180 has them. Text stands as it is in the file, also where it
    /// begins with =, +, - or @, which a spreadsheet may take for a formula. What would steer a terminal is
    /// escaped where standard output is one.
    #[arg(long)]
    pub csv: bool,
    #[command(flatten)]
    pub text: TextArguments,
}

#[derive(Args)]
#[command(after_long_help = STATUS)]
pub struct FoldersArguments {
    /// The .pst file, or - for standard input
    pub file: PathBuf,
    #[command(flatten)]
    pub text: TextArguments,
}

#[derive(Args)]
pub struct CompletionsArguments {
    /// The shell
    #[arg(value_enum)]
    pub shell: Shell,
}

#[derive(Args)]
pub struct TextArguments {
    /// The code page of 8-bit text: 1250 to 1254, or 1257
    ///
    /// Most text of 32-bit files is 8-bit text, whose bytes from 0x80 on stand for other characters in each
    /// code page. Which one a file is in is not looked for: without this option they are shown as \xNN.
    /// 1250 is for Central Europe, 1251 Cyrillic, 1252 Western Europe, 1253 Greek, 1254 Turkish, 1257
    /// Baltic.
    #[arg(long, value_name = "NUMBER", value_parser = code_page)]
    pub code_page: Option<CodePage>,
}

impl Arguments {
    /// Whether arguments that are right one by one are right together.
    pub fn agree(self) -> Result<Self, clap::Error> {
        let wrong = match &self.task {
            Task::OfFile(Command::Find(find)) => find.wrong_together(),
            Task::OfFile(Command::Table(table)) if table.csv && self.json => {
                Some("an answer is in CSV or in JSON, and both are asked for")
            }
            Task::Completions(_) if self.json => {
                Some("completions are a script, and JSON is asked for")
            }
            _ => None,
        };
        match wrong {
            Some(wrong) => Err(Self::command().error(ErrorKind::ArgumentConflict, wrong)),
            None => Ok(self),
        }
    }
}

impl FindArguments {
    fn wrong_together(&self) -> Option<&'static str> {
        match self.nodes.as_slice() {
            [Asked::Standard] if is_standard(&self.file) => {
                Some("standard input can be read once, and both FILE and NUMBER are -")
            }
            [_, _, ..] if self.nodes.contains(&Asked::Standard) => {
                Some("a NUMBER of - stands for all numbers, and others are given beside it")
            }
            _ => None,
        }
    }
}

impl Command {
    pub fn name(&self) -> &'static str {
        match self {
            Command::Check(_) => "check",
            Command::Info(_) => "info",
            Command::Nodes(_) => "nodes",
            Command::Blocks(_) => "blocks",
            Command::Find(_) => "find",
            Command::Node(_) => "node",
            Command::Props(_) => "props",
            Command::Table(_) => "table",
            Command::Folders(_) => "folders",
            Command::Map(_) => "map",
        }
    }
}

fn asked(text: &str) -> Result<Asked, String> {
    match text {
        STANDARD => Ok(Asked::Standard),
        _ => node_number(text).map(Asked::Node),
    }
}

pub fn node_number(text: &str) -> Result<u32, String> {
    let (digits, radix) = match text.strip_prefix("0x").or(text.strip_prefix("0X")) {
        Some(digits) => (digits, 16),
        None => (text, 10),
    };
    number(digits, radix)
        .ok_or_else(|| "a node number is decimal or 0x with hexadecimal, under 2^32".to_string())
}

fn code_page(text: &str) -> Result<CodePage, String> {
    let number = number(text, 10).and_then(|number| u16::try_from(number).ok());
    number
        .and_then(CodePage::of_number)
        .ok_or_else(|| "the code pages known here are 1250 to 1254, and 1257".to_string())
}

fn jobs(text: &str) -> Result<NonZeroUsize, String> {
    number(text, 10)
        .and_then(|jobs| NonZeroUsize::new(jobs as usize))
        .ok_or_else(|| "it is a number from 1 on".to_string())
}

/// A number of digits alone; the standard library would take a sign too.
fn number(digits: &str, radix: u32) -> Option<u32> {
    let plain = digits.chars().all(|digit| digit.is_digit(radix));
    u32::from_str_radix(digits, radix).ok().filter(|_| plain)
}

#[cfg(test)]
mod tests {
    use super::*;

    #[test]
    fn arguments_are_well_formed() {
        Arguments::command().debug_assert();
    }

    #[test]
    fn node_numbers_are_decimal_or_hexadecimal() {
        assert_eq!(node_number("290"), Ok(290));
        assert_eq!(node_number("0x122"), Ok(290));
        assert_eq!(node_number("0XFFFFFFFF"), Ok(u32::MAX));
        let wrong = ["", "0x", "-1", "+1", "0x+1", "0x-1", "122h", " 1"];
        for wrong in wrong.iter().chain(&["0x100000000", "4294967296"]) {
            assert!(node_number(wrong).is_err(), "{wrong}");
        }
    }

    #[test]
    fn numbers_may_be_left_to_standard_input() {
        let agree = |words: &[&str]| {
            let words = ["rekwonuda", "find"].iter().chain(words);
            Arguments::try_parse_from(words).and_then(Arguments::agree)
        };
        for right in [
            &["x", "1"][..],
            &["x", "1", "0x2", "1"],
            &["-", "1"],
            &["x", "-"],
        ] {
            assert!(agree(right).is_ok(), "{right:?}");
        }
        for wrong in [
            &["x"][..],
            &["-", "-"],
            &["x", "1", "-"],
            &["x", "-", "-"],
            &["x", "y"],
        ] {
            assert!(agree(wrong).is_err(), "{wrong:?}");
        }
    }

    #[test]
    fn code_pages_are_those_that_are_known() {
        for right in ["1250", "1251", "1252", "1253", "1254", "1257"] {
            let page = code_page(right).map(|page| page.number.to_string());
            assert_eq!(page.as_deref(), Ok(right));
        }
        for wrong in ["", "0", "437", "1255", "+1252", "0x4e4", "66788", "latin"] {
            assert!(code_page(wrong).is_err(), "{wrong}");
        }
    }

    #[test]
    fn jobs_are_counted_from_1() {
        assert_eq!(jobs("3"), Ok(NonZeroUsize::MIN.saturating_add(2)));
        for wrong in ["0", "+2", "-1", "", "0x2", "two"] {
            assert!(jobs(wrong).is_err(), "{wrong}");
        }
    }
}
