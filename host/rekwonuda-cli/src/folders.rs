use crate::account::Spot;
use crate::args::FoldersArguments;
use crate::code_pages::{self, CodePage};
use crate::contexts::{named, Context};
use crate::folder::{Folder, Stated, HEAD};
use crate::list;
use crate::listing::Listing;
use crate::node::absent;
use crate::outcome::{At, Failure, Outcome};
use crate::output::Output;
use crate::source::Source;
use crate::table::row_count;
use crate::troubles::Troubles;
use crate::values::{text_of, Text};
use crate::words::counted;
use indicatif::HumanCount;
use rekwonuda::{BlockId, Heap, NodeId, Refusal, Table, Value};
use std::collections::{HashMap, HashSet};
use std::rc::Rc;

const ROOT: NodeId = NodeId(0x122);

/// The properties of the root folder that its line has.
const NAME: u16 = 0x3001;
const MESSAGES: u16 = 0x3602;
const UNREAD: u16 = 0x3603;

/// Shows all folders that the hierarchy tables lead to, and how many messages each has.
pub fn folders(
    source: &Source,
    arguments: &FoldersArguments,
    out: &mut Output<'_>,
) -> Result<Outcome, Failure> {
    let page = arguments.text.code_page;
    let mut walk = Walk::begin(source, page)?;
    code_pages::tell(page, out)?;
    out.begin_list("folders")?;
    let mut table = list::Table::new(HEAD.to_string());
    let mut is_unknown = false;
    while let Some(ahead) = walk.ahead.pop() {
        let folder = walk.visit(&ahead)?;
        is_unknown |= folder.unknown_name().is_some();
        out.entry(&folder.facts())?;
        for line in folder.lines() {
            table.row(&line, out)?;
        }
    }
    table.end(out)?;
    out.row("")?;
    out.line(walk.summary())?;
    if is_unknown {
        code_pages::note_unknown(source, out);
    }
    walk.troubles.tell(out)
}

struct Walk<'a> {
    source: &'a Source,
    page: Option<CodePage>,
    /// Folders yet to be shown, the next one last: a file may nest them to any depth.
    ahead: Vec<Ahead>,
    /// All folders that have been shown or stand ahead. None of them is followed again, so that the walk
    /// ends whatever the tables say.
    listed: HashSet<NodeId>,
    /// Under which folder the rows of a hierarchy table are shown, by its data block. Many folders may
    /// name one block, whose rows are gone through once.
    tables: HashMap<Option<BlockId>, NodeId>,
    troubles: Troubles<'a>,
    folders: u64,
    /// Those whose messages are counted, and how many they have together.
    counted: u64,
    messages: u64,
}

/// A folder yet to be shown: where it stands, and nothing that is read only then. A small file may list
/// very many.
struct Ahead {
    id: NodeId,
    parent: Option<NodeId>,
    depth: usize,
    /// The hierarchy table that lists it, and its row; the root folder is in none.
    listed: Option<(Rc<Listing>, u32)>,
}

impl<'a> Walk<'a> {
    fn begin(source: &'a Source, page: Option<CodePage>) -> Result<Walk<'a>, Failure> {
        let found = source.image().find_node(ROOT).at(Spot::NodeTree)?;
        found.entry.ok_or_else(|| absent(ROOT))?;
        let root = Ahead {
            id: ROOT,
            parent: None,
            depth: 0,
            listed: None,
        };
        Ok(Walk {
            source,
            page,
            ahead: vec![root],
            listed: HashSet::from([ROOT]),
            tables: HashMap::new(),
            troubles: Troubles::new(source),
            folders: 0,
            counted: 0,
            messages: 0,
        })
    }

    /// Reads a folder's name and its tables, and puts its subfolders ahead.
    fn visit(&mut self, ahead: &Ahead) -> Result<Folder, Failure> {
        self.folders += 1;
        let mut folder = Folder::new(ahead.id, ahead.parent, ahead.depth);
        let (stated, named) = stated(self.source, ahead, self.page);
        folder.stated = stated;
        let told_by = ahead.listed.as_ref().map(|(listing, _)| listing.node.id);
        self.note(&mut folder, "name", told_by.unwrap_or(ROOT), named)?;
        let is_one = folder.is_one();
        self.note(&mut folder, "folder", ahead.id, is_one)?;
        if let Some(table) = folder.contents_table() {
            let counted = self.count_messages(&mut folder, table);
            self.note(&mut folder, "contents table", table, counted)?;
        }
        if let Some(table) = folder.hierarchy_table() {
            let listed = self.list_subfolders(&mut folder, table);
            self.note(&mut folder, "hierarchy table", table, listed)?;
        }
        Ok(folder)
    }

    /// Takes note of a part of a folder that cannot be read.
    fn note(
        &mut self,
        folder: &mut Folder,
        part: &'static str,
        node: NodeId,
        read: Result<(), Failure>,
    ) -> Result<(), Failure> {
        if let Err(failure) = read {
            let trouble = self.troubles.note(part, node, failure)?;
            folder.troubles.push(trouble);
        }
        Ok(())
    }

    fn count_messages(&mut self, folder: &mut Folder, table: NodeId) -> Result<(), Failure> {
        let (node, data) = Context::Table.read_short(self.source, table.0)?;
        let messages = row_count(Table::new(&data), node, &data)?;
        folder.messages = Some(messages);
        self.counted += 1;
        self.messages += u64::from(messages);
        Ok(())
    }

    fn list_subfolders(&mut self, folder: &mut Folder, table: NodeId) -> Result<(), Failure> {
        let (node, data) = Context::Table.read_short(self.source, table.0)?;
        let rows = row_count(Table::new(&data), node, &data)?;
        let key = node.data.map(BlockId::key);
        match self.tables.get(&key) {
            _ if rows == 0 => Ok(()),
            Some(other) => {
                folder.same_table = Some(*other);
                Ok(())
            }
            None => {
                self.tables.insert(key, folder.id);
                self.list_rows(folder, Listing::new(node, data), rows)
            }
        }
    }

    /// Puts the folders that a hierarchy table lists ahead, the first of them next.
    fn list_rows(
        &mut self,
        folder: &mut Folder,
        listing: Listing,
        rows: u32,
    ) -> Result<(), Failure> {
        let listing = Rc::new(listing);
        let before = self.ahead.len();
        let mut without_id = 0;
        for row in 0..rows {
            match listing.folder(row) {
                None => without_id += 1,
                Some(id) if self.listed.insert(id) => self.ahead.push(Ahead {
                    id,
                    parent: Some(folder.id),
                    depth: folder.depth + 1,
                    listed: Some((Rc::clone(&listing), row)),
                }),
                Some(id) => folder.add_repeat(id),
            }
        }
        self.ahead[before..].reverse();
        match without_id {
            0 => Ok(()),
            _ => Err(Failure::NotCovered(format!(
                "{} names no folder in {}",
                named(listing.node.id),
                counted(without_id, "row")
            ))),
        }
    }

    /// "5 folders, 11 messages".
    fn summary(&self) -> String {
        let folders = counted(self.folders, "folder");
        let messages = counted(self.messages, "message");
        match self.counted == self.folders {
            true => format!("{folders}, {messages}"),
            false => format!(
                "{folders}, {messages} in the {} whose contents table was read",
                HumanCount(self.counted)
            ),
        }
    }
}

/// What is stated of a folder where it is listed, and whether all of that can be read.
fn stated(source: &Source, ahead: &Ahead, page: Option<CodePage>) -> (Stated, Result<(), Failure>) {
    match &ahead.listed {
        Some((listing, row)) => listing.stated(*row, page),
        None => match stated_of_root(source, page) {
            Ok(stated) => (stated, Ok(())),
            Err(failure) => (Stated::default(), Err(failure)),
        },
    }
}

/// No hierarchy table lists the root folder: its properties tell its name.
fn stated_of_root(source: &Source, page: Option<CodePage>) -> Result<Stated, Failure> {
    let (node, data) = Context::Properties.read_short(source, ROOT.0)?;
    let heap = Heap::new(&data);
    let spot = || Context::Properties.spot(node, &data);
    let number = |id| match heap.find_property(id).at(spot())?.map(|found| found.value) {
        Some(Value::Number(number)) => Ok(Some(number)),
        _ => Ok::<_, Failure>(None),
    };
    Ok(Stated {
        name: root_name(heap, page).at(spot())?,
        messages: number(MESSAGES)?,
        unread: number(UNREAD)?,
    })
}

fn root_name(heap: Heap<'_>, page: Option<CodePage>) -> Result<Option<Text>, Refusal> {
    let Some(found) = heap.find_property(NAME)? else {
        return Ok(None);
    };
    match found.value {
        Value::Item(item) => Ok(text_of(found.type_code, heap.item(item)?, page)),
        Value::Empty => Ok(Some(Text::default())),
        _ => Ok(None),
    }
}
