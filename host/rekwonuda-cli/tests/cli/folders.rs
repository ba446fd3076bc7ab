//! `folders`.

use crate::made::{
    bytes, contents, hierarchy, table, text, with_table, Made, COUNT, NAME, ROOT, UNREAD,
};
use crate::page::Shapes;
use crate::runs::{file, office, run, Run};
use model::build::tables::{place_table, GivenCell, GivenTable, RowsPlace, ROW_ID};
use model::damage::table::spoil_anywhere;
use model::random::Random;
use model::Column;
use serde_json::{json, Value};
use std::collections::BTreeSet;

const TOP: u32 = 0x8022;
const INBOX: u32 = 0x8082;
const SENT: u32 = 0x80A2;

/// The root folder, the top of the mail folders in it, and two more in that.
fn usual() -> Made {
    let mut made = Made::new();
    made.root("Root");
    made.folder(ROOT, &[(TOP, "Top of Personal Folders")], 0);
    made.folder(TOP, &[(INBOX, "Inbox"), (SENT, "Sent Items")], 2);
    made.folder(INBOX, &[], 2);
    made.folder(SENT, &[], 2);
    made
}

/// Runs it both ways, and answers the text and the JSON.
fn shown(name: &str, made: Made, status: i32) -> (Run, Value) {
    let path = file(name, &made.image());
    let answer = run(&["folders", "--json"], &path, &[]);
    let text = run(&["folders"], &path, &[]);
    assert_eq!(
        (text.status, answer.status),
        (status, status),
        "{}{}",
        text.text,
        text.errors
    );
    (text, answer.json())
}

/// The entry of that folder, which there is once.
fn folder(answer: &Value, id: u32) -> &Value {
    let folders = answer["folders"].as_array().unwrap();
    let mut found = folders.iter().filter(|folder| folder["node"] == id);
    let folder = found
        .next()
        .unwrap_or_else(|| panic!("no {id:#x} in {answer}"));
    assert!(found.next().is_none(), "{id:#x} twice in {answer}");
    folder
}

fn trouble(answer: &Value, id: u32) -> &Value {
    &folder(answer, id)["troubles"][0]
}

#[test]
fn folders_are_shown_as_a_tree() {
    let (text, answer) = shown("folders.pst", usual(), 0);
    let wanted = "      node  messages  unread  folder
     0x122         0       0  Root
    0x8022         2       1    Top of Personal Folders
    0x8082         2       1      Inbox
    0x80a2         2       1      Sent Items

4 folders, 6 messages
";
    assert_eq!((text.text.as_str(), text.errors.as_str()), (wanted, ""));
    let wanted = json!({
        "node": INBOX, "parent": TOP, "depth": 2, "type": "folder", "name": "Inbox", "messages": 2,
        "stated_messages": 2, "stated_unread": 1, "repeats": [], "repeat_count": 0, "troubles": [],
    });
    assert_eq!(*folder(&answer, INBOX), wanted);
    assert_eq!(folder(&answer, ROOT)["parent"], Value::Null);
    assert_eq!(
        (&answer["outcome"], answer.get("message")),
        (&"done".into(), None)
    );
}

#[test]
fn the_folders_of_the_sample_are_shown() {
    let run = run(&["folders"], &office(), &[]);
    let wanted = "      node  messages  unread  folder
     0x122         0       0  (no name)
    0x8022         0       0    Top of Personal Folders
    0x8062         0       0      Deleted Items
    0x8082        11       3      Inbox
    0x80a2         3       0      Sent Items
    0x80c2         0       0      Archive
    0x80e2         2       0        2012
    0x8042         0       0    Search Root

8 folders, 16 messages
";
    assert_eq!(
        (run.status, run.text.as_str(), run.errors.as_str()),
        (0, wanted, "")
    );
}

#[test]
fn folders_that_list_each_other_do_not_loop() {
    let mut made = usual();
    made.folder(
        INBOX,
        &[
            (ROOT, "up"),
            (SENT, "across"),
            (INBOX, "self"),
            (0x80C2, "new"),
        ],
        2,
    );
    made.folder(0x80C2, &[(0x80C2, "self")], 2);
    let (text, answer) = shown("folders_cycle.pst", made, 0);
    assert!(text.says("! also lists 0x122, 0x80a2, 0x8082; a folder is shown once"));
    assert!(
        text.says("! also lists 0x80c2; a folder is shown once"),
        "{}",
        text.text
    );
    assert!(text.says("5 folders, 8 messages"), "{}", text.text);
    assert_eq!(
        folder(&answer, INBOX)["repeats"],
        json!([ROOT, SENT, INBOX])
    );
    assert_eq!(folder(&answer, INBOX)["repeat_count"], 3);
    assert_eq!(folder(&answer, SENT)["parent"], TOP);
}

#[test]
fn of_many_repeats_the_first_are_named() {
    let many: Vec<(u32, &str)> = (0..150).map(|_| (ROOT, "")).collect();
    let mut made = usual();
    made.folder(INBOX, &many, 2);
    let (text, answer) = shown("folders_repeats.pst", made, 0);
    assert!(
        text.says("0x122 and 140 folders more; a folder is shown once"),
        "{}",
        text.text
    );
    assert_eq!(
        folder(&answer, INBOX)["repeats"].as_array().unwrap().len(),
        100
    );
    assert_eq!(folder(&answer, INBOX)["repeat_count"], 150);
}

#[test]
fn a_table_that_several_folders_name_is_gone_through_once() {
    let mut made = usual();
    let shared = made.block(&bytes(&hierarchy(&[(0x80C2, "One")])));
    made.list(0x808D, shared);
    made.list(0x80AD, shared + 1);
    made.folder(0x80C2, &[], 2);
    let (text, answer) = shown("folders_shared.pst", made, 0);
    let words = "! its hierarchy table is that of folder 0x8082, where the rows are shown";
    assert!(text.says(words), "{}", text.text);
    assert_eq!(folder(&answer, SENT)["same_table"], INBOX);
    assert_eq!(folder(&answer, 0x80C2)["parent"], INBOX);
    let mut made = usual();
    let empty = made.block(&bytes(&hierarchy(&[])));
    made.list(0x808D, empty);
    made.list(0x80AD, empty);
    let (text, _) = shown("folders_both_empty.pst", made, 0);
    assert!(!text.text.contains('!'), "{}", text.text);
}

/// A chain of folders, each in the one before it.
#[test]
fn folders_may_nest_to_any_depth() {
    const DEEP: u32 = 3_000;
    let mut made = usual();
    let none = made.block(&bytes(&contents(2)));
    for at in 0..DEEP {
        let id = INBOX + 0x2000 + 0x20 * at;
        let below = [(id + 0x20, "deeper")];
        made.node(
            id & !0x1F | 0x0D,
            &bytes(&hierarchy(&below[..usize::from(at + 1 < DEEP)])),
        );
        made.list(id & !0x1F | 0x0E, none);
    }
    made.folder(INBOX, &[(INBOX + 0x2000, "deep")], 2);
    let (text, answer) = shown("folders_deep.pst", made, 0);
    assert_eq!(answer["folders"].as_array().unwrap().len(), 3_004);
    assert!(text.says("(level 3002) deeper") && text.says("(level 41) deeper"));
    assert!(!text.says("(level 40) "));
    assert!(text.text.lines().all(|line| line.len() < 150));
}

#[test]
fn damage_is_named_and_the_rest_is_shown() {
    let mut made = usual();
    let mut spoilt = bytes(&hierarchy(&[]));
    let record = spoilt
        .windows(2)
        .rposition(|pair| pair == [0x7C, 5])
        .unwrap();
    spoilt[record] = 0;
    made.node(0x808D, &spoilt);
    let (text, answer) = shown("folders_damaged.pst", made, 1);
    assert!(
        text.says("! the data of node 0x808d (hierarchy table)"),
        "{}",
        text.text
    );
    assert!(
        text.says("0x80a2 2 1 Sent Items") && text.says("What to do:"),
        "{}",
        text.errors
    );
    assert!(text.says("the tree is not whole: 1 part cannot be read (1 damaged)"));
    let told = trouble(&answer, INBOX);
    assert_eq!(told["part"], "hierarchy table");
    assert_eq!(
        (&told["node"], &told["number"]),
        (&0x808D.into(), &23.into())
    );
    assert_eq!(told["outcome"], "damaged");
    assert_eq!(answer["refusals"][0]["number"], 23);
    assert_eq!(answer["refusals"][0]["node"], 0x808D);
    assert_eq!(folder(&answer, INBOX)["messages"], 2);
}

/// Whatever stands in a hierarchy table, it ends, and says so in the right shape.
#[test]
fn a_hierarchy_table_may_be_spoilt_anywhere() {
    let shapes = Shapes::read();
    let folders = [(INBOX, "Inbox"), (SENT, "Sent Items"), (0x2223, "Search")];
    let mut statuses = BTreeSet::new();
    for seed in 0..120 {
        let random = &mut Random::new(seed);
        let placed = place_table(random, &hierarchy(&folders));
        let mut made = usual();
        made.node(0x802D, &spoil_anywhere(&placed, random).block);
        let path = file("folders_anywhere.pst", &made.image());
        let run = run(&["folders", "--json"], &path, &[]);
        let answer = shapes.hold_run(&run);
        let top = folder(&answer, TOP);
        assert_eq!(top["name"], "Top of Personal Folders");
        statuses.insert(run.status);
    }
    assert!(statuses.is_superset(&[0, 1, 4].into()), "{statuses:?}");
    assert!(!statuses.contains(&2), "{statuses:?}");
}

#[test]
fn a_broken_block_is_named_by_its_place() {
    let mut made = usual();
    let sealed = bytes(&contents(3));
    made.node(0x808E, &sealed);
    let mut image = made.image();
    let at = image
        .windows(sealed.len())
        .position(|part| part == sealed)
        .unwrap();
    image[at + 20] ^= 1;
    let path = file("folders_block.pst", &image);
    let text = run(&["folders"], &path, &[]);
    assert_eq!(text.status, 1);
    assert!(text.says("the data of node 0x808e (contents table). The checksum of a block differs"));
    assert!(
        text.says("0x8082 - 1 Inbox") && text.says("! said to have 2 messages"),
        "{}",
        text.text
    );
    assert!(text.says("4 folders, 4 messages in the 3 whose contents table was read"));
}

#[test]
fn what_is_not_covered_is_named() {
    let mut in_subnode = contents(3);
    in_subnode.rows_place = RowsPlace::Subnode(0x3F);
    let mut made = usual();
    made.node(0x808E, &bytes(&in_subnode));
    let several = made.tree(&[&bytes(&hierarchy(&[])), b"more"]);
    made.list(0x80AD, several);
    let (text, answer) = shown("folders_not_covered.pst", made, 4);
    let words = "node 0x808e (contents table) has its rows in subnode 0x3f: subnodes are not read";
    assert!(
        text.says(words) && text.says("! said to have 2 messages"),
        "{}",
        text.text
    );
    let words =
        "node 0x80ad (hierarchy table) has 2 blocks of data, and a table of several is not covered";
    assert!(text.says(words), "{}", text.text);
    assert!(
        text.says("2 parts cannot be read (2 not covered)"),
        "{}",
        text.errors
    );
    assert_eq!(trouble(&answer, INBOX)["part"], "contents table");
    assert_eq!(trouble(&answer, SENT)["outcome"], "not covered");
    assert_eq!(answer["outcome"], "not covered");
    let mut made = usual();
    made.node(0x808D, b"no heap at all");
    let (text, _) = shown("folders_no_table.pst", made, 4);
    assert!(
        text.says("node 0x808d (hierarchy table) is no table: its data"),
        "{}",
        text.text
    );
}

#[test]
fn tables_that_are_absent_are_named() {
    let mut made = usual();
    made.folder(SENT, &[(0x80C2, "Nowhere")], 2);
    let (text, answer) = shown("folders_absent.pst", made, 3);
    assert!(
        text.says("! node 0x80cd (hierarchy table) is absent"),
        "{}",
        text.text
    );
    let troubles = folder(&answer, 0x80C2)["troubles"].as_array().unwrap();
    let parts: Vec<_> = troubles.iter().map(|trouble| &trouble["part"]).collect();
    assert_eq!(parts, ["contents table", "hierarchy table"]);
    assert_eq!(troubles[0]["outcome"], "absent");
    let path = file("folders_no_root.pst", &Made::new().image());
    let none = run(&["folders"], &path, &[]);
    assert_eq!((none.status, none.text.as_str()), (3, ""));
    assert!(none.says("node 0x122 is absent"), "{}", none.errors);
    let path = file("folders_no_file.pst", b"no mail");
    assert_eq!(run(&["folders"], &path, &[]).status, 1);
}

/// Folders whose names stand in a subnode, in an item that there is not, nowhere, or are odd.
fn oddly_named() -> Made {
    let row = |name: GivenCell| vec![name, GivenCell::Number(2), GivenCell::Number(1)];
    let rows = [
        (0x80C2, row(GivenCell::Subnode(0x3F))),
        (0x80E2, row(GivenCell::Subnode(0xFFE0))),
        (0x8102, vec![GivenCell::Missing; 3]),
        (0x8122, row(GivenCell::Empty)),
        (0x8142, row(text("\x1b[31mred\n"))),
    ];
    let mut made = usual();
    made.node(0x808D, &bytes(&table(&[NAME, COUNT, UNREAD], &rows)));
    for (id, _) in &rows {
        made.folder(*id, &[], 2);
    }
    made
}

#[test]
fn names_that_cannot_be_read_are_told() {
    let (text, answer) = shown("folders_names.pst", oddly_named(), 1);
    for words in [
        "! the name in row 0 (counted from 0) of node 0x808d (hierarchy table) stands in subnode \
         0x3f: subnodes are not read",
        "A number names no item of the heap (refusal 19)",
        "0x80c2 2 1 (name not read)",
        "0x80e2 2 1 (name not read)",
        "0x8102 2 - (no name)",
        "0x8122 2 1 (no name)",
        "\\u{1b}[31mred\\n",
    ] {
        assert!(text.says(words), "{words}: {}", text.text);
    }
    assert!(!text.text.contains('\x1b'));
    let name = |id: u32| folder(&answer, id)["name"].clone();
    let unnamed = [0x80C2, 0x80E2, 0x8102].map(name);
    assert_eq!(unnamed, [Value::Null, Value::Null, Value::Null]);
    assert_eq!([0x8122, 0x8142].map(name), ["", "\x1b[31mred\n"]);
    assert_eq!(trouble(&answer, 0x80E2)["part"], "name");
}

#[test]
fn the_root_folder_may_have_no_readable_properties() {
    let mut made = usual();
    made.node(ROOT, b"no heap at all");
    let (text, answer) = shown("folders_root.pst", made, 4);
    assert!(text.says("0x122 0 - (name not read)"), "{}", text.text);
    assert!(
        text.says("node 0x122 (folder) is no property heap"),
        "{}",
        text.text
    );
    assert_eq!(trouble(&answer, ROOT)["part"], "name");
    assert_eq!(answer["folders"].as_array().unwrap().len(), 4);
}

#[test]
fn rows_that_are_no_folders_are_told() {
    let mut made = usual();
    made.folder(INBOX, &[(0x2223, "Search"), (0x20_0024, "Message")], 2);
    let (text, answer) = shown("folders_others.pst", made, 4);
    assert!(
        text.says("0x2223 - 1 Search (search folder)"),
        "{}",
        text.text
    );
    let words = "! node 0x200024 (message) is listed as a folder, and is none";
    assert!(text.says(words), "{}", text.text);
    assert_eq!(folder(&answer, 0x2223)["troubles"], json!([]));
    assert_eq!(folder(&answer, 0x2223)["type"], "search folder");
    assert_eq!(trouble(&answer, 0x20_0024)["part"], "folder");
    let mut without_ids = hierarchy(&[(0x80C2, "a"), (0x80E2, "b")]);
    let at = without_ids
        .layout
        .columns
        .iter()
        .position(|column| column.tag == ROW_ID);
    for row in &mut without_ids.rows {
        row[at.unwrap()] = GivenCell::Missing;
    }
    let mut made = usual();
    made.node(0x808D, &bytes(&without_ids));
    let (text, _) = shown("folders_no_ids.pst", made, 4);
    let words = "! node 0x808d (hierarchy table) names no folder in 2 rows";
    assert!(text.says(words), "{}", text.text);
}

/// A hierarchy table with columns of eight bytes, in which an id or a count has more than four.
fn wide() -> GivenTable {
    let mut wide = hierarchy(&[]);
    let columns = [(NAME, 0, 4), (COUNT, 4, 8), (ROW_ID, 12, 8)];
    let column = |(bit, (tag, offset, width))| Column {
        tag,
        offset,
        width,
        bit,
    };
    wide.layout.columns = (0..).zip(columns).map(column).collect();
    wide.layout.ends = [20, 20, 20, 21];
    let over = 1 << 32;
    let row = |count: u64, id: u64| {
        let numbers = [count, id].map(GivenCell::Number);
        [vec![text("wide")], numbers.to_vec()].concat()
    };
    wide.rows = vec![row(2, over + 1), row(over + 2, SENT.into())];
    wide.rows_place = RowsPlace::Item;
    wide.row_index = [(SENT, 1)].into();
    wide
}

#[test]
fn ids_and_counts_have_four_bytes() {
    let mut made = usual();
    made.node(0x802D, &bytes(&wide()));
    let (text, answer) = shown("folders_wide.pst", made, 4);
    assert!(text.says("names no folder in 1 row"), "{}", text.text);
    let sent = folder(&answer, SENT);
    assert_eq!(sent["name"], "wide");
    assert_eq!(sent.get("stated_messages"), None);
    let path = file("table_wide.pst", &with_table(&wide()));
    let answer = run(&["table", "--json"], &path, &["0x802d"]).json();
    let ids = [0, 1].map(|row| answer["rows"][row].get("id").cloned());
    assert_eq!(ids, [None, Some(SENT.into())]);
    let text = run(&["table"], &path, &["0x802d"]).text;
    assert!(
        text.contains("0x100000001") && text.contains("4294967298"),
        "{text}"
    );
}
