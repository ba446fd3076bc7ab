//! `table`.

use crate::images::sound;
use crate::made::{bytes, hierarchy, table, text, utf_16, with_table, Made, NAME, SUBJECT};
use crate::page::Shapes;
use crate::runs::{file, office, run, run_in, words, Run, PROGRAM};
use crate::spoilt::with_block;
use model::build::tables::{
    any_table, place_table, worked_example, GivenCell, GivenTable, PlacedTable, RowsPlace, ROW_ID,
};
use model::damage::table::{spoil_anywhere, spoil_table, Side, TableDamage};
use model::random::Random;
use serde_json::{json, Value};
use std::collections::BTreeSet;
use std::path::Path;

const NODE: &str = "0x802d";
const FLAG: u32 = 0x360A_000B;
const TIME: u32 = 0x0E06_0040;
const BYTES: u32 = 0x0071_0102;
const TEXT_8: u32 = 0x001A_001E;
const UNNAMED: u32 = 0x8005_0014;

/// 2013-02-11, noon, and half a second.
const NOON: u64 = 130_050_576_005_000_000;

/// A table with cells of every kind.
fn mixed() -> GivenTable {
    let tags = [NAME, FLAG, TIME, BYTES, TEXT_8, UNNAMED, SUBJECT];
    let full = vec![
        text("Inbox"),
        GivenCell::Number(1),
        GivenCell::Number(NOON),
        GivenCell::Bytes(vec![0xDE, 0xAD]),
        GivenCell::Bytes(b"caf\xE9\n".to_vec()),
        GivenCell::Number(u64::MAX),
        GivenCell::Missing,
    ];
    let sparse = vec![
        GivenCell::Empty,
        GivenCell::Missing,
        GivenCell::Missing,
        GivenCell::Subnode(0x3F),
        GivenCell::Empty,
        GivenCell::Missing,
        GivenCell::Missing,
    ];
    table(&tags, &[(0x8082, full), (0x80A2, sparse)])
}

fn shown(name: &str, given: &GivenTable, words: &[&str]) -> Run {
    let path = file(name, &with_table(given));
    run(&[&["table"], words].concat(), &path, &[NODE])
}

#[test]
fn a_table_is_shown_with_a_line_for_each_row() {
    let run = shown("table_mixed.pst", &mixed(), &[]);
    let wanted = "\
LtpRowId  MessageClass  ConversationIndex  MessageDeliveryTime   DisplayName  Subfolders  LtpRowVer            0x80050014
  0x8082  caf\\xe9\\x0a   dead               2013-02-11T12:00:00Z  Inbox        yes                 7  18446744073709551615
  0x80a2                (in subnode 0x3f)                                                         7

2 rows, 9 columns; 1 without any value not shown
";
    assert_eq!((run.status, run.text.as_str()), (0, wanted));
    assert_eq!(run.errors, "");
}

#[test]
fn csv_is_whole_and_keeps_what_a_spreadsheet_might_take_for_a_formula() {
    let run = shown("table_csv.pst", &mixed(), &["--csv"]);
    let wanted = "LtpRowId,MessageClass,Subject,ConversationIndex,MessageDeliveryTime,DisplayName,\
        Subfolders,LtpRowVer,0x80050014\r\n\
        0x8082,caf\\xe9\\x0a,,dead,2013-02-11T12:00:00.5000000Z,Inbox,yes,7,18446744073709551615\r\n\
        0x80a2,,,(in subnode 0x3f),,,,7,\r\n";
    assert_eq!((run.status, run.text.as_str()), (0, wanted));
    let long = format!("=1+1, \"{}\"\r\n\x1b[31m", "x".repeat(99));
    let rows = [(1, vec![text(&long)])];
    let run = shown("table_csv_long.pst", &table(&[NAME], &rows), &["--csv"]);
    let field = long.replace('"', "\"\"");
    let wanted = format!("LtpRowId,DisplayName,LtpRowVer\r\n0x1,\"{field}\",7\r\n");
    assert_eq!(run.text, wanted);
}

#[test]
fn json_tells_missing_and_empty_cells_apart() {
    let answer = shown("table_json.pst", &mixed(), &["--json"]).json();
    let columns = answer["columns"].as_array().unwrap();
    assert_eq!(columns.len(), 9);
    let name = json!({"tag": NAME, "name": "DisplayName", "type": 31, "type_name": "text"});
    assert!(columns.contains(&name), "{answer}");
    let unnamed = columns.iter().find(|column| column["tag"] == UNNAMED);
    assert_eq!(unnamed.unwrap()["name"], Value::Null);
    let cell = |row: usize, tag: u32| {
        let at = columns.iter().position(|column| column["tag"] == tag);
        answer["rows"][row]["cells"][at.unwrap()].clone()
    };
    let inbox =
        json!({"item": cell(0, NAME)["item"], "bytes": "49006e0062006f007800", "text": "Inbox"});
    assert_eq!(cell(0, NAME), inbox);
    assert_eq!(cell(0, FLAG), json!({"number": "1", "boolean": true}));
    let noon = json!({"number": NOON.to_string(), "time": "2013-02-11T12:00:00.5000000Z"});
    assert_eq!(cell(0, TIME), noon);
    assert_eq!(cell(0, UNNAMED), json!({"number": u64::MAX.to_string()}));
    assert_eq!(cell(0, TEXT_8)["text"], "caf\u{FFFD}\n");
    assert_eq!(cell(1, NAME), json!({"empty": true}));
    assert_eq!(cell(1, FLAG), json!({"missing": true}));
    assert_eq!(cell(1, BYTES), json!({"subnode": 0x3F}));
    for (row, id) in [(0, 0x8082), (1, 0x80A2)] {
        let told = &answer["rows"][row];
        assert_eq!((&told["row"], &told["id"]), (&row.into(), &id.into()));
        assert_eq!(told["indexed_row"], row);
    }
}

#[test]
fn text_cannot_steer_a_terminal() {
    let odd = "a\x1b[31m\nb\u{9B}2J\u{202E}\\";
    let mut units = utf_16(odd);
    units.extend([0x00, 0xD8, 0x41]);
    let given = table(&[NAME], &[(1, vec![GivenCell::Bytes(units)])]);
    let path = file("table_steers.pst", &with_table(&given));
    let escaped = "a\\u{1b}[31m\\nb\\u{9b}2J\\u{202e}\\\\\u{FFFD}\u{FFFD}";
    let text = run(&["table"], &path, &[NODE]);
    // A screen shows as much of it as a column is wide.
    let start: String = escaped.chars().take(31).collect();
    assert!(text.text.contains(&start), "{}", text.text);
    assert!(!text.text.contains(['\x1b', '\u{9B}', '\u{202E}']));
    let csv = run(&["table", "--csv"], &path, &[NODE]);
    assert!(csv.text.contains(odd), "{}", csv.text);
    let inner = format!("{PROGRAM} table --csv {} {NODE}", path.display());
    let script = format!("TERM=xterm script -qec '{inner}' /dev/null < /dev/null");
    let sent = run_in(Path::new("."), &script);
    assert!(sent.text.contains(escaped), "{}", sent.text);
    let answer = run(&["table", "--json"], &path, &[NODE]).json();
    let name = &answer["rows"][0]["cells"][0];
    assert_eq!(name["text"], format!("{odd}\u{FFFD}\u{FFFD}"));
    assert!(name["bytes"].as_str().unwrap().ends_with("5c0000d841"));
}

#[test]
fn long_text_is_cut_on_a_screen_alone() {
    let long = "\u{4F60}".repeat(50);
    let given = table(&[NAME], &[(1, vec![text(&long)])]);
    let run = shown("table_long.pst", &given, &[]);
    let cut = format!("{}\u{2026}", "\u{4F60}".repeat(15));
    assert!(run.text.contains(&cut) && !run.text.contains(&long[..48]));
    let csv = shown("table_long_csv.pst", &given, &["--csv"]);
    assert!(csv.text.contains(&long));
}

/// The hierarchy table of 003, 3.11.
#[test]
fn the_worked_example_is_shown() {
    let mut made = Made::new();
    made.node(0x802D, &worked_example().block);
    let run = run(
        &["table"],
        &file("table_worked.pst", &made.image()),
        &[NODE],
    );
    let lines: Vec<Vec<&str>> = run
        .text
        .lines()
        .map(|line| line.split("  ").collect())
        .collect();
    let first = |at: usize| {
        lines[at]
            .iter()
            .find(|word| !word.is_empty())
            .unwrap()
            .trim()
    };
    assert_eq!([1, 2, 3].map(first), ["0x8022", "0x8042", "0x2223"]);
    for name in [
        "Top of Personal Folders",
        "Search Root",
        "SPAM Search Folder 2",
    ] {
        assert!(run.text.contains(name), "{}", run.text);
    }
    assert!(run.says("3 rows, 13 columns"), "{}", run.text);
    assert_eq!((run.status, run.errors.as_str()), (0, ""));
}

#[test]
fn the_tables_of_the_sample_are_shown() {
    let folders = run(&["table"], &office(), &[NODE]);
    let wanted = "\
LtpRowId  DisplayName    ContentCount  ContentUnreadCount  Subfolders  LtpRowVer
  0x8062  Deleted Items             0                   0  no                  1
  0x8082  Inbox                    11                   3  no                  2
  0x80a2  Sent Items                3                   0  no                  3
  0x80c2  Archive                   0                   0  yes                 4

4 rows, 13 columns; 7 without any value not shown
";
    let shown = (
        folders.status,
        folders.text.as_str(),
        folders.errors.as_str(),
    );
    assert_eq!(shown, (0, wanted, ""));
    let csv = run(&["table", "--csv"], &office(), &["0x808e"]).text;
    let lines: Vec<&str> = csv.split("\r\n").collect();
    assert_eq!((lines.len(), lines[12]), (13, ""));
    assert!(lines
        .iter()
        .take(12)
        .all(|line| line.split(',').count() == 28));
    assert!(lines[1].starts_with("0x200024,1,IPM.Note,,Minutes of Monday,2013-01-31T22:12:04"));
}

/// What JSON tells of any table is what was built.
fn holds(answer: &Value, placed: &PlacedTable) {
    let columns = answer["columns"].as_array().unwrap();
    let tags: Vec<_> = columns.iter().map(|column| &column["tag"]).collect();
    assert_eq!(
        tags,
        placed
            .columns
            .iter()
            .map(|column| column.tag)
            .collect::<Vec<_>>()
    );
    let rows = answer["rows"].as_array().unwrap();
    assert_eq!(rows.len(), placed.cells.len());
    for (told, built) in rows.iter().zip(&placed.cells) {
        let cells = told["cells"].as_array().unwrap();
        assert_eq!(cells.len(), built.len());
        for (told, built) in cells.iter().zip(built) {
            match *built {
                model::Cell::Number(number) => assert_eq!(told["number"], number.to_string()),
                model::Cell::Empty => assert_eq!(*told, json!({"empty": true})),
                model::Cell::Missing => assert_eq!(*told, json!({"missing": true})),
                model::Cell::Subnode(subnode) => assert_eq!(*told, json!({"subnode": subnode})),
                model::Cell::Item(item) => assert_eq!(told["item"], item),
            }
        }
    }
}

#[test]
fn any_table_is_told_whole_or_not_at_all() {
    let (mut told, mut left) = (0, 0);
    for seed in 0..60 {
        let placed = any_table(&mut Random::new(seed));
        let mut made = Made::new();
        made.node(0x802D, &placed.block);
        let path = file("table_any.pst", &made.image());
        let run = run(&["table", "--json"], &path, &[NODE]);
        match (run.status, placed.table.rows) {
            (4, model::Rows::Subnode(_)) => {
                assert_eq!(run.json().get("rows"), None);
                left += 1;
            }
            (0 | 1, _) => {
                holds(&run.json(), &placed);
                told += 1;
            }
            _ => panic!("{seed}: {}", run.text),
        }
    }
    assert!(told > 9 && left > 9, "{told} {left}");
}

/// Runs it in all three forms, and says that nothing comes before the message.
fn told(name: &str, image: &[u8], status: i32, words: &str) -> Run {
    let path = file(name, image);
    let answer = run(&["table", "--json"], &path, &[NODE]);
    assert_eq!(
        (answer.status, answer.errors.as_str()),
        (status, ""),
        "{}",
        answer.text
    );
    let csv = run(&["table", "--csv"], &path, &[NODE]);
    assert_eq!((csv.status, csv.text.as_str()), (status, ""));
    let run = run(&["table"], &path, &[NODE]);
    assert_eq!((run.status, run.text.as_str()), (status, ""));
    assert!(run.says(words) && csv.says(words), "{}", run.errors);
    run
}

#[test]
fn rows_in_a_subnode_are_not_covered() {
    let mut given = hierarchy(&[(0x8082, "Inbox")]);
    given.rows_place = RowsPlace::Subnode(0x3F);
    let words = "node 0x802d (hierarchy table) has its rows in subnode 0x3f: subnodes are not read";
    told("table_subnode.pst", &with_table(&given), 4, words);
}

#[test]
fn a_table_of_several_blocks_is_not_covered() {
    let block = bytes(&hierarchy(&[(0x8082, "Inbox")]));
    let mut made = Made::new();
    let data = made.tree(&[&block, b"more"]);
    made.list(0x802D, data);
    let words = "is a table of several blocks, which is not covered";
    let run = told("table_blocks.pst", &made.image(), 4, words);
    assert!(run.says("bytes in 2 blocks"), "{}", run.errors);
    let mut made = Made::new();
    let data = made.tree(&[&block]);
    made.list(0x802D, data);
    let path = file("table_one_block.pst", &made.image());
    assert_eq!(crate::runs::run(&["table"], &path, &[NODE]).status, 0);
}

#[test]
fn a_node_that_is_no_table_is_told_by_what_it_is() {
    let built = sound();
    let (node, _) = built.heaps.first_key_value().unwrap();
    let path = file("table_none.pst", &built.image);
    let plain = with_block(&built).node;
    for (node, words) in [
        (
            *node,
            "kind 0xbc does (properties, which the command `props` lists), and a table stands",
        ),
        (plain, "is no table: its data, "),
    ] {
        let run = run(&["table"], &path, &[&node.to_string()]);
        assert_eq!((run.status, run.text.as_str()), (4, ""));
        assert!(run.says(words), "{}", run.errors);
    }
    let absent = run(&["table"], &path, &["0x7777777"]);
    assert_eq!((absent.status, absent.text.as_str()), (3, ""));
    let mut made = Made::new();
    made.list(0x802D, 0);
    told(
        "table_empty.pst",
        &made.image(),
        4,
        "is no table: it has no data",
    );
}

/// The first row's id and name; `refused` is what each form shows of a cell that is refused.
#[test]
fn a_refused_cell_is_marked_and_the_rest_is_shown() {
    let given = table(
        &[NAME],
        &[
            (1, vec![text("kept")]),
            (2, vec![GivenCell::Subnode(0xFFE0)]),
        ],
    );
    let path = file("table_cell.pst", &with_table(&given));
    let text = run(&["table"], &path, &[NODE]);
    assert!(
        text.says("kept") && text.says("(refused: 19)"),
        "{}",
        text.text
    );
    assert!(
        text.says("(refusal 19)") && text.says("no sound table"),
        "{}",
        text.errors
    );
    let csv = run(&["table", "--csv"], &path, &[NODE]);
    assert!(csv.text.contains("0x2,(refused: 19),7\r\n"), "{}", csv.text);
    let json = run(&["table", "--json"], &path, &[NODE]);
    assert_eq!([text.status, csv.status, json.status], [1, 1, 1]);
    let answer = json.json();
    assert_eq!(answer["rows"][1]["cells"][0], json!({"refused": 19}));
    assert_eq!(answer["rows"][0]["cells"][0]["text"], "kept");
    assert_eq!(answer["refusals"].as_array().unwrap().len(), 1);
    assert_eq!(answer["refusals"][0]["number"], 19);
    assert_eq!(answer["refusals"][0]["node"], 0x802D);
}

#[test]
fn a_row_index_that_disagrees_is_told() {
    let mut given = hierarchy(&[(1, "a"), (2, "b"), (3, "c")]);
    given.row_index = [(1, 0), (2, 5)].into();
    let path = file("table_index.pst", &with_table(&given));
    let text = run(&["table"], &path, &[NODE]);
    assert_eq!(text.status, 0);
    let words =
        "the row index does not agree with 2 rows (rows counted from 0); the first is row 1, \
                 id 0x2: the index names row 5 for it";
    assert!(text.says(words), "{}", text.errors);
    let answer = run(&["table", "--json"], &path, &[NODE]).json();
    let indexed = [0, 1, 2].map(|row| answer["rows"][row]["indexed_row"].clone());
    assert_eq!(indexed, [json!(0), json!(5), Value::Null]);
    given.row_index = [(1, 0)].into();
    let path = file("table_index_less.pst", &with_table(&given));
    let text = run(&["table"], &path, &[NODE]);
    assert!(
        text.says("row 1, id 0x2: the index does not list it"),
        "{}",
        text.errors
    );
}

/// What the model refuses of all that `table` asks: the rows, their cells, and the row index for the ids
/// that stand in them.
fn refused_by_model(block: &[u8]) -> BTreeSet<u64> {
    let rows = match model::count_rows(block, &[]) {
        Ok(rows) => 0..rows as u32,
        Err(refusal) => return [refusal.number].into(),
    };
    let mut refused = BTreeSet::new();
    for row in rows {
        for column in (0..).map_while(|index| model::column(block, index).unwrap()) {
            let cell = model::cell(block, &[], row, column.tag);
            refused.extend(cell.err().map(|refusal| refusal.number));
            if let (ROW_ID, Ok(Some(model::Cell::Number(id)))) = (column.tag, cell) {
                let found = model::find_row(block, id as u32);
                refused.extend(found.err().map(|refusal| refusal.number));
            }
        }
    }
    refused
}

#[test]
fn every_damage_is_told_by_its_number() {
    let row = |at: u32| {
        let cells = vec![text("n"), GivenCell::Number(1)];
        (0x8022 + 0x20 * at, cells)
    };
    let mut given = table(&[NAME, FLAG], &(0..40).map(row).collect::<Vec<_>>());
    given.index_levels = 1;
    let placed = place_table(&mut Random::new(3), &given);
    let mut met = 0;
    for damage in TableDamage::all() {
        let spoilt = spoil_table(&placed, damage, Side::Refused, &mut Random::new(5));
        let Some(spoilt) = spoilt else { continue };
        let mut made = Made::new();
        made.node(0x802D, &spoilt.block);
        let path = file("table_damage.pst", &made.image());
        let run = run(&["table", "--json"], &path, &[NODE]);
        let answer = run.json();
        if run.status == 4 {
            // By its first bytes it is no table at all, or the damage is to rows that are not read.
            let message = answer["message"].as_str().unwrap();
            let told = ["is no table", "has its rows in subnode"];
            assert!(told.iter().any(|told| message.contains(told)), "{damage:?}");
            continue;
        }
        let refused = refused_by_model(&spoilt.block);
        let told = answer["refusals"].as_array().unwrap().iter();
        let told: BTreeSet<u64> = told.filter_map(|told| told["number"].as_u64()).collect();
        assert_eq!(told, refused, "{damage:?}: {answer}");
        assert_eq!(run.status, i32::from(!refused.is_empty()), "{damage:?}");
        met += refused.len();
    }
    assert!(met > 25, "{met}");
}

/// Of a table with any byte changed, or cut anywhere, it says what the model says.
#[test]
fn a_table_that_is_spoilt_anywhere_is_told_as_the_model_finds_it() {
    let shapes = Shapes::read();
    let (mut sound, mut refused) = (0, 0);
    for seed in 0..120 {
        let random = &mut Random::new(seed);
        let spoilt = spoil_anywhere(&place_table(random, &mixed()), random);
        let mut made = Made::new();
        made.node(0x802D, &spoilt.block);
        let path = file("table_anywhere.pst", &made.image());
        let run = run(&["table", "--json"], &path, &[NODE]);
        let answer = shapes.hold_run(&run);
        let by_model = refused_by_model(&spoilt.block);
        match (run.status, by_model.len()) {
            (4, _) => assert!(answer.get("rows").is_none(), "{answer}"),
            (0, 0) => sound += 1,
            (1, 1..) => refused += 1,
            _ => panic!("{seed}: {by_model:?}: {answer}"),
        }
    }
    assert!(sound > 20 && refused > 20, "{sound} {refused}");
}

#[test]
fn a_table_without_columns_or_rows_is_shown() {
    let run = shown("table_no_rows.pst", &hierarchy(&[]), &[]);
    let wanted = "DisplayName  ContentCount  ContentUnreadCount";
    assert!(
        run.text.starts_with("LtpRowId  ") && run.says(&wanted.replace("  ", " ")),
        "{}",
        run.text
    );
    assert!(
        run.text.ends_with("\n\n0 rows, 5 columns\n"),
        "{}",
        run.text
    );
    let mut none = hierarchy(&[]);
    none.layout.columns.clear();
    none.layout.ends = [0, 0, 0, 1];
    let run = shown("table_no_columns.pst", &none, &[]);
    assert_eq!(
        (run.status, run.text.as_str()),
        (0, "\n\n0 rows, 0 columns\n")
    );
    let csv = shown("table_no_rows_csv.pst", &hierarchy(&[]), &["--csv"]);
    let head = "LtpRowId,DisplayName,ContentCount,ContentUnreadCount,LtpRowVer\r\n";
    assert_eq!(csv.text, head);
    let ids = table(&[], &[(ROW_ID, vec![])]);
    assert_eq!(shown("table_ids.pst", &ids, &[]).status, 0);
}

#[test]
fn csv_and_json_are_not_asked_for_at_once() {
    for wrong in [
        &["table", "x", "1", "--csv", "--json"][..],
        &["--json", "table", "--csv", "x", "1"],
    ] {
        let run = words(wrong);
        assert_eq!((run.status, run.errors.as_str()), (2, ""));
        assert!(run.says("CSV or in JSON"), "{}", run.text);
    }
    assert_eq!(words(&["table", "x", "--csv"]).status, 2);
}
