//! The table in a document: where it differs from what is counted, that is said, and words stay.

use reached::table::{Counted, Table, END, START};

fn table() -> Table {
    let row = |definitions, lines| Counted { definitions, lines };
    Table {
        rows: vec![("a/One".into(), row(2, 10)), ("b/Two".into(), row(1, 5))],
        words: row(1, 4),
        files: row(3, 20),
    }
}

fn document(rows: &str) -> String {
    format!("before\n\n{START}\n\n{rows}\n\n{END}\n\nafter\n")
}

const RIGHT: &str = "\
| File | What it says | Definitions | Lines |
|---|---|---|---|
| `a/One` | the first | 2 | 10 |
| `b/Two` | the other | 1 | 5 |
| *all* | | 3 | 15 |
| *the promises* | theirs | 1 | 4 |
| *their files* | where they stand | 3 | 20 |";

#[test]
fn a_table_that_is_right_passes() {
    let right = document(&RIGHT.replace("| *all* | |", "| *all* | both |"));
    assert!(table().differences(&right).unwrap().is_empty());
    assert_eq!(table().written(&right).unwrap(), right);
}

#[test]
fn a_number_a_row_or_a_place_that_is_wrong_is_said() {
    let right = RIGHT.replace("| *all* | |", "| *all* | both |");
    let wrong = [
        right.replace("| 2 | 10 |", "| 2 | 11 |"),
        right.replace("| `b/Two` | the other | 1 | 5 |\n", ""),
        right.replace("| `b/Two` ", "| `c/Three` | gone | 1 | 5 |\n| `b/Two` "),
        right.replace("| *all* | both | 3 ", "| *all* | both | 4 "),
    ];
    for rows in wrong {
        let differ = table().differences(&document(&rows)).unwrap();
        assert!(!differ.is_empty(), "{rows}");
        let mended = table().written(&document(&rows)).unwrap();
        let left = table().differences(&mended).unwrap();
        assert!(
            left.iter().all(|line| line.ends_with("is not said")),
            "{left:?}"
        );
    }
}

#[test]
fn a_row_without_words_is_said() {
    let new = document("");
    let written = table().written(&new).unwrap();
    assert!(written.contains("| `a/One` | ? | 2 | 10 |"));
    assert_eq!(table().differences(&written).unwrap().len(), 5);
    assert!(table().differences("no table").is_err());
}
