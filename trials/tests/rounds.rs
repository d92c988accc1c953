//! Edits of different bodies, or of different theorems, share a round; what can't be told is tried alone.

use std::collections::BTreeSet;
use trials::copies::Scope;
use trials::edit::Edit;
use trials::rounds::{marks, rounds, Marks, Texts};
use trials::trial::scopes;

const CODE: &str = "\
// MOST of all
pub const MOST: u8 = 9;
const MORE: u8 =
    MOST + 1;
pub const WIDTH: usize = 2;
pub const MOSTLY: u8 = 1;

pub struct Row {
    cells: [u8; WIDTH],
}

fn first(a: u8) -> u8
    requires { a ≤ 7 }
{
    a + 1
}

fn second(a: u8) -> u8 {
    a + 2
}

fn third() -> u8 {
    MORE
}

fn fourth() -> u8 {
    MOST
}
";

const SPECS: &str = "\
inner : ℕ
inner = 0
pub small : 1 < 2
small = omega arith
pub large : 2 < 3
large = omega arith
";

fn texts() -> Texts {
    let texts = [("src/lib.rt", CODE), ("specs/A.antt", SPECS)];
    let owned = |(file, text): (&str, &str)| (file.to_string(), text.to_string());
    texts.into_iter().map(owned).collect()
}

fn changed(text_of_edit: &str) -> Result<Option<Marks>, String> {
    marks(&Edit::read("name", text_of_edit)?, &texts())
}

fn set(names: &[&str]) -> Option<Marks> {
    Some(
        names
            .iter()
            .map(|name| name.to_string())
            .collect::<BTreeSet<_>>(),
    )
}

#[test]
fn what_an_edit_changes_is_told_by_where_its_texts_stand() {
    let body = "file: src/lib.rt\nold: a + 1\nnew: a\n";
    assert_eq!(changed(body), Ok(set(&["first"])));
    let two = format!("{body}in: second\nold: a + 2\nnew: a\n");
    assert_eq!(changed(&two), Ok(set(&["first", "second"])));
    let constant = "file: src/lib.rt\nold: = 9\nnew: = 8\n";
    assert_eq!(changed(constant), Ok(set(&["third", "fourth"])));
    let theorem = "at: small\nfile: specs/A.antt\nold: 1 < 2\nnew: 2 < 1\n";
    assert_eq!(changed(theorem), Ok(set(&["small"])));
}

#[test]
fn where_it_cannot_be_told_nothing_is() {
    for edit in [
        "file: src/lib.rt\nold: usize = 2\nnew: usize = 3\n",
        "file: src/lib.rt\nold: a ≤ 7\nnew: a ≤ 8\n",
        "file: src/lib.rt\nold: a + 1\nnew: a\nold: = 2\nnew: = 8\n",
        "file: specs/A.antt\nold: 1 < 2\nnew: 2 < 1\n",
        "at: large\nfile: specs/A.antt\nold: 1 < 2\nnew: 2 < 1\n",
    ] {
        assert_eq!(changed(edit), Ok(None), "{edit}");
    }
    assert!(changed("file: src/lib.rt\nold: a + 3\nnew: a\n").is_err());
    assert!(changed("file: src/none.rt\nold: a\nnew: b\n").is_err());
}

#[test]
fn no_two_edits_of_a_round_change_the_same() {
    let edits = vec![
        ("a", set(&["f"])),
        ("b", set(&["f"])),
        ("c", None),
        ("d", set(&["g"])),
        ("e", set(&["f", "h"])),
        ("i", set(&["g", "h"])),
    ];
    assert_eq!(
        rounds(edits),
        [vec!["a", "d"], vec!["b", "i"], vec!["e"], vec!["c"]]
    );
    assert!(rounds::<&str>(Vec::new()).is_empty());
}

/// What is checked for edits that are tried together.
fn checked(texts_of_edits: &[&str]) -> Vec<Scope> {
    let read = |text: &&str| Edit::read("name", text).unwrap();
    let edits: Vec<_> = texts_of_edits.iter().map(read).collect();
    let marked = |edit| (edit, marks(edit, &texts()).unwrap());
    scopes(&texts(), &edits.iter().map(marked).collect::<Vec<_>>())
}

fn of_specs(name: &str) -> BTreeSet<(String, String)> {
    BTreeSet::from([("specs.A".to_string(), name.to_string())])
}

#[test]
fn only_that_is_checked_which_an_edit_changes() {
    let first = "file: src/lib.rt\nold: a + 1\nnew: a\n";
    let second = "file: src/lib.rt\nold: a + 2\nnew: a\n";
    let functions = set(&["first", "second"]).unwrap();
    assert_eq!(checked(&[first, second]), [Scope::Functions(functions)]);
    let theorem = "file: specs/A.antt\nold: 1 < 2\nnew: 2 < 1\n";
    let large = of_specs("large");
    let at_large = format!("at: large\n{theorem}");
    assert_eq!(checked(&[&at_large]), [Scope::Theorems(large)]);
    let at_inner = format!("at: inner\n{theorem}");
    let small = of_specs("small");
    assert_eq!(checked(&[&at_inner]), [Scope::Theorems(small.clone())]);
    assert_eq!(checked(&[theorem]), [Scope::Modules(small), Scope::Whole]);
    let both = format!("{first}{theorem}");
    let at_none = format!("at: none\n{theorem}");
    let contract = "file: src/lib.rt\nold: a ≤ 7\nnew: a ≤ 8\n";
    for edit in [both.as_str(), &at_none, contract] {
        assert_eq!(checked(&[edit]), [Scope::Whole], "{edit}");
    }
}
