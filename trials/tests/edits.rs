//! An edit is read off its file, and its old text must stand exactly once where it says.

use trials::edit::{applied, renamed, Change, Edit};
use trials::source::{definitions, function_of_proof, functions, proof_folders};

const CODE: &str = "\
// A comment on fn nothing() {
pub fn first(a: u8) -> u8
    ensures { result ≡ a }
{
    if a == 0 {
        return 0;
    }
    a
}

impl Pair {
    fn second(self) -> u8 {
        return 0;
    }
}
";

const SPECS: &str = "\
use lib.Dec.{leb}

-- a comment
abbrev pub least : ℕ → ℕ
unfolding most
least zero = 0
least (suc n) =
    go n
  where
    go : ℕ → ℕ
    go n = 0

module _ (n : ℕ) where
  pub inner : ℕ
  inner = 0

pub most : ℕ
most = 0
";

fn change(file: &str, within: Option<&str>, old: &str) -> Change {
    Change {
        file: file.into(),
        within: within.map(str::to_string),
        old: old.into(),
        new: "changed".into(),
    }
}

#[test]
fn an_edit_is_read() {
    let text = "# why\nat: law\nnamed: a-b b-a\nfile: src/lib.rt\nin: first\nold:     a\nnew: \nfile: specs/A.antt\nold: b: c\nnew: d";
    let edit = Edit::read("name", text).unwrap();
    assert_eq!(
        (edit.name.as_str(), edit.at.as_deref()),
        ("name", Some("law"))
    );
    assert_eq!(edit.names, [("a-b".to_string(), "b-a".to_string())]);
    let [one, other] = &edit.changes[..] else {
        panic!("{:?}", edit.changes)
    };
    assert_eq!(one.within.as_deref(), Some("first"));
    assert_eq!((one.old.as_str(), one.new.as_str()), ("    a", ""));
    assert_eq!(
        (other.file.as_str(), &other.within),
        ("specs/A.antt", &None)
    );
    assert_eq!((other.old.as_str(), other.new.as_str()), ("b: c", "d"));
}

#[test]
fn an_edit_that_is_not_whole_is_refused() {
    for text in [
        "",
        "# why\nfile: src/lib.rt\n",
        "file: src/lib.rt\nold: a\n",
        "file: src/lib.rt\nnew: a\n",
        "old: a\nnew: b\n",
        "file: src/lib.rt\nold: a\nold: b\nnew: c\n",
        "file: src/lib.rt\nwhere: f\nold: a\nnew: b\n",
        "named: a\nfile: src/lib.rt\nold: a\nnew: b\n",
    ] {
        assert!(Edit::read("name", text).is_err(), "{text}");
    }
}

#[test]
fn the_old_text_stands_exactly_once() {
    let made = |within, old| applied(CODE, &[&change("src/lib.rt", within, old)]);
    assert_eq!(
        made(None, "a == 0").unwrap(),
        CODE.replace("a == 0", "changed")
    );
    assert!(made(None, "a == 1").unwrap_err().contains("is not in"));
    assert!(made(None, "").unwrap_err().contains("is not in"));
    assert!(made(None, "return 0;")
        .unwrap_err()
        .contains("more than once"));
}

#[test]
fn in_a_function_it_stands_there_exactly_once() {
    let made = |within, old| applied(CODE, &[&change("src/lib.rt", Some(within), old)]);
    let (before, after) = CODE.rsplit_once("return 0;").unwrap();
    assert_eq!(
        made("second", "return 0;").unwrap(),
        format!("{before}changed{after}")
    );
    assert_eq!(
        made("first", "return 0;").unwrap(),
        CODE.replacen("return 0;", "changed", 1)
    );
    assert_eq!(made("Pair/second", "self"), made("second", "self"));
    assert!(made("second", "a == 0").is_err());
    assert!(made("first", "a").unwrap_err().contains("more than once"));
    assert!(made("third", "a").unwrap_err().contains("has no third"));
}

#[test]
fn in_a_definition_it_stands_there_exactly_once() {
    let made = |within, old| applied(SPECS, &[&change("specs/A.antt", Some(within), old)]);
    assert_eq!(
        made("most", "= 0").unwrap(),
        SPECS.replace("most = 0", "most changed")
    );
    assert_eq!(
        made("inner", "= 0").unwrap(),
        SPECS.replace("inner = 0", "inner changed")
    );
    assert_eq!(
        made("least", "go n = 0").unwrap(),
        SPECS.replace("go n = 0", "changed")
    );
    assert!(made("least", "= 0").is_err());
}

#[test]
fn the_items_of_a_file_are_known_by_its_layout() {
    let names = |items: Vec<trials::source::Item>| -> Vec<String> {
        items.into_iter().map(|item| item.path).collect()
    };
    assert_eq!(
        names(functions("src/lib.rt", CODE)),
        ["first", "Pair/second"]
    );
    assert_eq!(
        names(functions("src/inner.rt", CODE)),
        ["inner/first", "inner/Pair/second"]
    );
    assert_eq!(names(definitions(SPECS)), ["least", "inner", "most"]);
    let [first, second] = &functions("src/lib.rt", CODE)[..] else {
        panic!()
    };
    assert!(CODE[first.body.clone()].starts_with("\n    if a == 0"));
    assert!(CODE[second.body.clone()].starts_with("\n        return 0;"));
}

#[test]
fn edits_of_one_copy_are_made_as_if_each_were_the_only_one() {
    let one = change("src/lib.rt", Some("first"), "return 0;");
    let mut other = change("src/lib.rt", None, "(a: u8)");
    other.new = "(b: u8, return 0;)".into();
    let made = applied(CODE, &[&one, &other]).unwrap();
    assert_eq!(made, applied(CODE, &[&other, &one]).unwrap());
    let right = CODE
        .replacen("return 0;", "changed", 1)
        .replace("(a: u8)", "(b: u8, return 0;)");
    assert_eq!(made, right);
    let across = change("src/lib.rt", None, "a: u8) -> u8");
    assert!(applied(CODE, &[&other, &across])
        .unwrap_err()
        .contains("overlap"));
}

#[test]
fn parts_of_names_are_changed_where_they_stand_whole() {
    let names = [("a-b".to_string(), "b-a".to_string())];
    let proof = "then-a-b c = f (c.if-a-b.true, a-b-i, c.if-a-b₀, a-bc, ba-b, a'-b, x)\n";
    let changed = "then-b-a c = f (c.if-b-a.true, b-a-i, c.if-a-b₀, a-bc, ba-b, a'-b, x)\n";
    assert_eq!(renamed(proof, &names), changed);
    assert_eq!(renamed(proof, &[]), proof);
    assert_eq!(renamed("- a-b -", &names), "- b-a -");
}

#[test]
fn a_method_is_named_by_its_type() {
    let lines = ["impl Pair {", "impl Pair<'_> {", "impl<'a> Pair<'a, '_> {"];
    for line in lines {
        let text = CODE.replace("impl Pair {", line);
        let paths: Vec<String> = functions("src/lib.rt", &text)
            .into_iter()
            .map(|item| item.path)
            .collect();
        assert_eq!(paths, ["first", "Pair/second"]);
    }
}

#[test]
fn the_proof_of_a_function_that_calls_itself_is_found_too() {
    let folders = proof_folders("Pair/second");
    assert_eq!(folders, ["proofs/Pair/second", "proofs/Pair/+second"]);
    assert_eq!(proof_folders("first"), ["proofs/first", "proofs/+first"]);
    for function in ["first", "Pair/second"] {
        for folder in proof_folders(function) {
            assert_eq!(function_of_proof(&folder).as_deref(), Some(function));
        }
    }
    assert_eq!(function_of_proof("specs/laws"), None);
}

#[test]
fn tests_are_no_functions_of_the_code() {
    let text =
        format!("{CODE}\n#[cfg(test)]\nmod tests {{\n    #[test]\n    fn third() {{\n    }}\n}}\n");
    assert_eq!(
        functions("src/lib.rt", &text),
        functions("src/lib.rt", CODE)
    );
}
