//! What the prover says: who is at fault, and whether for a fact or only for a proof that no longer fits the code.

use std::collections::{BTreeMap, BTreeSet};
use trials::edit::Edit;
use trials::log::{verdict, Verdict, Why};
use trials::trial::outcome;

/// An answer with the number of another, and what reads its row.
const FACT: &str = "\
./proofs/row_of/Answers.antt:38:24: error: `returns-in-Full`: computed as far as they go, the two types are `Path Prim.Native.Nat.ℕ 17 18` (expected) and `Path Prim.Native.Nat.ℕ 17 17` (found)
  expected type `mathlib.Core.Path.◌≡◌ {A = Prim.Native.Nat.ℕ} 17 18`, but this has type `mathlib.Core.Path.◌≡◌ {A = Prim.Native.Nat.ℕ} 17 17`
  both types are shown computed, as a hole's goal is
./proofs/row_of/Answers.antt:37:5: note: `rw` rewrote the goal; its last argument is checked against what is left
./proofs/row_of/Answers.antt:41:1: error: 1 declaration that depends on `returns-in-Full`, which was rejected, was not checked: returns
fn answer::reason_row: proved
fn answer::row_of: not proved
fn answer::table::name_of: no proof: it calls `answer::row_of`, which is not proved
logic=not-proved
";

/// A function whose test has another number, of which its proof does not know.
const SHAPE: &str = "\
./proofs/risen/Answers.antt:8:39: error: `returns-then-count-lt2147483647`: `goal.returns-then-count-lt2147483647`: module `Rattle.answer.proofs.risen.Goals` has no `returns-then-count-lt2147483647` that can be named from here (names in it that begin alike: `returns`)
./proofs/risen/Answers.antt:14:29: error: `returns`: record `Rattle.answer.proofs.risen.Lts.Else1` has no field `if-count-lt2147483647` (nearest: .if-count-lt2147483648)
  the fields that can be named here are `before`, `if-count-lt2147483648`, `args`, `ranges`, `requires`
note: src/lib.rt:8:9: it is not proved that what the function ensures holds when it returns (`returns-then-count-lt2147483648`)
fn answer::risen: not proved
help: `Goals` has no `returns-then-count-lt2147483647`; rattle asks for `returns-then-count-lt2147483648`, `returns`
only=1 proved=0
";

/// Goals for which there was no need of a proof.
const OPEN: &str = "\
note: src/lib.rt:8:16: it is not proved that what `number` requires holds at this call (`number-requires`); `search` gave up at one of its limits
note: ./src/other.rt:8:16: it is not proved that the sum fits its type (`overflow_add-sum`)
fn answer::repetition_of: no proof: expected answers in ./proofs/repetition_of/Answers.antt; `search` did not prove `returns`
fn answer::at_other: not proved
fn answer::at_lib: not proved
only=3 proved=0
";

/// Theorems, among them one that another module cites.
const THEOREM: &str = "\
./specs/laws/Table.antt:37:58: error: `reason-table`: `omega`: the goal does not follow from what it read. All of that holds, and the goal fails
  `grind` with the same list may prove it: `other`: it is not in scope
./specs/laws/Table.antt:47:5: error: 4 declarations that depend on `reason-table`, which was rejected, were not checked: reason-from, name-short (via reason-from) and 2 more
./specs/Cites.antt:7:5: error: 1 declaration that depends on `never-retired`, which was not admitted, was not checked: rests-0
./specs/Cites.antt:9:5: error: `rests-1`: expected type `?0`, but this has type `Type 0`
./specs/laws/Sums.antt:9:5: error: `sums`: `never-retired` was not admitted (it has holes or undetermined implicits, or was rejected), so this cannot be checked
./proofs/Turns.antt:9:1: error: `turned`: expected type `a ≡ b`, but this has type `a ≡ c`
../other/specs/Over.antt:12:5: error: `elsewhere`: expected type `a ≡ b`, but this has type `a ≡ c`
logic=not-proved
";

/// Texts that can't be read.
const UNREAD: &str = "\
./specs/Table.antt:12:5: error: expected a field name, found qualified name `a.b`
./specs/Row.antt:12:5: error: `row`: `rowOf` is not in scope
./specs/Name.antt:12:5: error: `name`: the two types differ; `x` is not in scope here, so what is shown does not paste back
logic=not-proved
";

fn at_line(file: &str, line: usize) -> Option<String> {
    match (file, line) {
        ("src/lib.rt", 8) => Some("at_lib".into()),
        ("src/other.rt", 8) => Some("at_other".into()),
        _ => None,
    }
}

fn read(status: Option<i32>, log: &str) -> Verdict {
    verdict("answer", status, log, at_line)
}

fn faults(log: &str) -> Vec<(String, Why)> {
    match read(Some(1), log) {
        Verdict::Refused(faults) => faults.into_iter().collect(),
        other => panic!("{other:?}"),
    }
}

fn told(faults: &[(&str, Why)]) -> Vec<(String, Why)> {
    let owned = |(at, why): &(&str, Why)| (at.to_string(), *why);
    faults.iter().map(owned).collect()
}

fn marks(names: &[&str]) -> Option<BTreeSet<String>> {
    Some(names.iter().map(|name| name.to_string()).collect())
}

fn edit(at: Option<&str>) -> Edit {
    Edit {
        at: at.map(str::to_string),
        ..Edit::default()
    }
}

#[test]
fn what_cites_or_calls_is_not_at_fault() {
    let own = [
        ("returns-in-Full", Why::Rests),
        ("row_of", Why::Fact),
        ("table/name_of", Why::Rests),
    ];
    assert_eq!(faults(FACT), told(&own));
    let theorems = [
        ("name-short", Why::Rests),
        ("never-retired", Why::Rests),
        ("reason-from", Why::Rests),
        ("reason-table", Why::Fact),
        ("rests-0", Why::Rests),
        ("sums", Why::Rests),
        ("turned", Why::Fact),
    ];
    assert_eq!(faults(THEOREM), told(&theorems));
}

#[test]
fn a_goal_is_told_of_the_function_that_has_its_line() {
    let open = [
        ("at_lib", Why::Open),
        ("at_other", Why::Open),
        ("repetition_of", Why::Open),
    ];
    assert_eq!(faults(OPEN), told(&open));
}

#[test]
fn a_goal_that_is_false_is_a_fact_that_fails() {
    let allow = "; the facts known there allow values at which this goal is false";
    let log = OPEN.replace(
        "(`overflow_add-sum`)",
        &format!("(`overflow_add-sum`){allow}"),
    );
    assert!(faults(&log).contains(&("at_other".into(), Why::Fact)));
    assert!(faults(&log).contains(&("at_lib".into(), Why::Open)));
}

#[test]
fn a_proof_that_no_longer_fits_the_code_is_told_from_a_fact_that_fails() {
    let shape = [("at_lib", Why::Open), ("risen", Why::Shape)];
    assert_eq!(faults(SHAPE), told(&shape));
    let both = format!("{SHAPE}{}", FACT.replace("proofs/row_of/", "proofs/risen/"));
    assert!(faults(&both).contains(&("risen".into(), Why::Fact)));
    let unread = [
        ("name", Why::Fact),
        ("row", Why::Shape),
        ("specs/Table.antt", Why::Shape),
    ];
    assert_eq!(faults(UNREAD), told(&unread));
}

#[test]
fn the_verdict_is_the_last_word_and_the_status() {
    let proved = "fn answer::entry: proved\nlogic=proved functions=1\n";
    assert_eq!(read(Some(0), proved), Verdict::Proved);
    assert_eq!(read(Some(0), "only=1 proved=1\n"), Verdict::Proved);
    for status in [Some(1), Some(2), Some(3), None] {
        assert_eq!(read(status, proved), Verdict::Neither);
    }
    for status in [Some(0), Some(2), Some(3), None] {
        assert_eq!(read(status, FACT), Verdict::Neither);
    }
    assert_eq!(read(Some(1), "error[E0425]: nothing\n"), Verdict::Neither);
    let refused = Verdict::Refused(BTreeMap::new());
    assert_eq!(read(Some(1), "logic=not-proved\n"), refused);
    assert_eq!(read(Some(1), "only=1 proved=1\n"), refused);
}

#[test]
fn an_edit_is_refused_where_it_changes_something() {
    let fact = read(Some(1), FACT);
    for at in [&["row_of"][..], &["row_of", "risen"]] {
        assert_eq!(outcome(&edit(None), &marks(at), &fact), Ok("row_of".into()));
    }
    assert_eq!(outcome(&edit(None), &None, &fact), Ok("row_of".into()));
    assert!(outcome(&edit(None), &marks(&["table/name_of"]), &fact).is_err());
    assert!(outcome(&edit(None), &None, &Verdict::Proved).is_err());
    assert!(outcome(&edit(None), &None, &Verdict::Neither).is_err());
    let open = read(Some(1), OPEN);
    let at_open = outcome(&edit(None), &marks(&["at_lib"]), &open);
    assert_eq!(at_open, Ok("at_lib".into()));
}

#[test]
fn an_edit_is_refused_at_the_theorem_that_it_names() {
    let theorem = read(Some(1), THEOREM);
    for at in ["reason-table", "never-retired", "name-short"] {
        assert_eq!(outcome(&edit(Some(at)), &None, &theorem), Ok(at.into()));
    }
    assert!(outcome(&edit(Some("number-byte")), &None, &theorem).is_err());
    let at_fault = |at| outcome(&edit(Some(at)), &marks(&[at]), &theorem);
    assert_eq!(at_fault("reason-table"), Ok("reason-table".into()));
    assert!(at_fault("never-retired").is_err());
}

#[test]
fn a_refusal_only_for_shape_counts_as_none() {
    let shape = SHAPE.replace("src/lib.rt:8", "src/lib.rt:9");
    let shape = read(Some(1), &shape);
    for marks in [marks(&["risen"]), None] {
        let why = outcome(&edit(None), &marks, &shape).unwrap_err();
        assert!(
            why.contains("ONLY FOR ITS SHAPE: the proof of risen"),
            "{why}"
        );
    }
}
