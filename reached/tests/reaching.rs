//! A small project, made up for this: what is reached in it, and what is not.

use reached::reach::{reach, Reached};
use reached::repository::{Item, Repository};

const WORDS: &str = "crates/base/specs/Words.antt";
const LAWS: &str = "crates/base/specs/Laws.antt";
const CODE: &str = "crates/base/src/lib.rt";
const CALLS: &str = "crates/top/src/lib.rt";
const PROMISE: &str = "crates/top/specs/Promise.antt";

const WORDS_TEXT: &str = "\
-- Words.
use Rattle.std.specs.Prelude.{ℕ, ◌+◌}
use Rattle.base.specs.declared.Slot.{Slot}
use Rattle.base.specs.declared.Stage.TheVariants as Stage
use Rattle.base.specs.declared.Stage.TheVariants.{Free as Empty}

infixr 1 ◌or_else◌
-- one of two
abbrev pub ◌or_else◌ : ℕ → ℕ → ℕ
a or_else b = a

-- three lines
-- with their comment
unfoldable pub width : ℕ → ℕ
width n = n or_else 1

-- a label, a field and bound names mention nothing
abbrev pub made : (width : ℕ) → Slot
made width = record { size = width; stage = Stage.Full }

abbrev pub size : ℕ
size = 3

abbrev pub is_empty : Slot → ℕ
is_empty s = (λ size. size) s.size

pub data Kind : Type 0 where
  wide narrow : (size : ℕ) → Kind
  other : Sorted size → Kind

pub record Sorted (n : ℕ) : Type 0 where
  pub low : ℕ
  -- both
  pub equal : low ≡ bound n

pub bound : ℕ → Type 0
bound n = ℕ

unused : ℕ
unused = size
";

const LAWS_TEXT: &str = "\
use Rattle.base.specs.Words.{Kind, wide, narrow, width, size}

module _ (k : Kind) where
  -- a definition inside a block
  abbrev pub inside : ℕ → ℕ
  inside (narrow n) = n
  inside size = 0

  pub law : inside 0 ≡ 0
  law = width
    where
      width : inside 0 ≡ 0
      width = refl

abbrev pub cites : ℕ
cites = let law-of = law in law-of
";

const CODE_TEXT: &str = "\
// A slot.
pub struct Slot {
    pub size: usize,
    pub stage: Stage,
}

pub enum Stage {
    Free,
    Full,
}

// Nobody's.
pub struct Other {
    pub slot: Slot,
    pub bytes: [u8; WIDE],
}

pub const DEEP: usize = 4;

// Twice as wide.
pub const WIDE: usize = DEEP * 2;
";

const CALLS_TEXT: &str = "\
use base::{Slot, Stage as Step};
ghost use Rattle.base.specs.Words.{made, size, width};

// Called from outside.
pub fn make(size: usize) -> Slot
    requires none { size ≡ 0 }
    ensures value { result ≡ record { width = made size }.width }
    ensures* alone { made result ≡ made 0 }
{
    width(size)
}
";

const PROMISE_TEXT: &str = "\
use Rattle.base.specs.Words.{width}
pub promised : (n : ℕ) → width n ≡ n
promised n = proof
";

fn project() -> Repository {
    let texts = [
        (WORDS, WORDS_TEXT),
        (LAWS, LAWS_TEXT),
        (CODE, CODE_TEXT),
        (CALLS, CALLS_TEXT),
        (PROMISE, PROMISE_TEXT),
    ];
    let texts = texts.map(|(path, text)| (path.to_string(), text.to_string()));
    Repository::new(&texts).unwrap()
}

fn from(path: &str, name: &str) -> Reached {
    reach(&project(), &[Item::new(path, name)]).unwrap()
}

/// All that is reached from an entry, itself left out.
fn reached_from(path: &str, name: &str) -> Vec<String> {
    let start = Item::new(path, name);
    let items = from(path, name).items.into_keys();
    items
        .filter(|item| *item != start)
        .map(|item| item.name)
        .collect()
}

#[test]
fn an_operator_is_mentioned_by_its_words() {
    assert_eq!(reached_from(WORDS, "width"), ["◌or_else◌"]);
}

#[test]
fn bound_names_and_labels_are_no_mention() {
    assert_eq!(reached_from(WORDS, "made"), ["Slot", "Stage"]);
    assert_eq!(reached_from(WORDS, "is_empty"), ["Slot", "Stage"]);
}

#[test]
fn a_field_is_bound_behind_it_and_its_type_is_read() {
    assert_eq!(reached_from(WORDS, "Sorted"), ["bound"]);
}

#[test]
fn a_constructor_s_argument_is_bound_in_its_type_alone() {
    assert_eq!(reached_from(WORDS, "Kind"), ["Sorted", "bound", "size"]);
}

#[test]
fn a_block_s_parameters_are_read_and_a_pattern_s_constructor_too() {
    assert_eq!(
        reached_from(LAWS, "inside"),
        ["Kind", "Sorted", "bound", "size"]
    );
}

#[test]
fn a_law_that_a_definition_mentions_is_said_and_not_followed() {
    let reached = from(LAWS, "cites");
    let laws: Vec<_> = reached.laws.keys().map(|item| item.name.as_str()).collect();
    assert_eq!(laws, ["law"]);
    assert_eq!(reached.items.len(), 1);
}

#[test]
fn of_a_law_the_statement_is_read_and_not_the_proof() {
    assert_eq!(reached_from(PROMISE, "promised"), ["width", "◌or_else◌"]);
    assert_eq!(
        reached_from(LAWS, "law"),
        ["inside", "Kind", "Sorted", "bound", "size"]
    );
}

#[test]
fn of_code_the_contract_is_read_and_not_the_body() {
    let reached = reached_from(CALLS, "make()");
    assert_eq!(reached, ["made", "Slot", "Stage"]);
}

#[test]
fn of_a_declaration_the_types_and_constants_are_read() {
    let reached = reached_from(CODE, "Other");
    assert_eq!(reached, ["DEEP", "Slot", "Stage", "WIDE"]);
}

#[test]
fn lines_are_counted_with_the_comment_right_above() {
    let project = project();
    let lines = |path: &str, name: &str| {
        let entry = project.entry(&Item::new(path, name)).unwrap();
        entry.lines.iter().copied().collect::<Vec<_>>()
    };
    assert_eq!(lines(WORDS, "width"), [12, 13, 14, 15]);
    assert_eq!(lines(WORDS, "Sorted"), [31, 32, 33, 34]);
    assert_eq!(lines(WORDS, "bound"), [36, 37]);
    assert_eq!(lines(LAWS, "inside"), [3, 4, 5, 6, 7]);
    assert_eq!(lines(LAWS, "law"), [3, 9]);
    assert_eq!(lines(CODE, "Slot"), [1, 2, 3, 4, 5]);
    assert_eq!(lines(CODE, "WIDE"), [20, 21]);
    assert_eq!(lines(CALLS, "make()"), [4, 5, 6, 7, 8]);
}

#[test]
fn what_is_not_read_is_an_error() {
    let text = "f : ℕ → Type 0\nf n = elim n [ zero ↦ ℕ | suc m ↦ ℕ ]\n";
    let project = Repository::new(&[(WORDS.into(), text.into())]).unwrap();
    assert!(reach(&project, &[Item::new(WORDS, "f")]).is_err());
    let text = "use Rattle.base.specs.Words.{missing}\n";
    assert!(Repository::new(&[(WORDS.into(), text.into())]).is_err());
}
