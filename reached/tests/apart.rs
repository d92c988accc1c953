//! Definitions and laws that stand apart, and some that do not.

use reached::apart::{brought_in, faults};
use reached::reach::reach;
use reached::repository::{Item, Repository};

const SIZES: &str = "crates/one/specs/Sizes.antt";
const LAWS: &str = "crates/one/specs/laws/Sizes.antt";

fn project(sizes: &str, laws: &str) -> Repository {
    Repository::new(&[(SIZES.into(), sizes.into()), (LAWS.into(), laws.into())]).unwrap()
}

fn told(project: &Repository, name: &str) -> Vec<String> {
    let reached = reach(project, &[Item::new(SIZES, name)]).unwrap();
    faults(project, &reached)
}

const DEFINED: &str = "abbrev pub least : ℕ\nleast = 16\n";
const PROVED: &str =
    "use Rattle.one.specs.Sizes.{least}\n\npub least-is : least ≡ 16\nleast-is = refl\n";

#[test]
fn definitions_and_laws_stand_apart() {
    let project = project(DEFINED, PROVED);
    assert!(told(&project, "least").is_empty());
    assert_eq!(brought_in(&project, SIZES).len(), 1);
    assert_eq!(brought_in(&project, LAWS).len(), 2);
}

#[test]
fn a_law_among_definitions_is_told() {
    let both = format!("{DEFINED}\npub least-is : least ≡ 16\nleast-is = refl\n");
    let told = told(&project(&both, ""), "least");
    assert_eq!(told, [format!("{SIZES} has the law `least-is`")]);
}

#[test]
fn a_definition_among_laws_is_told_with_the_file_that_brings_it_in() {
    let sizes =
        "use Rattle.one.specs.laws.Sizes.{twice}\n\nabbrev pub least : ℕ\nleast = twice 8\n";
    let laws = "abbrev pub twice : ℕ → ℕ\ntwice n = n + n\n";
    let told = told(&project(sizes, laws), "least");
    assert_eq!(
        told,
        [
            format!("{SIZES} brings in {LAWS}"),
            format!("{LAWS} has the definition `twice`"),
        ]
    );
}
