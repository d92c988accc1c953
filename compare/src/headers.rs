//! The parameter reader and the matching of names against the independent program: document 01's
//! cases, the names of a published table, and many random, cut and spoilt headers.

use crate::proved;
use independent::answer::Answer;
use independent::header;
use independent::object::{Core, CORE_LENGTH};
use independent::random::headers::{any_header, name};
use independent::random::Random;
use std::collections::BTreeMap;

const SEED: u64 = 101_498;
const RANDOM_HEADERS: usize = 40_000;
/// Names asked of each header.
const ASKED: usize = 3;

/// The ContentNames of TS 101 498-1, table 3. Resolving a reference to a path is the asker's work.
const NAMES_OF_THE_TABLE: [&[u8]; 6] = [
    b"a/b/d.html",
    b"d/e/f.html",
    b"a/b/%d.html",
    b"a/A/$/l/f.jpg",
    b"p/s/t.html",
    b"l.html",
];

/// A header of these parameters.
fn header_of(list: &[u8]) -> Vec<u8> {
    let core = Core {
        body_size: 20,
        header_size: 7 + list.len(),
        content_type: 2,
        content_subtype: 1,
    };
    [&core.bytes()[..], list].concat()
}

fn named(name: &[u8]) -> Vec<u8> {
    let list = [&[0xCC, name.len() as u8 + 1, 0x40], name].concat();
    header_of(&list)
}

/// Document 01: Priority 5 and the name "a" read; a name that runs past the end gives HEADER.
fn cases_of_document_01() -> Result<usize, String> {
    let whole = header_of(&[0x4A, 0x05, 0xCC, 0x02, 0x40, 0x61]);
    let reading = proved::header(&whole).map_err(|answer| answer.name().to_string())?;
    let spoilt = proved::header(&header_of(&[0xCC, 0x05, 0x40, 0x61]));
    let cases = [
        reading.core.body_size == 20 && reading.core.header_size == 13,
        reading.core.content_type == 2 && reading.core.content_subtype == 1,
        reading.priority == Some(5),
        reading.name == Some(11..13),
        proved::has_name(&whole, b"a"),
        spoilt == Err(Answer::Header),
    ];
    match cases.iter().position(|right| !right) {
        None => Ok(cases.len()),
        Some(wrong) => Err(format!(
            "document 01, case {wrong}: {reading:?}, {spoilt:?}"
        )),
    }
}

/// Each path finds the object of that name only, with a leading slash or without it on either side,
/// and with the exact case of its letters.
fn names_of_the_table() -> Result<usize, String> {
    let with_and_without_slash = |name: &[u8]| [name.to_vec(), [b"/", name].concat()];
    let mut asked_for = 0;
    for name in NAMES_OF_THE_TABLE {
        for path in NAMES_OF_THE_TABLE {
            for written in with_and_without_slash(name) {
                for asked in with_and_without_slash(path) {
                    let upper = asked.to_ascii_uppercase();
                    let right = proved::has_name(&named(&written), &asked) == (name == path)
                        && !proved::has_name(&named(&written), &upper);
                    if !right {
                        return Err(format!("{asked:?} asked of {written:?}"));
                    }
                    asked_for += 2;
                }
            }
        }
    }
    Ok(asked_for)
}

/// How often each came up.
type Tally = BTreeMap<&'static str, usize>;

fn compare_header(random: &mut Random, tally: &mut Tally) -> Result<(), String> {
    let mut count = |what| *tally.entry(what).or_default() += 1;
    let bytes = any_header(random);
    let (ours, theirs) = (proved::header(&bytes), header::read(&bytes));
    if ours != theirs {
        return Err(format!("read as {ours:?}, not {theirs:?}: {bytes:02x?}"));
    }
    if bytes.len() == CORE_LENGTH {
        count("of 7 bytes");
    }
    match ours {
        Err(answer) => count(answer.name()),
        Ok(reading) => count(match (reading.name, reading.priority) {
            (Some(_), Some(_)) => "read with name and priority",
            (Some(_), None) => "read with name alone",
            (None, Some(_)) => "read with priority alone",
            (None, None) => "read with neither",
        }),
    }
    for _ in 0..ASKED {
        let asked = name(random);
        let (ours, theirs) = (
            proved::has_name(&bytes, &asked),
            header::has_name(&bytes, &asked),
        );
        if ours != theirs {
            return Err(format!(
                "has the name {ours}, not {theirs}: {asked:?} asked of {bytes:02x?}"
            ));
        }
        count(if ours { "named so" } else { "not named so" });
    }
    Ok(())
}

pub fn run() -> Result<String, String> {
    let cases = cases_of_document_01()?;
    let asked_for = names_of_the_table()?;
    let mut tally = Tally::new();
    let mut random = Random::from_seed(SEED);
    for _ in 0..RANDOM_HEADERS {
        compare_header(&mut random, &mut tally)?;
    }
    const EXPECTED: [&str; 9] = [
        "of 7 bytes",
        "HEADER",
        "DUPLICATE",
        "read with name and priority",
        "read with name alone",
        "read with priority alone",
        "read with neither",
        "named so",
        "not named so",
    ];
    // Where an outcome is rare, agreeing on it says little.
    let often = |what: &&str| {
        tally
            .get(*what)
            .is_some_and(|times| times * 100 > RANDOM_HEADERS)
    };
    if !EXPECTED.iter().all(often) {
        return Err(format!("an outcome is rare: {tally:?}"));
    }
    Ok(format!(
        "{cases} cases of document 01, {asked_for} questions about the names of a table, \
         {RANDOM_HEADERS} headers compared {tally:?}"
    ))
}
