//! The check word, the group reader and the place of an end user address against the independent
//! program: published check words, one group for each place in document 01's order, some for each
//! place of an address, and many random groups.

use crate::proved;
use independent::check_word;
use independent::group::{self, with_check, Reading, Refusal};
use independent::random::groups;
use std::collections::BTreeMap;
use yovtirak::lent;

const SEED: u64 = 300_401;
const RANDOM_GROUPS: usize = 20_000;

/// Check words of this polynomial that others have published: the catalogue of parametrised CRC
/// algorithms under CRC-16/GENIBUS, and EPCglobal Class-1 Generation-2, the example of a tag's
/// memory.
fn published() -> Vec<(Vec<u8>, u16)> {
    let mut words = vec![(b"123456789".to_vec(), 0xD64E)];
    let code = [
        0x11, 0x11, 0x22, 0x22, 0x33, 0x33, 0x44, 0x44, 0x55, 0x55, 0x66, 0x66,
    ];
    let stored = [0xE2F0, 0xCCAE, 0x968F, 0x78F6, 0xC241, 0x2A91, 0x1835];
    for (length, word) in stored.into_iter().enumerate() {
        let mut memory = vec![length as u8 * 8, 0];
        memory.extend(&code[..length * 2]);
        words.push((memory, word));
    }
    words
}

/// One group for each place in the order of the reading checks, with the refusal that document 01
/// gives there. Written out by hand from document 01.
fn places() -> Vec<(&'static str, Vec<u8>, Refusal)> {
    let checked = |bytes: &[u8]| with_check(bytes.to_vec());
    let mut spoilt = checked(&[0x73, 0x00]);
    spoilt[1] = 0x01;
    vec![
        ("no bytes", vec![], Refusal::Length),
        ("one byte", vec![0x40], Refusal::Length),
        ("8,216 bytes", vec![0; 8_216], Refusal::Length),
        ("CRC flag 0", vec![0x33, 0x00], Refusal::NoCheck),
        (
            "CRC flag 1 in 3 bytes",
            vec![0x73, 0x00, 0x00],
            Refusal::Length,
        ),
        ("check word differs", spoilt, Refusal::BadCheck),
        ("type 5", checked(&[0x75, 0x00]), Refusal::Kind),
        ("segment flag 0", checked(&[0x53, 0x00]), Refusal::NoSegment),
        (
            "user access flag 0",
            checked(&[0x63, 0x00, 0x80, 0x00]),
            Refusal::NoSegment,
        ),
        (
            "no user access byte",
            checked(&[0x73, 0x00, 0x80, 0x00]),
            Refusal::Length,
        ),
        (
            "transport flag 0",
            checked(&[0x73, 0x00, 0x80, 0x00, 0x02]),
            Refusal::Address,
        ),
        (
            "indicator 1",
            checked(&[0x73, 0x00, 0x80, 0x00, 0x11]),
            Refusal::Address,
        ),
        (
            "no segmentation header",
            checked(&[0x73, 0x00, 0x80, 0x00, 0x12, 0x00, 0x05, 0x00]),
            Refusal::Length,
        ),
        (
            "size field 0 in a header",
            checked(&[0x73, 0x00, 0x80, 0x00, 0x12, 0x00, 0x05, 0x00, 0x00]),
            Refusal::Size,
        ),
        (
            "size field 0 and not last",
            checked(&[0x74, 0x00, 0x00, 0x00, 0x12, 0x00, 0x05, 0x00, 0x00]),
            Refusal::Size,
        ),
        (
            "size field 0 in number 1",
            checked(&[0x74, 0x00, 0x80, 0x01, 0x12, 0x00, 0x05, 0x00, 0x00]),
            Refusal::Size,
        ),
        (
            "size field 0 with 1 byte left",
            checked(&[0x74, 0x00, 0x80, 0x00, 0x12, 0x00, 0x05, 0x00, 0x00, 0x61]),
            Refusal::Size,
        ),
        (
            "size field 2 with 1 byte left",
            checked(&[0x73, 0x00, 0x80, 0x00, 0x12, 0x00, 0x05, 0x00, 0x02, 0x61]),
            Refusal::Size,
        ),
        (
            "1 byte and not last",
            checked(&[0x73, 0x00, 0x00, 0x00, 0x12, 0x00, 0x05, 0x00, 0x01, 0x61]),
            Refusal::Size,
        ),
    ]
}

/// A group that reads, with what it must be read to say.
struct Said {
    what: &'static str,
    group: Vec<u8>,
    /// The repetition index, the continuity index and the repetition count.
    numbers: [u8; 3],
    address_start: usize,
    address: &'static [u8],
}

/// Groups with an end user address and without. Written out by hand from documents 01 and 02.
fn addresses() -> Vec<Said> {
    let said = |what, unchecked: &[u8], numbers, address_start, address| Said {
        what,
        group: with_check(unchecked.to_vec()),
        numbers,
        address_start,
        address,
    };
    vec![
        said(
            "indicator 2",
            &[0x74, 0x3A, 0x80, 0x01, 0x12, 0x00, 0x05, 0x20, 0x01, 0x61],
            [10, 3, 1],
            7,
            &[],
        ),
        said(
            "indicator 2 after an extension field",
            &[
                0xF3, 0xF0, 0xAA, 0xBB, 0x80, 0x01, 0x12, 0x00, 0x05, 0xE0, 0x01, 0x61,
            ],
            [0, 15, 7],
            9,
            &[],
        ),
        said(
            "an address of 1 byte",
            &[
                0x73, 0x0F, 0x80, 0x01, 0x13, 0x00, 0x05, 0xC1, 0x80, 0x01, 0x61,
            ],
            [15, 0, 4],
            7,
            &[0xC1],
        ),
        said(
            "an address of 3 bytes after an extension field",
            &[
                0xF4, 0x12, 0xAA, 0xBB, 0x80, 0x01, 0x15, 0x00, 0x05, 0xC1, 0xC2, 0xC3, 0x40, 0x01,
                0x61,
            ],
            [2, 1, 2],
            9,
            &[0xC1, 0xC2, 0xC3],
        ),
        said(
            "an address of 13 bytes, the spare bits 1",
            &[
                0x74, 0x87, 0x80, 0x01, 0xFF, 0x00, 0x05, 1, 2, 3, 4, 5, 6, 7, 8, 9, 10, 11, 12,
                13, 0x60, 0x01, 0x61,
            ],
            [7, 8, 3],
            7,
            &[1, 2, 3, 4, 5, 6, 7, 8, 9, 10, 11, 12, 13],
        ),
        said(
            "an address of 13 bytes after an extension field",
            &[
                0xF4, 0x00, 0xAA, 0xBB, 0x80, 0x01, 0x1F, 0x00, 0x05, 1, 2, 3, 4, 5, 6, 7, 8, 9,
                10, 11, 12, 13, 0x00, 0x01, 0x61,
            ],
            [0, 0, 0],
            9,
            &[1, 2, 3, 4, 5, 6, 7, 8, 9, 10, 11, 12, 13],
        ),
        said(
            "an address in a group of the empty segment",
            &[
                0x74, 0x21, 0x80, 0x00, 0x14, 0x00, 0x05, 0xC1, 0xC2, 0xA0, 0x00,
            ],
            [1, 2, 5],
            7,
            &[0xC1, 0xC2],
        ),
    ]
}

/// A body without bytes: number 0, last, size field 0 (document 02, Item 2).
const EMPTY: &str = "read as empty";

/// How often each came up, by its name.
type Tally = BTreeMap<&'static str, usize>;

/// What groups that read have, as the tally counts it.
const AROUND: [&str; 4] = [
    "with an end user address",
    "with an extension field",
    "with unequal indices",
    "with a repetition count",
];

/// The word of an address's place, and the address that the wrapper hands back.
fn compare_address(bytes: &[u8], theirs: Reading) -> Result<(), String> {
    let (ours, right) = (lent::address(bytes), address_word(theirs));
    if ours != right {
        return Err(format!("address {ours:x}, not {right:x}, of {bytes:02x?}"));
    }
    let ours = yovtirak::end_user_address(bytes).map_err(|answer| answer.number());
    let right = match theirs {
        Ok(segment) => Ok(segment.address(bytes)),
        Err(refusal) => Err(refusal.answer().number()),
    };
    if ours != right {
        return Err(format!("address {ours:?}, not {right:?}, of {bytes:02x?}"));
    }
    Ok(())
}

/// The word that tells a place: 0, the start and the length; or a refusal's number alone.
fn address_word(reading: Reading) -> u64 {
    match reading {
        Ok(segment) => (segment.address_start << 16 | segment.address_length << 32) as u64,
        Err(refusal) => u64::from(refusal.answer().number()),
    }
}

fn compare_said(said: &Said) -> Result<(), String> {
    let ours = proved::reading(&said.group);
    let Ok(segment) = ours else {
        return Err(format!("{}: {ours:?}", said.what));
    };
    let repetition = segment.repetition;
    let numbers = [repetition.index, repetition.continuity, repetition.count];
    let place = (segment.address_start, segment.address_length);
    if numbers != said.numbers || place != (said.address_start, said.address.len()) {
        return Err(format!("{}: {segment:?}", said.what));
    }
    let word = (said.address_start << 16 | said.address.len() << 32) as u64;
    if lent::address(&said.group) != word
        || yovtirak::end_user_address(&said.group) != Ok(said.address)
    {
        return Err(format!("{}: another address", said.what));
    }
    Ok(())
}

/// Counts what stands around the segment of a group that reads.
fn count_around(theirs: Reading, around: &mut Tally) {
    let Ok(segment) = theirs else { return };
    let repetition = segment.repetition;
    let has = [
        segment.address_length > 0,
        segment.address_start == 9,
        repetition.index != repetition.continuity,
        repetition.count > 0,
    ];
    for (name, has) in AROUND.into_iter().zip(has) {
        *around.entry(name).or_default() += usize::from(has);
    }
}

fn compare_reading(bytes: &[u8], tally: &mut Tally) -> Result<(), String> {
    let (ours, theirs) = (proved::check_word(bytes), check_word::of(bytes));
    if ours != theirs {
        return Err(format!(
            "check word {ours:04x}, not {theirs:04x}, of {bytes:02x?}"
        ));
    }
    let (ours, theirs) = (proved::reading(bytes), group::read(bytes));
    if ours != theirs {
        return Err(format!("read as {ours:?}, not {theirs:?}: {bytes:02x?}"));
    }
    compare_address(bytes, theirs)?;
    let name = match ours {
        Ok(segment) if segment.length == 0 => EMPTY,
        Ok(_) => "read",
        Err(refusal) => refusal.answer().name(),
    };
    *tally.entry(name).or_default() += 1;
    Ok(())
}

pub fn run() -> Result<String, String> {
    let published = published();
    for (bytes, word) in &published {
        let ours = proved::check_word(bytes);
        if ours != *word {
            return Err(format!(
                "check word {ours:04x}, published {word:04x}, of {bytes:02x?}"
            ));
        }
    }
    let places = places();
    for (place, bytes, refusal) in &places {
        let ours = proved::reading(bytes);
        if ours != Err(*refusal) {
            return Err(format!("{place}: {ours:?}, not {refusal:?}"));
        }
        compare_address(bytes, Err(*refusal)).map_err(|said| format!("{place}: {said}"))?;
    }
    let addresses = addresses();
    for said in &addresses {
        compare_said(said)?;
    }
    let (mut tally, mut around) = (Tally::new(), Tally::new());
    for bytes in groups::all(SEED, RANDOM_GROUPS) {
        compare_reading(&bytes, &mut tally)?;
        count_around(group::read(&bytes), &mut around);
    }
    if AROUND.iter().any(|name| around.get(name) < Some(&5_000)) {
        return Err(format!("rare: {around:?}"));
    }
    let compared: usize = tally.values().sum();
    let missing: Vec<_> = Refusal::ALL
        .into_iter()
        .map(|refusal| refusal.answer().name())
        .filter(|name| !tally.contains_key(name))
        .collect();
    if !missing.is_empty() || !tally.contains_key("read") || tally.get(EMPTY) < Some(&500) {
        return Err(format!("never given: {missing:?}; given: {tally:?}"));
    }
    Ok(format!(
        "{} published check words, {} places in the order of checks, {} of end user addresses, {compared} groups \
         compared {tally:?}, of those that read {around:?}",
        published.len(),
        places.len(),
        addresses.len(),
    ))
}
