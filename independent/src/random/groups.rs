//! Groups to compare two readers on: valid, cut short, with bits turned over, of random bytes,
//! with one field wrong, of every length, without bytes where they may be and where they may not,
//! all that is no part of the segment random throughout.

use super::Random;
use crate::group::{with_check, Fields, Part, Repetition, SegmentField, LONGEST_SEGMENT};

/// Bytes of the longest end user address.
const LONGEST_ADDRESS: usize = 13;

/// The lengths that are covered whatever the count: some bytes past the longest group too.
pub const LONGEST_COVERED: usize = 8_220;

/// `count` groups and, before them, two of each length up to `LONGEST_COVERED`.
pub fn all(seed: u64, count: usize) -> impl Iterator<Item = Vec<u8>> {
    let mut random = Random::from_seed(seed);
    let lengths = (0..=LONGEST_COVERED).flat_map(|length| [length, length]);
    let any = std::iter::repeat_n(None, count);
    lengths
        .map(Some)
        .chain(any)
        .map(move |length| match length {
            Some(length) => of_length(&mut random, length),
            None => any_group(&mut random),
        })
}

/// A group of one of the sorts named above.
pub fn any_group(random: &mut Random) -> Vec<u8> {
    match random.within(0, 9) {
        0..=2 => valid(random).whole(),
        3 => cut_short(random),
        4 => bits_turned(random),
        5 => {
            let length = short_length(random);
            random.bytes(length)
        }
        6 => {
            let length = short_length(random);
            with_check(random.bytes(length))
        }
        _ => one_field_wrong(random),
    }
}

/// A segment's fields that pass the reading checks, everything around it random.
pub fn valid(random: &mut Random) -> Fields {
    if random.once_in(12) {
        let empty = Fields::of_segment(random.word() as u16, Part::Body, 0, true, &[]);
        return sent_anyhow(random, empty);
    }
    let last = random.coin();
    let least = if last { 1 } else { 16 };
    let length = match random.within(0, 9) {
        0 => least,
        1 => 16,
        2 => LONGEST_SEGMENT,
        3 => random.within(least, LONGEST_SEGMENT),
        _ => random.within(least, 200),
    };
    let bytes = random.bytes(length);
    let part = random.one_of(&[Part::Header, Part::Body]);
    let transport = random.word() as u16;
    let number = random.word() as u16 & 0x7FFF;
    sent_anyhow(
        random,
        Fields::of_segment(transport, part, number, last, &bytes),
    )
}

/// The same segment with all that is no part of it random: indices, extension, spare bits,
/// repetition count and end user address.
pub fn sent_anyhow(random: &mut Random, mut fields: Fields) -> Fields {
    fields.repetition = Repetition {
        index: random.byte() & 0x0F,
        continuity: random.byte() & 0x0F,
        count: random.byte() & 0x07,
    };
    fields.extension = random.coin().then(|| [random.byte(), random.byte()]);
    if let Some(access) = fields.user_access.as_mut() {
        access.spare = random.byte() & 0x07;
    }
    let length = any_address_length(random);
    with_address(random, &mut fields, length);
    fields
}

/// The same segment sent again: just so, a time less to go, with one thing changed that is no part
/// of it, or with all of these random.
pub fn sent_again(random: &mut Random, mut fields: Fields) -> Fields {
    let said = &mut fields.repetition;
    match random.within(0, 9) {
        0 | 1 => (),
        2 => said.index = said.index.wrapping_sub(1) & 0x0F,
        3 => said.continuity = (said.continuity + 1) & 0x0F,
        4 => said.count = said.count.wrapping_sub(1) & 0x07,
        5 => {
            said.index = random.byte() & 0x0F;
            said.continuity = random.byte() & 0x0F;
            said.count = random.byte() & 0x07;
        }
        6 => {
            let access = fields.user_access.as_ref();
            let length = access.map_or(0, |access| access.address.len());
            with_address(random, &mut fields, length);
        }
        7 => {
            let length = any_address_length(random);
            with_address(random, &mut fields, length);
        }
        8 => fields.extension = random.coin().then(|| [random.byte(), random.byte()]),
        _ => return sent_anyhow(random, fields),
    }
    fields
}

fn any_address_length(random: &mut Random) -> usize {
    if random.once_in(4) {
        0
    } else {
        random.within(1, LONGEST_ADDRESS)
    }
}

/// Puts an end user address of so many bytes in, and the length indicator that goes with it.
fn with_address(random: &mut Random, fields: &mut Fields, length: usize) {
    if let Some(access) = fields.user_access.as_mut() {
        access.address = random.bytes(length);
        access.indicator = 2 + length as u8;
    }
}

/// A group of exactly this length, as right as the length allows: where a segment has room it is
/// a valid one, and where it has not the fields stop early. Every fourth has its check word
/// spoilt.
pub fn of_length(random: &mut Random, length: usize) -> Vec<u8> {
    let mut fields = valid(random);
    fields.bytes.clear();
    let around = fields.unchecked().len() + 2;
    let room = length.saturating_sub(around);
    fields.bytes = random.bytes(room);
    fields.size = room as u16;
    if room < 16 {
        fields.segment = fields.segment.map(|field| SegmentField {
            last: true,
            ..field
        });
    }
    let mut group = fields.unchecked();
    group.truncate(length.saturating_sub(2));
    let mut group = with_check(group);
    if random.once_in(4) {
        let place = group.len() - 1;
        group[place] ^= 1 << random.within(0, 7);
    }
    group.truncate(length);
    group
}

/// A valid group that ends too soon, in half the cases with a check word over what is left.
fn cut_short(random: &mut Random) -> Vec<u8> {
    let mut group = valid(random).unchecked();
    let keep = random.within(0, group.len().min(40));
    group.truncate(keep);
    if random.coin() {
        group = with_check(group);
    }
    group
}

/// A valid group with one to three bits turned over, near its start in half the cases.
fn bits_turned(random: &mut Random) -> Vec<u8> {
    let mut group = valid(random).whole();
    for _ in 0..random.within(1, 3) {
        let most = if random.coin() { 8 } else { group.len() - 1 };
        let place = random.within(0, most);
        group[place] ^= 1 << random.within(0, 7);
    }
    group
}

/// A segment that may be the empty one but for its part, number, flag or size, or a byte left.
fn nearly_empty(random: &mut Random) -> Fields {
    let part = random.one_of(&[Part::Header, Part::Body, Part::Body]);
    let number = random.one_of(&[0, 0, 0, 1, 63, 1_023, 32_767]);
    let last = !random.once_in(3);
    let left = if random.once_in(4) { 1 } else { 0 };
    let transport = random.word() as u16;
    let mut fields = Fields::of_segment(transport, part, number, last, &random.bytes(left));
    fields.size = random.one_of(&[0, 0, 0, 1]);
    sent_anyhow(random, fields)
}

/// A group with one field wrong or at its bound and a right check word.
pub fn one_field_wrong(random: &mut Random) -> Vec<u8> {
    let mut fields = valid(random);
    match random.within(0, 8) {
        0 => fields.check_flag = false,
        1 => fields.kind = random.byte() & 0x0F,
        2 => fields.segment = None,
        3 => fields.user_access = None,
        4 => fields.user_access.as_mut().unwrap().transport_flag = false,
        5 => fields.user_access.as_mut().unwrap().indicator = random.one_of(&[0, 1, 2, 3, 14, 15]),
        6 => {
            let right = fields.bytes.len() as u16;
            fields.size = random.one_of(&[
                0,
                1,
                15,
                16,
                right.wrapping_sub(1),
                right + 1,
                8_189,
                8_190,
                8_191,
                right ^ 0x1000,
            ]);
        }
        7 => fields = nearly_empty(random),
        _ => {
            let length = random.one_of(&[0, 1, 15, 16, 8_189, 8_190, 8_191]);
            fields.bytes = random.bytes(length);
            fields.size = length as u16;
            fields.segment.as_mut().unwrap().last = random.coin();
        }
    }
    fields.whole()
}

fn short_length(random: &mut Random) -> usize {
    if random.once_in(10) {
        random.within(0, LONGEST_COVERED)
    } else {
        random.within(0, 40)
    }
}

#[cfg(test)]
mod tests {
    use super::*;
    use crate::group::{read, Refusal};
    use std::collections::{HashMap, HashSet};

    #[test]
    fn every_length_and_every_reading_comes_up() {
        let mut lengths = HashSet::new();
        let mut readings: HashMap<Option<Refusal>, usize> = HashMap::new();
        for group in all(1, 4_000) {
            lengths.insert(group.len());
            *readings.entry(read(&group).err()).or_default() += 1;
        }
        assert!((0..=LONGEST_COVERED).all(|length| lengths.contains(&length)));
        assert!(readings[&None] > 5_000);
        for refusal in Refusal::ALL {
            assert!(readings[&Some(refusal)] > 50, "{refusal:?}: {readings:?}");
        }
    }

    #[test]
    fn valid_groups_read() {
        let mut random = Random::from_seed(2);
        for _ in 0..500 {
            let fields = valid(&mut random);
            let group = fields.whole();
            let segment = read(&group).unwrap();
            assert_eq!(segment.bytes(&group), fields.bytes);
            assert_eq!(segment.repetition, fields.repetition);
            let access = fields.user_access.unwrap();
            assert_eq!(segment.transport, access.transport);
            assert_eq!(segment.address(&group), access.address);
        }
    }

    /// Each index and count, and each length of an address with an extension field and without.
    #[test]
    fn every_index_count_and_address_comes_up() {
        let mut random = Random::from_seed(4);
        let mut seen: HashMap<(&str, usize), usize> = HashMap::new();
        for _ in 0..4_000 {
            let segment = read(&valid(&mut random).whole()).unwrap();
            let extended = if segment.address_start == 9 {
                "address after an extension field"
            } else {
                "address"
            };
            for said in [
                ("repetition index", usize::from(segment.repetition.index)),
                (
                    "continuity index",
                    usize::from(segment.repetition.continuity),
                ),
                ("repetition count", usize::from(segment.repetition.count)),
                (extended, segment.address_length),
            ] {
                *seen.entry(said).or_default() += 1;
            }
        }
        assert_eq!(seen.len(), 16 + 16 + 8 + 14 + 14);
        assert!(seen.values().all(|&times| times > 50), "{seen:?}");
    }

    /// What is sent again is the same segment, now and then in the same group.
    #[test]
    fn the_same_segment_is_sent_again() {
        let mut random = Random::from_seed(5);
        let mut just_so = 0;
        for _ in 0..1_000 {
            let fields = valid(&mut random);
            let again = sent_again(&mut random, fields.clone());
            just_so += usize::from(again == fields);
            let (group, other) = (fields.whole(), again.whole());
            let (segment, same) = (read(&group).unwrap(), read(&other).unwrap());
            assert_eq!(same.bytes(&other), segment.bytes(&group));
            assert_eq!(
                (same.transport, same.part, same.number, same.last),
                (
                    segment.transport,
                    segment.part,
                    segment.number,
                    segment.last
                )
            );
        }
        assert!((100..500).contains(&just_so), "{just_so}");
    }
}
