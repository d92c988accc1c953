//! One thing wrong with a state: a field of its records, a mark, a mark with the missing bytes that
//! go with it, a store byte, a length or a count, to compare two verdicts on. Not all of it is
//! damage in document 01's sense: a changed store byte may leave another state that is as sound as
//! the first.

use super::Random;
use crate::collector::{Counts, Memory, HEADER_SHARE, MARKS_SHARE, MOST_COUNTED};
use crate::object::{BODY_SEGMENTS, HEADER_SEGMENTS};
use crate::state::{PartRecord, SlotRecord, StageRecord, State};

/// Changes one thing of a state that is sound.
pub fn one_thing(random: &mut Random, state: &mut State, memory: &mut Memory, counts: &mut Counts) {
    let slot = random.within(0, state.count - 1);
    match random.within(0, 28) {
        0 => state.limit = other(random, state.limit),
        1 => state.count = random.within(0, 18),
        2 => lent_length(random, memory),
        3 => one_count(random, counts),
        4 => {
            // As often as not the number of another slot, one past the count now and then.
            let of = random.within(0, state.slots.len() - 1);
            state.slots[slot].transport = if random.coin() {
                state.slots[of].transport
            } else {
                random.word() as u16
            };
        }
        5..=7 => one_stage(random, &mut state.slots[slot]),
        8..=12 => one_record(random, &mut state.slots[slot]),
        13..=15 => {
            let mark = one_mark(random, slot);
            memory.marks[mark] = random.one_of(&[0, 1, 1, 1, 2, 255]);
        }
        // The core's bytes decide; others don't.
        16..=18 => {
            let byte = slot * HEADER_SHARE + random.within(0, 7);
            memory.header_store[byte] ^= 1 << random.within(0, 7);
        }
        19..=21 => empty_segment(random, slot, state, memory),
        22..=24 => one_missing(random, &mut state.slots[slot]),
        25..=27 => one_segment(random, slot, state, memory),
        _ => {
            let byte = random.within(0, memory.body_store.len() - 1);
            memory.body_store[byte] ^= 1 << random.within(0, 7);
        }
    }
}

/// The empty body segment put in or taken out: its mark, its record or both.
fn empty_segment(random: &mut Random, slot: usize, state: &mut State, memory: &mut Memory) {
    let put_in = !random.once_in(3);
    let kind = random.within(0, 3);
    if kind != 0 {
        memory.marks[slot * MARKS_SHARE + HEADER_SEGMENTS] = u8::from(put_in);
    }
    if kind != 1 {
        state.slots[slot].body = PartRecord {
            size: 0,
            end: usize::from(put_in),
            tail: 0,
        };
    }
}

/// Another number of missing bytes, or that it is or isn't known. As a word it is one more.
fn one_missing(random: &mut Random, slot: &mut SlotRecord) {
    slot.missing = match slot.missing {
        Some(_) if random.once_in(3) => None,
        known => Some(other(random, known.unwrap_or(0)).min(usize::MAX - 1)),
    };
}

/// One segment put in or taken out, its mark and so many missing bytes, where some are missing: the
/// number is right where nothing else follows from the segment.
fn one_segment(random: &mut Random, slot: usize, state: &mut State, memory: &mut Memory) {
    let waits = |slot: &usize| state.slots[*slot].missing > Some(0);
    let waiting: Vec<usize> = (0..state.count).filter(waits).collect();
    let slot = match waiting.len() {
        0 => slot,
        _ => random.one_of(&waiting),
    };
    let record = &mut state.slots[slot];
    let (part, first, segments) = if random.once_in(3) {
        (record.header, 0, HEADER_SEGMENTS)
    } else {
        (record.body, HEADER_SEGMENTS, BODY_SEGMENTS)
    };
    let number = match part.end {
        0 => random.within(0, 5),
        end => random.within(0, end.min(segments) - 1),
    };
    let length = if number + 1 == part.end {
        part.tail
    } else {
        part.size
    };
    let mark = &mut memory.marks[slot * MARKS_SHARE + first + number];
    let missing = record.missing;
    record.missing = if *mark == 0 {
        missing.and_then(|bytes| bytes.checked_sub(length))
    } else {
        missing.map(|bytes| bytes + length)
    };
    *mark ^= 1;
}

/// Another number than this one, near it or far from it.
fn other(random: &mut Random, number: usize) -> usize {
    let far = random.within(0, 20_000);
    random.one_of(&[
        0,
        1,
        16,
        number.wrapping_add(1),
        number.wrapping_sub(1),
        number.wrapping_mul(2),
        far,
        usize::MAX,
    ])
}

fn lent_length(random: &mut Random, memory: &mut Memory) {
    let lent = match random.within(0, 2) {
        0 => &mut memory.header_store,
        1 => &mut memory.body_store,
        _ => &mut memory.marks,
    };
    match random.within(0, 2) {
        0 => lent.push(0),
        1 => {
            lent.pop();
        }
        _ => lent.clear(),
    }
}

fn one_count(random: &mut Random, counts: &mut Counts) {
    let count = match random.within(0, 4) {
        0 => &mut counts.taken,
        1 => &mut counts.repeated,
        2 => &mut counts.refused,
        3 => &mut counts.completed,
        _ => &mut counts.dropped,
    };
    *count = random.one_of(&[0, 7, MOST_COUNTED, MOST_COUNTED + 1, u32::MAX]);
}

fn one_stage(random: &mut Random, slot: &mut SlotRecord) {
    let (header, body) = match slot.stage {
        StageRecord::Finished { header, body } => (header, body),
        _ => (7, 0),
    };
    slot.stage = match random.within(0, 4) {
        0 => StageRecord::Free,
        1 => StageRecord::Gathering,
        2 => StageRecord::Finished { header, body },
        3 => StageRecord::Finished {
            header: other(random, header),
            body,
        },
        _ => StageRecord::Finished {
            header,
            body: other(random, body),
        },
    };
}

fn one_record(random: &mut Random, slot: &mut SlotRecord) {
    let record = if random.coin() {
        &mut slot.header
    } else {
        &mut slot.body
    };
    let field = match random.within(0, 2) {
        0 => &mut record.size,
        1 => &mut record.end,
        _ => &mut record.tail,
    };
    *field = other(random, *field);
}

/// A mark of this slot, more often than not one of the first few of a part.
fn one_mark(random: &mut Random, slot: usize) -> usize {
    let part = random.one_of(&[0, HEADER_SEGMENTS]);
    let within = if random.once_in(3) {
        random.within(0, MARKS_SHARE - 1)
    } else {
        part + random.within(0, 5)
    };
    slot * MARKS_SHARE + within
}
