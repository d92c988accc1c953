//! Damaged states: the proved collector's STATE against the independent verdict, to groups, drops and
//! questions alike. Each state comes of a history of calls and has one thing changed: a field of a
//! record, a mark alone or with the missing bytes that go with it, a store byte, a length, a count, or
//! a word that holds none of these. Where both find it sound they go on with the same calls from it, as
//! if its marked segments had been stored; where it is damaged nothing may change.

use crate::collectors::{call, same, Tally};
use crate::lent::{state_of, words, Lent, FIRST_SLOT, SLOT_WORDS, UNTOLD};
use independent::answer::{Answer, Reply};
use independent::collector::{Collector, Counts, Memory, MOST_COUNTED};
use independent::group::{Fields, Part};
use independent::object::{Core, CORE_LENGTH, HEADER_LENGTHS};
use independent::random::histories::{calls, Call};
use independent::random::{damage, headers, Random};
use independent::state::{Handed, PartRecord, StageRecord, State};
use yovtirak::lent::{FIELD_WORDS, PLACE_WORDS};

const SEED: u64 = 301_234_000;
const HISTORIES: u64 = 500;
const DAMAGES: usize = 48;
/// Calls after a state that is still sound.
const AFTER: usize = 6;

#[derive(Default)]
struct Seen {
    sound: usize,
    damaged: usize,
    asked: usize,
    words: usize,
    each: usize,
    /// Of the sound and of the damaged, those whose records have the empty segment in.
    sound_with_empty: usize,
    damaged_with_empty: usize,
    /// Of the sound, those with other marks and another number of missing bytes, which these give; of
    /// the damaged, those with nothing other than that number.
    sound_with_missing: usize,
    damaged_missing: usize,
    other_missing: usize,
}

impl Seen {
    /// What came up seldom.
    fn rare(&self) -> Option<String> {
        let least = [
            ("sound", self.sound, 5_000),
            ("damaged", self.damaged, 10_000),
            ("sound, with the empty one", self.sound_with_empty, 500),
            ("damaged, with the empty one", self.damaged_with_empty, 500),
            ("sound, other bytes missing", self.sound_with_missing, 200),
            ("damaged, other bytes missing", self.damaged_missing, 500),
        ];
        let mut rare = least.into_iter().filter(|(_, times, least)| times < least);
        rare.next()
            .map(|(what, times, _)| format!("only {times} {what}"))
    }
}

/// The numbers of missing bytes that are kept.
fn kept(state: &State) -> Vec<Option<usize>> {
    state.slots.iter().map(|slot| slot.missing).collect()
}

/// The records have the empty segment of a body in: the last one, number 0, of length 0.
fn has_empty(state: &State) -> bool {
    let empty = PartRecord {
        size: 0,
        end: 1,
        tail: 0,
    };
    let mut slots = state.slots.iter().take(state.count);
    slots.any(|slot| slot.stage != StageRecord::Free && slot.body == empty)
}

/// A collector after a history of calls.
fn collector_after(random: &mut Random) -> Collector {
    let limit = random.one_of(&[1_024, 12_288]);
    let slots = random.within(1, 16);
    let memory = Memory::filled(limit, slots, random.byte());
    let mut collector = Collector::open(limit, slots, memory).expect("the limits are in bounds");
    let count = random.within(1, 120);
    for each in calls(random, limit, slots, count) {
        match each {
            Call::Take(group) => {
                collector.take(&group);
            }
            Call::Drop(transport) => {
                collector.drop_number(transport);
            }
            _ => (),
        }
    }
    collector
}

fn lent_of(state: &State, memory: &Memory, counts: &Counts) -> Lent {
    Lent {
        state: words(state),
        counts: counts.in_order().to_vec(),
        memory: memory.clone(),
    }
}

/// Every call on a state that is damaged: STATE, and not a byte, a mark, a word or a count is another
/// one, nor a word of what a question would tell.
fn refused(lent: &mut Lent) -> Result<(), String> {
    let before = (lent.state.clone(), lent.counts.clone(), lent.memory.clone());
    let said = [lent.take(&[]), lent.drop(5)];
    if said != [Reply::bare(Answer::State); 2] {
        return Err(format!("{said:?}, not STATE"));
    }
    let asked = [
        lent.show(5, Part::Header).err(),
        lent.show(5, Part::Body).err(),
        lent.read(5).err(),
        lent.find(b"a").err(),
        lent.missing(5).err(),
    ];
    if asked != [Some(Answer::State); 5] {
        return Err(format!("{asked:?}, not STATE, to questions"));
    }
    if before.0 != lent.state || before.1 != lent.counts || before.2 != lent.memory {
        return Err("STATE changed something".to_string());
    }
    Ok(())
}

/// One thing changed, and both verdicts, to questions first and then to calls of any kind.
fn one_damage(
    random: &mut Random,
    collector: &Collector,
    seen: &mut Seen,
    tally: &mut Tally,
) -> Result<(), String> {
    let mut state = State::of(collector);
    let mut memory = collector.memory.clone();
    let mut counts = collector.counts;
    damage::one_thing(random, &mut state, &mut memory, &mut counts);
    let kept_other = kept(&state) != kept(&State::of(collector));
    let marked = memory.marks != collector.memory.marks;
    let mut lent = lent_of(&state, &memory, &counts);
    let mut handed = Handed::of(Some(&state), &memory, &counts.in_order());
    for question in questions(random, collector) {
        call(&mut lent, &mut handed, &question, tally)?;
        seen.asked += 1;
    }
    for each in calls(random, collector.limit(), collector.slots().len(), AFTER) {
        call(&mut lent, &mut handed, &each, tally)?;
    }
    match handed.collector() {
        None => {
            seen.damaged += 1;
            seen.damaged_with_empty += usize::from(has_empty(&state));
            seen.damaged_missing += usize::from(kept_other && !marked);
            if lent.state != words(&state) || lent.counts != counts.in_order() {
                return Err("STATE changed a word or a count".to_string());
            }
            if lent.memory != memory {
                return Err("STATE changed a byte".to_string());
            }
            refused(&mut lent)
        }
        Some(resumed) => {
            seen.sound += 1;
            seen.sound_with_empty += usize::from(has_empty(&state));
            seen.sound_with_missing += usize::from(kept_other && marked);
            same_after(&lent, resumed, &state)
        }
    }
}

/// All questions about a number that was held, finished or not, or about any; and a name.
fn questions(random: &mut Random, collector: &Collector) -> Vec<Call> {
    let held: Vec<_> = collector.slots().iter().flatten().collect();
    let transport = if held.is_empty() || random.once_in(5) {
        random.word() as u16
    } else {
        held[random.within(0, held.len() - 1)].transport
    };
    vec![
        Call::Show(transport, Part::Header),
        Call::Show(transport, Part::Body),
        Call::ReadHeader(transport),
        Call::Missing(transport),
        Call::Find(headers::name(random)),
    ]
}

/// Both went on alike. A free slot's leftovers play no part, so the records are compared by what the
/// next calls answer, and here by all that can be seen but them.
fn same_after(lent: &Lent, resumed: &Collector, before: &State) -> Result<(), String> {
    let clean = before.slots[..before.count]
        .iter()
        .all(|slot| slot.stage != StageRecord::Free || *slot == Default::default());
    let past = before.slots[before.count..]
        .iter()
        .all(|slot| *slot == Default::default());
    if clean && past {
        return same(lent, resumed, true);
    }
    if lent.memory != resumed.memory || lent.counts != resumed.counts.in_order() {
        return Err("memory or counts differ".to_string());
    }
    Ok(())
}

/// A word that holds no number of its kind: STATE where its slot is held, else it plays no part.
fn one_word(random: &mut Random, collector: &Collector, seen: &mut Seen) -> Result<(), String> {
    let state = State::of(collector);
    let mut lent = lent_of(&state, &collector.memory, &collector.counts);
    let slot = random.within(0, 15);
    let held = slot < state.count && state.slots[slot].stage != StageRecord::Free;
    let first = FIRST_SLOT + SLOT_WORDS * slot;
    let damaged = match random.within(0, 6) {
        0 => {
            lent.state[first] += 65_536 << random.within(0, 40);
            held
        }
        1 => {
            lent.state[first + 1] = 3 + u64::from(random.word());
            slot < state.count
        }
        2 => {
            // One more missing byte than 32 bits hold, or many, or the right number with a bit above it.
            let missing = &mut lent.state[first + SLOT_WORDS - 1];
            let many = u64::from(random.word()) << random.within(0, 30);
            *missing = (1 << 32) + random.one_of(&[1, 1 + many, 1.max(*missing)]);
            held
        }
        3 => {
            lent.state.push(0);
            true
        }
        4 => {
            lent.state.pop();
            true
        }
        5 => {
            lent.counts.push(0);
            true
        }
        _ => {
            lent.counts.pop();
            true
        }
    };
    seen.words += 1;
    if damaged {
        return refused(&mut lent);
    }
    for held in collector.slots().iter().flatten() {
        let transport = held.transport;
        let shown = [Part::Header, Part::Body].map(|part| collector.show(transport, part));
        let alike = [Part::Header, Part::Body].map(|part| lent.show(transport, part)) == shown
            && lent.read(transport) == collector.read_header(transport)
            && lent.missing(transport) == collector.missing(transport);
        if !alike {
            return Err(format!("{transport:04x} by a word that plays no part"));
        }
    }
    match lent.take(&[]) {
        said if said == Reply::bare(Answer::Length) => Ok(()),
        said => Err(format!(
            "{said:?}, not LENGTH, for a word that plays no part"
        )),
    }
}

/// A collector of two slots: 5 finished and named `a`, 9 with a last body segment whose place isn't known, and a
/// header segment that is not the last.
fn two_slots() -> Collector {
    let limit = 1_024;
    let memory = Memory::filled(limit, 2, 0);
    let mut collector = Collector::open(limit, 2, memory).expect("the limits are in bounds");
    let core = |body_size, header_size| {
        let core = Core {
            body_size,
            header_size,
            content_type: 2,
            content_subtype: 1,
        };
        core.bytes().to_vec()
    };
    let named = [core(20, 11), vec![0xCC, 2, 0x40, b'a']].concat();
    let longer = [core(130, 20), vec![0x4A, 5, 0, 0, 0, 0, 0, 0, 0]].concat();
    for (transport, part, number, last, bytes) in [
        (5, Part::Header, 0, true, named),
        (5, Part::Body, 0, false, vec![1; 16]),
        (5, Part::Body, 1, true, vec![2; 4]),
        (9, Part::Body, 3, true, vec![3; 10]),
        (9, Part::Header, 0, false, longer),
    ] {
        let group = Fields::of_segment(transport, part, number, last, &bytes);
        collector.take(&group.whole());
    }
    collector
}

/// A collector of two cards without text: 5 finished and named `a` and its empty segment in, 9 with its empty segment
/// alone.
fn two_cards() -> Collector {
    let limit = 1_024;
    let memory = Memory::filled(limit, 2, 0);
    let mut collector = Collector::open(limit, 2, memory).expect("the limits are in bounds");
    let named = [0, 0, 0, 0, 0x05, 0x84, 0x01, 0xCC, 2, 0x40, b'a'];
    for (transport, part, bytes) in [
        (5, Part::Header, &named[..]),
        (5, Part::Body, &[]),
        (9, Part::Body, &[]),
    ] {
        collector.take(&Fields::of_segment(transport, part, 0, true, bytes).whole());
    }
    collector
}

/// A collector of two objects without a core: 5 with both lengths known by last segments, 9 with both last segments
/// parked.
fn two_without_core() -> Collector {
    let limit = 1_024;
    let memory = Memory::filled(limit, 2, 0);
    let mut collector = Collector::open(limit, 2, memory).expect("the limits are in bounds");
    for (transport, part, number, last, bytes) in [
        (5, Part::Header, 1, false, &[1; 20][..]),
        (5, Part::Header, 2, true, &[2; 4]),
        (5, Part::Body, 0, true, &[3; 10]),
        (9, Part::Header, 1, true, &[4; 9]),
        (9, Part::Body, 3, true, &[5; 10]),
    ] {
        collector.take(&Fields::of_segment(transport, part, number, last, bytes).whole());
    }
    collector
}

/// The independent verdict on words, and the proved one, to questions and to a group.
fn verdict(lent: &mut Lent, seen: &mut Seen) -> Result<(), String> {
    let state = state_of(&lent.state);
    let mut handed = Handed::of(state.as_ref(), &lent.memory, &lent.counts);
    for transport in [5, 9] {
        for part in [Part::Header, Part::Body] {
            if lent.show(transport, part) != handed.show(transport, part) {
                return Err(format!("{part:?} of {transport} differs"));
            }
        }
        if lent.read(transport) != handed.read_header(transport) {
            return Err(format!("what the header of {transport} says differs"));
        }
        let (ours, theirs) = (lent.missing(transport), handed.missing(transport));
        if ours != theirs {
            return Err(format!("missing of {transport}: {ours:?}, not {theirs:?}"));
        }
    }
    let (ours, theirs) = (lent.find(b"a"), handed.find(b"a"));
    if ours != theirs {
        return Err(format!("a name: {ours:?}, not {theirs:?}"));
    }
    seen.each += 1;
    let (ours, theirs) = (lent.take(&[]), handed.take(&[]));
    if ours != theirs {
        return Err(format!("{ours:?}, not {theirs:?}"));
    }
    Ok(())
}

/// A finished header of every length, in the bounds and out of them, with all else as it would be then. Of 7 bytes
/// to 1,024 it is read; any other state is damaged, so that no question meets a header without its core.
fn header_lengths(seen: &mut Seen) -> Result<usize, String> {
    let lengths = 0..HEADER_LENGTHS.end() + 2;
    for length in lengths.clone() {
        let memory = Memory::filled(1_024, 1, 0);
        let mut collector = Collector::open(1_024, 1, memory).expect("the limits are in bounds");
        let core = |header_size| Core {
            body_size: 0,
            header_size,
            content_type: 2,
            content_subtype: 1,
        };
        let header = core(CORE_LENGTH).bytes();
        collector.take(&Fields::of_segment(5, Part::Header, 0, true, &header).whole());
        let mut state = State::of(&collector);
        state.slots[0].stage = StageRecord::Finished {
            header: length,
            body: 0,
        };
        state.slots[0].header.tail = length;
        collector.memory.header_store[..CORE_LENGTH].copy_from_slice(&core(length).bytes());
        let mut lent = lent_of(&state, &collector.memory, &collector.counts);
        let (shown, read, found) = (lent.show(5, Part::Header), lent.read(5), lent.find(b"a"));
        let right = if HEADER_LENGTHS.contains(&length) {
            shown.is_ok_and(|header| header.len() == length)
                && read.is_ok_and(|reading| reading.core.header_size == length)
                && found == Err(Answer::NotFound)
        } else {
            [shown.err(), read.err(), found.err()] == [Some(Answer::State); 3]
        };
        if !right {
            return Err(format!("a finished header of {length} bytes"));
        }
        verdict(&mut lent, seen).map_err(|said| format!("{length} bytes: {said}"))?;
    }
    Ok(lengths.len())
}

/// Words of the wrong number to tell something in: STATE, and nothing is told.
fn told_elsewhere() -> Result<usize, String> {
    let collector = two_slots();
    let lent = lent_of(&State::of(&collector), &collector.memory, &collector.counts);
    let lengths = 0..12;
    for length in lengths.clone() {
        let (mut place, mut told) = (vec![UNTOLD; length], vec![UNTOLD; length]);
        let said = [
            (PLACE_WORDS, lent.finished(5, &mut place), place),
            (FIELD_WORDS, lent.parameters(5, &mut told), told),
        ];
        for (right, said, words) in said {
            let expected = if length == right { 0 } else { 26 };
            let untold = words.iter().filter(|&&word| word == UNTOLD).count();
            let left = if length == right { 0 } else { length };
            if (said, untold) != (expected, left) {
                return Err(format!("{said} and {untold} words left of {length}"));
            }
        }
    }
    Ok(2 * lengths.len())
}

/// Every word, count and mark of a state in turn, each made several others.
fn every_number(collector: &Collector, seen: &mut Seen) -> Result<(), String> {
    let mut lent = lent_of(&State::of(collector), &collector.memory, &collector.counts);
    let counts = lent.counts.clone();
    for word in 0..lent.state.len() {
        let was = lent.state[word];
        let beside = [was + 1, was.wrapping_sub(1), was + (1 << 32)];
        let odd = [65_541, 1 << 32, (1 << 32) + 1, u64::MAX];
        for other in [0, 1, 2, 3, 4, 5, 7, 16, 20, 1_024]
            .into_iter()
            .chain(beside)
            .chain(odd)
        {
            lent.state[word] = other;
            verdict(&mut lent, seen).map_err(|said| format!("word {word} as {other}: {said}"))?;
            lent.counts.clone_from(&counts);
        }
        lent.state[word] = was;
    }
    for count in 0..lent.counts.len() {
        for other in [0, MOST_COUNTED, MOST_COUNTED + 1, u32::MAX] {
            lent.counts[count] = other;
            verdict(&mut lent, seen).map_err(|said| format!("count {count} as {other}: {said}"))?;
            lent.counts.clone_from(&counts);
        }
    }
    for mark in 0..lent.memory.marks.len() {
        let was = lent.memory.marks[mark];
        for other in [0, 1, 2, 255] {
            lent.memory.marks[mark] = other;
            verdict(&mut lent, seen).map_err(|said| format!("mark {mark} as {other}: {said}"))?;
            lent.counts.clone_from(&counts);
        }
        lent.memory.marks[mark] = was;
    }
    Ok(())
}

/// Every bit of a header store in turn, and every byte of a body store.
fn every_byte(collector: &Collector, seen: &mut Seen) -> Result<(), String> {
    let mut lent = lent_of(&State::of(collector), &collector.memory, &collector.counts);
    let counts = lent.counts.clone();
    for byte in 0..lent.memory.header_store.len() {
        let was = lent.memory.header_store[byte];
        for bit in 0..8 {
            lent.memory.header_store[byte] = was ^ 1 << bit;
            verdict(&mut lent, seen)
                .map_err(|said| format!("header byte {byte}, bit {bit}: {said}"))?;
            lent.counts.clone_from(&counts);
        }
        lent.memory.header_store[byte] = was;
    }
    for byte in 0..lent.memory.body_store.len() {
        lent.memory.body_store[byte] ^= 0xFF;
        verdict(&mut lent, seen).map_err(|said| format!("body byte {byte}: {said}"))?;
        lent.counts.clone_from(&counts);
        lent.memory.body_store[byte] ^= 0xFF;
    }
    Ok(())
}

/// Other numbers of missing bytes than the right one, unknown and too many among them: STATE to every call.
fn other_missing(collector: &Collector, seen: &mut Seen) -> Result<(), String> {
    let mut lent = lent_of(&State::of(collector), &collector.memory, &collector.counts);
    for slot in 0..collector.slots().len() {
        let place = FIRST_SLOT + SLOT_WORDS * slot + SLOT_WORDS - 1;
        let right = lent.state[place];
        let large = [1 << 32, (1 << 32) + 1, (1 << 32) + right, u64::MAX];
        for other in (0..200).chain(large).filter(|&other| other != right) {
            lent.state[place] = other;
            refused(&mut lent)
                .map_err(|said| format!("{other} for {right} in slot {slot}: {said}"))?;
            seen.other_missing += 1;
        }
        lent.state[place] = right;
    }
    Ok(())
}

/// Everything of a few states, each in turn. Where no core is in no byte is looked at.
fn everything(seen: &mut Seen) -> Result<(), String> {
    let with_core = [("objects", two_slots()), ("cards", two_cards())];
    for (what, collector) in &with_core {
        every_byte(collector, seen).map_err(|said| format!("{what}: {said}"))?;
    }
    let without = ("objects without a core", two_without_core());
    for (what, collector) in with_core.iter().chain([&without]) {
        every_number(collector, seen)
            .and_then(|()| other_missing(collector, seen))
            .map_err(|said| format!("{what}: {said}"))?;
    }
    Ok(())
}

pub fn run() -> Result<String, String> {
    let mut seen = Seen::default();
    everything(&mut seen)?;
    let lengths = header_lengths(&mut seen)?;
    let told = told_elsewhere()?;
    let mut tally = Tally::new();
    for number in 0..HISTORIES {
        let random = &mut Random::from_seed(SEED + number);
        let collector = collector_after(random);
        for _ in 0..DAMAGES {
            one_damage(random, &collector, &mut seen, &mut tally)
                .map_err(|said| format!("history {number}: {said}"))?;
        }
        for _ in 0..4 {
            one_word(random, &collector, &mut seen)
                .map_err(|said| format!("history {number}, a word: {said}"))?;
        }
    }
    if let Some(said) = seen.rare() {
        return Err(said);
    }
    let Seen {
        sound,
        damaged,
        asked,
        words,
        each,
        sound_with_empty,
        damaged_with_empty,
        sound_with_missing,
        damaged_missing,
        other_missing,
    } = seen;
    Ok(format!(
        "{} states with one thing changed, {damaged} damaged and {sound} sound, of these {damaged_with_empty} and \
         {sound_with_empty} with the empty segment in, {damaged_missing} with nothing but another number of missing \
         bytes and {sound_with_missing} with the number that other marks give, {asked} questions asked of them, \
         {words} with a word that holds nothing of its kind, every word, count and mark of three in turn, every byte \
         of two and {lengths} lengths of a finished header, {each} states, {other_missing} numbers of missing bytes in \
         place of the right ones, and {told} lengths of what is told; answers {tally:?}",
        sound + damaged
    ))
}
