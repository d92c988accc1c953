//! A state handed in from outside: whether it is damaged (document 01, after the table of
//! answers), and the collector that goes on from one that is not.
//!
//! A state is the numbers that a collector keeps beside the stores and marks: for each slot the
//! transport number, the stage, for each part the segment size where it is known, the last
//! segment's number and its length, and how many bytes have not arrived where that is known. The
//! marked segments are read back from these and the stores; a sound state is one whose segments fit
//! an object and a cut and give just these numbers again.
//! `Handed` answers every call on a state from outside, questions too: STATE comes before all else.

use crate::answer::{Answer, Reply};
use crate::collector::{
    Collector, Counts, Held, Memory, Stage, HEADER_SHARE, MARKS_SHARE, MOST_COUNTED, SLOTS,
};
use crate::group::Part;
use crate::header::Reading;
use crate::object::{self, Piece, BODY_LIMITS, HEADER_SEGMENTS};

/// What is kept of one part; 0 stands for what isn't known.
#[derive(Clone, Copy, Debug, Default, PartialEq, Eq)]
pub struct PartRecord {
    pub size: usize,
    /// One more than the last segment's number.
    pub end: usize,
    /// The last segment's length.
    pub tail: usize,
}

#[derive(Clone, Copy, Debug, Default, PartialEq, Eq)]
pub enum StageRecord {
    #[default]
    Free,
    Gathering,
    Finished {
        header: usize,
        body: usize,
    },
}

#[derive(Clone, Copy, Debug, Default, PartialEq, Eq)]
pub struct SlotRecord {
    pub transport: u16,
    pub stage: StageRecord,
    pub header: PartRecord,
    pub body: PartRecord,
    /// The bytes of both parts that have not arrived; nothing while a length isn't known.
    pub missing: Option<usize>,
}

/// The numbers of a whole collector. There are always records for the most slots; those past
/// `count` play no part.
#[derive(Clone, Debug, PartialEq, Eq)]
pub struct State {
    pub limit: usize,
    pub count: usize,
    pub slots: [SlotRecord; *SLOTS.end()],
}

impl State {
    /// The state of a collector; a free slot's record is all 0.
    pub fn of(collector: &Collector) -> State {
        let mut slots = [SlotRecord::default(); *SLOTS.end()];
        for (record, slot) in slots.iter_mut().zip(collector.slots()) {
            if let Some(held) = slot {
                *record = record_of(held);
            }
        }
        State {
            limit: collector.limit(),
            count: collector.slots().len(),
            slots,
        }
    }

    /// The collector that goes on from this state, or STATE if it is damaged.
    pub fn resume(&self, memory: Memory, counts: Counts) -> Result<Collector, Answer> {
        if !BODY_LIMITS.contains(&self.limit)
            || !SLOTS.contains(&self.count)
            || memory.header_store.len() != self.count * HEADER_SHARE
            || memory.body_store.len() != self.count * self.limit
            || memory.marks.len() != self.count * MARKS_SHARE
            || memory.marks.iter().any(|&mark| mark > 1)
            || counts.in_order().iter().any(|&count| count > MOST_COUNTED)
        {
            return Err(Answer::State);
        }
        let mut held = Vec::new();
        for slot in 0..self.count {
            held.push(self.held_in(slot, &memory).ok_or(Answer::State)?);
        }
        let mut transports: Vec<u16> = held.iter().flatten().map(|held| held.transport).collect();
        transports.sort_unstable();
        if transports.windows(2).any(|pair| pair[0] == pair[1]) {
            return Err(Answer::State);
        }
        Ok(Collector::of_parts(self.limit, held, memory, counts))
    }

    /// What a slot holds, read back from its record, marks and stores; `None` if it is damaged.
    fn held_in(&self, slot: usize, memory: &Memory) -> Option<Option<Held>> {
        let record = &self.slots[slot];
        let marks = &memory.marks[slot * MARKS_SHARE..(slot + 1) * MARKS_SHARE];
        if record.stage == StageRecord::Free {
            return marks.iter().all(|&mark| mark == 0).then_some(None);
        }
        let (header_marks, body_marks) = marks.split_at(HEADER_SEGMENTS);
        let header_share = &memory.header_store[slot * HEADER_SHARE..(slot + 1) * HEADER_SHARE];
        let body_share = &memory.body_store[slot * self.limit..(slot + 1) * self.limit];
        let held = Held {
            transport: record.transport,
            header: marked_pieces(&record.header, header_marks, header_share)?,
            body: marked_pieces(&record.body, body_marks, body_share)?,
        };
        let something = !held.header.is_empty() || !held.body.is_empty();
        let sound = something
            && object::fits(self.limit, &held.header, &held.body)
            && record_of(&held) == *record;
        sound.then_some(Some(held))
    }
}

/// A state, stores, marks and counts that are handed in with every call.
pub struct Handed(Result<Collector, Answer>);

impl Handed {
    /// Any state, if the words that were lent hold one, and any number of counts.
    pub fn of(state: Option<&State>, memory: &Memory, counts: &[u32]) -> Handed {
        let whole = state.zip(Counts::of(counts)).ok_or(Answer::State);
        Handed(whole.and_then(|(state, counts)| state.resume(memory.clone(), counts)))
    }

    /// The collector that goes on from it, if it is sound.
    pub fn collector(&self) -> Option<&Collector> {
        self.0.as_ref().ok()
    }

    pub fn take(&mut self, group: &[u8]) -> Reply {
        match &mut self.0 {
            Ok(collector) => collector.take(group),
            Err(answer) => Reply::bare(*answer),
        }
    }

    pub fn drop_number(&mut self, transport: u16) -> Reply {
        match &mut self.0 {
            Ok(collector) => collector.drop_number(transport),
            Err(answer) => Reply::bare(*answer),
        }
    }

    pub fn missing(&self, transport: u16) -> Result<Option<usize>, Answer> {
        self.sound()?.missing(transport)
    }

    pub fn show(&self, transport: u16, part: Part) -> Result<&[u8], Answer> {
        self.sound()?.show(transport, part)
    }

    pub fn read_header(&self, transport: u16) -> Result<Reading, Answer> {
        self.sound()?.read_header(transport)
    }

    pub fn find(&self, name: &[u8]) -> Result<u16, Answer> {
        self.sound()?.find(name)
    }

    fn sound(&self) -> Result<&Collector, Answer> {
        self.0.as_ref().map_err(|answer| *answer)
    }
}

impl From<Collector> for Handed {
    fn from(collector: Collector) -> Handed {
        Handed(Ok(collector))
    }
}

/// The record that the segments of one held number give.
fn record_of(held: &Held) -> SlotRecord {
    let part_record = |part: Part| PartRecord {
        size: held.known_size(part).unwrap_or(0),
        end: held
            .last(part)
            .map_or(0, |last| usize::from(last.number) + 1),
        tail: held.last(part).map_or(0, |last| last.bytes.len()),
    };
    SlotRecord {
        transport: held.transport,
        stage: match held.stage() {
            Stage::Gathering => StageRecord::Gathering,
            Stage::Finished { header, body } => StageRecord::Finished { header, body },
        },
        header: part_record(Part::Header),
        body: part_record(Part::Body),
        missing: held.missing(),
    }
}

/// The marked segments of a part, with their recorded lengths and stored bytes; nothing if one
/// would stand outside the share.
fn marked_pieces(record: &PartRecord, marks: &[u8], share: &[u8]) -> Option<Vec<Piece>> {
    let marked = (0..marks.len()).filter(|&number| marks[number] == 1);
    marked
        .map(|number| {
            let last = number + 1 == record.end;
            let length = if last { record.tail } else { record.size };
            let start = match (number, record.size) {
                (0, _) => 0,
                (_, 0) => share.len().checked_sub(length)?,
                (_, size) => number.checked_mul(size)?,
            };
            Some(Piece {
                number: number as u16,
                last,
                bytes: share.get(start..start.checked_add(length)?)?.to_vec(),
            })
        })
        .collect()
}

#[cfg(test)]
mod tests {
    use super::*;
    use crate::group::Fields;
    use crate::random::histories::{calls, Call};
    use crate::random::{damage, Random};

    const LIMIT: usize = 1_024;

    /// Two slots: 5 finished with a body of 20 bytes, 9 with only its last body segment, parked.
    fn example() -> Collector {
        let mut collector = Collector::open(LIMIT, 2, Memory::filled(LIMIT, 2, 0)).unwrap();
        let core = [0x00, 0x00, 0x01, 0x40, 0x03, 0x80, 0x00];
        for (transport, part, number, last, bytes) in [
            (5, Part::Header, 0, true, &core[..]),
            (5, Part::Body, 0, false, &[1; 16]),
            (5, Part::Body, 1, true, &[2; 4]),
            (9, Part::Body, 3, true, &[3; 10]),
        ] {
            let fields = Fields::of_segment(transport, part, number, last, bytes);
            collector.take(&fields.whole());
        }
        collector
    }

    /// Whether the example is damaged after this change.
    fn damaged(change: impl FnOnce(&mut State, &mut Memory, &mut Counts)) -> bool {
        let collector = example();
        let mut state = State::of(&collector);
        let mut memory = collector.memory.clone();
        let mut counts = collector.counts;
        change(&mut state, &mut memory, &mut counts);
        state.resume(memory, counts).is_err()
    }

    #[test]
    fn records_of_the_example() {
        let state = State::of(&example());
        let part = |size, end, tail| PartRecord { size, end, tail };
        let finished = StageRecord::Finished {
            header: 7,
            body: 20,
        };
        assert_eq!((state.limit, state.count), (LIMIT, 2));
        assert_eq!(
            state.slots[0],
            SlotRecord {
                transport: 5,
                stage: finished,
                header: part(0, 1, 7),
                body: part(16, 2, 4),
                missing: Some(0),
            }
        );
        assert_eq!(
            state.slots[1],
            SlotRecord {
                transport: 9,
                stage: StageRecord::Gathering,
                header: part(0, 0, 0),
                body: part(0, 4, 10),
                missing: None,
            }
        );
    }

    /// A mark for body number 0 with a recorded length of 0 is the empty segment: right beside a
    /// BodySize of 0 or no core, and damage without the mark or beside any other BodySize.
    #[test]
    fn the_empty_segment_in_a_state() {
        let empty = PartRecord {
            size: 0,
            end: 1,
            tail: 0,
        };
        for (core, marked, sound) in [
            (Some(0), true, true),
            (Some(0), false, false),
            (Some(20), true, false),
            (Some(20), false, false),
            (None, true, true),
            (None, false, false),
        ] {
            let mut collector = Collector::open(LIMIT, 1, Memory::filled(LIMIT, 1, 0)).unwrap();
            let header = match core {
                Some(body_size) => [0, 0, body_size >> 4, body_size << 4, 3, 0x80, 0].to_vec(),
                None => vec![0; 7],
            };
            let number = if core.is_some() { 0 } else { 1 };
            let fields = Fields::of_segment(5, Part::Header, number, true, &header);
            collector.take(&fields.whole());
            let mut state = State::of(&collector);
            state.slots[0].body = empty;
            let mut memory = collector.memory.clone();
            memory.marks[HEADER_SEGMENTS] = u8::from(marked);
            let resumed = state.resume(memory, collector.counts);
            assert_eq!(resumed.is_ok(), sound, "{core:?} {marked}");
        }
    }

    /// Document 01's list, one after the other.
    #[test]
    fn each_damage_of_the_list() {
        assert!(!damaged(|_, _, _| ()));
        assert!(damaged(|_, memory, _| memory.marks.push(0)));
        assert!(damaged(|_, memory, _| {
            memory.header_store.pop();
        }));
        assert!(damaged(|_, memory, _| memory.body_store.push(0)));
        assert!(damaged(|state, _, _| state.limit = 1_023));
        assert!(damaged(|state, _, _| state.limit = usize::MAX));
        assert!(damaged(|state, _, _| state.count = 0));
        assert!(damaged(|state, _, _| state.count = 17));
        assert!(damaged(|state, _, _| state.slots[1].transport = 5));
        assert!(damaged(|_, memory, _| memory.marks[0] = 2));
        assert!(damaged(|_, memory, _| memory.marks[500] = 2));
        assert!(damaged(|_, memory, _| memory.marks[500] = 255));
        assert!(damaged(
            |state, _, _| state.slots[1].stage = StageRecord::Free
        ));
        assert!(damaged(|_, memory, _| memory.marks[1_088 + 64 + 3] = 0));
        assert!(damaged(|state, memory, _| {
            memory.marks[1_088 + 64 + 3] = 0;
            state.slots[1].body = PartRecord::default();
        }));
        assert!(damaged(|_, memory, _| memory.marks[1] = 1));
        assert!(damaged(|_, memory, _| memory.header_store[3] = 0x50));
        assert!(damaged(|state, _, _| state.slots[0].body.size = 17));
        assert!(damaged(|state, _, _| state.slots[1].body.size = usize::MAX));
        assert!(damaged(|state, _, _| state.slots[1].body.tail = usize::MAX));
        assert!(damaged(|state, _, _| state.slots[1].header.end = 1));
        assert!(damaged(
            |state, _, _| state.slots[0].stage = StageRecord::Gathering
        ));
        assert!(damaged(|state, _, _| {
            state.slots[0].stage = StageRecord::Finished {
                header: 7,
                body: 19,
            }
        }));
        assert!(damaged(|_, _, counts| counts.dropped = 2_147_483_648));
    }

    /// A state of one slot, whose number 5 got these segments, and what it is kept in.
    fn gathered(segments: &[(Part, u16, bool, &[u8])]) -> (State, Collector) {
        let mut collector = Collector::open(LIMIT, 1, Memory::filled(LIMIT, 1, 0)).unwrap();
        for &(part, number, last, bytes) in segments {
            let group = Fields::of_segment(5, part, number, last, bytes).whole();
            assert!(collector.take(&group).answer <= Answer::Complete);
        }
        (State::of(&collector), collector)
    }

    /// Document 02, Item 4: the number kept must be the one that the marks give, and unknown is a
    /// number of its own.
    #[test]
    fn the_missing_bytes_kept() {
        let core = [0x00, 0x00, 0x01, 0x40, 0x03, 0x80, 0x00];
        let [header, body] = [Part::Header, Part::Body];
        for (segments, right) in [
            // Unknown: the body's last segment is parked; the body's length alone is known.
            (&[(body, 3, true, &[3; 10][..])][..], None),
            (&[(body, 0, true, &[3; 10])], None),
            (&[(body, 0, true, &[])], None),
            // Known: from the core, finished, and from two last segments.
            (&[(header, 0, true, &core)], Some(20)),
            (
                &[(header, 0, true, &core), (body, 1, true, &[3; 4])],
                Some(16),
            ),
            (
                &[(header, 0, true, &core), (body, 0, true, &[3; 20])],
                Some(0),
            ),
            (
                &[
                    (header, 1, false, &[1; 20]),
                    (header, 2, true, &[2; 4]),
                    (body, 0, true, &[3; 10]),
                ],
                Some(20),
            ),
        ] {
            let (state, collector) = gathered(segments);
            assert_eq!(state.slots[0].missing, right);
            let near = right.unwrap_or(0);
            for kept in [
                None,
                Some(0),
                Some(1),
                Some(near.saturating_sub(1)),
                Some(near),
                Some(near + 1),
                Some(usize::MAX),
            ] {
                let mut state = state.clone();
                state.slots[0].missing = kept;
                let handed = Handed::of(
                    Some(&state),
                    &collector.memory,
                    &collector.counts.in_order(),
                );
                let expected = if kept == right {
                    Ok(right)
                } else {
                    Err(Answer::State)
                };
                assert_eq!(handed.missing(5), expected, "{segments:?} {kept:?}");
            }
        }
    }

    /// A mark more or less is damage, unless the number kept is the one that the marks then give.
    #[test]
    fn marks_and_the_missing_bytes_kept() {
        let core = [0x00, 0x00, 0x03, 0x20, 0x03, 0x80, 0x00];
        let (state, collector) = gathered(&[
            (Part::Header, 0, true, &core),
            (Part::Body, 0, false, &[1; 16]),
            (Part::Body, 2, false, &[1; 16]),
        ]);
        assert_eq!(state.slots[0].missing, Some(18));
        for (number, mark, right) in [(1, 1, 2), (0, 0, 34), (2, 0, 34), (2, 1, 18)] {
            for kept in [2, 18, 34] {
                let mut state = state.clone();
                state.slots[0].missing = Some(kept);
                let mut memory = collector.memory.clone();
                memory.marks[HEADER_SEGMENTS + number] = mark;
                let resumed = state.resume(memory, collector.counts);
                assert_eq!(resumed.is_ok(), kept == right, "{number} {mark} {kept}");
            }
        }
    }

    /// Every call is answered with STATE, whatever is damaged: a count, or how many there are, too.
    #[test]
    fn a_damaged_state_to_every_call() {
        let collector = example();
        let state = State::of(&collector);
        let sound = collector.counts.in_order();
        let answers = |mut handed: Handed| {
            let number = 5;
            [
                handed.missing(number).err(),
                handed.show(number, Part::Header).err(),
                handed.show(number, Part::Body).err(),
                handed.read_header(number).err(),
                handed.find(b"a").err(),
                Some(handed.take(&[]).answer),
                Some(handed.drop_number(number).answer),
            ]
        };
        let asked = |state, counts: &[u32]| answers(Handed::of(state, &collector.memory, counts));
        let found = [
            None,
            None,
            None,
            None,
            Some(Answer::NotFound),
            Some(Answer::Length),
            Some(Answer::Dropped),
        ];
        assert_eq!(asked(Some(&state), &sound), found);
        let damaged = [Some(Answer::State); 7];
        assert_eq!(asked(None, &sound), damaged);
        assert_eq!(asked(Some(&state), &sound[..4]), damaged);
        assert_eq!(asked(Some(&state), &[&sound[..], &[0]].concat()), damaged);
        for count in 0..sound.len() {
            let mut counts = sound;
            counts[count] = 2_147_483_647;
            assert_eq!(asked(Some(&state), &counts), found);
            counts[count] = 2_147_483_648;
            assert_eq!(asked(Some(&state), &counts), damaged);
        }
        let mut other = state.clone();
        other.slots[1].transport = state.slots[0].transport;
        assert_eq!(asked(Some(&other), &sound), damaged);
    }

    /// What plays no part, and damage that only turns one sound state into another.
    #[test]
    fn no_damage() {
        assert!(!damaged(|state, _, _| state.slots[1].transport = 6));
        assert!(!damaged(
            |state, _, _| state.slots[2].stage = StageRecord::Gathering
        ));
        assert!(!damaged(|state, _, _| state.slots[15].transport = 5));
        assert!(!damaged(|state, _, _| state.slots[2].missing = Some(5)));
        assert!(!damaged(|_, memory, _| memory.body_store[3] = 77));
        assert!(!damaged(|_, memory, _| memory.header_store[6] = 77));
        // Header bytes of a slot whose header segment 0 isn't in.
        assert!(!damaged(|_, memory, _| memory.header_store[1_024..].fill(9)));
        assert!(!damaged(|_, _, counts| counts.dropped = 2_147_483_647));
        // The last one alone may be another last one.
        assert!(!damaged(|state, _, _| state.slots[1].body.tail = 11));
        // A free slot's leftovers.
        assert!(!damaged(|state, memory, _| {
            state.slots[1].stage = StageRecord::Free;
            state.slots[1].transport = 5;
            state.slots[1].missing = Some(7);
            memory.marks[1_088..].fill(0);
        }));
    }

    /// Every state that calls lead to is sound, and what is read back from it is what is held.
    #[test]
    fn states_of_histories_are_sound() {
        let mut random = Random::from_seed(17);
        for (limit, slots) in [(1_024, 1), (1_024, 3), (12_288, 2), (65_536, 4)] {
            let memory = Memory::filled(limit, slots, random.byte());
            let mut collector = Collector::open(limit, slots, memory).unwrap();
            for call in calls(&mut random, limit, slots, 300) {
                match call {
                    Call::Take(group) => {
                        collector.take(&group);
                    }
                    Call::Drop(transport) => {
                        collector.drop_number(transport);
                    }
                    _ => (),
                }
                let state = State::of(&collector);
                let resumed = state
                    .resume(collector.memory.clone(), collector.counts)
                    .unwrap();
                assert_eq!(State::of(&resumed), state);
                for (held, read_back) in collector.slots().iter().zip(resumed.slots()) {
                    let parts = |held: &Option<Held>| {
                        held.as_ref().map(|held| {
                            [Part::Header, Part::Body].map(|part| {
                                let mut pieces = held.pieces(part).to_vec();
                                pieces.sort_by_key(|piece| piece.number);
                                pieces
                            })
                        })
                    };
                    assert_eq!(parts(held), parts(read_back));
                }
            }
        }
    }

    #[test]
    fn both_verdicts_on_damage_are_common() {
        let mut random = Random::from_seed(18);
        let (mut sound, mut unsound) = (0, 0);
        // Of these, marks that go with another number of missing bytes, and that number alone.
        let (mut other_segments, mut other_missing) = (0, 0);
        for _ in 0..80 {
            let limit = random.one_of(&[1_024, 12_288]);
            let slots = random.within(1, 16);
            let count = random.within(5, 120);
            let mut collector =
                Collector::open(limit, slots, Memory::filled(limit, slots, 0)).unwrap();
            for call in calls(&mut random, limit, slots, count) {
                if let Call::Take(group) = call {
                    collector.take(&group);
                }
            }
            for _ in 0..25 {
                let mut state = State::of(&collector);
                let mut memory = collector.memory.clone();
                let mut counts = collector.counts;
                damage::one_thing(&mut random, &mut state, &mut memory, &mut counts);
                let missing = |state: &State| state.slots.map(|slot| slot.missing);
                let kept = missing(&state) != missing(&State::of(&collector));
                let marked = memory.marks != collector.memory.marks;
                match state.resume(memory, counts) {
                    Ok(_) => {
                        sound += 1;
                        other_segments += usize::from(kept && marked);
                    }
                    Err(answer) => {
                        assert_eq!(answer, Answer::State);
                        unsound += 1;
                        other_missing += usize::from(kept && !marked);
                    }
                }
            }
        }
        assert!(sound > 400 && unsound > 800, "{sound} {unsound}");
        let seldom = other_segments.min(other_missing) < 20;
        assert!(!seldom, "{other_segments} {other_missing}");
    }
}
