//! The straightforward collector. For each transport number it holds the list of the segments
//! that it stored, and for each new one it asks the search of `object` whether an object and a cut
//! send them all. The stores and marks are laid out as document 01 says, so that they can be
//! compared byte for byte.

use crate::answer::{Answer, Reply};
use crate::group::{self, Part};
use crate::header;
use crate::object::{
    self, Core, Piece, BODY_LIMITS, BODY_SEGMENTS, HEADER_LENGTHS, HEADER_SEGMENTS,
};
use std::ops::{Range, RangeInclusive};

/// Bounds of document 01, "Numbers that bound it".
pub const SLOTS: RangeInclusive<usize> = 1..=16;
pub const HEADER_SHARE: usize = *HEADER_LENGTHS.end();
pub const MARKS_SHARE: usize = HEADER_SEGMENTS + BODY_SEGMENTS;
pub const MOST_COUNTED: u32 = 2_147_483_647;

/// The memory that a collector works in.
#[derive(Clone, Debug, PartialEq, Eq)]
pub struct Memory {
    pub header_store: Vec<u8>,
    pub body_store: Vec<u8>,
    pub marks: Vec<u8>,
}

impl Memory {
    /// Memory of the right lengths, every byte of it the same.
    pub fn filled(limit: usize, slots: usize, byte: u8) -> Memory {
        Memory {
            header_store: vec![byte; slots * HEADER_SHARE],
            body_store: vec![byte; slots * limit],
            marks: vec![byte; slots * MARKS_SHARE],
        }
    }
}

#[derive(Clone, Copy, Debug, Default, PartialEq, Eq)]
pub struct Counts {
    pub taken: u32,
    pub repeated: u32,
    pub refused: u32,
    pub completed: u32,
    pub dropped: u32,
}

impl Counts {
    /// The counts that words hold, if there are five of them.
    pub fn of(words: &[u32]) -> Option<Counts> {
        let &[taken, repeated, refused, completed, dropped] = words else {
            return None;
        };
        Some(Counts {
            taken,
            repeated,
            refused,
            completed,
            dropped,
        })
    }

    /// In the order in which the listing prints them.
    pub fn in_order(&self) -> [u32; 5] {
        [
            self.taken,
            self.repeated,
            self.refused,
            self.completed,
            self.dropped,
        ]
    }

    fn count(&mut self, answer: Answer) {
        let one_more = |count: &mut u32| *count = (*count + 1).min(MOST_COUNTED);
        match answer.number() {
            0 => one_more(&mut self.taken),
            1 => {
                one_more(&mut self.taken);
                one_more(&mut self.completed);
            }
            2 => one_more(&mut self.repeated),
            3 => one_more(&mut self.dropped),
            10..=18 => one_more(&mut self.refused),
            _ => (),
        }
    }
}

#[derive(Clone, Copy, Debug, PartialEq, Eq)]
pub enum Stage {
    Gathering,
    Finished { header: usize, body: usize },
}

/// What is held under one transport number.
#[derive(Clone, Debug)]
pub struct Held {
    pub transport: u16,
    /// The stored segments of each part, no number twice.
    pub header: Vec<Piece>,
    pub body: Vec<Piece>,
}

impl Held {
    fn nothing_of(transport: u16) -> Held {
        Held {
            transport,
            header: Vec::new(),
            body: Vec::new(),
        }
    }

    pub fn pieces(&self, part: Part) -> &[Piece] {
        match part {
            Part::Header => &self.header,
            Part::Body => &self.body,
        }
    }

    fn pieces_mut(&mut self, part: Part) -> &mut Vec<Piece> {
        match part {
            Part::Header => &mut self.header,
            Part::Body => &mut self.body,
        }
    }

    /// Whether every segment of a part is in: the last one and all before it, none of them being
    /// held twice. Where the core says that the body is empty there is none to wait for.
    fn is_whole(&self, part: Part) -> bool {
        let empty = part == Part::Body && self.core().is_some_and(|core| core.body_size == 0);
        let count = self.pieces(part).len();
        let all_up_to = |last: &Piece| count == usize::from(last.number) + 1;
        empty || self.last(part).is_some_and(all_up_to)
    }

    pub fn stage(&self) -> Stage {
        if self.is_whole(Part::Header) && self.is_whole(Part::Body) {
            Stage::Finished {
                header: self.length(Part::Header),
                body: self.length(Part::Body),
            }
        } else {
            Stage::Gathering
        }
    }

    /// How many bytes of a part are in, a parked segment's among them.
    fn length(&self, part: Part) -> usize {
        self.pieces(part)
            .iter()
            .map(|piece| piece.bytes.len())
            .sum()
    }

    pub fn last(&self, part: Part) -> Option<&Piece> {
        self.pieces(part).iter().find(|piece| piece.last)
    }

    /// The core, known exactly when header segment 0 is in.
    pub fn core(&self) -> Option<Core> {
        self.header
            .iter()
            .find(|piece| piece.number == 0)
            .and_then(|piece| Core::of(&piece.bytes))
    }

    /// The segment size of a part where it is known: from a full segment, or from BodySize and
    /// the last segment of the body.
    pub fn known_size(&self, part: Part) -> Option<usize> {
        if let Some(full) = self.pieces(part).iter().find(|piece| !piece.last) {
            return Some(full.bytes.len());
        }
        if part == Part::Header {
            return None;
        }
        let body_size = self.core()?.body_size;
        let last = self.last(Part::Body)?;
        let before = usize::from(last.number);
        (before >= 1).then(|| (body_size - last.bytes.len()) / before)
    }

    /// Whether a part's last segment stands at the end of its share, as its place isn't known.
    pub fn is_parked(&self, part: Part) -> bool {
        let last = self.last(part);
        last.is_some_and(|piece| piece.number >= 1) && self.known_size(part).is_none()
    }

    /// A part's length where it is known: from the core, or from the part's last segment when that
    /// is number 0 or the segment size is known.
    pub fn known_length(&self, part: Part) -> Option<usize> {
        if let Some(core) = self.core() {
            return Some(match part {
                Part::Header => core.header_size,
                Part::Body => core.body_size,
            });
        }
        let last = self.last(part)?;
        let before = match last.number {
            0 => 0,
            number => usize::from(number) * self.known_size(part)?,
        };
        Some(before + last.bytes.len())
    }

    /// How many bytes of header and body have not arrived, once both lengths are known.
    pub fn missing(&self) -> Option<usize> {
        let whole = self.known_length(Part::Header)? + self.known_length(Part::Body)?;
        let arrived = self.length(Part::Header) + self.length(Part::Body);
        Some(whole - arrived)
    }

    /// Where a stored piece stands in its slot's share of the store. Only a last one can come
    /// while the size isn't known.
    fn place(&self, part: Part, share: usize, piece: &Piece) -> usize {
        match self.known_size(part) {
            _ if piece.number == 0 => 0,
            Some(size) => usize::from(piece.number) * size,
            None => share - piece.bytes.len(),
        }
    }
}

#[derive(Clone, Debug)]
pub struct Collector {
    limit: usize,
    slots: Vec<Option<Held>>,
    pub memory: Memory,
    pub counts: Counts,
}

impl Collector {
    /// Opens a collector, all marks and counts 0, the stores as they are; or LIMITS.
    pub fn open(limit: usize, slots: usize, mut memory: Memory) -> Result<Collector, Answer> {
        if !BODY_LIMITS.contains(&limit)
            || !SLOTS.contains(&slots)
            || memory.header_store.len() != slots * HEADER_SHARE
            || memory.body_store.len() != slots * limit
            || memory.marks.len() != slots * MARKS_SHARE
        {
            return Err(Answer::Limits);
        }
        memory.marks.fill(0);
        Ok(Collector {
            limit,
            slots: vec![None; slots],
            memory,
            counts: Counts::default(),
        })
    }

    /// A collector that holds this already. Whoever puts it together sees to it that memory and
    /// what is held agree.
    pub(crate) fn of_parts(
        limit: usize,
        slots: Vec<Option<Held>>,
        memory: Memory,
        counts: Counts,
    ) -> Collector {
        Collector {
            limit,
            slots,
            memory,
            counts,
        }
    }

    pub fn limit(&self) -> usize {
        self.limit
    }

    /// The slots in their order; a free one holds nothing.
    pub fn slots(&self) -> &[Option<Held>] {
        &self.slots
    }

    fn slot_of(&self, transport: u16) -> Option<usize> {
        self.slots
            .iter()
            .position(|slot| matches!(slot, Some(held) if held.transport == transport))
    }

    /// Takes one group.
    pub fn take(&mut self, group: &[u8]) -> Reply {
        let reply = match group::read(group) {
            Err(refusal) => Reply::bare(refusal.answer()),
            Ok(segment) => {
                let piece = Piece {
                    number: segment.number,
                    last: segment.last,
                    bytes: segment.bytes(group).to_vec(),
                };
                let answer = self.gather(segment.transport, segment.part, piece);
                let reply =
                    Reply::of_segment(answer, segment.transport, segment.part, segment.number);
                match answer {
                    Answer::Conflict | Answer::Full => reply,
                    _ => reply.with(segment.repetition),
                }
            }
        };
        self.counts.count(reply.answer);
        reply
    }

    /// Gathers one segment that passed the reading checks.
    fn gather(&mut self, transport: u16, part: Part, piece: Piece) -> Answer {
        let held_in = self.slot_of(transport);
        let lowest_free = self.slots.iter().position(Option::is_none);
        let mut held = match held_in {
            Some(slot) => self.slots[slot].take().expect("the number's own slot"),
            None => Held::nothing_of(transport),
        };
        let answer = if held.pieces(part).contains(&piece) {
            Answer::Repeat
        } else {
            let stage_before = held.stage();
            let sizes_before = [Part::Header, Part::Body].map(|part| held.known_size(part));
            held.pieces_mut(part).push(piece);
            if !object::fits(self.limit, &held.header, &held.body) {
                held.pieces_mut(part).pop();
                Answer::Conflict
            } else if let Some(slot) = held_in.or(lowest_free) {
                let stage = held.stage();
                self.store_newest(slot, held, part, sizes_before);
                return if stage != Stage::Gathering && stage_before == Stage::Gathering {
                    Answer::Complete
                } else {
                    Answer::Stored
                };
            } else {
                Answer::Full
            }
        };
        if let Some(slot) = held_in {
            self.slots[slot] = Some(held);
        }
        answer
    }

    /// Stores the newest piece of a part: its bytes, its mark, and the copies of last segments
    /// whose place is known from now on.
    fn store_newest(
        &mut self,
        slot: usize,
        held: Held,
        part: Part,
        sizes_before: [Option<usize>; 2],
    ) {
        let (newest, older) = held.pieces(part).split_last().expect("the newest piece");
        for (each, before) in [Part::Header, Part::Body].into_iter().zip(sizes_before) {
            let there_before = if each == part {
                older
            } else {
                held.pieces(each)
            };
            if let (None, Some(size)) = (before, held.known_size(each)) {
                self.copy_parked(slot, each, there_before, size);
            }
        }
        let share = self.share(slot, part);
        let start = share.start + held.place(part, share.len(), newest);
        self.store(part)[start..start + newest.bytes.len()].copy_from_slice(&newest.bytes);
        self.marks(slot, part)[usize::from(newest.number)] = 1;
        self.slots[slot] = Some(held);
    }

    /// Copies a last segment that stands at the end of its share to where this size puts it.
    fn copy_parked(&mut self, slot: usize, part: Part, pieces: &[Piece], size: usize) {
        let parked = pieces.iter().find(|piece| piece.last && piece.number >= 1);
        if let Some(piece) = parked {
            let share = self.share(slot, part);
            let place = share.start + usize::from(piece.number) * size;
            self.store(part)
                .copy_within(share.end - piece.bytes.len()..share.end, place);
        }
    }

    fn share(&self, slot: usize, part: Part) -> Range<usize> {
        let length = match part {
            Part::Header => HEADER_SHARE,
            Part::Body => self.limit,
        };
        slot * length..(slot + 1) * length
    }

    fn store(&mut self, part: Part) -> &mut [u8] {
        match part {
            Part::Header => &mut self.memory.header_store,
            Part::Body => &mut self.memory.body_store,
        }
    }

    fn marks(&mut self, slot: usize, part: Part) -> &mut [u8] {
        let marks = &mut self.memory.marks[slot * MARKS_SHARE..(slot + 1) * MARKS_SHARE];
        match part {
            Part::Header => &mut marks[..HEADER_SEGMENTS],
            Part::Body => &mut marks[HEADER_SEGMENTS..],
        }
    }

    /// Drops what is held under a number.
    pub fn drop_number(&mut self, transport: u16) -> Reply {
        let Some(slot) = self.slot_of(transport) else {
            return Reply::bare(Answer::NotHeld);
        };
        self.slots[slot] = None;
        self.memory.marks[slot * MARKS_SHARE..(slot + 1) * MARKS_SHARE].fill(0);
        self.counts.count(Answer::Dropped);
        Reply::of_number(Answer::Dropped, transport)
    }

    /// How many bytes of an object have not arrived, nothing while that is not known; or NOTHELD.
    pub fn missing(&self, transport: u16) -> Result<Option<usize>, Answer> {
        let slot = self.slot_of(transport).ok_or(Answer::NotHeld)?;
        Ok(self.slots[slot].as_ref().and_then(Held::missing))
    }

    /// A finished object's header or body, where it stands in its store; or NOTHELD or UNFINISHED.
    pub fn show(&self, transport: u16, part: Part) -> Result<&[u8], Answer> {
        let slot = self.slot_of(transport).ok_or(Answer::NotHeld)?;
        let stage = self.slots[slot].as_ref().map(Held::stage);
        let Some(Stage::Finished { header, body }) = stage else {
            return Err(Answer::Unfinished);
        };
        let start = self.share(slot, part).start;
        Ok(match part {
            Part::Header => &self.memory.header_store[start..start + header],
            Part::Body => &self.memory.body_store[start..start + body],
        })
    }

    /// What a finished object's header says; or NOTHELD, UNFINISHED, HEADER or DUPLICATE.
    pub fn read_header(&self, transport: u16) -> Result<header::Reading, Answer> {
        header::read(self.show(transport, Part::Header)?)
    }

    /// The lowest transport number of a finished object of this name; or NOTFOUND.
    pub fn find(&self, name: &[u8]) -> Result<u16, Answer> {
        let finished = self.slots.iter().flatten().filter_map(|held| {
            let header = self.show(held.transport, Part::Header).ok()?;
            Some((held.transport, header))
        });
        header::find(finished, name).ok_or(Answer::NotFound)
    }
}

#[cfg(test)]
mod tests {
    use super::*;
    use crate::group::{Fields, Repetition};

    const LIMIT: usize = 12_288;

    fn opened(slots: usize) -> Collector {
        Collector::open(LIMIT, slots, Memory::filled(LIMIT, slots, 0xEE)).unwrap()
    }

    fn header_group(transport: u16, number: u16, last: bool, bytes: &[u8]) -> Vec<u8> {
        Fields::of_segment(transport, Part::Header, number, last, bytes).whole()
    }

    fn body_group(transport: u16, number: u16, last: bool, bytes: &[u8]) -> Vec<u8> {
        Fields::of_segment(transport, Part::Body, number, last, bytes).whole()
    }

    fn core(header_size: usize, body_size: usize) -> Vec<u8> {
        let core = Core {
            body_size,
            header_size,
            content_type: 0,
            content_subtype: 0,
        };
        core.bytes().to_vec()
    }

    /// A whole header of 7 bytes that says this body size.
    fn says(transport: u16, body_size: usize) -> Vec<u8> {
        header_group(transport, 0, true, &core(7, body_size))
    }

    fn answer(collector: &mut Collector, group: &[u8]) -> Answer {
        collector.take(group).answer
    }

    #[test]
    fn opening() {
        let memory = || Memory::filled(LIMIT, 2, 0xEE);
        let collector = Collector::open(LIMIT, 2, memory()).unwrap();
        assert!(collector.memory.marks.iter().all(|&mark| mark == 0));
        assert!(collector
            .memory
            .header_store
            .iter()
            .all(|&byte| byte == 0xEE));
        assert!(collector.memory.body_store.iter().all(|&byte| byte == 0xEE));
        assert_eq!(collector.counts.in_order(), [0; 5]);

        for (limit, slots, opens) in [
            (1_023, 1, false),
            (1_024, 1, true),
            (1_048_576, 1, true),
            (1_048_577, 1, false),
            (1_024, 0, false),
            (1_024, 16, true),
            (1_024, 17, false),
        ] {
            let opened = Collector::open(limit, slots, Memory::filled(limit, slots, 0));
            assert_eq!(opened.is_ok(), opens, "{limit} {slots}");
        }
        let mut wrong = memory();
        wrong.header_store.pop();
        assert_eq!(Collector::open(LIMIT, 2, wrong).err(), Some(Answer::Limits));
        let mut wrong = memory();
        wrong.body_store.push(0);
        assert_eq!(Collector::open(LIMIT, 2, wrong).err(), Some(Answer::Limits));
        let mut wrong = memory();
        wrong.marks.pop();
        assert_eq!(Collector::open(LIMIT, 2, wrong).err(), Some(Answer::Limits));
    }

    /// Document 01's second core: an empty body, finished by the header alone.
    #[test]
    fn empty_body() {
        let mut collector = opened(1);
        let header = [0x00, 0x00, 0x00, 0x00, 0x03, 0x84, 0x01];
        assert_eq!(
            collector.take(&header_group(9, 0, true, &header)),
            Reply::of_segment(Answer::Complete, 9, Part::Header, 0).with(Repetition::default())
        );
        assert_eq!(collector.show(9, Part::Header), Ok(&header[..]));
        assert_eq!(collector.show(9, Part::Body), Ok(&[][..]));
        // No body segment belongs to it but the empty one, which is stored once.
        let some = body_group(9, 0, true, &[1]);
        let empty = body_group(9, 0, true, &[]);
        assert_eq!(answer(&mut collector, &some), Answer::Conflict);
        assert_eq!(answer(&mut collector, &empty), Answer::Stored);
        assert_eq!(answer(&mut collector, &empty), Answer::Repeat);
        assert_eq!(answer(&mut collector, &some), Answer::Conflict);
        assert_eq!(collector.show(9, Part::Header), Ok(&header[..]));
        assert_eq!(collector.show(9, Part::Body), Ok(&[][..]));
        assert_eq!(collector.counts.in_order(), [2, 1, 2, 1, 0]);
    }

    /// Document 02, Item 2: the empty body segment comes before its header.
    #[test]
    fn empty_segment_first() {
        let mut collector = opened(1);
        let empty = body_group(9, 0, true, &[]);
        assert_eq!(answer(&mut collector, &empty), Answer::Stored);
        assert_eq!(answer(&mut collector, &empty), Answer::Repeat);
        assert_eq!(
            answer(&mut collector, &body_group(9, 1, true, &[1; 5])),
            Answer::Conflict
        );
        assert_eq!(answer(&mut collector, &says(9, 1)), Answer::Conflict);
        assert_eq!(collector.show(9, Part::Body), Err(Answer::Unfinished));
        assert_eq!(answer(&mut collector, &says(9, 0)), Answer::Complete);
        assert_eq!(answer(&mut collector, &empty), Answer::Repeat);
        assert_eq!(collector.show(9, Part::Body), Ok(&[][..]));
    }

    /// Document 01: body last n 3, k 10 is in, then the header says B.
    #[test]
    fn last_first_and_then_the_header() {
        for (length, body_size, expected) in [
            (10, 100, Answer::Stored),
            (10, 99, Answer::Conflict),
            (10, 40, Answer::Conflict),
            (10, 58, Answer::Stored),
            (20, 68, Answer::Conflict),
        ] {
            let mut collector = opened(1);
            let last = body_group(1, 3, true, &vec![7; length]);
            assert_eq!(answer(&mut collector, &last), Answer::Stored);
            assert_eq!(answer(&mut collector, &says(1, body_size)), expected);
        }
    }

    /// One call writes the header store and copies inside the body store; the parked bytes stay.
    #[test]
    fn parked_until_the_header_says_the_size() {
        let mut collector = opened(2);
        let other = body_group(8, 0, true, &[1]);
        assert_eq!(answer(&mut collector, &other), Answer::Stored);
        let last = body_group(1, 3, true, b"0123456789");
        assert_eq!(answer(&mut collector, &last), Answer::Stored);
        let mut store = vec![0xEE; 2 * LIMIT];
        store[0] = 1;
        store[2 * LIMIT - 10..].copy_from_slice(b"0123456789");
        assert_eq!(collector.memory.body_store, store);

        assert_eq!(answer(&mut collector, &says(1, 100)), Answer::Stored);
        store[LIMIT + 90..LIMIT + 100].copy_from_slice(b"0123456789");
        assert_eq!(collector.memory.body_store, store);
        let mut headers = vec![0xEE; 2 * 1_024];
        headers[1_024..1_031].copy_from_slice(&core(7, 100));
        assert_eq!(collector.memory.header_store, headers);
        let mut marks = vec![0; 2 * 1_088];
        for place in [64, 1_088, 1_088 + 64 + 3] {
            marks[place] = 1;
        }
        assert_eq!(collector.memory.marks, marks);
    }

    #[test]
    fn parked_until_a_full_segment() {
        let mut collector = opened(1);
        let mut store = vec![0xEE; LIMIT];
        answer(&mut collector, &body_group(1, 2, true, b"abc"));
        store[LIMIT - 3..].copy_from_slice(b"abc");
        assert_eq!(collector.memory.body_store, store);
        answer(&mut collector, &body_group(1, 1, false, &[5; 20]));
        store[20..40].fill(5);
        store[40..43].copy_from_slice(b"abc");
        assert_eq!(collector.memory.body_store, store);
        // The header has a share and a size of its own.
        let mut headers = vec![0xEE; 1_024];
        answer(&mut collector, &header_group(1, 1, true, b"xy"));
        headers[1_022..].copy_from_slice(b"xy");
        assert_eq!(collector.memory.header_store, headers);
        let mut first = core(19, 43);
        first.resize(17, 6);
        answer(&mut collector, &header_group(1, 0, false, &first));
        headers[..17].copy_from_slice(&first);
        headers[17..19].copy_from_slice(b"xy");
        assert_eq!(collector.memory.header_store, headers);
        assert_eq!(
            answer(&mut collector, &body_group(1, 0, false, &[4; 20])),
            Answer::Complete
        );
    }

    /// With the size known as it comes, the last segment is never parked; number 0 never is.
    #[test]
    fn straight_into_place() {
        let mut collector = opened(1);
        let mut store = vec![0xEE; LIMIT];
        answer(&mut collector, &says(1, 100));
        answer(&mut collector, &body_group(1, 3, true, &[7; 10]));
        store[90..100].fill(7);
        assert_eq!(collector.memory.body_store, store);

        let mut collector = opened(1);
        let mut store = vec![0xEE; LIMIT];
        answer(&mut collector, &body_group(1, 0, true, &[7; 10]));
        store[..10].fill(7);
        assert_eq!(collector.memory.body_store, store);
    }

    /// The two places of a parked segment may overlap, either way round being the same.
    #[test]
    fn overlapping_copy() {
        let mut collector = opened(1);
        let bytes: Vec<u8> = (0..4_000).map(|place| (place % 251) as u8).collect();
        answer(&mut collector, &body_group(1, 2, true, &bytes));
        // S 4,100: the place is 8,200 to 12,200, parked at 8,288 to 12,288.
        answer(&mut collector, &body_group(1, 0, false, &[1; 4_100]));
        assert_eq!(collector.memory.body_store[8_200..12_200], bytes);
        assert_eq!(collector.memory.body_store[12_200..], bytes[3_912..]);
        answer(&mut collector, &body_group(1, 1, false, &[2; 4_100]));
        assert_eq!(answer(&mut collector, &says(1, 12_200)), Answer::Complete);
        let body = [vec![1; 4_100], vec![2; 4_100], bytes].concat();
        assert_eq!(collector.show(1, Part::Body), Ok(&body[..]));
    }

    #[test]
    fn repeats() {
        let mut collector = opened(1);
        let first = body_group(1, 0, false, &[5; 16]);
        let second = body_group(1, 1, true, &[6; 4]);
        answer(&mut collector, &first);
        let before = collector.memory.clone();
        assert_eq!(
            collector.take(&first),
            Reply::of_segment(Answer::Repeat, 1, Part::Body, 0).with(Repetition::default())
        );
        assert_eq!(collector.memory, before);
        answer(&mut collector, &second);
        assert_eq!(answer(&mut collector, &says(1, 20)), Answer::Complete);
        // Under a finished object too; and ignored fields don't make a difference.
        let mut fields = Fields::of_segment(1, Part::Body, 1, true, &[6; 4]);
        fields.repetition.continuity = 3;
        fields.extension = Some([1, 1]);
        assert_eq!(answer(&mut collector, &fields.whole()), Answer::Repeat);
        // The same number with another flag or other bytes is none.
        let flag = body_group(1, 0, true, &[5; 16]);
        assert_eq!(answer(&mut collector, &flag), Answer::Conflict);
        let bytes = body_group(1, 1, true, &[7; 4]);
        assert_eq!(answer(&mut collector, &bytes), Answer::Conflict);
        assert_eq!(collector.counts.in_order(), [3, 2, 2, 1, 0]);
    }

    /// Document 02, Item 6: what the sender says of repeats makes no other segment, and each answer
    /// has what its own group says.
    #[test]
    fn the_same_segment_sent_otherwise() {
        let mut collector = opened(1);
        let said = |index, continuity, count| Repetition {
            index,
            continuity,
            count,
        };
        let group = |repetition, address: &[u8]| {
            let mut fields = Fields::of_segment(1, Part::Body, 0, false, &[5; 16]);
            fields.repetition = repetition;
            let access = fields.user_access.as_mut().unwrap();
            access.indicator = 2 + address.len() as u8;
            access.address = address.to_vec();
            fields.whole()
        };
        let reply =
            |answer, repetition| Reply::of_segment(answer, 1, Part::Body, 0).with(repetition);
        let first = said(2, 7, 5);
        assert_eq!(
            collector.take(&group(first, &[1, 2])),
            reply(Answer::Stored, first)
        );
        let before = collector.memory.clone();
        for (repetition, address) in [
            (first, &[1, 2][..]),
            (said(1, 7, 5), &[1, 2]),
            (said(2, 8, 5), &[1, 2]),
            (said(2, 7, 4), &[1, 2]),
            (first, &[1, 3]),
            (first, &[1]),
            (first, &[]),
            (said(15, 0, 7), &[9; 13]),
        ] {
            assert_eq!(
                collector.take(&group(repetition, address)),
                reply(Answer::Repeat, repetition)
            );
            assert_eq!(collector.memory, before);
        }
        assert_eq!(collector.counts.in_order(), [1, 8, 0, 0, 0]);
    }

    /// Document 02, Item 6: STORED, COMPLETE and REPEAT pass the three numbers up, and no other
    /// answer does.
    #[test]
    fn answers_with_the_three_numbers_and_without() {
        let mut collector = opened(1);
        let repetition = Repetition {
            index: 3,
            continuity: 11,
            count: 6,
        };
        let group = |transport, part, number, bytes: &[u8]| {
            let mut fields = Fields::of_segment(transport, part, number, true, bytes);
            fields.repetition = repetition;
            fields.whole()
        };
        let body = group(1, Part::Body, 0, b"a");
        let with = |answer, part| Reply::of_segment(answer, 1, part, 0).with(repetition);
        assert_eq!(collector.take(&body), with(Answer::Stored, Part::Body));
        let header = group(1, Part::Header, 0, &core(7, 1));
        assert_eq!(
            collector.take(&header),
            with(Answer::Complete, Part::Header)
        );
        assert_eq!(collector.take(&body), with(Answer::Repeat, Part::Body));

        let conflict = collector.take(&group(1, Part::Body, 0, b"b"));
        let without = Reply::of_segment(Answer::Conflict, 1, Part::Body, 0);
        assert_eq!(conflict, without);
        assert_eq!(conflict.repetition, None);
        let full = collector.take(&group(2, Part::Body, 4, b"b"));
        assert_eq!(full, Reply::of_segment(Answer::Full, 2, Part::Body, 4));
        assert_eq!(full.repetition, None);
        let mut spoilt = body.clone();
        spoilt[1] ^= 1;
        assert_eq!(collector.take(&spoilt), Reply::bare(Answer::BadCheck));
        assert_eq!(collector.drop_number(1).repetition, None);
    }

    #[test]
    fn numbers_out_of_bounds_conflict() {
        let mut collector = opened(1);
        for group in [
            body_group(1, 1_024, true, &[0; 4]),
            body_group(1, 32_767, true, &[0; 4]),
            body_group(1, 1_023, false, &[0; 16]),
            header_group(1, 64, true, &[0; 4]),
            header_group(1, 63, false, &[0; 16]),
            header_group(1, 63, true, &[0; 17]),
            header_group(1, 0, true, &core(7, 0)[..6]),
            says(1, LIMIT + 1),
        ] {
            assert_eq!(answer(&mut collector, &group), Answer::Conflict);
        }
        assert_eq!(
            answer(&mut collector, &header_group(1, 63, true, &[0; 16])),
            Answer::Stored
        );
    }

    /// FULL comes after CONFLICT; a free slot is looked for from the lowest.
    #[test]
    fn slots_run_out_and_come_back() {
        let mut collector = opened(2);
        let of = |transport| body_group(transport, 0, true, &[transport as u8]);
        assert_eq!(answer(&mut collector, &of(1)), Answer::Stored);
        assert_eq!(answer(&mut collector, &of(2)), Answer::Stored);
        let before = collector.memory.clone();
        assert_eq!(
            collector.take(&of(3)),
            Reply::of_segment(Answer::Full, 3, Part::Body, 0)
        );
        let conflict = body_group(3, 1_024, true, &[3]);
        assert_eq!(answer(&mut collector, &conflict), Answer::Conflict);
        assert_eq!(answer(&mut collector, &of(1)), Answer::Repeat);
        assert_eq!(collector.memory, before);

        assert_eq!(collector.drop_number(3), Reply::bare(Answer::NotHeld));
        assert_eq!(
            collector.drop_number(1),
            Reply::of_number(Answer::Dropped, 1)
        );
        assert!(collector.memory.marks[..1_088]
            .iter()
            .all(|&mark| mark == 0));
        assert_eq!(collector.memory.body_store, before.body_store);
        assert_eq!(answer(&mut collector, &of(3)), Answer::Stored);
        assert_eq!(collector.memory.body_store[0], 3);
        assert_eq!(collector.memory.body_store[LIMIT], 2);
        // What was held before the drop plays no part any more.
        collector.drop_number(3);
        collector.drop_number(2);
        assert_eq!(answer(&mut collector, &of(2)), Answer::Stored);
        assert_eq!(collector.memory.body_store[0], 2);
        assert_eq!(collector.counts.in_order(), [4, 1, 2, 0, 3]);
    }

    /// A refused first segment takes no slot.
    #[test]
    fn first_groups_conflict_alone() {
        let mut collector = opened(1);
        let conflict = body_group(1, 768, true, &[3]);
        assert_eq!(answer(&mut collector, &conflict), Answer::Conflict);
        assert!(collector.slots()[0].is_none());
    }

    #[test]
    fn questions() {
        let mut collector = opened(3);
        let mut header = core(13, 1);
        header.extend([0x4A, 0x05, 0xCC, 0x02, 0x40, 0x61]);
        assert_eq!(collector.show(7, Part::Header), Err(Answer::NotHeld));
        assert_eq!(collector.read_header(7), Err(Answer::NotHeld));
        assert_eq!(collector.find(b"a"), Err(Answer::NotFound));
        for transport in [7, 3, 5] {
            answer(&mut collector, &header_group(transport, 0, true, &header));
        }
        assert_eq!(collector.show(7, Part::Body), Err(Answer::Unfinished));
        assert_eq!(collector.read_header(7), Err(Answer::Unfinished));
        assert_eq!(collector.find(b"a"), Err(Answer::NotFound));
        answer(&mut collector, &body_group(7, 0, true, b"x"));
        answer(&mut collector, &body_group(5, 0, true, b"y"));
        assert_eq!(collector.show(7, Part::Header), Ok(&header[..]));
        assert_eq!(collector.show(5, Part::Body), Ok(&b"y"[..]));
        let reading = collector.read_header(7).unwrap();
        assert_eq!((reading.priority, reading.name), (Some(5), Some(11..13)));
        // 3 isn't finished, and 5 stands in a higher slot than 7.
        assert_eq!(collector.find(b"/a"), Ok(5));
        // Questions aren't counted.
        assert_eq!(collector.counts.in_order(), [5, 0, 0, 2, 0]);
    }

    /// Number 1 is held; what is missing of it.
    fn missing(collector: &Collector) -> Option<usize> {
        collector.missing(1).expect("number 1 is held")
    }

    /// Takes groups under number 1 one after the other, and after each what is missing is compared.
    fn missing_after_each(groups: &[(Vec<u8>, Option<usize>)]) -> Collector {
        let mut collector = opened(1);
        for (place, (group, expected)) in groups.iter().enumerate() {
            let answer = answer(&mut collector, group);
            assert!(matches!(answer, Answer::Stored | Answer::Complete));
            assert_eq!(missing(&collector), *expected, "group {place}");
        }
        collector
    }

    /// The two lengths of document 01's listing are the core's; before it nothing is known of the
    /// header, and where the body's last segment stands is not known either.
    #[test]
    fn missing_in_the_listing() {
        missing_after_each(&[
            (body_group(1, 1, true, b"tuvw"), None),
            (says(1, 20), Some(16)),
            (body_group(1, 0, false, b"abcdefghijklmnop"), Some(0)),
        ]);
    }

    /// Header segments 1 and 2, the last, tell the header's length without segment 0, and so
    /// without the core.
    #[test]
    fn missing_without_the_core() {
        missing_after_each(&[
            (header_group(1, 2, true, &[2; 4]), None),
            (body_group(1, 0, true, &[9; 10]), None),
            // S 20: a header of 44 bytes.
            (header_group(1, 1, false, &[1; 20]), Some(20)),
            (
                header_group(1, 0, false, &[core(44, 10), vec![0; 13]].concat()),
                Some(0),
            ),
        ]);
    }

    /// Both lengths come from last segments, that of the body last.
    #[test]
    fn missing_from_two_last_segments() {
        missing_after_each(&[
            (header_group(1, 1, false, &[1; 20]), None),
            (body_group(1, 5, true, &[9; 3]), None),
            (header_group(1, 3, true, &[3; 7]), None),
            // S 16: a body of 83 bytes beside a header of 67.
            (body_group(1, 2, false, &[8; 16]), Some(67 + 83 - 46)),
            (body_group(1, 0, false, &[7; 16]), Some(67 + 83 - 62)),
        ]);
    }

    /// The body's length is known, from number 0 or from a full segment, and the header's is not.
    #[test]
    fn missing_is_unknown_without_the_length_of_the_header() {
        missing_after_each(&[(body_group(1, 0, true, &[9; 10]), None)]);
        missing_after_each(&[
            (body_group(1, 1, true, &[9; 10]), None),
            (body_group(1, 0, false, &[9; 16]), None),
            (header_group(1, 1, false, &[1; 16]), None),
        ]);
        // The last header segment of number 1 may stand anywhere.
        missing_after_each(&[
            (header_group(1, 1, true, &[1; 9]), None),
            (body_group(1, 0, true, &[9; 10]), None),
        ]);
    }

    /// The header's length is known and the body's is not: full segments have no end.
    #[test]
    fn missing_is_unknown_without_the_length_of_the_body() {
        missing_after_each(&[
            (header_group(1, 2, true, &[1; 9]), None),
            (header_group(1, 1, false, &[1; 16]), None),
            (body_group(1, 0, false, &[9; 16]), None),
            (body_group(1, 7, false, &[9; 16]), None),
        ]);
    }

    /// A parked last segment has arrived: it is counted when its place is known, not again then.
    #[test]
    fn missing_of_a_parked_segment() {
        missing_after_each(&[
            (body_group(1, 3, true, &[3; 10]), None),
            (header_group(1, 2, true, &[1; 4]), None),
            (header_group(1, 1, false, &[1; 20]), None),
            // S 30: a body of 100 bytes beside a header of 44.
            (body_group(1, 1, false, &[9; 30]), Some(100 - 40 + 20)),
        ]);
        // The core says the lengths, and comes in a full segment: neither last one is parked now.
        let first = [core(44, 100), vec![0; 13]].concat();
        missing_after_each(&[
            (body_group(1, 3, true, &[3; 10]), None),
            (header_group(1, 2, true, &[1; 4]), None),
            (header_group(1, 0, false, &first), Some(90 + 20)),
        ]);
        missing_after_each(&[
            (body_group(1, 3, true, &[3; 10]), None),
            (says(1, 100), Some(90)),
        ]);
    }

    /// The core alone says both lengths.
    #[test]
    fn missing_when_the_core_arrives() {
        let first = [core(17, 40), vec![0; 9]].concat();
        missing_after_each(&[
            (header_group(1, 0, false, &first), Some(41)),
            (header_group(1, 1, true, &[1]), Some(40)),
            (body_group(1, 1, true, &[1; 8]), Some(32)),
            (body_group(1, 0, false, &[1; 32]), Some(0)),
        ]);
        missing_after_each(&[
            (body_group(1, 1, false, &[1; 16]), None),
            (header_group(1, 0, false, &first), Some(25)),
        ]);
    }

    /// Document 02, Item 2: the empty body segment is a last one, and says that the body has no
    /// bytes.
    #[test]
    fn missing_with_the_empty_segment() {
        let empty = body_group(1, 0, true, &[]);
        missing_after_each(&[
            (empty.clone(), None),
            (header_group(1, 2, true, &[1; 4]), None),
            (header_group(1, 1, false, &[1; 20]), Some(20)),
        ]);
        missing_after_each(&[
            (header_group(1, 2, true, &[1; 4]), None),
            (header_group(1, 1, false, &[1; 20]), None),
            (empty.clone(), Some(20)),
        ]);
        missing_after_each(&[(empty.clone(), None), (says(1, 0), Some(0))]);
        missing_after_each(&[(says(1, 0), Some(0)), (empty, Some(0))]);
    }

    /// Nothing is missing of an object that is finished, and of no other.
    #[test]
    fn nothing_is_missing_when_finished() {
        let mut collector = missing_after_each(&[
            (body_group(1, 1, true, &[1]), None),
            (says(1, 17), Some(16)),
        ]);
        assert_eq!(collector.show(1, Part::Body), Err(Answer::Unfinished));
        answer(&mut collector, &body_group(1, 0, false, &[1; 16]));
        assert!(collector.show(1, Part::Body).is_ok());
        assert_eq!(missing(&collector), Some(0));
    }

    /// Repeats and what is refused change nothing, known or unknown; numbers that are not held or
    /// are dropped have no answer, and one that comes again begins anew.
    #[test]
    fn missing_after_other_answers() {
        let mut collector = opened(1);
        assert_eq!(collector.missing(1), Err(Answer::NotHeld));
        let last = body_group(1, 1, true, &[1; 4]);
        let header = says(1, 20);
        for (group, expected) in [(&last, None), (&header, Some(16))] {
            assert_eq!(answer(&mut collector, group), Answer::Stored);
            for (other, refused) in [
                (group, Answer::Repeat),
                (&body_group(1, 1, true, &[1; 5]), Answer::Conflict),
                (&body_group(2, 0, true, &[1; 5]), Answer::Full),
                (&group[1..].to_vec(), Answer::NoCheck),
            ] {
                assert_eq!(answer(&mut collector, other), refused);
                assert_eq!(missing(&collector), expected);
                assert_eq!(collector.missing(2), Err(Answer::NotHeld));
            }
        }
        assert_eq!(answer(&mut collector, &last), Answer::Repeat);
        assert_eq!(missing(&collector), Some(16));
        collector.drop_number(1);
        assert_eq!(collector.missing(1), Err(Answer::NotHeld));
        assert_eq!(answer(&mut collector, &last), Answer::Stored);
        assert_eq!(missing(&collector), None);
        // Questions aren't counted.
        assert_eq!(collector.counts.in_order(), [3, 3, 6, 0, 1]);
    }

    #[test]
    fn counts_stay_at_the_most() {
        let mut collector = opened(1);
        collector.counts = Counts {
            taken: MOST_COUNTED - 1,
            repeated: MOST_COUNTED,
            refused: MOST_COUNTED - 1,
            completed: MOST_COUNTED,
            dropped: MOST_COUNTED - 1,
        };
        let whole = says(1, 0);
        for _ in 0..3 {
            collector.take(&whole);
            collector.take(&whole);
            collector.take(&[]);
            collector.drop_number(1);
            collector.drop_number(1);
        }
        assert_eq!(collector.counts.in_order(), [MOST_COUNTED; 5]);
    }
}
