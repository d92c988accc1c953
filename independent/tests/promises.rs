//! The collector held to what document 01 says of whole histories: what is stored under a number
//! is read off the answers alone, and every answer, count and shown byte is worked out from that,
//! a conflict by trying every object and cut, and what is missing of each object as well (document
//! 02, Item 4). What the sender says of repeats comes with the answers that pass it up, as the
//! bytes of the group have it (document 02, Item 6).

use independent::answer::Answer;
use independent::collector::{Collector, Memory};
use independent::group::{self, Part, Repetition};
use independent::object::{fits_by_trying_all, Core, Piece};
use independent::random::histories::{calls, Call};
use independent::random::Random;
use std::collections::BTreeMap;

const LIMIT: usize = 1_024;

#[derive(Clone, Default)]
struct Stored {
    header: BTreeMap<u16, Piece>,
    body: BTreeMap<u16, Piece>,
}

/// The segments of a part joined by number, if they run from 0 to the last without a gap.
fn joined(pieces: &BTreeMap<u16, Piece>) -> Option<Vec<u8>> {
    let gapless = pieces.keys().copied().eq(0..pieces.len() as u16);
    let ends = pieces.values().next_back().is_some_and(|piece| piece.last);
    (gapless && ends).then(|| {
        pieces
            .values()
            .flat_map(|piece| piece.bytes.clone())
            .collect()
    })
}

impl Stored {
    fn part(&mut self, part: Part) -> &mut BTreeMap<u16, Piece> {
        match part {
            Part::Header => &mut self.header,
            Part::Body => &mut self.body,
        }
    }

    /// The whole object, once every segment is in.
    fn object(&self) -> Option<(Vec<u8>, Vec<u8>)> {
        let header = joined(&self.header)?;
        let body = match Core::of(&header)?.body_size {
            0 => Vec::new(),
            _ => joined(&self.body)?,
        };
        Some((header, body))
    }

    /// A part's length where the core tells it, or its last segment.
    fn length(&self, part: Part) -> Option<usize> {
        if let Some(first) = self.header.get(&0) {
            let core = Core::of(&first.bytes)?;
            return Some(match part {
                Part::Header => core.header_size,
                Part::Body => core.body_size,
            });
        }
        let pieces = match part {
            Part::Header => &self.header,
            Part::Body => &self.body,
        };
        let (&before, last) = pieces.last_key_value()?;
        // Before the last one all are as long as any that is in.
        let (_, any) = pieces.first_key_value()?;
        let told = last.last && (before == 0 || !any.last);
        told.then(|| usize::from(before) * any.bytes.len() + last.bytes.len())
    }

    /// The bytes that are still to come, where both lengths are told.
    fn missing(&self) -> Option<usize> {
        let pieces = self.header.values().chain(self.body.values());
        let arrived: usize = pieces.map(|piece| piece.bytes.len()).sum();
        Some(self.length(Part::Header)? + self.length(Part::Body)? - arrived)
    }

    /// Whether an object and a cut send all of this and one more segment.
    fn fits_with(&self, part: Part, piece: &Piece) -> bool {
        let mut header: Vec<Piece> = self.header.values().cloned().collect();
        let mut body: Vec<Piece> = self.body.values().cloned().collect();
        match part {
            Part::Header => header.push(piece.clone()),
            Part::Body => body.push(piece.clone()),
        }
        fits_by_trying_all(LIMIT, &header, &body)
    }
}

/// The answer that a group must get, given what the answers so far say is stored.
fn expected(held: &mut BTreeMap<u16, Stored>, slots: usize, group: &[u8]) -> Answer {
    let segment = match group::read(group) {
        Ok(segment) => segment,
        Err(refusal) => return refusal.answer(),
    };
    let piece = Piece {
        number: segment.number,
        last: segment.last,
        bytes: segment.bytes(group).to_vec(),
    };
    let holds_slot = held.contains_key(&segment.transport);
    let mut stored = held.get(&segment.transport).cloned().unwrap_or_default();
    if stored.part(segment.part).get(&piece.number) == Some(&piece) {
        return Answer::Repeat;
    }
    if !stored.fits_with(segment.part, &piece) {
        return Answer::Conflict;
    }
    if !holds_slot && held.len() == slots {
        return Answer::Full;
    }
    let finished_before = stored.object().is_some();
    stored.part(segment.part).insert(piece.number, piece);
    let answer = match stored.object() {
        Some(_) if !finished_before => Answer::Complete,
        _ => Answer::Stored,
    };
    held.insert(segment.transport, stored);
    answer
}

/// The three numbers that this answer to a group must pass up: byte 1, and the first of the two bytes
/// before the segment.
fn passed_up(answer: Answer, group: &[u8]) -> Option<Repetition> {
    if !matches!(answer, Answer::Stored | Answer::Complete | Answer::Repeat) {
        return None;
    }
    let segment = group::read(group).expect("a group that is taken reads");
    Some(Repetition {
        index: group[1] % 16,
        continuity: group[1] / 16,
        count: group[segment.start - 2] / 32,
    })
}

fn count(answers: &[Answer], of: &[Answer]) -> u32 {
    answers.iter().filter(|answer| of.contains(answer)).count() as u32
}

fn follow(seed: u64, slots: usize, length: usize) -> usize {
    let mut random = Random::from_seed(seed);
    let memory = Memory::filled(LIMIT, slots, random.byte());
    let mut collector = Collector::open(LIMIT, slots, memory).unwrap();
    let mut held = BTreeMap::new();
    let mut answers = Vec::new();
    for call in calls(&mut random, LIMIT, slots, length) {
        match call {
            Call::Take(group) => {
                let right = expected(&mut held, slots, &group);
                let reply = collector.take(&group);
                assert_eq!(reply.answer, right);
                assert_eq!(reply.repetition, passed_up(right, &group));
                answers.push(right);
            }
            Call::Drop(transport) => {
                let right = match held.remove(&transport) {
                    Some(_) => Answer::Dropped,
                    None => Answer::NotHeld,
                };
                assert_eq!(collector.drop_number(transport).answer, right);
                answers.push(right);
            }
            _ => (),
        }
        for (&transport, stored) in &held {
            let (header, body) = match stored.object() {
                Some((header, body)) => (Ok(header), Ok(body)),
                None => (Err(Answer::Unfinished), Err(Answer::Unfinished)),
            };
            let shown = |part| collector.show(transport, part).map(<[u8]>::to_vec);
            assert_eq!(shown(Part::Header), header);
            assert_eq!(shown(Part::Body), body);
            let missing = stored.missing();
            assert_eq!(collector.missing(transport), Ok(missing));
            assert_eq!(missing == Some(0), stored.object().is_some());
        }
    }
    use Answer::*;
    let refusals = [
        Length, NoCheck, BadCheck, Kind, NoSegment, Address, Size, Conflict, Full,
    ];
    assert_eq!(
        collector.counts.in_order(),
        [
            count(&answers, &[Stored, Complete]),
            count(&answers, &[Repeat]),
            count(&answers, &refusals),
            count(&answers, &[Complete]),
            count(&answers, &[Dropped]),
        ]
    );
    count(&answers, &[Complete]) as usize
}

#[test]
fn histories_keep_the_promises() {
    let finished: usize = (0..8)
        .map(|seed| follow(100 + seed, 1 + seed as usize % 4, 150))
        .sum();
    assert!(finished > 20, "{finished}");
}
