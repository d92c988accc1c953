//! The proved collector over memory that is lent to it, in the independent program's words.

use independent::answer::{Answer, Reply};
use independent::collector::{Collector, Memory, HEADER_SHARE};
use independent::group::{Part, Repetition};
use independent::header::Reading;
use independent::object::Core;
use independent::state::{PartRecord, StageRecord, State};
use yovtirak::lent::{self, COUNTS, FIELD_WORDS, PLACE_WORDS, STATE_WORDS};

/// Words of a state before its slots, and of each slot.
pub const FIRST_SLOT: usize = 2;
pub const SLOT_WORDS: usize = 11;

/// In the words of a question before it is asked: a refusal must leave it there.
pub const UNTOLD: u64 = 0x5A5A_5A5A_5A5A_5A5A;

pub struct Lent {
    pub state: Vec<u64>,
    pub counts: Vec<u32>,
    pub memory: Memory,
}

fn answer_of(number: u64) -> Answer {
    Answer::ALL
        .into_iter()
        .find(|answer| u64::from(answer.number()) == number)
        .expect("an answer's number is one of document 01's")
}

/// The word that says a reply, whatever the reply doesn't return being 0.
fn word_of(reply: &Reply) -> u64 {
    let said = reply.repetition.unwrap_or_default();
    u64::from(reply.answer.number())
        | u64::from(reply.part == Some(Part::Body)) << 8
        | u64::from(reply.transport.unwrap_or_default()) << 16
        | u64::from(reply.segment.unwrap_or_default()) << 32
        | u64::from(said.index) << 48
        | u64::from(said.continuity) << 52
        | u64::from(said.count) << 56
}

/// The three numbers that a word says, as the wrapper has them.
fn repetition_of(word: u64) -> Option<Repetition> {
    let said = yovtirak::Reply::of(word).repetition?;
    Some(Repetition {
        index: said.index,
        continuity: said.continuity,
        count: said.count,
    })
}

/// What a word says, in the independent program's words: all of it, and nothing beside.
fn reply_of(word: u64) -> Reply {
    let answer = answer_of(word & 0xFF);
    let transport = (word >> 16) as u16;
    let reply = match answer.number() {
        0..=2 | 17 | 18 => {
            let part = if word >> 8 & 0xFF == 0 {
                Part::Header
            } else {
                Part::Body
            };
            Reply {
                repetition: repetition_of(word),
                ..Reply::of_segment(answer, transport, part, (word >> 32) as u16)
            }
        }
        3 => Reply::of_number(answer, transport),
        _ => Reply::bare(answer),
    };
    assert_eq!(word, word_of(&reply), "a word says more than its answer");
    reply
}

impl Lent {
    /// Memory, and words of the state and counts that are each made of this byte.
    pub fn unopened(memory: Memory, byte: u8) -> Lent {
        Lent {
            state: vec![u64::from_ne_bytes([byte; 8]); STATE_WORDS],
            counts: vec![u32::from_ne_bytes([byte; 4]); COUNTS],
            memory,
        }
    }

    /// Opens a collector; a refusal must change nothing.
    pub fn open(mut self, limit: usize, slots: usize) -> Result<Lent, Answer> {
        let before = (
            self.state.clone(),
            self.counts.clone(),
            self.memory.marks.clone(),
        );
        let said = lent::open(
            limit,
            slots,
            &mut self.state,
            &mut self.counts,
            &self.memory.header_store,
            &self.memory.body_store,
            &mut self.memory.marks,
        );
        if said != 0 {
            let after = (self.state, self.counts, self.memory.marks);
            assert_eq!(after, before, "a refused opening changes something");
            return Err(answer_of(said));
        }
        Ok(self)
    }

    pub fn take(&mut self, group: &[u8]) -> Reply {
        reply_of(lent::take(
            &mut self.state,
            &mut self.counts,
            group,
            &mut self.memory.header_store,
            &mut self.memory.body_store,
            &mut self.memory.marks,
        ))
    }

    pub fn drop(&mut self, transport: u16) -> Reply {
        reply_of(lent::drop(
            &mut self.state,
            &mut self.counts,
            transport,
            &self.memory.header_store,
            &self.memory.body_store,
            &mut self.memory.marks,
        ))
    }

    /// What is missing of an object, where that is known; the word must say that and nothing beside.
    pub fn missing(&self, transport: u16) -> Result<Option<usize>, Answer> {
        let word = lent::missing(
            &self.state,
            &self.counts,
            transport,
            &self.memory.header_store,
            &self.memory.body_store,
            &self.memory.marks,
        );
        let kept = word >> 16;
        match word & 0xFFFF {
            0 => Ok(kept.checked_sub(1).map(|bytes| bytes as usize)),
            refused => {
                assert_eq!(kept, 0, "a refusal tells what is missing");
                Err(answer_of(refused))
            }
        }
    }

    /// Where a finished object is, told in words of any number.
    pub fn finished(&self, transport: u16, place: &mut [u64]) -> u64 {
        lent::finished(
            &self.state,
            &self.counts,
            transport,
            &self.memory.header_store,
            &self.memory.body_store,
            &self.memory.marks,
            place,
        )
    }

    pub fn show(&self, transport: u16, part: Part) -> Result<&[u8], Answer> {
        let mut place = [UNTOLD; PLACE_WORDS];
        let said = self.finished(transport, &mut place);
        if said != 0 {
            assert_eq!(place, [UNTOLD; PLACE_WORDS], "a refusal tells a place");
            return Err(answer_of(said));
        }
        let [slot, header, body] = place.map(|word| word as usize);
        Ok(match part {
            Part::Header => &self.memory.header_store[slot * HEADER_SHARE..][..header],
            Part::Body => &self.memory.body_store[slot * self.state[0] as usize..][..body],
        })
    }

    /// What a finished object's header says, told in words of any number.
    pub fn parameters(&self, transport: u16, told: &mut [u64]) -> u64 {
        lent::read(
            &self.state,
            &self.counts,
            transport,
            &self.memory.header_store,
            &self.memory.body_store,
            &self.memory.marks,
            told,
        )
    }

    pub fn read(&self, transport: u16) -> Result<Reading, Answer> {
        let mut told = [UNTOLD; FIELD_WORDS];
        let said = self.parameters(transport, &mut told);
        if said != 0 {
            assert_eq!(told, [UNTOLD; FIELD_WORDS], "a refusal tells parameters");
            return Err(answer_of(said));
        }
        let [body_size, header_size, content_type, content_sub_type, priority, start, length] =
            told.map(|word| word as usize);
        Ok(Reading {
            core: Core {
                body_size,
                header_size,
                content_type: content_type as u8,
                content_subtype: content_sub_type as u16,
            },
            priority: u8::try_from(priority).ok(),
            name: (length > 0).then_some(start..start + length),
        })
    }

    pub fn find(&self, name: &[u8]) -> Result<u16, Answer> {
        let said = lent::find(
            &self.state,
            &self.counts,
            name,
            &self.memory.header_store,
            &self.memory.body_store,
            &self.memory.marks,
        );
        match said & 0xFF {
            0 => Ok((said >> 16) as u16),
            refused => Err(answer_of(refused)),
        }
    }

    /// The state's words.
    pub fn state(&self) -> &[u64] {
        &self.state
    }

    /// The words of an independent collector's state.
    pub fn words_of(collector: &Collector) -> Vec<u64> {
        words(&State::of(collector))
    }
}

/// The words of a state.
pub fn words(state: &State) -> Vec<u64> {
    let mut words = vec![state.limit as u64, state.count as u64];
    for slot in &state.slots {
        let (stage, header, body) = match slot.stage {
            StageRecord::Free => (0, 0, 0),
            StageRecord::Gathering => (1, 0, 0),
            StageRecord::Finished { header, body } => (2, header, body),
        };
        words.push(u64::from(slot.transport));
        words.extend([stage, header, body].map(|word| word as u64));
        for part in [slot.header, slot.body] {
            words.extend([part.size, part.end, part.tail].map(|word| word as u64));
        }
        words.push(slot.missing.map_or(0, |bytes| 1 + bytes as u64));
    }
    words
}

/// The state that words hold, or nothing where one of them holds none of its kind: a stage that there
/// is not, or a transport number of more than 16 bits or of missing bytes of more than 32 in a slot
/// that is held.
pub fn state_of(words: &[u64]) -> Option<State> {
    if words.len() != STATE_WORDS {
        return None;
    }
    let word = |place: usize| words[place] as usize;
    let mut state = State {
        limit: word(0),
        count: word(1),
        slots: Default::default(),
    };
    let count = state.count;
    for (number, slot) in state.slots.iter_mut().enumerate().take(count) {
        let first = FIRST_SLOT + SLOT_WORDS * number;
        slot.stage = match word(first + 1) {
            0 => continue,
            1 => StageRecord::Gathering,
            2 => StageRecord::Finished {
                header: word(first + 2),
                body: word(first + 3),
            },
            _ => return None,
        };
        slot.transport = u16::try_from(words[first]).ok()?;
        let part = |first: usize| PartRecord {
            size: word(first),
            end: word(first + 1),
            tail: word(first + 2),
        };
        (slot.header, slot.body) = (part(first + 4), part(first + 7));
        slot.missing = match words[first + 10].checked_sub(1) {
            None => None,
            Some(bytes) => Some(u32::try_from(bytes).ok()? as usize),
        };
    }
    Some(state)
}
