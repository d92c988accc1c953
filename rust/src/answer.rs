//! The answers of document 01, "What comes back", and what is returned with them.

/// An answer, with document 01's number. None has number 23, and none will.
#[derive(Clone, Copy, Debug, PartialEq, Eq, Hash)]
#[repr(u8)]
pub enum Answer {
    /// A new segment, and it does not finish the object.
    Stored = 0,
    /// A new segment; the object is now finished. Once for an object.
    Complete = 1,
    /// A segment that is in already.
    Repeat = 2,
    /// A held number is dropped.
    Dropped = 3,
    /// A size out of bounds, or a field missing.
    Length = 10,
    /// No check word.
    NoCheck = 11,
    /// The check word differs.
    BadCheck = 12,
    /// Neither a header nor a body segment.
    Kind = 13,
    /// No segment field or no user access field.
    NoSegment = 14,
    /// No transport number.
    Address = 15,
    /// The segment's size field is wrong.
    Size = 16,
    /// No object and cut could have sent it with what is stored under its number.
    Conflict = 17,
    /// Its number holds no slot, and none is free.
    Full = 18,
    /// The number holds no slot.
    NotHeld = 19,
    /// The object is not finished.
    Unfinished = 20,
    /// The header's parameter list is broken.
    Header = 21,
    /// A single parameter comes twice.
    Duplicate = 22,
    /// No finished object has the name.
    NotFound = 24,
    /// An opening outside the bounds, or a lent length is wrong.
    Limits = 25,
    /// The state is damaged.
    State = 26,
}

impl Answer {
    /// All answers, in the order of their numbers.
    pub const ALL: [Answer; 20] = [
        Answer::Stored,
        Answer::Complete,
        Answer::Repeat,
        Answer::Dropped,
        Answer::Length,
        Answer::NoCheck,
        Answer::BadCheck,
        Answer::Kind,
        Answer::NoSegment,
        Answer::Address,
        Answer::Size,
        Answer::Conflict,
        Answer::Full,
        Answer::NotHeld,
        Answer::Unfinished,
        Answer::Header,
        Answer::Duplicate,
        Answer::NotFound,
        Answer::Limits,
        Answer::State,
    ];

    /// Document 01's number.
    pub fn number(self) -> u8 {
        self as u8
    }

    /// The answer of a number that a call returned.
    pub(crate) fn of(number: u64) -> Answer {
        Answer::ALL
            .into_iter()
            .find(|answer| u64::from(answer.number()) == number)
            .expect("the library is proved to return no other number")
    }
}

/// Which part of an object.
#[derive(Clone, Copy, Debug, PartialEq, Eq, Hash)]
pub enum Part {
    Header,
    Body,
}

/// The segment that an answer speaks of.
#[derive(Clone, Copy, Debug, PartialEq, Eq, Hash)]
pub struct Segment {
    pub number: u16,
    pub part: Part,
    pub segment: u16,
}

/// What the sender says of sending a group again. Groups that differ only in this, in the end user
/// address and in the check word are one segment.
#[derive(Clone, Copy, Debug, PartialEq, Eq, Hash)]
pub struct Repetition {
    /// The repetition index: this group is to be sent so many more times; 15: no number said.
    pub index: u8,
    /// The continuity index: one more, modulo 16, for each group of its type with new content.
    pub continuity: u8,
    /// The repetition count: the object is to be sent so many more times; 7: more, or no end.
    pub count: u8,
}

/// What a group or a drop is answered.
#[derive(Clone, Copy, Debug, PartialEq, Eq)]
pub struct Reply {
    pub answer: Answer,
    /// The transport number, part and segment number, where the answer returns them.
    pub segment: Option<Segment>,
    /// With [`Answer::Stored`], [`Answer::Complete`] and [`Answer::Repeat`].
    pub repetition: Option<Repetition>,
}

impl Reply {
    /// The reply that a word says.
    pub fn of(word: u64) -> Reply {
        let answer = Answer::of(word & 0xFF);
        let taken = matches!(answer, Answer::Stored | Answer::Complete | Answer::Repeat);
        let returns = taken || matches!(answer, Answer::Conflict | Answer::Full);
        let part = if word >> 8 & 0xFF == 0 {
            Part::Header
        } else {
            Part::Body
        };
        Reply {
            answer,
            segment: returns.then_some(Segment {
                number: (word >> 16) as u16,
                part,
                segment: (word >> 32) as u16,
            }),
            repetition: taken.then_some(Repetition {
                index: (word >> 48 & 0xF) as u8,
                continuity: (word >> 52 & 0xF) as u8,
                count: (word >> 56 & 0x7) as u8,
            }),
        }
    }
}
