//! The answers of document 01, "What comes back": their numbers, their names and what each
//! returns beside itself.

use crate::group::{Part, Repetition};

/// Every answer, with document 01's number; 23 is retired (document 02, Item 14).
#[derive(Clone, Copy, Debug, PartialEq, Eq, PartialOrd, Ord, Hash)]
pub enum Answer {
    Stored = 0,
    Complete = 1,
    Repeat = 2,
    Dropped = 3,
    Length = 10,
    NoCheck = 11,
    BadCheck = 12,
    Kind = 13,
    NoSegment = 14,
    Address = 15,
    Size = 16,
    Conflict = 17,
    Full = 18,
    NotHeld = 19,
    Unfinished = 20,
    Header = 21,
    Duplicate = 22,
    NotFound = 24,
    Limits = 25,
    State = 26,
}

impl Answer {
    pub const ALL: [Answer; 20] = [
        Answer::Stored,
        Answer::Complete,
        Answer::Repeat,
        Answer::Dropped,
        Answer::Length,
        Answer::NoCheck,
        Answer::BadCheck,
        Answer::Kind,
        Answer::NoSegment,
        Answer::Address,
        Answer::Size,
        Answer::Conflict,
        Answer::Full,
        Answer::NotHeld,
        Answer::Unfinished,
        Answer::Header,
        Answer::Duplicate,
        Answer::NotFound,
        Answer::Limits,
        Answer::State,
    ];

    pub fn number(self) -> u8 {
        self as u8
    }

    pub fn name(self) -> &'static str {
        match self {
            Answer::Stored => "STORED",
            Answer::Complete => "COMPLETE",
            Answer::Repeat => "REPEAT",
            Answer::Dropped => "DROPPED",
            Answer::Length => "LENGTH",
            Answer::NoCheck => "NOCHECK",
            Answer::BadCheck => "BADCHECK",
            Answer::Kind => "KIND",
            Answer::NoSegment => "NOSEGMENT",
            Answer::Address => "ADDRESS",
            Answer::Size => "SIZE",
            Answer::Conflict => "CONFLICT",
            Answer::Full => "FULL",
            Answer::NotHeld => "NOTHELD",
            Answer::Unfinished => "UNFINISHED",
            Answer::Header => "HEADER",
            Answer::Duplicate => "DUPLICATE",
            Answer::NotFound => "NOTFOUND",
            Answer::Limits => "LIMITS",
            Answer::State => "STATE",
        }
    }
}

/// An answer to a group or a drop, with the transport number, part and segment number where it
/// returns them, and what the sender says of repeats where it passes that up.
#[derive(Clone, Copy, Debug, PartialEq, Eq)]
pub struct Reply {
    pub answer: Answer,
    pub transport: Option<u16>,
    pub part: Option<Part>,
    pub segment: Option<u16>,
    /// With STORED, COMPLETE and REPEAT alone.
    pub repetition: Option<Repetition>,
}

impl Reply {
    /// An answer that returns only itself.
    pub fn bare(answer: Answer) -> Reply {
        Reply {
            answer,
            transport: None,
            part: None,
            segment: None,
            repetition: None,
        }
    }

    /// An answer about a transport number.
    pub fn of_number(answer: Answer, transport: u16) -> Reply {
        Reply {
            transport: Some(transport),
            ..Reply::bare(answer)
        }
    }

    /// An answer about one segment, without what its sender says of repeats: CONFLICT or FULL.
    pub fn of_segment(answer: Answer, transport: u16, part: Part, segment: u16) -> Reply {
        Reply {
            part: Some(part),
            segment: Some(segment),
            ..Reply::of_number(answer, transport)
        }
    }

    /// The same answer with what the sender of the group says of repeats.
    pub fn with(self, repetition: Repetition) -> Reply {
        Reply {
            repetition: Some(repetition),
            ..self
        }
    }
}

#[cfg(test)]
mod tests {
    use super::Answer;

    #[test]
    fn numbers_and_names_of_document_01() {
        let table = [
            (0, "STORED"),
            (1, "COMPLETE"),
            (2, "REPEAT"),
            (3, "DROPPED"),
            (10, "LENGTH"),
            (11, "NOCHECK"),
            (12, "BADCHECK"),
            (13, "KIND"),
            (14, "NOSEGMENT"),
            (15, "ADDRESS"),
            (16, "SIZE"),
            (17, "CONFLICT"),
            (18, "FULL"),
            (19, "NOTHELD"),
            (20, "UNFINISHED"),
            (21, "HEADER"),
            (22, "DUPLICATE"),
            (24, "NOTFOUND"),
            (25, "LIMITS"),
            (26, "STATE"),
        ];
        let ours = Answer::ALL.map(|answer| (answer.number(), answer.name()));
        assert_eq!(ours, table);
    }
}
