//! The groups of one round: each slot's object, cut into segments of one size, its header first,
//! the objects interleaved.

use independent::group::{Fields, Part};
use independent::object::{Core, CORE_LENGTH};

/// What the timed groups are.
#[derive(Clone, Copy, Debug, PartialEq, Eq)]
pub enum Kind {
    New,
    Repeats,
    Refusals,
}

impl Kind {
    pub const ALL: [Kind; 3] = [Kind::New, Kind::Repeats, Kind::Refusals];

    pub fn name(self) -> &'static str {
        match self {
            Kind::New => "new",
            Kind::Repeats => "repeats",
            Kind::Refusals => "refusals",
        }
    }

    /// The answers that the timed groups must get: STORED and COMPLETE, REPEAT, or BADCHECK.
    pub fn answers(self) -> &'static [u8] {
        match self {
            Kind::New => &[0, 1],
            Kind::Repeats => &[2],
            Kind::Refusals => &[12],
        }
    }
}

pub struct Round {
    pub kind: Kind,
    /// Transport numbers from 0 that the round uses.
    pub numbers: u16,
    /// Groups taken before the clock runs.
    pub before: Vec<Vec<u8>>,
    pub timed: Vec<Vec<u8>>,
}

/// So many segments of an object are sent.
const SEGMENTS: usize = 60;

impl Round {
    pub fn new(kind: Kind, size: usize, slots: usize, limit: usize) -> Round {
        let count = SEGMENTS.min(limit / size);
        let headers: Vec<_> = (0..slots)
            .map(|number| header(number as u16, size * count))
            .collect();
        let mut bodies = Vec::new();
        for segment in 0..count {
            for number in 0..slots {
                bodies.push(body(number as u16, segment, segment + 1 == count, size));
            }
        }
        let (before, timed) = match kind {
            Kind::New => (headers, bodies),
            Kind::Repeats => ([headers, bodies.clone()].concat(), bodies),
            Kind::Refusals => {
                let spoilt = bodies.iter().map(|group| {
                    let mut group = group.clone();
                    *group.last_mut().expect("a group has a check word") ^= 1;
                    group
                });
                (headers, spoilt.collect())
            }
        };
        Round {
            kind,
            numbers: slots as u16,
            before,
            timed,
        }
    }
}

fn header(number: u16, body_size: usize) -> Vec<u8> {
    let core = Core {
        body_size,
        header_size: CORE_LENGTH,
        content_type: 2,
        content_subtype: 1,
    };
    Fields::of_segment(number, Part::Header, 0, true, &core.bytes()).whole()
}

fn body(number: u16, segment: usize, last: bool, size: usize) -> Vec<u8> {
    let bytes: Vec<u8> = (0..size).map(|i| (i * 31 + segment * 7) as u8).collect();
    Fields::of_segment(number, Part::Body, segment as u16, last, &bytes).whole()
}
