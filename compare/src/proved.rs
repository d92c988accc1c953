//! The proved functions, as crate `comparison` exports them. Nothing checks these declarations
//! against the source, so they are few and on numbers and slices alone.

use independent::answer::Answer;
use independent::group::{Part, Reading, Refusal, Repetition, Segment};
use independent::header;
use independent::object::{Core, Piece};

extern "C" {
    fn compared_check_word(bytes: *const u8, length: usize) -> u16;
    fn compared_reading(group: *const u8, length: usize, field: u8) -> u64;
    fn compared_accepts(
        part: u8,
        limit: usize,
        seen: bool,
        body: usize,
        header: usize,
        header_top: usize,
        header_size: usize,
        header_end: usize,
        header_tail: usize,
        body_top: usize,
        body_size: usize,
        body_end: usize,
        body_tail: usize,
        number: u16,
        last: bool,
        bytes: *const u8,
        length: usize,
    ) -> bool;
    fn compared_kept(
        last: bool,
        number: u16,
        length: usize,
        top: usize,
        size: usize,
        end: usize,
        tail: usize,
        field: u8,
    ) -> usize;
    fn compared_body_size(bytes: *const u8, length: usize) -> u32;
    fn compared_header_size(bytes: *const u8, length: usize) -> u16;
    fn compared_header(header: *const u8, length: usize, field: u8) -> u64;
    fn compared_name_matches(
        data: *const u8,
        data_length: usize,
        asked: *const u8,
        asked_length: usize,
    ) -> bool;
}

pub fn check_word(bytes: &[u8]) -> u16 {
    // SAFETY: a slice's own pointer and length; the function is proved to read nothing else.
    unsafe { compared_check_word(bytes.as_ptr(), bytes.len()) }
}

fn field(group: &[u8], number: u8) -> u64 {
    // SAFETY: as above.
    unsafe { compared_reading(group.as_ptr(), group.len(), number) }
}

/// What the proved reader makes of a group, in the independent program's words.
pub fn reading(group: &[u8]) -> Reading {
    let refused = field(group, 0);
    if refused != 0 {
        let told = [7, 8, 9, 10, 11].map(|number| field(group, number));
        assert_eq!(told, [0; 5], "a refusal tells of repeats or of an address");
        let refusal = Refusal::ALL
            .into_iter()
            .find(|refusal| refusal.answer() as u64 == refused);
        return Err(refusal.expect("a refusal's number is one of document 01's"));
    }
    Ok(Segment {
        transport: field(group, 1) as u16,
        part: match field(group, 2) {
            0 => Part::Header,
            _ => Part::Body,
        },
        number: field(group, 3) as u16,
        last: field(group, 4) == 1,
        start: field(group, 5) as usize,
        length: field(group, 6) as usize,
        repetition: Repetition {
            index: field(group, 7) as u8,
            continuity: field(group, 8) as u8,
            count: field(group, 9) as u8,
        },
        address_start: field(group, 10) as usize,
        address_length: field(group, 11) as usize,
    })
}

fn header_field(header: &[u8], number: u8) -> u64 {
    // SAFETY: as above.
    unsafe { compared_header(header.as_ptr(), header.len(), number) }
}

/// What the proved reader makes of a header, in the independent program's words.
pub fn header(header: &[u8]) -> Result<header::Reading, Answer> {
    let field = |number| header_field(header, number);
    let refused = field(0);
    if refused != 0 {
        let mut answers = Answer::ALL.into_iter();
        let answer = answers.find(|answer| u64::from(answer.number()) == refused);
        return Err(answer.expect("a refusal's number is one of document 01's"));
    }
    let (start, size) = (field(6) as usize, field(7) as usize);
    Ok(header::Reading {
        core: Core {
            body_size: field(1) as usize,
            header_size: field(2) as usize,
            content_type: field(3) as u8,
            content_subtype: field(4) as u16,
        },
        priority: field(5).checked_sub(1).map(|byte| byte as u8),
        name: (size > 0).then_some(start..start + size),
    })
}

/// Whether the proved reader finds this name in a header: a part of it, matched.
pub fn has_name(header: &[u8], asked: &[u8]) -> bool {
    let Ok(header::Reading {
        name: Some(name), ..
    }) = self::header(header)
    else {
        return false;
    };
    let data = &header[name];
    // SAFETY: two slices' own pointers and lengths.
    unsafe { compared_name_matches(data.as_ptr(), data.len(), asked.as_ptr(), asked.len()) }
}

/// What is kept of the segments of a part.
#[derive(Clone, Copy, Debug, Default)]
struct Kept {
    top: usize,
    size: usize,
    end: usize,
    tail: usize,
}

impl Kept {
    fn with(&self, piece: &Piece) -> Kept {
        // SAFETY: numbers alone.
        let field = |number| unsafe {
            compared_kept(
                piece.last,
                piece.number,
                piece.bytes.len(),
                self.top,
                self.size,
                self.end,
                self.tail,
                number,
            )
        };
        Kept {
            top: field(0),
            size: field(1),
            end: field(2),
            tail: field(3),
        }
    }
}

/// The numbers that are kept of an object's segments: all that the decision goes by.
#[derive(Clone, Copy, Debug, Default)]
pub struct Numbers {
    seen: bool,
    body_size: usize,
    header_size: usize,
    header: Kept,
    body: Kept,
}

impl Numbers {
    /// The proved decision on a segment of a new number.
    pub fn accept(&self, limit: usize, part: Part, piece: &Piece) -> bool {
        // SAFETY: numbers, and a slice's own pointer and length.
        unsafe {
            compared_accepts(
                match part {
                    Part::Header => 0,
                    Part::Body => 1,
                },
                limit,
                self.seen,
                self.body_size,
                self.header_size,
                self.header.top,
                self.header.size,
                self.header.end,
                self.header.tail,
                self.body.top,
                self.body.size,
                self.body.end,
                self.body.tail,
                piece.number,
                piece.last,
                piece.bytes.as_ptr(),
                piece.bytes.len(),
            )
        }
    }

    /// Keeps a segment that was accepted.
    pub fn keep(&mut self, part: Part, piece: &Piece) {
        match part {
            Part::Header => self.header = self.header.with(piece),
            Part::Body => self.body = self.body.with(piece),
        }
        if part == Part::Header && piece.number == 0 {
            let bytes = &piece.bytes;
            self.seen = true;
            // SAFETY: as above.
            unsafe {
                self.body_size = compared_body_size(bytes.as_ptr(), bytes.len()) as usize;
                self.header_size = compared_header_size(bytes.as_ptr(), bytes.len()) as usize;
            }
        }
    }
}
