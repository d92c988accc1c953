//! The worked cases of document 01, "Both sides of the line", others at each bound and those of the
//! empty last segment, with the search's verdict on each, one case a line. Program `crates/cases`
//! runs the same cases on the proved decision, and what it must write is what this one writes.

use independent::collector::{Held, Stage};
use independent::object::{fits, fits_by_trying_all, Core, Piece};

const LIMIT: usize = 12_288;
const MOST: usize = 1_048_576;

/// Up to this body limit every body length is tried too, where no header says it.
const TRIED: usize = 16_400;

fn piece(number: u16, last: bool, length: usize) -> Piece {
    Piece {
        number,
        last,
        bytes: vec![0; length],
    }
}

fn full(number: u16, length: usize) -> Piece {
    piece(number, false, length)
}

fn last(number: u16, length: usize) -> Piece {
    piece(number, true, length)
}

/// This header segment 0 with these two lengths written into its core.
fn saying(mut first: Piece, header_size: usize, body_size: usize) -> Piece {
    let core = Core {
        body_size,
        header_size,
        content_type: 0,
        content_subtype: 0,
    };
    first.bytes[..7].copy_from_slice(&core.bytes());
    first
}

/// A whole header of 7 bytes that says this body size.
fn says(body_size: usize) -> Piece {
    saying(last(0, 7), 7, body_size)
}

fn shown(part: &str, piece: &Piece) -> String {
    let flag = if piece.last { "last" } else { "not last" };
    let (number, length) = (piece.number, piece.bytes.len());
    format!("; {part} {number}, {flag}, length {length}")
}

fn case(limit: usize, header: &[Piece], body: &[Piece]) {
    let held = Held {
        transport: 0,
        header: header.to_vec(),
        body: body.to_vec(),
    };
    let found = fits(limit, header, body);
    if limit <= TRIED || held.core().is_some() {
        assert_eq!(found, fits_by_trying_all(limit, header, body));
    }
    let mut line = format!("limit {limit}");
    for piece in header {
        line += &shown("header", piece);
    }
    if let Some(core) = held.core() {
        let (header_size, body_size) = (core.header_size, core.body_size);
        line += &format!(", HeaderSize {header_size}, BodySize {body_size}");
    }
    for piece in body {
        line += &shown("body", piece);
    }
    let verdict = match held.stage() {
        _ if !found => "conflicts",
        Stage::Finished { .. } => "completes",
        Stage::Gathering => "fits",
    };
    println!("{line}: {verdict}");
}

fn cases_of_document_01() {
    case(LIMIT, &[says(20)], &[]);
    case(LIMIT, &[says(0)], &[]);
    for body_size in [100, 99, 40, 58] {
        case(LIMIT, &[says(body_size)], &[last(3, 10)]);
    }
    case(LIMIT, &[says(68)], &[last(3, 20)]);
    case(LIMIT, &[says(32)], &[full(0, 16), full(1, 16)]);
    case(LIMIT, &[says(32)], &[full(0, 16), last(1, 16)]);
    case(LIMIT, &[saying(full(0, 16), 16, 0)], &[]);
    case(LIMIT, &[saying(full(0, 16), 17, 0)], &[]);
    for (number, length) in [(63, 16), (63, 17), (0, 6)] {
        case(LIMIT, &[last(number, length)], &[]);
    }
}

/// A header's numbers and lengths, and the body size that it says.
fn cases_of_headers() {
    case(LIMIT, &[last(64, 7)], &[]);
    case(LIMIT, &[full(62, 16)], &[]);
    case(LIMIT, &[full(63, 16)], &[]);
    case(LIMIT, &[saying(last(0, 1_024), 1_024, 0)], &[]);
    case(LIMIT, &[saying(last(0, 1_025), 1_025, 0)], &[]);
    for limit in [1_024, LIMIT, MOST] {
        case(limit, &[says(limit)], &[]);
        case(limit, &[says(limit + 1)], &[]);
    }
}

/// A body's numbers and sizes, and how far they reach.
fn cases_of_bodies() {
    case(MOST, &[says(16_384)], &[full(0, 16)]);
    case(MOST, &[says(16_385)], &[full(0, 16)]);
    case(16_384, &[], &[last(1_023, 16)]);
    case(16_384, &[], &[full(1_022, 16)]);
    case(16_384, &[], &[full(1_023, 16)]);
    case(16_400, &[], &[last(1_024, 1)]);
    case(MOST, &[], &[last(1_023, 16)]);
    case(MOST, &[], &[full(1_023, 16)]);
    case(MOST, &[], &[last(1_024, 16)]);
    case(MOST, &[], &[full(1_024, 16)]);
    case(MOST, &[says(MOST)], &[full(0, 8_189)]);
    case(MOST, &[says(MOST)], &[full(0, 8_190)]);
    case(MOST, &[says(8_385_536)], &[full(0, 8_189)]);
}

/// The last one alone, number n of length k: n times the greater of 16 and k, and k, at the limit
/// and one or as little as can be over.
fn cases_of_the_last_alone() {
    for (limit, number, length) in [
        (1_024, 63, 16),
        (1_024, 63, 17),
        (LIMIT, 767, 16),
        (LIMIT, 767, 17),
        (LIMIT, 768, 1),
        (LIMIT, 511, 24),
        (LIMIT - 1, 511, 24),
        (LIMIT, 2, 4_096),
        (LIMIT, 2, 4_097),
        (MOST, 1_023, 1_024),
        (MOST, 1_023, 1_025),
        (MOST, 127, 8_189),
        (MOST, 128, 8_128),
        (MOST, 128, 8_129),
    ] {
        case(limit, &[], &[last(number, length)]);
    }
}

/// Two segments of a part: there is one last one, no shorter one is full, and no longer one last.
fn cases_of_two_segments() {
    case(LIMIT, &[], &[full(0, 16), full(1, 17)]);
    case(LIMIT, &[], &[full(0, 17), full(1, 17)]);
    case(LIMIT, &[], &[last(1, 16), last(2, 16)]);
    case(LIMIT, &[], &[full(0, 16), last(1, 17)]);
    case(LIMIT, &[], &[full(0, 17), last(1, 17)]);
    case(LIMIT, &[], &[full(1, 16), last(1_023, 16)]);
    case(LIMIT, &[], &[full(2, 16), last(1, 16)]);
}

/// The empty last segment: with BodySize 0 or before it is said, and with nothing else of the body.
fn cases_of_the_empty_segment() {
    case(LIMIT, &[], &[last(0, 0)]);
    case(LIMIT, &[], &[last(1, 0)]);
    case(LIMIT, &[], &[full(0, 0)]);
    case(LIMIT, &[last(0, 0)], &[]);
    for (limit, body_size) in [(LIMIT, 0), (LIMIT, 1), (LIMIT, LIMIT), (MOST, MOST)] {
        case(limit, &[says(body_size)], &[last(0, 0)]);
    }
    for other in [last(1, 5), full(1, 16)] {
        case(LIMIT, &[], &[last(0, 0), other.clone()]);
        case(LIMIT, &[], &[other, last(0, 0)]);
    }
}

fn main() {
    cases_of_document_01();
    cases_of_headers();
    cases_of_bodies();
    cases_of_the_last_alone();
    cases_of_two_segments();
    cases_of_the_empty_segment();
}
