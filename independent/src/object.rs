//! Objects, cuts, the segments that a cut sends, and the search for an object and a cut that send
//! all of some segments (document 01, "One object, one cut"). There is no cleverness in the
//! decision: lengths and segment sizes are tried one after the other.
//!
//! Bytes that no segment carries are free, so of an object only its two lengths, the bytes that
//! segments carry and, once header segment 0 is among them, the core are ever looked at.

use crate::group::{LONGEST_SEGMENT, SHORTEST_FULL_SEGMENT};
use std::ops::RangeInclusive;

/// Bounds of document 01, "Numbers that bound it".
pub const CORE_LENGTH: usize = 7;
pub const HEADER_LENGTHS: RangeInclusive<usize> = CORE_LENGTH..=1_024;
pub const HEADER_SEGMENTS: usize = 64;
pub const BODY_SEGMENTS: usize = 1_024;
pub const BODY_LIMITS: RangeInclusive<usize> = 1_024..=1_048_576;
pub const SEGMENT_SIZES: RangeInclusive<usize> = SHORTEST_FULL_SEGMENT..=LONGEST_SEGMENT;

/// One segment of a part: what matters of it to an object.
#[derive(Clone, Debug, PartialEq, Eq)]
pub struct Piece {
    pub number: u16,
    pub last: bool,
    pub bytes: Vec<u8>,
}

/// The four fields of a header's first seven bytes.
#[derive(Clone, Copy, Debug, PartialEq, Eq)]
pub struct Core {
    /// 28 bits.
    pub body_size: usize,
    /// 13 bits.
    pub header_size: usize,
    /// 6 bits.
    pub content_type: u8,
    /// 9 bits.
    pub content_subtype: u16,
}

impl Core {
    /// The core of a header that begins with these bytes, if there are seven of them.
    pub fn of(header: &[u8]) -> Option<Core> {
        let first = header.get(..CORE_LENGTH)?;
        let bits = first
            .iter()
            .fold(0_u64, |bits, &byte| bits << 8 | u64::from(byte));
        Some(Core {
            body_size: (bits >> 28) as usize,
            header_size: (bits >> 15) as usize & 0x1FFF,
            content_type: (bits >> 9) as u8 & 0x3F,
            content_subtype: bits as u16 & 0x1FF,
        })
    }

    /// The seven bytes of these fields.
    pub fn bytes(&self) -> [u8; CORE_LENGTH] {
        let bits = (self.body_size as u64) << 28
            | (self.header_size as u64) << 15
            | u64::from(self.content_type) << 9
            | u64::from(self.content_subtype);
        let mut bytes = [0; CORE_LENGTH];
        bytes.copy_from_slice(&bits.to_be_bytes()[1..]);
        bytes
    }
}

/// All segments of a part cut at one size.
pub fn cut(part: &[u8], size: usize) -> Vec<Piece> {
    let count = part.len().div_ceil(size);
    part.chunks(size)
        .enumerate()
        .map(|(number, bytes)| Piece {
            number: number as u16,
            last: number + 1 == count,
            bytes: bytes.to_vec(),
        })
        .collect()
}

impl Piece {
    /// The segment that stands for a body without bytes: number 0, last, empty.
    pub fn empty() -> Piece {
        Piece {
            number: 0,
            last: true,
            bytes: Vec::new(),
        }
    }
}

/// Whether a part of this length, cut at this size, sends a segment of this number, flag and
/// length. A part without bytes sends the empty one, or nothing.
fn sends(length: usize, size: usize, piece: &Piece) -> bool {
    if length == 0 {
        return *piece == Piece::empty();
    }
    let start = usize::from(piece.number) * size;
    start < length
        && piece.bytes.len() == size.min(length - start)
        && piece.last == (start + size >= length)
}

/// Whether segments of the same number are the same. Segments of different numbers carry
/// different bytes of a part, whatever the size, so nothing else can clash.
fn agree(pieces: &[Piece]) -> bool {
    let mut by_number: Vec<&Piece> = pieces.iter().collect();
    by_number.sort_by_key(|piece| piece.number);
    by_number
        .windows(2)
        .all(|pair| pair[0].number != pair[1].number || pair[0] == pair[1])
}

/// The bytes of header segment 0, if it is among these.
fn header_start(header: &[Piece]) -> Option<&[u8]> {
    header
        .iter()
        .find(|piece| piece.number == 0)
        .map(|piece| piece.bytes.as_slice())
}

/// Whether some object within the bounds, cut in some way, sends all these segments: every header
/// length, body length and segment size is tried. For a body limit of some thousands; above that
/// it takes too long.
pub fn fits_by_trying_all(limit: usize, header: &[Piece], body: &[Piece]) -> bool {
    let some_cut_sends = |length: usize, segments: usize, pieces: &[Piece]| {
        SEGMENT_SIZES.into_iter().any(|size| {
            length <= segments * size && pieces.iter().all(|piece| sends(length, size, piece))
        })
    };
    let core_says = |header_length: usize, body_length: usize| match header_start(header) {
        None => true,
        Some(start) => Core::of(start)
            .is_some_and(|core| core.header_size == header_length && core.body_size == body_length),
    };
    if !agree(header) || !agree(body) {
        return false;
    }
    let header_lengths: Vec<usize> = HEADER_LENGTHS
        .filter(|&length| some_cut_sends(length, HEADER_SEGMENTS, header))
        .collect();
    if header_lengths.is_empty() {
        return false;
    }
    (0..=limit)
        .filter(|&body_length| {
            header_lengths
                .iter()
                .any(|&header_length| core_says(header_length, body_length))
        })
        .any(|length| some_cut_sends(length, BODY_SEGMENTS, body))
}

/// One segment size, and the lengths that a part can still have if it is cut at it.
struct Choice {
    size: usize,
    shortest: usize,
    longest: usize,
}

impl Choice {
    /// Keeps the lengths with which this size sends the piece; says whether any are left.
    fn narrow(&mut self, piece: &Piece) -> bool {
        let start = usize::from(piece.number) * self.size;
        let end = start + piece.bytes.len();
        if piece.last {
            if piece.bytes.len() > self.size || (piece.bytes.is_empty() && piece.number != 0) {
                return false;
            }
            self.shortest = self.shortest.max(end);
            self.longest = self.longest.min(end);
        } else {
            if piece.bytes.len() != self.size {
                return false;
            }
            self.shortest = self.shortest.max(end + 1);
        }
        self.shortest <= self.longest
    }
}

/// Whether a part of one of these lengths, cut at some size into at most so many segments, sends
/// all these pieces: every size is tried, and for each the lengths that every piece allows.
fn some_cut_sends_all(lengths: RangeInclusive<usize>, segments: usize, pieces: &[Piece]) -> bool {
    SEGMENT_SIZES.into_iter().any(|size| {
        let mut choice = Choice {
            size,
            shortest: *lengths.start(),
            longest: *lengths.end().min(&(segments * size)),
        };
        choice.shortest <= choice.longest && pieces.iter().all(|piece| choice.narrow(piece))
    })
}

/// Whether some object within the bounds, cut in some way, sends all these segments. For any body
/// limit.
pub fn fits(limit: usize, header: &[Piece], body: &[Piece]) -> bool {
    if !agree(header) || !agree(body) {
        return false;
    }
    let (header_lengths, body_lengths) = match header_start(header) {
        None => (HEADER_LENGTHS, 0..=limit),
        Some(start) => match Core::of(start) {
            Some(core) if HEADER_LENGTHS.contains(&core.header_size) && core.body_size <= limit => {
                (
                    core.header_size..=core.header_size,
                    core.body_size..=core.body_size,
                )
            }
            _ => return false,
        },
    };
    some_cut_sends_all(header_lengths, HEADER_SEGMENTS, header)
        && some_cut_sends_all(body_lengths, BODY_SEGMENTS, body)
}

#[cfg(test)]
mod tests {
    use super::*;
    use crate::random::segments;
    use crate::random::Random;

    const LIMIT: usize = 12_288;

    fn piece(number: u16, last: bool, length: usize) -> Piece {
        Piece {
            number,
            last,
            bytes: vec![0; length],
        }
    }

    /// Header segment 0 that says these two lengths and has this length itself.
    fn start(header_size: usize, body_size: usize, last: bool, length: usize) -> Piece {
        let core = Core {
            body_size,
            header_size,
            content_type: 0,
            content_subtype: 0,
        };
        let mut bytes = core.bytes().to_vec();
        bytes.resize(length, 0);
        Piece {
            number: 0,
            last,
            bytes,
        }
    }

    /// A whole header of 7 bytes that says this body size.
    fn says(body_size: usize) -> Vec<Piece> {
        vec![start(7, body_size, true, 7)]
    }

    /// Both searches, which must agree.
    fn both(limit: usize, header: &[Piece], body: &[Piece]) -> bool {
        let quick = fits(limit, header, body);
        assert_eq!(quick, fits_by_trying_all(limit, header, body));
        quick
    }

    #[test]
    fn cores_of_document_01() {
        assert_eq!(
            Core::of(&[0x00, 0x00, 0x01, 0x40, 0x03, 0x80, 0x00]),
            Some(Core {
                body_size: 20,
                header_size: 7,
                content_type: 0,
                content_subtype: 0
            })
        );
        let empty = [0x00, 0x00, 0x00, 0x00, 0x03, 0x84, 0x01];
        let core = Core {
            body_size: 0,
            header_size: 7,
            content_type: 2,
            content_subtype: 1,
        };
        assert_eq!(Core::of(&empty), Some(core));
        assert_eq!(core.bytes(), empty);
        assert_eq!(Core::of(&empty[..6]), None);
    }

    #[test]
    fn core_fields_at_their_widest() {
        let core = Core {
            body_size: 0x0FFF_FFFF,
            header_size: 0x1FFF,
            content_type: 0x3F,
            content_subtype: 0x1FF,
        };
        assert_eq!(core.bytes(), [0xFF; 7]);
        assert_eq!(Core::of(&[0xFF; 7]), Some(core));
    }

    #[test]
    fn nothing_in_fits() {
        assert!(both(1_024, &[], &[]));
    }

    /// Document 01: body last n 3, k 10 is in, then the header says B.
    #[test]
    fn last_of_three_and_ten_bytes() {
        let last = [piece(3, true, 10)];
        assert!(both(LIMIT, &says(100), &last));
        assert!(!both(LIMIT, &says(99), &last));
        assert!(!both(LIMIT, &says(40), &last));
        assert!(both(LIMIT, &says(58), &last));
        assert!(!both(LIMIT, &says(68), &[piece(3, true, 20)]));
    }

    /// Document 01: B 32, S 16.
    #[test]
    fn second_of_two_full_segments() {
        let first = piece(0, false, 16);
        assert!(!both(
            LIMIT,
            &says(32),
            &[first.clone(), piece(1, false, 16)]
        ));
        assert!(both(LIMIT, &says(32), &[first, piece(1, true, 16)]));
    }

    /// Document 01: header segment 0, 16 bytes, not last.
    #[test]
    fn header_size_and_the_first_segment() {
        assert!(!both(LIMIT, &[start(16, 0, false, 16)], &[]));
        assert!(both(LIMIT, &[start(17, 0, false, 16)], &[]));
    }

    /// Document 01: header last alone.
    #[test]
    fn header_last_alone() {
        assert!(both(LIMIT, &[piece(63, true, 16)], &[]));
        assert!(!both(LIMIT, &[piece(63, true, 17)], &[]));
        assert!(!both(LIMIT, &[piece(0, true, 6)], &[]));
    }

    /// A header's length is 7 to 1,024 and its own HeaderSize.
    #[test]
    fn header_lengths() {
        assert!(both(LIMIT, &[start(7, 0, true, 7)], &[]));
        assert!(!both(LIMIT, &[start(8, 0, true, 7)], &[]));
        assert!(both(LIMIT, &[start(1_024, 0, true, 1_024)], &[]));
        assert!(!both(LIMIT, &[start(1_025, 0, true, 1_025)], &[]));
        assert!(!both(LIMIT, &[start(6, 0, true, 6)], &[]));
        assert!(!both(LIMIT, &[start(1_024, 0, false, 1_024)], &[]));
        assert!(both(LIMIT, &[start(1_024, 0, false, 1_023)], &[]));
    }

    /// A segment that isn't last needs one more byte and one more number after it.
    #[test]
    fn highest_numbers() {
        assert!(!both(LIMIT, &[piece(63, false, 16)], &[]));
        assert!(both(LIMIT, &[piece(62, false, 16)], &[]));
        assert!(!both(LIMIT, &[piece(64, true, 1)], &[]));
        let most = *BODY_LIMITS.end();
        assert!(fits(most, &[], &[piece(1_023, true, 16)]));
        assert!(!fits(most, &[], &[piece(1_023, false, 16)]));
        assert!(fits(most, &[], &[piece(1_022, false, 16)]));
        assert!(!fits(most, &[], &[piece(1_024, true, 1)]));
        assert!(!fits(most, &[], &[piece(1_024, false, 16)]));
        assert!(!fits(most, &[], &[piece(32_767, true, 1)]));
        // 1,023 segments of 16 bytes are more than the limit.
        assert!(!both(LIMIT, &[], &[piece(1_023, true, 1)]));
    }

    /// 1,024 segments of 16 bytes reach 16,384 bytes and no further.
    #[test]
    fn small_segments_of_a_long_body() {
        let most = *BODY_LIMITS.end();
        let small = [piece(0, false, 16)];
        assert!(fits(most, &says(16_384), &small));
        assert!(!fits(most, &says(16_385), &small));
        assert!(!fits(most, &says(100_000), &small));
    }

    #[test]
    fn body_size_and_the_limit() {
        assert!(both(LIMIT, &says(LIMIT), &[]));
        assert!(!both(LIMIT, &says(LIMIT + 1), &[]));
        // Also when body segments came first.
        let first = [piece(0, false, 100)];
        assert!(both(LIMIT, &says(LIMIT), &first));
        assert!(!both(LIMIT, &says(LIMIT + 1), &first));
        let most = *BODY_LIMITS.end();
        assert!(fits(most, &says(most), &[]));
        assert!(!fits(most, &says(most + 1), &[]));
        // 1,024 segments of 8,189 bytes, as far as numbers alone could reach.
        assert!(!fits(most, &says(8_385_536), &[piece(0, false, 8_189)]));
        // 128 full segments and one more byte: 1,048,193; another full one is past the limit.
        assert!(fits(most, &[], &[piece(127, false, 8_189)]));
        assert!(!fits(most, &[], &[piece(128, false, 8_189)]));
    }

    /// The last one alone: n times the least S that holds k, and k, at the limit and one over.
    #[test]
    fn last_alone_at_the_limit() {
        // k under 16: S is 16. 767 * 16 + 15 = 12,287; 768 * 16 = 12,288, so k 0 would be left.
        assert!(both(LIMIT, &[], &[piece(767, true, 15)]));
        assert!(!both(LIMIT, &[], &[piece(768, true, 1)]));
        // k from 16: S is k. 2 * 4,096 + 4,096 = 12,288.
        assert!(both(LIMIT, &[], &[piece(2, true, 4_096)]));
        assert!(!both(LIMIT, &[], &[piece(2, true, 4_097)]));
        // 767 * 16 + 16 = 12,288, and 17 bytes want S 17.
        assert!(both(LIMIT, &[], &[piece(767, true, 16)]));
        assert!(!both(LIMIT, &[], &[piece(767, true, 17)]));
        assert!(both(LIMIT, &[], &[piece(0, true, 8_189)]));
    }

    /// With n 0 the last one is the whole body.
    #[test]
    fn last_of_number_zero_is_the_body() {
        assert!(both(LIMIT, &says(5), &[piece(0, true, 5)]));
        assert!(!both(LIMIT, &says(4), &[piece(0, true, 5)]));
        assert!(!both(LIMIT, &says(6), &[piece(0, true, 5)]));
        assert!(!both(LIMIT, &says(0), &[piece(0, true, 5)]));
    }

    /// Document 02, Item 2: a body of length 0 has no segments or the empty one.
    #[test]
    fn the_empty_segment() {
        let empty = [Piece::empty()];
        assert!(both(LIMIT, &[], &empty));
        assert!(both(LIMIT, &says(0), &empty));
        assert!(both(LIMIT, &says(0), &[]));
        assert!(both(LIMIT, &says(0), &[Piece::empty(), Piece::empty()]));
        assert!(!both(LIMIT, &says(1), &empty));
        assert!(!both(LIMIT, &says(LIMIT), &empty));
        // Beside a header that hasn't said the lengths yet.
        assert!(both(LIMIT, &[piece(1, true, 4)], &empty));
        // Beside any other body segment, and for a header.
        for other in [
            piece(0, true, 1),
            piece(0, false, 16),
            piece(1, true, 5),
            piece(1, false, 16),
            piece(1_023, true, 1),
        ] {
            assert!(!both(LIMIT, &[], &[Piece::empty(), other.clone()]));
            assert!(!both(LIMIT, &[], &[other, Piece::empty()]));
        }
        assert!(!both(LIMIT, &empty, &[]));
        // Another number, or not last.
        assert!(!both(LIMIT, &[], &[piece(1, true, 0)]));
        assert!(!both(LIMIT, &[], &[piece(0, false, 0)]));
    }

    #[test]
    fn equal_numbers_must_be_equal_segments() {
        let one = piece(1, false, 20);
        let mut other = one.clone();
        assert!(both(1_024, &[], &[one.clone(), other.clone()]));
        other.bytes[19] = 1;
        assert!(!both(1_024, &[], &[one.clone(), other]));
        assert!(!both(1_024, &[], &[one, piece(1, true, 20)]));
        // A full first segment of one byte difference in the core's ContentType only.
        let header = start(20, 0, false, 16);
        let mut changed = header.clone();
        changed.bytes[5] ^= 0x02;
        assert!(!both(1_024, &[header, changed], &[]));
    }

    #[test]
    fn all_segments_of_a_cut_fit() {
        let mut random = Random::from_seed(5);
        for _ in 0..200 {
            let limit = random.one_of(&[1_024, 12_288]);
            let header_size = random.within(7, 1_024);
            let body_size = random.within(0, limit);
            let mut header = says(body_size)[0].bytes.clone();
            header.resize(header_size, 3);
            header[..7].copy_from_slice(&start(header_size, body_size, true, 7).bytes);
            let header = cut(&header, random.within(16, 1_100));
            let body = cut(&vec![4; body_size], random.within(16, 8_189));
            assert!(fits(limit, &header, &body));
        }
    }

    /// Trying all takes some hundredths of a second for each set at the least limit.
    fn the_two_searches_agree(seed: u64, limit: usize, sets: usize) {
        let mut random = Random::from_seed(seed);
        let mut fitting = 0;
        for _ in 0..sets {
            let set = segments::near_the_bounds(&mut random, limit);
            let quick = fits(limit, &set.header, &set.body);
            let slow = fits_by_trying_all(limit, &set.header, &set.body);
            assert_eq!(quick, slow, "{set:?}");
            fitting += usize::from(quick);
        }
        assert!(fitting > sets / 5 && fitting < sets * 4 / 5, "{fitting}");
    }

    #[test]
    fn the_two_searches_agree_on_one_seed() {
        the_two_searches_agree(6, 1_024, 1_000);
    }

    #[test]
    fn the_two_searches_agree_on_another_seed() {
        the_two_searches_agree(60, 1_024, 1_000);
    }

    /// A limit above 16,384, where 1,024 segments of the least size don't reach it.
    #[test]
    fn the_two_searches_agree_on_longer_bodies() {
        the_two_searches_agree(61, 16_500, 60);
    }
}
