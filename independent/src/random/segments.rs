//! Sets of segments near the bounds, to compare two decisions on: some segments of one cut of one
//! object, where the object's lengths and the cut's sizes are taken at or beside a bound, and in
//! half the sets one thing about one segment made wrong.

use super::Random;
use crate::object::{Core, Piece, BODY_SEGMENTS, HEADER_SEGMENTS};

/// Header segments and body segments that may or may not fit an object within a body limit.
#[derive(Clone, Debug)]
pub struct Set {
    pub limit: usize,
    pub header: Vec<Piece>,
    pub body: Vec<Piece>,
}

/// One set for this body limit.
pub fn near_the_bounds(random: &mut Random, limit: usize) -> Set {
    let header_length = match random.within(0, 5) {
        0 => random.within(6, 9),
        1 => random.within(15, 33),
        2 => random.within(1_022, 1_025),
        _ => random.within(7, 1_024),
    };
    let header_size = segment_size(random, header_length, HEADER_SEGMENTS);
    let body_length = match random.within(0, 7) {
        0 => random.within(0, 2),
        1 => limit - random.within(0, 2),
        2 => limit + 1,
        3 => random.within(15, 33),
        4 => (16 * BODY_SEGMENTS + random.within(0, 4)).min(limit + 1) - 2,
        _ => random.within(0, limit),
    };
    let body_size = segment_size(random, body_length, BODY_SEGMENTS);
    let mut set = if random.once_in(4) {
        Set {
            limit,
            header: lone_last(random, 1_024, HEADER_SEGMENTS),
            body: lone_last(random, limit, BODY_SEGMENTS),
        }
    } else {
        Set {
            limit,
            header: some_of_a_cut(random, header_length, header_size),
            body: some_of_a_cut(random, body_length, body_size),
        }
    };
    let core = Core {
        body_size: body_length,
        header_size: header_length,
        content_type: random.byte() & 0x3F,
        content_subtype: random.word() as u16 & 0x1FF,
    };
    write_core(&mut set.header, core);
    if random.coin() {
        spoil(random, &mut set, core);
    }
    random.shuffle(&mut set.header);
    random.shuffle(&mut set.body);
    set
}

/// This number, the one before it or the one after it.
fn beside(random: &mut Random, number: usize) -> usize {
    (number + random.within(0, 2)).saturating_sub(1)
}

/// A segment size at or beside a bound, or such that this length comes out even or nearly so.
fn segment_size(random: &mut Random, length: usize, segments: usize) -> usize {
    let size = match random.within(0, 7) {
        0 => random.within(16, 18),
        1 => random.within(8_187, 8_189),
        2 => length,
        3 => beside(random, length),
        4 => length / random.within(1, 70),
        5 => beside(random, length.div_ceil(segments)),
        6 => random.within(16, 200),
        _ => random.within(16, 8_189),
    };
    size.clamp(16, 8_189)
}

/// Up to five segments of a part of this length and cut, the first and the last ones most often.
fn some_of_a_cut(random: &mut Random, length: usize, size: usize) -> Vec<Piece> {
    let count = length.div_ceil(size).min(32_768);
    if count == 0 {
        return vec![Piece::empty(); random.within(0, 2)];
    }
    (0..random.within(0, 5))
        .map(|_| {
            let number = match random.within(0, 4) {
                0 => 0,
                1 => count - 1,
                2 => count.saturating_sub(2),
                _ => random.within(0, count - 1),
            };
            let start = number * size;
            Piece {
                number: number as u16,
                last: start + size >= length,
                bytes: vec![0; size.min(length - start)],
            }
        })
        .collect()
}

/// A last segment alone whose least length of the part, with the least size that can hold it, is
/// at or beside the most that the part may have; or nothing, so that the other part decides.
fn lone_last(random: &mut Random, most: usize, segments: usize) -> Vec<Piece> {
    if random.once_in(3) {
        return Vec::new();
    }
    let number = random.within(0, (segments + 1).min(most / 16 + 1));
    let length = if random.coin() {
        (most + 1) / (number + 1)
    } else {
        most.saturating_sub(16 * number) + random.within(0, 1)
    };
    vec![Piece {
        number: number as u16,
        last: true,
        bytes: vec![0; length.clamp(1, 8_189)],
    }]
}

/// Writes a core into every header segment 0 that has room for it.
fn write_core(header: &mut [Piece], core: Core) {
    for piece in header.iter_mut().filter(|piece| piece.number == 0) {
        if let Some(first) = piece.bytes.get_mut(..7) {
            first.copy_from_slice(&core.bytes());
        }
    }
}

/// Makes one thing wrong, by as little as there is, so that a group can still carry it.
fn spoil(random: &mut Random, set: &mut Set, mut core: Core) {
    let body_sized = [
        core.body_size.saturating_sub(1),
        core.body_size + 1,
        set.limit,
        set.limit + 1,
        core.body_size / 2,
        0x0FFF_FFFF,
    ];
    match random.within(0, 11) {
        0 | 1 => {
            core.body_size = random.one_of(&body_sized);
            write_core(&mut set.header, core);
            return;
        }
        2 => {
            core.header_size = beside(random, core.header_size);
            write_core(&mut set.header, core);
            return;
        }
        3 => {
            let place = random.within(0, set.body.len());
            set.body.insert(place, Piece::empty());
            return;
        }
        _ => (),
    }
    let pieces = if random.coin() {
        &mut set.header
    } else {
        &mut set.body
    };
    if pieces.is_empty() {
        return;
    }
    let place = random.within(0, pieces.len() - 1);
    let piece = &mut pieces[place];
    if piece.bytes.is_empty() {
        piece.bytes.push(0);
        return;
    }
    match random.within(0, 6) {
        0 => piece.number = (piece.number + 1).min(32_767),
        1 => piece.number = piece.number.saturating_sub(1),
        2 => piece.last = !piece.last,
        3 if piece.bytes.len() < 8_189 => piece.bytes.push(0),
        4 if piece.bytes.len() > 1 => {
            piece.bytes.pop();
        }
        5 => {
            let mut other = piece.clone();
            let byte = random.within(0, other.bytes.len() - 1);
            other.bytes[byte] ^= 1 << random.within(0, 7);
            pieces.push(other);
        }
        _ => {
            let mut other = piece.clone();
            other.number = random.within(0, 1_100) as u16;
            pieces.push(other);
        }
    }
}

#[cfg(test)]
mod tests {
    use super::*;
    use crate::object::fits;

    #[test]
    fn both_verdicts_are_common_at_every_limit() {
        for limit in [1_024, 12_288, 1_048_576] {
            let mut random = Random::from_seed(7);
            let fitting = (0..2_000)
                .filter(|_| {
                    let set = near_the_bounds(&mut random, limit);
                    fits(limit, &set.header, &set.body)
                })
                .count();
            assert!(fitting > 400 && fitting < 1_600, "{limit}: {fitting}");
        }
    }

    /// What passes the reading checks is all that a decision is ever asked about.
    #[test]
    fn pieces_are_such_as_groups_can_carry() {
        let mut random = Random::from_seed(8);
        for _ in 0..2_000 {
            let set = near_the_bounds(&mut random, 12_288);
            for piece in set.header.iter().chain(&set.body) {
                assert!((1..=8_189).contains(&piece.bytes.len()) || *piece == Piece::empty());
                assert!(piece.number <= 32_767);
            }
            assert!(!set.header.contains(&Piece::empty()));
        }
    }

    /// With the empty segment, sets that fit and sets that don't.
    #[test]
    fn the_empty_segment_comes_up_both_ways() {
        let mut random = Random::from_seed(9);
        let sets = (0..4_000).map(|_| near_the_bounds(&mut random, 12_288));
        let (fitting, others): (Vec<Set>, Vec<Set>) = sets
            .filter(|set| set.body.contains(&Piece::empty()))
            .partition(|set| fits(set.limit, &set.header, &set.body));
        let counts = (fitting.len(), others.len());
        assert!(counts.0 > 40 && counts.1 > 40, "{counts:?}");
    }
}
