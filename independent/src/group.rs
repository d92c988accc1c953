//! One group off the wire: read into a segment and what its sender says of repeating it, or refused,
//! in the order of document 01; and built from fields, every ignored one among them, for those who
//! need groups to hand in.

use crate::answer::Answer;
use crate::check_word;

/// Bounds of document 01, "Numbers that bound it".
pub const SHORTEST_GROUP: usize = 2;
pub const LONGEST_GROUP: usize = 8_215;
pub const LONGEST_SEGMENT: usize = 8_189;
pub const SHORTEST_FULL_SEGMENT: usize = 16;

const CHECK_LENGTH: usize = 2;

/// Which part of an object a segment belongs to.
#[derive(Clone, Copy, Debug, PartialEq, Eq, PartialOrd, Ord, Hash)]
pub enum Part {
    Header,
    Body,
}

/// What the sender says of sending a group again (document 02, Item 6). It makes no other segment.
#[derive(Clone, Copy, Debug, Default, PartialEq, Eq, PartialOrd, Ord, Hash)]
pub struct Repetition {
    /// The repetition index, 4 bits.
    pub index: u8,
    /// The continuity index, 4 bits.
    pub continuity: u8,
    /// The repetition count, 3 bits.
    pub count: u8,
}

/// What a group that passes the reading checks carries. Its bytes are
/// `group[start..start + length]`, and those of its end user address
/// `group[address_start..address_start + address_length]`.
#[derive(Clone, Copy, Debug, PartialEq, Eq)]
pub struct Segment {
    pub transport: u16,
    pub part: Part,
    pub number: u16,
    pub last: bool,
    pub start: usize,
    pub length: usize,
    pub repetition: Repetition,
    /// Right after the transport number, where there is no address too.
    pub address_start: usize,
    pub address_length: usize,
}

impl Segment {
    /// The segment's bytes, in the group that it was read from.
    pub fn bytes<'group>(&self, group: &'group [u8]) -> &'group [u8] {
        &group[self.start..self.start + self.length]
    }

    /// The end user address, in the group that it was read from.
    pub fn address<'group>(&self, group: &'group [u8]) -> &'group [u8] {
        &group[self.address_start..self.address_start + self.address_length]
    }
}

/// Why a group is refused before any object is looked at.
#[derive(Clone, Copy, Debug, PartialEq, Eq, PartialOrd, Ord, Hash)]
pub enum Refusal {
    Length,
    NoCheck,
    BadCheck,
    Kind,
    NoSegment,
    Address,
    Size,
}

impl Refusal {
    pub const ALL: [Refusal; 7] = [
        Refusal::Length,
        Refusal::NoCheck,
        Refusal::BadCheck,
        Refusal::Kind,
        Refusal::NoSegment,
        Refusal::Address,
        Refusal::Size,
    ];

    pub fn answer(self) -> Answer {
        match self {
            Refusal::Length => Answer::Length,
            Refusal::NoCheck => Answer::NoCheck,
            Refusal::BadCheck => Answer::BadCheck,
            Refusal::Kind => Answer::Kind,
            Refusal::NoSegment => Answer::NoSegment,
            Refusal::Address => Answer::Address,
            Refusal::Size => Answer::Size,
        }
    }
}

pub type Reading = Result<Segment, Refusal>;

fn two_bytes(bytes: &[u8], at: usize) -> u16 {
    u16::from_be_bytes([bytes[at], bytes[at + 1]])
}

/// Reads one group. The checks stand in document 01's order, one after the other.
pub fn read(group: &[u8]) -> Reading {
    if group.len() < SHORTEST_GROUP || group.len() > LONGEST_GROUP {
        return Err(Refusal::Length);
    }
    let extension_flag = group[0] & 0x80 != 0;
    let check_flag = group[0] & 0x40 != 0;
    let segment_flag = group[0] & 0x20 != 0;
    let user_access_flag = group[0] & 0x10 != 0;
    let kind = group[0] & 0x0F;

    if !check_flag {
        return Err(Refusal::NoCheck);
    }
    if group.len() < SHORTEST_GROUP + CHECK_LENGTH {
        return Err(Refusal::Length);
    }
    // From here on the check word is out of sight: no field may reach into it.
    let (fields, check) = group.split_at(group.len() - CHECK_LENGTH);
    if two_bytes(check, 0) != check_word::of(fields) {
        return Err(Refusal::BadCheck);
    }
    let part = match kind {
        3 => Part::Header,
        4 => Part::Body,
        _ => return Err(Refusal::Kind),
    };
    if !segment_flag || !user_access_flag {
        return Err(Refusal::NoSegment);
    }

    let segment_field = if extension_flag { 4 } else { 2 };
    let user_access = segment_field + 2;
    if fields.len() < user_access + 1 {
        return Err(Refusal::Length);
    }
    let transport_flag = fields[user_access] & 0x10 != 0;
    let indicator = usize::from(fields[user_access] & 0x0F);
    if !transport_flag || indicator < 2 {
        return Err(Refusal::Address);
    }

    let segmentation_header = user_access + 1 + indicator;
    let start = segmentation_header + 2;
    if fields.len() < start {
        return Err(Refusal::Length);
    }
    let last = fields[segment_field] & 0x80 != 0;
    let number = two_bytes(fields, segment_field) & 0x7FFF;
    let size = usize::from(two_bytes(fields, segmentation_header) & 0x1FFF);
    let repetition = Repetition {
        index: fields[1] & 0x0F,
        continuity: fields[1] >> 4,
        count: fields[segmentation_header] >> 5,
    };
    let may_be_empty = part == Part::Body && last && number == 0;
    if size != fields.len() - start
        || size > LONGEST_SEGMENT
        || (size == 0 && !may_be_empty)
        || (size < SHORTEST_FULL_SEGMENT && !last)
    {
        return Err(Refusal::Size);
    }
    Ok(Segment {
        transport: two_bytes(fields, user_access + 1),
        part,
        number,
        last,
        start,
        length: size,
        repetition,
        address_start: user_access + 3,
        address_length: indicator - 2,
    })
}

/// The fields of a group to be built. `None` leaves a field out and its flag 0.
#[derive(Clone, Debug, PartialEq, Eq)]
pub struct Fields {
    pub extension: Option<[u8; 2]>,
    pub check_flag: bool,
    /// The 4-bit type.
    pub kind: u8,
    /// Two indices that follow the type, and the count of the segmentation header.
    pub repetition: Repetition,
    pub segment: Option<SegmentField>,
    pub user_access: Option<UserAccess>,
    /// The size field of the segmentation header, 13 bits.
    pub size: u16,
    pub bytes: Vec<u8>,
}

#[derive(Clone, Copy, Debug, PartialEq, Eq)]
pub struct SegmentField {
    pub last: bool,
    /// 15 bits.
    pub number: u16,
}

#[derive(Clone, Debug, PartialEq, Eq)]
pub struct UserAccess {
    /// 3 bits.
    pub spare: u8,
    pub transport_flag: bool,
    /// 4 bits; a right one is 2 and the address's length.
    pub indicator: u8,
    pub transport: u16,
    pub address: Vec<u8>,
}

impl Fields {
    /// The fields that a segment needs, with every other field 0 or absent.
    pub fn of_segment(transport: u16, part: Part, number: u16, last: bool, bytes: &[u8]) -> Fields {
        Fields {
            extension: None,
            check_flag: true,
            kind: match part {
                Part::Header => 3,
                Part::Body => 4,
            },
            repetition: Repetition::default(),
            segment: Some(SegmentField { last, number }),
            user_access: Some(UserAccess {
                spare: 0,
                transport_flag: true,
                indicator: 2,
                transport,
                address: Vec::new(),
            }),
            size: bytes.len() as u16,
            bytes: bytes.to_vec(),
        }
    }

    /// Everything before the check word.
    pub fn unchecked(&self) -> Vec<u8> {
        let flags = u8::from(self.extension.is_some()) << 7
            | u8::from(self.check_flag) << 6
            | u8::from(self.segment.is_some()) << 5
            | u8::from(self.user_access.is_some()) << 4;
        let mut group = vec![
            flags | (self.kind & 0x0F),
            (self.repetition.continuity & 0x0F) << 4 | (self.repetition.index & 0x0F),
        ];
        if let Some(extension) = self.extension {
            group.extend(extension);
        }
        if let Some(field) = self.segment {
            let word = u16::from(field.last) << 15 | (field.number & 0x7FFF);
            group.extend(word.to_be_bytes());
        }
        if let Some(access) = &self.user_access {
            group.push(
                (access.spare & 0x07) << 5
                    | u8::from(access.transport_flag) << 4
                    | (access.indicator & 0x0F),
            );
            group.extend(access.transport.to_be_bytes());
            group.extend(&access.address);
        }
        let word = u16::from(self.repetition.count & 0x07) << 13 | (self.size & 0x1FFF);
        group.extend(word.to_be_bytes());
        group.extend(&self.bytes);
        group
    }

    /// The whole group with its check word.
    pub fn whole(&self) -> Vec<u8> {
        with_check(self.unchecked())
    }
}

/// Adds the check word.
pub fn with_check(mut unchecked: Vec<u8>) -> Vec<u8> {
    let check = check_word::of(&unchecked);
    unchecked.extend(check.to_be_bytes());
    unchecked
}

#[cfg(test)]
mod tests {
    use super::*;

    fn body_fields() -> Fields {
        Fields::of_segment(0x0005, Part::Body, 0, false, &[0x61; 16])
    }

    /// A group of these bytes and a right check word.
    fn checked(unchecked: &[u8]) -> Vec<u8> {
        with_check(unchecked.to_vec())
    }

    #[test]
    fn builds_the_groups_of_the_two_minute_example() {
        let last = Fields::of_segment(5, Part::Body, 1, true, b"tuvw");
        let header = Fields::of_segment(5, Part::Header, 0, true, &[0, 0, 1, 0x40, 3, 0x80, 0]);
        assert_eq!(
            last.unchecked(),
            [0x74, 0, 0x80, 1, 0x12, 0, 5, 0, 4, 0x74, 0x75, 0x76, 0x77]
        );
        assert_eq!(
            header.unchecked(),
            [0x73, 0, 0x80, 0, 0x12, 0, 5, 0, 7, 0, 0, 1, 0x40, 3, 0x80, 0]
        );
    }

    #[test]
    fn reads_the_groups_of_the_two_minute_example() {
        let group = checked(&[0x74, 0, 0x80, 1, 0x12, 0, 5, 0, 4, 0x74, 0x75, 0x76, 0x77]);
        let segment = read(&group).unwrap();
        assert_eq!(
            segment,
            Segment {
                transport: 5,
                part: Part::Body,
                number: 1,
                last: true,
                start: 9,
                length: 4,
                repetition: Repetition {
                    index: 0,
                    continuity: 0,
                    count: 0
                },
                address_start: 7,
                address_length: 0
            }
        );
        assert_eq!(segment.bytes(&group), b"tuvw");
        assert_eq!(segment.address(&group), b"");
        assert_eq!(read(&checked(&[0x75, 0])), Err(Refusal::Kind));
        assert_eq!(read(&[0]), Err(Refusal::Length));
    }

    #[test]
    fn short_and_long_groups() {
        assert_eq!(read(&[]), Err(Refusal::Length));
        assert_eq!(read(&[0x74]), Err(Refusal::Length));
        // Two or three bytes: LENGTH with the CRC flag, NOCHECK without it.
        for length in [2, 3] {
            assert_eq!(read(&vec![0x40; length]), Err(Refusal::Length));
            assert_eq!(read(&vec![0x00; length]), Err(Refusal::NoCheck));
        }
        assert_eq!(read(&[0x74, 0, 0, 0]), Err(Refusal::BadCheck));
        // Over 8,215 bytes LENGTH comes before NOCHECK.
        assert_eq!(read(&vec![0x00; 8_215]), Err(Refusal::NoCheck));
        assert_eq!(read(&vec![0x00; 8_216]), Err(Refusal::Length));
    }

    #[test]
    fn longest_group() {
        let mut fields = Fields::of_segment(0xFFFF, Part::Body, 0x7FFF, false, &[7; 8_189]);
        fields.extension = Some([1, 2]);
        let access = fields.user_access.as_mut().unwrap();
        access.indicator = 15;
        access.address = vec![9; 13];
        let group = fields.whole();
        assert_eq!(group.len(), 8_215);
        let segment = read(&group).unwrap();
        assert_eq!(
            (segment.transport, segment.number, segment.last),
            (0xFFFF, 0x7FFF, false)
        );
        assert_eq!((segment.start, segment.length), (24, 8_189));
        assert_eq!((segment.address_start, segment.address_length), (9, 13));
    }

    /// Document 02, Item 6: byte 1 has the continuity index and then the repetition index, and the
    /// segmentation header the repetition count in its first three bits.
    #[test]
    fn two_indices_and_a_count() {
        let read_of = |second: u8, segmentation: u8| {
            let group = checked(&[0x74, second, 0x80, 1, 0x12, 0, 5, segmentation, 1, 0x61]);
            read(&group).unwrap().repetition
        };
        let said = |index, continuity, count| Repetition {
            index,
            continuity,
            count,
        };
        assert_eq!(read_of(0x00, 0x00), said(0, 0, 0));
        assert_eq!(read_of(0x3A, 0x00), said(10, 3, 0));
        assert_eq!(read_of(0xF0, 0x00), said(0, 15, 0));
        assert_eq!(read_of(0x0F, 0x00), said(15, 0, 0));
        for count in 0..8 {
            assert_eq!(read_of(0x81, count << 5), said(1, 8, count));
        }
        // The fourth bit is the size's, as are all of the next byte.
        let mut full = vec![0x74, 0, 0, 0, 0x12, 0, 5, 0xFF, 0xFD];
        full.resize(9 + 8_189, 0);
        let segment = read(&checked(&full)).unwrap();
        assert_eq!((segment.repetition.count, segment.length), (7, 8_189));
    }

    /// Document 02, Item 6: the address is what the length indicator counts past the transport
    /// number, and the extension field moves it by two.
    #[test]
    fn addresses_in_their_places() {
        let plain = checked(&[0x74, 0, 0x80, 0, 0x15, 0, 5, 0xA1, 0xB2, 0xC3, 0, 1, 0x61]);
        let segment = read(&plain).unwrap();
        assert_eq!((segment.address_start, segment.address_length), (7, 3));
        assert_eq!(segment.address(&plain), [0xA1, 0xB2, 0xC3]);
        assert_eq!((segment.transport, segment.bytes(&plain)), (5, &b"a"[..]));

        let extended = checked(&[0xF4, 0, 9, 9, 0x80, 0, 0x13, 0, 5, 0xA1, 0, 1, 0x61]);
        let segment = read(&extended).unwrap();
        assert_eq!((segment.address_start, segment.address_length), (9, 1));
        assert_eq!(segment.address(&extended), [0xA1]);
        assert_eq!(
            (segment.transport, segment.bytes(&extended)),
            (5, &b"a"[..])
        );

        let none = checked(&[0xF4, 0, 9, 9, 0x80, 0, 0x12, 0, 5, 0, 1, 0x61]);
        let segment = read(&none).unwrap();
        assert_eq!((segment.address_start, segment.address_length), (9, 0));
        assert_eq!(segment.address(&none), []);
    }

    /// Every length of an address, its spare bits never counting.
    #[test]
    fn addresses_of_every_length() {
        for length in 0..=13 {
            let mut fields = body_fields();
            let access = fields.user_access.as_mut().unwrap();
            access.spare = length as u8 & 7;
            access.indicator = 2 + length as u8;
            access.address = vec![0xEE; length];
            let group = fields.whole();
            let segment = read(&group).unwrap();
            assert_eq!((segment.address_start, segment.address_length), (7, length));
            assert_eq!(segment.address(&group), vec![0xEE; length]);
            assert_eq!((segment.start, segment.length), (9 + length, 16));
        }
    }

    #[test]
    fn each_refusal_in_turn() {
        let mut fields = body_fields();
        fields.check_flag = false;
        assert_eq!(read(&fields.whole()), Err(Refusal::NoCheck));

        let mut group = body_fields().whole();
        group[12] ^= 1;
        assert_eq!(read(&group), Err(Refusal::BadCheck));

        for kind in 0..16 {
            let fields = Fields {
                kind,
                ..body_fields()
            };
            match read(&fields.whole()) {
                Ok(segment) if kind == 3 => assert_eq!(segment.part, Part::Header),
                Ok(segment) if kind == 4 => assert_eq!(segment.part, Part::Body),
                other => assert_eq!(other, Err(Refusal::Kind)),
            }
        }

        let fields = Fields {
            segment: None,
            ..body_fields()
        };
        assert_eq!(read(&fields.whole()), Err(Refusal::NoSegment));
        let fields = Fields {
            user_access: None,
            ..body_fields()
        };
        assert_eq!(read(&fields.whole()), Err(Refusal::NoSegment));

        let mut fields = body_fields();
        fields.user_access.as_mut().unwrap().transport_flag = false;
        assert_eq!(read(&fields.whole()), Err(Refusal::Address));
        for indicator in [0, 1] {
            let mut fields = body_fields();
            fields.user_access.as_mut().unwrap().indicator = indicator;
            assert_eq!(read(&fields.whole()), Err(Refusal::Address));
        }
    }

    /// LENGTH is asked at four depths, and the check word never counts as a field.
    #[test]
    fn length_at_each_depth() {
        let plain = body_fields().unchecked();
        // Up to the user access byte at 4: five bytes reach it, four do not.
        for length in 2..=4 {
            assert_eq!(read(&checked(&plain[..length])), Err(Refusal::Length));
        }
        // With the byte there and a wrong address, ADDRESS; with a right one LENGTH again.
        assert_eq!(
            read(&checked(&[0x74, 0, 0, 0, 0x02])),
            Err(Refusal::Address)
        );
        assert_eq!(
            read(&checked(&[0x74, 0, 0, 0, 0x11])),
            Err(Refusal::Address)
        );
        for length in 5..=8 {
            assert_eq!(read(&checked(&plain[..length])), Err(Refusal::Length));
        }
        // The segmentation header whole, its size not the bytes left.
        for length in 9..plain.len() {
            assert_eq!(read(&checked(&plain[..length])), Err(Refusal::Size));
        }
        assert!(read(&checked(&plain)).is_ok());

        // The extension field moves all of it by two.
        let mut fields = body_fields();
        fields.extension = Some([0xFF, 0xFF]);
        let extended = fields.unchecked();
        for length in 2..=6 {
            assert_eq!(read(&checked(&extended[..length])), Err(Refusal::Length));
        }
        for length in 7..=10 {
            assert_eq!(read(&checked(&extended[..length])), Err(Refusal::Length));
        }
        assert_eq!(read(&checked(&extended[..11])), Err(Refusal::Size));
        assert!(read(&checked(&extended)).is_ok());
    }

    #[test]
    fn sizes() {
        let read_of = |last: bool, length: usize, size: u16| {
            let mut fields = Fields::of_segment(1, Part::Body, 0, last, &vec![0; length]);
            fields.size = size;
            read(&fields.whole()).map(|segment| segment.length)
        };
        assert_eq!(read_of(true, 0, 0), Ok(0));
        assert_eq!(read_of(false, 0, 0), Err(Refusal::Size));
        assert_eq!(read_of(true, 0, 1), Err(Refusal::Size));
        assert_eq!(read_of(true, 1, 0), Err(Refusal::Size));
        assert_eq!(read_of(true, 1, 1), Ok(1));
        assert_eq!(read_of(true, 2, 1), Err(Refusal::Size));
        assert_eq!(read_of(true, 2, 3), Err(Refusal::Size));
        assert_eq!(read_of(false, 15, 15), Err(Refusal::Size));
        assert_eq!(read_of(true, 15, 15), Ok(15));
        assert_eq!(read_of(false, 16, 16), Ok(16));
        assert_eq!(read_of(false, 8_189, 8_189), Ok(8_189));
        assert_eq!(read_of(false, 8_190, 8_190), Err(Refusal::Size));
        assert_eq!(read_of(true, 8_191, 8_191), Err(Refusal::Size));
    }

    /// Document 02, Item 2: no bytes are right for number 0 of a body, last, and for nothing else.
    #[test]
    fn empty_segments() {
        for part in [Part::Header, Part::Body] {
            for number in [0, 1, 1_023, 32_767] {
                for last in [true, false] {
                    let group = Fields::of_segment(9, part, number, last, &[]).whole();
                    let right = part == Part::Body && number == 0 && last;
                    assert_eq!(read(&group).is_ok(), right, "{part:?} {number} {last}");
                }
            }
        }
    }

    #[test]
    fn other_fields_change_nothing_of_the_segment_but_its_start() {
        let plain = Fields::of_segment(0xABCD, Part::Header, 9, true, b"xyz");
        let expected = read(&plain.whole()).unwrap();
        let mut busy = plain.clone();
        busy.extension = Some([0xDE, 0xAD]);
        busy.repetition = Repetition {
            index: 9,
            continuity: 15,
            count: 7,
        };
        let access = busy.user_access.as_mut().unwrap();
        access.spare = 7;
        access.indicator = 5;
        access.address = vec![1, 2, 3];
        let group = busy.whole();
        let segment = read(&group).unwrap();
        assert_eq!(segment.bytes(&group), b"xyz");
        assert_eq!(segment.address(&group), [1, 2, 3]);
        assert_eq!(segment.repetition, busy.repetition);
        assert_eq!(
            Segment {
                start: expected.start,
                repetition: expected.repetition,
                address_start: expected.address_start,
                address_length: expected.address_length,
                ..segment
            },
            expected
        );
    }
}
