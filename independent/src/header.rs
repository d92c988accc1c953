//! The parameters of a finished object's header and the matching of names (document 01,
//! "Parameters and names"), for a header of any bytes that has its core, as a finished one has.

use crate::answer::Answer;
use crate::object::{Core, CORE_LENGTH};
use std::ops::Range;

pub const PRIORITY: u8 = 0x0A;
pub const CONTENT_NAME: u8 = 0x0C;

/// The identifiers that may stand in a header only once.
pub const SINGLE: [u8; 7] = [0x07, PRIORITY, CONTENT_NAME, 0x10, 0x11, 0x21, 0x23];

/// One parameter: its identifier and where in the header its data stands.
#[derive(Clone, Debug, PartialEq, Eq)]
pub struct Parameter {
    pub identifier: u8,
    pub data: Range<usize>,
}

/// What a reader of the header is told.
#[derive(Clone, Debug, PartialEq, Eq)]
pub struct Reading {
    pub core: Core,
    pub priority: Option<u8>,
    /// Where ContentName's data stands, its character set byte first.
    pub name: Option<Range<usize>>,
}

/// The parameters after the core, in their order, or nothing if one runs past the header's end.
pub fn parameters(header: &[u8]) -> Option<Vec<Parameter>> {
    let mut found = Vec::new();
    let mut at = CORE_LENGTH;
    while at < header.len() {
        let code = header[at] >> 6;
        let identifier = header[at] & 0x3F;
        at += 1;
        let length = match code {
            0 => 0,
            1 => 1,
            2 => 4,
            _ => {
                let first = usize::from(*header.get(at)?);
                at += 1;
                if first < 0x80 {
                    first
                } else {
                    let second = usize::from(*header.get(at)?);
                    at += 1;
                    (first & 0x7F) << 8 | second
                }
            }
        };
        let data = at..at + length;
        header.get(data.clone())?;
        at = data.end;
        found.push(Parameter { identifier, data });
    }
    Some(found)
}

/// Reads a finished header, or says HEADER or DUPLICATE, in this order.
pub fn read(header: &[u8]) -> Result<Reading, Answer> {
    let core = Core::of(header).expect("a finished header has its core");
    let list = parameters(header).ok_or(Answer::Header)?;
    for parameter in &list {
        let wrong = match parameter.identifier {
            PRIORITY => parameter.data.len() != 1,
            CONTENT_NAME => parameter.data.is_empty(),
            _ => false,
        };
        if wrong {
            return Err(Answer::Header);
        }
    }
    let times = |identifier: u8| {
        list.iter()
            .filter(|parameter| parameter.identifier == identifier)
            .count()
    };
    if SINGLE.into_iter().any(|identifier| times(identifier) > 1) {
        return Err(Answer::Duplicate);
    }
    let data_of = |identifier: u8| {
        list.iter()
            .find(|parameter| parameter.identifier == identifier)
            .map(|parameter| parameter.data.clone())
    };
    Ok(Reading {
        core,
        priority: data_of(PRIORITY).map(|data| header[data.start]),
        name: data_of(CONTENT_NAME),
    })
}

fn without_leading_slash(name: &[u8]) -> &[u8] {
    name.strip_prefix(b"/").unwrap_or(name)
}

/// Whether a header has this name. The name asked for comes without a character set byte. A
/// header that cannot be read has no name.
pub fn has_name(header: &[u8], asked: &[u8]) -> bool {
    let Ok(Reading {
        name: Some(data), ..
    }) = read(header)
    else {
        return false;
    };
    let name = &header[data][1..];
    without_leading_slash(name) == without_leading_slash(asked)
}

/// The lowest transport number among the finished objects, given with their headers, that have
/// this name.
pub fn find<'a>(objects: impl IntoIterator<Item = (u16, &'a [u8])>, asked: &[u8]) -> Option<u16> {
    objects
        .into_iter()
        .filter(|(_, header)| has_name(header, asked))
        .map(|(transport, _)| transport)
        .min()
}

#[cfg(test)]
mod tests {
    use super::*;

    /// A header of these parameters; the core's fields play no part in reading the list.
    fn header(list: &[u8]) -> Vec<u8> {
        let core = Core {
            body_size: 20,
            header_size: CORE_LENGTH + list.len(),
            content_type: 2,
            content_subtype: 1,
        };
        let mut bytes = core.bytes().to_vec();
        bytes.extend(list);
        bytes
    }

    fn refusal(list: &[u8]) -> Option<Answer> {
        read(&header(list)).err()
    }

    #[test]
    fn parameters_of_document_01() {
        let whole = header(&[0x4A, 0x05, 0xCC, 0x02, 0x40, 0x61]);
        let reading = read(&whole).unwrap();
        assert_eq!(reading.core.body_size, 20);
        assert_eq!(reading.core.header_size, 13);
        assert_eq!(reading.core.content_type, 2);
        assert_eq!(reading.core.content_subtype, 1);
        assert_eq!(reading.priority, Some(5));
        assert_eq!(reading.name, Some(11..13));
        assert!(has_name(&whole, b"a"));
        assert_eq!(refusal(&[0xCC, 0x05, 0x40, 0x61]), Some(Answer::Header));
    }

    #[test]
    fn no_parameters() {
        let core_alone = header(&[]);
        assert_eq!(core_alone.len(), 7);
        let reading = read(&core_alone).unwrap();
        assert_eq!((reading.core.body_size, reading.core.header_size), (20, 7));
        assert_eq!((reading.priority, reading.name), (None, None));
        assert!(!has_name(&core_alone, b""));
    }

    #[test]
    fn length_codes() {
        let data_of = |list: &[u8]| parameters(&header(list)).map(|list| list[0].data.clone());
        assert_eq!(data_of(&[0x01]), Some(8..8));
        assert_eq!(data_of(&[0x41, 9]), Some(8..9));
        assert_eq!(data_of(&[0x41]), None);
        assert_eq!(data_of(&[0x81, 9, 9, 9, 9]), Some(8..12));
        assert_eq!(data_of(&[0x81, 9, 9, 9]), None);
        assert_eq!(data_of(&[0xC1]), None);
        assert_eq!(data_of(&[0xC1, 0]), Some(9..9));
        assert_eq!(data_of(&[0xC1, 1]), None);
        assert_eq!(data_of(&[0xC1, 0x80]), None);
        assert_eq!(data_of(&[0xC1, 0x80, 0]), Some(10..10));
        assert_eq!(data_of(&[0xC1, 0x80, 2, 7, 7]), Some(10..12));
        let mut long = vec![0xC1, 0x7F];
        long.extend([7; 127]);
        assert_eq!(data_of(&long), Some(9..136));
        let mut long = vec![0xC1, 0x81, 0x00];
        long.extend([7; 256]);
        assert_eq!(data_of(&long), Some(10..266));
        long.pop();
        assert_eq!(data_of(&long), None);
    }

    #[test]
    fn priority_has_exactly_one_byte() {
        assert_eq!(refusal(&[0x0A]), Some(Answer::Header));
        assert_eq!(refusal(&[0x8A, 1, 2, 3, 4]), Some(Answer::Header));
        assert_eq!(refusal(&[0xCA, 0]), Some(Answer::Header));
        assert_eq!(refusal(&[0xCA, 2, 5, 6]), Some(Answer::Header));
        // One byte by either code, or by two bytes of length.
        let priority = |list: &[u8]| read(&header(list)).unwrap().priority;
        assert_eq!(priority(&[0x4A, 5]), Some(5));
        assert_eq!(priority(&[0xCA, 1, 5]), Some(5));
        assert_eq!(priority(&[0xCA, 0x80, 1, 5]), Some(5));
    }

    #[test]
    fn content_name_is_not_empty() {
        assert_eq!(refusal(&[0x0C]), Some(Answer::Header));
        assert_eq!(refusal(&[0xCC, 0]), Some(Answer::Header));
        assert_eq!(refusal(&[0xCC, 0x80, 0]), Some(Answer::Header));
        // One byte is the character set, and the name is empty.
        let whole = header(&[0x4C, 0x40]);
        assert_eq!(read(&whole).unwrap().name, Some(8..9));
        assert!(has_name(&whole, b""));
        assert!(has_name(&whole, b"/"));
        assert!(!has_name(&whole, b"//"));
        let whole = header(&[0x8C, 0x40, b'a', b'b', b'c']);
        assert!(has_name(&whole, b"abc"));
    }

    #[test]
    fn single_ones_twice() {
        for identifier in 0..0x40_u8 {
            let list = [0x40 | identifier, 1, 0x40 | identifier, 2];
            let expected = match identifier {
                0x07 | 0x0A | 0x0C | 0x10 | 0x11 | 0x21 | 0x23 => Some(Answer::Duplicate),
                _ => None,
            };
            assert_eq!(refusal(&list), expected, "{identifier:02x}");
        }
    }

    /// HEADER is decided over the whole list before DUPLICATE.
    #[test]
    fn broken_after_a_double() {
        assert_eq!(refusal(&[0x4A, 1, 0x4A, 2, 0xCC, 9]), Some(Answer::Header));
        assert_eq!(refusal(&[0x4A, 1, 0x4A, 2, 0x0C]), Some(Answer::Header));
        assert_eq!(refusal(&[0x4A, 1, 0x4A, 2]), Some(Answer::Duplicate));
    }

    fn named(name: &[u8]) -> Vec<u8> {
        let mut list = vec![0xCC, name.len() as u8 + 1, 0x00];
        list.extend(name);
        header(&list)
    }

    #[test]
    fn one_leading_slash_off_each_side() {
        for (name, asked, same) in [
            (&b"a"[..], &b"a"[..], true),
            (b"/a", b"a", true),
            (b"a", b"/a", true),
            (b"/a", b"/a", true),
            (b"//a", b"a", false),
            (b"//a", b"/a", false),
            (b"//a", b"//a", true),
            (b"a", b"A", false),
            (b"a", b"ab", false),
            (b"ab", b"a", false),
            (b"a/", b"a", false),
            (b"/", b"", true),
        ] {
            assert_eq!(has_name(&named(name), asked), same, "{name:?} {asked:?}");
        }
    }

    /// The ContentNames of TS 101 498-1, table 3. Resolving a reference to a path is the asker's
    /// work; the path, with its leading slash or without it, finds the object of that name only.
    #[test]
    fn names_of_the_table() {
        let names: [&[u8]; 6] = [
            b"a/b/d.html",
            b"d/e/f.html",
            b"a/b/%d.html",
            b"a/A/$/l/f.jpg",
            b"p/s/t.html",
            b"l.html",
        ];
        for name in names {
            for asked in names {
                let path = [b"/", asked].concat();
                assert_eq!(has_name(&named(name), asked), name == asked);
                assert_eq!(has_name(&named(name), &path), name == asked);
            }
        }
    }

    #[test]
    fn character_set_plays_no_part() {
        let mut whole = named(b"logo.png");
        for set in [0x00, 0x40, 0xF0, b'/'] {
            whole[9] = set;
            assert!(has_name(&whole, b"logo.png"));
        }
    }

    #[test]
    fn lowest_number_and_only_headers_that_read() {
        let good = named(b"/a");
        let nameless = header(&[0x4A, 1]);
        let broken = header(&[0xCC, 2, 0x40, b'a', 0xC1]);
        let double = header(&[0xCC, 2, 0x40, b'a', 0xCC, 2, 0x40, b'a']);
        let objects = [
            (9, &good[..]),
            (4, &good[..]),
            (0, &nameless[..]),
            (1, &broken[..]),
            (2, &double[..]),
            (7, &good[..]),
        ];
        assert_eq!(find(objects, b"a"), Some(4));
        assert_eq!(find(objects, b"b"), None);
        assert_eq!(find([], b"a"), None);
    }
}
