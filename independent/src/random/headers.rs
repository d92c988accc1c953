//! Headers to compare two parameter readers on: well-formed, cut short, down to the core alone,
//! spoilt, of random bytes; and names to look for, with and without a leading slash.

use super::Random;
use crate::header::{CONTENT_NAME, PRIORITY, SINGLE};
use crate::object::{Core, CORE_LENGTH, HEADER_LENGTHS};

/// Few names, so that asking for one often finds something, and some that differ only in slashes,
/// case or length.
const NAMES: [&[u8]; 14] = [
    b"a",
    b"/a",
    b"//a",
    b"A",
    b"ab",
    b"a/",
    b"",
    b"/",
    b"//",
    b"logo.png",
    b"/logo.png",
    b"a/b/d.html",
    b"/a/b/d.html",
    b"\xc3\xa9t\xc3\xa9",
];

/// A name to look for.
pub fn name(random: &mut Random) -> Vec<u8> {
    random.one_of(&NAMES).to_vec()
}

/// A header that reads, within document 01's lengths, whose core says its length and this body
/// size.
pub fn well_formed(random: &mut Random, body_size: usize) -> Vec<u8> {
    let mut list = Vec::new();
    let mut used = Vec::new();
    for _ in 0..random.within(0, 5) {
        let identifier = identifier(random);
        let parameter = parameter(random, identifier);
        let twice = SINGLE.contains(&identifier) && used.contains(&identifier);
        let room = HEADER_LENGTHS.end() - CORE_LENGTH - list.len();
        if !twice && parameter.len() <= room {
            used.push(identifier);
            list.extend(parameter);
        }
    }
    with_core(random, &list, body_size)
}

/// A header of any kind, its core alone to somewhat over 1,024 bytes.
pub fn any_header(random: &mut Random) -> Vec<u8> {
    let mut header = match random.within(0, 9) {
        0 => {
            let length = random.within(CORE_LENGTH, 30);
            return random.bytes(length);
        }
        1 => {
            let length = random.within(0, 30);
            let list = random.bytes(length);
            with_core(random, &list, 0)
        }
        // Single ones may come twice here, and what follows them may be broken.
        2..=4 => {
            let mut list = Vec::new();
            for _ in 0..random.within(1, 8) {
                let identifier = identifier(random);
                list.extend(parameter(random, identifier));
            }
            with_core(random, &list, 0)
        }
        _ => well_formed(random, 20),
    };
    if random.once_in(4) {
        header.truncate(random.within(CORE_LENGTH, header.len()));
    }
    if random.once_in(20) {
        header.truncate(CORE_LENGTH);
    }
    if random.once_in(4) && header.len() > CORE_LENGTH {
        let place = random.within(CORE_LENGTH, header.len() - 1);
        header[place] = random.byte();
    }
    header
}

fn with_core(random: &mut Random, list: &[u8], body_size: usize) -> Vec<u8> {
    let core = Core {
        body_size,
        header_size: (CORE_LENGTH + list.len()) & 0x1FFF,
        content_type: random.byte() & 0x3F,
        content_subtype: random.word() as u16 & 0x1FF,
    };
    [&core.bytes()[..], list].concat()
}

fn identifier(random: &mut Random) -> u8 {
    match random.within(0, 5) {
        0 | 1 => CONTENT_NAME,
        2 => PRIORITY,
        3 => random.one_of(&SINGLE),
        _ => random.byte() & 0x3F,
    }
}

/// A parameter with data that suits its identifier, but for one in thirty of those that have a
/// rule.
fn parameter(random: &mut Random, identifier: u8) -> Vec<u8> {
    let data = match identifier {
        PRIORITY if !random.once_in(30) => random.bytes(1),
        CONTENT_NAME if !random.once_in(30) => {
            let set = random.one_of(&[0x00, 0x40, 0xF0, b'/']);
            [&[set], &name(random)[..]].concat()
        }
        _ => {
            let length = match random.within(0, 19) {
                0 => random.within(126, 130),
                1 => random.within(254, 258),
                2 => random.within(0, 900),
                _ => random.one_of(&[0, 1, 2, 3, 4, 5, 9]),
            };
            random.bytes(length)
        }
    };
    encoded(random, identifier, &data)
}

/// A parameter on the wire, by any length code that can say its length.
fn encoded(random: &mut Random, identifier: u8, data: &[u8]) -> Vec<u8> {
    let short = match data.len() {
        0 => Some(0),
        1 => Some(1),
        4 => Some(2),
        _ => None,
    };
    let start = match short {
        Some(code) if random.coin() => vec![code << 6 | identifier],
        _ if data.len() < 0x80 && !random.once_in(4) => {
            vec![0xC0 | identifier, data.len() as u8]
        }
        _ => {
            let length = 0x8000 | data.len() as u16;
            [&[0xC0 | identifier], &length.to_be_bytes()[..]].concat()
        }
    };
    [&start, data].concat()
}

#[cfg(test)]
mod tests {
    use super::*;
    use crate::answer::Answer;
    use crate::header::{has_name, parameters, read};

    /// Rules about data and doubles aside, what is written as well-formed has its parameters.
    #[test]
    fn well_formed_ones_are_whole() {
        let mut random = Random::from_seed(9);
        for _ in 0..2_000 {
            let header = well_formed(&mut random, 77);
            assert!(HEADER_LENGTHS.contains(&header.len()));
            assert!(parameters(&header).is_some());
            assert_ne!(read(&header).err(), Some(Answer::Duplicate));
            let core = Core::of(&header).unwrap();
            assert_eq!((core.header_size, core.body_size), (header.len(), 77));
        }
    }

    #[test]
    fn every_reading_is_common() {
        let mut random = Random::from_seed(10);
        let (mut read_ones, mut named, mut with_priority, mut matches) = (0, 0, 0, 0);
        let (mut core_alone, mut broken, mut double) = (0, 0, 0);
        for _ in 0..5_000 {
            let header = any_header(&mut random);
            core_alone += usize::from(header.len() == CORE_LENGTH);
            match read(&header) {
                Ok(reading) => {
                    read_ones += 1;
                    named += usize::from(reading.name.is_some());
                    with_priority += usize::from(reading.priority.is_some());
                    matches += usize::from(has_name(&header, &name(&mut random)));
                }
                Err(Answer::Header) => broken += 1,
                Err(Answer::Duplicate) => double += 1,
                Err(other) => panic!("{other:?}"),
            }
        }
        for often in [
            read_ones,
            named,
            with_priority,
            matches,
            core_alone,
            broken,
            double,
        ] {
            assert!(often > 100);
        }
    }
}
