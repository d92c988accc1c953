//! Groups that stations send to a head, with what they aired so: it is plain from how each stream is
//! made. All of them have repeats, damaged groups, and segments in any order.

use super::record::{Aired, CONFLICTS, SLOTS};
use independent::group::{self, Fields, Part};
use independent::object::{cut, Core, Piece, CORE_LENGTH};
use independent::random::{groups, Random};
use std::collections::{BTreeMap, BTreeSet};

#[derive(Clone, Debug, PartialEq, Eq)]
pub struct Object {
    /// Its name as a file has it.
    name: String,
    header: Vec<u8>,
    body: Vec<u8>,
}

impl Object {
    fn of(name: &str, parameters: &[u8], body: Vec<u8>) -> Object {
        let core = Core {
            body_size: body.len(),
            header_size: CORE_LENGTH + parameters.len(),
            content_type: 2,
            content_subtype: 1,
        };
        Object {
            name: name.to_string(),
            header: [&core.bytes(), parameters].concat(),
            body,
        }
    }

    fn aired(&self, number: u16) -> Aired {
        Aired {
            number,
            name: self.name.clone(),
            header: self.header.clone(),
            body: self.body.clone(),
        }
    }
}

/// Groups in their order, and what was aired, in the order of each number.
pub struct Stream {
    pub groups: Vec<Vec<u8>>,
    pub aired: Vec<Aired>,
}

/// ContentName, with its character set.
fn named(name: &[u8]) -> Vec<u8> {
    let length = name.len() + 1;
    let start = if length < 128 {
        vec![0xCC, length as u8, 0xF0]
    } else {
        let [high, low] = (0x8000 | length as u16).to_be_bytes();
        vec![0xCC, high, low, 0xF0]
    };
    [&start, name].concat()
}

/// Parameters, and the name that a file has of them: plain and strange ones, some that would be each
/// other's files where headers and bodies had no endings of their own, and lists that don't read.
fn any_parameters(random: &mut Random) -> (Vec<u8>, String) {
    let (parameters, name) = match random.within(0, 9) {
        0 => (named(b"logo.png"), "logo.png"),
        1 => (named(b"news/../card 1"), "news_.._card_1"),
        2 => (named(b"\xc3\xa9t\xc3\xa9"), "__t__"),
        3 => (named(b""), "unnamed"),
        4 => (named(b"a"), "a"),
        5 => (named(b"a.header"), "a.header"),
        6 => (named(b"a.body"), "a.body"),
        7 => (vec![0xCC, 127, 0x40, b'a'], "unnamed"),
        8 => (
            [vec![0x4A, 1, 0x4A, 2], named(b"twice")].concat(),
            "unnamed",
        ),
        _ => {
            let name = "long.".repeat(random.within(15, 50));
            let safe = name[..name.len().min(100)].to_string();
            return (named(name.as_bytes()), safe);
        }
    };
    (parameters, name.to_string())
}

fn any_body(random: &mut Random) -> Vec<u8> {
    let any = random.within(17, 3_000);
    let length = random.one_of(&[0, 0, 1, 16, any, any, any, any, 20_000, 65_536]);
    random.bytes(length)
}

fn any_object(random: &mut Random) -> Object {
    let (parameters, name) = any_parameters(random);
    Object::of(&name, &parameters, any_body(random))
}

/// Another object that has much of this one: its header or its body, all but a byte of it, or its
/// name alone.
fn like(random: &mut Random, object: &Object) -> Object {
    let parameters = &object.header[CORE_LENGTH..];
    let mut body = object.body.clone();
    match random.within(0, 3) {
        0 if !body.is_empty() => {
            let byte = random.within(0, body.len() - 1);
            body[byte] ^= 1 << random.within(0, 7);
            Object::of(&object.name, parameters, body)
        }
        1 => {
            // One more parameter, which is passed over.
            let parameters = [parameters, &[0x7F, random.byte()]].concat();
            Object::of(&object.name, &parameters, body)
        }
        2 => {
            body.push(random.byte());
            body.truncate(65_536);
            Object::of(&object.name, parameters, body)
        }
        _ => Object::of(&object.name, parameters, any_body(random)),
    }
}

/// One round of an object's groups in any order, at this size of its body's segments, with any indices,
/// counts and end user addresses; some segments come twice, the second time just so or with others of
/// these, some with a bit turned over before they come right, and some groups are none. Some encoders
/// send the empty segment for a body without bytes, and some send nothing.
fn round(random: &mut Random, number: u16, object: &Object, size: usize) -> Vec<Vec<u8>> {
    let header = cut(&object.header, 16).into_iter();
    let mut body = cut(&object.body, size);
    if body.is_empty() && random.coin() {
        body.push(Piece::empty());
    }
    let mut pieces: Vec<_> = header
        .map(|piece| (Part::Header, piece))
        .chain(body.into_iter().map(|piece| (Part::Body, piece)))
        .collect();
    random.shuffle(&mut pieces);
    let mut sent = Vec::new();
    for (part, piece) in pieces {
        let fields = Fields::of_segment(number, part, piece.number, piece.last, &piece.bytes);
        let fields = groups::sent_anyhow(random, fields);
        let group = fields.whole();
        if random.once_in(8) {
            let mut spoilt = group.clone();
            let place = random.within(0, spoilt.len() - 1);
            spoilt[place] ^= 1 << random.within(0, 7);
            sent.push(spoilt);
        }
        if random.once_in(12) {
            let other = groups::one_field_wrong(random);
            if group::read(&other).is_err() {
                sent.push(other);
            }
        }
        sent.push(group);
        if random.once_in(5) {
            sent.push(groups::sent_again(random, fields).whole());
        }
    }
    sent
}

/// The transport number, part and number of a group's segment, by which it is told from all others of its
/// object; nothing where the group doesn't read.
fn place(group: &[u8]) -> Option<(u16, Part, u16)> {
    let segment = group::read(group).ok()?;
    Some((segment.transport, segment.part, segment.number))
}

fn any_size(random: &mut Random) -> usize {
    random.one_of(&[64, 500, 8_189])
}

/// Whole rounds of one cut.
fn rounds(random: &mut Random, number: u16, object: &Object, count: usize) -> Vec<Vec<u8>> {
    let size = any_size(random);
    (0..count)
        .flat_map(|_| round(random, number, object, size))
        .collect()
}

/// All of these, each in its own order, one among the others.
fn interleaved(random: &mut Random, sent: Vec<Vec<Vec<u8>>>) -> Vec<Vec<u8>> {
    let mut queues: Vec<_> = sent.into_iter().map(Vec::into_iter).collect();
    let mut groups = Vec::new();
    while !queues.is_empty() {
        let place = random.within(0, queues.len() - 1);
        match queues[place].next() {
            Some(group) => groups.push(group),
            None => {
                queues.remove(place);
            }
        }
    }
    groups
}

/// Each number once, three at a time, one round each: which group makes it complete is plain.
pub fn fresh(random: &mut Random) -> (Stream, Vec<usize>) {
    let numbers = 3 * random.within(1, 5) as u16;
    let mut groups = Vec::new();
    let mut aired = Vec::new();
    for first in (0..numbers).step_by(3) {
        let mut sent = Vec::new();
        for number in first..first + 3 {
            let object = any_object(random);
            sent.push(rounds(random, number * 7, &object, 1));
            aired.push(object.aired(number * 7));
        }
        groups.extend(interleaved(random, sent));
    }
    let mut seen = BTreeSet::new();
    let mut newest = BTreeMap::new();
    for (at, group) in groups.iter().enumerate() {
        match group::read(group) {
            // No object waits for the empty segment.
            Ok(segment) if segment.length > 0 && seen.insert(place(group)) => {
                newest.insert(segment.transport, at);
            }
            _ => (),
        }
    }
    let complete = aired.iter().map(|each| newest[&each.number]).collect();
    (Stream { groups, aired }, complete)
}

/// One object after the other under the same numbers, as many as there are slots: new ones, ones like
/// the one before, the same cut anew, and old ones again. Two rounds of each: groups that both objects
/// have come as repeats of the old one in the first, before the new one is seen to be another.
pub fn reused(random: &mut Random) -> Stream {
    let mut aired = Vec::new();
    let mut sent = Vec::new();
    for part in 0..random.within(1, SLOTS) {
        let number = (0x4000 * part + random.within(0, 0x3FFF)) as u16;
        let mut objects = vec![any_object(random)];
        for _ in 0..random.within(2, 6) {
            let last = objects.last().expect("there is a first one");
            let next = match random.within(0, 5) {
                0 => last.clone(),
                1 | 2 => like(random, last),
                3 => objects[random.within(0, objects.len() - 1)].clone(),
                _ => any_object(random),
            };
            objects.push(next);
        }
        let groups = objects.iter().map(|each| rounds(random, number, each, 2));
        sent.push(groups.collect::<Vec<_>>().concat());
        objects.dedup();
        aired.extend(objects.iter().map(|each| each.aired(number)));
    }
    let groups = interleaved(random, sent);
    Stream { groups, aired }
}

/// Numbers and what each airs now.
#[derive(Default)]
struct Carousel(BTreeMap<u16, Object>);

impl Carousel {
    /// Some numbers at a time, two rounds of each; now and then one has a new object.
    fn turn(
        &mut self,
        random: &mut Random,
        numbers: u16,
        at_a_time: usize,
        aired: &mut Vec<Aired>,
    ) -> Vec<Vec<u8>> {
        let mut order: Vec<u16> = (1..=numbers).collect();
        random.shuffle(&mut order);
        let mut sent = Vec::new();
        for number in order.into_iter().take(random.within(1, at_a_time)) {
            let object = match self.0.get(&number) {
                Some(object) if !random.once_in(3) => object.clone(),
                Some(object) if random.coin() => like(random, object),
                _ => any_object(random),
            };
            if self.0.get(&number) != Some(&object) {
                aired.push(object.aired(number));
            }
            sent.push(rounds(random, number, &object, 2));
            self.0.insert(number, object);
        }
        interleaved(random, sent)
    }
}

/// Three times as many numbers as slots, never more at a time than slots: those that were dropped
/// come back, most of them with the same object. Each part of it ends with all objects finished.
pub fn crowded(random: &mut Random) -> (Vec<Vec<Vec<u8>>>, Vec<Aired>) {
    let mut carousel = Carousel::default();
    let mut aired = Vec::new();
    let turns = random.within(6, 15);
    let numbers = 3 * SLOTS as u16;
    let parts = (0..turns)
        .map(|_| carousel.turn(random, numbers, SLOTS, &mut aired))
        .collect();
    (parts, aired)
}

/// An object that needs the whole stream, a segment now and then, beside the carousel on the other
/// slots: it is always the one that was heard longest ago, and never finished before the end.
pub fn patient(random: &mut Random) -> Stream {
    let mut carousel = Carousel::default();
    let mut aired = Vec::new();
    let mut groups = Vec::new();
    let slow = Object::of("slow", &named(b"slow"), random.bytes(200));
    for group in round(random, 0, &slow, 32) {
        groups.push(group);
        groups.extend(carousel.turn(random, 3 * SLOTS as u16, SLOTS - 1, &mut aired));
    }
    aired.push(slow.aired(0));
    Stream { groups, aired }
}

/// The groups of an object with all but one of its segments, and that one.
fn all_but_one(random: &mut Random, number: u16, object: &Object) -> (Vec<Vec<u8>>, Vec<u8>) {
    let mut groups = round(random, number, object, 64);
    let one = loop {
        let group = &groups[random.within(0, groups.len() - 1)];
        if group::read(group).is_ok() {
            break group.clone();
        }
    };
    groups.retain(|group| place(group) != place(&one));
    (groups, one)
}

/// An object of several segments.
fn long_object(random: &mut Random) -> Object {
    let (parameters, name) = any_parameters(random);
    let length = random.within(200, 2_000);
    Object::of(&name, &parameters, random.bytes(length))
}

/// Every slot holds an unfinished object when one more number comes: the one that was heard longest
/// ago is lost, and what is missing of it comes too late.
pub fn lost(random: &mut Random) -> Stream {
    let mut groups = Vec::new();
    let mut started = Vec::new();
    for number in 1..=SLOTS as u16 {
        let object = long_object(random);
        let (most, missing) = all_but_one(random, number, &object);
        let again = most
            .iter()
            .find(|group| group::read(group).is_ok())
            .cloned();
        groups.extend(most);
        started.push((
            object.aired(number),
            again.expect("it has more groups"),
            missing,
        ));
    }
    // They are heard once more, in another order.
    random.shuffle(&mut started);
    groups.extend(started.iter().map(|(_, again, _)| again.clone()));
    let newcomer = long_object(random);
    groups.extend(rounds(random, 99, &newcomer, 1));
    let (_, _, too_late) = started.remove(0);
    groups.extend(started.iter().map(|(_, _, missing)| missing.clone()));
    groups.push(too_late);
    let mut aired = vec![newcomer.aired(99)];
    aired.extend(started.into_iter().map(|(object, _, _)| object));
    Stream { groups, aired }
}

/// Conflicts with an object that is not finished. Some leave it as it is; as many as the head bears
/// make way for another object, none of whose groups the first could have sent.
pub fn in_the_way(random: &mut Random) -> Stream {
    let number = random.word() as u16;
    let first = long_object(random);
    let (mut groups, missing) = loop {
        let (most, missing) = all_but_one(random, number, &first);
        // With header segment 0 in, both sizes are known.
        let is_start = |group: &Vec<u8>| {
            group::read(group)
                .is_ok_and(|segment| segment.part == Part::Header && segment.number == 0)
        };
        if most.iter().any(is_start) {
            break (most, missing);
        }
    };
    let length = first.body.len() + random.within(1, 3);
    let mut body = random.bytes(length);
    // Its last segment is of another length than any of the first object's, and its header of one group.
    while body.len() % 96 == 0 || body.len() % 96 == first.body.len() % 64 {
        body.push(0);
    }
    let second = Object::of("b", &named(b"b"), body);
    let pieces = cut(&second.body, 96)
        .into_iter()
        .map(|piece| (Part::Body, piece));
    let header = cut(&second.header, 16)
        .into_iter()
        .map(|piece| (Part::Header, piece));
    let conflicting: Vec<Vec<u8>> = pieces
        .chain(header)
        .map(|(part, piece)| {
            let fields = Fields::of_segment(number, part, piece.number, piece.last, &piece.bytes);
            groups::sent_anyhow(random, fields).whole()
        })
        .collect();
    let endless = || conflicting.iter().cycle().cloned();
    if random.coin() {
        groups.extend(endless().take(random.within(1, CONFLICTS - 1)));
        groups.push(missing);
        let aired = vec![first.aired(number)];
        return Stream { groups, aired };
    }
    groups.extend(endless().take(CONFLICTS - 1 + conflicting.len()));
    groups.push(missing);
    let aired = vec![second.aired(number)];
    Stream { groups, aired }
}

/// One group of another object under the number of a finished one, which then goes on: it is dropped
/// and gathered again, in the same airing.
pub fn strayed(random: &mut Random) -> Stream {
    let number = random.word() as u16;
    let object = long_object(random);
    let size = any_size(random);
    let mut groups = round(random, number, &object, size);
    groups.push(Fields::of_segment(number, Part::Body, 0, true, b"stray").whole());
    for _ in 0..CONFLICTS + 2 {
        groups.extend(round(random, number, &object, size));
    }
    let aired = vec![object.aired(number)];
    Stream { groups, aired }
}
