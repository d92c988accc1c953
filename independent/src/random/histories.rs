//! Histories of calls, and of listing lines, to compare two collectors on. Objects are cut and
//! sent, several numbers at a time and more of them than there are slots; segments come shuffled,
//! the core's now and then after all others, and repeated, with other indices, counts and end user
//! addresses than before or the same ones, spoilt in every field, or never; the empty segment comes
//! with bodies without bytes and at any time beside others; numbers are dropped and sent anew; and
//! between them come damaged groups, questions and malformed lines.

use super::{groups, headers, segments, Random};
use crate::group::{Fields, Part};
use crate::listing::{LIMIT, LONGEST_LINE, SLOTS};
use crate::object::{cut, Core, Piece, BODY_SEGMENTS, CORE_LENGTH};

/// The types of a header segment and of a body segment.
const HEADER_KIND: u8 = 3;
const BODY_KIND: u8 = 4;

/// One call of a collector that is open.
#[derive(Clone, Debug, PartialEq, Eq)]
pub enum Call {
    Take(Vec<u8>),
    Drop(u16),
    Show(u16, Part),
    ReadHeader(u16),
    Missing(u16),
    Find(Vec<u8>),
}

/// An object that some station sends under a number.
struct Station {
    transport: u16,
    /// All that one round of the carousel sends, and how far it has come.
    segments: Vec<Fields>,
    sent: usize,
}

impl Station {
    fn new(random: &mut Random, transport: u16, limit: usize) -> Station {
        let mut segments = if random.once_in(12) {
            let set = segments::near_the_bounds(random, limit);
            of_both_parts(set.header, set.body)
        } else {
            let (header, body) = object(random, limit);
            let header_size = cut_size(random, header.len(), 64);
            let body_size = cut_size(random, body.len(), BODY_SEGMENTS);
            let mut body = cut(&body, body_size);
            if body.is_empty() && random.coin() {
                body.push(Piece::empty());
            }
            of_both_parts(cut(&header, header_size), body)
        };
        if !random.once_in(4) {
            random.shuffle(&mut segments);
        }
        if random.coin() {
            core_last(&mut segments);
        }
        let segments = segments
            .into_iter()
            .map(|segment| fields_of(random, transport, segment))
            .collect();
        Station {
            transport,
            segments,
            sent: 0,
        }
    }

    /// The next segment of the round, if there is one.
    fn next(&mut self) -> Option<Fields> {
        let segment = self.segments.get(self.sent)?.clone();
        self.sent += 1;
        Some(segment)
    }

    /// Any segment that was sent already.
    fn again(&self, random: &mut Random) -> Option<Fields> {
        let place = random.within(0, self.sent.checked_sub(1)?);
        Some(groups::sent_again(random, self.segments[place].clone()))
    }

    /// After a whole round the carousel goes round again, or the number is dropped for the next
    /// object.
    fn after_a_round(&mut self, random: &mut Random, limit: usize) -> Call {
        if random.coin() {
            *self = Station::new(random, self.transport, limit);
            Call::Drop(self.transport)
        } else {
            for segment in &mut self.segments {
                *segment = groups::sent_again(random, segment.clone());
            }
            self.sent = 0;
            Call::Find(headers::name(random))
        }
    }
}

fn of_both_parts(header: Vec<Piece>, body: Vec<Piece>) -> Vec<(Part, Piece)> {
    let header = header.into_iter().map(|piece| (Part::Header, piece));
    let body = body.into_iter().map(|piece| (Part::Body, piece));
    header.chain(body).collect()
}

/// Header segment 0 after all others, where these can tell the lengths before the core does.
fn core_last(segments: &mut [(Part, Piece)]) {
    let headers = segments.iter().filter(|(part, _)| *part == Part::Header);
    if headers.count() >= 3 {
        segments.sort_by_key(|(part, piece)| *part == Part::Header && piece.number == 0);
    }
}

/// A header and a body; in one of eight the core tells something else than the lengths.
fn object(random: &mut Random, limit: usize) -> (Vec<u8>, Vec<u8>) {
    let body_length = match random.within(0, 11) {
        0 | 1 => 0,
        2 => limit,
        3 => random.within(0, limit),
        4 => limit + 1,
        _ => random.within(1, 300),
    };
    let mut header = headers::well_formed(random, body_length);
    if random.once_in(3) {
        // A list of any kind, for the questions about a header that doesn't read.
        let other = headers::any_header(random);
        header.truncate(CORE_LENGTH);
        header.extend(other.get(CORE_LENGTH..).unwrap_or_default());
    } else if random.once_in(3) {
        // A longer header, by an unknown parameter at its end.
        let any = random.within(48, 200);
        let length = random.one_of(&[16, 17, any, any, 600, 1_023, 1_024, 1_025]);
        if header.len() + 4 < length {
            let data = (length - header.len() - 3) as u16;
            header.push(0xFF);
            header.extend((0x8000 | data).to_be_bytes());
            let filler = random.bytes(usize::from(data));
            header.extend(filler);
        }
    }
    let mut core = Core::of(&header).expect("a well-formed header has a core");
    core.header_size = header.len();
    if random.once_in(8) {
        match random.within(0, 3) {
            0 => core.body_size += 1,
            1 => core.body_size = core.body_size.saturating_sub(1),
            2 => core.header_size += 1,
            _ => core.header_size -= 1,
        }
    }
    header[..CORE_LENGTH].copy_from_slice(&core.bytes());
    let body = random.bytes(body_length);
    (header, body)
}

/// A segment size that cuts this length into few segments, now and then into as many as can be.
fn cut_size(random: &mut Random, length: usize, segments: usize) -> usize {
    let size = match random.within(0, 9) {
        0 => 16,
        1 => length,
        2 => length.div_ceil(segments),
        3 => random.within(16, 8_189),
        _ => length / random.within(1, 5),
    };
    // One segment too many is worth a try; a cut into tens of thousands would never end.
    size.clamp(length.div_ceil(segments + 1).clamp(16, 8_189), 8_189)
}

/// The same segment with one thing about it changed.
fn spoilt(random: &mut Random, mut fields: Fields) -> Fields {
    let field = fields.segment.as_mut().expect("a segment has its field");
    let bytes = &mut fields.bytes;
    match random.within(0, 8) {
        0 => field.number = (field.number + 1) & 0x7FFF,
        1 => field.number = field.number.saturating_sub(1),
        2 => field.number = random.one_of(&[63, 64, 1_023, 1_024, 32_767]),
        3 if bytes.is_empty() || bytes.len() >= 16 => field.last = !field.last,
        4 if bytes.len() < 8_189 => bytes.push(0),
        5 if bytes.len() > 16 => {
            bytes.pop();
        }
        // The other part's type.
        6 => fields.kind ^= HEADER_KIND ^ BODY_KIND,
        _ if bytes.is_empty() => bytes.push(random.byte()),
        7 if fields.kind == HEADER_KIND => bytes[0] ^= 1 << random.within(0, 7),
        _ => {
            let place = random.within(0, bytes.len() - 1);
            bytes[place] ^= 1 << random.within(0, 7);
        }
    }
    fields.size = fields.bytes.len() as u16;
    fields
}

/// The fields of this segment's group, in three of four cases all that is no part of it random.
fn fields_of(random: &mut Random, transport: u16, (part, piece): (Part, Piece)) -> Fields {
    let fields = Fields::of_segment(transport, part, piece.number, piece.last, &piece.bytes);
    if random.once_in(4) {
        fields
    } else {
        groups::sent_anyhow(random, fields)
    }
}

/// `count` calls of a collector opened with this limit and so many slots.
pub fn calls(random: &mut Random, limit: usize, slots: usize, count: usize) -> Vec<Call> {
    let mut numbers = vec![0, 0xFFFF, 5];
    numbers.extend((0..slots + 2).map(|_| random.word() as u16));
    random.shuffle(&mut numbers);
    numbers.truncate(random.within(1, slots + 2));
    let mut stations: Vec<Station> = numbers
        .iter()
        .map(|&transport| Station::new(random, transport, limit))
        .collect();
    (0..count)
        .map(|_| {
            let place = random.within(0, stations.len() - 1);
            call(random, &mut stations[place], limit)
        })
        .collect()
}

/// The next call, most likely the next segment that this station sends.
fn call(random: &mut Random, station: &mut Station, limit: usize) -> Call {
    let transport = station.transport;
    let segment = match random.within(0, 103) {
        0..=59 => station.next(),
        60..=66 => station.again(random),
        67..=72 => station.again(random).map(|segment| spoilt(random, segment)),
        73..=74 => Some(fields_of(random, transport, (Part::Body, Piece::empty()))),
        75..=78 => return Call::Take(groups::any_group(random)),
        79..=83 => return Call::Take(groups::one_field_wrong(random)),
        84..=86 => {
            *station = Station::new(random, transport, limit);
            return Call::Drop(transport);
        }
        // Another object under the same number, the old one not dropped.
        87 => {
            *station = Station::new(random, transport, limit);
            station.next()
        }
        88 => return Call::Drop(random.word() as u16),
        89..=91 => return Call::Show(transport, Part::Header),
        92..=94 => return Call::Show(transport, Part::Body),
        95..=96 => return Call::ReadHeader(transport),
        97 => return Call::ReadHeader(random.word() as u16),
        98..=99 => return Call::Find(headers::name(random)),
        100..=102 => return Call::Missing(transport),
        _ => return Call::Missing(random.word() as u16),
    };
    match segment {
        Some(segment) => Call::Take(segment.whole()),
        None => station.after_a_round(random, limit),
    }
}

fn hex(letter: u8, bytes: &[u8]) -> Vec<u8> {
    let digits: String = bytes.iter().map(|byte| format!("{byte:02x}")).collect();
    [&[letter, b'\t'], digits.as_bytes()].concat()
}

/// A line for a call; a question, which the listing doesn't know, becomes a malformed line.
fn line(random: &mut Random, call: Call) -> Vec<u8> {
    let line = match call {
        Call::Take(group) if group.len() >= 2 && random.once_in(3) => {
            hex(b'B', &group[..group.len() - 2])
        }
        Call::Take(group) => hex(b'G', &group),
        Call::Drop(transport) => hex(b'D', &transport.to_be_bytes()),
        Call::Show(transport, _) | Call::ReadHeader(transport) | Call::Missing(transport) => {
            return malformed(random, hex(b'D', &transport.to_be_bytes()))
        }
        Call::Find(name) => return malformed(random, hex(b'B', &name)),
    };
    if random.once_in(40) {
        malformed(random, line)
    } else {
        line
    }
}

/// This line made wrong in some way.
fn malformed(random: &mut Random, mut line: Vec<u8>) -> Vec<u8> {
    match random.within(0, 11) {
        0 => line.clear(),
        1 => line.push(b'\r'),
        2 => line.push(b'0'),
        3 => line[1] = b' ',
        4 => line.insert(1, b'\t'),
        5 => line.truncate(1),
        6 => line[0] = random.one_of(b"ACEFHTgbd0\t "),
        7 => line.make_ascii_uppercase(),
        8 => line.extend(b"0A"),
        9 => line.extend([0xC3, 0xA9]),
        10 => {
            let length = LONGEST_LINE + random.within(0, 3);
            line.resize(length, b'0');
        }
        _ => {
            let place = random.within(0, line.len() - 1);
            let byte = random.byte();
            line[place] = if byte == b'\n' { b'x' } else { byte };
        }
    }
    line
}

/// So many lines for the listing program, now and then without the newline at the end.
pub fn listing(random: &mut Random, lines: usize) -> Vec<u8> {
    let calls = calls(random, LIMIT, SLOTS, lines);
    let mut text = Vec::new();
    for call in calls {
        text.extend(line(random, call));
        text.push(b'\n');
    }
    if random.once_in(4) && !text.ends_with(b"\n\n") {
        text.pop();
    }
    text
}

#[cfg(test)]
mod tests {
    use super::*;
    use crate::answer::Answer;
    use crate::collector::{Collector, Held, Memory, Stage};
    use crate::group::read;
    use std::collections::{HashMap, HashSet};

    #[test]
    fn every_answer_of_the_listing_comes_up() {
        let mut random = Random::from_seed(11);
        let mut tally: HashMap<String, usize> = HashMap::new();
        for _ in 0..60 {
            let text = listing(&mut random, 80);
            let mut output = Vec::new();
            crate::listing::run(&text[..], &mut output).unwrap();
            let output = String::from_utf8(output).unwrap();
            assert_eq!(output.lines().count(), 81);
            for line in output.lines().filter(|line| !line.starts_with('T')) {
                let answer = line.split(' ').nth(1).unwrap();
                *tally.entry(answer.to_string()).or_default() += 1;
            }
        }
        for answer in crate::listing::ANSWERS {
            assert!(tally.get(answer) > Some(&5), "{answer}: {tally:?}");
        }
    }

    /// Every answer to a group, a drop or a question that a sound state can give.
    #[test]
    fn every_answer_of_the_collector_comes_up() {
        let mut seen = HashSet::new();
        for (seed, limit) in [(12, 1_024), (13, 12_288), (14, 65_536), (15, 1_048_576)] {
            let mut random = Random::from_seed(seed);
            for slots in [1, 2, 3, 5, 16] {
                let memory = Memory::filled(limit, slots, 0);
                let mut collector = Collector::open(limit, slots, memory).unwrap();
                for call in calls(&mut random, limit, slots, 1_000) {
                    let answer = match call {
                        Call::Take(group) => Some(collector.take(&group).answer),
                        Call::Drop(transport) => Some(collector.drop_number(transport).answer),
                        Call::Show(transport, part) => collector.show(transport, part).err(),
                        Call::ReadHeader(transport) => collector.read_header(transport).err(),
                        Call::Missing(transport) => collector.missing(transport).err(),
                        Call::Find(name) => collector.find(&name).err(),
                    };
                    seen.extend(answer);
                }
            }
        }
        let never = [Answer::Limits, Answer::State];
        for answer in Answer::ALL {
            assert_eq!(
                seen.contains(&answer),
                !never.contains(&answer),
                "{answer:?}"
            );
        }
    }

    /// The empty segment comes before anything else, beside every kind and after the end, and
    /// everything comes where it is in.
    #[test]
    fn the_empty_segment_comes_at_every_stage() {
        let mut tally: HashMap<(&str, &str, Answer), usize> = HashMap::new();
        for (seed, limit) in [(17, 1_024), (18, 12_288), (19, 1_048_576)] {
            let mut random = Random::from_seed(seed);
            for slots in [1, 2, 5, 16] {
                let memory = Memory::filled(limit, slots, 0);
                let mut collector = Collector::open(limit, slots, memory).unwrap();
                for call in calls(&mut random, limit, slots, 12_000) {
                    let (group, segment) = match call {
                        Call::Take(group) => match read(&group) {
                            Ok(segment) => (group, segment),
                            Err(_) => continue,
                        },
                        Call::Drop(transport) => {
                            collector.drop_number(transport);
                            continue;
                        }
                        _ => continue,
                    };
                    let mut held = collector.slots().iter().flatten();
                    let held = held.find(|held| held.transport == segment.transport);
                    let stage = match held {
                        None => "none",
                        Some(held) if held.stage() != Stage::Gathering => "finished",
                        Some(held) if held.core().is_some() => "core in",
                        Some(_) => "gathering",
                    };
                    let empty_in = held.is_some_and(|held| held.body.contains(&Piece::empty()));
                    let kind = match segment.part {
                        Part::Body if segment.length == 0 => "empty",
                        Part::Body if empty_in => "body, the empty one in",
                        Part::Header if empty_in => "header, the empty one in",
                        _ => "another",
                    };
                    let answer = collector.take(&group).answer;
                    *tally.entry((kind, stage, answer)).or_default() += 1;
                }
            }
        }
        use Answer::*;
        for expected in [
            ("empty", "none", Stored),
            ("empty", "none", Full),
            ("empty", "gathering", Stored),
            ("empty", "gathering", Repeat),
            ("empty", "gathering", Conflict),
            ("empty", "core in", Stored),
            ("empty", "core in", Repeat),
            ("empty", "core in", Conflict),
            ("empty", "finished", Stored),
            ("empty", "finished", Repeat),
            ("empty", "finished", Conflict),
            ("body, the empty one in", "gathering", Conflict),
            ("body, the empty one in", "core in", Conflict),
            ("body, the empty one in", "finished", Conflict),
            ("header, the empty one in", "gathering", Stored),
            ("header, the empty one in", "gathering", Complete),
            ("header, the empty one in", "gathering", Conflict),
            ("header, the empty one in", "core in", Stored),
            ("header, the empty one in", "core in", Complete),
            ("header, the empty one in", "finished", Repeat),
        ] {
            assert!(tally.get(&expected) > Some(&3), "{expected:?}: {tally:?}");
        }
        let never = |(kind, _, answer): &&(&str, &str, Answer)| {
            (*kind == "empty" && *answer == Complete)
                || (*kind == "body, the empty one in" && *answer != Conflict)
        };
        assert_eq!(tally.keys().find(never), None);
    }

    /// What is missing is asked of every sort of number: unknown and known in every way, parked
    /// segments beside it, and not held.
    #[test]
    fn missing_bytes_are_asked_for_in_every_way() {
        let mut tally: HashMap<&str, usize> = HashMap::new();
        for (seed, limit) in [(23, 1_024), (24, 12_288), (25, 1_048_576)] {
            let mut random = Random::from_seed(seed);
            for slots in [1, 2, 5, 16] {
                let memory = Memory::filled(limit, slots, 0);
                let mut collector = Collector::open(limit, slots, memory).unwrap();
                for call in calls(&mut random, limit, slots, 6_000) {
                    let transport = match call {
                        Call::Take(group) => {
                            collector.take(&group);
                            continue;
                        }
                        Call::Drop(transport) => {
                            collector.drop_number(transport);
                            continue;
                        }
                        Call::Missing(transport) => transport,
                        _ => continue,
                    };
                    let mut held = collector.slots().iter().flatten();
                    let held = held.find(|held| held.transport == transport);
                    for name in held.map_or(vec!["not held"], sorts_of_progress) {
                        *tally.entry(name).or_default() += 1;
                    }
                }
            }
        }
        assert_eq!(tally.len(), 8, "{tally:?}");
        assert!(tally.values().all(|&times| times > 20), "{tally:?}");
    }

    /// What is known of the missing bytes of a number that is held.
    fn sorts_of_progress(held: &Held) -> Vec<&'static str> {
        let [header, body] = [Part::Header, Part::Body].map(|part| held.known_length(part));
        let parked = [Part::Header, Part::Body].map(|part| held.is_parked(part));
        let missing = held.missing();
        let mut sorts = vec![match missing {
            None => "unknown",
            Some(0) => "nothing",
            Some(_) => "some",
        }];
        let without_core = missing.is_some() && held.core().is_none();
        let others = [
            ("known without the core", without_core),
            ("the body's length", header.is_none() && body.is_some()),
            ("the header's length", header.is_some() && body.is_none()),
            ("a segment parked", parked.contains(&true)),
        ];
        sorts.extend(others.iter().filter(|sort| sort.1).map(|sort| sort.0));
        sorts
    }

    /// Repeats come just as the group that was stored, and with each of the three numbers and the
    /// address other than in it, one alone or several.
    #[test]
    fn repeats_differ_from_what_was_stored() {
        let mut tally: HashMap<&str, usize> = HashMap::new();
        for (seed, slots) in [(20, 1), (21, 4), (22, 16)] {
            let mut random = Random::from_seed(seed);
            let memory = Memory::filled(12_288, slots, 0);
            let mut collector = Collector::open(12_288, slots, memory).unwrap();
            let mut stored: HashMap<(u16, Part, u16), Vec<u8>> = HashMap::new();
            for call in calls(&mut random, 12_288, slots, 6_000) {
                let group = match call {
                    Call::Take(group) => group,
                    Call::Drop(transport) => {
                        collector.drop_number(transport);
                        continue;
                    }
                    _ => continue,
                };
                let answer = collector.take(&group).answer;
                let Ok(segment) = read(&group) else { continue };
                let place = (segment.transport, segment.part, segment.number);
                if matches!(answer, Answer::Stored | Answer::Complete) {
                    stored.insert(place, group);
                    continue;
                }
                if answer != Answer::Repeat {
                    continue;
                }
                let first = &stored[&place];
                let before = read(first).unwrap();
                let (said, other) = (segment.repetition, before.repetition);
                let (address, before_it) = (segment.address(&group), before.address(first));
                let differences = [
                    ("index", said.index != other.index),
                    ("continuity", said.continuity != other.continuity),
                    ("count", said.count != other.count),
                    ("address", address != before_it),
                    ("length of the address", address.len() != before_it.len()),
                    ("extension", segment.address_start != before.address_start),
                ];
                let differing = differences.iter().filter(|difference| difference.1);
                let names: Vec<&str> = differing.map(|difference| difference.0).collect();
                match names[..] {
                    [] if group == *first => *tally.entry("nothing").or_default() += 1,
                    ["address"] => *tally.entry("address alone").or_default() += 1,
                    ["index"] => *tally.entry("index alone").or_default() += 1,
                    ["continuity"] => *tally.entry("continuity alone").or_default() += 1,
                    ["count"] => *tally.entry("count alone").or_default() += 1,
                    _ => (),
                }
                for name in names {
                    *tally.entry(name).or_default() += 1;
                }
            }
        }
        assert_eq!(tally.len(), 11, "{tally:?}");
        assert!(tally.values().all(|&times| times > 20), "{tally:?}");
    }

    /// Of an object that is what its core says, what is missing is what was not sent yet, from the
    /// first group on that makes both lengths known.
    #[test]
    fn missing_bytes_of_real_cuts() {
        let mut random = Random::from_seed(26);
        let (mut unknown, mut without_core) = (0, 0);
        for _ in 0..1_000 {
            let body_length = random.within(0, 3_000);
            let body = random.bytes(body_length);
            let header = headers::well_formed(&mut random, body_length);
            let sizes = [random.within(16, 24), random.within(16, 3_100)];
            let mut to_send = of_both_parts(cut(&header, sizes[0]), cut(&body, sizes[1]));
            random.shuffle(&mut to_send);
            let mut collector = Collector::open(4_096, 1, Memory::filled(4_096, 1, 0)).unwrap();
            let mut to_come = header.len() + body.len();
            let mut sent: Vec<(Part, u16, bool)> = Vec::new();
            for (part, piece) in to_send {
                to_come -= piece.bytes.len();
                sent.push((part, piece.number, piece.last));
                let group = Fields::of_segment(7, part, piece.number, piece.last, &piece.bytes);
                collector.take(&group.whole());
                let core = sent
                    .iter()
                    .any(|each| (each.0, each.1) == (Part::Header, 0));
                let tells = |part| {
                    let of_part = sent.iter().filter(|each| each.0 == part);
                    let last = of_part.clone().find(|each| each.2);
                    last.is_some_and(|last| last.1 == 0 || of_part.count() > 1)
                };
                let known = core || tells(Part::Header) && tells(Part::Body);
                assert_eq!(collector.missing(7), Ok(known.then_some(to_come)));
                unknown += usize::from(!known);
                without_core += usize::from(known && !core);
            }
            assert_eq!(collector.missing(7), Ok(Some(0)));
        }
        let rare = unknown.min(without_core) < 100;
        assert!(!rare, "{unknown} {without_core}");
    }

    /// Objects that are what their cores say never conflict, in whatever order they come, and
    /// are shown as they were sent.
    #[test]
    fn real_cuts_are_finished_and_shown() {
        let mut random = Random::from_seed(16);
        for _ in 0..60 {
            let limit = random.one_of(&[1_024, 12_288, 65_536]);
            let slots = random.within(1, 4);
            let memory = Memory::filled(limit, slots, random.byte());
            let mut collector = Collector::open(limit, slots, memory).unwrap();
            let objects: Vec<(Vec<u8>, Vec<u8>)> = (0..slots)
                .map(|_| {
                    let body_length = if random.once_in(4) {
                        0
                    } else {
                        random.within(0, limit)
                    };
                    let body = random.bytes(body_length);
                    (headers::well_formed(&mut random, body_length), body)
                })
                .collect();
            let mut to_send = Vec::new();
            for (transport, (header, body)) in objects.iter().enumerate() {
                let header_size = cut_size(&mut random, header.len(), 64);
                let least = body.len().div_ceil(BODY_SEGMENTS).max(16);
                let body_size = cut_size(&mut random, body.len(), BODY_SEGMENTS).max(least);
                let segments = of_both_parts(cut(header, header_size), cut(body, body_size));
                to_send.extend(segments.into_iter().map(|each| (transport as u16, each)));
            }
            random.shuffle(&mut to_send);
            let mut came = vec![0; slots];
            let all: Vec<usize> = (0..slots)
                .map(|slot| to_send.iter().filter(|each| each.0 == slot as u16).count())
                .collect();
            for (transport, segment) in to_send {
                let sent = fields_of(&mut random, transport, segment);
                let group = sent.whole();
                came[usize::from(transport)] += 1;
                let whole = came[usize::from(transport)] == all[usize::from(transport)];
                let expected = if whole {
                    Answer::Complete
                } else {
                    Answer::Stored
                };
                assert_eq!(collector.take(&group).answer, expected);
                if random.once_in(3) {
                    let again = groups::sent_again(&mut random, sent).whole();
                    assert_eq!(collector.take(&again).answer, Answer::Repeat);
                }
            }
            for (transport, (header, body)) in objects.iter().enumerate() {
                let transport = transport as u16;
                assert_eq!(collector.show(transport, Part::Header), Ok(&header[..]));
                assert_eq!(collector.show(transport, Part::Body), Ok(&body[..]));
            }
        }
    }
}
