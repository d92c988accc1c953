//! The record that a head must keep of some groups, its report and its lines of progress: the policy that
//! the head comment of `examples/head.c` tells, over the independent collector. It is told in other words than the
//! head's: when each number was heard is a time, whether an object is finished is asked of the
//! collector, and what was aired is kept whole.

use independent::answer::{Answer, Reply};
use independent::collector::{Collector, Memory};
use independent::group::{self, Part};
use independent::header;
use std::cmp::Reverse;
use std::collections::BTreeMap;

/// As in `examples/head.c`.
pub const SLOTS: usize = 4;
pub const LIMIT: usize = 65_536;
pub const CONFLICTS: usize = 8;
pub const NAME_MOST: usize = 100;

/// An object that was aired under a number, with its name as a file has it.
#[derive(Clone, Debug, PartialEq, Eq)]
pub struct Aired {
    pub number: u16,
    pub name: String,
    pub header: Vec<u8>,
    pub body: Vec<u8>,
}

/// The bytes of each file, by its name.
pub type Files = BTreeMap<String, Vec<u8>>;

/// The files of airings, which come in their order.
pub fn files(aired: &[Aired]) -> Files {
    let mut airings: BTreeMap<u16, usize> = BTreeMap::new();
    let mut files = Files::new();
    for each in aired {
        let airing = airings.entry(each.number).or_default();
        *airing += 1;
        let name = format!("{:04x}-{airing}-{}", each.number, each.name);
        files.insert(format!("{name}.body"), each.body.clone());
        files.insert(format!("{name}.header"), each.header.clone());
    }
    files
}

#[derive(Clone, Copy, Debug, Default, PartialEq, Eq)]
pub struct Tally {
    pub taken: usize,
    pub repeated: usize,
    pub refused: usize,
    pub complete: usize,
    pub written: usize,
    pub dropped_unfinished: usize,
}

impl Tally {
    /// The line that a head ends with.
    pub fn line(&self) -> String {
        format!(
            "groups: {} taken, {} repeated, {} refused; objects: {} complete, {} written, {} dropped unfinished\n",
            self.taken,
            self.repeated,
            self.refused,
            self.complete,
            self.written,
            self.dropped_unfinished
        )
    }
}

/// What is known of a number that is held.
struct Held {
    heard: usize,
    conflicts: usize,
}

pub struct Record {
    collector: Collector,
    held: BTreeMap<u16, Held>,
    pub aired: Vec<Aired>,
    pub tally: Tally,
    /// The lines of the report, and those of progress.
    pub report: String,
    pub progress: String,
}

impl Record {
    pub fn of(groups: &[Vec<u8>]) -> Record {
        Record::after(Vec::new(), groups)
    }

    /// Of a head that is started where these are recorded already.
    pub fn after(aired: Vec<Aired>, groups: &[Vec<u8>]) -> Record {
        let memory = Memory::filled(LIMIT, SLOTS, 0);
        let collector = Collector::open(LIMIT, SLOTS, memory).expect("the limits are in bounds");
        let mut record = Record {
            collector,
            held: BTreeMap::new(),
            aired,
            tally: Tally::default(),
            report: String::new(),
            progress: String::new(),
        };
        for (time, group) in groups.iter().enumerate() {
            record.hear(time, group);
        }
        record
    }

    fn is_finished(&self, number: u16) -> bool {
        self.collector.show(number, Part::Header).is_ok()
    }

    fn drop(&mut self, number: u16) {
        if !self.is_finished(number) {
            self.tally.dropped_unfinished += 1;
        }
        self.collector.drop_number(number);
        self.held.remove(&number);
    }

    /// The number that gives way to a group that was refused so.
    fn gives_way(&mut self, answer: Answer, number: u16) -> Option<u16> {
        match answer {
            Answer::Full => {
                let order = |&number: &u16| {
                    let heard = self.held[&number].heard;
                    (Reverse(self.is_finished(number)), heard)
                };
                self.held.keys().copied().min_by_key(order)
            }
            Answer::Conflict => {
                let finished = self.is_finished(number);
                let held = self.held.get_mut(&number)?;
                held.conflicts += 1;
                (finished || held.conflicts == CONFLICTS).then_some(number)
            }
            _ => None,
        }
    }

    fn hear(&mut self, time: usize, group: &[u8]) {
        let mut reply = self.collector.take(group);
        let of = reply.transport.unwrap_or_default();
        if let Some(number) = self.gives_way(reply.answer, of) {
            self.drop(number);
            reply = self.collector.take(group);
        }
        let conflicts = match reply.answer {
            Answer::Stored | Answer::Complete => {
                self.tally.taken += 1;
                0
            }
            Answer::Repeat => {
                self.tally.repeated += 1;
                self.held[&of].conflicts
            }
            _ => {
                self.tally.refused += 1;
                return;
            }
        };
        let heard = time;
        self.held.insert(of, Held { heard, conflicts });
        self.report += &line(&reply, group);
        if reply.answer != Answer::Repeat {
            self.progress += &self.progress_of(of);
        }
        if reply.answer == Answer::Complete {
            self.tally.complete += 1;
            self.air(of);
        }
    }

    /// The line of progress of a number that is held.
    fn progress_of(&self, number: u16) -> String {
        let missing = self.collector.missing(number).expect("it is held");
        let told = missing.map_or("unknown".to_string(), |bytes| bytes.to_string());
        format!("{number:04x} missing {told}\n")
    }

    /// A finished object, unless it is the last of its number.
    fn air(&mut self, number: u16) {
        let part = |part| self.collector.show(number, part).expect("it is complete");
        let (header, body) = (part(Part::Header).to_vec(), part(Part::Body).to_vec());
        let name = safe_name(&header);
        let aired = Aired {
            number,
            name,
            header,
            body,
        };
        let last = self.aired.iter().rev().find(|each| each.number == number);
        if last != Some(&aired) {
            self.aired.push(aired);
            self.tally.written += 1;
        }
    }
}

/// The report's line of a group that is stored or repeated.
fn line(reply: &Reply, group: &[u8]) -> String {
    let segment = group::read(group).expect("it is stored or repeated");
    let said = reply.repetition.expect("the answer has it");
    let part = match segment.part {
        Part::Header => "H",
        Part::Body => "B",
    };
    let heard = match reply.answer {
        Answer::Repeat => "repeat",
        _ => "new",
    };
    let mut address: String = segment
        .address(group)
        .iter()
        .map(|byte| format!("{byte:02x}"))
        .collect();
    if address.is_empty() {
        address.push('-');
    }
    format!(
        "{:04x} {part} {} {heard} {} {} {} {address}\n",
        segment.transport, segment.number, said.index, said.continuity, said.count
    )
}

/// A header's name as a file has it.
fn safe_name(header: &[u8]) -> String {
    let said = header::read(header).ok().and_then(|said| said.name);
    // The first byte is the character set.
    let name = said.map_or(&[][..], |name| &header[name.start + 1..name.end]);
    let safe: String = name
        .iter()
        .take(NAME_MOST)
        .map(|&byte| match byte {
            b'0'..=b'9' | b'a'..=b'z' | b'A'..=b'Z' | b'.' | b'-' => char::from(byte),
            _ => '_',
        })
        .collect();
    if safe.is_empty() {
        "unnamed".to_string()
    } else {
        safe
    }
}
