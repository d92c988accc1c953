//! The proved collector, as a head links it, against the independent one: random histories of calls,
//! and after every call the answer with all that it returns, the counts, the marks, the records, what
//! is missing and what is shown compared; the stores whole at the end of each history, and after every
//! call where they are small. A part of the histories begins with counts next to the most that is
//! counted.

use crate::lent::Lent;
use crate::progress::Progress;
use independent::answer::Answer;
use independent::collector::{Collector, Counts, Memory, Stage, MOST_COUNTED};
use independent::group::{self, Part, Segment};
use independent::object::{Piece, CORE_LENGTH};
use independent::random::histories::{calls, Call};
use independent::random::Random;
use independent::state::Handed;
use std::collections::BTreeMap;
use yovtirak::lent::{COUNTS, STATE_WORDS};

const SEED: u64 = 300_401;
const HISTORIES: u64 = 2_000;
const CALLS: usize = 60;
const LIMITS: [usize; 4] = [1_024, 12_288, 65_536, 1_048_576];
/// Stores up to this many bytes are compared after every call.
const SMALL: usize = 40_000;

/// What no call of a collector that is open and sound is answered: `states` has STATE, the openings here LIMITS.
const OTHERS: [Answer; 2] = [Answer::Limits, Answer::State];

/// What the empty segment of a body is answered (document 02, Item 2), and what comes where it is in.
const EMPTIES: [&str; 6] = [
    "STORED, the empty segment",
    "STORED, the empty segment of a finished object",
    "REPEAT, the empty segment",
    "CONFLICT, the empty segment",
    "COMPLETE, the empty segment in",
    "CONFLICT, the empty segment in",
];

/// How a repeat differs from the group that was stored (document 02, Item 6).
const DIFFERENCES: [&str; 6] = [
    "another repetition index",
    "another continuity index",
    "another repetition count",
    "another end user address",
    "an end user address of another length",
    "another extension field or spare bits",
];
/// Of these, those that differ in the first five alone, and those that don't differ.
const ONLY_THESE: &str = "none but the first five";
const NOTHING: &str = "nothing";

/// How often each came up, by its name: answers and, of repeats, differences.
pub type Tally = BTreeMap<&'static str, usize>;

fn differ(what: &str, ours: impl std::fmt::Debug, theirs: impl std::fmt::Debug) -> String {
    format!("{what}: {ours:?}, not {theirs:?}")
}

fn counts_near_the_most(random: &mut Random) -> Counts {
    let mut near = || MOST_COUNTED - random.within(0, 4) as u32;
    Counts {
        taken: near(),
        repeated: near(),
        refused: near(),
        completed: near(),
        dropped: near(),
    }
}

fn told(tally: &mut Tally, what: &'static str) -> Result<Option<Answer>, String> {
    *tally.entry(what).or_default() += 1;
    Ok(None)
}

/// The groups whose segments are held, as they were when they were stored, and how repeats differed
/// from them.
#[derive(Default)]
struct Repeats {
    stored: BTreeMap<(u16, Part, u16), Vec<u8>>,
    differences: Tally,
}

/// What a group has around its segment that no answer tells of: the extension field and the spare
/// bits of the user access byte.
fn ignored<'group>(group: &'group [u8], segment: &Segment) -> (&'group [u8], u8) {
    let user_access = segment.address_start - 3;
    (&group[2..user_access - 2], group[user_access] >> 5)
}

impl Repeats {
    fn follow(&mut self, call: &Call, answer: Option<Answer>) {
        match (call, answer) {
            (Call::Take(group), Some(answer)) => self.answered(group, answer),
            (Call::Drop(transport), Some(Answer::Dropped)) => {
                self.stored.retain(|place, _| place.0 != *transport)
            }
            _ => (),
        }
    }

    fn answered(&mut self, group: &[u8], answer: Answer) {
        let Ok(segment) = group::read(group) else {
            return;
        };
        let place = (segment.transport, segment.part, segment.number);
        match answer {
            Answer::Stored | Answer::Complete => {
                self.stored.insert(place, group.to_vec());
            }
            Answer::Repeat => self.count(group, &segment, place),
            _ => (),
        }
    }

    fn count(&mut self, group: &[u8], segment: &Segment, place: (u16, Part, u16)) {
        let first = &self.stored[&place];
        let stored = group::read(first).expect("a group that was stored reads");
        let (said, before) = (segment.repetition, stored.repetition);
        let differs = [
            said.index != before.index,
            said.continuity != before.continuity,
            said.count != before.count,
            segment.address(group) != stored.address(first),
            segment.address_length != stored.address_length,
            ignored(group, segment) != ignored(first, &stored),
        ];
        let mut names: Vec<_> = DIFFERENCES.into_iter().zip(differs).collect();
        names.push((ONLY_THESE, group != first && !differs[5]));
        names.push((NOTHING, group == first));
        for (name, _) in names.into_iter().filter(|(_, differs)| *differs) {
            *self.differences.entry(name).or_default() += 1;
        }
    }

    /// Whether some way to differ came up seldom.
    fn rare(&self) -> bool {
        let mut names = DIFFERENCES.iter().chain([&ONLY_THESE, &NOTHING]);
        names.any(|name| self.differences.get(name) < Some(&100))
    }
}

/// What there is of the empty segment in a group and in what is held under its number.
#[derive(Default)]
struct Empty {
    comes: bool,
    is_in: bool,
    finished: bool,
}

impl Empty {
    fn before(handed: &Handed, group: &[u8]) -> Empty {
        let (Some(collector), Ok(segment)) = (handed.collector(), group::read(group)) else {
            return Empty::default();
        };
        let mut slots = collector.slots().iter().flatten();
        let held = slots.find(|held| held.transport == segment.transport);
        Empty {
            comes: segment.length == 0,
            is_in: held.is_some_and(|held| held.body.contains(&Piece::empty())),
            finished: held.is_some_and(|held| held.stage() != Stage::Gathering),
        }
    }

    /// How an answer is counted: among those of the empty segment, or by its name.
    fn counted(&self, answer: Answer) -> &'static str {
        let [stored, late, repeated, refused, completed, beside] = EMPTIES;
        match answer {
            Answer::Stored if self.comes && self.finished => late,
            Answer::Stored if self.comes => stored,
            Answer::Repeat if self.comes => repeated,
            Answer::Conflict if self.comes => refused,
            Answer::Complete if self.is_in => completed,
            Answer::Conflict if self.is_in => beside,
            _ => answer.name(),
        }
    }
}

/// One call of both, with the answer to it; nothing where a question tells something else.
pub fn call(
    lent: &mut Lent,
    handed: &mut Handed,
    call: &Call,
    tally: &mut Tally,
) -> Result<Option<Answer>, String> {
    let answer = match call {
        Call::Take(group) => {
            let empty = Empty::before(handed, group);
            let (ours, theirs) = (lent.take(group), handed.take(group));
            if ours != theirs {
                return Err(differ("a group", ours, theirs));
            }
            told(tally, empty.counted(theirs.answer))?;
            return Ok(Some(theirs.answer));
        }
        Call::Drop(transport) => {
            let (ours, theirs) = (lent.drop(*transport), handed.drop_number(*transport));
            if ours != theirs {
                return Err(differ("a drop", ours, theirs));
            }
            theirs.answer
        }
        Call::Show(transport, part) => {
            let (ours, theirs) = (lent.show(*transport, *part), handed.show(*transport, *part));
            if ours != theirs {
                return Err(differ("a shown part", ours, theirs));
            }
            match theirs {
                Ok(_) => return told(tally, "a part shown"),
                Err(answer) => answer,
            }
        }
        Call::ReadHeader(transport) => {
            let (ours, theirs) = (lent.read(*transport), handed.read_header(*transport));
            if ours != theirs {
                return Err(differ("a header", ours, theirs));
            }
            match theirs {
                Ok(reading) if reading.core.header_size == CORE_LENGTH => {
                    return told(tally, "a header of 7 bytes read")
                }
                Ok(_) => return told(tally, "a longer header read"),
                Err(answer) => answer,
            }
        }
        Call::Missing(transport) => {
            let (ours, theirs) = (lent.missing(*transport), handed.missing(*transport));
            if ours != theirs {
                return Err(differ("what is missing", ours, theirs));
            }
            match theirs {
                Ok(Some(_)) => return told(tally, "missing bytes told"),
                Ok(None) => return told(tally, "missing bytes unknown"),
                Err(answer) => answer,
            }
        }
        Call::Find(name) => {
            let (ours, theirs) = (lent.find(name), handed.find(name));
            if ours != theirs {
                return Err(differ("a name", ours, theirs));
            }
            match theirs {
                Ok(_) => return told(tally, "a name found"),
                Err(answer) => answer,
            }
        }
    };
    told(tally, answer.name())?;
    Ok(Some(answer))
}

/// All that can be seen of both.
pub fn same(lent: &Lent, collector: &Collector, with_stores: bool) -> Result<(), String> {
    if lent.counts != collector.counts.in_order() {
        return Err(differ("counts", &lent.counts, collector.counts));
    }
    if lent.memory.marks != collector.memory.marks {
        return Err("the marks differ".to_string());
    }
    if lent.state() != Lent::words_of(collector) {
        return Err("the records differ".to_string());
    }
    for held in collector.slots().iter().flatten() {
        for part in [Part::Header, Part::Body] {
            let theirs = collector.show(held.transport, part);
            if lent.show(held.transport, part) != theirs {
                return Err(format!("{part:?} of {:04x} differs", held.transport));
            }
        }
    }
    if with_stores && lent.memory != collector.memory {
        return Err("the stores differ".to_string());
    }
    Ok(())
}

fn collector_of(handed: &Handed) -> &Collector {
    handed
        .collector()
        .expect("a state that calls lead to is sound")
}

/// What came up in the histories.
#[derive(Default)]
struct Seen {
    tally: Tally,
    repeats: Repeats,
    progress: Progress,
}

fn history(random: &mut Random, seen: &mut Seen) -> Result<(), String> {
    let limit = random.one_of(&LIMITS);
    let slots = random.within(1, 16);
    let before = random.byte();
    let memory = Memory::filled(limit, slots, before);
    let opened = Lent::unopened(memory.clone(), before).open(limit, slots);
    let mut lent = opened.map_err(|why| format!("{why:?}"))?;
    let mut collector = Collector::open(limit, slots, memory).map_err(|why| format!("{why:?}"))?;
    same(&lent, &collector, true)?;
    if random.once_in(5) {
        collector.counts = counts_near_the_most(random);
        lent.counts = collector.counts.in_order().to_vec();
    }
    let mut handed = Handed::from(collector);
    seen.repeats.stored.clear();
    seen.progress.open();
    let small = slots * (limit + 1_024) <= SMALL;
    for (number, each) in calls(random, limit, slots, CALLS).iter().enumerate() {
        call(&mut lent, &mut handed, each, &mut seen.tally)
            .and_then(|answer| {
                seen.repeats.follow(each, answer);
                seen.progress.follow(&mut lent, collector_of(&handed))?;
                same(&lent, collector_of(&handed), small)
            })
            .map_err(|said| format!("limit {limit}, {slots} slots, call {number}: {said}"))?;
    }
    same(&lent, collector_of(&handed), true)
}

/// Openings in and out of the bounds, with right and wrong lent lengths: both open or answer LIMITS.
fn openings() -> Result<usize, String> {
    let random = &mut Random::from_seed(SEED);
    let mut refused = 0;
    for _ in 0..2_000 {
        let limit = random.one_of(&[0, 1_023, 1_024, 2_048, 1_048_577, usize::MAX]);
        let slots = random.within(0, 17);
        let before = random.byte();
        let memory = Memory::filled(limit.min(2_048), slots, before);
        let mut lent = Lent::unopened(memory, before);
        match random.within(0, 9) {
            0 => lent.memory.header_store.push(0),
            1 => lent.memory.body_store.push(0),
            2 => lent.memory.marks.push(0),
            3 => lent.state.push(0),
            4 => lent.counts.truncate(4),
            _ => (),
        }
        let right = lent.state.len() == STATE_WORDS && lent.counts.len() == COUNTS;
        let memory = lent.memory.clone();
        let ours = lent.open(limit, slots).map(|lent| lent.memory);
        let theirs = match Collector::open(limit, slots, memory) {
            Ok(collector) if right => Ok(collector.memory),
            _ => Err(Answer::Limits),
        };
        if ours != theirs {
            return Err(format!(
                "an opening with limit {limit} and {slots} slots differs"
            ));
        }
        refused += usize::from(theirs.is_err());
    }
    Ok(refused)
}

/// All histories, or the first few: under a checker of memory each takes long.
pub fn run(few: Option<u64>) -> Result<String, String> {
    let mut seen = Seen::default();
    let histories = few.unwrap_or(HISTORIES);
    for number in 0..histories {
        let random = &mut Random::from_seed(SEED + number);
        history(random, &mut seen).map_err(|said| format!("history {number}: {said}"))?;
    }
    let Seen {
        tally,
        repeats,
        progress,
    } = seen;
    let missing: Vec<_> = Answer::ALL
        .into_iter()
        .filter(|answer| !OTHERS.contains(answer) && !tally.contains_key(answer.name()))
        .collect();
    if few.is_none() && !missing.is_empty() {
        return Err(format!("never given: {missing:?}"));
    }
    let rare = |empty: &&str| tally.get(empty) < Some(&100);
    if few.is_none() && EMPTIES.iter().any(rare) {
        return Err(format!("the empty segment is rare: {tally:?}"));
    }
    let differences = &repeats.differences;
    if few.is_none() && repeats.rare() {
        return Err(format!("repeats differ seldom: {differences:?}"));
    }
    let told = progress.told();
    if let (None, Some(sort)) = (few, progress.rare()) {
        return Err(format!("{sort} is rare of missing bytes: {told}"));
    }
    let calls: usize = tally.values().sum();
    let refused = openings()?;
    Ok(format!(
        "{histories} histories, {calls} answers compared {tally:?}; repeats differ from what was stored in \
         {differences:?}; missing bytes asked for {told}; 2000 openings, {refused} of them LIMITS"
    ))
}
