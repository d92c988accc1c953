//! What is missing of each object (document 02, Item 4), asked of both collectors after every call: of
//! every number that is held, of those that were dropped, and of one that may be held or not. While a
//! number is held the answer goes from unknown to known and never rises. And where another number is
//! kept than the marks give, the question is answered with STATE.

use crate::lent::{Lent, FIRST_SLOT, SLOT_WORDS};
use independent::answer::Answer;
use independent::collector::{Collector, Held, Stage};
use independent::group::Part;
use std::collections::BTreeMap;

/// How the questions were answered, and what was known of what is held; each with how often it must
/// come up in all histories.
const SORTS: [(&str, usize); 14] = [
    ("unknown", 50_000),
    ("some bytes", 50_000),
    ("none", 30_000),
    ("known without the core", 2_000),
    ("known without the core, the empty segment in", 500),
    ("the length of the body alone known", 20_000),
    ("the length of the header alone known", 3_000),
    ("the length of the header alone known, the body parked", 100),
    ("a last segment parked", 20_000),
    ("known by the core, a segment parked before", 200),
    ("known by a full segment, a segment parked before", 30),
    ("with the empty segment in", 10_000),
    ("NOTHELD", 20_000),
    ("STATE", 20_000),
];

/// Numbers that histories use, often held and often not.
const USUAL: [u16; 3] = [0, 5, 0xFFFF];

/// What was known of a number when it was asked about.
struct Before {
    missing: Option<usize>,
    parked: bool,
}

#[derive(Default)]
pub struct Progress {
    /// The numbers that are held.
    held: BTreeMap<u16, Before>,
    asked: usize,
    tally: BTreeMap<&'static str, usize>,
}

impl Progress {
    /// A collector is opened, and nothing is held.
    pub fn open(&mut self) {
        self.held.clear();
    }

    fn count(&mut self, sort: &'static str) {
        *self.tally.entry(sort).or_default() += 1;
    }

    /// Asks both about all that there is to ask after a call.
    pub fn follow(&mut self, lent: &mut Lent, collector: &Collector) -> Result<(), String> {
        let before = std::mem::take(&mut self.held);
        for held in collector.slots().iter().flatten() {
            let now = self.held_number(lent, collector, held, &before)?;
            self.held.insert(held.transport, now);
        }
        self.kept_otherwise(lent, collector)?;
        let usual = USUAL[self.asked % USUAL.len()];
        for number in before.into_keys().chain([usual]) {
            if !self.held.contains_key(&number) {
                self.number_not_held(lent, collector, number)?;
            }
        }
        Ok(())
    }

    fn held_number(
        &mut self,
        lent: &Lent,
        collector: &Collector,
        held: &Held,
        before: &BTreeMap<u16, Before>,
    ) -> Result<Before, String> {
        let number = held.transport;
        let (ours, theirs) = (lent.missing(number), collector.missing(number));
        self.asked += 1;
        if ours != theirs {
            return Err(format!("missing of {number:04x}: {ours:?}, not {theirs:?}"));
        }
        let missing = ours.map_err(|answer| format!("{answer:?} of a number that is held"))?;
        if (missing == Some(0)) != (held.stage() != Stage::Gathering) {
            return Err(format!("{missing:?} missing of {number:04x}"));
        }
        let parked = [Part::Header, Part::Body].map(|part| held.is_parked(part));
        let now = Before {
            missing,
            parked: parked.contains(&true),
        };
        if let Some(before) = before.get(&number) {
            self.went_on(held, before, &now)?;
        }
        self.count_held(held, &now);
        Ok(now)
    }

    /// From one call to the next the number never rises, and is never forgotten.
    fn went_on(&mut self, held: &Held, before: &Before, now: &Before) -> Result<(), String> {
        match (before.missing, now.missing) {
            (Some(was), Some(is)) if is <= was => Ok(()),
            (None, None) => Ok(()),
            (None, Some(_)) => {
                if before.parked && held.core().is_some() {
                    self.count("known by the core, a segment parked before");
                } else if before.parked {
                    self.count("known by a full segment, a segment parked before");
                }
                Ok(())
            }
            (was, is) => Err(format!(
                "{is:?} missing of {:04x} after {was:?}",
                held.transport
            )),
        }
    }

    fn count_held(&mut self, held: &Held, now: &Before) {
        self.count(match now.missing {
            None => "unknown",
            Some(0) => "none",
            Some(_) => "some bytes",
        });
        let [header, body] = [Part::Header, Part::Body].map(|part| held.known_length(part));
        let last = held.last(Part::Body);
        let empty = last.is_some_and(|piece| piece.bytes.is_empty());
        match (header, body) {
            (Some(_), Some(_)) if held.core().is_none() => {
                self.count("known without the core");
                if empty {
                    self.count("known without the core, the empty segment in");
                }
            }
            (None, Some(_)) => self.count("the length of the body alone known"),
            (Some(_), None) => {
                self.count("the length of the header alone known");
                if held.is_parked(Part::Body) {
                    self.count("the length of the header alone known, the body parked");
                }
            }
            _ => (),
        }
        if now.parked {
            self.count("a last segment parked");
        }
        if empty {
            self.count("with the empty segment in");
        }
    }

    fn number_not_held(
        &mut self,
        lent: &Lent,
        collector: &Collector,
        number: u16,
    ) -> Result<(), String> {
        let (ours, theirs) = (lent.missing(number), collector.missing(number));
        self.asked += 1;
        if ours != Err(Answer::NotHeld) || ours != theirs {
            return Err(format!("missing of {number:04x}: {ours:?}, not {theirs:?}"));
        }
        self.count("NOTHELD");
        Ok(())
    }

    /// The same state with another number kept of one slot: slots, and numbers that are near or odd,
    /// come one after the other.
    fn kept_otherwise(&mut self, lent: &mut Lent, collector: &Collector) -> Result<(), String> {
        let slot = self.asked % collector.slots().len();
        let Some(held) = &collector.slots()[slot] else {
            return Ok(());
        };
        let place = FIRST_SLOT + SLOT_WORDS * slot + SLOT_WORDS - 1;
        let right = lent.state[place];
        let mut others = vec![0, 1, right + 1, right + 65_536, 1 << 32, u64::MAX];
        others.extend([right.wrapping_sub(1), right + (1 << 32)]);
        others.retain(|&other| other != right);
        let other = others[self.asked % others.len()];
        lent.state[place] = other;
        let said = lent.missing(held.transport);
        lent.state[place] = right;
        self.asked += 1;
        if said != Err(Answer::State) {
            let number = held.transport;
            return Err(format!(
                "{said:?} of {number:04x}, {other} for {right} kept"
            ));
        }
        self.count("STATE");
        Ok(())
    }

    /// How many questions were asked, and how they were answered.
    pub fn told(&self) -> String {
        format!("{} times {:?}", self.asked, self.tally)
    }

    /// The first sort that came up seldom, if there is one.
    pub fn rare(&self) -> Option<&'static str> {
        let seldom = |(sort, least): &&(&'static str, usize)| {
            self.tally.get(sort).copied().unwrap_or_default() < *least
        };
        SORTS.iter().find(seldom).map(|(sort, _)| *sort)
    }
}
