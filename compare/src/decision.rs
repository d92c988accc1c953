//! The proved decision against the independent program's search: random sets of segments near the
//! bounds, each offered segment by segment to those of it that fitted so far.

use crate::proved::Numbers;
use independent::group::Part;
use independent::object::{fits, Piece};
use independent::random::segments::{near_the_bounds, Set};
use independent::random::Random;

const SEED: u64 = 301_234;
const LIMITS: [usize; 3] = [1_024, 12_288, 1_048_576];
const SETS_FOR_EACH: usize = 50_000;

/// The segments that fitted so far, and the numbers that the proved decision keeps of them.
#[derive(Default)]
struct Held {
    header: Vec<Piece>,
    body: Vec<Piece>,
    numbers: Numbers,
}

impl Held {
    fn pieces(&self, part: Part) -> &[Piece] {
        match part {
            Part::Header => &self.header,
            Part::Body => &self.body,
        }
    }

    fn of_its_number(&self, part: Part, piece: &Piece) -> Option<&Piece> {
        let mut held = self.pieces(part).iter();
        held.find(|held| held.number == piece.number)
    }

    fn push(&mut self, part: Part, piece: Piece) {
        match part {
            Part::Header => self.header.push(piece),
            Part::Body => self.body.push(piece),
        }
    }

    /// The search's verdict on these and one more, which is taken off again.
    fn fits_with(&mut self, limit: usize, part: Part, piece: &Piece) -> bool {
        self.push(part, piece.clone());
        let verdict = fits(limit, &self.header, &self.body);
        match part {
            Part::Header => self.header.pop(),
            Part::Body => self.body.pop(),
        };
        verdict
    }
}

/// How often each came up, for one limit.
#[derive(Default)]
struct Tally {
    fitted: usize,
    conflicted: usize,
    /// Of these, the ones that would have fitted alone.
    conflicted_with_held: usize,
    same: usize,
    other: usize,
    /// The decisions on the empty segment, and on others beside it.
    empty_fitted: usize,
    empty_conflicted: usize,
}

impl Tally {
    /// Where a verdict is rare, agreeing on it says little.
    fn rare(&self) -> bool {
        let decisions = self.fitted + self.conflicted;
        let seldom = [self.fitted, self.conflicted, self.conflicted_with_held]
            .into_iter()
            .any(|times| times * 100 <= decisions);
        seldom || self.empty_fitted.min(self.empty_conflicted) < 500
    }
}

/// The segments of a set, of both parts, in any order.
fn in_any_order(random: &mut Random, set: Set) -> Vec<(Part, Piece)> {
    let header = set.header.into_iter().map(|piece| (Part::Header, piece));
    let body = set.body.into_iter().map(|piece| (Part::Body, piece));
    let mut offered: Vec<_> = header.chain(body).collect();
    random.shuffle(&mut offered);
    offered
}

fn offer(
    limit: usize,
    held: &mut Held,
    part: Part,
    piece: Piece,
    tally: &mut Tally,
) -> Result<(), String> {
    let there = held
        .of_its_number(part, &piece)
        .map(|there| there == &piece);
    let ours = there.unwrap_or_else(|| held.numbers.accept(limit, part, &piece));
    let theirs = held.fits_with(limit, part, &piece);
    if ours != theirs {
        let (number, last, length) = (piece.number, piece.last, piece.bytes.len());
        return Err(format!(
            "limit {limit}, {part:?} {number}, last {last}, length {length}: accepted {ours}, not \
             {theirs}; kept: {:?}",
            held.numbers
        ));
    }
    if there.is_none() && (piece == Piece::empty() || held.body.contains(&Piece::empty())) {
        tally.empty_fitted += usize::from(ours);
        tally.empty_conflicted += usize::from(!ours);
    }
    match (there, ours) {
        (Some(true), _) => tally.same += 1,
        (Some(false), _) => tally.other += 1,
        (None, false) => {
            tally.conflicted += 1;
            tally.conflicted_with_held +=
                usize::from(Held::default().fits_with(limit, part, &piece));
        }
        (None, true) => {
            tally.fitted += 1;
            held.numbers.keep(part, &piece);
            held.push(part, piece);
        }
    }
    Ok(())
}

fn compare_sets(random: &mut Random, limit: usize) -> Result<Tally, String> {
    let mut tally = Tally::default();
    for _ in 0..SETS_FOR_EACH {
        let set = near_the_bounds(random, limit);
        let mut held = Held::default();
        for (part, piece) in in_any_order(random, set) {
            offer(limit, &mut held, part, piece, &mut tally)?;
        }
    }
    Ok(tally)
}

pub fn run() -> Result<String, String> {
    let mut said = format!("{} sets of segments compared", LIMITS.len() * SETS_FOR_EACH);
    let mut random = Random::from_seed(SEED);
    for limit in LIMITS {
        let tally = compare_sets(&mut random, limit)?;
        let line = format!(
            "limit {limit}: {SETS_FOR_EACH} sets, {} decisions: {} fitted, {} conflicted, {} of \
             these only with what was held; of a held number: {} the same, {} not; of the empty \
             segment or beside it {} fitted, {} conflicted",
            tally.fitted + tally.conflicted,
            tally.fitted,
            tally.conflicted,
            tally.conflicted_with_held,
            tally.same,
            tally.other,
            tally.empty_fitted,
            tally.empty_conflicted,
        );
        if tally.rare() {
            return Err(format!("a verdict is rare: {line}"));
        }
        said += &format!("\n  {line}");
    }
    Ok(said)
}
