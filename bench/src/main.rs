//! Times the proved collector beside the independent one, both built for release, in one run and on
//! the same groups, and prints tables.
//!
//!     bench              both collectors, by segment size, slots and what the groups are
//!     bench long         time a group, from the first call to the ten-millionth
//!     bench once KIND BYTES SLOTS   one round of the proved collector alone, to count instructions

mod groups;

use groups::{Kind, Round};
use std::time::{Duration, Instant};

const LIMIT: usize = 1_048_576;
const SIZES: [usize; 4] = [16, 100, 1_000, 8_189];
const SLOTS: [usize; 3] = [1, 4, 16];
/// At least so long is each measured; a round of groups is never cut short.
const LEAST: Duration = Duration::from_millis(150);

/// What is timed: a collector that takes a group.
trait Taking {
    fn open(slots: usize) -> Self;
    fn take(&mut self, group: &[u8]) -> u8;
    fn drop_number(&mut self, number: u16);
}

impl Taking for yovtirak::Collector {
    fn open(slots: usize) -> Self {
        yovtirak::Collector::open(LIMIT, slots).expect("the limits are in bounds")
    }

    fn take(&mut self, group: &[u8]) -> u8 {
        self.take(group).answer.number()
    }

    fn drop_number(&mut self, number: u16) {
        self.drop_number(number);
    }
}

impl Taking for independent::collector::Collector {
    fn open(slots: usize) -> Self {
        let memory = independent::collector::Memory::filled(LIMIT, slots, 0);
        independent::collector::Collector::open(LIMIT, slots, memory)
            .expect("the limits are in bounds")
    }

    fn take(&mut self, group: &[u8]) -> u8 {
        self.take(group).answer.number()
    }

    fn drop_number(&mut self, number: u16) {
        self.drop_number(number);
    }
}

/// One round: what comes before is not timed, and every answer of what is timed must be the one that
/// the round is made for.
fn one_round<C: Taking>(collector: &mut C, round: &Round) -> Duration {
    for number in 0..round.numbers {
        collector.drop_number(number);
    }
    for group in &round.before {
        collector.take(group);
    }
    let start = Instant::now();
    let mut expected = true;
    for group in &round.timed {
        expected &= round.kind.answers().contains(&collector.take(group));
    }
    let time = start.elapsed();
    assert!(expected, "an answer that the round is not made for");
    time
}

/// Groups a second.
fn rate<C: Taking>(round: &Round, slots: usize) -> f64 {
    let mut collector = C::open(slots);
    one_round(&mut collector, round);
    let (mut groups, mut time) = (0, Duration::ZERO);
    while time < LEAST {
        time += one_round(&mut collector, round);
        groups += round.timed.len();
    }
    groups as f64 / time.as_secs_f64()
}

fn both() {
    println!("| groups | segment bytes | slots | groups a second | segment megabytes a second | independent, groups a second | ratio |");
    println!("|---|---|---|---|---|---|---|");
    for kind in Kind::ALL {
        for size in SIZES {
            for slots in SLOTS {
                let round = Round::new(kind, size, slots, LIMIT);
                let ours = rate::<yovtirak::Collector>(&round, slots);
                let theirs = rate::<independent::collector::Collector>(&round, slots);
                println!(
                    "| {} | {size} | {slots} | {ours:.0} | {:.1} | {theirs:.0} | {:.2} |",
                    kind.name(),
                    ours * size as f64 / 1e6,
                    ours / theirs
                );
            }
        }
    }
}

/// Repeats and new segments without end, in blocks of a million calls.
fn long() {
    const CALLS: usize = 10_000_000;
    const BLOCK: usize = 1_000_000;
    let round = Round::new(Kind::New, 100, 4, LIMIT);
    let mut collector = yovtirak::Collector::open(LIMIT, 4).expect("the limits are in bounds");
    println!("| calls up to | nanoseconds a group |");
    println!("|---|---|");
    let mut calls = 0;
    let (mut groups, mut time) = (0, Duration::ZERO);
    while calls < CALLS {
        time += one_round(&mut collector, &round);
        groups += round.timed.len();
        calls += round.before.len() + round.timed.len() + usize::from(round.numbers);
        if calls / BLOCK != (calls - round.timed.len()) / BLOCK || calls >= CALLS {
            println!("| {calls} | {} |", time.as_nanos() / groups as u128);
            (groups, time) = (0, Duration::ZERO);
        }
    }
}

fn once(kind: &str, size: &str, slots: &str) -> Result<(), String> {
    let kind = Kind::ALL
        .into_iter()
        .find(|each| each.name() == kind)
        .ok_or("no such kind")?;
    let size = size.parse().map_err(|_| "no size")?;
    let slots = slots.parse().map_err(|_| "no number of slots")?;
    let round = Round::new(kind, size, slots, LIMIT);
    let mut collector = <yovtirak::Collector as Taking>::open(slots);
    one_round(&mut collector, &round);
    println!("{}", round.before.len() + round.timed.len());
    Ok(())
}

fn main() {
    let words: Vec<String> = std::env::args().skip(1).collect();
    let words: Vec<&str> = words.iter().map(String::as_str).collect();
    match words[..] {
        [] => both(),
        ["long"] => long(),
        ["once", kind, size, slots] => {
            if let Err(said) = once(kind, size, slots) {
                eprintln!("bench: {said}");
                std::process::exit(1);
            }
        }
        _ => {
            eprintln!("usage: bench [long | once KIND BYTES SLOTS]");
            std::process::exit(2);
        }
    }
}
