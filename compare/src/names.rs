//! Names looked for in collectors that hold several finished objects of one name in shuffled slots,
//! headers that don't read among them, number 0 often: the proved search against the independent
//! one, and what each header says.

use crate::lent::Lent;
use independent::answer::Answer;
use independent::collector::{Collector, Memory};
use independent::group::{Fields, Part};
use independent::object::{Core, CORE_LENGTH, HEADER_LENGTHS};
use independent::random::{headers, Random};

const SEED: u64 = 101_498;
const COLLECTORS: u64 = 2_500;
const ASKED: usize = 10;
const LIMIT: usize = 1_024;

#[derive(Default)]
struct Seen {
    found: usize,
    not_found: usize,
    several: usize,
    headers: usize,
    /// Headers of 7 bytes that were read, and names that were asked for beside one.
    cores: usize,
    beside: usize,
}

/// A whole header, of an object without a body, that a single group brings.
fn header(random: &mut Random) -> Vec<u8> {
    loop {
        let mut header = if random.once_in(3) {
            headers::any_header(random)
        } else {
            headers::well_formed(random, 0)
        };
        if HEADER_LENGTHS.contains(&header.len()) {
            let mut core = Core::of(&header).expect("it is long enough");
            core.body_size = 0;
            core.header_size = header.len();
            header[..CORE_LENGTH].copy_from_slice(&core.bytes());
            return header;
        }
    }
}

/// Both with the same finished objects, some numbers dropped and taken again, so that the slots'
/// order is not that of the numbers.
fn filled(random: &mut Random) -> Result<(Lent, Collector), String> {
    let slots = random.within(2, 16);
    let before = random.byte();
    let memory = Memory::filled(LIMIT, slots, before);
    let opened = Lent::unopened(memory.clone(), before).open(LIMIT, slots);
    let mut lent = opened.map_err(|why| format!("{why:?}"))?;
    let mut collector = Collector::open(LIMIT, slots, memory).map_err(|why| format!("{why:?}"))?;
    for _ in 0..slots + slots / 2 {
        let transport = random.within(0, 2 * slots) as u16;
        if random.once_in(4) {
            lent.drop(transport);
            collector.drop_number(transport);
        }
        let header = header(random);
        let group = Fields::of_segment(transport, Part::Header, 0, true, &header).whole();
        let (ours, theirs) = (lent.take(&group), collector.take(&group));
        if ours != theirs {
            return Err(format!("{ours:?}, not {theirs:?}"));
        }
    }
    Ok((lent, collector))
}

fn one(random: &mut Random, seen: &mut Seen) -> Result<(), String> {
    let (lent, collector) = filled(random)?;
    let held = || collector.slots().iter().flatten();
    let is_core = |transport| {
        let header = collector.show(transport, Part::Header);
        header.is_ok_and(|header| header.len() == CORE_LENGTH)
    };
    let has_core = held().any(|held| is_core(held.transport));
    for _ in 0..ASKED {
        let name = headers::name(random);
        let (ours, theirs) = (lent.find(&name), collector.find(&name));
        if ours != theirs {
            return Err(format!("{name:?}: {ours:?}, not {theirs:?}"));
        }
        match theirs {
            Err(Answer::NotFound) => seen.not_found += 1,
            _ => seen.found += 1,
        }
        let named = |transport| {
            let header = collector.show(transport, Part::Header);
            header.is_ok_and(|header| independent::header::has_name(header, &name))
        };
        if held().filter(|held| named(held.transport)).count() > 1 {
            seen.several += 1;
        }
        seen.beside += usize::from(has_core);
    }
    for held in held() {
        let (ours, theirs) = (
            lent.read(held.transport),
            collector.read_header(held.transport),
        );
        if ours != theirs {
            return Err(format!("{:04x}: {ours:?}, not {theirs:?}", held.transport));
        }
        seen.headers += 1;
        seen.cores += usize::from(is_core(held.transport));
    }
    Ok(())
}

pub fn run() -> Result<String, String> {
    let mut seen = Seen::default();
    for number in 0..COLLECTORS {
        one(&mut Random::from_seed(SEED + number), &mut seen)
            .map_err(|said| format!("collector {number}: {said}"))?;
    }
    let Seen {
        found,
        not_found,
        several,
        headers,
        cores,
        beside,
    } = seen;
    if [several, not_found, cores, beside]
        .iter()
        .any(|&times| times < 1_000)
    {
        return Err(format!(
            "only {several} of several, {not_found} of none, {cores} of 7 bytes and {beside} beside these"
        ));
    }
    Ok(format!(
        "{COLLECTORS} collectors, {headers} headers read, {cores} of them of 7 bytes, {found} names found, \
         {several} of them among several objects, and {not_found} not found, {beside} asked for beside a header \
         of 7 bytes"
    ))
}
