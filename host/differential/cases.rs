//! What a case puts to a call: a sheet or a plan, a demand, a set of them or a target, an allowance, the lengths of the
//! buffers.

use crate::choices::{Run, CEILING, MOST_PAIRS};
use crate::damage::{self, break_plan, litter, OF_PLAN, RULES_OF_PLAN};
use crate::expect::{Asked, Question, Set, DEMAND_BYTES, LIST_BYTES, MOST_DEMANDS, SHARES_BYTES, TOP_TARGET};
use crate::plan::Plan;
use crate::random::Random;
use crate::sheet::pack;
use crate::tally::{SET, SPEED};
use crate::valid;

/// A list buffer that is longer than it needs to be, as programs lend it that were written for 16,384 bytes.
pub const LONG_LIST: usize = 16_384;

/// A sheet: that of the plan, with one rule broken, with several, or spoiled at random.
fn sheet_of(random: &mut Random, plan: &Plan) -> Vec<u8> {
    match random.below(100) {
        0..=49 => pack(plan),
        50..=74 => {
            let rule = random.between(1, 11) as u32;
            damage::broken_sheet(random, *plan, &[rule])
        }
        75..=86 => {
            let rules: Vec<u32> = (0..random.between(2, 4)).map(|_| random.between(1, 11) as u32).collect();
            damage::broken_sheet(random, *plan, &rules)
        }
        _ => damage::spoiled_sheet(random, plan),
    }
}

/// A sheet whose choices can be enumerated.
pub fn sheet_to_run(random: &mut Random) -> Vec<u8> {
    let plan = valid::to_run(random);
    sheet_of(random, &plan)
}

/// A sheet of any size.
pub fn sheet(random: &mut Random) -> Vec<u8> {
    let plan = valid::any(random);
    sheet_of(random, &plan)
}

/// A plan: valid, with one rule broken, with several, with some numbers replaced, or random. Its unused places hold
/// anything.
pub fn plan(random: &mut Random) -> Plan {
    let mut plan = valid::any(random);
    if random.chance(70) {
        litter(random, &mut plan);
    }
    let broken = match random.below(100) {
        0..=49 => 0,
        50..=76 => 1,
        77..=86 => random.between(2, 4),
        87..=95 => {
            damage::replace_numbers(random, &mut plan);
            0
        }
        _ => return damage::random_plan(random),
    };
    for _ in 0..broken {
        let rule = random.pick(&RULES_OF_PLAN);
        break_plan(random, &mut plan, rule, &OF_PLAN);
    }
    plan
}

/// A plan that keeps the rules, for the way there and back.
pub fn valid_plan(random: &mut Random) -> Plan {
    let mut plan = valid::any(random);
    litter(random, &mut plan);
    plan
}

/// A sheet that keeps the rules.
pub fn valid_sheet(random: &mut Random) -> Vec<u8> {
    pack(&valid::any(random))
}

/// A question to drive_bounds, drive_set or drive_speed about a sheet with this run, or with none.
pub fn question(random: &mut Random, call: usize, run: Option<&Run>) -> Question {
    let asked = match call {
        SET => Asked::Set(set(random, run)),
        SPEED => Asked::Target(target(random, run)),
        _ => Asked::Demand(demand(random, run)),
    };
    Question {
        allowance: allowance(random, run),
        list: if random.chance(2) { LONG_LIST } else { length(random, LIST_BYTES, 8) },
        answer: length(random, asked.answer_bytes(), 8),
        asked,
    }
}

/// A demand at, above or below the ends of the drive's intervals, at the greatest speed or one above, at the ends of
/// its own range, or anything.
fn demand(random: &mut Random, run: Option<&Run>) -> u32 {
    let end = match run.filter(|run| !run.list.is_empty()) {
        Some(run) => {
            let focal = random.pick(&run.list);
            random.pick(&[focal.low, focal.high])
        }
        None => random.between(0, CEILING as usize + 1) as u32,
    };
    match random.below(16) {
        0..=4 => end,
        5..=8 => end + 1,
        9 | 10 => end.saturating_sub(1),
        11 => 0,
        12 => u32::MAX,
        13 => end + (random.between(1, 65_535) << 16) as u32, // its low bits are an end
        14 => {
            let any = random.between(0, 25_000) as u32;
            random.pick(&[any, CEILING, CEILING + 1])
        }
        _ => random.next() as u32,
    }
}

/// One to sixteen demands, some in order and some equal, or bytes of a wrong length; and the length of the shares'
/// buffer.
fn set(random: &mut Random, run: Option<&Run>) -> Set {
    let any = random.between(1, MOST_DEMANDS);
    let count = random.pick(&[1, MOST_DEMANDS, any, any]);
    let mut demands: Vec<u32> = (0..count).map(|_| demand(random, run)).collect();
    match random.below(8) {
        0 => demands.sort(),
        1 => demands.sort_by(|left, right| right.cmp(left)),
        2 => demands = vec![demands[0]; count],
        3 => demands[random.below(count)] = demands[random.below(count)],
        _ => {}
    }
    let wrong = random.chance(12);
    let mut bytes = vec![0; if wrong { wrong_length(random) } else { DEMAND_BYTES * count }];
    random.fill(&mut bytes);
    for (place, demand) in bytes.chunks_exact_mut(DEMAND_BYTES).zip(demands) {
        place.copy_from_slice(&demand.to_be_bytes());
    }
    let whole = (bytes.len() / DEMAND_BYTES).clamp(1, MOST_DEMANDS + 1);
    let shares = length(random, SHARES_BYTES * whole, if wrong { 30 } else { 8 });
    Set { demands: bytes, shares }
}

/// A length that one to sixteen demands do not have.
fn wrong_length(random: &mut Random) -> usize {
    let right = DEMAND_BYTES * random.between(1, MOST_DEMANDS);
    let part = random.between(1, DEMAND_BYTES - 1);
    let most = DEMAND_BYTES * MOST_DEMANDS;
    match random.below(8) {
        0 => 0,
        1 | 2 => most + DEMAND_BYTES,
        3 => right - part,
        4 => right + part,
        5 => most + part,
        6 => most + random.between(1, 1_000),
        _ => random.pick(&[256, 65_536]) + right, // its low bits would be accepted
    }
}

/// A target at the belief of some low, rounded down or up, beside it, at the ends of its own range, beyond them, or
/// anything.
fn target(random: &mut Random, run: Option<&Run>) -> u32 {
    let top = TOP_TARGET as usize;
    let (down, up) = match run.filter(|run| !run.list.is_empty()) {
        Some(run) => {
            let nearest = if random.chance(50) { nearest_low(run) } else { None };
            let low = nearest.unwrap_or(random.pick(&run.list).low);
            let (belief, total) = (1_000 * u128::from(run.belief(low)), run.total.into());
            ((belief / total) as u32, belief.div_ceil(total) as u32)
        }
        None => (random.between(0, top) as u32, random.between(1, top) as u32),
    };
    match random.below(32) {
        0..=8 => down,
        9..=17 => up,
        18 => down.saturating_sub(1),
        19..=21 => up + 1,
        22 => 1,
        23 => TOP_TARGET,
        24 => 0,
        25 => TOP_TARGET + 1,
        26 => u32::MAX,
        27 => up + (random.between(1, 65_535) << 16) as u32, // its low bits are a target
        28 => random.next() as u32,
        _ => random.between(1, top) as u32,
    }
}

/// The low whose belief is nearest to a whole number of thousandths of the total, but is not all of it.
fn nearest_low(run: &Run) -> Option<u32> {
    let total = u128::from(run.total);
    let off = |low: &u32| {
        let over = 1_000 * u128::from(run.belief(*low)) % total;
        over.min(total - over)
    };
    let lows = run.list.iter().map(|focal| focal.low).filter(|low| run.belief(*low) < run.total);
    lows.min_by_key(off)
}

/// An allowance at the pairs of some join, one less, or anything.
fn allowance(random: &mut Random, run: Option<&Run>) -> u32 {
    let (all, some) = match run.filter(|run| !run.joins.is_empty()) {
        Some(run) => (run.pairs() as u32, run.joins[random.below(run.joins.len())].pairs as u32),
        None => (0, random.between(0, 100) as u32),
    };
    match random.below(16) {
        0..=3 => all,
        4 | 5 => all.saturating_sub(1),
        6 => some,
        7 => some.saturating_sub(1),
        8 => all + random.between(1, 10) as u32,
        9 => all.saturating_sub(1) + 65_536, // enough, though its low bits are not
        10 => random.between(0, all as usize + 10) as u32,
        11 => 0,
        12 => random.next() as u32,
        13 => u32::MAX,
        _ => MOST_PAIRS,
    }
}

/// The length of a buffer that needs `needed` bytes: too short in `percent` of 100.
pub fn length(random: &mut Random, needed: usize, percent: usize) -> usize {
    if random.chance(percent) {
        let any = random.below(needed);
        return random.pick(&[0, 0, 1, needed - 1, needed - 1, any]);
    }
    match random.below(1_000) {
        0..=599 => needed,
        600..=699 => needed + 1,
        700..=899 => needed + random.between(1, 64),
        900..=997 => needed + random.between(1, 1_000),
        _ => 65_536 + random.below(needed), // long, though its low bits are not
    }
}
