//! Random plans that keep the rules.

use std::collections::BTreeSet;

use crate::choices::WITH_REST;
use crate::plan::{Component, Interval, Plan, COMPONENTS, INTERVALS, SERIES, SHARED, SPARE};
use crate::random::Random;
use crate::rules::{TOP_SPEED, TOP_TOTAL, WHOLE};

type Ends = (u16, u16);

/// A plan of any size.
pub fn any(random: &mut Random) -> Plan {
    let n = random.between(1, COMPONENTS);
    let full = random.chance(10);
    let counts: Vec<usize> = (0..n).map(|_| if full { WITH_REST } else { random.between(1, WITH_REST) }).collect();
    mixed(random, &counts)
}

/// A plan to be run: most have few choices of one interval per component, since all of them are enumerated.
pub fn to_run(random: &mut Random) -> Plan {
    match random.below(10_000) {
        0..=7 => two_ladders(random, WITH_REST, WITH_REST, &[SERIES, SPARE]),
        8 => widest(random, WITH_REST),
        9..=11 => two_ladders(random, INTERVALS, INTERVALS, &[SERIES, SPARE]),
        12..=18 => widest(random, INTERVALS),
        19..=58 => {
            let (base, last) = (random.pick(&[INTERVALS, INTERVALS, INTERVALS, WITH_REST]), random.pick(&[4, 5]));
            two_ladders(random, base, last, &[SERIES, SPARE, SHARED, SHARED, SHARED, SHARED])
        }
        59..=1_199 => ladder(random),
        1_200..=1_259 => up_to(random, 32_768),
        1_260..=1_799 => up_to(random, 2_048),
        1_800..=2_199 => heaviest(up_to(random, 256)),
        2_200..=2_999 => next_to_thousandths(random),
        3_000..=3_399 => about_ceiling(random),
        3_400..=3_599 => ladder_past_ceiling(random),
        _ => up_to(random, 256),
    }
}

/// A plan with at most so many choices.
fn up_to(random: &mut Random, most: usize) -> Plan {
    let n = random.pick(&[1, 2, 2, 2, 3, 3, 3, 4, 4, 5, 5, 6]);
    let counts = counts(random, n, most);
    mixed(random, &counts)
}

/// Numbers of intervals for n components, with at most so many choices.
fn counts(random: &mut Random, n: usize, most: usize) -> Vec<usize> {
    let mut counts: Vec<usize> = (0..n).map(|_| random.between(1, WITH_REST)).collect();
    while counts.iter().product::<usize>() > most {
        let component = random.below(n);
        counts[component] = counts[component].div_ceil(2);
    }
    counts
}

/// A drive whose shared joins give about 4,095: sums of the speeds of two, three or four components are just below it,
/// at it or just above.
fn about_ceiling(random: &mut Random) -> Plan {
    let n = random.between(2, 4);
    let middle = TOP_SPEED / random.between(2, n) as u16;
    let mut speeds: Vec<u16> = (middle - 3..=middle + 4).collect();
    if random.chance(30) {
        speeds.extend([0, 1, TOP_SPEED]);
    }
    let mut components = Vec::new();
    for count in counts(random, n, 256) {
        let (single, rest) = (random.chance(50), random.chance(20));
        components.push(component(random, if rest { count } else { INTERVALS.min(count) }, &speeds, single, rest));
    }
    plan(&components, &joined(random, n, &[&[SHARED], &[SERIES, SHARED, SHARED, SPARE]]))
}

/// The plan with a T of 1,000 in each component; the rests stay.
fn heaviest(mut plan: Plan) -> Plan {
    for component in &mut plan.components[..usize::from(plan.count)] {
        component.intervals[0].weight += TOP_TOTAL - component.total;
        component.total = TOP_TOTAL;
    }
    plan
}

/// A drive whose belief at some speed is a whole number next to some thousandths of its total, below or above. The
/// digits of that number, to the bases of the totals, are the weights of fast speeds. A middle speed of weight 1 leaves
/// it to the components behind, whose speeds add up to less than a step.
fn next_to_thousandths(random: &mut Random) -> Plan {
    let n = random.pick(&[1, 2, 3, 4, 5, 6, 6, 6, 6, 6]);
    let mut total = || {
        let least = random.pick(&[2, 900, 900]);
        random.between(least, TOP_TOTAL.into()) as u16
    };
    let totals: Vec<u16> = (0..n).map(|_| total()).collect();
    // Six components would have too many intervals, were the first not a spare that is fast or leaves it to the others.
    let six = n == COMPONENTS;
    let least = if six { 1_000 - 1_000 / usize::from(totals[0]) } else { 1 };
    let number = next_to(random, least, &totals);
    let mut step = random.between(1, 8) as u16 * 3u16.pow(n as u32);
    let mut components = Vec::new();
    for (total, fast) in totals.iter().zip(digits(number, &totals)) {
        step /= 3;
        let first = six && components.is_empty();
        let middle = if first { 0 } else { step };
        let rest = (first || !six) && random.chance(50);
        components.push(of_single_speeds(&[(0, total - 1 - fast), (middle, 1), (2 * step, fast)], rest));
    }
    let mut entries = vec![n as u16 - 1];
    for name in (0..n as u16 - 1).rev() {
        entries.extend([name, if six && name == 0 { SPARE } else { SHARED }]);
    }
    plan(&components, &entries)
}

/// A whole number next to some thousandths, `least` or more, of the product of the totals.
fn next_to(random: &mut Random, least: usize, totals: &[u16]) -> u128 {
    let all: u128 = totals.iter().map(|total| u128::from(*total)).product();
    let below = random.between(least, 999) as u128 * all / 1_000;
    random.pick(&[below, below + 1]).min(all - 1)
}

/// The digits of a number to these bases, the most significant first.
fn digits(mut number: u128, bases: &[u16]) -> Vec<u16> {
    let mut digits = vec![0; bases.len()];
    for (digit, base) in digits.iter_mut().zip(bases).rev() {
        *digit = (number % u128::from(*base)) as u16;
        number /= u128::from(*base);
    }
    digits
}

/// A component of single speeds with their weights; a speed of weight 0 is left out. If `rest`, the weights of speed 0
/// are left as a rest, which has the same low.
fn of_single_speeds(speeds: &[(u16, u16)], rest: bool) -> Component {
    let mut component = Component::default();
    for (speed, weight) in speeds.iter().filter(|(_, weight)| *weight > 0) {
        component.total += weight;
        if *speed > 0 || !rest {
            let interval = Interval { low: *speed, high: *speed, weight: *weight };
            component.intervals[usize::from(component.count)] = interval;
            component.count += 1;
        }
    }
    component
}

/// Six components with lists of `count` intervals, eight or nine: 224 bytes, 262,144 or 531,441 choices.
fn widest(random: &mut Random, count: usize) -> Plan {
    let speeds: Vec<u16> = (0..=random.pick(&[3, 4])).collect();
    let rest = count > INTERVALS;
    let components: Vec<_> = (0..COMPONENTS).map(|_| component(random, count, &speeds, false, rest)).collect();
    plan(&components, &structure(random, COMPONENTS))
}

/// Components with lists of these numbers of intervals (fewer where the speeds drawn from are few, and eight at most
/// without a rest) and any structure. Half of the plans have no rest, the others some.
fn mixed(random: &mut Random, counts: &[usize]) -> Plan {
    let speeds = some_speeds(random);
    let rests = random.pick(&[0, 60]);
    let mut components = Vec::new();
    for count in counts {
        let own = if random.chance(25) { some_speeds(random) } else { speeds.clone() };
        let (single, rest) = (random.chance(30), random.chance(rests));
        let count = if rest { *count } else { INTERVALS.min(*count) };
        components.push(component(random, count, &own, single, rest));
    }
    plan(&components, &structure(random, components.len()))
}

fn plan(components: &[Component], entries: &[u16]) -> Plan {
    let mut plan = Plan { count: components.len() as u16, ..Plan::default() };
    plan.components[..components.len()].copy_from_slice(components);
    plan.entries[..entries.len()].copy_from_slice(entries);
    plan
}

/// The speeds that a component's ends are drawn from.
fn some_speeds(random: &mut Random) -> Vec<u16> {
    let few = random.between(1, 7) as u16;
    let base = random.between(0, (TOP_SPEED - 7).into()) as u16;
    match random.below(8) {
        0 | 1 => (0..=few).collect(),
        2 => (base..=base + few).collect(),
        3 => (TOP_SPEED - few..=TOP_SPEED).collect(),
        4 => vec![0, 1, 2, TOP_SPEED - 2, TOP_SPEED - 1, TOP_SPEED],
        5 => (0..8).map(|j| j * (base / 8)).collect(),
        _ => (0..16).map(|_| random.between(0, TOP_SPEED.into()) as u16).collect(),
    }
}

/// A component with a list of up to `count` intervals with ends among `speeds`; of single speeds if `single`. One of
/// them is that of a rest if `rest`.
fn component(random: &mut Random, count: usize, speeds: &[u16], single: bool, rest: bool) -> Component {
    let mut ends: BTreeSet<Ends> = rest.then_some(WHOLE).into_iter().collect();
    for _ in 0..8 * count {
        if ends.len() == count {
            break;
        }
        let one = random.pick(speeds);
        let other = if single { one } else { random.pick(speeds) };
        ends.insert((one.min(other), one.max(other)));
    }
    weighted(random, ends.into_iter().collect(), rest)
}

/// A component with a list of these intervals, in this order, with a total and weights. If `rest`, one of them is the
/// interval from 0 to 4,095: it is left to the rest, or stays in the block and the rest is added to it.
fn weighted(random: &mut Random, mut ends: Vec<Ends>, rest: bool) -> Component {
    if rest && (ends.len() > INTERVALS || ends.len() > 1 && random.chance(75)) {
        ends.retain(|ends| *ends != WHOLE);
    }
    let parts = ends.len() + usize::from(rest);
    let top = usize::from(TOP_TOTAL);
    let total = match random.below(6) {
        0 => parts,
        1 => top,
        2 => top - 1,
        3 => random.between(parts, parts + 20),
        _ => random.between(parts, top),
    };
    let mut weights = vec![1; parts];
    let mut left = total - parts;
    if random.chance(80) {
        for weight in &mut weights[1..] {
            let more = random.between(0, left);
            *weight += more;
            left -= more;
        }
    }
    weights[0] += left;
    random.shuffle(&mut weights);
    let mut component = Component { count: ends.len() as u16, total: total as u16, ..Component::default() };
    // Of the weights, the last is the rest if there is one.
    for (interval, ((low, high), weight)) in component.intervals.iter_mut().zip(ends.iter().zip(weights)) {
        *interval = Interval { low: *low, high: *high, weight: weight as u16 };
    }
    component
}

/// A structure of n components in any order, joined in any order.
fn structure(random: &mut Random, n: usize) -> Vec<u16> {
    joined(random, n, &[&[SERIES, SHARED, SPARE], &[SERIES, SPARE], &[SHARED], &[SERIES], &[SPARE]])
}

/// The same with joins drawn from one of these.
fn joined(random: &mut Random, n: usize, kinds: &[&[u16]]) -> Vec<u16> {
    let names = (0..n as u16).map(|name| vec![name]).collect();
    parts_joined(random, names, kinds)
}

/// A structure of these parts, each of which leaves one list on the stack.
fn parts_joined(random: &mut Random, mut parts: Vec<Vec<u16>>, kinds: &[&[u16]]) -> Vec<u16> {
    random.shuffle(&mut parts);
    let joins = random.pick(kinds);
    let early = random.pick(&[0, 0, 50, 100]); // how often a join comes before the next part
    let mut entries = Vec::new();
    let mut lists = 0;
    while lists != 1 || !parts.is_empty() {
        if lists >= 2 && (parts.is_empty() || random.chance(early)) {
            entries.push(random.pick(joins));
            lists -= 1;
        } else {
            entries.extend(parts.pop().expect("a part"));
            lists += 1;
        }
    }
    entries
}

/// A ladder: components whose intervals stand on steps, so that a shared join adds steps. The sums of three are 4,095 at
/// most, but for the highs of `Rung::Low`, unless the components are moved far up or the unit is great.
struct Ladder {
    /// How many intervals each of its first two components has: eight or nine.
    base: u16,
    /// The speed of one step.
    unit: u16,
    rung: Rung,
    /// Whether each component has a rest.
    rest: bool,
}

/// What stands on a step.
#[derive(Clone, Copy)]
enum Rung {
    /// That speed.
    Single,
    /// The interval from that speed to 4,095: on step 0 the one that a rest counts as. Their joins have no other high.
    Low,
    /// The interval from 0 to a third of 4,095 less that speed.
    High,
}

impl Ladder {
    /// Of any kind; nine intervals need a rest, and that needs `Rung::Low`.
    fn of(random: &mut Random, base: usize) -> Ladder {
        let rest = base > INTERVALS || random.chance(30);
        let rungs = [Rung::Low, Rung::High, Rung::Single, Rung::Single, Rung::Single];
        let rung = random.pick(if rest { &rungs[..1] } else { &rungs });
        Ladder { base: base as u16, unit: random.between(1, 7) as u16, rung, rest }
    }

    /// Three components whose intervals have exactly `size` different sums: 0 to b - 1 units, 0 to b - 1 times b units,
    /// and `last` steps at most b * b units apart, so that the b * b sums of the first two overlap from one to the next.
    fn rungs(&self, random: &mut Random, size: usize, last: usize) -> [Vec<Ends>; 3] {
        let base = self.base;
        let sums = base * base;
        let mut gaps = vec![1; last - 1];
        for _ in last - 1..size - usize::from(sums) {
            let open: Vec<usize> = (0..gaps.len()).filter(|gap| gaps[*gap] < sums).collect();
            gaps[random.pick(&open)] += 1;
        }
        let mut starts = vec![0];
        for gap in gaps {
            starts.push(starts[starts.len() - 1] + gap);
        }
        [(0..base).collect(), (0..base).map(|j| base * j).collect(), starts].map(|steps| self.intervals(steps))
    }

    /// The intervals on these ascending steps, in order.
    fn intervals(&self, steps: Vec<u16>) -> Vec<Ends> {
        let speeds = steps.into_iter().map(|step| step * self.unit);
        match self.rung {
            Rung::Single => speeds.map(|speed| (speed, speed)).collect(),
            Rung::Low => speeds.map(|speed| (speed, TOP_SPEED)).collect(),
            Rung::High => speeds.rev().map(|speed| (0, TOP_SPEED / 3 - speed)).collect(),
        }
    }

    /// A component of these intervals; single speeds are moved up and made wider.
    fn component(&self, random: &mut Random, mut ends: Vec<Ends>, by: u16, width: u16) -> Component {
        if matches!(self.rung, Rung::Single) {
            ends.iter_mut().for_each(|(low, high)| (*low, *high) = (*low + by, *high + by + width));
        }
        weighted(random, ends, self.rest)
    }
}

/// A join of 255 to 258 intervals, and up to three further components.
fn ladder(random: &mut Random) -> Plan {
    let size: usize = random.pick(&[255, 256, 256, 256, 257, 257, 257, 258]);
    let base = random.pick(&[INTERVALS, INTERVALS, WITH_REST]);
    let last = last_steps(random, base, size);
    let ladder = Ladder::of(random, base);
    let mut components = Vec::new();
    for ends in ladder.rungs(random, size, last) {
        let (by, width) = (random.pick(&[0, 0, 1, 100]), random.pick(&[0, 0, 1, 7]));
        components.push(ladder.component(random, ends, by, width));
    }
    with_further(random, components, ladder.unit)
}

/// How many steps the third component of a ladder can have.
fn last_steps(random: &mut Random, base: usize, size: usize) -> usize {
    let sums = base * base;
    random.between((size - sums).div_ceil(sums) + 1, base)
}

/// A ladder whose top steps pass 4,095, where they become one. Its join has 255 to 258 intervals and would have more.
/// With rests step 0 cannot be moved up; the steps are then so great that the join has 257 intervals or fewer.
fn ladder_past_ceiling(random: &mut Random) -> Plan {
    let rest = random.chance(30);
    let base = if rest { random.pick(&[INTERVALS, WITH_REST]) } else { INTERVALS };
    let (rung, unit, steps, mut up) = if rest {
        (Rung::Low, random.between(16, 20), random.between(257, 264), 0)
    } else {
        let (size, unit) = (random.pick(&[255, 256, 256, 256, 257, 257, 258]), random.between(1, 7));
        // Of the steps from 0 on, number size - 1 is the first that is not below 4,095.
        let up = usize::from(TOP_SPEED) - unit * (size - 1) + random.below(unit);
        (Rung::Single, unit, size + random.between(1, 40), up)
    };
    let last = last_steps(random, base, steps);
    let ladder = Ladder { base: base as u16, unit: unit as u16, rung, rest };
    let mut components = Vec::new();
    for ends in ladder.rungs(random, steps, last) {
        let by = if components.len() < 2 { random.between(0, up) } else { up };
        up -= by;
        let width = random.pick(&[0, 0, 1, 7]);
        components.push(ladder.component(random, ends, by as u16, width));
    }
    with_further(random, components, ladder.unit)
}

/// Three components, shared in any order, and up to three further ones, joined with their list and with each other.
fn with_further(random: &mut Random, mut components: Vec<Component>, unit: u16) -> Plan {
    let mut names = [0, 1, 2];
    random.shuffle(&mut names);
    let [a, b, c] = names;
    let mut parts = vec![random.pick(&[[a, b, SHARED, c, SHARED], [a, b, c, SHARED, SHARED]]).to_vec()];
    for further in 3..random.pick(&[3, 3, 3, 4, 4, 5, 6]) {
        let (count, single, rest) = (random.between(1, 2), random.chance(50), random.chance(20));
        components.push(component(random, count, &[0, 1, unit, 300, 1_000, TOP_SPEED], single, rest));
        parts.push(vec![further]);
    }
    plan(&components, &parts_joined(random, parts, &[&[SERIES, SHARED, SPARE]]))
}

/// Two joins of 256 intervals each, joined by one of these: 65,536 choices where `base` is 8 and `last` 4; 531,441 and
/// 67,156 pairs, the most that there are, where both are 9. In series or as spares they have 256 intervals again. The
/// second often goes up to 4,095 if it is of single speeds; a shared join then has 256 intervals or fewer.
fn two_ladders(random: &mut Random, base: usize, last: usize, joins: &[u16]) -> Plan {
    let ladder = Ladder::of(random, base);
    let (by, width) = (random.pick(&[0, 0, 5]), random.pick(&[0, 0, 3]));
    let up = TOP_SPEED - 255 * ladder.unit;
    let mut components = Vec::new();
    for by in [by, random.pick(&[by, up, up, up])] {
        let [ones, bases, starts] = ladder.rungs(random, 256, last);
        components.push(ladder.component(random, ones, by, width));
        for ends in [bases, starts] {
            components.push(ladder.component(random, ends, 0, 0));
        }
    }
    plan(&components, &[0, 1, SHARED, 2, SHARED, 3, 4, SHARED, 5, SHARED, random.pick(joins)])
}
