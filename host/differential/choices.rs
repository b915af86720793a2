//! The drive's list by its definition: the sum over all choices of one interval per component, each choice evaluated
//! through the whole structure. No list is joined with another: a join's list is enumerated from the components under
//! it. A component's list has the intervals of its block and the rest.

use crate::plan::{Component, Plan, COMPONENTS, INTERVALS, SERIES, SHARED};
use crate::rules::{TOP_SPEED, WHOLE};

/// The most intervals of a component's list: those of its block and the rest.
pub const WITH_REST: usize = INTERVALS + 1;

/// The most intervals of a join's list.
pub const MOST: usize = 256;
/// Beyond this many, the intervals of a join are not counted on.
const COUNTED: usize = MOST + 1;
/// The most pairs: two groups of three components, each joined to 81 intervals, then to 256, and the two lists joined.
pub const MOST_PAIRS: u32 = 2 * (81 + 729) + 256 * 256;
/// The greatest speed that a shared join gives, however great the sum.
pub const CEILING: u32 = TOP_SPEED as u32;

#[derive(Clone, Copy, Default)]
pub struct Focal {
    pub low: u32,
    pub high: u32,
    pub weight: u64,
}

impl Focal {
    fn of((low, high): (u16, u16), weight: u32) -> Focal {
        Focal { low: low.into(), high: high.into(), weight: weight.into() }
    }

    /// Low, then high, as one number: lists descend by it.
    fn key(&self) -> u64 {
        u64::from(self.low) << 32 | u64::from(self.high)
    }
}

pub struct Join {
    /// The pairs formed up to this join, its own included.
    pub pairs: u64,
    /// The different intervals of its list.
    pub intervals: usize,
    /// Those of the two lists that it takes.
    pub left: usize,
    pub right: usize,
    /// Those of all lists that stay on the stack under them.
    pub below: usize,
}

/// The joins in the order of the structure, up to the first with more than 256 intervals; the drive's list if there is
/// none such.
pub struct Run {
    pub plan: Plan,
    pub joins: Vec<Join>,
    pub list: Vec<Focal>,
    pub total: u64,
    /// The choices of one interval per component.
    pub choices: usize,
    pub sums: Sums,
}

/// The ceiling of shared joins, and which sums they met in all choices.
#[derive(Default)]
pub struct Sums {
    ceiling: u32,
    /// Lows that add to more than the ceiling, and highs with them.
    pub both_above: bool,
    /// Highs that do, of which the lows do not.
    pub high_above: bool,
    /// Two speeds above 0 that add to the ceiling.
    pub at: bool,
}

impl Sums {
    fn meet(&mut self, left: &Focal, right: &Focal) {
        let (low, high) = (left.low + right.low, left.high + right.high);
        self.both_above |= low > self.ceiling;
        self.high_above |= high > self.ceiling && low <= self.ceiling;
        self.at |= low == self.ceiling && left.low > 0 && right.low > 0;
        self.at |= high == self.ceiling && left.high > 0 && right.high > 0;
    }

    /// Whether the ceiling changes any.
    pub fn above(&self) -> bool {
        self.both_above || self.high_above
    }
}

impl Run {
    /// The number for an allowance: 0, 13 or 14.
    pub fn number(&self, allowance: u32) -> u32 {
        for join in &self.joins {
            if join.pairs > u64::from(allowance) {
                return 13;
            }
            if join.intervals > MOST {
                return 14;
            }
        }
        0
    }

    /// The pairs of all joins.
    pub fn pairs(&self) -> u64 {
        self.joins.last().map_or(0, |join| join.pairs)
    }

    pub fn belief(&self, demand: u32) -> u64 {
        self.list.iter().filter(|focal| focal.low >= demand).map(|focal| focal.weight).sum()
    }

    pub fn plausibility(&self, demand: u32) -> u64 {
        self.list.iter().filter(|focal| focal.high >= demand).map(|focal| focal.weight).sum()
    }

    /// What 1,000 times a belief has over `target` times the total: below 0 where the belief misses the target.
    pub fn over(&self, belief: u64, target: u32) -> i128 {
        1_000 * i128::from(belief) - i128::from(target) * i128::from(self.total)
    }

    /// The greatest demand whose belief meets a target of 1 to 1,000. Every demand is looked at, up to one above the
    /// speeds that a drive can have; from there on belief is 0.
    pub fn speed(&self, target: u32) -> u32 {
        let top = CEILING as usize;
        let mut beliefs = vec![0; top + 2]; // by demand
        for focal in &self.list {
            beliefs[focal.low as usize] += focal.weight;
        }
        for demand in (0..=top).rev() {
            beliefs[demand] += beliefs[demand + 1];
        }
        let met = (0..beliefs.len()).filter(|demand| self.over(beliefs[*demand], target) >= 0);
        met.max().expect("demand 0 meets every target") as u32
    }
}

/// Runs a plan that keeps the rules.
pub fn run(plan: &Plan) -> Run {
    run_up_to(plan, CEILING)
}

/// The same if shared joins just added.
pub fn run_without_ceiling(plan: &Plan) -> Run {
    run_up_to(plan, u32::MAX)
}

fn run_up_to(plan: &Plan, ceiling: u32) -> Run {
    let components: Vec<Vec<Focal>> = plan.used().iter().map(of_component).collect();
    let total = plan.used().iter().map(|component| u64::from(component.total)).product();
    let choices = components.iter().map(Vec::len).product();
    let sums = Sums { ceiling, ..Sums::default() };
    let mut run = Run { plan: *plan, joins: Vec::new(), list: Vec::new(), total, choices, sums };
    let structure = plan.structure();
    let mut stack: Vec<(usize, usize)> = Vec::new(); // where a sub-structure starts, and its number of intervals
    for (place, entry) in structure.iter().enumerate() {
        if *entry < SERIES {
            run.list = list(&components, &structure[place..=place], &mut run.sums);
            stack.push((place, run.list.len()));
            continue;
        }
        let (_, right) = stack.pop().expect("two lists");
        let (start, left) = stack.pop().expect("two lists");
        run.list = list(&components, &structure[start..=place], &mut run.sums);
        let (pairs, intervals) = (run.pairs() + (left * right) as u64, run.list.len());
        let below = stack.iter().map(|(_, intervals)| intervals).sum();
        run.joins.push(Join { pairs, intervals, left, right, below });
        stack.push((start, intervals));
        if run.list.len() > MOST {
            run.list.clear();
            break;
        }
    }
    run
}

/// The intervals of a component, each once: those of its block and, where the weights leave some of T, the rest.
fn of_component(component: &Component) -> Vec<Focal> {
    let mut list = Vec::new();
    for interval in component.used() {
        add(&mut list, Focal::of(interval.ends(), interval.weight.into()));
    }
    if component.rest() > 0 {
        add(&mut list, Focal::of(WHOLE, component.rest()));
    }
    list
}

/// Puts an interval into a list, or adds its weight where the list has it already.
#[inline]
fn add(list: &mut Vec<Focal>, new: Focal) {
    match list.binary_search_by(|focal| new.key().cmp(&focal.key())) {
        Ok(place) => list[place].weight += new.weight,
        Err(place) => list.insert(place, new),
    }
}

/// The intervals of a sub-structure in descending order of low, then of high, each once, with the weights of all
/// choices that give it.
fn list(components: &[Vec<Focal>], structure: &[u16], sums: &mut Sums) -> Vec<Focal> {
    let mut list = Vec::new();
    let under: Vec<usize> =
        structure.iter().filter(|entry| **entry < SERIES).map(|entry| usize::from(*entry)).collect();
    let mut choice = [0; COMPONENTS]; // for each component the place of its interval
    loop {
        add(&mut list, evaluate(components, structure, &choice, sums));
        if list.len() > COUNTED || !advance(components, &under, &mut choice) {
            return list;
        }
    }
}

/// The next choice of the components `under`; false after the last.
fn advance(components: &[Vec<Focal>], under: &[usize], choice: &mut [usize; COMPONENTS]) -> bool {
    for component in under {
        choice[*component] += 1;
        if choice[*component] < components[*component].len() {
            return true;
        }
        choice[*component] = 0;
    }
    false
}

/// One choice through a structure: lows and highs are joined separately, weights are multiplied.
fn evaluate(components: &[Vec<Focal>], structure: &[u16], choice: &[usize; COMPONENTS], sums: &mut Sums) -> Focal {
    let mut stack = [Focal::default(); COMPONENTS];
    let mut height = 0;
    for entry in structure {
        if *entry < SERIES {
            let component = usize::from(*entry);
            stack[height] = components[component][choice[component]];
            height += 1;
        } else {
            let (left, right) = (stack[height - 2], stack[height - 1]);
            if *entry == SHARED {
                sums.meet(&left, &right);
            }
            stack[height - 2] = Focal {
                low: joined(*entry, left.low, right.low, sums.ceiling),
                high: joined(*entry, left.high, right.high, sums.ceiling),
                weight: left.weight * right.weight,
            };
            height -= 1;
        }
    }
    stack[0]
}

fn joined(join: u16, left: u32, right: u32, ceiling: u32) -> u32 {
    match join {
        SERIES => left.min(right),
        SHARED => (left + right).min(ceiling),
        _ => left.max(right),
    }
}
