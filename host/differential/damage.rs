//! Plans and sheets with broken rules.

use crate::plan::{Component, Plan, COMPONENTS, INTERVALS, PLAN_NUMBERS, SERIES, SPARE};
use crate::random::Random;
use crate::rules::{TOP_SPEED, TOP_TOTAL};
use crate::sheet::{block_bytes, pack, HEAD_BYTES};

/// The largest value of each field.
pub struct Fields {
    count: usize,
    total: usize,
    weight: usize,
    speed: usize,
    entry: usize,
}

/// A sheet's fields have few bits.
pub const OF_SHEET: Fields = Fields { count: 15, total: 1_023, weight: 1_023, speed: 4_095, entry: 15 };
/// A plan's numbers have 16.
pub const OF_PLAN: Fields = Fields { count: 65_535, total: 65_535, weight: 65_535, speed: 65_535, entry: 65_535 };

/// The rules that a plan can break.
pub const RULES_OF_PLAN: [u32; 8] = [3, 4, 6, 7, 8, 9, 10, 11];

/// Breaks a rule of a plan that keeps it, where the plan has room for that.
pub fn break_plan(random: &mut Random, plan: &mut Plan, rule: u32, fields: &Fields) {
    let component = &mut plan.components[random.below(usize::from(plan.count).clamp(1, COMPONENTS))];
    match rule {
        3 => plan.count = beyond(random, plan.count, COMPONENTS, fields.count),
        4 => component.count = beyond(random, component.count, INTERVALS, fields.count),
        6 => break_total(random, component, fields),
        7 if random.chance(15) => *plan = plan.turned(), // the lists' order
        7 => break_interval(random, component, fields),
        8 => break_sum(random, component, fields),
        9 => break_entry(random, plan, fields),
        10 => break_naming(random, plan),
        11 => break_order(random, plan),
        _ => {}
    }
}

/// Zero or a number above `most`, up to `top`; often one whose low bits are the old value.
fn beyond(random: &mut Random, old: u16, most: usize, top: usize) -> u16 {
    let low_bits = usize::from(old) + (random.between(1, 255) << 8);
    let number = match random.below(5) {
        0 => 0,
        1 => most + 1,
        2 => top,
        3 if low_bits <= top => low_bits,
        _ => random.between(most + 1, top),
    };
    number as u16
}

fn break_total(random: &mut Random, component: &mut Component, fields: &Fields) {
    let old = component.total;
    component.total = beyond(random, old, TOP_TOTAL.into(), fields.total);
    // Above 1,000 nothing but the total is wrong: the weights leave a greater rest, or grow with it.
    let weight = &mut component.intervals[random.below(component.used().len().max(1))].weight;
    let grown = usize::from(*weight) + usize::from(component.total.saturating_sub(old));
    if grown <= fields.weight && random.chance(70) {
        *weight = grown as u16;
    }
}

fn break_interval(random: &mut Random, component: &mut Component, fields: &Fields) {
    let k = component.used().len().max(1);
    let place = random.below(k);
    let before = place.saturating_sub(1);
    let intervals = &mut component.intervals;
    match random.below(6) {
        0 if fields.speed > usize::from(TOP_SPEED) => {
            intervals[k - 1].high = beyond(random, intervals[k - 1].high, TOP_SPEED.into(), fields.speed);
            if random.chance(50) {
                intervals[k - 1].low = intervals[k - 1].high;
            }
        }
        1 => {
            // A weight of 0; what it was goes to another weight or to the rest.
            let other = (place + 1) % k;
            if random.chance(50) {
                intervals[other].weight = intervals[other].weight.wrapping_add(intervals[place].weight);
            }
            intervals[place].weight = 0;
        }
        2 if k > 1 => intervals.swap(place, (place + 1) % k),
        3 if place > 0 => {
            (intervals[place].low, intervals[place].high) = (intervals[before].low, intervals[before].high)
        }
        4 => (intervals[place].low, intervals[place].high) = (intervals[place].high, intervals[place].low),
        _ => {
            let low = random.between(1, TOP_SPEED.into());
            let high = random.below(low);
            intervals[place].low = low as u16;
            intervals[place].high = random.pick(&[low - 1, high]) as u16;
        }
    }
}

/// Weights that add to more than T: by one, by any number, or so that the sum is right but for a bit above the field.
fn break_sum(random: &mut Random, component: &mut Component, fields: &Fields) {
    let k = component.used().len().max(1);
    let place = random.below(k);
    let other = (place + 1) % k;
    let weight = usize::from(component.intervals[place].weight);
    let both = weight + usize::from(component.intervals[other].weight);
    let least = (weight + component.rest() as usize + 1).min(fields.weight); // too much by one
    let sum = component.sum();
    match random.below(5) {
        0 if sum > 1 => component.total = (sum - 1).min(TOP_TOTAL.into()) as u16,
        1 if k > 1 && both < fields.weight => {
            component.intervals[place].weight = fields.weight as u16;
            component.intervals[other].weight = both as u16 + 1;
        }
        2 => component.intervals[place].weight = random.between(least, fields.weight) as u16,
        _ => component.intervals[place].weight = least as u16,
    }
}

fn break_entry(random: &mut Random, plan: &mut Plan, fields: &Fields) {
    let place = random.below(plan.structure().len().max(1));
    let wide = usize::from(plan.entries[place]) + (random.between(1, 255) << 8);
    let entry = match random.below(5) {
        0 if wide <= fields.entry => wide,
        1 if usize::from(plan.count) < COMPONENTS => random.between(plan.count.into(), 5),
        2 => random.between(6, 7),
        3 => random.pick(&[11, 15, fields.entry]),
        _ => random.between(11, fields.entry),
    };
    plan.entries[place] = entry as u16;
}

fn break_naming(random: &mut Random, plan: &mut Plan) {
    let place = random.below(plan.structure().len().max(1));
    let component = random.below(usize::from(plan.count).clamp(1, COMPONENTS)) as u16;
    let join = random.between(SERIES.into(), SPARE.into()) as u16;
    plan.entries[place] = if plan.count == 1 || random.chance(30) { join } else { component };
}

/// Moves a join to the front, so that it finds fewer than two lists.
fn break_order(random: &mut Random, plan: &mut Plan) {
    let joins: Vec<usize> = (0..plan.structure().len()).filter(|place| plan.entries[*place] >= SERIES).collect();
    if !joins.is_empty() {
        let join = random.pick(&joins);
        plan.entries[random.below(2).min(join)..=join].rotate_right(1);
    }
}

/// Random numbers in the unused places.
pub fn litter(random: &mut Random, plan: &mut Plan) {
    let used = *plan;
    let mut numbers = [0; PLAN_NUMBERS];
    numbers.fill_with(|| random.next() as u16);
    *plan = Plan::of_numbers(&numbers);
    plan.count = used.count;
    for (component, kept) in plan.components.iter_mut().zip(used.used()) {
        (component.count, component.total) = (kept.count, kept.total);
        component.intervals[..kept.used().len()].copy_from_slice(kept.used());
    }
    plan.entries[..used.structure().len()].copy_from_slice(used.structure());
}

/// Gives some of a plan's numbers values at and beyond their limits.
pub fn replace_numbers(random: &mut Random, plan: &mut Plan) {
    let mut numbers = plan.numbers();
    for _ in 0..random.between(1, 3) {
        let place = random.below(PLAN_NUMBERS);
        let old = numbers[place];
        let near = [old.wrapping_add(1), old.wrapping_sub(1), old ^ 1 << random.below(16)];
        let limits = [0, 1, 6, 7, 8, 9, 255, 256, 1_000, 1_001, 1_023, 1_024, 4_095, 4_096, 65_535];
        numbers[place] = if random.chance(50) { random.pick(&near) } else { random.pick(&limits) };
    }
    *plan = Plan::of_numbers(&numbers);
}

/// A plan of random numbers; n and each k mostly within their limits.
pub fn random_plan(random: &mut Random) -> Plan {
    let mut plan = Plan::default();
    litter(random, &mut plan);
    if random.chance(90) {
        plan.count = random.between(1, COMPONENTS) as u16;
    }
    for component in &mut plan.components {
        component.count = random.between(1, INTERVALS) as u16;
        component.total = random.between(1, TOP_TOTAL.into()) as u16;
    }
    plan
}

/// The sheet of a plan with these rules broken.
pub fn broken_sheet(random: &mut Random, mut plan: Plan, rules: &[u32]) -> Vec<u8> {
    let by_layout = random.chance(60); // breaks rule 4 with each k from 1 to 8
    for rule in rules.iter().filter(|rule| **rule != 4 || !by_layout) {
        break_plan(random, &mut plan, *rule, &OF_SHEET);
    }
    let mut sheet = pack(&plan);
    if rules.contains(&5) {
        set_zero_bit(random, &mut sheet, &plan);
    }
    if rules.contains(&4) && by_layout {
        break_layout(random, &mut sheet, &plan);
    }
    if rules.contains(&2) {
        sheet[0] ^= (random.between(1, 15) as u8) << 4;
    }
    if rules.contains(&1) {
        break_length(random, &mut sheet);
    }
    sheet
}

/// Where each block of a plan's sheet starts, and where its structure does.
fn starts(plan: &Plan) -> Vec<usize> {
    let mut starts = vec![HEAD_BYTES];
    for component in plan.used() {
        starts.push(starts[starts.len() - 1] + block_bytes(component.used().len()));
    }
    starts
}

/// Sets one of the bits that have to be zero.
fn set_zero_bit(random: &mut Random, sheet: &mut [u8], plan: &Plan) {
    let mut zeros: Vec<usize> = (8 * sheet.len() - 4..8 * sheet.len()).collect();
    for (component, start) in plan.used().iter().zip(starts(plan)) {
        let k = component.used().len();
        zeros.extend([8 * start + 4, 8 * start + 5]);
        zeros.extend(8 * start + 16 + 34 * k..8 * (start + block_bytes(k)));
    }
    let bit = random.pick(&zeros);
    sheet[bit / 8] |= 128 >> (bit % 8);
}

/// Gives a block another k, or the sheet another length and the length byte to it.
fn break_layout(random: &mut Random, sheet: &mut Vec<u8>, plan: &Plan) {
    let blocks = starts(plan);
    if blocks.len() > 1 && random.chance(40) {
        let block = random.pick(&blocks[..blocks.len() - 1]);
        sheet[block] = sheet[block] & 15 | (random.between(1, INTERVALS) as u8) << 4;
    } else {
        resize(random, sheet);
        sheet[1] = sheet.len() as u8;
    }
}

/// Cuts bytes off, takes one out, or adds some, in a sheet that keeps its head.
fn resize(random: &mut Random, sheet: &mut Vec<u8>) {
    let length = sheet.len();
    match random.below(4) {
        0 => sheet.truncate(random.between(HEAD_BYTES, length)),
        1 => sheet.truncate((length - 1).max(HEAD_BYTES)),
        2 if length > HEAD_BYTES => drop(sheet.remove(random.between(HEAD_BYTES, length - 1))),
        _ => sheet.resize(length + random.pick(&[1, 1, 2, 20]), random.pick(&[0, 0, 1, 255])),
    }
}

/// A sheet whose length byte is not its length, or that has no length byte.
fn break_length(random: &mut Random, sheet: &mut Vec<u8>) {
    match random.below(6) {
        0 => sheet[1] = sheet[1].wrapping_add(random.pick(&[1, 255])),
        1 => sheet[1] = random.next() as u8,
        2 => sheet.truncate(random.below(2)),
        3 => resize(random, sheet),
        // The low bits of the length are right.
        4 => sheet.resize(sheet.len() + 256, random.pick(&[0, 255])),
        _ if random.chance(2) => sheet.resize(sheet.len() + 65_536, 0),
        _ => sheet.truncate(random.below(sheet.len())),
    }
}

/// A sheet with random damage that aims at no rule.
pub fn spoiled_sheet(random: &mut Random, plan: &Plan) -> Vec<u8> {
    let mut sheet = pack(plan);
    match random.below(4) {
        0 => {
            for _ in 0..random.between(1, 3) {
                let bit = random.below(8 * sheet.len());
                sheet[bit / 8] ^= 128 >> (bit % 8);
            }
        }
        1 => {
            for _ in 0..random.between(1, 3) {
                let place = random.below(sheet.len());
                sheet[place] = random.next() as u8;
            }
        }
        2 => {
            resize(random, &mut sheet);
            if random.chance(80) {
                sheet[1] = sheet.len() as u8;
            }
        }
        _ => return random_sheet(random),
    }
    sheet
}

/// Random bytes, often with a head or a layout that is right.
fn random_sheet(random: &mut Random) -> Vec<u8> {
    if random.chance(30) {
        return pack(&random_plan(random));
    }
    let mut sheet = vec![0; random.between(0, 260)];
    random.fill(&mut sheet);
    if sheet.len() >= HEAD_BYTES && random.chance(80) {
        sheet[1] = sheet.len() as u8;
        if random.chance(80) {
            sheet[0] = 16 + random.between(1, COMPONENTS) as u8;
        }
    }
    sheet
}
