//! A sheet read as a plan, with the numbers 1 to 11, and a plan written as a sheet.

use crate::plan::{Interval, Plan, COMPONENTS, INTERVALS};
use crate::rules;

pub const HEAD_BYTES: usize = 2;

/// The bytes of a block of k intervals.
pub fn block_bytes(k: usize) -> usize {
    (16 + 34 * k).div_ceil(8)
}

/// Fields from bytes, most significant bit first.
struct Fields<'a> {
    bytes: &'a [u8],
    next: usize,
}

impl Fields<'_> {
    fn take(&mut self, width: usize) -> u16 {
        let mut value = 0;
        for bit in self.next..self.next + width {
            value = value << 1 | u16::from(self.bytes[bit / 8] >> (7 - bit % 8) & 1);
        }
        self.next += width;
        value
    }

    /// The bits that are left, as a number that is 0 where all of them are.
    fn rest(&mut self) -> u16 {
        self.take(8 * self.bytes.len() - self.next)
    }
}

/// The plan of a sheet, or its number.
pub fn read(sheet: &[u8]) -> Result<Plan, u32> {
    let plan = unpack(sheet)?;
    match rules::of_values(&plan) {
        0 => Ok(plan),
        number => Err(number),
    }
}

/// The values of a sheet that keeps the rules 1 to 5, or its number.
pub fn unpack(sheet: &[u8]) -> Result<Plan, u32> {
    if sheet.len() < HEAD_BYTES || usize::from(sheet[1]) != sheet.len() {
        return Err(1);
    }
    if sheet[0] >> 4 != 1 {
        return Err(2);
    }
    let n = usize::from(sheet[0] & 15);
    if !(1..=COMPONENTS).contains(&n) {
        return Err(3);
    }
    let (blocks, structure) = parts(sheet, n).ok_or(4u32)?;
    let (plan, zero) = fields(&blocks, structure);
    if zero {
        Ok(plan)
    } else {
        Err(5)
    }
}

/// The n blocks and the structure, if they fill the sheet.
fn parts(sheet: &[u8], n: usize) -> Option<(Vec<&[u8]>, &[u8])> {
    let mut rest = &sheet[HEAD_BYTES..];
    let mut blocks = Vec::with_capacity(n);
    for _ in 0..n {
        let k = usize::from(*rest.first()? >> 4);
        if !(1..=INTERVALS).contains(&k) || rest.len() < block_bytes(k) {
            return None;
        }
        let (block, behind) = rest.split_at(block_bytes(k));
        blocks.push(block);
        rest = behind;
    }
    (rest.len() == n).then_some((blocks, rest))
}

/// The plan that blocks and structure hold, and whether every bit that has to be zero is.
fn fields(blocks: &[&[u8]], structure: &[u8]) -> (Plan, bool) {
    let mut plan = Plan { count: blocks.len() as u16, ..Plan::default() };
    let mut ones = 0;
    for (component, block) in plan.components.iter_mut().zip(blocks) {
        let mut block = Fields { bytes: block, next: 0 };
        component.count = block.take(4);
        ones |= block.take(2);
        component.total = block.take(10);
        for interval in &mut component.intervals[..usize::from(component.count)] {
            *interval = Interval { low: block.take(12), high: block.take(12), weight: block.take(10) };
        }
        ones |= block.rest();
    }
    let mut structure = Fields { bytes: structure, next: 0 };
    for entry in &mut plan.entries[..2 * blocks.len() - 1] {
        *entry = structure.take(4);
    }
    ones |= structure.rest();
    (plan, ones == 0)
}

/// The sheet of a plan. Of a number that its field cannot hold, the low bits are taken: so damaged sheets are made.
pub fn pack(plan: &Plan) -> Vec<u8> {
    let mut bits = Vec::new();
    put(&mut bits, 1, 4);
    put(&mut bits, plan.count, 4);
    put(&mut bits, 0, 8);
    for component in plan.used() {
        put(&mut bits, component.count, 4);
        put(&mut bits, 0, 2);
        put(&mut bits, component.total, 10);
        for interval in component.used() {
            put(&mut bits, interval.low, 12);
            put(&mut bits, interval.high, 12);
            put(&mut bits, interval.weight, 10);
        }
        bits.resize(bits.len().next_multiple_of(8), false);
    }
    for entry in plan.structure() {
        put(&mut bits, *entry, 4);
    }
    bits.resize(bits.len().next_multiple_of(8), false);
    let mut sheet: Vec<u8> = bits.chunks(8).map(byte).collect();
    sheet[1] = sheet.len() as u8;
    sheet
}

fn put(bits: &mut Vec<bool>, value: u16, width: usize) {
    bits.extend((0..width).rev().map(|bit| value >> bit & 1 == 1));
}

fn byte(bits: &[bool]) -> u8 {
    bits.iter().fold(0, |value, bit| value << 1 | u8::from(*bit))
}

/// The sheet of a plan, or its number, for a sheet buffer of `room` bytes. 12 is not the writer's but the call's.
pub fn write(plan: &Plan, room: usize) -> Result<Vec<u8>, u32> {
    match rules::of_plan(plan) {
        0 => {
            let sheet = pack(plan);
            if sheet.len() <= room {
                Ok(sheet)
            } else {
                Err(15)
            }
        }
        number => Err(number),
    }
}
