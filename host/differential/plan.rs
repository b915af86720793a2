//! A plan: the facts of a sheet as values. Every number is taken as it stands, also where no sheet can hold it.

pub const COMPONENTS: usize = 6;
pub const INTERVALS: usize = 8;
pub const ENTRIES: usize = 2 * COMPONENTS - 1;

/// 16-bit numbers: n; for each component k, T, the lows, the highs, the weights; the entries.
const COMPONENT_NUMBERS: usize = 2 + 3 * INTERVALS;
pub const PLAN_NUMBERS: usize = 1 + COMPONENTS * COMPONENT_NUMBERS + ENTRIES;
pub const PLAN_BYTES: usize = 2 * PLAN_NUMBERS;

pub const SERIES: u16 = 8;
pub const SHARED: u16 = 9;
pub const SPARE: u16 = 10;

#[derive(Clone, Copy, Default, PartialEq)]
pub struct Interval {
    pub low: u16,
    pub high: u16,
    pub weight: u16,
}

impl Interval {
    pub fn ends(&self) -> (u16, u16) {
        (self.low, self.high)
    }
}

#[derive(Clone, Copy, Default, PartialEq)]
pub struct Component {
    pub count: u16,
    pub total: u16,
    pub intervals: [Interval; INTERVALS],
}

impl Component {
    /// The intervals in use: k, at most as many as there are places.
    pub fn used(&self) -> &[Interval] {
        &self.intervals[..usize::from(self.count).min(INTERVALS)]
    }

    /// The sum of the weights.
    pub fn sum(&self) -> u32 {
        self.used().iter().map(|interval| u32::from(interval.weight)).sum()
    }

    /// What the weights leave of T; 0 where they exceed it.
    pub fn rest(&self) -> u32 {
        u32::from(self.total).saturating_sub(self.sum())
    }
}

#[derive(Clone, Copy, Default, PartialEq)]
pub struct Plan {
    pub count: u16,
    pub components: [Component; COMPONENTS],
    pub entries: [u16; ENTRIES],
}

impl Plan {
    /// The components in use: n, at most as many as there are places.
    pub fn used(&self) -> &[Component] {
        &self.components[..usize::from(self.count).min(COMPONENTS)]
    }

    /// The entries in use: 2n - 1.
    pub fn structure(&self) -> &[u16] {
        &self.entries[..(2 * self.used().len()).saturating_sub(1)]
    }

    /// Whether the weights of some component leave a rest.
    pub fn has_rest(&self) -> bool {
        self.used().iter().any(|component| component.rest() > 0)
    }

    /// The plan with zero in its unused places.
    pub fn cleaned(&self) -> Plan {
        let mut plan = Plan { count: self.count, ..Plan::default() };
        for (clean, component) in plan.components.iter_mut().zip(self.used()) {
            (clean.count, clean.total) = (component.count, component.total);
            clean.intervals[..component.used().len()].copy_from_slice(component.used());
        }
        plan.entries[..self.structure().len()].copy_from_slice(self.structure());
        plan
    }

    /// The plan with the intervals of each component the other way round.
    pub fn turned(&self) -> Plan {
        let mut plan = *self;
        for component in &mut plan.components[..self.used().len()] {
            let k = component.used().len();
            component.intervals[..k].reverse();
        }
        plan
    }

    pub fn numbers(&self) -> Vec<u16> {
        let mut numbers = Vec::with_capacity(PLAN_NUMBERS);
        numbers.push(self.count);
        for component in &self.components {
            numbers.extend([component.count, component.total]);
            numbers.extend(component.intervals.iter().map(|interval| interval.low));
            numbers.extend(component.intervals.iter().map(|interval| interval.high));
            numbers.extend(component.intervals.iter().map(|interval| interval.weight));
        }
        numbers.extend(self.entries);
        numbers
    }

    pub fn of_numbers(numbers: &[u16]) -> Plan {
        let mut plan = Plan { count: numbers[0], ..Plan::default() };
        let (blocks, entries) = numbers[1..].split_at(COMPONENTS * COMPONENT_NUMBERS);
        for (component, block) in plan.components.iter_mut().zip(blocks.chunks(COMPONENT_NUMBERS)) {
            (component.count, component.total) = (block[0], block[1]);
            for (i, interval) in component.intervals.iter_mut().enumerate() {
                let place = |field: usize| block[2 + field * INTERVALS + i];
                *interval = Interval { low: place(0), high: place(1), weight: place(2) };
            }
        }
        plan.entries.copy_from_slice(entries);
        plan
    }

    pub fn bytes(&self) -> Vec<u8> {
        self.numbers().iter().flat_map(|number| number.to_be_bytes()).collect()
    }

    /// The plan in the first 336 bytes.
    pub fn of_bytes(bytes: &[u8]) -> Plan {
        let pairs = bytes[..PLAN_BYTES].chunks(2);
        Plan::of_numbers(&pairs.map(|pair| u16::from_be_bytes([pair[0], pair[1]])).collect::<Vec<u16>>())
    }
}
