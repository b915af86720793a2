//! The rules of a plan: 3, 4 (only k) and 6 to 11. Each looks at the whole plan before the next.

use crate::plan::{Component, Plan, COMPONENTS, INTERVALS};

pub const TOP_SPEED: u16 = 4095;
pub const TOP_TOTAL: u16 = 1000;

/// The interval that a rest counts as: its low and its high.
pub const WHOLE: (u16, u16) = (0, TOP_SPEED);

/// The number of a plan as the writer tests it; 0 where it keeps the rules.
pub fn of_plan(plan: &Plan) -> u32 {
    if !(1..=COMPONENTS).contains(&usize::from(plan.count)) {
        3
    } else if plan.used().iter().any(|component| !(1..=INTERVALS).contains(&usize::from(component.count))) {
        4
    } else {
        of_values(plan)
    }
}

/// The rules 6 to 11 of a plan with n from 1 to 6 and each k from 1 to 8.
pub fn of_values(plan: &Plan) -> u32 {
    let any = |broken: fn(&Component) -> bool| plan.used().iter().any(broken);
    if any(total_broken) {
        6
    } else if any(intervals_broken) {
        7
    } else if any(weights_broken) {
        8
    } else if plan.structure().iter().any(|entry| entry_broken(*entry, plan.count)) {
        9
    } else if (0..plan.count).any(|component| named(plan, component) != 1) {
        10
    } else if join_broken(plan) {
        11
    } else {
        0
    }
}

fn total_broken(component: &Component) -> bool {
    !(1..=TOP_TOTAL).contains(&component.total)
}

fn intervals_broken(component: &Component) -> bool {
    let used = component.used();
    used.iter().any(|interval| interval.low > interval.high || interval.high > TOP_SPEED || interval.weight == 0)
        || used.windows(2).any(|pair| pair[0].ends() >= pair[1].ends())
}

fn weights_broken(component: &Component) -> bool {
    component.sum() > u32::from(component.total)
}

fn entry_broken(entry: u16, count: u16) -> bool {
    match entry {
        0..=5 => entry >= count,
        8..=10 => false,
        _ => true,
    }
}

fn named(plan: &Plan, component: u16) -> usize {
    plan.structure().iter().filter(|entry| **entry == component).count()
}

fn join_broken(plan: &Plan) -> bool {
    let mut lists = 0;
    for entry in plan.structure() {
        if *entry <= 5 {
            lists += 1;
        } else if lists < 2 {
            return true;
        } else {
            lists -= 1;
        }
    }
    false
}
