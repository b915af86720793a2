//! The borders that a run has to meet: values at a limit and one beyond.

use crate::cases::LONG_LIST;
use crate::choices::{self, Focal, Join, Run, CEILING, MOST, MOST_PAIRS, WITH_REST};
use crate::expect::{
    right_length, right_target, Asked, Question, Reply, Set, DEMAND_BYTES, LENGTH_BYTES, LIST_BYTES, MOST_DEMANDS,
    TOP_TARGET,
};
use crate::plan::{Component, Plan, COMPONENTS, INTERVALS, PLAN_BYTES, SERIES, SHARED};
use crate::rules::{self, TOP_SPEED, TOP_TOTAL, WHOLE};
use crate::sheet;

macro_rules! borders {
    ($($name:ident: $words:literal,)*) => {
        #[derive(Clone, Copy)]
        pub enum Border { $($name,)* }
        const WORDS: &[&str] = &[$($words,)*];
    };
}

borders! {
    Intervals256: "a join's list of 256 intervals",
    Intervals257: "a join's list of 257 intervals, refused",
    AllowanceExact: "an allowance equal to the pairs",
    AllowanceLess: "an allowance one less, refused",
    Pairs67156: "67,156 pairs, the most",
    Pairs81: "a join of two components with lists of nine intervals: 81 pairs",
    Choices262144: "six components of eight intervals and no rest: 224 bytes, 262,144 choices",
    Choices531441: "six components of eight intervals and a rest: 224 bytes, 531,441 choices",
    Records768: "two lists of 256 intervals joined to one of 256: 768 records",
    Records769: "two lists of 256 intervals joined to more than 256: 769 records, refused",
    Shared256: "two lists of 256 intervals in a shared join that the ceiling leaves at 256 or fewer",
    Behind256: "a join of two lists behind 256 records or more",
    Stack6: "six components' lists on the stack before the first join",
    LeafBehind256: "a component's list behind a join's list of 256 intervals",
    LeafBehindLonger: "a component's list behind a join's list that is longer than the two joined together",
    LeafBehindShorter: "a component's list behind a join's list that is shorter than the first of the two joined",
    SumAt: "two speeds above 0 in a shared join that add to 4,095",
    CutHigh: "highs in a shared join that add to more than 4,095, and their lows do not",
    CutBoth: "lows in a shared join that add to more than 4,095",
    CutList: "a drive's list that is shorter by the ceiling of shared joins",
    CutPairs: "a pair count that is smaller by the ceiling",
    Cut256: "a join's list of 256 intervals that is shorter by the ceiling",
    Cut257: "a join's list of 257 intervals that is shorter by the ceiling, refused",
    Cut13: "a sheet that is 13 without the ceiling, accepted",
    Cut14: "a sheet that is 14 without the ceiling, accepted",
    RestNone: "no rest: in each component the weights add to T",
    Rest1: "a rest of 1",
    Rest999: "a rest of 999",
    RestNinth: "a rest beside eight intervals",
    RestListed: "a rest added to a listed interval from 0 to 4,095",
    RestBetween: "a rest between intervals of a drive of one component",
    ListOfOne: "a drive of one component with a list of several intervals",
    ListLows: "neighbours in the drive's list with equal lows",
    ListHighs: "neighbours in the drive's list with equal highs",
    ListInside: "an interval inside the one behind it in the drive's list",
    SumAbove: "weights one above T, refused",
    Total: "a total of 10^18",
    T1000: "a T of 1,000",
    T1001: "a T of 1,001, refused",
    T1023: "a T of 1,023, refused",
    Weight1023: "a weight of 1,023, refused",
    Speeds: "speeds 0 and 4,095 in one sheet",
    Descending: "a sheet whose blocks descend as lists do, all else right, refused",
    DemandLow: "a demand at a low",
    DemandAboveLow: "a demand one above a low",
    DemandHigh: "a demand at a high",
    DemandAboveHigh: "a demand one above a high",
    DemandCeiling: "demand 4,095 where lows exceed it without the ceiling: belief above 0",
    DemandCeilingHigh: "demand 4,095 where only highs exceed it without the ceiling: plausibility above 0",
    DemandAboveCeiling: "demand 4,096 that is met by nothing, and by highs without the ceiling",
    DemandZero: "demand 0",
    DemandMost: "demand 2^32 - 1",
    SetOne: "a set of one demand",
    SetMost: "a set of sixteen demands",
    SetAscending: "a set in ascending order, no two demands equal",
    SetDescending: "a set in descending order, no two demands equal",
    SetUnordered: "a set in neither order",
    SetEqual: "equal demands in a set",
    SetLow: "a demand of a set at a low",
    SetAboveLow: "a demand of a set one above a low",
    SetHigh: "a demand of a set at a high",
    SetAboveHigh: "a demand of a set one above a high",
    SetEnds: "demand 0 and one above every speed in one set",
    SetCeiling: "demands 4,095 and 4,096 in one set, where highs meet both without the ceiling",
    SetNone: "no demands, refused",
    SetAboveMost: "demands of 68 bytes, refused",
    SetPart: "demands of a length below 64 and not divisible by 4, refused",
    SetPartAboveMost: "demands of a length above 64 and not divisible by 4, refused",
    SetLowBits: "demands of a length whose low 8 bits would be accepted, refused",
    SetLongLowBits: "demands of a length whose low 16 bits would be accepted, refused",
    SetBehindSheet: "demands of a wrong length with a wrong sheet: 1 to 11",
    SetBehindList: "demands of a wrong length with a short list buffer: 12",
    SetBehindAnswer: "demands of a wrong length with a short answer buffer: 12",
    SetBeforeShares: "demands of a wrong length with a short shares' buffer: 17",
    SetBefore13: "demands of a wrong length where 13 would follow: 17",
    SetBefore14: "demands of a wrong length where 14 would follow: 17",
    Shares: "a shares' buffer of 16 bytes for each demand",
    SharesLess: "a shares' buffer one byte shorter, refused",
    SharesNone: "a shares' buffer of no bytes, refused",
    SharesMore: "a shares' buffer with bytes behind the last pair",
    SharesBehindSheet: "a short shares' buffer with a wrong sheet: 1 to 11",
    SharesBehindList: "a short shares' buffer with a short list buffer: 12",
    SharesBehindAnswer: "a short shares' buffer with a short answer buffer: 12",
    SharesBefore13: "a short shares' buffer where 13 would follow: 18",
    SharesBefore14: "a short shares' buffer where 14 would follow: 18",
    SharesStay13: "13 with a shares' buffer that stays",
    SharesStay14: "14 with a shares' buffer that stays",
    TargetLeast: "a target of 1",
    TargetMost: "a target of 1,000",
    TargetZero: "a target of 0, refused",
    TargetAboveMost: "a target of 1,001, refused",
    TargetLowBits: "a target whose low 16 bits would be accepted, refused",
    TargetBehindSheet: "a wrong target with a wrong sheet: 1 to 11",
    TargetBehindList: "a wrong target with a short list buffer: 12",
    TargetBehindAnswer: "a wrong target with a short answer buffer: 12",
    TargetBefore13: "a wrong target where 13 would follow: 16",
    TargetBefore14: "a wrong target where 14 would follow: 16",
    TargetExact: "a target below 1,000 that belief meets exactly",
    TargetOver: "a target that belief exceeds by less than 1 of a total whose thousandfold exceeds 64 bits",
    TargetRounded: "a target that a faster low misses by less than 1 of the total",
    TargetUnder: "a target that a faster low misses by less than 1 of a total whose thousandfold exceeds 64 bits",
    SpeedZero: "a speed of 0",
    SpeedCeiling: "a speed of 4,095 that is greater without the ceiling",
    SpeedShared: "a speed that is the low of several intervals",
    SpeedFirst: "a speed that is the first of several lows",
    SpeedLast: "a speed that is the last of several lows",
    Sheet256: "a sheet 256 bytes longer than its length byte says, refused",
    List: "a list buffer of 9,216 bytes",
    ListLess: "a list buffer of 9,215 bytes, refused",
    ListMore: "a list buffer of 9,217 bytes, the last of which stays",
    ListLong: "a list buffer of 16,384 bytes, the last 7,168 of which stay",
    ListStay13: "13 with bytes behind the first 9,216 of the list buffer, which stay",
    ListStay14: "14 with bytes behind the first 9,216 of the list buffer, which stay",
    Answer: "an answer buffer of 40 bytes",
    AnswerLess: "an answer buffer of 39 bytes, refused",
    SetAnswer: "an answer buffer of 24 bytes for a set",
    SetAnswerLess: "an answer buffer of 23 bytes for a set, refused",
    SpeedAnswer: "an answer buffer of 48 bytes for a speed",
    SpeedAnswerLess: "an answer buffer of 47 bytes for a speed, refused",
    Length: "a writer's answer buffer of 8 bytes",
    LengthLess: "a writer's answer buffer of 7 bytes, refused",
    Room: "a sheet buffer of the sheet's length",
    RoomLess: "a sheet buffer one byte shorter, refused",
    Plan: "a plan buffer of 336 bytes",
    PlanLess: "a plan buffer of 335 bytes, refused",
    PlanDescending: "a plan whose intervals descend as lists do, all else right, refused",
    PlanSumAbove: "a plan with weights one above T, refused",
    PlanSumLowBits: "a plan with weights whose sum's low 16 bits would be accepted, refused",
    LowBytes: "a plan that would be accepted if n, k and entries were bytes, refused",
    PlanBack: "a plan written and read back",
    PlanBackRest: "a plan with a rest written and read back",
    SheetBack: "a sheet read and written back",
    SheetBackRest: "a sheet with a rest read and written back",
    Null: "NULL for an empty buffer",
    SetNull: "NULL for no demands",
    SharesNull: "NULL for a shares' buffer of no bytes",
}

/// How often each border was met.
pub struct Borders([u64; WORDS.len()]);

impl Default for Borders {
    fn default() -> Borders {
        Borders([0; WORDS.len()])
    }
}

impl Borders {
    pub fn met(&mut self, border: Border, met: bool) {
        self.0[border as usize] += u64::from(met);
    }

    pub fn add(&mut self, other: &Borders) {
        for (mine, theirs) in self.0.iter_mut().zip(&other.0) {
            *mine += theirs;
        }
    }

    /// Each border in words, and how often it was met.
    pub fn all(&self) -> impl Iterator<Item = (&'static str, u64)> + '_ {
        WORDS.iter().copied().zip(self.0.iter().copied())
    }

    /// A sheet that has to get this number.
    pub fn of_sheet(&mut self, sheet: &[u8], number: u32) {
        self.met(Border::Sheet256, sheet.len() >= 256 && usize::from(sheet[1]) == sheet.len() - 256);
        let Ok(plan) = sheet::unpack(sheet) else { return };
        let total = |total: u16| plan.used().iter().any(|component| component.total == total);
        let interval = |found: fn(u16, u16, u16) -> bool| {
            let mut all = plan.used().iter().flat_map(|component| component.used());
            all.any(|interval| found(interval.low, interval.high, interval.weight))
        };
        self.met(Border::T1000, number == 0 && total(TOP_TOTAL));
        self.met(Border::T1001, number == 6 && total(TOP_TOTAL + 1));
        self.met(Border::T1023, number == 6 && total(1_023));
        self.met(Border::SumAbove, number == 8 && plan.used().iter().all(one_above));
        self.met(Border::Weight1023, number == 8 && interval(|_, _, weight| weight == 1_023));
        let (stopped, fastest) = (interval(|low, _, _| low == 0), interval(|_, high, _| high == TOP_SPEED));
        self.met(Border::Speeds, number == 0 && stopped && fastest);
        self.met(Border::Descending, number == 7 && rules::of_values(&plan.turned()) == 0);
    }

    /// A call of drive_bounds, drive_set or drive_speed that has to return this number.
    pub fn of_question(&mut self, question: &Question, number: u32) {
        let list = question.list;
        self.met(Border::List, number == 0 && list == LIST_BYTES);
        self.met(Border::ListLess, number == 12 && list + 1 == LIST_BYTES);
        self.met(Border::ListMore, number == 0 && list == LIST_BYTES + 1);
        self.met(Border::ListLong, number == 0 && list == LONG_LIST);
        self.met(Border::ListStay13, number == 13 && list > LIST_BYTES);
        self.met(Border::ListStay14, number == 14 && list > LIST_BYTES);
        let (exact, less) = match &question.asked {
            Asked::Demand(demand) => {
                self.met(Border::DemandZero, number == 0 && *demand == 0);
                self.met(Border::DemandMost, number == 0 && *demand == u32::MAX);
                (Border::Answer, Border::AnswerLess)
            }
            Asked::Set(set) => {
                self.of_set(set, number);
                (Border::SetAnswer, Border::SetAnswerLess)
            }
            Asked::Target(target) => {
                self.of_target(*target, number);
                (Border::SpeedAnswer, Border::SpeedAnswerLess)
            }
        };
        let needed = question.asked.answer_bytes();
        self.met(exact, number == 0 && question.answer == needed);
        self.met(less, number == 12 && question.answer + 1 == needed);
    }

    fn of_set(&mut self, set: &Set, number: u32) {
        let (length, most) = (set.demands.len(), DEMAND_BYTES * MOST_DEMANDS);
        let part = length % DEMAND_BYTES != 0;
        self.met(Border::SetNone, number == 17 && length == 0);
        self.met(Border::SetAboveMost, number == 17 && length == most + DEMAND_BYTES);
        self.met(Border::SetPart, number == 17 && part && length < most);
        self.met(Border::SetPartAboveMost, number == 17 && part && length > most);
        self.met(Border::SetLowBits, number == 17 && right_length(length & 255));
        self.met(Border::SetLongLowBits, number == 17 && right_length(length & 65_535));
        self.met(Border::SetBeforeShares, number == 17 && set.short());
        self.met(Border::SharesLess, number == 18 && set.shares + 1 == set.needed());
        self.met(Border::SharesNone, number == 18 && set.shares == 0);
        self.met(Border::SharesStay13, number == 13);
        self.met(Border::SharesStay14, number == 14);
        if number != 0 {
            return;
        }
        let values = set.values();
        let all = |ordered: fn(&u32, &u32) -> bool| values.windows(2).all(|pair| ordered(&pair[0], &pair[1]));
        let several = values.len() > 1;
        self.met(Border::SetOne, !several);
        self.met(Border::SetMost, values.len() == MOST_DEMANDS);
        self.met(Border::SetAscending, several && all(u32::lt));
        self.met(Border::SetDescending, several && all(u32::gt));
        self.met(Border::SetUnordered, !all(u32::le) && !all(u32::ge));
        self.met(Border::SetEqual, (1..values.len()).any(|place| values[..place].contains(&values[place])));
        self.met(Border::Shares, set.shares == set.needed());
        self.met(Border::SharesMore, set.shares > set.needed());
    }

    fn of_target(&mut self, target: u32, number: u32) {
        self.met(Border::TargetLeast, number == 0 && target == 1);
        self.met(Border::TargetMost, number == 0 && target == TOP_TARGET);
        self.met(Border::TargetZero, number == 16 && target == 0);
        self.met(Border::TargetAboveMost, number == 16 && target == TOP_TARGET + 1);
        self.met(Border::TargetLowBits, number == 16 && right_target(target & 65_535));
    }

    /// A call that 16, 17 or 18 would refuse, were it not for the numbers before, and the numbers that would follow.
    pub fn of_order(&mut self, question: &Question, run: Option<&Run>, number: u32) {
        let [sheet, list, answer, before_13, before_14] = match question.asked.number() {
            16 => [
                Border::TargetBehindSheet,
                Border::TargetBehindList,
                Border::TargetBehindAnswer,
                Border::TargetBefore13,
                Border::TargetBefore14,
            ],
            17 => [
                Border::SetBehindSheet,
                Border::SetBehindList,
                Border::SetBehindAnswer,
                Border::SetBefore13,
                Border::SetBefore14,
            ],
            18 => [
                Border::SharesBehindSheet,
                Border::SharesBehindList,
                Border::SharesBehindAnswer,
                Border::SharesBefore13,
                Border::SharesBefore14,
            ],
            _ => return,
        };
        self.met(sheet, (1..=11).contains(&number));
        self.met(list, number == 12 && question.short_list());
        self.met(answer, number == 12 && question.short_answer());
        let next = run.filter(|_| number > 12).map(|run| run.number(question.allowance));
        self.met(before_13, next == Some(13));
        self.met(before_14, next == Some(14));
    }

    pub fn of_run(&mut self, run: &Run, question: &Question, expected: &Reply) {
        let (allowance, number) = (u64::from(question.allowance), expected.number);
        let joins = &run.joins;
        let last = joins.last().filter(|_| number == 14);
        self.met(Border::Intervals257, last.is_some_and(|join| join.intervals == MOST + 1));
        self.met(Border::Records769, last.is_some_and(|join| join.left == MOST && join.right == MOST));
        self.met(Border::AllowanceLess, number == 13 && joins.iter().any(|join| join.pairs == allowance + 1));
        // Plans with more choices would take too long a second time.
        if run.sums.above() && run.choices <= 8_192 && matches!(number, 0 | 14) {
            self.of_ceiling(run, question, number);
        }
        if number != 0 {
            return;
        }
        self.met(Border::Intervals256, joins.iter().any(|join| join.intervals == MOST));
        self.met(Border::AllowanceExact, !joins.is_empty() && run.pairs() == allowance);
        self.met(Border::Pairs67156, run.pairs() == MOST_PAIRS.into());
        // The first join is always of two components.
        self.met(Border::Pairs81, joins.first().is_some_and(|join| join.pairs == 81));
        self.met(Border::Choices262144, run.choices == INTERVALS.pow(COMPONENTS as u32) && !run.plan.has_rest());
        self.met(Border::Choices531441, run.choices == WITH_REST.pow(COMPONENTS as u32));
        self.met(Border::SumAt, run.sums.at);
        self.of_places(run);
        self.of_rests(&run.plan);
        self.of_list(run);
        self.met(Border::Total, run.total == 10u64.pow(18));
        match &question.asked {
            Asked::Demand(demand) => {
                let at = [Border::DemandLow, Border::DemandAboveLow, Border::DemandHigh, Border::DemandAboveHigh];
                self.of_demands(&run.list, &[*demand], at);
            }
            Asked::Set(set) => {
                let (values, above) = (set.values(), |demand: &u32| run.plausibility(*demand) == 0);
                self.met(Border::SetEnds, values.contains(&0) && values.iter().any(above));
                let at = [Border::SetLow, Border::SetAboveLow, Border::SetHigh, Border::SetAboveHigh];
                self.of_demands(&run.list, &values, at);
            }
            Asked::Target(target) => self.of_speed(run, *target, expected.answers.first().demand),
        }
    }

    /// What the ceiling of shared joins does: the same plan without it has more intervals, more pairs, greater speeds.
    fn of_ceiling(&mut self, run: &Run, question: &Question, number: u32) {
        let without = choices::run_without_ceiling(&run.plan);
        let shorter = |size: usize| {
            let mut joins = run.joins.iter().zip(&without.joins);
            joins.any(|(join, without)| join.intervals == size && without.intervals > size)
        };
        self.met(Border::Cut257, number == 14 && shorter(MOST + 1));
        if number != 0 {
            return;
        }
        self.met(Border::CutHigh, run.sums.high_above);
        self.met(Border::CutBoth, run.sums.both_above);
        self.met(Border::Cut256, shorter(MOST));
        self.met(Border::Cut13, without.number(question.allowance) == 13);
        self.met(Border::Cut14, without.number(question.allowance) == 14);
        if without.list.is_empty() {
            return;
        }
        self.met(Border::CutList, run.list.len() < without.list.len());
        self.met(Border::CutPairs, run.pairs() < without.pairs());
        let (lows, highs) = (without.belief(CEILING + 1), without.plausibility(CEILING + 1));
        match &question.asked {
            Asked::Demand(demand) => {
                self.met(Border::DemandCeiling, *demand == CEILING && lows > 0);
                self.met(Border::DemandCeilingHigh, *demand == CEILING && lows == 0 && highs > 0);
                self.met(Border::DemandAboveCeiling, *demand == CEILING + 1 && highs > 0);
            }
            Asked::Set(set) => {
                let values = set.values();
                let both = values.contains(&CEILING) && values.contains(&(CEILING + 1));
                self.met(Border::SetCeiling, both && highs > 0);
            }
            Asked::Target(target) => self.met(Border::SpeedCeiling, without.over(lows, *target) >= 0),
        }
    }

    /// What makes the places of the lists in the list buffer matter.
    fn of_places(&mut self, run: &Run) {
        let (joins, structure) = (&run.joins, run.plan.structure());
        let leaf = |entry: &u16| *entry < SERIES;
        let records = |join: &Join| join.below + join.left + join.right + join.intervals;
        self.met(Border::Records768, joins.iter().any(|join| records(join) == 3 * MOST));
        // A list of 256 intervals has three components or more: only the last join can take two.
        let last = joins.last().filter(|_| structure.last() == Some(&SHARED));
        self.met(Border::Shared256, last.is_some_and(|join| join.left == MOST && join.right == MOST));
        self.met(Border::Behind256, joins.iter().any(|join| join.below >= MOST));
        self.met(Border::Stack6, structure.iter().take_while(|entry| leaf(entry)).count() == COMPONENTS);
        // For each join but the last whether a component's list comes next.
        let next = structure.windows(2).filter(|pair| !leaf(&pair[0])).map(|pair| leaf(&pair[1]));
        let before_leaf: Vec<&Join> = joins.iter().zip(next).filter_map(|(join, leaf)| leaf.then_some(join)).collect();
        let any = |found: fn(&Join) -> bool| before_leaf.iter().any(|join| found(join));
        self.met(Border::LeafBehind256, any(|join| join.intervals == MOST));
        self.met(Border::LeafBehindLonger, any(|join| join.intervals > join.left + join.right));
        self.met(Border::LeafBehindShorter, any(|join| join.intervals < join.left));
    }

    fn of_rests(&mut self, plan: &Plan) {
        let rest = |found: fn(&Component) -> bool| {
            plan.used().iter().any(|component| component.rest() > 0 && found(component))
        };
        self.met(Border::RestNone, !plan.has_rest());
        self.met(Border::Rest1, rest(|component| component.rest() == 1));
        self.met(Border::Rest999, rest(|component| component.rest() == 999));
        self.met(Border::RestNinth, rest(|component| component.used().len() == INTERVALS && !lists_whole(component)));
        self.met(Border::RestListed, rest(lists_whole));
    }

    /// What makes the list's order matter.
    fn of_list(&mut self, run: &Run) {
        let neighbours = |found: fn(&Focal, &Focal) -> bool| run.list.windows(2).any(|pair| found(&pair[0], &pair[1]));
        self.met(Border::ListLows, neighbours(|one, next| one.low == next.low));
        self.met(Border::ListHighs, neighbours(|one, next| one.high == next.high));
        self.met(Border::ListInside, neighbours(|one, next| one.low > next.low && one.high < next.high));
        if let [component] = run.plan.used() {
            let between = run.list[0].low > 0 && run.list[run.list.len() - 1].high < TOP_SPEED.into();
            self.met(Border::ListOfOne, run.list.len() > 1);
            self.met(Border::RestBetween, component.rest() > 0 && !lists_whole(component) && between);
        }
    }

    /// Demands at a low, one above a low, at a high, and one above a high of the drive's list.
    fn of_demands(&mut self, list: &[Focal], demands: &[u32], at: [Border; 4]) {
        let [low, above_low, high, above_high] = at;
        let any = |end: fn(&Focal) -> u32| list.iter().map(end).any(|end| demands.contains(&end));
        self.met(low, any(|focal| focal.low));
        self.met(above_low, any(|focal| focal.low + 1));
        self.met(high, any(|focal| focal.high));
        self.met(above_high, any(|focal| focal.high + 1));
    }

    fn of_speed(&mut self, run: &Run, target: u32, speed: u32) {
        let lows = || run.list.iter().map(|focal| focal.low);
        let over = |low: u32| run.over(run.belief(low), target);
        let large = run.total > u64::MAX / 1_000; // 1,000 times the total does not fit 64 bits
        let met = over(speed);
        self.met(Border::TargetExact, met == 0 && target < TOP_TARGET);
        self.met(Border::TargetOver, large && 0 < met && met < 1_000);
        // Of the faster lows the next misses the target least.
        if let Some(missed) = lows().filter(|low| *low > speed).min().map(over) {
            self.met(Border::TargetRounded, missed > -1_000);
            self.met(Border::TargetUnder, large && missed > -1_000);
        }
        self.met(Border::SpeedZero, speed == 0);
        self.met(Border::SpeedShared, lows().filter(|low| *low == speed).count() > 1);
        let (first, last) = (lows().next(), lows().last());
        self.met(Border::SpeedFirst, first != last && first == Some(speed));
        self.met(Border::SpeedLast, first != last && last == Some(speed));
    }

    /// A call of drive_write_sheet on a plan whose sheet needs `needed` bytes.
    pub fn of_write(&mut self, plan: &Plan, needed: usize, given: usize, room: usize, answer: usize, number: u32) {
        self.of_plan_buffer(given, number);
        self.met(Border::Room, number == 0 && room == needed);
        self.met(Border::RoomLess, number == 15 && room + 1 == needed);
        self.met(Border::Length, number == 0 && answer == LENGTH_BYTES);
        self.met(Border::LengthLess, number == 12 && answer + 1 == LENGTH_BYTES);
        self.met(Border::PlanDescending, number == 7 && rules::of_plan(&plan.turned()) == 0);
        self.met(Border::PlanSumAbove, number == 8 && plan.used().iter().all(one_above));
        self.met(Border::PlanSumLowBits, number == 8 && plan.used().iter().all(low_bits_right));
        self.met(Border::LowBytes, matches!(number, 3 | 4 | 9) && rules::of_plan(&low_bytes(plan)) == 0);
    }

    pub fn of_plan_buffer(&mut self, length: usize, number: u32) {
        self.met(Border::Plan, number == 0 && length == PLAN_BYTES);
        self.met(Border::PlanLess, number == 12 && length + 1 == PLAN_BYTES);
    }
}

/// Whether the block has the interval that a rest counts as.
fn lists_whole(component: &Component) -> bool {
    component.used().iter().any(|interval| interval.ends() == WHOLE)
}

/// Whether the weights exceed T by one at most.
fn one_above(component: &Component) -> bool {
    component.sum() <= u32::from(component.total) + 1
}

/// Whether a sum of 16 bits would not exceed T.
fn low_bits_right(component: &Component) -> bool {
    component.sum() & 65_535 <= component.total.into()
}

/// The plan with only the low bytes of n, of each k and of the entries.
fn low_bytes(plan: &Plan) -> Plan {
    let mut low = *plan;
    low.count &= 255;
    low.components.iter_mut().for_each(|component| component.count &= 255);
    low.entries.iter_mut().for_each(|entry| *entry &= 255);
    low
}
