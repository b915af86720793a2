//! One case: a call of the library, and the number and every byte that it leaves compared with what it has to leave.

use crate::borders::Border;
use crate::buffer::Buffer;
use crate::call::{self, Lent};
use crate::cases;
use crate::choices;
use crate::expect::{self, Asked, Question, Reply, Shares, DEMAND_BYTES, LENGTH_BYTES, MOST_DEMANDS};
use crate::plan::{Plan, PLAN_BYTES};
use crate::random::Random;
use crate::sheet;
use crate::tally::{Tally, BOUNDS, CALLS, READ, SET, SPEED, WRITE};

/// Nothing, or what differs and the bytes that show it.
type Outcome = Result<(), String>;

/// The buffers that are lent, and the count of what was met.
#[derive(Default)]
pub struct Comparison {
    sheet: Buffer,
    demands: Buffer,
    list: Buffer,
    shares: Buffer,
    answer: Buffer,
    plan: Buffer,
    pub tally: Tally,
}

impl Comparison {
    /// One case. After a difference the buffers begin anew, so that no later case finds it again.
    pub fn case(&mut self, seed: u64, case: u64) -> Outcome {
        self.tally.cases += 1;
        let outcome = self.drawn(&mut Random::of_case(seed, case));
        if outcome.is_err() {
            *self = Comparison { tally: std::mem::take(&mut self.tally), ..Default::default() };
        }
        outcome
    }

    fn drawn(&mut self, random: &mut Random) -> Outcome {
        match random.below(100) {
            0..=19 => self.ask(random, BOUNDS),
            20..=39 => self.ask(random, SET),
            40..=59 => self.ask(random, SPEED),
            60..=74 => {
                let plan = cases::plan(random);
                self.write(random, &plan, 10)
            }
            75..=89 => {
                let sheet = cases::sheet(random);
                self.read(random, &sheet, 15)
            }
            90..=94 => self.plan_and_back(random),
            _ => self.sheet_and_back(random),
        }
    }

    /// Asks drive_bounds, drive_set or drive_speed.
    fn ask(&mut self, random: &mut Random, call: usize) -> Outcome {
        let sheet = &cases::sheet_to_run(random)[..];
        let run = sheet::read(sheet).map(|plan| choices::run(&plan));
        let question = cases::question(random, call, run.as_ref().ok());
        let expected = expect::reply(&run, &question);
        self.sheet.lay_bytes(random, sheet, sheet.len());
        self.list.lay(random, question.list);
        self.list.expect(expected.list.as_deref());
        self.answer.lay(random, question.answer);
        self.answer.expect(expected.answer.as_deref());
        if let Asked::Set(set) = &question.asked {
            self.demands.lay_bytes(random, &set.demands, set.demands.len());
            self.shares.lay(random, set.shares);
            self.shares.expect(expected.shares.as_deref());
        }

        let null = random.chance(50);
        let lent = Lent {
            sheet: self.sheet.lent(),
            demands: self.demands.lent(),
            list: self.list.lent(),
            shares: self.shares.lent(),
            answer: self.answer.lent(),
        };
        let got = call::ask(&question.asked, question.allowance, lent, null);

        self.tally.number(call, expected.number);
        let borders = &mut self.tally.borders;
        borders.met(Border::Null, null && (sheet.is_empty() || question.list == 0 || question.answer == 0));
        if let Asked::Set(set) = &question.asked {
            borders.met(Border::SetNull, null && set.demands.is_empty());
            borders.met(Border::SharesNull, null && set.shares == 0);
        }
        borders.of_sheet(sheet, expected.number);
        borders.of_question(&question, expected.number);
        borders.of_order(&question, run.as_ref().ok(), expected.number);
        if let Ok(run) = &run {
            borders.of_run(run, &question, &expected);
        }
        self.compare(call, expected.number, got)
            .map_err(|what| format!("{what}\n{}", shown(sheet, &question, &expected)))
    }

    /// Writes a plan; each buffer is too short in `short` percent, the sheet buffer in twice as many.
    fn write(&mut self, random: &mut Random, plan: &Plan, short: usize) -> Outcome {
        let needed = sheet::write(plan, usize::MAX).map_or(random.between(1, 224), |sheet| sheet.len());
        let given = cases::length(random, PLAN_BYTES, short);
        let room = cases::length(random, needed, 2 * short);
        let answer = cases::length(random, LENGTH_BYTES, short);
        let expected = expect::write(plan, given, room, answer);
        self.plan.lay_bytes(random, &plan.bytes(), given);
        self.sheet.lay(random, room);
        self.sheet.expect(expected.sheet.as_deref());
        self.answer.lay(random, answer);
        self.answer.expect(expected.answer.as_ref().map(|bytes| &bytes[..]));

        let null = random.chance(50);
        let got = call::write_sheet(self.plan.lent(), self.sheet.lent(), self.answer.lent(), null);

        self.tally.number(WRITE, expected.number);
        self.tally.borders.met(Border::Null, null && (given == 0 || room == 0 || answer == 0));
        self.tally.borders.of_write(plan, needed, given, room, answer, expected.number);
        self.compare(WRITE, expected.number, got).map_err(|what| {
            let bytes = hex(&plan.bytes());
            format!("{what}\n  buffers of {given} (plan), {room} (sheet), {answer} (answer) bytes\n  plan {bytes}")
        })
    }

    /// Reads a sheet; the plan buffer is too short in `short` percent.
    fn read(&mut self, random: &mut Random, sheet: &[u8], short: usize) -> Outcome {
        let room = cases::length(random, PLAN_BYTES, short);
        let expected = expect::read(sheet, room);
        self.sheet.lay_bytes(random, sheet, sheet.len());
        self.plan.lay(random, room);
        self.plan.expect(expected.plan.as_deref());

        let null = random.chance(50);
        let got = call::read_sheet(self.sheet.lent(), self.plan.lent(), null);

        self.tally.number(READ, expected.number);
        self.tally.borders.met(Border::Null, null && (sheet.is_empty() || room == 0));
        self.tally.borders.of_sheet(sheet, expected.number);
        self.tally.borders.of_plan_buffer(room, expected.number);
        self.compare(READ, expected.number, got)
            .map_err(|what| format!("{what}\n  plan buffer of {room} bytes\n  sheet {}", hex(sheet)))
    }

    /// What the library wrote of a plan, it reads as that plan with zero in the unused places.
    fn plan_and_back(&mut self, random: &mut Random) -> Outcome {
        let plan = cases::valid_plan(random);
        self.write(random, &plan, 0)?;
        let length = self.answer.lent()[..LENGTH_BYTES].iter().fold(0, |length, byte| length << 8 | usize::from(*byte));
        let sheet = self.sheet.lent()[..length].to_vec();
        self.read(random, &sheet, 0)?;
        self.tally.borders.met(Border::PlanBack, true);
        self.tally.borders.met(Border::PlanBackRest, plan.has_rest());
        match self.plan.lent()[..PLAN_BYTES] == plan.cleaned().bytes() {
            true => Ok(()),
            false => Err(format!("a plan that was written reads as another\n  plan {}", hex(&plan.bytes()))),
        }
    }

    /// What the library read of a sheet, it writes as that sheet.
    fn sheet_and_back(&mut self, random: &mut Random) -> Outcome {
        let sheet = cases::valid_sheet(random);
        self.read(random, &sheet, 0)?;
        let plan = Plan::of_bytes(self.plan.lent());
        self.write(random, &plan, 0)?;
        self.tally.borders.met(Border::SheetBack, true);
        self.tally.borders.met(Border::SheetBackRest, plan.has_rest());
        match self.sheet.lent()[..sheet.len()] == sheet {
            true => Ok(()),
            false => Err(format!("a sheet that was read is written as another\n  sheet {}", hex(&sheet))),
        }
    }

    /// The number returned and all bytes of all buffers: guards, and buffers that are only read or were not lent, too.
    fn compare(&self, call: usize, number: u32, got: u32) -> Outcome {
        let mut differences = Vec::new();
        if got != number {
            differences.push(format!("returns {got}, expected {number}"));
        }
        let buffers = [
            ("sheet", &self.sheet),
            ("demands'", &self.demands),
            ("list", &self.list),
            ("shares'", &self.shares),
            ("answer", &self.answer),
            ("plan", &self.plan),
        ];
        differences.extend(buffers.iter().filter_map(|(name, buffer)| buffer.difference(name)));
        if differences.is_empty() {
            Ok(())
        } else {
            Err(format!("{}: {}", CALLS[call], differences.join("; ")))
        }
    }
}

/// A case of drive_bounds, drive_set or drive_speed: what was put to it, the command that puts it to the program, and
/// the first line that this has to print where the buffers are long enough. The program knows neither a set nor a
/// target: for drive_set it gets the first demand, for drive_speed the speed expected as its demand, and it never
/// answers 16, 17 or 18.
fn shown(sheet: &[u8], question: &Question, expected: &Reply) -> String {
    let Question { asked, allowance, list, answer } = question;
    let answers = &expected.answers;
    let (total, pairs, intervals) = (answers.total, answers.pairs, answers.intervals);
    let Shares { demand: first, belief, plausibility } = answers.first();
    let (words, demand, end) = match asked {
        Asked::Demand(demand) => (format!("demand {demand}"), *demand, String::new()),
        Asked::Set(set) => {
            let (length, room) = (set.demands.len(), set.shares);
            let some = length.min(DEMAND_BYTES * (MOST_DEMANDS + 1));
            let (bytes, more) = (hex(&set.demands[..some]), if some < length { "..." } else { "" });
            let pair = |shares: &Shares| format!("{} {}", shares.belief, shares.plausibility);
            let pairs: Vec<String> = answers.shares.iter().map(pair).collect();
            (
                format!("demands {bytes}{more} ({length} bytes), a shares' buffer of {room} bytes"),
                set.values().first().copied().unwrap_or(0),
                format!(" at the first demand\n  expected: shares [{}]", pairs.join(", ")),
            )
        }
        Asked::Target(target) => {
            (format!("target {target}"), first, format!(" speed {first}, the demand in the command"))
        }
    };
    let input = [&demand.to_be_bytes()[..], &allowance.to_be_bytes(), sheet].concat();
    let escaped: String = input.iter().map(|byte| format!("\\x{byte:02x}")).collect();
    format!(
        "  {words}, allowance {allowance}, buffers of {} (sheet), {list} (list), {answer} (answer) bytes\n  \
         printf '{escaped}' | target/bin/bounds\n  \
         expected: answer {} total {total} belief {belief} plausibility {plausibility} \
         pairs {pairs} intervals {intervals}{end}",
        sheet.len(),
        expected.number
    )
}

fn hex(bytes: &[u8]) -> String {
    bytes.iter().map(|byte| format!("{byte:02x}")).collect()
}
