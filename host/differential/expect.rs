//! What each call has to return, and what it has to leave at the front of each buffer. `None` stands for a buffer that
//! stays as it was; the bytes behind always do.

use crate::choices::Run;
use crate::plan::{Plan, PLAN_BYTES};
use crate::sheet;

/// What the list buffer needs: 768 records.
pub const LIST_BYTES: usize = 9_216;
/// The writer's answer: the sheet's length.
pub const LENGTH_BYTES: usize = 8;

/// The greatest target: 1,000 thousandths.
pub const TOP_TARGET: u32 = 1_000;

/// The bytes of a demand of a set.
pub const DEMAND_BYTES: usize = 4;
/// The most demands of a set.
pub const MOST_DEMANDS: usize = 16;
/// What the shares' buffer needs for each demand: belief and plausibility.
pub const SHARES_BYTES: usize = 16;

/// What is asked about a drive: its shares at a demand (drive_bounds) or at each demand of a set (drive_set), or the
/// speed for a target (drive_speed).
pub enum Asked {
    Demand(u32),
    Set(Set),
    Target(u32),
}

impl Asked {
    /// The bytes that the answer buffer needs: drive_set writes the shares elsewhere, drive_speed the speed behind what
    /// drive_bounds writes.
    pub fn answer_bytes(&self) -> usize {
        match self {
            Asked::Demand(_) => 40,
            Asked::Set(_) => 24,
            Asked::Target(_) => 48,
        }
    }

    /// The number that refuses this, whatever the sheet: 16, 17 or 18; 0 where there is none.
    pub fn number(&self) -> u32 {
        match self {
            Asked::Set(set) if set.wrong() => 17,
            Asked::Set(set) if set.short() => 18,
            Asked::Target(target) if !right_target(*target) => 16,
            _ => 0,
        }
    }
}

/// Whether this is a target that number 16 does not refuse.
pub fn right_target(target: u32) -> bool {
    (1..=TOP_TARGET).contains(&target)
}

/// Whether this is a length of the demands that number 17 does not refuse.
pub fn right_length(length: usize) -> bool {
    length % DEMAND_BYTES == 0 && (1..=MOST_DEMANDS).contains(&(length / DEMAND_BYTES))
}

/// What only drive_set gets: the demands, bytes in any number, and a shares' buffer of this length.
pub struct Set {
    pub demands: Vec<u8>,
    pub shares: usize,
}

impl Set {
    /// The demands as values; bytes behind the last whole one are left out.
    pub fn values(&self) -> Vec<u32> {
        let four = |bytes: &[u8]| u32::from_be_bytes([bytes[0], bytes[1], bytes[2], bytes[3]]);
        self.demands.chunks_exact(DEMAND_BYTES).map(four).collect()
    }

    /// What the shares' buffer needs, as far as the demands are whole.
    pub fn needed(&self) -> usize {
        SHARES_BYTES * (self.demands.len() / DEMAND_BYTES)
    }

    /// Whether number 17 refuses the demands.
    pub fn wrong(&self) -> bool {
        !right_length(self.demands.len())
    }

    /// Whether the shares' buffer has fewer bytes than it needs: number 18, unless 17 comes before.
    pub fn short(&self) -> bool {
        self.shares < self.needed()
    }
}

/// What is put to drive_bounds, drive_set or drive_speed with a sheet: what is asked, the allowance, and the lengths of
/// the buffers that all three have.
pub struct Question {
    pub asked: Asked,
    pub allowance: u32,
    pub list: usize,
    pub answer: usize,
}

impl Question {
    pub fn short_list(&self) -> bool {
        self.list < LIST_BYTES
    }

    pub fn short_answer(&self) -> bool {
        self.answer < self.asked.answer_bytes()
    }
}

/// The shares at a demand, or at the speed for a target.
#[derive(Clone, Copy, Default)]
pub struct Shares {
    pub demand: u32,
    pub belief: u64,
    pub plausibility: u64,
}

/// What an accepted call answers; after a refusal zeros and no shares.
#[derive(Default)]
pub struct Answers {
    pub total: u64,
    pub pairs: u64,
    pub intervals: u64,
    /// In the order asked; a demand or a target has one.
    pub shares: Vec<Shares>,
}

impl Answers {
    fn of(run: &Run, asked: &Asked) -> Answers {
        let demands = match asked {
            Asked::Demand(demand) => vec![*demand],
            Asked::Set(set) => set.values(),
            Asked::Target(target) => vec![run.speed(*target)],
        };
        let at = |demand: u32| Shares { demand, belief: run.belief(demand), plausibility: run.plausibility(demand) };
        let (total, pairs, intervals) = (run.total, run.pairs(), run.list.len() as u64);
        Answers { total, pairs, intervals, shares: demands.into_iter().map(at).collect() }
    }

    /// The first shares; zeros where there are none.
    pub fn first(&self) -> Shares {
        self.shares.first().copied().unwrap_or_default()
    }

    /// What the answer buffer gets.
    fn answer(&self, asked: &Asked) -> Vec<u8> {
        let Answers { total, pairs, intervals, .. } = *self;
        let Shares { demand, belief, plausibility } = self.first();
        match asked {
            Asked::Demand(_) => bytes(&[total, belief, plausibility, pairs, intervals]),
            Asked::Set(_) => bytes(&[total, pairs, intervals]),
            Asked::Target(_) => bytes(&[total, belief, plausibility, pairs, intervals, demand.into()]),
        }
    }

    /// What the shares' buffer gets.
    fn shares(&self) -> Vec<u8> {
        self.shares.iter().flat_map(|shares| bytes(&[shares.belief, shares.plausibility])).collect()
    }
}

fn bytes(numbers: &[u64]) -> Vec<u8> {
    numbers.iter().flat_map(|number| number.to_be_bytes()).collect()
}

pub struct Reply {
    pub number: u32,
    pub answers: Answers,
    pub answer: Option<Vec<u8>>,
    pub list: Option<Vec<u8>>,
    /// Of drive_set; the other two are not lent the shares' buffer.
    pub shares: Option<Vec<u8>>,
}

/// drive_bounds, drive_set or drive_speed on a sheet with this run, or with this number.
pub fn reply(run: &Result<Run, u32>, question: &Question) -> Reply {
    let asked = &question.asked;
    let mut expected = Reply { number: 0, answers: Answers::default(), answer: None, list: None, shares: None };
    match run {
        Err(number) => expected.number = *number,
        Ok(_) if question.short_list() || question.short_answer() => expected.number = 12,
        Ok(_) if asked.number() != 0 => expected.number = asked.number(),
        Ok(run) => {
            expected.number = run.number(question.allowance);
            expected.list = Some(vec![0; LIST_BYTES]);
            if expected.number == 0 {
                expected.answers = Answers::of(run, asked);
                expected.list = Some(records(run));
                expected.shares = matches!(asked, Asked::Set(_)).then(|| expected.answers.shares());
            }
        }
    }
    expected.answer = (!question.short_answer()).then(|| expected.answers.answer(asked));
    expected
}

/// The drive's list in records of 12 bytes, then zero.
fn records(run: &Run) -> Vec<u8> {
    let mut bytes = vec![0; LIST_BYTES];
    for (record, focal) in bytes.chunks_mut(12).zip(&run.list) {
        record[..2].copy_from_slice(&(focal.low as u16).to_be_bytes());
        record[2..4].copy_from_slice(&(focal.high as u16).to_be_bytes());
        record[4..].copy_from_slice(&focal.weight.to_be_bytes());
    }
    bytes
}

pub struct Write {
    pub number: u32,
    pub sheet: Option<Vec<u8>>,
    pub answer: Option<[u8; LENGTH_BYTES]>,
}

/// drive_write_sheet on a plan in a buffer of `given` bytes, for a sheet buffer of `room` bytes and an answer buffer of
/// `answer` bytes.
pub fn write(plan: &Plan, given: usize, room: usize, answer: usize) -> Write {
    let unchanged = |number: u32| Write { number, sheet: None, answer: None };
    if given < PLAN_BYTES {
        return unchanged(12);
    }
    let long_enough = answer >= LENGTH_BYTES;
    match sheet::write(plan, room) {
        Ok(_) | Err(15) if !long_enough => unchanged(12),
        Ok(sheet) => Write { number: 0, answer: Some((sheet.len() as u64).to_be_bytes()), sheet: Some(sheet) },
        Err(number) => Write { number, sheet: None, answer: long_enough.then_some([0; LENGTH_BYTES]) },
    }
}

pub struct Read {
    pub number: u32,
    pub plan: Option<Vec<u8>>,
}

/// drive_read_sheet on a sheet, for a plan buffer of `room` bytes.
pub fn read(sheet: &[u8], room: usize) -> Read {
    let read = sheet::read(sheet);
    let number = match read {
        Err(number) => number,
        Ok(_) if room < PLAN_BYTES => 12,
        Ok(_) => 0,
    };
    Read { number, plan: (room >= PLAN_BYTES).then(|| read.unwrap_or_default().bytes()) }
}
