//! How often each number and each border was met, and whether that is often enough.

use crate::borders::Borders;

pub const CALLS: [&str; 5] = ["drive_bounds", "drive_set", "drive_speed", "drive_write_sheet", "drive_read_sheet"];
pub const BOUNDS: usize = 0;
pub const SET: usize = 1;
pub const SPEED: usize = 2;
pub const WRITE: usize = 3;
pub const READ: usize = 4;

/// The last number.
pub const LAST: usize = 18;

/// The numbers that each call can return.
const POSSIBLE: [&[usize]; CALLS.len()] = [
    &[0, 1, 2, 3, 4, 5, 6, 7, 8, 9, 10, 11, 12, 13, 14],
    &[0, 1, 2, 3, 4, 5, 6, 7, 8, 9, 10, 11, 12, 13, 14, 17, 18],
    &[0, 1, 2, 3, 4, 5, 6, 7, 8, 9, 10, 11, 12, 13, 14, 16],
    &[0, 3, 4, 6, 7, 8, 9, 10, 11, 12, 15],
    &[0, 1, 2, 3, 4, 5, 6, 7, 8, 9, 10, 11, 12],
];

/// Runs of this many cases or more have to meet each number of each call once in 1,000 cases, and each border once in
/// 20,000. Shorter runs may miss some by chance.
const ASKED_FROM: u64 = 1_000_000;

#[derive(Default)]
pub struct Tally {
    pub cases: u64,
    numbers: [[u64; LAST + 1]; CALLS.len()],
    pub borders: Borders,
}

impl Tally {
    pub fn number(&mut self, call: usize, number: u32) {
        self.numbers[call][number as usize] += 1;
    }

    pub fn add(&mut self, other: &Tally) {
        self.cases += other.cases;
        for (mine, theirs) in self.numbers.iter_mut().flatten().zip(other.numbers.iter().flatten()) {
            *mine += theirs;
        }
        self.borders.add(&other.borders);
    }

    pub fn calls(&self) -> u64 {
        self.numbers.iter().flatten().sum()
    }

    /// Each call and number that it can return, and how often it did.
    fn met(&self) -> impl Iterator<Item = (usize, usize, u64)> + '_ {
        let pairs = POSSIBLE.iter().enumerate().flat_map(|(call, all)| all.iter().map(move |number| (call, *number)));
        pairs.map(|(call, number)| (call, number, self.numbers[call][number]))
    }

    /// How often the number that was met least was met.
    pub fn least(&self) -> u64 {
        self.met().map(|(_, _, met)| met).min().unwrap_or(0)
    }

    pub fn table(&self) -> String {
        let line = |head: &str, cells: [String; CALLS.len()]| {
            let cells = cells.map(|cell| format!(" {cell:>20}")).concat();
            format!("{head:>6}{cells}\n")
        };
        let mut text = line("number", CALLS.map(String::from));
        for number in 0..=LAST {
            let cell = |call: usize| match POSSIBLE[call].contains(&number) {
                true => grouped(self.numbers[call][number]),
                false => "-".to_string(),
            };
            text += &line(&number.to_string(), std::array::from_fn(cell));
        }
        for (words, met) in self.borders.all() {
            text += &format!("{:>12}  {words}\n", grouped(met));
        }
        text
    }

    /// What was met too seldom.
    pub fn missed(&self) -> Vec<String> {
        if self.cases < ASKED_FROM {
            return Vec::new();
        }
        let numbers = self.met().filter(|(_, _, met)| *met < self.cases / 1_000);
        let borders = self.borders.all().filter(|(_, met)| *met < self.cases / 20_000);
        numbers
            .map(|(call, number, _)| format!("number {number} of {}", CALLS[call]))
            .chain(borders.map(|(words, _)| words.to_string()))
            .collect()
    }
}

/// A number with commas: 1,000,000.
pub fn grouped(number: u64) -> String {
    let digits = number.to_string();
    let mut text = String::new();
    for (place, digit) in digits.chars().enumerate() {
        if place > 0 && (digits.len() - place) % 3 == 0 {
            text.push(',');
        }
        text.push(digit);
    }
    text
}
