//! Compares the library's five calls with a second library, written from the requirement, on random inputs.
//!
//!     differential [CASES] [SEED] [FIRST] [THREADS]
//!
//! CASES (1,000,000 if not given) are numbered from FIRST (0) on. A case depends on its number and the SEED (taken from
//! the clock if not given) and on nothing else. THREADS (one for each core) take them in order: with one thread the first
//! case that is reported is the first that differs. Exit status: 0 where nothing differed and every number was met often
//! enough, 1 where not, 2 for a wrong argument.
//!
//! The second library is in plan, rules, sheet and choices; what each call has to return and to leave is in expect.
//! What is put to the calls comes from cases, valid and damage; call, buffer and compare put it to them.

mod borders;
mod buffer;
mod call;
mod cases;
mod choices;
mod compare;
mod damage;
mod expect;
mod plan;
mod random;
mod rules;
mod sheet;
mod tally;
mod valid;

use std::io::{self, IsTerminal, Write};
use std::process::ExitCode;
use std::sync::atomic::{AtomicU64, Ordering::Relaxed};
use std::sync::Mutex;
use std::thread::{self, ScopedJoinHandle};
use std::time::{Duration, Instant, SystemTime, UNIX_EPOCH};

use compare::Comparison;
use tally::{grouped, Tally, LAST};

/// The cases that a thread takes at a time.
const SHARE: u64 = 500;
/// The differences after which a run stops.
const ENOUGH: usize = 10;

struct Work {
    cases: u64,
    seed: u64,
    first: u64,
    threads: u64,
    taken: AtomicU64,
    done: AtomicU64,
    differences: Mutex<Vec<(u64, String)>>,
}

impl Work {
    /// Every case but those that another thread takes.
    fn run(&self) -> Tally {
        let mut comparison = Comparison::default();
        loop {
            let start = self.taken.fetch_add(SHARE, Relaxed);
            if start >= self.cases {
                return comparison.tally;
            }
            let end = (start + SHARE).min(self.cases);
            for case in self.first + start..self.first + end {
                if let Err(what) = comparison.case(self.seed, case) {
                    self.differences.lock().unwrap().push((case, what));
                }
                if self.stopped() {
                    return comparison.tally;
                }
            }
            self.done.fetch_add(end - start, Relaxed);
        }
    }

    fn stopped(&self) -> bool {
        self.differences.lock().unwrap().len() >= ENOUGH
    }

    /// One line on a terminal, rewritten about once a second.
    fn show_progress(&self, started: Instant, threads: &[ScopedJoinHandle<Tally>]) {
        let running = || threads.iter().any(|thread| !thread.is_finished());
        while running() {
            let done = self.done.load(Relaxed);
            let rate = (done as f64 / started.elapsed().as_secs_f64()) as u64;
            let (done, cases, rate) = (grouped(done), grouped(self.cases), grouped(rate));
            eprint!("\rdifferential: {done} of {cases} cases, {rate} a second ");
            let _ = io::stderr().flush();
            let next = Instant::now() + Duration::from_secs(1);
            while running() && Instant::now() < next {
                thread::sleep(Duration::from_millis(20));
            }
        }
        eprint!("\r{:70}\r", "");
    }

    fn report(&self, tally: &Tally, time: Duration) -> ExitCode {
        let mut differences = self.differences.lock().unwrap();
        differences.sort();
        for (case, what) in differences.iter() {
            println!("case {case}: {what}\n  again: host/differential/run 1 {} {case}", self.seed);
        }
        let (cases, seed) = (grouped(tally.cases), self.seed);
        if !differences.is_empty() {
            println!("FAILED differential: {} differences in {cases} cases, seed {seed}", differences.len());
            return ExitCode::FAILURE;
        }
        print!("{}", tally.table());
        let missed = tally.missed();
        if !missed.is_empty() {
            println!("FAILED differential: met too seldom in {cases} cases, seed {seed}: {}", missed.join("; "));
            return ExitCode::FAILURE;
        }
        let (calls, least, seconds) = (grouped(tally.calls()), grouped(tally.least()), time.as_secs_f64());
        println!(
            "ok differential: {cases} cases ({calls} calls, {seconds:.1} s), seed {seed}, \
             numbers 0 to {LAST} met at least {least} times"
        );
        ExitCode::SUCCESS
    }
}

/// The work that the arguments ask for.
fn work() -> Option<Work> {
    let numbers: Vec<u64> = std::env::args().skip(1).map(|word| word.parse().ok()).collect::<Option<_>>()?;
    let clock = SystemTime::now().duration_since(UNIX_EPOCH).map_or(0, |time| time.as_nanos() as u64);
    let get = |place: usize, otherwise: u64| numbers.get(place).copied().unwrap_or(otherwise);
    let (cases, seed, first) = (get(0, 1_000_000), get(1, clock), get(2, 0));
    let threads = get(3, thread::available_parallelism().map_or(2, usize::from) as u64);
    let fits = numbers.len() <= 4 && first.checked_add(cases).is_some() && threads > 0;
    let (taken, done, differences) = Default::default();
    fits.then_some(Work { cases, seed, first, threads, taken, done, differences })
}

fn main() -> ExitCode {
    let Some(work) = work() else {
        eprintln!("differential: the arguments are [CASES] [SEED] [FIRST] [THREADS], each a number");
        return ExitCode::from(2);
    };
    println!("differential: {} cases, seed {}, threads {}", grouped(work.cases), work.seed, work.threads);
    let started = Instant::now();
    let mut tally = Tally::default();
    thread::scope(|scope| {
        let threads: Vec<_> = (0..work.threads).map(|_| scope.spawn(|| work.run())).collect();
        if io::stderr().is_terminal() {
            work.show_progress(started, &threads);
        }
        for thread in threads {
            tally.add(&thread.join().expect("no panic in a case"));
        }
    });
    work.report(&tally, started.elapsed())
}
