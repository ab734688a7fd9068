//! Runs numbered cases on two threads. Each case has its own seed, so one that fails can be run alone. Three environment
//! variables choose what runs: `PHD_SEED` is the base seed, `PHD_CASE` the number of a single case, `PHD_CASES` how many run.

use crate::coverage::Coverage;
use crate::rng::{seed_of, Rng};
use std::panic::{catch_unwind, AssertUnwindSafe};
use std::sync::atomic::{AtomicBool, Ordering};

const BASE_SEED: u64 = 0x5048_4400_0000_0001;
const THREADS: u64 = 2;

/// One case: its random numbers, and the counts of what it covered.
pub struct Case<'a> {
    pub rng: Rng,
    pub coverage: &'a mut Coverage,
}

/// A kind of case: its name, its share in percent, and its test.
pub struct Kind {
    pub name: &'static str,
    pub share: u64,
    pub run: fn(&mut Case) -> Result<(), String>,
}

impl Kind {
    pub const fn new(
        name: &'static str,
        share: u64,
        run: fn(&mut Case) -> Result<(), String>,
    ) -> Kind {
        Kind { name, share, run }
    }
}

/// A whole run.
struct Plan<'a> {
    test: &'a str,
    kinds: &'a [Kind],
    base: u64,
    failed: AtomicBool,
}

/// Returns the number in an environment variable.
fn setting(name: &str) -> Option<u64> {
    let text = std::env::var(name).ok()?;
    let number = match text.strip_prefix("0x") {
        Some(digits) => u64::from_str_radix(digits, 16),
        None => text.parse(),
    };
    Some(number.unwrap_or_else(|_| panic!("{name} is not a number: {text}")))
}

/// Runs the cases of a test. Returns the coverage, or nothing if only a single case ran. Panics if a case fails.
pub fn run(test: &str, kinds: &[Kind], cases: u64) -> Option<Coverage> {
    let plan = Plan {
        test,
        kinds,
        base: setting("PHD_SEED").unwrap_or(BASE_SEED),
        failed: AtomicBool::new(false),
    };
    if let Some(number) = setting("PHD_CASE") {
        let result = plan.case(number, &mut Coverage::default());
        assert!(result.is_ok(), "{}", result.unwrap_err());
        return None;
    }
    let cases = setting("PHD_CASES").unwrap_or(cases);
    let (mut whole, mut failures) = (Coverage::default(), Vec::new());
    for (coverage, failure) in plan.threads(cases) {
        whole.merge(coverage);
        failures.extend(failure);
    }
    whole.print(test);
    assert!(failures.is_empty(), "{}", failures.join("\n\n"));
    Some(whole)
}

impl Plan<'_> {
    /// Runs the cases on all threads, each up to its first failure.
    fn threads(&self, cases: u64) -> Vec<(Coverage, Option<String>)> {
        std::thread::scope(|scope| {
            let start = |first| scope.spawn(move || self.share(first, cases));
            let started: Vec<_> = (0..THREADS).map(start).collect();
            let done = started.into_iter().map(|thread| thread.join());
            done.map(|left| left.expect("a thread of cases ends"))
                .collect()
        })
    }

    /// Runs the cases of one thread.
    fn share(&self, first: u64, cases: u64) -> (Coverage, Option<String>) {
        let mut coverage = Coverage::default();
        for number in (first..cases).step_by(THREADS as usize) {
            if self.failed.load(Ordering::Relaxed) {
                break;
            }
            if let Err(error) = self.case(number, &mut coverage) {
                self.failed.store(true, Ordering::Relaxed);
                return (coverage, Some(error));
            }
        }
        (coverage, None)
    }

    /// Runs one case. Its error message has what is needed to run it again.
    fn case(&self, number: u64, coverage: &mut Coverage) -> Result<(), String> {
        let kind = self.kind(number);
        let name: u64 = self.test.bytes().map(u64::from).sum();
        let seed = seed_of(self.base.wrapping_add(name), number);
        coverage.count_case(kind.name);
        let mut case = Case {
            rng: Rng::new(seed),
            coverage,
        };
        let done = catch_unwind(AssertUnwindSafe(|| (kind.run)(&mut case)));
        let error = match done {
            Ok(Ok(())) => return Ok(()),
            Ok(Err(error)) => error,
            Err(_) => "the case panicked".to_string(),
        };
        let (test, base, name) = (self.test, self.base, kind.name);
        let again = format!(
            "PHD_SEED={base:#x} PHD_CASE={number} cargo test --release --test differential {test}"
        );
        Err(format!(
            "{test}, case {number} ({name}), seed {seed:#018x}: {error}\nagain: {again}"
        ))
    }

    /// Returns the kind of a case, which depends only on its number.
    fn kind(&self, number: u64) -> &Kind {
        let mut left = number % self.kinds.iter().map(|kind| kind.share).sum::<u64>();
        for kind in self.kinds {
            if left < kind.share {
                return kind;
            }
            left -= kind.share;
        }
        unreachable!("the shares add up")
    }
}
