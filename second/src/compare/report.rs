//! Named tests: each prints one line, and the last line says how many passed and failed.

use std::panic::{catch_unwind, AssertUnwindSafe};
use std::process::ExitCode;
use std::sync::atomic::{AtomicBool, AtomicUsize, Ordering};
use std::time::Instant;

/// What a test gives: what was compared, or the first difference.
pub type Outcome = Result<String, String>;

/// The tests run so far.
#[derive(Default)]
pub struct Report {
    passed: usize,
    failed: usize,
}

impl Report {
    /// Runs one test and prints its line.
    pub fn test(&mut self, name: &str, body: impl FnOnce() -> Outcome) {
        let start = Instant::now();
        // A panic is a failure too, and the tests after it still run.
        let outcome = catch_unwind(AssertUnwindSafe(body)).unwrap_or_else(|_| Err("it ended in a panic, shown on standard error".to_string()));
        let seconds = start.elapsed().as_secs_f64();
        match outcome {
            Ok(compared) => {
                self.passed += 1;
                println!("{name}: {compared} ({seconds:.1} s)");
            }
            Err(difference) => {
                self.failed += 1;
                println!("{name}: FAILED: {difference}");
            }
        }
    }

    /// Prints the last line. The exit status is 1 if a test failed, or if there were fewer tests than there should be.
    pub fn end(self, tests: usize) -> ExitCode {
        let missing = tests.saturating_sub(self.passed + self.failed);
        println!("{} passed, {} failed", self.passed, self.failed + missing);
        if self.failed + missing == 0 {
            ExitCode::SUCCESS
        } else {
            ExitCode::FAILURE
        }
    }
}

/// Goes through cases 0 to `cases` − 1 in two threads, and adds up what each compared. The first difference is that of the lowest case.
pub fn in_two_threads(cases: usize, body: impl Fn(usize) -> Result<usize, String> + Sync) -> Result<usize, String> {
    let next = AtomicUsize::new(0);
    let failed = AtomicBool::new(false);
    let worker = || {
        let mut compared = 0;
        // Cases are handed out in rising order and each one begun is ended, so the lowest difference is always among those found.
        while !failed.load(Ordering::SeqCst) {
            let case = next.fetch_add(1, Ordering::SeqCst);
            if case >= cases {
                break;
            }
            match body(case) {
                Ok(count) => compared += count,
                Err(difference) => {
                    failed.store(true, Ordering::SeqCst);
                    return Err((case, difference));
                }
            }
        }
        Ok(compared)
    };
    let (first, second) = std::thread::scope(|scope| {
        let other = scope.spawn(worker);
        let here = worker();
        (here, other.join().expect("the other thread ended"))
    });
    match (first, second) {
        (Ok(first), Ok(second)) => Ok(first + second),
        (Err((_, difference)), Ok(_)) | (Ok(_), Err((_, difference))) => Err(difference),
        (Err(first), Err(second)) => Err(if first.0 < second.0 { first.1 } else { second.1 }),
    }
}

/// Fails a test that compared another number of cases than it should.
pub fn count(what: &str, should: usize, compared: usize) -> Result<(), String> {
    if compared == should {
        return Ok(());
    }
    Err(format!("{what}: {should} should have been compared, {compared} were"))
}

/// Fails at the first byte that isn't as expected.
pub fn same_bytes(what: &str, expected: &[u8], got: &[u8]) -> Result<(), String> {
    if expected.len() != got.len() {
        return Err(format!("{what}: expected {} bytes, got {}", expected.len(), got.len()));
    }
    for (place, (expected, got)) in expected.iter().zip(got).enumerate() {
        if expected != got {
            return Err(format!("{what}: byte {place}: expected {expected}, got {got}"));
        }
    }
    Ok(())
}

/// Fails if two answers differ.
pub fn same<Value: PartialEq + std::fmt::Debug>(what: &str, expected: Value, got: Value) -> Result<(), String> {
    if expected == got {
        return Ok(());
    }
    Err(format!("{what}: expected {expected:?}, got {got:?}"))
}
