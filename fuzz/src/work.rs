//! The cases one after the other, and what is written of them. A call that does not return is noticed from outside.

use std::fs::{self, File};
use std::io;
use std::os::unix::fs::FileExt;
use std::panic::{catch_unwind, AssertUnwindSafe};
use std::path::PathBuf;
use std::process::ExitCode;
use std::sync::atomic::{AtomicU64, Ordering};
use std::sync::mpsc::{self, Receiver, RecvTimeoutError};
use std::sync::Arc;
use std::thread;
use std::time::{Duration, Instant};

use crate::second::Second;
use crate::tally::Tally;
use crate::{case, check, told};

/// From as many cases on every answer and every rule must have been reached.
const ALL_REACHED: u64 = 4_000;

/// A case takes some milliseconds; one that takes this long does not return.
const PATIENCE: Duration = Duration::from_secs(30);

const STACK: usize = 16 << 20;

#[derive(Clone, Copy)]
pub struct Work {
    pub count: u64,
    pub seed: u64,
    pub first: u64,
    pub every: u64,
}

/// What went wrong.
enum Finding {
    /// in this case
    Case(u64, String),
    /// by the second program's word, which it has given
    Second,
    /// before any case
    Begin(io::Error),
}

/// The folder for a case that differs, and for the number of the case at work, which stays there if the process dies.
fn folder() -> PathBuf {
    PathBuf::from(concat!(env!("CARGO_MANIFEST_DIR"), "/../target/fuzz"))
}

pub fn all(work: Work) -> ExitCode {
    let begun = Instant::now();
    let at_work = Arc::new(AtomicU64::new(work.first));
    let (sender, receiver) = mpsc::channel();
    let noted = Arc::clone(&at_work);
    let worker = thread::Builder::new().stack_size(STACK).spawn(move || {
        let _ = sender.send(cases(work, &noted));
    });
    match worker.map_err(Finding::Begin).and_then(|_| watch(&receiver, &at_work)) {
        Ok(tally) => conclude(work, &tally, begun.elapsed()),
        Err(finding) => {
            tell(work, finding);
            ExitCode::FAILURE
        }
    }
}

/// Waits for the cases, and no longer than one case may take.
fn watch(receiver: &Receiver<Result<Tally, Finding>>, at_work: &AtomicU64) -> Result<Tally, Finding> {
    let mut last = (at_work.load(Ordering::Relaxed), Instant::now());
    loop {
        let ended = receiver.recv_timeout(Duration::from_secs(1));
        let number = at_work.load(Ordering::Relaxed);
        match ended {
            Ok(ended) => return ended,
            Err(RecvTimeoutError::Disconnected) => return Err(Finding::Case(number, "the thread ended".into())),
            Err(RecvTimeoutError::Timeout) if number != last.0 => last = (number, Instant::now()),
            Err(RecvTimeoutError::Timeout) if last.1.elapsed() < PATIENCE => {}
            Err(RecvTimeoutError::Timeout) => return Err(Finding::Case(number, "a call does not return".into())),
        }
    }
}

fn conclude(work: Work, tally: &Tally, time: Duration) -> ExitCode {
    let missing = tally.missing();
    println!("{}", tally.table());
    println!("seed {}, from case {}, {:.1} seconds", work.seed, work.first, time.as_secs_f64());
    if work.count >= ALL_REACHED && !missing.is_empty() {
        println!("never reached: {}", missing.join(", "));
        return ExitCode::FAILURE;
    }
    println!("{} cases, nothing differs", tally.cases);
    ExitCode::SUCCESS
}

fn tell(work: Work, finding: Finding) {
    match finding {
        Finding::Case(number, what) => {
            let file = folder().join(format!("case-{}-{number}.json", work.seed));
            let line = catch_unwind(|| told::case(work.seed, number, &case::make(work.seed, number)));
            match line.map(|line| fs::write(&file, line)) {
                Ok(Ok(())) => println!("the case is in {}", file.display()),
                Ok(Err(error)) => println!("the case cannot be written to {}: {error}", file.display()),
                Err(_) => println!("the case cannot be made"),
            }
            println!("seed {}, case {number}: {what}", work.seed);
        }
        Finding::Second => println!("the second program differs"),
        Finding::Begin(error) => println!("the fuzzer cannot begin: {error}"),
    }
}

fn cases(work: Work, at_work: &AtomicU64) -> Result<Tally, Finding> {
    fs::create_dir_all(folder()).map_err(Finding::Begin)?;
    let note = File::create(folder().join("at-work")).map_err(Finding::Begin)?;
    let mut second = if work.every == 0 { None } else { Some(Second::begin().map_err(Finding::Begin)?) };
    let mut tally = Tally::default();
    for number in work.first..work.first + work.count {
        at_work.store(number, Ordering::Relaxed);
        note.write_at(format!("seed {}, case {number}\n", work.seed).as_bytes(), 0).map_err(Finding::Begin)?;
        let one = catch_unwind(AssertUnwindSafe(|| one_case(work, number, &mut tally, second.as_mut())));
        match one {
            Ok(Ok(true)) => {}
            Ok(Ok(false)) => break,
            Ok(Err(what)) => return Err(Finding::Case(number, what)),
            Err(_) => return Err(Finding::Case(number, "the fuzzer or the peer panicked".into())),
        }
    }
    if second.is_some_and(|second| !second.end()) {
        return Err(Finding::Second);
    }
    Ok(tally)
}

/// Whether the second program takes more.
fn one_case(work: Work, number: u64, tally: &mut Tally, second: Option<&mut Second>) -> Result<bool, String> {
    let case = case::make(work.seed, number);
    let results = check::check(&case)?;
    tally.add(&case, &results);
    match second {
        Some(second) if number.is_multiple_of(work.every) => Ok(second.tell(&told::case_with_results(work.seed, number, &case, &results))),
        _ => Ok(true),
    }
}
