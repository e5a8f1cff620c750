//! `soak [COUNT] [SEED] [SECONDS] [THREADS]`: random inputs through the engine and the plain
//! implementation until COUNT are done (1,000,000) or SECONDS are over (600). Exit 1 at the first
//! difference, with the input in hexadecimal.

use std::panic::{AssertUnwindSafe, catch_unwind};
use std::process::ExitCode;
use std::sync::atomic::{AtomicBool, Ordering};
use std::time::{Duration, Instant};

use compare::{Answers, Chance, Input, Tally, compare};

#[derive(Debug, Clone, Copy)]
struct Run {
    count: u64,
    seed: u64,
    seconds: u64,
    threads: u64,
}

fn main() -> ExitCode {
    let Some(run) = arguments() else {
        eprintln!("usage: soak [COUNT] [SEED] [SECONDS] [THREADS]");
        return ExitCode::from(2);
    };
    let start = Instant::now();
    let stop = AtomicBool::new(false);
    let results: Vec<Result<Tally, String>> = std::thread::scope(|scope| {
        let part = |first| soak(run, first, start, &stop);
        let others: Vec<_> = (1..run.threads)
            .map(|first| scope.spawn(move || part(first)))
            .collect();
        let mut results = vec![soak(run, 0, start, &stop)];
        results.extend(
            others
                .into_iter()
                .map(|thread| thread.join().expect("a thread that ends")),
        );
        results
    });
    report(results, run.count, start)
}

fn arguments() -> Option<Run> {
    let numbers: Result<Vec<u64>, _> = std::env::args().skip(1).map(|text| text.parse()).collect();
    let numbers = numbers.ok().filter(|numbers| numbers.len() <= 4)?;
    let number = |place: usize, default| numbers.get(place).copied().unwrap_or(default);
    Some(Run {
        count: number(0, 1_000_000),
        seed: number(1, 1),
        seconds: number(2, 600),
        threads: number(3, 1).max(1),
    })
}

fn report(results: Vec<Result<Tally, String>>, count: u64, start: Instant) -> ExitCode {
    let mut total = Tally::default();
    for result in results {
        match result {
            Ok(tally) => total.add(&tally),
            Err(difference) => {
                println!("{difference}");
                return ExitCode::FAILURE;
            }
        }
    }
    print!("{total}");
    println!("{} of {count} inputs, 0 differences", total.inputs);
    eprintln!("{:.1} seconds", start.elapsed().as_secs_f64());
    ExitCode::SUCCESS
}

/// The inputs of one thread: from its first on, those that the other threads leave to it.
fn soak(run: Run, first: u64, start: Instant, stop: &AtomicBool) -> Result<Tally, String> {
    let end = start + Duration::from_secs(run.seconds);
    let mut tally = Tally::default();
    for index in (first..run.count).step_by(run.threads as usize) {
        if stop.load(Ordering::Relaxed) || Instant::now() >= end {
            break;
        }
        let (input, answers) =
            one(run.seed, index).inspect_err(|_| stop.store(true, Ordering::Relaxed))?;
        tally.count(&input, &answers);
        if first == 0 && index > 0 && index % 100_000 == 0 {
            eprintln!(
                "{index} inputs, {:.0} seconds",
                start.elapsed().as_secs_f64()
            );
        }
    }
    Ok(tally)
}

/// Compares one input of the run.
fn one(seed: u64, index: u64) -> Result<(Input, Answers), String> {
    let mut chance = Chance::of_input(seed, index);
    let input = Input::random(&mut chance);
    let compared = catch_unwind(AssertUnwindSafe(|| compare(&input, &mut chance)))
        .unwrap_or_else(|_| Err("a panic".into()));
    match compared {
        Ok(answers) => Ok((input, answers)),
        Err(what) => Err(format!("input {index} of seed {seed}: {what}\n{input}")),
    }
}
