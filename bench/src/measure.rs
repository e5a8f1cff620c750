//! Times calls side by side, and prints a row of the table for them. A time is the processor's time of this thread, so that a turn of another
//! process is not in it.
use std::time::{Duration, Instant};

/// As C has it on 64-bit Linux.
#[repr(C)]
struct Timespec {
    seconds: i64,
    nanoseconds: i64,
}

const THREAD_TIME: i32 = 3;

unsafe extern "C" {
    fn clock_gettime(clock: i32, time: *mut Timespec) -> i32;
}

fn thread_time() -> Duration {
    let mut time = Timespec {
        seconds: 0,
        nanoseconds: 0,
    };
    // SAFETY: the call writes the one struct that it is lent.
    let failed = unsafe { clock_gettime(THREAD_TIME, &mut time) };
    assert_eq!(failed, 0);
    Duration::new(time.seconds as u64, time.nanoseconds as u32)
}

/// A run is so many calls that it takes about half a millisecond, or one call; a row has at most `MOST` runs of each contender.
const RUN: Duration = Duration::from_micros(500);
const MOST: usize = 200;
const LEAST: usize = 20;
const ROW: Duration = Duration::from_millis(900);

/// What is asked of a row: the most microseconds of the proved call, and its highest ratios to the first contender beside it and to the second.
#[derive(Clone, Copy, Default)]
pub struct Asked {
    pub microseconds: Option<f64>,
    pub ratio: Option<f64>,
    pub second: Option<f64>,
}

impl Asked {
    pub const NOTHING: Asked = Asked {
        microseconds: None,
        ratio: None,
        second: None,
    };

    pub const fn microseconds(most: f64) -> Asked {
        Asked {
            microseconds: Some(most),
            ..Asked::NOTHING
        }
    }

    pub const fn ratio(most: f64) -> Asked {
        Asked {
            ratio: Some(most),
            ..Asked::NOTHING
        }
    }

    /// Whether it was met. Of a contender that was not run there is no ratio.
    fn met(self, microseconds: f64, ratios: &[Option<f64>]) -> bool {
        let asked = [self.ratio, self.second].into_iter();
        let by_ratios = asked
            .zip(ratios)
            .filter_map(|(most, ratio)| most.zip(*ratio))
            .all(|(most, ratio)| ratio <= most);
        self.microseconds.is_none_or(|most| microseconds <= most) && by_ratios
    }

    /// What a row says of it.
    fn text(self) -> String {
        let microseconds = self.microseconds.map(figure);
        let ratio = self.ratio.map(|most| format!("ratio {most}"));
        let second = self.second.map(|most| format!("the second {most}"));
        let all: Vec<String> = [microseconds, ratio, second]
            .into_iter()
            .flatten()
            .collect();
        if all.is_empty() {
            return String::new();
        }
        format!("  asked {}", all.join(", "))
    }
}

pub type Call<'a> = &'a mut dyn FnMut();

fn run(call: &mut dyn FnMut(), calls: u32) -> Duration {
    let start = thread_time();
    for _ in 0..calls {
        call();
    }
    thread_time() - start
}

fn calls_in_a_run(call: &mut dyn FnMut()) -> u32 {
    let mut calls = 1;
    while run(call, calls) < RUN {
        calls *= 2;
    }
    calls
}

/// Microseconds a call in each run of each contender. The runs go in turn, every second time backwards, so that a slow phase of the machine
/// strikes all of them.
pub fn in_turn(contenders: &mut [Call]) -> Vec<Vec<f64>> {
    let calls: Vec<u32> = contenders.iter_mut().map(|c| calls_in_a_run(c)).collect();
    let mut times = vec![Vec::new(); contenders.len()];
    let start = Instant::now();
    for round in 0..MOST {
        if LEAST <= round && ROW < start.elapsed() {
            break;
        }
        for n in 0..contenders.len() {
            let n = if round % 2 == 0 {
                n
            } else {
                contenders.len() - 1 - n
            };
            let took = run(contenders[n], calls[n]);
            times[n].push(took.as_secs_f64() * 1e6 / f64::from(calls[n]));
        }
    }
    times
}

/// The number with so many in a hundred below it.
pub fn percentile(numbers: &[f64], percent: usize) -> f64 {
    let mut sorted = numbers.to_vec();
    sorted.sort_by(f64::total_cmp);
    sorted[(sorted.len() - 1) * percent / 100]
}

pub fn median(numbers: &[f64]) -> f64 {
    percentile(numbers, 50)
}

/// Three figures or more.
pub fn figure(x: f64) -> String {
    let places = match x {
        _ if 100.0 <= x => 0,
        _ if 10.0 <= x => 1,
        _ if 1.0 <= x => 2,
        _ => 3,
    };
    format!("{x:.places$}")
}

/// A section of the table, the proved call beside the named contenders; `size` says what is counted or told there.
pub fn heading(section: &str, size: &str, others: &[&str]) {
    print!(
        "\n{section:<58} {size:>8} {:>8} {:>15}",
        "proved", "10 to 90 %"
    );
    for other in others {
        print!(" {other:>9} {:>6}", "ratio");
    }
    println!();
}

/// A row: the medians in microseconds, of the proved call the tenth and the ninetieth hundredth beside it, and the medians of the ratios of two
/// runs that were made in turn. A contender with no times was not run. Whether what is asked was met.
pub fn row(what: &str, size: &str, times: &[Vec<f64>], asked: Asked) -> bool {
    let (proved, others) = times.split_first().expect("the proved call's times");
    let spread = [10, 90].map(|percent| figure(percentile(proved, percent)));
    print!(
        "{what:<58} {size:>8} {:>8} {:>15}",
        figure(median(proved)),
        spread.join(" to ")
    );
    let ratios: Vec<Option<f64>> = others.iter().map(|other| ratio(proved, other)).collect();
    for (other, ratio) in others.iter().zip(&ratios) {
        match ratio {
            Some(ratio) => print!(" {:>9} {ratio:>6.2}", figure(median(other))),
            None => print!(" {:>9} {:>6}", "", ""),
        }
    }
    let met = asked.met(median(proved), &ratios);
    println!("{}{}", if met { "" } else { "  OVER" }, asked.text());
    met
}

/// Says so where answers differ.
pub fn agree(same: bool) -> bool {
    if !same {
        println!("ANSWERS DIFFER");
    }
    same
}

/// The median of the ratios, if there are times of the other.
fn ratio(proved: &[f64], other: &[f64]) -> Option<f64> {
    let ratios: Vec<f64> = proved.iter().zip(other).map(|(a, b)| a / b).collect();
    (!ratios.is_empty()).then(|| median(&ratios))
}
