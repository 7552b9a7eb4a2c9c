//! Medians of repeated runs, in the processor time of the thread, so that other work on the machine counts little.
use std::hint::black_box;

const ROUNDS: usize = 101;
/// A round is repeated until it is far longer than the clock's grain.
const ROUND_NANOSECONDS: f64 = 200_000.0;

#[repr(C)]
struct Timespec {
    seconds: i64,
    nanoseconds: i64,
}

extern "C" {
    fn clock_gettime(clock: i32, time: *mut Timespec) -> i32;
}

fn now() -> f64 {
    const THREAD_PROCESSOR_TIME: i32 = 3;
    let mut time = Timespec { seconds: 0, nanoseconds: 0 };
    assert_eq!(unsafe { clock_gettime(THREAD_PROCESSOR_TIME, &mut time) }, 0, "no clock");
    time.seconds as f64 * 1e9 + time.nanoseconds as f64
}

fn once(run: &mut dyn FnMut(), repeats: u32) -> f64 {
    let start = now();
    for _ in 0..repeats {
        run();
    }
    (now() - start) / repeats as f64
}

fn repeats_of(run: &mut dyn FnMut()) -> u32 {
    once(run, 3);
    (ROUND_NANOSECONDS / once(run, 3)).clamp(1.0, 1e6) as u32
}

fn middle(mut rounds: Vec<f64>) -> f64 {
    rounds.sort_by(f64::total_cmp);
    rounds[rounds.len() / 2]
}

/// Nanoseconds of each of some, measured turn by turn, so that what disturbs one disturbs the others.
pub fn medians<const N: usize>(mut runs: [&mut dyn FnMut(); N]) -> [f64; N] {
    let repeats = runs.each_mut().map(|run| repeats_of(run));
    let mut rounds = [(); N].map(|_| Vec::new());
    for _ in 0..ROUNDS {
        for ((run, &repeats), times) in runs.iter_mut().zip(&repeats).zip(&mut rounds) {
            times.push(once(run, repeats));
        }
    }
    rounds.map(middle)
}

/// Nanoseconds of one that takes long: fewer rounds.
pub fn median(run: &mut dyn FnMut()) -> f64 {
    let repeats = repeats_of(run);
    let rounds = if repeats > 1 { ROUNDS } else { 9 };
    middle((0..rounds).map(|_| once(run, repeats)).collect())
}

/// Nanoseconds of one that may take seconds, and its answer: the median of three rounds, or one round where it takes more than a second.
pub fn few_rounds<T>(mut run: impl FnMut() -> T) -> (f64, T) {
    let start = now();
    let answer = run();
    let first = now() - start;
    if first > 1e9 {
        return (first, answer);
    }
    let mut again = || {
        black_box(run());
    };
    let repeats = (ROUND_NANOSECONDS / first).clamp(1.0, 1e6) as u32;
    (middle((0..3).map(|_| once(&mut again, repeats)).collect()), answer)
}

/// A time with its unit.
pub fn times(nanoseconds: f64) -> String {
    match nanoseconds {
        t if t < 1e3 => format!("{t:.1} ns"),
        t if t < 1e6 => format!("{:.2} µs", t / 1e3),
        t if t < 1e9 => format!("{:.2} ms", t / 1e6),
        t => format!("{:.2} s", t / 1e9),
    }
}
