//! The margin between two windows: a call beside the same by hand in Rust, and beside the plan's questions alone, which are most of it;
//! measured turn by turn.
use crate::hand::{hand_margin, Refusal};
use crate::interface::{poddreshi_margin, poddreshi_validate};
use crate::keep;
use crate::plans::Case;
use crate::reach::{rows, WINDOWS};
use crate::time::{medians, times};

const MARGIN: u64 = 13;

/// What stands in the lent place before a call. No margin is so great.
const UNTOUCHED: i64 = 0x5a5a_5a5a_5a5a_5a5a;

/// The answer, and what stands in the lent place afterwards.
pub fn margin(file: &[u8], first: usize, second: usize) -> (u64, i64) {
    let mut place = UNTOUCHED;
    let answer = unsafe { poddreshi_margin(file.as_ptr(), file.len(), first, second, &mut place) };
    (answer, place)
}

fn validate(file: &[u8]) -> u64 {
    unsafe { poddreshi_validate(file.as_ptr(), file.len()) }
}

/// Each plan with two positions.
fn asked(case: &Case) -> impl Iterator<Item = (&[u8], usize, usize)> {
    case.files.iter().zip(&case.queries).map(|(file, &(first, second))| (&file[..], first, second))
}

/// With the number of the refusal that is due, if any.
fn compare_one(file: &[u8], first: usize, second: usize, due: Option<u8>) {
    let theirs = hand_margin(file, first, second);
    assert_eq!(theirs.err().map(|refusal| refusal.number), due, "the refusal by hand of {first} and {second}");
    let theirs = theirs.map_or_else(|refusal: Refusal| (refusal.packed(), UNTOUCHED), |margin| (MARGIN, margin));
    assert_eq!(margin(file, first, second), theirs, "the margin of {first} and {second}");
}

/// Both ways give one answer, or the times mean nothing: in both orders, of a window with itself, with positions past the windows, and of
/// a file that is too short.
fn compare(case: &Case) {
    let past = case.n;
    for (file, u, v) in asked(case) {
        for (first, second) in [(u, v), (v, u), (u, u)] {
            compare_one(file, first, second, None);
        }
        for (first, second) in [(past, v), (u, past), (past, past)] {
            compare_one(file, first, second, Some(7));
        }
        compare_one(&file[..file.len() - 1], u, past, Some(3));
    }
}

fn all_ours(case: &Case) {
    asked(case).for_each(|(file, first, second)| keep(margin(file, first, second)));
}

fn measure(case: &Case) {
    compare(case);
    let [ours, hand, questions] = medians([
        &mut || all_ours(case),
        &mut || asked(case).for_each(|(file, first, second)| keep(hand_margin(file, first, second))),
        &mut || case.files.iter().for_each(|file| keep(validate(file))),
    ])
    .map(|time| time / case.files.len() as f64);
    let [a, b, c] = [ours, hand, questions].map(times);
    println!("| {} | {} | margin | {a} | {b} | {:.2} | {c} | {:.2} |", case.name, case.n, ours / hand, questions / ours);
}

/// How many times longer a margin takes for twice the windows.
fn measure_growth([small, large]: [&Case; 2]) -> f64 {
    let [a, b] = medians([&mut || all_ours(small), &mut || all_ours(large)]);
    b / large.files.len() as f64 / (a / small.files.len() as f64)
}

pub fn table() {
    println!("\n| plan | n | call | ours | by hand in Rust | ours / by hand | our validate | validate / margin |");
    println!("|---|---|---|---|---|---|---|---|");
    let growth = rows(measure, measure_growth);
    println!(
        "\nA margin reads two windows once the plan's questions are answered, so these are most of it, ours and by hand; validate asks them \
         alone. A row has plans of {WINDOWS} windows in all, each with two positions."
    );
    println!("Margin at 2,048 windows over margin at 1,024: {growth}.");
}
