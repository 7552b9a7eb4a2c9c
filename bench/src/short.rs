//! Short tags of even plans: each call beside the same by hand in Rust and beside our call on long tags, measured turn by turn.
use crate::hand::{hand_short_pair, hand_short_tags};
use crate::interface::{poddreshi_short_pair, poddreshi_short_tags};
use crate::plans::{self, Case, EVEN_SHAPES};
use crate::time::{medians, times};
use crate::{build, build_all, first_number, keep, Tables};

pub fn tags(file: &[u8], tags: &mut [u8]) -> u64 {
    unsafe { poddreshi_short_tags(file.as_ptr(), file.len(), tags.as_mut_ptr(), tags.len()) }
}

pub fn pair(first: &[u8], second: &[u8]) -> u64 {
    unsafe { poddreshi_short_pair(first.as_ptr(), first.len(), second.as_ptr(), second.len()) }
}

pub fn tag(tags: &[u8], at: usize) -> &[u8] {
    &tags[8 * at..8 * at + 8]
}

fn tags_all(case: &Case, out: &mut [u8]) {
    case.files.iter().for_each(|file| keep(tags(file, out)));
}

/// All ways give one answer, or the times mean nothing.
fn compare(case: &Case) {
    let (mut ours, mut theirs) = (vec![0; 8 * case.n], vec![0; 8 * case.n]);
    let mut long = Tables::new(case.n);
    for file in case.files.iter().rev() {
        assert_eq!(tags(file, &mut ours), build(file, &mut long), "short tags and build");
        hand_short_tags(file, &mut theirs).unwrap();
        assert_eq!(ours, theirs, "short tags");
    }
    for &(u, v) in &case.queries {
        let count = first_number(pair(tag(&ours, u), tag(&ours, v)));
        assert_eq!(count, hand_short_pair(tag(&ours, u), tag(&ours, v)).unwrap(), "short pair of {u} and {v}");
        let answer = crate::pair(crate::tag(&long.tags, u), crate::tag(&long.tags, v));
        assert_eq!(count, first_number(answer), "short pair and pair of {u} and {v}");
    }
}

/// The times of so many calls: ours, by hand, and of our call on long tags.
fn row(case: &Case, call: &str, times_of_all: [f64; 3], calls: usize) {
    let [ours, hand, long] = times_of_all.map(|time| time / calls as f64);
    let [a, b, c] = [ours, hand, long].map(times);
    println!("| {} | {} | {call} | {a} | {b} | {:.2} | {c} | {:.2} |", case.name, case.n, ours / hand, ours / long);
}

fn measure_tags(case: &Case) {
    let (mut ours, mut theirs) = (vec![0; 8 * case.n], vec![0; 8 * case.n]);
    let mut long = Tables::new(case.n);
    let all = medians([
        &mut || tags_all(case, &mut ours),
        &mut || case.files.iter().for_each(|file| keep(hand_short_tags(file, &mut theirs))),
        &mut || build_all(case, &mut long),
    ]);
    row(case, "short_tags", all, case.files.len());
}

fn measure_pair(case: &Case) {
    let (short, long) = (plans::short_tags_of(case), plans::tags_of(case));
    let queries = &case.queries[..];
    let all = medians([
        &mut || queries.iter().for_each(|&(u, v)| keep(pair(tag(&short, u), tag(&short, v)))),
        &mut || queries.iter().for_each(|&(u, v)| keep(hand_short_pair(tag(&short, u), tag(&short, v)))),
        &mut || queries.iter().for_each(|&(u, v)| keep(crate::pair(crate::tag(&long, u), crate::tag(&long, v)))),
    ]);
    row(case, "short_pair", all, queries.len());
}

/// How many times longer short tags take for twice the windows.
fn measure_growth(small: &Case, large: &Case) -> f64 {
    let (mut few, mut many) = (vec![0; 8 * small.n], vec![0; 8 * large.n]);
    let [a, b] = medians([&mut || tags_all(small, &mut few), &mut || tags_all(large, &mut many)]);
    b / a
}

pub fn table() {
    println!("\n| plan | n | call | ours | by hand in Rust | ours / by hand | our build or pair | short / long |");
    println!("|---|---|---|---|---|---|---|---|");
    let mut growth = Vec::new();
    for shape in EVEN_SHAPES {
        let cases = [256, 1024, 2048].map(|n| Case::new(shape, n));
        for case in &cases {
            compare(case);
            measure_tags(case);
            measure_pair(case);
        }
        growth.push(format!("{} {:.2}", shape.name(), measure_growth(&cases[1], &cases[2])));
    }
    println!("\nShort tags at 2,048 windows over short tags at 1,024: {}.", growth.join(", "));
}
