//! A page of pairs: a record beside the same loop by hand in Rust and beside our call for one pair, measured turn by turn.
use crate::hand::{hand_page, Refusal};
use crate::interface::{poddreshi_page, poddreshi_pair_at, Query};
use crate::keep;
use crate::plans::{self, Case, RECORDS, SHAPES};
use crate::time::{medians, times};

const FILLED: u64 = 12;

pub fn page(tags: &[u8], queries: &mut [Query]) -> u64 {
    unsafe { poddreshi_page(tags.as_ptr(), tags.len(), queries.as_mut_ptr(), queries.len()) }
}

/// The same by a call for each record.
fn pairs_at(tags: &[u8], queries: &mut [Query]) {
    for query in queries {
        query.answer = unsafe { poddreshi_pair_at(tags.as_ptr(), tags.len(), query.first, query.second) };
    }
}

/// The tag file with some fields that are too great, some tags of another plan and some that disagree with others.
fn damaged(tags: &[u8]) -> Vec<u8> {
    let mut tags = tags.to_vec();
    for tag in tags.chunks_exact_mut(10).step_by(5) {
        tag[9] = 8;
    }
    for tag in tags.chunks_exact_mut(10).skip(1).step_by(7) {
        tag[0] += 1;
    }
    for tag in tags.chunks_exact_mut(10).skip(2).step_by(3) {
        tag[6..8].fill(0);
    }
    tags
}

/// All ways give one answer, or the times mean nothing: also of tags and positions at fault, and of a tag file of wrong length.
fn compare(case: &Case) {
    for file in &case.files {
        let tags = plans::tags_in(case, file);
        let damaged = damaged(&tags);
        for (tags, windows) in [(&tags, case.n), (&damaged, case.n), (&tags, case.n * 3 / 4)] {
            let tags = &tags[..10 * windows];
            let [mut ours, mut theirs, mut single] = [(); 3].map(|_| case.page.clone());
            assert_eq!(page(tags, &mut ours), FILLED, "page");
            hand_page(tags, &mut theirs).unwrap();
            pairs_at(tags, &mut single);
            assert!(ours == theirs && ours == single, "the records of a page");
        }
        let (short, mut untouched) = (&tags[1..], case.page.clone());
        assert_eq!(hand_page(short, &mut untouched), Err(Refusal { number: 9, input: 0, position: 0 }), "a short tag file");
        assert_eq!(page(short, &mut untouched), 9 << 16, "a short tag file");
        assert!(untouched == case.page, "the records of a page that is refused");
    }
}

fn tag_files(case: &Case) -> Vec<Vec<u8>> {
    case.files.iter().map(|file| plans::tags_in(case, file)).collect()
}

fn measure(case: &Case) {
    let all = tag_files(case);
    let [mut ours, mut theirs, mut single] = [(); 3].map(|_| case.page.clone());
    let [ours, hand, single] = medians([
        &mut || all.iter().for_each(|tags| keep(page(tags, &mut ours))),
        &mut || all.iter().for_each(|tags| keep(hand_page(tags, &mut theirs))),
        &mut || all.iter().for_each(|tags| keep(pairs_at(tags, &mut single))),
    ])
    .map(|time| time / (all.len() * RECORDS) as f64);
    let [a, b, c] = [ours, hand, single].map(times);
    println!("| {} | {} | page | {a} | {b} | {:.2} | {c} | {:.2} |", case.name, case.n, ours / hand, ours / single);
}

/// How many times longer a page takes for twice the windows.
fn measure_growth(small: &Case, large: &Case) -> f64 {
    let (few, many) = (tag_files(small), tag_files(large));
    let (mut first, mut second) = (small.page.clone(), large.page.clone());
    let [a, b] = medians([
        &mut || few.iter().for_each(|tags| keep(page(tags, &mut first))),
        &mut || many.iter().for_each(|tags| keep(page(tags, &mut second))),
    ]);
    b / a
}

pub fn table() {
    println!("\n| plan | n | call, a record of it | ours | by hand in Rust | ours / by hand | our pair_at | page / pair_at |");
    println!("|---|---|---|---|---|---|---|---|");
    let mut growth = Vec::new();
    for shape in SHAPES {
        let cases = [256, 1024, 2048].map(|n| Case::new(shape, n));
        for case in &cases {
            compare(case);
            measure(case);
        }
        growth.push(format!("{} {:.2}", shape.name(), measure_growth(&cases[1], &cases[2])));
    }
    println!("\nA page on 2,048 windows over a page on 1,024: {}.", growth.join(", "));
}
