//! Plans by minimums other than 1 (paper 02, Q-2): windows that share just the minimum, a minute less and a minute more.
use crate::answers::Answer;
use crate::compare::{Comparison, Depth};
use crate::random::Random;
use crate::shapes::{at_the_end, file_of, greatest_minimum, plain, realised, LATEST};
use std::collections::BTreeSet;

/// So many offsets, each behind the one before: near each other, or over all of the line that leaves room for twice any minimum.
fn rising_offsets(n: usize, random: &mut Random) -> Vec<u32> {
    let widest = (LATEST - 2 * 86_400) / (n as u32 + 1);
    let most = random.pick(&[9, 9, 65_536, widest]);
    let mut next = random.below(3) as u32;
    let mut offset = || {
        let offset = next;
        next += random.between(1, most as u64) as u32;
        offset
    };
    (0..n).map(|_| offset()).collect()
}

/// One overlap pattern by one minimum. It is the same as by a minimum of 1, whether the windows are as short as it lets them be
/// or as long, also at the end of the line. The same windows by a minimum that is one less or one greater have another pattern,
/// or are refused.
pub fn pattern(comparison: &mut Comparison, lasts: &[usize], minimum: u32) {
    let random = &mut comparison.random;
    let number = random.next() as u16;
    let steps = |step: u32| (0..lasts.len() as u32).map(|u| step * u).collect::<Vec<u32>>();
    let plans = [
        realised(lasts, minimum, &steps(1), &mut |shortest, _| shortest),
        at_the_end(&realised(lasts, minimum, &steps(5), &mut |shortest, _| shortest)),
        realised(lasts, minimum, &steps(5), &mut |_, longest| longest),
        realised(lasts, minimum, &rising_offsets(lasts.len(), random), &mut |shortest, longest| {
            random.between(shortest as u64, longest as u64) as u32
        }),
    ];
    let by_1 = file_of(1, 1, &plain(lasts));
    for windows in plans {
        let file = file_of(number, minimum, &windows);
        comparison.same(&by_1, &file).are(format_args!("same by 1 and by {minimum}"), Answer::Same, &());
        comparison.same(&file, &by_1).are(format_args!("same by {minimum} and by 1"), Answer::Same, &());
        comparison.file(&file, Depth::Whole);
        for other in [minimum - 1, minimum + 1] {
            let others = file_of(number, other, &windows);
            comparison.same(&file, &others).agree(format_args!("same by {minimum} and by {other}"));
            comparison.same(&others, &file).agree(format_args!("same by {other} and by {minimum}"));
            comparison.file(&others, Depth::Whole);
        }
    }
}

/// A minimum rises one by one up to this, and beyond it by leaps.
const ONE_BY_ONE: u32 = 80;

/// The minimums that windows can have: every one, where they are short; of long ones the small ones, some that are drawn and the
/// two greatest. Behind them is one that is too great.
fn rising(greatest: u32, random: &mut Random) -> BTreeSet<u32> {
    let drawn = (0..8).map(|_| random.between(1, greatest as u64) as u32);
    (1..=greatest.min(ONE_BY_ONE)).chain(drawn).chain([greatest.max(2) - 1, greatest, greatest + 1]).collect()
}

/// The same windows by rising minimums, from 0 to one more than they can have, each beside the one before. As it rises, chains
/// need more windows and components fall apart.
pub fn rising_minimum(comparison: &mut Comparison, windows: &[(u32, u32)]) {
    let (mut less, mut before) = (0, file_of(12, 0, windows));
    for minimum in rising(greatest_minimum(windows), &mut comparison.random) {
        let file = file_of(12, minimum, windows);
        comparison.same(&before, &file).agree(format_args!("same by {less} and by {minimum}"));
        comparison.same(&file, &before).agree(format_args!("same by {minimum} and by {less}"));
        comparison.file(&file, Depth::Whole);
        (less, before) = (minimum, file);
    }
}

/// 2,048 windows with a minimum near their lengths: each shares just the minimum with the next, so that chains are as long as any
/// plan's; and windows of the greatest minimum, three with each offset, up to the latest end.
pub fn many_windows(comparison: &mut Comparison) {
    let in_line: Vec<(u32, u32)> = (0..2048).map(|v| (2 * v, 100)).collect();
    comparison.file(&file_of(12, 98, &in_line), Depth::Sampled);
    let longest: Vec<(u32, u32)> = (0..2048).map(|v| (LATEST - 87_083 + v / 3, 86_400 + v % 3)).collect();
    comparison.file(&file_of(12, 86_400, &longest), Depth::Sampled);
}
