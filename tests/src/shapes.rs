//! Plan files: every overlap pattern of few windows, and random plans of different shapes.
use crate::random::Random;

/// The latest end that a window may have.
pub const LATEST: u32 = u32::MAX;

/// The length by which a window ends a minute later than it may. One that begins at the first minute can have no such length.
pub fn too_long(offset: u32) -> u32 {
    LATEST - offset + 1
}

/// The true end, which 32 bits need not hold.
fn end_of(window: &(u32, u32)) -> u64 {
    window.0 as u64 + window.1 as u64
}

pub fn file_of(plan: u16, minimum: u32, windows: &[(u32, u32)]) -> Vec<u8> {
    let mut file = plan.to_le_bytes().to_vec();
    file.extend((windows.len() as u16).to_le_bytes());
    file.extend(minimum.to_le_bytes());
    for (offset, length) in windows {
        file.extend(offset.to_le_bytes());
        file.extend(length.to_le_bytes());
    }
    file
}

/// How many windows the file of an accepted plan has.
pub fn windows_in(file: &[u8]) -> usize {
    (file.len() - 8) / 8
}

/// The number of four bytes from a byte of a file on.
fn number_at(file: &[u8], from: usize) -> u32 {
    u32::from_le_bytes(file[from..from + 4].try_into().unwrap())
}

/// The minimum of a file's plan, as it stands there.
pub fn minimum_in(file: &[u8]) -> u32 {
    number_at(file, 4)
}

/// A window of a file, as it stands there.
pub fn window_in(file: &[u8], at: usize) -> (u32, u32) {
    (number_at(file, 8 + 8 * at), number_at(file, 12 + 8 * at))
}

/// A file as paper 01 had it, with no minimum.
pub fn old_file_of(plan: u16, windows: &[(u32, u32)]) -> Vec<u8> {
    let mut file = file_of(plan, 1, windows);
    file.drain(4..8);
    file
}

/// Every list of lasts of n windows. There are n! of them, and every overlap pattern of n windows is that of just one.
pub fn patterns(n: usize) -> Vec<Vec<usize>> {
    let mut all: Vec<Vec<usize>> = vec![Vec::new()];
    for u in 0..n {
        let longer = |lasts: &Vec<usize>| (u..n).map(|last| [&lasts[..], &[last]].concat()).collect::<Vec<_>>();
        all = all.iter().flat_map(longer).collect();
    }
    all
}

/// Every plan of n windows that begin at minutes 1 to 3 and last 1 to 3 minutes: many begin together.
pub fn in_few_minutes(n: usize) -> Vec<Vec<(u32, u32)>> {
    let mut all: Vec<Vec<(u32, u32)>> = vec![Vec::new()];
    for _ in 0..n {
        let longer = |windows: &Vec<(u32, u32)>| {
            let offsets = windows.last().map_or(1, |last| last.0)..=3;
            let next = offsets.flat_map(|offset| (1..=3).map(move |length| (offset, length)));
            next.map(|window| [&windows[..], &[window]].concat()).collect::<Vec<_>>()
        };
        all = all.iter().flat_map(longer).collect();
    }
    all
}

/// A list of lasts as a plan of minimum 1: window u begins at minute u and ends behind the minute of its last.
pub fn plain(lasts: &[usize]) -> Vec<(u32, u32)> {
    lasts.iter().enumerate().map(|(u, &last)| (u as u32, (last - u + 1) as u32)).collect()
}

/// The windows in the middle of a plan, behind three in line and one alone and before one alone and four in line. Each of these parts
/// begins at the minute at which the one before it ends.
pub fn between_others(windows: &[(u32, u32)]) -> Vec<(u32, u32)> {
    let in_line = |n: u32| (0..n).map(|v| (2 * v, 3)).collect::<Vec<_>>();
    let mut plan = Vec::new();
    for part in [&in_line(3), &in_line(1), windows, &in_line(1), &in_line(4)] {
        let start = plan.iter().map(|w: &(u32, u32)| w.0 + w.1).max().unwrap_or(0);
        plan.extend(part.iter().map(|w| (start + w.0, w.1)));
    }
    plan
}

/// A list of lasts as a plan of any minimum, of which the offsets rise: a window shares the minimum or more with its last, and with
/// the one behind that a minute less or nothing. `length` chooses from the shortest to the longest length for which that is so.
/// Behind the last offset there is to be room for twice the minimum.
pub fn realised(lasts: &[usize], minimum: u32, offsets: &[u32], length: &mut dyn FnMut(u32, u32) -> u32) -> Vec<(u32, u32)> {
    let window = |(u, &last): (usize, &usize)| {
        let shortest = offsets[last] - offsets[u] + minimum;
        let longest = offsets.get(last + 1).map_or(shortest + minimum, |behind| behind - offsets[u] + minimum - 1);
        (offsets[u], length(shortest, longest))
    };
    lasts.iter().enumerate().map(window).collect()
}

/// Every window longer by as much, and where one would end too late, all of them earlier. By a minimum that is greater by as much
/// the same pairs overlap: two that shared the minimum share it again, and two that touched share a minute less. Of windows that
/// would then begin before the first minute this is not said: they begin there, and are longer than `more` still.
pub fn lengthened(windows: &[(u32, u32)], more: u32) -> Vec<(u32, u32)> {
    let latest = windows.iter().map(end_of).max().unwrap_or(0);
    let earlier = (latest + more as u64).saturating_sub(LATEST as u64);
    let window = |w: &(u32, u32)| {
        let offset = (w.0 as u64).saturating_sub(earlier);
        let end = (end_of(w) + more as u64 - earlier).max(offset + more as u64 + 1);
        (offset as u32, (end - offset) as u32)
    };
    windows.iter().map(window).collect()
}

/// Every window later by as much, so that the last of them to end does so as late as a window may. The same pairs overlap.
pub fn at_the_end(windows: &[(u32, u32)]) -> Vec<(u32, u32)> {
    let later = windows.iter().map(|w| LATEST as u64 - end_of(w)).min().unwrap_or(0);
    windows.iter().map(|w| (w.0 + later as u32, w.1)).collect()
}

/// The greatest minimum that a plan of these windows can have.
pub fn greatest_minimum(windows: &[(u32, u32)]) -> u32 {
    windows.iter().map(|w| w.1).min().unwrap_or(86_400).min(86_400)
}

/// A minimum, and windows for it: half of the times 1 and the windows that are given, and else the windows made longer. The
/// minimum is then that by which the same pairs overlap, the greatest that there can be, or any.
pub fn with_minimum(windows: Vec<(u32, u32)>, random: &mut Random) -> (u32, Vec<(u32, u32)>) {
    if random.below(2) == 0 {
        return (1, windows);
    }
    let more = random.pick(&[0, 1, 2, 4, 11, 30, 254, 255, 65_534, 65_535, 65_536, 86_398, 86_399]);
    let longer = lengthened(&windows, more);
    let greatest = greatest_minimum(&longer);
    let minimum = match random.below(4) {
        0 | 1 => more + 1,
        2 => greatest,
        _ => random.between(1, greatest as u64) as u32,
    };
    (minimum, longer)
}

/// The same offsets and the same ends, with the ends in rising order: an even plan, in which at every minute as many windows
/// are open as before.
pub fn evened(windows: &[(u32, u32)]) -> Vec<(u32, u32)> {
    let mut ends: Vec<u64> = windows.iter().map(end_of).collect();
    ends.sort_unstable();
    windows.iter().zip(ends).map(|(w, end)| (w.0, (end - w.0 as u64) as u32)).collect()
}

/// An even plan in which one window ends with the one ahead of it, or a minute before, where it can.
pub fn nearly_even(windows: &[(u32, u32)], minimum: u32, random: &mut Random) -> Vec<(u32, u32)> {
    let mut windows = evened(windows);
    let n = windows.len() as u64;
    if n > 1 {
        let v = random.between(1, n - 1) as usize;
        let end = end_of(&windows[v - 1]) - random.below(2);
        windows[v].1 = (end.saturating_sub(windows[v].0 as u64) as u32).max(minimum);
    }
    windows
}

#[derive(Clone, Copy, Debug)]
pub enum Shape {
    Sparse,
    Dense,
    Nested,
    Staircase,
    EqualOffsets,
    Touching,
    Mixed,
    Far,
    Wide,
    Middle,
}

pub const SHAPES: [Shape; 10] = [
    Shape::Sparse,
    Shape::Dense,
    Shape::Nested,
    Shape::Staircase,
    Shape::EqualOffsets,
    Shape::Touching,
    Shape::Mixed,
    Shape::Far,
    Shape::Wide,
    Shape::Middle,
];

pub fn windows(shape: Shape, n: usize, random: &mut Random) -> Vec<(u32, u32)> {
    in_order(match shape {
        Shape::Sparse => scattered(n, 12 * n as u64 + 1, 10, random),
        Shape::Dense => scattered(n, n as u64 + 1, n as u64 + 1, random),
        Shape::Nested => nested(n, random),
        Shape::Staircase => stepping(n, random),
        Shape::EqualOffsets => scattered(n, n as u64 / 4 + 1, 6, random),
        Shape::Touching => touching(n, random),
        Shape::Mixed => mixed(n, random),
        Shape::Far => far(n, random),
        Shape::Wide => wide(n, random),
        Shape::Middle => middle(n, random),
    })
}

/// Sorted by offset. Equal offsets keep the order in which they were drawn.
fn in_order(mut windows: Vec<(u64, u64)>) -> Vec<(u32, u32)> {
    windows.sort_by_key(|w| w.0);
    windows.into_iter().map(|(offset, length)| (offset as u32, length as u32)).collect()
}

/// Windows in line, each over a minute or two of the next, with short ones in them. Here and there two of the line only touch, in most
/// plans seldom and in some never.
pub fn linked(n: usize, random: &mut Random) -> Vec<(u32, u32)> {
    let seldom = random.pick(&[8, 60, u64::MAX]);
    let (mut start, mut windows) = (0, Vec::new());
    while windows.len() < n {
        let length = random.between(4, 12);
        windows.push((start, length));
        for _ in 0..random.below(3) {
            windows.push((start + random.below(length), random.between(1, 3)));
        }
        start += length - if random.below(seldom) == 0 { 0 } else { random.between(1, 2) };
    }
    windows.truncate(n);
    in_order(windows)
}

fn scattered(n: usize, span: u64, longest: u64, random: &mut Random) -> Vec<(u64, u64)> {
    (0..n).map(|_| (random.below(span), random.between(1, longest))).collect()
}

/// Windows inside windows, and some beside.
fn nested(n: usize, random: &mut Random) -> Vec<(u64, u64)> {
    let (mut low, mut high) = (0, 4 * n as u64 + 4);
    let mut windows = Vec::new();
    for _ in 0..n {
        windows.push((low, high - low));
        if high - low < 4 || random.below(8) == 0 {
            (low, high) = (high + random.below(2), high + 4 + random.below(4 * n as u64));
        } else {
            low += random.below(2);
            high -= random.below(2);
        }
    }
    windows
}

/// Each window overlaps the next few.
fn stepping(n: usize, random: &mut Random) -> Vec<(u64, u64)> {
    let step = random.between(1, 4);
    (0..n as u64).map(|i| (i * step, step + random.between(0, 2 * step))).collect()
}

/// Windows that begin where others end, or a minute before.
fn touching(n: usize, random: &mut Random) -> Vec<(u64, u64)> {
    let mut ends = vec![0];
    let mut windows = Vec::new();
    for _ in 0..n {
        let end: u64 = random.pick(&ends[ends.len().saturating_sub(5)..]);
        let offset = end.saturating_sub(random.below(3) / 2);
        let length = random.between(1, 5);
        ends.push(offset + length);
        windows.push((offset, length));
    }
    windows
}

/// A few long windows over many short ones.
fn mixed(n: usize, random: &mut Random) -> Vec<(u64, u64)> {
    let span = 3 * n as u64 + 1;
    let window = |random: &mut Random| match random.below(10) {
        0 => (random.below(span), random.between(1, span)),
        _ => (random.below(span), random.between(1, 4)),
    };
    (0..n).map(|_| window(random)).collect()
}

/// Near the greatest end, 4,294,967,295.
fn far(n: usize, random: &mut Random) -> Vec<(u64, u64)> {
    let (latest, span) = (LATEST as u64, 2 * n as u64 + 10);
    let window = |random: &mut Random| {
        let offset = latest - 1 - random.below(span);
        (offset, random.between(1, (latest - offset).min(9)))
    };
    (0..n).map(|_| window(random)).collect()
}

/// Over the whole line: windows that begin at its first minute, among its last, about where another ends or anywhere; and that
/// are short, any part of the line long, or so long that they end as late as a window may, in some plans half of them.
fn wide(n: usize, random: &mut Random) -> Vec<(u64, u64)> {
    let latest = LATEST as u64;
    let (seldom, longest) = (random.pick(&[2, 8, 60]), latest >> random.below(13));
    let mut ends: Vec<u64> = vec![1];
    let mut windows = Vec::new();
    for _ in 0..n {
        let about = random.pick(&ends) + random.below(3) - 1;
        let [last, any] = [latest - 1 - random.below(9), random.below(latest)];
        let offset = random.pick(&[0, last, about, about, any, any, any, any]).min(latest - 1);
        let length = match random.below(seldom) {
            0 => latest - offset,
            1 => random.between(1, 9),
            _ => random.between(1, longest),
        };
        let length = length.min(latest - offset);
        ends.push(offset + length);
        windows.push((offset, length));
    }
    windows
}

/// About 10,000,000, which was the greatest end, and about 2^31, where a number of 32 bits with a sign ends. Some windows reach
/// from the one to the other.
fn middle(n: usize, random: &mut Random) -> Vec<(u64, u64)> {
    let span = 2 * n as u64 + 10;
    let places: [u64; 2] = [10_000_000, 1 << 31];
    let window = |random: &mut Random| {
        let offset = random.pick(&places) + random.below(span) - span / 2;
        let end = if random.below(8) == 0 { places[1] + random.below(span) - span / 2 } else { 0 };
        (offset, end.checked_sub(offset).filter(|&length| length > 0).unwrap_or(random.between(1, 9)))
    };
    (0..n).map(|_| window(random)).collect()
}
