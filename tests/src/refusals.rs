//! Every refusal of every call, alone and two at a time, on inputs that are chosen and not drawn. The number and the position
//! that a faulty file or tag is due stand beside it, from the order of the paper's questions.
use crate::answers::{refusal, Answer};
use crate::compare::{Comparison, Depth};
use crate::forms::{Form, FORMS};
use crate::oracle::{tag_bytes, Change, Changed, Columns, What};
use crate::paper::{PLAN_12, PLAN_12_EVEN};
use crate::shapes::{at_the_end, file_of, lengthened, old_file_of, too_long, windows_in, LATEST};

/// A file that is refused: by which question, and at which position.
struct Faulty {
    file: Vec<u8>,
    number: u16,
    position: usize,
}

fn faulty(number: u16, position: usize, file: &[u8]) -> Faulty {
    Faulty { file: file.to_vec(), number, position }
}

/// A file whose header has this n and this minimum, and then so many bytes.
fn headed(n: u16, minimum: u32, bytes: usize) -> Vec<u8> {
    [&[12, 0][..], &n.to_le_bytes(), &minimum.to_le_bytes(), &vec![0; bytes]].concat()
}

/// Minimums that a plan can have.
const MINIMUMS: [u32; 6] = [1, 2, 255, 256, 65_536, 86_400];

/// Minimums that none can have, among them such as are one in 8, 16 or 24 bits, or in the upper two bytes.
const NO_MINIMUMS: [u32; 9] = [0, 86_401, 65_536 * 2, 65_536 * 255, 1 << 24, (1 << 24) + 1, 1 << 31, 0xffff_0001, 4_294_967_295];

/// Questions 1, 2, 14 and 3, each of files that later ones would refuse too: files of less than 8 bytes whatever they hold; n too
/// great by any minimum in a file of any length, and in one whose last window is refused by 4, 5 or 6; no minimum in a file of any
/// length; windows of length 0 in one of the wrong length.
fn faulty_headers() -> Vec<Faulty> {
    let mut all = Vec::new();
    for (n, minimum) in [(0, 0), (0, 1), (1, 86_400), (2048, 86_401), (2049, 1), (2049, 0), (65_535, 4_294_967_295)] {
        all.extend((0..8).map(|length| faulty(1, 0, &headed(n, minimum, 0)[..length])));
    }
    for (n, bytes) in [(2049, 0), (2049, 1), (2049, 8 * 2049), (2049, 8 * 2049 + 1), (65_535, 3)] {
        let minimums = [1, 86_400].into_iter().chain(NO_MINIMUMS);
        all.extend(minimums.map(|minimum| faulty(2, 0, &headed(n, minimum, bytes))));
    }
    for last in [(5, 0), (LATEST, 1), (4, 1)] {
        let windows = [vec![(5, 1); 2048], vec![last]].concat();
        all.push(faulty(2, 0, &file_of(12, 1, &windows)));
    }
    let wrong = [(0, 1), (0, 8), (1, 0), (1, 4), (1, 7), (1, 9), (2, 8), (2, 24), (2048, 8 * 2048 - 1), (2048, 8 * 2048 + 1)];
    for (n, bytes) in wrong.into_iter().chain([(0, 0), (1, 8), (2, 16), (2048, 8 * 2048)]) {
        all.extend(NO_MINIMUMS.map(|minimum| faulty(14, 0, &headed(n, minimum, bytes))));
    }
    for (n, bytes) in wrong {
        all.extend(MINIMUMS.map(|minimum| faulty(3, 0, &headed(n, minimum, bytes))));
    }
    all
}

/// Four windows for a minimum, the shortest just as long as that.
fn sound(minimum: u32) -> [(u32, u32); 4] {
    [(10, minimum + 4), (20, minimum), (30, minimum + 4), (40, minimum + 4)]
}

/// A window that one question of 4, 5 and 6 refuses in the place of a sound one, or two of them, of which the first counts.
fn faulty_windows(minimum: u32, position: usize) -> Vec<(u16, (u32, u32))> {
    let (offset, length) = sound(minimum)[position];
    let short = minimum - 1;
    let mut windows = vec![(4, (offset, short)), (4, (offset, 0)), (5, (offset, too_long(offset))), (4, (LATEST, short))];
    windows.extend([(5, (LATEST - minimum + 1, minimum)), (5, (LATEST, minimum + 4)), (5, (LATEST, LATEST))]);
    if position > 0 {
        let fallen = sound(minimum)[position - 1].0 - 1;
        windows.extend([(6, (fallen, length)), (4, (fallen, short)), (5, (fallen, too_long(fallen)))]);
    }
    windows
}

/// Questions 4 to 6 at one window, and at two, of which the one that stands first counts, whatever the numbers are; question 3 of the
/// same in a file that is a byte too short or too long, and question 14 of the same by no minimum, in a file of any of these lengths.
fn faulty_plans() -> Vec<Faulty> {
    let mut all = Vec::new();
    for minimum in [1, 5, 86_400] {
        for i in 0..4 {
            for (number, window) in faulty_windows(minimum, i) {
                let mut windows = sound(minimum);
                windows[i] = window;
                let file = file_of(12, minimum, &windows);
                let no_minimum = file_of(12, 86_401, &windows);
                all.push(faulty(number, i, &file));
                all.push(faulty(14, 0, &no_minimum));
                for (number, file) in [(3, &file), (14, &no_minimum)] {
                    all.push(faulty(number, 0, &file[..file.len() - 1]));
                    all.push(faulty(number, 0, &[&file[..], &[0]].concat()));
                }
                for j in i + 1..4 {
                    for (_, second) in faulty_windows(minimum, j) {
                        windows = sound(minimum);
                        windows[i] = window;
                        windows[j] = second;
                        all.push(faulty(number, i, &file_of(12, minimum, &windows)));
                    }
                }
            }
        }
    }
    all
}

/// Files as they were before there was a minimum, 4 bytes shorter than one is now. The first offset stands where the minimum does: the
/// empty file is refused by 1; n too great by 2, as before; an offset that is no minimum by 14; and any other by 3.
fn old_files() -> Vec<Faulty> {
    let old = |number, windows: &[(u32, u32)]| faulty(number, 0, &old_file_of(12, windows));
    let later = |offset: u32| PLAN_12.map(|window| (window.0 + offset, window.1));
    vec![
        old(1, &[]),
        old(2, &vec![(5, 1); 2049]),
        old(14, &PLAN_12),
        old(14, &later(86_401)),
        old(14, &vec![(0, 1); 2048]),
        old(3, &later(1)),
        old(3, &later(86_400)),
        old(3, &[(5, 5)]),
        old(3, &vec![(5, 1); 2048]),
    ]
}

/// Every call that takes a file refuses it so, whatever the positions and the rooms are.
pub fn every_call_refuses(comparison: &mut Comparison, file: &[u8], number: u16, position: usize) {
    let [first, second] = [0, 1].map(|input| Answer::Refused(refusal(number, input, position)));
    comparison.validate(file).are(format_args!("validate"), first, &());
    for (room, at) in [(0, 0), (2053, 0), (0, usize::MAX), (2053, usize::MAX)] {
        comparison.build(file, [room; 5], 10 * room).are(format_args!("build"), first, &Columns::default());
        for form in FORMS {
            comparison.tag_file(form, file, form.bytes() * room).are(format_args!("{form:?} tags"), first, &vec![]);
        }
        comparison.reach(file, at).are(format_args!("reach"), first, &());
        comparison.neighbours(file, at, room).are(format_args!("neighbours"), first, &vec![]);
        comparison.chain(file, at, 0, room).are(format_args!("chain"), first, &vec![]);
        comparison.chain(file, 0, at, room).are(format_args!("chain"), first, &vec![]);
    }
    for (u, v) in [(0, 0), (usize::MAX, 0), (0, usize::MAX), (usize::MAX, usize::MAX)] {
        comparison.margin(file, u, v).are(format_args!("margin of {u} and {v}"), first, &vec![]);
    }
    // By the number of plan 12, which question 16 would refuse, and by another.
    for (plan, room, at) in [(12, 0, 0), (13, 0, usize::MAX), (13, 2053, 0)] {
        for what in [What::Add(0, 0), What::Add(0, 86_400), What::Withdraw(at)] {
            let both = comparison.change(file, &Change { plan, what }, [8 + 8 * room, 10 * room]);
            both.are(format_args!("{what:?}, to be plan {plan}"), first, &Changed::default());
        }
    }
    let accepted = file_of(12, 1, &PLAN_12);
    comparison.same(file, &accepted).are(format_args!("same, the first file"), first, &());
    comparison.same(&accepted, file).are(format_args!("same, the second file"), second, &());
}

pub fn faulty_files(comparison: &mut Comparison) {
    for Faulty { file, number, position } in [faulty_headers(), faulty_plans(), old_files()].into_iter().flatten() {
        let before = file.clone();
        every_call_refuses(comparison, &file, number, position);
        assert_eq!(file, before, "a file that was only to be read");
    }
}

/// Files of 0 to 20 bytes with each header. Among them are plans, of no window and of one.
pub fn short_files(comparison: &mut Comparison) {
    for n in [0, 1, 2, 2048, 2049, 65_535] {
        for minimum in MINIMUMS.into_iter().chain(NO_MINIMUMS) {
            for (offset, length) in [(0, 0), (3, minimum), (3, minimum.wrapping_sub(1))] {
                let window = [u32::to_le_bytes(offset), length.to_le_bytes()].concat();
                let file = [headed(n, minimum, 0), window.clone(), window].concat();
                for bytes in 0..=20 {
                    comparison.file(&file[..bytes], Depth::Whole);
                }
            }
        }
    }
}

/// Of two faulty files the first is refused, whatever the numbers are. Of the headers every seventh is taken, some of each number.
pub fn two_files(comparison: &mut Comparison) {
    let single = |i: usize| faulty_windows(5, i).into_iter().map(move |with| (i, with));
    let plans = [0, 3].into_iter().flat_map(single).map(|(i, (number, window))| {
        let mut windows = sound(5);
        windows[i] = window;
        faulty(number, i, &file_of(12, 5, &windows))
    });
    let headers = faulty_headers().into_iter().step_by(7);
    let files: Vec<Faulty> = headers.chain(plans).chain(old_files()).collect();
    for first in &files {
        let refused = Answer::Refused(refusal(first.number, 0, first.position));
        for second in &files {
            comparison.same(&first.file, &second.file).are(format_args!("same"), refused, &());
        }
    }
}

/// The sound windows, later by so many minutes and made so long that all end 100 minutes behind that, but that at each of some
/// positions the end falls by one.
fn falling_at(positions: &[usize], later: u32) -> [(u32, u32); 4] {
    [0, 1, 2, 3].map(|v| {
        let falls = positions.iter().filter(|&&at| at <= v).count() as u32;
        let offset = sound(5)[v].0;
        (later + offset, 100 - falls - offset)
    })
}

/// Question 13, alone and twice, whatever the room is; and with any of 14 and 3 to 6, at whichever window that is, which come first.
/// It is asked of ends near the first minute, about 2^31 and near the last.
pub fn falling_ends(comparison: &mut Comparison) {
    let falls: [&[usize]; 7] = [&[1], &[2], &[3], &[1, 2], &[1, 3], &[2, 3], &[1, 2, 3]];
    for (falls, later) in falls.into_iter().flat_map(|falls| [0, (1 << 31) - 100, LATEST - 100].map(|later| (falls, later))) {
        let windows = falling_at(falls, later);
        let file = file_of(12, 5, &windows);
        comparison.validate(&file).agree(format_args!("validate of falling ends"));
        let mut refuses = |file: &[u8], number: u16, position: usize| {
            for room in [0, 31, 32, 33] {
                let what = format_args!("short tags of ends that fall at {falls:?}, {later} minutes later, room for {room}");
                let refused = Answer::Refused(refusal(number, 0, position));
                comparison.tag_file(Form::Short, file, room).are(what, refused, &vec![]);
            }
        };
        refuses(&file, 13, falls[0]);
        // It goes by ends alone, whatever the minimum is.
        refuses(&file_of(12, 57, &windows), 13, falls[0]);
        refuses(&file_of(12, 1, &windows), 13, falls[0]);
        refuses(&file_of(12, 0, &windows), 14, 0);
        refuses(&file[..file.len() - 1], 3, 0);
        for at in 0..windows.len() {
            for (number, window) in faulty_windows(5, at) {
                let mut other = windows;
                other[at] = window;
                refuses(&file_of(12, 5, &other), number, at);
            }
        }
    }
}

/// Accepted plans: none, one, two that touch, two that overlap, plan 12, the same made even, at the end of the line, and by a
/// minimum of 5; two that share 5 minutes, by 5 and by 6; the longest window, and one that shares the greatest minimum with it.
pub fn sound_plans() -> Vec<Vec<u8>> {
    let two = [(0, 10), (5, 10)];
    let plans: [(u32, &[(u32, u32)]); 11] = [
        (1, &[]),
        (1, &[(5, 5)]),
        (1, &[(0, 10), (10, 5)]),
        (1, &[(5, 5), (5, 5)]),
        (1, &PLAN_12),
        (1, &PLAN_12_EVEN),
        (1, &at_the_end(&PLAN_12)),
        (5, &lengthened(&PLAN_12, 4)),
        (5, &two),
        (6, &two),
        (86_400, &[(0, LATEST), (LATEST - 86_400, 86_400)]),
    ];
    plans.map(|(minimum, windows)| file_of(12, minimum, windows)).to_vec()
}

/// Every position of n windows, and positions past them: the next ones, those that are windows in 16, 32, 61 or 63 bits, and
/// those that are windows in 64 bits once they have been multiplied by ten.
pub fn positions(n: usize) -> Vec<usize> {
    let cut = [1 << 16, 1 << 32, 1 << 61, 1 << 63].into_iter().flat_map(|high| [high, high + n.saturating_sub(1)]);
    (0..n).chain([n, n + 1, 2047, 2048, usize::MAX / 10, usize::MAX / 10 + 1, usize::MAX]).chain(cut).collect()
}

/// Each position and each two, where a call takes a table with every room from none to more than any answer needs.
pub fn positions_and_rooms(comparison: &mut Comparison) {
    for file in sound_plans() {
        let n = windows_in(&file);
        for first in positions(n) {
            comparison.reach(&file, first).agree(format_args!("reach of {first}"));
            for second in positions(n) {
                comparison.margin(&file, first, second).agree(format_args!("margin of {first} and {second}"));
            }
            for room in 0..=n + 1 {
                comparison.neighbours(&file, first, room).agree(format_args!("neighbours of {first}, room for {room}"));
                for second in positions(n) {
                    let what = format_args!("chain of {first} and {second}, room for {room}");
                    comparison.chain(&file, first, second, room).agree(what);
                }
            }
        }
    }
}

/// Each table and the tag file one too short, exactly fitting or one longer, in every combination.
pub fn rooms_of_build(comparison: &mut Comparison) {
    for file in sound_plans() {
        let n = windows_in(&file);
        for choice in 0..3_usize.pow(6) {
            let room = |table: u32, entries: usize| (entries + choice / 3_usize.pow(table) % 3).saturating_sub(1);
            let rooms = [0, 1, 2, 3, 4].map(|table| room(table, n));
            let tags = room(5, 10 * n);
            comparison.build(&file, rooms, tags).agree(format_args!("build with rooms {rooms:?} and {tags}"));
        }
    }
}

/// The tag file alone, into every room from none to more than either form needs, and into rooms that are too little in 16 bits.
pub fn rooms_of_tags(comparison: &mut Comparison, form: Form) {
    for file in sound_plans() {
        let n = windows_in(&file);
        for room in (0..10 * n + 12).chain([65_536, 65_536 + form.bytes() * n - n.min(1)]) {
            comparison.tag_file(form, &file, room).agree(format_args!("{form:?} tags, room for {room}"));
        }
    }
    let longest = file_of(12, 1, &vec![(0, 1); 2048]);
    let whole = 2048 * form.bytes();
    for room in [0, whole - 1, whole, whole + 1] {
        comparison.tag_file(form, &longest, room).agree(format_args!("{form:?} tags of 2,048 windows, room for {room}"));
    }
}

/// Byte strings as tags, each with the question, 9 or 10, that refuses it, and 0 where neither does.
pub fn tags(form: Form) -> Vec<(u16, Vec<u8>)> {
    let numbers = form.numbers();
    let sound = [
        [12, 0, 2, 2, 1],
        [12, 0, 3, 1, 1],
        [12, 1, 0, 0, 0],
        // Beside the first: of another plan, at another depth, with another last, of another plan and at another depth, in
        // another component.
        [13, 0, 2, 2, 1],
        [12, 0, 1, 2, 1],
        [12, 0, 2, 2, 0],
        [13, 0, 1, 2, 1],
        [12, 1, 2, 2, 1],
        [65_535, 2047, 2047, 2047, 2047],
        [65_535, 2047, 0, 0, 0],
    ];
    let mut all: Vec<(u16, Vec<u8>)> = sound.map(|tag| (0, tag_bytes(&tag[..numbers]))).to_vec();
    for plan in [12, 13] {
        for field in 1..numbers {
            for number in [2048, 65_535] {
                let mut tag = [plan, 0, 2, 2, 1];
                tag[field] = number;
                all.push((10, tag_bytes(&tag[..numbers])));
            }
        }
    }
    // A tag of the other form is among them. The longest has a tag's length in 16 bits; where all bytes are 255, each field
    // is too great as well.
    let right = form.bytes();
    let wrong = [0, 1, 7, 8, 9, 10, 11, 2 * right, 65_536 + right].into_iter().filter(|&length| length != right);
    all.extend(wrong.map(|length| (9, vec![0; length])));
    all.extend([right - 1, right + 1].map(|length| (9, vec![255; length])));
    all
}

/// Each two, in both orders: the first tag's refusal, then the second's, and then 11 and 12. From a tag file of the two it is
/// the same, and a tag that is not named is not asked.
pub fn two_tags(comparison: &mut Comparison, form: Form) {
    let tags = tags(form);
    for (first_number, first) in &tags {
        for (second_number, second) in &tags {
            let both = comparison.pair(form, first, second);
            let shown = |tag: &[u8]| tag[..tag.len().min(12)].to_vec();
            let what = format_args!("{form:?} pair of {:?} and {:?}", shown(first), shown(second));
            match (first_number, second_number) {
                (0, 0) => both.agree(what),
                (0, &number) => both.are(what, Answer::Refused(refusal(number, 1, 0)), &()),
                (&number, _) => both.are(what, Answer::Refused(refusal(number, 0, 0)), &()),
            }
            if first.len() == form.bytes() && second.len() == form.bytes() {
                let file = [&first[..], second].concat();
                comparison.pair_at(form, &file, 0, 1).are(what, both.oracle, &());
                comparison.pair_at(form, &file, 0, 0).are(what, comparison.pair(form, first, first).oracle, &());
            }
        }
    }
}

/// Tag files of every length, the last with more tags than 16 bits can count; 9 comes before 7, and the first position before
/// the second.
pub fn tag_files(comparison: &mut Comparison, form: Form) {
    let tag = form.bytes();
    let edges = [7, 2048, 2049, 65_536, 65_537].into_iter().flat_map(|n| [tag * n - 1, tag * n, tag * n + 1]);
    for length in (0..=41).chain(edges) {
        let tags = vec![7; length];
        let n = length / tag;
        let ends = [n.saturating_sub(2), n.saturating_sub(1), 65_535, 65_536];
        for at in positions(n.min(4)).into_iter().chain(ends).chain([n, n + 1]) {
            if form == Form::Long {
                comparison.lookup(&tags, at).agree(format_args!("lookup of {at} in {length} bytes"));
            }
            for other in positions(n.min(4)).into_iter().chain(ends) {
                let what = format_args!("{form:?} pair at {at} and {other} in {length} bytes");
                comparison.pair_at(form, &tags, at, other).agree(what);
            }
        }
    }
}

/// Each field at its limit and above it, into too little room, room that fits and more; 8 comes before 10. The greatest room is
/// a byte too little in 16 bits.
pub fn written_tags(comparison: &mut Comparison, form: Form) {
    for field in 0..form.numbers() {
        for number in [0, 255, 256, 2047, 2048, 32_768, 65_535] {
            let mut tag = [12, 0, 2, 2, 1];
            tag[field] = number;
            let tag = &tag[..form.numbers()];
            for room in (0..=12).chain([65_535 + form.bytes()]) {
                comparison.write(tag, room).agree(format_args!("write of {tag:?} into {room} bytes"));
            }
        }
    }
}
