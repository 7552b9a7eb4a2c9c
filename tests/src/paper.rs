//! Every case of paper 01 by name, put to the library and to the oracle: both must have the paper's number, and leave every lent
//! byte alike. The numbers stand as the paper prints them and none is computed; the few that it does not print follow from its
//! words: a chain of two windows, the components of a plan of one window, plan 12 twice; and from those of paper 02: the short
//! tags of plan 12 made even, what becomes of two and three windows as the minimum rises, pages of plan 12,
//! and, found by hand, reaches of few windows, plans that are changed, margins of plan 12 and of few windows
//! and all of these at the end of the line.
use crate::answers::{refusal, Answer, Refusal};
use crate::compare::Comparison;
use crate::forms::Form;
use crate::oracle::{tag_bytes, Change, Changed, Columns, What};
use crate::pages;
use crate::refusals::every_call_refuses;
use crate::shapes::{file_of, minimum_in, old_file_of, windows_in};
use std::ops::Range;
use Says::*;

pub const PLAN_12: [(u32, u32); 7] = [(0, 10), (2, 3), (4, 12), (9, 2), (12, 6), (17, 1), (18, 4)];

/// Plan 12 with windows 1 and 3 longer, so that no end falls. Its tree is that of plan 12.
pub const PLAN_12_EVEN: [(u32, u32); 7] = [(0, 10), (2, 9), (4, 12), (9, 8), (12, 6), (17, 1), (18, 4)];

/// The listing of plan 12, as the paper prints it.
const LISTING: &str = "\
12 7 2
0 0 0 0 5 4
1 0 0 1 0 3
2 0 0 1 3 2
3 0 0 1 4 4
4 2 0 2 2 1
5 4 0 3 1 1
6 6 1 0 0 0
";

/// Plan 12 with its like 100 minutes later: positions and parents go on, and components; ranks start again.
const LISTING_TWICE: &str = "\
12 14 4
0 0 0 0 5 4
1 0 0 1 0 3
2 0 0 1 3 2
3 0 0 1 4 4
4 2 0 2 2 1
5 4 0 3 1 1
6 6 1 0 0 0
7 7 2 0 5 4
8 7 2 1 0 3
9 7 2 1 3 2
10 7 2 1 4 4
11 9 2 2 2 1
12 11 2 3 1 1
13 13 3 0 0 0
";

/// What the paper says of a plan file.
enum Says {
    /// The whole listing.
    Lists(&'static str),
    /// The listing's first line: plan number, windows, components.
    Begins(u16, u16, u16),
    /// Of two windows, the number of handovers, and the chain where the paper has it. Of 0 or 1 it is the windows themselves.
    Handovers(usize, usize, u16, Option<&'static [u16]>),
    NoChain(usize, usize),
    /// Of each of some positions, the reach of its component and the pair that comes with it.
    Reach(Range<usize>, u16, (u16, u16)),
    /// Of a position.
    Rank(usize, u16),
    RankOfLast(usize, u16),
    /// The number of the question, and the position.
    Refused(u16, usize),
    /// The short tags.
    ShortTags(&'static [[u16; 4]]),
    /// Of two windows of an even plan, the number of handovers by their short tags.
    ShortHandovers(usize, usize, u16),
    /// No short tags: at this position an end falls.
    Falls(usize),
    /// Beside a plan of this minimum and these windows: the same, or not.
    Same(u32, &'static [(u32, u32)]),
    Different(u32, &'static [(u32, u32)]),
    /// Of a position, the windows that overlap it.
    Neighbours(usize, &'static [u16]),
    /// Of each two positions, what a page says, and that a tag file of wrong length refuses it.
    Page(&'static [(usize, usize, Answer)]),
    /// A change makes a plan of these windows of it, which has this listing.
    Becomes(Change, &'static [(u32, u32)], &'static str),
    /// A change is refused by this question.
    Stays(Change, u16),
    /// Of each two positions, the margin.
    Margins(&'static [(usize, usize, i64)]),
    /// Of two positions, what refuses their margin.
    NoMargin(usize, usize, Answer),
}

pub struct Case {
    pub name: &'static str,
    pub file: Vec<u8>,
    says: Says,
}

/// A case by a minimum of 1, by which paper 01's are as they were.
fn case(name: &'static str, windows: &[(u32, u32)], says: Says) -> Case {
    by(1, name, windows, says)
}

fn by(minimum: u32, name: &'static str, windows: &[(u32, u32)], says: Says) -> Case {
    Case { name, file: file_of(12, minimum, windows), says }
}

pub fn cases() -> Vec<Case> {
    let paper_01 = [worked(), edges(), long_inputs(), traps()];
    let paper_02 = [short_tags(), minimums(), rising_minimums(), minimums_refused(), pages_of_pairs(), reaches()];
    let changes = [added(), withdrawn(), changes_refused()];
    let margins = [margins(), margins_by_minimums(), margins_refused()];
    let late = [latest_ends(), late_overlaps(), late_plans(), late_short_tags(), late_margins(), late_changes(), late_refused()];
    paper_01.into_iter().chain(paper_02).chain(changes).chain(margins).chain(late).flatten().collect()
}

fn worked() -> Vec<Case> {
    let plan_12 = |name, says| case(name, &PLAN_12, says);
    vec![
        plan_12("plan 12: the listing", Lists(LISTING)),
        plan_12("P 0 to 5 is 3, chain 5 4 2 0", Handovers(0, 5, 3, Some(&[5, 4, 2, 0]))),
        plan_12("P 1 to 5 is 3", Handovers(1, 5, 3, None)),
        plan_12("P 3 to 5 is 3, chain 5 4 2 3", Handovers(3, 5, 3, Some(&[5, 4, 2, 3]))),
        plan_12("P 2 to 3 is 1", Handovers(2, 3, 1, Some(&[3, 2]))),
        plan_12("P 1 to 3 is 2, chain 3 0 1", Handovers(1, 3, 2, Some(&[3, 0, 1]))),
        plan_12("P 3 to 4 is 2", Handovers(3, 4, 2, None)),
        plan_12("P 4 to 5 is 1", Handovers(4, 5, 1, Some(&[5, 4]))),
        plan_12("P 5 to 6: no chain", NoChain(5, 6)),
        plan_12("P 6 to 6 is 0", Handovers(6, 6, 0, Some(&[6]))),
    ]
}

fn edges() -> Vec<Case> {
    let short = |name, says| Case { name, file: vec![12, 0, 1, 8, 1, 0, 0, 0], says };
    vec![
        case("n 2,048 passes", &vec![(0, 1); 2048], Begins(12, 2048, 1)),
        case("n 2,049 is 2", &vec![(0, 1); 2049], Refused(2, 0)),
        short("n 2,049 is 2 even in a short file", Refused(2, 0)),
        case("sum 10,000,000 passes: a long window", &[(0, 10_000_000)], Begins(12, 1, 1)),
        case("sum 10,000,000 passes: a late window", &[(9_999_999, 1)], Begins(12, 1, 1)),
        case("length 0 and a falling offset together: 4", &[(5, 5), (4, 0)], Refused(4, 1)),
        case("P (0, 10) (10, 5) are two components", &[(0, 10), (10, 5)], Begins(12, 2, 2)),
        case("P (0, 11) (10, 5) are one component", &[(0, 11), (10, 5)], Begins(12, 2, 1)),
        case("(0, 11) (10, 5): 1 handover", &[(0, 11), (10, 5)], Handovers(0, 1, 1, Some(&[1, 0]))),
        case("two windows (5, 5): 1 handover", &[(5, 5), (5, 5)], Handovers(0, 1, 1, Some(&[1, 0]))),
        case("eight bytes with plan number 12 and n = 0", &[], Lists("12 0 0\n")),
    ]
}

/// As many bytes as are asked for, of which the first 16,392 are a plan of 2,048 windows, each over the next.
fn long_input(bytes: usize) -> Vec<u8> {
    let windows: Vec<(u32, u32)> = (0..2048).map(|v| (2 * v, 3)).collect();
    let mut file = file_of(12, 1, &windows);
    file.resize(bytes, 0);
    file
}

/// "a buffer of 16,389 zero bytes (one more than any plan)", and paper 02: "The program's buffer grows by 4."
fn long_inputs() -> Vec<Case> {
    let long = |name, bytes, says| Case { name, file: long_input(bytes), says };
    vec![
        long("16,392 bytes are the longest plan", 16_392, Begins(12, 2048, 1)),
        long("16,391 bytes for 2,048 windows are 3", 16_391, Refused(3, 0)),
        long("16,388 bytes, the longest plan of before, are 3", 16_388, Refused(3, 0)),
        long("16,393 bytes, as many as the listing's buffer, are 3", 16_393, Refused(3, 0)),
        long("16,394 bytes, one more than the buffer, are 3", 16_394, Refused(3, 0)),
        long("70,000 bytes are 3", 70_000, Refused(3, 0)),
        // In 16 bits this length is that of the longest plan.
        long("16,392 and 65,536 bytes are 3", 16_392 + 65_536, Refused(3, 0)),
    ]
}

/// Plan 12 with its like 100 minutes later.
fn plan_12_twice() -> Vec<(u32, u32)> {
    [PLAN_12, PLAN_12.map(|(offset, length)| (offset + 100, length))].concat()
}

fn traps() -> Vec<Case> {
    const MOST: u32 = 4_294_967_295;
    let twice = plan_12_twice();
    vec![
        case("\"<\" for \"≤\": windows 4 and 5 of plan 12 are 1", &PLAN_12, Handovers(4, 5, 1, Some(&[5, 4]))),
        case("touching ends as overlap: (0, 10) (10, 5) have no chain", &[(0, 10), (10, 5)], NoChain(0, 1)),
        case("a sum in 32 bits: 4,294,967,295 twice is 5", &[(MOST, MOST)], Refused(5, 0)),
        // The sum of the case before is too great in 32 bits too. This one would be 5 minutes there.
        case("a sum in 32 bits: (4,294,967,295, 6) is 5", &[(MOST, 6)], Refused(5, 0)),
        case("ranks that run on: window 6 of plan 12 has rank 0", &PLAN_12, Rank(6, 0)),
        case("ranks that run on: plan 12 twice", &twice, Lists(LISTING_TWICE)),
        // The lasts of these three stand one level below them.
        case("the last on one level only: window 0 of plan 12", &PLAN_12, RankOfLast(0, 4)),
        case("the last on one level only: window 2 of plan 12", &PLAN_12, RankOfLast(2, 2)),
        case("the last on one level only: window 4 of plan 12", &PLAN_12, RankOfLast(4, 1)),
    ]
}

const SHORT_TAGS: [[u16; 4]; 7] =
    [[12, 0, 0, 5], [12, 0, 1, 0], [12, 0, 1, 3], [12, 0, 1, 4], [12, 0, 2, 2], [12, 0, 3, 1], [12, 1, 0, 0]];

/// Paper 02, Q-1.
fn short_tags() -> Vec<Case> {
    let even = |name, says| case(name, &PLAN_12_EVEN, says);
    vec![
        even("plan 12 made even: its short tags", ShortTags(&SHORT_TAGS)),
        even("1 and 3 of plan 12 made even: 1 handover", ShortHandovers(1, 3, 1)),
        even("3 and 5 of plan 12 made even: 2 handovers", ShortHandovers(3, 5, 2)),
        even("1 and 5 of plan 12 made even: 3 handovers", ShortHandovers(1, 5, 3)),
        // By the short rule windows 1 and 3 would be 1 handover apart.
        case("an end falls in plan 12 at position 1", &PLAN_12, Falls(1)),
        case("an end falls by a minute", &[(0, 10), (0, 9)], Falls(1)),
        case("equal ends do not fall", &[(0, 10), (1, 9)], ShortTags(&[[12, 0, 0, 1], [12, 0, 1, 0]])),
        case("eight bytes with n = 0: no short tags, and no refusal", &[], ShortTags(&[])),
        by(9, "an end falls by a minute, by minimum 9", &[(0, 10), (0, 9)], Falls(1)),
        by(9, "equal ends do not fall, by minimum 9", &[(0, 10), (1, 9)], ShortTags(&[[12, 0, 0, 1], [12, 0, 1, 0]])),
        by(9, "ends that rise, by a minimum that no two share", &[(0, 10), (2, 9)], ShortTags(&[[12, 0, 0, 0], [12, 1, 0, 0]])),
    ]
}

/// Two windows that share 5 minutes.
const TWO: [(u32, u32); 2] = [(0, 10), (5, 10)];

/// The first and the second share 6 minutes, the second and the third 5, the first and the third 1.
const THREE: [(u32, u32); 3] = [(0, 10), (4, 10), (9, 10)];

/// Paper 02, Q-2: "Two windows overlap when they share at least that many minutes."
fn minimums() -> Vec<Case> {
    let longer = PLAN_12.map(|(offset, length)| (offset, length + 4));
    let longest = vec![(0, 86_400); 2048];
    let near: Vec<(u32, u32)> = (0..2048).map(|v| (2 * v, 100)).collect();
    vec![
        by(5, "two windows share 5 minutes, minimum 5: 1 handover", &TWO, Handovers(0, 1, 1, Some(&[1, 0]))),
        by(6, "two windows share 5 minutes, minimum 6: no chain", &TWO, NoChain(0, 1)),
        by(5, "two windows share 5 minutes, minimum 5: the listing", &TWO, Lists("12 2 1\n0 0 0 0 1 0\n1 0 0 1 0 0\n")),
        by(6, "two windows share 5 minutes, minimum 6: the listing", &TWO, Lists("12 2 2\n0 0 0 0 0 0\n1 1 1 0 0 0\n")),
        by(5, "two windows share 5 minutes, minimum 5: short tags", &TWO, ShortTags(&[[12, 0, 0, 1], [12, 0, 1, 0]])),
        by(6, "two windows share 5 minutes, minimum 6: short tags", &TWO, ShortTags(&[[12, 0, 0, 0], [12, 1, 0, 0]])),
        by(10, "two windows just as long as the minimum pass", &TWO, Begins(12, 2, 2)),
        by(5, "a window inside another shares its length", &[(0, 20), (7, 5)], Handovers(0, 1, 1, Some(&[1, 0]))),
        by(5, "two windows (5, 5), minimum 5: 1 handover", &[(5, 5), (5, 5)], Handovers(0, 1, 1, Some(&[1, 0]))),
        by(5, "(0, 10) (10, 5), minimum 5, touch: two components", &[(0, 10), (10, 5)], Begins(12, 2, 2)),
        by(5, "(0, 11) (10, 5), minimum 5, share a minute: two components", &[(0, 11), (10, 5)], Begins(12, 2, 2)),
        // Each two share 4 minutes more than in plan 12, or have 4 minutes less between them.
        by(5, "plan 12 with windows 4 minutes longer, minimum 5: the listing", &longer, Lists(LISTING)),
        by(5, "the same, P 3 to 5 is 3, chain 5 4 2 3", &longer, Handovers(3, 5, 3, Some(&[5, 4, 2, 3]))),
        by(300, "two windows share 300 minutes, minimum 300: 1 handover", &[(0, 600), (300, 600)], Handovers(0, 1, 1, Some(&[1, 0]))),
        by(301, "two windows share 300 minutes, minimum 301: no chain", &[(0, 600), (300, 600)], NoChain(0, 1)),
        by(86_400, "two windows share 86,400 minutes: 1 handover", &[(0, 90_000), (3_600, 90_000)], Handovers(0, 1, 1, Some(&[1, 0]))),
        by(86_400, "two windows share 86,399 minutes: no chain", &[(0, 90_000), (3_601, 90_000)], NoChain(0, 1)),
        by(86_400, "86,400 passes", &[(0, 86_400)], Begins(12, 1, 1)),
        by(86_400, "86,400 with no window passes", &[], Lists("12 0 0\n")),
        by(86_400, "2,048 windows of 86,400 minutes", &longest, Begins(12, 2048, 1)),
        by(98, "2,048 windows that share 98 minutes with the next, minimum 98", &near, Begins(12, 2048, 1)),
        by(99, "2,048 windows that share 98 minutes with the next, minimum 99", &near, Begins(12, 2048, 2048)),
    ]
}

/// A chain that needs a third window once the minimum rises, and a component that falls apart.
fn rising_minimums() -> Vec<Case> {
    let all = "12 3 1\n0 0 0 0 2 1\n1 0 0 1 0 1\n2 0 0 1 1 1\n";
    let in_line = "12 3 1\n0 0 0 0 2 1\n1 0 0 1 1 0\n2 1 0 2 0 0\n";
    let apart = "12 3 2\n0 0 0 0 1 0\n1 0 0 1 0 0\n2 2 1 0 0 0\n";
    let alone = "12 3 3\n0 0 0 0 0 0\n1 1 1 0 0 0\n2 2 2 0 0 0\n";
    vec![
        by(1, "three windows, minimum 1: the listing", &THREE, Lists(all)),
        by(2, "three windows, minimum 2: the listing", &THREE, Lists(in_line)),
        by(5, "three windows, minimum 5: the listing", &THREE, Lists(in_line)),
        by(6, "three windows, minimum 6: the listing", &THREE, Lists(apart)),
        by(7, "three windows, minimum 7: the listing", &THREE, Lists(alone)),
        by(10, "three windows, minimum 10: the listing", &THREE, Lists(alone)),
        by(1, "three windows, minimum 1: 1 handover", &THREE, Handovers(0, 2, 1, Some(&[2, 0]))),
        by(2, "three windows, minimum 2: a third window is needed", &THREE, Handovers(0, 2, 2, Some(&[2, 1, 0]))),
        by(5, "three windows, minimum 5: a third window is needed", &THREE, Handovers(0, 2, 2, Some(&[2, 1, 0]))),
        by(6, "three windows, minimum 6: no chain", &THREE, NoChain(0, 2)),
        by(1, "three windows, minimum 1: neighbours of 0", &THREE, Neighbours(0, &[1, 2])),
        by(5, "three windows, minimum 5: neighbours of 0", &THREE, Neighbours(0, &[1])),
        by(5, "three windows, minimum 5: neighbours of 1", &THREE, Neighbours(1, &[0, 2])),
        by(6, "three windows, minimum 6: neighbours of 1", &THREE, Neighbours(1, &[0])),
        by(7, "three windows, minimum 7: neighbours of 1", &THREE, Neighbours(1, &[])),
        // Each two overlap, and 0 and 1 are the first two.
        by(1, "three windows, minimum 1: reach 1", &THREE, Reach(0..3, 1, (0, 1))),
        // From 0 to 2 by way of 1; all others overlap.
        by(2, "three windows, minimum 2: reach 2", &THREE, Reach(0..3, 2, (0, 2))),
        by(5, "three windows, minimum 5: reach 2", &THREE, Reach(0..3, 2, (0, 2))),
        // The third stands alone, and by a minimum of 7 so does each.
        by(6, "three windows, minimum 6: reach 1 of 0 and 1", &THREE, Reach(0..2, 1, (0, 1))),
        by(6, "three windows, minimum 6: reach 0 of 2", &THREE, Reach(2..3, 0, (2, 2))),
        by(7, "three windows, minimum 7: reach 0 of 0", &THREE, Reach(0..1, 0, (0, 0))),
        by(7, "three windows, minimum 7: reach 0 of 1", &THREE, Reach(1..2, 0, (1, 1))),
        by(2, "three windows, minimums 2 and 5: the same", &THREE, Same(5, &THREE)),
        by(1, "three windows, minimums 1 and 2: not the same", &THREE, Different(2, &THREE)),
        by(5, "three windows, minimums 5 and 6: not the same", &THREE, Different(6, &THREE)),
        by(6, "two windows apart by minimum 6, and by touching", &TWO, Same(1, &[(0, 10), (10, 10)])),
        by(5, "two windows, minimum 5, and the same, touching", &TWO, Different(1, &[(0, 10), (10, 10)])),
        by(5, "two windows, minimums 5 and 6: not the same", &TWO, Different(6, &TWO)),
        by(1, "two windows, minimums 1 and 5: the same", &TWO, Same(5, &TWO)),
        by(1, "two empty plans, minimums 1 and 86,400: the same", &[], Same(86_400, &[])),
    ]
}

/// "Every window is at least that long", "four bytes are 1", and 14, "a minimum outside 1 to 86,400, after 2".
fn minimums_refused() -> Vec<Case> {
    let file = |name, file: Vec<u8>, says| Case { name, file, says };
    let cut = |name, minimum, bytes: usize, says| Case { name, file: file_of(12, minimum, &TWO)[..bytes].to_vec(), says };
    vec![
        by(11, "windows of 10 minutes, minimum 11: 4 at position 0", &TWO, Refused(4, 0)),
        by(2, "plan 12, minimum 2: 4 at position 5", &PLAN_12, Refused(4, 5)),
        by(5, "(5, 6) (5, 4), minimum 5: 4 at position 1", &[(5, 6), (5, 4)], Refused(4, 1)),
        by(86_400, "86,399 minutes, minimum 86,400: 4", &[(0, 86_399)], Refused(4, 0)),
        by(5, "length 4, minimum 5, and a falling offset together: 4", &[(5, 5), (4, 4)], Refused(4, 1)),
        by(0, "minimum 0 is 14", &TWO, Refused(14, 0)),
        by(86_401, "minimum 86,401 is 14", &TWO, Refused(14, 0)),
        by(86_401, "minimum 86,401 is 14, also where windows are as long", &[(0, 86_401)], Refused(14, 0)),
        by(4_294_967_295, "minimum 4,294,967,295 is 14", &TWO, Refused(14, 0)),
        by(0, "minimum 0 is 14 where no window is", &[], Refused(14, 0)),
        by(0, "minimum 0 is 14 where a window has length 0", &[(0, 0)], Refused(14, 0)),
        by(0, "n 2,049 and minimum 0 is 2", &vec![(0, 1); 2049], Refused(2, 0)),
        file("n 2,049 and minimum 0 is 2 even in a short file", vec![12, 0, 1, 8, 0, 0, 0, 0], Refused(2, 0)),
        cut("minimum 0 is 14 in a file that is too short", 0, 23, Refused(14, 0)),
        cut("minimum 86,401 is 14 in a file of 8 bytes", 86_401, 8, Refused(14, 0)),
        cut("a file that is too short is 3", 5, 23, Refused(3, 0)),
        cut("seven bytes are 1", 5, 7, Refused(1, 0)),
        file("four bytes are 1", vec![12, 0, 0, 0], Refused(1, 0)),
        file("plan 12 as it was before is 14", old_file_of(12, &PLAN_12), Refused(14, 0)),
        file("a window (5, 5) as it was before is 3", old_file_of(12, &[(5, 5)]), Refused(3, 0)),
    ]
}

const PAST_FIRST: Answer = Answer::Refused(Refusal { number: 7, input: 0, position: 0 });

const PAST_SECOND: Answer = Answer::Refused(Refusal { number: 7, input: 1, position: 0 });

/// The pairs of paper 01.
const PAGE: [(usize, usize, Answer); 9] = [
    (0, 5, Answer::Handovers(3)),
    (1, 5, Answer::Handovers(3)),
    (3, 5, Answer::Handovers(3)),
    (2, 3, Answer::Handovers(1)),
    (1, 3, Answer::Handovers(2)),
    (3, 4, Answer::Handovers(2)),
    (4, 5, Answer::Handovers(1)),
    (5, 6, Answer::NoChain),
    (6, 6, Answer::Handovers(0)),
];

/// Some of them, and positions that plan 12 does not have.
const PAGE_WITH_PAST: [(usize, usize, Answer); 6] = [
    (7, 0, PAST_FIRST),
    (0, 5, Answer::Handovers(3)),
    (6, 7, PAST_SECOND),
    (5, 6, Answer::NoChain),
    (7, 8, PAST_FIRST),
    (4, 5, Answer::Handovers(1)),
];

/// Paper 02, Q-4.
fn pages_of_pairs() -> Vec<Case> {
    vec![
        case("a page of the pairs marked P", &PLAN_12, Page(&PAGE)),
        case("a page with positions past plan 12: no refusal of the page", &PLAN_12, Page(&PAGE_WITH_PAST)),
        case("a page of no records", &PLAN_12, Page(&[])),
        case("a page of the plan with no window", &[], Page(&[(0, 0, PAST_FIRST)])),
    ]
}

/// Windows 0, 2 and 3 overlap each other. Window 1 overlaps 0 alone and has 2 handovers to 2 and to 3; all other pairs have 1.
const AWAY_FROM_THE_FIRST: [(u32, u32); 4] = [(0, 10), (1, 1), (5, 10), (6, 10)];

/// Three pairs have 2 handovers: 0 and 4 by way of 1, and window 2, which 0 and 1 cover, with 3 and with 4.
const MORE_THAN_ONE_PAIR: [(u32, u32); 5] = [(0, 4), (1, 4), (2, 1), (3, 2), (4, 1)];

/// Two windows that overlap; one that begins where they end and ends where the next begins; two that overlap.
const ONE_BETWEEN: [(u32, u32); 5] = [(0, 10), (5, 10), (15, 5), (20, 10), (25, 10)];

/// A window alone; the four whose pair is not with the first of them; three in line.
const IN_THE_MIDDLE: [(u32, u32); 8] = [(0, 5), (10, 10), (11, 1), (15, 10), (16, 10), (30, 4), (32, 4), (35, 4)];

/// Paper 02, Q-5.
fn reaches() -> Vec<Case> {
    let plan_12 = |name, says| case(name, &PLAN_12, says);
    let twice = |name, says| case(name, &plan_12_twice(), says);
    let in_line: Vec<(u32, u32)> = (0..2048).map(|v| (2 * v, 3)).collect();
    vec![
        plan_12("reach in plan 12: 3 for position 0, pair 0 and 5", Reach(0..1, 3, (0, 5))),
        plan_12("reach in plan 12: the same for its whole component", Reach(1..6, 3, (0, 5))),
        plan_12("reach in plan 12: 0 for position 6, its window twice", Reach(6..7, 0, (6, 6))),
        case("the pair need not start at the first window", &AWAY_FROM_THE_FIRST, Reach(0..4, 2, (1, 2))),
        case("of 0 and 4 and 2 and 3, 0 and 4 come first: by the smaller", &MORE_THAN_ONE_PAIR, Reach(0..5, 2, (0, 4))),
        case("a window between others: those before", &ONE_BETWEEN, Reach(0..2, 1, (0, 1))),
        case("a window between others: reach 0, its window twice", &ONE_BETWEEN, Reach(2..3, 0, (2, 2))),
        case("a window between others: those behind", &ONE_BETWEEN, Reach(3..5, 1, (3, 4))),
        case("a component in the middle: the one before", &IN_THE_MIDDLE, Reach(0..1, 0, (0, 0))),
        case("a component in the middle: reach 2, pair 2 and 3", &IN_THE_MIDDLE, Reach(1..5, 2, (2, 3))),
        case("a component in the middle: the one behind", &IN_THE_MIDDLE, Reach(5..8, 2, (5, 7))),
        twice("plan 12 twice: the second component", Reach(6..7, 0, (6, 6))),
        twice("plan 12 twice: the third, positions from the plan's start", Reach(7..13, 3, (7, 12))),
        twice("plan 12 twice: the fourth", Reach(13..14, 0, (13, 13))),
        case("two windows (5, 5): reach 1", &[(5, 5), (5, 5)], Reach(0..2, 1, (0, 1))),
        case("(0, 10) (10, 5) touch: reach 0 of 0", &[(0, 10), (10, 5)], Reach(0..1, 0, (0, 0))),
        case("(0, 10) (10, 5) touch: reach 0 of 1", &[(0, 10), (10, 5)], Reach(1..2, 0, (1, 1))),
        case("2,048 windows in line: 2,047, the greatest reach", &in_line, Reach(1024..1025, 2047, (0, 2047))),
    ]
}

/// The window to add, and the number of the plan then.
fn adds(offset: u32, length: u32, plan: u16) -> Change {
    Change { plan, what: What::Add(offset, length) }
}

fn withdraws(at: usize, plan: u16) -> Change {
    Change { plan, what: What::Withdraw(at) }
}

/// Plan 12 with (17, 3) behind (17, 1), which begins with it: it overlaps the window at 12, that at 17 and that at 18, so that what were
/// two components are one.
const PLAN_12_JOINED: [(u32, u32); 8] = [(0, 10), (2, 3), (4, 12), (9, 2), (12, 6), (17, 1), (17, 3), (18, 4)];

const LISTING_JOINED: &str = "\
13 8 1
0 0 0 0 7 6
1 0 0 1 0 5
2 0 0 1 5 4
3 0 0 1 6 6
4 2 0 2 4 3
5 4 0 3 1 3
6 4 0 3 3 2
7 6 0 4 2 2
";

/// Plan 12 with (30, 5) behind all: the tags of before but for the plan number, and one more.
const PLAN_12_LONGER: [(u32, u32); 8] = [(0, 10), (2, 3), (4, 12), (9, 2), (12, 6), (17, 1), (18, 4), (30, 5)];

const LISTING_LONGER: &str = "\
13 8 3
0 0 0 0 5 4
1 0 0 1 0 3
2 0 0 1 3 2
3 0 0 1 4 4
4 2 0 2 2 1
5 4 0 3 1 1
6 6 1 0 0 0
7 7 2 0 0 0
";

/// Paper 02, Q-6: "an added window goes behind all with the same or a smaller offset."
fn added() -> Vec<Case> {
    let one = "13 1 1\n0 0 0 0 0 0\n";
    let apart = "13 2 2\n0 0 0 0 0 0\n1 1 1 0 0 0\n";
    let joined = "13 2 1\n0 0 0 0 1 0\n1 0 0 1 0 0\n";
    let in_line = "13 3 1\n0 0 0 0 2 1\n1 0 0 1 1 0\n2 1 0 2 0 0\n";
    let third_alone = "13 3 2\n0 0 0 0 1 0\n1 0 0 1 0 0\n2 2 1 0 0 0\n";
    let by_5 = |name, change, windows, says| by(5, name, &TWO, Becomes(change, windows, says));
    vec![
        case("(17, 3) to plan 12, behind (17, 1)", &PLAN_12, Becomes(adds(17, 3, 13), &PLAN_12_JOINED, LISTING_JOINED)),
        case("(30, 5) to plan 12, behind all", &PLAN_12, Becomes(adds(30, 5, 13), &PLAN_12_LONGER, LISTING_LONGER)),
        case("a window to the plan with none", &[], Becomes(adds(5, 5, 13), &[(5, 5)], one)),
        case("before all", &[(5, 5)], Becomes(adds(4, 1, 13), &[(4, 1), (5, 5)], apart)),
        case("before all, with a minute in common", &[(5, 5)], Becomes(adds(4, 2, 13), &[(4, 2), (5, 5)], joined)),
        case("behind the window that begins with it", &[(5, 5)], Becomes(adds(5, 1, 13), &[(5, 5), (5, 1)], joined)),
        case("a longer one behind a shorter that begins with it", &[(5, 1)], Becomes(adds(5, 9, 13), &[(5, 1), (5, 9)], joined)),
        case("where the other ends", &[(5, 5)], Becomes(adds(10, 1, 13), &[(5, 5), (10, 1)], apart)),
        case("between two", &[(0, 3), (5, 5)], Becomes(adds(2, 4, 13), &[(0, 3), (2, 4), (5, 5)], in_line)),
        by_5("by minimum 5, 5 minutes are enough", adds(10, 5, 13), &[(0, 10), (5, 10), (10, 5)], in_line),
        by_5("by minimum 5, a minute less is shared", adds(11, 5, 13), &[(0, 10), (5, 10), (11, 5)], third_alone),
    ]
}

/// Plan 12 without the window at 12, which joined the one at 17 to the others.
const PLAN_12_PARTED: [(u32, u32); 6] = [(0, 10), (2, 3), (4, 12), (9, 2), (17, 1), (18, 4)];

const LISTING_PARTED: &str = "\
13 6 3
0 0 0 0 3 2
1 0 0 1 0 1
2 0 0 1 1 2
3 0 0 1 2 2
4 4 1 0 0 0
5 5 2 0 0 0
";

/// Plan 12 without its last window: the tags of before but for the plan number.
const PLAN_12_SHORTER: [(u32, u32); 6] = [(0, 10), (2, 3), (4, 12), (9, 2), (12, 6), (17, 1)];

const LISTING_SHORTER: &str = "\
13 6 1
0 0 0 0 5 4
1 0 0 1 0 3
2 0 0 1 3 2
3 0 0 1 4 4
4 2 0 2 2 1
5 4 0 3 1 1
";

/// "a position to withdraw".
fn withdrawn() -> Vec<Case> {
    let one = "65535 1 1\n0 0 0 0 0 0\n";
    let alone = "0 2 2\n0 0 0 0 0 0\n1 1 1 0 0 0\n";
    let joined = "13 2 1\n0 0 0 0 1 0\n1 0 0 1 0 0\n";
    let without_1 = |minimum, name, says| by(minimum, name, &THREE, Becomes(withdraws(1, 0), &[(0, 10), (9, 10)], says));
    vec![
        case("position 4 of plan 12", &PLAN_12, Becomes(withdraws(4, 13), &PLAN_12_PARTED, LISTING_PARTED)),
        case("position 6 of plan 12, the last", &PLAN_12, Becomes(withdraws(6, 13), &PLAN_12_SHORTER, LISTING_SHORTER)),
        case("the only window", &[(5, 5)], Becomes(withdraws(0, 13), &[], "13 0 0\n")),
        case("the first of two", &[(0, 10), (5, 10)], Becomes(withdraws(0, 65_535), &[(5, 10)], one)),
        case("the first of two that begin together", &[(5, 1), (5, 9)], Becomes(withdraws(0, 65_535), &[(5, 9)], one)),
        case("the second of two that begin together", &[(5, 1), (5, 9)], Becomes(withdraws(1, 65_535), &[(5, 1)], one)),
        case("the last of three, minimum 1", &THREE, Becomes(withdraws(2, 13), &[(0, 10), (4, 10)], joined)),
        without_1(2, "of three in line the one between, minimum 2", alone),
        without_1(5, "of three in line the one between, minimum 5", alone),
    ]
}

/// Q-6: "15, an addition to 2,048 windows, after the plan's checks; 16, a new plan number equal to the old, after 15." "The window's own 4
/// and 5 come after 16 and carry position 0, after which 7 and 8 apply."
fn changes_refused() -> Vec<Case> {
    let plan_12 = |name, change, number| case(name, &PLAN_12, Stays(change, number));
    let full = |name, change, number| case(name, &vec![(0, 1); 2048], Stays(change, number));
    vec![
        full("an addition to 2,048 windows is 15", adds(0, 1, 13), 15),
        full("an addition to 2,048 windows, and the old plan number: 15", adds(0, 1, 12), 15),
        full("an addition to 2,048 windows, and a window of length 0: 15", adds(0, 0, 13), 15),
        full("a withdrawal of 2,048 windows with the old plan number is 16", withdraws(0, 12), 16),
        plan_12("the old plan number is 16", adds(17, 3, 12), 16),
        plan_12("the old plan number, and a window of length 0: 16", adds(17, 0, 12), 16),
        plan_12("the old plan number is 16 where a window is withdrawn", withdraws(4, 12), 16),
        plan_12("the old plan number, and position 7: 16", withdraws(7, 12), 16),
        plan_12("a window of length 0 is 4", adds(17, 0, 13), 4),
        plan_12("a window of length 0 behind all is 4", adds(30, 0, 13), 4),
        plan_12("position 7 of plan 12 is 7", withdraws(7, 13), 7),
        case("position 0 of the plan with no window is 7", &[], Stays(withdraws(0, 13), 7)),
        by(5, "4 minutes, minimum 5: 4", &TWO, Stays(adds(7, 4, 13), 4)),
        by(86_400, "86,399 minutes to the plan with no window, minimum 86,400: 4", &[], Stays(adds(0, 86_399, 13), 4)),
    ]
}

/// Of each two windows of plan 12, and of each with itself.
const MARGINS: [(usize, usize, i64); 28] = [
    (0, 0, 10),
    (0, 1, 3),
    (0, 2, 6),
    (0, 3, 1),
    (0, 4, -2),
    (0, 5, -7),
    (0, 6, -8),
    (1, 1, 3),
    (1, 2, 1),
    (1, 3, -4),
    (1, 4, -7),
    (1, 5, -12),
    (1, 6, -13),
    (2, 2, 12),
    (2, 3, 2),
    (2, 4, 4),
    (2, 5, -1),
    (2, 6, -2),
    (3, 3, 2),
    (3, 4, -1),
    (3, 5, -6),
    (3, 6, -7),
    (4, 4, 6),
    (4, 5, 1),
    (4, 6, 0),
    (5, 5, 1),
    (5, 6, 0),
    (6, 6, 4),
];

/// Paper 02, Q-7: "positive minutes shared, 0 where they touch, and a negative number for the gap. A window with itself gives its length."
fn margins() -> Vec<Case> {
    let two = |name, windows: &[(u32, u32)], due| case(name, windows, Margins(due));
    let in_line: Vec<(u32, u32)> = (0..2048).map(|v| (2 * v, 3)).collect();
    vec![
        case("plan 12: margins", &PLAN_12, Margins(&MARGINS)),
        two("(0, 10) (10, 5) touch: margin 0", &[(0, 10), (10, 5)], &[(0, 1, 0), (0, 0, 10), (1, 1, 5)]),
        two("(0, 11) (10, 5): margin 1", &[(0, 11), (10, 5)], &[(0, 1, 1)]),
        two("(0, 9) (10, 5) have a minute between them: margin -1", &[(0, 9), (10, 5)], &[(0, 1, -1)]),
        two("two windows (5, 5): margin 5", &[(5, 5), (5, 5)], &[(0, 1, 5), (0, 0, 5), (1, 1, 5)]),
        two("two that begin together: the length of the shorter", &[(5, 9), (5, 2)], &[(0, 1, 2)]),
        two("two that end together: the length of the shorter", &[(0, 10), (4, 6)], &[(0, 1, 6)]),
        two("a window inside another: its length", &[(0, 20), (7, 5)], &[(0, 1, 5)]),
        two("windows of a minute that touch: margin 0", &[(3, 1), (4, 1)], &[(0, 1, 0)]),
        two("a gap of 65,536 minutes", &[(0, 1), (65_537, 1)], &[(0, 1, -65_536)]),
        two("65,536 minutes in common", &[(0, 65_537), (1, 65_537)], &[(0, 1, 65_536), (0, 0, 65_537)]),
        two("2,048 windows in line: margins with the last", &in_line, &[(0, 2047, -4_091), (2046, 2047, 1), (2047, 2047, 3)]),
    ]
}

/// "Two different windows overlap just when the margin reaches the minimum."
fn margins_by_minimums() -> Vec<Case> {
    vec![
        by(5, "two windows share 5 minutes, minimum 5: margin 5", &TWO, Margins(&[(0, 1, 5), (0, 0, 10), (1, 1, 10)])),
        by(5, "two windows share 5 minutes, minimum 5: they overlap", &TWO, Neighbours(0, &[1])),
        by(6, "two windows share 5 minutes, minimum 6: margin 5", &TWO, Margins(&[(0, 1, 5), (0, 0, 10), (1, 1, 10)])),
        by(6, "two windows share 5 minutes, minimum 6: no overlap", &TWO, Neighbours(0, &[])),
        by(5, "(0, 10) (10, 5), minimum 5, touch: margin 0", &[(0, 10), (10, 5)], Margins(&[(0, 1, 0)])),
        by(5, "(0, 11) (10, 5), minimum 5, share a minute: margin 1", &[(0, 11), (10, 5)], Margins(&[(0, 1, 1)])),
        by(5, "(0, 9) (10, 5), minimum 5: margin -1", &[(0, 9), (10, 5)], Margins(&[(0, 1, -1)])),
        by(1, "three windows, minimum 1: margins", &THREE, Margins(&[(0, 1, 6), (1, 2, 5), (0, 2, 1)])),
        by(10, "three windows, minimum 10: the same margins", &THREE, Margins(&[(0, 1, 6), (1, 2, 5), (0, 2, 1)])),
        by(86_400, "86,400 minutes in common, minimum 86,400", &[(0, 90_000), (3_600, 90_000)], Margins(&[(0, 1, 86_400)])),
        by(86_400, "86,399 minutes in common, minimum 86,400", &[(0, 90_000), (3_601, 90_000)], Margins(&[(0, 1, 86_399)])),
    ]
}

/// Question 7 of a margin's two positions, "first and then second; where both are at fault the input is 0".
fn margins_refused() -> Vec<Case> {
    let plan_12 = |name, first, second, due| case(name, &PLAN_12, NoMargin(first, second, due));
    vec![
        plan_12("margin of 7 and 0 in plan 12", 7, 0, PAST_FIRST),
        plan_12("margin of 0 and 7 in plan 12", 0, 7, PAST_SECOND),
        plan_12("margin of 7 and 7 in plan 12", 7, 7, PAST_FIRST),
        plan_12("margin of 7 and 8 in plan 12", 7, 8, PAST_FIRST),
        plan_12("margin of 65,536 and 0 in plan 12", 65_536, 0, PAST_FIRST),
        plan_12("margin of 6 and 65,542 in plan 12", 6, 65_542, PAST_SECOND),
        plan_12("margin of 4,294,967,296 and 0 in plan 12", 4_294_967_296, 0, PAST_FIRST),
        plan_12("margin of 0 and the greatest position", 0, usize::MAX, PAST_SECOND),
        plan_12("margin of the greatest position twice", usize::MAX, usize::MAX, PAST_FIRST),
        case("margin of 0 twice in the plan with no window", &[], NoMargin(0, 0, PAST_FIRST)),
    ]
}

/// Paper 02, Q-8: "Check 5 now lets offset + length reach 4,294,967,295." "The old edge case at 10,000,001 passes, and the sum
/// 4,294,967,296 is 5."
fn latest_ends() -> Vec<Case> {
    vec![
        case("10,000,001 passes: a long window", &[(0, 10_000_001)], Begins(12, 1, 1)),
        case("10,000,001 passes: a late window", &[(10_000_000, 1)], Begins(12, 1, 1)),
        case("sum 4,294,967,295 passes: a long window", &[(0, 4_294_967_295)], Begins(12, 1, 1)),
        case("sum 4,294,967,295 passes: a late window", &[(4_294_967_294, 1)], Begins(12, 1, 1)),
        case("sum 4,294,967,295 passes: one in the middle", &[(2_147_483_647, 2_147_483_648)], Begins(12, 1, 1)),
        case("sum 4,294,967,295 passes: 2,048 windows", &vec![(4_294_967_294, 1); 2048], Begins(12, 2048, 1)),
        case("sum 4,294,967,296 is 5: a long window", &[(1, 4_294_967_295)], Refused(5, 0)),
        case("sum 4,294,967,296 is 5: a late window", &[(4_294_967_295, 1)], Refused(5, 0)),
        case("sum 4,294,967,296 is 5: one in the middle", &[(2_147_483_648, 2_147_483_648)], Refused(5, 0)),
        case("sum 4,294,967,296 is 5 at position 1", &[(0, 4_294_967_295), (4_294_967_295, 1)], Refused(5, 1)),
        case("length 0 and offset 4,294,967,295: 4", &[(4_294_967_295, 0)], Refused(4, 0)),
        by(5, "length 4, minimum 5, and the sum 4,294,967,296 together: 4", &[(4_294_967_292, 4)], Refused(4, 0)),
        by(5, "length 4, minimum 5, and the sum 4,294,967,299 together: 4", &[(4_294_967_295, 4)], Refused(4, 0)),
        case("a falling offset and the sum 4,294,967,296 together: 5", &[(5, 5), (4, 4_294_967_292)], Refused(5, 1)),
        case("a falling offset and the sum 4,294,967,295 together: 6", &[(5, 5), (4, 4_294_967_291)], Refused(6, 1)),
        by(86_400, "86,400 minutes up to 4,294,967,295 pass", &[(4_294_880_895, 86_400)], Begins(12, 1, 1)),
        by(86_400, "86,400 minutes up to 4,294,967,296 are 5", &[(4_294_880_896, 86_400)], Refused(5, 0)),
        by(86_400, "86,399 minutes up to 4,294,967,296 are 4", &[(4_294_880_897, 86_399)], Refused(4, 0)),
    ]
}

/// windows that just overlap and such as just do not, where the greatest ends are, where 31 bits end, and where the
/// greatest end of before was.
fn late_overlaps() -> Vec<Case> {
    let join = |minimum, name, windows: &[(u32, u32)]| by(minimum, name, windows, Handovers(0, 1, 1, Some(&[1, 0])));
    let part = |minimum, name, windows: &[(u32, u32)]| by(minimum, name, windows, NoChain(0, 1));
    vec![
        join(1, "4,294,967,294 is covered by one that ends behind it", &[(4_294_967_290, 5), (4_294_967_294, 1)]),
        part(1, "4,294,967,294 is where another ends", &[(4_294_967_290, 4), (4_294_967_294, 1)]),
        join(1, "the longest window and its last minute", &[(0, 4_294_967_295), (4_294_967_294, 1)]),
        part(1, "a minute less and the last minute", &[(0, 4_294_967_294), (4_294_967_294, 1)]),
        join(1, "the longest window and the first minute", &[(0, 1), (0, 4_294_967_295)]),
        join(1, "the last minute twice", &[(4_294_967_294, 1), (4_294_967_294, 1)]),
        part(1, "the first minute and the last", &[(0, 1), (4_294_967_294, 1)]),
        join(1, "2,147,483,647 is covered by one that ends behind it", &[(0, 2_147_483_648), (2_147_483_647, 2)]),
        part(1, "2,147,483,647 is where another ends", &[(0, 2_147_483_647), (2_147_483_647, 2)]),
        part(1, "2,147,483,648 is where another ends", &[(0, 2_147_483_648), (2_147_483_648, 2_147_483_647)]),
        join(1, "10,000,000 is covered by one that ends behind it", &[(0, 10_000_001), (10_000_000, 1)]),
        part(1, "10,000,000 is where another ends", &[(0, 10_000_000), (10_000_000, 1)]),
        join(86_400, "the last 86,400 minutes twice", &[(4_294_880_895, 86_400), (4_294_880_895, 86_400)]),
        join(86_400, "the last 86,400 minutes, and one more before them", &[(4_294_880_894, 86_401), (4_294_880_895, 86_400)]),
        part(86_400, "the last 86,400 minutes share 86,399", &[(4_294_880_894, 86_400), (4_294_880_895, 86_400)]),
        join(86_400, "the longest window and its last 86,400 minutes", &[(0, 4_294_967_295), (4_294_880_895, 86_400)]),
        part(86_400, "a minute less and the last 86,400 minutes", &[(0, 4_294_967_294), (4_294_880_895, 86_400)]),
        join(86_400, "86,400 minutes about 2,147,483,648", &[(0, 2_147_526_848), (2_147_440_448, 86_400)]),
        part(86_400, "86,399 minutes about 2,147,483,648", &[(0, 2_147_526_847), (2_147_440_448, 86_400)]),
    ]
}

/// Plan 12, so late that its last window ends at 4,294,967,295.
const PLAN_12_LATE: [(u32, u32); 7] = [
    (4_294_967_273, 10),
    (4_294_967_275, 3),
    (4_294_967_277, 12),
    (4_294_967_282, 2),
    (4_294_967_285, 6),
    (4_294_967_290, 1),
    (4_294_967_291, 4),
];

/// The three windows of above, as late.
const THREE_LATE: [(u32, u32); 3] = [(4_294_967_276, 10), (4_294_967_280, 10), (4_294_967_285, 10)];

/// Three windows over the whole line: the first and the second share 86,401 minutes, the second and the third 86,400, and
/// 4,294,794,094 minutes lie between the first and the third.
const THREE_WIDE: [(u32, u32); 3] = [(0, 86_801), (400, 4_294_966_895), (4_294_880_895, 86_400)];

/// what holds of a plan holds of it at the end of the line.
fn late_plans() -> Vec<Case> {
    let plan_12 = |name, says| case(name, &PLAN_12_LATE, says);
    let three = |minimum, name, says| by(minimum, name, &THREE_LATE, says);
    let wide = |minimum, name, says| by(minimum, name, &THREE_WIDE, says);
    vec![
        plan_12("plan 12 at the end: the listing", Lists(LISTING)),
        plan_12("plan 12 at the end: 3 to 5 is 3, chain 5 4 2 3", Handovers(3, 5, 3, Some(&[5, 4, 2, 3]))),
        plan_12("plan 12 at the end: 5 to 6, no chain", NoChain(5, 6)),
        plan_12("plan 12 at the end: neighbours of 2", Neighbours(2, &[0, 1, 3, 4])),
        plan_12("plan 12 at the end: reach 3, pair 0 and 5", Reach(0..6, 3, (0, 5))),
        plan_12("plan 12 at the end: reach 0 of its last window", Reach(6..7, 0, (6, 6))),
        plan_12("plan 12 at the end: margins", Margins(&MARGINS)),
        plan_12("plan 12 at the end is the same as plan 12", Same(1, &PLAN_12)),
        plan_12("plan 12 at the end is not the same as plan 12 made even", Different(1, &PLAN_12_EVEN)),
        three(2, "three windows at the end, minimum 2: chain 2 1 0", Handovers(0, 2, 2, Some(&[2, 1, 0]))),
        three(5, "three windows at the end, minimum 5: reach 2", Reach(0..3, 2, (0, 2))),
        three(6, "three windows at the end, minimum 6: no chain", NoChain(0, 2)),
        three(6, "three windows at the end, minimum 6: neighbours of 1", Neighbours(1, &[0])),
        three(1, "three windows at the end, minimum 1: the same", Same(1, &THREE)),
        three(2, "three windows at the end, minimum 2, and by 5: the same", Same(5, &THREE)),
        three(1, "three windows at the end, minimum 1, and by 2: not the same", Different(2, &THREE)),
        wide(86_400, "three over the line: the chain goes by the long one", Handovers(0, 2, 2, Some(&[2, 1, 0]))),
        wide(86_400, "three over the line: reach 2", Reach(0..3, 2, (0, 2))),
        wide(86_400, "three over the line: neighbours of the long one", Neighbours(1, &[0, 2])),
        wide(86_400, "three over the line: margins", Margins(&[(0, 1, 86_401), (1, 2, 86_400), (0, 2, -4_294_794_094)])),
        wide(86_400, "three over the line are the same as three in line", Same(5, &THREE)),
    ]
}

/// evenness goes by true ends.
fn late_short_tags() -> Vec<Case> {
    let joined = |minimum, name, windows: &[(u32, u32)]| by(minimum, name, windows, ShortTags(&[[12, 0, 0, 1], [12, 0, 1, 0]]));
    let apart = |name, windows: &[(u32, u32)]| case(name, windows, ShortTags(&[[12, 0, 0, 0], [12, 1, 0, 0]]));
    let falls = |minimum, name, windows: &[(u32, u32)]| by(minimum, name, windows, Falls(1));
    let even = PLAN_12_EVEN.map(|(offset, length)| (offset + 4_294_967_273, length));
    vec![
        case("plan 12 made even, at the end: its short tags", &even, ShortTags(&SHORT_TAGS)),
        case("plan 12 made even, at the end: 3 and 5 are 2 handovers", &even, ShortHandovers(3, 5, 2)),
        case("plan 12 at the end: an end falls at position 1", &PLAN_12_LATE, Falls(1)),
        falls(1, "4,294,967,295 and 4,294,967,294: an end falls", &[(4_294_967_290, 5), (4_294_967_291, 3)]),
        falls(1, "the longest window and a minute less: an end falls", &[(0, 4_294_967_295), (1, 4_294_967_293)]),
        falls(1, "the longest window and the first minute: an end falls", &[(0, 4_294_967_295), (0, 1)]),
        falls(1, "2,147,483,648 and 2,147,483,647: an end falls", &[(0, 2_147_483_648), (1, 2_147_483_646)]),
        joined(1, "4,294,967,295 twice does not fall", &[(4_294_967_290, 5), (4_294_967_291, 4)]),
        joined(1, "4,294,967,294 and 4,294,967,295 rise", &[(4_294_967_290, 4), (4_294_967_291, 4)]),
        joined(1, "the longest window and its last minute end together", &[(0, 4_294_967_295), (4_294_967_294, 1)]),
        joined(1, "1 and 4,294,967,295 rise", &[(0, 1), (0, 4_294_967_295)]),
        joined(1, "2,147,483,647 and 2,147,483,648 rise", &[(0, 2_147_483_647), (1, 2_147_483_647)]),
        apart("the first minute and the last rise", &[(0, 1), (4_294_967_294, 1)]),
        joined(86_400, "the last 86,400 minutes end with the longest window", &[(0, 4_294_967_295), (4_294_880_895, 86_400)]),
        falls(86_400, "86,400 minutes end before the longest window", &[(0, 4_294_967_295), (4_294_880_894, 86_400)]),
    ]
}

/// "and so do margin, search and change": the extreme values of a margin, and those where 31 and 32 bits end.
fn late_margins() -> Vec<Case> {
    let two = |name, windows: &[(u32, u32)], due| case(name, windows, Margins(due));
    let half = [(0, 2_147_483_649), (1, 2_147_483_649)];
    vec![
        two("the longest gap", &[(0, 1), (4_294_967_294, 1)], &[(0, 1, -4_294_967_293), (0, 0, 1), (1, 1, 1)]),
        two("the longest window", &[(0, 4_294_967_295)], &[(0, 0, 4_294_967_295)]),
        two("two of the longest window", &[(0, 4_294_967_295), (0, 4_294_967_295)], &[(0, 1, 4_294_967_295)]),
        two("the longest window: its last minute", &[(0, 4_294_967_295), (4_294_967_294, 1)], &[(0, 1, 1)]),
        two("the longest window: its first minute", &[(0, 1), (0, 4_294_967_295)], &[(0, 1, 1)]),
        two("the longest two that touch", &[(0, 2_147_483_648), (2_147_483_648, 2_147_483_647)], &[(0, 1, 0)]),
        two("the last two minutes touch", &[(4_294_967_293, 1), (4_294_967_294, 1)], &[(0, 1, 0)]),
        two("a gap of a minute before the last", &[(4_294_967_292, 1), (4_294_967_294, 1)], &[(0, 1, -1)]),
        two("a gap of 2,147,483,647 minutes", &[(0, 1), (2_147_483_648, 1)], &[(0, 1, -2_147_483_647)]),
        two("a gap of 2,147,483,648 minutes", &[(0, 1), (2_147_483_649, 1)], &[(0, 1, -2_147_483_648)]),
        two("a gap of 2,147,483,649 minutes", &[(0, 1), (2_147_483_650, 1)], &[(0, 1, -2_147_483_649)]),
        two("2,147,483,648 minutes in common", &half, &[(0, 1, 2_147_483_648), (0, 0, 2_147_483_649)]),
        two("a gap of 9,999,999 minutes", &[(0, 1), (10_000_000, 1)], &[(0, 1, -9_999_999)]),
        by(86_400, "the first 86,400 minutes and the last", &[FIRST, LAST], Margins(&[(0, 1, -4_294_794_495), (1, 1, 86_400)])),
    ]
}

/// The first 86,400 minutes that a plan can have.
const FIRST: (u32, u32) = (0, 86_400);

/// The last.
const LAST: (u32, u32) = (4_294_880_895, 86_400);

/// Q-8 of changes: a window that ends at 4,294,967,295 can be added, and goes behind all that begin before it or with it.
fn late_changes() -> Vec<Case> {
    const LONGEST: (u32, u32) = (0, 4_294_967_295);
    const MINUTE: (u32, u32) = (4_294_967_294, 1);
    let one = "13 1 1\n0 0 0 0 0 0\n";
    let apart = "13 2 2\n0 0 0 0 0 0\n1 1 1 0 0 0\n";
    let joined = "13 2 1\n0 0 0 0 1 0\n1 0 0 1 0 0\n";
    let longest = adds(0, 4_294_967_295, 13);
    let minute = adds(4_294_967_294, 1, 13);
    let last = adds(4_294_880_895, 86_400, 13);
    vec![
        case("10,000,001 passes", &[(0, 10)], Becomes(adds(10_000_000, 1, 13), &[(0, 10), (10_000_000, 1)], apart)),
        case("sum 4,294,967,295 passes", &[(0, 10)], Becomes(minute, &[(0, 10), MINUTE], apart)),
        case("the last minute to the longest window", &[LONGEST], Becomes(minute, &[LONGEST, MINUTE], joined)),
        case("the last minute to itself", &[MINUTE], Becomes(minute, &[MINUTE, MINUTE], joined)),
        case("the last minute, where another ends", &[(1, 4_294_967_293)], Becomes(minute, &[(1, 4_294_967_293), MINUTE], apart)),
        case("the longest window before all", &[MINUTE], Becomes(longest, &[LONGEST, MINUTE], joined)),
        case("the longest window behind one at 0", &[(0, 10)], Becomes(longest, &[(0, 10), LONGEST], joined)),
        case("the last minute withdrawn", &[LONGEST, MINUTE], Becomes(withdraws(1, 13), &[LONGEST], one)),
        case("the longest window withdrawn", &[LONGEST, MINUTE], Becomes(withdraws(0, 13), &[MINUTE], one)),
        by(86_400, "the last 86,400 minutes to the first", &[FIRST], Becomes(last, &[FIRST, LAST], apart)),
        by(86_400, "the last 86,400 minutes to the longest", &[LONGEST], Becomes(last, &[LONGEST, LAST], joined)),
        by(86_400, "the last 86,400 minutes to themselves", &[LAST], Becomes(last, &[LAST, LAST], joined)),
    ]
}

/// "the sum 4,294,967,296 is 5", of a window to add, after 15, 16 and 4.
fn late_refused() -> Vec<Case> {
    let plan_12 = |name, change, number| case(name, &PLAN_12, Stays(change, number));
    let full = |name, change, number| case(name, &vec![(0, 1); 2048], Stays(change, number));
    let by_5 = |name, change, number| by(5, name, &TWO, Stays(change, number));
    vec![
        plan_12("add: sum 4,294,967,296 is 5, a late window", adds(4_294_967_295, 1, 13), 5),
        plan_12("add: sum 4,294,967,296 is 5, a long window", adds(1, 4_294_967_295, 13), 5),
        plan_12("add: sum 4,294,967,296 is 5, one in the middle", adds(2_147_483_648, 2_147_483_648, 13), 5),
        plan_12("add: 4,294,967,295 twice is 5", adds(4_294_967_295, 4_294_967_295, 13), 5),
        plan_12("add: (4,294,967,295, 6) is 5", adds(4_294_967_295, 6, 13), 5),
        plan_12("add: length 0 and offset 4,294,967,295 is 4", adds(4_294_967_295, 0, 13), 4),
        plan_12("add: the old plan number, and the sum 4,294,967,296: 16", adds(4_294_967_295, 1, 12), 16),
        full("add: 2,048 windows, and the sum 4,294,967,296: 15", adds(4_294_967_295, 1, 13), 15),
        by_5("add: length 4, minimum 5, and the sum 4,294,967,296: 4", adds(4_294_967_292, 4, 13), 4),
        by_5("add: length 5, minimum 5, and the sum 4,294,967,296: 5", adds(4_294_967_291, 5, 13), 5),
        by(86_400, "add: 86,400 minutes up to 4,294,967,296 are 5", &[], Stays(adds(4_294_880_896, 86_400, 13), 5)),
        by(86_400, "add: 86,399 minutes up to 4,294,967,296 are 4", &[], Stays(adds(4_294_880_897, 86_399, 13), 4)),
    ]
}

impl Case {
    /// How the listing program's text begins, as far as the case says it.
    pub fn printed(&self) -> String {
        match self.says {
            Lists(listing) => listing.to_string(),
            Begins(plan, windows, components) => format!("{plan} {windows} {components}\n"),
            Refused(number, position) => format!("refused {number} {position}\n"),
            _ => String::new(),
        }
    }

    pub fn hold(&self, comparison: &mut Comparison) {
        let file = &self.file.clone();
        match self.says {
            Lists(listing) => {
                lists(comparison, file, listing);
            }
            Begins(plan, windows, components) => begins(comparison, file, [plan, windows, components]),
            Handovers(u, v, count, chain) => handovers(comparison, file, (u, v), count, chain),
            NoChain(u, v) => no_chain(comparison, file, (u, v)),
            Reach(ref positions, handovers, pair) => reach(comparison, file, positions.clone(), handovers, pair),
            Rank(at, rank) => assert_eq!(columns(comparison, file).tables[3][at], rank, "rank"),
            RankOfLast(at, rank) => assert_eq!(columns(comparison, file).tables[4][at], rank, "rank of the last"),
            Refused(number, position) => every_call_refuses(comparison, file, number, position),
            ShortTags(tags) => short_tag_file(comparison, file, tags),
            ShortHandovers(u, v, count) => short_handovers(comparison, file, (u, v), count),
            Falls(position) => falls(comparison, file, position),
            Same(minimum, windows) => sameness(comparison, file, &file_of(13, minimum, windows), Answer::Same),
            Different(minimum, windows) => sameness(comparison, file, &file_of(13, minimum, windows), Answer::Different),
            Neighbours(at, near) => neighbours(comparison, file, at, near),
            Page(due) => page(comparison, file, due),
            Becomes(ref change, windows, listing) => becomes(comparison, file, change, windows, listing),
            Stays(ref change, number) => comparison.refuses_change(file, change, number),
            Margins(due) => due.iter().for_each(|&(u, v, number)| margin(comparison, file, (u, v), number)),
            NoMargin(u, v, refused) => comparison.margin(file, u, v).are(format_args!("margin of {u} and {v}"), refused, &vec![]),
        }
        assert_eq!(file, &self.file, "a file that was only to be read");
    }
}

/// Rooms that fit, and rooms that are longer.
const MORE: [usize; 2] = [0, 5];

fn begins(comparison: &mut Comparison, file: &[u8], line: [u16; 3]) {
    let [plan, windows, components] = line;
    comparison.validate(file).are(format_args!("validate"), Answer::Accepted { plan, windows }, &());
    for more in MORE {
        let room = windows as usize + more;
        let built = comparison.build(file, [room; 5], 10 * windows as usize + more);
        built.are(format_args!("build"), Answer::Built { plan, windows, components }, &built.written);
    }
}

/// Hands back the tag file that the listing says.
fn lists(comparison: &mut Comparison, file: &[u8], listing: &str) -> Vec<u8> {
    let mut rows = listing.lines().map(|line| line.split(' ').map(|word| word.parse().unwrap()).collect::<Vec<u16>>());
    let line: [u16; 3] = rows.next().unwrap().try_into().unwrap();
    begins(comparison, file, line);
    let mut paper = Columns::default();
    for (position, row) in rows.enumerate() {
        assert_eq!(row[0] as usize, position, "the paper's positions");
        let tag = [line[0], row[2], row[3], row[4], row[5]];
        let bytes: Vec<u8> = tag.iter().flat_map(|number| number.to_le_bytes()).collect();
        comparison.write(&tag, 12).are(format_args!("write of {tag:?}"), Answer::Written, &bytes);
        paper.tags.extend(bytes);
        for (column, &number) in paper.tables.iter_mut().zip(&row[1..]) {
            column.push(number);
        }
    }
    assert_eq!(columns(comparison, file), paper, "the tables and the tag file (left) and the paper's");
    let [plan, windows, components] = line;
    for more in MORE {
        let tags = comparison.tag_file(Form::Long, file, paper.tags.len() + more);
        tags.are(format_args!("tags"), Answer::Built { plan, windows, components }, &paper.tags);
    }
    for position in 0..line[1] as usize {
        let found = comparison.lookup(&paper.tags, position);
        found.are(format_args!("lookup of {position}"), Answer::Found, &Some(10 * position));
    }
    paper.tags
}

/// What both sides write of a plan.
fn columns(comparison: &mut Comparison, file: &[u8]) -> Columns {
    let n = windows_in(file);
    let built = comparison.build(file, [n + 5; 5], 10 * n + 5);
    built.agree(format_args!("build"));
    built.written
}

/// From two tags alone and from the tag file, in both orders.
fn from_tags(comparison: &mut Comparison, form: Form, tags: &[u8], (u, v): (usize, usize), answer: Answer) {
    let tag = |at: usize| &tags[form.bytes() * at..][..form.bytes()];
    for (first, second) in [(u, v), (v, u)] {
        let both = comparison.pair(form, tag(first), tag(second));
        both.are(format_args!("{form:?} pair of {first} and {second}"), answer, &());
        let both = comparison.pair_at(form, tags, first, second);
        both.are(format_args!("{form:?} pair at {first} and {second}"), answer, &());
    }
}

/// From two tags and from the plan, in both orders; the oracle has a rule for the one and a search for the other.
fn handovers(comparison: &mut Comparison, file: &[u8], (u, v): (usize, usize), count: u16, chain: Option<&[u16]>) {
    let tags = columns(comparison, file).tags;
    let entries = count as usize + 1;
    from_tags(comparison, Form::Long, &tags, (u, v), Answer::Handovers(count));
    for (first, second) in [(u, v), (v, u)] {
        for more in MORE {
            let both = comparison.chain(file, first, second, entries + more);
            let paper = chain.map_or(both.written.clone(), <[u16]>::to_vec);
            both.are(format_args!("chain of {first} and {second}"), Answer::Chain(entries as u16), &paper);
        }
        let both = comparison.chain(file, first, second, entries - 1);
        both.are(format_args!("chain in a short table"), Answer::Refused(refusal(8, 0, 0)), &vec![]);
    }
}

fn no_chain(comparison: &mut Comparison, file: &[u8], (u, v): (usize, usize)) {
    let tags = columns(comparison, file).tags;
    from_tags(comparison, Form::Long, &tags, (u, v), Answer::NoChain);
    for (first, second) in [(u, v), (v, u)] {
        for room in MORE {
            let both = comparison.chain(file, first, second, room);
            both.are(format_args!("chain of {first} and {second}"), Answer::NoChain, &vec![]);
        }
    }
}

fn short_tag_file(comparison: &mut Comparison, file: &[u8], paper: &[[u16; 4]]) {
    let bytes: Vec<u8> = paper.iter().flat_map(|tag| tag_bytes(tag)).collect();
    for more in MORE {
        let both = comparison.tag_file(Form::Short, file, bytes.len() + more);
        both.are(format_args!("short tags"), both.oracle, &bytes);
    }
    for tag in paper {
        comparison.write(tag, 10).are(format_args!("write of {tag:?}"), Answer::Written, &tag_bytes(tag));
    }
}

/// From the short tags, the long ones and the plan.
fn short_handovers(comparison: &mut Comparison, file: &[u8], at: (usize, usize), count: u16) {
    let tags = comparison.tag_file(Form::Short, file, 8 * windows_in(file)).written;
    from_tags(comparison, Form::Short, &tags, at, Answer::Handovers(count));
    handovers(comparison, file, at, count, None);
}

fn falls(comparison: &mut Comparison, file: &[u8], position: usize) {
    for room in [0, 8 * windows_in(file)] {
        let both = comparison.tag_file(Form::Short, file, room);
        both.are(format_args!("short tags, room for {room}"), Answer::Refused(refusal(13, 0, position)), &vec![]);
    }
    columns(comparison, file);
}

/// In both orders.
fn sameness(comparison: &mut Comparison, first: &[u8], second: &[u8], answer: Answer) {
    comparison.same(first, second).are(format_args!("same"), answer, &());
    comparison.same(second, first).are(format_args!("same, in the other order"), answer, &());
}

fn neighbours(comparison: &mut Comparison, file: &[u8], at: usize, near: &[u16]) {
    for more in MORE {
        let both = comparison.neighbours(file, at, near.len() + more);
        both.are(format_args!("neighbours of {at}"), Answer::Neighbours(near.len() as u16), &near.to_vec());
    }
}

fn reach(comparison: &mut Comparison, file: &[u8], positions: Range<usize>, handovers: u16, (smaller, larger): (u16, u16)) {
    for at in positions {
        comparison.reach(file, at).are(format_args!("reach of {at}"), Answer::Reach { handovers, smaller, larger }, &());
    }
}

/// In both orders; and that two different windows overlap where it reaches the minimum, and nowhere else.
fn margin(comparison: &mut Comparison, file: &[u8], (u, v): (usize, usize), number: i64) {
    for (first, second) in [(u, v), (v, u)] {
        comparison.margin(file, first, second).are(format_args!("margin of {first} and {second}"), Answer::Margin, &vec![number]);
    }
    let near = comparison.neighbours(file, u, windows_in(file));
    near.agree(format_args!("neighbours of {u}"));
    let reaches = u != v && number >= minimum_in(file) as i64;
    assert_eq!(near.written.contains(&(v as u16)), reaches, "overlap of {u} and {v}, margin {number}");
}

/// The page, and the same with a byte more in the tag file, or a byte less than a tag more, which fills nothing.
fn page(comparison: &mut Comparison, file: &[u8], due: &[(usize, usize, Answer)]) {
    let tags = columns(comparison, file).tags;
    pages::says(comparison, &tags, due);
    let asked: Vec<(usize, usize)> = due.iter().map(|&(first, second, _)| (first, second)).collect();
    for more in [1, 9] {
        let both = comparison.page(&[&tags[..], &vec![0; more]].concat(), &asked);
        both.are(format_args!("page, {more} bytes too many"), Answer::Refused(refusal(9, 0, 0)), &vec![]);
    }
}

/// The changed plan has these windows by the minimum of before, and is as any plan with this listing.
fn becomes(comparison: &mut Comparison, file: &[u8], change: &Change, windows: &[(u32, u32)], listing: &str) {
    let paper = file_of(change.plan, minimum_in(file), windows);
    let changed = Changed { tags: lists(comparison, &paper, listing), file: paper };
    let components = listing.lines().next().unwrap().split(' ').nth(2).unwrap().parse().unwrap();
    let answer = Answer::Built { plan: change.plan, windows: windows.len() as u16, components };
    let fits = [changed.file.len(), changed.tags.len()];
    for more in MORE {
        let both = comparison.change(file, change, fits.map(|room| room + more));
        both.are(format_args!("{change:?}"), answer, &changed);
    }
    let short = comparison.change(file, change, [fits[0] - 1, fits[1]]);
    short.are(format_args!("{change:?}, a byte too short"), Answer::Refused(refusal(8, 0, 0)), &Changed::default());
    comparison.one_change(file, change);
}
