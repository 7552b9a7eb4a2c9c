//! The library through its C interface beside an implementation of different origin (`oracle`), on the papers' cases by name,
//! on every overlap pattern of few windows and on random plans, damaged files and damaged tags.
//!
//!   differential [--long] [--seed N] [--case N] [--listing PROGRAM]
//!
//! A run is decided by its seed. A failure names the seed and the case, and `--seed N --case N` runs that one again. The
//! listing program, where it is given, is run on the papers' cases at the end.
mod answers;
mod both;
mod calls;
mod changes;
mod compare;
mod expected;
mod forms;
mod listing;
mod margins;
mod minimums;
mod oracle;
mod pages;
mod paper;
mod random;
mod reaches;
mod refusals;
mod shapes;

use answers::{refusal, Answer};
use compare::{Comparison, Depth};
use forms::{Form, FORMS};
use random::Random;
use shapes::{at_the_end, between_others, evened, file_of, greatest_minimum, in_few_minutes, lengthened, linked, nearly_even};
use shapes::{old_file_of, patterns, plain, windows, with_minimum, LATEST, SHAPES};
use std::sync::Mutex;
use std::time::Instant;

/// What is being compared, for the report of a failure.
static AT: Mutex<String> = Mutex::new(String::new());

struct Run {
    long: bool,
    seed: u64,
    only: Option<u64>,
    listing: Option<String>,
    cases: u64,
    calls: u64,
    started: Instant,
}

impl Run {
    /// One case, with random numbers of its own. What is wanted of the long run alone is a multiple.
    fn case(&mut self, what: &str, compare: &mut dyn FnMut(&mut Comparison)) {
        self.cases += 1;
        if self.only.is_some_and(|only| only != self.cases) {
            return;
        }
        *AT.lock().unwrap() = format!("{what}; run again with --seed {} --case {}", self.seed, self.cases);
        let seed = self.seed.wrapping_mul(1_000_003).wrapping_add(self.cases);
        let mut comparison = Comparison::new(Random::new(seed));
        compare(&mut comparison);
        self.calls += comparison.calls;
    }

    fn times(&self, short: u64, long: u64) -> u64 {
        if self.long { long } else { short }
    }

    fn report(&self, what: &str) {
        let seconds = self.started.elapsed().as_secs_f64();
        println!("{what}: so far {} cases, {} calls, {seconds:.1} s", self.cases, self.calls);
    }
}

/// The papers' own cases, by name.
fn paper_cases(run: &mut Run) {
    for case in paper::cases() {
        run.case(&format!("paper, {}", case.name), &mut |comparison| case.hold(comparison));
    }
    run.report("papers, by name");
}

/// The same through the listing program; among them are inputs longer than its buffer.
fn listed_cases(run: &mut Run) {
    let Some(program) = run.listing.clone() else {
        println!("listing: not tried, since no --listing PROGRAM was given");
        return;
    };
    let mut listed = Vec::new();
    for case in paper::cases() {
        let asked = (case.file.clone(), case.printed());
        if listed.contains(&asked) {
            continue;
        }
        listed.push(asked);
        run.case(&format!("listing, {}", case.name), &mut |_| listing::hold(&program, &case.file, &case.printed()));
    }
    run.report("listing");
}

/// Every refusal of every call, alone and two at a time.
fn every_refusal(run: &mut Run) {
    run.case("faulty files", &mut refusals::faulty_files);
    run.case("files of up to 20 bytes", &mut refusals::short_files);
    run.case("two faulty files", &mut refusals::two_files);
    run.case("positions and rooms", &mut refusals::positions_and_rooms);
    run.case("rooms of build", &mut refusals::rooms_of_build);
    run.case("falling ends", &mut refusals::falling_ends);
    for form in FORMS {
        run.case("rooms of tags", &mut |comparison| refusals::rooms_of_tags(comparison, form));
        run.case("two faulty tags", &mut |comparison| refusals::two_tags(comparison, form));
        run.case("tag files", &mut |comparison| refusals::tag_files(comparison, form));
        run.case("a tag to be written", &mut |comparison| refusals::written_tags(comparison, form));
    }
    run.case("bad records among good ones", &mut pages::bad_among_good);
    run.case("a page of faulty tags", &mut pages::faulty_tags);
    run.case("tag files of pages", &mut pages::tag_files);
    run.case("a page of many records", &mut pages::many_records);
    run.case("all that is wrong with a change", &mut changes::all_at_once);
    run.case("changes of faulty plans of 2,048 windows", &mut changes::plan_first);
    run.case("rooms of a change", &mut changes::rooms);
    run.case("plan numbers of a change", &mut changes::plan_numbers);
    run.case("windows to add at every edge", &mut changes::edges);
    run.report("refusals");
}

/// Every overlap pattern, with every pair of positions in both orders, at the start of the line and at its end, where it is the
/// same; and every two patterns for sameness.
fn every_pattern(run: &mut Run) {
    for n in 0..=run.times(6, 8) as usize {
        for lasts in patterns(n) {
            run.case("a pattern", &mut |comparison| {
                let plan = comparison.random.next() as u16;
                let [early, late] = [plain(&lasts), at_the_end(&plain(&lasts))].map(|windows| file_of(plan, 1, &windows));
                comparison.file(&early, Depth::Whole);
                comparison.file(&late, Depth::Whole);
                comparison.same(&early, &late).are(format_args!("same, at the end of the line"), Answer::Same, &());
            });
        }
    }
    for n in 0..=run.times(4, 6) as usize {
        let (one, more) = (patterns(n), patterns(n + 1));
        for first in &one {
            run.case("a pattern beside all others", &mut |comparison| {
                let first = file_of(1, 1, &plain(first));
                for second in one.iter().chain(more.iter().take(1)) {
                    let second = plain(second);
                    comparison.sameness(&first, &file_of(2, 1, &second));
                    comparison.sameness(&first, &file_of(2, 3, &lengthened(&second, 2)));
                }
            });
        }
    }
    run.report("patterns");
}

/// Every overlap pattern in the middle of a plan: what is said of a component goes by its own windows and ends with them.
fn every_pattern_between_others(run: &mut Run) {
    for n in 1..=run.times(5, 6) as usize {
        for lasts in patterns(n) {
            run.case("a pattern between others", &mut |comparison| {
                let plan = comparison.random.next() as u16;
                comparison.file(&file_of(plan, 1, &between_others(&plain(&lasts))), Depth::Whole);
            });
        }
    }
    run.report("patterns between others");
}

/// Every overlap pattern by several minimums.
fn every_pattern_by_minimums(run: &mut Run) {
    for n in 0..=run.times(6, 7) as usize {
        for lasts in patterns(n) {
            run.case("a pattern by several minimums", &mut |comparison| {
                for minimum in [2, 7, 86_400] {
                    minimums::pattern(comparison, &lasts, minimum);
                }
            });
        }
    }
    run.report("patterns by several minimums");
}

/// Every pattern that even plans have, its minutes doubled and each end in turn lowered by one: the pattern stays, and with it
/// every last, but the plan is no longer even where the window ahead ended with the one that is lowered.
fn every_lowered_end(run: &mut Run) {
    let ends_rise = |windows: &Vec<(u32, u32)>| evened(windows) == *windows;
    for n in 2..=run.times(6, 8) as usize {
        for pattern in patterns(n).iter().map(|lasts| plain(lasts)).filter(ends_rise) {
            run.case("a pattern with an end lowered", &mut |comparison| {
                let doubled: Vec<(u32, u32)> = pattern.iter().map(|w| (2 * w.0, 2 * w.1)).collect();
                for minimum in [1, 5] {
                    let apart = lengthened(&doubled, minimum - 1);
                    for at in 0..n {
                        let mut lowered = apart.clone();
                        lowered[at].1 -= 1;
                        comparison.sameness(&file_of(1, minimum, &apart), &file_of(2, minimum, &lowered));
                        comparison.file(&file_of(2, minimum, &lowered), Depth::Whole);
                    }
                }
            });
        }
    }
    run.report("patterns with an end lowered");
}

/// A window with another length: about the minimum, or a minute more or less than before.
fn relengthened((offset, length): (u32, u32), minimum: u32, random: &mut Random) -> (u32, u32) {
    let short = minimum - 1 + random.between(1, 12) as u32;
    let other = random.pick(&[short, short, length - 1, length.saturating_add(1)]);
    (offset, other.clamp(minimum, LATEST - offset))
}

/// Small random plans of each shape, all pairs, and each beside a plan that differs in one window and one that has another minimum.
fn small_plans(run: &mut Run) {
    for _ in 0..run.times(1_600, 40_000) {
        for shape in SHAPES {
            run.case(&format!("{shape:?}, small"), &mut |comparison| {
                let random = &mut comparison.random;
                let n = random.below(33) as usize;
                let (minimum, plan) = with_minimum(windows(shape, n, random), random);
                let mut other = plan.clone();
                if n > 0 {
                    let at = random.below(n as u64) as usize;
                    other[at] = relengthened(plan[at], minimum, random);
                }
                let other_minimum = random.between(1, greatest_minimum(&plan) as u64) as u32;
                let file = file_of(random.next() as u16, minimum, &plan);
                comparison.file(&file, Depth::Whole);
                comparison.sameness(&file, &file_of(2, minimum, &other));
                comparison.sameness(&file, &file_of(2, other_minimum, &plan));
            });
        }
    }
    run.report("small plans");
}

/// Small plans of each shape by rising minimums.
fn rising_minimums(run: &mut Run) {
    for _ in 0..run.times(20, 1_000) {
        for shape in SHAPES {
            run.case(&format!("{shape:?}, as the minimum rises"), &mut |comparison| {
                let random = &mut comparison.random;
                let n = random.between(1, 12) as usize;
                let more = random.below(20) as u32;
                let plan = lengthened(&windows(shape, n, random), more);
                minimums::rising_minimum(comparison, &plan);
            });
        }
    }
    run.report("rising minimums");
}

/// Every way in which two windows can lie, and three, by every minimum that they can have; windows at every edge.
fn every_margin(run: &mut Run) {
    for n in 2..=run.times(3, 4) as usize {
        for windows in in_few_minutes(n) {
            run.case("margins in few minutes", &mut |comparison| minimums::rising_minimum(comparison, &windows));
        }
    }
    run.case("margins at every edge", &mut margins::edges);
    run.report("margins");
}

/// Small even plans of each shape, all pairs, and the like with one end that is equal or falls.
fn small_even_plans(run: &mut Run) {
    for _ in 0..run.times(400, 10_000) {
        for shape in SHAPES {
            run.case(&format!("{shape:?}, small and even"), &mut |comparison| {
                let random = &mut comparison.random;
                let n = random.below(33) as usize;
                let (minimum, plan) = with_minimum(windows(shape, n, random), random);
                let number = random.next() as u16;
                let other = nearly_even(&plan, minimum, random);
                comparison.file(&file_of(number, minimum, &evened(&plan)), Depth::Whole);
                comparison.file(&file_of(number, minimum, &other), Depth::Whole);
            });
        }
    }
    run.report("small even plans");
}

/// How many windows a large plan has: in the first turn as many as a plan can have, and then 255, 256 and 257, since the library searches
/// plans of up to 256 windows in fewer steps.
fn many(turn: u64, random: &mut Random) -> usize {
    match turn {
        0 => 2048,
        1..=3 => 254 + turn as usize,
        _ => random.between(100, 700) as usize,
    }
}

/// Larger plans, all pairs of tags; n = 2,048 among them.
fn large_plans(run: &mut Run) {
    for turn in 0..run.times(6, 100) {
        for shape in SHAPES {
            run.case(&format!("{shape:?}, large"), &mut |comparison| {
                let random = &mut comparison.random;
                let n = many(turn, random);
                let (minimum, plan) = with_minimum(windows(shape, n, random), random);
                let file = file_of(random.next() as u16, minimum, &plan);
                comparison.file(&file, Depth::Sampled);
            });
        }
    }
    run.report("large plans");
}

/// Larger even plans, and the like with one end that is equal or falls.
fn large_even_plans(run: &mut Run) {
    for turn in 0..run.times(2, 50) {
        for shape in SHAPES {
            run.case(&format!("{shape:?}, large and even"), &mut |comparison| {
                let random = &mut comparison.random;
                let n = many(turn, random);
                let (minimum, plan) = with_minimum(windows(shape, n, random), random);
                let number = random.next() as u16;
                let other = file_of(number, minimum, &nearly_even(&plan, minimum, random));
                comparison.file(&file_of(number, minimum, &evened(&plan)), Depth::Sampled);
                comparison.tag_file(Form::Short, &other, 8 * n).agree(format_args!("short tags"));
            });
        }
    }
    run.report("large even plans");
}

/// Plans whose chains go through many windows and begin and end among short ones, which decide the reach: small ones, all pairs, and
/// larger ones, three of them with 2,048 windows.
fn linked_plans(run: &mut Run) {
    for _ in 0..run.times(1_000, 20_000) {
        run.case("linked, small", &mut |comparison| {
            let n = comparison.random.between(1, 32) as usize;
            linked_plan(comparison, n, Depth::Whole);
        });
    }
    for turn in 0..run.times(9, 100) {
        run.case("linked, large", &mut |comparison| {
            let n = many(turn.saturating_sub(2), &mut comparison.random);
            linked_plan(comparison, n, Depth::Sampled);
        });
    }
    run.report("linked plans");
}

fn linked_plan(comparison: &mut Comparison, n: usize, depth: Depth) {
    let random = &mut comparison.random;
    let (minimum, plan) = with_minimum(linked(n, random), random);
    let file = file_of(random.next() as u16, minimum, &plan);
    comparison.file(&file, depth);
}

/// Every change of few windows, by overlap patterns and by plans in which windows begin together; plans that are changed again and again;
/// and plans of 2,047 windows that become one of 2,048.
fn changed_plans(run: &mut Run) {
    for n in 0..=run.times(6, 7) as usize {
        for lasts in patterns(n) {
            run.case("changes of a pattern", &mut |comparison| changes::pattern(comparison, &lasts));
        }
    }
    for n in 1..=run.times(3, 4) as usize {
        for windows in in_few_minutes(n) {
            run.case("changes in few minutes", &mut |comparison| changes::every_change(comparison, &file_of(12, 1, &windows)));
        }
    }
    for turn in 0..run.times(200, 5_000) {
        run.case("changed again and again", &mut |comparison| changes::again_and_again(comparison, turn as usize % 100));
    }
    for _ in 0..run.times(1, 10) {
        for shape in SHAPES {
            run.case(&format!("{shape:?}, changed at the limit"), &mut |comparison| {
                let random = &mut comparison.random;
                let (minimum, plan) = with_minimum(windows(shape, 2047, random), random);
                let file = file_of(random.next() as u16, minimum, &plan);
                changes::up_to_the_limit(comparison, &file);
            });
        }
    }
    run.report("changed plans");
}

const NUMBERS: [u32; 16] = [
    0, 1, 2, 9, 255, 256, 65_535, 65_536, 86_400, 86_401, 10_000_000, 10_000_001, (1 << 31) - 1, 1 << 31, LATEST - 1, LATEST,
];

/// Some numbers, and those that with the one beside them have the greatest sum, one less and one more, which in 32 bits is 0.
fn numbers_beside(other: u32) -> impl Iterator<Item = u32> {
    NUMBERS.into_iter().chain([LATEST - 1, LATEST, 0].map(|sum| sum.wrapping_sub(other)))
}

/// Files with one field changed, cut short anywhere, with bytes added, or without a minimum.
fn damaged_files(run: &mut Run) {
    for _ in 0..run.times(200, 8_000) {
        for shape in SHAPES {
            run.case(&format!("{shape:?}, damaged"), &mut |comparison| {
                let random = &mut comparison.random;
                let n = random.below(9) as usize;
                let (minimum, plan) = with_minimum(windows(shape, n, random), random);
                let file = file_of(12, minimum, &plan);
                for cut in 0..file.len() {
                    comparison.file(&file[..cut], Depth::Whole);
                }
                let extra = comparison.random.between(1, 17) as usize;
                comparison.file(&[file.clone(), vec![0; extra]].concat(), Depth::Whole);
                for count in [0, 1, n + 1, 2047, 2048, 2049, 65_535] {
                    let mut other = file.clone();
                    other[2..4].copy_from_slice(&(count as u16).to_le_bytes());
                    comparison.file(&other, Depth::Whole);
                }
                for number in NUMBERS {
                    comparison.file(&file_of(12, number, &plan), Depth::Whole);
                }
                for (at, &(offset, length)) in plan.iter().enumerate() {
                    let offsets = numbers_beside(length).map(|number| (number, length));
                    for window in offsets.chain(numbers_beside(offset).map(|number| (offset, number))) {
                        let mut other = plan.clone();
                        other[at] = window;
                        comparison.file(&file_of(12, minimum, &other), Depth::Whole);
                    }
                }
                comparison.file(&old_file_of(12, &plan), Depth::Whole);
                let bit = comparison.random.below(8 * file.len() as u64) as usize;
                let mut other = file.clone();
                other[bit / 8] ^= 1 << (bit % 8);
                comparison.file(&other, Depth::Whole);
            });
        }
    }
    run.report("damaged files");
}

/// The edges of n: 2,048 windows, 2,049 in a long and in a short file; two plans of 2,048; minimums near the lengths of 2,048.
fn edges_of_n(run: &mut Run) {
    run.case("n at its limit", &mut |comparison| {
        for n in [2047, 2048, 2049] {
            let plan = vec![(LATEST - 1, 1); n];
            comparison.file(&file_of(3, 1, &plan), Depth::Sampled);
            comparison.file(&file_of(3, 1, &plan)[..9], Depth::Sampled);
            comparison.file(&file_of(3, 0, &plan), Depth::Sampled);
            comparison.file(&file_of(3, 2, &plan), Depth::Sampled);
        }
        let mut last = vec![(0, 5); 2048];
        last[2047] = (0, 4);
        comparison.file(&file_of(3, 5, &last), Depth::Sampled);
    });
    run.case("2,048 windows, of which the last end falls", &mut |comparison| {
        let mut falling = vec![(0, 5); 2048];
        falling[2047] = (0, 4);
        let both = comparison.tag_file(Form::Short, &file_of(3, 4, &falling), 8 * 2048);
        both.are(format_args!("short tags"), Answer::Refused(refusal(13, 0, 2047)), &vec![]);
    });
    run.case("2,048 windows, the same but for the last", &mut |comparison| {
        let apart: Vec<(u32, u32)> = (0..2048).map(|v| (v, 1)).collect();
        let mut joined = apart.clone();
        joined[2046].1 = 2;
        comparison.sameness(&file_of(3, 1, &apart), &file_of(4, 1, &apart));
        comparison.sameness(&file_of(3, 1, &apart), &file_of(4, 7, &lengthened(&apart, 6)));
        comparison.sameness(&file_of(3, 1, &apart), &file_of(3, 1, &joined));
        comparison.sameness(&file_of(3, 1, &apart), &file_of(3, 7, &lengthened(&joined, 6)));
    });
    run.case("2,048 windows, minimums near their lengths", &mut minimums::many_windows);
    run.report("edges of n");
}

fn field(random: &mut Random) -> u16 {
    match random.below(12) {
        0 => random.pick(&[2047, 2048, 2049, 4095, 32_768, 65_535]),
        1 => random.next() as u16,
        2 => random.below(2048) as u16,
        _ => random.below(4) as u16,
    }
}

/// Two tags that no plan has, and one of them written. What is written is read in the next pair as it was given.
fn two_of_any_tags(comparison: &mut Comparison, form: Form) {
    let random = &mut comparison.random;
    let mut tags = [(); 2].map(|_| (0..form.numbers()).map(|_| field(random)).collect::<Vec<u16>>());
    if random.below(4) > 0 {
        tags[1][0] = tags[0][0];
    }
    let room = random.between(5, 14) as usize;
    let mut bytes = tags.each_ref().map(|tag| oracle::tag_bytes(tag));
    if random.below(8) == 0 {
        let length = random.below(22) as usize;
        bytes[random.below(2) as usize].resize(length, 0);
    }
    comparison.write(&tags[0], room).agree(format_args!("write of {:?} into {room} bytes", tags[0]));
    comparison.tags(form, &bytes[0], &bytes[1]);
    comparison.tags(form, &bytes[0], &bytes[0]);
}

/// Tags that no plan has, of every length about the right one; tags written; tag files of every length.
fn any_tags(run: &mut Run) {
    for _ in 0..run.times(1_000, 30_000) {
        run.case("tags", &mut |comparison| {
            for _ in 0..500 {
                FORMS.into_iter().for_each(|form| two_of_any_tags(comparison, form));
            }
            let length = comparison.random.below(64) as usize;
            comparison.lookups(&vec![7; length]);
        });
    }
    run.report("tags");
}

/// Pages over tags that no plan has, and over tag files of any length.
fn any_pages(run: &mut Run) {
    for _ in 0..run.times(500, 10_000) {
        run.case("pages", &mut |comparison| {
            for _ in 0..100 {
                pages::any_page(comparison);
            }
        });
    }
    run.report("pages");
}

fn main() {
    let mut run = Run { long: false, seed: 20_240_625, only: None, listing: None, cases: 0, calls: 0, started: Instant::now() };
    let mut words = std::env::args().skip(1);
    while let Some(word) = words.next() {
        let mut next = || words.next().expect("a word more");
        match word.as_str() {
            "--long" => run.long = true,
            "--seed" => run.seed = next().parse().expect("a number"),
            "--case" => run.only = Some(next().parse().expect("a number")),
            "--listing" => run.listing = Some(next()),
            _ => panic!("usage: differential [--long] [--seed N] [--case N] [--listing PROGRAM]"),
        }
    }
    let seed = run.seed;
    let usual = std::panic::take_hook();
    std::panic::set_hook(Box::new(move |info| {
        usual(info);
        eprintln!("differential FAILED, seed {seed}: {}", AT.lock().unwrap_or_else(|at| at.into_inner()));
    }));
    paper_cases(&mut run);
    every_refusal(&mut run);
    every_pattern(&mut run);
    every_pattern_between_others(&mut run);
    every_pattern_by_minimums(&mut run);
    every_lowered_end(&mut run);
    edges_of_n(&mut run);
    rising_minimums(&mut run);
    every_margin(&mut run);
    small_plans(&mut run);
    small_even_plans(&mut run);
    large_plans(&mut run);
    large_even_plans(&mut run);
    linked_plans(&mut run);
    changed_plans(&mut run);
    damaged_files(&mut run);
    any_tags(&mut run);
    any_pages(&mut run);
    listed_cases(&mut run);
    let seconds = run.started.elapsed().as_secs_f64();
    println!("differential: {} cases, {} calls, no difference, seed {seed}, {seconds:.1} s", run.cases, run.calls);
}
