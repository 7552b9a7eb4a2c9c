//! Times of the library's calls, beside the same algorithms by hand in Rust, a breadth-first search for each query and a graph
//! library's search, all in one run. Every answer is compared before anything is timed.
//!
//!   bench                             the tables
//!   bench --count CALL WHO SHAPE N    makes one call only (CALL of WHO, ours or hand), for an instruction counter
mod change;
mod hand;
mod margin;
mod page;
mod plans;
mod reach;
mod search;
mod short;
mod time;

#[path = "../../include/poddreshi.rs"]
mod interface;

use interface::{poddreshi_build, poddreshi_chain, poddreshi_neighbours, poddreshi_pair};
use plans::{Case, EVEN_SHAPES, SHAPES};
use search::{Graph, Library, Scratch};
use std::hint::black_box;
use time::{medians, times};

const NO_CHAIN: u64 = 5;

/// How many queries are put to the calls that take long.
const FEW: usize = 64;

/// The compiler must take the answer for used.
fn keep<T>(answer: T) {
    black_box(&answer);
}

/// What a caller lends.
struct Tables {
    tables: [Vec<u16>; 5],
    tags: Vec<u8>,
    out: Vec<u16>,
}

impl Tables {
    fn new(n: usize) -> Tables {
        Tables { tables: [(); 5].map(|_| vec![0; n]), tags: vec![0; 10 * n], out: vec![0; n] }
    }
}

fn build(file: &[u8], lent: &mut Tables) -> u64 {
    let [a, b, c, d, e] = &mut lent.tables;
    let (n, tags) = (a.len(), &mut lent.tags);
    let (a, b, c, d, e) = (a.as_mut_ptr(), b.as_mut_ptr(), c.as_mut_ptr(), d.as_mut_ptr(), e.as_mut_ptr());
    unsafe { poddreshi_build(file.as_ptr(), file.len(), a, n, b, n, c, n, d, n, e, n, tags.as_mut_ptr(), tags.len()) }
}

fn build_by_hand(file: &[u8], lent: &mut Tables) -> (u16, u16, u16) {
    let [a, b, c, d, e] = &mut lent.tables;
    hand::hand_build(file, [a, b, c, d, e], &mut lent.tags).unwrap()
}

fn pair(first: &[u8], second: &[u8]) -> u64 {
    unsafe { poddreshi_pair(first.as_ptr(), first.len(), second.as_ptr(), second.len()) }
}

fn chain(file: &[u8], first: usize, second: usize, out: &mut [u16]) -> u64 {
    unsafe { poddreshi_chain(file.as_ptr(), file.len(), first, second, out.as_mut_ptr(), out.len()) }
}

fn neighbours(file: &[u8], at: usize, out: &mut [u16]) -> u64 {
    unsafe { poddreshi_neighbours(file.as_ptr(), file.len(), at, out.as_mut_ptr(), out.len()) }
}

fn first_number(answer: u64) -> Option<u16> {
    if answer & 0xffff == NO_CHAIN { None } else { Some((answer >> 16) as u16) }
}

fn tag(tags: &[u8], at: usize) -> &[u8] {
    &tags[10 * at..10 * at + 10]
}

/// All ways give one answer, or the times mean nothing.
fn compare(case: &Case, graph: &Graph, library: &Option<Library>) {
    let (mut ours, mut theirs) = (Tables::new(case.n), Tables::new(case.n));
    for file in case.files.iter().rev() {
        build(file, &mut ours);
        build_by_hand(file, &mut theirs);
        assert!(ours.tables == theirs.tables && ours.tags == theirs.tags, "build");
    }
    let mut scratch = Scratch::new(case.n);
    let file = &case.files[0];
    for &(u, v) in &case.queries {
        let (a, b) = (tag(&ours.tags, u), tag(&ours.tags, v));
        let count = first_number(pair(a, b));
        assert_eq!(count, hand::hand_pair(a, b).unwrap(), "pair of {u} and {v}");
        assert_eq!(count, search::distance(graph, u, v, &mut scratch), "search of {u} and {v}");
        if let Some(library) = library {
            assert_eq!(count, library.distance(u, v), "the graph library's search of {u} and {v}");
        }
        let entries = first_number(chain(file, u, v, &mut ours.out));
        assert_eq!(entries, hand::hand_chain(file, u, v, &mut theirs.out).unwrap(), "chain");
        assert_eq!(count, entries.map(|entries| entries - 1), "handovers of the chain");
        assert_eq!(ours.out, theirs.out, "chain");
        let found = first_number(neighbours(file, u, &mut ours.out));
        assert_eq!(found, Some(hand::hand_neighbours(file, u, &mut theirs.out).unwrap()), "neighbours");
        assert_eq!(ours.out, theirs.out, "neighbours");
    }
}

fn row(case: &Case, call: &str, ours: f64, hand: f64) {
    println!("| {} | {} | {call} | {} | {} | {:.2} |", case.name, case.n, times(ours), times(hand), ours / hand);
}

/// Answers with how many times longer the graph library's search takes than a pair call.
fn measure(case: &Case) -> f64 {
    let graph = Graph::of(case.minimum, &case.windows);
    let library = Library::of(&graph);
    compare(case, &graph, &library);
    measure_build(case);
    let pair_time = measure_pair(case);
    measure_plan_calls(case);
    searches(case, &graph, &library, pair_time)
}

fn build_all(case: &Case, lent: &mut Tables) {
    case.files.iter().for_each(|file| keep(build(file, lent)));
}

fn measure_build(case: &Case) {
    let (mut ours, mut theirs) = (Tables::new(case.n), Tables::new(case.n));
    let [a, b] = medians([
        &mut || build_all(case, &mut ours),
        &mut || case.files.iter().for_each(|file| keep(build_by_hand(file, &mut theirs))),
    ]);
    let plans = case.files.len() as f64;
    row(case, "build", a / plans, b / plans);
}

/// How many times longer build takes for twice the windows, both measured turn by turn.
fn measure_growth(small: &Case, large: &Case) -> f64 {
    let (mut few, mut many) = (Tables::new(small.n), Tables::new(large.n));
    let [a, b] = medians([&mut || build_all(small, &mut few), &mut || build_all(large, &mut many)]);
    b / a
}

fn measure_pair(case: &Case) -> f64 {
    let tags = plans::tags_of(case);
    let queries = &case.queries[..];
    let [a, b] = medians([
        &mut || queries.iter().for_each(|&(u, v)| keep(pair(tag(&tags, u), tag(&tags, v)))),
        &mut || queries.iter().for_each(|&(u, v)| keep(hand::hand_pair(tag(&tags, u), tag(&tags, v)))),
    ]);
    let count = queries.len() as f64;
    row(case, "pair", a / count, b / count);
    a / count
}

fn measure_plan_calls(case: &Case) {
    let (mut ours, mut theirs) = (Tables::new(case.n).out, Tables::new(case.n).out);
    let asked = || case.files.iter().cycle().zip(&case.queries[..FEW]);
    let [a, b] = medians([
        &mut || asked().for_each(|(file, &(u, v))| keep(chain(file, u, v, &mut ours))),
        &mut || asked().for_each(|(file, &(u, v))| keep(hand::hand_chain(file, u, v, &mut theirs))),
    ]);
    row(case, "chain", a / FEW as f64, b / FEW as f64);
    let [a, b] = medians([
        &mut || asked().for_each(|(file, &(u, _))| keep(neighbours(file, u, &mut ours))),
        &mut || asked().for_each(|(file, &(u, _))| keep(hand::hand_neighbours(file, u, &mut theirs))),
    ]);
    row(case, "neighbours", a / FEW as f64, b / FEW as f64);
}

/// Searches for the same queries; answers with how many times longer the graph library's takes than a pair call.
fn searches(case: &Case, graph: &Graph, library: &Option<Library>, pair_time: f64) -> f64 {
    let mut scratch = Scratch::new(case.n);
    let few = &case.queries[..FEW];
    let by_hand = time::median(&mut || {
        few.iter().for_each(|&(u, v)| keep(search::distance(graph, u, v, &mut scratch)));
    }) / FEW as f64;
    println!("| {} | {} | search by hand, for a pair | | {} | 1 / {:.0} |", case.name, case.n, times(by_hand), by_hand / pair_time);
    let Some(library) = library else { return 0.0 };
    let theirs = time::median(&mut || few.iter().for_each(|&(u, v)| keep(library.distance(u, v)))) / FEW as f64;
    println!("| {} | {} | Boost Graph's search, for a pair | | {} | 1 / {:.0} |", case.name, case.n, times(theirs), theirs / pair_time);
    theirs / pair_time
}

fn count(words: &[String]) {
    let shape = SHAPES.into_iter().chain(EVEN_SHAPES).find(|shape| shape.name() == words[2]).expect("a shape");
    let case = Case::new(shape, words[3].parse().expect("a number of windows"));
    let (mut lent, mut queries) = (Tables::new(case.n), case.page.clone());
    let (file, (u, v)) = (&case.files[0][..], case.queries[0]);
    // No table is built where build is counted.
    let tags = match words[0].as_str() {
        "pair" | "page" => plans::tags_of(&case),
        "short_pair" => plans::short_tags_of(&case),
        _ => Vec::new(),
    };
    match (words[0].as_str(), words[1].as_str()) {
        ("build", "ours") => keep(build(file, &mut lent)),
        ("build", _) => keep(build_by_hand(file, &mut lent)),
        ("pair", "ours") => keep(pair(tag(&tags, u), tag(&tags, v))),
        ("pair", _) => keep(hand::hand_pair(tag(&tags, u), tag(&tags, v))),
        ("page", "ours") => keep(page::page(&tags, &mut queries)),
        ("page", _) => keep(hand::hand_page(&tags, &mut queries)),
        ("short_tags", "ours") => keep(short::tags(file, &mut lent.tags)),
        ("short_tags", _) => keep(hand::hand_short_tags(file, &mut lent.tags)),
        ("short_pair", "ours") => keep(short::pair(short::tag(&tags, u), short::tag(&tags, v))),
        ("short_pair", _) => keep(hand::hand_short_pair(short::tag(&tags, u), short::tag(&tags, v))),
        ("reach", "ours") => keep(reach::reach(file, u)),
        ("reach", _) => keep(hand::hand_reach(file, u)),
        (call @ ("add" | "withdraw"), who) => change::count(call, who, file, u),
        ("margin", "ours") => keep(margin::margin(file, u, v)),
        ("margin", _) => keep(hand::hand_margin(file, u, v)),
        ("chain", "ours") => keep(chain(file, u, v, &mut lent.out)),
        ("chain", _) => keep(hand::hand_chain(file, u, v, &mut lent.out)),
        ("neighbours", "ours") => keep(neighbours(file, u, &mut lent.out)),
        _ => keep(hand::hand_neighbours(file, u, &mut lent.out)),
    }
}

fn main() {
    let words: Vec<String> = std::env::args().skip(1).collect();
    if words.len() == 5 && words[0] == "--count" {
        return count(&words[1..]);
    }
    println!("| plan | n | call | ours | by hand in Rust | ours / by hand |");
    println!("|---|---|---|---|---|---|");
    let mut growth = Vec::new();
    let mut library = Vec::new();
    for shape in SHAPES {
        let cases = [256, 1024, 2048].map(|n| Case::new(shape, n));
        let ratios = cases.each_ref().map(measure);
        growth.push(format!("{} {:.2}", shape.name(), measure_growth(&cases[1], &cases[2])));
        library.push(format!("{} {:.0}", shape.name(), ratios[2]));
    }
    println!("\nBuild at 2,048 windows over build at 1,024: {}.", growth.join(", "));
    println!("Boost Graph's search over a pair call at 2,048 windows (0: not there): {}.", library.join(", "));
    short::table();
    page::table();
    reach::table();
    change::table();
    margin::table();
}
