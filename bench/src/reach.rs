//! Reach: a call beside the same by hand in Rust, measured turn by turn, and beside all pairs of the component by breadth-first search.
use crate::hand::{hand_pair, hand_reach, Refusal};
use crate::interface::poddreshi_reach;
use crate::plans::{self, Case, Shape, SHAPES};
use crate::search::{self, Graph, Library, Scratch};
use crate::time::{medians, few_rounds, times};
use crate::{keep, tag, FEW};

/// Handovers, the smaller position and the larger.
type Reach = (u16, u16, u16);

pub fn reach(file: &[u8], at: usize) -> u64 {
    unsafe { poddreshi_reach(file.as_ptr(), file.len(), at) }
}

/// As the library answers it.
fn packed((handovers, smaller, larger): Reach) -> u64 {
    3 | (handovers as u64) << 16 | (smaller as u64) << 32 | (larger as u64) << 48
}

fn positions(case: &Case) -> impl Iterator<Item = usize> + '_ {
    case.queries[..FEW].iter().map(|&(at, _)| at)
}

/// In all plans of a case. Over fewer windows that come again and again the ratio of equal instructions differed by half from one build of
/// this program to another, perhaps since a processor learns their branches (docs/DECISIONS.md).
pub const WINDOWS: usize = 1 << 17;

/// The rows of every shape and size over so many windows, and how many times longer a call takes for twice the windows, by shape.
pub fn rows(measure: fn(&Case), measure_growth: fn([&Case; 2]) -> f64) -> String {
    let of_shape = |shape: Shape| {
        let cases = [256, 1024, 2048].map(|n| Case::of_plans(shape, n, WINDOWS / n));
        cases.iter().for_each(measure);
        format!("{} {:.2}", shape.name(), measure_growth([&cases[1], &cases[2]]))
    };
    SHAPES.map(of_shape).join(", ")
}

/// Each plan with a position.
pub fn asked(case: &Case) -> impl Iterator<Item = (&[u8], usize)> {
    case.files.iter().zip(&case.queries).map(|(file, &(at, _))| (&file[..], at))
}

/// A component, and which of the positions lie in it.
struct Component {
    members: Vec<usize>,
    asked: Vec<usize>,
}

/// Those of the positions, with what is in the component of each.
fn components(case: &Case, mut members_of: impl FnMut(usize) -> Vec<usize>) -> Vec<Component> {
    let mut found: Vec<Component> = Vec::new();
    for at in positions(case) {
        match found.iter_mut().find(|component| component.members.contains(&at)) {
            Some(component) => component.asked.push(at),
            None => found.push(Component { members: members_of(at), asked: vec![at] }),
        }
    }
    found
}

/// From what is farthest from each window of a component. Those before a window have been asked themselves, so what is farther from it
/// than any two so far stands behind it.
fn all_pairs(members: &[usize], mut farthest: impl FnMut(usize) -> (u16, usize)) -> Reach {
    let mut found = (0, members[0] as u16, members[0] as u16);
    for &at in members {
        let (handovers, other) = farthest(at);
        if handovers > found.0 {
            found = (handovers, at as u16, other as u16);
        }
    }
    found
}

fn farthest_by_tags(tags: &[u8], members: &[usize], from: usize) -> (u16, usize) {
    let mut found = (0, from);
    for &at in members {
        let handovers = hand_pair(tag(tags, from), tag(tags, at)).unwrap().expect("a chain");
        if handovers > found.0 {
            found = (handovers, at);
        }
    }
    found
}

/// All ways give one answer, or the times mean nothing. All pairs of every plan are those of tags, since the searches take too long for
/// more than the first plan. Answers with how many pairs begin behind the first window of their component.
fn compare(case: &Case) -> usize {
    let mut behind = 0;
    for file in &case.files {
        let tags = plans::tags_in(case, file);
        let component = |at: usize| &tag(&tags, at)[2..4];
        let members = |at| (0..case.n).filter(|&other| component(other) == component(at)).collect();
        for Component { members, asked } in components(case, members) {
            let found = all_pairs(&members, |at| farthest_by_tags(&tags, &members, at));
            for &at in &asked {
                assert_eq!(reach(file, at), packed(found), "reach of {at}");
                assert_eq!(hand_reach(file, at), Ok(found), "reach of {at} by hand");
            }
            if found.1 as usize != members[0] {
                behind += asked.len();
            }
        }
        assert_eq!(reach(file, case.n), 7 << 16, "a position past the windows");
        assert_eq!(hand_reach(file, case.n), Err(Refusal { number: 7, input: 0, position: 0 }), "a position past the windows, by hand");
    }
    behind
}

/// The time of all pairs of a position's component by search, in the first plan; the answers are compared with ours.
fn searched(case: &Case, components: &[Component], mut farthest: impl FnMut(usize) -> (u16, usize)) -> f64 {
    let mut all = 0.0;
    for Component { members, asked } in components {
        let (time, found) = few_rounds(|| all_pairs(members, &mut farthest));
        for &at in asked {
            assert_eq!(reach(&case.files[0], at), packed(found), "reach of {at} by search");
        }
        all += time * asked.len() as f64;
    }
    all / FEW as f64
}

/// How many times longer.
fn factor(theirs: f64, ours: f64) -> String {
    match theirs / ours {
        ratio if ratio < 10.0 => format!("{ratio:.2}"),
        ratio => format!("{ratio:.0}"),
    }
}

fn measure(case: &Case) {
    let behind = compare(case);
    let graph = Graph::of(case.minimum, &case.windows);
    let mut scratch = Scratch::new(case.n);
    let components = components(case, |at| search::component(&graph, at, &mut scratch));
    let by_hand = searched(case, &components, |at| search::farthest(&graph, at, &mut scratch));
    let library = Library::of(&graph).map(|library| searched(case, &components, |at| library.farthest(at)));
    let [ours, hand] = medians([
        &mut || asked(case).for_each(|(file, at)| keep(reach(file, at))),
        &mut || asked(case).for_each(|(file, at)| keep(hand_reach(file, at))),
    ])
    .map(|time| time / case.files.len() as f64);
    let cells = |time: Option<f64>| time.map_or("| ".to_string(), |time| format!("{} | {}", times(time), factor(time, ours)));
    let ([a, b], [c, d]) = ([ours, hand].map(times), [Some(by_hand), library].map(cells));
    let behind = format!("{behind} of {}", FEW * case.files.len());
    println!("| {} | {} | reach | {a} | {b} | {:.2} | {c} | {d} | {behind} |", case.name, case.n, ours / hand);
}

/// How many times longer reach takes for twice the windows.
fn measure_growth([small, large]: [&Case; 2]) -> f64 {
    let [a, b] = medians([
        &mut || asked(small).for_each(|(file, at)| keep(reach(file, at))),
        &mut || asked(large).for_each(|(file, at)| keep(reach(file, at))),
    ]);
    b / large.files.len() as f64 / (a / small.files.len() as f64)
}

pub fn table() {
    println!(
        "\n| plan | n | call | ours | by hand in Rust | ours / by hand | all pairs, search by hand | search / ours \
         | all pairs, Boost Graph's search | search / ours | pairs behind the root |"
    );
    println!("|---|---|---|---|---|---|---|---|---|---|---|");
    let growth = rows(measure, measure_growth);
    println!(
        "\nAll pairs: of the component of each of the {FEW} positions in the first plan, on adjacency lists that stand ready; medians of \
         three rounds, or one round where it takes more than a second."
    );
    println!("Reach at 2,048 windows over reach at 1,024: {growth}.");
}
