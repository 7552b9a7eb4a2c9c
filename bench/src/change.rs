//! A window added or withdrawn: a call beside the same by hand in Rust, measured turn by turn.
use crate::hand::{hand_add, hand_withdraw, Refusal};
use crate::interface::{poddreshi_add, poddreshi_withdraw};
use crate::plans::{Case, SHAPES};
use crate::reach::{asked, WINDOWS};
use crate::time::{medians, times};
use crate::{build_all, keep, Tables};

const BUILT: u64 = 2;

/// The number of the changed plans, which is not that of the old ones.
const NEW: u16 = 13;

#[derive(Clone, Copy)]
enum Change {
    /// Offset and length.
    Add(u32, u32),
    Withdraw(usize),
}

/// A plan file and what is done to it.
type Task = (Vec<u8>, Change);

/// What a caller lends.
#[derive(PartialEq)]
struct Lent {
    changed: Vec<u8>,
    tags: Vec<u8>,
}

impl Lent {
    /// With room for so many windows.
    fn new(n: usize) -> Lent {
        Lent { changed: vec![0; 8 + 8 * n], tags: vec![0; 10 * n] }
    }
}

fn windows_in(file: &[u8]) -> usize {
    (file.len() - 8) / 8
}

fn ours(file: &[u8], plan: u16, change: Change, lent: &mut Lent) -> u64 {
    let (changed, room) = (lent.changed.as_mut_ptr(), lent.changed.len());
    let (tags, tags_room) = (lent.tags.as_mut_ptr(), lent.tags.len());
    let (file, length) = (file.as_ptr(), file.len());
    match change {
        Change::Add(offset, minutes) => unsafe { poddreshi_add(file, length, plan, offset, minutes, changed, room, tags, tags_room) },
        Change::Withdraw(at) => unsafe { poddreshi_withdraw(file, length, plan, at, changed, room, tags, tags_room) },
    }
}

fn by_hand(file: &[u8], plan: u16, change: Change, lent: &mut Lent) -> Result<(u16, u16, u16), Refusal> {
    let Lent { changed, tags } = lent;
    match change {
        Change::Add(offset, minutes) => hand_add(file, plan, (offset, minutes), changed, tags),
        Change::Withdraw(at) => hand_withdraw(file, plan, at, changed, tags),
    }
}

/// As the library answers it.
fn packed(answer: Result<(u16, u16, u16), Refusal>) -> u64 {
    match answer {
        Ok((plan, windows, components)) => BUILT | (plan as u64) << 16 | (windows as u64) << 32 | (components as u64) << 48,
        Err(refusal) => refusal.packed(),
    }
}

/// The plan without one of its windows, and that to be added.
fn addition(file: &[u8], at: usize) -> Task {
    let mut file = file.to_vec();
    let window: Vec<u8> = file.drain(8 + 8 * at..16 + 8 * at).collect();
    let n = windows_in(&file) as u16;
    file[2..4].copy_from_slice(&n.to_le_bytes());
    let [offset, length] = [&window[..4], &window[4..]].map(|number| u32::from_le_bytes(number.try_into().unwrap()));
    (file, Change::Add(offset, length))
}

fn withdrawal(file: &[u8], at: usize) -> Task {
    (file.to_vec(), Change::Withdraw(at))
}

/// A change of each plan of the case.
fn tasks(case: &Case, task: fn(&[u8], usize) -> Task) -> Vec<Task> {
    asked(case).map(|(file, at)| task(file, at)).collect()
}

/// One call, of ours or by hand, for an instruction counter.
pub fn count(call: &str, who: &str, file: &[u8], at: usize) {
    let (file, change) = if call == "add" { addition(file, at) } else { withdrawal(file, at) };
    let mut lent = Lent::new(windows_in(&file) + 1);
    match who {
        "ours" => keep(ours(&file, NEW, change, &mut lent)),
        _ => keep(by_hand(&file, NEW, change, &mut lent)),
    }
}

/// With room for so many windows, and the number of the refusal that is due, if any.
fn compare_one(file: &[u8], plan: u16, change: Change, room: usize, due: Option<u8>) {
    let [mut left, mut right] = [(); 2].map(|_| Lent::new(room));
    let (answer, theirs) = (ours(file, plan, change, &mut left), by_hand(file, plan, change, &mut right));
    assert_eq!(theirs.err().map(|refusal| refusal.number), due, "the refusal by hand");
    assert_eq!(answer, packed(theirs), "the answer");
    assert!(left == right, "the changed plan and its tags");
}

/// Both ways give one answer and write the same bytes, or the times mean nothing: also without room, with the old plan number, and with
/// a window or a position at fault.
fn compare(tasks: &[Task]) {
    for (file, change) in tasks {
        let (n, old) = (windows_in(file), u16::from_le_bytes([file[0], file[1]]));
        let (changed, at_fault, number) = match change {
            Change::Add(offset, _) => (n + 1, Change::Add(*offset, 0), 4),
            Change::Withdraw(_) => (n - 1, Change::Withdraw(n), 7),
        };
        compare_one(file, NEW, *change, changed, None);
        compare_one(file, NEW, *change, changed + 1, None);
        compare_one(file, NEW, *change, changed - 1, Some(8));
        compare_one(file, old, *change, changed, Some(16));
        compare_one(file, NEW, at_fault, changed, Some(number));
    }
}

fn all_ours(tasks: &[Task], lent: &mut Lent) {
    tasks.iter().for_each(|(file, change)| keep(ours(file, NEW, *change, lent)));
}

fn measure(case: &Case, call: &str, tasks: &[Task]) {
    compare(tasks);
    let [mut left, mut right] = [(); 2].map(|_| Lent::new(case.n));
    let [ours, hand] = medians([
        &mut || all_ours(tasks, &mut left),
        &mut || tasks.iter().for_each(|(file, change)| keep(by_hand(file, NEW, *change, &mut right))),
    ])
    .map(|time| time / tasks.len() as f64);
    let (before, [a, b]) = (windows_in(&tasks[0].0), [ours, hand].map(times));
    println!("| {} | {} | {call} {before} windows | {a} | {b} | {:.2} |", case.name, case.n, ours / hand);
}

/// How many times longer an addition, a withdrawal and a build take for twice the windows, all measured turn by turn.
fn measure_growth([small, large]: [&Case; 2]) -> [f64; 3] {
    let [few, many] = [small, large].map(|case| [tasks(case, addition), tasks(case, withdrawal)]);
    let [mut a, mut b, mut c, mut d] = [small, small, large, large].map(|case| Lent::new(case.n));
    let [mut e, mut f] = [small, large].map(|case| Tables::new(case.n));
    let [add, withdraw, build, more_add, more_withdraw, more_build] = medians([
        &mut || all_ours(&few[0], &mut a),
        &mut || all_ours(&few[1], &mut b),
        &mut || build_all(small, &mut e),
        &mut || all_ours(&many[0], &mut c),
        &mut || all_ours(&many[1], &mut d),
        &mut || build_all(large, &mut f),
    ]);
    let plans = small.files.len() as f64 / large.files.len() as f64;
    [more_add / add, more_withdraw / withdraw, more_build / build].map(|times| times * plans)
}

pub fn table() {
    println!("\n| plan | n | call | ours | by hand in Rust: questions, copy, build | ours / by hand |");
    println!("|---|---|---|---|---|---|");
    let mut growth = [(); 3].map(|_| Vec::new());
    for shape in SHAPES {
        let cases = [256, 1024, 2048].map(|n| Case::of_plans(shape, n, WINDOWS / n));
        for case in &cases {
            measure(case, "add to", &tasks(case, addition));
            measure(case, "withdraw from", &tasks(case, withdrawal));
        }
        for (all, times) in growth.iter_mut().zip(measure_growth([&cases[1], &cases[2]])) {
            all.push(format!("{} {times:.2}", shape.name()));
        }
    }
    println!(
        "\nBy hand: what is asked of the plan and of the change, a copy of the plan with the window put in or left out, and the build by \
         hand of that copy, with what it asks. A row has plans of {WINDOWS} windows in all, each with a change of its own; an added \
         window is one that was taken out of the plan."
    );
    let [add, withdraw, build] = growth.map(|all| all.join(", "));
    println!("Adding at 2,048 windows over adding at 1,024: {add}.");
    println!("Withdrawing at 2,048 windows over withdrawing at 1,024: {withdraw}.");
    println!("Build of these plans at 2,048 windows over build at 1,024: {build}.");
}
