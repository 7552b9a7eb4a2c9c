//! What the papers say, by brute force: windows as sets of minutes, overlap as a count of the minutes that both sets have, a margin as
//! that count or as one of the minutes between them, least numbers of handovers by breadth-first search, reach as the greatest of them
//! all, post-order by recursion, a changed plan as one whose windows are sorted anew. Nothing here is taken from the library: where it
//! has a formula, this has a search or a count. A minute is one of the plan's units, "agreed outside the file" (paper 02, Q-8).
use crate::answers::{refusal, Answer, Refusal};
use crate::forms::Form;
use crate::shapes::file_of;

fn number(bytes: &[u8]) -> u64 {
    bytes.iter().rev().fold(0, |high, &byte| high * 256 + byte as u64)
}

pub struct Plan {
    pub number: u16,
    /// The minimum handover, in minutes.
    pub minimum: u64,
    pub windows: Vec<(u64, u64)>,
}

impl Plan {
    pub fn file(&self) -> Vec<u8> {
        let windows: Vec<(u32, u32)> = self.windows.iter().map(|&(offset, length)| (offset as u32, length as u32)).collect();
        file_of(self.number, self.minimum as u32, &windows)
    }
}

/// Question 5 of any window. Paper 02, Q-8: "Check 5 now lets offset + length reach 4,294,967,295."
fn ends_in_time(offset: u64, length: u64) -> bool {
    offset + length <= 4_294_967_295
}

/// Questions 1, 2, 14 and 3, and then 4 to 6, window after window.
pub fn read_plan(file: &[u8], input: u16) -> Result<Plan, Refusal> {
    if file.len() < 8 {
        return Err(refusal(1, input, 0));
    }
    let n = number(&file[2..4]) as usize;
    if n > 2048 {
        return Err(refusal(2, input, 0));
    }
    let minimum = number(&file[4..8]);
    if !(1..=86_400).contains(&minimum) {
        return Err(refusal(14, input, 0));
    }
    if file.len() != 8 + 8 * n {
        return Err(refusal(3, input, 0));
    }
    let windows: Vec<(u64, u64)> = file[8..].chunks(8).map(|pair| (number(&pair[..4]), number(&pair[4..]))).collect();
    for (position, &(offset, length)) in windows.iter().enumerate() {
        if length < minimum {
            return Err(refusal(4, input, position));
        }
        if !ends_in_time(offset, length) {
            return Err(refusal(5, input, position));
        }
        if position > 0 && offset < windows[position - 1].0 {
            return Err(refusal(6, input, position));
        }
    }
    Ok(Plan { number: number(&file[..2]) as u16, minimum, windows })
}

/// Question 13, where short tags are wanted: "at the first window ending before the one ahead of it".
pub fn is_even(plan: &Plan) -> Result<(), Refusal> {
    let ends: Vec<u64> = plan.windows.iter().map(|w| w.0 + w.1).collect();
    match (1..ends.len()).find(|&v| ends[v] < ends[v - 1]) {
        Some(v) => Err(refusal(13, 0, v)),
        None => Ok(()),
    }
}

/// Paper 02, Q-6: "A change is a record: the new plan number and what is to be done, which is either a window to add (offset and
/// length) or a position to withdraw."
#[derive(Clone, Copy, PartialEq, Debug)]
pub struct Change {
    pub plan: u16,
    pub what: What,
}

#[derive(Clone, Copy, PartialEq, Debug)]
pub enum What {
    Add(u32, u32),
    Withdraw(usize),
}

/// What a change writes.
#[derive(Default, PartialEq, Debug)]
pub struct Changed {
    pub file: Vec<u8>,
    pub tags: Vec<u8>,
}

/// "15, an addition to 2,048 windows, after the plan's checks; 16, a new plan number equal to the old, after 15." "The window's own 4
/// and 5 come after 16 and carry position 0, after which 7 and 8 apply." Question 8 is not among these.
pub fn may_change(plan: &Plan, change: &Change) -> Result<(), Refusal> {
    let n = plan.windows.len();
    let new_number = (16, change.plan != plan.number);
    let asked = match change.what {
        What::Add(offset, length) => {
            let (offset, length) = (offset as u64, length as u64);
            vec![(15, n != 2048), new_number, (4, length >= plan.minimum), (5, ends_in_time(offset, length))]
        }
        What::Withdraw(at) => vec![new_number, (7, (0..n).contains(&at))],
    };
    match asked.into_iter().find(|&(_, yes)| !yes) {
        Some((question, _)) => Err(refusal(question, 0, 0)),
        None => Ok(()),
    }
}

/// "an added window goes behind all with the same or a smaller offset": it is put behind all, and then all are sorted by their offsets,
/// equal ones staying in their order.
pub fn changed(plan: &Plan, change: &Change) -> Plan {
    let mut windows = plan.windows.clone();
    match change.what {
        What::Add(offset, length) => {
            windows.push((offset as u64, length as u64));
            windows.sort_by_key(|window| window.0);
        }
        What::Withdraw(at) => {
            let others = windows.into_iter().enumerate().filter(|&(position, _)| position != at);
            windows = others.map(|(_, window)| window).collect();
        }
    }
    Plan { number: change.plan, minimum: plan.minimum, windows }
}

/// Which bits of a word are set.
fn ones(word: u64) -> impl Iterator<Item = usize> {
    let rest = |word: &u64| Some(word & (word - 1)).filter(|&rest| rest != 0);
    std::iter::successors(Some(word).filter(|&word| word != 0), rest).map(|word| word.trailing_zeros() as usize)
}

/// A set of small numbers.
#[derive(Clone, PartialEq)]
pub struct Set(Vec<u64>);

impl Set {
    pub fn empty(size: usize) -> Set {
        Set(vec![0; size.div_ceil(64)])
    }
    pub fn add(&mut self, x: usize) {
        self.0[x / 64] |= 1 << (x % 64);
    }
    pub fn has(&self, x: usize) -> bool {
        self.0[x / 64] >> (x % 64) & 1 == 1
    }
    fn shares_with(&self, other: &Set) -> bool {
        self.0.iter().zip(&other.0).any(|(a, b)| a & b != 0)
    }
    fn add_all(&mut self, other: &Set) {
        self.0.iter_mut().zip(&other.0).for_each(|(a, b)| *a |= b);
    }
    fn remove_all(&mut self, other: &Set) {
        self.0.iter_mut().zip(&other.0).for_each(|(a, b)| *a &= !b);
    }
    fn is_empty(&self) -> bool {
        self.0.iter().all(|&word| word == 0)
    }
    pub fn members(&self) -> Vec<usize> {
        self.0.iter().enumerate().flat_map(|(i, &word)| ones(word).map(move |bit| 64 * i + bit)).collect()
    }
}

/// Plans that end later than this have their minutes taken in runs in which no window begins or ends.
const MINUTE_BY_MINUTE: u64 = 4096;

/// The minutes of a plan, laid out in runs. In each of them a window covers every minute or none.
struct Minutes {
    /// The first minute of each run, and the last.
    runs: Vec<[u64; 2]>,
    /// How many minutes each run has.
    lengths: Vec<u64>,
    /// The same for each 64 runs, which stand in one word of a set.
    together: Vec<u64>,
    /// By position, the runs that the window covers.
    covered: Vec<Set>,
}

impl Minutes {
    fn of(plan: &Plan) -> Minutes {
        match plan.windows.iter().map(|w| w.0 + w.1).max() {
            Some(latest) if latest > MINUTE_BY_MINUTE => Minutes::in_runs(plan),
            latest => Minutes::one_by_one(plan, latest.unwrap_or(0)),
        }
    }

    /// Each run is one minute: the plainest reading of the papers. A plan that ends late has too many minutes for that.
    fn one_by_one(plan: &Plan, latest: u64) -> Minutes {
        Minutes::between((0..=latest).collect(), plan)
    }

    /// Each run goes from a minute at which some window begins or ends to the next such minute, however many minutes that are.
    fn in_runs(plan: &Plan) -> Minutes {
        let mut bounds: Vec<u64> = plan.windows.iter().flat_map(|w| [w.0, w.0 + w.1]).collect();
        bounds.sort_unstable();
        bounds.dedup();
        Minutes::between(bounds, plan)
    }

    /// Each run goes from one of the bounds up to, not including, the next.
    fn between(bounds: Vec<u64>, plan: &Plan) -> Minutes {
        let lengths: Vec<u64> = bounds.windows(2).map(|two| two[1] - two[0]).collect();
        let runs: Vec<[u64; 2]> = bounds.windows(2).map(|two| [two[0], two[1] - 1]).collect();
        let covered = runs_where(plan, &runs, |(offset, length), minute| offset <= minute && minute < offset + length);
        let together = lengths.chunks(64).map(|runs| runs.iter().sum()).collect();
        Minutes { runs, lengths, together, covered }
    }

    /// How many minutes both windows cover.
    fn shared(&self, u: usize, v: usize) -> u64 {
        self.in_both(&self.covered[u], &self.covered[v])
    }

    /// How many minutes the runs have that stand in both sets.
    fn in_both(&self, a: &Set, b: &Set) -> u64 {
        let words = a.0.iter().zip(&b.0).enumerate();
        words.map(|(word, (a, b))| self.count(word, a & b)).sum()
    }

    /// How many minutes some runs of one word have.
    fn count(&self, word: usize, runs: u64) -> u64 {
        match runs {
            0 => 0,
            u64::MAX => self.together[word],
            some => ones(some).map(|run| self.lengths[64 * word + run]).sum(),
        }
    }
}

/// By position, the runs whose minutes stand to the window as is asked: the first of a run, and with it the last.
fn runs_where(plan: &Plan, runs: &[[u64; 2]], stands: impl Fn((u64, u64), u64) -> bool) -> Vec<Set> {
    let of_window = |&window: &(u64, u64)| {
        let mut set = Set::empty(runs.len());
        for (run, &[first, last]) in runs.iter().enumerate() {
            let all = stands(window, first);
            assert_eq!(all, stands(window, last), "minutes {first} and {last} of one run, beside {window:?}");
            if all {
                set.add(run);
            }
        }
        set
    };
    plan.windows.iter().map(of_window).collect()
}

/// The minutes of a plan, and which of them lie on either side of a window.
pub struct Margins {
    minutes: Minutes,
    /// By position, the runs that lie before the window.
    before: Vec<Set>,
    /// The same for those behind it.
    behind: Vec<Set>,
}

impl Margins {
    pub fn of(plan: &Plan) -> Margins {
        Margins::laid_out(plan, Minutes::of(plan))
    }

    fn laid_out(plan: &Plan, minutes: Minutes) -> Margins {
        let before = runs_where(plan, &minutes.runs, |(offset, _), minute| minute < offset);
        let behind = runs_where(plan, &minutes.runs, |(offset, length), minute| offset + length <= minute);
        Margins { minutes, before, behind }
    }

    /// Paper 02, Q-7: "positive minutes shared, 0 where they touch, and a negative number for the gap. A window with itself gives its
    /// length." A gap is counted by the minutes behind the one and before the other, whichever comes first.
    pub fn between(&self, u: usize, v: usize) -> i64 {
        let gap = |u: usize, v: usize| self.minutes.in_both(&self.behind[u], &self.before[v]);
        match (self.minutes.shared(u, v), gap(u, v) + gap(v, u)) {
            (shared, 0) => shared as i64,
            (0, gap) => -(gap as i64),
            (shared, gap) => panic!("{u} and {v} share {shared} minutes and have {gap} between them"),
        }
    }

    /// That runs say the same of each two of some positions: the minutes shared, and the margin. Plans that end late can be laid
    /// out in runs alone, so wherever a plan ends early enough to have each minute by itself, the runs are held to that plainer
    /// layout.
    pub fn hold_in_runs(&self, plan: &Plan, some: &[usize]) {
        if self.minutes.lengths.iter().any(|&length| length > 1) {
            return;
        }
        let runs = Margins::laid_out(plan, Minutes::in_runs(plan));
        for (&u, &v) in some.iter().flat_map(|u| some.iter().map(move |v| (u, v))) {
            let said = |margins: &Margins| (margins.minutes.shared(u, v), margins.between(u, v));
            assert_eq!(said(self), said(&runs), "{u} and {v}: shared minutes and margin, by minutes (left) and by runs");
        }
    }
}

/// The tree of an accepted plan, and which windows overlap.
pub struct Tree {
    pub n: usize,
    pub plan: u16,
    /// By position, the positions that overlap it.
    pub overlaps: Vec<Set>,
    pub parent: Vec<usize>,
    pub component: Vec<usize>,
    pub components: usize,
    pub depth: Vec<usize>,
    pub rank: Vec<usize>,
    pub last: Vec<usize>,
}

/// What build writes.
#[derive(Default, PartialEq, Debug)]
pub struct Columns {
    pub tables: [Vec<u16>; 5],
    pub tags: Vec<u8>,
}

/// Children in order of position, each with all under it, and then the parent.
fn post_order(v: usize, children: &[Vec<usize>], out: &mut Vec<usize>) {
    for &child in &children[v] {
        post_order(child, children, out);
    }
    out.push(v);
}

impl Tree {
    /// Paper 02, Q-2: "Two windows overlap when they share at least that many minutes."
    pub fn of(plan: &Plan) -> Tree {
        let minutes = Minutes::of(plan);
        Tree::where_overlap(plan, &|u, v| minutes.shared(u, v) >= plan.minimum)
    }

    /// Paper 01, which knows no minimum: "Two different windows overlap when they share a minute."
    pub fn of_before(plan: &Plan) -> Tree {
        let minutes = Minutes::of(plan);
        Tree::where_overlap(plan, &|u, v| minutes.covered[u].shares_with(&minutes.covered[v]))
    }

    fn where_overlap(plan: &Plan, overlap: &dyn Fn(usize, usize) -> bool) -> Tree {
        let n = plan.windows.len();
        let mut overlaps = vec![Set::empty(n); n];
        for u in 0..n {
            for v in u + 1..n {
                if overlap(u, v) {
                    overlaps[u].add(v);
                    overlaps[v].add(u);
                }
            }
        }
        let parent: Vec<usize> = (0..n).map(|v| (0..v).find(|&u| overlaps[u].has(v)).unwrap_or(v)).collect();
        let last = (0..n).map(|u| (u + 1..n).rev().find(|&v| overlaps[u].has(v)).unwrap_or(u)).collect();
        let mut children = vec![Vec::new(); n];
        let roots: Vec<usize> = (0..n).filter(|&v| parent[v] == v).collect();
        for v in (0..n).filter(|&v| parent[v] != v) {
            children[parent[v]].push(v);
        }
        let (mut component, mut rank, mut depth) = (vec![0; n], vec![0; n], vec![0; n]);
        for (number, &root) in roots.iter().enumerate() {
            let mut order = Vec::new();
            post_order(root, &children, &mut order);
            for (place, &v) in order.iter().enumerate() {
                component[v] = number;
                rank[v] = place;
                let mut at = v;
                while parent[at] != at {
                    at = parent[at];
                    depth[v] += 1;
                }
            }
        }
        Tree { n, plan: plan.number, overlaps, parent, component, components: roots.len(), depth, rank, last }
    }

    /// The fields of a tag of either form, after the plan number.
    pub fn fields(&self, form: Form, v: usize) -> Vec<u16> {
        let fields = match form {
            Form::Long => vec![self.component[v], self.depth[v], self.rank[v], self.rank[self.last[v]]],
            Form::Short => vec![self.component[v], self.depth[v], self.rank[v]],
        };
        fields.into_iter().map(|field| field as u16).collect()
    }

    pub fn tag_file(&self, form: Form) -> Vec<u8> {
        (0..self.n).flat_map(|v| tag_bytes(&[&[self.plan], &self.fields(form, v)[..]].concat())).collect()
    }

    pub fn built(&self) -> Answer {
        Answer::Built { plan: self.plan, windows: self.n as u16, components: self.components as u16 }
    }

    /// The five tables in the paper's order, and the tag file.
    pub fn columns(&self) -> Columns {
        let column = |f: &dyn Fn(usize) -> usize| (0..self.n).map(|v| f(v) as u16).collect::<Vec<u16>>();
        let tables = [
            column(&|v| self.parent[v]),
            column(&|v| self.component[v]),
            column(&|v| self.depth[v]),
            column(&|v| self.rank[v]),
            column(&|v| self.rank[self.last[v]]),
        ];
        Columns { tables, tags: self.tag_file(Form::Long) }
    }

    /// Rising, without the window itself.
    pub fn neighbours(&self, v: usize) -> Vec<u16> {
        self.overlaps[v].members().iter().map(|&u| u as u16).collect()
    }

    pub fn same_as(&self, other: &Tree) -> bool {
        self.n == other.n && self.overlaps == other.overlaps
    }

    /// The least number of handovers from one window to each, by breadth-first search; none where no chain joins them.
    pub fn distances(&self, from: usize) -> Vec<Option<u16>> {
        let mut found = vec![None; self.n];
        let mut seen = Set::empty(self.n);
        let mut front = Set::empty(self.n);
        front.add(from);
        seen.add(from);
        let mut steps = 0;
        while !front.is_empty() {
            let mut next = Set::empty(self.n);
            for v in front.members() {
                found[v] = Some(steps);
                next.add_all(&self.overlaps[v]);
            }
            next.remove_all(&seen);
            seen.add_all(&next);
            front = next;
            steps += 1;
        }
        found
    }

    /// The same from every window.
    pub fn all_distances(&self) -> Vec<Vec<Option<u16>>> {
        (0..self.n).map(|v| self.distances(v)).collect()
    }

    /// At each step of a shortest chain from the later window, the earliest position at which any shortest chain stands.
    /// The chain that is asked for is this list, since no chain is earlier at any step.
    pub fn earliest(&self, from_later: &[Option<u16>], from_earlier: &[Option<u16>], earlier: usize) -> Option<Vec<u16>> {
        let steps = from_later[earlier]?;
        let mut list = vec![u16::MAX; steps as usize + 1];
        for x in (0..self.n).rev() {
            if let (Some(a), Some(b)) = (from_later[x], from_earlier[x]) {
                if a + b == steps {
                    list[a as usize] = x as u16;
                }
            }
        }
        Some(list)
    }

    /// Every shortest chain from one window to another, for small plans.
    pub fn shortest_chains(&self, from: usize, to: &[Option<u16>]) -> Vec<Vec<usize>> {
        if to[from] == Some(0) {
            return vec![vec![from]];
        }
        let Some(steps) = to[from] else { return Vec::new() };
        let mut all = Vec::new();
        for next in (0..self.n).filter(|&x| self.overlaps[from].has(x) && to[x] == Some(steps - 1)) {
            for mut rest in self.shortest_chains(next, to) {
                rest.insert(0, from);
                all.push(rest);
            }
        }
        all
    }
}

/// The windows that a chain joins to one, itself among them.
fn joined(at: usize, distances: &[Vec<Option<u16>>]) -> Vec<usize> {
    (0..distances.len()).filter(|&v| distances[at][v].is_some()).collect()
}

/// Paper 02, Q-5: "the greatest number of handovers between two windows of the component", and "the first pair that has it, by smaller
/// position and then by larger", from the search between all windows. A window and itself are among the pairs: "A component of one
/// window has reach 0 and its window twice."
pub fn reach(at: usize, distances: &[Vec<Option<u16>>]) -> Answer {
    let component = joined(at, distances);
    let later = |u: usize| component.iter().filter(move |&&v| u <= v).map(move |&v| (u, v));
    let pairs = || component.iter().flat_map(|&u| later(u));
    let apart = |(u, v): (usize, usize)| distances[u][v].expect("a chain between two windows of a component");
    let handovers = pairs().map(apart).max().expect("a window");
    let (smaller, larger) = pairs().find(|&pair| apart(pair) == handovers).expect("a pair that has it");
    Answer::Reach { handovers, smaller: smaller as u16, larger: larger as u16 }
}

/// By position, the reach of its component, which is looked for once.
pub fn reaches(distances: &[Vec<Option<u16>>]) -> Vec<Answer> {
    let mut found = vec![None; distances.len()];
    for at in 0..distances.len() {
        if found[at].is_none() {
            let answer = Some(reach(at, distances));
            joined(at, distances).into_iter().for_each(|v| found[v] = answer);
        }
    }
    found.into_iter().flatten().collect()
}

pub fn tag_bytes(tag: &[u16]) -> Vec<u8> {
    tag.iter().flat_map(|x| [(x & 255) as u8, (x >> 8) as u8]).collect()
}

/// Questions 9 and 10. A short tag has 0 in the place of the number that it does not have.
fn read_tag(form: Form, bytes: &[u8], input: u16) -> Result<[i32; 5], Refusal> {
    if bytes.len() != form.bytes() {
        return Err(refusal(9, input, 0));
    }
    let mut tag = [0; 5];
    for (i, two) in bytes.chunks(2).enumerate() {
        tag[i] = number(two) as i32;
    }
    if tag[1..].iter().any(|&x| x > 2047) {
        return Err(refusal(10, input, 0));
    }
    Ok(tag)
}

/// The handovers of two long tags of one component, in the paper's order.
fn long_count(u: [i32; 5], v: [i32; 5]) -> i32 {
    let (d, rank_u, rank_v, last_u) = (v[2] - u[2], u[3], v[3], u[4]);
    match rank_u < rank_v {
        true if rank_v <= last_u || last_u < rank_u => d + 1,
        true => d + 2,
        false if rank_v <= last_u && last_u < rank_u => d,
        false => d + 1,
    }
}

/// Of two short ones: "D + 1 if rank u < rank v, else D".
fn short_count(u: [i32; 5], v: [i32; 5]) -> i32 {
    let (d, rank_u, rank_v) = (v[2] - u[2], u[3], v[3]);
    if rank_u < rank_v { d + 1 } else { d }
}

/// The rule on any two byte strings, in the paper's order. (Of the tags of a plan the answer is held against the search.)
pub fn pair(form: Form, first: &[u8], second: &[u8]) -> Result<Answer, Refusal> {
    let a = read_tag(form, first, 0)?;
    let b = read_tag(form, second, 1)?;
    let [plan_a, component_a, depth_a, rank_a, _] = a;
    let [plan_b, component_b, depth_b, rank_b, _] = b;
    if plan_a != plan_b {
        return Err(refusal(11, 1, 0));
    }
    if component_a == component_b && rank_a == rank_b && a != b {
        return Err(refusal(12, 1, 0));
    }
    if a == b {
        return Ok(Answer::Handovers(0));
    }
    if component_a != component_b {
        return Ok(Answer::NoChain);
    }
    // "u is the tag with smaller depth, or smaller rank at equal depth"
    let (u, v) = if (depth_a, rank_a) < (depth_b, rank_b) { (a, b) } else { (b, a) };
    let count = match form {
        Form::Long => long_count(u, v),
        Form::Short => short_count(u, v),
    };
    Ok(Answer::Handovers(count as u16))
}
