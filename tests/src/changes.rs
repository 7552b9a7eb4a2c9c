//! Changes (paper 02, Q-6), twice: against the oracle, which sorts the windows anew and builds the changed plan from nothing, and against
//! what the library itself says of the plans before and after. Every refusal of a change, alone and with any of the others.
use crate::answers::{refusal, Answer, Refusal};
use crate::calls::{self, Buffers};
use crate::compare::{positions_past, Comparison, Depth};
use crate::forms::Form;
use crate::oracle::{self, Change, Changed, Plan, What};
use crate::random::Random;
use crate::refusals;
use crate::shapes::{at_the_end, file_of, realised, too_long, window_in, windows_in, LATEST};
use std::collections::BTreeSet;

/// The rooms that a change of n windows fills to the last byte.
fn fitting(what: What, n: usize) -> [usize; 2] {
    let windows = match what {
        What::Add(..) => n + 1,
        What::Withdraw(_) => n.saturating_sub(1),
    };
    [8 + 8 * windows, 10 * windows]
}

/// A plan number that is not the one of before.
fn other_number(old: u16, random: &mut Random) -> u16 {
    let others = [0, 65_535, old.wrapping_add(1), old ^ 1 << random.below(16), random.next() as u16];
    Some(random.pick(&others)).filter(|&new| new != old).unwrap_or(old ^ 1)
}

/// A window that may be added to a plan that is not full. It begins at, just before or behind a minute at which some window begins or
/// ends; it is as short as it may be, or shares with some window the minimum, a minute less or a minute more.
fn any_window(plan: &Plan, random: &mut Random) -> (u32, u32) {
    let (minimum, latest) = (plan.minimum, LATEST as u64);
    let begins = plan.windows.iter().map(|w| w.0);
    let ends = plan.windows.iter().map(|w| w.0 + w.1);
    let minutes: Vec<u64> = begins.clone().chain(begins).chain(ends).chain([0, latest]).collect();
    let mut near = || (random.pick(&minutes) + random.pick(&[0, 1, 1, 2, 9])).saturating_sub(1);
    let offset = near().min(latest - minimum);
    let end = near() + minimum;
    let shortest = random.below(3) == 0;
    let length = if shortest { minimum } else { end.saturating_sub(offset).clamp(minimum, latest - offset) };
    (offset as u32, length as u32)
}

/// Windows that questions 4 and 5 refuse: too short; too late by a minute; both; and such as end in time where a sum has 32 bits.
fn wrong_windows(plan: &Plan, offset: u32, random: &mut Random) -> Vec<What> {
    let minimum = plan.minimum as u32;
    let late = offset.max(1);
    let latest = LATEST - random.below(100) as u32;
    vec![
        What::Add(offset, minimum - 1),
        What::Add(late, too_long(late)),
        What::Add(LATEST - minimum.saturating_sub(2), minimum - 1),
        What::Add(LATEST, LATEST),
        What::Add(latest, too_long(latest) + minimum + random.below(100) as u32),
    ]
}

/// The number of a file's plan, as it stands there.
fn number_in(file: &[u8]) -> u16 {
    u16::from_le_bytes([file[0], file[1]])
}

/// Behind how many windows of a file one goes that is added.
fn place_in(file: &[u8], offset: u32) -> usize {
    (0..windows_in(file)).filter(|&v| window_in(file, v).0 <= offset).count()
}

/// The component of a tag in a tag file.
fn component_in(tags: &[u8], at: usize) -> usize {
    u16::from_le_bytes([tags[10 * at + 2], tags[10 * at + 3]]) as usize
}

impl Comparison {
    /// One change of an accepted plan, with either room too short, half of the times by a byte, and then into rooms that fit or are
    /// longer. Hands back what the library has written, or nothing where it refuses.
    pub fn one_change(&mut self, file: &[u8], change: &Change) -> Changed {
        let fits = fitting(change.what, windows_in(file));
        let rooms = fits.map(|room| room + self.some_room());
        for short in 0..rooms.len() {
            let most = self.random.pick(&[1, 24]);
            let mut rooms = rooms;
            rooms[short] = fits[short].saturating_sub(self.random.between(1, most) as usize);
            self.change(file, change, rooms).agree(format_args!("{change:?} with rooms {rooms:?}"));
        }
        let both = self.change(file, change, rooms);
        both.agree(format_args!("{change:?} with rooms {rooms:?}"));
        match both.oracle {
            Answer::Refused(_) => Changed::default(),
            _ => self.by_library(file, change),
        }
    }

    /// The library's own calls on the plans before and after, with nothing from the oracle: the changed plan is a plan, its tags "equal a
    /// build from nothing", and some tags "keep all but the plan number".
    fn by_library(&mut self, file: &[u8], change: &Change) -> Changed {
        let (answer, changed) = self.library_change(file, change);
        let windows = windows_in(&changed.file) as u16;
        let accepted = Answer::Accepted { plan: change.plan, windows };
        assert_eq!(calls::validate(&changed.file), accepted, "{change:?}: validate of the changed plan");
        let ((_, before), anew) = (self.library_tags(file), self.library_tags(&changed.file));
        assert_eq!((answer, &changed.tags), (anew.0, &anew.1), "{change:?}: its tags (left), and those from nothing");
        for at in self.keeping(file, change, &before, &changed.file) {
            let due = [&change.plan.to_le_bytes()[..], &before[10 * at..][2..10]].concat();
            assert_eq!(changed.tags[10 * at..][..10], due, "{change:?}: the tag of {at} (left), which keeps all but the plan number");
        }
        self.taken_back(file, change, &before, &changed.file);
        self.calls += 1;
        changed
    }

    /// Into rooms that just fit.
    fn library_change(&mut self, file: &[u8], change: &Change) -> (Answer, Changed) {
        let mut lent = Buffers::new(fitting(change.what, windows_in(file)), &mut self.random);
        let answer = calls::change(file, change, &mut lent);
        assert!(matches!(answer, Answer::Built { .. }), "{change:?} of a plan that can be changed so: {answer:?}");
        self.calls += 1;
        (answer, Changed { file: lent.file.entries().to_vec(), tags: lent.tags.entries().to_vec() })
    }

    fn library_tags(&mut self, file: &[u8]) -> (Answer, Vec<u8>) {
        let mut tags = calls::bytes(10 * windows_in(file), &mut self.random);
        self.calls += 1;
        (calls::tags(Form::Long, file, &mut tags), tags.entries().to_vec())
    }

    /// "For an added window, tags of components wholly before it that have no overlap with it [...]; for a withdrawn one this holds of
    /// components with smaller numbers." Positions of such, which are the same before and after.
    fn keeping(&mut self, file: &[u8], change: &Change, tags: &[u8], changed: &[u8]) -> Vec<usize> {
        let n = windows_in(file);
        let component = |at: usize| component_in(tags, at);
        let offset = match change.what {
            What::Withdraw(at) => return (0..n).filter(|&v| component(v) < component(at)).collect(),
            What::Add(offset, _) => offset,
        };
        let place = place_in(file, offset);
        let near = self.library_neighbours(changed, place);
        let overlapping = near.iter().map(|&v| v as usize).filter(|&v| v < place);
        let mut others = vec![false; n];
        overlapping.chain(place..n).for_each(|v| others[component(v)] = true);
        (0..place).filter(|&v| !others[component(v)]).collect()
    }

    /// A window that was added is withdrawn, or one that was withdrawn is added, and the plan has its number of before. It is the plan of
    /// before, but that a window added again goes behind those with its offset, so that these and itself may stand in another order.
    fn taken_back(&mut self, file: &[u8], change: &Change, tags: &[u8], changed: &[u8]) {
        let offset = |at: usize| window_in(file, at).0;
        let (what, moved) = match change.what {
            What::Add(offset, _) => (What::Withdraw(place_in(file, offset)), vec![]),
            What::Withdraw(at) => {
                let (minute, length) = window_in(file, at);
                (What::Add(minute, length), (0..windows_in(file)).filter(|&v| offset(v) == minute).collect())
            }
        };
        let back = Change { plan: number_in(file), what };
        let (_, again) = self.library_change(changed, &back);
        if moved.len() < 2 {
            assert_eq!((&again.file[..], &again.tags[..]), (file, tags), "{change:?} and {back:?}: the plan and the tags of before");
        }
        assert_eq!(again.file[..8], file[..8], "{change:?} and {back:?}: the header of before");
        for at in (0..windows_in(file)).filter(|at| !moved.contains(at)) {
            assert_eq!(window_in(&again.file, at), window_in(file, at), "{change:?} and {back:?}: the window of before at {at}");
        }
    }

    /// An addition or a withdrawal, and some of the refusals that a change of this plan can have, all drawn.
    pub fn some_changes(&mut self, file: &[u8], plan: &Plan) {
        let n = plan.windows.len();
        let random = &mut self.random;
        let new = other_number(plan.number, random);
        let (offset, length) = any_window(plan, random);
        let withdrawn = What::Withdraw(random.below(n.max(1) as u64) as usize);
        let added = What::Add(offset, length);
        let mut wrong = wrong_windows(plan, offset, random);
        wrong.extend(positions_past(n, random).map(What::Withdraw));
        let refused = Change { plan: new, what: random.pick(&wrong) };
        wrong.extend([added, withdrawn]);
        let not_renumbered = Change { plan: plan.number, what: random.pick(&wrong) };
        for change in [refused, not_renumbered] {
            let rooms = fitting(change.what, n).map(|room| (room + self.some_room()).saturating_sub(2));
            let both = self.change(file, &change, rooms);
            both.agree(format_args!("{change:?} with rooms {rooms:?}"));
            assert!(matches!(both.oracle, Answer::Refused(_)), "{change:?} of {n} windows is to be refused");
        }
        let what = self.random.pick(&[added, withdrawn]);
        self.one_change(file, &Change { plan: new, what });
    }

    /// By this question, whatever the rooms are.
    pub fn refuses_change(&mut self, file: &[u8], change: &Change, number: u16) {
        let refused = Answer::Refused(refusal(number, 0, 0));
        for rooms in [fitting(change.what, windows_in(file)), [0, 0]] {
            let what = format_args!("{change:?} with rooms {rooms:?}");
            self.change(file, change, rooms).are(what, refused, &Changed::default());
        }
    }

    /// An addition or a withdrawal, drawn, of a file that is refused.
    pub fn no_change(&mut self, file: &[u8], no: Refusal) {
        let random = &mut self.random;
        let plan = random.pick(&[file.first().map_or(12, |&low| low as u16), 12, 13]);
        let added = What::Add(random.pick(&[0, 3, LATEST]), random.pick(&[0, 1, 86_400]));
        let withdrawn = What::Withdraw(random.pick(&[0, 1, 2047, usize::MAX]));
        let what = random.pick(&[added, withdrawn]);
        let rooms = [0, 1].map(|_| 8 * self.some_room());
        let both = self.change(file, &Change { plan, what }, rooms);
        both.are(format_args!("{what:?} of a file that is refused"), Answer::Refused(no), &Changed::default());
    }
}

/// Windows for a plan: each begins at a minute at which another does, one before or one behind, at the first minute or as late as it
/// may. It is a minute too short or just long enough; it shares with a later window the minimum or a minute less; it ends as late as it
/// may, or a minute later.
fn additions(plan: &Plan) -> BTreeSet<(u32, u32)> {
    let (minimum, latest) = (plan.minimum, LATEST as u64);
    let begins: Vec<u64> = plan.windows.iter().map(|w| w.0).collect();
    let near = begins.iter().flat_map(|&begin| [begin.saturating_sub(1), begin, begin + 1]);
    let mut all = BTreeSet::new();
    for offset in near.chain([0, latest - minimum]) {
        let later = begins.iter().filter(|&&begin| begin >= offset);
        let ends = later.chain([&offset]).flat_map(|begin| [begin + minimum - 1, begin + minimum]);
        // No window at the first minute is long enough to end too late.
        let lengths = ends.chain([latest, latest + 1]).filter_map(|end| u32::try_from(end - offset).ok());
        all.extend(lengths.map(|length| (offset as u32, length)));
    }
    all
}

/// Every position withdrawn, and positions that there are not; a window added at every place, by all lengths that make a difference.
pub fn every_change(comparison: &mut Comparison, file: &[u8]) {
    let plan = oracle::read_plan(file, 0).ok().expect("a plan");
    let new = other_number(plan.number, &mut comparison.random);
    let withdrawn = refusals::positions(plan.windows.len()).into_iter().map(What::Withdraw);
    let added = additions(&plan).into_iter().map(|(offset, length)| What::Add(offset, length));
    for what in withdrawn.chain(added) {
        comparison.one_change(file, &Change { plan: new, what });
    }
}

/// An overlap pattern by some minimum, with two minutes between the offsets, at which a window can be added; half of the times at
/// the end of the line. Each window that is withdrawn is added again, so that every pattern also comes of an addition, by each of
/// its windows.
pub fn pattern(comparison: &mut Comparison, lasts: &[usize]) {
    let random = &mut comparison.random;
    let minimum = random.pick(&[1, 1, 2, 7, 86_400]);
    let offsets: Vec<u32> = (0..lasts.len() as u32).map(|u| 1 + 3 * u).collect();
    let windows = realised(lasts, minimum, &offsets, &mut |shortest, longest| random.between(shortest as u64, longest as u64) as u32);
    let windows = if random.below(2) == 0 { windows } else { at_the_end(&windows) };
    let file = file_of(random.next() as u16, minimum, &windows);
    every_change(comparison, &file);
}

/// A plan that is changed again and again, each time as the library has written it, and then goes through every call.
pub fn again_and_again(comparison: &mut Comparison, changes: usize) {
    let random = &mut comparison.random;
    let minimum = random.pick(&[1, 1, 2, 5, 300, 86_400]);
    let mut file = file_of(random.next() as u16, minimum, &[]);
    for _ in 0..changes {
        let plan = oracle::read_plan(&file, 0).ok().expect("a plan");
        let (n, random) = (plan.windows.len() as u64, &mut comparison.random);
        let (offset, length) = any_window(&plan, random);
        let what = match random.below(3) {
            0 if n > 0 => What::Withdraw(random.below(n) as usize),
            _ => What::Add(offset, length),
        };
        let change = Change { plan: other_number(plan.number, random), what };
        file = comparison.one_change(&file, &change).file;
    }
    comparison.file(&file, Depth::Whole);
}

/// A plan of one window less than there can be. One is added, and then no more; the first, the last or any other is withdrawn.
pub fn up_to_the_limit(comparison: &mut Comparison, file: &[u8]) {
    let plan = oracle::read_plan(file, 0).ok().expect("a plan");
    let number = plan.number;
    let (offset, length) = any_window(&plan, &mut comparison.random);
    let added = What::Add(offset, length);
    let full = comparison.one_change(file, &Change { plan: number ^ 1, what: added }).file;
    assert_eq!(windows_in(&full), 2048, "the windows of a plan that is full");
    comparison.refuses_change(&full, &Change { plan: number, what: added }, 15);
    let any = comparison.random.below(2048) as usize;
    let at = comparison.random.pick(&[0, any, 2047]);
    comparison.one_change(&full, &Change { plan: number, what: What::Withdraw(at) });
}

/// A change, its rooms, and the questions that would refuse it.
struct Asked {
    change: Change,
    rooms: [usize; 2],
    wrong: Vec<u16>,
}

impl Asked {
    /// The answer to be given to a plan that is accepted, or none where nothing is wrong.
    fn refused(&self) -> Option<Answer> {
        let first = [15, 16, 4, 5, 7, 8].into_iter().find(|question| self.wrong.contains(question));
        first.map(|question| Answer::Refused(refusal(question, 0, 0)))
    }
}

/// Changes of n windows of plan 12, whose minimum is 5: all that can be wrong with one, in every combination.
fn right_and_wrong(n: usize) -> Vec<Asked> {
    let full = if n == 2048 { vec![15] } else { vec![] };
    let windows = [
        (10, 5, vec![]),
        (LATEST - 5, 5, vec![]),
        (10, 4, vec![4]),
        (LATEST - 4, 5, vec![5]),
        (10, too_long(10), vec![5]),
        (LATEST - 3, 4, vec![4, 5]),
        (LATEST, 4, vec![4, 5]),
    ];
    let added = windows.map(|(offset, length, wrong)| (What::Add(offset, length), [&full[..], &wrong].concat()));
    let past = [n, n + 1, usize::MAX].map(|at| (What::Withdraw(at), vec![7]));
    let within = [0, n.saturating_sub(1)].into_iter().filter(|&at| at < n).map(|at| (What::Withdraw(at), vec![]));
    let mut all = Vec::new();
    for (what, wrong) in added.into_iter().chain(past).chain(within) {
        let [file, tags] = fitting(what, n);
        for (plan, same) in [(12, vec![16]), (13, vec![])] {
            for rooms in [[file, tags], [file + 1, tags + 1], [file - 1, tags], [file, tags.saturating_sub(1)], [0, 0]] {
                let short = if rooms[0] < file || rooms[1] < tags { vec![8] } else { vec![] };
                all.push(Asked { change: Change { plan, what }, rooms, wrong: [&wrong[..], &same, &short].concat() });
            }
        }
    }
    all
}

/// Of all that is wrong with a change at once, what comes first refuses it.
pub fn all_at_once(comparison: &mut Comparison) {
    for n in [0, 1, 3, 2047, 2048] {
        let file = file_of(12, 5, &vec![(10, 9); n]);
        for asked in right_and_wrong(n) {
            let Asked { change, rooms, ref wrong } = asked;
            let what = format_args!("{change:?} of {n} windows with rooms {rooms:?}, wrong by {wrong:?}");
            let both = comparison.change(&file, &change, rooms);
            match asked.refused() {
                Some(refused) => both.are(what, refused, &Changed::default()),
                None => {
                    assert!(matches!(both.oracle, Answer::Built { .. }), "{what}: the oracle has {:?}", both.oracle);
                    both.agree(what);
                }
            }
        }
    }
}

/// The plan's own questions come before all of these, also where an addition to so many windows would be refused.
pub fn plan_first(comparison: &mut Comparison) {
    let sound = file_of(12, 5, &vec![(10, 9); 2048]);
    let more = file_of(12, 5, &vec![(10, 9); 2049]);
    let no_minimum = file_of(12, 0, &vec![(10, 9); 2048]);
    let mut files = vec![(1, 0, sound[..7].to_vec()), (2, 0, more), (14, 0, no_minimum), (3, 0, sound[..sound.len() - 1].to_vec())];
    for (number, window) in [(4, (10, 4)), (5, (10, too_long(10))), (6, (9, 9))] {
        for at in [1, 2047] {
            let mut windows = vec![(10, 9); 2048];
            windows[at] = window;
            files.push((number, at, file_of(12, 5, &windows)));
        }
    }
    for (number, position, file) in files {
        for Asked { change, rooms, .. } in right_and_wrong(2048) {
            let refused = Answer::Refused(refusal(number, 0, position));
            comparison.change(&file, &change, rooms).are(format_args!("{change:?} with rooms {rooms:?}"), refused, &Changed::default());
        }
    }
}

/// Each buffer with every room from too little to more than enough, among them that of the plan before; and rooms that are too little
/// in 16 bits.
pub fn rooms(comparison: &mut Comparison) {
    for file in refusals::sound_plans() {
        let n = windows_in(&file);
        for what in [What::Add(5, 9), What::Withdraw(0), What::Withdraw(n.saturating_sub(1))] {
            let [whole, tags] = fitting(what, n);
            let about = |room: usize| [0].into_iter().chain(room.saturating_sub(11)..room + 12);
            let every = about(whole).flat_map(|first| about(tags).map(move |second| [first, second]));
            let wide = [[65_536, tags], [whole, 65_536], [65_535 + whole, 65_535 + tags]];
            for rooms in every.chain(wide) {
                let change = Change { plan: 13, what };
                comparison.change(&file, &change, rooms).agree(format_args!("{change:?} with rooms {rooms:?}"));
            }
        }
    }
}

/// The new plan number beside the old: the same, or other by any one bit. By each minimum, of which every byte is carried over.
pub fn plan_numbers(comparison: &mut Comparison) {
    for minimum in [1, 256, 65_536, 66_051, 86_400] {
        for old in [0, 1, 12, 255, 256, 65_535] {
            let file = file_of(old, minimum, &[(5, 86_400), (70_000, 86_401)]);
            for new in (0..16).map(|bit| old ^ 1 << bit).chain([old, 0, 65_535]) {
                for what in [What::Add(5, 86_400), What::Withdraw(1)] {
                    let change = Change { plan: new, what };
                    comparison.one_change(&file, &change);
                    if new == old {
                        comparison.refuses_change(&file, &change, 16);
                    }
                }
            }
        }
    }
}

/// Every offset by every length near an edge, among them such as have a sum that is right in 32 bits; the greatest sum by every
/// offset, with one less and one more.
pub fn edges(comparison: &mut Comparison) {
    for minimum in [1, 5, 256, 86_400] {
        let windows = [(0, minimum), (5_000_000, minimum + 7), (1 << 31, minimum), (LATEST - minimum, minimum)];
        let file = file_of(12, minimum, &windows);
        let lengths = [0, minimum - 1, minimum, minimum + 1];
        let sums = [LATEST - minimum - 1, LATEST - minimum, LATEST - minimum + 1, LATEST - 1, LATEST];
        let others = [1, 255, 65_535, 5_000_000, 10_000_000, 10_000_001, (1 << 31) - 1, 1 << 31];
        let numbers = others.into_iter().chain(lengths).chain(sums);
        for offset in numbers.clone() {
            let wrapped = [0, 1, minimum, LATEST - 1, LATEST].map(|sum| sum.wrapping_sub(offset));
            for length in numbers.clone().chain(wrapped) {
                comparison.one_change(&file, &Change { plan: 13, what: What::Add(offset, length) });
            }
        }
        let short = [0, LATEST].map(|offset| (offset, minimum - 1, 4));
        let late = [(1, LATEST, 5), (LATEST - minimum + 1, minimum, 5), (LATEST, minimum + 1, 5), (LATEST, LATEST, 5)];
        for (offset, length, number) in short.into_iter().chain(late) {
            comparison.refuses_change(&file, &Change { plan: 13, what: What::Add(offset, length) }, number);
            comparison.refuses_change(&file, &Change { plan: 12, what: What::Add(offset, length) }, 16);
        }
    }
}
