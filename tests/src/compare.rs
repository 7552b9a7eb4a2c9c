//! Every call on one input, held against the oracle, and how many calls that were. A plan's tree is found once and used for all
//! its calls; `both` has single calls, each with a search of its own.
use crate::answers::{refusal, Answer, Refusal};
use crate::calls::{self, Tables};
use crate::forms::{Form, FORMS};
use crate::oracle::{self, Columns, Plan, Tree};
use crate::random::Random;
use crate::shapes::windows_in;
use std::ops::Range;

/// How much of a plan is gone through.
#[derive(Clone, Copy, PartialEq)]
pub enum Depth {
    /// Every pair of positions in every call.
    Whole,
    /// Every pair of tags; some positions in the calls that read the plan.
    Sampled,
}

pub struct Comparison {
    pub random: Random,
    pub calls: u64,
}

fn position_sample(n: usize, depth: Depth, random: &mut Random) -> Vec<usize> {
    match depth {
        Depth::Sampled if n > 0 => {
            let mut some: Vec<usize> = (0..8).map(|_| random.below(n as u64) as usize).collect();
            some.extend([0, n - 1]);
            some
        }
        _ => (0..n).collect(),
    }
}

/// Positions that n windows do not have: the next one, one further on, and one that would be a window in 16, 32, 61 or 63 bits.
/// (In 64 bits, ten times 2^63 and a position is ten times that position, and so it is with eight and 2^61.)
pub fn positions_past(n: usize, random: &mut Random) -> [usize; 3] {
    let high = random.pick(&[1 << 16, 1 << 32, 1 << 61, 1 << 63]);
    [n, random.pick(&[n + 1, n.max(2048), usize::MAX]), high + random.below(n.max(1) as u64) as usize]
}

impl Comparison {
    pub fn new(random: Random) -> Comparison {
        Comparison { random, calls: 0 }
    }

    /// The bytes at any address, even or odd, inside a larger buffer of random content, and where they stand in it.
    pub fn placed(&mut self, bytes: &[u8]) -> (Vec<u8>, Range<usize>) {
        let start = self.random.below(16) as usize;
        let place = start..start + bytes.len();
        let mut buffer: Vec<u8> = (0..place.end + 16).map(|_| self.random.next() as u8).collect();
        buffer[place.clone()].copy_from_slice(bytes);
        (buffer, place)
    }

    /// One file through every call that takes one. All of the buffer in which it stands stays.
    pub fn file(&mut self, file: &[u8], depth: Depth) {
        let (before, place) = self.placed(file);
        let held = before.clone();
        let file = &held[place];
        match oracle::read_plan(file, 0) {
            Err(no) => self.refused_file(file, no),
            Ok(plan) => self.accepted_file(file, &plan, depth),
        }
        assert_eq!(held, before, "a file that was only to be read");
    }

    pub fn some_room(&mut self) -> usize {
        self.random.below(4) as usize
    }

    fn refused_file(&mut self, file: &[u8], no: Refusal) {
        let refused = Answer::Refused(no);
        assert_eq!(calls::validate(file), refused, "validate");
        let rooms = [0; 5].map(|_| self.some_room());
        let mut lent = Tables::new(rooms, 10 * rooms[0], &mut self.random);
        assert_eq!(calls::build(file, &mut lent), refused, "build");
        for form in FORMS {
            assert_eq!(calls::tags(form, file, &mut lent.tags), refused, "{form:?} tags");
        }
        lent.holds("refused build and tags", &Columns::default());
        let at = self.random.pick(&[0, 1, 2047, usize::MAX]);
        assert_eq!(calls::reach(file, at), refused, "reach");
        let mut out = calls::words(rooms[1], &mut self.random);
        assert_eq!(calls::chain(file, at, 0, &mut out), refused, "chain");
        assert_eq!(calls::chain(file, 0, at, &mut out), refused, "chain");
        assert_eq!(calls::neighbours(file, at, &mut out), refused, "neighbours");
        out.holds("refused", &[]);
        let mut number = calls::number(&mut self.random);
        assert_eq!(calls::margin(file, at, 0, &mut number), refused, "margin");
        assert_eq!(calls::margin(file, 0, at, &mut number), refused, "margin");
        number.holds("refused margin", &[]);
        assert_eq!(calls::same(file, file), refused, "same");
        let good = [9, 0, 1, 0, 1, 0, 0, 0, 3, 0, 0, 0, 1, 0, 0, 0];
        let second = Answer::Refused(Refusal { input: 1, ..no });
        assert_eq!(calls::same(&good, file), second, "same, the second file");
        assert_eq!(calls::same(file, &good), refused, "same, the first file");
        self.calls += 13;
        self.no_change(file, no);
    }

    fn accepted_file(&mut self, file: &[u8], plan: &Plan, depth: Depth) {
        let tree = Tree::of(plan);
        let (n, windows) = (tree.n, tree.n as u16);
        assert_eq!(calls::validate(file), Answer::Accepted { plan: plan.number, windows }, "validate");
        self.tables(file, &tree);
        if plan.minimum == 1 {
            self.as_before(file, plan, &tree);
        }
        if n > 0 {
            self.tables_too_short(file, n);
        }
        let tags = tree.tag_file(Form::Long);
        self.lookups(&tags);
        let distances = tree.all_distances();
        let some = position_sample(n, depth, &mut self.random);
        self.from_plan(file, &tree, &some, &distances);
        self.margins(file, plan, &some);
        self.reaches(file, &tree, &some, &distances);
        self.named_positions(file, n);
        self.from_tags(Form::Long, file, &tree, &some, &distances);
        self.page_of_plan(&tags, &distances);
        match oracle::is_even(plan) {
            Ok(()) => self.from_tags(Form::Short, file, &tree, &some, &distances),
            Err(no) => self.no_short_tags(file, n, no),
        }
        assert_eq!(calls::same(file, file), Answer::Same, "same as itself");
        self.calls += 2;
        self.some_changes(file, plan);
    }

    /// Build into tables that may be longer than asked, all of them looked at.
    fn tables(&mut self, file: &[u8], tree: &Tree) {
        let rooms = [0; 5].map(|_| tree.n + self.some_room());
        let mut lent = Tables::new(rooms, 10 * tree.n + self.some_room(), &mut self.random);
        assert_eq!(calls::build(file, &mut lent), tree.built(), "build");
        lent.holds("build", &tree.columns());
        self.calls += 1;
    }

    /// "A minimum of 1 gives the tables of before": those of paper 01, in which windows that share a minute overlap.
    fn as_before(&mut self, file: &[u8], plan: &Plan, tree: &Tree) {
        let before = Tree::of_before(plan);
        assert!(before.overlaps == tree.overlaps, "the oracle's overlaps by a minimum of 1 and by paper 01");
        self.tables(file, &before);
    }

    /// One of the tables, or the tag file, too short, half of the times by one.
    fn tables_too_short(&mut self, file: &[u8], n: usize) {
        for short in 0..6 {
            let mut rooms = [n; 5];
            let mut tags = 10 * n;
            let room = rooms.get_mut(short).unwrap_or(&mut tags);
            let most = self.random.pick(&[1, *room as u64]);
            *room -= self.random.between(1, most) as usize;
            let mut lent = Tables::new(rooms, tags, &mut self.random);
            assert_eq!(calls::build(file, &mut lent), Answer::Refused(refusal(8, 0, 0)), "build, short {short}");
            lent.holds("refused build", &Columns::default());
            self.calls += 1;
        }
    }

    /// The tag file alone, in a form that the plan has, and all that is answered from it.
    fn from_tags(&mut self, form: Form, file: &[u8], tree: &Tree, some: &[usize], distances: &[Vec<Option<u16>>]) {
        let tags = tree.tag_file(form);
        self.tags_alone(form, file, tree, &tags);
        self.pairs(form, &tags, distances);
        self.pairs_at(form, &tags, some, distances);
        self.positions_past_tags(form, &tags);
    }

    /// The tag file alone, into a table that may be longer than asked, and into one that is a byte too short.
    fn tags_alone(&mut self, form: Form, file: &[u8], tree: &Tree, tags: &[u8]) {
        let mut out = calls::bytes(tags.len() + self.some_room(), &mut self.random);
        assert_eq!(calls::tags(form, file, &mut out), tree.built(), "{form:?} tags");
        out.holds("tags", tags);
        self.calls += 1;
        if tree.n > 0 {
            let mut out = calls::bytes(tags.len() - 1, &mut self.random);
            let full = Answer::Refused(refusal(8, 0, 0));
            assert_eq!(calls::tags(form, file, &mut out), full, "{form:?} tags, one byte too short");
            out.holds("refused tags", &[]);
            self.calls += 1;
        }
    }

    /// Of a plan that is not even there are no short tags, whatever the room is.
    fn no_short_tags(&mut self, file: &[u8], n: usize, no: Refusal) {
        let room = self.random.pick(&[0, 8 * n - 1, 8 * n, 8 * n + 3]);
        let mut out = calls::bytes(room, &mut self.random);
        assert_eq!(calls::tags(Form::Short, file, &mut out), Answer::Refused(no), "short tags of a plan that is not even");
        out.holds("refused short tags", &[]);
        self.calls += 1;
    }

    /// Every position of a tag file, and some that it does not have.
    pub fn lookups(&mut self, tags: &[u8]) {
        let n = tags.len() / 10;
        let overflowing = [usize::MAX / 10, usize::MAX / 10 + 1];
        for at in (0..n).chain(positions_past(n, &mut self.random)).chain(overflowing) {
            self.lookup(tags, at).agree(format_args!("lookup of {at} in {} bytes", tags.len()));
        }
    }

    /// Every two tags of the plan, in both orders, against the search.
    fn pairs(&mut self, form: Form, tags: &[u8], distances: &[Vec<Option<u16>>]) {
        let before = tags.to_vec();
        let each = || tags.chunks(form.bytes()).enumerate();
        for (u, first) in each() {
            for (v, second) in each() {
                let expected = distances[u][v].map_or(Answer::NoChain, Answer::Handovers);
                assert_eq!(calls::pair(form, first, second), expected, "{form:?} pair of {u} and {v}");
            }
        }
        assert_eq!(tags, before, "tags that were only to be read");
        self.calls += (distances.len() * distances.len()) as u64;
    }

    /// Two positions of the tag file, in both orders, against the search.
    fn pairs_at(&mut self, form: Form, tags: &[u8], some: &[usize], distances: &[Vec<Option<u16>>]) {
        for &u in some {
            for &v in some {
                let expected = distances[u][v].map_or(Answer::NoChain, Answer::Handovers);
                assert_eq!(calls::pair_at(form, tags, u, v), expected, "{form:?} pair at {u} and {v}");
            }
        }
        self.calls += (some.len() * some.len()) as u64;
    }

    /// Chain and neighbours of some positions, chains in both orders.
    fn from_plan(&mut self, file: &[u8], tree: &Tree, some: &[usize], distances: &[Vec<Option<u16>>]) {
        for &u in some {
            for &v in some {
                self.chain_in(file, tree, u, v, distances);
            }
            self.neighbours_in(file, tree, u);
        }
    }

    fn chain_in(&mut self, file: &[u8], tree: &Tree, u: usize, v: usize, distances: &[Vec<Option<u16>>]) {
        let (earlier, later) = (u.min(v), u.max(v));
        let expected = tree.earliest(&distances[later], &distances[earlier], earlier);
        let entries = expected.as_ref().map_or(0, |list| list.len());
        let mut out = calls::words(entries + self.some_room(), &mut self.random);
        let answer = expected.as_ref().map_or(Answer::NoChain, |list| Answer::Chain(list.len() as u16));
        assert_eq!(calls::chain(file, u, v, &mut out), answer, "chain of {u} and {v}");
        out.holds("chain", expected.as_deref().unwrap_or(&[]));
        self.calls += 1;
        if let Some(list) = &expected {
            for step in list.windows(2) {
                assert!(tree.overlaps[step[0] as usize].has(step[1] as usize), "the list {list:?} is no chain");
            }
            let mut short = calls::words(entries - 1, &mut self.random);
            let full = Answer::Refused(refusal(8, 0, 0));
            assert_eq!(calls::chain(file, u, v, &mut short), full, "chain of {u} and {v} in a short table");
            short.holds("refused chain", &[]);
            self.calls += 1;
        }
        if tree.n <= 7 {
            for other in tree.shortest_chains(later, &distances[earlier]) {
                let list = expected.as_ref().unwrap();
                assert!(list.iter().zip(&other).all(|(&a, &b)| a as usize <= b), "{list:?} is later than {other:?}");
            }
        }
    }

    fn neighbours_in(&mut self, file: &[u8], tree: &Tree, at: usize) {
        let members = tree.neighbours(at);
        let mut out = calls::words(members.len() + self.some_room(), &mut self.random);
        let count = Answer::Neighbours(members.len() as u16);
        assert_eq!(calls::neighbours(file, at, &mut out), count, "neighbours of {at}");
        out.holds("neighbours", &members);
        self.calls += 1;
        if !members.is_empty() {
            let mut short = calls::words(members.len() - 1, &mut self.random);
            let full = Answer::Refused(refusal(8, 0, 0));
            assert_eq!(calls::neighbours(file, at, &mut short), full, "neighbours of {at} in a short table");
            short.holds("refused neighbours", &[]);
            self.calls += 1;
        }
    }

    /// What the library says, with nothing from the oracle.
    pub fn library_neighbours(&mut self, file: &[u8], at: usize) -> Vec<u16> {
        let mut near = calls::words(windows_in(file), &mut self.random);
        let Answer::Neighbours(count) = calls::neighbours(file, at, &mut near) else { panic!("no window at {at}") };
        self.calls += 1;
        near.entries()[..count as usize].to_vec()
    }

    /// Positions that the plan does not have, as the first and as the second.
    fn named_positions(&mut self, file: &[u8], n: usize) {
        let [first, second] = [0, 1].map(|input| Answer::Refused(refusal(7, input, 0)));
        for past in positions_past(n, &mut self.random) {
            let mut out = calls::words(self.random.below(3) as usize, &mut self.random);
            let mut number = calls::number(&mut self.random);
            assert_eq!(calls::reach(file, past), first, "reach of {past}");
            assert_eq!(calls::neighbours(file, past, &mut out), first, "neighbours of {past}");
            assert_eq!(calls::chain(file, past, past, &mut out), first, "chain of {past} twice");
            assert_eq!(calls::chain(file, past, 0, &mut out), first, "chain of {past} and 0");
            assert_eq!(calls::margin(file, past, past, &mut number), first, "margin of {past} twice");
            assert_eq!(calls::margin(file, past, 0, &mut number), first, "margin of {past} and 0");
            if n > 0 {
                assert_eq!(calls::chain(file, n - 1, past, &mut out), second, "chain of the last and {past}");
                assert_eq!(calls::margin(file, n - 1, past, &mut number), second, "margin of the last and {past}");
            }
            out.holds("refused position", &[]);
            number.holds("margin of a refused position", &[]);
            self.calls += 8;
        }
    }

    /// Positions that the tag file does not have, as the first and as the second.
    fn positions_past_tags(&mut self, form: Form, tags: &[u8]) {
        let n = tags.len() / form.bytes();
        let [first, second] = [0, 1].map(|input| Answer::Refused(refusal(7, input, 0)));
        for past in positions_past(n, &mut self.random) {
            assert_eq!(calls::pair_at(form, tags, past, past), first, "{form:?} pair at {past} twice");
            assert_eq!(calls::pair_at(form, tags, past, 0), first, "{form:?} pair at {past} and 0");
            if n > 0 {
                assert_eq!(calls::pair_at(form, tags, n - 1, past), second, "{form:?} pair at the last and {past}");
            }
            self.calls += 3;
        }
    }

    /// Two byte strings as tags, in both orders, which is no difference once both can be read, and as a tag file.
    pub fn tags(&mut self, form: Form, first: &[u8], second: &[u8]) {
        let file = [first, second].concat();
        let answers = [(first, second, (0, 1)), (second, first, (1, 0))].map(|(a, b, at)| {
            let both = self.pair(form, a, b);
            both.agree(format_args!("{form:?} pair of {a:?} and {b:?}"));
            self.pair_at(form, &file, at.0, at.1).agree(format_args!("{form:?} pair at {at:?} of {file:?}"));
            both.oracle
        });
        if answers.iter().all(|answer| !matches!(answer, Answer::Refused(Refusal { number: 9 | 10, .. }))) {
            assert_eq!(answers[0], answers[1], "{form:?} pair of {first:?} and {second:?}, and in the other order");
        }
    }

    /// Sameness of two accepted plans, in both orders, and that equal tags apart from the plan number say just that.
    pub fn sameness(&mut self, first: &[u8], second: &[u8]) {
        let trees = [first, second].map(|file| Tree::of(&oracle::read_plan(file, 0).ok().unwrap()));
        let [a, b] = &trees;
        let answer = if a.same_as(b) { Answer::Same } else { Answer::Different };
        assert_eq!(calls::same(first, second), answer, "same");
        assert_eq!(calls::same(second, first), answer, "same, in the other order");
        let fields = |tree: &Tree| (0..tree.n).map(|v| tree.fields(Form::Long, v)).collect::<Vec<_>>();
        assert_eq!(fields(a) == fields(b), a.same_as(b), "equal tags and sameness");
        self.calls += 2;
    }
}
