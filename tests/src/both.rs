//! One call put to both sides, the library and the oracle: what each answers, what the library leaves in everything lent, and
//! what the oracle would have there.
use crate::answers::{Answer, Record};
use crate::calls::{self, Buffers, Lent, Query, Tables};
use crate::compare::Comparison;
use crate::expected::{self, Owed};
use crate::forms::Form;
use crate::oracle::{Change, Changed, Columns};
use std::fmt::{Arguments, Debug};

/// Something lent, which can be held to what is to be written there.
pub trait Holds<W> {
    fn holds(&self, what: Arguments, written: &W);
}

/// Nothing is lent.
impl Holds<()> for () {
    fn holds(&self, _: Arguments, _: &()) {}
}

impl<T: Copy + PartialEq + Debug> Holds<Vec<T>> for Lent<T> {
    fn holds(&self, what: Arguments, written: &Vec<T>) {
        self.holds(what, written);
    }
}

impl Holds<Columns> for Tables {
    fn holds(&self, what: Arguments, written: &Columns) {
        self.holds(what, written);
    }
}

impl Holds<Changed> for Buffers {
    fn holds(&self, what: Arguments, written: &Changed) {
        self.holds(what, written);
    }
}

/// The place for a tag's offset, which a refused lookup leaves as it was.
pub struct Offset {
    before: usize,
    now: usize,
}

impl Holds<Option<usize>> for Offset {
    fn holds(&self, what: Arguments, written: &Option<usize>) {
        assert_eq!(self.now, written.unwrap_or(self.before), "{what}: the offset");
    }
}

/// The records of a page that has been filled, the same filled once more, and what the call for one pair says of each record's positions.
pub struct Page {
    once: Lent<Query>,
    twice: Lent<Query>,
    pairs: Vec<Answer>,
}

impl Holds<Vec<Record>> for Page {
    fn holds(&self, what: Arguments, written: &Vec<Record>) {
        let due: Vec<Query> = written.iter().map(calls::query).collect();
        // The first record that differs says more than two long lists.
        for (at, (now, due)) in self.once.entries().iter().zip(&due).enumerate() {
            let Query { first, second, answer } = now;
            assert!(now == due, "{what}: record {at} holds {first}, {second} and {answer:#018x}, and should be {:?}", written[at]);
        }
        self.once.holds(what, &due);
        self.twice.holds(format_args!("{what}, filled twice"), &due);
        for (pair, record) in self.pairs.iter().zip(written) {
            assert_eq!(*pair, record.answer, "{what}: the pair at {} and {}", record.first, record.second);
        }
    }
}

pub struct Both<L, W> {
    library: Answer,
    lent: L,
    pub oracle: Answer,
    pub written: W,
}

impl<L: Holds<W>, W: PartialEq + Debug> Both<L, W> {
    /// Both say this, and the library has written this and nothing else.
    #[track_caller]
    pub fn are(&self, what: Arguments, answer: Answer, written: &W) {
        assert_eq!(self.oracle, answer, "{what}: the oracle (left) and what it is held to");
        assert_eq!(&self.written, written, "{what}: what the oracle writes (left), and what it is held to");
        assert_eq!(self.library, answer, "{what}: the library (left) and what it is held to");
        self.lent.holds(what, written);
    }

    /// The library says and writes what the oracle does.
    #[track_caller]
    pub fn agree(&self, what: Arguments) {
        self.are(what, self.oracle, &self.written);
    }
}

impl Comparison {
    fn both<L, W: Default>(&mut self, library: Answer, lent: L, owed: Owed<W>) -> Both<L, W> {
        self.calls += 1;
        let (oracle, written) = owed.unwrap_or_else(|no| (Answer::Refused(no), W::default()));
        Both { library, lent, oracle, written }
    }

    pub fn validate(&mut self, file: &[u8]) -> Both<(), ()> {
        self.both(calls::validate(file), (), expected::validate(file))
    }

    pub fn build(&mut self, file: &[u8], rooms: [usize; 5], tag_room: usize) -> Both<Tables, Columns> {
        let mut lent = Tables::new(rooms, tag_room, &mut self.random);
        let library = calls::build(file, &mut lent);
        self.both(library, lent, expected::build(file, rooms, tag_room))
    }

    pub fn tag_file(&mut self, form: Form, file: &[u8], room: usize) -> Both<Lent<u8>, Vec<u8>> {
        let mut out = calls::bytes(room, &mut self.random);
        let library = calls::tags(form, file, &mut out);
        self.both(library, out, expected::tags(form, file, room))
    }

    /// The rooms are those for the changed plan and for its tag file. The plan that is changed stays as it was.
    pub fn change(&mut self, file: &[u8], change: &Change, rooms: [usize; 2]) -> Both<Buffers, Changed> {
        let (held, place) = self.placed(file);
        let (before, file) = (held.clone(), &held[place]);
        let mut lent = Buffers::new(rooms, &mut self.random);
        let library = calls::change(file, change, &mut lent);
        assert!(held == before, "a plan that was only to be read");
        self.both(library, lent, expected::change(file, change, rooms))
    }

    pub fn reach(&mut self, file: &[u8], at: usize) -> Both<(), ()> {
        self.both(calls::reach(file, at), (), expected::reach(file, at))
    }

    pub fn chain(&mut self, file: &[u8], first: usize, second: usize, room: usize) -> Both<Lent<u16>, Vec<u16>> {
        let mut out = calls::words(room, &mut self.random);
        let library = calls::chain(file, first, second, &mut out);
        self.both(library, out, expected::chain(file, first, second, room))
    }

    pub fn neighbours(&mut self, file: &[u8], at: usize, room: usize) -> Both<Lent<u16>, Vec<u16>> {
        let mut out = calls::words(room, &mut self.random);
        let library = calls::neighbours(file, at, &mut out);
        self.both(library, out, expected::neighbours(file, at, room))
    }

    pub fn margin(&mut self, file: &[u8], first: usize, second: usize) -> Both<Lent<i64>, Vec<i64>> {
        let mut out = calls::number(&mut self.random);
        let library = calls::margin(file, first, second, &mut out);
        self.both(library, out, expected::margin(file, first, second))
    }

    pub fn same(&mut self, first: &[u8], second: &[u8]) -> Both<(), ()> {
        self.both(calls::same(first, second), (), expected::same(first, second))
    }

    pub fn pair(&mut self, form: Form, first: &[u8], second: &[u8]) -> Both<(), ()> {
        self.both(calls::pair(form, first, second), (), expected::pair(form, first, second))
    }

    pub fn pair_at(&mut self, form: Form, tags: &[u8], first: usize, second: usize) -> Both<(), ()> {
        self.both(calls::pair_at(form, tags, first, second), (), expected::pair_at(form, tags, first, second))
    }

    /// Filling a page that is filled must be no difference, so it is filled twice.
    pub fn page(&mut self, tags: &[u8], asked: &[(usize, usize)]) -> Both<Page, Vec<Record>> {
        let (held, place) = self.placed(tags);
        let (before, tags) = (held.clone(), &held[place]);
        let mut once = calls::queries(asked, &mut self.random);
        let library = calls::page(tags, &mut once);
        assert!(held == before, "a tag file that was only to be read");
        let mut twice = once.clone();
        assert_eq!(calls::page(tags, &mut twice), library, "a page that is filled once more");
        let pairs = asked.iter().map(|&(first, second)| calls::pair_at(Form::Long, tags, first, second)).collect();
        self.calls += 1 + asked.len() as u64;
        self.both(library, Page { once, twice, pairs }, expected::page(tags, asked))
    }

    pub fn lookup(&mut self, tags: &[u8], at: usize) -> Both<Offset, Option<usize>> {
        let before = self.random.next() as usize;
        let mut now = before;
        let library = calls::lookup(tags, at, &mut now);
        self.both(library, Offset { before, now }, expected::lookup(tags, at))
    }

    pub fn write(&mut self, tag: &[u16], room: usize) -> Both<Lent<u8>, Vec<u8>> {
        let mut out = calls::bytes(room, &mut self.random);
        let library = calls::write(tag, &mut out);
        self.both(library, out, expected::write(tag, room))
    }
}
