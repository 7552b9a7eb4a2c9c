//! The C interface, each call wrapped so that nothing lent can be written to unseen: every table stands inside a larger
//! buffer of random content, of which all but the table's first entries must stay.
use crate::answers::{Answer, Record, Refusal};
use crate::forms::Form;
use crate::oracle::{Change, Changed, Columns, What};
use crate::random::Random;
pub use interface::Query;
use interface::*;
use std::fmt::{Debug, Display};

#[path = "../../include/poddreshi.rs"]
mod interface;

fn unpack(answer: u64) -> Answer {
    let field = |i: u32| (answer >> (16 * i)) as u16;
    let fields = (field(1), field(2), field(3));
    match (field(0), fields) {
        (0, (number, input, position)) => Answer::Refused(Refusal { number, input, position }),
        (1, (plan, windows, 0)) => Answer::Accepted { plan, windows },
        (2, (plan, windows, components)) => Answer::Built { plan, windows, components },
        (3, (handovers, smaller, larger)) => Answer::Reach { handovers, smaller, larger },
        (4, (entries, 0, 0)) => Answer::Chain(entries),
        (5, (0, 0, 0)) => Answer::NoChain,
        (6, (count, 0, 0)) => Answer::Neighbours(count),
        (7, (0, 0, 0)) => Answer::Same,
        (8, (0, 0, 0)) => Answer::Different,
        (9, (count, 0, 0)) => Answer::Handovers(count),
        (10, (0, 0, 0)) => Answer::Found,
        (11, (0, 0, 0)) => Answer::Written,
        (12, (0, 0, 0)) => Answer::Filled,
        (13, (0, 0, 0)) => Answer::Margin,
        _ => panic!("no call has the answer {answer:#018x}"),
    }
}

/// Entries on each side of a table that no call may touch.
const GUARD: usize = 4;

/// A table of `room` entries inside a guarded buffer of random content.
#[derive(Clone)]
pub struct Lent<T> {
    now: Vec<T>,
    before: Vec<T>,
    room: usize,
}

impl<T: Copy + PartialEq + Debug> Lent<T> {
    fn new(room: usize, fill: &mut dyn FnMut() -> T) -> Lent<T> {
        let before: Vec<T> = (0..room + 2 * GUARD).map(|_| fill()).collect();
        Lent { now: before.clone(), before, room }
    }
    fn pointer(&mut self) -> *mut T {
        self.now[GUARD..].as_mut_ptr()
    }
    /// What stands in the table now.
    pub fn entries(&self) -> &[T] {
        &self.now[GUARD..][..self.room]
    }
    /// The first entries are those given, and all others of the buffer are as they were.
    pub fn holds(&self, what: impl Display, written: &[T]) {
        assert!(written.len() <= self.room, "{what}: more is due than there is room for");
        let (start, end) = (GUARD, GUARD + written.len());
        assert_eq!(&self.now[start..end], written, "{what}: entries written");
        assert_eq!(self.now[..start], self.before[..start], "{what}: what lies before");
        assert_eq!(self.now[end..], self.before[end..], "{what}: what lies past");
    }
}

pub fn words(room: usize, random: &mut Random) -> Lent<u16> {
    Lent::new(room, &mut || random.next() as u16)
}

pub fn bytes(room: usize, random: &mut Random) -> Lent<u8> {
    Lent::new(room, &mut || random.next() as u8)
}

/// The place for one margin.
pub fn number(random: &mut Random) -> Lent<i64> {
    Lent::new(1, &mut || random.next() as i64)
}

pub fn validate(file: &[u8]) -> Answer {
    unpack(unsafe { poddreshi_validate(file.as_ptr(), file.len()) })
}

/// The five tables in the paper's order, and the tag file.
pub struct Tables {
    pub tables: [Lent<u16>; 5],
    pub tags: Lent<u8>,
}

impl Tables {
    pub fn new(rooms: [usize; 5], tags: usize, random: &mut Random) -> Tables {
        Tables { tables: rooms.map(|room| words(room, random)), tags: bytes(tags, random) }
    }

    pub fn holds(&self, what: impl Display, written: &Columns) {
        let names = ["parents", "components", "depths", "ranks", "last ranks"];
        for ((table, name), column) in self.tables.iter().zip(names).zip(&written.tables) {
            table.holds(format_args!("{what}, {name}"), column);
        }
        self.tags.holds(format_args!("{what}, tags"), &written.tags);
    }
}

pub fn build(file: &[u8], lent: &mut Tables) -> Answer {
    let [parents, components, depths, ranks, last_ranks] = &mut lent.tables;
    unpack(unsafe {
        poddreshi_build(
            file.as_ptr(), file.len(),
            parents.pointer(), parents.room,
            components.pointer(), components.room,
            depths.pointer(), depths.room,
            ranks.pointer(), ranks.room,
            last_ranks.pointer(), last_ranks.room,
            lent.tags.pointer(), lent.tags.room,
        )
    })
}

pub fn tags(form: Form, file: &[u8], out: &mut Lent<u8>) -> Answer {
    let call = match form {
        Form::Long => poddreshi_tags,
        Form::Short => poddreshi_short_tags,
    };
    unpack(unsafe { call(file.as_ptr(), file.len(), out.pointer(), out.room) })
}

/// The two buffers of a change, for the changed plan and for its tag file.
pub struct Buffers {
    pub file: Lent<u8>,
    pub tags: Lent<u8>,
}

impl Buffers {
    pub fn new(rooms: [usize; 2], random: &mut Random) -> Buffers {
        let [file, tags] = rooms.map(|room| bytes(room, random));
        Buffers { file, tags }
    }

    pub fn holds(&self, what: impl Display, written: &Changed) {
        self.file.holds(format_args!("{what}, the changed plan"), &written.file);
        self.tags.holds(format_args!("{what}, its tags"), &written.tags);
    }
}

pub fn change(file: &[u8], change: &Change, lent: &mut Buffers) -> Answer {
    let (from, length, plan) = (file.as_ptr(), file.len(), change.plan);
    let (to, room) = (lent.file.pointer(), lent.file.room);
    let (tags, tag_room) = (lent.tags.pointer(), lent.tags.room);
    unpack(match change.what {
        What::Add(offset, minutes) => unsafe { poddreshi_add(from, length, plan, offset, minutes, to, room, tags, tag_room) },
        What::Withdraw(at) => unsafe { poddreshi_withdraw(from, length, plan, at, to, room, tags, tag_room) },
    })
}

pub fn reach(file: &[u8], at: usize) -> Answer {
    unpack(unsafe { poddreshi_reach(file.as_ptr(), file.len(), at) })
}

pub fn chain(file: &[u8], first: usize, second: usize, out: &mut Lent<u16>) -> Answer {
    unpack(unsafe { poddreshi_chain(file.as_ptr(), file.len(), first, second, out.pointer(), out.room) })
}

pub fn neighbours(file: &[u8], at: usize, out: &mut Lent<u16>) -> Answer {
    unpack(unsafe { poddreshi_neighbours(file.as_ptr(), file.len(), at, out.pointer(), out.room) })
}

pub fn margin(file: &[u8], first: usize, second: usize, out: &mut Lent<i64>) -> Answer {
    unpack(unsafe { poddreshi_margin(file.as_ptr(), file.len(), first, second, out.pointer()) })
}

pub fn same(first: &[u8], second: &[u8]) -> Answer {
    unpack(unsafe { poddreshi_same(first.as_ptr(), first.len(), second.as_ptr(), second.len()) })
}

pub fn pair(form: Form, first: &[u8], second: &[u8]) -> Answer {
    let call = match form {
        Form::Long => poddreshi_pair,
        Form::Short => poddreshi_short_pair,
    };
    unpack(unsafe { call(first.as_ptr(), first.len(), second.as_ptr(), second.len()) })
}

pub fn pair_at(form: Form, tags: &[u8], first: usize, second: usize) -> Answer {
    let call = match form {
        Form::Long => poddreshi_pair_at,
        Form::Short => poddreshi_short_pair_at,
    };
    unpack(unsafe { call(tags.as_ptr(), tags.len(), first, second) })
}

/// The answer as a record holds it: the kind, and then the numbers, the lowest field first.
fn packed(answer: Answer) -> u64 {
    let fields = match answer {
        Answer::Refused(no) => [0, no.number, no.input, no.position],
        Answer::NoChain => [5, 0, 0, 0],
        Answer::Handovers(count) => [9, count, 0, 0],
        _ => panic!("no record holds {answer:?}"),
    };
    fields.iter().rev().fold(0, |high, &field| high << 16 | field as u64)
}

/// The record as it lies in memory.
pub fn query(record: &Record) -> Query {
    Query { first: record.first, second: record.second, answer: packed(record.answer) }
}

/// What stands in a record before it is filled: anything, or half of the times what could be an answer.
fn old_answer(random: &mut Random) -> u64 {
    let any = random.next();
    let count = 9 | (random.below(4) << 16);
    random.pick(&[any, any, any, any, 0, 5, count, 7 << 16])
}

/// The records of a page, with these positions.
pub fn queries(asked: &[(usize, usize)], random: &mut Random) -> Lent<Query> {
    let mut any = || Query { first: random.next() as usize, second: random.next() as usize, answer: old_answer(random) };
    let mut lent = Lent::new(asked.len(), &mut any);
    for (query, &(first, second)) in lent.before[GUARD..].iter_mut().zip(asked) {
        (query.first, query.second) = (first, second);
    }
    lent.now.clone_from(&lent.before);
    lent
}

pub fn page(tags: &[u8], queries: &mut Lent<Query>) -> Answer {
    unpack(unsafe { poddreshi_page(tags.as_ptr(), tags.len(), queries.pointer(), queries.room) })
}

pub fn lookup(tags: &[u8], at: usize, offset: &mut usize) -> Answer {
    unpack(unsafe { poddreshi_lookup(tags.as_ptr(), tags.len(), at, offset) })
}

/// A tag of five numbers, or a short one of four.
pub fn write(tag: &[u16], out: &mut Lent<u8>) -> Answer {
    let (to, room) = (out.pointer(), out.room);
    unpack(match *tag {
        [plan, component, depth, rank, last] => unsafe { poddreshi_write(plan, component, depth, rank, last, to, room) },
        [plan, component, depth, rank] => unsafe { poddreshi_short_write(plan, component, depth, rank, to, room) },
        _ => panic!("no tag has the numbers {tag:?}"),
    })
}
