//! Reach (paper 02, Q-5), twice: against the oracle's search between all windows, and against what the library itself says from tags.
use crate::answers::Answer;
use crate::calls;
use crate::compare::Comparison;
use crate::forms::Form;
use crate::oracle::{self, Tree};
use std::cmp::Ordering;
use std::collections::BTreeMap;

impl Comparison {
    /// The reach at some positions, and at the first and the last window of every component.
    pub fn reaches(&mut self, file: &[u8], tree: &Tree, some: &[usize], distances: &[Vec<Option<u16>>]) {
        let component = |v: usize| tree.component.get(v);
        for (u, from) in distances.iter().enumerate() {
            let one = |v: usize| from[v].is_some() == (component(u) == component(v));
            assert!((0..tree.n).all(one), "the oracle's components, by the tree and by chains, at {u}");
        }
        let due = oracle::reaches(distances);
        let is_end = |&v: &usize| v == 0 || component(v - 1) != component(v) || component(v) != component(v + 1);
        let asked = some.iter().copied().chain((0..tree.n).filter(is_end));
        let answers: Vec<(usize, Answer)> = asked.map(|at| (at, calls::reach(file, at))).collect();
        for &(at, answer) in &answers {
            assert_eq!(answer, due[at], "reach of {at}: the library (left) and the search");
        }
        self.calls += answers.len() as u64;
        self.reaches_by_tags(file, tree.n, &answers);
    }

    /// The library's reaches beside its own tags, with nothing from the oracle: all positions of a component have one answer.
    fn reaches_by_tags(&mut self, file: &[u8], n: usize, answers: &[(usize, Answer)]) {
        let mut written = calls::bytes(10 * n, &mut self.random);
        calls::tags(Form::Long, file, &mut written);
        let tags: Vec<&[u8]> = written.entries().chunks(10).collect();
        let component = |at: usize| &tags[at][2..4];
        let mut known = BTreeMap::new();
        for &(at, answer) in answers {
            let &mut (first, before) = known.entry(component(at)).or_insert((at, answer));
            assert_eq!(answer, before, "reach of {at} (left), and of {first}, which is of its component");
        }
        for (number, (at, answer)) in known {
            let members: Vec<usize> = (0..n).filter(|&v| component(v) == number).collect();
            self.calls += reach_by_tags(&tags, &members, at, answer);
        }
        self.calls += 1;
    }
}

/// The two positions are of the component, the smaller first; the pair of their tags has just that number; no pair of the component has
/// more, and none before it has as much. Hands back how many pairs were asked for.
fn reach_by_tags(tags: &[&[u8]], members: &[usize], at: usize, answer: Answer) -> u64 {
    let Answer::Reach { handovers, smaller, larger } = answer else { panic!("reach of {at} is {answer:?}") };
    let named = (smaller as usize, larger as usize);
    assert!(members.contains(&named.0) && members.contains(&named.1), "reach of {at}: {named:?} are not both of its component");
    assert!(smaller <= larger, "reach of {at}: {smaller} is to be the smaller position, and {larger} the larger");
    let mut pairs = 0;
    for (place, &u) in members.iter().enumerate() {
        for &v in &members[place..] {
            let Answer::Handovers(count) = calls::pair(Form::Long, tags[u], tags[v]) else {
                panic!("{u} and {v} are of one component by their tags, which give no number of handovers");
            };
            let right = match (u, v).cmp(&named) {
                Ordering::Less => count < handovers,
                Ordering::Equal => count == handovers,
                Ordering::Greater => count <= handovers,
            };
            assert!(right, "reach of {at} is {handovers} by {named:?}, and the tags of {u} and {v} give {count}");
            pairs += 1;
        }
    }
    pairs
}
