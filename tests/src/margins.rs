//! Margins (paper 02, Q-7), twice: against the oracle, which counts minutes, and against what the library itself says of overlap.
use crate::answers::Answer;
use crate::calls;
use crate::compare::{Comparison, Depth};
use crate::oracle::{Margins, Plan};
use crate::shapes::{file_of, minimum_in, window_in, LATEST};
use std::collections::BTreeSet;

impl Comparison {
    /// Each two of some positions, in both orders, and each of them twice.
    pub fn margins(&mut self, file: &[u8], plan: &Plan, some: &[usize]) {
        let due = Margins::of(plan);
        due.hold_in_runs(plan, some);
        let mut margin = |u: usize, v: usize| {
            let mut out = calls::number(&mut self.random);
            assert_eq!(calls::margin(file, u, v, &mut out), Answer::Margin, "margin of {u} and {v}");
            out.holds(format_args!("margin of {u} and {v}"), &[due.between(u, v)]);
            out.entries()[0]
        };
        let said: Vec<Vec<i64>> = some.iter().map(|&u| some.iter().map(|&v| margin(u, v)).collect()).collect();
        self.calls += (some.len() * some.len()) as u64;
        self.margins_by_overlap(file, some, &said);
    }

    /// The library's margins beside its own neighbours, with nothing from the oracle: they are the same in both orders; "A window with
    /// itself gives its length. Two different windows overlap just when the margin reaches the minimum."
    fn margins_by_overlap(&mut self, file: &[u8], some: &[usize], said: &[Vec<i64>]) {
        let minimum = minimum_in(file) as i64;
        for (i, &u) in some.iter().enumerate() {
            let near = self.library_neighbours(file, u);
            for (j, &v) in some.iter().enumerate() {
                let margin = said[i][j];
                assert_eq!(margin, said[j][i], "margin of {u} and {v} (left), and in the other order");
                if u == v {
                    assert_eq!(margin, window_in(file, u).1 as i64, "margin of {u} with itself (left), and its length");
                    continue;
                }
                let overlap = near.contains(&(v as u16));
                assert_eq!(margin >= minimum, overlap, "{u} and {v}: margin {margin} reaches {minimum} (left), and they overlap");
                if u < v {
                    self.margin_of_two(minimum, window_in(file, u), window_in(file, v), margin);
                }
            }
        }
    }

    /// The margin to the minute, by the library's overlap alone, of two windows that are a plan by themselves. Where it is short of the
    /// minimum, they overlap once the first is longer by just as much as is missing; and where it is not, it is the greatest minimum by
    /// which they overlap, or greater than any minimum.
    fn margin_of_two(&mut self, minimum: i64, first: (u32, u32), second: (u32, u32), margin: i64) {
        let mut overlap = |minimum: i64, longer: i64| {
            let file = file_of(12, minimum as u32, &[(first.0, (first.1 as i64 + longer) as u32), second]);
            self.calls += 1;
            calls::neighbours(&file, 0, &mut calls::words(1, &mut self.random)) == Answer::Neighbours(1)
        };
        let just = match minimum - margin {
            missing @ 1.. => overlap(minimum, missing) && !overlap(minimum, missing - 1),
            _ if margin > 86_400 => overlap(86_400, 0),
            _ => overlap(margin, 0) && !overlap(margin + 1, 0),
        };
        assert!(just, "{first:?} and {second:?} by minimum {minimum}: the margin is not {margin}, by what overlaps");
    }
}

/// Windows that begin and end at every edge: at the first and the last minutes that a plan can have, where numbers grow out of 8,
/// 15, 16, 24 and 31 bits, and at the greatest end of before. Among them are the longest window and the longest gap. By a greater
/// minimum those that are too short are left out.
pub fn edges(comparison: &mut Comparison) {
    let grown = [8, 15, 16, 24, 31].into_iter().flat_map(|bits| [(1 << bits) - 1, 1 << bits]);
    let others = [0, 1, 2, 10_000_000, 10_000_001, LATEST - 256, LATEST - 2, LATEST - 1, LATEST];
    let minutes: BTreeSet<u32> = grown.chain(others).collect();
    for minimum in [1, 2, 256, 32_768, 65_536, 86_400] {
        let windows = |&offset: &u32| minutes.range(offset..).map(move |end| (offset, end - offset));
        let windows: Vec<(u32, u32)> = minutes.iter().flat_map(windows).filter(|window| window.1 >= minimum).collect();
        comparison.file(&file_of(12, minimum, &windows), Depth::Whole);
    }
}
