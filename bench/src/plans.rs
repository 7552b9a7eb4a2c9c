//! The plans that are measured, made from fixed seeds.
use crate::hand;
use crate::interface::Query;

#[derive(Clone, Copy)]
pub enum Shape {
    /// About half of all pairs overlap.
    Dense,
    /// Each window overlaps few others, and there are many components.
    Sparse,
    /// Each window overlaps the next two: one component, long chains. No end falls.
    Staircase,
    /// The offsets and the ends of a dense or a sparse plan, with the ends in rising order: as many pairs overlap, and no end falls.
    EvenDense,
    EvenSparse,
    /// A sparse plan with every window 29 minutes longer and a minimum of 30: the same pairs overlap.
    SparseBy30,
}

pub const SHAPES: [Shape; 4] = [Shape::Dense, Shape::Sparse, Shape::Staircase, Shape::SparseBy30];

/// Those of which there are short tags.
pub const EVEN_SHAPES: [Shape; 3] = [Shape::EvenDense, Shape::EvenSparse, Shape::Staircase];

impl Shape {
    pub fn name(self) -> &'static str {
        match self {
            Shape::Dense => "dense",
            Shape::Sparse => "sparse",
            Shape::Staircase => "staircase",
            Shape::EvenDense => "even-dense",
            Shape::EvenSparse => "even-sparse",
            Shape::SparseBy30 => "sparse-by-30",
        }
    }

    fn minimum(self) -> u32 {
        match self {
            Shape::SparseBy30 => 30,
            _ => 1,
        }
    }
}

/// How many plans of a shape are gone through in turn: with one alone the processor learns its branches by heart.
pub const PLANS: usize = 16;

/// How many records a page has.
pub const RECORDS: usize = 10_000;

pub struct Case {
    pub name: &'static str,
    pub n: usize,
    pub minimum: u32,
    /// The windows of the first plan, which the searches go through.
    pub windows: Vec<(u32, u32)>,
    pub files: Vec<Vec<u8>>,
    /// Random pairs of positions.
    pub queries: Vec<(usize, usize)>,
    /// As many as a page has.
    pub page: Vec<Query>,
}

struct Random(u64);

impl Random {
    fn below(&mut self, limit: u32) -> u32 {
        self.0 ^= self.0 << 13;
        self.0 ^= self.0 >> 7;
        self.0 ^= self.0 << 17;
        ((self.0 >> 32) * limit as u64 >> 32) as u32
    }
}

fn evened(windows: Vec<(u32, u32)>) -> Vec<(u32, u32)> {
    let mut ends: Vec<u32> = windows.iter().map(|window| window.0 + window.1).collect();
    ends.sort();
    windows.iter().zip(ends).map(|(window, end)| (window.0, end - window.0)).collect()
}

fn windows_of(shape: Shape, n: usize, random: &mut Random) -> Vec<(u32, u32)> {
    let size = n as u32;
    let mut windows: Vec<(u32, u32)> = match shape {
        Shape::Dense => (0..n).map(|_| (random.below(size), 1 + random.below(size))).collect(),
        Shape::Sparse => (0..n).map(|_| (random.below(10 * size), 1 + random.below(20))).collect(),
        Shape::Staircase => (0..size).map(|i| (10 * i, 21 + random.below(9))).collect(),
        Shape::EvenDense => return evened(windows_of(Shape::Dense, n, random)),
        Shape::EvenSparse => return evened(windows_of(Shape::Sparse, n, random)),
        Shape::SparseBy30 => return windows_of(Shape::Sparse, n, random).into_iter().map(|w| (w.0, w.1 + 29)).collect(),
    };
    windows.sort_by_key(|window| window.0);
    windows
}

fn file_of(minimum: u32, windows: &[(u32, u32)]) -> Vec<u8> {
    let mut file = vec![12, 0, (windows.len() % 256) as u8, (windows.len() / 256) as u8];
    file.extend(minimum.to_le_bytes());
    for (offset, length) in windows {
        file.extend(offset.to_le_bytes());
        file.extend(length.to_le_bytes());
    }
    file
}

impl Case {
    pub fn new(shape: Shape, n: usize) -> Case {
        Case::of_plans(shape, n, PLANS)
    }

    /// With so many plans.
    pub fn of_plans(shape: Shape, n: usize, count: usize) -> Case {
        let mut random = Random(0x9e37_79b9_7f4a_7c15 ^ n as u64);
        let plans: Vec<Vec<(u32, u32)>> = (0..count).map(|_| windows_of(shape, n, &mut random)).collect();
        let mut position = || random.below(n as u32) as usize;
        let queries = (0..1024).map(|_| (position(), position())).collect();
        let page = (0..RECORDS).map(|_| Query { first: position(), second: position(), answer: 0 }).collect();
        let minimum = shape.minimum();
        let files = plans.iter().map(|windows| file_of(minimum, windows)).collect();
        Case { name: shape.name(), n, minimum, windows: plans[0].clone(), files, queries, page }
    }
}

pub fn tags_of(case: &Case) -> Vec<u8> {
    tags_in(case, &case.files[0])
}

/// The tag file of one of the plans.
pub fn tags_in(case: &Case, file: &[u8]) -> Vec<u8> {
    let mut tables = [(); 5].map(|_| vec![0; case.n]);
    let mut tags = vec![0; 10 * case.n];
    let [a, b, c, d, e] = &mut tables;
    hand::hand_build(file, [a, b, c, d, e], &mut tags).unwrap();
    tags
}

pub fn short_tags_of(case: &Case) -> Vec<u8> {
    let mut tags = vec![0; 8 * case.n];
    hand::hand_short_tags(&case.files[0], &mut tags).unwrap();
    tags
}
