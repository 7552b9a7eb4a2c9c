//! Breadth-first search, on adjacency lists that stand ready, for one pair or for the farthest from a window: by hand, and by the graph
//! library.

pub struct Graph {
    pub starts: Vec<u32>,
    pub targets: Vec<u32>,
}

impl Graph {
    pub fn of(minimum: u32, windows: &[(u32, u32)]) -> Graph {
        let n = windows.len();
        let overlap = |u: usize, v: usize| {
            let ((a, b), (c, d)) = (windows[u], windows[v]);
            u != v && a.max(c) + minimum <= (a + b).min(c + d)
        };
        let (mut starts, mut targets) = (vec![0], Vec::new());
        for u in 0..n {
            targets.extend((0..n).filter(|&v| overlap(u, v)).map(|v| v as u32));
            starts.push(targets.len() as u32);
        }
        Graph { starts, targets }
    }
}

/// What a search keeps between queries, so that none allocates.
pub struct Scratch {
    distances: Vec<u16>,
    queue: Vec<u32>,
}

impl Scratch {
    pub fn new(n: usize) -> Scratch {
        Scratch { distances: vec![0; n], queue: Vec::with_capacity(n) }
    }
}

/// Stops as soon as the second window is found.
#[inline(never)]
pub fn distance(graph: &Graph, from: usize, to: usize, scratch: &mut Scratch) -> Option<u16> {
    const UNSEEN: u16 = u16::MAX;
    scratch.distances.fill(UNSEEN);
    scratch.queue.clear();
    scratch.distances[from] = 0;
    scratch.queue.push(from as u32);
    let mut next = 0;
    while next < scratch.queue.len() {
        let v = scratch.queue[next] as usize;
        next += 1;
        if v == to {
            return Some(scratch.distances[v]);
        }
        for &w in &graph.targets[graph.starts[v] as usize..graph.starts[v + 1] as usize] {
            if scratch.distances[w as usize] == UNSEEN {
                scratch.distances[w as usize] = scratch.distances[v] + 1;
                scratch.queue.push(w);
            }
        }
    }
    None
}

/// The greatest number of handovers from a window, and the first window that has it.
pub fn farthest(graph: &Graph, from: usize, scratch: &mut Scratch) -> (u16, usize) {
    const NO_WINDOW: usize = usize::MAX;
    distance(graph, from, NO_WINDOW, scratch);
    let Scratch { distances, queue } = scratch;
    // They are found by rising distance.
    let greatest = distances[queue[queue.len() - 1] as usize];
    let first = queue.iter().rev().take_while(|&&v| distances[v as usize] == greatest).min();
    (greatest, first.map_or(from, |&v| v as usize))
}

/// The windows of a window's component, rising.
pub fn component(graph: &Graph, from: usize, scratch: &mut Scratch) -> Vec<usize> {
    farthest(graph, from, scratch);
    let mut members: Vec<usize> = scratch.queue.iter().map(|&v| v as usize).collect();
    members.sort();
    members
}

#[cfg(library)]
mod boost {
    use super::Graph;
    use std::os::raw::c_void;

    extern "C" {
        fn library_graph(n: usize, starts: *const u32, targets: *const u32) -> *mut c_void;
        fn library_distance(graph: *mut c_void, from: usize, to: usize) -> i32;
        fn library_farthest(graph: *mut c_void, from: usize, first: *mut usize) -> i32;
        fn library_free(graph: *mut c_void);
    }

    pub struct Library(*mut c_void);

    impl Library {
        pub fn of(graph: &Graph) -> Option<Library> {
            let n = graph.starts.len() - 1;
            Some(Library(unsafe { library_graph(n, graph.starts.as_ptr(), graph.targets.as_ptr()) }))
        }
        pub fn distance(&self, from: usize, to: usize) -> Option<u16> {
            u16::try_from(unsafe { library_distance(self.0, from, to) }).ok()
        }
        pub fn farthest(&self, from: usize) -> (u16, usize) {
            let mut first = 0;
            let greatest = unsafe { library_farthest(self.0, from, &mut first) };
            (greatest as u16, first)
        }
    }

    impl Drop for Library {
        fn drop(&mut self) {
            unsafe { library_free(self.0) }
        }
    }
}

#[cfg(not(library))]
mod boost {
    use super::Graph;

    pub struct Library;

    impl Library {
        pub fn of(_: &Graph) -> Option<Library> {
            None
        }
        pub fn distance(&self, _: usize, _: usize) -> Option<u16> {
            None
        }
        pub fn farthest(&self, from: usize) -> (u16, usize) {
            (0, from)
        }
    }
}

pub use boost::Library;
