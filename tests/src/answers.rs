//! What a call can answer, whichever side gives the answer.

#[derive(Clone, Copy, PartialEq, Eq, Debug)]
pub struct Refusal {
    pub number: u16,
    pub input: u16,
    pub position: u16,
}

pub fn refusal(number: u16, input: u16, position: usize) -> Refusal {
    Refusal { number, input, position: position as u16 }
}

#[derive(Clone, Copy, PartialEq, Eq, Debug)]
pub enum Answer {
    Refused(Refusal),
    Accepted { plan: u16, windows: u16 },
    Built { plan: u16, windows: u16, components: u16 },
    Reach { handovers: u16, smaller: u16, larger: u16 },
    Chain(u16),
    NoChain,
    Neighbours(u16),
    Same,
    Different,
    Handovers(u16),
    Found,
    Written,
    Filled,
    Margin,
}

/// A record of a page: two positions, and the answer that stands beside them.
#[derive(Clone, Copy, PartialEq, Debug)]
pub struct Record {
    pub first: usize,
    pub second: usize,
    pub answer: Answer,
}
