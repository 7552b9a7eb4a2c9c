//! The two forms of a tag: paper 01's, and the shorter one of paper 02, Q-1, which has no rank of the last.

#[derive(Clone, Copy, PartialEq, Debug)]
pub enum Form {
    Long,
    Short,
}

pub const FORMS: [Form; 2] = [Form::Long, Form::Short];

impl Form {
    /// How many numbers a tag has.
    pub fn numbers(self) -> usize {
        match self {
            Form::Long => 5,
            Form::Short => 4,
        }
    }

    /// How many bytes a tag has.
    pub fn bytes(self) -> usize {
        2 * self.numbers()
    }
}
