//! Section 3: the refusals and their numbers.

/// Why a call was refused. The discriminants are section 3's numbers.
#[derive(Clone, Copy, Debug, PartialEq, Eq)]
pub enum Refusal {
    Room = 1,
    Busy = 2,
    Kind = 3,
    Long = 4,
    Short = 5,
    Start = 6,
    Length = 7,
    Tail = 8,
    Sum = 9,
    Form = 10,
    Range = 11,
}

impl Refusal {
    /// The number in section 3's table.
    pub fn number(self) -> u8 {
        self as u8
    }
}
