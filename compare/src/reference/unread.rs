//! Lines that cannot be read, and what is printed of them.

use std::fmt::{self, Display, Formatter};

/// The first line of a text that cannot be read.
#[derive(Clone, Copy, PartialEq, Eq, Debug)]
pub struct Unread {
    pub line: u64,
    pub fault: Fault,
}

#[derive(Clone, Copy, PartialEq, Eq, Debug)]
pub enum Fault {
    NoCall,
    BehindACall,
    NoKindOfBearer,
    NoKindOfPolicy,
    /// The call, or the kind, takes so many numbers.
    Count(usize),
    NotDigits,
    TooLarge,
    NinthBearer,
    SecondPolicy,
}

impl Display for Unread {
    fn fmt(&self, f: &mut Formatter<'_>) -> fmt::Result {
        write!(f, "unread {}: {}", self.line, self.fault)
    }
}

impl Display for Fault {
    fn fmt(&self, f: &mut Formatter<'_>) -> fmt::Result {
        f.write_str(match self {
            Fault::NoCall => "no call has this name",
            Fault::BehindACall => "a call stands before this line",
            Fault::NoKindOfBearer => "no kind of bearer has this name",
            Fault::NoKindOfPolicy => "no kind of policy has this name",
            Fault::Count(taken) => return write!(f, "the count of numbers is not {taken}"),
            Fault::NotDigits => "a number is not digits alone",
            Fault::TooLarge => "a number is too large",
            Fault::NinthBearer => "a board shows no more than eight bearers",
            Fault::SecondPolicy => "the policy is said already",
        })
    }
}
