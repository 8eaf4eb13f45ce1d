//! The terms in which both sides are asked and answer.

use std::fmt::{self, Display, Formatter};

/// What a replay came to, in figures, and how many bytes its two tables have.
#[derive(Clone, Copy, PartialEq, Eq, Debug, Default)]
pub struct Replayed {
    pub packets: u64,
    pub turns: u64,
    pub periods: u64,
    pub delivered: u64,
    pub bearer_full: u64,
    pub queue_full: u64,
    pub waiting: u64,
    pub pending: u64,
    pub packets_len: u64,
    pub periods_len: u64,
}

/// A refusal: its number, and its place or 0.
#[derive(Clone, Copy, PartialEq, Eq, Debug)]
pub struct Refused {
    pub number: u32,
    pub place: u64,
}

/// The kinds of bearer.
#[derive(Clone, Copy, PartialEq, Eq, Debug)]
pub enum Kind {
    Ring,
    Mailbox,
}

/// A bearer of a board under test: its kind, the depth asked for, which the
/// kind cuts, and whether one packet waits in it before the receiver is put up.
#[derive(Clone, Copy, PartialEq, Eq, Debug)]
pub struct Bearer {
    pub kind: Kind,
    pub depth: u64,
    pub occupied: bool,
}

/// A batch policy under test, with the figure asked for, which the policy cuts.
#[derive(Clone, Copy, PartialEq, Eq, Debug)]
pub enum Policy {
    Fixed(u64),
    Backlog,
}

/// A bearer as a host passes it to the boundary. Its kind is a number, perhaps of none.
#[derive(Clone, Copy, PartialEq, Eq, Debug)]
pub struct PassedBearer {
    pub depth: u64,
    pub kind: u8,
    pub occupied: bool,
}

/// A batch policy as a host passes it. Of another policy than the fixed one the figure says nothing.
#[derive(Clone, Copy, PartialEq, Eq, Debug)]
pub struct PassedPolicy {
    pub figure: u32,
    pub kind: u8,
}

/// How the calls of a text ended at the boundary: the status, and the number beside it or 0.
#[derive(Clone, Copy, PartialEq, Eq, Debug)]
pub struct Ended {
    pub status: u32,
    pub figure: u64,
}

/// A call of a receiver. A receipt is named by its number.
#[derive(Clone, Copy, PartialEq, Eq, Debug)]
pub enum Call {
    Configure([u64; 6]),
    Arrive { bearer: u64, length: u64, tag: u32 },
    Step,
    Work(u64),
    Fetch,
    Finish(u32),
    Discard(u32),
    Tell,
}

/// The line that the program `calls` reads, without its end.
impl Display for Call {
    fn fmt(&self, f: &mut Formatter<'_>) -> fmt::Result {
        match self {
            Call::Configure([period, limit, size, high, low, hold]) => {
                write!(f, "configure {period} {limit} {size} {high} {low} {hold}")
            }
            Call::Arrive {
                bearer,
                length,
                tag,
            } => write!(f, "arrive {bearer} {length} {tag}"),
            Call::Step => f.write_str("step"),
            Call::Work(cycles) => write!(f, "work {cycles}"),
            Call::Fetch => f.write_str("fetch"),
            Call::Finish(number) => write!(f, "finish {number}"),
            Call::Discard(number) => write!(f, "discard {number}"),
            Call::Tell => f.write_str("tell"),
        }
    }
}
