//! Batch policies.

use crate::terms;

/// A batch policy whose figure is within its bounds.
#[derive(Clone, Copy)]
pub enum Policy {
    Fixed(u64),
    Backlog,
}

const FIXED_GREATEST: u64 = 16;
const BACKLOG_GREATEST: u64 = 8;

impl Policy {
    pub fn new(asked: terms::Policy) -> Policy {
        match asked {
            terms::Policy::Fixed(figure) => Policy::Fixed(figure.clamp(1, FIXED_GREATEST)),
            terms::Policy::Backlog => Policy::Backlog,
        }
    }

    /// The greatest batch.
    pub fn greatest(self) -> u64 {
        match self {
            Policy::Fixed(_) => FIXED_GREATEST,
            Policy::Backlog => BACKLOG_GREATEST,
        }
    }

    /// The greatest number of packets to take in one grant of a bearer in
    /// which so many wait. Neither policy asks which bearer it is.
    pub fn quota(self, waiting: usize) -> u64 {
        match self {
            Policy::Fixed(figure) => figure,
            Policy::Backlog => BACKLOG_GREATEST.min(1 + waiting as u64 / 2),
        }
    }
}

#[cfg(test)]
mod tests {
    use super::*;

    #[test]
    fn fixed_cuts_its_figure() {
        let quota = |figure| Policy::new(terms::Policy::Fixed(figure)).quota(3);
        assert_eq!([0, 1, 16, 17, u64::MAX].map(quota), [1, 1, 16, 16, 16]);
    }

    #[test]
    fn backlog_takes_one_more_than_half() {
        let quota = |waiting| Policy::Backlog.quota(waiting);
        assert_eq!([0, 1, 2, 13, 14, 256].map(quota), [1, 1, 2, 7, 8, 8]);
    }
}
