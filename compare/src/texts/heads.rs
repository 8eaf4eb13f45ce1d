//! The lines of a text that say its board and its policy.

use super::Line;
use crate::random::Random;
use crate::terms::{Bearer, Kind, Policy};

const MOST_BEARERS: u64 = 8;

/// What a head says: bearers, or none, and the policy, if it says one, behind so many of them.
pub fn head(random: &mut Random) -> (Vec<Bearer>, Option<(Policy, usize)>) {
    let count = match random.below(6) {
        0 => 0,
        1 => MOST_BEARERS,
        _ => random.among(1, MOST_BEARERS),
    };
    let bearers: Vec<Bearer> = (0..count).map(|_| bearer(random)).collect();
    let place = random.among(0, count) as usize;
    let policy = random.chance(4, 5).then(|| (policy(random), place));
    (bearers, policy)
}

pub fn lines(bearers: &[Bearer], policy: Option<(Policy, usize)>) -> Vec<Line> {
    let mut lines: Vec<Line> = bearers.iter().map(bearer_line).collect();
    if let Some((policy, place)) = policy {
        lines.insert(place, policy_line(policy));
    }
    lines
}

/// A bearer of any kind, its depth mostly about those to which kinds cut.
pub fn bearer(random: &mut Random) -> Bearer {
    let edge = random.pick(&[0, 16, 17, 255, 256, 257, u64::MAX]);
    let wraps = random.pick(&[(1 << 16) + 5, 1 << 32, (1 << 32) + 5, 1 << 63]);
    Bearer {
        kind: random.pick(&[Kind::Ring, Kind::Mailbox]),
        depth: match random.below(8) {
            0..=3 => edge,
            4 => wraps,
            _ => random.among(1, 20),
        },
        occupied: false,
    }
}

pub fn policy(random: &mut Random) -> Policy {
    let edge = random.pick(&[0, 1, 16, 17, u64::MAX]);
    let wraps = random.pick(&[(1 << 8) + 5, 1 << 32, (1 << 32) + 5, 1 << 63]);
    match random.below(8) {
        0 | 1 => Policy::Backlog,
        2..=5 => Policy::Fixed(edge),
        6 => Policy::Fixed(wraps),
        _ => Policy::Fixed(random.among(2, 15)),
    }
}

pub fn bearer_line(bearer: &Bearer) -> Line {
    let kind = match bearer.kind {
        Kind::Ring => "ring",
        Kind::Mailbox => "mailbox",
    };
    let depth = bearer.depth.to_string();
    vec!["bearer".into(), kind.into(), depth.into()]
}

pub fn policy_line(policy: Policy) -> Line {
    match policy {
        Policy::Fixed(figure) => {
            let figure = figure.to_string();
            vec!["policy".into(), "fixed".into(), figure.into()]
        }
        Policy::Backlog => vec!["policy".into(), "backlog".into()],
    }
}
