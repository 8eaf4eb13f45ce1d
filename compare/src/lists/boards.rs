//! Random boards and policies, and settings for them.

use crate::random::Random;
use crate::terms::{Bearer, Kind, Policy};

/// P, N, S, H, L and T.
pub type Settings = [u64; 6];

pub const STANDARD: Settings = [64_000, 32_000, 32, 24, 8, 2];

const LEAST_PERIOD: u64 = 1_000;
const GREATEST_PERIOD: u64 = 1_000_000_000;
const GREATEST_SIZE: u64 = 64;
const GREATEST_HOLD: u64 = 1_000;

/// The standard board with its policy in a third of all cases.
pub fn board(random: &mut Random) -> (Vec<Bearer>, Policy) {
    if random.chance(1, 3) {
        return standard();
    }
    let occupied = random.chance(1, 12);
    let bearers = (0..random.among(1, 8))
        .map(|_| bearer(occupied, random))
        .collect();
    (bearers, policy(random))
}

/// The board and the policy of the standard receiver.
pub fn standard() -> (Vec<Bearer>, Policy) {
    let board = [(Kind::Ring, 8), (Kind::Mailbox, 4), (Kind::Ring, 16)];
    let board = board.map(|(kind, depth)| Bearer {
        kind,
        depth,
        occupied: false,
    });
    (board.to_vec(), Policy::Fixed(4))
}

fn bearer(occupied: bool, random: &mut Random) -> Bearer {
    let kind = random.pick(&[Kind::Ring, Kind::Mailbox]);
    let deepest = match kind {
        Kind::Ring => 256,
        Kind::Mailbox => 16,
    };
    let about_deepest = random.pick(&[deepest - 1, deepest, deepest + 1, deepest * 5 / 4]);
    let depth = match random.below(10) {
        0 => about_deepest,
        1 => random.among(0, deepest),
        _ => random.among(0, 6),
    };
    let occupied = occupied && random.chance(1, 3);
    Bearer {
        kind,
        depth,
        occupied,
    }
}

fn policy(random: &mut Random) -> Policy {
    match random.below(6) {
        0 | 1 => Policy::Backlog,
        2 => Policy::Fixed(random.pick(&[u64::MAX, 1 << 32, 1_000])),
        _ => Policy::Fixed(random.among(0, 20)),
    }
}

/// Mostly settings that are accepted; some at the edges of their ranges, and some out of them.
pub fn settings(bearers: &[Bearer], policy: Policy, random: &mut Random) -> Settings {
    let bound = grant_bound(bearers, policy);
    match random.below(12) {
        0..=2 => STANDARD,
        3..=6 => tight(bound, random),
        7 | 8 => in_range(bound, random),
        9 | 10 => edges(bound, random),
        _ => out_of_range(in_range(bound, random), random),
    }
}

/// The greatest charge of a grant, by the rule for settings.
pub fn grant_bound(bearers: &[Bearer], policy: Policy) -> u64 {
    let ring = bearers.iter().any(|bearer| bearer.kind == Kind::Ring);
    let batch = match policy {
        Policy::Fixed(_) => 16,
        Policy::Backlog => 8,
    };
    80 + batch * (if ring { 200 } else { 120 } + 1_360)
}

/// A low limit, a small queue and the shortest period that leaves a share, so that the gate shuts
/// and opens often.
fn tight(bound: u64, random: &mut Random) -> Settings {
    let limit = random.among(1, 3_000);
    let size = random.pick(&[1, 1, 2, 4]);
    let high = random.among(1, size);
    let low = random.among(0, high - 1);
    [limit + bound, limit, size, high, low, random.among(1, 3)]
}

fn in_range(bound: u64, random: &mut Random) -> Settings {
    let limit = random.of_any_size(100_000);
    let longer = random.of_any_size(GREATEST_PERIOD - limit - bound);
    let size = random.among(1, GREATEST_SIZE);
    let high = random.among(1, size);
    let low = random.among(0, high - 1);
    [
        limit + bound + longer,
        limit,
        size,
        high,
        low,
        random.among(1, GREATEST_HOLD),
    ]
}

/// Each setting at one end of its range, the period also at the least that leaves a share and just
/// below it.
fn edges(bound: u64, random: &mut Random) -> Settings {
    let limit = random.pick(&[1, 60, 200, 32_000]);
    let periods = [
        LEAST_PERIOD,
        limit + bound - 1,
        limit + bound,
        limit + bound,
        GREATEST_PERIOD,
    ];
    let period = random.pick(&periods).max(LEAST_PERIOD);
    let limit = random.pick(&[
        limit.min(period),
        limit.min(period),
        period,
        period.saturating_sub(bound).max(1),
    ]);
    let size = random.pick(&[1, GREATEST_SIZE]);
    let high = random.pick(&[1, size]);
    let low = random.pick(&[0, high - 1]);
    [
        period,
        limit,
        size,
        high,
        low,
        random.pick(&[1, GREATEST_HOLD]),
    ]
}

/// One setting out of its range, sometimes two.
fn out_of_range(mut settings: Settings, random: &mut Random) -> Settings {
    for _ in 0..random.pick(&[1, 1, 2]) {
        let place = random.below(6) as usize;
        let [period, _, size, high, ..] = settings;
        let outside = match place {
            0 => [0, LEAST_PERIOD - 1, GREATEST_PERIOD + 1],
            1 => [0, period.saturating_add(1), 1 << 32],
            2 => [0, GREATEST_SIZE + 1, 1 << 32],
            3 => [0, size.saturating_add(1), 1 << 32],
            4 => [high, high.saturating_add(1), 1 << 32],
            _ => [0, GREATEST_HOLD + 1, 1 << 32],
        };
        settings[place] = if random.chance(1, 8) {
            u64::MAX
        } else {
            random.pick(&outside)
        };
    }
    settings
}
