//! The standard receiver: its board, its policy and its settings.

use crate::terms::{Bearer, Kind, Policy};

pub const BEARERS: [Bearer; 3] = [
    bearer(Kind::Ring, 8),
    bearer(Kind::Mailbox, 4),
    bearer(Kind::Ring, 16),
];
pub const POLICY: Policy = Policy::Fixed(4);
pub const PERIOD: u64 = 64_000;
pub const SETTINGS: [u64; 6] = [PERIOD, 32_000, 32, 24, 8, 2];

const fn bearer(kind: Kind, depth: u64) -> Bearer {
    Bearer {
        kind,
        depth,
        occupied: false,
    }
}
