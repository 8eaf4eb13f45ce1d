//! The six settings of a receiver, and the bound of a grant.

use super::packets::DEAREST;
use super::refusals::Refusal;

/// Settings that are all in range.
#[derive(Clone, Copy)]
pub struct Settings {
    /// P, in cycles.
    pub period: u64,
    /// N, the cycles that bearers may use in a period.
    pub limit: u64,
    /// S.
    pub queue_size: usize,
    /// H.
    pub high_mark: usize,
    /// L.
    pub low_mark: usize,
    /// T, in periods.
    pub hold: u64,
}

/// What a grant costs to begin.
pub const BEGIN_COST: u64 = 80;

impl Settings {
    /// The settings of P, N, S, H, L and T, or the first that is out of range.
    pub fn new(numbers: [u64; 6]) -> Result<Settings, Refusal> {
        let [period, limit, queue_size, high_mark, low_mark, hold] = numbers;
        let in_range = [
            (1_000..=1_000_000_000).contains(&period),
            (1..=period).contains(&limit),
            (1..=64).contains(&queue_size),
            (1..=queue_size).contains(&high_mark),
            low_mark < high_mark,
            (1..=1_000).contains(&hold),
        ];
        if let Some(index) = in_range.iter().position(|&fits| !fits) {
            return Err(Refusal::Setting(index as u64 + 1));
        }
        Ok(Settings {
            period,
            limit,
            queue_size: queue_size as usize,
            high_mark: high_mark as usize,
            low_mark: low_mark as usize,
            hold,
        })
    }
}

/// B, above which no grant charges.
pub fn grant_bound(greatest_batch: u64, dearest_take: u64) -> u64 {
    BEGIN_COST + greatest_batch * (dearest_take + DEAREST)
}
