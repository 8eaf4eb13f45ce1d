//! Random lists of calls, with the board and the policy that they are made on: a seed gives the
//! same list everywhere.

mod boards;
mod moves;
mod probes;

pub use boards::{board, standard};
pub use probes::probe;

use crate::random::Random;
use crate::terms::{Bearer, Call, Policy};
use moves::Author;

/// The list of a seed.
pub fn list(seed: u64) -> (Vec<Bearer>, Policy, Vec<Call>) {
    let mut random = Random::new(seed);
    let (bearers, policy) = board(&mut random);
    let calls = calls(&bearers, policy, &mut random);
    (bearers, policy, calls)
}

/// Calls on this board, with settings for it.
pub fn calls(bearers: &[Bearer], policy: Policy, random: &mut Random) -> Vec<Call> {
    let settings = boards::settings(bearers, policy, random);
    Author::new(bearers, policy, settings, random).write()
}
