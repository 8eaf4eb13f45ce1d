//! Calls by which answers show what a board and a policy are: the depths, the kinds and the quotas.

use super::boards::grant_bound;
use crate::random::Random;
use crate::terms::{Bearer, Call, Kind, Policy};

const LIMIT: u64 = 100_000;

/// Settings that leave no share and the least that do tell the grant bound; floods, how much each
/// bearer holds; steps, the quotas; and refused work, what all that was charged. Of packets that are
/// fetched, most have the first numbers, and so most of these receipts are held.
pub fn probe(bearers: &[Bearer], policy: Policy, random: &mut Random) -> Vec<Call> {
    let least = LIMIT + grant_bound(bearers, policy);
    let mut calls = vec![configure(least - 1), configure(least)];
    let first = random.below(bearers.len() as u64) as usize;
    for place in (first..bearers.len()).chain(0..first) {
        flood(place, bearers[place], random, &mut calls);
    }
    for number in 0..random.among(1, 6) as u32 {
        let steps = random.among(1, 40) as usize;
        calls.extend(vec![Call::Step; steps]);
        let spend = random.pick(&[Call::Finish, Call::Discard]);
        calls.extend([Call::Work(least), Call::Fetch, spend(number)]);
    }
    calls.push(Call::Tell);
    calls
}

fn configure(period: u64) -> Call {
    Call::Configure([period, LIMIT, 64, 64, 63, 1])
}

/// One packet more than the bearer holds, or a few.
fn flood(place: usize, bearer: Bearer, random: &mut Random, calls: &mut Vec<Call>) {
    let deepest = match bearer.kind {
        Kind::Ring => 256,
        Kind::Mailbox => 16,
    };
    let more = random.pick(&[1, 1, 3]);
    for _ in 0..bearer.depth.min(deepest) + more {
        calls.push(Call::Arrive {
            bearer: place as u64,
            length: random.among(1, 384),
            tag: random.next() as u32,
        });
    }
}
