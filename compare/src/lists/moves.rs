//! The calls of a random list, move by move. Where a move has to hit a number, as the end of a
//! period or a receipt that is held, the reference is asked what it answers up to there.

use super::boards::{Settings, STANDARD};
use crate::random::Random;
use crate::reference;
use crate::terms::{Bearer, Call, Policy};

/// What an author does next.
#[derive(Clone, Copy)]
enum Move {
    Arrive,
    Flood,
    Step,
    Steps,
    Work,
    Close,
    Fetch,
    Fetches,
    Spend,
    SpendAll,
    Tell,
    Configure,
}

const MOVES: [Move; 12] = [
    Move::Arrive,
    Move::Flood,
    Move::Step,
    Move::Steps,
    Move::Work,
    Move::Close,
    Move::Fetch,
    Move::Fetches,
    Move::Spend,
    Move::SpendAll,
    Move::Tell,
    Move::Configure,
];

/// The greatest weight of each move: every list has weights of its own.
const GREATEST: [u64; 12] = [8, 4, 8, 12, 4, 4, 6, 3, 6, 3, 2, 1];

pub struct Author<'a> {
    bearers: &'a [Bearer],
    policy: Policy,
    settings: Settings,
    random: &'a mut Random,
    weights: [u64; 12],
    calls: Vec<Call>,
    /// What the reference answered to the calls up to `read`.
    read: usize,
    configured: bool,
    out: Vec<u32>,
    left: u64,
}

impl<'a> Author<'a> {
    pub fn new(
        bearers: &'a [Bearer],
        policy: Policy,
        settings: Settings,
        random: &'a mut Random,
    ) -> Self {
        let mut weights = GREATEST.map(|most| random.among(0, most));
        weights[Move::Flood as usize] += 1;
        weights[Move::Steps as usize] += 2;
        if random.chance(1, 5) {
            weights[Move::Spend as usize] = 0;
            weights[Move::SpendAll as usize] = 0;
        }
        Self {
            bearers,
            policy,
            settings,
            random,
            weights,
            calls: Vec::new(),
            read: 0,
            configured: false,
            out: Vec::new(),
            left: 0,
        }
    }

    pub fn write(mut self) -> Vec<Call> {
        let most = self.random.pick(&[1, 40, 100, 200, 200]);
        let most = self.random.among(1, most) as usize;
        if self.random.chance(1, 5) {
            self.next();
        }
        self.configure();
        // Now and then as much comes as the deepest bearer holds, and more.
        let long = self.random.chance(1, 50);
        if long {
            let count = self.random.among(250, 320);
            self.arrive(count);
        }
        let most = match (self.configured, long) {
            (true, true) => most + 400,
            (true, false) => most,
            // Nothing can be done any more.
            (false, _) => most.min(self.calls.len() + 8),
        };
        while self.calls.len() < most {
            self.next();
        }
        self.calls.truncate(most);
        self.calls
    }

    fn next(&mut self) {
        match MOVES[self.random.weighted(&self.weights)] {
            Move::Arrive => self.arrive(1),
            Move::Flood => {
                let count = self.random.among(1, 12);
                self.arrive(count);
            }
            Move::Step => self.calls.push(Call::Step),
            Move::Steps => self.steps(),
            Move::Work => self.work(),
            Move::Close => self.close(),
            Move::Fetch => self.calls.push(Call::Fetch),
            Move::Fetches => {
                self.repeat(Call::Fetch, 18);
            }
            Move::Spend => self.spend(1),
            Move::SpendAll => self.spend(16),
            Move::Tell => self.calls.push(Call::Tell),
            Move::Configure => self.configure_again(),
        }
    }

    /// Configures; with settings that are refused mostly once more, with the standard ones.
    fn configure(&mut self) {
        self.calls.push(Call::Configure(self.settings));
        self.look();
        if !self.configured && self.random.chance(3, 4) {
            self.settings = STANDARD;
            self.calls.push(Call::Configure(STANDARD));
            self.look();
        }
    }

    /// Once more the same settings, or settings out of range.
    fn configure_again(&mut self) {
        let mut settings = self.settings;
        if self.random.chance(1, 2) {
            settings[self.random.below(6) as usize] = u64::MAX;
        }
        self.calls.push(Call::Configure(settings));
    }

    /// Steps until one is refused; then often what helps in most cases, the period's end.
    fn steps(&mut self) {
        if self.repeat(Call::Step, 12) && self.random.chance(1, 3) {
            self.close();
        }
    }

    /// Up to `most` times the same call, but not again once it is refused, which is answered.
    fn repeat(&mut self, call: Call, most: u64) -> bool {
        let count = self.random.among(1, most) as usize;
        self.calls.extend((0..count).map(|_| call));
        let refused = self.look().min(count);
        self.calls
            .truncate(self.calls.len() - refused.saturating_sub(1));
        self.read = self.calls.len();
        refused > 0
    }

    /// So many packets on one bearer.
    fn arrive(&mut self, count: u64) {
        let shown = self.bearers.len() as u64;
        let odd = self.random.pick(&[shown, 8, u64::MAX]);
        let bearer = if self.random.chance(1, 30) {
            odd
        } else {
            self.random.below(shown)
        };
        for _ in 0..count {
            let odd = self.random.pick(&[0, 1, 32, 33, 384, 385, u64::MAX]);
            let length = if self.random.chance(1, 12) {
                odd
            } else {
                self.random.among(1, 384)
            };
            let tag = self.random.next() as u32;
            self.calls.push(Call::Arrive {
                bearer,
                length,
                tag,
            });
        }
    }

    fn work(&mut self) {
        let period = self.settings[0];
        let odd = self
            .random
            .pick(&[0, period, period.wrapping_add(1), u64::MAX]);
        let cycles = self.random.pick(&[1, 60, 500, 2_000, period / 4]);
        let cycles = if self.random.chance(1, 8) {
            odd
        } else {
            cycles
        };
        self.calls.push(Call::Work(cycles));
    }

    /// Works to the end of the period, from just before it, or past it first.
    fn close(&mut self) {
        self.left = 0;
        self.calls.push(Call::Work(self.settings[0]));
        self.look();
        let left = self.left;
        match (left, self.random.below(4)) {
            (0, _) => {}
            (_, 0) => self.calls.extend([Call::Work(left + 1), Call::Work(left)]),
            (2.., 1) => self
                .calls
                .extend([Call::Work(left - 1), Call::Step, Call::Work(1)]),
            _ => self.calls.push(Call::Work(left)),
        }
    }

    /// Spends up to `most` receipts, mostly of those that are held.
    fn spend(&mut self, most: u64) {
        self.look();
        for _ in 0..self.random.among(1, most) {
            let odd = self.random.pick(&[0, 1, 7, u32::MAX]);
            let missing = self.out.is_empty() || self.random.chance(1, 12);
            let number = if missing {
                odd
            } else {
                self.random.pick(&self.out)
            };
            self.out.retain(|out| *out != number);
            let discards = self.random.chance(1, 3);
            self.calls.push(if discards {
                Call::Discard(number)
            } else {
                Call::Finish(number)
            });
            if self.out.is_empty() {
                return;
            }
        }
    }

    /// Reads what the reference answers to the calls that were not looked at yet, and says how many
    /// of them at the end are refused.
    fn look(&mut self) -> usize {
        let answers = reference::answers(self.bearers, self.policy, &self.calls);
        let mut refused = 0;
        for line in answers.lines().skip(self.read) {
            refused = if line.starts_with("refused") {
                refused + 1
            } else {
                0
            };
            let words: Vec<&str> = line.split([' ', ':']).collect();
            match words[..] {
                ["configured"] => self.configured = true,
                ["fetched", number, ..] => {
                    self.out.push(number.parse().expect("a packet's number"))
                }
                ["refused", "27", "place", left, ..] => self.left = left.parse().expect("cycles"),
                _ => {}
            }
        }
        self.read = self.calls.len();
        refused
    }
}
