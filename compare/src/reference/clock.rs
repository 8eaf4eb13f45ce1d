//! The open period, and the hold, which is counted in periods.

/// What a closed period left to the application, and the rest of it.
#[derive(Clone, Copy, PartialEq, Eq, Debug)]
pub struct Period {
    pub offered: u64,
    pub network: u64,
}

#[derive(Default)]
pub struct Clock {
    /// Cycles elapsed in the open period.
    pub elapsed: u64,
    /// Cycles that bearers used in it.
    pub used: u64,
    /// Cycles offered to the application in it.
    pub offered: u64,
    pub closed: u64,
    /// The record of the period closed last.
    pub last: Option<Period>,
    pub hold: u64,
}

impl Clock {
    /// Charges cycles to the bearers.
    pub fn charge(&mut self, cycles: u64, period: u64) {
        self.elapsed += cycles;
        self.used += cycles;
        self.close_if_over(period);
    }

    /// Offers cycles to the application.
    pub fn work(&mut self, cycles: u64, period: u64) {
        self.elapsed += cycles;
        self.offered += cycles;
        self.close_if_over(period);
    }

    fn close_if_over(&mut self, period: u64) {
        if self.elapsed < period {
            return;
        }
        self.last = Some(Period {
            offered: self.offered,
            network: period - self.offered,
        });
        self.closed += 1;
        self.elapsed -= period;
        self.used = self.elapsed;
        self.offered = 0;
        self.hold = self.hold.saturating_sub(1);
    }
}
