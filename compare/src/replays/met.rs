//! What the replays of a run came to.

use super::Outcome;
use crate::terms::{Refused, Replayed};
use std::collections::BTreeMap;
use std::fmt::{self, Display, Formatter};

/// The fates that a run ought to meet: in no replay is a packet queue-full.
const FATES: [&str; 4] = ["delivered", "bearer-full", "waiting", "pending"];

#[derive(Default)]
pub struct Met {
    captures: u64,
    replayed: u64,
    /// How many captures were refused by each number; of 17, how many memories.
    refused: BTreeMap<u32, u64>,
    /// How many packets had each fate.
    fates: BTreeMap<&'static str, u64>,
}

impl Met {
    /// Notes what came of a capture in ample memory.
    pub fn note(&mut self, outcome: &Outcome) {
        self.captures += 1;
        match outcome {
            Ok(replayed) => {
                self.replayed += 1;
                self.note_fates(replayed);
            }
            Err(refused) => *self.refused.entry(refused.number).or_default() += 1,
        }
    }

    fn note_fates(&mut self, replayed: &Replayed) {
        let Replayed {
            delivered,
            bearer_full,
            waiting,
            pending,
            ..
        } = *replayed;
        for (fate, count) in FATES
            .into_iter()
            .zip([delivered, bearer_full, waiting, pending])
        {
            *self.fates.entry(fate).or_default() += count;
        }
    }

    /// Notes what came of it in memory of other lengths.
    pub fn note_memory(&mut self, outcome: &Outcome) {
        if let Err(Refused { number: 17, .. }) = outcome {
            *self.refused.entry(17).or_default() += 1;
        }
    }

    /// What a run ought to meet and did not.
    pub fn missing(&self) -> Vec<String> {
        let refusals = (9..=17).filter(|number| !self.refused.contains_key(number));
        let fates = FATES
            .iter()
            .filter(|fate| self.fates.get(*fate).is_none_or(|&count| count == 0));
        let refusals = refusals.map(|number| format!("refusal {number} of a capture"));
        refusals
            .chain(fates.map(|fate| format!("a packet {fate}")))
            .collect()
    }
}

/// What was met, for the last line of a run.
impl Display for Met {
    fn fmt(&self, f: &mut Formatter<'_>) -> fmt::Result {
        let Met {
            captures, replayed, ..
        } = self;
        let fates = self
            .fates
            .iter()
            .map(|(fate, count)| format!("{count} {fate}"));
        let fates = fates.collect::<Vec<_>>().join(", ");
        let refused = self
            .refused
            .iter()
            .map(|(number, count)| format!("{number}: {count}"));
        let refused = refused.collect::<Vec<_>>().join(", ");
        write!(
            f,
            "{captures} captures ({replayed} replayed: {fates}; refused by number {refused})"
        )
    }
}

#[cfg(test)]
mod tests {
    #[test]
    fn a_run_of_nothing_lacks_everything() {
        assert_eq!(super::Met::default().missing().len(), 9 + 4);
    }
}
