//! A list of calls answered by both sides, and what the lists of a run came to.

use crate::terms::{Bearer, Call, Policy};
use crate::{proved, reference};
use std::collections::BTreeMap;
use std::fmt::{self, Display, Formatter};

/// The refusals that lists of calls can meet in reasonable time: 23 needs a billion packets or
/// periods, and 30 a receipt of another receiver.
const REFUSALS: [u32; 14] = [1, 2, 4, 5, 6, 20, 21, 22, 24, 25, 26, 27, 28, 29];

/// The other answers that a run ought to meet, without their numbers.
const ANSWERS: [&str; 16] = [
    "configured",
    "arrived accepted",
    "arrived dropped bearer-full",
    "begun quota",
    "empty",
    "taken queued",
    "taken dropped queue-full",
    "rescheduled",
    "completed",
    "worked",
    "fetched length tag",
    "finished",
    "discarded",
    "no receipt",
    "told numbered delivered bearer-full queue-full discarded closed",
    "told numbered delivered bearer-full queue-full discarded closed offered network",
];

/// What was met in the lists of a run.
#[derive(Default)]
pub struct Met {
    lists: u64,
    calls: u64,
    refused: BTreeMap<u32, u64>,
    answers: BTreeMap<String, u64>,
}

/// Makes the calls on both sides, and says what differs.
pub fn hold(
    bearers: &[Bearer],
    policy: Policy,
    calls: &[Call],
    met: &mut Met,
) -> Result<(), String> {
    let proved = proved::answers(bearers, policy, &text(calls));
    let reference = reference::answers(bearers, policy, calls);
    let mut lines = proved.split_inclusive('\n');
    let mut others = reference.split_inclusive('\n');
    for (place, call) in calls.iter().enumerate() {
        match (lines.next(), others.next()) {
            (Some(line), Some(other)) if line == other => met.note(line.trim_end()),
            (line, other) => {
                let sides = format!("proved {line:?}, reference {other:?}");
                return Err(format!("call {place}, `{call}`: {sides}"));
            }
        }
    }
    match (lines.next(), others.next()) {
        (None, None) => met.lists += 1,
        (line, other) => return Err(format!("no call: proved {line:?}, reference {other:?}")),
    }
    Ok(())
}

/// The calls as a text, a line for each.
pub fn text(calls: &[Call]) -> String {
    calls.iter().map(|call| format!("{call}\n")).collect()
}

impl Met {
    fn note(&mut self, line: &str) {
        self.calls += 1;
        if let Some(refusal) = line.strip_prefix("refused ") {
            let number = refusal
                .split(' ')
                .next()
                .and_then(|number| number.parse().ok());
            *self.refused.entry(number.unwrap_or_default()).or_default() += 1;
            return;
        }
        let is_word = |word: &&str| !word.starts_with(|first: char| first.is_ascii_digit());
        let words: Vec<&str> = line.split(' ').filter(is_word).collect();
        *self.answers.entry(words.join(" ")).or_default() += 1;
    }

    /// What a run ought to meet and did not.
    pub fn missing(&self) -> Vec<String> {
        let refusals = REFUSALS
            .iter()
            .filter(|&number| !self.refused.contains_key(number));
        let answers = ANSWERS
            .iter()
            .filter(|&&answer| !self.answers.contains_key(answer));
        let refusals = refusals.map(|number| format!("refusal {number} of a call"));
        refusals
            .chain(answers.map(|answer| format!("the answer `{answer}`")))
            .collect()
    }
}

/// What was met, for the last line of a run.
impl Display for Met {
    fn fmt(&self, f: &mut Formatter<'_>) -> fmt::Result {
        let refused: Vec<String> = self
            .refused
            .iter()
            .map(|(number, count)| format!("{number}: {count}"))
            .collect();
        let refused = refused.join(", ");
        write!(
            f,
            "{} lists ({} calls; refused by number {refused})",
            self.lists, self.calls
        )
    }
}

#[cfg(test)]
mod tests {
    use super::*;

    #[test]
    fn a_run_of_nothing_lacks_everything() {
        assert_eq!(
            Met::default().missing().len(),
            REFUSALS.len() + ANSWERS.len()
        );
    }
}
