//! How the calls of a run's hosts ended, and what was wrong with what they passed.

use super::Passed;
use crate::reference;
use crate::terms::{Ended, PassedBearer, PassedPolicy};
use crate::texts::{self, LONGEST};
use std::collections::{BTreeMap, BTreeSet};
use std::fmt::{self, Display, Formatter};

pub const WRITTEN: u32 = 0;
pub const TOO_SMALL: u32 = 2;
const UNREAD: u32 = 3;
const TOO_LONG: u32 = 4;
const BEARERS: u32 = 5;
const NO_KIND: u32 = 7;

/// The statuses that a run ought to meet: without a replay there is no 1, and with memory no 6.
const STATUSES: [u32; 6] = [WRITTEN, TOO_SMALL, UNREAD, TOO_LONG, BEARERS, NO_KIND];

/// The statuses by which calls are not made, in the order in which they are checked.
const CHECKED: [u32; 4] = [BEARERS, NO_KIND, TOO_LONG, UNREAD];

// What else a run ought to meet.
const NO_BEARER: &str = "a board of no bearer";
const NINE: &str = "a board of nine bearers";
const BEARER_KIND: &str = "a bearer whose kind is none";
const POLICY_KIND: &str = "a policy whose kind is none";
const BEARER_BEFORE: &str = "a line `bearer` before the first call";
const BEARER_BEHIND: &str = "a line `bearer` behind a call";
const POLICY_BEFORE: &str = "a line `policy` before the first call";
const POLICY_BEHIND: &str = "a line `policy` behind a call";
const OTHER_LINE: &str = "another line that cannot be read";
const OTHERS: [&str; 9] = [
    NO_BEARER,
    NINE,
    BEARER_KIND,
    POLICY_KIND,
    BEARER_BEFORE,
    BEARER_BEHIND,
    POLICY_BEFORE,
    POLICY_BEHIND,
    OTHER_LINE,
];

#[derive(Default)]
pub struct Met {
    hosts: u64,
    statuses: BTreeMap<u32, u64>,
    things: BTreeSet<String>,
}

fn both(status: u32, other: u32) -> String {
    format!("status {status} where {other} would follow")
}

impl Met {
    /// Notes how the calls ended in ample memory.
    pub fn note(&mut self, passed: &Passed, ended: Ended) {
        self.hosts += 1;
        self.note_status(ended);
        match ended.status {
            UNREAD => self.note_line(&passed.text, ended.figure as usize),
            BEARERS if passed.bearers.is_empty() => self.meet(NO_BEARER),
            BEARERS if passed.bearers.len() == 9 => self.meet(NINE),
            NO_KIND if passed.policy.kind < 2 => self.meet(BEARER_KIND),
            NO_KIND if passed.bearers.iter().all(|bearer| bearer.kind < 2) => {
                self.meet(POLICY_KIND);
            }
            _ => {}
        }
        if let Some(place) = CHECKED.iter().position(|&status| status == ended.status) {
            for &other in &CHECKED[place + 1..] {
                if is_wrong(passed, other) {
                    self.meet(both(ended.status, other));
                }
            }
        }
    }

    /// Notes how they ended in memory of another length.
    pub fn note_status(&mut self, ended: Ended) {
        *self.statuses.entry(ended.status).or_default() += 1;
    }

    fn meet(&mut self, thing: impl Into<String>) {
        self.things.insert(thing.into());
    }

    fn note_line(&mut self, text: &[u8], number: usize) {
        let lines = text.split(|&byte| byte == b'\n').take(number);
        let words: Vec<_> = lines.map(texts::first_word).collect();
        let word = words[number - 1];
        let is_first = words.iter().flatten().count() == 1;
        self.meet(match (word, is_first) {
            (Some(b"bearer"), true) => BEARER_BEFORE,
            (Some(b"bearer"), false) => BEARER_BEHIND,
            (Some(b"policy"), true) => POLICY_BEFORE,
            (Some(b"policy"), false) => POLICY_BEHIND,
            _ => OTHER_LINE,
        });
    }

    /// What a run ought to meet and did not.
    pub fn missing(&self) -> Vec<String> {
        let statuses = STATUSES
            .iter()
            .filter(|status| !self.statuses.contains_key(status));
        let statuses = statuses.map(|status| format!("status {status} of calls"));
        let pairs = CHECKED.iter().enumerate().flat_map(|(place, &status)| {
            let others = CHECKED[place + 1..].iter();
            others.map(move |&other| both(status, other))
        });
        let things = pairs.chain(OTHERS.map(String::from));
        let things = things.filter(|thing| !self.things.contains(thing));
        statuses.chain(things).collect()
    }
}

/// Whether this status is due, if none that is checked before it is.
fn is_wrong(passed: &Passed, status: u32) -> bool {
    match status {
        BEARERS => !(1..=8).contains(&passed.bearers.len()),
        NO_KIND => {
            let strange = |bearer: &PassedBearer| bearer.kind > 1;
            passed.policy.kind > 1 || passed.bearers.iter().any(strange)
        }
        TOO_LONG => passed.text.len() > LONGEST,
        _ => {
            let bearer = PassedBearer {
                depth: 0,
                kind: 0,
                occupied: false,
            };
            let policy = PassedPolicy { figure: 0, kind: 0 };
            let text = &passed.text[..passed.text.len().min(LONGEST)];
            reference::make_calls(&[bearer], policy, text, &mut []).status == UNREAD
        }
    }
}

/// What was met, for the last line of a run.
impl Display for Met {
    fn fmt(&self, f: &mut Formatter<'_>) -> fmt::Result {
        let statuses: Vec<String> = self
            .statuses
            .iter()
            .map(|(status, count)| format!("{status}: {count}"))
            .collect();
        let statuses = statuses.join(", ");
        write!(f, "{} hosts (ended by status {statuses})", self.hosts)
    }
}

#[cfg(test)]
mod tests {
    use super::*;

    #[test]
    fn a_run_of_nothing_lacks_everything() {
        assert_eq!(
            Met::default().missing().len(),
            STATUSES.len() + 6 + OTHERS.len()
        );
    }
}
