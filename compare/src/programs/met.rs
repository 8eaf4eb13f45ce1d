//! What the texts of a run said, and what became of them.

use crate::terms::{Call, Kind, Policy};
use crate::texts::{self, Said, Text};
use std::collections::BTreeSet;
use std::fmt::{self, Display, Formatter};

/// The faults that a run ought to meet, by what their line begins with.
const FAULTS: [(&str, &str); 20] = [
    (OTHER, "no call has this name"),
    (OTHER, "the count of numbers is not 0"),
    (OTHER, "the count of numbers is not 1"),
    (OTHER, "the count of numbers is not 3"),
    (OTHER, "the count of numbers is not 6"),
    (OTHER, "a number is not digits alone"),
    (OTHER, "a number is too large"),
    ("bearer", "a call stands before this line"),
    ("bearer", "no kind of bearer has this name"),
    ("bearer", "the count of numbers is not 1"),
    ("bearer", "a number is not digits alone"),
    ("bearer", "a number is too large"),
    ("bearer", "a board shows no more than eight bearers"),
    ("policy", "a call stands before this line"),
    ("policy", "no kind of policy has this name"),
    ("policy", "the count of numbers is not 0"),
    ("policy", "the count of numbers is not 1"),
    ("policy", "a number is not digits alone"),
    ("policy", "a number is too large"),
    ("policy", "the policy is said already"),
];
const OTHER: &str = "another word";

/// Depths and figures on either side of where they are cut.
const DEPTHS: [u64; 6] = [0, 16, 17, 256, 257, u64::MAX];
const FIGURES: [u64; 5] = [0, 1, 16, 17, u64::MAX];

// What else a run ought to meet.
const TOO_LONG: &str = "a text that is too long";
const LONGEST: &str = "an answered text that is as long as may be";
const COMMENT: &str = "a comment before the first call";
const TAB: &str = "a tab before the first call";
const RETURN: &str = "a carriage return before the first call";
const EMPTY_LINE: &str = "an empty line before the first call";
const EIGHTH: &str = "an arrival on the eighth bearer";
const NO_BEARER: &str = "a grant where no bearer is said";
const NO_POLICY: &str = "a grant where no policy is said";
const ALONE: &str = "a grant where the policy alone is said";
const BEFORE: &str = "a grant where the policy is said before the bearers";
const AMONG: &str = "a grant where the policy is said among the bearers";
const BEHIND: &str = "a grant where the policy is said behind the bearers";
const GREATEST: &str = "a quota of 8 by the backlog policy";
const SMALLER: &str = "a smaller quota by the backlog policy";
const OTHERS: [&str; 15] = [
    TOO_LONG, LONGEST, COMMENT, TAB, RETURN, EMPTY_LINE, EIGHTH, NO_BEARER, NO_POLICY, ALONE,
    BEFORE, AMONG, BEHIND, GREATEST, SMALLER,
];

#[derive(Default)]
pub struct Met {
    texts: u64,
    answered: u64,
    things: BTreeSet<String>,
}

fn fault(begins: &str, words: &str) -> String {
    format!("`{words}` of a line that begins with {begins}")
}

fn full(kind: Kind, depth: u64) -> String {
    format!("a full {kind:?} bearer with a depth of {depth} asked for")
}

fn fixed(figure: u64) -> String {
    format!("a quota by the fixed policy of {figure}")
}

impl Met {
    /// Notes what is printed of a text: answers, or else a line on standard error.
    pub fn note(&mut self, text: &Text, printed: &Result<String, String>) {
        self.texts += 1;
        let answers = match printed {
            Ok(answers) => answers,
            Err(line) => return self.note_unread(&text.bytes, line),
        };
        self.answered += 1;
        if text.bytes.len() == texts::LONGEST {
            self.meet(LONGEST);
        }
        if let Some(said) = &text.said {
            self.note_head(&text.bytes);
            self.note_answers(said, answers);
        }
    }

    fn meet(&mut self, thing: impl Into<String>) {
        self.things.insert(thing.into());
    }

    fn note_unread(&mut self, text: &[u8], error: &str) {
        let unread = error.trim_end().strip_prefix("unread ");
        let Some((number, words)) = unread.and_then(|unread| unread.split_once(": ")) else {
            self.meet(TOO_LONG);
            return;
        };
        let number: usize = number.parse().expect("lines have numbers");
        let mut lines = text.split(|&byte| byte == b'\n');
        let begins = match lines.nth(number - 1).and_then(texts::first_word) {
            Some(b"bearer") => "bearer",
            Some(b"policy") => "policy",
            _ => OTHER,
        };
        self.meet(fault(begins, words));
    }

    fn note_head(&mut self, text: &[u8]) {
        let lines = text.split_inclusive(|&byte| byte == b'\n');
        let head = lines.take_while(|line| {
            let word = texts::first_word(line);
            word.is_none_or(|word| [&b"bearer"[..], b"policy"].contains(&word))
        });
        for line in head {
            for (thing, is_there) in [
                (COMMENT, line.contains(&b'#')),
                (TAB, line.contains(&b'\t')),
                (RETURN, line.ends_with(b"\r\n")),
                (EMPTY_LINE, line == b"\n"),
            ] {
                if is_there {
                    self.meet(thing);
                }
            }
        }
    }

    fn note_answers(&mut self, said: &Said, answers: &str) {
        for (call, answer) in said.calls.iter().zip(answers.lines()) {
            match *call {
                Call::Arrive { bearer, .. } if answer.starts_with("arrived") => {
                    if bearer == 7 {
                        self.meet(EIGHTH);
                    }
                    let bearer = said.bearers.get(bearer as usize);
                    let is_full = answer.ends_with("bearer-full");
                    if let Some(bearer) = bearer.filter(|_| is_full) {
                        self.meet(full(bearer.kind, bearer.depth));
                    }
                }
                Call::Step if answer.starts_with("begun") => self.note_grant(said, answer),
                _ => {}
            }
        }
    }

    fn note_grant(&mut self, said: &Said, begun: &str) {
        let count = said.bearers.len();
        if count == 0 {
            self.meet(NO_BEARER);
        }
        let Some((policy, place)) = said.policy else {
            self.meet(NO_POLICY);
            return;
        };
        self.meet(match place {
            _ if count == 0 => ALONE,
            0 => BEFORE,
            _ if place == count => BEHIND,
            _ => AMONG,
        });
        match policy {
            Policy::Fixed(figure) => self.meet(fixed(figure)),
            Policy::Backlog if begun.ends_with("quota 8") => self.meet(GREATEST),
            Policy::Backlog => self.meet(SMALLER),
        }
    }

    /// What a run ought to meet and did not.
    pub fn missing(&self) -> Vec<String> {
        let kinds = [Kind::Ring, Kind::Mailbox].into_iter();
        let bearers = kinds.flat_map(|kind| DEPTHS.map(|depth| full(kind, depth)));
        let faults = FAULTS.map(|(begins, words)| fault(begins, words));
        bearers
            .chain(FIGURES.map(fixed))
            .chain(faults)
            .chain(OTHERS.map(String::from))
            .filter(|thing| !self.things.contains(thing))
            .collect()
    }
}

/// What was met, for the last line of a run.
impl Display for Met {
    fn fmt(&self, f: &mut Formatter<'_>) -> fmt::Result {
        let Met {
            texts, answered, ..
        } = self;
        let unread = texts - answered;
        write!(
            f,
            "{texts} texts by the program calls ({answered} answered, {unread} not read)"
        )
    }
}

#[cfg(test)]
mod tests {
    use super::*;

    #[test]
    fn a_run_of_nothing_lacks_everything() {
        let count = 2 * DEPTHS.len() + FIGURES.len() + FAULTS.len() + OTHERS.len();
        assert_eq!(Met::default().missing().len(), count);
    }
}
