//! Random texts of calls, good and damaged: a seed gives the same text everywhere.

mod damage;
mod dress;
mod heads;

use crate::lists;
use crate::random::Random;
use crate::terms::{Bearer, Call, Policy};

/// The greatest number of bytes that a text has.
pub const LONGEST: usize = 1_048_576;

type Word = Vec<u8>;
type Line = Vec<Word>;

/// A text for the program `calls`.
pub struct Text {
    pub bytes: Vec<u8>,
    /// What it says, if no damage was done to it.
    pub said: Option<Said>,
}

/// What a text says; its policy, if it says one, behind so many lines of bearers.
pub struct Said {
    pub bearers: Vec<Bearer>,
    pub policy: Option<(Policy, usize)>,
    pub calls: Vec<Call>,
}

/// The text of a seed. Three of five texts are damaged, and a few are about as long as they may be.
pub fn text(seed: u64) -> Text {
    let mut random = Random::new(seed);
    let (bearers, policy) = heads::head(&mut random);
    let mut lines = heads::lines(&bearers, policy);
    let calls = calls_on(&bearers, policy, &mut random);
    lines.extend(calls.iter().map(words));
    let is_damaged = random.chance(3, 5);
    if is_damaged {
        damage::damage(&mut lines, &mut random);
    }
    let said = Said {
        bearers,
        policy,
        calls,
    };
    Text {
        bytes: written(&lines, &mut random),
        said: (!is_damaged).then_some(said),
    }
}

/// These calls as a text of calls alone. Two of five are damaged, also by lines that say a board or
/// a policy.
pub fn of_calls(calls: &[Call], random: &mut Random) -> Vec<u8> {
    let mut lines = calls.iter().map(words).collect();
    if random.chance(2, 5) {
        damage::damage(&mut lines, random);
    }
    written(&lines, random)
}

/// Calls on the board and the policy that are said, or on the standard receiver's.
fn calls_on(bearers: &[Bearer], policy: Option<(Policy, usize)>, random: &mut Random) -> Vec<Call> {
    let (board, fixed) = lists::standard();
    let bearers = if bearers.is_empty() { &board } else { bearers };
    let policy = policy.map_or(fixed, |(policy, _)| policy);
    if random.chance(1, 3) {
        lists::calls(bearers, policy, random)
    } else {
        lists::probe(bearers, policy, random)
    }
}

fn words(call: &Call) -> Line {
    let words = call.to_string();
    words.split(' ').map(|word| word.into()).collect()
}

/// The lines as bytes. One text of 20 is made as long as it may be, or longer.
fn written(lines: &[Line], random: &mut Random) -> Vec<u8> {
    let mut bytes = dress::dressed(lines, random);
    if random.chance(1, 20) {
        let more = random.pick(&[0, 0, 0, 1, 1, 500_000]);
        stretch(&mut bytes, LONGEST + more, random);
    }
    bytes
}

/// Makes a text so long without another word: by one line in front of it or behind, or by many.
fn stretch(bytes: &mut Vec<u8>, len: usize, random: &mut Random) {
    let missing = len.saturating_sub(bytes.len());
    let mut filling = vec![random.pick(b" \n#"); missing];
    if random.chance(1, 2) {
        filling[..missing.min(1)].fill(b'\n');
        bytes.extend(filling);
    } else {
        filling[missing.saturating_sub(1)..].fill(b'\n');
        bytes.splice(0..0, filling);
    }
}

/// The first word of a line, if it has words.
pub fn first_word(line: &[u8]) -> Option<&[u8]> {
    let words = line.split(|&byte| byte == b'#').next()?;
    let mut words = words.split(|byte| b" \t\r\n".contains(byte));
    words.find(|word| !word.is_empty())
}

#[cfg(test)]
mod tests {
    use super::*;
    use crate::reference;

    #[test]
    fn a_text_that_is_not_damaged_is_read() {
        let (mut answered, mut long) = (0, 0);
        for seed in 0..300 {
            let Text { bytes, said } = text(seed);
            match (said, reference::printed(&bytes)) {
                (None, _) => {}
                (Some(said), Ok(answers)) => {
                    assert_eq!(answers.lines().count(), said.calls.len(), "{seed}");
                    answered += 1;
                }
                (Some(_), Err(line)) => {
                    assert_eq!(line, "the text is above 1048576 bytes\n", "{seed}");
                    assert!(bytes.len() > LONGEST);
                    long += 1;
                }
            }
        }
        assert!(answered > 50 && long > 0);
    }

    #[test]
    fn a_stretched_text_says_the_same() {
        for seed in 0..20 {
            let mut bytes = b"step\r\n# here\ntell\r".to_vec();
            stretch(&mut bytes, 100, &mut Random::new(seed));
            assert_eq!(bytes.len(), 100);
            let words: Vec<_> = bytes
                .split(|&byte| byte == b'\n')
                .filter_map(first_word)
                .collect();
            assert_eq!(words, [b"step", b"tell"]);
        }
    }
}
