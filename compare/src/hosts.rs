//! What a host passes with a text of calls, good and strange: a seed gives the same everywhere; and
//! how the calls end on both sides, in memories of several lengths.

mod met;

pub use met::Met;

use crate::lent::Lent;
use crate::random::Random;
use crate::terms::{Ended, PassedBearer, PassedPolicy};
use crate::texts::{self, LONGEST};
use crate::{differences, lists, proved, reference};

/// What a host passes, but for the memory that it lends.
pub struct Passed {
    pub bearers: Vec<PassedBearer>,
    pub policy: PassedPolicy,
    pub text: Vec<u8>,
}

type MakeCalls = fn(&[PassedBearer], PassedPolicy, &[u8], &mut [u8]) -> Ended;

/// What the host of a seed passes: a text that fits the board, and now and then bearers that are
/// none or too many, and kinds of none.
pub fn passed(seed: u64) -> Passed {
    let mut random = Random::new(seed);
    let (bearers, policy) = lists::board(&mut random);
    let calls = lists::calls(&bearers, policy, &mut random);
    let mut passed = Passed {
        bearers: bearers.iter().map(proved::passed).collect(),
        policy: proved::passed_policy(policy),
        text: texts::of_calls(&calls, &mut random),
    };
    if random.chance(1, 4) {
        let count = random.pick(&[0, 0, 9, 9, 10, 300]);
        let first = passed.bearers[0];
        passed.bearers.resize(count, first);
    }
    if random.chance(1, 4) {
        strange_kinds(&mut passed, &mut random);
    }
    passed
}

/// Kinds that are none, of the policy or of a bearer or two.
fn strange_kinds(passed: &mut Passed, random: &mut Random) {
    for _ in 0..random.among(1, 2) {
        let any = random.among(2, 255) as u8;
        let kind = random.pick(&[2, 3, 128, 255, any]);
        let count = passed.bearers.len();
        if count == 0 || random.chance(1, 3) {
            passed.policy.kind = kind;
        } else {
            passed.bearers[random.below(count as u64) as usize].kind = kind;
        }
    }
}

/// Has both sides make the calls, and says what differs. With ample memory first; the further
/// memory is chosen by the seed.
pub fn hold(passed: &Passed, seed: u64, met: &mut Met) -> Result<(), String> {
    let mut random = Random::new(!seed);
    let ample = both(passed, ample(passed), random.next())?;
    met.note(passed, ample);
    let len = match (ample.status, ample.figure as usize) {
        (met::WRITTEN, 0) => 0,
        (met::WRITTEN, need) => random.pick(&[0, need - 1, need, need, need + 1]),
        _ => random.pick(&[0, 1, 100]),
    };
    let again = both(passed, len, random.next())?;
    if again != asked(ample, len) {
        return Err(format!("{ample:?} with ample memory, {again:?} with {len}"));
    }
    met.note_status(again);
    Ok(())
}

/// How the calls end by the reference.
pub fn ended(passed: &Passed) -> Ended {
    let mut memory = vec![0; ample(passed)];
    reference::make_calls(&passed.bearers, passed.policy, &passed.text, &mut memory)
}

/// Room for all answers: none has 200 bytes.
fn ample(passed: &Passed) -> usize {
    if passed.text.len() > LONGEST {
        return 100;
    }
    let lines = passed.text.split(|&byte| byte == b'\n');
    200 * lines
        .filter(|line| texts::first_word(line).is_some())
        .count()
}

/// How the calls have to end in so much memory, by how they ended in ample memory.
fn asked(ample: Ended, len: usize) -> Ended {
    let is_small = ample.status == met::WRITTEN && ample.figure > len as u64;
    Ended {
        status: if is_small {
            met::TOO_SMALL
        } else {
            ample.status
        },
        ..ample
    }
}

fn both(passed: &Passed, len: usize, seed: u64) -> Result<Ended, String> {
    let made = |name: &str, make: MakeCalls| {
        let mut lent = Lent::new(len, seed);
        let Passed {
            bearers,
            policy,
            text,
        } = passed;
        let ended = make(bearers, *policy, text, lent.memory());
        let written = match ended.status {
            met::WRITTEN => ended.figure as usize,
            _ => 0,
        };
        if written > len {
            return Err(format!("{name}: {written} bytes in a memory of {len}"));
        }
        match lent.touched(written) {
            None => Ok((ended, lent)),
            Some(place) => Err(format!(
                "{name}: byte {place} of the memory changed, beside {written} of answers"
            )),
        }
    };
    let (proved, memory) = made("proved", proved::make_calls)?;
    let (reference, other) = made("reference", reference::make_calls)?;
    if proved != reference {
        return Err(format!("proved {proved:?}, reference {reference:?}"));
    }
    match differences::line("answers", "proved", memory.held(), other.held()) {
        Some(differs) => Err(differs),
        None => Ok(proved),
    }
}
