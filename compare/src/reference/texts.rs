//! Texts of calls, and of the board and the policy that the calls are made on.

use super::boards::MOST_BEARERS;
use super::lines::{lines, Word};
use super::standard;
use super::unread::{Fault, Unread};
use crate::terms::{Bearer, Call, Kind, Policy};
use std::str::{self, FromStr};

/// The greatest number of bytes that a text has.
pub const LONGEST: usize = 1_048_576;

/// What a text says.
#[derive(Default)]
struct Said {
    bearers: Vec<Bearer>,
    policy: Option<Policy>,
    calls: Vec<Call>,
}

/// Reads a text that may say its board and its policy: both are the standard receiver's where it
/// does not.
pub fn read(text: &[u8]) -> Result<(Vec<Bearer>, Policy, Vec<Call>), Unread> {
    let mut said = Said::default();
    for (line, words) in lines(text) {
        said.read(&words).map_err(|fault| Unread { line, fault })?;
    }
    if said.bearers.is_empty() {
        said.bearers = standard::BEARERS.to_vec();
    }
    let policy = said.policy.unwrap_or(standard::POLICY);
    Ok((said.bearers, policy, said.calls))
}

/// Reads a text of calls alone.
pub fn read_calls(text: &[u8]) -> Result<Vec<Call>, Unread> {
    let mut calls = Vec::new();
    for (line, words) in lines(text) {
        if let Some((name, numbers)) = words.split_first() {
            let call = call(name, numbers).map_err(|fault| Unread { line, fault })?;
            calls.push(call);
        }
    }
    Ok(calls)
}

impl Said {
    fn read(&mut self, words: &[Word]) -> Result<(), Fault> {
        match *words {
            [] => {}
            [b"bearer", ref said @ ..] => self.say_bearer(said)?,
            [b"policy", ref said @ ..] => self.say_policy(said)?,
            [name, ref numbers @ ..] => self.calls.push(call(name, numbers)?),
        }
        Ok(())
    }

    fn say_bearer(&mut self, said: &[Word]) -> Result<(), Fault> {
        self.before_calls()?;
        let bearer = bearer(said)?;
        if self.bearers.len() == MOST_BEARERS {
            return Err(Fault::NinthBearer);
        }
        self.bearers.push(bearer);
        Ok(())
    }

    fn say_policy(&mut self, said: &[Word]) -> Result<(), Fault> {
        self.before_calls()?;
        let policy = policy(said)?;
        if self.policy.is_some() {
            return Err(Fault::SecondPolicy);
        }
        self.policy = Some(policy);
        Ok(())
    }

    fn before_calls(&self) -> Result<(), Fault> {
        if self.calls.is_empty() {
            Ok(())
        } else {
            Err(Fault::BehindACall)
        }
    }
}

fn bearer(said: &[Word]) -> Result<Bearer, Fault> {
    let (kind, numbers) = match *said {
        [b"ring", ref numbers @ ..] => (Kind::Ring, numbers),
        [b"mailbox", ref numbers @ ..] => (Kind::Mailbox, numbers),
        _ => return Err(Fault::NoKindOfBearer),
    };
    let [depth] = exactly(numbers)?;
    Ok(Bearer {
        kind,
        depth: number(depth)?,
        occupied: false,
    })
}

fn policy(said: &[Word]) -> Result<Policy, Fault> {
    match *said {
        [b"fixed", ref numbers @ ..] => {
            let [figure] = exactly(numbers)?;
            Ok(Policy::Fixed(number(figure)?))
        }
        [b"backlog", ref numbers @ ..] => {
            let [] = exactly(numbers)?;
            Ok(Policy::Backlog)
        }
        _ => Err(Fault::NoKindOfPolicy),
    }
}

fn call(name: Word, numbers: &[Word]) -> Result<Call, Fault> {
    Ok(match name {
        b"configure" => {
            let words = exactly::<6>(numbers)?;
            let mut settings = [0; 6];
            for (setting, word) in settings.iter_mut().zip(words) {
                *setting = number(word)?;
            }
            Call::Configure(settings)
        }
        b"arrive" => {
            let [bearer, length, tag] = exactly(numbers)?;
            Call::Arrive {
                bearer: number(bearer)?,
                length: number(length)?,
                tag: number(tag)?,
            }
        }
        b"step" => {
            let [] = exactly(numbers)?;
            Call::Step
        }
        b"work" => {
            let [cycles] = exactly(numbers)?;
            Call::Work(number(cycles)?)
        }
        b"fetch" => {
            let [] = exactly(numbers)?;
            Call::Fetch
        }
        b"finish" => {
            let [receipt] = exactly(numbers)?;
            Call::Finish(number(receipt)?)
        }
        b"discard" => {
            let [receipt] = exactly(numbers)?;
            Call::Discard(number(receipt)?)
        }
        b"tell" => {
            let [] = exactly(numbers)?;
            Call::Tell
        }
        _ => return Err(Fault::NoCall),
    })
}

fn exactly<'a, const N: usize>(words: &[Word<'a>]) -> Result<[Word<'a>; N], Fault> {
    words.try_into().map_err(|_| Fault::Count(N))
}

/// The number of a word of digits, in as many bits as the number's type has.
fn number<T: FromStr>(word: Word) -> Result<T, Fault> {
    let digits = str::from_utf8(word)
        .ok()
        .filter(|word| word.bytes().all(|byte| byte.is_ascii_digit()))
        .ok_or(Fault::NotDigits)?;
    digits.parse().map_err(|_| Fault::TooLarge)
}

#[cfg(test)]
mod tests {
    use super::*;

    const fn of(kind: Kind, depth: u64) -> Bearer {
        Bearer {
            kind,
            depth,
            occupied: false,
        }
    }

    /// What is printed of the first line that cannot be read.
    fn unread(text: &[u8]) -> String {
        match read(text) {
            Ok(_) => panic!("{:?} is read", text.escape_ascii()),
            Err(unread) => unread.to_string(),
        }
    }

    fn fault(line: &[u8]) -> Fault {
        match read(line) {
            Ok(_) => panic!("{:?} is read", line.escape_ascii()),
            Err(unread) => {
                assert_eq!(unread.line, 1);
                unread.fault
            }
        }
    }

    #[test]
    fn calls_are_read_as_they_are_written() {
        let calls = [
            Call::Configure([u64::MAX, 2, 3, 4, 5, 6]),
            Call::Arrive {
                bearer: u64::MAX,
                length: u64::MAX,
                tag: u32::MAX,
            },
            Call::Step,
            Call::Work(u64::MAX),
            Call::Fetch,
            Call::Finish(u32::MAX),
            Call::Discard(0),
            Call::Tell,
        ];
        let text: String = calls.iter().map(|call| format!("{call}\n")).collect();
        assert_eq!(read_calls(text.as_bytes()), Ok(calls.to_vec()));
        let (bearers, policy, read) = read(text.as_bytes()).unwrap();
        assert_eq!(
            bearers,
            [of(Kind::Ring, 8), of(Kind::Mailbox, 4), of(Kind::Ring, 16)]
        );
        assert_eq!((policy, &read[..]), (Policy::Fixed(4), &calls[..]));
    }

    #[test]
    fn the_board_and_the_policy_are_said_before_the_first_call() {
        let text = b"\n bearer ring 8 # shallow\r\npolicy\tbacklog\n\nbearer mailbox 0\nstep\n";
        let (bearers, policy, calls) = read(text).unwrap();
        assert_eq!(bearers, [of(Kind::Ring, 8), of(Kind::Mailbox, 0)]);
        assert_eq!((policy, &calls[..]), (Policy::Backlog, &[Call::Step][..]));
    }

    #[test]
    fn one_may_be_said_without_the_other() {
        let (bearers, policy, _) = read(b"policy fixed 18446744073709551615").unwrap();
        assert_eq!((bearers.len(), policy), (3, Policy::Fixed(u64::MAX)));
        let (bearers, policy, _) = read(b"bearer ring 18446744073709551615").unwrap();
        assert_eq!(bearers, [of(Kind::Ring, u64::MAX)]);
        assert_eq!(policy, Policy::Fixed(4));
    }

    #[test]
    fn each_fault_has_its_words() {
        for (text, printed) in [
            ("\n\nsteps", "unread 3: no call has this name"),
            (
                "step\nbearer ring 8",
                "unread 2: a call stands before this line",
            ),
            (
                "step\n\npolicy backlog",
                "unread 3: a call stands before this line",
            ),
            ("bearer tube 8", "unread 1: no kind of bearer has this name"),
            ("bearer", "unread 1: no kind of bearer has this name"),
            ("policy tube 8", "unread 1: no kind of policy has this name"),
            ("policy", "unread 1: no kind of policy has this name"),
            (
                "configure 1 2 3 4 5",
                "unread 1: the count of numbers is not 6",
            ),
            ("arrive 1 2 3 4", "unread 1: the count of numbers is not 3"),
            ("bearer ring", "unread 1: the count of numbers is not 1"),
            (
                "bearer mailbox 1 2",
                "unread 1: the count of numbers is not 1",
            ),
            ("policy fixed", "unread 1: the count of numbers is not 1"),
            (
                "policy backlog 4",
                "unread 1: the count of numbers is not 0",
            ),
            ("bearer ring +8", "unread 1: a number is not digits alone"),
            ("policy fixed 4.0", "unread 1: a number is not digits alone"),
            ("finish 0x1", "unread 1: a number is not digits alone"),
            (
                "work 18446744073709551616",
                "unread 1: a number is too large",
            ),
            ("discard 4294967296", "unread 1: a number is too large"),
            ("arrive 0 0 4294967296", "unread 1: a number is too large"),
            (
                "bearer ring 18446744073709551616",
                "unread 1: a number is too large",
            ),
            (
                "policy fixed 18446744073709551616",
                "unread 1: a number is too large",
            ),
            (
                "bearer ring 1\nbearer ring 2\nbearer ring 3\nbearer ring 4\nbearer ring 5\n\
                 bearer ring 6\nbearer ring 7\nbearer ring 8\nbearer ring 9",
                "unread 9: a board shows no more than eight bearers",
            ),
            (
                "policy backlog\nbearer ring 8\npolicy backlog",
                "unread 3: the policy is said already",
            ),
        ] {
            assert_eq!(unread(text.as_bytes()), printed);
        }
    }

    #[test]
    fn what_is_looked_at_first_is_told() {
        for (text, printed) in [
            (
                "step\nbearer tube",
                "unread 2: a call stands before this line",
            ),
            (
                "step\npolicy fixed x y",
                "unread 2: a call stands before this line",
            ),
            (
                "bearer tube x y",
                "unread 1: no kind of bearer has this name",
            ),
            ("policy ring 4", "unread 1: no kind of policy has this name"),
            ("bearer fixed", "unread 1: no kind of bearer has this name"),
            ("bearer ring x y", "unread 1: the count of numbers is not 1"),
            (
                "policy backlog x",
                "unread 1: the count of numbers is not 0",
            ),
            ("work x y", "unread 1: the count of numbers is not 1"),
            (
                "arrive x 99999999999999999999 0",
                "unread 1: a number is not digits alone",
            ),
            (
                "arrive 99999999999999999999 x 0",
                "unread 1: a number is too large",
            ),
            (
                "work 99999999999999999999x",
                "unread 1: a number is not digits alone",
            ),
            (
                "policy backlog\npolicy tube",
                "unread 2: no kind of policy has this name",
            ),
            (
                "policy backlog\npolicy backlog 1",
                "unread 2: the count of numbers is not 0",
            ),
            (
                "policy backlog\npolicy fixed -1",
                "unread 2: a number is not digits alone",
            ),
            (
                "policy backlog\nstep\npolicy backlog",
                "unread 3: a call stands before this line",
            ),
            ("step now\nsteps", "unread 1: the count of numbers is not 0"),
        ] {
            assert_eq!(unread(text.as_bytes()), printed);
        }
        let nine = |line: &str| ["bearer mailbox 4\n".repeat(8).as_str(), line].concat();
        for (line, printed) in [
            (
                "bearer mailbox 4",
                "unread 9: a board shows no more than eight bearers",
            ),
            ("bearer mail 4", "unread 9: no kind of bearer has this name"),
            ("bearer mailbox", "unread 9: the count of numbers is not 1"),
            (
                "bearer mailbox 18446744073709551616",
                "unread 9: a number is too large",
            ),
        ] {
            assert_eq!(unread(nine(line).as_bytes()), printed);
        }
    }

    #[test]
    fn names_are_in_lower_case_and_whole() {
        for name in [
            "Step",
            "ste",
            "Bearer ring 8",
            "bearers ring 8",
            "ring 8",
            "8",
        ] {
            assert_eq!(fault(name.as_bytes()), Fault::NoCall);
        }
        assert_eq!(fault(b"bearer Ring 8"), Fault::NoKindOfBearer);
        assert_eq!(fault(b"policy fixed4"), Fault::NoKindOfPolicy);
        assert_eq!(fault(b"step\xff"), Fault::NoCall);
    }

    #[test]
    fn leading_zeros_are_allowed() {
        let (bearers, ..) = read(b"bearer ring 000000000000000000000000000008").unwrap();
        assert_eq!(bearers, [of(Kind::Ring, 8)]);
        let finish = read_calls(b"finish 00000000004294967295");
        assert_eq!(finish, Ok(vec![Call::Finish(u32::MAX)]));
        assert_eq!(fault(b"finish 00000000004294967296"), Fault::TooLarge);
    }

    #[test]
    fn calls_alone_have_no_board_and_no_policy() {
        for (text, line) in [
            (&b"bearer ring 8\nstep"[..], 1),
            (b"\npolicy backlog", 2),
            (b"step\nbearer", 2),
        ] {
            let fault = Fault::NoCall;
            assert_eq!(read_calls(text), Err(Unread { line, fault }));
        }
    }
}
