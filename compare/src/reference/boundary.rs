//! Calls made for a host that is not Rattle: its board and its policy come in numbers.

use super::boards::MOST_BEARERS;
use super::calls::answers;
use super::texts::{self, LONGEST};
use crate::terms::{Bearer, Ended, Kind, PassedBearer, PassedPolicy, Policy};

// The statuses that can be met here; 1 is the replay's, and with 6 memory ran out.
const WRITTEN: u32 = 0;
const TOO_SMALL: u32 = 2;
const UNREAD: u32 = 3;
const TOO_LONG: u32 = 4;
const BEARERS: u32 = 5;
const NO_KIND: u32 = 7;

/// Makes the calls of a text, and writes the answers to the front of the lent memory if they fit.
pub fn make_calls(
    bearers: &[PassedBearer],
    policy: PassedPolicy,
    text: &[u8],
    memory: &mut [u8],
) -> Ended {
    let answers = match made(bearers, policy, text) {
        Ok(answers) => answers,
        Err(ended) => return ended,
    };
    let figure = answers.len() as u64;
    match memory.get_mut(..answers.len()) {
        Some(front) => {
            front.copy_from_slice(answers.as_bytes());
            ended(WRITTEN, figure)
        }
        None => ended(TOO_SMALL, figure),
    }
}

fn made(bearers: &[PassedBearer], policy: PassedPolicy, text: &[u8]) -> Result<String, Ended> {
    if !(1..=MOST_BEARERS).contains(&bearers.len()) {
        return Err(ended(BEARERS, 0));
    }
    let board: Option<Vec<Bearer>> = bearers.iter().map(bearer).collect();
    let (Some(board), Some(policy)) = (board, self::policy(policy)) else {
        return Err(ended(NO_KIND, 0));
    };
    if text.len() > LONGEST {
        return Err(ended(TOO_LONG, 0));
    }
    let calls = texts::read_calls(text).map_err(|unread| ended(UNREAD, unread.line))?;
    Ok(answers(&board, policy, &calls))
}

fn ended(status: u32, figure: u64) -> Ended {
    Ended { status, figure }
}

fn bearer(passed: &PassedBearer) -> Option<Bearer> {
    let kind = match passed.kind {
        0 => Kind::Ring,
        1 => Kind::Mailbox,
        _ => return None,
    };
    Some(Bearer {
        kind,
        depth: passed.depth,
        occupied: passed.occupied,
    })
}

fn policy(passed: PassedPolicy) -> Option<Policy> {
    match passed.kind {
        0 => Some(Policy::Fixed(u64::from(passed.figure))),
        1 => Some(Policy::Backlog),
        _ => None,
    }
}

#[cfg(test)]
mod tests {
    use super::*;

    const RING: PassedBearer = PassedBearer {
        depth: 2,
        kind: 0,
        occupied: false,
    };
    const FIXED: PassedPolicy = PassedPolicy { figure: 4, kind: 0 };

    fn of_kind(kind: u8) -> PassedBearer {
        PassedBearer { kind, ..RING }
    }

    /// The end with ample memory, and what is written there.
    fn with_room(
        bearers: &[PassedBearer],
        policy: PassedPolicy,
        text: &[u8],
    ) -> (u32, u64, String) {
        let mut memory = [b'~'; 1_000];
        let Ended { status, figure } = make_calls(bearers, policy, text, &mut memory);
        let written = memory.split(|&byte| byte == b'~').next().unwrap();
        (status, figure, String::from_utf8(written.to_vec()).unwrap())
    }

    #[test]
    fn kinds_are_numbers() {
        // B is 80 + 16 × (200 + 1,360) = 25,040 with a ring bearer and the fixed policy, and 80 less
        // for each packet of a grant with a mailbox bearer; a grant of the backlog policy has half
        // as many packets.
        for (kind, policy, bound) in [
            (0, 0, 25_040),
            (1, 0, 23_760),
            (0, 1, 12_560),
            (1, 1, 11_920),
        ] {
            let policy = PassedPolicy {
                figure: 4,
                kind: policy,
            };
            for (period, answer) in [(bound, "refused 2"), (bound + 1, "configured\n")] {
                let text = format!("configure {period} 1 1 1 0 1");
                let (status, _, written) = with_room(&[of_kind(kind)], policy, text.as_bytes());
                assert_eq!(status, 0);
                assert!(written.starts_with(answer), "{kind} {policy:?} {period}");
            }
        }
    }

    #[test]
    fn a_kind_of_another_number_is_none() {
        for kind in [2, 3, 128, 255] {
            let no_kind = (7, 0, String::new());
            assert_eq!(with_room(&[of_kind(kind)], FIXED, b"tell"), no_kind);
            assert_eq!(with_room(&[RING, of_kind(kind)], FIXED, b"tell"), no_kind);
            let policy = PassedPolicy { figure: 4, kind };
            assert_eq!(with_room(&[RING], policy, b"tell"), no_kind);
        }
    }

    #[test]
    fn bearers_are_checked_first_then_kinds_then_the_text() {
        let long = [b'?'; 1_048_577];
        let (none, unknown) = (PassedPolicy { figure: 0, kind: 2 }, of_kind(2));
        for (bearers, policy, text, status, figure) in [
            (&[][..], none, &long[..], 5, 0),
            (&[unknown; 9], none, &long, 5, 0),
            (&[unknown; 8], FIXED, &long, 7, 0),
            (&[RING; 8], none, b"?", 7, 0),
            (&[RING; 8], FIXED, &long, 4, 0),
            (&[RING; 8], FIXED, &long[..1_048_576], 3, 1),
        ] {
            assert_eq!(
                with_room(bearers, policy, text),
                (status, figure, String::new())
            );
        }
    }

    #[test]
    fn lines_of_the_board_and_the_policy_cannot_be_read() {
        for (text, line) in [
            ("bearer ring 8\nstep", 1),
            ("# here\npolicy backlog\nstep", 2),
            ("step\n\nbearer ring 8", 3),
        ] {
            let unread = (3, line, String::new());
            assert_eq!(with_room(&[RING], FIXED, text.as_bytes()), unread);
        }
    }

    #[test]
    fn answers_that_do_not_fit_are_not_written() {
        let text = b"configure 64000 32000 32 24 8 2";
        for (len, status) in [(10, 2), (11, 0), (12, 0)] {
            let mut memory = vec![b'~'; len];
            let ended = make_calls(&[RING], FIXED, text, &mut memory);
            assert_eq!(ended, Ended { status, figure: 11 });
            let written = if status == 0 { 11 } else { 0 };
            assert_eq!(memory[..written], b"configured\n"[..written]);
            assert!(memory[written..].iter().all(|&byte| byte == b'~'));
        }
    }

    #[test]
    fn a_packet_waits_in_an_occupied_bearer() {
        let occupied = PassedBearer {
            occupied: true,
            ..of_kind(1)
        };
        let text = b"configure 64000 32000 32 24 8 2";
        let (status, _, written) = with_room(&[RING, occupied], FIXED, text);
        assert_eq!(status, 0);
        assert!(written.starts_with("refused 22 place 1: "));
    }
}
