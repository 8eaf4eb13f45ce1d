//! The proved receiver and replay, behind the boundary of `crates/boundary`: its exports are declared here and nowhere
//! else, and each is wrapped so that safe Rust can call it.

use crate::terms::{Bearer, Ended, Kind, PassedBearer, PassedPolicy, Policy, Refused, Replayed};

// The statuses of `crates/boundary` that are told apart here.
const WRITTEN: u32 = 0;
const REFUSED: u32 = 1;
const TOO_SMALL: u32 = 2;

#[repr(C)]
struct Figures {
    packets: usize,
    turns: u64,
    periods: u32,
    delivered: usize,
    bearer_full: usize,
    queue_full: usize,
    waiting: usize,
    pending: usize,
    packets_len: usize,
    periods_len: usize,
}

#[repr(C)]
struct ReplayEnd {
    status: u32,
    number: u32,
    place: usize,
    figures: Figures,
}

#[repr(C)]
struct RawBearer {
    depth: usize,
    kind: u8,
    is_occupied: bool,
}

#[repr(C)]
struct RawPolicy {
    figure: u32,
    kind: u8,
}

#[repr(C)]
struct CallsEnd {
    status: u32,
    figure: usize,
}

// Each slice crosses as a pointer and then a length. The allocator that an export takes besides has no bytes.
unsafe extern "C" {
    fn zuphlos_replay(
        capture: *const u8,
        capture_len: usize,
        packets: *mut u8,
        packets_len: usize,
        periods: *mut u8,
        periods_len: usize,
    ) -> ReplayEnd;

    fn zuphlos_calls(
        bearers: *const RawBearer,
        bearers_len: usize,
        policy: RawPolicy,
        text: *const u8,
        text_len: usize,
        answers: *mut u8,
        answers_len: usize,
    ) -> CallsEnd;

    fn zuphlos_receiver_size() -> usize;
}

/// Replays a capture, and writes its tables into memory that is lent for them.
///
/// # Panics
///
/// If memory runs out.
pub fn replay(capture: &[u8], packets: &mut [u8], periods: &mut [u8]) -> Result<Replayed, Refused> {
    // SAFETY: each pointer and length is that of a slice, borrowed for this call: the two memories that are written are
    // borrowed by it alone. The library keeps no pointer, requires no more of its caller, and is proved to write no
    // byte beside.
    let end = unsafe {
        zuphlos_replay(
            capture.as_ptr(),
            capture.len(),
            packets.as_mut_ptr(),
            packets.len(),
            periods.as_mut_ptr(),
            periods.len(),
        )
    };
    match end.status {
        WRITTEN => Ok(replayed(&end.figures)),
        REFUSED => Err(Refused {
            number: end.number,
            place: end.place as u64,
        }),
        status => panic!("no replay: status {status}"),
    }
}

fn replayed(figures: &Figures) -> Replayed {
    Replayed {
        packets: figures.packets as u64,
        turns: figures.turns,
        periods: u64::from(figures.periods),
        delivered: figures.delivered as u64,
        bearer_full: figures.bearer_full as u64,
        queue_full: figures.queue_full as u64,
        waiting: figures.waiting as u64,
        pending: figures.pending as u64,
        packets_len: figures.packets_len as u64,
        periods_len: figures.periods_len as u64,
    }
}

/// Makes the calls of a text on a new receiver, and answers a line for each.
///
/// # Panics
///
/// If the bearers are none or more than eight, the text cannot be read, or memory runs out.
pub fn answers(board: &[Bearer], policy: Policy, text: &str) -> String {
    let bearers: Vec<PassedBearer> = board.iter().map(passed).collect();
    let policy = passed_policy(policy);
    let mut lines = vec![0; 64 + 8 * text.len()];
    let mut end = make_calls(&bearers, policy, text.as_bytes(), &mut lines);
    if end.status == TOO_SMALL {
        lines.resize(end.figure as usize, 0);
        end = make_calls(&bearers, policy, text.as_bytes(), &mut lines);
    }
    assert_eq!(end.status, WRITTEN, "no answers; figure {}", end.figure);
    lines.truncate(end.figure as usize);
    String::from_utf8(lines).expect("the answers are ASCII")
}

/// Makes the calls of a text on a new receiver over what a host passes, and writes the answers into
/// memory that is lent for them.
pub fn make_calls(
    bearers: &[PassedBearer],
    policy: PassedPolicy,
    text: &[u8],
    lines: &mut [u8],
) -> Ended {
    let bearers: Vec<RawBearer> = bearers.iter().map(raw).collect();
    let policy = RawPolicy {
        figure: policy.figure,
        kind: policy.kind,
    };
    // SAFETY: as for a replay; the bearers are initialised, and their `bool`s 0 or 1.
    let end = unsafe {
        zuphlos_calls(
            bearers.as_ptr(),
            bearers.len(),
            policy,
            text.as_ptr(),
            text.len(),
            lines.as_mut_ptr(),
            lines.len(),
        )
    };
    Ended {
        status: end.status,
        figure: end.figure as u64,
    }
}

fn raw(passed: &PassedBearer) -> RawBearer {
    RawBearer {
        depth: passed.depth as usize,
        kind: passed.kind,
        is_occupied: passed.occupied,
    }
}

/// A bearer in numbers.
pub fn passed(bearer: &Bearer) -> PassedBearer {
    PassedBearer {
        depth: bearer.depth,
        kind: match bearer.kind {
            Kind::Ring => 0,
            Kind::Mailbox => 1,
        },
        occupied: bearer.occupied,
    }
}

/// A policy in numbers. A figure beyond 32 bits is cut to the same as the greatest within.
pub fn passed_policy(policy: Policy) -> PassedPolicy {
    match policy {
        Policy::Fixed(figure) => PassedPolicy {
            figure: u32::try_from(figure).unwrap_or(u32::MAX),
            kind: 0,
        },
        Policy::Backlog => PassedPolicy { figure: 0, kind: 1 },
    }
}

/// How many bytes the standard receiver has, its board and its policy included.
pub fn receiver_size() -> usize {
    // SAFETY: it takes nothing and answers a constant.
    unsafe { zuphlos_receiver_size() }
}

#[cfg(test)]
mod tests {
    use super::*;

    const STANDARD: [Bearer; 3] = [
        bearer(Kind::Ring, 8),
        bearer(Kind::Mailbox, 4),
        bearer(Kind::Ring, 16),
    ];

    const fn bearer(kind: Kind, depth: u64) -> Bearer {
        Bearer {
            kind,
            depth,
            occupied: false,
        }
    }

    fn sample(name: &str) -> Vec<u8> {
        let path = format!("{}/../samples/{name}", env!("CARGO_MANIFEST_DIR"));
        std::fs::read(path).expect("the sample is there")
    }

    #[test]
    fn a_replay_leaves_its_tables_in_lent_memory() {
        let tables = ["three.packets.csv", "three.periods.csv"].map(sample);
        let mut memory = [vec![7; 100], vec![7; 100]];
        let [packets, periods] = &mut memory;
        let done = replay(&sample("three.pcap"), packets, periods).expect("it is replayed");
        assert_eq!(
            (done.packets, done.turns, done.periods, done.delivered),
            (3, 25, 1, 3)
        );
        for (memory, table) in memory.iter().zip(&tables) {
            assert_eq!(memory[..table.len()], table[..]);
            assert!(memory[table.len()..].iter().all(|&byte| byte == 7));
        }
    }

    #[test]
    fn a_refused_replay_leaves_the_memory_alone() {
        let late = sample("late.pcap");
        let three = sample("three.pcap");
        let need = sample("three.packets.csv").len() as u64;
        for (capture, number, place) in [(&late, 15, 579), (&three, 17, need)] {
            let (mut packets, mut periods) = ([7; 95], [7; 100]);
            let refused = replay(capture, &mut packets, &mut periods);
            assert_eq!(refused, Err(Refused { number, place }));
            assert!(packets.iter().chain(&periods).all(|&byte| byte == 7));
        }
        assert_eq!(
            replay(&[], &mut [], &mut []),
            Err(Refused {
                number: 10,
                place: 0
            })
        );
    }

    #[test]
    fn a_line_is_answered_to_each_call() {
        let text = String::from_utf8(sample("run-g.calls")).expect("the sample is a text");
        let answered = answers(&STANDARD, Policy::Fixed(4), &text);
        assert_eq!(answered.as_bytes(), sample("run-g.answers"));
        assert_eq!(answers(&STANDARD, Policy::Backlog, ""), "");
    }

    #[test]
    fn a_packet_that_waits_refuses_settings() {
        let text = "configure 64000 32000 32 24 8 2";
        for (depth, line) in [(1, "refused 22 place 7: "), (0, "configured\n")] {
            let mut board = [bearer(Kind::Mailbox, 4); 8];
            board[7] = Bearer {
                kind: Kind::Ring,
                depth,
                occupied: true,
            };
            assert!(answers(&board, Policy::Fixed(0), text).starts_with(line));
        }
    }

    #[test]
    fn what_has_no_answers() {
        let board = STANDARD.map(|bearer| passed(&bearer));
        let mut strange = board;
        strange[2].kind = 2;
        let backlog = passed_policy(Policy::Backlog);
        let none = PassedPolicy { figure: 4, kind: 2 };
        let long = vec![b' '; 1_048_577];
        for (bearers, policy, text, status, figure) in [
            (
                &board[..],
                backlog,
                &b"configure 64000 32000 32 24 8 2"[..],
                WRITTEN,
                11,
            ),
            (&board, backlog, b"step", TOO_SMALL, 51),
            (&board, backlog, b"tell\n\nwork", 3, 3),
            (&board, backlog, b"bearer ring 8", 3, 1),
            (&board, backlog, b"tell\npolicy backlog", 3, 2),
            (&board, backlog, &long, 4, 0),
            (&[], backlog, b"step", 5, 0),
            (&strange, backlog, b"step", 7, 0),
            (&board, none, b"step", 7, 0),
        ] {
            let mut lines = [7; 11];
            let end = make_calls(bearers, policy, text, &mut lines);
            assert_eq!(end, Ended { status, figure });
            assert!(status == WRITTEN || lines == [7; 11]);
        }
    }

    #[test]
    fn a_receiver_is_not_large() {
        // It has 2 KiB at the most beside its board and its policy, of which the mailbox's slots are the most.
        assert!((1..=3_072).contains(&receiver_size()));
    }
}
