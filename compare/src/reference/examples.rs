//! The worked examples of docs/RULES.md that are calls of a receiver: each
//! call with the line that answers it. T and Y stand beside the receiver, J
//! beside the replay.

use super::answers;
use crate::terms::{Bearer, Call, Kind, Policy};
use Call::{Configure, Discard, Fetch, Finish, Step, Tell, Work};

const fn bearer(kind: Kind, depth: u64) -> Bearer {
    Bearer {
        kind,
        depth,
        occupied: false,
    }
}

const STANDARD: [Bearer; 3] = [
    bearer(Kind::Ring, 8),
    bearer(Kind::Mailbox, 4),
    bearer(Kind::Ring, 16),
];

const SETTINGS: [u64; 6] = [64_000, 32_000, 32, 24, 8, 2];

const fn arrive(bearer: u64, length: u64) -> Call {
    Call::Arrive {
        bearer,
        length,
        tag: 0,
    }
}

/// The lines of a text, without the words behind a refusal's place.
fn lines(text: &str) -> Vec<&str> {
    text.lines()
        .filter_map(|line| line.split(": ").next())
        .collect()
}

/// Makes the calls on a new receiver over this board.
fn check_on(board: &[Bearer], policy: Policy, calls: &[(Call, &str)]) {
    let (made, expected): (Vec<Call>, Vec<&str>) = calls.iter().copied().unzip();
    let text = answers(board, policy, &made);
    assert!(text.is_empty() || text.ends_with('\n'));
    assert_eq!(lines(&text), expected);
}

/// Makes the calls on the standard receiver, configured like this.
fn check(settings: [u64; 6], calls: &[(Call, &str)]) {
    let configure = (Configure(settings), "configured");
    check_on(&STANDARD, Policy::Fixed(4), &[&[configure], calls].concat());
}

/// The answer to configure alone.
fn check_configure(settings: [u64; 6], answer: &str) {
    check_on(
        &STANDARD,
        Policy::Fixed(4),
        &[(Configure(settings), answer)],
    );
}

#[test]
fn refusals_have_words() {
    let calls = [Configure(SETTINGS), arrive(7, 20)];
    assert_eq!(
        answers(&STANDARD, Policy::Fixed(4), &calls),
        "configured\nrefused 4 place 7: the board does not show this bearer\n"
    );
}

#[test]
fn example_b() {
    check(
        SETTINGS,
        &[
            (arrive(0, 0), "refused 5 place 0"),
            (arrive(0, 385), "refused 5 place 385"),
            (arrive(0, 384), "arrived 0 accepted"),
        ],
    );
}

#[test]
fn example_c() {
    check_configure([57_040, 32_000, 32, 24, 8, 2], "configured");
    check_configure([57_039, 32_000, 32, 24, 8, 2], "refused 2 place 0");
}

#[test]
fn example_d() {
    check_configure([64_000, 32_000, 32, 24, 24, 2], "refused 1 place 5");
    check_configure([64_000, 32_000, 32, 24, 23, 2], "configured");
}

#[test]
fn example_e() {
    let told = "told numbered 0 delivered 0 bearer-full 0 queue-full 0 discarded 0 closed";
    check(
        SETTINGS,
        &[
            (Work(64_001), "refused 6 place 0"),
            (Tell, &format!("{told} 0")),
            (Work(64_000), "worked"),
            (Tell, &format!("{told} 1 offered 64000 network 0")),
        ],
    );
}

#[test]
fn example_f() {
    check(
        SETTINGS,
        &[
            (arrive(1, 20), "arrived 0 accepted"),
            (arrive(1, 20), "arrived 1 accepted"),
            (arrive(1, 20), "arrived 2 accepted"),
            (arrive(1, 20), "arrived 3 accepted"),
            (arrive(1, 20), "arrived 4 dropped bearer-full"),
        ],
    );
}

#[test]
fn example_g() {
    check(
        SETTINGS,
        &[
            (arrive(1, 20), "arrived 0 accepted"),
            (Step, "begun 1 quota 4"),
            (Step, "taken 0 queued"),
            (Step, "empty"),
            (arrive(1, 20), "arrived 1 accepted"),
            (Step, "rescheduled"),
            (Work(63_321), "refused 27 place 63320"),
        ],
    );
}

#[test]
fn example_h() {
    check(
        [64_000, 32_000, 2, 2, 0, 1],
        &[
            (arrive(0, 20), "arrived 0 accepted"),
            (arrive(0, 20), "arrived 1 accepted"),
            (Step, "begun 0 quota 4"),
            (Step, "taken 0 queued"),
            (Step, "taken 1 queued"),
            (Step, "completed"),
            (Step, "refused 25 place 0"),
            (Fetch, "fetched 0 length 20 tag 0"),
            (Step, "refused 25 place 0"),
            (Fetch, "fetched 1 length 20 tag 0"),
            (Step, "refused 26 place 0"),
        ],
    );
}

#[test]
fn example_i() {
    check(
        [64_000, 200, 32, 24, 8, 2],
        &[
            (arrive(0, 1), "arrived 0 accepted"),
            (Step, "begun 0 quota 4"),
            (Step, "taken 0 queued"),
            (Step, "empty"),
            (Step, "completed"),
            (Step, "refused 24 place 0"),
            (Work(63_240), "worked"),
            (arrive(0, 1), "arrived 1 accepted"),
            (Work(64_000), "refused 27 place 63940"),
        ],
    );
}

#[test]
fn example_k() {
    check_on(
        &STANDARD,
        Policy::Fixed(4),
        &[
            (arrive(9, 0), "refused 20 place 0"),
            (Step, "refused 20 place 0"),
            (Work(0), "refused 20 place 0"),
            (Fetch, "refused 20 place 0"),
            (Finish(0), "no receipt"),
            (Discard(0), "no receipt"),
            (
                Tell,
                "told numbered 0 delivered 0 bearer-full 0 queue-full 0 discarded 0 closed 0",
            ),
        ],
    );
}

#[test]
fn example_l() {
    check(
        SETTINGS,
        &[
            (Configure(SETTINGS), "refused 21 place 0"),
            (Configure([0; 6]), "refused 21 place 0"),
        ],
    );
}

#[test]
fn example_m() {
    let outside = [
        (1, [999, 0, 0, 0, 0, 0]),
        (1, [1_000_000_001, 32_000, 32, 24, 8, 2]),
        (2, [64_000, 0, 0, 0, 0, 0]),
        (2, [64_000, 64_001, 32, 24, 8, 2]),
        (3, [64_000, 32_000, 0, 0, 0, 0]),
        (3, [64_000, 32_000, 65, 24, 8, 2]),
        (4, [64_000, 32_000, 32, 0, 0, 0]),
        (4, [64_000, 32_000, 32, 33, 8, 2]),
        (5, [64_000, 32_000, 32, 24, 24, 0]),
        (6, [64_000, 32_000, 32, 24, 8, 0]),
        (6, [64_000, 32_000, 32, 24, 8, 1_001]),
    ];
    for (place, settings) in outside {
        check_configure(settings, &format!("refused 1 place {place}"));
    }
    check_configure([1_000, 1_000, 32, 24, 8, 2], "refused 2 place 0");
    check_configure([25_041, 1, 1, 1, 0, 1], "configured");
    let greatest = [1_000_000_000, 999_974_960, 64, 64, 63, 1_000];
    check_configure(greatest, "configured");
}

#[test]
fn example_n() {
    let mut board = STANDARD;
    board[1].occupied = true;
    board[2].occupied = true;
    check_on(
        &board,
        Policy::Fixed(4),
        &[
            (
                Configure([64_000, 32_000, 32, 24, 8, 0]),
                "refused 1 place 6",
            ),
            (Configure(SETTINGS), "refused 22 place 1"),
            (
                Configure([57_039, 32_000, 32, 24, 8, 2]),
                "refused 22 place 1",
            ),
        ],
    );
}

#[test]
fn a_bearer_of_depth_0_is_never_occupied() {
    let nothing_fits = Bearer {
        occupied: true,
        ..bearer(Kind::Ring, 0)
    };
    check_on(
        &[nothing_fits],
        Policy::Backlog,
        &[
            (Configure(SETTINGS), "configured"),
            (arrive(0, 1), "arrived 0 dropped bearer-full"),
        ],
    );
}

#[test]
fn example_o() {
    let tagged = Call::Arrive {
        bearer: 2,
        length: 77,
        tag: u32::MAX,
    };
    check(
        SETTINGS,
        &[
            (arrive(3, 0), "refused 4 place 3"),
            (arrive(u64::MAX, 1), "refused 4 place 18446744073709551615"),
            (tagged, "arrived 0 accepted"),
            (Step, "begun 2 quota 4"),
            (Step, "taken 0 queued"),
            (Fetch, "fetched 0 length 77 tag 4294967295"),
        ],
    );
}

#[test]
fn example_p() {
    check(
        [64_000, 200, 1, 1, 0, 2],
        &[
            (arrive(0, 1), "arrived 0 accepted"),
            (Step, "begun 0 quota 4"),
            (Step, "taken 0 queued"),
            (Step, "completed"),
            (Step, "refused 24 place 0"),
            (Work(63_240), "worked"),
            (Step, "refused 25 place 0"),
            (Work(64_000), "worked"),
            (Step, "refused 26 place 0"),
        ],
    );
}

#[test]
fn example_q() {
    check(
        SETTINGS,
        &[
            (Work(60_000), "worked"),
            (Work(0), "refused 6 place 0"),
            (Work(64_001), "refused 6 place 0"),
            (Work(4_001), "refused 27 place 4000"),
            (Work(4_000), "worked"),
        ],
    );
}

/// Seventeen packets are queued by two grants, and sixteen of them fetched.
#[test]
fn example_r() {
    let mut calls = vec![Configure(SETTINGS)];
    calls.extend([arrive(0, 1); 17]);
    calls.extend([Step; 1 + 16 + 1 + 1 + 3]);
    calls.extend([Fetch; 16]);
    let begun = calls.len();
    calls.extend([Fetch, Finish(3), Fetch, Fetch, Finish(3), Finish(16), Fetch]);
    let text = answers(&[bearer(Kind::Ring, 17)], Policy::Fixed(16), &calls);
    let lines = lines(&text);
    assert_eq!(lines[begun - 1], "fetched 15 length 1 tag 0");
    let expected = [
        "refused 29 place 0",
        "finished",
        "fetched 16 length 1 tag 0",
        "refused 28 place 0",
        "no receipt",
        "finished",
        "refused 28 place 0",
    ];
    assert_eq!(lines[begun..], expected);
}

#[test]
fn example_s() {
    check(
        [64_000, 32_000, 1, 1, 0, 1],
        &[
            (arrive(0, 1), "arrived 0 accepted"),
            (arrive(0, 1), "arrived 1 accepted"),
            (Step, "begun 0 quota 4"),
            (Step, "taken 0 queued"),
            (Step, "rescheduled"),
            (Work(63_240), "worked"),
            (Step, "begun 0 quota 4"),
            (Step, "taken 1 dropped queue-full"),
            (Step, "completed"),
            (Step, "refused 25 place 0"),
            (Fetch, "fetched 0 length 1 tag 0"),
            (Step, "refused 26 place 0"),
            (Discard(0), "discarded"),
            (
                Tell,
                "told numbered 2 delivered 0 bearer-full 0 queue-full 1 discarded 1 closed 1 \
                 offered 63240 network 760",
            ),
        ],
    );
}

/// Used is 560 behind the close, and the hold is 1: which of them a step is
/// refused for tells a limit of 560 from one of 561.
#[test]
fn example_u() {
    for (limit, refused) in [(560, "refused 24 place 0"), (561, "refused 25 place 0")] {
        check(
            [64_000, limit, 1, 1, 0, 1],
            &[
                (arrive(0, 1), "arrived 0 accepted"),
                (Step, "begun 0 quota 4"),
                (Work(63_800), "worked"),
                (Step, "taken 0 queued"),
                (Step, "completed"),
                (Step, refused),
                (Work(63_441), "refused 27 place 63440"),
            ],
        );
    }
}

const FOUR_ON_BEARER_0: [(Call, &str); 4] = [
    (arrive(0, 1), "arrived 0 accepted"),
    (arrive(0, 1), "arrived 1 accepted"),
    (arrive(0, 1), "arrived 2 accepted"),
    (arrive(0, 1), "arrived 3 accepted"),
];

#[test]
fn example_v() {
    let rest = [
        (Step, "begun 0 quota 4"),
        (Step, "taken 0 queued"),
        (Step, "taken 1 queued"),
        (Fetch, "fetched 0 length 1 tag 0"),
        (Step, "rescheduled"),
        (Step, "begun 0 quota 4"),
        (Step, "taken 2 queued"),
        (Step, "rescheduled"),
        (Step, "refused 25 place 0"),
        (Work(64_000 - 2_080), "worked"),
        (Step, "begun 0 quota 4"),
        (Step, "taken 3 queued"),
        (Step, "completed"),
        (Step, "refused 25 place 0"),
    ];
    let calls = [&FOUR_ON_BEARER_0[..], &rest].concat();
    check([64_000, 32_000, 4, 2, 1, 1], &calls);
}

/// An arrival is charged 60 cycles exactly if its bearer was armed.
#[test]
fn example_v_disarms_bearer_1_until_the_fetch() {
    let held = [
        &FOUR_ON_BEARER_0[..],
        &[
            (Step, "begun 0 quota 4"),
            (Step, "taken 0 queued"),
            (Step, "taken 1 queued"),
            (Work(64_000), "refused 27 place 62620"),
        ],
    ]
    .concat();
    let disarmed = [
        (arrive(1, 1), "arrived 4 accepted"),
        (Work(64_000), "refused 27 place 62620"),
        (Fetch, "fetched 0 length 1 tag 0"),
        (Step, "rescheduled"),
        (Step, "begun 1 quota 4"),
    ];
    let armed = [
        (Fetch, "fetched 0 length 1 tag 0"),
        (arrive(1, 1), "arrived 4 accepted"),
        (Work(64_000), "refused 27 place 62560"),
    ];
    let settings = [64_000, 32_000, 4, 2, 1, 1];
    check(settings, &[&held[..], &disarmed].concat());
    check(settings, &[&held[..], &armed].concat());
}

#[test]
fn example_w() {
    let rest = [
        (arrive(0, 1), "arrived 4 accepted"),
        (Step, "begun 0 quota 4"),
        (Step, "taken 0 queued"),
        (Step, "taken 1 queued"),
        (Step, "taken 2 queued"),
        (Step, "taken 3 queued"),
        (Step, "rescheduled"),
        (Step, "begun 0 quota 4"),
        (Step, "taken 4 queued"),
        (Step, "empty"),
        (Step, "completed"),
        (Step, "refused 26 place 0"),
        (Work(64_000), "refused 27 place 60680"),
        (arrive(0, 1), "arrived 5 accepted"),
        (Work(64_000), "refused 27 place 60620"),
    ];
    check(SETTINGS, &[&FOUR_ON_BEARER_0[..], &rest].concat());
}

#[test]
fn example_x() {
    check(
        [64_000, 60, 32, 24, 8, 2],
        &[
            (arrive(0, 1), "arrived 0 accepted"),
            (Step, "refused 24 place 0"),
            (arrive(2, 1), "arrived 1 accepted"),
            (arrive(1, 1), "arrived 2 accepted"),
            (Work(63_941), "refused 27 place 63940"),
            (Work(63_940), "worked"),
            (Step, "begun 0 quota 4"),
            (Step, "taken 0 queued"),
            (Step, "empty"),
            (Step, "completed"),
            (Step, "refused 24 place 0"),
            (Work(63_300), "worked"),
            (Step, "begun 1 quota 4"),
        ],
    );
}

/// The gate shuts while the grant runs. When it opens, bearer 0 is being
/// served: it is neither armed nor listed a second time.
#[test]
fn a_served_bearer_is_passed_over_when_the_gate_opens() {
    check(
        [64_000, 200, 32, 24, 8, 2],
        &[
            (arrive(0, 1), "arrived 0 accepted"),
            (Step, "begun 0 quota 4"),
            (Step, "taken 0 queued"),
            (arrive(0, 1), "arrived 1 accepted"),
            (Work(63_240), "worked"),
            (arrive(0, 1), "arrived 2 accepted"),
            (Work(64_000), "worked"),
            (Step, "taken 1 queued"),
            (Step, "taken 2 queued"),
            (Step, "empty"),
            (Step, "completed"),
            (Work(64_000 - 2 * 620), "worked"),
            (Step, "refused 26 place 0"),
        ],
    );
}

#[test]
fn backlog_is_asked_when_the_grant_begins() {
    check_on(
        &STANDARD,
        Policy::Backlog,
        &[
            (Configure(SETTINGS), "configured"),
            (arrive(0, 1), "arrived 0 accepted"),
            (arrive(0, 1), "arrived 1 accepted"),
            (arrive(0, 1), "arrived 2 accepted"),
            (Step, "begun 0 quota 2"),
            (arrive(0, 1), "arrived 3 accepted"),
            (Step, "taken 0 queued"),
            (Step, "taken 1 queued"),
            (Step, "rescheduled"),
            (Step, "begun 0 quota 2"),
        ],
    );
}

#[test]
fn kinds_cut_the_depths_asked_for() {
    for (kind, depth) in [(Kind::Ring, 256), (Kind::Mailbox, 16)] {
        let mut calls = vec![Configure(SETTINGS)];
        calls.extend(vec![arrive(0, 1); depth + 1]);
        let text = answers(&[bearer(kind, 300)], Policy::Backlog, &calls);
        let expected = format!(
            "arrived {} accepted\narrived {depth} dropped bearer-full\n",
            depth - 1
        );
        assert!(text.ends_with(&expected), "{kind:?}");
    }
}

#[test]
fn calls_are_written_as_they_are_read() {
    let lines = [
        (Configure([1, 2, 3, 4, 5, 6]), "configure 1 2 3 4 5 6"),
        (arrive(1, 2), "arrive 1 2 0"),
        (Step, "step"),
        (Work(7), "work 7"),
        (Fetch, "fetch"),
        (Finish(8), "finish 8"),
        (Discard(9), "discard 9"),
        (Tell, "tell"),
    ];
    for (call, line) in lines {
        assert_eq!(call.to_string(), line);
    }
}
