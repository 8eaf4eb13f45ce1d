//! What the program `calls` prints.

use super::calls::answers;
use super::texts::{self, LONGEST};

/// The lines on standard output, or else the line on standard error.
pub fn printed(text: &[u8]) -> Result<String, String> {
    if text.len() > LONGEST {
        return Err(format!("the text is above {LONGEST} bytes\n"));
    }
    let (bearers, policy, calls) = texts::read(text).map_err(|unread| format!("{unread}\n"))?;
    Ok(answers(&bearers, policy, &calls))
}

#[cfg(test)]
mod tests {
    use super::*;

    /// The words behind a refusal's number and place are not of interest here.
    fn check(text: &str, expected: &str) {
        let printed = printed(text.as_bytes()).unwrap();
        let lines = printed.lines().filter_map(|line| line.split(": ").next());
        assert_eq!(
            lines.collect::<Vec<_>>(),
            expected.lines().collect::<Vec<_>>()
        );
    }

    const CONFIGURE: &str = "configure 64000 32000 32 24 8 2\n";

    #[test]
    fn a_text_of_no_calls_has_no_answers() {
        for text in [
            &b""[..],
            b"# step\n\n",
            b"bearer ring 8\npolicy backlog\r\n",
        ] {
            assert_eq!(printed(text), Ok(String::new()));
        }
    }

    #[test]
    fn no_call_is_answered_where_a_line_cannot_be_read() {
        let unread = "unread 2: no call has this name\n";
        assert_eq!(printed(b"step\nstop\nbearer"), Err(unread.into()));
    }

    #[test]
    fn a_text_has_1_048_576_bytes_at_the_most() {
        let mut text = b"stop\n".to_vec();
        text.resize(1_048_576, b' ');
        let unread = "unread 1: no call has this name\n";
        assert_eq!(printed(&text), Err(unread.into()));
        text.push(b' ');
        let above = "the text is above 1048576 bytes\n";
        assert_eq!(printed(&text), Err(above.into()));
    }

    #[test]
    fn the_standard_receiver_where_nothing_is_said() {
        let text = format!(
            "arrive 0 1 0\n{CONFIGURE}arrive 3 1 0\n{}step\n",
            "arrive 1 1 0\n".repeat(5)
        );
        check(
            &text,
            "refused 20 place 0\nconfigured\nrefused 4 place 3\narrived 0 accepted\n\
             arrived 1 accepted\narrived 2 accepted\narrived 3 accepted\n\
             arrived 4 dropped bearer-full\nbegun 1 quota 4",
        );
    }

    /// 60 + 80 + 120 + 420 = 680 cycles are used by a packet of a mailbox bearer, and 760 by that
    /// of a ring bearer.
    #[test]
    fn bearers_are_numbered_by_their_lines() {
        let board = "bearer mailbox 1\nbearer ring 2\n";
        for (bearer, left) in [(0, 63_320), (1, 63_240)] {
            let text = format!("{board}{CONFIGURE}arrive {bearer} 1 0\nstep\nstep\nwork 64000");
            check(
                &text,
                &format!(
                    "configured\narrived 0 accepted\nbegun {bearer} quota 4\ntaken 0 queued\n\
                     refused 27 place {left}"
                ),
            );
        }
    }

    #[test]
    fn depths_are_cut_by_the_kind() {
        for (kind, deepest) in [("ring", 256), ("mailbox", 16)] {
            for (asked, depth) in [
                (0, 0),
                (deepest - 1, deepest - 1),
                (deepest, deepest),
                (deepest + 1, deepest),
                (u64::MAX, deepest),
            ] {
                let arrivals = "arrive 0 1 0\n".repeat(depth as usize + 1);
                let text = format!("bearer {kind} {asked}\n{CONFIGURE}{arrivals}");
                let printed = printed(text.as_bytes()).unwrap();
                let dropped = format!("arrived {depth} dropped bearer-full\n");
                assert_eq!(printed.matches("accepted").count() as u64, depth);
                assert!(printed.ends_with(&dropped), "{kind} {asked}");
            }
        }
    }

    #[test]
    fn the_figure_is_cut_into_1_to_16() {
        for (figure, quota) in [(0, 1), (1, 1), (16, 16), (17, 16), (u64::MAX, 16)] {
            let text = format!("policy fixed {figure}\n{CONFIGURE}arrive 2 1 0\nstep");
            let begun = format!("begun 2 quota {quota}");
            check(&text, &format!("configured\narrived 0 accepted\n{begun}"));
        }
    }

    /// B is 80 + 8 × (120 + 1,360) = 11,920 with the backlog policy over mailbox bearers, and
    /// 80 + 16 × (120 + 1,360) = 23,760 with the fixed one.
    #[test]
    fn the_grant_bound_is_that_of_the_board_and_the_policy() {
        for (policy, bound) in [("policy backlog\n", 11_920), ("", 23_760)] {
            let configure = |period| format!("configure {period} 1 1 1 0 1\n");
            let text = format!(
                "bearer mailbox 0\n{policy}{}{}",
                configure(bound),
                configure(bound + 1)
            );
            check(&text, "refused 2 place 0\nconfigured");
        }
    }

    #[test]
    fn a_policy_may_stand_before_among_or_behind_bearers() {
        for board in [
            "policy backlog\nbearer ring 1\nbearer ring 2",
            "bearer ring 1\npolicy backlog\nbearer ring 2",
            "bearer ring 1\nbearer ring 2\npolicy backlog",
        ] {
            check(
                &format!("{board}\n{CONFIGURE}arrive 1 1 0\narrive 1 1 0\nstep\narrive 2 1 0"),
                "configured\narrived 0 accepted\narrived 1 accepted\nbegun 1 quota 2\n\
                 refused 4 place 2",
            );
        }
    }

    #[test]
    fn eight_bearers_are_shown() {
        let board = "bearer ring 1\n".repeat(8);
        check(
            &format!("{board}{CONFIGURE}arrive 7 1 0\narrive 8 1 0"),
            "configured\narrived 0 accepted\nrefused 4 place 8",
        );
    }
}
