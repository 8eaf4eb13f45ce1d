//! The lines of a text, and the words of each.

pub type Word<'a> = &'a [u8];

/// The words of each line, with the line's number. Lines count from 1, those without words too.
pub fn lines(text: &[u8]) -> impl Iterator<Item = (u64, Vec<Word<'_>>)> {
    let lines = text.split(|&byte| byte == b'\n');
    (1..).zip(lines.map(words))
}

/// A carriage return is passed over at the end of the line alone, behind the comment if there is one.
fn words(line: &[u8]) -> Vec<Word<'_>> {
    let line = line.strip_suffix(b"\r").unwrap_or(line);
    let end = line.iter().position(|&byte| byte == b'#');
    line[..end.unwrap_or(line.len())]
        .split(|byte| b" \t".contains(byte))
        .filter(|word| !word.is_empty())
        .collect()
}

#[cfg(test)]
mod tests {
    use super::*;

    fn check(line: &[u8], expected: &[&[u8]]) {
        assert_eq!(words(line), expected, "{:?}", line.escape_ascii());
    }

    #[test]
    fn blanks_stand_between_words() {
        check(b"", &[]);
        check(b" \t ", &[]);
        check(b"\tarrive \t 0  20\t7 ", &[b"arrive", b"0", b"20", b"7"]);
        check(b"step\x0bnow\xa0", &[b"step\x0bnow\xa0"]);
    }

    #[test]
    fn a_comment_is_passed_over() {
        check(b"# step", &[]);
        check(b"work 5#00", &[b"work", b"5"]);
        check(b"step # once # more \xff\x00", &[b"step"]);
    }

    #[test]
    fn one_carriage_return_is_passed_over_at_a_lines_end() {
        check(b"\r", &[]);
        check(b"step\r", &[b"step"]);
        check(b"step # here\r", &[b"step"]);
        check(b"step\r\r", &[b"step\r"]);
        check(b"step \r", &[b"step"]);
        check(b"step\r ", &[b"step\r"]);
        check(b"step\r# here", &[b"step\r"]);
        check(b"\rstep", &[b"\rstep"]);
    }

    #[test]
    fn a_line_feed_stands_between_two_lines() {
        let numbered = |text| lines(text).collect::<Vec<_>>();
        let step = || vec![&b"step"[..]];
        assert_eq!(numbered(b""), [(1, vec![])]);
        assert_eq!(numbered(b"step"), [(1, step())]);
        assert_eq!(
            numbered(b"\n\r\n#\nstep\n"),
            [
                (1, vec![]),
                (2, vec![]),
                (3, vec![]),
                (4, step()),
                (5, vec![])
            ]
        );
    }
}
