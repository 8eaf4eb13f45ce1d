//! The first line in which what one side wrote differs from what the reference wrote.

/// Names what was written and the side, and says both lines; nothing if all is the same.
pub fn line(what: &str, side: &str, written: &[u8], reference: &[u8]) -> Option<String> {
    if written == reference {
        return None;
    }
    let mut lines = written.split_inclusive(|&byte| byte == b'\n');
    let mut others = reference.split_inclusive(|&byte| byte == b'\n');
    let pairs = std::iter::from_fn(|| Some((lines.next(), others.next())));
    let (number, (one, other)) = (1..).zip(pairs).find(|(_, (one, other))| one != other)?;
    let [one, other] = [one, other].map(|line| line.map(String::from_utf8_lossy));
    Some(format!(
        "{what}, line {number}: {side} {one:?}, reference {other:?}"
    ))
}

#[cfg(test)]
mod tests {
    use super::*;

    #[test]
    fn the_first_line_that_differs_is_told() {
        let check = |written: &str| line("answers", "proved", written.as_bytes(), b"one\ntwo\n");
        assert_eq!(check("one\ntwo\n"), None);
        for (written, told) in [
            ("", "line 1: proved None, reference Some(\"one\\n\")"),
            ("one\n", "line 2: proved None, reference Some(\"two\\n\")"),
            (
                "one\ntwo",
                "line 2: proved Some(\"two\"), reference Some(\"two\\n\")",
            ),
            (
                "one\nto\n\n",
                "line 2: proved Some(\"to\\n\"), reference Some(\"two\\n\")",
            ),
            (
                "one\ntwo\n\n",
                "line 3: proved Some(\"\\n\"), reference None",
            ),
        ] {
            assert_eq!(check(written), Some(format!("answers, {told}")));
        }
    }
}
