//! Damage to the lines of a text: every fault of a line that cannot be read, and several faults of
//! one line, of which the first that is looked at is told.

use super::{heads, Line, Word};
use crate::random::Random;

/// Lines of calls, those together that take the same numbers.
const CALLS: [&[&str]; 5] = [
    &["step", "fetch", "tell"],
    &["work 500"],
    &["finish 3", "discard 3"],
    &["arrive 0 20 7"],
    &["configure 64000 32000 32 24 8 2"],
];

/// First words that name no call, nor begin a line of a board or a policy.
const NO_CALLS: [&[u8]; 14] = [
    b"Bearer",
    b"bearers",
    b"bearer\x0bring",
    b"POLICY",
    b"policy,",
    b"ring",
    b"mailbox",
    b"backlog",
    b"Step",
    b"steps",
    b"ste",
    b"tell\0",
    b"7",
    b"\xff\xfe",
];

/// Second words that name no kind, or a kind of the other.
const NO_KINDS: [&[u8]; 12] = [
    b"Ring",
    b"rings",
    b"rin",
    b"ring8",
    b"mail",
    b"BACKLOG",
    b"fixe",
    b"ring",
    b"fixed",
    b"backlog",
    b"8",
    b"\xffring",
];

const NO_NUMBERS: [&[u8]; 14] = [
    b"+1",
    b"-1",
    b"1.0",
    b"0x10",
    b"1_000",
    b"1,000",
    b"1e3",
    b"one",
    b"8\r",
    b"\r8",
    b"8\0",
    b"\xd9\xa1",
    b"18446744073709551616x",
    b"x99999999999999999999",
];

/// Numbers about the greatest ones. What is too large for a tag or a receipt's number may be small
/// enough for others.
const LARGE: [&str; 9] = [
    "4294967295",
    "4294967296",
    "4294967301",
    "18446744073709551615",
    "18446744073709551616",
    "18446744073709551621",
    "99999999999999999999",
    "0000000000000018446744073709551616",
    "340282366920938463463374607431768211456",
];

pub fn damage(lines: &mut Vec<Line>, random: &mut Random) {
    let mut struck = None;
    for _ in 0..random.pick(&[1, 1, 2, 3]) {
        // Twice on the same line shows what is looked at first.
        let again = struck.filter(|_| random.chance(2, 3));
        let at = again.unwrap_or_else(|| any(lines, random));
        struck = Some(strike(lines, at, random));
    }
}

/// Any line, half the time one of a call; a new one if there is none.
fn any(lines: &mut Vec<Line>, random: &mut Random) -> usize {
    let line = match random.below(4) {
        0 => bearer_line(random),
        1 => policy_line(random),
        _ => call_line(random),
    };
    let named = (0..lines.len()).filter(|&at| begins(&lines[at], &line[0]));
    let named: Vec<usize> = named.collect();
    if !named.is_empty() {
        return random.pick(&named);
    }
    let head = head_len(lines) as u64;
    let at = if is_head(&line) {
        random.among(0, head)
    } else {
        random.among(head, lines.len() as u64)
    };
    lines.insert(at as usize, line);
    at as usize
}

fn bearer_line(random: &mut Random) -> Line {
    heads::bearer_line(&heads::bearer(random))
}

fn policy_line(random: &mut Random) -> Line {
    heads::policy_line(heads::policy(random))
}

fn call_line(random: &mut Random) -> Line {
    let calls = random.pick(&CALLS);
    let words = random.pick(calls).split(' ');
    words.map(|word| word.into()).collect()
}

fn begins(line: &Line, name: &[u8]) -> bool {
    line.first().is_some_and(|word| word == name)
}

fn is_head(line: &Line) -> bool {
    begins(line, b"bearer") || begins(line, b"policy")
}

/// Damages this line or puts in another, and answers which.
fn strike(lines: &mut Vec<Line>, at: usize, random: &mut Random) -> usize {
    match random.below(24) {
        0 => misname(&mut lines[at], random),
        1 | 2 => return behind_a_call(lines, random),
        3 | 4 => return misname_kind(lines, at, random),
        5..=9 => miscount(&mut lines[at], random),
        10..=17 => spoil_numbers(&mut lines[at], random),
        18 | 19 => return ninth_bearer(lines, random),
        20 | 21 => return second_policy(lines, random),
        22 => put_return(&mut lines[at], random),
        _ => flip(&mut lines[at], random),
    }
    at
}

fn misname(line: &mut Line, random: &mut Random) {
    match line.first_mut() {
        Some(name) if random.chance(7, 8) => *name = random.pick(&NO_CALLS).into(),
        Some(_) => drop(line.remove(0)),
        None => line.push(random.pick(&NO_CALLS).into()),
    }
}

/// A line of a board or a policy, with no fault of its own.
fn head_line(random: &mut Random) -> Line {
    if random.chance(1, 2) {
        bearer_line(random)
    } else {
        policy_line(random)
    }
}

/// How many lines stand before the first call.
fn head_len(lines: &[Line]) -> usize {
    let first = lines.iter().position(|line| !is_head(line));
    first.unwrap_or(lines.len())
}

fn behind_a_call(lines: &mut Vec<Line>, random: &mut Random) -> usize {
    let least = (head_len(lines) + 1).min(lines.len());
    let at = random.among(least as u64, lines.len() as u64) as usize;
    lines.insert(at, head_line(random));
    at
}

/// Another kind, or none: of this line if it has one, and otherwise of a new one in front.
fn misname_kind(lines: &mut Vec<Line>, at: usize, random: &mut Random) -> usize {
    let at = if is_head(&lines[at]) {
        at
    } else {
        let at = random.among(0, head_len(lines) as u64) as usize;
        lines.insert(at, head_line(random));
        at
    };
    let line = &mut lines[at];
    match random.below(6) {
        0 => line.truncate(1),
        1 if line.len() > 1 => drop(line.remove(1)),
        _ => {
            line.resize(line.len().max(2), Word::new());
            line[1] = random.pick(&NO_KINDS).into();
        }
    }
    at
}

/// A word too few, or one or two too many, which mostly are no numbers.
fn miscount(line: &mut Line, random: &mut Random) {
    if random.chance(1, 3) {
        line.pop();
        return;
    }
    for _ in 0..random.among(1, 2) {
        let more: [&[u8]; 4] = [b"0", b"x", b"+1", b"18446744073709551616"];
        line.push(random.pick(&more).into());
    }
}

/// Writes another word in the place of one of the line's numbers, or of any of them, or behind its
/// words if it has none.
fn spoil_numbers(line: &mut Line, random: &mut Random) {
    let first = if is_head(line) { 2 } else { 1 };
    if line.len() <= first {
        line.push(no_number(random));
        return;
    }
    let place = random.among(first as u64, line.len() as u64 - 1) as usize;
    line[place] = no_number(random);
    if random.chance(1, 2) {
        for word in &mut line[first..] {
            if random.chance(1, 2) {
                *word = no_number(random);
            }
        }
    }
}

fn no_number(random: &mut Random) -> Word {
    if random.chance(1, 2) {
        random.pick(&NO_NUMBERS).into()
    } else {
        random.pick(&LARGE).into()
    }
}

/// Puts in bearers until there are nine, and answers the line of the ninth.
fn ninth_bearer(lines: &mut Vec<Line>, random: &mut Random) -> usize {
    put_in(bearer_line, 9, lines, random)
}

/// Puts in policies until there are two, and answers the line of the second.
fn second_policy(lines: &mut Vec<Line>, random: &mut Random) -> usize {
    put_in(policy_line, 2, lines, random)
}

/// Puts in lines before the first call until so many begin alike, and answers the last of so many.
fn put_in(
    line: fn(&mut Random) -> Line,
    count: usize,
    lines: &mut Vec<Line>,
    random: &mut Random,
) -> usize {
    loop {
        let line = line(random);
        let mut such = (0..lines.len()).filter(|&at| begins(&lines[at], &line[0]));
        if let Some(last) = such.nth(count - 1) {
            return last;
        }
        let at = random.among(0, head_len(lines) as u64) as usize;
        lines.insert(at, line);
    }
}

/// Puts carriage returns behind a line's words, of which the last alone may be the line's end.
fn put_return(line: &mut Line, random: &mut Random) {
    let ends: [&[u8]; 5] = [b"\r", b"\r\r", b"\r ", b"\r#", b"\r # here"];
    let end = random.pick(&ends);
    match line.last_mut() {
        Some(word) => word.extend(end),
        None => line.push(end.into()),
    }
}

/// Changes one bit of a word, or puts a byte into it that is no blank but looks like one.
fn flip(line: &mut Line, random: &mut Random) {
    if line.is_empty() {
        return;
    }
    let place = random.below(line.len() as u64) as usize;
    let word = &mut line[place];
    let at = random.below(word.len() as u64 + 1) as usize;
    if at < word.len() && random.chance(1, 2) {
        word[at] ^= 1 << random.below(8);
    } else {
        word.insert(at, random.pick(b"\r\x0b\x0c\0\xa0"));
    }
}
