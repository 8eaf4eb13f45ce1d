//! Words written as bytes, with all that is passed over between them: blanks, comments, carriage
//! returns, lines without words, and zeros in front of numbers.

use super::Line;
use crate::random::Random;

/// How often each of these is put in: so many times of 32.
#[derive(Default)]
struct Dress {
    blanks: u64,
    comments: u64,
    returns: u64,
    empty_lines: u64,
    zeros: u64,
}

/// The lines as bytes. A third of all texts is plain.
pub fn dressed(lines: &[Line], random: &mut Random) -> Vec<u8> {
    let dress = if random.chance(1, 3) {
        Dress::default()
    } else {
        Dress {
            blanks: random.pick(&[0, 1, 8]),
            comments: random.pick(&[0, 1, 8]),
            returns: random.pick(&[0, 1, 32]),
            empty_lines: random.pick(&[0, 1, 8]),
            zeros: random.pick(&[0, 1, 4]),
        }
    };
    let mut bytes = Vec::new();
    for line in lines {
        while random.chance(dress.empty_lines, 32) {
            dress.put(&[], random, &mut bytes);
        }
        dress.put(line, random, &mut bytes);
    }
    if random.chance(1, 4) {
        bytes.pop();
    }
    bytes
}

impl Dress {
    fn put(&self, line: &[Vec<u8>], random: &mut Random, bytes: &mut Vec<u8>) {
        self.put_blanks(0, random, bytes);
        for (place, word) in line.iter().enumerate() {
            if place > 0 {
                self.put_blanks(1, random, bytes);
            }
            let is_number = word.iter().all(u8::is_ascii_digit);
            if is_number && random.chance(self.zeros, 32) {
                let zeros = random.among(1, 30) as usize;
                bytes.extend(vec![b'0'; zeros]);
            }
            bytes.extend(word);
        }
        self.put_blanks(0, random, bytes);
        if random.chance(self.comments, 32) {
            put_comment(random, bytes);
        }
        if random.chance(self.returns, 32) {
            bytes.push(b'\r');
        }
        bytes.push(b'\n');
    }

    /// So many spaces, or now and then other blanks and more of them.
    fn put_blanks(&self, least: usize, random: &mut Random, bytes: &mut Vec<u8>) {
        if random.chance(self.blanks, 32) {
            let count = random.among(1, 4);
            bytes.extend((0..count).map(|_| random.pick(b" \t")));
        } else {
            bytes.extend(vec![b' '; least]);
        }
    }
}

/// What follows the `#` is any byte that does not end the line.
fn put_comment(random: &mut Random, bytes: &mut Vec<u8>) {
    let said = random.pick(&["", " the flood", "bearer ring 8", "# policy backlog", " \r"]);
    bytes.push(b'#');
    bytes.extend(said.as_bytes());
    if random.chance(1, 4) {
        let len = random.among(1, 40) as usize;
        let noise = random.bytes(len);
        bytes.extend(noise.into_iter().filter(|&byte| byte != b'\n'));
    }
}
