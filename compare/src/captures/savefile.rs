//! Writing a libpcap savefile in either byte order, and setting numbers of it afterwards.

use crate::random::Random;

pub const HEADER: usize = 24;

/// Where the numbers of a record stand in it, and its data.
pub const SECONDS: usize = 0;
pub const MICROS: usize = 4;
pub const CAPTURED: usize = 8;
pub const ORIGINAL: usize = 12;
pub const DATA: usize = 16;

/// The latest timestamp that a record can say.
pub const LATEST: u64 = u32::MAX as u64 * 1_000_000 + u32::MAX as u64;

pub struct Record {
    pub seconds: u32,
    pub micros: u32,
    pub captured: u32,
    pub original: u32,
    pub bearer: u8,
}

/// A savefile, with the places of its records while nothing was cut from it.
pub struct Savefile {
    pub bytes: Vec<u8>,
    pub records: Vec<usize>,
    big: bool,
}

impl Savefile {
    /// The header alone. The bytes of it that nothing is read from are random.
    pub fn new(random: &mut Random) -> Self {
        let big = random.chance(1, 2);
        let start = if big {
            [0xA1, 0xB2, 0xC3, 0xD4, 0, 2, 0, 4]
        } else {
            [0xD4, 0xC3, 0xB2, 0xA1, 2, 0, 4, 0]
        };
        let mut bytes = start.to_vec();
        bytes.extend(random.bytes(HEADER - start.len()));
        Self {
            bytes,
            records: Vec::new(),
            big,
        }
    }

    /// Puts the record at the end: the bearer's octet, and random data behind it.
    pub fn push(&mut self, record: &Record, random: &mut Random) {
        self.records.push(self.bytes.len());
        for number in [
            record.seconds,
            record.micros,
            record.captured,
            record.original,
        ] {
            self.bytes.extend(self.number(number));
        }
        let data = self.bytes.len();
        self.bytes.extend(random.bytes(record.captured as usize));
        if let Some(first) = self.bytes.get_mut(data) {
            *first = record.bearer;
        }
    }

    /// Sets the number at this place, in the file's byte order.
    pub fn set(&mut self, at: usize, number: u32) {
        let number = self.number(number);
        self.bytes[at..at + 4].copy_from_slice(&number);
    }

    pub fn get(&self, at: usize) -> u32 {
        let number = self.bytes[at..at + 4]
            .try_into()
            .expect("a number has four bytes");
        if self.big {
            u32::from_be_bytes(number)
        } else {
            u32::from_le_bytes(number)
        }
    }

    /// The timestamp of the record at this place.
    pub fn stamp(&self, at: usize) -> u64 {
        u64::from(self.get(at + SECONDS)) * 1_000_000 + u64::from(self.get(at + MICROS))
    }

    fn number(&self, number: u32) -> [u8; 4] {
        if self.big {
            number.to_be_bytes()
        } else {
            number.to_le_bytes()
        }
    }
}

/// A timestamp as seconds and microseconds; now and then with microseconds of more than a second.
pub fn divided(stamp: u64, random: &mut Random) -> (u32, u32) {
    let most = (stamp / 1_000_000).min(u32::MAX.into());
    let least = stamp.saturating_sub(u32::MAX.into()).div_ceil(1_000_000);
    let seconds = if random.chance(1, 8) {
        random.among(least, most)
    } else {
        most
    };
    (seconds as u32, (stamp - seconds * 1_000_000) as u32)
}
