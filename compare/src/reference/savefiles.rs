//! Writing savefiles, for the tests.

/// A record to write; as many octets of data as `captured` says, all of them
/// the bearer's number.
#[derive(Clone, Copy)]
pub struct Record {
    pub seconds: u32,
    pub microseconds: u32,
    pub captured: u32,
    pub original: u32,
    pub bearer: u8,
}

/// The record of a packet of which nothing but its bearer was captured.
pub const fn packet(microseconds: u32, bearer: u8, length: u32) -> Record {
    Record {
        seconds: 0,
        microseconds,
        captured: 1,
        original: length + 1,
        bearer,
    }
}

pub fn little(records: &[Record]) -> Vec<u8> {
    write(records, u32::to_le_bytes, u16::to_le_bytes)
}

pub fn big(records: &[Record]) -> Vec<u8> {
    write(records, u32::to_be_bytes, u16::to_be_bytes)
}

fn write(records: &[Record], word: fn(u32) -> [u8; 4], half: fn(u16) -> [u8; 2]) -> Vec<u8> {
    let mut file = Vec::new();
    file.extend(word(0xA1B2_C3D4));
    file.extend(half(2));
    file.extend(half(4));
    file.extend([0xFF; 16]);
    for record in records {
        file.extend(word(record.seconds));
        file.extend(word(record.microseconds));
        file.extend(word(record.captured));
        file.extend(word(record.original));
        file.extend(vec![record.bearer; record.captured as usize]);
    }
    file
}
