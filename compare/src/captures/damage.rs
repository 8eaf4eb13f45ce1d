//! Damage to a savefile: faults at the edges of every check, and bytes that nobody would write.

use super::savefile::{self, Record, Savefile, CAPTURED, DATA, HEADER, MICROS, ORIGINAL, SECONDS};
use crate::random::Random;

pub fn damage(savefile: &mut Savefile, random: &mut Random) {
    match random.below(9) {
        0 => header(savefile, random),
        1 => cut(savefile, random),
        2 => stretch(savefile, random),
        3 | 4 => faults(savefile, 1, random),
        5 => faults(savefile, 2, random),
        6 => flips(savefile, random),
        7 => swap(savefile, random),
        _ => noise(savefile, random),
    }
}

/// Another magic number or version, or a header that is cut.
fn header(savefile: &mut Savefile, random: &mut Random) {
    match random.below(4) {
        0 => savefile.bytes[random.below(8) as usize] = random.next() as u8,
        1 => savefile.set(
            0,
            random.pick(&[0xA1B2_3C4D, 0x0A0D_0D0A, 0xA1B2_C3D4, 0xD4C3_B2A1, 0]),
        ),
        2 => savefile.set(
            4,
            random.pick(&[
                0x0002_0004,
                0x0004_0002,
                0x0002_0003,
                0x0001_0004,
                0x0200_0400,
            ]),
        ),
        _ => savefile
            .bytes
            .truncate(random.among(0, HEADER as u64) as usize),
    }
}

/// Cuts the file anywhere, often about where a record begins or its header ends.
fn cut(savefile: &mut Savefile, random: &mut Random) {
    let anywhere = random.below(savefile.bytes.len() as u64 + 1) as usize;
    let at = if savefile.records.is_empty() || random.chance(1, 3) {
        anywhere
    } else {
        random.pick(&savefile.records) + random.pick(&[0, DATA]) + random.below(3) as usize
    };
    savefile.bytes.truncate(at.saturating_sub(1));
}

/// Makes the file as long as a capture may be or nearly so, by the last record's data.
fn stretch(savefile: &mut Savefile, random: &mut Random) {
    let last = record(savefile, true, random);
    let missing = (random.among(65_535, 65_538) as usize).saturating_sub(savefile.bytes.len());
    savefile.set(
        last + CAPTURED,
        savefile.get(last + CAPTURED) + missing as u32,
    );
    savefile.bytes.extend(random.bytes(missing));
}

/// So many faults in one record, the last or any.
fn faults(savefile: &mut Savefile, count: u64, random: &mut Random) {
    let at = record(savefile, random.chance(1, 2), random);
    for _ in 0..count {
        match random.below(4) {
            0 => captured(savefile, at, random),
            1 => savefile.bytes[at + DATA] = random.pick(&[2, 3, 3, 4, 128, 255]),
            2 => moment(savefile, at, random),
            _ => savefile.set(
                at + ORIGINAL,
                random.pick(&[0, 1, 2, 385, 386, 387, u32::MAX]),
            ),
        }
    }
}

/// A captured length of 0, up to the end of the file or past it, or so large that a sum with it
/// wraps.
fn captured(savefile: &mut Savefile, at: usize, random: &mut Random) {
    let rest = (savefile.bytes.len() - at - DATA) as u32;
    let wraps = (at as u32).wrapping_neg();
    let near = random.pick(&[
        0,
        0,
        rest,
        rest + 1,
        wraps,
        wraps.wrapping_sub(DATA as u32),
        u32::MAX - DATA as u32,
        u32::MAX,
    ]);
    let off = random.below(3) as u32;
    savefile.set(
        at + CAPTURED,
        if random.chance(1, 3) {
            near.saturating_add(off)
        } else {
            near
        },
    );
}

/// A timestamp about a second after the first packet's, before it, or as late as can be.
fn moment(savefile: &mut Savefile, at: usize, random: &mut Random) {
    let first = savefile.stamp(savefile.records[0]);
    let far = random.pick(&[999_999, 1_000_000, 1_000_001, 2_000_000, savefile::LATEST]);
    let stamp = if random.chance(1, 6) {
        first.saturating_sub(far)
    } else {
        first.saturating_add(far)
    };
    let (seconds, micros) = savefile::divided(stamp.min(savefile::LATEST), random);
    savefile.set(at + SECONDS, seconds);
    savefile.set(at + MICROS, micros);
}

fn flips(savefile: &mut Savefile, random: &mut Random) {
    for _ in 0..random.among(1, 5) {
        let at = random.below(savefile.bytes.len() as u64) as usize;
        savefile.bytes[at] ^= 1 << random.below(8);
    }
}

/// Turns the numbers of the header into the other byte order, and none of the records'.
fn swap(savefile: &mut Savefile, random: &mut Random) {
    savefile.bytes[0..4].reverse();
    savefile.bytes[4..6].reverse();
    savefile.bytes[6..8].reverse();
    if random.chance(1, 4) {
        savefile.bytes.truncate(HEADER);
    }
}

/// Random bytes, with a good header or without one.
fn noise(savefile: &mut Savefile, random: &mut Random) {
    let keep = random.pick(&[0, 8, HEADER]);
    savefile.bytes.truncate(keep);
    let len = random.pick(&[0, 15, 16, 17, 40, 400, 65_536 - keep, 65_537 - keep, 70_000]);
    savefile.bytes.extend(random.bytes(len));
}

/// The place of the last record, or of any; of a new one where the file has none.
fn record(savefile: &mut Savefile, last: bool, random: &mut Random) -> usize {
    if savefile.records.is_empty() {
        savefile.push(
            &Record {
                seconds: 0,
                micros: 0,
                captured: 1,
                original: 2,
                bearer: 0,
            },
            random,
        );
    }
    let places = &savefile.records;
    if last {
        places[places.len() - 1]
    } else {
        random.pick(places)
    }
}
