//! Reading captures: the libpcap savefile.

use super::packets::is_length;
use super::refusals::Refusal;

const LONGEST_CAPTURE: usize = 65_536;
const MOST_PACKETS: usize = 1_024;
const SECOND: u64 = 1_000_000;
const MAGIC: u32 = 0xA1B2_C3D4;
const VERSION: [u16; 2] = [2, 4];
const FILE_HEADER: usize = 24;
const RECORD_HEADER: usize = 16;

/// A packet of a capture.
#[derive(Clone, Copy, PartialEq, Eq, Debug)]
pub struct Captured {
    pub bearer: u8,
    pub length: u64,
    /// In microseconds.
    pub timestamp: u64,
}

#[derive(Clone, Copy)]
enum ByteOrder {
    Little,
    Big,
}

impl ByteOrder {
    fn word(self, bytes: [u8; 4]) -> u32 {
        match self {
            ByteOrder::Little => u32::from_le_bytes(bytes),
            ByteOrder::Big => u32::from_be_bytes(bytes),
        }
    }

    fn half(self, bytes: [u8; 2]) -> u16 {
        match self {
            ByteOrder::Little => u16::from_le_bytes(bytes),
            ByteOrder::Big => u16::from_be_bytes(bytes),
        }
    }
}

/// A record as it stands in the file.
struct Record<'a> {
    timestamp: u64,
    original: u32,
    data: &'a [u8],
}

/// The packets of a capture for a board that shows so many bearers.
pub fn read(capture: &[u8], shown: u8) -> Result<Vec<Captured>, Refusal> {
    if capture.len() > LONGEST_CAPTURE {
        return Err(Refusal::CaptureTooLong);
    }
    let order = byte_order(capture).ok_or(Refusal::NotASavefile)?;
    let mut packets: Vec<Captured> = Vec::new();
    let mut offset = FILE_HEADER;
    while offset < capture.len() {
        let place = offset as u64;
        let record = record(&capture[offset..], order).ok_or(Refusal::RecordCutOff(place))?;
        packets.push(packet(&record, &packets, shown, place)?);
        offset += RECORD_HEADER + record.data.len();
    }
    Ok(packets)
}

/// The byte order of a savefile, if these bytes begin with a savefile's header.
fn byte_order(capture: &[u8]) -> Option<ByteOrder> {
    let header = capture.first_chunk::<FILE_HEADER>()?;
    let [a, b, c, d, e, f, g, h, ..] = *header;
    let order = [ByteOrder::Little, ByteOrder::Big]
        .into_iter()
        .find(|order| order.word([a, b, c, d]) == MAGIC)?;
    ([order.half([e, f]), order.half([g, h])] == VERSION).then_some(order)
}

/// The record at the front of these bytes, if they have all of it.
fn record(bytes: &[u8], order: ByteOrder) -> Option<Record<'_>> {
    let (header, rest) = bytes.split_first_chunk::<RECORD_HEADER>()?;
    let word = |at: usize| order.word([header[at], header[at + 1], header[at + 2], header[at + 3]]);
    Some(Record {
        timestamp: u64::from(word(0)) * SECOND + u64::from(word(4)),
        original: word(12),
        data: rest.get(..word(8) as usize)?,
    })
}

/// The packet of a record, behind those read before it.
fn packet(
    record: &Record,
    before: &[Captured],
    shown: u8,
    place: u64,
) -> Result<Captured, Refusal> {
    let bearer = *record.data.first().ok_or(Refusal::NoData(place))?;
    if bearer >= shown {
        return Err(Refusal::RecordBearer(place));
    }
    if before.len() >= MOST_PACKETS {
        return Err(Refusal::TooManyPackets(place));
    }
    let timestamp = record.timestamp;
    let first = before.first().map_or(timestamp, |packet| packet.timestamp);
    if timestamp.saturating_sub(first) >= SECOND {
        return Err(Refusal::TooLate(place));
    }
    match u64::from(record.original).checked_sub(1) {
        Some(length) if is_length(length) => Ok(Captured {
            bearer,
            length,
            timestamp,
        }),
        _ => Err(Refusal::RecordLength(place)),
    }
}

#[cfg(test)]
mod tests {
    use super::super::savefiles::{big, little, packet, Record};
    use super::*;

    const GOOD: Record = Record {
        seconds: 5,
        microseconds: 0,
        captured: 1,
        original: 2,
        bearer: 2,
    };

    /// The refusal of a capture of one good record and this one, which is at
    /// offset 41.
    fn refusal(record: Record) -> Option<Refusal> {
        read(&little(&[GOOD, record]), 3).err()
    }

    #[test]
    fn both_byte_orders_are_read() {
        let records = [packet(7, 0, 20), packet(3, 2, 384)];
        let expected = [(0, 20, 7), (2, 384, 3)].map(|(bearer, length, timestamp)| Captured {
            bearer,
            length,
            timestamp,
        });
        assert_eq!(read(&little(&records), 3), Ok(expected.to_vec()));
        assert_eq!(read(&big(&records), 3), Ok(expected.to_vec()));
        assert_eq!(read(&little(&[]), 3), Ok(vec![]));
    }

    #[test]
    fn longest_capture() {
        assert_eq!(read(&[0; 65_537], 3), Err(Refusal::CaptureTooLong));
        assert_eq!(read(&[0; 65_536], 3), Err(Refusal::NotASavefile));
        let all = Record {
            captured: 65_536 - 40,
            ..GOOD
        };
        let mut file = little(&[all]);
        assert_eq!(read(&file, 3).map(|packets| packets.len()), Ok(1));
        file.push(0);
        assert_eq!(read(&file, 3), Err(Refusal::CaptureTooLong));
    }

    #[test]
    fn header() {
        let header = little(&[]);
        assert_eq!(read(&header[..23], 3), Err(Refusal::NotASavefile));
        for at in 0..8 {
            let mut other = header.clone();
            other[at] ^= 1;
            assert_eq!(read(&other, 3), Err(Refusal::NotASavefile), "{at}");
        }
        let mut mixed = header;
        mixed[4..8].copy_from_slice(&big(&[])[4..8]);
        assert_eq!(read(&mixed, 3), Err(Refusal::NotASavefile));
    }

    #[test]
    fn record_cut_off() {
        let two = little(&[
            GOOD,
            Record {
                captured: 3,
                ..GOOD
            },
        ]);
        for length in 42..two.len() {
            assert_eq!(read(&two[..length], 3), Err(Refusal::RecordCutOff(41)));
        }
        assert_eq!(read(&two[..41], 3).map(|packets| packets.len()), Ok(1));
        let mut endless = little(&[GOOD]);
        endless[32..36].fill(0xFF);
        assert_eq!(read(&endless, 3), Err(Refusal::RecordCutOff(24)));
    }

    #[test]
    fn data_and_bearer() {
        let empty = Record {
            captured: 0,
            original: 0,
            ..GOOD
        };
        assert_eq!(refusal(empty), Some(Refusal::NoData(41)));
        let hidden = Record {
            bearer: 3,
            seconds: 9,
            ..GOOD
        };
        assert_eq!(refusal(hidden), Some(Refusal::RecordBearer(41)));
    }

    #[test]
    fn timestamp() {
        let at = |seconds, microseconds| Record {
            seconds,
            microseconds,
            original: 386,
            ..GOOD
        };
        let late = Some(Refusal::TooLate(41));
        let not_late = Some(Refusal::RecordLength(41));
        assert_eq!(refusal(at(6, 0)), late);
        assert_eq!(refusal(at(5, 1_000_000)), late);
        assert_eq!(refusal(at(5, 999_999)), not_late);
        assert_eq!(refusal(at(0, 0)), not_late);
        assert_eq!(refusal(at(u32::MAX, u32::MAX)), late);
    }

    #[test]
    fn length() {
        let original = |original| Record { original, ..GOOD };
        let bad = Some(Refusal::RecordLength(41));
        assert_eq!(
            [0, 1, 386, u32::MAX].map(|o| refusal(original(o))),
            [bad; 4]
        );
        assert_eq!([2, 385].map(|o| refusal(original(o))), [None; 2]);
    }

    #[test]
    fn most_packets() {
        let mut records = vec![GOOD; 1_024];
        assert_eq!(
            read(&little(&records), 3).map(|packets| packets.len()),
            Ok(1_024)
        );
        records.push(Record {
            original: 0,
            ..GOOD
        });
        let place = 24 + 1_024 * 17;
        assert_eq!(
            read(&little(&records), 3),
            Err(Refusal::TooManyPackets(place))
        );
        records[1_024].bearer = 3;
        assert_eq!(
            read(&little(&records), 3),
            Err(Refusal::RecordBearer(place))
        );
    }
}
