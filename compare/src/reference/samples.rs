//! The samples' stored tables, and the stored answers of those that are calls.

use super::{printed, replay};
use std::fs;
use std::path::{Path, PathBuf};

const ROOM: usize = 65_536;

/// The samples whose names end so.
fn samples(end: &str) -> Vec<PathBuf> {
    let folder = Path::new(env!("CARGO_MANIFEST_DIR")).join("../samples");
    let mut samples: Vec<_> = fs::read_dir(folder)
        .unwrap()
        .map(|entry| entry.unwrap().path())
        .filter(|path| path.extension().is_some_and(|is| is == end))
        .collect();
    samples.sort();
    assert!(!samples.is_empty());
    samples
}

/// The two tables that are printed of a capture.
fn tables(capture: &[u8]) -> [Vec<u8>; 2] {
    let mut packets = vec![0; ROOM];
    let mut periods = vec![0; ROOM];
    match replay(capture, &mut packets, &mut periods) {
        Ok(replayed) => {
            packets.truncate(replayed.packets_len as usize);
            periods.truncate(replayed.periods_len as usize);
            [packets, periods]
        }
        Err(refused) => {
            let row = format!("{},{}\r\n", refused.number, refused.place);
            [row.clone().into_bytes(), row.into_bytes()]
        }
    }
}

#[test]
fn samples_have_their_stored_tables() {
    for path in samples("pcap") {
        let stored =
            ["packets.csv", "periods.csv"].map(|end| fs::read(path.with_extension(end)).unwrap());
        let text = |tables: [Vec<u8>; 2]| tables.map(|table| String::from_utf8(table).unwrap());
        assert_eq!(
            text(tables(&fs::read(&path).unwrap())),
            text(stored),
            "{path:?}"
        );
    }
}

#[test]
fn samples_of_calls_have_their_stored_answers() {
    for path in samples("calls") {
        let (Ok(printed) | Err(printed)) = printed(&fs::read(&path).unwrap());
        let stored = fs::read_to_string(path.with_extension("answers")).unwrap();
        assert_eq!(printed, stored, "{path:?}");
    }
}
