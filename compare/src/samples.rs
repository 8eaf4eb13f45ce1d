//! Example J of the rules and the sample captures, replayed by both sides, and the tables that
//! they are known to have.

use crate::replays;
use crate::terms::Replayed;
use std::fs;
use std::io;
use std::path::{Path, PathBuf};

/// Example J: the three packets as a savefile, and its tables as the rules print them.
const J_PACKETS: [(u32, u8, u32); 3] = [(0, 0, 20), (10, 1, 100), (1_000, 2, 384)];
const J_TABLES: [&str; 2] = [
    "packet,bearer,length,fate,period\r\n0,0,20,delivered,0\r\n1,1,100,delivered,0\r\n2,2,384,delivered,1\r\n",
    "period,network,application\r\n0,1700,62300\r\n",
];

/// Replays them all, and says how many samples there were, or what differs.
pub fn hold() -> Result<usize, String> {
    example_j().map_err(|differs| format!("example J: {differs}"))?;
    let samples = captures().map_err(|error| format!("samples: {error}"))?;
    if samples.is_empty() {
        return Err("there are no samples".into());
    }
    for sample in &samples {
        let name = sample.file_name().unwrap_or_default().display();
        hold_sample(sample).map_err(|differs| format!("sample {name}: {differs}"))?;
    }
    Ok(samples.len())
}

fn example_j() -> Result<(), String> {
    let made = replays::agreed(&example_j_capture())?;
    let [packets, periods] = J_TABLES.map(str::as_bytes);
    same("packets", made.packets(), packets)?;
    same("periods", made.periods(), periods)?;
    let figures = Replayed {
        packets: 3,
        turns: 25,
        periods: 1,
        delivered: 3,
        packets_len: packets.len() as u64,
        periods_len: periods.len() as u64,
        ..Replayed::default()
    };
    match made.outcome {
        Ok(others) if others == figures => Ok(()),
        other => Err(format!("{other:?} instead of {figures:?}")),
    }
}

fn example_j_capture() -> Vec<u8> {
    let mut capture = vec![0xD4, 0xC3, 0xB2, 0xA1, 2, 0, 4, 0];
    capture.resize(24, 0);
    for (micros, bearer, length) in J_PACKETS {
        for number in [0, micros, 1, length + 1] {
            capture.extend(number.to_le_bytes());
        }
        capture.push(bearer);
    }
    capture
}

/// Both tables of a sample are those that stand beside it; of a refused one, the refusal.
fn hold_sample(sample: &Path) -> Result<(), String> {
    let read =
        |path: PathBuf| fs::read(&path).map_err(|error| format!("{}: {error}", path.display()));
    let made = replays::agreed(&read(sample.to_path_buf())?)?;
    let refusal = made.outcome.err();
    let refusal = refusal.map(|it| format!("{},{}\r\n", it.number, it.place).into_bytes());
    for (name, table) in [("packets", made.packets()), ("periods", made.periods())] {
        let known = read(sample.with_extension(format!("{name}.csv")))?;
        same(name, refusal.as_deref().unwrap_or(table), &known)?;
    }
    Ok(())
}

fn same(name: &str, table: &[u8], known: &[u8]) -> Result<(), String> {
    if table == known {
        return Ok(());
    }
    let place = table
        .iter()
        .zip(known)
        .take_while(|(one, another)| one == another)
        .count();
    Err(format!(
        "the {name} table is not the known one, from byte {place} on"
    ))
}

/// The repository's folder of samples.
pub fn folder() -> PathBuf {
    Path::new(env!("CARGO_MANIFEST_DIR")).join("../samples")
}

fn captures() -> io::Result<Vec<PathBuf>> {
    let mut captures = Vec::new();
    for entry in fs::read_dir(folder())? {
        captures.push(entry?.path());
    }
    captures.retain(|path| {
        path.extension()
            .is_some_and(|extension| extension == "pcap")
    });
    captures.sort();
    Ok(captures)
}
