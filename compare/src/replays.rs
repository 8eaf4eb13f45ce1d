//! A capture replayed by both sides, in memories of several lengths.

mod met;

pub use met::Met;

use crate::lent::Lent;
use crate::random::Random;
use crate::terms::{Refused, Replayed};
use crate::{differences, proved, reference};

pub type Outcome = Result<Replayed, Refused>;
pub type Replay = fn(&[u8], &mut [u8], &mut [u8]) -> Outcome;

/// Room for every table: at most 1,024 rows of 28 bytes, or 1,000 of 17, and a header.
const AMPLE: Lengths = Lengths {
    packets: 30_000,
    periods: 18_000,
};

/// How many bytes are lent for each table.
#[derive(Clone, Copy, Debug)]
struct Lengths {
    packets: usize,
    periods: usize,
}

/// A replay that one side made, and the memories it was lent.
pub struct Made {
    pub outcome: Outcome,
    packets: Lent,
    periods: Lent,
}

/// Replays the capture on both sides, and says what differs. With ample memory first; the further
/// memories are chosen by the seed.
pub fn hold(capture: &[u8], seed: u64, met: &mut Met) -> Result<(), String> {
    let mut random = Random::new(!seed);
    let ample = both(capture, AMPLE, random.next())?.outcome;
    met.note(&ample);
    for _ in 0..2 {
        let lengths = lengths(&ample, &mut random);
        let again = both(capture, lengths, random.next())?.outcome;
        if again != asked(ample, lengths) {
            return Err(format!(
                "{ample:?} with ample memory, {again:?} with {lengths:?}"
            ));
        }
        met.note_memory(&again);
    }
    Ok(())
}

/// The replay of a capture in ample memory, in which both sides agree.
pub fn agreed(capture: &[u8]) -> Result<Made, String> {
    both(capture, AMPLE, 0)
}

/// What the proved side and the reference make of a capture.
pub fn outcomes(capture: &[u8]) -> [Outcome; 2] {
    [proved::replay, reference::replay].map(|replay| made(replay, capture, AMPLE, 0).outcome)
}

fn both(capture: &[u8], lengths: Lengths, seed: u64) -> Result<Made, String> {
    let proved = made(proved::replay, capture, lengths, seed);
    let reference = made(reference::replay, capture, lengths, seed);
    proved
        .keeps_to_tables()
        .map_err(|broken| format!("proved: {broken}"))?;
    reference
        .keeps_to_tables()
        .map_err(|broken| format!("reference: {broken}"))?;
    let differences = all_differences(&proved, &reference);
    if differences.is_empty() {
        return Ok(proved);
    }
    Err(format!("with {lengths:?}: {}", differences.join("; ")))
}

fn made(replay: Replay, capture: &[u8], lengths: Lengths, seed: u64) -> Made {
    let mut packets = Lent::new(lengths.packets, seed);
    let mut periods = Lent::new(lengths.periods, !seed);
    let outcome = replay(capture, packets.memory(), periods.memory());
    Made {
        outcome,
        packets,
        periods,
    }
}

impl Made {
    /// The packets table, nothing where there is none.
    pub fn packets(&self) -> &[u8] {
        &self.packets.held()[..self.outcome.map_or(0, |it| it.packets_len as usize)]
    }

    pub fn periods(&self) -> &[u8] {
        &self.periods.held()[..self.outcome.map_or(0, |it| it.periods_len as usize)]
    }

    /// Whether the tables are in the lent memories, and all else is as it was.
    fn keeps_to_tables(&self) -> Result<(), String> {
        let figures = self.outcome.unwrap_or_default();
        let packets = ("packets", &self.packets, figures.packets_len);
        let periods = ("periods", &self.periods, figures.periods_len);
        for (table, lent, len) in [packets, periods] {
            if len > lent.held().len() as u64 {
                return Err(format!(
                    "the {table} table would have {len} bytes, more than were lent"
                ));
            }
            if let Some(place) = lent.touched(len as usize) {
                return Err(format!(
                    "byte {place} of the {table} memory changed, beside {len} of table"
                ));
            }
        }
        Ok(())
    }
}

/// What differs: of the figures the first, and of each table the first row.
fn all_differences(proved: &Made, reference: &Made) -> Vec<String> {
    let figure = match (proved.outcome, reference.outcome) {
        (Ok(figures), Ok(others)) => figure(&figures, &others),
        (one, other) if one == other => None,
        (one, other) => Some(format!("proved {one:?}, reference {other:?}")),
    };
    let row = |table, one, other| differences::line(table, "proved", one, other);
    let packets = row("packets table", proved.packets(), reference.packets());
    let periods = row("periods table", proved.periods(), reference.periods());
    [figure, packets, periods].into_iter().flatten().collect()
}

fn figure(proved: &Replayed, reference: &Replayed) -> Option<String> {
    let names = |it: &Replayed| {
        [
            ("packets", it.packets),
            ("turns", it.turns),
            ("periods", it.periods),
            ("delivered", it.delivered),
            ("bearer-full", it.bearer_full),
            ("queue-full", it.queue_full),
            ("waiting", it.waiting),
            ("pending", it.pending),
            ("bytes of the packets table", it.packets_len),
            ("bytes of the periods table", it.periods_len),
        ]
    };
    let mut pairs = names(proved).into_iter().zip(names(reference));
    let ((name, one), (_, other)) = pairs.find(|(one, other)| one != other)?;
    Some(format!("{name}: proved {one}, reference {other}"))
}

/// Lengths about those of the tables; of a refused capture, any, none included.
fn lengths(outcome: &Outcome, random: &mut Random) -> Lengths {
    let Ok(replayed) = outcome else {
        return Lengths {
            packets: random.pick(&[0, 40, 400]),
            periods: random.pick(&[0, 40, 400]),
        };
    };
    let (packets, periods) = (replayed.packets_len as usize, replayed.periods_len as usize);
    let (packets, periods) = match random.below(7) {
        0 | 1 => (packets, periods),
        2 => (packets - 1, periods),
        3 => (packets, periods - 1),
        4 => (packets - 1, periods - 1),
        5 => random.pick(&[(0, 0), (packets, 0), (0, periods)]),
        _ => (
            random.below(2 * packets as u64) as usize,
            random.below(2 * periods as u64) as usize,
        ),
    };
    Lengths { packets, periods }
}

/// What has to come of a replay in memory of these lengths, by what came of it in ample memory.
fn asked(ample: Outcome, lengths: Lengths) -> Outcome {
    let replayed = ample?;
    for (len, lent) in [
        (replayed.packets_len, lengths.packets),
        (replayed.periods_len, lengths.periods),
    ] {
        if len > lent as u64 {
            return Err(Refused {
                number: 17,
                place: len,
            });
        }
    }
    Ok(replayed)
}
