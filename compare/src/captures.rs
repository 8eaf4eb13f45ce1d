//! Random captures, good and damaged: a seed gives the same capture everywhere.

mod damage;
mod savefile;
mod shapes;

pub use shapes::Shape;

use crate::random::Random;
use savefile::{Record, Savefile};
use shapes::Packet;

/// The capture of a seed. Each shape has an equal share, and half of the captures are damaged.
pub fn capture(seed: u64) -> Vec<u8> {
    let mut random = Random::new(seed);
    let shape = random.pick(&Shape::ALL);
    let mut savefile = written(shape, &mut random);
    if random.chance(1, 2) {
        damage::damage(&mut savefile, &mut random);
    }
    savefile.bytes
}

/// A capture of this shape that no damage was done to.
pub fn undamaged(shape: Shape, seed: u64) -> Vec<u8> {
    written(shape, &mut Random::new(seed)).bytes
}

fn written(shape: Shape, random: &mut Random) -> Savefile {
    let packets = shape.packets(random);
    let kept = kept(&packets, random);
    let any = random.below(savefile::LATEST);
    let base = random.pick(&[0, 1_767_600_000_250_000, savefile::LATEST - 2_000_000, any]);
    let mut savefile = Savefile::new(random);
    for packet in &packets {
        savefile.push(&record(packet, base, kept, random), random);
    }
    savefile
}

/// How many octets of data are kept of a packet: whole packets only where the file has room.
fn kept(packets: &[Packet], random: &mut Random) -> u32 {
    let kept = random.pick(&[1, 4, 48, 400]);
    if packets.len() * (savefile::DATA + kept) < 65_000 {
        kept as u32
    } else {
        40
    }
}

fn record(packet: &Packet, base: u64, kept: u32, random: &mut Random) -> Record {
    let stamp = base.saturating_add(packet.moment).min(savefile::LATEST);
    let (seconds, micros) = savefile::divided(stamp, random);
    let original = packet.length + 1;
    // A tool that pads its data captures more than there was: no fault either.
    let captured = if random.chance(1, 50) {
        kept
    } else {
        original.min(kept)
    };
    Record {
        seconds,
        micros,
        captured,
        original,
        bearer: packet.bearer,
    }
}
