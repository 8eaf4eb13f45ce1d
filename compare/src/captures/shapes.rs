//! What the packets of a capture are like, before they are written.

use crate::random::Random;

/// A packet, its moment in microseconds.
pub struct Packet {
    pub moment: u64,
    pub bearer: u8,
    pub length: u32,
}

#[derive(Clone, Copy, PartialEq, Eq, Debug)]
pub enum Shape {
    /// A few packets, mostly far apart; sometimes none.
    Quiet,
    /// Many packets on one bearer with little between them, and a few on the others.
    Flood,
    /// Packets that come together, then nothing for long.
    Bursts,
    /// Timestamps that go back and forth.
    Back,
    /// 1,023, 1,024 or 1,025 packets.
    Crowded,
    /// A packet about a second behind the first.
    Second,
    /// Packets so late in the second that the replay goes to its last period.
    Late,
}

impl Shape {
    pub const ALL: [Shape; 7] = [
        Shape::Quiet,
        Shape::Flood,
        Shape::Bursts,
        Shape::Back,
        Shape::Crowded,
        Shape::Second,
        Shape::Late,
    ];

    pub fn packets(self, random: &mut Random) -> Vec<Packet> {
        match self {
            Shape::Quiet => quiet(random),
            Shape::Flood => flood(random),
            Shape::Bursts => bursts(random),
            Shape::Back => back(random),
            Shape::Crowded => crowded(random),
            Shape::Second => second(random),
            Shape::Late => late(random),
        }
    }
}

fn quiet(random: &mut Random) -> Vec<Packet> {
    let mut moment = 0;
    (0..random.below(20))
        .map(|_| {
            moment += random.of_any_size(50_000);
            on_any(moment, random)
        })
        .collect()
}

fn flood(random: &mut Random) -> Vec<Packet> {
    let flooded = bearer(random);
    let gap = random.pick(&[0, 10, 40, 100, 700]);
    let mut moment = 0;
    (0..random.among(20, 400))
        .map(|_| {
            moment += random.among(0, gap);
            let bearer = if random.chance(1, 12) {
                bearer(random)
            } else {
                flooded
            };
            Packet {
                moment,
                bearer,
                length: length(random),
            }
        })
        .collect()
}

fn bursts(random: &mut Random) -> Vec<Packet> {
    let mut moment = 0;
    let mut left = 0;
    (0..random.among(5, 200))
        .map(|_| {
            if left == 0 {
                moment += random.of_any_size(100_000);
                left = random.among(1, 60);
            }
            left -= 1;
            on_any(moment + random.below(3), random)
        })
        .collect()
}

fn back(random: &mut Random) -> Vec<Packet> {
    let span = random.of_any_size(999_999);
    (0..random.among(2, 80))
        .map(|_| on_any(random.among(0, span), random))
        .collect()
}

fn crowded(random: &mut Random) -> Vec<Packet> {
    let gap = random.pick(&[0, 30, 1_850]);
    let mut moment = 0;
    (0..random.pick(&[1_023, 1_024, 1_025, 1_025]))
        .map(|_| {
            moment += random.among(0, gap);
            on_any(moment, random)
        })
        .collect()
}

fn second(random: &mut Random) -> Vec<Packet> {
    let start = random.below(2_000_000);
    let mut packets = vec![on_any(start, random)];
    packets.extend((0..random.below(6)).map(|_| on_any(start + random.below(1_000_000), random)));
    let far = random.pick(&[
        999_999,
        999_999,
        1_000_000,
        1_000_001,
        1_999_999,
        4_000_000_000,
        u64::MAX / 2,
    ]);
    packets.push(on_any(start + far, random));
    packets.extend((0..random.below(3)).map(|_| on_any(start + random.below(1_000_000), random)));
    packets
}

fn late(random: &mut Random) -> Vec<Packet> {
    let window = random.pick(&[10, 100, 300, 1_000]);
    let mut packets = vec![on_any(0, random)];
    packets.extend(
        (0..random.below(20)).map(|place| on_any(place * 45_000 + random.below(1_000), random)),
    );
    let mut late: Vec<u64> = (0..random.among(2, 40))
        .map(|_| 999_999 - random.below(window))
        .collect();
    late.sort_unstable();
    packets.extend(late.into_iter().map(|moment| on_any(moment, random)));
    packets.extend((0..random.below(4)).map(|_| on_any(999_999, random)));
    packets
}

fn on_any(moment: u64, random: &mut Random) -> Packet {
    Packet {
        moment,
        bearer: bearer(random),
        length: length(random),
    }
}

fn bearer(random: &mut Random) -> u8 {
    random.pick(&[0, 1, 2])
}

/// A length of a packet: the edges of the length classes have a larger share.
fn length(random: &mut Random) -> u32 {
    if random.chance(1, 4) {
        random.pick(&[1, 2, 32, 33, 64, 65, 352, 353, 383, 384])
    } else {
        random.among(1, 384) as u32
    }
}
