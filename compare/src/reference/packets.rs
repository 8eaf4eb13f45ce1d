//! Packets, and what it costs to take them in.

/// The greatest length of a packet, in octets.
pub const LONGEST: u64 = 384;

const CLASS_OCTETS: u64 = 32;
const CLASS_COSTS: [u64; 12] = [
    420, 510, 590, 680, 760, 850, 930, 1_020, 1_100, 1_190, 1_270, 1_360,
];

/// The cost of the dearest class.
pub const DEAREST: u64 = CLASS_COSTS[CLASS_COSTS.len() - 1];

/// A packet that was numbered.
#[derive(Clone, Copy, PartialEq, Eq, Debug)]
pub struct Packet {
    pub number: u32,
    pub length: u64,
    pub tag: u32,
}

/// Whether there are packets of this length.
pub fn is_length(length: u64) -> bool {
    (1..=LONGEST).contains(&length)
}

/// The cycles of a packet of this length, or of the nearest that there is.
pub fn class_cost(length: u64) -> u64 {
    let class = (length.clamp(1, LONGEST) - 1) / CLASS_OCTETS;
    CLASS_COSTS[class as usize]
}

#[cfg(test)]
mod tests {
    use super::*;

    #[test]
    fn classes_begin_behind_each_32_octets() {
        let lengths = [0, 1, 32, 33, 64, 65, 352, 353, 384, 385, u64::MAX];
        let costs = [
            420, 420, 420, 510, 510, 590, 1_270, 1_360, 1_360, 1_360, 1_360,
        ];
        assert_eq!(lengths.map(class_cost), costs);
    }
}
