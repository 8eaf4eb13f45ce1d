//! Boards: up to eight bearers, each with the packets that wait in it.

use super::packets::Packet;
use crate::terms::{self, Kind};
use std::collections::VecDeque;

pub const MOST_BEARERS: usize = 8;

/// The packet that waits in an occupied bearer.
const OCCUPANT: Packet = Packet {
    number: 0,
    length: 1,
    tag: 0,
};

impl Kind {
    fn deepest(self) -> u64 {
        match self {
            Kind::Ring => 256,
            Kind::Mailbox => 16,
        }
    }

    fn take_cost(self) -> u64 {
        match self {
            Kind::Ring => 200,
            Kind::Mailbox => 120,
        }
    }

    /// Whether arming raises the signal while packets wait.
    fn signals_by_level(self) -> bool {
        match self {
            Kind::Ring => true,
            Kind::Mailbox => false,
        }
    }
}

struct Bearer {
    kind: Kind,
    depth: usize,
    waiting: VecDeque<Packet>,
    armed: bool,
    signal: bool,
}

impl Bearer {
    /// A bearer in which nothing waits, disarmed.
    fn new(kind: Kind, depth: u64) -> Bearer {
        let depth = depth.min(kind.deepest()) as usize;
        Bearer {
            kind,
            depth,
            waiting: VecDeque::with_capacity(depth),
            armed: false,
            signal: false,
        }
    }

    fn offer(&mut self, packet: Packet) -> Offered {
        if self.waiting.len() >= self.depth {
            return Offered::Refused;
        }
        self.waiting.push_back(packet);
        if self.armed {
            self.signal = true;
        }
        Offered::Taken
    }

    fn take(&mut self) -> Option<Packet> {
        let packet = self.waiting.pop_front();
        if self.waiting.is_empty() {
            self.signal = false;
        }
        packet
    }

    fn arm(&mut self) {
        if !self.armed {
            self.armed = true;
            self.signal = !self.waiting.is_empty() && self.kind.signals_by_level();
        }
    }

    fn disarm(&mut self) {
        self.armed = false;
        self.signal = false;
    }
}

/// What became of a packet that was offered.
#[derive(Clone, Copy, PartialEq, Eq, Debug)]
pub enum Offered {
    Taken,
    Refused,
}

pub struct Board {
    bearers: Vec<Bearer>,
}

impl Board {
    /// The board of these bearers, of which no more than eight are shown.
    pub fn new(bearers: &[terms::Bearer]) -> Board {
        let shown = bearers.iter().take(MOST_BEARERS);
        Board {
            bearers: shown
                .map(|asked| {
                    let mut bearer = Bearer::new(asked.kind, asked.depth);
                    if asked.occupied {
                        bearer.offer(OCCUPANT);
                    }
                    bearer
                })
                .collect(),
        }
    }

    pub fn offer(&mut self, bearer: usize, packet: Packet) -> Offered {
        match self.bearers.get_mut(bearer) {
            Some(bearer) => bearer.offer(packet),
            None => Offered::Refused,
        }
    }

    pub fn take(&mut self, bearer: usize) -> Option<Packet> {
        self.bearers.get_mut(bearer)?.take()
    }

    pub fn arm(&mut self, bearer: usize) {
        if let Some(bearer) = self.bearers.get_mut(bearer) {
            bearer.arm();
        }
    }

    pub fn disarm(&mut self, bearer: usize) {
        if let Some(bearer) = self.bearers.get_mut(bearer) {
            bearer.disarm();
        }
    }

    pub fn size(&self) -> usize {
        self.bearers.len()
    }

    pub fn cost(&self, bearer: usize) -> u64 {
        self.bearers
            .get(bearer)
            .map_or(0, |bearer| bearer.kind.take_cost())
    }

    pub fn waiting(&self, bearer: usize) -> usize {
        self.bearers
            .get(bearer)
            .map_or(0, |bearer| bearer.waiting.len())
    }

    pub fn signal(&self, bearer: usize) -> bool {
        self.bearers.get(bearer).is_some_and(|bearer| bearer.signal)
    }

    /// The take cost of the bearer that is dearest to take from.
    pub fn dearest_take(&self) -> u64 {
        let costs = self.bearers.iter().map(|bearer| bearer.kind.take_cost());
        costs.max().unwrap_or(0)
    }
}

#[cfg(test)]
mod tests {
    use super::*;

    fn board(kind: Kind) -> Board {
        Board::new(&[terms::Bearer {
            kind,
            depth: 1,
            occupied: false,
        }])
    }

    /// No call of a receiver shows this: whatever arming signals while packets
    /// wait is taken back at once.
    #[test]
    fn only_a_ring_signals_what_waits_as_it_is_armed() {
        for (kind, raised) in [(Kind::Ring, true), (Kind::Mailbox, false)] {
            let mut board = board(kind);
            assert_eq!(board.offer(0, OCCUPANT), Offered::Taken);
            assert!(!board.signal(0));
            board.arm(0);
            assert_eq!(board.signal(0), raised);
            board.disarm(0);
            assert!(!board.signal(0));
        }
    }

    #[test]
    fn a_packet_raises_the_signal_of_an_armed_bearer() {
        for kind in [Kind::Ring, Kind::Mailbox] {
            let mut board = board(kind);
            board.arm(0);
            assert!(!board.signal(0));
            assert_eq!(board.offer(0, OCCUPANT), Offered::Taken);
            assert_eq!(board.offer(0, OCCUPANT), Offered::Refused);
            board.arm(0);
            assert!(board.signal(0));
            assert_eq!(board.take(0), Some(OCCUPANT));
            assert!(!board.signal(0));
            assert_eq!(board.take(0), None);
        }
    }

    #[test]
    fn a_bearer_that_is_not_shown_has_nothing() {
        let mut board = board(Kind::Ring);
        board.arm(1);
        assert_eq!(board.offer(1, OCCUPANT), Offered::Refused);
        assert_eq!(board.take(1), None);
        assert_eq!((board.cost(1), board.waiting(1)), (0, 0));
        assert!(!board.signal(1));
    }
}
