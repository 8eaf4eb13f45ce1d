//! The replay of a capture: a receiver, and an application that spends 2,000
//! cycles on each packet.

use super::boards::Board;
use super::captures::{self, Captured};
use super::clock::Period;
use super::policies::Policy;
use super::receiver::{Arrived, Receipt, Receiver, Stepped};
use super::refusals::Refusal;
use super::standard::{BEARERS, PERIOD, POLICY, SETTINGS};
use super::tables;
use crate::terms::{Refused, Replayed};

const CYCLES_PER_MICROSECOND: u64 = 64;
const APPLICATION_COST: u64 = 2_000;
const MOST_PERIODS: u64 = 1_000;
const ACCEPTED: &str = "the turns make only calls that are accepted";

/// What became of a packet.
#[derive(Clone, Copy, PartialEq, Eq, Debug)]
pub enum Fate {
    Delivered,
    BearerFull,
    QueueFull,
    Waiting,
    Pending,
}

/// A fate, and the periods closed once it was decided.
#[derive(Clone, Copy, PartialEq, Eq, Debug)]
pub struct Decided {
    pub fate: Fate,
    pub period: u64,
}

/// The packet that the application has.
struct Application {
    receipt: Receipt,
    to_go: u64,
}

enum Turn {
    Made,
    Stop,
}

struct Replay<'a> {
    packets: &'a [Captured],
    receiver: Receiver,
    application: Option<Application>,
    /// How many packets have arrived.
    arrived: usize,
    /// By packet number.
    fates: Vec<Option<Decided>>,
    /// All that were closed.
    periods: Vec<Period>,
    turns: u64,
}

/// Replays a capture and writes its tables to the front of the lent memory.
/// Where it is refused, nothing is written.
pub fn replay(capture: &[u8], packets: &mut [u8], periods: &mut [u8]) -> Result<Replayed, Refused> {
    let captured = captures::read(capture, BEARERS.len() as u8)?;
    let mut replay = Replay::new(&captured);
    while let Turn::Made = replay.turn() {}
    let fates = replay.settle();
    let packets_table = tables::packets(&captured, &fates);
    let periods_table = tables::periods(&replay.periods);
    let packets = front(packets, packets_table.len())?;
    let periods = front(periods, periods_table.len())?;
    packets.copy_from_slice(&packets_table);
    periods.copy_from_slice(&periods_table);
    Ok(Replayed {
        packets_len: packets_table.len() as u64,
        periods_len: periods_table.len() as u64,
        ..replay.figures(&fates)
    })
}

/// The front of lent memory, if it has so many bytes.
fn front(memory: &mut [u8], needed: usize) -> Result<&mut [u8], Refusal> {
    memory
        .get_mut(..needed)
        .ok_or(Refusal::TableMemory(needed as u64))
}

impl<'a> Replay<'a> {
    fn new(packets: &'a [Captured]) -> Replay<'a> {
        let mut receiver = Receiver::new(Board::new(&BEARERS), Policy::new(POLICY));
        receiver.configure(SETTINGS).expect(ACCEPTED);
        Replay {
            packets,
            receiver,
            application: None,
            arrived: 0,
            fates: vec![None; packets.len()],
            periods: Vec::new(),
            turns: 0,
        }
    }

    /// Does the first thing that applies.
    fn turn(&mut self) -> Turn {
        if self.closed() >= MOST_PERIODS {
            return Turn::Stop;
        }
        let to_next = self.cycles_to_next();
        let to_end = PERIOD - self.receiver.elapsed();
        let idle = to_next.map_or(to_end, |cycles| cycles.min(to_end));
        if to_next == Some(0) {
            self.arrive();
        } else if let Some(done) = self.application.take_if(|packet| packet.to_go == 0) {
            self.finish(done.receipt);
        } else if let Ok(stepped) = self.receiver.step() {
            self.note_step(stepped);
        } else if let Some(packet) = &mut self.application {
            let cycles = packet.to_go.min(idle);
            packet.to_go -= cycles;
            self.work(cycles);
        } else if let Ok((_, receipt)) = self.receiver.fetch() {
            self.application = Some(Application {
                receipt,
                to_go: APPLICATION_COST,
            });
        } else if to_next.is_none() && self.receiver.tell().counts.inside() == 0 {
            return Turn::Stop;
        } else {
            self.work(idle);
        }
        self.turns += 1;
        Turn::Made
    }

    fn arrive(&mut self) {
        let packet = self.packets[self.arrived];
        let arrived = self
            .receiver
            .arrive(u64::from(packet.bearer), packet.length, 0)
            .expect(ACCEPTED);
        self.arrived += 1;
        self.note_close();
        if let Arrived::BearerFull(number) = arrived {
            self.decide(number, Fate::BearerFull);
        }
    }

    fn finish(&mut self, receipt: Receipt) {
        let number = receipt.number();
        self.receiver.finish(receipt).expect(ACCEPTED);
        self.decide(number, Fate::Delivered);
    }

    fn note_step(&mut self, stepped: Stepped) {
        self.note_close();
        if let Stepped::QueueFull(number) = stepped {
            self.decide(number, Fate::QueueFull);
        }
    }

    fn work(&mut self, cycles: u64) {
        self.receiver.work(cycles).expect(ACCEPTED);
        self.note_close();
    }

    /// No call closes more than one period, so the last record is enough.
    fn note_close(&mut self) {
        let told = self.receiver.tell();
        if told.closed > self.closed() {
            self.periods.extend(told.last);
        }
    }

    fn closed(&self) -> u64 {
        self.periods.len() as u64
    }

    fn decide(&mut self, number: u32, fate: Fate) {
        let period = self.closed();
        self.fates[number as usize] = Some(Decided { fate, period });
    }

    /// The cycles to the next packet's moment, if one is still to arrive: 0 if
    /// the moment is not after now.
    fn cycles_to_next(&self) -> Option<u64> {
        let next = self.packets.get(self.arrived)?;
        let since_first = next.timestamp.saturating_sub(self.packets[0].timestamp);
        let now = self.closed() * PERIOD + self.receiver.elapsed();
        Some((since_first * CYCLES_PER_MICROSECOND).saturating_sub(now))
    }

    /// The fates at the stop. A receipt that is still out is discarded.
    fn settle(&mut self) -> Vec<Decided> {
        let period = self.closed();
        let undecided = |number| match number < self.arrived {
            true => Fate::Waiting,
            false => Fate::Pending,
        };
        let fates = self.fates.iter().enumerate().map(|(number, decided)| {
            decided.unwrap_or_else(|| Decided {
                fate: undecided(number),
                period,
            })
        });
        let fates = fates.collect();
        if let Some(packet) = self.application.take() {
            self.receiver.discard(packet.receipt).expect(ACCEPTED);
        }
        fates
    }

    /// The figures, but for the lengths of the tables.
    fn figures(&self, fates: &[Decided]) -> Replayed {
        let mut figures = Replayed {
            packets: self.packets.len() as u64,
            turns: self.turns,
            periods: self.closed(),
            ..Replayed::default()
        };
        for decided in fates {
            *match decided.fate {
                Fate::Delivered => &mut figures.delivered,
                Fate::BearerFull => &mut figures.bearer_full,
                Fate::QueueFull => &mut figures.queue_full,
                Fate::Waiting => &mut figures.waiting,
                Fate::Pending => &mut figures.pending,
            } += 1;
        }
        figures
    }
}

#[cfg(test)]
mod tests {
    use super::super::savefiles::{big, little, packet, Record};
    use super::*;

    const EXAMPLE_J: [Record; 3] = [packet(0, 0, 20), packet(10, 1, 100), packet(1_000, 2, 384)];
    const PACKETS_J: &str = "packet,bearer,length,fate,period\r
0,0,20,delivered,0\r
1,1,100,delivered,0\r
2,2,384,delivered,1\r
";
    const PERIODS_J: &str = "period,network,application\r
0,1700,62300\r
";
    const GUARD: u8 = 0xA5;

    fn replayed(capture: &[u8]) -> (Replayed, String, String) {
        let mut packets = vec![0; 65_536];
        let mut periods = vec![0; 65_536];
        let figures = super::replay(capture, &mut packets, &mut periods).unwrap();
        packets.truncate(figures.packets_len as usize);
        periods.truncate(figures.periods_len as usize);
        let text = |table| String::from_utf8(table).unwrap();
        (figures, text(packets), text(periods))
    }

    #[test]
    fn example_j() {
        let figures = Replayed {
            packets: 3,
            turns: 25,
            periods: 1,
            delivered: 3,
            packets_len: PACKETS_J.len() as u64,
            periods_len: PERIODS_J.len() as u64,
            ..Replayed::default()
        };
        let expected = (figures, PACKETS_J.into(), PERIODS_J.into());
        assert_eq!(replayed(&little(&EXAMPLE_J)), expected);
        assert_eq!(replayed(&big(&EXAMPLE_J)), expected);
    }

    #[test]
    fn no_packets_take_no_turns() {
        let (figures, packets, periods) = replayed(&little(&[]));
        assert_eq!((figures.turns, figures.periods), (0, 0));
        assert_eq!(packets, "packet,bearer,length,fate,period\r\n");
        assert_eq!(periods, "period,network,application\r\n");
    }

    /// 9 arrivals, of which the last finds 8 waiting; two grants of 4 packets
    /// (begun, four taken, closed); three turns for each of 8 packets.
    #[test]
    fn a_burst_above_the_depth() {
        let (figures, packets, _) = replayed(&little(&[packet(0, 0, 1); 9]));
        assert_eq!(figures.turns, 9 + 2 * 6 + 8 * 3);
        assert_eq!((figures.delivered, figures.bearer_full), (8, 1));
        assert!(packets.ends_with("7,0,1,delivered,0\r\n8,0,1,bearer-full,0\r\n"));
    }

    /// The last moment is 64 cycles before the end of the 1,000th period, which
    /// the second arrival then closes. Turns: 8 for the first packet, 999
    /// to the periods' ends, one to the moment, two arrivals.
    #[test]
    fn the_stop_leaves_packets_waiting_and_pending() {
        let late = 999_999;
        let (figures, packets, periods) = replayed(&little(&[
            packet(0, 0, 1),
            packet(late, 0, 1),
            packet(late, 1, 1),
            packet(late, 2, 1),
        ]));
        assert_eq!((figures.turns, figures.periods), (8 + 999 + 1 + 2, 1_000));
        let fates = (figures.delivered, figures.waiting, figures.pending);
        assert_eq!(fates, (1, 2, 1));
        let rows = "1,0,1,waiting,1000\r\n2,1,1,waiting,1000\r\n3,2,1,pending,1000\r\n";
        assert!(packets.ends_with(rows));
        assert!(periods.starts_with("period,network,application\r\n0,760,63240\r\n1,0,64000\r\n"));
        assert!(periods.ends_with("\r\n999,64,63936\r\n"));
    }

    /// Replays example J into memory of these sizes, and answers the memory too.
    fn lent(packets: usize, periods: usize) -> (Option<Refused>, Vec<u8>, Vec<u8>) {
        let mut packets = vec![GUARD; packets];
        let mut periods = vec![GUARD; periods];
        let refused = super::replay(&little(&EXAMPLE_J), &mut packets, &mut periods).err();
        (refused, packets, periods)
    }

    #[test]
    fn tables_that_fit_leave_what_lies_behind() {
        for behind in [0, 1, 9] {
            let (refused, packets, periods) =
                lent(PACKETS_J.len() + behind, PERIODS_J.len() + behind);
            assert_eq!(refused, None);
            assert_eq!(
                packets,
                [PACKETS_J.as_bytes(), &[GUARD; 9][..behind]].concat()
            );
            assert_eq!(
                periods,
                [PERIODS_J.as_bytes(), &[GUARD; 9][..behind]].concat()
            );
        }
    }

    #[test]
    fn a_refusal_writes_nothing() {
        let (packets, periods) = (PACKETS_J.len(), PERIODS_J.len());
        let asked = [
            (packets - 1, periods, packets),
            (packets, periods - 1, periods),
            (packets - 1, periods - 1, packets),
            (0, 0, packets),
        ];
        for (packets_room, periods_room, place) in asked {
            let place = place as u64;
            let expected = (
                Some(Refused { number: 17, place }),
                vec![GUARD; packets_room],
                vec![GUARD; periods_room],
            );
            assert_eq!(lent(packets_room, periods_room), expected);
        }
        let mut memory = [[GUARD; 100]; 2];
        let [packets, periods] = &mut memory;
        let refused = super::replay(&little(&EXAMPLE_J)[..50], packets, periods).unwrap_err();
        assert_eq!((refused.number, refused.place), (11, 41));
        assert_eq!(memory, [[GUARD; 100]; 2]);
    }
}
