//! The receiver and its eight calls.

use super::boards::{Board, Offered};
use super::clock::{Clock, Period};
use super::packets::{class_cost, is_length, Packet};
use super::policies::Policy;
use super::refusals::Refusal;
use super::settings::{grant_bound, Settings, BEGIN_COST};
use std::collections::VecDeque;

const SIGNAL_COST: u64 = 60;
const MOST_OUT: usize = 16;
/// So many packets numbered, or periods closed, retire a receiver.
const LIFETIME: u64 = 1_000_000_000;

/// What arrive answers.
#[derive(Clone, Copy, PartialEq, Eq, Debug)]
pub enum Arrived {
    Accepted(u32),
    BearerFull(u32),
}

/// What step answers.
#[derive(Clone, Copy, PartialEq, Eq, Debug)]
pub enum Stepped {
    Begun { bearer: usize, quota: u64 },
    Empty,
    Queued(u32),
    QueueFull(u32),
    Rescheduled,
    Completed,
}

/// What tell answers.
#[derive(Clone, Copy, PartialEq, Eq, Debug)]
pub struct Told {
    pub counts: Counts,
    pub closed: u64,
    pub last: Option<Period>,
}

/// How many packets were numbered, and how many left by each way.
#[derive(Clone, Copy, PartialEq, Eq, Debug, Default)]
pub struct Counts {
    pub numbered: u64,
    pub delivered: u64,
    pub bearer_full: u64,
    pub queue_full: u64,
    pub discarded: u64,
}

impl Counts {
    /// How many packets are in a bearer, in the queue or out.
    pub fn inside(&self) -> u64 {
        self.numbered - self.delivered - self.bearer_full - self.queue_full - self.discarded
    }
}

/// Stands for a fetched packet until it is spent by finish or discard.
#[must_use]
#[derive(PartialEq, Eq, Debug)]
pub struct Receipt {
    number: u32,
}

impl Receipt {
    pub fn number(&self) -> u32 {
        self.number
    }
}

/// Whether a receipt is spent; one that is not is handed back.
pub type Spent = Result<(), (Refusal, Receipt)>;

#[derive(Clone, Copy)]
struct Grant {
    bearer: usize,
    /// How many packets may still be taken.
    left: u64,
}

#[derive(Clone, Copy, PartialEq, Eq)]
enum Gate {
    Open,
    Shut,
}

pub struct Receiver {
    board: Board,
    policy: Policy,
    settings: Option<Settings>,
    clock: Clock,
    gate: Gate,
    poll_list: VecDeque<usize>,
    grant: Option<Grant>,
    queue: VecDeque<Packet>,
    out: Vec<u32>,
    counts: Counts,
}

impl Receiver {
    pub fn new(board: Board, policy: Policy) -> Receiver {
        Receiver {
            poll_list: VecDeque::with_capacity(board.size()),
            board,
            policy,
            settings: None,
            clock: Clock::default(),
            gate: Gate::Shut,
            grant: None,
            queue: VecDeque::new(),
            out: Vec::with_capacity(MOST_OUT),
            counts: Counts::default(),
        }
    }

    pub fn configure(&mut self, numbers: [u64; 6]) -> Result<(), Refusal> {
        if self.settings.is_some() {
            return Err(Refusal::ConfiguredAlready);
        }
        let settings = Settings::new(numbers)?;
        let mut bearers = 0..self.board.size();
        if let Some(bearer) = bearers.find(|&bearer| self.board.waiting(bearer) > 0) {
            return Err(Refusal::PacketWaits(bearer as u64));
        }
        let bound = grant_bound(self.policy.greatest(), self.board.dearest_take());
        if settings.limit + bound > settings.period {
            return Err(Refusal::NoShare);
        }
        for bearer in 0..self.board.size() {
            self.board.disarm(bearer);
            self.board.arm(bearer);
        }
        self.settings = Some(settings);
        self.set_gate(settings);
        Ok(())
    }

    pub fn arrive(&mut self, bearer: u64, length: u64, tag: u32) -> Result<Arrived, Refusal> {
        let settings = self.in_service()?;
        if bearer >= self.board.size() as u64 {
            return Err(Refusal::BearerNotShown(bearer));
        }
        if !is_length(length) {
            return Err(Refusal::Length(length));
        }
        let number = self.counts.numbered as u32;
        self.counts.numbered += 1;
        let packet = Packet {
            number,
            length,
            tag,
        };
        let arrived = self.take_in(bearer as usize, packet, settings);
        self.set_gate(settings);
        Ok(arrived)
    }

    fn take_in(&mut self, bearer: usize, packet: Packet, settings: Settings) -> Arrived {
        if self.board.offer(bearer, packet) == Offered::Refused {
            self.counts.bearer_full += 1;
            return Arrived::BearerFull(packet.number);
        }
        if self.board.signal(bearer) {
            self.board.disarm(bearer);
            self.poll_list.push_back(bearer);
            self.clock.charge(SIGNAL_COST, settings.period);
        }
        Arrived::Accepted(packet.number)
    }

    pub fn step(&mut self) -> Result<Stepped, Refusal> {
        let settings = self.in_service()?;
        let stepped = match self.grant {
            None => self.begin(settings)?,
            Some(Grant { bearer, left: 0 }) => self.close_grant(bearer),
            Some(grant) => self.take(grant, settings),
        };
        self.set_gate(settings);
        Ok(stepped)
    }

    fn begin(&mut self, settings: Settings) -> Result<Stepped, Refusal> {
        if self.clock.used >= settings.limit {
            return Err(Refusal::LimitUsed);
        }
        if self.clock.hold > 0 {
            return Err(Refusal::Held);
        }
        let bearer = self.poll_list.pop_front().ok_or(Refusal::NothingToServe)?;
        let quota = self.policy.quota(self.board.waiting(bearer));
        self.grant = Some(Grant {
            bearer,
            left: quota,
        });
        self.clock.charge(BEGIN_COST, settings.period);
        Ok(Stepped::Begun { bearer, quota })
    }

    fn take(&mut self, grant: Grant, settings: Settings) -> Stepped {
        let Grant { bearer, left } = grant;
        let Some(packet) = self.board.take(bearer) else {
            self.grant = Some(Grant { bearer, left: 0 });
            return Stepped::Empty;
        };
        let cost = self.board.cost(bearer) + class_cost(packet.length);
        self.clock.charge(cost, settings.period);
        let stepped = self.enqueue(packet, settings);
        let left = if self.queue.len() >= settings.high_mark {
            self.clock.hold = settings.hold;
            0
        } else {
            left - 1
        };
        self.grant = Some(Grant { bearer, left });
        stepped
    }

    fn enqueue(&mut self, packet: Packet, settings: Settings) -> Stepped {
        if self.queue.len() >= settings.queue_size {
            self.counts.queue_full += 1;
            return Stepped::QueueFull(packet.number);
        }
        self.queue.push_back(packet);
        Stepped::Queued(packet.number)
    }

    fn close_grant(&mut self, bearer: usize) -> Stepped {
        self.grant = None;
        if self.board.waiting(bearer) > 0 {
            self.poll_list.push_back(bearer);
            return Stepped::Rescheduled;
        }
        if self.gate == Gate::Open {
            self.board.arm(bearer);
        }
        Stepped::Completed
    }

    pub fn work(&mut self, cycles: u64) -> Result<(), Refusal> {
        let settings = self.in_service()?;
        if !(1..=settings.period).contains(&cycles) {
            return Err(Refusal::WorkOutOfRange);
        }
        let left = settings.period - self.clock.elapsed;
        if cycles > left {
            return Err(Refusal::PastPeriodEnd(left));
        }
        self.clock.work(cycles, settings.period);
        self.set_gate(settings);
        Ok(())
    }

    pub fn fetch(&mut self) -> Result<(Packet, Receipt), Refusal> {
        let settings = self.settings.ok_or(Refusal::NotConfigured)?;
        if self.queue.is_empty() {
            return Err(Refusal::QueueEmpty);
        }
        if self.out.len() >= MOST_OUT {
            return Err(Refusal::TooManyOut);
        }
        let packet = self.queue.pop_front().ok_or(Refusal::QueueEmpty)?;
        let number = packet.number;
        self.out.push(number);
        if self.queue.len() <= settings.low_mark {
            self.clock.hold = 0;
        }
        self.set_gate(settings);
        Ok((packet, Receipt { number }))
    }

    /// Spends the receipt of a packet that was delivered.
    pub fn finish(&mut self, receipt: Receipt) -> Spent {
        self.spend(receipt)?;
        self.counts.delivered += 1;
        Ok(())
    }

    /// Spends the receipt of a packet that is dropped.
    pub fn discard(&mut self, receipt: Receipt) -> Spent {
        self.spend(receipt)?;
        self.counts.discarded += 1;
        Ok(())
    }

    /// The gate stands on what finish and discard do not touch, so it is not
    /// set again.
    fn spend(&mut self, receipt: Receipt) -> Spent {
        match self.out.iter().position(|&out| out == receipt.number) {
            Some(index) => {
                self.out.swap_remove(index);
                Ok(())
            }
            None => Err((Refusal::NotOut, receipt)),
        }
    }

    pub fn tell(&self) -> Told {
        Told {
            counts: self.counts,
            closed: self.clock.closed,
            last: self.clock.last,
        }
    }

    /// The cycles elapsed in the open period.
    pub fn elapsed(&self) -> u64 {
        self.clock.elapsed
    }

    fn in_service(&self) -> Result<Settings, Refusal> {
        let settings = self.settings.ok_or(Refusal::NotConfigured)?;
        if self.counts.numbered >= LIFETIME || self.clock.closed >= LIFETIME {
            return Err(Refusal::Retired);
        }
        Ok(settings)
    }

    /// Opens or shuts the gate, at the end of an accepted call.
    fn set_gate(&mut self, settings: Settings) {
        let open = self.clock.used < settings.limit && self.clock.hold == 0;
        match (self.gate, open) {
            (Gate::Open, false) => self.shut(),
            (Gate::Shut, true) => self.open(),
            (Gate::Open, true) | (Gate::Shut, false) => {}
        }
    }

    fn shut(&mut self) {
        self.gate = Gate::Shut;
        for bearer in 0..self.board.size() {
            self.board.disarm(bearer);
        }
    }

    fn open(&mut self) {
        self.gate = Gate::Open;
        let served = self.grant.map(|grant| grant.bearer);
        for bearer in 0..self.board.size() {
            if served == Some(bearer) || self.poll_list.contains(&bearer) {
                continue;
            }
            self.board.arm(bearer);
            if self.board.waiting(bearer) > 0 {
                self.board.disarm(bearer);
                self.poll_list.push_back(bearer);
            }
        }
    }
}

#[cfg(test)]
mod tests {
    use super::*;
    use crate::terms::{self, Bearer, Kind};

    /// A configured receiver with one ring bearer of four and one packet out,
    /// number 0.
    fn with_one_out(limit: u64) -> (Receiver, Receipt) {
        let board = Board::new(&[Bearer {
            kind: Kind::Ring,
            depth: 4,
            occupied: false,
        }]);
        let mut receiver = Receiver::new(board, Policy::new(terms::Policy::Fixed(4)));
        receiver.configure([64_000, limit, 32, 24, 8, 2]).unwrap();
        receiver.arrive(0, 1, 0).unwrap();
        for _ in 0..4 {
            receiver.step().unwrap();
        }
        let (_, receipt) = receiver.fetch().unwrap();
        (receiver, receipt)
    }

    fn assert_retired(receiver: &mut Receiver) {
        assert_eq!(receiver.arrive(9, 0, 0), Err(Refusal::Retired));
        assert_eq!(receiver.step(), Err(Refusal::Retired));
        assert_eq!(receiver.work(0), Err(Refusal::Retired));
    }

    #[test]
    fn example_t_by_packets() {
        let (mut receiver, receipt) = with_one_out(32_000);
        receiver.counts.numbered = LIFETIME - 1;
        let number = LIFETIME as u32 - 1;
        assert_eq!(receiver.arrive(0, 1, 0), Ok(Arrived::Accepted(number)));
        assert_retired(&mut receiver);
        assert_eq!(receiver.fetch(), Err(Refusal::QueueEmpty));
        assert_eq!(receiver.finish(receipt), Ok(()));
        assert_eq!(receiver.tell().counts.numbered, LIFETIME);
    }

    #[test]
    fn example_t_by_periods() {
        let (mut receiver, receipt) = with_one_out(32_000);
        receiver.clock.closed = LIFETIME - 1;
        assert_eq!(receiver.work(63_240), Ok(()));
        assert_retired(&mut receiver);
        assert_eq!(receiver.finish(receipt), Ok(()));
        assert_eq!(receiver.tell().closed, LIFETIME);
    }

    #[test]
    fn example_y_with_a_grant() {
        let (mut receiver, receipt) = with_one_out(32_000);
        receiver.arrive(0, 1, 0).unwrap();
        receiver.step().unwrap();
        receiver.counts.numbered = LIFETIME;
        assert_retired(&mut receiver);
        assert_eq!(receiver.discard(receipt), Ok(()));
        assert_eq!(receiver.tell().counts.discarded, 1);
    }

    #[test]
    fn example_y_with_the_limit_used_and_a_hold() {
        let (mut receiver, _out) = with_one_out(200);
        receiver.clock.hold = 2;
        assert_eq!(receiver.step(), Err(Refusal::LimitUsed));
        receiver.counts.numbered = LIFETIME;
        assert_retired(&mut receiver);
    }

    #[test]
    fn a_receipt_of_another_receiver_is_handed_back() {
        let (mut receiver, receipt) = with_one_out(32_000);
        let (mut other, same_number) = with_one_out(32_000);
        assert_eq!(receiver.finish(receipt), Ok(()));
        let Err((refusal, same_number)) = receiver.finish(same_number) else {
            panic!("number 0 is not out any more");
        };
        assert_eq!(refusal, Refusal::NotOut);
        assert_eq!(other.discard(same_number), Ok(()));
    }
}
