//! Lists of calls, and their answers as text.

use super::boards::Board;
use super::packets::Packet;
use super::policies::Policy;
use super::receiver::{Arrived, Receipt, Receiver, Spent, Stepped, Told};
use super::refusals::Refusal;
use crate::terms::{self, Bearer, Call, Refused};
use std::fmt::{self, Display, Formatter, Write};

/// A line for each call, made one after another on a new receiver.
pub fn answers(board: &[Bearer], policy: terms::Policy, calls: &[Call]) -> String {
    let mut host = Host {
        receiver: Receiver::new(Board::new(board), Policy::new(policy)),
        receipts: Vec::new(),
    };
    let mut text = String::new();
    for &call in calls {
        let reply = host.make(call).unwrap_or_else(Reply::Refused);
        writeln!(text, "{reply}").expect("a string takes every line");
    }
    host.sweep();
    text
}

/// A receiver, and the receipts of its fetches, in their order.
struct Host {
    receiver: Receiver,
    receipts: Vec<Receipt>,
}

enum Reply {
    Configured,
    Arrived(Arrived),
    Stepped(Stepped),
    Worked,
    Fetched(Packet),
    Finished,
    Discarded,
    Told(Told),
    NoReceipt,
    Refused(Refusal),
}

impl Host {
    fn make(&mut self, call: Call) -> Result<Reply, Refusal> {
        let receiver = &mut self.receiver;
        Ok(match call {
            Call::Configure(settings) => {
                receiver.configure(settings)?;
                Reply::Configured
            }
            Call::Arrive {
                bearer,
                length,
                tag,
            } => Reply::Arrived(receiver.arrive(bearer, length, tag)?),
            Call::Step => Reply::Stepped(receiver.step()?),
            Call::Work(cycles) => {
                receiver.work(cycles)?;
                Reply::Worked
            }
            Call::Fetch => {
                let (packet, receipt) = receiver.fetch()?;
                self.receipts.push(receipt);
                Reply::Fetched(packet)
            }
            Call::Finish(number) => self.spend(number, Receiver::finish, Reply::Finished)?,
            Call::Discard(number) => self.spend(number, Receiver::discard, Reply::Discarded)?,
            Call::Tell => Reply::Told(receiver.tell()),
        })
    }

    /// Spends the receipt of this number, if it is held. One that is handed
    /// back stands where it stood.
    fn spend(
        &mut self,
        number: u32,
        spend: fn(&mut Receiver, Receipt) -> Spent,
        spent: Reply,
    ) -> Result<Reply, Refusal> {
        let mut held = self.receipts.iter();
        let Some(index) = held.position(|receipt| receipt.number() == number) else {
            return Ok(Reply::NoReceipt);
        };
        let receipt = self.receipts.remove(index);
        match spend(&mut self.receiver, receipt) {
            Ok(()) => Ok(spent),
            Err((refusal, receipt)) => {
                self.receipts.insert(index, receipt);
                Err(refusal)
            }
        }
    }

    /// Discards the receipts that are still held, the last first.
    fn sweep(mut self) {
        while let Some(receipt) = self.receipts.pop() {
            let swept = self.receiver.discard(receipt);
            swept.expect("a receipt that is held is of a number that is out");
        }
    }
}

impl Display for Reply {
    fn fmt(&self, f: &mut Formatter<'_>) -> fmt::Result {
        match self {
            Reply::Configured => f.write_str("configured"),
            Reply::Arrived(arrived) => arrived.fmt(f),
            Reply::Stepped(stepped) => stepped.fmt(f),
            Reply::Worked => f.write_str("worked"),
            Reply::Fetched(packet) => {
                let Packet {
                    number,
                    length,
                    tag,
                } = packet;
                write!(f, "fetched {number} length {length} tag {tag}")
            }
            Reply::Finished => f.write_str("finished"),
            Reply::Discarded => f.write_str("discarded"),
            Reply::Told(told) => told.fmt(f),
            Reply::NoReceipt => f.write_str("no receipt"),
            Reply::Refused(refusal) => {
                let Refused { number, place } = (*refusal).into();
                write!(f, "refused {number} place {place}: {}", refusal.words())
            }
        }
    }
}

impl Display for Arrived {
    fn fmt(&self, f: &mut Formatter<'_>) -> fmt::Result {
        match self {
            Arrived::Accepted(number) => write!(f, "arrived {number} accepted"),
            Arrived::BearerFull(number) => write!(f, "arrived {number} dropped bearer-full"),
        }
    }
}

impl Display for Stepped {
    fn fmt(&self, f: &mut Formatter<'_>) -> fmt::Result {
        match self {
            Stepped::Begun { bearer, quota } => write!(f, "begun {bearer} quota {quota}"),
            Stepped::Empty => f.write_str("empty"),
            Stepped::Queued(number) => write!(f, "taken {number} queued"),
            Stepped::QueueFull(number) => write!(f, "taken {number} dropped queue-full"),
            Stepped::Rescheduled => f.write_str("rescheduled"),
            Stepped::Completed => f.write_str("completed"),
        }
    }
}

impl Display for Told {
    fn fmt(&self, f: &mut Formatter<'_>) -> fmt::Result {
        let counts = &self.counts;
        write!(
            f,
            "told numbered {} delivered {} bearer-full {} queue-full {} discarded {} closed {}",
            counts.numbered,
            counts.delivered,
            counts.bearer_full,
            counts.queue_full,
            counts.discarded,
            self.closed
        )?;
        match self.last {
            Some(last) => write!(f, " offered {} network {}", last.offered, last.network),
            None => Ok(()),
        }
    }
}
