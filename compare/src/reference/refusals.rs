//! Refusals, each with its number, its place and its words.

use crate::terms::Refused;

#[derive(Clone, Copy, PartialEq, Eq, Debug)]
pub enum Refusal {
    /// A setting is outside its range; settings count from 1.
    Setting(u64),
    /// The bearers' limit and the grant bound leave no share of the period.
    NoShare,
    BearerNotShown(u64),
    Length(u64),
    WorkOutOfRange,
    CaptureTooLong,
    NotASavefile,
    RecordCutOff(u64),
    NoData(u64),
    RecordBearer(u64),
    TooManyPackets(u64),
    TooLate(u64),
    RecordLength(u64),
    /// A table needs so many bytes.
    TableMemory(u64),
    NotConfigured,
    ConfiguredAlready,
    /// A packet waits in this bearer.
    PacketWaits(u64),
    Retired,
    LimitUsed,
    Held,
    NothingToServe,
    /// The period has so many cycles left.
    PastPeriodEnd(u64),
    QueueEmpty,
    TooManyOut,
    NotOut,
}

impl Refusal {
    fn number_and_place(self) -> (u32, u64) {
        match self {
            Refusal::Setting(place) => (1, place),
            Refusal::NoShare => (2, 0),
            Refusal::BearerNotShown(bearer) => (4, bearer),
            Refusal::Length(length) => (5, length),
            Refusal::WorkOutOfRange => (6, 0),
            Refusal::CaptureTooLong => (9, 0),
            Refusal::NotASavefile => (10, 0),
            Refusal::RecordCutOff(offset) => (11, offset),
            Refusal::NoData(offset) => (12, offset),
            Refusal::RecordBearer(offset) => (13, offset),
            Refusal::TooManyPackets(offset) => (14, offset),
            Refusal::TooLate(offset) => (15, offset),
            Refusal::RecordLength(offset) => (16, offset),
            Refusal::TableMemory(needed) => (17, needed),
            Refusal::NotConfigured => (20, 0),
            Refusal::ConfiguredAlready => (21, 0),
            Refusal::PacketWaits(bearer) => (22, bearer),
            Refusal::Retired => (23, 0),
            Refusal::LimitUsed => (24, 0),
            Refusal::Held => (25, 0),
            Refusal::NothingToServe => (26, 0),
            Refusal::PastPeriodEnd(left) => (27, left),
            Refusal::QueueEmpty => (28, 0),
            Refusal::TooManyOut => (29, 0),
            Refusal::NotOut => (30, 0),
        }
    }

    /// What a line of answers says of a refused call; of captures no such line tells.
    pub fn words(self) -> &'static str {
        match self {
            Refusal::Setting(_) => "the setting is outside its range",
            Refusal::NoShare => "the limit and the grant bound together are above the period",
            Refusal::BearerNotShown(_) => "the board does not show this bearer",
            Refusal::Length(_) => "the length is not 1 to 384",
            Refusal::WorkOutOfRange => "the work is of no cycles, or of more than a period",
            Refusal::NotConfigured => "the receiver is not configured",
            Refusal::ConfiguredAlready => "the receiver is configured already",
            Refusal::PacketWaits(_) => "a packet waits in this bearer",
            Refusal::Retired => "the receiver is retired",
            Refusal::LimitUsed => "the bearers have used their limit in this period",
            Refusal::Held => "the hold has not ended",
            Refusal::NothingToServe => "the poll list is empty",
            Refusal::PastPeriodEnd(_) => {
                "the work goes past the period's end, this many cycles away"
            }
            Refusal::QueueEmpty => "the queue is empty",
            Refusal::TooManyOut => "sixteen packets are out",
            Refusal::NotOut => "the receipt's number is not out",
            Refusal::CaptureTooLong
            | Refusal::NotASavefile
            | Refusal::RecordCutOff(_)
            | Refusal::NoData(_)
            | Refusal::RecordBearer(_)
            | Refusal::TooManyPackets(_)
            | Refusal::TooLate(_)
            | Refusal::RecordLength(_)
            | Refusal::TableMemory(_) => "",
        }
    }
}

impl From<Refusal> for Refused {
    fn from(refusal: Refusal) -> Refused {
        let (number, place) = refusal.number_and_place();
        Refused { number, place }
    }
}
