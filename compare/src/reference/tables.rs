//! The tables of a replay, by RFC 4180.

use super::captures::Captured;
use super::clock::Period;
use super::replay::{Decided, Fate};

impl Fate {
    fn word(self) -> &'static str {
        match self {
            Fate::Delivered => "delivered",
            Fate::BearerFull => "bearer-full",
            Fate::QueueFull => "queue-full",
            Fate::Waiting => "waiting",
            Fate::Pending => "pending",
        }
    }
}

/// The table of what became of each packet.
pub fn packets(captured: &[Captured], fates: &[Decided]) -> Vec<u8> {
    let mut table = b"packet,bearer,length,fate,period\r\n".to_vec();
    for (row, (packet, decided)) in captured.iter().zip(fates).enumerate() {
        number(&mut table, row as u64);
        table.push(b',');
        number(&mut table, u64::from(packet.bearer));
        table.push(b',');
        number(&mut table, packet.length);
        table.push(b',');
        table.extend_from_slice(decided.fate.word().as_bytes());
        table.push(b',');
        number(&mut table, decided.period);
        table.extend_from_slice(b"\r\n");
    }
    table
}

/// The table of what each closed period left to the application.
pub fn periods(closed: &[Period]) -> Vec<u8> {
    let mut table = b"period,network,application\r\n".to_vec();
    for (row, period) in closed.iter().enumerate() {
        number(&mut table, row as u64);
        table.push(b',');
        number(&mut table, period.network);
        table.push(b',');
        number(&mut table, period.offered);
        table.extend_from_slice(b"\r\n");
    }
    table
}

/// Appends a number's decimal digits.
fn number(table: &mut Vec<u8>, mut number: u64) {
    let mut digits = [0; 20];
    let mut first = digits.len();
    loop {
        first -= 1;
        digits[first] = b'0' + (number % 10) as u8;
        number /= 10;
        if number == 0 {
            break;
        }
    }
    table.extend_from_slice(&digits[first..]);
}

#[cfg(test)]
mod tests {
    #[test]
    fn numbers_have_no_leading_zeros() {
        let text = |number| {
            let mut table = Vec::new();
            super::number(&mut table, number);
            String::from_utf8(table).unwrap()
        };
        assert_eq!(
            [0, 9, 10, 1_000, u64::MAX].map(text),
            ["0", "9", "10", "1000", "18446744073709551615"]
        );
    }
}
