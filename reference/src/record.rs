//! What the relay sends: records in the output, one for each packet.

use crate::packet::{write_from_relay, FromRelay, LONGEST_PACKET};

/// A packet for the client in a seat.
#[derive(Debug, Clone, PartialEq, Eq)]
pub struct Record {
    pub seat: usize,
    pub packet: Vec<u8>,
}

/// The record that sends this packet to this seat.
///
/// The room makes packets that the client's reader takes and no others, so a
/// writer that refuses one shows a fault in the room.
pub fn record(seat: usize, packet: &FromRelay) -> Record {
    let mut out = [0; LONGEST_PACKET];
    let count = write_from_relay(packet, &mut out)
        .expect("the room sends only what the client's reader takes");
    Record {
        seat,
        packet: out[..count].to_vec(),
    }
}

/// The records as they stand in the output: for each the seat (1 byte), the
/// length (2 bytes, the higher first) and the packet.
pub fn bytes(records: &[Record]) -> Vec<u8> {
    let mut bytes = Vec::new();
    for record in records {
        let length = record.packet.len() as u16;
        bytes.push(record.seat as u8);
        bytes.extend_from_slice(&length.to_be_bytes());
        bytes.extend_from_slice(&record.packet);
    }
    bytes
}

#[cfg(test)]
mod tests {
    use super::*;

    #[test]
    fn a_record_is_its_seat_its_length_and_the_packet() {
        let number = 0x10;
        let long = FromRelay::Data {
            number,
            data: vec![0x61; 2_031],
        };
        let records = [record(39, &FromRelay::Connect { number }), record(1, &long)];
        let bytes = bytes(&records);
        assert_eq!(bytes[..5], [0x27, 0x00, 0x02, 0x02, 0x10]);
        assert_eq!(bytes[5..9], [0x01, 0x07, 0xf0, 0x10]);
        assert_eq!(bytes.len(), 5 + 3 + 2_032);
    }
}
