//! Reads stored calls on standard input, plays them on an empty room, and
//! prints a line for each: the call, then its answer or its refusal. Records
//! are shown in hex: seat, length, packet.

use std::io::{self, BufWriter, Read, Write};
use std::process::ExitCode;

use reference::call::{self, Call};
use reference::record::{self, Record};
use reference::refusal::Refusal;
use reference::room::{Accepted, Room, BASE, LEAST_OUTPUT};

fn main() -> io::Result<ExitCode> {
    let mut stored = Vec::new();
    io::stdin().read_to_end(&mut stored)?;
    let mut out = BufWriter::new(io::stdout().lock());
    let read = replay(&stored, &mut out)?;
    out.flush()?;
    if read < stored.len() {
        eprintln!("no stored call at byte {read} of {}", stored.len());
        return Ok(ExitCode::FAILURE);
    }
    Ok(ExitCode::SUCCESS)
}

/// Prints a line for each stored call, up to the end or to what is no stored
/// call. Answers how many bytes were read.
fn replay(stored: &[u8], out: &mut impl Write) -> io::Result<usize> {
    let mut room = Room::empty(BASE);
    let mut place = 0;
    while let Some((call, length)) = call::read(&stored[place..]) {
        let answer = call.make(&mut room, LEAST_OUTPUT);
        writeln!(out, "{}: {}", shown_call(&call), shown_answer(&answer))?;
        place += length;
    }
    Ok(place)
}

fn shown_call(call: &Call) -> String {
    match call {
        Call::Arrive { key } => format!("arrive {}", hex(key)),
        Call::Leave { seat } => format!("leave {seat}"),
        Call::Packet { seat, bytes } => format!("packet {seat} {}", hex(bytes)),
        Call::Tick { time, ping } => format!("tick {time} {ping}"),
    }
}

fn shown_answer(answer: &Result<Accepted, Refusal>) -> String {
    match answer {
        Err(number) => format!("refusal {number}"),
        Ok(accepted) => {
            let count = record::bytes(&accepted.records).len();
            let records = accepted.records.iter().map(shown_record);
            let head = format!("seat {}, {count} bytes", accepted.seat);
            [head]
                .into_iter()
                .chain(records)
                .collect::<Vec<_>>()
                .join(", ")
        }
    }
}

fn shown_record(record: &Record) -> String {
    let seat = record.seat;
    let length = record.packet.len();
    format!("{seat:02x} {length:04x} {}", hex(&record.packet))
}

fn hex(bytes: &[u8]) -> String {
    bytes.iter().map(|byte| format!("{byte:02x}")).collect()
}

#[cfg(test)]
mod tests {
    use super::*;

    #[test]
    fn each_call_has_a_line_up_to_what_is_no_stored_call() {
        let ka = "11".repeat(32);
        let kb = "22".repeat(32);
        let packet = |seat, bytes: &[u8]| Call::Packet {
            seat,
            bytes: bytes.to_vec(),
        };
        let calls = [
            Call::Arrive { key: [0x11; 32] },
            Call::Arrive { key: [0x22; 32] },
            packet(0, &[&[0], &[0x22; 32][..]].concat()),
            packet(1, &[&[0], &[0x11; 32][..]].concat()),
            packet(1, &[]),
            Call::Leave { seat: 0 },
            Call::Arrive { key: [0x11; 32] },
            packet(0, &[&[0], &[0x22; 32][..]].concat()),
            Call::Arrive { key: [0x22; 32] },
        ];
        let mut stored = call::write_all(&calls).unwrap();
        let length = stored.len();
        stored.push(0xff);
        let mut out = Vec::new();
        assert_eq!(replay(&stored, &mut out).unwrap(), length);
        let expected = [
            format!("arrive {ka}: seat 0, 0 bytes"),
            format!("arrive {kb}: seat 1, 0 bytes"),
            format!("packet 0 00{kb}: seat 0, 37 bytes, 00 0022 0110{kb}"),
            format!(
                "packet 1 00{ka}: seat 1, 47 bytes, 01 0022 0110{ka}, 01 0002 0210, 00 0002 0210"
            ),
            "packet 1 : refusal 4".to_string(),
            "leave 0: seat 0, 5 bytes, 01 0002 0310".to_string(),
            format!("arrive {ka}: seat 0, 0 bytes"),
            format!(
                "packet 0 00{kb}: seat 0, 47 bytes, 00 0022 0110{kb}, 00 0002 0210, 01 0002 0210"
            ),
            // A seated key: its departure is told as by a leave.
            format!("arrive {kb}: seat 1, 5 bytes, 00 0002 0310\n"),
        ];
        assert_eq!(String::from_utf8(out).unwrap(), expected.join("\n"));
    }
}
