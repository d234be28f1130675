//! The calls of the relay on a room in lent memory.

use super::Key;

extern "C" {
    fn banavoge_arrive(
        room: *mut u8,
        room_length: usize,
        key: *const Key,
        out: *mut u8,
        out_length: usize,
        seat: *mut u8,
    ) -> i32;

    fn banavoge_leave(
        room: *mut u8,
        room_length: usize,
        seat: u8,
        out: *mut u8,
        out_length: usize,
    ) -> i32;

    fn banavoge_packet(
        room: *mut u8,
        room_length: usize,
        seat: u8,
        packet: *const u8,
        packet_length: usize,
        out: *mut u8,
        out_length: usize,
    ) -> i32;

    fn banavoge_tick(
        room: *mut u8,
        room_length: usize,
        time: u64,
        number: u64,
        out: *mut u8,
        out_length: usize,
    ) -> i32;
}

/// A key arrives: how many bytes are written, or a refusal. Only an arrival that
/// is accepted sets the seat.
pub fn arrive(room: &mut [u8], key: &Key, out: &mut [u8], seat: &mut u8) -> i32 {
    // SAFETY: the pointers come from references to the room and the output, whose
    // counts are their own, to the key and to the seat.
    unsafe {
        banavoge_arrive(
            room.as_mut_ptr(),
            room.len(),
            key,
            out.as_mut_ptr(),
            out.len(),
            seat,
        )
    }
}

/// The client in a seat leaves: how many bytes are written, or a refusal.
pub fn leave(room: &mut [u8], seat: u8, out: &mut [u8]) -> i32 {
    // SAFETY: the pointers come from references to the room and the output, the
    // counts are those of the two slices.
    unsafe {
        banavoge_leave(
            room.as_mut_ptr(),
            room.len(),
            seat,
            out.as_mut_ptr(),
            out.len(),
        )
    }
}

/// The client in a seat sends a packet: how many bytes are written, or a
/// refusal.
pub fn packet(room: &mut [u8], seat: u8, packet: &[u8], out: &mut [u8]) -> i32 {
    // SAFETY: the pointers come from references to the room, the packet and the
    // output, the counts are those of the three slices.
    unsafe {
        banavoge_packet(
            room.as_mut_ptr(),
            room.len(),
            seat,
            packet.as_ptr(),
            packet.len(),
            out.as_mut_ptr(),
            out.len(),
        )
    }
}

/// The clock moves on to a time, with the number for those who are pinged: how
/// many bytes are written, or a refusal.
pub fn tick(room: &mut [u8], time: u64, number: u64, out: &mut [u8]) -> i32 {
    // SAFETY: the pointers come from references to the room and the output, the
    // counts are those of the two slices.
    unsafe {
        banavoge_tick(
            room.as_mut_ptr(),
            room.len(),
            time,
            number,
            out.as_mut_ptr(),
            out.len(),
        )
    }
}
