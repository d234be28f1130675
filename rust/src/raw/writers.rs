//! The writers of both ends. Each answers how many bytes it wrote at the front
//! of the output.

use super::Key;

extern "C" {
    fn banavoge_routing_request(key: *const Key, out: *mut u8, out_length: usize) -> i32;

    fn banavoge_routing_response(
        number: u8,
        key: *const Key,
        out: *mut u8,
        out_length: usize,
    ) -> i32;

    fn banavoge_connect_notification(number: u8, out: *mut u8, out_length: usize) -> i32;

    fn banavoge_disconnect_notification(number: u8, out: *mut u8, out_length: usize) -> i32;

    fn banavoge_drop(number: u8, out: *mut u8, out_length: usize) -> i32;

    fn banavoge_ping(n: u64, out: *mut u8, out_length: usize) -> i32;

    fn banavoge_pong(n: u64, out: *mut u8, out_length: usize) -> i32;

    fn banavoge_oob_send(
        key: *const Key,
        data: *const u8,
        data_length: usize,
        out: *mut u8,
        out_length: usize,
    ) -> i32;

    fn banavoge_oob_received(
        key: *const Key,
        data: *const u8,
        data_length: usize,
        out: *mut u8,
        out_length: usize,
    ) -> i32;

    fn banavoge_data(
        number: u8,
        data: *const u8,
        data_length: usize,
        out: *mut u8,
        out_length: usize,
    ) -> i32;
}

/// The client's routing request.
pub fn routing_request(key: &Key, out: &mut [u8]) -> i32 {
    // SAFETY: the pointers come from references to the key and to the output,
    // whose count is its own.
    unsafe { banavoge_routing_request(key, out.as_mut_ptr(), out.len()) }
}

/// The relay's routing response.
pub fn routing_response(number: u8, key: &Key, out: &mut [u8]) -> i32 {
    // SAFETY: the pointers come from references to the key and to the output,
    // whose count is its own.
    unsafe { banavoge_routing_response(number, key, out.as_mut_ptr(), out.len()) }
}

/// The relay's connect notification.
pub fn connect_notification(number: u8, out: &mut [u8]) -> i32 {
    // SAFETY: the pointer comes from a reference to the output, whose count is
    // its own.
    unsafe { banavoge_connect_notification(number, out.as_mut_ptr(), out.len()) }
}

/// The relay's disconnect notification.
pub fn disconnect_notification(number: u8, out: &mut [u8]) -> i32 {
    // SAFETY: the pointer comes from a reference to the output, whose count is
    // its own.
    unsafe { banavoge_disconnect_notification(number, out.as_mut_ptr(), out.len()) }
}

/// The client's drop of a route.
pub fn drop_route(number: u8, out: &mut [u8]) -> i32 {
    // SAFETY: the pointer comes from a reference to the output, whose count is
    // its own.
    unsafe { banavoge_drop(number, out.as_mut_ptr(), out.len()) }
}

/// A ping, for either end.
pub fn ping(number: u64, out: &mut [u8]) -> i32 {
    // SAFETY: the pointer comes from a reference to the output, whose count is
    // its own.
    unsafe { banavoge_ping(number, out.as_mut_ptr(), out.len()) }
}

/// A pong, for either end.
pub fn pong(number: u64, out: &mut [u8]) -> i32 {
    // SAFETY: the pointer comes from a reference to the output, whose count is
    // its own.
    unsafe { banavoge_pong(number, out.as_mut_ptr(), out.len()) }
}

/// The client's out-of-band send to the client that holds `key`.
pub fn oob_send(key: &Key, data: &[u8], out: &mut [u8]) -> i32 {
    // SAFETY: the pointers come from references to the key, the data and the
    // output, the counts are those of the two slices.
    unsafe { banavoge_oob_send(key, data.as_ptr(), data.len(), out.as_mut_ptr(), out.len()) }
}

/// The relay's out-of-band packet from the client that holds `key`.
pub fn oob_received(key: &Key, data: &[u8], out: &mut [u8]) -> i32 {
    // SAFETY: the pointers come from references to the key, the data and the
    // output, the counts are those of the two slices.
    unsafe { banavoge_oob_received(key, data.as_ptr(), data.len(), out.as_mut_ptr(), out.len()) }
}

/// A data packet, for either end.
pub fn data(number: u8, data: &[u8], out: &mut [u8]) -> i32 {
    // SAFETY: the pointers come from references to the data and the output, the
    // counts are those of the two slices.
    unsafe {
        banavoge_data(
            number,
            data.as_ptr(),
            data.len(),
            out.as_mut_ptr(),
            out.len(),
        )
    }
}
