//! The room: the relay itself.

use crate::answer::{accepted, found};
use crate::raw::{self, play::Counts};
use crate::{Answers, Arrival, Key, Played, Records, Refusal, Seat, Stop};
use std::fmt;

/// The least output to lend to [`Room::arrive`], [`Room::packet`] and
/// [`Room::leave`]: with less they are refused with 10, whatever they would send.
/// It is enough for each of them.
pub const LEAST_OUTPUT: usize = 2_048;

/// The least output to lend to [`Room::tick`]: with less it is refused with 10,
/// whatever it would send. It is enough for every tick.
pub const LEAST_TICK_OUTPUT: usize = 5_120;

/// A room: a clock, and 40 seats, each empty or with one client's key, its 32
/// routes, the time of its last ping and the ping number not yet answered.
///
/// The relay's four calls are [`arrive`](Room::arrive),
/// [`packet`](Room::packet), [`leave`](Room::leave) and [`tick`](Room::tick);
/// [`play`](Room::play) makes any number of the first three. What they send is
/// written into an output that the caller lends; no call allocates. A refused
/// call leaves room and output as they were. Who sits where is told by
/// [`key_in`](Room::key_in) and [`seat_of`](Room::seat_of).
///
/// A room is whole when seated keys differ, the wanted keys of one seat differ,
/// no seat names its own key, no ping time is after the clock, empty seats hold
/// no routes, and what else the library keeps agrees with these. It owns its
/// memory, which only the library's calls change, so it is always whole: 11 is
/// given only where a room is made from bytes.
#[derive(Clone)]
pub struct Room {
    memory: Box<[u8]>,
}

impl Room {
    /// How many seats there are: 0 to 39.
    pub const SEATS: usize = 40;

    /// How many connection numbers each seat has: 16 to 47.
    pub const NUMBERS: usize = 32;

    /// How many bytes a room takes.
    pub const BYTES: usize = 44_251;

    /// The empty room.
    pub fn empty() -> Room {
        let mut memory = vec![0; Room::BYTES].into_boxed_slice();
        accepted(raw::room::empty(&mut memory)).expect("the memory is as long as a room");
        Room { memory }
    }

    /// The room that stands at the front of bytes that were kept, tested in
    /// full. Refused with 11; fewer than [`Room::BYTES`] bytes are no room, and
    /// bytes behind the room are left out. Bytes kept from another version of
    /// the library may have another layout, and are not to be given.
    ///
    /// ```
    /// use banavoge::{Key, Refusal, Room, LEAST_OUTPUT};
    ///
    /// let mut room = Room::empty();
    /// let mut out = [0; LEAST_OUTPUT];
    /// let seat = room.arrive(&Key([1; 32]), &mut out)?.seat;
    /// let mut kept = room.as_bytes().to_vec();
    ///
    /// let room = Room::from_bytes(&kept)?;
    /// assert_eq!(room.key_in(seat), Some(Key([1; 32])));
    ///
    /// kept[0] = 41;
    /// assert_eq!(Room::from_bytes(&kept).err(), Some(Refusal::RoomNotWhole));
    /// # Ok::<(), Refusal>(())
    /// ```
    pub fn from_bytes(bytes: &[u8]) -> Result<Room, Refusal> {
        accepted(raw::room::check(bytes))?;
        let memory = bytes[..Room::BYTES].into();
        Ok(Room { memory })
    }

    /// The bytes of the room, to be kept. Their layout is drawn in
    /// docs/ARCHITECTURE.md. Bytes that are no part of the room, such as the
    /// keys of clients that have left, stand among them.
    pub fn as_bytes(&self) -> &[u8] {
        &self.memory
    }

    /// A client arrives: its key takes the lowest empty seat and has no routes
    /// there. Refused with 10, or with 1 where all 40 seats are taken, none of
    /// them by this key. For a key that is not seated nothing is sent.
    ///
    /// A key that is seated already leaves first, as by [`leave`](Room::leave), and
    /// each client connected with it is told; their requests go on waiting for that
    /// key. Then it takes the lowest empty seat, which may be another than its old
    /// one. It is never refused with 1: its own seat is empty by then. Its old
    /// routes are gone, and so is a ping not yet answered.
    ///
    /// A reconnect tells the old seat nothing: the host closes the connection that
    /// it holds for that key. The key's old seat is told by
    /// [`seat_of`](Room::seat_of) before the call; afterwards it is empty, or the
    /// key's again. No `leave` and no `packet` is to be made for the old connection
    /// any more, not even for bytes that came in before: they would be taken for
    /// those of the client that has come back, or of another that has taken the old
    /// seat since. The new connection has [`Frames`](crate::Frames) of its own, also
    /// where the seat is the same.
    ///
    /// ```
    /// use banavoge::{ConnectionNumber, FromRelay, Key, Refusal, Room, Seat, LEAST_OUTPUT};
    ///
    /// let (ka, kb) = (Key([1; 32]), Key([2; 32]));
    /// let mut room = Room::empty();
    /// let mut out = [0; LEAST_OUTPUT];
    /// assert_eq!(room.arrive(&ka, &mut out)?.seat, Seat(0));
    /// assert_eq!(room.arrive(&kb, &mut out)?.seat, Seat(1));
    /// for (seat, wanted) in [(Seat(0), kb), (Seat(1), ka)] {
    ///     let request = [&[0], wanted.as_ref()].concat();
    ///     let _ = room.packet(seat, &request, &mut out)?;
    /// }
    ///
    /// // KB comes back without having left: KA is told, and KB has its seat again.
    /// let arrival = room.arrive(&kb, &mut out)?;
    /// assert_eq!(arrival.seat, Seat(1));
    /// let mut records = arrival.records;
    /// let record = records.next().expect("KA is told");
    /// assert_eq!(record.seat, Seat(0));
    /// let told = FromRelay::DisconnectNotification(ConnectionNumber(16));
    /// assert_eq!(FromRelay::read(record.packet), Ok(told));
    /// assert_eq!(records.next(), None);
    /// # Ok::<(), Refusal>(())
    /// ```
    pub fn arrive<'o>(&mut self, key: &Key, out: &'o mut [u8]) -> Result<Arrival<'o>, Refusal> {
        let mut seat = 0;
        let room = &mut self.memory;
        let count = accepted(raw::relay::arrive(room, &key.0, out, &mut seat))?;
        Ok(Arrival {
            seat: Seat(seat),
            records: Records::written(&out[..count]),
        })
    }

    /// The client in a seat leaves: each client connected with it is told, and
    /// the seat is empty. Refused with 10 or 3.
    ///
    /// ```
    /// use banavoge::{Key, Refusal, Room, LEAST_OUTPUT};
    ///
    /// let mut room = Room::empty();
    /// let mut out = [0; LEAST_OUTPUT];
    /// let seat = room.arrive(&Key([1; 32]), &mut out)?.seat;
    /// for record in room.leave(seat, &mut out)? {
    ///     println!("{} bytes for {}", record.packet.len(), record.seat);
    /// }
    /// let again = room.leave(seat, &mut out);
    /// assert_eq!(again.err(), Some(Refusal::NotSeated));
    /// # Ok::<(), Refusal>(())
    /// ```
    pub fn leave<'o>(&mut self, seat: Seat, out: &'o mut [u8]) -> Result<Records<'o>, Refusal> {
        let count = accepted(raw::relay::leave(&mut self.memory, seat.0, out))?;
        Ok(Records::written(&out[..count]))
    }

    /// The client in a seat sends a packet, which the relay reads and acts on.
    /// Refused with 10 or 3 to 9. A request for the sender's own key is not
    /// refused: it is answered with 0, and no route is taken. Nor is a pong with
    /// another number than the one outstanding: it does nothing.
    ///
    /// ```
    /// use banavoge::{FromRelay, Key, Refusal, Room, LEAST_OUTPUT};
    ///
    /// let mut room = Room::empty();
    /// let mut out = [0; LEAST_OUTPUT];
    /// let seat = room.arrive(&Key([1; 32]), &mut out)?.seat;
    /// let ping = [4, 0, 0, 0, 0, 0, 0, 0, 9];
    /// for record in room.packet(seat, &ping, &mut out)? {
    ///     assert_eq!(FromRelay::read(record.packet), Ok(FromRelay::Pong(9)));
    /// }
    /// let nothing = room.packet(seat, &[], &mut out);
    /// assert_eq!(nothing.err(), Some(Refusal::PacketSize));
    /// # Ok::<(), Refusal>(())
    /// ```
    pub fn packet<'o>(
        &mut self,
        seat: Seat,
        packet: &[u8],
        out: &'o mut [u8],
    ) -> Result<Records<'o>, Refusal> {
        let count = accepted(raw::relay::packet(&mut self.memory, seat.0, packet, out))?;
        Ok(Records::written(&out[..count]))
    }

    /// The clock moves on to a time, in whole seconds. Refused with 10, 7 or 19;
    /// the same time again is accepted.
    ///
    /// First, in rising seat order, every client whose ping has stood unanswered
    /// for 10 seconds or more leaves, as by [`leave`](Room::leave). Then, in that
    /// order, every remaining client with no ping outstanding, last pinged 30
    /// seconds ago or more, is pinged with `number`; it answers with a pong of
    /// that number. An arrival counts as pinged at the clock then, so the first
    /// tick with a large time pings everybody.
    ///
    /// A record may be for a seat that the same tick has emptied: it is for the
    /// client that sat there before the call. So the records are to be sent
    /// first. Who was put out is told by [`key_in`](Room::key_in), which has
    /// none for its seat afterwards; its connection is to be closed before the
    /// next arrival, which may be given that seat.
    ///
    /// ```
    /// use banavoge::{FromRelay, Key, Refusal, Room, LEAST_TICK_OUTPUT};
    ///
    /// let mut room = Room::empty();
    /// let mut out = [0; LEAST_TICK_OUTPUT];
    /// let seat = room.arrive(&Key([1; 32]), &mut out)?.seat;
    ///
    /// let mut sent = room.tick(30, 7, &mut out)?;
    /// let record = sent.next().expect("a ping is due");
    /// assert_eq!(record.seat, seat);
    /// assert_eq!(FromRelay::read(record.packet), Ok(FromRelay::Ping(7)));
    ///
    /// // No pong has come: 10 seconds later the client is put out.
    /// assert_eq!(room.tick(39, 8, &mut out)?.count(), 0);
    /// assert_eq!(room.key_in(seat), Some(Key([1; 32])));
    /// assert_eq!(room.tick(40, 9, &mut out)?.count(), 0);
    /// assert_eq!(room.key_in(seat), None);
    ///
    /// let back = room.tick(39, 10, &mut out);
    /// assert_eq!(back.err(), Some(Refusal::ClockBack));
    /// # Ok::<(), Refusal>(())
    /// ```
    pub fn tick<'o>(
        &mut self,
        time: u64,
        number: u64,
        out: &'o mut [u8],
    ) -> Result<Records<'o>, Refusal> {
        let count = accepted(raw::relay::tick(&mut self.memory, time, number, out))?;
        Ok(Records::written(&out[..count]))
    }

    /// The key of the client in a seat; none where the seat is empty or above 39.
    ///
    /// ```
    /// use banavoge::{Key, Room, Seat, LEAST_OUTPUT};
    ///
    /// let mut room = Room::empty();
    /// let mut out = [0; LEAST_OUTPUT];
    /// assert_eq!(room.arrive(&Key([1; 32]), &mut out)?.seat, Seat(0));
    /// assert_eq!(room.key_in(Seat(0)), Some(Key([1; 32])));
    /// assert_eq!(room.key_in(Seat(1)), None);
    /// assert_eq!(room.key_in(Seat(40)), None);
    /// # Ok::<(), banavoge::Refusal>(())
    /// ```
    pub fn key_in(&self, seat: Seat) -> Option<Key> {
        let mut key = [0; 32];
        found(raw::sitting::key_in(&self.memory, seat.0, &mut key))?;
        Some(Key(key))
    }

    /// The seat of the client with a key; none where that key does not sit in
    /// the room.
    ///
    /// ```
    /// use banavoge::{Key, Room, LEAST_OUTPUT};
    ///
    /// let mut room = Room::empty();
    /// let mut out = [0; LEAST_OUTPUT];
    /// let seat = room.arrive(&Key([1; 32]), &mut out)?.seat;
    /// assert_eq!(room.seat_of(&Key([1; 32])), Some(seat));
    /// assert_eq!(room.seat_of(&Key([2; 32])), None);
    /// # Ok::<(), banavoge::Refusal>(())
    /// ```
    pub fn seat_of(&self, key: &Key) -> Option<Seat> {
        let seat = found(raw::sitting::seat_of(&self.memory, &key.0))?;
        Some(Seat(u8::try_from(seat).expect("a seat is a byte")))
    }

    /// Plays stored calls from the front of `calls`, at most `allowance` of
    /// them, as if each were made by itself. The library tests the room once
    /// and not for each call. A tick has no stored form. Where an arrival may be
    /// of a key that is seated already, its old seat is told by
    /// [`seat_of`](Room::seat_of) before the run, or, where the key arrived in the
    /// same run before, by the answer to that arrival; and no call made for the old
    /// connection may stand behind the arrival.
    ///
    /// What is no stored call, an allowance used up and too little output only
    /// stop it: the rest may be played by a further call. Never refused: 11 is
    /// the only refusal of a run, and a `Room` is always whole.
    ///
    /// ```
    /// use banavoge::{Call, Key, Refusal, Room, Seat, Stop};
    ///
    /// let (ka, kb) = (Key([0x11; 32]), Key([0x22; 32]));
    /// let mut calls = Vec::new();
    /// for call in [
    ///     Call::Arrive { key: ka },
    ///     Call::Arrive { key: kb },
    ///     Call::Leave { seat: Seat(2) },
    ///     Call::Packet { seat: Seat(0), packet: &[4, 0, 0, 0, 0, 0, 0, 0, 9] },
    /// ] {
    ///     call.store(&mut calls)?;
    /// }
    ///
    /// let mut room = Room::empty();
    /// let mut out = vec![0; 1 << 16];
    /// let played = room.play(&calls, 3, &mut out)?;
    /// assert_eq!((played.calls, played.stop), (3, Stop::Allowance));
    /// let seats = played.answers.map(|answer| answer.map(|accepted| accepted.seat));
    /// assert!(seats.eq([Ok(Seat(0)), Ok(Seat(1)), Err(Refusal::NotSeated)]));
    ///
    /// let rest = &calls[played.read..];
    /// let played = room.play(rest, 3, &mut out)?;
    /// assert_eq!((played.calls, played.stop), (1, Stop::End));
    /// for answer in played.answers {
    ///     for record in answer?.records {
    ///         assert_eq!(record.packet, [5, 0, 0, 0, 0, 0, 0, 0, 9]);
    ///     }
    /// }
    /// # Ok::<(), Box<dyn std::error::Error>>(())
    /// ```
    pub fn play<'o>(
        &mut self,
        calls: &[u8],
        allowance: usize,
        out: &'o mut [u8],
    ) -> Result<Played<'o>, Refusal> {
        let mut counts = Counts::default();
        let room = &mut self.memory;
        let answer = accepted(raw::play::play(room, calls, allowance, out, &mut counts))?;
        Ok(Played {
            calls: counts.played,
            read: counts.read,
            stop: Stop::of_answer(answer),
            answers: Answers::written(&out[..counts.written]),
        })
    }
}

impl Default for Room {
    /// The empty room.
    fn default() -> Room {
        Room::empty()
    }
}

impl fmt::Debug for Room {
    fn fmt(&self, f: &mut fmt::Formatter<'_>) -> fmt::Result {
        f.debug_struct("Room").finish_non_exhaustive()
    }
}
