//! A Tox TCP relay for classrooms, as a library in which every function is
//! proved to do what its papers say, document 01 and, of frames, of a client
//! that asks for itself, of clients that are dead, of one that comes back and of
//! buckets, document 02's Req 01 to Req 05: the safe interface to the static
//! library `libbanavoge.a`.
//!
//! Here are the relay, which is a [`Room`]; the [`Frames`] of a stream; relay
//! packets of both ends, [`FromClient`] and [`FromRelay`]; packed nodes,
//! [`Node`], and lists of them, [`Nodes`]; and, of nodes that are kept, the
//! [`NearestList`] and the [`Buckets`]. The host owns sockets, sealing and
//! opening: it hands over what comes in, is shown the frames to open, hands over
//! the opened packets, and tells the time, in whole seconds. Nothing here keeps a
//! socket, reads a clock or has any state besides these values. A room and
//! buckets take their memory once, when they are made; a room's calls allocate
//! nothing.
//!
//! Each call is accepted or refused with a [`Refusal`]; a refused call has
//! written nothing and changed nothing, but that a reader of frames refuses
//! every call after its first bad length. What is right is judged by the
//! library alone: here its answers become types.
//!
//! # Two clients meet
//!
//! Document 01's examples P1 to P6, P3 as document 02's Req 04 has it:
//!
//! ```
//! use banavoge::{ConnectionNumber, FromClient, FromRelay, Key, Records};
//! use banavoge::{Refusal, Room, Seat, LEAST_OUTPUT, LONGEST_PACKET};
//!
//! /// What is sent, as the clients read it.
//! fn read(sent: Records<'_>) -> Vec<(Seat, FromRelay<'_>)> {
//!     sent.map(|record| (record.seat, FromRelay::read(record.packet).unwrap()))
//!         .collect()
//! }
//!
//! let (ka, kb) = (Key([0x11; 32]), Key([0x22; 32]));
//! let number = ConnectionNumber(16);
//! let mut room = Room::empty();
//! let mut out = [0; LEAST_OUTPUT];
//! let mut packet = [0; LONGEST_PACKET];
//!
//! // P1, P2, P3: KA arrives, then KB, then KA again. There is nobody to tell.
//! for (key, seat) in [(ka, Seat(0)), (kb, Seat(1)), (ka, Seat(0))] {
//!     let arrival = room.arrive(&key, &mut out)?;
//!     assert_eq!(arrival.seat, seat);
//!     assert_eq!(arrival.records.as_bytes(), []);
//! }
//!
//! // P4: KA asks for KB and is given number 16.
//! let count = FromClient::RoutingRequest { key: kb }.write(&mut packet)?;
//! let sent = room.packet(Seat(0), &packet[..count], &mut out)?;
//! assert_eq!(sent.as_bytes().len(), 37);
//! assert_eq!(
//!     read(sent),
//!     [(Seat(0), FromRelay::RoutingResponse { number, key: kb })]
//! );
//!
//! // P5: KB asks for KA, and both are told that they are connected.
//! let count = FromClient::RoutingRequest { key: ka }.write(&mut packet)?;
//! let sent = room.packet(Seat(1), &packet[..count], &mut out)?;
//! assert_eq!(sent.as_bytes().len(), 47);
//! assert_eq!(
//!     read(sent),
//!     [
//!         (Seat(1), FromRelay::RoutingResponse { number, key: ka }),
//!         (Seat(1), FromRelay::ConnectNotification(number)),
//!         (Seat(0), FromRelay::ConnectNotification(number)),
//!     ]
//! );
//!
//! // P6: what KA sends on its number goes to KB on KB's.
//! let payload = b"ab";
//! let count = FromClient::Data { number, payload }.write(&mut packet)?;
//! let sent = room.packet(Seat(0), &packet[..count], &mut out)?;
//! assert_eq!(sent.as_bytes(), [1, 0, 3, 16, b'a', b'b']);
//! assert_eq!(read(sent), [(Seat(1), FromRelay::Data { number, payload })]);
//! # Ok::<(), Refusal>(())
//! ```
//!
//! # In a host
//!
//! A host keeps for each seat a connection, and a reader of the frames that come
//! in on it. It opens each frame, hands the packet to the room, and seals and
//! sends each record. When a client comes back whose connection was not closed
//! yet, it drops the old one. Each second it tells the room the time, and closes
//! the connections of those who were put out:
//!
//! ```
//! use banavoge::{Frames, Key, Records, Refusal, Room, Seat, LEAST_TICK_OUTPUT};
//!
//! struct Connection {
//!     // the socket, and the keys that seal and open
//! }
//!
//! impl Connection {
//!     fn open(&mut self, sealed: &[u8]) -> Vec<u8> {
//!         // the packet in it
//! #       Vec::new()
//!     }
//!
//!     fn seal_and_send(&mut self, packet: &[u8]) {}
//! }
//!
//! struct Host {
//!     room: Room,
//!     connections: [Option<Connection>; Room::SEATS],
//!     frames: [Frames; Room::SEATS],
//!     out: [u8; LEAST_TICK_OUTPUT],
//! }
//!
//! impl Host {
//!     /// A handshake is done, and the client is known by its key.
//!     fn connected(&mut self, key: &Key, connection: Connection) -> Result<Seat, Refusal> {
//!         let old = self.room.seat_of(key);
//!         let arrival = self.room.arrive(key, &mut self.out)?;
//!         // Who comes back has left its old seat: `closed` is not for that connection.
//!         if let Some(old) = old {
//!             self.connections[old.index()] = None;
//!         }
//!         send(&mut self.connections, arrival.records);
//!         let seat = arrival.seat;
//!         self.connections[seat.index()] = Some(connection);
//!         self.frames[seat.index()] = Frames::new();
//!         Ok(seat)
//!     }
//!
//!     /// Bytes came in, cut anywhere. Where this is refused, no more frames can
//!     /// be read from the connection, and it is to be closed.
//!     fn received(&mut self, seat: Seat, mut piece: &[u8]) -> Result<(), Refusal> {
//!         while let Some(frame) = self.frames[seat.index()].next(&mut piece)? {
//!             let Some(connection) = &mut self.connections[seat.index()] else {
//!                 break;
//!             };
//!             let packet = connection.open(frame.sealed());
//!             // A packet that is refused sends nothing; the next frame may be good.
//!             let _ = self.opened(seat, &packet);
//!         }
//!         Ok(())
//!     }
//!
//!     /// A packet was opened.
//!     fn opened(&mut self, seat: Seat, packet: &[u8]) -> Result<(), Refusal> {
//!         let records = self.room.packet(seat, packet, &mut self.out)?;
//!         send(&mut self.connections, records);
//!         Ok(())
//!     }
//!
//!     /// The connection of a seat was closed by its client.
//!     fn closed(&mut self, seat: Seat) -> Result<(), Refusal> {
//!         let records = self.room.leave(seat, &mut self.out)?;
//!         self.connections[seat.index()] = None;
//!         send(&mut self.connections, records);
//!         Ok(())
//!     }
//!
//!     /// A second has passed. The number is any but 0, such as a random one.
//!     fn ticked(&mut self, time: u64, number: u64) -> Result<(), Refusal> {
//!         let records = self.room.tick(time, number, &mut self.out)?;
//!         // Some may be for clients that were put out: these are closed afterwards.
//!         send(&mut self.connections, records);
//!         for (seat, connection) in (0..).map(Seat).zip(&mut self.connections) {
//!             if self.room.key_in(seat).is_none() {
//!                 *connection = None;
//!             }
//!         }
//!         Ok(())
//!     }
//! }
//!
//! fn send(connections: &mut [Option<Connection>], records: Records<'_>) {
//!     for record in records {
//!         if let Some(connection) = &mut connections[record.seat.index()] {
//!             connection.seal_and_send(record.packet);
//!         }
//!     }
//! }
//! ```
//!
//! # Safety
//!
//! All unsafe code stands in one hidden module, which lends references to the
//! C functions. Where memory depends on what the library answers, it is checked
//! here again: places become checked slices, numbers are matched case by case.
//! An answer that the proofs rule out would be a panic.

#![deny(missing_docs)]
#![deny(unsafe_code, clippy::undocumented_unsafe_blocks)]

mod answer;
mod arrival;
mod buckets;
mod call;
mod connection_number;
mod frames;
mod key;
mod nearest;
mod node;
mod nodes;
mod packet;
mod play;
#[allow(unsafe_code)]
#[doc(hidden)]
pub mod raw;
mod record;
mod refusal;
mod room;
mod seat;

pub use arrival::Arrival;
pub use buckets::Buckets;
pub use call::{Call, TooLong};
pub use connection_number::ConnectionNumber;
pub use frames::{Frame, Frames, LONGEST_FRAME};
pub use key::Key;
pub use nearest::{HeldNodes, NearestList};
pub use node::{Node, Transport, LONGEST_NODE};
pub use nodes::{Nodes, LONGEST_NODE_LIST};
pub use packet::{FromClient, FromRelay, LONGEST_PACKET};
pub use play::{Accepted, Answers, Played, Stop};
pub use record::{Record, Records};
pub use refusal::Refusal;
pub use room::{Room, LEAST_OUTPUT, LEAST_TICK_OUTPUT};
pub use seat::Seat;
