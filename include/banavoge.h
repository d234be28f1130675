/*
 * Banavoge: a Tox TCP relay for classrooms, as a static library.
 *
 * The host owns sockets, sealing and opening. It hands over what comes in on a socket, is shown the
 * frames to open, hands over the opened packets, and tells the time. Document 01 (scope and exact
 * rules) says what each function does, document 02 (changes after the base) what the frame reader
 * does, how a client that asks for itself is answered, what a tick does, how a key that is seated
 * arrives again and what k-buckets hold, and each is proved to do so on every input. Refusal
 * numbers and sizes are theirs.
 *
 * Answers
 *   0 or more is what the function's comment says. Below 0 it is minus a refusal number (enum
 *   banavoge_refusal). Comments list refusals in the order in which they are tested: where several
 *   hold, the first is given. After a refusal everything that was lent is as before the call, with
 *   two exceptions: banavoge_nearest_begin with a bad size; and banavoge_frame_read, where used is
 *   0, and 18 leaves held at 2,051.
 *
 * Memory
 *   The host owns all of it. The library has no heap and no global and keeps nothing between two
 *   calls, no pointer either: what a call is given may be moved or freed when it has returned.
 *   - Bytes pass as a pointer and a length, a key as a pointer to 32 bytes, an address as a pointer
 *     to 16. A length must not be more than what stands there.
 *   - The buffers of one call must not overlap. A place that a call sets is a buffer too.
 *   - No pointer may be NULL, not even with length 0: give any valid pointer.
 *   - A function writes only what its comment says. Bytes of an output behind those that it counts
 *     keep their old contents.
 *
 * Threads
 *   A call touches nothing but what it is given. A room, a list, buckets, a keep or an output may be
 *   used by one call at a time; calls that share none of them may run at the same time, so different
 *   rooms may.
 *
 * Numbers
 *   In frames, packets, packed nodes and records the highest byte stands first. Ports, times and
 *   ping numbers that pass as parameters are ordinary C numbers.
 *
 * Linking
 *   libbanavoge.a, for Linux on x86-64, asks the C library for memcpy and memset and for nothing
 *   else.
 */
#ifndef BANAVOGE_H
#define BANAVOGE_H

#include <stdbool.h>
#include <stddef.h>
#include <stdint.h>

#ifdef __cplusplus
extern "C" {
#endif

/* ---- Sizes ---- */

#define BANAVOGE_KEY_BYTES 32
#define BANAVOGE_KEEP_BYTES 2050        /* the longest frame: its length and 2,048 sealed bytes */
#define BANAVOGE_MOST_PACKET_BYTES 2032 /* sealing adds 16, and a sealed packet has at most 2,048 */
#define BANAVOGE_MOST_OOB_BYTES 1024    /* what one out-of-band packet carries */
#define BANAVOGE_ADDRESS_BYTES 16       /* of which IPv4 has the first 4 */
#define BANAVOGE_MOST_NODE_BYTES 51     /* a packed node over IPv6; over IPv4 it has 39 */
#define BANAVOGE_MOST_NODES 4           /* in a node list */
#define BANAVOGE_MOST_LIST_SIZE 16      /* of a nearest list; the least is 1 */
#define BANAVOGE_BUCKETS_BYTES 106784   /* what banavoge_buckets_bytes answers */
#define BANAVOGE_MOST_NODES_BYTES 204   /* a node list of 4 nodes over IPv6 */
#define BANAVOGE_ROOM_BYTES 44251       /* what banavoge_room_bytes answers */
#define BANAVOGE_SEATS 40               /* of a room: 0 to 39 */
#define BANAVOGE_FIRST_NUMBER 16        /* of the connection numbers of a seat: 16 to 47 */
#define BANAVOGE_NUMBERS 32
#define BANAVOGE_LEAST_OUTPUT 2048      /* to be lent to arrive, leave, packet; none writes more */
#define BANAVOGE_LEAST_TICK_OUTPUT 5120 /* to be lent to a tick, which never writes more */
#define BANAVOGE_RECORD_HEAD 3          /* seat and length, before the packet of a record */

/* Why a call is refused, in document 01's words; 18 to 20, a keep, a tick's output and a key not
   seated in document 02's. An arrival's output is worded as a tick's. 2 is retired. The ping number
   of 7 stands in a packet, or is a tick's. */
enum banavoge_refusal {
    /* arrival with all 40 seats taken, of a key not seated */
    BANAVOGE_REFUSAL_ROOM_FULL = 1,
    /* retired: never given; the number stays reserved
       (arrival of a key already seated, in document 01) */
    BANAVOGE_REFUSAL_ALREADY_SEATED = 2,
    /* seat above 39, or empty; of banavoge_seat_of, a key that sits nowhere */
    BANAVOGE_REFUSAL_NOT_SEATED = 3,
    /* packet of 0 or more than 2,032 bytes */
    BANAVOGE_REFUSAL_PACKET_SIZE = 4,
    /* a kind this end does not take */
    BANAVOGE_REFUSAL_UNEXPECTED_KIND = 5,
    /* wrong length for the kind */
    BANAVOGE_REFUSAL_WRONG_LENGTH = 6,
    /* ping number 0 */
    BANAVOGE_REFUSAL_ZERO_PING = 7,
    /* room: number names no route;
       laptop's end: answer with 1 to 15, or kind 2 or 3 below 16 */
    BANAVOGE_REFUSAL_NO_SUCH_ROUTE = 8,
    /* data on a waiting route */
    BANAVOGE_REFUSAL_NOT_CONNECTED = 9,
    /* lent output too short: under 2,048 for packet and leave,
       under the exact length for a writer; a keep that is too short;
       tick output under 5,120; arrival output under 2,048 */
    BANAVOGE_REFUSAL_OUTPUT_TOO_SHORT = 10,
    /* room not whole */
    BANAVOGE_REFUSAL_ROOM_NOT_WHOLE = 11,
    /* list size not 1 to 16 */
    BANAVOGE_REFUSAL_LIST_SIZE = 12,
    /* key to remove is not held */
    BANAVOGE_REFUSAL_KEY_NOT_HELD = 13,
    /* list longer than its size, not strictly rising in distance, or holding an unknown family */
    BANAVOGE_REFUSAL_LIST_NOT_WHOLE = 14,
    /* unknown family byte */
    BANAVOGE_REFUSAL_UNKNOWN_FAMILY = 15,
    /* node cut short */
    BANAVOGE_REFUSAL_NODE_CUT_SHORT = 16,
    /* bytes left after four nodes */
    BANAVOGE_REFUSAL_BYTES_AFTER_NODES = 17,
    /* a length under 17 or above 2,048;
       a reader holding 2 or more bytes that start no unfinished frame */
    BANAVOGE_REFUSAL_BAD_FRAME = 18,
    /* a clock that goes back */
    BANAVOGE_REFUSAL_CLOCK_BACK = 19,
    /* buckets that hold a wrong, doubled or base key */
    BANAVOGE_REFUSAL_BUCKETS_NOT_WHOLE = 20
};

/*
 * ---- Frames ----
 *
 * What a client sends is one stream of frames, which TCP hands over in pieces, cut anywhere:
 *
 *     | length (2 bytes, the higher first) | that many sealed bytes: 17 to 2,048 |
 *
 * A reader is a number, held, and a keep of BANAVOGE_KEEP_BYTES, both the host's, one of each for a
 * connection. The first held bytes of the keep start a frame that is not complete yet:
 *
 *     keep  | length | sealed bytes so far | old bytes |
 *           |<----------- held ----------->|
 *
 * A new reader holds 0, whatever stands in the keep. Between two calls the host writes neither; it
 * begins anew by setting held to 0.
 */

/* Where a complete frame stands. */
enum banavoge_shown {
    /* nowhere: more bytes are needed */
    BANAVOGE_FRAME_MORE = 0,
    /* at the front of the piece, which has all of it */
    BANAVOGE_FRAME_IN_PIECE = 1,
    /* at the front of the keep, since it began in an earlier piece */
    BANAVOGE_FRAME_IN_KEEP = 2
};

/*
 * Reads a piece of a stream up to the end of its first frame, or to its own end. Answers where the
 * frame stands (enum banavoge_shown) and sets used, how many bytes of the piece were taken: the
 * next call goes on with piece + used.
 *   0: no frame is complete. All of the piece is used: held has grown by it, and end is as before.
 *   1: the frame is the first end bytes of the piece. The keep is not written.
 *   2: it is the first end bytes of the keep, until the next call that is lent this keep.
 * A frame is shown with its 2 length bytes; the sealed bytes stand behind them. 1 and 2 set end,
 * and held to 0. A longer keep is taken: only its first BANAVOGE_KEEP_BYTES are ever written.
 *
 * Refusals: 10 (keep too short, whatever the piece); 18 for the reader, where held is 2 or more and
 * those bytes of the keep start no unfinished frame, as from 2,050 on they never do; 18 for a
 * length, as soon as both its bytes are there. A refusal sets used to 0. 18 also sets held to
 * 2,051, which is never a good number, so all calls that follow give 18, or 10, until the host
 * begins anew. Nothing else is set: end and the keep are as before, and with 10 so is held.
 */
int32_t banavoge_frame_read(size_t *held, uint8_t *keep, size_t keep_length, const uint8_t *piece,
                            size_t piece_length, size_t *used, size_t *end);

/*
 * ---- Relay packets ----
 *
 *   kind                      sent by  bytes                                         length
 *   0 routing request         client   0, key                                        33
 *   1 routing response        relay    1, number or 0, key                           34
 *   2 connect notification    relay    2, number                                     2
 *   3 drop                    client   3, number                                     2
 *   3 disconnect notification relay    3, number                                     2
 *   4 ping, 5 pong            both     kind, 8-byte ping number, not 0               9
 *   6 out-of-band send        client   6, destination key, 1 to 1,024 bytes          34 to 1,057
 *   7 out-of-band received    relay    7, sender's key, 1 to 1,024 bytes             34 to 1,057
 *   16 to 255 data            both     connection number, 1 or more bytes            2 to 2,032
 *
 * Of data the first byte is the connection number; readers answer BANAVOGE_KIND_DATA for all of it.
 */
enum banavoge_kind {
    BANAVOGE_KIND_ROUTING_REQUEST = 0,
    BANAVOGE_KIND_ROUTING_RESPONSE = 1,
    BANAVOGE_KIND_CONNECT_NOTIFICATION = 2,
    BANAVOGE_KIND_DROP = 3,
    BANAVOGE_KIND_DISCONNECT_NOTIFICATION = 3,
    BANAVOGE_KIND_PING = 4,
    BANAVOGE_KIND_PONG = 5,
    BANAVOGE_KIND_OOB_SEND = 6,
    BANAVOGE_KIND_OOB_RECEIVED = 7,
    BANAVOGE_KIND_DATA = 16
};

/*
 * Readers, one for each end.
 *
 * A reader answers the kind and sets all four places: number, the connection number of kinds 1, 2,
 * 3 and of data; ping, the ping number of kinds 4 and 5; start and length, where the payload of
 * kinds 6 and 7 and of data stands in the packet. What a kind does not have is set to 0. A refusal
 * sets nothing.
 */

/*
 * Reads, at the relay's end, what a client sent. Refusals: 4, 5 (kinds 1, 2 and 7 to 15), 6, 7. No
 * connection number is judged: only a room knows which are held.
 */
int32_t banavoge_relay_read(const uint8_t *packet, size_t packet_length, uint8_t *number,
                            uint64_t *ping, size_t *start, size_t *length);

/*
 * Reads, at a client's end, what the relay sent. Refusals: 4, 5 (kinds 0, 6 and 8 to 15), 6, 7, 8
 * (a response with 1 to 15, kind 2 or 3 with a number below 16).
 */
int32_t banavoge_client_read(const uint8_t *packet, size_t packet_length, uint8_t *number,
                             uint64_t *ping, size_t *start, size_t *length);

/*
 * The key in a routing request or an out-of-band send. Answers and refuses as banavoge_relay_read.
 * A packet that is taken and has no key sets zeros, which is a key like any other: the kind tells
 * the two apart.
 */
int32_t banavoge_relay_key(const uint8_t *packet, size_t packet_length,
                           uint8_t key[BANAVOGE_KEY_BYTES]);

/*
 * The key in a routing response or an out-of-band packet received. Answers and refuses as
 * banavoge_client_read; zeros as above.
 */
int32_t banavoge_client_key(const uint8_t *packet, size_t packet_length,
                            uint8_t key[BANAVOGE_KEY_BYTES]);

/*
 * Writers.
 *
 * A writer puts one packet at the front of the output and answers its length. It refuses what the
 * reader at the other end would refuse, and last, with 10, an output shorter than the packet.
 */

/* A client asks for a connection to a key. 33 bytes. The client's own key is written like any
   other; the relay answers it with the number 0. Refusals: 10. */
int32_t banavoge_routing_request(const uint8_t key[BANAVOGE_KEY_BYTES], uint8_t *out,
                                 size_t out_length);

/*
 * The relay answers a request for a key with the number given, or with 0 for none: the table is
 * full, or the key is the asker's own. 34 bytes. Refusals: 8 (number 1 to 15), 10.
 */
int32_t banavoge_routing_response(uint8_t number, const uint8_t key[BANAVOGE_KEY_BYTES],
                                  uint8_t *out, size_t out_length);

/* The relay says that a number is connected. 2 bytes. Refusals: 8 (number below 16), 10. */
int32_t banavoge_connect_notification(uint8_t number, uint8_t *out, size_t out_length);

/* The relay says that a number is not connected any more. 2 bytes. Refusals: 8 (below 16), 10. */
int32_t banavoge_disconnect_notification(uint8_t number, uint8_t *out, size_t out_length);

/* A client gives a number back. Any number is written, as the relay's reader takes any. 2 bytes.
   Refusals: 10. */
int32_t banavoge_drop(uint8_t number, uint8_t *out, size_t out_length);

/* Either end's ping with ping number n. 9 bytes. Refusals: 7, 10. */
int32_t banavoge_ping(uint64_t n, uint8_t *out, size_t out_length);

/* Either end's pong with ping number n. 9 bytes. Refusals: 7, 10. */
int32_t banavoge_pong(uint64_t n, uint8_t *out, size_t out_length);

/*
 * A client sends data to a key, with no connection needed. 33 bytes and the data. Refusals: 4
 * (2,000 bytes of data or more), 6 (none, or 1,025 to 1,999), 10.
 */
int32_t banavoge_oob_send(const uint8_t key[BANAVOGE_KEY_BYTES], const uint8_t *data,
                          size_t data_length, uint8_t *out, size_t out_length);

/* The relay hands such data on, with the sender's key. Length and refusals as banavoge_oob_send. */
int32_t banavoge_oob_received(const uint8_t key[BANAVOGE_KEY_BYTES], const uint8_t *data,
                              size_t data_length, uint8_t *out, size_t out_length);

/*
 * Either end's data under a connection number. 1 byte and the data. Refusals: 4 (over 2,031 bytes
 * of data), 5 (number below 16, which would be read as another kind), 6 (no data), 10.
 */
int32_t banavoge_data(uint8_t number, const uint8_t *data, size_t data_length, uint8_t *out,
                      size_t out_length);

/*
 * ---- Keys ----
 *
 * The distance of two keys is their XOR read as one 256-bit number, the first byte highest. Nothing
 * is refused.
 */

/* Whether two keys are the same. It stops at the first byte that differs: for public keys, not for
   secrets. */
bool banavoge_same_key(const uint8_t a[BANAVOGE_KEY_BYTES], const uint8_t b[BANAVOGE_KEY_BYTES]);

/* Whether a is nearer to the target than b; of equal distances neither is. */
bool banavoge_nearer(const uint8_t target[BANAVOGE_KEY_BYTES], const uint8_t a[BANAVOGE_KEY_BYTES],
                     const uint8_t b[BANAVOGE_KEY_BYTES]);

/*
 * ---- Nodes ----
 *
 * A packed node is a family byte, the address (4 or 16 bytes), a 2-byte port and the key: 39 or 51
 * bytes. Here it passes in its parts. Of 16 address bytes IPv4 has the first 4; the others are 0
 * when a node is read and are not looked at when one is written. Port 0 is allowed.
 */
enum banavoge_family {
    BANAVOGE_FAMILY_UDP_IPV4 = 2,
    BANAVOGE_FAMILY_UDP_IPV6 = 10,
    BANAVOGE_FAMILY_TCP_IPV4 = 130,
    BANAVOGE_FAMILY_TCP_IPV6 = 138
};

/*
 * Reads the node that starts at a place of the bytes; bytes may come after it. Answers 0 and sets
 * the node and, in next, the place behind it. Refusals: 16 where no byte is left at that place;
 * then 15, 16. A refusal sets nothing.
 */
int32_t banavoge_node_read(const uint8_t *bytes, size_t bytes_length, size_t at, uint8_t *family,
                           uint8_t address[BANAVOGE_ADDRESS_BYTES], uint16_t *port,
                           uint8_t key[BANAVOGE_KEY_BYTES], size_t *next);

/*
 * One step of a walk over a node list: 0 to 4 packed nodes with no byte over. Begin with place 0
 * and count 0; after each node go on from next with a count one higher.
 *
 * Answers 1 and sets the node and next; 0 at the end of the list. Refusals: 16 for a place past the
 * end, whatever the count; then, where bytes are left, 17 (count 4 or more), 15, 16. Only the
 * answer 1 sets anything.
 */
int32_t banavoge_nodes_step(const uint8_t *list, size_t list_length, size_t place, size_t count,
                            uint8_t *family, uint8_t address[BANAVOGE_ADDRESS_BYTES],
                            uint16_t *port, uint8_t key[BANAVOGE_KEY_BYTES], size_t *next);

/* Writes a packed node at the front of the output and answers its length. Refusals: 15, 10. */
int32_t banavoge_node_write(uint8_t family, const uint8_t address[BANAVOGE_ADDRESS_BYTES],
                            uint16_t port, const uint8_t key[BANAVOGE_KEY_BYTES], uint8_t *out,
                            size_t out_length);

/*
 * ---- Nearest lists ----
 *
 * A list has a target key and a size of 1 to 16, and holds at most that many nodes: nearest first,
 * no key twice. It lives in memory of the host, banavoge_nearest_bytes() long; memory may be
 * longer, and what stands behind is left alone. Every call but banavoge_nearest_begin tests all of
 * the list first: 12, then 14. Memory too short is 14, or 12 where its first byte is no size.
 */

/* How many bytes a list takes. */
size_t banavoge_nearest_bytes(void);

/*
 * Begins the empty list of a size for a target, whatever the memory held. Answers 0. Refusals: 12,
 * 14 (memory too short). With 12, memory that is long enough holds the empty list of size 8 for
 * that target afterwards.
 */
int32_t banavoge_nearest_begin(uint8_t *list, size_t list_length,
                               const uint8_t target[BANAVOGE_KEY_BYTES], size_t size);

/*
 * Offers a node. A key already held has its node replaced; else the node is put in while there is
 * room; else it takes the room of the furthest, if it is nearer. Answers 1 where it is kept, else
 * 0. Refusals: 12, 14, 15.
 */
int32_t banavoge_nearest_offer(uint8_t *list, size_t list_length, uint8_t family,
                               const uint8_t address[BANAVOGE_ADDRESS_BYTES], uint16_t port,
                               const uint8_t key[BANAVOGE_KEY_BYTES]);

/* Takes out the node of a key. Answers 0. Refusals: 12, 14, 13. */
int32_t banavoge_nearest_remove(uint8_t *list, size_t list_length,
                                const uint8_t key[BANAVOGE_KEY_BYTES]);

/*
 * Shows the node held at an index, 0 the nearest. Answers 1 and sets the node, with all 16 address
 * bytes as they were offered; 0 where the index is not below the count, and then nothing is set.
 * Refusals: 12, 14.
 */
int32_t banavoge_nearest_node(const uint8_t *list, size_t list_length, size_t index,
                              uint8_t *family, uint8_t address[BANAVOGE_ADDRESS_BYTES],
                              uint16_t *port, uint8_t key[BANAVOGE_KEY_BYTES]);

/*
 * ---- K-buckets ----
 *
 * For a bootstrap node, which keeps nodes over the whole key space: 256 buckets by a base key, each
 * of up to 8 nodes. A key's bucket is the number of leading bits it shares with the base key, which
 * is never held itself. They live in memory of the host, banavoge_buckets_bytes() long; memory may
 * be longer, and what stands behind is left alone. Every call but banavoge_buckets_begin tests all
 * of them first: 20, for memory too short, a count above 8, a place above 7 or listed twice, keys
 * out of order, a key in the wrong bucket, a doubled key, the base key, an unknown family.
 *
 * Nothing is ever put out, and there is no call that removes: a full bucket holds the same keys for
 * good. A held node is replaced where its key is offered again.
 */

/* How many bytes buckets take. */
size_t banavoge_buckets_bytes(void);

/*
 * Begins buckets that hold nothing, whatever the memory held: the base key and then zeros. Answers
 * 0. Refusals: 10 (memory too short).
 */
int32_t banavoge_buckets_begin(uint8_t *buckets, size_t buckets_length,
                               const uint8_t base[BANAVOGE_KEY_BYTES]);

/*
 * Offers a node. A key already held has its node replaced; else the node is put in while its bucket
 * has room. Answers 1 where it is kept, else 0: for the base key, and for a new key whose bucket is
 * full. Refusals: 20, 15.
 */
int32_t banavoge_buckets_offer(uint8_t *buckets, size_t buckets_length, uint8_t family,
                               const uint8_t address[BANAVOGE_ADDRESS_BYTES], uint16_t port,
                               const uint8_t key[BANAVOGE_KEY_BYTES]);

/*
 * Writes the 4 nearest to a target of all held nodes, or all when fewer, nearest first, as a node
 * list (see banavoge_nodes_step), and answers its length: 0 to 204, and 0 where nothing is held.
 * The target may be any key, also the base key or one that is held. Refusals: 20, 10 (output under
 * the exact length).
 */
int32_t banavoge_buckets_nearest(const uint8_t *buckets, size_t buckets_length,
                                 const uint8_t target[BANAVOGE_KEY_BYTES], uint8_t *out,
                                 size_t out_length);

/*
 * ---- The room ----
 *
 * A room is the state of one relay: a clock in whole seconds, first 0, and 40 seats, each empty or
 * with one client's key and its routes. A route is a connection number, 16 to 47, and the key that
 * its client asked for. Seats and numbers have nothing to do with each other, and a number means
 * something only together with its seat. For each client the room has the time of its last ping,
 * at first the clock when it arrived, and the ping number that it has not yet answered. The room
 * reads no clock: the host tells it the time with banavoge_tick.
 *
 * A room lives in memory of the host, banavoge_room_bytes() long; memory may be longer, and what
 * stands behind is left alone. It holds no pointer, so it may be copied as plain bytes while no
 * call uses it. Its layout is no stored form: another version of the library may have another.
 *
 * A room is whole when seated keys differ, the wanted keys of one seat differ, no seat names its
 * own key, no ping time is after the clock, empty seats hold no routes, and what else the library
 * keeps agrees with these. Calls leave a whole room whole.
 */

/* How many bytes a room takes: BANAVOGE_ROOM_BYTES. */
size_t banavoge_room_bytes(void);

/* Makes the memory an empty room, whatever it held. Answers 0. Refusals: 10 (memory too short). */
int32_t banavoge_room_empty(uint8_t *room, size_t room_length);

/*
 * Tests the memory in full. Answers 0 where it holds a whole room. Refusals: 11. Every relay call
 * makes this test itself; this one is for memory whose origin the host does not trust. It cannot
 * tell by which version of the library a room was kept, and their layouts differ.
 */
int32_t banavoge_room_check(const uint8_t *room, size_t room_length);

/*
 * Who sits in a seat. Answers 0 and sets the key. Refusals: 11, 3 (seat above 39, or empty), and
 * then nothing is set.
 */
int32_t banavoge_key_in(const uint8_t *room, size_t room_length, uint8_t seat,
                        uint8_t key[BANAVOGE_KEY_BYTES]);

/* Where a key sits. Answers its seat. Refusals: 11, 3 (that key does not sit in the room). */
int32_t banavoge_seat_of(const uint8_t *room, size_t room_length,
                         const uint8_t key[BANAVOGE_KEY_BYTES]);

/*
 * ---- Relay calls ----
 *
 * What an arrival, a leave, a packet or a tick sends stands in the output, one record behind the
 * other:
 *
 *     | seat (1 byte) | length (2 bytes, the higher first) | the packet: that many bytes |
 *
 * The byte count that it answers is that of all records together, 0 where nothing is sent. The host
 * seals each packet and sends it to the client in that seat, in this order; of a tick's records, to
 * the client that sat there before the call.
 */

/*
 * A client arrives: its key takes the lowest empty seat, which is set in seat, and has no routes
 * there. For a key that is not seated nothing is sent.
 *
 * A key that is seated already leaves first, as by banavoge_leave, and its peers are told. Then it
 * takes the lowest empty seat, which may be another than its old one. It is never refused with 1,
 * since its own seat is empty by then. Its old routes are gone, and so is a ping not yet answered.
 * The records are for the clients in their seats, as those of a leave; none is for the key that
 * arrives.
 *
 * A reconnect tells the old seat nothing; close the socket that you hold for that key. The key's
 * old seat is told by banavoge_seat_of before the call: afterwards it is empty, or the key's again.
 * Make no banavoge_leave and no banavoge_packet for the old socket any more, not even for bytes
 * that came in before: they would be taken for those of the client that has come back, or of
 * another that has taken the old seat since. The new socket has a keep of its own, with held 0,
 * also where the seat is the same.
 *
 * Answers the byte count. Refusals: 10 (output under BANAVOGE_LEAST_OUTPUT, whatever would be
 * sent), 11, 1 (all 40 seats are taken, none by this key). A refusal sets nothing: seat, output and
 * room are as before.
 */
int32_t banavoge_arrive(uint8_t *room, size_t room_length, const uint8_t key[BANAVOGE_KEY_BYTES],
                        uint8_t *out, size_t out_length, uint8_t *seat);

/*
 * The client in a seat leaves: each peer that it was connected to is told disconnected under the
 * peer's own number, and the peer's request goes on waiting for that key. The seat is empty then.
 * Answers the byte count. Refusals: 10, 11, 3.
 */
int32_t banavoge_leave(uint8_t *room, size_t room_length, uint8_t seat, uint8_t *out,
                       size_t out_length);

/*
 * The client in a seat sent a packet.
 *   Routing request: a response with the number 0 for the client's own key; that is no refusal,
 *     and no route is taken. Else with the old number for a key already asked for, else with the
 *     lowest free number, or 0 where none is free. Once each has asked for the other's key, both
 *     are told connected, the asker first, each with its own number.
 *   Drop: the number is free again. A connected peer is told disconnected; its request goes on.
 *   Ping: a pong with the same number. Pong: nothing is sent. One with the number of the client's
 *     ping not yet answered answers that ping; any other does nothing.
 *   Out-of-band send: to the seat with that key, with the sender's key put in; with no such seat
 *     nothing is sent.
 *   Data: to the connected peer, under the peer's number.
 * Answers the byte count. Refusals: 10, 11, 3, 4, 5, 6, 7, 8, 9.
 */
int32_t banavoge_packet(uint8_t *room, size_t room_length, uint8_t seat, const uint8_t *packet,
                        size_t packet_length, uint8_t *out, size_t out_length);

/*
 * The clock moves on to a time, in whole seconds; the same time again is accepted. First, in rising
 * seat order, every client whose ping has stood unanswered for 10 seconds or more leaves, as by
 * banavoge_leave. Then, in that order, every remaining client with no ping to answer, last pinged
 * 30 seconds ago or more, is sent a ping with the number given, which it is to answer with a pong.
 * The number is any but 0; a random one for each tick keeps a late pong from counting.
 *
 * A client that arrives counts as pinged at the clock then. So where the clock starts at a large
 * time, such as the seconds since 1970, the first tick pings everybody.
 *
 * A record may be for a seat that the same tick has emptied: it is for the client that sat there
 * before the call. So the host sends all records first, and only then closes the sockets of those
 * who were put out, before the next arrival, which may be given such a seat. Records do not tell
 * who was put out, since one that was connected with nobody leaves with no record: the host asks
 * banavoge_key_in for each of its seats after a tick, and a seat that is refused with 3 is empty
 * now.
 *
 * Answers the byte count. Refusals: 10 (output under BANAVOGE_LEAST_TICK_OUTPUT, whatever would be
 * sent), 11, 7 (number 0), 19 (time before the clock).
 */
int32_t banavoge_tick(uint8_t *room, size_t room_length, uint64_t time, uint64_t number,
                      uint8_t *out, size_t out_length);

/*
 * ---- Play ----
 *
 * Stored calls, one behind the other, are played on a room. A stored call is
 *
 *     | call (1 byte) | seat (1 byte) | length (2 bytes, the higher first) | that many bytes |
 *
 *   0 arrive  seat 0, the 32 bytes of the key
 *   1 leave   the seat, no bytes
 *   2 packet  the seat, the packet
 *
 * and nothing else is one: a tick has no stored form. For each call that is played, refused ones
 * included, the output gets
 *
 *     | refusal (1 byte) | seat (1 byte) | length (2 bytes, the higher first) | its records |
 *
 * The refusal is 0 where there is none. The seat is that of the call, of an arrival the one that it
 * was given, of a refused call 0. The records of an arrival tell the peers of a key that was seated
 * already, as by banavoge_arrive. Its old seat is told by banavoge_seat_of before the run, or, where
 * the key arrived in the same run before, by the entry of that arrival; and no call made for the old
 * socket may stand behind the arrival.
 */
#define BANAVOGE_PLAYED_HEAD 4 /* refusal, seat and length, before the records of a played call */

/* Why playing stopped. */
enum banavoge_stop {
    /* the end of the stored calls */
    BANAVOGE_STOP_END = 0,
    /* what comes next is no stored call */
    BANAVOGE_STOP_NO_CALL = 1,
    /* the allowance is used up */
    BANAVOGE_STOP_ALLOWANCE = 2,
    /* too little output left for another call: under 4 + 2,048 bytes */
    BANAVOGE_STOP_OUTPUT = 3
};

/*
 * Plays stored calls on a room, at most as many as the allowance. Before each call the stops are
 * tested in the order 0, 2, 1, 3. Answers why it stopped (enum banavoge_stop) and sets played, how
 * many calls were played; read, how many bytes of the stored calls these took, which is where the
 * next one starts; and written, how many bytes of output. Refusals: 11, and then nothing is
 * changed, the three counts included.
 */
int32_t banavoge_play(uint8_t *room, size_t room_length, const uint8_t *calls, size_t calls_length,
                      size_t allowance, uint8_t *out, size_t out_length, size_t *played,
                      size_t *read, size_t *written);

#ifdef __cplusplus
}
#endif

#endif
