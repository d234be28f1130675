/*
 * One relay in a classroom, driven by single calls and at the end by stored ones: what a host
 * gives the library, what it gets back, and what it does with it. Each step prints a line and
 * checks the answer and every byte of the output.
 *
 * A real host has a socket for each seat. It reads the frames of what comes in on it with
 * banavoge_frame_read, opens each and gives the packet to banavoge_packet; it seals the packet of
 * each record and sends it on the socket of the record's seat. Each second it tells the room the
 * time with banavoge_tick. Here a table of names stands in for the sockets, and nothing is sealed.
 */
#include "banavoge.h"

#include <inttypes.h>
#include <stdio.h>
#include <stdlib.h>
#include <string.h>

#define CHECK(condition)                                                            \
    do {                                                                            \
        if (!(condition)) {                                                         \
            fprintf(stderr, "%s:%d: not so: %s\n", __FILE__, __LINE__, #condition); \
            exit(1);                                                                \
        }                                                                           \
    } while (0)

/* ---- Who takes part ---- */

struct client {
    const char *name;
    uint8_t key[BANAVOGE_KEY_BYTES];
};

#define EIGHT(byte) byte, byte, byte, byte, byte, byte, byte, byte
#define KEY_OF(byte) {EIGHT(byte), EIGHT(byte), EIGHT(byte), EIGHT(byte)}

static const struct client alice = {"Alice", KEY_OF(0x11)};
static const struct client bob = {"Bob", KEY_OF(0x22)};
static const struct client carol = {"Carol", KEY_OF(0x44)};
static const struct client dave = {"Dave", KEY_OF(0x33)};

/* The seats that the arrivals below are given: always the lowest empty one. */
enum {
    ALICE_SEAT = 0,
    BOB_SEAT = 1,
    CAROL_SEAT = 2,
    DAVE_SEAT = BOB_SEAT,
    BOB_SECOND_SEAT = 3,
    BOB_THIRD_SEAT = DAVE_SEAT
};

/* A connection number belongs to the client that asked for it, so each pair has two of them. */
enum {
    ALICE_TO_BOB = BANAVOGE_FIRST_NUMBER,
    ALICE_TO_CAROL = BANAVOGE_FIRST_NUMBER + 1,
    BOB_TO_ALICE = BANAVOGE_FIRST_NUMBER,
    CAROL_TO_ALICE = BANAVOGE_FIRST_NUMBER
};

/* ---- The host's memory ---- */

/* All of it is the host's: the library keeps nothing between two calls. */
struct host {
    uint8_t *room;
    size_t room_length;
    uint8_t out[BANAVOGE_LEAST_TICK_OUTPUT];
    const struct client *seated[BANAVOGE_SEATS];
};

static void open_room(struct host *host)
{
    host->room_length = banavoge_room_bytes();
    CHECK(host->room_length == BANAVOGE_ROOM_BYTES);
    host->room = malloc(host->room_length);
    CHECK(host->room != NULL);
    CHECK(banavoge_room_empty(host->room, host->room_length) == 0);
    for (size_t seat = 0; seat < BANAVOGE_SEATS; seat++) {
        host->seated[seat] = NULL;
    }
}

static void close_room(struct host *host)
{
    CHECK(banavoge_room_check(host->room, host->room_length) == 0);
    free(host->room);
}

static const char *name_in(const struct host *host, uint8_t seat)
{
    return host->seated[seat] == NULL ? "an empty seat" : host->seated[seat]->name;
}

static const char *name_with(const struct host *host, const uint8_t key[BANAVOGE_KEY_BYTES])
{
    for (size_t seat = 0; seat < BANAVOGE_SEATS; seat++) {
        const struct client *client = host->seated[seat];

        if (client != NULL && banavoge_same_key(client->key, key)) {
            return client->name;
        }
    }
    return "a key that is not seated";
}

/* What the output holds before a call. Only so can it be seen that the bytes behind the records,
   and after a refusal all of them, keep their old contents; a host has no need to do this. */
enum { OLD_BYTE = 0xEE };

static void fill_output(struct host *host)
{
    memset(host->out, OLD_BYTE, sizeof host->out);
}

/* ---- Answers and records, printed ---- */

/* The papers' words for each refusal; of 8 and 10, those for a room, of 18, for a length. 2 is
   retired and never given. */
static const char *const refusal_words[] = {
    [BANAVOGE_REFUSAL_ROOM_FULL] = "arrival with all 40 seats taken, of a key not seated",
    [BANAVOGE_REFUSAL_ALREADY_SEATED] = "retired: arrival of a key already seated",
    [BANAVOGE_REFUSAL_NOT_SEATED] = "seat above 39, or empty",
    [BANAVOGE_REFUSAL_PACKET_SIZE] = "packet of 0 or more than 2,032 bytes",
    [BANAVOGE_REFUSAL_UNEXPECTED_KIND] = "a kind this end does not take",
    [BANAVOGE_REFUSAL_WRONG_LENGTH] = "wrong length for the kind",
    [BANAVOGE_REFUSAL_ZERO_PING] = "ping number 0",
    [BANAVOGE_REFUSAL_NO_SUCH_ROUTE] = "number names no route",
    [BANAVOGE_REFUSAL_NOT_CONNECTED] = "data on a waiting route",
    [BANAVOGE_REFUSAL_OUTPUT_TOO_SHORT] = "lent output too short",
    [BANAVOGE_REFUSAL_ROOM_NOT_WHOLE] = "room not whole",
    [BANAVOGE_REFUSAL_LIST_SIZE] = "list size not 1 to 16",
    [BANAVOGE_REFUSAL_KEY_NOT_HELD] = "key to remove is not held",
    [BANAVOGE_REFUSAL_LIST_NOT_WHOLE] = "list longer than its size, not strictly rising in "
                                        "distance, or holding an unknown family",
    [BANAVOGE_REFUSAL_UNKNOWN_FAMILY] = "unknown family byte",
    [BANAVOGE_REFUSAL_NODE_CUT_SHORT] = "node cut short",
    [BANAVOGE_REFUSAL_BYTES_AFTER_NODES] = "bytes left after four nodes",
    [BANAVOGE_REFUSAL_BAD_FRAME] = "a length under 17 or above 2,048",
    [BANAVOGE_REFUSAL_CLOCK_BACK] = "a clock that goes back",
    [BANAVOGE_REFUSAL_BUCKETS_NOT_WHOLE] = "buckets that hold a wrong, doubled or base key",
};

/* An answer below 0 is minus a refusal number. */
static void print_refusal(int32_t answer)
{
    size_t number = (size_t)-answer;

    CHECK(number < sizeof refusal_words / sizeof refusal_words[0]);
    CHECK(refusal_words[number] != NULL);
    printf("refused with %zu: %s\n", number, refusal_words[number]);
}

/* How a client reads what it gets. It refuses nothing that the relay sends: "A writer makes exactly
   the bytes its reader takes". The payload is shown where it stands in the packet. */
static void print_packet(const struct host *host, const uint8_t *packet, size_t packet_length)
{
    uint8_t number;
    uint64_t ping;
    size_t start;
    size_t length;
    uint8_t key[BANAVOGE_KEY_BYTES];
    int32_t kind = banavoge_client_read(packet, packet_length, &number, &ping, &start, &length);

    CHECK(kind >= 0);
    CHECK(banavoge_client_key(packet, packet_length, key) == kind);
    const char *payload = (const char *)packet + start;
    switch (kind) {
    case BANAVOGE_KIND_ROUTING_RESPONSE:
        if (number == 0) {
            printf("no number for %s", name_with(host, key));
        } else {
            printf("number %u for %s", number, name_with(host, key));
        }
        break;
    case BANAVOGE_KIND_CONNECT_NOTIFICATION:
        printf("connected on %u", number);
        break;
    case BANAVOGE_KIND_DISCONNECT_NOTIFICATION:
        printf("disconnected on %u", number);
        break;
    case BANAVOGE_KIND_PING:
        printf("ping %" PRIu64, ping);
        break;
    case BANAVOGE_KIND_PONG:
        printf("pong %" PRIu64, ping);
        break;
    case BANAVOGE_KIND_OOB_RECEIVED:
        printf("out-of-band \"%.*s\" from %s", (int)length, payload, name_with(host, key));
        break;
    case BANAVOGE_KIND_DATA:
        printf("data \"%.*s\" on %u", (int)length, payload, number);
        break;
    }
}

struct record {
    uint8_t seat;
    const uint8_t *packet;
    size_t length;
};

/* The record at a place of an output, and the place behind it. A record is the seat (1 byte), the
   length of the packet (2 bytes, the higher first) and the packet. */
static size_t read_record(const uint8_t *out, size_t at, struct record *record)
{
    record->seat = out[at];
    record->length = (size_t)out[at + 1] << 8 | out[at + 2];
    record->packet = out + at + BANAVOGE_RECORD_HEAD;
    return at + BANAVOGE_RECORD_HEAD + record->length;
}

/* Where this prints, a host seals the packet and sends it. */
static void print_records(const struct host *host, size_t written)
{
    const char *between = "";
    size_t at = 0;

    if (written == 0) {
        printf("nothing is sent");
    }
    while (at < written) {
        struct record record;

        at = read_record(host->out, at, &record);
        printf("%s%s gets ", between, name_in(host, record.seat));
        print_packet(host, record.packet, record.length);
        between = "; ";
    }
    printf("\n");
}

static void print_outcome(const struct host *host, int32_t answer)
{
    if (answer < 0) {
        print_refusal(answer);
    } else {
        print_records(host, (size_t)answer);
    }
}

/* ---- Calls ---- */

/* A key that is seated already leaves its old seat by arriving. Here a host closes the socket that
   it holds for that key; it makes no leave for it. */
static int32_t arrive(struct host *host, const struct client *client, uint8_t *seat)
{
    int32_t old_seat = banavoge_seat_of(host->room, host->room_length, client->key);
    int32_t answer;

    fill_output(host);
    answer = banavoge_arrive(host->room, host->room_length, client->key, host->out,
                             sizeof host->out, seat);
    printf("%s arrives%s: ", client->name, old_seat < 0 ? "" : " again");
    if (answer < 0) {
        print_refusal(answer);
        return answer;
    }
    if (old_seat >= 0) {
        host->seated[old_seat] = NULL;
    }
    host->seated[*seat] = client;
    printf("seat %u; ", *seat);
    print_records(host, (size_t)answer);
    return answer;
}

static int32_t leave(struct host *host, uint8_t seat)
{
    int32_t answer;

    fill_output(host);
    answer = banavoge_leave(host->room, host->room_length, seat, host->out, sizeof host->out);
    printf("%s leaves: ", name_in(host, seat));
    print_outcome(host, answer);
    if (answer >= 0) {
        host->seated[seat] = NULL;
    }
    return answer;
}

static int32_t give_packet(struct host *host, uint8_t seat, const uint8_t *packet, int32_t length)
{
    int32_t answer;

    CHECK(length > 0);
    fill_output(host);
    answer = banavoge_packet(host->room, host->room_length, seat, packet, (size_t)length,
                             host->out, sizeof host->out);
    print_outcome(host, answer);
    return answer;
}

/* Who sits no more is told by the room. Here a host closes the socket. */
static void close_put_out(struct host *host)
{
    for (uint8_t seat = 0; seat < BANAVOGE_SEATS; seat++) {
        uint8_t key[BANAVOGE_KEY_BYTES];
        int32_t answer = banavoge_key_in(host->room, host->room_length, seat, key);

        if (host->seated[seat] != NULL && answer == -BANAVOGE_REFUSAL_NOT_SEATED) {
            printf("%s is put out\n", name_in(host, seat));
            host->seated[seat] = NULL;
        }
    }
}

/* A record may be for a client that the tick puts out: all are sent before a socket is closed. */
static int32_t tick(struct host *host, uint64_t time, uint64_t number)
{
    int32_t answer;

    fill_output(host);
    answer =
        banavoge_tick(host->room, host->room_length, time, number, host->out, sizeof host->out);
    printf("the time is %" PRIu64 ": ", time);
    print_outcome(host, answer);
    if (answer >= 0) {
        close_put_out(host);
    }
    return answer;
}

/* ---- What clients send; a client writes its packets with the same library ---- */

static int32_t request(struct host *host, uint8_t seat, const struct client *wanted)
{
    uint8_t packet[BANAVOGE_MOST_PACKET_BYTES];
    int32_t length = banavoge_routing_request(wanted->key, packet, sizeof packet);

    printf("%s requests %s: ", name_in(host, seat), wanted->name);
    return give_packet(host, seat, packet, length);
}

static int32_t send_data(struct host *host, uint8_t seat, uint8_t number, const char *text)
{
    uint8_t packet[BANAVOGE_MOST_PACKET_BYTES];
    int32_t length =
        banavoge_data(number, (const uint8_t *)text, strlen(text), packet, sizeof packet);

    printf("%s sends data \"%s\" on %u: ", name_in(host, seat), text, number);
    return give_packet(host, seat, packet, length);
}

static int32_t send_out_of_band(struct host *host, uint8_t seat, const struct client *to,
                                const char *text)
{
    uint8_t packet[BANAVOGE_MOST_PACKET_BYTES];
    int32_t length =
        banavoge_oob_send(to->key, (const uint8_t *)text, strlen(text), packet, sizeof packet);

    printf("%s sends %s out-of-band \"%s\": ", name_in(host, seat), to->name, text);
    return give_packet(host, seat, packet, length);
}

static int32_t ping(struct host *host, uint8_t seat, uint64_t number)
{
    uint8_t packet[BANAVOGE_MOST_PACKET_BYTES];
    int32_t length = banavoge_ping(number, packet, sizeof packet);

    printf("%s sends ping %" PRIu64 ": ", name_in(host, seat), number);
    return give_packet(host, seat, packet, length);
}

static int32_t pong(struct host *host, uint8_t seat, uint64_t number)
{
    uint8_t packet[BANAVOGE_MOST_PACKET_BYTES];
    int32_t length = banavoge_pong(number, packet, sizeof packet);

    printf("%s sends pong %" PRIu64 ": ", name_in(host, seat), number);
    return give_packet(host, seat, packet, length);
}

static int32_t drop(struct host *host, uint8_t seat, uint8_t number)
{
    uint8_t packet[BANAVOGE_MOST_PACKET_BYTES];
    int32_t length = banavoge_drop(number, packet, sizeof packet);

    printf("%s drops %u: ", name_in(host, seat), number);
    return give_packet(host, seat, packet, length);
}

/* ---- What is expected ---- */

/* A whole output: records, and behind them what stood there before. */
struct output {
    uint8_t bytes[BANAVOGE_LEAST_TICK_OUTPUT];
    size_t length;
};

static struct output nothing(void)
{
    struct output output;

    memset(output.bytes, OLD_BYTE, sizeof output.bytes);
    output.length = 0;
    return output;
}

static void add(struct output *output, const void *bytes, size_t length)
{
    memcpy(output->bytes + output->length, bytes, length);
    output->length += length;
}

static void add_response(struct output *output, uint8_t seat, uint8_t number,
                         const struct client *requested)
{
    const uint8_t front[] = {seat, 0x00, 0x22, 0x01, number};

    add(output, front, sizeof front);
    add(output, requested->key, sizeof requested->key);
}

static void add_connected(struct output *output, uint8_t seat, uint8_t number)
{
    const uint8_t record[] = {seat, 0x00, 0x02, 0x02, number};

    add(output, record, sizeof record);
}

static void add_disconnected(struct output *output, uint8_t seat, uint8_t number)
{
    const uint8_t record[] = {seat, 0x00, 0x02, 0x03, number};

    add(output, record, sizeof record);
}

/* A ping with a number of one byte. */
static void add_ping(struct output *output, uint8_t seat, uint8_t number)
{
    const uint8_t record[] = {seat, 0x00, 0x09, 0x04, 0, 0, 0, 0, 0, 0, 0, number};

    add(output, record, sizeof record);
}

/* Data of two bytes. */
static void add_data(struct output *output, uint8_t seat, uint8_t number, const char *two)
{
    const uint8_t front[] = {seat, 0x00, 0x03, number};

    add(output, front, sizeof front);
    add(output, two, 2);
}

static bool output_is(const struct host *host, const struct output *expected)
{
    return memcmp(host->out, expected->bytes, sizeof expected->bytes) == 0;
}

/* The answer of a call that was accepted is how many bytes it wrote. */
static bool sent(const struct host *host, int32_t answer, const struct output *expected)
{
    return answer == (int32_t)expected->length && output_is(host, expected);
}

/* A refused call writes nothing. */
static bool refused(const struct host *host, int32_t answer, enum banavoge_refusal why)
{
    const struct output untouched = nothing();

    return answer == -(int32_t)why && output_is(host, &untouched);
}

/* ---- The lesson; P1 to P9 are document 01's examples, P3 as document 02 has it ---- */

/* P1 to P3. There is nobody to tell, not even where Alice arrives again. */
static void arrivals(struct host *host)
{
    const struct output none = nothing();
    uint8_t seat;

    CHECK(sent(host, arrive(host, &alice, &seat), &none) && seat == ALICE_SEAT);
    CHECK(sent(host, arrive(host, &bob, &seat), &none) && seat == BOB_SEAT);
    CHECK(sent(host, arrive(host, &alice, &seat), &none) && seat == ALICE_SEAT);
    CHECK(sent(host, arrive(host, &carol, &seat), &none) && seat == CAROL_SEAT);
}

/* P4, P7, P8. Alice alone has asked: her request stands, and her number waits. */
static void one_request(struct host *host)
{
    struct output response = nothing();

    add_response(&response, ALICE_SEAT, ALICE_TO_BOB, &bob);
    CHECK(sent(host, request(host, ALICE_SEAT, &bob), &response));

    CHECK(refused(host, send_data(host, ALICE_SEAT, ALICE_TO_BOB, "ab"),
                  BANAVOGE_REFUSAL_NOT_CONNECTED));
    CHECK(refused(host, send_data(host, ALICE_SEAT, ALICE_TO_CAROL, "ab"),
                  BANAVOGE_REFUSAL_NO_SUCH_ROUTE));
}

/* P5. Once each has asked for the other, both are told, the asker first. */
static void both_request(struct host *host)
{
    struct output connected = nothing();

    add_response(&connected, BOB_SEAT, BOB_TO_ALICE, &alice);
    add_connected(&connected, BOB_SEAT, BOB_TO_ALICE);
    add_connected(&connected, ALICE_SEAT, ALICE_TO_BOB);
    CHECK(sent(host, request(host, BOB_SEAT, &alice), &connected));
}

/* A key already asked for gets its old number again and nothing else happens. */
static void repeated_request(struct host *host)
{
    struct output response = nothing();

    add_response(&response, BOB_SEAT, BOB_TO_ALICE, &alice);
    CHECK(sent(host, request(host, BOB_SEAT, &alice), &response));
}

/* A client that asks for its own key gets 0, and no number is taken: Alice's next is still 17. */
static void own_key(struct host *host)
{
    struct output response = nothing();

    add_response(&response, ALICE_SEAT, 0, &alice);
    CHECK(sent(host, request(host, ALICE_SEAT, &alice), &response));
}

/* Alice's second number is 17, while Carol's first is 16. */
static void second_connection(struct host *host)
{
    struct output response = nothing();
    struct output connected = nothing();

    add_response(&response, ALICE_SEAT, ALICE_TO_CAROL, &carol);
    CHECK(sent(host, request(host, ALICE_SEAT, &carol), &response));

    add_response(&connected, CAROL_SEAT, CAROL_TO_ALICE, &alice);
    add_connected(&connected, CAROL_SEAT, CAROL_TO_ALICE);
    add_connected(&connected, ALICE_SEAT, ALICE_TO_CAROL);
    CHECK(sent(host, request(host, CAROL_SEAT, &alice), &connected));
}

/* P6. Data goes to the peer under the peer's number: what Carol sends on 16 comes in on 17. */
static void data(struct host *host)
{
    struct output to_bob = nothing();
    struct output to_alice = nothing();

    add_data(&to_bob, BOB_SEAT, BOB_TO_ALICE, "ab");
    CHECK(sent(host, send_data(host, ALICE_SEAT, ALICE_TO_BOB, "ab"), &to_bob));

    add_data(&to_alice, ALICE_SEAT, ALICE_TO_CAROL, "hi");
    CHECK(sent(host, send_data(host, CAROL_SEAT, CAROL_TO_ALICE, "hi"), &to_alice));
}

/* An out-of-band packet asks for no connection; the receiver gets the sender's key. */
static void out_of_band(struct host *host)
{
    const uint8_t front[] = {BOB_SEAT, 0x00, 0x23, 0x07};
    struct output received = nothing();

    add(&received, front, sizeof front);
    add(&received, carol.key, sizeof carol.key);
    add(&received, "yo", 2);
    CHECK(sent(host, send_out_of_band(host, CAROL_SEAT, &bob, "yo"), &received));
}

static void ping_and_pong(struct host *host)
{
    const uint8_t record[] = {BOB_SEAT, 0x00, 0x09, 0x05, 0, 0, 0, 0, 0, 0, 0x01, 0x02};
    struct output pong = nothing();

    add(&pong, record, sizeof record);
    CHECK(sent(host, ping(host, BOB_SEAT, 0x0102), &pong));
}

/* P9. A route names a key and no seat: Dave in Bob's seat hears nothing that is meant for Bob, and
   has no number of his own yet. A packet for a seat that is empty belongs to nobody. */
static void guest_in_the_seat(struct host *host)
{
    const struct output none = nothing();
    struct output disconnected = nothing();
    uint8_t seat;

    add_disconnected(&disconnected, ALICE_SEAT, ALICE_TO_BOB);
    CHECK(sent(host, leave(host, BOB_SEAT), &disconnected));
    CHECK(refused(host, send_data(host, BOB_SEAT, BOB_TO_ALICE, "ab"),
                  BANAVOGE_REFUSAL_NOT_SEATED));

    CHECK(sent(host, arrive(host, &dave, &seat), &none) && seat == DAVE_SEAT);
    CHECK(refused(host, send_data(host, ALICE_SEAT, ALICE_TO_BOB, "ab"),
                  BANAVOGE_REFUSAL_NOT_CONNECTED));
    CHECK(refused(host, send_data(host, DAVE_SEAT, BOB_TO_ALICE, "ab"),
                  BANAVOGE_REFUSAL_NO_SUCH_ROUTE));
}

/* Alice's request has gone on waiting for Bob's key, so both are told connected when he asks again,
   wherever he sits. */
static void back_in_another_seat(struct host *host)
{
    const struct output none = nothing();
    struct output connected = nothing();
    struct output to_bob = nothing();
    uint8_t seat;

    CHECK(sent(host, arrive(host, &bob, &seat), &none) && seat == BOB_SECOND_SEAT);
    add_response(&connected, BOB_SECOND_SEAT, BOB_TO_ALICE, &alice);
    add_connected(&connected, BOB_SECOND_SEAT, BOB_TO_ALICE);
    add_connected(&connected, ALICE_SEAT, ALICE_TO_BOB);
    CHECK(sent(host, request(host, BOB_SECOND_SEAT, &alice), &connected));

    add_data(&to_bob, BOB_SECOND_SEAT, BOB_TO_ALICE, "ab");
    CHECK(sent(host, send_data(host, ALICE_SEAT, ALICE_TO_BOB, "ab"), &to_bob));
}

/* Bob comes back and has not left: Alice is told as if he had, and he gets the lowest empty seat,
   which Dave has left. His old seat is empty, and he has to ask again. */
static void back_without_leaving(struct host *host)
{
    const struct output none = nothing();
    struct output disconnected = nothing();
    struct output connected = nothing();
    uint8_t seat;

    CHECK(sent(host, leave(host, DAVE_SEAT), &none));
    add_disconnected(&disconnected, ALICE_SEAT, ALICE_TO_BOB);
    CHECK(sent(host, arrive(host, &bob, &seat), &disconnected) && seat == BOB_THIRD_SEAT);
    CHECK(refused(host, send_data(host, BOB_SECOND_SEAT, BOB_TO_ALICE, "ab"),
                  BANAVOGE_REFUSAL_NOT_SEATED));
    CHECK(refused(host, send_data(host, BOB_THIRD_SEAT, BOB_TO_ALICE, "ab"),
                  BANAVOGE_REFUSAL_NO_SUCH_ROUTE));

    add_response(&connected, BOB_THIRD_SEAT, BOB_TO_ALICE, &alice);
    add_connected(&connected, BOB_THIRD_SEAT, BOB_TO_ALICE);
    add_connected(&connected, ALICE_SEAT, ALICE_TO_BOB);
    CHECK(sent(host, request(host, BOB_THIRD_SEAT, &alice), &connected));
}

/* The peer of a dropped number is told; the dropper hears nothing and has the number no more. */
static void dropped(struct host *host)
{
    struct output disconnected = nothing();

    add_disconnected(&disconnected, CAROL_SEAT, CAROL_TO_ALICE);
    CHECK(sent(host, drop(host, ALICE_SEAT, ALICE_TO_CAROL), &disconnected));
    CHECK(refused(host, send_data(host, ALICE_SEAT, ALICE_TO_CAROL, "ab"),
                  BANAVOGE_REFUSAL_NO_SUCH_ROUTE));
    CHECK(refused(host, send_data(host, CAROL_SEAT, CAROL_TO_ALICE, "hi"),
                  BANAVOGE_REFUSAL_NOT_CONNECTED));
}

/* Bob closes his lid: pinged after 30 seconds, he does not answer, and goes 10 seconds later. The
   others answer, and stay. */
static void dead_laptop(struct host *host)
{
    struct output pings = nothing();
    struct output none = nothing();
    struct output disconnected = nothing();

    add_ping(&pings, ALICE_SEAT, 71);
    add_ping(&pings, BOB_THIRD_SEAT, 71);
    add_ping(&pings, CAROL_SEAT, 71);
    CHECK(sent(host, tick(host, 30, 71), &pings));
    CHECK(sent(host, pong(host, ALICE_SEAT, 71), &none));
    CHECK(sent(host, pong(host, CAROL_SEAT, 71), &none));

    add_disconnected(&disconnected, ALICE_SEAT, ALICE_TO_BOB);
    CHECK(sent(host, tick(host, 40, 72), &disconnected));
    CHECK(host->seated[BOB_THIRD_SEAT] == NULL);
    CHECK(banavoge_seat_of(host->room, host->room_length, bob.key) == -BANAVOGE_REFUSAL_NOT_SEATED);
    CHECK(banavoge_seat_of(host->room, host->room_length, carol.key) == CAROL_SEAT);

    CHECK(refused(host, tick(host, 39, 73), BANAVOGE_REFUSAL_CLOCK_BACK));
}

/* Lent memory is tested before anything else: the output by its length, whatever would be written,
   and then the whole room. */
static void errors_of_the_host(struct host *host)
{
    uint8_t seat = OLD_BYTE;
    int32_t answer;

    fill_output(host);
    answer = banavoge_arrive(host->room, host->room_length, bob.key, host->out,
                             BANAVOGE_LEAST_OUTPUT - 1, &seat);
    printf("an arrival with 2,047 bytes of output: ");
    print_outcome(host, answer);
    CHECK(refused(host, answer, BANAVOGE_REFUSAL_OUTPUT_TOO_SHORT) && seat == OLD_BYTE);

    answer = banavoge_leave(host->room, host->room_length, CAROL_SEAT, host->out,
                            BANAVOGE_LEAST_OUTPUT - 1);
    printf("a leave with 2,047 bytes of output: ");
    print_outcome(host, answer);
    CHECK(refused(host, answer, BANAVOGE_REFUSAL_OUTPUT_TOO_SHORT));

    answer = banavoge_leave(host->room, host->room_length - 1, CAROL_SEAT, host->out,
                            sizeof host->out);
    printf("a leave with a room that is cut short: ");
    print_outcome(host, answer);
    CHECK(refused(host, answer, BANAVOGE_REFUSAL_ROOM_NOT_WHOLE));
}

/* What a host has for each connection to read its frames with. A new reader holds 0 bytes. */
struct reader {
    size_t held;
    uint8_t keep[BANAVOGE_KEEP_BYTES];
};

/* Before the packet of a frame stand its length, in 2 bytes, and 16 bytes that sealing adds. Here
   these are zeros, and to open a frame is to leave them out. */
enum { BEFORE_PACKET = 2 + 16 };

static void give_frame(struct host *host, uint8_t seat, const uint8_t *frame, size_t end)
{
    give_packet(host, seat, frame + BEFORE_PACKET, (int32_t)end - BEFORE_PACKET);
}

/* Reads a piece of a client's stream to its end, and gives the room the packet of each frame.
   Answers 0, or minus a refusal number: the stream cannot be read on then. */
static int32_t receive(struct host *host, uint8_t seat, struct reader *reader, const uint8_t *piece,
                       size_t length)
{
    printf("%zu bytes come in from %s\n", length, name_in(host, seat));
    for (;;) {
        size_t used;
        size_t end;
        int32_t answer = banavoge_frame_read(&reader->held, reader->keep, sizeof reader->keep,
                                             piece, length, &used, &end);

        if (answer == BANAVOGE_FRAME_IN_PIECE) {
            printf("a frame in the piece: ");
            give_frame(host, seat, piece, end);
        } else if (answer == BANAVOGE_FRAME_IN_KEEP) {
            printf("a frame in the keep: ");
            give_frame(host, seat, reader->keep, end);
        } else if (answer == BANAVOGE_FRAME_MORE) {
            printf("more is needed, %zu bytes are held\n", reader->held);
            return 0;
        } else {
            print_refusal(answer);
            return answer;
        }
        piece += used;
        length -= used;
    }
}

static bool got_pong(const struct host *host, uint8_t number)
{
    const uint8_t record[] = {CAROL_SEAT, 0x00, 0x09, 0x05, 0, 0, 0, 0, 0, 0, 0, number};
    struct output pong = nothing();

    add(&pong, record, sizeof record);
    return output_is(host, &pong);
}

/* Carol's stream, as TCP may cut it: a frame that is whole in its piece, and one that began in an
   earlier piece. Behind a length that no frame has, nothing is read. */
static void frames_in_pieces(struct host *host)
{
    const uint8_t stream[] = {
        0, 25, EIGHT(0), EIGHT(0), BANAVOGE_KIND_PING, 0, 0, 0, 0, 0, 0, 0, 21,
        0, 25, EIGHT(0), EIGHT(0), BANAVOGE_KIND_PING, 0, 0, 0, 0, 0, 0, 0, 22,
        0, 16,
    };
    struct reader reader = {.held = 0};

    CHECK(receive(host, CAROL_SEAT, &reader, stream, 30) == 0);
    CHECK(got_pong(host, 21) && reader.held == 3);
    CHECK(receive(host, CAROL_SEAT, &reader, stream + 30, 26) == -BANAVOGE_REFUSAL_BAD_FRAME);
    CHECK(got_pong(host, 22));
    CHECK(receive(host, CAROL_SEAT, &reader, stream, 27) == -BANAVOGE_REFUSAL_BAD_FRAME);
}

/* A host may hand over the calls of one poll together, stored one behind the other: the room is
   then tested once. For each the output gets its refusal, its seat, a length and its records. */
static void stored_calls(struct host *host)
{
    const uint8_t calls[] = {
        2, CAROL_SEAT, 0, 9, BANAVOGE_KIND_PING, 0, 0, 0, 0, 0, 0, 0, 7, /* Carol pings */
        2, 39, 0, 2, 16, 'x',                                            /* seat 39 is empty */
    };
    const uint8_t answers[] = {
        0, CAROL_SEAT, 0, 12, CAROL_SEAT, 0, 9, BANAVOGE_KIND_PONG, 0, 0, 0, 0, 0, 0, 0, 7,
        BANAVOGE_REFUSAL_NOT_SEATED, 0, 0, 0,
    };
    uint8_t out[2 * (BANAVOGE_PLAYED_HEAD + BANAVOGE_LEAST_OUTPUT)];
    size_t played;
    size_t read;
    size_t written;
    int32_t answer = banavoge_play(host->room, host->room_length, calls, sizeof calls, 2, out,
                                   sizeof out, &played, &read, &written);

    CHECK(answer == BANAVOGE_STOP_END);
    CHECK(played == 2 && read == sizeof calls);
    CHECK(written == sizeof answers && memcmp(out, answers, sizeof answers) == 0);
    printf("two stored calls: played to the end, %zu bytes written\n", written);
}

int main(void)
{
    struct host host;

    printf("Alice teaches, Bob and Carol are pupils, Dave is a guest\n");
    open_room(&host);
    arrivals(&host);
    one_request(&host);
    both_request(&host);
    repeated_request(&host);
    own_key(&host);
    second_connection(&host);
    data(&host);
    out_of_band(&host);
    ping_and_pong(&host);
    guest_in_the_seat(&host);
    back_in_another_seat(&host);
    back_without_leaving(&host);
    dropped(&host);
    dead_laptop(&host);
    errors_of_the_host(&host);
    frames_in_pieces(&host);
    stored_calls(&host);
    close_room(&host);
    return 0;
}
