//! A lesson on the relay: a teacher, two pupils, and a guest who takes a seat
//! that was left. One of the pupils comes back without having left, and at the
//! end closes his lid. It prints what each asks for and what the relay answers,
//! and what each client was handed.
//!
//! `tools/demo` builds the library and runs it.

use banavoge::{ConnectionNumber, FromClient, FromRelay, Key, Records, Refusal, Room, Seat};
use banavoge::{LEAST_OUTPUT, LEAST_TICK_OUTPUT, LONGEST_PACKET};

const TEACHER: usize = 0;
const ANA: usize = 1;
const BEN: usize = 2;
const GUEST: usize = 3;

struct Client {
    name: &'static str,
    key: Key,
    seat: Option<Seat>,
    handed: Vec<String>,
}

impl Client {
    fn new(name: &'static str, byte: u8) -> Client {
        let (key, seat, handed) = (Key([byte; 32]), None, Vec::new());
        Client {
            name,
            key,
            seat,
            handed,
        }
    }
}

/// The host's part: it knows who sits where, and would seal and send each
/// record over that client's connection.
struct Lesson {
    room: Room,
    clients: [Client; 4],
}

impl Lesson {
    fn new() -> Lesson {
        Lesson {
            room: Room::empty(),
            clients: [
                Client::new("Teacher", 0x11),
                Client::new("Ana", 0x22),
                Client::new("Ben", 0x33),
                Client::new("Guest", 0x44),
            ],
        }
    }

    /// Who is seated already has left its old seat: its old connection would be
    /// closed here, and the new one takes its place.
    fn arrive(&mut self, who: usize) {
        let mut out = [0; LEAST_OUTPUT];
        let client = &mut self.clients[who];
        let arrives = match client.seat {
            Some(_) => "arrives again",
            None => "arrives",
        };
        match self.room.arrive(&client.key, &mut out) {
            Ok(arrival) => {
                client.seat = Some(arrival.seat);
                say(client.name, arrives, &format!("seat {}", arrival.seat));
                self.hand_over_all(arrival.records);
            }
            Err(why) => say(client.name, arrives, &refused(why)),
        }
    }

    fn leave(&mut self, who: usize) {
        let mut out = [0; LEAST_OUTPUT];
        let seat = self.clients[who].seat.expect("only who is seated leaves");
        let answer = self.room.leave(seat, &mut out);
        if answer.is_ok() {
            self.clients[who].seat = None;
        }
        self.answered(who, "leaves", answer);
    }

    fn ask_for(&mut self, who: usize, wanted: usize) {
        let asks = format!("asks for {}", self.clients[wanted].name);
        let key = self.clients[wanted].key;
        self.send(who, &asks, FromClient::RoutingRequest { key });
    }

    fn send_data(&mut self, who: usize, number: u8, what: &str) {
        let sends = format!("sends \"{what}\" on {number}");
        let (number, payload) = (ConnectionNumber(number), what.as_bytes());
        self.send(who, &sends, FromClient::Data { number, payload });
    }

    fn answer_ping(&mut self, who: usize, number: u64) {
        self.send(who, "answers the ping", FromClient::Pong(number));
    }

    /// Tells the room the time. All records are handed over before anybody's
    /// connection is closed: one may be for who is put out.
    fn tick(&mut self, time: u64, number: u64) {
        let mut out = [0; LEAST_TICK_OUTPUT];
        let answer = self.room.tick(time, number, &mut out);
        say("The time", &format!("is {time}"), "accepted");
        self.hand_over_all(answer.expect("the clock moves on"));
        for client in &mut self.clients {
            let Some(seat) = client.seat else { continue };
            if self.room.key_in(seat).is_none() {
                client.seat = None;
                say(client.name, "has not answered", "put out");
            }
        }
    }

    fn send(&mut self, who: usize, what: &str, packet: FromClient<'_>) {
        let mut bytes = [0; LONGEST_PACKET];
        let mut out = [0; LEAST_OUTPUT];
        let count = packet
            .write(&mut bytes)
            .expect("the lesson's packets are sound");
        let seat = self.clients[who].seat.expect("only who is seated sends");
        let answer = self.room.packet(seat, &bytes[..count], &mut out);
        self.answered(who, what, answer);
    }

    /// Prints the answer, and hands each record to the client in its seat.
    fn answered(&mut self, who: usize, what: &str, answer: Result<Records<'_>, Refusal>) {
        let name = self.clients[who].name;
        match answer {
            Ok(records) => {
                say(name, what, "accepted");
                self.hand_over_all(records);
            }
            Err(why) => say(name, what, &refused(why)),
        }
    }

    fn hand_over_all(&mut self, records: Records<'_>) {
        for record in records {
            self.hand_over(record.seat, record.packet);
        }
    }

    fn hand_over(&mut self, seat: Seat, packet: &[u8]) {
        let packet = FromRelay::read(packet).expect("the relay's packets are sound");
        let words = self.words(packet);
        let seated = |client: &&mut Client| client.seat == Some(seat);
        let client = self.clients.iter_mut().find(seated);
        client
            .expect("records go to who is seated")
            .handed
            .push(words);
    }

    fn words(&self, packet: FromRelay<'_>) -> String {
        match packet {
            FromRelay::RoutingResponse { number, key } => match number {
                ConnectionNumber::NONE => format!("no number for {}", self.name(&key)),
                ConnectionNumber(number) => {
                    format!("your number for {} is {number}", self.name(&key))
                }
            },
            FromRelay::ConnectNotification(number) => format!("{} is connected", number.0),
            FromRelay::DisconnectNotification(number) => format!("{} is disconnected", number.0),
            FromRelay::Ping(number) => format!("ping {number}"),
            FromRelay::Data { number, payload } => {
                format!("on {}: \"{}\"", number.0, String::from_utf8_lossy(payload))
            }
            other => format!("{other:?}"),
        }
    }

    fn name(&self, key: &Key) -> &'static str {
        let named = self.clients.iter().find(|client| client.key == *key);
        named.map_or("nobody", |client| client.name)
    }
}

fn say(name: &str, what: &str, answer: &str) {
    println!("{:<46} {answer}", format!("{name} {what}"));
}

fn refused(why: Refusal) -> String {
    format!("refused with {}: {why}", why.number())
}

fn main() {
    let mut lesson = Lesson::new();
    for who in [TEACHER, ANA, BEN] {
        lesson.arrive(who);
    }

    // Numbers are each client's own: Ben's 16 is Ana, his teacher is 17.
    lesson.ask_for(TEACHER, ANA);
    lesson.ask_for(TEACHER, BEN);
    lesson.ask_for(ANA, TEACHER);
    lesson.ask_for(BEN, ANA);
    lesson.ask_for(BEN, TEACHER);

    // Ben's address book is stale: he asks for his own key, and no number is taken.
    lesson.ask_for(BEN, BEN);

    lesson.send_data(TEACHER, 16, "slide 1");
    lesson.send_data(TEACHER, 17, "slide 1");

    // A guest sits down where Ana left. The teacher's request is for Ana's key, so the picture does not go to the guest.
    lesson.leave(ANA);
    lesson.arrive(GUEST);
    lesson.send_data(TEACHER, 16, "a picture");
    lesson.ask_for(GUEST, TEACHER);
    lesson.send_data(GUEST, 16, "a picture");

    // Ana comes back to another seat. The teacher's request still stands, so both are told that they are connected.
    lesson.arrive(ANA);
    lesson.ask_for(ANA, TEACHER);
    lesson.send_data(TEACHER, 16, "a picture");

    // Ben comes back without having left. The teacher is told as if he had, and he gets the lowest
    // empty seat, where the guest sat. He has to ask again.
    lesson.leave(GUEST);
    lesson.arrive(BEN);
    lesson.ask_for(BEN, TEACHER);
    lesson.send_data(TEACHER, 17, "a picture");

    // Each is pinged after 30 seconds. Ben's lid is closed: he does not answer, and goes 10 seconds later.
    lesson.tick(30, 71);
    for who in [TEACHER, ANA] {
        lesson.answer_ping(who, 71);
    }
    lesson.tick(40, 72);

    println!("\nWhat each was handed:");
    for client in &lesson.clients {
        println!("{}", client.name);
        for words in &client.handed {
            println!("    {words}");
        }
    }
}
