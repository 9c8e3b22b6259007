//! A server over UDP that players join, and whose datagrams nobody else can forge, in safe Rust: the twin of `server.c`, which says what it does.
//!
//!     rustc --edition 2024 -O examples/library/server.rs -C link-arg=crates/tribes_link/out/libtribes.a
//!     server PORT SECONDS WORD

#[path = "../../include/tribes.rs"]
mod tribes;

use std::error::Error;
use std::net::{SocketAddr, UdpSocket};
use std::time::{Duration, Instant};
use tribes::{Config, Door, Field, Greeting, Heard, Key, Kind, LONGEST_TAG, MAX_DATAGRAM, Object, Presence, Server, Terms};

const SEATS: usize = 2;
const LIMIT: u64 = 1_000;
const TAG: u32 = 16;
const HELLO: u8 = 3;
const ANSWER: u8 = 11;
const TOKEN_AT: usize = 34;
const PLAYERS: [(&str, &[u8; 32]); 2] = [("ada", b"the key of ada, of 32 bytes ...."), ("bob", b"the key of bob, of 32 bytes ....")];
const FIELDS: [Field; 1] = [Field { lo: 0, hi: 65_535, bits: 16 }];
const KINDS: [Kind; 1] = [Kind { fields: 1, weight: 8 }];

fn config(client: u32) -> Config {
    Config { client, life: 1_000_000, size: 600, version: 3, move_bits: 8 }
}

/// Who has a client, and the number of his joining.
struct Seat {
    end: Server,
    key: Key,
    presence: Presence,
    at: SocketAddr,
    number: u64,
    name: &'static str,
    lamp: u32,
}

struct Host {
    wire: UdpSocket,
    door: Door,
    seats: [Option<Seat>; SEATS],
    start: Instant,
}

impl Host {
    fn now(&self) -> u64 {
        self.start.elapsed().as_millis() as u64
    }

    fn empty(&mut self, client: usize, how: &str) {
        if let Some(seat) = self.seats[client].take() {
            println!("{} {how}, {} refused", seat.name, seat.key.refused());
            self.door.leave(client as u32);
        }
    }

    /// A right answer came: its token is a name, and who has it is given a free client.
    fn decide(&mut self, from: SocketAddr, bytes: &[u8]) -> Result<Greeting, Box<dyn Error>> {
        let player = PLAYERS.iter().find(|(name, _)| name.as_bytes() == &bytes[TOKEN_AT..]);
        let (Some((name, key)), Some(client)) = (player, self.seats.iter().position(|seat| seat.is_none())) else {
            return Ok(self.door.refuse()?);
        };
        let mut end = Server::new(&config(client as u32), &KINDS, &FIELDS, &[b"lamp"])?;
        let lamp = end.show(&Object { kind: 0, block: 0, level: 0, control: 1 })?;
        let welcome = self.door.accept(client as u32)?;
        println!("{name} is client {client}");
        self.seats[client] = Some(Seat {
            end,
            key: Key::server(**key, TAG),
            presence: Presence::new(LIMIT, self.now()),
            at: from,
            number: u64::from_le_bytes(bytes[2..10].try_into()?), // of the nonce, which the client chose for this joining
            name,
            lamp,
        });
        Ok(welcome)
    }

    /// A datagram of a seat: its tag is looked at first.
    fn take(&mut self, from: SocketAddr, bytes: &[u8]) {
        let now = self.now();
        let Some(client) = self.seats.iter().position(|seat| seat.as_ref().is_some_and(|seat| seat.at == from)) else { return };
        let Some(seat) = self.seats[client].as_mut() else { return };
        let Ok(bytes) = seat.key.verify(seat.number, bytes) else { return };
        match seat.presence.came(bytes, now) {
            Some(_) => self.empty(client, "left"),
            None => drop(seat.end.arrive(bytes, 32)),
        }
    }

    fn hear(&mut self) -> Result<(), Box<dyn Error>> {
        let mut place = [0; MAX_DATAGRAM + LONGEST_TAG];
        while let Ok((count, from)) = self.wire.recv_from(&mut place) {
            let bytes = &place[..count];
            if count == 0 || (bytes[0] != HELLO && bytes[0] != ANSWER) {
                self.take(from, bytes);
                continue;
            }
            let (heard, reply) = self.door.hear(&from.into(), bytes);
            let reply = if heard == Heard::Asks { self.decide(from, bytes)? } else { reply };
            if !reply.bytes().is_empty() {
                self.wire.send_to(reply.bytes(), from)?;
            }
        }
        Ok(())
    }

    fn tell(&mut self, client: usize, brightness: u16) -> Result<(), Box<dyn Error>> {
        let now = self.now();
        if self.seats[client].as_ref().is_some_and(|seat| !seat.presence.is_alive(now)) {
            self.empty(client, "is gone");
        }
        let Some(seat) = self.seats[client].as_mut() else { return Ok(()) };
        let mut place = [0; MAX_DATAGRAM + LONGEST_TAG];
        seat.end.changed(seat.lamp, 1)?;
        if let Some(count) = seat.end.pack(&mut place[..MAX_DATAGRAM], |_, _| brightness.into())?.map(<[u8]>::len) {
            self.wire.send_to(seat.key.tag(seat.number, &mut place, count)?, seat.at)?;
        }
        Ok(())
    }
}

fn main() -> Result<(), Box<dyn Error>> {
    let words: Vec<String> = std::env::args().collect();
    let [_, port, seconds, word] = &words[..] else { return Err("server PORT SECONDS WORD".into()) };
    let protocol = tribes::protocol(&config(0), &KINDS, &FIELDS, word.as_bytes())?.bytes;
    let mut secret = [0; 32];
    std::io::Read::read_exact(&mut std::fs::File::open("/dev/urandom")?, &mut secret)?;
    let wire = UdpSocket::bind(("127.0.0.1", port.parse::<u16>()?))?;
    wire.set_nonblocking(true)?;
    let door = Door::new(&Terms { secret, protocol, terms: [0; 32], seats: SEATS as u32 })?;
    let mut host = Host { wire, door, seats: [None, None], start: Instant::now() };
    let mut brightness = 0u16;
    while host.start.elapsed() < Duration::from_secs(seconds.parse()?) {
        host.hear()?;
        (0..SEATS).try_for_each(|client| host.tell(client, brightness))?;
        brightness = brightness.wrapping_add(1);
        std::thread::sleep(Duration::from_millis(20));
    }
    Ok(())
}
