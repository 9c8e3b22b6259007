//! A client that joins the server of `server.rs` or `server.c`, and leaves with a goodbye, in safe Rust: the twin of `client.c`.
//!
//!     rustc --edition 2024 -O examples/library/client.rs -C link-arg=crates/tribes_link/out/libtribes.a
//!     client PORT TURNS WORD NAME [quiet]

#[path = "../../include/tribes.rs"]
mod tribes;

use std::error::Error;
use std::net::UdpSocket;
use std::time::{Duration, Instant};
use tribes::{Client, Config, Field, Key, Kind, Knock, LONGEST_TAG, MAX_DATAGRAM, Nonce, Presence, Reached, Reason};

const LIMIT: u64 = 1_000;
const TAG: u32 = 16;
const REASON: u16 = 7;
const WELCOME: u8 = 15;
const FIELDS: [Field; 1] = [Field { lo: 0, hi: 65_535, bits: 16 }];
const KINDS: [Kind; 1] = [Kind { fields: 1, weight: 8 }];

fn config(client: u32) -> Config {
    Config { client, life: 1_000_000, size: 600, version: 3, move_bits: 8 }
}

/// What a client has once it was let in.
struct Joined {
    end: Client,
    presence: Presence,
}

struct Player {
    wire: UdpSocket,
    knock: Knock,
    key: Key,
    number: u64,
    joined: Option<Joined>,
    start: Instant,
}

impl Player {
    fn now(&self) -> u64 {
        self.start.elapsed().as_millis() as u64
    }

    fn put_tagged(&self, place: &mut [u8], count: usize) -> Result<(), Box<dyn Error>> {
        let _ = self.wire.send(self.key.tag(self.number, place, count)?);
        Ok(())
    }

    /// What came: of the greeting until the server lets it in, and then only what carries the server's tag.
    fn hear(&mut self) -> Result<(), Box<dyn Error>> {
        let mut place = [0; MAX_DATAGRAM + LONGEST_TAG];
        let now = self.now();
        while let Ok(count) = self.wire.recv(&mut place) {
            let Some(joined) = self.joined.as_mut() else {
                self.knock.hear(&place[..count]);
                if let Reached::Joined { client, .. } = self.knock.reached() {
                    let end = Client::new(&config(client), &KINDS, &FIELDS)?;
                    self.joined = Some(Joined { end, presence: Presence::new(LIMIT, now) });
                }
                continue;
            };
            if count > 0 && place[0] == WELCOME {
                continue; // once more: the answer went twice
            }
            let Ok(bytes) = self.key.verify(self.number, &place[..count]) else { continue };
            if joined.presence.came(bytes, now).is_none() {
                let _ = joined.end.arrive(bytes);
            }
        }
        Ok(())
    }

    fn tell(&mut self, name: &str) -> Result<(), Box<dyn Error>> {
        let mut place = [0; MAX_DATAGRAM + LONGEST_TAG];
        match self.joined.as_mut() {
            Some(joined) => {
                let _ = joined.end.sample(1);
                if let Some(count) = joined.end.pack(&mut place[..MAX_DATAGRAM])?.map(<[u8]>::len) {
                    self.put_tagged(&mut place, count)?;
                }
            }
            None => drop(self.wire.send(self.knock.write(name.as_bytes())?.bytes())),
        }
        Ok(())
    }

    fn is_alive(&self) -> bool {
        self.joined.as_ref().is_none_or(|joined| joined.presence.is_alive(self.now()))
    }

    /// What is there at last; and three goodbyes, unless it goes quietly.
    fn end(&mut self, quiet: bool) -> Result<(), Box<dyn Error>> {
        let alive = self.is_alive();
        let Some(joined) = self.joined.as_mut() else {
            match self.knock.reached() {
                Reached::Refused(Reason::OtherVersion) => println!("refused: another version"),
                Reached::Refused(Reason::OtherProtocol) => println!("refused: another protocol"),
                Reached::Refused(Reason::Full) => println!("refused: full"),
                Reached::Refused(Reason::TokenRefused) => println!("refused: the token is refused"),
                _ => println!("no answer"),
            }
            return Ok(());
        };
        if !alive {
            println!("the server is gone");
            return Ok(());
        }
        let value = joined.end.control().and_then(|slot| joined.end.copy(slot)).map_or(-1, |copy| copy.values[0]);
        let Reached::Joined { client, .. } = self.knock.reached() else { return Ok(()) };
        println!("client {client}, the lamp is at {}, {} refused", if value > 0 { "some brightness" } else { "none" }, self.key.refused());
        if quiet {
            return Ok(());
        }
        joined.presence.leave(REASON);
        while let Some(goodbye) = self.joined.as_mut().and_then(|joined| joined.presence.say()) {
            let (mut place, count) = ([0; MAX_DATAGRAM], goodbye.bytes().len());
            place[..count].copy_from_slice(goodbye.bytes());
            self.put_tagged(&mut place, count)?;
        }
        Ok(())
    }
}

fn main() -> Result<(), Box<dyn Error>> {
    let words: Vec<String> = std::env::args().collect();
    let [_, port, turns, word, name, more @ ..] = &words[..] else { return Err("client PORT TURNS WORD NAME [quiet]".into()) };
    let protocol = tribes::protocol(&config(0), &KINDS, &FIELDS, word.as_bytes())?;
    let mut random = [0; 16];
    std::io::Read::read_exact(&mut std::fs::File::open("/dev/urandom")?, &mut random)?;
    let nonce = Nonce { low: u64::from_le_bytes(random[..8].try_into()?), high: u64::from_le_bytes(random[8..].try_into()?) };
    let wire = UdpSocket::bind("127.0.0.1:0")?;
    wire.connect(("127.0.0.1", port.parse::<u16>()?))?;
    wire.set_nonblocking(true)?;
    let mut key = *b"the key of ada, of 32 bytes ....";
    key[11..14].copy_from_slice(&name.as_bytes()[..3]);
    let (knock, key) = (Knock::new(nonce, protocol), Key::client(key, TAG));
    let mut player = Player { wire, knock, key, number: nonce.low, joined: None, start: Instant::now() };
    for _ in 0..turns.parse::<u32>()? {
        player.tell(name)?;
        std::thread::sleep(Duration::from_millis(20));
        player.hear()?;
        if matches!(player.knock.reached(), Reached::Refused(_)) || !player.is_alive() {
            break;
        }
    }
    player.end(!more.is_empty())
}
