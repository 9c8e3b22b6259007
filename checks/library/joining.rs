//! Joining, in Rust: the twin of `joining.c`, which says what it does, and prints the same: joining SEED [STEPS].

#[path = "../../include/tribes.rs"]
mod tribes;

use tribes::{
    Address, Bounds, Client, Config, Digest, Door, Error, Field, Greeting, Heard, Key, Kind, Knock, Meter, Nonce, Object, Presence, Quality, Rate,
    Reached, Reason, Secret, Server, Terms,
};

const PLAYERS: usize = 4;
const ADDRESSES: usize = 6;
const SEATS: usize = 3;
const HELLO: u8 = 3;
const ANSWER: u8 = 11;
const LOST: u32 = 25;
const LIMIT: u64 = 3000;
const PLACE: usize = 700;
const MOST: usize = 8000;
const CONFIG: Config = Config { client: 0, life: 1_000_000, size: 600, version: 3, move_bits: 8 };
const FIELDS: [Field; 1] = [Field { lo: 0, hi: 65_535, bits: 16 }];
const KINDS: [Kind; 1] = [Kind { fields: 1, weight: 8 }];
const OTHERS: [Kind; 1] = [Kind { fields: 1, weight: 9 }];

struct Player {
    knock: Knock,
    nonce: Nonce,
    key: Key,
    end: Option<Client>,
    presence: Presence,
    turn: u8,
}

struct Seat {
    key: Key,
    end: Server,
    presence: Presence,
    number: u64,
    who: usize,
}

#[derive(Clone)]
struct Sent {
    who: usize,
    up: bool,
    data: bool,
    taken: bool,
    bytes: Vec<u8>,
}

struct Run {
    players: Vec<Player>,
    seats: [Option<Seat>; SEATS],
    all: Vec<Sent>,
    count_all: usize,
    door: Door,
    state: u32,
    lamp: u32,
    now: u64,
    came: [usize; ADDRESSES],
    went: [usize; ADDRESSES],
    answered: [bool; ADDRESSES],
    heard: [bool; ADDRESSES],
    turns: [u8; PLAYERS],
    counts: Counts,
}

#[derive(Default)]
struct Counts {
    joined: usize,
    left: usize,
    gone: usize,
    forged: usize,
    again: usize,
}

fn stop(what: &str) -> ! {
    println!("{what}");
    std::process::exit(1)
}

fn code<T>(answer: &Result<T, Error>) -> i32 {
    answer.as_ref().map_or_else(|error| error.code, |_| 0)
}

fn address(at: usize) -> Address {
    Address { bytes: [0, 0, 0, 0, 0, 0, 0, 0, 0, 0, 255, 255, 10, 0, 0, at as u8], port: 4000 + at as u16 }
}

fn reason(why: Reason) -> u32 {
    match why {
        Reason::OtherVersion => 1,
        Reason::OtherProtocol => 2,
        Reason::Full => 3,
        Reason::TokenRefused => 4,
    }
}

fn protocol(kinds: &[Kind]) -> Digest {
    tribes::protocol(&CONFIG, kinds, &FIELDS, b"lamp 1").unwrap_or_else(|_| stop("protocol"))
}

fn key_of(who: usize, turn: u8, make: fn([u8; 32], u32) -> Key) -> Key {
    let mut key = [who as u8 + 1; 32];
    key[0] = turn;
    make(key, if who % 2 == 1 { 8 } else { 16 })
}

impl Run {
    fn draw(&mut self, below: u32) -> u32 {
        self.state = self.state.wrapping_mul(1_664_525).wrapping_add(1_013_904_223);
        (self.state >> 8) % below
    }

    fn player(&mut self, who: usize, turn: u8) -> Player {
        let nonce = Nonce { low: self.draw(1 << 24).into(), high: self.draw(1 << 24).into() };
        let kinds = if self.draw(10) > 0 { KINDS } else { OTHERS };
        let knock = Knock::new(nonce, protocol(&kinds));
        Player { knock, nonce, key: key_of(who, turn, Key::client), end: None, presence: Presence::new(0, 0), turn }
    }

    fn begin(&mut self, who: usize) {
        let turn = self.players[who].turn.wrapping_add(1);
        self.players[who] = self.player(who, turn);
    }

    fn empty(&mut self, k: usize) {
        self.door.leave(k as u32);
        self.seats[k] = None;
    }

    fn keep(&mut self, who: usize, up: bool, data: bool, bytes: &[u8]) {
        let it = Sent { who, up, data, taken: false, bytes: bytes.to_vec() };
        if self.count_all < MOST {
            self.all.push(it);
        } else {
            self.all[self.count_all % MOST] = it;
        }
        self.count_all += 1;
    }

    fn must_be_honest(&mut self, who: usize, up: bool, bytes: &[u8], took: bool) {
        match self.all.iter_mut().find(|it| it.who == who && it.up == up && it.bytes == bytes) {
            Some(it) if took && it.data && it.taken => stop("taken twice"),
            Some(it) => {
                it.taken |= took;
                self.counts.again += !took as usize;
            }
            None => stop("a forged datagram is taken"),
        }
    }

    fn down(&mut self, who: usize, bytes: &[u8]) {
        let now = self.now;
        let p = &mut self.players[who];
        let Some(end) = p.end.as_mut() else {
            p.knock.hear(bytes);
            let reached = match p.knock.reached() {
                Reached::Asking => 0,
                Reached::Answering => 1,
                Reached::Joined { .. } => 2,
                Reached::Refused(_) => 3,
            };
            self.heard[who] |= reached > 0;
            println!("knock {who} {reached}");
            match p.knock.reached() {
                Reached::Refused(why) => println!("refused {}", reason(why)),
                Reached::Joined { .. } => {
                    p.end = Some(Client::new(&CONFIG, &KINDS, &FIELDS).unwrap_or_else(|_| stop("client")));
                    p.presence = Presence::new(LIMIT, now);
                }
                _ => {}
            }
            return;
        };
        let found = p.key.verify(p.nonce.low, bytes);
        println!("down {who} {} {}", code(&found), p.key.refused());
        self.counts.forged += found.is_err() as usize;
        let Ok(inner) = found else { return };
        if p.presence.came(inner, now).is_some() {
            return;
        }
        let took = end.arrive(inner).is_ok();
        self.must_be_honest(who, false, bytes, took);
    }

    fn decide(&mut self, at: usize, bytes: &[u8]) -> Greeting {
        if !self.heard[at] {
            stop("a client for who heard no challenge");
        }
        let free = self.seats.iter().position(Option::is_none);
        let good = bytes.len() == 36 && bytes[34] as usize == at && bytes[35] > self.turns[at];
        let (Some(k), true, true) = (free, good, free.is_some() && good && self.draw(6) != 0) else {
            return self.door.refuse().unwrap_or_else(|_| stop("refuse"));
        };
        let reply = self.door.accept(k as u32).unwrap_or_else(|_| stop("accept"));
        let mut end = Server::new(&CONFIG, &KINDS, &FIELDS, &[b"lamp"]).unwrap_or_else(|_| stop("server"));
        for c in 0..SEATS {
            if self.seats[c].as_ref().is_some_and(|seat| seat.who == at) {
                self.empty(c);
                self.counts.gone += 1;
            }
        }
        self.turns[at] = bytes[35];
        self.lamp = end.show(&Object { kind: 0, block: 0, level: 0, control: 1 }).unwrap_or_else(|_| stop("show"));
        let number = u64::from_le_bytes(bytes[2..10].try_into().unwrap_or_default());
        let (key, presence) = (key_of(at, bytes[35], Key::server), Presence::new(LIMIT, self.now));
        self.seats[k] = Some(Seat { key, end, presence, number, who: at });
        self.counts.joined += 1;
        reply
    }

    fn take(&mut self, k: usize, bytes: &[u8]) {
        let now = self.now;
        let Some(seat) = self.seats[k].as_mut() else { return };
        let found = seat.key.verify(seat.number, bytes);
        println!("up {k} {} {}", code(&found), seat.key.refused());
        self.counts.forged += found.is_err() as usize;
        let Ok(inner) = found else { return };
        let (goodbye, who) = (seat.presence.came(inner, now).is_some(), seat.who);
        let took = goodbye || seat.end.arrive(inner, 32).is_ok();
        self.must_be_honest(who, true, bytes, took);
        if goodbye {
            self.empty(k);
            self.counts.left += 1;
        }
    }

    fn up(&mut self, at: usize, bytes: &[u8]) {
        self.came[at] += bytes.len();
        let seat = self.seats.iter().position(|seat| seat.as_ref().is_some_and(|seat| seat.who == at));
        if let (Some(k), Some(first)) = (seat, bytes.first())
            && *first != HELLO
            && *first != ANSWER
        {
            return self.take(k, bytes);
        }
        let (heard, reply) = self.door.hear(&address(at), bytes);
        let (code, number) = match heard {
            Heard::Dropped => (0, 0),
            Heard::Challenged => (1, 0),
            Heard::Refused(why) => (2, reason(why)),
            Heard::Asks => (3, 0),
            Heard::Again(client) => (4, client),
        };
        self.answered[at] |= matches!(heard, Heard::Asks | Heard::Again(_) | Heard::Refused(Reason::Full));
        let reply = if heard == Heard::Asks { self.decide(at, bytes) } else { reply };
        self.went[at] += reply.bytes().len();
        println!("door {at} {code} {number} {}", reply.bytes().len());
        if !self.answered[at] && self.went[at] > self.came[at] {
            stop("more than came");
        }
        if !reply.bytes().is_empty() && at < PLAYERS && self.draw(100) >= LOST {
            self.down(at, reply.bytes());
        }
    }

    fn speak_up(&mut self, who: usize) {
        let bits = self.draw(256).into();
        let p = &mut self.players[who];
        let Some(end) = p.end.as_mut() else { return };
        let mut place = [0; PLACE];
        let _ = end.sample(bits);
        let before = end.counts().sent;
        let Ok(Some(count)) = end.pack(&mut place[..600]).map(|made| made.map(<[u8]>::len)) else { stop("pack") };
        let data = end.counts().sent > before;
        let bytes = p.key.tag(p.nonce.low, &mut place, count).unwrap_or_else(|_| stop("pack")).to_vec();
        self.keep(who, true, data, &bytes);
        if self.draw(100) >= LOST {
            self.up(who, &bytes);
        }
    }

    fn speak_down(&mut self, k: usize) {
        let (lamp, mut state) = (self.lamp, self.state);
        let Some(seat) = self.seats[k].as_mut() else { return };
        let mut place = [0; PLACE];
        let who = seat.who;
        if seat.end.changed(lamp, 1).is_err() {
            stop("plan");
        }
        let value = |_, _| {
            state = state.wrapping_mul(1_664_525).wrapping_add(1_013_904_223);
            i64::from((state >> 8) % 65_536)
        };
        let before = seat.end.counts().sent;
        let Ok(Some(count)) = seat.end.pack(&mut place[..600], value).map(|made| made.map(<[u8]>::len)) else { stop("pack") };
        let data = seat.end.counts().sent > before;
        let bytes = seat.key.tag(seat.number, &mut place, count).unwrap_or_else(|_| stop("pack")).to_vec();
        self.state = state;
        self.keep(who, false, data, &bytes);
        if self.draw(100) >= LOST {
            self.down(who, &bytes);
        }
    }

    fn tell(&mut self, who: usize) {
        match self.players[who].knock.reached() {
            Reached::Joined { .. } => self.speak_up(who),
            Reached::Refused(_) => self.begin(who),
            _ => {
                let token = [who as u8, self.players[who].turn];
                let greeting = self.players[who].knock.write(&token).unwrap_or_else(|_| stop("write"));
                self.keep(who, true, false, greeting.bytes());
                if self.draw(100) >= LOST {
                    self.up(who, greeting.bytes());
                }
            }
        }
    }

    fn leave(&mut self, who: usize) {
        if self.players[who].end.is_none() {
            return;
        }
        let why = self.draw(65_536) as u16;
        self.players[who].presence.leave(why);
        while let Some(goodbye) = self.players[who].presence.say() {
            let (mut place, count) = ([0; 290], goodbye.bytes().len());
            place[..count].copy_from_slice(goodbye.bytes());
            let p = &self.players[who];
            let bytes = p.key.tag(p.nonce.low, &mut place, count).unwrap_or_else(|_| stop("goodbye")).to_vec();
            self.keep(who, true, false, &bytes);
            if self.draw(100) >= LOST {
                self.up(who, &bytes);
            }
        }
        self.begin(who);
    }

    fn forge(&mut self) {
        let count = self.draw(64) as usize;
        let mut bytes = [0u8; 64];
        bytes.iter_mut().for_each(|byte| *byte = self.draw(256) as u8);
        bytes[0] = [0, 1, 3, 7, 11, 15, 19, 23][self.draw(8) as usize];
        if self.draw(4) > 0 {
            bytes[1] = 1;
        }
        let at = self.draw(ADDRESSES as u32) as usize;
        if self.draw(2) > 0 {
            self.up(at, &bytes[..count]);
        } else if at < PLAYERS {
            self.down(at, &bytes[..count]);
        }
    }

    fn replay(&mut self) {
        if self.count_all == 0 {
            return;
        }
        let which = self.draw(self.count_all.min(MOST) as u32) as usize;
        let mut it = self.all[which].clone();
        let at = if self.draw(2) > 0 { it.who } else { self.draw(ADDRESSES as u32) as usize };
        let goes_up = if self.draw(3) > 0 { it.up } else { !it.up };
        if self.draw(2) > 0 {
            let place = self.draw(it.bytes.len() as u32) as usize;
            it.bytes[place] ^= 1 + self.draw(255) as u8;
        }
        if goes_up {
            self.up(at, &it.bytes);
        } else if at < PLAYERS {
            self.down(at, &it.bytes);
        }
    }

    fn step(&mut self) {
        let (what, who, k) = (self.draw(20), self.draw(PLAYERS as u32) as usize, self.draw(SEATS as u32) as usize);
        self.now += u64::from(self.draw(40));
        match what {
            0..8 => self.tell(who),
            8..12 => self.speak_down(k),
            12..15 => self.forge(),
            15..19 => self.replay(),
            _ => {
                if self.draw(4) == 0 {
                    self.leave(who);
                } else if self.draw(4) == 0 {
                    let mut bytes = [0; 32];
                    bytes[0] = self.draw(256) as u8;
                    bytes[1] = self.draw(256) as u8;
                    self.door.renew(&Secret { bytes });
                }
            }
        }
        for c in 0..SEATS {
            if self.seats[c].as_ref().is_some_and(|seat| !seat.presence.is_alive(self.now)) {
                self.empty(c);
                self.counts.gone += 1;
            }
        }
    }
}

/// How a link goes and how much it may carry, by times that now and then go back.
fn measure(run: &mut Run, steps: u32) {
    let (bounds, none) = (Bounds { least: 1000, most: 20_000, step: 300, burst: 1200 }, Bounds { least: 0, most: 1, step: 1, burst: 1 });
    let (mut at, mut wait) = (5000u64, 0);
    let mut quality = Quality::new().unwrap_or_else(|_| stop("quality"));
    let mut meter = Meter::default();
    println!("{} 0", code(&Rate::new(none, at)));
    let mut rate = Rate::new(bounds, at).unwrap_or_else(|_| stop("rate"));
    for _ in 0..steps {
        let (size, received) = (run.draw(1400), run.draw(5));
        let told = if run.draw(50) > 0 { at } else { at - u64::from(run.draw(2000)) };
        at += u64::from(run.draw(60));
        let sent = if run.draw(2) > 0 { quality.sent(told) } else { quality.judged(received != 0, told) };
        let metered = meter.went(size, told);
        let rated = if received != 0 { rate.came(told) } else { rate.lost(100, told) };
        let waits = match rate.wait(size, at) {
            Ok(Some(found)) => {
                wait = found;
                1
            }
            Ok(None) => 0,
            Err(error) => error.code,
        };
        let allowed = rate.allowed(at);
        let bytes = *allowed.as_ref().unwrap_or(&0);
        if bytes >= size && rate.went(size, at).is_err() {
            stop("went");
        }
        let (trip, traffic) = (quality.trip(), meter.told(at).unwrap_or_else(|_| stop("told")));
        println!("{} {} {} {waits} {}: {wait} {bytes} {}", code(&sent), code(&metered), code(&rated), code(&allowed), rate.bytes_a_second());
        println!("trip {} {} {} {}, {} of {}", trip.known, trip.lost, trip.eighths, trip.quarters, traffic.bytes, traffic.datagrams);
    }
}

fn main() {
    let words: Vec<String> = std::env::args().collect();
    let number = |k: usize, usual: u32| words.get(k).and_then(|word| word.parse().ok()).unwrap_or(usual);
    let (mut secret, mut terms) = ([0; 32], [0; 32]);
    secret[..3].copy_from_slice(&[1, 2, 3]);
    terms[0] = 4;
    let door = Door::new(&Terms { secret, protocol: protocol(&KINDS).bytes, terms, seats: SEATS as u32 }).unwrap_or_else(|_| stop("door"));
    let mut run = Run {
        players: Vec::new(),
        seats: [None, None, None],
        all: Vec::new(),
        count_all: 0,
        door,
        state: number(1, 0),
        lamp: 0,
        now: 0,
        came: [0; ADDRESSES],
        went: [0; ADDRESSES],
        answered: [false; ADDRESSES],
        heard: [false; ADDRESSES],
        turns: [0; PLAYERS],
        counts: Counts::default(),
    };
    for who in 0..PLAYERS {
        let player = run.player(who, 1);
        run.players.push(player);
    }
    (0..number(2, 5000)).for_each(|_| run.step());
    measure(&mut run, number(2, 5000) / 5);
    let Counts { joined, left, gone, forged, again } = run.counts;
    println!("{joined} joined, {left} left, {gone} gone, {forged} forged, {again} again");
}
