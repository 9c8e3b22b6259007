//! Ten things that move, shared over UDP at 20 packets a second: a server and its clients, in safe Rust. It is the twin of `share.c`, and
//! each plays with the other.
//!
//!     rustc --edition 2024 -O examples/library/share.rs -C link-arg=crates/tribes_link/out/libtribes.a
//!     share serve PORT TURNS LOSS          share join PORT NUMBER TURNS LOSS
//!
//! Thing k is driven by client k, where there is one, by moves of a throttle, a yaw and eight buttons; else it moves by itself. Each side
//! throws away LOSS of 100 datagrams that it would send. In the last quarter of the server's turns nothing moves, so that with turns enough
//! all have the newest places, which each prints.

#[path = "../../include/tribes.rs"]
mod tribes;

use std::collections::BTreeMap;
use std::error::Error;
use std::net::{SocketAddr, UdpSocket};
use std::time::{Duration, Instant};
use tribes::{Client, Config, Field, Kind, MAX_DATAGRAM, MAX_EVENT, Object, Server, put_bits, take_bits};

type Outcome = Result<(), Box<dyn Error>>;

const THINGS: usize = 10;
const EDGE: i64 = 65_535;
const HELLO: u8 = 2;
const WELCOME: u8 = 3;

/// The parts of a move, side by side: throttle, yaw and buttons, 22 bits.
const WIDTHS: [u32; 3] = [3, 11, 8];
/// The button that fires.
const FIRES: u64 = 1;

/// The game's kinds: one, a thing, with its place and its number.
const FIELDS: [Field; 3] = [
    Field { lo: 0, hi: EDGE, bits: 16 },
    Field { lo: 0, hi: EDGE, bits: 16 },
    Field { lo: 0, hi: THINGS as i64 - 1, bits: 4 },
];
const KINDS: [Kind; 1] = [Kind { fields: 3, weight: 8 }];

fn config(client: u8) -> Config {
    Config { client: client.into(), life: 1_000_000, size: 600, version: 3, move_bits: WIDTHS.iter().sum() }
}

/// A socket that throws away some of what it would send.
struct Wire {
    socket: UdpSocket,
    loss: u32,
    state: u32,
    sent: u64,
    lost: u64,
}

impl Wire {
    fn new(port: u16, loss: u32, seed: u32) -> std::io::Result<Wire> {
        let socket = UdpSocket::bind(("127.0.0.1", port))?;
        socket.set_nonblocking(true)?;
        Ok(Wire { socket, loss, state: seed, sent: 0, lost: 0 })
    }

    fn put(&mut self, to: SocketAddr, bytes: &[u8]) {
        self.state = self.state.wrapping_mul(1_664_525).wrapping_add(1_013_904_223);
        self.sent += 1;
        if (self.state >> 8) % 100 < self.loss {
            self.lost += 1;
        } else {
            let _ = self.socket.send_to(bytes, to);
        }
    }

    /// The next datagram that came, if one waits.
    fn get<'a>(&self, place: &'a mut [u8]) -> Option<(&'a [u8], SocketAddr)> {
        let (count, from) = self.socket.recv_from(place).ok()?;
        Some((&place[..count], from))
    }
}

fn sleep_until_turn(start: Instant, turn: u32) {
    let at = start + Duration::from_millis(50) * turn;
    std::thread::sleep(at.saturating_duration_since(Instant::now()));
}

#[derive(Clone, Copy)]
struct Thing {
    place: [i64; 2],
    way: [i64; 2],
}

impl Thing {
    /// It goes where its yaw points, of 2,048 ways round; along a square, so that it needs no sine.
    fn drive(&mut self, throttle: i64, yaw: i64) {
        const SIDES: [i64; 5] = [512, 0, -512, 0, 512];
        for (axis, place) in self.place.iter_mut().enumerate() {
            let side = (yaw as usize / 512 + 3 * axis) % 4;
            let along = SIDES[side] + (SIDES[side + 1] - SIDES[side]) * (yaw % 512) / 512;
            *place = (*place + throttle * 100 * along / 512).clamp(0, EDGE);
        }
    }
}

/// One client: its end, where it is, and for each thing its period.
struct Seat {
    end: Server,
    at: SocketAddr,
    periods: Vec<u32>,
    events: u64,
    moves: u64,
    shots: u64,
    lost: usize,
}

impl Seat {
    fn new(client: u8, at: SocketAddr) -> Result<Seat, tribes::Error> {
        let mut end = Server::new(&config(client), &KINDS, &FIELDS, &[b"thing"])?;
        let shown = |k| Object { kind: 0, block: 0, level: k as u32 % 4, control: (k == client as usize).into() };
        let periods = (0..THINGS).map(|k| end.show(&shown(k))).collect::<Result<Vec<_>, _>>()?;
        Ok(Seat { end, at, periods, events: 0, moves: 0, shots: 0, lost: 0 })
    }

    /// Takes a datagram, and gives the moves that it brought. One that is refused, as an old one, changes nothing.
    fn take(&mut self, bytes: &[u8]) -> Result<Vec<u64>, tribes::Error> {
        if self.end.arrive(bytes, 32).is_err() {
            return Ok(Vec::new());
        }
        let mut place = [0; MAX_EVENT];
        while self.end.event(&mut place)?.is_some() {
            self.events += 1;
        }
        self.lost += self.end.verdicts().iter().filter(|judged| judged.received == 0).count();
        let moves = self.end.moves();
        self.moves += moves.len() as u64;
        Ok(moves)
    }
}

/// The server's world, and who sees it.
struct Game {
    things: [Thing; THINGS],
    seats: BTreeMap<u8, Seat>,
}

impl Game {
    fn new() -> Game {
        let thing = |k: i64| Thing { place: [5_000 + 5_500 * k, 3_000 + 6_000 * k], way: [150 + 30 * k, 400 - 35 * k] };
        Game { things: std::array::from_fn(|k| thing(k as i64)), seats: BTreeMap::new() }
    }

    /// A thing has a new place: every client's end is told which fields changed.
    fn note_moved(&mut self, k: usize) -> Result<(), tribes::Error> {
        self.seats.values_mut().try_for_each(|seat| seat.end.changed(seat.periods[k], 3))
    }

    fn tick(&mut self) -> Result<(), tribes::Error> {
        for k in (0..THINGS).filter(|k| !self.seats.contains_key(&(*k as u8))).collect::<Vec<_>>() {
            let thing = &mut self.things[k];
            for axis in 0..2 {
                let to = thing.place[axis] + thing.way[axis];
                thing.place[axis] = to.clamp(0, EDGE);
                if thing.place[axis] != to {
                    thing.way[axis] = -thing.way[axis];
                }
            }
            self.note_moved(k)?;
        }
        Ok(())
    }

    /// Takes what came: a hello, which is answered, or a datagram of a client, whose moves drive its thing.
    fn hear(&mut self, wire: &mut Wire) -> Outcome {
        let mut place = [0; MAX_DATAGRAM];
        while let Some((bytes, from)) = wire.get(&mut place) {
            if let [HELLO, client @ 0..THINGS_U8] = *bytes {
                if let std::collections::btree_map::Entry::Vacant(seat) = self.seats.entry(client) {
                    seat.insert(Seat::new(client, from)?);
                }
                wire.put(from, &[WELCOME, client]);
                continue;
            }
            let Some((&client, seat)) = self.seats.iter_mut().find(|(_, seat)| seat.at == from) else {
                continue;
            };
            let moves = seat.take(bytes)?;
            for bits in &moves {
                let [throttle, yaw, buttons] = take_bits(&WIDTHS, *bits)?;
                self.things[client as usize].drive(throttle as i64, yaw as i64);
                seat.shots += buttons & FIRES;
            }
            if !moves.is_empty() {
                self.note_moved(client as usize)?;
            }
        }
        Ok(())
    }

    /// The next datagram of each client's end: it says which values it wants, and is given them as they are now.
    fn tell(&mut self, wire: &mut Wire, turn: u32) -> Result<(), tribes::Error> {
        let mut place = [0; MAX_DATAGRAM];
        for seat in self.seats.values_mut() {
            if turn % 20 == 0 {
                let _ = seat.end.post(format!("turn {turn}").as_bytes(), true);
            }
            let (things, periods) = (&self.things, &seat.periods);
            let value = |n: u32, field: u32| {
                let k = periods.iter().position(|period| *period == n).unwrap_or(0);
                if field == 2 { k as i64 } else { things[k].place[field as usize] }
            };
            if let Some(bytes) = seat.end.pack(&mut place, value)? {
                wire.put(seat.at, bytes);
            }
        }
        Ok(())
    }
}

const THINGS_U8: u8 = THINGS as u8;

fn serve(wire: &mut Wire, turns: u32) -> Outcome {
    let (mut game, start) = (Game::new(), Instant::now());
    for turn in 1..=turns {
        game.hear(wire)?;
        if turn <= turns - turns / 4 {
            game.tick()?;
        }
        game.tell(wire, turn)?;
        sleep_until_turn(start, turn);
    }
    for (k, thing) in game.things.iter().enumerate() {
        println!("thing {k} {} {}", thing.place[0], thing.place[1]);
    }
    for (client, seat) in &mut game.seats {
        let mut settled = 0;
        for n in &seat.periods {
            settled += u32::from(seat.end.settled(*n, 0)?) + u32::from(seat.end.settled(*n, 1)?);
        }
        let Seat { events, moves, shots, lost, .. } = seat;
        let told = format!("{events} events, {moves} moves, {shots} shots, {lost} packets told as lost");
        println!("client {client}: {told}, {settled} of 20 fields settled");
    }
    Ok(())
}

/// Takes what came at a client: gives how many events, and whether the welcome was among it.
fn listen(wire: &Wire, end: &mut Client) -> Result<(u64, bool), tribes::Error> {
    let (mut place, mut event, mut events, mut welcomed) = ([0; MAX_DATAGRAM], [0; MAX_EVENT], 0, false);
    while let Some((bytes, _)) = wire.get(&mut place) {
        welcomed |= bytes.len() == 2 && bytes[0] == WELCOME;
        if end.arrive(bytes).is_err() {
            continue; // old, or a welcome: nothing changed
        }
        while end.event(&mut event)?.is_some() {
            events += 1;
        }
    }
    Ok((events, welcomed))
}

fn join(wire: &mut Wire, port: u16, number: u8, turns: u32) -> Outcome {
    let (to, start) = (SocketAddr::from(([127, 0, 0, 1], port)), Instant::now());
    let mut end = Client::new(&config(number), &KINDS, &FIELDS)?;
    let (mut events, mut sampled, mut welcomed, mut place) = (0, 0, false, [0; MAX_DATAGRAM]);
    for turn in 1..=turns {
        let (came, answered) = listen(wire, &mut end)?;
        events += came;
        welcomed |= answered;
        if welcomed {
            let bits = put_bits(&WIDTHS, &[3, u64::from(turn) * 16 % 2048, if turn % 40 == 0 { FIRES } else { 0 }])?;
            sampled += u32::from(turn <= turns / 2 && end.sample(bits).is_ok());
            if turn % 20 == 0 {
                let _ = end.post(&[HELLO, number], true);
            }
            if let Some(bytes) = end.pack(&mut place)? {
                wire.put(to, bytes);
            }
        } else {
            wire.put(to, &[HELLO, number]);
        }
        sleep_until_turn(start, turn);
    }
    events += listen(wire, &mut end)?.0;
    let (mut seen, mut from) = (BTreeMap::new(), 0);
    while let Some(slot) = end.next_copy(from) {
        from = slot + 1;
        if let Some(copy) = end.copy(slot) {
            seen.insert(copy.values[2], [copy.values[0], copy.values[1]]);
        }
    }
    for (k, place) in &seen {
        println!("thing {k} {} {}", place[0], place[1]);
    }
    println!("client {number}: {events} events, {sampled} moves, of which {} are accepted", end.counts().accepted);
    Ok(())
}

fn main() -> Outcome {
    assert_eq!(tribes::library_version(), tribes::VERSION, "the library is of another version");
    let words: Vec<String> = std::env::args().skip(1).collect();
    let words: Vec<&str> = words.iter().map(String::as_str).collect();
    let mut wire = match words[..] {
        ["serve", port, _, loss] => Wire::new(port.parse()?, loss.parse()?, 7)?,
        ["join", _, number, _, loss] => Wire::new(0, loss.parse()?, 7 + number.parse::<u32>()?)?,
        _ => return Err("share serve PORT TURNS LOSS | share join PORT NUMBER TURNS LOSS".into()),
    };
    match words[..] {
        ["join", port, number, turns, _] => join(&mut wire, port.parse()?, number.parse()?, turns.parse()?)?,
        _ => serve(&mut wire, words[2].parse()?)?,
    }
    println!("{} of {} datagrams thrown away", wire.lost, wire.sent);
    Ok(())
}
