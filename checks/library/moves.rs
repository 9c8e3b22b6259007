//! A game's own moves through the safe Rust of `include/tribes.rs`: moves SEED [TURNS]. It is the twin of `moves.c`, which says what is
//! tried: it draws the same, and prints the same lines.

#[path = "../../include/tribes.rs"]
mod tribes;

use tribes::{Client, Config, Counts, Error, Field, Kind, MAX_DATAGRAM, MAX_EVENT, MAX_MOVE_BITS, Server, Step, put_bits, take_bits};

const MOST_MOVES: usize = 2_000;
const MOST_WAITING: usize = 4;
const MOST_PARTS: usize = 8;
const MAX_MOVES: u32 = 32;

const BAD_SIZE: i32 = -17;
const BAD_MOVE_BITS: i32 = -19;
const BAD_WIDTHS: i32 = -13;
const BAD_VALUES: i32 = -11;
const OLD: i32 = -51;
const MOVES_FULL: i32 = -73;
const MOVE_TOO_WIDE: i32 = -74;

/// What is drawn, and what is noted of it.
struct Dice {
    state: u64,
    digest: u64,
}

impl Dice {
    fn draw64(&mut self) -> u64 {
        self.state ^= self.state << 13;
        self.state ^= self.state >> 7;
        self.state ^= self.state << 17;
        self.state
    }

    fn draw(&mut self, below: u32) -> u32 {
        (self.draw64() >> 20) as u32 % below
    }

    fn note(&mut self, value: u64) {
        for byte in value.to_le_bytes() {
            self.digest = (self.digest ^ u64::from(byte)).wrapping_mul(1_099_511_628_211);
        }
    }
}

fn code<T>(answer: Result<T, Error>) -> i32 {
    answer.map_or_else(|error| error.code, |_| 0)
}

/// Widths of so many fields, and values in them; the widths of further ones are 0, and so are the values.
fn put_and_take(dice: &mut Dice) {
    let (mut widths, mut values) = ([0; MOST_PARTS], [0; MOST_PARTS]);
    let (count, mut all, mut wanted) = (1 + dice.draw(MOST_PARTS as u32) as usize, 0, 0);
    for k in 0..count {
        widths[k] = dice.draw(if k + 1 == count { 65 - all } else { (64 - all) / 2 + 1 });
        if widths[k] > 0 {
            values[k] = dice.draw64() >> (64 - widths[k]);
            wanted |= values[k] << all;
        }
        all += widths[k];
    }
    assert_eq!(put_bits(&widths, &values), Ok(wanted));
    assert_eq!(take_bits(&widths, wanted), Ok(values));
    dice.note(wanted);
    if all < 64 {
        let above = 1 << (all + dice.draw(64 - all));
        assert_eq!(code(take_bits(&widths, wanted | above)), MOVE_TOO_WIDE);
    }
    let k = dice.draw(count as u32) as usize;
    if widths[k] < 64 {
        let mut wider = values;
        wider[k] |= 1 << (widths[k] + dice.draw(64 - widths[k]));
        let refused = put_bits(&widths, &wider).expect_err("a value too wide");
        assert_eq!((refused.code, refused.first), (BAD_VALUES, k as u32));
    }
    widths[k] += 65 - all;
    assert_eq!(code(put_bits(&widths, &values)), BAD_WIDTHS);
    assert_eq!(code(take_bits(&widths, 0)), BAD_WIDTHS);
}

fn steps(dice: &mut Dice) {
    for (dx, dy, flags) in (-9..=8).flat_map(|dx| (-9..=8).flat_map(move |dy| (0..4).map(move |flags| (dx, dy, flags)))) {
        let bits = Step { dx, dy, fire: 5 * (flags & 1), act: flags & 2 }.bits();
        dice.note(bits);
        if (-8..8).contains(&dx) && (-8..8).contains(&dy) {
            assert_eq!(bits, (dx + 8 + 16 * (dy + 8)) as u64 + 256 * u64::from(flags));
            assert_eq!(Step::of(bits), Step { dx, dy, fire: flags & 1, act: flags >> 1 });
        } else {
            assert_eq!(bits, u64::MAX);
        }
    }
}

/// A datagram on its way, with its number where it is a data packet, else 0.
#[derive(Clone)]
struct Datagram {
    bytes: Vec<u8>,
    number: u32,
}

#[derive(Default)]
struct Way {
    waits: Vec<Datagram>,
    taken: u32,
}

impl Way {
    /// The next datagram goes on its way, or is lost, or goes twice.
    fn send(&mut self, dice: &mut Dice, bytes: &[u8], number: u32, loss: u32) {
        bytes.iter().for_each(|byte| dice.note(u64::from(*byte)));
        let copies = if dice.draw(100) < loss { 0 } else { 1 + u32::from(dice.draw(10) == 0) };
        for _ in 0..copies {
            if self.waits.len() == 2 * MOST_WAITING {
                break;
            }
            let at = dice.draw(self.waits.len() as u32 + 1) as usize;
            let made = Datagram { bytes: bytes.to_vec(), number };
            self.waits.push(made);
            let last = self.waits.len() - 1;
            self.waits.swap(at, last);
        }
    }
}

/// Both ends, and what was sampled.
struct Pair {
    server: Server,
    client: Client,
    width: u32,
    sampled: Vec<u64>,
    taken: usize,
}

impl Pair {
    fn new(dice: &mut Dice, version: u32, width: u32, given: u32) -> Pair {
        const FIELDS: [Field; 1] = [Field { lo: 0, hi: 1, bits: 1 }];
        const KINDS: [Kind; 1] = [Kind { fields: 1, weight: 1 }];
        let least = if width > 21 { 43 + 4 * width } else { 128 };
        let mut config = Config { client: dice.draw(16), life: 100_000, size: least - 1, version, move_bits: given };
        assert_eq!(code(Client::new(&config, &KINDS, &FIELDS)), BAD_SIZE);
        config.size += 1;
        if dice.draw(2) == 1 {
            config.size += dice.draw(600);
        }
        config.move_bits = if version < 3 { 1 + dice.draw(9) } else { 65 + dice.draw(1_000) };
        let refused = Client::new(&config, &KINDS, &FIELDS).err().expect("no bits of a move");
        assert_eq!((refused.code, refused.first), (BAD_MOVE_BITS, config.move_bits));
        config.move_bits = given;
        let server = Server::new(&config, &KINDS, &FIELDS, &[]).expect("server");
        let client = Client::new(&config, &KINDS, &FIELDS).expect("client");
        Pair { server, client, width, sampled: Vec::new(), taken: 0 }
    }

    fn drawn_move(&self, dice: &mut Dice) -> u64 {
        let most = u64::MAX >> (64 - self.width);
        match dice.draw(5) {
            0 => 0,
            1 => most,
            2 => most ^ most >> 1,
            _ => dice.draw64() & most,
        }
    }

    /// A move more, and a bit above it is refused.
    fn sample(&mut self, dice: &mut Dice) {
        let (places, bits) = (self.client.counts().move_places, self.drawn_move(dice));
        if self.width < 64 {
            let above = 1 << (self.width + dice.draw(64 - self.width));
            let refused = self.client.sample(bits | above).expect_err("a bit above");
            assert_eq!((refused.code, refused.first), (MOVE_TOO_WIDE, self.width));
        }
        if places == 0 {
            return assert_eq!(code(self.client.sample(bits)), MOVES_FULL);
        }
        assert_eq!(self.client.sample(bits), Ok(self.sampled.len() as u32));
        assert_eq!(self.client.counts().move_places, places - 1);
        self.sampled.push(bits);
    }

    /// Some of what waits comes to the server, in whatever order it lies there.
    fn come_up(&mut self, dice: &mut Dice, from: &mut Way, left: usize) {
        while from.waits.len() > left {
            let Some(came) = from.waits.pop() else { return };
            let answer = self.server.arrive(&came.bytes, dice.draw(MAX_MOVES + 1));
            assert!(matches!(answer, Ok(_) | Err(Error { code: OLD, .. })), "{answer:?}");
            if let Ok(brought) = answer {
                while self.server.event(&mut [0; MAX_EVENT]).expect("event").is_some() {}
                let moves = self.server.moves();
                assert_eq!(moves.len(), brought as usize);
                assert_eq!(moves, self.sampled[self.taken..][..moves.len()]);
                self.taken += moves.len();
                from.taken = if came.number > 0 { came.number } else { from.taken };
            }
            let counts = self.server.counts();
            assert_eq!((counts.taken, counts.accepted as usize), (from.taken, self.taken));
        }
    }

    fn come_down(&mut self, dice: &mut Dice, from: &mut Way, left: usize) {
        while from.waits.len() > left {
            let Some(came) = from.waits.pop() else { return };
            let _ = dice.draw(MAX_MOVES + 1);
            let answer = self.client.arrive(&came.bytes);
            assert!(matches!(answer, Ok(()) | Err(Error { code: OLD, .. })), "{answer:?}");
            if answer.is_ok() {
                while self.client.event(&mut [0; MAX_EVENT]).expect("event").is_some() {}
                from.taken = if came.number > 0 { came.number } else { from.taken };
            }
            assert_eq!(self.client.counts().taken, from.taken);
        }
    }

    fn look_at_pending(&mut self) {
        let (counts, pending) = (self.client.counts(), self.client.pending());
        assert!(counts.accepted as usize <= self.taken);
        assert_eq!(counts.moves as usize, self.sampled.len());
        assert_eq!(counts.move_places, MAX_MOVES - pending.len() as u32);
        assert_eq!(pending, self.sampled[counts.accepted as usize..]);
    }
}

/// An event more at an end, guaranteed or not, where there is a place.
fn posted(dice: &mut Dice, before: Counts, post: impl FnOnce(&[u8], bool) -> Result<u32, Error>) -> (u32, u32) {
    let (guaranteed, count) = (dice.draw(2), dice.draw(MAX_EVENT as u32 + 1));
    if (if guaranteed == 1 { before.event_places } else { before.loose_places }) == 0 {
        return (before.event_places, before.loose_places);
    }
    post(&vec![0; count as usize], guaranteed == 1).expect("post");
    (before.event_places - guaranteed, before.loose_places - (1 - guaranteed))
}

fn connection(dice: &mut Dice, version: u32, width: u32, given: u32, turns: u32) {
    let (loss, mut up, mut down) = (dice.draw(71), Way::default(), Way::default());
    let (mut pair, mut turn, mut place) = (Pair::new(dice, version, width, given), 0, [0; MAX_DATAGRAM]);
    while turn < turns || pair.taken < pair.sampled.len() || (pair.client.counts().accepted as usize) < pair.sampled.len() {
        let ends = turn >= turns;
        assert!(turn <= turns + 1_000);
        let mut more = if ends { 0 } else { dice.draw(4) };
        while more > 0 && pair.sampled.len() < MOST_MOVES {
            pair.sample(dice);
            more -= 1;
        }
        if !ends && dice.draw(3) == 0 {
            if dice.draw(2) == 1 {
                let places = posted(dice, pair.server.counts(), |bytes, guaranteed| pair.server.post(bytes, guaranteed));
                let after = pair.server.counts();
                assert_eq!((after.event_places, after.loose_places), places);
            } else {
                let places = posted(dice, pair.client.counts(), |bytes, guaranteed| pair.client.post(bytes, guaranteed));
                let after = pair.client.counts();
                assert_eq!((after.event_places, after.loose_places), places);
            }
        }
        let loss = if ends { 0 } else { loss };
        let before = pair.client.counts().sent;
        let bytes = pair.client.pack(&mut place).expect("pack").expect("a datagram");
        let sent = pair.client.counts().sent;
        up.send(dice, bytes, if sent > before { sent } else { 0 }, loss);
        let left = if ends { 0 } else { dice.draw(MOST_WAITING as u32) };
        pair.come_up(dice, &mut up, left as usize);
        let before = pair.server.counts().sent;
        let bytes = pair.server.pack(&mut place, |_, _| 0).expect("pack").expect("a datagram");
        let sent = pair.server.counts().sent;
        down.send(dice, bytes, if sent > before { sent } else { 0 }, loss);
        let left = if ends { 0 } else { dice.draw(MOST_WAITING as u32) };
        pair.come_down(dice, &mut down, left as usize);
        pair.look_at_pending();
        turn += 1;
    }
    println!("version {version}, {width} bits, {loss} of 100 lost: {} moves, {:016x}", pair.taken, dice.digest);
}

fn main() {
    let words: Vec<u32> = std::env::args().skip(1).map(|word| word.parse().expect("a number")).collect();
    let turns = words.get(1).copied().unwrap_or(300);
    let state = 88_172_645_463_325_252 + u64::from(words.first().copied().unwrap_or(1));
    let mut dice = Dice { state, digest: 14_695_981_039_346_656_037 };
    (0..1_000).for_each(|_| put_and_take(&mut dice));
    steps(&mut dice);
    println!("helpers: {:016x}", dice.digest);
    for version in 1..3 {
        for given in [0, 10] {
            connection(&mut dice, version, 10, given, turns);
        }
    }
    for width in 1..=MAX_MOVE_BITS as u32 {
        connection(&mut dice, 3, width, width, turns);
    }
}
