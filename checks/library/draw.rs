//! What a client draws, through the safe Rust of `include/tribes.rs`: draw LOSS SEED [TURNS]. It is the twin of `draw.c`, which says what is
//! tried: it draws the same, and prints the same line.

#[path = "../../include/tribes.rs"]
mod tribes;

use tribes::{Client, Clock, Config, Error, Field, Kind, MOMENTS, Object, Offset, Pace, Server, Shape, Timeline, Way};

const FIELDS: usize = 4;
const X: usize = 0;
const HEADING: usize = 1;
const LAMP: usize = 2;
const NAME: usize = 3;
const THINGS: usize = 6;
const DEPTH: usize = 8;
const TURN: u64 = 50;
const FRAME: u64 = 10;
const EDGE: i64 = 60_000;
const MOST: usize = 4_096;
const HELD: usize = 512;

struct Dice(u32);

impl Dice {
    fn draw(&mut self, below: u32) -> u32 {
        self.0 = self.0.wrapping_mul(1_664_525).wrapping_add(1_013_904_223);
        (self.0 >> 8) % below
    }
}

/// What a move makes of the own thing's place.
fn step(x: i64, bits: u64) -> i64 {
    (x + bits as i64 - 128).clamp(0, EDGE)
}

#[derive(Clone, Copy, Default)]
struct Thing {
    value: [i64; FIELDS],
    speed: i64,
    spin: i64,
    shown: bool,
    n: u32,
}

/// One way of the network.
#[derive(Default)]
struct Wire(Vec<(u64, Vec<u8>)>);

impl Wire {
    fn put(&mut self, dice: &mut Dice, loss: u32, bytes: &[u8], now: u64) {
        if dice.draw(100) < loss {
            return;
        }
        for _ in 0..if dice.draw(20) != 0 { 1 } else { 2 } {
            if self.0.len() < HELD {
                self.0.push((now + u64::from(dice.draw(80)), bytes.to_vec()));
            }
        }
    }

    fn get(&mut self, now: u64) -> Option<Vec<u8>> {
        let k = self.0.iter().position(|(due, _)| *due <= now)?;
        Some(self.0.remove(k).1)
    }
}

/// What the server had by a packet of one thing, and what of it the packet brought.
#[derive(Clone, Copy, Default)]
struct Brought {
    bits: u32,
    period: u32,
    had: [i64; FIELDS],
}

struct Game {
    dice: Dice,
    server: Server,
    things: [Thing; THINGS],
    by_packet: Vec<[Brought; THINGS]>,
    thing_of: Vec<usize>,
}

impl Game {
    fn show(&mut self, k: usize) -> Result<(), Error> {
        let n = self.server.show(&Object { kind: 0, block: 0, level: 0, control: (k == 0) as u32 })?;
        self.things[k].n = n;
        self.things[k].value[NAME] = i64::from(n);
        self.things[k].shown = true;
        self.thing_of[n as usize] = k;
        Ok(())
    }

    fn changed(&mut self, k: usize, bits: u32) -> Result<(), Error> {
        if self.things[k].shown { self.server.changed(self.things[k].n, bits) } else { Ok(()) }
    }

    fn move_things(&mut self, turn: u32) -> Result<(), Error> {
        for k in 1..THINGS {
            let t = &mut self.things[k];
            if turn % 10 == 0 {
                t.speed = if self.dice.draw(4) != 0 { i64::from(self.dice.draw(601)) - 300 } else { 0 };
                t.spin = if self.dice.draw(4) != 0 { i64::from(self.dice.draw(51)) - 25 } else { 0 };
                t.value[LAMP] = i64::from(self.dice.draw(8));
            }
            if (0..=EDGE).contains(&(t.value[X] + t.speed)) {
                t.value[X] += t.speed;
            }
            t.value[HEADING] = (t.value[HEADING] + 360 + t.spin) % 360;
            let bits = (t.speed != 0) as u32 | ((t.spin != 0) as u32) << 1 | ((turn % 10 == 0) as u32) << 2;
            self.changed(k, bits)?;
        }
        let k = 1 + turn as usize / 100 % (THINGS - 1);
        if turn % 100 == 50 {
            self.server.hide(self.things[k].n)?;
            self.things[k].shown = false;
        }
        if turn % 100 == 60 {
            self.show(k)?;
        }
        if turn % 80 == 40 {
            self.things[0].value[X] = step(self.things[0].value[X], 128 + 127);
            self.changed(0, 1)?;
        }
        Ok(())
    }

    fn serve(&mut self) -> Result<Option<Vec<u8>>, Error> {
        let (mut bytes, mut asked) = ([0; 600], Vec::new());
        let (things, thing_of) = (&self.things, &self.thing_of);
        let sent_before = self.server.counts().sent;
        let made = self.server.pack(&mut bytes, |n, field| {
            let value = things[thing_of[n as usize]].value[field as usize];
            asked.push((n, field as usize, value));
            value
        })?;
        let made = made.map(<[u8]>::to_vec);
        let sent = self.server.counts().sent;
        for (n, field, value) in asked.into_iter().filter(|_| sent > sent_before) {
            let row = &mut self.by_packet[sent as usize][self.thing_of[n as usize]];
            row.bits |= 1 << field;
            row.period = n;
            row.had[field] = value;
        }
        Ok(made)
    }

    fn hear(&mut self, bytes: &[u8]) -> Result<(), Error> {
        if self.server.arrive(bytes, 32).is_err() {
            return Ok(());
        }
        let moves = self.server.moves();
        for &bits in &moves {
            self.things[0].value[X] = step(self.things[0].value[X], bits);
        }
        if moves.is_empty() { Ok(()) } else { self.changed(0, 1) }
    }
}

struct Seen {
    end: Client,
    timeline: Timeline,
    clock: Clock,
    offset: Offset,
    own: i64,
    known: bool,
    newest: u32,
    own_slot: u32,
    took: Vec<bool>,
    before: u64,
    drawn: i64,
    between: i64,
    wrong: i64,
    digest: u64,
}

impl Seen {
    fn note(&mut self, value: u64) {
        self.digest = (self.digest ^ value).wrapping_mul(1_099_511_628_211);
    }

    /// The own thing: its copy, and on it the moves that the server is not known to have.
    fn predicted(&mut self) -> Option<i64> {
        self.own_slot = self.end.control()?;
        let copy = self.end.copy(self.own_slot)?;
        Some(self.end.pending().into_iter().fold(copy.values[X], step))
    }

    fn arrives(&mut self, bytes: &[u8], now: u64) -> Result<(), Error> {
        if self.end.arrive(bytes).is_err() {
            return Ok(());
        }
        let taken = self.end.counts().taken;
        if taken == self.newest {
            return Ok(());
        }
        self.newest = taken;
        self.clock.came(taken, now)?;
        self.timeline.take(&mut self.end)?;
        self.took[taken as usize] = true;
        let Some(own) = self.predicted() else { return Ok(()) };
        if self.known {
            self.offset.corrected(self.own as i32, own as i32)?;
        }
        (self.own, self.known) = (own, true);
        Ok(())
    }

    fn sample(&mut self, bits: u64) -> Result<(), Error> {
        if self.end.sample(bits).is_err() {
            return Ok(());
        }
        self.own = step(self.own, bits);
        self.offset.faded()
    }

    fn is_right(&mut self, game: &Game, k: usize, n: u32, field: usize, at: u64, value: i64) -> bool {
        let (mut later, mut kept, mut found) = (None, 0, None);
        for packet in (1..=self.newest as usize).rev() {
            let row = &game.by_packet[packet][k];
            if !self.took[packet] || row.bits >> field & 1 == 0 || row.period != n {
                continue;
            }
            if packet as u64 * MOMENTS <= at {
                found = Some(row.had[field]);
                break;
            }
            later = Some(row.had[field]);
            kept += 1;
            if kept == DEPTH {
                return later == Some(value);
            }
        }
        let Some(a) = found else { return later == Some(value) };
        let b = later.unwrap_or(a);
        self.between += (value != a && value != b) as i64;
        match field {
            X => a.min(b) <= value && value <= a.max(b),
            HEADING => {
                let up = (b - a + 360) % 360;
                if 2 * up <= 360 { (value - a + 360) % 360 <= up } else { (a - value + 360) % 360 <= 360 - up }
            }
            _ => value == a,
        }
    }

    fn picture(&mut self, game: &Game, now: u64, last: bool) -> Result<(), Error> {
        let at = self.clock.moment(now)?;
        self.wrong += (at < self.before || (self.newest > 3 && at > (u64::from(self.newest) + 2) * MOMENTS)) as i64;
        self.before = at;
        let mut seen = 0;
        for slot in 0..256 {
            if self.timeline.kind(slot, at)?.is_none() || slot == self.own_slot {
                continue;
            }
            let mut value = [0; FIELDS];
            for (f, it) in value.iter_mut().enumerate() {
                *it = self.timeline.value(slot, f as u32, at)?.ok_or(Error::default())?;
            }
            let n = value[NAME] as u32;
            let k = game.thing_of[n as usize];
            for (f, &it) in value.iter().enumerate() {
                self.note(it as u64);
                let right = self.is_right(game, k, n, f, at, it);
                self.wrong += !right as i64 + (last && it != game.things[k].value[f]) as i64;
                self.drawn += 1;
            }
            seen += 1;
        }
        let left = self.offset.value()?;
        self.note((self.own + left) as u64);
        if last {
            let shown = game.things[1..].iter().filter(|thing| thing.shown).count();
            self.wrong += (seen != shown || left != 0 || self.own != game.things[0].value[X]) as i64;
        }
        Ok(())
    }
}

fn main() -> Result<(), Error> {
    let mut words = std::env::args().skip(1).map(|word| word.parse::<u32>().expect("a number"));
    let (loss, seed, turns) = (words.next().unwrap_or(30), words.next().unwrap_or(1), words.next().unwrap_or(1_200));
    let config = Config { client: 0, life: 100_000, size: 600, version: 3, move_bits: 8 };
    let field = |hi, bits| Field { lo: 0, hi, bits };
    let fields = [field(65_535, 16), field(359, 9), field(7, 3), field(4_095, 12)];
    let kinds = [Kind { fields: FIELDS as u32, weight: 8 }];
    let ways = [Way::LINEAR, Way::turning(0, 359), Way::STEPPED, Way::STEPPED];
    let mut game = Game {
        dice: Dice(seed),
        server: Server::new(&config, &kinds, &fields, &[b"thing"])?,
        things: [Thing::default(); THINGS],
        by_packet: vec![[Brought::default(); THINGS]; MOST],
        thing_of: vec![0; MOST],
    };
    let mut seen = Seen {
        end: Client::new(&config, &kinds, &fields)?,
        timeline: Timeline::new(Shape { slots: 256, fields: FIELDS as u32, depth: 0 }, &ways)?,
        clock: Clock::new(Pace { period: TURN as u32, delay: 3, ahead: 2 }, 0)?,
        offset: Offset::new(1_000),
        own: 0,
        known: false,
        newest: 0,
        own_slot: 0,
        took: vec![false; MOST],
        before: 0,
        drawn: 0,
        between: 0,
        wrong: 0,
        digest: 14_695_981_039_346_656_037,
    };
    for k in 0..THINGS {
        game.things[k].value[X] = 5_000 * (k as i64 + 1);
        game.show(k)?;
    }
    let (mut down, mut up) = (Wire::default(), Wire::default());
    let frames = u64::from(turns) * TURN / FRAME;
    for frame in 0..frames {
        let (now, turn) = (frame * FRAME, (frame * FRAME / TURN) as u32);
        while let Some(bytes) = up.get(now) {
            game.hear(&bytes)?;
        }
        while let Some(bytes) = down.get(now) {
            seen.arrives(&bytes, now)?;
        }
        if frame % (TURN / FRAME) == 0 {
            if turn < turns * 3 / 4 {
                game.move_things(turn)?;
                if seen.known {
                    seen.sample((128 + (i64::from(turn / 30 % 3) - 1) * 100) as u64)?;
                }
            } else {
                seen.offset.faded()?;
            }
            if let Some(bytes) = game.serve()? {
                down.put(&mut game.dice, loss, &bytes, now);
            }
            let mut place = [0; 600];
            if let Some(bytes) = seen.end.pack(&mut place)? {
                up.put(&mut game.dice, loss, bytes, now);
            }
        }
        seen.picture(&game, now, frame + 1 == frames)?;
    }
    println!("draw {loss}: {} values, {} between two, {} wrong, {:016x}", seen.drawn, seen.between, seen.wrong, seen.digest);
    std::process::exit((seen.wrong != 0 || seen.between == 0) as i32)
}
