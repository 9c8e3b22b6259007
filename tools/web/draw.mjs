// Draws the worlds: the server's, and what each client shows.
import { EVENTS, SIGHT } from "./game.mjs";
import { FADES } from "./network.mjs";
import { HIGH, MINE, WIDE } from "./world.mjs";

const NAMES = ["bg", "panel", "field", "grid", "ink", "dim", "line", "fog", "a", "b", "bot", "mine", "good", "wait", "bad", "event", "up"];
const FONT = "system-ui, 'Segoe UI', Roboto, 'DejaVu Sans', sans-serif";
const TURN = 2 * Math.PI;

/** The colours of the style sheet, as the theme has them now. */
export const colours = { of: [] };
export function readColours() {
    const style = getComputedStyle(document.documentElement);
    for (const name of NAMES) colours[name] = style.getPropertyValue(`--${name}`).trim();
    colours.of = [colours.a, colours.b, colours.bot, colours.mine];
}

/** A canvas as large as its place: its context, in the world's units where it is a view of the world, else in points. */
export function paper(canvas, isWorld) {
    const { clientWidth: width, clientHeight: height } = canvas, dots = Math.min(2, devicePixelRatio || 1);
    const [wide, high] = [Math.round(width * dots), Math.round(height * dots)];
    if (canvas.width !== wide || canvas.height !== high) [canvas.width, canvas.height] = [wide, high];
    const pen = canvas.getContext("2d"), scale = isWorld ? wide / WIDE : dots;
    pen.setTransform(scale, 0, 0, scale, 0, 0);
    pen.clearRect(0, 0, isWorld ? WIDE : width, isWorld ? HIGH : height);
    pen.lineCap = "round";
    return [pen, width, height];
}

export const fontOf = (size) => `600 ${size}px ${FONT}`;

function circle(pen, x, y, radius) {
    pen.beginPath();
    pen.arc(x, y, radius, 0, TURN);
}

function ground(pen) {
    pen.fillStyle = colours.field;
    pen.fillRect(0, 0, WIDE, HIGH);
    pen.strokeStyle = colours.grid;
    pen.lineWidth = 1.5;
    pen.beginPath();
    for (let x = 64; x < WIDE; x += 64) { pen.moveTo(x, 0); pen.lineTo(x, HIGH); }
    for (let y = 64; y < HIGH; y += 64) { pen.moveTo(0, y); pen.lineTo(WIDE, y); }
    pen.stroke();
}

function drawMine(pen, isOutline) {
    pen.lineWidth = 3;
    if (!isOutline) {
        pen.beginPath();
        for (let k = 0; k < 4; k++) {
            const way = k * Math.PI / 4;
            pen.moveTo(-Math.cos(way) * 13, -Math.sin(way) * 13);
            pen.lineTo(Math.cos(way) * 13, Math.sin(way) * 13);
        }
        pen.stroke();
    }
    circle(pen, 0, 0, 8);
    isOutline ? pen.stroke() : pen.fill();
}

function drawArmour(pen, armour) {
    pen.fillStyle = colours.line;
    pen.fillRect(-20, -33, 40, 5);
    pen.fillStyle = armour > 40 ? colours.good : colours.bad;
    pen.fillRect(-20, -33, 0.4 * armour, 5);
}

function drawTank(pen, colour) {
    const alpha = pen.globalAlpha, box = (...part) => { pen.beginPath(); pen.roundRect(...part); pen.fill(); };
    const barrel = (from, to, wide, tone) => { pen.lineWidth = wide; pen.strokeStyle = tone; pen.beginPath(); pen.moveTo(from, 0); pen.lineTo(to, 0); pen.stroke(); };
    pen.fillStyle = colour;
    pen.globalAlpha = 0.6 * alpha;
    box(-21, -17, 42, 9, 3);
    box(-21, 8, 42, 9, 3);
    pen.globalAlpha = alpha;
    box(-19, -12, 38, 24, 5);
    pen.fillStyle = colours.field;
    circle(pen, -2, 0, 7.5);
    pen.fill();
    barrel(2, 26, 5, colours.field);
    barrel(6, 28, 3.4, colour);
}

function drawThing(pen, block, [x, y, heading = 0, armour = 100], { isOutline = false, size = 1 } = {}) {
    pen.save();
    pen.translate(x, y);
    pen.scale(size, size);
    pen.strokeStyle = pen.fillStyle = colours.of[block];
    if (block === colours.of.length - 1) drawMine(pen, isOutline);
    else {
        if (!isOutline && armour < 100) drawArmour(pen, armour);
        pen.rotate(heading / 128 * Math.PI);
        if (isOutline) {
            pen.lineWidth = 2.5;
            pen.setLineDash([5, 4]);
            pen.strokeRect(-20, -15, 40, 30);
        } else drawTank(pen, colours.of[block]);
    }
    pen.restore();
}

/** Which fields of an object are settled at a client: filled squares; the others are hollow. */
function drawSettled(pen, thing, c, row) {
    const wide = thing.values.length * 10, [x, y] = thing.values, top = y + 25 + 12 * row;
    pen.fillStyle = colours.of[c];
    pen.fillRect(x - wide / 2 - 6, top, 3, 8);
    thing.settled[c].forEach((is, f) => {
        const left = x - wide / 2 + f * 10;
        pen.fillStyle = colours.good;
        pen.strokeStyle = colours.wait;
        pen.lineWidth = 2;
        is ? pen.fillRect(left, top, 8, 8) : pen.strokeRect(left + 1, top + 1, 6, 6);
    });
}

export function drawServer(canvas, game) {
    const [pen] = paper(canvas, true);
    ground(pen);
    for (const { c, tank } of game.seats) {
        pen.strokeStyle = pen.fillStyle = colours.of[c];
        circle(pen, tank.values[0], tank.values[1], SIGHT);
        pen.globalAlpha = 0.055;
        pen.fill();
        pen.globalAlpha = 0.7;
        pen.lineWidth = 2;
        pen.setLineDash([2, 8]);
        pen.stroke();
        pen.setLineDash([]);
        pen.globalAlpha = 1;
    }
    for (const thing of game.things) drawThing(pen, thing.block, thing.values);
    for (const thing of game.things) {
        let row = 0;
        for (const { c } of game.seats) if (thing.n[c] !== null && thing.settled[c]) drawSettled(pen, thing, c, row++);
    }
}

function drawShot(pen, { x, y, heading }, age) {
    const way = heading / 128 * Math.PI, from = 26 + age * 150, to = from + 40 * (1 - age);
    pen.strokeStyle = colours.event;
    pen.lineWidth = 4;
    pen.beginPath();
    pen.moveTo(x + Math.cos(way) * from, y + Math.sin(way) * from);
    pen.lineTo(x + Math.cos(way) * to, y + Math.sin(way) * to);
    pen.stroke();
}

function drawBlast(pen, { what, x, y }, age) {
    const size = (what === EVENTS.LOST ? 80 : 46) * Math.sqrt(age);
    pen.strokeStyle = pen.fillStyle = what === EVENTS.LOST ? colours.bad : colours.wait;
    pen.lineWidth = 8 * (1 - age);
    circle(pen, x, y, size);
    pen.stroke();
    for (let k = 0; k < 8; k++) {
        const way = k * Math.PI / 4 + 0.3;
        circle(pen, x + Math.cos(way) * size * 1.25, y + Math.sin(way) * size * 1.25, 5 * (1 - age));
        pen.fill();
    }
}

/** What is out of sight: of it nothing was sent. */
function drawFog(pen, [x, y]) {
    pen.fillStyle = colours.fog;
    pen.beginPath();
    pen.rect(0, 0, WIDE, HIGH);
    pen.moveTo(x + SIGHT, y);
    pen.arc(x, y, SIGHT, 0, TURN);
    pen.fill("evenodd");
}

function drawCopy(pen, game, seat, slot, copy) {
    const age = Math.min(1, (game.now - (seat.fresh.get(slot) ?? 0)) / 250), held = seat.slots.get(slot), isShown = held && seat.periods.has(held.n);
    pen.globalAlpha = isShown ? age : 0.35;
    drawThing(pen, copy.block, copy.values, { size: 0.6 + 0.4 * age });
    pen.globalAlpha = 1;
    if (!isShown) return;
    const isSettled = held.thing.settled[seat.c]?.every(Boolean);
    pen.strokeStyle = isSettled ? colours.good : colours.wait;
    pen.lineWidth = isSettled ? 2.5 : 3;
    pen.setLineDash(isSettled ? [] : [8, 7]);
    circle(pen, copy.values[0], copy.values[1], copy.kind === MINE ? 19 : 31);
    pen.stroke();
    pen.setLineDash([]);
}

function drawHeard(pen, game, seat) {
    pen.font = fontOf(19);
    pen.textBaseline = "top";
    pen.fillStyle = colours.event;
    seat.heard.forEach(({ number, what, at }, k) => {
        const age = (game.now - at) / 6_000;
        if (age > 1) return;
        pen.globalAlpha = 1 - age;
        pen.fillText(`event ${number}: ${what === EVENTS.LOST ? "a tank is lost" : "a mine went off"}`, 16, 14 + 25 * k);
    });
    pen.globalAlpha = 1;
}

export function drawClient(canvas, game, seat, withTruth) {
    const [pen] = paper(canvas, true), own = seat.copies.get(seat.control);
    ground(pen);
    if (own) drawFog(pen, own.values);
    if (withTruth) {
        pen.globalAlpha = 0.8;
        for (const { thing } of seat.periods.values()) drawThing(pen, thing.block, thing.values, { isOutline: true });
        pen.globalAlpha = 1;
    }
    for (const [slot, copy] of seat.copies) drawCopy(pen, game, seat, slot, copy);
    for (const flash of seat.flashes) {
        const age = (game.now - flash.at) / FADES;
        pen.globalAlpha = Math.max(0, 1 - age);
        flash.what === EVENTS.SHOT ? drawShot(pen, flash, age) : drawBlast(pen, flash, age);
        pen.globalAlpha = 1;
    }
    drawHeard(pen, game, seat);
}
