// The page round the game: sliders, keys, words and the loop. #loss=40&latency=300&theme=dark&ahead=9000&seed=3&bots=14&pause=1 sets it up.
import { load } from "../../include/tribes.mjs";
import { drawClient, drawServer, readColours } from "./draw.mjs";
import { Game } from "./game.mjs";
import { moduleBytes, made } from "./module.mjs";
import { PROMISES } from "./promises.mjs";
import { FIELD_NAMES, WIDE } from "./world.mjs";
import { Wire } from "./wire.mjs";

const find = (id) => document.getElementById(id);
const asked = new URLSearchParams(location.hash.slice(1));
const number = (it) => Math.round(it).toLocaleString("en-US");
const NAMES = ["A", "B"];

function notice(text) {
    find("notice").hidden = false;
    find("notice").textContent = text;
}

// ---- the theme: the system's, until somebody chooses

const isDark = matchMedia("(prefers-color-scheme: dark)");
function setTheme(theme) {
    document.documentElement.dataset.theme = theme;
    readColours();
}
const ofSystem = () => setTheme(isDark.matches ? "dark" : "light");
asked.has("theme") ? setTheme(asked.get("theme")) : ofSystem();
isDark.addEventListener("change", ofSystem);
find("theme").onclick = () => setTheme(document.documentElement.dataset.theme === "dark" ? "light" : "dark");

// ---- sliders

const set = { latency: 150, jitter: 30, loss: 20, twice: 5, turns: 20, speed: 50 };
const PRESETS = {
    "at home": { latency: 10, jitter: 2, loss: 0, twice: 0 },
    "usual": { latency: 60, jitter: 15, loss: 2, twice: 1 },
    "bad Wi-Fi": { latency: 150, jitter: 30, loss: 20, twice: 5 },
    "far and rough": { latency: 320, jitter: 200, loss: 40, twice: 15 },
    "hardly": { latency: 250, jitter: 120, loss: 75, twice: 5 },
};
const WORDS = {
    latency: (it) => `${it} ms`, jitter: (it) => `± ${it} ms`, loss: (it) => `${it} %`, twice: (it) => `${it} %`,
    turns: (it) => `${it}`, speed: (it) => (it === 100 ? "real" : `${(it / 100).toFixed(2)} ×`),
};
const sliders = Object.fromEntries([...find("controls").querySelectorAll("input")].map((it) => [it.name, it]));
function setTo(values) {
    for (const [name, value] of Object.entries(values)) {
        const slider = sliders[name];
        if (!slider) continue;
        slider.value = value;
        set[name] = Number(slider.value);
        const words = WORDS[name](set[name]);
        slider.parentElement.querySelector("output").textContent = words;
        slider.setAttribute("aria-valuetext", words);
    }
}
for (const it of Object.values(sliders)) it.oninput = () => setTo({ [it.name]: it.value });
for (const [name, values] of Object.entries(PRESETS)) {
    const button = document.createElement("button");
    button.textContent = name;
    button.onclick = () => setTo(values);
    find("presets").append(button);
}
setTo({ ...set, ...Object.fromEntries(asked) });

// ---- who drives: by keys, or to where a client's picture was touched, or else by himself

const KEYS = [["KeyA", "KeyD", "KeyW", "KeyS", "Space"], ["ArrowLeft", "ArrowRight", "ArrowUp", "ArrowDown", "Enter"]];
const HELD_FOR = 5_000, STEP = 7;
const down = new Set(), touched = [-Infinity, -Infinity], targets = [null, null];
addEventListener("keydown", (event) => {
    if (event.ctrlKey || event.metaKey || event.altKey) return;
    if (event.code === "KeyP") return setPaused(!paused);
    if (event.code === "KeyN") return oneTurn();
    const c = KEYS.findIndex((keys) => keys.includes(event.code)), { tagName } = event.target;
    if (c < 0 || tagName === "BUTTON" || tagName === "INPUT") return;
    event.preventDefault();
    down.add(event.code);
    [touched[c], targets[c]] = [performance.now(), null];
});
addEventListener("keyup", (event) => down.delete(event.code));
addEventListener("blur", () => down.clear());
for (const c of [0, 1]) {
    find(`client-${c}`).onclick = ({ target, offsetX, offsetY }) => {
        const scale = WIDE / target.clientWidth;
        targets[c] = { x: offsetX * scale, y: offsetY * scale, fire: true, until: performance.now() + HELD_FOR };
    };
}

function towards(c, [x, y]) {
    const target = targets[c], dx = target.x - x, dy = target.y - y, away = Math.hypot(dx, dy), { fire } = target;
    target.fire = false;
    if (away < STEP || performance.now() > target.until) targets[c] = null;
    const by = Math.min(STEP, away) / (away || 1);
    return { dx: Math.round(dx * by), dy: Math.round(dy * by), fire };
}

/** The step of who drives this client's tank, which it shows at this place; or nothing, where he drives by himself. */
function stepOf(c, at) {
    const [left, right, up, below, fire] = KEYS[c].map((it) => down.has(it));
    if (left || right || up || below || fire) touched[c] = performance.now();
    if (performance.now() - touched[c] < HELD_FOR) return { dx: STEP * (right - left), dy: STEP * (below - up), fire };
    return targets[c] ? towards(c, at) : null;
}

// ---- words and numbers

const nameOf = (thing) => ["A", "B", `bot ${thing.id - 1}`, `mine ${thing.id - 1 - game.bots}`][thing.block];

function chipsOf(row) {
    const things = Map.groupBy ? Map.groupBy(row.items, (it) => it.thing) : row.items.reduce((all, it) => all.set(it.thing, [...(all.get(it.thing) ?? []), it]), new Map());
    return [...things].map(([thing, items]) => {
        const isOpen = items.some((it) => it.state === null), names = FIELD_NAMES[thing.kind];
        const state = isOpen ? (row.known === null ? "" : "due") : items.every((it) => it.state === "gone") ? "gone" : "right";
        return `<span class="chip ${state}">${nameOf(thing)}${items.length === names.length ? "" : ` ${items.map((it) => names[it.f]).join(" ")}`}</span>`;
    }).join("");
}

function becameOf({ whole, known, at, items }) {
    if (whole === null) return known === null ? "lost; the server does not know yet" : "the server knows: due again";
    const by = Math.max(0, ...items.map((it) => it.by ?? 0));
    if (by === 0) return "not needed any more: out of sight";
    return known === null || known >= whole ? `never missed: newer values in ${by} came first` : `made good by packet ${by}, after ${number(whole - at)} ms`;
}

function tellLedger() {
    const rows = game.seats.flatMap(({ c, network }) => network.ledger.map((row) => ({ c, row }))).sort((a, b) => b.row.at - a.row.at).slice(0, 16);
    find("ledger").innerHTML = rows.map(({ c, row }) => {
        const who = `<span class="no"><b class="${"ab"[c]}">${NAMES[c]}</b>: packet ${row.number}</span>`;
        return `<li>${who}<span class="chips">${chipsOf(row)}</span><span class="says">${becameOf(row)}</span></li>`;
    }).join("") || "<li>Nothing is lost yet.</li>";
    const sum = (name) => game.seats.reduce((all, { network }) => all + network.count[name], 0), repaired = sum("repaired");
    find("ledger-says").textContent = repaired ? `${number(repaired)} made good, in ${number(sum("repairTime") / repaired)} ms on average` : "";
}

function tellPromises() {
    find("promises").innerHTML = PROMISES.map(([name, title, what, wrongs]) => {
        const { seen, wrong } = game.promises.counts[name];
        return `<div class="promise ${wrong ? "wrong" : ""}"><i>${number(wrong)}</i><b>${title} <span>${number(seen)} ${what}</span></b><div>${wrongs}</div></div>`;
    }).join("");
}

function tellNumbers() {
    find("server-says").textContent = `turn ${number(game.turn)}`;
    for (const { c, network: { count } } of game.seats) {
        const each = (bytes, packets) => (packets ? Math.round(bytes / packets) : 0);
        const sizes = `${each(count.downBytes, count.down)} bytes down, ${each(count.upBytes, count.up)} up`;
        find(`says-${c}`).textContent = `${sizes} · lost ${number(count.lost)} · twice ${number(count.twice)} · old ${number(count.old)}`;
    }
}

/** No change is lost: each field is right at the client, or on its way, or still to be sent. */
const PARTS = [["right", "right"], ["way", "on their way"], ["lost", "lost, and the server does not know"], ["due", "to be sent"]];
function tellParts({ c, parts }) {
    const bar = find(`parts-${c}`);
    if (!bar.firstChild) bar.innerHTML = PARTS.map(([name]) => `<i class="${name}"></i>`).join("");
    PARTS.forEach(([name], k) => (bar.children[k].style.flexGrow = parts[name]));
    const text = `fields: ${PARTS.filter(([name]) => parts[name]).map(([name, words]) => `${parts[name]} ${words}`).join(" · ")}`;
    if (bar.title !== text) bar.title = find(`parts-text-${c}`).textContent = text;
}

function tellCost(tribes) {
    const size = `${number(moduleBytes.length / 1024)} KB, with ${number(tribes.memoryBytes / 1024)} KB of memory for all four ends`;
    find("cost").textContent = `The library here: a WebAssembly module of ${size}. Made of what ${made.kit.split(" logic")[0]} said: ${made.verdict}.`;
    if (!made.isProved) notice("This page is made from a build before a proof: nothing that the library does here is proved.");
}

// ---- the loop

let game, paused = false, last, wire;
const timing = { frames: 0, spent: 0 };

function pass(by) {
    Object.assign(game.set, { latency: set.latency, jitter: set.jitter, loss: set.loss, twice: set.twice });
    game.pass(by, set.turns);
}

function show() {
    drawServer(find("server"), game);
    wire.draw(game);
    for (const seat of game.seats) {
        tellParts(seat);
        drawClient(find(`client-${seat.c}`), game, seat, find("truth").getAttribute("aria-pressed") === "true");
    }
}

function frame(time) {
    const by = Math.min(100, time - (last ?? time)) * set.speed / 100, from = performance.now();
    last = time;
    if (!paused && by > 0) pass(by);
    show();
    timing.frames++;
    timing.spent += performance.now() - from;
    requestAnimationFrame(frame);
}

function setPaused(to) {
    paused = to;
    find("pause").setAttribute("aria-pressed", String(paused));
    find("pause").textContent = paused ? "Go on" : "Pause";
}

function oneTurn() {
    setPaused(true);
    pass(1_000 / set.turns);
}

find("pause").onclick = () => setPaused(!paused);
find("step").onclick = oneTurn;
find("truth").onclick = ({ currentTarget: it }) => it.setAttribute("aria-pressed", String(it.getAttribute("aria-pressed") !== "true"));
for (const c of [0, 1]) {
    find(`cut-${c}`).onclick = ({ currentTarget: it }) => {
        const { network } = game.seats[c];
        network.setCut(!network.isCut);
        it.setAttribute("aria-pressed", String(network.isCut));
        it.textContent = network.isCut ? `Join ${NAMES[c]} again` : `Cut ${NAMES[c]} off`;
    };
}

async function begin() {
    const tribes = await load(moduleBytes), of = (name, otherwise) => Number(asked.get(name) ?? otherwise);
    game = new Game(tribes, { seed: of("seed", 7), bots: of("bots", 5) });
    for (const seat of game.seats) seat.keys = (at) => stepOf(seat.c, at);
    wire = new Wire(find("wire"));
    for (let left = of("ahead", 0); left > 0; left -= 40) pass(40);
    // Who wants less motion lets it go on himself.
    setPaused(asked.get("pause") === "1" || (!asked.has("pause") && matchMedia("(prefers-reduced-motion: reduce)").matches));
    globalThis.live = { game, tribes, wire, set: setTo, timing, made }; // (for the console)
    const tell = () => [tellLedger, tellPromises, tellNumbers].forEach((it) => it());
    tell();
    tellCost(tribes);
    setInterval(tell, 200);
    requestAnimationFrame(frame);
}

begin().catch((error) => {
    notice(`It can't run here: ${error.stack ?? error}`);
    throw error;
});
