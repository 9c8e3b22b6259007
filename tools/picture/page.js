"use strict";

const at = (id) => document.getElementById(id);
const data = JSON.parse(at("data").textContent);
const rows = [...document.querySelectorAll(".row")];
const datagrams = [...document.querySelectorAll(".datagram")];

// ---- datagrams taken apart: what each says in its title is shown beside the chart

const words = new Map();
for (const datagram of datagrams) {
  const title = datagram.querySelector("title");
  words.set(datagram, title.textContent);
  datagram.setAttribute("aria-label", title.textContent.split("\n", 1)[0]);
  title.remove();
}
const madeAt = new Map(datagrams.map((datagram) => [datagram.dataset.line, datagram]));
let chosen = null;

// The datagram that is pointed at: by its arrow, or by the row of the line that made it.
function pointedAt(target) {
  const row = target.closest(".row");
  return target.closest(".datagram") || (row && madeAt.get(row.dataset.line));
}

function tell(datagram) {
  if (datagram) at("parts").textContent = words.get(datagram);
}

function choose(datagram) {
  if (chosen) chosen.classList.remove("chosen");
  chosen = datagram;
  chosen.classList.add("chosen");
  tell(chosen);
  goTo(Math.max(data.first, Number(chosen.dataset.line)));
}

function chooseNext(step) {
  if (datagrams.length === 0) return;
  const place = chosen ? datagrams.indexOf(chosen) + step : 0;
  choose(datagrams[Math.min(Math.max(place, 0), datagrams.length - 1)]);
  chosen.focus({ preventScroll: true });
}

at("chart").addEventListener("pointerover", (event) => tell(pointedAt(event.target) || chosen));
at("chart").addEventListener("click", (event) => {
  const datagram = pointedAt(event.target), row = event.target.closest(".row");
  if (datagram) choose(datagram);
  else if (row) goTo(Number(row.dataset.line));
});
at("previous").addEventListener("click", () => chooseNext(-1));
at("next").addEventListener("click", () => chooseNext(1));
document.addEventListener("keydown", (event) => {
  if (event.ctrlKey || event.altKey || event.metaKey || event.target.tagName === "SELECT") return;
  if (event.key === "n") chooseNext(1);
  else if (event.key === "p") chooseNext(-1);
});

// ---- the map

const SHAPES = {
  player: '<circle r="1.8"/>',
  disc: '<circle r="0.7"/>',
  mine: '<path d="M0 -1.2L1.2 0L0 1.2L-1.2 0z"/>',
  drone: '<path d="M0 -1.4L1.3 1L-1.3 1z"/>',
  flag: '<path d="M-0.9 1.8V-1.8L1.7 -0.8L-0.4 0.2V1.8z"/>',
};

// What has changed up to a line, by number: each object or copy as its words.
function upTo(changes, line) {
  const now = new Map();
  for (const [when, fresh, gone] of changes) {
    if (when > line) break;
    gone.forEach((number) => now.delete(number));
    fresh.forEach((piece) => now.set(parseInt(piece), piece.split(" ")));
  }
  return new Map([...now].sort(([one], [other]) => one - other));
}

function lastUpTo(snapshots, line, before) {
  return snapshots.filter(([when]) => when <= line).reduce((_, [, snapshot]) => snapshot, before);
}

function stateAt(line, client) {
  const told = data.clients[client];
  const shown = new Set(lastUpTo(told.shown, line, [])), slots = lastUpTo(told.slots, line, {});
  const copies = new Map();
  for (const [slot, [, kind, , ...values]] of upTo(told.copies, line)) copies.set(slots[slot], { slot, kind, values });
  return { world: upTo(data.worlds, line), shown, copies, player: told.player };
}

const isSettled = (copy) => copy.values.every((value) => value.endsWith("s"));
const isPlaced = (kind) => kind in SHAPES;
const teamOf = (number) => (number in data.teams ? `team${data.teams[number]}` : "");

function drawThing(number, kind, x, y, look, unit) {
  const isCopy = look.includes("copy"), size = isCopy ? 1.5 * unit : unit;
  const name = kind === "player" && !isCopy ? `<text y="0.9">${number}</text>` : "";
  const drawn = `<title>object ${number}, ${kind}</title>${SHAPES[kind]}${name}`;
  return `<g class="thing ${look}" transform="translate(${parseInt(x)} ${parseInt(y)}) scale(${size})">${drawn}</g>`;
}

function drawField({ world, shown, copies, player }) {
  const unit = data.box[2] / 70;
  let drawn = "", links = "";
  if (world.has(player)) {
    const [, , x, y] = world.get(player), side = 2 * data.radius;
    drawn += `<rect class="scope" x="${x - data.radius}" y="${y - data.radius}" width="${side}" height="${side}"/>`;
  }
  for (const [number, [, kind, x, y]] of world) {
    if (isPlaced(kind)) drawn += drawThing(number, kind, x, y, teamOf(number) + (shown.has(number) ? "" : " unseen"), unit);
  }
  for (const [number, copy] of copies) {
    const [x, y] = copy.values, there = world.get(number);
    if (!isPlaced(copy.kind)) continue;
    if (there) links += `<path class="behind" d="M${there[2]} ${there[3]}L${parseInt(x)} ${parseInt(y)}"/>`;
    drawn += drawThing(number, copy.kind, x, y, isSettled(copy) ? "copy" : "copy old", unit);
  }
  at("field").setAttribute("viewBox", data.box.concat(data.box[2]).join(" "));
  at("field").innerHTML = links + drawn;
}

function kindRows(kind, { world, shown, copies }) {
  const numbers = new Set([...world].filter(([, piece]) => piece[1] === kind).map(([number]) => number));
  for (const [number, copy] of copies) if (copy.kind === kind) numbers.add(number);
  if (numbers.size === 0) return "";
  let drawn = `<tr><th>${kind}</th>${data.fields[kind].map((name) => `<th>${name}</th>`).join("")}</tr>`;
  for (const number of numbers) {
    const there = world.get(number), copy = copies.get(number), look = shown.has(number) ? "world" : "world unseen";
    const values = there ? there.slice(2).map((value) => `<td>${value}</td>`).join("") : "<td>not alive</td>";
    drawn += `<tr class="${look}"><td>object ${number}</td>${values}</tr>`;
    if (!copy) continue;
    const cells = copy.values.map((value) => `<td class="${value.endsWith("s") ? "settled" : "old"}">${parseInt(value)}</td>`);
    drawn += `<tr class="has"><td>slot ${copy.slot}</td>${cells.join("")}</tr>`;
  }
  return drawn;
}

function drawMap() {
  const state = stateAt(Number(at("line").value), Number(at("client").value));
  drawField(state);
  const drawn = Object.keys(data.fields).map((kind) => kindRows(kind, state)).join("");
  at("objects").innerHTML = drawn ? `<table>${drawn}</table>` : "Nothing is in this world.";
}

// ---- the line that is looked at

let now = null;

function look() {
  const line = Number(at("line").value);
  if (now) now.classList.remove("now");
  now = rows[line - data.first];
  if (now) {
    now.classList.add("now");
    at("said").textContent = now.querySelector("title").textContent.replace("\n", " ");
    const area = at("chart"), top = (line - data.first) * (area.querySelector(".body").clientHeight / (rows.length + 1));
    if (top < area.scrollTop || area.scrollTop + area.clientHeight - 100 < top) area.scrollTop = top - area.clientHeight / 3;
  }
  drawMap();
}

function goTo(line) {
  at("line").value = line;
  look();
}

at("line").addEventListener("input", look);
at("client").addEventListener("change", drawMap);
goTo(data.first);
