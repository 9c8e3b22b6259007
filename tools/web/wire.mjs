// Draws the packets between the server, at the left, and the clients, at the right; and says which packet is meant by a click or by a key.
import { colours, fontOf, paper } from "./draw.mjs";
import { FADES } from "./network.mjs";

const LANES = { down: -18, up: 18 };
const REACH = 34;
const STRIPE = 3.2, MOST_STRIPES = 26;

export class Wire {
    constructor(canvas) {
        Object.assign(this, { canvas, flying: [], chosen: null });
        canvas.addEventListener("pointerdown", (event) => this.click(event));
        canvas.addEventListener("keydown", (event) => this.key(event));
        canvas.addEventListener("blur", () => (this.chosen = null));
    }

    /** A packet under the finger or the pointer is lost. */
    click({ clientX, clientY }) {
        const box = this.canvas.getBoundingClientRect(), [x, y] = [clientX - box.left, clientY - box.top];
        const near = this.flying.map((it) => ({ ...it, away: Math.hypot(it.x - x, it.y - y) })).sort((a, b) => a.away - b.away)[0];
        if (near?.away < REACH) near.packet.network.lose(near.packet);
    }

    /** By keys one goes from packet to packet, and loses the chosen one. */
    key(event) {
        const step = { ArrowRight: 1, ArrowDown: 1, ArrowLeft: -1, ArrowUp: -1 }[event.key], isLoss = ["Enter", "Delete", "Backspace", " "].includes(event.key);
        if (!step && !isLoss) return;
        event.preventDefault();
        event.stopPropagation();
        const at = this.flying.findIndex((it) => it.packet === this.chosen);
        if (step && this.flying.length) this.chosen = this.flying.at((at + step) % this.flying.length).packet;
        if (isLoss && at >= 0) this.chosen.network.lose(this.chosen);
    }

    /** Where a packet is on a client's curve, from the server on. The first points are left to the buttons. */
    point(c, way, along) {
        const { width } = this, top = 34, height = this.height - top, isLow = height < 300, ease = along * along * (3 - 2 * along);
        const from = height * 0.45, to = height * [isLow ? 0.2 : 0.25, isLow ? 0.8 : 0.77][c], apart = isLow ? 30 : 38;
        return [24 + (width - 48) * along, top + from + (to - from) * ease + (c === 0 ? -apart : apart) * (1 - ease) + LANES[way] * (isLow ? 0.7 : 1)];
    }

    draw(game) {
        [this.pen, this.width, this.height] = paper(this.canvas, false);
        this.flying = [];
        for (const { c, network } of game.seats) for (const way of ["down", "up"]) this.drawLane(c, way, network.isCut);
        for (const { c, network } of game.seats) for (const packet of network.packets) this.drawPacket(game, c, packet);
        this.flying.sort((a, b) => a.x - b.x);
        this.drawWords();
    }

    drawLane(c, way, isCut) {
        const { pen } = this;
        pen.strokeStyle = colours.of[c];
        pen.globalAlpha = 0.4;
        pen.lineWidth = 1.5;
        pen.setLineDash(isCut ? [2, 9] : []);
        pen.beginPath();
        for (let k = 0; k <= 40; k++) pen.lineTo(...this.point(c, way, k / 40));
        pen.stroke();
        pen.setLineDash([]);
        pen.globalAlpha = 1;
    }

    drawPacket(game, c, packet) {
        const { pen } = this, { way, bytes, carried, gone, goneAt, left, due } = packet, age = gone ? (game.now - goneAt) / FADES : 0;
        if (gone === "come" && age > 0.25) return;
        const at = gone === "lost" ? goneAt : Math.min(game.now, due), part = Math.max(0, Math.min(1, (at - left) / (due - left)));
        const [x, y] = this.point(c, way, way === "down" ? part : 1 - part), away = way === "down" ? -18 : 18;
        const stripes = Math.min(carried.length, MOST_STRIPES), wide = Math.max(10, stripes * STRIPE + 5, way === "up" ? 6 + bytes.length / 2 : 0);
        pen.save();
        pen.globalAlpha = Math.max(0, gone === "lost" ? 1 - age : gone === "old" ? 0.8 * (1 - age) : gone === "come" ? 1 - age * 4 : 1);
        pen.translate(x, y + (gone === "lost" ? age * age * 70 : gone === "old" ? age * away : 0));
        this.drawWord(packet, age);
        if (gone === "lost") pen.rotate(age * (way === "down" ? 1.2 : -1.2));
        this.drawBody(packet, wide, stripes);
        if (packet === this.chosen && !gone) this.drawChosen(wide);
        pen.restore();
        if (!gone) this.flying.push({ packet, x, y });
    }

    /** A packet down has a stripe for each field, in its object's colour; one up, which has moves, a line. */
    drawBody({ way, number, carried, gone, repairs, copy }, wide, stripes) {
        const { pen } = this;
        pen.beginPath();
        pen.roundRect(-wide / 2, -5.5, wide, 11, 5);
        pen.fillStyle = gone === "lost" ? colours.bad : colours.panel;
        pen.fill();
        if (gone !== "lost") {
            for (let k = 0; k < (way === "down" ? stripes : 0); k++) {
                pen.fillStyle = colours.of[carried[k].thing.block];
                pen.fillRect(-wide / 2 + 2.6 + k * STRIPE, -3, 2.5, 6);
            }
            pen.fillStyle = number === null ? colours.dim : colours.up;
            if (way === "up") pen.fillRect(-wide / 2 + 3, -1.5, wide - 6, 3);
        }
        pen.lineWidth = repairs ? 2.2 : 1.3;
        pen.strokeStyle = gone === "lost" ? colours.bad : repairs ? colours.good : copy ? colours.wait : way === "up" ? colours.up : colours.ink;
        pen.setLineDash(copy ? [3, 2] : []);
        pen.beginPath();
        pen.roundRect(-wide / 2, -5.5, wide, 11, 5);
        pen.stroke();
        pen.setLineDash([]);
    }

    drawWord({ way, number, gone, repairs }, age) {
        const isSaid = gone === "old" || (gone === "lost" && age < 0.55) || (repairs && !gone);
        if (!isSaid) return;
        const { pen } = this;
        pen.font = fontOf(10);
        pen.textAlign = "center";
        pen.fillStyle = gone === "lost" ? colours.bad : gone === "old" ? colours.dim : colours.good;
        pen.fillText(gone === "lost" ? (number === null ? "lost" : `${number} lost`) : gone === "old" ? "old" : "again", 0, way === "down" ? -9 : 17);
    }

    drawChosen(wide) {
        const { pen } = this;
        pen.strokeStyle = colours.ink;
        pen.lineWidth = 2.5;
        pen.beginPath();
        pen.roundRect(-wide / 2 - 5, -10.5, wide + 10, 21, 9);
        pen.stroke();
    }

    drawWords() {
        const { pen, width, height } = this;
        if (height < 300) return;
        pen.font = fontOf(11);
        pen.fillStyle = colours.dim;
        pen.textAlign = "center";
        pen.fillText("a stripe for each field, in its object's colour", width / 2, height - 22);
        pen.fillText("the other way: moves", width / 2, height - 7);
    }
}
