"""What the map is drawn from: the world and each client's copies over the lines, as what changes from one line to the next."""

from history import History
from kinds import BY_NAME, KINDS
from scope import player_of

MARGIN = 0.08
LEAST_SIDE = 1_000


def number_of(piece: str) -> int:
    return int(piece[: piece.index(" ")])


def changes(snapshots: list[tuple[int, list[str]]]) -> list[tuple[int, list[str], list[int]]]:
    """Of snapshots over lines: at each line that changes something, the pieces that are new or other, and the numbers that are gone."""
    found, before = [], {}
    for line, pieces in snapshots:
        now = {number_of(piece): piece for piece in pieces}
        fresh = [piece for number, piece in now.items() if before.get(number) != piece]
        gone = [number for number in before if number not in now]
        if fresh or gone:
            found.append((line, fresh, gone))
        before = now
    return found


def latest(snapshots: list[tuple[int, object]], first: int, last: int) -> list[tuple[int, object]]:
    """The snapshots of the drawn lines, and the last before them, each where it is another than the one before it."""
    early = [one for one in snapshots if one[0] < first][-1:]
    found = []
    for line, snapshot in early + [one for one in snapshots if first <= one[0] <= last]:
        if not found or found[-1][1] != snapshot:
            found.append((line, snapshot))
    return found


def box_of(worlds: list[tuple[int, list[str]]]) -> list[float]:
    """The corner and the side of a square round all that has a place in these worlds."""
    placed = [piece.split(" ")[2:4] for _, pieces in worlds for piece in pieces if BY_NAME[piece.split(" ")[1]].fields[0].name == "x"]
    if not placed:
        return [0, 0, LEAST_SIDE]
    xs, ys = ([int(place[axis]) for place in placed] for axis in (0, 1))
    side = max(max(xs) - min(xs), max(ys) - min(ys), LEAST_SIDE) * (1 + 2 * MARGIN)
    return [round((min(xs) + max(xs) - side) / 2), round((min(ys) + max(ys) - side) / 2), round(side)]


def map_data(history: History, first: int, last: int) -> dict:
    """All that the page's script draws the map from."""
    script, seen = history.script, history.seen
    worlds = latest(sorted(seen.worlds.items()), first, last)
    clients = [
        {
            "player": player_of(script, client),
            "copies": changes(seen.copies[client]),
            "shown": latest(history.shown[client], first, last),
            "slots": latest(history.slots[client], first, last),
        }
        for client in range(script.clients)
    ]
    return {
        "first": first,
        "last": last,
        "radius": script.radius,
        "teams": [one.team for one in script.objects],
        "fields": {kind.name: [field.name for field in kind.fields] for kind in KINDS},
        "box": box_of(worlds),
        "worlds": changes(worlds),
        "clients": clients,
    }
