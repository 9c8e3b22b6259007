"""The page: chart, map, strip and what they need, in one file that fetches nothing."""

import json
from html import escape
from pathlib import Path
from string import Template

from chart import GUTTER, HEAD, Chart, arrow, broken, element
from datagram import USES
from strip import Strip
from words import counted

HERE = Path(__file__).resolve().parent
SAMPLES = (
    ("of the server", "down", arrow((2, 7), (40, 7))),
    ("of a client", "up", arrow((40, 7), (2, 7))),
    ("ping", "ping", arrow((2, 7), (40, 7))),
    ("raw bytes", "forged", arrow((2, 7), (40, 7))),
    ("lost", "", broken((2, 7), (28, 7))),
    ("not known yet (of a served match)", "unknown", arrow((2, 7), (28, 7), has_head=False)),
    ("refused where it came", "refused", arrow((2, 7), (40, 7))),
)
MARKS = (("good", "✓ received"), ("bad", "✗ lost: the sender knows it now"), ("", "↻ sent again"))


def read(name: str) -> str:
    return (HERE / name).read_text()


def marks() -> str:
    """What the arrows and marks of the chart mean."""
    arrows = [(name, element("svg", element("g", drawn, class_=look), width=42, height=14)) for name, look, drawn in SAMPLES]
    return "".join([f"<li>{drawn}{name}</li>" for name, drawn in arrows] + [f'<li class="{look}">{text}</li>' for look, text in MARKS])


def uses() -> str:
    return "".join(f'<li><span class="swatch use-{use}"></span>{use}</li>' for use in USES)


def counts(chart: Chart, lines: int) -> str:
    """How much of what is drawn."""
    arrivals = [row for row in chart.rows if row.line.word in ("down", "up", "raw") and row.datagram]
    refused = sum(row.line.refusal != "" for row in arrivals)
    pings = sum(one.packet is not None and one.packet.is_ping and one.way != "raw" for one in chart.datagrams)
    served = [one.fate for one in chart.datagrams if one.is_served]
    lost = sum(one.fate == "lost" and not one.is_served for one in chart.datagrams)
    judged = f" · of the server {served.count('came')} came, {served.count('lost')} lost, {served.count('unknown')} not known" if served else ""
    return (
        f"lines {chart.first} to {chart.last} of {lines} · {counted(len(chart.datagrams), 'datagram')} ({counted(pings, 'ping')}) · "
        f"{counted(len(arrivals), 'delivery', 'deliveries')}, {refused} refused · {lost} never delivered{judged}"
    )


def page(chart: Chart, strip: Strip, data: dict, lines: int, notice: str) -> str:
    """`data` is what the map is drawn from, `lines` how many the report has; the notice says what is not drawn."""
    size = {"class_": "chart body", "width": f"{chart.width:g}", "height": chart.height}
    return Template(read("page.html")).substitute(
        title=f"A match of {counted(chart.clients, 'client')}",
        style=read("chart.css") + read("page.css"),
        counts=counts(chart, lines),
        notice=f'<p class="notice">{escape(notice)}</p>' if notice else "",
        marks=marks(),
        lane_names=element("svg", chart.head(), class_="chart", width=f"{chart.width:g}", height=HEAD),
        gutter=element("svg", chart.gutter(), class_="chart gutter", width=GUTTER, height=chart.height, aria_hidden="true"),
        chart=element("svg", chart.body(), role="img", aria_label="sequence chart", **size),
        clients="".join(f'<option value="{client}">client {client}</option>' for client in range(chart.clients)),
        first=chart.first,
        last=chart.last,
        uses=uses(),
        strip=strip.svg(),
        data=json.dumps(data, separators=(",", ":")).replace("<", "\\u003c"),
        script=read("page.js"),
    )
