"""The picture docs/cost.svg, which bench/tables writes: the instructions of a datagram compared with lwIP. The same table
gives the same bytes."""
from __future__ import annotations

import re
import xml.etree.ElementTree as ET
from typing import Mapping, Sequence

OURS = "ours"

# In pixels: the border, the names' column, a column of bars, the longest bar; a row, a bar, and the start of the rows.
EDGE, NAMES, COLUMN, LONGEST = 16, 200, 168, 110
ROW, BAR, FIRST = 28, 16, 84

# A picture doesn't know the colours of its page, so it has its own background, dark if the reader prefers that.
STYLE = """
svg { font: 13px system-ui, -apple-system, "Segoe UI", "DejaVu Sans", sans-serif; }
text { fill: #1f2328; } .head { font-weight: 600; } .title { font-weight: 600; font-size: 15px; }
.figure { paint-order: stroke; stroke: #ffffff; stroke-width: 4px; }
.note { fill: #59636e; } .ground { fill: #ffffff; stroke: #d1d9e0; }
.lwip { fill: #afb8c1; } .ours { fill: #0969da; } .level { stroke: #0969da; stroke-dasharray: 2 3; }
@media (prefers-color-scheme: dark) {
text { fill: #e6edf3; } .figure { stroke: #0d1117; }
.note { fill: #9198a1; } .ground { fill: #0d1117; stroke: #3d444d; }
.lwip { fill: #656c76; } .ours { fill: #4493f8; } .level { stroke: #4493f8; }
}
"""


def text(to: ET.Element, at: tuple[float, float], words: str, kind: str = "") -> None:
    x, y = at
    made = ET.SubElement(to, "text", {"x": f"{x:g}", "y": f"{y:g}", **({"class": kind} if kind else {})})
    made.text = words


def shape(to: ET.Element, name: str, kind: str, **sizes: float) -> None:
    ET.SubElement(to, name, {"class": kind, **{key: f"{it:g}" for key, it in sizes.items()}})


def draw_column(to: ET.Element, work: str, left: float, costs: Mapping[str, float]) -> None:
    """Draws the bars for one kind of work, on a scale of their own, with the line at our bar's end, and the numbers."""
    text(to, (left, FIRST - 14), f"{work} bytes" if re.fullmatch(r"[\d,]+", work) else work, "head")
    ends = [left + round(LONGEST * it / max(costs.values()), 1) for it in costs.values()]
    for row, (name, end) in enumerate(zip(costs, ends)):
        kind = "ours" if name == OURS else "lwip"
        shape(to, "rect", kind, x=left, y=FIRST + row * ROW, width=round(end - left, 1), height=BAR)
    level = ends[list(costs).index(OURS)]
    shape(to, "line", "level", x1=level, x2=level, y1=FIRST - 4, y2=FIRST + len(ends) * ROW - 8)
    for row, (name, cost, end) in enumerate(zip(costs, costs.values(), ends)):
        kind = "figure head" if name == OURS else "figure"
        text(to, (end + 5, FIRST + row * ROW + BAR - 3), f"{cost:,.0f}", kind)


def drawn(works: Sequence[str], builds: Mapping[str, Sequence[float]]) -> str:
    """Returns the text of an SVG file: the costs of each kind of work for each build, one of which is ours."""
    wide = 2 * EDGE + NAMES + COLUMN * len(works)
    high = FIRST + ROW * len(builds) + EDGE - 8
    form = {"xmlns": "http://www.w3.org/2000/svg", "viewBox": f"0 0 {wide} {high}", "width": str(wide)}
    svg = ET.Element("svg", {**form, "height": str(high), "role": "img"})
    ET.SubElement(svg, "title").text = "Instructions of a datagram: bsdudp beside builds of lwIP"
    ET.SubElement(svg, "style").text = STYLE
    ground = {"x": "0.5", "y": "0.5", "width": str(wide - 1), "height": str(high - 1), "rx": "6"}
    ET.SubElement(svg, "rect", {"class": "ground", **ground})
    text(svg, (EDGE, 30), "Instructions that a datagram takes", "title")
    text(svg, (EDGE, 48), "Fewer is better. Each column has a scale of its own; the dotted line is bsdudp.", "note")
    for row, build in enumerate(builds):
        name, kind = ("bsdudp", "head") if build == OURS else (build, "")
        text(svg, (EDGE, FIRST + row * ROW + BAR - 3), name, kind)
    for column, work in enumerate(works):
        draw_column(svg, work, EDGE + NAMES + column * COLUMN, {name: it[column] for name, it in builds.items()})
    ET.indent(svg)
    return ET.tostring(svg, encoding="unicode") + "\n"
