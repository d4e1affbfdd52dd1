"""The network of a view as SVG: each link by how full it is, closed and drained links marked."""

from __future__ import annotations

import math
from dataclasses import dataclass
from html import escape
from pathlib import Path

from bwe_tools.document import ToolError
from bwe_tools.layout import Spots, spots_of
from bwe_tools.rate import percent, rate, tenths_of_percent
from bwe_tools.view import LinkView, View

ASSETS = Path(__file__).resolve().parent / "assets"

# The least tenths of a percent of each class of colour.
STEPS = ((950, "tight"), (800, "busy"), (500, "half"), (1, "light"))
WORDS = {
    "idle": "unused",
    "light": "below 50 %",
    "half": "50 to 80 %",
    "busy": "80 to 95 %",
    "tight": "95 % and more",
    "full": "full, closed",
    "drained": "drained",
}


def state_of(link: LinkView) -> str:
    """The class of a link, which its colour in the map and in the tables follows."""
    if link.is_drained:
        return "drained"
    if link.closed_at is not None:
        return "full"
    tenths = tenths_of_percent(link.load, link.capacity)
    return next((name for least, name in STEPS if tenths >= least), "idle")


@dataclass(frozen=True)
class Strand:
    """One drawn line between two sites: a link, and its link back where there is one."""

    there: LinkView
    back: LinkView | None
    bend: float
    number: int


def strands_of(links: list[LinkView]) -> list[Strand]:
    """Links of opposite direction share a line, each with one half; parallel lines are bent."""
    directions: dict[tuple[str, str], list[LinkView]] = {}
    for link in links:
        directions.setdefault((link.source, link.target), []).append(link)
    strands = []
    for one, other in dict.fromkeys(tuple(sorted(ends)) for ends in directions):
        there, back = directions.get((one, other), []), directions.get((other, one), [])
        both = min(len(there), len(back))
        lines = [*zip(there, back), *((link, None) for link in there[both:] + back[both:])]
        for number, (link, opposite) in enumerate(lines):
            # Very many parallel lines lie closer together.
            bend = (number - (len(lines) - 1) / 2) * min(1.0, 9 / len(lines))
            strands.append(Strand(link, opposite, bend if link.source == one else -bend, number))
    return strands


Box = tuple[float, float, float, float]  # left, upper, right and lower edge


@dataclass(frozen=True)
class Frame:
    """The room of a drawing, in pixels."""

    width: int
    least_height: int
    most_height: int
    upright: bool
    margin: int


WIDE = Frame(width=1120, least_height=170, most_height=700, upright=False, margin=46)
NARROW = Frame(width=380, least_height=260, most_height=860, upright=True, margin=34)


@dataclass(frozen=True)
class Detail:
    """How much a drawing shows, by how many links it has."""

    thin: float
    thick: float
    head: float
    bend: int
    labels: frozenset[str]
    dots: bool


ALL = frozenset(WORDS)
FULL_DETAIL = Detail(thin=2.4, thick=8.0, head=4.6, bend=36, labels=ALL - {"idle"}, dots=False)
SOME_DETAIL = Detail(
    thin=1.8, thick=5.6, head=3.2, bend=18, labels=ALL - {"idle", "light", "half"}, dots=False
)
LEAST_DETAIL = Detail(thin=1.3, thick=4.4, head=2.4, bend=12, labels=frozenset(), dots=True)


def detail_of(view: View, frame: Frame) -> Detail:
    links = len(view.links) * (2 if frame.upright else 1)
    return FULL_DETAIL if links <= 60 else SOME_DETAIL if links <= 120 else LEAST_DETAIL


def _fitted(spots: Spots, frame: Frame) -> tuple[Spots, int]:
    """The spots in pixels, and the height; the drawing may be stretched to use its room."""
    if frame.upright:
        spots = {site: (y, x) for site, (x, y) in spots.items()}
    xs, ys = [x for x, _ in spots.values()], [y for _, y in spots.values()]
    wide, high = max(xs) - min(xs), max(ys) - min(ys)
    most = 420.0
    scale_x = min((frame.width - 2 * frame.margin) / wide, most) if wide > 1e-6 else most
    scale_y = min((frame.most_height - 2 * frame.margin) / high, most) if high > 1e-6 else most
    scale_x, scale_y = min(scale_x, 1.7 * scale_y), min(scale_y, 1.4 * scale_x)
    height = max(frame.least_height, round(high * scale_y) + 2 * frame.margin)
    left = (frame.width - wide * scale_x) / 2 - min(xs) * scale_x
    upper = (height - high * scale_y) / 2 - min(ys) * scale_y
    return {
        site: (x * scale_x + left, y * scale_y + upper) for site, (x, y) in spots.items()
    }, height


class _Curve:
    """A quadratic curve from one point to another, bent to its side by so many pixels."""

    def __init__(self, start: tuple[float, float], end: tuple[float, float], bend: float) -> None:
        (x0, y0), (x1, y1) = start, end
        length = math.dist(start, end) or 1.0
        self.start, self.end = start, end
        self.control = (
            (x0 + x1) / 2 - 2 * bend * (y1 - y0) / length,
            (y0 + y1) / 2 + 2 * bend * (x1 - x0) / length,
        )

    def at(self, part: float) -> tuple[float, float]:
        weights = ((1 - part) ** 2, 2 * part * (1 - part), part**2)
        points = (self.start, self.control, self.end)
        x, y = (sum(w * p[axis] for w, p in zip(weights, points)) for axis in (0, 1))
        return x, y

    def direction(self, part: float) -> tuple[float, float]:
        (x0, y0), (x1, y1) = self.at(part - 0.01), self.at(part + 0.01)
        length = math.hypot(x1 - x0, y1 - y0) or 1.0
        return (x1 - x0) / length, (y1 - y0) / length

    def until(self, part: float) -> str:
        """The curve's first part, as the data of an SVG path."""
        turn = tuple(a + part * (b - a) for a, b in zip(self.start, self.control))
        return "M{} Q{} {}".format(
            *(f"{x:.1f} {y:.1f}" for x, y in (self.start, turn, self.at(part)))
        )


class _Drawing:
    """Collects the elements of a map: lines below, sites above them, numbers on top."""

    def __init__(self, view: View, frame: Frame, places: Spots) -> None:
        self.view = view
        self.detail = detail_of(view, frame)
        ends = [(link.source, link.target) for link in view.links]
        self.sites = list(dict.fromkeys(site for pair in ends for site in pair))
        self.spots, self.height = _fitted(spots_of(self.sites, ends, places), frame)
        self.width = frame.width
        self.lines: list[str] = []
        self.labels: list[str] = []

    def draw(self) -> str:
        for strand in strands_of(self.view.links):
            self._draw_strand(strand)
        sites = self._dots() if self.detail.dots else [self._box(site) for site in self.sites]
        return "\n".join(self.lines + sites + self.labels)

    def _draw_strand(self, strand: Strand) -> None:
        start, end = self.spots[strand.there.source], self.spots[strand.there.target]
        bend = strand.bend * self.detail.bend
        whole = strand.back is None
        self._draw_link(strand.there, _Curve(start, end, bend), whole, strand.number)
        if strand.back is not None:
            self._draw_link(strand.back, _Curve(end, start, -bend), whole, strand.number)

    def _draw_link(self, link: LinkView, curve: _Curve, whole: bool, number: int) -> None:
        """A link with its arrow in the middle of the line; with a link back it ends there."""
        state = state_of(link)
        part = min(link.load / link.capacity, 1.0) if link.capacity else 0.0
        width = self.detail.thin + (self.detail.thick - self.detail.thin) * part
        tip, (dx, dy) = curve.at(0.495), curve.direction(0.5)
        size = (width / 2 + self.detail.head) * (1.3 if whole else 1.0)
        back = (tip[0] - 1.7 * size * dx, tip[1] - 1.7 * size * dy)
        corners = [
            tip,
            *((back[0] - way * size * dy, back[1] + way * size * dx) for way in (1, -1)),
        ]
        points = " ".join(f"{x:.1f},{y:.1f}" for x, y in corners)
        self.lines.append(
            f'<g class="link {state}" data-link="{escape(link.name)}">'
            f"<title>{escape(summary(link))}</title>"
            f'<path class="line" style="stroke-width:{width:.1f}"'
            f' d="{curve.until(1.0 if whole else 0.48)}"/>'
            f'<polygon class="head" points="{points}"/>{_bar(state, tip, (dx, dy), size)}</g>'
        )
        if state in self.detail.labels:
            # The numbers of parallel lines stand beside each other.
            seen = self._leaves(link.source, curve)
            self._label(
                link, state, curve.at(seen + (0.45 - seen) * (0.65 if number % 2 else 0.42))
            )

    def _leaves(self, site: str, curve: _Curve) -> float:
        """The part of a curve at which it leaves the box of the site where it begins."""
        half = self._half_width(site)
        parts = (step / 50 for step in range(25))
        x, y = curve.start

        def is_outside(part: float) -> bool:
            there = curve.at(part)
            return abs(there[0] - x) > half or abs(there[1] - y) > 12

        return next(filter(is_outside, parts), 0.25)

    def _half_width(self, site: str) -> float:
        return 5.0 if self.detail.dots else 3.9 * len(_short(site)[0]) + 8

    def _label(self, link: LinkView, state: str, spot: tuple[float, float]) -> None:
        text = "drained" if state == "drained" else percent(link.load, link.capacity)
        self.labels.append(
            f'<text class="load {state}" data-link="{escape(link.name)}" x="{spot[0]:.1f}"'
            f' y="{spot[1] + 4:.1f}">{text.replace(" ", "&#8239;")}</text>'
        )

    def _box(self, site: str) -> str:
        x, y = self.spots[site]
        name, title = _short(site)
        wide = 2 * self._half_width(site)
        x = min(max(x, wide / 2 + 2), self.width - wide / 2 - 2)
        return (
            f'<g class="site">{title}<rect x="{x - wide / 2:.1f}" y="{y - 12:.1f}"'
            f' width="{wide:.1f}" height="24" rx="6"/>'
            f'<text x="{x:.1f}" y="{y + 4.5:.1f}">{escape(name)}</text></g>'
        )

    def _dots(self) -> list[str]:
        """Small sites; each name stands where it covers the fewest others."""
        taken = [(x - 5, y - 5, x + 5, y + 5) for x, y in self.spots.values()]
        dots = []
        for site in self.sites:
            x, y = self.spots[site]
            name, title = _short(site)
            half = 3.3 * len(name) + 2
            rooms = [
                (x + sx * (half + 6), y + sy) for sx, sy in ((0, -12), (0, 12), (1, 0), (-1, 0))
            ]
            boxes = [(cx - half, cy - 7, cx + half, cy + 7) for cx, cy in rooms]
            best = min(range(4), key=lambda at: (_covered(boxes[at], taken, self.width), at))
            taken.append(boxes[best])
            dots.append(
                f'<g class="site">{title}<circle cx="{x:.1f}" cy="{y:.1f}" r="4.5"/>'
                f'<text class="small" x="{rooms[best][0]:.1f}" y="{rooms[best][1] + 4:.1f}">'
                f"{escape(name)}</text></g>"
            )
        return dots


def _covered(box: Box, taken: list[Box], width: int) -> int:
    outside = 3 if box[0] < 0 or box[2] > width else 0
    return outside + sum(
        box[0] < other[2] and other[0] < box[2] and box[1] < other[3] and other[1] < box[3]
        for other in taken
    )


def _short(site: str) -> tuple[str, str]:
    """A site's name as it is drawn, and a title with the whole name where it is cut."""
    if len(site) <= 14:
        return site, ""
    return site[:13] + "\u2026", f"<title>{escape(site)}</title>"


def _bar(
    state: str, tip: tuple[float, float], direction: tuple[float, float], size: float
) -> str:
    """The bar across the end of a link that takes no more."""
    if state not in ("full", "drained"):
        return ""
    (x, y), (dx, dy), reach = tip, direction, size + 2
    return (
        f'<path class="bar" d="M{x - reach * dy:.1f} {y + reach * dx:.1f}'
        f'L{x + reach * dy:.1f} {y - reach * dx:.1f}"/>'
    )


def summary(link: LinkView) -> str:
    """A link in a line: `ams-fra, ams to fra: 9 Gbit/s of 10 Gbit/s, 90 %`."""
    if link.is_drained:
        return f"{link.name}, {link.source} to {link.target}: drained"
    closed = "" if link.closed_at is None else f", full at share {link.closed_at}"
    return (
        f"{link.name}, {link.source} to {link.target}: {rate(link.load)} of {rate(link.capacity)},"
        f" {percent(link.load, link.capacity)}{closed}"
    )


def describe(view: View) -> str:
    """The map in a sentence, for those who do not see it."""
    drained = sum(link.is_drained for link in view.links)
    full = sum(state_of(link) == "full" for link in view.links)
    sites = len({site for link in view.links for site in (link.source, link.target)})
    return f"Network of {sites} sites and {len(view.links)} links: {full} full, {drained} drained"


def svg(view: View, frame: Frame, kind: str, places: Spots) -> str:
    """The map as an SVG element for a page, of the CSS class `kind`."""
    if not view.links:
        return ""
    drawing = _Drawing(view, frame, places)
    inside = drawing.draw()
    return (
        f'<svg class="map {kind}" viewBox="0 0 {frame.width} {drawing.height}" role="img"'
        f' aria-label="{escape(describe(view))}">\n{inside}\n</svg>'
    )


def picture(view: View, places: Spots) -> str:
    """The map as an SVG file that stands alone, light or dark as its reader prefers."""
    if not view.links:
        raise ToolError("the document has no link to draw")
    drawing = _Drawing(view, WIDE, places)
    style = (ASSETS / "map.css").read_text(encoding="utf-8")
    return (
        f'<svg xmlns="http://www.w3.org/2000/svg" class="map" width="{WIDE.width}"'
        f' height="{drawing.height}" viewBox="0 0 {WIDE.width} {drawing.height}" role="img"'
        f' aria-label="{escape(describe(view))}">\n<style>\n{style}</style>\n'
        f'<rect class="ground" width="100%" height="100%"/>\n{drawing.draw()}\n</svg>\n'
    )
