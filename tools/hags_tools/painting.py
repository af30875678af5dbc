"""Lays a chart out and paints it.

No label lies on an arrow: each row holds the labels of one node alone, arrows run sideways only in the seams between
rows, and come down to their node in a gutter at the left of its line, where no label stands."""
import math
import textwrap
from collections.abc import Iterable
from dataclasses import dataclass

from hags_tools import chart as model
from hags_tools import svg

# Neighbours in this list are far apart; any two of it differ.
SHADES = (
    "#dbe9f6", "#fde3c8", "#d9efd4", "#f3d9ec", "#fff2b3", "#d0efef", "#e3daf6", "#f9d6d0", "#dcf3ba", "#ece9df",
    "#bfd9cc", "#d9ccbf", "#e3deb5", "#b5e3ba", "#fefbdc", "#bed8fd", "#fdc7af", "#baf3e2", "#fdbede", "#dccdfe",
    "#afe6fd", "#fdbec5", "#c7fdaf", "#fcd69c", "#befdc5", "#fecdfe", "#dffc9c", "#9cfcdf", "#fcf39c", "#9cfcb9",
    "#affc9c", "#9cfcfc",
)
ARROW_COLOURS = {"entry": "#7d7d7d", "request": model.BLUE, "vote": "#93309b"}
ARROW_DASHES = {"entry": None, "request": "5 3", "vote": "1.5 2.5"}
LINKS = ("cut", "heal", "drop")
SAMPLE_COLOURS = {
    "up": model.GREEN, "down": model.RED, "told": model.RED, "asked": model.BLUE, "cast": model.GREEN, "view": model.NAVY,
}
LINE_COLOURS = {"cut": model.RED, "drop": model.RED, "stop": model.RED, "heal": model.GREEN, "start": model.GREEN}

MARGIN = 14
GUTTER = 34
BESIDE = 12
SEAM = 6
GAP = 2
LINE_HEIGHT = 1.25
SCRIPT_SIZE = 9.5
SCRIPT_LINE = 13
SCRIPT_WIDTH = 34
HEADER = 24
HEADER_EVERY = 900
LEGEND_SIZE = 10

MEANINGS = {
    "up": "a node starts",
    "down": "a node stops",
    "view": "enters a view",
    "ring": "a heartbeat ring is set",
    "asked": "a client asks for something",
    "put": "puts an entry, group#place",
    "heard": "and a provider there hears it",
    "cast": "a provider votes",
    "told": "refused, or told so",
    "entry": "put first here, then there",
    "request": "the entry that carries a request",
    "vote": "the entry that counts a vote",
    "cut": "cut",
    "drop": "packets dropped",
    "heal": "healed",
}
REMARK = "A column's colour is its node's view."
REMARK_ON_ARROWS = (
    "Arrows are read off the records, and join two that name the same entry, request or vote; they are no packets."
)


@dataclass(frozen=True)
class Window:
    """Which lines are shown: from one to another, counted from 1."""

    first: int
    last: int


@dataclass
class Column:
    """The place of a node: the left edge of its gutter, its line, and the right edge of its labels."""

    left: float
    line: float
    right: float


@dataclass
class Band:
    """What a part takes of the height, with its script line broken up."""

    part: model.Part
    lines: list[str]
    top: float = 0
    bottom: float = 0


def shades_of(stays: Iterable[model.Stay]) -> dict[str, str]:
    """A colour for each view. A view lives from when its first node enters it until its last one leaves it; views that
    live at once have different colours, as long as there are no more of them than colours."""
    lives: dict[str, tuple[float, float]] = {}
    for stay in stays:
        leaves = stay.last.order if stay.last else float("inf")
        first, last = lives.get(stay.view, (stay.first.order, leaves))
        lives[stay.view] = first, max(last, leaves)
    shades: dict[str, str] = {}
    turn = 0
    for view, (first, _) in lives.items():
        taken = {shades[other] for other in shades if lives[other][1] >= first}
        order = SHADES[turn:] + SHADES[:turn]
        shades[view] = next((shade for shade in order if shade not in taken), order[0])
        turn = (SHADES.index(shades[view]) + 1) % len(SHADES)
    return shades


def title_of(parts: Iterable[model.Part]) -> tuple[str, str]:
    """The comments before the first other line, and the settings but for the nodes, each as one text."""
    comments: list[str] = []
    settings: list[str] = []
    for part in parts:
        words = part.step.words() if part.step else []
        if not part.step or words[:1] == ["begin"]:
            break
        if words and words[0].startswith("#") and not settings:
            comments.append(part.step.text().strip("# "))
        elif words and words[0] != "node" and not words[0].startswith("#"):
            settings.append(" ".join(words))
    return " ".join(comments), ", ".join(settings)


def is_shown(part: model.Part, begun: bool) -> bool:
    """Has the part a place of its own? Blank lines, what stands before `begin`, and a `begin` that causes nothing have
    none."""
    if part.step is None or part.step.words() == ["begin"]:
        return bool(part.rows)
    return begun and bool(part.step.words())


def first_word(band: Band) -> str:
    """The first word of the band's script line, empty in a transcript alone."""
    return band.part.step.words()[0] if band.part.step else ""


class Painting:
    """The picture of a chart."""

    def __init__(self, chart: model.Chart, window: Window) -> None:
        self.chart = chart
        self.window = window
        self.nodes = sorted(chart.nodes)
        self.shades = shades_of(chart.stays)
        self.columns: dict[int, Column] = {}
        self.bands: list[Band] = []
        self.headers: list[float] = []
        self.top = self.bottom = self.width = 0.0
        self.back: list[str] = []
        self.arrows: list[str] = []
        self.front: list[str] = []
        self.kinds: set[str] = set()

    def svg(self) -> str:
        title, settings = title_of(self.chart.parts)
        self._break_lines()
        self._place_columns()
        self._place_rows(self._paint_title(title, settings))
        self._paint_columns()
        for band in self.bands:
            self._paint_band(band)
        for arrow in self.chart.arrows:
            self._paint_arrow(arrow)
        height = self._paint_legend(self.bottom + 24)
        background = svg.rect(0, 0, self.width, height, "#ffffff")
        elements = [background, *self.back, *self.arrows, *self.front]
        return svg.picture(self.width, height, title or "A run of hags", elements)

    # The layout.

    def _break_lines(self) -> None:
        """Breaks the script lines and the labels that are shown into lines that fit."""
        limit = max(150, min(250, 700 / max(1, len(self.nodes))))
        begun = False
        for number, part in enumerate(self.chart.parts, 1):
            begun = begun or (part.step is not None and part.step.words() == ["begin"])
            shown = self.window.first <= number <= self.window.last
            for row in part.rows:
                row.shown = shown
                row.lines = [
                    model.Label(piece, label.colour, label.bold, label.size)
                    for label in row.labels
                    for piece in svg.wrapped(label.text, label.size, limit, label.bold)
                ]
            if shown and is_shown(part, begun):
                text = part.step.text() if part.step else ""
                lines = textwrap.wrap(text, SCRIPT_WIDTH, break_on_hyphens=False, subsequent_indent="  ")
                self.bands.append(Band(part, lines))

    def _place_columns(self) -> None:
        longest = max((len(line) for band in self.bands for line in band.lines), default=0)
        left = MARGIN + (longest * SCRIPT_SIZE * svg.SPACED + 16 if longest else 0)
        for node in self.nodes:
            labels = [label for band in self.bands for row in band.part.rows if row.node == node for label in row.lines]
            widest = max([svg.text_width(label.text, label.size, label.bold) for label in labels], default=0)
            line = left + GUTTER
            self.columns[node] = Column(left, line, line + BESIDE + max(90, widest) + 8)
            left = self.columns[node].right
        self.width = max(left + MARGIN, 420)

    def _place_rows(self, top: float) -> None:
        self.top = y = top
        sources = {id(arrow.source) for arrow in self.chart.arrows if arrow.source.node != arrow.target.node}
        before = None
        for band in self.bands:
            amid = first_word(band) in LINKS and first_word(band) == before
            if not self.headers or (y - self.headers[-1] > HEADER_EVERY and not amid):
                self.headers.append(y)
                y += HEADER
            before = first_word(band)
            band.top = y
            y += 3
            for row in band.part.rows:
                y = place_row(row, y, SEAM if id(row) in sources else GAP)
            band.bottom = y = max(y, band.top + 3 + SCRIPT_LINE * len(band.lines))
        self.bottom = y + 4
        for number, part in enumerate(self.chart.parts, 1):
            for row in part.rows:
                if not row.shown:
                    row.top = row.centre = row.bottom = self.top if number < self.window.first else self.bottom

    # The parts of the picture.

    def _paint_title(self, title: str, settings: str) -> float:
        y: float = MARGIN
        for text, size, fill, bold in ((title, 13, "#000000", True), (settings, 10, model.GREY, False)):
            for piece in svg.wrapped(text, size, self.width - 2 * MARGIN, bold) if text else []:
                y += size * 1.4
                self.front.append(svg.text(MARGIN, y - size * 0.3, piece, size, fill, bold))
        return y + 6

    def _paint_columns(self) -> None:
        for stay in self.chart.stays:
            column = self.columns[stay.node]
            top, bottom = stay.first.top, stay.last.top if stay.last else self.bottom
            if top < bottom:
                shade = self.shades[stay.view]
                self.back.append(svg.rect(column.left + 3, top, column.right - column.left - 3, bottom - top, shade))
        for life in self.chart.lives:
            x = self.columns[life.node].line
            top, bottom = life.first.centre, life.last.centre if life.last else self.bottom
            if top < bottom:
                self.back.append(svg.line(x, top, x, bottom, "#8c8c8c"))
        for y in self.headers:
            self._paint_header(y)

    def _paint_header(self, y: float) -> None:
        """The names of the nodes, each with the view that it is in at this height."""
        stays = [stay for stay in self.chart.stays if stay.first.top <= y and (not stay.last or y < stay.last.top)]
        views = {stay.node: stay.view for stay in stays}
        for node in self.nodes:
            x, name = self.columns[node].line + BESIDE, f"node {node}"
            self.front.append(svg.text(x, y + 16, name, 12, "#000000", bold=True))
            if node in views:
                x += svg.text_width(name, 12, bold=True) + 8
                self.front.append(svg.text(x, y + 16, views[node], 9.5, model.NAVY))

    def _paint_band(self, band: Band) -> None:
        if band.lines:
            self.back.append(svg.line(MARGIN, band.top, self.width - MARGIN, band.top, "#e4e4e4", 0.8))
        colour = LINE_COLOURS.get(first_word(band), "#333333")
        is_comment = first_word(band).startswith("#")
        for index, piece in enumerate(band.lines):
            y = band.top + 12.5 + index * SCRIPT_LINE
            self.front.append(svg.text(MARGIN, y, piece, SCRIPT_SIZE, colour, italic=is_comment, spaced=True))
        if band.part.step and first_word(band) in LINKS:
            self._paint_link(band.part.step.words(), colour, band.top + 9)
        for row in band.part.rows:
            self._paint_row(row)

    def _paint_link(self, words: list[str], colour: str, y: float) -> None:
        """A line between the two nodes of a cut, a heal or a drop."""
        start, end = self.columns[int(words[1])].line, self.columns[int(words[2])].line
        self.kinds.add(words[0])
        self.front.append(svg.line(start, y, end, y, colour, 1.5, None if words[0] == "heal" else "1.5 3"))
        for x in (start, end) if words[0] != "drop" else (end,):
            if words[0] == "heal":
                self.front.append(svg.circle(x, y, 2.5, colour))
            else:
                self.front.append(cross(x, y, 3.5, colour))

    def _paint_row(self, row: model.Row) -> None:
        x = self.columns[row.node].line
        self.kinds.add(row.mark)
        self.front += mark_of(row, x, self.shades)
        if row.heard:
            self.kinds.add("heard")
        y = row.top
        for label in row.lines:
            y += label.size * LINE_HEIGHT
            base = y - label.size * 0.25
            self.front.append(svg.text(x + BESIDE, base, label.text, label.size, label.colour, label.bold))

    def _paint_arrow(self, arrow: model.Arrow) -> None:
        """Down the line of the source to the seam below its row, sideways, and down the gutter to the target."""
        source, target = arrow.source, arrow.target
        if source.node == target.node or not (source.shown and target.shown):
            return
        self.kinds.add(arrow.kind)
        start, seam = self.columns[source.node].line, source.bottom - SEAM / 2
        turn, end, y = self.columns[target.node].left + 9, self.columns[target.node].line - 8, target.centre
        way = 3 if turn > start else -3
        steep = math.sqrt((end - turn) ** 2 + (y - seam) ** 2)
        across, down = (end - turn) / steep, (y - seam) / steep
        colour = ARROW_COLOURS[arrow.kind]
        steps: list[str | float] = ["M", start, source.centre, "V", seam - 3, "Q", start, seam, start + way, seam, "H", turn - way]
        steps += ["Q", turn, seam, turn + 3 * across, seam + 3 * down, "L", end - 5 * across, y - 5 * down]
        self.arrows.append(svg.path(steps, stroke=colour, width=1.1, dashes=ARROW_DASHES[arrow.kind]))
        head: list[str | float] = ["M", end, y, "L", end - 7 * across - 3 * down, y - 7 * down + 3 * across]
        head += ["L", end - 7 * across + 3 * down, y - 7 * down - 3 * across, "Z"]
        self.arrows.append(svg.path(head, fill=colour))

    def _paint_legend(self, top: float) -> float:
        """What the marks and arrows of this picture mean, in as many lines as that needs; answers the whole height."""
        x: float = MARGIN
        y = top
        self.front.append(svg.line(MARGIN, top - 14, self.width - MARGIN, top - 14, "#bbbbbb", 0.8))
        for kind, meaning in MEANINGS.items():
            if kind not in self.kinds:
                continue
            width = 26 + svg.text_width(meaning, LEGEND_SIZE) + 16
            if x > MARGIN and x + width > self.width:
                x, y = MARGIN, y + 17
            self.front += sample_of(kind, x + 10, y - 3.5, self.shades)
            self.front.append(svg.text(x + 26, y, meaning, LEGEND_SIZE, "#333333"))
            x += width
        y += 6
        remark = f"{REMARK} {REMARK_ON_ARROWS}" if self.kinds & set(ARROW_COLOURS) else REMARK
        for piece in svg.wrapped(remark, LEGEND_SIZE, self.width - 2 * MARGIN):
            y += 14
            self.front.append(svg.text(MARGIN, y, piece, LEGEND_SIZE, model.GREY, italic=True))
        return y + MARGIN


def place_row(row: model.Row, y: float, gap: float) -> float:
    """Places a row at this height, and answers where it ends: this gap below its lines."""
    row.top = y
    row.centre = y + row.lines[0].size * LINE_HEIGHT * 0.55
    row.bottom = y + sum(label.size * LINE_HEIGHT for label in row.lines) + gap
    return row.bottom


def cross(x: float, y: float, size: float, colour: str, width: float = 1.8) -> str:
    strokes: list[str | float] = ["M", x - size, y - size, "L", x + size, y + size, "M", x - size, y + size, "L", x + size, y - size]
    return svg.path(strokes, stroke=colour, width=width)


def mark_of(row: model.Row, x: float, shades: dict[str, str]) -> list[str]:
    """The mark of a row on its node's line."""
    y, colour = row.centre, row.colour
    if row.mark == "up":
        return [svg.circle(x, y, 4.5, "#ffffff", colour, 2)]
    if row.mark == "down":
        return [cross(x, y, 5, colour, 2.6)]
    if row.mark == "ring":
        return [svg.circle(x, y, 2.5, "#ffffff", "#999999")]
    if row.mark == "view":
        return [svg.rect(x - 6, y - 5, 12, 10, shades[row.view], colour)]
    if row.mark == "put":
        ring = [svg.circle(x, y, 6.2, "none", colour, 1.1)] if row.heard else []
        return ring + [svg.circle(x, y, 3.7, colour)]
    if row.mark == "cast":
        return [svg.path(["M", x - 5, y, "L", x, y - 5, "L", x + 5, y, "L", x, y + 5, "Z"], fill=colour)]
    if row.mark == "asked":
        return [svg.rect(x - 4, y - 4, 8, 8, colour)]
    if row.mark == "told":
        return [svg.path(["M", x, y - 5, "L", x + 5.5, y + 4.5, "L", x - 5.5, y + 4.5, "Z"], fill=colour)]
    return []


def sample_of(kind: str, x: float, y: float, shades: dict[str, str]) -> list[str]:
    """The mark, line or arrow of the legend."""
    if kind in ARROW_COLOURS:
        colour = ARROW_COLOURS[kind]
        head = svg.path(["M", x + 11, y, "L", x + 4, y - 3, "L", x + 4, y + 3, "Z"], fill=colour)
        return [svg.line(x - 11, y, x + 5, y, colour, 1.1, ARROW_DASHES[kind]), head]
    if kind in ("cut", "drop"):
        return [svg.line(x - 10, y, x + 10, y, model.RED, 1.5, "1.5 3")]
    if kind == "heal":
        return [svg.line(x - 10, y, x + 10, y, model.GREEN, 1.5)]
    mark = "put" if kind == "heard" else kind
    row = model.Row(0, mark, SAMPLE_COLOURS.get(kind, model.BLACK), heard=kind == "heard", view="", centre=y)
    return mark_of(row, x, {"": "#ffffff"})
