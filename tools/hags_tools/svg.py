"""Shapes and texts of an SVG picture, and how wide a text is."""
import html
from collections.abc import Iterable, Iterator

FONT = "DejaVu Sans, Verdana, sans-serif"
# The widths of the characters from 32 to 126 in DejaVu Sans, the widest of the usual fonts without serifs, in thousandths
# of the font's size. BOLD is how much wider a bold text is, SPACED the width of each character of a font of equal widths.
WIDTHS = (
    318, 401, 460, 838, 636, 950, 780, 275, 390, 390, 500, 838, 318, 361, 318, 337, 636, 636, 636, 636, 636, 636, 636,
    636, 636, 636, 337, 337, 838, 838, 838, 531, 1000, 684, 686, 698, 770, 632, 575, 775, 752, 295, 295, 656, 557, 863,
    748, 787, 603, 787, 695, 635, 611, 732, 684, 989, 685, 611, 685, 390, 337, 390, 838, 500, 500, 613, 635, 550, 635,
    615, 352, 635, 634, 278, 278, 579, 278, 974, 634, 612, 635, 635, 411, 521, 392, 634, 592, 818, 592, 592, 525, 636,
    337, 636, 838,
)
BOLD = 1.15
SPACED = 0.602


def text_width(text: str, size: float, bold: bool = False) -> float:
    thousandths = sum(WIDTHS[ord(c) - 32] if " " <= c <= "~" else 1000 for c in text)
    return thousandths * size / 1000 * (BOLD if bold else 1)


def wrapped(text: str, size: float, limit: float, bold: bool = False) -> list[str]:
    """The text in lines of at most this width, broken behind a space or a comma, else behind a `_`, else anywhere."""
    lines, line = [], ""
    for piece in _pieces(text):
        while line and text_width((line + piece).rstrip(), size, bold) > limit:
            lines.append(line.rstrip())
            line = ""
        line += piece
        while text_width(line.rstrip(), size, bold) > limit:
            count = max(1, _fitting(line, size, limit, bold))
            lines.append(line[:count])
            line = line[count:]
    return lines + [line.rstrip()] if line.strip() or not lines else lines


def _pieces(text: str) -> Iterator[str]:
    start = 0
    for at, character in enumerate(text):
        if character in " ,":
            yield text[start : at + 1]
            start = at + 1
    yield text[start:]


def _fitting(text: str, size: float, limit: float, bold: bool) -> int:
    """How many characters fit, up to the last `_` where there is one."""
    count = len(text)
    while text_width(text[:count], size, bold) > limit:
        count -= 1
    return text.rfind("_", 0, count) + 1 or count


def number(value: float) -> str:
    """A length with at most one decimal place."""
    return f"{value:.1f}".removesuffix(".0")


def _element(name: str, attributes: dict[str, object], inside: str | None = None) -> str:
    words = [name]
    for key, value in attributes.items():
        shown = number(value) if isinstance(value, (int, float)) else html.escape(str(value))
        words.append(f'{key.replace("_", "-")}="{shown}"')
    opened = " ".join(words)
    return f"<{opened}/>" if inside is None else f"<{opened}>{inside}</{name}>"


def text(
    x: float, y: float, content: str, size: float, fill: str, bold: bool = False, italic: bool = False, anchor: str = "start", spaced: bool = False
) -> str:
    attributes: dict[str, object] = {"x": x, "y": y, "font_size": size, "fill": fill}
    if bold:
        attributes["font_weight"] = "bold"
    if italic:
        attributes["font_style"] = "italic"
    if anchor != "start":
        attributes["text_anchor"] = anchor
    if spaced:
        attributes["font_family"] = "DejaVu Sans Mono, Menlo, Consolas, monospace"
    return _element("text", attributes, html.escape(content))


def line(x1: float, y1: float, x2: float, y2: float, stroke: str, width: float = 1, dashes: str | None = None) -> str:
    attributes: dict[str, object] = {"x1": x1, "y1": y1, "x2": x2, "y2": y2, "stroke": stroke, "stroke_width": width}
    if dashes:
        attributes["stroke_dasharray"] = dashes
    return _element("line", attributes)


def rect(x: float, y: float, width: float, height: float, fill: str, stroke: str | None = None, corner: float = 0) -> str:
    attributes: dict[str, object] = {"x": x, "y": y, "width": width, "height": height, "fill": fill}
    if stroke:
        attributes["stroke"] = stroke
    if corner:
        attributes["rx"] = corner
    return _element("rect", attributes)


def circle(x: float, y: float, radius: float, fill: str = "none", stroke: str | None = None, width: float = 1) -> str:
    attributes: dict[str, object] = {"cx": x, "cy": y, "r": radius, "fill": fill}
    if stroke:
        attributes |= {"stroke": stroke, "stroke_width": width}
    return _element("circle", attributes)


def path(
    steps: Iterable[str | float], fill: str = "none", stroke: str | None = None, width: float = 1, dashes: str | None = None
) -> str:
    """A path of its letters and lengths, as ["M", 0, 0, "L", 1, 1]."""
    way = " ".join(step if isinstance(step, str) else number(step) for step in steps)
    attributes: dict[str, object] = {"d": way, "fill": fill}
    if stroke:
        attributes |= {"stroke": stroke, "stroke_width": width}
    if dashes:
        attributes["stroke_dasharray"] = dashes
    return _element("path", attributes)


def picture(width: float, height: float, title: str, elements: Iterable[str]) -> str:
    """The whole file."""
    opened = (
        f'<svg xmlns="http://www.w3.org/2000/svg" width="{number(width)}" height="{number(height)}" '
        f'viewBox="0 0 {number(width)} {number(height)}" font-family="{FONT}">'
    )
    return "\n".join([opened, _element("title", {}, html.escape(title)), *elements, "</svg>", ""])
