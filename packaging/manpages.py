#!/usr/bin/env python3
"""Makes the man pages of the pages under docs/ and of the help texts, into a folder.

Nothing stands in a man page but what a page or a help text says, so they cannot differ. What a page says of the clone (the
start script, tools/, a link to another page) is put as it is installed."""
import argparse
import pathlib
import re
import subprocess
from collections.abc import Iterable, Iterator
from dataclasses import dataclass

Block = tuple[str, str]  # its kind, and its lines
TOP = pathlib.Path(__file__).resolve().parent.parent
DOCS = "/usr/share/doc/hags"
BULLET = r"\(bu"
NOT_HERE = ("![", "<!--", "In the sources: ")  # so begin the blocks that a man page leaves out
COMMANDS = ("run", "load", "daemon", "status", "client", "table")
INSTALLED = (("./hags ", "hags "), ("tools/hags-", "hags-"), ("tools/", "hags-"), ("clients/python/hagsctl", "hagsctl"))


@dataclass(frozen=True)
class Part:
    """A part of a page: its heading and its blocks up to the next heading of its level."""

    page: str
    heading: str

    def blocks(self) -> list[Block]:
        text = (TOP / "docs" / self.page).read_text()
        found = re.search(rf"^(#+) {re.escape(self.heading)}\n", text, re.MULTILINE)
        if not found:
            raise ValueError(f"docs/{self.page} has no part {self.heading}")
        rest = text[found.end() :]
        end = re.search(rf"^#{{1,{len(found[1])}}} ", rest, re.MULTILINE)
        return [it for it in blocks_of(rest[: end.start()] if end else rest) if not it[1].startswith(NOT_HERE)]


@dataclass(frozen=True)
class Page:
    """A man page: its name, its section of the manual, what it is in a line, the help texts (each the words of a call), and
    the parts behind them with the headings that they have there."""

    name: str
    section: int
    what: str
    helps: tuple[tuple[str, ...], ...] = ()
    parts: tuple[Part, ...] = ()
    also: tuple[str, ...] = ()


def pages() -> list[Page]:
    own = ("hags", "--help"), *(("hags", command, "--help") for command in COMMANDS)
    words = Part("command-line.md", "Words"), Part("command-line.md", "Values"), Part("command-line.md", "Examples")
    running = [Part("installing.md", it) for it in ("Settings", "Start", "Without systemd", "What is where")]
    running += [Part("operating.md", it) for it in ("Starting", "The options of a service", "Asking", "Clients on other machines", "What to watch")]
    running += [Part("operating.md", it) for it in ("What it writes", "How fast a death is seen", "How long a daemon runs")]
    running += [Part("operating.md", "Receive buffers"), Part("operating.md", "Ports and networks")]
    settings = Part("operating.md", "Settings"), Part("operating.md", "How fast a death is seen"), Part("formats.md", "Settings of a node")
    reading = tuple(Part("formats.md", it) for it in ("The digest of settings", "The input of a client"))
    reading += (Part("messages.md", "Reasons of a bad line"),)
    everything = ("hags(1)", "hagsctl(1)", *(f"hags-{it}(1)" for it in TOOLS), "hags-settings(5)", "hags-daemon(8)", "hags-metrics(8)")
    return [
        Page("hags", 1, "group membership for clusters", own, (*words, Part("messages.md", "Exit statuses of `hags`")), everything),
        Page("hagsctl", 1, "looks at a cluster of hags, and uses it", (("hagsctl", "--help"),), (Part("clients/python.md", "hagsctl"),), everything),
        Page("hags-settings", 5, "the settings of a cluster of hags daemons", (), (*settings, *reading), everything),
        Page("hags-daemon", 8, "starts and watches the daemon of a node", (("hags-daemon", "--help"),), tuple(running), everything),
        Page("hags-metrics", 8, "metrics of hags daemons for Prometheus", (("hags-metrics", "--help"),), (Part("metrics.md", "Metrics and alerts"),), everything),
        *(Page(f"hags-{it}", 1, what, ((f"hags-{it}", "--help"),), (), everything) for it, what in TOOLS.items()),
    ]


TOOLS = {
    "explain": "says what is wrong with a call of hags, and what to write",
    "annotate": "shows which line of a script caused what",
    "draw": "draws a run of hags as a picture",
    "view": "makes of a run of hags a page to look at",
}


# ---- Markdown as the pages have it


def blocks_of(text: str) -> Iterator[Block]:
    """The blocks of Markdown: a kind, and its lines or items."""
    kind: str | None = None
    lines: list[str] = []
    for line in [*text.split("\n"), ""]:
        now = kind_of(line, kind)
        if now != kind or now in ("heading", "item"):
            if kind and any(lines):
                yield kind, "\n".join(lines).rstrip()
            kind, lines = now, []
        lines.append(line)
    if kind and any(lines):
        yield kind, "\n".join(lines).rstrip()


def kind_of(line: str, before: str | None) -> str | None:
    if line.startswith("    ") or (before == "code" and not line):
        return "code" if before != "item" or line.startswith("      ") else "item"
    if re.match(r"#+ ", line):
        return "heading"
    if re.match(r"(-|\d+\.) ", line):
        return "item"
    if line.startswith("|"):
        return "table"
    return "text" if line else None


def roff_text(text: str) -> str:
    """A text with its marks as requests for fonts."""
    for old, new in INSTALLED:
        text = text.replace(old, new)
    text = re.sub(r"\[([^]]*)\]\(#[^)]*\)", r"\1", text).replace("](README.md", "](index.md")
    text = re.sub(r"\[([^]]*)\]\((?!http)(?:\.\./|docs/)*([\w./-]+)[^)]*\)", r"\1 (\2)", text)
    pieces = re.split(r"(`[^`]+`|\*\*[^*]+\*\*|(?<![\w*])\*(?! )[^*]+(?<! )\*(?![\w*]))", text)
    return "".join(map(roff_piece, pieces))


def roff_piece(piece: str) -> str:
    if piece.startswith("`") and len(piece) > 1:
        return rf"\fB{escaped(piece[1:-1])}\fP"
    if piece.startswith("**"):
        return rf"\fB{escaped(piece[2:-2].replace('`', ''))}\fP"
    if piece.startswith("*") and len(piece) > 2:
        return rf"\fI{escaped(piece[1:-1])}\fP"
    return escaped(piece)


def escaped(text: str) -> str:
    return text.replace("\\|", "|").replace("\\", r"\e").replace("-", r"\-").replace("'", r"\(aq").replace("`", r"\(ga").replace("^", r"\(ha").replace("~", r"\(ti")


def roff_line(text: str) -> str:
    """A line that is no request."""
    return r"\&" + text if text.startswith((".", "'")) else text


def literal(lines: Iterable[str]) -> list[str]:
    return [".PP", ".RS 4", ".nf", *(roff_line(escaped(line)) for line in lines), ".fi", ".RE"]


def roff_block(kind: str, text: str) -> list[str]:
    if kind == "heading":
        marks, heading = text.split(" ", 1)
        return [f".SS {roff_text(heading)}"]
    if kind == "code":
        lines = text.split("\n")
        least = min(len(line) - len(line.lstrip()) for line in lines if line.strip())
        for old, new in INSTALLED:
            lines = [line.replace(old, new) for line in lines]
        return literal([line[least:] for line in lines])
    if kind == "item":
        mark, first = text.split(" ", 1)
        tag = BULLET if mark == "-" else mark
        return [f".IP {tag} 3", *(roff_line(roff_text(line.strip())) for line in first.split("\n"))]
    if kind == "table":
        return roff_table([cells_of(line) for line in text.split("\n")])
    return [".PP", roff_line(roff_text(" ".join(line.strip() for line in text.split("\n"))))]


def cells_of(line: str) -> list[str]:
    return [cell.strip() for cell in re.split(r"(?<!\\)\|", line)[1:-1]]


def roff_table(rows: list[list[str]]) -> list[str]:
    """A row is a paragraph with its first cell as the tag; of more than two columns the others name themselves."""
    heads, _, *rows = rows
    lines = []
    for first, *rest in rows:
        tag = roff_text(first.replace("`", ""))
        lines += [".TP", rf"\fB{tag}\fP"]
        named = [(head, cell) for head, cell in zip(heads[1:], rest) if cell]
        if len(heads) == 2:
            lines += [roff_line(roff_text(cell)) for _, cell in named]
        for head, cell in named if len(heads) > 2 else ():
            lines += [rf"\fI{roff_text(head)}:\fP {roff_text(cell)}", ".br"]
        if not named:
            lines.append(r"\&")
    return lines


# ---- pages


def help_text(words: tuple[str, ...], program: pathlib.Path) -> str:
    """What a call says of itself, at the width of a page, as it is installed."""
    places = {"hags": program, "hagsctl": TOP / "clients" / "python" / "hagsctl"}
    places |= {it: TOP / "tools" / it for it in ("hags-daemon", "hags-metrics")}
    start = places.get(words[0]) or TOP / "tools" / words[0].removeprefix("hags-")
    environment = {"COLUMNS": "80", "PATH": "/usr/bin:/bin"}
    ran = subprocess.run([start, *words[1:]], capture_output=True, text=True, check=True, env=environment)
    text = ran.stdout.replace(f"usage: {start.name} ", f"usage: {words[0]} ").replace("(./hags)", "(/usr/bin/hags)")
    return text.replace("docs/", f"{DOCS}/").rstrip()


def roff_page(page: Page, program: pathlib.Path) -> str:
    title = f'.TH {page.name.upper()} {page.section} "" "hags" "hags manual"'
    lines = [title, ".SH NAME", rf"{escaped(page.name)} \- {escaped(page.what)}"]
    for words in page.helps:
        heading = escaped(" ".join(words[:-1]).upper())
        lines += [f".SH {heading}", *literal(help_text(words, program).split("\n"))]
    for part in page.parts:
        heading = roff_text(part.heading.upper().replace("`", ""))
        lines.append(f".SH {heading}")
        for kind, text in part.blocks():
            lines += roff_block(kind, text)
    others = [it for it in page.also if it != f"{page.name}({page.section})"]
    lines += [".SH FILES", f"The pages that are named here stand in {DOCS}.", ".SH SEE ALSO", escaped(", ".join(others)) + "."]
    return "\n".join(lines) + "\n"


def write(folder: pathlib.Path, program: pathlib.Path) -> None:
    """Writes all pages into a folder, as NAME.SECTION."""
    for page in pages():
        (folder / f"{page.name}.{page.section}").write_text(roff_page(page, program))


def main() -> None:
    parser = argparse.ArgumentParser(description=__doc__, formatter_class=argparse.RawDescriptionHelpFormatter)
    parser.add_argument("--program", metavar="FILE", type=pathlib.Path, default=TOP / "hags", help="the program (./hags)")
    parser.add_argument("folder", metavar="FOLDER", type=pathlib.Path)
    options = parser.parse_args()
    options.folder.mkdir(parents=True, exist_ok=True)
    write(options.folder, options.program)


if __name__ == "__main__":
    main()
