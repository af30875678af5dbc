"""A run as one page of HTML that looks at itself: it carries its lines, packed, and what was found wrong with them."""
import base64
import gzip
import html
import json
import pathlib
from collections.abc import Iterable

from hags_tools import comparing, records

Fault = tuple[str, list[int]]  # a text, and the places of its lines from 0
TEMPLATE = pathlib.Path(__file__).with_name("page.html")
SCRIPT_MARK = "> "  # before a line of the script, which is no record


def page(title: str, lines: Iterable[str], faults: Iterable[Fault]) -> str:
    """The page. Lines of the script have their mark; a fault is a text and the places of its lines, from 0."""
    packed = gzip.compress("".join(f"{line}\n" for line in lines).encode("ascii", "replace"), mtime=0)
    facts = {"faults": [{"text": text, "lines": places} for text, places in faults]}
    parts = {
        "@TITLE@": html.escape(title),
        "@DATA@": base64.b64encode(packed).decode(),
        "@FACTS@": json.dumps(facts).replace("<", "\\u003c"),
    }
    text = TEMPLATE.read_text()
    for mark, part in parts.items():
        text = text.replace(mark, part)
    return text


def faults_of(lines: list[str]) -> list[Fault]:
    """What is wrong with the records among these lines: where the comparison ends, as a text with the line and, where that
    contradicts another one, that line too."""
    own = [(place, line) for place, line in enumerate(lines) if not line.startswith(SCRIPT_MARK)]
    places: dict[str, list[int]] = {}  # by life, the places of its lines
    incarnations: dict[int, str] = {}
    for place, line in own:
        record = records.read(line)
        if isinstance(record, records.Up):
            incarnations[record.node] = f"node-{record.node}.{record.incarnation}"
        if isinstance(record, records.Down):
            incarnations.pop(record.node, None)
        elif not isinstance(record, records.Show) and record.node in incarnations:
            places.setdefault(incarnations[record.node], []).append(place)
    try:
        comparing.compare(comparing.lives_of([line for _, line in own]), comparing.anybody)
    except comparing.Fault as fault:
        found = [places[fault.life.name][fault.number - 1]] if fault.life else []
        if fault.other:
            found.insert(0, places[fault.other[0]][fault.other[1] - 1])
        return [(str(fault).replace("\n ", ":"), found)]
    return []


Thing = tuple[object, ...]  # a request, or a vote


class Wants:
    """What must come before a record in an order of all nodes' records: a request is asked before it is put, and a vote is cast
    before it is counted."""

    def __init__(self, files: Iterable[list[records.Record]]) -> None:
        self.there = {thing for own in files for record in own for thing in self.brings(record)}
        self.come: set[Thing] = set()

    def brings(self, record: records.Record) -> list[Thing]:
        if isinstance(record, records.Asked):
            return [("asked", f"{record.provider}/{record.request}")]
        return [record[:3]] if isinstance(record, records.Cast) else []

    def needs(self, record: records.Record) -> list[Thing]:
        if not isinstance(record, records.Put):
            return []
        entry = record.entry
        if entry.proposal:
            return [("asked", request) for request in entry.proposal.requests]
        return [(provider, entry.protocol, entry.phase) for provider, _ in entry.rows]

    def may_come(self, record: records.Record) -> bool:
        return all(need in self.come or need not in self.there for need in self.needs(record))

    def take(self, record: records.Record) -> None:
        self.come |= set(self.brings(record))


def merged(files: list[list[str]]) -> list[str]:
    """The lines of several daemons in one order, each daemon's as they are: what was asked and cast stands before what came
    of it, a view's lines before those of a later view, and else the daemon goes on that has come least far."""
    read = [[records.read(line) for line in lines] for lines in files]
    wants = Wants(read)
    at = [0] * len(files)
    views: list[tuple[int, ...]] = [(0, 0, 0)] * len(files)
    lines = []
    while left := [one for one in range(len(files)) if at[one] < len(files[one])]:
        ready = [one for one in left if wants.may_come(read[one][at[one]])]
        one = min(ready or left, key=lambda it: (views[it], at[it] / len(files[it])))
        record = read[one][at[one]]
        if isinstance(record, records.In):
            views[one] = records.view_order(record.view)
        elif isinstance(record, records.Up):
            views[one] = (0, 0, 0)
        wants.take(record)
        lines.append(files[one][at[one]])
        at[one] += 1
    return lines
