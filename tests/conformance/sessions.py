"""Compares what clients heard with what their daemons wrote, over lines alone."""
from hags_tools.comparing import Fault


def own_events(session, life, has_entries):
    """What the daemon has for this client, by what it wrote: the client's own lines; and where daemons tell entries, before
    the first `heard` of an entry the line in which the daemon put it."""
    puts, told, events = {}, set(), []
    for line in life.lines:
        words = line.split(" ", 5)
        if words[0] == "put":
            puts[tuple(words[2:5])] = line
        elif session.is_own(line):
            entry = tuple(words[2:5])
            if words[0] == "heard" and has_entries and entry not in told:
                told.add(entry)
                events.append(puts[entry])
            events.append(line)
    return events


def compare_events(session, life, least, has_entries):
    """What was heard is the beginning of what the daemon has for this client, and so much of it at least."""
    own = own_events(session, life, has_entries)
    heard = session.lines
    if heard != own[: len(heard)]:
        at = next(at for at, line in enumerate(heard) if own[at : at + 1] != [line])
        raise Fault(f"{session.name} of {life.name}: event {at + 1} is {heard[at]}\n  and not {own[at : at + 1]}")
    if len(heard) < least:
        raise Fault(f"{session.name} of {life.name}: {len(heard)} of {least} events were heard")


def compare_refusals(session, life):
    """The refusals that were told are those that the daemon wrote, in order. The last one may not have been told."""
    own = [line.split(" ", 2)[2] for line in life.lines if session.is_refusal(line)]
    if session.refused != own[: len(session.refused)] or len(own) > len(session.refused) + 1:
        raise Fault(f"{session.name} of {life.name}: it was refused {session.refused}\n  and not {own}")


def asked_by(session, life):
    """What the daemon carried out of this client's calls, each as PROVIDER/NUMBER, its group and its kind."""
    lines = [line.split(" ") for line in life.lines if line.startswith("asked ") and session.is_own(line)]
    return [(f"{words[1]}/{words[2]}", words[3], words[4]) for words in lines]


def compare_calls(session, life, is_whole, begun):
    """Each call that was taken was carried out once, with its value, and came to something where its daemon lives."""
    where = f"{session.name} of {life.name}"
    asked, taken = asked_by(session, life), session.taken
    if not len(taken) <= len(asked) <= len(taken) + (not is_whole):
        raise Fault(f"{where}: {len(taken)} calls were taken that ask, and {len(asked)} carried out")
    for command, (request, group, kind) in zip(taken, asked):
        words = command.split(" ")
        if (kind, group) != (words[0], words[1]):
            raise Fault(f"{where}: {command}: carried out as {kind} {group}")
        values = begun.get(request, set())
        if kind == "state" and any(value != spelled(words[3]) for value in values):
            raise Fault(f"{where}: {command}: begun with {values}")
    for request in undecided(session, life, begun) if is_whole else ():
        raise Fault(f"{where}: {request}: taken, and nothing came of it")


def spelled(text):
    """The text of a call as a transcript spells that value: a byte that need not be escaped is not."""
    at, out = 0, []
    while at < len(text):
        is_escaped = text[at] == "%"
        byte = int(text[at + 1 : at + 3], 16) if is_escaped else ord(text[at])
        out.append(chr(byte) if 0x20 < byte < 0x7F and byte != ord("%") else f"%{byte:02X}")
        at += 3 if is_escaped else 1
    return "".join(out)


def undecided(session, life, begun):
    """The requests of a session that have neither begun nor been refused, of providers whose membership goes on."""
    told, is_member = set(), {}
    for line in session.lines:
        words = line.split(" ")
        if words[0] == "told":
            told.add(f"{words[1]}/{words[2]}")
            if words[3] == "DISSOLVED":
                is_member[words[1]] = False
        elif words[0] == "heard":
            is_member[words[1]] = words[1] in words[6].split(",")
    open_ones = [request for request, _, _ in asked_by(session, life) if request not in begun and request not in told]
    return [request for request in open_ones if is_member.get(request.split("/")[0], True)]


def compare_stands(session, places, views):
    """What was told of how a group stands is what all heard at that place, and hosts are the nodes of that view. How often
    was it told?"""
    told = [answer.split(" ")[1:] for _, answer in session.calls if answer.startswith("stands ")]
    for _, whom, view, group, place, *stands in told:
        is_hosts = group == "HostMembership"
        heard = [views[view], "="] if is_hosts else places.get((view, group, place), (None, ["", *stands]))[1][1:]
        if whom != f"{session.node}.{session.name}" or heard != stands:
            raise Fault(f"{session.name}: told that {group} stands at {stands} at {view} {place}, and heard {heard}")
    return len(told)


def compare_places(session, places):
    """All clients heard the same at a place, and were told the same entry there; and each provider hears the places of a
    view one after another."""
    last = {}
    for line in session.lines:
        if line.startswith("put "):
            _, _, view, group, place, entry = line.split(" ", 5)
            known = places.setdefault(("put", view, group, place), (session.name, entry))
            if known[1] != entry:
                raise Fault(f"{session.name}: {line}\n  {known[0]} was told {known[1]} there")
        if not line.startswith("heard "):
            continue
        _, provider, view, group, place, *said = line.split(" ")
        known = places.setdefault((view, group, place), (session.name, said))
        if known[1] != said:
            raise Fault(f"{session.name}: {line}\n  {known[0]} heard {known[1]} there")
        list_of = (provider, view)
        if list_of in last and int(place) != last[list_of] + 1:
            raise Fault(f"{session.name}: {line}\n  heard place {last[list_of]} before")
        last[list_of] = int(place)
