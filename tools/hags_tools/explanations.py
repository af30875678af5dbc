"""Plain sentences for refusals, `told` records and the end of a play, which `tools/annotate --explain` prints."""
from hags_tools import playing, reading, records


class Names:
    """What is known of the providers and requests of a run, so that a sentence can name them."""

    def __init__(self) -> None:
        self.client_of: dict[str, str] = {}
        self.group_of: dict[str, str] = {}
        self.kind_of: dict[tuple[str, int], str] = {}

    def learn(self, step: playing.Step, record: records.Record) -> None:
        if isinstance(record, records.Asked):
            self.kind_of[record.provider, record.request] = record.kind
            self.group_of[record.provider] = record.group
            if record.kind == "join":
                self.client_of[record.provider] = step.words()[1]

    def client(self, provider: str) -> str:
        return self.client_of.get(provider, provider)


def of_record(step: playing.Step, record: records.Record, names: Names) -> str:
    """The sentence for a record of a step, empty for one that needs none."""
    if isinstance(record, records.Refused):
        return _of_refusal(step.words(), record)
    if isinstance(record, records.Told):
        return _of_telling(record, names)
    return ""


def _of_refusal(call: list[str], record: records.Refused) -> str:
    node, name, code, rest = record.node, record.name, record.code, record.detail
    group = call[2] if len(call) > 2 else ""
    if code == "NO_INIT":
        return (
            f"{name} has no session: node {node} is down, or no client has a session there. Start the node, and open one "
            "with `client`."
        )
    if code == "EXISTS":
        return {
            "client": f"{name} has a session at node {node} already. A client has one at a time.",
            "join": f"{name} has joined {group} already, or asks to. A client has one provider of a group.",
            "subscribe": f"{name} has subscribed to {group} already.",
        }.get(call[0], "")
    if code == "NAME_TOO_LONG":
        return "A group name has at most 32 bytes."
    if code == "BAD_PARAMETER":
        return _of_parameter(name, group, rest[0])
    if code == "BAD_CLIENT_TOKEN":
        return f"{name} has no open session: it said goodbye, or its node has stopped since. Open one with `client`."
    if code == "BAD_MEMBER_TOKEN":
        return f"{name} has no provider of {group}. Join first; who has left or was taken off must join again."
    if code == "UNKNOWN_GROUP":
        return f"Node {node} holds no list of {group}. It does once somebody has joined the group in its view."
    if code == "BAD_GROUP_ATTRIBUTES":
        return {
            "limit": "The attribute limit is over 10000 ticks.",
            "slimit": "The attribute slimit is over 10000 ticks.",
            "source": "A group can follow neither itself nor HostMembership.",
        }[rest[0]]
    if code == "VOTE_NOT_EXPECTED":
        return (
            f"No phase of {group} waits for a ballot of {name}: none is open for it, or it has voted in this phase already."
        )
    if code == "COLLIDE":
        return (
            f"Request {rest[0]} of {name} is not decided yet, and a provider has one request at a time. Let packets flow "
            "first."
        )
    if code == "SESSIONS_FULL":
        return f"Node {node} has {rest[0]} sessions, the most that a node holds."
    if code == "SPENT":
        return f"Node {node} has no number left to give in this incarnation."
    if code == "NO_MEMORY":
        return "There was no memory for the call."
    return ""


def _of_parameter(name: str, group: str, field: str) -> str:
    return {
        "name": "HostMembership is the name of the hosts of the view, which nobody can join.",
        "value": "A value has at most 256 bytes in a view of level 1, and 1024 in one of level 2.",
        "message": "A message has at most 1024 bytes.",
        "targets": "The providers to be expelled are 1 to 64 different ones.",
        "subscription": f"{name} has no subscription to {group}.",
    }[field]


def _of_telling(record: records.Told, names: Names) -> str:
    provider, request, code, rest = record
    name = names.client(provider)
    group = names.group_of.get(provider, "its group")
    kind = names.kind_of.get((provider, request), "")
    node, instance = provider.split(".")[0], provider.split(".")[2]
    asked = f"The {kind} that {name} asked for is refused" if kind else f"What {name} asked for is refused"
    if code == "COLLIDE":
        return f"{asked}: protocol {rest[0]} was running, and a group runs one at a time. Ask again when it has ended."
    if code == "DUPLICATE_INSTANCE_NUMBER":
        return (
            f"{asked}: a provider of node {node} with the instance number {instance} is in {group}, or waits to join. Take "
            "another number."
        )
    if code == "NO_SOURCE_GROUP_PROVIDER":
        return (
            f"{asked}: the source group has no member on node {node}; where {group} is led, its list is {rest[0]} long. Join "
            "the source group there first."
        )
    if code == "BAD_GROUP_ATTRIBUTES":
        if kind == "join":
            return f"{asked}: {group} is in use with other attributes. Join with the same ones."
        return f"{asked}: attributes of a group can change, but for its source group."
    if code == "NOT_A_MEMBER":
        if kind == "expel":
            return f"{asked}: {name}, or a provider that it names, is no member of {group}."
        return f"{asked}: {name} is no member of {group}; its join is not approved yet, or it is out or failed."
    if code == "LIST_FULL":
        return f"{asked}: the list of {group} is full with {rest[0]} places/bytes; the next view begins it anew."
    if code == "GROUP_FULL":
        return f"{asked}: {rest[0]} providers are in {group}, running joiners included, or {rest[0]} wait to join."
    if code == "GROUPS_FULL":
        return f"{asked}: there are {rest[0]} groups, the most that there can be."
    if code == "DISSOLVED":
        return (
            f"{name} is a provider of {group} no more: its node came into this view from a side whose {group} did not go on. "
            "It may join again."
        )
    return ""


def of_failure(played: playing.Steps, script: bytes) -> str:
    """The sentence for the line of a script at which its play ended."""
    if played.status != playing.BAD_LINE:
        return {
            3: "Memory ran out here; what stands above was written.",
            4: "The script could not be read to its end.",
            5: "The transcript could not be written to its end.",
            7: "The packets of a run have at most 536870912 bytes, and pass that here. Play a shorter script.",
        }[played.status]
    _, fault = reading.read(script, reading.SCRIPT)
    return fault.advice if fault else ""
