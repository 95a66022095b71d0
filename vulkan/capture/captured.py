"""What a captured submission file says: its nodes, why a hazard is one, and copies of it with something changed."""

import copy
from dataclasses import dataclass

UNORDERED_PRESENT = "presents without waiting for a semaphore"
UNORDERED_ACQUIRE = "an acquire of ownership is behind no wait, or names no stage that a wait holds back"


@dataclass
class Node:
    """A node of a submission: a wait, an item or a signal, where it stands, and what it is."""
    number: int
    queue: int
    batch: int
    kind: str
    entry: dict

    @property
    def action(self):
        return self.kind == "item" and self.entry["item"] == "command"

    @property
    def transition(self):
        return self.kind == "item" and self.entry["item"] == "image" and self.entry["from"] != self.entry["to"]

    @property
    def acquires(self):
        return self.kind == "item" and self.entry["item"] == "acquire"

    @property
    def presents(self):
        return self.action and any(use["as"] == "present" for use in self.entry["uses"])

    def pieces(self):
        if self.action:
            return {use["piece"] for use in self.entry["uses"]}
        return {self.entry["piece"]} if "piece" in self.entry else set()

    def uses_of(self, piece):
        return [use for use in self.entry["uses"] if use["piece"] == piece] if self.action else []


def nodes_of(program):
    """All nodes in the order of their numbers."""
    nodes = []
    for q, queue in enumerate(program["queues"]):
        for b, batch in enumerate(queue["batches"]):
            entries = [("wait", wait) for wait in batch["waits"]] + [("item", item) for item in batch["items"]]
            for kind, entry in entries + [("signal", batch["signal"])]:
                nodes.append(Node(len(nodes), q, b, kind, entry))
    return nodes


def order_of(program, node):
    """When a node was submitted, as far as the codes of actions of its queue tell it: they count in the order of submission."""
    batches = program["queues"][node.queue]["batches"][: node.batch + 1]
    return max((item["code"] for batch in batches for item in batch["items"] if item["item"] == "command"), default=-1)


def dependencies_of(program):
    """The numbers of the dependencies of a file: each barrier's name begins with the one it is of."""
    names = [node.entry["name"] for node in nodes_of(program) if node.kind == "item" and not node.action]
    return sorted({int(name.split()[0]) for name in names})


def without_dependency(program, number):
    """A copy without one dependency. Transitions stay, with empty masks: else the layout would be what is wrong first."""
    made = copy.deepcopy(program)
    for queue in made["queues"]:
        for batch in queue["batches"]:
            batch["items"] = weakened(batch["items"], number)
    return made


def weakened(items, number):
    kept = []
    for item in items:
        if item["item"] == "command" or int(item["name"].split()[0]) != number:
            kept.append(item)
        elif item["item"] == "image" and item["from"] != item["to"]:
            masks = {"src_stage": "", "src_access": "", "dst_stage": "", "dst_access": ""}
            first = not kept or kept[-1]["item"] == "command" or kept[-1]["name"] != item["name"]
            kept.append({key: value for key, value in (item | masks).items() if not (first and key == "joined")})
    return kept


def with_waiting_presents(program):
    """A copy in which each present that waits for nothing waits for what was submitted before it, to see what else is wrong."""
    made = copy.deepcopy(program)
    nodes = nodes_of(program)
    for node in nodes:
        batch = made["queues"][node.queue]["batches"][node.batch]
        if not node.presents or batch["waits"] or node.batch == 0:
            continue
        before = [other for other in nodes if other.action and not other.presents and other.entry["code"] < node.entry["code"]]
        if before:
            last = max(before, key=lambda other: other.entry["code"])
            value = program["queues"][last.queue]["batches"][last.batch]["signal"]["value"]
            batch["waits"].append({"queue": last.queue, "value": value, "stage": "ALL_COMMANDS"})
    return made


def with_waiting_acquires(program):
    """A copy in which each acquire of ownership names all stages, and its batch waits there for the release, to see what else is wrong."""
    made = copy.deepcopy(program)
    releases = {}
    for node in nodes_of(program):
        if node.kind == "item" and node.entry["item"] == "release":
            releases.setdefault(node.entry["piece"], []).append(node)
    for node in nodes_of(made):
        if not node.acquires or not releases.get(node.entry["piece"]):
            continue
        node.entry["dst_stage"] = "ALL_COMMANDS"
        release = releases[node.entry["piece"]].pop(0)
        value = program["queues"][release.queue]["batches"][release.batch]["signal"]["value"]
        waits = made["queues"][node.queue]["batches"][node.batch]["waits"]
        waits.append({"queue": release.queue, "value": value, "stage": "ALL_COMMANDS"})
    return made


def uses_text(node, piece):
    parts = []
    for use in node.uses_of(piece):
        stage = f" in {use['stage']}" if "stage" in use else ""
        parts.append(f"{use['as']}{stage}")
    return ", ".join(parts)


def last_barrier(nodes, action, piece):
    """The barrier of a piece that stands last before an action of the same queue."""
    if not action.action:
        return None
    before = [node for node in nodes if node.queue == action.queue and node.number < action.number and not node.action]
    own = [node for node in before if node.kind == "item" and node.entry.get("piece") == piece]
    return own[-1] if own else None


def text_of(node, piece):
    """A node in a few words: of an action its roles, of a barrier its layouts and its stages."""
    if node.action:
        return f"{node.entry['name']} ({uses_text(node, piece)})"
    entry = node.entry
    layouts = f", {entry['from']}->{entry['to']}" if "from" in entry else ""
    return f"{entry['name']}{layouts}, {entry['src_stage'] or 'NONE'}->{entry['dst_stage'] or 'NONE'}"


@dataclass
class Explanation:
    cause: str
    text: str


def explain(program, verdict):
    """Why an H2 of `check` is one, or nothing where no cause is known."""
    words = verdict.split()
    if words[:2] != ["hazard", "H2"]:
        return None
    nodes = nodes_of(program)
    pair = [nodes[int(words[2])], nodes[int(words[3])]]
    shared = shared_pieces(program, *pair)
    if not shared:
        return None
    cause = cause_of(program, *pair, shared[0])
    name = program["pieces"][shared[0]]["name"]
    text = " / ".join(text_of(node, shared[0]) for node in pair)
    last = last_barrier(nodes, pair[1], shared[0])
    if last is not None and last is not pair[0]:
        text += f", behind {text_of(last, shared[0])}"
    return Explanation(cause, f"{name}: {text}") if cause else None


def shared_pieces(program, one, other):
    return sorted(one.pieces() & other.pieces())


def cause_of(program, one, other, piece):
    """The cause of an unordered pair."""
    if one.acquires or other.acquires:
        return cause_of_acquire(program, one if one.acquires else other)
    presents = [node for node in (one, other) if node.presents]
    if presents:
        rest = other if presents[0] is one else one
        return cause_of_present(program, presents[0], rest)
    if one.transition and other.action:
        return cause_behind(one, other, piece)
    if one.action and other.transition:
        return "a transition is not behind a use before it"
    if one.action and other.action:
        return "two actions touch the piece with no dependency between that names their stages"
    return None


def cause_of_acquire(program, acquire):
    waits = program["queues"][acquire.queue]["batches"][acquire.batch]["waits"]
    if waits and acquire.entry["dst_stage"]:
        return None
    return UNORDERED_ACQUIRE


def cause_of_present(program, present, rest):
    batch = program["queues"][present.queue]["batches"][present.batch]
    if order_of(program, present) > order_of(program, rest):
        return UNORDERED_PRESENT if not batch["waits"] else None
    return "does not wait, at the stage of its barrier, for the acquire"


def cause_behind(transition, action, piece):
    stages = [use.get("stage", use["as"]) for use in action.uses_of(piece)]
    told = transition.entry["dst_stage"]
    if told == "":
        return "a render pass without an external dependency ends a layout change in NONE"
    if any(stage not in told for stage in stages):
        return "a transition is not ordered before a stage that uses the piece"
    return None


# For some causes: a copy of the file that shows what else is wrong, and what is taken otherwise in it.
MENDED = {
    UNORDERED_PRESENT: ("presents taken as waiting", with_waiting_presents),
    UNORDERED_ACQUIRE: ("acquires taken as waiting at all stages", with_waiting_acquires),
}
