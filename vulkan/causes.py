"""Why `check` and the validation layer part on a submission, computed from the file."""

import collections
import json
import pathlib

# `right`: whose word the standard supports; `both` where each names a fault of the file, `open` where no sentence of it was found.
# `where`: a paragraph of Vulkan 1.3 by its number, a rule of valid usage by its name, or a section by its title and anchor.
Cause = collections.namedtuple("Cause", "name text where right")
CAUSES = {entry["name"]: Cause(**entry) for entry in json.loads((pathlib.Path(__file__).parent / "causes.json").read_text())}

ATTACHMENTS = {"COLOR_ATTACHMENT_OUTPUT", "EARLY_FRAGMENT_TESTS", "LATE_FRAGMENT_TESTS"}
TESTS = {"EARLY_FRAGMENT_TESTS", "LATE_FRAGMENT_TESTS"}
OF_STATE = {"H6": "owner", "H8": "contents", "H9": "contents"}


def names(mask):
    return {name for name in mask.split("|") if name}


class Pair:
    """The two nodes of a hazard, and their accesses that clash."""

    def __init__(self, submission, first, second):
        self.submission, self.first, self.second = submission, first, second
        self.clashes = [
            (one, other)
            for one in submission.accesses(first)
            for other in submission.accesses(second)
            if submission.overlap(one.piece, other.piece) and (self.changes(one) or self.changes(other))
        ]

    @staticmethod
    def changes(access):
        return access.stores or access.access == "transfer"

    def nodes(self):
        return [self.submission.nodes[self.first], self.submission.nodes[self.second]]

    def all(self, test):
        return bool(self.clashes) and all(test(one, other) for one, other in self.clashes)

    def any(self, test):
        return any(test(one, other) for one, other in self.clashes)

    def one_queue(self):
        first, second = self.nodes()
        return first.queue == second.queue

    def between(self):
        """Accesses of the same memory by nodes that are taken between the two."""
        order = self.submission.order
        start, end = sorted((order.index(self.first), order.index(self.second)))
        pieces = {access.piece for clash in self.clashes for access in clash}
        found = [access for node in order[start + 1 : end] for access in self.submission.accesses(node)]
        return [one for one in found if any(self.submission.overlap(one.piece, piece) for piece in pieces)]


def by_host(pair):
    return any(node.kind == "host" for node in pair.nodes())


def by_outside(pair):
    return any(node.kind == "hand-over" for node in pair.nodes())


def by_alias(pair):
    image = pair.submission.is_image
    return pair.all(lambda one, other: one.piece != other.piece and (image(one.piece) or image(other.piece)))


def by_parts(pair):
    return pair.all(lambda one, other: one.piece == other.piece and not (one.first < other.end and other.first < one.end))


def by_transfer(pair):
    return pair.any(lambda one, other: "transfer" in (one.access, other.access))


def by_storage(pair):
    def same(one, other):
        return one.access == other.access == "SHADER_STORAGE_WRITE" and one.stage == other.stage

    return pair.any(same)


def by_read_and_write(pair):
    def both(one, other):
        stored = [access for access in pair.submission.accesses(pair.second) if access.stores and access.piece == other.piece]
        return other.access == "SHADER_STORAGE_READ" and bool(stored)

    return pair.any(both)


def by_depth(pair):
    return pair.any(lambda one, other: one.stage in TESTS or other.stage in TESTS)


def attaches(access):
    return access.stage in ATTACHMENTS or access.access == "INPUT_ATTACHMENT_READ"


def by_attached(pair):
    return pair.one_queue() and pair.any(lambda one, other: attaches(one) and attaches(other))


def by_turns(pair):
    return pair.one_queue() and pair.all(lambda one, other: one.access == other.access == "transition" and one.piece == other.piece)


def by_between(pair):
    return bool(pair.between())


def by_other_queue(pair):
    """The first is a read of another queue, which waited before for the queue of the second."""
    first, second = pair.nodes()
    waited = [
        node.value["queue"] == second.queue and node.queue == first.queue
        for node in pair.submission.nodes[: pair.first]
        if node.kind == "wait"
    ]
    return first.queue != second.queue and any(waited) and pair.any(lambda one, other: not one.stores)


# The causes of silence with what shows them, in the order in which they are tried.
SILENT = [
    ("host", by_host),
    ("outside", by_outside),
    ("alias", by_alias),
    ("parts", by_parts),
    ("transfer", by_transfer),
    ("turns", by_turns),
    ("storage", by_storage),
    ("depth", by_depth),
    ("attached", by_attached),
    ("read and write", by_read_and_write),
    ("other queue", by_other_queue),
    ("between", by_between),
]

UNTESTED_LAYOUTS = ("color", "depth", "depth_read", "resolve_read", "resolve_write")


def renders(item, piece):
    """Whether the piece is an attachment of the command, or resolved by it."""
    uses = [use for use in item.get("uses", []) if use["piece"] == piece]
    return item.get("op") == "draw" or any(use["as"] in UNTESTED_LAYOUTS for use in uses)


def of_silence(submission, verdict):
    """Why the layer says nothing where `check` names a hazard; None where no cause is found."""
    return CAUSES.get(silence(submission, verdict))


def silence(submission, verdict):
    number, *fields = verdict.split()[1:]
    if number == "H5":
        node = submission.nodes[int(fields[0])]
        return "layout" if node.kind == "command" and renders(node.value, int(fields[1])) else None
    if number == "H7":
        return "half" if submission.nodes[int(fields[0])].kind == "release" else None
    if number in OF_STATE:
        return OF_STATE[number]
    pair = Pair(submission, int(fields[0]), int(fields[1]))
    return next((cause for cause, holds in SILENT if holds(pair)), None)


def leads_to_host(submission):
    """Whether a signal follows a barrier to HOST from stages that the signal does not have."""
    for k, node in enumerate(submission.nodes):
        if isinstance(node.value, dict) and "HOST" in names(node.value.get("dst_stage", "")):
            later = [one for one in submission.nodes[k:] if one.kind == "signal" and one.queue == node.queue]
            if any(not names(one.value["stage"]) & (names(node.value["src_stage"]) | {"ALL_COMMANDS"}) for one in later):
                return True
    return False


def semaphores(submission, kind):
    """Whether a signal, or a wait, names other stages than all."""
    return any(node.kind == kind and "ALL_COMMANDS" not in names(node.value["stage"]) for node in submission.nodes)


def of_message(submission, verdict):
    """Why the layer reports a hazard where `check` finds none of H2 to H4; None where no cause is found."""
    return CAUSES.get(message(submission, verdict))


def message(submission, verdict):
    if verdict.startswith("hazard") and touches_released(submission, int(verdict.split()[2])):
        return "released"
    if releases_unavailable(submission):
        return "at release"
    if leads_to_host(submission):
        return "after host"
    if submission.wide and semaphores(submission, "signal"):
        return "signal"
    if submission.wide and semaphores(submission, "wait"):
        return "wait"
    return None


def releases_unavailable(submission):
    """Whether a release changes a layout and does not make the last store before it available."""
    last = {}
    for k, node in enumerate(submission.nodes):
        if node.kind == "release" and node.value.get("from") != node.value.get("to"):
            store = last.get((node.queue, node.value["piece"]))
            if store and not names(node.value["src_access"]) & {store.access, "MEMORY_WRITE", "SHADER_WRITE"}:
                return True
        last |= {(node.queue, access.piece): access for access in submission.accesses(k) if access.stores}
    return False


def touches_released(submission, node):
    """Whether the node touches a piece that its own queue has released before."""
    pieces = {access.piece for access in submission.accesses(node)} if node < len(submission.nodes) else set()
    queue = submission.nodes[node].queue
    released = [one for one in submission.nodes[:node] if one.kind == "release" and one.queue == queue]
    return any(one.value["piece"] in pieces for one in released)


# Rules of core validation on what the profile accepts, and what of a file makes them fail.
ASKED = {
    "VUID-vkCmdCopyBuffer-pRegions-00117": "source and destination of a copy do not overlap",
    "VUID-VkImageMemoryBarrier2-oldLayout-01197": "a barrier names the layout that the image is in",
    "VUID-vkCmdCopyImage-srcImageLayout-01917": "in PRESENT_SRC_KHR no image is copied; here a copy stands for presenting",
}


def copies_in_place(submission):
    items = [node.value for node in submission.nodes if node.kind == "command"]
    return any(item["op"] == "copy_buffer" and submission.overlap(item["src"], item["dst"]) for item in items)


def names_another_layout(submission):
    """Whether a barrier or half without a change of layout names another layout than its image has."""
    layouts = {}
    for node in map(submission.nodes.__getitem__, submission.order):
        if node.kind not in ("image", "release", "acquire") or "from" not in node.value:
            continue
        piece, old, new = node.value["piece"], node.value["from"], node.value["to"]
        if old == new and old != layouts.get(piece, "UNDEFINED"):
            return True
        if node.kind != "release":
            layouts[piece] = new
    return False


def presents(submission):
    """Whether the presentation engine reads an image."""
    uses = [use for node in submission.nodes if node.kind == "command" for use in node.value.get("uses", [])]
    return any(use["as"] == "present" for use in uses)


LESS = {
    "VUID-vkCmdCopyBuffer-pRegions-00117": copies_in_place,
    "VUID-VkImageMemoryBarrier2-oldLayout-01197": names_another_layout,
    "VUID-vkCmdCopyImage-srcImageLayout-01917": presents,
}


def asks_less(submission, name):
    """Whether the profile asks less than this rule of Vulkan, and the file shows it."""
    return name in LESS and LESS[name](submission)
