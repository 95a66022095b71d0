"""What a submission file says: its nodes, and what each of them touches."""

import collections

from roles import ROLES, loads_old_bytes, stages_of

Access = collections.namedtuple("Access", "node piece stage access stores first end")
Node = collections.namedtuple("Node", "kind queue batch item value")

COPIES = ("copy_buffer", "copy_image", "buffer_to_image", "image_to_buffer")
# Sources, and whether the destination is loaded where not all is stored.
SOURCES = {"select": ["mask", "a", "b"], "combine": ["a", "b"]}


class Submission:
    """A program of a file: its pieces one by one, and its nodes by their numbers."""

    def __init__(self, program):
        self.wide = program["format"] == 3
        self.pieces = [piece for entry in program["pieces"] for piece in self.layers(entry)]
        self.families = [queue["family"] for queue in program["queues"]]
        self.nodes = []
        for q, queue in enumerate(program["queues"]):
            for b, batch in enumerate(queue["batches"]):
                self.nodes += [Node("wait", q, b, None, wait) for wait in batch.get("waits", [])]
                self.nodes += [Node(item["item"], q, b, k, item) for k, item in enumerate(batch.get("items", []))]
                if batch.get("signal"):
                    self.nodes.append(Node("signal", q, b, None, batch["signal"]))
        self.nodes += [Node("host", None, None, None, piece) for piece in program["readbacks"]]
        self.nodes += [Node("hand-over", None, None, None, k) for k, piece in enumerate(self.pieces) if "final" in piece]
        self.order = self.drain(program)

    @staticmethod
    def layers(entry):
        """An entry of `pieces` for each layer, with its bytes."""
        if "buffer" in entry or "texture" in entry:
            size = entry.get("buffer", entry.get("texture"))
        else:
            size = entry["image"][0] * entry["image"][1] * (4 if entry["texel"] == "r32" else 1)
        offset = entry["offset"]
        for _ in range(entry.get("layers", 1)):
            yield {**entry, "bytes": size, "offset": offset}
            offset = -(-(offset + size) // 256) * 256

    def is_image(self, piece):
        return "buffer" not in self.pieces[piece]

    def overlap(self, one, other):
        """Whether two pieces have bytes of a memory in common."""
        a, b = self.pieces[one], self.pieces[other]
        same = a["memory"] == b["memory"]
        return same and a["offset"] < b["offset"] + b["bytes"] and b["offset"] < a["offset"] + a["bytes"]

    def drain(self, program):
        """The numbers of nodes in the order in which they are taken: always the lowest queue that can go on."""
        lists = [[k for k, node in enumerate(self.nodes) if node.queue == q] for q in range(len(program["queues"]))]
        reached, order = [0] * len(lists), []
        while True:
            for nodes in lists:
                if nodes and self.can_go(self.nodes[nodes[0]], reached):
                    break
            else:
                break
            k = nodes.pop(0)
            if self.nodes[k].kind == "signal":
                reached[self.nodes[k].queue] = self.nodes[k].value["value"]
            order.append(k)
        return order + [k for k, node in enumerate(self.nodes) if node.queue is None]

    @staticmethod
    def can_go(node, reached):
        return node.kind != "wait" or reached[node.value["queue"]] >= node.value["value"]

    def accesses(self, k):
        """What node k touches, in its order; a transition by `stage` None."""
        node = self.nodes[k]
        if node.kind == "command":
            return self.of_command(k, node.value)
        if node.kind in ("image", "acquire") and node.value.get("from") != node.value.get("to"):
            return [self.whole(k, node.value["piece"], None, "transition", True)]
        if node.kind in ("acquire", "release"):
            return [self.whole(k, node.value["piece"], None, "transfer", False)]
        if node.kind in ("host", "hand-over"):
            return [self.whole(k, node.value, "HOST", "HOST_READ", node.kind == "hand-over")]
        return []

    def whole(self, node, piece, stage, access, stores):
        return Access(node, piece, stage, access, stores, 0, self.pieces[piece]["bytes"])

    def of_command(self, k, item):
        op = item["op"]
        if op == "action":
            return [access for use in item["uses"] for access in self.of_use(k, use, False)] + [
                access for use in item["uses"] for access in self.of_use(k, use, True)
            ]
        if op == "fill_buffer":
            return [Access(k, item["dst"], "CLEAR", "TRANSFER_WRITE", True, item["offset"], item["offset"] + item["size"])]
        if op == "clear_image":
            return [self.whole(k, item["dst"], "CLEAR", "TRANSFER_WRITE", True)]
        if op in COPIES:
            return self.of_copy(k, item)
        if op == "draw":
            loads = [] if "clear" in item else [self.whole(k, item["dst"], "COLOR_ATTACHMENT_OUTPUT", "COLOR_ATTACHMENT_READ", False)]
            return [*loads, self.whole(k, item["dst"], "COLOR_ATTACHMENT_OUTPUT", "COLOR_ATTACHMENT_WRITE", True)]
        return self.of_kernel(k, item)

    def of_copy(self, k, item):
        source = self.whole(k, item["src"], "COPY", "TRANSFER_READ", False)
        store = self.whole(k, item["dst"], "COPY", "TRANSFER_WRITE", True)
        if item["op"] == "copy_buffer":
            source = source._replace(first=item["src_offset"], end=item["src_offset"] + item["size"])
            store = store._replace(first=item["dst_offset"], end=item["dst_offset"] + item["size"])
        elif item["op"] == "buffer_to_image":
            source = source._replace(first=item["offset"], end=item["offset"] + self.pieces[item["dst"]]["bytes"])
        elif item["op"] == "image_to_buffer":
            store = store._replace(first=item["offset"], end=item["offset"] + self.pieces[item["src"]]["bytes"])
        elif item["op"] == "copy_image":
            source, store = self.rows(source, item, "src"), self.rows(store, item, "dst")
        return [source, store]

    def rows(self, access, item, side):
        """The bytes from the first row of a rectangle to its last one."""
        piece = self.pieces[access.piece]
        row = piece["image"][0] * (4 if piece["texel"] == "r32" else 1)
        return access._replace(first=item[f"{side}_y"] * row, end=(item[f"{side}_y"] + item["height"]) * row)

    def of_kernel(self, k, item):
        names = SOURCES.get(item["op"], [] if item["op"] == "ramp" else ["src"])
        loads = []
        for piece in dict.fromkeys(item[name] for name in names):
            access = "SHADER_SAMPLED_READ" if self.is_image(piece) else "SHADER_STORAGE_READ"
            loads.append(self.whole(k, piece, "COMPUTE_SHADER", access, False))
        return [*loads, self.whole(k, item["dst"], "COMPUTE_SHADER", "SHADER_STORAGE_WRITE", True)]

    def of_use(self, k, use, stores):
        role = ROLES[use["as"]]
        if not (role.writes if stores else loads_old_bytes(use)):
            return []
        access = role.writes if stores else role.reads or role.writes
        return [self.whole(k, use["piece"], stage, access, stores) for stage in stages_of(use)]
