"""Random submissions of format 3: actions with uses of all roles, and the dependencies that they need."""

from roles import ROLES

STORAGE_ROLES = ["storage_read", "storage_write", "storage"]
COPY_ROLES = ["copy_read", "copy_write"]
BUFFER_ROLES = ["indirect", "index", "vertex", "uniform", "sampled", *STORAGE_ROLES, *COPY_ROLES, "clear_write"]
COLOR_ROLES = ["sampled", "input", *STORAGE_ROLES, "color", *COPY_ROLES, "blit_read", "blit_write", "clear_write"]
DEPTH_ROLES = ["sampled", "depth", "depth_read", "copy_read", "copy_write"]
SAMPLES_ROLES = ["color", "resolve_read"]
TARGET_ROLES = ["color", "resolve_write", "blit_read"]
COMPUTE_ROLES = {"indirect", "uniform", "sampled", "storage_read", "storage_write", "storage", "copy_read", "copy_write", "clear_write"}
LAYOUTS = {
    "sampled": "SHADER_READ_ONLY_OPTIMAL",
    "input": "SHADER_READ_ONLY_OPTIMAL",
    "color": "COLOR_ATTACHMENT_OPTIMAL",
    "depth": "DEPTH_STENCIL_ATTACHMENT_OPTIMAL",
    "depth_read": "DEPTH_STENCIL_READ_ONLY_OPTIMAL",
    "copy_read": "TRANSFER_SRC_OPTIMAL",
    "blit_read": "TRANSFER_SRC_OPTIMAL",
    "resolve_read": "TRANSFER_SRC_OPTIMAL",
    "copy_write": "TRANSFER_DST_OPTIMAL",
    "blit_write": "TRANSFER_DST_OPTIMAL",
    "resolve_write": "TRANSFER_DST_OPTIMAL",
    "clear_write": "TRANSFER_DST_OPTIMAL",
    "storage_read": "GENERAL",
    "storage_write": "GENERAL",
    "storage": "GENERAL",
}
WRITING = {"SHADER_STORAGE_WRITE", "COLOR_ATTACHMENT_WRITE", "DEPTH_STENCIL_ATTACHMENT_WRITE", "TRANSFER_WRITE"}


class Part:
    """A piece: which roles it may have, and what its last uses were."""

    def __init__(self, number, entry, roles):
        self.number, self.entry, self.roles = number, entry, roles
        self.layout = entry.get("initial", {}).get("layout", "UNDEFINED")
        self.stages, self.accesses, self.queue = "", "", None
        self.full = "initial" in entry

    def is_image(self):
        return "texture" in self.entry


def written(accesses):
    return "|".join(one for one in accesses.split("|") if one in WRITING)


def united(one, other):
    return "|".join(name for name in dict.fromkeys([*one.split("|"), *other.split("|")]) if name)


class Writer:
    """Writes a random program, action by action, with the barriers, waits and signals that each needs."""

    def __init__(self, rng, actions):
        self.rng = rng
        self.families = [rng.choice(["graphics", "graphics", "compute"]) for _ in range(rng.choice([1, 1, 1, 2, 2, 3]))]
        self.parts = [self.part(k) for k in range(rng.randint(2, 6))]
        self.batches = [[{"waits": [], "items": []}] for _ in self.families]
        self.values = [0] * len(self.families)
        for _ in range(rng.randint(2, actions)):
            self.action(rng.randrange(len(self.families)))
        for queue in range(len(self.families)):
            self.signal(queue)

    def part(self, k):
        rng = self.rng
        kind = rng.choice(["buffer", "buffer", "color", "color", "depth", "samples", "target"])
        entry = {"buffer": 256} if kind == "buffer" else {"texture": 256}
        entry |= {"memory": k, "offset": 0, "sharing": "concurrent"}
        roles = {"buffer": BUFFER_ROLES, "color": COLOR_ROLES, "depth": DEPTH_ROLES, "samples": SAMPLES_ROLES, "target": TARGET_ROLES}[kind]
        if kind == "buffer":
            entry["initial"] = {}
        elif rng.random() < 0.7:
            entry["initial"] = {"layout": LAYOUTS[rng.choice(roles)]}
        return Part(k, entry, roles)

    def signal(self, queue):
        """The value that the queue signals behind what it has so far."""
        last = self.batches[queue][-1]
        if not last["items"] and not last["waits"]:
            return self.values[queue]
        self.values[queue] += 1
        last["signal"] = {"value": self.values[queue], "stage": "ALL_COMMANDS"}
        self.batches[queue].append({"waits": [], "items": []})
        return self.values[queue]

    def wait(self, queue, other):
        value = self.signal(other)
        if value and not any(wait["queue"] == other and wait["value"] == value for batch in self.batches[queue] for wait in batch["waits"]):
            if self.batches[queue][-1]["items"]:
                self.signal(queue)
            self.batches[queue][-1]["waits"].append({"queue": other, "value": value, "stage": "ALL_COMMANDS"})

    def use(self, family, part, taken):
        rng = self.rng
        roles = [role for role in part.roles if family == "graphics" or role in COMPUTE_ROLES]
        # Vulkan copies depth on queues with graphics alone, as VUID-vkCmdCopyImage-commandBuffer-10217 has it.
        roles = [role for role in roles if family == "graphics" or part.roles is not DEPTH_ROLES or role == "sampled"]
        # A draw has one depth attachment, and so on: more of them would be several draws.
        roles = [role for role in roles if role not in ("indirect", "index", "depth", "depth_read") or role not in taken]
        roles = [role for role in roles if not (role in ("depth", "depth_read") and {"depth", "depth_read"} & taken)]
        if not roles:
            return None
        role = rng.choice(roles)
        use = {"piece": part.number, "as": role}
        if ROLES[role].stage is None:
            graphics = family == "graphics" and rng.random() < 0.8
            use["stage"] = rng.choice(["VERTEX_SHADER", "FRAGMENT_SHADER"]) if graphics else "COMPUTE_SHADER"
        if ROLES[role].writes and role not in ("storage", "storage_write"):
            use["keeps"] = part.full and rng.random() < 0.5
        loads = use.get("keeps", role != "storage_write")
        return use if part.full or not loads else None

    def action(self, queue):
        rng, family = self.rng, self.families[queue]
        uses, taken = [], set()
        for part in rng.sample(self.parts, rng.randint(1, min(4, len(self.parts)))):
            use = self.use(family, part, taken)
            if use:
                uses.append(use)
                taken.add(use["as"])
        for use in uses:
            self.prepare(queue, self.parts[use["piece"]], use)
        if uses:
            self.batches[queue][-1]["items"].append({"item": "command", "op": "action", "code": rng.randrange(9), "uses": uses})

    def prepare(self, queue, part, use):
        """What has to stand between the last uses of the piece and this one."""
        role = ROLES[use["as"]]
        stages = role.stage or use["stage"]
        accesses = united(role.reads or "", role.writes or "")
        if not use.get("keeps", True):
            accesses = written(accesses) or accesses
        layout = LAYOUTS[use["as"]] if part.is_image() else part.layout
        if part.queue is not None and part.queue != queue:
            self.wait(queue, part.queue)
            part.stages, part.accesses = "ALL_COMMANDS", ""
        reads = not role.writes and not written(part.accesses)
        if layout != part.layout or (part.stages and not (reads and part.queue == queue)):
            self.barrier(queue, part, stages, accesses, layout)
            part.stages, part.accesses = stages, accesses
        else:
            part.stages, part.accesses = united(part.stages, stages), united(part.accesses, accesses)
        part.layout, part.queue = layout, queue
        part.full = part.full or bool(role.writes)

    def barrier(self, queue, part, stages, accesses, layout):
        items = self.batches[queue][-1]["items"]
        masks = {"src_stage": part.stages, "src_access": written(part.accesses), "dst_stage": stages, "dst_access": accesses}
        if not part.is_image():
            kind = {"item": "global"} if self.rng.random() < 0.3 else {"item": "buffer", "piece": part.number}
        else:
            kept = part.layout if part.full else "UNDEFINED"
            kind = {"item": "image", "piece": part.number, "from": kept, "to": layout}
        joined = {"joined": True} if items and items[-1]["item"] != "command" and self.rng.random() < 0.7 else {}
        items.append({**kind, **masks, **joined})

    def program(self):
        queues = []
        for family, batches in zip(self.families, self.batches):
            kept = [batch for batch in batches if batch["items"] or batch["waits"]]
            queues.append({"family": family, "batches": kept})
        memories = [{"size": 256} for _ in self.parts]
        pieces = [part.entry for part in self.parts]
        return {"format": 3, "memories": memories, "pieces": pieces, "queues": queues, "readbacks": []}
