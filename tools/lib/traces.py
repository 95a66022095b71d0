"""Judges a printed trace: whether its events are a run of a submission, from the opened device to its end.

The nodes of a submission, the edges between them and what it takes for an event to be enabled are told here once more, from
docs/MODEL.md and docs/FORMATS.md, and not with anything that the program prints of itself. Of the cache moves it is looked at
whether they are the first 256 of the seed, or none without one.
"""

from sides import answer

MOVES = 256
LONGEST = 4096

COPY, CLEAR, COMPUTE, COLOR, HOST = "COPY", "CLEAR", "COMPUTE_SHADER", "COLOR_ATTACHMENT_OUTPUT", "HOST"
STANDS_FOR = {"ALL_TRANSFER": {COPY, CLEAR}, "ALL_COMMANDS": {COPY, CLEAR, COMPUTE, COLOR}}
STAGE_OF = {
    "fill_buffer": CLEAR, "clear_image": CLEAR, "draw": COLOR,
    "copy_buffer": COPY, "copy_image": COPY, "buffer_to_image": COPY, "image_to_buffer": COPY,
}
SYNCS = ("barrier", "wait", "signal")
WORDS = ("writeback", "fill", "drop")
KINDS = {"begin": ("command",), "sync": SYNCS, "host": ("host",)}


def expanded(mask):
    return set().union(*(STANDS_FOR.get(name, {name}) for name in mask.split("|") if name))


class Node:
    def __init__(self, kind, queue, waits_for=(), waited_for=(), entry=None):
        self.kind, self.queue, self.entry = kind, queue, entry
        self.waits_for, self.waited_for = set(waits_for), set(waited_for)

    def is_sync(self):
        return self.kind in SYNCS


def item_node(queue, item):
    if item["item"] == "command":
        stage = {STAGE_OF.get(item["op"], COMPUTE)}
        return Node("command", queue, stage, stage, item)
    return Node("barrier", queue, expanded(item["src_stage"]), expanded(item["dst_stage"]), item)


def nodes_of(program):
    """Queue by queue the waits, items and signal of each batch, and then the host reads."""
    nodes = []
    for q, queue in enumerate(program["queues"]):
        for batch in queue["batches"]:
            nodes += [Node("wait", q, (), expanded(wait["stage"]), wait) for wait in batch.get("waits", [])]
            nodes += [item_node(q, item) for item in batch.get("items", [])]
            if "signal" in batch:
                signal = batch["signal"]
                nodes.append(Node("signal", q, expanded(signal["stage"]) | {HOST}, (), signal))
    return nodes + [Node("host", len(program["queues"])) for _ in program["readbacks"]]


def before_of(program, nodes):
    """For each node the nodes with a direct edge to it."""
    before = [set() for _ in nodes]
    signals = [[n for n, node in enumerate(nodes) if node.kind == "signal" and node.queue == q] for q in range(len(program["queues"]))]
    for y, b in enumerate(nodes):
        for x, a in enumerate(nodes[:y]):
            if a.queue == b.queue and (a.is_sync() or b.is_sync()) and a.waited_for & b.waits_for:
                before[y].add(x)
        if b.kind == "wait":
            before[y] |= set([n for n in signals[b.entry["queue"]] if nodes[n].entry["value"] >= b.entry["value"]][:1])
        if b.kind == "host":
            before[y] |= {own[-1] for own in signals if own}
    for own in signals:
        for x, y in zip(own, own[1:]):
            before[y].add(x)
    return before


def sizes_of(program):
    return [memory["size"] if "size" in memory else len(memory["import"]) // 2 for memory in program["memories"]]


def pcg32(seed):
    """The words of PCG-XSH-RR with 64 bits of state, on stream 0."""
    step = lambda state: (state * 6364136223846793005 + 1) % 2**64
    state = step((seed + 1) % 2**64)
    while True:
        mixed, turn = ((state >> 18) ^ state) >> 27 & 0xFFFFFFFF, state >> 59
        yield (mixed >> turn | mixed << (-turn % 32)) & 0xFFFFFFFF
        state = step(state)


def moves_of(program, seed):
    """The lines of the cache moves of a seed."""
    sizes = sizes_of(program)
    filled = [m for m, size in enumerate(sizes) if size > 0]
    agents = 8 * len(program["queues"])
    if seed is None or not filled or agents == 0:
        return []
    lines, words = [], pcg32(seed)
    for _ in range(MOVES):
        kind, agent, memory, start, length = (next(words) for _ in range(5))
        memory = filled[memory % len(filled)]
        start %= sizes[memory]
        length = 1 + length % min(LONGEST, sizes[memory] - start)
        lines.append(f"{WORDS[kind % 3]} {agent % agents} {memory} {start} {length}")
    return lines


class Judge:
    def __init__(self, program):
        self.program = program
        self.nodes = nodes_of(program)
        self.before = before_of(program, self.nodes)
        self.sizes = sizes_of(program)
        self.agents = 8 * len(program["queues"])
        self.moves = None, []

    def moves_by(self, seed):
        known, moves = self.moves
        if not moves or known != seed:
            moves = moves_of(self.program, seed)
            self.moves = seed, moves
        return moves

    def is_ready(self, n, phase, counter):
        node = self.nodes[n]
        if phase[n] != "idle" or any(phase[x] != "done" for x in self.before[n]):
            return False
        return node.kind != "wait" or counter[node.entry["queue"]] >= node.entry["value"]

    def is_enabled(self, word, numbers, phase, counter):
        if len(numbers) != (4 if word in WORDS else 1):
            return False
        if word in WORDS:
            agent, memory, start, length = numbers
            return agent < self.agents and memory < len(self.sizes) and start + length <= self.sizes[memory]
        n = numbers[0]
        if n >= len(self.nodes):
            return False
        if word == "end":
            return phase[n] == "begun"
        return self.nodes[n].kind in KINDS.get(word, ()) and self.is_ready(n, phase, counter)

    def followed(self, lines):
        """The place of the first event that is not enabled, or None; and the nodes that are not done."""
        phase, counter = ["idle"] * len(self.nodes), [0] * len(self.program["queues"])
        at = None
        for place, line in enumerate(lines):
            word, *rest = line.split() or [""]
            numbers = [int(number) for number in rest if number.isdecimal()]
            if len(numbers) < len(rest) or not self.is_enabled(word, numbers, phase, counter):
                at = place
                break
            if word not in WORDS:
                node = self.nodes[numbers[0]]
                phase[numbers[0]] = "begun" if word == "begin" else "done"
                if node.kind == "signal":
                    counter[node.queue] = max(counter[node.queue], node.entry["value"])
        return at, [n for n, one in enumerate(phase) if one != "done"]

    def wrong(self, lines, seed):
        """What is wrong with the lines of a trace, behind `events N`, or None."""
        at, left = self.followed(lines)
        if at is not None:
            return f"line {at}: {lines[at]} is not enabled"
        if left:
            return f"nodes {left} are not done"
        if [line for line in lines if line.startswith(WORDS)] != self.moves_by(seed):
            return f"the moves are not those of seed {seed}"
        return None

    def verdict(self, lines):
        """What `audit` says of the lines: the hazard of the first event that is not enabled, or of the least node that is not done;
        None of a run."""
        at, left = self.followed(lines)
        return f"hazard A3 {at}" if at is not None else f"hazard A4 {left[0]}" if left else None


def parted(printed):
    """What is printed before the trace, and the lines of the trace, or None where its count is not theirs."""
    lines = printed.decode().splitlines()
    heads = [at for at, line in enumerate(lines) if line.startswith("events ")]
    if not heads:
        return printed, None
    at = heads[-1]
    trace = lines[at + 1:]
    return "".join(f"{line}\n" for line in lines[:at]).encode(), trace if lines[at] == f"events {len(trace)}" else None


def behind(submission, lines, count=None):
    """What `audit` reads: a submission in one line, and behind it the lines of a trace, whose count is told."""
    events = (f"events {len(lines) if count is None else count}", *lines)
    return submission.rstrip() + b"\n" + "".join(f"{line}\n" for line in events).encode()


def recorded(program, submission):
    """A submission and the trace of a run of it, as `audit` reads them."""
    lines = parted(answer(program, "exec --trace --tend 1", submission)[1])[1]
    return behind(submission, lines or [])


def run_text(culled, exports):
    """What `run` prints of a frame, by what `cull` and `meaning` print of it."""
    first, *passes = culled.splitlines()
    named = [b"culled " + line.split()[1] for line in passes if line.endswith(b" culled")]
    return b"".join(line + b"\n" for line in [first, *named]) + exports


def plain_run(program, text):
    """The same, of what the program answers."""
    return run_text(*(answer(program, word, text)[1] for word in ("cull", "meaning")))
