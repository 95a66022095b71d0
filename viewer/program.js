// A submission as nodes, pieces and memories, with what joins them: a signal and its waits, a release and its acquire.
"use strict";
Viewer.program = (() => {
  const TEXEL = { r8: 1, r32: 4 };
  const STARTS = 256;

  // Each piece; an entry with layers stands for so many, one behind the other.
  function piecesOf(file) {
    const pieces = [];
    for (const entry of file.pieces) {
      const kind = "buffer" in entry ? "buffer" : "image" in entry ? "image" : "texture";
      const [width, height] = entry.image ?? [0, 0];
      const bytes = kind === "image" ? width * height * TEXEL[entry.texel] : entry[kind];
      const layers = entry.layers ?? 1;
      let offset = entry.offset;
      for (let layer = 0; layer < layers; layer++) {
        const name = entry.name && layers > 1 ? `${entry.name}/${layer}` : (entry.name ?? "");
        pieces.push({ number: pieces.length, kind, width, height, texel: entry.texel, bytes, memory: entry.memory, offset, name, entry });
        offset = Math.ceil((offset + bytes) / STARTS) * STARTS;
      }
    }
    return pieces;
  }

  // A node: its kind, its queue and batch, and the object in the file.
  class Node {
    constructor(number, kind, queue, batch, member, place, item) {
      this.number = number;
      this.kind = kind;
      this.queue = queue;
      this.batch = batch;
      this.member = member;
      this.place = place;
      this.item = item;
      this.name = item.name ?? "";
      this.joined = item.joined === true;
      // Whether it is drawn as a mark that unfolds, and not as a box.
      this.isMark = !["command", "readback", "handover"].includes(kind);
      this.pieces = namedBy(kind, item);
      // The signal that a wait is for, and the other half of a transfer, or -1; and whether the queues are stuck before it.
      this.meets = -1;
      this.other = -1;
      this.stuck = false;
    }

    // Its path in the file, as the program tells it.
    get path() {
      const step = this.member === "signal" ? ".signal" : `.${this.member}[${this.place}]`;
      if (this.kind === "handover") return `$${step}.final`;
      return this.queue < 0 ? `$${step}` : `$.queues[${this.queue}].batches[${this.batch}]${step}`;
    }
  }

  // The nodes queue by queue: waits, items and signal of each batch; then the host's reads, then the pieces that are handed over.
  function nodesOf(file, pieces) {
    const nodes = [];
    const add = (kind, queue, batch, member, place, item) => nodes.push(new Node(nodes.length, kind, queue, batch, member, place, item));
    const queues = file.queues.map((queue, q) => {
      const batches = queue.batches.map((batch, b) => {
        const first = nodes.length;
        batch.waits?.forEach((wait, k) => add("wait", q, b, "waits", k, wait));
        batch.items?.forEach((item, k) => add(item.item, q, b, "items", k, item));
        if (batch.signal) add("signal", q, b, "signal", 0, batch.signal);
        return { first, end: nodes.length };
      });
      const first = batches[0]?.first ?? nodes.length;
      return { number: q, family: queue.family, name: queue.name ?? "", batches, first, end: nodes.length };
    });
    const host = nodes.length;
    file.readbacks.forEach((piece, k) => add("readback", -1, -1, "readbacks", k, { piece }));
    const outside = nodes.length;
    for (const piece of pieces) if (piece.entry.final) add("handover", -1, -1, "pieces", piece.number, { piece: piece.number });
    return { nodes, queues, host, outside };
  }

  // For each wait the first signal of its queue that reaches the value, where there is one.
  function meet(nodes, queues) {
    const signals = queues.map((queue) => {
      // (Numbers and whole numbers of 64 bits compare with each other.)
      let most = 0;
      const rising = [];
      for (let n = queue.first; n < queue.end; n++) {
        if (nodes[n].kind !== "signal" || nodes[n].item.value <= most) continue;
        most = nodes[n].item.value;
        rising.push({ value: most, node: n });
      }
      return rising;
    });
    const arrows = [];
    for (const node of nodes) {
      if (node.kind !== "wait") continue;
      const own = signals[node.item.queue];
      const { value } = node.item;
      let [low, high] = [0, own.length];
      while (low < high) {
        const middle = (low + high) >> 1;
        if (own[middle].value >= value) high = middle;
        else low = middle + 1;
      }
      node.meets = low < own.length ? own[low].node : -1;
      if (node.meets >= 0) arrows.push({ from: node.meets, to: node.number });
    }
    return arrows;
  }

  // The nodes in the order of docs/FORMATS.md: always the next one of the lowest queue that can go on. What no queue gets through
  // to comes behind, and is marked as stuck.
  function drain(nodes, queues) {
    const order = [];
    const heads = queues.map((queue) => queue.first);
    const done = new Uint8Array(nodes.length);
    const goesOn = (q) => {
      if (heads[q] >= queues[q].end) return false;
      const node = nodes[heads[q]];
      return node.kind !== "wait" || (node.meets >= 0 && done[node.meets] === 1);
    };
    for (let q = 0; q < queues.length; ) {
      if (goesOn(q)) {
        // Only a signal lets a lower queue go on.
        const isSignal = nodes[heads[q]].kind === "signal";
        order.push(heads[q]);
        done[heads[q]++] = 1;
        if (isSignal) q = 0;
      } else q++;
    }
    const isStuck = order.length < (queues.at(-1)?.end ?? 0);
    queues.forEach((queue, q) => {
      for (let n = heads[q]; n < queue.end; n++) {
        nodes[n].stuck = true;
        order.push(n);
      }
    });
    for (let n = order.length; n < nodes.length; n++) {
      nodes[n].stuck = isStuck;
      order.push(n);
    }
    return order;
  }

  // For each acquire the release of its piece before it that no other acquire had.
  function transfersOf(nodes, order) {
    const open = new Map();
    const found = [];
    for (const n of order) {
      const { kind, item } = nodes[n];
      if (kind !== "release" && kind !== "acquire") continue;
      const key = `${item.piece} ${item.from_family} ${item.to_family}`;
      if (kind === "release") {
        if (!open.has(key)) open.set(key, []);
        open.get(key).push(n);
      } else if (open.get(key)?.length) {
        const from = open.get(key).shift();
        found.push({ from, to: n });
        nodes[from].other = n;
        nodes[n].other = from;
      }
    }
    return found;
  }

  // The pieces that a node names, each once.
  function namedBy(kind, item) {
    if (kind !== "command") return item.piece === undefined ? [] : [item.piece];
    if (item.op === "action") return [...new Set(item.uses.map((use) => use.piece))];
    const { sources } = Viewer.tables.OPERATIONS[item.op];
    return sources.length ? [...new Set([...sources.map((member) => item[member]), item.dst])] : [item.dst];
  }

  // What memory is for: what came from the host, what comes from or goes to the outside, what the host reads, or what pieces share.
  function memoriesOf(file, pieces) {
    const read = new Set(file.readbacks);
    const memories = file.memories.map((one, number) => ({ number, size: one.import === undefined ? one.size : one.import.length / 2, name: one.name ?? "", sort: one.import === undefined ? "" : "import", pieces: [] }));
    for (const piece of pieces) memories[piece.memory].pieces.push(piece.number);
    for (const memory of memories) {
      const own = memory.pieces.map((number) => pieces[number]);
      if (memory.sort) continue;
      if (own.some((piece) => piece.entry.initial || piece.entry.final)) memory.sort = "external";
      else if (own.length && own.every((piece) => read.has(piece.number))) memory.sort = "read-back";
      else memory.sort = own.length > 1 ? "heap" : "memory";
    }
    return memories;
  }

  // The program of a file that has the form.
  function of(file) {
    const pieces = piecesOf(file);
    const { nodes, queues, host, outside } = nodesOf(file, pieces);
    const arrows = meet(nodes, queues);
    const order = drain(nodes, queues);
    return { format: file.format, name: file.name ?? "", memories: memoriesOf(file, pieces), pieces, nodes, queues, host, outside, arrows, order, transfers: transfersOf(nodes, order) };
  }

  // What a node does to memory: a list of {piece, stages, loads, stores, layout}, with a `change` for what is no load and no store.
  function touches(program, node) {
    const { item } = node;
    if (node.kind === "command") {
      if (item.op === "action") return item.uses.map((use) => Viewer.tables.ofUse(use, program.pieces));
      return Viewer.tables.ofOperation(item, program.pieces);
    }
    if (node.kind === "readback") return [{ piece: item.piece, stages: ["HOST"], loads: "HOST_READ", stores: "", layout: "" }];
    if (node.kind === "handover") return [{ piece: item.piece, stages: [], loads: "", stores: "", layout: program.pieces[item.piece].entry.final.layout ?? "", change: "taken over" }];
    if (item.piece === undefined) return [];
    const moves = item.from !== item.to ? "layout changed" : "";
    const change = node.kind === "release" ? "given away" : node.kind === "acquire" ? "taken" : moves;
    return [{ piece: item.piece, stages: [], loads: "", stores: "", layout: item.from ?? "", change }];
  }

  const overlap = (a, b) => a.memory === b.memory && a.offset < b.offset + b.bytes && b.offset < a.offset + a.bytes;

  return { of, touches, overlap };
})();
