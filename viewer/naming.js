// Names. A file of format 3 tells them itself. What is compiled of a frame of format 1 or 2 has none: they are found by going through
// the frame beside it, since on each queue the kept passes' operations stand in declared order, and copies of exports behind them.
"use strict";
Viewer.naming = (() => {
  // The units of a frame in declared order: a resource, or each layer of one that has several.
  function unitsOf(resource) {
    const layers = resource.layers ?? 1;
    return layers > 1 ? Array.from({ length: layers }, (_, k) => `${resource.name}/${k}`) : [resource.name];
  }

  // Finds which piece each unit is, by the operands of operations and commands that are the same.
  class Found {
    constructor(program) {
      this.program = program;
      this.unitOf = new Map();
      this.holds = true;
    }

    piece(unit, number) {
      const known = this.unitOf.get(number);
      if (known !== undefined && known !== unit) this.holds = false;
      this.unitOf.set(number, unit);
    }

    command(node, pass, operation) {
      if (operation.op !== node.item.op) {
        this.holds = false;
        return;
      }
      this.program.nodes[node.number].name = pass.name;
      for (const member of [...(Viewer.tables.OPERATIONS[operation.op]?.sources ?? []), "dst"]) {
        if (typeof operation[member] === "string") this.piece(operation[member], node.item[member]);
      }
    }
  }

  // Gives the parts of a program the names that they have in the frame. False where it is not what that frame is compiled to: then
  // nothing is named.
  function byFrame(program, frame, kept) {
    const found = new Found(program);
    if (frame.queues.length !== program.queues.length) return false;
    program.queues.forEach((queue, q) => {
      const commands = program.nodes.slice(queue.first, queue.end).filter((node) => node.kind === "command");
      const passes = frame.passes.filter((pass) => pass.queue === frame.queues[q].name && kept.has(pass.name));
      const operations = passes.flatMap((pass) => (pass.ops ?? []).map((operation) => ({ pass, operation })));
      if (operations.length > commands.length) found.holds = false;
      else operations.forEach(({ pass, operation }, k) => found.command(commands[k], pass, operation));
      queue.name = frame.queues[q].name;
    });
    const layers = new Map(frame.resources.map((resource) => [resource.name, unitsOf(resource)]));
    const exported = frame.exports.flatMap((spot) => layers.get(spot) ?? [spot]);
    program.nodes.slice(program.host, program.outside).forEach((node, k) => {
      if (!exported[k]) return;
      found.piece(`${exported[k]}.readback`, node.item.piece);
      node.name = exported[k];
    });
    if (!found.holds) {
      for (const node of program.nodes) node.name = "";
      for (const queue of program.queues) queue.name = "";
      return false;
    }
    copies(program, found);
    for (const [number, unit] of found.unitOf) program.pieces[number].name = unit;
    for (const memory of program.memories) {
      if (memory.number === 0 && !memory.sort.match(/import|read-back/)) [memory.name, memory.sort] = ["heap", "heap"];
      else memory.name = program.pieces[memory.pieces[0]]?.name ?? "";
    }
    return true;
  }

  // The copy of an export stores to a read-back's piece; what it copies is the export.
  function copies(program, found) {
    for (const node of program.nodes) {
      if (node.kind !== "command" || node.name) continue;
      const unit = found.unitOf.get(node.item.dst)?.replace(/\.readback$/, "");
      if (unit === undefined) continue;
      node.name = `${unit}.readback`;
      found.piece(unit, node.item.src);
    }
  }

  const piece = (program, number) => program.pieces[number].name || `piece ${number}`;
  const queue = (program, q) => program.queues[q].name || `queue ${q}`;

  // What a node is, in one or two words.
  const KINDS = {
    global: "memory barrier",
    buffer: "buffer barrier",
    image: "image barrier",
    readback: "read-back",
    handover: "hand-over",
  };
  const kind = (node) => (node.kind === "command" ? node.item.op : (KINDS[node.kind] ?? node.kind));

  // The letters of marks, in the picture and in the legend.
  const LETTERS = { wait: "W", signal: "S", global: "M", buffer: "B", image: "I", release: "R", acquire: "A" };

  // What stands beside a node's name: the operation with its pieces, a barrier's piece, the queue and value of a wait.
  function about(program, node) {
    const { item } = node;
    const named = (number) => piece(program, number);
    switch (node.kind) {
      case "wait": return `${queue(program, item.queue)} reaches ${item.value}`;
      case "signal": return `${queue(program, node.queue)} to ${item.value}`;
      case "global": return "all memory";
      case "command": break;
      default: return item.piece === undefined ? "" : named(item.piece);
    }
    if (item.op === "action") return `code ${item.code}: ${item.uses.map((use) => `${use.as} ${named(use.piece)}`).join(", ")}`;
    const sources = Viewer.tables.OPERATIONS[item.op].sources.map((member) => named(item[member]));
    return sources.length ? `${sources.join(", ")} to ${named(item.dst)}` : named(item.dst);
  }

  // The name that is written in a node's box, and what is written below it.
  const label = (program, node) => node.name || (node.kind === "command" ? node.item.op : about(program, node));
  function detail(program, node) {
    if (node.kind !== "command") return kind(node);
    return node.name ? `${kind(node)} ${about(program, node)}` : about(program, node);
  }

  return { LETTERS, byFrame, piece, queue, kind, about, label, detail };
})();
