// A hazard: both sides of it, and what is missing, in words, by the hazard's number, its fields and the nodes in the file.
"use strict";
Viewer.hazard = (() => {
  const pair = (touch, access) => `${touch.stages.join("|") || "no stage"} / ${access || "no access"}`;

  // How a side touches its piece: in words, and for the masks of a barrier.
  function accessOf(touch) {
    if (touch.change) return { does: touch.change, mask: "" };
    if (touch.stores) return { does: `stored by ${pair(touch, touch.stores)}`, mask: pair(touch, touch.stores) };
    return { does: `loaded by ${pair(touch, touch.loads)}`, mask: pair(touch, touch.loads) };
  }

  // The touches of two nodes that meet in memory, one of which changes it.
  function meeting(program, first, second) {
    const [of, to] = [first, second].map((node) => Viewer.program.touches(program, node));
    for (const a of of) {
      for (const b of to) {
        const changes = a.stores || b.stores || a.change || b.change;
        if (changes && Viewer.program.overlap(program.pieces[a.piece], program.pieces[b.piece])) return [a, b];
      }
    }
    return [of[0], to[0]];
  }

  // The touches that a hazard is about, in the order of its nodes.
  function touchesOf(program, told) {
    const nodes = told.nodes.map((number) => program.nodes[number]);
    if (nodes.length === 2) return meeting(program, ...nodes);
    return nodes.map((node) => {
      const all = Viewer.program.touches(program, node);
      return all.find((touch) => touch.piece === told.piece) ?? all[0];
    });
  }

  function side(program, number, touch) {
    const node = program.nodes[number];
    const head = `node ${number}, ${Viewer.naming.kind(node)}${node.name ? ` "${node.name}"` : ""}`;
    const lines = [node.path];
    if (touch) {
      const piece = program.pieces[touch.piece];
      lines.push(`${Viewer.naming.piece(program, touch.piece)}: memory ${piece.memory}, bytes ${piece.offset} to ${piece.offset + piece.bytes - 1}`);
      lines.push(`${accessOf(touch).does}${touch.layout ? `, layout ${touch.layout}` : ""}`);
    }
    return { number, head, lines };
  }

  // A barrier between two nodes, in words.
  function barrier(program, [a, b], [first, second]) {
    const kind = program.pieces[a.piece].kind === "buffer" ? "a buffer barrier" : "an image barrier";
    return `${kind} of piece ${a.piece}, ${accessOf(a).mask || "the stages of the first"} to ${accessOf(b).mask || "the stages of the second"}, between ${first.path} and ${second.path}`;
  }

  // What is missing, in a sentence.
  function missing(program, told, touches) {
    const nodes = told.nodes.map((number) => program.nodes[number]);
    const [first, second] = nodes;
    const name = told.piece === undefined ? "" : Viewer.naming.piece(program, told.piece);
    if (["H2", "H3", "H4"].includes(told.hazard) && second && touches[0] && touches[1]) {
      if (first.queue === second.queue) return `Missing: ${barrier(program, touches, nodes)}.`;
      const [from, to] = [accessOf(touches[0]).mask, accessOf(touches[1]).mask];
      if (second.kind === "readback") return `Missing: a barrier from ${from || "the first"} to HOST / HOST_READ behind ${first.path}, and a signal at the end of its queue.`;
      return `Missing: a signal behind ${first.path} that waits for ${from || "its stages"}, and before ${second.path} a wait for it in the stages of ${to || "the second"}.`;
    }
    switch (told.hazard) {
      case "H1": return first ? `Missing: a signal that reaches ${first.item.value ?? "the value"} on ${first.kind === "wait" ? Viewer.naming.queue(program, first.item.queue) : "the queue"}, before this wait.` : "";
      case "H5": return `Missing: an image barrier of ${name} from ${told.found} to ${told.wanted}, before ${first.path}.`;
      case "H6": return told.found === "none" ? `Missing: a first use of ${name} by the family ${told.wanted}.` : `Missing: a release of ${name} from ${told.found} to ${told.wanted} on a queue of ${told.found}, and its acquire before ${first.path}.`;
      case "H7": return first.kind === "release" ? `Missing: the acquire of ${Viewer.naming.about(program, first)} on a queue of ${first.item.to_family}.` : `Missing: the release of ${Viewer.naming.about(program, first)} on a queue of ${first.item.from_family}.`;
      case "H8": return `Missing: a store to ${name} whose bytes are still there at ${first.path}.`;
      case "H9": return `Missing: a store to ${name} after the one through ${Viewer.naming.piece(program, told.other)}, or another place for one of both.`;
      default: return "";
    }
  }

  // A hazard as the page tells it: its sides, each with a number, a head and lines; and the sentences on it.
  function explained(program, told) {
    const known = told.nodes.every((number) => program.nodes[number]) && [told.piece, told.other].every((number) => number === undefined || program.pieces[number]);
    if (!known) return { ...told, sides: [], what: Viewer.words.hazard(told.hazard), missing: "", strange: "This verdict is not of this submission." };
    const touches = touchesOf(program, told);
    const sides = told.nodes.map((number, k) => side(program, number, touches[k]));
    const pieces = [...new Set([told.piece, told.other, ...touches.map((touch) => touch?.piece)].filter((number) => number !== undefined))];
    return { ...told, sides, pieces, what: Viewer.words.hazard(told.hazard), missing: missing(program, told, touches) };
  }

  return { explained };
})();
