// The column beside the picture: what the program says, the hazard's two sides, what is chosen, and the legend.
"use strict";
Viewer.panel = (() => {
  // An element with a class, a text or children.
  function make(tag, given = {}, ...children) {
    const element = document.createElement(tag);
    for (const [key, value] of Object.entries(given)) {
      if (key === "text") element.textContent = value;
      else if (key.startsWith("on")) element.addEventListener(key.slice(2), value);
      else element.setAttribute(key, value);
    }
    element.append(...children);
    return element;
  }

  function rows(pairs) {
    const list = make("dl");
    for (const [term, text] of pairs) if (text !== "" && text !== undefined) list.append(make("dt", { text: term }), make("dd", { text }));
    return list;
  }

  // What the program says of the submission, in a line.
  function verdict(element, told, count) {
    const kind = told?.kind ?? "unknown";
    const sign = { sound: "✓", hazard: "✗", fault: "✗", unknown: "?" }[kind];
    element.className = `verdict ${kind}`;
    element.textContent = `${sign} ${told?.line ?? `not checked, ${count} nodes`}`;
  }

  function hazard(element, told, go) {
    element.replaceChildren();
    element.hidden = !told;
    if (!told) return;
    element.append(make("h2", { text: `Hazard ${told.hazard}` }), make("p", { text: told.strange ?? told.what }));
    told.sides.forEach((side, k) => {
      const title = told.sides.length === 2 ? `${k + 1} of 2: ` : "";
      const button = make("button", { type: "button", class: "link", text: `${title}${side.head}`, onclick: () => go(side.number) });
      element.append(make("div", { class: "side" }, button, ...side.lines.map((line) => make("p", { class: "line", text: line }))));
    });
    if (told.missing) element.append(make("p", { class: "missing", text: told.missing }));
  }

  const masks = (item) =>
    item.src_stage === undefined
      ? [["stage", item.stage]]
      : [
          ["from", `${item.src_stage || "none"} / ${item.src_access || "none"}`],
          ["to", `${item.dst_stage || "none"} / ${item.dst_access || "none"}`],
          ["layout", item.from === undefined ? "" : `${item.from} to ${item.to}`],
          ["family", item.from_family ? `${item.from_family} to ${item.to_family}` : ""],
        ];

  const accesses = (touch) => (touch.change ? touch.change : [touch.loads && `loads by ${touch.loads}`, touch.stores && `stores by ${touch.stores}`].filter(Boolean).join(", "));

  // The facts on a node.
  function node(program, one) {
    const { naming } = Viewer;
    const touched = Viewer.program.touches(program, one).map((touch) => [naming.piece(program, touch.piece), `${accesses(touch)}${touch.stages.length ? ` in ${touch.stages.join(", ")}` : ""}${touch.layout && !touch.change ? `, ${touch.layout}` : ""}`]);
    const other = one.other < 0 ? "" : `${one.kind === "release" ? "acquire" : "release"} is node ${one.other}`;
    const meets = one.kind !== "wait" ? "" : one.meets >= 0 ? `the signal is node ${one.meets}` : "no signal reaches this value";
    return rows([
      ["what", `${naming.kind(one)}${one.joined ? ", joined with the item before" : ""}`],
      ["of", naming.about(program, one)],
      ["place", one.path],
      ...masks(one.item),
      ["other half", other],
      ["waits for", meets],
      ...(one.isMark ? [] : touched),
      ["reached", one.stuck ? "never: the queues are stuck before it" : ""],
    ]);
  }

  // The facts on a piece.
  function piece(program, scene, number) {
    const one = program.pieces[number];
    const memory = program.memories[one.memory];
    const life = scene.heap.lives[number];
    const others = memory.pieces.filter((other) => other !== number && Viewer.program.overlap(program.pieces[other], one));
    const shape = one.kind === "image" ? `image ${one.width} by ${one.height}, ${one.texel}` : one.kind;
    return rows([
      ["what", shape],
      ["bytes", `${Viewer.paint.bytes(one.bytes)}, from ${one.offset} of memory ${one.memory}`],
      ["memory", `${memory.name || memory.sort}, ${Viewer.paint.bytes(memory.size)}`],
      ["sharing", one.entry.sharing ?? ""],
      ["life", life ? `node ${life.first} to node ${life.last}` : "no node names it"],
      ["shares with", others.length ? others.map((other) => Viewer.naming.piece(program, other)).join(", ") : "nothing"],
      ["comes as", one.entry.initial ? JSON.stringify(one.entry.initial) : ""],
      ["is left as", one.entry.final ? JSON.stringify(one.entry.final) : ""],
    ]);
  }

  // The facts on the whole.
  function whole(program, { place, bound, trace }) {
    const count = (kind) => program.nodes.filter((one) => one.kind === kind).length;
    return rows([
      ["nodes", `${program.nodes.length}: ${count("command")} commands, ${program.outside - program.host} read-backs${program.nodes.length > program.outside ? `, ${program.nodes.length - program.outside} hand-overs` : ""}`],
      ["queues", String(program.queues.length)],
      ["arrows", `${program.arrows.length} from signal to wait, ${program.transfers.length} from release to acquire`],
      ["pieces", `${program.pieces.length} in ${program.memories.length} memories`],
      ["heap", place ? `${Viewer.paint.bytes(place.heap)}; apart they are ${Viewer.paint.bytes(place.separate)}` : ""],
      ["bound", bound ? `no heap has fewer than ${Viewer.paint.bytes(bound.bound)}` : ""],
      ["trace", trace ? `${trace.events.length} events of nodes, ${trace.moves} cache moves` : ""],
    ]);
  }

  function chosen(element, program, scene, what) {
    element.replaceChildren();
    if (!what) {
      element.append(make("h2", { text: "The whole" }), whole(program, scene.facts), make("p", { text: "Click a box, a mark or a rectangle. Two clicks unfold a mark." }));
      return;
    }
    if (what.node !== undefined) {
      const one = program.nodes[what.node];
      element.append(make("h2", { text: `Node ${one.number}${one.name ? `: ${one.name}` : ""}` }), node(program, one));
    } else element.append(make("h2", { text: `Piece ${what.piece}: ${Viewer.naming.piece(program, what.piece)}` }), piece(program, scene, what.piece));
  }

  return { make, verdict, hazard, chosen, accesses };
})();
