// The same as the picture in tables, for who listens to it: nodes in their order, and pieces with their memory. A page has so many rows.
"use strict";
Viewer.tablesView = (() => {
  const PAGE = 200;
  const { make } = Viewer.panel;

  const NODE_HEADS = ["node", "queue", "batch", "what", "name", "of", "from", "to", "layout", "joins"];
  function nodeRow(scene, number) {
    const { program } = scene;
    const node = program.nodes[number];
    const { item } = node;
    const touched = node.isMark ? [] : Viewer.program.touches(program, node);
    const uses = touched.map((touch) => `${Viewer.naming.piece(program, touch.piece)}: ${Viewer.panel.accesses(touch)}`).join("; ");
    const joins = [];
    if (node.meets >= 0) joins.push(`waits for the signal ${node.meets}`);
    if (node.kind === "wait" && node.meets < 0) joins.push("no signal reaches this");
    if (node.other >= 0) joins.push(`${node.kind === "release" ? "acquired by" : "released by"} ${node.other}`);
    if (node.joined) joins.push("joined with the item before");
    const side = scene.sides.indexOf(number);
    if (side >= 0) joins.push(`hazard ${scene.hazard}, ${side + 1} of ${scene.sides.length}`);
    if (node.stuck) joins.push("never reached");
    const queue = node.queue < 0 ? (node.kind === "handover" ? "outside" : "host") : Viewer.naming.queue(program, node.queue);
    const pair = (stage, access) => (stage === undefined ? "" : `${stage || "none"} / ${access || "none"}`);
    return [number, queue, node.batch < 0 ? "" : node.batch, Viewer.naming.kind(node), node.name, uses || Viewer.naming.about(program, node), item.src_stage === undefined ? (item.stage ?? "") : pair(item.src_stage, item.src_access), pair(item.dst_stage, item.dst_access), item.from === undefined ? "" : `${item.from} to ${item.to}`, joins.join("; ")];
  }

  const PIECE_HEADS = ["piece", "name", "what", "memory", "first byte", "bytes", "first node", "last node", "shares bytes with"];
  function pieceRow(scene, number) {
    const { program, heap } = scene;
    const piece = program.pieces[number];
    const memory = program.memories[piece.memory];
    const life = heap.lives[number];
    const others = memory.pieces.filter((other) => other !== number && Viewer.program.overlap(program.pieces[other], piece));
    return [number, piece.name, piece.kind, [...new Set([memory.number, memory.name, memory.sort])].filter((part) => part !== "").join(" "), piece.offset, piece.bytes, life?.first ?? "none", life?.last ?? "none", others.map((other) => Viewer.naming.piece(program, other)).join(", ")];
  }

  // A table with a page of rows, and the buttons that turn pages.
  function paged(element, title, heads, count, row) {
    let page = 0;
    const pages = Math.max(1, Math.ceil(count / PAGE));
    const caption = make("caption");
    const body = make("tbody");
    const head = make("thead", {}, make("tr", {}, ...heads.map((text) => make("th", { scope: "col", text }))));
    const turn = (by) => {
      page = Math.min(pages - 1, Math.max(0, page + by));
      caption.textContent = `${title}: ${count}${pages > 1 ? `, page ${page + 1} of ${pages}` : ""}`;
      const rows = Array.from({ length: Math.min(PAGE, count - page * PAGE) }, (_, k) => row(page * PAGE + k));
      body.replaceChildren(...rows.map(([first, ...rest]) => make("tr", {}, make("th", { scope: "row", text: first }), ...rest.map((text) => make("td", { text })))));
    };
    turn(0);
    if (pages > 1) element.append(make("button", { type: "button", text: `earlier ${title.toLowerCase()}`, onclick: () => turn(-1) }), make("button", { type: "button", text: `later ${title.toLowerCase()}`, onclick: () => turn(1) }));
    element.append(make("table", {}, caption, head, body));
  }

  // Shows the tables of a scene; of the nodes and pieces that are found, where something is looked for.
  function show(element, scene) {
    element.replaceChildren();
    const { program, found, foundPieces } = scene;
    const nodes = found.size ? [...found].sort((a, b) => a - b) : null;
    const pieces = foundPieces.size ? [...foundPieces] : null;
    const isFound = nodes || pieces ? "Found " : "";
    const title = (text) => (isFound ? `${isFound}${text.toLowerCase()}` : text);
    const hazard = scene.facts.hazard;
    if (hazard) element.append(make("p", { class: "missing", text: `Hazard ${hazard.hazard}: ${hazard.what} ${hazard.missing}` }));
    const [nodeCount, pieceCount] = isFound ? [nodes?.length ?? 0, pieces?.length ?? 0] : [program.nodes.length, program.pieces.length];
    paged(element, title("Nodes"), NODE_HEADS, nodeCount, (k) => nodeRow(scene, nodes ? nodes[k] : k));
    paged(element, title("Pieces"), PIECE_HEADS, pieceCount, (k) => pieceRow(scene, pieces ? pieces[k] : k));
    if (scene.bound) element.append(make("p", { text: `No heap has fewer than ${scene.bound.bound} bytes; this one has ${scene.bound.heap}. It is shown by ${scene.bound.units.join(", ")}.` }));
  }

  return { show };
})();
