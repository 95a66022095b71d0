// Time: where each node begins and ends, in pixels at zoom 1, from left to right.
"use strict";
Viewer.times = (() => {
  const MARK = 16;
  const GAP = 4;
  const BATCH = 18;
  // About how wide a letter is. Names are measured; what is longer may be cut.
  const LETTER = 6.6;
  const [LEAST, MOST, DETAIL] = [64, 300, 170];

  const between = (low, value, high) => Math.min(Math.max(low, value), high);

  // The lines of what a mark unfolds to.
  function unfolded(program, node) {
    const { item } = node;
    const or = (mask) => mask || "none";
    const families = item.from_family ? `, ${item.from_family} to ${item.to_family}` : "";
    const lines = [`${Viewer.naming.kind(node)}: ${Viewer.naming.about(program, node)}${families}`];
    if (node.kind === "wait" || node.kind === "signal") return [...lines, `stage ${or(item.stage)}`];
    if (item.src_stage === undefined) return lines;
    lines.push(`from ${or(item.src_stage)} / ${or(item.src_access)}`, `to ${or(item.dst_stage)} / ${or(item.dst_access)}`);
    if (item.from !== undefined) lines.push(`layout ${item.from} to ${item.to}`);
    return lines;
  }

  // How wide a node is: a command by its name, a mark as it is or unfolded.
  function widthOf(program, node, open) {
    if (node.isMark) return open.has(node.number) ? 14 + LETTER * Math.max(...unfolded(program, node).map((line) => line.length)) : MARK;
    const label = Viewer.paint.widthOf(Viewer.naming.label(program, node), Viewer.paint.BOLD);
    const detail = Math.min(DETAIL, LETTER * Viewer.naming.detail(program, node).length);
    return between(LEAST, 16 + Math.max(label, detail), MOST);
  }

  // By the order of nodes: each stands behind the one before it on its queue, a wait behind its signal, and the host's reads and
  // hand-overs at the end, behind all queues.
  function byOrder(program, open) {
    const begins = new Float64Array(program.nodes.length);
    const ends = new Float64Array(program.nodes.length);
    const reached = program.queues.map(() => 0);
    let last = 0;
    for (const n of program.order) {
      const node = program.nodes[n];
      const lane = node.queue;
      const before = lane < 0 ? last : reached[lane];
      const isNew = lane < 0 ? n === program.host || n === program.outside : n === program.queues[lane].batches[node.batch].first;
      let x = before + (isNew ? BATCH : node.joined ? 1 : GAP);
      if (node.meets >= 0 && !node.stuck) x = Math.max(x, ends[node.meets] + 2 * BATCH);
      begins[n] = x;
      ends[n] = x + widthOf(program, node, open);
      if (lane >= 0) reached[lane] = ends[n];
      last = Math.max(last, ends[n]);
    }
    return { begins, ends, end: last + BATCH };
  }

  // By the events of a trace: one behind the other. A command is as wide as all that came between its begin and its end.
  function byTrace(program, open, events) {
    const begins = new Float64Array(program.nodes.length).fill(-1);
    const ends = new Float64Array(program.nodes.length);
    let x = 0;
    for (const { word, node } of events) {
      if (!program.nodes[node]) continue;
      x += GAP;
      if (word === "end") {
        ends[node] = x += MARK;
        continue;
      }
      begins[node] = x;
      ends[node] = x += word === "begin" ? widthOf(program, program.nodes[node], open) - MARK : widthOf(program, program.nodes[node], open);
    }
    // What the trace does not tell stands behind it.
    for (const n of program.order) {
      if (begins[n] >= 0) continue;
      begins[n] = x += GAP;
      ends[n] = x += widthOf(program, program.nodes[n], open);
    }
    return { begins, ends, end: x + BATCH };
  }

  return { byOrder, byTrace, unfolded };
})();
