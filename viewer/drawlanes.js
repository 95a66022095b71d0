// Draws the lanes: batches, nodes, arrows, and a hazard's two sides.
"use strict";
Viewer.drawLanes = (() => {
  const { BOX, topOf, between } = Viewer.lanes;
  const { placeOf } = Viewer.drawNodes;
  // Below so many pixels nodes are drawn as columns, and batches as one with what is beside them.
  const [THIN, NARROW] = [2.5, 18];
  const PALE = 0.3;

  // Boxes round batches, narrow ones that meet as one. Returns the words that are written on them when the arrows are drawn.
  function batches(context, scene) {
    const { program, times, view, colours, drawn } = scene;
    const labels = [];
    program.queues.forEach((queue, q) => {
      const lane = scene.lanes.lanes[q];
      const y = lane.y - view.y;
      let open = null;
      const close = () => {
        if (!open) return;
        Viewer.paint.box(context, open.begin, y, open.end - open.begin, lane.height, colours.batch, colours.line, 6);
        drawn.batches.push([q, open.number]);
        const [left, right] = [Math.max(open.begin, view.left), Math.min(open.end, view.right)];
        const text = [`batch ${open.number}`, String(open.number)].find((one) => Viewer.paint.widthOf(one, Viewer.paint.SMALL) <= right - left - 12);
        if (text && open.isOne) labels.push({ text, x: (left + right) / 2, y: y + 9.5 });
      };
      queue.batches.forEach((batch, number) => {
        if (batch.end === batch.first) return;
        const [a, b] = [batch.first, batch.end - 1];
        const begin = view.toX(Math.min(times.begins[a], times.begins[b])) - 5;
        const end = view.toX(Math.max(times.ends[a], times.ends[b])) + 5;
        if (end < view.left || begin > view.right) return;
        const isNarrow = end - begin < NARROW;
        if (open && isNarrow && open.isNarrow && begin - open.end < 3) {
          open.end = Math.max(open.end, end);
          open.isOne = false;
          return;
        }
        close();
        open = { begin, end, number, isNarrow, isOne: true };
      });
      close();
    });
    return labels;
  }

  // The words on batches, in the middle, since arrows come to both ends; and on a ground of their own.
  function written(context, scene, labels) {
    const { colours } = scene;
    context.save();
    context.textAlign = "center";
    context.textBaseline = "middle";
    context.lineWidth = 3;
    context.lineJoin = "round";
    context.strokeStyle = colours.batch;
    for (const { text, x, y } of labels) {
      context.font = Viewer.paint.SMALL;
      context.strokeText(text, x, y);
      Viewer.paint.write(context, text, Viewer.paint.SMALL, colours.pale, x, y);
    }
    context.restore();
  }

  // The nodes of one lane. What is too narrow for a box is a column, and of what falls on one column a command is seen before marks.
  function nodesOf(context, scene, lane) {
    const { program, times, view, colours, drawn, hits } = scene;
    const columns = () => Array.from({ length: lane.rows }, () => new Viewer.paint.Columns(view.left, view.right));
    const [thin, found] = [columns(), columns()];
    const [first, end] = between(lane, times, view.toTime(view.left), view.toTime(view.right));
    for (let k = first; k < end; k++) {
      const n = lane.nodes[k];
      const node = program.nodes[n];
      const row = scene.lanes.rowOf[n];
      const width = (times.ends[n] - times.begins[n]) * view.k;
      if (width < THIN) {
        const x = view.toX(times.begins[n]);
        if (scene.found.has(n)) found[row].set(x, colours.found);
        const before = thin[row].at(x);
        if (before === null) hits.push({ ...placeOf(scene, n), node: n });
        if (before === null || !node.isMark) thin[row].set(x, node.isMark ? Viewer.drawNodes.inkOf(node, colours) : colours.stroke[Viewer.drawNodes.sortOf(node)]);
        drawn.merged++;
        continue;
      }
      const place = placeOf(scene, n);
      if (node.isMark) Viewer.drawNodes.mark(context, scene, node, place);
      else Viewer.drawNodes.command(context, scene, node, place);
      (node.isMark ? drawn.marks : drawn.boxes).push(n);
      hits.push({ ...place, node: n });
      if (scene.found.has(n)) outlined(context, place, colours.found, 2);
    }
    for (let row = 0; row < lane.rows; row++) {
      const y = Viewer.lanes.rowTop(lane, row) - view.y;
      thin[row].fill(context, y, BOX);
      found[row].fill(context, y - 4, 3);
      found[row].fill(context, y + BOX + 1, 3);
    }
  }

  function outlined(context, { x, y, width, height }, colour, by, dash = []) {
    context.save();
    context.lineWidth = 2.5;
    context.setLineDash(dash);
    Viewer.paint.box(context, x - by, y - by, width + 2 * by, height + 2 * by, null, colour, 6);
    context.restore();
  }

  // The point of a node at which an arrow to or from another one begins or ends.
  function end(scene, n, other) {
    const { view, times } = scene;
    const [top, otherTop] = [topOf(scene.lanes, n), topOf(scene.lanes, other)];
    return [view.toX((times.begins[n] + times.ends[n]) / 2), top - view.y + (top < otherTop ? BOX : 0)];
  }

  // Whether an arrow is one of what is chosen: it ends at the node, or hands over one of its pieces.
  const isOwn = ({ program, chosen, related }, from, to) => from === chosen?.node || to === chosen?.node || related.has(program.nodes[from].item.piece);

  // Arrows between nodes: those alone that are in view. Without heads steep ones are columns, and of others that fall together one is
  // drawn. Those that only pass by are pale, and where what is chosen has arrows all others.
  function arrows(context, scene, pairs, kept, line, width) {
    const { times, view, colours, drawn } = scene;
    const [left, right] = [view.toTime(view.left), view.toTime(view.right)];
    const head = view.k > 0.12;
    const isSeen = (n) => times.ends[n] >= left && times.begins[n] <= right;
    const [plain, passing, own, seen, steep] = [[], [], [], new Set(), new Map()];
    for (const { from, to } of pairs) {
      if (Math.max(times.ends[from], times.ends[to]) < left || Math.min(times.begins[from], times.begins[to]) > right) continue;
      const [a, b] = [end(scene, from, to), end(scene, to, from)];
      kept.push([from, to]);
      if (isOwn(scene, from, to)) {
        own.push([a, b]);
        drawn.own.push([from, to]);
        continue;
      }
      if (!head && Math.abs(a[0] - b[0]) < 3) {
        const lanes = a[1] * 65536 + b[1];
        if (!steep.has(lanes)) steep.set(lanes, { top: Math.min(a[1], b[1]), height: Math.abs(a[1] - b[1]), columns: new Viewer.paint.Columns(view.left, view.right) });
        steep.get(lanes).columns.set((a[0] + b[0]) / 2, colours[line]);
        continue;
      }
      const key = `${Math.round(a[0] / 3)} ${Math.round(b[0] / 3)} ${a[1]} ${b[1]}`;
      if (seen.has(key)) continue;
      seen.add(key);
      (isSeen(from) || isSeen(to) ? plain : passing).push([a, b]);
    }
    const dash = Viewer.paint.DASHES[line];
    context.save();
    context.globalAlpha = scene.hasArrows ? PALE : 1;
    Viewer.paint.arrows(context, plain, colours[line], { dash, width, head });
    context.globalAlpha = PALE;
    Viewer.paint.arrows(context, passing, colours[line], { dash, width: 1, head: false });
    context.globalAlpha = scene.hasArrows ? PALE / 2 : 0.5;
    for (const { top, height, columns } of steep.values()) columns.fill(context, top, height);
    context.restore();
    Viewer.paint.arrows(context, own, colours[line], { dash, width: width + 1.5, head: true });
  }

  // The sides of the hazard, with a dashed line between them.
  function hazard(context, scene) {
    const { colours, drawn, view } = scene;
    const places = scene.sides.map((n) => placeOf(scene, n)).map((place) => (place.width < 6 ? { ...place, x: place.x - 3, width: 6 } : place));
    if (places.length === 2) {
      const [a, b] = places.map((place) => [place.x + place.width / 2, place.y + place.height]);
      if (Math.max(a[0], b[0]) > view.left && Math.min(a[0], b[0]) < view.right) {
        context.save();
        context.strokeStyle = colours.hazard;
        context.lineWidth = 2.5;
        context.setLineDash(Viewer.paint.DASHES.hazard);
        context.beginPath();
        context.moveTo(...a);
        const low = Math.max(a[1], b[1]) + 26;
        context.bezierCurveTo(a[0], low, b[0], low, ...b);
        context.stroke();
        context.restore();
      }
    }
    // Where the first flag ends: one that stands in its row comes behind it.
    let free = { y: -1, x: 0 };
    places.forEach((place, k) => {
      if (place.x + place.width < view.left || place.x > view.right) return;
      outlined(context, place, colours.hazard, 3);
      outlined(context, place, colours.hazard, 7, [4, 3]);
      const x = place.y === free.y && place.x < free.x ? free.x : place.x - 3;
      free = { y: place.y, x: Viewer.paint.flag(context, x, place.y - 4, places.length === 2 ? `${scene.hazard} ${k + 1} of 2` : scene.hazard, colours) + 2 };
      drawn.marked.push(scene.sides[k]);
    });
  }

  function all(context, scene) {
    const { program, colours, view, drawn } = scene;
    context.lineWidth = 1;
    context.textAlign = "left";
    for (const lane of scene.lanes.lanes) {
      context.fillStyle = colours.lane;
      context.fillRect(view.left, lane.y - view.y, view.right - view.left, lane.height);
    }
    const labels = batches(context, scene);
    for (const lane of scene.lanes.lanes) {
      if (lane.y - view.y <= view.height && lane.y + lane.height >= view.y) nodesOf(context, scene, lane);
    }
    arrows(context, scene, program.arrows, drawn.arrows, "wait", 1.5);
    arrows(context, scene, program.transfers, drawn.transfers, "transfer-arrow", 2);
    written(context, scene, labels);
    hazard(context, scene);
    if (scene.chosen?.node !== undefined) outlined(context, placeOf(scene, scene.chosen.node), colours.chosen, 2);
  }

  return { all, isOwn };
})();
