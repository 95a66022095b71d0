// Memories over time: a band for each, bytes upwards, with a rectangle for each piece from the first node that names it to the last.
"use strict";
Viewer.heap = (() => {
  // How tall the greatest band is at least and at most where nobody says so.
  const [LEAST, MOST] = [240, 640];
  const APART = ["external", "import", "read-back", "memory"];

  // The first and the last node of each piece in time, and where they begin and end; null where no node names it.
  function lives(program, times) {
    const found = program.pieces.map(() => null);
    for (const node of program.nodes) {
      for (const number of node.pieces) {
        const [begin, end] = [times.begins[node.number], times.ends[node.number]];
        const life = (found[number] ??= { first: node.number, last: node.number, begin, end });
        if (begin < life.begin) [life.first, life.begin] = [node.number, begin];
        if (end > life.end) [life.last, life.end] = [node.number, end];
      }
    }
    return found;
  }

  // How deep each piece lies in others that have some of its bytes at the same time: these are drawn inset, so that none hides another.
  function depths(program, memory, found) {
    const depth = new Map();
    const alive = [];
    const own = memory.pieces.filter((number) => found[number]).sort((a, b) => found[a].begin - found[b].begin);
    for (const number of own) {
      let [count, deep] = [0, 0];
      for (const other of alive) {
        if (found[other].end <= found[number].begin) continue;
        alive[count++] = other;
        if (Viewer.program.overlap(program.pieces[other], program.pieces[number])) deep = Math.max(deep, 1 + depth.get(other));
      }
      alive.length = count;
      alive.push(number);
      depth.set(number, deep);
    }
    return depth;
  }

  // The bands from top to bottom: first the memories that pieces share, then those apart. The greatest of the first is `tall`; where
  // that is null, as tall as the room lets it be.
  function bandsOf(program, times, tall, top, room) {
    const found = lives(program, times);
    const shared = program.memories.filter((memory) => memory.sort === "heap");
    const apart = APART.flatMap((sort) => program.memories.filter((memory) => memory.sort === sort));
    let y = top;
    const band = (memory, height) => {
      const depth = depths(program, memory, found);
      // What no node names is drawn over all of time, below the others.
      const rects = memory.pieces.map((number) => ({ piece: number, isUsed: found[number] !== null, life: found[number] ?? { begin: 0, end: times.end }, depth: depth.get(number) ?? 0 }));
      rects.sort((a, b) => a.isUsed - b.isUsed || a.depth - b.depth || a.life.begin - b.life.begin);
      // A memory with one piece is a row of its own, as high as its name: it shows the piece alone.
      const only = memory.pieces.length === 1 && memory.sort !== "heap" ? program.pieces[memory.pieces[0]] : null;
      const one = { memory, y, height, rects, base: only?.offset ?? 0, size: Math.max(1, only?.bytes ?? memory.size) };
      y += height + 6;
      return one;
    };
    const greatest = Math.max(1, ...shared.map((memory) => memory.size));
    const flat = (memory) => (memory.pieces.length > 1 ? 56 : 30);
    const left = room - top - 24 - apart.reduce((sum, memory) => sum + flat(memory) + 6, 0) - 6 * shared.length;
    const parts = shared.reduce((sum, memory) => sum + memory.size / greatest, 0);
    const most = tall ?? Math.min(MOST, Math.max(LEAST, left / parts));
    const bands = shared.map((memory) => band(memory, Math.max(48, (most * memory.size) / greatest)));
    y += shared.length ? 8 : 0;
    const divider = shared.length && apart.length ? y - 6 : null;
    bands.push(...apart.map((memory) => band(memory, flat(memory))));
    return { tall: most, bands, bottom: y, divider, lives: found };
  }

  return { bandsOf };
})();
