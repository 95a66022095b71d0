// Draws the memories over time, and the bound.
"use strict";
Viewer.drawHeap = (() => {
  const INSET = 5;
  // Where more pieces than these are too small for their words, none of these has them beside it.
  const WORDY = 60;

  // The rectangle of a piece in its band. Bytes go upwards.
  function placeOf(scene, band, { piece, life, depth }) {
    const byte = band.height / band.size;
    const { view, program } = scene;
    const one = program.pieces[piece];
    const x = view.toX(life.begin);
    const high = Math.min(one.bytes, band.size) * byte;
    const low = (one.offset - band.base) * byte;
    const inset = Math.min(INSET * depth, Math.max(0, high / 2 - 4));
    const height = Math.max(2, high - 2 * inset);
    return { x: x + inset, y: band.y + band.height - low - high + inset - view.y, width: Math.max(1, view.toX(life.end) - x - 2 * inset), height };
  }

  // The words of a rectangle: its name, and its bytes where there is room for all of them, since a number is not cut.
  function wordsOf(scene, one, room) {
    const { SMALL, cut, widthOf } = Viewer.paint;
    const piece = scene.program.pieces[one.piece];
    const name = `${scene.shows.has(piece.name) ? "▲ " : ""}${Viewer.naming.piece(scene.program, one.piece)}`;
    const all = `${name}  ${Viewer.paint.bytes(piece.bytes)}${one.isUsed ? "" : ", named by no node"}`;
    return widthOf(all, SMALL) <= room ? all : cut(name, SMALL, room);
  }

  function edges(context, scene, place, colour, dash) {
    context.save();
    context.lineWidth = 2.5;
    context.setLineDash(dash);
    Viewer.paint.box(context, place.x, place.y, place.width, place.height, null, colour, 3);
    context.restore();
  }

  // Draws a piece, and its words where they have room in it. Returns its place where they have not, or null.
  function rect(context, scene, band, one) {
    const { program, colours, view, drawn } = scene;
    const { kind } = program.pieces[one.piece];
    const place = placeOf(scene, band, one);
    if (place.x + place.width < view.left || place.x > view.right) return null;
    context.setLineDash(one.isUsed ? [] : [2, 4]);
    Viewer.paint.box(context, place.x, place.y, place.width, place.height, one.isUsed ? colours.fill[kind] : null, colours.stroke[kind], 3);
    context.setLineDash([]);
    if (scene.related.has(one.piece)) edges(context, scene, place, colours.chosen, []);
    if (scene.clashing.has(one.piece)) edges(context, scene, place, colours.hazard, [4, 3]);
    if (scene.foundPieces.has(one.piece)) edges(context, scene, place, colours.found, []);
    drawn.pieces.push(one.piece);
    scene.hits.push({ ...place, piece: one.piece });
    const left = Math.max(place.x, view.left);
    const room = Math.min(place.x + place.width, view.right) - left - 12;
    const text = place.height < 11 || room < 20 ? "" : wordsOf(scene, one, room);
    if (!text) return place;
    context.textBaseline = "middle";
    Viewer.paint.write(context, text, Viewer.paint.SMALL, colours.ink, left + 6, place.y + place.height / 2 + 0.5);
    return null;
  }

  // The words of pieces that are too small for them stand behind them, or else before them, where nothing else is.
  function beside(context, scene, taken, small) {
    const { view, colours } = scene;
    const meets = (a, b) => a.x < b.x + b.width && b.x < a.x + a.width && a.y < b.y + b.height && b.y < a.y + a.height;
    context.textBaseline = "middle";
    for (const { one, place } of small) {
      const text = wordsOf(scene, one, Infinity);
      const width = Viewer.paint.widthOf(text, Viewer.paint.SMALL) + 4;
      const y = place.y + place.height / 2 - 6;
      const spot = [place.x + place.width + 2, place.x - width - 2]
        .map((x) => ({ x, y, width, height: 12 }))
        .find((spot) => spot.x >= view.left && spot.x + width <= view.right && !taken.some((other) => !(other.x === place.x && other.y === place.y) && meets(other, spot)));
      if (!spot) continue;
      taken.push(spot);
      Viewer.paint.write(context, text, Viewer.paint.SMALL, colours.ink, spot.x + 2, y + 6.5);
    }
  }

  // A line through a band at a number of bytes, with its text at the right.
  function level(context, scene, band, bytes, text, colour) {
    const { view } = scene;
    const y = band.y + band.height - (bytes * band.height) / band.size - view.y;
    context.save();
    context.strokeStyle = colour;
    context.lineWidth = 2;
    context.setLineDash(Viewer.paint.DASHES.bound);
    context.beginPath();
    context.moveTo(view.left, y);
    context.lineTo(view.right, y);
    context.stroke();
    const { BOLD, box, widthOf, write } = Viewer.paint;
    context.textBaseline = "top";
    const width = widthOf(text, BOLD);
    box(context, view.right - width - 14, y + 3, width + 10, 17, scene.colours.ground, null);
    write(context, text, BOLD, colour, view.right - width - 9, y + 5);
    context.restore();
  }

  function all(context, scene) {
    const { heap, view, colours, drawn } = scene;
    for (const band of heap.bands) {
      if (band.y - view.y > view.height || band.y + band.height < view.y) continue;
      context.fillStyle = colours.lane;
      context.fillRect(view.left, band.y - view.y, view.right - view.left, band.height);
      context.lineWidth = 1;
      const first = scene.hits.length;
      const small = band.rects.map((one) => ({ one, place: rect(context, scene, band, one) })).filter(({ place }) => place);
      if (small.length <= WORDY) beside(context, scene, scene.hits.slice(first), small);
    }
    if (heap.divider !== null) {
      context.strokeStyle = colours.line;
      context.beginPath();
      context.moveTo(0, heap.divider - view.y);
      context.lineTo(view.right, heap.divider - view.y);
      context.stroke();
    }
    const first = heap.bands[0];
    if (scene.bound && first?.memory.sort === "heap") {
      const { bound, heap: whole } = scene.bound;
      level(context, scene, first, bound, bound === whole ? `bound ${Viewer.paint.bytes(bound)}: the heap has no byte more` : `bound ${Viewer.paint.bytes(bound)} of ${Viewer.paint.bytes(whole)}`, colours.bound);
      drawn.bound = bound;
    }
  }

  return { all };
})();
