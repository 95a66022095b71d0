// Draws the nodes of the lanes: boxes of commands with their names, and marks that unfold.
"use strict";
Viewer.drawNodes = (() => {
  const { BOX, topOf } = Viewer.lanes;
  const { BOLD, SMALL, TINY, TINY_BOLD, cut, fitting, widthOf, write } = Viewer.paint;
  const { LETTERS } = Viewer.naming;
  // Room for the pattern at a box's left edge and for a gap behind it, and that at its right edge.
  const [STRIP, EDGE] = [10, 4];
  // Of what is known of a command nothing is written where fewer letters than these have room.
  const READABLE = 5;

  const sortOf = (node) => (node.kind === "command" ? Viewer.tables.sortOf(node.item) : node.kind);

  // Where a node is on the screen.
  function placeOf(scene, n) {
    const { view, times } = scene;
    const x = view.toX(times.begins[n]);
    return { x, y: topOf(scene.lanes, n) - view.y, width: Math.max(1, view.toX(times.ends[n]) - x), height: BOX };
  }

  // The colour of a mark's edge and letter.
  function inkOf(node, colours) {
    if (node.kind === "wait" || node.kind === "signal") return colours.wait;
    return node.kind === "release" || node.kind === "acquire" ? colours["transfer-arrow"] : colours["mark-ink"];
  }

  // What is never reached is hatched.
  function stuck(context, scene, { x, y, width, height }) {
    if (width < 6) return;
    context.strokeStyle = scene.colours.line;
    context.beginPath();
    for (let dx = -height; dx < width; dx += 9) {
      const from = Math.max(dx, 0);
      const to = Math.min(dx + height, width);
      context.moveTo(x + from, y + height - (from - dx));
      context.lineTo(x + to, y + height - (to - dx));
    }
    context.stroke();
  }

  function upright(context, text, font, colour, { x, y, width, height }) {
    context.save();
    context.translate(x + 6 + (width - 6) / 2, y + height - 3);
    context.rotate(-Math.PI / 2);
    context.textBaseline = "middle";
    write(context, text, font, colour, 0, 0);
    context.restore();
  }

  // A text on two lines, as much of it as has room.
  function broken(text, font, across) {
    const count = fitting(text, font, across);
    return [text.slice(0, count), cut(text.slice(count), font, across)];
  }

  // How a name stands in a box: on a line; or upright, or on two lines, where all of it has room so; or what is left of it, upright or
  // on two lines, whichever is more.
  function setting(label, across, up) {
    const line = [BOLD, SMALL, TINY].find((font) => widthOf(label, font) <= across);
    if (line) return { font: line, lines: [label] };
    for (const font of [SMALL, TINY]) {
      if (widthOf(label, font) <= up) return { font, upright: label };
      const lines = broken(label, font, across);
      if (lines.join("") === label) return { font, lines };
    }
    const [lines, cutOff] = [broken(label, TINY, across), cut(label, TINY, up)];
    return lines[1] && lines.join("").length > cutOff.length ? { font: TINY, lines } : { font: TINY, upright: cutOff };
  }

  // Writes a name into a box, and below it what else is known of the command where some of it can be read. Returns what is written of
  // the name.
  function name(context, scene, node, place) {
    const { colours, program } = scene;
    const { x, y, width, height } = place;
    const across = width - STRIP - EDGE;
    const set = setting(Viewer.naming.label(program, node), across, height - 5);
    if (set.upright !== undefined) {
      upright(context, set.upright, set.font, colours.ink, place);
      return set.upright;
    }
    context.textBaseline = "alphabetic";
    set.lines.forEach((line, k) => write(context, line, set.font, colours.ink, x + STRIP, y + 18 + 14 * k));
    if (set.lines.length > 1) return set.lines.join("");
    const detail = Viewer.naming.detail(program, node);
    const shown = cut(detail, SMALL, across);
    if (shown === detail || shown.length > READABLE) write(context, shown, SMALL, colours.pale, x + STRIP, y + 35);
    return set.lines[0];
  }

  function command(context, scene, node, place) {
    const { colours } = scene;
    const { x, y, width, height } = place;
    const sort = sortOf(node);
    Viewer.paint.box(context, x, y, width, height, colours.fill[sort], colours.stroke[sort]);
    if (node.stuck) stuck(context, scene, place);
    if (width < 8) return;
    context.fillStyle = Viewer.paint.pattern(context, sort, colours.stroke[sort]);
    context.fillRect(x + 1, y + 1, width < 18 ? 3 : 5, height - 2);
    if (width < 17) return;
    const shown = name(context, scene, node, place);
    if (shown) scene.drawn.names.push(shown);
  }

  // A mark that is not unfolded: its letter, squeezed where it is narrow, and a diamond below it where a layout changes.
  function folded(context, node, ink, { x, y, width, height }) {
    const letter = LETTERS[node.kind];
    const middle = x + width / 2;
    context.textAlign = "center";
    context.textBaseline = "middle";
    context.font = BOLD;
    context.fillStyle = ink;
    context.fillText(letter, middle, y + 13, width - 2);
    context.textAlign = "left";
    if (node.item.from === undefined || node.item.from === node.item.to) return;
    const [low, wide] = [y + height - 13, Math.min(4.5, width / 2 - 1)];
    context.beginPath();
    for (const [dx, dy] of [[0, -5], [wide, 0], [0, 5], [-wide, 0]]) context.lineTo(middle + dx, low + dy);
    context.fill();
  }

  function mark(context, scene, node, place) {
    const { colours, open } = scene;
    const { x, y, width, height } = place;
    const ink = inkOf(node, colours);
    Viewer.paint.box(context, x, y, width, height, colours.mark, ink, 3);
    if (node.stuck) stuck(context, scene, place);
    if (node.joined) {
      context.fillStyle = ink;
      context.fillRect(x - 3, y + height / 2 - 1, 6, 2);
    }
    if (!open.has(node.number)) {
      if (width >= 6) folded(context, node, ink, place);
      return;
    }
    scene.drawn.unfolded.push(node.number);
    if (width < 30) return;
    context.textBaseline = "alphabetic";
    Viewer.times.unfolded(scene.program, node).forEach((text, k) => {
      const font = k ? TINY : TINY_BOLD;
      write(context, cut(text, font, width - 10), font, k ? colours.ink : ink, x + 6, y + 10 + 10.5 * k);
    });
  }

  return { command, mark, placeOf, sortOf, inkOf };
})();
