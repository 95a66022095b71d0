// Small things that are drawn on a canvas: colours of the theme, texts that fit, boxes, columns of pixels, arrows, flags.
"use strict";
Viewer.paint = (() => {
  const FAMILY = '"Segoe UI", "Helvetica Neue", "DejaVu Sans", Arial, sans-serif';
  const BOLD = `600 12px ${FAMILY}`;
  const SMALL = `11px ${FAMILY}`;
  const TINY = `10px ${FAMILY}`;
  const TINY_BOLD = `600 ${TINY}`;

  // The dashes of each kind of line, in the picture and in the legend.
  const DASHES = { wait: [], "transfer-arrow": [6, 3], hazard: [7, 5], bound: [10, 4] };

  // The colours of the page's style sheet, by their names without dashes in front.
  const NAMES = ["ground", "lane", "ink", "pale", "line", "batch", "wait", "transfer-arrow", "hazard", "on-hazard", "found", "chosen", "bound", "mark", "mark-ink"];
  const SORTS = ["render", "compute", "transfer", "clear", "present", "readback", "handover", "image", "buffer", "texture"];
  function theme() {
    const style = getComputedStyle(document.documentElement);
    const colour = (name) => style.getPropertyValue(`--${name}`).trim();
    const fill = Object.fromEntries(SORTS.map((sort) => [sort, colour(`${sort}-fill`)]));
    const stroke = Object.fromEntries(SORTS.map((sort) => [sort, colour(`${sort}-line`)]));
    return { ...Object.fromEntries(NAMES.map((name) => [name, colour(name)])), fill, stroke };
  }

  // Each sort has a pattern of its own besides its colour: what is drawn into a square of 6 by 6.
  const PATTERNS = {
    render: "M0 0h6v6h-6z",
    compute: "M-1 7L7 -1M-1 1L1 -1M5 7L7 5",
    transfer: "M0 1h6M0 4h6",
    clear: "M1 1h2v2h-2zM4 4h2v2h-2z",
    present: "M1 0v6M4 0v6",
    readback: "M0 0L6 6M6 0L0 6",
    handover: "M-1 -1L7 7M-1 5L1 7M5 -1L7 1",
  };
  const FILLED = new Set(["render", "clear"]);
  const made = new Map();
  function pattern(context, sort, colour) {
    const key = `${sort} ${colour}`;
    if (!made.has(key)) {
      const tile = document.createElement("canvas");
      tile.width = tile.height = 6;
      const small = tile.getContext("2d");
      const path = new Path2D(PATTERNS[sort] ?? "");
      small.strokeStyle = small.fillStyle = colour;
      small.lineWidth = 1.3;
      small.stroke(path);
      if (FILLED.has(sort)) small.fill(path);
      made.set(key, context.createPattern(tile, "repeat"));
    }
    return made.get(key);
  }

  // How wide a text is in a font.
  const ruler = document.createElement("canvas").getContext("2d");
  const widths = new Map();
  function widthOf(text, font) {
    if (!widths.has(font)) widths.set(font, new Map());
    const known = widths.get(font);
    const width = known.get(text);
    if (width !== undefined) return width;
    if (known.size > 20000) known.clear();
    ruler.font = font;
    known.set(text, ruler.measureText(text).width);
    return known.get(text);
  }

  // How many letters of a text have room, with so much more behind them.
  function fitting(text, font, width, more = "") {
    let [low, high] = [0, text.length];
    while (low < high) {
      const middle = (low + high + 1) >> 1;
      if (widthOf(text.slice(0, middle) + more, font) <= width) low = middle;
      else high = middle - 1;
    }
    return low;
  }

  // A text cut to a width, with dots at its end; empty where nothing readable is left.
  function cut(text, font, width) {
    if (widthOf(text, font) <= width) return text;
    const count = fitting(text, font, width, "…");
    return count >= 2 ? `${text.slice(0, count)}…` : "";
  }

  function write(context, text, font, colour, x, y) {
    context.font = font;
    context.fillStyle = colour;
    context.fillText(text, x, y);
  }

  // A box; a small one is filled with the colour of its edge.
  function box(context, x, y, width, height, fill, line, radius = 4) {
    if (width < 5 || height < 5) {
      context.fillStyle = line ?? fill;
      context.fillRect(x, y, width, height);
      return;
    }
    context.beginPath();
    context.roundRect(x, y, width, height, Math.min(radius, width / 2, height / 2));
    if (fill) {
      context.fillStyle = fill;
      context.fill();
    }
    if (line) {
      context.strokeStyle = line;
      context.stroke();
    }
  }

  // Columns of pixels, each with a colour or none. Neighbours of one colour are filled as one rectangle.
  class Columns {
    constructor(left, right) {
      this.left = Math.floor(left);
      this.colours = new Array(Math.max(0, Math.ceil(right) - this.left)).fill(null);
    }

    at(x) {
      return this.colours[Math.floor(x) - this.left] ?? null;
    }

    // Gives a column its colour; false where it is not in view.
    set(x, colour) {
      const column = Math.floor(x) - this.left;
      if (column < 0 || column >= this.colours.length) return false;
      this.colours[column] = colour;
      return true;
    }

    fill(context, y, height) {
      const { colours } = this;
      for (let first = 0; first < colours.length; ) {
        let end = first + 1;
        while (end < colours.length && colours[end] === colours[first]) end++;
        if (colours[first] !== null) {
          context.fillStyle = colours[first];
          context.fillRect(this.left + first, y, end - first, height);
        }
        first = end;
      }
    }
  }

  // Arrows, each from one point down or up to another, with its head at the second where it has one.
  function arrows(context, pairs, colour, { dash, width, head }) {
    const lines = new Path2D();
    const heads = new Path2D();
    for (const [[x0, y0], [x1, y1]] of pairs) {
      const down = y1 > y0 ? 1 : -1;
      const bend = down * Math.max(14, Math.min(60, Math.abs(y1 - y0) / 2));
      const end = y1 - (head ? 6 * down : 0);
      lines.moveTo(x0, y0);
      // Between two nodes of one lane it goes over them.
      if (y0 === y1) lines.bezierCurveTo(x0, y0 - 16, x1, y1 - 16, x1, y1);
      else lines.bezierCurveTo(x0, y0 + bend, x1, end - bend, x1, end);
      heads.moveTo(x1, y1);
      heads.lineTo(x1 - 4.5, y1 - 8 * (y0 === y1 ? 1 : down));
      heads.lineTo(x1 + 4.5, y1 - 8 * (y0 === y1 ? 1 : down));
    }
    context.save();
    context.strokeStyle = context.fillStyle = colour;
    context.lineWidth = width;
    context.setLineDash(dash);
    context.stroke(lines);
    if (head) context.fill(heads);
    context.restore();
  }

  // A flag with a number over a box, by which the sides of a hazard are told apart. Returns where it ends.
  function flag(context, x, y, text, colours) {
    const width = widthOf(text, BOLD) + 10;
    box(context, x, y - 17, width, 16, colours.hazard, null, 3);
    context.textBaseline = "middle";
    write(context, text, BOLD, colours["on-hazard"], x + 5, y - 8.5);
    return x + width;
  }

  // Lines of a text, broken at blanks.
  function wrapped(text, font, width) {
    const lines = [];
    let line = "";
    for (const word of text.split(" ")) {
      const longer = line ? `${line} ${word}` : word;
      if (line && widthOf(longer, font) > width) {
        lines.push(line);
        line = word;
      } else line = longer;
    }
    return line ? [...lines, line] : lines;
  }

  const bytes = (count) => `${String(count).replace(/\B(?=(\d{3})+$)/g, ",")} B`;

  return { BOLD, SMALL, TINY, TINY_BOLD, DASHES, PATTERNS, FILLED, Columns, theme, pattern, widthOf, fitting, cut, write, box, arrows, flag, wrapped, bytes };
})();
