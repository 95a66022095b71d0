// The picture: the scene that is drawn, drawing it when something changes, and what stands at a point of it.
"use strict";
Viewer.Picture = class {
  constructor(canvas) {
    this.canvas = canvas;
    this.context = canvas.getContext("2d");
    this.view = new Viewer.View();
    this.colours = Viewer.paint.theme();
    this.tall = null;
    this.scene = null;
    this.drawn = null;
    this.isAsked = false;
  }

  // Shows a program. `facts` has what the program framec says of it: hazards, bound, and the events of a trace.
  show(program, facts) {
    this.scene = {
      program,
      facts,
      view: this.view,
      open: new Set(),
      found: new Set(),
      foundPieces: new Set(),
      related: new Set(),
      sides: facts.hazard?.sides.map((side) => side.number) ?? [],
      hazard: facts.hazard?.hazard ?? "",
      clashing: new Set(facts.hazard?.pieces ?? []),
      bound: facts.bound,
      shows: new Set(facts.bound?.units ?? []),
      byTrace: Boolean(facts.trace),
      chosen: null,
      hasArrows: false,
      hits: [],
    };
    this.resize();
    this.begin();
  }

  // Finds where everything stands.
  arrange() {
    const { scene } = this;
    const { program, open, facts } = scene;
    scene.times = scene.byTrace ? Viewer.times.byTrace(program, open, facts.trace.events) : Viewer.times.byOrder(program, open);
    scene.lanes = Viewer.lanes.of(program, scene.times);
    const note = facts.hazard ? 80 : 0;
    scene.noteTop = scene.lanes.bottom;
    scene.heap = Viewer.heap.bandsOf(program, scene.times, this.tall, scene.lanes.bottom + note + 14, this.view.height);
    this.view.wholeWidth = scene.times.end;
    this.view.wholeHeight = scene.heap.bottom + 14;
  }

  // The first look: the hazard, or all of it where that can be read, or else the beginning.
  begin() {
    const { view, scene } = this;
    view.x = view.y = 0;
    view.k = view.least >= 0.3 ? view.least : 0.75;
    view.keepInside();
    if (scene.sides.length) this.bring(scene.sides);
    this.ask();
  }

  resize() {
    const { clientWidth, clientHeight } = this.canvas;
    const ratio = window.devicePixelRatio || 1;
    this.canvas.width = Math.round(clientWidth * ratio);
    this.canvas.height = Math.round(clientHeight * ratio);
    this.context.setTransform(ratio, 0, 0, ratio, 0, 0);
    [this.view.width, this.view.height] = [clientWidth, clientHeight];
    if (this.scene) this.arrange();
    this.view.keepInside();
    this.ask();
  }

  // Has the picture drawn before the next frame of the screen.
  ask() {
    if (this.isAsked || !this.scene) return;
    this.isAsked = true;
    requestAnimationFrame(() => {
      this.isAsked = false;
      this.draw();
    });
  }

  draw() {
    const { context, view, colours, scene } = this;
    scene.colours = colours;
    scene.hits = [];
    scene.drawn = { boxes: [], marks: [], unfolded: [], merged: 0, batches: [], arrows: [], transfers: [], own: [], names: [], marked: [], pieces: [], bound: null, note: [] };
    context.fillStyle = colours.ground;
    context.fillRect(0, 0, view.width, view.height);
    context.save();
    context.beginPath();
    context.rect(view.left, 0, view.width - view.left, view.height);
    context.clip();
    Viewer.drawLanes.all(context, scene);
    Viewer.drawHeap.all(context, scene);
    if (scene.facts.hazard) this.note(scene.facts.hazard);
    context.restore();
    this.gutter();
    this.bars();
    this.drawn = scene.drawn;
    Viewer.firstPicture ??= performance.now();
  }

  // What is wrong and what is missing, beside the marked pair.
  note(hazard) {
    const { context, view, colours, scene } = this;
    const middle = scene.sides.length ? scene.sides.reduce((sum, n) => sum + scene.times.begins[n] + scene.times.ends[n], 0) / (2 * scene.sides.length) : 0;
    const width = Math.min(680, view.width - view.left - 24);
    const x = Math.max(view.left + 10, Math.min(view.toX(middle) - width / 2, view.width - width - 10));
    const y = scene.noteTop - view.y;
    const { BOLD, SMALL, write } = Viewer.paint;
    const lines = Viewer.paint.wrapped(`${hazard.what} ${hazard.missing}`, SMALL, width - 20).slice(0, 4);
    Viewer.paint.box(context, x, y, width, 24 + 15 * lines.length, colours.ground, colours.hazard, 5);
    context.textBaseline = "alphabetic";
    write(context, `hazard ${hazard.hazard}`, BOLD, colours.hazard, x + 10, y + 15);
    lines.forEach((line, k) => write(context, line, SMALL, colours.ink, x + 10, y + 31 + 15 * k));
    scene.drawn.note = lines;
  }

  // The names of lanes and memories, which stay at the left.
  gutter() {
    const { context, view, colours, scene } = this;
    const { BOLD, SMALL, TINY, TINY_BOLD, cut, widthOf, write } = Viewer.paint;
    const room = view.left - 14;
    // What has no room in the greater font stands in the smaller one.
    const line = (text, fonts, colour, y) => {
      const font = fonts.find((one) => widthOf(text, one) <= room) ?? fonts.at(-1);
      write(context, cut(text, font, room), font, colour, 8, y);
    };
    const row = (y, height, title, below) => {
      if (y - view.y > view.height || y + height < view.y) return;
      context.textBaseline = "middle";
      const middle = y + height / 2 - view.y;
      const apart = height > 34 ? 8 : 6.5;
      line(title, [BOLD, TINY_BOLD], colours.ink, middle - apart);
      line(below, [height > 34 ? SMALL : TINY, TINY], colours.pale, middle + apart);
    };
    context.textAlign = "left";
    for (const lane of scene.lanes.lanes) row(lane.y, lane.height, lane.title, lane.below);
    for (const { y, height, memory } of scene.heap.bands) {
      const title = memory.name || `memory ${memory.number}`;
      const kind = ["memory", "heap"].includes(memory.sort) || title.endsWith(".readback") ? "" : `${memory.sort}, `;
      row(y, height, title, `${kind}${Viewer.paint.bytes(memory.size)}`);
    }
  }

  // Where the screen is in the whole, at its lower and its right edge.
  bars() {
    const { context, view, colours } = this;
    const bar = (x, y, width, height) => Viewer.paint.box(context, x, y, width, height, colours.pale, null, 2);
    const across = view.width - view.left;
    const shown = across / view.k / view.wholeWidth;
    if (shown < 0.99) bar(view.left + (view.x / view.wholeWidth) * across, view.height - 5, Math.max(12, shown * across), 4);
    if (view.height < view.wholeHeight) bar(view.width - 5, (view.y / view.wholeHeight) * view.height, 4, Math.max(12, (view.height / view.wholeHeight) * view.height));
  }

  // What is drawn at a point: {node} or {piece}, or null.
  at(x, y) {
    if (x < this.view.left) return null;
    const hit = this.scene?.hits.findLast((one) => x >= one.x - 1 && x <= one.x + one.width + 1 && y >= one.y && y <= one.y + one.height);
    return hit ? (hit.node === undefined ? { piece: hit.piece } : { node: hit.node }) : null;
  }

  choose(chosen) {
    const { scene } = this;
    scene.chosen = chosen;
    scene.related = new Set(chosen?.node === undefined ? (chosen ? [chosen.piece] : []) : scene.program.nodes[chosen.node].pieces);
    const { arrows, transfers } = scene.program;
    scene.hasArrows = [...arrows, ...transfers].some(({ from, to }) => Viewer.drawLanes.isOwn(scene, from, to));
    this.ask();
  }

  // Brings nodes into view.
  bring(nodes) {
    const { scene, view } = this;
    const begin = Math.min(...nodes.map((n) => scene.times.begins[n]));
    const end = Math.max(...nodes.map((n) => scene.times.ends[n]));
    if ((end - begin + 40) * view.k > view.width - view.left) view.k = Math.max(view.least, (view.width - view.left) / (end - begin + 60));
    const tops = nodes.map((n) => Viewer.lanes.topOf(scene.lanes, n));
    view.show(begin, end, Math.min(...tops) - 24, Math.max(...tops) + 60);
    this.ask();
  }

  bringPiece(number) {
    const { scene, view } = this;
    const life = scene.heap.lives[number];
    const band = scene.heap.bands.find((one) => one.memory.number === scene.program.pieces[number].memory);
    if (life && band) view.show(life.begin, life.end, band.y, band.y + Math.min(band.height, view.height - 60));
    this.ask();
  }

  // Unfolds marks, at a zoom at which they can be read, or folds them again. The one that is meant, or the first one of all in view,
  // stays where it is.
  unfold(nodes, isOpen) {
    const { scene, view } = this;
    for (const n of nodes) {
      if (isOpen) scene.open.add(n);
      else scene.open.delete(n);
    }
    const seen = scene.hits.find((hit) => hit.node !== undefined && hit.x >= view.left)?.node ?? 0;
    const stays = nodes.length === 1 ? nodes[0] : seen;
    const x = view.toX(scene.times.begins[stays]);
    this.arrange();
    if (isOpen) view.k = Math.max(1, view.k);
    view.x = scene.times.begins[stays] - (x - view.left) / view.k;
    view.keepInside();
    this.ask();
  }

  // Lets the heap be taller or flatter.
  stretch(by) {
    this.tall = Math.min(3000, Math.max(80, this.scene.heap.tall * by));
    this.arrange();
    this.view.keepInside();
    this.ask();
  }

  recolour() {
    this.colours = Viewer.paint.theme();
    this.ask();
  }
};
