// The page: takes files, shows what they come to, and answers buttons, keys and the mouse.
"use strict";
Viewer.page = (() => {
  const by = (id) => document.getElementById(id);
  const picture = new Viewer.Picture(by("picture"));
  // The texts that were given so far, by their sort, and the name of the file.
  let texts = {};
  let name = "";
  let lastFound = -1;

  function tell(fault) {
    by("fault").hidden = !fault;
    by("fault").textContent = fault ?? "";
  }

  function summary(program) {
    const counts = [`${program.nodes.length} nodes on ${program.queues.length} queues`, `${program.arrows.length} waits for signals`, `${program.transfers.length} transfers`, `${program.pieces.length} pieces in ${program.memories.length} memories`];
    return `Schedule: ${counts.join(", ")}. Key t has it in tables.`;
  }

  // Shows what texts come to, under the name of a file. Where something is wrong with them nothing changes, and that is thrown.
  function show(newName, newTexts) {
    const { program, facts, fault } = Viewer.given.read(newTexts);
    [name, texts] = [newName, newTexts];
    by("name").textContent = name || "no file";
    document.title = name ? `${name}: framec view` : "framec view";
    tell(fault);
    Viewer.panel.verdict(by("verdict"), facts.verdict, program?.nodes.length);
    if (!program) return;
    by("welcome").hidden = true;
    by("picture").setAttribute("aria-label", summary(program));
    Viewer.panel.hazard(by("hazard"), facts.hazard, go);
    by("time").hidden = !facts.trace;
    by("search").value = by("count").textContent = "";
    picture.show(program, facts);
    choose(null);
    const faulty = fault && program.nodes.find((node) => node.path === facts.verdict.path);
    if (faulty) go(faulty.number);
    refresh();
  }

  // The same, but for what is wrong: that is returned.
  function attempt(newName, newTexts) {
    try {
      show(newName, newTexts);
      return null;
    } catch (error) {
      if (error instanceof Viewer.given.Wrong) return error;
      throw error;
    }
  }

  // What depends on the scene beside the canvas: the buttons and the tables.
  function refresh() {
    const { scene } = picture;
    by("unfold").setAttribute("aria-pressed", String(scene.open.size > 0));
    by("time").textContent = scene.byTrace ? "Time: trace" : "Time: order";
    if (!by("tables").hidden) Viewer.tablesView.show(by("tables"), scene);
  }

  function choose(what) {
    picture.choose(what);
    Viewer.panel.chosen(by("chosen"), picture.scene.program, picture.scene, what);
  }

  function go(number) {
    picture.bring([number]);
    choose({ node: number });
  }

  // Files that somebody dropped or picked. A submission begins anew; else they are taken beside what is there.
  async function take(files) {
    const read = await Promise.all([...files].map(async (file) => ({ file: file.name, text: await file.text() })));
    if (!read.length) return;
    const sorted = read.map((one) => ({ ...one, ...Viewer.said.sortOf(one.text) }));
    const broken = sorted.find((one) => one.wrong);
    if (broken) return tell(`${broken.file}: ${broken.wrong}`);
    const twice = sorted.find((one, k) => sorted.some((other, j) => j < k && other.sort === one.sort));
    if (twice) return tell(`${twice.file}: Of each sort one file is taken, and this is a second ${twice.sort}.`);
    const main = sorted.find((one) => one.sort === "submission");
    const given = Object.fromEntries(sorted.map((one) => [one.sort, one.text]));
    const wrong = main ? attempt(main.file, given) : attempt(name, { ...texts, ...given });
    if (wrong) tell(`${(sorted.find((one) => one.sort === wrong.sort) ?? sorted[0]).file}: ${wrong.message}`);
  }

  function look(text) {
    const { scene } = picture;
    const { nodes, pieces } = Viewer.search.found(scene.program, text);
    [scene.found, scene.foundPieces] = [new Set(nodes), new Set(pieces)];
    const counted = (count, what) => `${count} ${what}${count === 1 ? "" : "s"}`;
    by("count").textContent = text ? `${counted(nodes.length, "node")}, ${counted(pieces.length, "piece")}` : "";
    lastFound = -1;
    picture.ask();
    refresh();
  }

  function nextFound() {
    const { scene } = picture;
    const all = [...[...scene.found].map((node) => ({ node })), ...[...scene.foundPieces].map((piece) => ({ piece }))];
    if (!all.length) return;
    lastFound = (lastFound + 1) % all.length;
    const one = all[lastFound];
    if (one.node !== undefined) return go(one.node);
    picture.bringPiece(one.piece);
    choose(one);
  }

  // From the chosen node so many nodes along its lane, or to the lane so many further down.
  function step(along, lanes) {
    const { scene } = picture;
    const now = scene.chosen?.node;
    if (now === undefined) return scene.program.nodes.length && go(scene.lanes.lanes.find((lane) => lane.nodes.length)?.nodes[0] ?? 0);
    const lane = scene.lanes.of[now];
    if (along) {
      const { nodes } = scene.lanes.lanes[lane];
      const next = nodes[nodes.indexOf(now) + along];
      return next === undefined || go(next);
    }
    const other = scene.lanes.lanes[lane + lanes];
    if (!other?.nodes.length) return;
    const at = scene.times.begins[now];
    go(other.nodes.reduce((best, n) => (Math.abs(scene.times.begins[n] - at) < Math.abs(scene.times.begins[best] - at) ? n : best)));
  }

  // To the other end of the chosen node's arrow.
  function jump() {
    const { program, chosen, sides } = picture.scene;
    const node = program.nodes[chosen?.node];
    if (!node) return;
    const arrow = program.arrows.find(({ from, to }) => from === node.number || to === node.number);
    const other = node.other >= 0 ? node.other : (arrow ? arrow.from + arrow.to - node.number : sides.find((n) => n !== node.number && sides.includes(node.number)));
    if (other !== undefined) go(other);
  }

  function toggle(number) {
    const { scene } = picture;
    if (!scene.program.nodes[number].isMark) return;
    picture.unfold([number], !scene.open.has(number));
    refresh();
  }

  const ACTIONS = {
    o: () => by("files").click(),
    "+": () => picture.view.zoom(1.4),
    "=": () => picture.view.zoom(1.4),
    "-": () => picture.view.zoom(1 / 1.4),
    0: () => picture.view.fit(),
    "[": () => picture.stretch(1 / 1.3),
    "]": () => picture.stretch(1.3),
    "/": () => by("search").focus(),
    n: nextFound,
    h: () => picture.scene.sides.length && (picture.bring(picture.scene.sides), choose({ node: picture.scene.sides[0] })),
    j: jump,
    u: () => {
      const { open, program } = picture.scene;
      const isOpen = open.size === 0;
      picture.unfold(program.nodes.filter((node) => node.isMark).map((node) => node.number), isOpen);
    },
    r: () => {
      const { scene } = picture;
      if (!scene.facts.trace) return;
      scene.byTrace = !scene.byTrace;
      picture.arrange();
      picture.begin();
    },
    t: () => {
      by("tables").hidden = !by("tables").hidden;
      by("stage").hidden = !by("tables").hidden;
      by("table").setAttribute("aria-pressed", String(!by("tables").hidden));
      if (by("tables").hidden) picture.resize();
      else by("tables").focus();
    },
    p: () => {
      by("details").hidden = !by("details").hidden;
      by("panel").setAttribute("aria-pressed", String(!by("details").hidden));
      picture.resize();
    },
    d: () => theme(document.documentElement.dataset.theme === "dark" ? "light" : "dark"),
    ArrowLeft: () => step(-1, 0),
    ArrowRight: () => step(1, 0),
    ArrowUp: () => step(0, -1),
    ArrowDown: () => step(0, 1),
    Enter: () => picture.scene.chosen?.node !== undefined && toggle(picture.scene.chosen.node),
    Escape: () => choose(null),
  };

  function act(key) {
    if (!ACTIONS[key] || (!picture.scene && !["o", "d"].includes(key))) return false;
    ACTIONS[key]();
    if (picture.scene) {
      picture.ask();
      refresh();
    }
    return true;
  }

  function theme(which) {
    document.documentElement.dataset.theme = which;
    by("theme").textContent = which === "dark" ? "Light" : "Dark";
    picture.recolour();
  }

  // The mouse on the picture: dragging moves it, a click chooses, two clicks unfold, the wheel moves or zooms.
  function mouse(canvas) {
    let held = null;
    const at = (event) => picture.at(event.offsetX, event.offsetY);
    canvas.addEventListener("pointerdown", (event) => {
      held = { x: event.clientX, y: event.clientY, moved: false };
      canvas.setPointerCapture(event.pointerId);
    });
    canvas.addEventListener("pointermove", (event) => {
      if (!picture.scene) return;
      if (!held) {
        canvas.style.cursor = at(event) ? "pointer" : "default";
        return;
      }
      const [dx, dy] = [held.x - event.clientX, held.y - event.clientY];
      if (!held.moved && Math.abs(dx) + Math.abs(dy) < 4) return;
      held = { x: event.clientX, y: event.clientY, moved: true };
      picture.view.move(dx, dy);
      picture.ask();
    });
    canvas.addEventListener("pointerup", (event) => {
      if (held && !held.moved && picture.scene) choose(at(event));
      held = null;
    });
    canvas.addEventListener("dblclick", (event) => {
      const what = picture.scene && at(event);
      if (what?.node !== undefined) toggle(what.node);
    });
    canvas.addEventListener(
      "wheel",
      (event) => {
        event.preventDefault();
        if (!picture.scene) return;
        if (event.ctrlKey || event.metaKey) picture.view.zoom(Math.exp(-event.deltaY / 300), event.offsetX);
        else if (event.shiftKey) picture.view.move(event.deltaY || event.deltaX, 0);
        else picture.view.move(event.deltaX, event.deltaY);
        picture.ask();
      },
      { passive: false },
    );
  }

  function begin() {
    const dark = matchMedia("(prefers-color-scheme: dark)");
    theme(dark.matches ? "dark" : "light");
    dark.addEventListener("change", () => theme(dark.matches ? "dark" : "light"));
    Viewer.legend.show(by("legend"));
    mouse(by("picture"));
    for (const [id, key] of Object.entries({ pick: "o", in: "+", out: "-", fit: "0", time: "r", unfold: "u", table: "t", panel: "p", theme: "d" })) by(id).addEventListener("click", () => act(key));
    by("files").addEventListener("change", (event) => take(event.target.files).then(() => (event.target.value = "")));
    by("search").addEventListener("input", (event) => picture.scene && look(event.target.value));
    by("search").addEventListener("keydown", (event) => {
      if (event.key === "Enter" && picture.scene) nextFound();
      if (event.key === "Escape") by("picture").focus();
    });
    addEventListener("keydown", (event) => {
      if (event.target.matches("input, button, summary") && event.key.length > 1) return;
      if (event.target.matches("input") || event.ctrlKey || event.metaKey || event.altKey) return;
      if (event.target.closest("#tables") && event.key.startsWith("Arrow")) return;
      if (act(event.key)) event.preventDefault();
    });
    addEventListener("resize", () => picture.resize());
    for (const kind of ["dragenter", "dragover"]) {
      addEventListener(kind, (event) => {
        event.preventDefault();
        by("stage").classList.add("over");
      });
    }
    addEventListener("dragleave", () => by("stage").classList.remove("over"));
    addEventListener("drop", (event) => {
      event.preventDefault();
      by("stage").classList.remove("over");
      take(event.dataTransfer.files);
    });
    // What ./framec view put into the page.
    if (!by("data")) return;
    const given = JSON.parse(by("data").textContent);
    const wrong = attempt(given.name, given.texts);
    if (wrong) tell(wrong.message);
  }

  begin();
  return { picture };
})();
