// The legend: each sort of box with its colour and pattern, each mark with its letter, each line with its dashes.
"use strict";
Viewer.legend = (() => {
  const BOXES = [
    ["render", "draws: graphics"],
    ["compute", "kernels and dispatches"],
    ["transfer", "copies"],
    ["clear", "fills and clears"],
    ["present", "presents"],
    ["readback", "read-back by the host"],
    ["handover", "hand-over to the outside"],
  ];
  const MARKS = [
    ["wait", "wait"],
    ["signal", "signal"],
    ["global", "barrier of all memory"],
    ["buffer", "barrier of a buffer"],
    ["image", "barrier of an image; ◆ where its layout changes"],
    ["release", "release"],
    ["acquire", "acquire"],
  ];
  const LINES = [
    ["wait", "signal to wait"],
    ["transfer-arrow", "release to acquire"],
    ["hazard", "the two sides of a hazard"],
    ["bound", "no heap has fewer bytes"],
  ];
  const RECTS = [
    ["image", "image over its life"],
    ["buffer", "buffer"],
    ["texture", "texture"],
  ];

  const svg = (inside) => `<svg width="30" height="16" viewBox="0 0 30 16" aria-hidden="true">${inside}</svg>`;
  const rect = (sort, more = "") => `<rect x=".5" y=".5" width="29" height="15" rx="3" fill="var(--${sort}-fill)" stroke="var(--${sort}-line)"/>${more}`;

  function box(sort) {
    const path = Viewer.paint.PATTERNS[sort];
    const fill = Viewer.paint.FILLED.has(sort) ? `var(--${sort}-line)` : "none";
    return svg(`<defs><pattern id="p-${sort}" width="6" height="6" patternUnits="userSpaceOnUse"><path d="${path}" stroke="var(--${sort}-line)" fill="${fill}"/></pattern></defs>${rect(sort, `<rect x="1" y="1" width="8" height="14" fill="url(#p-${sort})"/>`)}`);
  }
  const letter = (one) => svg(`<rect x="7.5" y=".5" width="15" height="15" rx="3" fill="var(--mark)" stroke="var(--mark-ink)"/><text x="15" y="12.5" font-size="11" font-weight="600" text-anchor="middle" fill="var(--mark-ink)">${one}</text>`);
  const line = (colour) => svg(`<path d="M0 8H30" stroke="var(--${colour})" stroke-width="2.5" stroke-dasharray="${Viewer.paint.DASHES[colour].join(" ")}"/>`);

  function show(element) {
    const rows = [
      ...BOXES.map(([sort, text]) => [box(sort), text]),
      ...MARKS.map(([kind, text]) => [letter(Viewer.naming.LETTERS[kind]), text]),
      ...LINES.map(([colour, text]) => [line(colour), text]),
      ...RECTS.map(([sort, text]) => [svg(rect(sort)), text]),
    ];
    // (The signs are made of what stands in this file and in paint.js, of no word of a file.)
    for (const [sign, text] of rows) {
      const item = Viewer.panel.make("li");
      item.innerHTML = sign;
      item.append(text);
      element.append(item);
    }
    element.append(Viewer.panel.make("li", { text: "▲ shows the bound; hatched is what is never reached; marks that hang together by a line are one dependency" }));
  }

  return { show };
})();
