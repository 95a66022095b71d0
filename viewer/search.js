// The search: nodes and pieces whose name, kind, operation or number has a text.
"use strict";
Viewer.search = (() => {
  // What is looked at for a node; `#12` looks for a number.
  const textOf = (program, node) => `${node.name} ${Viewer.naming.kind(node)} ${Viewer.naming.about(program, node)}`.toLowerCase();

  function found(program, words) {
    const text = words.trim().toLowerCase();
    if (!text) return { nodes: [], pieces: [] };
    if (/^#\d+$/.test(text)) {
      const number = Number(text.slice(1));
      return { nodes: program.nodes[number] ? [number] : [], pieces: [] };
    }
    const nodes = program.nodes.filter((node) => textOf(program, node).includes(text)).map((node) => node.number);
    const pieces = program.pieces.filter((piece) => Viewer.naming.piece(program, piece.number).toLowerCase().includes(text)).map((piece) => piece.number);
    return { nodes, pieces };
  }

  return { found };
})();
