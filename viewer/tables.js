// The tables of docs/FORMATS.md that the picture needs: what each operation and each use of an action does to its pieces.
"use strict";
Viewer.tables = (() => {
  // A role: in which stages a piece is touched, by which accesses it is loaded and stored, and in which layout an image has to be.
  const role = (stages, loads, stores, layout) => ({ stages, loads, stores, layout });
  const COPY_READ = role(["COPY"], "TRANSFER_READ", "", "TRANSFER_SRC_OPTIMAL");
  const COPY_WRITE = role(["COPY"], "TRANSFER_WRITE", "TRANSFER_WRITE", "TRANSFER_DST_OPTIMAL");
  const CLEAR_WRITE = role(["CLEAR"], "TRANSFER_WRITE", "TRANSFER_WRITE", "TRANSFER_DST_OPTIMAL");
  const SAMPLED = role(["COMPUTE_SHADER"], "SHADER_SAMPLED_READ", "", "SHADER_READ_ONLY_OPTIMAL");
  const STORAGE_READ = role(["COMPUTE_SHADER"], "SHADER_STORAGE_READ", "", "");
  const STORAGE_WRITE = role(["COMPUTE_SHADER"], "", "SHADER_STORAGE_WRITE", "GENERAL");
  const COLOR = role(["COLOR_ATTACHMENT_OUTPUT"], "COLOR_ATTACHMENT_READ", "COLOR_ATTACHMENT_WRITE", "COLOR_ATTACHMENT_OPTIMAL");

  // An operation: its sort, and its operands in their order.
  const kernel = (...sources) => ({ sort: "compute", sources, dst: STORAGE_WRITE });
  const copy = { sort: "transfer", sources: ["src"], dst: COPY_WRITE };
  const OPERATIONS = {
    fill_buffer: { sort: "clear", sources: [], dst: CLEAR_WRITE },
    clear_image: { sort: "clear", sources: [], dst: CLEAR_WRITE },
    copy_buffer: copy,
    copy_image: copy,
    buffer_to_image: copy,
    image_to_buffer: copy,
    ramp: kernel(),
    map: kernel("src"),
    combine: kernel("a", "b"),
    select: kernel("mask", "a", "b"),
    convert: kernel("src"),
    box3: kernel("src"),
    halve: kernel("src"),
    histogram: kernel("src"),
    draw: { sort: "render", sources: [], dst: COLOR },
  };

  // The roles of an action's uses. `null` stands for the stages that the use tells.
  const FRAGMENT_TESTS = ["EARLY_FRAGMENT_TESTS", "LATE_FRAGMENT_TESTS"];
  const transfer = (stage) => ({
    read: role([stage], "TRANSFER_READ", "", "TRANSFER_SRC_OPTIMAL"),
    write: role([stage], "TRANSFER_WRITE", "TRANSFER_WRITE", "TRANSFER_DST_OPTIMAL"),
  });
  const [COPIES, BLITS, RESOLVES] = ["COPY", "BLIT", "RESOLVE"].map(transfer);
  const USES = {
    indirect: role(["DRAW_INDIRECT"], "INDIRECT_COMMAND_READ", "", ""),
    index: role(["INDEX_INPUT"], "INDEX_READ", "", ""),
    vertex: role(["VERTEX_ATTRIBUTE_INPUT"], "VERTEX_ATTRIBUTE_READ", "", ""),
    uniform: role(null, "UNIFORM_READ", "", ""),
    sampled: role(null, "SHADER_SAMPLED_READ", "", "SHADER_READ_ONLY_OPTIMAL"),
    input: role(["FRAGMENT_SHADER"], "INPUT_ATTACHMENT_READ", "", "SHADER_READ_ONLY_OPTIMAL"),
    storage_read: role(null, "SHADER_STORAGE_READ", "", "GENERAL"),
    storage_write: role(null, "SHADER_STORAGE_WRITE", "SHADER_STORAGE_WRITE", "GENERAL"),
    storage: role(null, "SHADER_STORAGE_READ", "SHADER_STORAGE_WRITE", "GENERAL"),
    color: COLOR,
    depth: role(FRAGMENT_TESTS, "DEPTH_STENCIL_ATTACHMENT_READ", "DEPTH_STENCIL_ATTACHMENT_WRITE", "DEPTH_STENCIL_ATTACHMENT_OPTIMAL"),
    depth_read: role(FRAGMENT_TESTS, "DEPTH_STENCIL_ATTACHMENT_READ", "", "DEPTH_STENCIL_READ_ONLY_OPTIMAL"),
    copy_read: COPIES.read,
    copy_write: COPIES.write,
    blit_read: BLITS.read,
    blit_write: BLITS.write,
    resolve_read: RESOLVES.read,
    resolve_write: RESOLVES.write,
    present: role(["COPY"], "TRANSFER_READ", "", "PRESENT_SRC_KHR"),
    clear_write: CLEAR_WRITE,
  };

  // Whether an operation stores all bytes of its destination.
  function isWhole(item, pieces) {
    const dst = pieces[item.dst];
    switch (item.op) {
      case "fill_buffer": return item.offset === 0 && item.size === dst.bytes;
      case "copy_buffer": return item.dst_offset === 0 && item.size === dst.bytes;
      case "copy_image": return item.dst_x === 0 && item.dst_y === 0 && item.width === dst.width && item.height === dst.height;
      case "image_to_buffer": return item.offset === 0 && pieces[item.src].bytes === dst.bytes;
      case "draw": return item.clear !== undefined;
      default: return true;
    }
  }

  // What an operation does to its pieces: a list of {piece, stages, loads, stores, layout}.
  function ofOperation(item, pieces) {
    const operation = OPERATIONS[item.op];
    const read = operation.sort === "transfer" ? () => COPY_READ : (piece) => (piece.kind === "buffer" ? STORAGE_READ : SAMPLED);
    const touch = (number, one, loads) => ({ piece: number, ...one, loads, layout: pieces[number].kind === "buffer" ? "" : one.layout });
    const found = operation.sources.map((member) => {
      const one = read(pieces[item[member]]);
      return touch(item[member], one, one.loads);
    });
    return [...found, touch(item.dst, operation.dst, isWhole(item, pieces) ? "" : operation.dst.loads)];
  }

  // What one use of an action does to its piece. A store that does not keep what was there loads nothing.
  function ofUse(use, pieces) {
    const one = USES[use.as];
    const keeps = use.keeps ?? use.as !== "storage_write";
    return {
      piece: use.piece,
      stages: one.stages ?? use.stage.split("|"),
      loads: one.stores && !keeps ? "" : one.loads,
      stores: one.stores,
      layout: pieces[use.piece].kind === "buffer" ? "" : (use.layout ?? one.layout),
    };
  }

  // The sort of a command, by which it is coloured: of an action by what its uses are.
  function sortOf(item) {
    if (item.op !== "action") return OPERATIONS[item.op].sort;
    const roles = item.uses.map((use) => use.as);
    if (roles.includes("present")) return "present";
    if (roles.some((as) => ["color", "depth", "depth_read", "input"].includes(as))) return "render";
    if (item.uses.some((use) => /VERTEX|FRAGMENT/.test(use.stage ?? ""))) return "render";
    if (item.uses.some((use) => /COMPUTE/.test(use.stage ?? ""))) return "compute";
    if (roles.length && roles.every((as) => as === "clear_write")) return "clear";
    return roles.some((as) => /^(copy|blit|resolve|clear)_/.test(as)) ? "transfer" : "render";
  }

  return { OPERATIONS, USES, ofOperation, ofUse, sortOf };
})();
