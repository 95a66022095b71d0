// Whether a value has the form of a submission file, a frame or an answer of the program, as far as a picture needs it. The first thing
// that is wrong is told in words.
// The program judges more than this (`check`): the page draws whatever can be drawn.
"use strict";
Viewer.form = (() => {
  // What is wrong, and where: the steps of the path are put in front of each other on the way out.
  class Wrong extends Error {
    constructor(what, path = "") {
      super(what);
      this.path = path;
    }
  }

  // Reads a part of a value, which stands at this step.
  function at(step, reader, value) {
    try {
      reader(value);
    } catch (error) {
      if (error instanceof Wrong) error.path = step + error.path;
      throw error;
    }
  }

  const shown = (value) => {
    const text = value === undefined ? "nothing" : typeof value === "bigint" ? String(value) : JSON.stringify(value);
    return text.length > 40 ? `${text.slice(0, 40)}..` : text;
  };

  // A reader takes a value, and throws what is wrong with it.
  const expected = (holds, what) => (value) => {
    if (!holds(value)) throw new Wrong(value === undefined ? `${what} is missing` : `${what} has to stand here, and not ${shown(value)}`);
  };
  const isWhole = (value) => (Number.isInteger(value) && value >= 0) || typeof value === "bigint";
  const whole = expected(isWhole, "a whole number");
  const size = expected((value) => Number.isSafeInteger(value) && value >= 0, "a whole number");
  const truth = expected((value) => typeof value === "boolean", "true or false");
  const text = expected((value) => typeof value === "string", "a text");
  const word = (...words) => expected((value) => words.includes(value), words.length > 6 ? "a known word" : `one of the words ${words.join(", ")}`);
  const hex = expected((value) => typeof value === "string" && value.length % 2 === 0 && /^[0-9a-f]*$/i.test(value), "a text of hexadecimal digits");
  const sides = expected((value) => Array.isArray(value) && value.length === 2 && value.every((side) => isWhole(side) && side > 0), "a list of width and height");

  const isList = expected(Array.isArray, "a list");
  const list = (reader) => {
    const all = (value) => {
      for (let k = 0; k < value.length; k++) at(`[${k}]`, reader, value[k]);
    };
    // The steps are written only where something is wrong.
    return (value) => {
      isList(value);
      try {
        for (const entry of value) reader(entry);
      } catch (error) {
        if (!(error instanceof Wrong)) throw error;
        all(value);
      }
    };
  };
  const optional = (reader) => (value) => value === undefined || reader(value);
  const isObject = expected((value) => value !== null && typeof value === "object" && !Array.isArray(value), "an object");
  const object = (members) => {
    const readers = Object.entries(members).map(([member, reader]) => [member, `.${member}`, reader]);
    return (value) => {
      isObject(value);
      for (const [member, step, reader] of readers) at(step, reader, value[member]);
    };
  };

  const { OPERATIONS, USES } = Viewer.tables;
  const name = optional(text);
  const family = word("graphics", "compute", "transfer");
  const masks = { src_stage: text, src_access: text, dst_stage: text, dst_access: text, joined: optional(truth), name };

  // A reader of objects, and then the one of those readers that the object itself asks for.
  const chosen = (first, choose) => (value) => {
    first(value);
    choose(value)(value);
  };

  const memory = chosen(object({ name }), ((imported, own) => (value) => ("import" in value ? imported : own))(object({ import: hex }), object({ size })));

  const few = expected((count) => Number.isInteger(count) && count >= 1 && count <= 8, "a number of 1 to 8 layers");
  const state = optional(object({}));
  const shapes = { buffer: object({ buffer: size }), image: object({ image: sides, texel: word("r8", "r32") }), texture: object({ texture: size }) };
  const shapeless = () => {
    throw new Wrong("a piece is a buffer, an image or a texture, and none of these is told", ".buffer");
  };
  const piece = chosen(
    object({ memory: size, offset: size, layers: optional(few), initial: state, final: state, name }),
    (value) => shapes[Object.keys(shapes).find((shape) => shape in value)] ?? shapeless,
  );

  const [plainUse, shaderUse] = [object({}), object({ stage: text })];
  const use = chosen(object({ piece: size, as: word(...Object.keys(USES)) }), (value) => (USES[value.as].stages ? plainUse : shaderUse));

  const operands = (sources) => object(Object.fromEntries([...sources, "dst"].map((member) => [member, size])));
  const operations = Object.fromEntries(Object.entries(OPERATIONS).map(([op, { sources }]) => [op, operands(sources)]));
  operations.action = object({ code: whole, uses: list(use) });
  const command = chosen(object({ op: word(...Object.keys(operations)), name }), (value) => operations[value.op]);

  const ITEMS = {
    command,
    global: object(masks),
    buffer: object({ piece: size, ...masks }),
    image: object({ piece: size, from: text, to: text, ...masks }),
    release: object({ piece: size, from_family: family, to_family: family, from: optional(text), to: optional(text), ...masks }),
  };
  ITEMS.acquire = ITEMS.release;

  const item = chosen(object({ item: word(...Object.keys(ITEMS)) }), (value) => ITEMS[value.item]);

  const batch = object({
    waits: optional(list(object({ queue: size, value: whole, stage: text }))),
    items: optional(list(item)),
    signal: optional(object({ value: whole, stage: text })),
  });

  const submission = object({
    format: word(1, 2, 3),
    memories: list(memory),
    pieces: list(piece),
    queues: list(object({ family, batches: list(batch), name })),
    readbacks: list(size),
  });

  // The numbers of memories, pieces and queues are those of declared ones.
  function numbers(value) {
    const count = value.pieces.reduce((sum, one) => sum + (one.layers ?? 1), 0);
    const below = (limit, what) => (number) => {
      if (number >= limit) throw new Wrong(`there is no ${what} with the number ${number}`);
    };
    const [aPiece, aQueue] = [below(count, "piece"), below(value.queues.length, "queue")];
    const anItem = (one) => {
      if (one.item !== "command") return one.piece === undefined || aPiece(one.piece);
      if (one.op === "action") return list((used) => aPiece(used.piece))(one.uses);
      for (const member of OPERATIONS[one.op].sources) aPiece(one[member]);
      return aPiece(one.dst);
    };
    const aBatch = object({ waits: optional(list((wait) => aQueue(wait.queue))), items: optional(list(anItem)) });
    object({
      pieces: list(object({ memory: below(value.memories.length, "memory") })),
      queues: list(object({ batches: list(aBatch) })),
      readbacks: list(aPiece),
    })(value);
  }

  // A frame, as far as names are taken from it.
  const frame = object({
    queues: list(object({ name: text })),
    resources: list(object({ name: text, layers: optional(few) })),
    passes: list(object({ name: text, queue: text, ops: optional(list(isObject)) })),
    exports: list(text),
  });

  // The answers of `--json`; one that tells a fault is `check`'s, whoever gives it.
  const aFault = object({ fault: text, limit: optional(text), path: list(expected((step) => typeof step === "string" || isWhole(step), "a step of a path")) });
  const [aNode, aPair, aState] = [object({ node: size }), object({ nodes: list(size) }), object({ node: size, piece: size, found: text, wanted: text })];
  const HAZARDS = { H1: object({ queue: size, node: size }), H2: aPair, H3: aPair, H4: aPair, H5: aState, H6: aState, H7: aNode, H8: object({ node: size, piece: size }), H9: object({ node: size, piece: size, other: size }) };
  const VERDICTS = { sound: object({ nodes: size }), fault: aFault, hazard: chosen(object({ hazard: word(...Object.keys(HAZARDS)) }), (value) => HAZARDS[value.hazard]) };
  const ANSWERS = {
    check: chosen(object({ verdict: word(...Object.keys(VERDICTS)) }), (value) => VERDICTS[value.verdict]),
    cull: object({ passes: list(object({ name: text, kept: truth })) }),
    place: object({ heap: size, separate: size }),
    bound: object({ bound: size, heap: size, units: list(text) }),
  };

  // What the readers find wrong with a value, in words; or null.
  const told = (...readers) => (value) => {
    try {
      for (const reader of readers) reader(value);
      return null;
    } catch (error) {
      if (error instanceof Wrong) return `$${error.path}: ${error.message}`;
      throw error;
    }
  };

  return { wrong: told(submission, numbers), wrongFrame: told(frame), wrongAnswer: (sort, value) => told(ANSWERS[sort])(value) };
})();
