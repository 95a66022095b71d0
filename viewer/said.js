// What the program answers: JSON objects, as `--json` prints them (docs/FORMATS.md, "Answers as JSON"), and a trace, which is text.
// Beside form.js, which has the members of these objects, this is the only file that knows how the program prints.
"use strict";
Viewer.said = (() => {
  // JSON is read with whole numbers of 64 bits, which a double does not hold, as BigInt.
  function json(text) {
    if (!/\d{16}/.test(text)) return JSON.parse(text);
    const exact = (key, value, context) =>
      typeof value === "number" && !Number.isSafeInteger(value) && /^\d+$/.test(context?.source ?? "") ? BigInt(context.source) : value;
    return JSON.parse(text, exact);
  }

  // The path of a fault as a text: `$.queues[0].batches`.
  const pathOf = (steps) => `$${steps.map((step) => (typeof step === "number" ? `[${step}]` : `.${step}`)).join("")}`;

  // What `check` says, with a line for it; of a hazard its number, its nodes, and what else it tells.
  function verdict(answer) {
    switch (answer.verdict) {
      case "sound": return { kind: "sound", line: `sound, ${answer.nodes} nodes` };
      case "fault": {
        const [limit, path] = [answer.limit ?? "", pathOf(answer.path)];
        return { kind: "fault", fault: answer.fault, limit, path, line: ["fault", answer.fault, limit, path].filter(Boolean).join(" ") };
      }
      default: {
        const nodes = answer.nodes ?? [answer.node];
        return { kind: "hazard", hazard: { ...answer, nodes }, line: `hazard ${answer.hazard}: node${nodes.length > 1 ? "s" : ""} ${nodes.join(", ")}` };
      }
    }
  }

  // The events of nodes in their order, {word, node}, and the number of cache moves among them: what stands behind `events N`.
  function trace(text) {
    const lines = text.split("\n").filter((line) => line !== "");
    const found = lines.slice(lines.findLastIndex((line) => line.startsWith("events ")) + 1).map((line) => line.split(" "));
    const events = found.filter(([word]) => ["begin", "end", "sync", "host"].includes(word));
    return { events: events.map(([word, node]) => ({ word, node: Number(node) })), moves: found.length - events.length };
  }

  // Of a text that somebody drops: what it is ("frame", "submission", "check", ..), or why it is nothing of all this, in words.
  function sortOf(text) {
    if (/^events \d+$/m.test(text) && !text.startsWith("{")) return { sort: "trace" };
    let value;
    try {
      value = json(text);
    } catch (error) {
      return { wrong: `This is no JSON, and no trace. ${error.message}` };
    }
    if (value === null || typeof value !== "object" || Array.isArray(value)) return { wrong: "This is JSON, but no object: a submission file is one JSON object." };
    if ("verdict" in value) return { sort: "check" };
    if ("bound" in value) return { sort: "bound" };
    if ("heap" in value) return { sort: "place" };
    if ("culled" in value) return { sort: "cull" };
    return { sort: "passes" in value || "resources" in value ? "frame" : "submission" };
  }

  return { json, verdict, trace, sortOf };
})();
