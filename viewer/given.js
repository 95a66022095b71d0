// What the page was given: texts by their sort (`submission`, `frame`, `check`, `cull`, `place`, `bound`, `trace`), and what they
// come to: a program with what framec says of it; or what is wrong, in words, and with which of them.
"use strict";
Viewer.given = (() => {
  class Wrong extends Error {
    constructor(sort, words) {
      super(words);
      this.sort = sort;
    }
  }

  const VIEW = "The page does not compile: ./framec view FILE makes a page of a frame";

  function valueOf(sort, text) {
    try {
      return Viewer.said.json(text);
    } catch (error) {
      throw new Wrong(sort, `The ${sort} is no JSON. ${error.message}`);
    }
  }

  function programOf(texts) {
    if (!texts.submission && texts.frame) throw new Wrong("frame", `This is a frame. ${VIEW}, or drop what ./framec compile prints of it beside it.`);
    if (!texts.submission) throw new Wrong("submission", "There is no submission yet: drop one first.");
    const file = valueOf("submission", texts.submission);
    const wrong = Viewer.form.wrong(file);
    if (wrong) throw new Wrong("submission", `This is no submission file. ${wrong}.`);
    return Viewer.program.of(file);
  }

  // An answer of the program, or null where it is not there.
  function answer(texts, sort) {
    if (!texts[sort]) return null;
    const value = valueOf(sort, texts[sort]);
    const wrong = Viewer.form.wrongAnswer(sort, value);
    if (wrong) throw new Wrong(sort, `This is nothing that ${sort} --json prints. ${wrong}.`);
    return value;
  }

  // Names, where the frame is there. A submission of format 3 has its own.
  function name(program, texts) {
    if (!texts.frame || program.format === 3) return;
    const frame = valueOf("frame", texts.frame);
    const wrong = Viewer.form.wrongFrame(frame);
    if (wrong) throw new Wrong("frame", `This is no frame file. ${wrong}.`);
    const passes = answer(texts, "cull")?.passes.filter((pass) => pass.kept) ?? frame.passes;
    if (!Viewer.naming.byFrame(program, frame, new Set(passes.map((pass) => pass.name)))) throw new Wrong("frame", `This is a frame, but the submission here is not compiled of it, so it has no names for it. ${VIEW}.`);
  }

  // The program of a file with a fault, or null: what framec says of the file is told before what the page says.
  function faulty(texts) {
    try {
      return programOf(texts);
    } catch (error) {
      if (error instanceof Wrong) return null;
      throw error;
    }
  }

  // {program, facts, fault}: where the file has a fault there may be no program.
  function read(texts) {
    const check = answer(texts, "check");
    const verdict = check ? Viewer.said.verdict(check) : null;
    const fault = verdict?.kind === "fault" ? `${verdict.line}\n${Viewer.words.fault(verdict)}` : null;
    const program = fault ? faulty(texts) : programOf(texts);
    if (!program) return { program, facts: { verdict }, fault };
    name(program, texts);
    const facts = {
      verdict,
      hazard: verdict?.hazard ? Viewer.hazard.explained(program, verdict.hazard) : null,
      place: answer(texts, "place"),
      bound: answer(texts, "bound"),
      trace: texts.trace ? Viewer.said.trace(texts.trace) : null,
    };
    return { program, facts, fault };
  }

  return { Wrong, read };
})();
