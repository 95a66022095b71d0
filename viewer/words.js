// Faults and hazards in words, by the tables of docs/FORMATS.md.
"use strict";
Viewer.words = (() => {
  const FAULTS = {
    F1: "The bytes are no JSON value.",
    F2: "The value at this place does not have the form of a frame: it is missing, unknown, of another kind or out of its range.",
    F3: "The file is of a format that is not read.",
    F4: "The frame is over a limit.",
    F5: "Two names, or two entries of one list, are the same.",
    F6: "A queue or a resource with this name is not declared, or a layer is meant and not told.",
    F7: "The family of the pass's queue does not run this operation.",
    F8: "The operation touches what its pass does not declare among its reads or writes.",
    F9: "What is new in this pass is not first stored as a whole.",
    F10: "No import and no earlier pass has made what is used here.",
    F11: "The operation does not fit its operands, or the import is none.",
    F12: "The operation reads what it stores to.",
    F13: "The pass reads what is new in it.",
    G1: "The submission is over a limit.",
    G2: "A piece, an operation, a barrier or a transfer does not fit what it is of.",
    G3: "A memory, a piece or a queue with this number is not declared.",
    G4: "A mask of stages is empty.",
    G5: "An access mask that Vulkan ignores is not empty.",
    G6: "An access is not supported by any stage of its mask.",
    G7: "The family of the queue does not have this stage.",
    G8: "The family of the queue does not run this operation.",
    G9: "A signal's value does not rise, or a wait is for the value 0.",
    G10: "The bytes are no JSON value.",
    G11: "The value at this place does not have the form of a submission: it is missing, unknown, of another kind or out of its range.",
    G12: "This command does not take submissions of format 3.",
  };

  // Each hazard: what is wrong.
  const HAZARDS = {
    H1: "The queues are stuck: each that has something left stands before a wait that is never met.",
    H2: "Both touch the same memory, one of them changes it, and neither happens before the other.",
    H3: "What the first one stored is not made available before the second one.",
    H4: "What the first one left is not made visible to the second one.",
    H5: "The image is in another layout than the one that is wanted.",
    H6: "The piece is owned by another queue family, or by none.",
    H7: "A release has no acquire, or an acquire has no release.",
    H8: "The load finds bytes that nobody stored, or that were thrown away.",
    H9: "The load finds bytes that were last changed through another piece in the same memory.",
  };

  const fault = (told) => `${FAULTS[told.fault] ?? "The file breaks a rule."}${told.limit ? ` The limit is ${told.limit}.` : ""}`;
  const hazard = (number) => HAZARDS[number] ?? "The submission is not sound.";

  return { fault, hazard };
})();
