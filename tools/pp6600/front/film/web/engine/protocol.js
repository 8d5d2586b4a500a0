// ---- what the page and its worker say to each other: the one table, by which both sides check what they send

const MESSAGES = {
  // From the page. A session with the files of a run takes the place of the one there is; `wanted` are positions to be recorded
  // too. Moments that are known are not delivered.
  open: ["module", "about", "given", "wanted", "isTrusted", "isKnown"],
  act: ["lines"], // performs lines at the newest moment
  look: ["given", "parts", "text"], // the answers to lines elsewhere, each for itself; the session stays as it is
  find: ["given", "parts", "from", "text", "isBack", "labels"], // after how many actions a condition comes to hold in some parts
  // Replies to these, and to a request that failed. A reply carries what has come to the film since, so that one action is one
  // drawing.
  "open reply": ["said", "isWrong", "count"], "act reply": ["said", "isWrong"], "look reply": ["answers", "acts"],
  "find reply": ["found", "end"],
  "fault reply": ["said", "isWrong", "isFault"],
  moments: ["rows", "lines"], working: [], // from the worker beside replies: what has come to the film, and that a search goes on
};
export const STOP = "stop"; // heard while a request is performed; it has no reply

// The words of a message. Throws an Error if the table has no such message.
export function wordsOf({ kind, words }) {
  const isRight = MESSAGES[kind] && Object.keys(words).every((name) => MESSAGES[kind].includes(name));
  if (!isRight) throw new Error(`no message ${kind} with ${Object.keys(words).join(", ")}`);
  return words;
}

// A message to be sent: `more` are the number of a request and of its reply, and the moments that a reply carries.
export function message(kind, words, more) {
  wordsOf({ kind, words });
  return { ...more, kind, words };
}
