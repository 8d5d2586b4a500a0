// ---- the worker: it has the session, serves one request after the other, and delivers what came of it

import { LONGEST_ANSWER, bytesOfText, linesIn, scriptOf } from "../machine/lines.js";
import { STOP, message, wordsOf } from "./protocol.js";
import { openLibrary } from "./library.mjs";
import { parseCondition } from "./conditions.js";
import { Searcher, Session } from "./session.js";
import { sessionOf } from "./stepping.js";

const AT_ONCE = 50; // milliseconds between two deliveries, and after which messages are looked for
const MOST_SECONDS = 20, MOST_SEARCHED = 10; // seconds of a script that is opened, and of a search
const ACTED = /^(OK|TURNS|BACK|FORWARD)\b/; // the answers of lines that do something
const at = { session: null, calls: null, about: null, stop: false, until: Infinity, paused: 0, doing: Promise.resolve() };

const control = {
  isStopped: () => at.stop || performance.now() > at.until,
  // Lets messages come, and delivers what there is, now and then.
  async pause(session) {
    if (performance.now() - at.paused < AT_ONCE) return;
    await new Promise((done) => setTimeout(done));
    if (session) deliver();
    else postMessage(message("working", {}));
    at.paused = performance.now();
  },
};

const buffersOf = ({ rows }) => Object.values(rows).map((row) => row.buffer);

function deliver() {
  const moments = at.session.take();
  postMessage(message("moments", moments), buffersOf(moments));
}

const withFiles = ({ deck = "", panel = "", options = {} }) =>
  ({ ...at.about, ...options, deck: bytesOfText(deck), panel: bytesOfText(panel) });

const SERVICES = {
  // A script that the page does not know yet may take so many seconds. It says what is left of it, and how many moments there are.
  // If the page has these, they are not delivered.
  async open({ module, about = at.about, given, wanted = [], isTrusted = false, isKnown = false }) {
    if (module) at.calls = await openLibrary(module);
    at.about = about;
    const session = new Session(at.calls, withFiles(given), control, wanted, isKnown), lines = linesIn(given.script);
    if (at.session) at.session.close();
    at.session = session;
    if (!isTrusted) at.until = performance.now() + 1000 * MOST_SECONDS;
    let done = 0;
    for (; done < lines.length && !control.isStopped() && !session.isFull; done++) await session.perform(lines[done]);
    const left = lines.length - done, { count } = session.recorder;
    if (isKnown) session.recorder.endSilence();
    return left || control.isStopped() ? { said: `stopped: ${left} lines of the script are left`, isWrong: true } : { count };
  },

  // A refused line, a watch or a hand ends them.
  async act({ lines }) {
    let reply = {};
    for (const line of lines) {
      at.session.checkRoom();
      const answer = await at.session.perform(line);
      reply = { said: answer.slice(0, LONGEST_ANSWER).join("\n"), isWrong: /^ERR /.test(answer[0]) };
      if (reply.isWrong || answer.some((one) => one.startsWith("HIT ")) || control.isStopped()) break;
    }
    return reply;
  },

  // In a session of its own.
  async look({ given, parts, text }) {
    const session = sessionOf(at.calls, withFiles(given));
    session.answer(scriptOf(parts));
    const answers = linesIn(text).map((line) => linesIn(session.answer(`${line}\n`).text));
    session.close();
    return { answers, acts: answers.flat().some((line) => ACTED.test(line)) };
  },

  // The first time after so many actions at which a condition comes to hold in some parts, or the last time before.
  async find({ given, parts, from, text, isBack, labels }) {
    const condition = parseCondition(text, labels, at.about.condition);
    const searcher = new Searcher(at.calls, withFiles(given), control, parts);
    at.until = performance.now() + 1000 * MOST_SEARCHED;
    if (!isBack) return searcher.firstOf(condition, from);
    const found = await searcher.lastOf(condition, from);
    if (control.isStopped()) throw new Error("stopped: the search took too long");
    return { found };
  },
};

// ---- messages: STOP is heard while a request is performed; others wait

async function serve(request) {
  const { id, kind } = request, reply = (about, words) => message(`${about} reply`, words, { id });
  Object.assign(at, { stop: false, until: Infinity, paused: performance.now() });
  const perform = async () => reply(kind, await SERVICES[kind](wordsOf(request)));
  const answer = await perform().catch((error) => reply("fault", { said: error.message, isWrong: true, isFault: true }));
  const moments = at.session && /^(open|act)$/.test(kind) ? at.session.take() : null;
  postMessage({ ...answer, moments }, moments ? buffersOf(moments) : []);
}

onmessage = ({ data }) => {
  if (data === STOP) at.stop = true;
  else at.doing = at.doing.then(() => serve(data));
};
