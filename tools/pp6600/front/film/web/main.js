// ---- the page from its beginning: the film, the worker, the state, and what draws it

import { instructionsOf, openLibrary } from "./engine/library.mjs";
import { octal, octalIn } from "./machine/places.js";
import { opening } from "./machine/words.js";
import { page } from "./views/page.js";
import { Assembling } from "./page/assembling.js";
import { choose, viewAt } from "./page/choice.js";
import { render } from "./page/dom.js";
import { Editor } from "./page/editor.js";
import { Exercises } from "./page/exercises.js";
import { Sharing, filesOf, filesOfAddress, shownOf } from "./page/files.js";
import { Hands } from "./page/hands.js";
import { addKept, holdTab, kept, latestOfClosed } from "./page/kept.js";
import { isSame, roomNow, windowNow } from "./page/room.js";
import { Session } from "./page/session.js";
import { Store } from "./page/store.js";
import { branchNow, newTree } from "./page/tree.js";

const FOLDED = ["devices", "branches", "editor", "run"]; // in a window with few columns
const AFTER = 300; // milliseconds until the address follows
const PARTS = ["film", "simulator", "style", "shared", "engine"]; // of the file; the last two are the worker's script
const root = document.getElementById("app");
const wordsOfAddress = () => new URLSearchParams(location.hash.slice(1));

function foldedIn({ columns }) {
  const folded = columns > 3 ? ["debug run"] : FOLDED.flatMap((name) => [`debug ${name}`, `class ${name}`]);
  return new Set(kept("folded") || folded.filter((name) => name !== "class editor"));
}

// The one state of the page: the session, what is shown of it, what is chosen, the window, and what is typed.
function stateOf({ exercises = [], tutorials = [], keys }) {
  const size = windowNow(), isClass = exercises.length > 0;
  return {
    isOpen: false, film: null, transcript: [], sentLast: null, tree: newTree(null), said: { text: "", isWrong: false },
    isBusy: false,
    offer: null, sourceOf: 0, line: null, breakpoints: new Set(),
    memory: { n: 0, follows: true, isHeld: false, first: 0, top: 0, as: "" },
    chosen: null, changes: [], origin: null, setting: null, wrong: {},
    playing: null, rate: 8, isDown: false, span: { from: 0, to: 8 }, zoom: 0, allLanes: false,
    look: kept("look") || (isClass ? "class" : "debug"), lookBefore: null, ...size, room: {}, tab: isClass ? "exercise" : "source",
    folded: foldedIn(size), tool: "on", help: false, meaning: "", letters: true, keys,
    editor: null, exercises, tutorials, tutorial: null, exercise: null, answers: {}, checked: null, panelText: "",
  };
}

// What draws the state; and if the room for it has changed, once more.
function drawer(store) {
  const measure = () => {
    const { state } = store, room = roomNow(), size = windowNow();
    if (!isSame(room, state.room) || !isSame(size, state)) store.change({ room, ...size, ...viewAt({ ...state, room }) });
  };
  const observer = new ResizeObserver(measure);
  return (state) => {
    if (!state.isOpen) return;
    const { className } = document.documentElement;
    document.documentElement.className = state.look;
    render(root, page(state));
    if (className !== state.look) measure();
    for (const one of root.querySelectorAll("#lanes, #cells, [data-room]")) observer.observe(one);
  };
}

// The calls of the simulator for the page itself, which has the assembler.
async function callsOf(module) {
  try {
    return await openLibrary(module);
  } catch (error) {
    throw new Error(`this browser does not run the simulator, which is WebAssembly: ${error.message}`);
  }
}

// The parts of the page, with what draws it; and the session with which it opens: that of the address, of a file that was saved, or
// of the file's own script. Returns the parts, and the reply of the worker.
async function begin(address) {
  const [film, module, style, ...engine] = await Promise.all(PARTS.map(firstScript.unpacked));
  document.head.append(Object.assign(document.createElement("style"), { textContent: new TextDecoder().decode(style) }));
  const about = JSON.parse(new TextDecoder().decode(film)), { keeps, ...known } = about, store = new Store(stateOf(about));
  store.draw = drawer(store);
  if (!window.Worker) throw new Error("this browser has no workers");
  const calls = await callsOf(module);
  if (keeps) addKept(keeps);
  const session = new Session(store, engine, { ...known, instructions: instructionsOf(calls) }, module);
  const editor = new Editor(store, { session, assembling: new Assembling(calls, kept("texts") || []) });
  const exercises = new Exercises(store, { session, editor }), sharing = new Sharing(store, { session, exercises });
  const isSaved = Boolean(keeps) && !address.script, given = exercises.withExercise(address, filesOf(known));
  const reply = await session.open(isSaved ? keeps.tree : newTree(given), { isNew: !isSaved });
  if (reply.isFault) throw new Error(reply.said);
  store.change({ isOpen: true, answers: exercises.answers() });
  exercises.begun();
  const parts = { session, editor, exercises, sharing }, hands = new Hands(store, parts, root);
  return { store, ...parts, hands, moves: hands.moves, opens: keeps ? null : about.opens ?? "end", reply };
}

// Goes where the address leads; else after a turn, or to where the film opens: at the end, or at what its last line has found.
async function goToAddress({ store, moves, hands }, opens = null) {
  const { state } = store, words = wordsOfAddress(), moment = octalIn(words.get("moment") || "");
  if (moment !== null) moves.moveTo(moment);
  if (moment > state.film.last) moves.say(`there is no moment ${octal(moment)}: the last is ${octal(state.film.last)}`, true);
  else if (words.has("turn")) await moves.toTypedTurn(words.get("turn"));
  if (words.get("place")) hands.placeNamed(words.get("place"));
  if (opens === null || ["turn", "moment", "place"].some((name) => words.has(name))) return;
  const { moment: at, name } = opening(state.film);
  state.film.goTo(at);
  store.change({ ...viewAt(state), ...(name ? choose(state, state.film.placeNamed(name)) : {}) });
  if (opens !== "end") await moves.toTypedTurn(opens.toString(8));
}

// With each drawing keeps the moment and the place in the address, and fills in what was skipped there, when nothing was asked for
// a while.
function followState({ store, session, sharing, moves }, address) {
  let timer = 0, before = "";
  const { draw } = store, words = wordsOfAddress();
  const fragment = Object.keys(address).map((kind) => `${kind}=${words.get(kind)}&`).join("");
  store.draw = (state) => {
    const shown = shownOf(state);
    draw({ ...state, hasPictures: sharing.hasPictures(session.given.script) });
    if (shown === before) return;
    before = shown;
    clearTimeout(timer);
    timer = setTimeout(() => {
      history.replaceState(null, "", `#${fragment}${shown}`);
      moves.fillSkipped();
    }, AFTER);
  };
}

// Offers the latest session that this browser has kept, of those that are no longer open.
async function offer({ store, session }) {
  const record = await latestOfClosed(store.state.exercise), now = record && branchNow(record.tree);
  if (!record || !now.session || now.session.script === session.given.script) return;
  const time = new Date(record.at), day = time.toLocaleDateString(), isToday = day === new Date().toLocaleDateString();
  const text = `${isToday ? "" : `${day} `}${time.toTimeString().slice(0, 5)}`;
  const title = `the session of ${time.toLocaleString()} that this browser has kept, ${now.lines} lines`;
  store.change({ offer: { record, text, title } });
}

async function open() {
  const inWork = kept("exercise"), address = await filesOfAddress(), page = await begin(address);
  const { store: { state }, session, exercises, opens, reply } = page;
  followState(page, address);
  const first = state.exercise || state.look === "debug" ? null : state.exercises[0]?.name;
  const wanted = address.script ? null : inWork ?? first;
  if (wanted) await exercises.goTo(wanted);
  else await goToAddress(page, opens);
  if (reply.said) session.say(reply.said, true);
  holdTab();
  window.addEventListener("hashchange", () => goToAddress(page));
  window.addEventListener("pagehide", () => session.keepNow());
  if (!wanted) await offer(page);
  session.update({});
  Object.assign(window, { page });
  document.body.dataset.open = "yes";
}

open().catch(firstScript.fault);
