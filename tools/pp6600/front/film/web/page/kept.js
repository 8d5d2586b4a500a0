// ---- what this browser keeps of a film, by its checksum: sessions, drafts of sources and panels, texts for the assembler, answers
// that were checked, the exercise in work, folded panes and the look

const PREFIX = `pp6600 ${document.documentElement.dataset.sum || ""} `, MOST_SESSIONS = 20; // of the run, or of an exercise
const TAB = Math.random().toString(36).slice(2, 10); // among those that have the film open
const IN_FILE = /^(draft|texts|answer)\b/; // what a saved page has too
const lockOf = (tab) => `${PREFIX}tab ${tab}`;
const own = new Map(), ownSessions = new Map(); // what this tab has kept: it is there also if the browser keeps nothing
const inFile = { kept: {}, sessions: {} }; // what a saved page had when it was opened

// Returns what an action with the browser's storage returns; null if it keeps nothing.
function withStorage(action) {
  try {
    return action(localStorage);
  } catch {
    return null;
  }
}

// All that the browser keeps under names that begin so, by the rest of their names.
function stored(begin) {
  const read = (storage) => Object.keys(storage).filter((key) => key.startsWith(PREFIX + begin))
    .map((key) => [key.slice(PREFIX.length + begin.length), JSON.parse(storage.getItem(key))]);
  return withStorage(read) || [];
}

export const kept = (name) =>
  own.get(name) ?? withStorage((storage) => JSON.parse(storage.getItem(PREFIX + name))) ?? inFile.kept[name];

// Keeps something. Returns whether the browser had room.
export function keep(name, value) {
  own.set(name, value);
  return withStorage((storage) => storage.setItem(PREFIX + name, JSON.stringify(value))) === undefined;
}

// What a saved page has of this: of each exercise the latest session.
export function keptForFile() {
  const names = stored("session ").map(([name]) => name.split(" ")[0]).filter((exercise) => exercise !== "run");
  const latest = Object.fromEntries(names.map((exercise) => [exercise, sessionsOf(exercise)[0][1]]));
  const entries = [...stored(""), ...own].filter(([name]) => IN_FILE.test(name));
  return { sessions: { ...inFile.sessions, ...latest, ...Object.fromEntries(ownSessions) },
    kept: { ...inFile.kept, ...Object.fromEntries(entries) } };
}

// The same from a page that was saved.
export const addKept = (more) => { Object.assign(inFile, more); };

// ---- sessions: each under the exercise that it is of, or "run", and its tab, so that two tabs never overwrite each other

// The sessions of an exercise by their tabs, the latest first.
const sessionsOf = (exercise) => stored(`session ${exercise} `).sort(([, one], [, other]) => other.at - one.at);

// Keeps a session of this tab. The oldest go, if there are too many. Returns whether the browser had room.
export function keepSession(tree, exercise) {
  const session = { tree, at: Date.now() }, name = `session ${exercise || "run"}`, isKept = keep(`${name} ${TAB}`, session);
  const others = sessionsOf(exercise || "run").slice(MOST_SESSIONS).filter(([tab]) => tab !== TAB);
  ownSessions.set(exercise || "run", session);
  for (const [tab] of others) withStorage((storage) => storage.removeItem(`${PREFIX}${name} ${tab}`));
  return isKept;
}

// Holds the lock of this tab as long as it is open, so that other tabs do not offer its sessions.
export const holdTab = () => { navigator.locks?.request(lockOf(TAB), () => new Promise(() => {})); };

// The session of an exercise of the latest tab that is closed; null if there is none.
export async function latestOfClosed(exercise) {
  const { held = [] } = (await navigator.locks?.query().catch(() => ({}))) || {}, open = new Set(held.map(({ name }) => name));
  const found = sessionsOf(exercise || "run").find(([tab]) => tab !== TAB && !open.has(lockOf(tab)));
  return found ? found[1] : null;
}

// The session of an exercise to go on with: this tab's own, or that one, or that of the file.
export const sessionToGoOn = async (exercise) =>
  ownSessions.get(exercise) || (await latestOfClosed(exercise)) || inFile.sessions[exercise];
