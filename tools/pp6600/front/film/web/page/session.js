// ---- the session of the page: its lines, what is only looked at, and the tree of branches

import { LONGEST_ANSWER, UNTIL, moveBy, ofLines, scriptOf, stepsOf, wordsIn } from "../machine/lines.js";
import { JUMP, LINE, octal } from "../machine/places.js";
import { Film, NOT_RECORDED } from "../machine/film.js";
import { changeFound, foundBy, latestChange, nextText } from "../machine/words.js";
import { NOTE, answerShown } from "./answer.js";
import { choose, viewAt } from "./choice.js";
import { Client } from "./client.js";
import { octalRows } from "./files.js";
import { keepSession } from "./kept.js";
import { Part } from "./store.js";
import { branchNow, joinedTrees, withBranch, withSession } from "./tree.js";

const AFTER = 300; // milliseconds until the page says that the worker is busy
const MOST_WANTED = 0o2000, MOST_BRANCHES = 64; // turns that are recorded where some were skipped; branches that a script begins
const MOST_IN_FILMS = 3 << 20; // moments of other branches that are kept as films

export class Session extends Part {
  // `engine` has the parts of the worker's script, and `module` is the simulator.
  constructor(store, engine, about, module) {
    super(store, { about, given: null, opening: null, isChanged: false, films: new Map(), first: { module, about } });
    this.client = new Client(this, engine);
  }

  // ---- what comes from the worker

  busy(is) {
    clearTimeout(this.busyTimer);
    if (is) this.busyTimer = setTimeout(() => this.update({ isBusy: true }), AFTER);
    else if (this.state.isBusy) this.update({ isBusy: false });
  }

  working() { this.update({}); }
  fault(text) { this.say(text, true); }

  moments(delivery) {
    this.grown(delivery);
    this.update(this.state.isOpen ? viewAt(this.state) : {});
  }

  grown({ rows, lines }) {
    if (this.opening) this.beginFilm();
    const { state } = this, { film, transcript, chosen } = state, first = film.count, firstLine = film.lines.length;
    film.grow({ rows, lines });
    lines.forEach((line, at) => transcript.push({ ...line, line: firstLine + at }));
    if (this.notesBranches) for (const line of lines) this.noteBranch(line);
    if (chosen) state.changes = [...(first ? state.changes : []), ...film.momentsThatChanged(chosen.places, Math.max(first, 1))];
  }

  // A film without moments takes the place of the one that is shown, with its tree, when the first moments of another session have
  // come; or one that was shown before, with its transcript.
  beginFilm(tree = this.opening, film = this.newFilm(branchNow(tree).session), transcript = []) {
    const given = branchNow(tree).session;
    Object.assign(this, { given, opening: null });
    const none = { checked: null, sentLast: null, origin: null, setting: null, line: null };
    Object.assign(this.state, { film, tree, exercise: given.exercise || null, transcript, ...none });
  }

  newFilm(given) {
    const { about } = this, own = given.exercise ? {} : about;
    const known = { sources: { ...own.sources, ...given.sources }, labels: { ...own.labels, ...given.labels } };
    const film = new Film({ ...about, ...given.options, ...known });
    return Object.assign(film, { deck: octalRows(given.deck), panel: octalRows(given.panel).flat() });
  }

  // ---- films of other branches, which are there as long as not too many moments are

  // Keeps a film for a branch, or the beginning of one that goes on in another branch.
  keepFilm(id, film, transcript, count = film.count, lines = film.lines.length) {
    const { films } = this;
    films.delete(id);
    films.set(id, { film, transcript, count, lines });
    const all = () => [...films.values()].reduce((sum, one) => sum + one.count, 0);
    for (const [oldest] of films) if (all() > MOST_IN_FILMS) films.delete(oldest);
  }

  // The film of the present branch of a tree, with its transcript; or null.
  filmOf(tree) {
    const found = this.films.get(tree.now), { session } = branchNow(tree);
    if (!found) return null;
    const { film, transcript, count, lines } = found;
    if (count === film.count && lines === film.lines.length) return { film, transcript };
    const begun = this.newFilm(session), delivery = film.beginning(count, lines);
    begun.grow(delivery);
    return { film: begun, transcript: delivery.lines.map((line, at) => ({ ...line, line: at })) };
  }

  // An action after a BACK begins a branch, in the session: what was taken back stays in the branch before it, with the lines up to
  // there.
  noteBranch({ text, acts, first }) {
    const { film, tree } = this.state;
    let end = first - 1; // the newest moment before the BACK
    while (film.kinds[end] === JUMP) end--;
    if (!acts || film.kinds[first] === JUMP || film.resolve(first - 1) === end || tree.all.length >= MOST_BRANCHES) return;
    const lines = film.lineAt(end) + 1, before = { ...this.given, script: ofLines(this.typedLines().slice(0, lines)), moment: end };
    this.keepFilm(tree.now, film, null, end + 1, lines);
    this.state.tree = withBranch(withSession(tree, before, lines), text, null, film.turn[first - 1]);
  }

  // Performs the script of the present session of a tree from the beginning, and shows its moment or its end. One that is new may
  // take a while, and begins branches where it goes back. Of another branch of the same tree the film may be there.
  async open(tree, { isNew = false, isTrusted = !isNew, isSameTree = false } = {}) {
    const { script, deck = "", panel = "", options = {}, wanted = [], moment } = branchNow(tree).session, { state } = this;
    if (!isSameTree) this.films.clear();
    else this.keepFilm(state.tree.now, state.film, state.transcript);
    const known = isNew ? null : this.filmOf(tree), given = { script, deck, panel, options };
    Object.assign(this, { opening: known ? null : tree, notesBranches: isNew });
    const reply = await this.client.ask("open", { given, wanted, isTrusted, isKnown: Boolean(known), ...this.first });
    const isOther = known && reply.count !== known.film.count; // it was stopped, or failed
    if (known && !isOther) this.beginFilm(tree, known.film, known.transcript);
    Object.assign(this, { opening: null, notesBranches: true, first: {} });
    if (isOther) return this.open(tree);
    this.say(reply.said || "", Boolean(reply.isWrong));
    if (!reply.isFault) this.show(moment);
    return reply;
  }

  // Shows a moment of the film, or its end.
  show(moment = -1) {
    const { state, film } = this, place = state.chosen && film.placeNamed(state.chosen.name);
    film.goTo(moment < 0 ? film.last : moment);
    this.update({ ...viewAt(state), ...(place ? choose(state, place) : {}) });
  }

  // ---- lines: a look changes nothing, and an action in the past begins a branch

  // Performs typed lines, one after the other, up to one that is refused. Those that are typed meanwhile come after them.
  type(lines) {
    return this.inTurn(async () => {
      this.isStopped = false;
      for (const [at, line] of lines.entries()) {
        if (this.isStopped) this.say(`stopped: ${lines.length - at} lines are left`, true);
        if (this.isStopped || !(await this.perform(line))) return this.isStopped;
      }
      return true;
    });
  }

  // Ends what is performed, and the lines that would come after it.
  stop() {
    this.isStopped = true;
    this.client.stop();
  }

  inTurn(action) {
    const done = (this.doing || Promise.resolve()).then(action);
    this.doing = done.catch(() => {});
    return done;
  }

  async perform(line) {
    const { film } = this, [, back, condition] = UNTIL.exec(line) || [], isAtEnd = film.at === film.last;
    if (condition !== undefined && !isAtEnd) return this.findsInFilm(line, condition, Boolean(back));
    if (isAtEnd) return condition === undefined ? this.performHere(line) : this.search(condition, Boolean(back));
    if (await this.movesInFilm(line)) return true;
    if (/^\s*STEP\b/i.test(line)) return this.performHere(line);
    const { answers, acts, said } = await this.look(line);
    if (acts) return this.performHere(line);
    this.addLook(line, answers ? answers[0].slice(0, LONGEST_ANSWER) : [said]);
    return Boolean(answers) && !/^ERR /.test(answers[0][0] || "");
  }

  // Performs lines where the page is. Anywhere but at the newest moment they begin a branch, so that nothing is lost.
  act(lines) { return this.inTurn(() => this.performHere(...lines)); }

  async performHere(...lines) {
    const { isNew, isWrong, said } = await this.send(lines), { film } = this;
    const found = isNew && !isWrong ? foundBy(film, film.lines.at(-1)) : null;
    return this.tell(found ? `${said}${found.text}` : isWrong ? said : "", isWrong, found);
  }

  async send(lines) {
    const isInPast = this.film.at !== this.film.last, { state } = this;
    if (isInPast && !(await this.branch(lines[0]))) return { ...state.said, said: state.said.text };
    const { film } = this, end = film.last, { said, isWrong = false } = await this.client.ask("act", { lines });
    if (film.last > end) film.goTo(film.last);
    return { said, isWrong, isNew: film.last > end };
  }

  // Says what has come of lines at the newest moment, and chooses the place that was found. Returns whether all is well.
  tell(text, isWrong, found) {
    const { state, film } = this;
    this.update({ said: { text, isWrong }, sentLast: state.transcript.at(-1), ...viewAt(state) });
    if (found) this.update(choose(state, film.placeNamed(found.name)));
    this.keepSoon();
    return !isWrong;
  }

  // At the newest moment: goes back to where a condition came to hold last, or makes turns up to where it does.
  async search(condition, isBack) {
    const from = this.film.position[this.film.at], parts = [...this.film.partsInEffect(), ...(isBack ? [] : [Infinity])];
    const { found = null, end, said } = await this.find(parts, from, condition, isBack);
    const vain = isBack ? "not before this" : `not among the next ${octal(end - from)} turns`;
    if (found === null) this.say(said || vain, true);
    if (found === null) return false;
    const linesTo = (left) => (left < 0 ? [moveBy(left)] : stepsOf(left));
    let reply = { isWrong: false };
    for (let left = found - from; left && !reply.isWrong && !this.isStopped; left = found - this.film.position[this.film.at]) {
      reply = await this.send(linesTo(left));
    }
    const change = reply.isWrong ? null : changeFound(this.film, condition);
    const turn = `found: turn ${octal(this.film.turn[this.film.at])}`;
    return this.tell(reply.isWrong ? reply.said : `${turn}${change ? change.text : ""}`, reply.isWrong, change);
  }

  // After how many actions a condition comes to hold the first time after some, or the last time before; and up to where one has
  // looked.
  find(parts, from, text, isBack) {
    return this.client.ask("find", { given: this.files(), parts, from, text, isBack, labels: this.film.labels });
  }

  // The moment of the film at which a condition comes to hold next, or came to hold last, of what is in effect; null if there is
  // none. Turns that were skipped are recorded for it, and then shown.
  async momentOf(text, isBack) {
    const { film } = this, { position, kinds, count, breaks } = film;
    for (let from = film.at; from < count;) {
      const jump = isBack ? count : breaks.find((moment) => moment > from && kinds[moment] === JUMP) ?? count;
      const { found, said } = await this.find(film.partsInEffect(isBack ? from : jump - 1), position[from], text, isBack);
      if (said) return { at: null, said };
      const at = found === null ? null : film.nearest(isBack ? -1 : 1, (moment) => position[moment] === found, from);
      if (at > 0 || (at === NOT_RECORDED && (await this.recordAt(found)))) return { at };
      from = jump;
    }
    return { at: null };
  }

  // What lines answer, each for itself, in a session of their own: at the moment that is shown, or after other parts, with other
  // files.
  look(text, parts = this.film.partsInEffect(), given = this.files()) { return this.client.ask("look", { given, parts, text }); }

  // A search in the past looks among the moments that the film has, and only moves what is shown.
  async findsInFilm(line, condition, isBack) {
    const { film } = this, { at, said } = await this.momentOf(condition, isBack);
    if (at === NOT_RECORDED) return true;
    const vain = isBack ? "not before this" : "not in the film after this: at its end a search makes turns";
    if (at === null) return this.addLook(line, [said || vain]);
    film.goTo(at);
    const change = changeFound(film, condition);
    return this.addLook(line, [`shown: the film has it${change ? change.text : ""}`], change && change.name);
  }

  // A BACK, FORWARD or STEP in the past, if the film has where it leads, only moves what is shown.
  movesInFilm(line) {
    const [command, word = "1"] = wordsIn(line), { film } = this, way = { BACK: -1, FORWARD: 1, STEP: 1 }[command];
    if (command === "BACK" && word === "W") return this.movesToChange(line);
    if (!way || !/^[0-7]+$/.test(word)) return false;
    const count = parseInt(word, 8), goal = film.position[film.at] + way * count, isStep = command === "STEP";
    const at = isStep ? film.at + count : goal === 0 ? 0 : film.nearest(way, (moment) => film.position[moment] === goal);
    if (at < 0 && film.skipOver(goal) >= 0) return this.recordAt(goal);
    if (at < 0 || at > film.last || (isStep && film.kinds.subarray(film.at + 1, at + 1).some((kind) => kind >= LINE))) return false;
    film.goTo(at);
    return this.addLook(line, ["shown: the film has it"]);
  }

  // A BACK W too, to before the latest change of a watched number.
  movesToChange(line) {
    const { film } = this, found = latestChange(film, film.watched(), film.at);
    const changes = found && film.momentsThatChanged(film.placeNamed(found.name).places);
    if (!found || film.changeBefore(changes, film.at) !== found.moment) return false;
    film.goTo(found.moment - 1);
    return this.addLook(line, [`shown: the film has it${nextText(film, found)}`], found.name);
  }

  // Notes a line that only looked, and chooses the place with a name.
  addLook(text, answer, name = null) {
    const { state, film } = this, one = { text, answer, moment: film.at, isLook: true };
    this.update({ transcript: [...state.transcript, one], sentLast: one, said: { text: "", isWrong: false }, ...viewAt(state) });
    if (name) this.update(choose(state, film.placeNamed(name)));
    return true;
  }

  // Records turns that were skipped, the last ones up to so many actions, and shows the last of these.
  unskip(position = this.film.position[this.film.at]) { return this.inTurn(() => this.recordAt(position)); }

  async recordAt(position) {
    const range = [Math.max(0, position - MOST_WANTED), position];
    const wanted = [...(this.given.wanted || []), range].sort((one, other) => one[0] - other[0]);
    const reply = await this.open(withSession(this.tree(), { ...this.now(), wanted }));
    if (!reply.isFault) this.show(this.film.position.indexOf(position));
    return !reply.isFault;
  }

  // ---- the lines of the session

  files() { const { deck = "", panel = "", options = {} } = this.given; return { deck, panel, options }; }

  // The lines as they were typed, with the turns that they made.
  typedLines() {
    return this.film.lines.map(({ text, answer }) => (answer[1] === "stopped" ? `STEP ${answer[0].split(" ")[1]}` : text));
  }

  // Those that give the session in the program, which goes back less. That of an exercise ends at the moment that is shown.
  scriptToSave() {
    const lines = this.typedLines(), { film } = this, at = film.lines.findLastIndex(({ answer }) => answer[1] === "replayed");
    const whole = at < 0 ? ofLines(lines) : scriptOf(film.partsInEffect(film.lines[at].moment)) + ofLines(lines.slice(at + 1));
    return answerShown(this.state, film.at === film.last ? whole : undefined) ?? whole;
  }

  now() { return { ...this.given, script: ofLines(this.typedLines()), moment: this.film.at, answer: answerShown(this.state) }; }

  tree() { return withSession(this.state.tree, this.now(), this.film.lines.length); }

  // Begins a branch at the moment that is shown, with what is in effect there.
  branch(name) {
    const { film } = this, notes = this.given.script.split("\n").filter((line) => NOTE.test(line));
    const given = { ...this.given, script: ofLines(notes) + scriptOf(film.partsInEffect()) };
    return this.begin(withBranch(this.tree(), name, given, film.turn[film.at]), true);
  }

  // Begins another session beside those of the tree.
  beginBeside(name, given) { return this.inTurn(() => this.begin(withBranch(this.tree(), name, { ...given, wanted: [] }))); }

  async begin(tree, isTrusted = false) {
    const session = { ...branchNow(tree).session, moment: undefined };
    const reply = await this.open(withSession(tree, session), { isNew: true, isTrusted, isSameTree: true });
    this.keepSoon();
    return !reply.isFault && !reply.isWrong;
  }

  goToBranch(id) {
    return this.inTurn(async () => {
      if (id !== this.state.tree.now) await this.open({ ...this.tree(), now: id }, { isSameTree: true });
      this.keepSoon();
    });
  }

  // To the session in whose past this one began; it stays in the tree.
  leaveBranch() { return this.goToBranch(branchNow(this.state.tree).parent ?? 0); }

  // Goes on with a session that was kept, beside what has been typed here.
  restore({ tree }) {
    return this.inTurn(async () => {
      const reply = await this.open(this.isChanged ? joinedTrees(this.tree(), tree) : tree);
      if (!reply.isFault) this.update({ offer: null });
    });
  }

  // ---- what is kept

  keepSoon() {
    this.isChanged = true;
    super.keepSoon();
  }

  // Keeps the session, unless it is as it was opened: then one in which more was done would no longer be the latest.
  keepNow() {
    clearTimeout(this.timer);
    const { state } = this;
    if (!this.given || !this.isChanged) return;
    state.tree = this.tree();
    this.keepOr(keepSession(state.tree, state.exercise));
  }
}
