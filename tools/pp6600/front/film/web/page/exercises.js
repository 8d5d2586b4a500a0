// ---- exercises: each has its own session, which is kept; what is checked is the moment that is shown, in a session of its own

import { linesIn } from "../machine/lines.js";
import { answerShown, differences, judgedOf, makesTurns, noted, noteIn, withoutLater } from "./answer.js";
import { firstCells } from "./choice.js";
import { panelIn } from "./files.js";
import { keep, kept, sessionToGoOn } from "./kept.js";
import { Part } from "./store.js";
import { newTree } from "./tree.js";

const NO_PANEL = "a panel is twelve words of four octal digits";
const draftOf = (name) => `draft ${name} panel`, answerOf = (name) => `answer ${name}`;

export class Exercises extends Part {
  named(name) { return this.state.exercises.find((one) => one.name === name); }

  // The session of an exercise with some files: what is not given is the exercise's.
  given(one, { script = one.files.script, deck, panel, sources = {}, labels = {} }) {
    const files = { deck: deck || one.files.deck, panel: panel || one.files.panel };
    return { ...files, script: noted(one, script, files.panel), options: one.options, exercise: one.name, sources, labels };
  }

  // Files in the place of others of a run. If a script names an exercise, or one is in work, in a session of that.
  withExercise(files, others) {
    const isNamed = Boolean(noteIn(files.script || "", "EXERCISE")), all = isNamed ? files : { ...others, ...files };
    const one = this.named(noteIn(all.script, "EXERCISE") || this.state.exercise);
    return one ? this.given(one, { ...all, panel: all.panel || noteIn(all.script, "PANEL") }) : { ...all, exercise: null };
  }

  // The answers that were checked: of each exercise the one that was right, or else the last.
  answers() {
    const found = this.state.exercises.map(({ name }) => [name, kept(answerOf(name))]);
    return Object.fromEntries(found.filter(([, answer]) => answer));
  }

  // Shows what belongs to an exercise: the panel that was typed, or that of its session, and its source.
  begun() {
    const { exercise } = this.state, panel = this.session.given.panel || "";
    if (exercise) keep("exercise", exercise);
    this.update({ offer: null, panelText: (exercise && kept(draftOf(exercise))) ?? panel });
    this.editor.open(0);
  }

  // Goes to the session of an exercise: as it was left, or to its beginning.
  goTo(name) {
    this.update({ tutorial: null });
    return this.leaveFor(name, this.given(this.named(name), {}), () => sessionToGoOn(name));
  }

  // Leaves the present session for one that was kept, or for the beginning of another.
  leaveFor(name, given, keptSession = () => null) {
    const { session } = this;
    return session.inTurn(async () => {
      session.keepNow();
      const old = await keptSession();
      this.update({ chosen: null, changes: [] });
      const reply = await session.open(old ? old.tree : newTree(given, name), { isNew: !old });
      if (reply.isFault) return;
      session.isChanged = false;
      if (!old) this.update(firstCells(this.state));
      this.begun();
    });
  }

  // ---- tutorials: their sessions belong to no exercise

  seeTutorial(at) { this.update({ tutorial: at === this.state.tutorial ? null : at }); }

  // Performs a line of a tutorial as if it was typed. The first line of one of its sessions begins that in a new machine.
  async perform(tutorial, part, at) {
    const { lines, files, name } = this.state.tutorials[tutorial].parts[part], begins = files && at === 0;
    const given = { script: "", ...files, exercise: null, sources: {}, labels: {} };
    if (begins && this.state.exercise) await this.leaveFor(name, given);
    else if (begins) await this.session.beginBeside(name, given);
    return this.session.type([lines[at][0]]);
  }

  // What was typed as a panel is kept, and belongs to the session.
  typePanel(text) {
    this.update({ panelText: text });
    this.keepOr(keep(draftOf(this.state.exercise), text));
    this.session.keepSoon();
  }

  // Begins anew, beside what has been done: that stays in the tree.
  again() {
    const one = this.named(this.state.exercise), panel = one.files.panel && this.state.panelText;
    if (panel && !panelIn(panel)) return this.say(NO_PANEL, true);
    return this.session.beginBeside("begun again", this.given(one, { panel }));
  }

  // Begins the session of files that were dropped, in the tree of the exercise that their script names. Without a script they take
  // the place of those of the present session.
  async show(name, files) {
    const { session } = this, given = this.withExercise(files, session.now());
    if (given.exercise && given.exercise !== this.state.exercise) await this.goTo(given.exercise);
    const isDone = await session.beginBeside(name, given);
    if (this.named(given.exercise)?.files.panel) this.typePanel(given.panel);
    return isDone;
  }

  // The answer is made of the settings in effect, and of the turns if the exercise's own script makes turns; and if it has a panel,
  // of what is typed there. What is wrong only because of turns that were made since is said to be so.
  async check() {
    const { state } = this, { film, exercise, panelText, answers } = state, one = this.named(exercise);
    if (!one) return this.say("choose an exercise first", true);
    if (one.files.panel && !panelIn(panelText)) return this.say(NO_PANEL, true);
    const parts = judgedOf(one, film.partsInEffect()), turn = film.turn[film.at], script = answerShown(state);
    const { wrong, said } = await this.judge(one, parts);
    if (!wrong) return this.say(said, true);
    const before = withoutLater(one, parts), isRight = !wrong.length;
    const isLate = !isRight && makesTurns(one) && before.later > 0 && !(await this.judge(one, before.parts)).wrong?.length;
    const isBest = isRight || !answers[exercise]?.isRight;
    const next = isBest ? { ...answers, [exercise]: { script, isRight } } : answers;
    this.update({ checked: { wrong, turn, later: isLate ? before.later : 0 }, answers: next });
    return this.keepOr(!isBest || keep(answerOf(exercise), next[exercise]));
  }

  // What differs from what is expected if the check follows some parts, with the exercise's own cards.
  async judge({ files, options, check, expected, isHidden }, parts) {
    const given = { deck: files.deck, panel: files.panel && this.state.panelText, options }, lines = linesIn(check);
    const { answers, said } = await this.session.look(check, parts, given);
    const hidden = ({ wanted, ...pair }) => ({ ...pair, wanted: isHidden && wanted !== undefined ? "another line" : wanted });
    return answers ? { wrong: differences(linesIn(expected), lines, answers).map(hidden) } : { said };
  }
}
