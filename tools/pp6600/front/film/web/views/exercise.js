// ---- the exercises: the task, what is solved, and Check

import { h, classes, keeper } from "../page/dom.js";
import { octal } from "../machine/places.js";
import { PLAIN, boxPane, icon } from "./parts.js";

const MOST_WRONG = 4, kept = keeper(); // lines that are shown
const NO_EXERCISE = "Choose an exercise: your sessions and sources are kept for each.";
const NONE = "This file has no exercises: `exercises/hand-out class.html` makes one that has.";
const titleOf = ({ name }) => name.replace(/-/g, " ").replace(/^./, (letter) => letter.toUpperCase());
const presentOf = ({ exercises, exercise }) => exercises.find(({ name }) => name === exercise);
const isSolved = ({ answers }, { name }) => Boolean(answers[name]?.isRight);

// A task as text, with names and lines of the console between backticks.
const taskText = (task) => task.split("`").map((part, at) => (at % 2 ? h("code", part) : part));

export function projectedTask(state) {
  const one = state.look === "projector" && presentOf(state);
  return one ? h("p.projected.task", h("b", `${titleOf(one)}. `), taskText(one.task)) : null;
}

function listOf(state) {
  const { exercises, exercise } = state;
  const item = (one, at) => {
    const { name } = one, solved = isSolved(state, one), isHere = name === exercise;
    const title = `${titleOf(one)}${solved ? ": solved" : ""}`;
    return h("li", { class: classes({ here: isHere, solved }) },
      h("button", { "data-exercise": name, title, "aria-label": `${at + 1}, ${title}`, "aria-current": isHere ? "true" : null,
        tabindex: name === (exercise || exercises[0].name) ? 0 : -1 }, String(at + 1), solved ? icon("check") : null));
  };
  return h("ol.list", { "aria-label": "exercises and tutorials" }, exercises.map(item), tutorialButtons(state));
}

// The verdict; and of one that is not right why, or the first lines that differ.
function checkedBox({ wrong, turn, later }) {
  const line = (name, text) => (text === undefined ? "" : `${name}${text}\n`), isRight = !wrong.length;
  const pair = ({ wanted, found }) => h("pre", line("expected  ", wanted) + line("written   ", found));
  const why = later ? [` It was right before the last ${octal(later)} turns: go back over the turns made since, and check again.`]
    : isRight ? []
      : [" The first answer that differs is that to ", h("code", wrong[0].line), ":", wrong.slice(0, MOST_WRONG).map(pair)];
  return h("div", { id: "checked", class: `checked ${isRight ? "good" : "wrong"}`, role: "status" },
    h("b", isRight ? "Solved" : "Not solved yet"), ` at turn ${octal(turn)}.`, why);
}

// An exercise with its task, the panel if it has one, and Check.
function taskOf({ exercises, film, panelText, checked }, one) {
  const panel = { id: "panel-text", rows: 3, ...PLAIN, "aria-label": "words of the dead start panel", value: panelText };
  return [h("h3", `${exercises.indexOf(one) + 1}. ${titleOf(one)}`), h("p.task", taskText(one.task)),
    one.files.panel ? h("textarea", panel) : null,
    h("p.buttons", h("button.main", { "data-action": "check", id: "check" }, icon("check"),
      `Check turn ${octal(film.turn[film.at])}`),
      h("button", { "data-action": "begin-again", title: "beside this session, which stays among the branches" },
        one.files.panel ? "Begin with this panel" : "Begin again")),
    checked ? checkedBox(checked) : null];
}

// ---- the tutorials, of whose sessions each line is performed by a click

const SHOWN = {
  heading: ({ text }) => h("h3", text),
  paragraph: ({ items, isList }) => items.map((item) => h("p.task", isList ? "– " : "", taskText(item))),
  table: ({ rows }) => h("table", h("tbody", rows.map((row) => h("tr", row.map((cell) => h("td", taskText(cell))))))),
  text: ({ text }) => h("pre", text),
  session: ({ lines }, place) => h("ol", lines.map(([line, answer], at) => {
    const button = { "data-perform": `${place} ${at}`, title: "perform this line", tabindex: at ? -1 : 0 };
    return h("li", h("button", button, `> ${line}`), answer ? h("pre", answer) : null);
  })),
};

const tutorialText = ({ tutorials, tutorial: at }) => kept(tutorials[at], "", () => h("div.tutorial", h("h3", tutorials[at].title),
  h("p.task", h("b", "A click performs a line here; the first line of a session begins it in a new machine.")),
  tutorials[at].parts.map((part, index) => SHOWN[part.kind](part, `${at} ${index}`))));

const tutorialButtons = ({ tutorials, tutorial }) => tutorials.map(({ title }, at) => h("li",
  h("button", { "data-tutorial": at, "aria-pressed": String(at === tutorial), title, tabindex: -1 }, `Tutorial ${at + 1}`)));

export function exercisePane(state) {
  const { exercises, tutorial } = state, one = presentOf(state), isClass = exercises.length > 0;
  const count = `${exercises.filter((other) => isSolved(state, other)).length} of ${exercises.length} solved`;
  return boxPane(state, "exercise", "Exercises", isClass ? count : "", isClass ? listOf(state) : null,
    tutorial !== null ? tutorialText(state) : one ? taskOf(state, one) : h("p.task", taskText(isClass ? NO_EXERCISE : NONE)));
}
