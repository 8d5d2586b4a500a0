// ---- the files of the run, links, and how fast it plays; the help; and the field of a number that is set

import { h } from "../page/dom.js";
import { meaningOf } from "../machine/words.js";
import { RATES } from "../page/moves.js";
import { PLAIN, boxPane, select } from "./parts.js";

const MARKS = "Click a number to choose it, twice to set it. Click a lane or a line of the console to go there. Click a line of "
  + "the source to go to the next time that it was performed, with Shift to the time before. What the last action changed is "
  + "boxed, what it read is underlined. All numbers are octal; numbers of lines are decimal. Print a page to have this moment on "
  + "paper.";

export function runPane(state) {
  const { film: { about }, rate } = state, button = (action, text) => h("button", { "data-action": action }, text);
  const file = ({ kind, name }, at) => (name && about.again
    ? h("button", { "data-file": at }, name === kind ? `the ${kind}` : `the ${kind}: ${name}`) : null);
  const rates = RATES.map((one, at) => [one, `1${"0".repeat(at)} ${one === 1 ? "turn" : "turns"} a second`]);
  return boxPane(state, "run", "Files and links", "",
    h("p.buttons", button("save", "save this file"), button("save-script", "save script"), button("copy-link", "copy link"),
      about.files.map(file)),
    h("p", "Drop a script, a deck or a panel on the page: it begins a session beside this one."),
    about.again ? h("p", "To run it again: ", h("code", about.again)) : null,
    h("p", "Play at ", select("rate", "how fast it plays", rate, rates)));
}

export function help({ keys, film: { about }, meaning, letters }) {
  const names = about.instructions.map(({ name }) => name);
  const others = Object.keys(about.meanings).filter((name) => !names.includes(name) && !/^\dx$/.test(name));
  const button = (name) => h("button", { "data-meaning": name, title: meaningOf(about, name) }, name);
  return h("section.help", { role: "dialog", "aria-label": "keys" },
    h("h2", "Keys", h("button", { "data-action": "help" }, "Close")),
    h("table", h("tbody", keys.help.map(([keyNames, text]) => h("tr", h("th", keyNames.join(" ")), h("td", text))))),
    h("p", h("label", h("input", { type: "checkbox", id: "letters", checked: letters }), " letters and digits are keys")),
    h("p", MARKS),
    h("h2", "Instructions and directives"), h("p.codes", names.map(button)), h("p.codes.directives", others.map(button)),
    h("pre", { id: "meaning", role: "status" }, meaning ? meaningOf(about, meaning) : "Click one: what it does is said here."));
}

// The field of a number that is set, over it.
export const settingField = ({ setting: { left, top, text }, chosen }) =>
  h("form.setting", { "data-form": "set", style: `left:${left}px;top:${top}px` },
    h("input", { id: "set-to", value: text, size: text.length + 8, ...PLAIN, "aria-label": `${chosen.name} becomes`,
      title: "an octal number, for a cell also an instruction as FNC 12 1, and Enter" }));
