// ---- the bar: the title, the looks, the one toolbar, where to go, and what is kept

import { h, classes } from "../page/dom.js";
import { octal } from "../machine/places.js";
import { PLAIN, icon } from "./parts.js";

const LOOKS = [["debug", "Debug"], ["class", "Class"], ["projector", "Project"]];
// The tools: each an action, its icon, its name, and what it does. Groups are apart in the toolbar; one that ends with a text is a
// pair.
const TOOLS = [
  [["beginning", "first", "Start", "to the beginning"], ["round-back", "roundback", "Round", "back by a round of turns"],
    ["back", "back", "Back", "back by one turn"], ["play", "play", "Play", "play or pause"],
    ["on", "step", "Step", "one turn on; at the end it makes one"],
    ["round-on", "roundon", "Round", "on by a round of turns"], ["newest", "last", "End", "to the newest state"]],
  [["line-before", "lineback", "", "back by a line of the source"],
    ["next-line", "lineon", "", "on to the next line of the source"], "Line"],
  [["change-before", "changeback", "", "back to a change of the chosen number"],
    ["next-change", "changeon", "", "on to its next change"], "Change"],
  [["run-to", "runto", "Run to", "on to where P is at the chosen cell, or to a breakpoint"],
    ["watch", "watch", "Watch", "watch the chosen number, or no longer"],
    ["origin", "origin", "From", "where the chosen number came from"],
    ["set", "set", "Set", "set the chosen number to another one"]],
];

function tool([action, glyph, name, title], { playing, film, tool: roved, keys }) {
  const isPause = action === "play" && playing, disabled = (action === "back" || action === "beginning") && film.at === 0;
  const key = Object.keys(keys.actions).find((one) => keys.actions[one] === action).replace(/^ $/, "Space");
  return h("button", { class: `tool ${action}`, "data-action": action, title: `${title} (${key})`, disabled,
    "aria-label": title, tabindex: action === roved ? 0 : -1 },
  icon(isPause ? "pause" : glyph), name ? h("span", isPause ? "Pause" : name) : null);
}

const toolGroup = (group, state) => h("div", { class: classes({ group: true, pair: typeof group.at(-1) === "string" }) },
  group.map((one) => (typeof one === "string" ? h("span", one) : tool(one, state))));

const looks = ({ look }) => h("div.looks", { role: "group", "aria-label": "look" }, LOOKS.map(([name, text]) =>
  h("button", { "data-look": name, "aria-pressed": String(look === name), tabindex: look === name ? 0 : -1 }, text)));

function fields({ film, chosen, wrong }) {
  const field = (id, more) => h("label", `${id} `,
    h("input", { id, ...PLAIN, "aria-invalid": String(Boolean(wrong[id])), ...more }),
    wrong[id] ? h("span.wrong", { role: "alert", id: `no-${id}` }, wrong[id]) : null);
  return h("div.goto",
    field("turn", { size: 5, value: octal(film.turn[film.at]), inputmode: "numeric", title: "an octal number (G)" }),
    field("place", { size: 9, value: chosen ? chosen.name : "", placeholder: "M 0 106",
      title: "M 0 106, A 0, P 0, Q 0, C 1000, H 12 (g)" }));
}

const kept = ({ offer }) => h("div.files",
  offer ? h("button.offer", { "data-action": "restore", title: offer.title }, h("span", "Go on from "), h("b", offer.text)) : null,
  h("button.tool", { "data-action": "save", title: "save this page with the session (Ctrl+S)" }, icon("save"), h("span", "Save")),
  h("button.tool", { "data-action": "help", tabindex: -1, title: "all keys (?)" }, icon("help"), h("span", "Keys")));

const heading = ({ film: { about: { title } } }) => h("h1", { title }, title);

export const bar = (state) => h("div.bar", heading(state), looks(state),
  h("div.tools", { role: "toolbar", "aria-label": "to and fro" }, TOOLS.map((group) => toolGroup(group, state))), fields(state),
  kept(state));

// On a phone the bar has the tools alone; the rest is in a pane.
export const morePane = (state) => h("section.pane.more-pane", { "aria-label": "more" }, heading(state), looks(state),
  fields(state), kept(state));
