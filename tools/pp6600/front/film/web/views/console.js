// ---- the console: its transcript, the line that is typed, and the branches, of which each is kept

import { h, classes, keeper } from "../page/dom.js";
import { octal } from "../machine/places.js";
import { inShort } from "../machine/words.js";
import { branchNow } from "../page/tree.js";
import { PLAIN, icon, pane } from "./parts.js";

const kept = keeper(), MOST_SHOWN = 400, STEP = 24, INDENT = 16;

// A line with its answer. A look has a sign: it has changed nothing, and the film has no moment of it.
function entry({ text, answer, moment, isLook }, is, key) {
  const isNote = text.trim().startsWith("*"), isWrong = /^ERR /.test(answer[0] || "");
  const current = is.present ? { seen: key, "aria-current": "true" } : {};
  return h("li", { class: classes({ note: isNote, look: isLook, wrong: isWrong, ...is }), "data-moment": moment, ...current },
    h("button", { tabindex: -1 }, isNote ? "" : h("span.prompt", "> "), text || " ",
      isLook ? h("span.sign", { title: "a look: nothing has changed" }, icon("eye")) : null),
    answer.length ? h("pre", answer.join("\n")) : null);
}

export function consolePane(state) {
  const { film, transcript, sentLast, origin } = state, here = film.lineAt(film.at);
  const from = Math.max(0, transcript.length - MOST_SHOWN);
  const isSent = sentLast && sentLast === transcript.at(-1);
  const shown = isSent ? sentLast : transcript.find(({ line }) => line === here);
  const steps = (origin || []).map(({ step }) => step.moment).filter((moment) => moment > 0 && !film.isTurn(moment));
  const sources = new Set(steps.map((moment) => film.lineAt(moment)));
  const entries = transcript.slice(from).map((one, at) => {
    const present = one === shown, is = { present, later: !present && one.moment > film.at, from: sources.has(one.line) };
    const key = `${present ? `${film.at} ${transcript.length}` : ""} ${is.later} ${is.from}`;
    return kept(one, key, () => entry(one, is, `${from + at} ${film.count} ${film.at}`));
  });
  return pane(state, "console", "Console", `${film.lines.length} lines`,
    h("ol.box.transcript", { "data-box": "", tabindex: 0, "aria-label": "lines and answers" }, entries),
    h("form.typed", { "data-form": "console" }, h("label", { for: "typed" }, ">"),
      h("input", { id: "typed", ...PLAIN, maxlength: 255, "aria-label": "a line of the console",
        placeholder: "STEP 100, DUMP PP 0, BACK W, until P 0 = 105" }), h("button", { tabindex: -1 }, "Send")));
}

// ---- branches: a click goes there

// The tree in the order of its rows: each branch below the one that it began in.
function rows({ all }, parent = null, depth = 0) {
  return all.filter((one) => one.parent === parent).flatMap((one) => [{ ...one, depth }, ...rows({ all }, one.id, depth + 1)]);
}

export function branchesPane(state) {
  const { tree, film } = state, all = rows(tree), y = (at) => STEP * at + STEP / 2, x = (depth) => 8 + INDENT * depth;
  const isHere = ({ id }) => id === tree.now, hasOthers = all.length > 1;
  const isBranch = branchNow(tree).parent !== null || tree.now > 0;
  const ways = all.map(({ parent, depth }, at) => parent !== null
    && h("path", { d: `M${x(depth - 1)} ${y(all.findIndex(({ id }) => id === parent))}V${y(at) - 6}q0 6 6 6H${x(depth)}` }));
  const knots = all.map((one, at) => h("circle", { class: isHere(one) ? "here" : "", cx: x(one.depth), cy: y(at), r: 5 }));
  const row = (one) => {
    const { id, name, from, lines } = one, begun = from === null ? "" : `from turn ${octal(from)}, `;
    return h("li", { class: classes({ here: isHere(one) }) },
      h("button", { "data-branch": id, "aria-current": isHere(one) ? "true" : null, title: name }, inShort(name.trim(), 28),
        h("span.soft", ` ${begun}${isHere(one) ? film.lines.length : lines} lines`)));
  };
  const undo = h("button", { id: "undo", "data-action": "undo", title: "to the session before; this one stays here" },
    "undo the branch");
  return pane(state, "branches", "Branches", [hasOthers ? `${all.length}` : "one", hasOthers && isBranch ? undo : null],
    h("div.box.natural.tree",
      h("svg", { height: STEP * all.length, width: x(Math.max(...all.map(({ depth }) => depth))) + 10, "aria-hidden": "true" },
        ways, knots),
      h("ol", all.map(row))));
}
