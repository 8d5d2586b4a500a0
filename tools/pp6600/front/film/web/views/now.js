// ---- what happened last, and where: what the eye sees first

import { h, classes } from "../page/dom.js";
import { four, octal, two } from "../machine/places.js";
import { deedOf, inShort, lineOfSource, named } from "../machine/words.js";
import { lineLost } from "../machine/sources.js";

const MOST = 7; // numbers that are shown with what they were

// A number with what it was and is. Who acted is said, so its processor is not.
function change({ place: { kind, name }, was, now }) {
  const short = ["M", "A", "P", "Q"].includes(kind) ? name.replace(/ \d\d/, "") : name;
  return h("span.change", { "data-place": name, title: name }, h("i", short), " ", h("s", was), " → ", h("b", now));
}

// Where: the line of the source, and the address with its name.
function where(film) {
  if (!film.isTurn(film.at)) return null;
  const address = film.addressAt(film.at), { text } = lineOfSource(film, film.at);
  return h("span.where", text ? h("span.sourced", text) : null,
    address === null ? "" : h("span", named(film, film.processor[film.at], address)));
}

// The line of the source that this turn has destroyed.
const lostLine = ({ source, line }) =>
  h("span.lost", { "data-place": `M ${two(source.n)} ${four(line.address)}`, title: `${source.name}:${line.number}` },
    h("b", "lost "), `line ${line.number}: `, h("s", line.text.trim().replace(/\s+/g, " ").slice(0, 24)));

function changesOf(film, changes) {
  const lost = lineLost(film, film.at);
  return h("p.changes", lost ? lostLine(lost) : null, changes.slice(0, MOST).map(change),
    changes.length > MOST ? h("span.soft", `and ${octal(changes.length - MOST)} more`) : null,
    changes.length || lost ? null : h("span.soft", "no number changed"));
}

// What a screen reader says of a moment.
const spoken = (film, { who, what, says, isBlock }) =>
  `Turn ${octal(film.turn[film.at])}. ${who} ${what}${isBlock ? ", block" : ""}: ${says}.`;

export function now(state, marks) {
  const { film, said, isBusy, playing } = state, { who, what, says, isBlock, waits } = deedOf(film, film.at);
  const line = film.lineAt(film.at);
  const text = line >= 0 ? inShort(film.lines[line].text.trim(), 18) : "";
  return h("div", { class: classes({ now: true, waits }) },
    h("div.turn", h("b", octal(film.turn[film.at])), h("span", `turn of ${octal(film.highestTurn)}`),
      h("span.line", line >= 0 ? `line ${line + 1} · ${text}` : film.at ? ".." : "the beginning")),
    h("p.spoken", { role: "status", "aria-live": playing ? "off" : "polite", "aria-atomic": "true" },
      spoken(film, { who, what, says, isBlock })),
    h("div.deed",
      h("p.what", who ? h("span.who", who) : null, h("strong", what, isBlock ? h("small", " block") : null), h("span.says", says),
        where(film)),
      changesOf(film, marks.changes)),
    said.text || isBusy ? h("p", { class: `said ${said.isWrong ? "wrong" : ""}`, role: "status" },
      said.text || `turn ${octal(film.highestTurn)} ..`,
      isBusy ? h("button", { id: "stop", "data-action": "stop" }, "stop") : null) : null);
}
