// ---- the card reader, the printer, the dead start panel, the watches; and what devices of one's own show

import { h, classes, keeper } from "../page/dom.js";
import { COLUMNS, four, layout, octal, range, two } from "../machine/places.js";
import { displayCode } from "../machine/words.js";
import { boxPane, number, numberAt, pane } from "./parts.js";

const LINE_END = 0o100, kept = keeper();

function reader({ film, origin }, marks) {
  const card = film.number("CARD"), column = film.number("CARD-COLUMN"), words = film.deck[card];
  const own = (kind) => number(film, marks, kind);
  if (!film.deck.length) return null;
  const isFrom = (at) => (origin || []).some((one) => one.column && one.column.card === card && one.column.column === at);
  const classOf = (at) => classes({ past: at < column, nextcolumn: words && at === column, from: isFrom(at) });
  const cells = range(COLUMNS).map((at) => h("span", { class: classOf(at) }, words ? four(words[at] || 0) : "····"));
  const text = words && kept(words, "", () => words.map((word) => displayCode(film, word)).join("").trimEnd());
  return [h("p", h("b", "Card reader"), ` on H ${two(film.about.reader)}: `, own("CARD-MODE"), ", card ", own("CARD"),
    ` of ${four(film.deck.length)}, column `, own("CARD-COLUMN")),
  words ? h("p.display", { title: text }, text) : null, h("div.card", cells)];
}

function printer(film, marks) {
  const count = film.number("SYMBOLS"), symbols = film.numbers.subarray(layout.paper, layout.paper + count);
  const text = [...symbols].map((symbol) => (symbol === LINE_END ? "\n" : film.about.symbols[symbol])).join("");
  const own = (kind) => number(film, marks, kind);
  return [h("p", h("b", "Printer"), ` on H ${two(film.about.printer)}: `, own("PAPER-MODE"), ", ", own("SYMBOLS"),
    " symbols, column ",
    own("PAPER-COLUMN")), text ? h("pre.paper", { "data-box": "", tabindex: 0, seen: count }, text) : null];
}

export function devicesPane(state, marks) {
  const { film } = state, all = film.watched();
  const watched = all.map((name) => [`${name} `, numberAt(film, marks, film.placeNamed(name)), " "]);
  return pane(state, "devices", "Devices and watches", all.length ? `${octal(all.length)} watched` : "", h("div.box.devices-box",
    h("p.watches", h("b", "Watched: "), all.length ? watched : "nothing"), reader(state, marks), printer(film, marks),
    film.panel.length ? h("p", h("b", "Dead start panel: "), h("code", film.panel.map(four).join(" "))) : null));
}

// What devices of one's own show in the script of the file, at each of its moments.
export function picturesPane(state) {
  const { film, hasPictures } = state, { pictures } = film.about, moment = film.resolve(film.at);
  if (!pictures) return null;
  const end = moment >= pictures.moments ? "this is what it showed at the end of the script" : "";
  const why = hasPictures ? end : "it is known for the script of the file alone";
  const figure = ({ name, channel, shown }) => {
    const [, seen] = (hasPictures && shown.findLast(([from]) => from <= moment)) || [0, []];
    return h("figure", h("figcaption", `${name} ${channel === null ? "of central memory" : `on channel ${two(channel)}`}`),
      why ? h("p.soft", `this page has no ${name}: ${why}`) : null,
      h("div.picture", { html: seen.map((line) => pictures.lines[line]).join("") }));
  };
  return boxPane(state, "pictures", "Devices of one's own", "", pictures.devices.map(figure));
}
