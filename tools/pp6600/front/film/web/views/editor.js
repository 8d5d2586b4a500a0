// ---- the editor of a source: its messages beside their lines, its listing, and what it loads

import { h } from "../page/dom.js";
import { untabbed } from "../machine/lines.js";
import { octal, range } from "../machine/places.js";
import { lineOfNext, textOfSource } from "../machine/sources.js";
import { overwritten } from "../page/editor.js";
import { PLAIN, PROCESSOR_CHOICES, pane, select } from "./parts.js";

// The numbers of the lines, decimal, with a sign at the one that is next and a colour at those with a message.
function gutter(count, messages, next) {
  const wrong = new Map([...messages].reverse().map((one) => [one.line, one.isFault ? "bad" : "warn"]));
  return range(count).map((at) => h("span", { class: at + 1 === next ? "next" : wrong.get(at + 1) || "" },
    `${at + 1 === next ? "▶" : " "}${String(at + 1).padStart(3)}\n`));
}

function message({ line, column, text, isFault }) {
  return h("li", { class: isFault ? "wrong" : "warning" },
    h("button", { "data-line-at": `${line} ${column}` }, `${line}:${column}: ${text}`));
}

export function editorPane(state) {
  const { editor: { n, text, messages, rows, listing, texts }, film } = state, source = film.sources.get(n);
  const lines = text.split("\n");
  const isLoaded = Boolean(source) && textOfSource(source) === text.replace(/\n$/, "").split("\n").map(untabbed).join("\n");
  const words = octal(rows.reduce((sum, one) => sum + one.words.length, 0)), disabled = !rows.length, others = overwritten(state);
  const more = [select("edit-for", "processor", n, PROCESSOR_CHOICES),
    h("span", { class: isLoaded ? "good" : "soft" }, isLoaded ? "loaded" : "draft"),
    h("button", { "data-action": "load-and-run", disabled, title: "load it, and run the script again, beside this session" },
      "Run again"),
    h("button.main", { "data-action": "load", disabled, id: "load" },
      disabled ? "Load" : `Load ${words} words${others ? ` over ${octal(others)}` : ""}`)];
  const without = (name) => h("button", { "data-text": name, title: `assemble without ${name}` },
    texts.length > 1 ? `without ${name}` : "without");
  return pane(state, "editor", "Editor", more,
    texts.length ? h("p.texts", `with the names and macros of ${texts.join(", ")} `, texts.map(without)) : null,
    h("div.editing", { "data-box": "" },
      h("pre.numbers", { "aria-hidden": "true" }, gutter(lines.length, messages, isLoaded ? lineOfNext(film, source).number : 0)),
      h("textarea", { id: "source-text", wrap: "off", ...PLAIN, "aria-label": "source: Tab goes to the next field, Escape leaves", rows: lines.length + 1, value: text })),
    h("ol.messages", { "aria-label": "messages" }, messages.map(message),
      messages.some(({ isFault }) => isFault) ? null : h("li.good", `nothing is wrong: ${words} words`)),
    listing ? h("details.listing", h("summary", "Listing"), h("pre", { tabindex: 0, "aria-label": "listing" }, listing)) : null);
}
