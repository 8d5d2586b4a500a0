// ---- files and links: the page or the script as a file, the part of an address after #, and files that are dropped; first.js
// unpacks

import { CELLS, octal, octalIn } from "../machine/places.js";
import { bytesOfText, linesIn, ofLines, untabbed } from "../machine/lines.js";
import { meaningOf, operationIn } from "../machine/words.js";
import { keptForFile } from "./kept.js";
import { Part } from "./store.js";

const KINDS = ["script", "deck", "panel"];
const COMMAND = /^\s*(SET|STEP|BACK|FORWARD|DUMP|WATCH|UNWATCH|DEADSTART|UNTIL)\b/i;
const LISTED = /^[ A-Z]{0,3} *[0-7]{4}[Bb]? +(?:[0-7]{4}[Bb]? +){1,5}(?=\S)/; // perhaps with an error flag
const LONGEST_LINK = 8000, MOST_ODD = 0.02; // letters; the part of the bytes of a text that may be no text
const textOfBytes = (bytes) => new TextDecoder("latin1").decode(bytes);

async function deflated(bytes, format) {
  const stream = new Blob([bytes]).stream().pipeThrough(new CompressionStream(format));
  const all = new Uint8Array(await new Response(stream).arrayBuffer());
  let letters = "";
  for (let at = 0; at < all.length; at += 8192) letters += String.fromCharCode(...all.subarray(at, at + 8192));
  return btoa(letters);
}

// The page with another film in it.
async function pageWith(about) {
  const text = await deflated(new TextEncoder().encode(JSON.stringify(about)), "deflate");
  return firstScript.original.replace(/(<script type="text\/plain" id="film">)[^<]*/, (_, begin) => `${begin}\n${text}\n`);
}

function saveBytes(bytes, download) {
  const href = URL.createObjectURL(new Blob([bytes], { type: "application/octet-stream" }));
  Object.assign(document.createElement("a"), { href, download }).click();
  setTimeout(() => URL.revokeObjectURL(href), 60000);
}

// The words of the lines of a file of octal numbers, without notes.
export const octalRows = (text) => (text || "").split("\n").map((line) => line.trim()).filter((line) => line && line[0] !== "*")
  .map((line) => line.split(/\s+/).map((word) => octalIn(word) ?? NaN));

// What a dropped file is, by its text: rows of octal numbers are a panel if they are twelve, else a deck; lines that begin with an
// address and words are a listing, and those with more operations than commands a source; else it is a script.
function kindOfFile(text, about) {
  const rows = octalRows(text), words = rows.flat(), lines = linesIn(text);
  const odd = [...text].filter((letter) => /[^\t\n\r\f -~\xa0-\xff]/.test(letter)).length;
  if (odd > MOST_ODD * text.length) return null;
  if (rows.length && !words.some(Number.isNaN)) return words.length === 12 ? "panel" : "deck";
  const count = (holds) => lines.filter(holds).length, commands = count((line) => COMMAND.test(line));
  if (count((line) => LISTED.test(line)) > commands) return "listing";
  return count((line) => meaningOf(about, operationIn(line))) > commands ? "source" : "script";
}

// The source that a listing has, from the first column on in which one of its lines begins.
function sourceListed(text) {
  const lines = linesIn(text).map(untabbed), heads = lines.map((line) => LISTED.exec(line)?.[0].length);
  const stars = lines.filter((line) => /^\s*\*/.test(line)).map((line) => line.indexOf("*"));
  const column = Math.min(...heads.filter(Boolean), ...stars);
  return ofLines(lines.map((line) => line.slice(column).trimEnd()));
}

// The twelve words of a panel, or null.
export function panelIn(text) {
  const words = octalRows(text).flat();
  return words.length === 12 && words.every((word) => word < CELLS) ? words : null;
}

// The texts of the files of a film.
export const filesOf = ({ files }) =>
  ({ script: "", deck: "", panel: "", ...Object.fromEntries(files.map(({ kind, bytes }) => [kind, bytes])) });

// ---- links

// What a moment and the chosen place are in an address.
export const shownOf = ({ film, chosen }, at = film.at) =>
  `moment=${octal(at)}${chosen ? `&place=${chosen.name.replace(/ /g, "+")}` : ""}`;

// A link to files of a run, and to what is shown: its letters, or null if these are too many.
export async function linkTo(files, shown) {
  const inLink = (letters) => letters.replace(/\+/g, "-").replace(/\//g, "_").replace(/=+$/, "");
  const wordOf = async ([kind, text]) => `${kind}=${inLink(await deflated(bytesOfText(text), "deflate-raw"))}&`;
  const words = await Promise.all(Object.entries(files).map(wordOf));
  const link = `${location.href.split("#")[0]}#${words.join("")}${shown}`;
  return link.length > LONGEST_LINK ? null : link;
}

// The files of a run that the address has.
export async function filesOfAddress() {
  const words = new URLSearchParams(location.hash.slice(1)), files = {};
  for (const kind of KINDS.filter((one) => words.has(one))) {
    try {
      const bytes = firstScript.bytesOf(words.get(kind).replace(/-/g, "+").replace(/_/g, "/"));
      files[kind] = textOfBytes(await firstScript.inflated(bytes, "deflate-raw"));
    } catch {
      throw new Error(`the link is cut short: its ${kind} can't be read`);
    }
  }
  return files;
}

export class Sharing extends Part {
  get name() { return this.state.exercise || "session"; }
  filesNow() { return { script: this.session.scriptToSave(), deck: this.session.files().deck, panel: this.session.files().panel }; }

  saveScript() { saveBytes(bytesOfText(this.session.scriptToSave()), this.name); }

  saveFile(at) {
    const { name, bytes } = this.session.about.files[at];
    saveBytes(bytesOfText(bytes), name);
  }

  // Whether a script begins with the one whose pictures are in this file.
  hasPictures(script) {
    const { about } = this.session;
    return Boolean(about.pictures) && script.startsWith(filesOf(about).script.slice(0, about.pictures.script));
  }

  // The page as one file: the session, the branches, the drafts, the sessions of other exercises, and what is solved.
  async savePage() {
    const { session, name } = this, { exercise, film } = this.state, now = this.filesNow();
    session.keepNow();
    const files = KINDS.filter((kind) => kind === "script" || now[kind])
      .map((kind) => ({ kind, name: kind === "script" ? name : kind, bytes: now[kind] }));
    const { instructions, ...known } = session.about, { sources, labels } = exercise ? known : film.about;
    const keeps = { exercise, tree: session.tree(), ...keptForFile() };
    const about = { ...known, ...session.given.options, sources, labels, files, again: "", opens: null, keeps };
    if (!this.hasPictures(now.script)) delete about.pictures;
    saveBytes(new TextEncoder().encode(await pageWith(about)), `${name}.html`);
  }

  async copyLink() {
    const { film, exercise } = this.state, own = this.exercises.named(exercise)?.files ?? filesOf(this.session.about);
    const others = Object.entries(this.filesNow()).filter(([kind, text]) => kind === "script" || text !== own[kind]);
    const at = exercise && film.at < film.last ? film.position[film.at] : film.at; // its script ends there
    const link = await linkTo(Object.fromEntries(others), shownOf(this.state, at));
    if (!link) return this.say("the session is too long for a link: save this file, and pass that on", true);
    try {
      await navigator.clipboard.writeText(link);
      return this.say(`copied: a link of ${link.length} (decimal) letters`);
    } catch {
      history.replaceState(null, "", `#${link.split("#")[1]}`);
      return this.say("the address of this page is the link");
    }
  }

  // Files that are dropped take the place of those of the run, in a session beside this; a source or a listing comes into the
  // editor. On the editor they are texts for the assembler.
  async takeFiles(files, isForEditor) {
    const given = {}, names = [], { exercises, session } = this, { editor } = exercises;
    for (const file of files) {
      const text = textOfBytes(new Uint8Array(await file.arrayBuffer())), kind = kindOfFile(text, session.about);
      if (!kind) return this.say(`${file.name} is no script, deck, panel or source: these are texts`, true);
      if (isForEditor) editor.setText(file.name, text);
      else if (kind === "source" || kind === "listing") editor.take(file.name, kind === "source" ? text : sourceListed(text));
      else given[kind] = text;
      if (kind in given) names.push(file.name);
    }
    if (!names.length) return null;
    const isDone = await exercises.show(names.join(" "), given);
    if (isDone) this.say(`begun anew with ${names.join(" and ")}; the session before is among the branches`);
    return isDone;
  }
}
