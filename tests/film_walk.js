// What a page of a film shows, for tests/test_film_walk.py; evaluated in the page.

const octal = (n, digits) => n.toString(8).padStart(digits, "0"), two = (n) => octal(n, 2), range = (count) => [...Array(count).keys()];
const film = () => page.store.state.film, numberOf = (name) => film().text(film().placeNamed(name));
const sentenceOf = (n) => film().next(n).sentence;
const textsOf = (selector) => [...document.querySelectorAll(selector)].map((one) => one.textContent);

// Shows all parts of the machine, and cells of a processor from one on.
const showParts = (processor, first) => {
  const { store } = page, { state } = store;
  const memory = { ...state.memory, n: processor, first, follows: false, isHeld: true, as: "numbers" };
  store.change({ look: "debug", columns: 4, folded: new Set(), memory, room: { ...state.room, memoryRows: 16, barrelHigh: 240 * (state.room.unit || 1) }, chosen: film().placeNamed("XP 0") });
  store.flush();
};

// What is shown, as the dumps have it. A processor that is folded away is asked for from the film.
const stateOf = (processor, first) => {
  showParts(processor, first);
  const shown = (name) => document.querySelector(`.pane .n[data-place="${name}"]`)?.textContent ?? numberOf(name);
  const slot = document.querySelector(".processors tr.next").dataset.processor, paper = (document.querySelector(".paper")?.textContent ?? "").split("\n"), rest = paper.pop();
  const reader = `H ${two(film().about.reader)} CARD ${numberOf("CARD")} OF ${octal(film().deck.length, 4)} COLUMN ${numberOf("CARD-COLUMN")} MODE ${numberOf("CARD-MODE")}`;
  const printer = `H ${two(film().about.printer)} SYMBOLS ${numberOf("SYMBOLS")} COLUMN ${numberOf("PAPER-COLUMN")} MODE ${numberOf("PAPER-MODE")}`;
  const { layout, upperOf } = m_machine_places, { numbers } = film(), watched = film().watched();
  return {
    processors: range(10).map((n) => `PP ${two(n)} P ${shown(`P ${two(n)}`)} A ${shown(`A ${two(n)}`)} Q ${shown(`Q ${two(n)}`)} PHASE ${numberOf(`PHASE ${two(n)}`)} SLOT ${two(Number(slot))}`),
    waits: range(10).map((n) => document.querySelector(`.processors tr[data-processor="${n}"] .wait`).textContent.replace(/^H /, "")),
    sentences: range(10).map(sentenceOf),
    at_p: range(10).map((n) => octal(film().cell(n, film().number("P", n)), 4)),
    channels: [...range(12).map((c) => `H ${two(c)} ${shown(`STATE ${two(c)}`)} ${shown(`H ${two(c)}`)}`), `H 14 F ${shown("H 14")}`],
    frame: range(16).map((at) => `XP ${two(at)} ${textsOf(`.central [data-place="XP ${two(at)}"]`)[0] ?? "0".repeat(20)}`), // zero if not shown
    reader: [`CR ${reader}`], printer: [`LP ${printer}`, ...paper.map((line) => `|${line}`), ...(rest ? [`/${rest}`] : [])],
    watches: watched.length ? watched.map((name) => `W ${name}`) : ["W NONE"],
    window: textsOf("#cells [data-cell]"),
    cells: [...numbers.subarray(0, 40960)].flatMap((word, at) => (word ? [[at, word]] : [])),
    central: range(layout.size).filter((at) => [layout.central + at, upperOf(layout.central + at)].some((place) => numbers[place])).map((at) => [at, numberOf(`C ${octal(at, 6)}`)]),
  };
};

// The picture of the barrel.
const pictureOf = () => {
  const all = (selector) => [...document.querySelectorAll(`.barrel svg[role] ${selector}`)], texts = (one) => [...one.querySelectorAll("text")].map((text) => text.textContent);
  const channel = (one) => parseInt(texts(one)[0].slice(2), 8), moved = film().wordMoved(film().at);
  return {
    circles: all("g.pp").map(texts), acted: all("g.pp.acted").map((one) => Number(one.dataset.processor)),
    slot: all("g.pp.next").map((one) => Number(one.dataset.processor)), channels: all("g.pill").map((one) => [channel(one), ...texts(one).slice(0, 2)]),
    waits: all("path.waits").map((one) => one.dataset.waits), word: all("g.word").map((one) => [moved.channel, ...texts(one)]), head: all("text.head").map((one) => one.textContent),
  };
};

// The turns of which it says that they wait, and that did not; or the other way round.
const waitedWrongly = () => range(film().count).slice(1).filter((at) => film().isTurn(at)).filter((at) => {
  film().goTo(at - 1);
  return (film().next(film().processor[at]).waits !== "") !== (film().kinds[at] === 1);
});
