// ---- elements: a view describes a part of the page, and what differs from the last description is changed

const SVG = "http://www.w3.org/2000/svg", PROPERTIES = new Set(["value", "checked", "disabled", "hidden", "scrollTop"]);
const waiting = []; // what reads the page's layout, when all is written

// Describes an element by its kind with its classes, as p.soft, then its properties if it has others, and its parts. These are
// descriptions, texts, or lists of them; null, false and "" are left out.
export function h(selector, ...parts) {
  const [kind, ...names] = selector.split("."), [first] = parts;
  const own = typeof first === "object" && first !== null && !Array.isArray(first) && !first.kind ? parts.shift() : {};
  return { kind, props: names.length ? { class: names.join(" "), ...own } : own, parts: flat(parts) };
}

function flat(parts, into = []) {
  for (const part of parts) {
    if (Array.isArray(part)) flat(part, into);
    else if (part !== null && part !== undefined && part !== false && part !== "") into.push(part);
  }
  return into;
}

// Makes an element have these parts. One whose description is the same object as before stays untouched.
export function render(element, parts) {
  patch(element, flat([parts]));
  for (const act of waiting.splice(0)) act();
}

function patch(element, parts) {
  let node = element.firstChild;
  for (const part of parts) {
    if (!node || (node.localName || "") !== (part.kind || "")) node = element.insertBefore(made(element, part), node);
    if (part.kind && node.described !== part) update(node, part);
    else if (!part.kind && node.data !== String(part)) node.data = part;
    node = node.nextSibling;
  }
  while (node) {
    const next = node.nextSibling;
    node.remove();
    node = next;
  }
}

const made = (parent, { kind }) => (!kind ? document.createTextNode("")
  : document.createElementNS(kind === "svg" ? SVG : parent.namespaceURI, kind));

function update(element, description) {
  const before = element.described ? element.described.props : {}, { props, parts } = description;
  element.described = description;
  for (const name in before) if (!(name in props)) set(element, name, null);
  for (const name in props) if (before[name] !== props[name]) set(element, name, props[name]);
  if (!("html" in props) && (parts.length || element.firstChild)) patch(element, parts);
}

function set(element, name, value) {
  const isTyped = name === "value" && document.activeElement === element; // what a hand types in a field that has the focus stays
  if (name === "seen") { if (value) waiting.push(() => see(element)); } // another key: the element is to be seen in its box
  else if (name === "html") element.innerHTML = value; // of a picture, which a device of the file has drawn
  else if (PROPERTIES.has(name)) { if (!isTyped) element[name] = value ?? ""; }
  else if (value === null || value === undefined || value === false) element.removeAttribute(name);
  else element.setAttribute(name, value === true ? "" : value);
}

// Scrolls the box of an element, and no other, so that it is in the middle third if it was not seen.
function see(element) {
  const box = element.closest("[data-box]");
  if (!box) return;
  const { scrollTop, clientHeight } = box, place = element.getBoundingClientRect().top - box.getBoundingClientRect().top;
  const isBelow = place + element.offsetHeight > clientHeight - 4 && place > clientHeight / 3;
  if (place < 4 || isBelow) box.scrollTop = scrollTop + place - clientHeight / 3;
}

export const classes = (all) => Object.keys(all).filter((name) => all[name]).join(" ");

// Keeps the descriptions of objects, each as long as its key stays the same.
export function keeper() {
  const kept = new WeakMap();
  return (object, key, describe) => {
    if (kept.get(object)?.key !== key) kept.set(object, { key, part: describe() });
    return kept.get(object).part;
  };
}
