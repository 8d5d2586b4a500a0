// ---- the page: which panes a look has, and in which columns of which window

import { h } from "../page/dom.js";
import { bar, morePane } from "./bar.js";
import { barrelPane } from "./barrel.js";
import { branchesPane, consolePane } from "./console.js";
import { devicesPane, picturesPane } from "./devices.js";
import { editorPane } from "./editor.js";
import { exercisePane, projectedTask } from "./exercise.js";
import { centralPane, channelsPane, processorsPane } from "./machine.js";
import { memoryPane, originPane } from "./memory.js";
import { now } from "./now.js";
import { marksOf } from "./parts.js";
import { help, runPane, settingField } from "./run.js";
import { sourcePane } from "./source.js";
import { timeline } from "./timeline.js";

const PANES = {
  source: sourcePane, memory: memoryPane, origin: originPane, barrel: barrelPane, processors: processorsPane,
  channels: channelsPane,
  central: centralPane, devices: devicesPane, pictures: picturesPane, console: consolePane, branches: branchesPane,
  editor: editorPane,
  exercise: exercisePane, run: runPane, more: morePane,
};

// By the look and the number of columns that the window has room for.
const COLUMNS = {
  debug: {
    4: ["source editor", "memory origin central", "pictures barrel processors channels devices", "console branches run"],
    3: ["source console run", "memory origin central devices branches editor", "pictures barrel processors channels"],
    2: ["source memory origin editor", "pictures barrel processors channels central console devices branches run"],
  },
  class: {
    4: ["exercise editor", "source memory origin central", "pictures barrel processors channels devices", "console branches run"],
    3: ["exercise editor run", "memory origin console devices branches", "pictures barrel processors central channels"],
    2: ["exercise editor console run", "pictures barrel memory origin central channels processors devices branches"],
  },
};
const PROJECTED = { source: ["pictures barrel processors", "source memory"], none: ["pictures barrel processors", "memory"] };
const TABS = { debug: ["source", "memory", "processors", "console", "barrel", "devices", "branches", "editor", "more"],
  class: ["exercise", "editor", "memory", "processors", "console", "barrel", "devices", "branches", "more"] };
const TAB_NAMES = { processors: "machine", exercise: "exercises" };
// What a tab of a phone has beside its pane.
const BESIDE = { processors: ["channels", "central"], source: ["processors"], memory: ["origin"], more: ["run"],
  barrel: ["pictures"] };

const columnsOf = ({ look, columns, film }) =>
  (look === "projector" ? PROJECTED[film.sources.size ? "source" : "none"] : COLUMNS[look][columns]);

function onPhone({ look, tab }, part) {
  const tabs = TABS[look] || TABS.debug, seen = tabs.includes(tab) ? tab : tabs[0];
  const button = (name, is = name === seen) =>
    h("button", { role: "tab", "data-tab": name, "aria-selected": String(is), tabindex: is ? 0 : -1 }, TAB_NAMES[name] || name);
  return [h("nav.tabs", { role: "tablist" }, tabs.map((name) => button(name))),
    h("main.columns", h("div.column", [seen, ...(BESIDE[seen] || [])].map(part)))];
}

export function page(state) {
  const { look, isPhone, columns } = state, marks = marksOf(state), part = (name) => PANES[name](state, marks);
  const task = projectedTask(state);
  const column = (names) => h("div.column", names.map(part));
  return h("div", { class: `app ${look} ${isPhone ? "phone" : `of${columns}`}${task ? " tasked" : ""}` },
    h("header", bar(state), now(state, marks)), timeline(state), task,
    isPhone ? onPhone(state, part) : h("main.columns", columnsOf(state).map((names) => column(names.split(" ")))),
    state.setting && state.chosen ? settingField(state) : null, state.help ? help(state) : null);
}
