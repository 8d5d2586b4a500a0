// ---- the state of the page, and its one way to the screen: every change of an event leads to one drawing

const AFTER = 300; // milliseconds
const NO_ROOM = "this browser keeps nothing more: save this file";

// A part of the page: what it does changes the state.
export class Part {
  constructor(store, parts) { Object.assign(this, { store, ...parts }); }

  get state() { return this.store.state; }
  get film() { return this.store.state.film; }
  update(patch) { this.store.change(patch); }
  say(text, isWrong = false) { this.store.change({ said: { text, isWrong } }); }
  keepOr(isKept) { if (!isKept) this.say(NO_ROOM, true); }

  // Keeps in the browser what has changed, when nothing more has changed for a while.
  keepSoon() {
    clearTimeout(this.timer);
    this.timer = setTimeout(() => this.keepNow(), AFTER);
  }
}

export class Store {
  constructor(state) { Object.assign(this, { state, draw: null, drawings: 0, isWaiting: false }); }

  // Changes the state. All changes of one event, or of one message of the worker, are drawn together.
  change(patch) {
    Object.assign(this.state, patch);
    if (this.isWaiting) return;
    this.isWaiting = true;
    queueMicrotask(() => {
      this.isWaiting = false;
      this.flush();
    });
  }

  flush() {
    this.drawings++;
    this.draw(this.state);
  }
}
