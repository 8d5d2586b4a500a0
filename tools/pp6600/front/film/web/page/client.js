// ---- the worker from the page's side: requests with their replies, and what comes to the film

import { STOP, message, wordsOf } from "../engine/protocol.js";

const LONGEST_SILENCE = 20000; // milliseconds after which the page says that the worker does not answer
const SILENT = "the simulator does not answer: wait, or open this page in another browser";

export class Client {
  // `hears` has grown(moments) of what came with a reply, moments(words) and working() of news, busy(is), fault(text), and the
  // state, which says whether a pointer is down: as long as it is, the film stays as it is. `engine` has the parts of the worker's script.
  constructor(hears, engine) {
    Object.assign(this, { hears, waiting: new Map(), latest: 0, chain: Promise.resolve() });
    this.worker = new Worker(URL.createObjectURL(new Blob(engine, { type: "text/javascript" })));
    this.worker.onmessage = ({ data }) => this.received(data);
    this.worker.onerror = ({ message }) => this.failed(`the simulator has stopped: ${message || "this browser does not start it"}`);
  }

  get isBusy() { return this.waiting.size > 0; }
  stop() { this.worker.postMessage(STOP); }

  ask(kind, words) {
    const id = ++this.latest, reply = new Promise((done) => this.waiting.set(id, done));
    this.worker.postMessage(message(kind, words, { id }));
    this.listen();
    this.hears.busy(true);
    return reply;
  }

  listen() {
    clearTimeout(this.timer);
    this.timer = this.isBusy ? setTimeout(() => this.isSilent(), LONGEST_SILENCE) : 0;
  }

  isSilent() {
    const box = document.querySelector(".opening");
    if (box) box.textContent = `${SILENT[0].toUpperCase()}${SILENT.slice(1)}.`;
    else this.hears.fault(SILENT);
  }

  // While a pointer drags, the film does not change: another moment would be under the hand.
  received(data) {
    this.chain = this.chain.then(async () => {
      while (this.hears.state.isDown) await new Promise((done) => setTimeout(done, 50));
      this.take(data);
      this.listen();
    });
  }

  take(data) {
    const words = wordsOf(data), done = this.waiting.get(data.id);
    if (!data.id) return this.hears[data.kind](words);
    this.waiting.delete(data.id);
    if (data.moments) this.hears.grown(data.moments);
    this.hears.busy(this.isBusy);
    return done(words);
  }

  failed(text) {
    for (const done of this.waiting.values()) done({ said: text, isWrong: true, isFault: true });
    this.waiting.clear();
    this.hears.fault(text);
  }
}
