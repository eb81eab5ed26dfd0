// The program, run in a worker: whatever a script does, the page keeps responding, and a run can be stopped.
"use strict";
const Machine = {
  worker: null,
  waiting: new Map(),
  next: 0,
  began: 0,
  encoder: new TextEncoder(),

  block: name => document.getElementById(name).textContent,
  bytes: text => Uint8Array.from(atob(text), c => c.charCodeAt(0)),

  start() {
    const address = URL.createObjectURL(new Blob([this.block("worker")], { type: "text/javascript" }));
    this.worker = new Worker(address);
    URL.revokeObjectURL(address);
    this.worker.onmessage = ({ data }) => {
      const done = this.waiting.get(data.id);
      this.waiting.delete(data.id);
      if (done) done(data);
    };
    this.worker.onerror = event => this.stop(event.message || "the worker failed");
    this.worker.postMessage({ module: this.bytes(this.block("module")) });
  },

  // {status, bytes, errors, trap}: of the program with these words, this text as standard input, and files, as [name, text]
  run(text, words, files = []) {
    if (!this.worker) this.start();
    const id = this.next++;
    if (!this.waiting.size) this.began = Date.now();
    return new Promise(done => {
      this.waiting.set(id, done);
      const encoded = text => this.encoder.encode(text);
      this.worker.postMessage({ id, text: encoded(text), words: words.map(encoded), files: files.map(file => file.map(encoded)) });
    });
  },

  // ends runs whose results nobody needs any more, if they take long
  give_up() { if (this.waiting.size && Date.now() - this.began > 500) this.stop("another run began"); },

  // ends all runs; the next one begins with a new worker
  stop(why) {
    if (this.worker) this.worker.terminate();
    this.worker = null;
    for (const done of this.waiting.values()) done({ status: -1, bytes: new Uint8Array(0), errors: new Uint8Array(0), trap: why || "stopped" });
    this.waiting.clear();
  },
};
