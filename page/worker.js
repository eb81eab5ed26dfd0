// Runs the program, in a worker of the page. Each run is a fresh instance of the program's module. The module imports nothing, so a run leaves nothing
// behind, and can touch only its own memory.
"use strict";
let module;

// puts a text or an argument into the memory of an instance
function put(exports, bytes) {
  const at = exports.room(BigInt(bytes.length + 1));
  if (!at) throw new Error("no room");
  new Uint8Array(exports.memory.buffer).set(bytes, Number(at));
  return [at, BigInt(bytes.length)];
}

// {status, bytes, errors}: the exit status, standard output and standard error; also {trap} if the run could not end
function run(text, words, files) {
  const { exports } = new WebAssembly.Instance(module, {}), kept = (at, length) => new Uint8Array(exports.memory.buffer, Number(at), Number(length)).slice();
  try {
    exports.input(...put(exports, text));
    for (const word of words) exports.word(...put(exports, word));
    for (const [name, bytes] of files) exports.file(...put(exports, name), ...put(exports, bytes), 0);
    const status = exports.run();
    return { status, bytes: kept(exports.output(), exports.output_length()), errors: kept(exports.errors(), exports.errors_length()) };
  } catch (trap) {
    return { status: -1, bytes: new Uint8Array(0), errors: new Uint8Array(0), trap: String(trap.message || trap) };
  }
}

onmessage = ({ data }) => {
  if (data.module) { module = new WebAssembly.Module(data.module); return; }
  const done = run(data.text, data.words, data.files);
  postMessage({ id: data.id, ...done }, [done.bytes.buffer, done.errors.buffer]);
};
