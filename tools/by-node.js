// by-node.js PAGE WORD..: runs the program in the page, as hurd WORD.., with the files of this machine. It wants nothing but node.
"use strict";
const fs = require("node:fs");

const MOST_TEXT = 1 << 21; // more than the program takes of a text
const MOST_RECORD = 1 << 24; // of a record, which is read whole here
const ERRORS = { ENOENT: 2, EACCES: 13, EPERM: 13, EISDIR: 21 }, OTHER = 5;
const [page, ...words] = process.argv.slice(2);

// whether a record is asked for
function is_record() {
  const end = words.indexOf("--");
  return (end < 0 ? words : words.slice(0, end)).includes("--record");
}

// at most so many first bytes of what is open; a record that is longer is refused
function read_all(file) {
  const parts = [], buffer = Buffer.alloc(1 << 16), most = is_record() ? MOST_RECORD : MOST_TEXT;
  let count = 0;
  while (count <= most) {
    let more = 0;
    try {
      more = fs.readSync(file, buffer, 0, buffer.length, null);
    } catch (error) {
      if (error.code === "EAGAIN") { Atomics.wait(new Int32Array(new SharedArrayBuffer(4)), 0, 0, 10); continue; }
      if (error.code !== "EOF") throw error;
    }
    if (!more) break;
    parts.push(Buffer.from(buffer.subarray(0, more)));
    count += more;
  }
  if (count > MOST_RECORD) end(`hurd: a record of more than ${MOST_RECORD} bytes needs a program that was built: docs/BUILDING.md\n`, 2);
  return Buffer.concat(parts);
}

// [name, bytes, error]: a file that a word names
function read_file(name) {
  let file;
  try {
    file = fs.openSync(name, "r");
    return [name, read_all(file), 0];
  } catch (error) {
    return [name, Buffer.alloc(0), ERRORS[error.code] || OTHER];
  } finally {
    if (file !== undefined) fs.closeSync(file);
  }
}

function write_all(file, bytes) {
  for (let at = 0; at < bytes.length;) {
    try {
      at += fs.writeSync(file, bytes, at);
    } catch (error) {
      if (error.code !== "EAGAIN") throw error;
      Atomics.wait(new Int32Array(new SharedArrayBuffer(4)), 0, 0, 10);
    }
  }
}

// ends with what is said and a status, as the program does
function end(said, status) {
  try { write_all(2, Buffer.from(said)); } catch { /* nobody reads it */ }
  process.exit(status);
}

// the words that may name a file: those after the verb that are no flag
function operands() {
  const rest = words.slice(1), at = rest.indexOf("--"), front = at < 0 ? rest : rest.slice(0, at);
  return [...front.filter(word => word === "-" || !word.startsWith("-")), ...(at < 0 ? [] : rest.slice(at + 1))];
}

function standard_input(names) {
  if (!names.includes("-")) return Buffer.alloc(0);
  if (process.stdin.isTTY) write_all(2, Buffer.from("hurd: reading from the terminal; Ctrl-D ends the input\n"));
  try { return read_all(0); } catch { return end("hurd: standard input: cannot read\n", 2); }
}

function run(module, names) {
  const { exports } = new WebAssembly.Instance(module, {});
  const put = bytes => {
    const at = exports.room(BigInt(bytes.length + 1));
    if (!at) end("hurd: out of memory\n", 2);
    new Uint8Array(exports.memory.buffer).set(bytes, Number(at));
    return [at, BigInt(bytes.length)];
  };
  const kept = (at, length) => Buffer.from(new Uint8Array(exports.memory.buffer, Number(at), Number(length)));
  exports.input(...put(standard_input(names)));
  for (const word of words) exports.word(...put(Buffer.from(word)));
  for (const name of new Set(names.filter(name => name !== "-"))) {
    const [, bytes, error] = read_file(name);
    exports.file(...put(Buffer.from(name)), ...put(bytes), error);
  }
  const status = exports.run();
  return { status, output: kept(exports.output(), exports.output_length()), errors: kept(exports.errors(), exports.errors_length()) };
}

const html = fs.readFileSync(page, "utf8"), module_of_page = new WebAssembly.Module(Buffer.from(/id="module">([^<]*)</.exec(html)[1], "base64"));
if (words.length > 60) end("hurd: too many words\n", 2);
const done = run(module_of_page, operands());
try { write_all(1, done.output); } catch { end("hurd: cannot write\n", 2); }
end(done.errors, done.status);
