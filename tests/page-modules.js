// page-modules.js PAGE RANDOM: runs each script and call list by the module of the page, and by the program that HURD names, with the same words and files. It
// compares output, standard error and status: of `learn`, `see` and `can` for each user alone, for all, and for nobody; of `compare` for pairs of scripts; of each other
// verb and flag for the examples. It does the same with ./hurd over node, which takes the files itself. Then it refuses memory.
"use strict";
const { mkdirSync, mkdtempSync, readFileSync, readdirSync, rmSync, writeFileSync } = require("node:fs");
const { execFile } = require("node:child_process");
const { cpus, tmpdir } = require("node:os");
const { basename, join } = require("node:path");
const [page, random] = process.argv.slice(2), html = readFileSync(page, "utf8");
const module_of_page = new WebAssembly.Module(Buffer.from(/id="module">([^<]*)</.exec(html)[1], "base64"));
let passed = 0, failed = 0;
const says = (what, good) => { if (good) passed++; else if (failed++ < 10) console.log("page: differs: " + what); };

const EISDIR = 21;

// runs the module with these words, and with files: [name, bytes], or [name, null] for a folder
function by_module(text, words, { files = [], pages, request } = {}) {
  const { exports } = new WebAssembly.Instance(module_of_page, {});
  const put = bytes => { const at = exports.room(BigInt(bytes.length + 1)); new Uint8Array(exports.memory.buffer).set(bytes, Number(at)); return [at, BigInt(bytes.length)]; };
  exports.input(...put(text));
  for (const word of words) exports.word(...put(Buffer.from(word)));
  for (const [name, bytes] of files) exports.file(...put(Buffer.from(name)), ...put(bytes || Buffer.alloc(0)), bytes ? 0 : EISDIR);
  if (pages) exports.limit(BigInt(pages));
  if (request) exports.refuse(BigInt(request));
  const status = exports.run(), kept = (at, length) => Buffer.from(new Uint8Array(exports.memory.buffer, Number(at), Number(length)));
  return { status, out: kept(exports.output(), exports.output_length()), errors: kept(exports.errors(), exports.errors_length()), pages: exports.memory.buffer.byteLength / 65536, requests: Number(exports.requested()) };
}

const run_by = (program, words, text) => new Promise(done => {
  const ran = execFile(program, words, { encoding: "buffer", maxBuffer: 1 << 28 }, (fault, out, errors) => done({ status: fault ? fault.code : 0, out, errors }));
  ran.stdin.on("error", () => {}); // it may end before it has read all
  ran.stdin.end(text);
});
const run_program = (words, text) => run_by(process.env.HURD, words, text);
const run_node = (words, text) => run_by(process.execPath, ["tools/by-node.js", page, ...words], text);

// where texts are that the program reads from a file
const folder = mkdtempSync(join(tmpdir(), "page-"));
let kept = 0;
function in_file(text) {
  const file = join(folder, `text-${++kept}`);
  writeFileSync(file, text);
  return [file, Buffer.from(text)];
}

const is_same = (one, other) => one.status === other.status && one.out.equals(other.out) && one.errors.equals(other.errors);

const runs = [];
const add = (name, text, words, { files = [], by_node = false } = {}) => runs.push({ name, text: Buffer.from(text), words, files, by_node });
const compare = (sort, name, text, everybody) => { for (const who of everybody) for (const verb of ["learn", "see", "can"]) add(name, text, [verb, ...(sort === "calls" ? ["--calls"] : []), "--", who, "-"]); };
const compare_pair = (name, one, two, everybody) => { for (const who of everybody) { const first = in_file(one); add(name, two, ["compare", "--", who, first[0], "-"], { files: [first] }); } };
const ended = { 0: 0, 1: 0, 2: 0, 3: 0 }; // how many pairs ended with each status

// as many programs at once as there are processors
async function compare_all() {
  const work = async () => {
    for (let run = runs.pop(); run; run = runs.pop()) {
      const { name, text, words, files, by_node } = run, other = await run_program(words, text), one = by_node ? await run_node(words, text) : by_module(text, words, { files });
      if (words[0] === "compare") ended[one.status]++;
      says(`${name}, ${words.map(word => String(word).slice(0, 40)).join(" ")}: status ${one.status} for ${other.status}, ${JSON.stringify(one.errors.toString().slice(0, 100))} for ${JSON.stringify(other.errors.toString().slice(0, 100))}`, is_same(one, other));
    }
  };
  await Promise.all(cpus().map(work));
}

const files = (folder, end) => readdirSync(folder, { withFileTypes: true }).filter(it => it.isFile() && it.name.endsWith(end)).map(it => join(folder, it.name)).sort();
const lines = text => text.toString("latin1").split("\n").map(line => line.split(" ").filter(word => word));

const users_of = text => ["root", ...new Set(lines(text).filter(words => words[0] === "user" && words.length > 1).map(words => words[1]))];
for (const file of [...files("examples", ".hurd"), ...files("tests/scripts", ".hurd"), ...files(random, ".hurd")]) {
  const text = readFileSync(file), users = users_of(text);
  compare("script", basename(file), text, [...users, users.join(","), "nobody", ""]);
}
for (const file of [...files("examples", ".calls"), ...files("tests/calls", ".calls")]) {
  const text = readFileSync(file), tasks = lines(text).filter(words => words[0] === "task").map((words, k) => String(k));
  compare("calls", basename(file), text, [...tasks, tasks.join(","), "64", ""]);
}

// a megabyte of comments, one byte more, scripts that are bad at the first and at the last line, and bytes that are not text
const long = "#".repeat(1048575) + "\n";
for (const text of [long, long + "\n", "nobody cat /\n", "root ls /\n".repeat(2000) + "nobody cat /", "", "\0", Buffer.from([0xff, 0xfe, 10])]) compare("script", "made by hand", Buffer.from(text), ["root"]);
for (const text of [long, long + "\n", "task 0 0\n0 io_stat", "task 0 0\n" + "0 io_stat 1\n".repeat(2000) + "0 io_stat", "", "\0", Buffer.from([0xff, 0xfe, 10])]) compare("calls", "made by hand", Buffer.from(text), ["0"]);

// names that have escapes on standard error; names as long as the buffer that the module first has for it, or longer; a text of the other sort; arguments that ask nothing
const script = readFileSync("examples/welcome.hurd"), list = readFileSync("examples/learned-cut.calls");
const names = ["a b", "<img src=x>", "root,", ",", "root,root", "\n\t\\", "\u202e\u00e9\u{1f600}", ...[4060, 4061, 100000].map(count => "x".repeat(count))];
compare("script", "welcome.hurd", script, names);
compare("calls", "learned-cut.calls", list, names);
compare("calls", "welcome.hurd", script, ["0"]);
compare("script", "learned-cut.calls", list, ["root"]);
for (const words of [[], ["learn"], ["learn", "root"], ["learn", "root", "-", "-"], ["see", "--calls", "root"], ["can", "--all", "root"], ["frob", "root", "-"], ["learns", "root", "-"], ["compare", ""], ["compare", "root", "-", "-"], ["", "", ""], ["run", "--frob", "-"], ["run", "-", "--", "-"],
  ["--help"], ["--version"], ["help"], ["help", "learn"], ["help", "frob"], ...["run", "learn", "see", "can", "draw", "compare", "sample"].map(verb => [verb, "--help"])]) {
  for (const by_node of [false, true]) add("welcome.hurd", script, words, { by_node });
}

// files: an example of each sort with each verb; one that isn't there, a folder, and texts that are too long
const here = join(folder, "a folder"), none = join(folder, "nothing here");
mkdirSync(here);
const asked = (name, text) => name.endsWith(".calls") ? [["run"], ["run", "--json"], ["draw"], ["draw", "--as", "1"], ["learn", "1"], ["see", "1"], ["can", "1"], ["can", "--all", "1"], ["learn", "--how", "1"]]
  : [["run"], ["run", "--json"], ["draw"], ["draw", "--as", users_of(text).join(",")], ["learn", "root"], ["learn", "--max-look", "300", "root"], ["run", "--max-output", "100"], ["see", "root"], ["can", "root"], ["can", "--all", "root"]];
for (const file of [...files("examples", ".hurd"), ...files("examples", ".calls")]) {
  const text = readFileSync(file);
  for (const words of asked(file, text)) add(basename(file), "", [...words, file], { files: [[file, text]] });
}
add("vote.hurd", "", ["learn", "--how", "alice", "examples/vote.hurd"], { files: [["examples/vote.hurd", readFileSync("examples/vote.hurd")]] });
const too_long = in_file(long + "\n"), far_too_long = in_file("#".repeat(1 << 22));
for (const file of ["examples/vote.hurd", "examples/pipe.calls", too_long[0], far_too_long[0], none, here]) {
  for (const words of [["run", file], ["run", "--", file], ["see", "alice", file], ["can", "alice", file], ["compare", "alice", "examples/vote.hurd", file], ["compare", "alice", file, "-"], ["draw", "--as", "alice", file]]) {
    const named = [...new Set(words)].filter(word => word === file || word.startsWith("examples/"));
    add("a file", script, words, { files: named.filter(name => name !== none).map(name => [name, name === here ? null : readFileSync(name)]) });
    add("a file, by node", script, words, { by_node: true });
  }
}
for (const words of [["sample", "7"], ["sample", "7", "40"], ["sample", "--calls", "7", "40"], ["sample", "-1"], ["sample", "x"]]) for (const by_node of [false, true]) add("a sample", "", words, { by_node });

// pairs of scripts: examples in both orders and with themselves, and each example with the next
const example = name => readFileSync(`examples/${name}.hurd`, "utf8"), with_returns = text => text.replaceAll("\n", "\r\n");
for (const [one, two] of [["secret-told", "secret-told-otherwise"], ["secret-kept-one", "secret-kept-two"], ["unseen-one", "unseen-two"], ["started-by-alice", "started-by-bob"]]) {
  const users = users_of(example(one)), everybody = [...users, users.join(","), "alice,bob", "bob,alice", "alice,alice", "nobody", "alice,nobody", "a b", "<img src=x>", ""];
  for (const [first, second] of [[one, two], [two, one], [one, one]]) compare_pair(`${second}.hurd`, example(first), example(second), everybody);
  for (const [first, second] of [[with_returns(example(one)), example(two)], [example(one), with_returns(example(two))], [example(one), example(two).slice(0, -1)], [example(one).slice(0, -1), example(two)]]) compare_pair(`${two}.hurd, with other ends of lines`, first, second, ["alice", "bob"]);
}
const names_of_examples = files("examples", ".hurd").map(file => basename(file, ".hurd"));
names_of_examples.forEach((one, k) => compare_pair(`${one}.hurd and the next`, example(one), example(names_of_examples[(k + 1) % names_of_examples.length]), ["root", "alice"]));

// other users or ids, one more command, another command, and the same command written differently; texts that are bad, empty, without commands, or too long
const good = "user alice 1000 1000\nroot mkdir /tmp\nalice ls /\nroot ls /\n", put = "user alice 1000 1000\nroot put /x ";
const others = [good.replace("1000 1000", "1001 1000"), good.replace("1000 1000", "1000 -"), good.replaceAll("alice", "amy"), good.replace("user", "user bob 1001 1001\nuser"), good.replace("alice 1000", "alice 1000,1001"), good + "alice ls /\n", good + "# alice ls /\n", good + "root ls /\n",
  good.replace("alice ls /", " alice  ls   /"), good.replace("ls /", "ls -d /"), good.replace("/tmp", "/tmq"), good + "alice frob\n", "nobody cat /\n", good + "alice cat \\q", good + "alice cat \u00e9\u{1f600}\u202e\n", with_returns(good), "", "\n", "# see\n", "\0", "user alice 1000 1000\n", long, long + "\n", good + long];
for (const other of others) {
  for (const [one, two] of [[good, other], [other, good]]) compare_pair("made by hand", one, two, ["alice", "root", "alice,root", "nobody", ""]);
  compare_pair("made by hand", other, other, ["alice", "root"]);
}
for (const [one, two] of [["one\\n", "one"], ["one", "one\\n"], ["a\\nb\\n", "b\\na\\n"], ["\\s", "\\n"], ["the\\nsecond:\\sx\\n", "|\\sx\\n"], ["EACCES\\n", "!\\sEACCES\\n"]]) compare_pair("made by hand", `${put}${one}\nalice cat /x\n`, `${put}${two}\nalice cat /x\n`, ["alice", "root"]);

// replies that differ although they print alike: a text that is the name of an error, and one name or two
compare_pair("made by hand", `${put}EACCES\\n\nalice cat /x\n`, `${put}EACCES\\n\nroot chmod 600 /x\nalice cat /x\n`, ["alice", "root"]);
compare_pair("made by hand", "user alice 1000 1000\nroot put /a\\nb x\nalice ls /\n", "user alice 1000 1000\nroot put /a x\nroot put /b x\nalice ls /\n", ["alice", "root"]);

// the script with another text in one put, and who puts it; if possible, in a put that another user reads later
function put_other(text, which) {
  const all = text.split("\n"), puts = all.flatMap((line, at) => /^[a-z0-9]+ put [^ ]+ [^ ]+$/.test(line) ? [at] : []);
  const read = puts.filter(at => { const [who, , node] = all[at].split(" "); return all.slice(at).some(line => line.endsWith(" cat " + node) && !line.startsWith(who + " ")); });
  const some = read.length ? read : puts, at = some[which % some.length];
  if (!some.length) return null;
  all[at] = all[at].replace(/[^ ]+$/, word => which % 3 ? word + "x" : "other");
  return { text: all.join("\n"), who: all[at].split(" ")[0] };
}

let changed = 0;
files(random, ".hurd").forEach((file, k) => {
  const one = readFileSync(file, "utf8"), other = changed < 100 && put_other(one, k), users = users_of(one);
  if (!other) return;
  changed++;
  compare_pair(`${basename(file)}, where ${other.who} puts another text`, one, other.text, [...users, users.filter(name => name !== other.who).join(",")]);
});
says(`${changed} random scripts were changed`, changed === 100);

// Without memory, a run has status 2, prints a beginning of the output, and says why on standard error; or it prints the whole output if it needed no more memory.
// Each request for memory in runs of some small texts is refused in turn; runs of some large texts get fewer and fewer pages.
let refused = 0;
function refuses(text, words, files, whole, how) {
  const run = by_module(text, words, { files, ...how }), line = run.errors.toString("latin1");
  const is_refused = run.status === 2 && whole.out.subarray(0, run.out.length).equals(run.out) && (line === "hurd: out of memory\n" || (!how.request && line === "hurd: cannot write\n"));
  says(`${words.map(word => word.slice(0, 40)).join(" ")} with ${JSON.stringify(how)}: status ${run.status}, ${JSON.stringify(line.slice(0, 100))}`, is_refused || is_same(run, whole));
  if (run.status === 2) refused++;
}

function refuse_memory() {
  const before = failed, bytes = "x".repeat(3000);
  const bad = good + "alice frob\n", different = good.replace("ls /", "ls -d /");
  const asked = [["examples/hello.hurd", "alice"], ["examples/union.hurd", "root"], ["examples/learned-cut.calls", "--calls", "1"]].flatMap(([file, ...words]) => ["learn", "see", "can"].map(verb => [readFileSync(file), [verb, ...words, "-"], []]));
  for (const [one, two, who] of [[example("secret-told"), example("secret-told-otherwise"), "alice,guest"], [example("started-by-alice"), example("started-by-bob"), "alice"], [good, different, "alice"], [good, bad, "alice"], [bad, good, "alice"], [good, good, "nobody"]]) asked.push([Buffer.from(two), ["compare", who, "ONE", "-"], [["ONE", Buffer.from(one)]]]);
  for (const [text, words, files] of asked) {
    const whole = by_module(text, words, { files });
    for (let request = 1; request <= whole.requests; request++) refuses(text, words, files, whole, { request });
  }
  const script = "user alice 1000 1000\n" + Array.from({ length: 250 }, (_, k) => `root put /f${k} ${bytes}\n`).join("") + "alice ls /\nalice cat /f7\n# see\n";
  const list = "task 0 0\ntask 1000 1000\n" + Array.from({ length: 120 }, (_, k) => `0 dir_lookup 1 =f${k} CREATE,WRITE 644\n0 io_write ${k + 3} =${bytes} 0\n`).join("") + "1 dir_lookup 1 = READ 0\n# see\n";
  const other = [["ONE", Buffer.from(script.replace("/f7 xx", "/f7 yy"))]];
  for (const [made, words, files] of [[script, ["learn", "alice", "-"], []], [script, ["learn", "root", "-"], []], [list, ["learn", "--calls", "1", "-"], []], [script, ["see", "alice", "-"], []], [list, ["see", "--calls", "1", "-"], []], [script, ["can", "alice", "-"], []], [list, ["can", "--calls", "1", "-"], []], [script, ["compare", "alice", "ONE", "-"], other]]) {
    const text = Buffer.from(made), whole = by_module(text, words, { files }), floor = new WebAssembly.Instance(module_of_page, {}).exports.memory.buffer.byteLength / 65536;
    says(`${words.join(" ")} with ample memory: status ${whole.status}`, whole.status === (words[0] === "compare" ? 3 : 0) && !whole.errors.length);
    for (let pages = floor + 24; pages <= whole.pages; pages += 4) refuses(text, words, files, whole, { pages });
  }
  says("memory was refused in no run", refused > 20);
  console.log(`page: memory refused ${refused} times, ${failed - before} runs ended in a wrong way`);
}

compare_all().then(() => {
  rmSync(folder, { recursive: true });
  console.log(`page: ${passed} runs like those of the program, ${failed} different; of the pairs, ${ended[0]} get the same replies, ${ended[3]} a different reply, ${ended[1]} are not comparable or bad, ${ended[2]} failed`);
  says("pairs of each sort", ended[0] > 100 && ended[3] > 30 && ended[1] > 100);
  refuse_memory();
  process.exit(failed ? 1 : 0);
});
