// page-browser.js PAGE BROWSER [FOLDER]: opens the page from a file, in a browser without a network. It steps through scripts, compares scripts, and checks what
// the page shows against `hurd learn`, `hurd see` and `hurd compare` of the program that HURD names. With a folder, pictures of the page are kept there.
"use strict";
const { readFileSync, writeFileSync, mkdtempSync, rmSync } = require("node:fs");
const { spawn, spawnSync } = require("node:child_process");
const { join, resolve } = require("node:path");
const { tmpdir } = require("node:os");
const [page, browser, folder] = process.argv.slice(2), address = "file://" + resolve(page);
let passed = 0, failed = 0;
const says = (what, good) => { if (good) passed++; else if (failed++ < 10) console.log("page: in a browser: " + what); };

// a browser that takes its commands from a pipe
function start() {
  const own = mkdtempSync(join(tmpdir(), "page-"));
  const ran = spawn(browser, ["--headless=new", "--no-sandbox", "--disable-gpu", "--proxy-server=127.0.0.1:1", "--remote-debugging-pipe", "--user-data-dir=" + own], { stdio: ["ignore", "ignore", "ignore", "pipe", "pipe"] });
  const waiting = new Map();
  let next = 1, left = "";
  ran.stdio[4].on("data", bytes => {
    const said = (left + bytes).split("\0");
    left = said.pop();
    for (const text of said) { const answer = JSON.parse(text), done = waiting.get(answer.id); waiting.delete(answer.id); if (done) done(answer); }
  });
  const ask = (method, params = {}, sessionId = undefined) => new Promise((done, fail) => {
    const id = next++;
    waiting.set(id, answer => answer.error ? fail(new Error(method + ": " + answer.error.message)) : done(answer.result));
    ran.stdio[3].write(JSON.stringify({ id, method, params, sessionId }) + "\0");
  });
  // its folder goes with it, once its other processes have ended
  const stop = async () => {
    await new Promise(done => { ran.on("exit", done); ran.kill("SIGKILL"); });
    for (let k = 0; k < 100; k++) { try { return rmSync(own, { recursive: true, force: true }); } catch { await sleep(100); } }
    console.log("page: in a browser: " + own + " is left");
  };
  return { ask, stop };
}

const sleep = ms => new Promise(done => setTimeout(done, ms));

function program(sort, text, who, verb = "learn") {
  const { stdout, stderr } = spawnSync(process.env.HURD, [verb, ...(sort === "calls" ? ["--calls"] : []), who, "-"], { input: text, maxBuffer: 1 << 28 });
  return { out: stdout.toString(), errors: stderr.toString() };
}

// what the program prints when it compares two scripts, and its status
function compare_program(one, two, who) {
  const room = mkdtempSync(join(tmpdir(), "pair-")), files = [join(room, "one"), join(room, "two")];
  writeFileSync(files[0], one);
  writeFileSync(files[1], two);
  const { stdout, status } = spawnSync(process.env.HURD, ["compare", who, ...files], { maxBuffer: 1 << 28 });
  rmSync(room, { recursive: true });
  return { out: stdout.toString(), status };
}

// a name that goes on on the next line is shown as one name
const as_one_name = text => text.replaceAll("\n: ", "\u21b5");

// the paragraphs of an output: the lines of the reply, from the command on, with their marks; and what is learned
function paragraphs(out) {
  return out.split("\n\n").slice(0, -1).map(text => { const lines = as_one_name(text).split("\n"); return { lines: lines.filter(line => !line.startsWith("  ")), learned: lines.filter(line => /^  [^ ].* learns?: /.test(line)) }; });
}

// two scripts: the tab shows what `hurd compare` prints, and leads to its lines
async function beside({ value, open, ready, size }) {
  const example = name => readFileSync(join("examples", name + ".hurd"), "utf8"), is_same = (one, other) => JSON.stringify(one) === JSON.stringify(other);
  const click = async of => { await value(`document.querySelector(${JSON.stringify(of)}).click()`); return ready(); };
  const chosen = () => value(`[...document.querySelectorAll("#who input:checked")].map(input => input.value).join()`);
  const edit = async text => { await value(`{ const box = document.getElementById("text"); box.value = ${JSON.stringify(text)}; box.dispatchEvent(new Event("input")); document.body.dataset.ready = "no"; }`); return ready(); };
  const look = async (...users) => { await value(`Page.who = new Set(${JSON.stringify(users)}); Page.show()`); return ready(); };
  // what the tab says: the verdict, why, the report as the program prints it, and whether no text became a part of the page
  const says_now = () => value(`(() => {
    const all = of => [...document.querySelectorAll(of)], text = it => it ? it.textContent : "", part = side => [...side.querySelectorAll(".command, .line")].map(text).join("\\n") + "\\n";
    const [seen, replies] = all("#report > p:not(.sum)").map(text), head = text(document.querySelector("#verdict strong")), sides = all("#report figure");
    const report = seen + "\\n" + all("#report .seen li").map(line => "  " + text(line) + "\\n").join("") + (replies || head) + "\\n" + sides.map((side, k) => ["the first: ", "the second: "][k] + part(side)).join("");
    return { head, kind: document.getElementById("verdict").className, why: text(document.querySelector("#verdict p")), report, shown: text(document.getElementById("beside")), clean: window.hit === undefined && !all("main img, main script").length };
  })()`);
  const is_compared = async (what, one, two) => {
    const who = await chosen(), { out, status } = compare_program(one, two, who), now = await says_now();
    says(`${what}, ${who}: ${JSON.stringify({ ...now, shown: undefined })} for ${status}: ${out}`, now.report === as_one_name(out) && (status === 0 ? now.kind === "same" && / gets? the same replies$/.test(now.head) : status === 3 && now.kind === "different" && / gets? a different reply$/.test(now.head)) && now.head.startsWith(who + " ")
      && (now.why === "What is seen differs, but no command here shows it.") === (status === 0 && one !== two && !/^[^ ]+ sees? the same\n/.test(out)));
  };
  const is_not_compared = async (what, head, why, below = "") => {
    const now = await says_now();
    says(`${what}: ${JSON.stringify({ ...now, shown: undefined })}`, now.kind === "none" && now.head === head && now.why === why && now.shown.includes(below) && now.clean && await value(`!document.querySelector("#report figure, #report .seen")`));
  };

  // nothing kept, and the keys of the tabs
  await open("example=secret-told.hurd");
  const key = (from, name) => value(`(() => { const tab = document.getElementById("tab-${from}"); tab.focus(); tab.dispatchEvent(new KeyboardEvent("keydown", { key: "${name}", bubbles: true })); return [document.activeElement.id, ...["told", "sees", "beside"].filter(id => !document.getElementById(id).hidden)].join(); })()`);
  says("the keys of the tabs", is_same([await key("told", "ArrowLeft"), await key("beside", "ArrowRight"), await key("told", "ArrowRight"), await key("sees", "ArrowRight")], ["tab-beside,beside", "tab-told,told", "tab-sees,sees", "tab-beside,beside"]));
  says("nothing is kept", await value(`!document.getElementById("what-for").hidden && document.querySelectorAll("#pairs button").length === 4 && document.getElementById("let-go").hidden && document.getElementById("first").hidden && !document.getElementById("verdict").hasChildNodes() && !document.getElementById("report").hasChildNodes()`));

  // kept: compared with itself, with another example and with an edited text, for the chosen users
  const [one, two] = [example("secret-told"), example("secret-told-otherwise")];
  await click("#keep");
  await is_compared("a script beside itself", one, one);
  says("the page says that a script is compared with itself", (await says_now()).why.startsWith("Both scripts are the same"));
  await value(`Page.pick("secret-told-otherwise.hurd")`);
  for (const users of [["alice"], ["guest"], ["root"], ["alice", "guest"], ["root", "alice", "guest"]]) { await look(...users); await is_compared("secret-told and secret-told-otherwise", one, two); }
  await look("bob");
  await is_not_compared("another command", "These two are not comparable", "The command at line 7 of the second differs from the one at line 7 of the first.", "The commands of others may differ.");
  await look("alice");
  await edit(two.replace("put /tmp/x two", "put /tmp/y two"));
  await is_compared("an edited script", one, two.replace("put /tmp/x two", "put /tmp/y two"));
  for (const [what, text, head, why, below] of [
    ["another command", two.replace("alice cat", "alice ls"), "These two are not comparable", "The command at line 9 of the second differs from the one at line 9 of the first."],
    ["one command less", two.replace("alice chmod 666 /tmp/x\n", ""), "These two are not comparable", "The command at line 16 of the second differs from the one at line 13 of the first."],
    ["the last command less", two.replace(/alice cat \/tmp\/x\n(?=guest cat \/tmp\/x\nbob chmod 8)/, ""), "These two are not comparable", "The second lacks the command at line 17 of the first."],
    ["one command more", two + "alice ls /\n", "These two are not comparable", "The first lacks the command at line 20 of the second."],
    ["other users", two.replace("user guest - -", "user guest 7 -"), "These two are not comparable", "The users of the second, or their ids, differ from those of the first."],
    ["a bad second", two + "alice frob <img\\ssrc=x\\sonerror=window.hit=1>\n", "The second script can\u2019t be run", "Line 20 of the second: no such command.", "alice frob <img\\\\ssrc=x\\\\sonerror=window.hit=1>"],
    ["a second that is too long", "#".repeat(1048577), "The second script can\u2019t be run", "Longer than 1048576 bytes."],
  ]) { await edit(text); await is_not_compared(what, head, why, below); }

  // lines lead there, and the report stays as it is
  await value(`Page.open(${JSON.stringify(two)}, "script", ["alice"])`);
  const led = side => value(`(async () => { const buttons = [...document.querySelectorAll("#report .leads")], button = buttons.find(it => it.getAttribute("aria-label") === "line 11 of the ${side}"); button.focus(); await button.onclick(); return [buttons.length, document.activeElement === button, [...document.querySelectorAll(${side === "first" ? '"#first-text b"' : '"#marks b"'})].findIndex(line => line.className === "now"), document.getElementById("first").open].join(); })()`);
  says("a line of the second", await led("second") === "4,true,10,false" && await value(`document.getElementById("at").value`) === "7");
  says("a line of the first", await led("first") === "4,true,10,true");

  // call lists are not compared; the first is discarded
  await value(`Page.pick("learned-pipe.calls")`);
  const list = await says_now();
  says("a list: " + JSON.stringify(list), list.head === "Call lists cannot be compared" && /compares scripts/.test(list.why) && await value(`document.getElementById("keep").disabled && !document.getElementById("let-go").hidden`));
  await value(`Page.pick("secret-told-otherwise.hurd")`);
  await is_compared("a script after a list", one, two);
  await click("#let-go");
  says("the first is discarded", await value(`Beside.first === null && !document.getElementById("what-for").hidden && document.getElementById("first").hidden && !document.getElementById("verdict").hasChildNodes() && !document.getElementById("report").hasChildNodes() && document.activeElement.id === "keep" && !document.getElementById("beside").textContent.includes("alice cat /tmp/x")`));

  // pairs of the examples
  for (const [k, first, second] of [[1, "secret-told", "secret-told-otherwise"], [2, "secret-kept-one", "secret-kept-two"], [3, "unseen-one", "unseen-two"], [4, "started-by-alice", "started-by-bob"]]) {
    await click(`#pairs li:nth-child(${k}) button`);
    says(`the pair ${first}`, await value(`$("example").value`) === second + ".hurd" && (await says_now()).shown.includes(`First: ${first.replaceAll("-", " ")}, `) && await chosen() === "alice");
    await is_compared("a pair of the examples", example(first), example(second));
    await click("#let-go");
  }

  // a bad first, somebody who isn't in it, and markup in texts and names
  await value(`Page.open("root ls /\\nroot frob <img src=x onerror=window.hit=1>\\n", "script", ["root"])`);
  await click("#keep");
  await is_not_compared("a bad first, kept", "The first script can\u2019t be run", "Line 2 of the first: no such command.", "root frob <img src=x onerror=window.hit=1>");
  await value(`Page.pick("welcome.hurd")`);
  await is_not_compared("a bad first", "The first script can\u2019t be run", "Line 2 of the first: no such command.");
  await value(`Page.open("root ls /\\n", "script", ["root"])`);
  await click("#keep");
  await value(`Page.open("user alice 1000 1000\\nroot ls /\\nalice ls /\\n", "script", ["alice"])`);
  await is_not_compared("somebody who isn't in the first", "The two were not compared", "The first has no user alice.");
  await look("root", "alice");
  await is_not_compared("some who aren't in the first", "The two were not compared", "The first lacks one of these users: root,alice.");
  const image = "<img\\ssrc=x\\sonerror=window.hit=1>", marked = text => `user alice 1000 1000\nroot mkdir /${image}\nroot put /${image}/x ${text}\nroot settrans -a /h /hurd/hello --contents=${text}\n# <img src=x onerror=window.hit=1>\nalice cat /${image}/x\nalice ls /${image}\nalice cat /<script>window.hit=1</script>\n`;
  await value(`Page.open(${JSON.stringify(marked(image + "\\n"))}, "script", ["alice"])`);
  await click("#keep");
  await value(`document.getElementById("first").open = true`);
  for (const text of [marked(image + image + "\\n"), marked(image), marked("</script><script>window.hit=1</script>"), marked(image + "\\n").replace(`ls /${image}`, `ls -d /${image}`), marked(image + "\\n").replace("alice ls", "alice <img/src=x/onerror=window.hit=1>")]) {
    await edit(text);
    const now = await says_now(), { out, status } = compare_program(marked(image + "\\n"), text, "alice");
    says(`markup: ${JSON.stringify({ ...now, shown: undefined })}`, now.clean && now.shown.includes("onerror=window.hit=1") && (status === 1 ? now.kind === "none" : now.report === as_one_name(out)));
  }
  await value(`Page.open("root ls /\\u001b\\u202e\\u0007\\n", "script", ["root"])`);
  await click("#keep");
  says("control characters in the first", !/[\u0007\u001b\u202e]/.test((await says_now()).shown));

  // in a narrow window nothing goes beyond its edge
  await size(390, 844, false);
  await open("example=welcome.hurd");
  await click("#tab-beside");
  const overflow = () => value(`[document.documentElement.scrollWidth > innerWidth, document.getElementById("beside").scrollWidth > document.getElementById("beside").clientWidth].join()`);
  says("narrow, nothing kept", await overflow() === "false,false");
  for (const k of [1, 2, 3, 4]) { await click(`#pairs li:nth-child(${k}) button`); says(`narrow, pair ${k}`, await overflow() === "false,false"); await click("#let-go"); }
  await size(1280, 800, false);
}

async function main() {
  const { ask, stop } = start();
  try {
    const { targetId } = await ask("Target.createTarget", { url: "about:blank" }), { sessionId } = await ask("Target.attachToTarget", { targetId, flatten: true });
    const command = (method, params) => ask(method, params, sessionId);
    const value = async text => { const done = await command("Runtime.evaluate", { expression: text, awaitPromise: true, returnByValue: true }); if (done.exceptionDetails) throw new Error(text + ": " + JSON.stringify(done.exceptionDetails.exception)); return done.result.value; };
    const ready = async () => { for (let k = 0; k < 3000; k++) { const said = await value("document.body && document.body.dataset.ready"); if (said && said !== "no") return said; await sleep(20); } return "never"; };
    await command("Page.enable");
    await command("Runtime.enable");
    const open = async words => { await command("Page.navigate", { url: "about:blank" }); await command("Page.navigate", { url: address + "#" + words }); return ready(); };
    const size = (width, height, dark) => Promise.all([command("Emulation.setDeviceMetricsOverride", { width, height, deviceScaleFactor: 1, mobile: width < 600 }), command("Emulation.setEmulatedMedia", { features: [{ name: "prefers-color-scheme", value: dark ? "dark" : "light" }] })]);
    const shoot = async name => { if (folder) writeFileSync(join(folder, name + ".png"), Buffer.from((await command("Page.captureScreenshot", { format: "png" })).data, "base64")); };

    // steps: after each command of some examples, the texts and the picture are those of the program
    await size(1280, 800, false);
    for (const [file, who] of [["learned-secret.hurd", "alice"], ["learned-target.hurd", "bob"], ["union.hurd", "alice"], ["learned-programs.hurd", "alice"], ["learned-pipe.calls", "1"]]) {
      const text = readFileSync(join("examples", file), "utf8"), sort = file.endsWith(".calls") ? "calls" : "script", printed = paragraphs(program(sort, text, who).out);
      says(file + ": is " + await open(`example=${file}&who=${who}`), await ready() === "yes");
      const shown = await value(`[...document.querySelectorAll("#told .part")].map(part => ({ learned: [...part.querySelectorAll(".learned")].map(line => line.textContent), lines: [part.querySelector(".command"), ...part.querySelectorAll(".line")].map(line => line.textContent) }))`);
      says(file + ": as many paragraphs", shown.length === printed.length);
      const is_same = (one, other) => JSON.stringify(one) === JSON.stringify(other);
      printed.forEach(({ lines, learned }, k) => says(`${file}: paragraph ${k + 1}`, shown[k] && is_same(shown[k].learned, learned.map(line => line.slice(2))) && is_same(shown[k].lines, lines)));
      const commands = text.split("\n").map((line, at) => ({ line, at })).filter(({ line }) => !/^ *(#.*)?$/.test(line) && !/^ *(user|task) /.test(line));
      for (let at = 1; at <= commands.length; at++) {
        await value(`Page.go(${at})`);
        const upto = text.split("\n").slice(0, commands[at - 1].at + 1).filter(line => !/^# (see|from here)$/.test(line)).join("\n") + "\n", seen = program(sort, upto, who, "see").out.split("\n").filter(line => line);
        const rows = await value(`[...document.querySelectorAll("#sees tbody tr")].map(row => row.children[0].textContent + ": " + row.children[1].textContent)`);
        says(`${file}, after ${at}: everything that is seen`, JSON.stringify(rows) === JSON.stringify(seen.map(line => line.replace(/^  [^:]* sees?: /, ""))));
        const drawn = await value(`document.querySelectorAll("#picture .node.open, #picture .node.rim").length`), nodes = seen.filter(line => /sees?: [/(]/.test(line) && !/^[^:]*: [^:]*\(server\): /.test(line)).length;
        says(`${file}, after ${at}: ${drawn} nodes are coloured, of ${nodes} seen`, drawn === nodes);
      }
    }

    // a refusal differs from every text, also without colour; a name with a newline is shown as one name
    const signs = "user alice 1000 1000\nroot put /a EACCES\\n!\\sEACCES\\n\\s\\sRefused\\sEACCES\nroot put /a\\nb\\n x\nroot put /b secret\nroot chmod 600 /b\nalice cat /a\nalice cat /b\nalice cat\nalice ls /\n";
    await open(`script=${Buffer.from(signs).toString("base64url")}&who=alice`);
    const lines_of = k => value(`[...document.querySelectorAll("#told .part")][${k}].innerText.split("\\n").slice(1).join("/") + [...document.querySelectorAll("#told .part")][${k}].querySelectorAll(".refused").length`);
    const [of_text, of_refusal, of_usage, of_names] = [await lines_of(4), await lines_of(5), await lines_of(6), await lines_of(7)];
    says(`signs: ${JSON.stringify([of_text, of_refusal, of_usage, of_names])}`, of_text === "| EACCES/| ! EACCES/|   Refused EACCES/\\ no newline0" && of_refusal === "! EACCES1" && of_usage === "! usage/The command is: cat NODE. A space within a word is \\s.1" && of_names === "| a/| a\u21b5b\u21b5/| b0");
    await open(`list=${Buffer.from("task 0 0\ntask 1 1\n1 dir_mkdir 1 =d 755\n0 dir_mkdir 1 =\\s\\sRefused\\sEACCES 755\n0 dir_lookup 1 = READ 0\n0 dir_readdir 3\n").toString("base64url")}&who=0`);
    says("signs of a call list", await value(`[...document.querySelectorAll("#told .refused")].map(line => line.textContent).join()`) === "|   Refused EACCES" && (await value(`document.getElementById("told").textContent`)).includes("Refused\\sEACCES"));

    // a bad text is reported at its line, and nothing in a text becomes a part of the page
    const fault = async (text, sort = "script") => { await open(`${sort}=${Buffer.from(text).toString("base64url")}`); return [await value("document.body.dataset.ready"), await value(`document.getElementById("fault").textContent`)]; };
    const bad = [["nobody cat /\n", 1], ["root ls /\nroot ls /\nnobody cat /", 3], ["root cat \\q\n", 1], ["root ls /\n<img\\ssrc=x\\sonerror=window.hit=1> <img src=x onerror=window.hit=1>\n", 2], ["task 0 0\n0 io_stat", 2, "list"], ["task 0 0\n0 <img/src=x/onerror=window.hit=1>\n", 2, "list"]];
    for (const [text, at, sort] of bad) {
      const [is, why] = await fault(text, sort), said = new RegExp(`^hurd: standard input:${at}: (bad ${sort ? "call list" : "script"}: .*)`).exec(program(sort ? "calls" : "script", text, sort ? "0" : "root").errors);
      says(`a bad line ${at}: ${is} ${why}`, is === "bad" && said && why.startsWith(`Line ${at}: ${said[1]}`) && why.endsWith(text.split("\n")[at - 1]) && await value(`[...document.querySelectorAll("#marks b")].findIndex(line => line.className === "bad")`) === at - 1);
      says("markup in a bad line was run", await value(`window.hit === undefined && document.querySelectorAll("#right img, #left img").length === 0`));
    }
    for (const text of ["root put /<img\\ssrc=x\\sonerror=window.hit=1> <script>window.hit=1</script>\nroot cat /<img\\ssrc=x\\sonerror=window.hit=1>\nroot ls /\n", "root put /x </script><script>window.hit=1</script>\nroot cat /x\n"]) {
      await fault(text);
      says("markup was run", await value(`window.hit === undefined && document.querySelectorAll("#right img, #right script, #left img").length === 0`));
      says("markup is shown", (await value(`document.getElementById("told").textContent`)).includes("window.hit=1"));
    }
    await fault("task 0 0\n0 dir_mkdir 1 =\\x1b[31m\\xe2\\x80\\xae\\xff 755\n0 dir_lookup 1 = READ 0\n0 dir_readdir 3\n", "list");
    says("control characters", !/[\u001b\u202e]/.test(await value("document.body.textContent")));
    await fault("root ls /\nroot cat \u202e\u001b \\q\n");
    says("control characters in a bad line", !/[\u001b\u202e]/.test(await value(`document.getElementById("fault").textContent`)));
    const reason = await value(`Page.fault({ status: 1, errors: new TextEncoder().encode("hurd: standard input:2: bad script: <b>a reason</b>\\n  root frob\\n") }, "root ls /\\nroot frob\\n") + document.getElementById("fault").textContent`);
    says("a reason of a bad line: " + reason, reason === "falseLine 2: bad script: <b>a reason</b>.root frob" && await value(`document.querySelectorAll("#left b.bad").length === 1 && document.querySelectorAll("#fault b").length === 0`));
    says("a list without tasks", JSON.stringify(await fault("", "list")) === JSON.stringify(["bad", "There is no task."]) && program("calls", "", "").errors === "hurd: standard input: no such task: \n");
    await value(`Page.open("#".repeat(1048577), "script", ["root"])`);
    says("a text that is too long", (await value(`document.getElementById("fault").textContent`)) === "Longer than 1048576 bytes." && await value(`document.querySelectorAll("#marks b.bad").length === 0`));
    for (const [sort, text, who] of [["script", "root ls /\n", "amy"], ["script", "root ls /\n", "<img src=x onerror=window.hit=1>"], ["calls", "task 0 0\n0 io_stat 1\n", "7"]]) {
      const ran = await value(`Machine.run(${JSON.stringify(text)}, ${JSON.stringify(["learn", ...(sort === "calls" ? ["--calls"] : []), "--", who, "-"])}).then(run => [run.status, new TextDecoder().decode(run.errors), Page.fault(run, ""), document.getElementById("fault").textContent])`), { errors } = program(sort, text, who);
      says(`somebody who isn't in the text: ${ran}`, ran[0] === 1 && ran[1] === errors && !ran[2] && errors === `hurd: standard input: ${ran[3][0].toLowerCase()}${ran[3].slice(1, -1)}\n`);
      says("somebody of the address who isn't in the text: " + who, await open(`${sort === "calls" ? "list" : "script"}=${Buffer.from(text).toString("base64url")}&who=${encodeURIComponent(who)}`) === "yes" && (await value(`document.getElementById("status").textContent`)).includes(`${who} isn't in the `) && await value(`document.querySelectorAll("#who input:checked").length === 1`));
      says("markup in a name was run", await value(`window.hit === undefined && document.querySelectorAll("#right img, #left img").length === 0`));
    }
    // what is shown at a command is that command's, whatever stands in comments, and however tasks are written
    const owns = () => value(`[...document.querySelectorAll("#told .part.own .command")].map(button => button.textContent).join("/")`);
    const parts = () => value(`document.querySelectorAll("#told .part").length`);
    await open(`script=${Buffer.from("user alice 1000 1000\nuser bob 1001 1001\n# a comment\u2028of two lines\n# another\u2029one\nroot mkdir /tmp\nroot chmod 1777 /tmp\nbob put /tmp/x secret\nalice cat /tmp/x\nbob chmod 600 /tmp/x\nalice  ls   -d /tmp/x \n").toString("base64url")}&who=alice&at=5`);
    says(`separators in comments: ${await owns()}`, await value("document.body.dataset.ready") === "yes" && await owns() === "alice$ cat /tmp/x/alice$ ls   -d /tmp/x" && await parts() === 6);
    says("separators in comments: what is seen after chmod", !(await value(`document.getElementById("sees").textContent`)).includes("secret"));
    await open(`list=${Buffer.from("task 0 0\n\\x74ask 1000 1000\n0 dir_mkdir 1 =tmp 777\n\\x31 io_stat 1\n001 io_stat 1\n").toString("base64url")}&who=1`);
    says(`tasks by escapes: ${await owns()}`, await value("document.body.dataset.ready") === "yes" && await owns() === "\\x31 io_stat 1/001 io_stat 1" && await parts() === 3 && await value(`document.querySelectorAll("#who input").length`) === 2);
    says("the owner is the user with that least uid", await value(`JSON.stringify([...Read.lines("user mallory 1000,5 1000\\nuser alice 1000 1000\\n", false).users])`) === '[["root","0"],["mallory","5"],["alice","1000"]]');
    says("replies of other commands are not shown", await value(`(() => { const { commands } = Read.lines("root ls /\\nroot ls -d /\\n", false), { paragraphs } = Read.output("root$ ls /\\n\\nroot$ ls -d /\\n| x\\n\\nlast\\n"); return Read.agrees(paragraphs, commands) && !Read.agrees(paragraphs.slice(1), commands) && !Read.agrees([...paragraphs].reverse(), commands) && !Read.agrees([], commands); })()`));
    const shown_so = async change => { await open("example=welcome.hurd&who=alice&at=1"); await value(`${change}; Page.show()`); return value("document.body.dataset.ready"); };
    says("what is seen finds no memory", await shown_so(`{ const run = Page.run; Page.run = (verb, ...words) => verb === "see" ? Promise.resolve({ status: 2, bytes: new Uint8Array(), errors: new TextEncoder().encode("hurd: out of memory\\n") }) : run(verb, ...words); }`) === "bad" && /memory/.test(await value(`document.getElementById("fault").textContent`)) && !(await value(`document.getElementById("right").textContent`)).includes("Nothing has been done yet"));
    says("paragraphs that don't agree are not shown", await shown_so("Read.agrees = () => false") === "bad" && await parts() === 0 && /which reply/.test(await value(`document.getElementById("fault").textContent`)));
    await fault("root ls /\nroot cat a\u00ad\u180e\u2800\u3164\u{e0041}b\n");
    says("hidden characters in a bad line", (await value(`document.getElementById("fault").textContent`)).endsWith("root cat a\\u{ad}\\u{180e}\\u{2800}\\u{3164}\\u{e0041}b"));
    says("a broken address", await open("script=%%%") === "yes" && /incomplete/.test(await value(`document.getElementById("status").textContent`)));
    await open("example=learned-secret.hurd");
    await value(`document.getElementById("text").value = document.getElementById("text").value.replace(/alice/g, "amy"); Page.show()`);
    says("a user who is removed while she is chosen", await value(`[...document.querySelectorAll("#who input")].map(input => input.value).join()`) === "root,amy,bob");

    await beside({ value, open, ready, size });

    // the page opens on the first example, after the first command that follows `# from here`; links in its head lead to its foot, and leave the address as it is
    await open("");
    const first = await value(`JSON.stringify([document.getElementById("example").value, document.getElementById("place").textContent, document.querySelector("#told .now .command").textContent])`);
    says("the first step: " + first, first === JSON.stringify(["vote.hurd", "after 6 of 11: alice$ cat /tmp/vote", "alice$ cat /tmp/vote"]));
    for (const id of ["proved", "not-proved"]) says("a link to " + id, await value(`(() => { const hash = location.hash; document.querySelector('nav a[href="#${id}"]').click(); return location.hash === hash && document.activeElement.id === "${id}" && window.scrollY > 0; })()`));
    await value("window.scrollTo(0, 0)");

    // each step of the lecture: its texts, its script, where it opens, and its answer
    const lecture = JSON.parse(readFileSync("page/lecture.json", "utf8")).steps, bare = text => (text || "").replace(/`|\*\*/g, "");
    for (const [k, step] of lecture.entries()) {
      const text = step.script || readFileSync(`examples/${step.example}.hurd`, "utf8"), is_shown = await open("lecture=" + k) === "yes";
      const shown = await value(`JSON.stringify([[...document.querySelectorAll("#step-text p")].map(it => it.textContent), document.getElementById("question").textContent, document.getElementById("text").value])`);
      const at = Number(await value(`document.getElementById("at").value`)), last = Number(await value(`document.getElementById("at").max`));
      await value(`document.getElementById("answer-button").click()`);
      const answer = await value(`document.getElementById("answer").hidden ? "" : document.querySelector("#answer p:last-child").textContent`);
      says(`step ${k} of the lecture`, is_shown && shown === JSON.stringify([step.text.map(bare), bare(step.question), text]) && at === (step.at === undefined ? last : step.at) && at <= last && answer === bare(step.answer));
    }
    await open("");

    // by which command it could be found out, as `hurd learn --how` prints it
    for (const [name, who] of [["vote", "alice"], ["learned-secret", "alice"], ["learned-server", "alice"]]) {
      const text = readFileSync(`examples/${name}.hurd`, "utf8"), told = spawnSync(process.env.HURD, ["learn", "--how", who, "-"], { input: text }).stdout.toString().split("\n").filter(line => line.startsWith("    ")).map(line => line.slice(4));
      await open(`example=${name}.hurd&who=${who}`);
      await value(`document.getElementById("how").click()`);
      await ready();
      const shown = await value(`[...document.querySelectorAll("#told .found")].map(line => line.textContent)`);
      says(`how ${who} could find out, in ${name}: ${JSON.stringify(shown).slice(0, 300)}`, told.length > 2 && JSON.stringify(shown) === JSON.stringify(told));
      await value(`document.getElementById("how").click()`);
      says("and without", await ready() === "yes" && await value(`document.querySelectorAll("#told .found").length`) === 0);
    }

    // what others see and she doesn't; the keys; a text that was edited, and a user who is gone for a while
    await open("example=learned-secret.hurd&who=alice");
    says("what is not seen", await value(`[...document.querySelectorAll("#sees li")].map(it => it.firstChild.textContent).join()`) === "/home/bob/diary");
    await open("example=two-keys.hurd&who=alice");
    const letter = "with bob and carol, or with carol and dave, or with root", shows = await value(`JSON.stringify({
      listed: [...document.querySelectorAll("#sees li")].filter(it => it.firstChild.textContent === "/home/bob/carol/letter").flatMap(it => [...it.querySelectorAll(".could")].map(part => part.textContent.split("; ")[0])),
      marked: document.querySelector('[data-path="/home/bob/carol/letter"]').getAttribute("class"), titled: document.querySelector('[data-path="/home/bob/carol/letter"] title').textContent,
      seen: document.querySelector('[data-path="/home"]').getAttribute("class") })`);
    says("what could be shown: " + shows, JSON.stringify(JSON.parse(shows).listed) === JSON.stringify([`bytes: ${letter}`, `attributes: ${letter}`]) && JSON.parse(shows).marked === "node unseen could"
      && JSON.parse(shows).titled.includes(`\nbytes could be shown ${letter}`) && JSON.parse(shows).seen === "node open");
    await open("example=learned-secret.hurd&who=alice");
    const press = letter => value(`document.body.dispatchEvent(new KeyboardEvent("keydown", { key: "${letter}", bubbles: true }))`).then(ready).then(() => value(`document.getElementById("at").value`));
    const at = await value(`document.getElementById("at").value`), back = await press("k");
    await value(`document.getElementById("keys").click()`);
    says("the keys, on and off", Number(back) === Number(at) - 1 && await press("k") === back && await value(`document.getElementById("keys").click(), true`) && await press("j") === at);
    const typed = async text => { await value(`{ const box = document.getElementById("text"); box.value = ${JSON.stringify(text)}; box.dispatchEvent(new Event("input")); document.body.dataset.ready = "no"; }`); return ready(); };
    const diary = readFileSync("examples/learned-secret.hurd", "utf8"), chosen = () => value(`[...document.querySelectorAll("#who input:checked")].map(input => input.value).join()`);
    await typed(diary.replace(/^.*alice.*\n/gm, ""));
    const without = await chosen();
    await typed(diary + "root ls /\n");
    says(`an edited text: ${without}, ${await chosen()}`, without === "bob" && await chosen() === "alice" && await value(`document.getElementById("example").value`) === "" && await value(`document.getElementById("about").textContent`) === "Your own script.");

    // after `usage` the page says how the command is written
    await open(`script=${Buffer.from("root put /a hello world\nroot ls -q\nroot put /a usage\nroot cat /a\n").toString("base64url")}&who=root`);
    const hints = await value(`JSON.stringify([...document.querySelectorAll("#told .part")].map(part => [...part.querySelectorAll(".sum")].map(line => line.textContent).join()))`);
    says("usage: " + hints, hints === JSON.stringify(["The command is: put NODE TEXT. A space within a word is \\s.", "The command is: ls NODE, or ls -d NODE. A space within a word is \\s.", "", ""]));

    // great outputs are cut, and the page says how much of them it shows; it answers all the while: the longest time between two ticks of a clock
    const great = async text => { await value(`{ window.gap = 0; let last = performance.now(); clearInterval(window.clock); window.clock = setInterval(() => { const now = performance.now(); window.gap = Math.max(window.gap, now - last); last = now; }, 20); }`); await value(`Page.open(${JSON.stringify(text)}, "script", ["root"])`); await sleep(500); return [Math.round(await value("window.gap")), await value(`document.querySelectorAll("#told .line").length`), await value(`document.getElementById("told").textContent`)]; };
    const [slow_lines, lines_shown, lines_told] = await great("root settrans -ac n /hurd/hello --contents=" + "\\n".repeat(2000) + "\n" + "root cat n\n".repeat(90));
    says(`180,000 lines: ${slow_lines} ms, ${lines_shown} shown`, slow_lines < 4000 && lines_shown <= 4000 && /2000 more lines are not shown\./.test(lines_told));
    const [slow_bytes, , bytes_told] = await great("root settrans -ac z /hurd/zero\n" + "root cat z\n".repeat(20));
    const pair = text => `user alice 1 1\nroot settrans -ac n /hurd/hello --contents=${text}\nalice cat n\n`;
    await value(`Page.open(${JSON.stringify(pair("\\n".repeat(3000)))}, "script", ["alice"])`);
    await value(`document.getElementById("keep").click()`);
    await value(`Page.open(${JSON.stringify(pair("x".repeat(4000)))}, "script", ["alice"])`);
    const sides = await value(`document.getElementById("report").textContent`), rows = await value(`document.querySelectorAll("#report .line").length`);
    says(`great replies of two scripts: ${rows} lines`, rows <= 1002 && /2500 more lines are not shown\./.test(sides) && /\u2026 and 2000 more characters/.test(sides));
    await value(`document.getElementById("let-go").click()`);
    says(`20 MiB of zeros: ${slow_bytes} ms, ${bytes_told.length} characters shown`, slow_bytes < 4000 && bytes_told.length < 500000 && /\u2026 and 1046576 more characters/.test(bytes_told));

    console.log(`page: the longest wait while 180,000 lines are shown ${slow_lines} ms, and 20 MiB of zeros ${slow_bytes} ms`);

    // a long run is stopped, and the page goes on
    const seen = "user alice 1000 1000\nroot mkdir /d\n" + Array.from({ length: 4000 }, (_, k) => `root put /d/${k} x\n`).join("");
    await value(`void Page.open(${JSON.stringify(seen)}, "script", ["alice"])`);
    let could = false;
    for (let k = 0; k < 600 && !could; k++) { await sleep(50); could = await value(`!document.getElementById("stop").hidden`); }
    await value(`document.getElementById("stop").click()`);
    says("a long run can be stopped: " + could, could && await ready() === "bad" && /stopped/.test(await value(`document.getElementById("fault").textContent`)));
    await value(`void Page.open(${JSON.stringify(seen)}, "script", ["alice"])`);
    await sleep(1000);
    await value(`Page.pick("welcome.hurd")`);
    says("a long run ends when another begins", await value("document.body.dataset.ready") === "yes" && await value(`document.querySelectorAll("#told .part").length`) === 3);
    says("and the page goes on", await open("example=welcome.hurd") === "yes");

    // times: from the opening to the first picture, and a step of long scripts; medians of five
    const median = list => list.sort((a, b) => a - b)[Math.floor(list.length / 2)], times = async (what, make) => { const list = []; for (let k = 0; k < 5; k++) list.push(await make()); return `${what} ${Math.round(median(list))} ms`; };
    const opened = await times("the first picture", async () => { const began = Date.now(); await open("example=learned-secret.hurd"); return Date.now() - began; });
    const script = count => "user alice 1000 1000\nuser bob 1001 1001\nroot mkdir /d\nroot chmod 777 /d\n" + Array.from({ length: 100 }, (_, k) => `bob put /d/f${k} x\n`).join("") + Array.from({ length: count - 102 }, (_, k) => `bob put /d/f${k % 100} ${k}\n`).join("");
    const long = await times("1,000 commands with 100 seen files", async () => { const began = Date.now(); await value(`Page.open(${JSON.stringify(script(1000))}, "script", ["alice"])`); return Date.now() - began; });
    console.log(`page: ${opened}; ${long} (medians of five, on this machine)`);

    if (folder) {
      for (const [name, width, height, dark, words] of [["first", 1280, 800, false, ""], ["small", 1024, 768, false, ""], ["wide", 1280, 800, false, "example=learned-server.hurd&who=alice"], ["phone", 390, 844, false, "example=learned-server.hurd&who=alice"], ["dark", 1280, 800, true, "example=learned-target.hurd&who=alice&at=12"], ["lecture", 1280, 800, false, "lecture=2"], ["list", 1280, 800, false, "example=learned-pipe.calls&who=1"], ["bad", 1280, 800, false, `script=${Buffer.from("user alice 1000 1000\nroot mkdir /home\nalice cat /home\\q\nalice ls /\n").toString("base64url")}&who=alice`], ["bad-phone", 390, 844, false, `list=${Buffer.from("task 0 0\n0 io_stat 1\n0 io_stat\n").toString("base64url")}&who=0`], ["stranger", 1280, 800, false, "example=learned-secret.hurd&who=carol"], ["nobody", 1280, 800, false, `list=${Buffer.from("# nobody is here\n").toString("base64url")}`]]) {
        await size(width, height, dark);
        await open(words);
        await shoot(name);
      }
      const keep = `document.getElementById("keep").click()`, pair = k => `document.querySelectorAll("#pairs button")[${k}].click()`;
      for (const [name, width, height, dark, ...steps] of [["compare-none", 1280, 800, false], ["compare-different", 1280, 800, false, pair(0)], ["compare-same", 1280, 800, true, pair(1)], ["compare-seen", 1280, 800, false, pair(3)], ["compare-dark", 1280, 800, true, pair(0)], ["compare-not-comparable", 1280, 800, false, keep, `Page.pick("secret-told-otherwise.hurd").then(() => { Page.who = new Set(["bob"]); return Page.show(); })`], ["compare-bad", 1280, 800, false, keep, `$("text").value += "alice frob\\n"; Page.show()`], ["compare-phone", 390, 844, false, pair(0), `document.getElementById("tabs").scrollIntoView()`]]) {
        await size(width, height, dark);
        await open("example=secret-told.hurd&who=alice");
        for (const step of [`document.getElementById("tab-beside").click()`, ...steps]) { await value(step); await ready(); }
        await shoot(name);
      }
    }
  } finally { await stop(); }
  console.log(`page: in a browser: ${passed} passed, ${failed} failed`);
  process.exit(failed ? 1 : 0);
}

main().catch(fault => { console.log("page: in a browser: " + fault.stack); process.exit(1); });
