// The page: a script, the chosen users, the reply and the lessons after each command, and the tree at that point. Everything shown is read from what the program prints.
"use strict";
const $ = id => document.getElementById(id);
const element = (tag, kind, text) => { const made = document.createElement(tag); if (kind) made.className = kind; if (text !== undefined) made.textContent = text; return made; };
const Page = {
  examples: JSON.parse(Machine.block("examples")),
  help: JSON.parse(Machine.block("help-texts")),
  who: new Set(),
  missed: new Set(), // those who were chosen, until the text lost them
  is_stand_in: false, // whether somebody is chosen only because nobody was
  at: Infinity,
  turn: 0,
  tabs: ["told", "sees", "beside"],
  timer: 0,
  short_enough: 2000, // commands times users up to which the page asks what could be shown
  later: 0,

  is_list: () => $("sort").value === "list",
  // runs the program over a text for the chosen ones: what they learn from it, or see at its end
  run: (verb, text, who, ...flags) => Machine.run(text, [verb, ...flags, ...(Page.is_list() ? ["--calls"] : []), "--", who, "-"]),

  // lines up to a command
  cut: (text, commands, at) => text.split("\n").slice(0, commands[at - 1].at + 1).filter(line => !/^# (see|from here)$/.test(line)).join("\n") + "\n",

  async show() {
    Machine.give_up();
    const turn = ++this.turn, text = $("text").value, { users, commands } = Read.lines(text, this.is_list());
    const gone = this.chips(users);
    const at = Math.min(this.at, commands.length), who = [...users.keys()].filter(name => this.who.has(name)).join(","), everyone = [...users.keys()].join(",");
    this.slide(at, commands);
    document.body.dataset.ready = "no";
    const slow = setTimeout(() => { if (turn === this.turn) { this.say("running \u2026"); $("stop").hidden = false; } }, 150);
    const whole = await this.run("learn", text, who, ...($("how").checked && !this.is_list() ? ["--how"] : []));
    const upto = at && whole.status === 0 ? this.cut(text, commands, at) : null;
    const seen = upto && turn === this.turn ? await this.run("see", upto, who) : null;
    const all = upto && turn === this.turn ? await this.run("see", upto, everyone) : null;
    const could = upto && who && turn === this.turn && commands.length * users.size <= this.short_enough ? await this.run("can", upto, who) : null;
    const pair = turn === this.turn ? await Beside.run(text, who) : null;
    clearTimeout(slow);
    if (turn !== this.turn) return;
    $("stop").hidden = true;
    Beside.show(pair);
    const failed = [whole, all, seen, could].find(run => run && (run.trap || run.status)) || whole;
    if (!this.fault(failed, text)) { document.body.dataset.ready = "bad"; return; }
    const output = Read.output(Read.decoder.decode(whole.bytes));
    if (!Read.agrees(output.paragraphs, commands)) { this.nothing("The page can\u2019t tell which reply is to which command, so it shows none."); document.body.dataset.ready = "bad"; return; }
    this.mark(text, commands, at, -1);
    this.told(output, commands, at);
    const views = run => run && run.status === 0 ? Read.seen(Read.text(run.bytes)) : [];
    const places = could && could.status === 0 ? Read.could(Read.text(could.bytes)) : new Map();
    this.draw(views(all), views(seen), users, places);
    this.sees(views(seen), who, views(all), places);
    if (gone.length) this.say(`${this.is_list() ? "Task " : ""}${this.short(Read.shown(gone.join(", ")), 60)} ${gone.length > 1 ? "aren't" : "isn't"} in the ${this.is_list() ? "call list" : "script"}.`, true);
    document.body.dataset.ready = "yes";
    this.remember();
  },

  // the address says what is shown, so that it can be opened again; only the button puts a long script there
  remember() {
    clearTimeout(this.later);
    if ($("lecture").hidden && $("text").value.length < 20000) this.later = setTimeout(() => history.replaceState(null, "", this.address()), 500);
  },

  short: (text, most) => text.length > most ? text.slice(0, most) + "\u2026" : text,

  say(text, is_bad) { $("status").textContent = text; $("status").className = is_bad ? "bad" : ""; },

  // nothing of a run is shown, for this reason
  nothing(why) {
    $("fault").hidden = false;
    $("fault").textContent = why;
    for (const id of ["replies", "sees", "picture"]) $(id).replaceChildren(element("p", "sum", "Nothing is shown."));
  },

  // whether the script ran; if not, shows why, at its line
  fault(run, text) {
    const said = Read.complaint(Read.text(run.errors)), why = run.trap ? `The run ended: ${run.trap}.` : run.status ? said.why || `The run ended with status ${run.status}.` : "";
    $("fault").hidden = !why;
    $("fault").textContent = why;
    this.say("");
    if (!why) return true;
    this.mark(text, [], 0, said.at);
    if (said.at >= 0) $("fault").append(element("br"), element("code", "", this.short(Read.ascii(text.split("\n")[said.at] || ""), 200)));
    if (run.status === 1) this.slide(0, []);
    for (const id of ["replies", "sees", "picture"]) $(id).replaceChildren(element("p", "sum", run.status === 1 ? "Nothing was run." : "The run did not end, so nothing of it is shown."));
    return false;
  },

  // a button for each user; returns the chosen ones who are not in the script
  chips(users) {
    const gone = [...this.who].filter(name => !users.has(name));
    for (const name of gone) { this.who.delete(name); this.missed.add(name); }
    const found = [...this.missed].filter(name => users.has(name));
    if (found.length && this.is_stand_in) this.who.clear();
    for (const name of found) { this.missed.delete(name); this.who.add(name); }
    this.is_stand_in = this.is_stand_in && !found.length;
    if (!this.who.size && users.size) { this.who.add(users.has("alice") ? "alice" : [...users.keys()].at(-1)); this.is_stand_in = true; }
    const box = $("who"), said = JSON.stringify([...users.keys()]);
    if (box.dataset.said !== said) {
      box.dataset.said = said;
      box.replaceChildren(users.size ? "" : element("span", "label", "nobody"), ...[...users.keys()].map(name => {
        const chip = element("label", "chip"), input = element("input");
        input.type = "checkbox";
        input.value = name;
        input.onchange = () => { this.is_stand_in = false; if (input.checked) this.who.add(name); else this.who.delete(name); this.show(); };
        chip.append(input, element("span", "", this.is_list() ? "task " + name : Read.plain(name)));
        return chip;
      }));
    }
    for (const input of box.querySelectorAll("input")) input.checked = this.who.has(input.value);
    return gone.filter(name => name);
  },

  slide(at, commands) {
    $("at").max = commands.length;
    $("at").value = at;
    $("at").disabled = !commands.length;
    $("back").disabled = at <= 0;
    $("on").disabled = at >= commands.length;
    const words = at ? `after ${at} of ${commands.length}: ${commands[at - 1].who}${this.is_list() ? "" : "$"} ${commands[at - 1].text}` : "before the first command";
    $("place").textContent = words;
    $("at").setAttribute("aria-valuetext", words);
  },

  // each line of the script, under the text: the current command, the later ones, and a bad line
  mark(text, commands, at, bad) {
    const now = at && commands[at - 1] ? commands[at - 1].at : -1, later = commands[at] && bad < 0 ? commands[at].at : Infinity;
    $("marks").replaceChildren(...text.split("\n").slice(0, 5000).map((line, k) => element("b", k === bad ? "bad" : k === now ? "now" : k >= later ? "later" : "", line.slice(0, 400) || " ")));
    this.scroll();
  },

  // scrolls so that a line is in sight
  reveal(line) {
    $("text").scrollTop = line * parseFloat(getComputedStyle($("marks")).lineHeight) - $("text").clientHeight / 2;
    this.scroll();
    $("editor").scrollIntoView({ block: "nearest" });
  },

  scroll() { $("marks").scrollTop = $("text").scrollTop; $("marks").scrollLeft = $("text").scrollLeft; },

  // a line of a reply, with its mark: it tells a refusal from a text that reads like one, also without colour
  line({ mark, text, is_refused }) {
    const made = element("span", "line" + (is_refused ? " refused" : mark === "\\" ? " unended" : ""));
    made.append(element("span", "mark", mark + " "), text);
    return made;
  },

  // the forms of a command of scripts, as the help has them
  forms(command) {
    const name = Read.words(command)[1], forms = [...this.help.script.matchAll(/WHO ([^\n]*?)(?=  |\n|$)/g)].map(found => found[1]).filter(form => form.split(" ")[0] === name);
    return forms.length ? `The command is: ${forms.join(", or ")}. A space within a word is \\s.` : "";
  },

  told({ paragraphs, last }, commands, at) {
    const list = element("ol"), briefs = Read.brief(paragraphs, at), most = 1000;
    paragraphs.forEach(({ reply, learned, found }, k) => {
      const item = element("li", "part" + (commands[k] && this.who.has(commands[k].who) ? " own" : "") + (k + 1 === at ? " now" : ""));
      const button = element("button", "command", reply.command);
      if (k + 1 === at) button.setAttribute("aria-current", "step");
      item.onclick = () => this.go(k + 1);
      item.append(button, ...briefs[k].shown.map(line => this.line(line)));
      const forms = reply.lines.some(line => line.mark === "!" && line.text === "usage") && this.forms(reply.command);
      if (forms) item.append(element("span", "sum", forms));
      if (briefs[k].left_out) item.append(element("span", "sum", `${briefs[k].left_out} more lines are not shown.`));
      item.append(...learned.slice(0, most).flatMap((line, k) => [element("span", "learned", Read.shown(line)), ...(found[k] || []).map(line => element("span", "found", this.short(Read.shown(line), 2000)))]));
      if (learned.length > most) item.append(element("span", "sum", `${learned.length - most} more lessons are not shown.`));
      list.append(item);
    });
    $("replies").replaceChildren(list, element("p", "sum", last));
    const now = list.querySelector(".now");
    if (now) $("told").scrollTop = Math.max(0, Math.min(now.offsetTop - $("told").offsetTop - 8, now.offsetTop - $("told").offsetTop + now.offsetHeight - $("told").clientHeight / 2));
  },

  draw(all, seen, users, could) {
    const names = new Map([...users].reverse().map(([name, uid]) => [uid, this.is_list() ? "task " + name : Read.plain(name)]));
    $("picture").replaceChildren(Tree.draw(Read.rows(all), Read.rows(seen), names, could) || element("p", "", "Nothing has been done yet."));
  },

  sees_caption(who) {
    const names = Read.plain(who).replace(/,/g, ", ");
    return `Everything that ${this.is_list() ? who.includes(",") ? "tasks " : "task " : ""}${names} can see`;
  },

  // what everybody together sees, and the chosen ones don't: the places alone
  unseen(seen, all, could) {
    const own = new Set(seen.map(([place]) => place)), places = all.map(([place]) => place).filter(place => place.startsWith("/") && !own.has(place)), most = 2000;
    if (!places.length) return [];
    const list = element("ul");
    list.append(...places.slice(0, most).map(place => {
      const item = element("li", "", this.short(place, 20000));
      for (const { part, helpers } of could.get(place) || []) item.append(element("span", "could", `${part}: ${this.short(helpers, 2000)}`));
      return item;
    }));
    return [element("h3", "", "Not seen"), list, ...(places.length > most ? [element("p", "sum", `${places.length - most} more are not listed.`)] : [])];
  },

  sees(seen, who, all, could) {
    const table = element("table"), body = element("tbody");
    table.append(element("caption", "", seen.length ? this.sees_caption(who) : "Nothing is shown before the first command."), body);
    const most = 2000;
    for (const [place, ...parts] of seen.slice(0, most)) {
      const row = element("tr"), head = element("th", "", this.short(place, 20000));
      head.scope = "row";
      row.append(head, element("td", "", this.short(parts.join(": "), 20000)));
      body.append(row);
    }
    if (seen.length > most) {
      const row = element("tr"), rest = element("td", "sum", `${seen.length - most} more lines are not shown.`);
      rest.colSpan = 2;
      row.append(rest);
      body.append(row);
    }
    $("sees").replaceChildren(table, ...this.unseen(seen, all, could));
  },

  go(at) { this.at = Math.max(0, at); return this.show(); },

  tab(name) {
    for (const id of this.tabs) {
      $("tab-" + id).setAttribute("aria-selected", String(id === name));
      $("tab-" + id).tabIndex = id === name ? 0 : -1;
      $(id).hidden = id !== name;
    }
  },

  sorted() {
    $("commands").textContent = this.help[$("sort").value];
    $("keep").disabled = this.is_list();
    $("how").disabled = this.is_list();
    $("text").setAttribute("aria-label", this.is_list() ? "the call list, one call per line" : "the script, one command per line");
  },

  open(text, sort, who, at, about) {
    $("text").value = text;
    if (!this.examples.some(example => example.file === $("example").value && example.text === text)) $("example").selectedIndex = -1;
    $("sort").value = sort;
    $("about").textContent = about || "";
    $("who").dataset.said = "";
    this.sorted();
    this.missed.clear();
    this.is_stand_in = false;
    this.who = new Set(who || []);
    this.at = at === undefined ? Infinity : at;
    return this.show();
  },

  // a text that was edited is no example any more
  own() {
    const shown = this.examples.find(example => example.file === $("example").value);
    if (!shown || shown.text === $("text").value) return;
    $("example").selectedIndex = -1;
    $("about").textContent = "Your own script.";
  },

  pick(file) {
    const found = this.examples.find(example => example.file === file) || this.examples[0];
    $("example").value = found.file;
    return this.open(found.text, found.sort, found.who, found.at, found.question);
  },

  // what follows `#` in the address: an example or a whole script, the chosen ones, and after which command

  pack: text => btoa(Array.from(Machine.encoder.encode(text), byte => String.fromCharCode(byte)).join("")).replace(/\+/g, "-").replace(/\//g, "_").replace(/=+$/, ""),
  unpack: text => new TextDecoder("utf-8", { fatal: true }).decode(Machine.bytes(text.replace(/-/g, "+").replace(/_/g, "/"))),

  address() {
    const shown = this.examples.find(example => example.file === $("example").value), words = new URLSearchParams();
    if (shown && shown.text === $("text").value) words.set("example", shown.file);
    else { words.set(this.is_list() ? "list" : "script", this.pack($("text").value)); }
    words.set("who", [...this.who].join(","));
    if (this.at !== Infinity) words.set("at", this.at);
    return location.href.split("#")[0] + "#" + words;
  },

  from_address() {
    const words = new URLSearchParams(location.hash.slice(1)), who = words.has("who") ? words.get("who").split(",") : undefined, at = words.has("at") ? Math.max(0, Math.floor(Number(words.get("at")) || 0)) : undefined;
    if (words.has("lecture")) return Lecture.open(Math.floor(Number(words.get("lecture")) || 0));
    for (const sort of ["script", "list"]) if (words.has(sort)) {
      try { return this.open(this.unpack(words.get(sort)), sort, who, at, "A script from the address of this page."); } catch (fault) { return this.pick(this.examples[0].file).then(() => this.say("The script in the address is incomplete, so an example is shown.", true)); }
    }
    const found = this.examples.find(example => example.file === words.get("example")) || this.examples[0];
    $("example").value = found.file;
    return this.open(found.text, found.sort, who || found.who, at === undefined ? found.at : at, found.question);
  },

  begin() {
    for (const sort of ["script", "list"]) {
      const group = element("optgroup");
      group.label = sort === "script" ? "Scripts of users' commands" : "Call lists";
      group.append(...this.examples.filter(example => example.sort === sort).map(example => { const option = element("option", "", example.title); option.value = example.file; return option; }));
      $("example").append(group);
    }
    $("example").onchange = () => this.pick($("example").value);
    $("sort").onchange = () => { this.sorted(); this.who.clear(); this.at = Infinity; this.show(); };
    $("text").oninput = () => { clearTimeout(this.timer); this.at = Infinity; this.own(); this.timer = setTimeout(() => this.show(), 250); };
    $("how").onchange = () => this.show();
    $("text").onscroll = () => this.scroll();
    $("at").oninput = () => this.go(Number($("at").value));
    $("back").onclick = () => this.go(Number($("at").value) - 1);
    $("on").onclick = () => this.go(Number($("at").value) + 1);
    $("stop").onclick = () => Machine.stop("it was stopped");
    $("print").onclick = () => window.print();
    $("link").onclick = () => {
      const address = this.address();
      history.replaceState(null, "", address);
      const said = () => { $("said").textContent = "The address above is the link."; };
      if (navigator.clipboard) navigator.clipboard.writeText(address).then(() => { $("said").textContent = "Copied: it is the address above."; }, said); else said();
    };
    this.tabs.forEach((name, k) => {
      $("tab-" + name).onclick = () => this.tab(name);
      $("tab-" + name).onkeydown = event => {
        const by = { ArrowLeft: this.tabs.length - 1, ArrowRight: 1 }[event.key], other = by && this.tabs[(k + by) % this.tabs.length];
        if (other) { this.tab(other); $("tab-" + other).focus(); }
      };
    });
    document.addEventListener("keydown", event => {
      if (event.key === "Escape" && !$("stop").hidden) Machine.stop("it was stopped");
      if (!$("keys").checked || /^(TEXTAREA|SELECT)$/.test(event.target.tagName) || event.altKey || event.ctrlKey || event.metaKey) return;
      if (event.key === "j" && !$("on").disabled) $("on").click();
      if (event.key === "k" && !$("back").disabled) $("back").click();
    });
    for (const link of document.querySelectorAll("nav a")) link.onclick = event => {
      const head = $(link.getAttribute("href").slice(1));
      event.preventDefault();
      head.scrollIntoView();
      head.focus();
    };
    window.onhashchange = () => this.from_address();
    if (typeof WebAssembly === "undefined" || typeof Worker === "undefined") { this.say("This browser can't run the program: it lacks WebAssembly or workers.", true); return; }
    const made = name => document.querySelector(`meta[name=${name}]`).content;
    $("made").textContent = `Version ${made("version")}, built from sources with the checksum ${made("sources").slice(0, 16)}.`;
    Lecture.begin();
    Beside.begin();
    this.from_address();
  },
};

// what the program calls the first script
const FIRST = "the first script";

// Two scripts side by side: the first is the one that was kept, the second is the one in the editor. The program reports whether the chosen ones can tell
// them apart.
const Beside = {
  pairs: [
    ["secret-told.hurd", "secret-told-otherwise.hurd", "Bob writes one of two words, and opens the file."],
    ["secret-kept-one.hurd", "secret-kept-two.hurd", "Bob writes one of two words, and closes the file."],
    ["unseen-one.hurd", "unseen-two.hurd", "Bob does one of two things in a place that alice may not look at."],
    ["started-by-alice.hurd", "started-by-bob.hurd", "Alice or bob is the first to read the text of a server."],
  ],
  first: null,
  last: { asked: "", run: null },
  drawn: null,

  // the report on both, if a script is kept; the same pair is not compared twice in a row
  async run(text, who) {
    if (!this.first || Page.is_list()) return null;
    const asked = JSON.stringify([this.first.text, text, who]);
    if (this.last.asked !== asked || this.last.run.trap) this.last = { asked, is_same: text === this.first.text, run: await Machine.run(text, ["compare", "--", who, FIRST, "-"], [[FIRST, this.first.text]]) };
    return this.last.run;
  },

  keep(text, name) {
    this.first = { text, name };
    const lines = text.replace(/\n$/, "").split("\n");
    $("kept").textContent = `First: ${name}, ${lines.length} line${lines.length > 1 ? "s" : ""}. Second: in the editor.`;
    $("first-text").replaceChildren(...lines.slice(0, 5000).map(line => element("b", "", Read.shown(line.slice(0, 400)) || " ")));
    $("first").open = false;
  },

  // the name of what is in the editor
  name() {
    const shown = Page.examples.find(example => example.file === $("example").value);
    return shown && shown.text === $("text").value ? shown.title : "a script of your own";
  },

  let_go() {
    this.first = null;
    $("kept").textContent = "";
    $("first-text").replaceChildren();
  },

  // an example as the first, and another in the editor
  begin_with(first, second) {
    this.keep(first.text, first.title);
    $("beside").focus();
    return Page.pick(second);
  },

  show(run) {
    for (const id of ["first", "let-go", "kept"]) $(id).hidden = !this.first;
    $("what-for").hidden = Boolean(this.first);
    $("beside").classList.toggle("kept", Boolean(this.first));
    if (run && run === this.drawn) return;
    this.drawn = run;
    if (run) return run.status === 0 || run.status === 3 ? this.report(run, Read.report(Read.decoder.decode(run.bytes))) : this.no_report(run);
    this.verdict("", Page.is_list() ? "Call lists cannot be compared" : "", Page.is_list() ? "This tab compares scripts of users\u2019 commands." : "");
    $("report").replaceChildren();
  },

  // a verdict, and a sentence below it
  verdict(kind, head, says) {
    $("verdict").className = kind;
    $("verdict").replaceChildren(...(head ? [element("strong", "", head), " "] : []), ...(says ? [this.sentence(says)] : []));
  },

  // a sentence; a line of a script in it is a button that leads there
  sentence(says) {
    const made = element("p");
    made.append(...Read.pieces(says).map(({ text, whole, line, script }) => {
      if (!line) return text;
      const button = element("button", "leads", text);
      button.setAttribute("aria-label", whole);
      button.onclick = () => this.lead(script, line - 1);
      return button;
    }));
    return made;
  },

  // marks a line of one of the two
  async lead(script, line) {
    if (script === "first") return this.lead_first(line);
    const at = Read.lines($("text").value, false).commands.findIndex(command => command.at === line);
    if (at >= 0) await Page.go(at + 1);
    Page.reveal(line);
  },

  lead_first(line) {
    const lines = [...$("first-text").children];
    $("first").open = true;
    lines.forEach((one, k) => { one.className = k === line ? "now" : ""; });
    if (lines[line]) lines[line].scrollIntoView({ block: "nearest" });
  },

  report(run, report) {
    const is_same = run.status === 0, sees_same = !report.sees.length && / sees? the same$/.test(report.seen);
    const why = this.last.is_same ? "Both scripts are the same: edit the second, or open another."
      : !is_same ? "This reply tells the two apart."
      : sees_same ? "Nothing here tells the two apart."
      : "What is seen differs, but no command here shows it.";
    this.verdict(is_same ? "same" : "different", (/^[^ ]+ gets? (the same replies|a different reply)/.exec(report.replies) || [report.replies])[0], why);
    const seen = element("ul", "seen");
    seen.append(...report.sees.map(line => element("li", "", line)));
    const both = element("div", "both"), { first, second } = report;
    if (first && second) both.append(this.side("In the first", first, second), this.side("In the second", second, first));
    const when = sees_same ? element("p", "sum", "What is seen is compared before each command of the users that you chose, and at the end.") : seen;
    $("report").replaceChildren(this.sentence(report.seen), when, ...(is_same ? [] : [this.sentence(report.replies), both]));
  },

  // the reply in one script; lines that the other lacks are highlighted
  side(head, { command, lines }, other) {
    const made = element("figure"), text = element("div", "part"), others = new Set(other.lines.map(line => line.mark + line.text));
    const fitted = Read.fit(lines, { lines: 500, characters: 50000 });
    text.append(element("span", "command", command), ...fitted.shown.map((line, k) => {
      const shown = Page.line(line);
      shown.classList.toggle("alone", !others.has(lines[k].mark + lines[k].text));
      return shown;
    }));
    if (fitted.left_out) text.append(element("span", "sum", `${fitted.left_out} more lines are not shown.`));
    made.append(element("figcaption", "", head), text);
    return made;
  },

  no_report(run) {
    const said = Read.no_report(Read.text(run.errors)), why = run.trap ? `The run ended: ${run.trap}.` : said.says || `The run ended with status ${run.status}.`;
    this.verdict("none", run.trap ? "The two were not compared" : said.head, why);
    const below = said.code ? [element("code", "", Page.short(said.code, 200))] : [];
    if (said.is_not_comparable) below.push(element("p", "sum", "Two scripts are comparable if they have the same users, and the users that you chose run the same commands in both, written the same way. The commands of others may differ."));
    $("report").replaceChildren(...below);
  },

  begin() {
    const find = file => Page.examples.find(example => example.file === file);
    $("pairs").append(...this.pairs.filter(([one, two]) => find(one) && find(two)).map(([one, two, about]) => {
      const item = element("li"), button = element("button", "", `${find(one).title} / ${find(two).title}`);
      button.onclick = () => this.begin_with(find(one), two);
      item.append(button, element("span", "sum", about));
      return item;
    }));
    $("keep").onclick = () => { this.keep($("text").value, this.name()); return Page.show(); };
    $("let-go").onclick = () => { this.let_go(); $("keep").focus(); return Page.show(); };
  },
};
