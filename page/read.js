// What the program takes and prints, read by the rules of docs/PROFILE.md.
"use strict";
const Read = {
  decoder: new TextDecoder(),

  // a text that hides nothing: control characters and direction marks become visible signs or escapes
  shown(text) {
    return text.replace(/[\u0000-\u0009\u000b-\u001f\u007f-\u009f\u061c\u200b-\u200f\u2028-\u202f\u2060-\u206f\ufeff]/g, c => {
      const code = c.charCodeAt(0);
      return code < 32 ? String.fromCharCode(0x2400 + code) : code === 127 ? "\u2421" : "\\u{" + code.toString(16) + "}";
    });
  },

  // the same of a text in which only printable ASCII is good, as in a line of a script: all else becomes escapes
  ascii: text => text.replace(/[^\u0020-\u007e]/gu, c => "\\u{" + c.codePointAt(0).toString(16) + "}"),

  // bytes as such a text
  text: bytes => Read.shown(Read.decoder.decode(bytes)),

  // arguments with the escapes of scripts and call lists, as a person reads them
  plain: text => text.replace(/\\(x([0-9a-f]{2})|[sn\\])/g, (all, one, hex) => {
    const code = hex ? parseInt(hex, 16) : 0;
    return hex ? (code > 31 && code < 127 ? String.fromCharCode(code) : all) : one === "s" ? " " : one === "n" ? "\u21b5" : "\\";
  }),

  // the bytes that a word of a call list spells
  spelled: word => word.replace(/\\(x([0-9a-f]{2})|[sn\\])/g, (all, one, hex) => hex ? String.fromCharCode(parseInt(hex, 16)) : { s: " ", n: "\n", "\\": "\\" }[one]),

  is_skipped: line => line[0] === "#" || /^ *$/.test(line),
  words: line => line.split(" ").filter(word => word),

  // the least of some ids
  least(ids) {
    const numbers = ids.split(",").filter(id => /^[0-9]+$/.test(id)).map(Number);
    return numbers.length ? String(Math.min(...numbers)) : ids;
  },

  // the users of a script, or the tasks of a call list, each with the least uid; and the lines of commands or calls, each with the line that the program prints of it
  lines(text, is_list) {
    const users = new Map(is_list ? [] : [["root", "0"]]), commands = [];
    text.split("\n").forEach((line, at) => {
      if (this.is_skipped(line)) return;
      const words = this.words(line), first = is_list ? this.spelled(words[0]) : words[0];
      if (commands.length === 0 && first === (is_list ? "task" : "user")) {
        const name = is_list ? String(users.size) : words[1] || "";
        if (/^([a-z][a-z0-9]{0,15}|[0-9]+)$/.test(name)) users.set(name, this.least(words[is_list ? 1 : 2] || ""));
      } else {
        const whole = line.replace(/^ +| +$/g, ""), rest = whole.slice(words[0].length).replace(/^ +/, "");
        const who = is_list && /^[0-9]+$/.test(first) ? first.replace(/^0+(?=.)/, "") : first;
        commands.push({ at, who, text: words.slice(1).join(" "), printed: is_list ? whole : `${who}$ ${rest}` });
      }
    });
    return { users, commands };
  },

  // The reply to a command, from the line `reader.at` on: the command's line, and lines {mark, text, is_refused}. A mark is `|` for what was put out, `!` for a
  // refusal and `\` where the last line has no newline. After the mark `:` the name on the line before goes on: it is shown as one name.
  // What users write has marks of its own, so it never passes for a refusal; in call lists, a refusal is a reply like others, and data there has escapes.
  reply(reader) {
    const { lines } = reader, reply = { command: lines[reader.at++], lines: [] }, is_call = /^\d+ /.test(reply.command);
    for (; /^[|!\\:] /.test(lines[reader.at] || ""); reader.at++) {
      const mark = lines[reader.at][0], text = lines[reader.at].slice(2), name = reply.lines.at(-1);
      if (mark !== ":") reply.lines.push({ mark, text, is_refused: mark === "!" || (is_call && /^  (Refused|Back) E[A-Z]+$/.test(text)) });
      else if (name) name.text += "\u21b5" + text;
      else reply.command += "\u21b5" + text;
    }
    return reply;
  },

  // paragraphs {reply, learned, found, seen}: what is learned by lines, after each line how it could be found out, if that is told, and what is seen by clauses;
  // and the last line
  output(text) {
    const reader = { lines: text.split("\n"), at: 0 }, { lines } = reader, paragraphs = [];
    if (lines.at(-1) === "") lines.pop();
    while (reader.at < lines.length - 1) {
      const reply = this.reply(reader), learned = [], found = [], seen = [];
      for (; reader.at < lines.length && lines[reader.at].startsWith("  "); reader.at++) {
        const line = lines[reader.at].slice(2), [head, ...clauses] = line.split(": ");
        if (line.startsWith("  ")) (found[learned.length - 1] ||= []).push(line.slice(2));
        else if (/ learns?$/.test(head)) learned.push(line); else seen.push(clauses);
      }
      if (lines[reader.at] === "") reader.at++;
      paragraphs.push({ reply, learned, found, seen });
    }
    return { paragraphs, last: lines[reader.at] || "" };
  },

  // What is shown of the replies to all commands: so many lines and characters for the reply after `at`, and as many for all others together; of each line at most
  // 2,000 characters. Of each reply it says how many lines are left out. More would keep the browser busy for minutes.
  brief(paragraphs, at) {
    const room = () => ({ lines: 2000, characters: 200000 }), own = room(), others = room();
    return paragraphs.map(({ reply }, k) => this.fit(reply.lines, k + 1 === at ? own : others));
  },

  // the lines that have room; the room gets smaller
  fit(lines, room) {
    const shown = [];
    for (const line of lines) {
      if (!room.lines || !room.characters) break;
      const text = line.text.slice(0, Math.min(2000, room.characters)), cut = line.text.length - text.length;
      shown.push({ ...line, text: this.shown(text) + (cut ? ` \u2026 and ${cut} more characters` : "") });
      room.lines--;
      room.characters -= text.length;
    }
    return { shown, left_out: lines.length - shown.length };
  },

  // whether there is a paragraph for each command, and each begins with its command
  agrees: (paragraphs, commands) => paragraphs.length === commands.length && paragraphs.every(({ reply }, k) => reply.command === commands[k].printed),

  // everything that is seen, one sentence per line, by clauses
  seen: text => text.split("\n").filter(line => line).map(line => line.split(": ").slice(1)),

  // a comparison of two scripts: the sentences about what is seen and about replies, the differences of what is seen, and the reply in each script
  report(text) {
    const reader = { lines: text.split("\n"), at: 1 }, { lines } = reader, report = { seen: lines[0], sees: [], replies: "", first: null, second: null };
    for (; reader.at < lines.length && lines[reader.at].startsWith("  "); reader.at++) report.sees.push(lines[reader.at].slice(2));
    report.replies = lines[reader.at++] || "";
    report.first = this.reply_in(reader, "the first: ");
    report.second = this.reply_in(reader, "the second: ");
    return report;
  },

  // the reply after a label; none if the label is missing
  reply_in(reader, label) {
    const line = reader.lines[reader.at] || "";
    if (!line.startsWith(label)) return null;
    const reply = this.reply(reader);
    return { ...reply, command: reply.command.slice(label.length) };
  },

  // a sentence in pieces: texts, and references to lines of the first script or of the second
  pieces: sentence => sentence.split(/(line \d+ of the (?:first|second)\b)/i).flatMap(text => {
    const line = /^(line (\d+))( of the (first|second))$/i.exec(text);
    return line ? [{ text: line[1], whole: text, line: Number(line[2]), script: line[4] }, { text: line[3] }] : [{ text }];
  }),

  // what is said, as a sentence
  sentence: said => said && said[0].toUpperCase() + said.slice(1) + (said.endsWith(".") ? "" : "."),

  // why there is no report, from standard error: a verdict, a sentence, and a bad line
  no_report(text) {
    const [line, below] = text.split("\n"), named = /^hurd: (the first script|standard input)(?::(\d+))?: (.*)$/.exec(line);
    if (!named) return { head: "The two were not compared", says: this.sentence(line.replace(/^hurd: /, "")) };
    const script = named[1] === "standard input" ? "second" : "first", at = `line ${named[2]} of the ${script}`, why = named[3];
    if (/^not comparable\b/.test(why)) return { head: "These two are not comparable", says: this.not_comparable(why, at), is_not_comparable: true };
    const bad = /^bad script: (.*)$/.exec(why), stranger = /^no such user: (.*)$/.exec(why);
    if (stranger) return { head: "The two were not compared", says: stranger[1].includes(",") ? `The ${script} lacks one of these users: ${stranger[1]}.` : `The ${script} has no user ${stranger[1]}.` };
    return { head: `The ${script} script can\u2019t be run`, says: this.sentence(bad ? `${at}: ${bad[1]}` : why), code: bad && below ? below.slice(2) : "" };
  },

  // why two scripts are not comparable; `at` is the line of the second that standard error names
  not_comparable(why, at) {
    const other = /^not comparable: (differs from|lacks the command at) the first script:(\d+)$/.exec(why);
    if (other && other[1] === "differs from") return `The command at ${at} differs from the one at line ${other[2]} of the first.`;
    if (other) return `The second lacks the command at line ${other[2]} of the first.`;
    if (why === "not comparable: no such command in the first script") return `The first lacks the command at ${at}.`;
    return why === "not comparable: its users differ from those of the first script" ? "The users of the second, or their ids, differ from those of the first." : "";
  },

  // standard error as a sentence, and the line of a bad text, or -1 if it names no line
  complaint(text) {
    const line = text.split("\n")[0], bad = /^hurd: standard input:(\d+): (bad (?:script|call list):.*)$/.exec(line);
    const said = bad ? `Line ${bad[1]}: ${bad[2]}` : line.replace(/^hurd: (standard input: )?/, "").replace(/^no such (user|task): $/, "there is no $1");
    return { at: bad ? Number(bad[1]) - 1 : -1, why: this.sentence(said) };
  },

  // what could be shown: of each place its parts, each with those whose help would be enough, and with whoever saw it before
  could(text) {
    const places = new Map();
    for (const line of text.split("\n")) {
      const found = /^  \S.* could see: (.*): (bytes|entries|attributes): (with .*)$/.exec(line);
      if (found) places.set(found[1], [...places.get(found[1]) || [], { part: found[2], helpers: found[3] }]);
    }
    return places;
  },

  // whether somebody other than root could show a part
  is_help: ({ helpers }) => helpers.split("; ")[0].split(", or ").some(set => set !== "with root"),

  // what is seen, one row for each node and each server
  rows(seen) {
    const rows = [];
    for (const [place, parts] of seen) {
      if (parts === undefined || !/^[/(]/.test(place)) continue;
      const row = { is_server: / ?\(server\)$/.test(place), place, path: place.replace(/( \([^)]*\))+$/, ""), says: parts };
      for (const part of parts.split(", ")) this.part(row, part);
      rows.push(row);
    }
    return rows;
  },

  part(row, part) {
    const attributes = /^([-dlpsbc?])(\d{6,}) (\d+) (\d+) (\d+) (\d+)(?: passive (.*))?$/.exec(part);
    const rest = word => part.slice(word.length + 1);
    if (attributes) [, row.kind, row.mode, row.links, row.uid, row.gid, row.size, row.passive] = attributes;
    else if (part.startsWith("served by ")) row.served = rest("served by");
    else if (part.startsWith("active ")) row.active = rest("active");
    else if (part.startsWith("parent ")) row.parent = rest("parent");
    else if (part.startsWith("entries ")) { row.entries = this.words(rest("entries")); row.is_open = true; }
    else if (part === "no entries" || part === "its targets' entries") { row.entries = []; row.is_open = true; }
    else if (part.startsWith("bytes ") || part.startsWith("given ")) { row.bytes = part; row.is_open = true; }
    else if (["no bytes", "its server's text", "zeros"].includes(part)) row.is_open = true;
    else if (part.startsWith("program ")) { row.program = rest("program"); }
    else if (part.startsWith("text ")) row.text = rest("text");
    else if (part.startsWith("root ")) row.root = rest("root");
    else if (part.startsWith("runs as ")) row.runs = rest("runs as");
    else if (part.startsWith("targets ")) row.targets = this.words(rest("targets"));
    else if (part === "gone") row.is_gone = true;
  },
};
