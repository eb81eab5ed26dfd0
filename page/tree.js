// The tree as a picture. The entries of a directory are below it. The root of a server is below the node on which it is active. A box surrounds the nodes of a server.
"use strict";
const Tree = {
  row: 27, step: 26, edge: 14, letter: 7.3, small: 6.6,

  // nodes by path, each with those below it; nodes to which nothing leads are separate
  grow(rows) {
    const nodes = new Map(), servers = new Map(), below = new Map(), placed = new Set();
    for (const row of rows) {
      if (row.is_server || row.path === "/") servers.set(row.path === "/" ? "/ (server)" : row.place, row);
      if (!row.is_server && !nodes.has(row.path)) nodes.set(row.path, row);
    }
    const take = path => {
      if (!nodes.has(path) || placed.has(path)) return [];
      placed.add(path);
      return [nodes.get(path)];
    };
    for (const node of nodes.values()) {
      const under = node.path === "/" ? "/" : node.path + "/";
      const entries = (node.entries || []).flatMap(name => {
        const at = under + name;
        return take(nodes.has(at + "(underlying)") ? at + "(underlying)" : at).map(entry => ({ node: entry, name }));
      });
      const server = node.active && servers.get(node.active);
      const root = server && server.root && server.root !== node.path ? take(server.root).map(entry => ({ node: entry, name: "", server })) : [];
      below.set(node, [...root, ...entries]);
    }
    const loose = [...nodes.values()].filter(node => node.path !== "/" && !placed.has(node.path));
    return { nodes, servers, below, root: nodes.get("/"), loose };
  },

  // The path at which everybody together finds a node to which the chosen ones have another path: by a target, as a parent or a root, or below such a node.
  // Undefined if nothing shows which node that is.
  resolve({ nodes, servers }, path) {
    if (nodes.has(path)) return path;
    const step = /^(.*)\((target (\d+)|parent|root)\)$/.exec(path), entry = /^(.*[^/])\/([^/]*)$/.exec(path);
    const base = step || entry ? this.resolve({ nodes, servers }, step ? step[1] : entry[1]) : undefined, node = base && nodes.get(base);
    if (!node) return undefined;
    if (entry && !step) return this.resolve_entry(nodes, (base === "/" ? "/" : base + "/") + entry[2].replace(/\(.*/, ""), entry[2]);
    if (step[2] === "parent") return node.parent;
    const own = servers.get(node.served), on = servers.get(node.active), aims = on && on.targets ? on : own;
    return step[2] === "root" ? own && own.root : aims && aims.targets && aims.targets[step[3] - 1];
  },

  resolve_entry: (nodes, path, name) => [path + name.replace(/^[^(]*/, ""), path, path + "(underlying)"].find(at => nodes.has(at)),

  clip: (text, most) => text.length > most ? text.slice(0, most - 1) + "\u2026" : text,

  make(tag, attributes, ...inner) {
    const made = document.createElementNS("http://www.w3.org/2000/svg", tag);
    for (const name in attributes) made.setAttribute(name, attributes[name]);
    made.append(...inner);
    return made;
  },

  note(node, names) {
    const mode = (node.kind || "") + (node.mode || "").replace(/^0+(?=\d{3})/, "");
    const bytes = node.bytes && node.bytes.split(" ").slice(1).join(" ");
    return [
      mode, node.uid === undefined ? "" : names.get(node.uid) || "uid " + node.uid,
      bytes ? "\u201c" + this.clip(Read.plain(bytes), 26) + "\u201d" : "",
      node.passive && !node.active ? "passive: " + this.clip(Read.plain(node.passive), 34) : "", node.is_gone ? "gone" : "",
    ].filter(text => text).join("  ");
  },

  // rows of what everybody together sees, rows of what the chosen ones see, the names of uids, and what could be shown of each place
  draw(all, seen, names, could) {
    const grown = this.grow(all), { servers, below, root, loose } = grown;
    if (!root) return null;
    const marks = new Map();
    for (const row of seen) if (!row.is_server) {
      const path = this.resolve(grown, row.path) || row.path;
      marks.set(path, row.is_open ? "open" : "rim");
      if (!grown.nodes.has(path)) { grown.nodes.set(path, row); below.set(row, []); loose.push(row); }
    }
    const known = new Set(seen.filter(row => row.is_server || row.path === "/").map(row => row.place));
    const places = new Map(), boxes = [], ways = [], pills = [], arcs = [];
    let y = 12, wide = 300;

    const pill = (node, name, x, middle) => {
      const shown = this.clip(Read.plain(name), 32), width = 20 + this.letter * shown.length, note = this.note(node, names), mark = marks.get(node.path) || "unseen";
      const words = { open: "its contents are seen", rim: "only its attributes are seen", unseen: "it is not seen" };
      const parts = could.get(node.place) || [], helped = parts.map(({ part, helpers }) => `\n${part} could be shown ${helpers}`).join("");
      places.set(node.path, { x, middle });
      pills.push(this.make("g", { class: "node " + mark + (parts.some(Read.is_help) ? " could" : ""), "data-path": node.path },
        this.make("title", {}, node.place + ": " + words[mark] + ": " + node.says + helped),
        this.make("rect", { x, y: middle - 10, width, height: 20, rx: node.kind === "d" ? 4 : 10 }),
        this.make("text", { x: x + 10, y: middle + 4 }, shown),
        this.make("text", { class: "note", x: x + width + 8, y: middle + 4 }, note)));
      const right = x + width + 8 + this.small * note.length;
      wide = Math.max(wide, right + 20);
      return right;
    };

    const visit = (node, name, depth, server) => {
      const outer = this.edge + depth * this.step, top = y;
      if (server) y += 20;
      const x = outer + (server ? 8 : 0), middle = y + this.row / 2 - 2;
      y += this.row;
      let right = pill(node, name || "root of it", x, middle);
      for (const { node: entry, name: called, server: own } of below.get(node) || []) {
        const at = ways.length;
        right = Math.max(right, visit(entry, called || "its root", depth + 1 + (server ? .35 : 0), own));
        const to = places.get(entry.path);
        ways.splice(at, 0, this.make("path", { class: own ? "serves" : "entry", d: `M${x + 9} ${middle + 10}V${to.middle}H${to.x}` }));
      }
      if (server) right = Math.max(right, box(server, outer, top, right));
      return right;
    };

    const box = (server, outer, top, right) => {
      const says = [server.program, server.text === "(none)" ? "" : server.text, server.runs === undefined ? "" : "runs as " + (names.get(server.runs) || server.runs)].filter(text => text).map(Read.plain).join("  ");
      const label = this.clip(says || "a server", 64), width = Math.max(right, outer + 20 + this.small * label.length) - outer + 12;
      boxes.unshift(this.make("g", { class: "server " + (known.has(server.place) ? "known" : "unknown") },
        this.make("title", {}, server.place + ": " + server.says),
        this.make("rect", { x: outer - 2, y: top, width, height: y - top, rx: 7 }),
        this.make("text", { class: "note", x: outer + 8, y: top + 14 }, label)));
      y += 5;
      wide = Math.max(wide, outer + width + 8);
      return outer + width;
    };

    visit(root, "/", 0, servers.get("/ (server)"));
    for (const node of loose) visit(node, node.path, 0, null);
    for (const server of servers.values()) for (const target of server.targets || []) {
      const from = places.get(server.root), to = places.get(target);
      if (!from || !to || from === to) continue;
      const bend = Math.max(Math.min(from.x, to.x) - Math.min(12 + Math.abs(from.middle - to.middle) / 8, 60), 3);
      arcs.push(this.make("path", { class: "target", "marker-end": "url(#tip)", d: `M${from.x} ${from.middle}C${bend} ${from.middle} ${bend} ${to.middle} ${to.x} ${to.middle}` }));
    }
    const tip = this.make("marker", { id: "tip", viewBox: "0 0 6 6", refX: 6, refY: 3, markerWidth: 6, markerHeight: 6, orient: "auto" }, this.make("path", { class: "tip", d: "M0 0L6 3L0 6z" }));
    const rows_drawn = [...grown.nodes.values()];
    return this.make("svg", { width: Math.ceil(wide), height: y + 8, viewBox: `0 0 ${Math.ceil(wide)} ${y + 8}`, role: "img", "aria-label": this.told(rows_drawn, marks, could) },
      this.make("defs", {}, tip), ...boxes, ...ways, ...arcs, ...pills);
  },

  // the picture in words, for whoever cannot see it
  told(nodes, marks, could) {
    const helped = nodes.filter(row => (could.get(row.place) || []).some(Read.is_help)).length;
    const open = nodes.filter(row => marks.get(row.path) === "open").length, rim = nodes.filter(row => marks.get(row.path) === "rim").length;
    return `The tree has ${nodes.length} nodes. The contents of ${open} are seen; of ${rim}, only the attributes are seen; ${nodes.length - open - rim} are not seen. Of ${helped}, users other than root could show more. The tab "Everything seen" lists all of this.`;
  },
};
