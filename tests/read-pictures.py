#!/usr/bin/env python3
"""Reads pictures that `hurd draw` printed, line by line, and compares them with what `hurd see` prints of the same text.

In the folder that is named there are, for each text NAME: NAME itself, NAME.dot and, where somebody is marked, NAME.as.dot and NAME.can.dot; where they were asked for, NAME.all,
what all see together, NAME.seen, what those see who are marked, and NAME.wide, what those see with all who lack root's uid. Each line of a picture is of a known form, and each byte is printable ASCII. Of NAME.all and NAME.dot the
nodes are the same by kind, mode, owner, group and size; so are the names in each directory, and the number of servers; a drawn port is one that its task has. In NAME.as.dot marked are exactly so many
nodes of each kind, mode, owner, group and size as are seen there, and as wholly seen those whose bodies are. NAME.can.dot has the same marks, except at nodes of which NAME.wide has
more, and one cell more in its legend. With the name of an SVG and of a file of texts behind it, each text stands in the SVG.
"""
import collections
import glob
import os
import re
import sys
import xml.etree.ElementTree as ElementTree

HEAD = """digraph hurd {
  rankdir=LR; nodesep=0.3; ranksep=0.6; fontname="Helvetica"; fontsize=14;
  style="rounded,filled"; color="#8a93a6"; fillcolor="#f4f6fb"; bgcolor=white;
  node [fontname="Helvetica", fontsize=13, style=filled, fillcolor=white];
  edge [fontname="Helvetica", fontsize=11, arrowsize=0.7];
"""
# what a label may have: an entity, two backslashes for each that is shown, an escape, or a plain byte; so no `]`, which Graphviz may take for an end of its own
LABEL = r"(?:&(?:amp|lt|gt|quot|#93);|\\\\\\\\|\\n|\\x[0-9a-f]{2}|[ !#$%'-;=?-\[^-~])+"
NAME = r"[0-9]+_[0-9]+"
BOX = rf"subgraph cluster_({NAME}) \{{ cluster=true; "
STUB = ' [shape=box, style="filled,dashed", label='
MARKS = {
    "": "plain",
    ', fillcolor="#ececec", color="#9a9a9a", fontcolor="#6a6a6a", style="filled,dashed"': "unseen",
    ', fillcolor=white, color="#c98a00", penwidth=2': "outside",
    ', fillcolor="#ffe08a", color="#c98a00", penwidth=2': "inside",
    ', fillcolor="#d3e4f8", color="#0b5cad", penwidth=2': "helped",
}
SHAPES = {"-": "note", "d": "folder", "l": 'cds, margin="0.25,0.1"', "p": "cylinder", "c": "component"}
NODE = (
    rf"n({NAME}) \[shape=(?P<shape>.*?), label=<<b>(?P<title>{LABEL})</b><br/>(?P<kind>[-dlpc])(?P<mode>[0-7]{{3,6}}) (?P<owner>{LABEL}):(?P<group>[0-9]+)"
    rf"(?:, (?P<size>[0-9]+) (?:(?<=, 1 )byte|(?<!, 1 )bytes)(?P<ends><br/>readers [0-9]+, writers [0-9]+)?)?(?:<br/><font face=\"monospace\">{LABEL}</font>)?"
    rf"(?:<br/><i>passive {LABEL}</i>)?>(?P<mark>.*)\];"
)
SERVED = ' [style=dashed, penwidth=2, color="#1f4fa3", fontcolor="#1f4fa3", label=<served by>]'
SHOWS = ' [style=dotted, penwidth=2, color="#1f6f43", fontcolor="#1f6f43", label=<shows>, constraint=false]'
USE = r"(?: read)?(?: write)?(?: exec)?(?: append)?(?: at [0-9]+)?(?: shared)?"
FORMS = {
    "legend": rf"  label=<<table border=\"0\" cellspacing=\"6\"><tr><td>What <b>{LABEL}</b>:</td>(?:<td [^<>]*>(?:<font [^<>]*>)?[a-z, ]+(?:</font>)?</td>){{3,4}}</tr></table>>;",
    "node": rf"  (?:{BOX})?{NODE}(?: \}})?",
    "gone": rf"  (?:{BOX})?n({NAME}){re.escape(STUB)}<gone>\];(?: \}})?",
    "stub": rf"  n({NAME}){re.escape(STUB)}<<b>{LABEL}</b><br/>not seen>\];",
    "server": rf"  {BOX}label=<<b>{LABEL}</b><br/>runs as {LABEL}>; \}}",
    "entry": rf"  n({NAME}) -> n({NAME})(?: \[label=<({LABEL})>\])?;",
    "served": rf"  n({NAME}) -> n({NAME}){re.escape(SERVED)};",
    "shows": rf"  n({NAME}) -> n({NAME}){re.escape(SHOWS)};",
    "task": rf"  t([0-9]+) \[shape=ellipse, fillcolor=\"#d6e6ff\", label=<<b>{LABEL}</b>>\];",
    "use": rf"  t([0-9]+) -> n({NAME}) \[label=<(?:port ([0-9]+)|sent){USE}(?:<br/>as {LABEL})?>, color=\"#7a3fa0\", fontcolor=\"#7a3fa0\"\];",
    "control": rf"  t([0-9]+) -> n({NAME}) \[label=<(?:port ([0-9]+)|sent) controls>, color=\"#a02020\", fontcolor=\"#a02020\"\];",
    "start": rf"  t([0-9]+) -> n({NAME}) \[label=<(?:port ([0-9]+)|sent) is to start>\];",
}
FORMS = {form: re.compile(pattern) for form, pattern in FORMS.items()}
SEEN = re.compile(r"([-dlpc])([0-7]{6}) [0-9]+ ([0-9]+) ([0-9]+) ([0-9]+)(?: passive .*)?")
ENDS = re.compile(r"readers [0-9]+ writers [0-9]+")
BODY = re.compile(r"(?:entries|bytes|given) .*|no entries|no bytes|its server's text|its targets' entries|zeros")
failures = []


def fail(name, what):
    failures.append(f"{name}: {what}")


def balanced(name, line):
    """Braces and quotes are even outside of labels, and markup is closed in its order."""
    if line.count('"') % 2:
        fail(name, f"quotes: {line[:200]}")
    opened = []
    for tag in re.findall(r"<(/?[a-z]+)[^<>]*?(/?)>", line.replace("label=<", "label= ")):
        if tag[1] or tag[0] == "br":
            continue
        if not tag[0].startswith("/"):
            opened.append(tag[0])
        elif not opened or opened.pop() != tag[0][1:]:
            fail(name, f"markup: {line[:200]}")
    outside = re.sub(r"label=<.*>(?=[,;\]])", "", line)
    if opened and line.count("label=<") == 1 and [x for x in opened if x != "gone"]:
        fail(name, f"markup is left open: {line[:200]}")
    if outside.count("{") != outside.count("}"):
        fail(name, f"braces: {line[:200]}")


def read(name):
    """The lines of a picture by their forms."""
    with open(name, "rb") as file:
        text = file.read()
    lines = collections.defaultdict(list)
    if re.search(rb"[^ -~\n]", text):
        fail(name, "a byte that is neither printable nor a newline")
    text = text.decode("latin-1")
    if not text.startswith(HEAD) or not text.endswith("\n}\n"):
        fail(name, "another begin or another end")
        return lines
    for line in text[len(HEAD) : -2].splitlines():
        balanced(name, line)
        forms = [(form, match) for form, match in ((form, pattern.fullmatch(line)) for form, pattern in FORMS.items()) if match]
        if len(forms) != 1:
            fail(name, f"a line of {len(forms)} forms: {line[:200]}")
        for form, match in forms:
            lines[form].append(match)
    for node in lines["node"]:
        if SHAPES[node["kind"]] != node["shape"] or (node["size"] is None) != (node["kind"] == "d") or (node["ends"] is not None and node["kind"] != "p"):
            fail(name, f"a shape of another kind, or a size of a directory: {node[0][:200]}")
        if node["mark"] not in MARKS:
            fail(name, f"a mark: {node['mark']}")
    drawn = [x[2] for x in lines["node"]] + [x[2] for x in lines["gone"]]
    stubs = {x[1] for x in lines["stub"]}
    if len(set(drawn)) != len(drawn) or stubs & set(drawn):
        fail(name, "a node that is drawn twice")
    known, tasks = stubs | set(drawn), {x[1] for x in lines["task"]}
    for form in ("entry", "served", "shows"):
        for x in lines[form]:
            if not {x[1], x[2]} <= known:
                fail(name, f"an arrow of a node that isn't drawn: {x[0]}")
    for form in ("use", "control", "start"):
        for x in lines[form]:
            if x[1] not in tasks or x[2] not in known:
                fail(name, f"an arrow of a task or a node that isn't drawn: {x[0]}")
    boxes = [x[1] for x in lines["server"]]
    if len(set(boxes)) != len(boxes):
        fail(name, "a server that is drawn twice")
    return lines


def owners_of(text):
    """The names of uids: the first user whose least uid it is."""
    owners = {}
    if not text.endswith(".calls"):
        owners["0"] = "root"
        with open(text, "rb") as file:
            for line in file.read().decode("latin-1").splitlines():
                words = line.split()
                if words[:1] == ["user"] and words[2] != "-":
                    owners.setdefault(str(min(map(int, words[2].split(",")))), words[1])
    return owners


def told(name):
    """The lines of what is seen: where, and the parts."""
    with open(name, "rb") as file:
        lines = file.read().decode("latin-1").splitlines()
    return [(where, parts.split(", ")) for where, parts in (re.fullmatch(r"  .* sees?: ([^:]*): (.*)", line).groups() for line in lines if not re.search(r" sees?: tasks: ", line))]


def counted(items):
    return collections.Counter(items)


def compare(name, what, drawn, seen):
    if drawn != seen:
        fail(name, f"{what}: drawn and not seen {list((drawn - seen).items())[:4]}, seen and not drawn {list((seen - drawn).items())[:4]}")


def nodes_told(lines, owners):
    """Nodes by kind, mode, owner, group and size, and whether what is in them is seen."""
    for _, parts in lines:
        stat = SEEN.fullmatch(parts[0])
        if stat:
            kind, mode, owner, group, size = stat.groups()
            yield (kind, int(mode, 8), owners.get(owner, owner), group, None if kind == "d" else size), any(BODY.fullmatch(part) for part in parts[1:])


def nodes_drawn(lines):
    for x in lines["node"]:
        yield (x["kind"], int(x["mode"], 8), x["owner"], x["group"], x["size"]), MARKS.get(x["mark"])


def numbers(text):
    """The numbers in a text, in order."""
    return tuple(re.findall("[0-9]+", text))


def spelled(name):
    """A name that is spelled in the same way everywhere; of any other nothing is kept."""
    return name if re.fullmatch(r"[A-Za-z0-9_-]+", name) else "?"


def listings_drawn(lines):
    """The names in each directory that has arrows, in their order: by what stands at an arrow, or by what the node is called that it leads to."""
    titles = {x[2]: x["title"] for x in lines["node"]}
    listings = collections.defaultdict(list)
    for x in lines["entry"]:
        listings[x[1]].append(spelled(x[3] or titles.get(x[2], "?")))
    return map(tuple, listings.values())


def check_all(text, lines):
    """What is drawn is what all see."""
    name, seen = text + ".dot", told(text + ".all")
    compare(name, "nodes", counted(node for node, _ in nodes_drawn(lines)), counted(node for node, _ in nodes_told(seen, owners_of(text))))
    compare(name, "readers and writers", counted(map(numbers, filter(None, (x["ends"] for x in lines["node"])))), counted(numbers(part) for _, parts in seen for part in parts if ENDS.fullmatch(part)))
    compare(name, "servers", counted(["server"] * len(lines["server"])), counted("server" for _, parts in seen for part in parts if part.startswith("program ")))
    compare(name, "entries", counted(listings_drawn(lines)), counted(tuple(map(spelled, part.split()[1:])) for _, parts in seen for part in parts if part.startswith("entries ")))
    ports = {}
    for where, parts in seen:
        task = re.fullmatch(r"task ([0-9]+)", where)
        if task:
            ports[task[1]] = next((set(part.split()[1:]) for part in parts if part.startswith("ports")), set())
    for form in ("use", "control", "start"):
        for x in lines[form]:
            if x[3] is not None and x[3] not in ports.get(x[1], ()):
                fail(name, f"a port that its task has not: {x[0]}")


def check_marked(text, lines, plain):
    """What is marked is what those see who are named; and nothing else is drawn than without marks."""
    name, seen = text + ".as.dot", told(text + ".seen")
    drawn = list(nodes_drawn(lines))
    compare(name, "nodes of which attributes are seen", counted(node for node, mark in drawn if mark in ("inside", "outside")), counted(node for node, _ in nodes_told(seen, owners_of(text))))
    compare(name, "nodes that are wholly seen", counted(node for node, mark in drawn if mark == "inside"), counted(node for node, body in nodes_told(seen, owners_of(text)) if body))
    compare(name, "nodes", counted(node for node, _ in drawn), counted(node for node, _ in nodes_drawn(plain)))
    for form in ("gone", "stub", "server", "entry", "served", "shows", "task", "use", "control", "start"):
        if [x[0] for x in lines[form]] != [x[0] for x in plain[form]]:
            fail(name, f"other lines than without marks: {form}")
    if len(lines["legend"]) != 1 or plain["legend"]:
        fail(name, "no legend, or one where nobody is marked")
    if any(mark == "plain" for _, mark in drawn) or any(mark != "plain" for _, mark in nodes_drawn(plain)):
        fail(name, "a node without a mark, or one with it where nobody is marked")
    return sum(mark == "unseen" for _, mark in drawn), sum(mark == "outside" for _, mark in drawn), sum(mark == "inside" for _, mark in drawn)


def check_helped(text, lines, marked):
    """What is marked as what others could show is what the wider view shows more; all else is as without that mark."""
    name, seen, owners = text + ".can.dot", told(text + ".wide"), owners_of(text)
    pairs = list(zip(nodes_drawn(marked), nodes_drawn(lines)))
    if [x[2] for x in lines["node"]] != [x[2] for x in marked["node"]] or any(one[0] != two[0] for one, two in pairs):
        fail(name, "other nodes than without what others could show")
    if any(two[1] not in (one[1], "helped") or (one[1], two[1]) == ("inside", "helped") for one, two in pairs):
        fail(name, "another mark than without what others could show")
    compare(name, "nodes of which attributes could be shown", counted(one[0] for one, two in pairs if "helped" == two[1] or one[1] != "unseen"), counted(node for node, _ in nodes_told(seen, owners)))
    whole, least = counted(node for node, body in nodes_told(seen, owners) if body), counted(one[0] for one, two in pairs if one[1] == "inside" or (one[1], two[1]) == ("outside", "helped"))
    if least - whole or whole - counted(one[0] for one, two in pairs if "helped" == two[1] or one[1] == "inside"):
        fail(name, "what is in other nodes could be shown")
    for form in ("gone", "stub", "server", "entry", "served", "shows", "task", "use", "control", "start"):
        if [x[0] for x in lines[form]] != [x[0] for x in marked[form]]:
            fail(name, f"other lines than without what others could show: {form}")
    if [x[0].count("<td") for x in lines["legend"]] != [5] or [x[0].count("<td") for x in marked["legend"]] != [4]:
        fail(name, "a legend of so many cells")
    return sum(two[1] == "helped" for _, two in pairs)


def check_svg(name, wanted):
    """Each of these texts is one that the picture shows, whole."""
    with open(wanted) as file:
        texts = file.read().splitlines()
    shown = collections.Counter(("".join(x.itertext())).replace("\u00a0", " ") for x in ElementTree.parse(name).iter() if x.tag.endswith("}text"))
    for text in texts:
        if not shown[text]:
            fail(name, f"not shown: {text}")
    print(f"{len(texts)} texts stand in a picture as they are written")


def main():
    if len(sys.argv) > 2:
        check_svg(sys.argv[1], sys.argv[2])
    else:
        lines, agreed, marks = 0, 0, collections.Counter()
        forms = collections.Counter()
        pictures = sorted(glob.glob(os.path.join(glob.escape(sys.argv[1]), "*.dot")))
        for name in pictures:
            if name.endswith((".as.dot", ".can.dot")):
                continue
            text = name[: -len(".dot")]
            plain = read(name)
            forms.update({form: len(found) for form, found in plain.items()})
            if os.path.exists(text + ".all"):
                check_all(text, plain)
                agreed += 1
            if os.path.exists(text + ".as.dot"):
                marked = read(text + ".as.dot")
                forms.update({form: len(found) for form, found in marked.items()})
                if os.path.exists(text + ".seen"):
                    marks.update(dict(zip(("unseen", "outside", "inside"), check_marked(text, marked, plain))))
                    agreed += 1
            if os.path.exists(text + ".can.dot"):
                helped = read(text + ".can.dot")
                forms.update({form: len(found) for form, found in helped.items()})
                if os.path.exists(text + ".wide"):
                    marks["helped"] += check_helped(text, helped, marked)
                    agreed += 1
        # no text is known in which no task sees a node that is drawn, or a port is the right to a start
        lacking = [form for form in FORMS if not forms[form] and form not in ("stub", "start")]
        if not pictures or not agreed or lacking or not all(marks[mark] for mark in ("unseen", "outside", "inside", "helped")):
            fail("pictures", f"{len(pictures)} were read and {agreed} compared, without {lacking}, with the marks {dict(marks)}")
        print(
            f"{len(pictures)} pictures of {sum(forms.values())} lines are of {len(FORMS)} forms; {agreed} agree with what hurd see prints:"
            f" {marks['inside']} nodes are wholly seen, of {marks['outside']} the attributes, and {marks['unseen']} not at all; of {marks['helped']} others could show more"
        )
    for failure in failures[:20]:
        print(failure)
    sys.exit(1 if failures else 0)


main()
