#!/usr/bin/env python3
"""assemble.py OUT.html MODULE.wasm: makes the page, one file that opens from a disk, without a network.

The parts of the page are in this folder. The examples and their first lines come from examples/, the checksum from sources.py.
"""
import base64
import hashlib
import json
import os
import re
import sys

import sources

HERE = os.path.dirname(os.path.abspath(__file__))
TOP = os.path.dirname(HERE)
NO_TOOLCHAIN = "assemble.py: there is no toolchain, so the page can't name the one that made its module"
SCRIPTS = ["read.js", "machine.js", "tree.js", "lecture.js", "page.js"]
FIRST = ["vote.hurd", "learned-secret.hurd", "learned-server.hurd", "learned-size.hurd", "learned-text.hurd", "learned-target.hurd", "strangers-file.hurd"]
TITLES = {
    "welcome.hurd": "The first script: root writes a text, and alice reads it.",
    "learned-secret.hurd": "Bob keeps a diary in his home, and closes his home. What does alice learn about it?",
    "learned-server.hurd": "Bob attaches servers to his nodes, and starts one of alice's. What does she learn, and does his chmod close his home?",
    "learned-size.hurd": "Bob's file is closed, but is in an open directory. What does alice learn about what he writes?",
    "learned-name.hurd": "Nobody may list a letter box, but everybody may put something in. Is the name of a letter a secret?",
    "learned-emptiness.hurd": "A directory that alice may not look into is in one of hers. What does she learn about its contents?",
    "learned-full-tree.hurd": "Bob stores a letter where alice may not look, in a tree with a limit. How long is it?",
    "learned-view.hurd": "Everything that alice sees, before and after bob closes his home.",
}
# after which command an example opens that has no line `# from here`
OPENS_AT = {"learned-emptiness.hurd": 6, "learned-name.hurd": 3, "learned-secret.hurd": 7, "learned-server.hurd": 5, "learned-size.hurd": 5, "learned-target.hurd": 10, "learned-trees.hurd": 9,
            "learned-view.hurd": 7, "learned-words.hurd": 3}


def text(*names):
    with open(os.path.join(*names), encoding="utf-8") as file:
        return file.read()


def about(name, script):
    """The first line that says what an example shows."""
    said = TITLES.get(name) or script.split("\n")[0].lstrip("# ")
    return said[0].upper() + said[1:]


def version():
    """The version of the program, as `hurd --version` prints it."""
    return re.search(r'^pub const VERSION: &str = "([^"<>&]*)";$', text(TOP, "crates", "hurd", "src", "release.rt"), re.M)[1]


def users(script):
    return [line.split()[1] for line in script.split("\n") if line.startswith("user ")]


def first_step(script):
    """After which command an example opens: the first one after `# from here`, if there is such a line; else none is named."""
    before, mark, after = script.partition("\n# from here\n")
    is_command = lambda line: line.strip() and not line.startswith(("#", "user "))
    return len([line for line in before.split("\n") if is_command(line)]) + 1 if mark and any(map(is_command, after.split("\n"))) else None


def examples():
    """Each example: its name, what it shows, who is chosen at first, and after which command it opens."""
    names = sorted(name for name in os.listdir(os.path.join(TOP, "examples")) if name.endswith((".hurd", ".calls")))
    found = []
    for name in FIRST + [name for name in names if name not in FIRST]:
        script, is_list = text(TOP, "examples", name), name.endswith(".calls")
        who = ["1"] if is_list else ["alice"] if "alice" in users(script) else ["root"]
        title = name.rsplit(".", 1)[0].replace("-", " ")
        found.append({"file": name, "title": title, "sort": "list" if is_list else "script", "who": who, "question": about(name, script), "text": script})
        at = OPENS_AT.get(name) or (None if is_list else first_step(script))
        if at:
            found[-1]["at"] = at
    return found


def block(kind, name, content):
    """Data in the page. The page runs none of it as code, and nothing in it ends the block."""
    return f'<script type="{kind}" id="{name}">{content.replace("<", chr(92) + "u003c") if kind == "application/json" else content}</script>\n'


def hashed(content):
    return "'sha256-" + base64.b64encode(hashlib.sha256(content.encode()).digest()).decode() + "'"


def main():
    out, module = sys.argv[1:]
    style = text(HERE, "page.css")
    script = "\n".join(text(HERE, name) for name in SCRIPTS) + "Page.begin();\n"
    worker = text(HERE, "worker.js")
    lecture = json.loads(text(HERE, "lecture.json"))
    for step in lecture["steps"]:
        if "example" in step and not step["example"].endswith((".hurd", ".calls")):
            step["example"] += ".hurd"
    blocks = block("text/plain", "worker", worker)
    blocks += block("application/json", "examples", json.dumps(examples()))
    blocks += block("application/json", "help-texts", text(HERE, "help.json"))
    blocks += block("application/json", "lecture-texts", json.dumps(lecture))
    with open(module, "rb") as file:
        blocks += block("application/octet-stream", "module", base64.b64encode(file.read()).decode())
    policy = "default-src 'none'; script-src " + hashed(script) + " 'wasm-unsafe-eval'; worker-src blob:; style-src " + hashed(style) + "; base-uri 'none'; form-action 'none'"
    page = text(HERE, "index.html")
    for mark, content in {
        "<!-- policy -->": f'<meta http-equiv="Content-Security-Policy" content="{policy}">\n<meta name="sources" content="{sources.total()}">\n<meta name="toolchain" content="{sources.toolchain() or sys.exit(NO_TOOLCHAIN)}">\n<meta name="version" content="{version()}">',
        "<!-- style -->": f"<style>{style}</style>",
        "<!-- blocks -->": blocks + f"<script>{script}</script>",
    }.items():
        if page.count(mark) != 1:
            sys.exit(f"index.html has {mark} {page.count(mark)} times")
        page = page.replace(mark, content)
    if "</script" in re.sub(r"(?s)<script.*?</script>", "", page):
        sys.exit("a block of the page ends too early")
    with open(out, "w", encoding="utf-8") as file:
        file.write(page)


main()
