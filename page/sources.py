#!/usr/bin/env python3
"""The checksum of what the page is made of: the code (src/) of its program and of all crates that it depends on, the examples, and page/. It does not use git.

Definitions and proofs are not in it: they change nothing in the page. The toolchain isn't either, so that the checksum is the same where there is none; a page
names its toolchain by itself.

`sources.py` prints it; `sources.py PAGE` compares it with the checksum of the sources from which a page was made, and the toolchain, if there is one, with that of
the page.
"""
import hashlib
import os
import re
import shutil
import subprocess
import sys

HERE = os.path.dirname(os.path.abspath(__file__))
TOP = os.path.dirname(HERE)
PROGRAM = "hurd"
# not sources of the page: what is made, and folders of it
MADE = {"out", "__pycache__", "must-fail"}


def below(name):
    """This crate and all crates of this repository that it depends on, by crates.txt; each with its own dependencies."""
    lines = {}
    with open(os.path.join(TOP, "crates.txt"), encoding="utf-8") as file:
        for line in file:
            if ":" in line.split("#")[0]:
                crate, uses = line.split("#")[0].split(":")
                lines[crate.strip()] = uses.split()
    found, rest = {}, [name]
    while rest:
        name = rest.pop()
        if name in lines and name not in found:
            found[name] = lines[name]
            rest.extend(lines[name])
    return found


def files():
    folders = [os.path.join("crates", name, "src") for name in below(PROGRAM)] + ["examples", "page"]
    found = []
    for folder in folders:
        for at, inner, names in os.walk(os.path.join(TOP, folder)):
            inner[:] = [name for name in inner if name not in MADE]
            found.extend(os.path.relpath(os.path.join(at, name), TOP) for name in names)
    return sorted(name for name in found if not name.endswith((".html", ".transcript", ".learned", ".could")) or name == os.path.join("page", "index.html"))


def total():
    sums = hashlib.sha256()
    for crate, uses in sorted(below(PROGRAM).items()):
        sums.update(" ".join([crate + ":", *uses, "\n"]).encode())
    for name in files():
        with open(os.path.join(TOP, name), "rb") as file:
            sums.update(name.encode() + b"\0" + hashlib.sha256(file.read()).digest())
    return sums.hexdigest()


def toolchain():
    """The name of the toolchain that is here, or None."""
    if not shutil.which("rt"):
        return None
    said = subprocess.run(["rt", "version"], stdout=subprocess.PIPE, stderr=subprocess.DEVNULL, text=True)
    return said.stdout.strip() if said.returncode == 0 else None


def made_of(page):
    """The checksum of the sources from which a page was made, and its toolchain."""
    with open(page, encoding="utf-8") as file:
        head = file.read(100000)
    found = [re.search(rf'<meta name="{name}" content="([^"<>]*)">', head) for name in ("sources", "toolchain")]
    return [it and it[1] for it in found]


def verdict(page):
    made, by = made_of(page)
    if made != total():
        return "page: older than the program"
    return "page: of this program" if toolchain() in (None, by) else "page: made by another toolchain"


if __name__ == "__main__":
    print(total() if len(sys.argv) == 1 else verdict(sys.argv[1]))
