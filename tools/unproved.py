#!/usr/bin/env python3
"""unproved.py ARG..: compiles the program hurd of this checkout without a proof, and runs it as hurd ARG.. with the files of this machine.

It takes the toolchain's `rt try`, which compiles with checks, keeps nothing, and takes a minute or two. Standard error says so, and how long it has taken.
"""
import os
import re
import subprocess
import sys
import threading
import time

TOP = os.path.dirname(os.path.dirname(os.path.abspath(__file__)))
OWN = re.compile(r"(checked: |interpreted: |run=|rt: |rattle: )")


def tell_time(done):
    """Says every ten seconds how long it has taken."""
    began = time.monotonic()
    while not done.wait(10):
        print(f"hurd: compiling, {time.monotonic() - began:.0f} s", file=sys.stderr, flush=True)


def given(words):
    """The words, and what gives the program the files that they name."""
    data, ends = [], False
    for number, word in enumerate(words):
        if (ends or not word.startswith("-")) and number and os.path.isfile(word):
            data += ["--data", f"{number}-{os.path.basename(word)}={os.path.abspath(word)}"]
            word = f"{number}-{os.path.basename(word)}"
        ends = ends or word == "--"
        yield word, data


def main():
    words, data = [], []
    for word, data in given(sys.argv[1:]):
        words.append(word)
    print("hurd: there is no proved program of these sources: one is compiled WITHOUT A PROOF, which takes a minute or two", file=sys.stderr, flush=True)
    done = threading.Event()
    threading.Thread(target=tell_time, args=(done,), daemon=True).start()
    ran = subprocess.run(["rt", "try", *data, "--", *words], cwd=f"{TOP}/crates/hurd", stderr=subprocess.PIPE)
    done.set()
    said = [line for line in ran.stderr.decode(errors="replace").splitlines(True) if not OWN.match(line)]
    sys.stderr.write("".join(said))
    sys.exit(ran.returncode)


main()
