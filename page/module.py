#!/usr/bin/env python3
"""module.py PROGRAM OUT.bc: proves and builds a program of this checkout, and keeps the LLVM module that rattle makes of it.

It does what `rt ci PROGRAM` does, in the same process: it proves the program, and those crates below it that no earlier run on this machine proved. What passes
is kept for later runs. One thing is different: the clang that compiles the proved program keeps its input, and then does its work. So nothing is made unless
the program is proved.
"""
import functools
import os
import shutil
import sys
import tempfile

TOP = os.path.dirname(os.path.dirname(os.path.abspath(__file__)))
sys.path.insert(0, os.path.join(TOP, "tools"))
import kit

CLANG = """#!/bin/bash
for word in "$@"; do case "$word" in *.bc) cp "$word" {room}/kept.bc;; esac; done
exec {kit}/toolchain/bin/clang "$@"
"""


def keeping(at, room):
    """A toolchain whose clang keeps its input."""
    os.makedirs(f"{room}/bin")
    os.symlink(f"{at}/toolchain/lib", f"{room}/lib")
    for name in os.listdir(f"{at}/toolchain/bin"):
        if name != "clang":
            os.symlink(f"{at}/toolchain/bin/{name}", f"{room}/bin/{name}")
    with open(f"{room}/bin/clang", "w", encoding="utf-8") as file:
        file.write(CLANG.format(room=room, kit=at))
    os.chmod(f"{room}/bin/clang", 0o755)


def keep_module(rt, name, room):
    """Has rt prove this program anew, and compile it with that toolchain."""
    give, compile_by = rt.Kept.give, rt.Crate.compile_by

    @functools.wraps(give)
    def give_others(kept, crate, tests, key):
        return (tests or crate.name != name) and give(kept, crate, tests, key)

    @functools.wraps(compile_by)
    def compile_keeping(crate, backend, words, to):
        if crate.name == name and backend == "llvm":
            words = [room if before == "--toolchain" else word for before, word in zip([None, *words], words)]
        return compile_by(crate, backend, words, to)

    rt.Kept.give, rt.Crate.compile_by = give_others, compile_keeping


def main():
    name, to = sys.argv[1], os.path.abspath(sys.argv[2])
    rt = kit.load_rt()
    os.chdir(TOP)
    with tempfile.TemporaryDirectory() as room:
        keeping(rt.KIT, room)
        keep_module(rt, name, room)
        status = rt.main(["ci", name])
        if status:
            sys.exit(status)
        shutil.copy(f"{room}/kept.bc", to)


main()
