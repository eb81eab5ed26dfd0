#!/usr/bin/env python3
"""take.py: gives this checkout the libraries that earlier runs on this machine proved from the same sources, so that the kit proves none of them again.

It does what the kit's rt does before it proves a crate. It stops at the first library that nothing on this machine proved: the status is then 1.
"""
import os
import shutil
import sys

import kit

TOP = os.path.dirname(os.path.dirname(os.path.abspath(__file__)))


def take(kept, crate):
    """Whether the crate's library is there, or was given."""
    if not crate.is_built():
        shutil.rmtree(f"{crate.folder}/out/rlib", ignore_errors=True)
        os.makedirs(f"{crate.folder}/out", exist_ok=True)
        if not kept.give(crate, False, kept.key(crate)):
            return False
        with open(f"{crate.folder}/out/rlib/stamp", "w", encoding="utf-8") as file:
            file.write(crate.stamp())
    kept.is_built(crate)
    return True


def main():
    rt = kit.load_rt()
    os.chdir(TOP)
    # lowest first
    libraries = [crate for crate in rt.crates_of(TOP) if not crate.is_program and not crate.is_static]
    kept = rt.Kept(libraries)
    for crate in libraries:
        if not take(kept, crate):
            sys.exit(f"take.py: nothing on this machine proved {crate.name} from these sources")


if __name__ == "__main__":
    main()
