"""Does from Python what embed.c does from C.

python3 bench/embed.py FILES LINES WAY: LINES calls are in a text, 1 or more; WAY is what the rows are called. To write the lines is part of the work.
"""
import itertools
import sys
import time
from pathlib import Path
from typing import Callable, Iterator

sys.path.insert(0, str(Path(__file__).resolve().parents[1] / "examples/python"))
import hurd  # noqa: E402

DIRECTORY_SIZE = 1000
# The user's ports: their numbers go up.
PORTS = itertools.count(3)


def create(file: int) -> Iterator[str]:
    port = next(PORTS)
    yield f"1 dir_lookup 1 =d{file // DIRECTORY_SIZE}/f{file} WRITE,CREATE 644\n"
    yield f"1 io_write {port} =contents -1\n"
    yield f"1 port_deallocate {port}\n"


def stat(file: int) -> Iterator[str]:
    port = next(PORTS)
    yield f"1 dir_lookup 1 =d{file // DIRECTORY_SIZE}/f{file} - 0\n"
    yield f"1 io_stat {port}\n"
    yield f"1 port_deallocate {port}\n"


def make(world: hurd.World, lines: Iterator[str], most: int) -> None:
    """Makes these calls, so many in a text."""
    while text := "".join(itertools.islice(lines, most)):
        if "Refused" in world.make(text):
            sys.exit("a call is refused")


def measure(world: hurd.World, name: str, calls: Callable[[int], Iterator[str]], files: int, most: int) -> None:
    start = time.perf_counter_ns()
    make(world, itertools.chain.from_iterable(map(calls, range(files))), most)
    print(f"{name}: {files} done, {(time.perf_counter_ns() - start) // files} ns each")


def main(files: int, most: int, way: str) -> None:
    with hurd.World("task 0 0\ntask 1000 1000\ntask 1001 1001\n") as world:
        make(world, (f"0 dir_mkdir 1 =d{i} 777\n" for i in range((files + DIRECTORY_SIZE - 1) // DIRECTORY_SIZE)), most)
        measure(world, f"{way}, create", create, files, most)
        measure(world, f"{way}, stat", stat, files, most)
        world.learn("2")
        measure(world, f"{way}, stat, watched", stat, files, most)


if __name__ == "__main__":
    main(int(sys.argv[1]), int(sys.argv[2]), sys.argv[3])
