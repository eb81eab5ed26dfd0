"""Tests of hurd.py, for pytest, or alone: python3 examples/python/test_hurd.py

The transcripts of the examples and of the tests say what texts print; tests/texts says which texts are bad, and why.
"""
from __future__ import annotations

import copy
import ctypes
import re
import subprocess
import sys
import threading
from pathlib import Path
from typing import Any, Callable, Dict, Iterator, List, NamedTuple, Optional, Tuple, Type

import hurd
from hurd import Kind, World

ROOT = Path(__file__).resolve().parents[2]
LISTS = sorted([*ROOT.glob("examples/*.calls"), *ROOT.glob("tests/calls/*.calls")])
SCRIPTS = sorted([*ROOT.glob("examples/*.hurd"), *ROOT.glob("tests/scripts/*.hurd")])
LEARNED = sorted(ROOT.glob("examples/learned-*.learned"))
COULD = sorted(ROOT.glob("examples/*.could"))

# A world of root and a user, in which root keeps a file open.
TASKS = "task 0 0\ntask 1000 1000\n"
FILE = TASKS + "0 dir_lookup 1 =motd READ,WRITE,CREATE 644"
SCRIPT = "user alice 1000 1000\nroot put /motd Welcome\\n\nalice cat /motd\n"


def told_of(path: Path) -> str:
    """The text of a file, as the module returns texts: an end of a line stays as it is."""
    return path.read_bytes().decode("utf-8", "surrogateescape")


def split(text: str) -> Tuple[str, List[str]]:
    """The tasks of a list, and its calls, a line each."""
    lines = [line for line in text.splitlines(keepends=True) if line.strip() and not line.startswith("#")]
    return "".join(line for line in lines if line.startswith("task")), [line for line in lines if not line.startswith("task")]


def raises(fault: Type[BaseException], does: Callable[[], Any]) -> Any:
    """The exception of this very class that something raises."""
    try:
        does()
    except BaseException as raised:
        assert type(raised) is fault, f"{raised!r} was raised"
        return raised
    raise AssertionError(f"{fault.__name__} wasn't raised")


class Row(NamedTuple):
    """A text of tests/texts: its first bad line, or 0, and why that is bad."""

    text: bytes
    line: int
    reason: str


def rows(name: str) -> Iterator[Row]:
    """The rows of a file of tests/texts, in which texts are as printf writes them."""
    reason = ""
    for line in (ROOT / "tests/texts" / name).read_text().splitlines():
        head, _, rest = line.partition(": ")
        if head == "reason":
            reason = rest
        elif head == "good" or head.isdigit():
            text = rest.encode().decode("unicode_escape").encode("latin-1")
            yield Row(text, 0 if head == "good" else int(head), reason)


# Texts and what they tell.


def test_there_are_texts() -> None:
    assert len(LISTS) > 60 and len(SCRIPTS) > 60 and len(LEARNED) > 20 and COULD


def test_lists_at_once() -> None:
    for path in LISTS:
        with World(path.read_bytes()) as world:
            assert world.told == told_of(path.with_suffix(".transcript")), path


def test_lists_a_call_at_a_time() -> None:
    for path in LISTS:
        tasks, calls = split(told_of(path))
        with World(tasks) as world:
            assert world.told == "", path
            assert "".join(map(world.make, calls)) == told_of(path.with_suffix(".transcript")), path


# CALLS AS NUMBERS AND BYTES

OPEN_FLAGS = {name: 1 << bit for bit, name in enumerate("READ WRITE EXEC APPEND CREATE EXCL NOTRANS NOLINK DIRECTORY".split())}
SET_FLAGS = {"SET": 1, "EXCL": 2, "ORPHAN": 4}
GO_FLAGS = {"FORCE": 1, "NOSYNC": 2, "NOWAIT": 4}
WHENCE = {"Set": 0, "Current": 1, "End": 2}
# What comes after the port of a call in a line of a list.
ARGUMENTS = {
    "port_send": "to", "io_read": "amount offset", "io_write": "data offset", "io_seek": "offset whence", "io_set_all_openmodes": "flags", "io_restrict_auth": "ids",
    "io_identity": "other", "file_chmod": "mode", "file_chown": "owner group", "file_set_size": "amount", "fsys_getroot": "other flags", "fsys_goaway": "goaway",
    "fsys_set_options": "words", "dir_lookup": "data flags mode", "dir_mkdir": "data mode", "dir_mkfile": "flags mode", "dir_rmdir": "data", "dir_unlink": "data",
    "dir_link": "data other", "dir_rename": "name other new", "file_set_translator": "passive active goaway words",
}


def bits(word: str, names: Dict[str, int]) -> int:
    """The bits of flags by their names."""
    return 0 if word == "-" else sum({names[name] for name in word.split(",")})


def spelled(word: str) -> bytes:
    """What a word of a list spells, after its `=`."""
    assert word[0] == "=", word
    escapes = {"s": b" ", "n": b"\n", "\\": b"\\"}
    parts = re.findall(r"\\x..|\\.|[^\\]", word[1:])
    return b"".join(bytes([int(part[2:], 16)]) if part[:2] == "\\x" else escapes[part[1]] if part[0] == "\\" else part.encode() for part in parts)


def numbers_of(line: str) -> Tuple[int, int, bytes, Dict[str, int]]:
    """The call of a line: its task, which it is, its bytes and its other numbers."""
    task, name, *rest = line.split()
    data, numbers = b"", {}
    if name not in ("port_receive", "start_failed", "auth_makeauth", "fsys_startup"):
        numbers["port"] = int(rest.pop(0))
    for kind in ARGUMENTS.get(name, "ids" if name == "auth_makeauth" else "words" if name == "fsys_startup" else "").split():
        if kind == "words":
            box = rest.index("box") if "box" in rest else len(rest)
            words = [spelled(word) for word in rest[:box] + rest[box + 1:]]
            data, numbers["amount"], numbers["brings"] = b"".join(word + b"\0" for word in words), box, box < len(rest)
            break
        word = rest.pop(0)
        if kind == "ids":
            data = (word + "\0" + rest.pop(0) + "\0").encode()
        elif kind in ("data", "name", "new"):
            data += spelled(word)
            if kind == "name":
                numbers["amount"] = len(data)
        elif kind in ("flags", "passive", "active", "goaway"):
            numbers[kind.replace("passive", "flags")] = bits(word, OPEN_FLAGS if kind == "flags" else GO_FLAGS if kind == "goaway" else SET_FLAGS)
        else:
            numbers[kind.replace("whence", "flags")] = WHENCE[word] if kind == "whence" else int(word, 8 if kind == "mode" else 10)
    return int(task), hurd.Call[name.upper()], data, numbers


def shown(data: bytes) -> str:
    """Bytes as a list shows them, after `=`."""
    odd = {32: "\\s", 10: "\\n", 92: "\\\\"}
    return "=" + "".join(odd.get(byte) or (chr(byte) if 33 <= byte <= 126 else f"\\x{byte:02x}") for byte in data)


def reply_text(reply: hurd.Reply) -> str:
    """A reply as `hurd run --calls` prints it, without the two spaces before it."""
    names = [name for name, bit in OPEN_FLAGS.items() if reply.number & bit]
    kind = "File Dir Link Fifo Char".split()[reply.kind]
    retry = "NORMAL REAUTH MAGICAL".split()[reply.retry]
    return {
        hurd.Which.DONE: lambda: "Done",
        hurd.Which.FOUND: lambda: f"Found Done {reply.number}",
        hurd.Which.RETRY: lambda: f"Found Retry {retry} {shown(reply.data)}" + (f" {reply.number}" if retry != "MAGICAL" else ""),
        hurd.Which.START: lambda: " ".join(["Found Start", *map(shown, reply.words)]),
        hurd.Which.PORT: lambda: f"Port {reply.number}",
        hurd.Which.DATA: lambda: f"Data {shown(reply.data)}",
        hurd.Which.COUNT: lambda: f"Count {reply.number}",
        hurd.Which.NAMES: lambda: " ".join(["Names", *map(shown, reply.words)]),
        hurd.Which.WORDS: lambda: " ".join(["Words", *map(shown, reply.words)]),
        hurd.Which.STAT: lambda: f"Stat {kind} {reply.owner} {reply.group} {reply.mode:06o} {reply.links} {reply.size}" + " passive" * (reply.translators & 1) + " active" * (reply.translators >> 1),
        hurd.Which.MODES: lambda: f"Modes {','.join(names) or '-'}",
        hurd.Which.SAME: lambda: f"Same {'true' if reply.number else 'false'}",
        hurd.Which.REFUSED: lambda: f"Refused {hurd.Error(reply.error).name}",
        hurd.Which.BACK: lambda: f"Back {hurd.Error(reply.error).name}",
    }[reply.which]()


def by_numbers(world: World, line: str) -> str:
    """What a call prints that is made as numbers and bytes, with what is learned from it. Its own line is read back."""
    task, call, data, numbers = numbers_of(line)
    assert numbers_of(hurd.line(task, call, data, **numbers))[:3] == (task, call, data), line
    reply = world.call(task, call, data, room=1 << 20, **numbers)
    return f"{line.strip()}\n  {reply_text(reply)}\n{world.told}"


def test_lists_as_numbers() -> None:
    """Each call of each list has the same reply as numbers and bytes."""
    for path in LISTS:
        tasks, calls = split(told_of(path))
        with World(tasks) as world:
            assert "".join(by_numbers(world, line) for line in calls) == told_of(path.with_suffix(".transcript")), path


def test_lessons_of_numbers() -> None:
    """Who is watched learns from calls as numbers what he learns from their text."""
    for path in LISTS:
        tasks, calls = split(told_of(path))
        for who in ("0", "1", "0,1") if tasks.count("task") > 1 else ("0",):
            with World(tasks) as texts, World(tasks) as numbers:
                texts.learn(who)
                numbers.learn(who)
                for line in calls:
                    lessons = [said for said in texts.make(line).splitlines() if re.match(r"  tasks? [0-9,]+ learns?: ", said)]
                    by_numbers(numbers, line)
                    assert numbers.told.splitlines() == lessons, (path, line)


def test_lines_of_numbers() -> None:
    """The line of a call as numbers makes the same call."""
    for path in LISTS:
        tasks, calls = split(told_of(path))
        with World(tasks) as world:
            made = [hurd.line(*numbers_of(line)[:3], **numbers_of(line)[3]) for line in calls]
            told = "".join(map(world.make, made)).splitlines()[1::2]
            assert told == told_of(path.with_suffix(".transcript")).splitlines()[1::2], path


def test_bad_numbers() -> None:
    """Numbers and bytes that make no call are refused, and nothing changes."""
    with World(FILE) as world:
        bad: List[Tuple[int, int, bytes, Dict[str, int]]] = [
            (0, 0, b"", {}), (0, 38, b"", {}), (0, 2**32 - 1, b"", {}), (0, hurd.Call.DIR_LOOKUP, b"x", {"port": 1, "flags": 512}),
            (0, hurd.Call.DIR_LOOKUP, b"x", {"port": 1, "flags": 2**31}), (0, hurd.Call.IO_SEEK, b"", {"port": 3, "flags": 3}), (0, hurd.Call.FSYS_GOAWAY, b"", {"port": 3, "goaway": 8}),
            (0, hurd.Call.FILE_SET_TRANSLATOR, b"/hurd/null\0", {"port": 3, "flags": 8}), (0, hurd.Call.FILE_SET_TRANSLATOR, b"/hurd/null", {"port": 3, "flags": 1}),
            (0, hurd.Call.FILE_SET_TRANSLATOR, b"/hurd/null\0", {"port": 3, "active": 1, "brings": 1, "amount": 2}),
            (0, hurd.Call.FILE_SET_TRANSLATOR, b"/hurd/nothing\0", {"port": 3, "active": 1, "brings": 1}), (0, hurd.Call.FSYS_STARTUP, b"", {}),
            (0, hurd.Call.FSYS_SET_OPTIONS, b"x\0" * 33, {"port": 3}), (0, hurd.Call.DIR_RENAME, b"ab", {"port": 1, "amount": 3}), (0, hurd.Call.AUTH_MAKEAUTH, b"0\0", {}),
            (0, hurd.Call.AUTH_MAKEAUTH, b"0\0x\0", {}), (0, hurd.Call.AUTH_MAKEAUTH, b"\xff\0-\0", {}), (0, hurd.Call.IO_RESTRICT_AUTH, b"0\0-\0x", {"port": 3}),
        ]
        before = world.make("0 io_stat 3")
        for task, call, data, numbers in bad:
            raises(hurd.NoCall, lambda: world.call(task, call, data, **numbers))
            raises(hurd.NoCall, lambda: hurd.line(task, call, data, **numbers))
        assert world.make("0 io_stat 3") == before
        assert world.call(7, hurd.Call.IO_STAT, port=3).error == hurd.Error.ESRCH and world.call(1, hurd.Call.IO_STAT, port=2**64 - 1).error == hurd.Error.EBADF
        raises(TypeError, lambda: world.call(0, hurd.Call.IO_STAT, ports=3))
        raises(ValueError, lambda: world.call(0, hurd.Call.IO_STAT, port=-1))
        raises(ValueError, lambda: world.call(2**32, hurd.Call.IO_STAT, port=3))
        whole = bytes(range(256)) * 65536
        assert world.call(0, hurd.Call.IO_WRITE, whole, port=3, offset=0).number == len(whole) == 2**24
        assert world.call(0, hurd.Call.IO_WRITE, b"x", port=3, offset=2**24).error == hurd.Error.EFBIG
        raises(hurd.NoCall, lambda: hurd.line(0, hurd.Call.IO_WRITE, whole, port=3, offset=0))
        part = world.call(0, hurd.Call.IO_READ, port=3, amount=65536, offset=256, room=100)
        assert (part.number, part.length, part.data) == (65536, 65536, bytes(range(100)))
    raises(hurd.NoWorld, lambda: world.call(0, hurd.Call.IO_STAT, port=3))
    with World(FILE) as world:
        world.call(0, hurd.Call.DIR_MKDIR, b"d", port=1, mode=0o755)
        with world.fork() as other:
            for each in (world, other):
                root = each.call(0, hurd.Call.DIR_LOOKUP, b"", port=1, flags=1).number
                assert each.call(0, hurd.Call.DIR_READDIR, port=root).words == [b".", b"..", b"motd", b"d"]
                # the names take 12 bytes: with less room that is said, also where a name ends
                assert each.call(0, hurd.Call.DIR_READDIR, port=root, room=12).words == [b".", b"..", b"motd", b"d"]
                short = each.call(0, hurd.Call.DIR_READDIR, port=root, room=10)
                assert (short.number, short.length, short.data) == (4, 12, b".\0..\0motd\0")
                raises(ValueError, lambda: short.words)


# PATHS

PATHS = [b"", b"/", b"home", b"home/x", b"x", b"/motd", b"no/such", b"dev/fd/1", b"l", b"/home/alice/f", b"tmp/", b"x/y/z", b"a b\n\xff", b"d/d/d", b"p", b"h"]


def lines_in(told: str) -> str:
    """The lines of the calls in what was told: all but replies and lessons."""
    return "\n".join(line for line in told.split("\n") if line and line[0] not in " |")


def test_openings_as_text() -> None:
    """An opening prints what its calls print as a text, with what is learned from them, and leaves the same world. Its reply is the last one of its lookups."""
    opened = 0
    for path in LISTS:
        tasks, calls = split(told_of(path))
        count = tasks.count("task")
        for who in ("", "0"):
            with World(tasks + "".join(calls)) as world, World(tasks + "".join(calls)) as texts:
                for each in (world, texts):
                    each.learn(who)
                for number, name in enumerate(PATHS):
                    opened += 1
                    task, flags = number % count, (1, 64, 129, 17, 256)[number % 5]
                    reply = world.open(task, name, port=1 + number % 2, flags=flags, mode=0o644)
                    assert texts.make(lines_in(world.told)) == world.told, (path, name)
                    answers = [line.lstrip("| ") for line in world.told.split("\n") if re.match(r"(\|   |  )(Found|Refused)", line)]
                    if reply.which == hurd.Which.PORT:
                        assert answers[-1] == f"Found Done {reply.number}", (path, name)
                        continue
                    assert reply.which == hurd.Which.REFUSED, (path, name)
                    # a refusal is that of a call, or the opening's own: too many lookups, a start that failed, or a magical name that leads nowhere
                    own = {hurd.Error.ELOOP: world.told.count("dir_lookup") == 33, hurd.Error.ENOENT: "start_failed" in world.told or "MAGICAL" in answers[-1]}
                    assert f"Refused {hurd.Error(reply.error).name}" in answers or own.get(hurd.Error(reply.error)), (path, name)
    assert opened > 1000


def test_openings_follow() -> None:
    """Links, translators that wait, words that make no server, and a way that never ends."""
    tree = "task 0 0\ntask 1000 1000\n0 dir_lookup 1 =f WRITE,CREATE 644\n0 io_write 3 =text -1\n0 dir_lookup 1 =l NOTRANS,CREATE 644\n0 file_set_translator 4 SET - - =/hurd/symlink =/f\n"
    tree += "0 dir_lookup 1 =h NOTRANS,CREATE 644\n0 file_set_translator 5 SET - - =/hurd/hello\n0 dir_lookup 1 =n NOTRANS,CREATE 644\n0 file_set_translator 6 SET - - =/hurd/nothing\n"
    tree += "0 dir_lookup 1 =r NOTRANS,CREATE 644\n0 file_set_translator 7 SET - - =/hurd/symlink =r\n"
    tree += "".join(f"0 port_deallocate {port}\n" for port in range(3, 8))
    with World(tree) as world:
        assert world.open(1, b"l", flags=1).number and "MAGICAL =/f" in world.told
        found = world.open(1, b"h", flags=1)
        assert found.which == hurd.Which.PORT and "1 fsys_startup box =/hurd/hello\n  Done\n" in world.told
        assert world.call(1, hurd.Call.IO_READ, port=found.number, amount=5, offset=0).data == b"Hello"
        missing = world.open(1, b"n", flags=1)
        assert missing.error == hurd.Error.ENOENT and world.told.endswith("1 start_failed\n  Done\n")
        assert world.open(1, b"r", flags=1).error == hurd.Error.ELOOP and world.told.count("dir_lookup") == 33
        assert world.open(1, b"f", flags=2).error == hurd.Error.EACCES and world.open(7, b"f").error == hurd.Error.ESRCH
        with world.fork() as other:
            assert other.open(0, b"f", port=1).number == world.open(0, b"f", port=1).number and other.told == world.told


def test_bad_openings() -> None:
    """Flags that are unknown and paths that have no line are refused, and nothing changes."""
    with World(FILE) as world:
        before = world.make("0 io_stat 3")
        raises(hurd.NoCall, lambda: world.open(0, b"motd", flags=512))
        raises(hurd.NoCall, lambda: world.open(0, b"\n" * 2**20, flags=1))
        assert world.told == ""
        assert world.open(0, b"x" * 1025, flags=1).error == hurd.Error.ENAMETOOLONG
        raises(ValueError, lambda: world.open(-1, b"motd"))
        raises(TypeError, lambda: world.open(0, b"motd", owner=1))  # type: ignore[call-arg]
        assert world.make("0 io_stat 3") == before
        with world.fork() as other:
            assert other.make("0 io_stat 3") == before
    raises(hurd.NoWorld, lambda: world.open(0, b"motd"))


def test_lists_in_a_world_of_their_own() -> None:
    for path in LISTS:
        assert hurd.run(path.read_bytes(), Kind.CALLS) == told_of(path.with_suffix(".transcript")), path


def test_scripts() -> None:
    for path in SCRIPTS:
        assert hurd.run(path.read_bytes()) == told_of(path.with_suffix(".transcript")), path


def test_what_alice_learns() -> None:
    for path in LEARNED:
        script, calls = path.with_suffix(".hurd"), path.with_suffix(".calls")
        if script.exists():
            assert hurd.learn(script.read_bytes(), "alice") == told_of(path), path
        else:
            assert hurd.learn(calls.read_bytes(), "1", Kind.CALLS) == told_of(path), path


def test_texts_are_told_from_errors() -> None:
    """What a command puts out and the error that refuses it have marks of their own, and so has a last line without its newline."""
    script = "user alice - -\nroot put /f EACCES\nroot mkdir /d\\nd\n# from here\nalice cat /f\nalice put /f x\nalice cat\nalice ls /\n"
    assert hurd.learn(script, "alice").split("\n\n")[2:] == [
        "alice$ cat /f\n| EACCES\n\\ no newline",
        "alice$ put /f x\n! EACCES",
        "alice$ cat\n! usage",
        "alice$ ls /\n| f\n| d\n: d",
        "alice learned from 0 of 0 commands by others\n",
    ]


def test_what_a_task_learns_in_a_world() -> None:
    """A call at a time, without the last line, which counts. Lists with comments for who learns are left out: a world takes these as comments."""
    for path in LEARNED:
        calls = path.with_suffix(".calls")
        text = told_of(calls) if calls.exists() else "# see"
        if "# see" in text or "# from here" in text:
            continue
        tasks, lines = split(text)
        paragraphs, _, last = told_of(path)[:-1].rpartition("\n")
        assert last.startswith("task 1 learned from "), path
        with World(tasks) as world:
            world.learn("1")
            assert "".join(map(world.make, lines)) == paragraphs + "\n", path


def test_who_learns_changes() -> None:
    with World("task 0 0\ntask - -\n") as world:
        world.learn("1")
        assert world.make("0 dir_mkdir 1 =d 700") == "0 dir_mkdir 1 =d 700\n|   Done\n  task 1 learns: /: entries + d\n  task 1 learns: /d: new: attributes\n\n"
        assert raises(hurd.Unknown, lambda: world.learn("2")).who == "2"
        assert world.make("0 dir_rmdir 1 =d") == "0 dir_rmdir 1 =d\n|   Done\n  task 1 learns: /: entries - d\n  task 1 learns: /d: no longer seen\n\n"
        world.learn()
        assert world.make("0 dir_mkdir 1 =e 700") == "0 dir_mkdir 1 =e 700\n  Done\n"


def test_see() -> None:
    told = hurd.see("user alice 1000 1000\nuser bob - -\nroot put /f x\nbob cat /f\n", "alice")
    assert told.splitlines()[:2] == [
        "  alice sees: /: d000755 1 0 0 0, served by / (server), entries f, program /hurd/tmpfs, root /, runs as 0",
        "  alice sees: /f: -000644 1 0 0 1, served by / (server), bytes x",
    ]
    assert hurd.see(TASKS, "1", Kind.CALLS).endswith("  task 1 sees: tasks: 2\n")


def test_what_alice_could_be_shown() -> None:
    for path in COULD:
        assert hurd.can(path.with_suffix(".hurd").read_bytes(), "alice") == told_of(path), path


def test_can() -> None:
    """The parts are bytes, entries and nodes, or every part; help is that of users, or of tasks."""
    script, last = "user alice - -\nroot put /f x\nroot chmod 600 /f\n", "; help is any act that touches what alice sees, meant or not"
    bytes_line = "  alice could see: /f: bytes: with root; seen before by alice"
    assert hurd.can(script, "alice") == f"{bytes_line}\nalice could be shown 1 part{last}\n"
    lines = hurd.can(script, "alice", every=True).splitlines()
    assert lines[0] == bytes_line and len(lines) > 2
    assert lines[-1] == f"alice could be shown {len(lines) - 1} parts{last}"
    assert hurd.can(TASKS + "0 dir_mkdir 1 =d 700", "1", kind=Kind.CALLS).startswith("  task 1 could see: /d: entries: with task 0\ntask 1 could be shown 1 part; ")


def test_draw() -> None:
    for picture in (hurd.draw(SCRIPT), hurd.draw(FILE, kind=Kind.CALLS)):
        assert picture.startswith("digraph hurd {\n") and picture.endswith("\n}\n")
        assert "<b>motd</b>" in picture and "<b>alice sees</b>:" not in picture
    assert "What <b>alice sees</b>:" in hurd.draw(SCRIPT, "alice")


# Texts that are bad.


def test_lists_that_are_bad() -> None:
    for text, line, reason in rows("lists"):
        if not line:
            World(text).close()
            continue
        assert raises(hurd.BadText, lambda: World(text)).line == line, text
        fault = raises(hurd.BadText, lambda: hurd.run(text, Kind.CALLS))
        assert fault.line == line and reason in fault.reason, (text, fault.reason)


def test_scripts_that_are_bad() -> None:
    for text, line, reason in rows("scripts"):
        if not line:
            hurd.run(text)
            continue
        fault = raises(hurd.BadText, lambda: hurd.run(text))
        assert fault.line == line and reason in fault.reason, (text, fault.reason)


def test_the_reason_is_as_the_command_gives_it() -> None:
    fault = raises(hurd.BadText, lambda: hurd.learn("root ls /\nroot frob /tmp", "root"))
    assert (fault.line, fault.reason) == (2, "2: bad script: no such command\n  root frob /tmp")
    assert str(fault) == fault.reason


def test_a_bad_line_in_the_middle() -> None:
    """No call is made, and the world goes on."""
    with World(FILE) as world:
        assert raises(hurd.BadText, lambda: world.make("0 io_seek 3 7 Set\n\nnonsense\n0 io_seek 3 8 Set")).line == 3
        assert world.told == ""
        assert world.make("0 io_seek 3 0 Current") == "0 io_seek 3 0 Current\n  Count 0\n"


def test_a_task_where_none_may_be() -> None:
    with World(FILE) as world:
        for text in ("task 5 5", "task 5 5\n0 io_seek 3 7 Set"):
            assert raises(hurd.BadText, lambda: world.make(text)).line == 0
        assert world.make("0 io_seek 3 0 Current") == "0 io_seek 3 0 Current\n  Count 0\n"
        assert raises(hurd.BadText, lambda: world.make("0 io_seek 3 7 Set\ntask 5 5")).line == 2


def test_long_texts() -> None:
    """A megabyte is the longest text."""
    longest = TASKS + "#" * (1048576 - len(TASKS))
    with World(longest) as world:
        assert world.told == ""
        assert world.make("#" * 1048576) == ""
        for does in (lambda: world.make("#" * 1048577), lambda: hurd.run(longest + "#", Kind.CALLS), lambda: hurd.run("#" * 1048577)):
            assert raises(hurd.BadText, does).line == 0
    raises(hurd.BadText, lambda: World(longest + "#"))
    assert hurd.run("#" * 1048576) == hurd.run(longest, Kind.CALLS) == ""


def test_much_is_told() -> None:
    """More than there is room for at first, of a world and of a text; what is told is that of all calls."""
    call, count = "0 io_seek 3 0 Current", 40000
    told = f"{call}\n  Count 0\n" * count
    with World(FILE) as world:
        first = world.told
        assert world.make(f"{call}\n" * count) == told == world.told
    assert hurd.run(f"{FILE}\n" + f"{call}\n" * count, Kind.CALLS) == first + told


def test_bytes() -> None:
    """Bytes above 127 and NUL are bad in words, and stand in comments; in words they are spelt."""
    with World("# caf\u00e9\n" + TASKS + "0 dir_lookup 1 =caf\\xc3\\xa9 READ,WRITE,CREATE 644") as world:
        assert world.told == "0 dir_lookup 1 =caf\\xc3\\xa9 READ,WRITE,CREATE 644\n  Found Done 3\n"
        for text in ("0 dir_lookup 1 =caf\u00e9 READ 0", b"0 dir_lookup 1 =caf\xe9 READ 0", "0 dir_lookup 1 =caf\udce9 READ 0", "0 io_stat\0 1"):
            assert raises(hurd.BadText, lambda: world.make(text)).line == 1
        told = "0 io_write 3 =\\xff\\x00 -1\n  Count 2\n"
        assert world.make(b"# \xff\x00\n0 io_write 3 =\\xff\\x00 -1") == world.fork().told == told
        raises(UnicodeEncodeError, lambda: world.make("# \ud800"))


def test_bytes_of_a_script_come_back() -> None:
    """What a script prints are the bytes of its files: UTF-8 is text, and others are escaped."""
    for path in SCRIPTS:
        assert hurd.run(told_of(path)).encode("utf-8", "surrogateescape") == path.with_suffix(".transcript").read_bytes(), path


# Who isn't there, and what is none.


def test_nobody_knows_them() -> None:
    for who in ("nobody", "alice,nobody"):
        for does in (hurd.learn, hurd.see, hurd.can, hurd.draw):
            fault = raises(hurd.Unknown, lambda: does(SCRIPT, who))
            assert fault.who == who and fault.reason == f"no such user: {who}"
    assert raises(hurd.Unknown, lambda: hurd.see(TASKS, "99", Kind.CALLS)).reason == "no such task: 99"
    with World(TASKS) as world:
        for who in ("2", "4294967295", "alice", "1,"):
            assert raises(hurd.Unknown, lambda: world.learn(who)).who == who


def test_kinds() -> None:
    for kind in (2, 4294967295, 4294967296, -1):
        raises(hurd.NoKind, lambda: hurd.run("", kind))
        raises(hurd.NoKind, lambda: hurd.draw("", kind=kind))


def test_other_types() -> None:
    with World(TASKS) as world:
        for text in (None, 7, bytearray(b"0 io_stat 1"), memoryview(b"0 io_stat 1"), ["0 io_stat 1"]):
            for does in (World, world.make, world.learn, hurd.run, lambda text: hurd.learn(text, ""), lambda who: hurd.see("", who), lambda who: hurd.can("", who)):
                raises(TypeError, lambda: does(text))
        assert world.make("0 io_seek 9 0 Set") == "0 io_seek 9 0 Set\n  Refused EBADF\n"


# Worlds.


def test_a_closed_world() -> None:
    with World(FILE) as world:
        assert world.told
    for does in (lambda: world.make("0 io_stat 1"), lambda: world.make("nonsense"), lambda: world.learn("1"), lambda: world.told, world.fork):
        raises(hurd.NoWorld, does)
    world.close()


def test_no_world() -> None:
    """One that a bad list didn't begin can be closed."""
    world = World.__new__(World)
    raises(hurd.BadText, lambda: world.__init__("task"))
    raises(hurd.NoWorld, lambda: world.make("0 io_stat 1"))
    world.close()


def test_worlds_are_apart() -> None:
    with World(FILE) as one, World(TASKS) as two:
        assert two.make("0 dir_lookup 1 =motd READ 0") == "0 dir_lookup 1 =motd READ 0\n  Refused ENOENT\n"
        assert one.make("0 io_seek 3 0 Current") == "0 io_seek 3 0 Current\n  Count 0\n"


def test_forks() -> None:
    """A fork goes its own way from where it began, and watches the same tasks."""
    with World(FILE) as world:
        world.make("0 io_write 3 =abc -1")
        world.learn("1")
        with world.fork() as other:
            assert other.told == world.told == "0 io_write 3 =abc -1\n  Count 3\n"
            asked = "0 io_seek 3 0 Current"
            assert other.make(asked) == f"{asked}\n|   Count 3\n\n"
            other.make("0 io_seek 3 1 Set")
            assert other.make(asked) == f"{asked}\n|   Count 1\n\n"
            assert world.make(asked) == f"{asked}\n|   Count 3\n\n"


def test_a_copy_is_the_same_world() -> None:
    with World(FILE) as world:
        other = copy.copy(world)
        assert other.make("0 io_seek 3 0 Current") == "0 io_seek 3 0 Current\n  Count 0\n"
    raises(hurd.NoWorld, lambda: other.make("0 io_stat 1"))


def test_other_threads() -> None:
    raised: List[BaseException] = []

    def elsewhere() -> None:
        for does in (lambda: world.make("0 io_stat 1"), lambda: world.told, world.close):
            raised.append(raises(RuntimeError, does))

    with World(FILE) as world:
        thread = threading.Thread(target=elsewhere)
        thread.start()
        thread.join()
        assert len(raised) == 3 and world.told


# The functions of the library themselves.


def test_no_room() -> None:
    """With no room and a little nothing is cut: the rest is told from any byte on, and no byte behind the room is written."""
    library, world, out = hurd._library, hurd._World(), ctypes.create_string_buffer(b"#" * 99)
    at, text = ctypes.byref(world), FILE.encode()
    said = library.hurd_begin(at, text, len(text), out, 0)
    assert (said.status, said.line, said.length) == (0, 0, 58) and out.raw[:2] == b"##"
    for start, room, count in ((0, 0, 0), (0, 10, 10), (53, 10, 5), (58, 10, 0), (59, 10, 0), (2**64 - 1, 10, 0)):
        assert library.hurd_told(at, start, out, room) == count
        assert out.raw[count : count + 2] == (b"##" if count < 10 else out.raw[10:12])
        ctypes.memset(out, ord("#"), 99)
    for function, words in ((library.hurd_run, ()), (library.hurd_draw, (b"", 0))):
        said = function(Kind.CALLS, text, len(text), *words, out, 0)
        assert said.status == 0 and said.length > 0 and out.raw[:2] == b"##"
    library.hurd_end(at)


def test_a_world_begun_twice() -> None:
    """A second list lets the first world go; a bad one leaves none."""
    library, world, out = hurd._library, hurd._World(), ctypes.create_string_buffer(99)

    def does(function: Any, text: bytes) -> int:
        return function(ctypes.byref(world), text, len(text), out, 99).status

    assert does(library.hurd_make, b"0 io_stat 1") == 4
    assert does(library.hurd_begin, FILE.encode()) == 0
    assert does(library.hurd_begin, TASKS.encode() + b"0 dir_lookup 1 =motd READ 0") == 0
    assert out.raw[:45].endswith(b"\n  Refused ENOENT\n")
    assert does(library.hurd_begin, b"task") == 1
    assert does(library.hurd_make, b"0 io_stat 1") == 4
    library.hurd_end(ctypes.byref(world))
    library.hurd_end(ctypes.byref(world))


def test_each_status_has_its_exception() -> None:
    """Those too that no text brings about here. A world to which memory was refused goes on, but has no forks."""
    names = {1: hurd.BadText, 2: hurd.Refused, 3: hurd.NoMemory, 4: hurd.NoWorld, 5: hurd.Unknown, 6: hurd.NoKind, 7: hurd.NoCall, 8: hurd.HurdError}
    for status, fault in names.items():
        raised = raises(fault, lambda: hurd._fail(hurd._Said(status, 12, 3, 0), "0 io_stat 1\n", b"bob"))
        assert isinstance(raised, hurd.HurdError) and str(raised)
        given = {"line": 3, "error": 12, "told": "0 io_stat 1\n", "who": "bob"}
        assert all(given[name] == value for name, value in vars(raised).items() if name in given)
    with World(FILE) as world:
        raises(hurd.NoMemory, lambda: world._fail(hurd._Said(status=3), ""))
        assert world.make("0 io_seek 3 0 Current") == "0 io_seek 3 0 Current\n  Count 0\n"
        raises(hurd.HurdError, world.fork)


def test_no_library() -> None:
    """Where there is none, or a file that is none, that is said with what to do."""
    for name in ("/no/library.so", __file__):
        words = [sys.executable, "-B", "-c", "import hurd"]
        done = subprocess.run(words, cwd=Path(hurd.__file__).parent, env={"HURD_LIBRARY": name}, capture_output=True, text=True)
        last = done.stderr.splitlines()[-1]
        assert done.returncode == 1 and last.startswith("OSError: the library can't be used: ") and "examples/python/build" in last


def main() -> Optional[str]:
    """Runs the tests one after another. Of each that fails says where; gives what is to be said of all."""
    import traceback

    tests = [(name, test) for name, test in globals().items() if name.startswith("test_")]
    failed = 0
    for name, test in tests:
        try:
            test()
        except Exception:
            failed += 1
            print(f"{name} failed:\n{traceback.format_exc()}")
    if failed:
        return f"{failed} of {len(tests)} tests of hurd.py failed"
    print(f"hurd.py does what is wanted in {len(tests)} tests, with {len(LISTS)} lists and {len(SCRIPTS)} scripts")
    return None


if __name__ == "__main__":
    sys.exit(main())
