r"""The tree from Python: it takes texts, and returns what the program `hurd` prints of them.

    import hurd

    print(hurd.run("root put /motd Welcome\\n\nroot cat /motd\n"))      # a script, in a world of its own
    with hurd.World("task 0 0\ntask 1000 1000\n") as world:             # a world that is kept
        print(world.make("0 dir_mkdir 1 =tmp 1777"))                    # a call, or many lines of them

A text is `str` or `bytes`. A `str` is encoded as UTF-8, and results are decoded so. Bytes that are not valid UTF-8 are escaped as by Python's `surrogateescape`, both ways:
so none is lost. A NUL byte is a byte like any other.

The library is the file `libhurd.so` beside this module, or the one that the environment variable HURD_LIBRARY names. docs/EMBED.md says what its functions do, and what
of them is proved; docs/PROFILE.md describes the language of the texts.
"""
from __future__ import annotations

import contextlib
import ctypes
import enum
import os
import threading
from typing import Any, Dict, List, NamedTuple, NoReturn, Tuple, Union

__all__ = [
    "BadText", "Call", "Error", "HurdError", "Kind", "NoCall", "NoKind", "NoMemory", "NoWorld", "Refused", "Reply", "Unknown", "Which", "World", "can", "draw", "learn", "line", "run",
    "see",
]

Text = Union[str, bytes]


class Kind(enum.IntEnum):
    """What a text is: a script of users' commands, or a list of tasks' calls."""

    SCRIPT = 0
    CALLS = 1


class HurdError(Exception):
    """A failure that the library reports."""


class BadText(HurdError):
    """A text is bad, and nothing of it was done.

    `line` is the number of the first bad line. It is 0 if the text is too long, or has a task line for a world that exists.
    `reason` says why. It is empty if the library gives none, as for a world's texts.
    """

    def __init__(self, line: int, reason: str) -> None:
        self.line, self.reason = line, reason
        super().__init__(reason or (f"line {line} is bad" if line else "the text is too long, or has a task line where none is allowed"))


class Refused(HurdError):
    """The world could not be created: the refusal of number `error`."""

    def __init__(self, error: int) -> None:
        self.error = error
        super().__init__(f"the world could not be created: error {error}")


class NoMemory(HurdError):
    """Memory ran out. `told` is what was printed before that.

    In a world the first calls were made and printed, and perhaps the next was made. It can still be used.
    """

    def __init__(self, told: str) -> None:
        self.told = told
        super().__init__("out of memory")


class NoWorld(HurdError):
    """There is no world: it was closed, or never created."""

    def __init__(self) -> None:
        super().__init__("there is no world")


class Unknown(HurdError):
    """Somebody in `who` isn't there. `reason` has the words of the command, if the library gives them."""

    def __init__(self, who: str, reason: str) -> None:
        self.who, self.reason = who, reason
        super().__init__(reason or f"not all of these are there: {who}")


class NoKind(HurdError):
    """There is no kind of texts of this number."""

    def __init__(self) -> None:
        super().__init__("there is no such kind of texts")


class NoCall(HurdError):
    """Numbers and bytes that make no call: it doesn't exist, has bits that no flag has or bytes of another form, or its line would be too long."""

    def __init__(self) -> None:
        super().__init__("these numbers and bytes make no call, or have no line")


class Call(enum.IntEnum):
    """The calls, by number. Their names are those of `fs.defs`, `fsys.defs` and `io.defs`."""

    PORT_DEALLOCATE = 1
    PORT_SEND = 2
    PORT_RECEIVE = 3
    AUTH_MAKEAUTH = 4
    IO_READ = 5
    IO_WRITE = 6
    IO_SEEK = 7
    IO_STAT = 8
    IO_READABLE = 9
    IO_GET_OPENMODES = 10
    IO_SET_ALL_OPENMODES = 11
    IO_DUPLICATE = 12
    IO_REAUTHENTICATE = 13
    IO_RESTRICT_AUTH = 14
    IO_IDENTITY = 15
    FILE_CHMOD = 16
    FILE_CHOWN = 17
    FILE_SET_SIZE = 18
    FILE_CHECK_ACCESS = 19
    FILE_SET_TRANSLATOR = 20
    FILE_GET_TRANSLATOR = 21
    FILE_GET_TRANSLATOR_CNTL = 22
    FILE_GETCONTROL = 23
    FSYS_STARTUP = 24
    START_FAILED = 25
    FSYS_GETROOT = 26
    FSYS_GOAWAY = 27
    FSYS_GET_OPTIONS = 28
    FSYS_SET_OPTIONS = 29
    DIR_LOOKUP = 30
    DIR_READDIR = 31
    DIR_MKDIR = 32
    DIR_MKFILE = 33
    DIR_RMDIR = 34
    DIR_UNLINK = 35
    DIR_LINK = 36
    DIR_RENAME = 37


class Error(enum.IntEnum):
    """The errors, by the numbers that the library has for them. They are no numbers of `errno`."""

    EPERM = 1
    ENOENT = 2
    EIO = 3
    EBADF = 4
    ENOMEM = 5
    EACCES = 6
    EBUSY = 7
    EEXIST = 8
    EXDEV = 9
    ENOTDIR = 10
    EISDIR = 11
    EINVAL = 12
    EFBIG = 13
    EROFS = 14
    EPIPE = 15
    EWOULDBLOCK = 16
    ELOOP = 17
    ENAMETOOLONG = 18
    ENOTEMPTY = 19
    EOPNOTSUPP = 20
    EDIED = 21
    ENXIO = 22
    ESRCH = 23
    EOVERFLOW = 24
    ENOSPC = 25


class Which(enum.IntEnum):
    """Which reply a call has."""

    DONE = 1
    FOUND = 2
    RETRY = 3
    START = 4
    PORT = 5
    DATA = 6
    COUNT = 7
    NAMES = 8
    WORDS = 9
    STAT = 10
    MODES = 11
    SAME = 12
    REFUSED = 13
    BACK = 14


class Reply(NamedTuple):
    """The reply to a call: which it is, its numbers, and its bytes. Numbers that it has no use for are 0. hurd.h says what each means.

    `length` is how many bytes the reply has: more than `data` if there was too little room for them.
    """

    which: Which
    error: int
    retry: int
    kind: int
    mode: int
    owner: int
    group: int
    links: int
    translators: int
    number: int
    size: int
    length: int
    data: bytes

    @property
    def words(self) -> List[bytes]:
        """The names or words of the reply. Raises ValueError if there was no room for all, or if one has a zero byte in it and so no known end."""
        if len(self.data) < self.length:
            raise ValueError(f"there was room for {len(self.data)} of {self.length} bytes")
        words = self.data.split(b"\0")[:-1]
        if len(words) != self.number:
            raise ValueError("a name or word has a zero byte in it")
        return words


class _Request(ctypes.Structure):
    """`hurd_request` of hurd.h."""

    _fields_ = [
        ("task", ctypes.c_uint32),
        ("call", ctypes.c_uint32),
        ("port", ctypes.c_uint64),
        ("other", ctypes.c_uint64),
        ("amount", ctypes.c_uint64),
        ("offset", ctypes.c_int64),
        ("flags", ctypes.c_uint32),
        ("mode", ctypes.c_uint32),
        ("owner", ctypes.c_uint32),
        ("group", ctypes.c_uint32),
        ("to", ctypes.c_uint32),
        ("active", ctypes.c_uint32),
        ("goaway", ctypes.c_uint32),
        ("brings", ctypes.c_uint32),
    ]


class _Figures(ctypes.Structure):
    """`hurd_figures` of hurd.h."""

    _fields_ = [*((name, ctypes.c_uint32) for name in Reply._fields[:9]), ("number", ctypes.c_uint64), ("size", ctypes.c_uint64)]


class _Reply(ctypes.Structure):
    """`hurd_reply` of hurd.h."""

    _fields_ = [("status", ctypes.c_uint32), ("reply", _Figures), ("length", ctypes.c_size_t), ("told", ctypes.c_size_t)]


class _World(ctypes.Structure):
    """`hurd_world` of hurd.h."""

    _fields_ = [("at", ctypes.c_void_p)]


class _Said(ctypes.Structure):
    """`hurd_said` of hurd.h."""

    _fields_ = [("status", ctypes.c_uint32), ("error", ctypes.c_uint32), ("line", ctypes.c_uint64), ("length", ctypes.c_size_t)]


class _Status(enum.IntEnum):
    """How a call of the library ended, as hurd.h says. Only DONE is 0."""

    DONE = 0
    BAD = 1
    REFUSED = 2
    MEMORY = 3
    NONE = 4
    UNKNOWN = 5
    NO_KIND = 6
    NO_CALL = 7


_HELD = ctypes.POINTER(_World)
_BYTES = [ctypes.c_char_p, ctypes.c_size_t]
_KIND = [ctypes.c_uint32]
_FLAG = [ctypes.c_uint32]
# The functions of hurd.h: what each returns, and what it takes.
_FUNCTIONS = {
    "hurd_begin": (_Said, [_HELD, *_BYTES, *_BYTES]),
    "hurd_make": (_Said, [_HELD, *_BYTES, *_BYTES]),
    "hurd_told": (ctypes.c_size_t, [_HELD, ctypes.c_size_t, *_BYTES]),
    "hurd_watch": (_Said, [_HELD, *_BYTES]),
    "hurd_call": (_Reply, [_HELD, ctypes.POINTER(_Request), *_BYTES, *_BYTES]),
    "hurd_open": (_Reply, [_HELD, ctypes.POINTER(_Request), *_BYTES]),
    "hurd_line": (_Said, [ctypes.POINTER(_Request), *_BYTES, *_BYTES]),
    "hurd_end": (None, [_HELD]),
    "hurd_run": (_Said, [*_KIND, *_BYTES, *_BYTES]),
    "hurd_learn": (_Said, [*_KIND, *_BYTES, *_BYTES, *_BYTES]),
    "hurd_see": (_Said, [*_KIND, *_BYTES, *_BYTES, *_BYTES]),
    "hurd_can": (_Said, [*_KIND, *_BYTES, *_BYTES, *_FLAG, *_BYTES]),
    "hurd_draw": (_Said, [*_KIND, *_BYTES, *_BYTES, *_BYTES]),
}


def _load() -> ctypes.CDLL:
    """The library, with the types of its functions. Raises OSError where it isn't there, or lacks one of them."""
    path = os.environ.get("HURD_LIBRARY") or os.path.join(os.path.dirname(os.path.abspath(__file__)), "libhurd.so")
    try:
        library = ctypes.CDLL(os.path.abspath(path))
        for name, (result, kinds) in _FUNCTIONS.items():
            function = getattr(library, name)
            function.restype, function.argtypes = result, kinds
    except (OSError, AttributeError) as error:
        raise OSError(f"the library can't be used: {error}. Make it by examples/python/build, or name one in HURD_LIBRARY.") from error
    return library


_library = _load()

# What there is room for at first, of a world and of a text. A longer one costs a second call.
_WORLD_ROOM = 4096
_TEXT_ROOM = 65536


def _bytes_of(text: Text) -> bytes:
    """The bytes of a text. Raises TypeError where it is none, UnicodeEncodeError of a surrogate that stands for no byte."""
    if isinstance(text, bytes):
        return text
    if isinstance(text, str):
        return text.encode("utf-8", "surrogateescape")
    raise TypeError(f"a text is str or bytes, not {type(text).__name__}")


def _text_of(told: bytes) -> str:
    """What was told, as text that loses no byte."""
    return told.decode("utf-8", "surrogateescape")


def _reason_of(told: str) -> str:
    """Why something is refused: the library says it as it stands behind the name of a file."""
    return told.lstrip(": ").rstrip("\n")


def _fail(said: _Said, told: str, who: bytes) -> NoReturn:
    """Raises what the library says by a status that isn't DONE."""
    if said.status == _Status.BAD:
        raise BadText(said.line, _reason_of(told))
    if said.status == _Status.REFUSED:
        raise Refused(said.error)
    if said.status == _Status.MEMORY:
        raise NoMemory(told)
    if said.status == _Status.NONE:
        raise NoWorld
    if said.status == _Status.UNKNOWN:
        raise Unknown(_text_of(who), _reason_of(told))
    if said.status == _Status.NO_KIND:
        raise NoKind
    if said.status == _Status.NO_CALL:
        raise NoCall
    raise HurdError(f"the library gives the status {said.status}, which this module doesn't know")


def _request(task: int, call: int, numbers: Dict[str, int]) -> _Request:
    """The numbers of a call as the library takes them. Raises TypeError for a name that none has, and ValueError for a number that has no room."""
    sizes = dict(_Request._fields_)
    for name, number in {"task": task, "call": call, **numbers}.items():
        if name not in sizes:
            raise TypeError(f"a call has no number {name!r}")
        if sizes[name](number).value != number:
            raise ValueError(f"{name} can't be {number}")
    return _Request(task=task, call=call, **numbers)


def _reply_of(said: _Reply, data: bytes) -> Reply:
    """A reply, by its numbers and the bytes that there was room for."""
    numbers = (getattr(said.reply, name) for name, _ in _Figures._fields_[1:])
    return Reply(Which(said.reply.which), *numbers, said.length, data)


def line(task: int, call: int, data: bytes = b"", **numbers: int) -> str:
    """The line of a list that makes the same call as `World.call` with these numbers and bytes.

    Raises NoCall, also if the line would be longer than a list may be; NoMemory; TypeError or ValueError if a number is none of its size.
    """
    request, room, length = ctypes.byref(_request(task, call, numbers)), 0, _WORLD_ROOM
    while length > room:
        room = length
        out = ctypes.create_string_buffer(room)
        said = _library.hurd_line(request, data, len(data), out, room)
        length = said.length
    if said.status:
        _fail(said, "", b"")
    return _text_of(ctypes.string_at(out, length))


class World:
    r"""A world of tasks over an empty tree in memory, which lasts until it is closed.

    It stays on the thread that created it: a method that is called on another one raises RuntimeError. Call no method in a child of `os.fork` of a program with threads.
    It keeps the texts that it was given, for `fork`. If a world becomes unreachable, its memory is freed as by `close`, if that happens on its thread.

        with hurd.World("task 0 0\ntask 1000 1000\n") as world:
            world.learn("1")
            print(world.make("0 dir_mkdir 1 =tmp 1777"))
    """

    def __init__(self, text: Text) -> None:
        """Creates the world of a list's tasks, and makes the list's calls; `told` is what these print.

        Raises BadText, Refused, NoMemory; TypeError if it is not a text.
        """
        self._world = _World()
        self._thread = threading.get_ident()
        self._room = ctypes.create_string_buffer(_WORLD_ROOM)
        self._told = ""
        # What `fork` does again: the first text, and each method with its argument; and whether that is all.
        self._first = _bytes_of(text)
        self._steps: List[Tuple[str, Any]] = []
        self._is_known = True
        self._tell(_library.hurd_begin, self._first)

    def make(self, calls: Text) -> str:
        """Makes the calls of a text, one on each line, and returns what they print: the line of each, and its reply after two spaces.

        Raises BadText, and then no call was made; NoMemory; NoWorld; TypeError if it is not a text.
        """
        text = _bytes_of(calls)
        told = self._tell(_library.hurd_make, text)
        self._steps.append(("make", text))
        return told

    def learn(self, who: Text = "") -> None:
        """After this `make` also returns, after each call by others, what the tasks of `who` learn from it. `who` has numbers with commas between them; if it is empty, this ends.

        Raises NoWorld; Unknown if a task isn't there, and then nothing changes; NoMemory; TypeError if it is not a text.
        """
        names = _bytes_of(who)
        said = _library.hurd_watch(self._held(), names, len(names))
        if said.status:
            self._fail(said, "", names)
        self._steps.append(("learn", names))

    def call(self, task: int, call: int, data: bytes = b"", room: int = _WORLD_ROOM, **numbers: int) -> Reply:
        r"""Makes one call as numbers and bytes, and returns its reply. `told` is what those learn from it whom `learn` names: nothing of a call of their own.

        `numbers` are those of `hurd_request` in hurd.h that the call needs, and `data` are its bytes. If the reply has more bytes than `room`, only so many are
        returned, and its `length` is greater.

            world.call(0, hurd.Call.DIR_LOOKUP, b"tmp", port=1, flags=1)
            world.call(0, hurd.Call.IO_READ, port=4, amount=100, offset=-1)

        Raises NoCall, and then nothing changed; NoMemory; NoWorld; TypeError or ValueError if a number is none of its size.
        """
        request = _request(task, call, numbers)
        out = self._room if room <= _WORLD_ROOM else ctypes.create_string_buffer(room)
        said = _library.hurd_call(self._held(), ctypes.byref(request), data, len(data), out, room)
        if said.status:
            self._fail(_Said(status=said.status), "")
        # the bytes are taken before anything else may write to the same room
        reply = _reply_of(said, ctypes.string_at(out, min(said.length, room)))
        self._told = _text_of(self._rest(0, said.told)) if said.told else ""
        self._steps.append(("_again", (task, call, data, numbers)))
        return reply

    def open(self, task: int, path: bytes, port: int = 2, flags: int = 0, mode: int = 0) -> Reply:
        r"""Opens what a path leads to, as the commands of a script do: it follows retries, and starts translators that wait, by the servers that their words make.

        `port` is that of the directory where the path starts, if it doesn't begin with a slash; 2 is the task's working directory. `flags` are those of opening, and `mode` is
        that of a file that is created. The reply is a port or a refusal. `told` has all calls that were made, as `make` prints them, with what those learn whom `learn` names.

            world.open(0, b"/home/alice/motd", flags=1)

        Raises NoCall if a flag is unknown, or if a call has no line that fits into a list; NoMemory; NoWorld; ValueError if a number is none of its size. After NoCall and NoMemory
        some first calls may have been made, which `told` has.
        """
        numbers = {"port": port, "flags": flags, "mode": mode}
        said = _library.hurd_open(self._held(), ctypes.byref(_request(task, Call.DIR_LOOKUP, numbers)), path, len(path))
        self._told = _text_of(self._rest(0, said.told)) if said.told else ""
        self._steps.append(("_open_again", (task, path, numbers)))
        if said.status:
            self._fail(_Said(status=said.status), self._told)
        return _reply_of(said, b"")

    def _open_again(self, given: Tuple[int, bytes, Dict[str, int]]) -> None:
        """Opens a path as it was opened in another world."""
        task, path, numbers = given
        with contextlib.suppress(NoCall):
            self.open(task, path, **numbers)

    def _again(self, given: Tuple[int, int, bytes, Dict[str, int]]) -> None:
        """Makes a call as it was made in another world."""
        task, call, data, numbers = given
        self.call(task, call, data, **numbers)

    @property
    def told(self) -> str:
        """What the last text or opening printed, or what was learned from the last call. Raises NoWorld if the world is closed."""
        self._held()
        if not self._world.at:
            raise NoWorld
        return self._told

    def fork(self) -> World:
        """Another world, to which the same was done: its texts are run again, so it takes as long as they did.

        Raises NoWorld; NoMemory; HurdError if this world ran out of memory, since then nobody knows which of its calls were made.
        """
        told = self.told
        if not self._is_known:
            raise HurdError("this world ran out of memory, and nobody knows which of its calls were made")
        other = World(self._first)
        for method, given in self._steps:
            getattr(other, method)(given)
        other._told = told
        return other

    def close(self) -> None:
        """Frees the world. After that its methods raise NoWorld; a second `close` does nothing."""
        _library.hurd_end(self._held())

    def __enter__(self) -> World:
        return self

    def __exit__(self, *_: object) -> None:
        self.close()

    def __del__(self) -> None:
        if threading.get_ident() == self._thread:
            self.close()

    def _held(self) -> Any:
        """The world as the library takes it."""
        if threading.get_ident() != self._thread:
            raise RuntimeError("a world stays on the thread that created it")
        return ctypes.byref(self._world)

    def _tell(self, function: Any, text: bytes) -> str:
        """Gives a text to the library, and keeps all that it prints. If there was too little room, it asks for the rest."""
        said = function(self._held(), text, len(text), self._room, _WORLD_ROOM)
        told = ctypes.string_at(self._room, min(said.length, _WORLD_ROOM))
        if said.length > _WORLD_ROOM:
            told += self._rest(_WORLD_ROOM, said.length - _WORLD_ROOM)
        self._told = _text_of(told)
        if said.status:
            self._fail(said, self._told)
        return self._told

    def _rest(self, start: int, length: int) -> bytes:
        """So many bytes of what was printed, from a place on."""
        out = ctypes.create_string_buffer(length)
        return ctypes.string_at(out, _library.hurd_told(self._held(), start, out, length))

    def _fail(self, said: _Said, told: str, who: bytes = b"") -> NoReturn:
        """Raises the error of a status. If memory ran out, nobody knows what was done."""
        self._is_known = self._is_known and said.status != _Status.MEMORY
        _fail(said, told, who)


def _printed(function: Any, kind: int, text: Text, *who: Text, flags: Tuple[bool, ...] = ()) -> str:
    """What a function of the library prints of a whole text. Its flags follow the texts. If there was too little room, it asks again with more."""
    if not 0 <= kind < 1 << 32:
        raise NoKind
    given = [_bytes_of(one) for one in (text, *who)]
    words = [word for one in given for word in (one, len(one))]
    room, length = 0, _TEXT_ROOM
    while length > room:
        room = length
        out = ctypes.create_string_buffer(room)
        said = function(kind, *words, *flags, out, room)
        length = said.length
    told = _text_of(ctypes.string_at(out, length))
    if said.status:
        _fail(said, told, given[-1])
    return told


def run(text: Text, kind: int = Kind.SCRIPT) -> str:
    """The transcript of a text, run in a world of its own, as `hurd run` prints it.

    Raises BadText, Refused, NoMemory, NoKind; TypeError if it is not a text.
    """
    return _printed(_library.hurd_run, kind, text)


def learn(text: Text, who: Text, kind: int = Kind.SCRIPT) -> str:
    """The transcript of a text and, after each command by others, what `who` learn from it, as `hurd learn` prints it.

    `who` has users of a script, or numbers of a list's tasks, with commas between them.
    Raises BadText, Unknown, Refused, NoMemory, NoKind; TypeError if it is not a text.
    """
    return _printed(_library.hurd_learn, kind, text, who)


def see(text: Text, who: Text, kind: int = Kind.SCRIPT) -> str:
    """Everything that `who` can see at the end of a text, as `hurd see` prints it. Raises what `learn` raises."""
    return _printed(_library.hurd_see, kind, text, who)


def can(text: Text, who: Text, kind: int = Kind.SCRIPT, *, every: bool = False) -> str:
    """What `who` could be shown at the end of a text, and by whose help, as `hurd can` prints it.

    It lists bytes, entries and nodes; with `every` it lists every part, as `hurd can --all` does. Raises what `learn` raises.
    """
    return _printed(_library.hurd_can, kind, text, who, flags=(bool(every),))


def draw(text: Text, who: Text = "", kind: int = Kind.SCRIPT) -> str:
    """A picture of the end of a text in the language of Graphviz, as `hurd draw` prints it. It marks what `who` can see. Raises what `learn` raises."""
    return _printed(_library.hurd_draw, kind, text, who)
