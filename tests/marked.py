"""Reads marked output, as `hurd learn` prints it, by the rules of docs/PROFILE.md alone.

Each command has a paragraph, and an empty line ends it. Its first line is the command. Lines with the mark `| ` are what the command put out.
Of `ls`, each name is one such line, and `: ` marks the next line of a name that has a newline. `\\ no newline` says that the last byte is no newline.
`! EACCES` names the error that refused a call, and `! usage` says that the command doesn't have these words.
"""
import itertools
import re
from typing import NamedTuple, Optional

UNENDED = b"\\ no newline"
# how many bytes of a reply are shown on one line
SHOWN = 200
# a newline within a name
WITHIN = -1


class Reply(NamedTuple):
    """A command's line, what it put out to the byte, the names if it lists a directory, and what ended it: an error's name, `usage` or nothing."""
    line: bytes
    text: bytes
    names: Optional[list]
    ending: Optional[bytes]


def lists_names(line):
    """Whether a command prints names: `ls` without `-d`."""
    return re.match(rb"[a-z0-9]+\$ ls(?: |$)", line) is not None and b"-d" not in line.split(b" ")


def take_reply(lines):
    """Takes a reply from the front of some lines."""
    line, items = lines.pop(0), []
    names = lists_names(line)
    while lines and lines[0].startswith((b"| ", b": ")):
        mark, item = lines[0][:2], lines.pop(0)[2:]
        if mark == b"| ":
            items.append(item)
        elif names and items:
            items[-1] += b"\n" + item
        else:
            raise ValueError(f"no name goes on in {mark + item!r} after {line!r}")
    text = b"".join(item + b"\n" for item in items)
    if lines and lines[0] == UNENDED:
        if names or not items:
            raise ValueError(f"no text lacks a newline after {line!r}")
        lines.pop(0)
        text = text[:-1]
    ending = lines.pop(0)[2:] if lines and lines[0].startswith(b"! ") else None
    return Reply(line, text, items if names else None, ending)


def paragraphs(output):
    """Of each command its reply and the lines after it, which say what is learned and seen; and the last line."""
    *texts, last = output.split(b"\n\n")
    found = []
    for text in texts:
        lines = text.split(b"\n")
        found.append((take_reply(lines), lines))
    if not last.endswith(b"\n") or b"\n" in last[:-1]:
        raise ValueError(f"{last!r:.300} is no last line")
    return found, last[:-1]


def marked(reply):
    """A reply as marked output has it."""
    lines = [reply.line]
    if reply.names is not None:
        lines += [b"| " + name.replace(b"\n", b"\n: ") for name in reply.names]
    elif reply.text:
        *whole, rest = reply.text.split(b"\n")
        lines += [b"| " + line for line in whole] + ([b"| " + rest, UNENDED] if rest else [])
    if reply.ending is not None:
        lines.append(b"! " + reply.ending)
    return b"".join(line + b"\n" for line in lines)


def plain(reply):
    """A reply as `hurd run` prints it: a text gets the newline that it lacks, and what ended the command is a line of its own."""
    ended = reply.text if reply.text.endswith(b"\n") or not reply.text else reply.text + b"\n"
    return reply.line + b"\n" + ended + (b"" if reply.ending is None else reply.ending + b"\n")


def put_out(reply):
    """What a command put out, byte by byte, with another sign for a newline within a name."""
    if reply.names is None:
        return list(reply.text)
    return [WITHIN if byte == 10 and at < len(name) else byte for name in reply.names for at, byte in enumerate(name + b"\n")]


def shown_byte(byte):
    """A byte on the line; no byte is shown as `!` or `(`."""
    odd = {WITHIN: rb"\x0a", 10: rb"\n", 92: rb"\\", 40: rb"\x28", 33: rb"\x21"}
    return odd.get(byte) or (bytes([byte]) if 32 <= byte <= 126 else b"\\x%02x" % byte)


def shown(reply):
    """A reply on one line."""
    put = put_out(reply)
    parts = [b"".join(map(shown_byte, put[:SHOWN])) + (b" .." if len(put) > SHOWN else b"")] if put else []
    return b" ".join(parts + ([b"! " + reply.ending] if reply.ending else [])) or b"(nothing)"


def differ(first, second):
    """The further line if both replies are shown alike: from which byte on they differ."""
    if shown(first) != shown(second):
        return b""
    pairs = itertools.zip_longest(put_out(first), put_out(second))
    return b"\n      differ: from byte %d on" % next(number for number, (one, other) in enumerate(pairs, 1) if one != other)
