#!/usr/bin/env python3
"""Runs scripts as system calls of Linux, and compares the replies with those of the program hurd.

    examples/adapter/posix.py [--hurd PROGRAM] [--show N] [--leave-out] SCRIPT..

Each script runs on a fresh tmpfs. Each command runs in a process of its own, with the ids of its user and umask 0. A reply is the bytes that a command puts out, and
the name of the error that refuses it. hurd's replies are read from `hurd learn root -`, whose marks tell texts from refusals. If two replies differ, the difference
is of a class that docs/COMPARED.md names; if it is of none, the status is 1. If both sides refuse, the two trees are still alike, and the script goes on. It ends
at any other difference that leaves the trees unlike.

Scripts with translators are passed over, and scripts with users whom Linux cannot have: users without ids, or with the id 4294967295. With --leave-out commands for
translators are left out of a script on both sides instead. The adapter needs root, to mount and to become other users; without root it says so, and the status is
77. It is an example of an adapter: docs/VECTORS.md, *An adapter in five steps*.
"""
import argparse
import collections
import errno
import os
import stat
import subprocess
import sys
import tempfile
import traceback

TOP = os.path.dirname(os.path.dirname(os.path.dirname(os.path.abspath(__file__))))
NOT_RUN = 77
SERVERS = ("settrans", "showtrans", "fsysopts")
ESCAPES = {"s": " ", "n": "\n", "\\": "\\"}
KINDS = {stat.S_IFREG: "-", stat.S_IFDIR: "d"}
NO_CHANGE = 4294967295
USAGE = "usage"
OPTIONS = "mode=755,size=64m,nosuid,nodev,noexec"
READS = 65536
MOST_READS = 16

# What a command put out, as bytes, and the name of the error that refused it, if one did. Of a listing, each name ends with a zero byte.
Reply = collections.namedtuple("Reply", "out refusal")


# A script, as docs/PROFILE.md has it.


def word_of(word):
    """A word without its escapes, as bytes."""
    out, left = "", iter(word)
    for letter in left:
        out += ESCAPES[next(left)] if letter == "\\" else letter
    return out.encode("latin-1")


def lines_of(text):
    """The lines of a script that say something, as words."""
    lines = (line.strip(" ") for line in text.decode("latin-1").split("\n"))
    return [[word for word in line.split(" ") if word] for line in lines if line and not line.startswith("#")]


def ids_of(word):
    """The ids that a word lists."""
    return [] if word == "-" else sorted({int(part) for part in word.split(",")})


def users_of(lines):
    """The ids of each user by name."""
    users = {"root": ([0], [0])}
    for words in lines:
        if words[0] == "user":
            users[words[1]] = (ids_of(words[2]), ids_of(words[3]))
    return users


# The replies of hurd, as `hurd learn` prints them.


def is_listing(command, words):
    """Whether a command lists a directory."""
    return command == "ls" and b"-d" not in words


def names_in(lines):
    """The names that a listing prints: each begins on a line with one mark, and goes on after each newline on a line with another."""
    names = []
    for line in lines:
        if line.startswith(b"| "):
            names.append(line[2:])
        elif line.startswith(b": "):
            names[-1] += b"\n" + line[2:]
    return names


def text_in(lines):
    """The bytes that a command prints."""
    text = b"".join(line[2:] + b"\n" for line in lines if line.startswith(b"| "))
    return text[:-1] if b"\\ no newline" in lines else text


def reply_in(lines, listing):
    """The reply that these lines after a command's own show."""
    refusals = [line[2:].decode("ascii") for line in lines if line.startswith(b"! ")]
    out = listed_as(names_in(lines)) if listing else text_in(lines)
    return Reply(out, refusals[0] if refusals else None)


def replies_of(printed, commands):
    """The reply to each command. Each has a paragraph, which an empty line ends; all lines but the first have a mark, so no text can end one."""
    paragraphs = printed.split(b"\n\n")
    if len(paragraphs) != len(commands) + 1:
        raise ValueError(f"{len(paragraphs) - 1} paragraphs for {len(commands)} commands")
    replies = []
    for words, paragraph in zip(commands, paragraphs):
        head, *lines = paragraph.split(b"\n")
        if not head.startswith(words[0].encode() + b"$ " + words[1].encode()):
            raise ValueError(f"the paragraph of another command: {head!r:.120}")
        replies.append(reply_in(lines, is_listing(words[1], [word_of(word) for word in words[2:]])))
    return replies


# A command, as system calls. The process has the tree as its root.


def shown(path):
    """The line of `ls -d`: a directory's links and size are not compared."""
    got = os.lstat(path)
    is_dir = stat.S_ISDIR(got.st_mode)
    words = (got.st_mode & 0o7777, 1 if is_dir else got.st_nlink, got.st_uid, got.st_gid, 0 if is_dir else got.st_size)
    return ("%s%06o %d %d %d %d\n" % (KINDS[stat.S_IFMT(got.st_mode)], *words)).encode()


def read_all(path):
    """What `cat` prints."""
    file = os.open(path, os.O_RDONLY)
    out = b""
    for _ in range(MOST_READS):
        got = os.read(file, READS)
        if not got:
            break
        out += got
    return out


def put(path, text):
    file = os.open(path, os.O_WRONLY | os.O_CREAT, 0o644)
    os.ftruncate(file, 0)
    os.write(file, text)


def listed(path):
    return listed_as(map(os.fsencode, os.listdir(os.open(path, os.O_RDONLY | os.O_DIRECTORY))))


def listed_as(names):
    """The names of a listing, sorted, since their order is not compared. Each ends with a zero byte, which no name has."""
    return b"".join(name + b"\0" for name in sorted(names))


def at(path):
    """A path of a script: a relative one begins at the root too, and an empty one is the root."""
    return path if path.startswith(b"/") else b"/" + path


def cut(path):
    """A path whose last name is taken for itself: slashes after it go."""
    return at(path).rstrip(b"/") or b"/"


def done(command, words):
    """Does a command, and returns what it puts out."""
    out = b""
    if command == "cat":
        out = read_all(at(words[0]))
    elif is_listing(command, words):
        out = listed(at(words[0]))
    elif command == "ls":
        out = shown(at(next(word for word in words if word != b"-d")))
    elif command == "put":
        put(at(words[0]), words[1])
    elif command == "mkdir":
        os.mkdir(at(words[0]), 0o755)
    elif command == "rm":
        os.unlink(at(words[0]))
    elif command == "rmdir":
        os.rmdir(at(words[0]))
    elif command == "ln":
        os.link(at(words[0]), at(words[1]), follow_symlinks=False)
    elif command == "mv":
        os.rename(at(words[0]), at(words[1]))
    elif command == "chmod":
        os.chmod(at(words[1]), int(words[0], 8))
    elif command == "chown":
        os.lchown(at(words[2]), int(words[0]), int(words[1]))
    return out


def become(tree, uids, gids):
    """Makes the process this user's, with the tree as its root. Fails unless the process has these ids and no others."""
    os.chroot(tree)
    os.chdir("/")
    os.umask(0)
    os.setgroups(gids)
    os.setresgid(gids[0], gids[0], gids[0])
    os.setresuid(uids[0], uids[0], uids[0])
    if (os.getresuid(), os.getresgid(), sorted(os.getgroups())) != ((uids[0],) * 3, (gids[0],) * 3, sorted(gids)):
        raise RuntimeError(f"the process has other ids than {uids[0]} and {gids}")


def replied(command, words):
    """The reply to a command."""
    try:
        return Reply(done(command, words), None)
    except OSError as refused:
        return Reply(b"", errno.errorcode[refused.errno])


def reply_by(tree, ids, command, words):
    """The reply to a command of this user in the tree, given in a process of its own: that writes the error's name, a newline, and what the command puts out."""
    reader, writer = os.pipe()
    child = os.fork()
    if child == 0:
        status = 1
        try:
            os.close(reader)
            become(tree, *ids)
            out, refusal = replied(command, words)
            with os.fdopen(writer, "wb") as pipe:
                pipe.write((refusal or "").encode() + b"\n" + out)
            status = 0
        except BaseException:  # nothing of the child may go on in the parent's code
            traceback.print_exc()
        finally:
            os._exit(status)
    os.close(writer)
    with os.fdopen(reader, "rb") as pipe:
        refusal, _, out = pipe.read().partition(b"\n")
    if os.waitpid(child, 0)[1] != 0:
        raise RuntimeError(f"no reply to {command} {words!r:.120} as {ids}")
    return Reply(out, refusal.decode() or None)


# Where they differ.


def is_bare(path):
    """Whether a path's last name is `.`, `..`, or none."""
    return cut(path).split(b"/")[-1] in (b"", b".", b"..")


def class_of(command, words, here, there):
    """The class of a difference, by docs/COMPARED.md; None if it is of none."""
    ours, theirs = here.refusal, there.refusal
    nodes = words[-2:] if command in ("ln", "mv") else words[:1]
    if ours == "EINVAL" and theirs and command in ("mkdir", "rm", "rmdir", "ln", "mv") and any(map(is_bare, nodes)):
        return "a name that is none"
    if ours == "EACCES" and theirs == "EPERM" and command in ("rm", "rmdir", "mv"):
        return "the sticky rule"
    if command == "ln" and ours in ("EISDIR", "EACCES") and theirs in ("EPERM", "EEXIST"):
        return "a second name for a directory"
    if ours == "EACCES" and command in ("mkdir", "rm", "rmdir", "ln", "mv") and theirs:
        return "what may not be changed comes first"
    if command == "ls" and b"-d" in words and not ours and not theirs and has_greatest(here.out):
        return "the greatest number as an owner or a group"
    if command == "ls" and b"-d" in words and not ours and not theirs and has_other_group(here.out, there.out):
        return "groups, and bits of modes"
    if command == "chown" and ours is None and theirs == "EPERM":
        return "a group that one has not"
    if command == "ln" and ours is None and theirs == "EPERM":
        return "hard links that are protected"
    if any(word.endswith(b"/") for word in nodes) and len(cut(nodes[-1])) > 1:
        return "a slash after a path"
    if command == "mv" and ours == "EACCES" and theirs is None:
        return "two names of one file"
    if command == "mv" and ours is None and theirs == "EACCES":
        return "a directory that gets another parent"
    if command == "mv" and ours and theirs:
        return "which refusal of a move comes first"
    return None


def has_greatest(line):
    """Whether a line of `ls -d` has 4294967295 as its owner or group."""
    return b"4294967295" in line.split(b" ")[2:4]


def has_other_group(here, there):
    """Whether two lines of `ls -d` differ only in the group and in the bits of the mode above 7777."""
    ours, theirs = here.decode("latin-1").split(" "), there.decode("latin-1").split(" ")
    if len(ours) != 5 or len(theirs) != 5:
        return False
    same_mode = ours[0][0] == theirs[0][0] and int(ours[0][1:], 8) & 0o7777 == int(theirs[0][1:], 8)
    return same_mode and ours[1:3] == theirs[1:3] and ours[4] == theirs[4]


class Comparison:
    """What was compared so far."""

    def __init__(self):
        self.scripts = self.passed_over = self.same = 0
        self.classes = collections.Counter()
        self.unnamed = []

    def compare(self, name, number, command, words, here, there):
        """Counts a reply; returns whether the two trees are still alike."""
        if here == there:
            self.same += 1
            return True
        kind = class_of(command, words, here, there)
        if kind is None:
            self.unnamed.append((name, number, command, words, here, there))
        self.classes[kind or "of no class"] += 1
        refusals = (here.refusal, there.refusal)
        return None not in refusals or (refusals == (None, None) and command in ("ls", "cat"))


def is_for_servers(words):
    """Whether a line asks for translators, which Linux doesn't have."""
    return words[0] != "user" and words[1] in SERVERS


def has_all(name, lines, users):
    """Whether Linux has all that a script asks for. It says so if no process can have a user's ids: Linux takes 4294967295 for *no change*."""
    for user, (uids, gids) in users.items():
        if NO_CHANGE in (*uids, *gids):
            print(f"{name}: passed over: no process of Linux can have the ids of {user}, as {NO_CHANGE} is among them")
            return False
    return not any(map(is_for_servers, lines)) and all(uids and gids for uids, gids in users.values())


def run(hurd, script, tree, comparison, leaves_out):
    """Runs a script here and there, command by command."""
    with open(script, "rb") as file:
        lines = lines_of(file.read())
    if leaves_out:
        lines = [words for words in lines if not is_for_servers(words)]
    users = users_of(lines)
    commands = [words for words in lines if words[0] != "user"]
    text = "".join(" ".join(words) + "\n" for words in lines).encode("latin-1")
    ran = subprocess.run([hurd, "learn", "root", "-"], input=text, stdout=subprocess.PIPE, stderr=subprocess.DEVNULL, check=False)
    if ran.returncode or not has_all(script, lines, users):
        comparison.passed_over += 1
        return
    comparison.scripts += 1
    for number, (words, here) in enumerate(zip(commands, replies_of(ran.stdout, commands))):
        if here.refusal == USAGE:
            continue
        spelt = [word_of(word) for word in words[2:]]
        there = reply_by(tree, users[words[0]], words[1], spelt)
        if not comparison.compare(script, number, words[1], spelt, here, there):
            return


def on_a_tree(hurd, script, comparison, leaves_out):
    """The same on a fresh tmpfs. It lies in a folder that only root may enter."""
    with tempfile.TemporaryDirectory(prefix="hurd-adapter-") as folder:
        tree = os.path.join(folder, "tree")
        os.mkdir(tree)
        subprocess.run(["mount", "-t", "tmpfs", "-o", OPTIONS, "none", tree], check=True)
        try:
            run(hurd, script, tree, comparison, leaves_out)
        finally:
            subprocess.run(["umount", tree], check=True)


def main():
    words = argparse.ArgumentParser(description=__doc__.split("\n")[0])
    words.add_argument("--hurd", default=os.path.join(TOP, "crates", "hurd", "out", "hurd"))
    words.add_argument("--show", type=int, default=10, help="how many differences of no class to show")
    words.add_argument("--leave-out", action="store_true", help="leave out commands for translators, here and there")
    words.add_argument("scripts", nargs="+")
    asked = words.parse_args()
    if os.geteuid() != 0:
        print("not run: it needs root, to mount a tmpfs and to become other users")
        return NOT_RUN
    comparison = Comparison()
    for script in asked.scripts:
        on_a_tree(os.path.abspath(asked.hurd), script, comparison, asked.leave_out)
    with open("/proc/sys/fs/protected_hardlinks", encoding="ascii") as file:
        print(f"fs.protected_hardlinks = {file.read().strip()}")
    print(f"{comparison.scripts} scripts run, {comparison.passed_over} passed over; {comparison.same} replies the same")
    for kind, count in comparison.classes.most_common():
        print(f"{count:8}  {kind}")
    for name, number, command, spelt, here, there in comparison.unnamed[: asked.show]:
        print(f"{name}: command {number}: {command} {spelt!r:.120}: here {tuple(here)!r:.120}, there {tuple(there)!r:.120}")
    return 1 if comparison.unnamed else 0


if __name__ == "__main__":
    sys.exit(main())
