#!/usr/bin/env python3
"""narrow.py IN.ll OUT.ll: a module whose pointers take 8 bytes, for a machine whose pointers take 4.

It writes 4 bytes of zero after each pointer in a constant, and after each pointer that is stored. So memory holds what it would on a 64-bit machine whose
addresses are below 2^32. Everything else in such a module uses byte offsets (`getelementptr i8`), with no `inttoptr` or `ptrtoint`, and few `ptrtoaddr`. The
program stops at anything else, and at each form that it doesn't know.
"""
import re
import sys

TARGET = 'target datalayout = "e-m:e-p:32:32-p10:8:8-p20:8:8-i64:64-i128:128-n32:64-S128-ni:1:10:20"\ntarget triple = "wasm32-unknown-unknown"\n'
CONSTANT = re.compile(r"(@\S+ = .*?(?:constant|global) )<\{ (.*?) \}> <\{ (.*) \}>(.*)$")
PAIR = re.compile(r"  (%\S+) = load \{ (\w+), (\w+) \}, ptr (\S+), align \d+$")
STORE = re.compile(r"  store ptr .*, ptr (\S+), align \d+(, !.*)?$")
OTHER_STORE = re.compile(r"  store .*\bptr .*, ptr .*, ptr ")
MOVE = re.compile(r"(.*@llvm\.mem(?:set\.p0\.|move\.p0\.p0\.))i64(\(.*, )i64 (\S+), i1 false\)(.*)$")
ADDRESS = re.compile(r"  (%\S+) = ptrtoaddr ptr (\S+) to i64$", re.M)
NOT_BY_BYTES = re.compile(r"\b(inttoptr|ptrtoint)\b|getelementptr (?!(inbounds )?(nuw )?\(?i8,)")
AGGREGATE = re.compile(r"(alloca|load|store|getelementptr) [<{\[][^,]*\bptr\b|(load|store) [<{\[][^}]*\bptr [^,]*\}")


def refuse(why, line):
    sys.exit(f"narrow.py: {why}: {line[:200]}")


def pieces(text):
    """The parts between the commas of a list, at its own level."""
    found, depth, start, is_quoted = [], 0, 0, False
    for at, letter in enumerate(text):
        if letter == '"':
            is_quoted = not is_quoted
        if is_quoted:
            continue
        depth += (letter in "([{<") - (letter in ")]}>")
        if letter == "," and not depth:
            found.append(text[start:at])
            start = at + 1
    return [piece.strip() for piece in found + [text[start:]]]


def widened(text, zero):
    return ", ".join(piece + zero if piece.split(" ")[0] == "ptr" else piece for piece in pieces(text))


def constant(line):
    found = CONSTANT.match(line)
    if found:
        return f"{found[1]}<{{ {widened(found[2], ', i32')} }}> <{{ {widened(found[3], ', i32 0')} }}>{found[4]}\n"
    if re.search(r"\bptr\b", line):
        refuse("a constant with a pointer", line)
    return line


def pair(found, line):
    """A pair with a pointer is loaded as two: the second is at 8 if either has 8 bytes, and also after a pointer."""
    name, first, second, at = found.groups()
    if second not in ("ptr", "i64") and first != "ptr":
        refuse("a pair", line)
    return (
        f"  {name}.a = load {first}, ptr {at}, align 8\n  {name}.p = getelementptr i8, ptr {at}, i64 8\n  {name}.b = load {second}, ptr {name}.p, align 1\n"
        f"  {name}.i = insertvalue {{ {first}, {second} }} poison, {first} {name}.a, 0\n  {name} = insertvalue {{ {first}, {second} }} {name}.i, {second} {name}.b, 1\n"
    )


class Narrow:
    def __init__(self):
        self.count = 0

    def fresh(self):
        self.count += 1
        return f"%narrow.{self.count}"

    def store(self, line):
        found = STORE.match(line)
        if found:
            name = self.fresh()
            return line + f"  {name} = getelementptr i8, ptr {found[1]}, i64 4\n  store i32 0, ptr {name}, align 1\n"
        if OTHER_STORE.match(line) or " atomic " in line:
            refuse("a store", line)
        return line

    def move(self, line):
        """A 64-bit length, of memset and memmove, is cut to 32 bits: no block is longer than memory."""
        found = MOVE.match(line)
        if not found:
            return line
        before, length = "", found[3]
        if length.startswith("%"):
            name = self.fresh()
            before, length = f"  {name} = trunc i64 {length} to i32\n", name
        return f"{before}{found[1]}i32{found[2]}i32 {length}, i1 false){found[4]}\n"

    def instruction(self, line):
        found = PAIR.match(line)
        if found and "ptr" in (found[2], found[3]):
            line = pair(found, line)
        elif NOT_BY_BYTES.search(line):
            refuse("not by bytes", line)
        elif AGGREGATE.search(line):
            refuse("an aggregate with a pointer", line)
        line = self.store(line)
        line = ADDRESS.sub(r"  \1.n = ptrtoaddr ptr \2 to i32\n  \1 = zext i32 \1.n to i64", line)
        line = self.move(line)
        return re.sub(r"= alloca ptr(, align 8)?", "= alloca i64, align 8", line)

    def line(self, line):
        if line.startswith("@"):
            return constant(line)
        if line.startswith("declare void @llvm.mem"):
            return re.sub(r"\.i64\(", ".i32(", line).replace(", i64,", ", i32,")
        return self.instruction(line) if line.startswith("  ") else line


def main():
    narrow = Narrow()
    with open(sys.argv[1], encoding="latin-1") as source, open(sys.argv[2], "w", encoding="latin-1") as to:
        to.write(TARGET)
        for line in source:
            to.write(narrow.line(line))


main()
