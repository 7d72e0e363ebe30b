#!/usr/bin/env python3
"""Respells the repository's own definitions and lemmas, once, after port.py: words of a name are joined by _ and not
by a dash, and a fact or a type is in camel case. Names of src/, goals and strings stay as they are.

usage: python3 tools/respell.py [--dry]      at the top of the repository
"""
import os
import re
import sys

# A name of antt: what a path, a bracket or an operator ends.
NAME = re.compile(r"(?<![\w'◌-])[A-Za-z][\w']*(?:-[\w']+)+(?![\w'◌]|-\w)")
DEFINED = re.compile(r"^\s*(?:abbrev |unfoldable )?(?:pub )?(?:record |data |ruleset )?([A-Za-z][\w'-]*)(?: [({][^:]*:[^=]*)* :(?:\s|$)")
# The names of goals are Rattle's own.
GOAL = re.compile(r"^(returns|overflow|bounds|slice_bounds|nonzero|invariant|decreases|loop|prove)-")


def files(ends):
    for folder, dirs, names in os.walk("crates"):
        dirs[:] = sorted(d for d in dirs if d not in ("out", "must-fail"))
        for name in sorted(names):
            if name.endswith(ends):
                yield os.path.join(folder, name)


def spelled(name):
    words = name.split("-")
    if name[0].isupper():
        return words[0] + "".join(w[0].upper() + w[1:] for w in words[1:])
    return "_".join(words)


def own():
    """The names with a dash that the repository defines, with what they become."""
    found = {}
    for path in files(".antt"):
        with open(path, encoding="utf-8") as f:
            for line in f:
                m = DEFINED.match(line)
                if m and "-" in m.group(1) and not GOAL.match(m.group(1)):
                    found[m.group(1)] = spelled(m.group(1))
    return found


def respelled(line, names, rust):
    """A line with its names respelled. In code a dash is a subtraction or text, so only clauses and ghost members
    count; a comment is English, but for the names before the colon in the head of a file of specs/."""
    if rust and not re.match(r"\s*(ghost|requires|ensures)\b", line):
        return line
    if line.lstrip().startswith("--"):
        head, colon, rest = line.partition(":")
        words = re.split(r"[,\s]+", head.strip("- "))
        if not colon or any(w and w not in names and not re.fullmatch(r"[\w']+", w) for w in words):
            return line
        if len(words) > 1 and "," not in head:
            return line
        parts = [head, colon + rest]
        parts[0] = NAME.sub(lambda m: names.get(m.group(0), m.group(0)), head)
        return "".join(parts)
    parts = re.split(r'("(?:[^"\\]|\\.)*")', line)
    for i in range(0, len(parts), 2):
        parts[i] = NAME.sub(lambda m: names.get(m.group(0), m.group(0)), parts[i])
    return "".join(parts)


def main():
    names = own()
    taken = {}
    for path in files((".antt", ".rt")):
        with open(path, encoding="utf-8") as f:
            text = f.read()
        for word in set(re.findall(r"[A-Za-z][\w']*", text)):
            taken.setdefault(word, path)
    new = {}
    for old, word in sorted(names.items()):
        if word in new:
            print(f"falls together: {old} and {new[word]} become {word}")
        if word in taken:
            print(f"there already: {old} becomes {word}, of {taken[word]}")
        new[word] = old
    if "--dry" in sys.argv:
        return
    for path in files((".antt", ".rt")):
        with open(path, encoding="utf-8") as f:
            lines = f.read().split("\n")
        out = []
        for line in lines:
            out.append(respelled(line, names, path.endswith(".rt")))
        text = "\n".join(out)
        if text != "\n".join(lines):
            with open(path, "w", encoding="utf-8") as f:
                f.write(text)


main()
