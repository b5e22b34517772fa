#!/usr/bin/env python3
"""Gives this repository's own definitions and lemmas the spelling of today's Rattle: words in snake case (port.py leaves them as they were).

usage: python3 tools/respell.py [--list]      at the top of the repository, once, straight after port.py

A name in camel case with a small first letter, or with dashes, becomes snake case: frameOf, frame-of -> frame_of. A dash stays where it joins
two words that are functions themselves, as in sets-append; a lemma that would have a word's name gets _lem. Names of the source, of the library and of
what Rattle makes stay. It stops where two names fall together. --list prints the pairs and writes nothing.
"""
import collections
import os
import re
import sys

KNOWN = set()
# Words of the rules themselves, which comments quote.
QUOTED = {"multiShot", "userData", "messageType", "messageIdentifier", "messageReference"}
WORD = r"[^\s(){}.;,@\"«»\[\]\\`]+"
TOKEN = re.compile(r"\"(?:[^\"\\]|\\.)*\"|«[^»]*»|" + WORD)
DECLARED = re.compile(r"^\s*(?:(?:unfoldable|abbrev|pub|\|)\s+)*((?:" + WORD + r")(?: " + WORD + r")*) :(?: |$)", re.M)
LISTS = {"append", "drop", "take", "length", "set", "replicate", "map", "get_or", "sets", "list", "reverse"}


def texts(top, endings):
    for folder, dirs, files in os.walk(top):
        dirs[:] = sorted(d for d in dirs if d not in ("out", ".git", "target"))
        for f in sorted(files):
            if f.endswith(endings):
                yield os.path.join(folder, f)


def read(path):
    with open(path, encoding="utf-8", newline="") as f:
        return f.read()


def snake(name):
    return re.sub(r"(?<=[a-z0-9])([A-Z])", lambda m: "_" + m.group(1).lower(), name).replace("-", "_")


def in_a_proof(path):
    """A file of one function's proof: what it declares is local to it."""
    return os.path.basename(path) in ("Proof.antt", "Answers.antt", "Invariants.antt")


def table():
    declared, functions, words_too = set(), set(LISTS), set()
    for path in texts("crates", (".antt",)):
        if in_a_proof(path):
            continue
        text = re.sub(r"--.*", "", read(path))
        for m in DECLARED.finditer(text):
            for name in m.group(1).split():
                declared.add(name)
                if "/specs/" in path or re.match(r"\s*abbrev", m.group(0)):
                    words_too.add(name)
                if re.match(r"\s*(unfoldable|abbrev)", m.group(0)):
                    functions.add(name)
    pairs = {}
    for name in sorted(declared):
        if not re.match(r"[a-z]", name) or not ("-" in name or re.search("[a-z0-9][A-Z]", name)):
            continue
        parts = name.split("-")
        if len(parts) == 2 and all(p in functions for p in parts) and any(p in LISTS for p in parts):
            new = "-".join(snake(p) for p in parts)
        else:
            new = snake(name)
        if new != name:
            pairs[name] = new
    # A lemma that would have the name of a word. Two words of one name stand in different modules, and a file names one of them by its module.
    words = declared | {new for old, new in pairs.items() if "-" not in old}
    for old, new in pairs.items():
        if "-" in old and new in words and old not in words_too:
            pairs[old] = new + "_lem"
    return pairs, declared


def of_the_library(text):
    """Names that a file imports from a library: they keep their spelling there."""
    out = set()
    for m in re.finditer(r"^\s*(?:pub |ghost )*use ([\w.]+)\.\{([^}]*)\}", text, re.M):
        if not re.match(r"Rattle\.(?!std\b)", m.group(1)):
            out.update(n.strip().split(" as ")[-1] for n in m.group(2).split(","))
    return out


def turned(text, pairs, but=()):
    return TOKEN.sub(lambda m: m.group(0) if m.group(0) in but else pairs.get(m.group(0), m.group(0)), text)


def comment(text, pairs):
    """A comment's names: those in camel case, also where port.py turned the name already, and those between backquotes."""
    def one(m):
        return snake(m.group(0)) if snake(m.group(0)) in KNOWN - {snake(q) for q in QUOTED} else m.group(0)

    return re.sub(r"`[^`]*`", lambda m: turned(m.group(0), pairs), re.sub(r"(?<![\w-])[a-z]+(?:[A-Z][a-z0-9]*)+(?![\w-])", one, text))


def antt(text, pairs, but=None):
    but = of_the_library(text) if but is None else but
    out = []
    for line in text.split("\n"):
        m = re.match(r"((?:[^-]|-(?!- ))*)(-- .*)?$", line)
        out.append(turned(m.group(1), pairs, but) + comment(m.group(2) or "", pairs))
    return "\n".join(out)


def rt(text, pairs):
    out = []
    for line in text.split("\n"):
        code, bar, rest = line.partition("//")
        if re.match(r"\s*(ghost|requires|ensures)\b", code):
            code = turned(code, pairs)
        out.append(code + bar + comment(rest, pairs))
    return "\n".join(out)


def edit(text, pairs):
    out, of_rt = [], True
    for line in text.split("\n"):
        if line.startswith("file:"):
            of_rt = line.endswith(".rt")
        if line.startswith(("old:", "new:")):
            line = line[:5] + (rt if of_rt else antt)(line[5:], pairs)
        out.append(line)
    return "\n".join(out)


def main():
    pairs, declared = table()
    KNOWN.update(declared, pairs.values())
    meets = collections.defaultdict(list)
    for old, new in pairs.items():
        meets[new].append(old)
    words = {"as_heard", "far_inside", "near_inside", "start_comes", "user_data", "with_state"}
    bad = [f"{', '.join(olds)} -> {new}" for new, olds in meets.items() if (len(olds) > 1 or new in declared) and new not in words]
    if bad:
        print("respell: names that fall together: " + "; ".join(bad), file=sys.stderr)
        raise SystemExit(2)
    if "--list" in sys.argv:
        for old, new in pairs.items():
            print(old, new)
        return
    for path in [*texts("crates", (".antt", ".rt", ".edit")), *texts("tests", (".edit",)), *texts("docs", (".md",)), "README.md"]:
        before = read(path)
        turn = {".antt": antt, ".rt": rt, ".edit": edit, ".md": comment}[os.path.splitext(path)[1]]
        after = turn(before, pairs)
        if after != before:
            with open(path, "w", encoding="utf-8", newline="") as f:
                f.write(after)


main()
