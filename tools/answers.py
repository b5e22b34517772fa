#!/usr/bin/env python3
"""Turns the Proof.antt of an older Rattle into Invariants.antt and Answers.antt.

usage: python3 tools/answers.py CRATE NAMES        at the top of the repository; NAMES is the names.json of
                                                   rt check --generated DIR --old-names, run in the crate's folder

An answer that only searches the rules goes, since the check finds it alone. Steps lose their `.before` and take their new names.
Each Proof.antt that is turned is removed; what could not be turned is printed.
"""
import json
import os
import re
import sys

WORD = r"[^\s(){}.;,@\"«»\[\]\\]+"
DROPPED = ("Statement.{statement}", "Tie as tie")


def flat(name):
    return re.sub("-+", "-", name.replace("_", "-"))


def blocks(text):
    """A file's head, and its declarations: a signature with what stands below it."""
    out, block = [], []
    for line in text.split("\n"):
        if line.strip() == "" and block:
            out.append(block)
            block = []
        elif line.strip():
            block.append(line)
    return [*out, block] if block else out


class Names:
    def known(self, step):
        """A step's name as the list has it: respelling may have taken it for a lemma, and an older Rattle counted where today's does not."""
        for name in (step, re.sub("-lem(?=\\d*$)", "", step), re.sub(r"\d+$", "", step), re.sub(r"(-lem)?\d+$", "", step)):
            for it in (name, name[:1].lower() + name[1:]):
                if it in self.steps:
                    return it
        return step

    def __init__(self, of):
        self.goals = {flat(old): new for old, new in of["needs"]}
        self.settled = {flat(it) for it in of["settled"]}
        self.steps = {}
        for place in of["places"]:
            old, new = place[2]
            if old:
                self.steps.setdefault(flat(old), new)
        self.callees = {flat(place[2][0]): place[3] for place in of["places"] if place[3]}
        self.arms = {}
        for arm in of["arms"]:
            if arm:
                for field, step, way in arm[2]:
                    if way:
                        self.arms.setdefault((flat(step), tuple(way)), (arm[0], field))
        self.loops = {}
        for ((old, new), variables), changed in zip(of["loops"], of["changed"]):
            self.loops[flat(old)] = (new, variables, changed)


# By a function's path: the names of the slices that it is lent to be changed.
LENT, OWN = {}, {}


def signatures():
    for folder, _, files in os.walk("crates"):
        for name in files:
            if name.endswith(".rt") and "/src" in folder:
                crate = folder.split("/")[1]
                module = [] if name in ("lib.rt", "main.rt") else [name[:-3]]
                with open(os.path.join(folder, name), encoding="utf-8") as f:
                    for m in re.finditer(r"fn (\w+)(?:<[^>]*>)?\(([^)]*)\)", f.read()):
                        path = "::".join([crate, *module, m.group(1)])
                        LENT[path] = re.findall(r"(\w+): &mut \[", m.group(2))
                        OWN[path] = re.findall(r"(\w+):", m.group(2))


FIELD = r"(?:\.(?:«[^»]*»|" + WORD + r"))"
NAME = r"[A-Za-z][\w₀-₉'-]*"


def fields_of(text):
    return [f for f in re.findall(r"«[^»]*»|[^.]+", text) if f != "before"]


def path(head, rest, names):
    """A path from a context: c.before.before.step.field -> c.step.field"""
    fields = fields_of(rest)
    if not fields:
        return head
    old = names.known(flat(fields[0].strip("«»")))
    for n in range(len(fields), 1, -1):
        if (old, tuple(fields[1:n])) in names.arms:
            return ".".join([head, *names.arms[old, tuple(fields[1:n])], *fields[n:]])
    if len(fields) > 2 and fields[1] == "auto" and fields[2].isdigit():
        fields[2] = LENT[names.callees.get(old, names.path)][int(fields[2])]
    step = names.steps.get(old, fields[0])
    whole = ".".join([head, step, *fields[1:]])
    # Of `if !x` the step says x itself now.
    return f"(ap not {whole})" if step.startswith("if-not-") and fields[1:] in (["true"], ["false"]) else whole


def walked(body, names):
    """A body's paths. A name that a let binds to a place on the way is the context too, and one that it binds to what an arm gives is written out."""
    contexts, gives = {"c"}, {}
    for m in re.finditer(r"let (" + NAME + r") = (" + NAME + r")(" + FIELD + r"*) in", body):
        fields = fields_of(m.group(3))
        if m.group(2) in contexts and not fields:
            contexts.add(m.group(1))
        elif m.group(2) in contexts and fields[-1] == "given":
            gives[m.group(1)] = "c" + m.group(3)
    for name, way in gives.items():
        body = re.sub(r" *let " + re.escape(name) + r" = \S+ in\n?", "", body)
        body = re.sub(r"(?<![\w.«'-])" + re.escape(name) + r"(?=\.)", way, body)
    body = re.sub(r"\n? *let (" + NAME + r") = (" + NAME + r")((?:\.before)*) in(?=[ \n])", lambda m: "" if m.group(2) in contexts else m.group(0), body)

    def one(m):
        return path("c", m.group(2), names) if m.group(1) in contexts else m.group(0)

    body = re.sub(r"(?<![\w.«'₀-₉-])(" + NAME + r")(" + FIELD + r"*)", one, body)
    # An argument that is an array had a number for its name.
    return re.sub(r"(?<=\.)t(\d+)(?![\w-])", lambda m: names.own[int(m.group(1)) - 1], body) if names.own else body


def invariant(params, body, variables, changed):
    at = {}
    it = iter(params)
    for v, c in zip(variables, changed):
        at[next(it)] = f"l.initial.{v}" if c else f"l.{v}"
    for v, c in zip(variables, changed):
        if c:
            at[next(it)] = f"l.{v}"
    return re.sub(r"(?<![\w.«'-])(" + WORD + r")", lambda m: at.get(m.group(1), m.group(1)), body)


def turned(text, names, where):
    head, uses, answers, invariants, said = [], [], [], [], []
    parts = blocks(text)
    for block in parts:
        first = [l for l in block if not l.startswith(("--", "use "))]
        head += [l for l in block if l.startswith("--")] if not answers and not invariants else []
        uses += [l for l in block if l.startswith("use ") and not l.endswith(DROPPED)]
        if not first:
            continue
        m = re.match(r"(abbrev )?(?:pub )?(" + WORD + r") : (.*)", first[0])
        if not m:
            said.append("left: " + first[0])
            answers.append("\n".join(first))
            continue
        _, name, kind = m.groups()
        body = "\n".join(first[1:])
        if "tie.close" in body:
            continue
        k = re.match(r"tie\.(invariant|decreases)-(\S+)", kind)
        if k:
            loop = names.loops.get(flat(k.group(2)))
            b = re.match(r"(\S+)((?: \S+)*?) =(.*)", body, re.S)
            if loop is None or b is None:
                said.append("left: " + first[0])
                continue
            new, variables, changed = loop
            said_name = f"{k.group(1)}-{new}"
            invariants.append(f"abbrev pub {said_name} : goal.{said_name}\n{said_name} l ={invariant(b.group(2).split(), b.group(3), variables, changed)}")
            continue
        k = re.match(r"tie\.Need-(\S+)", kind)
        if not k:
            answers.append("\n".join(first))
            continue
        old = re.sub(r"^overflow-", "", flat(k.group(1)))
        new = names.goals.get(flat(k.group(1))) or names.goals.get(old) or names.goals.get(flat(name))
        lines = first[1:]
        opens = []
        while lines and lines[0].startswith("unfolding "):
            opens.append(lines.pop(0))
        body = "\n".join(lines)
        b = re.match(r"\S+ (\S+)(?: κs)? =(.*)", body, re.S)
        if not b:
            said.append("left: " + first[0])
            continue
        if b.group(2).strip() == "search rules" and not opens:
            continue
        if new is None:
            said.append(("gone: " if flat(k.group(1)) in names.settled else "no goal: ") + first[0])
            continue
        answers.append("\n".join([f"pub {new} : goal.{new}", *opens, f"{new} {b.group(1)} ={walked(b.group(2), names)}"]))
    return head, uses, answers, invariants, said


def main():
    crate, listed = sys.argv[1:3]
    with open(listed, encoding="utf-8") as f:
        every = json.load(f)
    signatures()
    by_path = {}
    for module, of in every.items():
        if ".Lts" in module:
            by_path[module.split(".", 1)[1].rsplit(".Lts", 1)[0].replace(".", "/")] = of
    top = f"crates/{crate}/proofs"
    for folder, _, files in sorted(os.walk(top)):
        if "Proof.antt" not in files:
            continue
        where = os.path.relpath(folder, top)
        if where not in by_path:
            print(f"{folder}: no names")
            continue
        file = os.path.join(folder, "Proof.antt")
        with open(file, encoding="utf-8") as f:
            text = f.read()
        names = Names(by_path[where])
        names.path = "::".join([crate, *where.split("/")])
        names.own = OWN.get(names.path)
        head, uses, answers, invariants, said = turned(text, names, where)
        module = f"Rattle.{crate}.proofs." + where.replace("/", ".")
        os.remove(file)
        for name, of, goals in (("Answers", answers, "Goals"), ("Invariants", invariants, "Given")):
            if of:
                body = "\n\n".join(of)
                if "(ap not " in body:
                    uses = [*uses, "use mathlib.Core.Bool.{not}"]
                    if not any(re.search(r"[{ ]ap[,}]", u) for u in uses):
                        uses.append("use mathlib.Core.Path.{ap}")
                lines = [*head, *uses, f"use {module}.{goals} as goal", "", body, ""]
                with open(os.path.join(folder, name + ".antt"), "w", encoding="utf-8") as f:
                    f.write("\n".join(lines))
        for it in said:
            print(f"{folder}: {it}")
        if not os.listdir(folder):
            os.removedirs(folder)


main()
