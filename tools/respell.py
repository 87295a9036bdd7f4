#!/usr/bin/env python3
"""Spells the repository's own definitions and lemmas as today's Rattle does: words in snake case. Run once, behind port.py.

usage: python3 tools/respell.py            in the repository's top folder

A name that a .antt file of crates/ declares and that has an inner capital or a dash gets underscores. A dash stays
beside a part with a capital, as in `Nearer-wf`, and in operators. Where two names of one file would fall together, the one
that had a dash gets `_law` in specs/ and `_lem` in proofs/. A name that a file imports from a library stays there.
"""
import collections
import os
import re
import sys

OWN = {"f-1": "f_minus_1"}
DECLARED = re.compile(r"^(\s*)(?:(?:abbrev|unfoldable|pub) )*([^\s:(){}.,;]+)(?: \{[^{}\n]*\}| \([^()\n]*\))* :(?=\s|$)")
GENERATED = re.compile(r": (?:tie\.|\{M : Type 1\} → statement|statement)")
TOKEN = re.compile(r"[^\s(){}.;,@\"«»`/:]+")
USE = re.compile(r"\buse ([^\s;{]+)\.\{([^}]*)\}")


def files(top):
    for folder, dirs, names in os.walk(os.path.join(top, "crates")):
        dirs[:] = sorted(d for d in dirs if d not in ("out", ".git"))
        for name in sorted(names):
            if name.endswith((".antt", ".rt")):
                yield os.path.join(folder, name)


def read(path):
    with open(path, encoding="utf-8") as f:
        return f.read()


def plain(name):
    """The name in snake case."""
    if name in OWN:
        return OWN[name]
    new = name
    if re.match(r"◌?[a-z]", new):
        new = re.sub(r"(?<=[a-z0-9½])([A-Z])", lambda m: "_" + m.group(1).lower(), new)
    if "-" in new and not re.search(r"[A-Z]", new) and re.fullmatch(r"[\w'½]+(-[\w'½]+)+", new):
        new = new.replace("-", "_")
    return new


def renamings(top):
    where, fields = collections.defaultdict(set), set()
    tokens = {}
    for path in files(top):
        text = read(path)
        tokens[path] = set(TOKEN.findall(text))
        if not path.endswith(".antt"):
            continue
        for line in text.splitlines():
            m = DECLARED.match(line)
            if not m or line.lstrip().startswith("--") or path.endswith("/Proof.antt") and GENERATED.search(line):
                continue
            where[m.group(2)].add(path)
            if m.group(1):
                fields.add(m.group(2))
    new = {n: plain(n) for n in where}
    met = collections.defaultdict(list)
    for n in new:
        met[new[n]].append(n)
    for name, olds in sorted(met.items()):
        if len(olds) == 1:
            continue
        both = any(all(o in ts for o in olds) for ts in tokens.values())
        if not both:
            print(f"look: {name} stands for {' and '.join(olds)}, in files apart")
            continue
        # the definition, which had a capital, keeps the plain name
        keeps = [o for o in olds if re.search(r"[A-Z]", o)] or [o for o in olds if "_" in o]
        for o in olds:
            if o not in keeps:
                new[o] = name + ("_law" if any("/specs/" in p for p in where[o]) else "_lem")
                print(f"look: {o} is {new[o]}, since {name} is {keeps[0]}")
    # a name that meets one of a library's, in a file that has both
    own = set(os.listdir(os.path.join(top, "crates")))
    for path, ts in tokens.items():
        lent = foreign(read(path), own)
        for o, n in sorted(new.items()):
            if o in ts and o not in lent and n in lent and n != o:
                new[o] = n + ("_law" if any("/specs/" in p for p in where[o]) else "_lem" if "-" in o else "_own")
                print(f"look: {o} is {new[o]}, since {n} is a library's")
            elif o == n and o in lent and path in where[o]:
                print(f"look: {path} declares {o}, which it imports")
    return {o: n for o, n in new.items() if o != n}, fields


def foreign(text, own):
    names = set()
    for m in USE.finditer(text):
        steps = m.group(1).split(".")
        if not (steps[0] == "Rattle" and len(steps) > 1 and steps[1] in own):
            for it in m.group(2).split(","):
                names.update(it.split(" as ")[-1:])
    return {n.strip() for n in names}


def turned(text, new, fields, lent, hand):
    def word(m):
        t = m.group(0)
        if t not in new or t in lent:
            return t
        before = text[: m.start()]
        if before.endswith("tie."):
            return t
        if hand and before.endswith(".") and t not in fields:
            return t
        return new[t]

    out, at = [], 0
    for line in text.splitlines(keepends=True):
        m = re.match(r"\s*(--|//)", line)
        if m:
            # in a comment, only what stands in backticks
            out.append(re.sub(r"`[^`\n]+`", lambda b: TOKEN.sub(lambda w: new.get(w.group(0), w.group(0)) if w.group(0) not in lent else w.group(0), b.group(0)), line))
        else:
            out.append(None)
        at += 1
    whole = TOKEN.sub(word, text).splitlines(keepends=True)
    return "".join(o if o is not None else w for o, w in zip(out, whole))


def main(top):
    own = {c for c in os.listdir(os.path.join(top, "crates"))}
    new, fields = renamings(top)
    # an operator's word stands without its holes where it is used
    for o, n in list(new.items()):
        if o.startswith("◌") and o.endswith("◌"):
            new[o.strip("◌")] = n.strip("◌")
    for path in files(top):
        text = read(path)
        out = turned(text, new, fields, foreign(text, own), path.endswith("/Proof.antt"))
        if out != text:
            with open(path, "w", encoding="utf-8") as f:
                f.write(out)
    with open(os.path.join(top, "tools", "respelled.tsv"), "w", encoding="utf-8") as f:
        for o in sorted(new):
            f.write(f"{o}\t{new[o]}\n")
    print(f"{len(new)} names respelled: tools/respelled.tsv")


if __name__ == "__main__":
    main(os.path.abspath(sys.argv[1] if len(sys.argv) > 1 else "."))
