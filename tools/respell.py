#!/usr/bin/env python3
"""Respells the names that this repository declares in specs/ and proofs/ in snake case, in every crate. Run once, after port.py, at the top.

A name is one that a file of specs/ or of the lemma files in proofs/ declares: definitions, lemmas, fields, constructors, and helpers below them.
Types and modules, functions of src/, exported names, strings and goals' names stay. It stops where two names would fall together in one file's scope.
"""
import collections
import glob
import os
import re
import sys

TOKEN = r"[^\s(){}.,;:⌜⌝\[\]\"`→×λ]+"
GOALS = re.compile(r"^(invariant-|decreases-|loop-|overflow|returns(-\d+)?$)|-requires(-\d+)?$|-spec$")
# Laws and fields whose plain respelling is the name of a definition beside them.
CLASH = {"well-formed": "is_well_formed"}
CLASH.update((n, n.replace("-", "_") + "_law") for n in """has-live id-at right-window header-bytes is-image candidate-inside ideal-member formed-member rounds-at
on-ring no-more is-number bad-minutes bad-windows findings-refusal join-refusal leave-refusal settle-refusal member-refusal settle-at-refusal rounds-run
after-rounds until-done is-pending first-from read-words last-below with-predecessor is-done next_up first_above next_place each_tells""".split())
# The same of names that functions of src/ have too: turned in these crates alone.
LOCAL = {"first_live": ("head_live", ("laws", "theory", "join", "calls")), "is_open": ("open_there", ("laws", "theory"))}
WORDS = {"use", "module", "where", "let", "in", "rw", "mod", "pub", "infixr", "infixl", "infix", "elim"}


def snake(name):
    name = name.replace("-", "_").replace("\u2032", "'")
    name = re.sub(r"(?<=[a-z0-9])([A-Z])", lambda m: "_" + m.group(1).lower(), name)
    return name


def declared(texts):
    heads = collections.defaultdict(set)
    for path, text in texts.items():
        if not path.endswith(".antt"):
            continue
        for line in text.split("\n"):
            if line.lstrip().startswith("--"):
                continue
            for m in re.finditer(r"^(?:\s*(?:abbrev|unfoldable|opaque|private|pub|record|data|let)\s+|\s*)*((?:" + TOKEN + r"\s+)*?" + TOKEN + r")(?:\s+[({].*?)?\s+:\s", line):
                for name in m.group(1).split():
                    if name not in WORDS:
                        heads[name].add(path)
    return heads


def foreign(texts):
    """Names that files take from elsewhere than this repository's crates."""
    ours = set(os.listdir("crates"))
    found = set()
    for text in texts.values():
        for m in re.finditer(r"\buse ([\w.\u00b7'-]+?)\.\{([^}]*)\}", text):
            parts = m.group(1).split(".")
            if parts[0] == "Rattle" and len(parts) > 1 and parts[1] in ours:
                continue
            for item in m.group(2).split(","):
                found.add(item.strip().split(" as ")[0].strip())
    return found


def main():
    paths = sorted(glob.glob("crates/*/src/**/*.rt", recursive=True) + glob.glob("crates/*/specs/*.antt") + glob.glob("crates/*/proofs/**/*.antt", recursive=True))
    texts = {p: open(p, encoding="utf-8").read() for p in paths}
    heads = declared(texts)
    kit = foreign(texts)
    lemma_files = lambda p: "/specs/" in p or len(p.split("/proofs/")[-1].split("/")) == 1
    change = {}
    for name, where in heads.items():
        if not re.match(r"[a-z]", name) or name in kit:
            continue
        if not any(lemma_files(p) for p in where):
            if "-" in name and (GOALS.search(name) or True):
                continue
        new = CLASH.get(name) or snake(name)
        if new != name:
            change[name] = new
    for name, new in CLASH.items():
        if name in heads:
            change[name] = new
    # names that fall together: in one file, the new name already stands as another name
    bad = 0
    for path, text in texts.items():
        tokens = set(re.findall(TOKEN, text))
        seen = {}
        for t in tokens:
            n = change.get(t, t)
            if n in seen and seen[n] != t and (t in heads or t in change) and (seen[n] in heads or seen[n] in change):
                print("falls together:", path, t, seen[n], "->", n)
                bad += 1
            seen[n] = t
    if "--dry" in sys.argv:
        for k in sorted(change):
            print(k, change[k])
        return
    if bad and "--force" not in sys.argv:
        sys.exit(1)
    camel = {k: v for k, v in change.items() if "-" not in k}

    def part(text, table):
        return re.sub(TOKEN, lambda m: table.get(m.group(0), m.group(0)), text)

    def line_of(line, mark):
        i = 0 if line.lstrip().startswith(mark) else line.find(" " + mark + " ")
        if i < 0:
            return part(line, change)
        code, note = line[:i], line[i:]
        note = re.sub(r"`[^`]*`", lambda m: part(m.group(0), change), note)
        return part(code, change) + part(note, camel)

    for path, text in texts.items():
        for name, (new, crates) in LOCAL.items():
            if path.split("/")[1] in crates and path.endswith(".antt"):
                text = re.sub(TOKEN, lambda m: new if m.group(0) == name else m.group(0), text)
        mark = "--" if path.endswith(".antt") else "//"
        new = "\n".join(line_of(l, mark) for l in text.split("\n"))
        if new != text:
            with open(path, "w", encoding="utf-8") as f:
                f.write(new)
    print(len(change), "names respelled")


main()
