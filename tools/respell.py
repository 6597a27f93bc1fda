"""Brings the repository's own definitions and lemmas to today's spelling: words in snake case, types, records and modules as they are.
usage: python3 tools/respell.py [--list] at the top, once, behind port.py. A name is turned in the file that defines it and where it is imported; a field everywhere.
--list writes the renames to standard output and changes nothing."""

import collections
import glob
import re
import sys

SPLIT = re.compile(r"([\s(){}\[\].,;⌜⌝\"]+)")
DEF = re.compile(r"^(\s*)(?:(?:pub|abbrev|unfoldable|opaque)\s+)*([^\s(){}:.,;|=λ]+)(?:\s+[({].*)?\s*:\s")
RECORD = re.compile(r"^\s*(?:(?:pub|abbrev|unfoldable)\s+)*(record|data)\s+\S")
USE = re.compile(r"use\s+(Rattle\.[\w+.]+)\.\{([^}]*)\}")
KEEP = {"let", "in", "where", "use"}
# A lemma that would have its function's name gets `_lem`: lemmas with a dash, and lemmas that already have the plain name, by module.
LEMMAS = "record-in record-line within-total is-cell held-means desk-output is-admitted is-stage lowest-after greatest-after held-rank faulty-row faulty-bound faulty-stage is-mark answer-of list-after stage-lent section-of draft-after of-section stage-of no-sums".split()
OTHER = {n: n.replace("-", "_") + "_lem" for n in LEMMAS}
PLAIN = {"Rattle.model.proofs.Flat": {"stage_at"}, "Rattle.canonical_text.proofs.WriteAnswers": {"has_room"}, "Rattle.cell_layout.proofs.Cells": {"no_cell"}}
OTHER |= {n: n + "_lem" for ns in PLAIN.values() for n in ns}


def turned(name):
    if not re.match(r"^[a-z]", name) or not re.search(r"[A-Z-]", name):
        return name
    return re.sub(r"(?<=[a-z0-9'])([A-Z])", lambda m: "_" + m[1].lower(), name).replace("-", "_").lower()


def module_of(path):
    """Rattle.NAME.specs.X for crates/NAME/specs/X.antt"""
    parts = path[: -len(".antt")].split("/")[1:]
    return "Rattle." + ".".join(parts)


def texts():
    for p in sorted(glob.glob("crates/*/specs/**/*.antt", recursive=True) + glob.glob("crates/*/proofs/**/*.antt", recursive=True) + glob.glob("crates/*/src/**/*.rt", recursive=True)):
        if "/out/" not in p:
            yield p


def of_function(path):
    """A file of the proof of one function: its goals have names that Rattle makes."""
    m = re.match(r"crates/\w+/proofs/(.*)", path)
    return bool(m) and "Proof.antt" in path or bool(m) and "/Proof/" in path


def definitions(path, lines):
    own, fields, inside = set(), set(), None
    for line in lines:
        depth = len(line) - len(line.lstrip())
        if inside is not None and line.strip() and depth <= inside:
            inside = None
        m = RECORD.match(line)
        if m and "record {" not in line:
            inside = depth
            continue
        m = DEF.match(line)
        if not m or m[2] in KEEP or m[2].startswith("--"):
            continue
        (fields if inside is not None and depth > inside else own).add(m[2])
    return own, fields


def main(argv):
    files = {p: open(p, encoding="utf-8").read() for p in texts()}
    defined, fields = {}, set()
    for p, t in files.items():
        if p.endswith(".antt") and not of_function(p):
            own, f = definitions(p, t.splitlines())
            defined[module_of(p)] = {n for n in own if turned(n) != n} | PLAIN.get(module_of(p), set())
            fields |= {n for n in f if turned(n) != n}
    listed = collections.Counter()
    clashes = []
    for p, t in files.items():
        names = set(fields) | defined.get(module_of(p) if p.endswith(".antt") else "", set())
        for m in USE.finditer(t):
            known = defined.get(m[1], set())
            names |= {n.strip().split(" as ")[0] for n in m[2].split(",")} & known
        words = SPLIT.split(t)
        have = set(words[::2])
        new = {n: OTHER.get(n, turned(n)) for n in names}
        back = collections.defaultdict(set)
        for n in names & have:
            back[new[n]].add(n)
            if new[n] in have:
                back[new[n]].add(new[n])
        clashes += [(p, k, sorted(v)) for k, v in back.items() if len(v) > 1]
        for n in names & have:
            listed[n, new[n]] += 1
        out = "".join(new.get(w, w) if not i % 2 else w for i, w in enumerate(words))
        if p.endswith(".rt") or p.endswith(".antt"):
            # in comments names stand in backticks
            out = re.sub(r"`([^`\s]+)`", lambda m: "`" + new.get(m[1], m[1]) + "`", out)
        if "--list" not in argv and out != t:
            open(p, "w", encoding="utf-8").write(out)
    if "--list" in argv:
        for (a, b), n in sorted(listed.items()):
            print(a, b, n)
    for c in clashes:
        print("clash:", *c, file=sys.stderr)


main(sys.argv[1:])
