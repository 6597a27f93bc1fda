"""Brings the must-fail edits to today's spelling: each edit of the last landed commit (the first line of docs/PORT.md) whose `old:` text
stands exactly once in today's file, spelled as port.py and tools/respell.py spell it, is written anew with the same change.
usage: python3 tools/bring_edits.py [--check | --list | --again] at the top.
An edit that no longer reads as landed is left as it is, but for --again. --check and --list change nothing: --check lists each edit whose old
text doesn't stand exactly once, and each whose change or place isn't the landed one word for word (names as respelled; brackets, blanks, `now`
aside); --list prints each edit whose text is new beside the landed one."""

import glob
import re
import subprocess
import sys

OPENS, CLOSES = "([{", ")]}"
# What ends an application in a specification: a projection behind it takes what stands since.
OPERATORS = set("= ≡ ≢ ≤ < × ⊎ ∷ ++ + - * && || → ↔ ; , : λ . ¬ = let in".split())


def landed_commit():
    return open("docs/PORT.md", encoding="utf-8").readline().strip()


def landed(commit, path):
    done = subprocess.run(["git", "show", f"{commit}:{path}"], capture_output=True)
    return done.stdout.decode() if done.returncode == 0 else None


def turned(name):
    """The rule of tools/respell.py."""
    if not re.match(r"^[a-z]", name) or not re.search(r"[A-Z]|\w-\w", name):
        return name
    return re.sub(r"(?<=[a-z0-9'])([A-Z])", lambda m: "_" + m[1].lower(), name).replace("-", "_").lower()


def split(text):
    """The words of a specification with the blanks before each: brackets, strings and `;` `,` alone."""
    out = []
    for m in re.finditer(r'(\s*)("(?:[^"\\]|\\.)*"|[()\[\]{};,]|[^\s()\[\]{};,"]+)|(\s+)$', text):
        out.append((m[1], m[2]) if m[2] is not None else (m[3], ""))
    return out


def word(w):
    if w.startswith('"'):
        return w
    if re.fullmatch(r"_[^_\w]+_", w):
        return "◌" + w[1:-1] + "◌"
    return turned(w)


def group(words, i, closing):
    """The parts of a bracket from words[i] on, up to `closing`: (blanks, text) each, projections written tight."""
    parts, start = [], 0

    def flush():
        # `now x` of what stands since `start`
        nonlocal parts
        if len(parts) - start == 2 and parts[start][1] == "now":
            parts[start:] = [(parts[start][0], parts[start + 1][1] + ".now")]

    while i < len(words):
        blank, w = words[i]
        if w in CLOSES and w:
            if w != closing:
                parts.append((blank, w))
                start = len(parts)
                i += 1
                continue
            flush()
            return parts, i + 1, blank, True
        if w and w in OPENS:
            inner, j, last, closed = group(words, i + 1, CLOSES[OPENS.index(w)])
            text = "".join(b + t for b, t in inner) + last
            if closed:
                if w == "(" and len(inner) == 1 and not last and re.fullmatch(r"([\w']+|\(.*\))(\.[\w']+)+", text):
                    parts.append((blank, text))
                else:
                    parts.append((blank, w + text + CLOSES[OPENS.index(w)]))
                i = j
                continue
            # an open bracket that the text doesn't close
            parts.append((blank, w))
            start = len(parts)
            parts += inner
            i = j
            continue
        if re.match(r"^\.[\w']", w):
            flush()
            since = parts[start:]
            if not since:
                parts.append((blank, word(w)))
            elif len(since) == 1 and not re.match(r"^\.\d", since[0][1]):
                parts[start:] = [(since[0][0], since[0][1] + "." + turned(w[1:]))]
            else:
                lead = since[0][0]
                inside = since[0][1] + "".join(b + t for b, t in since[1:])
                parts[start:] = [(lead, "(" + inside + ")." + turned(w[1:]))]
            i += 1
            continue
        if w in OPERATORS or (w.endswith(".") and len(w) > 1):
            flush()
            parts.append((blank, word(w[:-1]) + "." if w.endswith(".") and len(w) > 1 else w))
            start = len(parts)
        else:
            parts.append((blank, word(w)))
        i += 1
    flush()
    return parts, i, "", False


def specified(text):
    """A specification's text in today's spelling."""
    parts, _, last, _ = group(split(text), 0, None)
    return "".join(b + t for b, t in parts) + last


def paths(text):
    text = re.sub(r"use (Prim|mathlib|lib)(\.\w+)+\.\{", "use Rattle.std.specs.Prelude.{", text)
    text = re.sub(r"Rattle·(\w+)·specs\.specs\.", r"Rattle.\1.specs.", text)
    return re.sub(r"Rattle·(\w+)\.", r"Rattle.\1.", text)


def today(text, path):
    """The ways in which a landed text may be spelled today, the likeliest first."""
    return [text, specified(paths(text))] if path.endswith(".rt") else [specified(paths(text))]


def read(edit):
    head, path, pairs = [], None, []
    for line in edit.split("\n"):
        if line.startswith("file: "):
            path = line[6:]
        elif line.startswith("old: "):
            pairs.append([line[5:], None])
        elif line.startswith("new: "):
            pairs[-1][1] = line[5:]
        elif line.startswith("#"):
            head.append(line)
        elif line.strip():
            sys.exit("can't read: " + line)
    return head, path, pairs


def written(head, path, pairs):
    return "\n".join(head + ["file: " + path] + [x for old, new in pairs for x in ("old: " + old, "new: " + new)]) + "\n"


def fault(text, pairs):
    for old, new in pairs:
        n = text.count(old)
        if n != 1:
            return f"stands {n} times: {old}"
        if old == new:
            return f"changes nothing: {old}"
        text = text.replace(old, new)
    return None


def brought(commit, edit):
    """The edit in today's spelling, or none and what is amiss."""
    head, path, pairs = read(landed(commit, edit))
    text = open(edit.split("/must-fail/")[0] + "/" + path, encoding="utf-8").read()
    first = None
    for way in range(len(today("", path))):
        new = [[today(t, path)[way] for t in pair] for pair in pairs]
        said = fault(text, new)
        if not said:
            return written(head, path, new), None
        first = first or said
    return None, first


def words_of(text):
    """The words of a text with its spelling taken off: no blanks, brackets or dots, no `now`, names as today's."""
    text = re.sub(r'"(?:[^"\\]|\\.)*"', lambda m: m[0].replace(" ", "\0"), paths(text))
    text = re.sub(r"λ r\. ⌜|⌝", " ", text)
    found = re.findall(r"\d+(?:u\d+)?|b?'(?:\\.|[^'])'|[\w'-]*\w[\w'-]*|[^\s\w()\[\].⌜⌝]+", text)
    return [word(w) for w in found if w != "now"]


def lines_at(text, old):
    """The whole lines in which `old` stands."""
    i = text.index(old)
    j = i + len(old)
    return text[text.rfind("\n", 0, i) + 1 : (text + "\n").index("\n", j)]


def compared(commit, edit):
    """What is to be looked at in an edit, beside the landed one."""
    was, now = read(landed(commit, edit)), read(open(edit, encoding="utf-8").read())
    at = edit.split("/must-fail/")[0] + "/"
    text, before = open(at + now[1], encoding="utf-8").read(), landed(commit, at + was[1])
    if said := fault(text, now[2]):
        yield said
        return
    if was[1] != now[1]:
        yield f"of {was[1]}, now of {now[1]}"
    if len(was[2]) != len(now[2]):
        yield f"{len(was[2])} changes, now {len(now[2])}"
        return
    for (a, b), (c, d) in zip(was[2], now[2]):
        if words_of(a) != words_of(c):
            yield f"old text: {a} | {c}"
        if words_of(b) != words_of(d):
            yield f"new text: {b} | {d}"
        if words_of(lines_at(before, a)) != words_of(lines_at(text, c)):
            yield f"its line: {lines_at(before, a).strip()} | {lines_at(text, c).strip()}"


def check(commit):
    edits = sorted(glob.glob("crates/*/must-fail/*.edit"))
    bad = differ = 0
    there = subprocess.run(["git", "ls-tree", "-r", "--name-only", commit, "crates"], capture_output=True, text=True).stdout.split()
    gone = sorted({e for e in there if e.endswith(".edit")} - set(edits))
    for edit in gone:
        print(edit[len("crates/"):], ":: gone")
    edits = [e for e in edits if e in there]
    for edit in edits:
        said = list(compared(commit, edit))
        for line in said:
            print(edit[len("crates/"):], "::", line)
        amiss = bool(said) and said[0].startswith(("stands", "changes nothing"))
        bad += amiss
        differ += bool(said) and not amiss
    print(f"{len(edits)} landed edits, {len(gone)} gone, {bad} that can't be applied, {differ} whose words aren't the landed ones")
    return bad + len(gone)


def listed(commit):
    """Each edit whose text isn't the landed one, old and new side by side, for docs/PORT.md."""
    for edit in sorted(glob.glob("crates/*/must-fail/*.edit")):
        was, now = landed(commit, edit), open(edit, encoding="utf-8").read()
        if was == now:
            continue
        was, now = read(was), read(now)
        print(f"\n### {edit.split('/')[1]}/{edit.split('/')[-1]}, {now[1]}\n")
        if was[0] != now[0]:
            print("    was:", *was[0], "\n    now:", *now[0])
        for i in range(max(len(was[2]), len(now[2]))):
            for kind in range(2):
                a = was[2][i][kind] if i < len(was[2]) else "(none)"
                b = now[2][i][kind] if i < len(now[2]) else "(none)"
                name = ("old", "new")[kind]
                print(f"    {name}, landed: {a}\n    {name}, today:  {b}" if a != b else f"    {name}, both:   {a}")


def main(argv):
    commit = landed_commit()
    if "--check" in argv:
        sys.exit(check(commit) > 0)
    if "--list" in argv:
        return listed(commit)
    open_ = 0
    for edit in sorted(glob.glob("crates/*/must-fail/*.edit")):
        was, now = landed(commit, edit), open(edit, encoding="utf-8").read()
        if was is None or (now != was and "--again" not in argv):
            continue
        new, said = brought(commit, edit)
        if new is None:
            open_ += 1
            print(edit[len("crates/"):], "::", said)
            continue
        if new != now:
            open(edit, "w", encoding="utf-8").write(new)
    print(open_, "edits are left to do by hand")


main(sys.argv[1:])
