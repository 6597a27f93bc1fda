#!/usr/bin/env python3
"""places [POINT]: where src/ has a form that docs/DESIGN-PASS.md counts, a number for each point, or with POINT (as 3 or 1b) each place.

It reads the text alone, without comments but for 1b, and finds candidates: a place that stays has its reason beside it in the code.
"""
import pathlib
import re
import subprocess
import sys

TOP = pathlib.Path(__file__).resolve().parent.parent
FILES = subprocess.run(['git', 'ls-files', 'crates/*/src/*.rt'], cwd=TOP, capture_output=True, text=True, check=True).stdout.split()
FN = re.compile(r"^ *(?:pub |pub\(crate\) )?fn (\w+)(?:<[^>]*>)?\(([^)]*)\)([^{]*)", re.M)
TYPE = re.compile(r'^(?:pub |pub\(crate\) )?(struct|enum) (\w+)[^{;]*\{(.*?)^\}', re.M | re.S)
ANSWERS = 'Answer|TextAnswer|WriteAnswer|Check|End|Slip'


def lines(text, found):
    return [(text.count('\n', 0, m.start()) + 1, m.group(0).strip().split('\n')[0]) for m in found]


def types(text, test):
    return lines(text, [m for m in TYPE.finditer(text) if test(m.group(1), m.group(3))])


def functions(text, test):
    return lines(text, [m for m in FN.finditer(text) if test(m.group(2), m.group(3))])


def option_or_result(kind, body):
    if kind == 'enum':
        return re.search(r'^    (None|Nothing|Skipped|Meets|Admitted|Accepted|Written|Emptied)\b', body, re.M)
    fields = re.findall(r': ([^\n]+),', body)
    return len(fields) > 1 and any(re.fullmatch(f'bool|{ANSWERS}', f) for f in fields)


RULES = {
    '1a': ('own enums of the shape of Option or Result, an answer or a flag beside values', lambda t, raw: types(t, option_or_result)),
    '1b': ('a number or a place that stands for none', lambda t, raw: lines(raw, re.finditer(
        r'//.*(\b(0|128|64) (for none|where)|for none|; 0 and 0|the count where)|\bconst NO_\w+', raw))),
    '1c': ('a kind, a section or a refusal as a number', lambda t, raw: functions(
        t, lambda a, r: re.search(r'\b(section|code|last): u32|\bletter: u8|\bnumber: u32, (place|first|line)', a))),
    '2': ('a function of a name that stands in another file too', None),
    '3': ('loops by `while`', lambda t, raw: lines(t, re.finditer(r"^ *(?:'\w+: )?while .*", t, re.M))),
    '4': ('conversion by a function of its own, and a copy that is then changed', lambda t, raw: lines(t, re.finditer(
        r'^ *(?:pub |pub\(crate\) )?fn (?:u8_to_\w+|u16_to_\w+|at_most|same\w*|widened|bytes_16|bytes_32|(?:answer|check|end|text|write)_(?:number|place|first|second))\(.*|^ *let mut next = \w+;', t, re.M))),
    '5a': ('functions with a frame and stages', lambda t, raw: functions(t, lambda a, r: re.search(r'frame: Frame,\s*stages', a))),
    '5b': ('functions with a count and jobs', lambda t, raw: functions(t, lambda a, r: re.search(r'count: usize,\s*jobs', a))),
    '5c': ('functions with the lists of a draft', lambda t, raw: functions(t, lambda a, r: len(re.findall(r'\b(capacity|lengths|rank|bounded|bound): &', a)) > 1)),
    '6a': ('functions with a buffer and an offset', lambda t, raw: functions(
        t, lambda a, r: re.search(r"\w+: &(?:'\w )?mut [\w\[\]]+,\s*(?:at|put|told|kept|n): usize", a))),
    '6b': ('a list or bytes with a count beside them, and slices that go side by side', lambda t, raw: types(
        t, lambda k, b: re.search(r': usize,', b) and re.search(r': \[', b)) + functions(t, lambda a, r: len(re.findall(r': &\[', a)) > 2)),
    '7': ('a flag that says what is done', lambda t, raw: functions(t, lambda a, r: re.search(r'\b(?!ended|met)\w+: bool', a))),
}


def code(raw):
    """Without comments, and with each library of its own tests left out."""
    return re.sub(r'//.*', '', raw.split('#[cfg(test)]')[0])


def names(files):
    seen = {}
    for f in files:
        for m in FN.finditer(code((TOP / f).read_text())):
            seen.setdefault(m.group(1), []).append(f)
    return [(f, 0, 'fn ' + n) for n, fs in sorted(seen.items()) if n not in ('main', 'new') and len(set(fs)) > 1 for f in sorted(set(fs))]


def places(rule):
    if rule == '2':
        return names([f for f in FILES if 'rilthoss_c' not in f])
    return [(f, n, text) for f in FILES for raw in [(TOP / f).read_text()] for n, text in RULES[rule][1](code(raw), raw)]


def main():
    wanted = [r for r in RULES if not sys.argv[1:] or r.startswith(sys.argv[1])]
    for rule in wanted:
        found = places(rule)
        print(f'{rule:3} {len(found):4}  {RULES[rule][0]}')
        if sys.argv[1:]:
            for f, n, text in found:
                print(f'    {f}:{n}: {text[:120]}')
    if not sys.argv[1:] or sys.argv[1] == '8':
        proofs = subprocess.run(['git', 'ls-files', 'crates/*/proofs/*/*.antt'], cwd=TOP, capture_output=True, text=True, check=True).stdout.split()
        answers = sum(len(re.findall(r'^pub [\w·-]+ : goal\.', (TOP / p).read_text(), re.M)) for p in proofs)
        print(f'8   {answers:4}  answers to goals, in {len(proofs)} files')


main()
