#!/usr/bin/env python3
"""Brings the repository's own definitions and lemmas to one spelling: words in snake case, types in camel case.

usage: tools/respell.py, once, at the top, after port.py

A name is the repository's own if a file of specs/ declares it, or a lemma file of proofs/, or a file of a
function's proof that declares it beside the answers. Names that the checker makes (goals, steps) stay, as do the
functions of src/, strings, inputs and outputs. Says which names would fall together, and changes nothing then.
"""
import collections, glob, re, sys

WORD = r"[A-Za-zα-ωΑ-Ω_][\w']*(?:-[\w']+)*"
TOKEN = re.compile(r"(?<![\w'-])" + WORD)
HEAD = r"^(\s*)(?:(?:abbrev|unfoldable|pub|private)\s+)*"
DECLARED = re.compile(HEAD + r"(" + WORD + r")(?:\s+(?:\([^()]*\)|\{[^{}]*\}))*\s*:(?!:)")
TYPE = re.compile(HEAD + r"(?:record|data)\s+(" + WORD + r")")
# names that fall together with another of the same file
APART = {"in-range": "in_range_bounds", "period-of": "period_of_tenths", "lamp-of": "lamp_of_letter"}


def code(line):
    """A line of antt without its comment."""
    return re.split(r"(?:^|(?<=\s))--(?=\s|$)", line)[0]


def respelled(name):
    if name in APART:
        return APART[name]
    if name[0].isupper():
        return "".join(part[0].upper() + part[1:] for part in name.split("-"))
    name = re.sub(r"(?<=[a-z0-9])([A-Z])(?=[a-z])", lambda m: "_" + m.group(1).lower(), name)
    return name.replace("-", "_")


def changes(name):
    return "-" in name or (not name[0].isupper() and re.search(r"[a-z0-9][A-Z][a-z]", name))


own, fields = set(), set()
low = sorted(glob.glob("crates/*/specs/**/*.antt", recursive=True) + glob.glob("crates/*/proofs/*.antt"))
high = sorted(set(glob.glob("crates/*/proofs/**/*.antt", recursive=True)) - set(low))
every = collections.Counter()
for path in low:
    for line in open(path, encoding="utf8"):
        line = code(line)
        for found in (TYPE.match(line), DECLARED.match(line)):
            if found and found.group(2) not in ("use", "let", "module"):
                every[found.group(2)] += 1
                if changes(found.group(2)):
                    own.add(found.group(2))
                    if found.group(1):
                        fields.add(found.group(2))
for path in high:
    for line in open(path, encoding="utf8"):
        line = code(line)
        found = DECLARED.match(line)
        if found and not found.group(1) and not re.search(r":\s*(?:goal|given)\.", line) and changes(found.group(2)):
            own.add(found.group(2))

together = collections.defaultdict(set)
for name in list(own) + list(every):
    together[respelled(name) if changes(name) else name].add(name)
clash = {new: old for new, old in together.items() if len(old) > 1}
if clash:
    print("these fall together:", clash)
    sys.exit(1)

made = collections.Counter()
def turn(text, in_proof):
    def one(m):
        name = m.group(0)
        before = text[m.start() - 1] if m.start() else " "
        if name not in own:
            return name
        if in_proof and before == "." and name not in fields and not re.search(r"(?:Rattle|[A-Z]\w*)(?:\.\w+)*\.$", text[:m.start()]):
            made[name] += 1
            return name
        return respelled(name)
    return TOKEN.sub(one, text)


def turn_antt(text, in_proof):
    lines = []
    for line in text.split("\n"):
        kept = code(line)
        note = re.sub(r"`[^`]*`", lambda m: turn(m.group(0), False), line[len(kept):])
        lines.append(turn(kept, in_proof) + note)
    return "\n".join(lines)


def turn_rt(text):
    lines = []
    for line in text.split("\n"):
        parts = re.split(r'("(?:[^"\\]|\\.)*"|//.*$)', line)
        lines.append("".join(turn(p, False) if k % 2 == 0 else p for k, p in enumerate(parts)))
    return "\n".join(lines)


def write(path, new):
    old = open(path, encoding="utf8").read()
    if old != new:
        open(path, "w", encoding="utf8").write(new)


for path in low + high:
    write(path, turn_antt(open(path, encoding="utf8").read(), path in high))
for path in glob.glob("crates/*/src/**/*.rt", recursive=True):
    write(path, turn_rt(open(path, encoding="utf8").read()))
for path in glob.glob("crates/*/must-fail/*.edit") + glob.glob("assurance/edits/*/*.edit"):
    write(path, turn_antt(open(path, encoding="utf8").read(), False))
for path in glob.glob("docs/*.md") + ["README.md"]:
    text = open(path, encoding="utf8").read()
    write(path, re.sub(r"`[^`\n]*`", lambda m: turn(m.group(0), False), text))
print(len(own), "names respelled")
print("left after a dot in a function's proof:", dict(made))
