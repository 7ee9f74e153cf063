#!/usr/bin/env python3
"""Brings the names that the checker makes, in the files of functions' proofs, to today's spelling.

usage: tools/respell_goals.py, once, at the top, after tools/respell.py

A name of the source keeps its underscores, and the checker's own words have one inside:
c.hex-octets  ->  c.hex_octets,  goal.returns-in-err-next  ->  goal.returns-in_err-next,  goal.overflow-add-x  ->  goal.overflow_add-x
"""
import glob, re

WORD = re.compile(r"(?<![\w'-])-?[A-Za-z_][\w']*(?:-[\w']+)*")
source = set()
for path in glob.glob("crates/*/src/**/*.rt", recursive=True):
    text = re.sub(r"//.*|\"(?:[^\"\\]|\\.)*\"", "", open(path, encoding="utf8").read())
    text = "\n".join(line for line in text.split("\n") if not re.match(r"\s*(?:ghost|requires|ensures|law)\b", line))
    source |= {word for word in re.findall(r"[A-Za-z]\w*_\w+", text)}
source |= {"deref_mut", "from_residual", "from_output", "type_inv", "well_formed", "into_iter"}
dashed = sorted(((word.replace("_", "-"), word) for word in source), key=lambda pair: -len(pair[0]))
found = {}


def turned(name):
    if name not in found:
        new = name
        new = re.sub(r"(?<![\w'])([Ii])n-(ok|err|default)(?=-|$)", r"\1n_\2", new)
        new = re.sub(r"(?<![\w'])(offset|slice)-bounds(?=-)", r"\1_bounds", new)
        new = re.sub(r"(?<![\w'])overflow-(add|sub|mul|cast|shl|shr|neg|div|rem)(?=-)", r"overflow_\1", new)
        for old, word in dashed:
            new = re.sub(r"(?<![\w'])" + re.escape(old) + r"(?![\w'])", word, new)
        if new.startswith("-"):
            new = "_" + new[1:]
        found[name] = new
    return found[name]


def turn(line):
    if line.lstrip().startswith("--"):
        return line
    goals = re.match(r"use Rattle\.\w+\.proofs\.[\w.]+\.(?:Goals|Given)\.\{", line)

    def one(m):
        before = line[: m.start()]
        made = goals or before.endswith(".") or re.fullmatch(r"(?:abbrev )?(?:pub )?", before) or re.match(r"(?:In|After|Then|Else|At|Joined|then|else|in|returns)-", m.group(0))
        if m.group(0).startswith("-") and not before.endswith("."):
            return m.group(0)
        return turned(m.group(0)) if made else m.group(0)

    return WORD.sub(one, line)


paths = set(glob.glob("crates/*/proofs/**/*.antt", recursive=True)) - set(glob.glob("crates/*/proofs/*.antt"))
for path in sorted(paths):
    old = open(path, encoding="utf8").read()
    new = "\n".join(turn(line) for line in old.split("\n"))
    if new != old:
        open(path, "w", encoding="utf8").write(new)
for name, new in sorted(found.items()):
    if name != new:
        print(name, "->", new)
