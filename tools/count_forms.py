#!/usr/bin/env python3
"""Counts, in src/ of every crate, the lines and items in which an older form of the language may stand.

usage: tools/count_forms.py [-l] [NAME ..]     at the top of the repository; -l lists the places, NAME picks points by number
"""
import glob, re, sys, collections

def sources():
    for path in sorted(glob.glob('crates/*/src/**/*.rt', recursive=True)):
        yield path, open(path).read().split('\n')

def code(line):
    return line.split('//')[0]

def lines_with(pattern):
    seek = re.compile(pattern)
    return [(path, i + 1, line.strip()) for path, lines in sources() for i, line in enumerate(lines) if seek.search(code(line))]

# Functions with their parameters, by file.
def functions():
    for path, lines in sources():
        text = '\n'.join(code(line) for line in lines)
        for m in re.finditer(r'\bfn (\w+)\s*(<[^{;]*?>)?\s*\(', text):
            depth, i = 1, m.end()
            while depth and i < len(text):
                depth += {'(': 1, ')': -1}.get(text[i], 0)
                i += 1
            inner = text[m.end():i - 1]
            depth, parts, part = 0, [], ''
            for c in inner:
                depth += {'(': 1, '[': 1, '<': 1, ')': -1, ']': -1, '>': -1}.get(c, 0)
                if c == ',' and depth == 0:
                    parts.append(part); part = ''
                else:
                    part += c
            if part.strip():
                parts.append(part)
            yield path, text.count('\n', 0, m.start()) + 1, m.group(1), [p.strip() for p in parts]

# Items whose name is defined in more than one crate, but for what a program or a trait asks for.
def shared_names():
    found = collections.defaultdict(list)
    usual = {'main', 'run', 'new', 'fmt', 'begin', 'from', 'try_from', 'close', 'octets', 'decision', 'propose', 'read', 'write'}
    seek = re.compile(r'^\s*(?:pub(?:\(crate\))? )?(?:extern "C" )?(fn|enum|struct|trait|const) (\w+)')
    for path, lines in sources():
        for i, line in enumerate(lines):
            m = seek.match(line)
            if m and m.group(2) not in usual:
                found[(m.group(1), m.group(2))].append((path, i + 1, line.strip()))
    out = []
    for (kind, name), places in sorted(found.items()):
        if len({p.split('/')[1] for p, _, _ in places}) > 1:
            out += places
    return out

# `requires` clauses of one text in three or more functions.
def repeated_clauses():
    found = collections.defaultdict(list)
    for path, i, line in lines_with(r'^\s*requires'):
        found[re.sub(r'^requires \w* *\{', 'requires {', line)].append((path, i, line))
    return [p for text, places in sorted(found.items()) if len(places) >= 3 for p in places]

POINTS = {
    '1a own enums with a case for nothing or for a refusal': lambda: lines_with(r'^\s+(Refused|Undecided|Empty|Fresh|Idle)\b[^=]*,\s*$'),
    '1b a refusal or a fault as an Option': lambda: lines_with(r'Option<(Refusal|Fault)>|return Some\((Refusal|Fault)|Some\(refusal\)|Some\(fault\)'),
    '1c an error or a nothing passed on by hand': lambda: lines_with(r'Err\(\w+\) => (return )?(Err|Ok\(Err|None)|None => (None|Err|return)\b|Some\(\w+\) => Some|Ok\((\w+|\(\))\) => (Ok|Some|\w+),|Err\(\w+\) => Answer::Refused'),
    '1d numbers for kinds': lambda: lines_with(r'\blayer: u8|\blayer: \d|_LAYER\b|\bLINE: u8|\bKIND: u8|Option<R>, u8>|Err\([12]\)|\bmark == \d|marks\[i\] == \d|\{ 3 \} else \{ 2 \}|, item, 1\)|^\s+[0-9]+ => Some\(Refusal'),
    '1e a number that says nothing': lambda: lines_with(r'fn (round_trips|soundings_hold|law_holds|samples_hold)\b.*-> u8'),
    '2 names that are defined in more than one crate': shared_names,
    '3a loops by while': lambda: lines_with(r'^\s*while\b'),
    '3b loops over a range of numbers': lambda: lines_with(r'\bfor \w+ in \(?[\w()*.:+ -]+\.\.'),
    '3c counts and places kept by hand': lambda: lines_with(r'\b\w+ [+-]= (1|stride|2);|saturating_add\(1\)|wrapping_add\(1\);|= end \+ 1'),
    '4 conversions, tests and prints by hand': lambda: lines_with(r'fn (of|kind_of|kind_at_field|parse_kind|digit|bit_octet|refusal_of|first_letter|call_word|print_cell|cell_text|print_answer|same_cell|asked|letter)\b|\|\| \w+(\.\w+)? > 16|== 0 \|\| n > 16|if \w+(\.\w+)? \{ 1 \} else \{ 0 \}|Some\(number as'),
    '5a a clause in three or more functions': repeated_clauses,
    '5b functions of six or more parameters': lambda: [(p, i, '%s(%s)' % (n, ', '.join(ps))) for p, i, n, ps in functions() if len(ps) >= 6],
    '6 arrays with a length, parallel arrays': lambda: lines_with(r'^\s+(pub(\(crate\))? )?\w+: \[\w+; \w+\],|let (mut )?\w+(: \[[^=]*)? = \[[^;\]]*; \w+\];|entries: \[u16; 8\], count|^\s+(pub(\(crate\))? )?count: usize,'),
    '7 switches between generic functions': lambda: lines_with(r'(Kind|Run|Post)::(Bearings|Lamps)(\(\w+\))?\)? =>'),
}

def main():
    args = sys.argv[1:]
    show = '-l' in args
    names = [a for a in args if a != '-l']
    for title, find in POINTS.items():
        if names and not any(title.startswith(n) for n in names):
            continue
        places = find()
        print('%4d  %s' % (len(places), title))
        if show:
            for path, i, text in places:
                print('        %s:%d  %s' % (path, i, text))

main()
