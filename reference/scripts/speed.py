#!/usr/bin/env python3
# speed.py       writes a script of exactly 195,000 lines to standard output
# speed.py out   writes what harbour must print for it
#
# n = 16, m = 16, bearings. quorum 11, weak quorum 6. Faulty: 11 to 15. Honest: 0 to 10.
# Lines: N, 5 X, T, 176 I, O = 184; 302 steps of 644 sends and a close = 194,790;
# 25 looks; Z. Together 195,000. No line is refused: each sender, receiver and item is
# sent once a step at most, cells in steps 1 and 2, bits later, and items 0 to 11 are
# undecided to the end.
#
# Items. 0 to 11: divided for ever (open). 12: alike (a reading, step 3). 13: all differ
# (none, step 4). 14: divided up to round 50, then the toss 0 (a reading, step 153).
# 15: divided up to round 99, then the toss 1 (none, step 301).
#
# THE PATTERN of a divided item. z and o are the honest zeros and ones, z + o = 11.
# "Pressed" receivers get one and the same bit, the pressed bit, from all five faulty
# nodes; all others get it from four at most (node 11 sends them the opposite or nothing,
# 12 to 15 anything). So at a pressed receiver six honest and five faulty make the quorum
# 11; at the others that bit has 6 + 4 = 10 at most, the opposite 5 + 5 = 10 at most:
# neither. Which nodes hold which bit is no matter, all hear all.
#   Step 1: six honest begin v, five w. Six pressed with v: 6 + 5 = 11 -> they hold v.
#       Others: v 6 + 4, w 5 + 5 -> none.
#   Step 2: v held by six, none by five. Five pressed with v: 11 -> grade 2, bit 0. Others:
#       v 6 to 10 -> grade 1, bit 1 (no other meaning: five at most, below the weak quorum
#       6). The value is v at all.                                       z 5, o 6
#   Step 3k (z 5, o 6): five pressed with 1: 11 ones -> 1. Others -> 0, undecided.
#                                                                        z 6, o 5
#   Where the toss of this round and item is 0:
#     Step 3k + 1: five pressed with 0: 11 zeros -> 0, undecided. Others -> 1. z 5, o 6
#     Step 3k + 2: six pressed with 1 -> 1. The other five toss 0.             z 5, o 6
#   Where it is 1:
#     Step 3k + 1: six pressed with 0 -> 0, undecided. Others (five) -> 1.     z 6, o 5
#     Step 3k + 2: five pressed with 0 -> 0. The other six toss 1.             z 5, o 6
#   So each round ends as it began. Round 100 ends with step 302.
#
# Item 14, round 50 (steps 150 to 152): entry 49 mod 8 = 1, bit 14 of 3C5A is 0. In step
# 152 nobody is pressed: ones 6 + 4, zeros 5 + 5 at most -> all toss 0. Step 153: zeros 11
# -> decided 0. The value: v is 15000, of its backers 3 to 8 node 3 began 51000 (15000 and
# a turn), the lowest backer's cell is kept in step 1, and all who hold v in step 2 hold
# 51000 -> 51000 at all. Faulty nodes are above all honest ones, so never the lowest.
# Item 15, round 99 (steps 297 to 299): entry 98 mod 8 = 2, bit 15 of F0F0 is 1. In step
# 299 nobody is pressed: zeros 6 + 4, ones 5 + 5 -> all toss 1. Step 300: ones 11 -> 1,
# undecided. Step 301: ones 11 -> decided 1: none.
# Item 12: even nodes begin 36030, odd ones 30: eleven of one meaning; node 0 is the lowest
# -> 36030 at all, grade 2, bit 0, decided in step 3 by eleven zeros.
# Item 13: eleven meanings; 1 + 5 = 6 < 11 -> none; five < 6 -> none, grade 0, bit 1; ones 11
# -> 1 in step 3, decided in step 4: none.
import sys
F, H = range(11, 16), range(11)
STRIP = ['A5C3', '3C5A', 'F0F0', '0FF0', '9669', '0000', 'FFFF', '6996']
SENDS = 644
DIVIDED = list(range(12)) + [14, 15]
LAST_ROUND = {14: 50, 15: 99}           # the round in whose toss nobody is pressed
PLACES = [(f, h, c) for c in range(16) for f in F for h in H]

def v(c): return 1000 * (c + 1)
def w(c): return v(c) + 500
def backers(c): return sorted((c + i) % 11 for i in range(6))
def turned(c, step, number): return {(3 * c + 2 * step + i) % 11 for i in range(number)}
def toss(c, k): return int(STRIP[(k - 1) % 8], 16) >> c & 1

def pressed(step, c):
    """The pressed receivers and the pressed bit (from step 3 on)."""
    if step == 1: return turned(c, step, 6), None
    if step == 2: return turned(c, step, 5), None
    k = step // 3
    t = toss(c, k)
    if step % 3 == 0: number, bit = 5, 1
    elif step % 3 == 1: number, bit = (6 if t else 5), 0
    else: number, bit = (5, 0) if t else (6, 1)
    if c in LAST_ROUND and step == 3 * LAST_ROUND[c] + 2: number = 0
    return turned(c, step, number), bit

def content(step, c, f, h, on, bit):
    mix = 5 * f + 3 * h + 7 * c + step
    if c not in DIVIDED or c in LAST_ROUND and step > 3 * LAST_ROUND[c] + 2:
        if step <= 2: return [30, 65535, '-', 101][mix % 4]     # any cell
        return mix // 2 % 2                                     # any bit
    if step <= 2:
        if h in on: return v(c)
        if f == 11: return w(c) if step == 1 else '-'
        return [v(c), w(c), '-'][mix % 3]
    if h in on: return bit
    if f == 11: return 1 - bit
    return mix // 3 % 2

def sends(step):
    must, may = [], []
    on = {}
    for c in range(16):
        divided = c in DIVIDED and not (c in LAST_ROUND and step > 3 * LAST_ROUND[c] + 2)
        on[c] = pressed(step, c) if divided else (set(), None)
    turn = step * 131 % len(PLACES)
    for f, h, c in PLACES[turn:] + PLACES[:turn]:
        (must if h in on[c][0] else may).append((f, h, c))
    chosen = must + may[:SENDS - len(must)]
    assert len(chosen) == SENDS
    letter = 'S' if step <= 2 else 'B'
    return [f'{letter} {f} {h} {c} {content(step, c, f, h, *on[c])}' for f, h, c in sorted(chosen)]

LOOKS = ([(h, 14, '51000') for h in H] + [(h, 0, 'open') for h in (0, 5, 10)]
         + [(h, 12, '36030') for h in (0, 1, 10)] + [(h, 13, '-') for h in (0, 10)]
         + [(h, 15, '-') for h in (0, 5, 10)] + [(h, 11, 'open') for h in (0, 10)] + [(3, 7, 'open')])

def script():
    yield 'N 16 16 B'
    for f in F: yield f'X {f}'
    yield 'T ' + ' '.join(STRIP)
    for c in range(16):
        for h in H:
            if c == 12: r = 36030 if h % 2 == 0 else 30
            elif c == 13: r = 100 * (h + 1)
            elif h not in backers(c): r = w(c)
            else: r = v(c) + (36000 if h == backers(c)[0] else 0)
            yield f'I {h} {c} {r}'
    yield 'O'
    for step in range(1, 303):
        yield from sends(step)
        yield 'C'
    for h, c, _ in LOOKS: yield f'L {h} {c}'
    yield 'Z'

def out():
    line = 184 + 302 * (SENDS + 1)
    for h, c, result in LOOKS:
        line += 1
        yield f'{line} {h} {c} {result}'
    for h in H: yield ' '.join([str(h)] + ['open'] * 12 + ['36030', '-', '51000', '-'])

if __name__ == '__main__':
    rows = out() if sys.argv[1:] == ['out'] else script()
    sys.stdout.write(''.join(r + '\n' for r in rows))
