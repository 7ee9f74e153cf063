# sixteen: n = 16, m = 16, bearings. quorum 11, weak quorum 6.
# Faulty: 0 3 6 9 15 (node 0 is below every honest one, so its cell may be the one
# that is kept). Honest, eleven: 1 2 4 5 7 8 10 11 12 13 14.
# Eleven honest alike are a quorum by themselves; the five faulty are less than the
# weak quorum, and ten (five honest and five faulty) are less than the quorum.
from pen import Pen
F = [0, 3, 6, 9, 15]
H = [1, 2, 4, 5, 7, 8, 10, 11, 12, 13, 14]
LOW = [1, 2, 4, 5, 7, 8]            # six honest
HIGH = [10, 11, 12, 13, 14]         # five honest
LAST = [12, 13, 14]
p = Pen()
def S(senders, receivers, item, reading):
    for f in senders:
        for h in receivers: p.line(f'S {f} {h} {item} {reading}')
def B(senders, receivers, item, bit):
    for f in senders:
        for h in receivers: p.line(f'B {f} {h} {item} {bit}')
def I(nodes, item, reading):
    for h in nodes: p.line(f'I {h} {item} {reading}')

p.line('N 16 16 B')
for f in F: p.line(f'X {f}')
I(H, 0, 12000)                              # alike
I(H, 1, 0)                                  # alike
I(H, 2, 35999)                              # alike
I(H, 3, 7000)                               # alike
for h in H: p.line(f'I {h} 4 {20000 + h}')  # all differ
for h in H: p.line(f'I {h} 5 {500 * h}')    # all differ: 500 to 7000
I(LOW, 6, 1500); I(HIGH, 6, 37499)          # six of 1500, five of meaning 1499
I(H, 7, '-')                                # none, given
                                            # item 8: none, not given
I(H[:10], 9, 9000); I([14], 9, '-')         # ten alike
I(H[:10], 10, 9000); I([14], 10, '-')       # ten alike
I(LOW, 11, 46000); I(HIGH, 11, 10000)       # one meaning, 10000
for j, h in enumerate(H): p.line(f'I {h} 12 {36000 if j % 2 == 0 else 0}')  # meaning 0; node 1 has 36000
I(LOW, 13, 29535); I(HIGH, 13, 5)           # six and five
ODD, EVEN = [1, 4, 7, 10, 12], [2, 5, 8, 11, 13, 14]
I(EVEN, 14, 14014); I(ODD, 14, '-')         # six and five
I(LOW, 15, 15015); I(HIGH, 15, 60000)       # six and five (60000 means 24000)
p.no('I 0 0 12000', 6)                      # node 0 is faulty
p.no('I 1 16 5', 4)
# Round 1 tosses: bit 15 is 1, bit 14 is 0, bit 13 is 1, bit 12 is 0, the rest 1.
p.line('T AFFF')
p.line('O')

# ---- Step 1. Eleven of one meaning keep the lowest such node's cell, else none.
for f in F:                                 # 0: five other meanings, 2 to 1515;
    for h in H: p.line(f'S {f} {h} 0 {100 * f + h + 1}')  # 12000 eleven times -> 12000
p.no('S 0 1 0 12000', 8)                    # sent already in this step
p.no('S 15 14 0 1515', 8)                   # the same again is refused too
p.no('S 1 2 0 12000', 5)
p.no('S 1 0 0 12000', 5)                    # 5 before 6
p.no('S 0 3 0 12000', 6)
p.no('S 0 0 0 12000', 6)                    # to itself: faulty too
p.no('S 16 1 0 12000', 3)
p.no('S 0 16 0 12000', 3)
p.no('S 1 99999 16 12000', 3)               # 3 before 4 and 5
p.no('S 0 1 16 12000', 4)
p.no('S 1 3 16 12000', 4)                   # 4 before 5 and 6
p.no('B 0 1 0 0', 7)
p.no('W 0 1', 7)
S(F, H, 1, '-')                             # 1: none backs nothing; 0 eleven times -> 0
p.no('S 9 5 1 0', 8)                        # none was a send
S(F, H, 2, 35999)                           # 2: sixteen times; node 0's 35999, the same
S([0], [1, 2, 4], 3, 43000)                 # 3: 43000 means 7000. At 1 2 4 the lowest is
                                            #    node 0 -> 43000; at the others node 1 -> 7000
for f in F:                                 # 4: own reading backed by itself and five: 6 < 11 -> none
    for h in H: p.line(f'S {f} {h} 4 {20000 + h}')
                                            # 5: each once -> none
S([0, 3, 6, 9], H, 6, 1500)                 # 6: 1500: 6 + 4 = 10, 1499: 5 + 1 = 6 -> none
S([15], H, 6, 1499)
S(F, H, 7, 65535)                           # 7: five -> none
p.no('S 0 14 7 65535', 8)
                                            # 8: nothing -> none
S(F, H, 9, '-')                             # 9: ten -> none, also at the ten
S([15], H, 10, 9000)                        # 10: ten and node 15: 11 -> node 1's 9000, at 14 too
S([0], H, 11, 10001)                        # 11: eleven of meaning 10000 -> node 1's 46000
S(F, H, 12, 35999)                          # 12: eleven of meaning 0 -> node 1's 36000
p.no('S 6 10 12 0', 8)
# 13: at 1 2 4 5 7 8 10 11: six and five of meaning 29535 = 11, lowest is node 0 -> 65535.
#     at 12 13 14: 29535 six times, 5: 5 + 5 = 10 -> none.
S([0], LOW + [10, 11], 13, 65535)
S([3, 6, 9, 15], LOW + [10, 11], 13, 29535)
S(F, LAST, 13, 5)
# 14: at 1: 6 + 5 = 11 of meaning 14014, lowest is node 0 -> 50014; at 2 4 5 7 8 the same
#     with 14014 from node 0 -> 14014. At 10 to 14: 14014 six, 14015 five -> none.
S([0], [1], 14, 50014)
S([0], [2, 4, 5, 7, 8], 14, 14014)
S([3, 6, 9, 15], LOW, 14, 14014)
S(F, HIGH, 14, 14015)
# 15: at 1 2 4 5 7 8: 6 + 5 = 11 -> 15015. At 10 to 14: 24000 (60000) 5 + 5 = 10 -> none.
S(F, LOW, 15, 15015)
S(F, HIGH, 15, 24000)
p.no('S 12 13 15 24000', 5)
p.line('C')
for h in (1, 14): p.look(h, 0, 'open')
p.no('L 0 0', 6)

# ---- Step 2. Held now:
#  0: 12000.  1: 0.  2: 35999.  3: 43000 at 1 2 4, else 7000.  4 to 9: none at all.
#  10: 9000.  11: 46000.  12: 36000.
#  13: 65535 at 1 2 4 5 7 8 10 11 (eight).  14: 50014 at 1, 14014 at 2 4 5 7 8 (six).
#  15: 15015 at 1 2 4 5 7 8 (six).
for f in F:                                 # 0: eleven -> grade 2, node 1's 12000
    for h in H: p.line(f'S {f} {h} 0 {2000 + 100 * f + h}')
p.no('S 0 1 0 -', 8)
p.no('S 2 1 0 12000', 5)
p.no('S 15 9 0 12000', 6)
p.no('S 3 17 0 12000', 3)
p.no('S 3 1 17 12000', 4)
p.no('B 3 1 0 1', 7)
p.no('W 15 14', 7)
                                            # 1: eleven -> grade 2, 0
S([0], H, 2, 36000)                         # 2: 35999 eleven times -> grade 2, node 1's 35999;
S([3, 6, 9, 15], H, 2, 0)                   #    meaning 0 five times
# 3: eleven and more of meaning 7000 -> grade 2. At 12 13 14 the lowest is node 0 -> 7000,
#    elsewhere node 1, which holds 43000 -> 43000.
S([0], LAST, 3, 7000)
S([15], H, 3, 7000)
S(F, H, 4, 20001)                           # 4: five < 6 -> none, grade 0, bit 1
S([0, 3, 6, 9], H, 5, 500)                  # 5: meaning 500 five times < 6 -> none, bit 1
S([15], H, 5, 36500)
S(F, H, 6, 1500)                            # 6: five < 6 -> none, bit 1
S(F, H, 7, 65535)                           # 7: five < 6 -> none, bit 1
S(F, H, 8, '-')                             # 8: none backs nothing -> none, bit 1
p.no('S 3 2 8 -', 8)
S(F, H, 9, 9000)                            # 9: five < 6 (the ten hold none now) -> none, bit 1
                                            # 10: eleven -> grade 2, 9000
S([0], H, 11, '-')                          # 11: eleven -> grade 2, node 1's 46000
# 12: at 2 the lowest of meaning 0 is node 0 -> 0; elsewhere node 1 -> 36000. Grade 2.
S([0], [2], 12, 0)
S([0], [h for h in H if h != 2], 12, 35999)
S([3, 6, 9, 15], H, 12, 0)
# 13: eight honest. At 1 2 4 5 7 8 with 3 6 9: 11 -> grade 2, lowest is node 1 -> 65535, bit 0.
#     At 10 11 with 0 3: 10 -> grade 1, lowest is node 0 -> 29535, bit 1.
#     At 12 13 14 with 3 6: 10 -> grade 1, lowest is node 1 -> 65535, bit 1.
S([3, 6, 9], LOW, 13, 29535)
S([0], LOW, 13, 5)
S([15], LOW, 13, '-')
S([0, 3], [10, 11], 13, 29535)
S([3, 6], LAST, 13, 29535)
# 14: six honest (node 1's 50014 is one). At 10 to 14 with five: 11 -> grade 2, lowest is
#     node 0 -> 14014, bit 0. At 1 2 4 5 7 8 with 3 6 9 15: 10 -> grade 1, lowest is node 1
#     -> 50014, bit 1.
S(F, HIGH, 14, 14014)
S([0], LOW, 14, '-')
S([3, 6, 9, 15], LOW, 14, 14014)
# 15: six honest. At 1 2 4 5 7 with five: 11 -> grade 2, 15015, bit 0. At 8 and 10 to 14
#     six are the weak quorum -> grade 1, 15015, bit 1.
FIVE = [1, 2, 4, 5, 7]
S(F, FIVE, 15, 15015)
p.no('S 6 7 15 15015', 8)
p.line('C')
for h in (1, 14): p.look(h, 10, 'open')

# ---- Step 3 (3k, k = 1). Bits now:
#  0 to 3, 10, 11, 12: 0 at all eleven. 4 to 9: 1 at all eleven.
#  13: 0 at 1 2 4 5 7 8 (six), 1 at 10 to 14 (five).
#  14: 0 at 10 to 14 (five), 1 at 1 2 4 5 7 8 (six).
#  15: 0 at 1 2 4 5 7 (five), 1 at 8 10 to 14 (six).
B(F, H, 0, 1)                               # 0: zeros 11 -> decided 0
B(F, H, 1, 1)                               # 1: the same. 2, 3: nothing is sent, the same
B(F, H, 4, 0)                               # 4: ones 11 -> 1
B(F, H, 7, 0)                               # 7: ones 11 -> 1. 5, 6, 8, 9: the same, nothing is sent
B([15], H, 10, 1)                           # 10: zeros 11 -> decided 0. 11, 12: the same
p.no('B 0 1 0 0', 8)
p.no('B 15 14 10 1', 8)
p.no('B 1 2 13 0', 5)
p.no('B 0 15 13 0', 6)
p.no('B 16 16 16 0', 3)
p.no('B 0 1 16 0', 4)
p.no('B 0 1 13 2', 7)
p.no('S 0 1 13 5', 7)
p.no('S 0 1 0 5', 7)                        # 7 before 8
# 13: at 2 and 11 five zeros: 6 + 5 = 11 -> decided 0. At the others four zeros: 10, ones
#     5 + 1 = 6 -> neither -> 0, undecided.
B(F, [2, 11], 13, 0)
B([0, 3, 6, 9], [h for h in H if h not in (2, 11)], 13, 0)
B([15], [h for h in H if h not in (2, 11)], 13, 1)
# 14: at 1 2 4 5 7 five ones: 6 + 5 = 11 -> 1. At 8 10 to 14 four ones: 10, zeros
#     5 + 1 = 6 -> neither -> 0.
B(F, FIVE, 14, 1)
B([0, 3, 6, 9], [8] + HIGH, 14, 1)
B([15], [8] + HIGH, 14, 0)
# 15: at 10 to 14 five ones: 6 + 5 = 11 -> 1. At 1 2 4 5 7 8 five zeros: 10, ones 6
#     -> neither -> 0.
B(F, HIGH, 15, 1)
B(F, LOW, 15, 0)
p.line('C')
value = {0: 12000, 1: 0, 2: 35999, 10: 9000, 11: 46000}
for c in (0, 1, 2, 10, 11): p.look(1, c, value[c]); p.look(14, c, value[c])
for h in (1, 11): p.look(h, 3, 43000)
for h in (12, 14): p.look(h, 3, 7000)
p.look(1, 12, 36000); p.look(2, 12, 0)
for c in range(4, 10): p.look(5, c, 'open')
for h in H: p.look(h, 13, {2: 65535, 11: 29535}.get(h, 'open'))
for c in (14, 15): p.look(7, c, 'open')

# ---- Step 4 (3k + 1). Bits now:
#  0 to 3, 10, 11, 12: decided. 4 to 9: 1 at all eleven. 13: 0 at all eleven.
#  14: 1 at 1 2 4 5 7 (five), 0 at 8 10 to 14 (six).
#  15: 1 at 10 to 14 (five), 0 at 1 2 4 5 7 8 (six).
B([0], H, 0, 1)                             # 0: decided, stays
B(F, H, 4, 0)                               # 4: ones 11 -> decided 1: none
B([0, 6], H, 6, 0); B([3, 9, 15], H, 6, 1)  # 6: ones 14 -> decided 1: none
B(F, H, 7, 0)                               # 7: ones 11 -> decided 1. 5, 8, 9: the same
B(F, H, 13, 1)                              # 13: zeros 11 -> 0, undecided
p.no('B 0 8 0 0', 8)
p.no('B 5 8 14 0', 5)
p.no('B 9 9 14 0', 6)
p.no('B 99999 8 14 0', 3)
p.no('B 9 8 99999 0', 4)
p.no('B 9 8 14 256', 7)
# 14: at 1 4 7 10 12 five zeros: 6 + 5 = 11 -> 0. At 2 5 8 11 13 14 four zeros: 10, ones
#     5 + 1 = 6 -> neither -> 1.
B(F, ODD, 14, 0)
B([0, 3, 6, 9], EVEN, 14, 0)
B([15], EVEN, 14, 1)
# 15: at 1 2 4 5 7 five zeros: 6 + 5 = 11 -> 0. At 8 10 to 14 five ones: 10, zeros 6
#     -> neither -> 1.
B(F, FIVE, 15, 0)
B(F, [8] + HIGH, 15, 1)
p.no('B 3 14 15 1', 8)
p.line('C')
for c in range(4, 10): p.look(5, c, '-'); p.look(13, c, '-')
for h in (1, 12): p.look(h, 13, 'open')
p.look(11, 13, 29535)
for c in (14, 15): p.look(8, c, 'open')

# ---- Step 5 (3k + 2, toss of round 1). Bits now:
#  13: 0 at all.  14: 0 at 1 4 7 10 12 (five), 1 at 2 5 8 11 13 14 (six).
#  15: 0 at 1 2 4 5 7 (five), 1 at 8 10 to 14 (six).
B([0], H, 0, 1)                             # decided, stays
B([3], H, 4, 0)                             # decided, stays
B(F, H, 13, 1)                              # 13: zeros 11 -> 0; the toss (1) is not asked
# 14: four ones: 10, zeros 5 + 1 = 6 -> neither -> toss, bit 14 of AFFF: 0 at all.
B([0, 3, 6, 9], H, 14, 1)
B([15], H, 14, 0)
# 15: five zeros: 10, ones 6 -> neither -> toss, bit 15 of AFFF: 1 at all.
B(F, H, 15, 0)
p.no('B 6 2 15 1', 8)
p.no('B 2 6 15 1', 5)
p.no('B 6 0 15 1', 6)
p.no('B 6 16 15 1', 3)
p.no('B 6 2 16 1', 4)
p.no('W 2 1', 5)
p.no('W 0 15', 6)
p.no('W 0 16', 3)
p.line('W 0 1')                             # to 1 stand: 1 for 0, 13, 14 and 0 for 15
p.no('W 0 1', 8)
p.no('B 0 1 8 0', 8)                        # a final pair, nothing sent for item 8
p.line('C')
for c in (13, 14, 15): p.look(1, c, 'open'); p.look(14, c, 'open')

# ---- Step 6 (3k, k = 2). Bits now: 13: 0 at all, 14: 0 at all, 15: 1 at all.
B([3, 6, 9, 15], H, 14, 1)                  # 13, 14: zeros 11 -> decided 0 everywhere
B([3, 6, 9, 15], H, 15, 0)                  # 15: ones 11 -> 1, undecided
p.no('B 0 1 14 0', 8)                       # final
p.no('B 3 1 14 1', 8)
p.no('W 0 1', 8)
p.line('C')
i13 = {h: 29535 if h in (10, 11) else 65535 for h in H}
i14 = {h: 50014 if h in LOW else 14014 for h in H}
for h in H: p.look(h, 13, i13[h]); p.look(h, 14, i14[h]); p.look(h, 15, 'open')

# ---- Step 7 (3k + 1). 15: ones 11 -> decided 1: none.
B([3, 6, 9, 15], H, 15, 0)
p.line('C')
for h in (1, 8, 14): p.look(h, 15, '-')
p.no('C', 9)
p.no('B 3 1 15 0', 9)
p.no('B 0 1 15 0', 8)                       # final: 8 before 9
p.no('S 3 1 15 5', 7)                       # 7 before 9
p.no('W 0 1', 8)
p.no('W 3 1', 9)
p.no('L 15 15', 6)

rows = []
for h in H:
    rows.append((h, [12000, 0, 35999, 7000 if h in LAST else 43000,
                     '-', '-', '-', '-', '-', '-',
                     9000, 46000, 0 if h == 2 else 36000, i13[h], i14[h], '-']))
p.end(rows)
p.look(14, 14, 14014)
p.look(8, 14, 50014)
p.no('L 16 0', 3)
p.no('L 1 16', 4)
p.no('L 3 1', 6)
p.no('C', 13)
p.no('Z', 13)
p.write('sixteen')
