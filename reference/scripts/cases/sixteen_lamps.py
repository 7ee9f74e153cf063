# sixteen_lamps: n = 16, m = 16, lamps. quorum 11, weak quorum 6.
# Faulty: 2 5 8 11 14. Honest, eleven: 0 1 3 4 6 7 9 10 12 13 15.
# Every lamp has a meaning of its own, so the value is the counted reading itself.
from pen import Pen
F = [2, 5, 8, 11, 14]
SIX, FIVE = [0, 1, 3, 4, 6, 7], [9, 10, 12, 13, 15]     # honest
H = SIX + FIVE
FIRST = [0, 1, 3, 4, 6]                                 # five of SIX
p = Pen()
def S(senders, receivers, item, reading):
    for f in senders:
        for h in receivers: p.line(f'S {f} {h} {item} {reading}')
def B(senders, receivers, item, bit):
    for f in senders:
        for h in receivers: p.line(f'B {f} {h} {item} {bit}')
def I(nodes, item, reading):
    for h in nodes: p.line(f'I {h} {item} {reading}')

p.line('N 16 16 L')
for f in F: p.line(f'X {f}')
alike = {0: 'D', 1: 'S', 2: 'F35', 3: 'T35', 4: 'F600', 5: 'T1'}
for c in alike: I(H, c, alike[c])                       # 0 to 5: alike
for h in H: p.line(f'I {h} 6 F{h + 1}')                 # 6: all differ
I(SIX, 7, 'F35'); I(FIVE, 7, 'T35')                     # 7: six and five
I(SIX, 8, 'D'); I(FIVE, 8, 'S')                         # 8: six and five
I(H, 9, '-')                                            # 9: none, given. 10: not given
I(H[:10], 11, 'F9'); I([15], 11, '-')                   # 11: ten alike
I([0], 12, '-'); I(H[1:], 12, 'F9')                     # 12: ten alike
I(SIX, 13, 'T600'); I(FIVE, 13, 'F600')                 # 13: six and five
I(SIX, 14, 'S'); I(FIVE, 14, 'D')                       # 14: six and five
I(SIX, 15, 'F35'); I(FIVE, 15, 'T35')                   # 15: six and five
p.no('I 2 0 D', 6)
p.no('I 2 0 F601', 12)                                  # fields before the call
p.no('I 0 16 D', 4)
p.line('T 5FFF')                                        # bit 15: 0, bit 14: 1, bit 13: 0
p.line('O')

# ---- Step 1.
S(F, [0], 0, 'S')                   # 0: D eleven, S five -> D
S(F, [0, 15], 1, 'F1')              # 1: S eleven, F1 five -> S
S(F, [1], 2, 'T35')                 # 2: F35 eleven, T35 five -> F35
S(F, [1], 3, 'F35')                 # 3: T35 eleven, F35 five -> T35
                                    # 4, 5: eleven -> F600, T1
p.no('S 2 0 0 S', 8)
p.no('S 0 1 0 S', 5)
p.no('S 2 5 0 S', 6)
p.no('S 2 16 0 S', 3)
p.no('S 2 0 16 S', 4)
p.no('S 16 0 0 F0', 12)             # 12 before 3
p.no('S 2 0 0 35', 12)
for h in H: p.line(f'S 5 {h} 6 F{h + 1}')   # 6: twice at most -> none
                                    # 7: six and five -> none
S([2, 5, 8, 11], H, 8, 'D')         # 8: D 6 + 4 = 10, S 5 -> none
S(F, FIVE, 9, 'D')                  # 9: five -> none. 10: nothing -> none
                                    # 11: ten -> none
S([14], H, 12, 'F9')                # 12: ten and node 14: 11 -> F9, at 0 too
S(F, SIX, 13, 'T600')               # 13: at SIX 6 + 5 = 11 -> T600; at FIVE six and five -> none
S(F, SIX, 14, 'S')                  # 14: at SIX 6 + 5 = 11 -> S
S(F, FIVE, 14, 'D')                 #     at FIVE D 5 + 5 = 10, S 6 -> none
S(F, SIX, 15, 'F35')                # 15: at SIX 11 -> F35; at FIVE six and five -> none
p.line('C')

# ---- Step 2. Held: 0 to 5 and 12 as begun by all (12: F9), 6 to 11 none,
#  13: T600, 14: S, 15: F35 at SIX, none at FIVE.
S(F, [3], 0, '-')                   # 0 to 5, 12: eleven -> grade 2, bit 0
p.no('S 14 3 0 D', 8)               # none was a send
p.no('B 14 3 0 0', 7)
S(F, [3, 9], 7, 'F35')              # 7: five < 6 -> none, bit 1
S(F, [0], 9, 'D')                   # 9: five < 6 -> none, bit 1
S(F, [12], 11, 'F9')                # 11: five < 6 -> none, bit 1. 6, 8, 10: nothing, the same
S(F, FIRST, 13, 'T600')             # 13: at FIRST 6 + 5 = 11 -> grade 2, bit 0; elsewhere six:
                                    #     grade 1, T600, bit 1
S(F, FIVE, 14, 'S')                 # 14: at FIVE 11 -> grade 2, bit 0; at SIX six: grade 1, bit 1
S(F, FIRST, 15, 'F35')              # 15: as 13
p.line('C')
for c in (0, 6, 12, 13): p.look(0, c, 'open')

# ---- Step 3. Bits: 0 to 5, 12: 0 at all. 6 to 11: 1 at all. 13, 15: 0 at FIRST (five),
#  1 at 7 and FIVE (six). 14: 0 at FIVE (five), 1 at SIX (six).
B(F, [0], 0, 1)                     # 0 to 5, 12: zeros 11 -> decided 0
B(F, [0], 6, 0)                     # 6 to 11: ones 11 -> 1
p.no('B 2 0 0 0', 8)
p.no('S 2 0 0 D', 7)
p.no('B 0 2 0 0', 5)
p.no('B 2 2 0 0', 6)
B(F, SIX, 13, 1)                    # 13: at SIX ones 11 -> 1; at FIVE zeros 5, ones 6 -> 0
B(F, FIVE, 14, 1)                   # 14: at FIVE ones 11 -> 1; at SIX zeros 5, ones 6 -> 0
B(F, FIRST, 15, 1)                  # 15: at FIRST ones 11 -> 1; at 7 and FIVE zeros 5, ones 6 -> 0
p.line('C')
for c in alike: p.look(15, c, alike[c])
p.look(0, 12, 'F9')
for c in (6, 11, 13, 14, 15): p.look(15, c, 'open')

# ---- Step 4. Bits: 6 to 11: 1 at all. 13: 1 at SIX (six), 0 at FIVE (five).
#  14: 1 at FIVE (five), 0 at SIX (six). 15: 1 at FIRST (five), 0 at 7 and FIVE (six).
B(F, [9], 9, 0)                     # 6 to 11: ones 11 -> decided 1: none
B(F, [0, 15], 13, 1)                # 13: at 0 and 15 ones 6 + 5 = 11 -> decided 1: none
B([2, 5, 8, 11], [h for h in H if h not in (0, 15)], 13, 1)
                                    #     elsewhere ones 10, zeros 5 -> neither -> 1
B(F, FIRST, 14, 0)                  # 14: at FIRST zeros 6 + 5 = 11 -> 0; elsewhere zeros 6, ones 5 -> 1
B(F, FIVE, 15, 0)                   # 15: at FIVE zeros 11 -> 0; at SIX zeros 6, ones 5 -> 1
p.no('B 14 15 13 0', 8)
p.line('C')
for c in range(6, 12): p.look(4, c, '-')
for h in H: p.look(h, 13, '-' if h in (0, 15) else 'open')
for c in (14, 15): p.look(0, c, 'open')

# ---- Step 5, toss. Bits: 13: 1 at all. 14: 0 at FIRST (five), 1 elsewhere (six).
#  15: 0 at FIVE (five), 1 at SIX (six).
B(F, [1, 12], 13, 0)                # 13: ones 11 -> 1; the toss (0) is not asked
                                    # 14: zeros 5, ones 6 -> toss 1 at all
B(F, [0, 9], 15, 0)                 # 15: zeros 10, ones 6 at 0 and 9
B([2, 5, 8, 11], [1, 10], 15, 1)    #     ones 10, zeros 5 at 1 and 10; elsewhere 5 and 6 -> toss 0 at all
p.no('B 2 0 15 0', 8)
p.no('B 2 0 15 2', 7)               # 7 before 8
p.line('C')
for c in (14, 15): p.look(0, c, 'open')
p.look(7, 13, 'open')

# ---- Step 6. Bits: 13: 1 at all, 14: 1 at all, 15: 0 at all.
B(F, [7], 15, 1)                    # 15: zeros 11 -> decided 0: F35
B(F, [7], 14, 0)                    # 13, 14: ones 11 -> 1
p.line('C')
for h in H: p.look(h, 15, 'F35')
for c in (13, 14): p.look(7, c, 'open')

# ---- Step 7. 13, 14: ones 11 -> decided 1: none.
B(F, [7], 13, 0)
p.line('C')
for c in (13, 14): p.look(7, c, '-')
p.no('C', 9)
p.end([(h, ['D', 'S', 'F35', 'T35', 'F600', 'T1', '-', '-', '-', '-', '-', '-', 'F9', '-', '-', 'F35'])
       for h in H])
p.write('sixteen_lamps')
