# adversary: n = 7, m = 2, bearings. quorum 5, weak quorum 3.
# Faulty: 0 and 4. Honest, five: 1 2 3 5 6. In every step both faulty nodes send to
# every honest node, for both items, and some of it twice: the second is refused (8).
# Below, "r: a b" is what nodes 0 and 4 send to r. "z" and "o" are the honest zeros and
# ones. Three honest and both faulty are a quorum, two honest and both faulty are not.
from pen import Pen
H = [1, 2, 3, 5, 6]
p = Pen()
open0, open1 = {h: 'open' for h in H}, {h: 'open' for h in H}

def step(item0, item1, again):
    """Sends of one step, then the close, then looks at every honest node."""
    letter = 'S' if p.step < 3 else 'B'
    for r in H:
        for c, sends in ((0, item0), (1, item1)):
            a, b = sends[r].split()
            p.line(f'{letter} 0 {r} {c} {a}')
            p.line(f'{letter} 4 {r} {c} {b}')
            for t in again.get((r, c), []): p.no(f'{letter} {t}', 8)
    p.line('C')

def looks(held0, held1):
    for h in H:
        p.look(h, 0, held0[h])
        p.look(h, 1, held1[h])

p.lines('''N 7 2 B
    X 0
    X 4''')
for h in H: p.line(f'I {h} 0 12345')        # item 0: alike
p.lines('''I 1 1 700
    I 2 1 701
    I 3 1 700
    I 5 1 701
    I 6 1 36700
    T 0001 0002 0000 0002
    O''')                                   # item 1: meaning 700 at 1 3 6, 701 at 2 5
# Item 1 tosses bit 1 of the entries: rounds 1 to 4 give 0, 1, 0, 1.

# Step 1.
# Item 0, 48345 means 12345. 1: five and node 0, the lowest -> 48345. 2: 5 -> node 1's 12345.
#  3, 5, 6: the same -> 12345.
# Item 1. 1: 700 at 1 3 6, 0, 4 = 5, lowest is 0 -> 36700.   2: 5, lowest is 0 -> 700.
#  3: 700 3, 701 4 -> none.   5: 700 4, 701 3 -> none.   6: 5, lowest is 0 -> 700.
step({1: '48345 5', 2: '5 6', 3: '- 12345', 5: '12344 12346', 6: '- 9'},
     {1: '36700 700', 2: '700 36700', 3: '701 701', 5: '700 701', 6: '700 700'},
     {(1, 0): ['0 1 0 12345', '4 1 0 5'], (3, 0): ['0 3 0 12345', '0 3 0 -'],
      (3, 1): ['0 3 1 700', '4 3 1 700'], (6, 1): ['4 6 1 700']})
looks(open0, open1)

# Step 2.
# Item 0, held: 48345 at 1, 12345 at 2 3 5 6. Meaning 12345 from five -> grade 2.
#  1, 2, 3, 5: lowest of that meaning is node 1 -> 48345.   6: lowest is node 0 -> 12345.
#  The bit is 0 at all.
# Item 1, held: 36700 at 1, 700 at 2 and 6, none at 3 and 5: meaning 700 three times.
#  1: 4 -> grade 1, lowest is 0 -> 700, bit 1.     2: 5 -> grade 2, lowest is 0 -> 36700, bit 0.
#  3: 5 -> grade 2, lowest is 0 -> 700, bit 0.     5: 3 -> grade 1, lowest is 1 -> 36700, bit 1.
#  6: 3 (701 twice, below the weak quorum) -> grade 1, lowest is 1 -> 36700, bit 1.
step({1: '7 7', 2: '- -', 3: '12344 12345', 5: '8 -', 6: '12345 5'},
     {1: '700 701', 2: '36700 700', 3: '700 36700', 5: '- 701', 6: '701 701'},
     {(1, 1): ['4 1 1 700'], (2, 0): ['0 2 0 -', '4 2 0 12345'],
      (5, 1): ['0 5 1 700', '4 5 1 700'], (6, 1): ['4 6 1 36700', '0 6 1 36700']})
looks(open0, open1)
held0 = {1: 48345, 2: 48345, 3: 48345, 5: 48345, 6: 12345}
# Item 1 holds 700 at 1, 36700 at 2, 700 at 3, 36700 at 5 and 6.

# Step 3, 3k, k = 1. Item 0: z = 5 -> decided 0 at all, whatever is sent.
# Item 1: zeros at 2 3, ones at 1 5 6. z 2, o 3.
#  1: z 3, o 4 -> 0.  2: o 5 -> 1.  3: z 4, o 3 -> 0.  5: o 5 -> 1.  6: z 3, o 4 -> 0.
step({1: '1 1', 2: '0 1', 3: '1 1', 5: '1 0', 6: '0 0'},
     {1: '0 1', 2: '1 1', 3: '0 0', 5: '1 1', 6: '1 0'},
     {(1, 1): ['0 1 1 1', '4 1 1 1'], (6, 1): ['4 6 1 1'], (2, 0): ['0 2 0 1']})
looks(held0, open1)

# From now on item 0 is decided: what is sent of it changes nothing.
any0 = {1: '1 0', 2: '1 1', 3: '0 1', 5: '0 0', 6: '1 1'}

# Step 4, 3k + 1. Zeros at 1 3 6, ones at 2 5. z 3, o 2.
#  1: z 5 -> 0.  2: z 3, o 4 -> 1.  3: z 4, o 3 -> 1.  5: z 5 -> 0.  6: z 4, o 3 -> 1.
step(any0, {1: '0 0', 2: '1 1', 3: '0 1', 5: '0 0', 6: '1 0'},
     {(3, 1): ['4 3 1 0'], (6, 1): ['0 6 1 0', '4 6 1 0'], (1, 0): ['0 1 0 0']})
looks(held0, open1)

# Step 5, toss of round 1: 0. Zeros at 1 5, ones at 2 3 6. z 2, o 3.
#  1: o 5 -> 1.  2: z 4, o 3 -> toss 0.  3: o 5 -> 1.  5: z 3, o 4 -> toss 0.  6: o 5 -> 1.
step(any0, {1: '1 1', 2: '0 0', 3: '1 1', 5: '0 1', 6: '1 1'},
     {(5, 1): ['0 5 1 1', '4 5 1 1'], (2, 1): ['4 2 1 1'], (6, 0): ['4 6 0 1']})
looks(held0, open1)

# Step 6, 3k, k = 2. Zeros at 2 5, ones at 1 3 6. z 2, o 3.
#  1: o 5 -> 1.  2: z 4, o 3 -> 0.  3: z 3, o 4 -> 0.  5: z 3, o 4 -> 0.  6: o 5 -> 1.
step(any0, {1: '1 1', 2: '0 0', 3: '1 0', 5: '0 1', 6: '1 1'},
     {(3, 1): ['4 3 1 1'], (5, 1): ['0 5 1 1'], (5, 0): ['0 5 0 0']})
looks(held0, open1)

# Step 7, 3k + 1. Zeros at 2 3 5, ones at 1 6. z 3, o 2.
#  1: z 5 -> 0.  2: z 5 -> 0.  3: z 3, o 4 -> 1.  5: z 4, o 3 -> 1.  6: z 5 -> 0.
step(any0, {1: '0 0', 2: '0 0', 3: '1 1', 5: '1 0', 6: '0 0'},
     {(5, 1): ['0 5 1 0'], (1, 1): ['4 1 1 0', '4 1 1 1'], (3, 0): ['4 3 0 0']})
looks(held0, open1)

# Step 8, toss of round 2: 1. Zeros at 1 2 6, ones at 3 5. z 3, o 2.
#  1: z 3, o 4 -> toss 1.  2: z 4, o 3 -> toss 1.  3: z 5 -> 0.  5: z 4, o 3 -> toss 1.
#  6: z 5 -> 0.
step(any0, {1: '1 1', 2: '0 1', 3: '0 0', 5: '1 0', 6: '0 0'},
     {(2, 1): ['4 2 1 0'], (5, 1): ['0 5 1 0'], (1, 0): ['4 1 0 1']})
looks(held0, open1)

# Step 9, 3k, k = 3. Zeros at 3 6, ones at 1 2 5. z 2, o 3.
#  1: z 4, o 3 -> 0.  2: o 5 -> 1.  3: o 5 -> 1.  5: z 3, o 4 -> 0.  6: z 3, o 4 -> 0.
step(any0, {1: '0 0', 2: '1 1', 3: '1 1', 5: '0 1', 6: '1 0'},
     {(5, 1): ['0 5 1 1'], (6, 1): ['4 6 1 1'], (2, 0): ['0 2 0 0']})
looks(held0, open1)

# Step 10, 3k + 1. Zeros at 1 5 6, ones at 2 3. z 3, o 2.
#  1: z 4, o 3 -> 1.  2: z 5 -> 0.  3: z 3, o 4 -> 1.  5: z 4, o 3 -> 1.  6: z 5 -> 0.
step(any0, {1: '0 1', 2: '0 0', 3: '1 1', 5: '1 0', 6: '0 0'},
     {(1, 1): ['4 1 1 0'], (5, 1): ['0 5 1 0'], (6, 0): ['0 6 0 0']})
looks(held0, open1)

# Step 11, toss of round 3: 0. Zeros at 2 6, ones at 1 3 5. z 2, o 3.
#  1: z 3, o 4 -> toss 0.  2: z 3, o 4 -> toss 0.  3: z 4, o 3 -> toss 0.  5: o 5 -> 1.
#  6: z 3, o 4 -> toss 0.
step(any0, {1: '0 1', 2: '1 0', 3: '0 0', 5: '1 1', 6: '0 1'},
     {(1, 1): ['0 1 1 1'], (2, 1): ['4 2 1 1'], (6, 1): ['0 6 1 1'], (5, 0): ['4 5 0 1']})
looks(held0, open1)

# Step 12, 3k, k = 4. Zeros at 1 2 3 6, one at 5. z 4, o 1.
#  1: z 5 -> decided 0: 700.  2: z 4, o 3 -> 0, undecided.  3: the same.
#  5: z 6 -> decided 0: 36700.  6: z 4, o 3 -> 0, undecided.
step(any0, {1: '0 1', 2: '1 1', 3: '1 1', 5: '0 0', 6: '1 1'},
     {(2, 1): ['0 2 1 0', '4 2 1 0'], (6, 1): ['0 6 1 0'], (3, 0): ['0 3 0 1']})
part1 = {1: 700, 2: 'open', 3: 'open', 5: 36700, 6: 'open'}
looks(held0, part1)

# Step 13, 3k + 1. Zeros at all (the decided ones go on sending). z 5 -> 0, undecided at 2 3 6.
step(any0, {1: '1 1', 2: '1 1', 3: '0 1', 5: '1 1', 6: '1 0'},
     {(6, 1): ['4 6 1 1'], (3, 1): ['0 3 1 1']})
looks(held0, part1)

# Step 14, toss of round 4: z 5 -> 0, the toss (1) is not asked.
step(any0, {1: '0 1', 2: '1 1', 3: '1 1', 5: '1 0', 6: '0 1'},
     {(1, 1): ['4 1 1 0'], (2, 1): ['4 2 1 0']})
looks(held0, part1)

# Step 15, 3k, k = 5: z 5 -> decided 0 at 2 3 6.
step(any0, {1: '1 1', 2: '1 1', 3: '1 0', 5: '0 1', 6: '1 1'},
     {(3, 1): ['4 3 1 1'], (2, 1): ['4 2 1 0']})
held1 = {1: 700, 2: 36700, 3: 700, 5: 36700, 6: 36700}
looks(held0, held1)

p.no('B 0 1 1 1', 9)
p.no('B 4 6 1 0', 9)
p.no('W 0 1', 9)
p.no('S 0 1 1 700', 7)
p.no('C', 9)
p.end([(h, [held0[h], held1[h]]) for h in H])
p.write('adversary')
