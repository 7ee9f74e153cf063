# toss_zero and toss_one: the same lines but for T. n = 4, m = 1, quorum 3, weak 2.
# Node 3 is faulty, honest are 0, 1, 2. Bits are written b0 b1 b2, "3:" is what
# node 3 sends to that receiver.
#
# Validity holds only where all honest begin alike. Here they do not, so both
# decisions are possible, and node 3 leaves the choice to the toss.
from pen import Pen

def toss(name, strip, one):
    p = Pen()
    p.lines(f'''N 4 1 B
        X 3
        I 0 0 1000
        I 1 0 37000
        I 2 0 2000
        T {strip}
        O''')
    # Step 1. Meanings begun: 1000, 1000 (37000 - 36000), 2000.
    #  0: 1000 from 0, 1 and 3 (3: 1000)  = 3, quorum; lowest is 0 -> 1000
    #  1: the same with 3: 37000          = 3, quorum; lowest is 0 -> 1000
    #  2: 1000 twice, 2000 from 2 and 3   = 2 and 2 -> none
    p.lines('''S 3 0 0 1000
        S 3 1 0 37000
        S 3 2 0 2000
        C''')
    # Step 2. Held: 1000, 1000, none.
    #  0: 3: 37000, so meaning 1000 thrice -> grade 2, value 1000 of node 0, bit 0
    #  1: 3: 2000, 1000 twice (weak), 2000 once -> grade 1, value 1000, bit 1
    #  2: 3: nothing, 1000 twice -> grade 1, value 1000, bit 1
    p.lines('''S 3 0 0 37000
        S 3 1 0 2000
        C''')
    # Step 3 (3k, k = 1). Bits 0 1 1.
    #  0: 3: 1, ones 1, 2, 3 = 3 -> bit 1
    #  1: 3: 0, zeros 2, ones 2 -> neither -> 0, not decided
    #  2: 3: nothing, zeros 1, ones 2 -> neither -> 0, not decided
    p.lines('''B 3 0 0 1
        B 3 1 0 0
        C''')
    for node in (0, 1, 2): p.look(node, 0, 'open')
    # Step 4 (3k + 1). Bits 1 0 0.
    #  0: 3: 0, zeros 1, 2, 3 = 3 -> bit 0
    #  1: 3: 1, ones 2, zeros 2 -> neither -> 1, not decided
    #  2: 3: nothing, ones 1, zeros 2 -> neither -> 1, not decided
    p.lines('''B 3 0 0 0
        B 3 1 0 1
        C''')
    for node in (0, 1, 2): p.look(node, 0, 'open')
    # Step 5 (3k + 2, the toss). Bits 0 1 1.
    #  0: 3: 0, zeros 2, ones 2 -> neither -> toss
    #  1: 3: nothing, zeros 1, ones 2 -> neither -> toss
    #  2: 3: 0, zeros 2, ones 2 -> neither -> toss
    # Round 1 takes entry 0, item 0 its lowest bit: 0000 -> 0 0 0, 0001 -> 1 1 1.
    # Nothing is decided in a toss.
    p.lines('''B 3 0 0 0
        B 3 2 0 0
        C''')
    for node in (0, 1, 2): p.look(node, 0, 'open')
    # Step 6 (3k, k = 2). 3: 1 to 0, 0 to 1, nothing to 2.
    #  after 0000: zeros 3, 4, 3 -> all decided with bit 0: the value 1000
    #  after 0001: ones 4, 3, 3 -> bit 1 at all, not decided (a quorum of ones
    #  decides only in 3k + 1)
    p.lines('''B 3 0 0 1
        B 3 1 0 0
        C''')
    for node in (0, 1, 2): p.look(node, 0, 'open' if one else '1000')
    # Step 7 (3k + 1). 3: 0 to 0 and 1.
    #  after 0000: nothing is undecided, so sends and the close are refused (9)
    #  after 0001: ones 3, 3, 3 -> all decided with bit 1: none
    for t in ('B 3 0 0 0', 'B 3 1 0 0', 'C'):
        p.line(t) if one else p.no(t, 9)
    for node in (0, 1, 2): p.look(node, 0, '-' if one else '1000')
    # Now nothing is undecided in either: 9.
    p.no('C', 9)
    p.no('B 3 0 0 1', 9)
    p.end([(node, ['-' if one else '1000']) for node in (0, 1, 2)])
    p.write(name)

toss('toss_zero', '0000', False)
toss('toss_one', '0001', True)
