# Writes a case: lines with their answers, both given by hand. It knows nothing
# of the protocol. Its only test: an accepted send is not written twice in one
# step (`tally` keeps what was sent, for audits of the comments in the generators).
import os
CASES = os.path.join(os.path.dirname(os.path.abspath(__file__)), '..', '..', '..', 'crates', 'trials', 'data')

class Pen:
    def __init__(self):
        self.ins, self.outs, self.step, self.tally = [], [], 1, {}
    def line(self, text):
        """An accepted line that prints nothing."""
        self.ins.append(text)
        f = text.split(' ')
        if f[0] in 'SB' and len(f) == 5:
            key = (self.step,) + tuple(int(x) for x in f[1:4])
            assert key not in self.tally, text
            self.tally[key] = f[4]
        if f[0] == 'C': self.step += 1
    def lines(self, text):
        for t in text.strip().split('\n'): self.line(t.strip())
    def no(self, text, number):
        """A refused line."""
        self.ins.append(text)
        self.outs.append(f'{len(self.ins)} refused {number}')
    def look(self, node, item, result):
        self.ins.append(f'L {node} {item}')
        self.outs.append(f'{len(self.ins)} {node} {item} {result}')
    def end(self, rows):
        """Z and its rows, (node, results)."""
        self.ins.append('Z')
        for node, results in rows:
            self.outs.append(' '.join([str(node)] + [str(r) for r in results]))
    def write(self, name):
        for end, rows in (('in', self.ins), ('out', self.outs)):
            with open(os.path.join(CASES, f'{name}.{end}'), 'w') as f:
                f.write(''.join(r + '\n' for r in rows))
        print(name, 'in', len(self.ins), 'out', len(self.outs))
