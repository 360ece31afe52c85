"""The two-timing period as a mixed-integer program, and the solvers it is given to."""
import math
import re
import subprocess
import time


def model(net):
    """T the period, o the offset, s the timing of a register: 0 where x is 0, o where x is 1."""
    _, pairs = net
    big = max(greatest for *_, greatest in pairs)
    used = sorted({r for a, b, _, _ in pairs for r in (a, b)})
    lines = ['Minimize', ' period: T', 'Subject To']
    for a, b, least, greatest in pairs:
        if a == b:
            lines.append(f' T >= {greatest}')
        else:
            lines += [f' T - s{a} + s{b} >= {greatest}', f' s{b} - s{a} <= {least}']
    for r in used:
        lines += [f' s{r} - o <= 0', f' s{r} - {big} x{r} <= 0', f' o - s{r} + {big} x{r} <= {big}']
    lines += ['Bounds', f' 1 <= T <= {big}', f' 0 <= o <= {big}', 'Binaries', *(f' x{r}' for r in used), 'End', '']
    return '\n'.join(lines)


class Solved:
    """Seconds of the whole command, and the whole period it came to, or None if it was cut off."""

    def __init__(self, command, pattern, done):
        start = time.monotonic()
        out = subprocess.run(command, capture_output=True, text=True).stdout
        self.seconds = time.monotonic() - start
        found = re.findall(pattern, out)
        self.period = math.ceil(float(found[-1]) - 1e-3) if done in out and found else None

    def told(self, two):
        if self.period is None:
            return f'more than {self.seconds:.0f}'
        return f'{self.seconds:.2f}' + ('' if self.period == two else f' (wrong: {self.period})')


def cbc(file, limit):
    return Solved(['cbc', str(file), 'sec', str(limit), 'solve', 'quit'], r'Objective value:\s+(\S+)', 'Optimal solution found')


def glpk(file, limit):
    return Solved(['glpsol', '--lp', str(file), '--tmlim', str(limit)], r'mip =\s+(\S+)', 'INTEGER OPTIMAL SOLUTION FOUND')
