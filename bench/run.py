#!/usr/bin/env python3
"""Measures the planner beside the usual method, a SAT solver and two MILP solvers, and the reason for a period beside the usual method,
and writes docs/BENCHMARKS.md.

    python3 bench/run.py [--limit SECONDS]     SECONDS each MILP solver may take for a list, 20 unless given

Takes rt, gcc, g++ and Debian's valgrind, libcadical-dev, coinor-cbc and glpk-utils."""
import argparse
import math
import os
import pathlib
import re
import struct
import subprocess
import sys

sys.dont_write_bytecode = True
import lists
import milp

ROOT = pathlib.Path(__file__).resolve().parent.parent
WORK = ROOT / 'target' / 'bench'


CALL = {'ours': 'darnerflax_plan', 'plain': 'plain_plan', 'sat': 'sat_plan', 'why': 'darnerflax_why_not', 'plain_why': 'plain_why_not',
        'read': 'darnerflax_read', 'convert': 'darnerflax_convert', 'plain_convert': 'plain_convert'}
REPEATS = {'ours': 200, 'plain': 5, 'sat': 5, 'why': 200, 'plain_why': 20, 'read': 200, 'convert': 200, 'plain_convert': 200}


def shell(*command):
    return subprocess.run(command, cwd=ROOT, check=True, capture_output=True, text=True).stdout


def build():
    WORK.mkdir(parents=True, exist_ok=True)
    shell('bash', 'build.sh', 'planner_c')
    shell('g++', '-O3', '-Wall', '-Wextra', '-c', 'bench/plain.cpp', '-o', 'target/bench/plain.o')
    shell('gcc', '-O3', '-Wall', '-Wextra', '-Ic', 'bench/measure.c', 'target/bench/plain.o',
          'target/staticlib/libplanner_c.a', '-lcadical', '-lstdc++', '-lm', '-o', 'target/bench/measure')
    shell('gcc', '-O2', '-Wall', '-Wextra', '-Ic', 'bench/stack.c', 'target/staticlib/libplanner_c.a', '-o', 'target/bench/stack')


def instructions(who, file, *period):
    """Instructions of one call, without what comes before and after it."""
    out = WORK / 'callgrind.out'
    shell('valgrind', '--tool=callgrind', f'--callgrind-out-file={out}', f'--toggle-collect={CALL[who]}',
          'target/bench/measure', who, str(file), '1', *period)
    return int(re.search(r'^(?:summary|totals): (\d+)', out.read_text(), re.M).group(1))


def measured(who, file, *period):
    """Seconds of the fastest call, its instructions, and what it returned."""
    nanoseconds, answer = shell('target/bench/measure', who, str(file), str(REPEATS[who]), *period).split('\n')[:2]
    return int(nanoseconds) / 1e9, instructions(who, file, *period), answer.split()


class Row:
    def __init__(self, name, net, limit=None, needs=()):
        self.name, self.n, self.m = name, net[0], len(net[1])
        self.counted_in = lists.counted_in(net, needs) if needs else net
        self.file = WORK / f'{name}.list'
        self.file.write_bytes(lists.encode(net, needs))
        self.seconds, self.count, answer = measured('ours', self.file)
        self.common, self.free, self.two, _ = map(int, answer[:4])
        self.plain_seconds, self.plain_count, plain = measured('plain', self.file)
        assert plain == answer, name
        if limit is not None:
            self.sat_seconds, self.sat_count, sat = measured('sat', self.file)
            assert sat[2:4] == answer[2:4], name
            model = WORK / 'model.lp'
            model.write_text(milp.model(net))
            self.cbc = milp.cbc(model, limit)
            self.glpk = milp.glpk(model, limit)
        print(self.line() if limit is not None else self.short_line(), flush=True)

    def fewer(self):
        return self.plain_count / self.count

    def faster(self):
        """Against the faster of the two MILP solvers, finished or cut off."""
        return min(self.cbc.seconds, self.glpk.seconds) / self.seconds

    def cells(self):
        return self.name, self.n, self.m, self.common, self.free, self.two, million(self.count), million(self.plain_count)

    def line(self):
        return table_row(*self.cells(), million(self.sat_count), f'{self.fewer():.0f}', micro(self.seconds),
                         micro(self.plain_seconds), micro(self.sat_seconds), self.cbc.told(self.two),
                         self.glpk.told(self.two), f'{self.faster():,.0f}')

    def short_line(self):
        return table_row(*self.cells(), f'{self.fewer():.0f}', micro(self.seconds), micro(self.plain_seconds))


def million(count):
    return f'{count / 1e6:.3f}' if count < 1e7 else f'{count / 1e6:.1f}'


def micro(seconds):
    return f'{seconds * 1e6:,.1f}' if seconds < 1e-4 else f'{seconds * 1e6:,.0f}'


def table_row(*cells):
    return '| ' + ' | '.join(map(str, cells)) + ' |'


def table(head, rows):
    return '\n'.join([table_row(*head), '|' + '---|' * len(head), *rows]) + '\n'


class Summary:
    """Instructions of plain beside ours, over lists from 100 registers up."""

    def __init__(self, rows):
        rows = [row for row in rows if row.n >= 100]
        fewer = [row.fewer() for row in rows]
        self.least = min(fewer)
        self.mean = sum(fewer) / len(fewer)
        self.geometric = math.exp(sum(map(math.log, fewer)) / len(fewer))
        self.share = sum(1 / times for times in fewer) / len(fewer)
        self.total = sum(row.count for row in rows) / sum(row.plain_count for row in rows)
        self.most = max(rows, key=lambda row: row.count)
        self.worst = min(rows, key=Row.fewer)

    def line(self, name):
        return table_row(name, f'{self.least:.1f} ({self.worst.name})', f'{self.mean:.0f}', f'{self.geometric:.0f}',
                         f'{1 / self.least:.4f}', f'{self.share:.4f}', f'{self.total:.4f}', f'{million(self.most.count)} ({self.most.name})')


class Needy:
    """A list with needs, beside the same list without, and the list without that asks for the same."""

    def __init__(self, name, net, needs):
        self.name = name
        self.row = Row(name + ' with needs', net, needs=needs)
        self.without = Row(name + ' without needs', net)
        self.counted_in = Row(name + ' with needs counted in', lists.counted_in(net, needs))

    def more(self):
        return self.row.count / self.without.count

    def more_than_counted_in(self):
        return self.row.count / self.counted_in.count

    def line(self):
        r = self.row
        return table_row(self.name, r.n, r.m, r.common, r.free, r.two, million(r.count), million(self.without.count), f'{self.more():.2f}',
                         million(self.counted_in.count), f'{self.more_than_counted_in():.2f}', million(r.plain_count),
                         f'{r.fewer():.0f}', micro(r.seconds), micro(r.plain_seconds))


NEEDY_HEAD = ('list', 'registers', 'pairs', 'common', 'free', 'two', 'ours, million instructions', 'without needs', 'ours / that', 'counted in',
              'ours / that', 'plain', 'plain / ours', 'ours, µs', 'plain')


class Why:
    """Why no split works at a period of a list, or that one does. The chains of ours and of plain are followed step by step."""

    def __init__(self, row, period):
        self.row, self.period = row, period
        self.seconds, self.count, ours = measured('why', row.file, str(period))
        self.plain_seconds, self.plain_count, plain = measured('plain_why', row.file, str(period))
        assert (ours[0] == '1') == (plain[0] == '1') == (period < row.two), row.name
        for answer in ours, plain:
            self.follow(*map(int, answer))
        self.steps = int(ours[2]) + int(ours[3])

    def follow(self, blocked, register, first, second, *steps):
        if blocked:
            assert 1 <= min(first, second) and max(first, second) <= 2 * self.row.n - 1 and len(steps) == first + second, self.row.name
            assert self.led((register, 0), steps[:first]) == (register, 1), self.row.name
            assert self.led((register, 1), steps[first:]) == (register, 0), self.row.name

    def led(self, node, steps):
        """Where steps lead from a register with a choice: each breaks a rule, and forces the opposite choice on its other end."""
        _, pairs = self.row.counted_in
        offset = max(0, self.row.common - self.period)
        for step in steps:
            a, b, least, greatest = pairs[step // 4]
            launch, capture = (a, step // 2 % 2), (b, step % 2)
            later = (capture[1] - launch[1]) * offset
            assert (greatest > self.period + later or later > least) and node in (launch, capture), self.row.name
            a, late = capture if node == launch else launch
            node = a, 1 - late
        return node

    def fewer(self):
        return self.plain_count / self.count

    def cells(self):
        return million(self.count), million(self.plain_count), micro(self.seconds), micro(self.plain_seconds)


class Whys:
    """The period just below the two-timing one, where nothing works, and the common period, where all early does."""

    def __init__(self, row):
        self.row = row
        self.below = Why(row, row.two - 1) if row.two > 1 else None
        self.common = Why(row, row.common)
        print(self.line(), flush=True)

    def both(self):
        return [why for why in (self.below, self.common) if why]

    def line(self):
        r = self.row
        below = (*self.below.cells(), self.below.steps) if self.below else ('',) * 5
        return table_row(r.name, r.n, r.m, r.common, r.two, *below, *self.common.cells())


WHY_HEAD = ('list', 'registers', 'pairs', 'common', 'two', 'below two: ours, million instructions', 'plain', 'ours, µs', 'plain', 'steps of ours',
            'at common: ours, million instructions', 'plain', 'ours, µs', 'plain')


class Stored:
    """A stored list, converted; beside it plain sorting and joining, and what reading the converted list takes."""

    def __init__(self, name, net):
        self.name, self.m = name, len(net[1])
        file, ordered = WORK / 'stored.list', WORK / 'converted.list'
        file.write_bytes(lists.encode(net))
        self.seconds, self.count, ours = measured('convert', file)
        self.plain_seconds, self.plain_count, plain = measured('plain_convert', file)
        words = list(map(int, ours[4:]))
        assert words == list(map(int, plain[4:])) and len(words) == int(ours[0]), name
        ordered.write_bytes(struct.pack(f'<{len(words)}I', *words))
        self.kept = (len(words) - 2) // 3
        full = WORK / 'full.list'
        full.write_bytes(lists.encode(lists.drawn(512, self.m, 0, 100, 1)))
        self.read_seconds, self.read_count, _ = measured('read', full)
        print(self.line(), flush=True)

    def line(self):
        return table_row(self.name, self.m, self.kept, million(self.count), million(self.plain_count), f'{self.count / self.read_count:.1f}',
                         micro(self.seconds), micro(self.plain_seconds), micro(self.read_seconds))


STORED_HEAD = ('list', 'pairs', 'joined', 'ours, million instructions', 'plain', 'ours / reading', 'ours, µs', 'plain', 'reading')


def growth(unit, rows):
    head = (unit, 'ours, million instructions', 'plain', 'ours, µs', 'plain')
    return table(head, [table_row(size, million(r.count), million(r.plain_count), micro(r.seconds), micro(r.plain_seconds))
                        for size, r in rows])


def stack(rows):
    """The most stack that each job takes for one of the lists."""
    lines = shell('target/bench/stack', *(str(row.file) for row in rows)).splitlines()
    return table(('job', 'bytes of stack'), [table_row(job, f'{int(most):,}') for job, most in map(str.split, lines)])


def machine():
    model = re.search(r'model name\s*:\s*(.*)', pathlib.Path('/proc/cpuinfo').read_text()).group(1)
    gcc = shell('g++', '--version').split('\n')[0]
    packages = shell('dpkg-query', '-W', '-f', '${Package} ${Version}, ', 'libcadical-dev', 'coinor-cbc', 'glpk-utils', 'valgrind')
    return f'{model}, {os.cpu_count()} cores; {gcc}; {packages.rstrip(", ")}'


def main():
    options = argparse.ArgumentParser(description=__doc__, formatter_class=argparse.RawDescriptionHelpFormatter)
    options.add_argument('--limit', type=int, default=20)
    limit = options.parse_args().limit
    build()
    circuits = [Row(name, lists.circuit(name), limit) for name in lists.CIRCUITS]
    shapes = [Row(name, net, limit) for name, net in lists.shapes()]
    hard = [Row(name, net) for name, net in lists.hard()]
    found = [Row(name, net) for name, net in lists.found()]
    by_pairs, by_registers = ([(size, Row(f'{size} {unit}', net)) for size, net in nets]
                              for unit, nets in zip(('pairs', 'registers'), lists.growth()))
    grown = [row for _, row in by_pairs + by_registers]
    every = circuits + shapes + hard + grown + found
    with_needs = [Needy(*three) for three in lists.needy()]
    most_needy, most_counted = max(with_needs, key=Needy.more), max(with_needs, key=Needy.more_than_counted_in)
    whys = [Whys(row) for row in every + [needy.row for needy in with_needs]]
    each_why = [why for two in whys for why in two.both()]
    most_why = max(each_why, key=lambda why: why.count)
    large_whys = [why for why in each_why if why.row.n >= 100]
    least_why, top_why = min(large_whys, key=Why.fewer), max(large_whys, key=Why.fewer)
    mean_why = sum(map(Why.fewer, large_whys)) / len(large_whys)
    stored = [Stored(*two) for two in lists.stored()]
    most_stored = max(stored, key=lambda row: row.count)
    ones = Row('delays of 0 and 1', lists.ones(512, 2048, 14))
    few_ones = Row('delays of 0 and 1, 100 registers', lists.ones(100, 242, 14))
    faster = min(row.faster() for row in circuits + shapes if row.n >= 100)
    usual, hardest = Summary(circuits + shapes), Summary(hard + found)
    head = ('list', 'registers', 'pairs', 'common', 'free', 'two', 'ours, million instructions', 'plain')
    long_head = (*head, 'SAT', 'plain / ours', 'ours, µs', 'plain', 'SAT', 'cbc, s', 'glpsol, s', 'MILP / ours')
    summary = table(('lists', 'plain / ours, least', 'mean', 'geometric mean', 'ours / plain, most', 'mean', 'of the totals',
                     'ours, most million instructions'),
                    [usual.line('circuits and shapes'), Summary(hard).line('hard lists'), Summary(grown).line('growth'),
                     Summary(found).line('found by climbs'), Summary(every).line('all')])
    text = pathlib.Path(__file__).with_name('text.md').read_text()
    for key, value in {
        'MACHINE': machine(), 'LIMIT': limit, 'LEAST': f'{usual.least:.1f}', 'MEAN': f'{usual.mean:.0f}',
        'GEOMETRIC': f'{usual.geometric:.0f}', 'FASTER': f'{faster:,.0f}', 'SUMMARY': summary,
        'HARD_MOST': million(hardest.most.count), 'HARD_MOST_LIST': hardest.most.name, 'HARD_MICRO': micro(hardest.most.seconds),
        'HARD_LEAST': f'{hardest.least:.1f}', 'HARD_LEAST_LIST': hardest.worst.name,
        'ONES': million(ones.count), 'ONES_PLAIN': million(ones.plain_count),
        'FEW_ONES': million(few_ones.count), 'FEW_ONES_PLAIN': million(few_ones.plain_count),
        'CIRCUITS': table(long_head, [row.line() for row in circuits]), 'SHAPES': table(long_head, [row.line() for row in shapes]),
        'HARD': table((*head, 'plain / ours', 'ours, µs', 'plain'), [row.short_line() for row in hard]),
        'FOUND': table((*head, 'plain / ours', 'ours, µs', 'plain'), [row.short_line() for row in found]),
        'BY_PAIRS': growth('pairs', by_pairs), 'BY_REGISTERS': growth('registers', by_registers),
        'NEEDY': table(NEEDY_HEAD, [needy.line() for needy in with_needs]),
        'MOST_NEEDY': f'{most_needy.more():.2f}', 'MOST_NEEDY_LIST': most_needy.name,
        'MOST_COUNTED': f'{most_counted.more_than_counted_in():.2f}', 'MOST_COUNTED_LIST': most_counted.name,
        'WHY': table(WHY_HEAD, [two.line() for two in whys if two.row in shapes + hard or two.row in circuits and two.row.n >= 100]),
        'WHY_OF': len(whys), 'WHY_MOST': million(most_why.count), 'WHY_MOST_LIST': most_why.row.name, 'WHY_MICRO': micro(most_why.seconds),
        'WHY_LEAST': f'{least_why.fewer():.2f}', 'WHY_LEAST_LIST': least_why.row.name, 'WHY_MEAN': f'{mean_why:.2f}',
        'WHY_TOP': f'{top_why.fewer():.2f}', 'WHY_TOP_LIST': top_why.row.name,
        'STORED': table(STORED_HEAD, [row.line() for row in stored]), 'STORED_MOST': million(most_stored.count),
        'STORED_READ': f'{max(row.count / row.read_count for row in stored):.1f}',
        'STACK': stack(every + [needy.row for needy in with_needs]),
    }.items():
        text = text.replace('{' + key + '}', str(value))
    (ROOT / 'docs' / 'BENCHMARKS.md').write_text(text)
    print(summary + f'MILP / ours from 100 registers up: at least {faster:,.0f}')


if __name__ == '__main__':
    main()
