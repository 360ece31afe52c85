"""The lists of the benchmark: a name, the count of registers, pairs (launch, capture, least, greatest), and for some of them needs
(hold, setup) of each register. Pairs are in ascending order, by launch, then capture, and none is there twice."""
import pathlib
import random
import struct

FOUND = pathlib.Path(__file__).with_name('found')
MAX_NEED = 9_999

# circuit: registers, pairs, common period in picoseconds (ISCAS89; those within 512 registers and 2,048 pairs)
CIRCUITS = {
    's27': (3, 7, 3451), 's208.1': (8, 36, 4687), 's298': (14, 70, 6185), 's344': (15, 89, 6299), 's349': (15, 89, 5976),
    's382': (21, 146, 5312), 's386': (6, 36, 5490), 's400': (21, 146, 5679), 's420.1': (16, 136, 6640),
    's444': (21, 146, 5583), 's499': (22, 484, 8824), 's510': (6, 36, 7189), 's526': (21, 144, 5868),
    's526n': (21, 144, 5824), 's635': (32, 528, 11487), 's641': (19, 115, 10526), 's713': (19, 115, 10633),
    's820': (5, 25, 7818), 's832': (5, 25, 7508), 's838.1': (32, 528, 10039), 's938': (32, 528, 9264),
    's953': (26, 156, 7540), 's967': (26, 156, 7665), 's991': (19, 71, 17399), 's1196': (12, 20, 9157),
    's1238': (12, 20, 9036), 's1269': (37, 288, 14908), 's1423': (74, 1764, 20431), 's1488': (6, 36, 8762),
    's1494': (6, 36, 8847), 's1512': (57, 513, 8953), 'prolog': (132, 549, 11522), 's3271': (116, 896, 11952),
    's3330': (132, 549, 10122), 's3384': (183, 1827, 18863), 's5378': (178, 1144, 8432), 's9234': (160, 2000, 11983),
    's9234.1': (143, 1884, 11593),
}


def delays(rng, most, low, high):
    """A greatest delay up to `most`, and a least delay of `low` to `high` hundredths of it."""
    greatest = rng.randint(most // 3, most)
    return greatest * rng.randint(low, high) // 100, greatest


def circuit(name):
    """Registers and pairs of a circuit, the longest delay its common period; which pairs there are is drawn."""
    n, m, common = CIRCUITS[name]
    rng = random.Random(name)
    every = [(a, b) for a in range(n) for b in range(n)]
    pairs = [(a, b, *delays(rng, common, 20, 90)) for a, b in rng.sample(every, m)]
    k, a, b = next((k, a, b) for k, (a, b, _, _) in enumerate(pairs) if a != b)
    pairs[k] = (a, b, common * 7 // 10, common)
    return ordered((n, pairs))


def ordered(net):
    """The same net with its pairs in ascending order; those of the same registers become one, with the smaller least and the larger
    greatest delay."""
    n, pairs = net
    joined = {}
    for a, b, least, greatest in pairs:
        low, high = joined.get((a, b), (least, greatest))
        joined[a, b] = min(low, least), max(high, greatest)
    return n, [(a, b, *joined[a, b]) for a, b in sorted(joined)]


def ends(rng, n, m):
    """The registers of m pairs, drawn at random."""
    return [divmod(key, n) for key in sorted(rng.sample(range(n * n), m))]


def drawn(n, m, low, high, seed):
    """Pairs drawn at random, the least delay of `low` to `high` hundredths of the greatest."""
    rng = random.Random(seed)
    return n, [(a, b, *delays(rng, 1_000_000, low, high)) for a, b in ends(rng, n, m)]


def near(n, m, reach, seed):
    """Each register with others at most `reach` away."""
    rng = random.Random(seed)
    every = [(a, b) for a in range(n) for b in range(max(0, a - reach), min(n, a + reach + 1))]
    return n, [(a, b, *delays(rng, 1_000_000, 40, 99)) for a, b in sorted(rng.sample(every, m))]


def ones(n, m, seed):
    """Delays of 0 and 1 only: every period is 1."""
    rng = random.Random(seed)
    return n, [(a, b, 0, rng.randint(0, 1)) for a, b in ends(rng, n, m)]


def chain(n, seed):
    """Register after register, with slow and fast logic in turn."""
    rng = random.Random(seed)
    return n, [(r, r + 1, *delays(rng, 1_000_000, 70, 99)) for r in range(n - 1)]


def ring(n, seed):
    rng = random.Random(seed)
    return n, [(r, (r + 1) % n, *delays(rng, 1_000_000, 70, 99)) for r in range(n)]


def ladder(n, seed):
    """Two chains with rungs both ways."""
    rng = random.Random(seed)
    half = n // 2
    links = [(r, r + 1) for r in range(half - 1)] + [(half + r, half + r + 1) for r in range(half - 1)]
    links += [(r, half + r) for r in range(half)] + [(half + r, r) for r in range(half)]
    return ordered((n, [(a, b, *delays(rng, 1_000_000, 70, 99)) for a, b in links]))


def zigzag(n, seed):
    """A chain whose pairs point to and fro, with no room between least and greatest."""
    rng = random.Random(seed)
    links = [(r, r + 1) if r % 2 else (r + 1, r) for r in range(n - 1)]
    return ordered((n, [(a, b, *delays(rng, 1_000_000, 100, 100)) for a, b in links]))


def strands(n, times, seed):
    """A chain with pairs to the next few registers too."""
    rng = random.Random(seed)
    links = [(r, r + k) for r in range(n) for k in range(1, times + 1) if r + k < n]
    return n, [(a, b, *delays(rng, 1_000_000, 95, 100)) for a, b in links]


def grid(side, seed):
    """Rows and columns of registers, 22 by 22 and the like."""
    rng = random.Random(seed)
    links = [(y * side + x, y * side + x + 1) for y in range(side) for x in range(side - 1)]
    links += [(y * side + x, y * side + side + x) for y in range(side - 1) for x in range(side)]
    return ordered((side * side, [(a, b, *delays(rng, 1_000_000, 80, 100)) for a, b in links]))


def renamed(net, name):
    """The same net with other numbers for its registers."""
    n, pairs = net
    return ordered((n, [(name[a], name[b], least, greatest) for a, b, least, greatest in pairs]))


def turned(net):
    """The same net with registers numbered from the other end."""
    return renamed(net, range(net[0])[::-1])


def mixed(net, seed):
    """The same net with registers renumbered."""
    name = list(range(net[0]))
    random.Random(seed).shuffle(name)
    return renamed(net, name)


def nested(n, m):
    """A path from register 0 up and a return from each register r, with a cycle that asks for a period of 900,000 + r: the cycles
    lie in one another, and a period that is tried shows the next one only. Further pairs go back to other registers and ask for
    nothing."""
    last = n - 1
    slow = 900_000 + last + 1002
    pairs = [(r, r + 1, slow, slow) for r in range(last)]
    for r in range(1, n):
        rest = (900_000 + r) * (r + 1) - r * slow
        pairs.append((r, 0, rest, rest))
    back = [(r, to, 1000, 1000) for to in range(1, 5) for r in range(to + 1, n)]
    return ordered((n, pairs + back[:m - len(pairs)]))


def zig(n, m):
    """A chain of registers that are forced late one after the other, from the last but one down, by pairs in the other order, so that
    a sweep follows it one step. Further pairs go back along the chain and force nothing."""
    pairs = [(r, r + 1, 0, 10) for r in range(n - 2)] + [(n - 1, n - 1, 0, 600_000), (n - 1, n - 2, 700_000, 1_000_000)]
    back = [(r, r - by, 0, 10) for by in range(1, 5) for r in range(by, n - 1)]
    return ordered((n, pairs + back[:m - len(pairs)]))


def hubwave(k, m):
    """A wave that holds carry along a chain from register k down, a step in each sweep; each register it comes to raises a hub by 1
    more than the one before, and the hub raises two others, at which all other pairs end."""
    start, hub, one, other, alone = range(k + 1, k + 6)
    pairs = [(alone, alone, 500_000, 500_000), (one, hub, 0, 0), (other, hub, 0, 0), (start, k, 500_000 + 4 * k, 500_000 + 4 * k)]
    for r in range(k + 1):
        pairs.append((hub, r, 2 * r + 10, 2 * r + 10))
        if r > 0:
            pairs.append((r - 1, r, 1, 1))
    rest = [(a, b, 400_000, 400_000) for r in range(k + 1) for a, b in ((one, r), (other, r), (r, one), (r, other))]
    return ordered((k + 6, pairs + rest[:m - len(pairs)]))


def needs(net, most, seed):
    """A hold and a setup up to `most` for each register; no hold is above a least delay that it would forbid."""
    rng = random.Random(seed)
    n, pairs = net
    holds = [most] * n
    for _, b, least, _ in pairs:
        holds[b] = min(holds[b], least)
    return [(rng.randint(hold // 2, hold), rng.randint(most // 2, most)) for hold in holds]


def encode(net, needs=()):
    """The words of a list, as bytes."""
    n, pairs = net
    words = [1 << 29 | n << 12 | len(pairs)]
    words += [5 << 29 | setup << 14 | hold for hold, setup in needs]
    for a, b, least, greatest in pairs:
        words += [2 << 29 | a << 10 | b, 3 << 29 | least, 4 << 29 | greatest]
    words.append(7 << 29 | sum(words) % (1 << 29))
    return struct.pack(f'<{len(words)}I', *words)


def decode(words):
    """The net of a list's bytes, of a list without needs."""
    words = [word & 0x1fffffff for word, in struct.iter_unpack('<I', words)]
    body = words[1:-1]
    return words[0] >> 12, [(pair >> 10, pair & 0x3ff, least, greatest)
                            for pair, least, greatest in zip(body[0::3], body[1::3], body[2::3])]


def stored():
    """Full-size lists of 512 registers in an order that the converter has to mend, or with pairs that it has to join."""
    n, pairs = drawn(512, 2048, 0, 100, 1)
    yield 'in order', (n, pairs)
    yield 'the other way round', (n, pairs[::-1])
    shuffled = pairs[:]
    random.Random(5).shuffle(shuffled)
    yield 'shuffled', (n, shuffled)
    yield 'each pair four times', (n, (shuffled[:512] * 4))
    yield 'one pair only', (n, [pairs[0][:2] + pair[2:] for pair in pairs])


def shapes():
    """Full-size lists of every shape."""
    yield 'random', drawn(512, 2048, 0, 100, 1)
    yield 'random, tight', drawn(512, 2048, 80, 99, 2)
    yield 'random, loose', drawn(512, 2048, 0, 20, 3)
    yield 'near neighbours', near(512, 2048, 8, 4)
    for name, net in ('chain', chain(512, 5)), ('ring', ring(512, 6)), ('ladder', ladder(512, 7)):
        yield name, net
        yield name + ', turned', turned(net)
        yield name + ', mixed', mixed(net, 8)
    yield 'zigzag, mixed', mixed(zigzag(512, 11), 8)
    yield 'strands', strands(512, 4, 12)
    yield 'strands, mixed', mixed(strands(512, 4, 12), 8)
    yield 'grid, mixed', mixed(grid(22, 13), 8)


def hard():
    """Lists like those that were made to be slow for the planner as it was."""
    yield 'nested', nested(512, 2048)
    yield 'nested, mixed', mixed(nested(512, 1022), 7)
    yield 'zig', zig(512, 2048)
    yield 'hubwave', hubwave(500, 2048)


def found():
    """Lists that bench/climb.c found to be slow, for this planner and for those before, put in order since."""
    for file in sorted(FOUND.glob('*.list')):
        yield file.stem.replace('-', ' '), decode(file.read_bytes())


def lowered(net):
    """The same net with all delays shorter by a hundredth, which leaves room for a setup."""
    n, pairs = net
    return n, [(a, b, least * 99 // 100, greatest * 99 // 100) for a, b, least, greatest in pairs]


def counted_in(net, needs):
    """The net without needs that asks for the same: a hold off the least delays, a setup on the greatest."""
    n, pairs = net
    return n, [(a, b, least - needs[b][0], greatest + needs[b][1]) for a, b, least, greatest in pairs]


def needy():
    """Nets and needs of every kind."""
    for name in 's953', 's1423', 'prolog', 's5378', 's9234.1':
        net = circuit(name)
        yield name, net, needs(net, CIRCUITS[name][2] // 20, 15)
    for name, net in (*shapes(), *hard()):
        if name in ('random', 'near neighbours', 'chain', 'ring', 'ladder, mixed', 'strands, mixed', 'grid, mixed', 'nested'):
            net = lowered(net)
            yield name, net, needs(net, MAX_NEED, 16)


def growth():
    """More pairs for 512 registers, and more registers for 2,048 pairs."""
    by_pairs = [(m, drawn(512, m, 60, 99, 9)) for m in (64, 128, 256, 512, 1024, 2048)]
    by_registers = [(n, drawn(n, 2048, 60, 99, 10)) for n in (48, 64, 96, 128, 256, 512)]
    return by_pairs, by_registers
