"""Set files and lists of scans for the benchmark, made from fixed seeds. The form of a set file is document 01's, with K6's rest word and K11's tag 0x07."""
import random
import struct


class Set:
    """A set as the file has it: names and kinds of points, the outputs that rest on, as a word, and constraints as lists of literals (point, is output, negated, rank)."""

    def __init__(self, reads, outputs, constraints, rest=0):
        self.reads, self.outputs, self.constraints, self.rest = reads, outputs, constraints, rest

    def file(self):
        fields = [(1, bytes([len(self.reads), len(self.outputs)]))]
        fields += [(2, bytes([0, 0]) + name) for name in self.reads]
        fields += [(3, name) for name in self.outputs]
        fields += [(6, struct.pack(">H", self.rest))] if self.rest else []
        fields += [constraint(c) for c in self.constraints]
        fields += [(5, b"")]
        return b"".join(struct.pack(">BH", tag, len(body)) + body for tag, body in fields)


def constraint(literals):
    """Tag and body: literals of three bytes where a read point above 15 is named, else of two."""
    if any(number > 15 for number, *_ in literals):
        return 7, b"".join(bytes([negated << 7 | is_output << 6, number, rank]) for number, is_output, negated, rank in literals)
    return 4, b"".join(bytes([negated << 7 | is_output << 6 | number, rank]) for number, is_output, negated, rank in literals)


def names(letter, count):
    return [b"%s%d" % (letter, k) for k in range(count)]


def falling(r, n, m, read_literals, seed):
    """m combined constraints of 2 to 4 outputs and so many read literals each. The one output of the lowest rank stands plain, so that passes
    only turn outputs off and every walk reaches a safe vector: the set is accepted. With one output each constraint is simple, and holds it off."""
    rng = random.Random(seed)
    constraints = []
    for _ in range(m):
        reads = [(k, False, rng.random() < 0.5, 0) for k in sorted(rng.sample(range(r), min(read_literals, r)))]
        outputs = sorted(rng.sample(range(n), rng.randint(min(2, n), min(4, n))))
        lowest = rng.choice(outputs)
        outs = [(k, True, k != lowest and rng.random() < 0.5, 0 if k == lowest else rng.randint(1, 3)) for k in outputs]
        constraints.append(reads + outs)
    return Set(names(b"s", r), names(b"a", n), constraints)


def falling_behind_masks(r, n, m, seed):
    """The constraints of `falling` without read literals, the first r of them each behind a read point of its own: no two read words have the same
    active constraints. That takes r constraints with read literals, each active at half of the words at most, so that no such set has more active."""
    rng = random.Random(seed)
    falls = falling(r, n, m, 0, seed)
    behind = [[(k, False, rng.random() < 0.5, 0)] + c for k, c in enumerate(falls.constraints[:r])]
    return Set(falls.reads, falls.outputs, behind + falls.constraints[r:])


def circling_at_word_0(r, n, m, late, seed):
    """The constraints of `falling` on all outputs but the first two, and a pair on these that is active at word 0 alone and makes the walk from
    output 0 go round: 23 at word 0, request 1. Vector 0 is safe at every word; or, with `late`, plain and negated are exchanged, so that passes
    only turn outputs on, and the first safe vector is a late one."""
    falls = falling(r, n - 2, m - 2, 1, seed)
    others = [[(k + 2, out, neg ^ late, rank) if out else (k, out, neg, rank) for k, out, neg, rank in c] for c in falls.constraints]
    off = [(k, False, True, 0) for k in range(r)]
    pair = [off + [(0, True, False, 1), (1, True, negated, 0)] for negated in (True, False)]
    return Set(falls.reads, names(b"a", n), others + pair)


def counter(n, splits):
    """A pass adds 1 to the vector: for each k a constraint "outputs below k on, k off" flips these k + 1 outputs, all of rank 0. Only the vector
    with all outputs on is safe, so that the walk from 0 takes 2^n - 1 passes. The constraint of k is split by the values of the splits[k] outputs
    above it (rank 1, so that they never yield): a lone output literal would hold its output, and a longer list of constraints makes a pass longer."""
    constraints = []
    for k in range(n):
        for values in range(1 << splits.get(k, 0)):
            low = [(j, True, j == k, 0) for j in range(k + 1)]
            high = [(k + 1 + j, True, values >> j & 1 == 0, 1) for j in range(splits.get(k, 0))]
            constraints.append(low + high)
    return Set([], names(b"a", n), constraints)


def counter_behind_masks(r, n, splits, m, behind):
    """The counter, with copies of its constraints up to m of them, the last so many behind one of r sensors each, in turn: no two read words have
    the same active constraints, and the walks are the counter's at every one."""
    plain = counter(n, splits)
    copies = [plain.constraints[i % len(plain.constraints)] for i in range(m)]
    masked = [[(i % r, False, False, 0)] + c for i, c in enumerate(copies[m - behind:])]
    return Set(names(b"s", r), plain.outputs, copies[:m - behind] + masked)


def largest(r, n):
    """The longest file with so many points: names of 8 bytes, a rest word, 64 constraints that name all points. With 20 read points and 4 outputs it
    is the longest that there is, with 16 and 8 the longest without tag 0x07."""
    rng = random.Random(5)
    constraints = []
    for _ in range(64):
        reads = [(k, False, rng.random() < 0.5, 0) for k in range(r)]
        constraints.append(reads + [(k, True, rng.random() < 0.5, rng.randint(0, 255)) for k in range(n)])
    return Set([b"sensor%02d" % k for k in range(r)], [b"output%02d" % k for k in range(n)], constraints, 0xA5 % 2**n)


def scans(sensors, n, count, seed):
    """Random sensor words, with bits only at the sensors, and random requests."""
    rng = random.Random(seed)
    return [(rng.getrandbits(17) & sensors, rng.getrandbits(n)) for _ in range(count)]
