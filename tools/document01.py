"""Documents 01 and 02 word by word: rules G, W and S with every candidate tried against a set of taken slots, the ranges of a sweep in chunks, the
numbers, the program, the check of a level, and tables of logarithms."""
from collections import namedtuple
from decimal import Decimal, getcontext
from itertools import accumulate, chain, takewhile

getcontext().prec = 40
Settings = namedtuple("Settings", "m slice ll sb buckets")
How = namedtuple("How", "bump chunks")
WORD = 2**64


# the house table, and 02, 4/14: a longer one
def log_table(entries):
    """21, or entry d = 2^24 log2 d rounded to nearest for each d, entry 0 = 0."""
    if not 1 <= entries <= 131_072:
        return 21
    unit = 2**24 / Decimal(2).ln()
    return [0] + [round(unit * Decimal(d).ln()) for d in range(1, entries)]


HOUSE = log_table(2048)


def power_from(x):
    """The least power of two that is at least x."""
    p = 1
    while p < x:
        p *= 2
    return p


# G
class Geometry:
    def __init__(self, s):
        self.s = s
        self.l = min(power_from(s.m // 2 + 1), 2**s.slice)
        self.ns = s.m + 1 - self.l
        log2_l = self.l.bit_length() - 1
        self.scale = max(0, log2_l - s.sb)
        self.layouts = 2**s.ll
        self.t = min(s.ll + self.scale, log2_l)
        self.n = self.l // 2**self.t
        self.rotations = 2**s.sb // self.layouts
        self.p = -(-self.ns // s.buckets)
        self.slots = power_from(4 * (self.l + 1) + 512 * self.p + 64 * 2**self.t)
        self.entries = 95 + (self.p + 1) + self.l

    def work(self, z):
        return self.slots // 32 + z * (self.layouts + 2) + 3 * self.layouts * max(self.n, 64) + 2560

    def bucket(self, h):
        return h * self.s.buckets // WORD

    def first(self, b):
        return b * (self.ns * WORD // self.s.buckets) // WORD

    def position(self, h, seed):
        offset = h * self.s.buckets % WORD
        shift = seed % self.layouts * (64 // self.layouts)
        return h * self.ns // WORD + ((offset >> shift) + seed * 2**self.scale) % self.l


# W
def weight(weights, size):
    if size <= 7:
        return weights[size - 1]
    return max(-(2**40), min(2**40, (weights[6] - weights[5]) * (size - 7) + weights[6]))


def turns(weights, sizes, lo, hi):
    left = [b for b in range(lo, hi) if sizes[b]]
    while left:
        window = takewhile(lambda b: b < left[0] + 256, left)
        b = min(window, key=lambda b: (1024 * b - weight(weights, sizes[b]), b % 1024))
        left.remove(b)
        yield b


# 02, 1/14: the ranges that are swept one after another
def ranges(g, c):
    gap = g.l * g.s.buckets // g.ns + 1
    chunks = max(1, min(c, g.s.buckets // max(64 * gap, 4096)))
    bounds = [i * g.s.buckets // chunks for i in range(chunks + 1)]
    inner = bounds[1:-1]
    ends = [end - gap for end in inner] + [g.s.buckets]
    return list(zip(bounds, ends)) + [(end - gap, end) for end in inner]


# S
def seed_of(g, b, keys, table, taken):
    found, first = [], g.first(b)
    for r in range(g.layouts):
        for j in range(g.n):
            if (r, j) == (0, 0) and g.n == g.rotations:
                continue
            seed = j * g.layouts + r or g.n * g.layouts
            slots = [g.position(h, seed) for h in keys]
            if len(set(slots)) == len(slots) and not taken.intersection(slots):
                found.append((sum(table[x - first + 95] for x in slots), r, j, seed))
    return min(found)[3] if found else 0


def sweep(g, weights, how, groups, table):
    """The bucket that 14 names, or None; the seeds; the taken slots."""
    seeds, taken = [0] * len(groups), set()
    sizes = [len(keys) for keys in groups]
    for b in chain(*(turns(weights, sizes, lo, hi) for lo, hi in ranges(g, how.chunks))):
        seeds[b] = seed_of(g, b, groups[b], table, taken)
        if seeds[b]:
            taken.update(g.position(h, seeds[b]) for h in groups[b])
        elif not how.bump:
            return b, [0] * len(groups), set()
    return None, seeds, taken


def counts(groups, seeds):
    """Placed, bumped, zero."""
    placed = sum(len(keys) for keys, seed in zip(groups, seeds) if seed)
    return placed, sum(map(len, groups)) - placed, seeds.count(0)


# the numbers 1 to 7, or 0
def number_to_7(s):
    if not 2 <= s.sb <= 16:
        return 1
    if s.ll >= s.sb:
        return 2
    if not 3 <= s.slice <= 16:
        return 3
    if s.ll > 6 or s.slice * 2**s.ll > 64:
        return 4
    if not 1 <= s.m <= 134_217_728:
        return 5
    if s.buckets % 2 == 0 or s.buckets > 67_108_865:
        return 6
    return 7 if Geometry(s).p > 4096 else 0


# the numbers 9 to 11, or 0
def number_of_groups(g, hashes, begins):
    buckets = g.s.buckets
    if len(begins) != buckets + 1 or begins[0] != 0 or begins != sorted(begins) or begins[-1] != len(hashes):
        return 9
    if len(hashes) > 67_108_864:
        return 9
    if max(y - x for x, y in zip(begins, begins[1:])) > 4096:
        return 10
    return 11 if any(g.bucket(h) != b for b, keys in enumerate(grouped(hashes, begins)) for h in keys) else 0


def grouped(hashes, begins):
    return [hashes[x:y] for x, y in zip(begins, begins[1:])]


# the numbers 1 to 8, 20 and 9 to 13, or 0
def number(s, weights, how, hashes, begins, table, seeds, bitmap, work):
    if number_to_7(s):
        return number_to_7(s)
    g = Geometry(s)
    if any(abs(w) > 2**32 for w in weights):
        return 8
    if how.chunks == 0:
        return 20
    if number_of_groups(g, hashes, begins):
        return number_of_groups(g, hashes, begins)
    if len(table) < g.entries or table[: g.entries] != sorted(table[: g.entries]):
        return 12
    if seeds != s.buckets or bitmap != -(-s.m // 64) or work < g.work(max(map(len, grouped(hashes, begins)))):
        return 13
    return 0


# 02, 8/14: the check of a level
def first_checks(s, hashes, begins, seeds, bitmap, scratch):
    """The numbers 1 to 7, 9 to 11, 13, or 0."""
    if number_to_7(s):
        return number_to_7(s)
    words = -(-s.m // 64)
    return number_of_groups(Geometry(s), hashes, begins) or 13 * ((len(seeds), len(bitmap), scratch) != (s.buckets, words, words))


def check(s, hashes, begins, seeds, bitmap, scratch):
    """The number, or 0 where the level is accepted, and the bucket that 29 names."""
    said = first_checks(s, hashes, begins, seeds, bitmap, scratch)
    if said:
        return said, None
    g, groups, taken = Geometry(s), grouped(hashes, begins), set()
    if any(seed >= 2**s.sb or (seed and not keys) for seed, keys in zip(seeds, groups)):
        return 28, None
    for b, keys in enumerate(groups):
        for h in keys if seeds[b] else []:
            if g.position(h, seeds[b]) in taken:
                return 29, b
            taken.add(g.position(h, seeds[b]))
    marked = {64 * i + j for i, word in enumerate(bitmap) for j in range(64) if word >> j & 1}
    return (0 if marked == taken else 30), None


# the program
def house_numbers(data):
    """Each number of the input; a ValueError where one is too long, too large or cut short."""
    value = groups = 0
    for byte in data:
        value += byte % 128 << 7 * groups
        groups += 1
        if groups > 10 or value >= WORD:
            raise ValueError
        if byte < 128:
            yield value
            value = groups = 0
    if groups:
        raise ValueError


def form(data):
    """The settings, the weights, the bump flag and the groups of hashes; None for an error of form."""
    numbers = house_numbers(data)
    try:
        m, slice_len, ll, sb, flag, *folded, buckets = [next(numbers) for _ in range(13)]
        groups = []
        while len(groups) < buckets:
            size, keys = next(numbers), []
            while len(keys) < size:
                keys.append(next(numbers))
            groups.append(keys)
        left_over = next(numbers, None) is not None
    except (ValueError, StopIteration):
        return None
    weights = [-(n + 1) // 2 if n % 2 else n // 2 for n in folded]
    return None if left_over or flag > 1 else (Settings(m, slice_len, ll, sb, buckets), weights, flag == 1, groups)


def listing(data):
    """What the sweep list program prints for an input."""
    asked = form(data)
    if asked is None:
        return "refused 18\n"
    s, weights, bump, groups = asked
    how = How(bump, 1)
    hashes, begins = list(chain(*groups)), [0, *accumulate(map(len, groups))]
    if s.m > 1024 or s.buckets > 64 or len(hashes) > 128:
        return "refused 19\n"
    if not number_to_7(s) and Geometry(s).work(max(map(len, groups))) > 8192:
        return "refused 19\n"
    said = number(s, weights, how, hashes, begins, HOUSE, s.buckets, -(-s.m // 64), 8192)
    if said:
        return f"refused {said}\n"
    stopped, seeds, taken = sweep(Geometry(s), weights, how, groups, HOUSE)
    if stopped is not None:
        return f"refused 14 {stopped}\n"
    holes = [i for i in range(s.m) if i not in taken]
    lines = [("sweep", s.m, s.buckets, len(hashes), *counts(groups, seeds), len(holes))]
    lines += [("bucket", b, len(keys), seeds[b]) for b, keys in enumerate(groups)]
    lines += [("hole", i) for i in holes]
    return "".join(" ".join(map(str, line)) + "\n" for line in lines)


# document 02, 5/14: level files
class Refused(Exception):
    """A file or a level that one of the numbers refuses."""

    def __init__(self, number):
        self.number = number


def house(n, groups=1):
    """A number in house form, in at least so many groups."""
    out = []
    while n or len(out) < groups:
        out.append(n % 128 + 128)
        n //= 128
    return bytes(out[:-1] + [out[-1] - 128])


def file_numbers(s, seeds, holes):
    """The numbers of a level, in the order of its file."""
    return [1, *s, *seeds, len(holes), *(hole - before for before, hole in zip([0, *holes], holes))]


def level_file(s, seeds, holes):
    return b"".join(map(house, file_numbers(s, seeds, holes)))


def written(s, seeds, holes, room):
    """The file of a level, for which there are so many bytes."""
    number = number_to_7(s)
    if number:
        raise Refused(number)
    if len(seeds) != s.buckets:
        raise Refused(13)
    if any(seed >= 2**s.sb for seed in seeds) or list(holes) != sorted(set(holes)) or any(hole >= s.m for hole in holes):
        raise Refused(24)
    data = level_file(s, seeds, holes)
    if len(data) > room:
        raise Refused(26)
    return data


class FileReader:
    """The numbers of a file, one at a time."""

    def __init__(self, data):
        self.data, self.at = data, 0

    def next(self):
        value = groups = 0
        while True:
            if self.at == len(self.data) or groups == 10:
                raise Refused(22)
            byte = self.data[self.at]
            value += byte % 128 << 7 * groups
            self.at, groups = self.at + 1, groups + 1
            if value >= WORD:
                raise Refused(22)
            if byte < 128:
                return value


def read(data, seed_room, hole_room):
    """The settings, seeds and holes of a file, for which so many may be lent."""
    reader = FileReader(data)
    if reader.next() != 1:
        raise Refused(23)
    s = Settings(*(reader.next() for _ in range(5)))
    if number_to_7(s):
        raise Refused(number_to_7(s))
    if s.buckets > seed_room:
        raise Refused(26)
    seeds, holes = [], []
    while len(seeds) < s.buckets:
        seeds.append(reader.next())
        if seeds[-1] >= 2**s.sb:
            raise Refused(24)
    count = reader.next()
    if count > s.m:
        raise Refused(24)
    if count > hole_room:
        raise Refused(26)
    while len(holes) < count:
        step = reader.next()
        hole = holes[-1] + step if holes else step
        if hole >= s.m or (holes and step == 0):
            raise Refused(24)
        holes.append(hole)
    if reader.at < len(data):
        raise Refused(25)
    return s, seeds, holes
