"""Made levels: settings, a bump flag, weights, and the hashes of each bucket. All that the random numbers choose is small enough for a plain model."""
from document01 import WORD, Geometry, Settings

TOP = 2**32


def some_settings(rng):
    """Settings that 1 to 7 and the limits on m and B let pass."""
    sb = rng.randint(2, 16)
    ll = rng.randrange(min(sb, 5))
    m = rng.choice([rng.randint(1, 9), rng.randint(1, 130), rng.randint(1, 1024), 2 ** rng.randint(1, 9) + rng.randint(-1, 1)])
    buckets = rng.choice([1, 3, rng.randrange(1, 64, 2), min(63, m // 8 * 2 + 1)])
    return Settings(m, rng.randint(3, min(16, 64 >> ll)), ll, sb, buckets)


def some_weights(rng):
    choices = [[0], range(-5000, 5001), [-2048, -1024, 0, 1024, 2048], [-TOP, -TOP + 1, -1, 0, 1, TOP - 1, TOP], range(-TOP, TOP + 1)]
    values = rng.choice(choices)
    return [rng.choice(values) for _ in range(7)]


def hash_in(rng, b, buckets, ends=True):
    """A hash of bucket b, at or near its ends more often if so said."""
    low, high = -(-b * WORD // buckets), -(-(b + 1) * WORD // buckets) - 1
    return rng.choice([low, high, low + rng.randrange(9)]) if ends and rng.random() < 0.5 else rng.randint(low, high)


def some_groups(rng, buckets, keys, equal=0.0):
    """So many keys, spread over the buckets or heaped on a few; some repeat one of their bucket."""
    groups = [[] for _ in range(buckets)]
    used = rng.sample(range(buckets), rng.randint(1, buckets)) if rng.random() < 0.5 else range(buckets)
    ends = rng.random() < 0.3
    for _ in range(keys):
        b = rng.choice(used)
        groups[b].append(rng.choice(groups[b]) if groups[b] and rng.random() < equal else hash_in(rng, b, buckets, ends))
    return groups


def work_of(s, groups):
    return Geometry(s).work(max(map(len, groups)))


def level(rng, wanted=lambda s: True, keys=None, equal=0.0):
    """A level that is swept: settings as wanted, 19 passed."""
    while True:
        s = some_settings(rng)
        if not wanted(s):
            continue
        most = min(s.m, 128)
        count = keys(s) if keys else rng.choice([rng.randint(0, 8), rng.randint(0, most), most, rng.randint(0, 128)])
        groups = some_groups(rng, s.buckets, count, equal)
        if work_of(s, groups) <= 8192:
            return s, int(rng.random() < 0.8), some_weights(rng), groups
