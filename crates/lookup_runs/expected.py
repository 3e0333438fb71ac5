#!/usr/bin/env python3
"""Makes the file `stdout` of this program from document 01's words alone: whole numbers of any size, no shifts, no masks."""


def number(m, k, ll, sb, b, seeds):
    """The first number that refuses, or None."""
    table = [
        (1, lambda: not 2 <= sb <= 16),
        (2, lambda: ll >= sb),
        (3, lambda: not 3 <= k <= 16),
        (4, lambda: ll > 6 or k * 2**ll > 64),
        (5, lambda: not 1 <= m <= 134_217_728),
        (6, lambda: b % 2 == 0 or b > 67_108_865),
        (13, lambda: len(seeds) != b),
    ]
    return next((n for n, applies in table if applies()), None)


def least_power(x):
    return next(2**e for e in range(99) if 2**e >= x)


def position(m, k, ll, sb, b, seed, h):
    l = min(least_power(m // 2 + 1), 2**k)
    log2_l = next(e for e in range(99) if 2**e == l)
    slices, scale, layouts = m + 1 - l, max(0, log2_l - sb), 2**ll
    o = h * b % 2**64
    offset = o // 2 ** (seed % layouts * (64 // layouts))
    return h * slices // 2**64 + (offset + seed * 2**scale) % l


def run(m, k, ll, sb, b, seeds, h):
    n = number(m, k, ll, sb, b, seeds)
    if n:
        said = f"refused {n}"
    else:
        seed = seeds[h * b // 2**64]
        said = f"at {position(m, k, ll, sb, b, seed, h)}" if seed else "bumped"
    print(m, k, ll, sb, b, len(seeds), h, said)


# listing
THIRD = 0x5555_5555_5555_5555
for h in 2**62, 2**62 + 3, 2**63, 0, THIRD, THIRD + 1, 2 * THIRD, 2 * THIRD + 1, 2**64 - 1:
    run(7, 3, 0, 4, 3, [3, 4, 0], h)

# large_seeds
for h in 2**62 + 3, 2**63, 2**64 - 1:
    run(7, 3, 0, 4, 3, [16, 19, 65535], h)
for h in 0x0123_4567_89AB_CDEF, 0x8765_4321_0FED_CBA9, 0xFEDC_BA98_7654_3210:
    run(2048, 10, 2, 4, 3, [16, 19, 65535], h)

# limits_of_exponents
for k, ll, sb in (
    (3, 0, 1), (3, 0, 2), (3, 0, 16), (3, 0, 17), (3, 4, 4), (3, 3, 4),
    (2, 0, 4), (16, 0, 4), (17, 0, 4), (3, 7, 8), (16, 2, 4), (16, 3, 4),
):  # fmt: skip
    run(7, k, ll, sb, 1, [5], 9)

# limits_of_counts
FOUR, H = [5, 6, 7, 8], 0xFEDC_BA98_7654_3210
for m, k, ll, sb, b, lent in (
    (0, 3, 0, 4, 1, 1), (1, 3, 0, 4, 1, 1),
    (134_217_728, 16, 2, 16, 3, 3), (134_217_729, 16, 2, 16, 3, 3),
    (7, 3, 0, 4, 0, 0), (7, 3, 0, 4, 2, 2), (7, 3, 0, 4, 67_108_865, 4), (7, 3, 0, 4, 67_108_867, 4),
    (7, 3, 0, 4, 3, 0), (7, 3, 0, 4, 3, 2), (7, 3, 0, 4, 3, 3), (7, 3, 0, 4, 3, 4),
    (4103, 3, 0, 4, 1, 1), (4104, 3, 0, 4, 1, 1),
):  # fmt: skip
    run(m, k, ll, sb, b, FOUR[:lent], H)

# two_at_once
for m, k, ll, sb, b in (
    (7, 3, 1, 1, 1), (7, 2, 4, 4, 1), (7, 17, 3, 4, 1), (0, 16, 3, 4, 1),
    (0, 3, 0, 4, 2), (7, 3, 0, 4, 2), (0, 17, 7, 1, 2),
):  # fmt: skip
    run(m, k, ll, sb, b, [5], 9)
