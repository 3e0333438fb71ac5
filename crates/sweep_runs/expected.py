#!/usr/bin/env python3
"""Makes the file `stdout` of this program from document 01's words alone: every candidate of rule S is tried against a set of taken slots."""
import sys
from pathlib import Path

sys.path.insert(0, str(Path(__file__).resolve().parents[2] / "tools"))
from document01 import HOUSE, WORD, Geometry, How, Settings, counts, number, sweep

KEPT = 999
ZERO = [0] * 7
ALL = 15200


def case(s, weights, bump, hashes, begins, table, seeds, bitmap, work, chunks=1):
    how = How(bump, chunks)
    given, marked, zeros = [KEPT] * 6, [KEPT] * 4, 0
    said = number(s, weights, how, hashes, begins, table, seeds, bitmap, work)
    if said:
        answer = f"refused {said}"
    else:
        g = Geometry(s)
        groups = [hashes[x:y] for x, y in zip(begins, begins[1:])]
        stopped, found, taken = sweep(g, weights, how, groups, table)
        if stopped is None:
            answer = "done {} {} {}".format(*counts(groups, found))
        else:
            answer = f"refused 14 {stopped}"
        given[:seeds] = found
        marked[:bitmap] = [sum(2 ** (i % 64) for i in taken if i // 64 == w) for w in range(bitmap)]
        zeros = g.work(max(map(len, groups)))
    print(*s, int(bump), chunks, len(hashes), len(begins), len(table), seeds, bitmap, work, end=" ")
    print(answer, "seeds", *given, "bitmap", *marked, "work", zeros, ALL)


# 1 to 7
def weighed(m, slice_len, ll, sb, buckets, w):
    case(Settings(m, slice_len, ll, sb, buckets), [w] + ZERO[1:], True, [0], [0, 1], HOUSE, 1, 1, ALL)


def settings(*s):
    weighed(*s, 0)


for slice_len, ll, sb in (
    (3, 0, 1), (3, 0, 2), (3, 0, 16), (3, 0, 17), (3, 4, 4), (3, 3, 4), (2, 0, 4), (3, 0, 4), (16, 0, 4), (17, 0, 4),
    (16, 2, 4), (16, 3, 4), (4, 4, 5), (5, 4, 5), (3, 7, 8),
):  # fmt: skip
    settings(7, slice_len, ll, sb, 1)
for m, buckets in (
    (0, 1), (1, 1), (134_217_728, 67_108_865), (134_217_729, 67_108_865), (7, 0), (7, 2), (7, 67_108_867), (4103, 1),
    (4104, 1),
):  # fmt: skip
    settings(m, 3, 0, 4, buckets)
settings(7, 3, 1, 1, 1)
settings(7, 2, 4, 4, 1)
settings(7, 17, 2, 4, 1)
settings(0, 16, 3, 4, 1)
settings(0, 3, 0, 4, 0)
settings(134_217_728, 3, 0, 4, 2)
weighed(4104, 3, 0, 4, 1, 2**32 + 1)

# 8, 20 and 9 to 14
ONE, THREE = Settings(7, 3, 0, 4, 1), Settings(7, 3, 0, 4, 3)
TOP = 2**32
for weights in (
    [TOP, 0, 0, 0, 0, 0, -TOP], [-TOP, 0, 0, 0, 0, 0, TOP], [TOP + 1] + ZERO[1:], [-TOP - 1] + ZERO[1:],
    ZERO[1:] + [TOP + 1], ZERO[1:] + [-TOP - 1], [0, 0, 0, 1 - 2**63, 0, 0, 0],
):  # fmt: skip
    case(ONE, weights, True, [0], [0, 1], HOUSE, 1, 1, 2883)

for chunks, first, begins in (
    (0, 0, [0, 1]), (1, 0, [0, 1]), (2, 0, [0, 1]), (WORD - 1, 0, [0, 1]), (0, TOP + 1, [0, 1]), (0, 0, [0]), (1, 0, [0]),
):  # fmt: skip
    case(ONE, [first] + ZERO[1:], True, [0], begins, HOUSE, 1, 1, 2883, chunks)


def one(hashes, begins):
    case(ONE, ZERO, True, hashes, begins, HOUSE, 1, 1, ALL)


def three(hashes, begins):
    case(THREE, ZERO, True, hashes, begins, HOUSE, 3, 1, ALL)


KEYS = [0, 0x6000_0000_0000_0000, 0xB000_0000_0000_0000]
for begins in (
    [0, 1, 2, 3], [0, 1, 2], [0, 1, 2, 3, 3], [], [1, 1, 2, 3], [0, 2, 1, 3], [0, 1, 4, 3], [0, 1, 2, 2], [0, 1, 2, 4],
):  # fmt: skip
    three(KEYS, begins)
three([KEYS[0], KEYS[2]], [0, 1, 1, 2])
three([], [0, 0, 0, 0])

one([0] * 4096, [0, 4096])
one([0] * 4097, [0, 4097])
one([0] * 4096, [0, 4097])
three([0] * 4097, [0, 0, 4097, 4097])

THIRD = (WORD - 1) // 3
three([0, THIRD], [0, 2, 2, 2])
three([THIRD + 1, 2 * THIRD], [0, 0, 2, 2])
three([2 * THIRD + 1, WORD - 1], [0, 0, 0, 2])
three([THIRD + 1], [0, 1, 1, 1])
three([THIRD], [0, 0, 1, 1])
three([2 * THIRD + 1], [0, 0, 1, 1])
three([2 * THIRD], [0, 0, 0, 1])
three([0, 1, THIRD + 1], [0, 3, 3, 3])


def priced(table):
    case(ONE, ZERO, True, [0], [0, 1], table, 1, 1, 2883)


priced(HOUSE[:104])
priced(HOUSE[:103])
priced([])
priced([5] * 104)
priced(HOUSE[:104] + [0] + HOUSE[105:])
priced(HOUSE[:103] + [0, 0] + HOUSE[105:])
priced([1] + HOUSE[1:103] + [10**9, 0] + HOUSE[105:])

for seeds, bitmap, work in (1, 1, 2886), (1, 1, 2885), (1, 1, 0), (0, 1, 2886), (2, 1, 2886), (1, 0, 2886), (1, 2, 2886):
    case(ONE, ZERO, True, [0, 2**62 + 3], [0, 2], HOUSE, seeds, bitmap, work)

for bump in True, False:
    keys = [1, 1, KEYS[1], KEYS[2], KEYS[2], KEYS[2] + 1]
    case(THREE, [9000, 0, 5000, 0, 0, 0, 0], bump, keys, [0, 2, 3, 6], HOUSE, 3, 1, 3000)
    case(THREE, [9000, 0, 0, 0, 0, 0, 0], bump, keys, [0, 2, 3, 6], HOUSE, 3, 1, 3000)
    case(ONE, ZERO, bump, [0, 0], [0, 2], HOUSE, 1, 1, 2886)

case(ONE, [0, TOP + 1, 0, 0, 0, 0, 0], True, [0], [0], HOUSE, 1, 1, 2883)
case(THREE, ZERO, True, [0], [0, 0, 1, 1], HOUSE[:101], 3, 1, 2883)
case(ONE, ZERO, True, [0], [0, 1], HOUSE[:103], 1, 1, 2882)
case(ONE, ZERO, False, [0, 0], [0, 2], HOUSE, 1, 1, 2885)


# the sheets
def one_bucket(m, sb, bump, hashes):
    case(Settings(m, 3, 0, sb, 1), ZERO, bump, hashes, [0, len(hashes)], HOUSE, 1, 1, 3000)


one_bucket(7, 4, True, [0])
one_bucket(7, 4, True, [0, 2**62 + 3])
one_bucket(7, 4, True, [0, 0])
one_bucket(7, 4, False, [0, 0])
one_bucket(7, 4, False, [0, 2**62 + 3])
one_bucket(7, 2, True, [0])
one_bucket(1, 4, True, [0])
for w in 0, 2048:
    case(THREE, [w] + ZERO[1:], True, [2**62, 2**62 + 3, 2**63], [0, 2, 3, 3], HOUSE, 3, 1, 3000)
one_bucket(7, 4, False, [])
MANY = [
    0x0123_4567_89AB_CDEF, 0x1111_2222_3333_4444, 0x2468_ACE0_1357_9BDF, 0x3000_0000_0000_0001, 0x4002_0600_0810_0A0C,
    0x5F5F_1E1E_2D2D_3C3C, 0x6666_7777_8888_9999, 0x7654_3210_FEDC_BA98, 0x8000_0000_0000_0000, 0x8FFF_FFFF_FFFF_FFFF,
    0xA5A5_5A5A_A5A5_5A5A, 0xA5A5_5A5A_A5A5_5A5A, 0xD1D2_D3D4_D5D6_D7D8, 0xE0E1_E2E3_E4E5_E6E7, 0xFEDC_BA98_7654_3210,
]  # fmt: skip
for bump in True, False:
    case(Settings(130, 5, 1, 4, 5), [500, 1500, 2500, 3500, 4500, 5500, 6500], bump, MANY, [0, 4, 6, 10, 12, 15], HOUSE, 5, 3, 4000)
