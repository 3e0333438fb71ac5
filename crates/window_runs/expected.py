#!/usr/bin/env python3
"""Writes what window_runs must write: rule W of document 01, read off by a scan of the whole window at every turn."""


def following(x):
    return (x * 1103515245 + 12345) % 2147483648


def size(x, kind):
    r = x // 8 % 1000
    if kind == 0:
        return r % 9
    if kind == 1:
        return r % 200
    if kind == 2:
        return 0 if r < 600 else 60 + r % 8
    if kind == 3:
        return 0 if r < 970 else 1 + r % 97
    return 4096 - r if r < 20 else r % 70


def weight_of(x, kind):
    r = x // 8 % 3
    if kind == 0:
        return [0, 1024, 2048][r]
    if kind == 1:
        return [-51234, 777, 60000][r]
    return [2**32, 0, -(2**32)][r]


def made(seed, count, f):
    out, x = [], seed
    for _ in range(count):
        x = following(x)
        out.append(f(x))
    return out


def weight(weights, size):
    if size <= 7:
        return weights[size - 1]
    return max(-(2**40), min(2**40, (weights[6] - weights[5]) * (size - 7) + weights[6]))


def order(sizes, weights, lo, hi):
    untaken = [b for b in range(lo, hi) if sizes[b] > 0]
    out = []
    while untaken:
        o = untaken[0]
        window = [b for b in untaken if b <= o + 255]
        first = max(window, key=lambda b: (weight(weights, sizes[b]) - 1024 * b, -(b % 1024)))
        untaken.remove(first)
        out.append(first)
    return out


cases = [(seed, kind, 0, 1400) for seed in range(3) for kind in range(5)]
cases += [(3, 4, 300, 1300), (4, 0, 1000, 1050), (5, 1, 7, 7)]
for seed, kind, lo, hi in cases:
    sizes = made(seed, 1400, lambda x: size(x, kind))
    weights = made(seed, 7, lambda x: weight_of(x, (seed + kind) % 3))
    print(f"{seed} {kind}:" + "".join(f" {b}" for b in order(sizes, weights, lo, hi)))
