#!/usr/bin/env python3
"""Prints crates/log_table/src/table.rt: entry d is 2^24 * log2(d), rounded to the nearest whole number, and entry 0 is 0.

Whole numbers only. d^(2^25) is squared up in an interval of 96-bit mantissas; t is right when the whole interval lies
between 2^(2t-1) and 2^(2t+1). The script stops at an entry for which that does not decide.
"""
MANTISSA = 96
ENTRIES = 2048


def nearest(d):
    low, high, exponent = d, d, 0
    for _ in range(25):
        low, high, exponent = low * low, high * high, 2 * exponent
        drop = max(0, high.bit_length() - MANTISSA)
        low, high, exponent = low >> drop, (high >> drop) + (drop > 0), exponent + drop
    # low * 2^exponent <= d^(2^25) <= high * 2^exponent
    t = (low.bit_length() + exponent) // 2
    below, above = 2 * t - 1 - exponent, 2 * t + 1 - exponent
    assert (below < 0 or 1 << below < low) and high < 1 << above, f"entry {d} is not decided"
    return t


def main():
    table = [0] + [nearest(d) for d in range(1, ENTRIES)]
    assert table[1] == 0
    assert all(table[d - 1] < table[d] for d in range(2, ENTRIES))
    assert all(table[2 * d] == table[d] + (1 << 24) for d in range(1, ENTRIES // 2))
    print("// The house table: entry d is 2^24 * log2(d), rounded to the nearest whole number, and entry 0 is 0.")
    print("// Made by tools/make-house-table.py in whole numbers, with no floating point.")
    print(f"pub const HOUSE: [u32; {ENTRIES}] = [")
    for entry in table:
        print(f"    {entry},")
    print("];")


main()
