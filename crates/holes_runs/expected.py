#!/usr/bin/env python3
"""Makes the file `stdout` of this program from document 01's words alone: each slot below m is looked up by itself."""

NONE, ALL = [0] * 3, [2**64 - 1] * 3
SOME = [0x8000_0000_FFFF_7FFE, 0x7FFF_FFFF_0000_0001, 0]


def answer(m, bitmap, room):
    if not 1 <= m <= 134_217_728:
        return "refused 5", []
    if 64 * len(bitmap) - m not in range(64):
        return "refused 13", []
    holes = [i for i in range(m) if bitmap[i // 64] // 2 ** (i % 64) % 2 == 0]
    if len(holes) > room:
        return "refused 15", []
    return f"holes {len(holes)}", holes


def case(m, bitmap, room):
    said, written = answer(m, bitmap, room)
    buffer = written + [999] * (room - len(written))
    print(m, len(bitmap), room, said, "buffer", *buffer)


for m, words in (1, 1), (63, 1), (64, 1), (65, 2), (127, 2), (128, 2):
    for room in m - 1, m, m + 1:
        case(m, NONE[:words], room)
    case(m, ALL[:words], 0)
    case(m, ALL[:words], 2)
    case(m, SOME[:words], 70)
    case(m, NONE[: words - 1], m)
    case(m, NONE[: words + 1], m)
    case(m, NONE[: words + 1], 0)
case(0, [], 4)
case(0, [0], 4)
case(134_217_729, [0], 4)
case(134_217_729, [0], 0)
case(134_217_728, [0], 4)
