"""The two directions of tools/sweep-text. It checks what the text form needs, and leaves every refusal to the program."""
import sys

SETTINGS = ['m', 'log2_slice_len', 'll', 'sb', 'bump', 'weights']

# As many as a text may ask for by their number; the program itself takes 64.
MOST_BUCKETS = 65536


def stop(what):
    sys.exit(f'sweep-text: {what}')


def number(word, low, high, where):
    try:
        n = int(word, 0)
    except ValueError:
        n = None
    if n is None or not low <= n <= high or '_' in word:
        stop(f'{where}: expected a number from {low} to {high}, decimal or 0x.., and found {word!r}')
    return n


def natural(word, where):
    return number(word, 0, 2**64 - 1, where)


def folded(w):
    return 2 * w if w >= 0 else -2 * w - 1


def unfolded(n):
    return -(n // 2) - 1 if n % 2 else n // 2


def encoded(n):
    groups = bytearray()
    while n >= 128:
        groups.append(128 + n % 128)
        n //= 128
    groups.append(n)
    return groups


def lines_of(text):
    """Each line that says something: where it stands, its name and its words."""
    for at, line in enumerate(text.split('\n'), 1):
        words = line.split('#')[0].split()
        if words:
            yield f'line {at}', words[0], words[1:]


def counted(name, values, count, where):
    if len(values) != count:
        stop(f'{where}: expected {count} number{"s"[count < 2:]} after {name!r} and found {len(values)}')


def setting(name, values, where):
    """The numbers of one line of the settings."""
    counted(name, values, 7 if name == 'weights' else 1, where)
    if name == 'weights':
        return [folded(number(word, -2**63, 2**63 - 1, where)) for word in values]
    return [natural(word, where) for word in values]


def grouped(lines):
    """The buckets' hashes, from one line a bucket or from a count of buckets and lines of keys."""
    buckets, keys = [], False
    for at, (where, name, values) in enumerate(lines):
        wanted = ['keys'] if keys else ['bucket', 'buckets'][:2 - (at > 0)]
        if name not in wanted:
            stop(f'{where}: expected {" or ".join(map(repr, wanted))} and found {name!r}')
        if name == 'buckets':
            counted(name, values, 1, where)
            keys, buckets = True, [[] for _ in range(number(values[0], 1, MOST_BUCKETS, where))]
        elif name == 'bucket':
            buckets.append([natural(word, where) for word in values])
        else:
            for word in values:
                key = natural(word, where)
                buckets[key * len(buckets) >> 64].append(key)
    return buckets


def encode(text):
    numbers, lines, where = [], lines_of(text), 'line 0'
    for wanted in SETTINGS:
        where, name, values = next(lines, (where, None, []))
        if name is None:
            stop(f'after {where}: expected {wanted!r} and found the end')
        if name != wanted:
            stop(f'{where}: expected {wanted!r} and found {name!r}')
        numbers += setting(name, values, where)
    buckets = grouped(lines)
    numbers.append(len(buckets))
    for hashes in buckets:
        numbers += [len(hashes)] + hashes
    return b''.join(encoded(n) for n in numbers)


def decoded(data):
    """Each number with the place of its first byte."""
    value, shift, first = 0, 0, 0
    for at, byte in enumerate(data):
        value += (byte % 128) << shift
        shift += 7
        if value >= 2**64 or (byte >= 128 and shift == 70):
            stop(f'byte {first}: expected a number of at most ten groups and 64 bits')
        if byte < 128:
            yield first, value
            value, shift, first = 0, 0, at + 1
    if shift:
        stop(f'byte {first}: expected the rest of a number and found the end')


def decode(data):
    numbers = decoded(data)

    def take(what):
        for _, n in numbers:
            return n
        stop(f'byte {len(data)}: expected {what} and found the end')

    lines = [f'{name} {take(name)}' for name in SETTINGS[:-1]]
    lines.append(' '.join(['weights'] + [str(unfolded(take('a weight'))) for _ in range(7)]))
    for b in range(take('the number of buckets')):
        keys = take(f'the key count of bucket {b}')
        hashes = []
        while len(hashes) < keys:
            hashes.append(take(f'a hash of bucket {b}'))
        lines.append(' '.join(['bucket'] + [f'0x{h:016x}' for h in hashes]))
    for at, _ in numbers:
        stop(f'byte {at}: expected the end and found another number')
    return '\n'.join(lines) + '\n'


if sys.argv[1:] == ['encode']:
    try:
        text = sys.stdin.buffer.read().decode()
    except UnicodeDecodeError as error:
        stop(f'byte {error.start}: expected text in UTF-8')
    sys.stdout.buffer.write(encode(text))
elif sys.argv[1:] == ['decode']:
    sys.stdout.write(decode(sys.stdin.buffer.read()))
else:
    stop('usage: tools/sweep-text encode|decode')
