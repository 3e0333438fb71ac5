"""The library's functions from Python: the archive that tools/library makes, linked into a shared object with cc."""
import ctypes
import re
import subprocess
from pathlib import Path

ROOT = Path(__file__).resolve().parent.parent
WORD = 2**64
KEPT = WORD - 7


def opened():
    folder = subprocess.run([ROOT / "tools" / "library"], check=True, stdout=subprocess.PIPE, text=True).stdout.split()[-1]
    shared = ROOT / "target" / "shared" / "libphastr.so"
    shared.parent.mkdir(parents=True, exist_ok=True)
    whole = ["-Wl,--whole-archive", f"{folder}/libphastr.a", "-Wl,--no-whole-archive"]
    subprocess.run(["cc", "-shared", "-o", shared, *whole], check=True)
    loaded = ctypes.CDLL(str(shared))
    loaded.phastr_sweep.restype = loaded.phastr_check_level.restype = ctypes.c_uint64
    return loaded


def lent(kind, values):
    """A slice as pointer and length; a pointer is good for an empty slice too."""
    return (kind * max(len(values), 1))(*values), ctypes.c_size_t(len(values))


def numbers(s):
    return [ctypes.c_uint64(n % WORD) for n in s]


def check_level(lib, s, hashes, begins, seeds, bitmap, scratch):
    """The number, the bucket or None where it is kept, and the scratch afterwards."""
    bucket, room = ctypes.c_uint64(KEPT), lent(ctypes.c_uint64, scratch)
    said = lib.phastr_check_level(
        *numbers(s), *lent(ctypes.c_uint64, hashes), *lent(ctypes.c_uint32, begins), *lent(ctypes.c_uint16, seeds),
        *lent(ctypes.c_uint64, bitmap), *room, ctypes.byref(bucket))
    return said, None if bucket.value == KEPT else bucket.value, list(room[0])[: len(scratch)]


def words(number):
    """What include/phastr.h says of a number (phastr_number_words)."""
    header = (ROOT / "include" / "phastr.h").read_text()
    name = re.search(rf"^    (PHASTR_\w+) = {number}\b", header, re.M)[1]
    said = re.search(rf"case {name}:.*?return (.*?);\n", header, re.S)[1]
    return "".join(re.findall(r'"([^"]*)"', said))
