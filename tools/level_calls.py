"""The library's calls on level files over a pipe: what tools/level-file-cases.c takes and gives."""
import os
import struct
import subprocess
from pathlib import Path

ROOT = Path(__file__).resolve().parent.parent
LENT = 0x5A  # what lent memory is filled with before a call


def u64s(*numbers):
    return struct.pack(f"<{len(numbers)}Q", *numbers)


def u32s(*numbers):
    return struct.pack(f"<{len(numbers)}I", *numbers)


def u16s(*numbers):
    return struct.pack(f"<{len(numbers)}H", *numbers)


def read_call(data, seed_room, hole_room):
    return b"R" + u64s(len(data)) + data + u64s(seed_room, hole_room)


def write_call(s, seeds, holes, room):
    return b"W" + u64s(*s, len(seeds)) + u16s(*seeds) + u64s(len(holes)) + u32s(*holes) + u64s(room)


def built():
    """The program, compiled with the library in the folder that PHASTR_LIB names, or else tools/library's."""
    folder = os.environ.get("PHASTR_LIB")
    if not folder:
        folder = subprocess.run([ROOT / "tools/library"], check=True, stdout=subprocess.PIPE, text=True).stdout.strip()
    program, source, library = ROOT / "target/c/level-file-cases", ROOT / "tools/level-file-cases.c", Path(folder, "libphastr.a")
    inputs = (source, library, ROOT / "include/phastr.h")
    if not program.exists() or any(file.stat().st_mtime > program.stat().st_mtime for file in inputs):
        program.parent.mkdir(parents=True, exist_ok=True)
        words = ["-std=c99", "-O2", "-g", "-pedantic", "-Wall", "-Wextra", "-Werror", f"-I{ROOT / 'include'}"]
        subprocess.run(["cc", *words, source, library, "-o", program], check=True)
    return str(program)
