"""Searches the memory of a Node process for the seed of a secret key, for javascript.py.

Needs Python 3.9 or later, and Linux, which shows the memory of a process in /proc.
"""

import re
import struct
import subprocess

from texts import record_of

# The bytes of the seed in the record of an unencrypted secret key file.
SEED = slice(62, 94)


def needles_of(seed):
    """Returns the byte strings to search for: each half of the seed, and the first half as an array of numbers, as V8 stores it."""
    return [seed[:16], seed[16:], b"".join(struct.pack("<Q", byte << 32) for byte in seed[:16])]


# glibc's malloc aligns the heaps for threads to this size. The first word of such a heap points to its arena, which is
# in a heap at one of these offsets.
ARENA = 64 * 1048576
ARENA_OFFSETS = (0x20, 0x30)
# The maximum number of garbage collections until malloc has few copies.
TRIES = 10


def areas_of(pid):
    """Yields the begin, end and name of the readable memory areas of a process, without those of the kernel."""
    with open(f"/proc/{pid}/maps", encoding="utf-8", errors="replace") as maps:
        for line in maps:
            start, end, mode, name = re.match(r"([0-9a-f]+)-([0-9a-f]+) (\S+) \S+ \S+ \S+ *(.*)", line).groups()
            if mode.startswith("r") and not name.startswith("[v"):
                yield int(start, 16), int(end, 16), name


def is_of_malloc(memory, start, name, address):
    """Returns True if an address is in a heap of malloc. `start` and `name` are those of its memory area. The engine's
    heap is in other areas."""
    base = address - address % ARENA
    if name or base < start:
        return name == "[heap]"
    memory.seek(base)
    return int.from_bytes(memory.read(8), "little") % ARENA in ARENA_OFFSETS


def count_in(pid, needles):
    """Returns how often the needles are in the memory of a process: in heaps of malloc, and elsewhere."""
    counts = {True: 0, False: 0}
    with open(f"/proc/{pid}/mem", "rb", buffering=0) as memory:
        for start, end, name in areas_of(pid):
            try:
                memory.seek(start)
                piece = memory.read(end - start)
            except (OSError, OverflowError):
                continue  # A guard page, or an area that was unmapped meanwhile.
            for match in (match for needle in needles for match in re.finditer(re.escape(needle), piece)):
                counts[is_of_malloc(memory, start, name, start + match.start())] += 1
    return counts[True], counts[False]


def search(command, directory, environment, most_freed):
    """Runs heap.mjs, and searches for the seed while the key is in use and after it was cleared. Returns the counts of
    `count_in` for both. After clearing, garbage is collected until malloc has at most `most_freed` copies."""
    process = subprocess.Popen(command, stdin=subprocess.PIPE, stdout=subprocess.PIPE, cwd=directory, env=environment)
    try:
        text = process.stdout.readline() + process.stdout.readline()
        needles = needles_of(record_of(text)[SEED])
        in_use = cleared = count_in(process.pid, needles)
        for _ in range(TRIES):
            process.stdin.write(b"\n")
            process.stdin.flush()
            if process.stdout.readline() != b"cleared\n":
                raise ValueError(f"{command} did not clear the key")
            cleared = count_in(process.pid, needles)
            if cleared[0] <= most_freed:
                break
        return in_use, cleared
    finally:
        process.kill()
        process.wait()
