#!/usr/bin/env python3
"""Times the library when it is compiled from C (dist/calls.c), compared with the machine code in the archives of dist/, with
libsodium, and with Minisign's own program.

    bench/as_c.py [TURNS]

The jobs are hashing, by functions of the library and by `minisign -V`, and decrypting a key with the limits of
`minisign -G`, by a function of the library and by `minisign -S`. All programs take turns; TURNS is the number of turns. The
table has the minimum processor time, and the median ratio to the archives within a turn. The last lines compare the C with
the goal and with libsodium's portable BLAKE2b. docs/PERFORMANCE.md has the results.

Needs: Python 3.9 or later, make, binutils, gcc, clang, libsodium with its header, minisign, and 1.1 GB of memory.
"""

import os
import statistics
import subprocess
import sys
import tempfile

from timing import installed, measured

# From the tests; `timing` adds their directory to the path.
import needs
import static_library

HERE = os.path.dirname(os.path.realpath(__file__))
# The default number of turns, and the size of the data to hash, in MiB.
TURNS, DATA_MIB = 5, 384
# The speed that the C should have, relative to the archives.
GOAL = 0.65
ARCHIVES, GCC, CLANG, PLAIN = "the archives", "C by gcc", "C by clang", "libsodium without vectors"
# The libraries by name, with the arguments with which make builds them. ARCHIVES has an archive for each kind of processor,
# and chooses one at run time. In the second library, the archive for x86-64-v2 is used in place of the one for x86-64-v3.
LIBRARIES = {ARCHIVES: [], "the archive for x86-64-v2": [f"V3={static_library.DIST}/calls-x86-64-v2.a"], GCC: ["PORTABLE=1"],
             CLANG: ["PORTABLE=1", "CC=clang"]}


def build(directory, name, make_arguments):
    """Builds the library, and with it as_c.c, which hashes, usual_keys.c, which decrypts a key that has the limits of
    `minisign -G`, and `c/minisign`. Returns their directory."""
    output = os.path.join(directory, name.replace(" ", "-"))
    compiler = installed(needs.compiler_with_libsodium)
    static_library.run_make(f"OUT={output}", f"CC={compiler}", *make_arguments)
    for program in ("as_c", "usual_keys"):
        subprocess.run([compiler, "-O2", "-I", os.path.join(HERE, "..", "include"), "-o", f"{output}/{program}",
                        os.path.join(HERE, f"{program}.c"),
                        f"{output}/libminisign.a", "-lsodium"], check=True)
    return output


def seconds_of(*command):
    """Returns the processor seconds that as_c (its first number) or usual_keys (its second number) prints."""
    words = subprocess.run(command, stdout=subprocess.PIPE, check=True).stdout.split()
    return float(words[0] if "as_c" in command[0] else words[1])


def jobs(directory):
    """Returns the functions to time: for each job, a dictionary with a function for each library or program. Calling it
    runs the job once and returns the processor seconds."""
    outputs = {name: build(directory, name, words) for name, words in LIBRARIES.items()}
    minisign, archives_output = installed(needs.minisign), outputs[ARCHIVES]
    password_file, key, data, large = (os.path.join(directory, name) for name in ("typed", "sealed.key", "data", "large"))
    with open(password_file, "w", encoding="ascii") as file:
        file.write("a password\n" * 2)
    with open(data, "wb") as file:
        file.write(b"data\n")
    with open(large, "wb") as file:
        file.write(bytes(range(256)) * (DATA_MIB * 4096))
    measured([minisign, "-G", "-p", f"{key}.pub", "-s", key], password_file)
    measured([minisign, "-S", "-s", key, "-m", large], password_file)
    signing, verifying = ("-S", "-s", key, "-m", data), ("-V", "-q", "-p", f"{key}.pub", "-m", large)
    programs = {**{name: f"{output}/minisign" for name, output in outputs.items()}, "Minisign": minisign}
    return {
        f"hashing {DATA_MIB} MiB": {
            **{name: (lambda output=output: seconds_of(f"{output}/as_c", "library", str(DATA_MIB)))
               for name, output in outputs.items()},
            "libsodium": lambda: seconds_of(f"{archives_output}/as_c", "sodium", str(DATA_MIB)),
            PLAIN: lambda: seconds_of(f"{archives_output}/as_c", "plain", str(DATA_MIB)),
        },
        f"`-V` of {DATA_MIB} MiB": {
            name: (lambda program=program: measured([program, *verifying]).processor_seconds)
            for name, program in programs.items()
        },
        "a call that decrypts a key": {
            **{name: (lambda output=output: seconds_of(f"{output}/usual_keys", "open", key)) for name, output in outputs.items()},
            "libsodium's derivation": lambda: seconds_of(f"{archives_output}/usual_keys", "sodium"),
        },
        "`-S` with that key": {
            name: (lambda program=program: measured([program, *signing], password_file).processor_seconds)
            for name, program in programs.items()
        },
    }


def speed(seconds, reference_seconds):
    """Returns the speed relative to another program: the median, over the turns, of `reference_seconds` divided by `seconds`."""
    return statistics.median(reference / own for own, reference in zip(seconds, reference_seconds))


def main():
    turns = int(sys.argv[1]) if len(sys.argv) > 1 else TURNS
    with tempfile.TemporaryDirectory() as directory:
        timings = jobs(directory)
        results = {name: {implementation: [] for implementation in timed} for name, timed in timings.items()}
        for _ in range(turns):
            for name, timed in timings.items():
                for implementation, time in timed.items():
                    results[name][implementation].append(time())
    print("| Job | By | Processor time | Speed relative to the archives |\n|---|---|---|---|")
    for name, times in results.items():
        for implementation, seconds in times.items():
            print(f"| {name} | {implementation} | {min(seconds):.2f} s | {speed(seconds, times[ARCHIVES]):.2f} |")
    print()
    for name, times in results.items():
        for implementation in (GCC, CLANG):
            relative_speed = speed(times[implementation], times[ARCHIVES])
            print(f"{name}, {implementation}: {relative_speed:.2f} of the speed of the archives; the goal is {GOAL}")
    hashing = results[f"hashing {DATA_MIB} MiB"]
    for implementation in (GCC, CLANG):
        relative_time = 1 / speed(hashing[implementation], hashing[PLAIN])
        print(f"{implementation} takes {relative_time:.2f} of the time of libsodium's portable BLAKE2b")


if __name__ == "__main__":
    main()
