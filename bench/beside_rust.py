#!/usr/bin/env python3
"""Times the same jobs with the Rust crate minisign 0.10.0 and with this library, taking turns.

    bench/beside_rust.py UPSTREAM [ROUNDS]

UPSTREAM is the directory of the crate's own files. compare/oracle/build.sh builds the crate with simple replacements for the crates
`scrypt` and `ct_codecs`, so the job `open` compares with simple Rust code and not with the crate `scrypt`. The jobs are those of
bench/library_bench (build_library_bench.py builds the program) and of beside_rust.rs, which this script builds with full
optimization for the processor that `rt run` builds for. The time is the minimum processor time (user and system) of ROUNDS
runs, by default 5. The script stops if the two programs print different results.

Needs Python 3.9 or later and rustc, which it installs if it has permission.
"""

import hashlib
import os
import subprocess
import sys
import tempfile

from timing import HERE, installed, needs, run, toy

OURS = os.path.join(HERE, "out", "library_bench")
TARGET = "-C opt-level=3 -C target-cpu=x86-64-v2"
MEGABYTE = 1 << 20


def built(upstream, directory):
    """Builds the Rust program with the crate, and returns its path."""
    rustc = installed(needs.first_rust_compiler)
    environment = dict(os.environ, OPT=TARGET, RUSTC=rustc)
    build = os.path.join(HERE, "..", "compare", "oracle", "build.sh")
    subprocess.run(["sh", build, upstream, directory], check=True, env=environment, stdout=subprocess.DEVNULL)
    lib = os.path.join(directory, "lib")
    program = os.path.join(directory, "beside_rust")
    subprocess.run([rustc, "--edition", "2021", *TARGET.split(), "-L", lib, "--extern",
                    f"minisign={lib}/libminisign.rlib", "-o", program,
                    os.path.join(HERE, "beside_rust.rs")], check=True)
    return program


def write(directory, name, data):
    with open(os.path.join(directory, name), "wb") as file:
        file.write(data)


def prepare(directory):
    """Writes the files of the jobs."""
    block = toy.some_data(16 * MEGABYTE)
    large = os.path.join(directory, "large")
    hasher = hashlib.blake2b()
    with open(large, "wb") as file:
        for _ in range(64):
            file.write(block)
            hasher.update(block)
    write(directory, "large.sig", toy.signature_text(b"", record=b"ED" + toy.KEYNUM + toy.signature_of(hasher.digest())))
    write(directory, "part", block * 4)
    write(directory, "key.pub", toy.public_text())
    write(directory, "plain.key", toy.secret_text())
    write(directory, "sealed.key", toy.sealed_text(b"p"))
    write(directory, "strong.key", toy.secret_text(toy.KEY_A.sealed(b"p", toy.Limits(1 << 30, 1 << 25, 1 << 20, 1)), b"c"))
    small = toy.some_data(1000)
    write(directory, "small.sig", toy.signature_text(small))
    for number in range(1000):
        write(directory, str(number), small)


# Each job's name in the table, its arguments, and the most rounds.
JOBS = [
    ("hashing 1 GiB in memory", ["hash", "part", "16"], 9),
    ("verifying a file of 1 GiB", ["verify", "key.pub", "large.sig", "large"], 9),
    ("signing a file of 1 GiB", ["sign", "plain.key", "large"], 9),
    ("opening a key, N 2^15", ["open", "sealed.key", "p"], 9),
    ("opening a key, N 2^20", ["open", "strong.key", "p"], 3),
    ("reading 1,000,000 key texts", ["keys", "key.pub", "1000000"], 9),
    ("reading 1,000,000 signature texts", ["signatures", "small.sig", "1000000"], 9),
    ("verifying 20,000 small files", ["small", "key.pub", "small.sig", "20"], 9),
]


def job(program, arguments, directory):
    """Runs a job, and returns its processor time in seconds and its output."""
    result = run([os.path.abspath(program), *arguments], directory=directory)
    if result.status != 0:
        raise SystemExit(f"{program} {arguments}: exit status {result.status}: {result.output}")
    return result.processor_seconds, result.output


def main():
    rounds = int(sys.argv[2]) if len(sys.argv) > 2 else 5
    with tempfile.TemporaryDirectory() as build, tempfile.TemporaryDirectory() as directory:
        rust_program = built(sys.argv[1], build)
        prepare(directory)
        print("| Job | Rust crate | Here | Ratio |\n|---|---|---|---|")
        for name, arguments, max_rounds in JOBS:
            best_times = [float("inf"), float("inf")]
            for _ in range(min(rounds, max_rounds)):
                (rust_time, expected), (our_time, output) = job(rust_program, arguments, directory), job(OURS, arguments, directory)
                if output != expected:
                    raise SystemExit(f"{name}: this library printed {output!r}, the crate {expected!r}")
                best_times = [min(best_times[0], rust_time), min(best_times[1], our_time)]
            print(f"| {name} | {best_times[0]:.2f} s | {best_times[1]:.2f} s | {best_times[1] / best_times[0]:.2f} |", flush=True)


if __name__ == "__main__":
    main()
