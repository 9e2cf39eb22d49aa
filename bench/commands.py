#!/usr/bin/env python3
"""Times the commands of `minisign_tool` that read data, on a file of 1 GB, in processor time, compared with
`openssl dgst -blake2b512`, `minisign -V` and `b2sum`.

    bench/commands.py [PROGRAM ..]

`verify-raw` reads the file from standard input; `verify`, `cat` and `sign` open it by name. `cat` writes to /dev/null.
`sign` uses an encrypted key, and reads the password from standard input. `verify` must also reject a legacy signature
of the same file; its memory use shows that it does not hold the data in memory. PROGRAM is another build of the program
under another name, for example one made by `rt run --cpu=x86-64-v3 -- x`.

Needs: Python 3.9 or later, coreutils' b2sum, openssl and minisign, which it installs as root on Debian, and the program,
which `rt run -- x` in crates/minisign_tool proves and builds in that crate's directory `out`. It makes its input in a
temporary directory, which needs 1 GB of disk space.
"""

import os
import random
import sys
import tempfile

from timing import TOOL, compare, installed, needs, processor_timed, run, toy

SIZE = 1_000_000_000
PASSWORD = b"password"
LEGACY = "error: Legacy signatures are not accepted\n"


def write_input(path):
    """Writes pseudorandom bytes, which are the same in each run."""
    block = random.Random(1).randbytes(1_000_000)
    with open(path, "wb") as data:
        for _ in range(SIZE // len(block)):
            data.write(block)


def write_files(directory, digest):
    """Writes keys, and signatures of data with this digest, and returns their paths by name."""
    signature = b"ED" + toy.KEYNUM + toy.signature_of(digest)
    legacy = b"Ed" + toy.KEYNUM + bytes(64)
    contents = {
        "raw.pk": b"Ed" + toy.KEYNUM + toy.KEY,
        "raw.sig": signature,
        "key.pk": toy.public_text(),
        "key.sk": toy.sealed_text(PASSWORD),
        "key.sig": toy.signature_text(None, record=signature),
        "legacy.sig": toy.signature_text(None, record=legacy),
        "password": PASSWORD + b"\n",
        "made.sig": b"",
    }
    paths = {name: os.path.join(directory, name) for name in contents}
    for name, content in contents.items():
        with open(paths[name], "wb") as file:
            file.write(content)
    return paths


def tool_runs(tool, files, data):
    """Yields the name and the function of each run of a build of the program."""
    pk, sig = files["key.pk"], files["key.sig"]
    commands = [
        (["verify-raw", files["raw.pk"], files["raw.sig"]], data),
        (["verify", pk, data, sig], None),
        (["cat", pk, data, sig], None),
        (["sign", files["key.sk"], data, files["made.sig"]], files["password"]),
    ]
    for arguments, stdin in commands:
        name = f"{os.path.basename(tool)} {arguments[0]}"
        yield name, lambda value=arguments, stdin=stdin: processor_timed([tool, *value], stdin, os.devnull)
    rejected_command = [tool, "verify", pk, data, files["legacy.sig"]]
    yield f"{os.path.basename(tool)} verify (legacy)", lambda: rejected_timed(rejected_command, LEGACY)


def rejected_timed(command, error):
    """Runs a command that has to fail with this error, and returns its processor time, memory and output."""
    result = run(command)
    if result.status != 1 or not result.output.endswith(error):
        raise SystemExit(f"{command[0]}: exit status {result.status}, expected 1 and {error!r}: {result.output}")
    return result.processor_seconds, result.memory, result.output


def minisign_runs(directory, data):
    """Signs the file with a new key, and returns the run of `minisign -V`."""
    minisign = installed(needs.minisign)
    pk, sk, sig = (os.path.join(directory, name) for name in ("minisign.pub", "minisign.key", "minisig"))
    processor_timed([minisign, "-G", "-W", "-p", pk, "-s", sk])
    processor_timed([minisign, "-S", "-s", sk, "-m", data, "-x", sig])
    return [("minisign -V", lambda: processor_timed([minisign, "-V", "-q", "-p", pk, "-x", sig, "-m", data]))]


def main():
    installed(needs.program, "openssl", "openssl")
    with tempfile.TemporaryDirectory() as directory:
        data = os.path.join(directory, "data")
        write_input(data)
        digest = processor_timed(["b2sum", data])[2].split()[0]
        openssl = ["openssl", "dgst", "-blake2b512", data]
        if processor_timed(openssl)[2].split()[-1] != digest:
            raise SystemExit("b2sum and openssl differ")
        files = write_files(directory, bytes.fromhex(digest))
        compare(
            [run for tool in [TOOL, *sys.argv[1:]] for run in tool_runs(tool, files, data)]
            + [("openssl dgst -blake2b512", lambda: processor_timed(openssl))]
            + minisign_runs(directory, data)
            + [("b2sum", lambda: processor_timed(["b2sum"], data))],
            rounds=5,
        )
        # The signature that `sign` made has to be valid.
        processor_timed([TOOL, "verify", files["key.pk"], data, files["made.sig"]])


if __name__ == "__main__":
    main()
