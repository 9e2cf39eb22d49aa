#!/usr/bin/env python3
"""Proves with z3 that the translator from WebAssembly to C translates each instruction correctly. The translator,
`tools/wasm_to_c.py`, has a table with the C expression for each instruction; the expressions use
`c/library/portable/machine.h`.

    tests/c/instruction_proofs.py

For each row of the table, the translator writes a function, clang compiles it to LLVM IR with -O2, and
instruction_prover.py reads the IR. z3 must prove, for all operands and all memory, that the function returns and stores
what the WebAssembly specification says, that it ends the program exactly if the instruction traps, and that it has
no undefined behaviour otherwise. Shifts by a constant, which the translator writes differently, are proved for each
distance. Loads and stores are proved for both forms of machine.h. The C expression of each row must also have the
type of its value, because the translator uses it in longer expressions.

To show that the proofs find mistakes, the script tries wrong rows and the mutants in machine_mutants, which must
not be proved.

The proofs do not cover control flow, local variables, the stack, the data, `copy` and `fill`, the later passes of
clang, and other compilers. wasm_translation.py tests these. The script prints a line for each failure; the last line is
`N passed, M failed`.

Needs clang and Debian's Python with z3; missing packages are installed if that is permitted.
"""

import functools
import json
import os
import random
import re
import sys
import tempfile
from unittest import mock

HERE = os.path.dirname(os.path.realpath(__file__))
TOP = os.path.dirname(os.path.dirname(HERE))
sys.path += [os.path.join(TOP, *each) for each in (("tests", "shared"), ("tools",))]

import needs
import test_script
import wasm_translation
import wasm_to_c
from mutants import applied_to, mutants_of
from process import run
from running import write
from static_library import run_or_fail

PROVER = os.path.join(HERE, "instruction_prover.py")
SHIFTS = ("shl", "shr_u", "shr_s")
# The two forms of loads and stores in machine.h: one byte at a time, or all bytes at once.
FORMS = ("-DHAS_UNALIGNED_ACCESS=0", "-DHAS_UNALIGNED_ACCESS=1")
# The offsets that the functions of wasm_translation.py add to the addresses of loads and stores.
OFFSETS = {"load": 3, "store": 5}

# Wrong rows. The first two are wrong for a single operand. The next two have undefined behaviour for some operands,
# although an x86-64 processor may compute the right value. The next three do not trap when the instruction does, or
# the reverse. The last two access memory.
WRONG_ROWS = {
    "i64.add": "a + b + (a == UINT64_C(0x0123456789abcdef))",
    "i64.popcnt": "popcnt64(a) ^ (u64) (a == UINT64_C(0xfedcba9876543210))",
    "i32.shl": "a << b",
    "i64.shr_u": "a >> b",
    "i32.div_s": "(u32) div_s64(sign32(a), sign32(b))",
    "i64.rem_s": "rem_s64(a, b) + 0 * div_s64(a, b)",
    "i64.div_u": "b == 0 ? 0 : a / b",
    "i32.store16": "store32(a, b)",
    "i64.load32_s": "(u64) load32(a)",
}
# Rows with the right value and the wrong type in C.
WRONG_TYPES = {"i64.extend_i32_u": "a", "i32.wrap_i64": "a", "i64.load8_u": "load8(a)"}
# Mutants of machine.h that change only `copy`, `fill` and the stack, and therefore no row.
NO_ROW_CHANGED = ("copy_runs_forwards", "fill_keeps_seven_bits", "stack_is_not_aligned")


@functools.lru_cache(maxsize=None)
def python():
    """Returns the path of Debian's Python with z3."""
    path = os.path.join(needs.DEBIAN_PROGRAMS, "python3")
    return needs.need(lambda: path if os.path.exists(path) and run([path, "-c", "import z3"])[0] == 0 else None,
                      "Debian's Python with z3", "python3-z3")


# ---- The functions ----


def rows_and_module(has_constants):
    """Returns the rows in the form of ROWS.json for instruction_prover.py, and a module with a function for each row.
    With has_constants, there are also rows and functions for each shift by a constant."""
    module = wasm_translation.Module()
    wasm_translation.add_numbers(module, random.Random(0))
    # The calls that this generator yields are not needed here.
    list(wasm_translation.add_memory(module, random.Random(0)))
    rows = []
    for name in wasm_to_c.IN_C:
        access = re.match(r"load|store|", name.split(".")[1])[0]
        rows.append((f"machine_{name.replace('.', '_')}", name, OFFSETS.get(access, 0), None))
    for kind, bits in wasm_to_c.BITS.items() if has_constants else ():
        for shift in SHIFTS:
            for distance in range(bits):
                module.add(f"{kind}_{shift}_by_{distance}", [kind], kind, f"local.get 0 {kind}.const {distance} {kind}.{shift}")
                rows.append((f"machine_{kind}_{shift}_by_{distance}", f"{kind}.{shift}", 0, distance))
    return rows, module


def compile_to_ir(scratch, module, machine, form):
    """Maps the names of the module's functions to their LLVM IR. Also returns the path of a file with the IR of the
    module."""
    directory = tempfile.mkdtemp(dir=scratch)
    write(directory, "machine.h", machine.encode())
    source = write(directory, "rows.c", wasm_to_c.translate(module.bytes(), module.names()).encode())
    ir_file = f"{directory}/rows.ll"
    run_or_fail([needs.program("clang", "clang"), "-std=c99", "-O2", "-w", form, "-fno-discard-value-names", "-S", "-emit-llvm",
                 "-o", ir_file, source])
    with open(ir_file, encoding="utf-8") as file:
        text = file.read()
    # The numbers of attributes and metadata are removed, because they differ from module to module.
    return {name: re.sub(r"[#!]\d+", "", body) for name, body in re.findall(r"(?ms)^define [^@]*@(\w+)(.*?)^\}", text)}, ir_file


class Proofs:
    """Proves rows. A function with the same IR is proved only once."""

    def __init__(self, scratch):
        self.scratch, self.verdicts = scratch, {}

    def unproved(self, machine=wasm_translation.MACHINE, form=FORMS[0], has_constants=False):
        """Maps the rows without a proof to the reasons. Also returns the names of all rows, and the number of
        functions with new IR."""
        rows, module = rows_and_module(has_constants)
        bodies, ir_file = compile_to_ir(self.scratch, module, machine, form)
        new_rows = [row for row in rows if (row[0], bodies[row[0]]) not in self.verdicts]
        rows_file = write(os.path.dirname(ir_file), "rows.json", json.dumps(new_rows).encode())
        output = run_or_fail([python(), PROVER, ir_file, rows_file])
        verdicts = dict(line.split("\t", 1) for line in output.splitlines())
        for name, *_ in new_rows:
            self.verdicts[name, bodies[name]] = verdicts.get(name, "the prover printed nothing about it")
        verdicts_of_rows = {name: self.verdicts[name, bodies[name]] for name, *_ in rows}
        unproved = {name: verdict for name, verdict in verdicts_of_rows.items() if verdict != "proved"}
        return unproved, [*verdicts_of_rows], len(new_rows)


def types_text():
    """Returns C code with static assertions that the expression of each row has the type of its WebAssembly value."""
    lines = ['#include "machine.h"']
    for name, text in wasm_to_c.IN_C.items():
        kind, operation = name.split(".")
        operand = re.search(r"i\d\d$|i\d\d(?=_)", operation)
        is_memory, is_store = operation.startswith(("load", "store")), operation.startswith("store")
        # A comparison has the type int. The translator converts it to u32.
        expected = "void" if is_store else "int" if re.search(r" [=!<>]=? ", text) else wasm_to_c.TYPES[kind]
        first = "u64" if is_memory else wasm_to_c.TYPES[operand[0] if operand else kind]
        second = wasm_to_c.TYPES[kind] if is_store else first
        lines.append(f"void type_of_{name.replace('.', '_')}({first} a, {second} b) {{ (void) a; (void) b; "
                     f'_Static_assert(__builtin_types_compatible_p(__typeof__({text}), {expected}), "{name}"); }}')
    return "\n".join(lines) + "\n"


def wrong_types(scratch):
    """Returns the rows whose C expression does not have the type of the value."""
    source = write(scratch, "types.c", types_text().encode())
    machine = ["-I", f"{TOP}/c/library/portable"]
    status, output = run([needs.program("clang", "clang"), "-std=c11", "-ferror-limit=0", "-fsyntax-only", "-w", *machine, source])
    wrong_names = re.findall(r'static_assert failed[^"]*"([\w.]+)"', output)
    return wrong_names if wrong_names or status == 0 else [output[-300:]]


# ---- Checks ----


def check_rows(checks, proofs):
    """Checks that each row is proved and has the right type."""
    for form in FORMS:
        unproved, names, new_count = proofs.unproved(form=form, has_constants=True)
        print(f"{form}: {new_count} new functions, of {len(wasm_to_c.IN_C)} rows and of shifts by constants")
        checks.same(len(names), len(wasm_to_c.IN_C) + len(SHIFTS) * sum(wasm_to_c.BITS.values()), "the number of functions")
        for name in names:
            checks.check(name not in unproved, f"{form}: {name}: {unproved.get(name)}")
    checks.same(wrong_types(proofs.scratch), [], "rows whose C has another type")


def check_mutants(checks, proofs):
    """Checks that wrong rows, rows with wrong types, and rows with the mutants of machine.h are not proved."""
    for name, text in [*WRONG_ROWS.items(), *wasm_translation.TABLE_MUTATIONS.items()]:
        with mock.patch.dict(wasm_to_c.IN_C, {name: text}):
            unproved, *_ = proofs.unproved()
        checks.same([*unproved], [f"machine_{name.replace('.', '_')}"], f"unproved rows with {text} as the C for {name}")
    for name, text in WRONG_TYPES.items():
        with mock.patch.dict(wasm_to_c.IN_C, {name: text}):
            checks.same(wrong_types(proofs.scratch), [name], f"rows with a wrong type, with {text} as the C for {name}")
    for mutant in mutants_of("c", "machine_mutants"):
        unproved, _, new_count = proofs.unproved(applied_to(wasm_translation.MACHINE, mutant))
        checks.check(
            unproved or (mutant.name in NO_ROW_CHANGED and new_count == 0),
            f"all rows are proved with the mutant {mutant.name} of machine.h",
        )


def run_all(checks, scratch):
    proofs = Proofs(scratch)
    check_rows(checks, proofs)
    check_mutants(checks, proofs)


if __name__ == "__main__":
    sys.exit(test_script.run_checks("instruction-proofs", run_all))
