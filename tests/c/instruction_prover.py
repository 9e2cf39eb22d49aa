#!/usr/bin/env python3
"""Proves that functions of an LLVM module compute WebAssembly instructions, for all arguments and all memory.

    tests/c/instruction_prover.py MODULE.ll ROWS.json

ROWS.json is a list of [FUNCTION, INSTRUCTION, OFFSET, SECOND]. The function takes the operands of the instruction
and returns its result. OFFSET is the constant that a load or store adds to its address. SECOND is the second
operand if it is a constant, and not a parameter of the function; otherwise it is null. For each function, the
program prints a line with its name, a tab, and `proved` or the problem: arguments for which the results differ, or
the reason why there is no proof.

instruction_proofs.py runs this program. Needs z3 for Python, which is Debian's package python3-z3, and so Debian's Python.
"""

import json
import re
import sys

import z3
from llvm_terms import (ADDRESS_BITS, NEVER, QUOTIENT, REMAINDER, Unsupported, count_ones, execute, functions_of,
                        leading_zeros, load, memory, quotient, remainder, store, trailing_zeros)

# The time limit of a proof.
MILLISECONDS = 200_000


def bit(condition):
    """Returns 1 or 0 as a 32-bit number."""
    return z3.If(condition, z3.BitVecVal(1, 32), z3.BitVecVal(0, 32))


def absolute(x):
    return z3.If(x < 0, -x, x)


def signed(x, from_bits, bits):
    """Returns the lowest `from_bits` bits of x, sign-extended to `bits` bits."""
    return z3.SignExt(bits - from_bits, z3.Extract(from_bits - 1, 0, x))


# The numeric instructions as the WebAssembly specification defines them (Core Specification, "Numerics"). The keys
# are the parts of their names after the dot. Shifts and rotations use their distance modulo the number of bits.
UNARY = {
    "eqz": lambda a: bit(a == 0), "clz": leading_zeros, "ctz": trailing_zeros, "popcnt": count_ones,
    "wrap_i64": lambda a: z3.Extract(31, 0, a),
    "extend_i32_u": lambda a: z3.ZeroExt(32, a), "extend_i32_s": lambda a: z3.SignExt(32, a),
    "extend8_s": lambda a: signed(a, 8, a.size()), "extend16_s": lambda a: signed(a, 16, a.size()),
    "extend32_s": lambda a: signed(a, 32, a.size()),
}
distance = lambda b: b & (b.size() - 1)
BINARY = {
    "eq": lambda a, b: bit(a == b), "ne": lambda a, b: bit(a != b),
    "lt_s": lambda a, b: bit(a < b), "lt_u": lambda a, b: bit(z3.ULT(a, b)),
    "gt_s": lambda a, b: bit(a > b), "gt_u": lambda a, b: bit(z3.UGT(a, b)),
    "le_s": lambda a, b: bit(a <= b), "le_u": lambda a, b: bit(z3.ULE(a, b)),
    "ge_s": lambda a, b: bit(a >= b), "ge_u": lambda a, b: bit(z3.UGE(a, b)),
    "add": lambda a, b: a + b, "sub": lambda a, b: a - b, "mul": lambda a, b: a * b,
    "and": lambda a, b: a & b, "or": lambda a, b: a | b, "xor": lambda a, b: a ^ b,
    "shl": lambda a, b: a << distance(b), "shr_u": lambda a, b: z3.LShR(a, distance(b)), "shr_s": lambda a, b: a >> distance(b),
    "rotl": lambda a, b: z3.RotateLeft(a, distance(b)), "rotr": lambda a, b: z3.RotateRight(a, distance(b)),
    "div_u": quotient, "rem_u": remainder,
    "div_s": lambda a, b: z3.If((a < 0) == (b < 0), quotient(absolute(a), absolute(b)), -quotient(absolute(a), absolute(b))),
    "rem_s": lambda a, b: z3.If(a < 0, -remainder(absolute(a), absolute(b)), remainder(absolute(a), absolute(b))),
}


def trap(operation, a, b):
    """Returns the condition under which a numeric instruction traps."""
    if not operation.startswith(("div_", "rem_")):
        return NEVER
    smallest = z3.BitVecVal(1 << a.size() - 1, a.size())
    return z3.Or(b == 0, z3.And(a == smallest, b == -1)) if operation == "div_s" else b == 0


def division_facts(operation, a, b):
    """Yields the facts about division on which the proofs rely.

    For a divisor other than 0: the quotient is at most the dividend. It is equal to the dividend if the divisor is
    1 or the dividend is 0, and otherwise at most half of the dividend. The remainder is less than the divisor.
    (Each instruction traps before it divides by 0, so the proofs may assume that the result of such a division is
    0.)"""
    if operation not in ("div_s", "rem_s"):
        return
    # clang divides 32-bit numbers as 32-bit or as 64-bit numbers.
    extra_bits = 64 - a.size()
    wide_operands = [z3.SignExt(extra_bits, operand) if extra_bits else operand for operand in (a, b)]
    narrow_operands = [z3.ZeroExt(extra_bits, absolute(operand)) if extra_bits else absolute(operand) for operand in (a, b)]
    for dividend, divisor in ([*map(absolute, wide_operands)], narrow_operands):
        ratio, rest = QUOTIENT(dividend, divisor), REMAINDER(dividend, divisor)
        ratio_bound = z3.If(divisor == 1, ratio == dividend, z3.ULE(ratio, z3.LShR(dividend, 1)))
        yield z3.If(divisor == 0, z3.And(ratio == 0, rest == 0), z3.And(ratio_bound, z3.ULT(rest, divisor)))


def proof_of(claim, *assumptions):
    """Returns "proved" if z3 proves the claim from these assumptions, and otherwise the reason."""
    solver = z3.Solver()
    solver.set("timeout", MILLISECONDS)
    solver.add(*assumptions, z3.Not(claim))
    result = solver.check()
    if result == z3.unsat:
        return "proved"
    if result == z3.unknown:
        return f"z3 gave up: {solver.reason_unknown()}"
    model = solver.model()
    return "differs for " + ", ".join(sorted(f"{name} = {model[name]}" for name in model.decls() if z3.is_bv(model[name])))


def number_verdict(function, kind, operation, second):
    """Returns the verdict on a numeric instruction."""
    operand_bits = re.search(r"i(\d\d)(?:_[us])?$", operation)
    bits = int(operand_bits[1]) if operand_bits else int(kind[1:])
    a, b = z3.BitVecs("a b", bits)
    b = b if second is None else z3.BitVecVal(second, bits)
    operands = [a] if operation in UNARY else [a, b]
    contents = memory()
    outcome = execute(function, operands if second is None else [a], contents)
    expected = (UNARY if operation in UNARY else BINARY)[operation](*operands)
    traps = trap(operation, a, b)
    is_same = z3.And(z3.Not(outcome.undefined), outcome.memory == contents, outcome.result == expected)
    return proof_of(z3.And(outcome.ends == traps, z3.Implies(z3.Not(traps), is_same)), *division_facts(operation, a, b))


def memory_verdict(function, kind, operation, offset):
    """Returns the verdict on a load or a store, at an address plus an offset."""
    access, size, sign = re.fullmatch(r"(load|store)(\d*)_?([us]?)", operation).groups()
    bits, contents, address = int(kind[1:]), memory(), z3.BitVec("a", ADDRESS_BITS)
    memory_bits, value, unused = int(size or bits), z3.BitVec("b", bits), z3.BitVec("other", ADDRESS_BITS)
    # wasm_translation.py gives the function of a load a second parameter, which is not used.
    outcome = execute(function, [address, value if access == "store" else unused], contents)
    terminates_normally = z3.And(z3.Not(outcome.ends), z3.Not(outcome.undefined))
    if access == "store":
        stored = store(contents, address + offset, z3.Extract(memory_bits - 1, 0, value))
        return proof_of(z3.And(terminates_normally, outcome.memory == stored))
    loaded = load(contents, address + offset, memory_bits // 8)
    expected = loaded if memory_bits == bits else (z3.SignExt if sign == "s" else z3.ZeroExt)(bits - memory_bits, loaded)
    return proof_of(z3.And(terminates_normally, outcome.result == expected, outcome.memory == contents))


def verdict(function, instruction, offset, second):
    """Returns the verdict on a function that should compute an instruction."""
    kind, operation = instruction.split(".")
    try:
        if operation.startswith(("load", "store")):
            return memory_verdict(function, kind, operation, offset)
        return number_verdict(function, kind, operation, second)
    except Unsupported as error:
        return f"not read: {error}"


def main(module, rows):
    with open(module, encoding="utf-8") as file:
        functions = functions_of(file.read())
    with open(rows, encoding="utf-8") as file:
        for name, *row in json.load(file):
            print(f"{name}\t{verdict(functions[name], *row)}", flush=True)


if __name__ == "__main__":
    main(*sys.argv[1:])
