#!/usr/bin/env python3
"""Checks that the translator from WebAssembly to C, which writes dist/calls.c, is right: the translated functions must
return the same results in C as in Node (wasm_translation.js). The translator is `tools/wasm_to_c.py`; its output
includes `c/library/portable/machine.h`.

    tests/c/wasm_translation.py

  * Each numeric instruction is tried on pairs of edge cases and of random numbers, including those for which it traps; each
    load and store on random buffers.
  * Random functions consist of blocks, loops, branches, calls and memory accesses. Other functions read data by its address, or
    have stack frames.
  * All functions are translated, and compiled with and without the sanitizer for undefined behaviour.
  * The mutants of machine.h (machine_mutants), of the translator's table and of its steps must be noticed.
  * Code that the translator does not support must be an error that names the code.

The script prints a line for each failure; the last line is `N passed, M failed`.

Needs a C compiler and Node; missing packages are installed if that is permitted.
"""

import json
import os
import random
import re
import signal
import struct
import sys
import tempfile
from unittest import mock

HERE = os.path.dirname(os.path.realpath(__file__))
TOP = os.path.dirname(os.path.dirname(HERE))
sys.path += [os.path.join(TOP, *each) for each in (("tests", "shared"), ("tools",))]

import needs
import static_library
import test_script
import wasm_object
import wasm_to_c
from mutants import applied_to, mutants_of
from process import run_program
from running import read, write

MACHINE = read(TOP, "c", "library", "portable", "machine.h").decode()
SECONDS = 1200
SANITIZED = ["-O1", "-fsanitize=undefined", "-fno-sanitize-recover=all", "-fno-sanitize=alignment"]
BITS = {"i32": 32, "i64": 64}
# The kinds of values: their types in a WebAssembly module and in C. `base` is the address of the buffer, and `none`
# means no value.
WASM_TYPES = {"i32": 0x7F, "i64": 0x7E, "base": 0x7E, "none": 0x40}
C_TYPES = {"i32": "uint32_t", "i64": "uint64_t", "base": "uint64_t", "none": "void"}
EDGE_CASES = [0, 1, 2, 3, 7, 8, 31, 32, 33, 63, 64, 127, 128, 255, 256, 0x7FFF, 0x8000, 0xFFFF, 0x10000, 0x7FFFFFFF, 0x80000000,
         0xFFFFFFFF, 0x100000000, (1 << 63) - 1, 1 << 63, (1 << 64) - 1, (1 << 64) - 2, 0xFFFFFFFF80000000, 0xFFFFFFFF7FFFFFFF]
RANDOM_PAIRS, RANDOM_FUNCTIONS = 1500, 120
# Addresses in Node's memory: the buffer of a call, the data, and the initial stack pointer. The stack grows down from it.
BUFFER, DATA, INITIAL_STACK_POINTER = 4096, 1024, 3072
# The size of the buffer.
BUFFER_BYTES = 64
# The data of each module. The 8 bytes at the offset POINTER_AT are the address of byte number POINTS_TO of the data.
POINTER_AT, POINTS_TO = 16, 3
DATA_BYTES = bytes(range(100, 116)) + (DATA + POINTS_TO).to_bytes(8, "little") + b"\x2a" * 8
# A result consists of a byte that is 1 if the function trapped, the returned number, and the buffer.
RESULT_BYTES = 9 + BUFFER_BYTES

# ---- Writing modules, which are also object files ----


def number(value, bits=0):
    """Encodes a number as LEB128. With `bits`, it is a signed number of this size, otherwise an unsigned number."""
    encoded, value = bytearray(), value % (1 << bits) if bits else value
    value -= 1 << bits if bits and value >> (bits - 1) else 0
    while not (-64 <= value < 64 if bits else value < 128):
        encoded.append(value & 127 | 128)
        value >>= 7
    return bytes([*encoded, value & 127])


# Functions that encode a list, bytes with their size in front, a name, and a section.
encode_list = lambda parts: number(len(parts)) + b"".join(parts)
with_size = lambda data: number(len(data)) + data
text = lambda words: with_size(words.encode())
section = lambda kind, *parts: bytes([kind]) + with_size(b"".join(parts))
# The kinds of sections.
CUSTOM, TYPES, IMPORTS, FUNCTIONS, MEMORIES, EXPORTS, CODE, SEGMENTS = 0, 1, 2, 3, 5, 7, 10, 11
# The encoding of the address of the data. It is padded to the maximum length, so that it differs from the encoding
# of all other numbers.
ADDRESS = bytes(DATA >> shift & 127 | (128 if shift < 63 else 0) for shift in range(0, 70, 7))
# For each instruction, its opcode and the kind of its operand. OPERANDS has a function that encodes each kind of
# operand. The kind "place" is the operand of a load or store: an alignment, here always 0, and an offset.
CODES = {name: (code, operand) for code, (name, operand) in wasm_object.INSTRUCTIONS.items()}
# In a list of labels, the last one is the default, which is not counted.
OPERANDS = {
    "block": lambda word, _: bytes([WASM_TYPES[word]]), "index": lambda word, _: number(int(word)),
    "place": lambda word, _: b"\0" + number(int(word)),
    "labels": lambda word, _: number(word.count(",")) + b"".join(number(int(label)) for label in word.split(",")),
    "number": lambda word, name: ADDRESS if word == "data" else number(int(word), BITS[name[:3]])}
# Kinds of operands for which assemble takes no word from the code, with their encodings.
WITHOUT_WORD = {"": b"", "memory": b"\0", "memories": b"\0\0"}


def assemble(code):
    """Assembles code. It consists of the names of instructions, each followed by its operand: a number, a kind of
    value, labels, or `data` for the address of the data. A word `0x..` stands for these bytes."""
    encoded, words = b"", iter(code.split())
    for name in words:
        if name.startswith("0x"):
            encoded += bytes.fromhex(name[2:])
        else:
            opcode, operand = CODES[name]
            encoded += bytes([opcode]) if opcode < 256 else bytes([opcode >> 8]) + number(opcode & 255)
            encoded += WITHOUT_WORD[operand] if operand in WITHOUT_WORD else OPERANDS[operand](next(words), name)
    return encoded


class Module:
    """A WebAssembly module. A function consists of its name, the kinds of its parameters and its result, its code,
    and the kinds of its local variables."""

    def __init__(self):
        self.functions = []

    def add(self, name, parameters, result_kind, code, locals_=()):
        """Adds a function, and returns its index."""
        self.functions.append((name.replace(".", "_"), parameters, result_kind, code, locals_))
        return len(self.functions) - 1

    def names(self):
        """Returns the names of the functions."""
        return [name for name, *_ in self.functions]

    def bytes(self):
        """Encodes the module. It is also an object file, as the conventions for linking WebAssembly describe it: it
        has a symbol for each function and one for the data, and relocations for the addresses of the data."""
        count = len(self.functions)
        types = [b"\x60" + b"".join(encode_list([bytes([WASM_TYPES[kind]]) for kind in kinds if kind != "none"])
                                    for kinds in (parameters, [result_kind]))
                 for _, parameters, result_kind, *_ in self.functions]
        bodies = [with_size(encode_list([b"\1" + bytes([WASM_TYPES[local]]) for local in locals_]) + assemble(f"{code} end"))
                  for *_, code, locals_ in self.functions]
        addresses = [bytes([wasm_object.CONSTANT]) + number(match.start()) + number(count) + b"\0"
                     for match in re.finditer(re.escape(ADDRESS), encode_list(bodies))]
        segment = b"\0" + assemble(f"i64.const {DATA} end") + with_size(DATA_BYTES)
        # A relocation has the offset of the address in its section, after the size of the section. The data section begins
        # with the number of segments, which takes one byte.
        offset = 1 + len(segment) - len(DATA_BYTES) + POINTER_AT
        pointer = bytes([wasm_object.DATA]) + number(offset) + number(count) + number(POINTS_TO, 64)
        symbols = [b"\0\0" + number(index) + text(name) for index, name in enumerate(self.names())]
        symbols.append(b"\1\0" + text("data") + b"\0\0" + number(len(DATA_BYTES)))
        exports = [text(name) + b"\0" + number(index) for index, name in enumerate(self.names())]
        return b"\0asm\1\0\0\0" + b"".join([
            section(TYPES, encode_list(types)),
            section(IMPORTS, encode_list([text("env") + text(wasm_to_c.STACK_POINTER) + b"\3" + bytes([WASM_TYPES["i64"], 1])])),
            section(FUNCTIONS, encode_list([number(index) for index in range(count)])),
            # A memory with addresses of 64 bits and at least two pages.
            section(MEMORIES, encode_list([b"\4" + number(2)])),
            section(EXPORTS, encode_list([*exports, text("memory") + b"\2\0"])),
            section(CODE, encode_list(bodies)),
            section(SEGMENTS, encode_list([segment])),
            # Version 2 of the conventions. Subsection 5 describes the segments (name, alignment, flags), 8 the symbols.
            section(CUSTOM, text("linking"), b"\2", b"\5", with_size(encode_list([text("data") + b"\4\0"])), b"\x08",
                    with_size(encode_list(symbols))),
            # The sections of relocations name the section that they are for by its position in this list.
            section(CUSTOM, text("reloc.CODE"), number(5), encode_list(addresses)),
            section(CUSTOM, text("reloc.DATA"), number(6), encode_list([pointer]))])


# ---- Running modules ----

RUNNER = """#include <stdio.h>
#include <stdint.h>
%s
int main(void)
{
    static struct { uint64_t function, a, b, c; unsigned char buffer[%d]; } call;
    while (fread(&call, sizeof call, 1, stdin) == 1) {
        const uint64_t base = (uint64_t) (uintptr_t) call.buffer, a = call.a, b = call.b, c = call.c;
        uint64_t result = 0;
        switch (call.function) {
%s
        }
        putchar(0);
        fwrite(&result, sizeof result, 1, stdout);
        fwrite(call.buffer, sizeof call.buffer, 1, stdout);
    }
    return 0;
}
"""


def call(function, arguments, buffer=bytes(BUFFER_BYTES)):
    """Encodes a call: the index of the function, up to three arguments, and the content of the buffer."""
    return struct.pack("<4Q", function, *arguments, *[0] * (3 - len(arguments))) + buffer


def results_in(output):
    """Splits the output of a program into results."""
    return (output[offset:offset + RESULT_BYTES] for offset in range(0, len(output), RESULT_BYTES))


class Runners:
    """Translates and builds modules, and runs them in C and in Node."""

    def __init__(self, scratch):
        self.scratch, self.compiler, self.node = scratch, needs.c_compiler(), needs.node()

    def program(self, module, flags, machine=MACHINE):
        """Builds a program that reads calls from its standard input and makes them with the translated functions.
        Returns its path."""
        directory, declared, cases = tempfile.mkdtemp(dir=self.scratch), [], []
        for index, (name, parameters, result_kind, *_) in enumerate(module.functions):
            declared.append(f"{C_TYPES[result_kind]} machine_{name}({', '.join(map(C_TYPES.get, parameters))});")
            arguments = ", ".join("base" if kind == "base" else letter for letter, kind in zip("abc", parameters))
            cases.append(f"        case {index}: {'' if result_kind == 'none' else 'result = '}machine_{name}({arguments}); break;")
        files = {"calls.c": wasm_to_c.translate(module.bytes(), module.names()), "machine.h": machine,
                 "runner.c": RUNNER % ("\n".join(declared), BUFFER_BYTES, "\n".join(cases))}
        sources = [write(directory, name, words.encode()) for name, words in files.items()]
        static_library.run_or_fail(
            [self.compiler, "-std=c99", "-w", *flags, "-I", directory, "-o", f"{directory}/run", sources[0], sources[2]]
        )
        return f"{directory}/run"

    def run_in_c(self, program, calls):
        """Makes the calls in C, and returns the result of running the program."""
        return run_program([program], self.scratch, calls, SECONDS)

    def run_in_node(self, module, calls):
        """Makes the calls in Node, and returns the results."""
        description = [
            [function[:2] for function in module.functions],
            wasm_to_c.STACK_POINTER,
            INITIAL_STACK_POINTER,
            BUFFER,
            BUFFER_BYTES,
        ]
        paths = [
            write(self.scratch, "module.wasm", module.bytes()),
            write(self.scratch, "description.json", json.dumps(description).encode()),
        ]
        command = [self.node, "--experimental-wasm-memory64", "--no-warnings", f"{HERE}/wasm_translation.js", *paths]
        result = run_program(command, self.scratch, b"".join(calls), SECONDS)
        if result.status or len(result.stdout) != RESULT_BYTES * len(calls):
            # Probably this Node has no memories with addresses of 64 bits, so it counts as a missing program.
            raise needs.Missing(f"Node: {result}")
        return results_in(result.stdout)


# ---- Functions and calls ----

NUMERIC_INSTRUCTIONS = [name for name in wasm_to_c.IN_C if not re.search(r"\.(load|store)", name)]
LOADS, STORES = ([name for name in wasm_to_c.IN_C if f".{kind}" in name] for kind in ("load", "store"))
BULK_MEMORY = {"copy": "local.get 0 i64.const 9 i64.add local.get 0 i64.const 4 i64.add local.get 1 memory.copy",
           "fill": "local.get 0 local.get 1 i32.wrap_i64 local.get 2 memory.fill"}
# Code that creates a stack frame and stores the parameter in it, and code that removes the frame.
STACK_FRAME = "global.get 0 i64.const 32 i64.sub local.tee 1 global.set 0 local.get 1 local.get 0 i64.store 8"
END_FRAME = "local.get 1 i64.const 32 i64.add global.set 0"
# Code that creates a stack frame in a function without calls. Such a function reads the stack pointer, but does not
# change it; it computes the address of the frame directly before the first use.
LATE_STACK_FRAME = "global.get 0 local.set 1 local.get 1 i64.const 32 i64.sub local.tee 2 local.get 0 i64.store 8"


def add_numbers(module, rng):
    """Adds a function for each numeric instruction. Returns calls with pairs of edge cases, and with pairs of
    random numbers of all lengths."""
    for name in NUMERIC_INSTRUCTIONS:
        kind, operation = name.split(".")
        operand_kind = re.search(r"i\d\d$|i\d\d(?=_)", operation)
        is_unary = operand_kind or operation in ("eqz", "clz", "ctz", "popcnt") or operation.startswith("extend")
        parameters = [operand_kind[0] if operand_kind else kind] * (1 if is_unary else 2)
        module.add(name, parameters, "i32" if re.fullmatch(r"eqz?|ne|[lg][te]_[su]", operation) else kind,
                   f"{' '.join(f'local.get {index}' for index in range(len(parameters)))} {name}")
    pairs = [(a, b) for a in EDGE_CASES for b in EDGE_CASES]
    pairs += [tuple(rng.getrandbits(64) >> rng.randrange(64) for _ in range(2)) for _ in range(RANDOM_PAIRS)]
    return [call(index, pair) for index in range(len(NUMERIC_INSTRUCTIONS)) for pair in pairs]


def add_memory(module, rng):
    """Adds a function for each load and store, and for memory.copy and memory.fill. Yields calls."""
    first = len(module.functions)
    for name in LOADS:
        module.add(name, ["base", "i64"], name[:3], f"local.get 0 {name} 3")
    for name in STORES:
        module.add(name, ["base", name[:3]], "none", f"local.get 0 local.get 1 {name} 5")
    for name, code in BULK_MEMORY.items():
        module.add(name, ["base", "i64", "i64"], "none", code)
    # This function returns the old value and overwrites it.
    swap = module.add("swap", ["base", "i64"], "i64", "local.get 0 i64.load 3 local.get 0 local.get 1 i64.store 5")
    for _ in range(100):
        buffer, value = rng.randbytes(BUFFER_BYTES), rng.choice(EDGE_CASES + [rng.getrandbits(64)] * 9)
        for index in range(first, swap + 1):
            # (The remainders keep the accesses inside the buffer.)
            yield call(index, (0, value % 40 if module.names()[index] == "copy" else value, value % 60), buffer)


def add_addresses(module, _):
    """Adds functions that read data at its address, and at an address that is stored in the data, and three
    functions with stack frames. Returns calls. The result of frame_above includes the alignment of its frame."""
    data = module.add("data_read", ["i64"], "i64", "i64.const data local.get 0 i64.add i64.load8_u 0")
    followed = module.add("data_followed", ["i64"], "i64", f"i64.const data i64.load {POINTER_AT} i64.load8_u 2")
    below = module.add("frame_below", ["i64"], "i64", f"{STACK_FRAME} local.get 1 i64.load32_u 8 {END_FRAME}", ["i64"])
    code = (
        f"{STACK_FRAME} local.get 0 i64.const 77 i64.add call {below} local.get 1 i64.load 8 i64.xor local.get 1"
        " i64.const 15 i64.and i64.add"
    )
    above = module.add("frame_above", ["i64"], "i64", f"{code} {END_FRAME}", ["i64"])
    late = module.add("frame_late", ["i64"], "i64", f"{LATE_STACK_FRAME} local.get 2 i64.load32_u 8", ["i64", "i64"])
    frames = (below, above, late)
    return [
        *(call(data, (index,)) for index in range(16)),
        call(followed, ()),
        *(call(index, (value,)) for value in EDGE_CASES for index in frames),
    ]


# ---- Random functions ----


def grammar():
    """Maps each name in wasm_translation_grammar.txt to its productions. A line with `K` is read twice, with i32 and with i64
    for K. A production with the weight N (`xN`) occurs N times. The head of the file explains the notation."""
    productions = {f"{operation} {kind}": [name for name in wasm_to_c.IN_C if name.startswith(f"{kind}.{operation}")]
                   for operation in ("load", "store") for kind in BITS}
    for line in re.findall(r"(?m)^[^#\n].*", read(HERE, "wasm_translation_grammar.txt").decode()):
        head, _, texts = line.partition(": ")
        for kind in BITS if "K" in head else ("",):
            name, _, times = head.replace("K", kind).partition(" x")
            productions.setdefault(name, []).extend(texts.replace("K", kind).split(" | ") * int(times or 1))
    return {**productions, "edge": [*map(str, EDGE_CASES)]}


GRAMMAR = grammar()


class RandomFunction:
    """Generates the code of a random function."""

    def __init__(self, rng, callees):
        self.rng, self.choice, self.callees = rng, rng.choice, callees
        self.locals = ["base", "i64", "i32", *(rng.choice([*BITS]) for _ in range(5))]
        # The locals that count the rounds of loops, and the labels to which a branch can jump.
        self.counters, self.labels = [], []
        # The number of statements and expressions that may still be generated.
        self.budget = 60

    def write(self, text, depth=5):
        """Returns code for the text of a production: replaces `{name word}` and `<construct kind text>`. Expressions have at
        most this depth."""
        def replacement(match):
            if match[1]:
                return self.choose(match[1], match[2], depth)
            return self.write_inside(*match.groups()[2:])

        return re.sub(r"\{(\w+) ?(.*?)\}|<(\w+) (\w+) (.*?)>", replacement, text)

    def write_inside(self, construct, result_kind, text):
        """Returns code for a production inside a new block, loop or branch, which is one more label."""
        self.labels.append((construct, result_kind))
        code = self.write(text)
        self.labels.pop()
        return code

    def choose(self, name, word, depth):
        """Returns code for a name in braces in the grammar. If the grammar has no such production, the name is that of a
        method, and `word` its arguments."""
        self.budget -= name == "statement" or name in BITS
        if name in BITS:
            depth = int(word or depth - 1)
            name = name if depth > 0 and self.budget > 0 else f"end {name}"
        elif name == "statement":
            depth, name = 5, name if self.budget >= 0 and len(self.labels) < 7 else "set"
        elif word:
            name = f"{name} {word}"
        if name not in GRAMMAR:
            name, *words = name.split()
            return getattr(self, name)(*words)
        return self.write(self.choice(GRAMMAR[name]), depth)

    def free(self, kind):
        """Returns a local variable of this kind that is not a loop counter."""
        return str(self.choice([index for index, local in enumerate(self.locals) if local == kind and index not in self.counters]))

    def call(self, kind):
        """Returns code that calls an earlier random function, if there is one."""
        wrapped = "i32.wrap_i64" if kind == "i32" else ""
        return self.write(
            f"local.get 0 {{i64}} {{i32}} call {self.choice(self.callees)} {wrapped}"
            if self.callees
            else f"{{{kind}}}",
            3,
        )

    def loop(self):
        """Returns code for a loop that ends after at most a few rounds."""
        free = [index for index, local in enumerate(self.locals) if local == "i32" and index > 2 and index not in self.counters]
        if len(free) < 2:
            return self.write("{set}")
        self.counters.append(free[0])
        again = f"local.get {free[0]} if none local.get {free[0]} i32.const 1 i32.sub local.set {free[0]} br 1 end"
        body = self.write_inside("loop", "none", self.choice(["", "", f"{{statements}} {again} "]) + f"{{statements}} {again}")
        self.counters.remove(free[0])
        return f"i32.const {self.rng.randrange(4)} local.set {free[0]} loop none {body} end"

    def jump(self, instruction):
        """Returns code for a branch to one of up to four labels, or out of the function. All targets take the same
        kind of value."""
        labels = [*reversed(self.labels), ("function", "i64")]
        candidates = [(depth, result_kind) for depth, (construct, result_kind) in enumerate(labels)
                      if construct in ("block", "if", "function")]
        result_kind = self.choice(candidates[:-1] or candidates)[1]
        depths = [str(depth) for depth, kind in candidates if kind == result_kind]
        targets = [self.choice(depths) for _ in range(self.rng.randrange(1, 5) if instruction == "br_table" else 1)]
        drop = "drop" if instruction == "br_if" and result_kind != "none" else ""
        return self.write(f"{value_of_kind(result_kind)} {{selector {instruction}}} {instruction} {','.join(targets)} {drop}")


def value_of_kind(result_kind):
    """Returns the placeholder for the value of a block or a branch, or an empty string if it has no value."""
    return "" if result_kind == "none" else f"{{{result_kind} 2}}"


def add_random_functions(module, rng, count):
    """Adds random functions, which may call the functions before them. Yields calls."""
    first = len(module.functions)
    for number in range(count):
        function = RandomFunction(rng, [first + index for index in range(number)][-3:] if number % 4 == 3 else [])
        module.add(f"random_{number}", ["base", "i64", "i32"], "i64", function.write("{function}"), function.locals[3:])
        for _ in range(12):
            yield call(first + number, (0, rng.choice(EDGE_CASES), rng.choice(EDGE_CASES)), rng.randbytes(BUFFER_BYTES))


# ---- Checks ----


class Case:
    """A module, calls of its functions with the results in Node, and the calls that trap, by function."""

    def __init__(self, runners, rng, count):
        self.module, self.trapping, self.answered = Module(), {}, []
        calls = [call for add in (add_numbers, add_memory, add_addresses) for call in add(self.module, rng)]
        calls += add_random_functions(self.module, rng, count)
        for encoded, expected in zip(calls, runners.run_in_node(self.module, calls)):
            (self.trapping.setdefault(self.describe(encoded)[0], []) if expected[0] else self.answered).append((encoded, expected))
        self.calls, self.expected = map(b"".join, zip(*self.answered))

    def describe(self, call):
        """Returns the name of the called function, and the numbers."""
        function, *numbers = struct.unpack_from("<4Q", call)
        return self.module.names()[function], *map(hex, numbers)

    def first_difference(self, output):
        """Describes the first call whose result differs from Node's, with both results."""
        return next(
            (
                f"{self.describe(encoded)}: {actual[1:9].hex()}, expected {expected[1:9].hex()}"
                for (encoded, expected), actual in zip(self.answered, results_in(output))
                if actual != expected
            ),
            "the number of results",
        )


def check_answers(checks, case, runners):
    """Checks that the translated functions return the same results as in Node."""
    for flags in (["-O0"], ["-O2"], ["-O1", "-DHAS_UNALIGNED_ACCESS=0"], SANITIZED):
        program = runners.program(case.module, flags)
        result = runners.run_in_c(program, case.calls)
        is_equal = result.status == 0 and result.stdout == case.expected
        checks.check(is_equal, f"{flags}: status {result.status}, {case.first_difference(result.stdout)}")
    print(f"{len(case.answered)} calls of {len(wasm_to_c.IN_C)} instructions, of memory, data and stack functions, and of "
          f"{RANDOM_FUNCTIONS} random functions")
    trapping = {name.replace(".", "_") for name in NUMERIC_INSTRUCTIONS if re.search(r"div_|rem_", name)}
    checks.check({*case.trapping} == trapping, f"these trap: {sorted(case.trapping)}, expected {sorted(trapping)}")
    # The last program is the one with the sanitizer.
    for name, calls in case.trapping.items():
        for encoded, _ in (calls[0], calls[-1]):
            checks.check(runners.run_in_c(program, encoded).status == -signal.SIGABRT, f"{name} does not end the program")


# Wrong C for instructions in the translator's table.
TABLE_MUTATIONS = {
    "i64.load8_u": "load8(a) + 1",
    "i64.load32_u": "sign32(load32(a))",
    "i32.shl": "a << b % 31",
    "i64.lt_s": "a < b",
    "i64.extend_i32_s": "(u64) a",
    "i32.store16": "store8(a, b)",
    "i32.extend8_s": "(u32) sign16(a)",
    "i64.rotr": "rotl64(a, b)",
}
KEEP, BEGIN = wasm_to_c.Body.keep_what_reads, wasm_to_c.Body.begin


def begin_without_keeping(self, translating, words):
    """A mutation of the translator's method `begin`, which begins a block: it does not first store the values on the stack in
    variables."""
    values, self.stack = self.stack, [wasm_to_c.Value("0", value.kind, frozenset(), True) for value in self.stack]
    BEGIN(self, translating, words)
    self.stack = values


# Methods of the translator, and wrong replacements for them. `keep_what_reads` is called before code that changes memory or a
# variable: it stores values on the stack that still have to read this memory or variable in variables of their own.
STEP_MUTATIONS = {
    "values on the stack are not stored before what they read is changed": ("keep_what_reads", lambda self, what: None),
    "memory is read late": ("keep_what_reads", lambda self, what: KEEP(self, what) if what != wasm_to_c.MEMORY else None),
    "values are not stored before a block": ("begin", begin_without_keeping),
}


def is_noticed(case, runners, **options):
    """Returns true if a translation has other results, does not compile, or fails."""
    try:
        result = runners.run_in_c(runners.program(case.module, ["-O0"], **options), case.calls)
    except static_library.NotBuilt:
        return True
    return result.status != 0 or result.stdout != case.expected


def check_mutants(checks, case, single, runners):
    """Checks that each mutant is noticed. Mutants of a single instruction (machine.h and the translator's table) must be
    noticed by the case `single`, which has no random functions."""
    for mutant in mutants_of("c", "machine_mutants"):
        checks.check(is_noticed(single, runners, machine=applied_to(MACHINE, mutant)),
                     f"nothing notices the mutant {mutant.name} of machine.h")
    for name, wrong in TABLE_MUTATIONS.items():
        with mock.patch.dict(wasm_to_c.IN_C, {name: wrong}):
            checks.check(is_noticed(single, runners), f"nothing notices {wrong} for {name}")
    for description, (step, wrong) in STEP_MUTATIONS.items():
        with mock.patch.object(wasm_to_c.Body, step, wrong):
            checks.check(is_noticed(case, runners), f"nothing notices that {description}")


# Code that the translator does not support, and words that the error must contain.
UNSUPPORTED = {
    "a float": ("0x4300000000", "f32.const"), "a float that is compared": ("0x5b", "f32.eq"), "a square root": ("0x9f", "f64.sqrt"),
    "a call by table": ("0x110000", "call_indirect"), "more memory": ("0x4000", "memory.grow"), "a vector": ("0xfd", "0xfd"),
    "a load of a float": ("f32.load 0", "f32.load"), "a conversion": ("i32.trunc_f32_s", "i32.trunc_f32_s"),
    "another variable": ("global.get 1", "how much of the stack it takes"),
    "a stack pointer that is used twice": ("global.get 0 local.set 0 local.get 0 i64.const 8 i64.sub drop local.get 0 drop",
                                           "how much of the stack it takes"),
    "an exception block": ("0x0640", "0x6"),
    "a missing operand": ("drop", "the stack is empty"), "a call of itself": ("i64.const 0 call 0", "calls itself"),
    "a block with a function type": ("0x0200", "a block that takes values"),
}


def check_rejected(checks):
    """Checks that unsupported code is an error that names the code."""
    modules = [("no module", b"\x7fELF", [], ""), ("another section", Module().bytes() + section(13, b""), [], "")]
    for description, (code, words) in UNSUPPORTED.items():
        module = Module()
        module.add("function", ["i64"], "i64", f"{code} i64.const 0")
        modules.append((description, module.bytes(), ["function"], words))
    for description, module, names, words in modules:
        try:
            wasm_to_c.translate(module, names)
            checks.check(False, f"{description} is translated")
        except wasm_object.UnsupportedModule as error:
            checks.check(all(word in str(error) for word in (words, *names)), f"{description}: {error}")


def run_all(checks, scratch):
    runners, seed = Runners(scratch), random.randrange(1 << 32)
    print(f"random seed {seed}")
    case, single = (Case(runners, random.Random(seed), count) for count in (RANDOM_FUNCTIONS, 0))
    check_answers(checks, case, runners)
    check_mutants(checks, case, single, runners)
    check_rejected(checks)


if __name__ == "__main__":
    sys.exit(test_script.run_checks("wasm-translation", run_all))
