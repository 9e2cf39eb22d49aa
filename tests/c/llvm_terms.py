"""Translates functions in clang's LLVM IR to terms of z3. An instruction or flag that this module does not support
is an error.

Needs z3 for Python, which is Debian's package python3-z3, and so Debian's Python.
"""

import re
from collections import namedtuple

import z3

# The effect of a function: the value that it returns, or None, the memory afterwards, the condition under which it
# calls abort, and the condition under which its behaviour is undefined.
Outcome = namedtuple("Outcome", "result memory ends undefined")
Function = namedtuple("Function", "parameters blocks")

ADDRESS_BITS = 64
NEVER, ALWAYS = z3.BoolVal(False), z3.BoolVal(True)
POINTER = r"(?:ptr|i\d+\*)"


class Unsupported(Exception):
    """The IR contains something that this module does not support."""


def memory():
    """Returns a memory with unknown content."""
    return z3.Array("memory", z3.BitVecSort(ADDRESS_BITS), z3.BitVecSort(8))


def load(contents, address, size):
    """Returns the little-endian number of `size` bytes at an address."""
    return z3.simplify(z3.Concat([contents[address + index] for index in reversed(range(size))]) if size > 1 else contents[address])


def store(contents, address, value):
    """Returns the memory after a little-endian number was stored."""
    for index in range(value.size() // 8):
        contents = z3.Store(contents, address + index, z3.Extract(8 * index + 7, 8 * index, value))
    return contents


# ---- Operations that z3 does not have, or that are too slow in z3 ----


def count_ones(x):
    return z3.Sum([z3.ZeroExt(x.size() - 1, z3.Extract(index, index, x)) for index in range(x.size())])


def zeros(x, positions):
    """Returns the number of zero bits before the first one bit, in the order of these positions."""
    term = z3.BitVecVal(x.size(), x.size())
    for count, index in reversed([*enumerate(positions)]):
        term = z3.If(z3.Extract(index, index, x) == 1, z3.BitVecVal(count, x.size()), term)
    return term


def leading_zeros(x):
    return zeros(x, reversed(range(x.size())))


def trailing_zeros(x):
    return zeros(x, range(x.size()))


# Unsigned division is an uninterpreted function: a proof holds for every function of two 64-bit numbers, and so for
# division. 32-bit numbers are divided as 64-bit numbers.
QUOTIENT, REMAINDER = (z3.Function(name, *[z3.BitVecSort(64)] * 3) for name in ("quotient", "remainder"))


def divide(function, a, b):
    extra_bits = 64 - a.size()
    if extra_bits == 0:
        return function(a, b)
    return z3.Extract(a.size() - 1, 0, function(z3.ZeroExt(extra_bits, a), z3.ZeroExt(extra_bits, b)))


def quotient(a, b):
    return divide(QUOTIENT, a, b)


def remainder(a, b):
    return divide(REMAINDER, a, b)


BINARY = {
    "add": lambda a, b: a + b, "sub": lambda a, b: a - b, "mul": lambda a, b: a * b,
    "and": lambda a, b: a & b, "or": lambda a, b: a | b, "xor": lambda a, b: a ^ b,
    "shl": lambda a, b: a << b, "lshr": z3.LShR, "ashr": lambda a, b: a >> b,
    "udiv": quotient, "urem": remainder,
}
# For each flag of an operation, the condition under which the result is poison. Here, this counts as undefined
# behaviour.
POISON_CONDITIONS = {
    ("add", "nuw"): lambda a, b: z3.Not(z3.BVAddNoOverflow(a, b, False)),
    ("add", "nsw"): lambda a, b: z3.Not(z3.And(z3.BVAddNoOverflow(a, b, True), z3.BVAddNoUnderflow(a, b))),
    ("sub", "nuw"): z3.ULT,
    ("sub", "nsw"): lambda a, b: z3.Not(z3.And(z3.BVSubNoOverflow(a, b), z3.BVSubNoUnderflow(a, b, True))),
    ("shl", "nuw"): lambda a, b: z3.LShR(a << b, b) != a,
    ("shl", "nsw"): lambda a, b: (a << b) >> b != a,
    ("lshr", "exact"): lambda a, b: z3.LShR(a, b) << b != a,
    ("ashr", "exact"): lambda a, b: (a >> b) << b != a,
}
COMPARISONS = {
    "eq": lambda a, b: a == b, "ne": lambda a, b: a != b, "ult": z3.ULT, "ule": z3.ULE, "ugt": z3.UGT, "uge": z3.UGE,
    "slt": lambda a, b: a < b, "sle": lambda a, b: a <= b, "sgt": lambda a, b: a > b, "sge": lambda a, b: a >= b,
}


def funnel(a, b, distance, is_left):
    """Computes llvm.fshl or llvm.fshr: the concatenation of two numbers, shifted."""
    bits, concatenated = a.size(), z3.Concat(a, b)
    distance = z3.ZeroExt(bits, z3.URem(distance, z3.BitVecVal(bits, bits)))
    if is_left:
        return z3.Extract(2 * bits - 1, bits, concatenated << distance)
    return z3.Extract(bits - 1, 0, z3.LShR(concatenated, distance))


INTRINSICS = {
    "fshl": lambda a, b, by: funnel(a, b, by, True),
    "fshr": lambda a, b, by: funnel(a, b, by, False),
    "ctpop": count_ones,
    "abs": lambda a, _: z3.If(a < 0, -a, a),
    "ctlz": lambda a, _: leading_zeros(a),
    "cttz": lambda a, _: trailing_zeros(a),
}
# For each of these intrinsics, the input for which the result is poison if the second argument is 1.
POISON_INPUTS = {"ctlz": lambda bits: 0, "cttz": lambda bits: 0, "abs": lambda bits: 1 << bits - 1}


def functions_of(text):
    """Maps the names of the functions of a module to their parsed text."""
    functions = {}
    for name, parameters, body in re.findall(r"^define [^@]*@(\w+)\(([^)]*)\)[^{]*\{\n(.*?)\n\}", text, re.S | re.M):
        blocks, block = {}, "entry"
        for line in body.split("\n"):
            # Metadata, comments and attribute numbers are removed.
            line = re.sub(r", !.*|\s+;.*| #\d+$", "", line)
            label = re.match(r"([\w.]+):", line)
            if label:
                block = label[1]
            elif line.strip():
                blocks.setdefault(block, []).append(line.strip())
        functions[name] = Function(re.findall(r"i\d+ [^%,]*%([\w.]+)", parameters), blocks)
    return functions


class Execution:
    """Executes a function symbolically, along every path. A loop is an error."""

    def __init__(self, function, arguments, contents):
        self.function, self.undefined = function, []
        values = dict(zip(function.parameters, arguments))
        result, contents, ends = self.block("entry", None, values, contents, ALWAYS, ())
        self.outcome = Outcome(result, contents, ends, z3.Or(NEVER, *self.undefined))

    def block(self, name, previous_block, values, contents, path_condition, path):
        """Executes a block and the blocks that follow it. `previous_block` is the name of the block from which it was
        reached, for phi; `path_condition` is the condition under which this path is taken; `path` has the names of all
        blocks on the path. Returns the result, the memory, and the condition under which the function calls abort."""
        if name in path:
            raise Unsupported(f"a loop at {name}")
        values, path = dict(values), (*path, name)
        for line in self.function.blocks[name]:
            target, _, text = line.rpartition(" = ") if line.startswith("%") else ("", "", line)
            word = text.split()[0]
            if word == "br":
                return self.branch(text, name, values, contents, path_condition, path)
            if word == "ret":
                match = re.fullmatch(r"ret i(\d+) (\S+)", text)
                if not match and text != "ret void":
                    raise Unsupported(text)
                return self.value(values, match[2], int(match[1])) if match else None, contents, NEVER
            if word == "unreachable":
                # clang writes it only after a call of abort in these functions: any other call but of an intrinsic is an
                # error below.
                return None, contents, ALWAYS
            if word == "store":
                contents = self.store_term(text, values, contents)
            elif target:
                values[target[1:]] = self.term(text, previous_block, values, contents, path_condition)
            elif text != "tail call void @abort()":
                raise Unsupported(line)
        raise Unsupported(f"the block {name} has no terminator")

    def branch(self, text, name, values, contents, path_condition, path):
        """Executes a branch instruction at the end of a block, like `block`."""
        match = re.fullmatch(r"br label %([\w.]+)", text)
        if match:
            return self.block(match[1], name, values, contents, path_condition, path)
        match = re.fullmatch(r"br i1 (\S+), label %([\w.]+), label %([\w.]+)", text)
        if not match:
            raise Unsupported(text)
        condition = self.value(values, match[1], 1) == 1
        if_true = self.block(match[2], name, values, contents, z3.And(path_condition, condition), path)
        if_false = self.block(match[3], name, values, contents, z3.And(path_condition, z3.Not(condition)), path)
        # A branch that ends with `unreachable` has no result.
        if if_true[0] is None:
            result = if_false[0]
        else:
            result = if_true[0] if if_false[0] is None else z3.If(condition, if_true[0], if_false[0])
        return result, z3.If(condition, if_true[1], if_false[1]), z3.If(condition, if_true[2], if_false[2])

    @staticmethod
    def value(values, word, bits):
        """Returns the term for an operand: a local value, or a constant of this many bits."""
        if word.startswith("%"):
            return values[word[1:]]
        return z3.BitVecVal({"true": 1, "false": 0}.get(word) if word in ("true", "false") else int(word), bits)

    def store_term(self, text, values, contents):
        """Returns the memory after a store instruction."""
        match = re.fullmatch(rf"store i(8|16|32|64) (\S+), {POINTER} (\S+), align 1", text)
        if not match:
            raise Unsupported(text)
        return store(contents, self.value(values, match[3], ADDRESS_BITS), self.value(values, match[2], int(match[1])))

    def term(self, text, previous_block, values, contents, path_condition):
        """Returns the value of an instruction."""
        for pattern, translate in self.FORMS:
            match = re.fullmatch(pattern, text)
            if match:
                return translate(self, match, values, path_condition, previous_block, contents)
        raise Unsupported(text)

    # Each of the following methods returns the value of an instruction of one of the FORMS. `match` is the match of
    # its pattern.

    def binary_term(self, match, values, path_condition, *_):
        operation, flags, bits = match[1], match[2].split(), int(match[3])
        a, b = (self.value(values, word, bits) for word in match.group(4, 5))
        for flag in flags:
            if (operation, flag) not in POISON_CONDITIONS:
                raise Unsupported(match[0])
            self.undefined.append(z3.And(path_condition, POISON_CONDITIONS[operation, flag](a, b)))
        if operation in ("shl", "lshr", "ashr"):
            self.undefined.append(z3.And(path_condition, z3.UGE(b, bits)))
        if operation in ("udiv", "urem"):
            self.undefined.append(z3.And(path_condition, b == 0))
        return BINARY[operation](a, b)

    def comparison_term(self, match, values, *_):
        a, b = (self.value(values, word, int(match[2])) for word in match.group(3, 4))
        return z3.If(COMPARISONS[match[1]](a, b), z3.BitVecVal(1, 1), z3.BitVecVal(0, 1))

    def cast_term(self, match, values, *_):
        bits, extra_bits = int(match[2]), int(match[4]) - int(match[2])
        value = self.value(values, match[3], bits)
        return {"zext": lambda: z3.ZeroExt(extra_bits, value), "sext": lambda: z3.SignExt(extra_bits, value),
                "trunc": lambda: z3.Extract(int(match[4]) - 1, 0, value)}[match[1]]()

    def select_term(self, match, values, *_):
        a, b = (self.value(values, word, int(match[2])) for word in match.group(3, 4))
        return z3.If(self.value(values, match[1], 1) == 1, a, b)

    def call_term(self, match, values, path_condition, *_):
        bits, name = int(match[1]), match[2]
        if name not in INTRINSICS:
            raise Unsupported(match[0])
        arguments = [
            self.value(values, word, int(kind))
            for kind, word in re.findall(r"i(\d+) (?:noundef )?(\S+?)(?:,|$)", match[3])
        ]
        if name in POISON_INPUTS:
            self.undefined.append(z3.And(path_condition, arguments[0] == POISON_INPUTS[name](bits), arguments[1] == 1))
        return INTRINSICS[name](*arguments)

    def phi_term(self, match, values, _, previous_block, *__):
        values_by_block = dict((block, word) for word, block in re.findall(r"\[ (\S+), %([\w.]+) \]", match[2]))
        return self.value(values, values_by_block[previous_block], int(match[1]))

    def load_term(self, match, values, _, __, contents):
        return load(contents, self.value(values, match[2], ADDRESS_BITS), int(match[1]) // 8)

    def pointer_term(self, match, values, *_):
        return self.value(values, match[1], ADDRESS_BITS)

    FORMS = [
        (rf"({'|'.join(BINARY)})((?: nuw| nsw| exact)*) i(\d+) (\S+), (\S+)", binary_term),
        (r"icmp (\w+) i(\d+) (\S+), (\S+)", comparison_term),
        (r"(zext|sext|trunc) i(\d+) (\S+) to i(\d+)", cast_term),
        (r"select i1 (\S+), i(\d+) (\S+), i\d+ (\S+)", select_term),
        (r"(?:tail )?call (?:noundef )?i(\d+) @llvm\.(\w+)\.i\d+\((.*)\)", call_term),
        (r"phi i(\d+) (.*)", phi_term),
        (rf"load i(8|16|32|64), {POINTER} (\S+), align 1", load_term),
        (rf"inttoptr i64 (\S+) to {POINTER}", pointer_term),
        (rf"bitcast {POINTER} (\S+) to {POINTER}", pointer_term),
    ]


def execute(function, arguments, contents):
    """Returns the effect of a function with these arguments and this memory."""
    return Execution(function, arguments, contents).outcome
