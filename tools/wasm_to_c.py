"""Translates an object of 64-bit WebAssembly (`wasm_object.py`) to C99, which includes `c/library/portable/machine.h`.

    tools/wasm_to_c.py OBJECT NAME ..          prints these functions as C, and all functions that they call

The memory of the object is the memory of the program. An address is a pointer as a 64-bit number, even if pointers have
32 bits, so nothing is copied. A number in memory is little-endian on every processor. There are no global variables, so
threads share nothing. Instead, each function that C calls has two local arrays: the stack of the WebAssembly machine, as
large as its deepest call needs (`sp` is its end), and a copy of the data that contains addresses (`table`).

TABLE translates each arithmetic instruction, load and store. Blocks and branches become `goto`. Instructions that the
translator does not know are errors: floats, vectors, indirect calls, growing memory, and recursion.

tests/c/instruction_proofs.py proves each row of TABLE with z3, as clang compiles it. Control flow, local variables, the stack
and the data are tested and not proved: tests/c/wasm_translation.py compares each row, and random functions, with another
implementation of WebAssembly.
"""

import re
import sys
from collections import namedtuple

from wasm_object import Object, UnsupportedModule

# The instructions and their C expressions. `a` and `b` are the operands. A comparison gives 0 or 1. A load is evaluated before the
# next store, and an instruction that may end the program is evaluated at its place in the order.
TABLE = """
    i32.eqz           a == 0                            i64.eqz           a == 0
    i32.eq            a == b                            i64.eq            a == b
    i32.ne            a != b                            i64.ne            a != b
    i32.lt_s          order32(a) < order32(b)           i64.lt_s          order64(a) < order64(b)
    i32.lt_u          a < b                             i64.lt_u          a < b
    i32.gt_s          order32(a) > order32(b)           i64.gt_s          order64(a) > order64(b)
    i32.gt_u          a > b                             i64.gt_u          a > b
    i32.le_s          order32(a) <= order32(b)          i64.le_s          order64(a) <= order64(b)
    i32.le_u          a <= b                            i64.le_u          a <= b
    i32.ge_s          order32(a) >= order32(b)          i64.ge_s          order64(a) >= order64(b)
    i32.ge_u          a >= b                            i64.ge_u          a >= b

    i32.add           a + b                             i64.add           a + b
    i32.sub           a - b                             i64.sub           a - b
    i32.mul           a * b                             i64.mul           a * b
    i32.and           a & b                             i64.and           a & b
    i32.or            a | b                             i64.or            a | b
    i32.xor           a ^ b                             i64.xor           a ^ b
    i32.shl           a << (b & 31)                     i64.shl           a << (b & 63)
    i32.shr_u         a >> (b & 31)                     i64.shr_u         a >> (b & 63)
    i32.shr_s         shr_s32(a, b)                     i64.shr_s         shr_s64(a, b)
    i32.rotl          rotl32(a, b)                      i64.rotl          rotl64(a, b)
    i32.rotr          rotr32(a, b)                      i64.rotr          rotr64(a, b)
    i32.clz           clz32(a)                          i64.clz           clz64(a)
    i32.ctz           ctz32(a)                          i64.ctz           ctz64(a)
    i32.popcnt        popcnt32(a)                       i64.popcnt        popcnt64(a)

    i32.div_s         div_s32(a, b)                     i64.div_s         div_s64(a, b)
    i32.div_u         div_u32(a, b)                     i64.div_u         div_u64(a, b)
    i32.rem_s         rem_s32(a, b)                     i64.rem_s         rem_s64(a, b)
    i32.rem_u         rem_u32(a, b)                     i64.rem_u         rem_u64(a, b)

    i32.wrap_i64      (u32) a                           i64.extend_i32_u  (u64) a
    i32.extend8_s     (u32) sign8(a)                    i64.extend8_s     sign8(a)
    i32.extend16_s    (u32) sign16(a)                   i64.extend16_s    sign16(a)
    i64.extend_i32_s  sign32(a)                         i64.extend32_s    sign32(a)

    i32.load          load32(a)                         i64.load          load64(a)
    i32.load8_u       load8(a)                          i64.load8_u       (u64) load8(a)
    i32.load8_s       (u32) sign8(load8(a))             i64.load8_s       sign8(load8(a))
    i32.load16_u      load16(a)                         i64.load16_u      (u64) load16(a)
    i32.load16_s      (u32) sign16(load16(a))           i64.load16_s      sign16(load16(a))
    i64.load32_s      sign32(load32(a))                 i64.load32_u      (u64) load32(a)
    i32.store         store32(a, b)                     i64.store         store64(a, b)
    i32.store8        store8(a, b)                      i64.store8        store8(a, b)
    i32.store16       store16(a, b)                     i64.store16       store16(a, b)
    i64.store32       store32(a, b)
"""
IN_C = dict(word.split(maxsplit=1) for row in TABLE.splitlines() for word in re.split(r" {2,}(?=i\d\d\.)", row.strip()) if word)
ENDING_THE_PROGRAM = ("div_", "rem_")

TYPES = {"i32": "u32", "i64": "u64"}
BITS = {"i32": 32, "i64": 64}
# The global variable of the object that is the stack pointer.
STACK_POINTER = "__stack_pointer"
# Stands for the linear memory in the sets of variables that an expression reads.
MEMORY = "memory"
# The prefix of functions that C calls or provides, and the prefix of the other functions.
PREFIX, WITHIN = "machine_", "do_"

# A value on the stack of the machine, as a C expression: its type, the variables that it reads, true if it needs no parentheses,
# its condition if it is a comparison, and its number if it is a constant.
Value = namedtuple("Value", "text kind reads is_word truth number", defaults=(frozenset(), False, None, None))
EMPTY = frozenset()


def in_parentheses(value):
    return value.text if value.is_word else f"({value.text})"


def condition(value):
    """Returns the condition of an `if` that is true if the value is not 0."""
    return value.truth or f"{in_parentheses(value)} != 0"


def constant(kind, number):
    """Returns a constant. In WebAssembly it is signed."""
    number %= 1 << BITS[kind]
    digits = str(number) if number < 100000 else hex(number)
    return Value(f"{digits}u" if kind == "i32" else f"UINT64_C({digits})", kind, EMPTY, True, None, number)


class Block:
    """An open block: its instruction, the type of its result, and the height of the stack below it."""

    def __init__(self, kind, result_type, number, height):
        self.kind, self.result_type, self.height = kind, result_type, height
        self.label, self.result = f"{'again' if kind == 'loop' else 'after'}{number}", f"r{number}"
        self.is_branched_to = self.has_else = self.then_ends = False


class Body:
    """Translates the instructions of a function."""

    def __init__(self, translation, function):
        self.all, self.function = translation, function
        self.lines, self.stack, self.blocks = [], [], []
        self.temporaries = self.opened = 0
        # True if the next instruction is never reached, and the number of blocks opened since then.
        self.is_unreachable, self.passed_over = False, 0
        self.calls, self.reads_table, self.frame = [], False, 0
        self.uses_stack = any(instruction.name.startswith("global") for instruction in function.instructions)
        if self.uses_stack:
            self.frame = frame_of(function)
        self.blocks.append(Block("function", function.results[0] if function.results else None, 0, 0))
        for instruction in function.instructions:
            if self.is_unreachable:
                self.pass_over(instruction)
            else:
                self.translate(instruction)
        if self.blocks:
            raise UnsupportedModule(f"{function.name}: a block does not end")

    # ---- Writing ----

    def line(self, text):
        self.lines.append("    " * len(self.blocks) + text)

    def pop(self):
        if len(self.stack) <= self.blocks[-1].height:
            raise UnsupportedModule(f"{self.function.name}: the stack is empty")
        return self.stack.pop()

    def push(self, *parts):
        self.stack.append(Value(*parts))

    def keep(self, value):
        """Stores a value in a new constant."""
        self.temporaries += 1
        name = f"t{self.temporaries}"
        self.line(f"const {TYPES[value.kind]} {name} = {value.text};")
        return Value(name, value.kind, EMPTY, True)

    def keep_what_reads(self, name):
        """Stores the values on the stack that read the variable `name`, or MEMORY, which is about to change."""
        self.stack = [self.keep(each) if name in each.reads else each for each in self.stack]

    # ---- Instructions ----

    def pass_over(self, instruction):
        """Skips an instruction that is never reached, unless it ends the block."""
        if instruction.name in ("block", "loop", "if"):
            self.passed_over += 1
        elif self.passed_over > 0:
            self.passed_over -= instruction.name == "end"
        elif instruction.name in ("else", "end"):
            self.translate(instruction)

    def translate(self, instruction):
        kind, _, rest = instruction.name.partition(".")
        if instruction.name in IN_C:
            self.number(instruction, kind if kind in TYPES else None)
        else:
            method = getattr(self, f"do_{kind}" if not rest else f"do_{kind}_{rest}", None)
            if method is None:
                raise UnsupportedModule(f"{self.function.name}: the instruction {instruction.name}")
            method(instruction)

    def number(self, instruction, kind):
        """Translates an instruction of TABLE."""
        text = IN_C[instruction.name]
        is_store, has_two = ".store" in instruction.name, re.search(r"\bb\b", text)
        b = self.pop() if has_two else None
        a = self.pop() if not re.search(r"\.(load|store)", instruction.name) else self.address(instruction)
        reads = a.reads | (b.reads if b else EMPTY) | (frozenset([MEMORY]) if ".load" in instruction.name else EMPTY)
        if b and b.number is not None:
            # A constant shift count is reduced now.
            text = re.sub(r"\(b & (\d+)\)", lambda match: str(b.number & int(match[1])), text)
        text = f"!({a.truth})" if instruction.name.endswith("eqz") and a.truth else in_c(text, a, b)
        if is_store:
            self.keep_what_reads(MEMORY)
            self.line(f"{text};")
        elif re.search(r" [=!<>]=? ", IN_C[instruction.name]):
            self.push(f"(u32) ({text})", "i32", reads, False, text)
        else:
            value = Value(text, kind, reads, bool(re.fullmatch(r"\w+\([^()]*\)", IN_C[instruction.name])))
            self.stack.append(self.keep(value) if any(word in instruction.name for word in ENDING_THE_PROGRAM) else value)

    def address(self, instruction):
        """Returns the address of a load or a store: a value from the stack plus the offset of the instruction."""
        base = self.pop()
        if instruction.symbol is not None:
            data = self.data(instruction.symbol)
            return data if base.number == 0 else Value(f"{in_parentheses(base)} + {in_parentheses(data)}", "i64", base.reads)
        return Value(f"{in_parentheses(base)} + {instruction.operand}", "i64", base.reads) if instruction.operand else base

    def data(self, place):
        """Returns the address of data."""
        text, is_in_table = self.all.address_of(place)
        self.reads_table |= is_in_table
        return Value(text, "i64", EMPTY, "+" not in text)

    def do_i32_const(self, instruction):
        self.stack.append(constant("i32", instruction.operand) if instruction.symbol is None else self.data(instruction.symbol))

    def do_i64_const(self, instruction):
        self.stack.append(constant("i64", instruction.operand) if instruction.symbol is None else self.data(instruction.symbol))

    def do_local_get(self, instruction):
        name = f"l{instruction.operand}"
        self.push(name, self.function.locals[instruction.operand], frozenset([name]), True)

    def do_local_set(self, instruction):
        name, value = f"l{instruction.operand}", self.pop()
        self.keep_what_reads(name)
        self.line(f"{name} = {value.text};")

    def do_local_tee(self, instruction):
        self.do_local_set(instruction)
        self.do_local_get(instruction)

    def do_global_get(self, instruction):
        self.all.check_variable(instruction)
        self.push("sp", "i64", frozenset(["sp"]), True)

    def do_global_set(self, instruction):
        self.all.check_variable(instruction)
        value = self.pop()
        self.keep_what_reads("sp")
        self.line(f"sp = {value.text};")

    def do_drop(self, _):
        self.pop()

    def do_select(self, _):
        choice, b, a = self.pop(), self.pop(), self.pop()
        self.push(f"{condition(choice)} ? {in_parentheses(a)} : {in_parentheses(b)}", a.kind, choice.reads | a.reads | b.reads)

    def do_nop(self, _):
        pass

    def do_unreachable(self, _):
        self.line("never();")
        self.is_unreachable = True

    def do_memory_copy(self, _):
        self.change("copy")

    def do_memory_fill(self, _):
        self.change("fill")

    def change(self, name):
        """Translates an instruction that writes many bytes, with three operands."""
        arguments = [self.pop() for _ in range(3)][::-1]
        self.keep_what_reads(MEMORY)
        self.line(f"{name}({', '.join(argument.text for argument in arguments)});")

    def do_call(self, instruction):
        called = self.all.object.functions[instruction.operand]
        arguments = [self.pop() for _ in called.parameters][::-1]
        self.keep_what_reads(MEMORY)
        self.calls.append(instruction.operand)
        text = self.all.call(instruction.operand, [argument.text for argument in arguments])
        if called.results:
            self.stack.append(self.keep(Value(text, called.results[0])))
        else:
            self.line(f"{text};")

    # ---- Blocks ----

    def do_block(self, instruction):
        self.begin(instruction, "{")

    def do_loop(self, instruction):
        self.begin(instruction, "{")

    def do_if(self, instruction):
        self.begin(instruction, f"if ({condition(self.pop())}) {{")

    def begin(self, instruction, text):
        """Begins a block. Values on the stack are stored, because the block may change what they read."""
        self.stack = [self.keep(value) if value.reads else value for value in self.stack]
        self.opened += 1
        block = Block(instruction.name, instruction.operand, self.opened, len(self.stack))
        if block.result_type:
            self.line(f"{TYPES[block.result_type]} {block.result};")
        if instruction.name == "loop":
            self.line(f"{block.label}:;")
        self.line(text)
        self.blocks.append(block)

    def give(self, block):
        """Stores the result of a block, if its end is reached."""
        if block.result_type and not self.is_unreachable:
            self.line(f"{'return' if block.kind == 'function' else f'{block.result} ='} {self.pop().text};")
        del self.stack[block.height:]

    def do_else(self, _):
        block = self.blocks[-1]
        self.give(block)
        block.has_else, block.then_ends, self.is_unreachable = True, not self.is_unreachable, False
        self.lines.append("    " * (len(self.blocks) - 1) + "} else {")

    def do_end(self, _):
        block = self.blocks[-1]
        self.give(block)
        self.blocks.pop()
        if block.kind == "function":
            return
        ends = not self.is_unreachable or block.then_ends or (block.kind == "if" and not block.has_else)
        self.line("}")
        if block.kind != "loop" and block.is_branched_to:
            self.line(f"{block.label}:;")
            ends = True
        self.is_unreachable = not ends
        if block.result_type and ends:
            self.push(block.result, block.result_type, frozenset([block.result]), True)

    def branch(self, depth):
        """Returns the C statements of a branch, which store the result of the block first."""
        block = self.blocks[-1 - depth]
        result_type = block.result_type if block.kind != "loop" else None
        result = f" {self.stack[-1].text}" if result_type else ""
        if block.kind == "function":
            return f"return{result};"
        block.is_branched_to = True
        return f"{block.result} ={result}; goto {block.label};" if result_type else f"goto {block.label};"

    def do_br(self, instruction):
        self.line(self.branch(instruction.operand))
        self.is_unreachable = True

    def do_br_if(self, instruction):
        value = self.pop()
        if self.blocks[-1 - instruction.operand].result_type and self.stack:
            # The result is read twice.
            self.stack[-1] = self.keep(self.stack[-1])
        self.line(f"if ({condition(value)}) {{ {self.branch(instruction.operand)} }}")

    def do_br_table(self, instruction):
        value = self.pop()
        *branches, last = map(self.branch, instruction.operand)
        self.line(f"switch ({value.text}) {{")
        for number, branch in enumerate(branches):
            if branch != last:
                self.line(f"case {number}: {branch}")
        self.line(f"default: {last}")
        self.line("}")
        self.is_unreachable = True

    def do_return(self, _):
        self.line(self.branch(len(self.blocks) - 1))
        self.is_unreachable = True


def in_c(text, a, b):
    """Returns the C expression of a row of TABLE with its operands. An operand that is a whole argument of a call gets
    no parentheses."""
    values = {"a": a, "b": b}
    return re.sub(r"(?<=\w\()([ab])(?=[,)])|(?<=, )([ab])(?=\))|\b([ab])\b",
                  lambda value: in_parentheses(values[value[3]]) if value[3] else values[value[1] or value[2]].text, text)


def frame_of(function):
    """Returns how many bytes of the machine's stack a function takes, which its code states exactly once."""
    code = function.instructions
    reads = [position for position, instruction in enumerate(code) if instruction.name == "global.get"]
    if len(reads) == 1 and code[reads[0] + 1].name == "local.set":
        # LLVM may keep the stack pointer in a variable until the frame is first used. Nothing else may be in that variable.
        variable = code[reads[0] + 1].operand
        uses = [(position, instruction.name) for position, instruction in enumerate(code)
                if instruction.name.startswith("local.") and instruction.operand == variable]
        is_read_once = [name for _, name in uses] == ["local.set", "local.get"]
        reads = [position for position, name in uses if name == "local.get"] if is_read_once else []
    frames = [(code[position + 1], code[position + 2].name) for position in reads]
    if len(frames) != 1 or frames[0][0].name != "i64.const" or frames[0][1] not in ("i64.sub", "i64.add"):
        raise UnsupportedModule(f"{function.name}: it is unclear how much of the stack it takes")
    (size, operation), = frames
    return size.operand if operation == "i64.sub" else -size.operand


class Translation:
    """Translates functions of an object, and all functions that they call."""

    def __init__(self, wasm_object, exported):
        self.object, self.exported = wasm_object, exported
        self.numbers = {function.name: number for number, function in enumerate(wasm_object.functions)}
        self.segments, self.table, self.names, self.bodies = set(), {}, {}, {}
        self.table_bytes = 0
        missing = [name for name in exported if name not in self.numbers]
        if missing:
            raise UnsupportedModule(f"the object has no {', '.join(missing)}")
        for name in exported:
            self.visit(self.numbers[name], [])
        self.pointers = self.table_pointers()

    def visit(self, number, above):
        """Translates a function after all functions that it calls."""
        if number in above:
            raise UnsupportedModule(f"{self.object.functions[number].name} calls itself")
        if number in self.bodies or self.object.functions[number].instructions is None:
            return
        body = Body(self, self.object.functions[number])
        for call in sorted({*body.calls}):
            self.visit(call, [*above, number])
        # The function gets the stack and the table as parameters if it or a function below it needs them.
        below = [self.bodies[call] for call in body.calls if call in self.bodies]
        body.stack_bytes = body.frame + max((name.stack_bytes for name in below), default=0)
        body.extra_parameters = [name for name, is_needed in (
            ("sp", body.uses_stack or any("sp" in name.extra_parameters for name in below)),
            ("table", body.reads_table or any("table" in name.extra_parameters for name in below))) if is_needed]
        self.bodies[number] = body

    # ---- Names and addresses ----

    def check_variable(self, instruction):
        if self.object.variables[instruction.operand] != STACK_POINTER:
            raise UnsupportedModule(f"the global variable {self.object.variables[instruction.operand]}")

    def name(self, number):
        """Returns the name of a function in C."""
        function = self.object.functions[number]
        if function.instructions is None:
            return PREFIX + function.name
        if number not in self.names:
            name = WITHIN + re.sub(r"\W+", "_", function.name).strip("_")
            self.names[number] = name if name not in self.names.values() else f"{name}_{number}"
        return self.names[number]

    def call(self, number, arguments):
        """Returns a call. Its mark is replaced by the stack and the table once it is known if the function needs them."""
        return f"{self.name(number)}(@{number}@{', '.join(arguments)})"

    def address_of(self, place):
        """Returns the address of data, and true if the data is in the table."""
        after = f" + {place.offset}" if place.offset else ""
        if not self.object.segments[place.segment].addresses:
            self.segments.add(place.segment)
            return f"address(data{place.segment}){after}", False
        if place.segment not in self.table:
            self.table_bytes += -self.table_bytes % 16
            self.table[place.segment] = self.table_bytes
            self.table_bytes += len(self.object.segments[place.segment].data)
        offset = self.table[place.segment] + place.offset
        return f"table + {offset}" if offset else "table", True

    def table_pointers(self):
        """Returns the lines that write the addresses into the table. This may add more data to the table."""
        lines, done = [], set()
        while {*self.table} - done:
            for segment in sorted({*self.table} - done):
                done.add(segment)
                lines += [f"store64(table + {self.table[segment] + offset}, {self.address_of(place)[0]});"
                          for offset, place in self.object.segments[segment].addresses]
        return lines

    # ---- Writing ----

    def text(self):
        """Returns the whole C file."""
        called = sorted({call for body in self.bodies.values() for call in body.calls if call not in self.bodies})
        return "\n".join([
            '#include "machine.h"', "",
            *(line for segment in sorted(self.segments) for line in self.data_lines(segment)),
            *self.table_lines(),
            *(f"{self.declaration(self.object.functions[name], self.name(name))};" for name in called),
            *(line for number, body in self.bodies.items() for line in self.function_lines(number, body)),
            *(line for name in self.exported for line in self.exported_lines(self.numbers[name])), ""])

    def data_lines(self, segment):
        """Returns an array with data, after a comment with its text if it has one."""
        data, alignment, _ = self.object.segments[segment]
        words = data.decode("latin-1")
        comment = [f"/* {words} */"] if re.fullmatch(r"[ -~]{6,}", words) and "*/" not in words else []
        aligned = f"ALIGNED({alignment}) " if alignment > 1 else ""
        return [*comment, f"static {aligned}const u8 data{segment}[{max(1, len(data))}] = {{", *byte_lines(data or b"\0"), "};"]

    def table_lines(self):
        """Returns the data that contains addresses, and the function that writes the table."""
        if not self.table:
            return []
        data = bytearray(self.table_bytes)
        for segment, offset in self.table.items():
            data[offset:offset + len(self.object.segments[segment].data)] = self.object.segments[segment].data
        return ["", f"static const u8 table_bytes[{self.table_bytes}] = {{", *byte_lines(data), "};", "",
                "static void write_table(u64 table)", "{", "    copy(table, address(table_bytes), sizeof table_bytes);",
                *(f"    {pointer}" for pointer in self.pointers), "}", ""]

    def declaration(self, function, name, extra_parameters=(), words="", first=0):
        parameters = [
            *(f"u64 {name}" for name in extra_parameters),
            *(f"{TYPES[kind]} l{number}" for number, kind in enumerate(function.parameters, first)),
        ]
        return f"{words}{TYPES[function.results[0]] if function.results else 'void'} {name}({', '.join(parameters) or 'void'})"

    def function_lines(self, number, body):
        function = body.function
        text = re.sub(r"@(\d+)@(?=(\)?))", self.extra_arguments, "\n".join(body.lines))
        # Labels of loops to which no branch goes back are removed.
        text = re.sub(r"(?m)^ *(again\d+):;\n", lambda value: value[0] if f"goto {value[1]};" in text else "", text)
        used = {*re.findall(r"\b(?:l\d+|sp|table)\b", text)}
        names = [(f"l{index}", kind) for index, kind in enumerate(function.locals)]
        variables = [
            (kind, [name for name, local_kind in names[len(function.parameters) :] if local_kind == kind and name in used])
            for kind in TYPES
        ]
        unused = [
            name
            for name in [*body.extra_parameters, *(name for name, _ in names[: len(function.parameters)])]
            if name not in used
        ]
        return ["", self.declaration(function, self.name(number), body.extra_parameters, "static "), "{",
                *(f"    {TYPES[kind]} {', '.join(f'{name} = 0' for name in names_of_kind[begin:begin + 16])};"
                  for kind, names_of_kind in variables for begin in range(0, len(names_of_kind), 16)),
                *(f"    (void) {name};" for name in unused), text, "}"]

    def extra_arguments(self, match):
        """Returns the stack and the table, as arguments of a call before its own ones."""
        body = self.bodies.get(int(match[1]))
        return ", ".join(body.extra_parameters if body else []) + (", " if body and body.extra_parameters and not match[2] else "")

    def exported_lines(self, number):
        """Returns a function that C calls."""
        body, function = self.bodies[number], self.object.functions[number]
        declaration = self.declaration(function, PREFIX + function.name)
        arguments = [*body.extra_parameters, *(f"l{index}" for index in range(len(function.parameters)))]
        return ["", f"{declaration};", "", declaration, "{",
                *([f"    STACK({body.stack_bytes + -body.stack_bytes % 16});"] if "sp" in body.extra_parameters else []),
                *(["    TABLE(sizeof table_bytes);", "    write_table(table);"] if "table" in body.extra_parameters else []),
                f"    {'return ' if function.results else ''}{self.name(number)}({', '.join(arguments)});", "}"]


def byte_lines(data):
    return ["    " + ", ".join(map(str, data[begin:begin + 24])) + "," for begin in range(0, len(data), 24)]


def translate(data, exported):
    """Returns the C for these functions of an object."""
    return Translation(Object(data), exported).text()


if __name__ == "__main__":
    if len(sys.argv) < 3:
        sys.exit(__doc__)
    with open(sys.argv[1], "rb") as opened:
        sys.stdout.write(translate(opened.read(), sys.argv[2:]))
