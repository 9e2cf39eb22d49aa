"""Parses a 64-bit WebAssembly object file of LLVM: functions with their instructions, data, and the relocations that say
which numbers are addresses. A form that this file does not know is an error, so that nothing is skipped.
"""

from collections import namedtuple

# The encodings of the types of values, and of a block without a result.
VALUE_TYPES, NO_RESULT = {0x7F: "i32", 0x7E: "i64"}, 0x40

# The instructions by their opcodes: name, and kind of operand.
INSTRUCTIONS = {
    0x00: ("unreachable", ""), 0x01: ("nop", ""), 0x02: ("block", "block"), 0x03: ("loop", "block"), 0x04: ("if", "block"),
    0x05: ("else", ""), 0x0B: ("end", ""), 0x0C: ("br", "index"), 0x0D: ("br_if", "index"), 0x0E: ("br_table", "labels"),
    0x0F: ("return", ""), 0x10: ("call", "index"), 0x1A: ("drop", ""), 0x1B: ("select", ""),
    0x20: ("local.get", "index"), 0x21: ("local.set", "index"), 0x22: ("local.tee", "index"),
    0x23: ("global.get", "index"), 0x24: ("global.set", "index"), 0x41: ("i32.const", "number"), 0x42: ("i64.const", "number"),
    0xFC0A: ("memory.copy", "memories"), 0xFC0B: ("memory.fill", "memory"),
}


def consecutive_opcodes(first, operands, names):
    """Returns instructions with consecutive opcodes."""
    return {first + offset: (name, operands) for offset, name in enumerate(names.split())}


for first, operands, names in (
    (
        0x28,
        "place",
        "i32.load i64.load f32.load f64.load i32.load8_s i32.load8_u i32.load16_s i32.load16_u i64.load8_s i64.load8_u "
        "i64.load16_s i64.load16_u i64.load32_s i64.load32_u i32.store i64.store f32.store f64.store i32.store8 "
        "i32.store16 i64.store8 i64.store16 i64.store32",
    ),
    (
        0x45,
        "",
        "i32.eqz i32.eq i32.ne i32.lt_s i32.lt_u i32.gt_s i32.gt_u i32.le_s i32.le_u i32.ge_s i32.ge_u "
        "i64.eqz i64.eq i64.ne i64.lt_s i64.lt_u i64.gt_s i64.gt_u i64.le_s i64.le_u i64.ge_s i64.ge_u",
    ),
    (
        0x67,
        "",
        "i32.clz i32.ctz i32.popcnt i32.add i32.sub i32.mul i32.div_s i32.div_u i32.rem_s i32.rem_u i32.and i32.or "
        "i32.xor i32.shl i32.shr_s i32.shr_u i32.rotl i32.rotr",
    ),
    (
        0x79,
        "",
        "i64.clz i64.ctz i64.popcnt i64.add i64.sub i64.mul i64.div_s i64.div_u i64.rem_s i64.rem_u i64.and i64.or "
        "i64.xor i64.shl i64.shr_s i64.shr_u i64.rotl i64.rotr",
    ),
    (
        0xA7,
        "",
        "i32.wrap_i64 i32.trunc_f32_s i32.trunc_f32_u i32.trunc_f64_s i32.trunc_f64_u i64.extend_i32_s i64.extend_i32_u",
    ),
    (0xC0, "", "i32.extend8_s i32.extend16_s i64.extend8_s i64.extend16_s i64.extend32_s"),
):
    INSTRUCTIONS.update(consecutive_opcodes(first, operands, names))

# Instructions that are not supported, with their names for the error message.
UNSUPPORTED = {
    0x11: "call_indirect",
    0x12: "return_call",
    0x13: "return_call_indirect",
    0x1C: "select of a type",
    0x25: "table.get",
    0x26: "table.set",
    0x3F: "memory.size",
    0x40: "memory.grow",
    0x43: "f32.const",
    0x44: "f64.const",
    0xD0: "ref.null",
    0xD1: "ref.is_null",
    0xD2: "ref.func",
    0xFC08: "memory.init",
    0xFC09: "data.drop",
    **dict(
        enumerate("f32.eq f32.ne f32.lt f32.gt f32.le f32.ge f64.eq f64.ne f64.lt f64.gt f64.le f64.ge".split(), 0x5B)
    ),
    **dict(
        enumerate(
            (
                f"f{bits}.{name}"
                for bits in (32, 64)
                for name in "abs neg ceil floor trunc nearest sqrt add sub mul div min max " "copysign".split()
            ),
            0x8B,
        )
    ),
    **dict(
        enumerate(
            "i64.trunc_f32_s i64.trunc_f32_u i64.trunc_f64_s i64.trunc_f64_u f32.convert_i32_s f32.convert_i32_u "
            "f32.convert_i64_s f32.convert_i64_u f32.demote_f64 f64.convert_i32_s f64.convert_i32_u f64.convert_i64_s "
            "f64.convert_i64_u f64.promote_f32 i32.reinterpret_f32 i64.reinterpret_f64 f32.reinterpret_i32 "
            "f64.reinterpret_i64".split(),
            0xAE,
        )
    ),
}

# The types of relocations for addresses: in an offset of an instruction, in a constant, and in data.
OFFSET, CONSTANT, DATA = 14, 15, 16
# Relocations that can be ignored, because the object already contains the index of the function, type or global variable.
REDUNDANT = (0, 6, 7)
# Relocations with a number that is added to the address of the symbol.
WITH_ADDEND = (3, 4, 5, 8, 9, 11, OFFSET, CONSTANT, DATA, 17, 22, 23)

# An instruction with its operand. The operand of a load, a store or a constant may also be the address of a symbol.
Instruction = namedtuple("Instruction", "name operand symbol")
# A function: its name, the types of its parameters, results and locals (parameters included), and its instructions, or None for an
# imported function.
Function = namedtuple("Function", "name parameters results locals instructions")
# Data: its bytes, its alignment, and its addresses: for each the offset in the data, and the Place to which it points.
Segment = namedtuple("Segment", "data alignment addresses")
# A place in data: the index of the segment, and the offset in it.
Place = namedtuple("Place", "segment offset")


class UnsupportedModule(Exception):
    """The object contains something that this module cannot read or translate."""


class Reader:
    """Reads numbers, names and bytes in sequence."""

    def __init__(self, data, offset=0, end=None):
        self.data, self.offset, self.end = data, offset, len(data) if end is None else end

    def is_at_end(self):
        return self.offset >= self.end

    def byte(self):
        self.offset += 1
        return self.data[self.offset - 1]

    def number(self):
        """Reads an unsigned number (LEB128)."""
        value = shift = 0
        while True:
            byte = self.byte()
            value |= (byte & 0x7F) << shift
            shift += 7
            if byte < 0x80:
                return value

    def signed(self):
        """Reads a signed number (LEB128)."""
        begin = self.offset
        value, bits = self.number(), 7 * (self.offset - begin)
        return value - (1 << bits) if value >> (bits - 1) else value

    def bytes(self, count):
        self.offset += count
        return self.data[self.offset - count:self.offset]

    def name(self):
        return self.bytes(self.number()).decode()

    def part(self):
        """Reads a part that begins with its size, and returns a reader for it."""
        size = self.number()
        self.offset += size
        return Reader(self.data, self.offset - size, self.offset)

    def kind(self):
        """Reads the type of a value."""
        kind = self.byte()
        if kind not in VALUE_TYPES:
            raise UnsupportedModule(f"unknown type of value {kind:#x}")
        return VALUE_TYPES[kind]


def read_operand(reader, operand_kind):
    """Reads the operand of an instruction."""
    if operand_kind == "block":
        kind = reader.byte()
        if kind != NO_RESULT and kind not in VALUE_TYPES:
            raise UnsupportedModule("a block that takes values")
        return VALUE_TYPES.get(kind)
    if operand_kind == "labels":
        return [reader.number() for _ in range(reader.number() + 1)]
    if operand_kind == "place":
        reader.number()  # The alignment is only a hint.
        return reader.number()
    if operand_kind == "number":
        return reader.signed()
    if operand_kind == "index":
        return reader.number()
    for _ in {"memories": "12", "memory": "1", "": ""}[operand_kind]:
        if reader.byte() != 0:
            raise UnsupportedModule("a second memory")
    return None


def read_code(reader):
    """Reads an opcode. Returns the name of the instruction, and the kind of its operand."""
    code = reader.byte()
    code = code << 8 | reader.number() if code == 0xFC else code
    if code not in INSTRUCTIONS:
        raise UnsupportedModule(f"the instruction {UNSUPPORTED.get(code, hex(code))}")
    return INSTRUCTIONS[code]


class Object:
    """The functions and the data of an object file."""

    def __init__(self, data):
        if data[:8] != b"\0asm\1\0\0\0":
            raise UnsupportedModule("it is not WebAssembly")
        self.types, self.declared, self.imported, self.variables = [], [], [], []
        self.bodies, self.data_parts, self.aligned, self.symbols, self.addresses = [], [], [], [], {}
        self.begins = []
        reader = Reader(data, 8)
        while not reader.is_at_end():
            number, part = reader.byte(), reader.part()
            self.begins.append((number, part.offset))
            self.read_section(number, part)
        names = {index: name for kind, index, name in self.symbols if kind == 0}
        self.functions = [self.function(index, names) for index in range(len(self.declared))]
        self.segments = [self.segment(index) for index in range(len(self.data_parts))]

    # ---- Sections ----

    def read_section(self, number, reader):
        """Reads a section. Those of tables, memory, exports and elements, and the number of segments, are not needed."""
        readers = {
            0: self.read_named,
            1: self.read_types,
            2: self.read_imports,
            3: self.read_functions,
            10: self.read_bodies,
            11: self.read_data,
        }
        if number in readers:
            readers[number](reader)
        elif number not in (4, 5, 7, 9, 12):
            raise UnsupportedModule(f"unknown section {number}")

    def read_types(self, reader):
        for _ in range(reader.number()):
            if reader.byte() != 0x60:
                raise UnsupportedModule("a type that is not a function type")
            self.types.append(tuple([reader.kind() for _ in range(reader.number())] for _ in "12"))

    def read_imports(self, reader):
        for _ in range(reader.number()):
            reader.name()
            name, kind = reader.name(), reader.byte()
            if kind == 0:
                self.imported.append(name)
                self.declared.append(reader.number())
            elif kind == 1:
                reader.byte()
                read_limits(reader)
            elif kind == 2:
                read_limits(reader)
            elif kind == 3:
                reader.bytes(2)
                self.variables.append(name)
            else:
                raise UnsupportedModule(f"an import of kind {kind}")

    def read_functions(self, reader):
        self.declared += [reader.number() for _ in range(reader.number())]

    def read_bodies(self, reader):
        self.bodies = [reader.part() for _ in range(reader.number())]

    def read_data(self, reader):
        for _ in range(reader.number()):
            if reader.number() != 0:
                raise UnsupportedModule("passive data, or data of a second memory")
            if reader.byte() not in (0x41, 0x42):
                raise UnsupportedModule("data whose offset is not a constant")
            reader.signed()
            if reader.byte() != 0x0B:
                raise UnsupportedModule("data whose offset is not a single constant")
            self.data_parts.append(reader.part())

    def read_named(self, reader):
        name = reader.name()
        if name == "linking":
            if reader.number() != 2:
                raise UnsupportedModule("an unknown version of the linking section")
            while not reader.is_at_end():
                self.read_linking(reader.byte(), reader.part())
        elif name.startswith("reloc."):
            number, begin = self.begins[reader.number()]
            for _ in range(reader.number()):
                kind, offset, symbol = reader.byte(), reader.number(), reader.number()
                addend = reader.signed() if kind in WITH_ADDEND else 0
                if number in (10, 11) and kind not in REDUNDANT:
                    self.addresses[begin + offset] = (kind, symbol, addend)

    def read_linking(self, kind, reader):
        if kind == 5:
            for _ in range(reader.number()):
                reader.name()
                self.aligned.append(1 << reader.number())
                reader.number()
        elif kind == 8:
            self.symbols = [self.read_symbol(reader) for _ in range(reader.number())]
        elif kind != 7:
            raise UnsupportedModule(f"an unknown part {kind} of the linking section")

    def read_symbol(self, reader):
        """Reads a symbol. Returns its kind, its index or Place, and its name."""
        kind, flags = reader.byte(), reader.number()
        if kind in (0, 2, 5):
            index, is_named = reader.number(), not flags & 0x10 or flags & 0x40
            return kind, index, reader.name() if is_named else self.imported[index] if kind == 0 else None
        if kind == 1:
            name = reader.name()
            return kind, None if flags & 0x10 else read_place(reader), name
        if kind == 3:
            return kind, reader.number(), None
        raise UnsupportedModule(f"a symbol of kind {kind}")

    # ---- Combining the sections ----

    def place(self, offset, kinds):
        """Returns the Place to which the address at an offset in the file points, or None if there is no address."""
        kind, symbol, addend = self.addresses.get(offset, (None, None, None))
        if kind is None:
            return None
        symbol_kind, place, name = self.symbols[symbol]
        if kind not in kinds or symbol_kind != 1 or place is None:
            raise UnsupportedModule(f"an address of kind {kind}, of {name}")
        return Place(place.segment, place.offset + addend)

    def function(self, index, names):
        """Returns a function with its instructions."""
        parameters, results = self.types[self.declared[index]]
        name = names.get(index, f"function_{index}")
        if len(results) > 1:
            raise UnsupportedModule(f"{name} has more than one result")
        if index < len(self.imported):
            return Function(name, parameters, results, parameters, None)
        reader, kinds = self.bodies[index - len(self.imported)], [*parameters]
        reader = Reader(reader.data, reader.offset, reader.end)
        for _ in range(reader.number()):
            count = reader.number()
            kinds += [reader.kind()] * count
        instructions = []
        while not reader.is_at_end():
            instructions.append(self.instruction(reader, name))
        return Function(name, parameters, results, kinds, instructions)

    def instruction(self, reader, function):
        try:
            name, operand_kind = read_code(reader)
            begin = reader.offset
            operand = read_operand(reader, operand_kind)
        except UnsupportedModule as error:
            raise UnsupportedModule(f"{function}: {error}") from None
        # An address is the last number of an instruction. It takes five or ten bytes, which the linker fills in.
        places = {self.place(offset, (OFFSET, CONSTANT)) for offset in range(begin, reader.offset)} - {None}
        return Instruction(name, operand, next(iter(places), None))

    def segment(self, index):
        part = self.data_parts[index]
        addresses = [(offset - part.offset, self.place(offset, (DATA,))) for offset in sorted(self.addresses)
                     if part.offset <= offset < part.end]
        return Segment(part.data[part.offset:part.end], self.aligned[index] if self.aligned else 1, addresses)


def read_place(reader):
    """Reads the place of a symbol, and skips its size."""
    place = Place(reader.number(), reader.number())
    reader.number()
    return place


def read_limits(reader):
    """Skips the limits of a memory or a table, which the linker sets."""
    flags = reader.number()
    for _ in range(1 + (flags & 1)):
        reader.number()
