#!/usr/bin/env python3
# SPDX-License-Identifier: MIT
"""Generates the files of the packages in `bindings/` that repeat declarations of include/minisign.h and include/minisign_list.h.

    tools/bindings.py            writes the files
    tools/bindings.py --check    fails if a file is not what the header says; the last line is `N passed, M failed`

    Rust          rust-sys/src/header.rs: numbers, structs and calls, as the header declares them;
                  rust/src/raw/header.rs: errors, and a safe function for each call
    Go            errors.go: errors; header.go: calls
    Python        errors.py: errors; _header.py: numbers, structs and calls, of include/minisign_install.h too
    JavaScript    errors.js and errors.d.ts: errors; header.js: numbers, structs and calls for signing;
                  calls.js: numbers and structs for verifying, which the page uses too

Parts of these files are written by hand: their heads, code that several calls share, and all code of calls.js.

Needs Python 3.9 or later and clang.
"""

import itertools
import re
import sys
import textwrap

import boundary
import sources
from c_header import FILE as HEADER, LIST_HEADER, all_headers, parsed
from sources import SourceError

RUST, RUST_SYS = "bindings/rust/src/raw/header.rs", "bindings/rust-sys/src/header.rs"
GO_ERRORS = "bindings/go/errors.go"
GO = "bindings/go/header.go"
JAVASCRIPT_ERRORS, JAVASCRIPT_TYPES = "bindings/javascript/errors.js", "bindings/javascript/errors.d.ts"
JAVASCRIPT, JAVASCRIPT_CALLS = "bindings/javascript/header.js", "bindings/javascript/calls.js"
PYTHON_ERRORS = "bindings/python/src/minisign_proved/errors.py"
PYTHON = "bindings/python/src/minisign_proved/_header.py"


def hand_written_part(path, begin, end):
    """Returns a hand-written part of a file: from the text `begin` to the end of the text `end`."""
    text = sources.read(path)
    if end not in text.partition(begin)[2]:
        raise SourceError(f"{path} lacks {begin!r}, or after it {end!r}")
    return begin + text.partition(begin)[2].partition(end)[0] + end


def name_of(constant):
    """Returns a name in camel case: NOT_BEGUN becomes NotBegun, and minisign_public_key PublicKey."""
    return "".join(word.capitalize() for word in constant.removeprefix("minisign_").split("_"))


# Calls for which only a declaration is generated, and no function. In the packages, the library allocates the memory of
# scrypt, values are cleared by code of the package's language, and keys are never sealed with limits below the minimum.
# Only the Rust package has the kinds of errors and the records of secret keys, which it clears;
# bindings/rust/src/raw.rs makes these calls by hand-written code.
WITHOUT_FUNCTION = (
    "minisign_opening_memory", "minisign_open_sealed_key_in_place", "minisign_clear",
    "minisign_secret_key_text_with_any_limits", "minisign_error_kind", "minisign_secret_key_record",
)
# Calls for lists that each package makes by hand-written code. Two of them return the number of a line even after an
# error. The third one reads and changes a length; packages do not write lists.
LISTS_BY_HAND = ("minisign_list_find", "minisign_list_entries", "minisign_list_append")


# ---- The calls as functions of a package ----


def role_of(call, parameter, after, header):
    """Returns the kind of a parameter, which is a key of the tables below, and the number of parameters that form one
    value: two for a pointer and its length, otherwise one."""
    structs = header.structs
    if parameter.kind in header.in_parts:
        return "parts", 1
    if "presence" in parameter.roles:
        return "password", 3
    if parameter.count:
        return ("array" if parameter.const else "new array"), 1
    if parameter.star and parameter.kind in ("uint8_t", "char"):
        if not after or after[0].kind != "size_t" or after[0].star:
            raise SourceError(f"{call.name}: {parameter.name}, which is not followed by a length")
        if parameter.const:
            return "bytes", 2
        if "room" not in parameter.roles:
            raise SourceError(f"{call.name}: {parameter.name} has no role `room`")
        if [each.kind + each.star for each in after] == ["size_t", "size_t*"]:
            return "text", 3
        return ("short text" if call.answer == "size_t" else "message"), 2
    if parameter.star and parameter.kind in structs:
        is_new = "output" in parameter.roles
        return "struct" if not is_new else "secret" if parameter.kind in header.secrets else "new struct", 1
    return "new number" if parameter.star else "answer" if parameter.kind == "enum minisign_answer" else "number", 1


def roles(call, header, rest):
    """Yields the kind of each parameter in `rest`, with the parameter. A length belongs to the bytes in front of it."""
    while rest:
        role, count = role_of(call, rest[0], rest[1:], header)
        yield role, rest[1 if role == "password" else 0]
        rest = rest[count:]


def buffer_size_of(call, parameter, header, length_of, field_of):
    """Returns the size of the buffer of a parameter, as its role says: a sum of numbers, constants, and lengths of other
    parameters."""
    constants = {name for name, *_ in [*header.numbers, *header.sizes]}
    lengths = {length.name: bytes.name for bytes, length in boundary.lengths([*header.flat_parameters(call)]) if length}
    lengths |= {name.rpartition("->")[2]: bytes_name.rpartition("->")[2] for name, bytes_name in lengths.items()}

    def term(word):
        if word in lengths:
            return length_of(lengths[word])
        if not word.isdigit() and word not in constants and "." not in word:
            raise SourceError(f"{call.name}: the role of {parameter.name} names {word}, which is unknown")
        return field_of(word) if "." in word else word

    return " + ".join(term(word) for word in parameter.roles.get("room", "0").split(" + "))


def columns_of(call, header, table, kind_of, length_of, field_of=str):
    """Returns five lists for the function that makes a call, from the rows of a table for its parameters: the function's own
    parameters, the lines before the call, the arguments of the call, and the types and the values of the results. For a struct
    of parts, the function has a parameter for each part."""
    columns = [[], [], [], [], []]

    def filled(role, parameter):
        return {
            "name": parameter.name,
            "of": kind_of(parameter.kind, header),
            "count": parameter.count,
            "mut": "" if parameter.const else "mut ",
            "room": buffer_size_of(call, parameter, header, length_of, field_of),
            "parts": table["between parts"].join(parts_of(parameter)),
        }

    def parts_of(parameter):
        fields = header.structs[parameter.kind] if parameter.kind in header.in_parts else ()
        length_names = {field.name: length.name for field, length in boundary.lengths(fields) if length}
        for role, part in roles(call, header, fields):
            parameter, field = table[f"{role} among parts"]
            columns[0].append(parameter.format(**filled(role, part)))
            yield field.format(**filled(role, part), length=length_names.get(part.name))

    for role, parameter in roles(call, header, call.parameters):
        values = filled(role, parameter)
        for column, form in zip(columns, table[role]):
            column += [form.format(**values)] if form else []
    return columns


# The tables have a row for each kind of parameter, with the five columns that columns_of returns.

# ---- Python, and the errors of Go ----

C_TYPES = {"uint8_t": "c_ubyte", "char": "c_ubyte", "uint32_t": "c_uint32", "uint64_t": "c_uint64", "int64_t": "c_int64",
           "size_t": "c_size_t", "void": "None"}

PYTHON_ROLES = {
    "password": ("{name}: Optional[bytes]", "", '0 if {name} is None else 1, {name}, len({name} or b"")', "", ""),
    "array": ("{name}: Octets", "", "{name}", "", ""),
    "new array": ("", "{name} = create_string_buffer({count})", "{name}", "bytes", "{name}.raw"),
    "bytes": ("{name}: bytes", "", "{name}, len({name})", "", ""),
    "text": ("", "length = c_size_t()\n{name} = create_string_buffer({room})", "{name}, len({name}), length",
             "bytes", "{name}.raw[: length.value]"),
    "short text": ("", "{name} = create_string_buffer({room})", "{name}, len({name})", "bytes", "{name}.raw[:length]"),
    "message": ("", "{name} = create_string_buffer({room})", "{name}, len({name})", "bytes", "{name}.raw"),
    "struct": ("{name}: {of}", "", "{name}", "", ""),
    "new struct": ("", "{name} = {of}()", "{name}", "{of}", "{name}"),
    "secret": ("", "{name} = {of}()", "{name}", "{of}", "{name}"),
    "new number": ("", "{name} = {of}()", "{name}", "int", "{name}.value"),
    "answer": ("{name}: bool", "", "ANSWER_YES if {name} is True else ANSWER_NO", "", ""),
    "number": ("{name}: int", "", "{name}", "", ""),
    "parts": ("", "", "{of}({parts})", "", ""),
    "between parts": ", ",
    "new array among parts": ("{name}: Octets", "(c_ubyte * {count})(*{name})"),
    "bytes among parts": ("{name}: bytes", "{name}, len({name})"),
}


def ctype(kind, header):
    """Returns a type of the header in ctypes."""
    if kind not in C_TYPES and kind not in header.structs and not kind.startswith("enum "):
        raise SourceError(f"the type {kind}")
    return name_of(kind) if kind in header.structs else C_TYPES.get(kind, "c_uint32")


def argument(parameter, header):
    """Returns the type of an argument in ctypes: bytes, a pointer to a number or a struct, or a number."""
    if parameter.kind in ("uint8_t", "char", "void"):
        return "c_void_p"
    return f"POINTER({ctype(parameter.kind, header)})" if parameter.star else ctype(parameter.kind, header)


# The maximum length of a line of Python (the default of black).
PYTHON_WIDTH = 88


def items_of(words):
    """Splits a text at its commas, except those inside brackets."""
    items, depth = [""], 0
    for letter in words:
        depth += (letter in "([{") - (letter in ")]}")
        items += [""] if letter == "," and depth == 0 else []
        items[-1] += "" if letter == "," and depth == 0 else letter
    return [item.strip() for item in items if item.strip()]


def in_brackets(begin, words, end, is_list=False):
    """Returns a line with items in brackets, as black formats it: on one line, or the items on one line, or each on its own line.
    The items of a list that is not an argument list never share a line of their own."""
    items, indent = items_of(words), begin[:len(begin) - len(begin.lstrip())]
    if len(begin + words + end) <= PYTHON_WIDTH:
        return begin + words + end
    if not is_list and len(indent) + 4 + len(words) <= PYTHON_WIDTH:
        return f"{begin}\n{indent}    {words}\n{indent}{end}"
    inside = "".join(f"{python_line(f'{indent}    {item},')}\n" for item in items)
    return f"{begin}\n{inside}{indent}{end}"


def python_line(line):
    """Returns a line, or several lines if it is too long and ends with a call."""
    begin, _, rest = line.partition("(")
    words, _, end = rest.rpartition(")")
    return line if len(line) <= PYTHON_WIDTH else in_brackets(f"{begin}(", words, f"){end}")


def docstring(text, indent):
    """Returns a text as a docstring. No line is broken inside of a quotation."""
    width = PYTHON_WIDTH - len(indent)
    text = re.sub(r'"[^"]*"', lambda quotation: quotation[0].replace(" ", "\0"), text)
    lines = textwrap.wrap(f'"""{text}', width, break_on_hyphens=False)
    if len(lines) == 1 and len(lines[0]) + 3 > width:
        # black moves the closing quotes of a single line back to its end, however long it is.
        lines = textwrap.wrap(f'"""{text}', width - 3, break_on_hyphens=False)
    ending = '"""' if len(lines[-1]) + 3 <= PYTHON_WIDTH - len(indent) else f'\n{indent}"""'
    return ("".join(f"{indent}{line}\n" for line in lines)[:-1] + ending + "\n").replace("\0", " ")


def python_errors(header):
    text = hand_written_part(PYTHON_ERRORS, "# SPDX", "    line = 0\n\n\n")
    for comment, name, number in header.errors:
        text += f"class {name_of(name)}(MinisignError):\n{docstring(comment, '    ')}\n    number = {number}\n\n\n"
    text += "BY_NUMBER: \"dict[int, type[MinisignError]]\" = {\n"
    text += (
        "".join(f"    {error.number}: {name_of(error.name)},\n" for error in header.errors)
        + "}\n\n__all__ = [\n    \"MinisignError\",\n"
    )
    return text + "".join(f'    "{name_of(error.name)}",\n' for error in header.errors) + "]\n"


def python_header(header):
    numbers = [(name, value.upper().replace("0X", "0x")) for name, value in header.numbers]
    text = hand_written_part(PYTHON, "# SPDX", "Union\n\n")
    text += "".join(f"{name} = {value}\n" for name, value in numbers + header.texts)
    text += "# Sizes without the lengths of the comments, which the caller adds.\n"
    text += "".join(f"{size.name} = {size.number}\n" for size in header.sizes)
    for members in (members for enum, members in header.enums.items() if enum != "error"):
        text += "\n" + "".join(f"{member.name} = {member.number}\n" for member in members)
    for struct, fields in header.structs.items():
        kinds = [
            "c_char_p" if field.star else ctype(field.kind, header) + (field.count and f" * {field.count}")
            for field in fields
        ]
        inside = "".join(f'        ("{field.name}", {kind}),\n' for field, kind in zip(fields, kinds))
        text += f"\n\nclass {name_of(struct)}(Structure):\n    _fields_ = [\n{inside}    ]\n"
    text += hand_written_part(PYTHON, "\n\n# Bytes that a call only reads.", "self._library = library\n")
    for call in header.calls:
        parameters = ", ".join(argument(parameter, header) for parameter in call.parameters) + "," * (len(call.parameters) == 1)
        result = "error" if call.answer == "enum minisign_error" else ctype(call.answer, header)
        text += f"        library.{call.name}.restype = {result}\n"
        text += in_brackets(f"        library.{call.name}.argtypes = (", parameters, ")", is_list=True) + "\n"
    return text + "".join(
        python_call(call, header) for call in header.calls if call.name not in (*WITHOUT_FUNCTION, *LISTS_BY_HAND)
    )


def python_call(call, header):
    """Returns a method that makes a call and returns its results."""
    parameters, before, arguments, types, results = columns_of(call, header, PYTHON_ROLES, ctype, "len({})".format)
    lines = [f"self._library.{call.name}({', '.join(arguments)})"]
    if call.answer == "size_t":
        lines[0] = f"length = {lines[0]}"
    elif call.answer in ("uint32_t", "uint64_t", "enum minisign_due"):
        lines[0], types, results = f"number: int = {lines[0]}", ["int", *types], ["number", *results]
    results = [f"return {', '.join(results)}"] if results else []
    result = f"Tuple[{', '.join(types)}]" if len(types) > 1 else "".join(types) or "None"
    lines = "\n".join(before + lines + results).split("\n")
    inside = "".join(f"{python_line(f'        {line}')}\n" for line in lines)
    return "\n" + in_brackets(f"    def {call.name[9:]}(", ", ".join(["self", *parameters]), f") -> {result}:") + f"\n{inside}"


def go_errors(header):
    width = max(len("Err" + name_of(error.name)) for error in header.errors)
    rows = [f"\t{'Err' + name_of(error.name):{width}} = Error(C.MINISIGN_{error.name})\n" for error in header.errors]
    names_by_number = [f"\t{'Err' + name_of(error.name) + ':':{width + 1}} \"{error.name}\",\n" for error in header.errors]
    names = "// Names are those of minisign.h, without MINISIGN_.\nvar names = map[Error]string{\n"
    begin = hand_written_part(GO_ERRORS, "// SPDX", "const (\n")
    return f"{begin}{''.join(rows)})\n\n{names}{''.join(names_by_number)}}}\n"


# ---- Go ----

GO_ROLES = {
    "password": ("{name} []byte", "", "isGiven({name}), pointer({name}), C.size_t(len({name}))", "", ""),
    "array": ("{name} *[{count}]byte", "", "(*C.uint8_t)(&{name}[0])", "", ""),
    "new array": ("", "var {name} [{count}]byte", "(*C.uint8_t)(&{name}[0])", "[{count}]byte", "{name}"),
    "bytes": ("{name} []byte", "", "pointer({name}), C.size_t(len({name}))", "", ""),
    "text": ("", "{name}, length := make([]byte, {room}), C.size_t(0)", "pointer({name}), C.size_t(len({name})), &length", "[]byte",
             "{name}[:length]"),
    "message": ("", "{name} := make([]byte, {room})", "pointer({name}), C.size_t(len({name}))", "[]byte", "{name}"),
    "struct": ("{name} *C.{of}", "", "{name}", "", ""),
    "new struct": ("", "{name} := new(C.{of})", "{name}", "*C.{of}", "{name}"),
    "secret": ("", "{name} := new(C.{of})", "{name}", "*C.{of}", "{name}"),
    "answer": ("{name} bool", "", "answer({name})", "", ""),
    "number": ("{name} C.{of}", "", "{name}", "", ""),
    "parts": ("", "", "{parts}", "", ""),
    "between parts": ", ",
    "new array among parts": ("{name} *[{count}]byte", "(*C.uint8_t)(&{name}[0])"),
    "bytes among parts": ("{name} []byte", "pointer({name}), C.size_t(len({name}))"),
}
GO_COLUMNS = 120
# Calls for which no Go function is generated, because raw.go has one or none is needed.
GO_WITHOUT_FUNCTION = (*WITHOUT_FUNCTION, *LISTS_BY_HAND, "minisign_version", "minisign_error_text")


def go_flat(call, header):
    """Returns a C function that takes the fields of a struct of parts one by one, because Go may not store its pointers
    in a C struct."""
    parameters, lines = [], []
    for parameter in header.flat_parameters(call):
        struct, _, field = parameter.name.rpartition("->")
        parameters.append(f"{parameter.const}{parameter.kind} {'*' if parameter.count else parameter.star}{field}")
        if struct and parameter.count:
            lines.append(f"memcpy({struct}.{field}, {field}, sizeof {struct}.{field});")
        elif struct:
            lines.append(f"{struct}.{field} = {field};")
    arguments = ", ".join(
        f"&{parameter.name}" if parameter.kind in header.in_parts else parameter.name for parameter in call.parameters
    )
    (struct,) = (parameter for parameter in call.parameters if parameter.kind in header.in_parts)
    whole = ", ".join(word.replace(" ", "\0") for word in parameters)
    head = textwrap.wrap(f"static {call.answer} flat_{call.name}({whole})", 110, subsequent_indent=" " * 8)
    inside = [f"{struct.kind} {struct.name};", "", *lines, f"return {call.name}({arguments});"]
    return (
        "\n".join(
            [*(line.replace("\0", " ") for line in head), "{", *(f"    {line}" if line else "" for line in inside), "}"]
        )
        + "\n"
    )


def go_wrapped(line):
    """Returns a line of Go. If it is too long, the parameters or arguments in its first parentheses get lines of their
    own, in the layout of gofmt."""
    if len(line) <= GO_COLUMNS:
        return line
    begin, _, rest = line.partition("(")
    depths = itertools.accumulate((letter == "(") - (letter == ")") for letter in rest)
    end = next(place for place, depth in enumerate(depths) if depth < 0)
    indent = "\t" * (begin.count("\t") + 1)
    # A null character is not a place for a line break.
    items = rest[:end].replace(" ", "\0").replace(",\0", ", ")
    lines = textwrap.wrap(items + ",", GO_COLUMNS, initial_indent=indent, subsequent_indent=indent, expand_tabs=False)
    inside = "".join(f"{each}\n" for each in lines).replace("\0", " ")
    return f"{begin}(\n{inside}{indent[1:]}{rest[end:]}"


def go_call(call, header):
    """Returns a Go function that makes a call, and returns its results and its error."""
    parameters, before, arguments, types, results = columns_of(
        call, header, GO_ROLES, lambda kind, _: kind.replace("enum ", "enum_"), "len({})".format
    )
    is_flat = any(parameter.kind in header.in_parts for parameter in call.parameters)
    expression = f"C.{'flat_' * is_flat}{call.name}({', '.join(arguments)})"
    if call.answer == "enum minisign_error":
        lines, types = [f"return {', '.join([*results, 'errorOf(err)'])}"], [*types, "error"]
        expression = f"err := {expression}" if results else expression
        lines = [expression, *lines] if results else [f"return errorOf({expression})"]
    elif call.answer != "void" and not results:
        lines, types = [f"return {expression}"], [f"C.{call.answer.removeprefix('enum ')}"]
    elif call.answer != "void":
        raise SourceError(f"{call.name} returns a number and writes something: add it to GO_WITHOUT_FUNCTION")
    else:
        lines = [expression, *([f"return {', '.join(results)}"] if results else [])]
    result = f" ({', '.join(types)})" if len(types) > 1 else "".join(f" {kind}" for kind in types)
    inside = "".join(f"\t{line}\n" for line in before + lines)
    text = f"\nfunc call{name_of(call.name)}({', '.join(parameters)}){result} {{\n{inside}}}\n"
    # gofmt writes no spaces around an operator in brackets.
    text = re.sub(r"(?<=[)\d]) \+ (?=len|signature)", "+", with_language_names(text, header))
    return "\n".join(map(go_wrapped, text.split("\n")))


def go_header(header):
    calls = [call for call in header.calls if call.name not in GO_WITHOUT_FUNCTION]
    flat = "".join(
        go_flat(call, header)
        for call in calls
        if any(parameter.kind in header.in_parts for parameter in call.parameters)
    )
    text = hand_written_part(GO, "// SPDX", "#include <minisign_list.h>\n") + f"\n{flat}*/\nimport \"C\"\n"
    return text + hand_written_part(GO, "\n// The calls of minisign.h", "1\n}\n") + "".join(go_call(call, header) for call in calls)


# ---- JavaScript ----

JAVASCRIPT_ROLES = {
    "password": ("{name}", "", "{name} === null ? 0 : 1, {name} ?? NO_BYTES, BigInt({name}?.length ?? 0)", "", ""),
    "array": ("{name}", "", "{name}", "", ""),
    "bytes": ("{name}", "", "{name}, BigInt({name}.length)", "", ""),
    "text": (
        "",
        "const {name} = new Uint8Array({room});\nconst length = new Uint8Array(8);",
        "{name}, BigInt({name}.length), length",
        "",
        "decodeAndClear({name}, length)",
    ),
    "message": ("", "const {name} = new Uint8Array({room});", "{name}, BigInt({name}.length)", "", "{name}"),
    "struct": ("{name}", "", "{name}", "", ""),
    "new struct": ("", "const {name} = new Uint8Array({of});", "{name}", "", "{name}"),
    "secret": ("", "const {name} = new Uint8Array({of});", "{name}", "", "{name}"),
    "number": ("{name}", "", "BigInt({name})", "", ""),
    "parts": ("", "", "{parts}", "", ""),
    "between parts": ", ",
    "new array among parts": ("{name}", "{name}"),
    "bytes among parts": ("{name}", "{name}, BigInt({name}.length)"),
}
JAVASCRIPT_WIDTH = 80
# The calls for signing and for secret keys. tools/signing_module.py has the same list.
SIGNING_CALLS = (
    "read_secret_key", "open_unsealed_key", "open_sealed_key", "take_secret_key", "public_key_of", "comment_message",
    "signed_text", "secret_key_text", "public_key_text",
)
# The structs that header.js reads and writes, and the sizes of their numbers.
JAVASCRIPT_STRUCTS = ("public_key", "unopened_key", "secret_key", "new_key", "sealing")
NUMBER_SIZES = {"uint8_t": 1, "uint32_t": 4, "uint64_t": 8}
# The marks of the generated part of calls.js, and the fields that it reads.
JAVASCRIPT_MADE, JAVASCRIPT_END = "made by tools/bindings.py ----\n\n", "// ---- End of the generated part ----"
READ_FIELDS = {
    "public_key": ("key", "key_id"),
    "signature": ("key_id", "legacy"),
    "list_entry": ("line", "name_offset", "name_len", "digest", "hash", "is_escaped"),
    "questions": (
        "public_key", "digest", "signature", "comment_signature", "message_len", "comment_offset", "comment_len",
        "legacy",
    ),
}


def offsets_of(fields):
    """Yields the offset of each field of a struct without pointers, and the size of the struct."""
    offset, widest = 0, 1
    for field in fields:
        width = NUMBER_SIZES[field.kind]
        offset, widest = (offset + width - 1) // width * width, max(widest, width)
        yield field.name, offset
        offset += width * int(field.count or 1)
    yield "size", (offset + widest - 1) // widest * widest


def javascript_line(begin, words, end):
    """Returns a line with items in brackets, as prettier formats it: on one line, or each item on its own line."""
    indent = begin[:len(begin) - len(begin.lstrip())]
    if len(begin + words + end) <= JAVASCRIPT_WIDTH:
        return f"{begin}{words}{end}\n"
    return f"{begin}\n" + "".join(f"{indent}  {item},\n" for item in items_of(words)) + f"{indent}{end}\n"


def with_language_names(text, header):
    """Replaces names of the header by those of JavaScript and Go, and sizes by numbers."""
    for size in header.sizes:
        text = text.replace(f"{size.name} + ", f"{size.number} + ")
    return re.sub(
        r"(?<![\w.\"])(?!enum_)[a-z]+(?:_[a-z0-9]+)+\b",
        lambda match: re.sub("_(.)", lambda letter: letter[1].upper(), match[0]),
        text,
    )


def javascript_call(call, header):
    """Returns a JavaScript method that makes a call and returns its results."""
    size_of = lambda kind, _: f"STRUCTS.{kind.removeprefix('minisign_')}.size"
    parameters, before, arguments, _, results = columns_of(call, header, JAVASCRIPT_ROLES, size_of, "{}.length".format)
    name = re.sub("_(.)", lambda letter: letter[1].upper(), call.name.removeprefix("minisign_"))
    text = javascript_line(f"  async {name}(", ", ".join(parameters), ") {")
    for line in (line for words in before for line in words.split("\n")):
        begin, _, words = line.rpartition("(")
        text += javascript_line(f"    {begin}(", with_language_names(words.removesuffix(");"), header), ");")
    text += javascript_line("    await this.call(", ", ".join([f'"{call.name}"', *arguments]), ");")
    text += f"    return {', '.join(results)};\n" if results else ""
    return with_language_names(text, header) + "  }\n"


def javascript_header(header):
    text = hand_written_part(JAVASCRIPT, "// SPDX", "library_loader.js\";\n\n")
    text += "".join(
        f"export const {name} = {value}{'n' * value.startswith('0x')};\n"
        for name, value in [*header.numbers, *header.texts]
    )
    text += "\nexport const STRUCTS = {\n"
    for struct in JAVASCRIPT_STRUCTS:
        fields = header.structs[f"minisign_{struct}"]
        lengths = [*(NUMBER_SIZES[field.kind] * int(field.count or 1) for field in fields), None]
        rows = [f"{name}: {offset}" if length is None else f"{name}: [{offset}, {length}]"
                for (name, offset), length in zip(offsets_of(fields), lengths)]
        text += f"  {struct}: {{\n" + "".join(f"    {row},\n" for row in rows) + "  },\n"
    text += "};\n" + hand_written_part(JAVASCRIPT, "\n// An instance of", "returnInstance(instance);\n    }\n  }\n")
    calls = {call.name.removeprefix("minisign_"): call for call in header.calls}
    return text + "".join(f"\n{javascript_call(calls[name], header)}" for name in SIGNING_CALLS) + "}\n"


def javascript_calls(header):
    """Returns calls.js, with its generated part: answers and structs."""
    begin, _, rest = sources.read(JAVASCRIPT_CALLS).partition(JAVASCRIPT_MADE)
    offsets = {
        struct: dict(offsets_of(header.structs[f"minisign_{struct}"]))
        for struct in ("state", "list", "public_key", *READ_FIELDS)
    }
    generated = "".join(f"const {member.name} = {member.number:#x};\n" for member in header.enums["answer"])
    generated += "".join(f"const {member.name} = {member.number};\n" for member in header.enums["hash"])
    generated += "\n// The sizes of the structs, and the offsets of the fields that are read.\n"
    for struct, fields in offsets.items():
        generated += f"const {struct.removeprefix('public_').upper()}_BYTES = {fields['size']};\n"
        if struct in READ_FIELDS:
            read = [f"{name}: {fields[name]}" for name in READ_FIELDS[struct]]
            line = f"const {struct.upper()} = {{ {', '.join(read)} }};\n"
            generated += (
                line
                if len(line) <= JAVASCRIPT_WIDTH
                else f"const {struct.upper()} = {{\n" + "".join(f"  {word},\n" for word in read) + "};\n"
            )
    return f"{begin}{JAVASCRIPT_MADE}{generated}\n{JAVASCRIPT_END}{rest.partition(JAVASCRIPT_END)[2]}"


def javascript_errors(header):
    rows = "".join(f"  {error.name}: {error.number},\n" for error in header.errors)
    return f"{hand_written_part(JAVASCRIPT_ERRORS, '// SPDX', 'Object.freeze({' + chr(10))}{rows}}});\n"


def javascript_types(header):
    rows = "".join(f'\n  | "{error.name}"' for error in header.errors)
    return f"{hand_written_part(JAVASCRIPT_TYPES, '// SPDX', 'export type ErrorCode =')}{rows};\n"


# ---- Rust ----

RUST_TYPES = {"uint8_t": "u8", "char": "u8", "void": "u8", "uint32_t": "u32", "uint64_t": "u64", "size_t": "usize"}

RUST_ROLES = {
    "password": (
        "{name}: Option<&[u8]>",
        "let (with_{name}, {name}) = ({name}.is_some().into(), {name}.unwrap_or_default());",
        "with_{name}, {name}.as_ptr(), {name}.len()",
        "",
        "",
    ),
    "array": ("{name}: &[{of}; {count}]", "", "{name}", "", ""),
    "new array": ("", "let mut {name} = [0; {count}];", "&mut {name}", "[{of}; {count}]", "{name}"),
    "bytes": ("{name}: &[u8]", "", "{name}.as_ptr(), {name}.len()", "", ""),
    "text": ("", "let mut {name} = vec![0; {room}];\n    let mut len = 0;",
             "{name}.as_mut_ptr(), {name}.len(), &mut len", "String", "text_of({name}, len)"),
    "short text": ("", "let mut {name} = vec![0; {room}];", "{name}.as_mut_ptr(), {name}.len()",
                   "String", "text_of({name}, len)"),
    "message": ("", "let mut {name} = vec![0; {room}];", "{name}.as_mut_ptr(), {name}.len()", "Vec<u8>", "{name}"),
    "struct": ("{name}: &{mut}{of}", "", "{name}", "", ""),
    "new struct": ("", "let mut {name} = {of}::ZEROS;", "&mut {name}", "{of}", "{name}"),
    # A secret key must not be copied, so it is on the heap.
    "secret": ("", "let mut {name} = Box::new({of}::ZEROS);", "&mut *{name}", "Box<{of}>", "{name}"),
    "answer": ("{name}: bool", "", "if {name} {{ ANSWER_YES }} else {{ ANSWER_NO }}", "", ""),
    "number": ("{name}: {of}", "", "{name}", "", ""),
    "parts": ("", "", "&{of} {{\n                {parts},\n            }}", "", ""),
    "between parts": ",\n                ",
    "new array among parts": ("{name}: &[{of}; {count}]", "{name}: *{name}"),
    "bytes among parts": ("{name}: &[u8]",
                          "{name}: {name}.as_ptr(),\n                {length}: {name}.len()"),
}
RUST_CLEARED = """
/// Clears the secret.
impl Drop for {struct} {{
    fn drop(&mut self) {{
{cleared}    }}
}}
"""


def rust_type(kind, header):
    return name_of(kind) if kind in header.structs else RUST_TYPES.get(kind, "u32")


def tuple_of(values):
    """Joins values: several of them become a tuple."""
    return f"({', '.join(values)})" if len(values) > 1 else "".join(values)


# The maximum lengths of a line of Rust, and of arguments on one line (the defaults of rustfmt).
RUST_WIDTH, RUST_ARGUMENTS_WIDTH = 100, 60


def in_lines(indent, begin, items, end, items_width=RUST_WIDTH):
    """Returns a list in brackets as rustfmt formats it: on one line, or each item on its own line."""
    words = ", ".join(items)
    single_line = f"{indent}{begin}{words}{end}"
    before, result, after = end.partition(" -> ")
    # In a declaration of exactly this length, rustfmt moves only the result type to the next line.
    if len(single_line) == RUST_WIDTH and result and after.endswith(";"):
        return f"{indent}{begin}{words}{before}\n{indent}    -> {after}"
    if len(single_line) <= RUST_WIDTH and len(words) <= items_width and "\n" not in words:
        return single_line
    return f"{indent}{begin}\n" + "".join(f"{indent}    {item},\n" for item in items) + indent + end


def rust_unsafe(before, name, arguments, after):
    """Returns a line that calls C, or several lines if it is too long."""
    line = in_lines(" " * 4, f"{before}unsafe {{ {name}(", arguments, f") }}{after}", RUST_ARGUMENTS_WIDTH)
    if "\n" in line:
        call = in_lines(" " * 8, f"{name}(", arguments, ")", RUST_ARGUMENTS_WIDTH)
        line = f"    {before}unsafe {{\n{call}\n    }}{after}"
    return line[4:]


def rust_call(call, header):
    """Returns a Rust function that makes a call and returns its results."""
    parameters, before, arguments, types, results = columns_of(
        call, header, RUST_ROLES, rust_type, "{}.len()".format, "{} as usize".format
    )
    arguments = [word for words in arguments for word in ([words] if "\n" in words else words.split(", "))]
    call_between = lambda before, after: rust_unsafe(before, f"sys::{call.name}", arguments, after)
    result, value = tuple_of(types) or "()", tuple_of(results)
    result_type = {"void": result, "uint32_t": "u32"}.get(call.answer, f"Result<{result}, Reason>")
    if call.answer == "enum minisign_error":
        ok_value = value if result == "String" else f"Ok({value})"
        lines = [call_between("check(", ")?;"), ok_value] if value else [call_between("check(", ")")]
    elif call.answer == "size_t":
        lines = [call_between("let len = ", ";"), value]
    else:
        lines = [call_between("", ";"), value] if call.answer == "void" else [call_between("", "")]
    inside = "".join(f"    {line}\n" for line in before + lines)
    return "\n" + in_lines("", f"pub fn {call.name[9:]}(", parameters, f") -> {result_type} {{") + f"\n{inside}}}\n"


# The traits that structs derive.
RUST_DERIVED = {"minisign_public_key": "Clone, Debug, Eq, PartialEq, Ord, PartialOrd, Hash",
                "minisign_signature": "Clone, Debug, Eq, PartialEq, Ord, PartialOrd, Hash",
                "minisign_state": "Clone, Debug", "minisign_questions": "Clone, Debug"}


def rust_sys_type(kind, header):
    return kind if kind in header.structs else RUST_TYPES.get(kind, "u32")


def rust_struct(struct, fields, header):
    """Returns a struct with a constant of zeros. A struct that holds a secret is cleared when it is dropped."""
    text = f"\n#[derive({RUST_DERIVED[struct]})]" if struct in RUST_DERIVED else ""
    kinds = [
        f"[{rust_sys_type(field.kind, header)}; {field.count}]"
        if field.count
        else "*const " * bool(field.star) + rust_sys_type(field.kind, header)
        for field in fields
    ]
    inside = "".join(f"    pub {field.name}: {kind},\n" for field, kind in zip(fields, kinds))
    zeros = [f"{field.name}: {f'[0; {field.count}]' if field.count else '0'}" for field in fields]
    text += f"\n#[repr(C)]\npub struct {struct} {{\n{inside}}}\n"
    if struct in header.in_parts:
        return text
    of_zeros = f" {zeros[0]} " if len(zeros) == 1 else "\n" + "".join(f"        {zero},\n" for zero in zeros) + "    "
    text += f"\nimpl {struct} {{\n    pub const ZEROS: Self = Self {{{of_zeros}}};\n}}\n"
    if struct in header.secrets:
        cleared = "".join(f"        clear(&mut self.{field.name});\n" for field in fields if "secret" in field.roles)
        text += RUST_CLEARED.format(struct=struct, cleared=cleared)
    return text


def rust_declaration(call, header):
    """Returns the declaration of a call in Rust."""
    parameters = []
    for parameter in call.parameters:
        target, array, pointer = (
            rust_sys_type(parameter.kind, header),
            "&" if parameter.const else "&mut ",
            "*const " if parameter.const else "*mut ",
        )
        parameters.append(
            f"{parameter.name}: "
            + (f"{array}[{target}; {parameter.count}]" if parameter.count else f"{pointer}{target}" if parameter.star else target)
        )
    result = {"void": ");", "size_t": ") -> usize;"}.get(call.answer, ") -> u32;")
    return in_lines(" " * 4, f"pub fn {call.name}(", parameters, result) + "\n"


def rust_constants(header):
    """Returns the names, types and values of the header's numbers and texts, without `MINISIGN_`."""
    kinds = [(name, "u64" if value.startswith("0x") else "usize", value) for name, value in header.numbers]
    kinds += [*((size.name, "usize", size.number) for size in header.sizes), *((name, "&str", text) for name, text in header.texts)]
    return kinds + [
        (member.name, "u32", member.number)
        for enum, members in header.enums.items()
        if enum != "error"
        for member in members
    ]


def rust_sys_header(header):
    text = hand_written_part(RUST_SYS, "// SPDX", "non_camel_case_types)]\n") + "\npub const MINISIGN_OK: u32 = 0;\n"
    text += "".join(f"pub const MINISIGN_{error.name}: u32 = {error.number};\n" for error in header.errors) + "\n"
    text += "".join(f"pub const MINISIGN_{name}: {kind} = {value};\n" for name, kind, value in rust_constants(header))
    text += "".join(rust_struct(struct, fields, header) for struct, fields in header.structs.items())
    text += "\nextern \"C\" {\n" + "".join(rust_declaration(call, header) for call in header.calls) + "}\n"
    return text + hand_written_part(RUST_SYS, "\n/// Writes zeros", "write_volatile(byte, 0) });\n}\n")


def rust_header(header):
    text = hand_written_part(RUST, "// SPDX", "use minisign_proved_sys as sys;\n")
    text += "\nimpl Reason {\n    /// No error.\n    pub const OK: Reason = Reason(0);\n"
    for comment, name, number in header.errors:
        text += "".join(f"    /// {line}\n" for line in textwrap.wrap(comment, RUST_WIDTH - 8))
        text += f"    pub const {name}: Reason = Reason({number});\n"
    text += "\n    /// Returns the name in `minisign.h` without `MINISIGN_`, or \"\" for an unknown number.\n"
    text += "    #[must_use]\n    pub fn name(self) -> &'static str {\n        match self.0 {\n            0 => \"OK\",\n"
    text += (
        "".join(f'            {error.number} => "{error.name}",\n' for error in header.errors)
        + '            _ => "",\n        }\n    }\n'
    )
    text += (
        "}\n\n"
        + "".join(f"pub const {name}: {kind} = sys::MINISIGN_{name};\n" for name, kind, value in rust_constants(header))
        + "\n"
    )
    text += "".join(f"pub type {name_of(struct)} = sys::{struct};\n" for struct in header.structs)
    text += hand_written_part(RUST, "\n/// Returns an error unless", "Reason::NOT_UTF8)\n}\n")
    return text + "".join(rust_call(call, header) for call in header.calls if call.name not in (*WITHOUT_FUNCTION, *LISTS_BY_HAND))


def generated_files():
    """Yields the paths and texts of the generated files."""
    header, installing_too = parsed(sources.read(HEADER), sources.read(LIST_HEADER)), all_headers()
    for path, make in (
        (RUST, rust_header),
        (RUST_SYS, rust_sys_header),
        (GO_ERRORS, go_errors),
        (GO, go_header),
        (JAVASCRIPT_ERRORS, javascript_errors),
        (JAVASCRIPT_TYPES, javascript_types),
        (JAVASCRIPT, javascript_header),
        (JAVASCRIPT_CALLS, javascript_calls),
        (PYTHON_ERRORS, python_errors),
    ):
        yield path, make(header)
    yield PYTHON, python_header(installing_too)


if __name__ == "__main__":
    sys.exit(sources.write_or_check(generated_files))
