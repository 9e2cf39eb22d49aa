"""Generates the C functions that are declared in the headers and make the proved calls, for `tools/header.py`.

`c/library/boundary.c` has a function for each declared call, which makes the proved call. `c/library/portable/pointers.c`
is used in its place if the proved calls are compiled from dist/calls.c, where addresses are numbers. `c/library/names` lists the
proved calls. The heads of the two C files are written by hand. `tests/shared/exports.py` compares the declarations with the
exports of the crate `minisign_c`.
"""

import re
import textwrap

from sources import SourceError, read

FILE, POINTERS = "c/library/boundary.c", "c/library/portable/pointers.c"
# The call that is written by hand, at the end of the head of boundary.c.
HAND_WRITTEN_CALL = "minisign_version"

# The maximum length of a generated line.
COLUMNS = 115

def proved_calls(header):
    """Returns the calls that the proved library exports."""
    return [call for call in header.calls if call.name != HAND_WRITTEN_CALL]


def plain_type(kind):
    """Returns a type as the proved calls declare it: enums are numbers, and characters are bytes."""
    return "uint32_t" if kind.startswith("enum ") else "uint8_t" if kind == "char" else kind


def plain_parameter(parameter):
    """Returns the type of a parameter as the proved calls declare it."""
    return (
        parameter.const
        + ("uint8_t" if parameter.kind == "void" else plain_type(parameter.kind))
        + (" *" if parameter.star or parameter.count else "")
    )


def lengths(parameters):
    """Yields each parameter with its length parameter, which follows it, or None. A pointer to structs has a length only if
    its role is `array`."""
    for parameter, after in zip(parameters, [*parameters[1:], None]):
        is_array = parameter.star and (not is_struct(parameter) or "array" in parameter.roles)
        length = after if is_array and after and after.kind == "size_t" and not after.star else None
        if "array" in parameter.roles and not length:
            raise SourceError(f"{parameter.name} has the role `array`, but is not a pointer with a length after it")
        yield parameter, length


def is_struct(parameter):
    """Returns true if the parameter is a struct, or points to one or more."""
    return parameter.kind.startswith("minisign_")


def arguments(parameters):
    """Yields the arguments of the proved call. A pointer with a length may be NULL if the length is 0. The proved call
    accepts no NULL, so a macro in the head of boundary.c then passes the address of an empty buffer."""
    for parameter, length in lengths(parameters):
        macro = ("READ" if parameter.const else "WORDS" if parameter.kind == "uint32_t" else
                 "ENTRIES" if is_struct(parameter) else "WRITTEN")
        yield f"{macro}({parameter.name}, {length.name})" if length else parameter.name


def in_lines(begin, parts, end):
    """Joins the parts after `begin`, and wraps them. Lines after the first are indented to the end of `begin`, or by eight spaces
    if the longest part does not fit there."""
    parts = [*parts]
    indent = len(begin) if len(begin) + max(map(len, parts), default=0) < COLUMNS else len(begin) - len(begin.lstrip()) + 8
    text = (begin + ",\n".join(parts) + end).replace(" ", "\u00a0")
    return textwrap.fill(text, COLUMNS, subsequent_indent=" " * indent, break_on_hyphens=False).replace("\u00a0", " ")


def call_text(call, parameters, secrets):
    """Returns the declaration of a proved call with these parameters, and the function that makes it. If a parameter or one
    of the structs `secrets` is secret, the function clears stack and registers."""
    sees_secrets = any("secret" in parameter.roles or parameter.kind in secrets for parameter in call.parameters)
    result = "" if call.answer == "void" else "result = " if sees_secrets else "return "
    cast = "" if call.answer == plain_type(call.answer) else f"({call.answer}) "
    body = [in_lines(f"    {result}{cast}CALL({call.name})(", arguments(parameters), ");")]
    if sees_secrets:
        before, after = ([f"    {call.answer} result;", ""], ["    return result;"]) if result else ([], [])
        body = [*before, *body, "    minisign_clear_used();", *after]
    return "\n".join(
        [
            in_lines(f"PROVED({plain_type(call.answer)}, {call.name}, (", map(plain_parameter, parameters), "));"),
            "",
            in_lines(f"{call.answer} {call.name}(", (parameter.text for parameter in call.parameters), ")"),
            "{",
            *body,
            "}",
            "",
        ]
    )


def head_of(file, end):
    """Returns the hand-written head of a generated file."""
    head = re.match(rf".*?\n{end}\n", read(file), re.S)
    if head is None:
        raise SourceError(f"{file} lacks its head, which ends with {end}")
    return head[0]


def boundary_text(header):
    """Returns boundary.c."""
    return "\n".join(
        [
            head_of(FILE, rf"\w+ {HAND_WRITTEN_CALL}\(void\)\n\{{.*?\n\}}"),
            *(call_text(call, [*header.flat_parameters(call)], header.secrets) for call in proved_calls(header)),
        ]
    )


# ---------------------------------------------------------------------------------------------------------------
# pointers.c: the calls of dist/calls.c take addresses as numbers, and store numbers in memory in little-endian order.

# The sizes of numbers in bits.
NUMBER_BITS = {"uint64_t": 64, "size_t": 64, "uint32_t": 32}


def numbers_in(header):
    """Returns the structs with numbers that a caller reads or writes, and the names and sizes of these numbers."""
    numbers_by_struct = {
        name: [
            (field.name, NUMBER_BITS[field.kind]) for field in fields if field.kind in NUMBER_BITS and not field.count
        ]
        for name, fields in header.structs.items()
    }
    return {name: numbers for name, numbers in numbers_by_struct.items() if numbers and name not in header.in_parts}


def conversion_functions(name, numbers, used):
    """Returns the functions that convert the numbers of a struct to little-endian and back, if they are used."""
    lines = {"to_little_endian": "store{1}(address(&object->{0}), object->{0});",
             "from_little_endian": "object->{0} = load{1}(address(&object->{0}));"}
    return "\n".join(line for verb, form in lines.items() if (verb, name) in used for line in (
        f"static inline void {verb}_{name}({name} *object)", "{", *(f"    {form.format(*number)}" for number in numbers), "}", ""))


def conversion_of(parameter, length, structs):
    """Returns the lines before the call, the lines after it, and the argument for a parameter."""
    kind, name = parameter.kind, parameter.name
    if not parameter.star and not parameter.count:
        return [], [], name
    if kind in NUMBER_BITS and not length:
        # A number that the call may write.
        copy = f"{name}_copy"
        return ([f"uint64_t {copy} = 0;", f"store{NUMBER_BITS[kind]}(address(&{copy}), *{name});"],
                [f"*{name} = ({kind}) load{NUMBER_BITS[kind]}(address(&{copy}));"], f"address(&{copy})")
    if kind in structs and length:
        # On a little-endian processor, the buffer is not read.
        loop = (
            "if (!IS_LITTLE_ENDIAN) {{\n        for (size_t i = 0; i < {1}; i++) {{\n            {2}_{3}(&{0}[i]);\n   "
            "     }}\n    }}"
        )
        before, after = (loop.format(name, length.name, verb, kind) for verb in ("to_little_endian", "from_little_endian"))
        return [before], [after], f"address({name})"
    if kind in structs and parameter.const:
        return (
            [f"{kind} {name}_copy;", f"const {kind} *{name}_passed = CONVERTED({kind}, {name}, &{name}_copy);"],
            [],
            f"address({name}_passed)",
        )
    if kind in structs:
        return [f"to_little_endian_{kind}({name});"], [f"from_little_endian_{kind}({name});"], f"address({name})"
    return [], [], f"address({name})"


def machine_kind(kind, is_pointer):
    """Returns a type as dist/calls.c has it."""
    return "uint64_t" if is_pointer or kind in ("size_t", "int64_t") else plain_type(kind)


def pointers_call(call, structs):
    """Returns the declaration of a call of dist/calls.c, and the function that makes it."""
    conversions = [conversion_of(parameter, length, structs) for parameter, length in lengths(call.parameters)]
    before, after = ([line for conversion in conversions for line in conversion[part]] for part in range(2))
    words = [argument for _, _, argument in conversions]
    answer, kind = plain_type(call.answer), machine_kind(call.answer, False)
    prefix = "" if answer == "void" else f"const {kind} result = " if after else "return "
    cast = f"({answer}) " if prefix and kind != answer else ""
    if after and prefix:
        after.append(f"return {cast}result;")
        cast = ""
    machine_kinds = [machine_kind(parameter.kind, parameter.star or parameter.count) for parameter in call.parameters]
    # Declarations come before statements.
    before.sort(key=lambda line: not re.match(r"(const )?[\w]+ \*?\w+( =|;)", line))
    return "\n".join(
        [
            in_lines(f"{kind} machine_{call.name}(", machine_kinds, ");"),
            "",
            in_lines(
                f"{answer} portable_{call.name}(",
                (
                    f"{plain_parameter(parameter)}{'' if plain_parameter(parameter)[-1] == '*' else ' '}{parameter.name}"
                    for parameter in call.parameters
                ),
                ")",
            ),
            "{",
            *(f"    {line}" for line in before),
            in_lines(f"    {prefix}{cast}machine_{call.name}(", words, ");"),
            *(f"    {line}" for line in after),
            "}",
            "",
        ]
    )


def parameters_by_field_name(header, call):
    """Returns the parameters of the proved call. A field of a struct gets its own name, without that of the struct."""
    return (parameter._replace(name=parameter.name.rpartition("->")[2]) for parameter in header.flat_parameters(call))


def pointers_text(header):
    """Returns pointers.c."""
    structs, calls = numbers_in(header), [
        call._replace(parameters=[*parameters_by_field_name(header, call)]) for call in proved_calls(header)
    ]
    pointers = [parameter for call in calls for parameter in call.parameters if parameter.star]
    used = {(verb, parameter.kind) for parameter in pointers
            for verb in ("to_little_endian", *([] if parameter.const else ["from_little_endian"]))}
    head = head_of(POINTERS, re.escape("/* ---- Made by tools/header.py ---- */"))
    return "\n".join([head, *filter(None, (conversion_functions(name, structs[name], used) for name in structs)),
                      *(pointers_call(call, structs) for call in calls)])


def names_text(header):
    """Returns the list of proved calls, one per line, after the licence."""
    return "# SPDX-License-Identifier: MIT\n" + "".join(f"{call.name}\n" for call in proved_calls(header))
