#!/usr/bin/env python3
"""Checks that the attributes in the headers, which `tools/header.py` writes, make compilers warn of wrong pointers
and lengths, and that the examples follow the rules of the headers.

    tests/c/header_rules.py

  * For each pointer parameter with a length, gcc must warn if the length is one greater than the buffer. Without the
    attributes, gcc must not warn of it.
  * For each other pointer parameter, gcc and clang must warn of NULL.
  * A program with a correct call to every function, and with a call with NULL for each buffer of length 0, must compile
    without warnings with gcc, g++, clang, clang++, tcc and musl-gcc.
  * For other compilers, the preprocessed headers must have no attributes.
  * If one function marks a parameter as a secret with MINISIGN_ROLE, all functions must mark it.
  * The examples, which the manual pages show, and the inline functions of the headers must set each signature and each key
    to zeros before its first use, as minisign.h demands.

The script prints a line for each failure; the last line is `N passed, M failed`.

Needs gcc, g++, clang, tcc, musl-gcc, and libsodium with its header; missing packages are installed if that is permitted.
"""

import glob
import os
import re
import sys

HERE = os.path.dirname(os.path.realpath(__file__))
TOP = os.path.dirname(os.path.dirname(HERE))
sys.path += [os.path.join(TOP, *each) for each in (("tests", "shared"), ("tools",))]

import c_header
import needs
import test_script
from process import run
from running import read, write

INCLUDE = f"{TOP}/include"
HEADERS = ("minisign.h", "minisign_install.h", "minisign_list.h")
STRICT = ("-Wall", "-Wextra", "-Wpedantic", "-Wredundant-decls")
# The length of the arrays that are passed.
ELEMENTS = 8
# The element types of arrays whose length is the next parameter.
COUNTED = ("uint8_t", "uint32_t", "char", "void", "minisign_list_entry")
# The block of attributes in a header.
ATTRIBUTES = re.compile(r"/\* Attributes, made by tools/header\.py\. \*/\n.*?/\* The end of the attributes\. \*/\n", re.S)


def pointers(call):
    """Yields the index of each pointer parameter of a call, and True if its length is the next parameter."""
    parameters = call.parameters
    for index, parameter in enumerate(parameters):
        if parameter.star or parameter.count:
            following = parameters[index + 1] if index + 1 < len(parameters) else None
            is_counted = parameter.kind in COUNTED and not parameter.count
            yield index, bool(is_counted and following and following.kind == "size_t" and not following.star)


def call_text(name, call, wrong_arguments):
    """Returns the source of a C function `name` that makes a call. `wrong_arguments` replaces correct arguments, by
    index."""
    declarations, arguments, pointer_parameters = [], [], dict(pointers(call))
    for index, parameter in enumerate(call.parameters):
        if index in wrong_arguments:
            arguments.append(wrong_arguments[index])
        elif index in pointer_parameters:
            size = f"[{parameter.count or ELEMENTS}]" if parameter.count or pointer_parameters[index] else ""
            declarations.append(f"    static {'uint8_t' if parameter.kind == 'void' else parameter.kind} p{index}{size};\n")
            arguments.append(f"p{index}" if size else f"&p{index}")
        else:
            arguments.append(str(ELEMENTS) if pointer_parameters.get(index - 1) else f"({parameter.kind}) 1")
    statement = f"{'' if call.answer == 'void' else '(void) !'}{call.name}({', '.join(arguments)});"
    return f"void {name}(void);\nvoid {name}(void)\n{{\n{''.join(declarations)}    {statement}\n}}\n"


def program(functions):
    """Returns a C program that includes the headers and contains these functions."""
    return "#include <stddef.h>\n" + "".join(f'#include "{name}"\n' for name in HEADERS) + "".join(functions)


def mistakes(calls):
    """Returns two dictionaries of calls with one mistake each: those with a length that is too great, and those
    with NULL. Each maps a name to the declaration of the call and the wrong arguments."""
    too_long, null = {}, {}
    for call in calls:
        for index, is_counted in pointers(call):
            null[f"null_{call.name}_{index}"] = (call, {index: "NULL"})
            if is_counted:
                too_long[f"long_{call.name}_{index}"] = (call, {index + 1: str(ELEMENTS + 1)})
    return too_long, null


def functions_with_warnings(scratch, compiler, functions, include):
    """Compiles a C function for each call in `functions`. Returns the names of the functions in which the compiler
    warns."""
    texts = {name: call_text(name, *call) for name, call in functions.items()}
    text = program(texts.values())
    source = write(scratch, "mistakes.c", text.encode())
    status, output = run([*compiler, "-std=c11", "-O2", "-Wall", "-Wextra", "-I", include, "-c", "-o", os.devnull, source])
    if status:
        return [output[-500:]]
    lines = text.split("\n")
    line_numbers = {int(number) for number in re.findall(r"mistakes\.c:(\d+):\d+: warning:", output)}
    # Finds the function that contains each line with a warning.
    return {
        next(match[1] for line in reversed(lines[:number]) if (match := re.match(r"void (\w+)\(void\)$", line)))
        for number in line_numbers
    }


def without_attributes(scratch):
    """Copies the headers without their attributes to the directory `scratch`, and returns its path."""
    for name in HEADERS:
        text, count = ATTRIBUTES.subn("", read(INCLUDE, name).decode())
        if count != 1:
            raise needs.Missing(f"{name} has {count} blocks of attributes, expected 1")
        write(scratch, name, text.encode())
    return scratch


def check_mistakes(checks, scratch, calls):
    """Checks that compilers warn of each mistake, and that gcc warns of lengths only because of the attributes."""
    gcc, clang = [needs.program("gcc", "gcc")], [needs.program("clang", "clang")]
    too_long, null = mistakes(calls)
    # clang has no attribute for lengths, so it accepts NULL for a pointer with a length.
    null_without_length = {name: call for name, call in null.items() if f"long_{name[5:]}" not in too_long}
    checks.check(len(too_long) > 20 and len(null_without_length) > 40,
                 f"only {len(too_long)} lengths and {len(null_without_length)} pointers were found")
    for compiler, functions in ((gcc, too_long), (gcc, null), (clang, null_without_length)):
        warned = functions_with_warnings(scratch, compiler, functions, INCLUDE)
        for name in functions:
            checks.check(name in warned, f"{compiler[0]} does not warn of {name}")
    warned = functions_with_warnings(scratch, gcc, {**too_long, **null}, without_attributes(scratch))
    # NULL is not checked here, because gcc warns of NULL for an array of fixed size even without attributes.
    checks.check(not [name for name in warned if name in too_long], f"without attributes gcc warns of {warned}")


def check_correct_calls(checks, scratch, calls):
    """Checks that compilers do not warn of correct calls, and that compilers that do not define __GNUC__ get no
    attributes."""
    functions = [call_text(f"right_{call.name}", call, {}) for call in calls]
    functions += [call_text(f"empty_{call.name}_{index}", call, {index: "NULL", index + 1: "0"})
                  for call in calls for index, is_counted in pointers(call) if is_counted]
    text = program(functions)
    for name, package, *flags in (("gcc", "gcc", "-std=c99", "-O2"), ("g++", "g++", "-std=c++11", "-O2"),
                                  ("clang", "clang", "-std=c99", "-O2"), ("clang++", "clang", "-std=c++17", "-O2"),
                                  ("tcc", "tcc", "-std=c99"), ("musl-gcc", "musl-tools", "-std=c11", "-O2")):
        source = write(scratch, f"right.{'cpp' if '++' in name else 'c'}", text.encode())
        command = [
            needs.program(name, package),
            *flags,
            *(STRICT if name != "tcc" else ("-Wall",)),
            "-Werror", "-I", INCLUDE, "-c", "-o", f"{scratch}/right.o", source,
        ]
        checks.ended(f"correct calls by {name}", run(command))
    for name in HEADERS:
        command = [needs.program("gcc", "gcc"), "-U__GNUC__", "-E", "-P", f"{INCLUDE}/{name}"]
        output = checks.ended(f"{name} for another compiler", run(command))
        declarations = output[output.find("minisign"):]
        has_attributes = "__attribute__" in declarations or "__typeof__" in declarations
        checks.check(declarations.startswith("minisign") and not has_attributes, f"{name}: {declarations[:300]}")


# Local variables of these types must be set to zeros before their first use. Static variables are zero already.
ZEROED = {f"minisign_{name}" for name in ("signature", "public_key", "secret_key", "unopened_key")}


def names_in(node):
    """Returns the names of the functions and variables to which a node of clang's tree refers."""
    return {each["referencedDecl"]["name"] for each in c_header.nodes_of(node) if "referencedDecl" in each}


def set_by_memset(nodes):
    """Returns the names of the variables that `memset(&name, 0, sizeof name)` sets to zeros."""
    calls = [node["inner"] for node in nodes if node.get("kind") == "CallExpr" and names_in(node["inner"][0]) == {"memset"}]
    return set().union(*(names_in(target) & names_in(size) for _, target, value, size in calls if value.get("value") == "0"))


def zeroed_variables(file):
    """Yields the local variables of a C file that have one of these types, and True if they are set to zeros: either in
    their declaration or by memset in the same function."""
    for function in c_header.tree_of(file):
        if function["kind"] != "FunctionDecl" or not c_header.children_of_kind(function, "CompoundStmt"):
            continue
        nodes = [*c_header.nodes_of(function)]
        for node in nodes:
            # A reference to a variable contains a node with the same kind, but without a location.
            is_local = node.get("kind") == "VarDecl" and "loc" in node and node.get("storageClass") != "static"
            if is_local and node["type"]["qualType"] in ZEROED:
                is_zeroed = "init" in node or node["name"] in set_by_memset(nodes)
                yield f"{node['type']['qualType']} {node['name']} in {function['name']}", is_zeroed


def check_examples(checks):
    """Checks that the examples and the functions of the headers set the variables of the types ZEROED to zeros."""
    needs.compiler_with_libsodium()
    files = [*glob.glob(f"{TOP}/c/examples/*.c"), *glob.glob(f"{INCLUDE}/*.h"), *glob.glob(f"{TOP}/bench/*.c")]
    variables = {os.path.relpath(file, TOP): [*zeroed_variables(file)] for file in files}
    checks.check(sum(map(len, variables.values())) > 4, "the examples have too few such variables")
    for file, found in variables.items():
        wrong = [name for name, is_zeroed in found if not is_zeroed]
        checks.check(not wrong, f"{file}: not set to zeros: {', '.join(wrong)}")


def check_roles(checks, calls, structs):
    """Checks that a parameter that one call marks as a secret is marked in every call. (The library clears the
    stack and registers only after calls that mark a secret.)"""
    secrets = {(parameter.name, parameter.kind) for call in calls for parameter in call.parameters if "secret" in parameter.roles}
    checks.check(secrets and structs, f"the headers mark as secrets only the parameters {secrets} and the fields of {structs}")
    for call in calls:
        for parameter in call.parameters:
            if (parameter.name, parameter.kind) in secrets:
                checks.check(
                    "secret" in parameter.roles,
                    f"{call.name}: {parameter.name} is not marked as a secret, as in other calls",
                )


def run_all(checks, scratch):
    header = c_header.all_headers()
    calls = [call for call in header.calls if call.parameters]
    check_roles(checks, calls, header.secrets)
    check_mistakes(checks, scratch, calls)
    check_correct_calls(checks, scratch, calls)
    check_examples(checks)


if __name__ == "__main__":
    sys.exit(test_script.run_checks("header_rules", run_all))
