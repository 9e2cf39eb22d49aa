"""Parses `include/minisign.h`, `include/minisign_install.h` and `include/minisign_list.h` with clang.

The generators in tools/ and the tests use this module. The result has the constants, enums, structs and calls with their
comments, and the roles that the headers give to parameters and fields with `MINISIGN_ROLE`. A form that this file does
not know is an error, so that nothing is skipped. `tree_of`, `enum_values` and `macro_value` parse any other C file.

Roles:

    array         a pointer to an array of structs; the next parameter is the length of the array
    output        the call fills the struct and does not read what it held before
    presence      1 if the pointer and the length after it are given, 0 if not
    room SIZE     a buffer of SIZE bytes is large enough. SIZE is a sum of numbers, of constants and sizes without
                  `MINISIGN_`, and of lengths, which are names of parameters or of fields
    secret        a secret, which its owner has to clear
"""

import functools
import json
import os
import re
import subprocess
import sys
import tempfile
from collections import namedtuple

from sources import ROOT, SourceError, read

sys.path.append(os.path.join(ROOT, "tests", "shared"))

import needs

FILE = "include/minisign.h"
INSTALL_HEADER = "include/minisign_install.h"
LIST_HEADER = "include/minisign_list.h"

# Names are without `MINISIGN_`. A Size is a macro with parameters: its number for lengths of 0, and the names of these lengths.
Size = namedtuple("Size", "name number lengths")
Member = namedtuple("Member", "comment name number")
Call = namedtuple("Call", "answer name parameters comment")
# A parameter, or a field of a struct: its declaration, and the parts of it. The count is that of an array, and empty otherwise.
Value = namedtuple("Value", "text const kind star name count roles")

# The options of clang that print the declarations as JSON.
PRINT_TREE = ("-fsyntax-only", "-fparse-all-comments", "-Xclang", "-ast-dump=json")
# A type as clang prints it, and a macro as -dD prints it.
TYPE = re.compile(r"(const )?((?:enum )?\w+) ?(\*?)(?:\[(\d+)\])?")
MACRO = re.compile(r"#define MINISIGN_(\w+)(?:\(([^)]*)\))? ?(.*)")
# Macros that the bindings do not need: MINISIGN_VERSION is computed from three others.
NO_CONSTANTS = ("VERSION",)
PROBE = "minisign_probe_"


class Header:
    """The declarations of one or more headers.

    `in_parts` has the structs with pointers, which only the declared calls take: the proved calls take the fields one by
    one. `secrets` has the structs with a secret field. `inline_calls` has the functions that a header defines itself.
    """

    def __init__(self, *texts):
        with tempfile.TemporaryDirectory(prefix="header-") as directory:
            names = [os.path.join(directory, f"part{number}.h") for number in range(len(texts))]
            for name, text in zip(names, texts):
                with open(name, "w", encoding="utf-8") as file:
                    file.write(text)
            macros = [*macros_of(directory, names)]
            declared = [*declarations(directory, names, macros)]
        values = {
            name.removeprefix(PROBE): number
            for _, members in enums_of(declared)
            for _, name, number in members
            if name.startswith(PROBE)
        }
        self.texts = [(name, body) for name, _, body in macros if body.startswith('"')]
        self.numbers = [(name, number_text(values[name])) for name, lengths, _ in macros if name in values and lengths is None]
        self.sizes = [
            Size(name, str(values[name]), re.split(", ?", lengths))
            for name, lengths, _ in macros
            if name in values and lengths is not None
        ]
        self.enums = {
            name.removeprefix("minisign_"): [
                Member(comment, member.removeprefix("MINISIGN_"), number) for comment, member, number in members
            ]
            for name, members in enums_of(declared)
            if name
        }
        self.structs = {node["name"]: [value(field, text) for field in children_of_kind(node, "FieldDecl")]
                        for node, text in declared if node["kind"] == "RecordDecl"}
        self.calls, self.inline_calls = [*calls_of(declared)], [*calls_of(declared, is_inline=True)]
        self.in_parts = {name for name, fields in self.structs.items() if any(field.star for field in fields)}
        self.secrets = {name for name, fields in self.structs.items() if any("secret" in field.roles for field in fields)}

    def flat_parameters(self, call):
        """Yields the parameters of the proved call, which has the fields of a struct of `in_parts` in its place."""
        for parameter in call.parameters:
            if parameter.kind in self.in_parts:
                yield from (
                    field._replace(
                        const="const " if field.star or field.count else "", name=f"{parameter.name}->{field.name}"
                    )
                    for field in self.structs[parameter.kind]
                )
            else:
                yield parameter

    @property
    def errors(self):
        return [enum for enum in self.enums["error"] if enum.number]


@functools.lru_cache(maxsize=None)
def parsed(*texts):
    """Returns the declarations of these texts, and caches them."""
    return Header(*texts)


def install_headers():
    """Returns the declarations of minisign.h and minisign_install.h."""
    return parsed(read(FILE), read(INSTALL_HEADER))


def all_headers():
    """Returns the declarations of all headers with proved calls."""
    return parsed(read(FILE), read(INSTALL_HEADER), read(LIST_HEADER))


def tree_of(file, more=""):
    """Returns the declarations in any C file, for example one of c/, and in those that it includes, as nodes of clang's tree.
    `more` is C code that follows the file."""
    with tempfile.TemporaryDirectory(prefix="header-") as directory:
        main = f'#include "{os.path.join(ROOT, file)}"\n{more}'
        return json.loads(run_clang(directory, main, "-I", os.path.join(ROOT, "c"), *PRINT_TREE))["inner"]


def enum_values(file, enum, more=""):
    """Returns the members of an enum with their values. The parameters are those of `tree_of`."""
    nodes = [(node, "") for node in tree_of(file, more) if node["kind"] == "EnumDecl" and node.get("name") == enum]
    if len(nodes) != 1:
        raise SourceError(f"{file} has {len(nodes)} enums {enum}")
    return {name: number for _, members in enums_of(nodes) for _, name, number in members}


def macro_value(file, macro):
    """Returns the value of a macro of any C header, if it is an integer."""
    return enum_values(file, f"{PROBE}macro", f"enum {PROBE}macro {{ {PROBE}value = {macro} }};\n")[f"{PROBE}value"]


def run_clang(directory, main, *flags):
    """Returns the output of clang for a file with this text."""
    path = os.path.join(directory, "main.c")
    with open(path, "w", encoding="utf-8") as file:
        file.write(main)
    command = [
        needs.program("clang", "clang"),
        "-std=c11",
        "-DMINISIGN_READ_ROLES",
        "-I",
        os.path.join(ROOT, "include"),
        *flags,
        path,
    ]
    process = subprocess.run(command, stdin=subprocess.DEVNULL, stdout=subprocess.PIPE, stderr=subprocess.PIPE)
    if process.returncode:
        raise SourceError(f"clang: {process.stderr.decode(errors='replace')[:1000]}")
    return process.stdout.decode()


def includes(names):
    return "#include <stddef.h>\n#include <stdint.h>\n" + "".join(f'#include "{name}"\n' for name in names)


def macros_of(directory, names):
    """Returns the macros that are constants, texts or sizes, in their order: name, parameters or None, and body."""
    file, macros = "", {}
    for line in run_clang(directory, includes(names), "-E", "-dD").split("\n"):
        if line.startswith("# "):
            file = line.split('"')[1]
        elif line.startswith("#undef MINISIGN_"):
            macros.pop(line[len("#undef MINISIGN_"):], None)
        elif file in names and (macro := MACRO.fullmatch(line)) and macro[3] and not macro[3].startswith("__attribute__"):
            macros[macro[1]] = macro[2], macro[3]
    return [(name, *parameters_and_body) for name, parameters_and_body in macros.items() if name not in NO_CONSTANTS]


def declarations(directory, names, macros):
    """Yields the declarations of these files, each with the text of its file, and an enum with the values of the macros.

    clang prints the file of a location only if it differs from that of the previous location.
    """
    numbers = [
        (name, "" if lengths is None else f"({', '.join('0' for _ in lengths.split(','))})")
        for name, lengths, body in macros
        if not body.startswith('"')
    ]
    probes = "".join(f"    {PROBE}{name} = MINISIGN_{name}{arguments},\n" for name, arguments in numbers)
    main = includes(names) + (f"enum {{\n{probes}}};\n" if probes else "")
    tree, file = json.loads(run_clang(directory, main, *PRINT_TREE)), ""
    texts = {name: read(name) for name in names}
    for node in tree["inner"]:
        file = declared_in = last_file(node.get("loc", {}), file)
        file = last_file(node, file)
        is_probe = declared_in.endswith("/main.c") and node["kind"] == "EnumDecl"
        is_new = "previousDecl" not in node and not node.get("isImplicit")
        if is_new and (is_probe or declared_in in texts):
            yield node, texts.get(declared_in, "")


def last_file(node, before):
    """Returns the file of the last location in a node, or `before` if the node names no file."""
    return ([each["file"] for each in nodes_of(node) if "offset" in each and "file" in each] or [before])[-1]


def nodes_of(node):
    """Yields a node of the tree and all nodes below it, in the order of the output."""
    if isinstance(node, dict):
        yield node
    for child in node.values() if isinstance(node, dict) else node if isinstance(node, list) else ():
        yield from nodes_of(child)


def children_of_kind(node, kind):
    return [child for child in node.get("inner", ()) if child.get("kind") == kind]


def comment_of(node):
    """Returns the text of the comment of a declaration."""
    words = [each["text"] for comment in children_of_kind(node, "FullComment") for each in nodes_of(comment) if "text" in each]
    return " ".join(" ".join(words).split())


def enums_of(declared):
    """Yields each enum: its name, and the comment, name and value of each member."""
    for node, _ in declared:
        if node["kind"] == "EnumDecl":
            yield node.get("name", ""), [
                (
                    comment_of(member),
                    member["name"],
                    int(next(part["value"] for part in nodes_of(member) if part.get("kind") == "ConstantExpr")),
                )
                for member in children_of_kind(node, "EnumConstantDecl")
            ]


def number_text(number):
    return str(number) if number < 1 << 63 else hex(number)


def value(node, text):
    """Returns a parameter or a field. The length of an array comes from the text, because clang drops it from the type
    of a parameter."""
    location = node["loc"].get("expansionLoc", node["loc"])
    array_length = re.match(r"\w+\[(\d+)\]", text[location["offset"]:])
    match = TYPE.fullmatch(node["type"]["qualType"])
    if not match:
        raise SourceError(f"{node['type']['qualType']} {node.get('name')}: unknown type")
    const, kind, star, count = (group or "" for group in match.groups())
    if array_length and not count:
        star, count = "", array_length[1]
    declared = f"{const}{kind} {star}{node['name']}" + (f"[{count}]" if count else "")
    return Value(declared, const, kind, star, node["name"], count, roles_of(node))


def roles_of(node):
    """Returns the roles of a parameter or a field, each with its argument."""
    roles = {}
    for attribute in children_of_kind(node, "AnnotateAttr"):
        words = [json.loads(each["value"]) for each in nodes_of(attribute) if each.get("kind") == "StringLiteral"]
        role, _, more = words[-1].partition(" ")
        if role not in ("array", "output", "presence", "room", "secret") or (role == "room") != bool(more):
            raise SourceError(f"{node['name']}: unknown role: {words}")
        roles[role] = more
    return roles


def calls_of(declared, is_inline=False):
    """Yields the calls, or with `is_inline` the static functions. A comment above several declarations belongs to each of
    them."""
    comment, end = "", 0
    for node, text in declared:
        if node["kind"] != "FunctionDecl" or (node.get("storageClass") == "static") != is_inline:
            continue
        begin = offset_of(node["range"]["begin"])
        if comment_of(node):
            comment = comment_of(node)
        elif not re.fullmatch(r"[^;]*;\s*", text[end:begin]):
            raise SourceError(f"{node['name']} has no comment directly above it; put #define lines above the comment")
        end = offset_of(node["range"]["end"])
        yield Call(
            node["type"]["qualType"].partition(" (")[0],
            node["name"],
            [value(each, text) for each in children_of_kind(node, "ParmVarDecl")],
            comment,
        )


def offset_of(location):
    return location.get("expansionLoc", location)["offset"]
