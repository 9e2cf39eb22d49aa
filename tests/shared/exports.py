"""Compares `minisign.h`, `minisign_install.h` and `minisign_list.h` with the exports of the crate `minisign_c`.

Each function that a header declares must be an export with the same name and types, and each export must be declared. A
slice parameter in Rattle is a pointer and a length in C. This module also writes a file of static assertions, for C and
C++, which check that the structs of the headers have the same layout as those of the crates.

Needs Python 3.9 or later.
"""

import ctypes
import os
import re
import sys

sys.path.append(os.path.join(os.path.dirname(os.path.realpath(__file__)), "..", "..", "tools"))

import boundary
import c_header
import sources
from running import write

# The C type for each integer type of Rattle and each struct type of the crates.
C_TYPES = {"u32": "uint32_t", "u64": "uint64_t", "i64": "int64_t", "usize": "size_t", "State": "minisign_state",
           "PublicKeyValue": "minisign_public_key", "SignatureValue": "minisign_signature", "Questions": "minisign_questions",
           "UnopenedKeyValue": "minisign_unopened_key", "SecretKeyValue": "minisign_secret_key", "Sealing": "minisign_sealing",
           "NewKey": "minisign_new_key", "Installation": "minisign_installation", "Choices": "minisign_install_options",
           "ListValue": "minisign_list", "EntryValue": "minisign_list_entry", "FileValue": "minisign_list_file"}
# The opaque structs, whose fields are private to the library.
OPAQUE_STRUCTS = ("minisign_state", "minisign_installation", "minisign_list_file")
# The ctypes type for each integer type that a field may have.
INTEGERS = {"u8": ctypes.c_uint8, "u32": ctypes.c_uint32, "u64": ctypes.c_uint64}

# An exported function: its name, parameters and result type. Then a field of a struct: its name and type.
EXPORT = re.compile(r'^pub extern "C" fn (minisign_\w+)\((.*?)\)(?: -> (\w+))?(?: \{)?\s*$', re.M | re.S)
FIELD = re.compile(r"^    (?:pub(?:\(crate\))? )?(\w+): ([^;,]+(?:; \w+\])?),$", re.M)
# The first lines of the file with assertions.
FILE_HEAD = """\
#include <assert.h>
#include <stdalign.h>
#include <stddef.h>

#include "minisign_install.h"
#include "minisign_list.h"

/* Some 32-bit processors, such as i386, align 64-bit integers to 4 bytes. */
#define IS_ALIGNED(type, alignment) (alignof(type) == (alignment) || (sizeof(void *) < 8 && alignof(type) < (alignment)))
#define IS_LAID_OUT(type, size, alignment) \\
    static_assert(sizeof(type) == (size) && IS_ALIGNED(type, alignment), #type)
#define IS_AT(type, field, offset, size) \\
    static_assert(offsetof(type, field) == (offset) && sizeof(((type *) 0)->field) == (size), #type "." #field)
"""


def c_types_of(kind):
    """Returns the C types that correspond to a Rattle type: two for a slice, none for the allocator, otherwise one.
    For an unknown type, the C type is a text that says so and that no declaration matches."""
    if kind == "Global":
        return []
    is_reference, is_mut, target = re.fullmatch(r"(&?)(mut )?(.*)", kind).groups()
    const = "" if is_mut else "const "
    integers = re.fullmatch(r"\[u(8|32)(; \d+)?\]", target)
    if is_reference and integers:
        return [f"{const}uint{integers[1]}_t *", *([] if integers[2] else ["size_t"])]
    structs = re.fullmatch(r"\[(\w+)\]", target)
    c_type = C_TYPES.get(structs[1] if structs else target, f"{target}, which this script does not know")
    if is_reference and structs:
        return [f"{const}{c_type} *", "size_t"]
    return [f"{const}{c_type} *" if is_reference else c_type]


def parameters_of(parameters):
    """Splits the parameter list of an export into parameters, each as `name: type`."""
    return [parameter for parameter in re.split(r",\s*(?![^\[]*\])", parameters.strip().rstrip(",")) if parameter]


def rattle_exports():
    """Maps the name of each export of `minisign_c` to the C types of its parameters and the C type of its result."""
    texts = map(sources.read, ("crates/minisign_c/src/lib.rt", "crates/minisign_c/src/installing.rt"))
    return {name: ([kind for parameter in parameters_of(parameters) for kind in c_types_of(parameter.partition(":")[2].strip())],
                   c_types_of(result)[0] if result else "void")
            for text in texts for name, parameters, result in EXPORT.findall(text)}


def wrong_declarations():
    """Returns a line for each function whose declaration differs from its export, or that is only declared or only
    exported."""
    exports = rattle_exports()
    headers = c_header.all_headers()
    declared = {
        call.name: (
            [boundary.plain_parameter(parameter) for parameter in headers.flat_parameters(call)],
            boundary.plain_type(call.answer),
        )
        for call in boundary.proved_calls(headers)
    }
    return [f"{name}: the header declares {declared.get(name)}, and minisign_c exports {exports.get(name)}"
            for name in sorted({*declared, *exports}) if declared.get(name) != exports.get(name)]


def ctypes_type(kind, structs, lengths):
    """Returns the ctypes type for a Rattle type. `structs` maps the names of structs to their source text, and
    `lengths` maps the names of constants to array lengths."""
    array = re.fullmatch(r"\[(.+); (\w+)\]", kind)
    if array:
        return ctypes_type(array[1], structs, lengths) * int(lengths.get(array[2], array[2]))
    if kind in INTEGERS:
        return INTEGERS[kind]
    fields = [(name, ctypes_type(field_type, structs, lengths)) for name, field_type in FIELD.findall(structs[kind])]
    return type(kind, (ctypes.Structure,), {"_fields_": fields})


def write_layout(directory):
    """Writes a C file with assertions about the layout of each struct of the headers, and returns the path of the file."""
    structs, lengths, lines, headers = {}, {}, [FILE_HEAD], c_header.all_headers()
    for file in sources.files_below(os.path.join(sources.ROOT, "crates"), ".rt"):
        text = sources.read(file)
        lengths.update(re.findall(r"const (\w+): usize = (\d+);", text))
        if "#[repr(C)]" in text:
            structs.update((item.name, item.text) for item in sources.read_source(file).items
                           if item.keyword == "struct" and "#[repr(C)]" in item.text)
    rattle_names = {c_name: name for name, c_name in C_TYPES.items()}
    for name in (name for name in headers.structs if name not in headers.in_parts):
        struct = ctypes_type(rattle_names[name], structs, lengths)
        lines.append(f"IS_LAID_OUT({name}, {ctypes.sizeof(struct)}, {ctypes.alignment(struct)});")
        fields = [(field, getattr(struct, field)) for field, _ in struct._fields_ if name not in OPAQUE_STRUCTS]
        lines += [f"IS_AT({name}, {field}, {member.offset}, {member.size});" for field, member in fields]
    return write(directory, "layout.c", "\n".join([*lines, ""]).encode())
