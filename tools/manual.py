"""Generates the manual page of a header, such as `c/man/minisign.3`, for `tools/header.py`.

Comments of the header become text, and everything between them becomes code. The marks of tools/header.py are left out.
The example programs follow. The head of a page, up to DESCRIPTION, and its end, from SEE ALSO on, are written by hand.
"""

import os
import re
import textwrap

from sources import read

# The example programs in the manual page of minisign.h, with their headings.
EXAMPLES = {"verifying, in full, with libsodium": "c/examples/verify.c", "signing, in full, with libsodium": "c/examples/sign.c"}
# The same for the manual page of minisign_installing.h.
INSTALL_EXAMPLES = {"installing, in full, with libsodium": "c/examples/install.c"}
# A comment that begins at the left margin.
PIECE = re.compile(r"^/\*.*?\*/", re.S | re.M)
MAKERS_NOTE = re.compile(r"(?:[\w ]+, made by tools/header\.py|The end of the [a-z]+)\.|SPDX-License-Identifier: .*")
LICENCE = re.compile(r"// SPDX-License-Identifier: .*\n")


def page_of(header):
    """Returns the path of the manual page of a header."""
    return f"c/man/{os.path.basename(header).removesuffix('.h')}.3"


def escape_roff(line):
    """Escapes a line of text for roff."""
    line = line.replace("\\", "\\e").replace("-", "\\-").replace("'", "\\(aq").replace("^", "\\(ha").replace("~", "\\(ti")
    return "\\&" + line if line.startswith(".") else line


def code(text):
    """Returns the roff lines of code, which is printed as it is."""
    return [".nf", *(escape_roff(line) for line in text.strip("\n").split("\n")), ".fi"] if text.strip() else []


def prose(comment):
    """Returns the roff lines of a comment: headings, list items, paragraphs, and as code what is indented by four spaces."""
    lines, block = [], []
    for line in [*comment[2:-2].split("\n"), ".end"]:
        line = re.sub(r"^ ?\* ?", "", line) if line.lstrip().startswith("*") else line.strip()
        heading = re.fullmatch(r"-{4} (.*) -{4}", line.strip())
        if line.startswith("    ") or (block and not line.strip()):
            block.append(line)
            continue
        lines, block = lines + code("\n".join(block)), []
        if heading:
            lines.append(f".SH {heading[1].upper()}")
        elif line.startswith("- "):
            lines += [".IP \\(bu 2", escape_roff(line[2:].strip())]
        elif line.strip() and line != ".end" and not MAKERS_NOTE.fullmatch(line.strip()):
            lines.append(escape_roff(line.strip()))
        elif not line.strip() and lines and lines[-1] != ".PP":
            lines.append(".PP")
    while lines and lines[-1] == ".PP":
        lines.pop()
    return lines


def wrap(lines):
    """Wraps text at 80 columns, and removes empty paragraphs and those directly after a section heading."""
    wrapped, text, is_code = [], [], False
    for line in [*lines, ""]:
        if not line.startswith(".") and not is_code and line:
            text.append(line)
            continue
        for part in textwrap.wrap(" ".join(text), 80, break_on_hyphens=False, break_long_words=False):
            wrapped.append("\\&" + part if part.startswith(".") else part)
        text = []
        while wrapped and wrapped[-1] == ".PP" and (line == ".PP" or line.startswith((".IP", ".SH"))):
            wrapped.pop()
        if not (line == ".PP" and wrapped and wrapped[-1].startswith(".SH")):
            wrapped.append(line)
        is_code = line == ".nf" or (is_code and line != ".fi")
    return wrapped[:-1]


def without_guards(text):
    """Returns code without roles, and without preprocessor lines other than definitions of constants."""
    text = re.sub(r" MINISIGN_ROLE\([^)]*\)", "", text)
    text = re.sub(r"#if.*?#endif\n", "", text, flags=re.S)
    return re.sub(r"^#(?:ifn?def|endif|include|define MINISIGN_(?:INSTALL_|INSTALLING_)?H$).*\n?", "", text, flags=re.M)


def manual_text(page, header, version, examples):
    """Returns the manual page of a header: its comments and the code between them, then the examples."""
    offset, body, old_page = 0, [], read(page)
    # The attributes of calls are only for compilers.
    header = re.sub(r"/\* Attributes, made by .*?/\* The end of the attributes\. \*/\n\n", "", header, flags=re.S)
    for match in [*PIECE.finditer(header), None]:
        end, next_offset = (match.start(), match.end()) if match else (len(header), 0)
        for part in (code(without_guards(header[offset:end])), prose(match[0]) if match else []):
            body += [".PP"] * bool(part and body and not part[0].startswith(".SH")) + part
        offset = next_offset
    for heading, file in examples.items():
        body += [f".SH {heading.upper()}", *code(LICENCE.sub("", read(file)))]
    head, heading, _ = re.sub(r'(?m)^(\.TH .* "minisign ).*"$', rf'\g<1>{version}"', old_page).partition(".SH DESCRIPTION\n")
    return head + heading + "\n".join(wrap(body)) + "\n" + old_page[old_page.rindex(".SH SEE ALSO\n"):]
