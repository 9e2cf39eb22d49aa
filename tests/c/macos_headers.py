"""Writes C headers that replace those of macOS, from Rust's crate `libc`, which describes the system.

Apple's headers are not available without macOS, and the headers of another C library are no replacement: the types
of macOS have other sizes, and it lacks some functions of POSIX. Debian's package librust-libc-dev has the types,
constants and functions of macOS in Rust. `write` translates to C those that some C sources use. Declarations of ISO
C, and those that `libc` does not have, are in BY_HAND and UNCHECKED.
"""

import os
import re

CRATES = "/usr/share/cargo/registry"
GO = "/usr/share/gocode/src/golang.org/x/sys/unix/zerrors_darwin_amd64.go"
FILES = ("unix/mod.rs", "unix/bsd/mod.rs", "unix/bsd/apple/mod.rs", "unix/bsd/apple/b64/mod.rs")
HEADERS = (
    "dirent", "errno", "fcntl", "inttypes", "poll", "signal", "stdio", "stdlib", "string", "strings", "sys/acl",
    "sys/file", "sys/random", "sys/resource", "sys/select", "sys/stat", "sys/statvfs", "sys/types", "termios", "time",
    "unistd", "pthread", "ctype", "sys/time", "sys/mman", "sys/ioctl", "pwd", "grp",
)
# The C names of Rust types.
C_NAMES = {
    "c_int": "int",
    "c_uint": "unsigned",
    "c_char": "char",
    "c_schar": "signed char",
    "c_uchar": "unsigned char",
    "c_short": "short",
    "c_ushort": "unsigned short",
    "c_long": "long",
    "c_ulong": "unsigned long",
    "c_longlong": "long long",
    "c_ulonglong": "unsigned long long",
    "c_void": "void",
    "i8": "signed char",
    "u8": "unsigned char",
    "i16": "short",
    "u16": "unsigned short",
    "i32": "int",
    "u32": "unsigned",
    "i64": "long long",
    "u64": "unsigned long long",
    "usize": "size_t",
    "isize": "long",
    "size_t": "size_t",
    "c_double": "double",
    "c_float": "float",
    "uintptr_t": "unsigned long",
    "intptr_t": "long",
    "ssize_t": "ssize_t",
    "va_list": "va_list",
    "()": "void",
    "!": "_Noreturn void",
}
# Declarations of ISO C and POSIX that this module cannot translate from `libc`.
BY_HAND = """
#include <stdarg.h>
#include <stdbool.h>
#include <stddef.h>
#include <stdint.h>
#include <limits.h>
typedef long ssize_t;
typedef void (*sighandler_t)(int);
typedef struct stream FILE;
typedef struct directory DIR;
extern FILE *__stdinp, *__stdoutp, *__stderrp;
#define stdin __stdinp
#define stdout __stdoutp
#define stderr __stderrp
int *__error(void);
#define errno (*__error())
#define PRIu64 "llu"
#define PRIx64 "llx"
#define PRIX64 "llX"
#define S_ISREG(mode) (((mode) & S_IFMT) == S_IFREG)
#define S_ISDIR(mode) (((mode) & S_IFMT) == S_IFDIR)
#define S_ISLNK(mode) (((mode) & S_IFMT) == S_IFLNK)
#define S_ISCHR(mode) (((mode) & S_IFMT) == S_IFCHR)
#define S_ISBLK(mode) (((mode) & S_IFMT) == S_IFBLK)
#define S_ISFIFO(mode) (((mode) & S_IFMT) == S_IFIFO)
#define S_ISSOCK(mode) (((mode) & S_IFMT) == S_IFSOCK)
#define NSIG 32
#define NAME_MAX 255
typedef int sig_atomic_t;
typedef struct fd_set fd_set;
typedef struct pthread_mutex_t pthread_mutex_t;
typedef struct pthread_cond_t pthread_cond_t;
void FD_ZERO(fd_set *);
void FD_SET(int, fd_set *);
int FD_ISSET(int, const fd_set *);
extern char *optarg;
extern int optind, opterr, optopt;
"""
# Functions of ISO C, and of macOS's manual pages, that the crate does not have. They are not compared with Apple's
# headers.
UNCHECKED = {"putc": "int putc(int, FILE *);", "putchar": "int putchar(int);",
             "strftime": "size_t strftime(char *, size_t, const char *, const struct tm *);",
             "strsep": "char *strsep(char **, const char *);", "vfprintf": "int vfprintf(FILE *, const char *, va_list);",
             "vsnprintf": "int vsnprintf(char *, size_t, const char *, va_list);",
             "getentropy": "int getentropy(void *, size_t);",
             "acl_init": "typedef struct access_list *acl_t; acl_t acl_init(int);",
             "acl_set_fd": "int acl_set_fd(int, acl_t);", "acl_free": "int acl_free(void *);",
             "atexit": "int atexit(void (*)(void));", "pthread_create":
             "int pthread_create(pthread_t *, const struct pthread_attr_t *, void *(*)(void *), void *);",
             "qsort": "void qsort(void *, size_t, size_t, int (*)(const void *, const void *));"}


# Functions that compilers call by themselves, and variables.
COMPILER_SYMBOLS = (
    "memcpy", "memmove", "memset", "__bzero", "bzero", "__stack_chk_fail", "__stack_chk_guard", "__stdinp",
    "__stdoutp", "__stderrp", "__error", "fputc", "fwrite", "puts", "optarg", "optind", "opterr", "optopt",
    "_DefaultRuneLocale",
)
# A stub of the system library, with the symbols that a linker needs.
STUB = """--- !tapi-tbd
tbd-version: 4
targets: [ x86_64-macos, arm64-macos ]
install-name: '/usr/lib/libSystem.B.dylib'
exports:
  - targets: [ x86_64-macos, arm64-macos ]
    symbols: [ dyld_stub_binder, {symbols} ]
...
"""


class Untranslatable(Exception):
    """The crate does not have an item, or has it in a form that this module cannot translate."""


class Crate:
    """The items of the crate for 64-bit macOS."""

    def __init__(self, crates, go):
        directories = [name for name in sorted(os.listdir(crates)) if re.fullmatch(r"libc-\d.*", name)]
        source_directory = f"{crates}/{directories[0]}/src" if directories else None
        text = "".join(re.sub(r"(?m)//.*$", "", read_text(f"{source_directory}/{name}")) for name in FILES)
        self.version = os.path.basename(os.path.dirname(source_directory))
        self.types = dict(re.findall(r"pub type (\w+) =\s*([^;]+);", text))
        self.constants = {name: (kind, value) for name, kind, value in re.findall(r"pub const (\w+): ([\w:]+) =\s*([^;]+);", text)}
        self.functions = {
            name: parameters_text
            for name, *parameters_text in re.findall(r"pub fn (\w+)\(([^)]*)\)(?:\s*->\s*([^;{]+))?\s*[;{]", text)
        }
        self.structs = dict(re.findall(r"pub struct (\w+) \{([^}]*)\}", text))
        self.structs["FILE"] = self.structs["DIR"] = ""
        self.go_constants = dict(re.findall(r"(?m)^\t(\w+) +=\s(?:syscall\.\w+\()?(0x[0-9a-f]+)\)?$", read_text(go)))
        self.written, self.lines = {"struct FILE", "struct DIR", "sighandler_t", "FD_ZERO", "FD_SET", "FD_ISSET"}, []
        # The number of constants that were compared with Go's package.
        self.compared = 0

    def type(self, text, name=""):
        """Translates a Rust type to a C type or, with a name, to a declaration of this name. Adds the types on
        which it depends."""
        text = text.strip().replace("::", "").replace("extern \"C\" ", "")
        if match := re.fullmatch(r"\*(const|mut) (.+)", text):
            # No function has a const pointer to a pointer.
            pointee = self.type(match[2])
            return f"{'const ' if match[1] == 'const' and not match[2].startswith('*') else ''}{pointee} *{name}"
        if match := re.fullmatch(r"\[(.+); ([^;]+)\]", text):
            return self.type(match[1], f"{name}[{self.value(match[2])}]")
        if re.match(r"(Option<)?(unsafe )?fn\(|Option<", text):
            return f"void *{name}"
        if text in C_NAMES:
            return f"{C_NAMES[text]} {name}".rstrip()
        if text in self.structs:
            self.add_struct(text)
            return f"{'' if text in ('FILE', 'DIR') else 'struct '}{text} {name}".rstrip()
        if text in self.types or text == "sighandler_t":
            self.add_alias(text)
            return f"{text} {name}".rstrip()
        raise Untranslatable(f"libc's type {text!r}")

    def add_alias(self, name):
        """Adds the typedef of a type, unless it was added before."""
        if name not in self.written:
            self.written.add(name)
            self.lines.append(f"typedef {self.type(self.types[name], name)};")

    def add_struct(self, name):
        """Adds the declaration of a struct, unless it was added before."""
        if f"struct {name}" in self.written:
            return
        self.written.add(f"struct {name}")
        fields = re.findall(r"(?:pub )?(\w+):\s*([^\n]+?),?[ ]*\n", self.structs[name] + "\n")
        # C has a union of two signal handlers here, of which Rust names the other one. If a field depends on the
        # target, the last form is that of macOS.
        fields = {"sa_handler" if field == "sa_sigaction" else field: kind for field, kind in fields}
        self.lines.append(f"struct {name} {{ {' '.join(self.type(kind, field) + ';' for field, kind in fields.items())} }};")

    def add_constant(self, name):
        """Adds the definition of a constant, unless it was added before. If Go's package has the constant too, also
        adds an assertion that both have the same value."""
        if name not in self.written:
            self.written.add(name)
            kind, value = self.constants.get(name) or ("c_int", self.go_constants[name])
            self.lines.append(f"#define {name} (({self.type(kind)}) ({self.value(value)}))")
            if name in self.go_constants:
                self.lines.append(f'_Static_assert({name} == {self.go_constants[name]}, "{name} of Go");')
                self.compared += 1

    def value(self, text):
        """Translates a Rust expression to C. Adds the constants on which it depends."""
        text = re.sub(r"\bas [\w:]+", "", text.replace("::", "").replace("!", "~"))
        text = re.sub(r"\b(?:0x[0-9a-fA-F_]+|[0-9][0-9_]*)", lambda number: number[0].replace("_", ""), text)
        for constant in re.findall(r"\b[A-Z_]\w*\b", text):
            self.add_constant(constant)
        return text.strip()

    def add_function(self, name):
        """Adds the declaration of a function, unless it was added before."""
        if name not in self.written:
            self.written.add(name)
            parameters_text, result = self.functions[name]
            parameters = [part.strip() for part in parameters_text.replace("\n", " ").split(",") if part.strip()]
            kinds = [word if word == "..." else self.type(word.partition(":")[2]) for word in parameters]
            self.lines.append(f"{self.type(result.strip() or '()')} {name}({', '.join(kinds) or 'void'});")


def read_text(path):
    """Returns the content of a text file."""
    with open(path, encoding="utf-8") as file:
        return file.read()


def write(directory, sources, crates=CRATES, go=GO):
    """Writes the headers to a directory: BY_HAND, and the items of the crate that these C sources use. Returns the
    number of constants that have the same value in Go's package, and the names of the functions in UNCHECKED that
    the sources use."""
    crate, unchecked = Crate(crates, go), []
    code = "".join(re.sub(r'(?s)/\*.*?\*/|"(?:\\.|[^"\\])*"', "", read_text(source)) for source in sources)
    called, structs = {*re.findall(r"\b([a-z_]\w*)(?:\(|$)", code, re.M)}, {*re.findall(r"\bstruct (\w+)", code)}
    defined_names = {
        *re.findall(r"(?m)^ *# *define (\w+)", code),
        *re.findall(r"[{,]\s*([A-Z_]\w*)", "".join(re.findall(r"\benum \w* ?(\{[^}]*\})", code))),
    }
    for word in sorted({*re.findall(r"[A-Za-z_]\w*", code + BY_HAND)} - defined_names):
        if word in crate.structs and word in {*structs, "fd_set", "pthread_mutex_t", "pthread_cond_t"}:
            crate.add_struct(word)
        if word in UNCHECKED:
            unchecked.append(word)
        elif word in crate.functions and word in called:
            crate.add_function(word)
        elif word in crate.constants or word in crate.go_constants:
            crate.add_constant(word)
        elif word in crate.types:
            crate.add_alias(word)
    unchecked_declarations = [UNCHECKED[word] for word in unchecked]
    os.makedirs(os.path.join(directory, "sys"), exist_ok=True)
    functions = sorted({*crate.functions, *UNCHECKED} & {*crate.written, *unchecked})
    with open(os.path.join(directory, "libSystem.tbd"), "w", encoding="utf-8") as file:
        file.write(STUB.format(symbols=", ".join(f"_{name}" for name in (*functions, *COMPILER_SYMBOLS))))
    text = "\n".join(["#ifndef MACOS_H", "#define MACOS_H", BY_HAND, *crate.lines, *unchecked_declarations, "#endif", ""])
    for name in ("macos", *HEADERS):
        with open(os.path.join(directory, f"{name}.h"), "w", encoding="utf-8") as file:
            file.write(text if name == "macos" else "#include <macos.h>\n")
    return crate.compared, unchecked
