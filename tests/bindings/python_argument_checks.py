"""Checks of the arguments and the documentation of all public functions and methods of the Python package.
`python_checks.py` lists the steps.

`arguments` passes wrong values for each argument of each public function and method, and checks that a TypeError or
ValueError names the argument, and that nothing is written.

Needs Python 3.9 or later.
"""

import array
import enum
import functools
import hashlib
import inspect
import io
import os
import pathlib
import pydoc
import re
import shutil
from typing import Any, Callable, Dict, Iterator, List, NamedTuple, Sequence, Tuple

import minisign_proved as minisign
from minisign_proved import PublicKey, SecretKey, Signature, Verifier, _calls
from python_results import check, comparable, files, rejects

# ---- Values of arguments ----

# An os.PathLike whose path is bytes, and an object whose __fspath__ returns a number.
BytesPath = type("BytesPath", (pathlib.PurePosixPath,), {"__fspath__": lambda path: os.fsencode(str(path))})
NoPath = type("NoPath", (), {"__fspath__": lambda _: 3})


def scattered(value: bytes) -> memoryview:
    """Returns a memoryview of the bytes that is not contiguous."""
    return memoryview(b"".join(bytes([byte, 255 - byte]) for byte in value))[::2]


# Functions that convert bytes to other types that are accepted as bytes.
SAME_BYTES: Sequence[Callable[[bytes], Any]] = (
    bytearray,
    memoryview,
    scattered,
    lambda value: array.array("B", value),
    lambda value: type("Other", (bytes,), {})(value),
)
NUMBER_TYPES: Sequence[object] = (0, 3, 1234, -1, True, False, 1.5, 2j)
OTHER_TYPES: Sequence[object] = ([1, 2], (1, 2), {1: 2}, set(), object())


class Kind(NamedTuple):
    """Test values for a kind of argument: values of wrong types, invalid values of right types, and functions that
    convert a valid value to another valid form."""

    wrong: Sequence[object]
    bad: Sequence[object] = ()
    forms: Sequence[Callable[[Any], Any]] = ()


PATH_FORMS: Sequence[Callable[[Any], Any]] = (os.fsencode, pathlib.Path, BytesPath)
TEXT_FORMS: Sequence[Callable[[Any], Any]] = (
    str.encode,
    *(lambda text, form=form: form(text.encode()) for form in SAME_BYTES),
)
BAD_PATHS = ("", b"", "a\0b", b"\0", pathlib.PurePath("a\0b"))
KINDS = {
    "bytes": Kind((None, "", "text", *NUMBER_TYPES, *OTHER_TYPES), forms=SAME_BYTES),
    "text": Kind((None, *NUMBER_TYPES, *OTHER_TYPES), forms=TEXT_FORMS),
    "password": Kind((*NUMBER_TYPES, *OTHER_TYPES)),
    "new password": Kind((*NUMBER_TYPES, *OTHER_TYPES), bad=("", b"", bytearray())),
    "path": Kind((None, bytearray(b"data"), NoPath(), *NUMBER_TYPES, *OTHER_TYPES), bad=BAD_PATHS, forms=PATH_FORMS),
    "name": Kind(
        (None, bytearray(b"data"), NoPath(), *NUMBER_TYPES, *OTHER_TYPES), bad=(*BAD_PATHS, "", b""), forms=PATH_FORMS
    ),
    "target": Kind(
        (None, bytearray(b"data"), NoPath(), *NUMBER_TYPES, *OTHER_TYPES),
        bad=(*BAD_PATHS, ".", "..", b"/", "there/"),
        forms=PATH_FORMS,
    ),
    "path or file": Kind(
        (None, NoPath(), io.StringIO(""), io.StringIO("data"), *NUMBER_TYPES, *OTHER_TYPES),
        bad=BAD_PATHS,
        forms=(*PATH_FORMS, lambda path: open(path, "rb"), lambda path: io.BytesIO(open(path, "rb").read())),
    ),
    "data": Kind(
        (
            None,
            "",
            "data",
            pathlib.Path("data"),
            io.StringIO(""),
            io.StringIO("data"),
            [1],
            ["a"],
            [b"da", None],
            *NUMBER_TYPES,
            object(),
        ),
        forms=(
            *SAME_BYTES,
            io.BytesIO,
            lambda value: [value[:1], bytearray(value[1:])],
            lambda value: (value[index : index + 1] for index in range(len(value))),
        ),
    ),
    "truth": Kind((None, 0, 1, 1.0, "", "no", b"yes", *OTHER_TYPES)),
    "rows": Kind((None, True, 1.0, "1", b"1", *OTHER_TYPES), bad=(0, -1, 2**64, 2**64 + 1)),
    "operations": Kind(
        (None, True, 1.0, "1", b"1", *OTHER_TYPES),
        bad=(0, -1, 524287, 2**64),
        forms=(lambda _: 524288, lambda _: 2**64 - 1),
    ),
    "memory": Kind(
        (None, True, 1.0, "1", b"1", *OTHER_TYPES),
        bad=(0, -1, 2**24 - 1, 2**30 + 1),
        forms=(lambda _: 2**24, lambda _: 2**30),
    ),
    "mode": Kind(
        (None, True, False, 0o755 + 0.0, "755", "rwx", b"755", *OTHER_TYPES),
        bad=(-1, 0o1000, 755, 0o100755, 2**32 + 0o755),
        forms=(lambda _: 0, lambda _: 0o777),
    ),
    "size": Kind(
        (None, True, False, 1e6, "1M", b"1", *OTHER_TYPES),
        bad=(-1, 2**64),
        forms=(lambda _: 4, lambda _: 2**64 - 1),
    ),
    "seconds": Kind(
        (None, True, 1.0, "1", b"1", *OTHER_TYPES),
        bad=(-1, 24 * 60 * 60 + 1),
        forms=(lambda _: 0, lambda _: 24 * 60 * 60),
    ),
    "function": Kind((None, "f", b"f", *NUMBER_TYPES, *OTHER_TYPES)),
    "long digest": Kind(
        (None, b"sha512", *NUMBER_TYPES, *OTHER_TYPES),
        bad=("", "sha256", "SHA512", "md5"),
        forms=(lambda _: "none", lambda _: "blake2b"),
    ),
    "numbering": Kind((None, b"version", *NUMBER_TYPES, *OTHER_TYPES), bad=("", "date", "Version", "version ")),
    "Ed25519": Kind((None, b"libsodium", *NUMBER_TYPES, *OTHER_TYPES), bad=("", "sodium", "Libsodium")),
    "public keys": Kind(
        (None, "RWQ", b"RWQ", *NUMBER_TYPES, *OTHER_TYPES),
        bad=([], ()),
        forms=(lambda value: [value], lambda value: (value, value)),
    ),
    "public key": Kind((None, "RWQ", b"RWQ", "theirs", *NUMBER_TYPES, *OTHER_TYPES)),
    "secret key": Kind((None, b"key", *NUMBER_TYPES, *OTHER_TYPES)),
    "signature": Kind((None, "", "text", b"", b"text", *NUMBER_TYPES, *OTHER_TYPES)),
}
# The suffix of the name of a kind if the argument may also be None.
OR_NONE = " or none"

# ---- Calls ----


class Call:
    """A function or a method, the object that has it, and for each argument its kind and a valid value. If the object
    or a value is a function or a bound method here, it is called before each call, and its result is used."""

    def __init__(self, name: str, owner: object, /, **arguments: Tuple[str, object]) -> None:
        self.name, self.owner, self.arguments = name, owner, arguments

    def call(self) -> "functools.partial[Any]":
        """Returns the call with valid values for all arguments."""
        called = getattr(fresh_value(self.owner), self.name.rpartition(".")[2])
        return functools.partial(
            called, **{argument: fresh_value(value) for argument, (_, value) in self.arguments.items()}
        )


def fresh_value(value: object) -> Any:
    return value() if inspect.isfunction(value) or inspect.ismethod(value) else value


# The kind and a valid value of arguments that several calls have.
PROGRESS: Dict[str, Any] = {"progress": ("function or none", None)}
LONG_DIGEST: Dict[str, Any] = {"long_digest": ("long digest", "sha512")}
COMMENTS: Dict[str, Any] = {"trusted_comment": ("text or none", "comment \u00e9"), "untrusted_comment": ("text", "other")}
# Options for reading a secret key, and for encrypting one.
OPENING: Dict[str, Any] = {"password": ("password", None), "low_memory": ("truth", False), "most_rows": ("rows", 1)}
LIMITS: Dict[str, Any] = {"operations_limit": ("operations", 2**20), "memory_limit": ("memory", 2**25)}


class Samples:
    """Valid values for the calls: keys, a file of data and a list, both signed, in a directory."""

    def __init__(self, scratch: str) -> None:
        self.scratch, self.secret = scratch, SecretKey.generate()
        self.public = self.secret.public_key
        self.path, self.key_path, self.public_path, self.list_path = (
            os.path.join(scratch, name) for name in ("data", "data.key", "data.pub", "SHA256SUMS")
        )
        pathlib.Path(self.path).write_bytes(b"data")
        minisign.write_new(self.key_path, self.secret.to_bytes(None))
        minisign.write_new(self.public_path, self.secret.public_bytes())
        self.signature = minisign.sign(self.path, self.secret, trusted_comment="version:1\tfile:app")
        self.list_text = f"{hashlib.sha256(b'data').hexdigest()}  data\n"
        pathlib.Path(self.list_path).write_text(self.list_text)
        self.list_signature = minisign.sign(self.list_path, self.secret, trusted_comment="version:1\tfile:SHA256SUMS")

    def empty_target(self) -> str:
        """Returns the path of a target in an empty directory."""
        directory = os.path.join(self.scratch, "fresh")
        shutil.rmtree(directory, ignore_errors=True)
        os.mkdir(directory)
        return os.path.join(directory, "app")

    def new_data_file(self) -> str:
        """Returns the path of a file of data without a signature."""
        path = self.empty_target()
        pathlib.Path(path).write_bytes(b"data")
        return path

    def verifier(self) -> Verifier:
        return Verifier(self.public, self.signature)

    def fed_verifier(self) -> Verifier:
        result = self.verifier()
        result.update(b"data")
        return result


def all_calls(samples: Samples) -> List[Call]:
    """Returns the calls of all functions and methods."""
    kind = "libsodium" if isinstance(_calls.ed25519(), _calls.Sodium) else "cryptography"
    return [
        *reading_calls(samples),
        *verifying_calls(samples),
        *list_calls(samples),
        *secret_key_calls(samples),
        *file_calls(samples),
        *installing_calls(samples),
        Call("use_ed25519", minisign, name=("Ed25519", kind)),
    ]


def reading_calls(samples: Samples) -> List[Call]:
    """Returns the calls that read signatures and public keys."""
    public_bytes = samples.secret.public_bytes()
    return [
        Call("Signature", minisign, text=("text", samples.signature.text.decode())),
        Call("Signature.from_file", Signature, path=("path", samples.path + ".minisig")),
        Call("PublicKey", minisign, text=("text", public_bytes.decode())),
        Call("PublicKey.from_file", PublicKey, path=("path", samples.public_path)),
        Call("PublicKey.from_base64", PublicKey, letters=("text", public_bytes.split(b"\n")[1].decode())),
    ]


def verifying_calls(samples: Samples) -> List[Call]:
    """Returns the calls that verify data or a file."""
    return [
        Call(
            "PublicKey.verify",
            samples.public,
            data=("data", b"data"),
            signature=("signature", samples.signature),
            allow_legacy=("truth", False),
        ),
        Call(
            "Verifier",
            minisign,
            key=("public key", samples.public),
            signature=("signature", samples.signature),
            allow_legacy=("truth", True),
        ),
        Call("Verifier.update", samples.verifier, piece=("bytes", b"data")),
        Call("Verifier.trusted_comment", samples.verifier),
        Call("Verifier.finish", samples.fed_verifier),
        Call(
            "verify",
            minisign,
            path=("path", samples.path),
            key=("public key", samples.public),
            signature=("signature or none", None),
            allow_legacy=("truth", False),
            **PROGRESS,
        ),
    ]


def list_calls(samples: Samples) -> List[Call]:
    """Returns the calls for signed lists."""
    public, path, list_path = samples.public, samples.path, samples.list_path
    signed = minisign.SignedList(samples.list_text, public, samples.list_signature, "SHA256SUMS")
    data, name, name_or_none = ("data", b"data"), ("text", "data"), ("text or none", "data")
    return [
        Call(
            "SignedList",
            minisign,
            text=("text", samples.list_text),
            key=("public key", public),
            signature=("signature", samples.list_signature),
            name=("text or none", "SHA256SUMS"),
            **LONG_DIGEST,
        ),
        Call(
            "SignedList.from_file",
            minisign.SignedList,
            path=("path", list_path),
            key=("public key", public),
            signature=("signature or none", None),
            **LONG_DIGEST,
        ),
        Call("SignedList.entries", signed),
        Call("SignedList.find", signed, name=name),
        Call("SignedList.verify_listed", signed, data=data, name=name),
        Call("SignedList.verify_listed_file", signed, path=("path", path), name=name_or_none, **PROGRESS),
        Call("SignedList.verify_listed_trusting_hashlib", signed, data=data, name=name),
        Call(
            "verify_listed",
            minisign,
            path=("path", path),
            list_path=("path", list_path),
            key=("public key", public),
            name=name_or_none,
            **LONG_DIGEST,
            **PROGRESS,
        ),
    ]


def secret_key_calls(samples: Samples) -> List[Call]:
    """Returns the calls of SecretKey."""
    secret = samples.secret
    return [
        Call("SecretKey", minisign, opened=("secret key", secret._opened)),
        Call("SecretKey.generate", SecretKey),
        Call("SecretKey.from_bytes", SecretKey, text=("text", secret.to_bytes(None).decode()), **OPENING),
        Call("SecretKey.from_file", SecretKey, path=("path", samples.key_path), **OPENING),
        Call(
            "SecretKey.to_bytes",
            secret,
            password=("new password", None),
            comment=("text", "comment \u00e9"),
            low_memory=("truth", False),
            **LIMITS,
        ),
        Call("SecretKey.public_bytes", secret, comment=("text or none", "comment \u00e9")),
        Call("SecretKey.sign", secret, path=("path", samples.path), **COMMENTS, **PROGRESS),
        Call("SecretKey.sign_data", secret, data=("data", b"data"), **COMMENTS),
        Call("SecretKey.clear", lambda: SecretKey.generate()),
    ]


def file_calls(samples: Samples) -> List[Call]:
    """Returns the calls that write key files and signature files."""
    key = ("secret key", samples.secret)
    return [
        Call("sign", minisign, path=("path", samples.new_data_file), key=key, **COMMENTS, **PROGRESS),
        Call("write_new", minisign, path=("path", samples.empty_target), text=("bytes", b"text")),
        Call(
            "change_password",
            minisign,
            path=("path", samples.key_path),
            old=("password", None),
            new=("new password", None),
            low_memory=("truth", False),
        ),
    ]


def installing_calls(samples: Samples) -> List[Call]:
    """Returns the calls of `check` and `install`, for an update with a signed list."""
    keys, signature = ("public keys", samples.public), ("signature", samples.list_signature)
    target: Dict[str, Any] = {
        "target": ("target", samples.empty_target),
        "first": ("truth", True),
        "again": ("truth", False),
        "must_expire": ("truth", False),
        "new_key": ("truth", False),
        "roll_back": ("truth", False),
        "numbering": ("numbering", "version"),
        "name": ("name or none", "data"),
        "list_path": ("path or none", samples.list_path),
        **LONG_DIGEST,
    }
    return [
        Call("check", minisign, key=keys, signature=signature, **target),
        Call(
            "install",
            minisign,
            key=keys,
            data=("path or file", samples.path),
            signature=signature,
            **target,
            mode=("mode or none", 0o640),
            most=("size or none", 4),
            wait=("seconds", 1),
            **PROGRESS,
        ),
    ]


def public_calls() -> Iterator[Tuple[str, Callable[..., object]]]:
    """Yields the names and functions of the package, and the constructors and methods of its classes, except for errors
    and results."""
    for name in minisign.__all__:
        item = getattr(minisign, name)
        if inspect.isfunction(item):
            yield name, item
        elif inspect.isclass(item) and not issubclass(
            item, (BaseException, enum.Enum, minisign.Checked, minisign.ListEntry)
        ):
            yield name, item
            for method, value in vars(item).items():
                if not method.startswith("_") and not isinstance(value, property):
                    yield f"{name}.{method}", getattr(item, method)


# ---- Steps ----


def arguments(scratch: str) -> None:
    """Checks that each public function accepts all valid forms of its arguments, and rejects all others."""
    scratch = os.path.join(scratch, "arguments")
    os.mkdir(scratch)
    tested, functions = {call.name: call for call in all_calls(Samples(scratch))}, dict(public_calls())
    check(
        set(tested) == set(functions), f"the calls of this module and the package differ in {set(functions) ^ set(tested)}"
    )
    for name, call in tested.items():
        parameters = [
            parameter for parameter in inspect.signature(functions[name]).parameters if parameter != "self" and parameter[0] != "_"
        ]
        check(parameters == list(call.arguments), f"the arguments of {name}: {parameters}")
        for argument in call.arguments:
            check_wrong_values(call, argument, scratch)
            check_valid_forms(call, argument)
    check_modes(tested["install"], scratch)


def check_wrong_values(tested: Call, argument: str, scratch: str) -> None:
    """Checks that a call rejects each wrong value of an argument, names the argument, and writes nothing."""
    kind_name = tested.arguments[argument][0]
    kind = KINDS[kind_name.replace(OR_NONE, "")]
    wrong_types = [(TypeError, value) for value in kind.wrong if value is not None or OR_NONE not in kind_name]
    for error, value in [*wrong_types, *((ValueError, value) for value in kind.bad)]:
        description, call, before = f"{tested.name}, {argument}={value!r}", tested.call(), files(scratch)
        rejects(error, lambda: call(**{argument: value}), description, rf"\b{argument}\b")
        check(files(scratch) == before, f"{description}: a file was written")


def check_valid_forms(tested: Call, argument: str) -> None:
    """Checks that a call accepts each other form of a valid value of an argument, and returns the same result."""
    kind, expected = KINDS[tested.arguments[argument][0].replace(OR_NONE, "")], comparable(tested.call()())
    for number, form in enumerate(kind.forms):
        call, description = tested.call(), f"{tested.name}, form {number} of {argument}"
        try:
            actual = comparable(call(**{argument: form(call.keywords[argument])}))
            check(actual == expected, f"{description}: {actual!r}, expected {expected!r}")
        except BaseException as raised:
            check(False, f"{description}: {raised!r}")


def check_modes(install: Call, scratch: str) -> None:
    """Checks that `install` creates the target with each mode that it may get."""
    target, call = os.path.join(scratch, "there", "app"), install.call()
    os.mkdir(os.path.dirname(target))
    for mode in (0, 0o777, 0o755):
        call(mode=mode, target=target, again=True)
        check(os.stat(target).st_mode & 0o7777 == mode, f"the mode {mode:o}")
        os.remove(target)


def documentation(scratch: str) -> None:
    """Checks that `help` shows exactly the public names, and that each function, class and error has a docstring."""
    help_text = pydoc.plain(pydoc.render_doc(minisign))
    for name in minisign.__all__:
        item = getattr(minisign, name)
        check(re.search(rf"\b{name}\b", help_text) is not None, f"help does not show {name}")
        check(
            not (inspect.isclass(item) or inspect.isfunction(item)) or bool(item.__doc__), f"{name} has no docstring"
        )
    for name, call in public_calls():
        check(bool(inspect.getdoc(call)), f"{name} has no docstring")
    names = {name for name, value in vars(minisign).items() if not name.startswith("_") and not inspect.ismodule(value)}
    check(
        names == set(minisign.__all__) and len(minisign.__all__) == len(names),
        f"__all__ and the public names differ: {names ^ set(minisign.__all__)}",
    )
