"""Checks that the comments and docstrings in the packages in bindings/ list the right errors. error_lists.py runs these checks.

The tables below have an entry for each comment that lists errors. It says which calls of the library for C the code makes. The
comment must name the errors of these calls, which error_lists.py takes from their contracts, and no others. A comment that names
an error, or refers to the errors of another function, but has no entry is a failure too.

A comment need not name API misuse, because the packages make the calls in the right order, nor OUT_OF_MEMORY, unless the call
derives a key, which takes up to 1 GiB.
"""

import ast
import glob
import os
import re
from collections import namedtuple

import header
from running import read
from sources import ROOT

# The errors that a comment must name. `calls` are the calls that the code makes, without minisign_. `also` are further errors or
# kinds of errors: those of the package itself, and the misuse that users can cause. An error in `also` that a call returns too
# must be named twice, because it has two reasons. `without` are errors of the calls that the comment must not name, because the
# code cannot get them. The comment must refer to the errors of each function in `refers`.
Entry = namedtuple("Entry", "calls also without refers", defaults=("", "", "", ""))

# Calls that derive a key from a password.
DERIVING = {"open_sealed_key", "secret_key_text"}
# The parameters are of a type that is always UTF-8.
UTF8 = "NOT_UTF8"
# The misuse that a comment of a key or signature can be.
COMMENTS = "BAD_COMMENT UNREADABLE_COMMENT"
REFERENCE = re.compile(r"\b(?:[Ee]rrors|[Tt]hose) (?:are those )?(?:of|that)\b(?! (?:the|a|this) )")
# Words after which a comment names errors that are not its list of errors: examples, which need not be complete, and further
# details about errors that it has already named.
NO_LIST = re.compile(r"(?:for example|such as) [^.;]*|The `line` of [^.]*|instead of OtherFile")
# Files that tools/bindings.py generates from the headers.
GENERATED = re.compile(r"[Mm]ade by\s+(?://\s*)?tools/bindings\.py")

# ---- Go ----

GO = {
    "NewPublicKey": Entry("read_bare_public_key"),
    "DecodePublicKey": Entry("read_public_key"),
    "NewPublicKeyFromFile": Entry(refers="DecodePublicKey"),
    "DecodeSignature": Entry("read_signature"),
    "NewSignatureFromFile": Entry(refers="DecodeSignature"),
    "NewVerifier": Entry("ask", also="UNSUPPORTED_ALGORITHM BAD_COMMENT", refers="DecodeSignature"),
    "PublicKey.Verify": Entry("verdict", also="LEGACY_NOT_ACCEPTED", refers="NewVerifier"),
    "PublicKey.VerifyReader": Entry(also="LEGACY_NOT_ACCEPTED"),
    "Verifier.Write": Entry("update", also="NOT_BEGUN"),
    "Verifier.VerifyTrustedComment": Entry("comment_verdict", also="NOT_BEGUN"),
    "Verifier.Verify": Entry("verdict", also="NOT_BEGUN"),
    "DecodeSecretKey": Entry("read_secret_key open_sealed_key open_unsealed_key", also="NOT_UTF8"),
    "NewSecretKeyFromFile": Entry(refers="DecodeSecretKey"),
    "SecretKey.Encode": Entry("secret_key_text", also="WEAK_LIMITS KEY_NOT_OPENED"),
    "SecretKey.SignBytes": Entry(refers="Signer.Sign"),
    "Signer.Write": Entry("update", also="ALREADY_ASKED"),
    "Signer.Sign": Entry("signed_text", also=f"ALREADY_ASKED KEY_NOT_OPENED SIGNATURE_REFUSED {COMMENTS}"),
    "PublicKey.VerifyList": Entry("list_verdict", also="LEGACY_NOT_ACCEPTED BAD_HASH", refers="NewVerifier"),
    "SignedList.Entries": Entry("list_entries"),
    "SignedList.Find": Entry("list_find"),
    "SignedList.VerifyListed": Entry("list_begin list_update list_finish", refers="Find"),
}
# Comments that name an error but list no errors.
GO_MENTIONS = {
    "PublicKey.SignatureAlgorithm", "Signature.GlobalSignature", "ErrWeakLimits", "Work.MostRows", "LineError", "accepts",
    "openedKey.raw", "openedKey.text",
}


def go_comments(text):
    """Yields the name and the comment of each declaration that has one."""
    for match in re.finditer(r"((?:^[ \t]*//.*\n)+)([ \t]*)(.*)", text, re.M):
        declaration = match[3]
        method = re.match(r"func \(\w+ \*?(\w+)\) (\w+)", declaration)
        name = f"{method[1]}.{method[2]}" if method else re.sub(r"^(?:func|type|var|const) ", "", declaration)
        if match[2]:
            container = re.findall(r"(?m)^type (\w+) struct", text[: match.start()])
            name = f"{(container or [''])[-1]}.{name}"
        yield re.match(r"[\w.]*", name)[0], re.sub(r"(?m)^\s*//", "", match[1])


# ---- Python ----

PYTHON = {
    "Signature": Entry("read_signature", also="NOT_UTF8 SIGNATURE_NOT_BASE64"),
    "PublicKey.__init__": Entry("read_public_key"),
    "PublicKey.from_file": Entry(refers="PublicKey"),
    "PublicKey.from_base64": Entry("read_bare_public_key"),
    "PublicKey.verify": Entry(refers="Verifier Verifier.finish"),
    "Verifier": Entry("ask", refers="Signature"),
    "Verifier.update": Entry("update", also="NOT_BEGUN"),
    "Verifier.trusted_comment": Entry("comment_verdict", also="NOT_BEGUN"),
    "Verifier.finish": Entry("verdict", also="NOT_BEGUN"),
    "verify": Entry(refers="Verifier Verifier.finish"),
    "SecretKey.from_bytes": Entry("read_secret_key open_sealed_key open_unsealed_key", also="NOT_UTF8"),
    "SecretKey.from_file": Entry(refers="from_bytes"),
    "SecretKey.to_bytes": Entry("secret_key_text", also=f"KEY_NOT_OPENED {COMMENTS}"),
    "SecretKey.public_bytes": Entry("public_key_text", also=f"KEY_NOT_OPENED {COMMENTS}"),
    "SecretKey.sign": Entry("signed_text", also=f"KEY_NOT_OPENED SIGNATURE_REFUSED {COMMENTS}"),
    "SecretKey.sign_data": Entry(refers="sign"),
    "sign": Entry(refers="SecretKey.sign"),
    "change_password": Entry(refers="SecretKey.from_file"),
    "SignedList.__init__": Entry("list_ask list_ask_any list_verdict", refers="Signature"),
    "SignedList.from_file": Entry(refers="SignedList"),
    "SignedList.entries": Entry("list_entries", also="LISTED_TWICE"),
    "SignedList.find": Entry("list_find"),
    "SignedList.verify_listed": Entry("list_begin list_update list_finish", refers="find"),
    "SignedList.verify_listed_file": Entry(refers="verify_listed"),
    "SignedList.verify_listed_trusting_hashlib": Entry(refers="verify_listed"),
    "verify_listed": Entry(refers="SignedList.from_file SignedList.verify_listed_file"),
    # An internal function, which encodes texts.
    "text_octets": Entry(also="NOT_UTF8"),
    # The C code of the installer returns OTHER_LIST instead of OTHER_FILE. NOT_UTF8 is also an error of the list.
    "install": Entry(
        "install_signature install_answer install_failed install_done install_record", without="read_signature",
        also="OTHER_LIST OUT_OF_MEMORY NOT_UTF8", refers="Signature",
    ),
    # An older update is a result of `check`. It takes no lock and writes no files. Its docstring refers to that of `install`
    # for the errors of a list, and names DIGEST_MISMATCH to say that this error is not raised.
    "check": Entry(
        "install_signature install_answer install_failed install_record", also="OUT_OF_MEMORY", refers="Signature install",
        without="read_signature OLDER_UPDATE TARGET_IN_USE RANDOM_SOURCE_FAILED DIRECTORY_NOT_SYNCED BAD_NAME MALFORMED_LINE"
        " NOT_LISTED LISTED_TWICE",
    ),
}
PYTHON_MENTIONS = {"MinisignError"}


def python_comments(text):
    """Yields the name and the docstring of each class and function."""

    def docstrings(nodes, prefix):
        for node in nodes:
            if isinstance(node, (ast.ClassDef, ast.FunctionDef)):
                yield prefix + node.name, ast.get_docstring(node) or ""
                yield from docstrings(node.body, f"{prefix}{node.name}.")

    yield from docstrings(ast.parse(text).body, "")


# ---- JavaScript ----

JAVASCRIPT = {
    "Verifier.trustedComment": Entry("comment_verdict", also="NOT_BEGUN"),
    "Verifier.update": Entry("update", also="NOT_BEGUN"),
    "Verifier.end": Entry("verdict", also="NOT_BEGUN"),
    "createVerifier": Entry(refers="verify"),
    "SignedList.entries": Entry("list_entries", also="LISTED_TWICE"),
    "SignedList.find": Entry("list_find"),
    "SignedList.verifyListed": Entry("list_begin list_update list_finish", refers="find"),
    "verifyList": Entry("list_verdict", also="LEGACY_NOT_ACCEPTED"),
    "Signer.update": Entry(refers="Verifier.update"),
    "Signer.end": Entry("signed_text", also=f"NOT_BEGUN KEY_NOT_OPENED SIGNATURE_REFUSED {COMMENTS}"),
    "readSecretKey": Entry("read_secret_key open_sealed_key open_unsealed_key", also="NOT_UTF8"),
}
# `verify` names only the classes of its errors.
JAVASCRIPT_MENTIONS = {"verify", "MinisignError.line"}


def javascript_comments(text):
    """Yields the name and the comment of each declaration that has one."""
    for match in re.finditer(r"/\*\*(.*?)\*/\s*?\n( *)([^\n]*)", text, re.S):
        declaration = re.sub(r"^(?:export |declare |function |interface |class |type |const |readonly )*", "", match[3])
        container = re.findall(r"(?m)^export (?:interface|class) (\w+)", text[: match.start()]) if match[2] else []
        yield ".".join([*container[-1:], re.match(r"\w*", declaration)[0]]), re.sub(r"(?m)^\s*\*", "", match[1])


# ---- Rust ----

RUST = {
    "PublicKey.decode": Entry("read_public_key", without=UTF8),
    "PublicKey.from_base64": Entry("read_bare_public_key", without=UTF8),
    "PublicKey.from_file": Entry(also="IoError", refers="decode"),
    "PublicKey.verify": Entry("ask verdict"),
    "PublicKey.verify_with": Entry(refers="verify"),
    "PublicKey.verify_bare_with": Entry(refers="verify"),
    "PublicKey.verify_bare_stream_with": Entry(refers="verify_stream"),
    "PublicKey.verify_stream": Entry("ask", also="UnsupportedLegacyMode", without="LEGACY_NOT_ACCEPTED"),
    "PublicKey.verify_stream_with": Entry(refers="verify_stream"),
    "Signature.decode": Entry("read_signature", without=UTF8),
    "Signature.from_file": Entry(also="IoError", refers="decode"),
    "StreamVerifier.trusted_comment": Entry("comment_verdict", also="NOT_BEGUN"),
    "StreamVerifier.finalize": Entry("verdict bare_verdict"),
    "SecretKey.generate": Entry(also="RANDOM_SOURCE_FAILED Scheme"),
    "SecretKey.decode": Entry(refers="UnopenedKey::decode UnopenedKey::open"),
    "SecretKey.from_file": Entry(also="IoError", refers="decode"),
    "SecretKey.encode": Entry("secret_key_text", also="RANDOM_SOURCE_FAILED EMPTY_PASSWORD WeakLimits", without=UTF8),
    "SecretKey.encode_with_comment": Entry(also=COMMENTS, refers="encode"),
    "SecretKey.sign": Entry(refers="Signer::finalize"),
    "SecretKey.sign_file": Entry(also="IoError", refers="Signer::finalize"),
    "Signer.finalize": Entry("signed_text", also=f"Scheme SIGNATURE_REFUSED {COMMENTS}", without=UTF8),
    "PublicKey.from_record": Entry("read_public_key_record"),
    "PublicKey.encode": Entry("encode_public_key", also=COMMENTS, without=UTF8),
    "BareSignature.from_record": Entry("read_signature_record"),
    "UnopenedKey.decode": Entry("read_secret_key", without=UTF8),
    "UnopenedKey.from_file": Entry(also="IoError", refers="decode"),
    "UnopenedKey.from_record": Entry("read_secret_key_record"),
    "UnopenedKey.encode": Entry("encode_unopened_key", also=COMMENTS, without=UTF8),
    "UnopenedKey.check": Entry("test_sealed_key"),
    "UnopenedKey.open": Entry("open_unsealed_key open_sealed_key", without=f"{UTF8} test_sealed_key", refers="check"),
    "PublicKey.verify_list": Entry("list_ask list_ask_any list_verdict"),
    "PublicKey.verify_list_with": Entry(refers="verify_list"),
    "PublicKey.verify_list_file": Entry(also="IoError", refers="Signature::decode verify_list"),
    "SignedList.entries": Entry("list_entries"),
    "SignedList.find": Entry("list_find"),
    "SignedList.verify_listed": Entry("list_begin list_update list_finish", refers="find"),
    "SignedList.verify_listed_reader": Entry(also="IoError", refers="verify_listed"),
    "SignedList.verify_listed_trusting_your_hash": Entry("list_compare_trusting_your_hash", also="BAD_HASH", refers="find"),
    # The variant of the errors of the two Ed25519 checks.
    "Error.InvalidSignature": Entry("verdict", also="WEAK_ED25519"),
    "Random.fill": Entry(also="RANDOM_SOURCE_FAILED"),
}
# The last two say how the crate returns the errors of the trait.
RUST_MENTIONS = {"Error.reason", "Error.WeakLimits", "ListError.line", "Verify", "Sign.sign", "Sign.expand"}

# ---- The crate minisign of bindings/rust-minisign, whose errors have kinds ----

DROP_IN = {
    "KeyPair.generate_unencrypted_keypair": Entry(also="RNG"),
    "KeyPair.generate_encrypted_keypair": Entry(
        "secret_key_text", also="RNG Io Generate", without=f"{UTF8} PARAMETERS_TOO_HIGH INVALID_PARAMETERS"
    ),
    "KeyPair.generate_and_write_encrypted_keypair": Entry(also="Sign Io", refers="generate_encrypted_keypair"),
    "KeyPair.generate_and_write_unencrypted_keypair": Entry(also="RNG Io"),
    "sign": Entry("open_unsealed_key", also="EncryptedKey Io SIGNATURE_REFUSED BAD_COMMENT", without="KEY_SEALED"),
    "verify": Entry("ask verdict ask_bare bare_verdict", also="Io"),
    "PublicKeyBox.into_public_key": Entry(refers="PublicKey::from_box"),
    "PublicKey.from_bytes": Entry("read_public_key_record"),
    "PublicKey.from_box": Entry("read_public_key", without=UTF8),
    "PublicKey.from_base64": Entry("read_bare_public_key", without=UTF8),
    "PublicKey.from_file": Entry(also="Io", refers="from_box"),
    "SecretKeyBox.into_secret_key": Entry(refers="SecretKey::from_box"),
    "SecretKeyBox.into_unencrypted_secret_key": Entry(refers="SecretKey::from_unencrypted_box"),
    "SecretKey.from_bytes": Entry("read_secret_key_record"),
    "SecretKey.from_box": Entry("read_secret_key open_sealed_key", also="Io Misc", without=UTF8),
    "SecretKey.from_unencrypted_box": Entry("read_secret_key open_unsealed_key", without=UTF8),
    "SecretKey.to_box": Entry(also="BAD_COMMENT"),
    "SecretKey.from_file": Entry(also="Io", refers="from_box"),
    "SignatureBox.trusted_comment": Entry(also="Misc"),
    "SignatureBox.from_string": Entry("read_signature", without=UTF8),
    "SignatureBox.from_file": Entry(also="Io", refers="from_string"),
    "SignatureBones.from_bytes": Entry("read_signature_record"),
}


def rust_comments(text):
    """Yields the name and the comment of each item that has one, without the examples."""
    for match in re.finditer(r"((?:^ *///.*\n)+)(?:^ *#\[.*\n)*( *)(.*)", text, re.M):
        name = re.sub(r"^(?:pub(?:\(crate\))? |const |fn |struct |enum |trait |type )*", "", match[3])
        containers = re.findall(r"(?m)^(?:pub )?(?:impl(?:<.*?>)? (?:.* for )?|trait |enum |struct )(\w+)", text[: match.start()])
        yield ".".join([*(containers[-1:] if match[2] else ()), re.match(r"\w*", name)[0]]), re.sub(
            r"(?s)```.*?```", "", re.sub(r"(?m)^ *///", "", match[1])
        )


def rust_variants(errors):
    """Returns the variant of `Error` for each error, as `impl From<Reason> for Error` says."""
    source = read(ROOT, "bindings/rust/src/lib.rs").decode()
    arms = re.search(r"(?s)impl From<Reason> for Error \{.*?match reason \{(.*?)\n        \}", source)[1]
    variants = {}
    for pattern, variant in re.findall(r"(?s)([\w|:.=()\s]+?) => Error::(\w+)", re.sub(r"//.*", "", arms)):
        ranges = [(int(first), int(last)) for first, last in re.findall(r"(\d+)\.\.=(\d+)", pattern)]
        names = {*re.findall(r"Reason::(\w+)", pattern)}
        names |= {name for name, number in errors.items() if any(first <= number <= last for first, last in ranges)}
        names = names or errors.keys() - variants.keys()
        variants.update(dict.fromkeys(names, variant))
    return variants


def drop_in_kinds(errors):
    """Returns the ErrorKind of each error, as tests/c/error_texts.c and errors.rs of the crate say."""
    kinds = dict.fromkeys(errors, "Misc")
    kinds.update((number.name, "Sign") for number in header.misuses())
    names = {number: name for name, number in errors.items()}
    for error, kind in re.findall(r"\[(\w+)\] = MINISIGN_KIND_(\w+)", read(ROOT, "tests/c/error_texts.c").decode()):
        # The headers lack some of the errors with a kind, which no call for C returns.
        name = names.get(int(error)) if error.isdigit() else error.removeprefix("MINISIGN_")
        short = kind if kind in ("KDF", "RNG") else "".join(map(str.capitalize, kind.split("_")))
        kinds[name] = {"OutOfMemory": "Misc"}.get(short, short)
    return kinds


# ---- The checks ----


class Packages:
    """Checks the comments of the packages. `errors` are the numbers of the errors by name, and `returned_errors` returns the
    errors of a call."""

    def __init__(self, checks, errors, returned_errors):
        self.checks, self.errors, self.returned_errors = checks, errors, returned_errors
        self.misuses = {number.name for number in header.misuses()}

    def of_calls(self, entry):
        """Returns the errors of the calls that a comment must name."""
        errors = set()
        for call in entry.calls.split():
            left_out = self.misuses if call in DERIVING else self.misuses | {"OUT_OF_MEMORY"}
            errors |= self.returned_errors(f"minisign_{call}") - left_out
        for word in entry.without.split():
            errors -= {word} if word.isupper() else self.returned_errors(f"minisign_{word}")
        return errors

    def expected(self, entry):
        """Returns the errors and kinds of errors that a comment must name."""
        return self.of_calls(entry) | {*entry.also.split()}

    def named_in_order(self, text, pattern):
        """Returns the errors that a text names, with repetitions."""
        by_letters = {name.replace("_", "").lower(): name for name in (*self.errors, "WEAK_LIMITS")}
        words = [word.replace("_", "").lower() for word in re.findall(pattern, NO_LIST.sub("", text))]
        return [by_letters[word] for word in words if word in by_letters]

    def named(self, text, pattern):
        """Returns the set of the errors that a text names."""
        return {*self.named_in_order(text, pattern)}

    def check(self, paths, comments_of, table, mentions, names_in, difference_of):
        """Checks the comments in some files. `names_in` returns what a comment names, and `difference_of` an error if this is
        not what is expected."""
        entries = {*table}
        for path in sorted(path for pattern in paths for path in glob.glob(f"{ROOT}/bindings/{pattern}")):
            text, file = read(path).decode(), os.path.relpath(path, ROOT)
            if GENERATED.search(text):
                continue
            for name, comment in comments_of(text):
                comment = " ".join(comment.split())
                named, where = names_in(comment), f"{file}: {name}"
                if not named and not REFERENCE.search(comment) or name in mentions:
                    continue
                if self.checks.check(name in table, where, "lists errors, but has no entry in tests/c/package_errors.py"):
                    entries.discard(name)
                    difference = difference_of(comment, named, table[name])
                    self.checks.check(not difference, where, difference)
                    for other in table[name].refers.split():
                        reference = re.search(rf"\b(?:[Ee]rrors|[Tt]hose)\b[^;]{{0,60}}?\b{re.escape(other)}\b", comment)
                        self.checks.check(reference, where, f"does not refer to the errors of {other}")
        self.checks.check(not entries, f"{paths[0]}: comments that list no errors: {', '.join(sorted(entries))}")

    def check_names(self, paths, comments_of, table, mentions, pattern):
        """Checks the comments of a language in which a comment names each error."""
        def difference_of(comment, named, entry):
            twice = self.of_calls(entry) & {*entry.also.split()}
            once = [name for name in twice & named if self.named_in_order(comment, pattern).count(name) < 2]
            return difference_between(named, self.expected(entry)) or ", ".join(f"names {name} only once" for name in once)

        self.check(paths, comments_of, table, mentions, lambda comment: self.named(comment, pattern), difference_of)

    def check_rust(self):
        """Checks the crate minisign-proved. A comment there may name a variant of `Error` instead of its errors. If the words
        "with .." follow the variant, they must name all of its errors."""
        variant_of = rust_variants(self.errors)
        variants = {*variant_of.values(), "IoError", "Scheme", "WeakLimits", "UnsupportedLegacyMode"}
        one_of = "|".join(sorted(variants))

        def names_in(comment):
            return self.named(comment, r"\b[A-Z][A-Z0-9_]+\b") | {*re.findall(rf"`({one_of})`", comment)}

        def difference_of(comment, named, entry):
            expected = self.expected(entry)
            lists = re.findall(rf"`({one_of})` with (.*?)(?=`(?:{one_of})`|;|$)", comment)
            misplaced = {name for variant, names in lists for name in self.named(names, r"[A-Z0-9_]+")
                         if variant_of[name] != variant}
            covered = named - {variant for variant, _ in lists}
            missing = {name for name in expected if name not in named and variant_of.get(name) not in covered}
            # The functions for lists return a ListError, so their comments need not name the variants.
            if "Reason::" not in comment:
                missing |= {variant_of[name] for name in expected & variant_of.keys()} - named
            allowed = expected | {variant_of.get(name) for name in expected}
            return difference_between(named - misplaced, named & allowed | missing)

        self.check(["rust/src/*.rs"], rust_comments, RUST, RUST_MENTIONS, names_in, difference_of)

    def check_drop_in(self):
        """Checks the crate minisign, whose comments name kinds of errors."""
        kind_of = drop_in_kinds(self.errors)
        source = read(ROOT, "bindings/rust-minisign/src/errors.rs").decode()
        kinds = "|".join(re.findall(r"(?m)^    (\w+),$", re.search(r"(?s)pub enum ErrorKind \{(.*?)\n\}", source)[1]))

        def names_in(comment):
            return {*re.findall(rf"`({kinds})`", comment.partition("# Errors")[2])}

        def difference_of(_, named, entry):
            return difference_between(named, {kind_of.get(name, name) for name in self.expected(entry)})

        self.check(["rust-minisign/src/*.rs"], rust_comments, DROP_IN, (), names_in, difference_of)

    def check_all(self):
        self.check_names(["go/*.go"], go_comments, GO, GO_MENTIONS, r"\bErr([A-Z]\w+)")
        python_paths = ["python/src/minisign_proved/*.py"]
        self.check_names(python_paths, python_comments, PYTHON, PYTHON_MENTIONS, r"\b[A-Z][a-z]\w+")
        javascript_paths = ["javascript/*.d.ts"]
        self.check_names(javascript_paths, javascript_comments, JAVASCRIPT, JAVASCRIPT_MENTIONS, r"\b[A-Z][A-Z0-9_]+")
        self.check_rust()
        self.check_drop_in()


def difference_between(named, expected):
    """Returns an error if a comment does not name exactly what is expected, and otherwise an empty string."""
    superfluous, missing = sorted(named - expected), sorted(expected - named)
    return "; ".join([*([f"wrongly names {', '.join(superfluous)}"] if superfluous else ()),
                      *([f"does not name {', '.join(missing)}"] if missing else ())])
