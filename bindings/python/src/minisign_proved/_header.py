# SPDX-License-Identifier: MIT
"""Declares the constants, structs and calls of the library for ctypes.

Made by tools/bindings.py from include/minisign.h, include/minisign_install.h and
include/minisign_list.h.
"""

from ctypes import CDLL, POINTER, Array, Structure, create_string_buffer
from ctypes import c_char_p, c_int64, c_size_t, c_ubyte, c_uint32, c_uint64, c_void_p
from typing import Callable, Optional, Tuple, Union

VERSION_MAJOR = 0
VERSION_MINOR = 3
VERSION_PATCH = 0
ERROR_TEXT_BYTES = 128
PUBLIC_KEY_RECORD_BYTES = 42
SIGNATURE_RECORD_BYTES = 74
SECRET_KEY_RECORD_BYTES = 158
KEEP_EVERY_ROW = 1
KEEP_FEW_ROWS = 16
USUAL_ROWS = 1048576
ANY_ROWS = 0xFFFFFFFFFFFFFFFF
OPERATIONS_LIMIT = 33554432
MEMORY_LIMIT = 1073741824
LEAST_OPERATIONS_LIMIT = 524288
LEAST_MEMORY_LIMIT = 16777216
LEAST_LOG2_ROWS = 14
NO_PASSWORD = 0
PASSWORD = 1
ANY_PASSWORD = 2
RECORD_TEXT_BYTES = 258
VERSION_TEXT = "0.3.0"
SIGNATURE_COMMENT = "signature from minisign secret key"
TRUSTED_COMMENT_FORMAT = "timestamp:%llu\tfile:%s\thashed"
SECRET_KEY_COMMENT = "minisign encrypted secret key"
PUBLIC_KEY_COMMENT = "minisign public key "
# Sizes without the lengths of the comments, which the caller adds.
TEXT_BYTES = 240
SECRET_KEY_BYTES = 233
PUBLIC_KEY_BYTES = 77
LIST_ENTRIES = 0
LIST_ENTRY_BYTES = 143

KIND_NONE = 0
KIND_MISUSE = 1
KIND_GENERATE = 2
KIND_SIGN = 3
KIND_VERIFY = 4
KIND_IO = 5
KIND_MISC = 6
KIND_HASH = 7
KIND_KDF = 8
KIND_RNG = 9
KIND_ENCODING = 10
KIND_ENCRYPTED_KEY = 11
KIND_OUT_OF_MEMORY = 12

ANSWER_YES = 7955827
ANSWER_NO = 28271

DUE_NOTHING = 0
DUE_LOCK = 1
DUE_READ_RECORD = 2
DUE_READ_SIGNATURE = 3
DUE_CHECK_COMMENT = 4
DUE_READ_LIST = 5
DUE_CHECK_LIST = 6
DUE_CHECK_RECORD = 7
DUE_READ_TARGET = 8
DUE_CHECK_TARGET = 9
DUE_SYNC_TARGET = 10
DUE_SYNC_TARGET_NAME = 11
DUE_REMOVE_LEFTOVERS = 12
DUE_CREATE_FILE = 13
DUE_COPY_DATA = 14
DUE_READ_BACK = 15
DUE_CHECK_DATA = 16
DUE_SET_PERMISSIONS = 17
DUE_SYNC_FILE = 18
DUE_CREATE_RECORD = 19
DUE_WRITE_RECORD = 20
DUE_SYNC_RECORD = 21
DUE_RENAME_RECORD = 22
DUE_SYNC_RECORD_NAME = 23
DUE_RENAME_FILE = 24
DUE_SYNC_FILE_NAME = 25
DUE_REMOVE_FILES = 26
DUE_INSTALLED = 27
DUE_ALREADY_INSTALLED = 28
DUE_WOULD_INSTALL = 29
DUE_REJECTED = 30

NUMBERING_TIMESTAMP = 0
NUMBERING_VERSION = 1

HASH_NONE = 0
HASH_SHA256 = 1
HASH_SHA512 = 2
HASH_BLAKE2B = 3


class State(Structure):
    _fields_ = [
        ("opaque", c_uint64 * 64),
    ]


class PublicKey(Structure):
    _fields_ = [
        ("mark", c_uint64),
        ("key", c_ubyte * 32),
        ("key_id", c_ubyte * 8),
    ]


class Signature(Structure):
    _fields_ = [
        ("mark", c_uint64),
        ("key_id", c_ubyte * 8),
        ("signature", c_ubyte * 64),
        ("comment_signature", c_ubyte * 64),
        ("comment_offset", c_uint64),
        ("comment_len", c_uint64),
        ("text_digest", c_ubyte * 32),
        ("algorithm", c_ubyte * 2),
        ("legacy", c_ubyte),
        ("whole", c_ubyte),
        ("reserved", c_uint32),
    ]


class Questions(Structure):
    _fields_ = [
        ("public_key", c_ubyte * 32),
        ("digest", c_ubyte * 64),
        ("signature", c_ubyte * 64),
        ("comment_signature", c_ubyte * 64),
        ("message_len", c_uint64),
        ("comment_offset", c_uint64),
        ("comment_len", c_uint64),
        ("legacy", c_uint32),
        ("reserved", c_uint32),
    ]


class UnopenedKey(Structure):
    _fields_ = [
        ("mark", c_uint64),
        ("bytes", c_ubyte * 158),
        ("is_sealed", c_ubyte),
        ("log2_rows", c_ubyte),
        ("work", c_uint32),
        ("reserved", c_uint32),
    ]


class SecretKey(Structure):
    _fields_ = [
        ("mark", c_uint64),
        ("key_id", c_ubyte * 8),
        ("secret", c_ubyte * 64),
    ]


class NewKey(Structure):
    _fields_ = [
        ("key_id", c_ubyte * 8),
        ("secret", c_ubyte * 64),
    ]


class SignedParts(Structure):
    _fields_ = [
        ("signature", c_ubyte * 64),
        ("comment_signature", c_ubyte * 64),
        ("trusted_comment", c_char_p),
        ("trusted_comment_len", c_size_t),
        ("untrusted_comment", c_char_p),
        ("untrusted_comment_len", c_size_t),
    ]


class Sealing(Structure):
    _fields_ = [
        ("salt", c_ubyte * 32),
        ("operations_limit", c_uint64),
        ("memory_limit", c_uint64),
    ]


class InstallOptions(Structure):
    _fields_ = [
        ("numbering", c_uint32),
        ("is_first", c_uint32),
        ("again", c_uint32),
        ("is_check", c_uint32),
        ("must_expire", c_uint32),
        ("new_key", c_uint32),
        ("roll_back", c_uint32),
        ("is_list", c_uint32),
        ("long_digest", c_uint32),
    ]


class Installation(Structure):
    _fields_ = [
        ("opaque", c_uint64 * 128),
    ]


class List(Structure):
    _fields_ = [
        ("mark", c_uint64),
        ("text_digest", c_ubyte * 64),
        ("key_id", c_ubyte * 8),
        ("whole", c_uint32),
        ("is_named", c_uint32),
    ]


class ListEntry(Structure):
    _fields_ = [
        ("mark", c_uint64),
        ("line", c_uint64),
        ("name_offset", c_uint64),
        ("name_len", c_uint64),
        ("digest", c_ubyte * 64),
        ("hash", c_uint32),
        ("is_escaped", c_uint32),
    ]


class ListFile(Structure):
    _fields_ = [
        ("opaque", c_uint64 * 96),
    ]


# Bytes that a call only reads.
Octets = Union[bytes, "Array[c_ubyte]"]


class Calls:
    """Calls the functions of a library. Error codes are passed to the function `error`,
    which raises an exception for them."""

    def __init__(self, library: CDLL, error: Callable[[int], object]) -> None:
        self._library = library
        library.minisign_version.restype = c_uint32
        library.minisign_version.argtypes = ()
        library.minisign_error_text.restype = c_size_t
        library.minisign_error_text.argtypes = (c_uint32, c_void_p, c_size_t)
        library.minisign_error_kind.restype = c_uint32
        library.minisign_error_kind.argtypes = (c_uint32,)
        library.minisign_init.restype = None
        library.minisign_init.argtypes = (POINTER(State),)
        library.minisign_update.restype = error
        library.minisign_update.argtypes = (POINTER(State), c_void_p, c_size_t)
        library.minisign_digest.restype = error
        library.minisign_digest.argtypes = (POINTER(State), c_void_p)
        library.minisign_clear.restype = None
        library.minisign_clear.argtypes = (c_void_p, c_size_t)
        library.minisign_read_public_key.restype = error
        library.minisign_read_public_key.argtypes = (
            c_void_p,
            c_size_t,
            POINTER(PublicKey),
        )
        library.minisign_read_bare_public_key.restype = error
        library.minisign_read_bare_public_key.argtypes = (
            c_void_p,
            c_size_t,
            POINTER(PublicKey),
        )
        library.minisign_read_public_key_record.restype = error
        library.minisign_read_public_key_record.argtypes = (
            c_void_p,
            c_size_t,
            POINTER(PublicKey),
        )
        library.minisign_public_key_record.restype = error
        library.minisign_public_key_record.argtypes = (POINTER(PublicKey), c_void_p)
        library.minisign_read_signature.restype = error
        library.minisign_read_signature.argtypes = (
            c_void_p,
            c_size_t,
            POINTER(Signature),
        )
        library.minisign_read_signature_record.restype = error
        library.minisign_read_signature_record.argtypes = (
            c_void_p,
            c_size_t,
            POINTER(Signature),
        )
        library.minisign_signature_record.restype = error
        library.minisign_signature_record.argtypes = (POINTER(Signature), c_void_p)
        library.minisign_ask.restype = error
        library.minisign_ask.argtypes = (
            POINTER(State),
            POINTER(PublicKey),
            POINTER(Signature),
            c_void_p,
            c_size_t,
            c_uint32,
            POINTER(Questions),
            c_void_p,
            c_size_t,
        )
        library.minisign_comment_verdict.restype = error
        library.minisign_comment_verdict.argtypes = (POINTER(State), c_uint32)
        library.minisign_verdict.restype = error
        library.minisign_verdict.argtypes = (POINTER(State), c_uint32, c_uint32)
        library.minisign_ask_bare.restype = error
        library.minisign_ask_bare.argtypes = (
            POINTER(State),
            POINTER(PublicKey),
            POINTER(Signature),
            c_uint32,
            POINTER(Questions),
        )
        library.minisign_bare_verdict.restype = error
        library.minisign_bare_verdict.argtypes = (POINTER(State), c_uint32)
        library.minisign_read_secret_key.restype = error
        library.minisign_read_secret_key.argtypes = (
            c_void_p,
            c_size_t,
            POINTER(UnopenedKey),
        )
        library.minisign_read_secret_key_record.restype = error
        library.minisign_read_secret_key_record.argtypes = (
            c_void_p,
            c_size_t,
            POINTER(UnopenedKey),
        )
        library.minisign_encode_unopened_key.restype = error
        library.minisign_encode_unopened_key.argtypes = (
            POINTER(UnopenedKey),
            c_void_p,
            c_size_t,
            c_void_p,
            c_size_t,
            POINTER(c_size_t),
        )
        library.minisign_test_sealed_key.restype = error
        library.minisign_test_sealed_key.argtypes = (POINTER(UnopenedKey), c_uint64)
        library.minisign_open_unsealed_key.restype = error
        library.minisign_open_unsealed_key.argtypes = (
            POINTER(UnopenedKey),
            POINTER(SecretKey),
        )
        library.minisign_open_sealed_key.restype = error
        library.minisign_open_sealed_key.argtypes = (
            POINTER(UnopenedKey),
            c_void_p,
            c_size_t,
            c_uint64,
            c_uint64,
            POINTER(SecretKey),
        )
        library.minisign_opening_memory.restype = None
        library.minisign_opening_memory.argtypes = (
            POINTER(UnopenedKey),
            c_uint64,
            c_uint64,
            POINTER(c_uint64),
            POINTER(c_uint64),
        )
        library.minisign_open_sealed_key_in_place.restype = error
        library.minisign_open_sealed_key_in_place.argtypes = (
            POINTER(UnopenedKey),
            c_void_p,
            c_size_t,
            c_uint64,
            c_uint64,
            POINTER(c_uint32),
            c_size_t,
            c_void_p,
            c_size_t,
            POINTER(SecretKey),
        )
        library.minisign_take_secret_key.restype = None
        library.minisign_take_secret_key.argtypes = (
            POINTER(NewKey),
            POINTER(SecretKey),
        )
        library.minisign_public_key_of.restype = error
        library.minisign_public_key_of.argtypes = (
            POINTER(SecretKey),
            POINTER(PublicKey),
        )
        library.minisign_secret_key_record.restype = error
        library.minisign_secret_key_record.argtypes = (POINTER(SecretKey), c_void_p)
        library.minisign_comment_message.restype = error
        library.minisign_comment_message.argtypes = (
            c_void_p,
            c_void_p,
            c_size_t,
            c_void_p,
            c_size_t,
        )
        library.minisign_signed_text.restype = error
        library.minisign_signed_text.argtypes = (
            POINTER(PublicKey),
            POINTER(SignedParts),
            c_void_p,
            c_size_t,
            POINTER(c_size_t),
        )
        library.minisign_secret_key_text.restype = error
        library.minisign_secret_key_text.argtypes = (
            POINTER(SecretKey),
            c_uint32,
            c_void_p,
            c_size_t,
            POINTER(Sealing),
            c_uint64,
            c_void_p,
            c_size_t,
            c_void_p,
            c_size_t,
            POINTER(c_size_t),
        )
        library.minisign_secret_key_text_with_any_limits.restype = error
        library.minisign_secret_key_text_with_any_limits.argtypes = (
            POINTER(SecretKey),
            c_uint32,
            c_void_p,
            c_size_t,
            POINTER(Sealing),
            c_uint64,
            c_void_p,
            c_size_t,
            c_void_p,
            c_size_t,
            POINTER(c_size_t),
        )
        library.minisign_public_key_text.restype = error
        library.minisign_public_key_text.argtypes = (
            POINTER(SecretKey),
            c_void_p,
            c_size_t,
            c_void_p,
            c_size_t,
            POINTER(c_size_t),
        )
        library.minisign_encode_public_key.restype = error
        library.minisign_encode_public_key.argtypes = (
            POINTER(PublicKey),
            c_void_p,
            c_size_t,
            c_void_p,
            c_size_t,
            POINTER(c_size_t),
        )
        library.minisign_install_init.restype = error
        library.minisign_install_init.argtypes = (
            POINTER(Installation),
            POINTER(PublicKey),
            POINTER(PublicKey),
            POINTER(InstallOptions),
        )
        library.minisign_install_due.restype = c_uint32
        library.minisign_install_due.argtypes = (POINTER(Installation),)
        library.minisign_install_done.restype = error
        library.minisign_install_done.argtypes = (POINTER(Installation),)
        library.minisign_install_copied.restype = error
        library.minisign_install_copied.argtypes = (POINTER(Installation), c_size_t)
        library.minisign_install_failed.restype = error
        library.minisign_install_failed.argtypes = (POINTER(Installation), c_uint32)
        library.minisign_install_record.restype = error
        library.minisign_install_record.argtypes = (
            POINTER(Installation),
            c_void_p,
            c_size_t,
        )
        library.minisign_install_no_record.restype = error
        library.minisign_install_no_record.argtypes = (POINTER(Installation),)
        library.minisign_install_piece.restype = error
        library.minisign_install_piece.argtypes = (
            POINTER(Installation),
            c_void_p,
            c_size_t,
        )
        library.minisign_install_no_target.restype = error
        library.minisign_install_no_target.argtypes = (POINTER(Installation),)
        library.minisign_install_signature.restype = error
        library.minisign_install_signature.argtypes = (
            POINTER(Installation),
            c_void_p,
            c_size_t,
            c_void_p,
            c_size_t,
            c_int64,
            c_void_p,
            c_size_t,
            POINTER(c_size_t),
        )
        library.minisign_install_list.restype = error
        library.minisign_install_list.argtypes = (
            POINTER(Installation),
            c_void_p,
            c_size_t,
            c_void_p,
            c_size_t,
        )
        library.minisign_install_question.restype = error
        library.minisign_install_question.argtypes = (
            POINTER(Installation),
            c_void_p,
            c_void_p,
            c_void_p,
        )
        library.minisign_install_answer.restype = error
        library.minisign_install_answer.argtypes = (POINTER(Installation), c_uint32)
        library.minisign_install_is_signed.restype = c_uint32
        library.minisign_install_is_signed.argtypes = (POINTER(Installation),)
        library.minisign_install_version.restype = c_uint64
        library.minisign_install_version.argtypes = (POINTER(Installation),)
        library.minisign_install_size.restype = c_uint32
        library.minisign_install_size.argtypes = (
            POINTER(Installation),
            POINTER(c_uint64),
        )
        library.minisign_install_record_text.restype = c_size_t
        library.minisign_install_record_text.argtypes = (
            POINTER(Installation),
            c_void_p,
            c_size_t,
        )
        library.minisign_install_error.restype = error
        library.minisign_install_error.argtypes = (POINTER(Installation),)
        library.minisign_install_line.restype = c_uint64
        library.minisign_install_line.argtypes = (POINTER(Installation),)
        library.minisign_judge_comment.restype = error
        library.minisign_judge_comment.argtypes = (
            c_void_p,
            c_size_t,
            c_void_p,
            c_size_t,
            c_uint32,
            c_uint64,
            c_uint64,
            POINTER(c_uint64),
        )
        library.minisign_list_ask.restype = error
        library.minisign_list_ask.argtypes = (
            POINTER(List),
            POINTER(PublicKey),
            POINTER(Signature),
            c_void_p,
            c_size_t,
            c_void_p,
            c_size_t,
            c_void_p,
            c_size_t,
            POINTER(Questions),
            c_void_p,
            c_size_t,
        )
        library.minisign_list_ask_any.restype = error
        library.minisign_list_ask_any.argtypes = (
            POINTER(List),
            POINTER(PublicKey),
            POINTER(Signature),
            c_void_p,
            c_size_t,
            c_void_p,
            c_size_t,
            POINTER(Questions),
            c_void_p,
            c_size_t,
        )
        library.minisign_list_verdict.restype = error
        library.minisign_list_verdict.argtypes = (POINTER(List), c_uint32, c_uint32)
        library.minisign_list_find.restype = error
        library.minisign_list_find.argtypes = (
            POINTER(List),
            c_void_p,
            c_size_t,
            c_uint32,
            c_void_p,
            c_size_t,
            POINTER(ListEntry),
            POINTER(c_uint64),
        )
        library.minisign_list_entries.restype = error
        library.minisign_list_entries.argtypes = (
            POINTER(List),
            c_void_p,
            c_size_t,
            c_uint32,
            POINTER(ListEntry),
            c_size_t,
            POINTER(c_size_t),
            POINTER(c_uint64),
        )
        library.minisign_list_begin.restype = error
        library.minisign_list_begin.argtypes = (POINTER(ListEntry), POINTER(ListFile))
        library.minisign_list_update.restype = error
        library.minisign_list_update.argtypes = (POINTER(ListFile), c_void_p, c_size_t)
        library.minisign_list_finish.restype = error
        library.minisign_list_finish.argtypes = (POINTER(ListFile),)
        library.minisign_list_compare_trusting_your_hash.restype = error
        library.minisign_list_compare_trusting_your_hash.argtypes = (
            POINTER(ListEntry),
            c_uint32,
            c_void_p,
            c_size_t,
        )
        library.minisign_list_append.restype = error
        library.minisign_list_append.argtypes = (
            c_uint32,
            c_void_p,
            c_size_t,
            c_void_p,
            c_size_t,
            c_void_p,
            c_size_t,
            POINTER(c_size_t),
        )

    def version(self) -> int:
        number: int = self._library.minisign_version()
        return number

    def error_text(self, error: int) -> bytes:
        text = create_string_buffer(ERROR_TEXT_BYTES)
        length = self._library.minisign_error_text(error, text, len(text))
        return text.raw[:length]

    def init(self) -> State:
        state = State()
        self._library.minisign_init(state)
        return state

    def update(self, state: State, data: bytes) -> None:
        self._library.minisign_update(state, data, len(data))

    def digest(self, state: State) -> bytes:
        digest = create_string_buffer(64)
        self._library.minisign_digest(state, digest)
        return digest.raw

    def read_public_key(self, pk_text: bytes) -> PublicKey:
        key = PublicKey()
        self._library.minisign_read_public_key(pk_text, len(pk_text), key)
        return key

    def read_bare_public_key(self, base64: bytes) -> PublicKey:
        key = PublicKey()
        self._library.minisign_read_bare_public_key(base64, len(base64), key)
        return key

    def read_public_key_record(self, record: bytes) -> PublicKey:
        key = PublicKey()
        self._library.minisign_read_public_key_record(record, len(record), key)
        return key

    def public_key_record(self, key: PublicKey) -> bytes:
        record = create_string_buffer(42)
        self._library.minisign_public_key_record(key, record)
        return record.raw

    def read_signature(self, sig_text: bytes) -> Signature:
        signature = Signature()
        self._library.minisign_read_signature(sig_text, len(sig_text), signature)
        return signature

    def read_signature_record(self, record: bytes) -> Signature:
        signature = Signature()
        self._library.minisign_read_signature_record(record, len(record), signature)
        return signature

    def signature_record(self, signature: Signature) -> bytes:
        record = create_string_buffer(74)
        self._library.minisign_signature_record(signature, record)
        return record.raw

    def ask(
        self,
        state: State,
        key: PublicKey,
        signature: Signature,
        sig_text: bytes,
        allow_legacy: int,
    ) -> Tuple[Questions, bytes]:
        questions = Questions()
        message = create_string_buffer(64 + signature.comment_len)
        self._library.minisign_ask(
            state,
            key,
            signature,
            sig_text,
            len(sig_text),
            allow_legacy,
            questions,
            message,
            len(message),
        )
        return questions, message.raw

    def comment_verdict(self, state: State, second: bool) -> None:
        self._library.minisign_comment_verdict(
            state, ANSWER_YES if second is True else ANSWER_NO
        )

    def verdict(self, state: State, first: bool, second: bool) -> None:
        self._library.minisign_verdict(
            state,
            ANSWER_YES if first is True else ANSWER_NO,
            ANSWER_YES if second is True else ANSWER_NO,
        )

    def ask_bare(
        self, state: State, key: PublicKey, signature: Signature, allow_legacy: int
    ) -> Questions:
        questions = Questions()
        self._library.minisign_ask_bare(state, key, signature, allow_legacy, questions)
        return questions

    def bare_verdict(self, state: State, first: bool) -> None:
        self._library.minisign_bare_verdict(
            state, ANSWER_YES if first is True else ANSWER_NO
        )

    def read_secret_key(self, sk_text: bytes) -> UnopenedKey:
        unopened = UnopenedKey()
        self._library.minisign_read_secret_key(sk_text, len(sk_text), unopened)
        return unopened

    def read_secret_key_record(self, secret_record: bytes) -> UnopenedKey:
        unopened = UnopenedKey()
        self._library.minisign_read_secret_key_record(
            secret_record, len(secret_record), unopened
        )
        return unopened

    def encode_unopened_key(self, unopened: UnopenedKey, comment: bytes) -> bytes:
        length = c_size_t()
        text = create_string_buffer(SECRET_KEY_BYTES + len(comment))
        self._library.minisign_encode_unopened_key(
            unopened, comment, len(comment), text, len(text), length
        )
        return text.raw[: length.value]

    def test_sealed_key(self, unopened: UnopenedKey, most_rows: int) -> None:
        self._library.minisign_test_sealed_key(unopened, most_rows)

    def open_unsealed_key(self, unopened: UnopenedKey) -> SecretKey:
        key = SecretKey()
        self._library.minisign_open_unsealed_key(unopened, key)
        return key

    def open_sealed_key(
        self, unopened: UnopenedKey, password: bytes, keep_every: int, most_rows: int
    ) -> SecretKey:
        key = SecretKey()
        self._library.minisign_open_sealed_key(
            unopened, password, len(password), keep_every, most_rows, key
        )
        return key

    def take_secret_key(self, new_key: NewKey) -> SecretKey:
        key = SecretKey()
        self._library.minisign_take_secret_key(new_key, key)
        return key

    def public_key_of(self, key: SecretKey) -> PublicKey:
        public_key = PublicKey()
        self._library.minisign_public_key_of(key, public_key)
        return public_key

    def comment_message(self, first: Octets, trusted: bytes) -> bytes:
        message = create_string_buffer(64 + len(trusted))
        self._library.minisign_comment_message(
            first, trusted, len(trusted), message, len(message)
        )
        return message.raw

    def signed_text(
        self,
        key: PublicKey,
        signature: Octets,
        comment_signature: Octets,
        trusted_comment: bytes,
        untrusted_comment: bytes,
    ) -> bytes:
        length = c_size_t()
        text = create_string_buffer(
            TEXT_BYTES + len(trusted_comment) + len(untrusted_comment)
        )
        self._library.minisign_signed_text(
            key,
            SignedParts(
                (c_ubyte * 64)(*signature),
                (c_ubyte * 64)(*comment_signature),
                trusted_comment,
                len(trusted_comment),
                untrusted_comment,
                len(untrusted_comment),
            ),
            text,
            len(text),
            length,
        )
        return text.raw[: length.value]

    def secret_key_text(
        self,
        key: SecretKey,
        password: Optional[bytes],
        sealing: Sealing,
        keep_every: int,
        comment: bytes,
    ) -> bytes:
        length = c_size_t()
        text = create_string_buffer(SECRET_KEY_BYTES + len(comment))
        self._library.minisign_secret_key_text(
            key,
            0 if password is None else 1,
            password,
            len(password or b""),
            sealing,
            keep_every,
            comment,
            len(comment),
            text,
            len(text),
            length,
        )
        return text.raw[: length.value]

    def public_key_text(self, key: SecretKey, comment: bytes) -> bytes:
        length = c_size_t()
        text = create_string_buffer(PUBLIC_KEY_BYTES + len(comment))
        self._library.minisign_public_key_text(
            key, comment, len(comment), text, len(text), length
        )
        return text.raw[: length.value]

    def encode_public_key(self, key: PublicKey, comment: bytes) -> bytes:
        length = c_size_t()
        text = create_string_buffer(PUBLIC_KEY_BYTES + len(comment))
        self._library.minisign_encode_public_key(
            key, comment, len(comment), text, len(text), length
        )
        return text.raw[: length.value]

    def install_init(
        self,
        installation: Installation,
        key: PublicKey,
        other: PublicKey,
        options: InstallOptions,
    ) -> None:
        self._library.minisign_install_init(installation, key, other, options)

    def install_due(self, installation: Installation) -> int:
        number: int = self._library.minisign_install_due(installation)
        return number

    def install_done(self, installation: Installation) -> None:
        self._library.minisign_install_done(installation)

    def install_copied(self, installation: Installation, piece_len: int) -> None:
        self._library.minisign_install_copied(installation, piece_len)

    def install_failed(self, installation: Installation, why: int) -> None:
        self._library.minisign_install_failed(installation, why)

    def install_record(self, installation: Installation, record: bytes) -> None:
        self._library.minisign_install_record(installation, record, len(record))

    def install_no_record(self, installation: Installation) -> None:
        self._library.minisign_install_no_record(installation)

    def install_piece(self, installation: Installation, piece: bytes) -> None:
        self._library.minisign_install_piece(installation, piece, len(piece))

    def install_no_target(self, installation: Installation) -> None:
        self._library.minisign_install_no_target(installation)

    def install_signature(
        self, installation: Installation, sig_text: bytes, file: bytes, now: int
    ) -> bytes:
        length = c_size_t()
        message = create_string_buffer(64 + len(sig_text))
        self._library.minisign_install_signature(
            installation,
            sig_text,
            len(sig_text),
            file,
            len(file),
            now,
            message,
            len(message),
            length,
        )
        return message.raw[: length.value]

    def install_list(
        self, installation: Installation, list: bytes, name: bytes
    ) -> None:
        self._library.minisign_install_list(
            installation, list, len(list), name, len(name)
        )

    def install_question(
        self, installation: Installation
    ) -> Tuple[bytes, bytes, bytes]:
        public_key = create_string_buffer(32)
        signature = create_string_buffer(64)
        digest = create_string_buffer(64)
        self._library.minisign_install_question(
            installation, public_key, signature, digest
        )
        return public_key.raw, signature.raw, digest.raw

    def install_answer(self, installation: Installation, answer: bool) -> None:
        self._library.minisign_install_answer(
            installation, ANSWER_YES if answer is True else ANSWER_NO
        )

    def install_is_signed(self, installation: Installation) -> int:
        number: int = self._library.minisign_install_is_signed(installation)
        return number

    def install_version(self, installation: Installation) -> int:
        number: int = self._library.minisign_install_version(installation)
        return number

    def install_size(self, installation: Installation) -> Tuple[int, int]:
        size = c_uint64()
        number: int = self._library.minisign_install_size(installation, size)
        return number, size.value

    def install_record_text(self, installation: Installation) -> bytes:
        text = create_string_buffer(RECORD_TEXT_BYTES)
        length = self._library.minisign_install_record_text(
            installation, text, len(text)
        )
        return text.raw[:length]

    def install_error(self, installation: Installation) -> None:
        self._library.minisign_install_error(installation)

    def install_line(self, installation: Installation) -> int:
        number: int = self._library.minisign_install_line(installation)
        return number

    def judge_comment(
        self, comment: bytes, file: bytes, numbering: int, now: int, kept: int
    ) -> int:
        number = c_uint64()
        self._library.minisign_judge_comment(
            comment, len(comment), file, len(file), numbering, now, kept, number
        )
        return number.value

    def list_ask(
        self,
        key: PublicKey,
        signature: Signature,
        sig_text: bytes,
        list_name: bytes,
        text: bytes,
    ) -> Tuple[List, Questions, bytes]:
        list = List()
        questions = Questions()
        message = create_string_buffer(64 + signature.comment_len)
        self._library.minisign_list_ask(
            list,
            key,
            signature,
            sig_text,
            len(sig_text),
            list_name,
            len(list_name),
            text,
            len(text),
            questions,
            message,
            len(message),
        )
        return list, questions, message.raw

    def list_ask_any(
        self, key: PublicKey, signature: Signature, sig_text: bytes, text: bytes
    ) -> Tuple[List, Questions, bytes]:
        list = List()
        questions = Questions()
        message = create_string_buffer(64 + signature.comment_len)
        self._library.minisign_list_ask_any(
            list,
            key,
            signature,
            sig_text,
            len(sig_text),
            text,
            len(text),
            questions,
            message,
            len(message),
        )
        return list, questions, message.raw

    def list_verdict(self, list: List, first: bool, second: bool) -> None:
        self._library.minisign_list_verdict(
            list,
            ANSWER_YES if first is True else ANSWER_NO,
            ANSWER_YES if second is True else ANSWER_NO,
        )

    def list_begin(self, entry: ListEntry) -> ListFile:
        file = ListFile()
        self._library.minisign_list_begin(entry, file)
        return file

    def list_update(self, file: ListFile, data: bytes) -> None:
        self._library.minisign_list_update(file, data, len(data))

    def list_finish(self, file: ListFile) -> None:
        self._library.minisign_list_finish(file)

    def list_compare_trusting_your_hash(
        self, entry: ListEntry, hash: int, digest: bytes
    ) -> None:
        self._library.minisign_list_compare_trusting_your_hash(
            entry, hash, digest, len(digest)
        )
