# SPDX-License-Identifier: MIT
"""Defines an exception for each error code of the library.

Made by tools/bindings.py from include/minisign.h.
"""


class MinisignError(Exception):
    """Base class of all errors of the library. `number` is the error code in
    include/minisign.h, and `str(error)` is the message of the library. For
    MalformedLine and ListedTwice, `line` is the number of the line at fault in the
    list. For all other errors it is 0.

    The docstrings of the errors are the comments of the C header. They name calls
    and parameters of the library for C, which this package calls."""

    number = 0
    line = 0


class NotBegun(MinisignError):
    """The state is not initialized, or its verdict was already returned."""

    number = 1


class AlreadyAsked(MinisignError):
    """minisign_ask, minisign_ask_bare or minisign_digest was already called."""

    number = 2


class NotAsked(MinisignError):
    """minisign_ask, minisign_ask_bare or minisign_digest was not called yet."""

    number = 3


class BadAnswer(MinisignError):
    """The result of an Ed25519 check is neither MINISIGN_ANSWER_YES nor
    MINISIGN_ANSWER_NO."""

    number = 4


class NoRoom(MinisignError):
    """A buffer that was passed is too small."""

    number = 5


class BadLegacyFlag(MinisignError):
    """The parameter allow_legacy is neither 0 nor 1."""

    number = 6


class OutOfMemory(MinisignError):
    """An allocation failed, or the requested size is too large for any allocation."""

    number = 7


class NotUtf8(MinisignError):
    """The input is not UTF-8: a file, a typed line, a password, a comment or a name."""

    number = 8


class BadComment(MinisignError):
    """A comment would change when it is read back, because it contains a line feed, or
    begins or ends with white space."""

    number = 9


class BadPasswordFlag(MinisignError):
    """The parameter with_password is not 0, 1 or 2."""

    number = 10


class UnreadableComment(MinisignError):
    """Minisign would not read a comment back, because it is too long, or contains a
    zero byte or a carriage return."""

    number = 11


class NotDue(MinisignError):
    """The installation expects a different call now, or no operation can fail with the
    error that was reported."""

    number = 12


class BadOption(MinisignError):
    """An option of an installation other than numbering and long_digest is neither 0
    nor 1, or two options must not be combined."""

    number = 13


class BadNumbering(MinisignError):
    """The option numbering is neither MINISIGN_NUMBERING_TIMESTAMP nor
    MINISIGN_NUMBERING_VERSION."""

    number = 14


class KeyNotOpened(MinisignError):
    """The secret key was neither opened nor set by minisign_take_secret_key."""

    number = 15


class MissingPublicKeyComment(MinisignError):
    """The public key file has no comment line."""

    number = 16


class MissingPublicKey(MinisignError):
    """The public key file has no key line."""

    number = 17


class PublicKeyLength(MinisignError):
    """The second line of the public key file is not 56 bytes long."""

    number = 18


class PublicKeyNotBase64(MinisignError):
    """The second line of the public key file is not base64."""

    number = 19


class RecordTooShort(MinisignError):
    """A decoded key or signature has too few bytes."""

    number = 20


class MissingUntrustedComment(MinisignError):
    """The signature file has no untrusted comment line."""

    number = 21


class MissingSignature(MinisignError):
    """The signature file has no signature line."""

    number = 22


class MissingTrustedComment(MinisignError):
    """The signature file has no trusted comment line."""

    number = 23


class MissingCommentSignature(MinisignError):
    """The signature file has no comment signature line."""

    number = 24


class UntrustedCommentPrefix(MinisignError):
    """The first line of the signature file does not begin with
    "untrusted comment: "."""

    number = 25


class SignatureNotBase64(MinisignError):
    """A line of the signature file is not base64."""

    number = 26


class TrustedCommentPrefix(MinisignError):
    """The third line of the signature file does not begin with "trusted comment: "."""

    number = 27


class UnsupportedAlgorithm(MinisignError):
    """The algorithm of the signature is neither Ed nor ED."""

    number = 28


class DifferentKeyIds(MinisignError):
    """The signature was made with a key that has another key ID."""

    number = 29


class LegacyNotAccepted(MinisignError):
    """The signature is a legacy one, and only prehashed ones are allowed."""

    number = 30


class SignatureRefused(MinisignError):
    """The signature of the data is not valid."""

    number = 31


class CommentSignatureRefused(MinisignError):
    """The comment signature is too short or not valid."""

    number = 32


class MissingSecretKeyComment(MinisignError):
    """The secret key file has no comment line."""

    number = 33


class MissingSecretKey(MinisignError):
    """The secret key file has no key line."""

    number = 34


class SecretKeyNotBase64(MinisignError):
    """The second line of the secret key file is not base64."""

    number = 35


class KeySealed(MinisignError):
    """The key was to be opened without a password, but it names a key derivation, so it
    may be encrypted."""

    number = 36


class KeyCorrupted(MinisignError):
    """The checksum of an unencrypted secret key does not match."""

    number = 37


class KeyNotSealed(MinisignError):
    """The key was to be opened with a password, but it names no key derivation, so it
    is not encrypted."""

    number = 38


class UnsupportedKeyDerivation(MinisignError):
    """An encrypted key names a key derivation other than Sc, which is scrypt."""

    number = 39


class ParametersTooHigh(MinisignError):
    """The memory limit of an encrypted key is above 2^30 bytes, or its limits give
    scrypt more than 2^20 rows."""

    number = 40


class InvalidParameters(MinisignError):
    """The limits of an encrypted key give parameters that scrypt rejects."""

    number = 41


class WrongPassword(MinisignError):
    """The checksum does not match after decryption, so the password is probably
    wrong."""

    number = 42


class WorkTooHigh(MinisignError):
    """Decrypting the key takes more rows of scrypt than the caller allows."""

    number = 43


class BarePublicKeyLength(MinisignError):
    """A bare base64 public key is not 56 bytes long."""

    number = 44


class BarePublicKeyNotBase64(MinisignError):
    """A bare public key is not base64."""

    number = 45


class TargetInUse(MinisignError):
    """Another installation holds the lock on this target."""

    number = 46


class NoRecord(MinisignError):
    """No version is recorded for this target, and is_first is not set."""

    number = 47


class DamagedRecord(MinisignError):
    """The version record of this target contains no version number, and is_first is not
    set."""

    number = 48


class OtherFile(MinisignError):
    """The trusted comment does not name the file that the caller expects."""

    number = 49


class NoNumber(MinisignError):
    """The trusted comment lacks the field that was chosen for the version number, or
    the value of the first such field is not a decimal number below 2^64."""

    number = 50


class OlderUpdate(MinisignError):
    """The version number of the update is below the recorded one, and roll_back is not
    set."""

    number = 51


class DirectoryNotSynced(MinisignError):
    """The update is installed but could not be synced, so a crash may bring back the
    previous file."""

    number = 52


class KeptByTimestamp(MinisignError):
    """The version record holds a timestamp and not a version, and is_first is not
    set."""

    number = 53


class KeptByVersion(MinisignError):
    """The version record holds a version and not a timestamp, and is_first is not
    set."""

    number = 54


class Expired(MinisignError):
    """The update has expired at the time that the caller passes."""

    number = 55


class BadExpiry(MinisignError):
    """The trusted comment has more than one field "expires:", or its value is not a
    decimal number below 2^64."""

    number = 56


class SameNumber(MinisignError):
    """This version is already recorded, but the installed file is different, and again
    is not set."""

    number = 57


class NoExpiry(MinisignError):
    """The trusted comment has no field "expires:", and must_expire is set."""

    number = 58


class BadSize(MinisignError):
    """The trusted comment has more than one field "size:", or its value is not a
    decimal number below 2^64."""

    number = 59


class OtherSize(MinisignError):
    """The data is longer or shorter than the field "size:" of the trusted comment
    says."""

    number = 60


class OtherSignatureText(MinisignError):
    """The signature was read from a different signature file than the one that was
    passed with it."""

    number = 61


class SignatureNotRead(MinisignError):
    """No signature was read into the struct, or only a bare signature, which lacks the
    comments that the call needs."""

    number = 62


class KeyNotRead(MinisignError):
    """No secret key was read into the struct."""

    number = 63


class ReadingFailed(MinisignError):
    """Reading from a source, a file or a prompt failed."""

    number = 64


class WritingFailed(MinisignError):
    """Writing to a sink or a prompt, or flushing it, failed."""

    number = 65


class RandomSourceFailed(MinisignError):
    """A random source failed or had too few bytes."""

    number = 67


class WeakEd25519(MinisignError):
    """The public key or a signature is one that strict Ed25519 rejects: a point has a
    small order or is not canonical, or the second half of a signature is not below the
    group order."""

    number = 81


class PublicKeyNotRead(MinisignError):
    """No public key was read into the struct."""

    number = 82


class EmptyPassword(MinisignError):
    """The password is empty, and with_password does not allow an empty one."""

    number = 83


class WeakSealing(MinisignError):
    """The salt is all zeros, or a scrypt limit is below the minimum of Minisign."""

    number = 84


class ListNotVerified(MinisignError):
    """The list was not verified."""

    number = 85


class OtherListText(MinisignError):
    """The text is not the list that was verified."""

    number = 86


class BadHash(MinisignError):
    """The hash function, or the length of its digest, is not one that this call
    accepts."""

    number = 87


class EntryNotRead(MinisignError):
    """The entry was not read from a list."""

    number = 88


class OtherList(MinisignError):
    """The trusted comment does not name the list."""

    number = 89


class BadName(MinisignError):
    """No list can contain the name."""

    number = 90


class MalformedLine(MinisignError):
    """A line of the list is malformed."""

    number = 91


class NotListed(MinisignError):
    """No line of the list has the name."""

    number = 92


class ListedTwice(MinisignError):
    """Two lines of the list have the name."""

    number = 93


class DigestMismatch(MinisignError):
    """The data does not have the listed digest."""

    number = 94


BY_NUMBER: "dict[int, type[MinisignError]]" = {
    1: NotBegun,
    2: AlreadyAsked,
    3: NotAsked,
    4: BadAnswer,
    5: NoRoom,
    6: BadLegacyFlag,
    7: OutOfMemory,
    8: NotUtf8,
    9: BadComment,
    10: BadPasswordFlag,
    11: UnreadableComment,
    12: NotDue,
    13: BadOption,
    14: BadNumbering,
    15: KeyNotOpened,
    16: MissingPublicKeyComment,
    17: MissingPublicKey,
    18: PublicKeyLength,
    19: PublicKeyNotBase64,
    20: RecordTooShort,
    21: MissingUntrustedComment,
    22: MissingSignature,
    23: MissingTrustedComment,
    24: MissingCommentSignature,
    25: UntrustedCommentPrefix,
    26: SignatureNotBase64,
    27: TrustedCommentPrefix,
    28: UnsupportedAlgorithm,
    29: DifferentKeyIds,
    30: LegacyNotAccepted,
    31: SignatureRefused,
    32: CommentSignatureRefused,
    33: MissingSecretKeyComment,
    34: MissingSecretKey,
    35: SecretKeyNotBase64,
    36: KeySealed,
    37: KeyCorrupted,
    38: KeyNotSealed,
    39: UnsupportedKeyDerivation,
    40: ParametersTooHigh,
    41: InvalidParameters,
    42: WrongPassword,
    43: WorkTooHigh,
    44: BarePublicKeyLength,
    45: BarePublicKeyNotBase64,
    46: TargetInUse,
    47: NoRecord,
    48: DamagedRecord,
    49: OtherFile,
    50: NoNumber,
    51: OlderUpdate,
    52: DirectoryNotSynced,
    53: KeptByTimestamp,
    54: KeptByVersion,
    55: Expired,
    56: BadExpiry,
    57: SameNumber,
    58: NoExpiry,
    59: BadSize,
    60: OtherSize,
    61: OtherSignatureText,
    62: SignatureNotRead,
    63: KeyNotRead,
    64: ReadingFailed,
    65: WritingFailed,
    67: RandomSourceFailed,
    81: WeakEd25519,
    82: PublicKeyNotRead,
    83: EmptyPassword,
    84: WeakSealing,
    85: ListNotVerified,
    86: OtherListText,
    87: BadHash,
    88: EntryNotRead,
    89: OtherList,
    90: BadName,
    91: MalformedLine,
    92: NotListed,
    93: ListedTwice,
    94: DigestMismatch,
}

__all__ = [
    "MinisignError",
    "NotBegun",
    "AlreadyAsked",
    "NotAsked",
    "BadAnswer",
    "NoRoom",
    "BadLegacyFlag",
    "OutOfMemory",
    "NotUtf8",
    "BadComment",
    "BadPasswordFlag",
    "UnreadableComment",
    "NotDue",
    "BadOption",
    "BadNumbering",
    "KeyNotOpened",
    "MissingPublicKeyComment",
    "MissingPublicKey",
    "PublicKeyLength",
    "PublicKeyNotBase64",
    "RecordTooShort",
    "MissingUntrustedComment",
    "MissingSignature",
    "MissingTrustedComment",
    "MissingCommentSignature",
    "UntrustedCommentPrefix",
    "SignatureNotBase64",
    "TrustedCommentPrefix",
    "UnsupportedAlgorithm",
    "DifferentKeyIds",
    "LegacyNotAccepted",
    "SignatureRefused",
    "CommentSignatureRefused",
    "MissingSecretKeyComment",
    "MissingSecretKey",
    "SecretKeyNotBase64",
    "KeySealed",
    "KeyCorrupted",
    "KeyNotSealed",
    "UnsupportedKeyDerivation",
    "ParametersTooHigh",
    "InvalidParameters",
    "WrongPassword",
    "WorkTooHigh",
    "BarePublicKeyLength",
    "BarePublicKeyNotBase64",
    "TargetInUse",
    "NoRecord",
    "DamagedRecord",
    "OtherFile",
    "NoNumber",
    "OlderUpdate",
    "DirectoryNotSynced",
    "KeptByTimestamp",
    "KeptByVersion",
    "Expired",
    "BadExpiry",
    "SameNumber",
    "NoExpiry",
    "BadSize",
    "OtherSize",
    "OtherSignatureText",
    "SignatureNotRead",
    "KeyNotRead",
    "ReadingFailed",
    "WritingFailed",
    "RandomSourceFailed",
    "WeakEd25519",
    "PublicKeyNotRead",
    "EmptyPassword",
    "WeakSealing",
    "ListNotVerified",
    "OtherListText",
    "BadHash",
    "EntryNotRead",
    "OtherList",
    "BadName",
    "MalformedLine",
    "NotListed",
    "ListedTwice",
    "DigestMismatch",
]
