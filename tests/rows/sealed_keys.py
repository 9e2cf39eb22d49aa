"""Test cases for decrypting secret keys, with a password that is passed in or typed, and for the order of the errors.
`key_files` has the cases with files.
"""

import base64

import toy
from passwords import PROMPT, PROMPT_AND_EMPTY
from request_format import NOTHING_TYPED, rejected, response, rows, secret_key, typed
from toy import KEY_A, NOT_ENCRYPTED, NO_LIMITS, SCRYPT, SMALL_LIMITS, USUAL_LIMITS, Limits, secret_text

# The salt with which key A is encrypted.
SALT = bytes(range(0x20, 0x40))

# The output: the message about the key derivation, the prompt and the message before it is finished, and the whole
# output, for a password that is not empty and for an empty one.
DERIVING_TEXT = b"Deriving a key from the password and decrypting the secret key... "
OUTPUT_WHILE_DERIVING = PROMPT + DERIVING_TEXT
WHOLE_OUTPUT = OUTPUT_WHILE_DERIVING + b"done\n"
OUTPUT_IF_EMPTY = PROMPT_AND_EMPTY + DERIVING_TEXT + b"done\n"

MAX_MEMORY = 1 << 30
# One byte more than the allowed memory.
TOO_HIGH = Limits(MAX_MEMORY + 1)
MAX_LIMITS = Limits((1 << 64) - 1)
# Limits for which scrypt's p would be zero, because it is computed from the low 32 bits of a quotient.
ZERO_PARTS = Limits(0, 1 << 40)
# Key A after decryption, and its file. It was encrypted with small limits and SALT.
DECRYPTED = KEY_A.record(SCRYPT, SMALL_LIMITS, SALT)
DECRYPTED_TEXT = secret_text(DECRYPTED)


def encrypted(password, limits=SMALL_LIMITS):
    """Returns a file with key A, encrypted with this password. Its first line is `c`."""
    return toy.join_lines([b"c", base64.b64encode(KEY_A.sealed(password, limits, SALT))])


def decrypted(record, **values):
    """Returns the expected response with the decrypted key of a record, or if it is None, the error for a wrong password."""
    return secret_key(record, **values) if record else rejected("WrongPassword", **values)


ENCRYPTED, ENCRYPTED_WITH_EMPTY = encrypted(b"password"), encrypted(b"")

ROWS = [
    # If a password is passed in, nothing is asked.
    *rows("a password that is passed in", "sk_open", *(
        (name, text, password, typed("typed"), decrypted(record, typed_left=1)) for name, text, password, record in (
            ("a password", ENCRYPTED, "password", DECRYPTED),
            ("the empty password", ENCRYPTED_WITH_EMPTY, "", DECRYPTED),
            (
                "the limits of generated keys",
                encrypted(b"password", USUAL_LIMITS),
                "password",
                KEY_A.record(SCRYPT, USUAL_LIMITS, SALT),
            ),
            ("encrypted in 512 parts", secret_text(KEY_A.sealed(b"password", NO_LIMITS, bytes(32))), "password",
             KEY_A.record(SCRYPT)),
            ("a password with a capital letter", ENCRYPTED, "Password", None),
            ("the empty password for a key with another password", ENCRYPTED, "", None),
            ("a password for a key with the empty password", ENCRYPTED_WITH_EMPTY, "password", None),
            ("a decrypted key is not decrypted again", DECRYPTED_TEXT, "", None)))),
    # If no password is passed in, it is asked for, and one line is read.
    *rows("a typed password", "sk_open", *((name, text, None, lines, answer) for name, text, lines, answer in (
        ("an empty line", ENCRYPTED_WITH_EMPTY, typed(""), decrypted(DECRYPTED, stdout=OUTPUT_IF_EMPTY)),
        ("two empty lines", ENCRYPTED_WITH_EMPTY, typed("", ""), decrypted(DECRYPTED, stdout=OUTPUT_IF_EMPTY, typed_left=1)),
        ("a line, and one more", ENCRYPTED, typed("password", "more"), decrypted(DECRYPTED, stdout=WHOLE_OUTPUT, typed_left=1)),
        *((repr(line), ENCRYPTED, typed(line), decrypted(record, stdout=WHOLE_OUTPUT)) for line, record in (
            ("password", DECRYPTED), ("password\r", DECRYPTED), ("pass", None), ("p", None), ("password\r\r", None))),
        ("the end of the input", ENCRYPTED, NOTHING_TYPED, rejected("EndOfInput", stdout=PROMPT)),
        ("no line feed in 1026 bytes", ENCRYPTED, typed("a" * 1026), rejected("PasswordTooLong", stdout=PROMPT, typed_left=1))))),
    # Keys that no password decrypts are rejected before a password is asked for: texts that are not keys, and key derivations other
    # than scrypt, which are checked before the limits.
    *rows("rejected before a password is asked for", "sk_open", *(
        (name, text, None, typed("p"), rejected(error, typed_left=1)) for name, text, error in (
            ("an empty text", b"", "MissingSecretKeyComment"),
            ("only a comment", b"c\n", "MissingEncodedSecretKey"),
            ("not base64", b"c\n!\n", "SecretKeyNotBase64"),
            ("a short record", b"c\nAAAA\n", "RecordTooShort"),
            *((f"{derivation} with {limits}", secret_text(KEY_A.record(derivation, limits)), error)
              for limits in (NO_LIMITS, TOO_HIGH) for derivation, error in (
                  (NOT_ENCRYPTED, "KeyNotEncrypted"), (b"Xx", "UnsupportedEncryptionAlgorithm"),
                  (b"SC", "UnsupportedEncryptionAlgorithm")))))),
    # The limits are checked after the password was read and before the key derivation. The record of key A here is not
    # encrypted although it names scrypt, so no password is right.
    *(row for name, limits, error, output in (
        ("one byte of memory too many", TOO_HIGH, "ParametersTooHigh", OUTPUT_WHILE_DERIVING),
        ("the greatest number of bytes", MAX_LIMITS, "ParametersTooHigh", OUTPUT_WHILE_DERIVING),
        ("no parts", ZERO_PARTS, "InvalidParameters", OUTPUT_WHILE_DERIVING),
        ("the most memory that is allowed, and no operations", Limits(MAX_MEMORY), "WrongPassword", WHOLE_OUTPUT),
        ("no limits", NO_LIMITS, "WrongPassword", WHOLE_OUTPUT),
        ("small limits", SMALL_LIMITS, "WrongPassword", WHOLE_OUTPUT))
      for text in [secret_text(KEY_A.record(SCRYPT, limits))]
      for row in rows(f"limits: {name}", "sk_open", ("typed", text, None, typed("p"), rejected(error, stdout=output)),
                      ("passed in", text, "p", typed("typed"), rejected(error, typed_left=1)))),
    # A decrypted key is written unencrypted, but is not accepted as a key without encryption, because it names scrypt.
    *rows("a decrypted key", "sk_to_box", ("is written unchanged", DECRYPTED, None, response(text=DECRYPTED_TEXT))),
    *rows("rejected as an unencrypted key", "sk_plain", ("decrypted", DECRYPTED_TEXT, "KeyMightBeEncrypted"),
          ("encrypted", ENCRYPTED, "KeyMightBeEncrypted")),
]
