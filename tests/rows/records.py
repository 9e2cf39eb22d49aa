"""Test cases for the binary records of keys: parsing them, comparing them, and telling encrypted secret keys from
unencrypted ones."""

import public_keys
import secret_keys
import toy
from request_format import response, rows, secret_key


def parsing_and_comparison(name, kind, record, answer, begin, end):
    """Yields cases for a record. Parsing must succeed with its bytes, even if more bytes follow, and fail if a byte is missing. A
    comparison of two records must compare only the bytes from `begin` to `end`."""
    with_other_fields = bytes([7]) * begin + record[begin:end] + bytes([7]) * (len(record) - end)
    with_other_key = record[:end - 1] + b"\x5b" + record[end:]
    yield from rows(f"record of {name}", f"{kind}_from_bytes", ("its bytes", record, answer),
                    ("one byte more", record + b"!", answer), ("one byte less", record[:-1], "RecordTooShort"))
    yield from rows(f"equal: {name}", f"{kind}_eq", ("with the same record", record, record, response(eq=True)),
                    ("with other fields", record, with_other_fields, response(eq=True)),
                    ("with another last byte of the key", record, with_other_key, response(eq=False)))


ROWS = [
    *parsing_and_comparison("a public key", "pk", public_keys.RECORD, public_keys.KEY_A, 10, 42),
    *parsing_and_comparison("a secret key", "sk", secret_keys.RECORD, secret_keys.KEY_A, 62, 126),
    # A key counts as encrypted if it has a key derivation and its checksum does not match.
    *rows("encrypted", "sk_from_bytes", *(
        (name, record, secret_key(record, is_sealed)) for name, derivation, checksum, is_sealed in (
            ("no key derivation, another checksum", bytes(2), bytes(32), False),
            ("scrypt", b"Sc", None, False),
            ("scrypt, another checksum", b"Sc", bytes(32), True),
            ("an unknown key derivation, another checksum", b"Xx", bytes(32), True))
        for record in [toy.KEY_A.record(derivation, checksum=checksum)])),
]
