"""Makes the requests with which compare.py compares this library with the Rust crate minisign: both answer each request.

The requests have all short inputs, inputs around each limit, and valid inputs with random changes. Keys and signatures are those
of the toy scheme (tests/shared/toy.py). A request is one line: the name of a call and its arguments. oracle/README.md describes
the calls and how arguments are written, such as `x616263` (bytes), `-` (None), `c7` (random bytes that count up from 7) and `f42`
(a writer that fails after 42 bytes, or else when it is flushed).
"""

import hashlib
import itertools
import os
import random
import sys

sys.path.insert(0, os.path.join(os.path.dirname(os.path.abspath(__file__)), '..', 'tests', 'shared'))
import base64  # noqa: E402
import toy  # noqa: E402

KEYNUM = toy.KEYNUM
PUBLIC = b'Ed' + KEYNUM + toy.KEY
SECRET = toy.SECRET_RECORD
COMMENT = b'untrusted comment: '
TRUSTED = b'trusted comment: '
# Characters that `trim` removes, and similar ones that it does not.
SPACES = [' ', '\t', '\x0b', '\x0c', '\r', '\x1c', '\x85', '\xa0', '\u1680', '\u180e', '\u2000', '\u200a',
          '\u200b', '\u2028', '\u2029', '\u202f', '\u205f', '\u3000', '\ufeff', '\0']


def encode(data):
    """Encodes bytes for a request."""
    return 'x' + data.hex()


def text(data):
    """Encodes a text for a request. The bytes have to be UTF-8."""
    data.decode()
    return encode(data)


def is_utf8(data):
    try:
        data.decode()
    except UnicodeDecodeError:
        return False
    return True


def sealed_record(password, opslimit, memlimit, salt=bytes(range(32)), keynum=KEYNUM, kdf=b'Sc'):
    """Returns the record of a secret key that is encrypted with the password. It runs scrypt with these limits, so they have to
    be small. The parameters N and p follow from the limits as in `raw_scrypt_params`, and as in libsodium."""
    operations = max(32768, opslimit)
    n_log2 = 1
    if operations < memlimit // 32:
        max_rows, p = operations // 32, 1
    else:
        max_rows, p = memlimit // 1024, None
    while n_log2 < 63 and (1 << n_log2) <= max_rows // 2:
        n_log2 += 1
    if p is None:
        p = min(0x3fffffff, (operations // 4 >> n_log2) & 0xffffffff) // 8
    stream = hashlib.scrypt(password, salt=salt, n=1 << n_log2, r=8, p=p, dklen=104, maxmem=1 << 30)
    opened = toy.Key(keynum=keynum).record()[54:]
    limits = opslimit.to_bytes(8, 'little') + memlimit.to_bytes(8, 'little')
    return b'Ed' + kdf + b'B2' + salt + limits + bytes(a ^ b for a, b in zip(opened, stream))


def secret_text(record, comment=b'c'):
    """Returns a secret key file with this record."""
    return toy.join_lines([COMMENT + comment, base64.b64encode(record)])


def files():
    """Returns the files that requests name, by name."""
    sealed = secret_text(sealed_record(b'p', 32768, 16384))
    return {
        'good.pub': toy.public_text(),
        'good.minisig': toy.signature_text(b'abc'),
        'sealed.key': sealed,
        'plain.key': secret_text(SECRET),
        'empty': b'',
        'not_utf8': b'untrusted comment: \xff\n',
        'one_line': b'untrusted comment: c\n',
    }


# ---- key and signature files ------------------------------------------------------------------------


def texts_of(pieces, max_lines, ends=(b'\n',)):
    """Yields every text of up to `max_lines` lines from these pieces, with each of these line endings, and each text also without
    the line ending of its last line."""
    for count in range(max_lines + 1):
        for lines in itertools.product(pieces, repeat=count):
            for end in ends:
                joined = end.join(lines)
                yield joined
                if lines:
                    yield joined + end


def public_key_texts(rng):
    """Yields requests that parse public key files and public keys in base64."""
    key = base64.b64encode(PUBLIC)
    pieces = [b'', COMMENT + b'c', key, key[:-1], key + b'A', key[:-1] + b'=', b' ' * 56,
              b' ' + key[:55], key[:30] + b'-' + key[31:], b'\r', key + b'\r']
    for body in texts_of(pieces, 3):
        yield f'pk_from_box {text(body)}'
    for body in texts_of(pieces[:6], 2, (b'\r\n', b'\n\n', b'\r')):
        yield f'pk_from_box {text(body)}'
    for length in range(120):
        for letter in (b'A', b'=', b' ', b'+'):
            yield f'pk_from_box {text(COMMENT + bytes([10]) + letter * length)}'
            yield f'pk_from_base64 {text(letter * length)}'
    for length in range(60):
        encoded = base64.b64encode(bytes(rng.randrange(256) for _ in range(length)))
        yield f'pk_from_base64 {text(encoded)}'
        yield f'pk_from_box {text(COMMENT + bytes([10]) + encoded)}'
        for padded in (encoded.rstrip(b'='), encoded + b'=', encoded + b'\n', encoded[:-1] + b'B'):
            yield f'pk_from_base64 {text(padded)}'
            yield f'pk_from_box {text(COMMENT + bytes([10]) + padded)}'
    for space in SPACES:
        space = space.encode()
        for body in (space + key, key + space, space + key + space, key[:20] + space + key[20:],
                     space * 56, space + key[len(space):], key[:-len(space)] + space, space + key[:-1]):
            yield f'pk_from_base64 {text(body)}'
            yield f'pk_from_box {text(COMMENT + bytes([10]) + body)}'
            yield f'pk_from_box {text(COMMENT + space + bytes([10]) + body + bytes([10]) + space)}'
    for position in range(56):
        for letter in (0, 10, 13, 32, 43, 45, 47, 61, 65, 95, 122, 127):
            changed = key[:position] + bytes([letter]) + key[position + 1:]
            yield f'pk_from_base64 {text(changed)}'
            yield f'pk_from_box {text(COMMENT + bytes([10]) + changed)}'


def signature_lines():
    """Returns valid and invalid variants of each of the four lines of a signature file."""
    record = toy.signature_record(b'abc')
    encoded = base64.b64encode(record)
    legacy = base64.b64encode(toy.signature_record(b'abc', algorithm=b'Ed'))
    unknown = base64.b64encode(b'eD' + record[2:])
    comment_signature = base64.b64encode(toy.signature_of(record[10:] + b't'))
    first = [COMMENT + b'c', COMMENT, COMMENT[:-1], b'', b'Untrusted comment: c', COMMENT + b'\xc3\xa9 \r']
    second = [encoded, legacy, unknown, b'', encoded[:-4], encoded[:-1], b'-' + encoded[1:],
              b' ' + encoded + b'\t\r', base64.b64encode(record + b'x')]
    third = [TRUSTED + b't', TRUSTED + b' t ', TRUSTED[:-1], b'', b'trusted', TRUSTED, b'Trusted comment: t']
    fourth = [comment_signature, b'', comment_signature[:-1], b' ' + comment_signature + b' ', b'A', b'AAAA',
              base64.b64encode(base64.b64decode(comment_signature)[:63])]
    return first, second, third, fourth


def signature_texts(rng):
    """Yields requests that parse signature files."""
    lines = signature_lines()
    for four_lines in itertools.product(*lines):
        yield f'sig_from_string {text(toy.join_lines(four_lines))}'
    for count in range(4):
        for chosen in itertools.product(*lines[:count]):
            body = b'\n'.join(chosen)
            yield f'sig_from_string {text(body)}'
            yield f'sig_from_string {text(body + bytes([10]))}'
    pieces = [b'', lines[0][0], lines[1][0], lines[2][0], lines[3][0], b'\r', b'x']
    for body in texts_of(pieces, 4):
        yield f'sig_from_string {text(body)}'
    good = toy.signature_text(b'abc')
    for end in (b'\r\n', b'\n\n', b'\r', b'\n\r\n', b'\r\r\n', b'\x0b', b'\xc2\x85'):
        yield f'sig_from_string {text(good.replace(bytes([10]), end))}'
    for space in SPACES:
        space = space.encode()
        for number, _ in enumerate(lines):
            parts = good.split(b'\n')
            for changed in (space + parts[number], parts[number] + space, parts[number].replace(b' ', space),
                            parts[number][:9] + space + parts[number][9:]):
                rest = parts[:number] + [changed] + parts[number + 1:]
                yield f'sig_from_string {text(bytes([10]).join(rest))}'
        body = toy.signature_text(b'abc', trusted=space + b't' + space, untrusted=space + b'c' + space)
        yield f'sig_from_string {text(body)}'
    for length in range(100):
        raw = bytes(rng.randrange(256) for _ in range(length))
        encoded = base64.b64encode(raw)
        yield f'sig_from_string {text(toy.join_lines([lines[0][0], encoded, lines[2][0], lines[3][0]]))}'
        yield f'sig_from_string {text(toy.join_lines([lines[0][0], lines[1][0], lines[2][0], encoded]))}'
        with_algorithm = base64.b64encode((b'ED' + raw)[:max(length, 2)])
        yield f'sig_from_string {text(toy.join_lines([lines[0][0], with_algorithm, lines[2][0], encoded[:-1]]))}'


def secret_key_texts(rng):
    """Yields requests that parse secret key files, most of them not encrypted."""
    plain = base64.b64encode(SECRET)
    kinds = [SECRET, SECRET[:2] + b'Sc' + SECRET[4:], SECRET[:2] + b'sC' + SECRET[4:],
             SECRET[:2] + b'\0\1' + SECRET[4:], SECRET[:-1] + b'\0', SECRET[:157], SECRET + b'x', b'']
    pieces = [b'', COMMENT + b'c'] + [base64.b64encode(kind) for kind in kinds[:6]] + [plain[:-1], b' ' + plain]
    for body in texts_of(pieces, 3):
        yield f'sk_plain {text(body)}'
        # RWRTY0Iy is the beginning of an encrypted key (EdScB2) in base64. `sealed_keys` decrypts such keys.
        if b'RWRTY0Iy' not in body:
            yield f'sk_open {text(body)} x70 -'
            yield f'sk_open {text(body)} - x70'
    for kind in kinds:
        yield f'sk_plain {text(secret_text(kind))}'
    for position in range(len(SECRET)):
        for bit in (1, 128):
            changed = SECRET[:position] + bytes([SECRET[position] ^ bit]) + SECRET[position + 1:]
            yield f'sk_plain {text(secret_text(changed))}'
            yield f'sk_from_bytes {encode(changed)}'
    for space in SPACES:
        space = space.encode()
        for body in (space + plain, plain + space, plain[:50] + space + plain[50:]):
            yield f'sk_plain {text(COMMENT + bytes([10]) + body)}'
            yield f'sk_plain {text(COMMENT + space + bytes([10]) + body + bytes([10]))}'
    for length in range(170):
        raw = bytes(rng.randrange(256) for _ in range(length))
        yield f'sk_plain {text(secret_text(raw))}'
        yield f'sk_plain {text(secret_text((SECRET + raw)[:length]))}'


def damaged(rng, body):
    """Returns a text with one to three random changes, or unchanged if it would no longer be UTF-8."""
    changed = bytearray(body)
    for _ in range(rng.choice((1, 1, 1, 2, 3))):
        position = rng.randrange(len(changed) + 1) if changed else 0
        kind = rng.randrange(6)
        if kind == 0 and position < len(changed):
            changed[position] ^= 1 << rng.randrange(7)
        elif kind == 1 and position < len(changed):
            del changed[position]
        elif kind == 2:
            changed[position:position] = rng.choice([b'\n', b'\r\n', b'\r', b' ', b'=', b'A', b'\xc2\xa0', b'\0'])
        elif kind == 3:
            del changed[position:position + rng.randrange(1, 20)]
        elif kind == 4:
            changed[position:position] = changed[position:position + rng.randrange(1, 20)]
        elif position < len(changed):
            changed[position] = rng.choice(b'\n\r =+/-_AZaz09:\x7f')
    return bytes(changed) if is_utf8(bytes(changed)) else body


def damaged_texts(rng, count):
    """Yields requests with randomly changed valid files, for each call that parses a file."""
    good_key = toy.public_text()
    good = toy.signature_text(b'abc')
    legacy = toy.signature_text(b'abc', record=toy.signature_record(b'abc', algorithm=b'Ed'))
    secret = secret_text(SECRET)
    for _ in range(count):
        yield f'pk_from_box {text(damaged(rng, good_key))}'
        yield f'pk_from_base64 {text(damaged(rng, good_key.split(bytes([10]))[1]))}'
        yield f'sig_from_string {text(damaged(rng, good))}'
        yield f'sig_from_string {text(damaged(rng, legacy))}'
        yield f'sk_plain {text(damaged(rng, secret))}'
        sig_text = rng.choice((good, legacy))
        key, sig = (damaged(rng, good_key), sig_text) if rng.randrange(3) == 0 else (good_key, damaged(rng, sig_text))
        flags = ' '.join(str(rng.randrange(2)) for _ in range(3))
        yield f'verify_texts {text(key)} {text(sig)} x616263 {flags}'


# ---- records ----------------------------------------------------------------------------------------


def records(rng, count):
    """Yields requests with records (decoded keys and signatures) of all lengths and algorithms, and comparisons of keys. The calls
    `bones_..` take a bare signature, which has no comments: the crate calls it `SignatureBones`."""
    for length in range(200):
        raw = bytes(rng.randrange(256) for _ in range(length))
        for begin in (b'', b'Ed', b'ED', b'eD', b'E'):
            record = (begin + raw)[:length]
            yield f'pk_from_bytes {encode(record)}'
            yield f'sig_from_bytes {encode(record)}'
            yield f'bones_untrusted {encode(record)}'
            yield f'bones_trusted {encode(record)}'
            yield f'bones_to_string {encode(record)}'
            yield f'sk_from_bytes {encode(record)}'
            yield f'pk_to_box {encode(record)}'
            yield f'pk_from_secret_key {encode(record)}'
            yield f'sk_to_box {encode(record)} -'
    for first in range(256):
        for second in (0, 1, 68, 99, 100, 255):
            algorithm = bytes([first, second])
            yield f'sig_from_bytes {encode(algorithm + bytes(72))}'
            yield f'pk_from_bytes {encode(algorithm + PUBLIC[2:])}'
            yield f'sk_from_bytes {encode(b"Ed" + algorithm + SECRET[4:])}'
    comments = [b'', b'c', b'a comment', b'two\nlines', '\xe9\u2028'.encode(), b'x' * 300, b'\r', b' c ']
    for comment in comments:
        yield f'sk_to_box {encode(SECRET)} {text(comment)}'
    for _ in range(count):
        public = PUBLIC[:10] + bytes(rng.choice((90, 90, 90, 91)) for _ in range(32))
        other = PUBLIC[:2] + bytes(8) + bytes(rng.choice((90, 90, 90, 91)) for _ in range(32))
        yield f'pk_eq {encode(rng.choice((public, PUBLIC)))} {encode(rng.choice((other, public, PUBLIC)))}'
        secret = bytearray(SECRET)
        secret[rng.randrange(158)] ^= 1 << rng.randrange(8)
        yield f'sk_eq {encode(SECRET)} {encode(bytes(secret))}'
        yield f'sk_from_bytes {encode(bytes(secret))}'
        yield f'pk_from_secret_key {encode(bytes(secret))}'


# ---- hashes, numbers, limits ------------------------------------------------------------------------


def hashes(rng, count):
    """Yields requests for BLAKE2b digests of each length, of data in one piece and in several."""
    for outlen in range(67):
        for length in (0, 1, 127, 128, 129, 255, 256, 257, 384):
            yield f'blake2b {outlen} - {encode(toy.some_data(length))}'
    data = toy.some_data(300)
    for cut in range(301):
        yield f'blake2b 64 {cut} {encode(data)}'
        yield f'blake2b 32 {cut},{300 - cut} {encode(data)}'
        yield f'blake2b 64 - {encode(data[:cut])}'
    for _ in range(count):
        length = rng.choice((rng.randrange(700), rng.randrange(4) * 128 + rng.randrange(-2, 3) % 700))
        body = bytes(rng.randrange(256) for _ in range(length))
        cuts = sorted(rng.randrange(length + 3) for _ in range(rng.randrange(1, 6)))
        yield f'blake2b {rng.randrange(1, 65)} {",".join(map(str, cuts))} {encode(body)}'


def numbers(rng, count):
    """Yields requests that encode and decode numbers, read the clock, and compare byte strings in constant time."""
    values = [0, 1, 255, 256, 65535, 2 ** 32 - 1, 2 ** 32, 2 ** 63, 2 ** 64 - 1]
    for value in values + [rng.randrange(2 ** 64) for _ in range(count)]:
        yield f'store_u64_le {value}'
        yield f'load_u64_le {encode(value.to_bytes(8, "little"))}'
        yield f'load_u64_le {encode(value.to_bytes(8, "little") + bytes(rng.randrange(3)))}'
    for length in range(10):
        yield f'load_u64_le {encode(bytes(range(length)))}'
    for time in (0, 1, -1, -10 ** 9, 1700000000, 2 ** 40):
        yield f'unix_timestamp {time}'
    for left in range(6):
        for right in range(6):
            yield f'fixed_time_eq {encode(bytes(range(left)))} {encode(bytes(range(right)))}'
    for _ in range(count):
        body = bytes(rng.randrange(256) for _ in range(rng.randrange(1, 70)))
        position = rng.randrange(len(body))
        other = body[:position] + bytes([body[position] ^ (1 << rng.randrange(8))]) + body[position + 1:]
        yield f'fixed_time_eq {encode(body)} {encode(rng.choice((body, other, body[:-1])))}'


def limits(rng, count):
    """Yields requests that derive the parameters of scrypt from the limits of a secret key."""
    edges = sorted({max(0, value + offset) for value in
                    [0, 1024, 2048, 16384, 32768, 1 << 20, 1 << 25, 1 << 30, 1 << 31, 1 << 40, 1 << 63]
                    for offset in (-1, 0, 1)} | {2 ** 64 - 1})
    for memlimit in edges:
        for opslimit in edges:
            for max_log_n in (0, 1, 14, 15, 20, 63, 255):
                yield f'raw_scrypt_params {memlimit} {opslimit} {max_log_n}'
    for _ in range(count):
        memlimit = rng.randrange(1 << rng.randrange(1, 65))
        opslimit = rng.randrange(1 << rng.randrange(1, 65))
        if rng.randrange(2):
            opslimit = max(0, min(2 ** 64 - 1, memlimit // 32 + rng.randrange(-2, 3)))
        yield f'raw_scrypt_params {memlimit} {opslimit} {rng.choice((20, 20, 63, rng.randrange(256)))}'


def derivations(rng, count):
    """Yields requests that run scrypt, with valid and invalid parameters."""
    for n_log2, r, p, length in [(4, 1, 1, 64), (1, 8, 1, 1), (1, 1, 1, 0), (2, 0, 1, 8), (2, 1, 0, 8),
                                 (16, 1, 1, 8), (64, 8, 1, 8), (3, 2, 2, 33), (15, 1, 1, 4),
                                 (1, 1 << 30, 1, 4), (1, 1 << 15, 1 << 15, 4), (63, 8, 1, 4)]:
        yield f'scrypt {n_log2} {r} {p} {length} x70 x73'
    for _ in range(count):
        password = bytes(rng.randrange(256) for _ in range(rng.choice((0, 1, 63, 64, 65, 100))))
        salt = bytes(rng.randrange(256) for _ in range(rng.choice((0, 1, 32, 55, 64, 119))))
        yield (f'scrypt {rng.randrange(1, 6)} {rng.randrange(1, 10)} {rng.randrange(1, 4)} '
               f'{rng.choice((1, 31, 32, 33, 64, 104))} {encode(password)} {encode(salt)}')


# ---- passwords and sealed keys ----------------------------------------------------------------------


def passwords(rng):
    """Yields requests that read a password which is typed at a prompt."""
    lines = [b'', b'p', b'a password', '\xe9\u3042'.encode(), b' p ', b'x' * 1023, b'x' * 1024, b'x' * 1025,
             b'x' * 1026, b'x' * 1027, b'x' * 3000, '\xe9'.encode() * 512, b'x' + '\xe9'.encode() * 512]
    for count in range(3):
        for chosen in itertools.product(lines, repeat=count):
            yield f'get_password {",".join(map(text, chosen)) or "-"}'


def sealed_keys(rng, count):
    """Yields requests that decrypt keys with small limits, with right and wrong passwords, and keys with very high limits."""
    for opslimit, memlimit in [(0, 0), (32768, 16384), (32768, 1 << 17), (40000, 1 << 21), (65536, 65536),
                               (1 << 17, 2048)]:
        for password in (b'', b'p', b'x' * 100, '\xe9'.encode()):
            body = secret_text(sealed_record(password, opslimit, memlimit))
            for passed_in in (b'', b'p', b'x' * 100, '\xe9'.encode()):
                yield f'sk_open {text(body)} {text(passed_in)} -'
            for typed in ('-', text(password), f'{text(password)},x71', 'x', 'x71', text(b'x' * 1025)):
                yield f'sk_open {text(body)} - {typed}'
                yield f'sk_open {text(body)} {text(password)} {typed}'
    record = sealed_record(b'p', 32768, 16384)
    for opslimit, memlimit in [(2 ** 64 - 1, 2048), (1 << 25, 1 << 31), (1 << 25, (1 << 30) + 1), (0, 2 ** 64 - 1),
                               (1 << 60, 1 << 20), (0, 1 << 32), (1 << 20, (1 << 32) + 2048)]:
        limited = record[:38] + opslimit.to_bytes(8, 'little') + memlimit.to_bytes(8, 'little') + record[54:]
        # With a very high opslimit and a small memlimit, p is about 2^27, and scrypt would take too long.
        if opslimit < 1 << 40 or memlimit > 1 << 30:
            yield f'sk_open {text(secret_text(limited))} x70 -'
            yield f'sk_open {text(secret_text(limited))} - x70'
    for _ in range(count):
        position = rng.randrange(158)
        if 38 <= position < 54:
            position = 53 + rng.randrange(1, 100)
        changed = record[:position] + bytes([record[position] ^ (1 << rng.randrange(8))]) + record[position + 1:]
        yield f'sk_open {text(secret_text(changed))} x70 -'
    usual = toy.sealed_text(b'p')
    yield f'sk_open {text(usual)} x70 -'
    yield f'sk_open {text(usual)} - x70'
    yield f'sk_open {text(usual)} - x71'


def file_requests():
    """Yields requests that read each of `files` as each kind of file, and paths that cannot be read."""
    for name in ['good.pub', 'good.minisig', 'sealed.key', 'plain.key', 'empty', 'not_utf8', 'one_line', 'absent',
                 '.', 'good.pub/below']:
        path = text(name.encode())
        yield f'pk_from_file {path}'
        yield f'sig_from_file {path}'
        yield f'sk_from_file {path} x70 -'
        yield f'sk_from_file {path} - x70'
        yield f'sk_from_file {path} - -'


# ---- key pairs --------------------------------------------------------------------------------------


def key_pairs(rng, count):
    """Yields requests that generate key pairs and write their files, with too few random bytes, failing writers, and passwords."""
    for length in range(75):
        yield f'gen_plain {encode(bytes(range(length)))}'
        yield f'gen_write_plain {encode(bytes(range(length)))} - -'
    for first in range(0, 256, 5):
        yield f'gen_plain c{first}'
    for capacity in list(range(45)) + [157, 158, 159]:
        yield f'gen_write_plain c7 {capacity} -'
        yield f'gen_write_plain c7 - {capacity}'
        yield f'gen_write_plain c7 f{capacity} -'
        yield f'gen_write_plain c7 - f{capacity}'
    for capacity in range(45, 158, 7):
        yield f'gen_write_plain c7 - {capacity}'
    for left, right in itertools.product(('-', 'f', '0', 'f0', '42', 'f42', '158', 'f158'), repeat=2):
        yield f'gen_write_plain c9 {left} {right}'
    for length in (0, 31, 32, 39, 40, 71, 72, 73):
        yield f'gen_sealed {encode(bytes(range(length)))} x70 -'
    for typed in ('-', 'x', 'x,x', 'x70', 'x70,x70', 'x70,x71', 'x,x70', 'x70,x70,x71', text(b'x' * 1025),
                  f'x70,{text(b"x" * 1027)}', f'{text(b"x" * 1026)},x70', f'{text(b"x" * 1024)},{text(b"x" * 1024)}'):
        yield f'gen_sealed c1 - {typed}'
        yield f'gen_sealed c1 x70 {typed}'
        yield f'gen_write_sealed c1 - - - - {typed}'
    for comment in ('-', 'x', 'x63', text('\xe9'.encode()), text(b'two\nlines')):
        yield f'gen_write_sealed c2 - - {comment} x70 -'
    for left, right in [('0', '-'), ('-', '0'), ('f', '-'), ('-', 'f'), ('50', '-'), ('-', '50'), ('113', '-'),
                        ('114', '-'), ('f114', '-'), ('-', '259'), ('-', '260'), ('40', '40'), ('f40', 'f')]:
        yield f'gen_write_sealed c3 {left} {right} x63 x70 -'
    for _ in range(count):
        body = bytes(rng.randrange(256) for _ in range(rng.choice((40, 71, 72, 80))))
        yield f'gen_plain {encode(body)}'
        yield f'gen_write_plain {encode(body)} {rng.choice(("-", rng.randrange(50)))} {rng.choice(("-", rng.randrange(170)))}'


# ---- signing and verifying --------------------------------------------------------------------------


def data_word(rng, body, legacy=False, output=True):
    """Encodes data for a request. At random, reading starts at another position, each read returns few bytes, or a read fails. With
    `output`, the data may also be different when it is read the second time, to be copied to the output."""
    parts = []
    if rng.randrange(4) == 0:
        parts.append(f'pos={rng.choice((0, 1, len(body), len(body) + 1, rng.randrange(len(body) + 2)))}')
    if rng.randrange(3) == 0:
        parts.append(f'chunk={rng.choice((1, 2, 3, 7, 64, 1000))}')
    if rng.randrange(4) == 0:
        parts.append(f'fail={1 if legacy else rng.choice((1, 1, 2, 3, 4, 5, 8, 20))}')
    if output and rng.randrange(4) == 0:
        parts.append(f'second={encode(rng.choice((body, body[:-1], body + b"x", b"", b"z" * len(body))))}')
    return ','.join([encode(body)] + parts)


def signings(rng, count):
    """Yields requests that sign data."""
    # No public key, that of the secret key, another key with the same key ID, and the same key with another key ID.
    keys = ['-', encode(PUBLIC), encode(PUBLIC[:10] + bytes(32)), encode(PUBLIC[:2] + bytes(8) + PUBLIC[10:])]
    comments = ['-', 'x', 'x74', text('\xe9\u3042'.encode()), text(b' t '), text(b't\nu'), text(b'x' * 500)]
    for key, trusted, untrusted in itertools.product(keys, comments, comments):
        yield f'sign {key} {encode(SECRET)} x616263 {trusted} {untrusted} c0 1700000000'
    for length in range(132):
        yield f'sign - {encode(SECRET)} x616263 - - {encode(bytes(range(length)))} 0'
    for length in range(0, 43):
        yield f'sign {encode(PUBLIC[:length])} {encode(SECRET)} x - - c0 0'
    for length in range(150, 160):
        yield f'sign - {encode((SECRET + b"xy")[:length])} x - - c0 0'
    for time in (0, 1, 9999999999, 2 ** 62):
        yield f'sign - {encode(SECRET)} x - - c0 {time}'
    sealed = SECRET[:2] + b'Sc' + SECRET[4:]
    for secret in (sealed, sealed[:-1] + b'\0', SECRET[:2] + b'xx' + SECRET[4:], SECRET[:-1] + b'\0'):
        yield f'sign - {encode(secret)} x616263 - - c0 0'
    for _ in range(count):
        body = toy.some_data(rng.choice((0, 1, 3, 127, 128, 129, 256, rng.randrange(600))))
        changed = bytearray(SECRET)
        if rng.randrange(4) == 0:
            changed[rng.randrange(158)] ^= 1 << rng.randrange(8)
        yield (f'sign {rng.choice(keys)} {encode(bytes(changed))} {data_word(rng, body, output=False)} '
               f'{rng.choice(comments)} {rng.choice(comments)} c{rng.randrange(256)} {rng.randrange(2 ** 40)}')


def all_flags():
    """Returns all values of the last three arguments of `verify`: quiet, output and legacy."""
    return [' '.join(flags) for flags in itertools.product('01', repeat=3)]


def verifications(rng, count):
    """Yields requests that verify data with valid and invalid signatures. A signature is a signature file, or with the prefix
    `bones:` a record without comments."""
    signature = toy.signature_record(b'abc')
    legacy = toy.signature_record(b'abc', algorithm=b'Ed')
    other = b'ED' + toy.OTHER_KEYNUM + signature[10:]
    wrong = signature[:-1] + bytes([signature[-1] ^ 1])
    keys = [PUBLIC, PUBLIC[:10] + bytes(32), PUBLIC[:2] + bytes(8) + PUBLIC[10:], b'xx' + PUBLIC[2:], PUBLIC[:41]]
    boxes = []
    for record in (signature, legacy, other, wrong):
        boxes.append('bones:' + encode(record))
        boxes.append(text(toy.signature_text(b'abc', record=record)))
        boxes.append(text(toy.signature_text(b'abc', record=record, trusted=b'', untrusted=b'')))
        boxes.append(text(toy.signature_text(b'abc', record=record, comment_signature=bytes(64))))
    for key, box, data, flags in itertools.product(keys, boxes, (b'abc', b'abd', b''), all_flags()):
        yield f'verify {encode(key)} {box} {encode(data)} {flags}'
    for length in range(0, 80):
        global_signature = (toy.signature_of(signature[10:] + b't') + b'extra bytes here')[:length]
        box = toy.signature_text(b'abc', comment_signature=global_signature or b'\0')
        if not length:
            lines = box.split(b'\n')
            box = b'\n'.join(lines[:3] + [b'', b''])
        for flags in ('0 0 0', '1 1 1'):
            yield f'verify {encode(PUBLIC)} {text(box)} x616263 {flags}'
    for chunk in (1, 2, 3, 4):
        for fail in range(12):
            for flags in ('0 1 0', '1 0 0', '1 1 0'):
                part = f',fail={fail}' if fail else ''
                yield f'verify {encode(PUBLIC)} {boxes[1]} x616263,chunk={chunk}{part} {flags}'
                yield f'verify {encode(PUBLIC)} {boxes[1]} x7878616263,pos=2,chunk={chunk}{part} {flags}'
    key_text = text(toy.public_text())
    for flags in all_flags():
        for box in boxes:
            yield f'verify_texts {key_text} {box} x616263 {flags}'
    for _ in range(count):
        body = toy.some_data(rng.choice((0, 1, 3, 127, 128, 129, 256, rng.randrange(600))))
        is_legacy = rng.randrange(3) == 0
        word = data_word(rng, body, is_legacy)
        start = next((int(part[4:]) for part in word.split(',') if part.startswith('pos=')), 0)
        trusted = rng.choice((b't', b'', b'timestamp:1', '\xe9'.encode(), b'x' * 200))
        record = toy.signature_record(body[start:], algorithm=b'Ed' if is_legacy else b'ED')
        if rng.randrange(4) == 0:
            position = rng.randrange(2, 74)
            record = record[:position] + bytes([record[position] ^ (1 << rng.randrange(8))]) + record[position + 1:]
        box = toy.signature_text(body, record=record, trusted=trusted)
        sig = rng.choice((text(box), text(box), 'bones:' + encode(record)))
        flags = ' '.join(str(rng.randrange(2)) for _ in range(3))
        if rng.randrange(2):
            yield f'verify {encode(PUBLIC)} {sig} {word} {flags}'
        else:
            yield f'verify_texts {key_text} {sig} {word} {flags}'


def large_data():
    """Yields requests that verify and sign data of 64 KiB and more."""
    for length in (65535, 65536, 65537, 131072, 200000):
        body = toy.some_data(length)
        for algorithm in (b'ED', b'Ed'):
            sig = toy.signature_text(body, record=toy.signature_record(body, algorithm=algorithm))
            for flags in ('0 1 1', '1 0 1'):
                yield f'verify {encode(PUBLIC)} {text(sig)} {encode(body)} {flags}'
        yield f'sign {encode(PUBLIC)} {encode(SECRET)} {encode(body)} x74 x63 c0 0'


def tables(rng):
    """Yields requests that fill, use and clear the table of signatures that the toy scheme accepts besides its own."""
    public = bytes(rng.randrange(256) for _ in range(32))
    record = b'ED' + KEYNUM + bytes(rng.randrange(256) for _ in range(64))
    comment_signature = bytes(rng.randrange(256) for _ in range(64))
    box = toy.signature_text(b'abc', record=record, comment_signature=comment_signature)
    verify = f'verify {encode(b"Ed" + KEYNUM + public)} {text(box)} x616263 0 0 0'
    yield verify
    yield f'table_add {encode(toy.digest(b"abc"))} {encode(public)} {encode(record[10:])}'
    yield verify
    yield f'table_add {encode(record[10:] + b"t")} {encode(public)} {encode(comment_signature)}'
    yield verify
    yield f'sign {encode(b"Ed" + KEYNUM + public)} {encode(SECRET)} x616263 x74 - c0 0'
    yield 'table_clear'
    yield verify


def all_requests(seed, count):
    """Yields all requests except those of `tables`. `count` scales the number of random requests of each kind."""
    rng = random.Random(seed)
    yield from public_key_texts(rng)
    yield from signature_texts(rng)
    yield from secret_key_texts(rng)
    yield from damaged_texts(rng, 6 * count)
    yield from records(rng, count // 2)
    yield from hashes(rng, count)
    yield from numbers(rng, count // 4)
    yield from limits(rng, 2 * count)
    yield from derivations(rng, count // 8)
    yield from passwords(rng)
    yield from sealed_keys(rng, count // 8)
    yield from file_requests()
    yield from key_pairs(rng, count // 2)
    yield from signings(rng, 2 * count)
    yield from verifications(rng, 4 * count)
    yield from large_data()
