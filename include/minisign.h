/*
 * minisign.h: verify and create Minisign signatures with the Ed25519 implementation of your choice.
 *
 * SPDX-License-Identifier: MIT
 *
 * The library does everything except Ed25519. It reads keys and signature files, hashes the data, and tells you which
 * two signatures to check, or which two messages to sign. You do that with an Ed25519 library that you trust, such as
 * libsodium, and pass the results back. Then the library tells you if the signature file is valid, or writes a new
 * one.
 *
 * The calls are declared in the order in which you use them. To verify a file:
 *
 * - Read the public key with minisign_read_public_key or minisign_read_bare_public_key, and the signature file with
 *   minisign_read_signature.
 * - Initialize a state with minisign_init, and pass it to minisign_ask with the key and the signature. minisign_ask
 *   rejects a signature that cannot be valid for this key, and returns the two signatures that you have to check. The
 *   header calls these two checks questions, and their results answers.
 * - Pass the data to minisign_update, in pieces of any length. Then pass the field digest of the questions to
 *   minisign_digest, which writes the digest of the data there.
 * - Check both signatures with Ed25519, and pass the two results to minisign_verdict.
 *
 * To sign a file:
 *
 * - Read the secret key with minisign_read_secret_key. Then open it, which decrypts it if necessary and checks its
 *   checksum: use minisign_open_sealed_key if the key is sealed (encrypted with a password), otherwise
 *   minisign_open_unsealed_key.
 * - Hash the data with minisign_init, minisign_update and minisign_digest. Sign the digest with Ed25519 and the field
 *   `secret` of the opened key.
 * - Write that signature and the trusted comment into one message with minisign_comment_message. Sign this message
 *   too.
 * - Verify both signatures before you publish them: see minisign_open_unsealed_key.
 * - Write the signature file with minisign_signed_text.
 *
 * minisign_stream.h wraps these calls: there it takes three calls to verify or to sign a file. minisign_install.h
 * installs updates. The manual page minisign(3) has two complete programs that use this header and libsodium; in the
 * sources they are c/examples/verify.c and c/examples/sign.c.
 *
 * Compile and link with the flags that `pkg-config --cflags --libs minisign` prints. These flags are all that you
 * need. "Since" names the version in which a call got its present form. Before 1.0 the name of the shared library
 * contains the minor version, as in libminisign.so.0.3, so a program that was built with another minor version does
 * not load it.
 *
 * Machine-checked proofs show, if the caller meets the "Requirements" below, what each call returns and writes, and
 * what the calls achieve in sequence, to verify or to sign. The contracts in crates/minisign_c/src/lib.rt of the
 * sources state the first, and sequences.rt in the same directory states the second. Only tests show that memory from
 * malloc is cleared before it is freed; that no secret stays on the stack or in registers; that MINISIGN_TEXT_BYTES is
 * large enough; that the C code between the calls of this header and the proved calls, and between the proved calls
 * and malloc, works (boundary.c, allocation.c and clearing.c in c/library); and that this header describes the
 * contracts correctly.
 *
 * For Linux, the proved calls are compiled to archives of machine code: one for AArch64, and two for x86-64, of which
 * one is for processors with AVX2 (x86-64-v3) and one for older processors back to 2009 (x86-64-v2). For every other
 * system or processor, including those with 32-bit pointers and x86-64 processors that are older still, a script has
 * translated the same proved calls to C code. On Linux with x86-64 the library contains both archives and the C code,
 * and selects one of the three when it is loaded. z3 proves that the script translates each instruction correctly; the
 * rest of the script is tested.
 */
#ifndef MINISIGN_H
#define MINISIGN_H

#include <stddef.h>
#include <stdint.h>

/* The version of this header. minisign_version returns the version of the library. */
#define MINISIGN_VERSION_MAJOR 0
#define MINISIGN_VERSION_MINOR 3
#define MINISIGN_VERSION_PATCH 0
#define MINISIGN_VERSION_TEXT "0.3.0"
#define MINISIGN_VERSION \
    ((uint32_t) MINISIGN_VERSION_MAJOR << 16 | (uint32_t) MINISIGN_VERSION_MINOR << 8 \
     | (uint32_t) MINISIGN_VERSION_PATCH)

/* Marks a call whose result must be checked. The compiler warns if you ignore it. */
#if defined(__cplusplus) && __cplusplus >= 201703L
#define MINISIGN_MUST_USE [[nodiscard]]
#elif defined(__GNUC__)
#define MINISIGN_MUST_USE __attribute__((warn_unused_result))
#else
#define MINISIGN_MUST_USE
#endif

#ifdef MINISIGN_READ_ROLES
    /* The roles of parameters and fields, for the scripts that generate the bindings from this header
     * (tools/c_header.py). Otherwise MINISIGN_ROLE is empty. */
#define MINISIGN_ROLE(role) __attribute__((__annotate__("role", #role)))
#else
#define MINISIGN_ROLE(role)
#endif

#ifdef __cplusplus
extern "C" {
#endif

/*
 * Requirements, and what the library does with memory, threads and secrets. The library cannot check the requirements.
 * If you break one, it guarantees nothing.
 *
 * - Pointers. A pointer that is followed by a length points to that many elements, at most 2^63 - 1 bytes in total.
 *   They must be readable, and also writable unless the pointer is to const. If the length is 0, the pointer may be
 *   NULL. No other pointer may be NULL: a pointer to a struct points to one struct, aligned as your compiler aligns
 *   it, and a pointer that is declared as an array points to all its elements. A call that writes to the start of a
 *   buffer leaves the rest of the buffer unchanged. gcc warns if it sees that a length is greater than the buffer, and
 *   gcc and clang warn about NULL where it is not allowed.
 * - Overlap and threads. What a call may write to must not overlap anything else that you pass to it. Until the call
 *   returns, no other thread may change what you passed to it, or use what the call may write to. Different threads
 *   may use different states at the same time. When it is loaded, the library records what the processor supports.
 *   After that it changes no global variable.
 * - Memory. You allocate all structs and buffers. The library keeps no pointer after a call has returned. (The inline
 *   functions of minisign_stream.h do: see there.) Before a call returns, it clears and frees the memory that it got
 *   from malloc. A program that replaces malloc must also replace free, and malloc must align a block of n bytes to
 *   every power of two up to 16 that divides n. Verifying does not allocate. The calls that allocate are
 *   minisign_open_sealed_key, minisign_signed_text, minisign_secret_key_text,
 *   minisign_secret_key_text_with_any_limits, minisign_public_key_text, minisign_encode_public_key and
 *   minisign_encode_unopened_key. Do not use them in a signal handler, or in the child of a process with several
 *   threads after fork.
 * - The thread of scrypt. When you open a sealed key or write one, scrypt runs. Meanwhile the library uses a second
 *   thread, which makes the system provide the memory pages before scrypt needs them. This thread blocks all signals
 *   and has ended when the call returns. If no thread can be created, or the library was built with
 *   -DMINISIGN_NO_THREADS, the call takes a little longer. minisign_open_sealed_key_in_place uses your memory and
 *   creates no thread.
 * - No secret stays behind. A call that gets a secret key, a secret key file or a password clears three things before
 *   it returns: the memory that it got from malloc, the caller-saved registers, and the 16 KiB of the stack below its
 *   own frame. The calls use less than these 16 KiB: the archives less than 8 KiB, and the C code that replaces them
 *   less than 14 KiB. Provide 20 KiB of stack for these calls: 16 KiB that they clear, and 4 KiB for the frames above.
 *   They do not clear what you hold: passwords, key files, and each minisign_unopened_key and minisign_secret_key. If
 *   a signal handler runs on another stack (sigaltstack), the system saves registers there, which the library cannot
 *   clear. Registers are cleared on x86-64 and AArch64 with ELF, and under Linux on s390x, 32-bit ARM and 64-bit
 *   RISC-V. Elsewhere only memory and stack are cleared. tests/c/cleared_secrets.py tests this on x86-64 and AArch64, with
 *   glibc and with musl, with the archives and with the C code, compiled with -O0 and -O2. It generates keys, opens
 *   them and signs with them, also with a wrong checksum and while signals arrive. Then it searches all writable
 *   memory and all registers for the first half of the secret key and for its first 16 bytes, for the base64 of the
 *   key, for the password, and for what scrypt derives from it.
 * - Opaque bytes. Only the library may write these: the bytes of a state, which minisign_init writes first; the bytes
 *   of a minisign_signature; the mark of a key; and the field `bytes` of a minisign_unopened_key. You may copy these
 *   structs by assignment or memcpy. For example, copy a state to continue twice from the same point. Set keys and
 *   signatures to zeros before their first use, so that the library detects one that was never read. Clear secret
 *   keys, unopened or open, after their last use. A state need not be cleared unless the data is secret: it holds up
 *   to the last 256 bytes of the data. minisign_clear sets any value to zeros.
 * - Answers. The results that you pass to the library must be those of an Ed25519 implementation for exactly the two
 *   signatures that the library asked you to check.
 * - Ed25519. Three kinds of input must be rejected, even if the equation of Ed25519 holds for them. First, a public
 *   key, or the point R in the first 32 bytes of a signature, that has small order (1, 2, 4 or 8). Second, a public
 *   key or R that is not canonically encoded: its y coordinate is not below 2^255 - 19, or x is 0 and its sign bit is
 *   set. Third, a number S in the last 32 bytes of a signature that is not below the group order, 2^252 +
 *   27742317777372353535851937790883648493. minisign_ask rejects all three kinds, and so does
 *   crypto_sign_verify_detached of libsodium. minisign_install_question rejects none of them, so there your Ed25519
 *   implementation must. If small orders were accepted, anybody could forge signatures under such a key: with OpenSSL
 *   3.0, 64 zero bytes are a valid signature of one message in four under a public key of 32 zero bytes, which
 *   minisign_read_bare_public_key reads from 56 letters A. If a larger S were accepted, anybody could change a valid
 *   signature into another valid one. Because of the checks in minisign_ask, all Ed25519 implementations that check
 *   the equation without the cofactor give the same verdict.
 *
 * API misuse that the library can detect returns an error and changes nothing:
 *
 * - a state that was not initialized: its first eight bytes are not those that minisign_init writes;
 * - minisign_update, minisign_digest or minisign_ask after minisign_digest;
 * - minisign_ask for the second time, or with a signature that was not read, or was read from another file;
 * - a public key that was not read;
 * - minisign_verdict before minisign_ask or before minisign_digest, and minisign_bare_verdict before minisign_ask_bare or
 *   before minisign_digest;
 * - opening a secret key that was not read, or writing a key file from a secret key that was not opened.
 */

/* Returns the version of the library, encoded as MINISIGN_VERSION is. Since 0.1. */
uint32_t minisign_version(void);

/* Error numbers. No call returns a number that is not listed here. Later versions may add numbers anywhere, so do not
 * decide by ranges. minisign_error_kind returns the kind of an error, for example MINISIGN_KIND_MISUSE. "Encrypted"
 * means the same here as "sealed" in the names of calls. In MINISIGN_RECORD_TOO_SHORT, a record is a decoded key or
 * signature; everywhere else it is the version record of minisign_install.h. */
/* Numbers, made by tools/header.py. */
enum minisign_error {
    MINISIGN_OK = 0,
    /* The state is not initialized, or its verdict was already returned. */
    MINISIGN_NOT_BEGUN = 1,
    /* minisign_ask, minisign_ask_bare or minisign_digest was already called. */
    MINISIGN_ALREADY_ASKED = 2,
    /* minisign_ask, minisign_ask_bare or minisign_digest was not called yet. */
    MINISIGN_NOT_ASKED = 3,
    /* The result of an Ed25519 check is neither MINISIGN_ANSWER_YES nor MINISIGN_ANSWER_NO. */
    MINISIGN_BAD_ANSWER = 4,
    /* A buffer that was passed is too small. */
    MINISIGN_NO_ROOM = 5,
    /* The parameter allow_legacy is neither 0 nor 1. */
    MINISIGN_BAD_LEGACY_FLAG = 6,
    /* An allocation failed, or the requested size is too large for any allocation. */
    MINISIGN_OUT_OF_MEMORY = 7,
    /* The input is not UTF-8: a file, a typed line, a password, a comment or a name. */
    MINISIGN_NOT_UTF8 = 8,
    /* A comment would change when it is read back, because it contains a line feed, or begins or ends with white
     * space. */
    MINISIGN_BAD_COMMENT = 9,
    /* The parameter with_password is not 0, 1 or 2. */
    MINISIGN_BAD_PASSWORD_FLAG = 10,
    /* Minisign would not read a comment back, because it is too long, or contains a zero byte or a carriage
     * return. */
    MINISIGN_UNREADABLE_COMMENT = 11,
    /* The installation expects a different call now, or no operation can fail with the error that was reported. */
    MINISIGN_NOT_DUE = 12,
    /* An option of an installation other than numbering and long_digest is neither 0 nor 1, or two options must not
     * be combined. */
    MINISIGN_BAD_OPTION = 13,
    /* The option numbering is neither MINISIGN_NUMBERING_TIMESTAMP nor MINISIGN_NUMBERING_VERSION. */
    MINISIGN_BAD_NUMBERING = 14,
    /* The secret key was neither opened nor set by minisign_take_secret_key. */
    MINISIGN_KEY_NOT_OPENED = 15,
    /* The public key file has no comment line. */
    MINISIGN_MISSING_PUBLIC_KEY_COMMENT = 16,
    /* The public key file has no key line. */
    MINISIGN_MISSING_PUBLIC_KEY = 17,
    /* The second line of the public key file is not 56 bytes long. */
    MINISIGN_PUBLIC_KEY_LENGTH = 18,
    /* The second line of the public key file is not base64. */
    MINISIGN_PUBLIC_KEY_NOT_BASE64 = 19,
    /* A decoded key or signature has too few bytes. */
    MINISIGN_RECORD_TOO_SHORT = 20,
    /* The signature file has no untrusted comment line. */
    MINISIGN_MISSING_UNTRUSTED_COMMENT = 21,
    /* The signature file has no signature line. */
    MINISIGN_MISSING_SIGNATURE = 22,
    /* The signature file has no trusted comment line. */
    MINISIGN_MISSING_TRUSTED_COMMENT = 23,
    /* The signature file has no comment signature line. */
    MINISIGN_MISSING_COMMENT_SIGNATURE = 24,
    /* The first line of the signature file does not begin with "untrusted comment: ". */
    MINISIGN_UNTRUSTED_COMMENT_PREFIX = 25,
    /* A line of the signature file is not base64. */
    MINISIGN_SIGNATURE_NOT_BASE64 = 26,
    /* The third line of the signature file does not begin with "trusted comment: ". */
    MINISIGN_TRUSTED_COMMENT_PREFIX = 27,
    /* The algorithm of the signature is neither Ed nor ED. */
    MINISIGN_UNSUPPORTED_ALGORITHM = 28,
    /* The signature was made with a key that has another key ID. */
    MINISIGN_DIFFERENT_KEY_IDS = 29,
    /* The signature is a legacy one, and only prehashed ones are allowed. */
    MINISIGN_LEGACY_NOT_ACCEPTED = 30,
    /* The signature of the data is not valid. */
    MINISIGN_SIGNATURE_REFUSED = 31,
    /* The comment signature is too short or not valid. */
    MINISIGN_COMMENT_SIGNATURE_REFUSED = 32,
    /* The secret key file has no comment line. */
    MINISIGN_MISSING_SECRET_KEY_COMMENT = 33,
    /* The secret key file has no key line. */
    MINISIGN_MISSING_SECRET_KEY = 34,
    /* The second line of the secret key file is not base64. */
    MINISIGN_SECRET_KEY_NOT_BASE64 = 35,
    /* The key was to be opened without a password, but it names a key derivation, so it may be encrypted. */
    MINISIGN_KEY_SEALED = 36,
    /* The checksum of an unencrypted secret key does not match. */
    MINISIGN_KEY_CORRUPTED = 37,
    /* The key was to be opened with a password, but it names no key derivation, so it is not encrypted. */
    MINISIGN_KEY_NOT_SEALED = 38,
    /* An encrypted key names a key derivation other than Sc, which is scrypt. */
    MINISIGN_UNSUPPORTED_KEY_DERIVATION = 39,
    /* The memory limit of an encrypted key is above 2^30 bytes, or its limits give scrypt more than 2^20 rows. */
    MINISIGN_PARAMETERS_TOO_HIGH = 40,
    /* The limits of an encrypted key give parameters that scrypt rejects. */
    MINISIGN_INVALID_PARAMETERS = 41,
    /* The checksum does not match after decryption, so the password is probably wrong. */
    MINISIGN_WRONG_PASSWORD = 42,
    /* Decrypting the key takes more rows of scrypt than the caller allows. */
    MINISIGN_WORK_TOO_HIGH = 43,
    /* A bare base64 public key is not 56 bytes long. */
    MINISIGN_BARE_PUBLIC_KEY_LENGTH = 44,
    /* A bare public key is not base64. */
    MINISIGN_BARE_PUBLIC_KEY_NOT_BASE64 = 45,
    /* Another installation holds the lock on this target. */
    MINISIGN_TARGET_IN_USE = 46,
    /* No version is recorded for this target, and is_first is not set. */
    MINISIGN_NO_RECORD = 47,
    /* The version record of this target contains no version number, and is_first is not set. */
    MINISIGN_DAMAGED_RECORD = 48,
    /* The trusted comment does not name the file that the caller expects. */
    MINISIGN_OTHER_FILE = 49,
    /* The trusted comment lacks the field that was chosen for the version number, or the value of the first such
     * field is not a decimal number below 2^64. */
    MINISIGN_NO_NUMBER = 50,
    /* The version number of the update is below the recorded one, and roll_back is not set. */
    MINISIGN_OLDER_UPDATE = 51,
    /* The update is installed but could not be synced, so a crash may bring back the previous file. */
    MINISIGN_DIRECTORY_NOT_SYNCED = 52,
    /* The version record holds a timestamp and not a version, and is_first is not set. */
    MINISIGN_KEPT_BY_TIMESTAMP = 53,
    /* The version record holds a version and not a timestamp, and is_first is not set. */
    MINISIGN_KEPT_BY_VERSION = 54,
    /* The update has expired at the time that the caller passes. */
    MINISIGN_EXPIRED = 55,
    /* The trusted comment has more than one field "expires:", or its value is not a decimal number below 2^64. */
    MINISIGN_BAD_EXPIRY = 56,
    /* This version is already recorded, but the installed file is different, and again is not set. */
    MINISIGN_SAME_NUMBER = 57,
    /* The trusted comment has no field "expires:", and must_expire is set. */
    MINISIGN_NO_EXPIRY = 58,
    /* The trusted comment has more than one field "size:", or its value is not a decimal number below 2^64. */
    MINISIGN_BAD_SIZE = 59,
    /* The data is longer or shorter than the field "size:" of the trusted comment says. */
    MINISIGN_OTHER_SIZE = 60,
    /* The signature was read from a different signature file than the one that was passed with it. */
    MINISIGN_OTHER_SIGNATURE_TEXT = 61,
    /* No signature was read into the struct, or only a bare signature, which lacks the comments that the call
     * needs. */
    MINISIGN_SIGNATURE_NOT_READ = 62,
    /* No secret key was read into the struct. */
    MINISIGN_KEY_NOT_READ = 63,
    /* Reading from a source, a file or a prompt failed. */
    MINISIGN_READING_FAILED = 64,
    /* Writing to a sink or a prompt, or flushing it, failed. */
    MINISIGN_WRITING_FAILED = 65,
    /* A random source failed or had too few bytes. */
    MINISIGN_RANDOM_SOURCE_FAILED = 67,
    /* The public key or a signature is one that strict Ed25519 rejects: a point has a small order or is not
     * canonical, or the second half of a signature is not below the group order. */
    MINISIGN_WEAK_ED25519 = 81,
    /* No public key was read into the struct. */
    MINISIGN_PUBLIC_KEY_NOT_READ = 82,
    /* The password is empty, and with_password does not allow an empty one. */
    MINISIGN_EMPTY_PASSWORD = 83,
    /* The salt is all zeros, or a scrypt limit is below the minimum of Minisign. */
    MINISIGN_WEAK_SEALING = 84,
    /* The list was not verified. */
    MINISIGN_LIST_NOT_VERIFIED = 85,
    /* The text is not the list that was verified. */
    MINISIGN_OTHER_LIST_TEXT = 86,
    /* The hash function, or the length of its digest, is not one that this call accepts. */
    MINISIGN_BAD_HASH = 87,
    /* The entry was not read from a list. */
    MINISIGN_ENTRY_NOT_READ = 88,
    /* The trusted comment does not name the list. */
    MINISIGN_OTHER_LIST = 89,
    /* No list can contain the name. */
    MINISIGN_BAD_NAME = 90,
    /* A line of the list is malformed. */
    MINISIGN_MALFORMED_LINE = 91,
    /* No line of the list has the name. */
    MINISIGN_NOT_LISTED = 92,
    /* Two lines of the list have the name. */
    MINISIGN_LISTED_TWICE = 93,
    /* The data does not have the listed digest. */
    MINISIGN_DIGEST_MISMATCH = 94
};
/* The end of the numbers. */

/* A buffer size that is large enough for the text of every error. */
#define MINISIGN_ERROR_TEXT_BYTES 128

/* Writes the English text of an error to the buffer text. room is the size of the buffer in bytes. The text is meant
 * for people. It ends with a 0 byte, and is cut if the buffer is too short. If room is 0, nothing is written. The text
 * of MINISIGN_OK is "no error", and that of a number without a meaning is "unknown error". Returns the length of the
 * whole text without the 0 byte, as snprintf does. Since 0.1. */
size_t minisign_error_text(uint32_t error, char *text MINISIGN_ROLE(room ERROR_TEXT_BYTES), size_t room);

/* The kind of an error: a coarse class, for programs that treat many errors alike. API misuse and 0 have kinds of their
 * own. The other kinds are those of the Rust crate minisign, which files every text that has the wrong form under
 * MINISIGN_KIND_IO. */
/* Kinds, made by tools/header.py. */
enum minisign_kind {
    /* The number is 0, or it has no meaning in this header. */
    MINISIGN_KIND_NONE = 0,
    /* API misuse. */
    MINISIGN_KIND_MISUSE = 1,
    /* Generating keys failed. */
    MINISIGN_KIND_GENERATE = 2,
    /* Signing failed. */
    MINISIGN_KIND_SIGN = 3,
    /* Verifying a signature or a checksum failed. */
    MINISIGN_KIND_VERIFY = 4,
    /* Reading or writing failed, or a key file or signature file has the wrong format. */
    MINISIGN_KIND_IO = 5,
    /* Any other error. */
    MINISIGN_KIND_MISC = 6,
    /* Hashing failed. */
    MINISIGN_KIND_HASH = 7,
    /* Deriving a key from a password failed. */
    MINISIGN_KIND_KDF = 8,
    /* Generating random bytes failed. */
    MINISIGN_KIND_RNG = 9,
    /* A secret key file is not base64. */
    MINISIGN_KIND_ENCODING = 10,
    /* A secret key is encrypted, but the call needs a decrypted one. */
    MINISIGN_KIND_ENCRYPTED_KEY = 11,
    /* An allocation failed. */
    MINISIGN_KIND_OUT_OF_MEMORY = 12
};
/* The end of the kinds. */

/* Returns the kind of an error. Errors that only the calls of minisign_install.h return have MINISIGN_KIND_NONE. Does not
 * allocate. Since 0.3. */
enum minisign_kind minisign_error_kind(uint32_t error);

/* The state of verifying or signing one file. You allocate it. Only the library writes its bytes. */
typedef struct minisign_state {
    uint64_t opaque[64];
} minisign_state;

/* Initializes a state for new data. What the state held before is overwritten. Does not allocate. Since 0.1. */
void minisign_init(minisign_state *state MINISIGN_ROLE(output));

/* Hashes the next len bytes of the data. A piece may have any length; 64 KiB and more are fastest. Does not allocate.
 * The errors, after which the state is unchanged: MINISIGN_NOT_BEGUN; MINISIGN_ALREADY_ASKED, after minisign_digest.
 * Since 0.1. */
MINISIGN_MUST_USE enum minisign_error minisign_update(minisign_state *state, const uint8_t *data, size_t len);

/* Writes the Blake2b-512 digest of all data that was fed to the state. It is the first message to sign. It is also the
 * message of the first check, unless the signature is a legacy one, which is over the data itself. minisign_verdict
 * needs this call in both cases. The state then takes no more data. Does not allocate. The errors, after which the
 * state and the digest are unchanged: MINISIGN_NOT_BEGUN; MINISIGN_ALREADY_ASKED, after minisign_digest. Since 0.2. */
MINISIGN_MUST_USE enum minisign_error minisign_digest(minisign_state *state, uint8_t digest[64]);

/* ---- Verifying ---- */

/* A public key that was read, or written by minisign_public_key_of. Only the library sets mark. Every call that takes
 * a public key returns MINISIGN_PUBLIC_KEY_NOT_READ if the mark is missing. So if reading a key fails and the error
 * is ignored, a key of zeros is not used by mistake. */
typedef struct minisign_public_key {
    uint64_t mark;
    uint8_t key[32];
    uint8_t key_id[8]; /* Minisign displays these bytes as one little-endian number */
} minisign_public_key;

/* Overwrites size bytes with zeros, for example a key or a password that is no longer needed. Since 0.3. */
void minisign_clear(void *value, size_t size);

/*
 * Reads a public key: minisign_read_public_key from both lines of a file such as minisign.pub, and
 * minisign_read_bare_public_key only from its base64, the 56 characters of the second line, as `minisign -P` accepts
 * them. The two bytes in the key that name its algorithm are not checked. Neither call allocates.
 *
 * After an error the key is unchanged. The errors, in this order: MINISIGN_NOT_UTF8; for minisign_read_public_key
 * MINISIGN_MISSING_PUBLIC_KEY_COMMENT, MINISIGN_MISSING_PUBLIC_KEY, MINISIGN_PUBLIC_KEY_LENGTH,
 * MINISIGN_PUBLIC_KEY_NOT_BASE64, MINISIGN_RECORD_TOO_SHORT; for minisign_read_bare_public_key
 * MINISIGN_BARE_PUBLIC_KEY_LENGTH, MINISIGN_BARE_PUBLIC_KEY_NOT_BASE64, MINISIGN_RECORD_TOO_SHORT. Since 0.2.
 */
MINISIGN_MUST_USE enum minisign_error minisign_read_public_key(
    const uint8_t *pk_text, size_t pk_text_len, minisign_public_key *key MINISIGN_ROLE(output));
MINISIGN_MUST_USE enum minisign_error minisign_read_bare_public_key(
    const uint8_t *base64, size_t base64_len, minisign_public_key *key MINISIGN_ROLE(output));

/* The sizes of records: a record is what the base64 in a file encodes. That of a public key has the algorithm in its
 * first 2 bytes, then the key ID (8) and the key (32). That of a signature has the algorithm (2), the key ID (8) and the
 * signature (64). That of a secret key has the algorithm (2), the key derivation (2), the checksum algorithm (2), the
 * salt (32), the operations limit and the memory limit (8 each, little-endian), the key ID (8), the secret (64) and the
 * checksum (32); the last three are encrypted if the key is sealed. */
#define MINISIGN_PUBLIC_KEY_RECORD_BYTES 42
#define MINISIGN_SIGNATURE_RECORD_BYTES 74
#define MINISIGN_SECRET_KEY_RECORD_BYTES 158

/* Reads a public key from its record, which is in the first 42 bytes; later bytes are ignored. The algorithm in it is
 * not checked. Does not allocate. After an error the key is unchanged. The only error is MINISIGN_RECORD_TOO_SHORT, for
 * fewer bytes. Since 0.3. */
MINISIGN_MUST_USE enum minisign_error minisign_read_public_key_record(
    const uint8_t *record, size_t record_len, minisign_public_key *key MINISIGN_ROLE(output));

/* Writes the record of a public key, with the algorithm "Ed", which Minisign writes in every public key.
 * minisign_read_public_key_record reads the same key from it. Does not allocate. The only error is
 * MINISIGN_PUBLIC_KEY_NOT_READ, after which record is unchanged. Since 0.3. */
MINISIGN_MUST_USE enum minisign_error minisign_public_key_record(const minisign_public_key *key, uint8_t record[42]);

/* The content of a signature file. Nothing in it is verified yet. Only the library writes its fields, and only the
 * library uses mark and text_digest. You may read the other fields, for example to choose the public key by key_id, or
 * to detect a legacy signature before you call minisign_ask. */
typedef struct minisign_signature {
    uint64_t mark;
    uint8_t key_id[8];             /* of the key that signed, according to the file */
    uint8_t signature[64];         /* of the digest of the data, or of the data itself if legacy is 1 */
    uint8_t comment_signature[64]; /* zeros if the file has fewer than 64 bytes of it */
    /* The offset and length of the trusted comment in the file. */
    uint64_t comment_offset;
    uint64_t comment_len;
    uint8_t text_digest[32]; /* the Blake2b-256 digest of the file */
    uint8_t algorithm[2];    /* "ED", or "Ed" if legacy is 1 */
    uint8_t legacy;          /* 1 if the signature is over the data itself (a legacy signature), otherwise 0 */
    uint8_t whole;           /* 1 if the file has the 64 bytes of the comment signature, otherwise 0 */
    uint32_t reserved;       /* 0 */
} minisign_signature;

/*
 * Reads a signature file. sig_text is the whole content of a file such as data.minisig. Keep it until you have called
 * minisign_ask, which takes the trusted comment from it. Does not allocate.
 *
 * After an error the signature is unchanged. The errors, in this order: MINISIGN_NOT_UTF8;
 * MINISIGN_MISSING_UNTRUSTED_COMMENT, MINISIGN_MISSING_SIGNATURE, MINISIGN_MISSING_TRUSTED_COMMENT,
 * MINISIGN_MISSING_COMMENT_SIGNATURE; MINISIGN_UNTRUSTED_COMMENT_PREFIX; MINISIGN_SIGNATURE_NOT_BASE64 and
 * MINISIGN_RECORD_TOO_SHORT, for the second line; MINISIGN_TRUSTED_COMMENT_PREFIX; MINISIGN_UNSUPPORTED_ALGORITHM;
 * MINISIGN_SIGNATURE_NOT_BASE64, for the fourth line. Since 0.3.
 */
MINISIGN_MUST_USE enum minisign_error minisign_read_signature(
    const uint8_t *sig_text, size_t sig_text_len, minisign_signature *signature MINISIGN_ROLE(output));

/* Reads a bare signature, which has no comments, from its record, which is in the first 74 bytes; later bytes are
 * ignored. Only minisign_ask_bare and minisign_signature_record take the result: for minisign_ask it counts as not
 * read. Its fields about comments are 0. Does not allocate. After an error the signature is unchanged. The errors, in
 * this order: MINISIGN_RECORD_TOO_SHORT, for fewer than 74 bytes; MINISIGN_UNSUPPORTED_ALGORITHM. Since 0.3. */
MINISIGN_MUST_USE enum minisign_error minisign_read_signature_record(
    const uint8_t *record, size_t record_len, minisign_signature *signature MINISIGN_ROLE(output));

/* Writes the record of a signature that was read from a file or from a record: the second line of the file, decoded.
 * Does not allocate. The only error is MINISIGN_SIGNATURE_NOT_READ, after which record is unchanged. Since 0.3. */
MINISIGN_MUST_USE enum minisign_error minisign_signature_record(const minisign_signature *signature,
                                                                uint8_t record[74]);

/* The two signatures to check with Ed25519, both under public_key. */
typedef struct minisign_questions {
    uint8_t public_key[32];
    /* The first check: is signature valid for the 64 bytes of digest? minisign_ask writes zeros to digest. Pass it to
     * minisign_digest, which writes the digest. If legacy is 1, the message is not the digest but all of the data, so
     * keep the data. Even then feed it to the state and call minisign_digest, because minisign_verdict requires
     * that. */
    uint8_t digest[64];
    uint8_t signature[64];
    /* The second check: is comment_signature valid for the message_len bytes that minisign_ask wrote to the buffer
     * message? They are the first signature followed by the trusted comment. The comment signature is zeros if the
     * file has fewer than 64 bytes of it. Then minisign_verdict rejects the file, whatever result you pass. */
    uint8_t comment_signature[64];
    uint64_t message_len;
    /* The offset and length of the trusted comment in that message. If you show the comment, show this copy of it,
     * because Ed25519 checks this copy. */
    uint64_t comment_offset;
    uint64_t comment_len;
    uint32_t legacy;   /* 1 if the signature is over the data itself ("Ed"), 0 if it is over the digest ("ED") */
    uint32_t reserved; /* 0 */
} minisign_questions;

/*
 * Prepares the two checks: writes the key and both signatures to questions, and the message of the second check to
 * message. sig_text is the file from which the signature was read. It is not parsed again: the call compares its
 * digest with the text_digest of the signature, and takes the trusted comment from it. message is an output buffer,
 * and room is its size in bytes, which must be at least 64 plus the comment_len of the signature. Does not allocate.
 *
 * Call minisign_ask before you feed data, so that a file that cannot be valid is rejected early. You may also call it
 * later, before minisign_digest: the first check is always about all data that the state was fed.
 *
 * allow_legacy is 1 if you accept legacy signatures, which are over the data itself instead of its digest, otherwise
 * 0. To check one, you need all of the data in memory, and you have to feed it to the state as well.
 *
 * You can make the second check as soon as minisign_ask has returned, before you feed any data, and pass its result to
 * minisign_comment_verdict. So a program can learn from the trusted comment if there is a newer version, before it
 * downloads the data.
 *
 * After an error the state, the questions and the message are unchanged, and you may call minisign_ask again. The
 * errors, in this order: MINISIGN_BAD_LEGACY_FLAG; MINISIGN_NOT_BEGUN, MINISIGN_ALREADY_ASKED;
 * MINISIGN_PUBLIC_KEY_NOT_READ; MINISIGN_SIGNATURE_NOT_READ; MINISIGN_OTHER_SIGNATURE_TEXT, if sig_text has another
 * digest than the file from which the signature was read; MINISIGN_DIFFERENT_KEY_IDS; MINISIGN_LEGACY_NOT_ACCEPTED;
 * MINISIGN_NO_ROOM; MINISIGN_WEAK_ED25519, if the public key, the signature or the comment signature is of a kind that
 * "Ed25519" under "Requirements" lists. A comment signature of fewer than 64 bytes is no error here: minisign_verdict
 * rejects it. Since 0.3.
 */
MINISIGN_MUST_USE enum minisign_error minisign_ask(
    minisign_state *state, const minisign_public_key *key, const minisign_signature *signature,
    const uint8_t *sig_text, size_t sig_text_len, uint32_t allow_legacy,
    minisign_questions *questions MINISIGN_ROLE(output), uint8_t *message MINISIGN_ROLE(room 64 + signature.comment_len),
    size_t room);

/* The result of a check: whether Ed25519 accepts the signature. The numbers are the letters "yes" and "no" in ASCII,
 * and every other number is an error. So a boolean, an error number, or the 0 or -1 of another library cannot be
 * mistaken for a result. */
/* Answers, made by tools/header.py. */
enum minisign_answer {
    MINISIGN_ANSWER_YES = 0x796573,
    MINISIGN_ANSWER_NO = 0x6e6f
};
/* The end of the answers. */

/* Verifies only the trusted comment, from the result of the second check. MINISIGN_OK means that the owner of the secret
 * key signed this trusted comment together with the first signature. It says nothing about the data, and nothing about
 * the validity of the first signature. You may make this call as often as you like after minisign_ask and before
 * minisign_verdict; the state is unchanged. Does not allocate. The errors, in this order: MINISIGN_BAD_ANSWER;
 * MINISIGN_NOT_BEGUN; MINISIGN_NOT_ASKED, before minisign_ask; MINISIGN_COMMENT_SIGNATURE_REFUSED, if the file has
 * fewer than 64 bytes of the comment signature, or Ed25519 does not accept it. Since 0.2. */
MINISIGN_MUST_USE enum minisign_error minisign_comment_verdict(const minisign_state *state,
                                                               enum minisign_answer second);

/*
 * Decides from the results of the two checks whether the signature file is valid. Call it after minisign_ask and
 * minisign_digest, which is required for a legacy signature as well. It finishes the state, which takes no more calls
 * until minisign_init. Does not allocate.
 *
 * MINISIGN_OK means that the signature file is a valid signature of all data that was fed, under the public key: the
 * key IDs are equal, the algorithm is allowed, Ed25519 accepts the signature for the data, and Ed25519 accepts the
 * comment signature for that signature followed by the trusted comment.
 *
 * The errors, in this order: MINISIGN_BAD_ANSWER; MINISIGN_NOT_BEGUN; MINISIGN_NOT_ASKED, before minisign_ask or
 * minisign_digest; MINISIGN_SIGNATURE_REFUSED, if the first result is no; MINISIGN_COMMENT_SIGNATURE_REFUSED, if the
 * second result is no, or the file has fewer than 64 bytes of the comment signature. After the first three the state
 * is unchanged. Since 0.1.
 */
MINISIGN_MUST_USE enum minisign_error minisign_verdict(minisign_state *state, enum minisign_answer first,
                                                       enum minisign_answer second);

/*
 * Prepares the only check of a bare signature, one without a trusted comment: writes the key and the signature to
 * questions. signature was read by minisign_read_signature_record, or by minisign_read_signature if you do not want the
 * comments of the file verified. Call it instead of minisign_ask; everything about the digest, about legacy signatures
 * and about allow_legacy is as described there. Then minisign_bare_verdict gives the verdict, and the calls that give
 * one for a signature with comments reject the state. The fields of questions about the comment are 0, and there is no
 * second message. Does not allocate.
 *
 * After an error the state and the questions are unchanged. The errors, in this order: MINISIGN_BAD_LEGACY_FLAG;
 * MINISIGN_NOT_BEGUN, MINISIGN_ALREADY_ASKED; MINISIGN_PUBLIC_KEY_NOT_READ; MINISIGN_SIGNATURE_NOT_READ;
 * MINISIGN_DIFFERENT_KEY_IDS; MINISIGN_LEGACY_NOT_ACCEPTED; MINISIGN_WEAK_ED25519. Since 0.3.
 */
MINISIGN_MUST_USE enum minisign_error minisign_ask_bare(
    minisign_state *state, const minisign_public_key *key, const minisign_signature *signature, uint32_t allow_legacy,
    minisign_questions *questions MINISIGN_ROLE(output));

/*
 * Decides from the result of its check whether a bare signature is valid. Call it after minisign_ask_bare and
 * minisign_digest. It finishes the state, which takes no more calls until minisign_init. Does not allocate.
 *
 * MINISIGN_OK means that the signature is a valid signature of all data that was fed, under the public key: the key IDs
 * are equal, the algorithm is allowed, and Ed25519 accepts the signature for the data. Nothing is verified about any
 * comment.
 *
 * The errors, in this order: MINISIGN_BAD_ANSWER; MINISIGN_NOT_BEGUN; MINISIGN_NOT_ASKED, before minisign_ask_bare or
 * minisign_digest, or after minisign_ask; MINISIGN_SIGNATURE_REFUSED, if the result is no. After the first three the
 * state is unchanged. Since 0.3.
 */
MINISIGN_MUST_USE enum minisign_error minisign_bare_verdict(minisign_state *state, enum minisign_answer first);

/* ---- Signing ---- */

/* A secret key that was read and not opened yet. Only the library writes mark and bytes, and only they matter when
 * the key is opened. The other fields are for you to read. */
typedef struct minisign_unopened_key {
    uint64_t mark;
    uint8_t bytes[158] MINISIGN_ROLE(secret); /* the decoded key, with the secret itself if it is not sealed */
    /* 1 if the key is sealed, so that it needs a password, otherwise 0. */
    uint8_t is_sealed;
    /* The cost of opening the key. log2_rows is the logarithm to base 2 of the number of rows of 1 KiB that scrypt
     * computes, at most 20. work is how many times scrypt computes all of them. So opening the key takes 2^log2_rows *
     * work rows. In RFC 7914 these fields are log2 N and p. Both are 0 if the key is not sealed, or if its limits are
     * rejected. */
    uint8_t log2_rows;
    uint32_t work;
    uint32_t reserved; /* 0 */
} minisign_unopened_key;

/* Reads a secret key. sk_text is both lines of a file such as minisign.key. Open the key next. Does not allocate.
 * After an error the key is unchanged. The errors, in this order: MINISIGN_NOT_UTF8;
 * MINISIGN_MISSING_SECRET_KEY_COMMENT, MINISIGN_MISSING_SECRET_KEY; MINISIGN_SECRET_KEY_NOT_BASE64,
 * MINISIGN_RECORD_TOO_SHORT. Since 0.2. */
MINISIGN_MUST_USE enum minisign_error minisign_read_secret_key(
    const uint8_t *sk_text MINISIGN_ROLE(secret), size_t sk_text_len,
    minisign_unopened_key *unopened MINISIGN_ROLE(output));

/* Reads a secret key from its record, which is in the first 158 bytes; later bytes are ignored. They become the field
 * `bytes` of unopened. Does not allocate. After an error the key is unchanged. The only error is
 * MINISIGN_RECORD_TOO_SHORT, for fewer bytes. Since 0.3. */
MINISIGN_MUST_USE enum minisign_error minisign_read_secret_key_record(
    const uint8_t *secret_record MINISIGN_ROLE(secret), size_t secret_record_len,
    minisign_unopened_key *unopened MINISIGN_ROLE(output));

/*
 * Writes an unopened key as a secret key file, as it is: nothing is encrypted, decrypted or checked, so the key stays
 * sealed if it is sealed. Writes both lines to text, and their length to text_len. text is an output buffer, and room
 * is its size in bytes: MINISIGN_SECRET_KEY_BYTES(comment_len) bytes are enough. minisign_read_secret_key reads the
 * same key from the file.
 *
 * After an error, *text and *text_len are unchanged. The errors, in this order: MINISIGN_KEY_NOT_READ;
 * MINISIGN_NOT_UTF8; MINISIGN_BAD_COMMENT, MINISIGN_UNREADABLE_COMMENT, as for minisign_secret_key_text;
 * MINISIGN_NO_ROOM; MINISIGN_OUT_OF_MEMORY. Since 0.3.
 */
MINISIGN_MUST_USE enum minisign_error minisign_encode_unopened_key(
    const minisign_unopened_key *unopened, const uint8_t *comment, size_t comment_len,
    uint8_t *text MINISIGN_ROLE(room SECRET_KEY_BYTES + comment_len), size_t room, size_t *text_len);

/* Checks everything about a sealed key that needs no password. If is_sealed is 1, make this call before you ask for the
 * password, so that nobody types a password for a key that cannot be opened. If the call succeeds, the only errors that
 * minisign_open_sealed_key can return for the same most_rows are MINISIGN_NOT_UTF8, MINISIGN_OUT_OF_MEMORY and
 * MINISIGN_WRONG_PASSWORD. Does not allocate. The errors, in this order: MINISIGN_KEY_NOT_READ; MINISIGN_KEY_NOT_SEALED;
 * MINISIGN_UNSUPPORTED_KEY_DERIVATION; MINISIGN_PARAMETERS_TOO_HIGH, MINISIGN_INVALID_PARAMETERS;
 * MINISIGN_WORK_TOO_HIGH. Since 0.3. */
MINISIGN_MUST_USE enum minisign_error minisign_test_sealed_key(const minisign_unopened_key *unopened,
                                                               uint64_t most_rows);

/* A secret key that was opened, or written by minisign_take_secret_key. Only the library sets mark, and it writes key
 * files and public keys only from a key that has the mark. So if opening a key fails and the error is ignored, you do
 * not publish a signature with a key ID of zeros. */
typedef struct minisign_secret_key {
    uint64_t mark;
    uint8_t key_id[8];
    uint8_t secret[64] MINISIGN_ROLE(secret); /* the seed, then the public key, as libsodium stores it */
} minisign_secret_key;

/*
 * Opens a secret key that is not sealed, as `minisign -G -W` writes it. Its is_sealed is 0. The checksum in the key
 * must match, or consist of zeros, which Minisign's own program writes in such a key.
 *
 * Neither this call nor minisign_open_sealed_key checks that the two halves of the secret belong together, because
 * that takes Ed25519. In a key that was damaged, or changed by an attacker, they may not belong together. Then its
 * signatures are not valid, and each one that you publish reveals the secret half of the key to anybody who also has a
 * valid signature of the same data. So verify each signature under the public half, the last 32 bytes of secret,
 * before you write it or send it, as c/examples/sign.c does.
 *
 * Does not allocate. After an error the key is unchanged. The errors, in this order: MINISIGN_KEY_NOT_READ;
 * MINISIGN_KEY_SEALED; MINISIGN_KEY_CORRUPTED, if the checksum neither matches nor consists of zeros. Since 0.3.
 */
MINISIGN_MUST_USE enum minisign_error minisign_open_unsealed_key(
    const minisign_unopened_key *unopened, minisign_secret_key *key MINISIGN_ROLE(output));

/* Values of the parameter keep_every: see minisign_open_sealed_key. */
#define MINISIGN_KEEP_EVERY_ROW 1
#define MINISIGN_KEEP_FEW_ROWS 16

/* Values of the parameter most_rows: see minisign_open_sealed_key. */
#define MINISIGN_USUAL_ROWS 1048576
#define MINISIGN_ANY_ROWS UINT64_MAX

/*
 * Opens a sealed secret key with its password, which takes the memory and the time of scrypt. The limits in the key
 * file say how much: scrypt computes up to 2^20 rows of 1 KiB, once or more often. You limit both:
 *
 * - keep_every limits the memory. Only every keep_every-th row is kept, and the others are computed again when they
 *   are needed. 0 and 1 keep all rows, which is fastest, and takes 1 GiB for a key of `minisign -G`. With
 *   MINISIGN_KEEP_FEW_ROWS, which is 16, such a key takes at most 65 MiB and about three times as long. The opened key
 *   is the same for every value.
 * - most_rows limits the time. It is the greatest number of rows that may be computed, not counting those that are
 *   computed again. A key takes 2^log2_rows * work rows, with the fields of minisign_unopened_key.
 *   MINISIGN_USUAL_ROWS, which is 2^20, is enough for the keys of `minisign -G`. With MINISIGN_ANY_ROWS, a key from
 *   somebody else may take hours. A key that needs more rows is rejected before any row is computed.
 *
 * After an error the key is unchanged. The errors, in this order: MINISIGN_KEY_NOT_READ; MINISIGN_NOT_UTF8, for the
 * password; MINISIGN_KEY_NOT_SEALED; MINISIGN_UNSUPPORTED_KEY_DERIVATION; MINISIGN_PARAMETERS_TOO_HIGH,
 * MINISIGN_INVALID_PARAMETERS; MINISIGN_WORK_TOO_HIGH, if the key takes more than most_rows rows;
 * MINISIGN_OUT_OF_MEMORY; MINISIGN_WRONG_PASSWORD. Since 0.3.
 */
MINISIGN_MUST_USE enum minisign_error minisign_open_sealed_key(
    const minisign_unopened_key *unopened, const uint8_t *password MINISIGN_ROLE(secret), size_t password_len,
    uint64_t keep_every, uint64_t most_rows, minisign_secret_key *key MINISIGN_ROLE(output));

/* Writes how much memory minisign_open_sealed_key_in_place needs with the same key, keep_every and most_rows: a number
 * of uint32_t, and a number of bytes. Both are 0 for a key that is rejected before it needs memory, because it is not
 * sealed, its limits are rejected, or it takes more than most_rows rows. Otherwise the memory is 1 KiB for each row
 * that is kept, 1 KiB times the field work, and 3 KiB. A key of `minisign -G` has a work of 1, and needs 1 GiB and 4
 * KiB, or with MINISIGN_KEEP_FEW_ROWS 64 MiB and 4 KiB. With MINISIGN_USUAL_ROWS no key needs more than 1 GiB and 4
 * KiB. With MINISIGN_USUAL_ROWS and MINISIGN_KEEP_FEW_ROWS no key needs more than 512 MiB and 4 KiB, which is what a
 * key with 2 rows and a work of 2^19 needs. Does not allocate. Since 0.3. */
void minisign_opening_memory(
    const minisign_unopened_key *unopened, uint64_t keep_every, uint64_t most_rows, uint64_t *words_wanted,
    uint64_t *bytes_wanted);

/*
 * Opens a sealed secret key as minisign_open_sealed_key does, in memory that you pass: words, which is aligned for
 * uint32_t, and bytes. Pass at least as many of each as minisign_opening_memory writes. The call neither allocates
 * nor creates a thread. The memory need not be initialized. When the call returns, all of it is zeros, even after an
 * error.
 *
 * After an error the key is unchanged. The errors, in this order: MINISIGN_KEY_NOT_READ; MINISIGN_NO_ROOM, if words
 * or bytes is too short; those of minisign_open_sealed_key after its first, except MINISIGN_OUT_OF_MEMORY. Since 0.3.
 */
MINISIGN_MUST_USE enum minisign_error minisign_open_sealed_key_in_place(
    const minisign_unopened_key *unopened, const uint8_t *password MINISIGN_ROLE(secret), size_t password_len,
    uint64_t keep_every, uint64_t most_rows, uint32_t *words, size_t words_len, uint8_t *bytes, size_t bytes_len,
    minisign_secret_key *key MINISIGN_ROLE(output));

/* A new secret key, which you generate with your Ed25519 implementation and random bytes: see "Making keys". */
typedef struct minisign_new_key {
    uint8_t key_id[8];  /* random bytes */
    uint8_t secret[64] MINISIGN_ROLE(secret); /* the seed, then the public key, as libsodium stores it */
} minisign_new_key;

/* Turns a new secret key into a minisign_secret_key. Does not allocate. Since 0.3. */
void minisign_take_secret_key(const minisign_new_key *new_key, minisign_secret_key *key MINISIGN_ROLE(output));

/* Writes the public key of a secret key: the last 32 of its 64 bytes, and its key ID. Does not allocate. The only
 * error is MINISIGN_KEY_NOT_OPENED, after which the public key is unchanged. Since 0.2. */
MINISIGN_MUST_USE enum minisign_error minisign_public_key_of(
    const minisign_secret_key *key, minisign_public_key *public_key MINISIGN_ROLE(output));

/* Writes the record of an opened secret key, not sealed: no key derivation, zeros as salt and limits, and the checksum.
 * minisign_read_secret_key_record reads it, and minisign_open_unsealed_key then opens the same key. The record contains
 * the secret, so clear it after its last use. Does not allocate. The only error is MINISIGN_KEY_NOT_OPENED, after which
 * secret_record is unchanged. Since 0.3. */
MINISIGN_MUST_USE enum minisign_error minisign_secret_key_record(
    const minisign_secret_key *key, uint8_t secret_record[158] MINISIGN_ROLE(secret));

/* Writes the second message to sign to the buffer message. room is the size of the buffer in bytes. The message is
 * your signature of the digest followed by the trusted comment, 64 + trusted_len bytes. Sign it with the same secret
 * as the digest. Does not allocate. The only error is MINISIGN_NO_ROOM, after which the buffer is unchanged. Since
 * 0.1. */
MINISIGN_MUST_USE enum minisign_error minisign_comment_message(
    const uint8_t first[64], const uint8_t *trusted, size_t trusted_len,
    uint8_t *message MINISIGN_ROLE(room 64 + trusted_len), size_t room);

/* The parts of a signature file. They have names so that you do not mix them up. signature is your signature of the
 * digest, and comment_signature that of the message from minisign_comment_message. Pass the comments without "trusted
 * comment: " and "untrusted comment: ", which the library adds. The pointer to a comment may be NULL if its length is
 * 0. */
typedef struct minisign_signed_parts {
    uint8_t signature[64];
    uint8_t comment_signature[64];
    const uint8_t *trusted_comment;
    size_t trusted_comment_len;
    const uint8_t *untrusted_comment;
    size_t untrusted_comment_len;
} minisign_signed_parts;

/* The comments that `minisign -S` writes by default. The trusted one is a format for printf. It takes the time in
 * seconds since 1970 as an unsigned long long, and the name of the file without its directory. */
#define MINISIGN_SIGNATURE_COMMENT "signature from minisign secret key"
#define MINISIGN_TRUSTED_COMMENT_FORMAT "timestamp:%llu\tfile:%s\thashed"

/* A buffer size that is large enough for a signature file with comments of these lengths. */
#define MINISIGN_TEXT_BYTES(trusted_comment_len, untrusted_comment_len) \
    (240 + (size_t) (trusted_comment_len) + (size_t) (untrusted_comment_len))

/*
 * Writes a signature file from your two signatures and the comments: four lines of UTF-8, as `minisign -V` reads them.
 * They are written to text, and their length to text_len. text is an output buffer, and room is its size in bytes. The
 * file gets the key ID of key, a public key that was read, or that minisign_public_key_of wrote from your secret key.
 *
 * If the file is read back, it has exactly this key ID, these comments and these signatures. It is a valid signature
 * of the data under a public key if two conditions hold: the public key has this key ID, and Ed25519 accepts both
 * signatures under it. The call does not check that the signatures are valid.
 *
 * After an error, *text and *text_len are unchanged. The errors, in this order: MINISIGN_PUBLIC_KEY_NOT_READ;
 * MINISIGN_NOT_UTF8, for a comment; MINISIGN_BAD_COMMENT, if a comment contains a line feed, the trusted comment
 * begins or ends with white space, or the untrusted comment ends with a carriage return; MINISIGN_UNREADABLE_COMMENT,
 * if Minisign 0.11 would not read a comment back: an untrusted comment of 1,004 bytes or more, a trusted comment of
 * 8,174 bytes or more, a zero byte, or a carriage return; MINISIGN_OUT_OF_MEMORY; MINISIGN_NO_ROOM. Since 0.3.
 */
MINISIGN_MUST_USE enum minisign_error minisign_signed_text(
    const minisign_public_key *key, const minisign_signed_parts *parts,
    uint8_t *text MINISIGN_ROLE(room TEXT_BYTES + trusted_comment_len + untrusted_comment_len), size_t room,
    size_t *text_len);

/* ---- Making keys ---- */

/* For a new key, generate 8 random bytes as its key ID, an Ed25519 key pair, as crypto_sign_keypair of libsodium
 * does, and 32 random bytes as its salt. Pass the key ID and the key pair to minisign_take_secret_key. With
 * minisign_usual_sealing and the comments of `minisign -G`, the calls below write the same files as `minisign -G`
 * does for this key.
 *
 * To change a password, open the key with minisign_open_sealed_key and write it again with a new salt. To recover a
 * lost public key, write it from the secret key. */

/* The parameters for sealing a secret key: the salt, and the limits of libsodium's scrypt call. Use
 * minisign_usual_sealing, unless you need less memory. */
typedef struct minisign_sealing {
    uint8_t salt[32];          /* random bytes, different for each key */
    uint64_t operations_limit; /* how much scrypt computes */
    uint64_t memory_limit;     /* in bytes, at most 2^30 */
} minisign_sealing;

/* The limits of `minisign -G`. With them scrypt takes 1 GiB of memory, or less if few rows are kept. If `minisign -G`
 * gets too little memory, it halves both limits and tries again, down to MINISIGN_LEAST_OPERATIONS_LIMIT and
 * MINISIGN_LEAST_MEMORY_LIMIT. If a sealed key that you read has a log2_rows below MINISIGN_LEAST_LOG2_ROWS, it is
 * weaker than a key with these least limits, and an attacker can guess passwords fast. */
#define MINISIGN_OPERATIONS_LIMIT 33554432
#define MINISIGN_MEMORY_LIMIT 1073741824
#define MINISIGN_LEAST_OPERATIONS_LIMIT 524288
#define MINISIGN_LEAST_MEMORY_LIMIT 16777216
#define MINISIGN_LEAST_LOG2_ROWS 14

/* Returns the sealing that `minisign -G` uses, with your salt. Since 0.3. */
static inline minisign_sealing minisign_usual_sealing(const uint8_t salt[32])
{
    minisign_sealing sealing;

    for (size_t i = 0; i < sizeof sealing.salt; i++) {
        sealing.salt[i] = salt[i];
    }
    sealing.operations_limit = MINISIGN_OPERATIONS_LIMIT;
    sealing.memory_limit = MINISIGN_MEMORY_LIMIT;
    return sealing;
}

/* Values of with_password: do not seal the key; seal it, and reject an empty password; or seal it, and allow an empty
 * password, as Minisign does. */
#define MINISIGN_NO_PASSWORD 0
#define MINISIGN_PASSWORD 1
#define MINISIGN_ANY_PASSWORD 2

/* The comments that `minisign -G` writes. The comment of a public key is MINISIGN_PUBLIC_KEY_COMMENT followed by the
 * key ID: read the ID as one little-endian number, and print it with "%" PRIX64. The calls below take comments without
 * "untrusted comment: ", which they add. */
#define MINISIGN_SECRET_KEY_COMMENT "minisign encrypted secret key"
#define MINISIGN_PUBLIC_KEY_COMMENT "minisign public key "

/* The size of a key file with a comment of this length. */
#define MINISIGN_SECRET_KEY_BYTES(comment_len) (233 + (size_t) (comment_len))
#define MINISIGN_PUBLIC_KEY_BYTES(comment_len) (77 + (size_t) (comment_len))

/*
 * Writes a secret key file, both lines of a file such as minisign.key, to text, and its length to text_len. text is an
 * output buffer, and room is its size in bytes.
 *
 * If with_password is MINISIGN_PASSWORD or MINISIGN_ANY_PASSWORD, the key is sealed under the password, with the salt
 * and the limits of sealing. This takes the memory and the time of scrypt. keep_every limits the memory as it does in
 * minisign_open_sealed_key; the file is the same for every value. The library accepts any UTF-8 as the password, but
 * Minisign only takes passwords of at most 1,023 bytes, without line breaks and zero bytes.
 *
 * If with_password is MINISIGN_NO_PASSWORD, the key is not sealed, and password and sealing are ignored; sealing still
 * must not be NULL. The file then contains the checksum of the key, where `minisign -G -W` writes zeros.
 * minisign_open_unsealed_key accepts both.
 *
 * Opened under the same password, or without one, the file gives exactly this key. The call does not check that the
 * two halves of the secret belong together, because that takes Ed25519.
 *
 * After an error, *text and *text_len are unchanged. The errors, in this order: MINISIGN_BAD_PASSWORD_FLAG;
 * MINISIGN_EMPTY_PASSWORD; MINISIGN_WEAK_SEALING, if the key is to be sealed with a salt of zeros, or with a limit below
 * MINISIGN_LEAST_OPERATIONS_LIMIT or MINISIGN_LEAST_MEMORY_LIMIT; MINISIGN_KEY_NOT_OPENED; MINISIGN_NOT_UTF8, for the
 * comment or the password; MINISIGN_BAD_COMMENT, if the comment contains a line feed; MINISIGN_UNREADABLE_COMMENT, if
 * it contains a carriage return or a zero byte, or has more than 1,003 bytes; MINISIGN_NO_ROOM; with a password
 * MINISIGN_PARAMETERS_TOO_HIGH or MINISIGN_INVALID_PARAMETERS, for the limits; MINISIGN_OUT_OF_MEMORY. Since 0.3.
 */
MINISIGN_MUST_USE enum minisign_error minisign_secret_key_text(
    const minisign_secret_key *key, uint32_t with_password MINISIGN_ROLE(presence),
    const uint8_t *password MINISIGN_ROLE(secret), size_t password_len, const minisign_sealing *sealing,
    uint64_t keep_every, const uint8_t *comment, size_t comment_len,
    uint8_t *text MINISIGN_ROLE(room SECRET_KEY_BYTES + comment_len), size_t room, size_t *text_len);

/* Writes a secret key file as minisign_secret_key_text does, but accepts any salt and all limits that scrypt accepts.
 * With low limits passwords are cheap to guess: with limits of 0, a guess takes 2 rows, computed 512 times. The
 * errors are those of minisign_secret_key_text, except MINISIGN_WEAK_SEALING. Since 0.3. */
MINISIGN_MUST_USE enum minisign_error minisign_secret_key_text_with_any_limits(
    const minisign_secret_key *key, uint32_t with_password MINISIGN_ROLE(presence),
    const uint8_t *password MINISIGN_ROLE(secret), size_t password_len, const minisign_sealing *sealing,
    uint64_t keep_every, const uint8_t *comment, size_t comment_len,
    uint8_t *text MINISIGN_ROLE(room SECRET_KEY_BYTES + comment_len), size_t room, size_t *text_len);

/* Writes a public key file, both lines of a file such as minisign.pub, to text, and its length to text_len. text is an
 * output buffer, and room is its size in bytes. The call takes the secret key, so that you cannot pass secret bytes in
 * place of a public key by mistake, and publish them. After an error, *text and *text_len are unchanged. The errors,
 * in this order: MINISIGN_KEY_NOT_OPENED; MINISIGN_NOT_UTF8; MINISIGN_BAD_COMMENT, MINISIGN_UNREADABLE_COMMENT, as for
 * minisign_secret_key_text; MINISIGN_NO_ROOM; MINISIGN_OUT_OF_MEMORY. Since 0.2. */
MINISIGN_MUST_USE enum minisign_error minisign_public_key_text(
    const minisign_secret_key *key, const uint8_t *comment, size_t comment_len,
    uint8_t *text MINISIGN_ROLE(room PUBLIC_KEY_BYTES + comment_len), size_t room, size_t *text_len);

/* Writes a public key file as minisign_public_key_text does, for a public key that was read, or that
 * minisign_public_key_of wrote. The algorithm in the file is "Ed", which Minisign writes in every public key. After an
 * error, *text and *text_len are unchanged. The errors, in this order: MINISIGN_PUBLIC_KEY_NOT_READ; MINISIGN_NOT_UTF8;
 * MINISIGN_BAD_COMMENT, MINISIGN_UNREADABLE_COMMENT, as for minisign_secret_key_text; MINISIGN_NO_ROOM;
 * MINISIGN_OUT_OF_MEMORY. Since 0.3. */
MINISIGN_MUST_USE enum minisign_error minisign_encode_public_key(
    const minisign_public_key *key, const uint8_t *comment, size_t comment_len,
    uint8_t *text MINISIGN_ROLE(room PUBLIC_KEY_BYTES + comment_len), size_t room, size_t *text_len);

/* Attributes, made by tools/header.py. */
#if defined(__GNUC__) && !defined(__TINYC__)
#pragma GCC diagnostic push
#pragma GCC diagnostic ignored "-Wredundant-decls"
#define MINISIGN_WITH(call, ...) __typeof__(call) call __attribute__((__VA_ARGS__))
#if defined(__clang__) || __GNUC__ < 10
#define MINISIGN_ACCESS(mode, pointer, length)
#else
#define MINISIGN_ACCESS(mode, pointer, length) __access__(mode, pointer, length)
#endif
MINISIGN_WITH(minisign_error_text, MINISIGN_ACCESS(__write_only__, 2, 3));
MINISIGN_WITH(minisign_init, __nonnull__(1));
MINISIGN_WITH(minisign_update, MINISIGN_ACCESS(__read_only__, 2, 3), __nonnull__(1));
MINISIGN_WITH(minisign_digest, __nonnull__(1, 2));
MINISIGN_WITH(minisign_clear, MINISIGN_ACCESS(__write_only__, 1, 2));
MINISIGN_WITH(minisign_read_public_key, MINISIGN_ACCESS(__read_only__, 1, 2), __nonnull__(3));
MINISIGN_WITH(minisign_read_bare_public_key, MINISIGN_ACCESS(__read_only__, 1, 2), __nonnull__(3));
MINISIGN_WITH(minisign_read_public_key_record, MINISIGN_ACCESS(__read_only__, 1, 2), __nonnull__(3));
MINISIGN_WITH(minisign_public_key_record, __nonnull__(1, 2));
MINISIGN_WITH(minisign_read_signature, MINISIGN_ACCESS(__read_only__, 1, 2), __nonnull__(3));
MINISIGN_WITH(minisign_read_signature_record, MINISIGN_ACCESS(__read_only__, 1, 2), __nonnull__(3));
MINISIGN_WITH(minisign_signature_record, __nonnull__(1, 2));
MINISIGN_WITH(minisign_ask, MINISIGN_ACCESS(__read_only__, 4, 5), MINISIGN_ACCESS(__write_only__, 8, 9),
                            __nonnull__(1, 2, 3, 7));
MINISIGN_WITH(minisign_comment_verdict, __nonnull__(1));
MINISIGN_WITH(minisign_verdict, __nonnull__(1));
MINISIGN_WITH(minisign_ask_bare, __nonnull__(1, 2, 3, 5));
MINISIGN_WITH(minisign_bare_verdict, __nonnull__(1));
MINISIGN_WITH(minisign_read_secret_key, MINISIGN_ACCESS(__read_only__, 1, 2), __nonnull__(3));
MINISIGN_WITH(minisign_read_secret_key_record, MINISIGN_ACCESS(__read_only__, 1, 2), __nonnull__(3));
MINISIGN_WITH(minisign_encode_unopened_key, MINISIGN_ACCESS(__read_only__, 2, 3),
                                            MINISIGN_ACCESS(__write_only__, 4, 5), __nonnull__(1, 6));
MINISIGN_WITH(minisign_test_sealed_key, __nonnull__(1));
MINISIGN_WITH(minisign_open_unsealed_key, __nonnull__(1, 2));
MINISIGN_WITH(minisign_open_sealed_key, MINISIGN_ACCESS(__read_only__, 2, 3), __nonnull__(1, 6));
MINISIGN_WITH(minisign_opening_memory, __nonnull__(1, 4, 5));
MINISIGN_WITH(minisign_open_sealed_key_in_place, MINISIGN_ACCESS(__read_only__, 2, 3),
                                                 MINISIGN_ACCESS(__write_only__, 6, 7),
                                                 MINISIGN_ACCESS(__write_only__, 8, 9), __nonnull__(1, 10));
MINISIGN_WITH(minisign_take_secret_key, __nonnull__(1, 2));
MINISIGN_WITH(minisign_public_key_of, __nonnull__(1, 2));
MINISIGN_WITH(minisign_secret_key_record, __nonnull__(1, 2));
MINISIGN_WITH(minisign_comment_message, MINISIGN_ACCESS(__read_only__, 2, 3),
                                        MINISIGN_ACCESS(__write_only__, 4, 5), __nonnull__(1));
MINISIGN_WITH(minisign_signed_text, MINISIGN_ACCESS(__write_only__, 3, 4), __nonnull__(1, 2, 5));
MINISIGN_WITH(minisign_secret_key_text, MINISIGN_ACCESS(__read_only__, 3, 4), MINISIGN_ACCESS(__read_only__, 7, 8),
                                        MINISIGN_ACCESS(__write_only__, 9, 10), __nonnull__(1, 5, 11));
MINISIGN_WITH(minisign_secret_key_text_with_any_limits, MINISIGN_ACCESS(__read_only__, 3, 4),
                                                        MINISIGN_ACCESS(__read_only__, 7, 8),
                                                        MINISIGN_ACCESS(__write_only__, 9, 10),
                                                        __nonnull__(1, 5, 11));
MINISIGN_WITH(minisign_public_key_text, MINISIGN_ACCESS(__read_only__, 2, 3),
                                        MINISIGN_ACCESS(__write_only__, 4, 5), __nonnull__(1, 6));
MINISIGN_WITH(minisign_encode_public_key, MINISIGN_ACCESS(__read_only__, 2, 3),
                                          MINISIGN_ACCESS(__write_only__, 4, 5), __nonnull__(1, 6));
#undef MINISIGN_ACCESS
#undef MINISIGN_WITH
#pragma GCC diagnostic pop
#endif
/* The end of the attributes. */

#ifdef __cplusplus
}
#endif

#endif
