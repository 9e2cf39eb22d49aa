/*
 * minisign_list.h: check files against a signed list, such as SHA256SUMS with its signature SHA256SUMS.minisig. Use it
 * together with minisign.h.
 *
 * SPDX-License-Identifier: MIT
 *
 * A list has a line with a digest and a name for each file, so one signature is enough for many files. To check files:
 *
 * - Read the public key and the signature file with the calls of minisign.h. Read the whole list into memory, and keep
 *   it until all files are checked.
 * - Call minisign_list_ask with the list. It fills in a minisign_questions with the two signatures that you have to
 *   check, just as minisign_ask and minisign_digest do for a single file. Check both with Ed25519, and pass the two
 *   results to minisign_list_verdict. If minisign_list_verdict returns MINISIGN_OK, the list is verified.
 * - Get the entry of a file by its name with minisign_list_find, or all entries with minisign_list_entries.
 * - Call minisign_list_begin with the entry, and pass the data of the file to minisign_list_update, in pieces of any
 *   length. Then call minisign_list_finish. It returns MINISIGN_OK if and only if the digest of the data is the one in
 *   the entry.
 *
 * A list is UTF-8, and its lines end with LF or CR LF. A line is empty, a comment that begins with "#", or an entry.
 * These are the forms of entries, where HEX is 64 or 128 hexadecimal digits of either case:
 *
 *     HEX  NAME
 *     HEX *NAME
 *     SHA256 (NAME) = HEX
 *     SHA512 (NAME) = HEX
 *     BLAKE2b (NAME) = HEX
 *
 * In the first two forms, 64 digits are a SHA-256 digest, and 128 digits are a digest of the hash function that the
 * parameter long_digest names. A name is a relative path without empty, "." and ".." parts. One leading "./" is
 * ignored. Names are compared byte for byte. sha256sum escapes a name that contains a line feed or a backslash, and
 * puts a backslash in front of the entry. The library accepts an entry after a backslash if its name contains a
 * backslash. It does not unescape the name, and minisign_list_find never finds the entry.
 *
 * Every other line is malformed, and so is a line with a control character. If one line is malformed, the whole list is
 * rejected: minisign_list_find, minisign_list_entries and minisign_list_append return MINISIGN_MALFORMED_LINE.
 *
 * No call of this header allocates memory. The "Requirements" of minisign.h apply. Set a minisign_list,
 * minisign_list_entry or minisign_list_file to zeros before its first use, so that the library returns an error if you
 * pass one that it has not filled in. After that, only the library may write a minisign_list, the mark and the digest
 * of a minisign_list_entry, and the bytes of a minisign_list_file. Once minisign_list_verdict has returned
 * MINISIGN_OK, no call changes the minisign_list, so threads may share it.
 *
 * Machine-checked proofs show what each call returns and writes, and which error it returns if several apply, provided
 * that the caller meets the Requirements. The contracts in crates/minisign_c/src/lib.rt of the sources state these
 * promises. Other proofs show what the steps above achieve in sequence, for every list and all data, split into pieces
 * in any way. They are in list_sequences.rt in the same directory.
 */
#ifndef MINISIGN_LIST_H
#define MINISIGN_LIST_H

#include "minisign.h"

#ifdef __cplusplus
extern "C" {
#endif

/* The hash functions of digests in a list. */
/* Hashes, made by tools/header.py. */
enum minisign_hash {
    /* None: a line with 128 digits must name its hash function. */
    MINISIGN_HASH_NONE = 0,
    /* SHA-256, with 32 bytes. */
    MINISIGN_HASH_SHA256 = 1,
    /* SHA-512, with 64 bytes. */
    MINISIGN_HASH_SHA512 = 2,
    /* BLAKE2b, with 64 bytes. */
    MINISIGN_HASH_BLAKE2B = 3
};
/* The end of the hashes. */

/* A list that is being verified, or was verified. It holds the digest of the list, so later calls reject every other
 * text. The text itself remains yours. */
typedef struct minisign_list {
    uint64_t mark;
    uint8_t text_digest[64]; /* the Blake2b-512 digest of the list */
    uint8_t key_id[8];       /* the ID of the public key under which the list was verified */
    uint32_t whole;          /* 1 if the comment signature in the signature file has 64 bytes, 0 if it has fewer */
    uint32_t is_named;       /* 1 if the trusted comment names the list, or need not name it, otherwise 0 */
} minisign_list;

/*
 * Hashes a list, and prepares the two Ed25519 checks for its signature file: writes the key, both signatures and the
 * digest of the list to questions, and the message of the second check to message. For a list, you call it in place of
 * minisign_init, minisign_update, minisign_ask and minisign_digest. Legacy signatures are rejected.
 *
 * text is the whole list. message is an output buffer, and room is its size in bytes, which must be at least 64 plus
 * the comment_len of the signature. After the call the buffer contains the trusted comment, at the comment_offset of
 * questions. Show the comment only after minisign_list_verdict has returned MINISIGN_OK.
 *
 * list_name is the name of the list, such as SHA256SUMS. The trusted comment must have a field "file:" with exactly
 * this value, or minisign_list_verdict rejects the list. By default, minisign -S writes this field, with the name of
 * the signed file. The check prevents a signed text that was never meant as a list of files from being used as one. If
 * the comment has several fields "file:", only the first one is compared. minisign_list_ask_any accepts every trusted
 * comment.
 *
 * Does not allocate. After an error the list, the questions and the message are unchanged. The errors, in this order:
 * MINISIGN_PUBLIC_KEY_NOT_READ; MINISIGN_SIGNATURE_NOT_READ; MINISIGN_OTHER_SIGNATURE_TEXT;
 * MINISIGN_DIFFERENT_KEY_IDS; MINISIGN_LEGACY_NOT_ACCEPTED; MINISIGN_NO_ROOM; MINISIGN_WEAK_ED25519. Since 0.3.
 */
MINISIGN_MUST_USE enum minisign_error minisign_list_ask(
    minisign_list *list MINISIGN_ROLE(output), const minisign_public_key *key, const minisign_signature *signature,
    const uint8_t *sig_text, size_t sig_text_len, const uint8_t *list_name, size_t list_name_len, const uint8_t *text,
    size_t text_len, minisign_questions *questions MINISIGN_ROLE(output),
    uint8_t *message MINISIGN_ROLE(room 64 + signature.comment_len), size_t room);
MINISIGN_MUST_USE enum minisign_error minisign_list_ask_any(
    minisign_list *list MINISIGN_ROLE(output), const minisign_public_key *key, const minisign_signature *signature,
    const uint8_t *sig_text, size_t sig_text_len, const uint8_t *text, size_t text_len,
    minisign_questions *questions MINISIGN_ROLE(output),
    uint8_t *message MINISIGN_ROLE(room 64 + signature.comment_len), size_t room);

/*
 * Decides whether the list is verified, from the results of the two Ed25519 checks. MINISIGN_OK means that the
 * signature file is a valid signature of the list under the public key, and that the trusted comment names the list,
 * unless minisign_list_ask_any was called. Then you may pass the list to the calls below.
 *
 * Does not allocate. The errors, in this order: MINISIGN_BAD_ANSWER; MINISIGN_NOT_ASKED, if minisign_list_ask was not
 * called, or the verdict was already returned; MINISIGN_SIGNATURE_REFUSED, if the first result is no;
 * MINISIGN_COMMENT_SIGNATURE_REFUSED, if the second result is no, or the signature file has fewer than 64 bytes of the
 * comment signature; MINISIGN_OTHER_LIST, if the trusted comment does not name the list. After the first two errors the
 * list is unchanged. After the other errors the list is not verified, and you have to call minisign_list_ask again.
 * Since 0.3.
 */
MINISIGN_MUST_USE enum minisign_error minisign_list_verdict(
    minisign_list *list, enum minisign_answer first, enum minisign_answer second);

/* An entry of a list. Only the library writes it. You may read all fields except mark. */
typedef struct minisign_list_entry {
    uint64_t mark;
    uint64_t line; /* the number of its line; the first line is 1 */
    /* The position of the name in the list, without a leading "./": offset of its first byte, and length. */
    uint64_t name_offset;
    uint64_t name_len;
    uint8_t digest[64];  /* a SHA-256 digest is the first 32 bytes, and the others are zeros */
    uint32_t hash;       /* MINISIGN_HASH_SHA256, MINISIGN_HASH_SHA512 or MINISIGN_HASH_BLAKE2B */
    uint32_t is_escaped; /* 1 if the name is written with escapes, which the library does not resolve, otherwise 0 */
} minisign_list_entry;

/*
 * Looks up a name in a verified list, which must contain it exactly once. text must be the list that was verified; the
 * call compares its digest. long_digest is the hash function of the 128 digits on a line that does not name one:
 * MINISIGN_HASH_SHA512 for lists of sha512sum, MINISIGN_HASH_BLAKE2B for lists of b2sum, or MINISIGN_HASH_NONE to treat
 * such a line as malformed.
 *
 * MINISIGN_OK means that all lines of the list are well-formed, and exactly one of them has this name. After
 * MINISIGN_MALFORMED_LINE, *line is the number of the first malformed line. After MINISIGN_LISTED_TWICE, it is the
 * number of the second line with this name. In all other cases it is 0.
 *
 * Does not allocate. After an error the entry is unchanged. The errors, in this order: MINISIGN_BAD_HASH;
 * MINISIGN_LIST_NOT_VERIFIED; MINISIGN_OTHER_LIST_TEXT; MINISIGN_NOT_UTF8, for the list or the name;
 * MINISIGN_BAD_NAME, if the name is not a relative path as described at the top of this header, or contains a control
 * character or a backslash; MINISIGN_MALFORMED_LINE; MINISIGN_NOT_LISTED; MINISIGN_LISTED_TWICE. Since 0.3.
 */
MINISIGN_MUST_USE enum minisign_error minisign_list_find(
    const minisign_list *list, const uint8_t *text, size_t text_len, enum minisign_hash long_digest,
    const uint8_t *name, size_t name_len, minisign_list_entry *entry MINISIGN_ROLE(output), uint64_t *line);

/* An upper bound for the number of entries in a list of text_len bytes. */
#define MINISIGN_LIST_ENTRIES(text_len) (((size_t) (text_len) + 1) / 68)

/*
 * Writes all entries of a verified list to entries, a buffer of entries_len entries, in the order of their lines, and
 * the number of entries to *count. MINISIGN_LIST_ENTRIES entries are always enough. The rest of the buffer is
 * unchanged. text and long_digest are as for minisign_list_find.
 *
 * MINISIGN_OK means that all lines of the list are well-formed. It says nothing about names that are listed twice:
 * every such entry is written. *line is the number of the first malformed line after MINISIGN_MALFORMED_LINE, and
 * otherwise 0.
 *
 * Does not allocate. After an error the entries and *count are unchanged. The errors, in this order:
 * MINISIGN_BAD_HASH; MINISIGN_LIST_NOT_VERIFIED; MINISIGN_OTHER_LIST_TEXT; MINISIGN_NOT_UTF8;
 * MINISIGN_MALFORMED_LINE; MINISIGN_NO_ROOM. Since 0.3.
 */
MINISIGN_MUST_USE enum minisign_error minisign_list_entries(
    const minisign_list *list, const uint8_t *text, size_t text_len, enum minisign_hash long_digest,
    minisign_list_entry *entries MINISIGN_ROLE(array), size_t entries_len, size_t *count, uint64_t *line);

/* The state of checking one file against its entry. You allocate it. Only the library writes its bytes. */
typedef struct minisign_list_file {
    uint64_t opaque[96];
} minisign_list_file;

/* Begins a check of data against the digest of an entry. What the state held before is overwritten. Does not allocate.
 * The only error is MINISIGN_ENTRY_NOT_READ, after which the state is unchanged. Since 0.3. */
MINISIGN_MUST_USE enum minisign_error minisign_list_begin(
    const minisign_list_entry *entry, minisign_list_file *file MINISIGN_ROLE(output));

/* Hashes the next len bytes of the data. A piece may have any length; pieces of 64 KiB or more are fastest. Does not
 * allocate. The only error is MINISIGN_NOT_BEGUN, after which the state is unchanged. Since 0.3. */
MINISIGN_MUST_USE enum minisign_error minisign_list_update(minisign_list_file *file, const uint8_t *data, size_t len);

/* Returns MINISIGN_OK if the data that was passed has the digest of the entry. After MINISIGN_OK and
 * MINISIGN_DIGEST_MISMATCH the state is finished: minisign_list_update and minisign_list_finish return
 * MINISIGN_NOT_BEGUN until you call minisign_list_begin again. Does not allocate. The errors, in this order:
 * MINISIGN_NOT_BEGUN, after which the state is unchanged; MINISIGN_DIGEST_MISMATCH, if the data has another digest.
 * Since 0.3. */
MINISIGN_MUST_USE enum minisign_error minisign_list_finish(minisign_list_file *file);

/*
 * Compares the digest of an entry with one that you computed yourself, for example with the SHA instructions of the
 * processor. The library trusts your hash function: nothing is proved about the data, and the result is only as good
 * as your hash. hash is the function that you used, and digest_len the length of its digest.
 *
 * Does not allocate. The errors, in this order: MINISIGN_BAD_HASH, if hash is not the hash function of the entry, or
 * digest_len is not the length of its digest; MINISIGN_ENTRY_NOT_READ; MINISIGN_DIGEST_MISMATCH. Since 0.3.
 */
MINISIGN_MUST_USE enum minisign_error minisign_list_compare_trusting_your_hash(
    const minisign_list_entry *entry, enum minisign_hash hash, const uint8_t *digest, size_t digest_len);

/* ---- Writing a list ---- */

/* A size in bytes that is large enough for an entry whose name has name_len bytes. */
#define MINISIGN_LIST_ENTRY_BYTES(name_len) (143 + (size_t) (name_len))

/*
 * Appends an entry to a list. text is the buffer with the list, and room is its size in bytes. The first *text_len
 * bytes are the list so far; begin with *text_len = 0. The call sets *text_len to the new length. The entry is one
 * line in the format of the BSD tools, which names the hash function, such as "SHA256 (NAME) = HEX", and ends with LF.
 * hash is MINISIGN_HASH_SHA256, MINISIGN_HASH_SHA512 or MINISIGN_HASH_BLAKE2B, and digest_len is the length of the
 * digest.
 *
 * On success, the list has its previous entries and the new one, whichever long_digest a reader passes, and no other
 * entry has this name. So if a list was written only by this call, minisign_list_find finds every name in it.
 *
 * Does not allocate. After an error the buffer and *text_len are unchanged. The errors, in this order:
 * MINISIGN_BAD_HASH; MINISIGN_NO_ROOM, if *text_len is above room; MINISIGN_NOT_UTF8, for the list or the name;
 * MINISIGN_BAD_NAME, as for minisign_list_find; MINISIGN_MALFORMED_LINE, if a line of the list so far is malformed, or
 * has 128 digits without the name of a hash function; MINISIGN_LISTED_TWICE, if the list already has the name;
 * MINISIGN_MALFORMED_LINE, if the list does not end with LF; MINISIGN_NO_ROOM, if the buffer is too small for the entry.
 * Since 0.3.
 */
MINISIGN_MUST_USE enum minisign_error minisign_list_append(
    enum minisign_hash hash, const uint8_t *digest, size_t digest_len, const uint8_t *name, size_t name_len,
    uint8_t *text, size_t room, size_t *text_len);

/* Attributes, made by tools/header.py. */
#if defined(__GNUC__) && !defined(__TINYC__)
#pragma GCC diagnostic push
#pragma GCC diagnostic ignored "-Wredundant-decls"
#define MINISIGN_WITH(call, ...) __typeof__(call) call __attribute__((__VA_ARGS__))
#if defined(__clang__) || __GNUC__ < 10
#define MINISIGN_ACCESS(mode, pointer, length)
#else
#define MINISIGN_ACCESS(mode, pointer, length) __access__(mode, pointer, length)
#endif
MINISIGN_WITH(minisign_list_ask, MINISIGN_ACCESS(__read_only__, 4, 5), MINISIGN_ACCESS(__read_only__, 6, 7),
                                 MINISIGN_ACCESS(__read_only__, 8, 9), MINISIGN_ACCESS(__write_only__, 11, 12),
                                 __nonnull__(1, 2, 3, 10));
MINISIGN_WITH(minisign_list_ask_any, MINISIGN_ACCESS(__read_only__, 4, 5), MINISIGN_ACCESS(__read_only__, 6, 7),
                                     MINISIGN_ACCESS(__write_only__, 9, 10), __nonnull__(1, 2, 3, 8));
MINISIGN_WITH(minisign_list_verdict, __nonnull__(1));
MINISIGN_WITH(minisign_list_find, MINISIGN_ACCESS(__read_only__, 2, 3), MINISIGN_ACCESS(__read_only__, 5, 6),
                                  __nonnull__(1, 7, 8));
MINISIGN_WITH(minisign_list_entries, MINISIGN_ACCESS(__read_only__, 2, 3), MINISIGN_ACCESS(__write_only__, 5, 6),
                                     __nonnull__(1, 7, 8));
MINISIGN_WITH(minisign_list_begin, __nonnull__(1, 2));
MINISIGN_WITH(minisign_list_update, MINISIGN_ACCESS(__read_only__, 2, 3), __nonnull__(1));
MINISIGN_WITH(minisign_list_finish, __nonnull__(1));
MINISIGN_WITH(minisign_list_compare_trusting_your_hash, MINISIGN_ACCESS(__read_only__, 3, 4), __nonnull__(1));
MINISIGN_WITH(minisign_list_append, MINISIGN_ACCESS(__read_only__, 2, 3), MINISIGN_ACCESS(__read_only__, 4, 5),
                                    MINISIGN_ACCESS(__write_only__, 6, 7), __nonnull__(8));
#undef MINISIGN_ACCESS
#undef MINISIGN_WITH
#pragma GCC diagnostic pop
#endif
/* The end of the attributes. */

#ifdef __cplusplus
}
#endif

#endif
