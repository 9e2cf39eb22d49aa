/*
 * Calls functions of the library, and after each call searches all registers and all writable memory for secrets.
 * cleared_secrets.py runs this program, and writes the secrets ("needles") to needles.h: the first needle is the seed of a secret
 * key, and the fourth is a password.
 *
 * For each call and each needle, the program prints a line: the name of the call, the name of the needle, and how often it
 * was found in registers, on the stack, elsewhere, and in the caller's variables, where secrets are allowed. For each call,
 * a line `deepest` says how many bytes below the caller's frame the stack was written. search_memory.h describes how the
 * registers are searched.
 */
#define _GNU_SOURCE
#include <stdio.h>
#include <sys/time.h>

#include "minisign.h"
#include "search_memory.h"

/* ---- Arguments and results of the calls ---- */

static uint8_t password[64], sealed[1024], damaged[1024], unsealed[1024], public_key[1024], text[4096];
static uint8_t secret_record[MINISIGN_SECRET_KEY_RECORD_BYTES];
static size_t password_len, sealed_len, unsealed_len, public_len, text_len;
static minisign_new_key new_key = { .key_id = { '1', '2', '3', '4', '5', '6', '7', '8' } };
static minisign_sealing sealing;
static minisign_unopened_key unopened;
static minisign_secret_key key, opened;
static minisign_public_key public;
static minisign_state state;
static uint64_t rows = MINISIGN_KEEP_EVERY_ROW;
static const uint8_t COMMENT[] = "comment";
static uint8_t digest[64], message[256];
static minisign_signed_parts parts = { .trusted_comment = COMMENT, .trusted_comment_len = sizeof COMMENT - 1,
                                       .untrusted_comment = COMMENT, .untrusted_comment_len = sizeof COMMENT - 1 };

/* ---- The search ---- */

#define PAINTED_BYTES 65536
#define PAINT 0xa5

struct range {
    const void *start;
    size_t len;
};

/* The caller's variables, which may contain secrets. */
static const struct range allowed_ranges[] = { { new_key.secret, sizeof new_key.secret }, { password, sizeof password },
                                               { unsealed, sizeof unsealed },     { &key, sizeof key },
                                               { &opened, sizeof opened },        { &unopened, sizeof unopened },
                                               { secret_record, sizeof secret_record } };

static const uint8_t *frame;
static size_t depth;

static int place_of(const uint8_t *at, bool is_undumped)
{
    (void) is_undumped;
    for (size_t i = 0; i < sizeof allowed_ranges / sizeof *allowed_ranges; i++) {
        if (is_within(at, allowed_ranges[i].start, allowed_ranges[i].len)) {
            return OWN;
        }
    }
    return is_within(at, signal_stack, sizeof signal_stack)     ? REGISTERS
           : is_within(at, frame - (1 << 20), (size_t) 1 << 21) ? STACK
                                                                : ELSEWHERE;
}

/* Finds the first byte of the stack that was overwritten, and searches all memory. */
static void look(void)
{
    const volatile uint8_t *at = frame - PAINTED_BYTES + 4096;

    while (*at == PAINT) {
        at++;
    }
    depth = (size_t) (frame - (const uint8_t *) at);
    search_all("/proc/self/maps");
}

/* Fills the stack below the frame of the caller with the byte PAINT. */
__attribute__((noinline)) static void fill_stack(void)
{
    volatile uint8_t filled[PAINTED_BYTES];

    for (size_t i = 0; i < sizeof filled; i++) {
        filled[i] = PAINT;
    }
}

/* ---- The calls ---- */

/* A call and its arguments: the limits of a key, how many of its rows are stored, and how it is opened. */
struct step {
    const char *name;
    enum minisign_error (*call)(void);
    uint64_t operations, memory, keep_every;
    enum { WITH_PASSWORD, IN_PLACE } method;
    bool is_damaged, has_signals;
};

static const struct step *step;

static enum minisign_error take_secret_key(void)
{
    minisign_take_secret_key(&new_key, &key);
    return MINISIGN_OK;
}

static enum minisign_error get_public_key(void)
{
    return minisign_public_key_of(&key, &public);
}

static enum minisign_error make_public(void)
{
    return minisign_public_key_text(&key, COMMENT, sizeof COMMENT - 1, public_key, sizeof public_key, &public_len);
}

static enum minisign_error make_sealed(void)
{
    sealing = (minisign_sealing) { .operations_limit = step->operations, .memory_limit = step->memory };
    for (size_t i = 0; i < sizeof sealing.salt; i++) {
        sealing.salt[i] = (uint8_t) i;
    }
    rows = step->keep_every;
    return minisign_secret_key_text_with_any_limits(&key, 1, password, password_len, &sealing, rows, COMMENT,
                                                    sizeof COMMENT - 1, sealed, sizeof sealed, &sealed_len);
}

static enum minisign_error make_unsealed(void)
{
    return minisign_secret_key_text(&key, 0, NULL, 0, &sealing, rows, COMMENT, sizeof COMMENT - 1, unsealed, sizeof unsealed,
                                    &unsealed_len);
}

static enum minisign_error open_unsealed(void)
{
    enum minisign_error error = minisign_read_secret_key(unsealed, unsealed_len, &unopened);

    return error != MINISIGN_OK ? error : minisign_open_unsealed_key(&unopened, &opened);
}

static enum minisign_error make_record(void)
{
    return minisign_secret_key_record(&opened, secret_record);
}

static enum minisign_error open_record(void)
{
    enum minisign_error error = minisign_read_secret_key_record(secret_record, sizeof secret_record, &unopened);

    return error != MINISIGN_OK ? error : minisign_open_unsealed_key(&unopened, &opened);
}

static enum minisign_error encode(void)
{
    return minisign_encode_unopened_key(&unopened, COMMENT, sizeof COMMENT - 1, unsealed, sizeof unsealed, &unsealed_len);
}

/* The memory for opening a key in place. No secrets may be left in it, because the library must clear it. */
static uint32_t words[256 * (4096 + 3)];
static uint8_t parts_buffer[1024];

/* When a signal arrives, the system writes the registers to the stack. */
static void ignore_signal(int number)
{
    (void) number;
}

/* Opens the encrypted key. If its checksum is wrong, the error is found after the key was decrypted. */
static enum minisign_error open_sealed(void)
{
    struct itimerval frequent = { { 0, 200 }, { 0, 200 } }, stopped = { { 0, 0 }, { 0, 0 } };
    enum minisign_error error;

    memcpy(damaged, sealed, sealed_len);
    damaged[sealed_len - 10] ^= step->is_damaged;
    error = minisign_read_secret_key(damaged, sealed_len, &unopened);
    if (error != MINISIGN_OK) {
        return error;
    }
    if (step->has_signals) {
        signal(SIGALRM, ignore_signal);
        setitimer(ITIMER_REAL, &frequent, NULL);
    }
    error = step->method == WITH_PASSWORD
                ? minisign_open_sealed_key(&unopened, password, password_len, rows, MINISIGN_ANY_ROWS, &opened)
                : minisign_open_sealed_key_in_place(&unopened, password, password_len, rows, MINISIGN_ANY_ROWS, words,
                                                    sizeof words / sizeof *words, parts_buffer, sizeof parts_buffer, &opened);
    if (step->has_signals) {
        setitimer(ITIMER_REAL, &stopped, NULL);
    }
    return !step->is_damaged ? error : error == MINISIGN_WRONG_PASSWORD ? MINISIGN_OK : MINISIGN_NOT_DUE;
}

static enum minisign_error sign(void)
{
    enum minisign_error error;

    minisign_init(&state);
    error = minisign_update(&state, COMMENT, sizeof COMMENT);
    error = error != MINISIGN_OK ? error : minisign_digest(&state, digest);
    error = error != MINISIGN_OK ? error : minisign_comment_message(parts.signature, COMMENT, sizeof COMMENT - 1,
                                                                    message, sizeof message);
    error = error != MINISIGN_OK ? error : minisign_public_key_of(&opened, &public);
    return error != MINISIGN_OK ? error : minisign_signed_text(&public, &parts, text, sizeof text, &text_len);
}

/* Leaves a secret on the stack, in a register and elsewhere, which the search has to find. */
volatile uint8_t elsewhere[256];

static enum minisign_error leave_secret(void)
{
    volatile uint8_t left[256];

    for (size_t i = 0; i < 32; i++) {
        left[64 + i] = new_key.secret[i];
        elsewhere[64 + i] = left[64 + i];
    }
#if defined(__aarch64__)
    __asm__ __volatile__("ldr q17, [%0]" : : "r"(new_key.secret) : "v17", "memory");
#elif defined(__s390x__)
    __asm__ __volatile__("ld %%f4, 0(%0)\n\tld %%f5, 8(%0)" : : "a"(new_key.secret) : "f4", "f5", "memory");
#elif defined(__riscv)
    __asm__ __volatile__("fld fa4, 0(%0)\n\tfld fa5, 8(%0)" : : "r"(new_key.secret) : "fa4", "fa5", "memory");
#elif defined(__arm__)
    __asm__ __volatile__("vldr d4, [%0]\n\tvldr d5, [%0, #8]" : : "r"(new_key.secret) : "d4", "d5", "memory");
#else
    __asm__ __volatile__("movups (%0), %%xmm7" : : "r"(new_key.secret) : "xmm7", "memory");
#endif
    return MINISIGN_OK;
}

static const struct step steps[] = {
    { "taking a key", .call = take_secret_key },
    { "getting a public key", .call = get_public_key },
    { "writing a public key", .call = make_public },
    { "encrypting a key", make_sealed, 32768, 1 << 20, .keep_every = MINISIGN_KEEP_EVERY_ROW },
    { "opening a key", .call = open_sealed },
    { "opening a key with a wrong checksum", .call = open_sealed, .is_damaged = true },
    { "opening a key in place", .call = open_sealed, .method = IN_PLACE },
    { "opening a key with a wrong checksum in place", .call = open_sealed, .method = IN_PLACE, .is_damaged = true },
    { "encrypting a key with more work", make_sealed, 131072, 4 << 20, .keep_every = MINISIGN_KEEP_EVERY_ROW },
    { "opening a key with more work", .call = open_sealed },
    { "opening a key with signals", .call = open_sealed, .has_signals = true },
    { "opening a key in place with signals", .call = open_sealed, .method = IN_PLACE, .has_signals = true },
    { "encrypting a key with few rows", make_sealed, 32768, 1 << 20, .keep_every = MINISIGN_KEEP_FEW_ROWS },
    { "opening a key with few rows", .call = open_sealed },
    { "opening a key with few rows in place", .call = open_sealed, .method = IN_PLACE },
    { "writing a key without a password", .call = make_unsealed },
    { "opening a key without a password", .call = open_unsealed },
    { "writing a record", .call = make_record },
    { "opening a record", .call = open_record },
    { "encoding an unopened key", .call = encode },
    { "writing a signature", .call = sign },
    { "leaving a secret on purpose", .call = leave_secret },
};

/* Makes a call and searches. Returns true if the call succeeded. */
__attribute__((noinline)) static bool call_and_search(void)
{
    enum minisign_error error;

    frame = __builtin_frame_address(0);
    fill_stack();
    error = step->call();
    TRAP();
    if (error != MINISIGN_OK) {
        printf("%s returned %d\n", step->name, (int) error);
    }
    for (size_t n = 0; n < NEEDLES; n++) {
        printf(COUNTS_OF(step->name, n));
    }
    printf("deepest\t%s\t%zu\n", step->name, depth);
    return error == MINISIGN_OK;
}

int main(void)
{
    bool all_succeeded = true;

    install_trap();
    for (size_t i = 0; i < needles[0].len; i++) {
        new_key.secret[i] = needles[0].masked[i] ^ MASK;
    }
    for (password_len = 0; password_len < needles[3].len; password_len++) {
        password[password_len] = needles[3].masked[password_len] ^ MASK;
    }
    /* With a buffer of its own, printing does not overwrite freed memory. */
    setvbuf(stdout, malloc(65536), _IOFBF, 65536);
    for (step = steps; step < steps + sizeof steps / sizeof *steps; step++) {
        all_succeeded &= call_and_search();
    }
    return all_succeeded ? 0 : 1;
}
