/*
 * Checks calls that get no memory. Opening a secret key in the caller's memory must not allocate memory, start a thread
 * or call madvise. (minisign_files.c checks this for verifying.) In the other calls, each allocation fails in turn, by itself
 * and together with all later ones. Then the call must return MINISIGN_OUT_OF_MEMORY, leave the key unchanged, and free
 * all memory. The same must happen if there is too little memory for scrypt with the default limits.
 *
 * Linked with -Wl,--wrap=malloc -Wl,--wrap=realloc -Wl,--wrap=free -Wl,--wrap=madvise -Wl,--wrap=pthread_create, and
 * built with -DMINISIGN_NO_THREADS if the library is.
 */
#define _DEFAULT_SOURCE

#ifdef __linux__
#include <sys/mman.h>
#endif

#include "counted_memory.h"
#include "texts_for_tests.h"

/* The numbers of calls to pthread_create and to madvise. */
static long thread_count, madvise_count;

int __real_madvise(void *from, size_t len, int advice);

int __wrap_madvise(void *from, size_t len, int advice)
{
    madvise_count++;
    return __real_madvise(from, len, advice);
}

/* Fails with EAGAIN. The library must work without the thread. */
int __wrap_pthread_create(void *thread, const void *attributes, void *(*run)(void *), void *argument)
{
    (void) thread, (void) attributes, (void) run, (void) argument;
    thread_count++;
    return 11;
}

/* Checks a condition after an allocation in a call has failed. `request` is the number of the allocation, and `mistake` is the
 * message if the condition is false. */
static void check_call(int condition, const char *call, const char *mistake, long request)
{
    check(condition, "%s, allocation %ld failed: %s", call, request, mistake);
}

/* A secret key that Minisign generated for these tests with -G and the password `pw`. */
static const char SEALED[] =
    "untrusted comment: minisign encrypted secret key\n"
    "RWRTY0IyQuX046PjIcXDk/r4CSffEseU3JAL7PlB8O5JOO7pY2sAAAACAAAAAAAAAEAAAAAAytQo"
    "ugYoRybCRRAxLJa3E89PRFna1w3AliB7UuBmE8V3W7jVZ9SzrxGhcq3qwAvJfFXFH2KZgQM5n6I5"
    "9WgTVn+cBdAVDfAnDcoms9nFfblMjk9dV4D6llvod023qwmFQVYufitrKbc=\n";

static minisign_unopened_key unopened;
static minisign_secret_key key;
static uint8_t message[1024];
static size_t text_len;

static enum minisign_error write_secret_key(void)
{
    static const minisign_sealing none;
    return minisign_secret_key_text(&key, 0, bytes_of(""), 0, &none, MINISIGN_KEEP_EVERY_ROW, bytes_of("c"), 1, message,
                                    sizeof message, &text_len);
}

static enum minisign_error write_public_key(void)
{
    return minisign_public_key_text(&key, bytes_of("c"), 1, message, sizeof message, &text_len);
}

static enum minisign_error encode_public_key(void)
{
    minisign_public_key public_key;
    enum minisign_error error = minisign_public_key_of(&key, &public_key);

    return error != MINISIGN_OK ? error
                                : minisign_encode_public_key(&public_key, bytes_of("c"), 1, message, sizeof message, &text_len);
}

static enum minisign_error encode_unopened_key(void)
{
    minisign_unopened_key parsed;
    enum minisign_error error = minisign_read_secret_key(bytes_of(SECRET_KEY), strlen(SECRET_KEY), &parsed);

    return error != MINISIGN_OK ? error
                                : minisign_encode_unopened_key(&parsed, bytes_of("c"), 1, message, sizeof message, &text_len);
}

static enum minisign_error write_signature(void)
{
    static const uint8_t first[64], second[64];
    return make_signature_file(&key, first, second, bytes_of("t"), 1, bytes_of("u"), 1, message, sizeof message, &text_len);
}

/* Makes a call in which the allocations from number `request` to number `last` fail. Returns true if the call requested at
 * least `request` allocations. */
static int fail_requests(const char *name, enum minisign_error (*call)(void), const minisign_secret_key *before, long request,
                         long last)
{
    enum minisign_error error;
    int is_reached;

    key = *before;
    requests = allocated_blocks = 0;
    first_failing_request = request;
    last_failing_request = last;
    error = call();
    first_failing_request = last_failing_request = 0;
    is_reached = requests >= request;
    check_call(allocated_blocks == 0, name, "memory is not freed", request);
    check_call(error == (is_reached ? MINISIGN_OUT_OF_MEMORY : MINISIGN_OK), name, "wrong error", request);
    check_call(!is_reached || memcmp(before, &key, sizeof key) == 0, name, "the key has changed", request);
    return is_reached;
}

static void fail_each_request(const char *name, enum minisign_error (*call)(void), const minisign_secret_key *before)
{
    long request = 1;

    while (fail_requests(name, call, before, request, request) && request < 1000) {
        fail_requests(name, call, before, request, 1000000);
        request++;
    }
    check_call(1 < request && request < 1000, name, "too few or too many allocations", request);
}

/* The rows of the encrypted key take 32 MiB. The call that allocates them starts a thread. With -DIS_EMULATED, they take
 * the smallest large block, for which no thread is started. */
enum { LARGE_ROWS = IS_EMULATED ? 4096 : 32768 };

static uint32_t words[256 * (LARGE_ROWS + 3)];
static uint8_t parts[1024];

static enum minisign_error open_in_place(const char *password, size_t capacity)
{
    return minisign_open_sealed_key_in_place(&unopened, bytes_of(password), strlen(password), MINISIGN_KEEP_EVERY_ROW,
                                             MINISIGN_USUAL_ROWS, words, capacity, parts, sizeof parts, &key);
}

/* Checks that opening a key in the caller's memory does not allocate memory, call madvise or start a thread, and that it
 * succeeds even if all allocations would fail. */
static void open_without_memory(const minisign_secret_key *opened)
{
    const size_t capacity = LENGTH(words);
    uint64_t words_wanted = 0, bytes_wanted = 0;

    CHECK(seal(opened, "pw", 1024 * LARGE_ROWS, 1, message, sizeof message, &text_len) == MINISIGN_OK);
    CHECK(minisign_read_secret_key(message, text_len, &unopened) == MINISIGN_OK);
    requests = allocated_blocks = thread_count = madvise_count = 0;
    CHECK(minisign_open_sealed_key(&unopened, bytes_of("pw"), 2, MINISIGN_KEEP_EVERY_ROW, MINISIGN_USUAL_ROWS, &key)
          == MINISIGN_OK);
    CHECK(requests > 0 && allocated_blocks == 0);
    /* These calls are made only if the library uses c/library/allocation.c. */
#if defined(__LP64__) && defined(MADV_HUGEPAGE) && defined(MADV_POPULATE_WRITE) && !defined(MINISIGN_NO_THREADS)
    CHECK(thread_count == !IS_EMULATED && madvise_count > 0);
#endif
    memset(&key, 0, sizeof key);
    requests = thread_count = madvise_count = 0;
    max_request = 0;
    minisign_opening_memory(&unopened, MINISIGN_KEEP_EVERY_ROW, MINISIGN_USUAL_ROWS, &words_wanted, &bytes_wanted);
    CHECK(words_wanted <= capacity && bytes_wanted <= sizeof parts);
    CHECK(open_in_place("pw", (size_t) words_wanted - 1) == MINISIGN_NO_ROOM);
    CHECK(open_in_place("wp", capacity) == MINISIGN_WRONG_PASSWORD);
    memset(words, 0x5a, sizeof words);
    CHECK(open_in_place("pw", capacity) == MINISIGN_OK);
    CHECK(memcmp(&key, opened, sizeof key) == 0 && is_zeros(words, sizeof words) && is_zeros(parts, sizeof parts));
    CHECK(requests == 0 && allocated_blocks == 0 && thread_count == 0 && madvise_count == 0);
    max_request = SIZE_MAX;
}

int main(void)
{
    minisign_secret_key opened;

    CHECK(read_and_open(SECRET_KEY, NULL, &unopened, &key) == MINISIGN_OK);
    opened = key;
    open_without_memory(&opened);
    fail_each_request("minisign_signed_text", write_signature, &opened);
    fail_each_request("minisign_secret_key_text", write_secret_key, &opened);
    fail_each_request("minisign_public_key_text", write_public_key, &opened);
    fail_each_request("minisign_encode_public_key", encode_public_key, &opened);
    fail_each_request("minisign_encode_unopened_key", encode_unopened_key, &opened);
    max_request = 100000;
    allocated_blocks = 0;
    CHECK(read_and_open(SEALED, "pw", &unopened, &key) == MINISIGN_OUT_OF_MEMORY);
    CHECK(allocated_blocks == 0);
    CHECK(seal(&opened, "pw", MINISIGN_MEMORY_LIMIT, 1, message, sizeof message, &text_len) == MINISIGN_OUT_OF_MEMORY);
    CHECK(allocated_blocks == 0);
    return print_summary();
}
