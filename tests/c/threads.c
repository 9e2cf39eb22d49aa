/*
 * Checks that threads can use the library at the same time, each with states of its own: each thread repeatedly verifies
 * and signs different data, and must get the same results as in a single thread.
 */
#define _POSIX_C_SOURCE 200809L

#include <pthread.h>

#include "texts_for_tests.h"

enum { THREAD_COUNT = 8, ROUNDS = 40, BYTES = 30011 };

/* The results of a run. */
struct result {
    minisign_signature signature;
    minisign_questions questions;
    minisign_unopened_key unopened;
    minisign_secret_key key;
    uint8_t message[sizeof SIGNATURE], text[1024];
    size_t text_len;
    int is_ok;
};

static struct result expected[THREAD_COUNT], actual[THREAD_COUNT];

static void run(struct result *result, int number, int rounds)
{
    const size_t sig_len = sizeof SIGNATURE - 1;
    uint8_t data[BYTES];

    memset(data, number, sizeof data);
    result->is_ok = 1;
    for (int round = 0; round < rounds; round++) {
        minisign_state state;
        minisign_public_key key;

        minisign_init(&state);
        result->is_ok &= minisign_read_public_key(bytes_of(KEY), sizeof KEY - 1, &key) == MINISIGN_OK;
        result->is_ok &= minisign_read_signature(bytes_of(SIGNATURE), sig_len, &result->signature) == MINISIGN_OK;
        result->is_ok &= minisign_ask(&state, &key, &result->signature, bytes_of(SIGNATURE), sig_len, 0, &result->questions,
                                   result->message, sizeof result->message) == MINISIGN_OK;
        result->is_ok &= minisign_update(&state, data, sizeof data) == MINISIGN_OK;
        result->is_ok &= minisign_digest(&state, result->questions.digest) == MINISIGN_OK;
        result->is_ok &= minisign_verdict(&state, YES, number % 2 ? YES : NO)
                      == (number % 2 ? MINISIGN_OK : MINISIGN_COMMENT_SIGNATURE_REFUSED);
        result->is_ok &= read_and_open(SECRET_KEY, NULL, &result->unopened, &result->key) == MINISIGN_OK;
        result->is_ok &= make_signature_file(&result->key, result->questions.signature, result->questions.comment_signature,
                                       bytes_of("12345678"), (size_t) number, NULL, 0, result->text, sizeof result->text,
                                       &result->text_len) == MINISIGN_OK;
    }
}

static void *run_thread(void *number)
{
    int n = (int) (intptr_t) number;

    run(&actual[n], n, ROUNDS);
    return NULL;
}

int main(void)
{
    pthread_t threads[THREAD_COUNT];

    for (int n = 0; n < THREAD_COUNT; n++) {
        CHECK(pthread_create(&threads[n], NULL, run_thread, (void *) (intptr_t) n) == 0);
    }
    for (int n = 0; n < THREAD_COUNT; n++) {
        CHECK(pthread_join(threads[n], NULL) == 0);
    }
    for (int n = 0; n < THREAD_COUNT; n++) {
        run(&expected[n], n, 1);
        CHECK(expected[n].is_ok && actual[n].is_ok);
        CHECK(memcmp(&expected[n], &actual[n], sizeof expected[n]) == 0);
        CHECK(n == 0 || memcmp(expected[n].questions.digest, expected[n - 1].questions.digest, 64) != 0);
    }
    return print_summary();
}
