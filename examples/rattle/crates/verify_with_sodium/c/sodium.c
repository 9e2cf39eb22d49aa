/* SPDX-License-Identifier: MIT */
/* Implements the functions that src/c_calls.rt declares. They are not part of libsodium, but call it. Rattle passes a slice as
 * a pointer and a length. The lengths of seeds, keys and signatures need not be checked here, because the contracts of the
 * declarations require the lengths that libsodium needs, and it is proved that every caller obeys the contracts. */
#include <stdbool.h>
#include <stddef.h>
#include <stdint.h>
#include <string.h>

#include <sodium.h>

void sodium_public_of(const uint8_t *seed, size_t seed_len, uint8_t *public_key, size_t public_key_len)
{
    uint8_t secret_key[64];

    crypto_sign_seed_keypair(public_key, secret_key, seed);
    sodium_memzero(secret_key, sizeof secret_key);
    (void) seed_len;
    (void) public_key_len;
}

void sodium_sign(const uint8_t *message, size_t len, const uint8_t *secret_key, size_t secret_key_len, uint8_t *signature,
                 size_t signature_len)
{
    crypto_sign_detached(signature, NULL, message, len, secret_key);
    (void) secret_key_len;
    (void) signature_len;
}

bool sodium_accepts(const uint8_t *message, size_t len, const uint8_t *public_key, size_t public_key_len, const uint8_t *signature,
                    size_t signature_len)
{
    (void) public_key_len;
    (void) signature_len;
    return crypto_sign_verify_detached(signature, message, len, public_key) == 0;
}

bool sodium_start(void)
{
    return sodium_init() >= 0;
}
