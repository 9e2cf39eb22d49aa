/* SPDX-License-Identifier: MIT */
/* Clears what a call with a secret has left on the stack and in registers: a proved call, or a call of libsodium. */
#ifndef CLEARING_H
#define CLEARING_H

/*
 * The number of bytes of the stack that are cleared, below the caller's frame. The deepest of the proved calls uses 3
 * KiB, including what the C library uses below it. If the dynamic linker resolves a function of the C library in
 * between, it is 6 KiB. tests/c/cleared_secrets.py measures this. The rest is for signals: if a signal arrives during the call,
 * the system saves all registers on the same stack, below the frames of the call.
 */
#define CLEARED_BYTES 16384

/* Clears the stack and the registers. Must be called right after the call with the secret, from the same function. */
void minisign_clear_used(void);

#endif
