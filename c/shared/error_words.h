/* SPDX-License-Identifier: MIT */
/* Describes errors of the library in the messages of the programs. */
#ifndef ERROR_WORDS_H
#define ERROR_WORDS_H

#include "system.h"

#include "minisign.h"

/* Writes the description of an error: the text of minisign_error_text, or a clearer one if the programs have one. */
void describe_error(enum minisign_error error, char text[MINISIGN_ERROR_TEXT_BYTES]);

#endif
