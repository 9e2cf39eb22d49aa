/* SPDX-License-Identifier: MIT */
/* Signs files: minisign -S. */
#ifndef SIGNING_H
#define SIGNING_H

#include "options.h"

/* Signs the files that the options name, and returns the exit status. */
int sign_files(const struct options *options);

#endif
