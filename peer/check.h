/* check.h: what a folder of tapes covers, and whether its results hold up. */
#ifndef CHECK_H
#define CHECK_H

#include "peer.h"

/* Reads a file whole, up to one byte past the greatest length: 0 if it can't. */
int read_file(const char *name, unsigned char *out, size_t *n);

/* DIR/00000.tape and on, up to the first that is missing. */
int stats(const char *dir);
int check(const char *dir);

#endif
