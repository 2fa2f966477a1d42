/* gen.h: random tapes aimed at the edges of the rules. */
#ifndef GEN_H
#define GEN_H

#include "peer.h"

#define GEN_TAPE_MAX (PEER_TAPE_MAX + 1000)     /* some tapes are made too long */

/* Tape number index of a seed; out has room for GEN_TAPE_MAX bytes. The
 * same seed and index give the same bytes on every machine. */
size_t gen_tape(uint64_t seed, uint32_t index, unsigned char *out);

#endif
