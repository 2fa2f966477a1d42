/* cube.h: the proved engine in a C program.
 *
 * `rt lib` in crates/engine_c makes its static library, for x86-64 Linux; examples/embed.c says how to link it, as libengine.a.
 * One function, from a tape's bytes to the bytes of its listing. It keeps nothing between calls, so several threads may call it at once.
 * It takes at most 3,328 bytes of stack, whatever the tape is, and no other memory than what is handed over. */
#ifndef CUBE_H
#define CUBE_H

#include <stddef.h>

#ifdef __cplusplus
extern "C" {
#endif

/* Every listing fits into so many bytes. */
#define CUBE_ROOM 131072

/* The most bytes that a tape may have. One with more is listed as REFUSED 21. */
#define CUBE_TAPE_MOST 65536

/* Writes the listing of the tape, `length` bytes, at the start of `out`, and answers how many bytes it has. Where `room` is less than CUBE_ROOM
 * nothing is written and the answer is 0. The two blocks of memory may not overlap. Neither pointer may be null, but for a tape with no byte. */
size_t cube_listing(const unsigned char *tape, size_t length, unsigned char *out, size_t room);

#ifdef __cplusplus
}
#endif

#endif
