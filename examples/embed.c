/* embed.c: a program of your own around the engine. It lists the tapes that it is given the names of.
 *
 *   (cd crates/engine_c && rt lib && cp out/libengine_c.a ../../libengine.a)
 *   cc -Iinclude -o embed examples/embed.c libengine.a
 *   ./embed a.tape b.tape
 *
 * The status is 0 where all were listed (a refused tape is listed), and 1 where something could not be read or written. */
#include "cube.h"

#include <stdio.h>

static unsigned char tape[CUBE_TAPE_MOST + 1];  /* one byte more, so that a longer file is refused */
static unsigned char listing[CUBE_ROOM];

static int list(const char *name)
{
    FILE *file = fopen(name, "rb");
    size_t length, written;
    int failed;

    if (!file) {
        perror(name);
        return 1;
    }
    length = fread(tape, 1, sizeof tape, file);
    failed = ferror(file);
    if (failed)
        perror(name);
    fclose(file);
    if (failed)
        return 1;
    written = cube_listing(tape, length, listing, sizeof listing);
    if (fwrite(listing, 1, written, stdout) != written) {
        perror("standard output");
        return 1;
    }
    return 0;
}

int main(int count, char **words)
{
    int status = 0, i;

    for (i = 1; i < count; i++)
        status |= list(words[i]);
    if (fflush(stdout) != 0) {
        perror("standard output");
        status = 1;
    }
    return status;
}
