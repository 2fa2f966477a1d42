/* main.c: the commands.
 *
 *   peer list < TAPE            the listing of one tape
 *   peer evening < NAMES        the listings of many, one file name to a line
 *   peer watch < TAPE           the listing, with the contracts on offer after each event
 *   peer watches < NAMES        the same of many
 *   peer firms < TAPE           the listing, with the participant of each response that trades
 *   peer all-firms < NAMES      the same of many
 *   peer move new|old < TAPE    the tape in its other form
 *   peer moves new|old < NAMES  the same of many, each in hexadecimal on one line
 *   peer tapes SEED COUNT DIR   random tapes DIR/00000.tape and on
 *   peer stats DIR              what such a folder covers
 *   peer check DIR              whether its results hold up */
#define _POSIX_C_SOURCE 200112L

#include "check.h"
#include "gen.h"
#include "peer.h"

#include <stdio.h>
#include <stdlib.h>
#include <string.h>
#include <sys/stat.h>

static unsigned char tape[GEN_TAPE_MAX];
static unsigned char moved[PEER_TAPE_MAX];
static char listing[PEER_LISTING_MAX > 2 * PEER_TAPE_MAX + 1 ? PEER_LISTING_MAX : 2 * PEER_TAPE_MAX + 1];

/* From a tape to its listing or its watch, or to what else is printed of it. */
typedef size_t printer(const unsigned char *tape, size_t n, char *out);

/* The tape on standard input: 0 if it can't be read. */
static int read_input(size_t *n)
{
    *n = fread(tape, 1, PEER_TAPE_MAX + 1, stdin);
    if (ferror(stdin)) {
        fprintf(stderr, "peer: standard input can't be read\n");
        return 0;
    }
    return 1;
}

static int list(printer *print)
{
    size_t n;

    if (!read_input(&n))
        return 1;
    n = print(tape, n, listing);
    return fwrite(listing, 1, n, stdout) != n;
}

/* The moved bytes, or nothing but a number on standard error. */
static int move(int to_new)
{
    size_t n;
    int number;

    if (!read_input(&n))
        return 1;
    number = peer_move(tape, n, to_new, moved, sizeof moved, &n);
    if (number) {
        fprintf(stderr, "REFUSED %d\n", number);
        return 1;
    }
    return fwrite(moved, 1, n, stdout) != n;
}

/* The moved bytes in hexadecimal, or the number, on one line. */
static size_t print_moved(const unsigned char *from, size_t n, int to_new, char *out)
{
    static const char digit[] = "0123456789abcdef";
    int number = peer_move(from, n, to_new, moved, sizeof moved, &n);
    size_t i;

    if (number)
        return (size_t)sprintf(out, "REFUSED %d\n", number);
    for (i = 0; i < n; i++) {
        out[2 * i] = digit[moved[i] >> 4];
        out[2 * i + 1] = digit[moved[i] & 15];
    }
    out[2 * n] = '\n';
    return 2 * n + 1;
}

static size_t print_new(const unsigned char *from, size_t n, char *out) { return print_moved(from, n, 1, out); }
static size_t print_old(const unsigned char *from, size_t n, char *out) { return print_moved(from, n, 0, out); }

/* Reads one line of any length without its newline: its length, or -1 at the end. */
static long read_line(FILE *f, char **line, size_t *room)
{
    size_t n = 0;
    int c;

    while ((c = getc(f)) != EOF && c != '\n') {
        if (n + 1 >= *room) {
            *room = *room ? 2 * *room : 256;
            *line = realloc(*line, *room);
            if (*line == NULL) {
                fprintf(stderr, "peer: no memory\n");
                exit(1);
            }
        }
        (*line)[n++] = (char)c;
    }
    if (c == EOF && n == 0)
        return -1;
    if (n == 0 && *room == 0) {
        *room = 256;
        *line = realloc(*line, *room);
        if (*line == NULL)
            exit(1);
    }
    (*line)[n] = 0;
    return (long)n;
}

static int evening(printer *print)
{
    char *name = NULL;
    size_t room = 0, n;
    long length;

    while ((length = read_line(stdin, &name, &room)) >= 0) {
        fputs("TAPE ", stdout);
        fwrite(name, 1, (size_t)length, stdout);
        putchar('\n');
        if (strlen(name) != (size_t)length || !read_file(name, tape, &n)) {
            fputs("UNREADABLE ", stdout);
            fwrite(name, 1, (size_t)length, stdout);
            putchar('\n');
            continue;
        }
        n = print(tape, n, listing);
        fwrite(listing, 1, n, stdout);
    }
    free(name);
    return fflush(stdout) != 0 || ferror(stdout);
}

static int tapes(const char *seed, const char *count, const char *dir)
{
    unsigned long long s = strtoull(seed, NULL, 10);
    unsigned long i, c = strtoul(count, NULL, 10);
    char name[1024];

    mkdir(dir, 0777);                       /* it may stand there already */
    for (i = 0; i < c; i++) {
        size_t n = gen_tape(s, (uint32_t)i, tape);
        FILE *f;

        if (snprintf(name, sizeof name, "%s/%05lu.tape", dir, i) >= (int)sizeof name)
            return 1;
        f = fopen(name, "wb");
        if (f == NULL || fwrite(tape, 1, n, f) != n || fclose(f) != 0) {
            fprintf(stderr, "peer: %s can't be written\n", name);
            return 1;
        }
    }
    return 0;
}

int main(int argc, char **argv)
{
    if (argc == 2 && strcmp(argv[1], "list") == 0)
        return list(peer_listing);
    if (argc == 2 && strcmp(argv[1], "evening") == 0)
        return evening(peer_listing);
    if (argc == 2 && strcmp(argv[1], "watch") == 0)
        return list(peer_watch);
    if (argc == 2 && strcmp(argv[1], "watches") == 0)
        return evening(peer_watch);
    if (argc == 2 && strcmp(argv[1], "firms") == 0)
        return list(peer_firms);
    if (argc == 2 && strcmp(argv[1], "all-firms") == 0)
        return evening(peer_firms);
    if (argc == 3 && strcmp(argv[1], "move") == 0 && strcmp(argv[2], "new") == 0)
        return move(1);
    if (argc == 3 && strcmp(argv[1], "move") == 0 && strcmp(argv[2], "old") == 0)
        return move(0);
    if (argc == 3 && strcmp(argv[1], "moves") == 0 && strcmp(argv[2], "new") == 0)
        return evening(print_new);
    if (argc == 3 && strcmp(argv[1], "moves") == 0 && strcmp(argv[2], "old") == 0)
        return evening(print_old);
    if (argc == 5 && strcmp(argv[1], "tapes") == 0)
        return tapes(argv[2], argv[3], argv[4]);
    if (argc == 3 && strcmp(argv[1], "stats") == 0)
        return stats(argv[2]);
    if (argc == 3 && strcmp(argv[1], "check") == 0)
        return check(argv[2]);
    fprintf(stderr, "usage: peer list | evening | watch | watches | firms | all-firms | move new|old | moves new|old |"
                    " tapes SEED COUNT DIR | stats DIR | check DIR\n");
    return 2;
}
