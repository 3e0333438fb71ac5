/*
 * Reads cases from standard input, runs each through the library's calls on level files, and writes all that they answer and leave
 * (tools/fuzz-level-file has both sides of the form). What is lent for writing is filled with LENT before.
 *
 *   level-file-cases        lent memory stands between guards, which must stay as they are
 *   level-file-cases exact  lent memory is allocated to its last byte, for valgrind
 */
#include <stdio.h>
#include <stdlib.h>
#include <string.h>

#include "phastr.h"

enum { LENT = 0x5a, GUARD = 0xa5, GUARDS = 64 };

static size_t guards = GUARDS;

struct lent {
    unsigned char *all;
    size_t bytes;
};

/* n elements of a size, with a guard at either side */
static struct lent lend(size_t n, size_t size, int fill) {
    struct lent l = { malloc(n * size + 2 * guards), n * size };
    if (!l.all) exit(2);
    memset(l.all, GUARD, guards);
    memset(l.all + guards, fill, l.bytes);
    memset(l.all + guards + l.bytes, GUARD, guards);
    return l;
}

static void *inside(struct lent l) { return l.all + guards; }

static void give_back(struct lent l) {
    for (size_t i = 0; i < guards; i++)
        if (l.all[i] != GUARD || l.all[guards + l.bytes + i] != GUARD) {
            fputs("a guard was written over\n", stderr);
            exit(1);
        }
    free(l.all);
}

static void take(void *to, size_t bytes) {
    if (bytes && fread(to, bytes, 1, stdin) != 1) exit(2);
}

static uint64_t take_number(void) {
    uint64_t n;
    take(&n, sizeof n);
    return n;
}

static void put(const void *from, size_t bytes) {
    if (bytes && fwrite(from, bytes, 1, stdout) != 1) exit(2);
}

static struct lent take_lent(size_t size) {
    size_t n = take_number();
    struct lent l = lend(n, size, 0);
    take(inside(l), l.bytes);
    return l;
}

static void read_case(void) {
    struct lent bytes = take_lent(1);
    size_t seeds_len = take_number(), holes_len = take_number();
    struct lent seeds = lend(seeds_len, sizeof(uint16_t), LENT), holes = lend(holes_len, sizeof(uint32_t), LENT);
    struct lent level = lend(6, sizeof(uint64_t), LENT);
    uint64_t number = phastr_level_read(inside(bytes), bytes.bytes, inside(seeds), seeds_len, inside(holes), holes_len, inside(level));
    put(&number, sizeof number);
    put(inside(level), level.bytes);
    put(inside(seeds), seeds.bytes);
    put(inside(holes), holes.bytes);
    give_back(bytes), give_back(seeds), give_back(holes), give_back(level);
}

static void write_case(void) {
    uint64_t s[5];
    take(s, sizeof s);
    struct lent seeds = take_lent(sizeof(uint16_t)), holes = take_lent(sizeof(uint32_t));
    size_t out_len = take_number();
    struct lent out = lend(out_len, 1, LENT), written = lend(1, sizeof(uint64_t), LENT);
    uint64_t number = phastr_level_write(s[0], s[1], s[2], s[3], s[4], inside(seeds), seeds.bytes / sizeof(uint16_t), inside(holes),
                                         holes.bytes / sizeof(uint32_t), inside(out), out_len, inside(written));
    put(&number, sizeof number);
    put(inside(written), written.bytes);
    put(inside(out), out.bytes);
    give_back(seeds), give_back(holes), give_back(out), give_back(written);
}

int main(int argc, char **argv) {
    if (argc > 1 && !strcmp(argv[1], "exact")) guards = 0;
    for (int kind; (kind = getchar()) != EOF;)
        if (kind == 'R') read_case();
        else if (kind == 'W') write_case();
        else return 2;
    return 0;
}
