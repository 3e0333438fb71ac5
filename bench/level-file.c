/*
 * A level of many keys as a file. The driver makes it once; the count is of the two calls alone.
 *
 *   cc -std=c99 -O2 -Iinclude bench/level-file.c "$(tools/library)/libphastr.a" -o target/c/level-file
 *   target/c/level-file make 10000000 >target/level
 *   valgrind --tool=callgrind --callgrind-out-file=/dev/null --toggle-collect=phastr_level_read target/c/level-file again <target/level
 *   valgrind --tool=callgrind --callgrind-out-file=/dev/null --toggle-collect=phastr_level_write target/c/level-file again <target/level
 *
 * `make` sweeps so many keys at PHastR's defaults and writes the level; `again` reads a file and writes it, which must give the same bytes.
 */
#include <inttypes.h>
#include <stdio.h>
#include <stdlib.h>
#include <string.h>

#include "phastr.h"

static void fail(const char *what, uint64_t number) {
    fprintf(stderr, "level-file: %s, %" PRIu64 "\n", what, number);
    exit(1);
}

static void *room(uint64_t count, size_t size) {
    void *p = calloc((size_t)count + 1, size);
    if (!p)
        fail("no memory", count);
    return p;
}

static uint64_t spread(uint64_t i) {
    uint64_t x = i * 0x9E3779B97F4A7C15;
    x = (x ^ (x >> 30)) * 0xBF58476D1CE4E5B9;
    x = (x ^ (x >> 27)) * 0x94D049BB133111EB;
    return x ^ (x >> 31);
}

static int ascending(const void *a, const void *b) {
    uint64_t x = *(const uint64_t *)a, y = *(const uint64_t *)b;
    return (x > y) - (x < y);
}

static void make(uint64_t keys) {
    static const int64_t weights[7] = {-52000, 53315, 105861, 138629, 156944, 175176, 186591};
    struct phastr_settings s = {keys, 10, 2, 8, 0};
    uint64_t sizes[3], counts[3], bucket, largest = 0, count = 0, written = 0, number;
    number = phastr_bucket_count(s.log2_slice_len, keys, 4.25, &s.buckets);
    if (number)
        fail("buckets", number);
    const uint64_t buckets = s.buckets;
    uint64_t *hashes = room(keys, sizeof *hashes);
    uint32_t *begins = room(buckets + 1, sizeof *begins), table[PHASTR_HOUSE_ENTRIES];
    for (uint64_t i = 0; i < keys; i++)
        hashes[i] = spread(i + 1);
    qsort(hashes, (size_t)keys, sizeof *hashes, ascending);
    for (uint64_t i = 0; i < keys; i++)
        begins[(uint64_t)(((unsigned __int128)hashes[i] * buckets) >> 64) + 1]++;
    for (uint64_t b = 0; b < buckets; b++) {
        if (begins[b + 1] > largest)
            largest = begins[b + 1];
        begins[b + 1] += begins[b];
    }
    number = phastr_sizes(PHASTR_SETTINGS(s), largest, sizes);
    if (number)
        fail("sizes", number);
    uint16_t *seeds = room(buckets, sizeof *seeds);
    uint64_t *bitmap = room(sizes[2], sizeof *bitmap), *work = room(sizes[0], sizeof *work);
    phastr_house_table(table);
    number = phastr_sweep(PHASTR_SETTINGS(s), weights, true, 1, hashes, keys, begins, buckets + 1, table, PHASTR_HOUSE_ENTRIES, seeds,
                          buckets, bitmap, sizes[2], work, sizes[0], counts, &bucket);
    if (number)
        fail("sweep", number);
    uint32_t *holes = room(keys - counts[0], sizeof *holes);
    number = phastr_holes(keys, bitmap, sizes[2], holes, keys - counts[0], &count);
    if (number)
        fail("holes", number);
    uint64_t bytes = 16 + 3 * buckets + 4 * count;
    uint8_t *out = room(bytes, 1);
    number = phastr_level_write(PHASTR_SETTINGS(s), seeds, buckets, holes, count, out, bytes, &written);
    if (number)
        fail("write", number);
    fwrite(out, 1, written, stdout);
}

static void again(void) {
    uint64_t room_now = 1 << 20, bytes = 0, level[6], written = 0, number;
    uint8_t *in = room(room_now, 1);
    for (size_t got; (got = fread(in + bytes, 1, room_now - bytes, stdin)) > 0;) {
        bytes += got;
        if (bytes == room_now && !(in = realloc(in, room_now *= 2)))
            fail("no memory", room_now);
    }
    uint16_t *seeds = room(bytes, sizeof *seeds);
    uint32_t *holes = room(bytes, sizeof *holes);
    uint8_t *out = room(bytes, 1);
    number = phastr_level_read(in, bytes, seeds, bytes, holes, bytes, level);
    if (number)
        fail("read", number);
    const struct phastr_settings s = {level[0], level[1], level[2], level[3], level[4]};
    number = phastr_level_write(PHASTR_SETTINGS(s), seeds, s.buckets, holes, level[5], out, bytes, &written);
    if (number || written != bytes || memcmp(in, out, bytes))
        fail("another file was written", number);
    printf("%" PRIu64 " bytes: %" PRIu64 " seeds, %" PRIu64 " holes, the same again\n", bytes, s.buckets, level[5]);
}

int main(int argc, char **argv) {
    if (argc == 3 && !strcmp(argv[1], "make"))
        make(strtoull(argv[2], NULL, 10));
    else if (argc == 2 && !strcmp(argv[1], "again"))
        again();
    else
        return 2;
    return 0;
}
