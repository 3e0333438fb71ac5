/*
 * Levels by way of the library, each checked: document 01's listing, some thousand generated keys in slices
 * of 1,024 slots and in longer ones, and some more in two chunks.
 *
 *   folder=$(tools/library)
 *   cc -std=c99 -Wall -Wextra -Werror -Iinclude examples/c/level.c "$folder/libphastr.a" -o level
 *   ./level
 */
#include <inttypes.h>
#include <stdio.h>
#include <stdlib.h>
#include <string.h>

#include "phastr.h"

/* All that a sweep reads and writes. */
struct level {
    struct phastr_settings s;
    uint64_t *hashes;
    uint32_t *begins;
    uint64_t keys, largest;
    uint16_t *seeds;
    uint64_t *bitmap;
    uint64_t bitmap_words;
    uint64_t counts[3];
};

static void fail(const char *what, uint64_t number) {
    fprintf(stderr, "%s: %s (number %" PRIu64 ")\n", what, phastr_number_words(number), number);
    exit(1);
}

/* What a caller would never see of a proved library. */
static void wrong(const char *what, uint64_t value) {
    fprintf(stderr, "%s: %" PRIu64 "\n", what, value);
    exit(1);
}

/* Memory for count elements, never null: a call wants a good pointer for an empty slice too. */
static void *room(uint64_t count, size_t size) {
    void *memory = calloc(count > 0 ? (size_t)count : 1, size);
    if (memory == NULL) {
        fputs("no memory\n", stderr);
        exit(1);
    }
    return memory;
}

/* The high half of a 128-bit product, by halves of the hash. buckets is below 2^27. */
static uint64_t bucket_of(uint64_t hash, uint64_t buckets) {
    uint64_t low = (hash & 0xFFFFFFFF) * buckets;
    uint64_t high = (hash >> 32) * buckets;
    return (high + (low >> 32)) >> 32;
}

static int ascending(const void *a, const void *b) {
    uint64_t x = *(const uint64_t *)a, y = *(const uint64_t *)b;
    return (x > y) - (x < y);
}

/* Groups the hashes by bucket: sorted they stand bucket after bucket, and begins counts them. */
static void group(struct level *level) {
    qsort(level->hashes, (size_t)level->keys, sizeof *level->hashes, ascending);
    level->begins = room(level->s.buckets + 1, sizeof *level->begins);
    for (uint64_t i = 0; i < level->keys; i++)
        level->begins[bucket_of(level->hashes[i], level->s.buckets) + 1]++;
    for (uint64_t b = 0; b < level->s.buckets; b++) {
        if (level->begins[b + 1] > level->largest)
            level->largest = level->begins[b + 1];
        level->begins[b + 1] += level->begins[b];
    }
}

/* Finds out what the sweep wants lent, lends it, and sweeps. */
static void sweep(struct level *level, const int64_t weights[7], uint64_t chunks) {
    const struct phastr_settings s = level->s;
    uint64_t sizes[3] = {0}, bucket = 0, number;
    number = phastr_sizes(PHASTR_SETTINGS(s), level->largest, sizes);
    if (number != PHASTR_OK)
        fail("sizes", number);
    level->bitmap_words = sizes[2];
    level->seeds = room(s.buckets, sizeof *level->seeds);
    level->bitmap = room(sizes[2], sizeof *level->bitmap);
    uint64_t *work = room(sizes[0], sizeof *work);
    uint32_t *table = room(sizes[1], sizeof *table);
    number = phastr_log_table(table, (size_t)sizes[1]);
    if (number != PHASTR_OK)
        fail("table", number);
    number = phastr_sweep(PHASTR_SETTINGS(s), weights, true, chunks, level->hashes,
                          (size_t)level->keys, level->begins, (size_t)s.buckets + 1, table,
                          (size_t)sizes[1], level->seeds, (size_t)s.buckets, level->bitmap,
                          (size_t)sizes[2], work, (size_t)sizes[0], level->counts, &bucket);
    if (number != PHASTR_OK)
        fail("sweep", number);
    free(table);
    free(work);
}

/* Lists the holes: as many as slots that no key took. */
static uint32_t *holes(const struct level *level, uint64_t *count) {
    uint64_t free_slots = level->s.m - level->counts[0];
    uint32_t *list = room(free_slots, sizeof *list);
    uint64_t number = phastr_holes(level->s.m, level->bitmap, (size_t)level->bitmap_words, list,
                                   (size_t)free_slots, count);
    if (number != PHASTR_OK)
        fail("holes", number);
    return list;
}

static uint64_t lookup(const struct level *level, uint64_t hash) {
    const struct phastr_settings s = level->s;
    uint64_t slot = 0, number;
    number = phastr_lookup(PHASTR_SETTINGS(s), level->seeds,
                           (size_t)s.buckets, hash, &slot);
    if (number != PHASTR_OK)
        fail("lookup", number);
    return slot;
}

static void print_list(const struct level *level) {
    uint64_t count = 0;
    uint32_t *list = holes(level, &count);
    printf("sweep %" PRIu64 " %" PRIu64 " %" PRIu64, level->s.m, level->s.buckets, level->keys);
    printf(" %" PRIu64 " %" PRIu64 " %" PRIu64 " %" PRIu64 "\n", level->counts[0],
           level->counts[1], level->counts[2], count);
    for (uint64_t b = 0; b < level->s.buckets; b++)
        printf("bucket %" PRIu64 " %" PRIu32 " %" PRIu16 "\n", b,
               level->begins[b + 1] - level->begins[b], level->seeds[b]);
    for (uint64_t i = 0; i < count; i++)
        printf("hole %" PRIu32 "\n", list[i]);
    free(list);
}

static void let_go(struct level *level) {
    free(level->hashes);
    free(level->begins);
    free(level->seeds);
    free(level->bitmap);
}

/* Document 01's listing. */
static void listing(void) {
    static const int64_t weights[7] = {2048, 0, 0, 0, 0, 0, 0};
    static const uint64_t keys[3] = {(uint64_t)1 << 62, ((uint64_t)1 << 62) + 3, (uint64_t)1 << 63};
    struct level level = {.s = {7, 3, 0, 4, 3}, .keys = 3};
    level.hashes = room(3, sizeof *level.hashes);
    for (int i = 0; i < 3; i++)
        level.hashes[i] = keys[i];
    group(&level);
    sweep(&level, weights, 1);
    print_list(&level);
    let_go(&level);
}

/* A number that is spread like a hash (splitmix64). */
static uint64_t spread(uint64_t i) {
    uint64_t x = i * 0x9E3779B97F4A7C15;
    x = (x ^ (x >> 30)) * 0xBF58476D1CE4E5B9;
    x = (x ^ (x >> 27)) * 0x94D049BB133111EB;
    return x ^ (x >> 31);
}

/* Looks each key up, together and by itself. Answers how many were bumped; each other must have a
 * marked slot of its own. */
static uint64_t look_up_all(const struct level *level) {
    const struct phastr_settings s = level->s;
    uint64_t *slots = room(level->keys, sizeof *slots), bumped = 0;
    unsigned char *seen = room(s.m, 1);
    uint64_t number =
        phastr_positions(PHASTR_SETTINGS(s), level->seeds,
                         (size_t)s.buckets, level->hashes, (size_t)level->keys, slots,
                         (size_t)level->keys);
    if (number != PHASTR_OK)
        fail("positions", number);
    for (uint64_t i = 0; i < level->keys; i++) {
        uint64_t slot = lookup(level, level->hashes[i]);
        if (slot != slots[i])
            wrong("a key with two answers", slot);
        if (slot == PHASTR_BUMPED) {
            bumped++;
            continue;
        }
        if (slot >= s.m || seen[slot] || !(level->bitmap[slot / 64] >> (slot % 64) & 1))
            wrong("a slot that is not the key's own", slot);
        seen[slot] = 1;
    }
    free(seen);
    free(slots);
    return bumped;
}

/* Writes the level as a file, reads that back and compares. Answers the file's length. */
static uint64_t hand_round(const struct level *level, const uint32_t *list, uint64_t count) {
    const struct phastr_settings s = level->s;
    size_t bytes = (size_t)(16 + 3 * s.buckets + 4 * count);
    uint8_t *file = room(bytes, 1);
    uint64_t written = 0, read[6] = {0}, number;
    number = phastr_level_write(PHASTR_SETTINGS(s), level->seeds, (size_t)s.buckets, list,
                                (size_t)count, file, bytes, &written);
    if (number != PHASTR_OK)
        fail("file written", number);
    uint16_t *seeds = room(written, sizeof *seeds);
    uint32_t *again = room(written, sizeof *again);
    number = phastr_level_read(file, (size_t)written, seeds, (size_t)written, again, (size_t)written, read);
    if (number != PHASTR_OK)
        fail("file read", number);
    if (read[0] != s.m || read[1] != s.log2_slice_len || read[2] != s.ll || read[3] != s.sb ||
        read[4] != s.buckets || read[5] != count ||
        memcmp(seeds, level->seeds, (size_t)s.buckets * sizeof *seeds) ||
        memcmp(again, list, (size_t)count * sizeof *again))
        wrong("another level was read, of so many holes", read[5]);
    free(again);
    free(seeds);
    free(file);
    return written;
}

/* Checks a level against its keys. Answers the number; at 29, *bucket is the one that it names. */
static uint64_t check(const struct level *level, uint64_t *bucket) {
    const struct phastr_settings s = level->s;
    uint64_t *scratch = room(level->bitmap_words, sizeof *scratch);
    uint64_t number = phastr_check_level(
        PHASTR_SETTINGS(s), level->hashes, (size_t)level->keys,
        level->begins, (size_t)s.buckets + 1, level->seeds, (size_t)s.buckets, level->bitmap,
        (size_t)level->bitmap_words, scratch, (size_t)level->bitmap_words, bucket);
    free(scratch);
    return number;
}

/* A level that is sound, and the same with its last seed gone and with its first key twice. */
static void check_spoilt(struct level *level) {
    uint64_t bucket = 77, number = check(level, &bucket), last = level->s.buckets;
    if (number != PHASTR_OK)
        fail("check", number);
    while (last > 0 && level->seeds[last - 1] == 0)
        last--;
    if (last < 2)
        return;
    uint16_t seed = level->seeds[last - 1];
    level->seeds[last - 1] = 0;
    printf("without its last seed: refused %" PRIu64, check(level, &bucket));
    level->seeds[last - 1] = seed;
    uint64_t first = level->hashes[0];
    level->hashes[0] = level->hashes[1];
    number = check(level, &bucket);
    level->hashes[0] = first;
    printf("; with a key twice: refused %" PRIu64 ", bucket %" PRIu64 "\n", number, bucket);
}

/* Generated keys: as many slots as keys, and but for the slices PHastR's defaults. */
static void generated(uint64_t keys, uint64_t log2_slice_len, uint64_t chunks) {
    static const int64_t weights[7] = {-52000, 53315, 105861, 138629, 156944, 175176, 186591};
    struct level level = {.s = {keys, log2_slice_len, 2, 8, 0}, .keys = keys};
    uint64_t number = phastr_bucket_count(log2_slice_len, keys, 4.25, &level.s.buckets);
    uint64_t count = 0;
    if (number != PHASTR_OK)
        fail("bucket count", number);
    level.hashes = room(keys, sizeof *level.hashes);
    for (uint64_t i = 0; i < keys; i++)
        level.hashes[i] = spread(i + 1);
    group(&level);
    sweep(&level, weights, chunks);
    uint32_t *list = holes(&level, &count);
    uint64_t written = hand_round(&level, list, count);
    free(list);
    uint64_t bumped = look_up_all(&level);
    if (bumped != level.counts[1] || level.counts[0] + bumped != keys || count != bumped)
        wrong("bumped keys miscounted", bumped);
    printf("%" PRIu64 " keys in %" PRIu64 " buckets, %" PRIu64 " chunks: %" PRIu64 " placed, %" PRIu64
           " bumped, %" PRIu64 " buckets of seed 0, %" PRIu64 " holes; a file of %" PRIu64 " bytes\n",
           keys, level.s.buckets, chunks, level.counts[0], bumped, level.counts[2], count, written);
    check_spoilt(&level);
    let_go(&level);
}

static void print_number(uint64_t number) {
    printf("refused %" PRIu64 " (%s), ", number, phastr_number_words(number));
}

/* Numbers and slices that are refused: nothing is written, and of a level file zeros are left. */
static void refused(void) {
    uint16_t seeds[2] = {1, 1};
    uint64_t slot = 77, number = phastr_lookup(7, 3, 0, 4, 3, seeds, 2, 0, &slot);
    print_number(number);
    printf("slot kept at %" PRIu64 "\n", slot);
    uint64_t count = 77;
    number = phastr_bucket_count(10, 100, 64.5, &count);
    print_number(number);
    printf("count kept at %" PRIu64 "\n", count);
    uint32_t entry = 77;
    number = phastr_log_table(&entry, 0);
    print_number(number);
    printf("entry kept at %" PRIu32 "\n", entry);
    uint8_t file[] = {1, 7, 3, 0, 4, 3, 3, 16};
    uint32_t hole = 77;
    uint64_t read[6] = {77, 77, 77, 77, 77, 77};
    uint16_t three[3] = {77, 77, 77};
    number = phastr_level_read(file, sizeof file, three, 3, &hole, 1, read);
    print_number(number);
    printf("a seed, a hole and m left at %" PRIu16 ", %" PRIu32 ", %" PRIu64 "\n", three[0], hole, read[0]);
}

/* The house table is the front of a longer one. */
static void tables(void) {
    uint32_t house[PHASTR_HOUSE_ENTRIES];
    uint32_t *table = room(PHASTR_LOG_ENTRIES, sizeof *table);
    uint64_t number = phastr_log_table(table, PHASTR_LOG_ENTRIES);
    if (number != PHASTR_OK)
        fail("table", number);
    phastr_house_table(house);
    for (size_t d = 0; d < PHASTR_HOUSE_ENTRIES; d++)
        if (table[d] != house[d])
            wrong("another house table at entry", d);
    printf("entries %" PRIu32 " %" PRIu32 " %" PRIu32 "\n", table[3], table[2047], table[131071]);
    free(table);
}

int main(void) {
    listing();
    generated(1, 10, 1);
    generated(5000, 10, 1);
    generated(40000, 14, 1);
    generated(150000, 10, 1);
    generated(150000, 10, 2);
    tables();
    refused();
    return 0;
}
