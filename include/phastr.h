/*
 * PHastR's sweep of one level, proved in Rattle, for C and C++.
 *
 * PHastR is a minimal perfect hash function. It is built in levels, and these calls make one: the
 * keys' 64-bit hashes fall into buckets, and each bucket gets the seed that puts its keys on free
 * slots at the least cost. A bucket that no seed fits is bumped, its keys being left to another
 * level; slots that no key took are holes. examples/c/level.c shows the whole way.
 *
 * Link libphastr.a (tools/library makes it); it needs memcpy and memset of the C library alone.
 * docs/RULES.md has the rules that a level follows, and each number with what to do about it.
 *
 * Settings. Every call takes the level's settings one by one, in this order, which is that of struct
 * phastr_settings; PHASTR_SETTINGS(s) writes the five of a struct s out.
 *   m               slots, 1 to 2^27: as many as keys, and 1 where there are none. The few keys of a
 *                   last level want room: n + n/4 + 16 slots for n of them.
 *   log2_slice_len  3 to 16 (PHastR's default 10); small levels have shorter slices
 *   ll              the base-2 logarithm of the layouts: below sb, and log2_slice_len * 2^ll at most
 *                   64 (default 2)
 *   sb              bits of a seed: 2 to 16 (default 8)
 *   buckets         B: odd, at most 67,108,865 (phastr_bucket_count says how many)
 * A hash's bucket is the high half of the 128-bit product of hash and B.
 *
 * Bumped keys go to a further level under new hashes, by a salt of that level's own: under the same
 * hashes they would fall together again.
 *
 * Answers. Every call but phastr_house_table answers 0 or one of the numbers below, the first that
 * applies in the order in which the call names them. It writes only what its comment names, and
 * only where it answers 0; phastr_sweep also writes at 14, phastr_check_level at 28 to 30, and the calls
 * on level files leave what they write zero where they answer another number.
 *
 * What a caller owes. Whatever the numbers and the contents of slices are, a call comes back and
 * keeps to what it was lent. The pointers themselves cannot be checked, so the caller sees to it
 * that
 *   - each pointer is not null and is aligned for its type, also where the length is 0;
 *   - it is good for as many elements as the length (a number of elements, not of bytes) or the
 *     array's size in the declaration says, and these have been written before;
 *   - nothing that is lent for writing (a pointer to what is not const) overlaps anything else that
 *     is lent to the same call;
 *   - no other thread writes what is lent, or reads what is lent for writing, during the call.
 * The calls keep nothing between them and allocate nothing. They may run at the same time on
 * different memory. A sweep takes less than 32 KB of stack, every other call less than 1 KB.
 */
#ifndef PHASTR_H
#define PHASTR_H

#include <stdbool.h>
#include <stddef.h>
#include <stdint.h>

#ifdef __cplusplus
extern "C" {
#endif

/* The version of this header, of its library and of the Rust crate over it; as a number
   10,000 * major + 100 * minor + patch. */
#define PHASTR_VERSION "0.1.0"
#define PHASTR_VERSION_NUMBER 100

/* The settings of a level. */
struct phastr_settings {
    uint64_t m, log2_slice_len, ll, sb, buckets;
};

/* The five settings of a struct phastr_settings, as the calls take them:
   phastr_lookup(PHASTR_SETTINGS(s), seeds, seeds_len, hash, &slot). */
#define PHASTR_SETTINGS(s) (s).m, (s).log2_slice_len, (s).ll, (s).sb, (s).buckets

/* The numbers that calls answer; phastr_number_words tells them in words. 18 and 19 are the sweep list
   program's alone. */
enum phastr_number {
    PHASTR_OK = 0,
    PHASTR_SEED_BITS = 1,
    PHASTR_LAYOUTS = 2,
    PHASTR_SLICE_LEN = 3,
    PHASTR_LAYOUT_BITS = 4,
    PHASTR_SLOTS = 5,
    PHASTR_BUCKETS = 6,
    PHASTR_SLICES_PER_BUCKET = 7,
    PHASTR_WEIGHTS = 8,
    PHASTR_BEGINS = 9,
    PHASTR_LARGE_BUCKET = 10,
    PHASTR_STRAY_HASH = 11,
    PHASTR_TABLE = 12,
    PHASTR_LENGTHS = 13,
    PHASTR_NO_SEED = 14,
    PHASTR_HOLE_BUFFER = 15,
    PHASTR_BUCKET_SIZE = 16,
    PHASTR_KEYS = 17,
    PHASTR_CHUNKS = 20,
    PHASTR_TABLE_LENGTH = 21,
    PHASTR_FILE_SHORT = 22,
    PHASTR_FILE_VERSION = 23,
    PHASTR_FILE_VALUE = 24,
    PHASTR_FILE_LEFT_OVER = 25,
    PHASTR_FILE_ROOM = 26,
    PHASTR_BAD_SEED = 28,
    PHASTR_SLOT_TWICE = 29,
    PHASTR_BITMAP = 30
};

/* A number in words, for people. docs/RULES.md says what to do about it. */
static inline const char *phastr_number_words(uint64_t number) {
    switch (number) {
    case PHASTR_OK:
        return "done";
    case PHASTR_SEED_BITS:
        return "sb is not 2 to 16";
    case PHASTR_LAYOUTS:
        return "ll is not below sb";
    case PHASTR_SLICE_LEN:
        return "log2_slice_len is not 3 to 16";
    case PHASTR_LAYOUT_BITS:
        return "ll is above 6, or log2_slice_len * 2^ll is above 64";
    case PHASTR_SLOTS:
        return "m is not 1 to 134,217,728";
    case PHASTR_BUCKETS:
        return "buckets is even or above 67,108,865";
    case PHASTR_SLICES_PER_BUCKET: /* p = ceil((m + 1 - l) / B), l the slice length */
        return "buckets are too few for m: one spans more than 4,096 slices";
    case PHASTR_WEIGHTS:
        return "a weight lies beyond 2^32 or -2^32";
    case PHASTR_BEGINS:
        return "begins has not B + 1 numbers, does not start at 0, falls, or does not end with the "
               "number of hashes; or there are more than 67,108,864 hashes";
    case PHASTR_LARGE_BUCKET:
        return "a bucket has more than 4,096 keys";
    case PHASTR_STRAY_HASH:
        return "a hash stands in a bucket that is not its own";
    case PHASTR_TABLE:
        return "the table has too few entries, or falls among those that are needed";
    case PHASTR_LENGTHS:
        return "seeds, bitmap, work or slots have not the length that is wanted";
    case PHASTR_NO_SEED:
        return "bumping is forbidden and no seed fits a bucket";
    case PHASTR_HOLE_BUFFER:
        return "there are more holes than the buffer takes";
    case PHASTR_BUCKET_SIZE:
        return "the bucket size is no number from 1 to 64, or above an eighth of 2^log2_slice_len";
    case PHASTR_KEYS:
        return "there are more than 67,108,864 keys";
    case PHASTR_CHUNKS:
        return "chunks is 0";
    case PHASTR_TABLE_LENGTH:
        return "a table has no entries, or more than 131,072";
    case PHASTR_FILE_SHORT:
        return "the file ends too early, or has a number of over 64 bits or ten groups";
    case PHASTR_FILE_VERSION:
        return "the file's version is not 1";
    case PHASTR_FILE_VALUE:
        return "a seed has more than sb bits, there are more holes than slots, or a hole does not rise "
               "or is no slot";
    case PHASTR_FILE_LEFT_OVER:
        return "bytes are left over after the file's last hole";
    case PHASTR_FILE_ROOM:
        return "what is lent has no room for the file, or for what it has";
    case PHASTR_BAD_SEED:
        return "a seed has more than sb bits, or an empty bucket has one that is not 0";
    case PHASTR_SLOT_TWICE:
        return "two keys share a slot";
    case PHASTR_BITMAP:
        return "the bitmap does not mark just the keys' slots";
    default:
        return "no number of this library";
    }
}

/* The slot of a hash whose bucket has seed 0: it was bumped, or is empty. */
#define PHASTR_BUMPED UINT64_MAX

/* The entries of the house table, and of the longest table that phastr_log_table fills. */
#define PHASTR_HOUSE_ENTRIES 2048
#define PHASTR_LOG_ENTRIES 131072

/*
 * How many buckets so many keys get at an expected bucket size (PHastR's default 4.25): keys / size,
 * rounded to the nearest whole number with halves upward, at least 1, and one more if even.
 *
 * Answers 0, 3, 16 or 17. At 0, *count is the number of buckets.
 */
uint64_t phastr_bucket_count(uint64_t log2_slice_len, uint64_t keys, double size, uint64_t *count);

/*
 * What a sweep wants lent if its largest bucket has z keys.
 *
 * Answers 0, 1 to 7, or 10 where z is above 4,096. At 0, sizes[0] is the least number of words of
 * work (W), sizes[1] the least number of entries of the table, and sizes[2] the words of the bitmap.
 */
uint64_t phastr_sizes(uint64_t m, uint64_t log2_slice_len, uint64_t ll, uint64_t sb,
                      uint64_t buckets, uint64_t z, uint64_t sizes[3]);

/*
 * Writes the house table of logarithms: entry d is 2^24 * log2(d), rounded to nearest, and entry 0
 * is 0. It is long enough for slices of up to 1,024 slots where p (see 7) is at most 928; where
 * phastr_sizes asks for more, lend what phastr_log_table fills.
 */
void phastr_house_table(uint32_t table[PHASTR_HOUSE_ENTRIES]);

/*
 * Fills a table of logarithms of 1 to PHASTR_LOG_ENTRIES entries by the same rule, in whole numbers;
 * it begins with the house table, as far as it goes. No settings ask for more than 69,728 entries.
 *
 * Answers 0, or 21 where table_len is 0 or above PHASTR_LOG_ENTRIES.
 */
uint64_t phastr_log_table(uint32_t *table, size_t table_len);

/*
 * Sweeps a level: finds a seed for each bucket.
 *
 *   weights  of buckets of 1 to 7 keys, each within +-2^32: a heavier bucket is taken earlier.
 *            PHastR's for at most 8 bits of a seed: -52000, 53315, 105861, 138629, 156944, 175176,
 *            186591; for more: 46000, 55041, 137806, 184081, 217321, 241846, 256427.
 *   bump     whether a bucket that no seed fits is bumped. If not, it ends the sweep with 14.
 *   chunks   into how many chunks the buckets may be split: 1 for none of it, and what is too many is
 *            cut, so that each chunk has at least 4,096 buckets and 64 gaps. Each chunk is swept by
 *            itself, all but the last a gap short, and then the gaps; what is lent is the same.
 *   hashes   bucket after bucket, in any order within one. Sorted hashes stand so.
 *   begins   B + 1 numbers: bucket b's hashes are those from begins[b] to before begins[b + 1].
 *   table    of logarithms (phastr_house_table, phastr_log_table), as long as phastr_sizes says.
 *   seeds    B of them; bitmap: ceil(m/64) words; work: at least W words (phastr_sizes). What they
 *            hold before does not matter.
 *
 * Answers 0 or the first that applies of 1 to 8, 20 and 9 to 14, in this order.
 * At 0, seeds has one seed to a bucket, 0 for one that is empty or was bumped; bitmap has slot i at
 * bit i mod 64 of word i / 64, set where a key took the slot, and its bits from m on are 0;
 * counts[0] is the keys placed, counts[1] the keys bumped and counts[2] the buckets of seed 0. The
 * first W words of work are 0, those beyond are kept, and *bucket is kept.
 * At 14, *bucket is the first bucket, in the order of the sweep, that no seed fits; seeds, bitmap
 * and the first W words of work are 0, and counts and work beyond are kept.
 */
uint64_t phastr_sweep(uint64_t m, uint64_t log2_slice_len, uint64_t ll, uint64_t sb,
                      uint64_t buckets, const int64_t weights[7], bool bump, uint64_t chunks,
                      const uint64_t *hashes, size_t hashes_len,
                      const uint32_t *begins, size_t begins_len,
                      const uint32_t *table, size_t table_len,
                      uint16_t *seeds, size_t seeds_len,
                      uint64_t *bitmap, size_t bitmap_len,
                      uint64_t *work, size_t work_len,
                      uint64_t counts[3], uint64_t *bucket);

/*
 * Lists the slots below m that are not marked in a bitmap. Bits from m on are passed over.
 *
 * Answers 0, 5, 13 where the bitmap is not ceil(m/64) words long, or 15. At 0, *count is how many
 * holes there are, and they stand, ascending, at the front of out; out beyond them is kept. There
 * are m - counts[0] after a sweep.
 */
uint64_t phastr_holes(uint64_t m, const uint64_t *bitmap, size_t bitmap_len,
                      uint32_t *out, size_t out_len, uint64_t *count);

/*
 * Looks a hash up. A hash that was no key gets some slot too.
 *
 * Answers 0, 1 to 6, or 13 where there is not one seed to a bucket. At 0, *slot is the slot of the
 * hash, or PHASTR_BUMPED.
 */
uint64_t phastr_lookup(uint64_t m, uint64_t log2_slice_len, uint64_t ll, uint64_t sb,
                       uint64_t buckets, const uint16_t *seeds, size_t seeds_len,
                       uint64_t hash, uint64_t *slot);

/*
 * Looks hashes up in one call.
 *
 * Answers as phastr_lookup, and 13 also where there are not as many slots as hashes. At 0, slots[i]
 * is the slot of hashes[i], or PHASTR_BUMPED.
 */
uint64_t phastr_positions(uint64_t m, uint64_t log2_slice_len, uint64_t ll, uint64_t sb,
                          uint64_t buckets, const uint16_t *seeds, size_t seeds_len,
                          const uint64_t *hashes, size_t hashes_len,
                          uint64_t *slots, size_t slots_len);

/*
 * Writes a finished level, without its hashes, as a level file (docs/LEVEL-FILE.md): its settings,
 * its seeds and the holes that phastr_holes lists.
 *
 * Answers 0, 1 to 7, 13 where there is not one seed to a bucket, 24 or 26.
 * At 0, the file stands at the front of out, out beyond it is kept, and *written is its length: at
 * most 16 bytes, 3 for each seed and 4 for each hole. At any other number all of out and *written
 * are 0.
 */
uint64_t phastr_level_write(uint64_t m, uint64_t log2_slice_len, uint64_t ll, uint64_t sb,
                            uint64_t buckets, const uint16_t *seeds, size_t seeds_len,
                            const uint32_t *holes, size_t holes_len,
                            uint8_t *out, size_t out_len, uint64_t *written);

/*
 * Reads a level file. Each number is looked at as it is read.
 *
 * Answers 0 or, of the first number that is wrong: 22, 23; 1 to 7 and then 26 once B is read; 24 or
 * 26; and 25 where all is well but bytes are left over.
 * At 0, level has m, log2_slice_len, ll, sb, B and the number of holes; seeds has B seeds and holes
 * the holes, ascending, at their front, and what lies beyond is kept. At any other number all of
 * seeds, holes and level are 0.
 * As many seeds and as many holes as the file has bytes are room enough for any whole file.
 */
uint64_t phastr_level_read(const uint8_t *bytes, size_t bytes_len, uint16_t *seeds, size_t seeds_len,
                           uint32_t *holes, size_t holes_len, uint64_t level[6]);

/*
 * Checks a finished level, whoever made it, against the grouped hashes it was made from. It accepts
 * exactly when every seed is below 2^sb, every empty bucket has seed 0, no two keys with a nonzero
 * seed share a slot, and the bitmap marks just their slots: bits from m on are 0. It does not ask
 * whether the seeds are the cheapest. Every level that phastr_sweep finishes is accepted.
 *
 *   hashes, begins, seeds, bitmap  as phastr_sweep takes and leaves them
 *   scratch                        as long as the bitmap. What it holds before does not matter.
 *
 * Answers 0; 1 to 7, 9 to 11, or 13 where seeds are not B long or bitmap or scratch not ceil(m/64);
 * 28; 29; or 30. Where it is none of 1 to 13, scratch is 0 afterwards. At 29, *bucket is the lowest
 * bucket at which, going through the buckets upward, a key meets a slot that an earlier key has;
 * else *bucket is kept.
 */
uint64_t phastr_check_level(uint64_t m, uint64_t log2_slice_len, uint64_t ll, uint64_t sb,
                            uint64_t buckets, const uint64_t *hashes, size_t hashes_len,
                            const uint32_t *begins, size_t begins_len,
                            const uint16_t *seeds, size_t seeds_len,
                            const uint64_t *bitmap, size_t bitmap_len,
                            uint64_t *scratch, size_t scratch_len, uint64_t *bucket);

#ifdef __cplusplus
}
#endif

#endif
