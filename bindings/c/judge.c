/* Random calls on maps and sets of each kind, beside a list of what each key is bound to: each call of the header, and keys at
 * both ends of the kind. RANGE_MAP_CALLS is how many calls there are in all. */
#include "btree_range_map.h"

#include <stdio.h>
#include <stdlib.h>
#include <string.h>

/* The most parts of all keys that a kind has, of which two neighbours at most are one stored range. */
#define PARTS 48

static int failures = 0;

#define EXPECT(holds)                                                       \
    do {                                                                    \
        if (!(holds)) {                                                     \
            failures++;                                                     \
            fprintf(stderr, "%s:%d: not so: %s\n", __FILE__, __LINE__, #holds); \
        }                                                                   \
    } while (0)

static const uint64_t VALUES[] = {0, 1, 0, UINT64_MAX};

static uint64_t state = 88172645463325252u;

/* A random number, good enough for tests (xorshift). */
static int below(int bound) {
    state ^= state << 13;
    state ^= state >> 7;
    state ^= state << 17;
    return (int)(state % (uint64_t)bound);
}

/* The place of what is bound among the values, 0 of nothing; the other way round. 0 is a value too, in the place of 2. */
static int place_of(brm_binding bound) { return !bound.is_bound ? 0 : bound.value == 1 ? 1 : bound.value == 0 ? 2 : 3; }

static brm_binding bound_at(int place) {
    brm_binding bound = {VALUES[place], place > 0};
    return bound;
}

/* What a table says of the place of what is bound, or of the places of two. */
static brm_binding changed(brm_binding bound, void *table) { return bound_at(((const int *)table)[place_of(bound)]); }

static brm_binding merged(brm_binding bound, brm_binding other, void *table) {
    EXPECT(bound.is_bound || other.is_bound);
    return bound_at(((const int(*)[4])table)[place_of(bound)][place_of(other)]);
}

typedef uint64_t number_u64;
typedef int64_t number_i64;

#define KEY uint64_t
#define SUFFIX u64
#define LEAST 0
#define GREATEST UINT64_MAX
#define MIDDLE (UINT64_C(1) << 63)
#define CALLED u64
#define GIVEN(range) range
#define COMPLEMENT brm_set_u64_complement
#include "judge_kind.h"

#define KEY int64_t
#define SUFFIX i64
#define LEAST INT64_MIN
#define GREATEST INT64_MAX
#define MIDDLE 0
#define CALLED i64
#define GIVEN(range) range
#define COMPLEMENT brm_set_i64_complement
#include "judge_kind.h"

#define KEY uint32_t
#define SUFFIX u32
#define LEAST 0
#define GREATEST UINT32_MAX
#define MIDDLE (UINT32_C(1) << 31)
#define CALLED u64
#define GIVEN(range) brm_range_of_u32((uint32_t)range.start, (uint32_t)range.end, range.flags)
#define COMPLEMENT brm_set_u32_complement
#include "judge_kind.h"

/* Keys of 128 bits as numbers of the compiler, which lie in memory as the keys of the header do, and its calls on these. */
typedef unsigned __int128 number_w128 __attribute__((aligned(8)));

typedef struct {
    number_w128 start, end;
    uint32_t flags;
} brm_range_w128;

typedef struct {
    brm_range_w128 range;
    uint64_t value;
} brm_entry_w128;

typedef struct {
    brm_range_w128 range;
    brm_binding binding;
} brm_piece_w128;

_Static_assert(sizeof(brm_entry_w128) == sizeof(brm_entry_u128) && sizeof(brm_piece_w128) == sizeof(brm_piece_u128), "they lie alike");

#define AT(key) ((const void *)(number_w128[]){key})
#define brm_map_w128_create brm_map_u128_create
#define brm_map_w128_len brm_map_u128_len
#define brm_map_w128_get(it, key, found) brm_map_u128_get(it, AT(key), (void *)(found))
#define brm_map_w128_next(it, key, found) brm_map_u128_next(it, AT(key), (void *)(found))
#define brm_map_w128_previous(it, key, found) brm_map_u128_previous(it, AT(key), (void *)(found))
#define brm_map_w128_contains(it, key) brm_map_u128_contains(it, AT(key))
#define brm_map_w128_intersects(it, range) brm_map_u128_intersects(it, (const void *)(range))
#define brm_map_w128_remove(it, range) brm_map_u128_remove(it, (const void *)(range))
#define brm_map_w128_first(it, found) brm_map_u128_first(it, (void *)(found))
#define brm_map_w128_last(it, found) brm_map_u128_last(it, (void *)(found))
#define brm_map_w128_pop_first(it, found) brm_map_u128_pop_first(it, (void *)(found))
#define brm_map_w128_pop_last(it, found) brm_map_u128_pop_last(it, (void *)(found))
#define brm_map_w128_read(it, key, found, room, count) brm_map_u128_read(it, AT(key), (void *)(found), room, count)
#define brm_map_w128_read_back(it, key, found, room, count) brm_map_u128_read_back(it, AT(key), (void *)(found), room, count)
#define brm_map_w128_overlapping(it, range, found, room, count) brm_map_u128_overlapping(it, (const void *)(range), (void *)(found), room, count)
#define brm_map_w128_gaps(it, range, found, room, count) brm_map_u128_gaps(it, (const void *)(range), (void *)(found), room, count)
#define brm_map_w128_pieces(it, range, found, room, count) brm_map_u128_pieces(it, (const void *)(range), (void *)(found), room, count)
#define brm_map_w128_insert_many(it, given, size, count) brm_map_u128_insert_many(it, (const void *)(given), size, count)
#define brm_map_w128_insert(it, range, value) brm_map_u128_insert(it, (const void *)(range), value)
#define brm_map_w128_try_insert(it, range, value) brm_map_u128_try_insert(it, (const void *)(range), value)
#define brm_map_w128_insert_disconnected(it, range, value) brm_map_u128_insert_disconnected(it, (const void *)(range), value)
#define brm_map_w128_get_many(it, keys, bound, size) brm_map_u128_get_many(it, (const void *)(keys), bound, size)
#define brm_map_w128_split_off(it, key, made) brm_map_u128_split_off(it, AT(key), made)
#define brm_map_w128_append brm_map_u128_append
#define brm_map_w128_merge_with brm_map_u128_merge_with
#define brm_map_w128_update(it, range, change, with) brm_map_u128_update(it, (void *)(range), change, with)
#define brm_set_w128_create brm_set_u128_create
#define brm_set_w128_len brm_set_u128_len
#define brm_set_w128_get(it, key, found) brm_set_u128_get(it, AT(key), (void *)(found))
#define brm_set_w128_next(it, key, found) brm_set_u128_next(it, AT(key), (void *)(found))
#define brm_set_w128_previous(it, key, found) brm_set_u128_previous(it, AT(key), (void *)(found))
#define brm_set_w128_contains(it, key) brm_set_u128_contains(it, AT(key))
#define brm_set_w128_intersects(it, range) brm_set_u128_intersects(it, (const void *)(range))
#define brm_set_w128_remove(it, range) brm_set_u128_remove(it, (const void *)(range))
#define brm_set_w128_first(it, found) brm_set_u128_first(it, (void *)(found))
#define brm_set_w128_last(it, found) brm_set_u128_last(it, (void *)(found))
#define brm_set_w128_pop_first(it, found) brm_set_u128_pop_first(it, (void *)(found))
#define brm_set_w128_pop_last(it, found) brm_set_u128_pop_last(it, (void *)(found))
#define brm_set_w128_read(it, key, found, room, count) brm_set_u128_read(it, AT(key), (void *)(found), room, count)
#define brm_set_w128_read_back(it, key, found, room, count) brm_set_u128_read_back(it, AT(key), (void *)(found), room, count)
#define brm_set_w128_overlapping(it, range, found, room, count) brm_set_u128_overlapping(it, (const void *)(range), (void *)(found), room, count)
#define brm_set_w128_gaps(it, range, found, room, count) brm_set_u128_gaps(it, (const void *)(range), (void *)(found), room, count)
#define brm_set_w128_insert_many(it, given, size, count) brm_set_u128_insert_many(it, (const void *)(given), size, count)
#define brm_set_w128_insert(it, range) brm_set_u128_insert(it, (const void *)(range))
#define brm_set_w128_try_insert(it, range) brm_set_u128_try_insert(it, (const void *)(range))
#define brm_set_w128_union brm_set_u128_union
#define brm_set_w128_intersection brm_set_u128_intersection
#define brm_set_w128_difference brm_set_u128_difference
#define brm_set_w128_symmetric_difference brm_set_u128_symmetric_difference
#define brm_set_w128_complement brm_set_u128_complement
#define brm_set_w128_is_subset brm_set_u128_is_subset
#define brm_set_w128_is_disjoint brm_set_u128_is_disjoint

#define KEY number_w128
#define SUFFIX u128
#define LEAST 0
#define GREATEST (~(number_w128)0)
#define MIDDLE ((number_w128)1 << 64)
#define CALLED w128
#define GIVEN(range) range
#define COMPLEMENT brm_set_u128_complement
#include "judge_kind.h"

int main(void) {
    const char *given = getenv("RANGE_MAP_CALLS");
    long calls = (given ? atol(given) : 20000) / 8 + 1;
    make_parts_u64();
    make_parts_i64();
    make_parts_u32();
    make_parts_u128();
    judge_map_u64(calls);
    judge_set_u64(calls);
    judge_map_i64(calls);
    judge_set_i64(calls);
    judge_map_u32(calls);
    judge_set_u32(calls);
    judge_map_u128(calls);
    judge_set_u128(calls);
    printf("judge: %s\n", failures ? "FAILED" : "passed");
    return failures != 0;
}
