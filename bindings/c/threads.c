/* Several threads read one map and one set of each kind of keys at once, and each has maps of its own that move to it. Run
 * under helgrind, which tells of a read beside a write that nothing orders. */
#include "btree_range_map.h"

#include <pthread.h>
#include <stdio.h>
#include <string.h>

enum { THREADS = 4, RANGES = 300 };

typedef struct {
    const brm_handle *shared, *shared_signed, *shared_wide, *shared_keys, *shared_signed_keys, *shared_wide_keys;
    brm_handle own, own_signed;
    unsigned long wrong;
} job;

static void fill(brm_handle *map, job *it) {
    for (uint64_t i = 0; i < RANGES; i++) {
        brm_range_u64 range = {10 * i, 10 * i + 5, BRM_END_EXCLUDED};
        it->wrong += brm_map_u64_insert(map, &range, i) != BRM_DONE;
    }
}

/* The least of the signed keys: half of them are below 0. */
enum { LEAST = -5 * RANGES };

static void fill_signed(brm_handle *map, job *it) {
    for (int64_t i = 0; i < RANGES; i++) {
        brm_range_i64 range = {LEAST + 10 * i, LEAST + 10 * i + 5, BRM_END_EXCLUDED};
        it->wrong += brm_map_i64_insert(map, &range, (uint64_t)i) != BRM_DONE;
    }
}

static void fill_keys(brm_handle *set, job *it) {
    for (uint64_t i = 0; i < RANGES; i++) {
        brm_range_u64 range = {10 * i, 10 * i + 5, BRM_END_EXCLUDED};
        it->wrong += brm_set_u64_insert(set, &range) != BRM_DONE;
    }
}

static void fill_signed_keys(brm_handle *set, job *it) {
    for (int64_t i = 0; i < RANGES; i++) {
        brm_range_i64 range = {LEAST + 10 * i, LEAST + 10 * i + 5, BRM_END_EXCLUDED};
        it->wrong += brm_set_i64_insert(set, &range) != BRM_DONE;
    }
}

/* The keys of 128 bits: the half of them below 2^64, and the others from there on. A key is kept until the next call with its digit. */
static const brm_u128 *at(uint64_t key) {
    static __thread brm_u128 kept[2];
    brm_u128 *it = &kept[key % 2];
    *it = brm_u128_of(key < 5 * RANGES ? 0 : 1, key);
    return it;
}

static void fill_wide(brm_handle *map, brm_handle *set, job *it) {
    for (uint64_t i = 0; i < RANGES; i++) {
        brm_range_u128 range = {*at(10 * i), *at(10 * i + 5), BRM_END_EXCLUDED};
        it->wrong += brm_map_u128_insert(map, &range, i) != BRM_DONE || brm_set_u128_insert(set, &range) != BRM_DONE;
    }
}

/* Each call that reads, over all ranges. */
static void read_all(const brm_handle *map, job *it) {
    brm_range_u64 every = {0, 0, BRM_START_UNBOUNDED | BRM_END_UNBOUNDED};
    brm_entry_u64 entry = {{0, 0, 0}, 0}, entries[10];
    brm_range_u64 gaps[10];
    brm_piece_u64 pieces[10];
    brm_binding bound[2];
    uint64_t keys[] = {4, 5};
    size_t read = 0;
    brm_key_count count = {0, 0};
    uint8_t text[8];
    size_t size = 0;
    for (uint64_t i = 0; i < RANGES; i++) {
        it->wrong += brm_map_u64_get(map, 10 * i + 4, &entry) != BRM_DONE || entry.value != i;
        it->wrong += brm_map_u64_contains(map, 10 * i + 5) != BRM_NONE;
        it->wrong += brm_map_u64_next(map, 10 * i, &entry) != BRM_DONE || entry.value != i;
        it->wrong += brm_map_u64_previous(map, 10 * i, &entry) != BRM_DONE || entry.value != i;
    }
    it->wrong += brm_map_u64_intersects(map, &every) != BRM_DONE || brm_count(map) != RANGES;
    it->wrong += brm_map_u64_len(map, &count) != BRM_DONE || count.low != 5 * RANGES;
    it->wrong += brm_map_u64_first(map, &entry) != BRM_DONE || brm_map_u64_last(map, &entry) != BRM_DONE;
    memset(entries, 0, sizeof entries);
    memset(gaps, 0, sizeof gaps);
    memset(pieces, 0, sizeof pieces);
    memset(bound, 0, sizeof bound);
    it->wrong += brm_map_u64_read(map, 0, entries, 10, &read) != BRM_DONE || entries[9].value != 9;
    it->wrong += brm_map_u64_read_back(map, 99, entries, 10, &read) != BRM_DONE || read != 10;
    it->wrong += brm_map_u64_overlapping(map, &every, entries, 10, &read) != BRM_DONE || entries[9].value != 9;
    it->wrong += brm_map_u64_gaps(map, &every, gaps, 10, &read) != BRM_DONE || gaps[9].start != 95;
    it->wrong += brm_map_u64_pieces(map, &every, pieces, 10, &read) != BRM_DONE || pieces[8].binding.value != 4;
    it->wrong += brm_map_u64_get_many(map, keys, bound, 2) != BRM_DONE || !bound[0].is_bound || bound[1].is_bound;
    it->wrong += brm_save(map, text, sizeof text, &size) != BRM_NO_ROOM;
}

/* The same of a map of signed keys. */
static void read_signed(const brm_handle *map, job *it) {
    brm_range_i64 every = {0, 0, BRM_START_UNBOUNDED | BRM_END_UNBOUNDED};
    brm_entry_i64 entry = {{0, 0, 0}, 0}, entries[10];
    brm_range_i64 gaps[10];
    brm_piece_i64 pieces[10];
    brm_binding bound[2];
    int64_t keys[] = {LEAST + 4, LEAST + 5};
    size_t read = 0, size = 0;
    brm_key_count count = {0, 0};
    uint8_t text[8];
    for (int64_t i = 0; i < RANGES; i++) {
        int64_t key = LEAST + 10 * i;
        uint64_t value = (uint64_t)i;
        it->wrong += brm_map_i64_get(map, key + 4, &entry) != BRM_DONE || entry.value != value;
        it->wrong += brm_map_i64_contains(map, key + 5) != BRM_NONE;
        it->wrong += brm_map_i64_next(map, key, &entry) != BRM_DONE || entry.value != value;
        it->wrong += brm_map_i64_previous(map, key, &entry) != BRM_DONE || entry.value != value;
    }
    it->wrong += brm_map_i64_intersects(map, &every) != BRM_DONE || brm_count(map) != RANGES;
    it->wrong += brm_map_i64_len(map, &count) != BRM_DONE || count.low != 5 * RANGES;
    it->wrong += brm_map_i64_first(map, &entry) != BRM_DONE || brm_map_i64_last(map, &entry) != BRM_DONE;
    memset(entries, 0, sizeof entries);
    memset(gaps, 0, sizeof gaps);
    memset(pieces, 0, sizeof pieces);
    memset(bound, 0, sizeof bound);
    it->wrong += brm_map_i64_read(map, LEAST, entries, 10, &read) != BRM_DONE || entries[9].value != 9;
    it->wrong += brm_map_i64_read_back(map, LEAST + 99, entries, 10, &read) != BRM_DONE || read != 10;
    it->wrong += brm_map_i64_overlapping(map, &every, entries, 10, &read) != BRM_DONE || entries[9].value != 9;
    it->wrong += brm_map_i64_gaps(map, &every, gaps, 10, &read) != BRM_DONE || gaps[9].start != LEAST + 85;
    it->wrong += brm_map_i64_pieces(map, &every, pieces, 10, &read) != BRM_DONE || pieces[9].binding.value != 4;
    it->wrong += brm_map_i64_get_many(map, keys, bound, 2) != BRM_DONE || !bound[0].is_bound || bound[1].is_bound;
    it->wrong += brm_save(map, text, sizeof text, &size) != BRM_NO_ROOM;
}

/* The same of a set of the same keys. */
static void read_keys(const brm_handle *set, job *it) {
    brm_range_u64 every = {0, 0, BRM_START_UNBOUNDED | BRM_END_UNBOUNDED};
    brm_range_u64 range = {0, 0, 0}, ranges[10];
    brm_key_count count = {0, 0};
    uint8_t text[8];
    size_t read = 0, size = 0;
    for (uint64_t i = 0; i < RANGES; i++) {
        it->wrong += brm_set_u64_get(set, 10 * i + 4, &range) != BRM_DONE || range.start != 10 * i;
        it->wrong += brm_set_u64_contains(set, 10 * i + 5) != BRM_NONE;
        it->wrong += brm_set_u64_next(set, 10 * i, &range) != BRM_DONE || range.start != 10 * i;
        it->wrong += brm_set_u64_previous(set, 10 * i, &range) != BRM_DONE || range.start != 10 * i;
    }
    it->wrong += brm_set_u64_intersects(set, &every) != BRM_DONE || brm_count(set) != RANGES;
    it->wrong += brm_set_u64_len(set, &count) != BRM_DONE || count.low != 5 * RANGES;
    it->wrong += brm_set_u64_first(set, &range) != BRM_DONE || brm_set_u64_last(set, &range) != BRM_DONE;
    memset(ranges, 0, sizeof ranges);
    it->wrong += brm_set_u64_read(set, 0, ranges, 10, &read) != BRM_DONE || ranges[9].start != 90;
    it->wrong += brm_set_u64_read_back(set, 99, ranges, 10, &read) != BRM_DONE || ranges[9].start != 0;
    it->wrong += brm_set_u64_overlapping(set, &every, ranges, 10, &read) != BRM_DONE || ranges[9].start != 90;
    it->wrong += brm_set_u64_gaps(set, &every, ranges, 10, &read) != BRM_DONE || ranges[9].start != 95;
    it->wrong += brm_save(set, text, sizeof text, &size) != BRM_NO_ROOM;
}

/* The same of a set of signed keys. */
static void read_signed_keys(const brm_handle *set, job *it) {
    brm_range_i64 every = {0, 0, BRM_START_UNBOUNDED | BRM_END_UNBOUNDED};
    brm_range_i64 range = {0, 0, 0}, ranges[10];
    brm_key_count count = {0, 0};
    uint8_t text[8];
    size_t read = 0, size = 0;
    for (int64_t i = 0; i < RANGES; i++) {
        int64_t key = LEAST + 10 * i;
        it->wrong += brm_set_i64_get(set, key + 4, &range) != BRM_DONE || range.start != key;
        it->wrong += brm_set_i64_contains(set, key + 5) != BRM_NONE;
        it->wrong += brm_set_i64_next(set, key, &range) != BRM_DONE || range.start != key;
        it->wrong += brm_set_i64_previous(set, key, &range) != BRM_DONE || range.start != key;
    }
    it->wrong += brm_set_i64_intersects(set, &every) != BRM_DONE || brm_count(set) != RANGES;
    it->wrong += brm_set_i64_len(set, &count) != BRM_DONE || count.low != 5 * RANGES;
    it->wrong += brm_set_i64_first(set, &range) != BRM_DONE || brm_set_i64_last(set, &range) != BRM_DONE;
    memset(ranges, 0, sizeof ranges);
    it->wrong += brm_set_i64_read(set, LEAST, ranges, 10, &read) != BRM_DONE || ranges[9].start != LEAST + 90;
    it->wrong += brm_set_i64_read_back(set, LEAST + 99, ranges, 10, &read) != BRM_DONE || ranges[9].start != LEAST;
    it->wrong += brm_set_i64_overlapping(set, &every, ranges, 10, &read) != BRM_DONE || ranges[9].start != LEAST + 90;
    it->wrong += brm_set_i64_gaps(set, &every, ranges, 10, &read) != BRM_DONE || ranges[9].start != LEAST + 85;
    it->wrong += brm_save(set, text, sizeof text, &size) != BRM_NO_ROOM;
}

/* The same of a map of keys of 128 bits, and of a set of them. */
static void read_wide(const brm_handle *map, job *it) {
    brm_range_u128 every = {{0, 0}, {0, 0}, BRM_START_UNBOUNDED | BRM_END_UNBOUNDED};
    brm_entry_u128 entry = {{{0, 0}, {0, 0}, 0}, 0}, entries[10];
    brm_range_u128 gaps[10];
    brm_piece_u128 pieces[10];
    brm_prefix_u128 prefixes[3 * RANGES];
    brm_binding bound[2];
    brm_u128 keys[] = {*at(4), *at(5)};
    size_t read = 0;
    brm_key_count count = {0, 0};
    uint8_t text[8];
    size_t size = 0;
    for (uint64_t i = 0; i < RANGES; i++) {
        it->wrong += brm_map_u128_get(map, at(10 * i + 4), &entry) != BRM_DONE || entry.value != i;
        it->wrong += brm_map_u128_contains(map, at(10 * i + 5)) != BRM_NONE;
        it->wrong += brm_map_u128_next(map, at(10 * i), &entry) != BRM_DONE || entry.value != i;
        it->wrong += brm_map_u128_previous(map, at(10 * i), &entry) != BRM_DONE || entry.value != i;
    }
    it->wrong += brm_map_u128_intersects(map, &every) != BRM_DONE || brm_count(map) != RANGES;
    it->wrong += brm_map_u128_len(map, &count) != BRM_DONE || count.low != 5 * RANGES;
    it->wrong += brm_map_u128_first(map, &entry) != BRM_DONE || brm_map_u128_last(map, &entry) != BRM_DONE;
    memset(entries, 0, sizeof entries);
    memset(gaps, 0, sizeof gaps);
    memset(pieces, 0, sizeof pieces);
    memset(bound, 0, sizeof bound);
    it->wrong += brm_map_u128_read(map, at(0), entries, 10, &read) != BRM_DONE || entries[9].value != 9;
    it->wrong += brm_map_u128_read_back(map, at(99), entries, 10, &read) != BRM_DONE || read != 10;
    it->wrong += brm_map_u128_overlapping(map, &every, entries, 10, &read) != BRM_DONE || entries[9].value != 9;
    it->wrong += brm_map_u128_gaps(map, &every, gaps, 10, &read) != BRM_DONE || gaps[9].start.low != 95;
    it->wrong += brm_map_u128_pieces(map, &every, pieces, 10, &read) != BRM_DONE || pieces[8].binding.value != 4;
    /* from an even key on: two keys, or a longer block, and the rest of five */
    it->wrong += brm_map_u128_shortest(map, prefixes, 3 * RANGES, &read) != BRM_DONE || read < 2 * RANGES;
    it->wrong += brm_map_u128_get_many(map, keys, bound, 2) != BRM_DONE || !bound[0].is_bound || bound[1].is_bound;
    it->wrong += brm_save(map, text, sizeof text, &size) != BRM_NO_ROOM;
}

static void read_wide_keys(const brm_handle *set, job *it) {
    brm_range_u128 every = {{0, 0}, {0, 0}, BRM_START_UNBOUNDED | BRM_END_UNBOUNDED};
    brm_range_u128 range = {{0, 0}, {0, 0}, 0}, ranges[10];
    brm_key_count count = {0, 0};
    uint8_t text[8];
    size_t read = 0, size = 0;
    for (uint64_t i = 0; i < RANGES; i++) {
        it->wrong += brm_set_u128_get(set, at(10 * i + 4), &range) != BRM_DONE || range.start.low != 10 * i;
        it->wrong += brm_set_u128_contains(set, at(10 * i + 5)) != BRM_NONE;
        it->wrong += brm_set_u128_next(set, at(10 * i), &range) != BRM_DONE || range.start.low != 10 * i;
        it->wrong += brm_set_u128_previous(set, at(10 * i), &range) != BRM_DONE || range.start.low != 10 * i;
    }
    it->wrong += brm_set_u128_intersects(set, &every) != BRM_DONE || brm_count(set) != RANGES;
    it->wrong += brm_set_u128_len(set, &count) != BRM_DONE || count.low != 5 * RANGES;
    it->wrong += brm_set_u128_first(set, &range) != BRM_DONE || brm_set_u128_last(set, &range) != BRM_DONE;
    memset(ranges, 0, sizeof ranges);
    it->wrong += brm_set_u128_read(set, at(0), ranges, 10, &read) != BRM_DONE || ranges[9].start.low != 90;
    it->wrong += brm_set_u128_read_back(set, at(99), ranges, 10, &read) != BRM_DONE || ranges[9].start.low != 0;
    it->wrong += brm_set_u128_overlapping(set, &every, ranges, 10, &read) != BRM_DONE || ranges[9].start.low != 90;
    it->wrong += brm_set_u128_gaps(set, &every, ranges, 10, &read) != BRM_DONE || ranges[9].start.low != 95;
    it->wrong += brm_save(set, text, sizeof text, &size) != BRM_NO_ROOM;
}

typedef brm_status of_one(const brm_handle *set, brm_handle *made);
typedef brm_status of_two(const brm_handle *set, const brm_handle *other, brm_handle *made);
typedef brm_status about_two(const brm_handle *set, const brm_handle *other);

/* The calls on sets of one kind of keys that make a set of two or of one, or ask about two. */
typedef struct {
    of_two *made[4];
    of_one *complement;
    about_two *is_subset, *is_disjoint;
} set_calls;

static const set_calls UNSIGNED = {
    {brm_set_u64_union, brm_set_u64_intersection, brm_set_u64_difference, brm_set_u64_symmetric_difference},
    brm_set_u64_complement, brm_set_u64_is_subset, brm_set_u64_is_disjoint};

static const set_calls SIGNED = {
    {brm_set_i64_union, brm_set_i64_intersection, brm_set_i64_difference, brm_set_i64_symmetric_difference},
    brm_set_i64_complement, brm_set_i64_is_subset, brm_set_i64_is_disjoint};

static const set_calls WIDE = {
    {brm_set_u128_union, brm_set_u128_intersection, brm_set_u128_difference, brm_set_u128_symmetric_difference},
    brm_set_u128_complement, brm_set_u128_is_subset, brm_set_u128_is_disjoint};

static const set_calls NARROW = {
    {brm_set_u64_union, brm_set_u64_intersection, brm_set_u64_difference, brm_set_u64_symmetric_difference},
    brm_set_u32_complement, brm_set_u64_is_subset, brm_set_u64_is_disjoint};

/* Each call that makes a set of two that others read too, and each that asks about two. */
static void put_together(const brm_handle *set, const set_calls *calls, size_t others, job *it) {
    size_t made[] = {RANGES, RANGES, 0, 0};
    brm_handle copy = BRM_HANDLE_CLOSED, result = BRM_HANDLE_CLOSED;
    it->wrong += brm_clone(set, &copy) != BRM_DONE || brm_equal(set, &copy) != BRM_DONE;
    for (size_t i = 0; i < 4; i++) {
        it->wrong += calls->made[i](set, &copy, &result) != BRM_DONE || brm_count(&result) != made[i];
        brm_destroy(&result);
    }
    it->wrong += calls->is_subset(set, &copy) != BRM_DONE || calls->is_disjoint(set, &copy) != BRM_NONE;
    brm_destroy(&copy);
    it->wrong += calls->complement(set, &result) != BRM_DONE || brm_count(&result) != others;
    brm_destroy(&result);
}

/* Each call that makes a map of one that others read too, and of one of the thread's own that is like it. */
static void put_beside(const brm_handle *map, const brm_handle *own, job *it) {
    brm_handle copy = BRM_HANDLE_CLOSED;
    it->wrong += brm_clone(map, &copy) != BRM_DONE || brm_equal(map, &copy) != BRM_DONE;
    it->wrong += brm_equal(own, &copy) != BRM_DONE;
    brm_destroy(&copy);
    it->wrong += brm_overlay(map, own, &copy) != BRM_DONE || brm_count(&copy) != RANGES;
    brm_destroy(&copy);
    it->wrong += brm_without(map, own, &copy) != BRM_DONE || brm_count(&copy) != 0;
    brm_destroy(&copy);
    it->wrong += brm_restrict(map, own, &copy) != BRM_DONE || brm_count(&copy) != RANGES;
    brm_destroy(&copy);
}

static brm_binding first(brm_binding bound, brm_binding other, void *with) {
    (void)other, (void)with;
    return bound;
}

static void *work(void *given) {
    job *it = given;
    brm_handle copy = BRM_HANDLE_CLOSED;
    read_all(it->shared, it);
    read_signed(it->shared_signed, it);
    read_wide(it->shared_wide, it);
    read_wide_keys(it->shared_wide_keys, it);
    put_together(it->shared_wide_keys, &WIDE, RANGES, it);
    put_beside(it->shared_wide, it->shared_wide, it);
    it->wrong += brm_map_u128_merge_with(it->shared_wide, it->shared_wide, &copy, first, NULL) != BRM_DONE || brm_count(&copy) != RANGES;
    brm_destroy(&copy);
    it->wrong += brm_map_i64_merge_with(it->shared_signed, it->shared_signed, &copy, first, NULL) != BRM_DONE || brm_count(&copy) != RANGES;
    brm_destroy(&copy);
    it->wrong += brm_map_u64_merge_with(it->shared, it->shared, &copy, first, NULL) != BRM_DONE || brm_count(&copy) != RANGES;
    brm_destroy(&copy);
    read_keys(it->shared_keys, it);
    read_signed_keys(it->shared_signed_keys, it);
    put_together(it->shared_keys, &UNSIGNED, RANGES, it);
    put_together(it->shared_keys, &NARROW, RANGES, it);
    put_together(it->shared_signed_keys, &SIGNED, RANGES + 1, it);
    fill(&it->own, it);
    put_beside(it->shared, &it->own, it);
    fill_signed(&it->own_signed, it);
    put_beside(it->shared_signed, &it->own_signed, it);
    it->wrong += brm_restrict(it->shared, it->shared_keys, &copy) != BRM_DONE || brm_count(&copy) != RANGES;
    brm_destroy(&copy);
    it->wrong += brm_without(it->shared, it->shared_keys, &copy) != BRM_DONE || brm_count(&copy) != 0;
    brm_destroy(&copy);
    it->wrong += brm_restrict(it->shared_signed, it->shared_signed_keys, &copy) != BRM_DONE || brm_count(&copy) != RANGES;
    brm_destroy(&copy);
    it->wrong += brm_without(it->shared_signed, it->shared_signed_keys, &copy) != BRM_DONE || brm_count(&copy) != 0;
    brm_destroy(&copy);
    return NULL;
}

int main(void) {
    brm_handle map = BRM_HANDLE_CLOSED, of_signed = BRM_HANDLE_CLOSED;
    brm_handle set = BRM_HANDLE_CLOSED, signed_set = BRM_HANDLE_CLOSED;
    brm_handle wide = BRM_HANDLE_CLOSED, wide_set = BRM_HANDLE_CLOSED;
    pthread_t threads[THREADS];
    job jobs[THREADS] = {{&map, &of_signed, &wide, &set, &signed_set, &wide_set, BRM_HANDLE_CLOSED, BRM_HANDLE_CLOSED, 0}};
    unsigned long wrong = brm_map_u64_create(&map) != BRM_DONE || brm_set_u64_create(&set) != BRM_DONE;
    wrong += brm_map_i64_create(&of_signed) != BRM_DONE || brm_set_i64_create(&signed_set) != BRM_DONE;
    wrong += brm_map_u128_create(&wide) != BRM_DONE || brm_set_u128_create(&wide_set) != BRM_DONE;
    fill(&map, &jobs[0]);
    fill_signed(&of_signed, &jobs[0]);
    fill_wide(&wide, &wide_set, &jobs[0]);
    fill_keys(&set, &jobs[0]);
    fill_signed_keys(&signed_set, &jobs[0]);
    for (int i = 0; i < THREADS; i++) {
        jobs[i].shared = &map;
        jobs[i].shared_signed = &of_signed;
        jobs[i].shared_wide = &wide;
        jobs[i].shared_wide_keys = &wide_set;
        jobs[i].shared_keys = &set;
        jobs[i].shared_signed_keys = &signed_set;
        wrong += brm_map_u64_create(&jobs[i].own) != BRM_DONE || brm_map_i64_create(&jobs[i].own_signed) != BRM_DONE;
        wrong += pthread_create(&threads[i], NULL, work, &jobs[i]) != 0;
    }
    for (int i = 0; i < THREADS; i++) {
        wrong += pthread_join(threads[i], NULL) != 0;
        /* filled by that thread, read and freed by this one */
        read_all(&jobs[i].own, &jobs[i]);
        read_signed(&jobs[i].own_signed, &jobs[i]);
        wrong += jobs[i].wrong;
        brm_destroy(&jobs[i].own);
        brm_destroy(&jobs[i].own_signed);
    }
    brm_destroy(&map);
    brm_destroy(&of_signed);
    brm_destroy(&set);
    brm_destroy(&signed_set);
    brm_destroy(&wide);
    brm_destroy(&wide_set);
    printf("threads: %s\n", wrong ? "FAILED" : "passed");
    return wrong != 0;
}
