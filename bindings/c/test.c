/* Calls each function, on open handles, on closed ones and on handles of another kind, and compares what comes. */
#include "btree_range_map.h"

#include <stdio.h>
#include <string.h>

static int failures = 0;

/* How many allocations are still granted; all of them where it is negative. Linked with --wrap=malloc,--wrap=realloc. */
static long granted = -1;

/* How many allocations there were. */
static long allocations = 0;

void *__real_malloc(size_t size);
void *__real_realloc(void *block, size_t size);
void *__wrap_malloc(size_t size);
void *__wrap_realloc(void *block, size_t size);

static bool is_granted(void) {
    allocations++;
    if (granted > 0) granted--;
    else if (granted == 0) return false;
    return true;
}

void *__wrap_malloc(size_t size) { return is_granted() ? __real_malloc(size) : NULL; }

void *__wrap_realloc(void *block, size_t size) { return is_granted() ? __real_realloc(block, size) : NULL; }

#define EXPECT(holds)                                                       \
    do {                                                                    \
        if (!(holds)) {                                                     \
            failures++;                                                     \
            fprintf(stderr, "%s:%d: not so: %s\n", __FILE__, __LINE__, #holds); \
        }                                                                   \
    } while (0)

static brm_range_u64 upto(uint64_t start, uint64_t end) { return (brm_range_u64){start, end, BRM_END_EXCLUDED}; }

static brm_range_u64 through(uint64_t start, uint64_t end) { return (brm_range_u64){start, end, 0}; }

static uint32_t put(brm_handle *map, brm_range_u64 range, uint64_t value) {
    return brm_map_u64_insert(map, &range, value);
}

static bool is_entry(brm_entry_u64 e, brm_range_u64 r, uint64_t value) {
    return e.range.start == r.start && e.range.end == r.end && e.range.flags == r.flags && e.value == value;
}

static void maps(void) {
    brm_handle map = BRM_HANDLE_CLOSED;
    brm_entry_u64 e = {{1, 2, 3}, 4};
    brm_key_count n = {7, 7};
    EXPECT(brm_map_u64_create(&map) == BRM_DONE);
    EXPECT(brm_map_u64_create(&map) == BRM_OPEN);
    EXPECT(brm_count(&map) == 0);
    EXPECT(brm_map_u64_first(&map, &e) == BRM_NONE && is_entry(e, (brm_range_u64){1, 2, 3}, 4));
    EXPECT(put(&map, upto(0, 10), 1) == BRM_DONE);
    EXPECT(put(&map, through(10, 19), 1) == BRM_DONE);
    EXPECT(brm_count(&map) == 1);
    EXPECT(put(&map, through(4, 4), 2) == BRM_DONE);
    EXPECT(brm_count(&map) == 3);
    EXPECT(brm_map_u64_get(&map, 4, &e) == BRM_DONE && is_entry(e, through(4, 4), 2));
    EXPECT(brm_map_u64_get(&map, 20, &e) == BRM_NONE && is_entry(e, through(4, 4), 2));
    EXPECT(brm_map_u64_contains(&map, 19) == BRM_DONE);
    EXPECT(brm_map_u64_contains(&map, 20) == BRM_NONE);
    EXPECT(brm_map_u64_len(&map, &n) == BRM_DONE && n.high == 0 && n.low == 20);
    brm_range_u64 past = {19, 0, BRM_START_EXCLUDED | BRM_END_UNBOUNDED};
    EXPECT(brm_map_u64_intersects(&map, &past) == BRM_NONE);
    past.start = 18;
    EXPECT(brm_map_u64_intersects(&map, &past) == BRM_DONE);
    brm_range_u64 none = upto(8, 3);
    EXPECT(put(&map, none, 9) == BRM_DONE && brm_count(&map) == 3);
    brm_range_u64 touching = upto(20, 30), apart = upto(21, 30);
    EXPECT(brm_map_u64_insert_disconnected(&map, &touching, 3) == BRM_CONNECTED);
    EXPECT(brm_map_u64_insert_disconnected(&map, &apart, 3) == BRM_DONE);
    EXPECT(brm_map_u64_last(&map, &e) == BRM_DONE && is_entry(e, apart, 3));
    EXPECT(brm_map_u64_remove(&map, &apart) == BRM_DONE && brm_count(&map) == 3);
    EXPECT(brm_map_u64_pop_last(&map, &e) == BRM_DONE && e.value == 1);
    EXPECT(brm_map_u64_pop_first(&map, &e) == BRM_DONE && e.value == 1 && e.range.start == 0);
    EXPECT(brm_count(&map) == 1);
    brm_range_u64 all = {5, 5, BRM_START_UNBOUNDED | BRM_END_UNBOUNDED};
    EXPECT(put(&map, all, 6) == BRM_DONE && brm_count(&map) == 1);
    EXPECT(brm_map_u64_len(&map, &n) == BRM_DONE && n.high == 1 && n.low == 0);
    EXPECT(brm_map_u64_first(&map, &e) == BRM_DONE && e.value == 6);
    EXPECT(e.range.flags == (BRM_START_UNBOUNDED | BRM_END_UNBOUNDED));
    EXPECT(brm_clear(&map) == BRM_DONE && brm_count(&map) == 0);
    EXPECT(put(&map, upto(1, 2), 1) == BRM_DONE);
    brm_destroy(&map);
    brm_destroy(&map);
    EXPECT(put(&map, upto(1, 2), 1) == BRM_CLOSED && brm_count(&map) == 0);
    EXPECT(brm_clear(&map) == BRM_CLOSED);
    EXPECT(brm_map_u64_create(&map) == BRM_DONE);
    brm_destroy(&map);
}

static void many(void) {
    brm_handle map = BRM_HANDLE_CLOSED;
    brm_entry_u64 e;
    memset(&e, 0, sizeof e);
    EXPECT(brm_map_u64_create(&map) == BRM_DONE);
    for (uint64_t i = 0; i < 5000; i++) EXPECT(put(&map, upto(10 * i, 10 * i + 5), i) == BRM_DONE);
    EXPECT(brm_count(&map) == 5000);
    for (uint64_t i = 0; i < 5000; i += 2) {
        brm_range_u64 r = upto(10 * i, 10 * i + 5);
        EXPECT(brm_map_u64_remove(&map, &r) == BRM_DONE);
    }
    for (uint64_t i = 0; i < 5000; i++)
        EXPECT(brm_map_u64_get(&map, 10 * i + 4, &e) == (i % 2 ? BRM_DONE : BRM_NONE));
    for (uint64_t key = 0, i = 1; brm_map_u64_next(&map, key, &e) == BRM_DONE; key = e.range.end, i += 2)
        EXPECT(is_entry(e, upto(10 * i, 10 * i + 5), i) && i < 5000);
    EXPECT(brm_map_u64_next(&map, 49994, &e) == BRM_DONE && e.value == 4999);
    EXPECT(brm_map_u64_next(&map, 49995, &e) == BRM_NONE && e.value == 4999);
    uint64_t left = 2500;
    for (uint64_t key = UINT64_MAX; brm_map_u64_previous(&map, key, &e) == BRM_DONE; key = e.range.start - 1) {
        left--;
        EXPECT(is_entry(e, upto(10 * (2 * left + 1), 10 * (2 * left + 1) + 5), 2 * left + 1));
    }
    EXPECT(left == 0);
    EXPECT(brm_map_u64_previous(&map, 10, &e) == BRM_DONE && e.value == 1);
    EXPECT(brm_map_u64_previous(&map, 29, &e) == BRM_DONE && e.value == 1);
    EXPECT(brm_map_u64_previous(&map, 9, &e) == BRM_NONE && e.value == 1);
    for (uint64_t i = 1; brm_map_u64_pop_first(&map, &e) == BRM_DONE; i += 2)
        EXPECT(is_entry(e, upto(10 * i, 10 * i + 5), i));
    EXPECT(brm_count(&map) == 0);
    brm_destroy(&map);
}

/* Makes a change with 0, 1, 2 .. allocations until it is done. Before that the map is as it was. */
static uint64_t refusals(brm_handle *map, bool inserts, brm_range_u64 range, uint64_t value) {
    size_t count = brm_count(map);
    for (long allocations = 0;; allocations++) {
        granted = allocations;
        uint32_t status = inserts ? brm_map_u64_insert(map, &range, value) : brm_map_u64_remove(map, &range);
        granted = -1;
        if (status == BRM_DONE) return (uint64_t)allocations;
        EXPECT(status == BRM_NO_MEMORY && brm_count(map) == count);
        EXPECT(brm_map_u64_intersects(map, &range) == (inserts ? BRM_NONE : BRM_DONE));
    }
}

static void refused_memory(void) {
    brm_handle map = BRM_HANDLE_CLOSED;
    uint64_t refused = 0;
    granted = 0;
    EXPECT(brm_map_u64_create(&map) == BRM_NO_MEMORY && brm_count(&map) == 0);
    granted = -1;
    EXPECT(put(&map, upto(1, 2), 1) == BRM_CLOSED);
    EXPECT(brm_map_u64_create(&map) == BRM_DONE);
    for (uint64_t i = 0; i < 500; i++) refused += refusals(&map, true, upto(10 * i, 10 * i + 5), i);
    for (uint64_t i = 0; i < 500; i++) refused += refusals(&map, false, through(10 * i + 2, 10 * i + 2), 0);
    EXPECT(brm_count(&map) == 1000 && refused > 10);
    brm_destroy(&map);
}

static void signed_maps(void) {
    brm_handle map = BRM_HANDLE_CLOSED;
    brm_entry_i64 e = {{0, 0, 0}, 0};
    brm_key_count n = {0, 0};
    brm_range_i64 r = {-10, 10, BRM_END_EXCLUDED};
    EXPECT(brm_map_i64_insert(&map, &r, 1) == BRM_CLOSED);
    EXPECT(brm_map_i64_create(&map) == BRM_DONE);
    EXPECT(brm_map_i64_insert(&map, &r, 1) == BRM_DONE);
    EXPECT(brm_map_i64_contains(&map, -10) == BRM_DONE && brm_map_i64_contains(&map, 10) == BRM_NONE);
    EXPECT(brm_map_i64_len(&map, &n) == BRM_DONE && n.low == 20);
    brm_range_i64 low = {0, -5, BRM_START_UNBOUNDED};
    EXPECT(brm_map_i64_remove(&map, &low) == BRM_DONE);
    EXPECT(brm_map_i64_first(&map, &e) == BRM_DONE && e.range.start == -5);
    EXPECT(e.range.flags == (BRM_START_EXCLUDED | BRM_END_EXCLUDED));
    EXPECT(brm_map_i64_get(&map, 9, &e) == BRM_DONE && e.range.end == 10 && e.value == 1);
    EXPECT(brm_map_i64_intersects(&map, &low) == BRM_NONE);
    EXPECT(brm_map_i64_next(&map, INT64_MIN, &e) == BRM_DONE && e.range.start == -5);
    EXPECT(brm_map_i64_next(&map, 10, &e) == BRM_NONE);
    EXPECT(brm_map_i64_previous(&map, -5, &e) == BRM_NONE);
    EXPECT(brm_map_i64_previous(&map, INT64_MIN, &e) == BRM_NONE);
    EXPECT(brm_map_i64_previous(&map, -4, &e) == BRM_DONE && e.range.start == -5 && e.range.end == 10);
    EXPECT(brm_map_i64_insert_disconnected(&map, &low, 2) == BRM_CONNECTED);
    low.end = -6;
    EXPECT(brm_map_i64_insert_disconnected(&map, &low, 2) == BRM_DONE);
    EXPECT(brm_map_i64_last(&map, &e) == BRM_DONE && e.value == 1);
    EXPECT(brm_map_i64_pop_last(&map, &e) == BRM_DONE && brm_map_i64_pop_first(&map, &e) == BRM_DONE);
    EXPECT(e.value == 2 && brm_map_i64_pop_first(&map, &e) == BRM_NONE);
    brm_destroy(&map);
}

static void sets(void) {
    brm_handle set = BRM_HANDLE_CLOSED, map = BRM_HANDLE_CLOSED;
    brm_range_u64 r = upto(10, 20), found = {0, 0, 0};
    brm_key_count n = {0, 0};
    EXPECT(brm_set_u64_insert(&set, &r) == BRM_CLOSED);
    EXPECT(brm_set_u64_create(&set) == BRM_DONE);
    EXPECT(brm_set_u64_insert(&set, &r) == BRM_DONE);
    EXPECT(brm_set_u64_get(&set, 12, &found) == BRM_DONE && found.start == 10 && found.end == 20);
    EXPECT(brm_set_u64_contains(&set, 20) == BRM_NONE && brm_set_u64_contains(&set, 19) == BRM_DONE);
    brm_range_u64 hole = through(12, 13);
    EXPECT(brm_set_u64_remove(&set, &hole) == BRM_DONE && brm_count(&set) == 2);
    EXPECT(brm_set_u64_intersects(&set, &hole) == BRM_NONE && brm_set_u64_intersects(&set, &r) == BRM_DONE);
    EXPECT(brm_set_u64_len(&set, &n) == BRM_DONE && n.low == 8 && n.high == 0);
    EXPECT(brm_set_u64_first(&set, &found) == BRM_DONE && found.end == 12);
    EXPECT(brm_set_u64_last(&set, &found) == BRM_DONE && found.start == 13);
    EXPECT(brm_set_u64_next(&set, 12, &found) == BRM_DONE && found.start == 13);
    EXPECT(brm_set_u64_next(&set, 20, &found) == BRM_NONE);
    EXPECT(brm_set_u64_previous(&set, 13, &found) == BRM_DONE && found.start == 10 && found.end == 12);
    EXPECT(brm_set_u64_previous(&set, 14, &found) == BRM_DONE && found.start == 13 && found.end == 20);
    EXPECT(brm_set_u64_previous(&set, 9, &found) == BRM_NONE && found.start == 13);
    EXPECT(brm_map_u64_create(&map) == BRM_DONE);
    EXPECT(brm_set_u64_next(&map, 0, &found) == BRM_OTHER_KIND);
    EXPECT(brm_set_u64_insert(&map, &r) == BRM_OTHER_KIND && brm_count(&map) == 0);
    EXPECT(put(&set, r, 1) == BRM_OTHER_KIND && brm_count(&set) == 2);
    EXPECT(brm_set_u64_pop_first(&set, &found) == BRM_DONE && brm_set_u64_pop_last(&set, &found) == BRM_DONE);
    EXPECT(brm_set_u64_pop_last(&set, &found) == BRM_NONE && found.start == 13);
    brm_destroy(&set);
    brm_destroy(&map);
}

/* Adds a range that meets no stored one with 0, 1, 2 .. allocations until it is done. Before that the set is as it was. */
static uint64_t refusals_of_free(brm_handle *set, brm_range_u64 range) {
    size_t count = brm_count(set);
    for (long allocations = 0;; allocations++) {
        granted = allocations;
        brm_status status = brm_set_u64_try_insert(set, &range);
        granted = -1;
        if (status == BRM_DONE) return (uint64_t)allocations;
        EXPECT(status == BRM_NO_MEMORY && brm_count(set) == count && brm_set_u64_intersects(set, &range) == BRM_NONE);
    }
}

/* A range is added where it meets no stored one, and becomes one with those that it touches. */
static void free_ranges(void) {
    brm_handle set = BRM_HANDLE_CLOSED, map = BRM_HANDLE_CLOSED;
    brm_range_u64 r = upto(10, 20), meeting = through(19, 25), touching = upto(20, 25), none = upto(15, 12), found = {0, 0, 0};
    uint64_t refused = 0;
    EXPECT(brm_set_u64_try_insert(&set, &r) == BRM_CLOSED && !set.is_open);
    EXPECT(brm_set_u64_create(&set) == BRM_DONE && brm_map_u64_create(&map) == BRM_DONE);
    EXPECT(brm_set_u64_try_insert(&map, &r) == BRM_OTHER_KIND && brm_count(&map) == 0);
    EXPECT(brm_set_u64_try_insert(&set, &r) == BRM_DONE && brm_count(&set) == 1);
    granted = 0;
    EXPECT(brm_set_u64_try_insert(&set, &r) == BRM_OCCUPIED && brm_set_u64_try_insert(&set, &meeting) == BRM_OCCUPIED);
    EXPECT(brm_set_u64_try_insert(&set, &none) == BRM_DONE);
    granted = -1;
    EXPECT(brm_count(&set) == 1 && brm_set_u64_first(&set, &found) == BRM_DONE && found.start == 10 && found.end == 20);
    EXPECT(brm_set_u64_try_insert(&set, &touching) == BRM_DONE && brm_count(&set) == 1);
    EXPECT(brm_set_u64_first(&set, &found) == BRM_DONE && found.start == 10 && found.end == 25);
    for (uint64_t i = 3; i < 500; i++) refused += refusals_of_free(&set, upto(10 * i, 10 * i + 5));
    EXPECT(brm_count(&set) == 498 && refused > 10);
    for (uint64_t i = 3; i < 500; i++) EXPECT(brm_set_u64_contains(&set, 10 * i + 4) == BRM_DONE && brm_set_u64_contains(&set, 10 * i + 5) == BRM_NONE);
    brm_destroy(&set);
    brm_destroy(&map);
}

static brm_handle set_of(const brm_range_u64 *ranges, size_t count) {
    brm_handle set = BRM_HANDLE_CLOSED;
    EXPECT(brm_set_u64_create(&set) == BRM_DONE);
    for (size_t i = 0; i < count; i++) EXPECT(brm_set_u64_insert(&set, &ranges[i]) == BRM_DONE);
    return set;
}

static void keys_of_32_bits(void) {
    brm_range_u64 bounded[] = {brm_range_of_u32(3, 5, BRM_START_UNBOUNDED | BRM_START_EXCLUDED | BRM_END_EXCLUDED),
                               brm_range_of_u32(8, 4, BRM_START_EXCLUDED | BRM_END_UNBOUNDED | BRM_END_EXCLUDED)};
    EXPECT(bounded[0].start == 0 && bounded[0].end == 5 && bounded[0].flags == BRM_END_EXCLUDED);
    EXPECT(bounded[1].start == 8 && bounded[1].end == UINT32_MAX && bounded[1].flags == BRM_START_EXCLUDED);
    brm_handle set = set_of(bounded, 2), made = BRM_HANDLE_CLOSED, map = BRM_HANDLE_CLOSED;
    brm_key_count count = {9, 9};
    brm_status status = BRM_NO_MEMORY;
    long allowed = 0;
    for (; status == BRM_NO_MEMORY; allowed++) {
        granted = allowed;
        status = brm_set_u32_complement(&set, &made);
        granted = -1;
        EXPECT(made.is_open == (status == BRM_DONE));
    }
    EXPECT(allowed > 1 && status == BRM_DONE && brm_set_u64_len(&made, &count) == BRM_DONE && count.high == 0 && count.low == 4);
    EXPECT(brm_set_u64_contains(&made, 5) == BRM_DONE && brm_set_u64_contains(&made, 9) == BRM_NONE);
    EXPECT(brm_set_u32_complement(&set, &made) == BRM_OPEN);
    brm_destroy(&made);
    EXPECT(brm_set_u32_complement(&set, &set) == BRM_OPEN && brm_set_u32_complement(&made, &made) == BRM_CLOSED);
    EXPECT(brm_map_u64_create(&map) == BRM_DONE && brm_set_u32_complement(&map, &made) == BRM_OTHER_KIND);
    brm_destroy(&map);
    brm_destroy(&set);
}

static void two_sets(void) {
    brm_range_u64 some[] = {{0, 10, 0}, {20, 30, 0}, {50, 60, 0}}, more[] = {{5, 25, 0}, {61, 61, 0}}, found = {0, 0, 0};
    brm_handle set = set_of(some, 3), other = set_of(more, 2), map = BRM_HANDLE_CLOSED;
    brm_handle made = BRM_HANDLE_CLOSED, closed = BRM_HANDLE_CLOSED;
    brm_key_count n = {0, 0};
    EXPECT(brm_map_u64_create(&map) == BRM_DONE);
    EXPECT(brm_set_u64_union(&set, &closed, &made) == BRM_CLOSED);
    EXPECT(brm_set_u64_intersection(&closed, &set, &made) == BRM_CLOSED);
    EXPECT(brm_set_u64_union(&set, &map, &made) == BRM_OTHER_KIND);
    EXPECT(brm_set_u64_intersection(&map, &set, &made) == BRM_OTHER_KIND && brm_count(&made) == 0);
    for (long allocations = 0;; allocations++) {
        granted = allocations;
        uint32_t status = brm_set_u64_union(&set, &other, &made);
        granted = -1;
        if (status == BRM_DONE) break;
        EXPECT(status == BRM_NO_MEMORY && brm_set_u64_contains(&made, 0) == BRM_CLOSED);
    }
    EXPECT(brm_set_u64_union(&set, &other, &made) == BRM_OPEN);
    EXPECT(brm_count(&made) == 2 && brm_set_u64_len(&made, &n) == BRM_DONE && n.low == 43);
    EXPECT(brm_set_u64_last(&made, &found) == BRM_DONE && found.start == 50 && found.end == 61);
    brm_destroy(&made);
    EXPECT(brm_set_u64_intersection(&set, &other, &made) == BRM_DONE);
    EXPECT(brm_count(&made) == 2 && brm_set_u64_len(&made, &n) == BRM_DONE && n.low == 12);
    EXPECT(brm_set_u64_get(&made, 20, &found) == BRM_DONE && found.start == 20 && found.end == 25);
    EXPECT(brm_count(&set) == 3 && brm_count(&other) == 2);
    brm_destroy(&made);
    brm_destroy(&set);
    brm_destroy(&other);
    brm_destroy(&map);
}

/* A handle that is given twice is answered, and so is no handle at all. */
static void handles_given_twice(void) {
    brm_range_u64 some[] = {{0, 10, 0}, {20, 30, 0}};
    brm_handle set = set_of(some, 2), none = set_of(some, 0), map = BRM_HANDLE_CLOSED, made = BRM_HANDLE_CLOSED;
    EXPECT(brm_map_u64_create(&map) == BRM_DONE);
    brm_destroy(NULL);
    EXPECT(brm_set_u64_union(&set, &set, &made) == BRM_DONE && brm_equal(&set, &made) == BRM_DONE);
    EXPECT(brm_set_u64_union(&set, &set, &made) == BRM_OPEN);
    brm_destroy(&made);
    EXPECT(brm_set_u64_intersection(&set, &set, &made) == BRM_DONE && brm_equal(&made, &set) == BRM_DONE);
    brm_destroy(&made);
    EXPECT(brm_set_u64_difference(&set, &set, &made) == BRM_DONE && brm_count(&made) == 0);
    brm_destroy(&made);
    EXPECT(brm_set_u64_symmetric_difference(&set, &set, &made) == BRM_DONE && brm_equal(&made, &none) == BRM_DONE);
    brm_destroy(&made);
    EXPECT(brm_set_u64_is_subset(&set, &set) == BRM_DONE && brm_set_u64_is_disjoint(&set, &set) == BRM_NONE);
    EXPECT(brm_set_u64_is_disjoint(&none, &none) == BRM_DONE && brm_equal(&set, &set) == BRM_DONE);
    EXPECT(brm_set_u64_union(&set, &none, &set) == BRM_OPEN && brm_set_u64_union(&set, &made, &made) == BRM_CLOSED);
    EXPECT(brm_set_u64_complement(&set, &set) == BRM_OPEN && brm_set_u64_complement(&made, &made) == BRM_CLOSED);
    EXPECT(brm_clone(&set, &set) == BRM_OPEN && brm_clone(&made, &made) == BRM_CLOSED);
    EXPECT(brm_set_u64_union(&map, &map, &made) == BRM_OTHER_KIND && brm_set_u64_is_subset(&map, &map) == BRM_OTHER_KIND);
    EXPECT(brm_set_u64_difference(&made, &made, &made) == BRM_CLOSED && brm_equal(&made, &made) == BRM_CLOSED);
    EXPECT(brm_count(&set) == 2 && brm_count(&made) == 0);
    made = BRM_HANDLE_CLOSED;
    brm_destroy(&set);
    brm_destroy(&none);
    brm_destroy(&map);
}

static void clones(void) {
    brm_handle map = BRM_HANDLE_CLOSED, copy = BRM_HANDLE_CLOSED, keys = BRM_HANDLE_CLOSED, none = BRM_HANDLE_CLOSED;
    EXPECT(brm_clone(&map, &copy) == BRM_CLOSED && brm_equal(&map, &copy) == BRM_CLOSED);
    EXPECT(brm_map_u64_create(&map) == BRM_DONE && brm_map_i64_create(&keys) == BRM_DONE);
    for (uint64_t i = 0; i < 100; i++) EXPECT(put(&map, upto(10 * i, 10 * i + 5), i) == BRM_DONE);
    for (long allocations = 0;; allocations++) {
        granted = allocations;
        brm_status status = brm_clone(&map, &copy);
        granted = -1;
        if (status == BRM_DONE) break;
        EXPECT(status == BRM_NO_MEMORY && !copy.is_open);
    }
    EXPECT(brm_clone(&map, &copy) == BRM_OPEN && brm_equal(&map, &copy) == BRM_DONE && brm_count(&copy) == 100);
    EXPECT(put(&copy, through(4, 4), 7) == BRM_DONE && brm_equal(&copy, &map) == BRM_NONE && brm_count(&map) == 100);
    EXPECT(put(&copy, upto(0, 5), 0) == BRM_DONE && brm_equal(&copy, &map) == BRM_DONE);
    EXPECT(brm_equal(&map, &keys) == BRM_OTHER_KIND && brm_equal(&map, &none) == BRM_CLOSED);
    EXPECT(brm_clone(&keys, &none) == BRM_DONE && brm_equal(&none, &keys) == BRM_DONE);
    EXPECT(brm_clear(&copy) == BRM_DONE && brm_equal(&copy, &map) == BRM_NONE);
    granted = 0;
    EXPECT(put(&copy, upto(0, 5), 0) == BRM_DONE);
    granted = -1;
    brm_destroy(&map);
    brm_destroy(&copy);
    brm_destroy(&keys);
    brm_destroy(&none);
}

/* Compares each call on two sets with what it makes of each key by itself. */
static void keys_of_two_sets(void) {
    brm_range_u64 some[] = {{0, 10, 0}, {20, 30, 0}, {50, 60, 0}}, more[] = {{5, 25, 0}, {61, 61, 0}}, few[] = {{6, 8, 0}};
    brm_handle set = set_of(some, 3), other = set_of(more, 2), part = set_of(few, 1), closed = BRM_HANDLE_CLOSED;
    brm_handle made[4] = {BRM_HANDLE_CLOSED, BRM_HANDLE_CLOSED, BRM_HANDLE_CLOSED, BRM_HANDLE_CLOSED};
    EXPECT(brm_set_u64_difference(&set, &other, &made[0]) == BRM_DONE);
    EXPECT(brm_set_u64_difference(&other, &set, &made[1]) == BRM_DONE);
    EXPECT(brm_set_u64_symmetric_difference(&set, &other, &made[2]) == BRM_DONE);
    EXPECT(brm_set_u64_complement(&set, &made[3]) == BRM_DONE);
    for (uint64_t key = 0; key < 70; key++) {
        bool first = brm_set_u64_contains(&set, key) == BRM_DONE, second = brm_set_u64_contains(&other, key) == BRM_DONE;
        EXPECT((brm_set_u64_contains(&made[0], key) == BRM_DONE) == (first && !second));
        EXPECT((brm_set_u64_contains(&made[1], key) == BRM_DONE) == (second && !first));
        EXPECT((brm_set_u64_contains(&made[2], key) == BRM_DONE) == (first != second));
        EXPECT((brm_set_u64_contains(&made[3], key) == BRM_DONE) == !first);
    }
    EXPECT(brm_set_u64_is_subset(&part, &set) == BRM_DONE && brm_set_u64_is_subset(&set, &part) == BRM_NONE);
    EXPECT(brm_set_u64_is_disjoint(&set, &made[3]) == BRM_DONE && brm_set_u64_is_disjoint(&set, &part) == BRM_NONE);
    EXPECT(brm_set_u64_is_subset(&set, &closed) == BRM_CLOSED && brm_set_u64_is_disjoint(&closed, &set) == BRM_CLOSED);
    EXPECT(brm_set_u64_complement(&closed, &made[0]) == BRM_OPEN);
    for (int i = 0; i < 4; i++) brm_destroy(&made[i]);
    EXPECT(brm_set_u64_complement(&closed, &made[0]) == BRM_CLOSED);
    brm_destroy(&set);
    brm_destroy(&other);
    brm_destroy(&part);
}

/* Batches: all ranges in both directions, arrays that are too long, too short and empty, and other handles. */
static void batches(void) {
    enum { RANGES = 50, ROOM = 7 };
    brm_handle map = BRM_HANDLE_CLOSED, keys = BRM_HANDLE_CLOSED, set = BRM_HANDLE_CLOSED;
    brm_entry_u64 entries[RANGES + 5];
    brm_entry_i64 signed_entries[ROOM];
    brm_range_u64 ranges[ROOM];
    size_t count = 77, shown = 0;
    memset(entries, 0xaa, sizeof entries);
    memset(signed_entries, 0, sizeof signed_entries);
    memset(ranges, 0, sizeof ranges);
    EXPECT(brm_map_u64_read(&map, 0, entries, ROOM, &count) == BRM_CLOSED && count == 77);
    EXPECT(brm_map_u64_create(&map) == BRM_DONE && brm_map_i64_create(&keys) == BRM_DONE);
    EXPECT(brm_set_u64_create(&set) == BRM_DONE);
    EXPECT(brm_map_u64_read(&map, 0, entries, ROOM, &count) == BRM_DONE && count == 0);
    for (uint64_t i = 0; i < RANGES; i++) {
        brm_range_u64 range = upto(10 * i, 10 * i + 5);
        brm_range_i64 below = {-10 * (int64_t)i - 5, -10 * (int64_t)i, BRM_END_EXCLUDED};
        EXPECT(put(&map, range, i) == BRM_DONE && brm_set_u64_insert(&set, &range) == BRM_DONE);
        EXPECT(brm_map_i64_insert(&keys, &below, i) == BRM_DONE);
    }
    EXPECT(brm_map_u64_read(&map, 0, entries, RANGES + 5, &count) == BRM_DONE && count == RANGES);
    for (uint64_t i = 0; i < RANGES; i++) EXPECT(is_entry(entries[i], upto(10 * i, 10 * i + 5), i));
    EXPECT(entries[RANGES].value == 0xaaaaaaaaaaaaaaaa && entries[RANGES].range.start == 0xaaaaaaaaaaaaaaaa);
    EXPECT(brm_map_u64_read_back(&map, UINT64_MAX, entries, RANGES + 5, &count) == BRM_DONE && count == RANGES);
    for (uint64_t i = 0; i < RANGES; i++) EXPECT(entries[i].value == RANGES - 1 - i);
    for (uint64_t key = 0; shown < RANGES; key = entries[count - 1].range.end) {
        EXPECT(brm_map_u64_read(&map, key, entries, ROOM, &count) == BRM_DONE && count > 0 && count <= ROOM);
        for (size_t i = 0; i < count; i++) EXPECT(entries[i].value == shown++);
        if (count == 0) break;
    }
    EXPECT(brm_map_u64_read(&map, 14, entries, 2, &count) == BRM_DONE && count == 2 && entries[0].value == 1);
    EXPECT(brm_map_u64_read(&map, 15, entries, 2, &count) == BRM_DONE && count == 2 && entries[0].value == 2);
    EXPECT(brm_map_u64_read_back(&map, 20, entries, 2, &count) == BRM_DONE && count == 2 && entries[0].value == 2);
    EXPECT(brm_map_u64_read_back(&map, 19, entries, 2, &count) == BRM_DONE && entries[0].value == 1 && entries[1].value == 0);
    EXPECT(brm_map_u64_read_back(&map, 4, entries, 2, &count) == BRM_DONE && count == 1 && entries[0].value == 0);
    EXPECT(brm_map_u64_read(&map, 10 * RANGES, entries, 2, &count) == BRM_DONE && count == 0);
    EXPECT(brm_map_u64_read(&map, 0, entries, 0, &count) == BRM_DONE && count == 0);
    EXPECT(brm_map_i64_read(&keys, -1, signed_entries, ROOM, &count) == BRM_DONE && count == 1);
    EXPECT(signed_entries[0].range.start == -5 && signed_entries[0].value == 0);
    EXPECT(brm_map_i64_read_back(&keys, -1, signed_entries, ROOM, &count) == BRM_DONE && count == ROOM);
    EXPECT(signed_entries[ROOM - 1].value == ROOM - 1 && signed_entries[ROOM - 1].range.end == -10 * (ROOM - 1));
    EXPECT(brm_set_u64_read(&set, 21, ranges, ROOM, &count) == BRM_DONE && count == ROOM && ranges[0].start == 20);
    EXPECT(brm_set_u64_read_back(&set, 21, ranges, ROOM, &count) == BRM_DONE && count == 3 && ranges[2].start == 0);
    EXPECT(brm_set_u64_read(&map, 0, ranges, ROOM, &count) == BRM_OTHER_KIND && count == 3 && ranges[0].start == 20);
    EXPECT(brm_map_u64_read_back(&set, 0, entries, ROOM, &count) == BRM_OTHER_KIND && count == 3);
    brm_destroy(&map);
    brm_destroy(&keys);
    brm_destroy(&set);
}

static brm_handle signed_set_of(const brm_range_i64 *ranges, size_t count) {
    brm_handle set = BRM_HANDLE_CLOSED;
    EXPECT(brm_set_i64_create(&set) == BRM_DONE);
    for (size_t i = 0; i < count; i++) EXPECT(brm_set_i64_insert(&set, &ranges[i]) == BRM_DONE);
    return set;
}

static bool is_signed_range(brm_range_i64 r, int64_t start, int64_t end, uint32_t flags) {
    return r.start == start && r.end == end && r.flags == flags;
}

static void signed_sets(void) {
    brm_handle set = BRM_HANDLE_CLOSED;
    brm_range_i64 r = {-20, -10, BRM_END_EXCLUDED}, hole = {-18, -17, 0}, none = {8, 3, 0}, found = {0, 0, 0};
    brm_key_count n = {0, 0};
    EXPECT(brm_set_i64_insert(&set, &r) == BRM_CLOSED && brm_set_i64_first(&set, &found) == BRM_CLOSED);
    EXPECT(brm_set_i64_create(&set) == BRM_DONE && brm_set_i64_create(&set) == BRM_OPEN);
    EXPECT(brm_set_i64_first(&set, &found) == BRM_NONE && brm_set_i64_last(&set, &found) == BRM_NONE);
    EXPECT(brm_set_i64_insert(&set, &none) == BRM_DONE && brm_count(&set) == 0);
    EXPECT(brm_set_i64_insert(&set, &r) == BRM_DONE && brm_count(&set) == 1);
    EXPECT(brm_set_i64_get(&set, -15, &found) == BRM_DONE && is_signed_range(found, -20, -10, BRM_END_EXCLUDED));
    EXPECT(brm_set_i64_get(&set, 15, &found) == BRM_NONE && found.start == -20);
    EXPECT(brm_set_i64_contains(&set, -20) == BRM_DONE && brm_set_i64_contains(&set, -10) == BRM_NONE);
    EXPECT(brm_set_i64_remove(&set, &none) == BRM_DONE && brm_count(&set) == 1);
    EXPECT(brm_set_i64_remove(&set, &hole) == BRM_DONE && brm_count(&set) == 2);
    EXPECT(brm_set_i64_intersects(&set, &hole) == BRM_NONE && brm_set_i64_intersects(&set, &r) == BRM_DONE);
    EXPECT(brm_set_i64_intersects(&set, &none) == BRM_NONE);
    EXPECT(brm_set_i64_len(&set, &n) == BRM_DONE && n.low == 8 && n.high == 0);
    EXPECT(brm_set_i64_first(&set, &found) == BRM_DONE && is_signed_range(found, -20, -18, BRM_END_EXCLUDED));
    EXPECT(brm_set_i64_last(&set, &found) == BRM_DONE);
    EXPECT(is_signed_range(found, -17, -10, BRM_START_EXCLUDED | BRM_END_EXCLUDED));
    EXPECT(brm_set_i64_next(&set, -19, &found) == BRM_DONE && found.start == -20);
    EXPECT(brm_set_i64_next(&set, -18, &found) == BRM_DONE && found.start == -17);
    EXPECT(brm_set_i64_next(&set, -10, &found) == BRM_NONE && found.start == -17);
    EXPECT(brm_set_i64_previous(&set, -17, &found) == BRM_DONE && found.start == -20);
    EXPECT(brm_set_i64_previous(&set, -16, &found) == BRM_DONE && found.start == -17);
    EXPECT(brm_set_i64_previous(&set, -21, &found) == BRM_NONE && found.start == -17);
    EXPECT(brm_set_i64_pop_first(&set, &found) == BRM_DONE && found.start == -20);
    EXPECT(brm_set_i64_pop_last(&set, &found) == BRM_DONE && found.start == -17);
    EXPECT(brm_set_i64_pop_first(&set, &found) == BRM_NONE && brm_set_i64_pop_last(&set, &found) == BRM_NONE);
    EXPECT(found.start == -17 && brm_count(&set) == 0);
    brm_destroy(&set);
    granted = 0;
    EXPECT(brm_set_i64_create(&set) == BRM_NO_MEMORY && !set.is_open);
    granted = -1;
}

/* A range of signed keys is added where it meets no stored one; a refused allocation leaves the set as it was. */
static void free_signed_ranges(void) {
    brm_handle set = BRM_HANDLE_CLOSED;
    brm_range_i64 r = {-20, -10, BRM_END_EXCLUDED}, meeting = {-25, -20, 0}, touching = {-10, 0, 0}, none = {8, 3, 0}, found = {0, 0, 0};
    long refused = 0;
    EXPECT(brm_set_i64_try_insert(&set, &r) == BRM_CLOSED && !set.is_open);
    EXPECT(brm_set_i64_create(&set) == BRM_DONE && brm_set_i64_try_insert(&set, &r) == BRM_DONE && brm_count(&set) == 1);
    granted = 0;
    EXPECT(brm_set_i64_try_insert(&set, &r) == BRM_OCCUPIED && brm_set_i64_try_insert(&set, &meeting) == BRM_OCCUPIED);
    EXPECT(brm_set_i64_try_insert(&set, &none) == BRM_DONE);
    granted = -1;
    EXPECT(brm_count(&set) == 1 && brm_set_i64_first(&set, &found) == BRM_DONE && is_signed_range(found, -20, -10, BRM_END_EXCLUDED));
    EXPECT(brm_set_i64_try_insert(&set, &touching) == BRM_DONE && brm_count(&set) == 1);
    EXPECT(brm_set_i64_first(&set, &found) == BRM_DONE && is_signed_range(found, -20, 0, 0));
    for (int64_t i = 3; i < 500; i++) {
        brm_range_i64 apart = {-10 * i, 5 - 10 * i, BRM_END_EXCLUDED};
        brm_status status = BRM_NO_MEMORY;
        for (long wanted = 0; status == BRM_NO_MEMORY; wanted++) {
            refused += wanted > 0;
            EXPECT(brm_set_i64_intersects(&set, &apart) == BRM_NONE && brm_count(&set) == (size_t)i - 2);
            granted = wanted;
            status = brm_set_i64_try_insert(&set, &apart);
            granted = -1;
        }
        EXPECT(status == BRM_DONE && brm_set_i64_contains(&set, 4 - 10 * i) == BRM_DONE && brm_set_i64_contains(&set, 5 - 10 * i) == BRM_NONE);
    }
    EXPECT(brm_count(&set) == 498 && refused > 10);
    brm_destroy(&set);
}

/* The least and the greatest of the signed keys, and all of them. */
static void ends_of_signed_keys(void) {
    brm_range_i64 ends[] = {{INT64_MIN, INT64_MIN, 0}, {INT64_MAX, INT64_MAX, 0}}, found = {0, 0, 0};
    brm_range_i64 all = {5, -5, BRM_START_UNBOUNDED | BRM_END_UNBOUNDED}, below = {0, INT64_MIN, BRM_START_UNBOUNDED | BRM_END_EXCLUDED};
    brm_handle set = signed_set_of(ends, 2);
    brm_key_count n = {0, 0};
    EXPECT(brm_set_i64_insert(&set, &below) == BRM_DONE && brm_count(&set) == 2);
    EXPECT(brm_set_i64_contains(&set, INT64_MIN) == BRM_DONE && brm_set_i64_contains(&set, INT64_MAX) == BRM_DONE);
    EXPECT(brm_set_i64_contains(&set, INT64_MIN + 1) == BRM_NONE && brm_set_i64_contains(&set, 0) == BRM_NONE);
    EXPECT(brm_set_i64_previous(&set, INT64_MIN, &found) == BRM_DONE && found.start == INT64_MIN);
    EXPECT(brm_set_i64_next(&set, INT64_MIN + 1, &found) == BRM_DONE && found.start == INT64_MAX);
    EXPECT(brm_set_i64_previous(&set, INT64_MAX - 1, &found) == BRM_DONE && found.start == INT64_MIN);
    EXPECT(brm_set_i64_next(&set, INT64_MAX, &found) == BRM_DONE && is_signed_range(found, INT64_MAX, INT64_MAX, 0));
    EXPECT(brm_set_i64_insert(&set, &all) == BRM_DONE && brm_count(&set) == 1);
    EXPECT(brm_set_i64_len(&set, &n) == BRM_DONE && n.high == 1 && n.low == 0);
    EXPECT(brm_set_i64_remove(&set, &ends[0]) == BRM_DONE && brm_set_i64_remove(&set, &ends[1]) == BRM_DONE);
    EXPECT(brm_set_i64_len(&set, &n) == BRM_DONE && n.high == 0 && n.low == UINT64_MAX - 1);
    EXPECT(brm_set_i64_remove(&set, &all) == BRM_DONE && brm_count(&set) == 0);
    brm_destroy(&set);
}

/* Each call on a set of signed keys that reads from an array, or writes to one. */
static void signed_batches(void) {
    enum { RANGES = 50, ROOM = 7 };
    static brm_range_i64 apart[RANGES];
    brm_handle set = BRM_HANDLE_CLOSED;
    brm_range_i64 ranges[ROOM], within = {-17, 12, 0}, none = {8, 3, 0};
    size_t n = 77;
    memset(ranges, 0, sizeof ranges);
    for (int64_t i = 0; i < RANGES; i++) apart[i] = (brm_range_i64){10 * i - 250, 10 * i - 245, BRM_END_EXCLUDED};
    EXPECT(brm_set_i64_read(&set, 0, ranges, ROOM, &n) == BRM_CLOSED && brm_set_i64_read_back(&set, 0, ranges, ROOM, &n) == BRM_CLOSED);
    EXPECT(brm_set_i64_insert_many(&set, apart, RANGES, &n) == BRM_CLOSED && n == 77);
    EXPECT(brm_set_i64_create(&set) == BRM_DONE);
    EXPECT(brm_set_i64_read(&set, INT64_MIN, ranges, ROOM, &n) == BRM_DONE && n == 0);
    EXPECT(brm_set_i64_insert_many(&set, apart, 0, &n) == BRM_DONE && n == 0 && brm_count(&set) == 0);
    EXPECT(brm_set_i64_insert_many(&set, apart, RANGES, &n) == BRM_DONE && n == RANGES && brm_count(&set) == RANGES);
    EXPECT(brm_set_i64_read(&set, INT64_MIN, ranges, ROOM, &n) == BRM_DONE && n == ROOM);
    for (size_t i = 0; i < ROOM; i++) EXPECT(is_signed_range(ranges[i], apart[i].start, apart[i].end, BRM_END_EXCLUDED));
    EXPECT(brm_set_i64_read_back(&set, INT64_MAX, ranges, ROOM, &n) == BRM_DONE && n == ROOM);
    for (size_t i = 0; i < ROOM; i++) EXPECT(ranges[i].start == apart[RANGES - 1 - i].start);
    EXPECT(brm_set_i64_read(&set, 226, ranges, ROOM, &n) == BRM_DONE && n == 2 && ranges[0].start == 230 && ranges[1].start == 240);
    EXPECT(brm_set_i64_read_back(&set, -240, ranges, ROOM, &n) == BRM_DONE && n == 2 && ranges[1].start == -250);
    EXPECT(ranges[2].start == apart[RANGES - 3].start);
    EXPECT(brm_set_i64_overlapping(&set, &within, ranges, ROOM, &n) == BRM_DONE && n == 4);
    EXPECT(ranges[0].start == -20 && ranges[1].start == -10 && ranges[2].start == 0);
    EXPECT(is_signed_range(ranges[3], 10, 15, BRM_END_EXCLUDED));
    EXPECT(brm_set_i64_overlapping(&set, &none, ranges, ROOM, &n) == BRM_DONE && n == 0);
    EXPECT(brm_set_i64_gaps(&set, &within, ranges, ROOM, &n) == BRM_DONE && n == 3);
    EXPECT(is_signed_range(ranges[0], -15, -10, BRM_END_EXCLUDED) && ranges[1].start == -5 && ranges[1].end == 0 && ranges[2].start == 5 && ranges[2].end == 10);
    EXPECT(brm_set_i64_gaps(&set, &none, ranges, ROOM, &n) == BRM_DONE && n == 0);
    for (long wanted = 0;; wanted++) {
        brm_handle made = signed_set_of(apart, 0);
        granted = wanted;
        brm_status status = brm_set_i64_insert_many(&made, apart, RANGES, &n);
        granted = -1;
        EXPECT(brm_count(&made) == n && (n == 0 || brm_set_i64_contains(&made, apart[n - 1].start) == BRM_DONE));
        brm_destroy(&made);
        if (status == BRM_DONE) break;
        EXPECT(status == BRM_NO_MEMORY && n < RANGES);
    }
    EXPECT(n == RANGES);
    brm_destroy(&set);
}

/* Compares each call on two sets of signed keys with what it makes of each key by itself; one may be given twice. */
static void keys_of_two_signed_sets(void) {
    brm_range_i64 some[] = {{-30, -20, 0}, {-5, 5, 0}, {20, 30, 0}}, more[] = {{-25, 0, 0}, {31, 31, 0}}, few[] = {{-4, 4, 0}};
    brm_handle set = signed_set_of(some, 3), other = signed_set_of(more, 2), part = signed_set_of(few, 1), none = signed_set_of(few, 0);
    brm_handle closed = BRM_HANDLE_CLOSED, made[6];
    for (int i = 0; i < 6; i++) made[i] = BRM_HANDLE_CLOSED;
    for (long wanted = 0;; wanted++) {
        granted = wanted;
        brm_status status = brm_set_i64_union(&set, &other, &made[0]);
        granted = -1;
        if (status == BRM_DONE) break;
        EXPECT(status == BRM_NO_MEMORY && !made[0].is_open);
    }
    EXPECT(brm_set_i64_intersection(&set, &other, &made[1]) == BRM_DONE);
    EXPECT(brm_set_i64_difference(&set, &other, &made[2]) == BRM_DONE);
    EXPECT(brm_set_i64_difference(&other, &set, &made[3]) == BRM_DONE);
    EXPECT(brm_set_i64_symmetric_difference(&set, &other, &made[4]) == BRM_DONE);
    EXPECT(brm_set_i64_complement(&set, &made[5]) == BRM_DONE);
    for (int64_t key = -40; key < 40; key++) {
        bool first = brm_set_i64_contains(&set, key) == BRM_DONE, second = brm_set_i64_contains(&other, key) == BRM_DONE;
        bool wanted[] = {first || second, first && second, first && !second, second && !first, first != second, !first};
        for (int i = 0; i < 6; i++) EXPECT((brm_set_i64_contains(&made[i], key) == BRM_DONE) == wanted[i]);
    }
    EXPECT(brm_set_i64_contains(&made[5], INT64_MIN) == BRM_DONE && brm_set_i64_contains(&made[5], INT64_MAX) == BRM_DONE);
    EXPECT(brm_set_i64_is_subset(&part, &set) == BRM_DONE && brm_set_i64_is_subset(&set, &part) == BRM_NONE);
    EXPECT(brm_set_i64_is_disjoint(&set, &made[5]) == BRM_DONE && brm_set_i64_is_disjoint(&set, &part) == BRM_NONE);
    EXPECT(brm_set_i64_is_subset(&set, &closed) == BRM_CLOSED && brm_set_i64_is_disjoint(&closed, &set) == BRM_CLOSED);
    EXPECT(brm_set_i64_union(&set, &other, &made[0]) == BRM_OPEN && brm_set_i64_complement(&closed, &made[0]) == BRM_OPEN);
    for (int i = 0; i < 6; i++) brm_destroy(&made[i]);
    EXPECT(brm_set_i64_union(&set, &closed, &made[0]) == BRM_CLOSED && brm_set_i64_difference(&closed, &set, &made[0]) == BRM_CLOSED);
    EXPECT(brm_set_i64_complement(&closed, &made[0]) == BRM_CLOSED && brm_set_i64_complement(&made[0], &made[0]) == BRM_CLOSED);
    EXPECT(brm_set_i64_union(&set, &made[0], &made[0]) == BRM_CLOSED && brm_set_i64_union(&set, &other, &set) == BRM_OPEN);
    EXPECT(brm_set_i64_union(&set, &set, &made[0]) == BRM_DONE && brm_equal(&set, &made[0]) == BRM_DONE);
    EXPECT(brm_set_i64_intersection(&set, &set, &made[1]) == BRM_DONE && brm_equal(&set, &made[1]) == BRM_DONE);
    EXPECT(brm_set_i64_difference(&set, &set, &made[2]) == BRM_DONE && brm_equal(&made[2], &none) == BRM_DONE);
    EXPECT(brm_set_i64_symmetric_difference(&set, &set, &made[3]) == BRM_DONE && brm_equal(&made[3], &none) == BRM_DONE);
    EXPECT(brm_set_i64_is_subset(&set, &set) == BRM_DONE && brm_set_i64_is_disjoint(&set, &set) == BRM_NONE);
    EXPECT(brm_set_i64_is_disjoint(&none, &none) == BRM_DONE && brm_set_i64_is_subset(&closed, &closed) == BRM_CLOSED);
    for (int i = 0; i < 4; i++) brm_destroy(&made[i]);
    brm_destroy(&set);
    brm_destroy(&other);
    brm_destroy(&part);
    brm_destroy(&none);
}

/* A set of one kind of keys is refused by each call on the other kind, and so are the two kinds together. */
static void sets_of_two_kinds(void) {
    brm_range_u64 r = through(3, 5), ranges[2] = {{0, 0, 0}, {0, 0, 0}};
    brm_range_i64 q = {-5, -3, 0}, signed_ranges[2] = {{0, 0, 0}, {0, 0, 0}};
    brm_handle set = set_of(&r, 1), keys = signed_set_of(&q, 1), made = BRM_HANDLE_CLOSED, map = BRM_HANDLE_CLOSED;
    brm_key_count count = {7, 7};
    size_t n = 77;
    EXPECT(brm_map_i64_create(&map) == BRM_DONE && brm_map_i64_insert(&map, &q, 1) == BRM_DONE);
    brm_handle *others[] = {&set, &map};
    for (int i = 0; i < 2; i++) {
        EXPECT(brm_set_i64_create(others[i]) == BRM_OPEN && brm_set_i64_contains(others[i], -4) == BRM_OTHER_KIND);
        EXPECT(brm_set_i64_insert(others[i], &q) == BRM_OTHER_KIND && brm_set_i64_remove(others[i], &q) == BRM_OTHER_KIND);
        EXPECT(brm_set_i64_try_insert(others[i], &q) == BRM_OTHER_KIND);
        EXPECT(brm_set_i64_get(others[i], -4, &q) == BRM_OTHER_KIND && brm_set_i64_intersects(others[i], &q) == BRM_OTHER_KIND);
        EXPECT(brm_set_i64_first(others[i], &q) == BRM_OTHER_KIND && brm_set_i64_last(others[i], &q) == BRM_OTHER_KIND);
        EXPECT(brm_set_i64_next(others[i], -9, &q) == BRM_OTHER_KIND && brm_set_i64_previous(others[i], 9, &q) == BRM_OTHER_KIND);
        EXPECT(brm_set_i64_pop_first(others[i], &q) == BRM_OTHER_KIND && brm_set_i64_pop_last(others[i], &q) == BRM_OTHER_KIND);
        EXPECT(brm_set_i64_len(others[i], &count) == BRM_OTHER_KIND && count.low == 7);
        EXPECT(brm_set_i64_read(others[i], -9, signed_ranges, 2, &n) == BRM_OTHER_KIND);
        EXPECT(brm_set_i64_read_back(others[i], 9, signed_ranges, 2, &n) == BRM_OTHER_KIND);
        EXPECT(brm_set_i64_overlapping(others[i], &q, signed_ranges, 2, &n) == BRM_OTHER_KIND);
        EXPECT(brm_set_i64_gaps(others[i], &q, signed_ranges, 2, &n) == BRM_OTHER_KIND);
        EXPECT(brm_set_i64_insert_many(others[i], &q, 1, &n) == BRM_OTHER_KIND && n == 77 && brm_count(others[i]) == 1);
    }
    EXPECT(is_signed_range(q, -5, -3, 0) && signed_ranges[0].start == 0);
    EXPECT(brm_set_u64_insert(&keys, &r) == BRM_OTHER_KIND && brm_set_u64_contains(&keys, 4) == BRM_OTHER_KIND);
    EXPECT(brm_set_u64_try_insert(&keys, &r) == BRM_OTHER_KIND && brm_count(&keys) == 1);
    EXPECT(brm_set_u64_read(&keys, 0, ranges, 2, &n) == BRM_OTHER_KIND && brm_map_i64_contains(&keys, -4) == BRM_OTHER_KIND);
    EXPECT(brm_set_u64_union(&set, &keys, &made) == BRM_OTHER_KIND && brm_set_u64_union(&keys, &keys, &made) == BRM_OTHER_KIND);
    EXPECT(brm_set_i64_union(&keys, &set, &made) == BRM_OTHER_KIND && brm_set_i64_union(&set, &set, &made) == BRM_OTHER_KIND);
    EXPECT(brm_raw_set_union(&set, &keys, &made) == BRM_OTHER_KIND && brm_raw_set_union(&keys, &map, &made) == BRM_OTHER_KIND);
    EXPECT(brm_set_i64_intersection(&keys, &set, &made) == BRM_OTHER_KIND && brm_set_u64_intersection(&keys, &set, &made) == BRM_OTHER_KIND);
    EXPECT(brm_set_i64_difference(&set, &keys, &made) == BRM_OTHER_KIND && brm_set_u64_difference(&set, &keys, &made) == BRM_OTHER_KIND);
    EXPECT(brm_set_i64_symmetric_difference(&map, &keys, &made) == BRM_OTHER_KIND);
    EXPECT(brm_set_u64_symmetric_difference(&keys, &keys, &made) == BRM_OTHER_KIND);
    EXPECT(brm_set_i64_complement(&set, &made) == BRM_OTHER_KIND && brm_set_u64_complement(&keys, &made) == BRM_OTHER_KIND);
    EXPECT(brm_raw_set_complement(&map, &made) == BRM_OTHER_KIND && !made.is_open);
    EXPECT(brm_set_i64_is_subset(&keys, &set) == BRM_OTHER_KIND && brm_set_u64_is_subset(&keys, &keys) == BRM_OTHER_KIND);
    EXPECT(brm_set_i64_is_disjoint(&set, &keys) == BRM_OTHER_KIND && brm_set_u64_is_disjoint(&set, &keys) == BRM_OTHER_KIND);
    EXPECT(brm_equal(&set, &keys) == BRM_OTHER_KIND && brm_equal(&keys, &map) == BRM_OTHER_KIND);
    EXPECT(brm_clone(&keys, &made) == BRM_DONE && brm_equal(&made, &keys) == BRM_DONE);
    EXPECT(brm_set_i64_pop_first(&made, &signed_ranges[0]) == BRM_DONE && is_signed_range(signed_ranges[0], -5, -3, 0));
    EXPECT(brm_equal(&made, &keys) == BRM_NONE && brm_clear(&keys) == BRM_DONE && brm_equal(&made, &keys) == BRM_DONE);
    brm_destroy(&made);
    brm_destroy(&map);
    brm_destroy(&keys);
    brm_destroy(&set);
}

static void status_texts(void) {
    for (int i = BRM_DONE; i <= BRM_OUT_OF_ORDER; i++) EXPECT(strlen(brm_status_text((brm_status)i)) > 3);
    EXPECT(strcmp(brm_status_text(BRM_NO_ROOM), "there is not enough room for the result") == 0);
}

static uint32_t load(brm_handle *handle, const char *text) {
    return brm_load(handle, (const uint8_t *)text, strlen(text));
}

/* Saves what is held, first into no bytes and then into as many as it takes, and compares. */
static void expect_text(brm_handle *handle, const char *text) {
    uint8_t buffer[256];
    size_t size = 0;
    memset(buffer, 'x', sizeof buffer);
    EXPECT(brm_save(handle, buffer, 0, &size) == BRM_NO_ROOM && size == strlen(text) && buffer[0] == 'x');
    EXPECT(brm_save(handle, buffer, size - 1, &size) == BRM_NO_ROOM && buffer[0] == 'x');
    EXPECT(brm_save(handle, buffer, size + 1, &size) == BRM_DONE && size == strlen(text));
    EXPECT(memcmp(buffer, text, size) == 0 && buffer[size] == 'x');
}

static void texts(void) {
    const char *of_map = "{\"items\":[[[{\"Included\":0},{\"Excluded\":5}],1],"
                         "[[{\"Included\":7},\"Unbounded\"],2]],\"version\":2}";
    const char *of_signed = "{\"items\":[[[\"Unbounded\",{\"Included\":-3}],18446744073709551615]],\"version\":2}";
    const char *of_set = "[[{\"Included\":1},{\"Included\":18446744073709551615}]]";
    const char *of_signed_set = "[[{\"Included\":-9223372036854775808},{\"Excluded\":-1}],[{\"Included\":9223372036854775807},\"Unbounded\"]]";
    brm_handle map = BRM_HANDLE_CLOSED, keys = BRM_HANDLE_CLOSED, set = BRM_HANDLE_CLOSED, signed_set = BRM_HANDLE_CLOSED;
    brm_entry_u64 e = {{0, 0, 0}, 0};
    size_t size = 7;
    uint8_t buffer[1] = {'x'};
    EXPECT(load(&map, of_map) == BRM_CLOSED);
    EXPECT(brm_save(&map, buffer, 1, &size) == BRM_CLOSED && size == 7);
    EXPECT(brm_map_u64_create(&map) == BRM_DONE && brm_map_i64_create(&keys) == BRM_DONE);
    EXPECT(brm_set_u64_create(&set) == BRM_DONE && brm_set_i64_create(&signed_set) == BRM_DONE);
    expect_text(&set, "[]");
    expect_text(&signed_set, "[]");
    EXPECT(load(&map, of_map) == BRM_DONE && brm_count(&map) == 2);
    EXPECT(brm_map_u64_get(&map, 4, &e) == BRM_DONE && is_entry(e, upto(0, 5), 1));
    EXPECT(load(&keys, of_signed) == BRM_DONE && load(&set, of_set) == BRM_DONE);
    expect_text(&map, of_map);
    expect_text(&keys, of_signed);
    expect_text(&set, of_set);
    EXPECT(load(&signed_set, of_signed_set) == BRM_DONE && brm_count(&signed_set) == 2);
    expect_text(&signed_set, of_signed_set);
    EXPECT(load(&signed_set, of_set) == BRM_NOT_READ && load(&set, of_signed_set) == BRM_NOT_READ);
    brm_destroy(&signed_set);
    EXPECT(load(&map, "[") == BRM_NOT_JSON && load(&map, "") == BRM_NOT_JSON);
    EXPECT(load(&map, "[\"\xff\"]") == BRM_NOT_JSON);
    EXPECT(load(&map, of_signed) == BRM_NOT_READ && load(&map, of_set) == BRM_NOT_READ);
    EXPECT(load(&set, of_map) == BRM_NOT_READ && load(&keys, "{\"items\":[],\"version\":3}") == BRM_NOT_READ);
    for (long allocations = 0;; allocations++) {
        granted = allocations;
        uint32_t status = load(&map, "[[[{\"Included\":9},{\"Included\":9}],3]]");
        granted = -1;
        if (status == BRM_DONE) break;
        EXPECT(status == BRM_NO_MEMORY);
        expect_text(&map, of_map);
    }
    EXPECT(brm_map_u64_contains(&map, 9) == BRM_DONE && brm_count(&map) == 1);
    granted = 0;
    EXPECT(brm_save(&map, buffer, 1, &size) == BRM_NO_MEMORY && size == 7 && buffer[0] == 'x');
    granted = -1;
    brm_destroy(&map);
    brm_destroy(&keys);
    brm_destroy(&set);
}

/* What lies in a range is read in batches of two, each from where the one before ended. */
static void in_ranges(void) {
    brm_handle map = BRM_HANDLE_CLOSED, rest = BRM_HANDLE_CLOSED, set = BRM_HANDLE_CLOSED;
    brm_entry_u64 e[2];
    brm_range_u64 gaps[2], within = through(5, 44), all = {0, 0, BRM_START_UNBOUNDED | BRM_END_UNBOUNDED};
    size_t n = 9;
    memset(e, 0, sizeof e);
    memset(gaps, 0, sizeof gaps);
    EXPECT(brm_map_u64_overlapping(&map, &within, e, 2, &n) == BRM_CLOSED && n == 9);
    EXPECT(brm_map_u64_gaps(&map, &within, gaps, 2, &n) == BRM_CLOSED && n == 9);
    EXPECT(brm_map_u64_create(&map) == BRM_DONE);
    for (uint64_t i = 0; i < 5; i++) EXPECT(put(&map, upto(10 * i, 10 * i + 6), i) == BRM_DONE);
    EXPECT(brm_map_u64_overlapping(&map, &within, e, 2, &n) == BRM_DONE && n == 2);
    EXPECT(is_entry(e[0], upto(0, 6), 0) && is_entry(e[1], upto(10, 16), 1));
    within.start = 16;
    EXPECT(brm_map_u64_overlapping(&map, &within, e, 2, &n) == BRM_DONE && n == 2);
    EXPECT(is_entry(e[0], upto(20, 26), 2) && is_entry(e[1], upto(30, 36), 3));
    within.start = 36;
    EXPECT(brm_map_u64_overlapping(&map, &within, e, 2, &n) == BRM_DONE && n == 1 && is_entry(e[0], upto(40, 46), 4));
    within = upto(6, 10);
    EXPECT(brm_map_u64_overlapping(&map, &within, e, 2, &n) == BRM_DONE && n == 0);
    within = upto(8, 3);
    EXPECT(brm_map_u64_overlapping(&map, &within, e, 2, &n) == BRM_DONE && n == 0);
    EXPECT(brm_map_u64_gaps(&map, &within, gaps, 2, &n) == BRM_DONE && n == 0);
    within = through(5, 22);
    EXPECT(brm_map_u64_gaps(&map, &within, gaps, 2, &n) == BRM_DONE && n == 2);
    EXPECT(gaps[0].start == 6 && gaps[0].end == 10 && gaps[0].flags == BRM_END_EXCLUDED);
    EXPECT(gaps[1].start == 16 && gaps[1].end == 20 && gaps[1].flags == BRM_END_EXCLUDED);
    EXPECT(brm_map_u64_gaps(&map, &all, gaps, 2, &n) == BRM_DONE && n == 2);
    EXPECT(gaps[0].start == 6 && gaps[0].end == 10 && gaps[1].start == 16);
    within = (brm_range_u64){46, 0, BRM_END_UNBOUNDED};
    EXPECT(brm_map_u64_gaps(&map, &within, gaps, 2, &n) == BRM_DONE && n == 1);
    EXPECT(gaps[0].start == 46 && gaps[0].flags == BRM_END_UNBOUNDED);

    brm_range_u64 touching = upto(6, 8), meeting = through(5, 6), none = upto(8, 3);
    EXPECT(brm_map_u64_try_insert(&map, &meeting, 7) == BRM_OCCUPIED && brm_count(&map) == 5);
    EXPECT(brm_map_u64_try_insert(&map, &touching, 0) == BRM_DONE && brm_count(&map) == 5);
    EXPECT(brm_map_u64_try_insert(&map, &none, 7) == BRM_DONE && brm_count(&map) == 5);
    granted = 0;
    brm_range_u64 far = upto(100, 110);
    EXPECT(brm_map_u64_split_off(&map, 22, &rest) == BRM_NO_MEMORY && brm_count(&map) == 5 && !rest.is_open);
    granted = 1;
    EXPECT(brm_map_u64_split_off(&map, 22, &rest) == BRM_NO_MEMORY && brm_count(&map) == 5 && !rest.is_open);
    granted = -1;
    EXPECT(brm_map_u64_split_off(&map, 22, &map) == BRM_OPEN);
    EXPECT(brm_map_u64_split_off(&map, 22, &rest) == BRM_DONE && brm_count(&map) == 3 && brm_count(&rest) == 3);
    EXPECT(brm_map_u64_last(&map, &e[0]) == BRM_DONE && is_entry(e[0], upto(20, 22), 2));
    EXPECT(brm_map_u64_first(&rest, &e[0]) == BRM_DONE && is_entry(e[0], upto(22, 26), 2));
    EXPECT(brm_map_u64_split_off(&map, 22, &rest) == BRM_OPEN);
    EXPECT(brm_map_u64_try_insert(&rest, &far, 7) == BRM_DONE && brm_count(&rest) == 4);
    EXPECT(brm_map_u64_append(&rest, &map) == BRM_OUT_OF_ORDER && brm_count(&rest) == 4 && brm_count(&map) == 3);
    EXPECT(brm_map_u64_append(&map, &map) == BRM_OUT_OF_ORDER && brm_map_u64_append(&set, &set) == BRM_CLOSED);
    /* 20..22 and 22..26 become one again */
    EXPECT(brm_map_u64_append(&map, &rest) == BRM_DONE && brm_count(&map) == 6 && brm_count(&rest) == 0);
    EXPECT(brm_map_u64_append(&rest, &rest) == BRM_DONE && brm_map_u64_append(&rest, &set) == BRM_CLOSED);
    brm_destroy(&rest);
    brm_destroy(&map);
    EXPECT(brm_map_u64_split_off(&map, 22, &rest) == BRM_CLOSED && !rest.is_open);
    EXPECT(brm_map_u64_try_insert(&map, &far, 7) == BRM_CLOSED);

    EXPECT(brm_set_u64_create(&set) == BRM_DONE);
    EXPECT(brm_map_u64_overlapping(&set, &far, e, 2, &n) == BRM_OTHER_KIND);
    EXPECT(brm_map_u64_try_insert(&set, &far, 7) == BRM_OTHER_KIND);
    EXPECT(brm_map_u64_split_off(&set, 22, &rest) == BRM_OTHER_KIND && !rest.is_open);
    EXPECT(brm_map_u64_append(&set, &set) == BRM_OTHER_KIND);
    EXPECT(brm_set_u64_insert(&set, &far) == BRM_DONE);
    EXPECT(brm_set_u64_overlapping(&set, &all, gaps, 2, &n) == BRM_DONE && n == 1 && gaps[0].start == 100);
    EXPECT(brm_set_u64_gaps(&set, &all, gaps, 2, &n) == BRM_DONE && n == 2 && gaps[1].start == 110);
    brm_destroy(&set);
}

/* Pieces of a range in batches of two, many keys and many ranges in one call; refused memory tells how many were done. */
static void many_at_once(void) {
    enum { RANGES = 300 };
    brm_handle map = BRM_HANDLE_CLOSED, set = BRM_HANDLE_CLOSED;
    brm_entry_u64 some[] = {{{0, 10, BRM_END_EXCLUDED}, 1}, {{20, 30, BRM_END_EXCLUDED}, 2}, {{5, 3, 0}, 9}, {{5, 8, BRM_END_EXCLUDED}, 3}};
    static brm_entry_u64 apart[RANGES];
    brm_piece_u64 pieces[2];
    brm_binding bound[4];
    brm_range_u64 within = through(6, 22), ranges[] = {{0, 9, 0}, {20, 29, 0}, {5, 14, 0}};
    uint64_t keys[] = {9, 7, 10, UINT64_MAX};
    size_t n = 9;
    memset(pieces, 0, sizeof pieces);
    memset(bound, 0xaa, sizeof bound);
    EXPECT(brm_map_u64_pieces(&map, &within, pieces, 2, &n) == BRM_CLOSED && brm_map_u64_get_many(&map, keys, bound, 4) == BRM_CLOSED);
    EXPECT(brm_map_u64_insert_many(&map, some, 4, &n) == BRM_CLOSED && n == 9 && bound[0].value == 0xaaaaaaaaaaaaaaaa);
    EXPECT(brm_map_u64_create(&map) == BRM_DONE && brm_set_u64_create(&set) == BRM_DONE);
    EXPECT(brm_map_u64_pieces(&map, &within, pieces, 2, &n) == BRM_DONE && n == 1 && !pieces[0].binding.is_bound);
    EXPECT(brm_map_u64_insert_many(&map, some, 4, &n) == BRM_DONE && n == 4 && brm_count(&map) == 4);
    EXPECT(brm_map_u64_insert_many(&map, some, 0, &n) == BRM_DONE && n == 0 && brm_count(&map) == 4);
    EXPECT(brm_map_u64_pieces(&map, &within, pieces, 2, &n) == BRM_DONE && n == 2);
    EXPECT(pieces[0].range.start == 6 && pieces[0].range.end == 8 && pieces[0].binding.value == 3 && pieces[0].binding.is_bound);
    EXPECT(pieces[1].range.start == 8 && pieces[1].range.end == 10 && pieces[1].binding.value == 1);
    within.start = 10;
    EXPECT(brm_map_u64_pieces(&map, &within, pieces, 2, &n) == BRM_DONE && n == 2 && pieces[0].range.end == 20);
    EXPECT(!pieces[0].binding.is_bound && pieces[0].binding.value == 0 && pieces[1].range.end == 22 && pieces[1].binding.value == 2);
    within = upto(8, 3);
    EXPECT(brm_map_u64_pieces(&map, &within, pieces, 2, &n) == BRM_DONE && n == 0);
    EXPECT(brm_map_u64_get_many(&map, keys, bound, 3) == BRM_DONE && bound[3].value == 0xaaaaaaaaaaaaaaaa);
    EXPECT(bound[0].is_bound && bound[0].value == 1 && bound[1].is_bound && bound[1].value == 3 && !bound[2].is_bound);
    EXPECT(brm_raw_map_u64_get_many(&map, keys, 4, bound, 3) == BRM_NO_ROOM && bound[0].value == 1);
    EXPECT(brm_set_u64_insert_many(&map, ranges, 3, &n) == BRM_OTHER_KIND && n == 0 && brm_count(&map) == 4);
    EXPECT(brm_map_u64_pieces(&set, &within, pieces, 2, &n) == BRM_OTHER_KIND && brm_map_u64_get_many(&set, keys, bound, 3) == BRM_OTHER_KIND);
    EXPECT(brm_set_u64_insert_many(&set, ranges, 3, &n) == BRM_DONE && n == 3 && brm_count(&set) == 2);
    EXPECT(brm_set_u64_contains(&set, 14) == BRM_DONE && brm_set_u64_contains(&set, 15) == BRM_NONE);
    EXPECT(brm_clear(&map) == BRM_DONE);
    for (uint64_t i = 0; i < RANGES; i++) apart[i] = (brm_entry_u64){upto(10 * i, 10 * i + 5), i};
    for (long wanted = 0;; wanted++) {
        brm_handle made = BRM_HANDLE_CLOSED;
        EXPECT(brm_map_u64_create(&made) == BRM_DONE);
        granted = wanted;
        brm_status status = brm_map_u64_insert_many(&made, apart, RANGES, &n);
        granted = -1;
        EXPECT(brm_count(&made) == n && (n == 0 || brm_map_u64_contains(&made, 10 * n - 6) == BRM_DONE));
        brm_destroy(&made);
        if (status == BRM_DONE) break;
        EXPECT(status == BRM_NO_MEMORY && n < RANGES);
    }
    EXPECT(n == RANGES);
    brm_destroy(&set);
    brm_destroy(&map);
}

/* How many allocations it takes to insert the ranges into a map without one. */
static long allocations_for(const brm_entry_u64 *entries, size_t size) {
    brm_handle map = BRM_HANDLE_CLOSED;
    size_t n = 0;
    EXPECT(brm_map_u64_create(&map) == BRM_DONE);
    long before = allocations;
    EXPECT(brm_map_u64_insert_many(&map, entries, size, &n) == BRM_DONE && n == size && brm_count(&map) == size);
    long taken = allocations - before;
    brm_destroy(&map);
    return taken;
}

/* Ranges in order that come to a map without one are stored at once, and others one by one; both do the same. */
static void many_in_order(void) {
    enum { RANGES = 300 };
    static brm_entry_u64 ascending[RANGES], swapped[RANGES];
    brm_handle map = BRM_HANDLE_CLOSED, same = BRM_HANDLE_CLOSED;
    brm_entry_u64 touching[] = {{{0, 4, BRM_END_EXCLUDED}, 1}, {{4, 6, 0}, 1}, {{6, 9, BRM_START_EXCLUDED}, 2}, {{12, 0, BRM_END_UNBOUNDED}, 1}};
    brm_entry_u64 entry = {{0, 0, 0}, 0};
    size_t n = 0;
    for (uint64_t i = 0; i < RANGES; i++) ascending[i] = swapped[i ^ 1] = (brm_entry_u64){upto(10 * i, 10 * i + 5), i};
    EXPECT(allocations_for(ascending, RANGES) < allocations_for(swapped, RANGES));
    EXPECT(brm_map_u64_create(&map) == BRM_DONE && brm_map_u64_create(&same) == BRM_DONE);
    EXPECT(brm_map_u64_insert_many(&map, touching, 4, &n) == BRM_DONE && n == 4 && brm_count(&map) == 3);
    for (size_t i = 0; i < 4; i++) EXPECT(put(&same, touching[i].range, touching[i].value) == BRM_DONE);
    EXPECT(brm_equal(&map, &same) == BRM_DONE && brm_map_u64_get(&map, 5, &entry) == BRM_DONE && is_entry(entry, through(0, 6), 1));
    EXPECT(brm_clear(&map) == BRM_DONE && brm_map_u64_insert_many(&map, ascending, RANGES, &n) == BRM_DONE && n == RANGES);
    EXPECT(brm_map_u64_insert_many(&map, touching, 4, &n) == BRM_DONE && n == 4 && brm_count(&map) == 3);
    EXPECT(brm_equal(&map, &same) == BRM_NONE && brm_map_u64_get(&map, 11, &entry) == BRM_DONE && entry.value == 1);
    brm_destroy(&same);
    brm_destroy(&map);
}

static void many_signed(void) {
    brm_handle map = BRM_HANDLE_CLOSED;
    brm_entry_i64 some[] = {{{-10, -5, 0}, 1}, {{5, 10, 0}, 2}};
    brm_piece_i64 pieces[3];
    brm_binding bound[2];
    brm_range_i64 within = {-6, 6, 0};
    int64_t keys[] = {-6, 0};
    size_t n = 0;
    memset(pieces, 0, sizeof pieces);
    memset(bound, 0, sizeof bound);
    EXPECT(brm_map_i64_create(&map) == BRM_DONE && brm_map_i64_insert_many(&map, some, 2, &n) == BRM_DONE && n == 2);
    EXPECT(brm_map_i64_get_many(&map, keys, bound, 2) == BRM_DONE && bound[0].value == 1 && !bound[1].is_bound);
    EXPECT(brm_map_i64_pieces(&map, &within, pieces, 3, &n) == BRM_DONE && n == 3 && pieces[0].range.start == -6);
    EXPECT(pieces[0].binding.value == 1 && !pieces[1].binding.is_bound && pieces[2].range.end == 6 && pieces[2].binding.value == 2);
    brm_destroy(&map);
}

static void in_signed_ranges(void) {
    brm_handle map = BRM_HANDLE_CLOSED, rest = BRM_HANDLE_CLOSED;
    brm_entry_i64 e[2];
    brm_range_i64 gaps[2], low = {-9, -5, 0}, high = {5, 9, 0}, within = {-7, 7, 0};
    size_t n = 0;
    memset(e, 0, sizeof e);
    memset(gaps, 0, sizeof gaps);
    EXPECT(brm_map_i64_create(&map) == BRM_DONE);
    EXPECT(brm_map_i64_try_insert(&map, &low, 1) == BRM_DONE && brm_map_i64_try_insert(&map, &high, 2) == BRM_DONE);
    EXPECT(brm_map_i64_try_insert(&map, &within, 3) == BRM_OCCUPIED);
    EXPECT(brm_map_i64_overlapping(&map, &within, e, 2, &n) == BRM_DONE && n == 2 && e[0].value == 1 && e[1].value == 2);
    EXPECT(brm_map_i64_gaps(&map, &within, gaps, 2, &n) == BRM_DONE && n == 1);
    EXPECT(gaps[0].start == -5 && gaps[0].end == 5 && gaps[0].flags == (BRM_START_EXCLUDED | BRM_END_EXCLUDED));
    EXPECT(brm_map_i64_split_off(&map, -6, &rest) == BRM_DONE && brm_count(&map) == 1 && brm_count(&rest) == 2);
    EXPECT(brm_map_i64_first(&rest, &e[0]) == BRM_DONE && e[0].range.start == -6 && e[0].range.end == -5);
    EXPECT(brm_map_i64_append(&rest, &map) == BRM_OUT_OF_ORDER && brm_map_i64_append(&map, &map) == BRM_OUT_OF_ORDER);
    EXPECT(brm_map_i64_append(&map, &rest) == BRM_DONE && brm_count(&map) == 2 && brm_count(&rest) == 0);
    brm_destroy(&rest);
    brm_destroy(&map);
}

/* Maps of two maps, and of a map and a set; refused allocations leave no handle open. */
static void maps_of_two(void) {
    brm_handle map = BRM_HANDLE_CLOSED, other = BRM_HANDLE_CLOSED, set = BRM_HANDLE_CLOSED, made = BRM_HANDLE_CLOSED;
    brm_handle low = BRM_HANDLE_CLOSED, high = BRM_HANDLE_CLOSED, signed_set = BRM_HANDLE_CLOSED;
    brm_entry_u64 e = {{0, 0, 0}, 0};
    brm_entry_i64 found = {{0, 0, 0}, 0};
    brm_key_count n = {0, 0};
    brm_range_u64 keys = upto(4, 8);
    brm_range_i64 below = {-8, -4, 0}, above = {-4, 8, 0};
    EXPECT(brm_overlay(&map, &other, &made) == BRM_CLOSED);
    EXPECT(brm_map_u64_create(&map) == BRM_DONE && brm_map_u64_create(&other) == BRM_DONE);
    EXPECT(brm_set_u64_create(&set) == BRM_DONE && brm_set_u64_insert(&set, &keys) == BRM_DONE);
    EXPECT(put(&map, upto(0, 6), 1) == BRM_DONE && put(&other, upto(4, 9), 2) == BRM_DONE);
    for (granted = 0; brm_overlay(&map, &other, &made) == BRM_NO_MEMORY; granted = 1 + (long)n.high++) EXPECT(!made.is_open);
    granted = -1;
    EXPECT(n.high > 1 && brm_count(&made) == 2 && brm_map_u64_get(&made, 5, &e) == BRM_DONE && e.value == 2);
    EXPECT(brm_map_u64_len(&made, &n) == BRM_DONE && n.low == 9);
    EXPECT(brm_overlay(&map, &other, &made) == BRM_OPEN && brm_restrict(&map, &set, &made) == BRM_OPEN);
    brm_destroy(&made);
    EXPECT(brm_overlay(&map, &other, &map) == BRM_OPEN && brm_without(&map, &made, &made) == BRM_CLOSED);
    EXPECT(brm_restrict(&map, &other, &made) == BRM_DONE && brm_map_u64_len(&made, &n) == BRM_DONE && n.low == 2);
    brm_destroy(&made);
    EXPECT(brm_without(&map, &other, &made) == BRM_DONE && brm_map_u64_first(&made, &e) == BRM_DONE);
    EXPECT(is_entry(e, upto(0, 4), 1));
    brm_destroy(&made);
    EXPECT(brm_restrict(&other, &set, &made) == BRM_DONE && brm_map_u64_first(&made, &e) == BRM_DONE);
    EXPECT(is_entry(e, upto(4, 8), 2));
    brm_destroy(&made);
    EXPECT(brm_without(&other, &set, &made) == BRM_DONE && brm_map_u64_first(&made, &e) == BRM_DONE);
    EXPECT(e.range.start == 8 && e.range.end == 9 && brm_count(&made) == 1);
    brm_destroy(&made);
    EXPECT(brm_overlay(&map, &map, &made) == BRM_DONE && brm_equal(&map, &made) == BRM_DONE);
    brm_destroy(&made);
    EXPECT(brm_restrict(&map, &map, &made) == BRM_DONE && brm_equal(&map, &made) == BRM_DONE);
    brm_destroy(&made);
    EXPECT(brm_without(&map, &map, &made) == BRM_DONE && brm_count(&made) == 0 && brm_map_u64_contains(&made, 0) == BRM_NONE);
    brm_destroy(&made);

    EXPECT(brm_map_i64_create(&low) == BRM_DONE && brm_map_i64_create(&high) == BRM_DONE);
    EXPECT(brm_map_i64_insert(&low, &below, 1) == BRM_DONE && brm_map_i64_insert(&high, &above, 2) == BRM_DONE);
    EXPECT(brm_overlay(&low, &high, &made) == BRM_DONE && brm_map_i64_len(&made, &n) == BRM_DONE && n.low == 17);
    brm_destroy(&made);
    EXPECT(brm_restrict(&low, &high, &made) == BRM_DONE && brm_map_i64_len(&made, &n) == BRM_DONE && n.low == 1);
    brm_destroy(&made);
    EXPECT(brm_without(&low, &high, &made) == BRM_DONE && brm_map_i64_len(&made, &n) == BRM_DONE && n.low == 4);
    brm_destroy(&made);
    signed_set = signed_set_of(&above, 1);
    EXPECT(brm_restrict(&low, &signed_set, &made) == BRM_DONE && brm_map_i64_get(&made, -4, &found) == BRM_DONE);
    EXPECT(brm_count(&made) == 1 && is_signed_range(found.range, -4, -4, 0) && found.value == 1);
    brm_destroy(&made);
    EXPECT(brm_without(&low, &signed_set, &made) == BRM_DONE && brm_map_i64_first(&made, &found) == BRM_DONE);
    EXPECT(brm_count(&made) == 1 && is_signed_range(found.range, -8, -4, BRM_END_EXCLUDED) && found.value == 1);
    brm_destroy(&made);
    EXPECT(brm_restrict(&map, &signed_set, &made) == BRM_OTHER_KIND && brm_without(&map, &signed_set, &made) == BRM_OTHER_KIND);
    EXPECT(brm_overlay(&low, &signed_set, &made) == BRM_OTHER_KIND && brm_without(&signed_set, &low, &made) == BRM_OTHER_KIND);
    EXPECT(brm_restrict(&signed_set, &signed_set, &made) == BRM_OTHER_KIND && !made.is_open);
    brm_destroy(&signed_set);
    EXPECT(brm_overlay(&low, &map, &made) == BRM_OTHER_KIND && brm_overlay(&map, &set, &made) == BRM_OTHER_KIND);
    EXPECT(brm_restrict(&low, &set, &made) == BRM_OTHER_KIND && brm_without(&set, &map, &made) == BRM_OTHER_KIND);
    EXPECT(brm_overlay(&set, &set, &made) == BRM_OTHER_KIND && brm_without(&set, &set, &made) == BRM_OTHER_KIND);
    EXPECT(!made.is_open);
    brm_destroy(&low);
    brm_destroy(&high);
    brm_destroy(&set);
    brm_destroy(&other);
    brm_destroy(&map);
    EXPECT(brm_overlay(&map, &map, &made) == BRM_CLOSED && brm_without(&map, &map, &made) == BRM_CLOSED);
}

static bool is_key(brm_u128 key, uint64_t high, uint64_t low) { return key.high == high && key.low == low; }

static void expect_closed_wide(brm_handle *map, brm_status wanted) {
    brm_u128 key = {0, 0};
    brm_range_u128 range = {{0, 0}, {9, 0}, 0}, set_range = range;
    brm_entry_u128 e = {range, 7};
    brm_piece_u128 piece = {range, {7, true}};
    brm_key_count n = {7, 7};
    brm_binding bound = {7, true};
    size_t count = 77;
    EXPECT(brm_map_u128_insert(map, &range, 1) == wanted && brm_map_u128_try_insert(map, &range, 1) == wanted);
    EXPECT(brm_map_u128_insert_disconnected(map, &range, 1) == wanted && brm_map_u128_remove(map, &range) == wanted);
    EXPECT(brm_map_u128_get(map, &key, &e) == wanted && brm_map_u128_contains(map, &key) == wanted);
    EXPECT(brm_map_u128_intersects(map, &range) == wanted && brm_map_u128_len(map, &n) == wanted && n.low == 7);
    EXPECT(brm_map_u128_first(map, &e) == wanted && brm_map_u128_last(map, &e) == wanted);
    EXPECT(brm_map_u128_next(map, &key, &e) == wanted && brm_map_u128_previous(map, &key, &e) == wanted);
    EXPECT(brm_map_u128_pop_first(map, &e) == wanted && brm_map_u128_pop_last(map, &e) == wanted && e.value == 7);
    EXPECT(brm_map_u128_read(map, &key, &e, 1, &count) == wanted && brm_map_u128_read_back(map, &key, &e, 1, &count) == wanted);
    EXPECT(brm_map_u128_overlapping(map, &range, &e, 1, &count) == wanted && brm_map_u128_gaps(map, &range, &set_range, 1, &count) == wanted);
    EXPECT(brm_map_u128_pieces(map, &range, &piece, 1, &count) == wanted && brm_map_u128_insert_many(map, &e, 1, &count) == wanted);
    EXPECT(brm_map_u128_get_many(map, &key, &bound, 1) == wanted && bound.value == 7 && count == 77);
    EXPECT(brm_set_u128_insert(map, &range) == wanted && brm_set_u128_try_insert(map, &range) == wanted);
    EXPECT(brm_set_u128_remove(map, &range) == wanted && brm_set_u128_get(map, &key, &set_range) == wanted);
    EXPECT(brm_set_u128_contains(map, &key) == wanted && brm_set_u128_intersects(map, &range) == wanted);
    EXPECT(brm_set_u128_len(map, &n) == wanted && brm_set_u128_first(map, &set_range) == wanted && brm_set_u128_last(map, &set_range) == wanted);
    EXPECT(brm_set_u128_next(map, &key, &set_range) == wanted && brm_set_u128_previous(map, &key, &set_range) == wanted);
    EXPECT(brm_set_u128_pop_first(map, &set_range) == wanted && brm_set_u128_pop_last(map, &set_range) == wanted);
    EXPECT(brm_set_u128_read(map, &key, &set_range, 1, &count) == wanted && brm_set_u128_read_back(map, &key, &set_range, 1, &count) == wanted);
    EXPECT(brm_set_u128_overlapping(map, &range, &set_range, 1, &count) == wanted && brm_set_u128_gaps(map, &range, &set_range, 1, &count) == wanted);
    EXPECT(brm_set_u128_insert_many(map, &range, 1, &count) == wanted && count == 77 && n.high == 7 && is_key(set_range.end, 0, 9));
}

/* Keys of 128 bits: addresses of version 6, and both ends of all keys. */
static void wide_maps(void) {
    const uint8_t bytes[16] = {0x20, 0x01, 0x0d, 0xb8, 0, 0, 0, 0, 0, 0, 0, 0, 0, 0, 0, 0xff};
    uint8_t back[16] = {0};
    brm_u128 key = brm_u128_of_bytes(bytes), last = brm_u128_of(UINT64_MAX, UINT64_MAX), first = brm_u128_of(0, 0);
    brm_handle map = BRM_HANDLE_CLOSED, other = BRM_HANDLE_CLOSED, made = BRM_HANDLE_CLOSED;
    brm_entry_u128 e = {{{0, 0}, {0, 0}, 0}, 0};
    brm_key_count n = {7, 7};
    brm_u128_to_bytes(key, back);
    EXPECT(is_key(key, 0x20010db800000000, 0xff) && memcmp(bytes, back, 16) == 0);
    expect_closed_wide(&map, BRM_CLOSED);
    EXPECT(brm_map_u64_create(&map) == BRM_DONE);
    expect_closed_wide(&map, BRM_OTHER_KIND);
    EXPECT(brm_overlay(&map, &other, &made) == BRM_CLOSED && brm_map_u128_create(&other) == BRM_DONE);
    EXPECT(brm_overlay(&map, &other, &made) == BRM_OTHER_KIND && brm_equal(&map, &other) == BRM_OTHER_KIND);
    EXPECT(brm_map_u128_append(&map, &map) == BRM_OTHER_KIND && brm_map_u128_split_off(&map, &key, &made) == BRM_OTHER_KIND);
    brm_destroy(&map);
    EXPECT(brm_map_u128_create(&map) == BRM_DONE && brm_map_u128_create(&map) == BRM_OPEN);
    brm_range_u128 net = {key, brm_u128_of(key.high + 1, 0), BRM_END_EXCLUDED}, ends[] = {{first, first, 0}, {last, last, 0}};
    EXPECT(brm_map_u128_insert(&map, &net, 5) == BRM_DONE && brm_map_u128_insert(&map, &ends[0], 1) == BRM_DONE);
    EXPECT(brm_map_u128_insert_disconnected(&map, &ends[1], 2) == BRM_DONE && brm_count(&map) == 3);
    EXPECT(brm_map_u128_len(&map, &n) == BRM_DONE && n.high == 0 && n.low == UINT64_MAX - 0xff + 1 + 2);
    EXPECT(brm_map_u128_next(&map, &key, &e) == BRM_DONE && e.value == 5 && is_key(e.range.start, key.high, 0xff));
    key = brm_u128_of(key.high + 1, 0);
    EXPECT(brm_map_u128_next(&map, &key, &e) == BRM_DONE && e.value == 2 && is_key(e.range.start, UINT64_MAX, UINT64_MAX));
    key = brm_u128_before(key);
    EXPECT(brm_map_u128_get(&map, &key, &e) == BRM_DONE && is_key(e.range.end, key.high + 1, 0) && e.range.flags == BRM_END_EXCLUDED);
    brm_range_u128 all = {last, first, BRM_START_UNBOUNDED | BRM_END_UNBOUNDED};
    EXPECT(brm_map_u128_insert(&map, &all, 9) == BRM_DONE && brm_count(&map) == 1);
    n.low = n.high = 7;
    EXPECT(brm_map_u128_len(&map, &n) == BRM_NO_ROOM && n.high == 7 && n.low == 7);
    EXPECT(brm_map_u128_remove(&map, &ends[1]) == BRM_DONE);
    EXPECT(brm_map_u128_len(&map, &n) == BRM_DONE && n.high == UINT64_MAX && n.low == UINT64_MAX);
    brm_destroy(&map);
    brm_destroy(&other);
}

static brm_prefix_u128 prefix(uint64_t high, uint64_t low, uint32_t length, uint64_t value) {
    return (brm_prefix_u128){brm_u128_of(high, low), value, length};
}

static bool is_prefix(brm_prefix_u128 p, uint64_t high, uint64_t low, uint32_t length, uint64_t value) {
    return is_key(p.network, high, low) && p.length == length && p.value == value;
}

/* The shortest table of a map, and the map of that table again, with each allocation refused; what has no such table. */
static void prefixes_of_wide_maps(void) {
    brm_handle map = BRM_HANDLE_CLOSED, again = BRM_HANDLE_CLOSED, other = BRM_HANDLE_CLOSED;
    brm_range_u128 ten = {{0x0a000000, 0}, {0x0affffff, 0}, 0}, one = {{0x0a010000, 0}, {0x0a01ffff, 0}, 0};
    brm_range_u128 last = {{UINT64_MAX, UINT64_MAX}, {0, 0}, BRM_END_UNBOUNDED};
    brm_prefix_u128 found[4] = {prefix(7, 7, 7, 7), prefix(7, 7, 7, 7), prefix(7, 7, 7, 7), prefix(7, 7, 7, 7)};
    size_t count = 77;
    EXPECT(brm_map_u128_shortest(&map, found, 4, &count) == BRM_CLOSED && brm_map_u64_create(&other) == BRM_DONE);
    EXPECT(brm_map_u128_shortest(&other, found, 4, &count) == BRM_OTHER_KIND && count == 77);
    EXPECT(brm_map_u128_from_prefixes(&other, found, 1) == BRM_OPEN);
    EXPECT(brm_map_u128_create(&map) == BRM_DONE && brm_map_u128_shortest(&map, found, 0, &count) == BRM_DONE && count == 0);
    EXPECT(brm_map_u128_insert(&map, &ten, 1) == BRM_DONE && brm_map_u128_insert(&map, &one, 2) == BRM_DONE);
    EXPECT(brm_map_u128_insert(&map, &last, 3) == BRM_DONE);
    EXPECT(brm_map_u128_shortest(&map, found, 2, &count) == BRM_NO_ROOM && count == 3 && is_prefix(found[0], 7, 7, 7, 7));
    int status = BRM_NO_MEMORY;
    long wanted = 0;
    for (; status == BRM_NO_MEMORY; wanted++) {
        count = 77, granted = wanted;
        status = brm_map_u128_shortest(&map, found, 4, &count);
        granted = -1;
        EXPECT(status == BRM_DONE || (count == 77 && is_prefix(found[0], 7, 7, 7, 7)));
    }
    EXPECT(status == BRM_DONE && wanted > 1 && count == 3 && is_prefix(found[3], 7, 7, 7, 7));
    EXPECT(is_prefix(found[0], 0, 0x0a000000, 104, 1) && is_prefix(found[1], 0, 0x0a010000, 112, 2));
    EXPECT(is_prefix(found[2], UINT64_MAX, UINT64_MAX, 128, 3));
    for (status = BRM_NO_MEMORY, wanted = 0; status == BRM_NO_MEMORY; wanted++) {
        granted = wanted;
        status = brm_map_u128_from_prefixes(&again, found, 3);
        granted = -1;
        EXPECT(status == BRM_DONE || !again.is_open);
    }
    EXPECT(status == BRM_DONE && wanted > 1 && brm_equal(&map, &again) == BRM_DONE);
    brm_destroy(&again);
    /* equal prefixes, one by another network of it; all keys; and a prefix that is too long */
    brm_prefix_u128 given[] = {prefix(0, 6, 127, 1), prefix(0, 7, 127, 2), prefix(5, 9, 0, 3), prefix(0, 0, 129, 4)};
    EXPECT(brm_map_u128_from_prefixes(&again, given, 4) == BRM_LONG_PREFIX && !again.is_open);
    given[3].length = 256;
    EXPECT(brm_map_u128_from_prefixes(&again, given, 4) == BRM_LONG_PREFIX);
    EXPECT(brm_map_u128_from_prefixes(&again, given, 3) == BRM_DONE && brm_count(&again) == 3);
    EXPECT(brm_map_u128_shortest(&again, found, 4, &count) == BRM_DONE && count == 2);
    EXPECT(is_prefix(found[0], 0, 0, 0, 3) && is_prefix(found[1], 0, 6, 127, 2));
    brm_destroy(&again);
    EXPECT(brm_map_u128_from_prefixes(&again, given, 0) == BRM_DONE && brm_count(&again) == 0);
    brm_destroy(&again);
    brm_destroy(&map);
    brm_destroy(&other);
}

/* Their sets, their texts, and memory that runs out. */
static void wide_sets(void) {
    brm_handle set = BRM_HANDLE_CLOSED, others = BRM_HANDLE_CLOSED;
    brm_range_u128 low = {{1, 0}, {0, 1}, 0}, high = {{0, 1}, {5, 1}, BRM_START_EXCLUDED}, found = {{0, 0}, {0, 0}, 0};
    brm_status status = BRM_NO_MEMORY;
    EXPECT(brm_set_u128_union(&set, &set, &others) == BRM_CLOSED && brm_set_u128_create(&set) == BRM_DONE);
    EXPECT(brm_set_u128_insert(&set, &low) == BRM_DONE && brm_set_u128_try_insert(&set, &low) == BRM_OCCUPIED);
    EXPECT(brm_set_u128_try_insert(&set, &high) == BRM_DONE && brm_count(&set) == 1);
    for (long allowed = 0; status == BRM_NO_MEMORY; allowed++) {
        granted = allowed;
        status = brm_set_u128_complement(&set, &others);
        granted = -1;
        EXPECT(status == BRM_DONE || !others.is_open);
    }
    EXPECT(status == BRM_DONE && brm_count(&others) == 2 && brm_set_u128_is_disjoint(&set, &others) == BRM_DONE);
    EXPECT(brm_set_u128_first(&others, &found) == BRM_DONE && is_key(brm_last_u128(&found), 0, 0));
    EXPECT(brm_set_u128_last(&others, &found) == BRM_DONE && is_key(brm_first_u128(&found), 1, 6));
    expect_text(&set, "[[{\"Included\":\"::1\"},{\"Included\":\"::1:0:0:0:5\"}]]");
    EXPECT(load(&set, "[[{\"Included\":\"2001:db8::\"},\"Unbounded\"]]") == BRM_DONE);
    EXPECT(brm_set_u128_first(&set, &found) == BRM_DONE && is_key(found.start, 0x20010db800000000, 0) && found.flags == BRM_END_UNBOUNDED);
    EXPECT(load(&set, "[[{\"Included\":1},\"Unbounded\"]]") == BRM_NOT_READ && brm_count(&set) == 1);
    brm_destroy(&set);
    brm_destroy(&others);
}

/* Adds what `with` leads to, and leaves what comes to 0 free. */
static brm_binding added(brm_binding bound, void *with) {
    brm_binding sum = {bound.value + *(const uint64_t *)with, true};
    sum.is_bound = sum.value != 0;
    return sum;
}

static brm_binding summed(brm_binding bound, brm_binding other, void *with) {
    ++*(int *)with;
    return added(bound, &other.value);
}

/* Counters over ranges: what a function makes of a range of one map, and of two maps. */
static void changed_by_functions(void) {
    enum { RANGES = 40 };
    brm_handle map = BRM_HANDLE_CLOSED, other = BRM_HANDLE_CLOSED, made = BRM_HANDLE_CLOSED;
    brm_range_u64 range = upto(0, 100), all = {0, 0, BRM_START_UNBOUNDED | BRM_END_UNBOUNDED};
    brm_entry_u64 e = {{0, 0, 0}, 0};
    brm_status status = BRM_NO_MEMORY;
    uint64_t one = 1, less = UINT64_MAX;
    int asked = 0;
    EXPECT(brm_map_u64_update(&map, &range, added, &one) == BRM_CLOSED && brm_map_u64_merge_with(&map, &map, &made, summed, &asked) == BRM_CLOSED);
    EXPECT(brm_map_u64_create(&map) == BRM_DONE && brm_map_i64_create(&other) == BRM_DONE);
    EXPECT(brm_map_u64_merge_with(&map, &other, &made, summed, &asked) == BRM_OTHER_KIND && !made.is_open && asked == 0);
    for (uint64_t i = 0; i < RANGES; i++) {
        range = upto(10 * i, 10 * i + 5);
        EXPECT(brm_map_u64_update(&map, &range, added, &i) == BRM_DONE);
    }
    EXPECT(brm_count(&map) == RANGES - 1);
    range = upto(7, 393);
    for (uint64_t before = 0, start = 7; status == BRM_NO_MEMORY; before = start, start = range.start) {
        /* what is before the rest of the range is changed, and nothing else */
        EXPECT(brm_map_u64_get(&map, 10, &e) == BRM_DONE && e.value == (range.start > 10 ? 2 : 1));
        granted = before == start ? -1 : 0;
        status = brm_map_u64_update(&map, &range, added, &one);
        granted = -1;
    }
    EXPECT(status == BRM_DONE && brm_map_u64_get(&map, 9, &e) == BRM_DONE && is_entry(e, (brm_range_u64){7, 10, BRM_END_EXCLUDED}, 1));
    EXPECT(brm_map_u64_get(&map, 392, &e) == BRM_DONE && e.value == 40 && brm_map_u64_get(&map, 394, &e) == BRM_DONE && e.value == 39);
    EXPECT(brm_map_u64_get(&map, 6, &e) == BRM_NONE);
    status = BRM_NO_MEMORY;
    for (long allowed = 0; status == BRM_NO_MEMORY; allowed++) {
        granted = allowed, asked = 0;
        status = brm_map_u64_merge_with(&map, &map, &made, summed, &asked);
        granted = -1;
        EXPECT(status == BRM_DONE || !made.is_open);
    }
    EXPECT(status == BRM_DONE && brm_count(&made) == brm_count(&map) && asked == (int)brm_count(&map));
    EXPECT(brm_map_u64_get(&made, 392, &e) == BRM_DONE && e.value == 80);
    EXPECT(brm_map_u64_update(&map, &all, added, &less) == BRM_DONE && brm_map_u64_get(&map, 9, &e) == BRM_NONE);
    EXPECT(brm_map_u64_last(&map, &e) == BRM_DONE && e.value == UINT64_MAX && e.range.start == 395 && e.range.flags == BRM_END_UNBOUNDED);
    brm_destroy(&map);
    brm_destroy(&other);
    brm_destroy(&made);
}

static brm_rule rule_of(const char *name, const char *pattern, bool is_skipped) {
    brm_rule rule = {name, strlen(name), pattern, strlen(pattern), is_skipped};
    return rule;
}

static bool is_token(brm_token token, uint32_t rule, size_t start, size_t end, size_t line, size_t column) {
    return token.is_token && token.rule == rule && token.start == start && token.end == end && token.line == line && token.column == column;
}

static bool is_no_token(brm_token token, size_t at, size_t line, size_t column) {
    return !token.is_token && token.start == at && token.end == at && token.line == line && token.column == column;
}

/* How many tokens of the text there are, which the lexer writes to four slots. */
static size_t cut(const brm_lexer *lexer, const char *text, brm_token tokens[4]) {
    size_t count = 99;
    for (int i = 0; i < 4; i++) tokens[i] = (brm_token){77, 77, 77, 77, 77, false};
    EXPECT(brm_lexer_tokens(lexer, text, strlen(text), tokens, 4, &count) == BRM_DONE);
    return count;
}

static void lexers(void) {
    brm_rule rules[] = {rule_of("if", "if", false), rule_of("word", "\\p{L}+", false), rule_of("space", "\\s+", true)};
    brm_rule_fault fault = {9, 9, 9, 9, 9};
    brm_lexer lexer = BRM_LEXER_CLOSED;
    brm_token tokens[4];
    size_t count = 99;
    char text[64] = "unwritten";
    EXPECT(brm_lexer_create(&lexer, rules, 3, 100, &fault, text, sizeof text) == BRM_DONE);
    EXPECT(brm_lexer_create(&lexer, rules, 3, 100, &fault, text, sizeof text) == BRM_OPEN);
    EXPECT(fault.rule == 9 && strcmp(text, "unwritten") == 0);
    EXPECT(cut(&lexer, "if ifs\n\xc3\x9f", tokens) == 3);
    EXPECT(is_token(tokens[0], 0, 0, 2, 1, 1) && is_token(tokens[1], 1, 3, 6, 1, 4) && is_token(tokens[2], 1, 7, 9, 2, 1));
    EXPECT(is_no_token((brm_token){77, 77, 77, 77, 77, false}, 77, 77, 77) && tokens[3].start == 77);
    EXPECT(cut(&lexer, "", tokens) == 0 && tokens[0].start == 77);
    EXPECT(cut(&lexer, "\xc3\x9f 1\xe2\x82\xac""2a", tokens) == 5);
    EXPECT(is_token(tokens[0], 1, 0, 2, 1, 1) && is_no_token(tokens[1], 3, 1, 3) && is_no_token(tokens[2], 4, 1, 4));
    EXPECT(is_no_token(tokens[3], 7, 1, 5));
    EXPECT(brm_lexer_tokens(&lexer, "a b c", 5, tokens, 0, &count) == BRM_DONE && count == 3 && tokens[0].start == 0);
    EXPECT(brm_lexer_tokens(&lexer, "a\xff", 2, tokens, 4, &count) == BRM_NOT_TEXT && count == 3 && tokens[0].start == 0);
    // what has no ranges
    brm_handle made = BRM_HANDLE_CLOSED, *held = &lexer.handle;
    size_t size = 99;
    EXPECT(brm_clone(held, &made) == BRM_OTHER_KIND && !made.is_open);
    EXPECT(brm_save(held, (uint8_t *)text, sizeof text, &size) == BRM_OTHER_KIND && size == 99);
    EXPECT(brm_load(held, (const uint8_t *)"[]", 2) == BRM_OTHER_KIND);
    EXPECT(brm_count(held) == 0 && brm_clear(held) == BRM_DONE && brm_map_u64_contains(held, 5) == BRM_OTHER_KIND);
    EXPECT(cut(&lexer, "if", tokens) == 1);
    EXPECT(brm_map_u64_create(&made) == BRM_DONE);
    EXPECT(brm_equal(held, &made) == BRM_OTHER_KIND && brm_equal(&made, held) == BRM_OTHER_KIND);
    brm_lexer of_map = {made};
    EXPECT(brm_lexer_tokens(&of_map, "a", 1, tokens, 4, &count) == BRM_OTHER_KIND && count == 3);
    brm_destroy(&made);
    brm_lexer_destroy(&lexer);
    brm_lexer_destroy(&lexer);
    brm_lexer_destroy(NULL);
    EXPECT(brm_lexer_tokens(&lexer, "a", 1, tokens, 4, &count) == BRM_CLOSED && count == 3);
}

/* What is told of a second rule with the pattern. */
static brm_rule_fault fault_of(const char *pattern, size_t size, char text[64]) {
    brm_rule rules[] = {rule_of("word", "[a-z]+", false), {"bad", 3, pattern, size, false}, rule_of("worse", "(", false)};
    brm_rule_fault fault = {9, 9, 9, 9, 9};
    brm_lexer lexer = BRM_LEXER_CLOSED;
    memset(text, 0, 64);
    EXPECT(brm_lexer_create(&lexer, rules, 3, 100, &fault, text, 63) == BRM_BAD_RULE);
    EXPECT(!lexer.handle.is_open && fault.rule == 1 && fault.text_size == strlen(text));
    return fault;
}

static void bad_rules(void) {
    char text[64];
    brm_rule_fault fault = fault_of("ab[c", 4, text);
    EXPECT(fault.reason == BRM_RULE_SYNTAX && fault.start == 2 && fault.end == 3 && strcmp(text, "unclosed character class") == 0);
    fault = fault_of("^a", 2, text);
    EXPECT(fault.reason == BRM_RULE_ASSERTION && fault.start == 0 && fault.end == 0 && strcmp(text, "assertions are not taken") == 0);
    EXPECT(fault_of("(?-u:\\xff)", 10, text).reason == BRM_RULE_SYNTAX);
    EXPECT(fault_of("(?:[a-z]{1000}){1000}", 21, text).reason == BRM_RULE_TOO_LARGE);
    EXPECT(fault_of("a\xff", 2, text).reason == BRM_RULE_NOT_TEXT);
    // a buffer for a part of what is wrong, and a name that is no text
    brm_rule rules[] = {{"\xff", 1, "a", 1, false}, rule_of("open", "(", false)};
    brm_rule large[] = {rule_of("large", "(?:a|b)*a(?:a|b){12}", false)};
    brm_lexer lexer = BRM_LEXER_CLOSED;
    memcpy(text, "........", 8);
    EXPECT(brm_lexer_create(&lexer, rules + 1, 1, 100, &fault, text, 4) == BRM_BAD_RULE && fault.text_size == 4);
    EXPECT(fault.rule == 0 && memcmp(text, "uncl....", 8) == 0);
    EXPECT(brm_lexer_create(&lexer, rules, 2, 100, &fault, text, 0) == BRM_BAD_RULE && fault.text_size == 0);
    EXPECT(fault.rule == 0 && fault.reason == BRM_RULE_NOT_TEXT);
    EXPECT(brm_lexer_create(&lexer, large, 1, 1000, &fault, text, 0) == BRM_TOO_LARGE && !lexer.handle.is_open);
    EXPECT(brm_lexer_create(&lexer, large, 0, 0, &fault, text, 0) == BRM_TOO_LARGE);
    EXPECT(brm_lexer_create(&lexer, large, 0, 1, &fault, text, 0) == BRM_DONE);
    brm_token tokens[4];
    EXPECT(cut(&lexer, "ab", tokens) == 2 && is_no_token(tokens[1], 1, 1, 2));
    brm_lexer_destroy(&lexer);
}

/* Each allocation of a lexer is refused once: none is made then, nothing is told, and nothing stays allocated. */
static void refused_lexers(void) {
    brm_rule rules[] = {rule_of("word", "[a-z]+", false), rule_of("number", "[0-9]+(?:\\.[0-9]+)?", false), rule_of("space", " ", true)};
    brm_rule_fault fault = {9, 9, 9, 9, 9};
    brm_lexer lexer = BRM_LEXER_CLOSED;
    brm_token tokens[4];
    brm_status status = BRM_NO_MEMORY;
    char text[1];
    long refused = 0;
    for (; status == BRM_NO_MEMORY; refused++) {
        granted = refused;
        status = brm_lexer_create(&lexer, rules, 3, 100, &fault, text, 0);
        granted = -1;
        EXPECT((status == BRM_DONE) == lexer.handle.is_open && fault.rule == 9);
    }
    EXPECT(status == BRM_DONE && refused > 50);
    granted = 0;
    EXPECT(brm_lexer_tokens(&lexer, "a 1.5", 5, tokens, 4, &(size_t){0}) == BRM_DONE && is_token(tokens[1], 1, 2, 5, 1, 3));
    granted = -1;
    brm_lexer_destroy(&lexer);
}

int main(void) {
    maps();
    many();
    refused_memory();
    signed_maps();
    sets();
    free_ranges();
    keys_of_32_bits();
    two_sets();
    handles_given_twice();
    clones();
    keys_of_two_sets();
    batches();
    in_ranges();
    in_signed_ranges();
    many_at_once();
    many_in_order();
    many_signed();
    signed_sets();
    free_signed_ranges();
    ends_of_signed_keys();
    signed_batches();
    keys_of_two_signed_sets();
    sets_of_two_kinds();
    maps_of_two();
    status_texts();
    texts();
    wide_maps();
    prefixes_of_wide_maps();
    wide_sets();
    changed_by_functions();
    lexers();
    bad_rules();
    refused_lexers();
    printf("C: %s\n", failures ? "FAILED" : "passed");
    return failures != 0;
}
