/* Maps and sets whose keys are gathered into ranges, and lexers, proved in Rattle, for C99 and C++11. README.md, which lies beside it
 * in the archive's share folder, says what a caller owes.
 *
 * Each call answers by a status; one that fails has changed nothing, and has written nothing behind its pointers,
 * but for what an insert_many or an update has done and told before memory ran out. No pointer is NULL, but for that of brm_destroy, and
 * neither is an array, a buffer or a text that is empty. */
#ifndef BTREE_RANGE_MAP_H
#define BTREE_RANGE_MAP_H

#include <stdbool.h>
#include <stddef.h>
#include <stdint.h>
#include <string.h>

#define BRM_VERSION_MAJOR 0
#define BRM_VERSION_MINOR 6
#define BRM_VERSION_PATCH 0
#define BRM_VERSION "0.6.0"

#ifdef __cplusplus
extern "C" {
#endif

/* A map or a set, while it is open. Starts as BRM_HANDLE_CLOSED; only these calls write it, and it is never copied. */
typedef struct {
    bool is_open;
    void *at;
} brm_handle;

/* A value of its type: to initialise a handle, or to be assigned to one that is closed. All zero bytes are one too. */
#ifdef __cplusplus
#define BRM_HANDLE_CLOSED (brm_handle{false, nullptr})
#else
#define BRM_HANDLE_CLOSED ((brm_handle){false, NULL})
#endif

/* What a call answers. */
typedef enum {
    BRM_DONE = 0,       /* done; to a question, yes */
    BRM_NO_MEMORY = 1,  /* there was not enough memory */
    BRM_CLOSED = 2,     /* the handle is closed */
    BRM_NONE = 3,       /* there is none; to a question, no */
    BRM_CONNECTED = 4,  /* the range meets or touches a stored one */
    BRM_OTHER_KIND = 5, /* the handle is open on another kind of collection */
    BRM_OPEN = 6,       /* the handle is open already */
    BRM_NO_ROOM = 7,    /* the buffer is too short, or the number too large */
    BRM_NOT_JSON = 8,   /* the text is no JSON */
    BRM_NOT_READ = 9,   /* the JSON is no collection of the kind that the handle holds */
    BRM_OCCUPIED = 10,  /* the range meets a stored one */
    BRM_OUT_OF_ORDER = 11, /* some range does not lie after all others */
    BRM_BAD_RULE = 12,  /* a rule of a lexer is not taken: a fault tells which, and why */
    BRM_TOO_LARGE = 13, /* the lexer would have more states than its budget */
    BRM_NOT_TEXT = 14,  /* the bytes are no UTF-8 */
    BRM_LONG_PREFIX = 15 /* a prefix has more bits than a key */
} brm_status;

/* What a status says, for a message. */
static inline const char *brm_status_text(brm_status status) {
    switch (status) {
    case BRM_DONE: return "done";
    case BRM_NO_MEMORY: return "out of memory";
    case BRM_CLOSED: return "the handle is closed";
    case BRM_NONE: return "there is none";
    case BRM_CONNECTED: return "the range meets or touches a stored one";
    case BRM_OTHER_KIND: return "the handle is open on another kind of collection";
    case BRM_OPEN: return "the handle is open already";
    case BRM_NO_ROOM: return "there is not enough room for the result";
    case BRM_NOT_JSON: return "the text is not JSON";
    case BRM_NOT_READ: return "the JSON is no collection of this kind";
    case BRM_OCCUPIED: return "the range meets a stored one";
    case BRM_OUT_OF_ORDER: return "some range does not lie after all others";
    case BRM_BAD_RULE: return "a rule is not taken";
    case BRM_TOO_LARGE: return "the lexer would have too many states";
    case BRM_NOT_TEXT: return "the bytes are not UTF-8";
    case BRM_LONG_PREFIX: return "a prefix has more bits than a key";
    }
    return "no status";
}

/* Flags of a range. With none it holds its start and its end; an unbounded one's key is not looked at. */
enum {
    BRM_START_EXCLUDED = 1,
    BRM_START_UNBOUNDED = 2,
    BRM_END_EXCLUDED = 4,
    BRM_END_UNBOUNDED = 8
};

typedef struct {
    uint64_t start, end;
    uint32_t flags;
} brm_range_u64;

typedef struct {
    int64_t start, end;
    uint32_t flags;
} brm_range_i64;

/* A key of 128 bits: high times 2^64, and low. It lies in memory as an unsigned __int128 of the compiler does. */
typedef struct {
    uint64_t low, high;
} brm_u128;

typedef struct {
    brm_u128 start, end;
    uint32_t flags;
} brm_range_u128;

/* A stored range with its value. */
typedef struct {
    brm_range_u64 range;
    uint64_t value;
} brm_entry_u64;

typedef struct {
    brm_range_i64 range;
    uint64_t value;
} brm_entry_i64;

typedef struct {
    brm_range_u128 range;
    uint64_t value;
} brm_entry_u128;

/* The keys that begin with so many bits of the network, and their value. A key has 128 bits: an IPv4 address is best taken as
 * the key of its number, and has 96 bits more in its prefixes than it is written with. */
typedef struct {
    brm_u128 network;
    uint64_t value;
    uint32_t length;
} brm_prefix_u128;

/* What a key is bound to: a value, or none, and then the value is 0. */
typedef struct {
    uint64_t value;
    bool is_bound;
} brm_binding;

/* A part of a range, with what each of its keys is bound to. */
typedef struct {
    brm_range_u64 range;
    brm_binding binding;
} brm_piece_u64;

typedef struct {
    brm_range_i64 range;
    brm_binding binding;
} brm_piece_i64;

typedef struct {
    brm_range_u128 range;
    brm_binding binding;
} brm_piece_u128;

/* A number of keys: high times 2^64, and low. */
typedef struct {
    uint64_t high, low;
} brm_key_count;

/* Any handle: takes all ranges away, and keeps their memory for others; counts the stored ranges, none where it is closed. */
brm_status brm_clear(brm_handle *handle);
size_t brm_count(const brm_handle *handle);

/* Any handle: what it holds as JSON text, and the other way round. No zero is written after the text. A buffer that is too
 * short stays as it was, and its size is told as well: ask with a capacity of 0 first. */
brm_status brm_save(const brm_handle *handle, uint8_t *buffer, size_t capacity, size_t *size);
brm_status brm_load(brm_handle *handle, const uint8_t *text, size_t size);

/* Maps of uint64_t keys to uint64_t values. */
brm_status brm_map_u64_create(brm_handle *map);
brm_status brm_map_u64_insert(brm_handle *map, const brm_range_u64 *range, uint64_t value);
brm_status brm_map_u64_insert_disconnected(brm_handle *map, const brm_range_u64 *range, uint64_t value);
brm_status brm_map_u64_try_insert(brm_handle *map, const brm_range_u64 *range, uint64_t value);
brm_status brm_map_u64_remove(brm_handle *map, const brm_range_u64 *range);
brm_status brm_map_u64_get(const brm_handle *map, uint64_t key, brm_entry_u64 *entry);
brm_status brm_map_u64_contains(const brm_handle *map, uint64_t key);
brm_status brm_map_u64_intersects(const brm_handle *map, const brm_range_u64 *range);
brm_status brm_map_u64_len(const brm_handle *map, brm_key_count *count);
brm_status brm_map_u64_first(const brm_handle *map, brm_entry_u64 *entry);
brm_status brm_map_u64_last(const brm_handle *map, brm_entry_u64 *entry);
brm_status brm_map_u64_next(const brm_handle *map, uint64_t key, brm_entry_u64 *entry);
brm_status brm_map_u64_previous(const brm_handle *map, uint64_t key, brm_entry_u64 *entry);
brm_status brm_map_u64_pop_first(brm_handle *map, brm_entry_u64 *entry);
brm_status brm_map_u64_pop_last(brm_handle *map, brm_entry_u64 *entry);
/* Write the stored ranges from the key on in ascending order, or those up to it in descending order, as many as the array
 * takes. Fewer than that are written where there are no more. */
brm_status brm_map_u64_read(const brm_handle *map, uint64_t from, brm_entry_u64 *entries, size_t capacity, size_t *count);
brm_status brm_map_u64_read_back(const brm_handle *map, uint64_t upto, brm_entry_u64 *entries, size_t capacity, size_t *count);
/* Write the stored ranges that meet the range, whole, or the parts of it that hold no bound key, in the same way. */
brm_status brm_map_u64_overlapping(const brm_handle *map, const brm_range_u64 *range, brm_entry_u64 *entries, size_t capacity, size_t *count);
brm_status brm_map_u64_gaps(const brm_handle *map, const brm_range_u64 *range, brm_range_u64 *ranges, size_t capacity, size_t *count);
/* Writes the parts of the range in the same way, each as wide as it goes, with what it is bound to: a value, or none. */
brm_status brm_map_u64_pieces(const brm_handle *map, const brm_range_u64 *range, brm_piece_u64 *pieces, size_t capacity, size_t *count);
/* Binds the keys of each of so many ranges to the value beside it, one after the other, and tells of how many, also with
 * BRM_NO_MEMORY: those before the one for which memory ran out stay bound. */
brm_status brm_map_u64_insert_many(brm_handle *map, const brm_entry_u64 *entries, size_t size, size_t *count);

/* Maps of int64_t keys to uint64_t values. */
brm_status brm_map_i64_create(brm_handle *map);
brm_status brm_map_i64_insert(brm_handle *map, const brm_range_i64 *range, uint64_t value);
brm_status brm_map_i64_insert_disconnected(brm_handle *map, const brm_range_i64 *range, uint64_t value);
brm_status brm_map_i64_try_insert(brm_handle *map, const brm_range_i64 *range, uint64_t value);
brm_status brm_map_i64_remove(brm_handle *map, const brm_range_i64 *range);
brm_status brm_map_i64_get(const brm_handle *map, int64_t key, brm_entry_i64 *entry);
brm_status brm_map_i64_contains(const brm_handle *map, int64_t key);
brm_status brm_map_i64_intersects(const brm_handle *map, const brm_range_i64 *range);
brm_status brm_map_i64_len(const brm_handle *map, brm_key_count *count);
brm_status brm_map_i64_first(const brm_handle *map, brm_entry_i64 *entry);
brm_status brm_map_i64_last(const brm_handle *map, brm_entry_i64 *entry);
brm_status brm_map_i64_next(const brm_handle *map, int64_t key, brm_entry_i64 *entry);
brm_status brm_map_i64_previous(const brm_handle *map, int64_t key, brm_entry_i64 *entry);
brm_status brm_map_i64_pop_first(brm_handle *map, brm_entry_i64 *entry);
brm_status brm_map_i64_pop_last(brm_handle *map, brm_entry_i64 *entry);
/* Write the stored ranges from the key on in ascending order, or those up to it in descending order, as many as the array
 * takes. Fewer than that are written where there are no more. */
brm_status brm_map_i64_read(const brm_handle *map, int64_t from, brm_entry_i64 *entries, size_t capacity, size_t *count);
brm_status brm_map_i64_read_back(const brm_handle *map, int64_t upto, brm_entry_i64 *entries, size_t capacity, size_t *count);
/* Write the stored ranges that meet the range, whole, or the parts of it that hold no bound key, in the same way. */
brm_status brm_map_i64_overlapping(const brm_handle *map, const brm_range_i64 *range, brm_entry_i64 *entries, size_t capacity, size_t *count);
brm_status brm_map_i64_gaps(const brm_handle *map, const brm_range_i64 *range, brm_range_i64 *ranges, size_t capacity, size_t *count);
/* Writes the parts of the range in the same way, each as wide as it goes, with what it is bound to: a value, or none. */
brm_status brm_map_i64_pieces(const brm_handle *map, const brm_range_i64 *range, brm_piece_i64 *pieces, size_t capacity, size_t *count);
/* Binds the keys of each of so many ranges to the value beside it, one after the other, and tells of how many, also with
 * BRM_NO_MEMORY: those before the one for which memory ran out stay bound. */
brm_status brm_map_i64_insert_many(brm_handle *map, const brm_entry_i64 *entries, size_t size, size_t *count);

/* Sets of uint64_t keys. */
brm_status brm_set_u64_create(brm_handle *set);
brm_status brm_set_u64_insert(brm_handle *set, const brm_range_u64 *range);
brm_status brm_set_u64_try_insert(brm_handle *set, const brm_range_u64 *range);
brm_status brm_set_u64_remove(brm_handle *set, const brm_range_u64 *range);
brm_status brm_set_u64_get(const brm_handle *set, uint64_t key, brm_range_u64 *range);
brm_status brm_set_u64_contains(const brm_handle *set, uint64_t key);
brm_status brm_set_u64_intersects(const brm_handle *set, const brm_range_u64 *range);
brm_status brm_set_u64_len(const brm_handle *set, brm_key_count *count);
brm_status brm_set_u64_first(const brm_handle *set, brm_range_u64 *range);
brm_status brm_set_u64_last(const brm_handle *set, brm_range_u64 *range);
brm_status brm_set_u64_next(const brm_handle *set, uint64_t key, brm_range_u64 *range);
brm_status brm_set_u64_previous(const brm_handle *set, uint64_t key, brm_range_u64 *range);
brm_status brm_set_u64_pop_first(brm_handle *set, brm_range_u64 *range);
brm_status brm_set_u64_pop_last(brm_handle *set, brm_range_u64 *range);
/* Write the stored ranges from the key on in ascending order, or those up to it in descending order, as many as the array
 * takes. Fewer than that are written where there are no more. */
brm_status brm_set_u64_read(const brm_handle *set, uint64_t from, brm_range_u64 *entries, size_t capacity, size_t *count);
brm_status brm_set_u64_read_back(const brm_handle *set, uint64_t upto, brm_range_u64 *entries, size_t capacity, size_t *count);
/* Write the stored ranges that meet the range, whole, or the parts of it that hold no key of the set, in the same way. */
brm_status brm_set_u64_overlapping(const brm_handle *set, const brm_range_u64 *range, brm_range_u64 *entries, size_t capacity, size_t *count);
brm_status brm_set_u64_gaps(const brm_handle *set, const brm_range_u64 *range, brm_range_u64 *ranges, size_t capacity, size_t *count);
/* Adds the keys of each of so many ranges, one after the other, and tells of how many, also with BRM_NO_MEMORY. */
brm_status brm_set_u64_insert_many(brm_handle *set, const brm_range_u64 *ranges, size_t size, size_t *count);

/* Sets of int64_t keys. */
brm_status brm_set_i64_create(brm_handle *set);
brm_status brm_set_i64_insert(brm_handle *set, const brm_range_i64 *range);
brm_status brm_set_i64_try_insert(brm_handle *set, const brm_range_i64 *range);
brm_status brm_set_i64_remove(brm_handle *set, const brm_range_i64 *range);
brm_status brm_set_i64_get(const brm_handle *set, int64_t key, brm_range_i64 *range);
brm_status brm_set_i64_contains(const brm_handle *set, int64_t key);
brm_status brm_set_i64_intersects(const brm_handle *set, const brm_range_i64 *range);
brm_status brm_set_i64_len(const brm_handle *set, brm_key_count *count);
brm_status brm_set_i64_first(const brm_handle *set, brm_range_i64 *range);
brm_status brm_set_i64_last(const brm_handle *set, brm_range_i64 *range);
brm_status brm_set_i64_next(const brm_handle *set, int64_t key, brm_range_i64 *range);
brm_status brm_set_i64_previous(const brm_handle *set, int64_t key, brm_range_i64 *range);
brm_status brm_set_i64_pop_first(brm_handle *set, brm_range_i64 *range);
brm_status brm_set_i64_pop_last(brm_handle *set, brm_range_i64 *range);
/* Write the stored ranges from the key on in ascending order, or those up to it in descending order, as many as the array
 * takes. Fewer than that are written where there are no more. */
brm_status brm_set_i64_read(const brm_handle *set, int64_t from, brm_range_i64 *entries, size_t capacity, size_t *count);
brm_status brm_set_i64_read_back(const brm_handle *set, int64_t upto, brm_range_i64 *entries, size_t capacity, size_t *count);
/* Write the stored ranges that meet the range, whole, or the parts of it that hold no key of the set, in the same way. */
brm_status brm_set_i64_overlapping(const brm_handle *set, const brm_range_i64 *range, brm_range_i64 *entries, size_t capacity, size_t *count);
brm_status brm_set_i64_gaps(const brm_handle *set, const brm_range_i64 *range, brm_range_i64 *ranges, size_t capacity, size_t *count);
/* Adds the keys of each of so many ranges, one after the other, and tells of how many, also with BRM_NO_MEMORY. */
brm_status brm_set_i64_insert_many(brm_handle *set, const brm_range_i64 *ranges, size_t size, size_t *count);

/* Maps of keys of 128 bits to uint64_t values. */
brm_status brm_map_u128_create(brm_handle *map);
brm_status brm_map_u128_insert(brm_handle *map, const brm_range_u128 *range, uint64_t value);
brm_status brm_map_u128_insert_disconnected(brm_handle *map, const brm_range_u128 *range, uint64_t value);
brm_status brm_map_u128_try_insert(brm_handle *map, const brm_range_u128 *range, uint64_t value);
brm_status brm_map_u128_remove(brm_handle *map, const brm_range_u128 *range);
brm_status brm_map_u128_get(const brm_handle *map, const brm_u128 *key, brm_entry_u128 *entry);
brm_status brm_map_u128_contains(const brm_handle *map, const brm_u128 *key);
brm_status brm_map_u128_intersects(const brm_handle *map, const brm_range_u128 *range);
brm_status brm_map_u128_first(const brm_handle *map, brm_entry_u128 *entry);
brm_status brm_map_u128_last(const brm_handle *map, brm_entry_u128 *entry);
brm_status brm_map_u128_next(const brm_handle *map, const brm_u128 *key, brm_entry_u128 *entry);
brm_status brm_map_u128_previous(const brm_handle *map, const brm_u128 *key, brm_entry_u128 *entry);
brm_status brm_map_u128_pop_first(brm_handle *map, brm_entry_u128 *entry);
brm_status brm_map_u128_pop_last(brm_handle *map, brm_entry_u128 *entry);
/* Write the stored ranges from the key on in ascending order, or those up to it in descending order, as many as the array
 * takes. Fewer than that are written where there are no more. */
brm_status brm_map_u128_read(const brm_handle *map, const brm_u128 *from, brm_entry_u128 *entries, size_t capacity, size_t *count);
brm_status brm_map_u128_read_back(const brm_handle *map, const brm_u128 *upto, brm_entry_u128 *entries, size_t capacity, size_t *count);
/* Write the stored ranges that meet the range, whole, or the parts of it that hold no bound key, in the same way. */
brm_status brm_map_u128_overlapping(const brm_handle *map, const brm_range_u128 *range, brm_entry_u128 *entries, size_t capacity, size_t *count);
brm_status brm_map_u128_gaps(const brm_handle *map, const brm_range_u128 *range, brm_range_u128 *ranges, size_t capacity, size_t *count);
/* Writes the parts of the range in the same way, each as wide as it goes, with what it is bound to: a value, or none. */
brm_status brm_map_u128_pieces(const brm_handle *map, const brm_range_u128 *range, brm_piece_u128 *pieces, size_t capacity, size_t *count);
/* Binds the keys of each of so many ranges to the value beside it, one after the other, and tells of how many, also with
 * BRM_NO_MEMORY: those before the one for which memory ran out stay bound. */
brm_status brm_map_u128_insert_many(brm_handle *map, const brm_entry_u128 *entries, size_t size, size_t *count);
/* Writes the shortest table of prefixes of the map: the longest prefix that holds a key has its value, and none holds a key that is
 * not bound. An array that is too short stays as it was, and the number of prefixes is told as well. */
brm_status brm_map_u128_shortest(const brm_handle *map, brm_prefix_u128 *prefixes, size_t capacity, size_t *count);
/* Opens a closed handle on the map of prefixes in any order: each key is bound to the value of the longest prefix that holds it, of
 * equal prefixes the last. Bits of a network past its length are not looked at. */
brm_status brm_map_u128_from_prefixes(brm_handle *made, const brm_prefix_u128 *prefixes, size_t size);

/* Sets of keys of 128 bits. */
brm_status brm_set_u128_create(brm_handle *set);
brm_status brm_set_u128_insert(brm_handle *set, const brm_range_u128 *range);
brm_status brm_set_u128_try_insert(brm_handle *set, const brm_range_u128 *range);
brm_status brm_set_u128_remove(brm_handle *set, const brm_range_u128 *range);
brm_status brm_set_u128_get(const brm_handle *set, const brm_u128 *key, brm_range_u128 *range);
brm_status brm_set_u128_contains(const brm_handle *set, const brm_u128 *key);
brm_status brm_set_u128_intersects(const brm_handle *set, const brm_range_u128 *range);
brm_status brm_set_u128_first(const brm_handle *set, brm_range_u128 *range);
brm_status brm_set_u128_last(const brm_handle *set, brm_range_u128 *range);
brm_status brm_set_u128_next(const brm_handle *set, const brm_u128 *key, brm_range_u128 *range);
brm_status brm_set_u128_previous(const brm_handle *set, const brm_u128 *key, brm_range_u128 *range);
brm_status brm_set_u128_pop_first(brm_handle *set, brm_range_u128 *range);
brm_status brm_set_u128_pop_last(brm_handle *set, brm_range_u128 *range);
/* Write the stored ranges from the key on in ascending order, or those up to it in descending order, as many as the array
 * takes. Fewer than that are written where there are no more. */
brm_status brm_set_u128_read(const brm_handle *set, const brm_u128 *from, brm_range_u128 *entries, size_t capacity, size_t *count);
brm_status brm_set_u128_read_back(const brm_handle *set, const brm_u128 *upto, brm_range_u128 *entries, size_t capacity, size_t *count);
/* Write the stored ranges that meet the range, whole, or the parts of it that hold no key of the set, in the same way. */
brm_status brm_set_u128_overlapping(const brm_handle *set, const brm_range_u128 *range, brm_range_u128 *entries, size_t capacity, size_t *count);
brm_status brm_set_u128_gaps(const brm_handle *set, const brm_range_u128 *range, brm_range_u128 *ranges, size_t capacity, size_t *count);
/* Adds the keys of each of so many ranges, one after the other, and tells of how many, also with BRM_NO_MEMORY. */
brm_status brm_set_u128_insert_many(brm_handle *set, const brm_range_u128 *ranges, size_t size, size_t *count);

/* The calls that the functions below are made of, which stand in the library: their proof is of handles that are apart. Call the
 * functions below instead; these are for bindings of other languages, and owe that no handle is given twice in one call. */
void brm_raw_destroy(brm_handle *handle);
brm_status brm_raw_clone(const brm_handle *handle, brm_handle *made);
brm_status brm_raw_equal(const brm_handle *handle, const brm_handle *other);
brm_status brm_raw_map_u64_get_many(const brm_handle *map, const uint64_t *keys, size_t size, brm_binding *bindings, size_t capacity);
brm_status brm_raw_map_i64_get_many(const brm_handle *map, const int64_t *keys, size_t size, brm_binding *bindings, size_t capacity);
brm_status brm_raw_map_u64_split_off(brm_handle *map, uint64_t key, brm_handle *other);
brm_status brm_raw_map_i64_split_off(brm_handle *map, int64_t key, brm_handle *other);
brm_status brm_raw_map_u128_split_off(brm_handle *map, const brm_u128 *key, brm_handle *other);
brm_status brm_raw_map_u64_append(brm_handle *map, brm_handle *other);
brm_status brm_raw_map_i64_append(brm_handle *map, brm_handle *other);
brm_status brm_raw_map_u128_append(brm_handle *map, brm_handle *other);
brm_status brm_raw_overlay(const brm_handle *map, const brm_handle *other, brm_handle *made);
brm_status brm_raw_restrict(const brm_handle *map, const brm_handle *keys, brm_handle *made);
brm_status brm_raw_without(const brm_handle *map, const brm_handle *keys, brm_handle *made);
brm_status brm_raw_set_union(const brm_handle *set, const brm_handle *other, brm_handle *made);
brm_status brm_raw_set_intersection(const brm_handle *set, const brm_handle *other, brm_handle *made);
brm_status brm_raw_set_difference(const brm_handle *set, const brm_handle *other, brm_handle *made);
brm_status brm_raw_set_symmetric_difference(const brm_handle *set, const brm_handle *other, brm_handle *made);
brm_status brm_raw_set_complement(const brm_handle *set, brm_handle *made);
brm_status brm_raw_set_is_subset(const brm_handle *set, const brm_handle *other);
brm_status brm_raw_set_is_disjoint(const brm_handle *set, const brm_handle *other);

/* Frees what any handle holds and closes it. Does nothing to a closed one, or to NULL. */
static inline void brm_destroy(brm_handle *handle) {
    if (handle != NULL) brm_raw_destroy(handle);
}

/* Any handle: opens the closed handle `made` on a collection of the same kind, with the same ranges and values. */
static inline brm_status brm_clone(const brm_handle *handle, brm_handle *made) {
    if (made->is_open) return BRM_OPEN;
    return handle == made ? BRM_CLOSED : brm_raw_clone(handle, made);
}

/* Any two handles: whether both bind each key alike; BRM_OTHER_KIND of two kinds. */
static inline brm_status brm_equal(const brm_handle *handle, const brm_handle *other) {
    if (handle == other) return handle->is_open ? BRM_DONE : BRM_CLOSED;
    return brm_raw_equal(handle, other);
}

/* Write what each of so many keys is bound to, in the same place of the array of bindings. */
static inline brm_status brm_map_u64_get_many(const brm_handle *map, const uint64_t *keys, brm_binding *bindings, size_t size) {
    return brm_raw_map_u64_get_many(map, keys, size, bindings, size);
}

static inline brm_status brm_map_i64_get_many(const brm_handle *map, const int64_t *keys, brm_binding *bindings, size_t size) {
    return brm_raw_map_i64_get_many(map, keys, size, bindings, size);
}

static inline brm_status brm_map_u128_get_many(const brm_handle *map, const brm_u128 *keys, brm_binding *bindings, size_t size) {
    brm_u128 zero = {0, 0};
    brm_status status = brm_map_u128_contains(map, &zero);
    if (status != BRM_DONE && status != BRM_NONE) return status;
    for (size_t i = 0; i < size; i++) {
        brm_entry_u128 found = {{{0, 0}, {0, 0}, 0}, 0};
        bindings[i].is_bound = brm_map_u128_get(map, &keys[i], &found) == BRM_DONE;
        bindings[i].value = found.value;
    }
    return BRM_DONE;
}

/* Open the closed handle `made` on what the map binds from the key on, the key with it, and take that from the map. */
static inline brm_status brm_map_u64_split_off(brm_handle *map, uint64_t key, brm_handle *made) {
    if (made->is_open) return BRM_OPEN;
    if (made == map) return BRM_CLOSED;
    brm_status status = brm_map_u64_create(made);
    if (status != BRM_DONE) return status;
    status = brm_raw_map_u64_split_off(map, key, made);
    if (status != BRM_DONE) brm_raw_destroy(made);
    return status;
}

static inline brm_status brm_map_i64_split_off(brm_handle *map, int64_t key, brm_handle *made) {
    if (made->is_open) return BRM_OPEN;
    if (made == map) return BRM_CLOSED;
    brm_status status = brm_map_i64_create(made);
    if (status != BRM_DONE) return status;
    status = brm_raw_map_i64_split_off(map, key, made);
    if (status != BRM_DONE) brm_raw_destroy(made);
    return status;
}

static inline brm_status brm_map_u128_split_off(brm_handle *map, const brm_u128 *key, brm_handle *made) {
    if (made->is_open) return BRM_OPEN;
    if (made == map) return BRM_CLOSED;
    brm_status status = brm_map_u128_create(made);
    if (status != BRM_DONE) return status;
    status = brm_raw_map_u128_split_off(map, key, made);
    if (status != BRM_DONE) brm_raw_destroy(made);
    return status;
}

/* Move all ranges of the other map, each of which lies after all of the first, to its end, and leave the other empty. */
static inline brm_status brm_map_u64_append(brm_handle *map, brm_handle *other) {
    if (map != other) return brm_raw_map_u64_append(map, other);
    brm_status found = brm_map_u64_contains(map, 0);
    if (found != BRM_DONE && found != BRM_NONE) return found;
    return brm_count(map) > 0 ? BRM_OUT_OF_ORDER : BRM_DONE;
}

static inline brm_status brm_map_i64_append(brm_handle *map, brm_handle *other) {
    if (map != other) return brm_raw_map_i64_append(map, other);
    brm_status found = brm_map_i64_contains(map, 0);
    if (found != BRM_DONE && found != BRM_NONE) return found;
    return brm_count(map) > 0 ? BRM_OUT_OF_ORDER : BRM_DONE;
}

static inline brm_status brm_map_u128_append(brm_handle *map, brm_handle *other) {
    if (map != other) return brm_raw_map_u128_append(map, other);
    brm_u128 zero = {0, 0};
    brm_status found = brm_map_u128_contains(map, &zero);
    if (found != BRM_DONE && found != BRM_NONE) return found;
    return brm_count(map) > 0 ? BRM_OUT_OF_ORDER : BRM_DONE;
}

/* What is wrong with a map of any kind that is given twice, or BRM_DONE. */
static inline brm_status brm_map_twice(const brm_handle *map) {
    brm_u128 zero = {0, 0};
    brm_status found = brm_map_u64_contains(map, 0);
    if (found == BRM_OTHER_KIND) found = brm_map_i64_contains(map, 0);
    if (found == BRM_OTHER_KIND) found = brm_map_u128_contains(map, &zero);
    return found == BRM_NONE ? BRM_DONE : found;
}

/* Two maps of one kind: opens the closed handle `made` on a map that binds each key as the other does, or else as the
 * first does. */
static inline brm_status brm_overlay(const brm_handle *map, const brm_handle *other, brm_handle *made) {
    if (made->is_open) return BRM_OPEN;
    if (made == map || made == other) return BRM_CLOSED;
    if (map != other) return brm_raw_overlay(map, other, made);
    brm_status found = brm_map_twice(map);
    return found == BRM_DONE ? brm_raw_clone(map, made) : found;
}

/* Open the closed handle `made` on a map of those bindings of the map whose keys the other has, or has not. The other is a
 * map of the same kind, or a set of the same keys. */
static inline brm_status brm_restrict(const brm_handle *map, const brm_handle *keys, brm_handle *made) {
    if (map == keys) return brm_overlay(map, keys, made);
    if (made->is_open) return BRM_OPEN;
    return made == map || made == keys ? BRM_CLOSED : brm_raw_restrict(map, keys, made);
}

static inline brm_status brm_without(const brm_handle *map, const brm_handle *keys, brm_handle *made) {
    if (made->is_open) return BRM_OPEN;
    if (made == map || made == keys) return BRM_CLOSED;
    if (map != keys) return brm_raw_without(map, keys, made);
    brm_status found = brm_map_twice(map);
    if (found == BRM_DONE) found = brm_raw_clone(map, made);
    return found == BRM_DONE ? brm_clear(made) : found;
}

/* What is wrong with two sets that a call of one kind is given, or BRM_DONE. `found` is what `contains` of that kind answers
 * of the first. */
static inline brm_status brm_sets_asked(brm_status found, const brm_handle *set, const brm_handle *other) {
    if (!set->is_open || !other->is_open) return BRM_CLOSED;
    return found == BRM_NONE ? BRM_DONE : found;
}

/* The same where the call opens the handle `made`. */
static inline brm_status brm_sets_put_together(brm_status found, const brm_handle *set, const brm_handle *other, const brm_handle *made) {
    return made->is_open ? BRM_OPEN : brm_sets_asked(found, set, other);
}

/* What `contains` of a set of keys of 128 bits answers. */
static inline brm_status brm_set_u128_kind(const brm_handle *set) {
    brm_u128 zero = {0, 0};
    return brm_set_u128_contains(set, &zero);
}

/* Open the closed handle `made` on the keys of either set, of both, of the first alone, or of just one of them. The sets
 * have keys of one kind, and may be one. */
static inline brm_status brm_set_u64_union(const brm_handle *set, const brm_handle *other, brm_handle *made) {
    brm_status status = brm_sets_put_together(brm_set_u64_contains(set, 0), set, other, made);
    if (status != BRM_DONE) return status;
    return set == other ? brm_raw_clone(set, made) : brm_raw_set_union(set, other, made);
}

static inline brm_status brm_set_u64_intersection(const brm_handle *set, const brm_handle *other, brm_handle *made) {
    brm_status status = brm_sets_put_together(brm_set_u64_contains(set, 0), set, other, made);
    if (status != BRM_DONE) return status;
    return set == other ? brm_raw_clone(set, made) : brm_raw_set_intersection(set, other, made);
}

static inline brm_status brm_set_u64_difference(const brm_handle *set, const brm_handle *other, brm_handle *made) {
    brm_status status = brm_sets_put_together(brm_set_u64_contains(set, 0), set, other, made);
    if (status != BRM_DONE) return status;
    return set == other ? brm_set_u64_create(made) : brm_raw_set_difference(set, other, made);
}

static inline brm_status brm_set_u64_symmetric_difference(const brm_handle *set, const brm_handle *other, brm_handle *made) {
    brm_status status = brm_sets_put_together(brm_set_u64_contains(set, 0), set, other, made);
    if (status != BRM_DONE) return status;
    return set == other ? brm_set_u64_create(made) : brm_raw_set_symmetric_difference(set, other, made);
}

static inline brm_status brm_set_i64_union(const brm_handle *set, const brm_handle *other, brm_handle *made) {
    brm_status status = brm_sets_put_together(brm_set_i64_contains(set, 0), set, other, made);
    if (status != BRM_DONE) return status;
    return set == other ? brm_raw_clone(set, made) : brm_raw_set_union(set, other, made);
}

static inline brm_status brm_set_i64_intersection(const brm_handle *set, const brm_handle *other, brm_handle *made) {
    brm_status status = brm_sets_put_together(brm_set_i64_contains(set, 0), set, other, made);
    if (status != BRM_DONE) return status;
    return set == other ? brm_raw_clone(set, made) : brm_raw_set_intersection(set, other, made);
}

static inline brm_status brm_set_i64_difference(const brm_handle *set, const brm_handle *other, brm_handle *made) {
    brm_status status = brm_sets_put_together(brm_set_i64_contains(set, 0), set, other, made);
    if (status != BRM_DONE) return status;
    return set == other ? brm_set_i64_create(made) : brm_raw_set_difference(set, other, made);
}

static inline brm_status brm_set_i64_symmetric_difference(const brm_handle *set, const brm_handle *other, brm_handle *made) {
    brm_status status = brm_sets_put_together(brm_set_i64_contains(set, 0), set, other, made);
    if (status != BRM_DONE) return status;
    return set == other ? brm_set_i64_create(made) : brm_raw_set_symmetric_difference(set, other, made);
}

static inline brm_status brm_set_u128_union(const brm_handle *set, const brm_handle *other, brm_handle *made) {
    brm_status status = brm_sets_put_together(brm_set_u128_kind(set), set, other, made);
    if (status != BRM_DONE) return status;
    return set == other ? brm_raw_clone(set, made) : brm_raw_set_union(set, other, made);
}

static inline brm_status brm_set_u128_intersection(const brm_handle *set, const brm_handle *other, brm_handle *made) {
    brm_status status = brm_sets_put_together(brm_set_u128_kind(set), set, other, made);
    if (status != BRM_DONE) return status;
    return set == other ? brm_raw_clone(set, made) : brm_raw_set_intersection(set, other, made);
}

static inline brm_status brm_set_u128_difference(const brm_handle *set, const brm_handle *other, brm_handle *made) {
    brm_status status = brm_sets_put_together(brm_set_u128_kind(set), set, other, made);
    if (status != BRM_DONE) return status;
    return set == other ? brm_set_u128_create(made) : brm_raw_set_difference(set, other, made);
}

static inline brm_status brm_set_u128_symmetric_difference(const brm_handle *set, const brm_handle *other, brm_handle *made) {
    brm_status status = brm_sets_put_together(brm_set_u128_kind(set), set, other, made);
    if (status != BRM_DONE) return status;
    return set == other ? brm_set_u128_create(made) : brm_raw_set_symmetric_difference(set, other, made);
}

/* Open the closed handle `made` on the keys that the set does not hold. */
static inline brm_status brm_set_u64_complement(const brm_handle *set, brm_handle *made) {
    brm_status status = brm_sets_put_together(brm_set_u64_contains(set, 0), set, set, made);
    return status == BRM_DONE ? brm_raw_set_complement(set, made) : status;
}

static inline brm_status brm_set_i64_complement(const brm_handle *set, brm_handle *made) {
    brm_status status = brm_sets_put_together(brm_set_i64_contains(set, 0), set, set, made);
    return status == BRM_DONE ? brm_raw_set_complement(set, made) : status;
}

static inline brm_status brm_set_u128_complement(const brm_handle *set, brm_handle *made) {
    brm_status status = brm_sets_put_together(brm_set_u128_kind(set), set, set, made);
    return status == BRM_DONE ? brm_raw_set_complement(set, made) : status;
}

/* Keys of 32 bits, as addresses of version 4 of the internet protocol, are kept in maps and sets of uint64_t keys. This is a range
 * of them as those take it: the least or the greatest such key stands in the place of no end. */
static inline brm_range_u64 brm_range_of_u32(uint32_t start, uint32_t end, uint32_t flags) {
    brm_range_u64 range = {start, end, flags & (BRM_START_EXCLUDED | BRM_END_EXCLUDED)};
    if (flags & BRM_START_UNBOUNDED) range.start = 0, range.flags &= ~(uint32_t)BRM_START_EXCLUDED;
    if (flags & BRM_END_UNBOUNDED) range.end = UINT32_MAX, range.flags &= ~(uint32_t)BRM_END_EXCLUDED;
    return range;
}

/* Opens the closed handle `made` on the keys of 32 bits that the set does not hold. */
static inline brm_status brm_set_u32_complement(const brm_handle *set, brm_handle *made) {
    brm_range_u64 all = {0, UINT32_MAX, 0};
    brm_handle whole = BRM_HANDLE_CLOSED;
    brm_status status = brm_sets_put_together(brm_set_u64_contains(set, 0), set, set, made);
    if (status == BRM_DONE) status = brm_set_u64_create(&whole);
    if (status == BRM_DONE) status = brm_set_u64_insert(&whole, &all);
    if (status == BRM_DONE) status = brm_raw_set_difference(&whole, set, made);
    brm_raw_destroy(&whole);
    return status;
}

/* Whether each key of the set is in the other; whether no key is in both. */
static inline brm_status brm_set_u64_is_subset(const brm_handle *set, const brm_handle *other) {
    brm_status status = brm_sets_asked(brm_set_u64_contains(set, 0), set, other);
    return status == BRM_DONE && set != other ? brm_raw_set_is_subset(set, other) : status;
}

static inline brm_status brm_set_u64_is_disjoint(const brm_handle *set, const brm_handle *other) {
    brm_status status = brm_sets_asked(brm_set_u64_contains(set, 0), set, other);
    if (status != BRM_DONE) return status;
    if (set != other) return brm_raw_set_is_disjoint(set, other);
    return brm_count(set) > 0 ? BRM_NONE : BRM_DONE;
}

static inline brm_status brm_set_i64_is_subset(const brm_handle *set, const brm_handle *other) {
    brm_status status = brm_sets_asked(brm_set_i64_contains(set, 0), set, other);
    return status == BRM_DONE && set != other ? brm_raw_set_is_subset(set, other) : status;
}

static inline brm_status brm_set_i64_is_disjoint(const brm_handle *set, const brm_handle *other) {
    brm_status status = brm_sets_asked(brm_set_i64_contains(set, 0), set, other);
    if (status != BRM_DONE) return status;
    if (set != other) return brm_raw_set_is_disjoint(set, other);
    return brm_count(set) > 0 ? BRM_NONE : BRM_DONE;
}

static inline brm_status brm_set_u128_is_subset(const brm_handle *set, const brm_handle *other) {
    brm_status status = brm_sets_asked(brm_set_u128_kind(set), set, other);
    return status == BRM_DONE && set != other ? brm_raw_set_is_subset(set, other) : status;
}

static inline brm_status brm_set_u128_is_disjoint(const brm_handle *set, const brm_handle *other) {
    brm_status status = brm_sets_asked(brm_set_u128_kind(set), set, other);
    if (status != BRM_DONE) return status;
    if (set != other) return brm_raw_set_is_disjoint(set, other);
    return brm_count(set) > 0 ? BRM_NONE : BRM_DONE;
}

/* A function of the caller's: what the keys of a part are bound to afterwards, of what they are bound to, in one map or in two. The
 * last word is the caller's own. It changes no map. */
typedef brm_binding (*brm_change)(brm_binding bound, void *with);
typedef brm_binding (*brm_merge)(brm_binding bound, brm_binding other, void *with);

/* Bind the keys of each part of the range, bound or free, as the function says. It is asked of one part after the other, in ascending
 * order. Of BRM_NO_MEMORY the range becomes that part for which there was none, with all behind it: what lies before has changed. */
static inline brm_status brm_map_u64_update(brm_handle *map, brm_range_u64 *range, brm_change change, void *with);
static inline brm_status brm_map_i64_update(brm_handle *map, brm_range_i64 *range, brm_change change, void *with);
static inline brm_status brm_map_u128_update(brm_handle *map, brm_range_u128 *range, brm_change change, void *with);

/* Open the closed handle `made` on a map that binds the keys of each part as the function says of what two maps of one kind bind
 * them to. It is not asked of keys that neither binds. */
static inline brm_status brm_map_u64_merge_with(const brm_handle *map, const brm_handle *other, brm_handle *made, brm_merge merge, void *with);
static inline brm_status brm_map_i64_merge_with(const brm_handle *map, const brm_handle *other, brm_handle *made, brm_merge merge, void *with);
static inline brm_status brm_map_u128_merge_with(const brm_handle *map, const brm_handle *other, brm_handle *made, brm_merge merge, void *with);

#define BRM_CHANGES_OF(KIND)                                                                                              \
    /* Makes the range what lies past a part of it, and tells whether something does. */                                  \
    static inline bool brm_go_past_##KIND(brm_range_##KIND *range, const brm_range_##KIND *part) {                        \
        uint32_t start_flag = part->flags & BRM_END_EXCLUDED ? 0 : BRM_START_EXCLUDED;                                    \
        range->start = part->end;                                                                                         \
        range->flags = (range->flags & (BRM_END_EXCLUDED | BRM_END_UNBOUNDED)) | start_flag;                              \
        return !(part->flags & BRM_END_UNBOUNDED);                                                                        \
    }                                                                                                                     \
                                                                                                                          \
    static inline brm_status brm_bind_##KIND(brm_handle *map, const brm_range_##KIND *range, brm_binding bound) {         \
        return bound.is_bound ? brm_map_##KIND##_insert(map, range, bound.value) : brm_map_##KIND##_remove(map, range);   \
    }                                                                                                                     \
                                                                                                                          \
    static inline brm_status brm_map_##KIND##_update(brm_handle *map, brm_range_##KIND *range, brm_change change, void *with) { \
        brm_piece_##KIND parts[16];                                                                                       \
        brm_range_##KIND rest = *range;                                                                                   \
        size_t count = 16;                                                                                                \
        for (bool is_more = true; is_more && count == 16;) {                                                              \
            brm_status status = brm_map_##KIND##_pieces(map, &rest, parts, 16, &count);                                   \
            for (size_t i = 0; status == BRM_DONE && i < count; i++) {                                                    \
                status = brm_bind_##KIND(map, &parts[i].range, change(parts[i].binding, with));                           \
                if (status == BRM_DONE) is_more = brm_go_past_##KIND(&rest, &parts[i].range);                             \
            }                                                                                                             \
            if (status == BRM_NO_MEMORY) *range = rest;                                                                   \
            if (status != BRM_DONE) return status;                                                                        \
        }                                                                                                                 \
        return BRM_DONE;                                                                                                  \
    }                                                                                                                     \
                                                                                                                          \
    /* Binds in the map that is made the keys of one part of the first, which are bound so there. */                      \
    static inline brm_status brm_merge_part_##KIND(const brm_piece_##KIND *part, const brm_handle *other, brm_handle *made, brm_merge merge, void *with) { \
        brm_piece_##KIND parts[16];                                                                                       \
        brm_range_##KIND rest = part->range;                                                                              \
        size_t count = 16;                                                                                                \
        for (bool is_more = true; is_more && count == 16;) {                                                              \
            brm_status status = brm_map_##KIND##_pieces(other, &rest, parts, 16, &count);                                 \
            for (size_t i = 0; status == BRM_DONE && i < count; i++) {                                                    \
                brm_binding bound = parts[i].binding;                                                                     \
                if (part->binding.is_bound || bound.is_bound) bound = merge(part->binding, bound, with);                  \
                if (bound.is_bound) status = brm_map_##KIND##_insert(made, &parts[i].range, bound.value);                 \
                is_more = brm_go_past_##KIND(&rest, &parts[i].range);                                                     \
            }                                                                                                             \
            if (status != BRM_DONE) return status;                                                                        \
        }                                                                                                                 \
        return BRM_DONE;                                                                                                  \
    }                                                                                                                     \
                                                                                                                          \
    static inline brm_status brm_map_##KIND##_merge_with(const brm_handle *map, const brm_handle *other, brm_handle *made, brm_merge merge, void *with) { \
        brm_piece_##KIND parts[16];                                                                                       \
        brm_range_##KIND rest;                                                                                            \
        size_t count = 16;                                                                                                \
        if (made->is_open) return BRM_OPEN;                                                                               \
        if (made == map || made == other) return BRM_CLOSED;                                                              \
        memset(&rest, 0, sizeof rest);                                                                                    \
        rest.flags = BRM_START_UNBOUNDED | BRM_END_UNBOUNDED;                                                             \
        brm_status status = brm_map_##KIND##_create(made);                                                                \
        for (bool is_more = true; status == BRM_DONE && is_more && count == 16;) {                                        \
            status = brm_map_##KIND##_pieces(map, &rest, parts, 16, &count);                                              \
            for (size_t i = 0; status == BRM_DONE && i < count; i++) {                                                    \
                status = brm_merge_part_##KIND(&parts[i], other, made, merge, with);                                      \
                is_more = brm_go_past_##KIND(&rest, &parts[i].range);                                                     \
            }                                                                                                             \
        }                                                                                                                 \
        if (status != BRM_DONE) brm_destroy(made);                                                                        \
        return status;                                                                                                    \
    }

BRM_CHANGES_OF(u64)
BRM_CHANGES_OF(i64)
BRM_CHANGES_OF(u128)
#undef BRM_CHANGES_OF

/* A key of two words, of the 16 bytes of an address or a UUID, and these of a key: the first byte is the highest. */
static inline brm_u128 brm_u128_of(uint64_t high, uint64_t low) {
    brm_u128 key = {low, high};
    return key;
}

static inline brm_u128 brm_u128_of_bytes(const uint8_t bytes[16]) {
    brm_u128 key = {0, 0};
    for (int i = 0; i < 8; i++) key.high = key.high << 8 | bytes[i], key.low = key.low << 8 | bytes[8 + i];
    return key;
}

static inline void brm_u128_to_bytes(brm_u128 key, uint8_t bytes[16]) {
    for (int i = 0; i < 8; i++) bytes[i] = (uint8_t)(key.high >> (56 - 8 * i)), bytes[8 + i] = (uint8_t)(key.low >> (56 - 8 * i));
}

/* The keys before and after, and round about at the ends. */
static inline brm_u128 brm_u128_before(brm_u128 key) { return brm_u128_of(key.high - (key.low == 0), key.low - 1); }

static inline brm_u128 brm_u128_after(brm_u128 key) { return brm_u128_of(key.high + (key.low == UINT64_MAX), key.low + 1); }

static inline bool brm_u128_is_below(brm_u128 key, brm_u128 other) {
    return key.high < other.high || (key.high == other.high && key.low < other.low);
}

/* The first and the last key of a range that is not empty. */
static inline brm_u128 brm_first_u128(const brm_range_u128 *range) {
    if (range->flags & BRM_START_UNBOUNDED) return brm_u128_of(0, 0);
    return range->flags & BRM_START_EXCLUDED ? brm_u128_after(range->start) : range->start;
}

static inline brm_u128 brm_last_u128(const brm_range_u128 *range) {
    if (range->flags & BRM_END_UNBOUNDED) return brm_u128_of(UINT64_MAX, UINT64_MAX);
    return range->flags & BRM_END_EXCLUDED ? brm_u128_before(range->end) : range->end;
}

/* Counts the keys of one more range, which is not empty, and tells whether there may be more behind it: then the key after it
 * is written. The count of all keys, 2^128, comes round to 0. */
static inline bool brm_count_u128(const brm_range_u128 *range, brm_key_count *count, brm_u128 *past) {
    brm_u128 first = brm_first_u128(range);
    *past = brm_u128_after(brm_last_u128(range));
    uint64_t low = past->low - first.low;
    count->high += past->high - first.high - (past->low < first.low) + (count->low + low < low);
    count->low += low;
    return past->high != 0 || past->low != 0;
}

/* Write how many keys there are, or answer BRM_NO_ROOM where they are all: 2^128, which two words do not say. */
static inline brm_status brm_map_u128_len(const brm_handle *map, brm_key_count *count) {
    brm_entry_u128 few[16];
    brm_key_count sum = {0, 0};
    brm_u128 from = {0, 0};
    size_t read = 16;
    bool is_more = true;
    while (is_more && read == 16) {
        brm_status status = brm_map_u128_read(map, &from, few, 16, &read);
        if (status != BRM_DONE) return status;
        for (size_t i = 0; i < read; i++) is_more = brm_count_u128(&few[i].range, &sum, &from);
    }
    if (brm_count(map) > 0 && sum.high == 0 && sum.low == 0) return BRM_NO_ROOM;
    *count = sum;
    return BRM_DONE;
}

static inline brm_status brm_set_u128_len(const brm_handle *set, brm_key_count *count) {
    brm_range_u128 few[16];
    brm_key_count sum = {0, 0};
    brm_u128 from = {0, 0};
    size_t read = 16;
    bool is_more = true;
    while (is_more && read == 16) {
        brm_status status = brm_set_u128_read(set, &from, few, 16, &read);
        if (status != BRM_DONE) return status;
        for (size_t i = 0; i < read; i++) is_more = brm_count_u128(&few[i], &sum, &from);
    }
    if (brm_count(set) > 0 && sum.high == 0 && sum.low == 0) return BRM_NO_ROOM;
    *count = sum;
    return BRM_DONE;
}

/* A lexer, while it is open: it cuts texts into tokens. Starts as BRM_LEXER_CLOSED; it is kept as a handle is, and no other
 * call takes it. */
typedef struct {
    brm_handle handle;
} brm_lexer;

#ifdef __cplusplus
#define BRM_LEXER_CLOSED (brm_lexer{{false, nullptr}})
#else
#define BRM_LEXER_CLOSED ((brm_lexer){{false, NULL}})
#endif

/* A rule: what its tokens match, a pattern in UTF-8, and whether they are left out. The name is for the caller. */
typedef struct {
    const char *name;
    size_t name_size;
    const char *pattern;
    size_t pattern_size;
    bool is_skipped;
} brm_rule;

/* Why a rule is not taken. */
enum {
    BRM_RULE_SYNTAX = 1,        /* the pattern is none, for what stands from `start` up to `end` in it */
    BRM_RULE_ASSERTION = 2,     /* it has an assertion, such as ^ or \b */
    BRM_RULE_MATCHES_BYTES = 3, /* it may match bytes that are no UTF-8 */
    BRM_RULE_TOO_LARGE = 4,     /* with those before it, it is too large */
    BRM_RULE_NOT_TEXT = 5       /* its name or its pattern is no UTF-8 */
};

/* The first rule that is not taken, by its number from 0 on, the reason, and how many bytes of what is wrong were written. */
typedef struct {
    size_t rule, start, end, text_size;
    uint32_t reason;
} brm_rule_fault;

/* A token: its bytes from `start` up to `end`, the line and the column where it begins, each from 1, and the number of its rule.
 * Where no token begins, is_token is false, both start and end are that place, and the rule is 0. Columns count characters. */
typedef struct {
    size_t start, end, line, column;
    uint32_t rule;
    bool is_token;
} brm_token;

/* Opens a closed lexer of so many rules, which has at most so many states: 10,000 are plenty. A token is the longest piece of the
 * text from its place on that the pattern of a rule matches, by the first such rule. Of BRM_BAD_RULE the fault is written, and what is
 * wrong to the front of the text, as much as its capacity takes, with no zero behind it. */
brm_status brm_lexer_create(brm_lexer *lexer, const brm_rule *rules, size_t size, uint32_t budget, brm_rule_fault *fault, char *text, size_t capacity);

/* Writes the tokens of a text in UTF-8 in their order, as many as the array takes, and how many there are in all. Where that is more
 * than its capacity, ask again with so many. Allocates nothing. */
brm_status brm_lexer_tokens(const brm_lexer *lexer, const char *text, size_t size, brm_token *tokens, size_t capacity, size_t *count);

/* Closes a lexer, and frees its memory. A closed one stays closed. */
static inline void brm_lexer_destroy(brm_lexer *lexer) {
    if (lexer) brm_destroy(&lexer->handle);
}

#ifdef __cplusplus
}
#endif
#endif
