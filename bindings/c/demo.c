/* A table of ports: ranges with a label each, the later insertion wins. */
#include "btree_range_map.h"

#include <inttypes.h>
#include <stdio.h>

/* The key from which a walk goes on. The last range of these is not unbounded, and does not hold UINT64_MAX. */
static uint64_t past(brm_range_u64 range) { return range.end + (range.flags & BRM_END_EXCLUDED ? 0 : 1); }

int main(void) {
    brm_handle ports = BRM_HANDLE_CLOSED;
    brm_range_u64 low = {0, 1023, 0}, web = {80, 80, 0}, high = {1024, 65536, BRM_END_EXCLUDED};
    brm_entry_u64 entry = {{0, 0, 0}, 0};
    if (brm_map_u64_create(&ports) != BRM_DONE) return 1;
    if (brm_map_u64_insert(&ports, &low, 1) != BRM_DONE) return 1;
    if (brm_map_u64_insert(&ports, &web, 2) != BRM_DONE) return 1;
    if (brm_map_u64_insert(&ports, &high, 3) != BRM_DONE) return 1;
    printf("%zu ranges\n", brm_count(&ports));
    if (brm_map_u64_get(&ports, 80, &entry) == BRM_DONE) printf("port 80: label %" PRIu64 "\n", entry.value);
    for (uint64_t key = 0; brm_map_u64_next(&ports, key, &entry) == BRM_DONE; key = past(entry.range))
        printf("from %" PRIu64 "%s to %" PRIu64 "%s: label %" PRIu64 "\n", entry.range.start,
               entry.range.flags & BRM_START_EXCLUDED ? " (excluded)" : "", entry.range.end,
               entry.range.flags & BRM_END_EXCLUDED ? " (excluded)" : "", entry.value);
    brm_destroy(&ports);
    return 0;
}
