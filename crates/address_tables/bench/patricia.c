/* A patricia tree, to look up the addresses that lookups.txt draws: patricia COUNT < TABLE. A
 * line of the table is FIRST,LAST,COUNTRY, addresses as decimal numbers. Prints the sum of the values that are found. */
#include <stdbool.h>
#include <stdint.h>
#include <stdio.h>
#include <stdlib.h>

/* A node of the tree: a prefix, with a value where it is one of the table's, and the two that begin with it and a bit. */
struct node {
    uint32_t network, value;
    uint8_t length;
    bool has_value;
    struct node *halves[2];
};

static uint32_t mask(int length) { return length ? UINT32_MAX << (32 - length) : 0; }

static int bit(uint32_t address, int place) { return address >> (31 - place) & 1; }

static struct node *made(uint32_t network, int length) {
    struct node *it = calloc(1, sizeof *it);
    if (!it) exit(1);
    it->network = network, it->length = (uint8_t)length;
    return it;
}

/* How many bits two prefixes begin with alike. */
static int common(uint32_t one, int length, const struct node *other) {
    uint32_t differ = one ^ other->network;
    int same = differ ? __builtin_clz(differ) : 32;
    int most = length < other->length ? length : other->length;
    return same < most ? same : most;
}

static void insert(struct node **at, uint32_t network, int length, uint32_t value) {
    int same;
    while (*at && (same = common(network, length, *at)) == (*at)->length && same < length)
        at = &(*at)->halves[bit(network, (*at)->length)];
    struct node *it = *at;
    if (it && same == length && it->length == length) {
        it->value = value, it->has_value = true;
        return;
    }
    struct node *added = made(network, length);
    added->value = value, added->has_value = true;
    if (!it) {
        *at = added;
    } else if (same == length) {
        added->halves[bit(it->network, length)] = it;
        *at = added;
    } else {
        struct node *fork = made(network & mask(same), same);
        fork->halves[bit(network, same)] = added;
        fork->halves[bit(it->network, same)] = it;
        *at = fork;
    }
}

/* The node of the longest prefix that has the address and a value. */
static const struct node *found(const struct node *it, uint32_t address) {
    const struct node *best = NULL;
    while (it && ((address ^ it->network) & mask(it->length)) == 0) {
        if (it->has_value) best = it;
        if (it->length == 32) break;
        it = it->halves[bit(address, it->length)];
    }
    return best;
}

static void insert_range(struct node **root, uint64_t first, uint64_t last, uint32_t value) {
    while (first <= last) {
        int free = first ? __builtin_ctzll(first) : 32;
        while (first + (1ull << free) - 1 > last) free--;
        insert(root, (uint32_t)first, 32 - free, value);
        first += 1ull << free;
    }
}

int main(int count, char **words) {
    uint64_t looked = count > 1 ? strtoull(words[1], NULL, 10) : 0, first, last, sum = 0, drawn = 88172645463325252ull;
    char line[200], country[8];
    struct node *root = NULL;
    while (fgets(line, sizeof line, stdin)) {
        if (sscanf(line, "%lu,%lu,%7s", &first, &last, country) != 3) continue;
        uint32_t value = 0;
        for (char *it = country; *it; it++) value = value * 256 + (uint8_t)*it;
        insert_range(&root, first, last, value);
    }
    for (uint64_t i = 0; i < looked; i++) {
        drawn ^= drawn << 13;
        drawn ^= drawn >> 7;
        drawn ^= drawn << 17;
        const struct node *it = found(root, (uint32_t)(drawn >> 32));
        if (it) sum += it->value;
    }
    printf("%lu\n", sum);
    return 0;
}
