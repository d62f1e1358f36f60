/* The judges of maps and sets of one kind of keys: judge.c includes this with KEY, SUFFIX, LEAST, GREATEST and MIDDLE, with CALLED,
 * the kind of the calls that serve them, and with GIVEN, a range as these take it, and COMPLEMENT. */

#define JOINED(a, b, c) a##b##c
#define JOIN(a, b, c) JOINED(a, b, c)
#define MAP(call) JOIN(brm_map_, CALLED, _##call)
#define SET(call) JOIN(brm_set_, CALLED, _##call)
#define NAME(name) JOIN(name, _, SUFFIX)
#define RANGE JOIN(brm_range, _, CALLED)
#define ENTRY JOIN(brm_entry, _, CALLED)
#define PIECE JOIN(brm_piece, _, CALLED)
#define NUMBER JOIN(number, _, CALLED)

/* Keys from the first to the last, which a value is bound to: 0 where none is, else its place among the values. */
typedef struct {
    KEY first, last;
    int value;
} NAME(run);

/* All keys in order: single ones near both ends and near the middle, and all that lie between those. */
static NAME(run) NAME(parts)[PARTS];
static int NAME(count) = 0;

static void NAME(make_parts)(void) {
    const KEY near[] = {LEAST, MIDDLE, GREATEST};
    for (int at = 0; at < 3; at++)
        for (int i = -4; i <= 4; i++) {
            if ((at == 0 && i < 0) || (at == 2 && i > 0)) continue;
            KEY key = i < 0 ? near[at] - (KEY)-i : near[at] + (KEY)i;
            if (NAME(count) > 0) {
                KEY past = NAME(parts)[NAME(count) - 1].last + 1;
                if (past < key) NAME(parts)[NAME(count)++] = (NAME(run)){past, key - 1, 0};
            }
            NAME(parts)[NAME(count)++] = (NAME(run)){key, key, 0};
        }
    EXPECT(NAME(parts)[0].first == LEAST && NAME(parts)[NAME(count) - 1].last == GREATEST);
}

/* A range in one of the ways to write it, and the parts that it is made of, from one up to another. */
static RANGE NAME(draw)(int *from, int *upto) {
    int count = NAME(count), start = below(count), end = below(12) ? start + below(8) : count;
    if (end > count) end = count;
    RANGE range = {0, 0, 0};
    if (start == end) {
        KEY key = NAME(parts)[start].first;
        *from = *upto = 0;
        switch (below(4)) {
        case 0: range = (RANGE){key, key, BRM_END_EXCLUDED}; break;
        case 1: range = (RANGE){key, key, BRM_START_EXCLUDED | BRM_END_EXCLUDED}; break;
        case 2: range = (RANGE){GREATEST, 5, BRM_START_EXCLUDED | BRM_END_UNBOUNDED}; break;
        default: range = (RANGE){9, LEAST, BRM_START_UNBOUNDED | BRM_END_EXCLUDED};
        }
        return GIVEN(range);
    }
    if (!below(12)) start = 0;
    *from = start, *upto = end;
    if (start == 0 && below(2)) range.flags |= BRM_START_UNBOUNDED | (below(2) ? BRM_START_EXCLUDED : 0);
    else if (start > 0 && below(2)) range.start = NAME(parts)[start - 1].last, range.flags |= BRM_START_EXCLUDED;
    else range.start = NAME(parts)[start].first;
    if (end == count && below(2)) range.flags |= BRM_END_UNBOUNDED | (below(2) ? BRM_END_EXCLUDED : 0);
    else if (end < count && below(2)) range.end = NAME(parts)[end].first, range.flags |= BRM_END_EXCLUDED;
    else range.end = NAME(parts)[end - 1].last;
    return GIVEN(range);
}

/* The widest ranges with one value each of the parts from one up to another, with those that are free, as -1, if wanted. */
static int NAME(join)(const int *bound, int from, int upto, bool frees, NAME(run) *runs) {
    int count = 0, before = 0;
    for (int i = from; i < upto; i++) {
        int value = bound[i] == 0 && frees ? -1 : bound[i];
        if (value != 0 && value == before) runs[count - 1].last = NAME(parts)[i].last;
        else if (value != 0) runs[count++] = (NAME(run)){NAME(parts)[i].first, NAME(parts)[i].last, value};
        before = value;
    }
    return count;
}

static bool NAME(says)(RANGE range, KEY first, KEY last) {
    KEY start = range.flags & BRM_START_UNBOUNDED ? LEAST : range.start + (range.flags & BRM_START_EXCLUDED ? 1 : 0);
    KEY end = range.flags & BRM_END_UNBOUNDED ? GREATEST : range.end - (range.flags & BRM_END_EXCLUDED ? 1 : 0);
    return start == first && end == last;
}

static bool NAME(is_run)(ENTRY entry, NAME(run) run) {
    return NAME(says)(entry.range, run.first, run.last) && entry.value == VALUES[run.value];
}

/* Whether a map holds just what is bound, read from both ends. */
static bool NAME(holds)(const brm_handle *map, const int *bound) {
    NAME(run) runs[PARTS];
    ENTRY entries[PARTS];
    size_t count = 0;
    size_t wanted = (size_t)NAME(join)(bound, 0, NAME(count), false, runs);
    if (MAP(read)(map, LEAST, entries, PARTS, &count) != BRM_DONE || count != wanted || brm_count(map) != wanted) return false;
    for (size_t i = 0; i < count; i++)
        if (!NAME(is_run)(entries[i], runs[i])) return false;
    if (MAP(read_back)(map, GREATEST, entries, PARTS, &count) != BRM_DONE || count != wanted) return false;
    for (size_t i = 0; i < count; i++)
        if (!NAME(is_run)(entries[i], runs[wanted - 1 - i])) return false;
    return true;
}

static bool NAME(set_holds)(const brm_handle *set, const int *bound) {
    NAME(run) runs[PARTS];
    RANGE ranges[PARTS];
    size_t count = 0;
    size_t wanted = (size_t)NAME(join)(bound, 0, NAME(count), false, runs);
    if (SET(read)(set, LEAST, ranges, PARTS, &count) != BRM_DONE || count != wanted || brm_count(set) != wanted) return false;
    for (size_t i = 0; i < count; i++)
        if (!NAME(says)(ranges[i], runs[i].first, runs[i].last)) return false;
    if (SET(read_back)(set, GREATEST, ranges, PARTS, &count) != BRM_DONE || count != wanted) return false;
    for (size_t i = 0; i < count; i++)
        if (!NAME(says)(ranges[i], runs[wanted - 1 - i].first, runs[wanted - 1 - i].last)) return false;
    return true;
}

/* Whether the call has counted the keys, or has refused to where they are as many as two words do not say. */
static bool NAME(counts)(const int *bound, brm_status status, brm_key_count told) {
    unsigned __int128 sum = 0;
    bool is_any = false;
    for (int i = 0; i < NAME(count); i++)
        if (bound[i]) sum += (unsigned __int128)NAME(parts)[i].last - (unsigned __int128)NAME(parts)[i].first + 1, is_any = true;
    if (is_any && sum == 0) return status == BRM_NO_ROOM && told.high == 9 && told.low == 9;
    return status == BRM_DONE && told.high == (uint64_t)(sum >> 64) && told.low == (uint64_t)sum;
}

static void NAME(unbind_run)(int *bound, NAME(run) run) {
    for (int i = 0; i < NAME(count); i++)
        if (run.first <= NAME(parts)[i].first && NAME(parts)[i].first <= run.last) bound[i] = 0;
}

/* A map or a set of some ranges in any order, and what they bind. */
static brm_handle NAME(drawn)(bool is_map, int *bound) {
    brm_handle made = BRM_HANDLE_CLOSED;
    ENTRY entries[6];
    RANGE ranges[6];
    int size = below(6);
    size_t done = 99;
    memset(bound, 0, PARTS * sizeof *bound);
    for (int i = 0; i < size; i++) {
        int from, upto, value = is_map ? 1 + below(3) : 1;
        ranges[i] = entries[i].range = NAME(draw)(&from, &upto);
        entries[i].value = VALUES[value];
        for (int at = from; at < upto; at++) bound[at] = value;
    }
    EXPECT((is_map ? MAP(create)(&made) : SET(create)(&made)) == BRM_DONE);
    EXPECT((is_map ? MAP(insert_many)(&made, entries, (size_t)size, &done) : SET(insert_many)(&made, ranges, (size_t)size, &done)) == BRM_DONE);
    EXPECT(done == (size_t)size);
    return made;
}

/* Saves what is held, and loads it into another handle, which then holds as much. */
static void NAME(save_and_load)(brm_handle *handle, brm_handle *other) {
    static uint8_t text[1 << 16];
    size_t size = 0, told = 0;
    EXPECT(brm_save(handle, text, 0, &size) == BRM_NO_ROOM && size > 0);
    EXPECT(brm_save(handle, text, size - 1, &told) == BRM_NO_ROOM && told == size);
    EXPECT(brm_save(handle, text, sizeof text, &told) == BRM_DONE && told == size);
    EXPECT(brm_load(other, text, size - 1) == BRM_NOT_JSON);
    EXPECT(brm_load(other, text, size) == BRM_DONE && brm_equal(handle, other) == BRM_DONE);
}

static void NAME(judge_map)(long calls) {
    brm_handle map = BRM_HANDLE_CLOSED;
    int bound[PARTS] = {0}, over[PARTS];
    NAME(run) runs[PARTS];
    EXPECT(MAP(create)(&map) == BRM_DONE);
    for (; calls > 0; calls--) {
        int from, upto, value = 1 + below(3), part = below(NAME(count)), count;
        RANGE range = NAME(draw)(&from, &upto);
        KEY key = below(2) ? NAME(parts)[part].first : NAME(parts)[part].last;
        bool is_free = true, is_apart = true;
        for (int i = from; i < upto; i++) is_free = is_free && !bound[i];
        for (int i = from - 1; i <= upto; i++)
            if (from < upto && i >= 0 && i < NAME(count) && bound[i]) is_apart = false;
        ENTRY entry = {{1, 2, 3}, 4}, entries[PARTS];
        size_t found = 0;
        switch (below(18)) {
        case 0: case 1: case 2: case 3:
            EXPECT(MAP(insert)(&map, &range, VALUES[value]) == BRM_DONE);
            for (int i = from; i < upto; i++) bound[i] = value;
            break;
        case 4: case 5:
            EXPECT(MAP(remove)(&map, &range) == BRM_DONE);
            for (int i = from; i < upto; i++) bound[i] = 0;
            break;
        case 6:
            EXPECT(MAP(try_insert)(&map, &range, VALUES[value]) == (is_free ? BRM_DONE : BRM_OCCUPIED));
            for (int i = from; is_free && i < upto; i++) bound[i] = value;
            break;
        case 7:
            EXPECT(MAP(insert_disconnected)(&map, &range, VALUES[value]) == (is_apart ? BRM_DONE : BRM_CONNECTED));
            for (int i = from; is_apart && i < upto; i++) bound[i] = value;
            break;
        case 8: {
            bool is_first = below(2);
            count = NAME(join)(bound, 0, NAME(count), false, runs);
            brm_status status = is_first ? MAP(pop_first)(&map, &entry) : MAP(pop_last)(&map, &entry);
            EXPECT(status == (count ? BRM_DONE : BRM_NONE));
            if (count) EXPECT(NAME(is_run)(entry, runs[is_first ? 0 : count - 1]));
            if (count) NAME(unbind_run)(bound, runs[is_first ? 0 : count - 1]);
            break;
        }
        case 9: {
            brm_handle rest = BRM_HANDLE_CLOSED;
            int before[PARTS] = {0}, after[PARTS] = {0};
            for (int i = 0; i < NAME(count); i++) *(i < part ? before + i : after + i) = bound[i];
            EXPECT(MAP(split_off)(&map, NAME(parts)[part].first, &rest) == BRM_DONE);
            EXPECT(NAME(holds)(&map, before) && NAME(holds)(&rest, after));
            if (brm_count(&map) && brm_count(&rest)) EXPECT(MAP(append)(&rest, &map) == BRM_OUT_OF_ORDER);
            EXPECT(MAP(append)(&map, &rest) == BRM_DONE && brm_count(&rest) == 0);
            EXPECT(MAP(append)(&map, &map) == (brm_count(&map) ? BRM_OUT_OF_ORDER : BRM_DONE));
            brm_destroy(&rest);
            break;
        }
        case 10: {
            brm_handle other = NAME(drawn)(true, over), keys = BRM_HANDLE_CLOSED, made = BRM_HANDLE_CLOSED;
            int wanted[PARTS] = {0};
            bool is_same = true;
            EXPECT(NAME(holds)(&other, over));
            for (int i = 0; i < NAME(count); i++) {
                wanted[i] = over[i] ? over[i] : bound[i];
                is_same = is_same && over[i] == bound[i];
            }
            EXPECT(brm_overlay(&map, &other, &made) == BRM_DONE && NAME(holds)(&made, wanted));
            EXPECT(brm_overlay(&map, &other, &made) == BRM_OPEN);
            brm_destroy(&made);
            EXPECT(brm_equal(&map, &other) == (is_same ? BRM_DONE : BRM_NONE));
            EXPECT(SET(create)(&keys) == BRM_DONE && MAP(read)(&other, LEAST, entries, PARTS, &found) == BRM_DONE);
            for (size_t i = 0; i < found; i++) EXPECT(SET(insert)(&keys, &entries[i].range) == BRM_DONE);
            for (int turn = 0; turn < 4; turn++) {
                const brm_handle *few = turn % 2 ? &keys : &other;
                for (int i = 0; i < NAME(count); i++) wanted[i] = !over[i] == (turn < 2) ? 0 : bound[i];
                EXPECT((turn < 2 ? brm_restrict(&map, few, &made) : brm_without(&map, few, &made)) == BRM_DONE);
                EXPECT(NAME(holds)(&made, wanted));
                brm_destroy(&made);
            }
            EXPECT(brm_clone(&map, &made) == BRM_DONE && NAME(holds)(&made, bound));
            NAME(save_and_load)(&map, &other);
            EXPECT(NAME(holds)(&other, bound));
            brm_destroy(&made), brm_destroy(&keys), brm_destroy(&other);
            break;
        }
        case 11:
            if (below(8)) break;
            EXPECT(brm_clear(&map) == BRM_DONE);
            memset(bound, 0, sizeof bound);
            break;
        case 12: {
            PIECE pieces[PARTS];
            RANGE gaps[PARTS];
            size_t free = 0, met = 0;
            count = NAME(join)(bound, from, upto, true, runs);
            EXPECT(MAP(pieces)(&map, &range, pieces, PARTS, &found) == BRM_DONE && found == (size_t)count);
            EXPECT(MAP(gaps)(&map, &range, gaps, PARTS, &free) == BRM_DONE);
            size_t gap = 0;
            for (size_t i = 0; i < found && i < (size_t)count; i++) {
                EXPECT(NAME(says)(pieces[i].range, runs[i].first, runs[i].last) && pieces[i].binding.is_bound == (runs[i].value > 0));
                EXPECT(pieces[i].binding.value == (runs[i].value > 0 ? VALUES[runs[i].value] : 0));
                if (runs[i].value < 0) EXPECT(gap < free && NAME(says)(gaps[gap], runs[i].first, runs[i].last));
                gap += runs[i].value < 0;
            }
            EXPECT(gap == free);
            EXPECT(MAP(overlapping)(&map, &range, entries, PARTS, &found) == BRM_DONE);
            count = NAME(join)(bound, 0, NAME(count), false, runs);
            for (int i = 0; i < count; i++)
                if (from < upto && runs[i].first <= NAME(parts)[upto - 1].last && runs[i].last >= NAME(parts)[from].first)
                    EXPECT(met < found && NAME(is_run)(entries[met++], runs[i]));
            EXPECT(met == found);
            break;
        }
        case 13: {
            NUMBER keys[PARTS];
            brm_binding bindings[PARTS];
            for (int i = 0; i < NAME(count); i++) keys[i] = below(2) ? NAME(parts)[i].first : NAME(parts)[i].last;
            EXPECT(MAP(get_many)(&map, keys, bindings, (size_t)NAME(count)) == BRM_DONE);
            for (int i = 0; i < NAME(count); i++)
                EXPECT(bindings[i].is_bound == (bound[i] > 0) && bindings[i].value == (bound[i] ? VALUES[bound[i]] : 0));
            break;
        }
        case 14: {
            int table[] = {below(4), below(4), below(4), below(4)};
            EXPECT(MAP(update)(&map, &range, changed, table) == BRM_DONE);
            for (int i = from; i < upto; i++) bound[i] = table[bound[i]];
            break;
        }
        case 15: {
            brm_handle other = NAME(drawn)(true, over), made = BRM_HANDLE_CLOSED;
            int table[4][4], wanted[PARTS] = {0};
            for (int i = 0; i < 16; i++) table[i / 4][i % 4] = i ? below(4) : 0;
            for (int i = 0; i < NAME(count); i++) wanted[i] = table[bound[i]][over[i]];
            EXPECT(MAP(merge_with)(&map, &other, &made, merged, table) == BRM_DONE && NAME(holds)(&made, wanted));
            EXPECT(MAP(merge_with)(&map, &other, &made, merged, table) == BRM_OPEN);
            brm_destroy(&made), brm_destroy(&other);
            break;
        }
        default: {
            brm_key_count length = {9, 9};
            int next = -1, previous = -1, held = -1;
            count = NAME(join)(bound, 0, NAME(count), false, runs);
            for (int i = count - 1; i >= 0; i--) next = runs[i].last >= key ? i : next;
            for (int i = 0; i < count; i++) previous = runs[i].first <= key ? i : previous;
            held = bound[part] ? next : -1;
            EXPECT(MAP(get)(&map, key, &entry) == (held < 0 ? BRM_NONE : BRM_DONE) && (held < 0 || NAME(is_run)(entry, runs[held])));
            EXPECT(MAP(next)(&map, key, &entry) == (next < 0 ? BRM_NONE : BRM_DONE) && (next < 0 || NAME(is_run)(entry, runs[next])));
            EXPECT(MAP(previous)(&map, key, &entry) == (previous < 0 ? BRM_NONE : BRM_DONE) && (previous < 0 || NAME(is_run)(entry, runs[previous])));
            EXPECT(MAP(first)(&map, &entry) == (count ? BRM_DONE : BRM_NONE) && (!count || NAME(is_run)(entry, runs[0])));
            EXPECT(MAP(last)(&map, &entry) == (count ? BRM_DONE : BRM_NONE) && (!count || NAME(is_run)(entry, runs[count - 1])));
            EXPECT(MAP(contains)(&map, key) == (bound[part] ? BRM_DONE : BRM_NONE));
            EXPECT(MAP(intersects)(&map, &range) == (is_free ? BRM_NONE : BRM_DONE));
            brm_status counted = MAP(len)(&map, &length);
            EXPECT(NAME(counts)(bound, counted, length));
        }
        }
        EXPECT(NAME(holds)(&map, bound));
        if (failures) break;
    }
    brm_destroy(&map);
}

static void NAME(judge_set)(long calls) {
    brm_handle set = BRM_HANDLE_CLOSED;
    int bound[PARTS] = {0}, over[PARTS];
    NAME(run) runs[PARTS];
    EXPECT(SET(create)(&set) == BRM_DONE);
    for (; calls > 0; calls--) {
        int from, upto, part = below(NAME(count)), count;
        RANGE range = NAME(draw)(&from, &upto), found = {1, 2, 3}, ranges[PARTS];
        KEY key = below(2) ? NAME(parts)[part].first : NAME(parts)[part].last;
        bool is_free = true;
        for (int i = from; i < upto; i++) is_free = is_free && !bound[i];
        size_t size = 0;
        switch (below(12)) {
        case 0: case 1: case 2:
            EXPECT(SET(insert)(&set, &range) == BRM_DONE);
            for (int i = from; i < upto; i++) bound[i] = 1;
            break;
        case 3: case 4:
            EXPECT(SET(remove)(&set, &range) == BRM_DONE);
            for (int i = from; i < upto; i++) bound[i] = 0;
            break;
        case 5:
            EXPECT(SET(try_insert)(&set, &range) == (is_free ? BRM_DONE : BRM_OCCUPIED));
            for (int i = from; is_free && i < upto; i++) bound[i] = 1;
            break;
        case 6: {
            bool is_first = below(2);
            count = NAME(join)(bound, 0, NAME(count), false, runs);
            brm_status status = is_first ? SET(pop_first)(&set, &found) : SET(pop_last)(&set, &found);
            EXPECT(status == (count ? BRM_DONE : BRM_NONE));
            if (count) EXPECT(NAME(says)(found, runs[is_first ? 0 : count - 1].first, runs[is_first ? 0 : count - 1].last));
            if (count) NAME(unbind_run)(bound, runs[is_first ? 0 : count - 1]);
            break;
        }
        case 7: {
            brm_handle other = NAME(drawn)(false, over), made = BRM_HANDLE_CLOSED;
            bool is_subset = true, is_disjoint = true, is_same = true;
            for (int i = 0; i < NAME(count); i++) {
                is_subset = is_subset && (!bound[i] || over[i]);
                is_disjoint = is_disjoint && !(bound[i] && over[i]);
                is_same = is_same && bound[i] == over[i];
            }
            EXPECT(SET(is_subset)(&set, &other) == (is_subset ? BRM_DONE : BRM_NONE));
            EXPECT(SET(is_disjoint)(&set, &other) == (is_disjoint ? BRM_DONE : BRM_NONE));
            EXPECT(brm_equal(&set, &other) == (is_same ? BRM_DONE : BRM_NONE));
            for (int turn = 0; turn < 5; turn++) {
                int wanted[PARTS] = {0};
                for (int i = 0; i < NAME(count); i++) {
                    bool a = bound[i], b = over[i];
                    wanted[i] = turn == 0 ? a || b : turn == 1 ? a && b : turn == 2 ? a && !b : turn == 3 ? a != b : !a;
                }
                EXPECT((turn == 0   ? SET(union)(&set, &other, &made)
                        : turn == 1 ? SET(intersection)(&set, &other, &made)
                        : turn == 2 ? SET(difference)(&set, &other, &made)
                        : turn == 3 ? SET(symmetric_difference)(&set, &other, &made)
                                    : COMPLEMENT(&set, &made)) == BRM_DONE);
                EXPECT(NAME(set_holds)(&made, wanted));
                brm_destroy(&made);
            }
            EXPECT(brm_clone(&set, &made) == BRM_DONE && NAME(set_holds)(&made, bound));
            NAME(save_and_load)(&set, &other);
            EXPECT(NAME(set_holds)(&other, bound));
            brm_destroy(&made), brm_destroy(&other);
            break;
        }
        case 8:
            if (below(8)) break;
            EXPECT(brm_clear(&set) == BRM_DONE);
            memset(bound, 0, sizeof bound);
            break;
        case 9: {
            size_t gap = 0, met = 0;
            count = NAME(join)(bound, from, upto, true, runs);
            EXPECT(SET(gaps)(&set, &range, ranges, PARTS, &size) == BRM_DONE);
            for (int i = 0; i < count; i++)
                if (runs[i].value < 0) EXPECT(gap < size && NAME(says)(ranges[gap++], runs[i].first, runs[i].last));
            EXPECT(gap == size);
            EXPECT(SET(overlapping)(&set, &range, ranges, PARTS, &size) == BRM_DONE);
            count = NAME(join)(bound, 0, NAME(count), false, runs);
            for (int i = 0; i < count; i++)
                if (from < upto && runs[i].first <= NAME(parts)[upto - 1].last && runs[i].last >= NAME(parts)[from].first)
                    EXPECT(met < size && NAME(says)(ranges[met++], runs[i].first, runs[i].last));
            EXPECT(met == size);
            break;
        }
        default: {
            brm_key_count length = {9, 9};
            int next = -1, previous = -1, held = -1;
            count = NAME(join)(bound, 0, NAME(count), false, runs);
            for (int i = count - 1; i >= 0; i--) next = runs[i].last >= key ? i : next;
            for (int i = 0; i < count; i++) previous = runs[i].first <= key ? i : previous;
            held = bound[part] ? next : -1;
#define ASKED(call, at) EXPECT(call == ((at) < 0 ? BRM_NONE : BRM_DONE) && ((at) < 0 || NAME(says)(found, runs[at].first, runs[at].last)))
            ASKED(SET(get)(&set, key, &found), held);
            ASKED(SET(next)(&set, key, &found), next);
            ASKED(SET(previous)(&set, key, &found), previous);
            ASKED(SET(first)(&set, &found), count ? 0 : -1);
            ASKED(SET(last)(&set, &found), count - 1);
#undef ASKED
            EXPECT(SET(contains)(&set, key) == (bound[part] ? BRM_DONE : BRM_NONE));
            EXPECT(SET(intersects)(&set, &range) == (is_free ? BRM_NONE : BRM_DONE));
            brm_status counted = SET(len)(&set, &length);
            EXPECT(NAME(counts)(bound, counted, length));
        }
        }
        EXPECT(NAME(set_holds)(&set, bound));
        if (failures) break;
    }
    brm_destroy(&set);
}

#undef JOINED
#undef JOIN
#undef MAP
#undef SET
#undef NAME
#undef RANGE
#undef ENTRY
#undef PIECE
#undef NUMBER
#undef KEY
#undef SUFFIX
#undef LEAST
#undef GREATEST
#undef MIDDLE
#undef CALLED
#undef GIVEN
#undef COMPLEMENT
