/* SPDX-License-Identifier: MIT
 * A binary heap. */
#include "finishing.h"
#include <stdlib.h>

static int before(const entry *one, const entry *other) {
    if (one->key != other->key)
        return one->key < other->key;
    if (one->tie != other->tie)
        return one->tie < other->tie;
    return one->what < other->what;
}

/* Whether there was memory for it. */
int finishing_push(heap *h, double key, double tie, uint32_t what) {
    if (h->count == h->room) {
        size_t room = h->room ? 2 * h->room : 256;
        entry *entries = realloc(h->entries, room * sizeof *entries);
        if (!entries)
            return 0;
        h->entries = entries;
        h->room = room;
    }
    size_t place = h->count++;
    entry made = {key, tie, what};
    while (place && before(&made, &h->entries[(place - 1) / 2])) {
        h->entries[place] = h->entries[(place - 1) / 2];
        place = (place - 1) / 2;
    }
    h->entries[place] = made;
    return 1;
}

entry finishing_pop(heap *h) {
    entry least = h->entries[0], last = h->entries[--h->count];
    size_t place = 0, child;
    while ((child = 2 * place + 1) < h->count) {
        if (child + 1 < h->count && before(&h->entries[child + 1], &h->entries[child]))
            child++;
        if (!before(&h->entries[child], &last))
            break;
        h->entries[place] = h->entries[child];
        place = child;
    }
    h->entries[place] = last;
    return least;
}
