// The yardstick of `certify 2`: its algorithm in plain C, over made-up columns of changes without a leak. It numbers the changes of each place by
// sorting them, and compares each two places, group by group, with a table of counts. Prints the seconds that both take.
//     certify_two WORLDS GROUPS PLACES
#include <stdint.h>
#include <stdio.h>
#include <stdlib.h>
#include <time.h>

struct change {
    uint32_t before, after, row;
};

static double seconds(void) {
    struct timespec now;
    clock_gettime(CLOCK_MONOTONIC, &now);
    return now.tv_sec + now.tv_nsec * 1e-9;
}

static int by_change(const void *first, const void *other) {
    const struct change *a = first, *b = other;
    if (a->before != b->before) return a->before < b->before ? -1 : 1;
    if (a->after != b->after) return a->after < b->after ? -1 : 1;
    return a->row < b->row ? -1 : a->row > b->row;
}

static uint32_t draw(void) {
    static uint32_t state = 1;
    return state = state * 1664525u + 1013904223u;
}

// the number of each row's change among those of this place; answers how many there are
static uint32_t number(struct change *changes, uint32_t worlds, uint32_t *numbers) {
    qsort(changes, worlds, sizeof *changes, by_change);
    uint32_t kinds = 0;
    for (uint32_t i = 0; i < worlds; i++) {
        if (i && (changes[i].before != changes[i - 1].before || changes[i].after != changes[i - 1].after)) kinds++;
        numbers[changes[i].row] = kinds;
    }
    return kinds + 1;
}

// the rows of each group, sorted by their numbers
static void sort_rows(const uint32_t *numbers, uint32_t kinds, uint32_t size, uint32_t groups, uint32_t *at, uint32_t *rows) {
    for (uint32_t group = 0; group < groups; group++) {
        for (uint32_t kind = 0; kind <= kinds; kind++) at[kind] = 0;
        for (uint32_t i = group * size; i < (group + 1) * size; i++) at[numbers[i] + 1]++;
        for (uint32_t kind = 0; kind < kinds; kind++) at[kind + 1] += at[kind];
        for (uint32_t i = group * size; i < (group + 1) * size; i++) rows[group * size + at[numbers[i]]++] = i;
    }
}

// whether a group has the two places' numbers together as often as the first group has
static int is_alike(const uint32_t *p, const uint32_t *q, const uint32_t *first, const uint32_t *other, uint32_t size, uint32_t *counts) {
    int alike = 1;
    for (uint32_t start = 0, end; alike && start < size; start = end) {
        for (end = start + 1; end < size && p[first[end]] == p[first[start]]; end++) {}
        for (uint32_t i = start; i < end; i++) counts[q[first[i]]]++;
        for (uint32_t i = start; i < end; i++) {
            if (counts[q[other[i]]] == 0) alike = 0;
            else counts[q[other[i]]]--;
        }
        for (uint32_t i = start; i < end; i++) {
            if (counts[q[first[i]]]) alike = 0;
            counts[q[first[i]]] = 0;
        }
    }
    return alike;
}

int main(int count, char **words) {
    if (count != 4) return 2;
    uint32_t worlds = atoi(words[1]), groups = atoi(words[2]), places = atoi(words[3]), size = worlds / groups;
    struct change *columns = malloc(sizeof *columns * worlds * places);
    for (uint32_t place = 0; place < places; place++)
        for (uint32_t i = 0; i < worlds; i++) {
            struct change *change = &columns[place * worlds + i];
            *change = i < size ? (struct change){draw(), draw(), i} : change[-(int)size];
            change->row = i;
        }
    uint32_t *numbers = malloc(4ul * worlds * places), *kinds = malloc(4ul * places), *rows = malloc(4ul * worlds);
    uint32_t *counts = calloc(worlds, 4), *at = malloc(4ul * (worlds + 1));
    double start = seconds();
    for (uint32_t place = 0; place < places; place++) kinds[place] = number(&columns[place * worlds], worlds, &numbers[place * worlds]);
    int alike = 1;
    for (uint32_t p = 0; alike && p < places; p++) {
        sort_rows(&numbers[p * worlds], kinds[p], size, groups, at, rows);
        for (uint32_t q = p + 1; alike && q < places; q++)
            for (uint32_t group = 1; alike && group < groups; group++)
                alike = is_alike(&numbers[p * worlds], &numbers[q * worlds], rows, rows + group * size, size, counts);
    }
    printf("%.3f\n", seconds() - start);
    return !alike;
}
