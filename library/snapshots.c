/* A table of 64 MB, of which a hundred snapshots are taken while it is written: how long one takes beside a plain copy, and
 * then how many loads a second there are. Each snapshot is checked to have what the table had then. */
#include "chorus.h"
#include <stdio.h>
#include <stdlib.h>
#include <time.h>

enum { PAGE = 4096, PAGES = 16384, FRAMES = 40000, SNAPSHOTS = 100, WRITES = 200, LOADS = 1000000 };

static void check(uint32_t number, const char *what) {
    if (number == CHORUS_OK) return;
    fprintf(stderr, "%s: %u\n", what, (unsigned)number);
    exit(1);
}

/* Seconds of the processor. */
static double now(void) {
    struct timespec t;
    clock_gettime(CLOCK_PROCESS_CPUTIME_ID, &t);
    return (double)t.tv_sec + (double)t.tv_nsec / 1e9;
}

int main(void) {
    const uint64_t table_at = 0x10000000, snapshot_at = 0x80000000;
    /* What each page of the table begins with, and each page of the snapshot. */
    static uint32_t plain[PAGES], kept[PAGES];
    chorus *machine;
    uint32_t actor, table, snapshot, region;
    check(chorus_open(FRAMES, PAGE, 4096, &machine), "open");
    check(chorus_actor(machine, &actor), "actor");
    check(chorus_temp(machine, PAGES, &table), "table");
    check(chorus_map(machine, actor, table, 0, PAGES, table_at, 1, &region), "map");
    for (uint32_t page = 0; page < PAGES; page++) {
        plain[page] = page;
        check(chorus_store(machine, actor, table_at + (uint64_t)PAGE * page, &page, sizeof page), "fill");
    }

    double taken = 0;
    uint32_t drawn = 1;
    for (uint32_t n = 0; n < SNAPSHOTS; n++) {
        double begun = now();
        check(chorus_temp(machine, PAGES, &snapshot), "snapshot");
        check(chorus_copy(machine, table, 0, snapshot, 0, PAGES), "copy");
        taken += now() - begun;
        memcpy(kept, plain, sizeof kept);
        check(chorus_map(machine, actor, snapshot, 0, PAGES, snapshot_at, 0, &region), "map");
        for (uint32_t i = 0; i < WRITES; i++) {
            drawn = drawn * 1664525u + 1013904223u;
            uint32_t page = drawn >> 18, was, is = PAGES + n * WRITES + i;
            uint64_t at = (uint64_t)PAGE * page;
            check(chorus_load(machine, actor, table_at + at, &was, sizeof was), "load");
            if (was != plain[page]) return fprintf(stderr, "the table is wrong\n"), 1;
            check(chorus_store(machine, actor, table_at + at, &is, sizeof is), "store");
            plain[page] = is;
            check(chorus_load(machine, actor, snapshot_at + at, &was, sizeof was), "load");
            if (was != kept[page]) return fprintf(stderr, "the snapshot is wrong\n"), 1;
        }
        check(chorus_unmap(machine, region), "unmap");
        check(chorus_destroy(machine, snapshot), "destroy");
    }

    char *from = malloc((size_t)PAGE * PAGES), *to = malloc((size_t)PAGE * PAGES);
    if (!from || !to) return 1;
    memset(from, 1, (size_t)PAGE * PAGES), memset(to, 2, (size_t)PAGE * PAGES);
    double begun = now();
    memcpy(to, from, (size_t)PAGE * PAGES);
    double copied = now() - begun;

    uint32_t first = 0;
    begun = now();
    for (uint32_t n = 0; n < LOADS; n++)
        check(chorus_load(machine, actor, table_at + (uint64_t)PAGE * (n % 64), &first, sizeof first), "load");
    double loaded = now() - begun;
    if (first != plain[(LOADS - 1) % 64]) return fprintf(stderr, "the table is wrong\n"), 1;

    chorus_counts counts;
    check(chorus_stat(machine, &counts), "stat");
    printf("%d snapshots of %d pages, %d writes to the table after each: right\n", SNAPSHOTS, PAGES, WRITES);
    printf("a snapshot takes %.3f ms, a plain copy %.3f ms (byte %d)\n", taken / SNAPSHOTS * 1e3, copied * 1e3, to[PAGE]);
    printf("pages copied: %llu\n", (unsigned long long)counts.copies);
    printf("loads a second: %.1f million\n", LOADS / loaded / 1e6);
    free(from), free(to);
    check(chorus_close(machine), "close");
    return 0;
}
