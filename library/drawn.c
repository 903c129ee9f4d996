/* Draws calls of the library, writes each as a line of a script and what it answers as a line of replies: so the library can
 * be compared with the program, which replays the script.
 *
 *   drawn NUMBER CALLS FRAMES PAGE SCRIPT REPLIES
 *
 * There is one actor, so the program answers its lines in their order. */
#include "chorus.h"
#include <stdio.h>
#include <stdlib.h>

static uint64_t state;

static uint32_t below(uint32_t n) {
    state = state * 6364136223846793005u + 1442695040888963407u;
    return (uint32_t)(state >> 33) % n;
}

static const char *names[] = {
    [CHORUS_NO_ACTOR] = "NoActor", [CHORUS_NO_CACHE] = "NoCache", [CHORUS_NO_REGION] = "NoRegion",
    [CHORUS_OUT_OF_CACHE] = "OutOfCache", [CHORUS_BAD_ADDRESS] = "BadAddress", [CHORUS_PROTECTION] = "Protection",
    [CHORUS_OVERLAP] = "Overlap", [CHORUS_UNALIGNED] = "Unaligned", [CHORUS_CROSSES] = "Crosses",
    [CHORUS_LOCKED] = "Locked", [CHORUS_LOCK_LIMIT] = "LockLimit", [CHORUS_IN_USE] = "InUse",
    [CHORUS_TOO_MANY] = "TooMany", [CHORUS_NOT_LOCKED] = "NotLocked",
};

int main(int words, char **word) {
    if (words != 7) return fprintf(stderr, "usage: drawn NUMBER CALLS FRAMES PAGE SCRIPT REPLIES\n"), 2;
    state = strtoull(word[1], 0, 10);
    uint32_t calls = (uint32_t)atoi(word[2]), frames = (uint32_t)atoi(word[3]), page = (uint32_t)atoi(word[4]);
    FILE *script = fopen(word[5], "w"), *replies = fopen(word[6], "w");
    chorus *machine;
    if (!script || !replies || chorus_open(frames, page, 16384, &machine)) return fprintf(stderr, "drawn: can't begin\n"), 2;
    uint32_t caches = 0, regions = 0;
    for (uint32_t line = 1; line <= calls; line++) {
        uint32_t made = 0, number, kind = line == 1 ? 0 : line <= 5 ? 1 : below(40);
        /* Those that were made last are drawn most. */
        uint32_t c = caches - below(6), d = caches - below(6), r = regions - below(6);
        uint32_t first = below(16), other = below(16), pages = 1 + below(8);
        uint64_t at = 0x100000 + (uint64_t)page * below(64);
        uint8_t bytes[64];
        if (c > caches) c = 0;
        if (d > caches) d = 0;
        if (r > regions) r = 0;
        fprintf(replies, "%u ", line);
        if (kind == 0) {
            if (line > 1) kind = 1; /* one actor */
        }
        if (kind == 0) {
            fprintf(script, "actor\n");
            number = chorus_actor(machine, &made);
            if (!number) fprintf(replies, "ok a%u\n", made);
        } else if (kind == 1) {
            fprintf(script, "temp %u\n", pages + 8);
            number = chorus_temp(machine, pages + 8, &made);
            if (!number) fprintf(replies, "ok c%u\n", caches = made);
        } else if (kind == 2) {
            fprintf(script, "destroy c%u\n", c);
            number = chorus_destroy(machine, c);
            if (!number) fprintf(replies, "ok\n");
        } else if (kind <= 8) {
            fprintf(script, "copy c%u %u c%u %u %u\n", c, first, d, other, pages);
            number = chorus_copy(machine, c, first, d, other, pages);
            if (!number) fprintf(replies, "ok\n");
        } else if (kind <= 10) {
            fprintf(script, "move c%u %u c%u %u %u\n", c, first, d, other, pages);
            number = chorus_move(machine, c, first, d, other, pages);
            if (!number) fprintf(replies, "ok\n");
        } else if (kind <= 13) {
            uint32_t write = below(4) > 0;
            fprintf(script, "map a1 c%u %u %u %llx %s\n", c, first, pages, (unsigned long long)at, write ? "rw" : "r");
            number = chorus_map(machine, 1, c, first, pages, at, write, &made);
            if (!number) fprintf(replies, "ok r%u\n", regions = made);
        } else if (kind == 14) {
            fprintf(script, "split r%u %u\n", r, pages);
            number = chorus_split(machine, r, pages, &made);
            if (!number) fprintf(replies, "ok r%u\n", regions = made);
        } else if (kind == 15) {
            uint32_t write = below(4) > 0;
            fprintf(script, "protect r%u %s\n", r, write ? "rw" : "r");
            number = chorus_protect(machine, r, write);
            if (!number) fprintf(replies, "ok\n");
        } else if (kind == 16) {
            fprintf(script, "lock r%u\n", r);
            number = chorus_lock(machine, r);
            if (!number) fprintf(replies, "ok\n");
        } else if (kind == 17) {
            fprintf(script, "unlock r%u\n", r);
            number = chorus_unlock(machine, r);
            if (!number) fprintf(replies, "ok\n");
        } else if (kind <= 19) {
            fprintf(script, "unmap r%u\n", r);
            number = chorus_unmap(machine, r);
            if (!number) fprintf(replies, "ok\n");
        } else if (kind == 20) {
            fprintf(script, "find a1 %llx\n", (unsigned long long)at);
            number = chorus_find(machine, 1, at, &made);
            if (!number) fprintf(replies, "ok r%u\n", made);
        } else if (kind == 21) {
            chorus_region s;
            fprintf(script, "status r%u\n", r);
            number = chorus_status(machine, r, &s);
            if (!number)
                fprintf(replies, "ok a%u %llx %u %s c%u %u %s\n", s.actor, (unsigned long long)s.address, s.pages,
                        s.write ? "rw" : "r", s.cache, s.first, s.locked ? "locked" : "unlocked");
        } else if (kind == 22) {
            fprintf(script, "pageout %u\n", pages);
            number = chorus_page_out(machine, pages);
            if (!number) fprintf(replies, "ok\n");
        } else if (kind == 23) {
            chorus_counts s;
            fprintf(script, "stat\n");
            number = chorus_stat(machine, &s);
            if (!number)
                fprintf(replies, "stat live %u working %u copies %llu\n", s.live, s.working, (unsigned long long)s.copies);
        } else if (kind <= 31) {
            uint32_t n = 1 + below(64);
            at += below(page);
            fprintf(script, "load a1 %llx %u\n", (unsigned long long)at, n);
            number = chorus_load(machine, 1, at, bytes, n);
            if (!number) {
                fprintf(replies, "ok ");
                for (uint32_t i = 0; i < n; i++) fprintf(replies, "%02x", bytes[i]);
                fprintf(replies, "\n");
            }
        } else {
            uint32_t n = 1 + below(64);
            at += below(page);
            fprintf(script, "store a1 %llx ", (unsigned long long)at);
            for (uint32_t i = 0; i < n; i++) fprintf(script, "%02x", bytes[i] = (uint8_t)below(256));
            fprintf(script, "\n");
            number = chorus_store(machine, 1, at, bytes, n);
            if (!number) fprintf(replies, "ok\n");
        }
        if (number) {
            if (number > CHORUS_NOT_LOCKED) return fprintf(stderr, "drawn: line %u answered %u\n", line, number), 1;
            fprintf(replies, "no %s\n", names[number]);
        }
    }
    return fclose(script) || fclose(replies) || chorus_close(machine) ? 2 : 0;
}
