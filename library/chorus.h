/* chorus.h: memory that copies on write, as a library. docs/LIBRARY.md begins with a first snapshot.
 *
 * A machine (`chorus`) has actors, which are address spaces, and caches, which are numbered pages of bytes. A cache is
 * mapped into an actor as a region, and read and written there. A copy of pages costs little, whatever its size: a page is
 * copied only when either side changes it. Pages that don't fit into the page frames go to swap slots in memory.
 *
 * Numbers of actors, caches and regions count from 1 and are never used again. Pages count from 0. Addresses and lengths
 * are in bytes, sizes of caches and regions in pages.
 *
 * Each function answers a number: CHORUS_OK, or why the call wasn't carried out. Then the machine is as it was (its bytes,
 * regions and copies), and nothing is written through a pointer. No function prints, waits, ends the process, starts a
 * thread or keeps anything outside the machine.
 *
 * Who owns what: chorus_open makes a machine, and whoever opened it closes it. Pointers to numbers, bytes and structs are the
 * caller's, and are used in the call alone. A machine is in one call at a time; two machines may be in calls of two
 * threads. No call is made in a signal handler, nor in the child of a fork of a process with threads.
 *
 * Not checked by anything: that a machine is one that chorus_open gave and that wasn't closed, that buffers are as long as
 * they are said to be, and that no other pointer leads to them. malloc, realloc and free of the program are used.
 */
#ifndef CHORUS_H
#define CHORUS_H

#include <stddef.h>
#include <stdint.h>
#include <stdlib.h>
#include <string.h>

#ifdef __cplusplus
extern "C" {
#endif

typedef struct chorus chorus;

enum {
    CHORUS_OK = 0,
    CHORUS_NO_ACTOR = 2,      /* no living actor has this number */
    CHORUS_NO_CACHE = 3,      /* no live cache has this number */
    CHORUS_NO_REGION = 4,     /* no region of a living actor has this number */
    CHORUS_OUT_OF_CACHE = 7,  /* the pages pass the end of their cache */
    CHORUS_BAD_ADDRESS = 8,   /* no region of the actor holds the address, or the addresses pass 2^48 */
    CHORUS_PROTECTION = 9,    /* the region isn't for writing */
    CHORUS_OVERLAP = 10,      /* the ranges share a page or an address */
    CHORUS_UNALIGNED = 11,    /* the address isn't a multiple of the page size */
    CHORUS_CROSSES = 12,      /* the access crosses the end of a page */
    CHORUS_LOCKED = 14,       /* a locked region covers the page, or the region is locked */
    CHORUS_LOCK_LIMIT = 15,   /* fewer than three frames would be left that no locked page takes */
    CHORUS_IN_USE = 16,       /* a region maps the cache */
    CHORUS_TOO_MANY = 17,     /* 256 living actors, 65,535 actors, caches or regions made, or 4,194,304 live pages */
    CHORUS_NOT_LOCKED = 20,   /* the region isn't locked */
    CHORUS_FAULT_SAVE = 103,  /* no swap slot was left for a page, at various places of a call */
    CHORUS_FAULT_PAGE = 104,
    CHORUS_FAULT_VICTIM = 105,
    CHORUS_NO_MEMORY = 200,   /* malloc gave none */
    CHORUS_BAD_ARGUMENT = 300, /* a count of 0, a size out of range */
    CHORUS_WORN_OUT = 301     /* the machine has made all the calls that one may: some 3 * 10^10 that aren't loads or
                                 stores, or 2 * 10^17 of these */
};

/* What a call asks and what it is told; the functions below fill it in. All of it is written before a call. */
typedef struct {
    uint64_t address, copies;
    uint32_t call, actor, cache, page, pages, to_cache, to_page, region, write, locked, length, live, working;
    uint8_t bytes[64];
} chorus_exchange;

enum {
    CHORUS_CALL_ACTOR, CHORUS_CALL_EXIT, CHORUS_CALL_TEMP, CHORUS_CALL_DESTROY, CHORUS_CALL_COPY, CHORUS_CALL_MOVE,
    CHORUS_CALL_MAP, CHORUS_CALL_SPLIT, CHORUS_CALL_PROTECT, CHORUS_CALL_LOCK, CHORUS_CALL_UNLOCK, CHORUS_CALL_UNMAP,
    CHORUS_CALL_FIND, CHORUS_CALL_STATUS, CHORUS_CALL_LOAD, CHORUS_CALL_STORE, CHORUS_CALL_PAGE_OUT, CHORUS_CALL_STAT,
    CHORUS_CALL_CLOSE
};

/* The three functions of the library itself, over which those below are written. */

/* How many bytes a machine takes where it lies, at an address that 16 divides; what it holds is beside that. */
size_t chorus_size(void);
/* Begins a machine in room of so many bytes: of 3 to 65,536 page frames, with pages of 1 to 65,536 bytes and so many swap
 * slots, each of a page. It is closed where it couldn't be opened, and each call of it tells why: CHORUS_BAD_ARGUMENT,
 * CHORUS_NO_MEMORY. */
void chorus_begin(void *at, uint32_t frames, uint32_t page, uint32_t swap);
/* Carries out what an exchange asks for. A closed machine answers CHORUS_BAD_ARGUMENT, or why it couldn't be opened. */
uint32_t chorus_call(chorus *machine, chorus_exchange *exchange);

/* The version of this header and of the library that belongs to it. */
static inline uint32_t chorus_version(void) { return 1; }

/* Opens a machine of 3 to 65,536 page frames, with pages of 1 to 65,536 bytes and so many swap slots, each of a page. All
 * this memory is taken now, and little more later. CHORUS_BAD_ARGUMENT, CHORUS_NO_MEMORY. */
static inline uint32_t chorus_open(uint32_t frames, uint32_t page, uint32_t swap, chorus **out) {
    chorus *machine = (chorus *)malloc(chorus_size());
    chorus_exchange e = {.call = CHORUS_CALL_STAT};
    uint32_t number;
    if (!machine) return CHORUS_NO_MEMORY;
    chorus_begin(machine, frames, page, swap);
    number = chorus_call(machine, &e);
    if (number == CHORUS_OK) *out = machine;
    else free(machine);
    return number;
}

/* Closes it: its memory is given back, and the pointer is none to a machine any more. Always CHORUS_OK. */
static inline uint32_t chorus_close(chorus *machine) {
    chorus_exchange e = {.call = CHORUS_CALL_CLOSE};
    uint32_t number = chorus_call(machine, &e);
    free(machine);
    return number;
}

/* Makes an actor without regions. CHORUS_TOO_MANY, CHORUS_NO_MEMORY. */
static inline uint32_t chorus_actor(chorus *machine, uint32_t *actor) {
    chorus_exchange e = {.call = CHORUS_CALL_ACTOR};
    uint32_t number = chorus_call(machine, &e);
    if (number == CHORUS_OK) *actor = e.actor;
    return number;
}

/* Ends an actor and takes its regions away; the caches stay. CHORUS_NO_ACTOR. */
static inline uint32_t chorus_exit(chorus *machine, uint32_t actor) {
    chorus_exchange e = {.call = CHORUS_CALL_EXIT, .actor = actor};
    return chorus_call(machine, &e);
}

/* Makes a cache of so many pages, all zeros. CHORUS_BAD_ARGUMENT, CHORUS_TOO_MANY, CHORUS_NO_MEMORY. */
static inline uint32_t chorus_temp(chorus *machine, uint32_t pages, uint32_t *cache) {
    chorus_exchange e = {.call = CHORUS_CALL_TEMP, .pages = pages};
    uint32_t number = chorus_call(machine, &e);
    if (number == CHORUS_OK) *cache = e.cache;
    return number;
}

/* Takes a cache away; copies of it stay. CHORUS_NO_CACHE, CHORUS_IN_USE. */
static inline uint32_t chorus_destroy(chorus *machine, uint32_t cache) {
    chorus_exchange e = {.call = CHORUS_CALL_DESTROY, .cache = cache};
    return chorus_call(machine, &e);
}

/* `pages` pages of `to`, from `to_page` on, become what those of `from` hold, from `from_page` on: all in one step.
 * CHORUS_BAD_ARGUMENT, CHORUS_NO_CACHE, CHORUS_OUT_OF_CACHE, CHORUS_OVERLAP, CHORUS_LOCKED, CHORUS_NO_MEMORY. */
static inline uint32_t chorus_copy(chorus *machine, uint32_t from, uint32_t from_page, uint32_t to, uint32_t to_page,
                                   uint32_t pages) {
    chorus_exchange e = {.call = CHORUS_CALL_COPY, .cache = from, .page = from_page, .pages = pages,
                         .to_cache = to, .to_page = to_page};
    return chorus_call(machine, &e);
}

/* The same, and the pages of `from` become zeros. As chorus_copy. */
static inline uint32_t chorus_move(chorus *machine, uint32_t from, uint32_t from_page, uint32_t to, uint32_t to_page,
                                   uint32_t pages) {
    chorus_exchange e = {.call = CHORUS_CALL_MOVE, .cache = from, .page = from_page, .pages = pages,
                         .to_cache = to, .to_page = to_page};
    return chorus_call(machine, &e);
}

/* Maps `pages` pages of a cache, from page `first` on, into an actor at an address, for reading, and for writing too where
 * `write` isn't 0. CHORUS_BAD_ARGUMENT, CHORUS_NO_ACTOR, CHORUS_NO_CACHE, CHORUS_UNALIGNED, CHORUS_BAD_ADDRESS,
 * CHORUS_OUT_OF_CACHE, CHORUS_OVERLAP, CHORUS_TOO_MANY, CHORUS_NO_MEMORY. */
static inline uint32_t chorus_map(chorus *machine, uint32_t actor, uint32_t cache, uint32_t first, uint32_t pages,
                                  uint64_t address, uint32_t write, uint32_t *region) {
    chorus_exchange e = {.address = address, .call = CHORUS_CALL_MAP, .actor = actor, .cache = cache, .page = first,
                         .pages = pages, .write = write};
    uint32_t number = chorus_call(machine, &e);
    if (number == CHORUS_OK) *region = e.region;
    return number;
}

/* Cuts a region in two: it keeps its first pages, so many, and a new one has the others. CHORUS_BAD_ARGUMENT,
 * CHORUS_NO_REGION, CHORUS_BAD_ADDRESS, CHORUS_TOO_MANY, CHORUS_NO_MEMORY. */
static inline uint32_t chorus_split(chorus *machine, uint32_t region, uint32_t pages, uint32_t *other) {
    chorus_exchange e = {.call = CHORUS_CALL_SPLIT, .pages = pages, .region = region};
    uint32_t number = chorus_call(machine, &e);
    if (number == CHORUS_OK) *other = e.region;
    return number;
}

/* Lets a region be written, or not where `write` is 0. CHORUS_NO_REGION. */
static inline uint32_t chorus_protect(chorus *machine, uint32_t region, uint32_t write) {
    chorus_exchange e = {.call = CHORUS_CALL_PROTECT, .region = region, .write = write};
    return chorus_call(machine, &e);
}

/* Brings each page of a region into a page frame, as its cache's own, and holds it there. CHORUS_NO_REGION, CHORUS_LOCKED,
 * CHORUS_LOCK_LIMIT, CHORUS_FAULT_PAGE. */
static inline uint32_t chorus_lock(chorus *machine, uint32_t region) {
    chorus_exchange e = {.call = CHORUS_CALL_LOCK, .region = region};
    return chorus_call(machine, &e);
}

/* Lets the pages of a locked region go again. CHORUS_NO_REGION, CHORUS_NOT_LOCKED. */
static inline uint32_t chorus_unlock(chorus *machine, uint32_t region) {
    chorus_exchange e = {.call = CHORUS_CALL_UNLOCK, .region = region};
    return chorus_call(machine, &e);
}

/* Takes a region away; the cache stays. CHORUS_NO_REGION, CHORUS_LOCKED. */
static inline uint32_t chorus_unmap(chorus *machine, uint32_t region) {
    chorus_exchange e = {.call = CHORUS_CALL_UNMAP, .region = region};
    return chorus_call(machine, &e);
}

/* Tells which region of an actor holds an address. CHORUS_NO_ACTOR, CHORUS_BAD_ADDRESS. */
static inline uint32_t chorus_find(chorus *machine, uint32_t actor, uint64_t address, uint32_t *region) {
    chorus_exchange e = {.address = address, .call = CHORUS_CALL_FIND, .actor = actor};
    uint32_t number = chorus_call(machine, &e);
    if (number == CHORUS_OK) *region = e.region;
    return number;
}

/* What a region is: `pages` pages of a cache, from page `first` on, at an address of an actor; and whether it is for
 * writing and locked, 1 or 0 each. */
typedef struct {
    uint32_t actor, cache, first, pages;
    uint64_t address;
    uint32_t write, locked;
} chorus_region;

/* CHORUS_NO_REGION. */
static inline uint32_t chorus_status(chorus *machine, uint32_t region, chorus_region *out) {
    chorus_exchange e = {.call = CHORUS_CALL_STATUS, .region = region};
    uint32_t number = chorus_call(machine, &e);
    if (number == CHORUS_OK) {
        chorus_region r = {e.actor, e.cache, e.page, e.pages, e.address, e.write, e.locked};
        *out = r;
    }
    return number;
}

/* Loads `n` bytes at an address of an actor, 1 to 64 of one page. CHORUS_BAD_ARGUMENT, CHORUS_NO_ACTOR, CHORUS_CROSSES,
 * CHORUS_BAD_ADDRESS, CHORUS_FAULT_PAGE, CHORUS_FAULT_VICTIM. */
static inline uint32_t chorus_load(chorus *machine, uint32_t actor, uint64_t address, void *into, size_t n) {
    chorus_exchange e = {.address = address, .call = CHORUS_CALL_LOAD, .actor = actor,
                         .length = n > 64 ? 65 : (uint32_t)n};
    uint32_t number = chorus_call(machine, &e);
    if (number == CHORUS_OK) memcpy(into, e.bytes, n);
    return number;
}

/* Stores `n` bytes, 1 to 64 of one page. As chorus_load, and CHORUS_PROTECTION. */
static inline uint32_t chorus_store(chorus *machine, uint32_t actor, uint64_t address, const void *bytes, size_t n) {
    chorus_exchange e = {.address = address, .call = CHORUS_CALL_STORE, .actor = actor,
                         .length = n > 64 ? 65 : (uint32_t)n};
    if (n <= 64) memcpy(e.bytes, bytes, n);
    return chorus_call(machine, &e);
}

/* Evicts so many page frames, or as many as can be; it changes nothing that can be read. CHORUS_BAD_ARGUMENT,
 * CHORUS_FAULT_VICTIM. */
static inline uint32_t chorus_page_out(chorus *machine, uint32_t frames) {
    chorus_exchange e = {.call = CHORUS_CALL_PAGE_OUT, .pages = frames};
    return chorus_call(machine, &e);
}

/* The pages of all caches, the page nodes kept for copies beside them, and how many pages were copied. */
typedef struct {
    uint32_t live, working;
    uint64_t copies;
} chorus_counts;

/* CHORUS_OK, or CHORUS_WORN_OUT. */
static inline uint32_t chorus_stat(chorus *machine, chorus_counts *out) {
    chorus_exchange e = {.call = CHORUS_CALL_STAT};
    uint32_t number = chorus_call(machine, &e);
    if (number == CHORUS_OK) {
        chorus_counts c = {e.live, e.working, e.copies};
        *out = c;
    }
    return number;
}

/* Longer reads and writes, in a machine with pages of `page` bytes. These are several loads and stores, one behind the
 * other, and not one step: where one isn't carried out, those before it are, and what they read is in `into`. */
static inline size_t chorus_part(uint32_t page, uint64_t address, size_t n) {
    size_t part = page - (size_t)(address % page);
    if (part > 64) part = 64;
    return part < n ? part : n;
}

static inline uint32_t chorus_read(chorus *machine, uint32_t page, uint32_t actor, uint64_t address, void *into,
                                   size_t n) {
    uint8_t *to = (uint8_t *)into;
    while (n > 0) {
        size_t part = chorus_part(page, address, n);
        uint32_t number = chorus_load(machine, actor, address, to, part);
        if (number != CHORUS_OK) return number;
        to += part, address += part, n -= part;
    }
    return CHORUS_OK;
}

static inline uint32_t chorus_write(chorus *machine, uint32_t page, uint32_t actor, uint64_t address, const void *bytes,
                                    size_t n) {
    const uint8_t *from = (const uint8_t *)bytes;
    while (n > 0) {
        size_t part = chorus_part(page, address, n);
        uint32_t number = chorus_store(machine, actor, address, from, part);
        if (number != CHORUS_OK) return number;
        from += part, address += part, n -= part;
    }
    return CHORUS_OK;
}

#ifdef __cplusplus
}
#endif
#endif
