/* Shared by the tests and the bench: sheets from plans, buffers with fences, and one line for each test. */
#ifndef COMMON_H
#define COMMON_H

#ifndef _GNU_SOURCE
#define _GNU_SOURCE /* anonymous memory, stacks of threads */
#endif
#include <stdio.h>
#include <stdlib.h>
#include <string.h>
#include <sys/mman.h>
#include <unistd.h>

#include "drive.h"

/* The signature of drive_bounds, which drive_speed has too, for what is called in their place. */
typedef uint32_t bounds_fn(const uint8_t *, size_t, uint32_t, uint32_t, uint8_t *, size_t, uint8_t *, size_t);
/* That of drive_set. */
typedef uint32_t set_fn(const uint8_t *, size_t, const uint8_t *, size_t, uint32_t, uint8_t *, size_t, uint8_t *, size_t, uint8_t *,
                        size_t);

enum { SHEET_ROOM = 300 };

/* The list buffer that versions before 5.0.0 needed: it still serves, and what stands behind DRIVE_LIST_BYTES stays. */
enum { OLD_LIST_BYTES = 16384 };

/* Twice 64 bits, for products that must be exact. */
__extension__ typedef unsigned __int128 wide;

/* Whether the belief is at least so many thousandths of the total. */
static inline int meets(struct drive_answer a, uint32_t target) { return (wide)1000 * a.belief >= (wide)target * a.total; }

/* What a sheet says, as values. Places of a component and entries that are not used stay out of the sheet. */
struct focal {
    unsigned low, high, weight;
};
struct component {
    unsigned total, count;
    struct focal focal[DRIVE_MODULE_INTERVALS_MAX];
};
struct plan {
    unsigned components;
    struct component component[DRIVE_MODULES_MAX];
    uint16_t entry[DRIVE_ENTRIES_MAX];
};
struct sheet {
    size_t length;
    uint8_t bytes[SHEET_ROOM];
};

/* Appends a field to a sheet that is zero from bit `at` on. */
static inline void put_field(struct sheet *s, size_t *at, unsigned width, unsigned value) {
    for (unsigned i = width; i-- > 0; ++*at) s->bytes[*at / 8] |= (uint8_t)((value >> i & 1) << (7 - *at % 8));
}

/* The sheet of a plan, whether its values obey the rules or not. */
static inline struct sheet make_sheet(const struct plan *p) {
    struct sheet s;
    size_t at = 16;
    memset(&s, 0, sizeof s);
    for (unsigned i = 0; i < p->components; i++) {
        const struct component *c = &p->component[i];
        put_field(&s, &at, 4, c->count);
        put_field(&s, &at, 2, 0);
        put_field(&s, &at, 10, c->total);
        for (unsigned j = 0; j < c->count; j++) {
            put_field(&s, &at, 12, c->focal[j].low);
            put_field(&s, &at, 12, c->focal[j].high);
            put_field(&s, &at, 10, c->focal[j].weight);
        }
        at = (at + 7) / 8 * 8;
    }
    for (unsigned i = 0; i + 1 < 2 * p->components; i++) put_field(&s, &at, 4, p->entry[i]);
    s.length = (at + 7) / 8;
    s.bytes[0] = (uint8_t)(0x10 | p->components);
    s.bytes[1] = (uint8_t)s.length;
    return s;
}

/* The bytes of a plan, whether its values obey the rules or not: every place is filled. */
static inline void put_plan(const struct plan *p, uint8_t *bytes) {
    unsigned number[DRIVE_PLAN_BYTES / 2], at = 0;
    number[at++] = p->components;
    for (unsigned i = 0; i < DRIVE_MODULES_MAX; i++) {
        const struct component *c = &p->component[i];
        number[at++] = c->count;
        number[at++] = c->total;
        for (unsigned j = 0; j < DRIVE_MODULE_INTERVALS_MAX; j++) number[at++] = c->focal[j].low;
        for (unsigned j = 0; j < DRIVE_MODULE_INTERVALS_MAX; j++) number[at++] = c->focal[j].high;
        for (unsigned j = 0; j < DRIVE_MODULE_INTERVALS_MAX; j++) number[at++] = c->focal[j].weight;
    }
    for (unsigned i = 0; i < DRIVE_ENTRIES_MAX; i++) number[at++] = p->entry[i];
    for (unsigned i = 0; i < at; i++) {
        bytes[2 * i] = (uint8_t)(number[i] / 256);
        bytes[2 * i + 1] = (uint8_t)(number[i] % 256);
    }
}

/* `count` single speeds, step apart from 0 on, weight 1 each. */
static inline struct component speeds(unsigned count, unsigned step) {
    struct component c;
    memset(&c, 0, sizeof c);
    c.total = c.count = count;
    for (unsigned j = 0; j < count; j++) {
        c.focal[j].low = c.focal[j].high = j * step;
        c.focal[j].weight = 1;
    }
    return c;
}

/* Eight single speeds, step apart from `first` on, weight 1 each, and a rest of 1: its list has nine intervals. */
static inline struct component nine(unsigned first, unsigned step) {
    struct component c = speeds(8, step);
    c.total = 9;
    for (unsigned j = 0; j < 8; j++) c.focal[j].low = c.focal[j].high = first + j * step;
    return c;
}

/* The plan with these components and this structure. */
static inline struct plan make_plan(unsigned components, const struct component *component, const uint16_t *entry) {
    struct plan p;
    memset(&p, 0, sizeof p);
    p.components = components;
    memcpy(p.component, component, components * sizeof *component);
    memcpy(p.entry, entry, (2 * components - 1) * sizeof *entry);
    return p;
}

/* Two components of the bench table and the two of its example W. */
static const struct component A = {4, 2, {{0, 0, 1}, {2, 3, 3}}};
static const struct component B = {3, 2, {{1, 1, 2}, {1, 4, 1}}};
static const struct component W0 = {100, 3, {{0, 4, 20}, {3, 8, 67}, {7, 10, 13}}};
static const struct component W1 = {100, 2, {{0, 6, 67}, {8, 10, 33}}};

/* Two components and a join. */
static inline struct plan two(struct component x, struct component y, unsigned join) {
    struct component c[2];
    uint16_t entry[3] = {0, 1, (uint16_t)join};
    c[0] = x;
    c[1] = y;
    return make_plan(2, c, entry);
}

/* The greatest speed of a list. */
static inline uint32_t greatest_high(const uint8_t *list, uint64_t intervals) {
    uint32_t greatest = 0;
    for (size_t i = 0; i < intervals; i++) {
        uint32_t high = drive_read_interval(list, i).high;
        if (high > greatest) greatest = high;
    }
    return greatest;
}

/* Whether a list stands in descending order of low, then of high, no interval twice. */
static inline int descends(const uint8_t *list, uint64_t intervals) {
    for (size_t i = 1; i < intervals && i < DRIVE_LIST_INTERVALS_MAX; i++) {
        struct drive_interval before = drive_read_interval(list, i - 1), r = drive_read_interval(list, i);
        if (r.low > before.low || (r.low == before.low && r.high >= before.high)) return 0;
    }
    return intervals <= DRIVE_LIST_INTERVALS_MAX;
}

/* The bench table's D1, D2 and the first `third` speeds of D3: third times 64 speeds, evenly spaced. */
static inline struct plan three(unsigned third) {
    static const uint16_t entry[5] = {0, 1, DRIVE_ED1_SHARED, 2, DRIVE_ED1_SHARED};
    struct component c[3];
    c[0] = speeds(8, 1);
    c[1] = speeds(8, 8);
    c[2] = speeds(third, 64);
    return make_plan(3, c, entry);
}

/* Two groups of three modules, each group as above, then joined. */
static inline struct plan two_groups(unsigned third, unsigned join) {
    struct plan p = three(third);
    static const uint16_t entry[10] = {0, 1, DRIVE_ED1_SHARED, 2, DRIVE_ED1_SHARED, 3, 4, DRIVE_ED1_SHARED, 5, DRIVE_ED1_SHARED};
    p.components = 6;
    memcpy(&p.component[3], &p.component[0], 3 * sizeof p.component[0]);
    memcpy(p.entry, entry, sizeof entry);
    p.entry[10] = (uint16_t)join;
    return p;
}

/* The most pairs that a sheet without a rest can form: both groups have 64 and 512 pairs for their 256 speeds, and the last join
 * 65,536. */
static inline struct plan widest(void) {
    struct plan p = two_groups(1, DRIVE_ED1_SERIES);
    p.component[2] = speeds(8, 27);
    p.component[2].focal[7].low = p.component[2].focal[7].high = 192;
    p.component[5] = p.component[2];
    return p;
}

/* The most pairs that a sheet can form: both groups have 81 and 729 pairs for their 256 intervals, and the last join 65,536. That has
 * 256 again: the second group is never slower than the first, but where all its modules are in their rests, and all its highs are the
 * greatest speed. */
static inline struct plan most_pairs(void) {
    static const uint16_t entry[DRIVE_ENTRIES_MAX] = {
        0, 1, DRIVE_ED1_SHARED, 2, DRIVE_ED1_SERIES, 3, 4, DRIVE_ED1_SHARED, 5, DRIVE_ED1_SHARED, DRIVE_ED1_SERIES,
    };
    struct component c[DRIVE_MODULES_MAX];
    c[0] = nine(1, 1);
    c[1] = nine(9, 8);
    c[2] = nine(49, 3);
    c[3] = nine(1000, 1);
    c[4] = nine(1008, 8);
    c[5] = nine(1004, 10);
    for (unsigned i = 2; i < DRIVE_MODULES_MAX; i++)
        for (unsigned j = 0; j < 8; j++) c[i].focal[j].high = i == 2 ? 1000 : DRIVE_SPEED_MAX;
    return make_plan(DRIVE_MODULES_MAX, c, entry);
}

/* Memory that ends (or begins) at a page that can not be touched, so that one byte too far stops the test. */
struct fence {
    uint8_t *pages;
    size_t page, size;
};

static inline struct fence make_fence(size_t size) {
    struct fence f;
    f.page = (size_t)sysconf(_SC_PAGESIZE);
    f.size = (size + f.page - 1) / f.page * f.page;
    f.pages = (uint8_t *)mmap(NULL, f.size + 2 * f.page, PROT_NONE, MAP_PRIVATE | MAP_ANONYMOUS, -1, 0);
    if (f.pages == MAP_FAILED || mprotect(f.pages + f.page, f.size, PROT_READ | PROT_WRITE) != 0) {
        perror("a fenced buffer");
        exit(2);
    }
    return f;
}

static inline uint8_t *from_start(struct fence f) { return f.pages + f.page; }
static inline uint8_t *up_to_end(struct fence f, size_t length) { return f.pages + f.page + f.size - length; }

/* Bytes that tell their places, for what must stay unchanged. No buffer is longer. */
enum { MARKS = 1 << 15 };
static inline const uint8_t *marks(void) {
    static uint8_t bytes[MARKS];
    if (bytes[0] == 0)
        for (size_t i = 0; i < MARKS; i++) bytes[i] = (uint8_t)(i * 37 + i / 256 + 11);
    return bytes;
}

static inline void fill_marks(uint8_t *bytes, size_t length) { memcpy(bytes, marks(), length); }

static inline int holds_marks(const uint8_t *bytes, size_t from, size_t to) {
    return from <= to && memcmp(bytes + from, marks() + from, to - from) == 0;
}

/* The first byte is zero, and each equals the next. */
static inline int holds_zeros(const uint8_t *bytes, size_t from, size_t to) {
    return from == to || (from < to && bytes[from] == 0 && memcmp(bytes + from, bytes + from + 1, to - from - 1) == 0);
}

/* One line for each test: 'ok NAME', or what went wrong, the first times. */
#ifdef __cplusplus
#define LANGUAGE "C++"
#else
#define LANGUAGE "C"
#endif
static int failures, failures_before;

#define EXPECT(condition, ...) \
    do { \
        if (!(condition) && ++failures <= failures_before + 10) { \
            printf("FAILED at %s:%d: ", __FILE__, __LINE__); \
            printf(__VA_ARGS__); \
            printf("\n"); \
        } \
    } while (0)

static inline void finish(const char *name) {
    if (failures == failures_before)
        printf("ok " LANGUAGE ": %s\n", name);
    else
        printf("FAILED " LANGUAGE ": %s: %d times\n", name, failures - failures_before);
    failures_before = failures;
    fflush(stdout);
}

/* A fixed sequence of numbers. */
static uint64_t random_state = 88172645463325252u;

static inline unsigned random_below(unsigned limit) {
    random_state ^= random_state << 13;
    random_state ^= random_state >> 7;
    random_state ^= random_state << 17;
    return (unsigned)((random_state >> 32) % limit);
}

#endif
