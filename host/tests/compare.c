/* drive_bounds, drive_set and drive_speed against the same jobs in plain C, and drive_bounds against the program "bounds", on random
 * sheets, valid and damaged.
 * compare BOUNDS FILE: the program, and a file to put its input in. */
#include "common.h"

#include "../bench/plain.h"

enum {
    SHEETS = 30000,
    PROGRAM_EVERY = 100,
    LIST_ROOM = DRIVE_LIST_BYTES + 16,
    TEXT_ROOM = 16384, /* what the program writes: a line, and one for each of 256 intervals */
    ANSWER_ROOM = DRIVE_SPEED_ANSWER_BYTES + 16,
    DEMANDS_ROOM = (DRIVE_DEMANDS_MAX + 1) * DRIVE_DEMAND_BYTES,
    SHARES_ROOM = (DRIVE_DEMANDS_MAX + 1) * DRIVE_SHARES_BYTES
};

static unsigned between(unsigned from, unsigned to) { return from + random_below(to - from + 1); }

static int after(struct focal x, struct focal y) { return x.low > y.low || (x.low == y.low && x.high > y.high); }

/* Different intervals of speeds up to `fastest`, in ascending order, sometimes with the one that a rest is on. The weights add to the total or,
 * where there may be rests, often to less. */
static struct component random_component(unsigned fastest, int rests) {
    struct component c;
    unsigned wanted = between(1, DRIVE_MODULE_INTERVALS_MAX), left;
    memset(&c, 0, sizeof c);
    for (unsigned i = 0; i < wanted; i++) {
        struct focal f;
        unsigned at = c.count;
        f.low = random_below(fastest + 1);
        f.high = random_below(3) == 0 ? f.low : between(f.low, fastest);
        f.weight = 1;
        if (i == 0 && random_below(4) == 0) f.low = 0, f.high = DRIVE_SPEED_MAX;
        while (at > 0 && after(c.focal[at - 1], f)) at--;
        if (at > 0 && !after(f, c.focal[at - 1])) continue;
        memmove(&c.focal[at + 1], &c.focal[at], (c.count - at) * sizeof f);
        c.focal[at] = f;
        c.count++;
    }
    c.total = random_below(4) == 0 ? 1000 : between(c.count, random_below(2) == 0 ? 20 : 1000);
    left = c.total - c.count;
    if (rests && random_below(3) != 0) left = random_below(left + 1);
    while (left > 0) {
        unsigned part = between(1, left);
        c.focal[random_below(c.count)].weight += part;
        left -= part;
    }
    return c;
}

/* A valid plan: the components in any order, each join at any place where two lists stand. Every second one may have rests. */
static struct plan random_plan(void) {
    static const unsigned fastest[] = {3, 20, 300, 4095};
    struct plan p;
    unsigned left, depth = 0, limit = fastest[random_below(4)], order[DRIVE_MODULES_MAX];
    int rests = random_below(2) == 0;
    memset(&p, 0, sizeof p);
    p.components = left = between(1, DRIVE_MODULES_MAX);
    for (unsigned i = 0; i < p.components; i++) {
        unsigned j = random_below(i + 1);
        order[i] = order[j];
        order[j] = i;
        p.component[i] = random_component(limit, rests);
    }
    for (unsigned i = 0; i + 1 < 2 * p.components; i++) {
        if (left > 0 && (depth < 2 || random_below(2) == 0)) {
            p.entry[i] = (uint16_t)order[--left];
            depth++;
        } else {
            p.entry[i] = (uint16_t)between(DRIVE_ED1_SERIES, DRIVE_ED1_SPARE);
            depth--;
        }
    }
    return p;
}

/* Breaks one of the rules 6 to 11, or none. */
static void damage_plan(struct plan *p) {
    struct component *c = &p->component[random_below(p->components)];
    struct focal *f = &c->focal[random_below(c->count)], swap;
    unsigned entries = 2 * p->components - 1, x = random_below(entries), y = random_below(entries);
    uint16_t entry = p->entry[x];
    switch (random_below(11)) {
    case 0: c->total = random_below(2) == 0 ? 0 : between(1001, 1023); break;
    case 1: f->weight = 0; break;
    case 2: f->weight = random_below(1024); break;
    case 3: f->low = random_below(4096); break;
    case 4: f->high = random_below(4096); break;
    case 5: swap = c->focal[0], c->focal[0] = *f, *f = swap; break;
    case 6: c->total = between(1, 1000); break;
    case 7: p->entry[x] = (uint16_t)random_below(16); break;
    case 8: p->entry[x] = p->entry[y], p->entry[y] = entry; break;
    case 9: /* one below the sum of the weights, at it or one above */
        c->total = random_below(3);
        for (unsigned i = 0; i < c->count; i++) c->total += c->focal[i].weight;
        c->total--;
        break;
    default: p->entry[x] = p->entry[y]; break;
    }
}

/* Changes bits, bytes or the length. */
static void damage_sheet(struct sheet *s) {
    switch (random_below(7)) {
    case 0: s->bytes[random_below((unsigned)s->length)] = (uint8_t)random_below(256); break;
    case 1: s->bytes[0] = (uint8_t)random_below(256); break;
    case 2: s->bytes[1] = (uint8_t)random_below(256); break;
    case 3: s->length = random_below(SHEET_ROOM); break;
    case 4: s->length = random_below(256), s->bytes[1] = (uint8_t)s->length; break;
    case 5: s->length += between(1, 9), s->bytes[1] = (uint8_t)s->length; break;
    default: s->bytes[random_below((unsigned)s->length)] ^= (uint8_t)(1u << random_below(8)); break;
    }
}

/* What is asked: a demand or a target, or the demands of drive_set. */
struct question {
    uint32_t asked;
    const uint8_t *demands;
    size_t demands_length;
};

/* The lengths of the other buffers. */
struct lengths {
    size_t list, shares, answer;
};

/* A call or plain C, drive_set's or another, with its own buffers behind which nothing can be touched. */
struct side {
    bounds_fn *call;
    set_fn *set;
    struct fence list_pages, shares_pages, answer_pages;
    uint8_t *list, *shares, *answer;
    uint32_t number;
};

static struct side make_side(bounds_fn *call, set_fn *set) {
    struct side side = {call, set, make_fence(OLD_LIST_BYTES), make_fence(SHARES_ROOM), make_fence(ANSWER_ROOM), NULL, NULL, NULL, 0};
    return side;
}

static void run_side(struct side *side, const uint8_t *sheet, size_t length, struct question q, uint32_t allowance,
                     struct lengths n) {
    side->list = up_to_end(side->list_pages, n.list);
    side->shares = up_to_end(side->shares_pages, n.shares);
    side->answer = up_to_end(side->answer_pages, n.answer);
    fill_marks(side->list, n.list);
    fill_marks(side->shares, n.shares);
    fill_marks(side->answer, n.answer);
    if (side->set != NULL)
        side->number = side->set(sheet, length, q.demands, q.demands_length, allowance, side->list, n.list, side->shares, n.shares,
                                 side->answer, n.answer);
    else
        side->number = side->call(sheet, length, q.asked, allowance, side->list, n.list, side->answer, n.answer);
}

/* A call and plain C, the bytes of the answer, the numbers that it has beside 0 to 14, or 0; on how many sheets so far, and how often
 * each number was met. */
struct both {
    const char *name;
    size_t answer_bytes;
    uint32_t first, last;
    struct side drive, plain;
    unsigned sheets, met[DRIVE_NUMBER_COUNT];
};

/* From one byte fewer than a buffer needs up to the room, or any number below the room. */
static size_t random_length(size_t needed, size_t room) {
    if (random_below(4) == 0) return random_below((unsigned)room);
    return between(needed > 0 ? (unsigned)needed - 1 : 0, (unsigned)room);
}

/* Both on a sheet: the same number, and the same bytes in every place. Buffers have exactly the bytes they need, or any number. */
static void run_both(struct both *b, int exact, const uint8_t *sheet, size_t length, struct question q, uint32_t allowance) {
    struct lengths n = {DRIVE_LIST_BYTES, q.demands_length / DRIVE_DEMAND_BYTES * DRIVE_SHARES_BYTES, b->answer_bytes};
    if (!exact) {
        n.list = random_below(4) == 0 ? (size_t)OLD_LIST_BYTES : random_length(n.list, LIST_ROOM);
        n.shares = random_length(n.shares, SHARES_ROOM);
        n.answer = random_length(n.answer, ANSWER_ROOM);
    }
    run_side(&b->drive, sheet, length, q, allowance, n);
    run_side(&b->plain, sheet, length, q, allowance, n);
    EXPECT(b->drive.number == b->plain.number && memcmp(b->drive.list, b->plain.list, n.list) == 0 &&
               memcmp(b->drive.shares, b->plain.shares, n.shares) == 0 && memcmp(b->drive.answer, b->plain.answer, n.answer) == 0,
           "%s, sheet %u, asked %u or %zu bytes: numbers %u and %u, or other bytes", b->name, b->sheets, q.asked, q.demands_length,
           b->drive.number, b->plain.number);
    if (b->drive.number < DRIVE_NUMBER_COUNT) b->met[b->drive.number]++;
    b->sheets++;
}

/* Each number that a call has must have been met. */
static void print_met(const struct both *b) {
    printf("   %s met", b->name);
    for (uint32_t number = 0; number < DRIVE_NUMBER_COUNT; number++) {
        if (number > DRIVE_E_LIST && (number < b->first || number > b->last)) continue;
        EXPECT(b->met[number] >= 20, "%s: number %u met only %u times", b->name, number, b->met[number]);
        printf(" %u: %u", number, b->met[number]);
    }
    printf("\n");
}

/* The modules with a rest on accepted sheets: all, those that list the rest's interval, and those whose lists have nine. */
struct rests {
    unsigned all, added, nine;
};

static void count_rests(struct rests *r, const uint8_t *sheet, size_t length) {
    uint8_t plan[DRIVE_PLAN_BYTES];
    if (drive_read_sheet(sheet, length, plan, sizeof plan) != 0) return;
    for (unsigned m = 0; m < drive_plan_modules(plan); m++) {
        int listed = 0;
        if (drive_plan_rest(plan, m) == 0) continue;
        for (unsigned i = 0; i < drive_plan_intervals(plan, m); i++) {
            struct drive_interval t = drive_plan_read_interval(plan, m, i);
            listed |= t.low == 0 && t.high == DRIVE_SPEED_MAX;
        }
        r->all++;
        if (listed)
            r->added++;
        else if (drive_plan_intervals(plan, m) == DRIVE_MODULE_INTERVALS_MAX)
            r->nine++;
    }
}

static void print_rests(const struct rests *r) {
    printf("   rests met: %u, %u of them in a listed interval, %u beside eight others\n", r->all, r->added, r->nine);
    EXPECT(r->all >= 1000 && r->added >= 100 && r->nine >= 100, "too few rests");
}

/* The structure on one speed for each module, if shared joins just added. */
static uint32_t just_added(const uint8_t *plan, const uint32_t *speed) {
    uint32_t stack[DRIVE_MODULES_MAX] = {0}, depth = 0;
    for (unsigned i = 0; i + 1 < 2 * drive_plan_modules(plan); i++) {
        uint32_t e = drive_plan_read_entry(plan, i);
        if (e < DRIVE_MODULES_MAX) {
            stack[depth++] = speed[e];
        } else {
            uint32_t y = stack[--depth], x = stack[depth - 1];
            stack[depth - 1] = e == DRIVE_ED1_SHARED ? x + y : (e == DRIVE_ED1_SERIES) == (x < y) ? x : y;
        }
    }
    return stack[0];
}

/* The accepted sheets on which shared joins cut the drive's greatest low, and those on which they cut only its greatest high. */
struct cuts {
    unsigned lows, highs;
};

static void count_cuts(struct cuts *c, const uint8_t *sheet, size_t length) {
    uint8_t plan[DRIVE_PLAN_BYTES];
    uint32_t low[DRIVE_MODULES_MAX] = {0}, high[DRIVE_MODULES_MAX] = {0};
    if (drive_read_sheet(sheet, length, plan, sizeof plan) != 0) return;
    for (unsigned m = 0; m < drive_plan_modules(plan); m++) {
        if (drive_plan_rest(plan, m) > 0) high[m] = DRIVE_SPEED_MAX;
        for (unsigned i = 0; i < drive_plan_intervals(plan, m); i++) {
            struct drive_interval t = drive_plan_read_interval(plan, m, i);
            if (t.low > low[m]) low[m] = t.low;
            if (t.high > high[m]) high[m] = t.high;
        }
    }
    if (just_added(plan, low) > DRIVE_SPEED_MAX)
        c->lows++;
    else if (just_added(plan, high) > DRIVE_SPEED_MAX)
        c->highs++;
}

static void print_cuts(const struct cuts *c) {
    printf("   sheets met with sums above %d: %u of lows, %u only of highs\n", DRIVE_SPEED_MAX, c->lows, c->highs);
    EXPECT(c->lows >= 500 && c->highs >= 500, "too few sums above the greatest speed");
}

/* A target: half of them at the share that an answer has or one above, some out of range. */
static uint32_t random_target(struct drive_answer a) {
    static const uint32_t outside[] = {0, 1001, 1024 + 500, 65536 + 500, UINT32_MAX};
    if (random_below(8) == 0) return outside[random_below(5)];
    if (random_below(2) == 0 || a.total == 0) return between(1, DRIVE_TARGET_MAX);
    return (uint32_t)((wide)1000 * a.belief / a.total) + random_below(2);
}

/* A demand: half of them at an end of an interval of the list or one above, where it has one. */
static uint32_t random_demand(const uint8_t *list, unsigned intervals) {
    if (intervals == 0 || random_below(2) == 0) {
        uint32_t any = random_below(random_below(2) == 0 ? 30 : 5000);
        return random_below(8) != 0 ? any : random_below(2) == 0 ? UINT32_MAX - any : any << 16;
    }
    struct drive_interval r = drive_read_interval(list, random_below(intervals));
    return (random_below(2) == 0 ? r.low : r.high) + random_below(2);
}

/* Demands for drive_set, in no order, some equal, up to the end of their pages: 1 to 16, or any number of bytes. */
static struct question random_demands(struct fence pages, const uint8_t *list, unsigned intervals) {
    uint8_t bytes[DEMANDS_ROOM];
    size_t length = random_below(8) == 0 ? random_below(DEMANDS_ROOM + 1) : between(1, DRIVE_DEMANDS_MAX) * DRIVE_DEMAND_BYTES;
    uint32_t one = random_demand(list, intervals);
    for (size_t i = 0; i < DEMANDS_ROOM / DRIVE_DEMAND_BYTES; i++)
        drive_put_demand(bytes, i, random_below(8) == 0 ? one : random_demand(list, intervals));
    struct question q = {0, up_to_end(pages, length), length};
    memcpy(up_to_end(pages, length), bytes, length);
    return q;
}

static void put32(FILE *f, uint32_t value) {
    for (unsigned shift = 32; shift > 0; shift -= 8) fputc((int)(value >> (shift - 8) & 255), f);
}

/* What the program writes on the input in a file. */
static size_t run_program(const char *program, const char *file, char *out, size_t room) {
    char command[1024];
    snprintf(command, sizeof command, "'%s' <'%s'", program, file);
    FILE *pipe = popen(command, "r");
    size_t got = pipe == NULL ? 0 : fread(out, 1, room - 1, pipe);
    out[got] = 0;
    if (pipe == NULL || pclose(pipe) != 0) EXPECT(0, "the program did not end with status 0");
    return got;
}

/* What the program has to write, from the buffers of a call with both buffers long enough. */
static void program_text(const struct side *side, char *out, size_t room) {
    struct drive_answer a = drive_read_answer(side->answer);
    int used = snprintf(out, room, "answer %u total %llu belief %llu plausibility %llu pairs %llu intervals %llu\n", side->number,
                        (unsigned long long)a.total, (unsigned long long)a.belief, (unsigned long long)a.plausibility,
                        (unsigned long long)a.pairs, (unsigned long long)a.intervals);
    for (size_t i = 0; i < a.intervals; i++) {
        struct drive_interval r = drive_read_interval(side->list, i);
        used += snprintf(out + used, room - (size_t)used, "%u %u %llu\n", r.low, r.high, (unsigned long long)r.weight);
    }
}

static void compare_program(const char *program, const char *file, const struct side *side, const uint8_t *sheet, size_t length,
                            uint32_t demand, uint32_t allowance) {
    static char got[TEXT_ROOM], want[TEXT_ROOM];
    FILE *f = fopen(file, "wb");
    if (f == NULL) {
        perror(file);
        exit(2);
    }
    put32(f, demand);
    put32(f, allowance);
    fwrite(sheet, 1, length, f);
    fclose(f);
    run_program(program, file, got, sizeof got);
    program_text(side, want, sizeof want);
    EXPECT(strcmp(got, want) == 0, "bounds wrote\n%sand not\n%s", got, want);
}

/* Fewer than 8 bytes of input. */
static void test_short_input(const char *program, const char *file) {
    for (unsigned length = 0; length < 8; length++) {
        char got[64];
        FILE *f = fopen(file, "wb");
        if (f == NULL) {
            perror(file);
            exit(2);
        }
        for (unsigned i = 0; i < length; i++) fputc(0x11, f);
        fclose(f);
        run_program(program, file, got, sizeof got);
        EXPECT(strcmp(got, "input short\n") == 0, "bounds on %u bytes wrote %s", length, got);
    }
    finish("bounds says when its input is short");
}

int main(int argc, char **argv) {
    struct fence sheet_pages = make_fence(SHEET_ROOM), demands_pages = make_fence(DEMANDS_ROOM);
    struct both bounds = {
        "drive_bounds", DRIVE_ANSWER_BYTES, 0, 0, make_side(drive_bounds, NULL), make_side(plain_bounds, NULL), 0, {0},
    };
    struct both set = {
        "drive_set", DRIVE_SET_ANSWER_BYTES, DRIVE_E_DEMANDS, DRIVE_E_SHARES_BUFFER, make_side(NULL, drive_set),
        make_side(NULL, plain_set), 0, {0},
    };
    struct both speed = {
        "drive_speed", DRIVE_SPEED_ANSWER_BYTES, DRIVE_E_TARGET, DRIVE_E_TARGET, make_side(drive_speed, NULL),
        make_side(plain_speed, NULL), 0, {0},
    };
    const struct lengths enough = {DRIVE_LIST_BYTES, 0, DRIVE_ANSWER_BYTES};
    struct rests rests = {0, 0, 0};
    struct cuts cuts = {0, 0};
    unsigned programs = 0;
    if (argc != 3) {
        fprintf(stderr, "usage: compare BOUNDS FILE\n");
        return 2;
    }
    for (unsigned i = 0; i < SHEETS && failures < 10; i++) {
        struct plan p = random_plan();
        if (random_below(3) == 0)
            do damage_plan(&p);
            while (random_below(4) == 0);
        struct sheet s = make_sheet(&p);
        if (random_below(4) == 0)
            do damage_sheet(&s);
            while (random_below(4) == 0 && s.length > 0 && s.length < 256);
        uint8_t *sheet = up_to_end(sheet_pages, s.length);
        memcpy(sheet, s.bytes, s.length);

        /* Half of the allowances stand at the pair count or one below. */
        struct question demand = {random_below(random_below(2) == 0 ? 30 : 5000), NULL, 0};
        uint32_t allowance = DRIVE_PAIRS_MAX;
        run_side(&bounds.plain, sheet, s.length, demand, allowance, enough);
        struct drive_answer a = drive_read_answer(bounds.plain.answer);
        struct question target = {random_target(a), NULL, 0};
        struct question demands = random_demands(demands_pages, bounds.plain.list, (unsigned)a.intervals);
        if (random_below(2) == 0) allowance = a.pairs > 0 ? (uint32_t)a.pairs - random_below(2) : 0;
        int exact = random_below(8) != 0;
        run_both(&bounds, exact, sheet, s.length, demand, allowance);
        if (bounds.drive.number == 0) {
            count_rests(&rests, sheet, s.length);
            count_cuts(&cuts, sheet, s.length);
        }
        run_both(&set, exact, sheet, s.length, demands, allowance);
        run_both(&speed, exact, sheet, s.length, target, allowance);
        if (exact && i % PROGRAM_EVERY < 2) {
            compare_program(argv[1], argv[2], &bounds.drive, sheet, s.length, demand.asked, allowance);
            programs++;
        }
    }
    printf("   %d random sheets, %u of them also by bounds\n", SHEETS, programs);
    print_met(&bounds);
    print_met(&set);
    print_met(&speed);
    print_rests(&rests);
    print_cuts(&cuts);
    finish("the calls, plain C and bounds agree on random sheets");
    test_short_input(argv[1], argv[2]);
    return failures != 0;
}
