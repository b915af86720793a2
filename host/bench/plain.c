/* The drive calculation in plain C: structs in memory, binary search, memmove. What the bench compares with, and the tests too. */
#include "plain.h"

#include <string.h>

enum {
    COMPONENTS = 6,
    FOCALS = 8,
    SPEED_MAX = 4095,
    ENTRIES = 2 * COMPONENTS - 1,
    INTERVALS = 256,
    STORED = 3 * INTERVALS, /* two lists and their join */
    RECORD_BYTES = 12,
    LIST_BYTES = STORED * RECORD_BYTES,
    ANSWER_BYTES = 40,
    SET_ANSWER_BYTES = 24,
    SPEED_ANSWER_BYTES = 48,
    DEMAND_BYTES = 4,
    SHARES_BYTES = 16,
    DEMANDS = 16,
    TARGET_MAX = 1000
};

/* An interval with its weight. The key is low in the upper 16 bits and high in the lower 16: keys compare by low, then by high. */
struct focal {
    uint32_t key;
    uint64_t weight;
};

/* What is listed, and what the weights leave of the total. */
struct component {
    unsigned count, total, rest;
    struct focal focal[FOCALS];
};

struct plan {
    unsigned components, entries;
    struct component component[COMPONENTS];
    uint8_t entry[ENTRIES];
};

/* A list and its place in the store. */
struct list {
    unsigned count;
    struct focal *focal;
};

/* Fields of bits, most significant first. */
struct bits {
    const uint8_t *bytes;
    size_t at;
};

static unsigned take(struct bits *b, unsigned width) {
    size_t end = b->at + width, last = (end + 7) / 8;
    uint64_t window = 0;
    for (size_t i = b->at / 8; i < last; i++) window = window << 8 | b->bytes[i];
    b->at = end;
    return (unsigned)(window >> (last * 8 - end)) & ((1u << width) - 1);
}

static size_t block_bytes(unsigned count) { return (16 + 34 * (size_t)count + 7) / 8; }

/* A fault of the sheet counts where no fault with a lower number is known. */
static void fault_if(unsigned *fault, unsigned number, int condition) {
    if (condition && (*fault == 0 || number < *fault)) *fault = number;
}

static void read_component(struct bits *b, struct component *c, unsigned *fault) {
    unsigned sum = 0;
    c->count = take(b, 4);
    fault_if(fault, 5, take(b, 2) != 0);
    c->total = take(b, 10);
    fault_if(fault, 6, c->total < 1 || c->total > 1000);
    for (unsigned i = 0; i < c->count; i++) {
        unsigned low = take(b, 12), high = take(b, 12), weight = take(b, 10);
        struct focal f = {low << 16 | high, weight};
        fault_if(fault, 7, low > high || weight == 0 || (i > 0 && f.key <= c->focal[i - 1].key));
        c->focal[i] = f;
        sum += weight;
    }
    fault_if(fault, 8, sum > c->total);
    c->rest = c->total - sum;
    if (b->at % 8 != 0) fault_if(fault, 5, take(b, 8 - (unsigned)(b->at % 8)) != 0);
}

static void read_structure(struct bits *b, struct plan *p, unsigned *fault) {
    unsigned named = 0, depth = 0;
    p->entries = 2 * p->components - 1;
    for (unsigned i = 0; i < p->entries; i++) {
        unsigned e = p->entry[i] = (uint8_t)take(b, 4);
        if (e < p->components) {
            fault_if(fault, 10, named >> e & 1);
            named |= 1u << e;
            depth++;
        } else if (e >= 8 && e <= 10) {
            fault_if(fault, 11, depth < 2);
            depth -= depth >= 2;
        } else {
            fault_if(fault, 9, 1);
        }
    }
    fault_if(fault, 10, named != (1u << p->components) - 1);
    fault_if(fault, 5, take(b, 4) != 0);
}

/* Refusals 1 to 11, or 0 and the plan. */
static unsigned read_sheet(const uint8_t *sheet, size_t length, struct plan *p) {
    struct bits b = {sheet, 0};
    if (length < 2 || sheet[1] != length) return 1;
    if (take(&b, 4) != 1) return 2;
    p->components = take(&b, 4);
    if (p->components < 1 || p->components > COMPONENTS) return 3;

    size_t at = 2;
    for (unsigned i = 0; i < p->components; i++) {
        if (at >= length) return 4;
        unsigned count = sheet[at] >> 4;
        if (count < 1 || count > FOCALS) return 4;
        at += block_bytes(count);
    }
    if (at + p->components != length) return 4;

    unsigned fault = 0;
    b.at = 16;
    for (unsigned i = 0; i < p->components; i++) read_component(&b, &p->component[i], &fault);
    read_structure(&b, p, &fault);
    return fault;
}

/* Adds f to a list in descending order; 0 where the list is full. Joins spend their time here. */
static inline int insert(struct list *l, struct focal f) {
    unsigned from = 0, to = l->count;
    while (from < to) {
        unsigned middle = (from + to) / 2;
        if (l->focal[middle].key > f.key)
            from = middle + 1;
        else
            to = middle;
    }
    if (from < l->count && l->focal[from].key == f.key) {
        l->focal[from].weight += f.weight;
        return 1;
    }
    if (l->count == INTERVALS) return 0;
    memmove(&l->focal[from + 1], &l->focal[from], (l->count - from) * sizeof f);
    l->focal[from] = f;
    l->count++;
    return 1;
}

static unsigned smaller(unsigned x, unsigned y) { return x < y ? x : y; }
static unsigned larger(unsigned x, unsigned y) { return x > y ? x : y; }

/* Lows and highs are joined separately. A sum is at most the greatest speed; one of highs does not reach the bits of the low. */
static uint32_t join_keys(unsigned entry, uint32_t x, uint32_t y) {
    switch (entry) {
    case 8: return smaller(x >> 16, y >> 16) << 16 | smaller(x & 0xFFFF, y & 0xFFFF);
    case 9: return smaller((x + y) >> 16, SPEED_MAX) << 16 | smaller((x + y) & 0xFFFF, SPEED_MAX);
    default: return larger(x >> 16, y >> 16) << 16 | larger(x & 0xFFFF, y & 0xFFFF);
    }
}

/* A component's list: what is listed, from the last to the first, and the rest on the interval from 0 to the greatest speed. */
static void put_leaf(const struct component *c, struct list *out) {
    const struct focal rest = {SPEED_MAX, c->rest};
    out->count = c->count;
    for (unsigned i = 0; i < c->count; i++) out->focal[i] = c->focal[c->count - 1 - i];
    if (c->rest > 0) insert(out, rest);
}

/* The join of two lists; 0 where it has too many intervals. */
static int join(unsigned entry, struct list x, struct list y, struct list *out) {
    struct list made = {0, out->focal}; /* a copy, so that its length stays in a register */
    for (unsigned i = 0; i < x.count; i++) {
        for (unsigned j = 0; j < y.count; j++) {
            struct focal f = {join_keys(entry, x.focal[i].key, y.focal[j].key), x.focal[i].weight * y.focal[j].weight};
            if (!insert(&made, f)) return 0;
        }
    }
    *out = made;
    return 1;
}

/* Runs the structure on a stack of lists: refusals 13 and 14, or 0, the drive's list and the pair count. The lists stand in the
 * store one behind the other; a join's list is made behind its two and then moved to where the left one stood. */
static unsigned run(const struct plan *p, uint32_t allowance, struct focal store[STORED], struct list *drive, uint64_t *pairs) {
    struct list stack[COMPONENTS + 1], *top = stack; /* the place of the next list */
    top->focal = store;
    *pairs = 0;
    for (unsigned i = 0; i < p->entries; i++) {
        unsigned e = p->entry[i];
        if (e < COMPONENTS) {
            put_leaf(&p->component[e], top);
        } else {
            struct list *x = top - 2, *y = top - 1;
            *pairs += (uint64_t)x->count * y->count;
            if (*pairs > allowance) return 13;
            if (!join(e, *x, *y, top)) return 14;
            memmove(x->focal, top->focal, top->count * sizeof *top->focal);
            x->count = top->count;
            top = x;
        }
        top[1].focal = top->focal + top->count;
        top++;
    }
    *drive = stack[0];
    return 0;
}

static uint32_t get32(const uint8_t *in) { return (uint32_t)in[0] << 24 | (uint32_t)in[1] << 16 | (uint32_t)in[2] << 8 | in[3]; }

static uint8_t *put32(uint8_t *out, uint32_t value) {
    out[0] = (uint8_t)(value >> 24);
    out[1] = (uint8_t)(value >> 16);
    out[2] = (uint8_t)(value >> 8);
    out[3] = (uint8_t)value;
    return out + 4;
}

static uint8_t *put64(uint8_t *out, uint64_t value) {
    return put32(put32(out, (uint32_t)(value >> 32)), (uint32_t)value);
}

/* The drive's list, then zeros. */
static void put_list(const struct list *drive, uint8_t *out) {
    for (unsigned i = 0; i < drive->count; i++) {
        out = put32(out, drive->focal[i].key);
        out = put64(out, drive->focal[i].weight);
    }
    memset(out, 0, LIST_BYTES - drive->count * RECORD_BYTES);
}

/* Belief and plausibility at a demand. */
static uint8_t *put_shares(const struct list *drive, uint32_t demand, uint8_t *out) {
    uint64_t belief = 0, plausibility = 0;
    for (unsigned i = 0; i < drive->count; i++) {
        struct focal f = drive->focal[i];
        if (f.key >> 16 >= demand) belief += f.weight;
        if ((f.key & 0xFFFF) >= demand) plausibility += f.weight;
    }
    return put64(put64(out, belief), plausibility);
}

static uint64_t total_of(const struct plan *p) {
    uint64_t total = 1;
    for (unsigned i = 0; i < p->components; i++) total *= p->component[i].total;
    return total;
}

/* The least belief that is at least so many thousandths of the total. Target times total would not fit 64 bits. */
static uint64_t least_belief(uint32_t target, uint64_t total) {
    return target * (total / TARGET_MAX) + (target * (total % TARGET_MAX) + TARGET_MAX - 1) / TARGET_MAX;
}

/* The greatest demand with at least this belief, which is not above the total: the first such low. */
static uint32_t greatest_demand(const struct list *drive, uint64_t least) {
    unsigned i = 0;
    uint64_t belief = drive->focal[0].weight;
    while (belief < least) belief += drive->focal[++i].weight;
    return drive->focal[i].key >> 16;
}

/* A sheet that is read and run. */
struct job {
    struct focal store[STORED];
    struct plan plan;
    struct list drive;
    uint64_t pairs;
};

/* What every call begins with: the number and, where it is not 0, the buffers that go with it. `refused` is the number that refuses
 * what is asked, or 0; it comes after 12 and before 13. */
static unsigned start(struct job *j, const uint8_t *sheet, size_t sheet_length, unsigned refused, uint32_t allowance, uint8_t *list,
                      size_t list_length, uint8_t *answer, size_t answer_length, size_t answer_bytes) {
    unsigned number = read_sheet(sheet, sheet_length, &j->plan);
    if (answer_length < answer_bytes) return number != 0 ? number : 12;
    if (number == 0 && list_length < LIST_BYTES) number = 12;
    if (number == 0) number = refused;
    if (number == 0) {
        number = run(&j->plan, allowance, j->store, &j->drive, &j->pairs);
        if (number != 0) memset(list, 0, LIST_BYTES);
    }
    if (number != 0) { /* zeros in pieces of fixed length, which the compiler stores at once */
        memset(answer, 0, SET_ANSWER_BYTES);
        for (size_t i = SET_ANSWER_BYTES; i < answer_bytes; i += 8) put64(answer + i, 0);
    }
    return number;
}

/* The list and the five answers at a demand; where the sixth goes. */
static uint8_t *put_bounds(const struct job *j, uint32_t demand, uint8_t *list, uint8_t *answer) {
    put_list(&j->drive, list);
    answer = put64(answer, total_of(&j->plan));
    answer = put_shares(&j->drive, demand, answer);
    answer = put64(answer, j->pairs);
    return put64(answer, j->drive.count);
}

uint32_t plain_bounds(const uint8_t *sheet, size_t sheet_length, uint32_t demand, uint32_t allowance, uint8_t *list,
                      size_t list_length, uint8_t *answer, size_t answer_length) {
    struct job j;
    unsigned number = start(&j, sheet, sheet_length, 0, allowance, list, list_length, answer, answer_length, ANSWER_BYTES);
    if (number == 0) put_bounds(&j, demand, list, answer);
    return number;
}

uint32_t plain_speed(const uint8_t *sheet, size_t sheet_length, uint32_t target, uint32_t allowance, uint8_t *list,
                     size_t list_length, uint8_t *answer, size_t answer_length) {
    struct job j;
    unsigned refused = target < 1 || target > TARGET_MAX ? 16 : 0;
    unsigned number =
        start(&j, sheet, sheet_length, refused, allowance, list, list_length, answer, answer_length, SPEED_ANSWER_BYTES);
    if (number == 0) {
        uint32_t speed = greatest_demand(&j.drive, least_belief(target, total_of(&j.plan)));
        put64(put_bounds(&j, speed, list, answer), speed);
    }
    return number;
}

uint32_t plain_set(const uint8_t *sheet, size_t sheet_length, const uint8_t *demands, size_t demands_length, uint32_t allowance,
                   uint8_t *list, size_t list_length, uint8_t *shares, size_t shares_length, uint8_t *answer, size_t answer_length) {
    struct job j;
    size_t count = demands_length / DEMAND_BYTES;
    unsigned refused = shares_length < count * SHARES_BYTES ? 18 : 0;
    if (demands_length % DEMAND_BYTES != 0 || count < 1 || count > DEMANDS) refused = 17;
    unsigned number = start(&j, sheet, sheet_length, refused, allowance, list, list_length, answer, answer_length, SET_ANSWER_BYTES);
    if (number != 0) return number;
    put_list(&j.drive, list);
    for (size_t i = 0; i < count; i++) shares = put_shares(&j.drive, get32(demands + i * DEMAND_BYTES), shares);
    answer = put64(answer, total_of(&j.plan));
    answer = put64(answer, j.pairs);
    put64(answer, j.drive.count);
    return 0;
}
