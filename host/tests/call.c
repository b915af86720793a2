/* The five calls on every number, with buffers too short, exact and too long, on the places of lists in the list buffer, on the bench
 * table, on rests, on the order of lists and blocks and on the ceiling of shared joins. C and C++. */
#include "common.h"

/* One component. */
static struct plan one(struct component c) {
    static const uint16_t entry[1] = {0};
    return make_plan(1, &c, entry);
}

/* A module that always runs at one speed. */
static struct component always(unsigned speed) {
    const struct component c = {1, 1, {{speed, speed, 1}}};
    return c;
}

/* A log of 940 hours of 1,000, and one that says of 25 others what the rest says of them: their lists are the same. */
static const struct component part = {1000, 2, {{0, 0, 40}, {1200, 2000, 900}}};
static const struct component part_added = {1000, 3, {{0, 0, 40}, {0, 4095, 25}, {1200, 2000, 900}}};

/* Eight intervals, some with equal lows, and no rest. */
static const struct component eight = {
    36, 8, {{0, 0, 1}, {0, 5, 2}, {0, 9, 3}, {2, 2, 4}, {2, 9, 5}, {7, 7, 6}, {7, 8, 7}, {9, 9, 8}},
};

/* The component with its intervals the other way round. */
static struct component reversed(struct component c) {
    const struct component block = c;
    for (unsigned i = 0; i < c.count; i++) c.focal[i] = block.focal[c.count - 1 - i];
    return c;
}

/* Six modules with eight intervals and T 1,000 each, all shared. The greatest speed of module 0 is `first` and that of each other
 * `others`. */
static struct plan all_shared(unsigned first, unsigned others) {
    struct plan p = two_groups(1, DRIVE_ED1_SHARED);
    for (unsigned i = 0; i < DRIVE_MODULES_MAX; i++) {
        unsigned greatest = i == 0 ? first : others;
        p.component[i].total = DRIVE_MODULE_TOTAL_MAX;
        p.component[i].count = DRIVE_MODULE_INTERVALS_MAX;
        for (unsigned j = 0; j < DRIVE_MODULE_INTERVALS_MAX; j++) {
            p.component[i].focal[j].low = p.component[i].focal[j].high = greatest - 7 + j;
            p.component[i].focal[j].weight = 125;
        }
    }
    return p;
}

/* One of the longest sheets: its modules' greatest speeds add to 4,095. */
static struct plan longest(void) { return all_shared(DRIVE_SPEED_MAX - 5 * 682, 682); }

/* A buffer right behind a page that can not be touched, or right before one. It holds marks, some behind its end too where they fit. */
struct lent {
    uint8_t *bytes;
    size_t length, filled;
};

static struct lent lend(struct fence pages, size_t length, int at_end) {
    struct lent b;
    b.bytes = at_end ? up_to_end(pages, length) : from_start(pages);
    b.length = length;
    b.filled = at_end ? length : length + 64;
    fill_marks(b.bytes, b.filled);
    return b;
}

/* The same with bytes at its front, as many as fit. */
static struct lent lend_bytes(struct fence pages, const uint8_t *bytes, size_t count, size_t length, int at_end) {
    struct lent b = lend(pages, length, at_end);
    memcpy(b.bytes, bytes, count < length ? count : length);
    return b;
}

/* Length 0 goes with a null pointer. */
static uint8_t *pointer(struct lent b) { return b.length != 0 ? b.bytes : NULL; }

/* What is only read can not be written during the call. */
static void only_read(struct fence pages, int on) { mprotect(from_start(pages), pages.size, on ? PROT_READ : PROT_READ | PROT_WRITE); }

/* Case P2 of the bench table at demand 3: the answers and the list. */
static const uint64_t p2_answer[] = {12, 9, 10, 4, 4};
static const struct drive_interval p2_list[] = {{3, 7, 3}, {3, 4, 6}, {1, 4, 1}, {1, 1, 2}};

/* The sheet that reaches a number, and the allowance of the call. The list is the drive's where the number is 0. */
struct row {
    uint32_t number, allowance;
    struct plan plan;
    struct sheet sheet;
    const struct drive_interval *list;
    size_t intervals;
};

enum { ROWS = 24 };

/* The rows, filled from the front. */
struct rows {
    unsigned count;
    struct row row[ROWS];
};

/* Adds the sheet of a plan with this list; what is returned may still be damaged. */
static struct sheet *add_with_list(struct rows *rows, uint32_t number, uint32_t allowance, const struct plan *p,
                                   const struct drive_interval *list, size_t intervals) {
    struct row *r = &rows->row[rows->count++];
    r->number = number;
    r->allowance = allowance;
    r->plan = *p;
    r->sheet = make_sheet(p);
    r->list = list;
    r->intervals = intervals;
    return &r->sheet;
}

/* The same with the list of case P2. */
static struct sheet *add(struct rows *rows, uint32_t number, uint32_t allowance, const struct plan *p) {
    return add_with_list(rows, number, allowance, p, p2_list, 4);
}

/* Each number from 0 to 14, those with several causes more than once. 12 is met by short buffers. */
static void add_rows(struct rows *rows) {
    static const uint16_t entry[][3] = {{0, 1, 11}, {0, 2, 8}, {0, 0, 8}, {8, 0, 1}};
    static const uint32_t entry_number[] = {9, 9, 10, 11};
    const struct plan good = two(A, B, DRIVE_ED1_SHARED), wide = three(5);
    const size_t last = make_sheet(&good).length - 1;
    struct plan p;

    add(rows, 0, 4, &good);
    add(rows, 1, 4, &good)->bytes[1]++;
    add(rows, 1, 4, &good)->length--;
    add(rows, 1, 4, &good)->length = 1;
    add(rows, 1, 4, &good)->length = 0;
    add(rows, 2, 4, &good)->bytes[0] = 0x22;
    add(rows, 3, 4, &good)->bytes[0] = 0x10;
    add(rows, 3, 4, &good)->bytes[0] = 0x17;
    add(rows, 4, 4, &good)->bytes[2] = 0x90;
    add(rows, 4, 4, &good)->bytes[2] = 0x10;
    add(rows, 5, 4, &good)->bytes[last] |= 1;
    p = good, p.component[0].total = 0;
    add(rows, 6, 4, &p);
    p = good, p.component[0].focal[1].high = 1;
    add(rows, 7, 4, &p);
    p = good, p.component[1].focal[1] = p.component[1].focal[0];
    add(rows, 7, 4, &p);
    p = two(reversed(A), B, DRIVE_ED1_SHARED); /* lows descend */
    add(rows, 7, 4, &p);
    p = two(A, reversed(B), DRIVE_ED1_SHARED); /* lows are equal, highs descend */
    add(rows, 7, 4, &p);
    p = good, p.component[1].total = 2;
    add(rows, 8, 4, &p);
    for (unsigned i = 0; i < 4; i++) {
        p = good;
        memcpy(p.entry, entry[i], sizeof entry[i]);
        add(rows, entry_number[i], 4, &p);
    }
    add(rows, 13, 3, &good);
    add(rows, 13, 383, &wide);
    add(rows, 14, 384, &wide);
}

static const size_t list_lengths[] = {0, 1, DRIVE_LIST_BYTES - 1, DRIVE_LIST_BYTES, DRIVE_LIST_BYTES + 1, OLD_LIST_BYTES};
static const size_t plan_lengths[] = {0, 1, DRIVE_PLAN_BYTES - 1, DRIVE_PLAN_BYTES, DRIVE_PLAN_BYTES + 1, 400};
static const size_t length_lengths[] = {0, 1, DRIVE_LENGTH_BYTES - 1, DRIVE_LENGTH_BYTES, DRIVE_LENGTH_BYTES + 1, 100};
enum { LENGTHS = 6, LIST_ROOM = OLD_LIST_BYTES + 64, ROOM = 4096 };

static int list_is(const uint8_t *list, const struct drive_interval *want, size_t count) {
    for (size_t i = 0; i < count; i++) {
        struct drive_interval got = drive_read_interval(list, i);
        if (got.low != want[i].low || got.high != want[i].high || got.weight != want[i].weight) return 0;
    }
    return holds_zeros(list, count * DRIVE_RECORD_BYTES, DRIVE_LIST_BYTES);
}

static int values_are(struct drive_answer a, const uint64_t *want) {
    return a.total == want[0] && a.belief == want[1] && a.plausibility == want[2] && a.pairs == want[3] && a.intervals == want[4];
}

/* A call and what it is asked, a demand, a target or so many bytes of demands: the number that refuses this, or 0; the bytes of the
 * answer; the answers to case P2, or to another that is accepted. */
struct ask {
    bounds_fn *call;
    uint32_t asked, refused;
    size_t bytes;
    uint64_t answers[6];
};

static const struct ask ask_bounds = {drive_bounds, 3, 0, DRIVE_ANSWER_BYTES, {12, 9, 10, 4, 4, 0}};

/* Good targets and others; 1024 + 750 and 65536 + 750 would be good if they were cut to 10 or to 16 bits. */
enum { TARGETS = 9 };
static const struct ask ask_speed[TARGETS] = {
    {drive_speed, 1, 0, DRIVE_SPEED_ANSWER_BYTES, {12, 9, 10, 4, 4, 3}},
    {drive_speed, 750, 0, DRIVE_SPEED_ANSWER_BYTES, {12, 9, 10, 4, 4, 3}},
    {drive_speed, 751, 0, DRIVE_SPEED_ANSWER_BYTES, {12, 12, 12, 4, 4, 1}},
    {drive_speed, DRIVE_TARGET_MAX, 0, DRIVE_SPEED_ANSWER_BYTES, {12, 12, 12, 4, 4, 1}},
    {drive_speed, 0, 16, DRIVE_SPEED_ANSWER_BYTES, {0}},
    {drive_speed, DRIVE_TARGET_MAX + 1, 16, DRIVE_SPEED_ANSWER_BYTES, {0}},
    {drive_speed, 1024 + 750, 16, DRIVE_SPEED_ANSWER_BYTES, {0}},
    {drive_speed, 65536 + 750, 16, DRIVE_SPEED_ANSWER_BYTES, {0}},
    {drive_speed, UINT32_MAX, 16, DRIVE_SPEED_ANSWER_BYTES, {0}},
};

static int answers_are(const uint8_t *answer, const struct ask *a) {
    for (size_t i = 0; i < a->bytes / 8; i++)
        if (drive_read(answer + 8 * i, 8) != a->answers[i]) return 0;
    return 1;
}

/* The buffers that only drive_set has; the shares' is so long, and both stand behind a fence or before one. The row that is tried. */
static struct {
    struct fence demands, shares;
    size_t shares_length;
    int at_end;
    const struct row *row;
} set_pages;

/* One call of drive_bounds, drive_set or drive_speed with these lengths. */
static void try_ask(const struct ask *a, const struct row *r, size_t list_length, size_t answer_length, int at_end,
                    struct fence sheet_pages, struct fence list_pages, struct fence answer_pages) {
    struct lent sheet = lend_bytes(sheet_pages, r->sheet.bytes, r->sheet.length, r->sheet.length, at_end);
    struct lent list = lend(list_pages, list_length, at_end), answer = lend(answer_pages, answer_length, at_end);
    int fits = list_length >= DRIVE_LIST_BYTES && answer_length >= a->bytes;
    uint32_t want = r->number >= 1 && r->number <= 11 ? r->number : !fits ? 12 : a->refused != 0 ? a->refused : r->number;
    size_t list_from = 0, answer_from = 0;

    set_pages.row = r;
    only_read(sheet_pages, 1);
    uint32_t got = a->call(pointer(sheet), sheet.length, a->asked, r->allowance, pointer(list), list_length, pointer(answer),
                           answer_length);
    only_read(sheet_pages, 0);

    EXPECT(got == want, "number %u, not %u, asked %u, with list %zu, answer %zu", got, want, a->asked, list_length, answer_length);
    if (answer_length >= a->bytes) {
        answer_from = a->bytes;
        EXPECT(want == 0 ? answers_are(answer.bytes, a) : holds_zeros(answer.bytes, 0, answer_from),
               "answer of number %u, allowance %u", want, r->allowance);
    }
    if (want == 0 || want == 13 || want == 14) {
        list_from = DRIVE_LIST_BYTES;
        EXPECT(want == 0 ? list_is(list.bytes, r->list, r->intervals) : holds_zeros(list.bytes, 0, list_from),
               "list of number %u, allowance %u", want, r->allowance);
    }
    EXPECT(holds_marks(answer.bytes, answer_from, answer.filled), "number %u touched the answer buffer", want);
    EXPECT(holds_marks(list.bytes, list_from, list.filled), "number %u touched the list buffer", want);
}

/* One call of drive_read_sheet with this length. What the run would refuse is read. */
static void try_read(const struct row *r, size_t plan_length, int at_end, struct fence sheet_pages, struct fence plan_pages) {
    struct lent sheet = lend_bytes(sheet_pages, r->sheet.bytes, r->sheet.length, r->sheet.length, at_end);
    struct lent plan = lend(plan_pages, plan_length, at_end);
    uint32_t refused = r->number <= 11 ? r->number : 0, want = refused == 0 && plan_length < DRIVE_PLAN_BYTES ? 12 : refused;
    uint8_t bytes[DRIVE_PLAN_BYTES];
    size_t from = 0;

    only_read(sheet_pages, 1);
    uint32_t got = drive_read_sheet(pointer(sheet), sheet.length, pointer(plan), plan_length);
    only_read(sheet_pages, 0);

    EXPECT(got == want, "reader: number %u, not %u, with plan %zu", got, want, plan_length);
    if (plan_length >= DRIVE_PLAN_BYTES) {
        from = DRIVE_PLAN_BYTES;
        put_plan(&r->plan, bytes);
        EXPECT(want == 0 ? memcmp(plan.bytes, bytes, from) == 0 : holds_zeros(plan.bytes, 0, from), "reader: plan of number %u", want);
    }
    EXPECT(holds_marks(plan.bytes, from, plan.filled), "reader: number %u touched the plan buffer", want);
}

/* Every row with buffers of every length; 40 bytes are enough for drive_bounds and drive_set and too few for drive_speed. */
static void try_rows(const struct ask *a, const struct rows *rows, struct fence sheet, struct fence list, struct fence answer) {
    enum { ANSWER_LENGTHS = 7 };
    const size_t answer_lengths[ANSWER_LENGTHS] = {0, 1, a->bytes - 1, a->bytes, a->bytes + 1, DRIVE_ANSWER_BYTES, 100};
    for (unsigned r = 0; r < rows->count; r++)
        for (unsigned i = 0; i < LENGTHS; i++)
            for (unsigned j = 0; j < ANSWER_LENGTHS; j++)
                for (int at_end = 0; at_end < 2; at_end++)
                    try_ask(a, &rows->row[r], list_lengths[i], answer_lengths[j], at_end, sheet, list, answer);
}

/* Demands, in no order: some equal, the least, the greatest, some that would be 3 if they were cut to 8, 16 or 24 bits. The last is one
 * too many. */
static const uint32_t some_demands[DRIVE_DEMANDS_MAX + 1] = {
    3, 8, 0, 7, UINT32_MAX, 4, 1, 256 + 3, 5, 65536 + 3, 2, 3, 16777216 + 3, 6, 0, 1, 2,
};

/* Belief and plausibility at a demand, from a list. */
static int shares_are(const uint8_t *shares, uint32_t demand, const struct drive_interval *list, size_t intervals) {
    uint64_t belief = 0, plausibility = 0;
    for (size_t i = 0; i < intervals; i++) {
        if (list[i].low >= demand) belief += list[i].weight;
        if (list[i].high >= demand) plausibility += list[i].weight;
    }
    return drive_read(shares, 8) == belief && drive_read(shares + 8, 8) == plausibility;
}

/* drive_set in the place of a call that is asked one number, which is the length of its demands. */
static uint32_t set_call(const uint8_t *sheet, size_t sheet_length, uint32_t demands_length, uint32_t allowance, uint8_t *list,
                         size_t list_length, uint8_t *answer, size_t answer_length) {
    uint8_t bytes[sizeof some_demands];
    size_t count = demands_length / DRIVE_DEMAND_BYTES, length = set_pages.shares_length, from = 0;
    for (size_t i = 0; i <= DRIVE_DEMANDS_MAX; i++) drive_put_demand(bytes, i, some_demands[i]);
    struct lent demands = lend_bytes(set_pages.demands, bytes, sizeof bytes, demands_length, set_pages.at_end);
    struct lent shares = lend(set_pages.shares, length, set_pages.at_end);

    only_read(set_pages.demands, 1);
    uint32_t got = drive_set(sheet, sheet_length, pointer(demands), demands_length, allowance, list, list_length, pointer(shares),
                             length, answer, answer_length);
    only_read(set_pages.demands, 0);

    for (size_t i = 0; got == 0 && i < count && from + DRIVE_SHARES_BYTES <= length; i++, from += DRIVE_SHARES_BYTES)
        EXPECT(shares_are(shares.bytes + from, some_demands[i], set_pages.row->list, set_pages.row->intervals),
               "pair %zu of %zu demands", i, count);
    EXPECT(holds_marks(shares.bytes, from, shares.filled), "number %u touched the shares' buffer, %zu, with demands %u", got, length,
           demands_length);
    return got;
}

/* Lengths of demands, the number that refuses them, or 0, and what the shares need. 256 + 4 and 1024 + 4 would be good if the length
 * or the count were cut to 8 bits. */
static const struct {
    uint32_t length, refused;
    size_t needed;
} demands_lengths[] = {
    {0, 17, 16},   {1, 17, 16},  {2, 17, 16},   {3, 17, 16},   {4, 0, 16},    {5, 17, 16},   {8, 0, 32},        {60, 0, 240},
    {63, 17, 256}, {64, 0, 256}, {65, 17, 256}, {66, 17, 256}, {67, 17, 256}, {68, 17, 272}, {256 + 4, 17, 16}, {1024 + 4, 17, 16},
};

/* Demands and shares of every length, on one sheet for each of 0, 5, 13 and 14; on every sheet where the shares fit exactly. */
static void try_sets(const struct rows *rows, struct fence sheet, struct fence list, struct fence answer) {
    static struct rows few;
    for (unsigned r = 0; r < rows->count; r++) {
        uint32_t number = rows->row[r].number, last = few.count > 0 ? few.row[few.count - 1].number : 1;
        if ((number == 0 || number == 5 || number >= 13) && number != last) few.row[few.count++] = rows->row[r];
    }
    set_pages.demands = make_fence(ROOM);
    set_pages.shares = make_fence(ROOM);
    for (size_t i = 0; i < sizeof demands_lengths / sizeof *demands_lengths; i++) {
        const size_t needed = demands_lengths[i].needed;
        const size_t shares_lengths[LENGTHS] = {0, 1, needed - 1, needed, needed + 1, needed + 100};
        for (unsigned j = 0; j < 2 * LENGTHS; j++) {
            uint32_t refused = demands_lengths[i].refused;
            set_pages.shares_length = shares_lengths[j / 2];
            set_pages.at_end = j % 2 != 0;
            if (refused == 0 && set_pages.shares_length < needed) refused = 18;
            const struct ask a = {set_call, demands_lengths[i].length, refused, DRIVE_SET_ANSWER_BYTES, {12, 4, 4, 0, 0, 0}};
            try_rows(&a, set_pages.shares_length == needed ? rows : &few, sheet, list, answer);
        }
    }
}

/* D1, D2 and D3 with 4 of the bench table, which give the speeds 0 to 255, and three other modules. */
static struct plan with_others(struct component x, struct component y, struct component z, const uint16_t *entry) {
    struct plan p = three(4);
    p.component[3] = x;
    p.component[4] = y;
    p.component[5] = z;
    return make_plan(DRIVE_MODULES_MAX, p.component, entry);
}

/* Eight single speeds, 36 apart from `first` on, with weights from 1 to 8. */
static struct component limits(unsigned first) {
    struct component c = speeds(8, 36);
    c.total = 36;
    for (unsigned j = 0; j < 8; j++) {
        c.focal[j].low = c.focal[j].high = first + j * 36;
        c.focal[j].weight = j + 1;
    }
    return c;
}

/* A shared join of two speeds. */
static unsigned shared_speed(unsigned x, unsigned y) { return x + y < DRIVE_SPEED_MAX ? x + y : DRIVE_SPEED_MAX; }

/* The weight on each speed of a plan of single speeds: the sum over all choices of one for each module. */
static void sum_choices(const struct plan *p, uint64_t *weight_at) {
    unsigned choice[DRIVE_MODULES_MAX] = {0}, changed = 0;
    memset(weight_at, 0, (DRIVE_SPEED_MAX + 1) * sizeof *weight_at);
    while (changed < p->components) {
        unsigned stack[DRIVE_MODULES_MAX], depth = 0;
        uint64_t weight = 1;
        for (unsigned i = 0; i + 1 < 2 * p->components; i++) {
            const unsigned e = p->entry[i];
            if (e < DRIVE_MODULES_MAX) {
                weight *= p->component[e].focal[choice[e]].weight;
                stack[depth++] = p->component[e].focal[choice[e]].low;
            } else {
                const unsigned y = stack[--depth], x = stack[depth - 1];
                stack[depth - 1] = e == DRIVE_ED1_SHARED ? shared_speed(x, y) : (e == DRIVE_ED1_SERIES) == (x < y) ? x : y;
            }
        }
        weight_at[stack[0]] += weight;
        for (changed = 0; changed < p->components && ++choice[changed] == p->component[changed].count; changed++) choice[changed] = 0;
    }
}

/* The three calls on a plan of single speeds, with list buffers of every length: with its pairs allowed, which gives this number, with
 * one pair less, and with a sheet that is refused early. */
static void try_long(struct plan p, uint32_t number, uint32_t pairs, struct fence sheet, struct fence list, struct fence answer) {
    enum { DEMAND = 200, TARGET = 250 };
    static struct rows rows;
    static uint64_t weight_at[DRIVE_SPEED_MAX + 1];
    struct drive_interval want[DRIVE_LIST_INTERVALS_MAX];
    uint64_t total = 1, sum = 0, at_demand = 0, at_speed = 0;
    uint32_t speed = 0, n = 0;
    for (unsigned i = 0; i < p.components; i++) total *= p.component[i].total;
    sum_choices(&p, weight_at);
    for (uint32_t v = DRIVE_SPEED_MAX + 1; v-- > 0 && n < DRIVE_LIST_INTERVALS_MAX;) {
        if (weight_at[v] == 0) continue;
        want[n].low = want[n].high = v;
        want[n++].weight = weight_at[v];
        sum += weight_at[v];
        if (v >= DEMAND) at_demand = sum;
        if (at_speed == 0 && 1000 * sum >= TARGET * total) speed = v, at_speed = sum;
    }
    const struct ask asks[] = {
        {drive_bounds, DEMAND, 0, DRIVE_ANSWER_BYTES, {total, at_demand, at_demand, pairs, n, 0}},
        {drive_speed, TARGET, 0, DRIVE_SPEED_ANSWER_BYTES, {total, at_speed, at_speed, pairs, n, speed}},
        {set_call, DRIVE_DEMANDS_MAX * DRIVE_DEMAND_BYTES, 0, DRIVE_SET_ANSWER_BYTES, {total, pairs, n, 0, 0, 0}},
    };
    EXPECT(n == DRIVE_LIST_INTERVALS_MAX && (sum == total) == (number == 0), "a plan with %u speeds, weights %llu of %llu", n,
           (unsigned long long)sum, (unsigned long long)total);
    rows.count = 0;
    add_with_list(&rows, number, pairs, &p, want, n);
    add_with_list(&rows, 13, pairs - 1, &p, want, n);
    struct sheet *refused = add_with_list(&rows, 5, pairs, &p, want, n);
    refused->bytes[refused->length - 1] |= 1;
    set_pages.shares_length = DRIVE_DEMANDS_MAX * DRIVE_SHARES_BYTES;
    for (unsigned i = 0; i < 3; i++)
        for (unsigned r = 0; r < rows.count; r++)
            for (unsigned j = 0; j < 2 * LENGTHS; j++) {
                set_pages.at_end = j % 2 != 0;
                try_ask(&asks[i], &rows.row[r], list_lengths[j / 2], asks[i].bytes, set_pages.at_end, sheet, list, answer);
            }
}

/* Six modules, shared one after the other. The entries of fewer stand at the front. */
static const uint16_t one_by_one[DRIVE_ENTRIES_MAX] = {
    0, 1, DRIVE_ED1_SHARED, 2, DRIVE_ED1_SHARED, 3, DRIVE_ED1_SHARED, 4, DRIVE_ED1_SHARED, 5, DRIVE_ED1_SHARED,
};

/* Plans whose lists have 256 intervals. Two such lists and their join, of each kind; leaves before a long list, behind it, on both sides
 * of it, behind one that went to a leaf's place, and one after the other; lists of which each is longer than the two that it is joined
 * from. A list that is put over another gives a wrong answer. If no place were used again, all plans but the two of `behind` would need
 * more than 768 records. */
static void try_places(struct fence sheet, struct fence list, struct fence answer) {
    enum { SERIES = DRIVE_ED1_SERIES, SHARED = DRIVE_ED1_SHARED, GROUPS = 2 * (64 + 256) + 256 * 256 };
    static const uint16_t before[] = {3, 4, 5, 0, 1, 2, SHARED, SHARED, SERIES, SERIES, SERIES};
    static const uint16_t behind[] = {0, 1, SHARED, 2, SHARED, 3, 4, 5, SERIES, SERIES, SERIES};
    static const uint16_t around[] = {3, 0, 1, SHARED, 2, SHARED, 4, 5, SERIES, SERIES, SERIES};
    static const uint16_t in_turn[] = {3, 4, 0, 1, SHARED, 2, SHARED, SERIES, 5, SERIES, SERIES};
    static const uint16_t chain[] = {0, 1, SHARED, 2, SHARED, 3, SERIES, 4, SERIES, 5, SERIES};
    const struct component fastest = always(DRIVE_SPEED_MAX), x = limits(3), y = limits(10), z = limits(20);
    struct plan longer = with_others(speeds(2, 20), speeds(2, 20), speeds(2, 24), one_by_one);
    longer.component[2] = speeds(3, 64);
    struct plan cut = two_groups(4, SHARED); /* the second group has the speeds 3,840 to 4,095, and so has the drive */
    for (unsigned j = 0; j < 4; j++) cut.component[5].focal[j].low = cut.component[5].focal[j].high = 3840 + 64 * j;
    try_long(two_groups(4, SERIES), 0, GROUPS, sheet, list, answer);
    try_long(two_groups(4, DRIVE_ED1_SPARE), 0, GROUPS, sheet, list, answer);
    try_long(cut, 0, GROUPS, sheet, list, answer);
    try_long(two_groups(4, SHARED), 14, GROUPS, sheet, list, answer);
    try_long(with_others(fastest, fastest, fastest, before), 0, 32 + 256 + 3 * 256, sheet, list, answer);
    try_long(with_others(fastest, fastest, fastest, behind), 0, 64 + 256 + 1 + 1 + 256, sheet, list, answer);
    try_long(with_others(x, y, z, before), 0, 32 + 256 + 3 * 8 * 256, sheet, list, answer);
    try_long(with_others(x, y, z, behind), 0, 64 + 256 + 8 * 8 + 8 * 15 + 256 * 22, sheet, list, answer);
    try_long(with_others(x, y, z, around), 0, 64 + 256 + 8 * 8 + 256 * 15 + 8 * 256, sheet, list, answer);
    try_long(with_others(x, y, z, in_turn), 0, 64 + 256 + 3 * 8 * 256, sheet, list, answer);
    try_long(with_others(x, y, z, chain), 0, 64 + 256 + 3 * 8 * 256, sheet, list, answer);
    try_long(longer, 0, 64 + 64 * 3 + 192 * 2 + 212 * 2 + 232 * 2, sheet, list, answer);
}

/* The list buffer needs as many bytes for a sheet of one module as for one of six. */
static void test_module_counts(void) {
    static uint8_t list[DRIVE_LIST_BYTES], answer[DRIVE_ANSWER_BYTES];
    struct component c[DRIVE_MODULES_MAX];
    for (unsigned n = 1; n <= DRIVE_MODULES_MAX; n++) {
        c[n - 1] = always(n);
        const struct plan p = make_plan(n, c, one_by_one);
        const struct sheet s = make_sheet(&p);
        for (uint32_t less = 0; less < 2; less++) {
            uint32_t got = drive_bounds(s.bytes, s.length, n, DRIVE_PAIRS_MAX, list, sizeof list - less, answer, sizeof answer);
            EXPECT(got == 12 * less, "n = %u: number %u with a list buffer of %zu bytes", n, got, sizeof list - less);
        }
    }
    finish("list buffers of 9,215 and 9,216 bytes, one to six modules");
}

/* Lengths of more than 16 and of more than 32 bits, which would have another number if they were cut. All bytes are zero, and only
 * the first page can be written. */
static void test_far_lengths(void) {
    static uint8_t list[DRIVE_LIST_BYTES], answer[DRIVE_SET_ANSWER_BYTES];
    const size_t greatest = ((size_t)1 << 32) + 64, lengths[] = {65536 + 4, 4 * 65536 + 4, greatest - 60, greatest};
    const struct plan p = two(A, B, DRIVE_ED1_SHARED);
    const struct sheet s = make_sheet(&p);
    uint8_t demand[DRIVE_DEMAND_BYTES], shares[DRIVE_SHARES_BYTES];
    uint8_t *bytes = (uint8_t *)mmap(NULL, greatest, PROT_READ, MAP_PRIVATE | MAP_ANONYMOUS, -1, 0);
    if (bytes == MAP_FAILED || mprotect(bytes, ROOM, PROT_READ | PROT_WRITE) != 0) {
        perror("4 GiB of zeros");
        exit(2);
    }
    for (unsigned i = 0; i < 4; i++) {
        uint32_t got = drive_set(s.bytes, s.length, bytes, lengths[i], 4, list, sizeof list, shares, sizeof shares, answer,
                                 sizeof answer);
        EXPECT(got == 17, "number %u with %zu bytes of demands", got, lengths[i]);
    }
    drive_put_demand(demand, 0, 3);
    uint32_t got = drive_set(s.bytes, s.length, demand, sizeof demand, 4, list, sizeof list, bytes, (size_t)1 << 32, answer,
                             sizeof answer);
    EXPECT(got == 0 && shares_are(bytes, 3, p2_list, 4), "number %u with 4 GiB for the shares", got);
    munmap(bytes, greatest);
    finish("drive_set: lengths of more than 16 and of more than 32 bits");
}

static void test_sheets(void) {
    static struct rows rows;
    struct fence sheet = make_fence(SHEET_ROOM), list = make_fence(LIST_ROOM), answer = make_fence(ROOM), plan = make_fence(ROOM);
    add_rows(&rows);
    try_rows(&ask_bounds, &rows, sheet, list, answer);
    finish("drive_bounds: numbers 0 to 14, buffers of every length, nothing else touched");
    for (unsigned i = 0; i < TARGETS; i++) try_rows(&ask_speed[i], &rows, sheet, list, answer);
    finish("drive_speed: numbers 0 to 14 and 16, buffers of every length, nothing else touched");
    try_sets(&rows, sheet, list, answer);
    finish("drive_set: numbers 0 to 14, 17 and 18, buffers of every length, nothing else touched");
    try_places(sheet, list, answer);
    finish("the places of long lists, list buffers of every length, nothing else touched");
    for (unsigned r = 0; r < rows.count; r++)
        for (unsigned i = 0; i < LENGTHS; i++)
            for (int at_end = 0; at_end < 2; at_end++) try_read(&rows.row[r], plan_lengths[i], at_end, sheet, plan);
    finish("drive_read_sheet: numbers 0 to 12, buffers of every length, nothing else touched");
}

/* The fences of a call of drive_write_sheet. */
struct write_pages {
    struct fence plan, sheet, answer;
};

/* One call of drive_write_sheet with these lengths, on a plan that is refused with this number, or has this sheet. */
static void try_write(const struct write_pages *pages, const uint8_t *plan_bytes, uint32_t refused, const struct sheet *s,
                      size_t plan_length, size_t sheet_length, size_t answer_length, int at_end) {
    struct lent plan = lend_bytes(pages->plan, plan_bytes, DRIVE_PLAN_BYTES, plan_length, at_end);
    struct lent sheet = lend(pages->sheet, sheet_length, at_end), answer = lend(pages->answer, answer_length, at_end);
    int no_answer = refused == 0 && answer_length < DRIVE_LENGTH_BYTES, no_room = refused == 0 && sheet_length < s->length;
    uint32_t want = plan_length < DRIVE_PLAN_BYTES || no_answer ? 12 : no_room ? 15 : refused;
    size_t written = want == 0 ? s->length : 0, answer_from = 0;

    only_read(pages->plan, 1);
    uint32_t got = drive_write_sheet(pointer(plan), plan_length, pointer(sheet), sheet_length, pointer(answer), answer_length);
    only_read(pages->plan, 0);

    EXPECT(got == want, "writer: number %u, not %u, with plan %zu, sheet %zu, answer %zu", got, want, plan_length, sheet_length,
           answer_length);
    if (want != 12 && answer_length >= DRIVE_LENGTH_BYTES) {
        answer_from = DRIVE_LENGTH_BYTES;
        EXPECT(drive_read_length(answer.bytes) == written, "writer: length of number %u", want);
    }
    EXPECT(memcmp(sheet.bytes, s->bytes, written) == 0, "writer: another sheet");
    EXPECT(holds_marks(sheet.bytes, written, sheet.filled), "writer: number %u touched the sheet buffer", want);
    EXPECT(holds_marks(answer.bytes, answer_from, answer.filled), "writer: number %u touched the answer buffer", want);
}

/* With buffers of every length; `s` is the sheet, or one that is about as long. */
static void try_write_lengths(const struct write_pages *pages, const uint8_t *plan, uint32_t refused, const struct sheet *s) {
    const size_t sheet_lengths[LENGTHS] = {0, 1, s->length - 1, s->length, s->length + 1, SHEET_ROOM};
    for (unsigned i = 0; i < LENGTHS; i++)
        for (unsigned j = 0; j < LENGTHS; j++)
            for (unsigned k = 0; k < LENGTHS; k++)
                for (int at_end = 0; at_end < 2; at_end++)
                    try_write(pages, plan, refused, s, plan_lengths[i], sheet_lengths[j], length_lengths[k], at_end);
}

static void try_write_plan(const struct write_pages *pages, const struct plan *p, uint32_t refused, const struct sheet *s) {
    uint8_t bytes[DRIVE_PLAN_BYTES];
    put_plan(p, bytes);
    try_write_lengths(pages, bytes, refused, s);
}

/* One number of the plan "A and B, shared" changed, and what the writer then answers. */
static const struct {
    uint32_t number;
    unsigned place, value;
} changes[] = {
    /* n; k of A and of B; T of A and of B */
    {3, 0, 0}, {3, 0, 7}, {3, 0, 256 + 2}, {3, 0, 65535},
    {4, 1, 0}, {4, 27, 9}, {4, 27, 256 + 2}, {4, 1, 65535},
    {6, 2, 0}, {6, 28, 1001}, {6, 28, 1024 + 3}, {6, 2, 65535}, {8, 2, 3},
    /* the second low and the second high of A and of B, the first high of B; weights */
    {7, 4, 4}, {7, 30, 0}, {7, 4, 4096 + 2},
    {7, 12, 4096}, {7, 38, 1}, {7, 12, 4096 + 3}, {7, 38, 65535}, {7, 37, 5},
    {7, 20, 0}, {8, 20, 4}, {8, 19, 2}, {8, 19, 1024 + 1}, {8, 46, 65535},
    /* entries */
    {9, 159, 6}, {9, 159, 7}, {9, 159, 11}, {9, 159, 15}, {9, 159, 16}, {9, 158, 2}, {9, 158, 256 + 1}, {9, 159, 256 + 9},
    {9, 157, 65535}, {10, 158, 0}, {10, 157, 9}, {10, 158, 8},
};

/* Breaks one rule of "A and B, shared"; from 11 down to 3 each can be broken with those above it. */
static void break_rule(struct plan *p, uint32_t number) {
    static const uint16_t join_first[3] = {DRIVE_ED1_SHARED, 0, 1};
    switch (number) {
    case 3: p->components = 7; break;
    case 4: p->component[0].count = 9; break;
    case 6: p->component[1].total = 1001; break;
    case 7: p->component[0].focal[1].high = 1; break;
    case 8: p->component[1].focal[0].weight++; break;
    case 9: p->entry[2] = 256 + 9; break;
    case 10:
        for (unsigned i = 0; i < 3; i++) p->entry[i] = p->entry[i] == 1 ? 0 : p->entry[i];
        break;
    default: memcpy(p->entry, join_first, sizeof join_first); break;
    }
}

/* The plan with every place that is not in use filled. */
static struct plan with_rubbish(struct plan p) {
    static const struct focal rubbish = {65535, 7, 300};
    for (unsigned i = 0; i < DRIVE_MODULES_MAX; i++) {
        if (i >= p.components) p.component[i].count = p.component[i].total = 9 + i;
        for (unsigned j = i < p.components ? p.component[i].count : 0; j < DRIVE_MODULE_INTERVALS_MAX; j++)
            p.component[i].focal[j] = rubbish;
    }
    for (unsigned i = 2 * p.components - 1; i < DRIVE_ENTRIES_MAX; i++) p.entry[i] = (uint16_t)(7 + 100 * i);
    return p;
}

static void test_writer(void) {
    static const uint32_t rules[] = {3, 4, 6, 7, 8, 9, 10, 11};
    struct write_pages pages = {make_fence(ROOM), make_fence(ROOM), make_fence(ROOM)};
    const struct plan good = two(A, B, DRIVE_ED1_SHARED), full = longest(), rubbish = with_rubbish(good), rests = most_pairs();
    const struct sheet sheet = make_sheet(&good), full_sheet = make_sheet(&full), rests_sheet = make_sheet(&rests);
    uint8_t bytes[DRIVE_PLAN_BYTES];
    struct plan p;

    try_write_plan(&pages, &good, 0, &sheet);
    try_write_plan(&pages, &rubbish, 0, &sheet);
    try_write_plan(&pages, &full, 0, &full_sheet);
    try_write_plan(&pages, &rests, 0, &rests_sheet);
    for (size_t i = 0; i < sizeof changes / sizeof *changes; i++) {
        put_plan(&good, bytes);
        bytes[2 * changes[i].place] = (uint8_t)(changes[i].value / 256);
        bytes[2 * changes[i].place + 1] = (uint8_t)(changes[i].value % 256);
        try_write_lengths(&pages, bytes, changes[i].number, &sheet);
    }
    p = good, p.component[0].focal[0].weight = 65535, p.component[0].focal[1].weight = 5; /* 65,536 above T */
    try_write_plan(&pages, &p, 8, &sheet);
    p = good, p.entry[1] = DRIVE_ED1_SHARED, p.entry[2] = 1; /* the join one place early */
    try_write_plan(&pages, &p, 11, &sheet);
    finish("drive_write_sheet: every number that it has, buffers of every length, nothing else touched");

    for (unsigned i = 0; i < 8; i++) {
        for (unsigned j = 0; j <= i; j++) {
            p = good;
            break_rule(&p, rules[i]);
            if (j < i) break_rule(&p, rules[j]);
            try_write_plan(&pages, &p, rules[j], &sheet);
        }
    }
    finish("drive_write_sheet: of two broken rules the first gives the number");
}

/* What is written reads back, and what is read is written back byte for byte. A rest is in neither. */
static void test_round_trips(void) {
    const struct plan plans[] = {
        two(A, B, DRIVE_ED1_SERIES), two(W0, W1, DRIVE_ED1_SPARE), three(5), widest(), longest(),
        one(part), one(part_added), two(nine(0, 1), part, DRIVE_ED1_SHARED), most_pairs(),
    };
    uint8_t want[DRIVE_PLAN_BYTES], rubbish[DRIVE_PLAN_BYTES], plan[DRIVE_PLAN_BYTES], length[DRIVE_LENGTH_BYTES];
    uint8_t sheet[DRIVE_SHEET_BYTES_MAX], again[DRIVE_SHEET_BYTES_MAX];
    for (size_t i = 0; i < sizeof plans / sizeof *plans; i++) {
        struct plan p = with_rubbish(plans[i]);
        struct sheet s = make_sheet(&plans[i]);
        put_plan(&plans[i], want);
        put_plan(&p, rubbish);
        uint32_t number = drive_write_sheet(rubbish, sizeof rubbish, sheet, sizeof sheet, length, sizeof length);
        EXPECT(number == 0 && drive_read_length(length) == s.length && memcmp(sheet, s.bytes, s.length) == 0, "plan %zu written", i);
        number = drive_read_sheet(sheet, s.length, plan, sizeof plan);
        EXPECT(number == 0 && memcmp(plan, want, sizeof plan) == 0, "plan %zu read back", i);
        number = drive_write_sheet(plan, sizeof plan, again, sizeof again, length, sizeof length);
        EXPECT(number == 0 && memcmp(again, sheet, s.length) == 0, "plan %zu written again", i);
    }
    finish("plans written and read back, sheets read and written back");
}

/* One row of a table such as the bench table, by drive_bounds and by drive_set with a demand before it that nothing reaches: one above
 * the greatest speed. */
static void bench_row(const char *name, struct plan p, uint32_t demand, uint32_t allowance, uint32_t number, const uint64_t *want,
                      const struct drive_interval *intervals) {
    static uint8_t list[DRIVE_LIST_BYTES], answer[DRIVE_ANSWER_BYTES];
    static const uint64_t zeros[5] = {0, 0, 0, 0, 0};
    struct sheet s = make_sheet(&p);
    uint32_t got = drive_bounds(s.bytes, s.length, demand, allowance, list, sizeof list, answer, sizeof answer);
    EXPECT(got == number, "%s: number %u, not %u", name, got, number);
    EXPECT(values_are(drive_read_answer(answer), number == 0 ? want : zeros), "%s: the answer at demand %u", name, demand);
    EXPECT(number != 0 || descends(list, want[4]), "%s: the order of the list", name);
    EXPECT(number != 0 || greatest_high(list, want[4]) <= DRIVE_SPEED_MAX, "%s: a speed above the greatest", name);
    EXPECT(number != 0 || intervals == NULL || list_is(list, intervals, (size_t)want[4]), "%s: the list", name);

    uint8_t demands[2 * DRIVE_DEMAND_BYTES], shares[2 * DRIVE_SHARES_BYTES], others[DRIVE_SET_ANSWER_BYTES];
    fill_marks(shares, sizeof shares);
    drive_put_demand(demands, 0, DRIVE_SPEED_MAX + 1);
    drive_put_demand(demands, 1, demand);
    got = drive_set(s.bytes, s.length, demands, sizeof demands, allowance, list, sizeof list, shares, sizeof shares, others,
                    sizeof others);
    EXPECT(got == number, "%s: drive_set: number %u, not %u", name, got, number);
    if (number == 0) {
        EXPECT(holds_zeros(shares, 0, DRIVE_SHARES_BYTES), "%s: drive_set: the shares above the greatest speed", name);
        EXPECT(values_are(drive_read_shares(others, shares, 1), want), "%s: drive_set: the answer at demand %u", name, demand);
        EXPECT(descends(list, want[4]), "%s: drive_set: the order of the list", name);
        EXPECT(intervals == NULL || list_is(list, intervals, (size_t)want[4]), "%s: drive_set: the list", name);
    } else {
        EXPECT(holds_zeros(others, 0, sizeof others), "%s: drive_set: the answer of a refusal", name);
        EXPECT(holds_marks(shares, 0, sizeof shares), "%s: drive_set: the shares of a refusal", name);
    }
}

static void test_bench_table(void) {
    static const struct drive_interval p1[] = {{1, 3, 3}, {1, 1, 6}, {0, 0, 3}};
    static const struct drive_interval p6[] = {{2, 4, 3}, {2, 3, 6}, {1, 4, 1}, {1, 1, 2}};
    static const struct drive_interval p7[] = {{7, 10, 429}, {3, 8, 2211}, {0, 6, 5360}, {0, 4, 2000}};
    static const uint64_t at_2[] = {12, 0, 3, 4, 3}, at_7[] = {12, 0, 3, 4, 4}, at_8[] = {12, 0, 0, 4, 4};
    static const uint64_t at_0[] = {12, 12, 12, 4, 4};
    static const uint64_t spare_at_2[] = {12, 9, 10, 4, 4}, w_at_7[] = {10000, 429, 2640, 6, 4}, d4[] = {256, 56, 56, 320, 256};
    static const uint64_t t_1000[] = {1000, 1000, 1000, 0, 1};
    struct component c = {1000, 1, {{5, 9, 1000}}};
    struct plan shared = two(A, B, DRIVE_ED1_SHARED), t = one(c);
    bench_row("P1", two(A, B, DRIVE_ED1_SERIES), 2, 1000, 0, at_2, p1);
    bench_row("P2, P3", shared, 3, 1000, 0, p2_answer, p2_list);
    bench_row("P4, demand 7", shared, 7, 1000, 0, at_7, p2_list);
    bench_row("P4, demand 8", shared, 8, 1000, 0, at_8, p2_list);
    bench_row("P5", shared, 0, 1000, 0, at_0, p2_list);
    bench_row("P6", two(A, B, DRIVE_ED1_SPARE), 2, 1000, 0, spare_at_2, p6);
    bench_row("P7, P8", two(W0, W1, DRIVE_ED1_SERIES), 7, 1000, 0, w_at_7, p7);
    bench_row("P9, allowance 4", shared, 3, 4, 0, p2_answer, p2_list);
    bench_row("P9, allowance 3", shared, 3, 3, 13, NULL, NULL);
    bench_row("D1, D2, D3 with 4", three(4), 200, 1000, 0, d4, NULL);
    bench_row("D1, D2, D3 with 5, allowance 384", three(5), 0, 384, 14, NULL, NULL);
    bench_row("D1, D2, D3 with 5, allowance 383", three(5), 0, 383, 13, NULL, NULL);
    bench_row("T 1,000", t, 0, 0, 0, t_1000, NULL);
    t.component[0].total = 1001;
    bench_row("T 1,001", t, 0, 0, 6, NULL, NULL);
    finish("the bench table");
}

/* drive_speed at a target against drive_bounds at the speed, which has the same answers and the same list, and at one above it, which
 * has a belief below the target. Answers the speed. */
static uint64_t speed_at(const struct sheet *s, uint32_t target) {
    static uint8_t list[DRIVE_LIST_BYTES], answer[DRIVE_SPEED_ANSWER_BYTES];
    static uint8_t bounds_list[DRIVE_LIST_BYTES], bounds_answer[DRIVE_ANSWER_BYTES];
    memset(list, 0xEE, sizeof list);
    memset(answer, 0xEE, sizeof answer);
    uint32_t got = drive_speed(s->bytes, s->length, target, DRIVE_PAIRS_MAX, list, sizeof list, answer, sizeof answer);
    uint64_t speed = drive_read(answer + DRIVE_ANSWER_BYTES, 8);
    EXPECT(got == 0 && speed <= DRIVE_SPEED_MAX, "target %u: number %u, speed %llu", target, got, (unsigned long long)speed);

    got = drive_bounds(s->bytes, s->length, (uint32_t)speed, DRIVE_PAIRS_MAX, bounds_list, sizeof bounds_list, bounds_answer,
                       sizeof bounds_answer);
    EXPECT(got == 0 && memcmp(answer, bounds_answer, sizeof bounds_answer) == 0, "target %u: other answers at the speed", target);
    EXPECT(memcmp(list, bounds_list, sizeof list) == 0, "target %u: another list", target);
    EXPECT(descends(list, drive_read_answer(answer).intervals), "target %u: the order of the list", target);
    EXPECT(meets(drive_read_answer(bounds_answer), target), "target %u: the belief is below it", target);

    got = drive_bounds(s->bytes, s->length, (uint32_t)speed + 1, DRIVE_PAIRS_MAX, bounds_list, sizeof bounds_list, bounds_answer,
                       sizeof bounds_answer);
    EXPECT(got == 0 && !meets(drive_read_answer(bounds_answer), target), "target %u: a greater speed meets it", target);
    return speed;
}

static void speed_row(const char *name, struct plan p, uint32_t target, uint64_t want) {
    struct sheet s = make_sheet(&p);
    uint64_t got = speed_at(&s, target);
    EXPECT(got == want, "%s: speed %llu at target %u, not %llu", name, (unsigned long long)got, target, (unsigned long long)want);
}

/* Six modules with T 1,000. Each runs at 1,500 or more, except for `first` (module 0) or `others` (each other module) of the 1,000,
 * when it runs at 900 or more. The others are joined by `join`, and module 0 with them by `last`. */
static struct plan six(unsigned first, unsigned others, unsigned join, unsigned last) {
    const uint16_t j = (uint16_t)join, entry[DRIVE_ENTRIES_MAX] = {0, 1, 2, 3, 4, 5, j, j, j, j, (uint16_t)last};
    const struct component fast = {1000, 1, {{1500, 2000, 1000}}};
    struct component c[DRIVE_MODULES_MAX];
    for (unsigned i = 0; i < DRIVE_MODULES_MAX; i++) {
        unsigned slow = i == 0 ? first : others;
        const struct component both = {1000, 2, {{900, 1100, slow}, {1500, 2000, 1000 - slow}}};
        c[i] = slow > 0 ? both : fast;
    }
    return make_plan(DRIVE_MODULES_MAX, c, entry);
}

static void test_speeds(void) {
    const struct plan w = two(W0, W1, DRIVE_ED1_SERIES), shared = two(A, B, DRIVE_ED1_SHARED);
    const struct plan swept[] = {
        w, shared, three(4), two_groups(1, DRIVE_ED1_SERIES), longest(), one(part), two(nine(1, 1), nine(8, 8), DRIVE_ED1_SERIES),
    };
    const uint32_t w_targets[] = {1, 42, 43, 264, 265, DRIVE_TARGET_MAX};
    const uint64_t w_speeds[] = {7, 7, 3, 3, 0, 0};
    for (unsigned i = 0; i < 6; i++) speed_row("W", w, w_targets[i], w_speeds[i]);
    speed_row("the most pairs without a rest", widest(), 1, 239);
    speed_row("the most pairs without a rest", widest(), DRIVE_TARGET_MAX, 0);
    speed_row("the most pairs", most_pairs(), 1, 70);
    speed_row("the most pairs", most_pairs(), 500, 33);
    speed_row("the most pairs", most_pairs(), DRIVE_TARGET_MAX, 0);
    finish("drive_speed: the speeds of W, and those of the sheets with the most pairs");

    speed_row("all of 10^18 but 1", six(1, 1, DRIVE_ED1_SPARE, DRIVE_ED1_SPARE), 999, 1500);
    speed_row("all of 10^18 but 1", six(1, 1, DRIVE_ED1_SPARE, DRIVE_ED1_SPARE), 1000, 900);
    speed_row("950 * 10^15", six(50, 0, DRIVE_ED1_SERIES, DRIVE_ED1_SERIES), 950, 1500);
    speed_row("950 * 10^15", six(50, 0, DRIVE_ED1_SERIES, DRIVE_ED1_SERIES), 951, 900);
    speed_row("950 * 10^15 but 950", six(50, 1, DRIVE_ED1_SPARE, DRIVE_ED1_SERIES), 949, 1500);
    speed_row("950 * 10^15 but 950", six(50, 1, DRIVE_ED1_SPARE, DRIVE_ED1_SERIES), 950, 900);
    speed_row("1 of 10^18", six(999, 999, DRIVE_ED1_SERIES, DRIVE_ED1_SERIES), 1, 900);
    finish("drive_speed: beliefs of a total of 10^18 that meet the target exactly, and that miss it by little");

    for (size_t i = 0; i < sizeof swept / sizeof *swept; i++) {
        struct sheet s = make_sheet(&swept[i]);
        for (uint32_t target = 1; target <= DRIVE_TARGET_MAX; target++) speed_at(&s, target);
    }
    finish("drive_speed: every target against drive_bounds");
}

/* The lists of modules whose weights add to less than T: the rest stands in its place of the order, or is added. */
static void test_rest_lists(void) {
    static const uint32_t demands[] = {0, 1, 1200, 1201, 2000, 2001, 4095, 4096};
    static const uint64_t part_answers[][5] = {
        {1000, 1000, 1000, 0, 3}, {1000, 900, 960, 0, 3}, {1000, 900, 960, 0, 3}, {1000, 0, 960, 0, 3},
        {1000, 0, 960, 0, 3},     {1000, 0, 60, 0, 3},    {1000, 0, 60, 0, 3},    {1000, 0, 0, 0, 3},
    };
    static const struct drive_interval part_list[] = {{1200, 2000, 900}, {0, 4095, 60}, {0, 0, 40}};
    for (unsigned i = 0; i < 8; i++) {
        bench_row("940 of 1,000", one(part), demands[i], 0, 0, part_answers[i], part_list);
        bench_row("940 of 1,000 and 25 that are listed", one(part_added), demands[i], 0, 0, part_answers[i], part_list);
    }

    static const struct component from_0 = {
        9, 8, {{0, 1, 1}, {0, 2, 1}, {0, 3, 1}, {0, 4, 1}, {0, 5, 1}, {0, 6, 1}, {0, 7, 1}, {0, 8, 1}},
    };
    static const struct component any = {
        9, 8, {{0, 0, 1}, {0, 4095, 1}, {1, 1, 1}, {2, 2, 1}, {3, 3, 1}, {4, 4, 1}, {5, 5, 1}, {6, 6, 1}},
    };
    static const struct drive_interval last[] = {{8, 8, 1}, {7, 7, 1}, {6, 6, 1}, {5, 5, 1},   {4, 4, 1},
                                                 {3, 3, 1}, {2, 2, 1}, {1, 1, 1}, {0, 4095, 1}};
    static const struct drive_interval eighth[] = {{7, 7, 1}, {6, 6, 1}, {5, 5, 1},    {4, 4, 1}, {3, 3, 1},
                                                   {2, 2, 1}, {1, 1, 1}, {0, 4095, 1}, {0, 0, 1}};
    static const struct drive_interval first[] = {{0, 4095, 1}, {0, 8, 1}, {0, 7, 1}, {0, 6, 1}, {0, 5, 1},
                                                  {0, 4, 1},    {0, 3, 1}, {0, 2, 1}, {0, 1, 1}};
    static const struct drive_interval added[] = {{6, 6, 1}, {5, 5, 1}, {4, 4, 1},    {3, 3, 1},
                                                  {2, 2, 1}, {1, 1, 1}, {0, 4095, 2}, {0, 0, 1}};
    static const uint64_t at_1[][5] = {{9, 8, 9, 0, 9}, {9, 7, 8, 0, 9}, {9, 0, 9, 0, 9}, {9, 6, 8, 0, 8}};
    static const uint64_t nines[] = {81, 0, 17, 81, 81};
    bench_row("eight and the rest behind them", one(nine(1, 1)), 1, 0, 0, at_1[0], last);
    bench_row("eight and the rest among them", one(nine(0, 1)), 1, 0, 0, at_1[1], eighth);
    bench_row("eight and the rest before them", one(from_0), 1, 0, 0, at_1[2], first);
    bench_row("eight and the rest in one of them", one(any), 1, 0, 0, at_1[3], added);
    bench_row("nine with nine, allowance 81", two(nine(1, 1), nine(9, 8), DRIVE_ED1_SHARED), 4095, 81, 0, nines, NULL);
    bench_row("nine with nine, allowance 80", two(nine(1, 1), nine(9, 8), DRIVE_ED1_SHARED), 4095, 80, 13, NULL, NULL);
    finish("rests: 940 of 1,000, lists of nine, a rest that is added to a listed interval");
}

/* Rests in joins of each kind, as intervals that form pairs; rests of all but 1 of 1,000. */
static void test_rest_joins(void) {
    static const struct component a = {5, 2, {{0, 0, 1}, {2, 3, 3}}}; /* A with a rest of 1 */
    static const struct drive_interval series[] = {{1, 3, 3}, {1, 1, 6}, {0, 4, 1}, {0, 1, 2}, {0, 0, 3}};
    static const struct drive_interval shared[] = {{3, 7, 3}, {3, 4, 6}, {1, 4095, 3}, {1, 4, 1}, {1, 1, 2}};
    static const struct drive_interval spare[] = {{2, 4, 3}, {2, 3, 6}, {1, 4095, 3}, {1, 4, 1}, {1, 1, 2}};
    static const uint64_t series_at_2[] = {15, 0, 4, 6, 5}, shared_at_3[] = {15, 9, 13, 6, 5}, spare_at_4[] = {15, 0, 7, 6, 5};
    bench_row("a rest in series", two(a, B, DRIVE_ED1_SERIES), 2, 6, 0, series_at_2, series);
    bench_row("a rest in a shared join", two(a, B, DRIVE_ED1_SHARED), 3, 6, 0, shared_at_3, shared);
    bench_row("a rest in a spare join", two(a, B, DRIVE_ED1_SPARE), 4, 6, 0, spare_at_4, spare);
    struct plan d = three(4);
    d.component[2].total = 5;
    bench_row("D1, D2, D3 with 4 and a rest, allowance 384", d, 0, 384, 14, NULL, NULL);
    bench_row("D1, D2, D3 with 4 and a rest, allowance 383", d, 0, 383, 13, NULL, NULL);

    static const struct component hour = {1000, 1, {{5, 9, 1}}};
    static const struct drive_interval hour_list[] = {{5, 9, 1}, {0, 4095, 999}};
    static const struct drive_interval six_hours[] = {
        {30, 54, 1},                 {25, 4095, 5994},             {20, 4095, 14970015u},          {15, 4095, 19940059980u},
        {10, 4095, 14940089940015u}, {5, 4095, 5970059940029994u}, {0, 4095, 994014980014994001u},
    };
    static const uint64_t hour_at_5[] = {1000, 1, 1000, 0, 2}, hour_at_10[] = {1000, 0, 999, 0, 2};
    static const uint64_t six_at_5[] = {1000000000000000000u, 5985019985005999u, 1000000000000000000u, 40, 7};
    struct plan hours = six(0, 0, DRIVE_ED1_SHARED, DRIVE_ED1_SHARED);
    for (unsigned i = 0; i < DRIVE_MODULES_MAX; i++) hours.component[i] = hour;
    bench_row("1 of 1,000, demand 5", one(hour), 5, 0, 0, hour_at_5, hour_list);
    bench_row("1 of 1,000, demand 10", one(hour), 10, 0, 0, hour_at_10, hour_list);
    bench_row("1 of 1,000 six times", hours, 5, 40, 0, six_at_5, six_hours);
    finish("rests: in joins of each kind, the pairs that they form, the greatest");
}

/* Where of 1,000 units so many are at 1 or more, that is the belief at 1, and the speed is 0 at the next target. In series a rest
 * leaves no speed above 0 for all of the time. */
static void test_rest_speeds(void) {
    for (unsigned weight = 1; weight <= 1000; weight++) {
        const struct component c = {1000, 1, {{1, 4095, weight}}};
        const uint64_t at_low[] = {1000, weight, 1000, 0, weight < 1000 ? 2u : 1u};
        bench_row("a rest of every size", one(c), 1, 0, 0, at_low, NULL);
        speed_row("a rest of every size", one(c), weight, 1);
        if (weight < 1000) speed_row("a rest of every size", one(c), weight + 1, 0);
    }
    static const struct component fast = {1000, 1, {{1200, 2000, 940}}}, steady = {10, 1, {{1500, 1500, 10}}};
    static const uint64_t join_speeds[][3] = {{1200, 0, 0}, {2700, 1500, 1500}, {1500, 1500, 1500}};
    static const uint32_t join_targets[] = {940, 941, DRIVE_TARGET_MAX};
    for (unsigned join = DRIVE_ED1_SERIES; join <= DRIVE_ED1_SPARE; join++)
        for (unsigned i = 0; i < 3; i++)
            speed_row("a rest of 60", two(fast, steady, join), join_targets[i], join_speeds[join - DRIVE_ED1_SERIES][i]);
    finish("rests: of every size, what the logs vouch for in spite of them");
}

/* What each of the calls answers on a plan and its sheet. */
static void all_calls(const char *name, struct plan p, uint32_t number) {
    static uint8_t list[DRIVE_LIST_BYTES], answer[DRIVE_SPEED_ANSWER_BYTES], read[DRIVE_PLAN_BYTES], written[DRIVE_SHEET_BYTES_MAX];
    struct sheet s = make_sheet(&p);
    uint8_t plan[DRIVE_PLAN_BYTES], demand[DRIVE_DEMAND_BYTES] = {0}, shares[DRIVE_SHARES_BYTES];
    put_plan(&p, plan);
    const uint32_t got[] = {
        drive_bounds(s.bytes, s.length, 0, DRIVE_PAIRS_MAX, list, sizeof list, answer, sizeof answer),
        drive_set(s.bytes, s.length, demand, sizeof demand, DRIVE_PAIRS_MAX, list, sizeof list, shares, sizeof shares, answer,
                  sizeof answer),
        drive_speed(s.bytes, s.length, 1, DRIVE_PAIRS_MAX, list, sizeof list, answer, sizeof answer),
        drive_read_sheet(s.bytes, s.length, read, sizeof read),
        drive_write_sheet(plan, sizeof plan, written, sizeof written, answer, sizeof answer),
    };
    for (unsigned i = 0; i < 5; i++) EXPECT(got[i] == number, "%s: number %u of call %u, not %u", name, got[i], i, number);
}

/* Number 8 on both sides of its border, at each weight of six modules; sums that would be at most T if they were cut to 10 bits. */
static void test_sums(void) {
    static const struct component above[] = {
        {1, 1, {{5, 9, 2}}},    {1, 2, {{5, 9, 1}, {6, 9, 1}}},    {1000, 1, {{5, 9, 1001}}}, {1, 1, {{5, 9, 1023}}},
        {999, 1, {{5, 9, 1000}}}, {4, 2, {{5, 9, 1023}, {6, 9, 5}}}, {1000, 2, {{5, 9, 1023}, {6, 9, 1}}},
    };
    static const struct component up_to[] = {
        {1, 1, {{5, 9, 1}}}, {2, 1, {{5, 9, 1}}}, {1000, 1, {{5, 9, 1000}}}, {1000, 1, {{5, 9, 999}}}, {1000, 1, {{5, 9, 1}}},
    };
    for (size_t i = 0; i < sizeof above / sizeof *above; i++) all_calls("above T", one(above[i]), 8);
    for (size_t i = 0; i < sizeof up_to / sizeof *up_to; i++) all_calls("up to T", one(up_to[i]), 0);
    for (unsigned i = 0; i < DRIVE_MODULES_MAX * DRIVE_MODULE_INTERVALS_MAX; i++) {
        struct plan p = longest();
        unsigned *weight = &p.component[i / DRIVE_MODULE_INTERVALS_MAX].focal[i % DRIVE_MODULE_INTERVALS_MAX].weight;
        ++*weight;
        all_calls("one above T", p, 8);
        *weight -= 2;
        all_calls("one below T", p, 0);
    }
    finish("number 8: sums one above T, at T and one below, by every call");
}

/* One module's list is its block the other way round, with the rest in its place of that order. */
static void test_leaf_order(void) {
    static const struct drive_interval w0[] = {{7, 10, 13}, {3, 8, 67}, {0, 4, 20}}, equal_lows[] = {{1, 4, 1}, {1, 1, 2}};
    static const struct drive_interval whole[] = {{9, 9, 8}, {7, 8, 7}, {7, 7, 6}, {2, 9, 5},
                                                  {2, 2, 4}, {0, 9, 3}, {0, 5, 2}, {0, 0, 1}};
    static const struct drive_interval rest[] = {{9, 9, 8},    {7, 8, 7}, {7, 7, 6}, {2, 9, 5}, {2, 2, 4},
                                                 {0, 4095, 4}, {0, 9, 3}, {0, 5, 2}, {0, 0, 1}};
    static const uint64_t w0_at_7[] = {100, 13, 80, 0, 3}, equal_at_2[] = {3, 0, 1, 0, 2};
    static const uint64_t whole_at_7[] = {36, 21, 29, 0, 8}, rest_at_7[] = {40, 21, 33, 0, 9};
    struct component with_rest = eight;
    with_rest.total = 40;
    bench_row("three intervals", one(W0), 7, 0, 0, w0_at_7, w0);
    bench_row("two intervals with one low", one(B), 2, 0, 0, equal_at_2, equal_lows);
    bench_row("eight intervals", one(eight), 7, 0, 0, whole_at_7, whole);
    bench_row("eight intervals and a rest", one(with_rest), 7, 0, 0, rest_at_7, rest);
    finish("the order: one module's list, its block the other way round");
}

/* A block that descends, as a whole or in one place, is refused with 7 by every call. */
static void test_block_order(void) {
    const struct component blocks[] = {A, B, W0, W1, part, part_added, eight};
    for (size_t i = 0; i < sizeof blocks / sizeof *blocks; i++) {
        all_calls("a block that ascends", one(blocks[i]), 0);
        all_calls("a block that descends", one(reversed(blocks[i])), 7);
    }
    for (unsigned i = 0; i + 1 < eight.count; i++) {
        struct component c = eight;
        c.focal[i] = eight.focal[i + 1];
        c.focal[i + 1] = eight.focal[i];
        all_calls("a block that descends in one place", one(c), 7);
    }
    for (unsigned i = 0; i < DRIVE_MODULES_MAX; i++) {
        struct plan p = longest();
        p.component[i] = reversed(p.component[i]);
        all_calls("one of six blocks descends", p, 7);
    }
    finish("the order: blocks that descend, number 7 by every call");
}

/* The belief at a demand: the weights from the front, up to the first low below the demand or the last record. */
static uint64_t belief_from_front(const uint8_t *list, uint64_t intervals, uint32_t demand) {
    uint64_t belief = 0;
    for (size_t i = 0; i < intervals && drive_read_interval(list, i).low >= demand; i++) belief += drive_read_interval(list, i).weight;
    return belief;
}

static void same_belief(const struct sheet *s, const uint8_t *list, uint64_t intervals, uint32_t demand) {
    static uint8_t other[DRIVE_LIST_BYTES], answer[DRIVE_ANSWER_BYTES];
    uint32_t got = drive_bounds(s->bytes, s->length, demand, DRIVE_PAIRS_MAX, other, sizeof other, answer, sizeof answer);
    EXPECT(got == 0 && drive_read_answer(answer).belief == belief_from_front(list, intervals, demand), "the sum at demand %u", demand);
}

/* What the header says of a list's weights, added up from the front: they are the belief at each demand, at the last record of each low
 * the belief at that low, and they reach a target at the low that drive_speed answers. */
static void sums_from_front(const struct plan *p) {
    static uint8_t list[DRIVE_LIST_BYTES], other[DRIVE_LIST_BYTES], answer[DRIVE_SPEED_ANSWER_BYTES];
    static const uint32_t targets[] = {1, 250, 500, 750, 999, DRIVE_TARGET_MAX};
    enum { ASKED = sizeof targets / sizeof *targets };
    struct sheet s = make_sheet(p);
    uint32_t got = drive_bounds(s.bytes, s.length, 0, DRIVE_PAIRS_MAX, list, sizeof list, answer, sizeof answer);
    struct drive_answer sum = drive_read_answer(answer);
    unsigned reached = 0;
    EXPECT(got == 0, "number %u", got);
    sum.belief = 0;
    for (size_t i = 0; i < sum.intervals; i++) {
        struct drive_interval r = drive_read_interval(list, i);
        sum.belief += r.weight;
        for (; reached < ASKED && meets(sum, targets[reached]); reached++) {
            got = drive_speed(s.bytes, s.length, targets[reached], DRIVE_PAIRS_MAX, other, sizeof other, answer, sizeof answer);
            EXPECT(got == 0 && drive_read_speed_answer(answer).speed == r.low, "target %u is reached at %u", targets[reached], r.low);
        }
        if (i + 1 < sum.intervals && drive_read_interval(list, i + 1).low == r.low) continue;
        got = drive_bounds(s.bytes, s.length, r.low, DRIVE_PAIRS_MAX, other, sizeof other, answer, sizeof answer);
        EXPECT(got == 0 && drive_read_answer(answer).belief == sum.belief, "the sum up to record %zu, low %u", i, r.low);
        same_belief(&s, list, sum.intervals, r.low + 1);
    }
    same_belief(&s, list, sum.intervals, 0);
    same_belief(&s, list, sum.intervals, UINT32_MAX);
    EXPECT(reached == ASKED && sum.belief == sum.total, "the sum of all records");
}

static void test_sums_from_front(void) {
    const struct plan plans[] = {
        two(W0, W1, DRIVE_ED1_SERIES), two(A, B, DRIVE_ED1_SHARED), three(4), six(50, 1, DRIVE_ED1_SPARE, DRIVE_ED1_SERIES),
        longest(), widest(), one(part), one(eight), two(eight, nine(1, 1), DRIVE_ED1_SPARE), most_pairs(),
    };
    for (size_t i = 0; i < sizeof plans / sizeof *plans; i++) sums_from_front(&plans[i]);
    finish("the order: beliefs and speeds from the front of the list");
}

/* Every two speeds that add to 4,094, 4,095 or 4,096, and some others: the sum or 4,095, whichever is smaller. */
static void test_ceiling_sums(void) {
    static const unsigned others[][3] = {{4095, 2, 4095}, {4095, 4095, 4095}, {3000, 3000, 4095}, {1500, 1500, 3000}, {0, 0, 0}};
    static const uint64_t met[] = {1, 1, 1, 1, 1}, missed[] = {1, 0, 0, 1, 1};
    for (unsigned x = 0; x <= DRIVE_SPEED_MAX; x++) {
        for (unsigned sum = DRIVE_SPEED_MAX - 1; sum <= DRIVE_SPEED_MAX + 1; sum++) {
            if (sum < x || sum - x > DRIVE_SPEED_MAX) continue;
            const unsigned want = sum < DRIVE_SPEED_MAX ? sum : DRIVE_SPEED_MAX;
            const struct drive_interval list = {want, want, 1};
            bench_row("a sum", two(always(x), always(sum - x), DRIVE_ED1_SHARED), want, 1, 0, met, &list);
        }
    }
    for (unsigned i = 0; i < sizeof others / sizeof *others; i++) {
        const struct drive_interval list = {others[i][2], others[i][2], 1};
        const struct plan p = two(always(others[i][0]), always(others[i][1]), DRIVE_ED1_SHARED);
        bench_row("another sum", p, others[i][2], 1, 0, met, &list);
        bench_row("another sum, one above it", p, others[i][2] + 1, 1, 0, missed, &list);
    }
    for (unsigned target = 1; target <= DRIVE_TARGET_MAX; target++) {
        speed_row("4,095 with 1", two(always(4095), always(1), DRIVE_ED1_SHARED), target, 4095);
        speed_row("2,047 with 2,047", two(always(2047), always(2047), DRIVE_ED1_SHARED), target, 4094);
    }
    finish("the ceiling: sums below 4,095, at it and above");
}

/* Two modules, and the list of their shared join: two highs add to exactly 4,095, one interval is cut at its high, one at both ends. */
static const struct component cut_x = {4, 2, {{1000, 3500, 1}, {3000, 3500, 3}}}, cut_y = {3, 2, {{500, 595, 1}, {2000, 2500, 2}}};
static const struct drive_interval cut_list[] = {{4095, 4095, 6}, {3500, 4095, 3}, {3000, 4095, 2}, {1500, 4095, 1}};

/* D1 and D2 of the bench table with a third module of the single speeds 0, 64, 128, `fourth` and 4,095, weight 1 each. */
static struct plan up_to_ceiling(unsigned fourth) {
    struct plan p = three(5);
    p.component[2].focal[3].low = p.component[2].focal[3].high = fourth;
    p.component[2].focal[4].low = p.component[2].focal[4].high = DRIVE_SPEED_MAX;
    return p;
}

static void test_ceiling_lists(void) {
    static const uint64_t cut_at_3500[] = {12, 9, 12, 4, 4}, cut_at_4095[] = {12, 6, 12, 4, 4}, cut_at_4096[] = {12, 0, 0, 4, 4};
    const struct plan cut = two(cut_x, cut_y, DRIVE_ED1_SHARED);
    bench_row("lows and highs, demand 3,500", cut, 3500, 4, 0, cut_at_3500, cut_list);
    bench_row("lows and highs, demand 4,095", cut, 4095, 4, 0, cut_at_4095, cut_list);
    bench_row("lows and highs, demand 4,096", cut, 4096, 4, 0, cut_at_4096, cut_list);
    speed_row("lows and highs", cut, 500, 4095);
    speed_row("lows and highs", cut, 501, 3500);

    /* Nine sums, of which seven are 4,095 or above; three intervals form six pairs with two others. */
    static const struct component fast = {6, 3, {{4000, 4000, 1}, {4050, 4050, 2}, {4095, 4095, 3}}};
    static const struct component more = {4, 3, {{0, 0, 1}, {100, 100, 1}, {200, 200, 2}}};
    static const struct component last = {5, 2, {{0, 4095, 1}, {4060, 4095, 4}}};
    static const struct drive_interval short_list[] = {{4095, 4095, 21}, {4050, 4050, 2}, {4000, 4000, 1}};
    static const struct drive_interval last_list[] = {
        {4060, 4095, 84}, {4050, 4050, 8}, {4000, 4000, 4}, {0, 4095, 21}, {0, 4050, 2}, {0, 4000, 1},
    };
    static const uint64_t short_at_4095[] = {24, 21, 21, 9, 3}, last_at_4050[] = {120, 92, 115, 15, 6};
    static const uint16_t entry[] = {0, 1, DRIVE_ED1_SHARED, 2, DRIVE_ED1_SERIES};
    const struct component c[] = {fast, more, last};
    bench_row("a list that becomes shorter", two(fast, more, DRIVE_ED1_SHARED), 4095, 9, 0, short_at_4095, short_list);
    bench_row("fewer pairs behind it, allowance 15", make_plan(3, c, entry), 4050, 15, 0, last_at_4050, last_list);
    bench_row("fewer pairs behind it, allowance 14", make_plan(3, c, entry), 4050, 14, 13, NULL, NULL);

    /* Where one module has its rest, the high is 4,095; 0 with a rest and two rests give the same interval. */
    static const uint64_t nines[] = {81, 0, 17, 81, 80};
    bench_row("nine with nine, one interval twice", two(nine(0, 1), nine(8, 8), DRIVE_ED1_SHARED), 4095, 81, 0, nines, NULL);

    /* 257 sums that are 194 different speeds; 319 that are 256; 320 that are 257. */
    static const uint64_t third_at_4094[] = {320, 128, 128, 384, 194}, third_at_4095[] = {320, 127, 127, 384, 194};
    static const uint64_t most_at_4095[] = {320, 64, 64, 384, 256};
    bench_row("257 sums, demand 4,094", up_to_ceiling(4094), 4094, 384, 0, third_at_4094, NULL);
    bench_row("257 sums, demand 4,095", up_to_ceiling(4094), 4095, 384, 0, third_at_4095, NULL);
    bench_row("257 sums, allowance 383", up_to_ceiling(4094), 4095, 383, 13, NULL, NULL);
    bench_row("256 speeds", up_to_ceiling(191), 4095, 384, 0, most_at_4095, NULL);
    bench_row("257 speeds", up_to_ceiling(192), 4095, 384, 14, NULL, NULL);
    finish("the ceiling: lows and highs that are cut, intervals that become equal, pair counts, numbers 13 and 14");
}

/* The drive's list, and the answers at a demand, of a plan that is accepted. */
static struct drive_answer list_of(const struct plan *p, uint32_t demand, uint8_t *list) {
    uint8_t answer[DRIVE_ANSWER_BYTES];
    struct sheet s = make_sheet(p);
    uint32_t got = drive_bounds(s.bytes, s.length, demand, DRIVE_PAIRS_MAX, list, DRIVE_LIST_BYTES, answer, sizeof answer);
    EXPECT(got == 0, "number %u", got);
    return drive_read_answer(answer);
}

/* A module that always runs at 4,095, in series with the others, changes nothing but the pair count. */
static void no_limit(const struct plan *p) {
    static uint8_t list[DRIVE_LIST_BYTES], same_list[DRIVE_LIST_BYTES];
    static const uint32_t demands[] = {0, 1, 1500, 3500, DRIVE_SPEED_MAX - 1, DRIVE_SPEED_MAX, DRIVE_SPEED_MAX + 1};
    struct plan q = *p;
    const unsigned entries = 2 * p->components - 1;
    q.component[q.components++] = always(DRIVE_SPEED_MAX);
    q.entry[entries] = (uint16_t)p->components;
    q.entry[entries + 1] = DRIVE_ED1_SERIES;
    for (size_t i = 0; i < sizeof demands / sizeof *demands; i++) {
        struct drive_answer without = list_of(p, demands[i], list), with = list_of(&q, demands[i], same_list);
        without.pairs += without.intervals;
        EXPECT(memcmp(&without, &with, sizeof with) == 0, "4,095 in series: other answers at demand %u", demands[i]);
        EXPECT(memcmp(list, same_list, sizeof list) == 0, "4,095 in series: another list");
    }
}

static void test_ceiling_joins(void) {
    static const struct component z = {2, 2, {{2000, 4095, 1}, {4095, 4095, 1}}};
    static const struct drive_interval series[] = {
        {4095, 4095, 6}, {3500, 4095, 3}, {3000, 4095, 2}, {2000, 4095, 11}, {1500, 4095, 2},
    };
    static const struct drive_interval shared[] = {{4095, 4095, 23}, {3500, 4095, 1}};
    static const struct drive_interval spare[] = {{4095, 4095, 18}, {3500, 4095, 3}, {3000, 4095, 2}, {2000, 4095, 1}};
    static const uint64_t series_at_3500[] = {24, 9, 24, 12, 5}, shared_at_4095[] = {24, 23, 24, 12, 2};
    static const uint64_t spare_at_4095[] = {24, 18, 24, 12, 4};
    const struct component c[] = {cut_x, cut_y, z};
    static const uint16_t entry[][5] = {
        {0, 1, DRIVE_ED1_SHARED, 2, DRIVE_ED1_SERIES}, {0, 1, DRIVE_ED1_SHARED, 2, DRIVE_ED1_SHARED},
        {0, 1, DRIVE_ED1_SHARED, 2, DRIVE_ED1_SPARE},  {0, 1, 2, DRIVE_ED1_SHARED, DRIVE_ED1_SHARED},
        {1, 2, DRIVE_ED1_SHARED, 0, DRIVE_ED1_SHARED}, {0, 2, DRIVE_ED1_SHARED, 1, DRIVE_ED1_SHARED},
    };
    bench_row("series behind it", make_plan(3, c, entry[0]), 3500, 12, 0, series_at_3500, series);
    bench_row("shared behind it", make_plan(3, c, entry[1]), 4095, 12, 0, shared_at_4095, shared);
    bench_row("spare behind it", make_plan(3, c, entry[2]), 4095, 12, 0, spare_at_4095, spare);
    for (unsigned i = 3; i < 6; i++) {
        static uint8_t list[DRIVE_LIST_BYTES];
        const struct plan p = make_plan(3, c, entry[i]);
        EXPECT(list_of(&p, 0, list).intervals == 2 && list_is(list, shared, 2), "three modules that drive together, order %u", i);
    }
    const struct plan plans[] = {
        two(cut_x, cut_y, DRIVE_ED1_SHARED), two(nine(0, 1), nine(8, 8), DRIVE_ED1_SHARED), up_to_ceiling(4094),
        make_plan(3, c, entry[2]), one(part), two(W0, W1, DRIVE_ED1_SPARE), two(always(4095), always(4095), DRIVE_ED1_SHARED),
    };
    for (size_t i = 0; i < sizeof plans / sizeof *plans; i++) no_limit(&plans[i]);
    finish("the ceiling: joins of each kind behind it, in any order; 4,095 in series limits nothing");
}

/* Plans that reach 4,095: demand 4,096 is met by nothing, and no speed is above 4,095. */
static void test_ceiling_ends(void) {
    static uint8_t list[DRIVE_LIST_BYTES];
    static const uint64_t fastest_at_4095[] = {1000000000000000000u, 1000000000000000000u, 1000000000000000000u, 145, 1};
    static const struct drive_interval fastest_list[] = {{4095, 4095, 1000000000000000000u}};
    const struct plan fastest = all_shared(DRIVE_SPEED_MAX, DRIVE_SPEED_MAX);
    const struct plan plans[] = {
        fastest, longest(), most_pairs(), two(cut_x, cut_y, DRIVE_ED1_SHARED), two(nine(0, 1), nine(8, 8), DRIVE_ED1_SHARED),
        up_to_ceiling(4094), one(always(4095)), two(part, part_added, DRIVE_ED1_SHARED),
        six(1, 1, DRIVE_ED1_SHARED, DRIVE_ED1_SHARED),
    };
    static const uint32_t above[] = {DRIVE_SPEED_MAX + 1, 2 * DRIVE_SPEED_MAX, 6 * DRIVE_SPEED_MAX, 65535, 65536, UINT32_MAX};
    bench_row("the greatest speeds", fastest, 4095, 145, 0, fastest_at_4095, fastest_list);
    bench_row("the greatest speeds, one pair fewer", fastest, 4095, 144, 13, NULL, NULL);
    for (size_t i = 0; i < sizeof plans / sizeof *plans; i++) {
        struct sheet s = make_sheet(&plans[i]);
        for (unsigned j = 0; j < sizeof above / sizeof *above; j++) {
            struct drive_answer a = list_of(&plans[i], above[j], list);
            EXPECT(a.belief == 0 && a.plausibility == 0, "plan %zu: a share at demand %u", i, above[j]);
        }
        struct drive_answer a = list_of(&plans[i], DRIVE_SPEED_MAX, list);
        EXPECT(a.plausibility > 0 && greatest_high(list, a.intervals) == DRIVE_SPEED_MAX, "plan %zu: 4,095 is not reached", i);
        for (uint32_t target = 1; target <= DRIVE_TARGET_MAX; target += 111) speed_at(&s, target);
    }
    finish("the ceiling: no speed above 4,095, and demands above it that nothing meets");
}

/* drive_set against drive_bounds at each demand: the same answers, the same list. Of two demands the greater never has more. */
static void set_at(const struct sheet *s, const uint32_t *demands, size_t count) {
    static uint8_t list[DRIVE_LIST_BYTES], bounds_list[DRIVE_LIST_BYTES], bounds_answer[DRIVE_ANSWER_BYTES];
    uint8_t bytes[DRIVE_DEMANDS_MAX * DRIVE_DEMAND_BYTES];
    uint8_t shares[DRIVE_DEMANDS_MAX * DRIVE_SHARES_BYTES + 16], answer[DRIVE_SET_ANSWER_BYTES + 16];
    struct drive_answer a[DRIVE_DEMANDS_MAX];
    for (size_t i = 0; i < count; i++) drive_put_demand(bytes, i, demands[i]);
    memset(list, 0xEE, sizeof list);
    fill_marks(shares, sizeof shares);
    fill_marks(answer, sizeof answer);
    uint32_t got = drive_set(s->bytes, s->length, bytes, count * DRIVE_DEMAND_BYTES, DRIVE_PAIRS_MAX, list, sizeof list, shares,
                             sizeof shares, answer, sizeof answer);
    EXPECT(got == 0, "%zu demands: number %u", count, got);
    EXPECT(holds_marks(shares, count * DRIVE_SHARES_BYTES, sizeof shares), "%zu demands: bytes behind the last pair", count);
    EXPECT(holds_marks(answer, DRIVE_SET_ANSWER_BYTES, sizeof answer), "%zu demands: bytes behind the answer", count);
    EXPECT(descends(list, drive_read_shares(answer, shares, 0).intervals), "%zu demands: the order of the list", count);

    for (size_t i = 0; i < count; i++) {
        got = drive_bounds(s->bytes, s->length, demands[i], DRIVE_PAIRS_MAX, bounds_list, sizeof bounds_list, bounds_answer,
                           sizeof bounds_answer);
        struct drive_answer want = drive_read_answer(bounds_answer);
        a[i] = drive_read_shares(answer, shares, i);
        EXPECT(got == 0 && memcmp(&a[i], &want, sizeof want) == 0, "%zu demands: other answers at the demand %u", count, demands[i]);
        EXPECT(memcmp(list, bounds_list, sizeof list) == 0, "%zu demands: another list", count);
        for (size_t j = 0; j < i; j++) {
            struct drive_answer less = demands[i] < demands[j] ? a[i] : a[j], more = demands[i] < demands[j] ? a[j] : a[i];
            EXPECT(more.belief <= less.belief && more.plausibility <= less.plausibility, "demands %u and %u: the greater has more",
                   demands[j], demands[i]);
        }
    }
}

/* A demand at which a share changes: the low or the high of an interval, or one above; some others, too. */
static uint32_t random_demand(const uint8_t *list, unsigned intervals) {
    struct drive_interval r = drive_read_interval(list, random_below(intervals));
    if (random_below(12) == 0) return random_below(2) == 0 ? 0 : UINT32_MAX;
    return (random_below(2) == 0 ? r.low : r.high) + random_below(2);
}

static void test_sets(void) {
    static uint8_t list[DRIVE_LIST_BYTES], answer[DRIVE_ANSWER_BYTES];
    const struct plan plans[] = {
        two(W0, W1, DRIVE_ED1_SERIES), two(A, B, DRIVE_ED1_SHARED), three(4), six(50, 1, DRIVE_ED1_SPARE, DRIVE_ED1_SERIES),
        longest(), widest(), one(part), most_pairs(),
    };
    for (size_t i = 0; i < sizeof plans / sizeof *plans; i++) {
        struct sheet s = make_sheet(&plans[i]);
        uint32_t greatest, up[DRIVE_DEMANDS_MAX], down[DRIVE_DEMANDS_MAX], equal[DRIVE_DEMANDS_MAX], any[DRIVE_DEMANDS_MAX];
        uint32_t got = drive_bounds(s.bytes, s.length, 0, DRIVE_PAIRS_MAX, list, sizeof list, answer, sizeof answer);
        unsigned intervals = (unsigned)drive_read_answer(answer).intervals;
        EXPECT(got == 0 && intervals > 0, "sheet %zu: number %u", i, got);
        if (intervals == 0) continue;
        greatest = greatest_high(list, intervals);
        for (size_t count = 1; count <= DRIVE_DEMANDS_MAX; count++) {
            for (size_t j = 0; j < count; j++) { /* from one above the greatest speed down to 0, or the other way round */
                down[j] = count == 1 ? greatest : (greatest + 1) * (uint32_t)(count - 1 - j) / (uint32_t)(count - 1);
                up[count - 1 - j] = down[j];
                equal[j] = greatest / 2;
            }
            set_at(&s, up, count);
            set_at(&s, down, count);
            set_at(&s, equal, count);
        }
        for (unsigned round = 0; round < 20; round++) {
            for (size_t j = 0; j < DRIVE_DEMANDS_MAX; j++) any[j] = random_demand(list, intervals);
            set_at(&s, any, DRIVE_DEMANDS_MAX);
        }
    }
    finish("drive_set: 1 to 16 demands against drive_bounds, ascending, descending, equal, in no order");
}

/* The most that a sheet can ask for: the longest sheet, the largest total, the largest demand, the most pairs. */
static void test_ends(void) {
    static uint8_t list[DRIVE_LIST_BYTES], answer[DRIVE_ANSWER_BYTES];
    enum { WIDEST = 2 * (64 + 512) + 256 * 256 };
    static const uint64_t widest_answer[] = {262144, 1, 1, WIDEST, 256}, most_answer[] = {531441, 24024, 177147, DRIVE_PAIRS_MAX, 256};
    struct plan p = longest();
    struct sheet s = make_sheet(&p);
    struct drive_answer a;
    uint32_t got = drive_bounds(s.bytes, s.length, DRIVE_SPEED_MAX, UINT32_MAX, list, sizeof list, answer, sizeof answer);
    a = drive_read_answer(answer);
    EXPECT(s.length == DRIVE_SHEET_BYTES_MAX, "the longest sheet has %zu bytes", s.length);
    EXPECT(got == 0 && a.total == 1000000000000000000u, "number %u, total %llu", got, (unsigned long long)a.total);
    EXPECT(a.belief == 3814697265625u && a.plausibility == a.belief && a.intervals == 43, "the share at the greatest speed");
    got = drive_bounds(s.bytes, s.length, UINT32_MAX, UINT32_MAX, list, sizeof list, answer, sizeof answer);
    a = drive_read_answer(answer);
    EXPECT(got == 0 && a.belief == 0 && a.plausibility == 0, "the greatest demand");
    got = drive_bounds(s.bytes, s.length, 0, UINT32_MAX, list, sizeof list, answer, sizeof answer);
    a = drive_read_answer(answer);
    EXPECT(got == 0 && a.belief == a.total && a.plausibility == a.total, "demand 0");
    bench_row("the most pairs without a rest", widest(), 255, WIDEST, 0, widest_answer, NULL);
    bench_row("the most pairs without a rest, one less allowed", widest(), 255, WIDEST - 1, 13, NULL, NULL);
    bench_row("the most pairs", most_pairs(), 64, DRIVE_PAIRS_MAX, 0, most_answer, NULL);
    bench_row("the most pairs, one less allowed", most_pairs(), 64, DRIVE_PAIRS_MAX - 1, 13, NULL, NULL);
    finish("the longest sheet, the largest total, the largest demand, the most pairs");
}

static void test_messages(void) {
    EXPECT(DRIVE_NUMBER_COUNT == 19 && DRIVE_E_SHARES_BUFFER == 18, "the numbers are 0 to 18");
    EXPECT(strcmp(drive_message(DRIVE_ACCEPTED), "accepted") == 0, "the words for 0");
    EXPECT(strcmp(drive_message(DRIVE_E_EDITION), "the sheet's edition is not 1") == 0, "the words for 2");
    EXPECT(strcmp(drive_message(DRIVE_E_WEIGHTS), "a module's weights add to more than its total") == 0, "the words for 8");
    EXPECT(DRIVE_LIST_BYTES == 9216 && strstr(drive_message(DRIVE_E_BUFFER), ", list 9,216, ") != NULL, "the words for 12");
    EXPECT(strcmp(drive_message(DRIVE_E_TARGET), "the target is not 1 to 1,000 thousandths") == 0, "the words for 16");
    EXPECT(strcmp(drive_message(17), "the number of demands is not 1 to 16, or their bytes are not 4 for each") == 0,
           "the words for 17");
    EXPECT(strcmp(drive_message(18), "the shares' buffer has fewer than 16 bytes for each demand") == 0, "the words for 18");
    EXPECT(strcmp(drive_message(19), "no such number") == 0 && strcmp(drive_message(UINT32_MAX), "no such number") == 0, "others");
    finish("the words for each number");
}

int main(void) {
    test_sheets();
    test_module_counts();
    test_far_lengths();
    test_writer();
    test_round_trips();
    test_bench_table();
    test_rest_lists();
    test_rest_joins();
    test_rest_speeds();
    test_sums();
    test_leaf_order();
    test_block_order();
    test_sums_from_front();
    test_ceiling_sums();
    test_ceiling_lists();
    test_ceiling_joins();
    test_ceiling_ends();
    test_speeds();
    test_sets();
    test_ends();
    test_messages();
    return failures != 0;
}
