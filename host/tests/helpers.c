/* The header's own functions: plans built and read, shares in hundredths of a percent, demands, answers as values. C and C++. */
#include "common.h"

/* What the writer answers on a plan. */
static uint32_t written(const uint8_t *plan) {
    uint8_t sheet[DRIVE_SHEET_BYTES_MAX], length[DRIVE_LENGTH_BYTES];
    return drive_write_sheet(plan, DRIVE_PLAN_BYTES, sheet, sizeof sheet, length, sizeof length);
}

/* Adds what a plan of values says. */
static void build(uint8_t *plan, const struct plan *p) {
    drive_plan_clear(plan);
    for (unsigned i = 0; i < p->components; i++) {
        const struct component *c = &p->component[i];
        EXPECT(drive_plan_module(plan, c->total) == i, "the number of module %u", i);
        for (unsigned j = 0; j < c->count; j++)
            EXPECT(drive_plan_interval(plan, i, c->focal[j].low, c->focal[j].high, c->focal[j].weight) == j + 1, "interval %u", j);
    }
    for (unsigned i = 0; i + 1 < 2 * p->components; i++) EXPECT(drive_plan_entry(plan, p->entry[i]) == i + 1, "entry %u", i);
}

static void build_good(uint8_t *plan) {
    struct plan p = two(A, B, DRIVE_ED1_SHARED);
    build(plan, &p);
}

/* The bytes are those of the layout, an entry that is not set 65,535. */
static void test_built(uint8_t *plan) {
    const struct plan plans[] = {two(A, B, DRIVE_ED1_SERIES), two(W0, W1, DRIVE_ED1_SPARE), three(8), widest(), most_pairs()};
    uint8_t want[DRIVE_PLAN_BYTES];
    for (size_t i = 0; i < sizeof plans / sizeof *plans; i++) {
        struct plan p = plans[i];
        for (unsigned j = 2 * p.components - 1; j < DRIVE_ENTRIES_MAX; j++) p.entry[j] = 65535;
        put_plan(&p, want);
        memset(plan, 0xEE, DRIVE_PLAN_BYTES);
        build(plan, &p);
        EXPECT(memcmp(plan, want, DRIVE_PLAN_BYTES) == 0, "the bytes of plan %zu", i);
        EXPECT(written(plan) == 0, "plan %zu is accepted", i);
    }
    drive_plan_clear(plan);
    EXPECT(drive_plan_modules(plan) == 0 && written(plan) == 3, "an empty plan");
}

/* Numbers that two bytes do not hold: each would be valid if it were cut. */
static void test_large_numbers(uint8_t *plan) {
    static const uint64_t more[] = {65536, (uint64_t)1 << 32, (uint64_t)1 << 63};
    uint32_t m;
    for (unsigned i = 0; i < 3; i++) {
        drive_plan_clear(plan);
        m = drive_plan_module(plan, more[i] + 4);
        drive_plan_interval(plan, m, 0, 3, 4);
        drive_plan_entry(plan, m);
        EXPECT(drive_plan_total(plan, m) == 65535 && written(plan) == 6, "T");
        for (unsigned which = 0; which < 3; which++) {
            drive_plan_clear(plan);
            m = drive_plan_module(plan, 4);
            drive_plan_interval(plan, m, which == 0 ? more[i] : 0, which == 1 ? more[i] + 3 : 3, which == 2 ? more[i] + 4 : 4);
            drive_plan_entry(plan, m);
            EXPECT(written(plan) == (which == 2 ? 8u : 7u), "number %u of an interval", which);
        }
        build_good(plan);
        drive_plan_interval(plan, more[i], 5, 6, 1);
        EXPECT(written(plan) == 3, "a module's number");
        drive_plan_clear(plan);
        m = drive_plan_module(plan, 4);
        drive_plan_interval(plan, m, 0, 3, 4);
        drive_plan_entry(plan, more[i]);
        EXPECT(drive_plan_read_entry(plan, 0) == 65534 && written(plan) == 9, "an entry");
        EXPECT(drive_plan_entry(plan, m) == 0 && written(plan) == 9, "an entry behind it");
    }
    build_good(plan);
    EXPECT(drive_plan_entry(plan, DRIVE_ED1_SERIES) == 0 && written(plan) == 9, "an entry beyond the 2n - 1");
    EXPECT(drive_plan_module(plan, 1) == 2 && drive_plan_interval(plan, 2, 0, 0, 1) == 1 && written(plan) == 9, "a module after that");
    drive_plan_clear(plan);
    EXPECT(drive_plan_entry(plan, 0) == 0 && written(plan) == 3, "an entry before its module");
}

/* More modules, intervals and entries than there are places, and fewer entries than needed. */
static void test_no_place(uint8_t *plan) {
    struct plan p = widest();
    uint8_t before[DRIVE_PLAN_BYTES];
    build(plan, &p);
    memcpy(before, plan, sizeof before);
    EXPECT(drive_plan_module(plan, 1) == 6 && drive_plan_modules(plan) == 7 && written(plan) == 3, "a seventh module");
    EXPECT(drive_plan_interval(plan, 6, 1, 2, 1) == 0 && written(plan) == 3, "its interval");
    EXPECT(memcmp(plan + 2, before + 2, sizeof before - 2) == 0, "a seventh module changed more than the count");
    for (unsigned i = 0; i < 70000; i++) drive_plan_module(plan, 1);
    EXPECT(drive_plan_modules(plan) == 65535 && written(plan) == 3, "the count of modules ends at 65,535");
    EXPECT(memcmp(plan + 2, before + 2, sizeof before - 2) == 0, "more modules changed more than the count");

    build(plan, &p);
    EXPECT(drive_plan_interval(plan, 1, 4000, 4000, 1) == 0, "a ninth interval");
    EXPECT(drive_plan_intervals(plan, 1) == 9 && written(plan) == 4, "a ninth interval is counted");
    for (unsigned i = 0; i < 70000; i++) drive_plan_interval(plan, 1, 4000, 4000, 1);
    EXPECT(drive_plan_intervals(plan, 1) == 65535 && written(plan) == 4, "the count of intervals ends at 65,535");

    build(plan, &p);
    EXPECT(drive_plan_entry(plan, DRIVE_ED1_SERIES) == 0 && written(plan) == 9, "a twelfth entry");
    EXPECT(drive_plan_entry(plan, 0) == 0 && written(plan) == 9, "a thirteenth entry");

    drive_plan_clear(plan);
    EXPECT(drive_plan_interval(plan, 0, 1, 2, 1) == 0 && written(plan) == 3, "an interval before its module");
    EXPECT(drive_plan_module(plan, 1) == 65535 && written(plan) == 3, "a module after that");
}

/* The modules of a plan that was read, and its first entries. */
static void rebuild(uint8_t *plan, const uint8_t *read, unsigned entries) {
    drive_plan_clear(plan);
    for (unsigned i = 0; i < drive_plan_modules(read); i++) {
        drive_plan_module(plan, drive_plan_total(read, i));
        for (unsigned j = 0; j < drive_plan_intervals(read, i); j++) {
            struct drive_interval r = drive_plan_read_interval(read, i, j);
            drive_plan_interval(plan, i, r.low, r.high, r.weight);
        }
    }
    for (unsigned i = 0; i < entries; i++) drive_plan_entry(plan, drive_plan_read_entry(read, i));
}

static void test_entries(uint8_t *plan) {
    uint8_t sheet[DRIVE_SHEET_BYTES_MAX], read[DRIVE_PLAN_BYTES], length[DRIVE_LENGTH_BYTES];
    build_good(plan);
    EXPECT(drive_write_sheet(plan, DRIVE_PLAN_BYTES, sheet, sizeof sheet, length, sizeof length) == 0, "writing");
    EXPECT(drive_read_sheet(sheet, drive_read_length(length), read, sizeof read) == 0, "reading back");
    for (unsigned entries = 0; entries <= 4; entries++) {
        rebuild(plan, read, entries);
        EXPECT(written(plan) == (entries == 3 ? 0u : 9u), "%u entries of 3", entries);
    }
    EXPECT(drive_plan_entry(read, 0) == 0 && written(read) == 9, "an entry added to a plan that was read");
}

/* What a plan holds, and 0 for what is outside. */
static void test_getters(uint8_t *plan) {
    const struct plan p = two(W0, W1, DRIVE_ED1_SPARE);
    static const uint64_t far_away[] = {65535, 65536, (uint64_t)1 << 60, UINT64_MAX};
    struct drive_interval r;
    build(plan, &p);
    EXPECT(drive_plan_modules(plan) == 2 && drive_plan_total(plan, 1) == 100, "modules, T");
    EXPECT(drive_plan_intervals(plan, 0) == 3 && drive_plan_intervals(plan, 1) == 2, "intervals");
    r = drive_plan_read_interval(plan, 0, 2);
    EXPECT(r.low == 7 && r.high == 10 && r.weight == 13, "interval 2 of module 0");
    r = drive_plan_read_interval(plan, 1, 1);
    EXPECT(r.low == 8 && r.high == 10 && r.weight == 33, "interval 1 of module 1");
    for (unsigned i = 0; i < 3; i++) EXPECT(drive_plan_read_entry(plan, i) == p.entry[i], "entry %u", i);
    EXPECT(drive_plan_rest(plan, 0) == 0 && drive_plan_rest(plan, 1) == 0 && drive_plan_rest(plan, 2) == 0, "no rest");
    drive_plan_put(plan, drive_plan_place(1) + DRIVE_AT_TOTAL, 1000);
    EXPECT(drive_plan_rest(plan, 0) == 0 && drive_plan_rest(plan, 1) == 900, "a rest");
    drive_plan_put(plan, drive_plan_place(1) + DRIVE_AT_TOTAL, 99);
    EXPECT(drive_plan_rest(plan, 1) == 0, "no rest where the weights add to more than T");
    memset(plan, 0xEE, DRIVE_PLAN_BYTES); /* every place holds 61,166 */
    EXPECT(drive_plan_modules(plan) == 61166 && drive_plan_total(plan, 5) == 61166 && drive_plan_intervals(plan, 5) == 61166, "ends");
    EXPECT(drive_plan_read_interval(plan, 5, 7).weight == 61166 && drive_plan_read_entry(plan, 10) == 61166, "last places");
    EXPECT(drive_plan_total(plan, 6) == 0 && drive_plan_intervals(plan, 6) == 0 && drive_plan_read_entry(plan, 11) == 0, "behind");
    for (unsigned i = 0; i < 4; i++) {
        r = drive_plan_read_interval(plan, far_away[i], 0);
        EXPECT(r.low == 0 && r.high == 0 && r.weight == 0, "an interval of no module");
        r = drive_plan_read_interval(plan, 0, i == 0 ? 8 : far_away[i]);
        EXPECT(r.low == 0 && r.high == 0 && r.weight == 0, "an interval of no place");
        EXPECT(drive_plan_total(plan, far_away[i]) == 0 && drive_plan_intervals(plan, far_away[i]) == 0, "no module");
        EXPECT(drive_plan_read_entry(plan, far_away[i]) == 0, "no entry");
    }
    memset(plan, 0xEE, DRIVE_PLAN_BYTES);
    plan[0] = 0, plan[1] = 2, plan[2] = 0, plan[3] = 3; /* n = 2, k = 3 */
    EXPECT(drive_plan_total(plan, 2) == 0 && drive_plan_intervals(plan, 2) == 0, "a module that is not in use");
    EXPECT(drive_plan_read_interval(plan, 0, 3).high == 0 && drive_plan_read_interval(plan, 0, 2).high == 61166, "an interval, too");
    plan[3] = 0; /* k = 0 */
    EXPECT(drive_plan_rest(plan, 0) == 61166 && drive_plan_rest(plan, 2) == 0, "the rest of a module without intervals, and of none");
    EXPECT(drive_plan_read_entry(plan, 2) == 61166 && drive_plan_read_entry(plan, 3) == 0, "an entry, too");
    plan[1] = 0;
    EXPECT(drive_plan_read_entry(plan, 0) == 0 && drive_plan_total(plan, 0) == 0, "a plan without modules");
}

static void check_hundredths(uint64_t part, uint64_t total) {
    uint32_t down = (uint32_t)((wide)part * 10000 / total), up = (uint32_t)(((wide)part * 10000 + total - 1) / total);
    EXPECT(drive_hundredths_down(part, total) == down, "%llu of %llu, down", (unsigned long long)part, (unsigned long long)total);
    EXPECT(drive_hundredths_up(part, total) == up, "%llu of %llu, up", (unsigned long long)part, (unsigned long long)total);
}

static uint64_t random_64(void) { return (uint64_t)random_below(UINT32_MAX) << 32 | random_below(UINT32_MAX); }

static void test_hundredths(void) {
    const uint64_t greatest = 1000000000000000000u;
    const uint64_t totals[] = {1,         2,           3,            7,        9999,           10000,          10001,
                               262144,    greatest / 3, greatest - 1, greatest, UINT64_MAX / 2, UINT64_MAX - 1, UINT64_MAX};
    struct drive_answer a = {greatest, greatest - 1, 1, 0, 0};
    for (size_t i = 0; i < sizeof totals / sizeof *totals; i++) {
        uint64_t total = totals[i], near[] = {0, 1, total / 10000, total / 3, total / 2, total - total / 10000, total - 1, total};
        for (unsigned j = 0; j < 8; j++) check_hundredths(near[j], total);
    }
    for (unsigned i = 0; i < 200000; i++) {
        uint64_t total = 1 + (random_64() >> (1 + random_below(63)));
        check_hundredths(random_64() % total, total);
    }
    EXPECT(drive_hundredths_down(1, 3) == 3333 && drive_hundredths_up(1, 3) == 3334, "a third");
    EXPECT(drive_hundredths_down(0, 0) == 0 && drive_hundredths_up(0, 0) == 0, "of nothing");
    EXPECT(drive_hundredths_down(5, 0) == 0 && drive_hundredths_up(5, 0) == 0, "something of nothing");
    EXPECT(drive_hundredths_down(5, 4) == 10000 && drive_hundredths_up(UINT64_MAX, 1) == 10000, "a part above the total");
    EXPECT(drive_belief_hundredths(a) == 9999 && drive_plausibility_hundredths(a) == 1, "belief down, plausibility up");
    finish("shares in hundredths of a percent, against 128 bits");
}

/* The six answers of drive_speed, from a buffer that ends right behind them. */
static void test_speed_answer(struct fence pages) {
    uint8_t *answer = up_to_end(pages, DRIVE_SPEED_ANSWER_BYTES);
    struct drive_speed_answer a;
    for (unsigned i = 0; i < DRIVE_SPEED_ANSWER_BYTES; i++) answer[i] = (uint8_t)(i < 40 ? 10 * (i / 8) + i % 8 + 1 : 0);
    answer[46] = 0x0F, answer[47] = 0xFE;
    a = drive_read_speed_answer(answer);
    EXPECT(a.bounds.total == 0x0102030405060708u && a.bounds.belief == 0x0B0C0D0E0F101112u, "total, belief");
    EXPECT(a.bounds.plausibility == 0x15161718191A1B1Cu && a.bounds.pairs == 0x1F20212223242526u, "plausibility, pairs");
    EXPECT(a.bounds.intervals == 0x292A2B2C2D2E2F30u && a.speed == 4094, "intervals, speed");
    finish("the answer of drive_speed as values");
}

/* Demands put one by one, right behind a page that can not be touched and right before one; nothing else is touched. */
static void test_demands(struct fence pages) {
    static const uint32_t values[] = {0, 1, 0x01020304, 0x80000000u, UINT32_MAX};
    enum { BYTES = DRIVE_DEMANDS_MAX * DRIVE_DEMAND_BYTES };
    uint8_t *places[] = {from_start(pages), up_to_end(pages, BYTES)};
    for (size_t i = 0; i < 2 * DRIVE_DEMANDS_MAX; i++) {
        uint8_t *demands = places[i / DRIVE_DEMANDS_MAX];
        size_t from = i % DRIVE_DEMANDS_MAX * DRIVE_DEMAND_BYTES;
        for (unsigned k = 0; k < 5; k++) {
            fill_marks(demands, BYTES);
            size_t length = drive_put_demand(demands, i % DRIVE_DEMANDS_MAX, values[k]);
            EXPECT(length == from + DRIVE_DEMAND_BYTES, "demand %zu: length %zu", i, length);
            EXPECT(demands[from] == values[k] >> 24 && demands[from + 1] == (values[k] >> 16 & 255) &&
                       demands[from + 2] == (values[k] >> 8 & 255) && demands[from + 3] == (values[k] & 255),
                   "the bytes of %u", values[k]);
            EXPECT(holds_marks(demands, 0, from) && holds_marks(demands, from + DRIVE_DEMAND_BYTES, BYTES), "demand %zu, others", i);
        }
    }
    finish("the demands of drive_set, nothing else touched");
}

/* Each pair of drive_set with the three answers, from buffers that end right behind them. All bytes of the shares differ. */
static void test_shares(struct fence shares_pages, struct fence answer_pages) {
    for (size_t count = 1; count <= DRIVE_DEMANDS_MAX; count++) {
        uint8_t *shares = up_to_end(shares_pages, count * DRIVE_SHARES_BYTES);
        uint8_t *answer = up_to_end(answer_pages, DRIVE_SET_ANSWER_BYTES);
        for (size_t i = 0; i < count * DRIVE_SHARES_BYTES; i++) shares[i] = (uint8_t)(i + 100);
        for (unsigned i = 0; i < DRIVE_SET_ANSWER_BYTES; i++) answer[i] = (uint8_t)(10 * (i / 8) + i % 8 + 1);
        for (size_t i = 0; i < count; i++) {
            struct drive_answer a = drive_read_shares(answer, shares, i);
            const uint8_t *pair = shares + DRIVE_SHARES_BYTES * i;
            EXPECT(a.total == 0x0102030405060708u && a.pairs == 0x0B0C0D0E0F101112u, "total, pairs");
            EXPECT(a.intervals == 0x15161718191A1B1Cu, "intervals");
            EXPECT(a.belief == drive_read(pair, 8) && a.plausibility == drive_read(pair + 8, 8), "pair %zu of %zu", i, count);
        }
        EXPECT(drive_read_shares(answer, shares, 0).belief == 0x6465666768696A6Bu, "the first belief");
    }
    finish("the shares of drive_set as values");
}

static void test_version(void) {
    char version[32];
    snprintf(version, sizeof version, "%d.%d.%d", DRIVE_VERSION_MAJOR, DRIVE_VERSION_MINOR, DRIVE_VERSION_PATCH);
    EXPECT(strcmp(version, DRIVE_VERSION) == 0, "%s and %s", version, DRIVE_VERSION);
    finish("the version, as numbers and as words");
}

int main(void) {
    struct fence pages = make_fence(DRIVE_PLAN_BYTES);
    uint8_t *plans[] = {from_start(pages), up_to_end(pages, DRIVE_PLAN_BYTES)};
    for (unsigned i = 0; i < 2; i++) {
        test_built(plans[i]);
        test_large_numbers(plans[i]);
        test_no_place(plans[i]);
        test_entries(plans[i]);
        test_getters(plans[i]);
    }
    finish("plans built and read, nothing outside touched, nothing cut to a valid number");
    test_hundredths();
    test_speed_answer(pages);
    test_demands(pages);
    test_shares(make_fence(DRIVE_DEMANDS_MAX * DRIVE_SHARES_BYTES), pages);
    test_version();
    return failures != 0;
}
