/* Times the calls that ask a sheet against the same jobs in plain C, in turns. bench check: only that both give the same. */
#include "../tests/common.h"

#include <time.h>

#include "../bench/plain.h"

enum { TURNS = 301, TURN_NS = 400000, ASKS = 3 };

struct bench {
    const char *name;
    struct sheet sheet;
};

/* A call, or plain C in its place, and the demand or the target that it is asked. A set has its demands below. */
struct ask {
    bounds_fn *function;
    uint32_t asked;
};

static const struct ask bounds_asks[] = {{drive_bounds, 7}, {plain_bounds, 7}};

static uint8_t list[DRIVE_LIST_BYTES], answer[DRIVE_SPEED_ANSWER_BYTES];
static uint8_t plain_list[DRIVE_LIST_BYTES], plain_answer[DRIVE_SPEED_ANSWER_BYTES];

static size_t room = sizeof list;

/* The demands of a set, and its shares. */
static uint8_t demands[DRIVE_DEMANDS_MAX * DRIVE_DEMAND_BYTES];
static uint8_t shares[DRIVE_DEMANDS_MAX * DRIVE_SHARES_BYTES], plain_shares[DRIVE_DEMANDS_MAX * DRIVE_SHARES_BYTES];

static uint32_t call(struct ask a, const struct sheet *s) {
    return a.function(s->bytes, s->length, a.asked, DRIVE_PAIRS_MAX, list, room, answer, sizeof answer);
}

/* The pair count of the sheet; the call and plain C must answer alike, and accept. */
static uint64_t same_answers(const struct bench *b, struct ask drive, struct ask plain) {
    const struct sheet *s = &b->sheet;
    uint32_t x, y;
    memset(list, 1, sizeof list);
    memset(plain_list, 2, sizeof plain_list);
    memset(answer, 3, sizeof answer);
    memset(plain_answer, 3, sizeof plain_answer);
    x = call(drive, s);
    y = plain.function(s->bytes, s->length, plain.asked, DRIVE_PAIRS_MAX, plain_list, sizeof plain_list, plain_answer,
                       sizeof plain_answer);
    if (x != 0 || y != 0 || memcmp(list, plain_list, sizeof list) != 0 || memcmp(answer, plain_answer, sizeof answer) != 0) {
        printf("FAILED %s, asked %u: numbers %u and %u, or other bytes\n", b->name, drive.asked, x, y);
        exit(1);
    }
    return drive_read_answer(answer).pairs;
}

static uint64_t same_bounds(const struct bench *b) { return same_answers(b, bounds_asks[0], bounds_asks[1]); }

static void same_speeds(const struct bench *b) {
    static const uint32_t targets[] = {1, 250, 500, 750, 900, 950, 999, DRIVE_TARGET_MAX};
    for (size_t i = 0; i < sizeof targets / sizeof *targets; i++) {
        struct ask drive = {drive_speed, targets[i]}, plain = {plain_speed, targets[i]};
        same_answers(b, drive, plain);
    }
}

static uint32_t demand_of(size_t i) { return (uint32_t)drive_read(demands + i * DRIVE_DEMAND_BYTES, DRIVE_DEMAND_BYTES); }

/* Sixteen demands in no order, from 0 to the greatest speed of the list in the buffer; one stands there twice. */
static void put_demands(void) {
    static const uint32_t sixteenths[DRIVE_DEMANDS_MAX] = {9, 2, 14, 0, 11, 5, 16, 7, 3, 12, 1, 15, 6, 9, 10, 4};
    uint32_t greatest = greatest_high(list, drive_read_answer(answer).intervals);
    for (size_t i = 0; i < DRIVE_DEMANDS_MAX; i++) drive_put_demand(demands, i, greatest * sixteenths[i] / 16);
}

/* What is timed for a set: drive_set, plain C, and sixteen calls of drive_bounds, each in the place of one call. */
static uint32_t set_of_drive(const uint8_t *sheet, size_t sheet_length, uint32_t asked, uint32_t allowance, uint8_t *list_out,
                             size_t list_length, uint8_t *answer_out, size_t answer_length) {
    (void)asked;
    return drive_set(sheet, sheet_length, demands, sizeof demands, allowance, list_out, list_length, shares, sizeof shares,
                     answer_out, answer_length);
}

static uint32_t set_of_plain(const uint8_t *sheet, size_t sheet_length, uint32_t asked, uint32_t allowance, uint8_t *list_out,
                             size_t list_length, uint8_t *answer_out, size_t answer_length) {
    (void)asked;
    return plain_set(sheet, sheet_length, demands, sizeof demands, allowance, list_out, list_length, plain_shares,
                     sizeof plain_shares, answer_out, answer_length);
}

static uint32_t sixteen_bounds(const uint8_t *sheet, size_t sheet_length, uint32_t asked, uint32_t allowance, uint8_t *list_out,
                               size_t list_length, uint8_t *answer_out, size_t answer_length) {
    uint32_t number = 0;
    (void)asked;
    for (size_t i = 0; i < DRIVE_DEMANDS_MAX; i++)
        number |= drive_bounds(sheet, sheet_length, demand_of(i), allowance, list_out, list_length, answer_out, answer_length);
    return number;
}

static const struct ask set_asks[ASKS] = {{set_of_drive, 0}, {set_of_plain, 0}, {sixteen_bounds, 0}};

/* The same for a set, and each of its pairs is that of drive_bounds at its demand, with the same list. */
static uint64_t same_set(const struct bench *b) {
    uint64_t pairs = same_bounds(b);
    put_demands();
    memset(shares, 4, sizeof shares);
    memset(plain_shares, 5, sizeof plain_shares);
    same_answers(b, set_asks[0], set_asks[1]);
    int same = memcmp(shares, plain_shares, sizeof shares) == 0;
    for (size_t i = 0; i < DRIVE_DEMANDS_MAX; i++) {
        struct ask bounds = {drive_bounds, demand_of(i)};
        struct drive_answer at = drive_read_shares(plain_answer, shares, i), want;
        same &= call(bounds, &b->sheet) == 0 && memcmp(list, plain_list, sizeof list) == 0;
        want = drive_read_answer(answer);
        same &= memcmp(&at, &want, sizeof at) == 0;
    }
    if (!same) {
        printf("FAILED %s: sixteen demands, other shares\n", b->name);
        exit(1);
    }
    return pairs;
}

static double now(void) {
    struct timespec t;
    clock_gettime(CLOCK_MONOTONIC, &t);
    return (double)t.tv_sec * 1e9 + (double)t.tv_nsec;
}

/* One turn: nanoseconds a call. */
static double turn(struct ask a, const struct sheet *s, unsigned calls) {
    double start = now();
    for (unsigned i = 0; i < calls; i++) call(a, s);
    return (now() - start) / calls;
}

static int by_value(const void *x, const void *y) {
    double a = *(const double *)x, b = *(const double *)y;
    return (a > b) - (a < b);
}

static double median(double *values) {
    qsort(values, TURNS, sizeof *values, by_value);
    return values[TURNS / 2];
}

/* Turns alternate, and so does who begins, so that the machine's drift meets all alike. */
static void time_turns(const struct sheet *s, const struct ask *asks, unsigned count, double *medians) {
    static double turns[ASKS][TURNS];
    unsigned calls[ASKS];
    for (unsigned j = 0; j < count; j++) calls[j] = 1 + (unsigned)(TURN_NS / turn(asks[j], s, 20));
    for (unsigned i = 0; i < TURNS; i++)
        for (unsigned j = 0, k = i % count; j < count; j++, k = (k + 1) % count) turns[k][i] = turn(asks[k], s, calls[k]);
    for (unsigned j = 0; j < count; j++) medians[j] = median(turns[j]);
}

static void time_bounds(const struct sheet *s, double *drive, double *plain) {
    double medians[2];
    time_turns(s, bounds_asks, 2, medians);
    *drive = medians[0];
    *plain = medians[1];
}

/* drive_speed at the greatest target, for which it tries every low, beside drive_bounds at the speed that it answers. */
static void print_speed(const struct bench *b) {
    struct ask asks[ASKS] = {{drive_speed, DRIVE_TARGET_MAX}, {plain_speed, DRIVE_TARGET_MAX}, {drive_bounds, 0}};
    uint64_t pairs = same_answers(b, asks[0], asks[1]);
    double ns[ASKS], adds;
    asks[2].asked = drive_read_speed_answer(answer).speed;
    time_turns(&b->sheet, asks, ASKS, ns);
    adds = ns[0] - ns[2];
    printf("%-22s %9llu %11.0f %11.0f %7.2f", b->name, (unsigned long long)pairs, ns[0], ns[1], ns[0] / ns[1]);
    printf(" %13.0f %9.0f %8.1f\n", ns[2], adds, 100 * adds / ns[2]);
}

/* drive_set at sixteen demands, beside sixteen calls of drive_bounds. */
static void print_set(const struct bench *b) {
    uint64_t pairs = same_set(b);
    double ns[ASKS];
    time_turns(&b->sheet, set_asks, ASKS, ns);
    printf("%-22s %9llu %11.0f %11.0f %7.2f", b->name, (unsigned long long)pairs, ns[0], ns[1], ns[0] / ns[1]);
    printf(" %17.0f %8.2f\n", ns[2], ns[2] / ns[0]);
}

static struct bench bench_of(const char *name, struct plan p) {
    struct bench b;
    b.name = name;
    b.sheet = make_sheet(&p);
    return b;
}

/* Two joysticks, one the spare of the other, and a controller in series; two motors that drive together; both in series. */
static struct plan chair(void) {
    static const struct component c[5] = {
        {1000, 3, {{0, 0, 12}, {300, 900, 188}, {850, 1700, 800}}},
        {1000, 3, {{0, 0, 25}, {200, 800, 375}, {700, 1500, 600}}},
        {500, 4, {{0, 0, 3}, {0, 400, 17}, {400, 1200, 180}, {1100, 1700, 300}}},
        {1000, 4, {{0, 0, 8}, {0, 500, 42}, {300, 700, 350}, {650, 850, 600}}},
        {1000, 4, {{0, 0, 9}, {0, 500, 51}, {300, 700, 340}, {650, 850, 600}}},
    };
    static const uint16_t entry[] = {0, 1, DRIVE_ED1_SPARE, 2, DRIVE_ED1_SERIES, 3, 4, DRIVE_ED1_SHARED, DRIVE_ED1_SERIES};
    return make_plan(5, c, entry);
}

/* The same chair where 60 of each module's units are in no interval. */
static struct plan chair_with_rests(void) {
    struct plan p = chair();
    for (unsigned i = 0; i < p.components; i++) p.component[i].focal[p.component[i].count - 1].weight -= 60;
    return p;
}

/* Two lists of x times y single speeds each, in series: the pairs of the last join grow with the product of their lengths. */
static struct plan grown(unsigned x, unsigned y) {
    struct plan p = two_groups(1, DRIVE_ED1_SERIES);
    p.component[0] = p.component[3] = speeds(x, 1);
    p.component[1] = p.component[4] = speeds(8, x);
    p.component[2] = p.component[5] = speeds(y, 8 * x);
    return p;
}

int main(int argc, char **argv) {
    const struct bench rows[] = {
        bench_of("W, two modules", two(W0, W1, DRIVE_ED1_SERIES)),
        bench_of("chair, five modules", chair()),
        bench_of("chair, with rests", chair_with_rests()),
        bench_of("256 intervals", three(4)),
        bench_of("128 and 128, shared", two_groups(2, DRIVE_ED1_SHARED)),
        bench_of("widest without a rest", widest()),
    };
    const struct bench growth[] = {
        bench_of("8 and 8", grown(1, 1)),   bench_of("16 and 16", grown(2, 1)),  bench_of("32 and 32", grown(4, 1)),
        bench_of("64 and 64", grown(8, 1)), bench_of("128 and 128", grown(8, 2)), bench_of("256 and 256", grown(8, 4)),
    };
    enum { ROWS = sizeof rows / sizeof *rows, GROWTH = sizeof growth / sizeof *growth };
    double drive, plain, before = 0;
    uint64_t pairs_before = 0;
    int check = argc == 2 && strcmp(argv[1], "check") == 0;
    if (argc > 1 && !check) {
        fprintf(stderr, "usage: bench [check]\n");
        return 2;
    }
    for (unsigned i = 0; i < ROWS; i++) same_set(&rows[i]), same_speeds(&rows[i]);
    for (unsigned i = 0; i < GROWTH; i++) same_set(&growth[i]), same_speeds(&growth[i]);
    if (check) {
        printf("ok C: the sheets of the bench get the same answers from the calls and from plain C\n");
        return 0;
    }

    printf("Nanoseconds a call, the median of %d turns of about %d microseconds each. The turns of the call and of plain C alternate.\n"
           "The buffers are not cleared between calls; both write all 9,216 bytes of the list and 40 of the answer (drive_speed 48,\n"
           "drive_set 24 and 256 of shares).\n\n",
           TURNS, TURN_NS / 1000);
    printf("%-22s %9s %11s %11s %7s\n", "sheet", "pairs", "call", "plain C", "ratio");
    for (unsigned i = 0; i < ROWS; i++) {
        uint64_t pairs = same_bounds(&rows[i]);
        time_bounds(&rows[i].sheet, &drive, &plain);
        printf("%-22s %9llu %11.0f %11.0f %7.2f\n", rows[i].name, (unsigned long long)pairs, drive, plain, drive / plain);
    }

    printf("\nReading alone: with no list buffer the call ends with 12 when the sheet is read and tested\n\n");
    printf("%-22s %9s %11s %11s %7s\n", "sheet", "bytes", "call", "plain C", "ratio");
    room = 0;
    for (unsigned i = 0; i < ROWS; i += ROWS - 1) {
        time_bounds(&rows[i].sheet, &drive, &plain);
        printf("%-22s %9zu %11.0f %11.0f %7.2f\n", rows[i].name, rows[i].sheet.length, drive, plain, drive / plain);
    }
    room = sizeof list;

    printf("\nGrowth with the pair count: two lists of single speeds in series; ns for each pair more than in the line before\n\n");
    printf("%-22s %9s %11s %11s %7s %12s\n", "lists", "pairs", "call", "plain C", "ratio", "call, ns/pair");
    for (unsigned i = 0; i < GROWTH; i++) {
        uint64_t pairs = same_bounds(&growth[i]);
        time_bounds(&growth[i].sheet, &drive, &plain);
        printf("%-22s %9llu %11.0f %11.0f %7.2f", growth[i].name, (unsigned long long)pairs, drive, plain, drive / plain);
        if (i > 0) printf(" %13.2f", (drive - before) / (double)(pairs - pairs_before));
        printf("\n");
        before = drive;
        pairs_before = pairs;
    }

    printf("\ndrive_speed at target %d, for which it tries every low of the list; what that adds to drive_bounds at the speed\n\n",
           DRIVE_TARGET_MAX);
    printf("%-22s %9s %11s %11s %7s", "sheet", "pairs", "call", "plain C", "ratio");
    printf(" %13s %9s %8s\n", "drive_bounds", "adds, ns", "adds, %");
    for (unsigned i = 0; i < ROWS; i += ROWS - 1) print_speed(&rows[i]);

    printf("\nSixteen demands in one call: drive_set and the same in plain C; then sixteen calls of drive_bounds, one for each of\n"
           "the demands, and how many times as long as the one call they take together\n\n");
    printf("%-22s %9s %11s %11s %7s", "sheet", "pairs", "call", "plain C", "ratio");
    printf(" %17s %8s\n", "16 x drive_bounds", "times");
    for (unsigned i = 0; i < ROWS; i += ROWS - 1) print_set(&rows[i]);
    return 0;
}
