/* For how much of the time does this chair make a ramp's speed? example [DEMAND], in millimetres a second
 *
 * The chair: a joystick with an attendant's control as its spare, two motor drivers, a battery gauge and a programming lead. Whoever
 * steers, the slowest of the others rules:   (joystick spare attendant) series left series right series gauge series lead
 * The plan is built from the modules' logs, written as a sheet, and the sheet is asked. */
#include <inttypes.h>
#include <stdio.h>
#include <stdlib.h>

#include "drive.h"

static const unsigned long ramp = 1400;
static const uint64_t lines = 20;

/* A module's log: of `hours` it ran for `weight` somewhere from low to high, in millimetres a second. Hours in no interval are
 * those that nobody accounted for: 60 of the battery gauge's. */
struct log {
    const char *name;
    unsigned hours, intervals;
    struct drive_interval interval[DRIVE_MODULE_INTERVALS_MAX];
};

/* What a module lets the chair do: 0 where it failed, 2,778 (10 km/h) where it is not in the way. */
static const struct log logs[] = {
    {"joystick", 1000, 3, {{0, 0, 6}, {1000, 2200, 44}, {2500, 2778, 950}}},
    {"attendant's control", 1000, 2, {{0, 0, 15}, {1400, 1800, 985}}},
    {"left motor driver", 1000, 3, {{0, 0, 2}, {1100, 2778, 28}, {2600, 2778, 970}}},
    {"right motor driver", 1000, 3, {{0, 0, 3}, {1100, 2778, 31}, {2600, 2778, 966}}},
    {"battery gauge", 1000, 3, {{1000, 1400, 20}, {1300, 2778, 130}, {2700, 2778, 790}}},
    {"programming lead", 500, 2, {{1000, 1200, 4}, {2778, 2778, 496}}},
};

static const unsigned structure[] = {
    0, 1, DRIVE_ED1_SPARE,                     /* joystick, attendant's control */
    2, 3, DRIVE_ED1_SERIES, DRIVE_ED1_SERIES,  /* the two drivers; both with who steers */
    4, DRIVE_ED1_SERIES, 5, DRIVE_ED1_SERIES,  /* the gauge, then the lead */
};

static void build_plan(uint8_t *plan) {
    drive_plan_clear(plan);
    for (size_t i = 0; i < sizeof logs / sizeof *logs; i++) {
        uint32_t module = drive_plan_module(plan, logs[i].hours);
        for (unsigned j = 0; j < logs[i].intervals; j++) {
            struct drive_interval t = logs[i].interval[j];
            drive_plan_interval(plan, module, t.low, t.high, t.weight);
        }
    }
    for (size_t i = 0; i < sizeof structure / sizeof *structure; i++) drive_plan_entry(plan, structure[i]);
}

static int refused(const char *what, uint32_t number) {
    fprintf(stderr, "%s: refused with %" PRIu32 ", %s\n", what, number, drive_message(number));
    return 1;
}

static void print_percent(uint32_t hundredths) { printf("%3" PRIu32 ".%02" PRIu32 " %%", hundredths / 100, hundredths % 100); }

int main(int argc, char **argv) {
    static uint8_t plan[DRIVE_PLAN_BYTES], sheet[DRIVE_SHEET_BYTES_MAX], length[DRIVE_LENGTH_BYTES];
    static uint8_t list[DRIVE_LIST_BYTES], answer[DRIVE_ANSWER_BYTES];
    char *end = NULL;
    unsigned long demand = argc == 2 ? strtoul(argv[1], &end, 10) : ramp;
    if (argc > 2 || (end != NULL && (*end != 0 || end == argv[1])) || demand > UINT32_MAX) {
        fprintf(stderr, "usage: example [DEMAND]\n");
        return 2;
    }

    build_plan(plan);
    uint32_t number = drive_write_sheet(plan, sizeof plan, sheet, sizeof sheet, length, sizeof length);
    if (number != DRIVE_ACCEPTED) return refused("the plan", number);
    size_t bytes = drive_read_length(length);
    number = drive_bounds(sheet, bytes, (uint32_t)demand, DRIVE_PAIRS_MAX, list, sizeof list, answer, sizeof answer);
    if (number != DRIVE_ACCEPTED) return refused("the sheet", number);
    struct drive_answer a = drive_read_answer(answer);

    printf("This chair makes %lu mm/s (%.1f km/h) or more\n\n  for ", demand, (double)demand * 0.0036);
    print_percent(drive_belief_hundredths(a));
    printf(" of the time at least: so much the logs of its modules vouch for (belief);\n  for ");
    print_percent(drive_plausibility_hundredths(a));
    printf(" of the time at most: more the logs rule out (plausibility).\n\n");
    for (uint32_t i = 0; i < drive_plan_modules(plan); i++) {
        uint32_t rest = drive_plan_rest(plan, i);
        if (rest == 0) continue;
        printf("Nobody accounted for %" PRIu32 " of the %u hours of the %s: ", rest, logs[i].hours, logs[i].name);
        printf("in these it may have run at any speed.\n\n");
    }
    printf("As fractions: %" PRIu64 " and %" PRIu64 "\n          of  %" PRIu64 "\n\n", a.belief, a.plausibility, a.total);

    printf("%zu modules, a sheet of %zu bytes, %" PRIu64 " pairs. ", sizeof logs / sizeof *logs, bytes, a.pairs);
    printf("The chair's speed in mm/s, %" PRIu64 " intervals by low, then by high, the fastest first:\n\n", a.intervals);
    for (uint64_t i = 0; i < a.intervals && i < lines; i++) {
        struct drive_interval r = drive_read_interval(list, (size_t)i);
        printf("  %4" PRIu32 " to %4" PRIu32 "  ", r.low, r.high);
        print_percent(drive_hundredths_down(r.weight, a.total));
        printf("\n");
    }
    if (a.intervals > lines) printf("  and %" PRIu64 " more\n", a.intervals - lines);
    return 0;
}
