/* A table of demands from one call: the drive's list answers every demand, however many there are.
 *
 * The chair: two hub motors that drive together, and a joystick in series with both. Their logs count minutes and are longer than
 * 1,000 units, so that they are scaled, to the safe side. */
#include <inttypes.h>
#include <stdio.h>

#include "drive.h"

/* A module's log in minutes. One of the intervals encloses all others: there the module's speed was not recorded. */
struct log {
    unsigned intervals, enclosing;
    struct drive_interval interval[DRIVE_MODULE_INTERVALS_MAX];
};

static const struct log left = {4, 1, {{0, 0, 9}, {0, 1400, 140}, {500, 1200, 1200}, {1100, 1400, 7651}}};
static const struct log right = {4, 1, {{0, 0, 22}, {0, 1400, 95}, {500, 1200, 1013}, {1100, 1400, 7870}}};
static const struct log joystick = {4, 1, {{0, 0, 31}, {0, 2800, 212}, {900, 2300, 1510}, {2200, 2800, 10727}}};

static const struct {
    const char *name;
    uint32_t speed;
} demands[] = {
    {"through a door", 500}, {"up a kerb", 800},        {"along a corridor", 1100},
    {"up a ramp", 1400},     {"over a crossing", 1600}, {"beside a road", 2200},
};

/* Adds a module. Each weight is scaled to T = 1,000 and rounded down; what that loses goes to the enclosing interval. The log has no
 * gaps: otherwise what is left of T is not only what rounding lost. */
static uint32_t add_module(uint8_t *plan, const struct log *log) {
    uint64_t minutes = 0, lost = DRIVE_MODULE_TOTAL_MAX;
    for (unsigned i = 0; i < log->intervals; i++) minutes += log->interval[i].weight;
    for (unsigned i = 0; i < log->intervals; i++) lost -= log->interval[i].weight * DRIVE_MODULE_TOTAL_MAX / minutes;
    uint32_t module = drive_plan_module(plan, DRIVE_MODULE_TOTAL_MAX);
    for (unsigned i = 0; i < log->intervals; i++) {
        struct drive_interval t = log->interval[i];
        uint64_t weight = t.weight * DRIVE_MODULE_TOTAL_MAX / minutes + (i == log->enclosing ? lost : 0);
        if (weight > 0) drive_plan_interval(plan, module, t.low, t.high, weight);
    }
    return module;
}

static int refused(const char *what, uint32_t number) {
    fprintf(stderr, "%s: refused with %" PRIu32 ", %s\n", what, number, drive_message(number));
    return 1;
}

int main(void) {
    static uint8_t plan[DRIVE_PLAN_BYTES], sheet[DRIVE_SHEET_BYTES_MAX], length[DRIVE_LENGTH_BYTES];
    static uint8_t list[DRIVE_LIST_BYTES], answer[DRIVE_ANSWER_BYTES];

    drive_plan_clear(plan);
    drive_plan_entry(plan, add_module(plan, &left));
    drive_plan_entry(plan, add_module(plan, &right));
    drive_plan_entry(plan, DRIVE_ED1_SHARED);
    drive_plan_entry(plan, add_module(plan, &joystick));
    drive_plan_entry(plan, DRIVE_ED1_SERIES);
    uint32_t number = drive_write_sheet(plan, sizeof plan, sheet, sizeof sheet, length, sizeof length);
    if (number != DRIVE_ACCEPTED) return refused("the plan", number);
    number = drive_bounds(sheet, drive_read_length(length), 0, DRIVE_PAIRS_MAX, list, sizeof list, answer, sizeof answer);
    if (number != DRIVE_ACCEPTED) return refused("the sheet", number);

    struct drive_answer a = drive_read_answer(answer);
    printf("%-18s %5s   %8s   %8s   of the time\n", "", "mm/s", "at least", "at most");
    for (size_t d = 0; d < sizeof demands / sizeof *demands; d++) {
        a.belief = a.plausibility = 0;
        for (size_t i = 0; i < a.intervals; i++) {
            struct drive_interval r = drive_read_interval(list, i);
            if (r.low >= demands[d].speed) a.belief += r.weight;
            if (r.high >= demands[d].speed) a.plausibility += r.weight;
        }
        uint32_t least = drive_belief_hundredths(a), most = drive_plausibility_hundredths(a);
        printf("%-18s %5" PRIu32 "   %3" PRIu32 ".%02" PRIu32 " %%   %3" PRIu32 ".%02" PRIu32 " %%\n", demands[d].name,
               demands[d].speed, least / 100, least % 100, most / 100, most % 100);
    }
    return 0;
}
