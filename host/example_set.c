/* A fitting: kerb, ramp, corridor and road on one sheet, from one call.
 *
 * The chair: a joystick and a motor controller in series with two hub motors that drive together. */
#include <inttypes.h>
#include <stdio.h>

#include "drive.h"

/* What the user's day asks of the chair, in mm/s. */
static const struct {
    const char *name;
    uint32_t speed;
} demands[] = {{"up a kerb", 800}, {"up a ramp", 1400}, {"along a corridor", 1100}, {"beside a road", 2200}};

enum { DEMANDS = sizeof demands / sizeof *demands };

/* From logs in hours. What a module lets the chair do: 0 where it failed, 2,800 mm/s (10 km/h) where it is not in the way. The speed
 * of a motor is its own part of the sum. */
static void build_plan(uint8_t *plan) {
    drive_plan_clear(plan);
    uint32_t joystick = drive_plan_module(plan, 1000);
    drive_plan_interval(plan, joystick, 0, 0, 3);
    drive_plan_interval(plan, joystick, 900, 2300, 121);
    drive_plan_interval(plan, joystick, 2200, 2800, 876);
    uint32_t controller = drive_plan_module(plan, 1000);
    drive_plan_interval(plan, controller, 0, 0, 2);
    drive_plan_interval(plan, controller, 1000, 1600, 48);
    drive_plan_interval(plan, controller, 1400, 2800, 150);
    drive_plan_interval(plan, controller, 2200, 2800, 800);
    uint32_t left = drive_plan_module(plan, 500);
    drive_plan_interval(plan, left, 0, 1400, 12);
    drive_plan_interval(plan, left, 500, 1200, 73);
    drive_plan_interval(plan, left, 1100, 1400, 415);
    uint32_t right = drive_plan_module(plan, 500);
    drive_plan_interval(plan, right, 0, 1400, 9);
    drive_plan_interval(plan, right, 500, 1200, 66);
    drive_plan_interval(plan, right, 1100, 1400, 425);
    drive_plan_entry(plan, joystick);
    drive_plan_entry(plan, controller);
    drive_plan_entry(plan, DRIVE_ED1_SERIES);
    drive_plan_entry(plan, left);
    drive_plan_entry(plan, right);
    drive_plan_entry(plan, DRIVE_ED1_SHARED);
    drive_plan_entry(plan, DRIVE_ED1_SERIES);
}

static int refused(const char *what, uint32_t number) {
    fprintf(stderr, "%s: refused with %" PRIu32 ", %s\n", what, number, drive_message(number));
    return 1;
}

int main(void) {
    static uint8_t plan[DRIVE_PLAN_BYTES], sheet[DRIVE_SHEET_BYTES_MAX], length[DRIVE_LENGTH_BYTES];
    static uint8_t asked[DEMANDS * DRIVE_DEMAND_BYTES], shares[DEMANDS * DRIVE_SHARES_BYTES];
    static uint8_t list[DRIVE_LIST_BYTES], answer[DRIVE_SET_ANSWER_BYTES];

    build_plan(plan);
    uint32_t number = drive_write_sheet(plan, sizeof plan, sheet, sizeof sheet, length, sizeof length);
    if (number != DRIVE_ACCEPTED) return refused("the plan", number);

    size_t asked_length = 0;
    for (size_t i = 0; i < DEMANDS; i++) asked_length = drive_put_demand(asked, i, demands[i].speed);
    number = drive_set(sheet, drive_read_length(length), asked, asked_length, DRIVE_PAIRS_MAX, list, sizeof list, shares,
                       sizeof shares, answer, sizeof answer);
    if (number != DRIVE_ACCEPTED) return refused("the sheet", number);

    printf("%-18s %5s   %8s   %8s   of the time\n", "", "mm/s", "at least", "at most");
    for (size_t i = 0; i < DEMANDS; i++) {
        struct drive_answer a = drive_read_shares(answer, shares, i);
        uint32_t least = drive_belief_hundredths(a), most = drive_plausibility_hundredths(a);
        printf("%-18s %5" PRIu32 "   %3" PRIu32 ".%02" PRIu32 " %%   %3" PRIu32 ".%02" PRIu32 " %%\n", demands[i].name,
               demands[i].speed, least / 100, least % 100, most / 100, most % 100);
    }
    printf("At least: so much the logs of the chair's modules vouch for. At most: more they rule out.\n");
    return 0;
}
