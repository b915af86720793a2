/* The speeds that a catalogue can print: for a share of the time the greatest speed that the logs vouch for.
 *
 * The chair: a joystick, a motor controller and a battery in series, so that the slowest of them rules. */
#include <inttypes.h>
#include <stdio.h>

#include "drive.h"

static const uint32_t targets[] = {500, 750, 900, 950, 990, DRIVE_TARGET_MAX}; /* in thousandths of the time */

/* From logs in hours. What a module lets the chair do: 0 where it failed, 2,500 mm/s (9 km/h) where it is not in the way. */
static void build_plan(uint8_t *plan) {
    drive_plan_clear(plan);
    uint32_t joystick = drive_plan_module(plan, 1000);
    drive_plan_interval(plan, joystick, 0, 0, 2);
    drive_plan_interval(plan, joystick, 1200, 1900, 58);
    drive_plan_interval(plan, joystick, 1900, 2500, 940);
    uint32_t controller = drive_plan_module(plan, 1000);
    drive_plan_interval(plan, controller, 0, 0, 1);
    drive_plan_interval(plan, controller, 900, 1500, 34);
    drive_plan_interval(plan, controller, 1400, 2500, 165);
    drive_plan_interval(plan, controller, 2000, 2500, 800);
    uint32_t battery = drive_plan_module(plan, 500);
    drive_plan_interval(plan, battery, 1000, 1400, 15);
    drive_plan_interval(plan, battery, 1500, 2500, 85);
    drive_plan_interval(plan, battery, 2100, 2500, 400);
    drive_plan_entry(plan, joystick);
    drive_plan_entry(plan, controller);
    drive_plan_entry(plan, DRIVE_ED1_SERIES);
    drive_plan_entry(plan, battery);
    drive_plan_entry(plan, DRIVE_ED1_SERIES);
}

static int refused(const char *what, uint32_t number) {
    fprintf(stderr, "%s: refused with %" PRIu32 ", %s\n", what, number, drive_message(number));
    return 1;
}

int main(void) {
    static uint8_t plan[DRIVE_PLAN_BYTES], sheet[DRIVE_SHEET_BYTES_MAX], length[DRIVE_LENGTH_BYTES];
    static uint8_t list[DRIVE_LIST_BYTES], answer[DRIVE_SPEED_ANSWER_BYTES];

    build_plan(plan);
    uint32_t number = drive_write_sheet(plan, sizeof plan, sheet, sizeof sheet, length, sizeof length);
    if (number != DRIVE_ACCEPTED) return refused("the plan", number);
    size_t bytes = drive_read_length(length);

    for (size_t i = 0; i < sizeof targets / sizeof *targets; i++) {
        number = drive_speed(sheet, bytes, targets[i], DRIVE_PAIRS_MAX, list, sizeof list, answer, sizeof answer);
        if (number != DRIVE_ACCEPTED) return refused("the sheet", number);
        struct drive_speed_answer a = drive_read_speed_answer(answer);
        printf("At least %3" PRIu32 ".%" PRIu32 " %% of the time: ", targets[i] / 10, targets[i] % 10);
        if (a.speed == 0) {
            printf("no speed above 0\n");
            continue;
        }
        uint32_t tenths = a.speed * 36 / 1000; /* of a km/h, rounded down */
        uint32_t share = drive_belief_hundredths(a.bounds);
        printf("%4" PRIu32 " mm/s (%" PRIu32 ".%" PRIu32 " km/h) or faster. ", a.speed, tenths / 10, tenths % 10);
        printf("Vouched for: %" PRIu64 " of %" PRIu64, a.bounds.belief, a.bounds.total);
        printf(", %" PRIu32 ".%02" PRIu32 " %%\n", share / 100, share % 100);
    }
    return 0;
}
