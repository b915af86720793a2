/* drive.h - for what share of the time does a powered chair's drive reach a speed? For C (C11) and C++ (C++11) programs.
 *
 * A chair's maker knows each module of the drive by a log: for so many of its hours the module ran somewhere between two speeds.
 * In hours that nobody accounted for it may have run at any speed; they count so. A plan says this of up to six modules and how
 * they are joined; a sheet is the same packed into at most 224 bytes, to be stored or sent. A call takes a sheet, a demand (a
 * speed) and an allowance (of work), and answers two whole-number shares of one total:
 *   belief         the share of time at or above the demand that the logs vouch for;
 *   plausibility   the share that nothing in the logs rules out.
 * Both are exact. Wherever inside the logged intervals the modules ran, and at whatever speeds in the hours that nobody accounted
 * for, the true share lies between the two, as long as the modules are independent of each other (see "From logs to a plan").
 * drive_set answers the same for up to sixteen demands at once. Another call, drive_speed, starts from a share of the time and
 * answers the greatest speed that the logs vouch for at that share.
 *
 * Link libdrive.a or libdrive.so (x86-64 Linux, System V calling convention):
 *   cc -Ihost program.c target/staticlib/libdrive.a     (in the repository, after host/library)
 *   cc program.c $(pkg-config --cflags --libs drive)    (after host/install PREFIX; with CMake find_package(drive), drive::drive)
 *
 * A joystick and a motor driver in series, at a demand of 1,500 mm/s:
 *
 *     #include <stdio.h>
 *     #include "drive.h"
 *     int main(void) {
 *         static uint8_t plan[DRIVE_PLAN_BYTES], sheet[DRIVE_SHEET_BYTES_MAX], length[DRIVE_LENGTH_BYTES];
 *         static uint8_t list[DRIVE_LIST_BYTES], answer[DRIVE_ANSWER_BYTES];
 *         drive_plan_clear(plan);
 *         uint32_t joystick = drive_plan_module(plan, 100);     // its log has 100 hours:
 *         drive_plan_interval(plan, joystick, 0, 0, 2);         // 2 at 0 mm/s
 *         drive_plan_interval(plan, joystick, 1800, 2400, 98);  // 98 somewhere from 1,800 to 2,400 mm/s
 *         uint32_t driver = drive_plan_module(plan, 50);
 *         drive_plan_interval(plan, driver, 1000, 2000, 10);
 *         drive_plan_interval(plan, driver, 1500, 2500, 40);
 *         drive_plan_entry(plan, joystick), drive_plan_entry(plan, driver), drive_plan_entry(plan, DRIVE_ED1_SERIES);
 *         uint32_t number = drive_write_sheet(plan, sizeof plan, sheet, sizeof sheet, length, sizeof length);
 *         if (number == DRIVE_ACCEPTED)
 *             number = drive_bounds(sheet, drive_read_length(length), 1500, DRIVE_PAIRS_MAX,
 *                                   list, sizeof list, answer, sizeof answer);
 *         if (number != DRIVE_ACCEPTED) return puts(drive_message(number)), 1;
 *         uint32_t belief = drive_belief_hundredths(drive_read_answer(answer));  // in hundredths of a percent
 *         uint32_t plausibility = drive_plausibility_hundredths(drive_read_answer(answer));
 *         printf("%u.%02u %% to %u.%02u %%\n", belief / 100, belief % 100, plausibility / 100, plausibility % 100);
 *     }
 *
 * It prints 78.40 % to 98.00 %. host/example.c has a whole chair, host/example_set.c the demands of a fitting from one call,
 * host/example_table.c a table of demands from the drive's list, host/example_speed.c the speeds that a catalogue can print.
 *
 * Words
 *   module     a part of the drive, numbered from 0 in the order of the plan.
 *   speed      a whole number of millimetres a second (10 km/h is 2,778), from 0 to 4,095, of a module as of the drive: the makers'
 *              group has agreed that a controller never lets a chair exceed 4,095.
 *   interval   a low and a high speed, both inside it. Low may equal high; intervals may overlap.
 *   weight     a module has a total T from 1 to 1,000. The weight of an interval over T is the share of time of which is known
 *              only that the speed lies in that interval. A module's weights add to its T or to less.
 *   rest       what a module's weights leave of its T, hours that nobody accounted for: it counts as the weight of an interval from 0
 *              to 4,095, or is added to that interval's weight where the module has it already. A module's list has up to eight
 *              intervals and the rest. Plans and sheets hold what was logged, and T: the rest follows from them.
 *   total      the product of all T, at most 10^18. Belief, plausibility and the weights of the drive's list are shares of it.
 *   join       takes two lists of intervals. Every interval of one meets every interval of the other: weights are multiplied,
 *              lows and highs are joined separately, and equal intervals become one, their weights added.
 *                series   the smaller speed (two motor drivers; the slower one rules)
 *                shared   the sum or 4,095, whichever is smaller (two modules that drive together; the speed of each is its own part
 *                         of the sum)
 *                spare    the larger speed  (a second joystick)
 *   entry      one step of the structure, which says how the modules are joined, on a stack: a module's number puts its list on the
 *              stack, a join's code takes the two topmost lists and puts their join back. n modules take 2n - 1 entries.
 *              "Module 0 or its spare, module 1; both in series with module 2" is 0, 1, SPARE, 2, SERIES.
 *   list       the intervals of the whole drive with their weights, in descending order of low, then of high: the fastest first.
 *              Plans and sheets have a module's intervals the other way round, in ascending order.
 *   demand     a speed that is asked about; any 32-bit number. Above 4,095 it is met by nothing: both shares are 0.
 *   target     a share of the time that is asked about, in thousandths: 1 to 1,000.
 *   pairs      a join of lists of a and b intervals forms a times b pairs. The pair count is the sum of this over all joins.
 *
 * From logs to a plan
 *   Widening     An interval that is replaced by one that encloses it, and weight that is moved to an enclosing interval, can only
 *                lower belief and raise plausibility: the bounds get wider and stay true. The other way round they may become false.
 *   Rounding     Numbers are whole. Round lows down, highs, demands and targets up, and an answered speed down where it is printed
 *                in other units. C cuts fractions off, and a 64-bit demand to 32 bits, without a word unless -Wconversion is on.
 *   Gaps         T counts all hours, those too that nobody accounted for: 940 hours logged of 1,000 are weights that add to 940,
 *                and T 1,000. At a demand above 0 the rest by itself never adds to belief, and up to 4,095 it adds to
 *                plausibility. A T of 940 in place of 1,000 would say that the module ran in those hours as it did in the others.
 *                Where something is known of them, as that the module never runs faster than 1,400, an interval from 0 to 1,400
 *                gives closer bounds. A module has at least one interval: one of which nothing is known has 0 to 4,095 with weight
 *                T. An interval that is forgotten, a weight that is typed too small or a T that is typed too great is no refusal:
 *                it leaves a rest. Where a log is meant to be whole, see that drive_plan_rest is 0 (of a sheet, after
 *                drive_read_sheet).
 *   Long logs    A log of more than 1,000 units is scaled: each weight times T over all units of the log, rounded down; those that
 *                become 0 are left out. What that loses is part of the rest. Bounds are closer if what rounding lost goes to one
 *                interval that encloses every interval of the log (one of the eight; where the log has it already, add to its
 *                weight), as in host/example_table.c, whose logs have no gaps. Where a log has gaps, rounding lost this much: the
 *                logged units times T over all units, rounded down, less the scaled weights. All else stays rest. Never round a
 *                weight up, or to the nearest.
 *   Independence One battery behind two drivers breaks it: they slow down together, and the bounds are then not those of the chair.
 *                Put a common cause into the plan once, as a module of its own in series with what depends on it, and log the
 *                others without its effect.
 *   No limit     Hours in which a module in series was not in the way are an interval from 4,095 to 4,095: no speed exceeds that, so it
 *                limits nothing. A module that never limits the drive is best left out: with that interval alone it changes no share
 *                of the time, and costs pairs.
 */
#ifndef DRIVE_H
#define DRIVE_H

#include <stddef.h>
#include <stdint.h>

#ifdef __cplusplus
extern "C" {
#endif

/* The version of this header and of the library that it came with. The soname has the first number. What changed
 *   from 4.0.0 to 5.0.0   the list buffer needs 9,216 bytes; DRIVE_LIST_BYTES was 16,384. With 9,216 bytes or more what was 12 for the
 *                         list may be accepted, or have a later number: 13, 14 or 16 to 18. A buffer of 16,384 bytes still serves:
 *                         its bytes from 9,216 on, which became zero with 0, 13 and 14, stay as they are. Answers and lists are the same
 *   from 3.0.0 to 4.0.0   a shared join gives the sum or 4,095, whichever is smaller, where it gave the sum. Above 4,095 shares are 0,
 *                         and a promised speed is 4,095 where it was more; other shares and speeds are the same. Where sums exceed
 *                         4,095 lists may be others and shorter, and pair counts smaller: what was 13 may be accepted, what was 14
 *                         accepted or refused at a later join
 *   from 2.0.0 to 3.0.0   the list stands in descending order of low, then of high, where it ascended: of n records, what was record i
 *                         is record n - 1 - i, and no compiler says so. Plans, sheets, numbers and all other answers are the same
 *   from 1.2.0 to 2.0.0   weights that add to less than T leave a rest, where they were number 8; DRIVE_PAIRS_MAX was 66,688;
 *                         drive_plan_rest is new */
#define DRIVE_VERSION_MAJOR 5
#define DRIVE_VERSION_MINOR 0
#define DRIVE_VERSION_PATCH 0
#define DRIVE_VERSION "5.0.0"

/* The limits of a plan of edition one, and the codes of its joins. Edition two will have others. */
#define DRIVE_MODULES_MAX 6
#define DRIVE_MODULE_INTERVALS_MAX 8 /* of one module, the rest not counted */
#define DRIVE_SPEED_MAX 4095         /* of a module and of every list */
#define DRIVE_MODULE_TOTAL_MAX 1000  /* T */
#define DRIVE_ENTRIES_MAX 11         /* 2n - 1 of six modules */
#define DRIVE_ED1_SERIES 8
#define DRIVE_ED1_SHARED 9
#define DRIVE_ED1_SPARE 10

/* The limits of a run, and of what is asked. */
#define DRIVE_LIST_INTERVALS_MAX 256 /* of a join's list */
#define DRIVE_PAIRS_MAX 67156        /* no sheet forms more: two groups of three modules, 2 * (81 + 729) + 256 * 256 */
#define DRIVE_TARGET_MAX 1000        /* thousandths: all of the time */
#define DRIVE_DEMANDS_MAX 16         /* of one call of drive_set */

/* What buffers need. */
#define DRIVE_PLAN_BYTES 336        /* a plan */
#define DRIVE_SHEET_BYTES_MAX 224   /* the longest sheet */
#define DRIVE_LENGTH_BYTES 8        /* the answer of drive_write_sheet */
#define DRIVE_LIST_BYTES 9216       /* the list buffer of drive_bounds, drive_set and drive_speed: two lists of 256 and their join */
#define DRIVE_ANSWER_BYTES 40       /* the answer of drive_bounds */
#define DRIVE_SET_ANSWER_BYTES 24   /* the answer of drive_set, beside the shares */
#define DRIVE_DEMAND_BYTES 4        /* each demand of drive_set */
#define DRIVE_SHARES_BYTES 16       /* the shares of drive_set, for each demand */
#define DRIVE_SPEED_ANSWER_BYTES 48 /* the answer of drive_speed */
#define DRIVE_RECORD_BYTES 12       /* one record of the list */
#define DRIVE_STACK_BYTES 16384     /* more stack than any call takes, the first one included */

/* An interval with its weight: of a module's log, or of the drive's list. */
struct drive_interval {
    uint32_t low, high;
    uint64_t weight;
};

/* The number in `count` bytes, at most 8, most significant first. */
static inline uint64_t drive_read(const uint8_t *bytes, size_t count) {
    uint64_t value = 0;
    for (size_t i = 0; i < count; i++) value = value << 8 | bytes[i];
    return value;
}

/* Building a plan. A plan is DRIVE_PLAN_BYTES bytes, filled and read by the functions below and never by the places of its
 * numbers: edition two will widen it, and a program that uses the names then needs no other change for its plans of edition one.
 *   drive_plan_clear      an empty plan
 *   drive_plan_module     adds a module with its total T; answers the module's number
 *   drive_plan_interval   adds an interval to that module, in ascending order of low, then of high; answers how many it has
 *   drive_plan_entry      adds an entry, a module's number or DRIVE_ED1_..., behind those already there; answers how many there are.
 *                         Add a module before the entries that need it: n modules have 2n - 1 entries
 * No whole number can write outside the plan or turn into another that is valid; drive_write_sheet refuses the plan instead:
 *   a number above 65,535       is stored as 65,535 (an entry as 65,534): number 6, 7, 8 or 9
 *   a seventh module            is counted and has no place: number 3. Its intervals have none either
 *   a ninth interval            is counted and has no place: number 4
 *   an interval out of order,   is stored and counted: number 7
 *     or given twice
 *   an interval of a module     has no place: number 3; the plan counts 65,535 modules from then on
 *     that was not added yet
 *   an entry beyond the 2n - 1  has no place, and entry 0 becomes 65,534: number 9
 *     of the modules so far
 *   entries that are missing    are 65,535: number 9
 *   a plan that is filled again counts on, and then lacks an entry: number 3 or 9
 *     and was not cleared
 * drive_plan_interval and drive_plan_entry answer 0 where there is no place. */

/* The places of a plan's numbers, for the functions below only; "Layouts", at the end, has them in words. */
enum {
    DRIVE_AT_MODULES = 0,
    DRIVE_AT_MODULE = 1, /* the first module; then in steps of DRIVE_MODULE_PLACES */
    DRIVE_AT_COUNT = 0,  /* these four from the module's first place on */
    DRIVE_AT_TOTAL = 1,
    DRIVE_AT_LOW = 2,
    DRIVE_AT_HIGH = 10,
    DRIVE_AT_WEIGHT = 18,
    DRIVE_MODULE_PLACES = 26,
    DRIVE_AT_ENTRY = 157,
    DRIVE_ENTRY_NOT_SET = 65535
};

static inline uint32_t drive_plan_get(const uint8_t *plan, uint64_t place) { return (uint32_t)drive_read(plan + 2 * place, 2); }

static inline void drive_plan_put(uint8_t *plan, uint64_t place, uint64_t value) {
    if (value > 65535) value = 65535;
    plan[2 * place] = (uint8_t)(value >> 8);
    plan[2 * place + 1] = (uint8_t)(value & 255);
}

static inline uint64_t drive_plan_place(uint64_t module) { return DRIVE_AT_MODULE + DRIVE_MODULE_PLACES * module; }

/* For hosts from here on. */
static inline void drive_plan_clear(uint8_t *plan) {
    for (size_t i = 0; i < DRIVE_PLAN_BYTES; i++) plan[i] = 0;
    for (uint64_t i = 0; i < DRIVE_ENTRIES_MAX; i++) drive_plan_put(plan, DRIVE_AT_ENTRY + i, DRIVE_ENTRY_NOT_SET);
}

static inline uint32_t drive_plan_module(uint8_t *plan, uint64_t total) {
    uint32_t module = drive_plan_get(plan, DRIVE_AT_MODULES);
    drive_plan_put(plan, DRIVE_AT_MODULES, (uint64_t)module + 1);
    if (module < DRIVE_MODULES_MAX) {
        drive_plan_put(plan, drive_plan_place(module) + DRIVE_AT_COUNT, 0);
        drive_plan_put(plan, drive_plan_place(module) + DRIVE_AT_TOTAL, total);
    }
    return module;
}

static inline uint32_t drive_plan_interval(uint8_t *plan, uint64_t module, uint64_t low, uint64_t high, uint64_t weight) {
    uint64_t place = drive_plan_place(module);
    uint32_t count;
    if (module >= drive_plan_get(plan, DRIVE_AT_MODULES)) {
        drive_plan_put(plan, DRIVE_AT_MODULES, 65535);
        return 0;
    }
    if (module >= DRIVE_MODULES_MAX) return 0;
    count = drive_plan_get(plan, place + DRIVE_AT_COUNT);
    drive_plan_put(plan, place + DRIVE_AT_COUNT, (uint64_t)count + 1);
    if (count >= DRIVE_MODULE_INTERVALS_MAX) return 0;
    drive_plan_put(plan, place + DRIVE_AT_LOW + count, low);
    drive_plan_put(plan, place + DRIVE_AT_HIGH + count, high);
    drive_plan_put(plan, place + DRIVE_AT_WEIGHT + count, weight);
    return count + 1;
}

static inline uint32_t drive_plan_entry(uint8_t *plan, uint64_t entry) {
    uint32_t modules = drive_plan_get(plan, DRIVE_AT_MODULES);
    for (uint32_t i = 0; i < DRIVE_ENTRIES_MAX && i + 1 < 2 * modules; i++) {
        if (drive_plan_get(plan, DRIVE_AT_ENTRY + i) == DRIVE_ENTRY_NOT_SET) {
            drive_plan_put(plan, DRIVE_AT_ENTRY + i, entry < DRIVE_ENTRY_NOT_SET ? entry : DRIVE_ENTRY_NOT_SET - 1);
            return i + 1;
        }
    }
    drive_plan_put(plan, DRIVE_AT_ENTRY, DRIVE_ENTRY_NOT_SET - 1);
    return 0;
}

/* Reading a plan, as drive_read_sheet gives it: the number of modules; of a module its T, the number of its intervals, and
 * interval i, in ascending order of low, then of high; entry i of the 2n - 1. All are numbered from 0. What is not in the plan is 0 (an
 * entry that is not added yet: 65,535). Do not add entries to a plan that was read: its unused ones are 0 and count as set. Build
 * another from what these answer. */
static inline uint32_t drive_plan_modules(const uint8_t *plan) { return drive_plan_get(plan, DRIVE_AT_MODULES); }

static inline uint32_t drive_plan_total(const uint8_t *plan, uint64_t module) {
    if (module >= drive_plan_modules(plan) || module >= DRIVE_MODULES_MAX) return 0;
    return drive_plan_get(plan, drive_plan_place(module) + DRIVE_AT_TOTAL);
}

static inline uint32_t drive_plan_intervals(const uint8_t *plan, uint64_t module) {
    if (module >= drive_plan_modules(plan) || module >= DRIVE_MODULES_MAX) return 0;
    return drive_plan_get(plan, drive_plan_place(module) + DRIVE_AT_COUNT);
}

static inline struct drive_interval drive_plan_read_interval(const uint8_t *plan, uint64_t module, uint64_t i) {
    struct drive_interval r = {0, 0, 0};
    if (i < drive_plan_intervals(plan, module) && i < DRIVE_MODULE_INTERVALS_MAX) {
        r.low = drive_plan_get(plan, drive_plan_place(module) + DRIVE_AT_LOW + i);
        r.high = drive_plan_get(plan, drive_plan_place(module) + DRIVE_AT_HIGH + i);
        r.weight = drive_plan_get(plan, drive_plan_place(module) + DRIVE_AT_WEIGHT + i);
    }
    return r;
}

/* The rest of a module: what its weights leave of its T; 0 where they leave nothing, and for a module that is not there. */
static inline uint32_t drive_plan_rest(const uint8_t *plan, uint64_t module) {
    uint64_t rest = drive_plan_total(plan, module);
    for (uint64_t i = 0; i < DRIVE_MODULE_INTERVALS_MAX; i++) {
        uint64_t weight = drive_plan_read_interval(plan, module, i).weight;
        rest = weight < rest ? rest - weight : 0;
    }
    return (uint32_t)rest;
}

static inline uint32_t drive_plan_read_entry(const uint8_t *plan, uint64_t i) {
    if (i >= DRIVE_ENTRIES_MAX || i + 1 >= 2 * (uint64_t)drive_plan_modules(plan)) return 0;
    return drive_plan_get(plan, DRIVE_AT_ENTRY + i);
}

/* The five calls. Each returns its number: 0, or that of the refusal ("Numbers", below).
 *
 * What the caller sees to:
 *   - Each pointer has that many bytes behind it. A pointer may be NULL where its length is 0. No alignment is asked for.
 *   - No buffer overlaps another, and nothing else writes to them during the call.
 *   - DRIVE_STACK_BYTES bytes of stack are left. Measured: up to 3,600 for drive_bounds, drive_set and drive_speed, and 2,296 for the
 *     others; up to 3,248 more for the first call under lazy binding, where functions of the C library are looked up at first use.
 * No other input, whatever its bytes, can make a call fail, run on or touch other memory.
 *
 * A call takes no memory from the heap, holds no lock and keeps nothing for the next one. Calls are independent and may run in
 * several threads at once, each with its own buffers. They are async-signal-safe: an alternate signal stack needs DRIVE_STACK_BYTES
 * beside what the handler takes, and under lazy binding each function is called once before (or the program linked with -z now).
 *
 * All numbers in the buffers are most significant byte first. Bytes behind those that a table names are never touched. Read answers
 * only where the number is 0: a short buffer stays as it was. */

/* Packs a plan into a sheet.
 *   plan, plan_length       the plan; it is only read. Places that are not in use (modules from n on, intervals behind a
 *                           module's last, entries from 2n - 1 on) are ignored
 *   sheet, sheet_length     the sheet goes to the front; DRIVE_SHEET_BYTES_MAX bytes hold every sheet
 *   answer, answer_length   the sheet's length goes to the first 8 bytes: drive_read_length
 *
 *   number        sheet                     answer, first 8 bytes
 *   0             the sheet, at the front   its length
 *   3 to 11, 15   unchanged                 zero; unchanged where the buffer has fewer
 *   12            unchanged                 unchanged
 *   The number is the first that applies of 12, for a plan buffer of fewer than 336 bytes; 3, 4 and 6 to 11; 12, for an answer
 *   buffer of fewer than 8; 15, for a sheet buffer shorter than the sheet. What is accepted reads back as the same plan in
 *   all places in use; to compare two plans, compare their sheets. */
uint32_t drive_write_sheet(const uint8_t *plan, size_t plan_length, uint8_t *sheet, size_t sheet_length, uint8_t *answer,
                           size_t answer_length);

/* Unpacks a sheet into a plan.
 *   sheet, sheet_length     the sheet; it is only read. Its length is part of it: pass the sheet's own, not the buffer's
 *   plan, plan_length       the plan goes to the first 336 bytes
 *
 *   number        plan, first 336 bytes
 *   0             the plan; places that are not in use are zero
 *   1 to 11       zero; unchanged where the buffer has fewer
 *   12            unchanged
 *   12 comes after 1 to 11, for a plan buffer of fewer than 336 bytes. What is accepted is written back as the same bytes. */
uint32_t drive_read_sheet(const uint8_t *sheet, size_t sheet_length, uint8_t *plan, size_t plan_length);

/* Answers how much of the time the drive has at least the speed that is asked for.
 *   sheet, sheet_length     the sheet; it is only read. Its length is part of it: pass the sheet's own, not the buffer's
 *   demand                  the speed asked for, any 32-bit number; above DRIVE_SPEED_MAX both shares are 0. It comes before the
 *                           allowance: exchanged, the two are accepted, with shares of 0
 *   allowance               the most pairs that the joins may form, which limits the time of the call. Unless time matters pass
 *                           DRIVE_PAIRS_MAX: the number is then never 13. The repository's README.md, "Speed", has the time of a pair
 *   list, list_length       the list buffer: working memory, and the drive's list afterwards
 *   answer, answer_length   the answer buffer: drive_read_answer
 *
 *   number      answer, first 40 bytes      list, first 9,216 bytes
 *   0           total, belief,              the drive's list, the fastest interval first, in records of 12 bytes (low 16 bits, high
 *               plausibility, pair count,   16 bits, weight 64 bits): see drive_read_interval; then zero
 *               list length
 *   13, 14      zero                        zero
 *   1 to 12     zero                        unchanged
 *   The five answers have 8 bytes each; the list length counts records. Each of 1 to 11 is looked for on the whole sheet before the
 *   next, and 12 after them. An answer buffer of fewer than 40 bytes stays unchanged, and so does the list buffer; the number is
 *   then 12, unless one of 1 to 11 applies. 13 and 14 are looked for at each join in the order of the structure, 13 first.
 *
 * After 14 (more than 256 different intervals) make the lists shorter. Either use fewer different speeds: lows rounded down and highs
 * up, say to tens and up to 4,095 at most, so that more intervals are equal (in one module they then become one, weights added) and
 * the bounds stay true. Or group otherwise: joins of one kind that follow each other may be done in any order, and the lists between
 * them differ in length. After 13 raise the allowance, or do the same. */
uint32_t drive_bounds(const uint8_t *sheet, size_t sheet_length, uint32_t demand, uint32_t allowance, uint8_t *list,
                      size_t list_length, uint8_t *answer, size_t answer_length);

/* Answers what drive_bounds answers, for 1 to 16 demands in one call, as for the kerb, ramp, corridor and road of a fitting. The sheet
 * is read and run once. The parameters are those of drive_bounds but for these:
 *   demands, demands_length   in the demand's place: the demands, 4 bytes each, in any order; equal ones are allowed. Fill them with
 *                             drive_put_demand, which answers the length: it counts bytes, 16 for four demands. 4 for four demands
 *                             is accepted as one, and the other shares stay as they were. An array of uint32_t has its bytes in
 *                             another order: it is accepted, with shares of 0 at every demand above 0
 *   shares, shares_length     belief and plausibility at each demand, 8 bytes apiece, in the order asked: the shares' buffer has
 *                             DRIVE_SHARES_BYTES for each demand, or more
 *   answer, answer_length     the answer buffer, behind the shares: exchanged, the two are accepted where both are long enough. Read
 *                             both with drive_read_shares
 *
 *   number            answer, first 24 bytes   shares                      list, first 9,216 bytes
 *   0                 total, pair count,       16 bytes for each demand,   the drive's list, as drive_bounds leaves it
 *                     list length              at the front
 *   13, 14            zero                     unchanged                   zero
 *   1 to 12, 17, 18   zero                     unchanged                   unchanged
 *   The three answers have 8 bytes each. What drive_bounds says of the order of the numbers, of a short answer buffer and of 13 and
 *   14 holds here, with 24 bytes in place of 40, and the shares' buffer then stays unchanged, too. After 12 and before 13 come 17,
 *   for a demands_length that is not 4 times 1 to 16, and then 18, for a shares' buffer of fewer than 16 bytes for each demand.
 *   Unchanged is also what an earlier call left there: read shares only where the number is 0.
 *
 * Of two demands the greater never has the greater belief or the greater plausibility. */
uint32_t drive_set(const uint8_t *sheet, size_t sheet_length, const uint8_t *demands, size_t demands_length, uint32_t allowance,
                   uint8_t *list, size_t list_length, uint8_t *shares, size_t shares_length, uint8_t *answer, size_t answer_length);

/* Answers the speed that can be promised for a share of the time: the greatest demand, of all whole numbers, whose belief is at
 * least that share of the total. The parameters are those of drive_bounds but for two:
 *   target                  in the demand's place: the share in thousandths, 1 to 1,000. 950 is 95.0 % (95 is 9.5 %); what the logs
 *                           vouch for is then "at least 95 % of the time at SPEED or faster"
 *   answer, answer_length   the answer buffer: drive_read_speed_answer
 *
 *   number        answer, first 48 bytes                     list, first 9,216 bytes
 *   0             the answers of drive_bounds with the       the drive's list, as drive_bounds leaves it
 *                 speed as its demand; then the speed
 *   13, 14        zero                                       zero
 *   1 to 12, 16   zero                                       unchanged
 *   The speed has 8 bytes, too. What drive_bounds says of the order of the numbers, of a short answer buffer and of 13 and 14 holds
 *   here, with 48 bytes in place of 40; 16, for a target that is not 1 to 1,000, comes after 12 and before 13.
 *
 * The comparison is exact: 1000 * belief is at least target * total. Both products may exceed 64 bits: a program that repeats it
 * needs unsigned __int128. drive_bounds with the speed as its demand gives the same answers; one mm/s faster, its belief is below
 * the target. A speed of 0 says that at that share the logs vouch for none above 0. No speed answered is above
 * DRIVE_SPEED_MAX. */
uint32_t drive_speed(const uint8_t *sheet, size_t sheet_length, uint32_t target, uint32_t allowance, uint8_t *list,
                     size_t list_length, uint8_t *answer, size_t answer_length);

/* Numbers. Each of 1 to 11 looks at the whole sheet or plan before the next; the writer does not test 1, 2 and 5. */
#define DRIVE_NUMBERS(X) \
    X(0, DRIVE_ACCEPTED, "accepted") \
    X(1, DRIVE_E_LENGTH, "the sheet has fewer than 2 bytes, or its length byte is not its length") \
    X(2, DRIVE_E_EDITION, "the sheet's edition is not 1") \
    X(3, DRIVE_E_MODULE_COUNT, "the number of modules is not 1 to 6") \
    X(4, DRIVE_E_BLOCK, \
      "a module's number of intervals is not 1 to 8, its block is cut short, or the structure does not have exactly n bytes") \
    X(5, DRIVE_E_ZERO_BIT, "a bit of the sheet that must be zero is one") \
    X(6, DRIVE_E_TOTAL, "a module's total is not 1 to 1,000") \
    X(7, DRIVE_E_INTERVAL, \
      "an interval has low above high, a speed above 4,095 or weight 0, or does not come strictly after the one before it " \
      "in ascending order of low, then of high") \
    X(8, DRIVE_E_WEIGHTS, "a module's weights add to more than its total") \
    X(9, DRIVE_E_ENTRY, "an entry is missing, is 6, 7 or above 10, or names a module not below n") \
    X(10, DRIVE_E_NAMED, "a module is named twice or never") \
    X(11, DRIVE_E_JOIN, "a join finds fewer than two lists") \
    X(12, DRIVE_E_BUFFER, \
      "a buffer is too short: plan 336 bytes, writer's answer 8, list 9,216, answer 40 (of drive_set 24, of drive_speed 48)") \
    X(13, DRIVE_E_ALLOWANCE, "the pairs formed so far and those of this join exceed the allowance") \
    X(14, DRIVE_E_LIST, "a join's list has more than 256 different intervals") \
    X(15, DRIVE_E_SHEET_BUFFER, "the writer's sheet buffer is shorter than the sheet") \
    X(16, DRIVE_E_TARGET, "the target is not 1 to 1,000 thousandths") \
    X(17, DRIVE_E_DEMANDS, "the number of demands is not 1 to 16, or their bytes are not 4 for each") \
    X(18, DRIVE_E_SHARES_BUFFER, "the shares' buffer has fewer than 16 bytes for each demand")

#define DRIVE_CONSTANT(number, name, words) name = number,
enum drive_number { DRIVE_NUMBERS(DRIVE_CONSTANT) DRIVE_NUMBER_COUNT };
#undef DRIVE_CONSTANT

/* The words for a number. */
static inline const char *drive_message(uint32_t number) {
#define DRIVE_WORDS(number, name, words) words,
    static const char *const message[] = {DRIVE_NUMBERS(DRIVE_WORDS)};
#undef DRIVE_WORDS
    return number < DRIVE_NUMBER_COUNT ? message[number] : "no such number";
}

/* The sheet's length from the answer buffer of drive_write_sheet. */
static inline size_t drive_read_length(const uint8_t *answer) { return (size_t)drive_read(answer, DRIVE_LENGTH_BYTES); }

/* The answer buffer of drive_bounds as values. (That of drive_set: drive_read_shares.) */
struct drive_answer {
    uint64_t total, belief, plausibility, pairs, intervals;
};

static inline struct drive_answer drive_read_answer(const uint8_t *answer) {
    struct drive_answer a;
    a.total = drive_read(answer, 8);
    a.belief = drive_read(answer + 8, 8);
    a.plausibility = drive_read(answer + 16, 8);
    a.pairs = drive_read(answer + 24, 8);
    a.intervals = drive_read(answer + 32, 8);
    return a;
}

/* Puts demand i, i from 0 to 15, among the demands for drive_set, at bytes 4i to 4i + 3. Answers the bytes of the demands 0 to i: after
 * the last one, demands_length. */
static inline size_t drive_put_demand(uint8_t *demands, size_t i, uint32_t demand) {
    for (size_t k = 0; k < DRIVE_DEMAND_BYTES; k++) demands[i * DRIVE_DEMAND_BYTES + k] = (uint8_t)(demand >> (24 - 8 * k) & 255);
    return (i + 1) * DRIVE_DEMAND_BYTES;
}

/* The pair of shares at demand i of drive_set, with the other answers: what drive_bounds answers at that demand, as values. i is below
 * the number of demands. */
static inline struct drive_answer drive_read_shares(const uint8_t *answer, const uint8_t *shares, size_t i) {
    const uint8_t *pair = shares + i * DRIVE_SHARES_BYTES;
    struct drive_answer a;
    a.total = drive_read(answer, 8);
    a.belief = drive_read(pair, 8);
    a.plausibility = drive_read(pair + 8, 8);
    a.pairs = drive_read(answer + 8, 8);
    a.intervals = drive_read(answer + 16, 8);
    return a;
}

/* The answer buffer of drive_speed as values: what drive_bounds answers at the speed, and the speed. */
struct drive_speed_answer {
    struct drive_answer bounds;
    uint32_t speed;
};

static inline struct drive_speed_answer drive_read_speed_answer(const uint8_t *answer) {
    struct drive_speed_answer a;
    a.bounds = drive_read_answer(answer);
    a.speed = (uint32_t)drive_read(answer + DRIVE_ANSWER_BYTES, 8);
    return a;
}

/* Record i of the list buffer as values; i is below the list length. Record 0 has the greatest low: lows descend and, where lows are
 * equal, highs. The list answers every demand: belief adds the weights whose low is at least the demand, plausibility those whose high
 * is. Belief is a running sum from record 0 on, up to the first low below the demand or the last record (the zeros behind the list are
 * no records). At the last record of each low it is the belief at that low. The low at which it first reaches a share, above 0 and at
 * most the total, is the speed that can be promised for that share, compared exactly as by drive_speed. For plausibility take all
 * records: the greatest high may be in any of them. */
static inline struct drive_interval drive_read_interval(const uint8_t *list, size_t i) {
    const uint8_t *record = list + i * DRIVE_RECORD_BYTES;
    struct drive_interval r;
    r.low = (uint32_t)drive_read(record, 2);
    r.high = (uint32_t)drive_read(record + 2, 2);
    r.weight = drive_read(record + 4, 8);
    return r;
}

/* A share in hundredths of a percent, 0 to 10,000. The total reaches 10^18, so that 100 * belief / total overflows 64 bits; these
 * do not, whatever the numbers. Rounded down or up; where part is above total 10,000, where total is 0 (a refusal) 0. */
static inline uint32_t drive_hundredths_down(uint64_t part, uint64_t total) {
    uint32_t quotient = 0;
    uint64_t rest = 0;
    if (part >= total) return total == 0 ? 0 : 10000;
    /* 10000 * part = quotient * total + rest, 10000 taken bit by bit */
    for (uint32_t bit = 8192; bit > 0; bit /= 2) {
        quotient *= 2;
        if (rest >= total - rest) {
            rest -= total - rest;
            quotient++;
        } else {
            rest += rest;
        }
        if ((10000 & bit) != 0 && rest >= total - part) {
            rest -= total - part;
            quotient++;
        } else if ((10000 & bit) != 0) {
            rest += part;
        }
    }
    return quotient;
}

static inline uint32_t drive_hundredths_up(uint64_t part, uint64_t total) {
    if (part >= total) return total == 0 ? 0 : 10000;
    return 10000 - drive_hundredths_down(total - part, total);
}

/* Belief is rounded down and plausibility up, so that the rounded bounds still hold: 100.00 % of belief is certain, 0.00 % of
 * plausibility impossible. */
static inline uint32_t drive_belief_hundredths(struct drive_answer a) { return drive_hundredths_down(a.belief, a.total); }
static inline uint32_t drive_plausibility_hundredths(struct drive_answer a) { return drive_hundredths_up(a.plausibility, a.total); }

#ifdef __cplusplus
}
#endif

/* Layouts, for those who check bytes or pack bits themselves.
 *
 * A plan of edition one: 168 numbers of 16 bits, most significant byte first, number i at bytes 2i and 2i + 1.
 *   number             what
 *   0                  n, the number of modules
 *   1 + 26m            k, the number of intervals of module m
 *   2 + 26m            its T
 *   3 + 26m + i        the low of its interval i, i from 0 to 7
 *   11 + 26m + i       the high
 *   19 + 26m + i       the weight
 *   157 + i            entry i, i from 0 to 10
 *
 * A sheet: fields of bits, packed without gaps, the most significant bit first.
 *   place                 bits  field
 *   head, 2 bytes            4  edition: 1
 *                            4  n, the number of modules: 1 to 6
 *                            8  the length of the sheet in bytes
 *   block, one for each      4  k, the number of intervals: 1 to 8
 *   module, from module 0    2  zero
 *                           10  T: 1 to 1,000
 *                   k times 12  low
 *                           12  high, not below low
 *                           10  weight, not 0; the weights add to T at most
 *                       0 to 6  zero, up to the next byte
 *   structure, n bytes       4  an entry, 2n - 1 times
 *                            4  zero
 *   The intervals of a block stand in strictly ascending order of low, then of high. Each module is named once.
 *
 *   A sheet of 10 bytes: one module with T = 1 and the interval from 0 to 4095, weight 1.
 *     11 0A   10 01   00 0F FF 00 40   00
 */
#endif
