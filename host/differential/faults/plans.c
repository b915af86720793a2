/* drive_write_sheet and drive_read_sheet in plain C. Stands behind host/bench/plain.c in one file; see run. */

/* A plan has 168 numbers of 16 bits: n, the components, the entries. */
enum { NUMBERS = 168, PLAN_BYTES = 2 * NUMBERS, LENGTH_BYTES = 8, SHEET_MAX = 224, TOTAL_MAX = 1000 };
/* Where they stand. The last five from a component's first number on. */
enum { COMPONENT = 1, COMPONENT_NUMBERS = 26, ENTRY = 157, COUNT = 0, TOTAL = 1, LOW = 2, HIGH = 10, WEIGHT = 18 };

/* Refusals 3, 4 and 6 to 11, or 0. */
static unsigned refusal(const unsigned number[NUMBERS]) {
    unsigned n = number[0], named = 0, depth = 0, fault = 0;
    if (n < 1 || n > COMPONENTS) return 3;
    for (unsigned m = 0; m < n; m++) {
        const unsigned *c = number + COMPONENT + COMPONENT_NUMBERS * m;
        unsigned sum = 0, before = 0;
        if (c[COUNT] < 1 || c[COUNT] > FOCALS) return 4;
        fault_if(&fault, 6, c[TOTAL] < 1 || c[TOTAL] > TOTAL_MAX);
        for (unsigned i = 0; i < c[COUNT]; i++) {
            unsigned low = c[LOW + i], high = c[HIGH + i], weight = c[WEIGHT + i], key = low << 16 | high;
            fault_if(&fault, 7, low > high || high > SPEED_MAX || weight == 0);
            fault_if(&fault, 7, i > 0 && key <= before);
            before = key;
            sum += weight;
        }
        fault_if(&fault, 8, sum > c[TOTAL]);
    }
    for (unsigned i = 0; i < 2 * n - 1; i++) {
        unsigned e = number[ENTRY + i];
        if (e < n) {
            fault_if(&fault, 10, named >> e & 1);
            named |= 1u << e;
            depth++;
        } else if (e >= 8 && e <= 10) {
            fault_if(&fault, 11, depth < 2);
            depth -= depth >= 2;
        } else {
            fault_if(&fault, 9, 1);
        }
    }
    fault_if(&fault, 10, named != (1u << n) - 1);
    return fault;
}

/* Appends a field to bytes that are zero from bit `at` on. */
static void put(uint8_t *bytes, size_t *at, unsigned width, unsigned value) {
    for (unsigned bit = width; bit-- > 0; ++*at) bytes[*at / 8] |= (uint8_t)((value >> bit & 1) << (7 - *at % 8));
}

/* The sheet of a plan that keeps the rules; its length. */
static size_t pack(const unsigned number[NUMBERS], uint8_t sheet[SHEET_MAX]) {
    unsigned n = number[0];
    size_t at = 16;
    memset(sheet, 0, SHEET_MAX);
    for (unsigned m = 0; m < n; m++) {
        const unsigned *c = number + COMPONENT + COMPONENT_NUMBERS * m;
        put(sheet, &at, 4, c[COUNT]);
        put(sheet, &at, 12, c[TOTAL]);
        for (unsigned i = 0; i < c[COUNT]; i++) {
            put(sheet, &at, 12, c[LOW + i]);
            put(sheet, &at, 12, c[HIGH + i]);
            put(sheet, &at, 10, c[WEIGHT + i]);
        }
        at = (at + 7) / 8 * 8;
    }
    for (unsigned i = 0; i < 2 * n - 1; i++) put(sheet, &at, 4, number[ENTRY + i]);
    sheet[0] = (uint8_t)(1 << 4 | n);
    sheet[1] = (uint8_t)((at + 7) / 8);
    return sheet[1];
}

uint32_t drive_write_sheet(const uint8_t *plan, size_t plan_length, uint8_t *sheet, size_t sheet_length, uint8_t *answer,
                           size_t answer_length) {
    unsigned number[NUMBERS], refused;
    uint8_t packed[SHEET_MAX];
    size_t length = 0;
    if (plan_length < PLAN_BYTES) return 12;
    for (size_t i = 0; i < NUMBERS; i++) number[i] = (unsigned)plan[2 * i] << 8 | plan[2 * i + 1];
    refused = refusal(number);
    if (answer_length < LENGTH_BYTES) return refused != 0 ? refused : 12;
    if (refused == 0) {
        length = pack(number, packed);
        if (sheet_length < length) refused = 15;
    }
    if (refused == 0) memcpy(sheet, packed, length);
    put64(answer, refused == 0 ? length : 0);
    return refused;
}

static void put16(uint8_t *plan, unsigned place, unsigned value) {
    plan[2 * place] = (uint8_t)(value >> 8);
    plan[2 * place + 1] = (uint8_t)value;
}

uint32_t drive_read_sheet(const uint8_t *sheet, size_t sheet_length, uint8_t *plan, size_t plan_length) {
    struct plan p;
    unsigned refused = read_sheet(sheet, sheet_length, &p);
    if (plan_length < PLAN_BYTES) return refused != 0 ? refused : 12;
    memset(plan, 0, PLAN_BYTES);
    if (refused != 0) return refused;
    put16(plan, 0, p.components);
    for (unsigned m = 0; m < p.components; m++) {
        const struct component *c = &p.component[m];
        unsigned place = COMPONENT + COMPONENT_NUMBERS * m;
        put16(plan, place + COUNT, c->count);
        put16(plan, place + TOTAL, c->total);
        for (unsigned i = 0; i < c->count; i++) {
            put16(plan, place + LOW + i, c->focal[i].key >> 16);
            put16(plan, place + HIGH + i, c->focal[i].key & 0xFFFF);
            put16(plan, place + WEIGHT + i, (unsigned)c->focal[i].weight);
        }
    }
    for (unsigned i = 0; i < p.entries; i++) put16(plan, ENTRY + i, p.entry[i]);
    return 0;
}
