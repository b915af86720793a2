/* How much stack a call takes, the first one under lazy binding too, and calls in several threads at once.
 * threads LIBRARY: the archive as a shared library that binds its functions at their first call. */
#include "common.h"

#include <dlfcn.h>
#include <pthread.h>
#include <sys/wait.h>

enum { PLANS = 8, CALLS = 5, THREADS = 4, ROUNDS = 200, STACK = 1 << 18, PAINT = 0xA5 };

static const char *const names[CALLS] = {"drive_bounds", "drive_write_sheet", "drive_read_sheet", "drive_speed", "drive_set"};

/* The five calls, linked or from a library, or what is called in their place. */
typedef uint32_t write_fn(const uint8_t *, size_t, uint8_t *, size_t, uint8_t *, size_t);
typedef uint32_t read_fn(const uint8_t *, size_t, uint8_t *, size_t);
struct calls {
    bounds_fn *bounds;
    write_fn *write;
    read_fn *read;
    bounds_fn *speed;
    set_fn *set;
};

/* One of the calls with its own buffers. */
struct job {
    const struct calls *calls;
    unsigned which;
    struct sheet sheet;
    uint8_t plan[DRIVE_PLAN_BYTES], demands[DRIVE_DEMANDS_MAX * DRIVE_DEMAND_BYTES];
    uint32_t number;
    uint8_t list[DRIVE_LIST_BYTES], answer[DRIVE_SPEED_ANSWER_BYTES], shares[DRIVE_DEMANDS_MAX * DRIVE_SHARES_BYTES];
    uint8_t sheet_out[DRIVE_SHEET_BYTES_MAX], plan_out[DRIVE_PLAN_BYTES];
};

static void run_job(struct job *j) {
    const struct calls *c = j->calls;
    const struct sheet *s = &j->sheet;
    if (j->which == 0)
        j->number = c->bounds(s->bytes, s->length, 7, DRIVE_PAIRS_MAX, j->list, sizeof j->list, j->answer, sizeof j->answer);
    else if (j->which == 1)
        j->number = c->write(j->plan, sizeof j->plan, j->sheet_out, sizeof j->sheet_out, j->answer, sizeof j->answer);
    else if (j->which == 2)
        j->number = c->read(s->bytes, s->length, j->plan_out, sizeof j->plan_out);
    else if (j->which == 3)
        j->number = c->speed(s->bytes, s->length, 750, DRIVE_PAIRS_MAX, j->list, sizeof j->list, j->answer, sizeof j->answer);
    else
        j->number = c->set(s->bytes, s->length, j->demands, sizeof j->demands, DRIVE_PAIRS_MAX, j->list, sizeof j->list, j->shares,
                           sizeof j->shares, j->answer, sizeof j->answer);
}

static struct plan plan_of(unsigned i) {
    static const uint16_t chain[] = {
        0, 1, 2, 3, 4, 5, DRIVE_ED1_SPARE, DRIVE_ED1_SERIES, DRIVE_ED1_SPARE, DRIVE_ED1_SERIES, DRIVE_ED1_SPARE,
    };
    struct component c[DRIVE_MODULES_MAX];
    struct plan p;
    for (unsigned k = 0; k < DRIVE_MODULES_MAX; k++) c[k] = speeds(8, 100 + k);
    switch (i) {
    case 0: return two(W0, W1, DRIVE_ED1_SERIES);
    case 1: return three(4);
    case 2: return three(5);
    case 3: return widest();
    case 4: return make_plan(DRIVE_MODULES_MAX, c, chain);
    case 5: return two_groups(2, DRIVE_ED1_SHARED);
    case 6: return most_pairs();
    default: p = two(A, B, DRIVE_ED1_SERIES), p.entry[2] = 11; return p;
    }
}

static struct job make_job(const struct calls *calls, unsigned which, unsigned plan) {
    struct plan p = plan_of(plan);
    struct job j;
    memset(&j, 0, sizeof j);
    j.calls = calls;
    j.which = which;
    j.sheet = make_sheet(&p);
    put_plan(&p, j.plan);
    for (uint32_t i = 0; i < DRIVE_DEMANDS_MAX; i++) drive_put_demand(j.demands, i, (i * 7 + plan) % DRIVE_DEMANDS_MAX * 17);
    return j;
}

static uint32_t no_bounds(const uint8_t *sheet, size_t sheet_length, uint32_t demand, uint32_t allowance, uint8_t *list,
                          size_t list_length, uint8_t *answer, size_t answer_length) {
    (void)sheet, (void)list, (void)answer;
    return (uint32_t)(sheet_length + demand + allowance + list_length + answer_length);
}

static uint32_t no_write(const uint8_t *plan, size_t plan_length, uint8_t *sheet, size_t sheet_length, uint8_t *answer,
                         size_t answer_length) {
    (void)plan, (void)sheet, (void)answer;
    return (uint32_t)(plan_length + sheet_length + answer_length);
}

static uint32_t no_read(const uint8_t *sheet, size_t sheet_length, uint8_t *plan, size_t plan_length) {
    (void)sheet, (void)plan;
    return (uint32_t)(sheet_length + plan_length);
}

static uint32_t no_set(const uint8_t *sheet, size_t sheet_length, const uint8_t *demands, size_t demands_length, uint32_t allowance,
                       uint8_t *list, size_t list_length, uint8_t *shares, size_t shares_length, uint8_t *answer,
                       size_t answer_length) {
    (void)sheet, (void)demands, (void)list, (void)shares, (void)answer;
    return (uint32_t)(sheet_length + demands_length + allowance + list_length + shares_length + answer_length);
}

static const struct calls linked = {drive_bounds, drive_write_sheet, drive_read_sheet, drive_speed, drive_set};
static const struct calls nothing = {no_bounds, no_write, no_read, no_bounds, no_set};

static void *one_job(void *job) {
    run_job((struct job *)job);
    return NULL;
}

/* How far down a thread with a painted stack has written when it has run the job. */
static size_t stack_used(struct job *j) {
    static uint8_t *stack;
    pthread_attr_t attributes;
    pthread_t thread;
    size_t clean = 0;
    if (stack == NULL) stack = from_start(make_fence(STACK));
    memset(stack, PAINT, STACK);
    if (pthread_attr_init(&attributes) != 0 || pthread_attr_setstack(&attributes, stack, STACK) != 0 ||
        pthread_create(&thread, &attributes, one_job, j) != 0 || pthread_join(thread, NULL) != 0) {
        fprintf(stderr, "no thread with its own stack\n");
        exit(2);
    }
    pthread_attr_destroy(&attributes);
    while (clean < STACK && stack[clean] == PAINT) clean++;
    return STACK - clean;
}

/* The stack of a call on a plan: what its thread takes more than one that calls nothing. */
static size_t stack_of(const struct calls *calls, unsigned which, unsigned plan) {
    static struct job j;
    j = make_job(&nothing, which, plan);
    size_t without = stack_used(&j);
    j.calls = calls;
    return stack_used(&j) - without;
}

/* The same for the first call in a process of its own, which loads the library. */
static size_t stack_of_first(const char *library, unsigned which, unsigned plan) {
    int ends[2], status = 0;
    size_t used = 0;
    if (pipe(ends) != 0) exit(2);
    pid_t child = fork();
    if (child == 0) {
        struct calls calls = {NULL, NULL, NULL, NULL, NULL};
        void *handle = dlopen(library, RTLD_LAZY | RTLD_LOCAL), *function = handle == NULL ? NULL : dlsym(handle, names[which]);
        if (function == NULL) {
            fprintf(stderr, "%s: %s\n", library, dlerror());
            _exit(2);
        }
        if (which == 0) memcpy(&calls.bounds, &function, sizeof function);
        if (which == 1) memcpy(&calls.write, &function, sizeof function);
        if (which == 2) memcpy(&calls.read, &function, sizeof function);
        if (which == 3) memcpy(&calls.speed, &function, sizeof function);
        if (which == 4) memcpy(&calls.set, &function, sizeof function);
        used = stack_of(&calls, which, plan);
        _exit(write(ends[1], &used, sizeof used) == (ssize_t)sizeof used ? 0 : 2);
    }
    close(ends[1]);
    if (child < 0 || read(ends[0], &used, sizeof used) != (ssize_t)sizeof used) exit(2);
    if (waitpid(child, &status, 0) < 0 || status != 0) exit(2);
    close(ends[0]);
    return used;
}

static void test_stack(const char *library) {
    for (unsigned which = 0; which < CALLS; which++) {
        size_t first = 0, later = 0;
        for (unsigned i = 0; i < PLANS; i++) {
            size_t used = stack_of_first(library, which, i);
            if (used > first) first = used;
            stack_of(&linked, which, i); /* what is bound at the first call is bound now */
            used = stack_of(&linked, which, i);
            if (used > later) later = used;
        }
        printf("   %s took up to %zu bytes of stack, the first call %zu\n", names[which], later, first);
        EXPECT(later > 0 && first >= later, "%s: no stack was measured", names[which]);
        EXPECT(first < DRIVE_STACK_BYTES, "%s: that is not less than DRIVE_STACK_BYTES, %d", names[which], DRIVE_STACK_BYTES);
    }
    finish("the stack that a call takes");
}

/* The results of the calls, one after the other, by one thread. */
enum { JOBS = CALLS * PLANS };
static struct job alone[JOBS];

static int same(const struct job *x, const struct job *y) {
    return x->number == y->number && memcmp(x->list, y->list, sizeof x->list) == 0 &&
           memcmp(x->answer, y->answer, sizeof x->answer) == 0 && memcmp(x->sheet_out, y->sheet_out, sizeof x->sheet_out) == 0 &&
           memcmp(x->plan_out, y->plan_out, sizeof x->plan_out) == 0 && memcmp(x->shares, y->shares, sizeof x->shares) == 0;
}

/* One of several threads with its own jobs, and how many of their results were others. */
struct worker {
    struct job job[JOBS];
    unsigned others;
};

static void *many_jobs(void *worker) {
    struct worker *w = (struct worker *)worker;
    for (unsigned round = 0; round < ROUNDS; round++) {
        for (unsigned i = 0; i < JOBS; i++) {
            run_job(&w->job[i]);
            w->others += !same(&alone[i], &w->job[i]);
        }
    }
    return NULL;
}

static void test_threads(void) {
    static struct worker workers[THREADS];
    pthread_t thread[THREADS];
    for (unsigned i = 0; i < JOBS; i++) {
        alone[i] = make_job(&linked, i / PLANS, i % PLANS);
        for (unsigned t = 0; t < THREADS; t++) workers[t].job[i] = alone[i];
        run_job(&alone[i]);
    }
    for (unsigned t = 0; t < THREADS; t++)
        if (pthread_create(&thread[t], NULL, many_jobs, &workers[t]) != 0) exit(2);
    for (unsigned t = 0; t < THREADS; t++) {
        pthread_join(thread[t], NULL);
        EXPECT(workers[t].others == 0, "thread %u: %u results that are not those of one thread alone", t, workers[t].others);
    }
    finish("calls in several threads at once");
}

int main(int argc, char **argv) {
    if (argc != 2) {
        fprintf(stderr, "usage: threads LIBRARY\n");
        return 2;
    }
    test_stack(argv[1]);
    test_threads();
    return failures != 0;
}
