/* A caller in C that keeps a controller: random steps of every kind one by one, many at once and as a trace that is listed; and any words whatever in
 * its place, at either end of a page behind which there is no memory.
 *   kept            100,000 steps of each kind
 *   kept N          N of them
 *   kept N times    and then what a step takes singly and among many, in nanoseconds
 * It prints what differs, and ends with 1 where something does. */
#define _DEFAULT_SOURCE

#include "wisteria.h"

#include <stdio.h>
#include <stdlib.h>
#include <string.h>
#include <sys/mman.h>
#include <time.h>
#include <unistd.h>

#define KINDS 5
#define BLOCK 4000

static int wrong;

static void expect(const char *what, int good)
{
    if (!good && wrong < 20) {
        printf("%s: another answer than expected\n", what);
        wrong++;
    }
}

static const char *const name[KINDS] = {"AIC", "CoreInterrupt", "CIC", "AINTC", "CIC with indices"};
static const uint32_t small[KINDS][5] = {{0x30, 0x11, 0, 0, 0}, {3, 9, 1, 0, 7}, {40, 5, 3, 0x4E800200, 9}, {1, 2, 3, 4, 5}, {40, 5, 3, 7, 1}};
static const uint32_t large[KINDS][5] = {{0xFFFFFFFF, 0, 0, 0, 0}, {8, 32, 1, 1, 0}, {1024, 256, 256, 1, 0}, {0, 0, 0, 0, 0}, {1024, 256, 256, 1, 1}};

/* ---- steps by chance */

static uint64_t drawn = 20261117;

static uint32_t below(uint32_t limit)
{
    drawn ^= drawn << 13;
    drawn ^= drawn >> 7;
    drawn ^= drawn << 17;
    return (uint32_t)((drawn >> 32) * limit >> 32);
}

/* Mostly registers and lines that there are, and now and then anything. */
static uint32_t offset_of(uint32_t kind)
{
    static const uint32_t last[KINDS] = {0x150, 0x034, 0x900, 0x300, 0xD00};
    uint32_t sort = below(20);
    return sort == 0 ? below(0x2000) : sort == 1 ? 0x1500 + 4 * below(8) : 4 * below(last[kind] / 4);
}

static uint32_t value_of(void)
{
    uint32_t sort = below(4);
    return sort == 0 ? below(4) : sort == 1 ? 1u << below(32) : sort == 2 ? below(256) : below(0xFFFFFFFF);
}

static wisteria_step by_chance(uint32_t kind)
{
    wisteria_step step;
    step.kind = 1 + below(3);
    step.x = step.kind == WISTERIA_LINE ? below(kind == WISTERIA_AINTC ? 130 : 42) : offset_of(kind);
    step.y = step.kind == WISTERIA_LINE ? (below(30) == 0 ? 2 : below(2)) : value_of();
    step.privilege = kind == WISTERIA_AINTC ? (below(40) == 0 ? 2 : below(8) != 0) : 1;
    return step;
}

static wisteria_answer singly(wisteria_controller *c, wisteria_step step)
{
    wisteria_answer answer = {0, 0};
    if (step.kind == WISTERIA_READ)
        answer.refusal = wisteria_read(c, step.x, step.privilege, &answer.value);
    else if (step.kind == WISTERIA_WRITE)
        answer.refusal = wisteria_write(c, step.x, step.privilege, step.y);
    else
        answer.refusal = wisteria_line(c, step.x, step.y);
    return answer;
}

/* ---- many at once, one by one, and listed */

static wisteria_step steps[BLOCK];
static wisteria_answer answers[BLOCK + 1];

/* n steps in portions of any size, and the same steps singly: the same answers, and word for word the same controller after each portion. */
static void beside_single_steps(uint32_t kind, wisteria_controller *many, wisteria_controller *one, uint32_t n)
{
    uint32_t k = 0;
    while (k < n) {
        uint32_t portion = 1 + below(below(3) ? 40 : 2000), i;
        if (portion > n - k)
            portion = n - k;
        for (i = 0; i < portion; i++)
            steps[k + i] = by_chance(kind);
        answers[k + portion].refusal = answers[k + portion].value = 0xA5A5A5A5;
        expect("many at once", wisteria_steps_in(many, steps + k, portion, answers + k) == 0);
        expect("the answer behind the last", answers[k + portion].refusal == 0xA5A5A5A5 && answers[k + portion].value == 0xA5A5A5A5);
        for (i = 0; i < portion; i++) {
            wisteria_answer answer = singly(one, steps[k + i]);
            expect(name[kind], answer.refusal == answers[k + i].refusal && answer.value == answers[k + i].value);
        }
        expect("the same words after them", memcmp(many, one, sizeof *many) == 0);
        k += portion;
    }
}

static struct {
    uint8_t bytes[WISTERIA_LONGEST];
    size_t length;
} made;

/* A number of a trace, in its shortest form (01, House trace). */
static void put(uint32_t value)
{
    for (; value > 127; value >>= 7)
        made.bytes[made.length++] = (uint8_t)(128 | (value & 127));
    made.bytes[made.length++] = (uint8_t)value;
}

/* The first n of the steps as a trace, and what its listing shows of each beside its answer. */
static void beside_the_listing(uint32_t kind, uint32_t n)
{
    static const unsigned configures[KINDS] = {2, 4, 4, 0, 5};
    static uint8_t listed[WISTERIA_ROOM(BLOCK)];
    const char *line = (const char *)listed;
    uint32_t k;
    made.length = 0;
    put(kind);
    for (k = 0; k < configures[kind]; k++)
        put(small[kind][k]);
    for (k = 0; k < n; k++) {
        put(steps[k].kind);
        put(steps[k].x);
        if (kind == WISTERIA_AINTC && steps[k].kind != WISTERIA_LINE)
            put(steps[k].privilege);
        if (steps[k].kind != WISTERIA_READ)
            put(steps[k].y);
    }
    listed[wisteria_list(made.bytes, made.length, n, listed, sizeof listed - 1)] = 0;
    for (k = 0; k < n; k++) {
        unsigned number, told;
        char letter;
        line = strchr(line, '\n') + 1;
        if (sscanf(line, "%u %c %8X", &number, &letter, &told) != 3)
            number = 0;
        expect("the line of a step", number == k + 1 && letter == (answers[k].refusal ? 'X' : "RWL"[steps[k].kind - 1]));
        expect("its number", told == (answers[k].refusal ? answers[k].refusal : answers[k].value));
    }
}

static void agree(uint32_t kind, unsigned long count)
{
    static wisteria_controller many, one;
    unsigned long done = 0;
    /* from a start on, as a trace tells it too; every fourth block goes on from where the last one ended */
    for (done = 0; done < count; done += BLOCK) {
        uint32_t n = count - done < BLOCK ? (uint32_t)(count - done) : BLOCK;
        int anew = done / BLOCK % 4 != 3;
        if (anew) {
            expect("a start", wisteria_start(&many, kind, small[kind]) == 0 && wisteria_start(&one, kind, small[kind]) == 0);
            expect("the same words at a start", memcmp(&many, &one, sizeof many) == 0);
        }
        beside_single_steps(kind, &many, &one, n);
        if (anew)
            beside_the_listing(kind, n);
    }
}

/* ---- no kind of step, no step, no limit of 20,000 */

static void edges(void)
{
    static wisteria_controller c, was;
    static const uint32_t none[] = {0, 4, 5, 0x80000001, 0xFFFFFFFF};
    static wisteria_step ups[30000];
    static wisteria_answer said[30000];
    wisteria_step some[3] = {{WISTERIA_WRITE, 0x120, 4, 1}, {0, 0x108, 1, 1}, {WISTERIA_READ, 0x110, 7, 1}};
    uint32_t k;
    for (k = 0; k < sizeof none / sizeof *none; k++) {
        memset(answers, 0xA5, sizeof answers);
        expect("a start", wisteria_start(&c, WISTERIA_AIC, small[0]) == 0);
        some[1].kind = none[k];
        expect("a step of no kind", wisteria_steps_in(&c, some, 3, answers) == 0);
        expect("the step before it", answers[0].refusal == 0 && answers[0].value == 0);
        expect("9, and the value 0", answers[1].refusal == 9 && answers[1].value == 0);
        expect("the step behind it", answers[2].refusal == 0 && answers[2].value == 4);
    }
    was = c;
    answers[0].refusal = 0xA5A5A5A5;
    expect("no step", wisteria_steps_in(&c, some, 0, answers) == 0 && memcmp(&c, &was, sizeof c) == 0 && answers[0].refusal == 0xA5A5A5A5);
    /* words of which some are over, and a room that has no answer for the last */
    expect("eleven words", wisteria_step_words(&c, &some[0].kind, 11, &answers[0].refusal, 6) == 0);
    expect("are two steps", answers[0].refusal == 0 && answers[1].refusal == 9);
    memset(answers, 0xA5, sizeof answers);
    expect("room for five words", wisteria_step_words(&c, &some[0].kind, 12, &answers[0].refusal, 5) == 0);
    expect("is room for two answers", answers[0].refusal == 0 && answers[1].refusal == 9 && answers[2].refusal == 0xA5A5A5A5);
    expect("a start", wisteria_start(&c, WISTERIA_AINTC, small[3]) == 0);
    for (k = 0; k < 30000; k++) {
        ups[k].kind = WISTERIA_LINE;
        ups[k].x = k % 128;
        ups[k].y = k / 128 % 2;
        ups[k].privilege = 9;
    }
    ups[29999].kind = WISTERIA_READ;
    ups[29999].x = 0;
    ups[29999].privilege = 1;
    expect("30,000 steps", wisteria_steps_in(&c, ups, 30000, said) == 0 && said[29998].refusal == 0 && said[29999].refusal == 0);
    memset(&c, 0xFF, sizeof c);
    was = c;
    expect("of no controller", wisteria_steps_in(&c, ups, 30000, said) == 12 && memcmp(&c, &was, sizeof c) == 0);
    for (k = 0; k < 30000; k++)
        expect("each is 12", said[k].refusal == 12 && said[k].value == 0);
}

/* ---- any words, at either end of memory that there is */

static void *guarded(size_t bytes, int at_end)
{
    size_t page = (size_t)sysconf(_SC_PAGESIZE), whole = (bytes + page - 1) / page * page;
    uint8_t *all = mmap(NULL, whole + 2 * page, PROT_NONE, MAP_PRIVATE | MAP_ANONYMOUS, -1, 0);
    if (all == MAP_FAILED || mprotect(all + page, whole, PROT_READ | PROT_WRITE) != 0) {
        puts("there is no memory to guard");
        exit(1);
    }
    memset(all + page, 0x5A, whole);
    return at_end ? all + page + whole - bytes : all + page;
}

static int is_untouched(const void *c, size_t bytes, int at_end)
{
    size_t page = (size_t)sysconf(_SC_PAGESIZE), whole = (bytes + page - 1) / page * page, k;
    const uint8_t *rest = at_end ? (const uint8_t *)c - (whole - bytes) : (const uint8_t *)c + bytes;
    for (k = 0; k < whole - bytes; k++)
        if (rest[k] != 0x5A)
            return 0;
    return 1;
}

static unsigned looked_at, controllers;

static void any_words(uint32_t kind, int at_end, unsigned times)
{
    wisteria_controller *c = guarded(sizeof *c, at_end);
    wisteria_step *told = guarded(7 * sizeof *told, !at_end);
    wisteria_answer *said = guarded(7 * sizeof *said, at_end);
    static wisteria_controller sound, was;
    uint32_t k, i, columns[3], value;
    expect("a start", wisteria_start(&sound, kind, kind % 2 ? small[kind] : large[kind]) == 0);
    for (k = 0; k < times; k++) {
        uint32_t refusal, sort = below(8);
        for (i = 0; i < 7; i++)
            told[i] = by_chance(kind);
        if (k % 16 == 0)
            expect("steps from here", wisteria_steps_in(&sound, told, 7, said) == 0);
        *c = sound;
        if (sort == 0)
            for (i = 0; i < WISTERIA_WORDS; i++)
                c->word[i] = below(0xFFFFFFFF);
        else if (sort == 1)
            for (i = 0; i < 40; i++)
                c->word[below(300)] = value_of();
        else
            c->word[sort < 5 ? below(128) : below(WISTERIA_WORDS)] ^= 1u << below(32);
        was = *c;
        refusal = wisteria_outputs(c, columns);
        expect("0 or 12", refusal == 0 || refusal == 12);
        expect("a look changes nothing", memcmp(c, &was, sizeof was) == 0);
        if (refusal == 12) {
            expect("zeros are shown", (columns[0] | columns[1] | columns[2]) == 0);
            expect("a read of no controller", wisteria_read(c, told[0].x, 1, &value) == 12 && value == 0);
            expect("a write of no controller", wisteria_write(c, told[0].x, 1, told[0].y) == 12);
            expect("a line of no controller", wisteria_line(c, told[0].x, told[0].y) == 12);
            expect("many steps of no controller", wisteria_steps_in(c, told, 7, said) == 12);
            for (i = 0; i < 7; i++)
                expect("each is 12", said[i].refusal == 12 && said[i].value == 0);
            expect("no word changes", memcmp(c, &was, sizeof was) == 0);
        } else {
            controllers++;
            expect("a controller takes steps", wisteria_steps_in(c, told, 7, said) == 0);
            for (i = 0; i < 7; i++)
                expect("and never refuses by 12", said[i].refusal != 12);
            expect("a controller is left", wisteria_outputs(c, columns) == 0);
        }
        expect("nothing outside is written", is_untouched(c, sizeof *c, at_end) && is_untouched(said, 7 * sizeof *said, at_end) && is_untouched(told, 7 * sizeof *told, !at_end));
    }
    looked_at += times;
    c = memset(c, 0x5A, sizeof *c);
    expect("a start at the edge", wisteria_start(c, kind, small[kind]) == 0 && is_untouched(c, sizeof *c, at_end));
}

/* ---- what a step takes */

static double nanoseconds(void)
{
    struct timespec now;
    clock_gettime(CLOCK_MONOTONIC, &now);
    return 1e9 * (double)now.tv_sec + (double)now.tv_nsec;
}

/* One by one: the mean over 10 portions of 400 steps, of each the best of 20 times. And 4000 at once: the best of 20 times, other steps each time. */
static void times(void)
{
    static wisteria_controller c, begun;
    uint32_t kind, size, run, k, portion;
    printf("nanoseconds for a step: singly, and 4000 at once\n");
    for (size = 0; size < 2; size++)
        for (kind = 0; kind < KINDS; kind++) {
            double one = 0, many = 1e18, best, began;
            wisteria_start(&begun, kind, size ? large[kind] : small[kind]);
            for (run = 0; run < 20; run++) {
                for (k = 0; k < BLOCK; k++)
                    steps[k] = by_chance(kind);
                c = begun;
                began = nanoseconds();
                wisteria_steps_in(&c, steps, BLOCK, answers);
                began = (nanoseconds() - began) / BLOCK;
                many = began < many ? began : many;
            }
            for (portion = 0; portion < BLOCK; portion += 400) {
                for (best = 1e18, run = 0; run < 20; run++) {
                    c = begun;
                    began = nanoseconds();
                    for (k = 0; k < 400; k++)
                        answers[portion + k] = singly(&c, steps[portion + k]);
                    began = (nanoseconds() - began) / 400;
                    best = began < best ? began : best;
                }
                begun = c;
                one += best / 10;
            }
            printf("%-17s %-6s %8.0f %8.1f\n", name[kind], size ? "large" : "small", one, many);
        }
}

int main(int argc, char **argv)
{
    unsigned long count = argc > 1 ? strtoul(argv[1], NULL, 10) : 100000;
    uint32_t kind;
    for (kind = 0; kind < KINDS; kind++) {
        agree(kind, count);
        any_words(kind, 0, 400);
        any_words(kind, 1, 400);
    }
    edges();
    expect("some words are a controller, and some are none", controllers > 0 && controllers < looked_at);
    if (argc > 2)
        times();
    return wrong != 0;
}
