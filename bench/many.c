/* Many steps at once, wisteria_steps_in, by chance: a fifth of them of each kind of controller, as they stand in traces, beside the listing of each trace. The
 * answer of every step, and the outputs after the last of a trace, are those of the listing. Prints how many steps, and ends with 1 at the first that differs.
 *   many STEPS */
#include "wisteria.h"

#include <stdio.h>
#include <stdlib.h>
#include <string.h>

static const struct {
    const char *name;
    uint32_t configures, numbers[5], registers, lines; /* how many numbers, and these; bytes up to behind its last register; its lines */
    uint32_t often[8];                                 /* offsets that are drawn often: what enables, sets, maps and ends */
} kinds[5] = {{"AIC", 2, {0x40000030, 0x11}, 0x150, 32, {0x100, 0x100, 0x100, 0x120, 0x120, 0x130, 0x130, 0x130}},
              {"CoreInterrupt", 4, {3, 9, 1, 0}, 0x034, 40, {0x000, 0x008, 0x008, 0x00C, 0x018, 0x020, 0x020, 0x024}},
              {"CIC", 4, {40, 5, 3, 0x4E800200}, 0x900, 40, {0x010, 0x020, 0x028, 0x034, 0x400, 0x404, 0x800, 0x1500}},
              {"AINTC", 0, {0}, 0x300, 128, {0x048, 0x048, 0x048, 0x048, 0x068, 0x068, 0x04C, 0x04C}},
              {"CIC with indices", 5, {40, 5, 3, 7, 1}, 0xD00, 40, {0x010, 0x020, 0x028, 0x034, 0x080, 0x400, 0x800, 0x1500}}};

static uint64_t drawn = 20261117;

static uint32_t below(uint32_t limit)
{
    drawn ^= drawn << 13;
    drawn ^= drawn >> 7;
    drawn ^= drawn << 17;
    return (uint32_t)(drawn >> 32) % limit;
}

/* A step by chance: mostly of a register or a line that there is. */
static wisteria_step drawn_step(uint32_t kind)
{
    wisteria_step s = {1 + below(3), 0, 0, 1};
    uint32_t sort = below(20);
    if (s.kind == WISTERIA_LINE) {
        s.x = below(kinds[kind].lines + (sort == 0));
        s.y = sort == 1 ? 2 : below(2);
        return s;
    }
    s.x = sort == 0 ? below(0x2000) : sort == 1 ? 0x1500 + 4 * below(8) : sort < 8 ? kinds[kind].often[below(8)] : 4 * below(kinds[kind].registers / 4);
    sort = below(5);
    if (s.kind == WISTERIA_WRITE)
        s.y = sort == 0 ? below(4) : sort == 1 ? 1u << below(32) : sort == 2 ? below(256) : sort == 3 ? below(0xFFFFFFFF) & 0x02010102 : below(0xFFFFFFFF);
    s.privilege = kind != WISTERIA_AINTC || below(10) != 0;
    return s;
}

static void differs(uint32_t kind, const char *what, unsigned long at)
{
    printf("%s: %s, step %lu of this one: another answer\n", kinds[kind].name, what, at + 1);
    exit(1);
}

static uint8_t trace[WISTERIA_LONGEST];
static size_t bytes;

static void put(uint32_t number)
{
    for (; number > 127; number >>= 7)
        trace[bytes++] = (uint8_t)(128 | (number & 127));
    trace[bytes++] = (uint8_t)number;
}

/* A trace of so many steps at most, and of fewer where there is no room for one more, of four numbers of at most five bytes. */
static uint32_t drawn_trace(uint32_t kind, wisteria_step *steps, uint32_t most)
{
    uint32_t n, k;
    bytes = 0;
    put(kind);
    for (k = 0; k < kinds[kind].configures; k++)
        put(kinds[kind].numbers[k]);
    for (n = 0; n < most && bytes + 20 <= sizeof trace; n++) {
        wisteria_step s = steps[n] = drawn_step(kind);
        put(s.kind);
        put(s.x);
        if (kind == WISTERIA_AINTC && s.kind != WISTERIA_LINE)
            put(s.privilege);
        if (s.kind != WISTERIA_READ)
            put(s.y);
    }
    return n;
}

/* The line of a listing at *at, which is left behind it: whether the step was refused, the eight digits, the three numbers. */
static void line_at(char **at, int *refused, uint32_t *value, uint32_t columns[3])
{
    int k;
    strtoul(*at, at, 10);
    *refused = (*at)[1] == 'X';
    *at += 2;
    *value = (uint32_t)strtoul(*at, at, 16);
    for (k = 0; k < 3; k++)
        columns[k] = (uint32_t)strtoul(*at, at, 10);
}

static uint32_t beside_a_listing(uint32_t kind, uint32_t most)
{
    static wisteria_step steps[WISTERIA_LIMIT];
    static wisteria_answer answers[WISTERIA_LIMIT];
    static char listed[WISTERIA_ROOM(WISTERIA_LIMIT) + 1];
    wisteria_controller c;
    uint32_t n = drawn_trace(kind, steps, most), k, columns[3] = {0, 0, 0}, shown[3];
    char *at = listed;
    listed[wisteria_list(trace, bytes, WISTERIA_LIMIT, (uint8_t *)listed, sizeof listed - 1)] = '\0';
    if (wisteria_start(&c, kind, kinds[kind].numbers) != 0 || wisteria_steps_in(&c, steps, n, answers) != 0)
        differs(kind, "the answer to all", 0);
    at = strchr(at, '\n');
    for (k = 0; k < n; k++) {
        int refused;
        uint32_t value;
        line_at(&at, &refused, &value, columns);
        if (answers[k].refusal != (refused ? value : 0) || answers[k].value != (refused ? 0 : value))
            differs(kind, "beside the listing", k);
    }
    if (strcmp(at, "\n") != 0 || wisteria_outputs(&c, shown) != 0 || memcmp(shown, columns, sizeof shown) != 0)
        differs(kind, "the end of the listing", n - 1);
    return n;
}

int main(int argc, char **argv)
{
    unsigned long steps = argc == 2 ? strtoul(argv[1], NULL, 10) : 0, traces = 0, left;
    uint32_t kind;
    if (steps < 5) {
        fprintf(stderr, "usage: many STEPS, 5 or more\n");
        return 2;
    }
    for (kind = 0; kind < 5; kind++)
        for (left = steps / 5; left > 0; traces++)
            left -= beside_a_listing(kind, left < WISTERIA_LIMIT ? (uint32_t)left : WISTERIA_LIMIT);
    printf("%lu steps, many at once, in %lu traces: each as the listing has it\n", steps / 5 * 5, traces);
    return 0;
}
