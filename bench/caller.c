/* A caller in C: the example of document 01 through the proved library and its header, the empty trace, traces that end at a limit and beside it, the
 * words that a read of a prioritised index looks at, the figures of traces, typed tables with a figure and with each refusal, a trace explained, encoded
 * again and refused, and a CoreInterrupt that is lent: where its words lie, starts and steps of each kind, and each refusal.
 * It prints what differs, and ends with 1 where something does. */
#include "wisteria.h"

#include <stdio.h>
#include <string.h>

#define BYTES(text) ((const uint8_t *)(text)), (sizeof(text) - 1)

static int wrong;

static void expect(const char *what, int good)
{
    if (!good) {
        printf("%s: another answer than expected\n", what);
        wrong = 1;
    }
}

/* The listing, into a room of so many bytes: its first bytes, and the room behind them untouched. */
static void listed(const char *what, const uint8_t *trace, size_t length, size_t room, const char *listing)
{
    static uint8_t out[WISTERIA_ROOM(100)], same[sizeof out];
    size_t whole = strlen(listing), fits = whole < room ? whole : room;
    memset(out, 0xA5, sizeof out);
    memset(same, 0xA5, sizeof same);
    expect(what, wisteria_list(trace, length, 100, out, room) == fits);
    expect(what, memcmp(out, listing, fits) == 0);
    expect(what, memcmp(out + fits, same, sizeof out - fits) == 0);
}

/* How a trace ends with a limit: the steps played, the refusal, the place. */
static void ends(const char *what, const uint8_t *trace, size_t length, uint32_t limit, uint32_t steps, uint32_t refusal, size_t offset)
{
    expect(what, wisteria_steps(trace, length, limit) == steps);
    expect(what, wisteria_refusal(trace, length, limit) == refusal);
    expect(what, wisteria_offset(trace, length, limit) == offset);
}

static void worked_example(void)
{
    static const uint8_t trace[] = {0x00, 0x00, 0x00, 0x02, 0x14, 0x23, 0x02, 0x94, 0x01, 0xA0, 0x01, 0x02, 0xA0, 0x02,
                                    0x20, 0x03, 0x05, 0x01, 0x01, 0x80, 0x02, 0x01, 0x02, 0x02, 0xB0, 0x02, 0x00};
    static const char listing[] = "AIC\n"
                                  "1 W 00000000 0 0 0\n"
                                  "2 W 00000000 0 0 0\n"
                                  "3 W 00000000 0 0 0\n"
                                  "4 L 00000000 1 0 0\n"
                                  "5 R 000000A0 0 0 1\n"
                                  "6 X 00000001 0 0 1\n"
                                  "7 W 00000000 0 0 0\n";
    size_t room;
    for (room = 0; room < sizeof listing + 2; room++)
        listed("the worked example", trace, sizeof trace, room, listing);
    ends("the worked example", trace, sizeof trace, 7, 7, WISTERIA_ENDED, sizeof trace);
    ends("six of its steps", trace, sizeof trace, 6, 6, WISTERIA_STEP_LIMIT, 23);
    listed("the empty trace", trace, 0, WISTERIA_ROOM(0), "E 8 0\n");
    ends("the empty trace", trace, 0, 7, 0, WISTERIA_DAMAGED_NUMBER, 0);
}

/* Endings at their edges and beside them (01, Numbers; House trace). */
static void endings(void)
{
    ends("limit 0 and no step", BYTES("\0\0\0"), 0, 0, WISTERIA_ENDED, 3);
    ends("limit 0 and a step", BYTES("\0\0\0\1\0"), 0, 0, WISTERIA_STEP_LIMIT, 3);
    ends("limit 1 and a step", BYTES("\0\0\0\1\0"), 1, 1, WISTERIA_ENDED, 5);
    ends("limit 1 and a damaged second", BYTES("\0\0\0\1\0\xFF"), 1, 1, WISTERIA_STEP_LIMIT, 5);
    ends("cut short", BYTES("\0\x80"), 1, 0, WISTERIA_DAMAGED_NUMBER, 1);
    ends("two bytes", BYTES("\0\x80\1\0"), 1, 0, WISTERIA_ENDED, 4);
    ends("0 in two bytes", BYTES("\0\x80\0\0"), 1, 0, WISTERIA_ENDED, 4);
    ends("0 in five bytes", BYTES("\0\x80\x80\x80\x80\0\0"), 1, 0, WISTERIA_ENDED, 7);
    ends("32 bits", BYTES("\0\xFF\xFF\xFF\xFF\x0F\0"), 1, 0, WISTERIA_ENDED, 7);
    ends("33 bits", BYTES("\0\xFF\xFF\xFF\xFF\x10\0"), 1, 0, WISTERIA_DAMAGED_NUMBER, 1);
    ends("six bytes worth 0", BYTES("\0\x80\x80\x80\x80\x80\0\0"), 1, 0, WISTERIA_DAMAGED_NUMBER, 1);
    ends("controller 2", BYTES("\2\1\1\1\0"), 1, 0, WISTERIA_ENDED, 5);
    ends("controller 3", BYTES("\3"), 1, 0, WISTERIA_ENDED, 1);
    ends("controller 3 in two bytes", BYTES("\x83\0"), 1, 0, WISTERIA_ENDED, 2);
    ends("a read with its privilege", BYTES("\3\1\0\1"), 1, 1, WISTERIA_ENDED, 4);
    ends("a read without its privilege", BYTES("\3\1\0"), 1, 0, WISTERIA_DAMAGED_NUMBER, 3);
    ends("a write with its privilege", BYTES("\3\2\0\1\0"), 1, 1, WISTERIA_ENDED, 5);
    ends("a line, which has no privilege", BYTES("\3\3\0\1"), 1, 1, WISTERIA_ENDED, 4);
    ends("controller 4, choice off", BYTES("\4\1\1\1\0\0"), 1, 0, WISTERIA_ENDED, 6);
    ends("controller 4, choice on", BYTES("\4\1\1\1\0\1"), 1, 0, WISTERIA_ENDED, 6);
    ends("controller 4 in two bytes", BYTES("\x84\0\1\1\1\0\1"), 1, 0, WISTERIA_ENDED, 7);
    ends("controller 4 without a choice", BYTES("\4\1\1\1\0"), 1, 0, WISTERIA_DAMAGED_NUMBER, 5);
    ends("choice 2", BYTES("\4\1\1\1\0\2"), 1, 0, WISTERIA_BEYOND_LIMIT, 5);
    ends("choice 2 in two bytes, and a number cut short behind", BYTES("\4\1\1\1\0\x82\0\x80"), 1, 0, WISTERIA_BEYOND_LIMIT, 5);
    ends("a poll", BYTES("\4\1\1\1\0\1\1\x80\1"), 1, 1, WISTERIA_ENDED, 9);
    ends("controller 5", BYTES("\5\1\1\1\0"), 1, 0, WISTERIA_UNKNOWN_KIND, 0);
    ends("controller 5 in two bytes", BYTES("\x85\0"), 1, 0, WISTERIA_UNKNOWN_KIND, 0);
    ends("controller 131", BYTES("\x83\1"), 1, 0, WISTERIA_UNKNOWN_KIND, 0);
    ends("step 0", BYTES("\0\0\0\0\0\0"), 1, 0, WISTERIA_UNKNOWN_KIND, 3);
    ends("step 3", BYTES("\0\0\0\3\0\0"), 1, 1, WISTERIA_ENDED, 6);
    ends("step 3 in two bytes", BYTES("\0\0\0\x83\0\0\0"), 1, 1, WISTERIA_ENDED, 7);
    ends("step 4", BYTES("\0\0\0\4\0\0"), 1, 0, WISTERIA_UNKNOWN_KIND, 3);
    ends("8 and 32 sources", BYTES("\1\x08\x20\1\1"), 1, 0, WISTERIA_ENDED, 5);
    ends("9 FIQ sources", BYTES("\1\x09\x20\1\1"), 1, 0, WISTERIA_BEYOND_LIMIT, 1);
    ends("33 IRQ sources, and a number cut short behind", BYTES("\1\x08\x21\1\x80"), 1, 0, WISTERIA_BEYOND_LIMIT, 2);
    ends("9 FIQ sources in two bytes", BYTES("\1\x89\0\x21\1"), 1, 0, WISTERIA_BEYOND_LIMIT, 1);
}

/* The longest trace and one byte more: all 0, so that the shorter one ends at its first step. */
static void lengths(void)
{
    static const uint8_t zeros[WISTERIA_LONGEST + 1];
    ends("65,536 bytes", zeros, WISTERIA_LONGEST, 1, 0, WISTERIA_UNKNOWN_KIND, 3);
    ends("65,537 bytes", zeros, sizeof zeros, 1, 0, WISTERIA_TRACE_TOO_LONG, WISTERIA_LONGEST);
}

/* What is counted of a source: handlers started, handlers of others started while it waited, entries open while it was open. */
struct counted {
    uint32_t source, started, waited, entries;
};

/* The figures of a trace: those of two sources, zeros for all others, and the steps refused. The words behind each table stay as they were. */
static void counts(const char *what, const uint8_t *trace, size_t length, uint32_t limit, uint32_t refused, struct counted one, struct counted other)
{
    uint32_t words[3][33], source, table;
    memset(words, 0xA5, sizeof words);
    expect(what, wisteria_figures(trace, length, limit, words[0], words[1], words[2]) == refused);
    for (source = 0; source < 32; source++) {
        int is_one = source == one.source, is_other = source == other.source;
        expect(what, words[0][source] == (is_one ? one.started : is_other ? other.started : 0));
        expect(what, words[1][source] == (is_one ? one.waited : is_other ? other.waited : 0));
        expect(what, words[2][source] == (is_one ? one.entries : is_other ? other.entries : 0));
    }
    for (table = 0; table < 3; table++)
        expect(what, words[table][32] == 0xA5A5A5A5);
}

/* Source 4 by level of priority 0 asks and waits while source 6, by edge of priority 7, is set, started and closed twice; then it is started itself
 * and a mark is opened above it (02, 3/12 and 11/12). */
static void figures(void)
{
    static const uint8_t trace[] = {0, 0, 0,                                                            /* an AIC, all internal, all low */
                                    2, 0x10, 0x40, 2, 0x18, 0x67, 2, 0xA0, 2, 0x50, 3, 4, 1,            /* two modes, enable both, line 4 */
                                    2, 0xAC, 2, 0x40, 1, 0x80, 2, 2, 0xB0, 2, 0,                        /* source 6: set, start, close */
                                    2, 0xAC, 2, 0x40, 1, 0x80, 2, 2, 0xB0, 2, 0,                        /* and once more */
                                    1, 1, 1, 0x80, 2, 1, 0x80, 2};                                      /* refused; source 4; a mark */
    static const struct counted none = {0, 0, 0, 0};
    counts("all steps", trace, sizeof trace, 100, 1, (struct counted){4, 1, 2, 2}, (struct counted){6, 2, 0, 1});
    counts("without the mark", trace, sizeof trace, 12, 1, (struct counted){4, 1, 2, 1}, (struct counted){6, 2, 0, 1});
    counts("without its own start", trace, sizeof trace, 11, 1, (struct counted){4, 0, 2, 0}, (struct counted){6, 2, 0, 1});
    counts("cut before the second start", trace, 29, 100, 0, (struct counted){4, 0, 1, 0}, (struct counted){6, 1, 0, 1});
    counts("no start yet", trace, sizeof trace, 5, 0, none, none);
    counts("no step", trace, sizeof trace, 0, 0, none, none);
    counts("the empty trace", trace, 0, 100, 0, none, none);
    counts("another kind, with a refused step", BYTES("\3\3\0\1\1\1\1"), 100, 1, none, none);
}

/* The waits of a source: how many began, did not end and have no bound, the first step by which one has none; the terms of the largest bound and, as
 * the answer, their sum. The word behind each array stays as it was. */
struct bounded {
    uint32_t waits[WISTERIA_WAIT_COUNTS], terms[WISTERIA_BOUND_TERMS];
};

static void bounds(const char *what, const uint8_t *trace, size_t length, uint32_t limit, uint32_t source, struct bounded expected)
{
    uint32_t waits[WISTERIA_WAIT_COUNTS + 1], terms[WISTERIA_BOUND_TERMS + 1], term;
    uint64_t most = 0;
    for (term = 0; term < WISTERIA_BOUND_TERMS; term++)
        most += expected.terms[term];
    memset(waits, 0xA5, sizeof waits);
    memset(terms, 0xA5, sizeof terms);
    expect(what, wisteria_bounds(trace, length, limit, source, waits, terms) == most);
    expect(what, memcmp(waits, expected.waits, sizeof expected.waits) == 0);
    expect(what, memcmp(terms, expected.terms, sizeof expected.terms) == 0);
    expect(what, waits[WISTERIA_WAIT_COUNTS] == 0xA5A5A5A5 && terms[WISTERIA_BOUND_TERMS] == 0xA5A5A5A5);
}

/* Source 4 of the trace above waits from its line on, behind source 6, which is set by two commands; then a mode is written while it waits. */
static void bounded(void)
{
    static const uint8_t trace[] = {0, 0, 0,                                                            /* an AIC, all internal, all low */
                                    2, 0x10, 0x40, 2, 0x18, 0x67, 2, 0xA0, 2, 0x50, 3, 4, 1,            /* two modes, enable both, line 4 */
                                    2, 0xAC, 2, 0x40, 1, 0x80, 2, 2, 0xB0, 2, 0,                        /* source 6: set, start, close */
                                    2, 0xAC, 2, 0x40, 2, 0x1C, 0};                                      /* set once more; the mode of source 7 */
    static const struct bounded none = {{0, 0, 0, 0}, {0, 0, 0, 0, 0, 0}};
    bounds("two commands", trace, sizeof trace, 8, 4, (struct bounded){{1, 1, 0, 0}, {0, 0, 2, 0, 0, 0}});
    bounds("one command", trace, sizeof trace, 7, 4, (struct bounded){{1, 1, 0, 0}, {0, 0, 1, 0, 0, 0}});
    bounds("a rewrite", trace, sizeof trace, 100, 4, (struct bounded){{1, 1, 1, 9}, {0, 0, 0, 0, 0, 0}});
    bounds("the source ahead", trace, sizeof trace, 100, 6, (struct bounded){{2, 1, 1, 9}, {0, 0, 0, 0, 0, 0}});
    bounds("source 0", trace, sizeof trace, 100, 0, none);
    bounds("source 32", trace, sizeof trace, 100, 32, none);
    bounds("source 36", trace, sizeof trace, 100, 36, none);
    bounds("the empty trace", trace, 0, 100, 4, none);
    bounds("another kind", BYTES("\3\3\0\1\1\1\1"), 100, 4, none);
}

/* A table: a row for source 0, one for source 1, the same row for all others, the forced word and the mark's frame. Any of them may be any text. */
static const char *table(const char *nought, const char *one, const char *others, const char *forced, const char *mark)
{
    static char text[1000];
    size_t at = (size_t)sprintf(text, "%s\n%s\n", nought, one);
    int source;
    for (source = 2; source < 32; source++)
        at += (size_t)sprintf(text + at, "%s\n", others);
    sprintf(text + at, "%s\n%s", forced, mark);
    return text;
}

/* The line of a text, into rooms of every size: its first bytes, and the room behind them untouched. */
static void said(const char *what, const char *text, size_t length, const char *line)
{
    static uint8_t out[WISTERIA_STACK_ROOM + 3], same[sizeof out];
    size_t whole = strlen(line), room;
    memset(same, 0xA5, sizeof same);
    expect(what, whole <= WISTERIA_STACK_ROOM);
    for (room = 0; room <= sizeof out; room++) {
        size_t fits = whole < room ? whole : room;
        memset(out, 0xA5, sizeof out);
        expect(what, wisteria_stack((const uint8_t *)text, length, out, room) == fits);
        expect(what, memcmp(out, line, fits) == 0);
        expect(what, memcmp(out + fits, same, sizeof out - fits) == 0);
    }
}

static void stack_is(const char *what, const char *text, const char *line)
{
    said(what, text, strlen(text), line);
}

/* Figures in bytes, and 14 at each limit (02, 4/12). Source 1 has a level to itself unless its row says otherwise. */
static void stacks(void)
{
    stack_is("one source and seven marks", table("0 0 0", "5 3 100", "0 0 0", "0", "10"), "170 bytes\n");
    stack_is("two levels and six marks", table("0 0 0", "5 3 100", "0 0 20", "0", "10"), "180 bytes\n");
    stack_is("one level and seven marks", table("0 0 0", "5 3 100", "5 0 101", "0", "10"), "171 bytes\n");
    stack_is("source 0 does not count", table("7 0 9000", "5 3 100", "0 0 0", "0", "10"), "170 bytes\n");
    stack_is("a forced source does not count", table("0 0 0", "5 3 9000", "0 0 0", "2", "10"), "80 bytes\n");
    stack_is("bit 0 is ignored", table("0 0 0", "5 3 100", "0 0 0", "1", "10"), "170 bytes\n");
    stack_is("nothing", table("0 0 0", "0 0 0", "0 0 0", "0", "0"), "0 bytes\n");
    stack_is("the most", table("7 3 65535", "7 3 65535", "7 3 65535", "0xFFFFFFFF", "65535"), "524280 bytes\n");
    stack_is("priority 8", table("0 0 0", "8 0 0", "0 0 0", "0", "0"), "E 14\n");
    stack_is("type 4", table("0 0 0", "0 4 0", "0 0 0", "0", "0"), "E 14\n");
    stack_is("a frame of 65,536", table("0 0 0", "0 0 65536", "0 0 0", "0", "0"), "E 14\n");
    stack_is("a mark of 65,536", table("0 0 0", "0 0 0", "0 0 0", "0", "65536"), "E 14\n");
    stack_is("source 0 beyond its limit", table("0 0 65536", "0 0 0", "0 0 0", "0", "0"), "E 14\n");
    stack_is("a frame of 33 bits", table("0 0 0", "0 0 4294967296", "0 0 0", "0", "0"), "E 14\n");
    stack_is("a mark of 20 digits", table("0 0 0", "0 0 0", "0 0 0", "0", "18446744073709551616"), "E 14\n");
    stack_is("a forced source beyond its limit", table("0 0 0", "8 0 0", "0 0 0", "0xFFFFFFFF", "0"), "E 14\n");
}

/* How a table is typed: forms that are read, and each slip with its offset. */
static void typing(void)
{
    static char longest[WISTERIA_LONGEST + 1];
    stack_is("hexadecimal, of both cases", table("0 0 0", "0x5 0x03 0x0aB", "0 0 0", "0xfFfFfFf0", "0xA"), "241 bytes\n");
    stack_is("comments and white space", table("0\t0\r0#note 1", "5 3\n# 7\n100", "0 0 0", " 0", "10 # end"), "170 bytes\n");
    stack_is("the empty text", "", "E 8 0\n");
    stack_is("the last number missing", table("0 0 0", "0 0 0", "0 0 0", "0", ""), "E 8 194\n");
    stack_is("a number too many", table("0 0 0", "0 0 0", "0 0 0", "0", "0 0"), "E 8 196\n");
    stack_is("a letter", table("0 0 0", "0 O 0", "0 0 0", "0", "0"), "E 8 8\n");
    stack_is("0X", table("0 0 0", "0X1 0 0", "0 0 0", "0", "0"), "E 8 6\n");
    stack_is("no digit", table("0 0 0x", "0 0 0", "0 0 0", "0", "0"), "E 8 4\n");
    stack_is("a forced word of 33 bits", table("0 0 0", "0 0 0", "0 0 0", "4294967296", "0"), "E 8 192\n");
    stack_is("8 before 14", table("8 0 0", "0 0 0", "0 0 0", "0", "x"), "E 8 194\n");
    memset(longest, ' ', sizeof longest);
    said("65,536 bytes", longest, WISTERIA_LONGEST, "E 8 65536\n");
    said("65,537 bytes", longest, sizeof longest, "E 11 65536\n");
}

static void looks(const char *what, const uint8_t *trace, size_t length, uint32_t limit, uint32_t offset, uint32_t words)
{
    expect(what, wisteria_looked(trace, length, limit, offset) == words);
}

/* Status words looked at (02, 10/12). 64 systems, two channels, one host: system 40 is enabled, set, and held for the global index. */
static void words_looked_at(void)
{
    static const uint8_t held[] = {0x04, 0x40, 0x02, 0x01, 0x00, 0x01, 0x02, 0x28, 0x28, 0x02, 0x20, 0x28, 0x01, 0x80, 0x01};
    looks("two channels of two words", held, sizeof held, 0, 0x080, 4);
    looks("enabled and not set", held, sizeof held, 1, 0x080, 4);
    looks("in the second word of the first channel", held, sizeof held, 2, 0x080, 2);
    looks("held", held, sizeof held, 3, 0x080, 0);
    looks("the host's index is not held", held, sizeof held, 3, 0x900, 2);
    looks("the whole trace", held, sizeof held, WISTERIA_LIMIT, 0x900, 2);
    looks("no such host", held, sizeof held, 2, 0x904, 0);
    looks("a misaligned offset", held, sizeof held, 2, 0x081, 0);
    looks("the control register", held, sizeof held, 2, 0x004, 0);
    looks("a register that is only written", held, sizeof held, 2, 0x020, 0);
    looks("the choice off", BYTES("\4\x40\2\1\0\0"), 1, 0x080, 0);
    looks("the choice beyond its limit", BYTES("\4\x40\2\1\0\2"), 1, 0x080, 0);
    looks("a CIC without indices", BYTES("\2\x40\2\1\0"), 1, 0x080, 0);
    looks("the AIC", BYTES("\0\0\0"), 1, 0x100, 0);
    looks("the most", BYTES("\4\x80\x08\x80\2\1\0\1"), 0, 0x900, 8192);
}

/* A CoreInterrupt between two words that no call may touch. */
static struct {
    uint32_t before;
    struct wisteria_core core;
    uint32_t behind;
} lent;

/* The words of the record are these: count, level, inputs, soft, enable of FIQ, then of IRQ. */
static void holds(const char *what, const uint32_t words[10])
{
    expect(what, memcmp(&lent.core, words, 40) == 0);
    expect(what, lent.before == 0xA5A5A5A5 && lent.behind == 0xA5A5A5A5);
}

static void starts(const char *what, uint32_t fiqs, uint32_t irqs, uint32_t fiq, uint32_t irq, uint32_t refusal)
{
    struct wisteria_reply reply = wisteria_core_start(&lent.core, fiqs, irqs, fiq, irq);
    expect(what, reply.refusal == refusal && reply.value == 0);
}

/* A step and what it answers; a refused one leaves every word as it was. */
static void steps(const char *what, uint32_t kind, uint32_t first, uint32_t second, uint32_t refusal, uint32_t value)
{
    struct wisteria_core was = lent.core;
    struct wisteria_reply reply = wisteria_core_step(&lent.core, kind, first, second);
    expect(what, reply.refusal == refusal && reply.value == value);
    expect(what, refusal == 0 || memcmp(&lent.core, &was, sizeof was) == 0);
}

/* Where each word lies, and that the library has them there too: each is given a value of its own (01, CoreInterrupt). */
static void lent_layout(void)
{
    static const uint32_t started[10] = {7, 1, 0, 0, 0, 31, 0, 0, 0, 0};
    static const uint32_t moved[10] = {7, 1, 2, 0x11, 0x21, 31, 0, 8, 0x12, 0x22};
    expect("the size of a record", sizeof(struct wisteria_core) == 40 && sizeof(struct wisteria_reply) == 8);
    expect("its sides", offsetof(struct wisteria_core, fiq) == 0 && offsetof(struct wisteria_core, irq) == 20);
    expect("the words of a side", offsetof(struct wisteria_core_side, count) == 0 && offsetof(struct wisteria_core_side, level) == 4 &&
                                      offsetof(struct wisteria_core_side, inputs) == 8 && offsetof(struct wisteria_core_side, soft) == 12 &&
                                      offsetof(struct wisteria_core_side, enable) == 16);
    memset(&lent, 0xA5, sizeof lent);
    starts("a start over any words", 7, 31, 1, 0, 0);
    holds("after the start", started);
    steps("line 33", WISTERIA_LINE, 33, 1, 0, 0);
    steps("FIQ soft", WISTERIA_WRITE, 0x00, 0x11, 0, 0);
    steps("FIQ enable", WISTERIA_WRITE, 0x08, 0xA1, 0, 0);
    steps("line 3", WISTERIA_LINE, 3, 1, 0, 0);
    steps("IRQ soft", WISTERIA_WRITE, 0x18, 0x12, 0, 0);
    steps("IRQ enable", WISTERIA_WRITE, 0x20, 0x80000022, 0, 0);
    holds("after six steps", moved);
    steps("FIQ raw", WISTERIA_READ, 0x10, 99, 0, 0x13);
    steps("FIQ status", WISTERIA_READ, 0x14, 0, 0, 0x01);
    steps("IRQ raw", WISTERIA_READ, 0x28, 0, 0, 0x1A);
    steps("IRQ status", WISTERIA_READ, 0x2C, 0, 0, 0x02);
    holds("after four reads", moved);
}

/* Each refusal of a start and of a step, at the limits and beyond them (01, Numbers). */
static void lent_refusals(void)
{
    struct wisteria_core sound;
    starts("the most", 8, 32, 1, 1, 0);
    sound = lent.core;
    starts("9 FIQ sources", 9, 32, 1, 1, WISTERIA_BEYOND_LIMIT);
    starts("33 IRQ sources", 8, 33, 1, 1, WISTERIA_BEYOND_LIMIT);
    starts("FIQ level 2", 8, 32, 2, 1, WISTERIA_BEYOND_LIMIT);
    starts("IRQ level 2", 8, 32, 1, 2, WISTERIA_BEYOND_LIMIT);
    expect("refused starts write nothing", memcmp(&lent.core, &sound, sizeof sound) == 0);
    steps("kind 0", 0, 0, 0, WISTERIA_UNKNOWN_KIND, 0);
    steps("kind 4", 4, 0, 0, WISTERIA_UNKNOWN_KIND, 0);
    steps("offset 1", WISTERIA_READ, 1, 0, 1, 0);
    steps("offset 0x30", WISTERIA_WRITE, 0x30, 0, 2, 0);
    steps("a read of a clear", WISTERIA_READ, 0x04, 0, 3, 0);
    steps("a write of a status", WISTERIA_WRITE, 0x14, 0, 4, 0);
    steps("line 40", WISTERIA_LINE, 40, 0, 6, 0);
    steps("level 2", WISTERIA_LINE, 39, 2, 6, 0);
    starts("no FIQ source", 0, 1, 0, 0, 0);
    steps("a read of a clear without sources", WISTERIA_READ, 0x04, 0, 0, 0);
    lent.core.irq.soft = 2;
    steps("a bit beyond the count", WISTERIA_READ, 1, 0, 12, 0);
    steps("and no kind of step", 0, 1, 0, WISTERIA_UNKNOWN_KIND, 0);
    lent.core.irq.soft = 1;
    steps("no bit beyond it", WISTERIA_READ, 0x18, 0, 0, 1);
    expect("the words around it", lent.before == 0xA5A5A5A5 && lent.behind == 0xA5A5A5A5);
}

/* A text encoded: its bytes, what was expected, in which line and as which word. */
static void encoded(const char *what, const uint8_t *text, size_t length, const uint8_t *trace, size_t bytes, size_t expected, size_t line, size_t word)
{
    uint8_t out[WISTERIA_LONGEST / 64];
    size_t refusal[3] = {99, 99, 99};
    expect(what, wisteria_encode(text, length, out, sizeof out, refusal) == bytes);
    expect(what, memcmp(out, trace, bytes) == 0);
    expect(what, refusal[0] == expected && refusal[1] == line && refusal[2] == word);
}

static void explanations(void)
{
    static const uint8_t trace[] = {0x00, 0x00, 0x00, 0x02, 0x14, 0x23, 0x03, 0x05, 0x01, 0x01, 0x02};
    static uint8_t out[WISTERIA_EXPLAIN_ROOM(3)], part[sizeof out];
    size_t bytes = wisteria_explain(trace, sizeof trace, 3, out, sizeof out), of_part, begins = bytes;
    expect("a trace explained", bytes > 28 && memcmp(out, "aic 0 0                     # 003", 33) == 0);
    encoded("an explanation", out, bytes, trace, sizeof trace, WISTERIA_TAKEN, 0, 0);
    while (begins > 1 && out[begins - 2] != '\n')
        begins--;
    of_part = wisteria_explain_window(trace, sizeof trace, 3, 3, 9, part, sizeof part);
    expect("its third step", of_part == bytes - (begins - 1) && memcmp(part, out + begins - 1, of_part) == 0);
    expect("its third line", memcmp(part, "read 0x002                  # 3", 31) == 0);
    expect("a room of 5 bytes", wisteria_explain(trace, sizeof trace, 3, part, 5) == 5 && memcmp(part, "aic 0", 5) == 0);
    encoded("no controller", BYTES("# nothing"), trace, 0, WISTERIA_A_CONTROLLER, 1, 1);
    encoded("no step", BYTES("aic 0 0\nwait"), trace, 3, WISTERIA_A_STEP, 2, 1);
    encoded("no number", BYTES("aic 0 0\n\nread x"), trace, 3, WISTERIA_A_NUMBER, 3, 2);
    encoded("a number too many", BYTES("aic 0 0 0"), trace, 0, WISTERIA_THE_LINE_END, 1, 4);
}

/* ---- one controller that the caller keeps, beside the listing of the same steps */

static uint32_t drawn = 20261117;

static uint32_t below(uint32_t limit)
{
    drawn ^= drawn << 13;
    drawn ^= drawn >> 17;
    drawn ^= drawn << 5;
    return drawn % limit;
}

static struct {
    uint8_t bytes[WISTERIA_LONGEST];
    size_t length;
} made;

/* A number of a trace, in its shortest form (01, House trace). */
static void put(uint32_t value)
{
    for (; value > 127; value >>= 7)
        made.bytes[made.length++] = (uint8_t)(128 | (value & 127));
    made.bytes[made.length++] = (uint8_t)value;
}

/* Mostly registers and lines that there are, and now and then anything. */
static uint32_t offset_of(uint32_t kind)
{
    static const uint32_t last[5] = {0x150, 0x034, 0x900, 0x300, 0xD00};
    uint32_t sort = below(20);
    return sort == 0 ? below(0x2000) : sort == 1 ? 0x1500 + 4 * below(8) : 4 * below(last[kind] / 4);
}

static uint32_t value_of(void)
{
    uint32_t sort = below(4);
    return sort == 0 ? below(4) : sort == 1 ? 1u << below(32) : sort == 2 ? below(256) : below(0xFFFFFFFF);
}

/* One step through the functions, put to the trace too; its line as a listing has it. */
static size_t stepped(wisteria_controller *c, uint32_t kind, unsigned number, char *line, size_t room)
{
    uint32_t step = 1 + below(3), columns[3], value = 0, refusal, privilege = kind == WISTERIA_AINTC ? below(8) != 0 : 1;
    uint32_t first = step == WISTERIA_LINE ? below(kind == WISTERIA_AINTC ? 130 : 42) : offset_of(kind);
    uint32_t second = step == WISTERIA_LINE ? (below(30) == 0 ? 2 : below(2)) : value_of();
    put(step);
    put(first);
    if (kind == WISTERIA_AINTC && step != WISTERIA_LINE)
        put(privilege);
    if (step != WISTERIA_READ)
        put(second);
    if (step == WISTERIA_READ)
        refusal = wisteria_read(c, first, privilege, &value);
    else
        refusal = step == WISTERIA_WRITE ? wisteria_write(c, first, privilege, second) : wisteria_line(c, first, second);
    expect("outputs of a controller", wisteria_outputs(c, columns) == 0);
    return (size_t)snprintf(line, room, "%u %c %08X %u %u %u\n", number, refusal ? 'X' : "RWL"[step - 1], refusal ? refusal : value, columns[0],
                            columns[1], columns[2]);
}

static void beside_the_listing(uint32_t kind, const uint32_t numbers[5], unsigned steps)
{
    static const unsigned configures[5] = {2, 4, 4, 0, 5};
    static uint8_t listed[WISTERIA_ROOM(4000)];
    static char told[sizeof listed];
    wisteria_controller c;
    unsigned k;
    size_t to = 0, at = 0;
    made.length = 0;
    put(kind);
    for (k = 0; k < configures[kind]; k++)
        put(numbers[k]);
    expect("a controller starts", wisteria_start(&c, kind, numbers) == 0);
    for (k = 1; k <= steps; k++)
        to += stepped(&c, kind, k, told + to, sizeof told - to);
    expect("as many bytes as listed", wisteria_list(made.bytes, made.length, steps, listed, sizeof listed) > to);
    while (listed[at++] != '\n')
        ;
    expect("the steps of a controller are those of the listing", memcmp(told, listed + at, to) == 0);
}

/* Whatever stands in the words: 12, and nothing changes; a bit that is turned and still makes a controller is one that can be asked. */
static void any_words(uint32_t kind, const uint32_t numbers[5])
{
    static wisteria_controller c, was;
    uint32_t k, value, columns[3];
    expect("a start", wisteria_start(&c, kind, numbers) == 0);
    for (k = 0; k < 200; k++) {
        uint32_t word = k < 20 ? k : below(WISTERIA_WORDS), refusal;
        was = c;
        was.word[word] ^= 1u << below(32);
        {
            wisteria_controller turned = was;
            refusal = wisteria_outputs(&turned, columns);
            expect("0 or 12", refusal == 0 || refusal == 12);
            if (refusal == 12) {
                expect("a read of no controller", wisteria_read(&turned, 0, 1, &value) == 12 && value == 0);
                expect("a write of no controller", wisteria_write(&turned, 0, 1, 1) == 12 && wisteria_line(&turned, 0, 1) == 12);
                expect("no word changes", memcmp(&turned, &was, sizeof was) == 0);
                expect("zeros are shown", (columns[0] | columns[1] | columns[2]) == 0);
            }
        }
    }
    for (k = 0; k < WISTERIA_WORDS; k++)
        was.word[k] = below(0xFFFFFFFF);
    expect("words by chance", wisteria_outputs(&was, columns) == 12);
    c = was;
    expect("no such kind", wisteria_start(&c, 5, numbers) == 9);
    expect("nothing is written", memcmp(&c, &was, sizeof c) == 0);
}

static void controllers(void)
{
    static const uint32_t small[5][5] = {{0x30, 0x11, 0, 0, 0}, {3, 9, 1, 0, 7}, {40, 5, 3, 0x4E800200, 9}, {1, 2, 3, 4, 5}, {40, 5, 3, 7, 1}};
    static const uint32_t beyond[5] = {9, 1, 0, 0, 0}, none[5] = {0, 0, 0, 0, 0};
    wisteria_controller c, was;
    uint32_t kind;
    for (kind = 0; kind < 5; kind++) {
        beside_the_listing(kind, small[kind], 4000);
        any_words(kind, small[kind]);
    }
    expect("a start", wisteria_start(&c, WISTERIA_AINTC, none) == 0);
    was = c;
    expect("a ninth FIQ source", wisteria_start(&c, WISTERIA_COREINTERRUPT, beyond) == 10 && memcmp(&c, &was, sizeof c) == 0);
    expect("a CIC of no system", wisteria_start(&c, WISTERIA_CIC, none) == 10 && memcmp(&c, &was, sizeof c) == 0);
}

int main(void)
{
    worked_example();
    endings();
    lengths();
    words_looked_at();
    figures();
    bounded();
    stacks();
    typing();
    explanations();
    lent_layout();
    lent_refusals();
    controllers();
    return wrong;
}
