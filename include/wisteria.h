/* Lists and plays recorded traces of register accesses and line changes, says how many words a read of an index looks at, counts what the sources of an
 * AIC did, says what bounds their waits, says the stack that a priority table needs, explains a trace and encodes it from text, and steps a CoreInterrupt
 * that the caller holds, or a controller of any kind, for callers in C and C++.
 *
 * The functions are those of crates/exports, proved to answer what its contracts say for every trace, limit, text and record. Link
 * libwisteria, which `./run library` makes for x86-64 (docs/EMBED.md).
 *
 * What a caller answers for:
 *   - trace (or text) points to trace_len (text_len) bytes that nothing changes during the call, and out to out_len bytes that nothing else uses;
 *   - neither pointer is null, not even where its length is 0: it is then the address of anything, and not followed;
 *   - trace (or text) and out do not overlap, not even in one byte;
 *   - core points to a struct wisteria_core that nothing else uses during the call, whatever its words are.
 * No function keeps a pointer, allocates memory, reads or writes anything else, or fails. Each may be called from several threads at once.
 *
 * A trace or table longer than 65,536 bytes is refused as a whole, so at most 65,537 bytes of a longer one need to be handed over.
 */
#ifndef WISTERIA_H
#define WISTERIA_H

#include <stddef.h>
#include <stdint.h>

#ifdef __cplusplus
extern "C" {
#endif

/* What this is a header of: as VERSION has it, and ./run --version. */
#define WISTERIA_VERSION "1.12.0"

/* The longest trace that is played and the longest text that is read, in bytes; and the most steps that the program `wisteria` plays of a trace. */
#define WISTERIA_LONGEST 65536
#define WISTERIA_LIMIT 20000

/* A number of bytes that any listing of at most `limit` steps fits, where `limit` is at most 99,999. */
#define WISTERIA_ROOM(limit) (29 * (size_t)(limit) + 58)

/* A number of bytes that the line of any table fits. */
#define WISTERIA_STACK_ROOM 13

/* What is refused is answered by a number, 0 standing for nothing refused. docs/REFUSALS.md has each in words, who gives it, and in which order the checks
 * are made: a step of a trace is refused by 1 to 4, 6 or 13, a trace ends by 7 to 11, a start is refused by 10, a record that breaks a rule by 12, a table
 * by 8, 11 or 14. */

/* How a trace ended: played to its end, or by one of the refusals that end a trace. */
enum {
    WISTERIA_ENDED = 0,            /* no byte was left where a step would begin */
    WISTERIA_STEP_LIMIT = 7,       /* the limit was reached, and bytes remain */
    WISTERIA_DAMAGED_NUMBER = 8,   /* a number is cut short, over 32 bits or over 5 bytes */
    WISTERIA_UNKNOWN_KIND = 9,     /* there is no such kind of controller or of step */
    WISTERIA_BEYOND_LIMIT = 10,    /* a number of the configuration is beyond its limit */
    WISTERIA_TRACE_TOO_LONG = 11   /* the trace has more than 65,536 bytes */
};

/* Writes the listing of the trace, of which at most `limit` steps are played, to the start of out.
 * Answers the number of bytes written, at most out_len. What finds no room is dropped, and the bytes of out behind those written stay as
 * they were. The listing is text in ASCII, each line ended by '\n'; no zero byte is put behind it. */
size_t wisteria_list(const uint8_t *trace, size_t trace_len, uint32_t limit, uint8_t *out, size_t out_len);

/* The same as wisteria_list, byte for byte, by the loop that plays a machine of any kind. For the benchmark, which times both. */
size_t wisteria_list_plain(const uint8_t *trace, size_t trace_len, uint32_t limit, uint8_t *out, size_t out_len);

/* The number of steps played, refused ones among them: at most `limit`, and 0 where the trace has no accepted configuration. */
uint32_t wisteria_steps(const uint8_t *trace, size_t trace_len, uint32_t limit);

/* The same number as wisteria_steps, by the loop that plays a machine of any kind. For the benchmark, which times both. */
uint32_t wisteria_play_plain(const uint8_t *trace, size_t trace_len, uint32_t limit);

/* How the trace ended: 0, or the refusal's number, 7 to 11. A step that is refused by 1 to 4, 6 or 13 ends nothing, and
 * the listing shows it. */
uint32_t wisteria_refusal(const uint8_t *trace, size_t trace_len, uint32_t limit);

/* Where it ended, in bytes from the start of the trace: for 8, 9 and 10 the first byte of the number at fault, for 7 that of the next step,
 * for 11 it is 65,536, and for 0 the length of the trace. */
size_t wisteria_offset(const uint8_t *trace, size_t trace_len, uint32_t limit);

/* How many status words, of 32 system interrupts each, a read of the register at `offset` would look at after the trace, of which at most `limit`
 * steps are played. Only a read of a prioritised index looks at any: a CIC of kind 4, with its choice on, at 0x080 and from 0x900 on. For each channel
 * that the index is over, in order, up to and including the first that has a set and enabled system interrupt, the words are counted up to and
 * including the first that has one, or all of them: at most 8,192 words, 32 for each of 256 channels.
 * 0 where that read would be refused, where the index is held, where the register is another, and where the trace is of another kind or has no
 * accepted configuration. Counted channel by channel, as document 02 defines it; a step of a trace finds the same index by one pass. The read is not
 * carried out. */
uint32_t wisteria_looked(const uint8_t *trace, size_t trace_len, uint32_t limit, uint32_t offset);

/* What each source of an AIC did over the steps played of the trace. started, waited and entries each point to 32 words, which nothing else uses and of
 * which no two overlap; all of them are written, source 0 first:
 *   started[i]   the handlers of source i started;
 *   waited[i]    the most handlers of other sources started in one wait of source i. A wait begins with the first step after which it is pending,
 *                enabled and not fast, and ends where one of the three ends or its handler is started; once started, it waits anew only after one of
 *                them has ended. A wait that does not end counts too;
 *   entries[i]   the most entries (handlers and spurious marks) open at once while a handler of source i was open, itself and those below it counted.
 * Of source 0, of another kind of controller, and where the trace has no accepted configuration, all are 0.
 * Answers the number of steps refused among the steps played, by 1 to 4, 6 or 13. */
uint32_t wisteria_figures(const uint8_t *trace, size_t trace_len, uint32_t limit, uint32_t *started, uint32_t *waited, uint32_t *entries);

/* Where each number stands that wisteria_bounds writes: in `waits`, and in `terms`, which are in handlers. A rival is a source ahead of the waiting one
 * (of a higher priority, or an equal one and a lower number) that is not fast when the wait begins; it counts from where it is enabled. */
enum {
    WISTERIA_WAITS = 0,                /* waits that began */
    WISTERIA_WAITS_UNENDED = 1,        /* of these, waits that did not end by the last step: 0 or 1 */
    WISTERIA_WAITS_UNBOUNDED = 2,      /* of these, waits without a bound: a mode, FFER or FFDR was written in them */
    WISTERIA_FIRST_UNBOUNDED_STEP = 3, /* the step, counted from 1, by which the first of those lost it; 0 where all have one */
    WISTERIA_WAIT_COUNTS = 4
};
enum {
    WISTERIA_PENDING = 0,       /* rivals that are due where they begin to count */
    WISTERIA_EDGES = 1,         /* edges of edge-triggered rivals */
    WISTERIA_COMMANDS = 2,      /* set commands to edge-triggered rivals */
    WISTERIA_TURNS = 3,         /* turns to active of the lines of level-sensitive rivals */
    WISTERIA_CLOSED_ACTIVE = 4, /* handlers of level-sensitive rivals that were closed while their line was active */
    WISTERIA_REMEMBERED = 5,    /* another source that was remembered when the wait began: 0 or 1 */
    WISTERIA_BOUND_TERMS = 6
};

/* The bounds of the waits of source `source` over the steps played of the trace; a wait is that of `waited` above. waits points to WISTERIA_WAIT_COUNTS
 * words and terms to WISTERIA_BOUND_TERMS words, which nothing else uses and which do not overlap; all of them are written.
 * The bound of a wait is how many handlers of other sources could at most be started in it, worked out from its own steps. Answers the largest bound of
 * the waits that have one, in handlers: the sum of the six terms, which are those of the first wait that has it. A wait that did not end has its bound
 * of that moment. No wait that has a bound starts more.
 * All are 0 for source 0, which never waits, and for numbers over 31, for another kind of controller, and where the trace has no accepted
 * configuration. */
uint64_t wisteria_bounds(const uint8_t *trace, size_t trace_len, uint32_t limit, uint32_t source, uint32_t *waits, uint32_t *terms);

/* Writes one line about a priority table of the AIC to the start of out: how many bytes of stack the open handlers and spurious marks can take
 * at once.
 * The text has 98 numbers, in decimal or behind 0x in hexadecimal, parted by spaces, tabs, CR or LF; a comment begins with # and ends with its line.
 * For sources 0 to 31 in order they are priority (0 to 7), type (0 to 3) and frame (bytes that its handler takes, 0 to 65,535); then a word whose
 * bit n says that source n is forced to the fast side (bit 0 is ignored); then the frame of a spurious mark (bytes, 0 to 65,535).
 * The line is one of these, ended by '\n', with numbers in decimal:
 *   N bytes      the figure, in bytes, at most 524,280;
 *   E 14         a priority, type or frame is beyond its limit, be its source fast or not, and however many digits it has;
 *   E 8 OFFSET   a number is missing or is no number, the word of forced sources passes 32 bits, or something stands behind the last number: where
 *                it begins, in bytes from the start of the text, or text_len where it is missing. This comes before 14;
 *   E 11 65536   the text has more than 65,536 bytes, whatever they are.
 * Answers the number of bytes written, at most out_len, with what finds no room dropped as above. */
size_t wisteria_stack(const uint8_t *text, size_t text_len, uint8_t *out, size_t out_len);

/* A number of bytes that any explanation of at most `limit` steps fits, where `limit` is at most 99,999: at most 256 for each line. */
#define WISTERIA_EXPLAIN_ROOM(limit) (256 * (size_t)(limit) + 512)

/* The longest text that wisteria_encode takes, in bytes: an explanation of WISTERIA_LIMIT steps is no longer. */
#define WISTERIA_LONGEST_TEXT 5242880

/* Writes the trace explained, of which at most `limit` steps are played, to the start of out: its statements, each with the step's number and what it did
 * in the maker's words (docs/TEXT.md). Answers the number of bytes written, at most out_len, with what finds no room dropped as above. */
size_t wisteria_explain(const uint8_t *trace, size_t trace_len, uint32_t limit, uint8_t *out, size_t out_len);

/* The lines of the steps first to first + steps - 1 that are played, counted from 1, and nothing else: neither the controller's line nor a last E. */
size_t wisteria_explain_window(const uint8_t *trace, size_t trace_len, uint32_t limit, uint32_t first, uint32_t steps, uint8_t *out, size_t out_len);

/* What wisteria_encode may have expected. */
enum {
    WISTERIA_TAKEN = 0,          /* nothing else: the text is taken */
    WISTERIA_A_CONTROLLER = 1,   /* aic, coreinterrupt, cic, aintc or indexed */
    WISTERIA_A_STEP = 2,         /* read, write or line */
    WISTERIA_A_NUMBER = 3,       /* a number of at most 32 bits */
    WISTERIA_THE_LINE_END = 4,   /* the end of the line */
    WISTERIA_A_SHORTER_TRACE = 5, /* a trace of at most WISTERIA_LONGEST bytes */
    WISTERIA_A_SHORTER_TEXT = 6  /* a text of at most WISTERIA_LONGEST_TEXT bytes */
};

/* Writes the bytes of the trace that a text stands for (docs/TEXT.md) to the start of out, at most WISTERIA_LONGEST. refusal points to three numbers, which
 * nothing else uses: what was expected, 0 where the text is taken; in which line; and as which word of it, each counted from 1. All three are written.
 * Answers the number of bytes written, at most out_len, as above; of a refused text they are those of the statements before the one at fault. */
size_t wisteria_encode(const uint8_t *text, size_t text_len, uint8_t *out, size_t out_len, size_t *refusal);

/* One side of a CoreInterrupt. Bit n of the last three words is that of source n. */
struct wisteria_core_side {
    uint32_t count;   /* how many sources it has: FIQ 0 to 8, IRQ 0 to 32 */
    uint32_t level;   /* the level of its output while it is active, 0 or 1 */
    uint32_t inputs;  /* its lines */
    uint32_t soft;    /* its software sources */
    uint32_t enable;  /* which sources are enabled */
};

/* A CoreInterrupt, ten words: all that it holds. A caller may read them, copy them and put them back; a record that breaks a rule (a count or a level
 * beyond its limit, a bit at or beyond the count) is refused by each step. */
struct wisteria_core {
    struct wisteria_core_side fiq, irq;
};

/* What a start or a step answers: 0, or the number of the refusal; and the value read, 0 for anything else. */
struct wisteria_reply {
    uint32_t refusal;
    uint32_t value;
};

/* The kinds of step, as a trace has them. */
enum {
    WISTERIA_READ = 1,   /* first: an offset in bytes; second plays no part */
    WISTERIA_WRITE = 2,  /* first: an offset in bytes; second: the value */
    WISTERIA_LINE = 3    /* first: a line, IRQ inputs 0 to 31, FIQ inputs 32 to 39; second: its level, 0 or 1 */
};

/* Starts core with so many FIQ and IRQ sources and these active levels: its lines low, its registers 0, whatever its words were. Refused by 10 where a
 * number is beyond its limit, and then every word stays as it was. */
struct wisteria_reply wisteria_core_start(struct wisteria_core *core, uint32_t fiqs, uint32_t irqs, uint32_t fiq_level, uint32_t irq_level);

/* Carries out one step on core. A refused one leaves every word as it was and answers the value 0. Its number is the first that fits of
 *    9   there is no such kind of step;
 *   12   the record breaks a rule;
 *    1   the offset is not a multiple of 4;
 *    2   there is no register at this offset;
 *    3   a read of a register that is only written, 4 a write of one that is only read;
 *    6   there is no such line or level.
 * An output is active exactly if its status, FIQ at 0x14 and IRQ at 0x2C, does not read 0. */
struct wisteria_reply wisteria_core_step(struct wisteria_core *core, uint32_t kind, uint32_t first, uint32_t second);

/* ---- one controller of any kind, kept by the caller (docs/EMBED.md) */

/* How many words hold a controller. What stands in them is the library's: a caller may copy all of them and put them back, and may ask for anything
 * whatever else stands there. Where the words are not those of a controller that keeps its rules, every call answers 12 and changes none of them. */
#define WISTERIA_WORDS 2048

typedef struct {
    uint32_t word[WISTERIA_WORDS];
} wisteria_controller;

/* The kinds, as a trace has them, with the numbers that configure each, in their order. */
enum {
    WISTERIA_AIC = 0,           /* external sources (a word), lines (a word) */
    WISTERIA_COREINTERRUPT = 1, /* FIQ sources, IRQ sources, FIQ level, IRQ level */
    WISTERIA_CIC = 2,           /* systems, channels, hosts, revision */
    WISTERIA_AINTC = 3,         /* none */
    WISTERIA_INDEXED = 4        /* systems, channels, hosts, revision, choice */
};

/* Starts a controller of this kind; numbers behind those of the kind are not looked at. Answers 0; 9 for an unknown kind, 10 for a number beyond its
 * limit, and then no word is written. numbers points to five words that are no part of the controller. */
uint32_t wisteria_start(wisteria_controller *controller, uint32_t kind, const uint32_t *numbers);

/* A read of the register at an offset, a write of it, and a line put to a level, as a step of a trace. Each answers 0, or the number of the refusal, in this
 * order: 12; 6 for a privilege over 1; 1, 2, 13, 3 or 4; 6 for a number beyond its limit. A refused one changes nothing. The privilege, 0 or 1, is
 * looked at by an AINTC alone. A read writes the value to *value, 0 where it is refused. */
uint32_t wisteria_read(wisteria_controller *controller, uint32_t offset, uint32_t privilege, uint32_t *value);
uint32_t wisteria_write(wisteria_controller *controller, uint32_t offset, uint32_t privilege, uint32_t value);
uint32_t wisteria_line(wisteria_controller *controller, uint32_t line, uint32_t level);

/* Writes the three numbers that a listing's line ends with to columns, zeros where it answers 12. */
uint32_t wisteria_outputs(const wisteria_controller *controller, uint32_t *columns);

/* A step among many: its kind, WISTERIA_READ, WISTERIA_WRITE or WISTERIA_LINE; the offset in bytes, or the line; the value of a write, or the level of a line
 * (a read does not look at it); and the privilege of an access, 0 or 1, which an AINTC alone looks at. */
typedef struct {
    uint32_t kind, x, y, privilege;
} wisteria_step;

/* What it is answered: 0, or the number of the refusal; and the value read, 0 for anything else. */
typedef struct {
    uint32_t refusal, value;
} wisteria_answer;

/* Many steps at once, in words: steps points to steps_len words, four to a step as in wisteria_step, and answers to answers_len words, two to a step as in
 * wisteria_answer. min(steps_len / 4, answers_len / 2) steps are taken, and no word of answers behind theirs is written. */
uint32_t wisteria_step_words(wisteria_controller *controller, const uint32_t *steps, size_t steps_len, uint32_t *answers, size_t answers_len);

/* Takes n steps one after the other, each on what those before it left, and writes the answer of each: what the functions above answer, and leave, one by one.
 * The words of the controller are looked through once and not at every step. There is no limit to n.
 * A step of another kind is refused by 9 and changes nothing; those behind it are still taken. Answers 0; or 12 where the words are not those of a controller,
 * and then each step is answered 12 and the value 0, and no word of the controller changes.
 * steps points to n steps that nothing changes during the call, answers to n answers that nothing else uses; neither is a part of the other, nor of the
 * controller. */
static inline uint32_t wisteria_steps_in(wisteria_controller *controller, const wisteria_step *steps, uint32_t n, wisteria_answer *answers)
{
    return wisteria_step_words(controller, &steps->kind, 4 * (size_t)n, &answers->refusal, 2 * (size_t)n);
}

#ifdef __cplusplus
}
#endif

#endif
