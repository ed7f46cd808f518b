/* A test bench in C: a board with an AIC (003) and four devices, driven as a driver's start-up code and its nested handlers would drive it.
 * Each step goes to the controller and into a trace. At the end the trace is listed, which must give, line by line, what the controller answered and showed;
 * and the handlers must have started in the order, and with as many entries open, as the priorities want it.
 * It prints the listing, and ends with 1 where something differs. With the name of a file behind it the trace is put there, for ./run explain and the others.
 * docs/EMBED.md says how to build it; bench.py is the same in Python. */
#include "wisteria.h"

#include <stdio.h>
#include <string.h>

enum { IVR = 0x100, ISR = 0x108, IECR = 0x120, IDCR = 0x124, ICCR = 0x128, EOICR = 0x130, SPU = 0x134 }; /* offsets in bytes (003, 27.8) */
enum { HIGH_LEVEL = 0x00, FALLING_EDGE = 0x20, RISING_EDGE = 0x20 }; /* SMR: an external source has the second, an internal one the others (003, 27.8.3) */
enum { TIMER = 1, UART = 6, ETHERNET = 16, BUTTON = 30, SPURIOUS = 99 }; /* sources; the button alone is external */

static int wrong;

static void expect(const char *what, int good)
{
    if (!good) {
        fprintf(stderr, "bench: %s: not so\n", what);
        wrong = 1;
    }
}

/* ---- the bus */

static wisteria_controller aic;
static uint8_t trace[WISTERIA_LONGEST];
static char lines[WISTERIA_ROOM(1000)];
static size_t trace_bytes, lines_bytes;
static uint32_t steps, outputs[3]; /* IRQ is active; FIQ is active; entries open */

/* A number of a trace: seven bits to a byte, the lowest first, and the top bit says that another follows (docs/LISTING.md). */
static void put(uint32_t number)
{
    for (; number > 127; number >>= 7)
        trace[trace_bytes++] = (uint8_t)(128 | (number & 127));
    trace[trace_bytes++] = (uint8_t)number;
}

static uint32_t step(uint32_t kind, uint32_t first, uint32_t second)
{
    uint32_t value = 0, refusal;
    put(kind);
    put(first);
    if (kind != WISTERIA_READ)
        put(second);
    if (kind == WISTERIA_READ)
        refusal = wisteria_read(&aic, first, 1, &value);
    else
        refusal = kind == WISTERIA_WRITE ? wisteria_write(&aic, first, 1, second) : wisteria_line(&aic, first, second);
    expect("no step is refused", refusal == 0 && wisteria_outputs(&aic, outputs) == 0);
    lines_bytes += (size_t)sprintf(lines + lines_bytes, "%u %c %08X %u %u %u\n", (unsigned)++steps, "RWL"[kind - 1], (unsigned)value, (unsigned)outputs[0],
                                   (unsigned)outputs[1], (unsigned)outputs[2]);
    return value;
}

static uint32_t read_register(uint32_t offset) { return step(WISTERIA_READ, offset, 0); }
static void write_register(uint32_t offset, uint32_t value) { step(WISTERIA_WRITE, offset, value); }
static void line(uint32_t source, uint32_t level) { step(WISTERIA_LINE, source, level); }

/* ---- the driver */

static const struct {
    uint32_t source, mode; /* mode: how its line is read, and its priority, 7 the highest */
} devices[] = {{TIMER, HIGH_LEVEL | 6}, {UART, HIGH_LEVEL | 2}, {ETHERNET, RISING_EDGE | 4}, {BUTTON, FALLING_EDGE | 5}};

static void start_up(void)
{
    size_t k;
    write_register(IDCR, 0xFFFFFFFF);
    write_register(ICCR, 0xFFFFFFFF);
    for (k = 0; k < 8; k++) /* as drivers do: nothing that was open before is open any more */
        write_register(EOICR, 0);
    write_register(SPU, SPURIOUS);
    for (k = 0; k < sizeof devices / sizeof devices[0]; k++) {
        write_register(4 * devices[k].source, devices[k].mode);
        write_register(0x80 + 4 * devices[k].source, devices[k].source); /* its vector: the number of its source */
        write_register(IECR, 1u << devices[k].source);
    }
}

static uint32_t started[16][2]; /* the vector of each handler in the order of their starts, and the entries open then */
static unsigned starts;

static void handle(uint32_t vector);

/* The processor takes one interrupt: the vector is read, its handler runs, the end of interrupt is written. */
static void take_interrupt(void)
{
    uint32_t vector = read_register(IVR);
    started[starts][0] = vector;
    started[starts++][1] = outputs[2];
    handle(vector);
    write_register(EOICR, 0);
}

/* Where interrupts are let in, as in a handler that has done what is urgent. */
static void let_in(void)
{
    while (outputs[0])
        take_interrupt();
}

/* What each handler does, and what the world does meanwhile. */
static void handle(uint32_t vector)
{
    switch (vector) {
    case UART:
        expect("the status register has the source", read_register(ISR) == UART);
        line(ETHERNET, 1); /* a frame comes in: of a higher priority */
        let_in();
        line(UART, 0); /* its last byte is read */
        break;
    case ETHERNET:
        line(ETHERNET, 0);
        line(TIMER, 1); /* the timer elapses */
        let_in();
        break;
    case TIMER:
        line(BUTTON, 0); /* the button is pressed: of a lower priority, so that it waits */
        let_in();
        line(TIMER, 0);
        break;
    case BUTTON:
        line(BUTTON, 1);
        break;
    }
}

int main(int argc, char **argv)
{
    static const uint32_t numbers[5] = {1u << BUTTON, 1u << BUTTON}; /* the button is external, and its line is high */
    static const uint32_t expected[][2] = {{UART, 1}, {ETHERNET, 2}, {TIMER, 3}, {BUTTON, 3}, {SPURIOUS, 1}};
    static uint8_t listed[sizeof lines];
    size_t listed_bytes;
    FILE *file;
    put(WISTERIA_AIC);
    put(numbers[0]);
    put(numbers[1]);
    lines_bytes = (size_t)sprintf(lines, "AIC\n");
    expect("an AIC starts", wisteria_start(&aic, WISTERIA_AIC, numbers) == 0);
    start_up();
    line(UART, 1); /* a byte comes in */
    let_in();
    line(UART, 1); /* a glitch: gone when the processor, which has seen IRQ, comes to read the vector */
    line(UART, 0);
    take_interrupt();
    expect("the handlers start in this order, with so many entries open", starts == 5 && memcmp(started, expected, sizeof expected) == 0);
    expect("nothing is open or active at the end", (outputs[0] | outputs[1] | outputs[2]) == 0);
    listed_bytes = wisteria_list(trace, trace_bytes, WISTERIA_LIMIT, listed, sizeof listed);
    expect("the listing of the trace has each step as it was answered", listed_bytes == lines_bytes && memcmp(listed, lines, lines_bytes) == 0);
    fwrite(listed, 1, listed_bytes, stdout);
    if (argc > 1) {
        file = fopen(argv[1], "wb");
        expect("the trace is written", file != NULL && fwrite(trace, 1, trace_bytes, file) == trace_bytes && fclose(file) == 0);
    }
    return wrong;
}
