/* Serves many traces, tables and questions in one process through the proved library, for machines whose Rust cannot link its x86-64 code.
 *
 * Standard input has requests and standard output the replies, all numbers 32 bits, lowest byte first:
 *   request: what is asked (0 the listing of a trace, 1 the stack of a table, 2 the words looked at after a trace, 3 the figures of a trace, 4 its
 *            explanation, 5 that of some steps), its length, step limit (0 for a table), room (the offset that would be read, for words looked at), then
 *            the trace or table; where some steps are asked for the number of the first and how many there are stand before the trace;
 *   reply:   bytes written, bytes changed behind them, then the bytes written; of words looked at their number in decimal and " words\n". Figures are 100
 *            numbers: the steps played and refused, the refusal that ended the play and its offset, then for each of 32 sources the handlers started, for
 *            each the most started while it waited, and for each the most entries open while it was open.
 * It ends with 0 at the end of the input, and with 1 at a request that it cannot serve.
 *
 * It stands alone, with no C library: three system calls, and the memory functions that compiled code calls.
 */

typedef __SIZE_TYPE__ size_t;
typedef __UINT8_TYPE__ uint8_t;
typedef __UINT32_TYPE__ uint32_t;

enum { READ = 0, WRITE = 1, EXIT = 231, LARGEST = 1 << 23, UNTOUCHED = 0xA5 };
enum { LISTING = 0, STACK = 1, LOOKED = 2, FIGURES = 3, EXPLANATION = 4, PART = 5, SOURCES = 32, NUMBERS = 4 + 3 * SOURCES };

/* The proved functions: include/wisteria.h says what each number counts. */
size_t wisteria_list(const uint8_t *trace, size_t trace_len, uint32_t limit, uint8_t *out, size_t out_len);
size_t wisteria_explain(const uint8_t *trace, size_t trace_len, uint32_t limit, uint8_t *out, size_t out_len);
size_t wisteria_explain_window(const uint8_t *trace, size_t trace_len, uint32_t limit, uint32_t first, uint32_t steps, uint8_t *out, size_t out_len);
size_t wisteria_stack(const uint8_t *text, size_t text_len, uint8_t *out, size_t out_len);
uint32_t wisteria_looked(const uint8_t *trace, size_t trace_len, uint32_t limit, uint32_t offset);
uint32_t wisteria_figures(const uint8_t *trace, size_t trace_len, uint32_t limit, uint32_t *started, uint32_t *waited, uint32_t *entries);
uint32_t wisteria_steps(const uint8_t *trace, size_t trace_len, uint32_t limit);
uint32_t wisteria_refusal(const uint8_t *trace, size_t trace_len, uint32_t limit);
size_t wisteria_offset(const uint8_t *trace, size_t trace_len, uint32_t limit);

static uint8_t input[LARGEST];
static uint8_t output[LARGEST];

static long system_call(long number, long first, void *second, size_t third)
{
    long answer;
    __asm__ volatile("syscall"
                     : "=a"(answer)
                     : "a"(number), "D"(first), "S"(second), "d"(third)
                     : "rcx", "r11", "memory");
    return answer;
}

static _Noreturn void end(long status)
{
    for (;;)
        system_call(EXIT, status, 0, 0);
}

/* Moves all the bytes through a file descriptor; answers how many, which is less only at the end of the input. */
static size_t move_all(long call, long descriptor, uint8_t *bytes, size_t count)
{
    size_t moved = 0;
    while (moved < count) {
        long now = system_call(call, descriptor, bytes + moved, count - moved);
        if (now < 0)
            end(1);
        if (now == 0)
            break;
        moved += (size_t)now;
    }
    return moved;
}

static uint32_t number(const uint8_t *bytes)
{
    return bytes[0] | (uint32_t)bytes[1] << 8 | (uint32_t)bytes[2] << 16 | (uint32_t)bytes[3] << 24;
}

static void put_number(uint8_t *bytes, uint32_t value)
{
    for (int place = 0; place < 4; place++)
        bytes[place] = (uint8_t)(value >> 8 * place);
}

/* Writes a number of words to the start of the output, as the model tells it, and answers how many bytes that takes. */
static size_t tell_words(uint32_t words)
{
    static const char behind[] = " words\n";
    size_t digits = 1, place = 0;
    for (uint32_t left = words / 10; left > 0; left /= 10)
        digits++;
    for (size_t left = digits; left > 0; words /= 10)
        output[--left] = (uint8_t)('0' + words % 10);
    for (; behind[place] != 0; place++)
        output[digits + place] = (uint8_t)behind[place];
    return digits + place;
}

static void reply_with(size_t written, uint32_t changed, uint32_t room)
{
    uint8_t reply[8];
    put_number(reply, (uint32_t)written);
    put_number(reply + 4, changed);
    move_all(WRITE, 1, reply, sizeof reply);
    move_all(WRITE, 1, output, written < room ? written : room);
}

/* Writes the figures of the trace in the input to the output, for which there is room. */
static size_t figures(uint32_t length, uint32_t limit)
{
    static uint32_t numbers[NUMBERS];
    for (int place = 0; place < NUMBERS; place++)
        numbers[place] = 0xA5A5A5A5;
    uint32_t *started = numbers + 4, *waited = started + SOURCES, *entries = waited + SOURCES;
    numbers[1] = wisteria_figures(input, length, limit, started, waited, entries);
    numbers[0] = wisteria_steps(input, length, limit);
    numbers[2] = wisteria_refusal(input, length, limit);
    numbers[3] = (uint32_t)wisteria_offset(input, length, limit);
    for (int place = 0; place < NUMBERS; place++)
        put_number(output + 4 * place, numbers[place]);
    return 4 * NUMBERS;
}

static size_t answer(uint32_t asked, uint32_t length, uint32_t limit, uint32_t room)
{
    switch (asked) {
    case LISTING:
        return wisteria_list(input, length, limit, output, room);
    case STACK:
        return wisteria_stack(input, length, output, room);
    case EXPLANATION:
        return wisteria_explain(input, length, limit, output, room);
    case PART:
        return wisteria_explain_window(input + 8, length - 8, limit, number(input), number(input + 4), output, room);
    default:
        return figures(length, limit);
    }
}

static void serve(const uint8_t *request)
{
    uint32_t asked = number(request), length = number(request + 4), limit = number(request + 8), room = number(request + 12);
    if (asked > PART || (asked == PART && length < 8) || length > LARGEST || move_all(READ, 0, input, length) < length)
        end(1);
    if (asked == LOOKED) {
        reply_with(tell_words(wisteria_looked(input, length, limit, room)), 0, LARGEST);
        return;
    }
    if (room > LARGEST || (asked == FIGURES && room < 4 * NUMBERS))
        end(1);
    for (uint32_t place = 0; place < room; place++)
        output[place] = UNTOUCHED;
    size_t written = answer(asked, length, limit, room);
    uint32_t changed = 0;
    for (size_t place = written; place < room; place++)
        changed += output[place] != UNTOUCHED;
    reply_with(written, changed, room);
}

__attribute__((used)) static void batch(void)
{
    uint8_t request[16];
    size_t there;
    while ((there = move_all(READ, 0, request, sizeof request)) == sizeof request)
        serve(request);
    end(there == 0 ? 0 : 1);
}

__asm__(".globl _start\n"
        "_start:\n"
        "    xor %ebp, %ebp\n"
        "    and $-16, %rsp\n"
        "    call batch\n");

void *memcpy(void *to, const void *from, size_t count)
{
    void *start = to;
    __asm__ volatile("rep movsb" : "+D"(to), "+S"(from), "+c"(count) : : "memory");
    return start;
}

void *memset(void *to, int byte, size_t count)
{
    void *start = to;
    __asm__ volatile("rep stosb" : "+D"(to), "+c"(count) : "a"(byte) : "memory");
    return start;
}

void *memmove(void *to, const void *from, size_t count)
{
    uint8_t *into = to;
    const uint8_t *out_of = from;
    if (into <= out_of)
        return memcpy(to, from, count);
    while (count-- > 0)
        ((volatile uint8_t *)into)[count] = out_of[count];
    return to;
}

int memcmp(const void *first, const void *second, size_t count)
{
    const volatile uint8_t *one = first, *other = second;
    for (size_t place = 0; place < count; place++)
        if (one[place] != other[place])
            return one[place] - other[place];
    return 0;
}
