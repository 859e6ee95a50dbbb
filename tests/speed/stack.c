/*
 * How much stack the entries of vote.h take, at most, on each measured input.
 *
 * A call runs on a stack of its own that was painted before: every byte has one known value. The
 * deepest byte that no longer has it tells how far the call went. A byte that the call happens to
 * write with the paint's own value would not show, so each call runs twice, with two paints.
 * The figure counts from the caller's stack pointer and has the return address in it.
 * Room that is set aside and never written does not show; reading the disassembly bounds it.
 */
#include "engine.h"
#include "inputs.h"
#include "vote.h"

int printf(const char *format, ...);

enum { STACK_BYTES = 65536, CONTROL_BYTES = 2048 };

typedef uint64_t word;
typedef void entry(void); /* any function of up to six numbers or pointers */

static uint8_t stack[STACK_BYTES] __attribute__((aligned(16)));

/* Calls a function with the stack pointer at `top`. */
static word call_on(uint8_t *top, entry *called, const word with[6])
{
    register word fifth __asm__("r8") = with[4];
    register word sixth __asm__("r9") = with[5];
    word a = with[0], b = with[1], c = with[2], d = with[3], given;
    __asm__ volatile("movq %%rsp, %%rbx\n\t"
                     "movq %[top], %%rsp\n\t"
                     "callq *%[called]\n\t"
                     "movq %%rbx, %%rsp"
                     : "=a"(given), "+D"(a), "+S"(b), "+d"(c), "+c"(d), "+r"(fifth), "+r"(sixth)
                     : [top] "r"(top), [called] "r"(called)
                     : "rbx", "r10", "r11", "cc", "memory", "xmm0", "xmm1", "xmm2", "xmm3", "xmm4",
                       "xmm5", "xmm6", "xmm7", "xmm8", "xmm9", "xmm10", "xmm11", "xmm12", "xmm13",
                       "xmm14", "xmm15");
    return given;
}

/* Bytes from the top of the stack to the deepest one that lost its paint. */
static size_t depth_with(uint8_t paint, entry *called, const word with[6])
{
    size_t deepest = 0;
    for (size_t i = 0; i < STACK_BYTES; i++)
        stack[i] = paint;
    call_on(stack + STACK_BYTES, called, with);
    while (deepest < STACK_BYTES && stack[deepest] == paint)
        deepest++;
    return STACK_BYTES - deepest;
}

static size_t deeper(size_t a, size_t b)
{
    return a > b ? a : b;
}

/* ---- The calls */

static size_t tick_depth(entry *called, const struct input *input)
{
    static uint8_t record[RECORD_BYTES];
    static size_t index;
    const word with[6] = { (word)record, sizeof record, (word)input->list, input->length,
                           input->coin, (word)&index };
    size_t first;
    __builtin_memcpy(record, input->record, sizeof record);
    first = depth_with(0xA5, called, with);
    __builtin_memcpy(record, input->record, sizeof record);
    return deeper(first, depth_with(0x5A, called, with));
}

static size_t start_depth(entry *called, uint32_t n)
{
    static uint8_t record[RECORD_BYTES];
    const word with[6] = { (word)record, sizeof record, n, 7, 1, 0 };
    return deeper(depth_with(0xA5, called, with), depth_with(0x5A, called, with));
}

/* A buffer of 5 bytes; of 320 it is refused and filled with zeros. */
static size_t ballot_depth(entry *called, const struct input *input, size_t length)
{
    static uint8_t buffer[BALLOTS_BYTES_MOST];
    const word with[6] = { (word)input->record, sizeof input->record, (word)buffer, length, 0, 0 };
    return deeper(depth_with(0xA5, called, with), depth_with(0x5A, called, with));
}

/* A function of known depth, to see that the paint shows it. */
static word control(word a, word b, word c, word d, word e, word f)
{
    volatile uint8_t room[CONTROL_BYTES];
    for (size_t i = 0; i < sizeof room; i++)
        room[i] = (uint8_t)(a + b + c + d + e + f + i);
    return room[CONTROL_BYTES / 2];
}

static void print(const char *name, size_t of_ours, size_t of_quick)
{
    printf("%-42s %10zu %10zu\n", name, of_ours, of_quick);
}

int main(void)
{
    static const word none[6] = { 0, 0, 0, 0, 0, 0 };
    const size_t count = make_inputs(), known = depth_with(0xA5, (entry *)control, none);
    size_t most = 0;
    if (known < CONTROL_BYTES || known > CONTROL_BYTES + 256) {
        printf("the paint shows %zu bytes for a function of %d\n", known, CONTROL_BYTES);
        return 1;
    }
    printf("%-42s %10s %10s\n", "stack, bytes", "ours", "C");
    for (size_t i = 0; i < count; i++) {
        const size_t ours = tick_depth((entry *)vote_tick, &inputs[i]);
        print(inputs[i].name, ours, tick_depth((entry *)quick_tick, &inputs[i]));
        most = deeper(most, ours);
    }
    print("start", start_depth((entry *)vote_start, HEADS),
          start_depth((entry *)quick_start, HEADS));
    print("start, refused", start_depth((entry *)vote_start, 0),
          start_depth((entry *)quick_start, 0));
    print("ballot", ballot_depth((entry *)vote_ballot, &inputs[0], BALLOT_BYTES),
          ballot_depth((entry *)quick_ballot, &inputs[0], BALLOT_BYTES));
    print("ballot, refused", ballot_depth((entry *)vote_ballot, &inputs[0], BALLOTS_BYTES_MOST),
          ballot_depth((entry *)quick_ballot, &inputs[0], BALLOTS_BYTES_MOST));
    printf("the deepest tick of ours: %zu bytes\n", most);
    return 0;
}
