/* How deep a step and a request of 256 bearers go on the stack: each is called on a stack of its own that was painted beforehand, and
   the lowest byte that is no longer painted says how deep it went. Linked with the library that bench/stack makes. */

#include <stddef.h>
#include <stdint.h>
#include <stdio.h>
#include <string.h>
#include <ucontext.h>

enum { RECORD = 32, MOST = 256, STACK = 1 << 16, PAINT = 0xa5 };

/* A slice is its first byte and its length. */
extern uint8_t stepped(uint32_t capacity, const uint8_t *event, size_t event_size);
extern uint8_t asked(uint32_t capacity, const uint8_t *request, size_t request_size, const uint8_t *bearers, size_t bearers_size,
                     uint8_t *verdicts, size_t verdicts_size);

static uint8_t stack[STACK], event[RECORD], request[RECORD], bearers[MOST * RECORD], verdicts[MOST];
static uint8_t reply, *top;
static ucontext_t here, there;

static void step(void)
{
    top = __builtin_frame_address(0);
    reply = stepped(100, event, sizeof event);
}

static void ask(void)
{
    top = __builtin_frame_address(0);
    reply = asked(100, request, sizeof request, bearers, sizeof bearers, verdicts, sizeof verdicts);
}

static size_t depth(void (*call)(void))
{
    memset(stack, PAINT, sizeof stack);
    getcontext(&there);
    there.uc_stack.ss_sp = stack;
    there.uc_stack.ss_size = sizeof stack;
    there.uc_link = &here;
    makecontext(&there, call, 0);
    swapcontext(&here, &there);
    size_t low = 0;
    while (low < sizeof stack && stack[low] == PAINT)
        low++;
    return (size_t)(top - (stack + low));
}

int main(void)
{
    event[0] = 9; /* a start, neighbour 1, set 1 */
    event[1] = 1;
    event[6] = 1;
    request[0] = 1; /* a request of neighbour 2, Old ID 7, 256 bearers */
    request[1] = 2;
    request[2] = 7;
    request[13] = 1;
    for (size_t i = 0; i < MOST; i++) { /* IDs 0 to 14 once, 15 at every other place */
        uint8_t *b = bearers + i * RECORD;
        b[0] = 16;
        b[12] = 1;
        b[24] = i < 15 ? (uint8_t)i : 15;
        b[25] = 9;
        b[26] = 1 + (uint8_t)(i % 15);
    }
    size_t first = depth(step);
    printf("step: %zu bytes, reply %u\n", first, reply);
    size_t second = depth(ask);
    size_t admitted = 0;
    for (size_t i = 0; i < MOST; i++)
        admitted += verdicts[i] == 0;
    printf("request of %d bearers: %zu bytes, reply %u, %zu admitted\n", MOST, second, reply, admitted);
    return 0;
}
