/* The depth of a call: it runs on a stack of its own that is filled with a pattern beforehand. */
#define _XOPEN_SOURCE 700
#include "bench.h"
#include <string.h>
#include <ucontext.h>

enum { SIZE = 65536, PATTERN = 0xa5 };

static struct {
    void (*call)(void *);
    void *given;
} job;

static void start(void)
{
    job.call(job.given);
}

size_t stack_depth(void (*call)(void *), void *given)
{
    static unsigned char stack[SIZE];
    ucontext_t here, there;
    size_t untouched = 0;
    memset(stack, PATTERN, SIZE);
    job.call = call;
    job.given = given;
    getcontext(&there);
    there.uc_stack.ss_sp = stack;
    there.uc_stack.ss_size = SIZE;
    there.uc_link = &here;
    makecontext(&there, start, 0);
    swapcontext(&here, &there);
    while (untouched < SIZE && stack[untouched] == PATTERN)
        untouched++;
    return SIZE - untouched;
}
