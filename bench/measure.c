/* The markers around a call, and a painted stack below it. */
#define _XOPEN_SOURCE 700
#include "measure.h"

#include <stdio.h>
#include <stdlib.h>
#include <ucontext.h>
#include <unistd.h>

enum { STACK_BYTES = 8 << 20 };

static FILE *counts;
static uint64_t empty_part;
static size_t empty_depth;

void fail(const char *what)
{
    fprintf(stderr, "bench: %s\n", what);
    exit(1);
}

static void nothing(struct call *call)
{
    (void)call;
}

uint64_t instructions_of(engine_call *volatile part, struct call *call)
{
    char line[32];
    getppid();
    part(call);
    getppid();
    clearerr(counts);
    if (fgets(line, sizeof line, counts) == NULL)
        fail("no count: run this under the emulator with its plugin");
    return strtoull(line, NULL, 10) - empty_part;
}

/* ---- The stack: a call on a painted one, then a look how deep the paint is gone. ----
   What a call set aside below its deepest written byte, and never wrote, is not seen. */

static uint64_t stack[STACK_BYTES / 8];
static ucontext_t here, there;
static engine_call *part_on_stack;
static struct call *call_on_stack;

static void on_painted_stack(void)
{
    part_on_stack(call_on_stack);
}

size_t depth_of(engine_call *part, struct call *call)
{
    const uint64_t paint = 0x9d3cf1a76e5b8240;
    const size_t words = sizeof stack / sizeof stack[0];
    for (size_t i = 0; i < words; i++)
        stack[i] = paint;
    part_on_stack = part;
    call_on_stack = call;
    if (getcontext(&there) != 0)
        fail("no context");
    there.uc_stack.ss_sp = stack;
    there.uc_stack.ss_size = sizeof stack;
    there.uc_link = &here;
    makecontext(&there, on_painted_stack, 0);
    if (swapcontext(&here, &there) != 0)
        fail("no second stack");
    size_t untouched = 0;
    while (untouched < words && stack[untouched] == paint)
        untouched++;
    return sizeof stack - 8 * untouched - empty_depth;
}

void begin_measuring(const char *file)
{
    counts = fopen(file, "r");
    if (counts == NULL)
        fail("no file of counts: the plugin writes it");
    empty_part = instructions_of(nothing, NULL);
    empty_depth = depth_of(nothing, NULL);
}
