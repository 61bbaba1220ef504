/* Measures the stack that the larger calls take: makes them on a painted stack, and looks how deep the paint is gone.
 *
 *     cc -std=c99 -O2 stack.c -L ../../crates/jardolento/out -l jardolento -o stack
 *     ./stack
 *
 * A line is a call and its bytes; the frame of the function here that makes it, with arguments and answer, is in them,
 * and what makecontext puts there. Records of every kind are met, found, skipped and refused. The status is 1 if a call
 * takes more than README.md says. It needs makecontext, as Linux has it.
 */
#define _XOPEN_SOURCE 700
#include "jardolento.h"

#include <stdio.h>
#include <string.h>
#include <ucontext.h>

/* What README.md says. */
#define MOST 2048
#define PAINT 0xA5

static uint8_t stack[1 << 16];
static uint8_t region[4096];
static uint8_t page[4096];
static const uint8_t text[4] = {'t', 'e', 'x', 't'};
static ucontext_t here;
static ucontext_t there;
static struct jardolento_journal journal;

static struct jardolento_record record_of(uint8_t kind)
{
    struct jardolento_record record = {0};

    record.kind = kind;
    record.seq = kind == 1 || kind == 7 || kind == 8 ? 0 : 5;
    record.clock_kind = 1;
    return record;
}

/* Kinds that have free bytes are given four. */
static size_t free_of(uint8_t kind)
{
    return kind == 2 || kind == 5 || kind == 6 || kind == 9 ? 0 : 4;
}

static size_t put(uint8_t kind, size_t at)
{
    return jardolento_encode(record_of(kind), text, free_of(kind), 4, region + at, sizeof region - at).bytes;
}

/* Of each kind a record, and before it one that was never committed and is skipped; then erased bytes. */
static void fill(void)
{
    size_t at = 0;
    uint8_t kind;

    memset(region, 0xFF, sizeof region);
    for (kind = 1; kind <= 9; kind++) {
        at += put(JARDOLENTO_EFFECT_FAILED, at);
        memset(region + at - 4, 0xFF, 4);
        at += put(kind, at);
    }
}

/* Kinds 0 and 10 are none, and are refused. */
static void encode(void)
{
    uint8_t kind;

    for (kind = 0; kind <= 10; kind++)
        put(kind, 2048);
}

static void decode(void)
{
    size_t at;

    for (at = 0; at < 1024; at += 4)
        jardolento_decode(region + at, sizeof region - at);
}

static void recovery(void)
{
    struct jardolento_recovery_step step;

    step.state = jardolento_recovery_new(jardolento_geometry_new(sizeof region, 4, 1).geometry);
    do
        step = jardolento_recovery_next(step.state, region, sizeof region, page, sizeof page);
    while (step.is_found);
}

static void scan(void)
{
    struct jardolento_scan_step step;

    step.state = jardolento_scan_new(4);
    do
        step = jardolento_scan_next(step.state, region, sizeof region);
    while (step.is_found);
}

static void find(void)
{
    jardolento_find(5, 4, 1, region, sizeof region, page, sizeof page);
}

static void opening(void)
{
    journal = jardolento_open(4, 1, region, sizeof region, page, sizeof page).journal;
}

static void opening_with(void)
{
    journal = jardolento_open_with(journal.written, 4, 1, region, sizeof region, page, sizeof page).journal;
}

static void costliest(void)
{
    jardolento_costliest(4, 1, region, sizeof region);
}

/* Goes on from the journal that the last opening gave. */
static void append(void)
{
    struct jardolento_advanced step;
    uint8_t kind;

    for (kind = 0; kind <= 10; kind++) {
        step = jardolento_stage(journal, record_of(kind), text, free_of(kind), region, sizeof region, page,
                                sizeof page);
        step = jardolento_payload_barrier(step.journal, region, sizeof region);
        step = jardolento_commit(step.journal, region, sizeof region);
        journal = step.journal;
    }
}

static size_t depth(void (*call)(void))
{
    size_t clean = 0;

    memset(stack, PAINT, sizeof stack);
    getcontext(&there);
    there.uc_stack.ss_sp = stack;
    there.uc_stack.ss_size = sizeof stack;
    there.uc_link = &here;
    makecontext(&there, call, 0);
    swapcontext(&here, &there);
    while (clean < sizeof stack && stack[clean] == PAINT)
        clean += 1;
    return sizeof stack - clean;
}

int main(void)
{
    static const struct {
        const char *name;
        void (*call)(void);
    } calls[] = {
        {"encode", encode},
        {"decode", decode},
        {"scan_next", scan},
        {"recovery_next", recovery},
        {"find", find},
        {"open", opening},
        {"open_with", opening_with},
        {"stage, payload_barrier, commit", append},
        {"costliest", costliest},
    };
    size_t n;
    int status = 0;

    for (n = 0; n < sizeof calls / sizeof *calls; n++) {
        size_t bytes;

        fill();
        /* The first time, the linker may look memset up, on this stack. */
        depth(calls[n].call);
        bytes = depth(calls[n].call);
        printf("%s: %zu\n", calls[n].name, bytes);
        if (bytes > MOST)
            status = 1;
    }
    return status;
}
