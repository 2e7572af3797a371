/* Checks what include/tarvoued.h promises beside the bytes: sizes and alignments, and that no call reads or writes beyond a block, a list or the room of a
   buffer. Blocks, lists and buffers end where a page ends, or begin where one begins, and the pages around them cannot be touched: a call that does ends the
   program. Blocks have any content. Every refused call must leave its block and its buffer. */
#define _DEFAULT_SOURCE
#include "../../include/tarvoued.h"
#include <stdio.h>
#include <stdlib.h>
#include <string.h>
#include <sys/mman.h>
#include <unistd.h>

#define HOLDS(condition) ((void)sizeof(char[(condition) ? 1 : -1]))

enum { TURNS = 10000, PAGES = 2, LINES = 256 };

static unsigned long calls, refusals;

static uint64_t next(void)
{
    static uint64_t state = 20261103;
    state ^= state << 13;
    state ^= state >> 7;
    state ^= state << 17;
    return state;
}

static size_t below(size_t n) { return (size_t)(next() % n); }

static void fail(const char *what)
{
    printf("FAILED: %s\n", what);
    exit(1);
}

/* Memory of some pages between two that cannot be touched. */
typedef struct {
    uint8_t *start;
    size_t size;
} fenced;

static fenced fence(void)
{
    size_t page = (size_t)sysconf(_SC_PAGESIZE);
    uint8_t *all = mmap(NULL, (PAGES + 2) * page, PROT_NONE, MAP_PRIVATE | MAP_ANONYMOUS, -1, 0);
    if (all == MAP_FAILED || mprotect(all + page, PAGES * page, PROT_READ | PROT_WRITE))
        fail("no memory");
    fenced f = {all + page, PAGES * page};
    return f;
}

/* So many bytes at the end of fenced memory, or at its start. */
static void *lend(fenced f, size_t bytes)
{
    memset(f.start, 0xa5, f.size);
    return below(2) ? f.start + f.size - bytes : f.start;
}

/* Whether all but so many bytes from `at` on are as `lend` left them. */
static int kept(fenced f, const void *at, size_t bytes)
{
    const uint8_t *p = at;
    for (size_t i = 0; i < f.size; i++)
        if ((f.start + i < p || p + bytes <= f.start + i) && f.start[i] != 0xa5)
            return 0;
    return 1;
}

static void random_bytes(void *at, size_t n)
{
    uint8_t *p = at;
    size_t kind = below(4);
    for (size_t i = 0; i < n; i++)
        p[i] = (uint8_t)(kind == 0 ? next() >> 11 : kind == 1 ? (i % 2 ? 0 : next() % 20) : kind == 2 ? 0xff : 0);
}

static double any_pitch(void)
{
    uint64_t bits = next();
    double hz;
    if (below(4)) return 20 + (double)below(4000) / 3;
    memcpy(&hz, &bits, sizeof hz);
    return hz;
}

static tarvoued_message any_message(void)
{
    uint8_t a = (uint8_t)below(132), b = (uint8_t)below(132);
    switch (below(8)) {
    case 0: return tarvoued_message_note_off(a, b);
    case 1: return tarvoued_message_note_on(a, b);
    case 2: return tarvoued_message_polyphonic_key_pressure(a, b);
    case 3: return tarvoued_message_control_change(a, b);
    case 4: return tarvoued_message_program_change(a);
    case 5: return tarvoued_message_channel_pressure(a);
    case 6: return tarvoued_message_pitch_bend_change((int16_t)next());
    default: {
        tarvoued_message any;
        random_bytes(&any, sizeof any);
        return any;
    }
    }
}

/* What a call answered, and what it left of its block and its buffer. */
static void judge(tarvoued_answer a, const void *block, const void *before, size_t size, fenced f, const uint8_t *out, size_t room, int changes)
{
    calls++;
    if (a.outcome > TARVOUED_REFUSED || (a.outcome == TARVOUED_REFUSED) != (a.refusal != 0) || a.refusal > TARVOUED_LISTS_UNEQUAL)
        fail("an outcome or a refusal that there is not");
    if (a.bytes > room || !kept(f, out, a.bytes))
        fail("a byte behind the answer's was touched");
    if (a.outcome == TARVOUED_REFUSED) {
        refusals++;
        if (a.bytes || a.channels) fail("a refused call counts bytes or channels");
    }
    if ((a.outcome == TARVOUED_REFUSED || !changes) && memcmp(block, before, size))
        fail("a block was changed");
}

static fenced block_fence, out_fence, key_fence, note_fence, ratio_fence;

static void pool(void)
{
    tarvoued_pool before, *pool = lend(block_fence, sizeof *pool);
    random_bytes(pool, sizeof *pool);
    if (below(3)) {
        uint8_t *channels = lend(key_fence, 3);
        channels[0] = (uint8_t)below(18), channels[1] = (uint8_t)below(18), channels[2] = (uint8_t)below(18);
        before = *pool;
        tarvoued_answer a = tarvoued_pool_open(pool, channels, 3, (uint8_t)below(3), (uint8_t)below(4), (uint8_t)below(3));
        judge(a, pool, &before, sizeof before, out_fence, lend(out_fence, 0), 0, 1);
        before = *pool;
        if (below(2)) a = tarvoued_pool_model_open(pool, channels, below(4), (uint8_t)below(3), (uint8_t)below(4), (uint8_t)below(3));
        judge(a, pool, &before, sizeof before, out_fence, lend(out_fence, 0), 0, 1);
    }
    for (int i = 0; i < 12; i++) {
        size_t room = below(40);
        uint8_t *out = lend(out_fence, room), key = (uint8_t)below(i % 2 ? 8 : 256), value = (uint8_t)below(132);
        double hz = any_pitch();
        before = *pool;
        switch (below(9)) {
        case 0:
        case 1: judge(tarvoued_pool_note_on(pool, key, hz, value, out, room), pool, &before, sizeof before, out_fence, out, room, 1); break;
        case 2: judge(tarvoued_pool_note_off(pool, key, value, out, room), pool, &before, sizeof before, out_fence, out, room, 1); break;
        case 3: judge(tarvoued_pool_note_pitch(pool, key, hz, out, room), pool, &before, sizeof before, out_fence, out, room, 0); break;
        case 4: judge(tarvoued_pool_note_attr(pool, key, value, out, room), pool, &before, sizeof before, out_fence, out, room, 0); break;
        case 5: judge(tarvoued_pool_global_attr(pool, any_message(), out, room), pool, &before, sizeof before, out_fence, out, room, 0); break;
        case 6: judge(tarvoued_pool_stop(pool, out, room), pool, &before, sizeof before, out_fence, out, room, 1); break;
        case 7: {
            tarvoued_registered_key r = tarvoued_pool_model_register_key(pool, key, hz);
            if (r.outcome == TARVOUED_REFUSED && r.released) fail("a refused press released its key");
            if (r.outcome != TARVOUED_DONE && !r.released && memcmp(pool, &before, sizeof before)) fail("a block was changed");
            break;
        }
        default: {
            tarvoued_note at = tarvoued_pool_lookup(pool, key), again = tarvoued_pool_model_repitch_key(pool, key, 440);
            tarvoued_note gone = tarvoued_pool_model_deregister_key(pool, key);
            if (at.outcome != again.outcome || at.outcome != gone.outcome || at.note != gone.note) fail("lookups differ");
        }
        }
        if (!kept(block_fence, pool, sizeof *pool)) fail("a byte beside the block was touched");
    }
}

static void plan(void)
{
    tarvoued_plan before, *plan = lend(block_fence, sizeof *plan);
    random_bytes(plan, sizeof *plan);
    if (below(3)) {
        uint8_t *channels = lend(key_fence, 3);
        channels[0] = (uint8_t)below(18), channels[1] = (uint8_t)below(18), channels[2] = (uint8_t)below(18);
        before = *plan;
        tarvoued_answer a = below(2) ? tarvoued_plan_open(plan, channels, 3, (uint8_t)below(3))
                                     : tarvoued_plan_model_open(plan, channels, 2, (uint8_t)below(4));
        judge(a, plan, &before, sizeof before, out_fence, lend(out_fence, 0), 0, 1);
    }
    for (int i = 0; i < 8; i++) {
        size_t room = below(220), n = below(LINES + 1), m = below(20) ? n : below(LINES + 1);
        uint8_t *out = lend(out_fence, room), key = (uint8_t)next(), value = (uint8_t)below(132);
        uint8_t *keys = lend(key_fence, n);
        int32_t *notes = lend(note_fence, m * sizeof *notes);
        double *ratios = lend(ratio_fence, m * sizeof *ratios);
        int pitches = below(2) == 0;
        for (size_t k = 0; k < n; k++) keys[k] = (uint8_t)(below(2000) ? k : next());
        for (size_t k = 0; k < m; k++) {
            notes[k] = (int32_t)(below(2000) ? 40 + k % 60 : next());
            ratios[k] = below(2000) ? (pitches ? 100.0 + (double)k : 1 + (double)(k % 7) / 1000) : any_pitch();
        }
        before = *plan;
        switch (below(9)) {
        case 0:
            judge(pitches ? tarvoued_plan_set_tuning_of_pitches(plan, keys, n, ratios, m, out, room)
                          : tarvoued_plan_set_tuning(plan, keys, n, notes, m, ratios, m, out, room),
                  plan, &before, sizeof before, out_fence, out, room, 1);
            break;
        case 1:
            judge(pitches ? tarvoued_plan_model_set_tuning_of_pitches(plan, keys, n, ratios, m)
                          : tarvoued_plan_model_set_tuning(plan, keys, n, notes, m, ratios, m),
                  plan, &before, sizeof before, out_fence, out, 0, 1);
            break;
        case 2: judge(tarvoued_plan_note_on(plan, key, value, out, room), plan, &before, sizeof before, out_fence, out, room, 0); break;
        case 3: judge(tarvoued_plan_note_off(plan, key, value, out, room), plan, &before, sizeof before, out_fence, out, room, 0); break;
        case 4: judge(tarvoued_plan_note_attr(plan, key, value, out, room), plan, &before, sizeof before, out_fence, out, room, 0); break;
        case 5: judge(tarvoued_plan_global_attr(plan, any_message(), out, room), plan, &before, sizeof before, out_fence, out, room, 0); break;
        case 6: judge(tarvoued_plan_stop(plan, out, room), plan, &before, sizeof before, out_fence, out, room, 0); break;
        default: {
            uint16_t channel = (uint16_t)below(20);
            tarvoued_note entry = tarvoued_plan_next_detuning(plan, channel, (int32_t)next());
            tarvoued_note same = tarvoued_plan_detuning(plan, channel, entry.note);
            tarvoued_plan_lookup(plan, key);
            if (entry.outcome == TARVOUED_DONE && (same.outcome != TARVOUED_DONE || memcmp(&same.detuning, &entry.detuning, sizeof(double))))
                fail("entries differ");
            if (memcmp(plan, &before, sizeof before)) fail("a block was changed");
        }
        }
        if (!kept(block_fence, plan, sizeof *plan)) fail("a byte beside the block was touched");
    }
}

static void alone(void)
{
    size_t room = below(16);
    uint8_t *out = lend(out_fence, room);
    judge(tarvoued_message_write((uint8_t)below(18), any_message(), out, room), "", "", 0, out_fence, out, room, 0);
    out = lend(out_fence, room);
    judge(tarvoued_channel_tuning((uint8_t)below(3), (uint8_t)below(18), any_pitch() / 440, out, room), "", "", 0, out_fence, out, room, 0);
}

int main(void)
{
    HOLDS(sizeof(tarvoued_answer) == 16 && offsetof(tarvoued_answer, channels) == 2 && offsetof(tarvoued_answer, bytes) == 8);
    HOLDS(sizeof(tarvoued_note) == 16 && offsetof(tarvoued_note, channel) == 2 && offsetof(tarvoued_note, note) == 4 && offsetof(tarvoued_note, detuning) == 8);
    HOLDS(sizeof(tarvoued_registered_key) == 32 && offsetof(tarvoued_registered_key, stopped) == 8 && offsetof(tarvoued_registered_key, released) == 9);
    HOLDS(offsetof(tarvoued_registered_key, released_channel) == 10 && offsetof(tarvoued_registered_key, stopped_note) == 12);
    HOLDS(offsetof(tarvoued_registered_key, released_note) == 16 && offsetof(tarvoued_registered_key, detuning) == 24);
    HOLDS(sizeof(tarvoued_pitch) == 16 && sizeof(tarvoued_number) == 16 && sizeof(tarvoued_message) == 6);
    HOLDS(sizeof(tarvoued_pool) == 2 * TARVOUED_POOL_CELLS && sizeof(tarvoued_plan) == 8 * TARVOUED_PLAN_CELLS);
    HOLDS(offsetof(struct { char c; tarvoued_pool p; }, p) == 2 && offsetof(struct { char c; tarvoued_plan p; }, p) == 8);
    block_fence = fence(), out_fence = fence(), key_fence = fence(), note_fence = fence(), ratio_fence = fence();
    for (int turn = 0; turn < TURNS; turn++) {
        pool();
        if (turn % 8 == 0) plan();
        alone();
    }
    printf("interface for C: sizes and alignments as declared; %lu calls, %lu of them refused, none touched what it was not lent\n", calls, refusals);
    return 0;
}
