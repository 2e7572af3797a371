/* A chord in quarter-comma meantone on three MIDI channels, tuned by bends: every call's MIDI bytes are printed. */
#include "tarvoued.h"
#include <math.h>
#include <stdio.h>

/* A fifth of quarter-comma meantone: four of them make a pure third and two octaves. */
static double pitch(int fifths_from_a, int octaves)
{
    return 440 * pow(5, fifths_from_a / 4.0) * pow(2, octaves);
}

static int show(const char *what, tarvoued_answer answer, const uint8_t *out)
{
    printf("%-9s", what);
    if (answer.outcome == TARVOUED_REFUSED) printf(" refusal %d", answer.refusal);
    if (answer.outcome == TARVOUED_REJECTED) printf(" rejected");
    for (size_t i = 0; i < answer.bytes; i++) printf(" %02X", out[i]);
    printf("\n");
    return answer.outcome;
}

int main(void)
{
    const uint8_t channels[] = {0, 1, 2};
    uint8_t out[64];
    tarvoued_pool pool;
    show("open", tarvoued_pool_open(&pool, channels, sizeof channels, TARVOUED_BEND, TARVOUED_STOP, TARVOUED_RETRIGGER_OFF), out);
    show("C", tarvoued_pool_note_on(&pool, 60, pitch(-3, 1), 100, out, sizeof out), out);
    show("E", tarvoued_pool_note_on(&pool, 64, pitch(1, -1), 100, out, sizeof out), out);
    show("G", tarvoued_pool_note_on(&pool, 67, pitch(-2, 1), 100, out, sizeof out), out);
    show("G again", tarvoued_pool_note_on(&pool, 67, pitch(-2, 1), 100, out, sizeof out), out);
    show("volume", tarvoued_pool_global_attr(&pool, tarvoued_message_control_change(7, 90), out, sizeof out), out);
    tarvoued_note e = tarvoued_pool_lookup(&pool, 64);
    printf("E is note %d on MIDI channel %d\n", e.note, channels[e.channel]);
    show("E off", tarvoued_pool_note_off(&pool, 64, 64, out, sizeof out), out);
    show("stop", tarvoued_pool_stop(&pool, out, sizeof out), out);
    return 0;
}
