/* Tarvoued: tuners of MIDI channels that a program holds and plays live. C and C++.

   A tuner is a block in the caller's memory. It may be copied, stored, compared and sent; any content is some tuner, also one that no call made, so a
   block need not be cleared before it is opened. No call keeps a pointer or a global: calls on different blocks may run at the same time.

   Every call below ends for all arguments. Its answer says in fields of their own what happened (`outcome`), the number of a refusal (`refusal`, 0 where
   nothing is refused) and, if it sends, how many bytes stand at the start of `out` (`bytes`). Bytes of `out` behind them keep what they had. A call that is
   refused changes no cell of a block and no byte of `out`. Other fields of an answer are 0 where there is nothing to say.

   Pointers are not null, also where a length is 0, and point to as many elements as the length beside them says, aligned as their type asks. Memory that is
   lent to be changed overlaps no other argument. A channel is an index into the channel list that the block was opened with. A setting that is a number, or
   a message's kind, is read as 0 where it names none. What each function does is proved in crates/capi_c; this file puts it in words, and "SPEC 9.2" is a
   paragraph of docs/SPEC.md, which has the rules. This interface is SPEC 12. */
#ifndef TARVOUED_H
#define TARVOUED_H

#include <stddef.h>
#include <stdint.h>

#ifdef __cplusplus
extern "C" {
#endif

/* What happened: `outcome`. */
enum {
    TARVOUED_DONE = 0,
    TARVOUED_UNTUNED = 1,   /* there are too few channels for the plan, and the block has none now */
    TARVOUED_REJECTED = 2,  /* no channel is free for the press; with retrigger its key may have been released first: `bytes` of that are to be sent */
    TARVOUED_NOT_FOUND = 3, /* the key, or the entry, is not there */
    TARVOUED_REFUSED = 4    /* `refusal` says why, and nothing has changed */
};

/* Why a call is refused: `refusal` (SPEC 2). */
enum {
    TARVOUED_PITCH_OUT_OF_RANGE = 1,    /* not from 2^-20 to 2^40 Hz */
    TARVOUED_NOT_MEASURABLE = 2,        /* a detuning that is not positive and finite */
    TARVOUED_DETUNING_OUT_OF_RANGE = 3, /* a planned detuning that is not from 0.5 to 2 */
    TARVOUED_NOTE_OUT_OF_RANGE = 4,     /* not from -300 to 500 */
    TARVOUED_KEY_TWICE = 5,             /* in one list */
    TARVOUED_CHANNEL_OVER_15 = 6,
    TARVOUED_CHANNEL_TWICE = 7,         /* in the channel list */
    TARVOUED_DATA_BYTE_OVER_127 = 8,
    TARVOUED_BEND_OUT_OF_RANGE = 9,     /* not from -8192 to 8191 */
    TARVOUED_BUFFER_TOO_SHORT = 10,     /* `room` is less than this answer's bytes */
    TARVOUED_KEY_HELD = 11,             /* a press of a key that is found, without retrigger */
    TARVOUED_LISTS_UNEQUAL = 12         /* lists of unequal length */
};

/* How channels are tuned: `tuning_kind` (SPEC 5.4). Bends are for a receiver whose pitch bend sensitivity is two semitones, the usual default (SPEC 5.2b). */
enum { TARVOUED_FINE_TUNING = 0, TARVOUED_BEND = 1 };

/* What a press does that finds no free channel: `pooling_mode`. It is rejected; it releases the key held longest; it takes that key's channel (SPEC 7.3). */
enum { TARVOUED_BLOCK = 0, TARVOUED_STOP = 1, TARVOUED_IGNORE = 2 };

/* What a press of a key that is found does: `retrigger`. OFF: it is refused (11). ON: it releases the key first, a tuner with a note-off of velocity 0, and
   then goes on as any press, which may give the key another channel (SPEC 7.2d). */
enum { TARVOUED_RETRIGGER_OFF = 0, TARVOUED_RETRIGGER_ON = 1 };

/* ---- the answers */

/* Of calls that send or open: how many channels a plan takes, and how many bytes stand at the start of `out`. */
typedef struct {
    uint8_t outcome, refusal;
    uint16_t channels;
    size_t bytes;
} tarvoued_answer;

/* A note, or what is retuned together, with its channel and its detuning. */
typedef struct {
    uint8_t outcome, refusal;
    uint16_t channel;
    int32_t note;
    double detuning;
} tarvoued_note;

/* A press from a pool model. If `stopped` is 1, `stopped_note` is the note that it stopped. If `released` is 1, its key was held and was released first, from
   `released_channel` and `released_note`; then a press that is REJECTED too has changed the block. */
typedef struct {
    uint8_t outcome, refusal;
    uint16_t channel;
    int32_t note;
    uint8_t stopped, released;
    uint16_t released_channel;
    int32_t stopped_note, released_note;
    double detuning;
} tarvoued_registered_key;

typedef struct {
    uint8_t outcome, refusal;
    double hz;
} tarvoued_pitch;

typedef struct {
    uint8_t outcome, refusal;
    int64_t number;
} tarvoued_number;

/* ---- values */

/* The note nearest to a pitch in Hz, and the pitch's detuning: the ratio of the pitch to the note's. Refuses 1 (SPEC 4.4a). */
tarvoued_note tarvoued_nearest_note(double hz);

/* The pitch of a note in Hz; note 69 is 440 Hz. Refuses 4 (SPEC 4.3). */
tarvoued_pitch tarvoued_note_pitch(int32_t note);

/* The measure of a detuning: its logarithm to base 2 in steps of 2^-24. Refuses 2 (SPEC 4.1). */
tarvoued_number tarvoued_measure(double detuning);

/* The value in which a detuning is sent: a fine value, 0 to 16383 with centre 8192, or a bend, -8192 to 8191. Refuses 2 (SPEC 5). */
tarvoued_number tarvoued_tuning_value(uint8_t tuning_kind, double detuning);

/* ---- messages (SPEC 8). Each is written as three bytes. Program changes and channel pressures have one data byte and end in 00, which MIDI does not have:
   a receiver that keeps running status takes it for program 0 or pressure 0, so leave the third byte of these out where you send to one. */

/* A message without its channel; the functions below make one of each kind. */
typedef struct {
    uint8_t kind, first, second;
    int16_t bend;
} tarvoued_message;

tarvoued_message tarvoued_message_note_off(uint8_t key, uint8_t velocity);
tarvoued_message tarvoued_message_note_on(uint8_t key, uint8_t velocity);
tarvoued_message tarvoued_message_polyphonic_key_pressure(uint8_t key, uint8_t pressure);
tarvoued_message tarvoued_message_control_change(uint8_t controller, uint8_t value);
tarvoued_message tarvoued_message_program_change(uint8_t program);
tarvoued_message tarvoued_message_channel_pressure(uint8_t pressure);
tarvoued_message tarvoued_message_pitch_bend_change(int16_t value);

/* Writes a message on a MIDI channel. Refuses 6, 8, 9, 10 (SPEC 8.4). */
tarvoued_answer tarvoued_message_write(uint8_t channel, tarvoued_message message, uint8_t *out, size_t room);

/* Writes the messages that tune a MIDI channel by a detuning. Refuses 6, 2, 10 (SPEC 8.5). */
tarvoued_answer tarvoued_channel_tuning(uint8_t tuning_kind, uint8_t channel, double detuning, uint8_t *out, size_t room);

/* ---- the pool tuner: channels are handed out while somebody plays (SPEC 9.2) */

#define TARVOUED_POOL_CELLS 677

typedef struct {
    uint16_t cells[TARVOUED_POOL_CELLS];
} tarvoued_pool;

/* A tuner of the MIDI channels listed, in which no key is found. Refuses 6, 7. */
tarvoued_answer tarvoued_pool_open(tarvoued_pool *pool, const uint8_t *channels, size_t count, uint8_t tuning_kind, uint8_t pooling_mode,
                                   uint8_t retrigger);

/* A press. With retrigger, and if its key is found: the note-off of the key, with velocity 0. Then, if it is DONE: the note-off of the note that it stops,
   the tuning, the note-on. If it is REJECTED, nothing follows the first note-off. Refuses 8, 1, 11 (11 only without retrigger), 10 (SPEC 9.2, 9.2e). */
tarvoued_answer tarvoued_pool_note_on(tarvoued_pool *pool, uint8_t key, double hz, uint8_t velocity, uint8_t *out, size_t room);

/* A release: the note-off of a key that is found. Refuses 8, 10. */
tarvoued_answer tarvoued_pool_note_off(tarvoued_pool *pool, uint8_t key, uint8_t velocity, uint8_t *out, size_t room);

/* The tuning of the channel of a key that is found, by another pitch. Refuses 1, 10. */
tarvoued_answer tarvoued_pool_note_pitch(const tarvoued_pool *pool, uint8_t key, double hz, uint8_t *out, size_t room);

/* The pressure of a key that is found. Refuses 8, 10. */
tarvoued_answer tarvoued_pool_note_attr(const tarvoued_pool *pool, uint8_t key, uint8_t pressure, uint8_t *out, size_t room);

/* A message to every channel; bends are not passed on by a tuner that tunes by bends. Refuses 8, 9, 10 (SPEC 9.4). */
tarvoued_answer tarvoued_pool_global_attr(const tarvoued_pool *pool, tarvoued_message message, uint8_t *out, size_t room);

/* Every key that is found is released, by rising key. Refuses 10. */
tarvoued_answer tarvoued_pool_stop(tarvoued_pool *pool, uint8_t *out, size_t room);

/* The channel and the note of a key: DONE or NOT_FOUND. */
tarvoued_note tarvoued_pool_lookup(const tarvoued_pool *pool, uint8_t key);

/* ---- the pool model: the same block, and nothing is sent (SPEC 7) */

/* Which notes share a pool: `group_by` of a pool model. */
enum { TARVOUED_POOL_BY_LETTER = 0, TARVOUED_POOL_BY_CHANNEL = 1 };

/* A model of the MIDI channels listed, in which no key is found. Refuses 6, 7. */
tarvoued_answer tarvoued_pool_model_open(tarvoued_pool *pool, const uint8_t *channels, size_t count, uint8_t group_by, uint8_t pooling_mode,
                                         uint8_t retrigger);

/* A press: the nearest note, on a channel of its pool, DONE or REJECTED; with retrigger its key is released first if it is found. It stays
   released if the press is REJECTED. Refuses 1, 11 (11 only without retrigger; SPEC 7.2d, 7.2e). */
tarvoued_registered_key tarvoued_pool_model_register_key(tarvoued_pool *pool, uint8_t key, double hz);

/* A release: where the key was, DONE or NOT_FOUND. */
tarvoued_note tarvoued_pool_model_deregister_key(tarvoued_pool *pool, uint8_t key);

/* The channel and the note of a key, and the detuning of another pitch for that note: DONE or NOT_FOUND. Refuses 1. */
tarvoued_note tarvoued_pool_model_repitch_key(const tarvoued_pool *pool, uint8_t key, double hz);

/* ---- the plan tuner: every key has a channel and a note before anyone plays (SPEC 9.3) */

#define TARVOUED_PLAN_CELLS 324

typedef struct {
    uint64_t cells[TARVOUED_PLAN_CELLS];
} tarvoued_plan;

/* A tuner of the MIDI channels listed, without a plan. Refuses 6, 7. */
tarvoued_answer tarvoued_plan_open(tarvoued_plan *plan, const uint8_t *channels, size_t count, uint8_t tuning_kind);

/* Plans keys with their notes and detunings, and tunes each channel that the plan takes; DONE or UNTUNED, with how many channels it takes or would take:
   nobody who places the keys on channels by hand needs fewer (SPEC 6.6). Refuses 12, then line by line 4, 3, 5; then 10. */
tarvoued_answer tarvoued_plan_set_tuning(tarvoued_plan *plan, const uint8_t *keys, size_t key_count, const int32_t *notes, size_t note_count,
                                         const double *detunings, size_t detuning_count, uint8_t *out, size_t room);

/* The same of keys with their pitches in Hz. Refuses 12, then line by line 1, 5; then 10. */
tarvoued_answer tarvoued_plan_set_tuning_of_pitches(tarvoued_plan *plan, const uint8_t *keys, size_t key_count, const double *pitches, size_t pitch_count,
                                                    uint8_t *out, size_t room);

/* A press: the note-on of a key of the plan. Refuses 8, 10. */
tarvoued_answer tarvoued_plan_note_on(const tarvoued_plan *plan, uint8_t key, uint8_t velocity, uint8_t *out, size_t room);

/* A release: the note-off of a key of the plan. Refuses 8, 10. */
tarvoued_answer tarvoued_plan_note_off(const tarvoued_plan *plan, uint8_t key, uint8_t velocity, uint8_t *out, size_t room);

/* The pressure of a key of the plan. Refuses 8, 10. */
tarvoued_answer tarvoued_plan_note_attr(const tarvoued_plan *plan, uint8_t key, uint8_t pressure, uint8_t *out, size_t room);

/* A message to every channel; bends are not passed on by a tuner that tunes by bends. Refuses 8, 9, 10 (SPEC 9.4). */
tarvoued_answer tarvoued_plan_global_attr(const tarvoued_plan *plan, tarvoued_message message, uint8_t *out, size_t room);

/* Sends nothing: a plan tuner does not know which keys are pressed, so whoever pressed one releases it. */
tarvoued_answer tarvoued_plan_stop(const tarvoued_plan *plan, uint8_t *out, size_t room);

/* The channel and the note of a key of the plan: DONE or NOT_FOUND. */
tarvoued_note tarvoued_plan_lookup(const tarvoued_plan *plan, uint8_t key);

/* The detuning of a group on a channel of the plan, DONE or NOT_FOUND. A group is a note, a letter from 0 to 11, or 0 for the whole channel. */
tarvoued_note tarvoued_plan_detuning(const tarvoued_plan *plan, uint16_t channel, int32_t group);

/* The first of a channel's detunings whose group (`note` of the answer) is `from` or higher, DONE or NOT_FOUND. */
tarvoued_note tarvoued_plan_next_detuning(const tarvoued_plan *plan, uint16_t channel, int32_t from);

/* ---- the plan model: the same block, and nothing is sent (SPEC 6) */

/* What a sound module retunes together: `group_by` of a plan model. */
enum { TARVOUED_PLAN_BY_NOTE = 0, TARVOUED_PLAN_BY_LETTER = 1, TARVOUED_PLAN_BY_CHANNEL = 2 };

/* A model of the MIDI channels listed, without a plan. Refuses 6, 7. */
tarvoued_answer tarvoued_plan_model_open(tarvoued_plan *plan, const uint8_t *channels, size_t count, uint8_t group_by);

/* Plans keys with their notes and detunings; DONE or UNTUNED. Refuses 12, then line by line 4, 3, 5. */
tarvoued_answer tarvoued_plan_model_set_tuning(tarvoued_plan *plan, const uint8_t *keys, size_t key_count, const int32_t *notes, size_t note_count,
                                               const double *detunings, size_t detuning_count);

/* The same of keys with their pitches in Hz. Refuses 12, then line by line 1, 5. */
tarvoued_answer tarvoued_plan_model_set_tuning_of_pitches(tarvoued_plan *plan, const uint8_t *keys, size_t key_count,
                                                          const double *pitches, size_t pitch_count);

#ifdef __cplusplus
}
#endif

#endif
