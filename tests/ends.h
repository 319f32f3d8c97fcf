/* What the tests of both ends share: a check that ends the program, comparisons of frames and states, frames, a buffer, and
 * what a call of the receiver came to. */
#ifndef ENDS_H
#define ENDS_H

#include "kospelna.h"

#include <stdio.h>
#include <stdlib.h>
#include <string.h>

static inline void must(bool good, const char *what)
{
    if (!good) {
        fprintf(stderr, "wrong: %s\n", what);
        exit(1);
    }
}

static inline bool goes_out(bool emits, kospelna_frame frame, kospelna_frame due)
{
    return emits && memcmp(&frame, &due, sizeof due) == 0;
}

static inline bool same_sender(kospelna_sender a, kospelna_sender b)
{
    return a.gap == b.gap && a.timeout == b.timeout && a.limit == b.limit && a.phase == b.phase && a.length == b.length
        && a.frames == b.frames && a.first == b.first && a.age == b.age && a.emitted == b.emitted && a.wait == b.wait
        && a.misses == b.misses && a.start == b.start && a.due == b.due && a.last == b.last && a.count == b.count;
}

static inline bool same_receiver(kospelna_receiver a, kospelna_receiver b)
{
    return a.timeout == b.timeout && a.window == b.window && a.capacity == b.capacity && a.phase == b.phase
        && a.frames == b.frames && a.length == b.length && a.expected == b.expected && a.last == b.last
        && a.wait == b.wait && a.misses == b.misses && a.held == b.held && a.holds == b.holds;
}

/* Frames of the message of bytes 1 to 9, so N 2, and of its first three. */
static const kospelna_frame announcement = {.kind = KOSPELNA_KIND_INFORMATION, .bytes = {0, 2, 9, 0, 255, 255, 255, 255}};
static const kospelna_frame first_part = {.kind = KOSPELNA_KIND_INFORMATION, .bytes = {1, 1, 2, 3, 4, 5, 6, 7}};
static const kospelna_frame last_part = {.kind = KOSPELNA_KIND_INFORMATION, .bytes = {2, 8, 9, 255, 255, 255, 255, 255}};
static const kospelna_frame lm_ack = {.kind = KOSPELNA_KIND_LM_ACK, .bytes = {1, 2, 255, 255, 255, 255, 255, 255}};
static const kospelna_frame endofack = {.kind = KOSPELNA_KIND_LM_ENDOFACK, .bytes = {2, 9, 0, 255, 255, 255, 255, 255}};
static const kospelna_frame sm_rm = {.kind = KOSPELNA_KIND_SM_RM, .bytes = {1, 2, 3, 255, 255, 255, 255, 255}};
static const kospelna_frame sm_ack = {.kind = KOSPELNA_KIND_SM_ACK, .bytes = {1, 255, 255, 255, 255, 255, 255, 255}};

static inline kospelna_frame ack(uint8_t start, uint8_t count)
{
    return (kospelna_frame){.kind = KOSPELNA_KIND_LM_ACK, .bytes = {start, count, 255, 255, 255, 255, 255, 255}};
}

static inline kospelna_frame nack(uint8_t cause)
{
    return (kospelna_frame){.kind = KOSPELNA_KIND_LM_NACK, .bytes = {cause, 255, 255, 255, 255, 255, 255, 255}};
}

static uint8_t buffer[KOSPELNA_BUFFER_LENGTH];

static inline kospelna_receiver_answer hears(kospelna_receiver end, kospelna_frame frame)
{
    return kospelna_receiver_hear(end, frame, buffer, sizeof buffer);
}

/* Nothing but a frame and a next state. */
static inline bool asks(kospelna_receiver_answer b, kospelna_frame due, kospelna_receiver next)
{
    return b.outcome == KOSPELNA_QUIET && b.refusal == 0 && goes_out(b.emits, b.frame, due) && same_receiver(b.next, next);
}

/* No frame, no report, and the state as it was. */
static inline bool leaves(kospelna_receiver_answer b, kospelna_receiver left)
{
    static const kospelna_frame no_frame;
    static const uint8_t no_bytes[8];
    return !b.emits && memcmp(&b.frame, &no_frame, sizeof no_frame) == 0 && b.cause == 0 && b.length == 0
        && memcmp(b.bytes, no_bytes, sizeof no_bytes) == 0 && same_receiver(b.next, left);
}

static inline bool ignores(kospelna_receiver_answer b, kospelna_receiver left)
{
    return b.outcome == KOSPELNA_QUIET && b.refusal == 0 && leaves(b, left);
}

static inline bool refuses(kospelna_receiver_answer b, int number, kospelna_receiver left)
{
    return b.outcome == KOSPELNA_REFUSED && b.refusal == number && leaves(b, left);
}

static inline bool receiver_failed(kospelna_receiver_answer b, int cause)
{
    return b.outcome == KOSPELNA_FAILED && b.refusal == 0 && b.cause == cause && b.next.phase == KOSPELNA_RECEIVER_IDLE;
}

#endif
