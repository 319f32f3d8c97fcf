/* A line that falls silent inside a window: nothing is heard of what goes out meanwhile. The receiver counts three timeouts of
 * one type, and the first, which is one after a frame, is of another type than those after its own LM_ACKs: only the fourth
 * fails. Plays a silence that ends before it and a longer one. Prints every frame as it goes out, the receiver's timeouts and
 * both reports, the ticks since the begin first; a refused call stops it.
 *   cc -std=c11 -Iinclude examples/silence.c target/staticlib/libkospelna.a -o silence */
#include "kospelna.h"

#include <assert.h>
#include <stdio.h>

static kospelna_sender sender;
static kospelna_receiver receiver;
static uint8_t buffer[KOSPELNA_BUFFER_LENGTH];
static const char message[] = "nothing is heard for a while";
enum { LENGTH = sizeof message - 1 };
static int tick, silent_from, silent_to;

/* Shows the frame that goes out; whether it is heard. */
static bool is_heard(const char *end, kospelna_frame frame)
{
    static const char *const names[] = {
        [KOSPELNA_KIND_INFORMATION] = "information", [KOSPELNA_KIND_LM_ACK] = "LM_ACK",
        [KOSPELNA_KIND_LM_NACK] = "LM_NACK", [KOSPELNA_KIND_LM_ENDOFACK] = "LM_EndofACK"};
    const bool lost = silent_from <= tick && tick <= silent_to;
    printf("%d %s: %s", tick, end, names[frame.kind]);
    for (int i = 0; i < 8; i++)
        printf(" %02X", frame.bytes[i]);
    printf(lost ? ", lost\n" : "\n");
    return !lost;
}

/* A frame that is heard is heard as it goes out, and so is the frame that answers it. */
static void receiver_did(kospelna_receiver_answer a);

static void sender_did(kospelna_sender_answer a)
{
    assert(a.refusal == KOSPELNA_REFUSAL_NONE);
    sender = a.next;
    const bool heard = a.emits && is_heard("sender", a.frame);
    if (a.outcome == KOSPELNA_SENT)
        printf("%d sender: sent, %d ticks, %d frames\n", tick, a.ticks, a.frames);
    else if (a.outcome == KOSPELNA_FAILED)
        printf("%d sender: failed, cause %d, %d ticks, %d frames\n", tick, a.cause, a.ticks, a.frames);
    if (heard)
        receiver_did(kospelna_receiver_hear(receiver, a.frame, buffer, sizeof buffer));
}

static void receiver_did(kospelna_receiver_answer a)
{
    assert(a.refusal == KOSPELNA_REFUSAL_NONE);
    receiver = a.next;
    const bool heard = a.emits && is_heard("receiver", a.frame);
    if (a.outcome == KOSPELNA_DELIVERED)
        printf("%d receiver: delivered \"%.*s\"\n", tick, a.length, (char *)buffer);
    else if (a.outcome == KOSPELNA_FAILED)
        printf("%d receiver: failed, cause %d\n", tick, a.cause);
    if (heard)
        sender_did(kospelna_sender_hear(sender, a.frame));
}

/* A tick of the receiver that emits an LM_ACK was a timeout. */
static void receiver_ticks(void)
{
    static const char *const counted[] = {
        [KOSPELNA_MISSES_ONE_AFTER_ACK] = "one after an LM_ACK", [KOSPELNA_MISSES_TWO_AFTER_ACK] = "two after LM_ACKs",
        [KOSPELNA_MISSES_ONE_AFTER_FRAME] = "one after a frame"};
    const kospelna_receiver_answer a = kospelna_receiver_tick(receiver);
    if (a.emits && a.outcome == KOSPELNA_QUIET)
        printf("%d receiver: timeout, %s\n", tick, counted[a.next.misses]);
    receiver_did(a);
}

static void transfer(int from, int to)
{
    printf("silent from tick %d to tick %d\n", from, to);
    silent_from = from;
    silent_to = to;
    tick = 0;
    sender_did(kospelna_sender_begin(sender, (const uint8_t *)message, LENGTH));
    while (sender.phase != KOSPELNA_SENDER_IDLE || receiver.phase == KOSPELNA_RECEIVER_OPEN) {
        tick++;
        sender_did(kospelna_sender_tick(sender, (const uint8_t *)message, LENGTH));
        receiver_ticks();
    }
}

int main(void)
{
    const kospelna_sender_made s = kospelna_sender_make(1, 20, 100);
    const kospelna_receiver_made r = kospelna_receiver_make(3, 3, KOSPELNA_CAPACITY_MAX);
    assert(s.refusal == KOSPELNA_REFUSAL_NONE && r.refusal == KOSPELNA_REFUSAL_NONE);
    sender = s.sender;
    receiver = r.receiver;
    transfer(2, 8);
    transfer(2, 11);
}
