/* A held transfer: the receiver is busy after the first window, and resumes 19 ticks later. Prints the hold and the resume,
 * every frame as it goes out, and both reports, the ticks since the begin first; a refused call stops it.
 *   cc -std=c11 -Iinclude examples/hold.c target/staticlib/libkospelna.a -o hold */
#include "kospelna.h"

#include <assert.h>
#include <stdio.h>

static kospelna_sender sender;
static kospelna_receiver receiver;
static uint8_t buffer[KOSPELNA_BUFFER_LENGTH];
static const char message[] = "the receiver is busy a while";
enum { LENGTH = sizeof message - 1 };
static int tick;

static void show(const char *end, kospelna_frame frame)
{
    static const char *const names[] = {
        [KOSPELNA_KIND_INFORMATION] = "information", [KOSPELNA_KIND_LM_ACK] = "LM_ACK",
        [KOSPELNA_KIND_LM_NACK] = "LM_NACK", [KOSPELNA_KIND_LM_ENDOFACK] = "LM_EndofACK"};
    printf("%d %s: %s", tick, end, names[frame.kind]);
    for (int i = 0; i < 8; i++)
        printf(" %02X", frame.bytes[i]);
    printf("\n");
}

/* The line loses nothing: a frame is heard as it goes out, and so is the frame that answers it. */
static void receiver_did(kospelna_receiver_answer a);

static void sender_did(kospelna_sender_answer a)
{
    assert(a.refusal == KOSPELNA_REFUSAL_NONE);
    sender = a.next;
    if (a.emits)
        show("sender", a.frame);
    if (a.outcome == KOSPELNA_SENT)
        printf("%d sender: sent, %d ticks, %d frames\n", tick, a.ticks, a.frames);
    else if (a.outcome == KOSPELNA_FAILED)
        printf("%d sender: failed, cause %d, %d ticks, %d frames\n", tick, a.cause, a.ticks, a.frames);
    if (a.emits)
        receiver_did(kospelna_receiver_hear(receiver, a.frame, buffer, sizeof buffer));
}

static void receiver_did(kospelna_receiver_answer a)
{
    assert(a.refusal == KOSPELNA_REFUSAL_NONE);
    receiver = a.next;
    if (a.emits)
        show("receiver", a.frame);
    if (a.outcome == KOSPELNA_DELIVERED)
        printf("%d receiver: delivered \"%.*s\"\n", tick, a.length, (char *)buffer);
    else if (a.outcome == KOSPELNA_FAILED)
        printf("%d receiver: failed, cause %d\n", tick, a.cause);
    if (a.emits)
        sender_did(kospelna_sender_hear(sender, a.frame));
}

static void hold(void)
{
    printf("%d hold\n", tick);
    receiver_did(kospelna_receiver_hold(receiver));
}

static void resume(void)
{
    printf("%d resume, after %d timeouts while held\n", tick, receiver.holds);
    receiver_did(kospelna_receiver_resume(receiver));
}

int main(void)
{
    const kospelna_sender_made s = kospelna_sender_make(1, 3, 100);
    const kospelna_receiver_made r = kospelna_receiver_make(6, 2, KOSPELNA_CAPACITY_MAX);
    assert(s.refusal == KOSPELNA_REFUSAL_NONE && r.refusal == KOSPELNA_REFUSAL_NONE);
    sender = s.sender;
    receiver = r.receiver;
    sender_did(kospelna_sender_begin(sender, (const uint8_t *)message, LENGTH));
    while (sender.phase != KOSPELNA_SENDER_IDLE || receiver.phase == KOSPELNA_RECEIVER_OPEN) {
        tick++;
        sender_did(kospelna_sender_tick(sender, (const uint8_t *)message, LENGTH));
        receiver_did(kospelna_receiver_tick(receiver));
        if (tick == 2)
            hold();
        else if (tick == 21)
            resume();
    }
}
