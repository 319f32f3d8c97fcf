/* A bench: both ends on a line that loses frames. Prints their reports, what the line carried, and a long transfer's clean
 * figures; a refused call stops it.
 *   cc -std=c11 -Iinclude examples/bench.c target/staticlib/libkospelna.a -o bench */
#include "kospelna.h"

#include <assert.h>
#include <stdio.h>
#include <string.h>

static kospelna_sender sender;
static kospelna_receiver receiver;
static uint8_t buffer[KOSPELNA_BUFFER_LENGTH];

/* The line: frames join its end and are heard at its front. A transfer's nth is lost where bit n of `losses` is set. */
enum { PLACES = 8 };
static struct sent { bool by_sender; kospelna_frame frame; } line[PLACES];
static unsigned losses, carried, front, end;

static void carry(bool by_sender, bool emits, kospelna_frame frame)
{
    if (emits && (losses >> ++carried % 32 & 1) == 0)
        line[end++ % PLACES] = (struct sent){by_sender, frame};
}

static void sender_did(kospelna_sender_answer a)
{
    assert(a.refusal == KOSPELNA_REFUSAL_NONE);
    sender = a.next;
    carry(true, a.emits, a.frame);
    if (a.outcome == KOSPELNA_SENT)
        printf("sender: sent, %d ticks, %d frames\n", a.ticks, a.frames);
    else if (a.outcome == KOSPELNA_FAILED)
        printf("sender: failed, cause %d, %d ticks, %d frames\n", a.cause, a.ticks, a.frames);
}

static void receiver_did(kospelna_receiver_answer a)
{
    assert(a.refusal == KOSPELNA_REFUSAL_NONE);
    receiver = a.next;
    carry(false, a.emits, a.frame);
    if (a.outcome == KOSPELNA_FAILED)
        printf("receiver: failed, cause %d\n", a.cause);
    else if (a.outcome != KOSPELNA_QUIET) /* `length` is 0 in a short delivery, and `bytes` are zeros in a long one */
        printf("receiver: delivered \"%.*s%.8s\"\n", a.length, (char *)buffer, (char *)a.bytes);
}

/* Hears what is on the line, and ticks both ends where nothing is, until the sender has reported, no connection is open and
 * the line is empty. So the next begin finds the receiver idle and no frame of this transfer: its `sent` means delivered. */
static void transfer(const void *message, unsigned losing)
{
    const size_t length = strlen(message);
    losses = losing;
    carried = front = end = 0;
    sender_did(kospelna_sender_begin(sender, message, length));
    while (sender.phase != KOSPELNA_SENDER_IDLE || receiver.phase == KOSPELNA_RECEIVER_OPEN || front != end)
        if (front == end) {
            sender_did(kospelna_sender_tick(sender, message, length));
            receiver_did(kospelna_receiver_tick(receiver));
        } else if (line[front % PLACES].by_sender)
            receiver_did(kospelna_receiver_hear(receiver, line[front++ % PLACES].frame, buffer, sizeof buffer));
        else
            sender_did(kospelna_sender_hear(sender, line[front++ % PLACES].frame));
    printf("line: %u frames, %u lost\n", carried, carried - end);
    const kospelna_clean_figures clean = kospelna_clean_figures_of((uint32_t)length, sender.gap);
    if (clean.refusal == KOSPELNA_REFUSAL_NONE) /* a short message has none */
        printf("clean: %d ticks, %d frames\n", clean.ticks, clean.frames);
}

int main(void)
{
    const kospelna_sender_made s = kospelna_sender_make(1, 5, 100);
    const kospelna_receiver_made r = kospelna_receiver_make(3, 2, KOSPELNA_CAPACITY_MAX);
    assert(s.refusal == KOSPELNA_REFUSAL_NONE && r.refusal == KOSPELNA_REFUSAL_NONE);
    sender = s.sender;
    receiver = r.receiver;
    transfer("twenty bytes of text", 1u << 4 | 1u << 8);
    transfer("pause it", 1u << 2);
    transfer("nobody hears this one", ~0u);
}
