/* How often each frame went out: beside the sender stands a summary, and the line loses frames. Plays a long transfer in which
 * some frames go out more than once, and a short one, which clears the counts. Prints every frame as it goes out and both
 * reports, the ticks since the begin first, then the counts that are not 0, their sum and the number that went out most often;
 * a refused call stops it.
 *   cc -std=c11 -Iinclude examples/summary.c target/staticlib/libkospelna_summary.a target/staticlib/libkospelna.a -o summary */
#include "kospelna.h"

#include <assert.h>
#include <stdio.h>
#include <string.h>

static kospelna_sender sender;
static kospelna_receiver receiver;
static uint8_t buffer[KOSPELNA_BUFFER_LENGTH];
static uint8_t counts[KOSPELNA_COUNTS_LENGTH]; /* lent to every call of the sender */
static int tick;
static unsigned losses, carried;

/* Shows the frame that goes out; whether it is heard. A transfer's nth is lost where bit n of `losses` is set. */
static bool is_heard(const char *end, kospelna_frame frame)
{
    static const char *const names[] = {
        [KOSPELNA_KIND_INFORMATION] = "information", [KOSPELNA_KIND_LM_ACK] = "LM_ACK", [KOSPELNA_KIND_LM_NACK] = "LM_NACK",
        [KOSPELNA_KIND_LM_ENDOFACK] = "LM_EndofACK", [KOSPELNA_KIND_SM_RM] = "SM_RM", [KOSPELNA_KIND_SM_ACK] = "SM_ACK"};
    const bool lost = losses >> ++carried & 1;
    printf("%d %s: %s", tick, end, names[frame.kind]);
    for (int i = 0; i < 8; i++)
        printf(" %02X", frame.bytes[i]);
    printf(lost ? ", lost\n" : "\n");
    return !lost;
}

/* A frame that is heard is heard as it goes out, and so is the frame that answers it. */
static void receiver_did(kospelna_receiver_answer a);

static void sender_did(kospelna_sender_answer a)
{
    assert(a.refusal == KOSPELNA_REFUSAL_NONE);
    sender = a.next;
    const bool heard = a.emits && is_heard("sender", a.frame);
    if (a.outcome == KOSPELNA_SENT)
        printf("%d sender: sent, %d ticks, %d frames\n", tick, a.ticks, a.frames);
    else if (a.outcome == KOSPELNA_FAILED)
        printf("%d sender: failed, cause %d, %d ticks, %d frames\n", tick, a.cause, a.ticks, a.frames);
    if (heard)
        receiver_did(kospelna_receiver_hear(receiver, a.frame, buffer, sizeof buffer));
}

static void receiver_did(kospelna_receiver_answer a)
{
    assert(a.refusal == KOSPELNA_REFUSAL_NONE);
    receiver = a.next;
    const bool heard = a.emits && is_heard("receiver", a.frame);
    if (a.outcome == KOSPELNA_FAILED)
        printf("%d receiver: failed, cause %d\n", tick, a.cause);
    else if (a.outcome != KOSPELNA_QUIET) /* `length` is 0 in a short delivery, and `bytes` are zeros in a long one */
        printf("%d receiver: delivered \"%.*s%.8s\"\n", tick, a.length, (char *)buffer, (char *)a.bytes);
    if (heard)
        sender_did(kospelna_summary_hear(sender, a.frame, counts, sizeof counts));
}

static void print_counts(void)
{
    unsigned sum = 0;
    for (unsigned number = 0; number < 256; number++) {
        const kospelna_count went = kospelna_summary_count((uint8_t)number, counts, sizeof counts);
        assert(went.refusal == KOSPELNA_REFUSAL_NONE);
        sum += went.count;
        if (went.count > 0)
            printf("information frames with number %d: %d\n", went.number, went.count);
    }
    const kospelna_count most = kospelna_summary_most(counts, sizeof counts);
    assert(most.refusal == KOSPELNA_REFUSAL_NONE);
    printf("together %u, most often number %d: %d\n", sum, most.number, most.count);
}

static void transfer(const void *message, unsigned losing)
{
    const size_t length = strlen(message);
    printf("%zu bytes\n", length);
    losses = losing;
    carried = 0;
    tick = 0;
    sender_did(kospelna_summary_begin(sender, message, length, counts, sizeof counts));
    while (sender.phase != KOSPELNA_SENDER_IDLE || receiver.phase == KOSPELNA_RECEIVER_OPEN) {
        tick++;
        sender_did(kospelna_summary_tick(sender, message, length, counts, sizeof counts));
        receiver_did(kospelna_receiver_tick(receiver));
    }
    print_counts();
}

int main(void)
{
    const kospelna_sender_made s = kospelna_sender_make(1, 4, 100);
    const kospelna_receiver_made r = kospelna_receiver_make(6, 2, KOSPELNA_CAPACITY_MAX);
    assert(s.refusal == KOSPELNA_REFUSAL_NONE && r.refusal == KOSPELNA_REFUSAL_NONE);
    sender = s.sender;
    receiver = r.receiver;
    transfer("some of these frames go lost", 1u << 4 | 1u << 5 | 1u << 9);
    transfer("pause it", 1u << 1);
}
