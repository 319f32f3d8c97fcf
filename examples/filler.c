/* A card that writes no filler: of a frame shorter than eight bytes it leaves what it held behind them. The receiver refuses
 * the message's last frame, the program empties the card, and the frame comes again. Prints every frame as it is heard, the
 * refusal and both reports, the ticks since the begin first.
 *   cc -std=c11 -Iinclude examples/filler.c target/staticlib/libkospelna.a -o filler */
#include "kospelna.h"

#include <assert.h>
#include <stdio.h>
#include <string.h>

static kospelna_sender sender;
static kospelna_receiver receiver;
static uint8_t buffer[KOSPELNA_BUFFER_LENGTH];
static const char message[] = "old bytes";
enum { LENGTH = sizeof message - 1 };
static int tick;

static void show(const char *end, kospelna_frame frame)
{
    printf("%d %s hears: kind %d,", tick, end, frame.kind);
    for (int i = 0; i < 8; i++)
        printf(" %02X", frame.bytes[i]);
    printf("\n");
}

/* The card at the receiver. The wire carries the bytes up to the filler (so this card would spoil a message that ends in
 * 0xFF). */
static uint8_t card[8];

static kospelna_frame through_card(kospelna_frame frame)
{
    size_t count = 8;
    while (count > 0 && frame.bytes[count - 1] == 0xFF)
        count--;
    memcpy(card, frame.bytes, count);
    memcpy(frame.bytes, card, 8);
    return frame;
}

static void empty_card(void)
{
    memset(card, 0xFF, sizeof card);
}

/* A frame is heard as it goes out, and so is the frame that answers it. */
static void receiver_did(kospelna_receiver_answer a);

static void sender_did(kospelna_sender_answer a)
{
    assert(a.refusal == KOSPELNA_REFUSAL_NONE);
    sender = a.next;
    if (a.outcome == KOSPELNA_SENT)
        printf("%d sender: sent, %d ticks, %d frames\n", tick, a.ticks, a.frames);
    if (a.emits) {
        const kospelna_frame frame = through_card(a.frame);
        show("receiver", frame);
        receiver_did(kospelna_receiver_hear(receiver, frame, buffer, sizeof buffer));
    }
}

/* A refused frame leaves the connection as it was: all that is to do is to see to the card. */
static void receiver_did(kospelna_receiver_answer a)
{
    if (a.refusal == KOSPELNA_REFUSAL_FILLER) {
        printf("%d receiver: refused %d, the card is emptied\n", tick, a.refusal);
        empty_card();
    } else
        assert(a.refusal == KOSPELNA_REFUSAL_NONE);
    receiver = a.next;
    if (a.outcome == KOSPELNA_DELIVERED)
        printf("%d receiver: delivered \"%.*s\"\n", tick, a.length, (char *)buffer);
    if (a.emits) {
        show("sender", a.frame);
        sender_did(kospelna_sender_hear(sender, a.frame));
    }
}

int main(void)
{
    const kospelna_sender_made s = kospelna_sender_make(1, 5, 100);
    const kospelna_receiver_made r = kospelna_receiver_make(3, 2, KOSPELNA_CAPACITY_MAX);
    assert(s.refusal == KOSPELNA_REFUSAL_NONE && r.refusal == KOSPELNA_REFUSAL_NONE);
    sender = s.sender;
    receiver = r.receiver;
    empty_card();
    sender_did(kospelna_sender_begin(sender, (const uint8_t *)message, LENGTH));
    while (sender.phase != KOSPELNA_SENDER_IDLE || receiver.phase == KOSPELNA_RECEIVER_OPEN) {
        tick++;
        sender_did(kospelna_sender_tick(sender, (const uint8_t *)message, LENGTH));
        receiver_did(kospelna_receiver_tick(receiver));
    }
}
