/* Holds over the C face, each answer worked by hand from document 02, E2 (and E4, what the wait is after). Exits 1 where a
 * frame, a state, the buffer, a failure or a refusal is another than it should be. */
#include "ends.h"

/* The message of bytes 1 to 20, so N 3; its first information frame is that of ends.h. */
static const kospelna_frame three = {.kind = KOSPELNA_KIND_INFORMATION, .bytes = {0, 3, 20, 0, 255, 255, 255, 255}};
static const kospelna_frame second_part = {.kind = KOSPELNA_KIND_INFORMATION, .bytes = {2, 8, 9, 10, 11, 12, 13, 14}};
static const kospelna_frame third_part = {.kind = KOSPELNA_KIND_INFORMATION, .bytes = {3, 15, 16, 17, 18, 19, 20, 255}};

/* A receiver of T 3 and C 2 that has accepted frame 1, so e 2 and w 2, and then waited a tick; and the same when it is held:
 * the hold's LM_ACK is what it waits after. */
static const kospelna_receiver begun = {
    .timeout = 3, .window = 2, .capacity = 20, .phase = KOSPELNA_RECEIVER_OPEN, .frames = 3, .length = 20, .expected = 2,
    .last = 2, .misses = KOSPELNA_MISSES_NONE_AFTER_FRAME, .wait = 1};
static const kospelna_receiver begun_held = {
    .timeout = 3, .window = 2, .capacity = 20, .phase = KOSPELNA_RECEIVER_OPEN, .frames = 3, .length = 20, .expected = 2,
    .last = 2, .misses = KOSPELNA_MISSES_NONE_AFTER_ACK, .wait = 1, .held = true};

static bool refused_13(kospelna_receiver_answer b, kospelna_receiver left)
{
    return refuses(b, KOSPELNA_REFUSAL_HOLD, left);
}

/* Hold and resume where they are refused: with no connection open, e 1, held, not held. */
static void hold_refusals(void)
{
    const kospelna_receiver idle = kospelna_receiver_make(3, 2, 20).receiver;
    const kospelna_receiver done = {
        .timeout = 3, .window = 2, .capacity = 20, .phase = KOSPELNA_RECEIVER_DONE, .frames = 3, .length = 20};
    const kospelna_receiver open = hears(idle, three).next;
    must(refused_13(kospelna_receiver_hold(idle), idle) && refused_13(kospelna_receiver_hold(done), done),
         "a hold with no connection open");
    must(refused_13(kospelna_receiver_hold(open), open), "a hold before the first frame");
    must(refused_13(kospelna_receiver_hold(begun_held), begun_held), "a second hold");
    must(refused_13(kospelna_receiver_resume(idle), idle) && refused_13(kospelna_receiver_resume(done), done)
             && refused_13(kospelna_receiver_resume(open), open) && refused_13(kospelna_receiver_resume(begun), begun),
         "a resume where none is held");
}

/* A held transfer that is delivered. The hold leaves all but the mark and what the wait is after, two ticks later wait is T,
 * and the resume asks for a window that ends later than the one before. */
static void held_transfer(void)
{
    kospelna_receiver due = begun_held;
    kospelna_receiver_answer b = hears(kospelna_receiver_make(3, 2, 20).receiver, three);
    b = kospelna_receiver_tick(hears(b.next, first_part).next);
    must(same_receiver(b.next, begun), "the receiver before the hold");
    b = kospelna_receiver_hold(b.next);
    must(asks(b, ack(1, 1), due), "a hold");
    b = kospelna_receiver_tick(b.next);
    due.wait = 2;
    must(!b.emits && same_receiver(b.next, due), "a tick while held");
    b = kospelna_receiver_tick(b.next);
    due.wait = 0;
    due.holds = 1;
    must(asks(b, ack(1, 1), due), "a timeout while held");
    b = kospelna_receiver_tick(b.next);
    due.wait = 1;
    due.held = false;
    due.last = 3;
    b = kospelna_receiver_resume(b.next);
    must(asks(b, ack(2, 2), due), "a resume");
    b = hears(hears(b.next, second_part).next, third_part);
    must(b.outcome == KOSPELNA_DELIVERED && b.length == 20 && !b.next.held && b.next.holds == 0, "a delivery after a hold");
    for (uint8_t i = 0; i < 20; i++)
        must(buffer[i] == i + 1, "the bytes of a held transfer");
}

static void untouched(void)
{
    for (size_t i = 0; i < sizeof buffer; i++)
        must(buffer[i] == 0xAA, "the buffer while held");
}

/* What is heard while held: information frames of every number draw nothing and leave the buffer; short messages, refused
 * frames and an LM_NACK do as ever. */
static void heard_while_held(void)
{
    const kospelna_frame above = {.kind = KOSPELNA_KIND_INFORMATION, .bytes = {4, 1, 1, 1, 1, 1, 1, 1}};
    const kospelna_frame dirty = {.kind = KOSPELNA_KIND_INFORMATION, .bytes = {0, 3, 20, 0, 255, 255, 255, 0}};
    const kospelna_frame ignored[] = {three, announcement, first_part, second_part, third_part, above};
    const kospelna_receiver held = begun_held;
    memset(buffer, 0xAA, sizeof buffer);
    for (size_t i = 0; i < sizeof ignored / sizeof ignored[0]; i++)
        must(ignores(hears(held, ignored[i]), held), "an information frame while held");
    untouched();
    kospelna_receiver_answer b = hears(held, sm_rm);
    must(b.outcome == KOSPELNA_DELIVERED_SHORT && goes_out(b.emits, b.frame, sm_ack) && same_receiver(b.next, held),
         "a short message while held");
    must(kospelna_receiver_hear(held, three, buffer, sizeof buffer - 1).refusal == KOSPELNA_REFUSAL_BUFFER
             && hears(held, dirty).refusal == KOSPELNA_REFUSAL_FRAME
             && hears(held, sm_ack).refusal == KOSPELNA_REFUSAL_OTHER_END,
         "a refusal while held");
    b = hears(held, nack(KOSPELNA_NACK_SENDING_TIME));
    must(receiver_failed(b, KOSPELNA_CAUSE_NACK_HEARD) && !b.emits && !b.next.held, "a NACK while held");
    must(!hears(b.next, three).next.held, "a connection after a hold");
}

/* So many timeouts while held: T is 3, and the hold's LM_ACK goes out at every third tick. */
static kospelna_receiver held_timeouts(kospelna_receiver held, int count)
{
    kospelna_receiver_answer b = {.next = held};
    for (int tick = 1; tick <= 3 * count; tick++) {
        b = kospelna_receiver_tick(b.next);
        must(b.outcome == KOSPELNA_QUIET && (tick % 3 == 0 ? goes_out(b.emits, b.frame, ack(1, 1)) : !b.emits),
             "the timeouts while held");
    }
    return b.next;
}

/* A connection has 20 of them in all: here 12 and 8, with a resume and a second hold between, whose LM_ACKs do not count.
 * Misses, which are two after LM_ACKs from before, stay. */
static void held_too_long(void)
{
    kospelna_receiver held = begun, due = begun_held;
    held.wait = due.wait = 0;
    held.misses = due.misses = KOSPELNA_MISSES_TWO_AFTER_ACK;
    held = held_timeouts(kospelna_receiver_hold(held).next, 12);
    due.holds = 12;
    must(same_receiver(held, due), "the receiver after twelve timeouts while held");
    held = kospelna_receiver_hold(kospelna_receiver_resume(held).next).next;
    held = held_timeouts(held, KOSPELNA_HELD_TIMEOUTS_MAX - 12);
    due.last = 3;
    due.holds = 20;
    must(same_receiver(held, due), "the receiver after its last timeout while held");
    held = kospelna_receiver_tick(kospelna_receiver_tick(held).next).next;
    const kospelna_receiver_answer b = kospelna_receiver_tick(held);
    must(receiver_failed(b, KOSPELNA_CAUSE_TIMEOUTS) && goes_out(b.emits, b.frame, nack(KOSPELNA_NACK_TIMEOUTS))
             && same_receiver(b.next, kospelna_receiver_make(3, 2, 20).receiver),
         "a timeout too many while held");
}

/* A sender whose last start taken is 3 takes LM_ACK 2, 1: that frame alone, from gap count 0, misses 0, and the start stays.
 * It ignores another count, a start two below, and start 0 where the last is 1. */
static void sender_held(kospelna_sender s)
{
    kospelna_sender due = s;
    due.phase = KOSPELNA_SENDER_SENDING;
    due.wait = 0;
    due.misses = 0;
    due.due = 2;
    due.last = 2;
    due.count = 0;
    kospelna_sender_answer a = kospelna_sender_hear(s, ack(2, 1));
    must(a.outcome == KOSPELNA_QUIET && !a.emits && same_sender(a.next, due), "a hold at the sender");
    must(same_sender(kospelna_sender_hear(s, ack(2, 2)).next, s) && same_sender(kospelna_sender_hear(s, ack(1, 1)).next, s)
             && same_sender(kospelna_sender_hear(s, ack(2, 0)).next, s),
         "an LM_ACK below the last start that is no hold's");
    s.start = 1;
    must(same_sender(kospelna_sender_hear(s, ack(0, 1)).next, s), "an LM_ACK of start 0");
}

/* In Sending and in Waiting; then the frame goes out at G, and a resume's LM_ACK, the last start again, keeps misses. */
static void sender_holds(void)
{
    const uint8_t twenty[20] = {1, 2, 3, 4, 5, 6, 7, 8, 9, 10, 11, 12, 13, 14, 15, 16, 17, 18, 19, 20};
    kospelna_sender s = {
        .gap = 2, .timeout = 5, .limit = 100, .phase = KOSPELNA_SENDER_SENDING, .length = 20, .frames = 3, .first = 1,
        .age = 8, .emitted = 5, .misses = 1, .start = 3, .due = 3, .last = 3, .count = 1};
    sender_held(s);
    kospelna_sender_answer a = kospelna_sender_hear(s, ack(2, 1));
    s.phase = KOSPELNA_SENDER_WAITING;
    s.wait = 4;
    s.due = s.count = 0;
    sender_held(s);
    a = kospelna_sender_tick(a.next, twenty, 20);
    must(!a.emits, "the gap before the frame of a hold");
    a = kospelna_sender_tick(a.next, twenty, 20);
    s.wait = s.misses = 0;
    s.last = 2;
    s.age = 10;
    s.emitted = 6;
    must(goes_out(a.emits, a.frame, second_part) && same_sender(a.next, s), "the frame of a hold");
    s.misses = 1;
    a = kospelna_sender_hear(s, ack(3, 1));
    s.phase = KOSPELNA_SENDER_SENDING;
    s.due = s.last = 3;
    must(!a.emits && same_sender(a.next, s), "a resume at the sender");
}

int main(void)
{
    hold_refusals();
    held_transfer();
    heard_while_held();
    held_too_long();
    sender_holds();
    return 0;
}
