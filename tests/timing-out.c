/* Timeouts by their type over the C face, each answer worked by hand from document 02, E4. Exits 1 where a frame, a state, a
 * failure or a refusal is another than it should be. */
#include "ends.h"

/* The message of 34 bytes, all 0: N 5, and in frame 5 d7 is behind the message. The receiver has T 3, C 3, K 34. */
static const kospelna_frame five = {.kind = KOSPELNA_KIND_INFORMATION, .bytes = {0, 5, 34, 0, 255, 255, 255, 255}};

/* A frame of zeros; as frame 5 it is unclean. */
static kospelna_frame zeros(uint8_t number)
{
    return (kospelna_frame){.kind = KOSPELNA_KIND_INFORMATION, .bytes = {number, 0, 0, 0, 0, 0, 0, 0}};
}

/* The receiver with so much behind it, a tick before T. */
static kospelna_receiver waiting(uint8_t expected, uint8_t last, uint8_t misses, bool held)
{
    return (kospelna_receiver){
        .timeout = 3, .window = 3, .capacity = 34, .phase = KOSPELNA_RECEIVER_OPEN, .frames = 5, .length = 34,
        .expected = expected, .last = last, .misses = misses, .wait = 2, .held = held};
}

static bool gives_up(kospelna_receiver_answer b)
{
    return receiver_failed(b, KOSPELNA_CAUSE_TIMEOUTS) && goes_out(b.emits, b.frame, nack(KOSPELNA_NACK_TIMEOUTS))
        && same_receiver(b.next, kospelna_receiver_make(3, 3, 34).receiver);
}

/* What becomes of each number at a timeout, where it does not fail, and at the LM_ACK of a hold, of a resume or of a timeout
 * while held. */
enum { FAILS = 255 };
static const struct row {
    uint8_t before, timeout, acknowledged;
} rows[] = {
    {KOSPELNA_MISSES_NONE_AFTER_ACK, KOSPELNA_MISSES_ONE_AFTER_ACK, KOSPELNA_MISSES_NONE_AFTER_ACK},
    {KOSPELNA_MISSES_ONE_AFTER_ACK, KOSPELNA_MISSES_TWO_AFTER_ACK, KOSPELNA_MISSES_ONE_AFTER_ACK},
    {KOSPELNA_MISSES_TWO_AFTER_ACK, FAILS, KOSPELNA_MISSES_TWO_AFTER_ACK},
    {KOSPELNA_MISSES_NONE_AFTER_FRAME, KOSPELNA_MISSES_ONE_AFTER_FRAME, KOSPELNA_MISSES_NONE_AFTER_ACK},
    {KOSPELNA_MISSES_ONE_AFTER_FRAME, KOSPELNA_MISSES_ONE_AFTER_ACK, KOSPELNA_MISSES_ONE_AFTER_FRAME},
};

/* Ticks: e is 2, so that a timeout asks for frames 2 to 4 and a held one for frame 1. */
static void ticks(struct row row)
{
    kospelna_receiver open = waiting(2, 3, row.before, false), due = waiting(2, 4, row.timeout, false);
    due.wait = 0;
    kospelna_receiver_answer b = kospelna_receiver_tick(open);
    must(row.timeout == FAILS ? gives_up(b) : asks(b, ack(2, 3), due), "a timeout");
    open.held = true;
    due = waiting(2, 3, row.acknowledged, true);
    due.wait = 0;
    due.holds = 1;
    must(asks(kospelna_receiver_tick(open), ack(1, 1), due), "a timeout while held");
    for (int held = 0; held < 2; held++) {
        due = open = waiting(2, 3, row.before, held);
        open.wait = 1;
        must(ignores(kospelna_receiver_tick(open), due), "a tick before T");
    }
}

/* Hold and resume, taken and refused. */
static void holds(struct row row)
{
    const kospelna_receiver open = waiting(2, 3, row.before, false), held = waiting(2, 3, row.before, true);
    must(asks(kospelna_receiver_hold(open), ack(1, 1), waiting(2, 3, row.acknowledged, true)), "a hold");
    must(asks(kospelna_receiver_resume(held), ack(2, 3), waiting(2, 4, row.acknowledged, false)), "a resume");
    must(refuses(kospelna_receiver_hold(held), KOSPELNA_REFUSAL_HOLD, held), "a second hold");
    must(refuses(kospelna_receiver_resume(open), KOSPELNA_REFUSAL_HOLD, open), "a resume where none is held");
}

/* The frame expected: inside a window it is waited after, at the window's end its LM_ACK is. */
static void accepted(struct row row)
{
    kospelna_receiver due = waiting(3, 3, KOSPELNA_MISSES_NONE_AFTER_FRAME, false);
    due.wait = 0;
    must(ignores(hears(waiting(2, 3, row.before, false), zeros(2)), due), "a frame inside a window");
    due = waiting(4, 5, KOSPELNA_MISSES_NONE_AFTER_ACK, false);
    due.wait = 0;
    must(asks(hears(waiting(3, 3, row.before, false), zeros(3)), ack(4, 2), due), "a frame at the window's end");
}

/* What leaves all of it: frames that are not expected, every information frame while held, an unclean frame, a frame that is
 * refused, short messages. */
static void left(struct row row)
{
    const kospelna_receiver open = waiting(2, 3, row.before, false), held = waiting(2, 3, row.before, true);
    const kospelna_receiver last = waiting(5, 5, row.before, false);
    must(ignores(hears(open, zeros(1)), open) && ignores(hears(open, zeros(3)), open) && ignores(hears(open, five), open),
         "a frame that is not expected");
    must(ignores(hears(held, zeros(2)), held) && ignores(hears(held, five), held), "a frame while held");
    must(refuses(hears(last, zeros(5)), KOSPELNA_REFUSAL_FILLER, last), "an unclean frame");
    must(refuses(hears(open, lm_ack), KOSPELNA_REFUSAL_OTHER_END, open), "a frame for the other end");
    const kospelna_receiver_answer b = hears(open, sm_rm);
    must(b.outcome == KOSPELNA_DELIVERED_SHORT && goes_out(b.emits, b.frame, sm_ack) && same_receiver(b.next, open),
         "a short message");
}

/* The announcement again, before frame 1: its LM_ACK leaves none, one and two timeouts after the one before. */
static void announced_again(void)
{
    for (uint8_t misses = KOSPELNA_MISSES_NONE_AFTER_ACK; misses <= KOSPELNA_MISSES_TWO_AFTER_ACK; misses++) {
        const kospelna_receiver open = waiting(1, 3, misses, false);
        must(asks(hears(open, five), ack(1, 3), open), "the announcement again");
    }
}

/* Every other number is read as NONE_AFTER_ACK, and written so. */
static void others(void)
{
    for (int number = KOSPELNA_MISSES_ONE_AFTER_FRAME + 1; number < 256; number++) {
        const kospelna_receiver open = waiting(2, 3, (uint8_t)number, false);
        const kospelna_receiver none = waiting(2, 3, KOSPELNA_MISSES_NONE_AFTER_ACK, false);
        kospelna_receiver before = open, due = waiting(2, 4, KOSPELNA_MISSES_ONE_AFTER_ACK, false);
        before.wait = 1;
        due.wait = 0;
        must(ignores(kospelna_receiver_tick(before), none), "a tick with another number");
        must(asks(kospelna_receiver_tick(open), ack(2, 3), due), "a timeout with another number");
        must(ignores(hears(open, zeros(1)), none), "a frame with another number");
        must(refuses(kospelna_receiver_resume(open), KOSPELNA_REFUSAL_HOLD, none), "a refusal with another number");
        must(kospelna_receiver_hold(open).next.misses == KOSPELNA_MISSES_NONE_AFTER_ACK, "a hold with another number");
    }
}

/* A number that is left where no connection is open is not read: an opening starts at NONE_AFTER_ACK. */
static void left_over(void)
{
    kospelna_receiver idle = kospelna_receiver_make(3, 3, 34).receiver;
    kospelna_receiver due = waiting(1, 3, KOSPELNA_MISSES_NONE_AFTER_ACK, false);
    due.wait = 0;
    for (int number = 0; number < 256; number++) {
        idle.misses = (uint8_t)number;
        must(asks(hears(idle, five), ack(1, 3), due), "an opening with a number left over");
    }
}

/* The receiver just after the opening, and after so many frames of zeros more. */
static kospelna_receiver opened(uint8_t frames)
{
    kospelna_receiver_answer b = hears(kospelna_receiver_make(3, 3, 34).receiver, five);
    must(goes_out(b.emits, b.frame, ack(1, 3)) && b.next.misses == KOSPELNA_MISSES_NONE_AFTER_ACK, "an opening");
    for (uint8_t i = 1; i <= frames; i++)
        b = hears(b.next, zeros(i));
    return b.next;
}

/* Nothing is heard: two ticks that only wait and one timeout, over and over. These numbers stand after the timeouts, and the
 * one after them fails. Each asks for three frames from e on, or for those that are left. */
static void silence(kospelna_receiver open, const uint8_t *misses, int count, const char *what)
{
    kospelna_receiver due = open;
    kospelna_receiver_answer b = {.next = open};
    due.last = open.expected + 2 < 5 ? open.expected + 2 : 5;
    for (int i = 0; i < count; i++) {
        b = kospelna_receiver_tick(kospelna_receiver_tick(b.next).next);
        must(b.outcome == KOSPELNA_QUIET && !b.emits && b.next.wait == 2, what);
        b = kospelna_receiver_tick(b.next);
        due.misses = misses[i];
        must(asks(b, ack(due.expected, due.last - due.expected + 1), due), what);
    }
    must(gives_up(kospelna_receiver_tick(kospelna_receiver_tick(kospelna_receiver_tick(b.next).next).next)), what);
}

/* So many timeouts while held, and a resume. */
static kospelna_receiver held_for(kospelna_receiver open, int timeouts)
{
    kospelna_receiver_answer b = kospelna_receiver_hold(open);
    for (int tick = 0; tick < 3 * timeouts; tick++)
        b = kospelna_receiver_tick(b.next);
    must(b.next.held && b.next.holds == timeouts && b.next.wait == open.wait, "the timeouts of a hold");
    return kospelna_receiver_resume(b.next).next;
}

/* Silences after each thing that sets the type. A gap inside a window costs four timeouts, every other three. */
static void silences(void)
{
    static const uint8_t after_ack[] = {KOSPELNA_MISSES_ONE_AFTER_ACK, KOSPELNA_MISSES_TWO_AFTER_ACK};
    static const uint8_t after_frame[] = {
        KOSPELNA_MISSES_ONE_AFTER_FRAME, KOSPELNA_MISSES_ONE_AFTER_ACK, KOSPELNA_MISSES_TWO_AFTER_ACK};
    silence(opened(0), after_ack, 2, "silence after the opening");
    silence(opened(1), after_frame, 3, "silence after frame 1 of the window");
    silence(opened(2), after_frame, 3, "silence after frame 2 of the window");
    silence(opened(3), after_ack, 2, "silence after a window's last frame");
    silence(opened(4), after_frame, 3, "silence after frame 1 of the second window");
    silence(held_for(opened(1), 0), after_ack, 2, "silence after a hold and a resume");
    silence(held_for(opened(1), 2), after_ack, 2, "silence after a hold for two timeouts");
    silence(held_for(opened(3), 2), after_ack, 2, "silence after a hold at the window's end");
}

/* A hold after so many timeouts inside a window, which its two timeouts neither add to nor begin anew. */
static void silences_with_a_hold(void)
{
    static const uint8_t rest[] = {KOSPELNA_MISSES_ONE_AFTER_ACK, KOSPELNA_MISSES_TWO_AFTER_ACK};
    kospelna_receiver open = opened(1);
    for (int timeouts = 1; timeouts <= 3; timeouts++) {
        open = kospelna_receiver_tick(kospelna_receiver_tick(kospelna_receiver_tick(open).next).next).next;
        silence(held_for(open, 2), rest + timeouts - 1, 3 - timeouts, "silence with a hold in it");
    }
}

/* So many ticks, none of which has a report. */
static kospelna_receiver waits(kospelna_receiver open, int count, int *ticks)
{
    for (int i = 0; i < count; i++) {
        const kospelna_receiver_answer b = kospelna_receiver_tick(open);
        must(b.outcome == KOSPELNA_QUIET, "a connection that is not over");
        open = b.next;
        ++*ticks;
    }
    return open;
}

/* The longest connections. Frame 1 comes a tick before the third timeout, T = 3: after 8 ticks; frames 2, 3 and 4 a tick before
 * the fourth, 11 ticks each; frame 5 never, 12 ticks: 8 + 33 + 12 = 53. All are inside windows, since each timeout asks for a
 * whole one. A hold before the last tick, with 20 timeouts of 3 ticks: 113, and the 21st fails. */
static void longest(bool held, int ticks_in_all)
{
    int ticks = 0;
    kospelna_receiver open = waits(opened(0), 8, &ticks);
    for (uint8_t number = 1; number <= 4; number++) {
        open = hears(open, zeros(number)).next;
        must(open.misses == KOSPELNA_MISSES_NONE_AFTER_FRAME, "a frame inside a window of a timeout");
        open = waits(open, 11, &ticks);
        must(open.wait == 2 && open.misses == KOSPELNA_MISSES_TWO_AFTER_ACK, "a tick before the fourth timeout");
    }
    if (held)
        open = waits(kospelna_receiver_hold(open).next, 3 * KOSPELNA_HELD_TIMEOUTS_MAX, &ticks);
    must(gives_up(kospelna_receiver_tick(open)) && ticks + 1 == ticks_in_all, "the longest connection");
}

int main(void)
{
    for (size_t i = 0; i < sizeof rows / sizeof rows[0]; i++) {
        ticks(rows[i]);
        holds(rows[i]);
        accepted(rows[i]);
        left(rows[i]);
    }
    announced_again();
    others();
    left_over();
    silences();
    silences_with_a_hold();
    longest(false, 53);
    longest(true, 113);
    return 0;
}
