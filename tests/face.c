/* Plays document 01's example over the C face: both ends, and the line as two lists of its own. Prints its seven lines,
 * which .ci/face compares with the sample's. Exits 1 where a state, a frame, the buffer, a limit, a failure, a refusal or
 * a clean figure is another than it should be. */
#include "ends.h"

enum { PLACES = 16 };

static void print_frame(int event, char end, kospelna_frame f)
{
    const uint8_t *d = f.bytes;
    printf("%d %c %d %02X %02X %02X %02X %02X %02X %02X %02X\n", event, end, f.kind, d[0], d[1], d[2], d[3], d[4],
           d[5], d[6], d[7]);
}

/* A direction of the line: frames join at the end, and the first is taken away. */
struct queue {
    kospelna_frame frames[PLACES];
    int first, end;
};
static struct queue forward, back;

static void join(struct queue *q, kospelna_frame f)
{
    must(q->end < PLACES, "the line is full");
    q->frames[q->end++] = f;
}

static kospelna_frame take(struct queue *q)
{
    must(q->first < q->end, "the line is empty");
    return q->frames[q->first++];
}

static kospelna_sender sender;
static kospelna_receiver receiver;
static const uint8_t message[9] = {1, 2, 3, 4, 5, 6, 7, 8, 9};

static void sender_did(int event, kospelna_sender_answer a)
{
    sender = a.next;
    if (a.emits) {
        print_frame(event, 'S', a.frame);
        join(&forward, a.frame);
    }
    if (a.outcome == KOSPELNA_SENT)
        printf("%d S sent %d %d\n", event, a.ticks, a.frames);
    else
        must(a.outcome == KOSPELNA_QUIET, "the sender refused or failed");
}

static void receiver_did(int event, kospelna_receiver_answer a)
{
    receiver = a.next;
    if (a.emits) {
        print_frame(event, 'R', a.frame);
        join(&back, a.frame);
    }
    if (a.outcome == KOSPELNA_DELIVERED)
        printf("%d R delivered %d\n", event, a.length);
    else
        must(a.outcome == KOSPELNA_QUIET, "the receiver refused or failed");
}

static void play(int event, int what)
{
    switch (what) {
    case 1:
        sender_did(event, kospelna_sender_tick(sender, message, sizeof message));
        break;
    case 3:
        receiver_did(event, kospelna_receiver_hear(receiver, take(&forward), buffer, sizeof buffer));
        break;
    case 6:
        sender_did(event, kospelna_sender_hear(sender, take(&back)));
        break;
    default:
        must(false, "an event that the example has not");
    }
}

/* Both ends after the begin and the announcement's hearing, by the names of their fields. */
static void opened(void)
{
    const kospelna_sender s = sender;
    must(s.gap == 1 && s.timeout == 10 && s.limit == 100 && s.phase == KOSPELNA_SENDER_OPENING && s.length == 9
             && s.frames == 2 && s.first == 1 && s.age == 0 && s.emitted == 1,
         "the sender after begin");
    const kospelna_receiver r = kospelna_receiver_tick(receiver).next;
    must(r.timeout == 10 && r.window == 2 && r.capacity == KOSPELNA_CAPACITY_MAX && r.phase == KOSPELNA_RECEIVER_OPEN
             && r.frames == 2 && r.length == 9 && r.expected == 1 && r.last == 2 && r.wait == 1
             && r.misses == KOSPELNA_MISSES_NONE_AFTER_ACK && !r.held && r.holds == 0,
         "the receiver after the announcement and a tick");
}

static void example(void)
{
    static const int events[] = {3, 6, 1, 3, 1, 3, 6};
    kospelna_sender_made s = kospelna_sender_make(1, 10, 100);
    kospelna_receiver_made r = kospelna_receiver_make(10, 2, KOSPELNA_CAPACITY_MAX);
    must(s.refusal == 0 && r.refusal == 0, "an end was not made");
    sender = s.sender;
    receiver = r.receiver;
    memset(buffer, 0xAA, sizeof buffer);
    sender_did(0, kospelna_sender_begin(sender, message, sizeof message));
    for (int i = 0; i < 7; i++) {
        play(i + 1, events[i]);
        if (i == 0)
            opened();
    }
    must(same_sender(sender, s.sender), "the sender is not idle again");
    const kospelna_receiver done = {
        .timeout = 10, .window = 2, .capacity = KOSPELNA_CAPACITY_MAX, .phase = KOSPELNA_RECEIVER_DONE, .frames = 2,
        .length = 9};
    must(same_receiver(receiver, done), "the receiver does not remember its delivery");
    must(memcmp(buffer, message, sizeof message) == 0, "the delivery is another");
    for (size_t i = sizeof message; i < sizeof buffer; i++)
        must(buffer[i] == 0xAA, "the rest of the buffer has changed");
}

/* An ignored frame leaves every field that the phase has, and 0 in every other, each in its place. */
static void places(void)
{
    const kospelna_frame old = {.kind = KOSPELNA_KIND_INFORMATION, .bytes = {200, 0, 0, 0, 0, 0, 0, 0}};
    kospelna_sender s = {
        .gap = 257, .timeout = 258, .limit = 259, .phase = KOSPELNA_SENDER_SENDING, .length = 260, .frames = 1, .first = 2,
        .age = 261, .emitted = 262, .wait = 263, .misses = 264, .start = 3, .due = 4, .last = 5, .count = 265};
    kospelna_sender left = s;
    left.wait = 0;
    must(same_sender(kospelna_sender_hear(s, sm_ack).next, left), "a field of Sending");
    s.phase = KOSPELNA_SENDER_WAITING;
    left = s;
    left.due = 0;
    left.count = 0;
    must(same_sender(kospelna_sender_hear(s, sm_ack).next, left), "a field of Waiting");
    s.phase = 5;
    left = (kospelna_sender){.gap = 257, .timeout = 258, .limit = 259, .phase = KOSPELNA_SENDER_IDLE};
    must(same_sender(kospelna_sender_hear(s, sm_ack).next, left), "an unknown phase of a sender");

    kospelna_receiver r = {
        .timeout = 257, .capacity = 258, .window = 7, .phase = KOSPELNA_RECEIVER_OPEN, .length = 259, .frames = 201,
        .expected = 5, .last = 6, .misses = KOSPELNA_MISSES_ONE_AFTER_FRAME, .wait = 260, .held = true, .holds = 8};
    kospelna_receiver_answer a = kospelna_receiver_hear(r, old, buffer, sizeof buffer);
    must(!a.emits && a.outcome == KOSPELNA_QUIET && same_receiver(a.next, r), "a field of Open");
    r.phase = 3;
    const kospelna_receiver idle = {.timeout = 257, .capacity = 258, .window = 7, .phase = KOSPELNA_RECEIVER_IDLE};
    must(same_receiver(kospelna_receiver_tick(r).next, idle), "an unknown phase of a receiver");
}

static void refusals(void)
{
    const kospelna_frame urm = {.kind = KOSPELNA_KIND_SM_URM, .bytes = {1, 2, 3, 255, 255, 255, 255, 255}};
    const kospelna_frame bad = {.kind = KOSPELNA_KIND_SM_ACK, .bytes = {1, 2, 255, 255, 255, 255, 255, 255}};
    kospelna_sender_answer a = kospelna_sender_begin(sender, message, 0);
    must(a.outcome == KOSPELNA_REFUSED && a.refusal == KOSPELNA_REFUSAL_LENGTH && a.cause == 0 && !a.emits,
         "length 0 is not refused 2");
    const kospelna_sender busy = kospelna_sender_begin(sender, message, 9).next;
    a = kospelna_sender_begin(busy, message, 0);
    must(a.refusal == KOSPELNA_REFUSAL_BUSY && same_sender(a.next, busy), "a second begin is not refused 3");
    a = kospelna_sender_tick(busy, message, 8);
    must(a.refusal == KOSPELNA_REFUSAL_OTHER_MESSAGE && same_sender(a.next, busy), "another length is not refused 4");
    a = kospelna_sender_hear(busy, bad);
    must(a.refusal == KOSPELNA_REFUSAL_FRAME && same_sender(a.next, busy), "dirty filler is not refused 6");
    a = kospelna_sender_hear(sender, urm);
    must(a.outcome == KOSPELNA_REFUSED && a.refusal == KOSPELNA_REFUSAL_OTHER_END, "SM_URM is not refused 7 by the sender");
    a = kospelna_sender_post(sender, message, 3);
    must(a.refusal == KOSPELNA_REFUSAL_NONE && goes_out(a.emits, a.frame, urm) && same_sender(a.next, sender), "post");

    kospelna_receiver_answer b = kospelna_receiver_hear(receiver, urm, buffer, sizeof buffer - 1);
    must(b.outcome == KOSPELNA_REFUSED && b.refusal == KOSPELNA_REFUSAL_BUFFER && b.cause == 0,
         "a buffer of 1784 is not refused 5");
    b = kospelna_receiver_hear(receiver, urm, buffer, sizeof buffer);
    must(b.outcome == KOSPELNA_DELIVERED_SHORT && b.refusal == 0 && !b.emits && memcmp(b.bytes, urm.bytes, 8) == 0,
         "a short delivery");
}

/* Each end emits the frames of a long and of a short transfer, by the names of their kinds, and takes the other's. */
static void kinds(void)
{
    const kospelna_sender idle = kospelna_sender_make(1, 10, 100).sender;
    kospelna_sender_answer a = kospelna_sender_begin(idle, message, 9);
    kospelna_receiver_answer b = hears(kospelna_receiver_make(10, 2, 9).receiver, announcement);
    must(goes_out(a.emits, a.frame, announcement), "the announcement");
    must(goes_out(b.emits, b.frame, lm_ack), "the LM_ACK");
    a = kospelna_sender_tick(kospelna_sender_hear(a.next, lm_ack).next, message, 9);
    must(goes_out(a.emits, a.frame, first_part), "the first information frame");
    a = kospelna_sender_tick(a.next, message, 9);
    must(goes_out(a.emits, a.frame, last_part), "the last information frame");
    b = hears(hears(b.next, first_part).next, last_part);
    must(goes_out(b.emits, b.frame, endofack) && b.outcome == KOSPELNA_DELIVERED && b.length == 9, "the LM_EndofACK");
    a = kospelna_sender_hear(a.next, endofack);
    must(a.outcome == KOSPELNA_SENT && a.ticks == 2 && a.frames == 3 && !a.emits, "the long transfer's report");

    a = kospelna_sender_begin(idle, message, 3);
    b = hears(b.next, sm_rm);
    must(goes_out(a.emits, a.frame, sm_rm), "the SM_RM");
    must(goes_out(b.emits, b.frame, sm_ack) && b.outcome == KOSPELNA_DELIVERED_SHORT, "the SM_ACK");
    a = kospelna_sender_hear(a.next, sm_ack);
    must(a.outcome == KOSPELNA_SENT && a.ticks == 0 && a.frames == 1 && !a.emits, "the short transfer's report");
}

static bool sender_failed(kospelna_sender_answer a, int cause, int ticks, int frames)
{
    return a.outcome == KOSPELNA_FAILED && a.refusal == 0 && a.cause == cause && a.ticks == ticks && a.frames == frames
        && a.next.phase == KOSPELNA_SENDER_IDLE;
}

/* The sender's failures: the sending time of one tick, a NACK that is heard, and by document 01's edge cases an LM_ACK that
 * starts at 3 with N 2, and silence with T 3 and M 10. */
static void sender_failures(void)
{
    const kospelna_frame above = {.kind = KOSPELNA_KIND_LM_ACK, .bytes = {3, 2, 255, 255, 255, 255, 255, 255}};
    const kospelna_sender begun = kospelna_sender_begin(kospelna_sender_make(1, 10, 1).sender, message, 9).next;
    kospelna_sender_answer a = kospelna_sender_tick(begun, message, 9);
    must(sender_failed(a, KOSPELNA_CAUSE_SENDING_TIME, 1, 2) && goes_out(a.emits, a.frame, nack(KOSPELNA_NACK_SENDING_TIME)),
         "the sending time");
    a = kospelna_sender_hear(begun, nack(KOSPELNA_NACK_NO_SPACE));
    must(sender_failed(a, KOSPELNA_CAUSE_NACK_HEARD, 0, 1) && !a.emits, "a NACK at the sender");
    a = kospelna_sender_hear(begun, above);
    must(sender_failed(a, KOSPELNA_CAUSE_FRAME_NUMBER, 0, 2) && goes_out(a.emits, a.frame, nack(KOSPELNA_NACK_FRAME_NUMBER)),
         "a start above N");
    a = kospelna_sender_begin(kospelna_sender_make(1, 3, 10).sender, message, 9);
    for (int tick = 1; tick < 9; tick++) {
        a = kospelna_sender_tick(a.next, message, 9);
        must(a.outcome == KOSPELNA_QUIET && (tick % 3 == 0 ? goes_out(a.emits, a.frame, announcement) : !a.emits),
             "the sender's timeouts");
    }
    a = kospelna_sender_tick(a.next, message, 9);
    must(sender_failed(a, KOSPELNA_CAUSE_TIMEOUTS, 9, 4) && goes_out(a.emits, a.frame, nack(KOSPELNA_NACK_TIMEOUTS)),
         "the sender's third timeout");
}

/* The receiver's failures: a NACK that is heard, frame 3 with N 2, and by document 01's edge case silence with T 3. */
static void receiver_failures(void)
{
    const kospelna_frame above = {.kind = KOSPELNA_KIND_INFORMATION, .bytes = {3, 0, 0, 0, 0, 0, 0, 0}};
    const kospelna_receiver open = hears(kospelna_receiver_make(3, 2, 9).receiver, announcement).next;
    kospelna_receiver_answer b = hears(open, nack(KOSPELNA_NACK_SENDING_TIME));
    must(receiver_failed(b, KOSPELNA_CAUSE_NACK_HEARD) && !b.emits, "a NACK at the receiver");
    b = hears(open, above);
    must(receiver_failed(b, KOSPELNA_CAUSE_FRAME_NUMBER) && goes_out(b.emits, b.frame, nack(KOSPELNA_NACK_FRAME_NUMBER)),
         "a frame above N");
    b.next = open;
    for (int tick = 1; tick < 9; tick++) {
        b = kospelna_receiver_tick(b.next);
        must(b.outcome == KOSPELNA_QUIET && (tick % 3 == 0 ? goes_out(b.emits, b.frame, lm_ack) : !b.emits),
             "the receiver's timeouts");
    }
    b = kospelna_receiver_tick(b.next);
    must(receiver_failed(b, KOSPELNA_CAUSE_TIMEOUTS) && goes_out(b.emits, b.frame, nack(KOSPELNA_NACK_TIMEOUTS)),
         "the receiver's third timeout");
}

/* An announcement that the receiver answers with a NACK changes nothing and reports nothing: N 3 does not fit L 9; L 10 is
 * above the capacity. */
static void announcements(void)
{
    const kospelna_frame unfit = {.kind = KOSPELNA_KIND_INFORMATION, .bytes = {0, 3, 9, 0, 255, 255, 255, 255}};
    const kospelna_frame ten = {.kind = KOSPELNA_KIND_INFORMATION, .bytes = {0, 2, 10, 0, 255, 255, 255, 255}};
    const kospelna_receiver idle = kospelna_receiver_make(10, 2, 9).receiver;
    kospelna_receiver_answer b = hears(idle, unfit);
    must(b.outcome == KOSPELNA_QUIET && goes_out(b.emits, b.frame, nack(KOSPELNA_NACK_ANNOUNCEMENT))
             && same_receiver(b.next, idle),
         "an announcement whose N and L do not fit");
    b = hears(idle, ten);
    must(b.outcome == KOSPELNA_QUIET && goes_out(b.emits, b.frame, nack(KOSPELNA_NACK_NO_SPACE))
             && same_receiver(b.next, idle),
         "an announcement above the capacity");
}

static bool sender_takes(int gap, int timeout, int limit)
{
    const kospelna_sender_made made = kospelna_sender_make((uint16_t)gap, (uint16_t)timeout, (uint16_t)limit);
    must(made.refusal == 0 || (made.refusal == KOSPELNA_REFUSAL_SETTING && same_sender(made.sender, (kospelna_sender){0})),
         "a sender that was refused");
    return made.refusal == 0;
}

static bool receiver_takes(int timeout, int window, int capacity)
{
    const kospelna_receiver_made made =
        kospelna_receiver_make((uint16_t)timeout, (uint16_t)window, (uint16_t)capacity);
    must(made.refusal == 0
             || (made.refusal == KOSPELNA_REFUSAL_SETTING && same_receiver(made.receiver, (kospelna_receiver){0})),
         "a receiver that was refused");
    return made.refusal == 0;
}

/* The header's limits are those that making and begin have: each is taken, and one beyond it is not. */
static void limits(void)
{
    static const uint8_t longest[KOSPELNA_MESSAGE_MAX + 1];
    must(sender_takes(KOSPELNA_GAP_MIN, KOSPELNA_TIMEOUT_MIN, KOSPELNA_SENDING_TIME_MIN)
             && sender_takes(KOSPELNA_GAP_MAX, KOSPELNA_TIMEOUT_MAX, KOSPELNA_SENDING_TIME_MAX)
             && !sender_takes(KOSPELNA_GAP_MIN - 1, 1, 1) && !sender_takes(KOSPELNA_GAP_MAX + 1, 1, 1)
             && !sender_takes(1, KOSPELNA_TIMEOUT_MIN - 1, 1) && !sender_takes(1, KOSPELNA_TIMEOUT_MAX + 1, 1)
             && !sender_takes(1, 1, KOSPELNA_SENDING_TIME_MIN - 1) && !sender_takes(1, 1, KOSPELNA_SENDING_TIME_MAX + 1),
         "a limit of the sender's settings");
    must(receiver_takes(KOSPELNA_TIMEOUT_MIN, KOSPELNA_WINDOW_MIN, KOSPELNA_CAPACITY_MIN)
             && receiver_takes(KOSPELNA_TIMEOUT_MAX, KOSPELNA_WINDOW_MAX, KOSPELNA_CAPACITY_MAX)
             && !receiver_takes(KOSPELNA_TIMEOUT_MIN - 1, 1, 9) && !receiver_takes(KOSPELNA_TIMEOUT_MAX + 1, 1, 9)
             && !receiver_takes(1, KOSPELNA_WINDOW_MIN - 1, 9) && !receiver_takes(1, KOSPELNA_WINDOW_MAX + 1, 9)
             && !receiver_takes(1, 1, KOSPELNA_CAPACITY_MIN - 1) && !receiver_takes(1, 1, KOSPELNA_CAPACITY_MAX + 1),
         "a limit of the receiver's settings");
    must(kospelna_sender_begin(sender, longest, KOSPELNA_SHORT_MAX).next.phase == KOSPELNA_SENDER_SHORT
             && kospelna_sender_begin(sender, longest, KOSPELNA_SHORT_MAX + 1).next.phase == KOSPELNA_SENDER_OPENING
             && kospelna_sender_begin(sender, longest, KOSPELNA_MESSAGE_MAX).next.frames == 255
             && kospelna_sender_begin(sender, longest, KOSPELNA_MESSAGE_MAX + 1).refusal == KOSPELNA_REFUSAL_LENGTH,
         "a limit of a message's length");
}

/* A clean session at the edge of its conditions, the receiver ticking first, of bytes 1, 2, .., 251, 1, ..: no two frames in
 * a row are alike, and none is what the buffer held. Its report, and the clean figures of its length and gap, are those of
 * document 02, E1; the message is delivered. */
static void clean_session(uint16_t length, uint16_t gap, uint16_t ticks, uint16_t frames)
{
    uint8_t counting[KOSPELNA_MESSAGE_MAX];
    for (size_t i = 0; i < sizeof counting; i++)
        counting[i] = 1 + i % 251;
    memset(buffer, 0, sizeof buffer);
    const kospelna_clean_figures figures = kospelna_clean_figures_of(length, gap);
    must(figures.refusal == 0 && figures.ticks == ticks && figures.frames == frames, "the clean figures");
    const uint16_t timeout = gap + 1, limit = ticks + 1;
    kospelna_receiver_answer b = {.next = kospelna_receiver_make(timeout, 2, length).receiver};
    kospelna_sender_answer a = kospelna_sender_begin(kospelna_sender_make(gap, timeout, limit).sender, counting, length);
    for (int tick = 0; a.outcome == KOSPELNA_QUIET && tick <= ticks; tick++) {
        if (tick > 0) {
            b = kospelna_receiver_tick(b.next);
            must(b.outcome == KOSPELNA_QUIET && !b.emits, "the receiver waits in vain");
            a = kospelna_sender_tick(a.next, counting, length);
        }
        if (a.emits)
            b = hears(b.next, a.frame);
        if (b.emits)
            a = kospelna_sender_hear(a.next, b.frame);
    }
    must(b.outcome == KOSPELNA_DELIVERED && b.length == length && memcmp(buffer, counting, length) == 0,
         "the delivery of a clean session");
    must(a.outcome == KOSPELNA_SENT && a.ticks == ticks && a.frames == frames, "the report of a clean session");
}

static bool has_no_figures(uint32_t length, uint32_t gap, int refusal)
{
    const kospelna_clean_figures figures = kospelna_clean_figures_of(length, gap);
    return figures.refusal == refusal && figures.ticks == 0 && figures.frames == 0;
}

/* N is 2, 2, 3, 255. A length or a gap is judged as it stands, the length first. */
static void clean(void)
{
    clean_session(KOSPELNA_SHORT_MAX + 1, KOSPELNA_GAP_MIN, 2, 3);
    clean_session(14, 2, 4, 3);
    clean_session(15, KOSPELNA_GAP_MAX, 30, 4);
    clean_session(KOSPELNA_MESSAGE_MAX, KOSPELNA_GAP_MIN, 255, 256);
    clean_session(KOSPELNA_MESSAGE_MAX, KOSPELNA_GAP_MAX, 2550, 256);
    must(has_no_figures(KOSPELNA_SHORT_MAX, 1, KOSPELNA_REFUSAL_LENGTH)
             && has_no_figures(KOSPELNA_MESSAGE_MAX + 1, 1, KOSPELNA_REFUSAL_LENGTH)
             && has_no_figures(65536 + 9, 1, KOSPELNA_REFUSAL_LENGTH)
             && has_no_figures(0, KOSPELNA_GAP_MIN - 1, KOSPELNA_REFUSAL_LENGTH),
         "a length without clean figures");
    must(has_no_figures(9, KOSPELNA_GAP_MIN - 1, KOSPELNA_REFUSAL_SETTING)
             && has_no_figures(9, KOSPELNA_GAP_MAX + 1, KOSPELNA_REFUSAL_SETTING)
             && has_no_figures(9, 65536 + 1, KOSPELNA_REFUSAL_SETTING),
         "a gap without clean figures");
}

int main(void)
{
    example();
    places();
    refusals();
    kinds();
    sender_failures();
    receiver_failures();
    announcements();
    limits();
    clean();
    return 0;
}
