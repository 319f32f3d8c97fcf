/* The filler of a last information frame over the C face, each answer worked by hand from document 02, E3. Exits 1 where a
 * frame, a state, the buffer, a delivery or a refusal is another than it should be. */
#include "ends.h"

/* A message: its length L, its frames N, and how many of its bytes the last frame carries. 7, 14 and 1778 bytes stand in the
 * frames before it. */
struct message {
    uint16_t length;
    uint8_t frames, carried;
};
static const struct message messages[] = {{9, 2, 2},  {10, 2, 3}, {11, 2, 4}, {12, 2, 5},     {13, 2, 6},    {14, 2, 7},
                                          {15, 3, 1}, {16, 3, 2}, {20, 3, 6}, {1784, 255, 6}, {1785, 255, 7}};
static const struct message nine = {9, 2, 2}, twenty = {20, 3, 6};

/* Bytes 1, 2, .., 100, 1, .. */
static uint8_t byte_at(size_t place)
{
    return 1 + place % 100;
}

static kospelna_frame announces(struct message m)
{
    return (kospelna_frame){
        .kind = KOSPELNA_KIND_INFORMATION, .bytes = {0, m.frames, m.length % 256, m.length / 256, 255, 255, 255, 255}};
}

static kospelna_frame part(struct message m, uint8_t number)
{
    kospelna_frame f = {.kind = KOSPELNA_KIND_INFORMATION, .bytes = {number, 255, 255, 255, 255, 255, 255, 255}};
    for (int d = 1; d <= (number == m.frames ? m.carried : 7); d++)
        f.bytes[d] = byte_at(7 * (number - 1) + d - 1);
    return f;
}

static kospelna_frame ends(struct message m)
{
    return (kospelna_frame){
        .kind = KOSPELNA_KIND_LM_ENDOFACK,
        .bytes = {m.frames, m.length % 256, m.length / 256, 255, 255, 255, 255, 255}};
}

/* The frame with another byte at one place. */
static kospelna_frame with(kospelna_frame f, int place, uint8_t byte)
{
    f.bytes[place] = byte;
    return f;
}

/* The frame from a card that writes no filler: behind the message stand the bytes of the frame before, as it held them. */
static kospelna_frame from_card(struct message m)
{
    kospelna_frame f = part(m, m.frames);
    for (int d = m.carried + 1; d <= 7; d++)
        f.bytes[d] = part(m, m.frames - 1).bytes[d];
    return f;
}

/* A receiver of T 3, whose window is the whole message, that expects this frame; the buffer had AA throughout. It waits after
 * the frame before, for which no LM_ACK went out, and with none before after the opening's LM_ACK. */
static kospelna_receiver expecting(struct message m, uint8_t number)
{
    kospelna_receiver_answer b = hears(kospelna_receiver_make(3, 255, 1785).receiver, announces(m));
    memset(buffer, 0xAA, sizeof buffer);
    for (uint8_t i = 1; i < number; i++)
        b = hears(b.next, part(m, i));
    const kospelna_receiver due = {
        .timeout = 3, .window = 255, .capacity = 1785, .phase = KOSPELNA_RECEIVER_OPEN, .frames = m.frames,
        .length = m.length, .expected = number, .last = m.frames,
        .misses = number > 1 ? KOSPELNA_MISSES_NONE_AFTER_FRAME : KOSPELNA_MISSES_NONE_AFTER_ACK};
    must(same_receiver(b.next, due), "the receiver before the last frame");
    return b.next;
}

/* The buffer has so many bytes of the message, and behind them what it had. */
static bool stored(size_t count)
{
    for (size_t i = 0; i < sizeof buffer; i++)
        if (buffer[i] != (i < count ? byte_at(i) : 0xAA))
            return false;
    return true;
}

static bool delivers(kospelna_receiver_answer b, struct message m)
{
    const kospelna_receiver done = {
        .timeout = 3, .window = 255, .capacity = 1785, .phase = KOSPELNA_RECEIVER_DONE, .frames = m.frames,
        .length = m.length};
    return b.outcome == KOSPELNA_DELIVERED && b.refusal == 0 && b.length == m.length && goes_out(b.emits, b.frame, ends(m))
        && same_receiver(b.next, done);
}

/* Frame N with any byte at any one place: refused where the place is behind the message and the byte is not 0xFF, else
 * delivered. */
static void each_byte(struct message m)
{
    const kospelna_receiver open = expecting(m, m.frames);
    const kospelna_frame last = part(m, m.frames);
    const size_t before = 7 * (m.frames - 1);
    for (int d = 1; d <= 7; d++)
        for (int byte = 0; byte < 256; byte++) {
            const kospelna_receiver_answer b = hears(open, with(last, d, (uint8_t)byte));
            if (d > m.carried && byte != 255) {
                must(refuses(b, KOSPELNA_REFUSAL_FILLER, open) && stored(before), "a byte behind the message");
                continue;
            }
            must(delivers(b, m), "a last frame with filler");
            if (d <= m.carried) {
                must(buffer[before + d - 1] == byte, "a byte of the message");
                buffer[before + d - 1] = byte_at(before + d - 1);
            }
            must(stored(m.length), "the message of a last frame with filler");
            memset(buffer + before, 0xAA, 7);
        }
}

/* A card's frame N, then the same frame filled, then both after the delivery. A full frame has no filler. */
static void card(struct message m)
{
    const kospelna_receiver open = expecting(m, m.frames);
    kospelna_receiver_answer b = hears(open, from_card(m));
    if (m.carried < 7) {
        must(refuses(b, KOSPELNA_REFUSAL_FILLER, open) && stored(7 * (m.frames - 1)), "old bytes behind the message");
        b = hears(b.next, part(m, m.frames));
    }
    must(delivers(b, m) && stored(m.length), "the delivery after old bytes");
    must(asks(hears(b.next, from_card(m)), ends(m), b.next) && asks(hears(b.next, part(m, m.frames)), ends(m), b.next)
             && stored(m.length),
         "the last frame after the delivery");
}

/* Refused frames neither restart wait nor clear misses, and set no type: with one before each tick the timeouts come at ticks
 * 3, 6, 9 and 12, the first after frame 1, the others after LM_ACKs. */
static void waits_on(void)
{
    static const uint8_t misses[] = {
        KOSPELNA_MISSES_NONE_AFTER_FRAME, KOSPELNA_MISSES_ONE_AFTER_FRAME, KOSPELNA_MISSES_ONE_AFTER_ACK,
        KOSPELNA_MISSES_TWO_AFTER_ACK};
    kospelna_receiver due = expecting(nine, 2);
    kospelna_receiver_answer b;
    for (int tick = 1; tick < 12; tick++) {
        b = hears(due, from_card(nine));
        must(refuses(b, KOSPELNA_REFUSAL_FILLER, due), "old bytes while waiting");
        b = kospelna_receiver_tick(b.next);
        due.wait = tick % 3;
        due.misses = misses[tick / 3];
        must(tick % 3 == 0 ? asks(b, ack(2, 1), due) : ignores(b, due), "a tick over refused frames");
    }
    must(delivers(hears(due, part(nine, 2)), nine) && stored(9), "the delivery after three timeouts");
    b = hears(due, from_card(nine));
    must(refuses(b, KOSPELNA_REFUSAL_FILLER, due), "old bytes before the fourth timeout");
    b = kospelna_receiver_tick(b.next);
    must(receiver_failed(b, KOSPELNA_CAUSE_TIMEOUTS) && goes_out(b.emits, b.frame, nack(KOSPELNA_NACK_TIMEOUTS)),
         "the fourth timeout over refused frames");
}

/* While held frame N is ignored, and nothing of it is judged; the resume ends that. */
static void held(void)
{
    kospelna_receiver_answer b = kospelna_receiver_hold(expecting(nine, 2));
    must(b.next.held && ignores(hears(b.next, from_card(nine)), b.next) && ignores(hears(b.next, part(nine, 2)), b.next)
             && stored(7),
         "the last frame while held");
    b = kospelna_receiver_resume(b.next);
    must(refuses(hears(b.next, from_card(nine)), KOSPELNA_REFUSAL_FILLER, b.next) && stored(7), "old bytes after a hold");
    must(delivers(hears(b.next, part(nine, 2)), nine) && stored(9), "the delivery after a hold");
}

/* Frame N before it is expected, the frame before it when N is, and with no connection open: ignored. Above N: NACK 4. */
static void other_numbers(void)
{
    const kospelna_receiver idle = kospelna_receiver_make(3, 255, 1785).receiver;
    for (uint8_t e = 1; e <= 2; e++) {
        const kospelna_receiver open = expecting(twenty, e);
        must(ignores(hears(open, from_card(twenty)), open) && stored(7 * (e - 1)), "old bytes before the frame is expected");
    }
    const kospelna_receiver open = expecting(twenty, 3);
    must(ignores(hears(open, with(from_card(twenty), 0, 2)), open) && stored(14), "old bytes in another frame");
    must(ignores(hears(idle, from_card(twenty)), idle), "old bytes with no connection open");
    const kospelna_receiver_answer b = hears(open, with(from_card(twenty), 0, 4));
    must(receiver_failed(b, KOSPELNA_CAUSE_FRAME_NUMBER) && goes_out(b.emits, b.frame, nack(KOSPELNA_NACK_FRAME_NUMBER))
             && stored(14),
         "old bytes above N");
}

/* 5, 6 and 7 are as ever where frame N is expected, and so are short messages, whose filler nobody judges. A sender takes no
 * information frame. */
static void other_refusals(void)
{
    const kospelna_receiver open = expecting(nine, 2);
    const kospelna_frame dirty = from_card(nine);
    kospelna_frame other = dirty;
    must(refuses(kospelna_receiver_hear(open, dirty, buffer, sizeof buffer - 1), KOSPELNA_REFUSAL_BUFFER, open),
         "another buffer before old bytes");
    other.kind = 0;
    must(refuses(hears(open, other), KOSPELNA_REFUSAL_FRAME, open), "kind 0");
    other.kind = 8;
    must(refuses(hears(open, other), KOSPELNA_REFUSAL_FRAME, open), "kind 8");
    other.kind = KOSPELNA_KIND_LM_ENDOFACK;
    must(refuses(hears(open, other), KOSPELNA_REFUSAL_FRAME, open), "an EndofACK with old bytes");
    must(refuses(hears(open, endofack), KOSPELNA_REFUSAL_OTHER_END, open), "an EndofACK");
    must(refuses(hears(open, with(announcement, 7, 0)), KOSPELNA_REFUSAL_FRAME, open), "an announcement with old bytes");
    other.kind = KOSPELNA_KIND_SM_RM;
    const kospelna_receiver_answer b = hears(open, other);
    must(b.outcome == KOSPELNA_DELIVERED_SHORT && memcmp(b.bytes, dirty.bytes, 8) == 0 && same_receiver(b.next, open),
         "a short message with old bytes");
    must(stored(7), "the buffer over other refusals");
    const kospelna_sender sender = kospelna_sender_make(1, 3, 10).sender;
    must(kospelna_sender_hear(sender, dirty).refusal == KOSPELNA_REFUSAL_OTHER_END, "old bytes at the sender");
}

/* States that no calls make are judged by the N and L that they have. Where L ends before frame N all of the frame is
 * behind the message, where it goes on after it nothing is. */
static void unfit(void)
{
    const struct message shorter = {9, 3, 0}, longer = {20, 2, 7};
    kospelna_receiver open = expecting(nine, 2);
    open.frames = open.expected = open.last = 3;
    for (int d = 1; d <= 7; d++)
        must(refuses(hears(open, with(part(shorter, 3), d, 0)), KOSPELNA_REFUSAL_FILLER, open),
             "a frame behind the message");
    must(delivers(hears(open, part(shorter, 3)), shorter) && stored(7), "a frame behind the message, filled");
    open.frames = open.expected = open.last = 2;
    open.length = 20;
    must(delivers(hears(open, part(longer, 2)), longer) && stored(14), "a last frame before the message's end");
}

int main(void)
{
    for (size_t i = 0; i < sizeof messages / sizeof messages[0]; i++) {
        each_byte(messages[i]);
        card(messages[i]);
    }
    waits_on();
    held();
    other_numbers();
    other_refusals();
    unfit();
    return 0;
}
