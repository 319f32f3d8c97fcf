/* The summary over the C face, each answer worked by hand from document 02, E6. Exits 1 where an answer is not the sender's
 * own, or a count, the number sent most often or a refusal is another than it should be. */
#include "ends.h"

_Static_assert(KOSPELNA_COUNTS_LENGTH == 512, "a word for each number 0 to 255");
_Static_assert(sizeof(kospelna_count) == 4 && offsetof(kospelna_count, refusal) == 0 && offsetof(kospelna_count, number) == 1
                   && offsetof(kospelna_count, count) == 2,
               "the layout of a count");

/* The message of bytes 1 to 20, so N 3; its first information frame is that of ends.h. */
static const uint8_t twenty[20] = {1, 2, 3, 4, 5, 6, 7, 8, 9, 10, 11, 12, 13, 14, 15, 16, 17, 18, 19, 20};
static const kospelna_frame three = {.kind = KOSPELNA_KIND_INFORMATION, .bytes = {0, 3, 20, 0, 255, 255, 255, 255}};
static const kospelna_frame second_part = {.kind = KOSPELNA_KIND_INFORMATION, .bytes = {2, 8, 9, 10, 11, 12, 13, 14}};
static const kospelna_frame third_part = {.kind = KOSPELNA_KIND_INFORMATION, .bytes = {3, 15, 16, 17, 18, 19, 20, 255}};
static const kospelna_frame endofack_20 = {.kind = KOSPELNA_KIND_LM_ENDOFACK, .bytes = {3, 20, 0, 255, 255, 255, 255, 255}};
static const kospelna_frame sm_urm = {.kind = KOSPELNA_KIND_SM_URM, .bytes = {1, 2, 3, 255, 255, 255, 255, 255}};

/* The sender, the lent counts with a byte behind them, and what these should be. */
static kospelna_sender sender;
static uint8_t counts[KOSPELNA_COUNTS_LENGTH + 1], due[KOSPELNA_COUNTS_LENGTH + 1];

static void set(uint8_t *words, int number, int count)
{
    words[2 * number] = (uint8_t)(count % 256);
    words[2 * number + 1] = (uint8_t)(count / 256);
}

/* Every byte of the counts is this one, and so is the byte behind them. */
static void start_from(uint8_t byte)
{
    memset(counts, byte, sizeof counts);
    memset(due, byte, sizeof due);
}

/* The counts of 0 to 3 and no other; the byte behind them as it was. */
static bool counted(int of_0, int of_1, int of_2, int of_3)
{
    memset(due, 0, KOSPELNA_COUNTS_LENGTH);
    set(due, 0, of_0);
    set(due, 1, of_1);
    set(due, 2, of_2);
    set(due, 3, of_3);
    return memcmp(counts, due, sizeof due) == 0;
}

static bool same_answer(kospelna_sender_answer a, kospelna_sender_answer b)
{
    return same_sender(a.next, b.next) && a.emits == b.emits && memcmp(&a.frame, &b.frame, sizeof a.frame) == 0
        && a.outcome == b.outcome && a.refusal == b.refusal && a.cause == b.cause && a.ticks == b.ticks
        && a.frames == b.frames;
}

/* Each call answers as the sender's own does; the sender goes on from there. */
static kospelna_sender_answer goes_on(kospelna_sender_answer a, kospelna_sender_answer plain)
{
    must(same_answer(a, plain), "an answer that is not the sender's own");
    sender = a.next;
    return a;
}

static kospelna_sender_answer begin(const uint8_t *message, size_t length)
{
    return goes_on(kospelna_summary_begin(sender, message, length, counts, KOSPELNA_COUNTS_LENGTH),
                   kospelna_sender_begin(sender, message, length));
}

static kospelna_sender_answer tick(const uint8_t *message, size_t length)
{
    return goes_on(kospelna_summary_tick(sender, message, length, counts, KOSPELNA_COUNTS_LENGTH),
                   kospelna_sender_tick(sender, message, length));
}

static kospelna_sender_answer hear(kospelna_frame frame)
{
    return goes_on(kospelna_summary_hear(sender, frame, counts, KOSPELNA_COUNTS_LENGTH), kospelna_sender_hear(sender, frame));
}

static kospelna_sender_answer post(const uint8_t *message, size_t length)
{
    return goes_on(kospelna_summary_post(sender, message, length, counts, KOSPELNA_COUNTS_LENGTH),
                   kospelna_sender_post(sender, message, length));
}

static bool is_count(kospelna_count c, int number, int count)
{
    return c.refusal == 0 && c.number == number && c.count == count;
}

static bool names(int number, int count)
{
    return is_count(kospelna_summary_most(counts, KOSPELNA_COUNTS_LENGTH), number, count);
}

static int count_of(int number)
{
    const kospelna_count c = kospelna_summary_count((uint8_t)number, counts, KOSPELNA_COUNTS_LENGTH);
    must(c.refusal == 0 && c.number == number, "a count of another number");
    return c.count;
}

/* T is 3, G is 1. The begin clears what stood there; frame 0 goes out again at tick 3, frame 2 at tick 8 and, as LM_ACK 2, 2
 * asks for it, at tick 9. */
static void long_transfer(void)
{
    start_from(0xAA);
    sender = kospelna_sender_make(1, 3, 100).sender;
    kospelna_sender_answer a = begin(twenty, 20);
    must(goes_out(a.emits, a.frame, three) && counted(1, 0, 0, 0), "the begin of a long transfer");
    must(!tick(twenty, 20).emits && !tick(twenty, 20).emits && counted(1, 0, 0, 0), "ticks without a frame in Opening");
    a = tick(twenty, 20);
    must(goes_out(a.emits, a.frame, three) && counted(2, 0, 0, 0), "the announcement again");
    must(!hear(lm_ack).emits && counted(2, 0, 0, 0), "an LM_ACK");
    a = tick(twenty, 20);
    must(goes_out(a.emits, a.frame, first_part) && counted(2, 1, 0, 0), "information 1");
    a = tick(twenty, 20);
    must(goes_out(a.emits, a.frame, second_part) && counted(2, 1, 1, 0), "information 2");
    must(!tick(twenty, 20).emits && !tick(twenty, 20).emits && counted(2, 1, 1, 0), "ticks without a frame in Waiting");
    a = tick(twenty, 20);
    must(goes_out(a.emits, a.frame, second_part) && counted(2, 1, 2, 0), "information 2 at a timeout");
    must(!hear(ack(2, 2)).emits && counted(2, 1, 2, 0), "an LM_ACK that asks again");
    a = tick(twenty, 20);
    must(goes_out(a.emits, a.frame, second_part) && counted(2, 1, 3, 0), "information 2 asked for again");
    a = tick(twenty, 20);
    must(goes_out(a.emits, a.frame, third_part) && counted(2, 1, 3, 1), "information 3");
    a = hear(endofack_20);
    must(a.outcome == KOSPELNA_SENT && a.ticks == 10 && a.frames == 2 + 1 + 3 + 1 && counted(2, 1, 3, 1), "the report");
    must(names(2, 3), "the number sent most often");
    must(count_of(0) == 2 && count_of(1) == 1 && count_of(2) == 3 && count_of(3) == 1 && count_of(4) == 0
             && count_of(255) == 0,
         "the counts as they are read");
    must(!tick(twenty, 7).emits && counted(2, 1, 3, 1), "an Idle tick");
}

/* The next begin, long or short, clears what the last transfer left. A short transfer adds nothing, neither at its begin nor
 * where SM_RM goes out again. */
static void next_transfers(void)
{
    kospelna_sender_answer a = begin(twenty, 9);
    must(goes_out(a.emits, a.frame, announcement) && counted(1, 0, 0, 0) && names(0, 1), "the next begin");
    a = hear(nack(KOSPELNA_NACK_NO_SPACE));
    must(a.outcome == KOSPELNA_FAILED && a.frames == 1 && counted(1, 0, 0, 0), "a NACK heard");
    a = begin(twenty, 3);
    must(goes_out(a.emits, a.frame, sm_rm) && counted(0, 0, 0, 0) && names(0, 0), "the begin of a short transfer");
    must(!tick(twenty, 3).emits && !tick(twenty, 3).emits, "ticks without a frame in Short");
    a = tick(twenty, 3);
    must(goes_out(a.emits, a.frame, sm_rm) && counted(0, 0, 0, 0), "SM_RM again");
    a = hear(sm_ack);
    must(a.outcome == KOSPELNA_SENT && a.frames == 2 && counted(0, 0, 0, 0) && names(0, 0), "the report of a short transfer");
}

/* A NACK that goes out is one of the report's frames, and is not counted: M 2; T 1 and silence; a start above N. */
static void failures(void)
{
    sender = kospelna_sender_make(1, 10, 2).sender;
    begin(twenty, 9);
    tick(twenty, 9);
    kospelna_sender_answer a = tick(twenty, 9);
    must(goes_out(a.emits, a.frame, nack(KOSPELNA_NACK_SENDING_TIME)) && a.frames == 2 && counted(1, 0, 0, 0),
         "the sending time is over");
    sender = kospelna_sender_make(1, 1, 100).sender;
    begin(twenty, 9);
    tick(twenty, 9);
    tick(twenty, 9);
    a = tick(twenty, 9);
    must(goes_out(a.emits, a.frame, nack(KOSPELNA_NACK_TIMEOUTS)) && a.frames == 4 && counted(3, 0, 0, 0),
         "three timeouts");
    begin(twenty, 9);
    a = hear(ack(3, 2));
    must(goes_out(a.emits, a.frame, nack(KOSPELNA_NACK_FRAME_NUMBER)) && a.frames == 2 && counted(1, 0, 0, 0),
         "a start above N");
}

static bool refuses_with(kospelna_sender_answer a, int number, kospelna_sender left)
{
    static const kospelna_frame no_frame;
    return a.outcome == KOSPELNA_REFUSED && a.refusal == number && !a.emits && a.cause == 0 && a.ticks == 0 && a.frames == 0
        && memcmp(&a.frame, &no_frame, sizeof no_frame) == 0 && same_sender(a.next, left)
        && memcmp(counts, due, sizeof due) == 0;
}

/* With the right length each call is refused as the sender's own, and changes no count. */
static void refusals(kospelna_sender idle, kospelna_sender busy)
{
    static const uint8_t longest[KOSPELNA_MESSAGE_MAX + 1];
    const kospelna_frame dirty = {.kind = KOSPELNA_KIND_SM_ACK, .bytes = {1, 2, 255, 255, 255, 255, 255, 255}};
    start_from(0xAA);
    sender = busy;
    must(refuses_with(begin(twenty, 0), KOSPELNA_REFUSAL_BUSY, busy), "3 before 2");
    must(refuses_with(begin(twenty, 20), KOSPELNA_REFUSAL_BUSY, busy), "a begin refused 3");
    must(refuses_with(tick(twenty, 19), KOSPELNA_REFUSAL_OTHER_MESSAGE, busy), "a tick refused 4");
    must(refuses_with(hear(dirty), KOSPELNA_REFUSAL_FRAME, busy), "a hearing refused 6");
    must(refuses_with(hear(first_part), KOSPELNA_REFUSAL_OTHER_END, busy), "a hearing refused 7");
    must(refuses_with(post(twenty, 0), KOSPELNA_REFUSAL_LENGTH, busy), "a post of nothing");
    must(refuses_with(post(twenty, 9), KOSPELNA_REFUSAL_LENGTH, busy), "a post that is too long");
    sender = idle;
    must(refuses_with(begin(twenty, 0), KOSPELNA_REFUSAL_LENGTH, idle), "a begin of nothing");
    must(refuses_with(begin(longest, sizeof longest), KOSPELNA_REFUSAL_LENGTH, idle), "a begin that is too long");
}

/* With another length 5 goes before all else: 3, 2, 4, 6, 7, and where nothing else is wrong. */
static void other_lengths(kospelna_sender idle, kospelna_sender busy, size_t lent)
{
    const kospelna_frame unknown = {.kind = 9};
    const int five = KOSPELNA_REFUSAL_BUFFER;
    start_from(0xAA);
    must(refuses_with(kospelna_summary_begin(busy, twenty, 0, counts, lent), five, busy), "5 before 3");
    must(refuses_with(kospelna_summary_begin(idle, twenty, 0, counts, lent), five, idle), "5 before 2");
    must(refuses_with(kospelna_summary_begin(idle, twenty, 20, counts, lent), five, idle), "5 at a long begin");
    must(refuses_with(kospelna_summary_begin(idle, twenty, 3, counts, lent), five, idle), "5 at a short begin");
    must(refuses_with(kospelna_summary_tick(busy, twenty, 19, counts, lent), five, busy), "5 before 4");
    must(refuses_with(kospelna_summary_tick(busy, twenty, 20, counts, lent), five, busy), "5 at a tick");
    must(refuses_with(kospelna_summary_tick(idle, twenty, 20, counts, lent), five, idle), "5 at an Idle tick");
    must(refuses_with(kospelna_summary_hear(busy, unknown, counts, lent), five, busy), "5 before 6");
    must(refuses_with(kospelna_summary_hear(busy, first_part, counts, lent), five, busy), "5 before 7");
    must(refuses_with(kospelna_summary_hear(busy, lm_ack, counts, lent), five, busy), "5 at a hearing");
    must(refuses_with(kospelna_summary_post(busy, twenty, 0, counts, lent), five, busy), "5 before a post's 2");
    must(refuses_with(kospelna_summary_post(idle, twenty, 3, counts, lent), five, idle), "5 at a post");
    const kospelna_count c = kospelna_summary_count(1, counts, lent), most = kospelna_summary_most(counts, lent);
    must(c.refusal == five && c.number == 0 && c.count == 0, "5 at reading a count");
    must(most.refusal == five && most.number == 0 && most.count == 0, "5 at the number sent most often");
}

/* T is 1, so that the refused tick would have sent a frame. A post changes nothing and is not counted. */
static void refused_calls(void)
{
    const kospelna_sender idle = kospelna_sender_make(1, 1, 100).sender;
    const kospelna_sender busy = kospelna_sender_begin(idle, twenty, 20).next;
    refusals(idle, busy);
    other_lengths(idle, busy, KOSPELNA_COUNTS_LENGTH - 1);
    other_lengths(idle, busy, KOSPELNA_COUNTS_LENGTH + 1);
    other_lengths(idle, busy, 0);
    sender = busy;
    const kospelna_sender_answer a = post(twenty, 3);
    must(goes_out(a.emits, a.frame, sm_urm) && same_sender(a.next, busy) && memcmp(counts, due, sizeof due) == 0, "a post");
}

/* Counts that a caller has written. A tick of a sender that sends frame 1 adds to that count alone: 255 becomes 256, over both
 * bytes, and 65535 stays. */
static void written_counts(int before, int after)
{
    sender = kospelna_sender_begin(kospelna_sender_make(1, 3, 100).sender, twenty, 20).next;
    sender = kospelna_sender_hear(sender, lm_ack).next;
    start_from(0xFF);
    set(counts, 1, before);
    set(due, 1, after);
    must(tick(twenty, 20).emits && memcmp(counts, due, sizeof due) == 0 && count_of(1) == after, "a count that was written");
}

/* The last number of all: LM_ACK 255, 1 asks for frame 255 of 1785 bytes, whose count is in the last two bytes. */
static void last_number(void)
{
    static const uint8_t longest[KOSPELNA_MESSAGE_MAX];
    sender = kospelna_sender_make(1, 3, 100).sender;
    begin(longest, sizeof longest);
    hear(ack(1, 1));
    hear(ack(255, 1));
    start_from(0);
    set(due, 255, 1);
    must(tick(longest, sizeof longest).emits && memcmp(counts, due, sizeof due) == 0, "information 255");
    must(count_of(255) == 1 && count_of(254) == 0 && names(255, 1), "the count of 255");
}

/* Whether, with these two counts and all others this, the first number is named. */
static bool of_two(int number, int count, int other, int count_of_other, int rest)
{
    start_from((uint8_t)rest);
    set(counts, number, count);
    set(counts, other, count_of_other);
    return names(number, count);
}

/* Of equals the lowest is named, also 0 itself; one more at a later number is enough, wherever it is. */
static void most_often(void)
{
    start_from(0);
    must(names(0, 0), "no count at all");
    start_from(0xAA);
    must(names(0, 0xAAAA), "all counts alike");
    start_from(0xFF);
    must(names(0, 65535), "all counts the greatest");
    must(of_two(0, 7, 1, 7, 0) && of_two(0, 7, 255, 7, 0) && of_two(127, 7, 128, 7, 0) && of_two(254, 7, 255, 7, 0)
             && of_two(1, 7, 255, 7, 0),
         "the lowest of two equals");
    must(of_two(1, 8, 0, 7, 0) && of_two(128, 8, 127, 7, 0) && of_two(255, 8, 254, 7, 0) && of_two(255, 8, 0, 7, 0),
         "a later number sent once more");
    must(of_two(127, 8, 128, 7, 0) && of_two(254, 65535, 255, 65534, 0), "an earlier number sent once more");
    /* 256 is 00 01 and 255 is FF 00: neither the low bytes nor the bytes turned round tell which is more. */
    must(of_two(4, 256, 3, 255, 0) && of_two(3, 256, 4, 255, 0) && of_two(9, 258, 8, 257, 1), "counts of two bytes");
}

int main(void)
{
    long_transfer();
    next_transfers();
    failures();
    refused_calls();
    written_counts(0, 1);
    written_counts(255, 256);
    written_counts(65534, 65535);
    written_counts(65535, 65535);
    last_number();
    most_often();
    return 0;
}
