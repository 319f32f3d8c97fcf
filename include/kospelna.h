/* Kospelna for programs in C: the two transport ends of GB/T 27930 category B, version talk, parameter groups.
 * Link target/staticlib/libkospelna.a, which `.ci/staticlib` makes for x86-64, and beside it the summary's library
 * where counts are kept (below). examples/bench.c is a whole bench, examples/hold.c a transfer that is held,
 * examples/filler.c one whose last frame comes with old bytes behind the message, examples/silence.c two over a line that
 * falls silent, examples/summary.c one in which frames go out more than once, examples/versions.c two version talks.
 *
 * Every function takes every value of its parameters and is proved to answer by the rules of document 01, and of document
 * 02 as far as docs/landings/ has it (the equations stand in crates/kospelna/specs/ and crates/kospelna_summary/specs/; 001
 * is the source of version talk and groups). Nothing is kept between calls: states go in and come back by value, and may be
 * copied and kept.
 *
 * The caller's part: a pointer is not null and has as many bytes behind it as the length beside it says, also where that
 * is 0; nobody else writes these bytes during the call, and bytes that a call is lent to write overlap no others that it is
 * lent. A function writes its answer and the bytes that it is lent to write (a receiver's buffer, a summary's counts, a
 * group's eight), nothing else.
 *
 * In every answer `refusal` is 0 where the call was accepted, else a number below: then nothing goes out, the state and
 * the lent bytes are what they were, and a value in the answer is all zeros: what a refused making answers is not for use.
 * `next` is the state after the call: keep it and hand it to the next.
 */
#ifndef KOSPELNA_H
#define KOSPELNA_H

#include <stdbool.h>
#include <stddef.h>
#include <stdint.h>

#ifdef __cplusplus
extern "C" {
#endif

/* Refusals, by what is wrong. */
enum {
    KOSPELNA_REFUSAL_NONE = 0,
    KOSPELNA_REFUSAL_SETTING = 1,       /* making an end: a setting outside its limits; clean figures: the gap */
    KOSPELNA_REFUSAL_LENGTH = 2,        /* begin, post, clean figures: the message's length */
    KOSPELNA_REFUSAL_BUSY = 3,          /* begin: the sender is not Idle */
    KOSPELNA_REFUSAL_OTHER_MESSAGE = 4, /* sender tick: the lent length is not the begun one */
    KOSPELNA_REFUSAL_BUFFER = 5,        /* receiver hears: the buffer's length is not KOSPELNA_BUFFER_LENGTH; summary: the
                                           counts' is not KOSPELNA_COUNTS_LENGTH */
    KOSPELNA_REFUSAL_FRAME = 6,         /* hearing: no such kind, or filler that is not 0xFF; a last frame's is 14 */
    KOSPELNA_REFUSAL_OTHER_END = 7,     /* hearing: a kind for the other end */
    KOSPELNA_REFUSAL_IDENTIFIER = 8,    /* identifier: over 29 bits, a part over its width, EDP or DP not 0 */
    KOSPELNA_REFUSAL_GROUP = 9,         /* group: its code, the lent length or the filler */
    KOSPELNA_REFUSAL_VALUE = 10,        /* group: a value outside its range; version message: CAN type or result */
    KOSPELNA_REFUSAL_VERSIONS = 11,     /* version list, making a talker: not 1 to 8 strictly rising versions */
    KOSPELNA_REFUSAL_PACK = 12,         /* the player's run pack: no function here answers it */
    KOSPELNA_REFUSAL_HOLD = 13,         /* hold: no connection, frame 1 expected, or held already; resume: not held */
    KOSPELNA_REFUSAL_FILLER = 14        /* receiver hears: the last frame, expected, has another byte than 0xFF behind the message */
};

/* Outcomes: what a call of an end or of a talker came to. */
enum {
    KOSPELNA_QUIET = 0,           /* nothing to report */
    KOSPELNA_REFUSED = 1,         /* `refusal` says why */
    KOSPELNA_DELIVERED = 2,       /* receiver: the message is the buffer's first `length` bytes */
    KOSPELNA_FAILED = 3,          /* sender: with cause, ticks and frames; receiver: with cause; both are Idle; talker: S4 */
    KOSPELNA_DELIVERED_SHORT = 4, /* receiver: the message is the answer's `bytes`; the state stays */
    KOSPELNA_SENT = 5,            /* sender: acknowledged, with ticks and frames; it is Idle again */
    KOSPELNA_AGREED = 6,          /* talker: S2 or S3, with the version */
    KOSPELNA_LEFT = 7             /* talker: S5 */
};

/* ---- Frames ----
 *
 * kind           sent by    d0         d1        d2      d3       d4 to d7
 * 1 information  sender     0          N         L low   L high   FF              the announcement
 *                sender     i, 1 to N  message bytes 7(i-1) on, FF after the last one
 * 2 LM_ACK       receiver   start s    count c   FF                               asks for frames s to s + c - 1
 * 3 LM_NACK      either     cause      FF                                         ends a long transfer
 * 4 LM_EndofACK  receiver   N          L low     L high  FF                       all of it was delivered
 * 5 SM_RM        sender     the message, FF after it                              asks for an SM_ACK
 * 6 SM_ACK       receiver   the message's first byte, then FF
 * 7 SM_URM       sender     the message, FF after it                              posted: no answer
 *
 * L is a message's length and N its frames, L / 7 rounded up. A frame has no identifier: which one a kind has on the bus,
 * and how the frame stands in the bus's bytes, is the caller's to map, both ways.
 */
enum {
    KOSPELNA_KIND_INFORMATION = 1,
    KOSPELNA_KIND_LM_ACK = 2,
    KOSPELNA_KIND_LM_NACK = 3,
    KOSPELNA_KIND_LM_ENDOFACK = 4,
    KOSPELNA_KIND_SM_RM = 5,
    KOSPELNA_KIND_SM_ACK = 6,
    KOSPELNA_KIND_SM_URM = 7
};

/* The bytes stand first, so that they are passed in one register: name the fields where a frame is initialised. */
typedef struct kospelna_frame {
    uint8_t bytes[8]; /* d0 to d7 */
    uint8_t kind;     /* KOSPELNA_KIND_.. */
} kospelna_frame;

/* The cause in an LM_NACK, its d0. */
enum {
    KOSPELNA_NACK_NO_SPACE = 1,     /* the receiver: L is above its capacity */
    KOSPELNA_NACK_TIMEOUTS = 2,     /* the sender: three timeouts; the receiver: three of one type or one too many while held */
    KOSPELNA_NACK_SENDING_TIME = 3, /* the sender: the sending time is over */
    KOSPELNA_NACK_FRAME_NUMBER = 4, /* either: a number above N */
    KOSPELNA_NACK_ANNOUNCEMENT = 5  /* the receiver: an announcement whose N and L do not fit */
};

/* The cause in a report of failure, the answer's `cause`. From 2 on it is the cause of the LM_NACK that went out with it
 * (a short transfer's end sends none). */
enum {
    KOSPELNA_CAUSE_NACK_HEARD = 1, /* the other end's LM_NACK was heard, whatever its cause */
    KOSPELNA_CAUSE_TIMEOUTS = 2,
    KOSPELNA_CAUSE_SENDING_TIME = 3, /* the sender alone */
    KOSPELNA_CAUSE_FRAME_NUMBER = 4
};

/* Limits of settings, lengths and held timeouts. */
enum {
    KOSPELNA_GAP_MIN = 1,          KOSPELNA_GAP_MAX = 10,
    KOSPELNA_TIMEOUT_MIN = 1,      KOSPELNA_TIMEOUT_MAX = 10000,
    KOSPELNA_SENDING_TIME_MIN = 1, KOSPELNA_SENDING_TIME_MAX = 60000,
    KOSPELNA_WINDOW_MIN = 1,       KOSPELNA_WINDOW_MAX = 255,
    KOSPELNA_CAPACITY_MIN = 9,     KOSPELNA_CAPACITY_MAX = 1785,
    KOSPELNA_SHORT_MAX = 8,      /* messages of 1 to 8 bytes go short */
    KOSPELNA_MESSAGE_MAX = 1785, /* of 9 to 1785 long: 255 frames of 7 bytes */
    KOSPELNA_BUFFER_LENGTH = 1785,
    KOSPELNA_HELD_TIMEOUTS_MAX = 20 /* timeouts of one connection while it is held */
};

/* ---- The sender ----
 *
 * A tick is a call that the caller makes once in each unit of its clock, at both ends; gap, timeout and sending time are
 * counted in it. No call emits more than one frame.
 *
 * `sent` means delivered, under conditions: since the begin the receiver has delivered this message and no other, a long
 * one once, a short one at least once, if
 *   - at each begin the receiver was idle (no connection open), and no frame of an earlier transfer was on the line then, or
 *     was heard later by either end;
 *   - the line loses or repeats frames, but keeps their order and their bytes, and nothing was posted;
 *   - ticks were lent the begun message, and every hearing the same buffer, which nobody else writes.
 * Otherwise a stale SM_ACK (it names one byte) or LM_EndofACK (it names N and L) can make `sent` speak of an earlier
 * message. `failed` does not mean undelivered: the last acknowledgement may have been lost.
 */

/* The phase of a sender. Every other number is read as Idle. */
enum {
    KOSPELNA_SENDER_IDLE = 0,
    KOSPELNA_SENDER_OPENING = 1, /* the announcement is out, and no LM_ACK has been taken */
    KOSPELNA_SENDER_SENDING = 2, /* the frames of a window are going out */
    KOSPELNA_SENDER_WAITING = 3, /* the window has gone out */
    KOSPELNA_SENDER_SHORT = 4    /* SM_RM is out, and no SM_ACK has come */
};

/* A sender. Beside each field the phases that have it; in every other phase it is not read, and is written as 0. */
typedef struct kospelna_sender {
    uint16_t gap;     /* gap G in ticks: every phase */
    uint16_t timeout; /* timeout T in ticks: every phase */
    uint16_t limit;   /* sending time M in ticks: every phase */
    uint8_t phase;    /* KOSPELNA_SENDER_.. */
    uint16_t length;  /* L of the message that was begun: all but Idle */
    uint8_t frames;   /* its N; 1 in Short: all but Idle */
    uint8_t first;    /* its first byte: all but Idle */
    uint16_t age;     /* ticks since begin: all but Idle */
    uint16_t emitted; /* frames emitted since begin: all but Idle */
    uint16_t wait;    /* ticks waited: Opening, Waiting, Short */
    uint16_t misses;  /* timeouts in a row: Opening, Sending, Waiting */
    uint8_t start;    /* the last start taken from an LM_ACK; a hold's, one below it, leaves it: Sending, Waiting */
    uint8_t due;      /* the number of the frame that goes out next: Sending */
    uint8_t last;     /* the number of the window's last frame: Sending, Waiting */
    uint16_t count;   /* the gap count: Sending */
} kospelna_sender;

typedef struct kospelna_sender_made {
    uint8_t refusal;
    kospelna_sender sender; /* Idle */
} kospelna_sender_made;

typedef struct kospelna_sender_answer {
    kospelna_sender next;
    bool emits;           /* a frame goes out */
    kospelna_frame frame; /* which one; all zeros where none does */
    uint8_t outcome;      /* KOSPELNA_QUIET, _REFUSED, _FAILED, _SENT */
    uint8_t refusal;
    uint8_t cause;        /* failed: KOSPELNA_CAUSE_..; else 0 */
    uint16_t ticks;       /* sent, failed: ticks since begin; else 0 */
    uint16_t frames;      /* sent, failed: frames emitted since begin, begin's and the closing one included; else 0 */
} kospelna_sender_answer;

/* An Idle sender of gap G, timeout T and sending time M. Refused 1. */
kospelna_sender_made kospelna_sender_make(uint16_t gap, uint16_t timeout, uint16_t limit);

/* Begins a transfer: emits the announcement, or the SM_RM of a short message. Refused 3, then 2. */
kospelna_sender_answer kospelna_sender_begin(kospelna_sender sender, const uint8_t *message, size_t length);

/* Emits a message of 1 to 8 bytes as an SM_URM, in any phase; changes nothing and is not counted. Refused 2. */
kospelna_sender_answer kospelna_sender_post(kospelna_sender sender, const uint8_t *message, size_t length);

/* A tick. It is lent the begun message, the same bytes each time: only their length is checked, refused 4. An Idle sender's
 * tick does nothing and takes any bytes. */
kospelna_sender_answer kospelna_sender_tick(kospelna_sender sender, const uint8_t *message, size_t length);

/* A frame is heard: kind 2, 3, 4 or 6. Refused 6, then 7. */
kospelna_sender_answer kospelna_sender_hear(kospelna_sender sender, kospelna_frame frame);

/* ---- The summary ----
 *
 * How often each frame went out. Beside a sender: for each number 0 to 255, how many information frames with it have gone out
 * since the last accepted begin (0 is the announcement). The counts lie in KOSPELNA_COUNTS_LENGTH bytes that the caller owns
 * and lends to each call, all 0 at first: the word of number n is in bytes 2n and 2n + 1, its low byte first.
 *
 * Each of the four calls answers as the sender's own call does and keeps the counts. A sender has counts of its own: lend
 * these to all of its calls, make its calls here alone, as a plain begin or tick leaves the counts as they are, and copy
 * them where the sender is copied. A begin that is accepted clears them and then counts its own frame if the message is
 * long; short messages, posts, hearings and refused calls add nothing.
 *
 * From a report until the next accepted begin the counts are those of the transfer that it ended. Their sum is the
 * information frames among the report's `frames`: of a long transfer all but the NACK that went out with the report, if
 * one did (sum + emits = frames), of a short one none. No count is above the sending time M. Bytes that no calls made may
 * hold more; a count stays at 65535.
 *
 * These functions stand in a library of their own, target/staticlib/libkospelna_summary.a (crates/kospelna_summary_c),
 * so that each library's calls are compiled for themselves: link it beside libkospelna.a.
 */
enum { KOSPELNA_COUNTS_LENGTH = 512 };

/* Each is refused 5 where the counts' length is another, before all else; then as the sender's own call is. */
kospelna_sender_answer kospelna_summary_begin(kospelna_sender sender, const uint8_t *message, size_t length,
                                              uint8_t *counts, size_t counts_length);
kospelna_sender_answer kospelna_summary_post(kospelna_sender sender, const uint8_t *message, size_t length,
                                             uint8_t *counts, size_t counts_length);
kospelna_sender_answer kospelna_summary_tick(kospelna_sender sender, const uint8_t *message, size_t length,
                                             uint8_t *counts, size_t counts_length);
kospelna_sender_answer kospelna_summary_hear(kospelna_sender sender, kospelna_frame frame, uint8_t *counts,
                                             size_t counts_length);

typedef struct kospelna_count {
    uint8_t refusal;
    uint8_t number; /* the frame number that was asked for, or is named */
    uint16_t count; /* how often it went out */
} kospelna_count;

/* How often frames with this number went out. Refused 5. */
kospelna_count kospelna_summary_count(uint8_t number, const uint8_t *counts, size_t counts_length);

/* The number that went out most often, of equals the lowest; 0 where no information frame went out. Refused 5. */
kospelna_count kospelna_summary_most(const uint8_t *counts, size_t counts_length);

/* ---- The receiver ---- */

/* The phase of a receiver. Every other number is read as Idle. */
enum {
    KOSPELNA_RECEIVER_IDLE = 0, /* Idle, no delivery remembered */
    KOSPELNA_RECEIVER_DONE = 1, /* Idle, with the N and L last delivered */
    KOSPELNA_RECEIVER_OPEN = 2  /* a connection is open */
};

/* The timeouts in a row that an open connection counts, all of one type: the wait was one after an own LM_ACK, or one after an
 * accepted frame that drew none. Of the two the later decides, and a timeout whose predecessor was of the other type is
 * counted as the first. The third of one type fails the connection, KOSPELNA_CAUSE_TIMEOUTS; every other timeout emits an
 * LM_ACK, and so do a hold and a resume. Timeouts while held are not among them. Every other number is read as
 * NONE_AFTER_ACK. */
enum {
    KOSPELNA_MISSES_NONE_AFTER_ACK = 0,   /* none; since the last accepted frame, or at it, an LM_ACK has gone out */
    KOSPELNA_MISSES_ONE_AFTER_ACK = 1,    /* one after an LM_ACK */
    KOSPELNA_MISSES_TWO_AFTER_ACK = 2,    /* two after an LM_ACK: the next one fails */
    KOSPELNA_MISSES_NONE_AFTER_FRAME = 3, /* none; since the last accepted frame no LM_ACK has gone out */
    KOSPELNA_MISSES_ONE_AFTER_FRAME = 4   /* one after a frame; its LM_ACK has gone out, so that the next is of another type */
};

/* A receiver. Beside each field the phases that have it; in every other phase it is not read, and is written as 0. */
typedef struct kospelna_receiver {
    uint16_t timeout;  /* timeout T in ticks, its own: every phase */
    uint16_t capacity; /* capacity K in bytes: every phase */
    uint8_t window;    /* window C in frames: every phase */
    uint8_t phase;     /* KOSPELNA_RECEIVER_.. */
    uint16_t length;   /* L: Done, Open */
    uint8_t frames;    /* N: Done, Open */
    uint8_t expected;  /* e, the number of the frame expected: Open */
    uint8_t last;      /* w, the number of the window's last frame: Open */
    uint8_t misses;    /* KOSPELNA_MISSES_..: Open */
    uint16_t wait;     /* ticks waited: Open */
    bool held;         /* the transfer is held: Open */
    uint8_t holds;     /* timeouts that this connection has had while held: Open */
} kospelna_receiver;

typedef struct kospelna_receiver_made {
    uint8_t refusal;
    kospelna_receiver receiver; /* Idle, nothing delivered */
} kospelna_receiver_made;

typedef struct kospelna_receiver_answer {
    kospelna_receiver next;
    bool emits;           /* a frame goes out */
    kospelna_frame frame; /* which one; all zeros where none does */
    uint8_t outcome;      /* KOSPELNA_QUIET, _REFUSED, _DELIVERED, _FAILED, _DELIVERED_SHORT */
    uint8_t refusal;
    uint8_t cause;        /* failed: KOSPELNA_CAUSE_..; else 0 */
    uint16_t length;      /* delivered: L; else 0 */
    uint8_t bytes[8];     /* a short delivery: the message, filled to eight with 0xFF; it carries no length. Else zeros */
} kospelna_receiver_answer;

/* An Idle receiver of timeout T, window C and capacity K. Refused 1. */
kospelna_receiver_made kospelna_receiver_make(uint16_t timeout, uint16_t window, uint16_t capacity);

/* A tick; never refused. */
kospelna_receiver_answer kospelna_receiver_tick(kospelna_receiver receiver);

/* Holds the transfer, where the receiver is busy. Emits LM_ACK e - 1, 1, and every timeout while held emits it again. The
 * sender answers with that one frame, which the receiver has already; its sending time runs on, and so do its own timeouts.
 * Where the hold came at a window's end, each LM_ACK that it hears of the hold sets its misses back to 0; inside a window
 * they stay, and a sender whose timeout is the shorter fails in a long hold. Every information frame is ignored while held;
 * other kinds are heard as ever, and an LM_NACK ends the hold with the connection. A connection has
 * KOSPELNA_HELD_TIMEOUTS_MAX of these timeouts in all, however often it is resumed: where one more falls due it fails,
 * KOSPELNA_CAUSE_TIMEOUTS. Refused 13 where no connection is open, where frame 1 is expected, and where the transfer is
 * held already. */
kospelna_receiver_answer kospelna_receiver_hold(kospelna_receiver receiver);

/* Ends the hold: asks for a window from the frame expected on. Refused 13 where the transfer is not held. Neither hold nor
 * resume alters wait or the timeouts that are counted. From either on the wait is one after its LM_ACK: of `misses`,
 * NONE_AFTER_FRAME becomes NONE_AFTER_ACK. */
kospelna_receiver_answer kospelna_receiver_resume(kospelna_receiver receiver);

/* A frame is heard: kind 1, 3, 5 or 7. Message bytes go to their place in the buffer, the rest of it stays: lend the same
 * buffer until the delivery. It always has 1785 bytes, the longest message, whatever the capacity, so that every frame's
 * place is inside it. A short message is delivered in the answer, in any phase: an SM_RM emits its SM_ACK, an SM_URM
 * nothing.
 *
 * Refused 5, then 6, then 7, then 14. 14 is for frame N, where it is expected and the transfer is not held: a byte behind
 * the message in it is not 0xFF. The connection waits on as if nothing had come: its timeouts ask for frame N, which still
 * ends it once it comes filled with 0xFF, and the third of one type fails as ever. A last frame that is full of the message has
 * nothing to judge, and nothing is judged of frame N in any other state: before it is expected, while held, after the
 * delivery. */
kospelna_receiver_answer kospelna_receiver_hear(kospelna_receiver receiver, kospelna_frame frame, uint8_t *buffer,
                                                size_t length);

/* ---- Clean figures ----
 *
 * What a long transfer takes where nothing goes wrong: a session in which frames were lost or repeated is rated by how its
 * report stands against the clean figures of its length and gap. A session is clean if, with what `sent` asks above,
 *   - both ends were just made when the transfer began, and nothing was on the line;
 *   - no frame is on the line at a tick of either end, none was lost or repeated, and the transfer is not held;
 *   - the two ends tick by turns, either of them first;
 *   - both timeouts are above the gap, the sending time is above N times the gap, and the capacity is at least L.
 * Then the sender's one report is `sent`, with exactly these figures, and the receiver has delivered the message once.
 * Neither the window nor which end ticks first changes them.
 */
typedef struct kospelna_clean_figures {
    uint8_t refusal;
    uint16_t ticks;  /* ticks since begin: N times the gap */
    uint16_t frames; /* frames emitted by the sender since begin: N + 1, the announcement and the information frames */
} kospelna_clean_figures;

/* The figures of a message of this length at this gap. Refused 2: a length that does not go long, 9 to 1785; then 1: a gap
 * that no sender has. */
kospelna_clean_figures kospelna_clean_figures_of(uint32_t length, uint32_t gap);

/* ---- Identifier: 29 bits, P 3, EDP 1, DP 1, PF 8, PS 8, SA 8, the first in the highest bits ---- */

/* Addresses, and the identifiers of the version messages (001 tables 4 and 5). */
enum {
    KOSPELNA_CHARGER_ADDRESS = 0x56, /* SECC */
    KOSPELNA_VEHICLE_ADDRESS = 0xF4, /* EVCC */
    KOSPELNA_CHARGER_VERSION_IDENTIFIER = 0x0C38F456,
    KOSPELNA_VEHICLE_VERSION_IDENTIFIER = 0x0C3656F4
};

typedef struct kospelna_identifier_parts {
    uint32_t p;   /* priority, below 8 */
    uint32_t edp; /* extended data page, 0 */
    uint32_t dp;  /* data page, 0 */
    uint32_t pf;  /* below 256 */
    uint32_t ps;  /* below 256: the address of the end that is spoken to */
    uint32_t sa;  /* below 256: the address of the end that speaks */
} kospelna_identifier_parts;

typedef struct kospelna_identifier_joining {
    uint8_t refusal;
    uint32_t identifier;
} kospelna_identifier_joining;

typedef struct kospelna_identifier_splitting {
    uint8_t refusal;
    kospelna_identifier_parts parts;
} kospelna_identifier_splitting;

/* The identifier of parts, and the parts of an identifier. Both refuse 8. */
kospelna_identifier_joining kospelna_identifier_join(kospelna_identifier_parts parts);
kospelna_identifier_splitting kospelna_identifier_split(uint32_t identifier);

/* The constants above, as the proved code has them. */
uint32_t kospelna_charger_address(void);
uint32_t kospelna_vehicle_address(void);
uint32_t kospelna_charger_version_identifier(void);
uint32_t kospelna_vehicle_version_identifier(void);

/* ---- Version talk: 001 tables 6 to 9 ----
 *
 * A version is a number: major, minor and temporary version as its three bytes, compared as it stands. A talker's tick is
 * 1 ms. A message is eight bytes: CAN type 0, result, version (major, minor, temporary), the control-pilot byte, 0x01, 0xFF;
 * the last three are not judged when heard. A failure names version FF FF FF.
 *
 * What a charger and a vehicle guarantee together, if both were just made when the talk began, with nothing on the line, and
 * each hears only what the other says, in the order in which it was said, though messages may be lost or come again:
 *   - two that report agreed, be it in S2 or in S3, report one version: the highest of those that stand in both lists;
 *   - if one of them reports failed, the lists have no version in common, unless a talker had come to its limit (it fails at a
 *     tick then), was stopped or was greeted.
 * One that reports agreed alone names that version, too, but the other may still fail: the charger's last message may be lost,
 * and then the vehicle fails by its limit. A failure by the limit, a stop or a greeting says nothing of the lists.
 */
#define KOSPELNA_VERSION(major, minor, temporary) \
    ((uint32_t)(major) << 16 | (uint32_t)(minor) << 8 | (uint32_t)(temporary))

/* Sides, states and results. In making a talker and in a talker every other number is read as 0. */
enum { KOSPELNA_CHARGER = 0, KOSPELNA_VEHICLE = 1 };
enum {
    KOSPELNA_TALKER_S0 = 0, /* start */
    KOSPELNA_TALKER_S1 = 1, /* negotiating */
    KOSPELNA_TALKER_S2 = 2, /* agreed on a version below 2.0.0 */
    KOSPELNA_TALKER_S3 = 3, /* agreed */
    KOSPELNA_TALKER_S4 = 4, /* failed */
    KOSPELNA_TALKER_S5 = 5  /* left: stopped */
};
enum { KOSPELNA_VERDICT_CONTINUE = 0, KOSPELNA_VERDICT_SUCCESS = 1, KOSPELNA_VERDICT_FAILURE = 2 };

/* Versions in a list; T1, the ticks from one message to the next; Tout0, the ticks after which an end fails. */
enum { KOSPELNA_VERSIONS_MAX = 8, KOSPELNA_TALKER_PERIOD = 50, KOSPELNA_TALKER_LIMIT = 15000 };

/* The versions that an end supports. */
typedef struct kospelna_versions {
    uint32_t count;      /* 1 to 8 */
    uint32_t numbers[8]; /* the first count of them, strictly rising, below 2^24; the rest are not judged */
} kospelna_versions;

typedef struct kospelna_version_listing {
    uint8_t refusal;
    kospelna_versions versions;
} kospelna_version_listing;

typedef struct kospelna_version_message {
    uint8_t verdict;  /* the result: KOSPELNA_VERDICT_.. */
    uint32_t version; /* its low three bytes are written */
    uint8_t control;  /* the control-pilot byte */
} kospelna_version_message;

/* The eight bytes of a message: what goes out and what is heard. */
typedef struct kospelna_version_bytes {
    uint8_t bytes[8];
} kospelna_version_bytes;

typedef struct kospelna_version_writing {
    uint8_t refusal;
    kospelna_version_bytes bytes;
} kospelna_version_writing;

typedef struct kospelna_version_reading {
    uint8_t refusal;
    kospelna_version_message message;
} kospelna_version_reading;

typedef struct kospelna_talker {
    uint8_t side;               /* KOSPELNA_CHARGER, _VEHICLE */
    kospelna_versions versions; /* what it supports */
    uint8_t control;            /* the control-pilot byte of its messages */
    uint8_t state;              /* KOSPELNA_TALKER_S0 to _S5 */
    uint32_t place;             /* Ns: the place in numbers, from 0, of the version that its messages name */
    uint8_t verdict;            /* the result that its messages carry */
    uint16_t period;            /* ticks of T1 */
    uint16_t age;               /* ticks of Tout0 */
    bool timing;                /* T1 runs on in the vehicle's S3 */
} kospelna_talker;

typedef struct kospelna_talker_made {
    uint8_t refusal;
    kospelna_talker talker; /* in S0, at its highest version */
} kospelna_talker_made;

typedef struct kospelna_talker_answer {
    kospelna_talker next;
    bool emits;                   /* a message goes out */
    kospelna_version_bytes bytes; /* which one: hand it to the other side's hearing; all zeros where none does */
    uint8_t outcome;              /* KOSPELNA_QUIET, _REFUSED, _FAILED, _AGREED, _LEFT */
    uint8_t refusal;
    uint32_t version;             /* agreed: on this one; else 0 */
} kospelna_talker_answer;

/* The list in length bytes, three for each version, major first. Refused 11. */
kospelna_version_listing kospelna_version_list(const uint8_t *bytes, size_t length);

/* The bytes of a message. Refused 10: a result above 2. */
kospelna_version_writing kospelna_version_message_write(kospelna_version_message message);

/* The message of eight bytes. Refused 10: CAN type not 0, or a result above 2. */
kospelna_version_reading kospelna_version_message_read(kospelna_version_bytes bytes);

/* A talker of a side, with a list and a control-pilot byte. Refused 11. */
kospelna_talker_made kospelna_talker_make(uint8_t side, kospelna_versions versions, uint8_t control);

/* The physical connection is complete. S0 emits its first message and is S1. */
kospelna_talker_answer kospelna_talker_connect(kospelna_talker talker);

/* One millisecond passes. S1 emits every 50 and fails after 15000; the vehicle's S3 emits every 50. */
kospelna_talker_answer kospelna_talker_tick(kospelna_talker talker);

/* The other side's message is heard. It emits where S2, S3 or S4 is entered. Refused 10. */
kospelna_talker_answer kospelna_talker_hear(kospelna_talker talker, kospelna_version_bytes bytes);

/* A fault, or the other side opens its switch: S1 is left. */
kospelna_talker_answer kospelna_talker_stop(kospelna_talker talker);

/* The old protocol's greeting (CHM) is heard: a vehicle in S0 or S1 fails. */
kospelna_talker_answer kospelna_talker_greet(kospelna_talker talker);

/* The charger's supported functions are heard: the vehicle's S3 falls silent. */
kospelna_talker_answer kospelna_talker_functions_heard(kospelna_talker talker);

/* ---- Parameter groups: 001 tables H.2 to H.11 ----
 *
 * code  group, and who sends it               first            second           third        fourth
 * 0x71  the charger is ready                  ready
 * 0x72  the vehicle is ready                  ready            its voltage
 * 0x73  what the vehicle demands              voltage          current          mode
 * 0x74  the vehicle's charging                state of charge  remaining time
 * 0x75  what the charger can give             current          reason
 * 0x76  the charger's charging                voltage          current
 * 0x77  the vehicle's battery                 highest cell     lowest cell      highest      lowest temperature
 * 0x78  the charger pauses                    pause
 * 0x79  the vehicle pauses                    pause
 *
 * A group is a message of eight bytes: 0x78 and 0x79 are reliable and go by kospelna_sender_begin, the others by
 * kospelna_sender_post. A short delivery's `bytes` are what kospelna_group_read takes.
 */
enum {
    KOSPELNA_GROUP_CHARGER_READY = 0x71,
    KOSPELNA_GROUP_VEHICLE_READY = 0x72,
    KOSPELNA_GROUP_VEHICLE_DEMAND = 0x73,
    KOSPELNA_GROUP_VEHICLE_CHARGING = 0x74,
    KOSPELNA_GROUP_CHARGER_OUTPUT = 0x75,
    KOSPELNA_GROUP_CHARGER_CHARGING = 0x76,
    KOSPELNA_GROUP_VEHICLE_BATTERY = 0x77,
    KOSPELNA_GROUP_CHARGER_PAUSE = 0x78,
    KOSPELNA_GROUP_VEHICLE_PAUSE = 0x79,
    KOSPELNA_GROUP_LENGTH = 8 /* the bytes that a group is read from and written to */
};

/* The kinds of fields, with the values that each takes. */
enum {
    KOSPELNA_FIELD_NONE = 0,        /* 0: the group has no such field */
    KOSPELNA_FIELD_READY = 1,       /* 0 not ready, 1 ready */
    KOSPELNA_FIELD_VOLTAGE = 2,     /* 0 to 65000: 0.1 V each */
    KOSPELNA_FIELD_CURRENT = 3,     /* 0 to 65000: 0.1 A each */
    KOSPELNA_FIELD_MODE = 4,        /* KOSPELNA_MODE_.. */
    KOSPELNA_FIELD_CHARGE = 5,      /* 0 to 1000: 0.1 % each */
    KOSPELNA_FIELD_TIME = 6,        /* 0 to 65000: 1 min each */
    KOSPELNA_FIELD_REASON = 7,      /* KOSPELNA_REASON_.. */
    KOSPELNA_FIELD_CELL = 8,        /* 0 to 65000: 0.01 V each; KOSPELNA_CELL_.. */
    KOSPELNA_FIELD_TEMPERATURE = 9, /* 0 to 250: 1 degree Celsius each, from -50 on; KOSPELNA_TEMPERATURE_.. */
    KOSPELNA_FIELD_PAUSE = 10       /* KOSPELNA_RESUME, KOSPELNA_PAUSE */
};
enum { KOSPELNA_MODE_CURRENT = 1, KOSPELNA_MODE_VOLTAGE = 2 }; /* constant current, constant voltage */
enum { KOSPELNA_REASON_NONE = 0, KOSPELNA_REASON_GRID = 1, KOSPELNA_REASON_CHARGER = 2, KOSPELNA_REASON_OTHER = 0xFF };
enum { KOSPELNA_CELL_ABNORMAL = 0xFFFE, KOSPELNA_CELL_INVALID = 0xFFFF };
enum { KOSPELNA_TEMPERATURE_ABNORMAL = 0xFE, KOSPELNA_TEMPERATURE_INVALID = 0xFF };
enum { KOSPELNA_RESUME = 0x00, KOSPELNA_PAUSE = 0xAA };

/* A group's code and the values of its fields in their order, 0 where it has none. */
typedef struct kospelna_group {
    uint8_t code; /* KOSPELNA_GROUP_.. */
    uint16_t first;
    uint16_t second;
    uint16_t third;
    uint16_t fourth;
} kospelna_group;

typedef struct kospelna_group_reading {
    uint8_t refusal;
    kospelna_group group;
} kospelna_group_reading;

typedef struct kospelna_group_writing {
    uint8_t refusal;
} kospelna_group_writing;

/* A row of the table of groups. */
typedef struct kospelna_group_row {
    uint8_t code;
    size_t length; /* in bytes, the code's with them; 0xFF follows to the eighth */
    uint8_t side;  /* the side that sends it: KOSPELNA_CHARGER, _VEHICLE */
    bool reliable; /* its receipt is confirmed */
    size_t first;  /* the kinds of its fields: KOSPELNA_FIELD_.. */
    size_t second;
    size_t third;
    size_t fourth;
} kospelna_group_row;

typedef struct kospelna_group_finding {
    uint8_t refusal;
    kospelna_group_row row;
} kospelna_group_finding;

/* The group in eight bytes. Refused 9: length, code or filler; then 10: a value. */
kospelna_group_reading kospelna_group_read(const uint8_t *bytes, size_t length);

/* A group into eight bytes, 0xFF after its own. Refused 9: length or code; then 10: a value, a field that it has not being
 * 0. A refusal leaves the bytes. */
kospelna_group_writing kospelna_group_write(kospelna_group group, uint8_t *bytes, size_t length);

/* The row of a code. Refused 9. */
kospelna_group_finding kospelna_group_find(uint8_t code);

#ifdef __cplusplus
}
#endif

#endif
