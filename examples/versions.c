/* The version both settle on: a charger and a vehicle that share two versions, then two that share none, over a line that
 * loses one message of each talk and repeats one. Prints every message as it goes out and both reports, the ticks since both
 * were connected first, and then the pair with what a table has beside it; a refused call stops it.
 *   cc -std=c11 -Iinclude examples/versions.c target/staticlib/libkospelna.a -o versions */
#include "kospelna.h"

#include <assert.h>
#include <stdio.h>

static const char *const names[] = {[KOSPELNA_CHARGER] = "charger", [KOSPELNA_VEHICLE] = "vehicle"};
static kospelna_talker talkers[2];
static kospelna_talker_answer reports[2];
static int tick;

/* The line: what a side says joins the end of its list, and the other side hears the first of it. A talk's messages are
 * counted from 1. The lost one does not join; the repeated one is heard and is still the first. */
enum { PLACES = 8 };
struct message { unsigned number; kospelna_version_bytes bytes; };
static struct { struct message messages[PLACES]; unsigned front, end; } said[2];
static unsigned carried, lost, repeated;

static void carry(int side, kospelna_version_bytes bytes)
{
    static const char *const results[] = {"continue", "success", "failure"};
    carried++;
    printf("%d %s: %s", tick, names[side], results[bytes.bytes[1]]);
    for (int i = 0; i < 8; i++)
        printf(" %02X", bytes.bytes[i]);
    printf(carried == lost ? ", lost\n" : carried == repeated ? ", repeated\n" : "\n");
    if (carried != lost)
        said[side].messages[said[side].end++ % PLACES] = (struct message){carried, bytes};
}

/* A version's three numbers, for printf. */
#define VERSION "%d.%d.%d"
#define NUMBERS(version) (int)((version) >> 16), (int)((version) >> 8 & 0xFF), (int)((version) & 0xFF)

static void did(int side, kospelna_talker_answer a)
{
    assert(a.refusal == KOSPELNA_REFUSAL_NONE);
    talkers[side] = a.next;
    if (a.emits)
        carry(side, a.bytes);
    if (a.outcome != KOSPELNA_QUIET)
        reports[side] = a;
    if (a.outcome == KOSPELNA_FAILED)
        printf("%d %s: failed\n", tick, names[side]);
    else if (a.outcome == KOSPELNA_AGREED)
        printf("%d %s: agreed on " VERSION ", S%d\n", tick, names[side], NUMBERS(a.version), a.next.state);
}

/* Both hear until nothing is on the line, the vehicle first; whether one of them is still to report. */
static bool hear(void)
{
    while (said[0].front != said[0].end || said[1].front != said[1].end) {
        const int by = said[KOSPELNA_CHARGER].front != said[KOSPELNA_CHARGER].end ? KOSPELNA_CHARGER : KOSPELNA_VEHICLE;
        const struct message first = said[by].messages[said[by].front % PLACES];
        if (first.number == repeated)
            repeated = 0;
        else
            said[by].front++;
        did(1 - by, kospelna_talker_hear(talkers[1 - by], first.bytes));
    }
    return talkers[0].state == KOSPELNA_TALKER_S1 || talkers[1].state == KOSPELNA_TALKER_S1;
}

/* A row of a table. Both reported without a limit, a stop or a greeting: two that agreed name one version, the highest that
 * they share, and one that failed shares none with the other. */
static void print_row(const kospelna_versions lists[2])
{
    for (int side = 0; side < 2; side++) {
        printf(side == 0 ? "%s" : ", %s", names[side]);
        for (uint32_t i = 0; i < lists[side].count; i++)
            printf(" " VERSION, NUMBERS(lists[side].numbers[i]));
    }
    if (reports[0].outcome == KOSPELNA_AGREED && reports[1].outcome == KOSPELNA_AGREED)
        printf(": " VERSION "\n", NUMBERS(reports[0].version));
    else
        printf(": none in common\n");
}

static void talk(const kospelna_versions lists[2], unsigned losing, unsigned repeating)
{
    carried = 0, lost = losing, repeated = repeating, tick = 0;
    for (int side = 0; side < 2; side++) {
        const kospelna_talker_made made = kospelna_talker_make((uint8_t)side, lists[side], (uint8_t)(side + 1));
        assert(made.refusal == KOSPELNA_REFUSAL_NONE);
        did(side, kospelna_talker_connect(made.talker));
    }
    while (hear()) {
        tick++;
        for (int side = 0; side < 2; side++) {
            const kospelna_talker_answer a = kospelna_talker_tick(talkers[side]);
            assert(a.outcome == KOSPELNA_QUIET); /* else the limit is met, and nothing is known of the lists */
            did(side, a);
        }
    }
    print_row(lists);
}

int main(void)
{
    talk((kospelna_versions[]){{3, {0x010100, 0x020000, 0x020200}}, {4, {0x010100, 0x020000, 0x020100, 0x020300}}}, 4, 10);
    talk((kospelna_versions[]){{2, {0x010100, 0x020100}}, {2, {0x020000, 0x020200}}}, 1, 6);
}
